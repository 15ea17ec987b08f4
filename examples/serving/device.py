"""A device that is reached by TCP and speaks adb's packets: it takes each stream, and is cut off when it is told."""
import socket
import struct
import threading

HEADER = struct.Struct("<6I")


def word(command):
    return int.from_bytes(command, "little")


def packet(command, first, second, payload=b""):
    kind = word(command)
    head = HEADER.pack(kind, first, second, len(payload), sum(payload) & 0xFFFFFFFF, kind ^ 0xFFFFFFFF)
    return head + payload


class CutDevice:
    """It acknowledges what it is written, answers nothing, and cuts its connection behind so many writes."""

    def __init__(self, writes):
        self.writes = writes
        self.listener = socket.create_server(("127.0.0.1", 0))
        self.port = self.listener.getsockname()[1]
        self.thread = threading.Thread(target=self.serve, daemon=True)
        self.thread.start()

    def serve(self):
        link, _ = self.listener.accept()
        self.listener.close()
        with link, link.makefile("rb") as coming:
            while head := coming.read(HEADER.size):
                kind, first, second, length, _, _ = HEADER.unpack(head)
                payload = coming.read(length)
                if kind == word(b"CNXN"):
                    identity = b"device::ro.product.model=Cut;features=shell_v2;"
                    link.sendall(packet(b"CNXN", 0x01000001, 65_536, identity))
                elif kind == word(b"OPEN"):
                    link.sendall(packet(b"OKAY", 7, first))
                elif kind == word(b"WRTE"):
                    self.writes -= 1
                    if self.writes < 0:
                        return
                    link.sendall(packet(b"OKAY", second, first))
                del payload
