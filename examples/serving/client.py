"""A client of an adb server, in the words of adb's SERVICES.TXT, SYNC.TXT and shell protocol."""
import socket
import struct
import time

STDOUT, STDERR, EXIT, CLOSE_STDIN = 1, 2, 3, 4
MOST_OF_CHUNK = 65_536


class Refused(Exception):
    """The server answered FAIL, with this text."""


class Client:
    """One connection. Each request of a connection is answered by OKAY, or by FAIL, which raises Refused."""

    def __init__(self, port, timeout=20):
        self.socket = socket.create_connection(("127.0.0.1", port), timeout)
        self.socket.setsockopt(socket.IPPROTO_TCP, socket.TCP_NODELAY, 1)

    def __enter__(self):
        return self

    def __exit__(self, *_):
        self.socket.close()

    def send(self, piece):
        self.socket.sendall(piece)

    def take(self, count):
        """Exactly so many bytes."""
        got = bytearray()
        while len(got) < count:
            piece = self.socket.recv(count - len(got))
            if not piece:
                raise EOFError(f"the connection ended after {len(got)} of {count} bytes")
            got += piece
        return bytes(got)

    def rest(self):
        """All bytes up to the end of the connection."""
        pieces = []
        while piece := self.socket.recv(1 << 20):
            pieces.append(piece)
        return b"".join(pieces)

    def string(self):
        return self.take(int(self.take(4), 16))

    def ask(self, request):
        self.send(f"{len(request):04x}{request}".encode())
        self.answered()

    def answered(self):
        status = self.take(4)
        if status != b"OKAY":
            raise Refused(self.string().decode() if status == b"FAIL" else f"answered {status!r}")

    def select(self, serial, service):
        """A stream of a service of the device of a serial, or of the only one."""
        self.ask(f"host:transport:{serial}" if serial else "host:transport-any")
        self.ask(service)
        return self


def host(port, request):
    """What a host request is answered with: its string, or nothing."""
    with Client(port) as client:
        client.ask(request)
        left = client.rest()
        return left[4:].decode() if left else ""


def shell(port, serial, command):
    """What a command writes, and its status."""
    with Client(port) as client:
        client.select(serial, f"shell,v2,raw:{command}")
        client.send(struct.pack("<BI", CLOSE_STDIN, 0))
        written, status = {STDOUT: b"", STDERR: b""}, None
        while status is None:
            kind, length = struct.unpack("<BI", client.take(5))
            payload = client.take(length)
            if kind == EXIT:
                status = payload[0]
            else:
                written[kind] += payload
        return written[STDOUT], written[STDERR], status


def ask_sync(client, kind, text):
    client.send(kind + struct.pack("<I", len(text)) + text)


def sync_status(client):
    kind, length = struct.unpack("<4sI", client.take(8))
    if kind == b"FAIL":
        raise Refused(client.take(length).decode())
    if kind != b"OKAY":
        raise Refused(f"answered {kind!r}")


def push(port, serial, path, payload, mode=0o100644, mtime=1):
    with Client(port) as client:
        client.select(serial, "sync:")
        ask_sync(client, b"SEND", f"{path},{mode}".encode())
        for at in range(0, len(payload), MOST_OF_CHUNK):
            ask_sync(client, b"DATA", payload[at : at + MOST_OF_CHUNK])
        client.send(b"DONE" + struct.pack("<I", mtime))
        sync_status(client)


def pull(port, serial, path, late=0):
    """A file. So many seconds pass before anything of it is read."""
    with Client(port) as client:
        client.select(serial, "sync:")
        ask_sync(client, b"RECV", path.encode())
        time.sleep(late)
        pieces = []
        while True:
            kind, length = struct.unpack("<4sI", client.take(8))
            if kind == b"DONE":
                return b"".join(pieces)
            if kind == b"FAIL":
                raise Refused(client.take(length).decode())
            pieces.append(client.take(length))


def listing(port, serial, path):
    """The entries of a directory: their names, modes and sizes."""
    with Client(port) as client:
        client.select(serial, "sync:")
        ask_sync(client, b"LIST", path.encode())
        entries = []
        while True:
            kind, mode, size, _mtime, length = struct.unpack("<4s4I", client.take(20))
            if kind == b"DONE":
                return entries
            entries.append((client.take(length).decode(), mode, size))
