"""Devices that are reached by TCP and that come, go or hang as a test wants."""
import contextlib
import socket
import threading

from device import packet
from model_device import CNXN, HEADER, IDENTITY, MOST_OF_PACKET, VERSION, Link
from server import free_port

SMALL = 1 << 18

def narrow(connection):
    """Makes the buffers of a socket small, before it is connected, so that little is on its way."""
    for option in (socket.SO_SNDBUF, socket.SO_RCVBUF):
        connection.setsockopt(socket.SOL_SOCKET, option, SMALL)


class Listening:
    """A device at one port, in this process. Each connection is served by a thread."""

    def __init__(self):
        self.port, self.accepted = free_port(), 0
        self.serial = f"127.0.0.1:{self.port}"
        self.connections = []

    def __enter__(self):
        self.start()
        return self

    def __exit__(self, *_):
        self.stop()

    def start(self):
        self.listener = socket.create_server(("127.0.0.1", self.port))
        self.prepare(self.listener)
        self.accepting = threading.Thread(target=self.accept, daemon=True)
        self.accepting.start()

    def prepare(self, listener):
        """Sets options that connections take over."""

    def accept(self):
        with contextlib.suppress(OSError):
            while True:
                connection, _ = self.listener.accept()
                self.accepted += 1
                self.connections.append(connection)
                threading.Thread(target=self.serve_quietly, args=(connection,), daemon=True).start()

    def serve_quietly(self, connection):
        with contextlib.suppress(OSError, ValueError):
            self.serve(connection)

    def stop(self):
        """Disconnects. Nothing listens at the port any more when this returns."""
        self.listener.shutdown(socket.SHUT_RDWR)
        self.accepting.join()
        self.listener.close()
        for connection in self.connections:
            with contextlib.suppress(OSError):
                connection.shutdown(socket.SHUT_RDWR)
        self.connections.clear()


class Restartable(Listening):
    """A model device. Its files stay if it is stopped and started again."""

    def __init__(self):
        super().__init__()
        self.files = {}

    def serve(self, connection):
        Link(connection, self.files).serve()


class Closing(Listening):
    """A device that closes each connection at once."""

    def serve(self, connection):
        connection.close()


class Hanging(Listening):
    """A device that never says anything and never reads."""

    def serve(self, connection):
        """Nothing: the connection stays open."""


class Flooding(Listening):
    """A device that announces itself and reads no more. `link` is its connection once it did."""

    def __init__(self):
        super().__init__()
        self.link, self.is_online = None, threading.Event()

    def prepare(self, listener):
        narrow(listener)

    def serve(self, connection):
        length = HEADER.unpack(connection.recv(HEADER.size, socket.MSG_WAITALL))[3]
        connection.recv(length, socket.MSG_WAITALL)
        connection.sendall(packet(CNXN.to_bytes(4, "little"), VERSION, MOST_OF_PACKET, IDENTITY))
        self.link = connection
        self.is_online.set()
