"""A device that servers reach by TCP: a shell, files in memory and an echo, as fast as Python allows.

    python3 examples/serving/model_device.py PORT

It takes any number of links, with the same files. Its streams have one write out at a time each way.
"""
import socket
import stat
import struct
import sys
import threading
from collections import deque

from client import EXIT, MOST_OF_CHUNK, STDERR, STDOUT
from device import HEADER, word

VERSION = 0x01000001
MOST_OF_PACKET = 1 << 20
MOST_HELD = 1 << 20
IDENTITY = b"device::ro.product.name=model;ro.product.model=Model;ro.product.device=model;features=shell_v2"
CNXN, OPEN, OKAY, WRTE, CLSE = (word(name) for name in (b"CNXN", b"OPEN", b"OKAY", b"WRTE", b"CLSE"))


class File:
    """What was sent to a path."""

    def __init__(self, mode, mtime, pieces):
        self.mode, self.mtime, self.pieces = mode, mtime, pieces
        self.size = sum(map(len, pieces))
        self.reply = None

    def received(self):
        """The reply to RECV."""
        if self.reply is None:
            content, parts = memoryview(b"".join(self.pieces)), []
            for at in range(0, self.size, MOST_OF_CHUNK):
                chunk = content[at : at + MOST_OF_CHUNK]
                parts += [b"DATA", struct.pack("<I", len(chunk)), chunk]
            self.reply = b"".join([*parts, b"DONE", bytes(4)])
        return self.reply


class Coming:
    """What came of a stream and is not taken yet. A service waits in `yield` for the next piece."""

    def __init__(self):
        self.piece = memoryview(b"")

    def some(self, most):
        """One byte or more, at most so many."""
        while not self.piece:
            self.piece = memoryview((yield))
        taken, self.piece = self.piece[:most], self.piece[most:]
        return taken

    def exactly(self, count):
        taken = b""
        while len(taken) < count:
            taken += yield from self.some(count - len(taken))
        return taken


def entry_of(files, path):
    """The mode, size and time of a file, or of a directory, which is there where files are below it."""
    if path in files:
        return files[path].mode, files[path].size, files[path].mtime
    below = path.rstrip("/") + "/"
    is_directory = any(other.startswith(below) for other in files)
    return (stat.S_IFDIR | 0o755 if is_directory else 0), 0, 0


def listed(files, path):
    """The reply to LIST."""
    below = path.rstrip("/") + "/"
    names = sorted({other[len(below) :].split("/")[0] for other in files if other.startswith(below)})
    rows = [b"DENT" + struct.pack("<4I", *entry_of(files, below + name), len(name)) + name.encode() for name in names]
    return b"".join([*rows, b"DONE", bytes(16)])


def received(files, path):
    """A file, or that there is none."""
    if path in files:
        return files[path].received()
    return b"FAIL" + struct.pack("<I", 12) + b"no such file"


def send(files, words, coming):
    """Takes a file, and answers that it is there."""
    path, mode = words.rsplit(",", 1)
    pieces = []
    while True:
        kind, left = struct.unpack("<4sI", (yield from coming.exactly(8)))
        if kind == b"DONE":
            files[path] = File(int(mode), left, pieces)
            return b"OKAY" + bytes(4)
        while left:
            pieces.append((yield from coming.some(left)))
            left -= len(pieces[-1])


def sync(files, _, write):
    coming = Coming()
    while True:
        kind, length = struct.unpack("<4sI", (yield from coming.exactly(8)))
        words = (yield from coming.exactly(length)).decode()
        if kind == b"SEND":
            write((yield from send(files, words, coming)))
        elif kind == b"RECV":
            write(received(files, words))
        elif kind == b"STAT":
            write(b"STAT" + struct.pack("<3I", *entry_of(files, words)))
        elif kind == b"LIST":
            write(listed(files, words))
        else:
            return


def ran(command):
    """What a command writes to its two outputs, and its status."""
    program, *words = command.split() or [""]
    if program == "echo":
        return " ".join(words).encode() + b"\n", b"", 0
    if program == "exit":
        return b"", b"", int(words[0])
    return b"", f"{program}: not found\n".encode(), 127


def shell(_, command, write):
    stdout, stderr, _ = ran(command)
    write(stdout + stderr)
    yield from ()


def shell_v2(_, command, write):
    stdout, stderr, status = ran(command)
    parts = [(STDOUT, stdout), (STDERR, stderr), (EXIT, bytes([status]))]
    write(b"".join(struct.pack("<BI", kind, len(part)) + part for kind, part in parts if part))
    yield from ()


def echo(_, __, write):
    while True:
        write((yield))


def service_of(request):
    """The service that a request names, and the words behind its name."""
    name, _, words = request.rstrip(b"\0").decode().partition(":")
    name, *options = name.split(",")
    services = {"sync": sync, "echo": echo, "shell": shell_v2 if "v2" in options else shell}
    return services.get(name), words


class Stream:
    """A stream of a link. A write of the host is answered once the service has taken it and little waits to go out."""

    def __init__(self, link, own, other):
        self.link, self.own, self.other = link, own, other
        self.waiting, self.held = deque(), 0
        self.is_written, self.is_owed, self.is_over = False, False, False

    def serve(self, service, words):
        self.service = service(self.link.files, words, self.write)
        self.take(None)

    def write(self, piece):
        if piece:
            self.waiting.append(memoryview(piece))
            self.held += len(piece)

    def take(self, piece):
        try:
            self.service.send(piece)
        except StopIteration:
            self.is_over = True
        self.go_on()

    def go_on(self):
        """Answers and writes what can be, and closes what is over."""
        if self.is_owed and self.held < MOST_HELD:
            self.is_owed = False
            self.link.tell(OKAY, self.own, self.other)
        if self.waiting and not self.is_written:
            piece = self.waiting.popleft()
            if len(piece) > self.link.most:
                self.waiting.appendleft(piece[self.link.most :])
                piece = piece[: self.link.most]
            self.held -= len(piece)
            self.is_written = True
            self.link.tell(WRTE, self.own, self.other, piece)
        if self.is_over and not self.waiting and not self.is_written:
            self.link.tell(CLSE, self.own, self.other)
            del self.link.streams[self.own]


class Link:
    """The connection of a server. What is told in answer to a packet goes out at once, together."""

    def __init__(self, connection, files):
        self.connection, self.files = connection, files
        self.streams, self.drawn = {}, 0
        self.told, self.most = [], MOST_OF_PACKET

    def tell(self, kind, first, second, payload=b""):
        self.told.append(HEADER.pack(kind, first, second, len(payload), 0, kind ^ 0xFFFFFFFF))
        if payload:
            self.told.append(payload)

    def serve(self):
        self.connection.setsockopt(socket.IPPROTO_TCP, socket.TCP_NODELAY, 1)
        with self.connection, self.connection.makefile("rb", MOST_OF_CHUNK) as coming:
            while len(head := coming.read(HEADER.size)) == HEADER.size:
                kind, first, second, length, _, _ = HEADER.unpack(head)
                self.handle(kind, first, second, coming.read(length) if length else b"")
                self.flush()

    def flush(self):
        if self.told:
            sent = self.connection.sendmsg(self.told)
            if sent < sum(map(len, self.told)):
                self.connection.sendall(b"".join(self.told)[sent:])
            self.told = []

    def handle(self, kind, first, second, payload):
        if kind == CNXN:
            self.streams = {}
            self.most = min(second, MOST_OF_PACKET)
            self.tell(CNXN, VERSION, MOST_OF_PACKET, IDENTITY)
        elif kind == OPEN:
            self.open(first, payload)
        elif stream := self.streams.get(second):
            self.go_on(stream, kind, payload)

    def open(self, other, request):
        service, words = service_of(request)
        if not service:
            self.tell(CLSE, 0, other)
            return
        self.drawn += 1
        self.streams[self.drawn] = Stream(self, self.drawn, other)
        self.tell(OKAY, self.drawn, other)
        self.streams[self.drawn].serve(service, words)

    def go_on(self, stream, kind, payload):
        if kind == WRTE:
            stream.is_owed = True
            stream.take(payload)
        elif kind == OKAY:
            stream.is_written = False
            stream.go_on()
        elif kind == CLSE:
            del self.streams[stream.own]


def main(port):
    files = {}
    with socket.create_server(("127.0.0.1", port)) as listener:
        while True:
            connection, _ = listener.accept()
            threading.Thread(target=Link(connection, files).serve, daemon=True).start()


if __name__ == "__main__":
    if len(sys.argv) != 2:
        sys.exit(__doc__)
    main(int(sys.argv[1]))
