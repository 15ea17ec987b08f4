"""Servers whose end and whose record are checked, and what clients ask them."""
import contextlib
import resource
import socket
import subprocess
import sys
import tempfile
import time

from checks import check
from client import Client, Refused, host
from recorded import entries
from server import Server, is_listed, until

VERSION = "0029"
ONE = "model-1"
PATIENCE = 20
RESTING = 0.01  # processor seconds in a second of a server that waits
IS_STRICT = "--strict" in sys.argv


def is_within(took, seconds):
    """Whether a step took less than so many seconds, or, unless times are strict, than a loaded machine may take."""
    return took < (seconds if IS_STRICT else PATIENCE)


@contextlib.contextmanager
def descriptors(count):
    """Limits the descriptors of a process that is started in this context."""
    soft, hard = resource.getrlimit(resource.RLIMIT_NOFILE)
    resource.setrlimit(resource.RLIMIT_NOFILE, (count, hard))
    try:
        yield
    finally:
        resource.setrlimit(resource.RLIMIT_NOFILE, (soft, hard))


@contextlib.contextmanager
def serving(program, *words, most=None, recorded=None):
    """A server with a model device, these words, and at most so many descriptors. If it still runs at the end it is killed.
    Its end and its record are checked; `recorded` is called with the record."""
    with contextlib.ExitStack() as stack:
        record = stack.enter_context(tempfile.TemporaryFile())
        with descriptors(most) if most else contextlib.nullcontext():
            server = stack.enter_context(Server(program, "--device", ONE, *words, record=record))
        until(lambda: is_listed(server.port, ONE), PATIENCE)
        yield server
        if server.process.poll() is None:
            is_killed(server)
        record.seek(0)
        history = record.read()
        is_legal(program, history)
        if recorded:
            recorded(history)


def ended(server):
    """The status of a server that ends, and how many seconds that took; None if it does not end."""
    began = time.time()
    try:
        return server.ended(PATIENCE), time.time() - began
    except subprocess.TimeoutExpired:
        return None, time.time() - began


def kill(server):
    """Asks a server to end, and returns its status and how many seconds that took. It may be too late to be answered."""
    began = time.time()
    with contextlib.suppress(OSError, EOFError, ValueError):
        host(server.port, "host:kill")
    status, _ = ended(server)
    return status, time.time() - began


def is_killed(server, status=0):
    ends, took = kill(server)
    check("a kill ends the server within two seconds", ends == status and is_within(took, 2), f"status {ends} in {took:.2f} s")


def is_legal(program, record):
    judged = subprocess.run([program, "check"], input=record, capture_output=True, check=False)
    told = (judged.stdout or judged.stderr).decode().strip()
    check("the record is legal, with as many entries as it has", told == f"legal {len(entries(record))}", told)


def is_answered(port, seconds=PATIENCE):
    """Whether a request is answered in time."""
    try:
        with Client(port, seconds) as client:
            client.ask("host:version")
            return client.string() == VERSION.encode()
    except (OSError, EOFError, Refused):
        return False


def forward(port, serial=ONE):
    """The port of a new forward to an echo."""
    with Client(port) as asking:
        asking.ask(f"host-serial:{serial}:forward:tcp:0;echo:")
        asking.answered()
        return int(asking.string())


def kill_forward(port, bound, serial=ONE):
    with Client(port) as asking:
        asking.ask(f"host-serial:{serial}:killforward:tcp:{bound}")
        asking.answered()


def comes_back(port):
    """Whether the echo at the port of a forward answers."""
    try:
        with socket.create_connection(("127.0.0.1", port), PATIENCE) as through:
            through.sendall(b"hello")
            return through.recv(5) == b"hello"
    except OSError:
        return False


def echoed(port, serial):
    """Whether an echo of a device answers."""
    try:
        with Client(port) as echo:
            echo.select(serial, "echo:").send(b"hello")
            return echo.take(5) == b"hello"
    except (OSError, EOFError, Refused):
        return False


class Silent:
    """Connections that send nothing. `closed` is how many of them the server has closed, once it closed `expected`."""

    def __init__(self, port, count, expected=0):
        self.all = [socket.create_connection(("127.0.0.1", port), PATIENCE) for _ in range(count)]
        time.sleep(0.5)
        until(lambda: self.count_closed() >= expected, 0.5 if IS_STRICT else PATIENCE)
        self.closed = self.count_closed()

    def count_closed(self):
        return sum(self.is_closed(one) for one in self.all)

    @staticmethod
    def is_closed(one):
        one.setblocking(False)
        try:
            return one.recv(1) == b""
        except BlockingIOError:
            return False
        except OSError:
            return True

    def leave(self):
        for one in self.all:
            one.close()


def flood(server, connection, piece, most):
    """Sends a piece to a server again and again, until the server rests for a second without taking more of it, or has taken
    `most` bytes. Returns how many it took."""
    connection.settimeout(1)
    view, sent, busy = memoryview(piece), 0, server.processor_seconds()
    while sent < most:
        try:
            sent += connection.send(view[sent % len(piece) :])
        except TimeoutError:
            before, busy = busy, server.processor_seconds()
            if busy - before < RESTING:
                break
    connection.settimeout(PATIENCE)
    return sent
