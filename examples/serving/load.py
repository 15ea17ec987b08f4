"""Loads on an adb server, each connection in a process of its own, so that Python's lock holds nobody up."""
import itertools
import multiprocessing
import socket
import struct
import threading
import time

from client import MOST_OF_CHUNK, Client, ask_sync, host, push, sync_status

FORK = multiprocessing.get_context("fork")
FILE = 8 << 20
ECHO = 8 << 20
SMALL_FILE = bytes(1_024)
MOST_READ = 1 << 20
MOST_CALLS = 100_000


def connection(port):
    made = socket.socket()
    made.setsockopt(socket.IPPROTO_TCP, socket.TCP_NODELAY, 1)
    made.connect(("127.0.0.1", port))
    return made


def read_out(stream):
    """How many bytes come up to the end."""
    count = 0
    while piece := stream.recv(MOST_OF_CHUNK):
        count += len(piece)
    return count


def read_count(stream, buffer, count):
    while count:
        got = stream.recv_into(buffer, min(count, len(buffer)))
        if not got:
            raise EOFError(f"the stream ended {count} bytes early")
        count -= got


def asked(request):
    return f"{len(request):04x}{request}".encode()


def requests(request):
    """A connection for each request, read to its end."""
    words = asked(request)

    def begin(port, _, __):
        def once():
            with connection(port) as stream:
                stream.sendall(words)
                if read_out(stream) < 8:
                    raise EOFError(f"{request} was not answered")
            return 1

        return once

    return begin


def shells(port, serial, _):
    transport, service = asked(f"host:transport:{serial}"), asked("shell:echo hi")

    def once():
        with connection(port) as stream:
            stream.sendall(transport)
            stream.recv(4)
            stream.sendall(service)
            if read_out(stream) != len(b"OKAYhi\n"):
                raise EOFError("a command did not say what it should")
        return 1

    return once


def stream_of(port, serial, service):
    client = Client(port).select(serial, service)
    client.socket.settimeout(None)
    return client


def echoes(port, serial, _):
    stream = stream_of(port, serial, "echo:").socket
    sent, buffer = bytes(ECHO), bytearray(MOST_READ)

    def once():
        sender = threading.Thread(target=stream.sendall, args=(sent,))
        sender.start()
        read_count(stream, buffer, ECHO)
        sender.join()
        return ECHO / 1e6

    return once


def sent_file(path, content):
    """All messages that send a file."""
    words = f"{path},{0o100644}".encode()
    parts = [b"SEND", struct.pack("<I", len(words)), words]
    for at in range(0, len(content), MOST_OF_CHUNK):
        chunk = content[at : at + MOST_OF_CHUNK]
        parts += [b"DATA", struct.pack("<I", len(chunk)), chunk]
    return b"".join([*parts, b"DONE", struct.pack("<I", 1)])


def pushes(port, serial, number):
    client = stream_of(port, serial, "sync:")
    message = sent_file(f"/load/{number}", bytes(FILE))

    def once():
        client.send(message)
        sync_status(client)
        return FILE / 1e6

    return once


def pulls(port, serial, number):
    path = f"/load/{number}"
    push(port, serial, path, bytes(FILE))
    client = stream_of(port, serial, "sync:")
    reply, buffer = length_of_pull(client, path), bytearray(MOST_READ)

    def once():
        ask_sync(client, b"RECV", path.encode())
        read_count(client.socket, buffer, reply)
        return FILE / 1e6

    return once


def length_of_pull(client, path):
    """How many bytes the reply to a pull has. Devices cut files into chunks of their own."""
    ask_sync(client, b"RECV", path.encode())
    whole = 0
    while True:
        kind, length = struct.unpack("<4sI", client.take(8))
        whole += 8
        if kind == b"DONE":
            return whole
        whole += len(client.take(length))


def small_files(port, serial, _):
    """Files of one chunk, one after another."""
    client = stream_of(port, serial, "sync:")
    messages = [sent_file(f"/small/{number}", SMALL_FILE) for number in range(2_000)]
    coming = itertools.cycle(messages)

    def once():
        client.send(next(coming))
        sync_status(client)
        return 1

    return once


def work(begin, words, seconds, start, results):
    """One connection's work, for so many seconds: how much it did a second and in all, and how long each call took."""
    try:
        once = begin(*words)
        start.wait(20)
        done, times = 0, []
        began = before = time.perf_counter()
        while before < began + seconds and len(times) < MOST_CALLS:
            done += once()
            now = time.perf_counter()
            times.append(now - before)
            before = now
        results.put((done / (before - began), done, times))
    except Exception as why:  # noqa: BLE001
        results.put(repr(why))


def run(begin, connections, port, serial, seconds, clock):
    """What a load did a second and in all, how long its calls took, in rising order, and what a clock tells of it."""
    start, results = FORK.Barrier(connections + 1), FORK.Queue()
    of = lambda number: (begin, (port, serial, number), seconds, start, results)
    workers = [FORK.Process(target=work, args=of(number), daemon=True) for number in range(connections)]
    for worker in workers:
        worker.start()
    start.wait(20)
    before = clock()
    told = [results.get(timeout=60) for _ in workers]
    taken = clock() - before
    for worker in workers:
        worker.join()
    faults = [one for one in told if isinstance(one, str)]
    if faults:
        raise RuntimeError(f"a load failed: {faults[0]}")
    return sum(one[0] for one in told), sum(one[1] for one in told), sorted(sum((one[2] for one in told), [])), taken


class Idle:
    """Clients that began a request and say no more."""

    def __init__(self, port, count):
        self.clients = [connection(port) for _ in range(count)]
        for client in self.clients:
            client.sendall(b"000")
        host(port, "host:version")

    def __enter__(self):
        return self

    def __exit__(self, *_):
        for client in self.clients:
            client.close()
