"""Clients and devices that never read, and clients that wait for each other's bytes."""
import contextlib
import queue
import socket
import threading

from checks import check
from client import Client, shell
from device import packet
from judged import ONE, PATIENCE, flood, is_answered, serving
from restartable import Flooding, Restartable, narrow
from server import is_listed, until

ASKED = b"0019host:tport:serial:model-1"
ANSWER = b"OKAY" + (1).to_bytes(8, "little")
MOST_OF_RECEIVED = 1 << 18
MOST_SENT_BY_CLIENT = 64 << 20
MOST_SENT_BY_DEVICE = 24 << 20
GROWN_BY_CLIENT = 32 << 10  # KiB: the bound, and what the record of the case has waiting
GROWN_BY_DEVICE = 64 << 10  # KiB: the bound in packets of 24 bytes, each a row of its own
CARRIED = 12 << 20
INJECTED = 2 << 20


def narrow_client(port):
    """A client whose connection holds little."""
    connection = socket.socket()
    narrow(connection)
    connection.settimeout(PATIENCE)
    connection.connect(("127.0.0.1", port))
    return connection


def is_all_there(connection, piece, count):
    """Whether a piece comes so many times, and nothing else, as far as that."""
    left = count * len(piece)
    pattern = piece * (MOST_OF_RECEIVED // len(piece) + 2)
    at = 0
    while left:
        got = connection.recv(min(left, MOST_OF_RECEIVED))
        if not got:
            return False
        start = at % len(piece)
        if got != pattern[start : start + len(got)]:
            return False
        at += len(got)
        left -= len(got)
    return True


def others_are_served(server):
    return is_answered(server.port) and shell(server.port, ONE, "echo hi")[0] == b"hi\n"


def client_that_never_reads(program):
    with serving(program) as server, narrow_client(server.port) as client:
        before = server.taken()[2]
        sent = flood(server, client, ASKED * 5_000, MOST_SENT_BY_CLIENT)
        grown = server.taken()[2] - before
        check("no more is read from a client that asks and never reads", sent < MOST_SENT_BY_CLIENT, f"after {sent} bytes")
        check(f"it costs at most {GROWN_BY_CLIENT} KiB", grown < GROWN_BY_CLIENT, f"{grown} KiB")
        check("others are served", others_are_served(server))
        check("when it reads, each of its requests is answered", is_all_there(client, ANSWER, sent // len(ASKED)))


def device_that_never_reads(program):
    with Flooding() as device, serving(program, "--connect", str(device.port)) as server:
        device.is_online.wait(PATIENCE)
        until(lambda: is_listed(server.port, device.serial), PATIENCE)
        before = server.taken()[2]
        opening = packet(b"OPEN", 1, 0, b"x\0")
        sent = flood(server, device.link, opening * 5_000, MOST_SENT_BY_DEVICE)
        grown = server.taken()[2] - before
        check("no more is read from a device that opens streams and never reads", sent < MOST_SENT_BY_DEVICE, f"after {sent} bytes")
        check(f"it costs at most {GROWN_BY_DEVICE} KiB", grown < GROWN_BY_DEVICE, f"{grown} KiB")
        check("others are served", others_are_served(server))
        closed = packet(b"CLSE", 0, 1)
        check("when it reads, each of its packets is answered", is_all_there(device.link, closed, sent // len(opening)))


class Carrier:
    """Carries what comes from one stream to another one, however long the other one takes nothing."""

    def __init__(self, source, target, count):
        self.source, self.target, self.left = source, target, count
        self.waiting, self.carried = queue.Queue(), 0
        self.threads = [threading.Thread(target=work, daemon=True) for work in (self.read, self.write)]
        for thread in self.threads:
            thread.start()

    def read(self):
        with contextlib.suppress(OSError):
            while self.left > 0 and (piece := self.source.socket.recv(1 << 16)):
                self.left -= len(piece)
                self.waiting.put(piece)
        self.waiting.put(None)

    def write(self):
        while piece := self.waiting.get():
            self.target.send(piece)
            self.carried += len(piece)

    def is_done(self):
        return not any(thread.is_alive() for thread in self.threads)


def all_is_carried(carriers):
    """Whether all is carried, as long as something more is within PATIENCE seconds."""
    seen = -1
    while (carried := sum(carrier.carried for carrier in carriers)) > seen:
        seen = carried
        if until(lambda: all(carrier.is_done() for carrier in carriers), PATIENCE):
            return True
    return False


def clients_that_wait_for_each_other(program):
    """Each of two clients writes to its echo what the other one got from its own."""
    with Restartable() as device, serving(program, "--connect", str(device.port)) as server:
        until(lambda: is_listed(server.port, device.serial), PATIENCE)
        first, second = (Client(server.port).select(device.serial, "echo:") for _ in range(2))
        carriers = [Carrier(first, second, CARRIED), Carrier(second, first, CARRIED)]
        threading.Thread(target=first.send, args=(bytes(INJECTED),), daemon=True).start()
        is_right = all_is_carried(carriers)
        told = " and ".join(str(carrier.carried) for carrier in carriers)
        check("two clients that wait for each other's bytes go on", is_right, f"{told} bytes")
        for client in (first, second):
            client.socket.close()
