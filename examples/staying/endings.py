"""Ends of a server, whatever hangs."""
import contextlib
import os
import shutil
import socket
import subprocess
import time

from arriving import Tracker, full_port
from bounds import ASKED, narrow_client
from checks import check
from client import Client, ask_sync, host, push
from device import packet
from judged import ONE, PATIENCE, Silent, ended, flood, forward, is_answered, is_killed, is_within, serving
from restartable import Flooding, Hanging
from server import Server, free_port, is_listed, until

SILENT = 200
LARGE = 4_000_000
MOST_SENT = 16 << 20
TRIES = 3
STATUS_OF_RECORD_FAULT, STATUS_OF_DOOR_FAULT = 7, 8


def killed_with_silent_clients(program):
    with serving(program) as server:
        silent = Silent(server.port, SILENT)
        check(f"{SILENT} silent clients", silent.closed == 0 and is_answered(server.port))
        is_killed(server)
        silent.leave()


@contextlib.contextmanager
def hanging_clients(server):
    """Clients that say nothing, half of a request, or read nothing, each at a worker that waits for it in its own way."""
    with contextlib.ExitStack() as stack:
        port = server.port
        push(port, ONE, "/large", bytes(LARGE))
        clients = [stack.enter_context(Client(port)) for _ in range(4)]
        _, half, echo, large = clients
        half.send(b"000")
        echo.select(ONE, "echo:")
        ask_sync(large.select(ONE, "sync:"), b"RECV", b"/large")
        stack.enter_context(Tracker(port))
        stack.enter_context(socket.create_connection(("127.0.0.1", forward(port)), PATIENCE))
        flood(server, stack.enter_context(narrow_client(port)), ASKED * 5_000, MOST_SENT)
        yield


def killed_whatever_hangs(program):
    with full_port() as full, Hanging() as mute, Flooding() as flooding:
        ports = [str(port) for port in (full, mute.port, flooding.port, free_port())]
        with serving(program, *(word for port in ports for word in ("--connect", port))) as server, hanging_clients(server):
            if flooding.is_online.wait(PATIENCE):
                flood(server, flooding.link, packet(b"OPEN", 1, 0, b"x\0") * 5_000, MOST_SENT)
            check("a client is served beside clients and devices that hang", is_answered(server.port))
            is_killed(server)


def poke(server):
    """Whether a server has ended, which is asked one thing more: it sees a fault at its next entry or connection."""
    with contextlib.suppress(OSError, EOFError), Client(server.port, 1) as client:
        client.send(b"000chost:version")
        client.rest()
    return server.process.poll() is not None


def ends_by_itself(server, what, status, note):
    """Checks that a server ends within two seconds, with a status and a note."""
    began = time.time()
    until(lambda: poke(server), PATIENCE)
    ends, took = ended(server)[0], time.time() - began
    check(f"{what} ends the server within two seconds", ends == status and is_within(took, 2), f"status {ends} in {took:.2f} s")
    check("its note says so", server.process.stderr.read() == note)


def halted_by_its_record(program):
    """The reader of a record goes, while writers wait for clients that never read."""
    with Server(program, "--device", ONE, record=subprocess.PIPE) as server:
        reader = subprocess.Popen(["cat"], stdin=server.process.stdout, stdout=subprocess.DEVNULL)
        server.process.stdout.close()
        until(lambda: is_listed(server.port, ONE), PATIENCE)
        with hanging_clients(server):
            reader.kill()
            reader.wait()
            ends_by_itself(server, "a record that nobody takes", STATUS_OF_RECORD_FAULT, b"adbhub: record fault\n")


def halted_by_its_door(program):
    """Accepting fails for good, by strace, while writers wait for clients that never read."""
    if not shutil.which("strace"):
        print("skip  a door that fails: there is no strace on this machine")
        return
    with Server(program, "--device", ONE) as server:
        until(lambda: is_listed(server.port, ONE), PATIENCE)
        with hanging_clients(server):
            words = ["strace", "-f", "-o", os.devnull, "-e", "inject=accept,accept4:error=EBADF", "-p", str(server.process.pid)]
            with subprocess.Popen(words, stderr=subprocess.PIPE) as tracer:
                tracer.stderr.readline()
                ends_by_itself(server, "a door that fails", STATUS_OF_DOOR_FAULT, b"adbhub: door fault\n")
                tracer.kill()


def connects():
    """How many connections were asked for on this machine."""
    with open("/proc/net/snmp", encoding="ascii") as rows:
        names, values = (row.split() for row in rows if row.startswith("Tcp:"))
    return int(values[names.index("ActiveOpens")])


def connects_of_an_end(program):
    with serving(program) as server:
        silent = Silent(server.port, SILENT)
        before = connects()
        host(server.port, "host:kill")
        ended(server)
        silent.leave()
        return connects() - before


def one_knock(program):
    """A server of 400 jobs does not connect for each of them when it ends. Others may connect meanwhile."""
    for _ in range(TRIES):
        count = connects_of_an_end(program)
        if count < SILENT // 2:
            break
    check(f"the end of a server with {SILENT} clients connects less than {SILENT // 2} times", count < SILENT // 2, f"{count} times")
