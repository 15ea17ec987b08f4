"""Servers that run out of descriptors, or of memory for threads."""
import resource

from checks import check
from client import Client
from judged import ONE, PATIENCE, Silent, comes_back, forward, is_answered, serving
from recorded import entries
from server import until

DESCRIPTORS = 64
SILENT = 200
ROOM_FOR_THREADS = 64 << 20
STARVED, NO_THREAD = b"\2", b"\3"


def lacking_descriptors(program):
    with serving(program, most=DESCRIPTORS) as server:
        with Client(server.port) as echo:
            echo.select(ONE, "echo:")
            silent = Silent(server.port, SILENT, 101)
            told = f"{silent.closed} of {SILENT} closed"
            check(f"{DESCRIPTORS} descriptors: a connection that cannot be served is closed at once", 100 < silent.closed < SILENT, told)
            echo.send(b"still here")
            check("a session that exists goes on", echo.take(10) == b"still here")
            silent.leave()
            check("a client is served again once descriptors are free", until(lambda: is_answered(server.port), PATIENCE))


def lacking_descriptors_of_a_forward(program):
    with serving(program, most=DESCRIPTORS) as server:
        bound = forward(server.port)
        silent = Silent(bound, SILENT, 101)
        told = f"{silent.closed} of {SILENT} closed"
        check(f"{DESCRIPTORS} descriptors: the same at the port of a forward", 100 < silent.closed < SILENT, told)
        silent.leave()
        check("its echo answers again", until(lambda: comes_back(bound), PATIENCE))
        check("a client is served", until(lambda: is_answered(server.port), PATIENCE))


def limit_memory(server, more):
    """Lets a server map so many bytes more than it has, None for any number. Each thread maps its stack."""
    with open(f"/proc/{server.process.pid}/statm", encoding="ascii") as sizes:
        mapped = int(sizes.read().split()[0]) * resource.getpagesize()
    hard = resource.prlimit(server.process.pid, resource.RLIMIT_AS)[1]
    resource.prlimit(server.process.pid, resource.RLIMIT_AS, (hard if more is None else mapped + more, hard))


def has_causes(history):
    """Checks that clients for which there was no memory or no thread ended by just this cause."""
    causes = {entry.data for entry in entries(history) if entry.letter == b"E"}
    check("the record says why", causes & {STARVED, NO_THREAD}, f"causes {sorted(cause[0] for cause in causes)}")


def lacking_threads(program):
    with serving(program, recorded=has_causes) as server:
        with Client(server.port) as echo:
            echo.select(ONE, "echo:")
            limit_memory(server, ROOM_FOR_THREADS)
            silent = Silent(server.port, SILENT, 1)
            told = f"{silent.closed} of {SILENT} closed"
            check("no memory for a thread: the client is closed", 0 < silent.closed, told)
            echo.send(b"still here")
            check("a session that exists goes on", echo.take(10) == b"still here")
            silent.leave()
            check("a client is served again once memory is free", until(lambda: is_answered(server.port), PATIENCE))
            limit_memory(server, None)
