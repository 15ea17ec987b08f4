"""Servers whose record is not read."""
import subprocess

from checks import check
from client import MOST_OF_CHUNK, Client, ask_sync, sync_status
from judged import ONE, PATIENCE, flood, is_answered, is_legal, is_within, kill
from recorded import without_torn
from server import Server, is_listed, until

STATUS_OF_RECORD_FAULT = 7
UNREAD = 64 << 20  # bytes of a file that are more than what waits to be written
CHUNK = b"DATA" + MOST_OF_CHUNK.to_bytes(4, "little") + bytes(MOST_OF_CHUNK)


def fill(server, client):
    """Sends a file until the server takes no more of it. Returns how many bytes it took."""
    ask_sync(client.select(ONE, "sync:"), b"SEND", b"/unread,33188")
    return flood(server, client.socket, CHUNK, UNREAD)


def record_that_is_not_read(program):
    with Server(program, "--device", ONE, record=subprocess.PIPE) as server:
        until(lambda: is_listed(server.port, ONE), PATIENCE)
        with Client(server.port) as client:
            sent = fill(server, client)
            check("others wait if the record is not read", sent < UNREAD and not is_answered(server.port, 1), f"after {sent} bytes")
            ends, took = kill(server)
            told = f"status {ends} in {took:.2f} s"
            check("a kill ends the server within two seconds", ends == STATUS_OF_RECORD_FAULT and is_within(took, 2), told)
        if ends is not None:
            check("its note says that the record failed", server.process.stderr.read() == b"adbhub: record fault\n")
            is_legal(program, without_torn(server.process.stdout.read()))


def record_that_is_read_late(program):
    with Server(program, "--device", ONE, record=subprocess.PIPE) as server:
        until(lambda: is_listed(server.port, ONE), PATIENCE)
        with Client(server.port) as client:
            sent = fill(server, client)
            check("others wait if the record is not read", sent < UNREAD, f"after {sent} bytes")
            judge = subprocess.Popen([program, "check"], stdin=server.process.stdout, stdout=subprocess.PIPE)
            server.process.stdout.close()
            client.send(CHUNK[sent % len(CHUNK) :] if sent % len(CHUNK) else b"")
            client.send(b"DONE" + bytes(4))
            sync_status(client)
            check("they go on once it is read", is_answered(server.port))
        ends, took = kill(server)
        check("a kill ends the server", ends == 0, f"status {ends} in {took:.2f} s")
        told = judge.communicate()[0].decode().strip()
        check("the record is legal", judge.returncode == 0, told)
