"""Forwards that come and go, and many connections to one."""
import signal
import socket
import threading
import time

from checks import check
from judged import PATIENCE, comes_back, forward, is_answered, is_within, kill_forward, serving

CYCLES = 500
LASTING = 60  # of at most 64 forwards
IDLE_LISTENERS = 64
AT_ONCE = 200


def forwards_that_come_and_go(program):
    with serving(program) as server:
        lasting = [forward(server.port) for _ in range(LASTING)]
        kill_forward(server.port, forward(server.port))
        before = server.rested(1)
        for _ in range(CYCLES):
            kill_forward(server.port, forward(server.port))
        after = server.rested(1)
        told = [f"{before[at]} before, {after[at]} after" for at in (0, 1)]
        check(f"{CYCLES} forwards that come and go leave at most 8 threads", after[0] <= before[0] + 8, told[0])
        most = before[1] + IDLE_LISTENERS
        check(f"they leave at most {IDLE_LISTENERS} descriptors", after[1] <= most, told[1])
        check(f"the {LASTING} forwards that stayed answer", all(map(comes_back, lasting)))
        check("a forward after them", comes_back(forward(server.port)))


def forwards_of_many_clients(program):
    with serving(program) as server:
        lasting, refused = forward(server.port), []

        def cycle():
            try:
                for _ in range(50):
                    bound = forward(server.port)
                    if not comes_back(bound):
                        refused.append(bound)
                    kill_forward(server.port, bound)
            except Exception as why:  # noqa: BLE001
                refused.append(repr(why))

        before = server.rested(1)
        threads = [threading.Thread(target=cycle) for _ in range(8)]
        for thread in threads:
            thread.start()
        for thread in threads:
            thread.join()
        after = server.rested(1)
        check("8 clients make, use and end 50 forwards each", not refused, str(refused[:3]) if refused else "")
        told = f"{before[1]} before, {after[1]} after"
        check(f"they leave at most {IDLE_LISTENERS} descriptors", after[1] <= before[1] + IDLE_LISTENERS, told)
        check("the forward that stayed answers", comes_back(lasting))


def ask_early(port, count):
    """Connections that ask for the version: as many as the accept queue of a stopped server takes."""
    asking = []
    for _ in range(count):
        one = socket.socket()
        one.settimeout(0.05)
        try:
            one.connect(("127.0.0.1", port))
            one.sendall(b"000chost:version")
            asking.append(one)
        except OSError:
            one.close()
            break
    return asking


def full_queue(program):
    """The accept queue of a stopped server is full when connections to a forward come."""
    with serving(program) as server:
        bound = forward(server.port)
        server.process.send_signal(signal.SIGSTOP)
        asking = ask_early(server.port, 400)
        through = [socket.create_connection(("127.0.0.1", bound), PATIENCE) for _ in range(3)]
        for one in through:
            one.sendall(b"hello")
        began = time.time()
        server.process.send_signal(signal.SIGCONT)
        for one in asking + through:
            one.settimeout(PATIENCE)
        is_right = all(one.recv(5) == b"hello" for one in through) and all(one.recv(4) == b"OKAY" for one in asking)
        took = time.time() - began
        check("connections to a forward while the accept queue is full", is_right)
        check(f"they and {len(asking)} clients are answered within a second", is_within(took, 1), f"{took:.2f} s")
        for one in asking + through:
            one.close()


def many_at_once(program):
    with serving(program) as server:
        bound, done = forward(server.port), []
        threads = [threading.Thread(target=lambda: done.append(comes_back(bound))) for _ in range(AT_ONCE)]
        for thread in threads:
            thread.start()
        began = time.time()
        check("a client is answered meanwhile", is_answered(server.port), f"{time.time() - began:.2f} s")
        for thread in threads:
            thread.join()
        check(f"{AT_ONCE} connections to a forward at once", done == [True] * AT_ONCE, f"{done.count(True)} came back")


def is_refused(address, port):
    try:
        socket.create_connection((address, port), 1).close()
    except ConnectionRefusedError:
        return True
    return False


def elsewhere(program):
    with serving(program) as server:
        bound = forward(server.port)
        check("127.0.0.2 is refused at the server's port", is_refused("127.0.0.2", server.port))
        check("127.0.0.2 is refused at the port of a forward", is_refused("127.0.0.2", bound))
