"""Servers and devices that a script starts, and what they take of the machine."""
import os
import re
import socket
import subprocess
import sys
import tempfile
import time

from client import host


def free_port():
    with socket.create_server(("127.0.0.1", 0)) as listener:
        return listener.getsockname()[1]


def until(is_so, seconds=20):
    """Whether it comes to be so."""
    end = time.time() + seconds
    while time.time() < end:
        if is_so():
            return True
        time.sleep(0.02)
    return False


def is_open(port):
    try:
        socket.create_connection(("127.0.0.1", port), 5).close()
    except OSError:
        return False
    return True


def is_listed(port, serial):
    return f"{serial}\tdevice\n" in host(port, "host:devices")


class Running:
    """A process. It is killed where it still runs at the end."""

    def __init__(self, words, **how):
        self.process = subprocess.Popen(words, stdin=subprocess.DEVNULL, **how)

    def __enter__(self):
        return self

    def __exit__(self, *_):
        if self.process.poll() is None:
            self.process.kill()
        self.process.wait()

    def processor_seconds(self):
        """By the process's own clock, since /proc tells them in ticks of 10 ms."""
        return time.clock_gettime(~self.process.pid << 3 | 2)


class ModelDevice(Running):
    """A device that servers reach by TCP, in a process of its own."""

    def __init__(self):
        self.port = free_port()
        self.serial = f"127.0.0.1:{self.port}"
        script = os.path.join(os.path.dirname(os.path.abspath(__file__)), "model_device.py")
        super().__init__([sys.executable, script, str(self.port)])
        until(lambda: is_open(self.port))


class RealServer(Running):
    """Debian's server, with the device at a port."""

    def __init__(self, adb, device_port):
        self.port = free_port()
        self.home = tempfile.TemporaryDirectory()
        surroundings = {**os.environ, "HOME": self.home.name, "ADB_LOCAL_TRANSPORT_MAX_PORT": "5553"}
        quiet = {"stdout": subprocess.DEVNULL, "stderr": subprocess.DEVNULL}
        super().__init__([adb, "-P", str(self.port), "server", "nodaemon"], env=surroundings, **quiet)
        until(lambda: is_open(self.port))
        host(self.port, f"host:connect:127.0.0.1:{device_port}")

    def __exit__(self, *why):
        super().__exit__(*why)
        self.home.cleanup()


class Server(Running):
    """`PROGRAM serve --port 0` with the words given. It is killed where it still runs at the end."""

    def __init__(self, program, *words, record=None, **how):
        super().__init__(
            [program, "serve", "--port", "0", *words, *(["--record"] if record else [])],
            stdout=record or subprocess.DEVNULL,
            stderr=subprocess.PIPE,
            **how,
        )
        line = self.process.stderr.readline().decode()
        found = re.fullmatch(r"adbhub: listening on 127\.0\.0\.1:(\d+)\n", line)
        if not found:
            self.process.kill()
            raise RuntimeError(f"the server said {line!r}")
        self.port = int(found[1])

    def __exit__(self, *why):
        super().__exit__(*why)
        self.process.stderr.close()

    def ended(self, seconds=20):
        """Its status, once it has ended."""
        return self.process.wait(seconds)

    def taken(self):
        """How many threads and descriptors it has, and its memory in KiB."""
        at = f"/proc/{self.process.pid}"
        with open(f"{at}/status", encoding="ascii") as status:
            rows = dict(row.split(":", 1) for row in status)
        return int(rows["Threads"]), len(os.listdir(f"{at}/fd")), int(rows["VmRSS"].split()[0])

    def rested(self, seconds=5):
        """What it has when it has given back what it can: the least of some looks."""
        looks = []
        for _ in range(seconds * 5):
            time.sleep(0.2)
            looks.append(self.taken())
        return looks[-1]
