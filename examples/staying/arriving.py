"""Devices of --connect that come, go and come back."""
import contextlib
import re
import socket
import time

from checks import check
from client import Client, host
from judged import ONE, PATIENCE, echoed, is_answered, is_within, kill_forward, forward, comes_back, serving
from restartable import Closing, Restartable
from server import until


class Tracker:
    """A client to which each new list of the devices is sent."""

    def __init__(self, port):
        self.client = Client(port, PATIENCE)
        self.client.ask("host:track-devices")
        self.listed = self.client.string().decode()

    def __enter__(self):
        return self

    def __exit__(self, *_):
        self.client.socket.close()

    def wait(self, serial, is_there):
        """Waits until a device is in the list, or is not. Returns the seconds."""
        began = time.time()
        while (f"{serial}\tdevice\n" in self.listed) != is_there:
            self.listed = self.client.string().decode()
        return time.time() - began


def transport_id(port, serial):
    return int(re.search(rf"^{re.escape(serial)} .*transport_id:(\d+)", host(port, "host:devices-l"), re.M)[1])


def come_back(program, count):
    """A device is stopped and started so many times."""
    device, ids, times, answers = Restartable(), [], [], []
    with serving(program, "--connect", str(device.port)) as server, Tracker(server.port) as tracker:
        for _ in range(count):
            with device:
                times.append(tracker.wait(device.serial, True))
                ids.append(transport_id(server.port, device.serial))
                answers.append(echoed(server.port, device.serial))
            tracker.wait(device.serial, False)
        told = f"{max(times):.2f} s the longest"
        check(f"a device that is stopped and started {count} times is listed within a second", is_within(max(times), 1), told)
        check("each time under a new transport id", all(a < b for a, b in zip(ids, ids[1:])), f"{ids[0]} to {ids[-1]}")
        check("each time it answers", all(answers))
        check("the other device was not disturbed", echoed(server.port, ONE))


def device_that_comes_back(program):
    come_back(program, 5)


def device_that_comes_back_a_hundred_times(program):
    come_back(program, 100)


def device_that_comes_late(program):
    device = Restartable()
    with serving(program, "--connect", str(device.port)) as server, Tracker(server.port) as tracker:
        check("no device is listed where nothing listens", host(server.port, "host:devices") == f"{ONE}\tdevice\n")
        time.sleep(1)
        with device:
            took = tracker.wait(device.serial, True)
            check("a device that is there later is listed within three seconds", is_within(took, 3), f"{took:.2f} s")
            check("it answers", echoed(server.port, device.serial))


def forward_of_a_device_that_goes(program):
    device = Restartable()
    with serving(program, "--connect", str(device.port)) as server, Tracker(server.port) as tracker:
        with device:
            tracker.wait(device.serial, True)
            bound = forward(server.port, device.serial)
            check("a forward to a device by TCP", comes_back(bound))
        tracker.wait(device.serial, False)
        check("it ends with its device", host(server.port, "host:list-forward") == "" and not comes_back(bound))
        with device:
            tracker.wait(device.serial, True)
            bound = forward(server.port, device.serial)
            check("a forward to the device that came back", comes_back(bound))
            kill_forward(server.port, bound, device.serial)


def device_that_closes(program):
    """A device that accepts and closes is not connected to without a rest."""
    with Closing() as device, serving(program, "--connect", str(device.port)) as server:
        until(lambda: device.accepted, PATIENCE)
        time.sleep(3)
        most = 20
        check(f"a device that closes at once is connected to at most {most} times in 3 s", device.accepted <= most, f"{device.accepted} times")
        check("a client is served", is_answered(server.port))


@contextlib.contextmanager
def full_port():
    """A port at which nothing is accepted and as many connections wait as fit."""
    with contextlib.ExitStack() as stack:
        listener = stack.enter_context(socket.socket())
        listener.bind(("127.0.0.1", 0))
        listener.listen(0)
        port = listener.getsockname()[1]
        for _ in range(3):
            one = stack.enter_context(socket.socket())
            one.setblocking(False)
            one.connect_ex(("127.0.0.1", port))
        yield port


def device_with_a_full_queue(program):
    with full_port() as port, serving(program, "--connect", str(port)) as server:
        began = time.time()
        is_right = is_answered(server.port)
        took = time.time() - began
        check("a client is served within two seconds beside a device that accepts nothing", is_right and is_within(took, 2), f"{took:.2f} s")
