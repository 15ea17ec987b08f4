"""A server that says what it is told to say, whatever it is asked."""
import contextlib
import socket
import threading
import time


class Scripted:
    """Answers its one client in pieces of at most so many bytes, and keeps what it was asked."""

    def __init__(self, answer, piece):
        self.asked = b""
        self.listener = socket.create_server(("127.0.0.1", 0))
        self.listener.settimeout(20)
        self.port = self.listener.getsockname()[1]
        self.thread = threading.Thread(target=self._serve, args=(answer, piece))

    def __enter__(self):
        self.thread.start()
        return self

    def __exit__(self, *_):
        self.thread.join()
        self.listener.close()

    def _serve(self, answer, piece):
        client, _ = self.listener.accept()
        with client:
            client.settimeout(20)
            saying = threading.Thread(target=say, args=(client, answer, piece))
            saying.start()
            with contextlib.suppress(ConnectionResetError):
                while more := client.recv(1 << 16):
                    self.asked += more
            saying.join()


def say(client, answer, piece):
    """Each piece is a read of its own. Who has heard enough may be gone."""
    client.setsockopt(socket.IPPROTO_TCP, socket.TCP_NODELAY, 1)
    with contextlib.suppress(ConnectionError):
        for at in range(0, len(answer), piece):
            client.sendall(answer[at : at + piece])
            time.sleep(0.0002)
        client.shutdown(socket.SHUT_WR)
