"""Ports of gateways that a test of a web program plays."""
import socket
import threading
import time


class Port:
    """Serves what `answer(connection)` writes, a thread for each connection; counts connections, and keeps lines."""

    def __init__(self, answer):
        self.count = 0
        self.lines = []
        self.listener = socket.create_server(("127.0.0.1", 0), backlog=1024)
        self.port = self.listener.getsockname()[1]
        self.answer = answer
        threading.Thread(target=self.run, daemon=True).start()

    def run(self):
        while True:
            try:
                connection, _ = self.listener.accept()
            except OSError:
                return
            self.count += 1
            threading.Thread(target=self.serve, args=(connection,), daemon=True).start()

    def serve(self, connection):
        try:
            self.answer(connection)
        except OSError:
            pass
        connection.close()

    def take(self, connection, reply, seconds):
        self.lines.append(connection.makefile("rb").readline())
        time.sleep(seconds)
        connection.sendall(reply)


class Stuck:
    """A port that takes no more connections: who connects gets no answer at all."""

    def __init__(self):
        self.listener = socket.create_server(("127.0.0.1", 0), backlog=0)
        self.port = self.listener.getsockname()[1]
        self.held = [socket.socket() for _ in range(4)]
        for connection in self.held:
            connection.setblocking(False)
            connection.connect_ex(("127.0.0.1", self.port))


def shows(text):
    """A pages port whose page is this text, or what this function returns."""
    return Port(lambda connection: connection.sendall(text() if callable(text) else text))


def takes(reply=b"queued 1\n", seconds=0):
    """An operators' port that keeps the line of each connection, and answers so after some seconds."""
    port = Port(lambda connection: port.take(connection, reply, seconds))
    return port
