"""What the tests of the running daemon share: the daemon, its clients' sockets, and the count of checks."""
import ctypes
import os
import random
import socket
import struct
import subprocess
import sys
import threading
import time
import traceback
import zlib

CONFIGURATION = """\
agents = "127.0.0.1:0"
operators = "127.0.0.1:0"
pages = "127.0.0.1:0"
capacity = 256
greatest_age = 0
limit = 100000

[[host]]
name = "web1"
freshness = 300

[[host.service]]
name = "HTTP"
freshness = 300
"""

TIME_LIMIT = 20.0  # seconds

# Of the system's ptrace.h and wait.h.
PTRACE_DETACH = 17
PTRACE_SEIZE = 0x4206
PTRACE_INTERRUPT = 0x4207
WAIT_FOR_THREADS = 0x40000000

passed = 0
failed = 0


def check(what, found, expected):
    """Counts a test: what was found has to be what is expected."""
    global passed, failed
    if found == expected:
        passed += 1
    else:
        failed += 1
        print(f"{what} ... FAILED: {found!r}, not {expected!r}")


# Below those that the system gives to connections, each once.
PORTS = iter(random.sample(range(10240, 30000), 10000))


def free_port():
    """A port that nobody has. No socket is opened to see it, since a process that another thread begins has it for a while."""
    taken = set()
    for file in ("/proc/net/tcp", "/proc/net/tcp6"):
        if os.path.exists(file):
            with open(file, encoding="ascii") as rows:
                taken |= {int(row.split()[1].rpartition(":")[2], 16) for row in rows.readlines()[1:]}
    return next(port for port in PORTS if port not in taken)


class Daemon:
    """A running `nscagate serve`, and the addresses that it printed. It is handed this text, as what is kept, and these variables of the
    environment beside those that there are."""

    def __init__(self, program, folder, configuration, kept=b"", variables=None):
        path, text = os.path.join(folder, "gateway.toml"), os.path.join(folder, "text")
        with open(path, "w", encoding="latin-1") as file:
            file.write(configuration)
        with open(text, "wb") as file:
            file.write(kept)
        with open(text, "rb") as file:
            self.process = subprocess.Popen([program, "serve", "--config", path], env={**os.environ, **(variables or {})}, stdin=file,
                                            stdout=subprocess.PIPE, stderr=subprocess.PIPE)
        self.hosts = {}
        self.ports = {}
        for name in ("agents", "operators", "pages"):
            words = self.process.stdout.readline().decode().split()
            if len(words) != 2 or words[0] != name:
                raise SystemExit(f"the daemon printed {words}, no address of its {name}")
            host, port = words[1].rsplit(":", 1)
            self.hosts[name] = host.strip("[]")
            self.ports[name] = int(port)

    def connect(self, name):
        connection = socket.create_connection((self.hosts[name], self.ports[name]), TIME_LIMIT)
        connection.settimeout(TIME_LIMIT)
        return connection

    def page(self):
        with self.connect("pages") as connection:
            return read_all(connection).decode("latin-1")

    def page_with(self, text):
        """A status page that has this text, asked for again and again; the last one after too long."""
        end = time.monotonic() + TIME_LIMIT
        page = self.page()
        while text not in page and time.monotonic() < end:
            page = self.page()
        return page

    def end(self, time_limit=TIME_LIMIT):
        """The status and what was printed, once the daemon has ended."""
        output, errors = self.process.communicate(timeout=time_limit)
        return self.process.returncode, output.decode("latin-1"), errors.decode("latin-1")


def read_all(connection):
    pieces = []
    while True:
        piece = connection.recv(65536)
        if not piece:
            return b"".join(pieces)
        pieces.append(piece)


def read_exactly(connection, count):
    found = b""
    while len(found) < count:
        piece = connection.recv(count - len(found))
        if not piece:
            return found
        found += piece
    return found


def packet(timestamp, host, service, code, output, room=4096):
    """A data packet with so much room for its output, of 4304 bytes or of 720, as the sender's own structure has it."""
    fields = struct.pack(f">hxxIIh64s128s{room}sxx", 3, 0, timestamp, code, host, service, output)
    return fields[:4] + struct.pack(">I", zlib.crc32(fields)) + fields[8:]


def ask(daemon, *lines):
    """What an operator is answered to these lines on one connection."""
    with daemon.connect("operators") as connection:
        connection.sendall("".join(line + "\n" for line in lines).encode("latin-1"))
        connection.shutdown(socket.SHUT_WR)
        return read_all(connection).decode("latin-1").splitlines()


def applier_of(daemon):
    """The applier's thread, which is started after the one that watches the log page."""
    ask(daemon, "[1] x")  # all threads have started
    return sorted(int(thread) for thread in os.listdir(f"/proc/{daemon.process.pid}/task"))[2]


def hold(thread, wait):
    """Lets one thread of a child process stand still until this call returns: whether the system let it."""
    trace = ctypes.CDLL(None).ptrace
    trace.argtypes = [ctypes.c_long] * 4
    trace.restype = ctypes.c_long
    if trace(PTRACE_SEIZE, thread, 0, 0) != 0:
        return False
    trace(PTRACE_INTERRUPT, thread, 0, 0)
    os.waitpid(thread, WAIT_FOR_THREADS)
    wait()
    return trace(PTRACE_DETACH, thread, 0, 0) == 0


def run_plays(plays, program, folder, alone=()):
    """Runs plays of this program, each in a folder of its own: all at once, and then, one by one, those that take the machine alone."""

    def run(play):
        own = os.path.join(folder, play.__name__)
        os.mkdir(own)
        try:
            play(program, own)
        except Exception:  # a play that breaks off has failed
            check(f"{play.__name__} ... {traceback.format_exc()}", "broken off", "ended")

    together = [threading.Thread(target=run, args=(play,)) for play in plays if play not in alone]
    for thread in together:
        thread.start()
    for thread in together:
        thread.join()
    for play in plays:
        if play in alone:
            run(play)


def end_tests():
    """Prints how many checks passed and failed, and ends with status 0 where none failed."""
    print(f"{passed} passed, {failed} failed")
    sys.exit(failed > 0)
