"""Plays readers and operators whose connections end early: python3 whole_pages_test.py PROGRAM [WORD]. Nobody can take a part of a page
for a whole one, nor silence for an answer: what was cut ends by a reset. With a word only the plays whose name has it. Ends with a line
'N passed, M failed'."""
import os
import select
import shutil
import socket
import subprocess
import sys
import tempfile
import threading
import time

from daemon_clients import (CONFIGURATION, Daemon, check, end_tests, free_port, packet, read_all, read_exactly, run_plays)

PATIENCE = 120.0  # seconds: nothing here takes so long, on a loaded machine either
OUTPUT = 4095  # bytes of a result's text, at most
OTHER_LINES = 1  # lines of a page beside those of its objects


class Reading:
    """What a connection brought so far, and how it ended: `whole` in order, `reset`, or `silent` where nothing came for too long."""

    def __init__(self, connection):
        self.connection = connection
        self.pieces = []
        self.end = None

    def text(self):
        return b"".join(self.pieces)

    def take(self, most):
        """Takes what is there, up to so many bytes: whether something was."""
        try:
            piece = self.connection.recv(most)
        except (BlockingIOError, TimeoutError):
            return False
        except OSError:
            self.end = "reset"
            return True
        if piece:
            self.pieces.append(piece)
        else:
            self.end = "whole"
        return True

    def to_its_end(self):
        """Takes all that comes."""
        self.connection.settimeout(PATIENCE)
        while self.end is None:
            if not self.take(1 << 20):
                self.end = "silent"
        self.connection.close()
        return self


class Filled:
    """A daemon of so many hosts with so many services each, whose results are as long as can be."""

    def __init__(self, program, folder, hosts, services):
        self.services = [(b"web%d" % host, b"S%d" % service) for host in range(hosts) for service in range(services)]
        self.objects = hosts * (services + 1)
        texts = "".join(f'[[host.service]]\nname = "S{service}"\n' for service in range(services))
        head = CONFIGURATION.split("[[host]]", maxsplit=1)[0].replace("limit = 100000", "limit = 1000000\nitems = 100000")
        self.daemon = Daemon(program, folder, head + "".join(f'[[host]]\nname = "web{host}"\n{texts}' for host in range(hosts)))

    def fill(self, letter=b"x"):
        """Sends a result of each service, of this letter, and waits until the last one is shown."""
        with self.daemon.connect("agents") as sender:
            sender.settimeout(PATIENCE)
            moment = int.from_bytes(read_exactly(sender, 132)[128:], "big")
            for number, (host, service) in enumerate(self.services):
                sender.sendall(packet(moment, host, service, 1, letter * (OUTPUT - 6) + b"%06d" % number))
        last = letter + b"%06d\n" % (len(self.services) - 1)
        end = time.monotonic() + PATIENCE
        while last not in read_page(self.daemon) and time.monotonic() < end:
            time.sleep(0.1)


def read_page(daemon):
    with daemon.connect("pages") as reader:
        reader.settimeout(PATIENCE)
        return read_all(reader)


def is_whole(page, objects):
    """A page of so many objects, and maybe with the line of the close, has all of its lines."""
    return page.endswith(b"\n") and page.count(b"\n") - objects - OTHER_LINES in (0, 1)


def check_ends(what, readings, objects):
    """Each of these readers has its whole page, or was reset."""
    ends = {}
    for reading in readings:
        ends[reading.end] = ends.get(reading.end, 0) + 1
    print(f"{what}: {ends}", flush=True)
    cut = [(len(reading.text()), reading.end) for reading in readings
           if reading.end != "reset" and not (reading.end == "whole" and is_whole(reading.text(), objects))]
    check(f"{what}: each has the whole page, or was reset", cut, [])


def connect_slowly(daemon, name, room=4096):
    """A connection with as little room for what comes as can be."""
    connection = socket.socket()
    connection.setsockopt(socket.SOL_SOCKET, socket.SO_RCVBUF, room)
    connection.settimeout(PATIENCE)
    connection.connect((daemon.hosts[name], daemon.ports[name]))
    return connection


def shut_down(daemon, what):
    """Shuts the daemon down: its status."""
    with daemon.connect("operators") as operator:
        operator.settimeout(PATIENCE)
        operator.sendall(b"[1] SHUTDOWN_PROGRAM\n")
        check(f"{what}: a shutdown is answered", operator.recv(100), b"closing\n")
    check(f"{what}: the daemon ends", daemon.end(PATIENCE)[0], 0)


def play_slow_readers(program, folder):
    """120 readers that take 0.1 to 0.35 MB a second of a page of 6.7 MB, and after 15 seconds the rest at once: each has it whole, or was
    reset."""
    filled = Filled(program, folder, 4, 409)
    filled.fill()
    daemon = filled.daemon
    readings = []
    for number in range(120):
        if number % 2 == 0:
            connection = connect_slowly(daemon, "pages", 65536)
        else:
            connection = daemon.connect("pages")
        readings.append(Reading(connection))
    began = time.monotonic()
    while time.monotonic() < began + 15.0:
        for number, reading in enumerate(readings):
            reading.connection.settimeout(0.0)
            if reading.end is None:
                reading.take(10_000 + 25_000 * number // 120)
        time.sleep(0.1)
    for reading in readings:
        if reading.end is None:
            reading.to_its_end()
    check_ends("120 slow readers", readings, filled.objects)
    check("after them a fast reader has its page", is_whole(read_page(daemon), filled.objects), True)
    shut_down(daemon, "slow readers")


def wait_for_end(connection):
    """Waits until a connection has ended, without reading of it: how many seconds that took."""
    began = time.monotonic()
    watch = select.poll()
    watch.register(connection, select.POLLERR | select.POLLHUP)
    watch.poll(int(PATIENCE * 1000))
    return time.monotonic() - began


def play_a_reader_that_takes_nothing(program, folder):
    """Who takes nothing of a page of 6.7 MB is reset, and not before 10 seconds."""
    filled = Filled(program, folder, 4, 409)
    filled.fill()
    daemon = filled.daemon
    deaf = connect_slowly(daemon, "pages")
    took = wait_for_end(deaf)
    reading = Reading(deaf).to_its_end()
    print(f"a reader that takes nothing: reset after {took:.1f} s, with {len(reading.text())} bytes", flush=True)
    check("a reader that takes nothing: it has 10 seconds", 9.5 <= took < PATIENCE, True)
    check("a reader that takes nothing: it is reset", (reading.end, is_whole(reading.text(), filled.objects)), ("reset", False))
    shut_down(daemon, "a reader that takes nothing")


def check_good_reader(filled, what):
    """A reader that takes its page as it comes gets it whole."""
    began = time.monotonic()
    reading = Reading(filled.daemon.connect("pages")).to_its_end()
    print(f"{what}: a good reader took {time.monotonic() - began:.1f} s", flush=True)
    check(f"{what}: a good reader has its whole page", (reading.end, is_whole(reading.text(), filled.objects)), ("whole", True))


def most_memory(daemon):
    """The most memory that a daemon had, in MiB."""
    with open(f"/proc/{daemon.process.pid}/status", encoding="ascii") as file:
        return int(next(line for line in file if line.startswith("VmHWM:")).split()[1]) // 1024


def play_a_crowd_at_a_large_page(program, folder):
    """Beside readers that take nothing of a page of 67 MB good readers get it whole, also where two such pages are more than may be kept;
    those who take nothing are reset."""
    filled = Filled(program, folder, 32, 511)
    filled.fill(b"x")
    first = time.monotonic()
    deaf = [connect_slowly(filled.daemon, "pages") for _ in range(8)]
    for number in range(3):
        deaf += [connect_slowly(filled.daemon, "pages") for _ in range(8)]
        check_good_reader(filled, f"a crowd, {number}")
    filled.fill(b"y")
    deaf += [connect_slowly(filled.daemon, "pages") for _ in range(8)]
    time.sleep(0.5)
    check_good_reader(filled, "a crowd at two pages")
    print(f"a crowd: the daemon had {most_memory(filled.daemon)} MiB", flush=True)
    wait_for_end(deaf[0])
    print(f"a crowd: the first that takes nothing was reset after {time.monotonic() - first:.1f} s", flush=True)
    reading = Reading(deaf[0]).to_its_end()
    check("a crowd: who takes nothing is reset", (reading.end, is_whole(reading.text(), filled.objects)), ("reset", False))
    for connection in deaf[1:]:
        connection.close()
    shut_down(filled.daemon, "a crowd")


def play_the_time_of_a_large_page(program, folder):
    """Who takes nothing of a page of 16 MB is reset, and not before 16 seconds."""
    filled = Filled(program, folder, 8, 500)
    filled.fill()
    deaf = connect_slowly(filled.daemon, "pages")
    took = wait_for_end(deaf)
    reading = Reading(deaf).to_its_end()
    print(f"a page of 16 MB: reset after {took:.1f} s, with {len(reading.text())} bytes", flush=True)
    check("a page of 16 MB: a reader has a second for each MB", 16.0 <= took < PATIENCE, True)
    check("a page of 16 MB: who takes nothing is reset", (reading.end, is_whole(reading.text(), filled.objects)), ("reset", False))
    shut_down(filled.daemon, "a page of 16 MB")


def fixed_ports():
    """The configuration with ports that aren't left to the system's choice: it frees such a one a moment too early, where the last
    packet of a connection may get lost in silence."""
    text = CONFIGURATION
    for name in ("agents", "operators", "pages"):
        text = text.replace(f'{name} = "127.0.0.1:0"', f'{name} = "127.0.0.1:{free_port()}"')
    return text


def read_again_and_again(daemon, readings):
    """Reads pages until the port is closed."""
    while True:
        try:
            connection = socket.create_connection((daemon.hosts["pages"], daemon.ports["pages"]), PATIENCE)
        except ConnectionRefusedError:
            return
        except OSError:  # reset before it was there
            continue
        readings.append(Reading(connection).to_its_end())


def play_readers_at_the_close(program, folder):
    """Of the readers that come while the daemon ends each has a page, or is reset, or refused."""
    objects = 2
    all_readings = []
    for turn in range(20):
        own = os.path.join(folder, str(turn))
        os.mkdir(own)
        daemon = Daemon(program, own, fixed_ports())
        lists = [[] for _ in range(24)]
        readers = [threading.Thread(target=read_again_and_again, args=(daemon, readings)) for readings in lists]
        for reader in readers:
            reader.start()
        time.sleep(0.05 + 0.01 * turn)
        shut_down(daemon, f"readers at the close, round {turn}")
        for reader in readers:
            reader.join()
        all_readings += sum(lists, [])
    check_ends("readers at the close", all_readings, objects)


class Asking:
    """An operator's lines, and what came of them."""

    def __init__(self):
        self.sent = 0
        self.answers = []
        self.end = None

    def is_right(self):
        """Each line was answered, or `closing` was the last answer, or the connection was reset or refused."""
        return (self.end in ("reset", "refused")
                or (self.end == "whole" and (len(self.answers) == self.sent or self.answers[-1:] == [b"closing"])))


def ask_lines(daemon, asking, waits, lines, ends_its_side):
    """Connects, waits for an event, and sends lines: what came until the connection ended."""
    try:
        connection = socket.create_connection((daemon.hosts["operators"], daemon.ports["operators"]), PATIENCE)
    except ConnectionRefusedError:
        asking.end = "refused"
        return
    except OSError:
        asking.end = "reset"
        return
    reading = Reading(connection)
    waits()
    try:
        connection.sendall(b"[1] ADD_HOST_COMMENT;web1;0;ann;hi\n" * lines)
        asking.sent = lines
        if ends_its_side:
            connection.shutdown(socket.SHUT_WR)
    except OSError:
        asking.end = "reset"
        connection.close()
        return
    reading.to_its_end()
    asking.answers = reading.text().splitlines()
    asking.end = reading.end


def play_operators_at_the_close(program, folder):
    """Of the operators that send lines around another's shutdown none takes silence for an answer."""
    askings = []
    for turn in range(20):
        own = os.path.join(folder, str(turn))
        os.mkdir(own)
        daemon = Daemon(program, own, fixed_ports())
        closing = threading.Event()
        operators = []
        for number in range(40):
            asking = Asking()
            askings.append(asking)
            # Some send before the shutdown, some with it and some after its answer.
            waits = (lambda: None, lambda: time.sleep(0.05), closing.wait)[number % 3]
            operators.append(threading.Thread(target=ask_lines, args=(daemon, asking, waits, 1 + number % 5, number % 2 == 0)))
        for operator in operators:
            operator.start()
        time.sleep(0.05)
        with daemon.connect("operators") as operator:
            operator.settimeout(PATIENCE)
            operator.sendall(b"[1] SHUTDOWN_PROGRAM\n")
            answer = operator.recv(100)
            closing.set()
        check("operators at the close: the shutdown is answered", answer, b"closing\n")
        for operator in operators:
            operator.join()
        output = daemon.end(PATIENCE)[1]
        queued = sum(answer.startswith(b"queued ") for asking in askings[-40:] for answer in asking.answers)
        check("operators at the close: what was answered `queued` is logged", queued <= int(output.split()[1]), True)
    ends = {}
    for asking in askings:
        kind = asking.end if asking.end != "whole" else f"whole, ends with {(asking.answers or [b'nothing'])[-1].split()[0].decode()}"
        ends[kind] = ends.get(kind, 0) + 1
    print(f"operators at the close: {ends}", flush=True)
    check("operators at the close: each was answered, or reset, or refused",
          [(asking.sent, asking.answers, asking.end) for asking in askings if not asking.is_right()], [])


def main():
    program = os.path.abspath(sys.argv[1])
    word = sys.argv[2] if len(sys.argv) > 2 else ""
    folder = tempfile.mkdtemp()
    try:
        plays = [play for name, play in globals().items() if name.startswith("play_") and word in name]
        run_plays(plays, program, folder)
    finally:
        shutil.rmtree(folder)
    end_tests()


main()
