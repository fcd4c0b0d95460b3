"""Plays a supervisor that lends its listening sockets to one daemon after another: python3 lent_ports_test.py PROGRAM. Ends with a
line 'N passed, M failed'."""
import os
import re
import socket
import subprocess
import sys
import tempfile
import threading
import time
from typing import NamedTuple

from daemon_clients import TIME_LIMIT, Daemon, ask, check, end_tests, free_port, packet, read_all, read_exactly

NAMES = "agents", "operators", "pages"
SENDERS = 500
# Runs a program with these descriptors as 3, 4 and so on, and tells it that they are lent to a process: itself, or the one of this number.
LENDER = """\
import os, sys
lent_to, count, descriptors, words = sys.argv[1], sys.argv[2], sys.argv[3].split(), sys.argv[4:]
for place, descriptor in enumerate(descriptors):
    os.dup2(int(descriptor), 100 + place)
for place in range(len(descriptors)):
    os.dup2(100 + place, 3 + place)
    os.close(100 + place)
os.environ["LISTEN_PID"] = lent_to or str(os.getpid())
os.environ["LISTEN_FDS"] = count or str(len(descriptors))
os.execv(words[0], words)
"""


def configuration(ports, services=1):
    text = "".join(f'{name} = "127.0.0.1:{ports[name]}"\n' for name in NAMES)
    text += 'workers = 16\nlimit = 1000000\ncapacity = 65536\ngreatest_age = 0\n[[host]]\nname = "web1"\n'
    return text + "".join(f'[[host.service]]\nname = "s{number}"\n' for number in range(services))


class Supervisor:
    """Listening sockets, and the daemon that they are lent to."""

    def __init__(self, program, folder, services=1, lent=NAMES):
        self.program, self.folder = program, folder
        self.path = os.path.join(folder, "gateway.toml")
        self.ports = {name: free_port() for name in NAMES}
        self.sockets = {name: socket.create_server(("127.0.0.1", self.ports[name]), backlog=4096) for name in lent}
        with open(self.path, "w", encoding="ascii") as file:
            file.write(configuration(self.ports, services))

    def start(self, lent_to="", count="", more=()):
        """Starts a daemon, with these descriptors after the sockets."""
        descriptors = [one.fileno() for one in self.sockets.values()] + list(more)
        words = [sys.executable, "-c", LENDER, lent_to, count, " ".join(map(str, descriptors)), self.program, "serve", "--config", self.path]
        return Run(subprocess.Popen(words, stdin=subprocess.DEVNULL, stdout=subprocess.PIPE, stderr=subprocess.PIPE, pass_fds=descriptors))

    def end(self):
        for one in self.sockets.values():
            one.close()


class Run(Daemon):
    """A daemon that was started so; where it ends before it serves, without addresses."""

    def __init__(self, process):
        self.process, self.hosts, self.ports = process, {}, {}
        for name in NAMES:
            line = process.stdout.readline().decode()
            found = re.fullmatch(rf"{name} 127\.0\.0\.1:(\d+)\n", line)
            if not found:
                self.printed = line
                return
            self.hosts[name], self.ports[name] = "127.0.0.1", int(found[1])
        # What it prints is read as it comes.
        self.printed = ""
        self.reader = threading.Thread(target=self.read, daemon=True)
        self.reader.start()

    def read(self):
        self.printed = self.process.stdout.read().decode("latin-1")

    def stop(self):
        """Shuts it down: its log page."""
        check("a shutdown is answered", ask(self, "[1] SHUTDOWN_PROGRAM"), ["closing"])
        return self.wait()

    def wait(self):
        self.process.wait(TIME_LIMIT)
        self.reader.join(TIME_LIMIT)
        return self.printed


def send(address, service, output):
    """Sends a result on a connection of its own: "sent" where that was read to its end, "cut off" after the greeting, "not greeted", or
    "refused"."""
    try:
        connection = socket.create_connection(address, TIME_LIMIT)
    except OSError:
        return "refused"
    with connection:
        found = "not greeted"
        try:
            if len(read_exactly(connection, 132)) == 132:
                found = "cut off"
                connection.sendall(packet(int(time.time()), b"web1", service, 2, output))
                connection.shutdown(socket.SHUT_WR)
                found = "sent" if read_all(connection) == b"" else found
        except OSError:
            pass
        return found


class Sender(threading.Thread):
    """Sends one result of its service after another, each with the next number, and keeps what became of each."""

    def __init__(self, address, number, is_over):
        super().__init__(daemon=True)
        self.address, self.number, self.is_over = address, number, is_over
        self.ended = {}
        self.start()

    def run(self):
        turn = 0
        while not self.is_over.wait(0.25):
            turn += 1
            began = time.monotonic()
            what = send(self.address, b"s%d" % self.number, b"%d" % turn)
            self.ended[turn] = Ended(what, began, time.monotonic())


class Ended(NamedTuple):
    """What became of a result, and when its connection began and was over."""
    what: str
    began: float
    over: float

    def met(self, daemons_ends):
        """Whether its connection was open while a daemon ended, of which each has when that began and was over."""
        return any(self.began <= over and began <= self.over for began, over in daemons_ends)


def counted(senders):
    """How many results ended so."""
    ends = [ended.what for sender in senders for ended in sender.ended.values()]
    return {what: ends.count(what) for what in ("sent", "cut off", "not greeted", "refused")}


def timed(end):
    """What this returns, and when it began and was over."""
    began = time.monotonic()
    found = end()
    return found, (began, time.monotonic())


def results(log):
    """The outputs of the accepted results in a log page, by their services."""
    found = {}
    for service, output in re.findall(r"PROCESS_SERVICE_CHECK_RESULT;web1;(s\d+);2;(\d+) -> Accepted$", log, re.M):
        found.setdefault(service, []).append(int(output))
    return found


def play_what_waits(program, folder):
    """Who comes between two daemons waits, and is served by the next one."""
    supervisor = Supervisor(program, folder)
    daemon = supervisor.start()
    check("the addresses are those of the sockets", daemon.ports, supervisor.ports)
    check("an operator is answered", ask(daemon, "[1] ADD_HOST_COMMENT;web1;1;ann;first"), ["queued 1"])
    check("a sender is greeted", send(("127.0.0.1", supervisor.ports["agents"]), b"s0", b"1"), "sent")
    check("its log has both", daemon.stop().splitlines()[0], "log 2")
    waiting = {name: socket.create_connection(("127.0.0.1", supervisor.ports[name]), TIME_LIMIT) for name in NAMES}
    for connection in waiting.values():
        connection.settimeout(TIME_LIMIT)
    waiting["operators"].sendall(b"[1] ADD_HOST_COMMENT;web1;1;ann;second\n")
    time.sleep(1.0)
    daemon = supervisor.start()
    check("who waited is greeted", len(read_exactly(waiting["agents"], 132)), 132)
    check("who waited is answered", read_exactly(waiting["operators"], 9), b"queued 1\n")
    check("who waited has the page", read_all(waiting["pages"]).startswith(b"status "), True)
    for connection in waiting.values():
        connection.close()
    daemon.process.kill()
    daemon.wait()
    supervisor.end()


def play_restarts(program, folder, restarts=4):
    """Restarts beside senders: none is refused, and each result is in one log, except those of connections that were open at a close."""
    supervisor = Supervisor(program, folder, SENDERS)
    is_over = threading.Event()
    senders = [Sender(("127.0.0.1", supervisor.ports["agents"]), number, is_over) for number in range(SENDERS)]
    logs, daemons_ends = [], []
    for turn in range(restarts + 1):
        daemon = supervisor.start()
        time.sleep(2.0)
        if turn == restarts:
            is_over.set()
            for sender in senders:
                sender.join(TIME_LIMIT)
        log, when = timed(daemon.stop)
        logs.append(results(log))
        daemons_ends.append(when)
    ends = counted(senders)
    found = {number: sum((log.get(f"s{number}", []) for log in logs), []) for number in range(SENDERS)}
    lost = [ended for sender in senders for turn, ended in sender.ended.items() if turn not in found[sender.number]]
    sent = sum(ended.what == "sent" for ended in lost)
    print(f"{restarts} restarts beside {SENDERS} senders: {ends}, {sent} sent and not taken")
    check("most senders were served by each run", min(len(log) for log in logs) > SENDERS // 2, True)
    check("none is refused", ends["refused"], 0)
    check("who was lost was open at a close", [ended for ended in lost if not ended.met(daemons_ends)], [])
    check("none comes twice, and each sender's in order", [number for number in found if found[number] != sorted(set(found[number]))], [])
    supervisor.end()


def play_crashes(program, folder, crashes=3):
    """Crashes beside senders: none is refused; a connection that is open then is lost."""
    supervisor = Supervisor(program, folder, SENDERS)
    is_over = threading.Event()
    daemon = supervisor.start()
    senders = [Sender(("127.0.0.1", supervisor.ports["agents"]), number, is_over) for number in range(SENDERS)]
    daemons_ends = []
    for _ in range(crashes):
        time.sleep(1.0)
        daemons_ends.append(timed(lambda: daemon.process.kill() or daemon.wait())[1])
        time.sleep(0.2)
        daemon = supervisor.start()
    time.sleep(1.0)
    is_over.set()
    for sender in senders:
        sender.join(TIME_LIMIT)
    ends = counted(senders)
    print(f"{crashes} crashes beside {SENDERS} senders: {ends}")
    check("none is refused in a crash", ends["refused"], 0)
    check("most senders were served in each second", ends["sent"] > SENDERS * crashes, True)
    lost = [ended for sender in senders for ended in sender.ended.values() if ended.what != "sent"]
    check("who was cut off was open at a crash", [ended for ended in lost if not ended.met(daemons_ends)], [])
    daemon.stop()
    supervisor.end()


def play_what_is_not_lent(program, folder):
    """What is lent to another process, or isn't the configuration's, is left alone, and the daemon binds its own."""
    supervisor = Supervisor(program, folder, lent=())
    with open("/dev/null", "rb") as file, socket.socket(socket.AF_INET, socket.SOCK_DGRAM) as datagrams, \
            socket.create_server(("127.0.0.1", 0)) as other:
        for what, words in (("a file, datagrams and another address", {"more": [file.fileno(), datagrams.fileno(), other.fileno()]}),
                            ("nothing", {"count": "16"}), ("no number", {"count": "three"}), ("-1", {"count": "-1"}),
                            ("to no process", {"lent_to": "no"}), ("more than there are numbers", {"count": "99999999999999999999"})):
            daemon = supervisor.start(**words)
            check(f"lent is {what}: it serves", ask(daemon, "[1] ADD_HOST_COMMENT;web1;1;ann;x"), ["queued 1"])
            check(f"lent is {what}: it ends", daemon.stop().splitlines()[0], "log 1")
            with socket.socket() as probe:
                check(f"lent is {what}: its port is refused", probe.connect_ex(("127.0.0.1", supervisor.ports["agents"])) != 0, True)
    supervisor = Supervisor(program, folder)
    daemon = supervisor.start(lent_to="1")
    daemon.process.wait(TIME_LIMIT)
    errors = daemon.process.stderr.read().decode()
    check("lent to another process: it binds, and the address is taken", (daemon.process.returncode, supervisor.ports["agents"] and
                                                                          f"127.0.0.1:{supervisor.ports['agents']}" in errors), (4, True))
    supervisor.end()
    supervisor = Supervisor(program, folder, lent=("pages",))
    daemon = supervisor.start()
    check("one port is lent: the others are bound", (ask(daemon, "[1] ADD_HOST_COMMENT;web1;1;ann;x"), "comment;1;" in daemon.page_with("comment;1;")),
          (["queued 1"], True))
    daemon.stop()
    with socket.create_connection(("127.0.0.1", supervisor.ports["pages"]), TIME_LIMIT), socket.socket() as probe:
        check("and are refused after its end", probe.connect_ex(("127.0.0.1", supervisor.ports["operators"])) != 0, True)
    supervisor.end()


def main():
    program = os.path.abspath(sys.argv[1])
    for play in (play_what_waits, play_what_is_not_lent, play_restarts, play_crashes):
        with tempfile.TemporaryDirectory() as folder:
            play(program, folder)
    end_tests()


main()
