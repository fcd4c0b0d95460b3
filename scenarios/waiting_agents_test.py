"""Plays agents that take their time against the daemon: python3 waiting_agents_test.py PROGRAM [WORD]. Agents are the real send_nsca
where it is installed, at the end of a pipe, as a cron job has it. Each play has a daemon of its own; with a word only those whose name
has it. Ends with a line 'N passed, M failed'."""
import os
import random
import re
import resource
import shutil
import signal
import socket
import subprocess
import sys
import tempfile
import threading
import time

from daemon_clients import (CONFIGURATION, TIME_LIMIT, Daemon, ask, check, end_tests, packet, read_all, read_exactly,
                            run_plays)

GREETING = 132  # bytes
AT_ONCE = 0.1  # seconds
ROUNDS = 5  # in how many rounds it is looked for one in which each agent is greeted at once: a machine may stand still for a moment
SLICE = 256  # to how many peers is sent at a time
SEND_NSCA = shutil.which("send_nsca") or shutil.which("send_nsca", path="/usr/sbin")


def with_keys(**keys):
    """The configuration with other numbers."""
    text = CONFIGURATION
    for key, value in keys.items():
        line = f"{key} = {value}"
        text, count = re.subn(rf"^{key} = .*$", line, text, flags=re.MULTILINE)
        text = text if count else line + "\n" + text
    return text


def logged(output):
    """The outputs of the results in a log page, in its order."""
    return [line.rsplit(";", 1)[1].rsplit(" -> ", 1)[0] for line in output.splitlines() if "PROCESS_SERVICE_CHECK_RESULT;" in line]


def end(daemon, what):
    """Shuts the daemon down, once it has read what was sent: the outputs of the results in its log."""
    time.sleep(0.5)
    check(f"{what}: a shutdown is answered", ask(daemon, "[1] SHUTDOWN_PROGRAM"), ["closing"])
    status, output, errors = daemon.end(60.0)
    check(f"{what}: its end", (status, errors), (0, ""))
    return logged(output)


class Agent(threading.Thread):
    """A check that takes so many seconds, and a sender of its result that is started with it: `check | send_nsca`."""

    def __init__(self, daemon, folder, seconds, output):
        super().__init__()
        self.daemon, self.folder, self.seconds, self.output = daemon, folder, seconds, output
        self.sent = False
        self.start()

    def run(self):
        if SEND_NSCA is None:
            with self.daemon.connect("agents") as connection:
                greeting = read_exactly(connection, GREETING)
                time.sleep(self.seconds)
                moment = int.from_bytes(greeting[128:], "big")
                connection.sendall(packet(moment, b"web1", b"HTTP", 1, self.output.encode()))
                self.sent = True
            return
        settings = os.path.join(self.folder, "send_nsca.cfg")
        if not os.path.exists(settings):
            with open(settings, "w", encoding="ascii") as file:
                file.write("encryption_method=0\n")
        line = (f"{{ sleep {self.seconds}; printf 'web1\\tHTTP\\t1\\t{self.output}\\n'; }} |"
                f" {SEND_NSCA} -H {self.daemon.hosts['agents']} -p {self.daemon.ports['agents']} -c {settings}")
        self.sent = subprocess.run(["sh", "-c", line], capture_output=True, timeout=60.0, check=False).returncode == 0


def play_agents(program, folder, what, workers, count, seconds):
    """Agents that come at the same time, with a check of so many seconds: each result is logged."""
    daemon = Daemon(program, folder, with_keys(workers=workers))
    agents = [Agent(daemon, folder, seconds, f"agent {number}") for number in range(count)]
    for agent in agents:
        agent.join()
    check(f"{what}: each agent sent", [agent.sent for agent in agents], [True] * count)
    check(f"{what}: each result is logged, once", sorted(end(daemon, what)), sorted(f"agent {number}" for number in range(count)))


def play_two_agents_at_once(program, folder):
    play_agents(program, folder, "two agents", 1, 2, 2)


def play_forty_agents_at_once(program, folder):
    play_agents(program, folder, "forty agents", 16, 40, 2)


def play_sixty_agents_at_once(program, folder):
    play_agents(program, folder, "sixty agents", 4, 60, 5)


def greeted_after(daemon):
    """After how many seconds an agent is greeted that comes now, and its connection."""
    began = time.monotonic()
    connection = daemon.connect("agents")
    greeting = read_exactly(connection, GREETING)
    return (time.monotonic() - began if len(greeting) == GREETING else TIME_LIMIT), connection


def check_next_agents(daemon, folder, what, count=3):
    """The next agents are greeted at once, and their results are logged; so is one whose check takes 2 seconds."""
    slow = Agent(daemon, folder, 2, "slow")
    outputs = ["slow"]
    longest = TIME_LIMIT
    while longest >= AT_ONCE and len(outputs) <= ROUNDS * count:
        longest = 0.0
        for _ in range(count):
            took, connection = greeted_after(daemon)
            longest = max(longest, took)
            output = f"next {len(outputs)}"
            with connection:
                connection.sendall(packet(int(time.time()), b"web1", b"HTTP", 1, output.encode()))
            outputs.append(output)
            time.sleep(0.3)
    slow.join()
    print(f"{what}: the next agents were greeted after {longest:.3f} s at most", flush=True)
    check(f"{what}: the next agents are greeted at once", longest < AT_ONCE, True)
    check(f"{what}: a slow one sends", slow.sent, True)
    return outputs


def play_silent_peers(program, folder):
    """An agent beside a silent peer for each worker, and more of them."""
    for workers, count in ((1, 1), (1, 10), (16, 16), (16, 150), (4, 1000)):
        what = f"{count} silent peers, {workers} workers"
        daemon = Daemon(program, folder, with_keys(workers=workers))
        silent = [daemon.connect("agents") for _ in range(count)]
        for connection in silent:
            read_exactly(connection, GREETING)
        outputs = check_next_agents(daemon, folder, what)
        for connection in silent:
            connection.close()
        check(f"{what}: all is logged", sorted(end(daemon, what)), sorted(outputs))


def play_a_test_of_the_port(program, folder):
    """An agent beside a check of the port that connects and closes, each half second."""
    daemon = Daemon(program, folder, with_keys(workers=1))
    is_over = threading.Event()

    def test_port():
        while not is_over.wait(0.5):
            daemon.connect("agents").close()

    tester = threading.Thread(target=test_port)
    tester.start()
    outputs = check_next_agents(daemon, folder, "a test of the port")
    is_over.set()
    tester.join()
    check("a test of the port: all is logged", sorted(end(daemon, "a test of the port")), sorted(outputs))


def check_beside_senders(daemon, folder, what, peers, sent, seconds):
    """While each of these peers sends these bytes every so many seconds, the next agents are served; nothing else is logged."""
    is_over = threading.Event()
    slices = [peers[first:first + SLICE] for first in range(0, len(peers), SLICE)]

    def keep_sending():
        while not is_over.is_set():
            for some in slices:
                is_over.wait(seconds / len(slices))
                for peer in some:
                    try:
                        peer.sendall(sent)
                    except OSError:
                        pass

    sender = threading.Thread(target=keep_sending)
    sender.start()
    time.sleep(1.0)
    outputs = check_next_agents(daemon, folder, what)
    is_over.set()
    sender.join()
    for peer in peers:
        peer.close()
    check(f"{what}: nothing else is logged", sorted(end(daemon, what)), sorted(outputs))


def play_peers_with_stale_packets(program, folder):
    """A peer for each worker that sends a stale packet of 720 bytes each 0.8 s."""
    for workers in (1, 16, 63):
        what = f"stale packets, {workers} workers"
        daemon = Daemon(program, folder, with_keys(workers=workers, greatest_age=30))
        peers = [daemon.connect("agents") for _ in range(workers)]
        stale = packet(1, b"web1", b"HTTP", 1, b"stale", 512)
        check_beside_senders(daemon, folder, what, peers, stale, 0.8)


def raise_descriptors(count):
    """Whether this process may have so many descriptors."""
    limits = resource.getrlimit(resource.RLIMIT_NOFILE)
    try:
        resource.setrlimit(resource.RLIMIT_NOFILE, (max(count, limits[0]), max(count, limits[1])))
    except (OSError, ValueError):
        return False
    return True


def resident_kilobytes(daemon):
    with open(f"/proc/{daemon.process.pid}/status", encoding="ascii") as file:
        return int(re.search(r"^VmRSS:\s+(\d+) kB$", file.read(), re.MULTILINE)[1])


def processor_seconds(daemon):
    """What the threads of a daemon used so far."""
    used = 0
    for thread in os.listdir(f"/proc/{daemon.process.pid}/task"):
        with open(f"/proc/{daemon.process.pid}/task/{thread}/schedstat", encoding="ascii") as file:
            used += int(file.read().split()[0])
    return used / 1e9


def play_peers_that_drip(program, folder):
    """4,096 peers that are silent, and then drip a byte a second: the next agents get in, and one more lets the oldest go."""
    if not raise_descriptors(16384):
        print("peers that drip ... skipped: this process may not have 16,384 descriptors", flush=True)
        return
    what = "4,096 peers that drip"
    daemon = Daemon(program, folder, with_keys(workers=4))
    before = resident_kilobytes(daemon)
    peers = [daemon.connect("agents") for _ in range(4096)]
    for peer in peers:
        read_exactly(peer, GREETING)
    each = (resident_kilobytes(daemon) - before) / 4096
    print(f"{what}: {each:.2f} KB each", flush=True)
    check(f"{what}: memory of each", each <= 2.0, True)
    used = processor_seconds(daemon)
    time.sleep(5.0)
    used = processor_seconds(daemon) - used
    print(f"{what}: {used * 1000:.1f} ms of 5 s of a processor while they are silent", flush=True)
    check(f"{what}: silent ones take no time", used < 0.05, True)
    check_beside_senders(daemon, folder, what, peers, b"\0", 1.0)


def play_a_standstill(program, folder):
    """The daemon stands still for 12 seconds amid sessions; what came meanwhile is served."""
    for workers in (1, 4):
        what = f"a standstill, {workers} workers"
        daemon = Daemon(program, folder, with_keys(workers=workers))
        connections = [daemon.connect("agents") for _ in range(4)]
        for connection in connections:
            read_exactly(connection, GREETING)
        daemon.process.send_signal(signal.SIGSTOP)
        for number, connection in enumerate(connections):
            connection.sendall(packet(int(time.time()), b"web1", b"HTTP", 1, b"standstill %d" % number))
        time.sleep(12.0)
        daemon.process.send_signal(signal.SIGCONT)
        for connection in connections:
            connection.shutdown(socket.SHUT_WR)
            read_all(connection)
            connection.close()
        check(f"{what}: nothing is lost", sorted(end(daemon, what)), [f"standstill {number}" for number in range(4)])


def play_a_drip_is_silence(program, folder):
    """A peer that has nothing queued is let go of after the greatest age, 60 seconds at least, whatever it drips."""
    daemon = Daemon(program, folder, with_keys(greatest_age=30))
    with daemon.connect("agents") as drip:
        read_exactly(drip, GREETING)
        began = time.monotonic()
        is_gone = False
        while not is_gone and time.monotonic() - began < 70.0:
            try:
                drip.sendall(b"\0")
                drip.settimeout(1.0)
                is_gone = drip.recv(1) == b""
            except socket.timeout:
                pass
            except OSError:
                is_gone = True
        took = time.monotonic() - began
    print(f"a drip: it was let go of after {took:.1f} s", flush=True)
    check("a drip is let go of", is_gone and 58.0 < took < 66.0, True)
    end(daemon, "a drip")


def play_many_stale_connections(program, folder):
    """100,000 connections of one stale packet close nothing, and leave nothing behind."""
    what = "100,000 stale connections"
    daemon = Daemon(program, folder, with_keys(greatest_age=30, sessions=100))
    stale = packet(1, b"web1", b"HTTP", 1, b"stale", 512)
    address = (daemon.hosts["agents"], daemon.ports["agents"])

    def send_stale(count):
        for _ in range(count):
            with socket.create_connection(address, TIME_LIMIT) as connection:
                connection.sendall(stale)

    send_stale(2000)
    before = resident_kilobytes(daemon)
    for _ in range(49):
        send_stale(2000)
    grown = resident_kilobytes(daemon) - before
    print(f"{what}: {grown} KB more", flush=True)
    check(f"{what}: they cost no memory that lasts", grown < 1000, True)
    outputs = check_next_agents(daemon, folder, what)
    check(f"{what}: the port serves on", sorted(end(daemon, what)), sorted(outputs))


def play_no_memory_for_a_while(program, folder):
    """Where memory is refused for a while, agents are served on afterwards."""
    compiler = shutil.which("cc") or shutil.which("gcc")
    if compiler is None:
        print("no memory for a while ... skipped: cc is not installed", flush=True)
        return
    library = os.path.join(folder, "fail_alloc.so")
    source = os.path.join(os.path.dirname(os.path.abspath(__file__)), "fail_alloc.c")
    subprocess.run([compiler, "-shared", "-fPIC", "-O2", "-o", library, source, "-ldl"], check=True)
    refusing = os.path.join(folder, "refusing")
    starved = os.path.join(folder, "starved")
    with open(starved, "w", encoding="ascii") as file:
        file.write(f"#!/bin/sh\nLD_PRELOAD={library} FAIL_ALLOC_LARGE=1 FAIL_ALLOC_WHILE={refusing} exec {os.path.abspath(program)} \"$@\"\n")
    os.chmod(starved, 0o700)
    daemon = Daemon(starved, folder, with_keys(workers=1))
    took, connection = greeted_after(daemon)
    with connection:
        for number in range(20):
            connection.sendall(packet(int(time.time()), b"web1", b"HTTP", 1, b"before %d" % number))
    daemon.page_with("before 19")
    open(refusing, "w", encoding="ascii").close()
    for _ in range(3):
        try:
            with socket.create_connection((daemon.hosts["agents"], daemon.ports["agents"]), 1.0) as connection:
                connection.sendall(packet(int(time.time()), b"web1", b"HTTP", 1, b"meanwhile"))
                time.sleep(0.1)
        except OSError:
            pass
    os.remove(refusing)
    outputs = check_next_agents(daemon, folder, "no memory for a while")
    found = [output for output in end(daemon, "no memory for a while") if output in outputs]
    check("no memory for a while: agents are served on", sorted(found), sorted(outputs))


def play_the_backlog(program, folder):
    """As many connections wait to be accepted as the system allows, 4,096 at most."""
    with open("/proc/sys/net/core/somaxconn", encoding="ascii") as file:
        most = min(4096, int(file.read()))
    if shutil.which("ss") is None:
        print("the backlog ... skipped: ss is not installed", flush=True)
        return
    daemon = Daemon(program, folder, CONFIGURATION)
    for name, port in daemon.ports.items():
        shown = subprocess.run(["ss", "-Hltn", f"sport = :{port}"], capture_output=True, text=True, check=True).stdout.split()
        check(f"the backlog of {name}", shown[2], str(most))
    end(daemon, "the backlog")


def play_pieces(program, folder):
    """Packets of both lengths, cut anywhere, with a while between the parts: each is logged once, in its connection's order."""
    daemon = Daemon(program, folder, with_keys(workers=2))
    source = random.Random(1)

    def send(name):
        stream, outputs = b"", []
        for number in range(12):
            output = f"{name} {number}"
            stream += packet(int(time.time()), b"web1", b"HTTP", 1, output.encode(), 512 if number % 3 else 4096)
            outputs.append(output)
        cuts = sorted(cut_source.sample(range(len(stream)), 20))
        with daemon.connect("agents") as connection:
            read_exactly(connection, GREETING)
            for first, last in zip([0] + cuts, cuts + [len(stream)]):
                connection.sendall(stream[first:last])
                time.sleep(0.05)
            connection.shutdown(socket.SHUT_WR)
            read_all(connection)
        sent[name] = outputs

    sent = {}
    cut_source = source
    senders = [threading.Thread(target=send, args=(f"sender{number}",)) for number in range(20)]
    for sender in senders:
        sender.start()
    for sender in senders:
        sender.join()
    outputs = end(daemon, "pieces")
    for name, expected in sorted(sent.items()):
        check(f"pieces: of {name}", [output for output in outputs if output.split(" ")[0] == name], expected)
    check("pieces: nothing else", len(outputs), 240)


def play_bad_packets_between_pieces(program, folder):
    """Garbage ends its own connection alone, also after a pause; a half packet at the end keeps nobody."""
    daemon = Daemon(program, folder, with_keys(workers=1))
    moment = int(time.time())
    good = packet(moment, b"web1", b"HTTP", 1, b"good", 512)
    with daemon.connect("agents") as bad, daemon.connect("agents") as half, daemon.connect("agents") as after:
        for connection in (bad, half, after):
            read_exactly(connection, GREETING)
        bad.sendall(good)
        half.sendall(good + good[:300])
        time.sleep(0.3)
        bad.sendall(b"\xff" * 4304)
        check("garbage: its connection ends", bad.recv(1), b"")
        half.shutdown(socket.SHUT_WR)
        check("half a packet: its connection ends", half.recv(1), b"")
        after.sendall(good)
        after.shutdown(socket.SHUT_WR)
        read_all(after)
    check("garbage: the good ones are logged", end(daemon, "garbage"), ["good"] * 3)


PLAYS = [play for name, play in sorted(globals().items()) if name.startswith("play_") and name != "play_agents"]


def main():
    program = sys.argv[1]
    word = sys.argv[2] if len(sys.argv) > 2 else ""
    with tempfile.TemporaryDirectory() as folder:
        run_plays([play for play in PLAYS if word in play.__name__], program, folder,
                  alone=(play_a_test_of_the_port, play_many_stale_connections, play_no_memory_for_a_while, play_peers_that_drip,
                         play_peers_with_stale_packets, play_silent_peers))
    end_tests()


main()
