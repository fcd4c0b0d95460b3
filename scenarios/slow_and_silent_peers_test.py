"""Plays slow, silent and many peers against the daemon: python3 slow_and_silent_peers_test.py PROGRAM [WORD]. Each play has
a daemon of its own, and all run side by side; with a word only those whose name has it. Ends with a line 'N passed, M
failed'."""
import ctypes
import os
import re
import shutil
import socket
import struct
import subprocess
import sys
import tempfile
import threading
import time

from daemon_clients import (CONFIGURATION, TIME_LIMIT, Daemon, applier_of, ask, check, end_tests, hold, packet, read_all,
                            read_exactly, run_plays)

END = 15.0  # seconds from the answer `closing` to the end of the daemon, at most
SENDER = 10.0  # seconds after which a send_nsca gives up
AT_ONCE = 0.5  # seconds: a tenth where nothing else runs, and more beside the other plays
ROUNDS = 5  # how often it is looked whether somebody is served in time: a machine may stand still for a moment


def limited(**keys):
    """The configuration with other numbers."""
    text = CONFIGURATION
    for key, value in keys.items():
        line = f"{key} = {value}"
        text, count = re.subn(rf"^{key} = .*$", line, text, flags=re.MULTILINE)
        if count == 0:
            text = line + "\n" + text
    return text


def shut_down(daemon, what, within=END):
    """Shuts the daemon down, and returns its status, its output and its errors; it has to end in time."""
    check(f"{what}: a shutdown is answered", ask(daemon, "[1] SHUTDOWN_PROGRAM"), ["closing"])
    began = time.monotonic()
    try:
        ended = daemon.end(90.0)
    except subprocess.TimeoutExpired:
        daemon.process.kill()
        ended = (None, "", "")
    took = time.monotonic() - began
    print(f"{what}: ended {took:.2f} s after the answer", flush=True)
    check(f"{what}: the daemon ends within {within} s", took < within, True)
    check(f"{what}: its status", ended[0], 0)
    return ended


def send_one(daemon, output, time_limit=TIME_LIMIT, host=b"web1"):
    """Sends one packet as a send_nsca does: whether it was greeted in time."""
    try:
        with daemon.connect("agents") as connection:
            connection.settimeout(time_limit)
            greeting = read_exactly(connection, 132)
            if len(greeting) < 132:
                return False
            connection.sendall(packet(int.from_bytes(greeting[128:], "big"), host, b"HTTP", 1, output))
            return True
    except OSError:
        return False


def play_many_senders(program, folder):
    """A shutdown amid 400 senders at once ends the daemon."""
    daemon = Daemon(program, folder, CONFIGURATION)
    senders = [threading.Thread(target=send_one, args=(daemon, b"from %d" % number)) for number in range(400)]
    for number, sender in enumerate(senders):
        sender.start()
        if number == 300:
            closer = threading.Thread(target=shut_down, args=(daemon, "many senders", 3.0))
            closer.start()
    closer.join()
    for sender in senders:
        sender.join()


def play_open_connections(program, folder):
    """A shutdown with 500 silent connections at the agents' port ends the daemon, and lets go of all of them."""
    daemon = Daemon(program, folder, CONFIGURATION)
    silent = []
    for _ in range(500):
        connection = socket.socket()
        connection.setblocking(False)
        connection.connect_ex((daemon.hosts["agents"], daemon.ports["agents"]))
        silent.append(connection)
    time.sleep(1.0)
    shut_down(daemon, "open connections", 3.0)
    for connection in silent:
        connection.close()


def play_used_up_sessions(program, folder):
    """Once the connections that are allowed are served, a sender is refused at once."""
    daemon = Daemon(program, folder, limited(sessions=3))
    for number in range(3):
        check("used up sessions: a sender is served", send_one(daemon, b"result %d" % number), True)
    deadline = time.monotonic() + TIME_LIMIT
    refused = False
    while not refused and time.monotonic() < deadline:
        try:
            with daemon.connect("agents"):
                time.sleep(0.05)
        except ConnectionRefusedError:
            refused = True
        except ConnectionResetError:  # it came while the port was closed
            pass
    check("used up sessions: the next sender is refused", refused, True)
    check("used up sessions: pages are shown", "result 2" in daemon.page_with("result 2"), True)
    output = shut_down(daemon, "used up sessions", 3.0)[1]
    check("used up sessions: all is logged", output.split("\n", 1)[0], "log 3")


def play_a_trickle_at_the_end(program, folder):
    """A shutdown doesn't wait for a sender that is served."""
    daemon = Daemon(program, folder, CONFIGURATION)
    with daemon.connect("agents") as trickle:
        read_exactly(trickle, 132)
        trickle.sendall(b"\0")
        shut_down(daemon, "a trickle at the end", 3.0)


def end_at_once(daemon, how):
    """Connects to the agents' port, and ends at once: in order, or by a reset."""
    with daemon.connect("agents") as connection:
        if how == "reset":
            connection.setsockopt(socket.SOL_SOCKET, socket.SO_LINGER, struct.pack("ii", 1, 0))


def play_connections_that_end_at_once(program, folder):
    """A connection whose peer has gone before it is greeted costs no session, nor does one that asks for a greeting alone."""
    daemon = Daemon(program, folder, limited(sessions=50))
    # While this one is served, those after it wait, and end before they are greeted.
    for how in ("in order", "reset"):
        with daemon.connect("agents") as first:
            read_exactly(first, 132)
            for _ in range(100):
                end_at_once(daemon, how)
    for _ in range(60):
        with daemon.connect("agents") as asking:
            asking.shutdown(socket.SHUT_WR)
            greeting = read_all(asking)
        if len(greeting) != 132:
            check("ended connections: one that asks for a greeting gets it", len(greeting), 132)
    check("ended connections: a sender is served", send_one(daemon, b"after them"), True)
    check("ended connections: its result is shown", "after them" in daemon.page_with("after them"), True)
    shut_down(daemon, "ended connections", 3.0)


def play_a_slow_sender(program, folder):
    """A sender of a packet every 3 seconds is served for as long as it likes."""
    daemon = Daemon(program, folder, CONFIGURATION)
    with daemon.connect("agents") as slow:
        greeting = read_exactly(slow, 132)
        for number in range(5):
            slow.sendall(packet(int.from_bytes(greeting[128:], "big"), b"web1", b"HTTP", 1, b"slow %d" % number))
            time.sleep(3.0)
    check("a slow sender: its last result is shown", "slow 4" in daemon.page_with("slow 4"), True)
    output = shut_down(daemon, "a slow sender", 3.0)[1]
    check("a slow sender: all its results are logged", output.split("\n", 1)[0], "log 5")


OBJECTS = 1800


def large_daemon(program, folder):
    """A daemon whose page has some 8 MB."""
    services = "".join(f'[[host.service]]\nname = "S{number}"\n' for number in range(OBJECTS // 2))
    hosts = "".join(f'[[host]]\nname = "web{number}"\n{services}' for number in range(2))
    daemon = Daemon(program, folder, limited(items=OBJECTS).split("[[host]]")[0] + hosts)
    with daemon.connect("agents") as sender:
        moment = int.from_bytes(read_exactly(sender, 132)[128:], "big")
        for number in range(OBJECTS):
            host, service = b"web%d" % (number % 2), b"S%d" % (number // 2)
            sender.sendall(packet(moment, host, service, 1, b"x" * 4090 + b"%d" % number))
    daemon.page_with(f"x{OBJECTS - 1}\n")
    return daemon


def check_next_reader(daemon, what, lines=OBJECTS + 3):
    """The next reader gets the first bytes of its page at once, and the whole page."""
    for _ in range(ROUNDS):
        began = time.monotonic()
        with daemon.connect("pages") as reader:
            first = reader.recv(1)
            took = time.monotonic() - began
            page = first + read_all(reader)
        if took < AT_ONCE or page.count(b"\n") != lines:
            break
    print(f"{what}: the next reader waited {took:.3f} s", flush=True)
    check(f"{what}: the next reader is served in time", took < AT_ONCE, True)
    check(f"{what}: it gets the whole page", page.count(b"\n"), lines)


def play_readers_that_never_read(program, folder):
    """Readers that take nothing, or little, of a page hold nobody up, and no shutdown for longer than 10 seconds."""
    daemon = large_daemon(program, folder)
    with daemon.connect("pages"), daemon.connect("pages"), daemon.connect("pages"):
        time.sleep(0.3)
        check_next_reader(daemon, "readers that never read")
    with daemon.connect("pages") as slow:
        is_over = threading.Event()

        def read_slowly():
            while not is_over.wait(0.1):
                try:
                    if slow.recv(2000) == b"":
                        return
                except OSError:
                    return

        reader = threading.Thread(target=read_slowly)
        reader.start()
        time.sleep(0.3)
        check_next_reader(daemon, "a reader of 20 KB a second")
        is_over.set()
        reader.join()
    with daemon.connect("pages"):
        time.sleep(0.3)
        shut_down(daemon, "a reader that never reads at the end")


def play_readers_that_hold_on(program, folder):
    """Readers that hold on after their page hold nobody up, up to 300 of them."""
    daemon = Daemon(program, folder, CONFIGURATION)
    for count in (20, 128, 300):
        holding = [daemon.connect("pages") for _ in range(count)]
        for reader in holding[-100:]:
            read_all(reader)
        check_next_reader(daemon, f"{count} readers that hold on", 3)
        for reader in holding:
            reader.close()
    shut_down(daemon, "readers that hold on", 3.0)


def kilobytes_of(daemon, name):
    """The daemon's memory by this line of its status: what it has, or the most that it had."""
    with open(f"/proc/{daemon.process.pid}/status", encoding="ascii") as file:
        return int(re.search(rf"^{name}:\s+(\d+) kB$", file.read(), re.MULTILINE)[1])


def play_many_readers_that_never_read(program, folder):
    """For 60 readers that take nothing of a page of 8 MB the daemon keeps it once."""
    daemon = large_daemon(program, folder)
    deaf = []
    for _ in range(60):
        reader = socket.socket()
        reader.setsockopt(socket.SOL_SOCKET, socket.SO_RCVBUF, 4096)
        reader.connect((daemon.hosts["pages"], daemon.ports["pages"]))
        deaf.append(reader)
    deaf[-1].settimeout(60.0)
    deaf[-1].recv(1)  # all others have been served
    check_next_reader(daemon, "60 readers that never read")
    kilobytes = kilobytes_of(daemon, "VmRSS")
    print(f"60 readers that never read: the daemon has {kilobytes // 1024} MiB", flush=True)
    check("60 readers that never read: the daemon keeps no page for each", kilobytes < 150 * 1024, True)
    for reader in deaf:
        reader.close()
    shut_down(daemon, "60 readers that never read", 4.0)


def read_to_its_end(connection, time_limit=TIME_LIMIT):
    """What comes until a connection ends, also by a reset."""
    pieces = []
    connection.settimeout(time_limit)
    try:
        while piece := connection.recv(65536):
            pieces.append(piece)
    except OSError:
        pass
    return b"".join(pieces)


def play_a_reader_that_writes(program, folder):
    """A reader that sends a request first gets its whole page, as a browser does."""
    daemon = large_daemon(program, folder)
    for number in range(5):
        with daemon.connect("pages") as reader:
            reader.sendall(b"GET / HTTP/1.1\r\nHost: gateway\r\n\r\n" + b"X: y\r\n" * 1000 * number)
            try:
                page = read_all(reader).decode("latin-1")
            except OSError as error:
                page = str(error)
        check("a reader that writes: it gets the whole page", page.count("\n"), OBJECTS + 3)
    shut_down(daemon, "a reader that writes", 3.0)


def check_next_operator(daemon, what):
    """The next operator is answered at once."""
    for _ in range(ROUNDS):
        began = time.monotonic()
        with daemon.connect("operators") as other:
            other.sendall(b"[1] ADD_HOST_COMMENT;web1;0;ann;hi\n")
            answer = other.recv(100)
        took = time.monotonic() - began
        if took < AT_ONCE or answer[:7] != b"queued ":
            break
    print(f"{what}: the next one waited {took:.3f} s", flush=True)
    check(f"{what}: the next one is answered", answer[:7], b"queued ")
    check(f"{what}: it is answered in time", took < AT_ONCE, True)


def play_an_operator_that_never_reads(program, folder):
    """An operator that takes no answer holds nobody up."""
    daemon = Daemon(program, folder, limited(items=1000000, limit=1000000))
    deaf = socket.socket()
    deaf.setsockopt(socket.SOL_SOCKET, socket.SO_RCVBUF, 4096)
    deaf.connect((daemon.hosts["operators"], daemon.ports["operators"]))
    deaf.settimeout(1.0)
    try:
        for _ in range(2000):
            deaf.sendall(b"x\n" * 4000)
    except OSError:
        pass
    check_next_operator(daemon, "an operator that never reads")
    shut_down(daemon, "an operator that never reads", 4.0)
    deaf.close()


def play_silent_operators(program, folder):
    """Operators that send nothing, or a part of a line, hold nobody up, and are let go of after 60 seconds; up to 300 of them."""
    daemon = Daemon(program, folder, CONFIGURATION)
    silent = [daemon.connect("operators") for _ in range(3)]
    silent[2].sendall(b"[1] ADD_HOST")
    began = time.monotonic()
    check_next_operator(daemon, "three silent operators")
    more = [daemon.connect("operators") for _ in range(300)]
    check_next_operator(daemon, "300 silent operators")
    check("300 silent operators: the first was let go of", read_to_its_end(silent.pop(0)), b"")
    more[-1].sendall(b"[1] x\n")
    check("300 silent operators: the last is served", more[-1].recv(100), b"bad UnknownCommand\n")
    for connection in more:
        connection.close()
    slow = daemon.connect("operators")
    check("silent operators: they are let go of", read_to_its_end(slow, 70.0), b"")
    took = time.monotonic() - began
    check("silent operators: after a minute", 59.0 < took < 65.0, True)
    shut_down(daemon, "silent operators", 3.0)


def play_an_operator_between_lines(program, folder):
    """Between two lines of an operator others are served, and a shutdown too; its own connection goes on."""
    daemon = Daemon(program, folder, CONFIGURATION)
    with daemon.connect("operators") as talking:
        for number in range(3):
            talking.sendall(b"[1] ADD_HOST_COMMENT;web1;0;ann;of the first\n[1] ADD_HO")
            check("between lines: the first is answered", talking.recv(100), b"queued %d\n" % (2 * number + 1))
            check_next_operator(daemon, "between lines")
            talking.sendall(b"ST;1\n")
            check("between lines: the line goes on", talking.recv(100), b"bad UnknownCommand\n")
        output = shut_down(daemon, "between lines", 3.0)[1]
    check("between lines: all is logged", output.split("\n", 1)[0], "log 6")


def play_two_talking_operators(program, folder):
    """Two operators that send without a pause are served in turn: neither waits for the end of the other."""
    daemon = Daemon(program, folder, limited(items=1000000, limit=1000000, capacity=65536))
    with daemon.connect("operators") as first, daemon.connect("operators") as second:
        lines = b"[1] ADD_HOST_COMMENT;web1;0;ann;hi\n" * 100000
        readers = []
        for connection in (first, second):
            threading.Thread(target=send_all, args=(connection, lines + b"x\n")).start()
            readers.append(threading.Thread(target=lambda connection=connection, place=len(readers): ends.insert(
                0, (place, read_until(connection, b"bad NoTime\n")))))
        ends = []
        for reader in readers:
            reader.start()
        time.sleep(0.1)
        check_next_operator(daemon, "two talking operators")
        for reader in readers:
            reader.join()
    counts = [answers.count(b"queued") for _, answers in ends]
    check("two talking operators: each line is queued", counts, [100000, 100000])
    output = shut_down(daemon, "two talking operators", 10.0)[1]
    check("two talking operators: all is logged", output.split("\n", 1)[0], "log 200001")


def read_until(connection, end):
    """What comes until it ends so."""
    pieces = [b""]
    while not (pieces[-2:] and b"".join(pieces[-2:]).endswith(end)):
        piece = connection.recv(65536)
        if not piece:
            break
        pieces.append(piece)
    return b"".join(pieces)


def play_answers_after_the_lines(program, folder):
    """An operator that sends 5,000 lines, a shutdown and two lines more, and reads only then, gets all 5,001 answers."""
    daemon = Daemon(program, folder, limited(capacity=10000))
    with daemon.connect("operators") as operator:
        operator.sendall(b"[1] ADD_HOST_COMMENT;web1;0;ann;hi\n" * 5000 + b"[1] SHUTDOWN_PROGRAM\n" + b"[1] x\n" * 2)
        time.sleep(0.3)
        answers = read_all(operator).decode().splitlines()
    check("answers after the lines: all are there",
          answers, [f"queued {number}" for number in range(1, 5001)] + ["closing"])
    status, output, errors = daemon.end()
    check("answers after the lines: all is logged", (status, output.split("\n", 1)[0], errors), (0, "log 5000", ""))


def play_too_many_lines(program, folder):
    """An operator that sends more lines than it may gets all of its answers."""
    daemon = Daemon(program, folder, limited(items=10000, limit=1000000))
    for _ in range(5):
        with daemon.connect("operators") as operator:
            lines = b"[1] ADD_HOST_COMMENT;web1;0;ann;a comment of some length\n" * 20000
            sender = threading.Thread(target=lambda: send_all(operator, lines))
            sender.start()
            try:
                answers = read_all(operator).count(b"\n")
            except OSError as error:
                answers = str(error)
            sender.join()
        check("too many lines: each that may be is answered", answers, 10000)
    output = shut_down(daemon, "too many lines", 3.0)[1]
    check("too many lines: all of them are logged", output.split("\n", 1)[0], "log 50000")


def talk(daemon, count):
    """Sends so many lines that are no commands on one connection: how many answers came."""
    answers = 0
    with daemon.connect("operators") as operator:
        operator.settimeout(60.0)
        sender = threading.Thread(target=send_all, args=(operator, b"x\n" * count))
        sender.start()
        while answers < count:
            piece = operator.recv(65536)
            if not piece:
                break
            answers += piece.count(b"\n")
        sender.join()
    return answers


def play_lines_that_are_no_commands(program, folder):
    """Operators that send a million lines that are no commands use up no memory, one alone and two at once; a third is answered
    meanwhile."""
    what = "lines that are no commands"
    daemon = Daemon(program, folder, limited(items=1000000))
    ask(daemon, "[1] x")
    before = {name: kilobytes_of(daemon, name) for name in ("VmRSS", "VmHWM")}
    check(f"{what}: each of one operator is answered", talk(daemon, 500000), 500000)
    answers = []
    talking = [threading.Thread(target=lambda: answers.append(talk(daemon, 250000))) for _ in range(2)]
    for thread in talking:
        thread.start()
    slowest = 0.0
    others = []
    while any(thread.is_alive() for thread in talking):
        began = time.monotonic()
        others += ask(daemon, "x")
        slowest = max(slowest, time.monotonic() - began)
        time.sleep(0.1)
    for thread in talking:
        thread.join()
    print(f"{what}: a third operator is answered within {slowest:.2f} s", flush=True)
    check(f"{what}: a third operator is answered each time", set(others), {"bad NoTime"})
    check(f"{what}: a third operator is answered soon", slowest < 5.0, True)
    check(f"{what}: each of two operators is answered", answers, [250000, 250000])
    for name, kilobytes in before.items():
        grown = kilobytes_of(daemon, name) - kilobytes
        print(f"{what}: {name} has grown by {grown} kB", flush=True)
        check(f"{what}: memory hardly grows ({name})", grown < 4096, True)
    shut_down(daemon, what, 4.0)


def send_all(connection, data):
    try:
        connection.sendall(data)
    except OSError:
        pass


def end_its_side(connection):
    try:
        connection.shutdown(socket.SHUT_WR)
    except OSError:
        pass


def send_burst(daemon, thousands):
    """Begins to send so many thousand packets by each of four connections at once: the threads, and a list that gets an item
    for each thousand that is sent."""
    sent = []

    def send_many(number):
        with daemon.connect("agents") as connection:
            connection.settimeout(60.0)
            moment = int.from_bytes(read_exactly(connection, 132)[128:], "big")
            pool = b"".join(packet(moment, b"web1", b"HTTP", one % 4, b"%d %d" % (number, one)) for one in range(1000))
            for _ in range(thousands):
                connection.sendall(pool)
                sent.append(number)

    senders = [threading.Thread(target=send_many, args=(number,)) for number in range(4)]
    for sender in senders:
        sender.start()
    return senders, sent


def end_burst(daemon, senders):
    """Waits until each packet of a burst was queued and applied."""
    for sender in senders:
        sender.join()
    # The last connection is served to its end before the next one, which a silent sender shows.
    check("the sender after a burst is served", send_one(daemon, b"the last one"), True)
    daemon.page_with("the last one")


def play_a_standstill(program, folder):
    """While the applier stands still, a line is answered `full` after 10 seconds; no packet of a burst is lost, nor the first
    one of a connection."""
    daemon = Daemon(program, folder, limited(items=100000, limit=200000, workers=5))
    applier = applier_of(daemon)
    senders, sent = send_burst(daemon, 20)
    while len(sent) < 8:
        time.sleep(0.001)
    held = []
    holder = threading.Thread(target=lambda: held.append(hold(applier, lambda: time.sleep(14.0))))
    holder.start()
    time.sleep(0.5)
    check("a standstill: a new sender is greeted", send_one(daemon, b"the first one"), True)
    began = time.monotonic()
    answers = ask(daemon, "[1] ADD_HOST_COMMENT;web1;0;ann;hi")
    took = time.monotonic() - began
    holder.join()
    if held == [True]:
        check("a standstill: a line is answered", answers, ["full"])
        check("a standstill: it waited for 10 s", 10.0 <= took < 13.0, True)
    else:
        print("a standstill ... skipped: the system lets nobody hold a thread", flush=True)
    end_burst(daemon, senders)
    output = shut_down(daemon, "a standstill", END)[1]
    check("a standstill: each packet is logged", output.split("\n", 1)[0], f"log {80002 + answers.count('queued 1')}")


def play_many_lines(program, folder):
    """No line of an operator finds the queue full while the log has room, and no packet of four connections."""
    daemon = Daemon(program, folder, limited(items=100000, limit=1000000))
    with daemon.connect("operators") as operator:
        lines = b"[1] ADD_HOST_COMMENT;web1;0;ann;hi\n" * 100000
        sender = threading.Thread(target=lambda: send_all(operator, lines + b"x\n"))
        sender.start()
        found = {}
        rest = b""
        while sum(found.values()) < 100000:
            piece = operator.recv(65536)
            if not piece:
                break
            answers = (rest + piece).split(b"\n")
            rest = answers.pop()
            for answer in answers:
                found[answer[:6]] = found.get(answer[:6], 0) + 1
        sender.join()
    check("many lines: each is queued", found, {b"queued": 100000})

    end_burst(daemon, send_burst(daemon, 40)[0])
    output = shut_down(daemon, "many lines", END)[1]
    check("many packets: each is logged", output.split("\n", 1)[0], "log 260001")


def play_a_full_log(program, folder):
    """Who submits to a full log waits for nothing."""
    daemon = Daemon(program, folder, limited(limit=10, capacity=20))
    check("a full log: lines are answered", ask(daemon, *["[1] ADD_HOST_COMMENT;web1;0;ann;hi"] * 10),
          [f"queued {number}" for number in range(1, 11)])
    daemon.page_with("comment;10;")
    began = time.monotonic()
    answers = ask(daemon, *["[1] ADD_HOST_COMMENT;web1;0;ann;hi"] * 300)
    check("a full log: lines are refused once the queue is full",
          answers, [f"queued {number}" for number in range(11, 31)] + ["full"] * 280)
    check("a full log: senders are greeted", [send_one(daemon, b"x", SENDER) for _ in range(40)], [True] * 40)
    took = time.monotonic() - began
    print(f"a full log: 280 lines and 40 senders took {took:.2f} s", flush=True)
    check("a full log: nobody waits for room", took < 5.0, True)
    check("a full log: a shutdown is answered", ask(daemon, "[1] SHUTDOWN_PROGRAM"), ["closing"])
    status, output, errors = daemon.end()
    check("a full log: it is reported", (status, output.split("\n", 1)[0], errors), (3, "log 10", "nscagate: LogFull\n"))


def play_bursts(program, folder):
    """Senders and operators amid whom the daemon is shut down: what was answered is logged once, in order."""
    for turn in range(10):
        daemon = Daemon(program, folder, limited(items=1000, limit=1000000))
        answered = {}

        def send_some(number, daemon=daemon):
            try:
                with daemon.connect("agents") as connection:
                    moment = int.from_bytes(read_exactly(connection, 132)[128:], "big")
                    connection.sendall(b"".join(packet(moment, b"web1", b"HTTP", 1, b"%d.%d" % (number, one))
                                                for one in range(20)))
            except OSError:
                pass

        def ask_some(number, daemon=daemon, answered=answered):
            try:
                with daemon.connect("operators") as connection:
                    lines = [f"[1] ADD_HOST_COMMENT;web1;0;ann;{number}.{one}" for one in range(200)]
                    send_all(connection, "".join(line + "\n" for line in lines).encode())
                    end_its_side(connection)
                    # Where the daemon ends meanwhile, its answers so far come, and then a reset.
                    answers = read_to_its_end(connection).decode().splitlines()
                    for line, answer in zip(lines, answers):
                        if answer.startswith("queued "):
                            answered[int(answer.split()[1])] = line[4:]
            except OSError:
                pass

        peers = [threading.Thread(target=send_some, args=(number,)) for number in range(64)]
        peers[32:32] = [threading.Thread(target=ask_some, args=(number,)) for number in range(2)]
        peers[16:16] = [threading.Thread(target=ask_some, args=(number,)) for number in range(2, 4)]
        for peer in peers:
            peer.start()
        time.sleep(0.01 * turn)
        output = shut_down(daemon, f"burst {turn}")[1]
        for peer in peers:
            peer.join()
        logged = re.findall(r"^\[\d+\] (\d+):(\d+) (.*) -> Accepted$", output, flags=re.MULTILINE)
        lines = [(int(number), body) for client, number, body in logged if client == "2"]
        check("a burst: what an operator was answered is logged, in order", lines, sorted(answered.items()))
        packets = [(int(number), body) for client, number, body in logged if client == "1"]
        check("a burst: packets are numbered in order", [number for number, _ in packets], list(range(1, len(packets) + 1)))
        sent = [body.rsplit(";", 1)[1].split(".") for _, body in packets]
        for number in range(64):
            ones = [int(one) for sender, one in sent if sender == str(number)]
            if ones != list(range(len(ones))):
                check("a burst: a sender's packets are logged once, in order", ones, list(range(len(ones))))


def processor_seconds(daemon):
    """What the threads of a daemon used so far."""
    sum_of_all = 0
    for thread in os.listdir(f"/proc/{daemon.process.pid}/task"):
        with open(f"/proc/{daemon.process.pid}/task/{thread}/schedstat", encoding="ascii") as file:
            sum_of_all += int(file.read().split()[0])
    return sum_of_all / 1e9


def play_nothing(program, folder):
    """A daemon that nobody asks takes less than a thousandth of a processor, with 63 workers too; twice that on a slow machine."""
    for workers in (1, 63):
        daemon = Daemon(program, folder, limited(workers=workers))
        time.sleep(1.0)
        before = processor_seconds(daemon)
        time.sleep(10.0)
        used = processor_seconds(daemon) - before
        print(f"an idle daemon with {workers} workers used {used * 1000:.1f} ms of 10 s", flush=True)
        check("an idle daemon is idle", used <= 0.02, True)
        shut_down(daemon, "an idle daemon", 2.0)


def play_few_descriptors(program, folder):
    """Where the system grants fewer descriptors than the daemon needs, it doesn't start, and names the address."""
    path = os.path.join(folder, "gateway.toml")
    with open(path, "w", encoding="ascii") as file:
        file.write(limited(workers=16))
    ran = subprocess.run(["sh", "-c", f"ulimit -n 32; exec {program} serve --config {path}"], capture_output=True, text=True,
                         timeout=TIME_LIMIT, check=False)
    check("few descriptors: it doesn't start", (ran.returncode, ran.stdout, ran.stderr), (4, "", "nscagate: bind 127.0.0.1:0\n"))


def starved_daemon(program, folder, configuration, large):
    """A daemon, and a file: while it is there, requests for so many bytes or more are refused. None where that can't be done."""
    compiler = shutil.which("cc") or shutil.which("gcc")
    if compiler is None:
        print("without memory ... skipped: cc is not installed", flush=True)
        return None
    library = os.path.join(folder, "fail_alloc.so")
    source = os.path.join(os.path.dirname(os.path.abspath(__file__)), "fail_alloc.c")
    subprocess.run([compiler, "-shared", "-fPIC", "-O2", "-o", library, source, "-ldl"], check=True)
    refusing = os.path.join(folder, "refusing")
    program_path = os.path.join(folder, "starved")
    with open(program_path, "w", encoding="ascii") as file:
        file.write(f"#!/bin/sh\nLD_PRELOAD={library} FAIL_ALLOC_LARGE={large} FAIL_ALLOC_WHILE={refusing} exec {os.path.abspath(program)} \"$@\"\n")
    os.chmod(program_path, 0o700)
    return Daemon(program_path, folder, configuration), refusing


def play_no_memory_for_a_record(program, folder):
    """Where there is no memory for the next record, a shutdown ends the daemon, and the log page shows what was applied."""
    started = starved_daemon(program, folder, limited(limit=1000000, items=1000000), 1 << 20)
    if started is None:
        return
    daemon, refusing = started
    open(refusing, "w", encoding="ascii").close()
    with daemon.connect("operators") as operator:
        operator.settimeout(60.0)
        threading.Thread(target=send_all, args=(operator, b"[1] ADD_HOST_COMMENT;web1;0;ann;hi\n" * 40000)).start()
        answers = read_until(operator, b"full\n")
    queued = answers.count(b"queued")
    check("no memory for a record: lines are refused once the queue is full", queued > 1000, True)
    check("no memory for a record: a shutdown is answered", ask(daemon, "[1] SHUTDOWN_PROGRAM"), ["closing"])
    began = time.monotonic()
    status, output, errors = daemon.end(60.0)
    took = time.monotonic() - began
    print(f"no memory for a record: ended {took:.2f} s after the answer", flush=True)
    check("no memory for a record: it ends in time", took < END, True)
    check("no memory for a record: it is reported", (status, errors), (3, "nscagate: OutOfMemory\n"))
    logged = int(output.split("\n", 1)[0].split()[1]) if output.startswith("log ") else 0
    check("no memory for a record: what was applied is logged", queued - 257 <= logged <= queued and output.count("\n") == logged + 1, True)


def play_no_memory_for_a_board(program, folder):
    """Where there is no memory for a last board, a shutdown ends the daemon, and all is logged."""
    services = "".join(f'[[host.service]]\nname = "S{number}"\n' for number in range(900))
    hosts = "".join(f'[[host]]\nname = "web{number}"\n{services}' for number in range(2))
    started = starved_daemon(program, folder, CONFIGURATION.split("[[host]]")[0] + hosts, 1 << 16)
    if started is None:
        return
    daemon, refusing = started
    check("no memory for a board: a line is answered", ask(daemon, "[1] ADD_HOST_COMMENT;web1;0;ann;hi"), ["queued 1"])
    daemon.page_with("comment;1;")
    open(refusing, "w", encoding="ascii").close()
    check("no memory for a board: a line is answered", ask(daemon, "[1] ADD_HOST_COMMENT;web1;0;ann;hi"), ["queued 2"])
    output = shut_down(daemon, "no memory for a board")[1]
    check("no memory for a board: all is logged", output.split("\n", 1)[0], "log 2")


PLAYS = [play for name, play in sorted(globals().items()) if name.startswith("play_")]


def main():
    program = sys.argv[1]
    word = sys.argv[2] if len(sys.argv) > 2 else ""
    with tempfile.TemporaryDirectory() as folder:
        run_plays([play for play in PLAYS if word in play.__name__], program, folder)
    end_tests()


main()
