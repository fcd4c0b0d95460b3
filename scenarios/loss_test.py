"""Plays stops, crashes and starts of the gateway's unit: python3 loss_test.py PROGRAM CTL [PART].. Ends with a line
'N passed, M failed'."""
import os
import re
import signal
import socket
import sys
import tempfile
import threading
import time

from daemon_clients import TIME_LIMIT, ask, check, end_tests, packet, read_all, read_exactly
from unit_player import Unit, addresses

GREETING = 132  # bytes
OLD = 86_400  # seconds


def host_of(number):
    """The host of a service: each has 1,000."""
    return f"web{number // 1000 + 1}"


def configuration(services, workers=1):
    text = addresses() + f"workers = {workers}\nlimit = 1000000\ncapacity = 65536\nitems = 1000000\ngreatest_age = 0\n"
    for number in range(services):
        text += f'[[host]]\nname = "{host_of(number)}"\n' if number % 1000 == 0 else ""
        text += f'[[host.service]]\nname = "s{number}"\n'
    return text


def submit(daemon, code, outputs, room=512):
    """Sends the result of each service of this number on one connection; whether it was read to its end."""
    with daemon.connect("agents") as connection:
        if len(read_exactly(connection, GREETING)) < GREETING:
            return False
        moment = int(time.time())
        for number, output in outputs:
            connection.sendall(packet(moment, host_of(number).encode(), b"s%d" % number, code, output, room))
        connection.shutdown(socket.SHUT_WR)
        read_all(connection)
    return True


def objects(page):
    """The state and the output of each object of a page, by its service."""
    rows = (line.split(";", 8) for line in page.splitlines() if line.startswith("object;"))
    return {row[2]: (row[3], row[8]) for row in rows}


def comments(page):
    return [line.split(";", 8)[8] for line in page.splitlines() if line.startswith("comment;")]


def downtime(page):
    return [line.split(";", 11)[11] for line in page.splitlines() if line.startswith("downtime;")]


def page_of(daemon, test):
    """A page of which the test holds, or the last one after too long."""
    end = time.monotonic() + TIME_LIMIT
    page = daemon.page()
    while not test(page) and time.monotonic() < end:
        time.sleep(0.02)
        page = daemon.page()
    return page


def play_a_crash(make):
    """After kill -9 the page of the last minute is restored, and its age is named; an older one isn't."""
    unit = make(configuration(3))
    unit.start()
    now = int(time.time())
    ask(unit.daemon, f"[1] SCHEDULE_HOST_DOWNTIME;web1;{now - 5};{now + 90000};1;0;0;bob;deleted today",
        f"[1] SCHEDULE_HOST_DOWNTIME;web1;{now - 5};{now + 90000};1;0;0;bob;stays", "[1] ADD_HOST_COMMENT;web1;1;ann;yesterday")
    page_of(unit.daemon, lambda page: "yesterday" in comments(page))
    unit.stop()
    unit.start()
    check("a stop keeps downtime", downtime(unit.daemon.page()), ["deleted today", "stays"])
    entry = re.search(r"^downtime;(\d+);.*;deleted today$", unit.daemon.page(), re.M)[1]
    ask(unit.daemon, f"[1] DEL_HOST_DOWNTIME;{entry}", "[1] ADD_HOST_COMMENT;web1;1;ann;today")
    submit(unit.daemon, 2, [(0, b"new today")])
    page_of(unit.daemon, lambda page: "today" in comments(page) and objects(page)["s0"][0] == "CRITICAL")
    check("a minute", unit.watch(), ("", 0, []))
    time.sleep(2.1)
    journal = unit.crash()
    page = unit.daemon.page()
    check("downtime after a crash", downtime(page), ["stays"])
    check("comments after a crash", {"yesterday", "today"} <= set(comments(page)), True)
    check("results after a crash", objects(page)["s0"], ("CRITICAL", "new today"))
    age = re.search(r"\b(\d+) seconds old", journal)
    check("its age is named", (age is not None and 2 <= int(age[1]) <= 60, journal), (True, journal))
    before = unit.page + ".before"
    with open(before, encoding="latin-1") as file:
        text = file.read()
    moment = int(re.match(r"status (\d+)", text)[1])
    with open(before, "w", encoding="latin-1") as file:
        file.write(text.replace(f"status {moment}", f"status {moment - OLD}", 1))
    journal = unit.crash()
    check("a page of yesterday is not restored", comments(unit.daemon.page()) + downtime(unit.daemon.page()), [])
    check("and is named", re.search(r"(864\d\d) seconds old", journal) is not None, True)
    check("it stays", os.path.exists(before), True)
    unit.stop()


def play_an_operators_shutdown(make):
    """What an operator shuts down is there again, though no stop was asked to keep it."""
    unit = make(configuration(3))
    unit.start()
    ask(unit.daemon, "[1] ADD_HOST_COMMENT;web1;1;ann;before its page")
    page_of(unit.daemon, lambda page: "before its page" in comments(page))
    check("a minute", unit.watch(), ("", 0, []))
    check("a shutdown", ask(unit.daemon, "[1] ADD_HOST_COMMENT;web1;1;ann;after its page", "[1] SHUTDOWN_PROGRAM"), ["queued 2", "closing"])
    unit.end()
    unit.start()
    check("comments after a shutdown", comments(unit.daemon.page()), ["before its page", "after its page"])
    unit.stop()


def play_signals(make):
    """A daemon that a signal ends comes back with the page of the last minute, also where the next one is ended before a minute is over."""
    unit = make(configuration(3))
    unit.start()
    ask(unit.daemon, "[1] ADD_HOST_COMMENT;web1;1;ann;before all of them",
        f"[1] SCHEDULE_HOST_DOWNTIME;web1;{int(time.time()) - 5};{int(time.time()) + 90000};1;0;0;bob;stays")
    submit(unit.daemon, 2, [(0, b"down")])
    page_of(unit.daemon, lambda page: "stays" in downtime(page) and objects(page)["s0"][0] == "CRITICAL")
    check("a minute", unit.watch(), ("", 0, []))
    for ending in (signal.SIGTERM, signal.SIGHUP, signal.SIGINT, signal.SIGKILL, signal.SIGTERM):
        unit.daemon.process.send_signal(ending)
        unit.end()
        unit.start()
        page = unit.daemon.page()
        check(f"all is there after {ending.name}", ("before all of them" in comments(page), downtime(page), objects(page)["s0"]),
              (True, ["stays"], ("CRITICAL", "down")))
    unit.stop()
    unit.start()
    check("and after a stop", downtime(unit.daemon.page()), ["stays"])
    unit.stop()


class Operator(threading.Thread):
    """Adds comment after comment on one connection after another, and counts those that were answered `queued`."""

    def __init__(self, daemon):
        super().__init__(daemon=True)
        self.daemon_asked = daemon
        self.queued = 0

    def run(self):
        try:
            while True:
                answers = ask(self.daemon_asked, *["[1] ADD_HOST_COMMENT;web1;1;ann;x"] * 20)
                self.queued += sum(answer.startswith("queued ") for answer in answers)
                if len(answers) < 20 or "closing" in answers:
                    return
                time.sleep(0.005)
        except OSError:
            pass


class Reader(threading.Thread):
    """Reads page after page, until there is none."""

    def __init__(self, daemon):
        super().__init__(daemon=True)
        self.daemon_read = daemon
        self.pages = 0

    def run(self):
        try:
            while self.daemon_read.page():
                self.pages += 1
        except OSError:
            pass


def play_other_readers(make):
    """A stop beside other readers of the pages and an operator, who counts what was answered `queued`."""
    missing = []
    for readers in (1, 1, 4, 16):
        unit = make(configuration(3))
        unit.start()
        others = [Reader(unit.daemon) for _ in range(readers)]
        operator = Operator(unit.daemon)
        for thread in [*others, operator]:
            thread.start()
        time.sleep(1.0)
        unit.stop()
        status = unit.statuses["ExecStop"]
        for thread in [*others, operator]:
            thread.join(TIME_LIMIT)
        unit.start()
        missing.append(operator.queued - len(comments(unit.daemon.page())))
        check(f"a stop beside {readers} readers", (status, operator.queued > 20, missing[-1]), ([0], True, 0))
        print(f"a stop beside {readers} readers of pages: {missing[-1]} of {operator.queued} answered comments missing")
        unit.stop()


class Agents(threading.Thread):
    """Sends a CRITICAL result of each of these services, on connections of a few packets, until each was read."""

    def __init__(self, unit, numbers, batch=25):
        super().__init__(daemon=True)
        self.unit = unit
        self.left = [numbers[begin:begin + batch] for begin in range(0, len(numbers), batch)]
        self.sent = []

    def run(self):
        while self.left:
            try:
                if submit(self.unit.daemon, 2, [(number, b"newer") for number in self.left[0]]):
                    self.sent += self.left.pop(0)
                    continue
            except (OSError, AttributeError):
                pass
            time.sleep(0.02)


def play_agents(make, services=4000):
    """A start beside agents whose results are newer than the kept ones."""
    for workers in (4, 16):
        unit = make(configuration(services, workers=workers))
        unit.start()
        for begin in range(0, services, 500):
            submit(unit.daemon, 0, [(number, b"kept") for number in range(begin, begin + 500)])
        page = page_of(unit.daemon, lambda page: page.count(";kept\n") == services)
        check("all are OK before", page.count(";kept\n"), services)
        unit.stop()
        unit.daemon = None
        threads = [Agents(unit, list(range(first, services, 8))) for first in range(8)]
        for thread in threads:
            thread.start()
        began = time.monotonic()
        unit.start()
        took = time.monotonic() - began
        for thread in threads:
            thread.join(100)
        sent = [number for thread in threads for number in thread.sent]
        page = objects(page_of(unit.daemon, lambda page: page.count(";newer\n") == len(sent)))
        wrong = [number for number in sent if page[f"s{number}"] != ("CRITICAL", "newer")]
        check("results that were sent", len(sent), services)
        check("newer results that show the kept OK", len(wrong), 0)
        print(f"a start beside agents of {workers} workers: {len(wrong)} of {len(sent)} newer results show the kept OK; the start took "
              f"{took:.1f} s: {unit.journal[-300:]!r}")
        unit.stop()


class Sender(threading.Thread):
    """Sends one result of its service after another, with the outputs 1, 2, 3 and so on, each on a connection of its own, as a cron job
    does. An output whose connection was refused, reset or not greeted is sent again."""

    def __init__(self, address, number, is_over):
        super().__init__(daemon=True)
        self.address, self.number, self.is_over = address, number, is_over
        self.sent = 0
        self.start()

    def run(self):
        while not self.is_over.wait(0.25):
            try:
                with socket.create_connection(self.address, TIME_LIMIT) as connection:
                    if len(read_exactly(connection, GREETING)) < GREETING:
                        continue
                    connection.sendall(packet(int(time.time()), b"web1", b"s%d" % self.number, 2, b"%d" % (self.sent + 1)))
                    connection.shutdown(socket.SHUT_WR)
                    read_all(connection)
                self.sent += 1
            except OSError:
                pass


def results(log):
    """The outputs of the accepted results in a log page, in its order, by their services."""
    found = {}
    for service, output in re.findall(r"PROCESS_SERVICE_CHECK_RESULT;web1;(s\d+);2;(\d+) -> Accepted$", log, re.M):
        found.setdefault(service, []).append(int(output))
    return found


def play_restarts_beside_senders(make, senders=500, restarts=4):
    """Restarts beside senders: what one run has applied last is what the next one begins with, and nothing newer is overwritten."""
    unit = make(configuration(senders, workers=16))
    logs = []
    unit.start()
    is_over = threading.Event()
    address = (unit.daemon.hosts["agents"], unit.daemon.ports["agents"])
    threads = [Sender(address, number, is_over) for number in range(senders)]
    for turn in range(restarts + 1):
        time.sleep(2.0)
        if turn == restarts:
            is_over.set()
            for thread in threads:
                thread.join(TIME_LIMIT)
        unit.stop()
        logs.append(results(unit.last_log()))
        if turn < restarts:
            unit.start()
    check("most senders were served by each run", min(len(log) for log in logs) > senders // 2, True)
    for turn, (one, next_one) in enumerate(zip(logs, logs[1:])):
        begins = {service: outputs[0] for service, outputs in next_one.items() if service in one}
        check(f"restart {turn}: it begins with what was applied last", begins, {service: outputs[-1] for service, outputs in one.items()})
    whole = [sum((log.get(f"s{number}", [])[turn > 0:] for turn, log in enumerate(logs)), []) for number in range(senders)]
    check("nothing newer is overwritten, nothing comes twice", [number for number, outputs in enumerate(whole)
                                                               if any(one >= next_one for one, next_one in zip(outputs, outputs[1:]))], [])
    missing = sum(thread.sent - len(set(outputs) & set(range(1, thread.sent + 1))) for thread, outputs in zip(threads, whole))
    sent = sum(thread.sent for thread in threads)
    check("senders were served over the restarts", sent > senders * restarts, True)
    print(f"{restarts} restarts beside {senders} senders: {missing} of {sent} results aren't in a log: they came in the moment of a close")


def play_quiet_agents(make, services=4000):
    """The same without agents: all results are there again."""
    unit = make(configuration(services, workers=4))
    unit.start()
    submit(unit.daemon, 1, [(number, b"kept %d" % number) for number in range(services)])
    page_of(unit.daemon, lambda page: page.count(";WARNING;") == services)
    unit.stop()
    began = time.monotonic()
    unit.start()
    check("each result is there again", objects(unit.daemon.page()).get("s7"), ("WARNING", "kept 7"))
    check("all of them", unit.daemon.page().count(";WARNING;"), services)
    print(f"{services} results were there again after {time.monotonic() - began:.1f} s")
    unit.stop()


def make_large(make, services):
    """A gateway whose page has 4 KB for each service."""
    unit = make(configuration(services))
    unit.start()
    for begin in range(0, services, 500):
        submit(unit.daemon, 2, [(number, b"%d" % number + b"x" * 4000) for number in range(begin, begin + 500)], 4096)
    page = page_of(unit.daemon, lambda page: page.count(";CRITICAL;") == services)
    check("a large page", len(page) > 4000 * services, True)
    return unit


class HeldPages:
    """The pages of a gateway at another port, where the connection of the first reader ends once it is released."""

    def __init__(self, daemon):
        self.daemon_read = daemon
        self.server = socket.create_server(("127.0.0.1", 0))
        self.port = self.server.getsockname()[1]
        self.is_read, self.is_released = threading.Event(), threading.Event()
        threading.Thread(target=self.serve, daemon=True).start()

    def serve(self):
        try:
            while True:
                connection = self.server.accept()[0]
                threading.Thread(target=self.answer, args=(connection, not self.is_read.is_set()), daemon=True).start()
        except OSError:
            pass

    def answer(self, connection, is_held):
        with connection:
            try:
                connection.sendall(self.daemon_read.page().encode("latin-1"))
            except OSError:
                # The gateway is gone.
                self.server.shutdown(socket.SHUT_RDWR)
                self.server.close()
                return
            if is_held:
                self.is_read.set()
                self.is_released.wait(TIME_LIMIT)


def play_a_stop_amid_the_watch(make):
    """A stop while the watch still reads a page from before: what was answered since is kept all the same."""
    unit = make(configuration(3))
    unit.start()
    held = HeldPages(unit.daemon)
    served = os.path.join(unit.folder, "state", "gateway.toml")
    with open(served, "w", encoding="ascii") as file:
        file.write(unit.configuration.replace(f'pages = "127.0.0.1:{unit.daemon.ports["pages"]}"', f'pages = "127.0.0.1:{held.port}"'))
    watching, stopping = threading.Thread(target=unit.watch), threading.Thread(target=unit.stop)
    watching.start()
    check("the watch reads a page", held.is_read.wait(TIME_LIMIT), True)
    check("a comment is queued", ask(unit.daemon, "[1] ADD_HOST_COMMENT;web1;1;ann;after its page"), ["queued 1"])
    stopping.start()
    stopping.join(1.0)
    held.is_released.set()
    for thread in (watching, stopping):
        thread.join(TIME_LIMIT)
    check("a stop amid the watch", unit.statuses["ExecStop"], [0])
    unit.start()
    check("what came after the watch's page", comments(unit.daemon.page()), ["after its page"])
    unit.stop()


def play_slow_readers(make, services=2000, readers=8):
    """Readers that take nothing of a page of 8 MB: check isn't CRITICAL, the watch restarts nothing, and a stop keeps the page."""
    unit = make_large(make, services)
    slow = []
    for _ in range(readers):
        reader = socket.socket()
        reader.setsockopt(socket.SOL_SOCKET, socket.SO_RCVBUF, 4096)
        reader.connect(("127.0.0.1", unit.daemon.ports["pages"]))
        slow.append(reader)
    time.sleep(1.0)
    check("the watch beside slow readers", unit.watch(), ("", 0, []))
    check("the watch once more", unit.watch(), ("", 0, []))
    unit.stop()
    check("a stop beside slow readers", unit.statuses["ExecStop"], [0])
    for reader in slow:
        reader.close()
    unit.start()
    found = objects(page_of(unit.daemon, lambda page: page.count(";CRITICAL;") == services))
    check("all is there again", [number for number in range(services) if found[f"s{number}"][1] != f"{number}" + "x" * 4000], [])
    unit.stop()


def play_disabled_checks(make):
    """Disabled passive checks stay disabled over two restarts, and one that is enabled between them is."""
    unit = make(configuration(3))
    unit.start()
    submit(unit.daemon, 0, [(0, b"before"), (1, b"before"), (2, b"before")])
    page_of(unit.daemon, lambda page: page.count(";before\n") == 3)
    ask(unit.daemon, "[1] DISABLE_PASSIVE_SVC_CHECKS;web1;s0", "[1] DISABLE_PASSIVE_SVC_CHECKS;web1;s1")
    for turn, disabled in enumerate((["s0", "s1"], ["s1"])):
        unit.stop()
        unit.start()
        submit(unit.daemon, 2, [(number, b"turn %d" % turn) for number in range(3)])
        page = objects(page_of(unit.daemon, lambda page: objects(page)["s2"] == ("CRITICAL", f"turn {turn}")))
        check(f"disabled checks after restart {turn + 1}", [name for name in ("s0", "s1", "s2") if page[name][1] != f"turn {turn}"],
              disabled)
        ask(unit.daemon, "[1] ENABLE_PASSIVE_SVC_CHECKS;web1;s0")
    unit.stop()


def play_a_large_page(make, services=5068):
    """A page of 83 MB, of outputs of 4,095 bytes that it shows by four each, and one of 4,095 LF with its acknowledgement."""
    unit = make(configuration(services))
    unit.start()
    for begin in range(0, services, 500):
        submit(unit.daemon, 2, [(number, b"\n" * 4095 if number == 0 else b"\1" * 4095)
                                for number in range(begin, min(begin + 500, services))], 4096)
    page = page_of(unit.daemon, lambda page: page.count(";CRITICAL;") == services)
    ask(unit.daemon, "[1] ACKNOWLEDGE_SVC_PROBLEM;web1;s0;2;0;1;ann;on it")
    page = page_of(unit.daemon, lambda page: ";sticky;" in page)
    before = objects(page)
    check("the watch of a large page", unit.watch(), ("", 0, []))
    began = time.monotonic()
    unit.stop()
    stopped = time.monotonic()
    kept = os.path.getsize(unit.page) if os.path.exists(unit.page) else 0
    status = unit.statuses["ExecStop"]
    journal = unit.start()
    took = time.monotonic() - stopped
    page = unit.daemon.page()
    after = objects(page)
    lost = [name for name in before if after[name] != before[name]]
    named = [name for name in lost if f";{name};" in journal]
    print(f"a page of {len(page)} bytes: the stop took {stopped - began:.1f} s with status {status}, kept {kept} bytes; the start took "
          f"{took:.1f} s; {len(lost)} of {len(before)} rows lost, {len(named)} of them named")
    check("rows that are lost and not named", len(lost) - len(named), 0)
    check("an acknowledgement of an output of 4,095 LF", (comments(page), after["s0"], ";sticky;" in page),
          (["on it"], before["s0"], True))
    unit.stop()


def play_a_typo(make):
    """A faulty configuration doesn't end a daemon that runs: neither a reload nor the day's restart nor the watch does. A stop keeps
    all also then, and where the configuration has other ports."""
    good = configuration(3)
    unit = make(good)
    unit.start()
    ask(unit.daemon, "[1] ADD_HOST_COMMENT;web1;1;ann;stays")
    page_of(unit.daemon, lambda page: "stays" in comments(page))
    pid = unit.daemon.process.pid
    unit.configure(good.replace("workers", "worker"))
    check("a reload of a faulty configuration", (unit.reload(), unit.daemon.process.poll(), "worker" in unit.journal),
          (False, None, True))
    check("the day's restart", (unit.run("ExecStartPre", "nscagate-restart.service"), unit.take_calls()), (False, []))
    check("the watch beside a faulty configuration", unit.watch(), ("", 0, []))
    check("the old daemon goes on", (unit.daemon.process.pid, comments(unit.daemon.page())), (pid, ["stays"]))
    unit.configure(good + '[[host.service]]\nname = "new"\n')
    check("a reload of a good configuration", unit.reload(), True)
    check("it is taken", ("new" in objects(unit.daemon.page()), comments(unit.daemon.page())), (True, ["stays"]))
    check("another daemon", unit.daemon.process.pid != pid, True)
    for what, text in (("a faulty configuration", good.replace("workers", "worker")), ("other ports", configuration(3))):
        ask(unit.daemon, f"[1] ADD_HOST_COMMENT;web1;1;ann;before {what}")
        unit.configure(text)
        check(f"a stop beside {what}", (unit.stop(), unit.statuses["ExecStop"]), ("", [0]))
        unit.start()
        if what == "a faulty configuration":
            check("the fault is named, and the one before is served", (unit.daemon.process.poll(), "worker" in unit.journal), (None, True))
            check("its objects are shown", "new" in objects(unit.daemon.page()), True)
            unit.configure(good)
        check(f"all is there after {what}", f"before {what}" in comments(unit.daemon.page()), True)
    unit.stop()
    first = make(good.replace("workers", "worker"))
    first.start()
    check("a first configuration with a fault isn't served", (first.daemon.process.wait(TIME_LIMIT), "worker" in first.journal), (2, True))
    first.end()


def play_quick_restarts(make):
    """Runs that end within one second have a log each, and nothing is lost over them."""
    unit = make(configuration(3))
    unit.start()
    for turn in range(6):
        ask(unit.daemon, f"[1] ADD_HOST_COMMENT;web1;1;ann;turn {turn}")
        check(f"quick stop {turn}", (unit.stop(), unit.statuses["ExecStop"]), ("", [0]))
        check(f"quick start {turn}", re.sub(r"\d+", "N", unit.start()), "nscagatectl: restoring from a log, and a page that is N seconds old\n")
    check("nothing is lost over quick restarts", comments(unit.daemon.page()), [f"turn {turn}" for turn in range(6)])
    unit.stop()


PLAYS = {"crash": play_a_crash, "signals": play_signals, "shutdown": play_an_operators_shutdown, "readers": play_other_readers, "agents": play_agents,
         "senders": play_restarts_beside_senders, "quiet": play_quiet_agents, "watch": play_a_stop_amid_the_watch, "slow": play_slow_readers,
         "disabled": play_disabled_checks, "large": play_a_large_page, "typo": play_a_typo, "quick": play_quick_restarts}


def main():
    program, ctl = (os.path.abspath(word) for word in sys.argv[1:3])
    with tempfile.TemporaryDirectory() as folder:
        made = []

        def make(text):
            made.append(Unit(program, ctl, os.path.join(folder, str(len(made))), text))
            return made[-1]
        for name in sys.argv[3:] or PLAYS:
            PLAYS[name](make)
            for unit in made:
                if unit.daemon and unit.daemon.process.poll() is None:
                    unit.daemon.process.kill()
    end_tests()


main()
