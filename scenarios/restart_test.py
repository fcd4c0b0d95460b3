"""Plays days of a daemon that nscagatectl stops, and hands to the next one: python3 restart_test.py PROGRAM CTL [PART].
Ends with a line 'N passed, M failed'."""
import os
import re
import socket
import subprocess
import sys
import tempfile
import threading
import time

from daemon_clients import TIME_LIMIT, Daemon, ask, check, end_tests, free_port, packet, read_all, read_exactly

HEAD = """\
agents = "127.0.0.1:0"
operators = "127.0.0.1:0"   # any free port
pages = '127.0.0.1:0'
capacity = 256
greatest_age = 0
"""

OBJECTS = """\
limit = 100_000

[[host]]
freshness = 3000
name = "web1"  # a host

[[ host.service ]]
name = "HTTP"
freshness = 3_000

[[host.service]]
name = 'a\\b'

[[host.service]]
name = "c\\\\d \xc3\xa9"

[[host]]
name = "db1"
[[host.service]]
name = "SQL # 1"
freshness = 2
"""

CONFIGURATION = HEAD + OBJECTS
STOPPED = (0, "stopped: all that was queued is kept\n", "")
EVERY_BYTE = "".join(chr(byte) for byte in range(1, 256) if chr(byte) not in "\n\r\t ;") + "\t\\\\x0a\\"
program = ctl = folder = ""


class Logged(Daemon):
    """A daemon that prints to the file `log`, after what earlier runs printed, as the unit has it."""

    def __init__(self, configuration, kept=b""):
        path, log, text = (os.path.join(folder, name) for name in ("gateway.toml", "log", "text"))
        write(path, configuration)
        with open(text, "wb") as file:
            file.write(kept)
        with open(log, "ab") as file, open(text, "rb") as kept_file:
            self.earlier = file.tell()
            self.process = subprocess.Popen([program, "serve", "--config", path], stdin=kept_file, stdout=file, stderr=subprocess.PIPE)
        end = time.monotonic() + TIME_LIMIT
        while self.printed().count("\n") < 3 and time.monotonic() < end:
            time.sleep(0.01)
        found = re.findall(r"^(\w+) ([0-9.]+):(\d+)$", self.printed(), re.M)
        self.hosts = {name: host for name, host, _ in found}
        self.ports = {name: int(port) for name, _, port in found}

    def end(self, time_limit=TIME_LIMIT):
        errors = self.process.communicate(timeout=time_limit)[1]
        return self.process.returncode, self.printed(), errors.decode("latin-1")

    def printed(self):
        return read(os.path.join(folder, "log"))[self.earlier:]


def start(configuration=CONFIGURATION, kept=b""):
    """A daemon of this configuration, which is handed this text."""
    return Logged(configuration, kept)


def send(daemon, *packets):
    with daemon.connect("agents") as connection:
        read_exactly(connection, 132)
        for host, service, code, output in packets:
            host, service, output = (text.encode("latin-1") for text in (host, service, output))
            connection.sendall(packet(1, host, service, code, output))
        connection.shutdown(socket.SHUT_WR)
        read_all(connection)
    daemon.page_with(";" + escaped(packets[-1][3]) + "\n")


def escaped(text):
    shown = {byte: f"\\x{byte:02x}" for byte in list(range(32)) + [127]}
    return text.replace("\\", "\\\\").translate(shown)


def control(*words):
    """The status of nscagatectl with these words, what it printed, and its errors."""
    ran = subprocess.run([ctl, *words], capture_output=True, timeout=200, check=False)
    return ran.returncode, ran.stdout.decode("latin-1"), ran.stderr.decode("latin-1")


def addresses(daemon):
    return ["--config", os.path.join(folder, "gateway.toml"), "--operators", f"127.0.0.1:{daemon.ports['operators']}",
            "--pages", f"127.0.0.1:{daemon.ports['pages']}"]


def stop(daemon, kept, *words):
    """How the stop ended, and then the daemon, which is waited for meanwhile, as systemd does."""
    ended = []
    waiting = threading.Thread(target=lambda: ended.append(daemon.end()))
    waiting.start()
    status = control("stop", *addresses(daemon), *words, kept)
    waiting.join()
    return status, ended[0]


def plan(kept, *words):
    """The status of a restore of the files that are kept, the text that it prints, and its errors."""
    ran = subprocess.run([ctl, "restore", "--config", os.path.join(folder, "gateway.toml"), *words, kept], capture_output=True, timeout=200,
                         check=False)
    return ran.returncode, ran.stdout, ran.stderr.decode("latin-1")


def restore(kept, *words, configuration=CONFIGURATION):
    """A daemon that is handed what the files say; the status of the restore, and its errors."""
    write(os.path.join(folder, "gateway.toml"), configuration)
    status, text, errors = plan(kept, *words)
    return start(configuration, text), status, errors


def parts(text):
    """The packets of a text that is kept, each as host, service, code and output, and its lines."""
    packets = []
    while text[:1] == b"\0":
        host, service, output = (text[first:last].split(b"\0", 1)[0].decode("latin-1") for first, last in ((14, 78), (78, 206), (206, 4302)))
        packets.append((host, service, int.from_bytes(text[12:14], "big", signed=True), output))
        text = text[4304:]
    return packets, text.decode("latin-1")


def read(path):
    with open(path, encoding="latin-1") as file:
        return file.read()


def write(path, text):
    with open(path, "w", encoding="latin-1", newline="") as file:
        file.write(text)
    return path


def rows(page):
    """The lines of a page, by their first word, each as its fields."""
    counts = {"object": 8, "comment": 8, "downtime": 11}
    found = {"status": [], "object": [], "comment": [], "downtime": [], "closing": []}
    for line in page.split("\n")[:-1]:
        word = line.replace(" ", ";").split(";", 1)[0]
        found[word].append(line.split(";", counts.get(word, 1))[1:])
    return found


def meaning(page, becomes_fixed=False):
    """What a page shows, but for moments and ids: a trigger by the text of its entry. Downtime that has begun as what
    is left of it where so asked."""
    parts = rows(page)
    objects = [(host, service, state, last == "-", ack, depth, output)
               for host, service, state, last, _, ack, depth, output in parts["object"]]
    comments = sorted((host, service, source, keeps, author, text)
                      for _, host, service, source, keeps, _, author, text in parts["comment"])
    texts = {entry[0]: entry[10] for entry in parts["downtime"]}
    downtime = []
    for _, host, service, kind, trigger, starts, ends, lasts, begin, author, text in parts["downtime"]:
        if becomes_fixed and begin != "-":
            if kind == "flexible":
                starts, ends = begin, str(min(int(begin) + int(lasts), 4294967295))
            elif trigger != "0" and trigger not in texts:
                starts = begin
            kind, trigger = "fixed", "0"
        downtime.append((host, service, kind, texts.get(trigger, ""), starts, ends, lasts, begin == "-", author, text))
    return objects, comments, sorted(downtime)


def compare(what, kept, page):
    before = meaning(kept, becomes_fixed=True)
    after = meaning(page)
    for name, one, other in zip(("objects", "comments", "downtime"), before, after):
        check(f"{what}: {name}", other, one)


def fill(daemon):
    """A day with all that can be restored. Entries of 2 and 3 seconds have begun and are over at its end."""
    now = int(time.time())
    send(daemon, ("web1", "", 0, "up"), ("web1", "a\\b", 1, "warm"), ("web1", "c\\d \xc3\xa9", 3, EVERY_BYTE),
         ("db1", "", 1, "down"))
    ask(daemon,
        # 1 waits for a problem and has 2, 3 and 4 in a chain; 5 begins with its problem for 2 seconds, and 6, 7 and 8
        # with it.
        f"[1] SCHEDULE_SVC_DOWNTIME;web1;a\\b;{now - 5};{now + 900};0;0;60;bob;waits; {EVERY_BYTE}",
        f"[1] SCHEDULE_HOST_DOWNTIME;web1;{now - 5};{now + 700};0;1;60;{EVERY_BYTE};flexible after waits",
        f"[1] SCHEDULE_SVC_DOWNTIME;web1;HTTP;{now - 5};{now + 800};1;2;60;bob;fixed after flexible",
        f"[1] SCHEDULE_HOST_DOWNTIME;db1;{now - 5};{now + 3};0;3;70;bob;its window is over",
        f"[1] SCHEDULE_SVC_DOWNTIME;web1;HTTP;{now - 5};{now + 900};0;0;2;bob;two seconds",
        f"[1] SCHEDULE_SVC_DOWNTIME;web1;HTTP;{now + 500};{now + 900};0;5;600;bob;flexible after two seconds",
        f"[1] SCHEDULE_SVC_DOWNTIME;web1;HTTP;{now + 500};{now + 900};1;5;0;bob;fixed after two seconds",
        f"[1] SCHEDULE_SVC_DOWNTIME;web1;HTTP;{now - 5};{now + 900};0;6;500;bob;below flexible after two seconds",
        # 9 and 10 are fixed, 11 is deleted, and 12 has lost its comment; 13 begins with its problem for 600 seconds,
        # and 14 with it.
        f"[1] SCHEDULE_HOST_DOWNTIME;db1;{now - 9};{now + 600};1;0;0;bob;now",
        f"[1] SCHEDULE_HOST_DOWNTIME;db1;{now + 300};{now + 600};1;0;17;bob;later",
        f"[1] SCHEDULE_HOST_DOWNTIME;db1;{now + 300};{now + 600};1;10;0;bob;deleted",
        f"[1] SCHEDULE_HOST_DOWNTIME;db1;{now + 300};4294967295;1;10;0;bob;without its comment",
        f"[1] SCHEDULE_SVC_DOWNTIME;web1;HTTP;{now - 5};{now + 900};0;0;600;bob;ten minutes",
        f"[1] SCHEDULE_HOST_DOWNTIME;db1;{now - 5};{now + 900};0;13;4294967295;;",
        "[1] DEL_HOST_DOWNTIME;11", "[1] DEL_HOST_COMMENT;12")
    daemon.page_with(";ten minutes\n")
    send(daemon, ("web1", "HTTP", 2, "timeout; 10s"), ("db1", "SQL # 1", 2, "old"))
    ask(daemon,
        f"[1] ADD_HOST_COMMENT;web1;1;ann;rack 4; {EVERY_BYTE}",
        f"[1] ADD_SVC_COMMENT;web1;HTTP;0;{EVERY_BYTE};",
        # One that is sticky took the place of one, one that is cleared left its comment, one has lost its comment.
        "[1] ACKNOWLEDGE_SVC_PROBLEM;web1;HTTP;1;1;1;ann;first",
        f"[1] ACKNOWLEDGE_SVC_PROBLEM;web1;HTTP;2;0;0;ann;on it; {EVERY_BYTE}",
        "[1] ACKNOWLEDGE_SVC_PROBLEM;web1;a\\b;1;0;1;ann;cleared",
        "[1] REMOVE_SVC_ACKNOWLEDGEMENT;web1;a\\b",
        "[1] ACKNOWLEDGE_HOST_PROBLEM;db1;0;0;0;ann;normal",
        "[1] ACKNOWLEDGE_SVC_PROBLEM;web1;c\\d \xc3\xa9;2;0;0;ann;its comment is deleted",
        "[1] ACKNOWLEDGE_SVC_PROBLEM;db1;SQL # 1;2;0;1;ann;of an old result",
        "[1] DEL_SVC_COMMENT;21")
    return now


def play_a_day(*words):
    """The day is kept by these words of a stop, and restored."""
    kept = os.path.join(folder, "kept")
    daemon = start()
    now = fill(daemon)
    page = daemon.page_with(";of an old result\n")
    check("the day is as it is meant", [(entry[0], entry[8] != "-") for entry in rows(page)["downtime"]],
          [("1", False), ("2", False), ("3", False), ("4", False), ("5", True), ("6", True), ("7", True), ("8", True),
           ("9", True), ("10", False), ("12", False), ("13", True), ("14", True)])
    check("the comment that is deleted was the right one", "its comment is deleted" in page, False)
    # Entry 5 is over after 2 seconds, the window of entry 4 and the result of SQL a second later.
    time.sleep(max(0.0, now + 4.2 - time.time()))
    found, ended = stop(daemon, kept, *words)
    check(f"a stop {words}", found, STOPPED)
    check("the daemon was shut down", (ended[0], "\nlog " in ended[1], ended[2]), (0, True, ""))
    check("the log is kept too", os.path.exists(kept + ".log"), "--log" in words)
    page = read(kept)
    check("the kept page has entry 8 without the one above", [entry[0] for entry in rows(page)["downtime"]],
          ["1", "2", "3", "4", "6", "7", "8", "9", "10", "12", "13", "14"])
    daemon, status, errors = restore(kept)
    said = "nscagatectl: restoring from a log, and a page that is N seconds old\n" if "--log" in words else \
        "nscagatectl: restoring from a page that is N seconds old, without a log: passive checks that were disabled are enabled\n"
    check("a restore", (status, re.sub(r"\d+ seconds", "N seconds", errors).startswith(said)), (1, True))
    restored = daemon.page()
    compare_day("a day", page, restored, errors)
    return daemon, restored, kept


def compare_day(what, kept, restored, errors):
    """The page is as it was, but for SQL, whose result is old, for comments whose acknowledgement is over, for two that are there again
    with their acknowledgement and their entry, and for an entry whose window is over; all that is missing is named."""
    objects, comments, downtime = meaning(kept, becomes_fixed=True)
    objects = [("db1", "SQL # 1", "PENDING", True, "-", "0", "") if one[1] == "SQL # 1" else one for one in objects]
    over = ("cleared", "of an old result", "first")
    comments = [(*one[:2], "user", *one[3:]) if one[5] in over else one for one in comments if one[5] != "its window is over"]
    comments += [("web1", "c\\\\d \xc3\xa9", "ack", "0", "ann", "its comment is deleted"),
                 ("db1", "", "downtime", "0", "bob", "without its comment")]
    found = meaning(restored)
    check(f"{what}: objects", found[0], objects)
    check(f"{what}: comments", found[1], sorted(comments))
    check(f"{what}: downtime", found[2], [one for one in downtime if one[9] != "its window is over"])
    for text in ("SQL # 1;CRITICAL;", "bob;its window is over", ";ack;1;.*;ann;first", ";ann;cleared", ";ann;of an old result",
                 ";bob;flexible after two seconds", ";bob;ten minutes"):
        check(f"{what}: {text} is named", re.search("not to be shown again: .*" + text, errors) is not None, True)


def play_the_next_day(daemon, page, kept):
    """The same again over what was restored, amid its downtime; this time the daemon is killed after its page was
    kept."""
    write(kept, daemon.page())
    daemon.process.kill()
    daemon.end()
    os.remove(kept + ".log") if os.path.exists(kept + ".log") else None
    daemon, status, _ = restore(kept)
    check("a page that was restored", status, 0)
    restored = daemon.page()
    compare("the next day", page, restored)
    # What hangs on an entry is deleted with it.
    entry = next(row[0] for row in rows(restored)["downtime"] if row[10].startswith("waits; "))
    ask(daemon, f"[1] DEL_SVC_DOWNTIME;{entry}", "[1] ADD_HOST_COMMENT;db1;0;ann;the last one")
    left = [row[10] for row in rows(daemon.page_with("the last one"))["downtime"]]
    check("a chain is deleted with its first entry",
          [text for text in left if "after waits" in text or "after flexible" in text or "window" in text], [])
    # Without --pid, it looks at the port of pages.
    found, ended = stop(daemon, kept)
    check("the second stop", (found, ended[0]), (STOPPED, 0))
    check("a stop without a daemon", control("stop", *addresses(daemon), kept)[0], 3)
    check("its page is as it was", [row[10] for row in rows(read(kept))["downtime"]], left)


class Probe(threading.Thread):
    """Asks the agents' port for its greeting again and again, and keeps the longest time between two of them."""

    def __init__(self, port):
        super().__init__(daemon=True)
        self.port = port
        self.longest = 0.0
        self.is_stopped = False

    def run(self):
        last = time.monotonic()
        while not self.is_stopped:
            try:
                with socket.create_connection(("127.0.0.1", self.port), 1) as connection:
                    connection.settimeout(1)
                    if len(read_exactly(connection, 132)) == 132:
                        now = time.monotonic()
                        self.longest = max(self.longest, now - last)
                        last = now
            except OSError:
                pass
            time.sleep(0.002)


def play_a_quick_restart():
    """How long senders are refused: the unit's commands, one after another, with 2,000 comments."""
    port = free_port()
    configuration = CONFIGURATION.replace('agents = "127.0.0.1:0"', f'agents = "127.0.0.1:{port}"')
    kept = os.path.join(folder, "quick")
    daemon = start(configuration)
    ask(daemon, *(f"[1] ADD_HOST_COMMENT;web1;1;ann;comment {number}" for number in range(2000)))
    daemon.page_with("comment 1999\n")
    probe = Probe(port)
    probe.start()
    time.sleep(0.5)
    began = time.monotonic()
    check("a quick stop", stop(daemon, kept, "--pid", str(daemon.process.pid), "--log", os.path.join(folder, "log"))[0], STOPPED)
    daemon, status, errors = restore(kept, configuration=configuration)
    served = time.monotonic()
    check("a quick restore", (status, re.sub(r"\d+", "N", errors)), (0, "nscagatectl: restoring from a log, and a page that is N seconds old\n"))
    daemon.page_with("comment 1999\n")
    took = time.monotonic() - served
    time.sleep(0.2)
    probe.is_stopped = True
    probe.join()
    print(f"a restart took {served - began:.2f} s, in which senders were refused for {probe.longest:.2f} s; "
          f"2,000 comments were there again after {took:.2f} s more")
    check("senders are refused for seconds at most", probe.longest < 5, True)
    check("lines are taken at once", took < 20, True)
    check("all comments are there", len(rows(daemon.page())["comment"]), 2000)
    daemon.process.kill()
    daemon.end()


def play_a_busy_end():
    """What an operator enters until the very end is on the page that is kept."""
    daemon = start()
    kept = os.path.join(folder, "busy")
    queued = []

    def enter():
        try:
            while "closing" not in queued[-1:]:
                queued.extend(ask(daemon, *["[1] ADD_HOST_COMMENT;web1;1;ann;x"] * 20))
                time.sleep(0.005)
        except OSError:
            pass
    operator = threading.Thread(target=enter)
    operator.start()
    time.sleep(0.2)
    status, ended = stop(daemon, kept)
    operator.join()
    check("a stop amid an operator's lines", (status, ended[0]), (STOPPED, 0))
    counted = len(rows(read(kept))["comment"])
    check("each comment of the log is kept", (counted > 0, f"log {counted}" in ended[1].split("\n")), (True, True))


def play_an_early_agent():
    """An agent and an operator that connect while the text is taken are served after it: a newer result stays, and ends an acknowledgement."""
    moment = int(time.time())
    kept = write(os.path.join(folder, "kept"), f"status {moment}\n"
                 f"object;web1;;DOWN;{moment};fresh;normal;0;old\nobject;web1;HTTP;CRITICAL;{moment};fresh;sticky;0;old\n"
                 f"object;gone;;DOWN;{moment};fresh;-;0;old\n"
                 f"comment;3;web1;;ack;1;{moment};ann;first\ncomment;4;web1;HTTP;ack;0;{moment};ann;stays\n"
                 f"comment;7;gone;;user;0;{moment};ann;x\n")
    daemon, status, errors = restore(kept)
    send(daemon, ("web1", "", 0, "new"), ("web1", "HTTP", 1, "new too"))
    left_out = re.findall(r"not sent, since the gateway has no such object: (\w+);gone;", errors)
    check("an object that is gone is reported", (status, left_out), (1, ["PROCESS_HOST_CHECK_RESULT", "ADD_HOST_COMMENT"]))
    objects, comments, _ = meaning(daemon.page())
    check("new results stay", [(one[0], one[1], one[2], one[4], one[6]) for one in objects if one[6].startswith("new")],
          [("web1", "", "UP", "-", "new"), ("web1", "HTTP", "WARNING", "sticky", "new too")])
    check("acknowledgements came before them", sorted((one[2], one[5]) for one in comments), [("ack", "first"), ("ack", "stays")])
    ask(daemon, "[1] SHUTDOWN_PROGRAM")
    log = daemon.end()[1]
    check("all that was kept is applied first", re.findall(r"PROCESS_HOST_CHECK_RESULT;web1;(\d);(\w+) -> Accepted", log), [("1", "old"), ("0", "new")])


def kept_packet(host, service, code, output):
    return packet(4294967295, host, service, code, output)


# What a text may hold beside good packets and lines, and how each fault is named.
FAULTY_TEXTS = {
    "a packet of another version": (b"\0\4" + kept_packet(b"web1", b"", 0, b"x")[2:], "packet 1: BadVersion"),
    "a packet with a wrong check word": (kept_packet(b"web1", b"", 0, b"x")[:-3] + b"zzz", "packet 1: BadCheckWord"),
    "a packet that may become stale": (packet(1000, b"web1", b"", 0, b"x"), "packet 1: Stale"),
    "a packet without a host": (kept_packet(b"", b"", 0, b"x"), "packet 1: EmptyHost"),
    "a packet that is cut": (kept_packet(b"web1", b"", 0, b"x")[:4303], "packet 1: it is cut"),
    "a NUL": (b"\0", "packet 1: it is cut"),
    "no command": (b"[1] RESTART_PROGRAM\n", "line 1: UnknownCommand"),
    "an empty line": (b"\n", "line 1: NoTime"),
    "a bad number": (b"[1] DEL_HOST_COMMENT;x\n", "line 1: BadNumber 1"),
    "a shutdown": (b"[1] SHUTDOWN_PROGRAM\n", "line 1: SHUTDOWN_PROGRAM"),
    "a line that is cut": (b"[1] ADD_HOST_COMMENT;web1;0;ann;x", "line 1: it is cut"),
}


def play_texts():
    """What of a text isn't taken is named, and the rest is taken."""
    for what, (text, named) in FAULTY_TEXTS.items():
        daemon = start(kept=text)
        ask(daemon, "[1] SHUTDOWN_PROGRAM")
        check(what, daemon.end()[2], f"nscagate: kept: {named}\n")
    good = kept_packet(b"web1", b"", 1, b"down") + packet(1000, b"db1", b"", 0, b"up") + kept_packet(b"web1", b"HTTP", 2, b"two\nlines")
    daemon = start(kept=good + b"[1] ACKNOWLEDGE_HOST_PROBLEM;web1;2;0;0;ann;on it\nx\n[1] ADD_SVC_COMMENT;web1;HTTP;0;ann;hi\n[1]")
    objects, comments, _ = meaning(daemon.page())
    check("the rest is taken", [(one[0], one[1], one[2], one[4], one[6]) for one in objects[:2]],
          [("web1", "", "DOWN", "sticky", "down"), ("web1", "HTTP", "CRITICAL", "-", "two\\x0alines")])
    check("so are its lines", [one[5] for one in comments], ["hi", "on it"] if comments[0][5] == "hi" else ["on it", "hi"])
    ask(daemon, "[1] SHUTDOWN_PROGRAM")
    check("each fault is named once, in order", daemon.end()[2],
          "nscagate: kept: packet 2: Stale\nnscagate: kept: line 2: NoTime\nnscagate: kept: line 4: it is cut\n")
    many = b"".join(b"[1] ADD_HOST_COMMENT;web1;1;ann;%d\n" % number for number in range(30))
    daemon = start(CONFIGURATION.replace("limit = 100_000", "limit = 100_000\nitems = 7"), many)
    check("more than a session may have", len(rows(daemon.page_with(";29\n"))["comment"]), 30)
    daemon.process.kill()
    daemon.end()


# Entries of a page that is 100 seconds old: id, kind, trigger, start, end, duration, begin, in seconds from now; and
# how each is sent, or nothing: start, end, fixed, trigger, duration.
ENTRIES = [
    ("1", "fixed", 0, -50, 500, 0, "-", (-50, 500, 1, 0, 0)),
    ("2", "flexible", 1, -50, 500, 300, "-", (-50, 500, 0, 1, 300)),
    ("3", "fixed", 0, -50, -10, 0, "-", None),
    ("4", "flexible", 3, -50, 500, 200, "-", (-50, 150, 1, 0, 200)),
    ("5", "fixed", 3, 300, 400, 7, "-", (-50, 400, 1, 0, 7)),
    ("6", "flexible", 0, -90, -20, 60, "-", None),
    ("7", "flexible", 6, -90, 500, 60, "-", None),
    ("8", "fixed", 3, -90, -50, 60, "-", None),
    ("9", "flexible", 0, -90, 100, 60, "-", (-90, 100, 0, 0, 60)),
    ("10", "flexible", 9, -90, -30, 60, "-", (-90, 100, 0, 9, 60)),
    ("11", "fixed", 0, -200, 60, 0, -150, (-200, 60, 1, 0, 0)),
    ("12", "flexible", 11, -200, 500, 900, -150, (-150, 750, 1, 0, 900)),
    ("13", "flexible", 2, -90, 500, 2000, "-", (-90, 500, 0, 2, 2000)),
    ("14", "fixed", 9, -90, 50, 5, "-", (-90, 50, 1, 9, 5)),
    ("15", "flexible", 14, -90, 500, 5, "-", (-90, 500, 0, 14, 5)),
    ("16", "flexible", 0, -120, 500, 100, -110, None),
    ("17", "fixed", 0, 400, 500, 0, "-", (400, 500, 1, 0, 0)),
]


def scheduled(lines, now):
    """What a fresh daemon schedules by these lines, by the text of each entry: start and end in seconds from now, whether it is fixed, the
    text of its trigger, its duration; and the texts of the lines that it refuses, since their end has come."""
    found, texts, refused = {}, {"0": ""}, []
    for line in lines.splitlines():
        starts, ends, fixed, trigger, lasts, _, text = line.split(";")[2:]
        if int(ends) <= now:
            refused.append(text)
            continue
        found[text] = (int(starts) - now, int(ends) - now, int(fixed), texts.get(trigger, trigger), int(lasts))
        texts[str(len(found))] = text
    return found, refused


def play_time_passes():
    """What has begun or is over since the page was written: each entry as what it is now, or left out and named."""
    now = int(time.time())
    page = f"status {now - 100}\nobject;web1;;PENDING;-;fresh;-;3;\n"
    for number, (entry, *_) in enumerate(ENTRIES, 1):
        page += f"comment;{number};web1;;downtime;0;{now - 300};bob;entry {entry}\n"
    for entry, kind, trigger, starts, ends, lasts, begin, _ in ENTRIES:
        shown = begin if begin == "-" else now + begin
        page += f"downtime;{entry};web1;;{kind};{trigger};{now + starts};{now + ends};{lasts};{shown};bob;entry {entry}\n"
    write(os.path.join(folder, "gateway.toml"), CONFIGURATION)
    _, text, errors = plan(write(os.path.join(folder, "passes"), page))
    found, refused = scheduled(parts(text)[1], now)
    check("lines of entries that are over", refused, [])
    for entry, *_, sent in ENTRIES:
        text = f"entry {entry}"
        expected = sent and (*sent[:3], f"entry {sent[3]}" if sent[3] else "", sent[4])
        if text not in found and re.search(rf";{text}$", errors, re.M):
            expected = None
        check(text, found.get(text), expected)


GOOD_PAGE = ("status 100\nobject;web1;;UP;90;fresh;-;1;up\nobject;web1;HTTP;CRITICAL;90;fresh;-;0;x\n"
             "comment;1;web1;;downtime;0;90;bob;x\n"
             "downtime;1;web1;;fixed;0;50;4000000000;0;90;bob;x\n")
FAULTY_PAGES = {
    "no file": None,
    "an empty file": "",
    "an answer of a web server": "HTTP/1.1 400 Bad Request\r\n\r\n",
    "no end of the last line": GOOD_PAGE[:-1],
    "cut in the middle": GOOD_PAGE[:60],
    "cut between two lines": GOOD_PAGE[:GOOD_PAGE.index("downtime;1")],
    "a NUL": GOOD_PAGE.replace(";bob;x", ";bob;\0x"),
    "a control byte": GOOD_PAGE.replace(";bob;x", ";bob;\x01x"),
    "a faulty escape": GOOD_PAGE.replace(";bob;x", ";bob;\\x41"),
    "a lone backslash": GOOD_PAGE.replace(";bob;x", ";bob;\\"),
    "a state of the other kind": GOOD_PAGE.replace(";UP;", ";OK;"),
    "no moment": GOOD_PAGE.replace("status 100", "status x"),
    "an object twice": GOOD_PAGE.replace("object;web1;HTTP", "object;web1;"),
    "lines in another order": GOOD_PAGE + "object;db1;;UP;90;fresh;-;0;up\n",
    "a line after the last": GOOD_PAGE + "closing;95\nclosing;96\n",
    "a downtime that waits for none":
        GOOD_PAGE.replace(";fixed;0;", ";flexible;7;").replace(";90;bob", ";-;bob").replace(";-;1;up", ";-;0;up"),
}


def play_faulty_pages():
    """Of a page that is cut off, or is none, nothing is printed."""
    write(os.path.join(folder, "gateway.toml"), CONFIGURATION)
    for what, text in FAULTY_PAGES.items():
        kept = os.path.join(folder, "faulty")
        if text is None:
            kept += ".none"
        else:
            write(kept, text)
        status, output, errors = plan(kept, "--old")
        check(f"a faulty page: {what}", (status, output, errors[:13], errors.count("\n")), (2, b"", "nscagatectl: ", 1))
    write(kept, GOOD_PAGE + "closing;95\n")
    status, output, errors = plan(kept)
    named = re.fullmatch(r"nscagatectl: there is no kept log, and the kept page is \d+ seconds old: --old restores it\n", errors)
    check("a good page that is old", (status, output, named is not None), (2, b"", True))
    packets, lines = parts(plan(kept, "--old")[1])
    check("the page that they are made of is good", (packets, lines.count("SCHEDULE_HOST_DOWNTIME;web1;50;4000000000;1;0;0;bob;x\n")),
          ([], 1))


def play_faulty_words():
    none = os.path.join(folder, "none")
    config = write(os.path.join(folder, "words.toml"), CONFIGURATION)
    faulty = write(os.path.join(folder, "faulty.toml"), 'host = [{nam = "web1"}]\n')
    page = write(os.path.join(folder, "page"), f"status {int(time.time())}\n")
    common = ((), ("--colour", page), (page, page), ("--config", none, page), ("--config", faulty, page))
    for name, others in (("stop", (("--wait",), ("--wait", "x", page), ("--wait", "0", page), ("--pages", "web1:5669", page))),
                         ("restore", (("--wait", "1", page), ("--pid", "1", page), ("--dry-run", page)))):
        for words in common + others:
            status, output, errors = control(name, *words)
            check(f"{name} {words}", (status, output, errors != ""), (2, "", True))
    check("a restore of a page without objects", control("restore", "--config", config, page)[:2], (0, ""))


def play_a_full_disk():
    """Where the page can't be written the daemon is shut down all the same, and the file before is as it was."""
    daemon = start()
    kept = os.path.join(folder, "locked")
    os.mkdir(kept + ".new")
    write(kept, "old\n")
    status, ended = stop(daemon, kept)
    check("a stop without room for the page", (status, ended[0]), ((1, "", "nscagatectl: stopped, and nothing is kept\n"), 0))
    check("the page before stays", read(kept), "old\n")


def play_a_full_log():
    """Where the log has no room for all that is kept, the daemon takes what it has room for, and can be stopped."""
    configuration = HEAD.replace("capacity = 256", "capacity = 1") + OBJECTS.replace("limit = 100_000", "limit = 1")
    lines = "".join(f"comment;{number};web1;;user;0;90;ann;{number}\n" for number in range(1, 5))
    kept = write(os.path.join(folder, "kept"), "status 100\nobject;web1;;PENDING;-;fresh;-;0;\n" + lines)
    daemon, status, _ = restore(kept, "--old", configuration=configuration)
    check("it is planned all the same", status, 0)
    status, ended = stop(daemon, kept)
    check("a stop with a full log", (status, ended[0], ended[2]), (STOPPED, 3, "nscagate: LogFull\n"))
    check("the page of a full log is kept", [row[7] for row in rows(read(kept))["comment"]], ["1"])


def play_two_days():
    play_the_next_day(*play_a_day("--log", os.path.join(folder, "log")))


def play_ends():
    play_a_quick_restart()
    play_a_busy_end()
    play_a_full_disk()


def play_pages():
    play_an_early_agent()
    play_texts()
    play_time_passes()
    play_faulty_pages()
    play_faulty_words()


# Each runs in a process of its own, beside the others.
PARTS = {"days": play_two_days, "ends": play_ends, "pages": play_pages, "logs": play_a_full_log}


def main():
    global program, ctl, folder
    program, ctl = os.path.abspath(sys.argv[1]), os.path.abspath(sys.argv[2])
    if len(sys.argv) > 3:
        with tempfile.TemporaryDirectory() as folder:
            PARTS[sys.argv[3]]()
        end_tests()
    parts = {name: subprocess.Popen([sys.executable, "-B", *sys.argv[:3], name], stdout=subprocess.PIPE, text=True)
             for name in PARTS}
    counts = [0, 0]
    for name, part in parts.items():
        *lines, last = part.communicate()[0].splitlines() or [""]
        found = re.fullmatch(r"(\d+) passed, (\d+) failed", last)
        for line in lines if found else [*lines, last, f"the part {name} ... FAILED: it broke off"]:
            print(line)
        passed, failed = map(int, found.groups()) if found else (0, 1)
        counts = [counts[0] + passed, counts[1] + failed]
    print(f"{counts[0]} passed, {counts[1]} failed")
    sys.exit(counts[1] > 0)


main()
