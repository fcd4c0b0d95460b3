"""Plays an operator with nscagatectl: python3 nscagatectl_test.py DAEMON PROGRAM. Ends with a line 'N passed, M failed'."""
import json
import os
import re
import shlex
import socket
import subprocess
import sys
import tempfile
import threading
import time

from daemon_clients import CONFIGURATION, TIME_LIMIT, Daemon, ask, check, end_tests, free_port
from two_operators import play_two_operators

TABLE = CONFIGURATION + """
[[host]]
name = "no services"
"""


class Operator:
    """Runs the program over a daemon, as the user ann."""

    def __init__(self, program, daemon):
        self.program = program
        self.ports = [f"--operators=127.0.0.1:{daemon.ports['operators']}", f"--pages=127.0.0.1:{daemon.ports['pages']}"]

    def run(self, *words):
        return run(self.program, *words, *self.ports)

    def shows(self, words, line):
        """The command is done, and this is its line."""
        check(" ".join(words), self.run(*words), (0, line + "\n", ""))

    def refuses(self, words, line, status=1):
        """The command is refused with this line."""
        check(" ".join(words), self.run(*words), (status, "", f"nscagatectl: {line}\n"))


def run(program, *words, environment=None):
    ran = subprocess.run([program, *words], stdin=subprocess.DEVNULL, capture_output=True, timeout=TIME_LIMIT, check=False,
                         env={"LOGNAME": "ann"} if environment is None else environment)
    return ran.returncode, ran.stdout.decode("latin-1"), ran.stderr.decode("latin-1")


def play_results_and_acknowledgements(operator):
    operator.refuses(["ack", "web1", "HTTP", "-c", "on it"], "web1 HTTP: there is no problem to acknowledge")
    operator.shows(["result", "web1", "HTTP", "--state", "CRITICAL", "--output", "timeout; 10s"], "result: web1 HTTP")
    operator.shows(["result", "web1", "--state=DOWN", "--output=no answer"], "result: web1")
    operator.shows(["ack", "web1", "HTTP", "-c", "on it", "--sticky"],
                   "acknowledged: web1 HTTP (CRITICAL), sticky, comment 1")
    operator.shows(["ack", "web1", "-c", "on it", "--author", "bob", "--persistent"], "acknowledged: web1 (DOWN), comment 2")
    operator.shows(["unack", "web1", "HTTP"], "acknowledgement removed: web1 HTTP")
    operator.refuses(["unack", "web1", "HTTP"], "web1 HTTP: there is no acknowledgement to remove")
    operator.refuses(["result", "web2", "--state=UP", "--output=x"], "web2: the gateway has no such host")
    operator.refuses(["result", "web1", "SMTP", "--state=OK", "--output=x"], "web1 SMTP: the host has no such service")
    for words in (["web1", "--state=OK"], ["web1", "HTTP", "--state=UP"]):
        operator.refuses(["result", *words, "--output=x"],
                         "--state is OK, WARNING, CRITICAL or UNKNOWN; of a host UP, DOWN or UNREACHABLE", 2)


def play_comments(operator):
    operator.shows(["comment", "web1", "-c", "first; with \u00e9"], "commented: web1, comment 3")
    operator.shows(["comment", "web1", "HTTP", "--comment", "second", "--persistent"], "commented: web1 HTTP, comment 4")
    operator.shows(["uncomment", "3"], "deleted: comment 3")
    operator.refuses(["uncomment", "3"], "comment 3: there is no comment with this number")
    operator.refuses(["uncomment", "4", "99"], "comment 99: there is no comment with this number")
    operator.refuses(["uncomment", "four"], "an id is a number", 2)
    operator.refuses(["comment", "web1", "", "-c", "x"], "web1 : the host has no such service")
    operator.shows(["uncomment", "4"], "deleted: comment 4")
    operator.shows(["comment", "web1", "-c", "third"], "commented: web1, comment 5")
    operator.shows(["uncomment", "web1", "--all"], "comments deleted: web1")
    operator.refuses(["uncomment", "web1", "HTTP", "x", "--all"], "--all is of a host, or of a host and a service", 2)


def play_downtime(operator):
    now = int(time.time())
    operator.shows(["downtime", "web1", "-c", "disk", "--for", "2h"], "downtime scheduled: web1, downtime 1")
    operator.shows(["downtime", "web1", "HTTP", "-c", "disk", f"--from={now + 60}", f"--until={now + 120}", "--flexible=30s",
                    "--trigger=1"], "downtime scheduled: web1 HTTP, downtime 2")
    operator.shows(["downtime", "web1", "-c", "disk", "--for=90m", "--services"], "downtime scheduled for each service: web1")
    operator.refuses(["downtime", "no services", "-c", "disk", "--for=1d", "--services"],
                     "no services: the host has no services")
    operator.refuses(["downtime", "web1", "-c", "disk", f"--from={now - 20}", f"--until={now - 10}"],
                     "web1: the downtime is over already")
    operator.refuses(["downtime", "web1", "-c", "disk", f"--from={now}", f"--until={now}"],
                     "web1: the downtime doesn't end after its start")
    operator.refuses(["downtime", "web1", "-c", "disk", "--for=1h", "--trigger=99"],
                     "web1: the downtime that triggers it isn't there")
    operator.refuses(["downtime", "web1", "-c", "disk"], "downtime ends by one of --for and --until", 2)
    operator.refuses(["downtime", "web1", "-c", "disk", "--for=1h", f"--until={now + 9}"],
                     "downtime ends by one of --for and --until", 2)
    for span in ("2w", "30", "h", "", "49711d"):
        operator.refuses(["downtime", "web1", "-c", "disk", f"--for={span}"], "a span is a number with s, m, h or d, as 90m", 2)
    operator.refuses(["downtime", "web1", "-c", "disk", "--until=tomorrow"], "a time is in seconds since 1970", 2)
    operator.refuses(["downtime", "web1", "-c", "disk", "--for=1h", "--trigger=x"], "an id is a number", 2)
    operator.refuses(["downtime", "web1", "HTTP", "-c", "disk", "--for=1h", "--services"],
                     "--services is of a host, and a service is named", 2)
    check("cancel 1 3", operator.run("cancel", "1", "3"), (0, "cancelled: downtime 1\ncancelled: downtime 3\n", ""))
    operator.refuses(["cancel", "1"], "downtime 1: there is no downtime with this number")


def play_passive_checks(operator):
    for setting, word in (("on", "enabled"), ("off", "disabled")):
        status, output, errors = operator.run("passive", setting, "web1", "HTTP")
        check(f"passive {setting}", (status, re.sub(r"queued as \d+", "queued as N", output), errors),
              (0, f"passive checks {word}: web1 HTTP, queued as N; no page shows it\n", ""))
    status, output, errors = operator.run("result", "web1", "HTTP", "--state=OK", "--output=x", "--wait=1")
    check("a result that is refused unseen", (status, output, errors),
          (1, "", "nscagatectl: web1 HTTP: queued, and not shown in time\n"))
    operator.refuses(["passive", "maybe", "web1"], "passive is on or off", 2)


def play_texts(operator):
    operator.shows(["comment", "web1", "-c", "\u00e9\u4e2d"], "commented: web1, comment 9")
    operator.refuses(["comment", "web1", "-c", "two\nlines"], "web1: no line can hold the command", 2)
    operator.refuses(["comment", "a;b", "-c", "x"], "a;b: the gateway has no such host")
    operator.refuses(["comment", "web1", "-c", "x", "--author", "a;b"], "web1: no line can hold the command", 2)


def play_words(operator, program):
    for words in ([], ["ack"], ["ack", "web1"], ["acknowledge", "web1"], ["cancel"], ["status", "--quickly"], ["test-config"],
                  ["watch", "x"], ["log"]):
        status, output, errors = run(program, *words)
        check(f"bad words {words}", (status, output, errors != ""), (2, "", True))
    for words in (["--help"], ["ack", "--help"], ["--version"]):
        status, output, errors = run(program, *words)
        check(f"{words}", (status, output != "", errors), (0, True, ""))
    check("the version", run(program, "--version")[1], "nscagatectl 1.0.0\n")
    status, output, _ = operator.run("status")
    check("the status page", (status, output.splitlines()[1].split(";")[:3]), (0, ["object", "web1", ""]))
    operator.refuses(["status", "--wait=0"], "--wait is 1 to 3600", 2)
    check("a word that is no UTF-8", run(program, "comment", "web1", "-c", b"\xff", *operator.ports),
          (2, "", "nscagatectl: a word is no UTF-8: write its bytes as \\xe9, with --escaped\n"))


def play_escapes(operator, daemon):
    """By --escaped names and texts are those that a page shows so, of every byte that a line can hold."""
    operator.shows(["comment", "web1", "-c", "caf\\xe9 \\\\ \\x9b", "--author", "J\\xf6rg", "--escaped"],
                   "commented: web1, comment 10")
    check("its bytes", "J\u00f6rg;caf\u00e9 \\\\ \u009b\n" in daemon.page(), True)
    operator.shows(["uncomment", "10", "--escaped"], "deleted: comment 10")
    operator.refuses(["comment", "web\\x31", "-c", "x"], "web\\\\x31: the gateway has no such host")
    operator.shows(["comment", "web\\x31", "-c", "x", "--escaped"], "commented: web1, comment 11")
    operator.shows(["uncomment", "web\\x31", "--all", "--escaped"], "comments deleted: web1")


def play_filters(operator):
    """The lines of some objects, as the page has them."""
    lines = operator.run("status")[1].splitlines(True)
    objects = [line for line in lines if line.startswith("object;")]
    for words, expected in ((["--state", "problems"], [line for line in objects if ";CRITICAL;" in line or ";DOWN;" in line]),
                            (["--state=Down"], [line for line in objects if ";DOWN;" in line]),
                            (["--host", "no s"], [line for line in objects if "no services" in line]),
                            (["--state=critical", "--host=web"], [line for line in objects if ";CRITICAL;" in line]),
                            (["--host", "x"], []), (["--state=all"], objects)):
        check(f"status {words}", operator.run("status", *words), (0, "".join(expected), ""))
    operator.refuses(["status", "--state=bad"], "--state is a state, or all, problems, unhandled or stale", 2)


def play_json(operator, program):
    """What a reader of JSON finds."""
    def read(*words):
        status, output, errors = operator.run(*words, "--json")
        check(f"one line of JSON {words}", (output.count("\n"), errors), (1, ""))
        return status, json.loads(output.encode("latin-1"))

    status, page = read("status", "--state", "CRITICAL")
    check("the page as JSON", (status, [(row["host"], row["service"], row["state"]) for row in page["objects"]],
                               "--pages=" + page["gateways"][0]["name"] == operator.ports[1]), (0, [("web1", "HTTP", "CRITICAL")], True))
    check("a command", read("comment", "web1", "-c", "\u00e9"),
          (0, {"status": 0, "outcome": "shown", "id": 12, "state": None, "message": "commented: web1, comment 12"}))
    check("an acknowledgement", read("ack", "web1", "HTTP", "-c", "x"),
          (0, {"status": 0, "outcome": "shown", "id": 13, "state": "CRITICAL",
               "message": "acknowledged: web1 HTTP (CRITICAL), comment 13"}))
    check("a refusal", operator.run("uncomment", "99", "--json"),
          (1, '{"status":1,"outcome":"refused","id":null,"state":null,'
              '"message":"comment 99: there is no comment with this number"}\n', ""))
    check("no answer", read("comment", "web1", "-c", "a\nb"),
          (2, {"status": 2, "outcome": "no answer", "id": None, "state": None,
               "message": "web1: no line can hold the command"}))
    operator.shows(["unack", "web1", "HTTP"], "acknowledgement removed: web1 HTTP")
    watching = subprocess.Popen([program, "watch", "--json", *operator.ports], stdout=subprocess.PIPE)
    time.sleep(0.5)
    operator.run("comment", "web1", "HTTP", "-c", "caf\u00e9")
    change = json.loads(watching.stdout.readline())
    check("its members", list(change), ["moment", "change", "host", "service", "id", "before", "after", "author", "text"])
    check("a change as JSON", (change.pop("moment") > 1000000000, change),
          (True, {"change": "comment", "host": "web1", "service": "HTTP", "id": 14, "before": None, "after": None,
                  "author": "ann", "text": "caf\u00e9"}))
    operator.run("result", "web1", "--state=UP", "--output=up")
    change = json.loads(watching.stdout.readline())
    check("a state as JSON", (change.pop("moment") > 1000000000, change),
          (True, {"change": "state", "host": "web1", "service": None, "id": None, "before": "DOWN", "after": "UP",
                  "author": None, "text": "up"}))
    watching.kill()
    watching.communicate()
    operator.run("result", "web1", "--state=DOWN", "--output=no answer")


def play_users(operator, daemon, program):
    """The author is the user of sudo, then the one who logged in."""
    for environment, user in (({"SUDO_USER": "sue", "LOGNAME": "root"}, "sue"), ({"USER": "uwe"}, "uwe"), ({}, "operator")):
        check(f"a comment by {user}", run(program, "comment", "web1", "-c", f"by {user}", *operator.ports,
                                          environment=environment)[0], 0)
        check(f"{user} is its author", f";{user};by {user}\n" in daemon.page(), True)


def play_configurations(program, daemon, folder):
    path = os.path.join(folder, "control.toml")
    ports = daemon.ports
    with open(path, "w", encoding="ascii") as file:
        file.write(f'operators = "0.0.0.0:{ports["operators"]}"\npages = "127.0.0.1:{ports["pages"]}"\n[[host]]\nname = "x"\n')
    check("the configuration's ports are asked", run(program, "comment", "web1", "-c", "x", "--config", path)[0], 0)
    with open(path, "w", encoding="ascii") as file:
        file.write("operators = 5\n")
    check("a faulty configuration", run(program, "status", "--config", path),
          (2, "", "nscagatectl: config: BadValue operators\n"))
    check("no configuration", run(program, "status", "--config", path + ".none"),
          (2, "", "nscagatectl: the configuration can't be read\n"))
    check("an address that is none", run(program, "status", "--operators=localhost", "--pages=127.0.0.1:1"),
          (2, "", "nscagatectl: an address is an IP address and a port\n"))


def serve(answers, received=None, host="127.0.0.1", family=socket.AF_INET):
    """A port that answers each connection with this text, once it has sent a line if `answers` says so; that is kept."""
    listener = socket.create_server((host, 0), family=family)

    def work():
        while True:
            try:
                connection, _ = listener.accept()
            except OSError:
                return
            with connection:
                text, waits = answers
                line = connection.makefile("rb").readline() if waits else b""
                if received is not None:
                    received.append(line.decode("latin-1"))
                connection.sendall(text)

    threading.Thread(target=work, daemon=True).start()
    return listener, f"{host}:{listener.getsockname()[1]}"


PAGE = ("status 1000\nobject;web1;;DOWN;900;fresh;-;1;down\nobject;web1;HTTP;CRITICAL;900;fresh;sticky;0;timeout\n"
        "comment;3;web1;;downtime;0;900;bob;disk\ncomment;4;web1;HTTP;ack;0;900;bob;on it\n"
        "downtime;7;web1;;fixed;0;900;4000000000;0;900;bob;disk\n")
# Words, and the line that is sent for them; an hour later is `later`.
SENT = (
    ("ack web1 -c 'on it'", "ACKNOWLEDGE_HOST_PROBLEM;web1;1;1;0;ann;on it"),
    ("ack '-con it' --sticky web1 --persistent HTTP --author bob", "ACKNOWLEDGE_SVC_PROBLEM;web1;HTTP;2;1;1;bob;on it"),
    ("unack web1 HTTP", "REMOVE_SVC_ACKNOWLEDGEMENT;web1;HTTP"),
    ("comment web1 --comment=seen --persistent", "ADD_HOST_COMMENT;web1;1;ann;seen"),
    ("comment --comment 'a; b' web1 HTTP", "ADD_SVC_COMMENT;web1;HTTP;0;ann;a; b"),
    ("uncomment 3", "DEL_HOST_COMMENT;3"), ("uncomment 4 3", "DEL_SVC_COMMENT;4"),
    ("uncomment web1 --all", "DEL_ALL_HOST_COMMENTS;web1"), ("uncomment --all web1 HTTP", "DEL_ALL_SVC_COMMENTS;web1;HTTP"),
    ("passive off web1 HTTP", "DISABLE_PASSIVE_SVC_CHECKS;web1;HTTP"), ("passive on web1", "ENABLE_PASSIVE_HOST_CHECKS;web1"),
    ("result web1 --state DOWN --output 'no answer'", "PROCESS_HOST_CHECK_RESULT;web1;1;no answer"),
    ("result web1 HTTP --state UNKNOWN --output ?", "PROCESS_SERVICE_CHECK_RESULT;web1;HTTP;3;?"),
    ("downtime web1 HTTP -c disk --for 1h", "SCHEDULE_SVC_DOWNTIME;web1;HTTP;{now};{later};1;0;0;ann;disk"),
    ("downtime web1 -c disk --from 2000 --until 5600 --flexible 15m --services",
     "SCHEDULE_HOST_SVC_DOWNTIME;web1;2000;5600;0;0;900;ann;disk"),
    ("downtime web1 -c disk --from 3000 --for 1d --trigger 7 --author bob",
     "SCHEDULE_HOST_DOWNTIME;web1;3000;89400;1;7;0;bob;disk"),
    ("downtime web1 -c disk --from 0 --for 49710d --flexible 30s", "SCHEDULE_HOST_DOWNTIME;web1;0;4294944000;0;0;30;ann;disk"),
    ("downtime web1 -c disk --from 0 --for 090m", "SCHEDULE_HOST_DOWNTIME;web1;0;5400;1;0;0;ann;disk"),
    ("cancel 7", "DEL_HOST_DOWNTIME;7"), ("shutdown", "SHUTDOWN_PROGRAM"),
)


def play_lines(program):
    """The line that is sent for words, with the moment at which it is entered."""
    received = []
    (pages, pages_address), (operators, address) = serve((PAGE.encode("ascii"), False)), serve((b"full\n", True), received)
    for words, line in SENT:
        began = int(time.time())
        status, output, errors = run(program, *shlex.split(words), "--pages", pages_address, "--operators", address)
        check(f"the end of {words}", (status, output, errors.endswith(": the queue is full\n"), len(received)), (1, "", True, 1))
        sent = re.match(r"\[(\d+)\] ", "".join(received))
        now = int(sent[1]) if sent else 0
        check(f"the moment of {words}", began <= now <= time.time(), True)
        check(f"the line of {words}", received, [f"[{now}] {line.format(now=now, later=now + 3600)}\n"])
        received.clear()
    for listener in (pages, operators):
        listener.close()


def play_addresses(program):
    """A port that is bound at each address of the machine is asked at its loopback."""
    for address, loopback, family in (("0.0.0.0", "127.0.0.1", socket.AF_INET), ("[::]", "::1", socket.AF_INET6)):
        try:
            listener, _ = serve((PAGE.encode("ascii"), False), None, loopback, family)
        except OSError:
            print(f"{address} ... skipped: there is no {loopback}")
            continue
        pages = f"--pages={address}:{listener.getsockname()[1]}"
        check(f"a port at {address}", run(program, "status", pages, "--operators=127.0.0.1:1"), (0, PAGE, ""))
        listener.close()


def play_gateways_that_fail(program, daemon):
    pages = f"--pages=127.0.0.1:{daemon.ports['pages']}"
    words = ["comment", "web1", "-c", "x", "--wait=1"]
    check("nobody at the pages", run(program, "status", "--operators=127.0.0.1:1", "--pages=127.0.0.1:1"),
          (3, "", "nscagatectl: no status page: the gateway accepts no connection\n"))
    check("nobody at the operators", run(program, *words, pages, "--operators=127.0.0.1:1"),
          (3, "", "nscagatectl: web1: the command can't be written\n"))
    closed, none = "the connection was closed before an answer", "the answer is none of a gateway"
    for text, line in ((b"", closed), (b"queued 1", closed), (b"hello\n", none), (b"x" * 200, none), (b"\n", none),
                       (b"Queued 1\n", none), (b"Stale\n", none), (b"queued 01\n", none),
                       (b"queued 18446744073709551616\n", none), (b"bad BadNumber 4294967296\n", none)):
        listener, address = serve((text, True))
        check(f"an answer {text[:20]}", run(program, *words, pages, f"--operators={address}"),
              (3, "", f"nscagatectl: web1: {line}\n"))
        listener.close()
    faults = (b"TooLong", b"BadByte", b"NoTime", b"UnknownCommand", b"ExtraArgument", b"MissingArgument 2", b"EmptyName 4294967295",
              b"BadNumber 10")
    for text, line in ((b"full\n", "the queue is full"), (b"spent\n", "the operators' quota is used up"),
                       (b"closing\n", "the gateway is closing"), (b"queued 7\n", "queued, and not shown in time"),
                       *((b"bad " + fault + b"\n", "the gateway can't read the line") for fault in faults)):
        listener, address = serve((text, True))
        check(f"the answer {text}", run(program, *words, pages, f"--operators={address}"),
              (1, "", f"nscagatectl: web1: {line}\n"))
        listener.close()
    for text, asked, outcome in ((b"full\n", words, (1, "not queued")), (b"queued 7\n", words, (1, "not shown")),
                                 (b"queued 7\n", ["passive", "on", "web1"], (0, "unseen"))):
        listener, address = serve((text, True))
        found = json.loads(run(program, *asked, "--json", pages, f"--operators={address}")[1])
        check(f"{outcome[1]} as JSON", (found["status"], found["outcome"]), outcome)
        listener.close()
    for asked, subject in ((["downtime", "web1", "--for", "1h", "-c", "x"], "web1"), (["shutdown"], "the gateway"),
                           (["comment", "web1", "-c", "x"], "web1")):
        received = []
        listener, address = serve((b"queued 7\n", True), received)
        check(f"{asked[0]} is queued by another gateway", run(program, *asked, "--wait=1", pages, f"--operators={address}"),
              (1, "", f"nscagatectl: {subject}: queued, and not shown in time\n"))
        check(f"{asked[0]} is sent once", len(received), 1)
        listener.close()
    listener, address = serve((b"queued 18446744073709551615\n", True))
    check("the last number", run(program, "passive", "on", "web1", pages, f"--operators={address}"),
          (0, "passive checks enabled: web1, queued as 18446744073709551615; no page shows it\n", ""))
    listener.close()
    silent = socket.create_server(("127.0.0.1", 0))
    check("no answer in time", run(program, *words, pages, f"--operators=127.0.0.1:{silent.getsockname()[1]}"),
          (3, "", "nscagatectl: web1: no answer came in time\n"))
    silent.close()
    for text in (b"", b"hello\n", daemon.page().encode("latin-1")[:-1]):
        listener, address = serve((text, False))
        check(f"a page {text[:6]}", run(program, *words, f"--pages={address}", "--operators=127.0.0.1:1"),
              (3, "", "nscagatectl: what the pages port gives is no status page\n"))
        listener.close()


def check_gateways(program, *words):
    return run(program, "check", *words)


def unknown(text):
    return 3, f"NSCAGATE UNKNOWN - {text}\n", ""


COUNTS = "3 objects, 2 problems, 0 unhandled, 0 stale"
FIGURES = "'{0} problems'=2 '{0} unhandled'=0 '{0} stale'=0"


def play_checks(operator, program, daemon, folder):
    """A gateway that serves, one that closes, one that stands still, and ports that nobody has or that are slow."""
    check("one problem is acknowledged", operator.run("ack", "web1", "-c", "x")[0], 0)
    agents, operators, pages = (f"127.0.0.1:{daemon.ports[name]}" for name in ("agents", "operators", "pages"))
    path = os.path.join(folder, "check.toml")
    with open(path, "w", encoding="ascii") as file:
        file.write(f'agents = "{agents}"\noperators = "{operators}"\npages = "{pages}"\n')
    check("a gateway that serves", check_gateways(program, "--config", path),
          (0, f"NSCAGATE OK - {pages}: {COUNTS} | {FIGURES.format(pages)}\n", ""))
    check("a gateway with a name", check_gateways(program, "my gw=" + pages, "--agents", agents, "--operators", operators),
          (0, f"NSCAGATE OK - my gw: {COUNTS} | {FIGURES.format('my_gw')}\n", ""))
    for name, silence in (("agents", "greets"), ("operators", "answers")):
        check(f"an {name}' port that nobody has", check_gateways(program, "--config", path, f"--{name}", "127.0.0.1:9"),
              (2, f"NSCAGATE CRITICAL - the {name}' port 127.0.0.1:9 {silence} nobody; {pages}: {COUNTS} | "
               f"{FIGURES.format(pages)}\n", ""))
        silent = socket.create_server(("127.0.0.1", 0))
        slow = f"127.0.0.1:{silent.getsockname()[1]}"
        check(f"a slow {name}' port", check_gateways(program, "--config", path, f"--{name}", slow, "--wait=1"),
              (1, f"NSCAGATE WARNING - the {name}' port {slow} is slow; {pages}: {COUNTS} | {FIGURES.format(pages)}\n", ""))
        check(f"a slow pages port beside the {name}' port", check_gateways(program, "a=" + slow, "--wait=1"),
              (1, f"NSCAGATE WARNING - a: the pages port {slow} is slow\n", ""))
        silent.close()
    now = int(time.time())
    for text, found in ((b"status %d\nclosing;%d\n" % (now, now), (1, "WARNING - a: shutting down; ")),
                        (b"status %d\n" % (now - 40), (0, "OK - a: 0 objects, ")),
                        (b"status %d\n" % (now - 62), (2, "CRITICAL - a: its page has stood still for 6"))):
        listener, address = serve((text, False))
        status, output, errors = check_gateways(program, "a=" + address)
        check(f"a page {text}", ((status, output[9:9 + len(found[1])]), errors), (found, ""))
        check(f"its figures {text}", output.split(" | ")[1:], ["'a problems'=0 'a unhandled'=0 'a stale'=0\n"])
        check(f"a greater age {text}", check_gateways(program, "a=" + address, "--age", "100")[0], found[0] % 2)
        listener.close()
    listener, address = serve((b"status %d\nobject;web1;;UP;900;fresh;-;0;up\nobject;web1;HTTP;CRITICAL;900;fresh;-;0;timeout\n"
                               b"object;web1;SSH;OK;900;stale;-;0;ok\n" % now, False))
    check("each figure", check_gateways(program, "a=" + address),
          (0, "NSCAGATE OK - a: 3 objects, 1 problems, 1 unhandled, 1 stale | 'a problems'=1 'a unhandled'=1 'a stale'=1\n", ""))
    listener.close()
    listener, mail = serve((b"220 mail\r\n", False))
    check("one of three is no gateway", check_gateways(program, "a=" + pages, "b=" + mail, "c=" + pages),
          (3, f"NSCAGATE UNKNOWN - a: {COUNTS}; b: no status page came from {mail}; c: {COUNTS} | "
           f"{FIGURES.format('a')} {FIGURES.format('c')}\n", ""))
    check("one of two is not there", check_gateways(program, "b=" + mail, "a=127.0.0.1:9")[:2],
          (2, f"NSCAGATE CRITICAL - b: no status page came from {mail}; a: no page came from 127.0.0.1:9\n"))
    listener.close()
    for words, text in ((("--age", "x"), "--age is a number of seconds"), (("--colour",), BAD_WORDS), (("--age",), BAD_WORDS),
                        (("--config", path + ".none"), "the configuration can't be read"),
                        (("web1",), "web1 is no IP address with a port"), (("--wait", "0"), "--wait is 1 to 3600")):
        check(f"check {words}", check_gateways(program, *words), unknown(text))


BAD_WORDS = "bad words: see nscagatectl check --help"


def play_a_full_log(program, folder):
    """A gateway whose log is full stands still, and is CRITICAL."""
    daemon = Daemon(sys.argv[1], folder, CONFIGURATION.replace("limit = 100000", "limit = 1"))
    ask(daemon, "[1] ADD_HOST_COMMENT;web1;0;ann;x")
    daemon.page_with(";ann;x")
    time.sleep(2.2)
    status, output, _ = check_gateways(program, "--age=1", f"a=127.0.0.1:{daemon.ports['pages']}")
    check("a full log", (status, re.sub(r"\d+ seconds.*\n", "N seconds", output)),
          (2, "NSCAGATE CRITICAL - a: its page has stood still for N seconds"))
    daemon.process.kill()
    daemon.end()


def play_tests_of_configurations(program, folder):
    """A configuration is read as the daemon reads it, and its fault has a line."""
    path = os.path.join(folder, "tested.toml")
    hosts = '[[host]]\nname = "web1"\n[[host.service]]\nname = "HTTP"\n[[host.service]]\nname = "SSH"\n'
    for text, found in (
            (hosts, None), ("", None),
            ("# a\n" + hosts + '[[host]]\nname = "db1"\nfreshnes = 3\n', "line 10: UnknownKey freshnes: did you mean freshness"),
            ("colour = 3\n" + hosts, "line 1: UnknownKey colour"),
            ("limit = 0", "line 1: BadValue limit"),
            ("capcty = 3\n", "line 1: UnknownKey capcty: did you mean capacity"),
            ("\nlimit = 0\nagents = \"127.0.0.1:5667\"\n" + hosts, "line 2: BadValue limit"),
            (hosts + '[[host]]\nfreshness = 3\n[[host]]\nname = "x"\n', "line 7: MissingName"),
            (hosts + '[[host.service]]\nname = "HTTP"\n', "line 8: Object 4 DuplicateService: web1 HTTP"),
            (hosts + '[[host]]\nname = "web1"\n', "line 8: Object 4 DuplicateHost: web1"),
            (hosts + "limit\n" + hosts, "line 7: NotToml"),
            ('host = [\n  { name = "a" },\n  { name = "a" },\n]\n', "line 1: Object 2 DuplicateHost: a"),
            ("#" * 1048577, ": TooLarge")):
        with open(path, "w", encoding="ascii") as file:
            file.write(text)
        if found is None:
            counts = "1 hosts, 2 services" if text else "0 hosts, 0 services"
            check(f"the configuration {text[:9]}", run(program, "test-config", path), (0, f"{path}: {counts}\n", ""))
        else:
            where = "" if found.startswith(":") else " "
            check(f"the fault {found}", run(program, "test-config", path), (2, "", f"nscagatectl: {path}{where}{found}\n"))
            check(f"the daemon's fault {found}", run(sys.argv[1], "serve", "--config", path)[0], 2)
    check("no configuration to test", run(program, "test-config", path + ".none"),
          (2, "", "nscagatectl: the configuration can't be read\n"))


ADDRESSES = "agents 127.0.0.1:5667\noperators 127.0.0.1:5668\npages 127.0.0.1:5669\n"
DAY = """log 6
[100] 1:1 PROCESS_HOST_CHECK_RESULT;web1;0;up -> Accepted
[101] 1:2 PROCESS_SERVICE_CHECK_RESULT;web2;HTTP;0;caf\xe9 \\x07 \\\\ -> NoSuchHost
[102] 2:1 PROCESS_HOST_CHECK_RESULT;web1;0;up -> PassiveDisabled
[103] 1:3 PROCESS_HOST_CHECK_RESULT;web3;0;up -> NoSuchHost
[104] 1:4 PROCESS_HOST_CHECK_RESULT;web2;2;caf\xe9 \\x07 \\\\ -> NoSuchHost
[105] 3:1 DEL_HOST_COMMENT;17 -> NoSuchComment
"""


def play_logs(program, folder, printed):
    """What a daemon's log page comes to, also since a moment and as JSON; and files that have none."""
    path = os.path.join(folder, "day")

    def log(text, *words):
        with open(path, "w", encoding="latin-1") as file:
            file.write(text)
        return run(program, "log", path, *words)

    records = printed.splitlines()[1:]
    refused = [line for line in records if not line.endswith(" -> Accepted")]
    status, output, errors = log(ADDRESSES + printed)
    counts, rows = output.splitlines()[:3], output.splitlines()[3:]
    check("a daemon's log", (status, counts, errors),
          (0, [f"records {len(records)}", f"Accepted {len(records) - len(refused)}", f"PassiveDisabled {len(refused)}"], ""))
    check("its refusals", (sum(int(row.split()[0]) for row in rows), {row.split(" ", 1)[1] for row in rows} <= set(refused)),
          (len(refused), True))
    lines = DAY.splitlines(keepends=True)
    check("refusals by reason and host", log(ADDRESSES + DAY),
          (0, "records 6\nAccepted 1\nNoSuchHost 3\nPassiveDisabled 1\nNoSuchComment 1\n"
           + "2 " + lines[5] + "1 " + lines[4] + "1 " + lines[3] + "1 " + lines[6], ""))
    check("since a moment", log(DAY, "--since=104"), (0, "records 2\nNoSuchHost 1\nNoSuchComment 1\n1 " + lines[5] + "1 " + lines[6], ""))
    check("since a later moment", log(DAY, "--since=106"), (0, "records 0\n", ""))
    check("the last of two runs", log(ADDRESSES + DAY + ADDRESSES + "log 0\n"), (0, "records 0\n", ""))
    status, output, errors = log(DAY, "--json", "--since", "101")
    counts, *refusals = [json.loads(line) for line in output.splitlines()]
    check("its counts in JSON", (status, {name: count for name, count in counts.items() if count}, len(counts), errors),
          (0, {"records": 5, "NoSuchHost": 3, "PassiveDisabled": 1, "NoSuchComment": 1}, 14, ""))
    check("its refusals in JSON", [tuple(one.values())[:-1] for one in refusals],
          [("NoSuchHost", "web2", 2, 104, 1, 4), ("NoSuchHost", "web3", 1, 103, 1, 3), ("PassiveDisabled", "web1", 1, 102, 2, 1),
           ("NoSuchComment", None, 1, 105, 3, 1)])
    check("the members of a refusal", list(refusals[0]), ["outcome", "host", "count", "moment", "client", "number", "command"])
    check("a command in JSON", refusals[0]["command"].encode("latin-1").decode(),
          "PROCESS_HOST_CHECK_RESULT;web2;2;caf\ufffd \x07 \\")
    for name, text, cause in (("a foreign file", "220 mail\r\n", "there is no log page in it"),
                              ("a page of no number", "log x\n", "there is no log page in it"),
                              ("an empty file", "", "there is no log page in it"),
                              ("a line that is cut off", DAY[:-5], "its log page: line 7 is missing or cut off"),
                              ("a line that is missing", DAY[:-len(lines[6])], "its log page: line 7 is missing or cut off"),
                              ("a foreign line", DAY.replace(" -> Accepted", ""), "its log page: line 2 is no line of a log page"),
                              ("one line too many", DAY + "x\n", "its log page: line 8 is one too many")):
        check(name, log(text), (2, "", f"nscagatectl: {path}: {cause}\n"))
    check("a moment that is none", log(DAY, "--since=noon"), (2, "", "nscagatectl: a time is in seconds since 1970\n"))
    with open("/dev/full", "wb") as full:
        ran = subprocess.run([program, "log", path], stdout=full, stderr=subprocess.PIPE, timeout=TIME_LIMIT, check=False)
    check("a summary and a full output", (ran.returncode, ran.stderr), (3, b"nscagatectl: the output can't be written\n"))
    os.remove(path)
    check("no file", run(program, "log", path), (2, "", f"nscagatectl: {path}: it can't be read\n"))


def play_a_daily_mail(program, folder):
    """What examples/daily-mail prints of the logs of a day's runs."""
    logs, commands = os.path.join(folder, "logs"), os.path.join(folder, "commands")
    os.mkdir(logs)
    os.mkdir(commands)
    os.symlink(program, os.path.join(commands, "nscagatectl"))

    def mail():
        words = ["sh", "examples/daily-mail/refused.sh", logs]
        ran = subprocess.run(words, stdin=subprocess.DEVNULL, capture_output=True, timeout=TIME_LIMIT, check=False,
                             env={"PATH": commands + ":" + os.environ["PATH"]})
        return ran.stdout.decode("latin-1"), ran.stderr.decode("latin-1")

    def write(name, text, days=0):
        path = os.path.join(logs, name)
        with open(path, "w", encoding="latin-1") as file:
            file.write(text)
        os.utime(path, (time.time() - days * 86400,) * 2)
        return path

    accepted = "log 1\n" + DAY.splitlines()[1] + "\n"
    check("no log", mail(), ("", ""))
    write("log-20261127-040000", ADDRESSES + accepted)
    write("log-20261126-040000", DAY, days=2)
    write("log-20261127-050000.gz", DAY)
    write("log", DAY)
    check("nothing was refused", mail(), ("", ""))
    path = write("log-20261127-060000", ADDRESSES + DAY)
    check("what was refused", mail(), (f"{path}:\n" + run(program, "log", path)[1], ""))
    write("log-20261127-060000", DAY[:-5])
    check("a log that is cut off", mail(), ("", f"nscagatectl: {path}: its log page: line 7 is missing or cut off\n"))


def play_watching(program, folder):
    """Each change of the page is a line, until the gateway is gone."""
    daemon = Daemon(sys.argv[1], folder, TABLE)
    operator = Operator(program, daemon)
    watching = subprocess.Popen([program, "watch", *operator.ports, "--interval=1"], stdout=subprocess.PIPE,
                                stderr=subprocess.PIPE)
    time.sleep(0.5)

    def changes(count):
        return [watching.stdout.readline().decode("latin-1").split("] ")[1] for _ in range(count)]

    operator.run("result", "web1", "HTTP", "--state=CRITICAL", "--output=timeout; 10s")
    check("a result", changes(1), ["web1 HTTP: CRITICAL, was PENDING: timeout; 10s\n"])
    operator.run("ack", "web1", "HTTP", "-c", "\u00e9", "--sticky")
    check("an acknowledgement", changes(2), ["web1 HTTP: acknowledged, sticky\n", "web1 HTTP: comment 1 by ann: \u00c3\u00a9\n"])
    now = int(time.time())
    operator.run("downtime", "web1", "-c", "disk", f"--from={now}", f"--until={now + 60}")
    check("downtime", changes(3), ["web1: downtime depth 1, was 0\n", "web1: comment 2 by ann: disk\n",
                                   f"web1: downtime 1 from {now} to {now + 60} by ann: disk\n"])
    operator.run("cancel", "1")
    check("its end", changes(3), ["web1: downtime depth 0, was 1\n", "web1: comment 2 is gone\n", "web1: downtime 1 is gone\n"])
    operator.run("unack", "web1", "HTTP")
    check("an acknowledgement that is removed", changes(2), ["web1 HTTP: no longer acknowledged\n", "web1 HTTP: comment 1 is gone\n"])
    operator.run("shutdown")
    daemon.end()
    _, errors = watching.communicate(timeout=TIME_LIMIT)
    check("the gateway is gone", (watching.returncode, errors),
          (3, b"nscagatectl: no status page: the gateway accepts no connection\n"))
    operator.refuses(["watch", "--interval=0"], "--interval is 1 to 3600", 2)


def play_a_full_output(operator):
    with open("/dev/full", "wb") as full:
        ran = subprocess.run([operator.program, "status", *operator.ports], stdin=subprocess.DEVNULL, stdout=full,
                             stderr=subprocess.PIPE, timeout=TIME_LIMIT, check=False)
    check("a full output", (ran.returncode, ran.stderr), (3, b"nscagatectl: the output can't be written\n"))


class PrintingDaemon:
    """A daemon that prints to a file, over ports that stay the same from one run to the next."""

    def __init__(self, program, folder):
        self.program = program
        self.folder = folder
        self.log = os.path.join(folder, "log")
        self.config = os.path.join(folder, "printing.toml")
        ports = [free_port() for _ in range(3)]
        with open(self.config, "w", encoding="ascii") as file:
            file.write(TABLE.replace("127.0.0.1:0", "127.0.0.1:%d") % tuple(ports))
        self.begin()

    def begin(self, kept=b""):
        text = os.path.join(self.folder, "text")
        with open(text, "wb") as file:
            file.write(kept)
        with open(self.log, "wb") as log, open(text, "rb") as file:
            self.process = subprocess.Popen([self.program, "serve", "--config", self.config], stdin=file, stdout=log)
        end = time.monotonic() + TIME_LIMIT
        while os.path.getsize(self.log) < 60 and time.monotonic() < end:
            time.sleep(0.02)

    def kill(self):
        self.process.kill()
        self.process.wait()


def planned(program, daemon, page):
    """The status of a restore, the text that it prints, and its errors without ages."""
    ran = subprocess.run([program, "restore", page, "--config", daemon.config], capture_output=True, timeout=TIME_LIMIT, check=False)
    return ran.returncode, ran.stdout, re.sub(r"\d+ seconds old", "N seconds old", ran.stderr.decode("ascii"))


def without_ages(ran):
    status, output, errors = ran
    return status, *(re.sub(r"\d+ seconds old", "N seconds old", text) for text in (output, errors))


BY_PAGE = ("nscagatectl: restoring from a page that is N seconds old, without a log: "
           "passive checks that were disabled are enabled\n")
BY_LOG = "nscagatectl: restoring from a log, and a page that is N seconds old\n"


def play_keeping(program, daemon_program, folder):
    """What a gateway shows is kept by `check` and by `stop`, and restored from its log, or else from its page."""
    daemon = PrintingDaemon(daemon_program, folder)
    page = os.path.join(folder, "page")

    def ctl(*words):
        return without_ages(run(program, *words, "--config", daemon.config))

    ctl("result", "web1", "HTTP", "--state=CRITICAL", "--output=timeout; 10s")
    ctl("ack", "web1", "HTTP", "-c", "on it", "--sticky")
    ctl("downtime", "web1", "-c", "disk", "--for=2h")
    check("a page that check keeps", ctl("check", "--keep", page)[0], 0)
    check("it is the owner's alone", (os.stat(page).st_mode & 0o777, os.path.exists(page + ".new")), (0o600, False))
    status, output, _ = ctl("check", "--keep", os.path.join(folder, "none", "page"))
    check("a page that can't be kept", (status, f"the page can't be kept in {folder}/none/page; " in output), (1, True))
    check("pages of two gateways", ctl("check", "a=127.0.0.1:1", "b=127.0.0.1:1", "--keep", page), unknown("bad words"))
    daemon.kill()
    status, text, errors = planned(program, daemon, page)
    check("a page is planned", (status, errors), (0, BY_PAGE))
    check("a packet of its result", (text[:2], text[14:19], text[78:83], text[206:219]), (b"\0\3", b"web1\0", b"HTTP\0", b"timeout; 10s\0"))
    check("lines of the others", re.sub(r"^\[\d+\] ([A-Z_]+;[^;]+).*", r"\1", text[4304:].decode("ascii"), flags=re.MULTILINE),
          "ACKNOWLEDGE_SVC_PROBLEM;web1\nSCHEDULE_HOST_DOWNTIME;web1\n")
    daemon.begin(text)
    check("its downtime is there", ctl("cancel", "1"), (0, "cancelled: downtime 1\n", ""))
    ctl("passive", "off", "web1")
    check("a stop", ctl("stop", page, "--log", daemon.log, "--pid", str(daemon.process.pid)),
          (0, "stopped: all that was queued is kept\n", ""))
    check("its log page is kept", os.path.exists(page + ".log"), True)
    daemon.process.wait()
    written = os.path.getmtime(page + ".log")
    os.utime(page, (written + 1, written + 1))
    check("a page that is newer than its log", planned(program, daemon, page)[2], BY_PAGE)
    os.utime(page, (written - 1, written - 1))
    status, text, errors = planned(program, daemon, page)
    check("a log is planned", (status, errors), (0, BY_LOG))
    daemon.begin(text)
    check("its setting is there", ctl("result", "web1", "--state=UP", "--output=x", "--wait=1"),
          (1, "", "nscagatectl: web1: queued, and not shown in time\n"))
    os.remove(page + ".log")
    play_faulty_files(ctl, page)
    check("nothing to stop", ctl("stop", page, "--wait=1", "--operators=127.0.0.1:1"),
          (3, "", "nscagatectl: SHUTDOWN_PROGRAM was not answered by closing\n"))
    daemon.kill()
    play_one_missing_row(program, daemon, ctl, page)


def play_one_missing_row(program, daemon, ctl, page):
    """The comment of an acknowledgement that is over is restored as a user's: its row is the one that is named."""
    row = f"comment;1;web1;;ack;0;{int(time.time())};ann;over\n"
    with open(page, "w", encoding="ascii") as file:
        file.write(f"status {int(time.time())}\nobject;web1;;PENDING;-;fresh;-;0;\n{row}")
    status, text, errors = planned(program, daemon, page)
    check("one row isn't shown again", (status, errors), (1, f"{BY_PAGE}nscagatectl: not to be shown again: {row}"))
    daemon.begin(text)
    check("its comment is there", re.search(r"^comment;\d+;web1;;user;0;\d+;ann;over$", ctl("status")[1], re.M) is not None, True)
    daemon.kill()


def play_faulty_files(ctl, page):
    """Kept files that no gateway wrote, or too long ago, are not restored."""
    with open(page, "rb") as file:
        text = file.read()
    for name, faulty in (("an escape that no page has", text.replace(b"on it", b"\\x6fn it")), ("a byte", text.replace(b"on", b"\x01")),
                         ("a NUL", text.replace(b"on it", b"\\x00")), ("a lone backslash", text.replace(b"on it", b"\\")),
                         ("a cut page", text[:-1]), ("no page", b"220 mail\r\n"), ("nothing", b"")):
        with open(page, "wb") as file:
            file.write(faulty)
        check(name, ctl("restore", page), (2, "", "nscagatectl: the kept page is no status page\n"))
    with open(page, "wb") as file:
        file.write(re.sub(rb"^status \d+", b"status 1000000000", text))
    check("an old page", ctl("restore", page)[0], 2)
    os.remove(page)
    check("no page", ctl("restore", page), (2, "", "nscagatectl: the kept files can't be read\n"))
    check("no log", ctl("restore", page, "--log", page), (2, "", "nscagatectl: the kept files can't be read\n"))
    with open(page, "wb") as file:
        file.write(b"agents 127.0.0.1:1\n")
    check("a log without a log page", ctl("restore", page, "--log", page),
          (2, "", "nscagatectl: there is no log page in the kept log\n"))


def main():
    program = sys.argv[2]
    with tempfile.TemporaryDirectory() as folder:
        daemon = Daemon(sys.argv[1], folder, TABLE)
        operator = Operator(program, daemon)
        play_results_and_acknowledgements(operator)
        play_comments(operator)
        play_downtime(operator)
        play_passive_checks(operator)
        play_texts(operator)
        play_words(operator, program)
        play_escapes(operator, daemon)
        play_filters(operator)
        play_json(operator, program)
        play_users(operator, daemon, program)
        play_configurations(program, daemon, folder)
        play_lines(program)
        play_addresses(program)
        play_gateways_that_fail(program, daemon)
        play_checks(operator, program, daemon, folder)
        play_a_full_output(operator)
        operator.shows(["shutdown"], "closing: the gateway")
        status, output, errors = daemon.end()
        check("the daemon's end", (status, errors), (0, ""))
        check("what was refused by its page was not sent",
              sorted(set(re.findall(r"-> (\w+)$", output, re.MULTILINE))), ["Accepted", "PassiveDisabled"])
        play_logs(program, folder, output)
        play_a_daily_mail(os.path.abspath(program), folder)
        play_a_full_log(program, folder)
        play_tests_of_configurations(program, folder)
        play_watching(program, folder)
        play_keeping(program, sys.argv[1], folder)
        play_two_operators(program, sys.argv[1], folder)
    end_tests()


main()
