"""Two operators who command at once: the id that each is told is that of its own comment or downtime entry."""
import json
import os
import re
import subprocess
import threading
import time

from daemon_clients import CONFIGURATION, TIME_LIMIT, Daemon, ask, check

HOSTS = [f"rack{number}" for number in range(1, 9)]
TABLE = CONFIGURATION + "".join(f'[[host]]\nname = "{host}"\n[[host.service]]\nname = "HTTP"\n' for host in HOSTS)
PAIRS = 1000
SECONDS = 60
START = 4000000000


class Command:
    """The words of a command, and the row that it makes, without its id and its moments."""

    def __init__(self, words, row):
        self.words = words
        self.row = row

    def delete(self, number):
        return f"[1] DEL_{'SVC' if self.row[2] else 'HOST'}_{self.row[0].upper()};{number}"


def comment(host, service="", author="ann", text="on it", persistent=False, word="comment"):
    words = [word, host, *([service] if service else []), "-c", text, f"--author={author}", *(["--persistent"] if persistent else [])]
    return Command(words, ["comment", host, service, "user" if word == "comment" else "ack", str(int(persistent)), author, text])


def downtime(host, service="", author="ann", text="disk", start=START, end=START + 600, flexible=0):
    words = ["downtime", host, *([service] if service else []), "-c", text, f"--author={author}", f"--from={start}", f"--until={end}",
             *([f"--flexible={flexible}s"] if flexible else [])]
    return Command(words, ["downtime", host, service, "flexible" if flexible else "fixed", "0", str(start), str(end), str(flexible),
                           author, text])


def pairs_on(host):
    """Pairs of commands that have all but one thing in common."""
    return [
        ("a persistent comment and another", comment(host, persistent=True), comment(host)),
        ("an acknowledgement and a comment", comment(host, "HTTP", word="ack"), comment(host, "HTTP")),
        ("comments of two objects", comment(host, "HTTP"), comment(host)),
        ("comments of two authors", comment(host), comment(host, author="bob")),
        ("comments with two texts", comment(host), comment(host, text="on it too")),
        ("downtimes with two ends", downtime(host), downtime(host, end=START + 601)),
        ("downtimes with two starts", downtime(host, "HTTP", start=START + 1), downtime(host, "HTTP")),
        ("a fixed downtime and a flexible one", downtime(host), downtime(host, flexible=30)),
        ("downtimes of two objects", downtime(host, "HTTP"), downtime(host)),
        ("downtimes of two authors", downtime(host, author="bob"), downtime(host)),
    ]


def rows_of(page):
    """The comments and the downtime entries of a page by kind and id, without their moments."""
    rows = {}
    for line in page.splitlines():
        kind, *fields = line.split(";")
        if kind == "comment":
            rows[kind, int(fields[0])] = [kind, *fields[1:5], *fields[6:]]
        elif kind == "downtime":
            rows[kind, int(fields[0])] = [kind, *fields[1:8], *fields[9:]]
    return rows


def id_in(output, as_json):
    """The id that was printed."""
    try:
        return json.loads(output)["id"] if as_json else int(re.search(r", (?:comment|downtime) (\d+)$", output)[1])
    except (ValueError, TypeError):
        return None


def play_two_operators(program, daemon_program, folder):
    """A thousand pairs, or as many as take a minute, of which one or the other may come first, beside seven other pairs."""
    own = os.path.join(folder, "two operators")
    os.mkdir(own)
    daemon = Daemon(daemon_program, own, TABLE)
    ports = [f"--operators=127.0.0.1:{daemon.ports['operators']}", f"--pages=127.0.0.1:{daemon.ports['pages']}"]
    wrong = {name: [] for name, _, _ in pairs_on("")}
    end = time.monotonic() + SECONDS

    def play(host):
        ask(daemon, f"[1] PROCESS_SERVICE_CHECK_RESULT;{host};HTTP;2;timeout")
        daemon.page_with(f"object;{host};HTTP;CRITICAL;")
        pairs = pairs_on(host)
        for turn in range(PAIRS // len(HOSTS)):
            if time.monotonic() > end and turn >= len(pairs):
                break
            name, *commands = pairs[turn % len(pairs)]
            as_json = turn % 3 == 0
            begun = [subprocess.Popen([program, *command.words, *ports, *(["--json"] if as_json else [])],
                                      stdin=subprocess.DEVNULL, stdout=subprocess.PIPE, stderr=subprocess.PIPE) for command in commands]
            ended = [process.communicate(timeout=2 * TIME_LIMIT) for process in begun]
            rows = rows_of(daemon.page())
            for command, (output, errors) in zip(commands, ended):
                number = id_in(output.decode("latin-1"), as_json)
                if rows.get((command.row[0], number)) != command.row:
                    wrong[name].append((command.words, output + errors, rows.get((command.row[0], number))))
            ask(daemon, *(command.delete(number) for command in commands
                          for (kind, number), row in rows.items() if row == command.row and kind == command.row[0]))

    together = [threading.Thread(target=play, args=(host,)) for host in HOSTS]
    for thread in together:
        thread.start()
    for thread in together:
        thread.join()
    for name, found in wrong.items():
        check(f"two at once: {name} ({len(found)} wrong)", found[:1], [])
    ask(daemon, "[1] SHUTDOWN_PROGRAM")
    check("the daemon of two operators", daemon.end()[0], 0)
