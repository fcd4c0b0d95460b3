"""Refuses each request for memory of the daemon in turn, ROUNDS times: python3 each_refused_allocation_of_the_daemon_test.py
PROGRAM FAIL_ALLOC [NUMBER], the library of fail_alloc.c. Ends with a line 'N passed, M failed'.

Each daemon is sent a packet, a line and a page's connection, and is then shut down. It has to end within TIME_LIMIT seconds:
with status 0, nothing on standard error and a log page; or with status 3, one line that names a fault, and a log page or none:
none only where a thread isn't started, or nothing was queued. A log page is whole: it has the comment where an operator was
answered that it is queued, and the result where a page showed it."""
import collections
import concurrent.futures
import os
import re
import signal
import socket
import subprocess
import sys
import tempfile
import threading
import time

from daemon_clients import CONFIGURATION, check, end_tests, packet, read_all, read_exactly

TIME_LIMIT = 15.0  # seconds, for all that a daemon is asked and for its end
AT_ONCE = 24  # daemons side by side; where none of them meets a refusal, there is none left to meet
ROUNDS = 4  # whose request a number is depends on the threads, so each is refused as often; more often until all ENDS came
NAMED = ("nscagate: OutOfMemory\n", "nscagate: Spawn\n")
OUT_OF_MEMORY = "status 3 nscagate: OutOfMemory"
ENDS = ("status 0", OUT_OF_MEMORY)
STARVED = 1.5  # seconds; memory for a report is tried for one, and then for a board
COMMENT = "[1] ADD_HOST_COMMENT;web1;0;ann;hi"


class Refused:
    """A daemon of which the request of one number is refused, and what came of it."""

    def __init__(self, folder, number, **more):
        self.folder = os.path.join(folder, str(number))
        os.mkdir(self.folder)
        self.mark = os.path.join(self.folder, "refused")
        configuration = os.path.join(self.folder, "gateway.toml")
        with open(configuration, "w", encoding="latin-1") as file:
            file.write(CONFIGURATION)
        self.deadline = time.monotonic() + TIME_LIMIT
        self.errors = open(os.path.join(self.folder, "errors"), "w+b")
        settings = dict(os.environ, LD_PRELOAD=sys.argv[2], FAIL_ALLOC=str(number), FAIL_ALLOC_MARK=self.mark, **more)
        self.process = subprocess.Popen([sys.argv[1], "serve", "--config", configuration], env=settings,
                                        stdout=subprocess.PIPE, stderr=self.errors)
        self.addresses = {}
        self.queued = False
        self.shown = False

    def is_late(self):
        return time.monotonic() >= self.deadline

    def read_addresses(self):
        """Whether it printed all three; it ends otherwise."""
        for name in ("agents", "operators", "pages"):
            words = self.process.stdout.readline().decode("latin-1").split()
            if len(words) != 2 or words[0] != name:
                return False
            host, port = words[1].rsplit(":", 1)
            self.addresses[name] = (host, int(port))
        return True

    def exchange(self, name, text):
        """What a connection is answered to this text; as much as came of it where the connection fails."""
        answer = b""
        try:
            with socket.create_connection(self.addresses[name], 2.0) as connection:
                connection.settimeout(2.0)
                if name == "agents":
                    answer = read_exactly(connection, 132)
                connection.sendall(text)
                connection.shutdown(socket.SHUT_WR)
                answer += read_all(connection)
        except OSError:
            pass
        return answer

    def until(self, is_done):
        """Asks again and again, until it is done, the daemon has ended, or it is late."""
        while not is_done() and self.process.poll() is None and not self.is_late():
            time.sleep(0.02)

    def play(self):
        self.exchange("agents", packet(1000, b"web1", b"HTTP", 2, b"timeout; 10s"))
        answer = self.exchange("operators", COMMENT.encode() + b"\n")
        self.queued = answer == b"queued 1\n"
        soon = min(self.deadline, time.monotonic() + 1.0)

        def is_shown():
            self.shown = b"CRITICAL" in self.exchange("pages", b"")
            return self.shown or time.monotonic() > soon

        self.until(is_shown)
        self.until(lambda: self.exchange("operators", b"[1] SHUTDOWN_PROGRAM\n") == b"closing\n")

    def starve(self, refusing):
        """Has comments queued, and refuses large requests while this file is there, until the operators' worker has no memory for one more
        report."""
        for number in range(20):
            if number == 5:
                # What is queued is applied by then: an applier without memory for its first record would leave it.
                self.until(lambda: b"\ncomment;5;" in self.exchange("pages", b""))
                open(refusing, "w", encoding="ascii").close()
            if not self.exchange("operators", COMMENT.encode() + b"\n").startswith(b"queued"):
                break
            self.queued = True
        time.sleep(STARVED)
        os.remove(refusing)

    def faults_of(self, status, log, errors):
        """What is wrong with its end; nothing where all is well."""
        if status == 3 and errors in NAMED:
            return self.losses_in(log) if log or (errors == NAMED[0] and (self.queued or self.shown)) else ""
        return self.losses_in(log) if (status, errors) == (0, "") else f"status {status} and {errors!r}"

    def losses_in(self, log):
        """What a log page lacks; nothing where it is whole."""
        counted = re.match(r"log (\d+)\n", log)
        if counted is None or log.count("\n") != int(counted[1]) + 1 or log.count(" -> Accepted\n") != int(counted[1]):
            return f"no whole log page: {log!r}"
        if self.queued and f" {COMMENT[4:]} -> Accepted\n" not in log:
            return f"the comment is lost: {log!r}"
        if self.shown and ";HTTP;2;timeout; 10s -> Accepted\n" not in log:
            return f"the result is lost: {log!r}"
        return ""

    def run(self, play):
        """How it ended in a word, and what is wrong with it."""
        killer = threading.Timer(TIME_LIMIT, self.process.kill)
        killer.start()
        try:
            if self.read_addresses():
                play(self)
            rest, _ = self.process.communicate()
        finally:
            killer.cancel()
            self.errors.seek(0)
            errors = self.errors.read().decode("latin-1")
            self.errors.close()
        status = self.process.returncode
        if status == -signal.SIGKILL:
            return "never ended", "it goes on after a shutdown was asked for, or before it prints its addresses"
        log = rest.decode("latin-1")
        ended = f"status {status} {errors.strip()}".strip() + (" after a log page" if status and log else "")
        return ended, self.faults_of(status, log, errors)


def run_one(folder, number):
    """The number, whether its daemon met a refusal, how it ended, and what is wrong."""
    refused = Refused(folder, number)
    ended, wrong = refused.run(Refused.play)
    return number, os.path.exists(refused.mark), ended, wrong


def run_each(folder, numbers):
    """Runs a daemon for each number, side by side."""
    with concurrent.futures.ThreadPoolExecutor(AT_ONCE) as threads:
        return list(threads.map(lambda number: run_one(folder, number), numbers))


def run_round():
    """Runs daemons whose requests 1, 2 and so on are refused, until none meets its refusal."""
    found = []
    with tempfile.TemporaryDirectory() as folder:
        for first in range(1, 2000, AT_ONCE):
            found += run_each(folder, range(first, first + AT_ONCE))
            if not any(is_met for _, is_met, _, _ in found[-AT_ONCE:]):
                return found
    check("each request was refused", "there are more", "")
    return found


def run_starved():
    """Where memory for an operator's report is missing for longer than it is tried, nobody could close the gate any more."""
    with tempfile.TemporaryDirectory() as folder:
        refusing = os.path.join(folder, "refusing")
        refused = Refused(folder, 0, FAIL_ALLOC_LARGE="700", FAIL_ALLOC_WHILE=refusing)
        ended, wrong = refused.run(lambda daemon: daemon.starve(refusing))
    check("no memory for an operator's report", (ended, wrong, refused.queued), (f"{OUT_OF_MEMORY} after a log page", "", True))


def missing_in(found):
    """Which of the ends no daemon had that met a refusal."""
    return [end for end in ENDS if not any(is_met and ended == end for _, is_met, ended, _ in found)]


def main():
    found = []
    if len(sys.argv) > 3:
        with tempfile.TemporaryDirectory() as folder:
            found = run_each(folder, [int(sys.argv[3])])
    else:
        for number in range(3 * ROUNDS):
            if number < ROUNDS or missing_in(found):
                found += run_round()
        check("ends that no daemon had", missing_in(found), [])
        run_starved()
    met = collections.Counter(ended for _, is_met, ended, _ in found if is_met)
    print(f"the daemon met {sum(met.values())} refusals: " + ", ".join(f"{count} {ended}" for ended, count in met.items()))
    for number, _, ended, wrong in found:
        check(f"request {number} refused ({ended})", wrong, "")
    end_tests()


main()
