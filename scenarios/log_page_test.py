"""Plays the log page at the end of a daemon and of a replay: python3 log_page_test.py PROGRAM [FAIL_ALLOC], the library of
fail_alloc.c. Each play has a daemon of its own. Ends with a line 'N passed, M failed'.

A page that is cut off can't be taken for a whole one: its first line has the number of its records, and each has a line."""
import os
import re
import resource
import signal
import subprocess
import sys
import tempfile
import time

from daemon_clients import CONFIGURATION, Daemon, ask, check, end_tests, packet, read_all, read_exactly, run_plays

UNREAD = "nscagate: nobody reads the log page\n"
FAILED = "nscagate: WriteFault\n"
MANY = 262_000  # records; a list of them has room for 262,144, and then asks for twice as much
LITTLE = 150 << 20  # bytes of addresses, as the daemon is started
PIPE = 1 << 16  # bytes that a pipe takes before anybody reads
SECONDS = 240.0  # for a daemon's end, on a machine with other work
AT_ONCE = 1_000  # packets that are written at once


def write_script(program, folder):
    """Writes a script that runs the lines of a shell beside a daemon's configuration, and then the program. It is written before
    anything is started: none runs whose file another process has open."""
    path = os.path.join(folder, "started")
    with open(path, "w", encoding="utf-8") as file:
        file.write(f'#!/bin/sh\n. "$(dirname "$3")/lines"\nexec "{os.path.abspath(program)}" "$@"\n')
    os.chmod(path, 0o700)


def script_in(folder, lines):
    """The script that runs these lines first."""
    with open(os.path.join(folder, "lines"), "w", encoding="utf-8") as file:
        file.write(lines + "\n")
    return os.path.join(os.path.dirname(folder), "started")


class Logged(Daemon):
    """A daemon with a log for all that is sent here, started after these lines of a shell."""

    def __init__(self, folder, lines=""):
        limits = "limit = 1000000\nitems = 1000000\nreads = 4294967295"
        super().__init__(script_in(folder, lines), folder, CONFIGURATION.replace("limit = 100000", limits))

    def send(self, count):
        """Sends so many results on one connection, and one more on another, and waits until that one is shown."""
        for output, number in ((b"slow; a result of web1", count), (b"the last one", 1)):
            with self.connect("agents") as connection:
                connection.settimeout(SECONDS)
                read_exactly(connection, 132)
                results = packet(0, b"web1", b"HTTP", 1, output, room=512) * min(number, AT_ONCE)
                for _ in range(number // min(number, AT_ONCE)):
                    connection.sendall(results)
                connection.shutdown(1)
                read_all(connection)
        check("the last result is shown", "the last one" in self.page_with("the last one"), True)

    def close(self):
        """Shuts it down: the time before that."""
        began = time.monotonic()
        check("a shutdown is answered", ask(self, "[1] SHUTDOWN_PROGRAM"), ["closing"])
        return began

    def said(self, text):
        """What it says on standard error until that is this text, or SECONDS are over."""
        os.set_blocking(self.process.stderr.fileno(), False)
        found = b""
        deadline = time.monotonic() + SECONDS
        while found.decode() != text and time.monotonic() < deadline and self.process.poll() is None:
            found += self.process.stderr.read() or b""
            time.sleep(0.05)
        os.set_blocking(self.process.stderr.fileno(), True)
        return found.decode()


def is_whole(page, records):
    """Whether a log page has so many records, and a line for each."""
    lines = page.split("\n")
    return lines[0] == f"log {records}" and len(lines) == records + 2 and lines[-1] == "" and all(
        line.endswith(" -> Accepted") for line in lines[1:-1])


def is_cut(page, records):
    """Whether an output has a log page that says that it has so many records, and has fewer lines."""
    page = page[page.find("log "):]
    return page.startswith(f"log {records}\n") and page.count("\n") < records + 1


def are_in_order(page):
    """Whether the records of the one client stand in the order of their numbers."""
    numbers = [int(number) for number in re.findall(r"^\[\d+\] 1:(\d+) ", page, flags=re.MULTILINE)]
    return numbers == list(range(1, len(numbers) + 1))


def play_little_memory(_, folder):
    """With little memory the page is whole: none is taken for it."""
    daemon = Logged(folder, f"ulimit -v {LITTLE >> 10}\nexport MALLOC_ARENA_MAX=1")
    daemon.send(MANY)
    daemon.close()
    status, page, errors = daemon.end(SECONDS)
    check_whole("little memory", status, errors, page, MANY + 1)


def starved(folder):
    """A daemon that has taken packets, and the file beside which it is granted no memory."""
    refusing = os.path.join(folder, "refusing")
    daemon = Logged(folder, f"export LD_PRELOAD='{sys.argv[2]}' FAIL_ALLOC_LARGE=0 FAIL_ALLOC_WHILE='{refusing}'")
    daemon.send(3 * AT_ONCE)
    return daemon, refusing


def play_no_memory(_, folder):
    """From the answer `closing` on no memory is granted, and the page is whole."""
    if len(sys.argv) < 3:
        print("no memory ... skipped: cc is not installed")
        return
    daemon, refusing = starved(folder)
    daemon.close()
    open(refusing, "w", encoding="ascii").close()
    status, page, errors = daemon.end(SECONDS)
    check("no memory: status and standard error", (status, errors) in ((0, ""), (3, "nscagate: OutOfMemory\n")), True)
    check("no memory: the page is whole", (is_whole(page, 3 * AT_ONCE + 1), are_in_order(page)), (True, True))


def play_a_shutdown_without_memory(_, folder):
    """An operator who comes when no memory is granted any more shuts the daemon down: what that takes was taken before."""
    if len(sys.argv) < 3:
        print("a shutdown without memory ... skipped: cc is not installed")
        return
    daemon, refusing = starved(folder)
    open(refusing, "w", encoding="ascii").close()
    daemon.close()
    status, page, errors = daemon.end(SECONDS)
    check("a shutdown without memory: status and standard error", (status, errors) in ((0, ""), (3, "nscagate: OutOfMemory\n")), True)
    check("a shutdown without memory: the page is whole", (is_whole(page, 3 * AT_ONCE + 1), are_in_order(page)), (True, True))


def closed(folder, records):
    """A daemon that was sent so many results, and is shut down."""
    daemon = Logged(folder)
    daemon.send(records)
    daemon.close()
    return daemon


def check_whole(what, status, errors, page, records):
    """The daemon ended with status 0, said nothing, and printed so many records, in order."""
    check(f"{what}: status and standard error", (status, errors), (0, ""))
    check(f"{what}: the page is whole", (is_whole(page, records), are_in_order(page)), (True, True))


def play_nobody_reads(_, folder):
    """After 10 s the daemon says once that nobody reads its log page, and goes on waiting."""
    daemon = Logged(folder)
    daemon.send(5 * AT_ONCE)
    began = daemon.close()
    check("nobody reads: it is said", daemon.said(UNREAD), UNREAD)
    check("nobody reads: not before 10 s", time.monotonic() - began >= 10.0, True)
    time.sleep(12.0)
    check("nobody reads: it waits", daemon.process.poll(), None)
    status, page, errors = daemon.end(SECONDS)
    check("nobody reads: it is said once, and the status is 0", (status, errors), (0, ""))
    check("nobody reads: the page is whole", (is_whole(page, 5 * AT_ONCE + 1), are_in_order(page)), (True, True))


def play_a_slow_reader(_, folder):
    """Who reads something every other second isn't nobody."""
    daemon = closed(folder, 20 * AT_ONCE)
    page = b""
    for _ in range(8):
        page += os.read(daemon.process.stdout.fileno(), PIPE)
        time.sleep(2.0)
    status, rest, errors = daemon.end(SECONDS)
    check_whole("a slow reader", status, errors, page.decode("latin-1") + rest, 20 * AT_ONCE + 1)


def play_a_reader_who_goes(_, folder):
    """A reader who goes amid the page is told by name."""
    daemon = closed(folder, 20 * AT_ONCE)
    page = read_some(daemon.process.stdout, PIPE)
    daemon.process.stdout.close()
    errors = daemon.process.stderr.read().decode()
    check("a reader who goes: status and standard error", (daemon.process.wait(SECONDS), errors), (3, FAILED))
    check("a reader who goes: the page is cut", is_cut(page, 20 * AT_ONCE + 1), True)


def read_some(file, count):
    """So many bytes of a file, unless it ends."""
    found = b""
    while len(found) < count:
        piece = os.read(file.fileno(), count - len(found))
        if not piece:
            break
        found += piece
    return found.decode("latin-1")


class Filed(Logged):
    """A daemon whose output is a file that may have PIPE bytes, started after these lines of a shell."""

    def __init__(self, folder, lines):  # pylint: disable=super-init-not-called
        self.path = os.path.join(folder, "output")
        configuration = os.path.join(folder, "gateway.toml")
        with open(configuration, "w", encoding="latin-1") as file:
            file.write(CONFIGURATION)
        with open(self.path, "wb") as output:
            self.process = subprocess.Popen([script_in(folder, lines), "serve", "--config", configuration],
                                            stdin=subprocess.DEVNULL, stdout=output, stderr=subprocess.PIPE)
        resource.prlimit(self.process.pid, resource.RLIMIT_FSIZE, (PIPE, PIPE))
        deadline = time.monotonic() + SECONDS
        while self.output().count("\n") < 3 and time.monotonic() < deadline:
            time.sleep(0.02)
        self.ports = {name: int(port) for name, port in re.findall(r"^(\w+) 127\.0\.0\.1:(\d+)$", self.output(), re.MULTILINE)}
        self.hosts = {name: "127.0.0.1" for name in self.ports}

    def output(self):
        with open(self.path, encoding="latin-1") as file:
            return file.read()


def end_at_a_limit(folder, lines):
    """How a daemon ends whose log page is longer than a file may be: its status and standard error."""
    daemon = Filed(folder, lines)
    daemon.send(3 * AT_ONCE)
    daemon.close()
    errors = daemon.process.stderr.read().decode()
    status = daemon.process.wait(SECONDS)
    output = daemon.output()
    check("a limit for files: the page is cut", (is_cut(output, 3 * AT_ONCE + 1), len(output)), (True, PIPE))
    return status, errors


def play_a_limit_for_files(_, folder):
    """A page beyond the limit for files is told by name, where the signal for it is ignored from the start."""
    check("a limit for files: status and standard error", end_at_a_limit(folder, "trap '' XFSZ"), (3, FAILED))


def play_a_limit_for_files_and_a_signal(_, folder):
    """Where it isn't ignored, the signal ends the daemon, and the page can't be taken for a whole one."""
    check("a limit for files and a signal", end_at_a_limit(folder, ""), (-signal.SIGXFSZ, ""))


def script_of(records):
    """A script of so many results."""
    lines = ["object;0;web1", f"open;1000;0;64;{records}"]
    lines += [f"packet;1000;0;web1;;result {number}" for number in range(records)]
    return ("\n".join(lines) + "\n").encode()


def play_a_replay(program, folder):
    """The log page of a replay: whole where it is read, and told by name where it can't be written."""
    records = 10_000
    path = os.path.join(folder, "script")
    with open(path, "wb") as file:
        file.write(script_of(records))

    def run(output, **more):
        with open(path, "rb") as script:
            return subprocess.Popen([program, "replay"], stdin=script, stdout=output, stderr=subprocess.PIPE, **more)

    replay = run(subprocess.PIPE)
    output, errors = replay.communicate(timeout=SECONDS)
    page = output.decode("latin-1")
    page = page[page.find("log "):]
    check("a replay: status and standard error", (replay.returncode, errors), (0, b""))
    check("a replay: the page is whole", (is_whole(page, records), are_in_order(page)), (True, True))

    replay = run(subprocess.PIPE)
    found = ""
    while "log " not in found:
        found += read_some(replay.stdout, PIPE)
    replay.stdout.close()
    errors = replay.stderr.read().decode()
    check("a replay whose reader goes", (replay.wait(SECONDS), errors), (3, FAILED))
    check("a replay whose reader goes: the page is cut", is_cut(found, records), True)

    limit = output.find(b"log ") + PIPE

    def bound():
        signal.signal(signal.SIGXFSZ, signal.SIG_IGN)
        resource.setrlimit(resource.RLIMIT_FSIZE, (limit, limit))

    cut = os.path.join(folder, "output")
    with open(cut, "wb") as file:
        replay = run(file, preexec_fn=bound, restore_signals=False)
    errors = replay.stderr.read().decode()
    check("a replay and a limit for files", (replay.wait(SECONDS), errors), (3, FAILED))
    with open(cut, encoding="latin-1") as file:
        found = file.read()
    check("a replay and a limit for files: the page is cut", (is_cut(found, records), len(found)), (True, limit))

    if os.path.exists("/dev/full"):
        with open("/dev/full", "wb") as full:
            replay = run(full)
        errors = replay.stderr.read().decode()
        check("a replay and a full device", (replay.wait(SECONDS), errors), (3, FAILED))
    else:
        print("a full device ... skipped: there is no /dev/full", flush=True)


PLAYS = [play for name, play in sorted(globals().items()) if name.startswith("play_")]


def main():
    with tempfile.TemporaryDirectory() as folder:
        write_script(sys.argv[1], folder)
        run_plays(PLAYS, sys.argv[1], folder)
    end_tests()


main()
