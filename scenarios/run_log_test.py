"""Plays the log of a run that the daemon writes as it applies: python3 run_log_test.py PROGRAM STALL_DISK, the library of
stall_disk.c. Each play has a daemon of its own. Ends with a line 'N passed, M failed'."""
import glob
import os
import re
import sys
import tempfile
import threading
import time

from daemon_clients import CONFIGURATION, TIME_LIMIT, ask, check, end_tests, packet, read_exactly, run_plays
from daemon_clients import Daemon as AnyDaemon

COMMENT = "[1] ADD_HOST_COMMENT;web1;1;ann;%s"
UNWRITABLE = "nscagate: the run's log can't be written\n"
SLOW = "nscagate: the run's log waits for its disk\n"
GONE = "nscagate: the run's log is gone\n"
STALL_DISK = os.path.abspath(sys.argv[2])


class Daemon(AnyDaemon):
    """A daemon that writes its log to a folder. Its disk stalls while a file `stall` is in its own folder, and is full while `full` is."""

    def __init__(self, program, folder, configuration=CONFIGURATION, kept=b"", logs=None):
        self.folder = folder
        self.logs = os.path.join(folder, "logs")
        os.makedirs(self.logs, exist_ok=True)
        super().__init__(program, folder, configuration, kept, {
            "LOGS_DIRECTORY": self.logs if logs is None else logs, "LD_PRELOAD": STALL_DISK,
            "STALL_WHILE": os.path.join(folder, "stall"), "FULL_WHILE": os.path.join(folder, "full")})

    def files(self):
        return sorted(glob.glob(os.path.join(self.logs, "*")))

    def log(self):
        """The text of its log so far: it is made once the addresses are printed."""
        if not self.files():
            return ""
        with open(self.files()[-1], "rb") as file:
            return file.read().decode("latin-1")

    def log_with(self, text):
        """The same, once it has this text; the last one after too long."""
        end = time.monotonic() + TIME_LIMIT
        while text not in (log := self.log()) and time.monotonic() < end:
            time.sleep(0.01)
        return log

    def shut_down(self):
        """Its status, log page and errors, once it was shut down."""
        check("a shutdown is answered", ask(self, "[1] SHUTDOWN_PROGRAM"), ["closing"])
        return self.end()


def front(configuration=CONFIGURATION):
    """What comes before the records, after the moment of the opening."""
    return f"configuration {len(configuration)}\n{configuration}\n"


def parts(log, configuration=CONFIGURATION):
    """The moment of the opening, and the lines after the configuration."""
    opened, _, rest = log.partition("\n")
    check("the log begins with the configuration", rest.startswith(front(configuration)), True)
    return int(opened.removeprefix("opened ")), rest[len(front(configuration)):].splitlines()


def set_file(folder, name, is_there):
    path = os.path.join(folder, name)
    if is_there:
        open(path, "wb").close()
    else:
        os.remove(path)


def send(daemon, output):
    """Sends a result: whether the agent was greeted."""
    with daemon.connect("agents") as connection:
        is_greeted = len(read_exactly(connection, 132)) == 132
        connection.sendall(packet(int(time.time()), b"web1", b"HTTP", 2, output))
        return is_greeted


def play_a_run(program, folder):
    """Each record is in the log soon after it was queued, and in the end the log has the lines of the log page."""
    began = int(time.time())
    daemon = Daemon(program, folder)
    log = daemon.log_with("restored 0\n")
    check("a log has its run's second and the number 0", re.fullmatch(r"run-(\d+)-0\.log", os.path.basename(daemon.files()[0])) is not None, True)
    opened, lines = parts(log)
    check("it was opened in this run", began <= opened <= time.time(), True)
    check("nothing was kept", lines, ["restored 0"])
    latest = 0.0
    for number in range(20):
        check("an operator is answered", ask(daemon, COMMENT % number), [f"queued {number + 1}"])
        then = time.monotonic()
        check("its record is logged", f";ann;{number} -> Accepted\n" in daemon.log_with(f";ann;{number} -> Accepted\n"), True)
        latest = max(latest, time.monotonic() - then)
    print(f"a record was logged after {latest:.3f} s at most")
    check("a record is logged in half a second", latest < 0.5, True)
    check("a result is greeted", send(daemon, b"timeout\\; a\nb"), True)
    daemon.log_with("PROCESS_SERVICE")
    status, output, errors = daemon.shut_down()
    check("it ends well", (status, errors), (0, ""))
    page = output[output.index("log "):].splitlines()
    opened, lines = parts(daemon.log())
    check("the log has the lines of the log page", lines[1:-1], page[1:])
    check("it ends with its close", re.fullmatch(r"closed (\d+)", lines[-1]) is not None, True)
    check("which is not before its opening", int(lines[-1].split()[1]) >= opened, True)


def play_what_is_kept(program, folder):
    """A mark stands after the records of what was kept, before those of any peer."""
    kept = packet(2 ** 32 - 1, b"web1", b"HTTP", 2, b"kept") + b"".join(b"[1] ADD_HOST_COMMENT;web1;1;ann;kept %d\n" % n for n in range(3))
    daemon = Daemon(program, folder, kept=kept)
    check("an operator is answered", ask(daemon, COMMENT % "new"), ["queued 4"])
    _, lines = parts(daemon.log_with(";new -> Accepted\n"))
    check("the mark stands after what was kept", [(" kept" in line or ";kept" in line, "restored" in line) for line in lines],
          [(True, False)] * 4 + [(False, True), (False, False)])
    check("the mark counts what was kept", lines[4], "restored 4")
    daemon.shut_down()


def play_crashes(program, folder, crashes=20):
    """Killed amid load: the log is whole lines of what was applied, with all that was applied a second before."""
    services = "".join(f'[[host.service]]\nname = "s{number}"\n' for number in range(8))
    configuration = CONFIGURATION + services
    late = []
    for crash in range(crashes):
        daemon = Daemon(program, folder, configuration)
        sent, is_over = [], threading.Event()

        def agent(number):
            turn = 0
            while not is_over.is_set():
                try:
                    with daemon.connect("agents") as connection:
                        if len(read_exactly(connection, 132)) < 132:
                            return
                        output = b"%d of %d" % (turn, number)
                        connection.sendall(packet(int(time.time()), b"web1", b"s%d" % number, 2, output, 512))
                        connection.shutdown(1)
                        if connection.recv(1):
                            return
                        sent.append((time.monotonic(), output.decode()))
                        turn += 1
                except OSError:
                    return

        agents = [threading.Thread(target=agent, args=(number,)) for number in range(8)]
        for thread in agents:
            thread.start()
        time.sleep(0.3 + 0.05 * crash)
        killed = time.monotonic()
        daemon.process.kill()
        daemon.process.wait()
        is_over.set()
        for thread in agents:
            thread.join()
        log = daemon.log()
        _, lines = parts(log, configuration)
        found = [re.fullmatch(r"\[\d+\] \d+:\d+ PROCESS_SERVICE_CHECK_RESULT;web1;s\d;2;(\d+ of \d) -> Accepted", line) for line in lines[1:]]
        # A line that the kill cut stands last, if there is one.
        check("all lines are whole but the last", all(found[:-1]) and (found[-1] is not None or not log.endswith("\n")), True)
        outputs = [line[1] for line in found if line]
        check("each stands there once", len(outputs), len(set(outputs)))
        missing = [when for when, output in sent if output not in outputs]
        late.append(max((killed - when for when in missing), default=0.0))
        os.remove(daemon.files()[-1])
    print(f"{crashes} crashes: what was sent up to {max(late):.3f} s before is missing")
    check("what was sent a second before is there", max(late) < 1.0, True)


def play_a_slow_disk(program, folder):
    """While the disk stalls nobody waits, and then all is written; that it was slow is said."""
    daemon = Daemon(program, folder)
    daemon.log_with("restored 0\n")
    set_file(folder, "stall", True)
    latest = 0.0
    for number in range(110):
        then = time.monotonic()
        check("a result is greeted while the disk stalls", send(daemon, b"%d" % number), True)
        latest = max(latest, time.monotonic() - then)
        check("a page shows it", f";{number}\n" in daemon.page_with(f";{number}\n"), True)
        time.sleep(0.1)
    print(f"while the disk stalled an agent waited {latest:.3f} s at most")
    check("nobody waits for the disk", latest < 0.5, True)
    check("nothing was written", "PROCESS" in daemon.log(), False)
    set_file(folder, "stall", False)
    check("then all is written", "HTTP;2;109 -> Accepted\n" in daemon.log_with("HTTP;2;109 -> Accepted\n"), True)
    status, output, errors = daemon.shut_down()
    check("it ends well, and says that the disk was slow", (status, errors), (0, SLOW))
    check("no record is missing", parts(daemon.log())[1][1:-1], output[output.index("log "):].splitlines()[1:])


def play_a_full_disk(program, folder):
    """While the disk is full nobody waits, and it is said once; once there is room all is written."""
    daemon = Daemon(program, folder)
    daemon.log_with("restored 0\n")
    set_file(folder, "full", True)
    big = "x" * 4000
    # More than waits in memory: 4 MB of lines.
    for _ in range(20):
        check("operators are answered", len(ask(daemon, *[COMMENT % big] * 60)), 60)
    check("an operator is answered", ask(daemon, COMMENT % "last"), ["queued 1201"])
    check("a page shows all", "comment;1201;" in daemon.page_with("comment;1201;"), True)
    set_file(folder, "full", False)
    then = time.monotonic()
    check("once there is room, all is written", ";ann;last -> Accepted" in daemon.log_with(";ann;last -> Accepted"), True)
    print(f"once the disk had room, all was written after {time.monotonic() - then:.1f} s")
    status, output, errors = daemon.shut_down()
    check("it ends well, and says once that the disk was full", (status, errors), (0, UNWRITABLE))
    check("no record is missing", parts(daemon.log())[1][1:-1], output[output.index("log "):].splitlines()[1:])


def play_a_disk_that_stays_full(program, folder):
    """A disk that stays full to the end: the log page is printed all the same, and soon."""
    daemon = Daemon(program, folder)
    daemon.log_with("restored 0\n")
    set_file(folder, "full", True)
    check("an operator is answered", ask(daemon, COMMENT % "lost"), ["queued 1"])
    then = time.monotonic()
    status, output, errors = daemon.shut_down()
    check("it ends well, and says that the disk is full", (status, errors), (0, UNWRITABLE))
    check("the log page is whole", [line.endswith((";ann;lost -> Accepted", "log 1")) for line in output.splitlines()[-2:]], [True, True])
    check("it ends soon", time.monotonic() - then < 10.0, True)
    check("the log has no close", parts(daemon.log())[1], ["restored 0"])


def play_folders(program, folder):
    """A folder that isn't there is said, a relative one is none, and of two the first is taken; runs of one second have numbers."""
    daemon = Daemon(program, folder, logs=os.path.join(folder, "missing"))
    check("it serves without a folder", ask(daemon, COMMENT % "x"), ["queued 1"])
    check("which is said", daemon.shut_down()[2], UNWRITABLE)
    for logs in ("logs", ""):
        daemon = Daemon(program, folder, logs=logs)
        check("it serves with a relative one", ask(daemon, COMMENT % "x"), ["queued 1"])
        check("of which nothing is said", daemon.shut_down()[2], "")
    daemon = Daemon(program, folder, logs=f"{os.path.join(folder, 'logs')}:/other")
    daemon.shut_down()
    check("of two folders the first has the log", len(daemon.files()), 1)
    # Each number of this second and the next ones is taken.
    for second in range(int(time.time()) - 1, int(time.time()) + 10):
        for number in range(2):
            open(os.path.join(daemon.logs, f"run-{second}-{number}.log"), "ab").close()
    daemon = Daemon(program, folder)
    ask(daemon, COMMENT % "x")
    check("runs of one second have numbers", len(glob.glob(os.path.join(daemon.logs, "run-*-2.log"))), 1)
    daemon.shut_down()


def play_a_file_that_is_removed(program, folder):
    """A log that is removed under its run: it is said once, and nobody waits."""
    daemon = Daemon(program, folder)
    daemon.log_with("restored 0\n")
    os.remove(daemon.files()[0])
    for number in range(3):
        check("operators are answered", ask(daemon, COMMENT % number), [f"queued {number + 1}"])
        time.sleep(1.1)
    check("it is said that the log is gone", daemon.shut_down()[::2], (0, GONE))


def play_a_full_log(program, folder):
    """A daemon whose log is full ends its run's log with all of its records."""
    daemon = Daemon(program, folder, CONFIGURATION.replace("limit = 100000", "limit = 3"))
    check("operators are answered", len(ask(daemon, *[COMMENT % n for n in range(5)])), 5)
    status, output, errors = daemon.shut_down()
    check("it ends for its full log", (status, errors), (3, "nscagate: LogFull\n"))
    _, lines = parts(daemon.log(), CONFIGURATION.replace("limit = 100000", "limit = 3"))
    check("its log has all records", lines[1:-1], output[output.index("log "):].splitlines()[1:])


def main():
    plays = (play_a_run, play_what_is_kept, play_a_slow_disk, play_a_full_disk, play_a_disk_that_stays_full, play_folders,
             play_a_file_that_is_removed, play_a_full_log, play_crashes)
    with tempfile.TemporaryDirectory() as folder:
        run_plays(plays, os.path.abspath(sys.argv[1]), folder, alone=(play_crashes,))
    end_tests()


main()
