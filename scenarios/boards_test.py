"""Plays what the applier shows by time alone, and with little memory, few descriptors or a thread too few: python3
boards_test.py PROGRAM [FAIL_ALLOC], the library of fail_alloc.c. Each play has a daemon of its own, and all run side by
side. Ends with a line 'N passed, M failed'."""
import os
import re
import resource
import subprocess
import sys
import tempfile
import threading
import time
import traceback

from daemon_clients import (CONFIGURATION, TIME_LIMIT, Daemon, applier_of, ask, check, end_tests, packet, read_exactly,
                            run_plays)


def send(daemon, output):
    """Sends a result of web1's HTTP, with the greeting's moment."""
    with daemon.connect("agents") as connection:
        greeting = read_exactly(connection, 132)
        connection.sendall(packet(int.from_bytes(greeting[128:], "big"), b"web1", b"HTTP", 1, output))


def moment_of(page):
    return int(page.split("\n", 1)[0].split()[1])


def end(daemon, what):
    """Shuts the daemon down, and returns its output."""
    check(f"{what}: a shutdown is answered", ask(daemon, "[1] SHUTDOWN_PROGRAM"), ["closing"])
    status, output, errors = daemon.end()
    check(f"{what}: status and standard error", (status, errors), (0, ""))
    return output


def wrapped(program, folder, name, lines):
    """A script that runs these lines of a shell, and then the program."""
    path = os.path.join(folder, name)
    with open(path, "w", encoding="utf-8") as file:
        file.write(f'#!/bin/sh\n{lines}\nexec "{os.path.abspath(program)}" "$@"\n')
    os.chmod(path, 0o700)
    return path


def play_time_alone(program, folder):
    """Nothing comes, and the page goes on: a result becomes stale, and downtime ends."""
    daemon = Daemon(program, folder, CONFIGURATION.replace("freshness = 300", "freshness = 2"))
    began = int(time.time())
    send(daemon, b"first")
    ask(daemon, f"[1] SCHEDULE_HOST_DOWNTIME;web1;{began - 10};{began + 4};1;0;0;bob;reboot")
    page = daemon.page_with("downtime;1")
    check("time alone: both are shown", ("WARNING" in page, ";fresh;-;1;" in page), (True, True))
    time.sleep(began + 6.5 - time.time())
    asked = int(time.time())
    page = daemon.page()
    check("time alone: the result is stale", re.findall(r"HTTP;WARNING;\d+;(\w+);", page), ["stale"])
    check("time alone: downtime is over", "downtime;1" in page or ";1;" in page.split("\n")[1], False)
    check("time alone: the page is of this second", 0 <= moment_of(page) - asked + 1 <= 2, True)
    end(daemon, "time alone")


def play_the_logs_moments(program, folder):
    """Each record has the second in which it came."""
    daemon = Daemon(program, folder, CONFIGURATION)
    bounds = []
    for number in range(3):
        before = int(time.time())
        send(daemon, b"result %d" % number)
        daemon.page_with(f"result {number}\n")
        bounds.append((before, int(time.time())))
        time.sleep(1.1)
    output = end(daemon, "moments")
    moments = [int(moment) for moment in re.findall(r"^\[(\d+)\] 1:", output, flags=re.MULTILINE)]
    check("moments: each record lies between its sending and its page",
          [first <= moment <= last for moment, (first, last) in zip(moments, bounds)], [True, True, True])


def play_two_of_one_second(program, folder):
    """Each of some results is shown soon, whether others of its second are shown already or not."""
    daemon = Daemon(program, folder, CONFIGURATION)
    daemon.page()
    slowest = 0.0
    for number in range(20):
        send(daemon, b"result %d" % number)
        began = time.monotonic()
        check("one second: a result is shown", f"result {number}\n" in daemon.page_with(f"result {number}\n"), True)
        slowest = max(slowest, time.monotonic() - began)
    print(f"one second: a result was shown within {slowest:.3f} s", flush=True)
    check("one second: results are shown before the second is over", slowest < 0.5, True)
    end(daemon, "one second")


def seconds_of(daemon, thread):
    """How many seconds of a processor a thread of a daemon used so far."""
    with open(f"/proc/{daemon.process.pid}/task/{thread}/schedstat", encoding="ascii") as file:
        return int(file.read().split()[0]) / 1e9


def play_many_comments(program, folder):
    """With 300,000 comments and ten results a second, boards take a tenth of a processor, and what came is shown in time."""
    kept = b"".join(b"[1] ADD_HOST_COMMENT;web1;1;bob;comment %d\n" % number for number in range(300_000))
    daemon = Daemon(program, folder, CONFIGURATION.replace("limit = 100000", "limit = 1000000"), kept)
    applier = applier_of(daemon)
    daemon.page_with(";comment 299999\n")
    began, used = time.monotonic(), seconds_of(daemon, applier)
    for number in range(80):
        send(daemon, b"result %d" % number)
        time.sleep(0.1)
    used = (seconds_of(daemon, applier) - used) / (time.monotonic() - began)
    print(f"many comments: the applier took {used:.3f} of a processor", flush=True)
    check("many comments: boards take a tenth of a processor, and 0.05 is for the rest", used < 0.15, True)
    began = time.monotonic()
    check("many comments: the last result is shown", "result 79\n" in daemon.page_with("result 79\n"), True)
    check("many comments: it is shown within 6 s", time.monotonic() - began < 6.0, True)
    check("many comments: all are logged", end(daemon, "many comments").count(" -> Accepted\n"), 300_080)


def play_few_descriptors(program, folder):
    """With 16 descriptors and 40 connections the daemon goes on: it serves again once they have gone, even if for a second it
    could accept none of them."""
    daemon = Daemon(os.path.join(os.path.dirname(folder), "few_descriptors"), folder, CONFIGURATION)
    resource.prlimit(daemon.process.pid, resource.RLIMIT_NOFILE, (3, 16))
    opened = [daemon.connect(name) for name in ["agents", "operators", "pages", "agents"] * 10]
    time.sleep(1.0)
    check("few descriptors: it runs without any", daemon.process.poll(), None)
    resource.prlimit(daemon.process.pid, resource.RLIMIT_NOFILE, (16, 16))
    time.sleep(1.0)
    check("few descriptors: it runs", daemon.process.poll(), None)
    for connection in opened:
        connection.close()
    send(daemon, b"after them")
    check("few descriptors: a result is shown", "after them" in daemon.page_with("after them"), True)
    check("few descriptors: it is logged", "after them -> Accepted" in end(daemon, "few descriptors"), True)


def page_goes_on(daemon, mark):
    """Whether the page of a daemon goes on, one of whose requests for memory is refused: the file `mark` says that it was."""
    deadline = time.monotonic() + TIME_LIMIT
    while not os.path.exists(mark) and daemon.process.poll() is None and time.monotonic() < deadline:
        time.sleep(0.02)
    # Nobody has asked for anything, so what was refused was a thread or a board.
    time.sleep(1.2)
    if daemon.process.poll() is not None:
        daemon.end()
        return "not started"
    asked = int(time.time())
    page = daemon.page()
    end(daemon, "little memory")
    return "goes on" if os.path.exists(mark) and asked - 1 <= moment_of(page) else f"{asked}: {page}"


def refuse(folder):
    """The request for memory of the folder's number is refused: the daemon doesn't start, or its page goes on."""
    try:
        daemon = Daemon(os.path.join(folder, "..", "..", "little_memory"), folder, CONFIGURATION)
    except SystemExit:
        return "not started"
    try:
        return page_goes_on(daemon, os.path.join(folder, "refused"))
    finally:
        daemon.process.kill()


def play_little_memory(_, folder):
    """Whichever request for the first boards is refused, the page goes on."""
    if len(sys.argv) < 3:
        print("little memory ... skipped: cc is not installed")
        return
    found = {}

    def run(number):
        own = os.path.join(folder, str(number))
        os.mkdir(own)
        try:
            found[number] = refuse(own)
        except Exception:  # one that breaks off has failed
            found[number] = traceback.format_exc()

    first = 1
    while list(found.values()).count("goes on") < 20 and first < 1000:
        runs = [threading.Thread(target=run, args=(number,)) for number in range(first, first + 40)]
        for one in runs:
            one.start()
        for one in runs:
            one.join()
        first += 40
    print(f"little memory: {list(found.values()).count('goes on')} of {len(found)} daemons went on", flush=True)
    check("little memory: none ends otherwise",
          {number: how for number, how in found.items() if how not in ("goes on", "not started")}, {})
    check("little memory: boards were among them", list(found.values()).count("goes on") >= 20, True)


def play_a_thread_too_few(_, folder):
    """Whichever of its threads isn't started, the daemon ends by itself, and reports it; but for the first one, which only watches
    the log page."""
    if len(sys.argv) < 3:
        print("a thread too few ... skipped: cc is not installed")
        return
    program = os.path.join(folder, "..", "thread_too_few")
    workers = 3
    threads = workers + 4  # one that watches the log page, an applier, pages and an operator
    for number in range(2, threads + 1):
        own = os.path.join(folder, str(number))
        os.mkdir(own)
        daemon = Daemon(program, own, f"workers = {workers}\n" + CONFIGURATION)
        try:
            ended = daemon.end(10.0)
        except subprocess.TimeoutExpired:
            daemon.process.kill()
            daemon.end()
            ended = "it goes on"
        check(f"a thread too few: without thread {number} the daemon ends", ended, (3, "", "nscagate: Spawn\n"))
    for number, what in ((1, "without the one that watches"), (threads + 1, "with all threads")):
        own = os.path.join(folder, str(number))
        os.mkdir(own)
        end(Daemon(program, own, f"workers = {workers}\n" + CONFIGURATION), f"a thread too few: {what}")


PLAYS = [play for name, play in sorted(globals().items()) if name.startswith("play_")]


def main():
    with tempfile.TemporaryDirectory() as folder:
        wrapped(sys.argv[1], folder, "few_descriptors", "ulimit -n 16")
        if len(sys.argv) > 2:
            wrapped(sys.argv[1], folder, "little_memory",
                    f"folder=$(dirname \"$3\")\nexport LD_PRELOAD='{sys.argv[2]}' FAIL_ALLOC=\"$(basename \"$folder\")\""
                    " FAIL_ALLOC_MARK=\"$folder/refused\"")
            wrapped(sys.argv[1], folder, "thread_too_few",
                    f"export LD_PRELOAD='{sys.argv[2]}' FAIL_THREAD=\"$(basename \"$(dirname \"$3\")\")\"")
        run_plays(PLAYS, sys.argv[1], folder, alone=(play_many_comments,))
    end_tests()


main()
