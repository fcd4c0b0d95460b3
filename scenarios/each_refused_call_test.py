"""Refuses each request for memory of the small programs in turn: python3 each_refused_call_test.py CRATES FAIL_ALLOC, the
library of fail_alloc.c. Ends with a line 'N passed, M failed'.

Each program is run with the Nth request refused, for N = 1, 2 and so on, up to the first run that meets no refusal. A judge
answers for each run which call was out of memory, '' where the run is as with ample memory, or raises Wrong. Where the request
was one of the program's own, its status is 1, and it printed the first bytes of what it prints with ample memory."""
import collections
import concurrent.futures
import os
import re
import subprocess
import sys
import tempfile

from daemon_clients import check, end_tests, packet

TIME_LIMIT = 15.0  # seconds, for one run
AT_ONCE = 16  # runs side by side
PUSH = "push"  # a step of a session that submits


class Wrong(Exception):
    """What is wrong with a run."""


def run(crate, words, given, number, mark):
    settings = dict(os.environ, LD_PRELOAD=sys.argv[2], FAIL_ALLOC=str(number), FAIL_ALLOC_MARK=mark)
    program = os.path.join(sys.argv[1], crate, "out", crate)
    try:
        ran = subprocess.run([program, *words], input=given, capture_output=True, timeout=TIME_LIMIT, check=False, env=settings)
    except subprocess.TimeoutExpired as late:
        return "none: it never ended", late.stdout or b""
    return ran.returncode, ran.stdout


def judged(ample, ended, judge):
    """Which call of a run was out of memory."""
    status, printed = ended
    if status == 1 and ample.startswith(printed):
        return "its own"
    if status != 0:
        raise Wrong(f"status {status}")
    return judge(ample, printed)


def runs_in_turn(crate, words, given, folder):
    """Each run with its number and whether it met its refusal, in order, AT_ONCE side by side."""

    def one(number):
        mark = os.path.join(folder, str(number))
        ended = run(crate, words, given, number, mark)
        return number, ended, os.path.exists(mark)

    with concurrent.futures.ThreadPoolExecutor(AT_ONCE) as threads:
        for first in range(1, 10_000, AT_ONCE):
            yield from threads.map(one, range(first, first + AT_ONCE))


def refuse_in_turn(name, crate, words, given, judge, ample):
    """Refuses each request in turn: which call was out of memory in each run that met its refusal."""
    found = collections.Counter()
    with tempfile.TemporaryDirectory() as folder:
        for number, ended, is_met in runs_in_turn(crate, words, given, folder):
            try:
                call = judged(ample, ended, judge)
            except Wrong as wrong:
                call = f"{wrong}: {ended[1]!r}"
                check(f"{name}, request {number} refused", call, "all is well")
            if not is_met:
                check(f"{name}: the last run, which met no refusal", call, "")
                return found
            found[call] += 1
    check(f"{name}: each request was refused", "there are more", "")
    return found


def refuse_each(what, crate, words, given, judge, calls, rounds=1):
    """Judges each run, and wants each of these calls to have been out of memory in one run at least. Where threads decide whose
    request a number is, it goes on for some rounds until each was."""
    name = f"{what}, by {' '.join([crate, *words])}"
    status, ample = run(crate, words, given, 0, "")
    check(f"{name}: status with ample memory", status, 0)
    found = collections.Counter()
    for _ in range(rounds):
        found += refuse_in_turn(name, crate, words, given, judge, ample)
        if not set(calls) - set(found):
            break
    print(f"{name}: {sum(found.values())} refusals met: "
          + ", ".join(f"{count} {call or 'without a difference'}" for call, count in found.items()), flush=True)
    check(f"{name}: each call was out of memory", sorted(set(calls) - set(found)), [])
    check(f"{name}: some refusals were met", sum(found.values()) > 0, True)


def judge_lines(ample, printed):
    """One line that has no fault may be out of memory, as it is read, as it is written, or as that is read again."""
    found, wanted = printed.split(b"\n"), ample.split(b"\n")
    place = next((place for place, (one, other) in enumerate(zip(found, wanted)) if one != other), None)
    if place is None and found == wanted:
        return ""
    if place is not None and found[place] == b"read again: OutOfMemory" and found[:place] + found[place + 1:] == wanted:
        return "read_line"
    if place is not None and wanted[place].startswith(b"[") and found[place + 1:] == wanted[place + 1:]:
        if found[place] in (b"OutOfMemory", b"write_line: OutOfMemory"):
            return "read_line" if found[place] == b"OutOfMemory" else "write_line"
    raise Wrong("other lines")


def judge_packets(kinds):
    """Of packets of these kinds one may be out of memory, or the feeding of one piece, which is then fed again."""

    def judge(ample, printed):
        if printed == ample:
            return ""
        found, wanted = printed.split(b"\n"), ample.split(b"\n")
        place = found.index(b"out of memory") if b"out of memory" in found else len(found)
        others = found[:place] + found[place + 1:]
        if others == wanted:
            return "feed"
        if place < len(kinds) and others == wanted[:place] + wanted[place + 1:]:
            return kinds[place]
        raise Wrong("other packets")

    return judge


def judge_configuration(ample, printed):
    if printed in (ample, b"OutOfMemory\n"):
        return "" if printed == ample else "read_config"
    raise Wrong("another configuration")


def judge_records(ample, printed):
    """One call may be out of memory, and is made again: all is as with ample memory then. An applier that isn't prepared
    shows the page that it showed last."""
    found = re.search(rb"^(build|open|read_line|prepare|Board::of|status_page|log_page): OutOfMemory\n", printed, re.MULTILINE)
    if found is None:
        if printed != ample:
            raise Wrong("other records")
        return ""
    before, after = printed[:found.start()], printed[found.end():]
    if found[1] == b"prepare":
        shown = before[[page.start() for page in re.finditer(rb"^status \d+\n", before, flags=re.MULTILINE)][-1]:]
        if not after.startswith(shown):
            raise Wrong("an applier that wasn't prepared shows something else")
        after = after[len(shown):]
    if before + after != ample:
        raise Wrong("other records")
    return found[1].decode()


def begun(printed):
    """What was out of memory as a story of show_gate began, '' where nothing was; and the story that was then begun."""
    text = printed.decode()
    found = re.match(r"(open|applier|build|room): OutOfMemory\n", text)
    return (found[1], text[found.end():]) if found else ("", text)


def judge_close(ample, printed):
    """The gate's opening, and the close of all: each goes on when it is called again. The close itself has its room from the
    opening, or else takes it then."""
    call, text = begun(printed)
    applied = re.search(r"close_all: OutOfMemory, 0 clients left\n((?:\d:\d\n)*)closed\n", text)
    if applied is not None:
        if not text[applied.end():].startswith(applied[1]):
            raise Wrong("what was applied is not kept")
        text = text.replace(applied[0], "closed\n")
        call = "close_all"
    if text != ample.decode():
        raise Wrong("another end")
    return call


def queued_in(answers):
    """The numbers of the answers Queued, in their order."""
    return [int(number) for number in re.findall(r"Queued\((\d+)\)", answers)]


def answers_to(steps, queued, capacity):
    """What a session is answered whose steps are each an answer, or PUSH for a submission, over a queue with so many items."""
    answers = []
    for step in steps:
        if step == PUSH:
            step = "Full" if queued == capacity else f"Queued({queued + 1})"
            queued += step != "Full"
        answers.append(step)
    return answers


def judge_worker(steps, capacity):
    """Of a worker whose sessions each have these steps, over a queue with room for so many items: one session at most is out
    of memory, its answers are the first ones of its steps, and the next session goes on. What is queued is what was answered
    so, whatever ends the worker. One refusal ends none: it tries again for a second."""

    def judge(ample, printed):
        call, text = begun(printed)
        cause, client, *rest = text.split("\n")[:-1]
        reports = [line for line in rest if "|" in line]
        wanted_cause, _, *wanted = ample.decode().split("\n")[:-1]
        wanted = [line for line in wanted if "|" in line]
        queued, starved = 0, []
        for report in reports:
            stop, answers = report.split(" |")
            expected = answers_to(steps, queued, capacity)
            if stop == "OutOfMemory":
                starved.append(len(answers.split()))
                expected = expected[:starved[-1]]
            elif stop != wanted[0].split(" |")[0]:
                raise Wrong("another stop")
            if answers.split() != expected:
                raise Wrong("other answers")
            queued += len(queued_in(answers))
        if client != "client 1" or rest[len(reports):] != [f"1:{number}" for number in range(1, queued + 1)]:
            raise Wrong("other items than were answered")
        if len(starved) + bool(call) + (cause == "OutOfMemory") > 1:
            raise Wrong("more than one call was out of memory")
        if cause == "OutOfMemory":
            raise Wrong("one refusal ended it")
        # A session of which nothing was queued has no report, but for the one that meets the close.
        goes_on = cause == "Closing" and bool(starved)
        is_silent = not starved and not call and cause == "NoMoreConnections" and len(reports) == len(wanted) - 1
        if cause != wanted_cause or len(reports) + is_silent != len(wanted) + goes_on:
            raise Wrong("another cause")
        if is_silent:
            return "a session"
        return "a session" if starved else call

    return judge


def judge_gateway(_, printed):
    """A fault, or each client's records are those of its reports; where not all could be applied, the first of them. Whether
    packets come before the close is open."""
    call, text = begun(printed)
    if text in ("OutOfMemory\n", "Spawn\n", "Queue(OutOfMemory)\n", "Applier(OutOfMemory)\n"):
        return text.strip()
    cause, text = text.split("\n", 1)
    if cause not in ("Closing", "OutOfMemory", "NoMoreConnections", "close_all: OutOfMemory"):
        raise Wrong("another fault")
    reports, records = text.split("records\n")
    for client in "12":
        own = re.search(rf"client {client}\n((?:.*\|.*\n)*)", reports)
        logged = [int(number) for number in re.findall(rf"^{client}:(\d+)$", records, flags=re.MULTILINE)]
        queued = queued_in(own[1]) if own else None
        if queued is None or logged != (queued[:len(logged)] if cause.startswith("close_all") else queued):
            raise Wrong(f"other records of client {client}")
    if cause == "Closing":
        return "a session" if "OutOfMemory |" in reports else call
    return {"OutOfMemory": "the operator's worker", "NoMoreConnections": "the operator's session"}.get(cause, "close_all")


def lines_of(*commands):
    return b"".join(b"%s\n" % (command if command.startswith(b"[") else b"[1000] " + command) for command in commands)


ROW = b"web1\nweb1;HTTP\n\n"
TRIGGERED = ROW + lines_of(
    b"[1100] SCHEDULE_SVC_DOWNTIME;web1;HTTP;1200;1300;0;0;50;bob;first",
    b"[1100] SCHEDULE_HOST_DOWNTIME;web1;1200;1300;0;1;100;bob;second",
    b"[1100] SCHEDULE_SVC_DOWNTIME;web1;HTTP;1200;1400;1;2;0;bob;third",
    b"[1250] PROCESS_SERVICE_CHECK_RESULT;web1;HTTP;2;timeout",
    b"[1260] DEL_SVC_DOWNTIME;1",
    b"[1260] DEL_SVC_DOWNTIME;1",
    b"[1260] SCHEDULE_SVC_DOWNTIME;web1;HTTP;1300;1400;0;1;50;bob;fourth")
ALL_SERVICES = b"web1\nweb1;HTTP\nweb1;SSH\ndb1\n\n" + lines_of(
    b"[1050] SCHEDULE_HOST_SVC_DOWNTIME;web1;1100;1200;1;0;0;bob;rack",
    b"[1100] DEL_SVC_COMMENT;9",
    b"[1150] DEL_SVC_DOWNTIME;1",
    b"[1160] SCHEDULE_HOST_SVC_DOWNTIME;db1;1200;1200;1;0;0;bob;rack",
    b"[1160] SCHEDULE_HOST_SVC_DOWNTIME;web1;1200;1200;1;0;0;bob;rack",
    b"[1160] SCHEDULE_HOST_SVC_DOWNTIME;no1;1170;1180;1;0;0;bob;rack",
    b"[1160] SCHEDULE_HOST_SVC_DOWNTIME;web1;1170;1180;1;0;0;bob;rack")
# Enough for each list to grow while it has items.
GROWING = b"web1\nweb1;HTTP\nweb1;SSH\n\n" + lines_of(
    *[b"[1050] SCHEDULE_HOST_SVC_DOWNTIME;web1;1100;1200;1;0;0;bob;rack"] * 6,
    *[b"[1050] DEL_ALL_HOST_COMMENTS;web1"] * 11,
    b"[1050] SCHEDULE_SVC_DOWNTIME;web1;HTTP;1100;1200;1;1;0;bob;rack")
# Three items of one client, for a log of two records and then for one of three, each drained twice.
QUEUED = b"queued 1\nqueued 2\nqueued 3\nclose: 1500, found 1500\n"
FULL = QUEUED + b"close_all: LogFull, 0 clients left\n1:1\n1:2\n" * 2 + QUEUED + b"closed\n1:1\n1:2\n1:3\n"
SHUTDOWN = lines_of(b"ADD_HOST_COMMENT;web1;0;ann;hi", b"RESTART_PROGRAM", b"ADD_HOST_COMMENT;web1;0;ann;ho",
                    b"SHUTDOWN_PROGRAM")


def main():
    lines = lines_of(b"ADD_SVC_COMMENT;web1;HTTP;1;ann;a;b;c", b"FOO", b"DEL_HOST_COMMENT;1", b"",
                     b"PROCESS_SERVICE_CHECK_RESULT;web1;HTTP;2;timeout; 10s")
    refuse_each("lines", "show_lines", [], lines, judge_lines, ["read_line", "write_line"])
    long, short = (packet(1000, b"web1", b"HTTP", 2, b"timeout; 10s", room) for room in (4096, 512))
    refuse_each("packets", "show_packets", [], long + long + long[:4303], judge_packets(["decode"] * 2), ["feed", "decode"])
    refuse_each("both lengths", "show_packets", [], short + long + short, judge_packets(["decode_short", "decode", "decode_short"]),
                ["feed", "decode", "decode_short"])
    with open("examples/gateway.toml", "rb") as file:
        refuse_each("a configuration", "show_config", [], file.read(), judge_configuration, ["read_config"])
    refuse_each("an unknown key", "show_config", [], b"colour = 1\n", judge_configuration, ["read_config"])
    pages = ["read_line", "prepare", "Board::of", "status_page", "log_page"]
    with open(os.path.join(sys.argv[1], "show_records", "stdin"), "rb") as file:
        refuse_each("a day", "show_records", [], file.read(), judge_records, ["build", "open", *pages])
    refuse_each("triggered downtime", "show_records", [], TRIGGERED, judge_records, pages)
    refuse_each("downtime for all services", "show_records", [], ALL_SERVICES, judge_records, pages)
    refuse_each("growing lists", "show_records", [], GROWING, judge_records, pages)
    refuse_each("a gate", "show_gate", ["close"], b"", judge_close, ["open", "close_all"])
    check("a full log, by show_gate full", run("show_gate", ["full"], b"", 0, ""), (0, FULL))
    refuse_each("TooManySessions", "show_gate", ["worker"], long + short, judge_worker([PUSH, PUSH], 16),
                ["open", "a session"])
    refuse_each("Closing", "show_gate", ["operator"], SHUTDOWN,
                judge_worker([PUSH, "Bad(UnknownCommand)", PUSH, "Down(Moment(1500))"], 1), ["open", "a session"])
    refuse_each("NoMoreConnections", "show_gate", ["operator"], SHUTDOWN[:-len(lines_of(b"SHUTDOWN_PROGRAM"))],
                judge_worker([PUSH, "Bad(UnknownCommand)", PUSH], 1), ["open", "a session"])
    refuse_each("a gateway", "show_gate", ["gateway"], long, judge_gateway,
                ["Queue(OutOfMemory)", "Applier(OutOfMemory)", "OutOfMemory", "the operator's session"],
                rounds=10)
    end_tests()


main()
