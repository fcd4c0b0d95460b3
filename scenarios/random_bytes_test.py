"""Random bytes to the small programs: python3 random_bytes_test.py CRATES [SEED]. Ends with a line 'N passed, M failed'."""
import os
import random
import re
import struct
import subprocess
import sys
import time

from daemon_clients import check, end_tests, packet

COUNT = 100_000  # of lines, of sessions of lines and of packets, and of configurations
LINE_FAULT = re.compile(rb"TooLong|BadByte|NoTime|UnknownCommand|ExtraArgument|(MissingArgument|EmptyName|BadNumber)\([1-9]\)")
CONFIG_FAULT = re.compile(rb"TooLarge|NotToml|MissingName|(UnknownKey|BadValue) .*"
                          rb"|Object \d+ (BadName|NoSuchHost|DuplicateHost|DuplicateService|TooMany)", re.DOTALL)
ADDRESSES = re.compile(rb"(\S+ \S+:\d+ ){3}\d+( \d+){6}( .*)?", re.DOTALL)
LINES = [
    b"[1000] ADD_SVC_COMMENT;web1;HTTP;1;ann;a;b;c",
    b"[1000] ADD_HOST_COMMENT;web1;0;ann;hi",
    b"[1000] DEL_HOST_COMMENT;17",
    b"[1000] DEL_ALL_SVC_COMMENTS;web1;HTTP",
    b"[1000] ACKNOWLEDGE_SVC_PROBLEM;web1;HTTP;2;0;0;ann;on it",
    b"[1000] REMOVE_HOST_ACKNOWLEDGEMENT;web1",
    b"[1000] SCHEDULE_HOST_DOWNTIME;web1;1100;1200;1;0;0;bob;reboot",
    b"[1000] SCHEDULE_HOST_SVC_DOWNTIME;web1;1100;1200;1;0;0;bob;rack",
    b"[1000] DEL_SVC_DOWNTIME;4294967295",
    b"[1000] PROCESS_SERVICE_CHECK_RESULT;web1;HTTP;-1;timeout; 10s",
    b"[1000] PROCESS_HOST_CHECK_RESULT;web1;1;down",
    b"[1000] DISABLE_PASSIVE_SVC_CHECKS;web1;HTTP",
    b"[1000] ENABLE_PASSIVE_HOST_CHECKS;web1",
    b"[1000] SHUTDOWN_PROGRAM",
]


def run(crate, words, given):
    ran = subprocess.run([os.path.join(sys.argv[1], crate, "out", crate), *words], input=given, stdout=subprocess.PIPE,
                         timeout=300, check=False)
    check(f"{crate} {' '.join(words)}: status", ran.returncode, 0)
    return ran.stdout.split(b"\n")[:-1]


def changed(rng, text):
    """A text with one byte changed."""
    offset = rng.randrange(len(text))
    return text[:offset] + bytes([text[offset] ^ rng.randrange(1, 256)]) + text[offset + 1:]


def any_bytes(rng, most):
    """Bytes of any value, or those that a line is made of."""
    if rng.random() < 0.5:
        return rng.randbytes(rng.randrange(most))
    return bytes(rng.choices(b"[]0123456789 ;ABC_DEL\t\r\x00-", k=rng.randrange(most)))


def first_other(found, is_good):
    """The first of these that is not good, with its number."""
    return next(((number, one) for number, one in enumerate(found) if not is_good(one)), None)


def lines_of(rng):
    given = [any_bytes(rng, 100) if rng.random() < 0.5 else changed(rng, rng.choice(LINES)) for _ in range(COUNT)]
    return [line.replace(b"\n", b"\x0b") for line in given]


def play_lines(rng):
    """Each line is a command or a fault, and what was read is read again as it is written."""
    check("good lines are printed as they are", run("show_lines", [], b"\n".join(LINES)), LINES)
    given = lines_of(rng)
    found = run("show_lines", [], b"\n".join(given) + b"\n")
    check("as many answers as lines", len(found), COUNT)
    commands = [line for line in found if line.startswith(b"[")]
    print(f"lines: {len(commands)} of {COUNT} are commands")
    check("both kinds of lines came", 1000 < len(commands) < COUNT - 1000, True)
    check("a line is a command or a fault", first_other(found, lambda one: one.startswith(b"[") or LINE_FAULT.fullmatch(one)), None)
    check("a line that was written is read again", run("show_lines", [], b"\n".join(commands) + b"\n"), commands)
    return given, found


def stream_of(rng, lines):
    """Some of these lines, cut at 97 bytes."""
    stream = b""
    while len(stream) < 97:
        stream += rng.choice(lines) + b"\n"
    return stream[:97]


def session_of(stream, faults):
    """How the session of these lines begins, by what each of them is."""
    answers = []
    for line in stream.split(b"\n")[:-1]:
        if faults[line].endswith(b"] SHUTDOWN_PROGRAM"):
            return b" ".join([b"Shutdown |"] + answers + [b"Down(Moment(1000))", b"|"])
        is_queued = faults[line].startswith(b"[")
        answers.append(b"Queued(%d)" % (1 + sum(one.startswith(b"Q") for one in answers)) if is_queued else b"Bad(%s)" % faults[line])
    rest = len(stream.rsplit(b"\n", 1)[-1])
    return b" ".join([b"Truncated(%d) |" % rest if rest else b"End |"] + answers + [b"|"])


def play_sessions_of_lines(rng, given, found):
    """Sessions of 97 bytes of the same lines: each whole line is answered by what it is, up to a shutdown."""
    faults = dict(zip(given, found))
    short = [line for line in given if len(line) < 60]
    streams = [stream_of(rng, short) for _ in range(COUNT)]
    sessions = run("show_session", ["lines", "each=97"], b"".join(streams))
    check("as many sessions of lines as streams", len(sessions), COUNT)
    check("a session answers its lines",
          next(((stream, session) for stream, session in zip(streams, sessions)
                if not session.startswith(session_of(stream, faults))), None), None)
    stops = {session.split(b" ", 1)[0].split(b"(")[0] for session in sessions}
    check("sessions of lines stop so", stops, {b"End", b"Truncated", b"Shutdown"})


def play_sessions_of_packets(rng):
    """Good packets with one byte changed, and random bytes of a packet's length."""
    good = {room: [packet(1000, b"web1", service, code, b"timeout; 10s", room) for service, code in ((b"", 1), (b"HTTP", -1))]
            for room in (4096, 512)}
    for room, size, count in ((4096, 4304, COUNT // 5), (512, 720, COUNT // 5 * 4)):
        offsets = [rng.randrange(size) for _ in range(count)]
        given = []
        for offset in offsets:
            one = bytearray(rng.choice(good[room]))
            one[offset] ^= rng.randrange(1, 256)
            given.append(bytes(one))
        found = run("show_session", ["packets", f"each={size}"], b"".join(given))

        def expected(offset):
            if size == 720:
                return b"Truncated(720) | |"
            return b"BadPacket(BadVersion) | |" if offset < 2 else b"BadPacket(BadCheckWord) | |"

        check(f"as many sessions as packets of {size}", len(found), count)
        check(f"a packet of {size} bytes with one changed is refused",
              next(((offset, line) for offset, line in zip(offsets, found) if not line.startswith(expected(offset))), None), None)
        check(f"a good packet of {size} bytes is queued",
              [line.startswith(b"End | Queued(1) |") for line in run("show_session", ["packets", f"each={size}"], b"".join(good[room]))],
              [True, True])
    sizes = (1, 720, 4303, 4304, 4305, 9000)
    for size in sizes:
        count = min(COUNT // 50, 2000)
        found = run("show_session", ["packets", f"each={size}", "age=0"],
                    b"".join(struct.pack(">H", 3) + rng.randbytes(size - 2) if size > 1 and rng.random() < 0.5 else rng.randbytes(size)
                             for _ in range(count)))
        stop = re.compile(rb"Truncated\(%d\) \| \|.*" % size if size < 4304 else rb"BadPacket\((BadVersion|BadCheckWord)\) \| \|.*", re.DOTALL)
        check(f"random bytes of {size} are no packet", first_other(found, stop.fullmatch), None)
        check(f"as many sessions as streams of {size}", len(found), count)


def play_flipped_bits():
    """A packet of each length with each of its bits flipped by itself is refused."""
    for room, size, stop in ((4096, 4304, b"BadPacket(BadCheckWord)"), (512, 720, b"Truncated(720)")):
        good = int.from_bytes(packet(1000, b"web1", b"HTTP", 2, b"timeout; 10s", room), "big")
        bits = range(8 * size)
        found = run("show_session", ["packets", f"each={size}"], b"".join((good ^ 1 << bit).to_bytes(size, "big") for bit in bits))
        # Its first two bytes are its version, which is tested in 4304 bytes.
        stops = [b"BadPacket(BadVersion)" if size == 4304 and bit >= 8 * (size - 2) else stop for bit in bits]
        check(f"as many sessions as bits of a packet of {size} bytes", len(found), len(bits))
        check(f"a packet of {size} bytes with a bit flipped is refused",
              next(((bit, line) for bit, line, stop in zip(bits, found, stops) if not line.startswith(stop + b" | |")), None), None)


def play_cut_packets(rng):
    """Of two packets that are cut off anywhere the whole ones are queued, and the bytes after them are counted."""
    one = packet(1000, b"web1", b"HTTP", 2, b"timeout; 10s")
    for length in sorted(rng.sample(range(2 * len(one)), 200)) + [2 * len(one)]:
        whole, rest = divmod(length, len(one))
        expected = [f"Truncated({rest})" if rest else "End", "|", *(f"Queued({number + 1})" for number in range(whole)), "|"]
        found = run("show_session", ["packets"], (one + one)[:length])
        check(f"{length} bytes of two packets", [line.startswith(" ".join(expected).encode()) for line in found], [True])


def play_configurations(rng):
    """Each configuration is read, or refused by a fault."""
    with open("examples/gateway.toml", "rb") as file:
        example = file.read()
    short = b'workers = 2\ncapacity = 16\n[[host]]\nname = "web1"\nfreshness = 300\n[[host.service]]\nname = "HTTP"\n'
    pieces = [b"capacity", b"items", b" = ", b"1", b"0", b'"a"', b"[[host]]\n", b"[[host.service]]\n", b"name", b"freshness", b"\n", b"#",
              b"[", b"]", b"{", b"}", b",", b"'", b'"', b"1979-05-27", b"1e9", b"true", b".", b"\\u00e9", b"\xff", b"\x00"]
    given = []
    for number in range(COUNT):
        if number % 20 == 0:
            given.append(changed(rng, example))
        elif number % 2:
            given.append(changed(rng, short))
        else:
            given.append(b"".join(rng.choices(pieces, k=rng.randrange(20))))
    given = [text.replace(b"\x1e", b"\x1d") for text in given]
    found = run("show_config", [], b"\x1e".join(given))
    check("as many answers as configurations", len(found), COUNT)
    read = sum(1 for line in found if ADDRESSES.fullmatch(line))
    print(f"configurations: {read} of {COUNT} are read")
    check("both kinds of configurations came", 1000 < read < COUNT - 1000, True)
    check("a configuration is read or refused",
          first_other(found, lambda one: ADDRESSES.fullmatch(one) or CONFIG_FAULT.fullmatch(one)), None)


def main():
    seed = sys.argv[2] if len(sys.argv) > 2 else str(random.SystemRandom().randrange(10**9))
    print(f"seed {seed}", flush=True)
    rng = random.Random(seed)
    began = time.monotonic()
    given, found = play_lines(rng)
    play_sessions_of_lines(rng, given, found)
    play_sessions_of_packets(rng)
    play_flipped_bits()
    play_cut_packets(rng)
    play_configurations(rng)
    print(f"random bytes took {time.monotonic() - began:.0f} s")
    end_tests()


main()
