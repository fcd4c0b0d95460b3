"""Fills a log of 1,000,000 records: python3 longest_log_test.py PROGRAM. Ends with a line 'N passed, M failed'."""
import sys
import tempfile

from daemon_clients import CONFIGURATION, Daemon, ask, check, end_tests, packet, read_all, read_exactly

RECORDS = 1_000_000
AT_ONCE = 1_000  # packets that are written at once
SECONDS = 120.0  # for the shutdown, and for the log page after it
LIMITS = f"limit = {RECORDS}\nitems = {RECORDS}\nreads = 4294967295"


def send(daemon, count):
    """Sends so many results of web1's HTTP on one connection, each in a packet of 720 bytes, until the daemon has read them."""
    with daemon.connect("agents") as connection:
        connection.settimeout(SECONDS)
        read_exactly(connection, 132)
        results = packet(0, b"web1", b"HTTP", 1, b"slow", room=512) * min(count, AT_ONCE)
        for _ in range(count // min(count, AT_ONCE)):
            connection.sendall(results)
        connection.shutdown(1)
        read_all(connection)


def last_record_of(page):
    """The client and number of the last record on a log page, and its outcome."""
    words = page[page.rstrip("\n").rindex("\n") + 1:].split()
    return words[1], words[-1]


def fill(program, folder):
    daemon = Daemon(program, folder, CONFIGURATION.replace("limit = 100000", LIMITS))
    send(daemon, RECORDS)
    check("a result is shown", "object;web1;HTTP;WARNING;" in daemon.page_with("WARNING"), True)
    send(daemon, AT_ONCE)
    check("a shutdown is answered", ask(daemon, "[1] SHUTDOWN_PROGRAM"), ["closing"])
    status, output, errors = daemon.end(SECONDS)
    check("status and standard error", (status, errors), (3, "nscagate: LogFull\n"))
    check("the first line of the log page", output.split("\n", 1)[0], f"log {RECORDS}")
    check("its lines", output.count("\n"), RECORDS + 1)
    check("its last record", last_record_of(output), (f"1:{RECORDS}", "Accepted"))


with tempfile.TemporaryDirectory() as scratch:
    fill(sys.argv[1], scratch)
end_tests()
