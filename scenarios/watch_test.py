"""Plays systemctl to nscagate-watch over a daemon: python3 watch_test.py PROGRAM CTL. Ends with a line 'N passed, M failed'."""
import os
import signal
import subprocess
import sys
import tempfile
import time

from daemon_clients import Daemon, ask, check, end_tests, packet, read_exactly

SERVICES = 20
CONFIGURATION = """\
agents = "127.0.0.1:{agents}"
operators = "127.0.0.1:{operators}"
pages = "127.0.0.1:{pages}"
greatest_age = 0
{more}
[[host]]
name = "web1"
""" + "".join(f'[[host.service]]\nname = "s{number}"\n' for number in range(SERVICES))
SYSTEMCTL = """\
#!/bin/sh
case $* in
    'show --property '*) sed -n "s/^$3=//p" "$SHOWN" ;;
    *) echo "$*" >>"$CALLED" ;;
esac
"""
NONE = {"ActiveState": "active", "InvocationID": "first", "IPIngressBytes": "[no data]", "IPIngressPackets": "[no data]"}


class Watched:
    """A daemon whose addresses stand in its configuration, and the watch over it."""

    def __init__(self, program, ctl, folder, more):
        self.folder, self.page = folder, os.path.join(folder, "page")
        os.makedirs(os.path.join(folder, "counts"))
        os.makedirs(os.path.join(folder, "bin"))
        path = os.path.join(folder, "bin", "systemctl")
        with open(path, "w", encoding="ascii") as file:
            file.write(SYSTEMCTL)
        os.chmod(path, 0o755)
        os.symlink(ctl, os.path.join(folder, "bin", "nscagatectl"))
        self.daemon = Daemon(program, folder, CONFIGURATION.format(agents=0, operators=0, pages=0, more=more))
        self.configuration = CONFIGURATION.format(**self.daemon.ports, more=more)
        self.configure("watched.toml", self.configuration)
        self.configure("next.toml", self.configuration)

    def configure(self, name, text):
        with open(os.path.join(self.folder, name), "w", encoding="ascii") as file:
            file.write(text)

    def watch(self, *words, **shown):
        """What a call prints, its status, and the units that it restarted."""
        called, properties = os.path.join(self.folder, "called"), os.path.join(self.folder, "shown")
        with open(called, "w", encoding="ascii"), open(properties, "w", encoding="ascii") as file:
            file.write("".join(f"{name}={value}\n" for name, value in {**NONE, **shown}.items()))
        environment = {**os.environ, "PATH": f"{self.folder}/bin:{os.environ['PATH']}", "CALLED": called, "SHOWN": properties}
        ran = subprocess.run(["packaging/bin/nscagate-watch", "--config", f"{self.folder}/watched.toml", "--next", f"{self.folder}/next.toml",
                              "--page", self.page, "--folder", f"{self.folder}/counts", *words],
                             capture_output=True, text=True, timeout=60, env=environment, check=False)
        with open(called, encoding="ascii") as file:
            return ran.stdout + ran.stderr, ran.returncode, file.read().splitlines()

    def report(self, count, output):
        """A result of each of so many services, on one connection."""
        with self.daemon.connect("agents") as connection:
            moment = int.from_bytes(read_exactly(connection, 132)[128:], "big")
            for number in range(count):
                connection.sendall(packet(moment, b"web1", b"s%d" % number, 0, output))
        self.daemon.page_with(f";web1;s{count - 1};OK;")
        # The moments of two results of an object differ.
        time.sleep(1.1)

    def end(self):
        ask(self.daemon, "[1] SHUTDOWN_PROGRAM")
        self.daemon.end()


QUIET = "", 0, []


def restarted(reason):
    return f"nscagate-watch: nscagate.service is restarted: {reason}\n", 0, ["try-restart nscagate.service"]


def test_page(watched):
    """The limit is 50 records."""
    check("a fresh gateway", watched.watch(), QUIET)
    with open(watched.page, encoding="ascii") as file:
        check("its page is kept", file.read().count("object;"), SERVICES + 1)
    check("for its owner alone", os.stat(watched.page).st_mode & 0o777, 0o600)
    elsewhere = os.path.join(watched.folder, "elsewhere")
    os.symlink(elsewhere, watched.page + ".new")
    with open(watched.page + ".log", "w", encoding="ascii"):
        watched.watch()
    check("no link is followed", os.path.exists(elsewhere), False)
    check("the log of an earlier stop goes", os.listdir(os.path.dirname(watched.page)).count("page.log"), 0)
    os.mkdir(watched.page + ".new")
    printed, status, called = watched.watch()
    check("a page that can't be kept", (status, called, f"the page can't be kept in {watched.page}" in printed), (3, [], True))
    os.rmdir(watched.page + ".new")
    watched.report(SERVICES, b"one")
    check("20 results", watched.watch("--dry-run"), ("records 20 of 50, connections 20 of 100000\n", 0, []))
    check("the same page again", watched.watch("--dry-run"), ("records 20 of 50, connections 20 of 100000\n", 0, []))
    watched.report(SERVICES, b"two")
    check("40 results", watched.watch(), QUIET)
    ask(watched.daemon, *["[1] ADD_HOST_COMMENT;web1;1;ann;x"] * 4)
    watched.daemon.page_with("comment;4;")
    check("44 records", watched.watch(), QUIET)
    ask(watched.daemon, "[1] ADD_HOST_COMMENT;web1;1;ann;x")
    watched.daemon.page_with("comment;5;")
    check("nine tenths of the log", watched.watch(), restarted("its log has some 45 of 50 records"))
    check("a unit that was started again", watched.watch("--dry-run", InvocationID="second"),
          ("records 25 of 50, connections 25 of 100000\n", 0, []))
    check("a unit that is stopped", watched.watch(ActiveState="inactive", IPIngressBytes="99999999"), QUIET)


def test_accounting(watched):
    """The limit is 1,000 records, and two workers have 100 sessions each."""
    check("bytes of 899 packets", watched.watch(IPIngressBytes=4304 * 900 - 1, IPIngressPackets=0), QUIET)
    check("bytes of nine tenths of the log", watched.watch(IPIngressBytes=4304 * 900, IPIngressPackets=0),
          restarted("its log has some 900 of 1000 records"))
    check("packets of 179 connections", watched.watch(IPIngressPackets=5 * 180 - 1), QUIET)
    check("packets of nine tenths of the sessions", watched.watch(IPIngressPackets=5 * 180),
          restarted("it has served some 180 of 200 connections"))
    check("what systemd doesn't count", watched.watch(IPIngressBytes=2 ** 64 - 1, IPIngressPackets=2 ** 64 - 1), QUIET)


def test_gone(watched):
    watched.end()
    os.remove(watched.page)
    printed, status, called = watched.watch()
    check("no page is kept of it", os.path.exists(watched.page), False)
    check("a gateway that is gone", (status, called), (0, ["try-restart nscagate.service"]))
    check("its reason", printed.startswith("nscagate-watch: nscagate.service is restarted: NSCAGATE CRITICAL - "), True)


def test_hang(watched):
    """A daemon that stands still: nothing for three minutes, and then a restart."""
    check("a good gateway", watched.watch(), QUIET)
    watched.daemon.process.send_signal(signal.SIGSTOP)
    seen = os.path.join(watched.folder, "counts", "seen")
    check("a gateway that hangs", watched.watch(), QUIET)
    check("a unit that starts", watched.watch(ActiveState="activating"), QUIET)
    check("after which the time counts anew", os.path.exists(seen), False)
    check("it still hangs", watched.watch(), QUIET)
    os.utime(seen, (time.time() - 120, time.time() - 120))
    check("for two minutes", watched.watch(), QUIET)
    os.utime(seen, (time.time() - 180, time.time() - 180))
    check("for three minutes", watched.watch(), restarted("it has shown no page for three minutes"))
    watched.daemon.process.send_signal(signal.SIGCONT)
    check("it goes on", watched.watch(), QUIET)
    watched.end()


def test_words(watched):
    for words in (["--colour"], ["--unit"], ["more"], ["--folder", watched.folder + "/none"],
                  ["--page"], ["--next"], ["--config", watched.folder + "/none"]):
        check(f"bad words {words}", watched.watch(*words)[1:], (2, []))


def test_numbers(watched):
    """The watch reads the numbers of its keys."""
    good = watched.configuration
    for text, expected in ((good.replace("limit = 1000", "limit = 1_000  # records"), "records 0 of 1000, connections 0 of 200\n"),
                           (good.replace("limit = 1000", "'limit' = 2000"), "records 0 of 2000, connections 0 of 200\n"),
                           (good.replace("limit = 1000", "limit = 0x3e8"),
                            f"nscagate-watch: {watched.folder}/watched.toml: limit is no decimal number\n")):
        watched.configure("watched.toml", text)
        check("what it reads", watched.watch("--dry-run")[0], expected)
    watched.configure("watched.toml", good)


def test_faulty(watched):
    """A gateway goes on, and is watched, where the next configuration has a fault: started again it would end."""
    watched.configure("next.toml", "worker = 2\n" + watched.configuration)
    check("a gateway without another fault", watched.watch(), QUIET)
    printed, status, called = watched.watch(IPIngressBytes=4304 * 900, IPIngressPackets=0)
    check("a full log and a faulty configuration", (status, called), (2, []))
    check("its fault", "worker" in printed and printed.endswith(
        "nscagate-watch: nscagate.service isn't restarted: its log has some 900 of 1000 records\n"), True)
    watched.configure("next.toml", watched.configuration)


def main():
    program, ctl = (os.path.abspath(word) for word in sys.argv[1:3])
    with tempfile.TemporaryDirectory() as folder:
        watched = Watched(program, ctl, os.path.join(folder, "limit"), "limit = 50")
        test_page(watched)
        test_words(watched)
        watched.end()
        watched = Watched(program, ctl, os.path.join(folder, "accounting"), "limit = 1000\nsessions = 100\nworkers = 2")
        test_accounting(watched)
        test_numbers(watched)
        test_faulty(watched)
        test_gone(watched)
        test_hang(Watched(program, ctl, os.path.join(folder, "hang"), ""))
    end_tests()


main()
