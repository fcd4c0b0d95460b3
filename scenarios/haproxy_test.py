"""Plays senders of three addresses against three gateways after HAProxy:
python3 haproxy_test.py PROGRAM CTL CONFIGURATION. Ends with a line 'N passed, M failed'."""
import os
import pwd
import re
import socket
import subprocess
import sys
import tempfile
import threading
import time

from balanced_gateways import SOURCES, Gateway, check_each_keeps_to_one, count_results, serving, start_senders, stop_senders, wait_for
from daemon_clients import TIME_LIMIT, ask, check, end_tests, free_port, packet, read_exactly


def balancer_files(folder, example, gateways):
    """The example's configuration, with the addresses of these gateways and a free port."""
    with open(example, encoding="ascii") as file:
        text = file.read()
    port = free_port()
    text, count = re.subn(r"bind :5667", f"bind 127.0.0.1:{port}", text)
    check("the example's frontend", count, 1)
    for number, gateway in enumerate(gateways, 1):
        text, count = re.subn(rf"server gw{number} 10\.0\.0\.{number}:5667 check port 5669",
                              f"server gw{number} 127.0.0.1:{gateway.agents} check port {gateway.pages}", text)
        check(f"the example's server {number}", count, 1)
    path = os.path.join(folder, "haproxy.cfg")
    admin = os.path.join(folder, "admin.sock")
    for line, count in (("    user haproxy\n", 1), ("    group haproxy\n", 1), (" /dev/log ", 1)):
        check(f"the example's line {line.strip()}", text.count(line), count)
    if os.geteuid() != 0:
        # Nobody else can run it as another user.
        text = text.replace("    user haproxy\n    group haproxy\n", "")
    text = text.replace("/dev/log", os.path.join(folder, "log.sock"))
    with open(path, "w", encoding="ascii") as file:
        file.write(text.replace("/run/haproxy/nscagate.sock", admin))
    return path, admin, port


class Log(threading.Thread):
    """What HAProxy writes to its log."""

    def __init__(self, folder):
        super().__init__(daemon=True)
        self.socket = socket.socket(socket.AF_UNIX, socket.SOCK_DGRAM)
        self.socket.bind(os.path.join(folder, "log.sock"))
        # HAProxy's own user writes there.
        os.chmod(folder, 0o755)
        os.chmod(os.path.join(folder, "log.sock"), 0o666)
        self.text = ""

    def run(self):
        while True:
            self.text += self.socket.recv(65536).decode("latin-1") + "\n"


def owner(pid):
    """The user of a process."""
    return pwd.getpwuid(os.stat(f"/proc/{pid}").st_uid).pw_name


def command(admin, line):
    """What HAProxy answers on its admin socket."""
    with socket.socket(socket.AF_UNIX) as connection:
        connection.settimeout(TIME_LIMIT)
        connection.connect(admin)
        connection.sendall(line.encode() + b"\n")
        answer = b""
        while piece := connection.recv(65536):
            answer += piece
        return answer.decode()


def states(admin):
    """The state of each server, as HAProxy names it."""
    rows = [line.split(",") for line in command(admin, "show stat").splitlines() if line.startswith("gateways,gw")]
    return {row[1]: row[17] for row in rows}


def control(ctl, gateway, word, *words):
    """How nscagatectl ended with these words."""
    path = os.path.join(gateway.folder, "gateway.toml")
    return subprocess.run([ctl, word, "--config", path, *words], capture_output=True, timeout=60, check=False)


def play(program, ctl, example, folder):
    log = Log(folder)
    log.start()
    gateways = [Gateway(program, folder, f"gw{number}") for number in (1, 2, 3)]
    path, admin, port = balancer_files(folder, example, gateways)
    checked = subprocess.run(["haproxy", "-c", "-q", "-f", path], capture_output=True, text=True, check=False)
    check("HAProxy takes its file", (checked.returncode, checked.stdout + checked.stderr), (0, ""))
    balancer = subprocess.Popen(["haproxy", "-db", "-f", path], stdout=subprocess.DEVNULL, stderr=subprocess.DEVNULL)
    try:
        wait_for("HAProxy runs", lambda: os.path.exists(admin) and set(states(admin).values()) == {"UP"})
        check("whose HAProxy is", owner(balancer.pid), "haproxy" if os.geteuid() == 0 else owner(os.getpid()))
        ended = play_senders(ctl, folder, gateways, admin, port)
        wait_for("the log has the gateway that ended", lambda: f"Server gateways/{ended} is DOWN" in log.text)
    finally:
        balancer.kill()
        balancer.wait()


def play_senders(ctl, folder, gateways, admin, port):
    senders = start_senders(folder, port)
    check_each_keeps_to_one(gateways)
    first = serving(gateways, "A")[0]
    others = [gateway for gateway in gateways if gateway is not first]
    restart(ctl, first, others, admin, port)
    check("no sender has failed", [sender.unsent for sender in senders], [0, 0, 0])
    second = serving(others, "A")[0]
    end_without_a_word(second, admin)
    stop_senders(senders)
    for gateway in gateways:
        if gateway is not second:
            wait_for(f"the connections of {gateway.name} end", lambda: sessions(admin, gateway.name) == 0)
            check(f"{gateway.name} is shut down", ask(gateway.daemon, "[1] SHUTDOWN_PROGRAM"), ["closing"])
            gateway.take_log()
    count_results(senders, gateways, second)
    return second.name


def restart(ctl, first, others, admin, port):
    """A rolling restart: the gateway is taken out first, and serves to their end the connections that it has."""
    ask(first.daemon, "[1] ADD_HOST_COMMENT;web1;1;ann;stays")
    with socket.create_connection(("127.0.0.1", port), TIME_LIMIT, (SOURCES["A"], 0)) as late:
        late.settimeout(TIME_LIMIT)
        check("an agent is greeted", len(read_exactly(late, 132)), 132)
        check("a gateway is taken out", command(admin, f"set server gateways/{first.name} state maint").strip(), "")
        wait_for("it is out", lambda: states(admin)[first.name] == "MAINT")
        late.sendall(packet(int(time.time()), b"web1", b"", 0, b"on its way"))
    wait_for("its connections end", lambda: sessions(admin, first.name) == 0)
    kept = os.path.join(first.folder, "page")
    stopped = control(ctl, first, "stop", kept)
    check("it is stopped", (stopped.returncode, stopped.stderr), (0, b""))
    with open(kept, encoding="ascii") as file:
        first.restored = set(re.findall(r"^object;web1;(\w+);OK;.*;(\d+)$", file.read(), re.MULTILINE))
    first.take_log()
    logged = "PROCESS_HOST_CHECK_RESULT;web1;0;on its way -> Accepted" in first.logs[0]
    check("the packet that was on its way is there", logged, True)
    wait_for("another gateway takes over", lambda: len(serving(others, "A")) == 1)
    restored = control(ctl, first, "restore", kept)
    check("it is planned", restored.returncode, 0)
    first.start(restored.stdout)
    check("its comment is there", ";user;1;" in first.daemon.page(), True)
    command(admin, f"set server gateways/{first.name} state ready")
    wait_for("it serves again", lambda: states(admin)[first.name] == "UP")


def end_without_a_word(second, admin):
    """A gateway that was not taken out ends: a packet of each of its senders may be on its way, since none is answered."""
    check("a second gateway is shut down", ask(second.daemon, "[1] SHUTDOWN_PROGRAM"), ["closing"])
    second.take_log()
    wait_for("HAProxy notices", lambda: states(admin)[second.name] == "DOWN")


def sessions(admin, name):
    row = next(line for line in command(admin, "show stat").splitlines() if line.startswith(f"gateways,{name},"))
    return int(row.split(",")[4])


def main():
    program, ctl, example = (os.path.abspath(word) for word in sys.argv[1:4])
    with tempfile.TemporaryDirectory() as folder:
        play(program, ctl, example, folder)
    end_tests()


main()
