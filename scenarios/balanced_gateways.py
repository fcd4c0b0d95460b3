"""Gateways after a balancer, and senders of several addresses by the real client. Their tests end with `count_results`."""
import os
import re
import shutil
import subprocess
import threading
import time

from daemon_clients import TIME_LIMIT, Daemon, check, free_port

SOURCES = {"A": "127.0.0.2", "B": "127.0.0.3", "C": "127.0.0.4"}
CONFIGURATION = """\
agents = "127.0.0.1:{agents}"
operators = "127.0.0.1:{operators}"
pages = "127.0.0.1:{pages}"
workers = 2
[[host]]
name = "web1"
""" + "".join(f'[[host.service]]\nname = "{service}"\n' for service in SOURCES)


class Gateway:
    """A gateway with a folder and ports that stay, and the log pages of its runs that have ended."""

    def __init__(self, program, folder, name):
        self.program = program
        self.folder = os.path.join(folder, name)
        os.mkdir(self.folder)
        self.name = name
        agents, operators, pages = (free_port() for _ in range(3))
        self.configuration = CONFIGURATION.format(agents=agents, operators=operators, pages=pages)
        self.agents, self.pages = agents, pages
        self.logs = []
        self.restored = set()  # service and output of each result that was restored
        self.start()

    def start(self, kept=b""):
        self.daemon = Daemon(self.program, self.folder, self.configuration, kept)

    def take_log(self):
        status, output, _ = self.daemon.end()
        check(f"the status of {self.name}", status, 0)
        self.logs.append(output)

    def logged(self):
        """How often each result is in the logs, by its service and output."""
        found = {}
        line = r" PROCESS_SERVICE_CHECK_RESULT;web1;(\w);0;(\d+) -> Accepted$"
        for service, output in re.findall(line, "".join(self.logs), re.MULTILINE):
            found[service, output] = found.get((service, output), 0) + 1
        return found


class Sender(threading.Thread):
    """Sends result after result of one service from one address by the real client, until it is stopped."""

    def __init__(self, folder, port, service, source):
        super().__init__(daemon=True)
        configuration = os.path.join(folder, "send_nsca.cfg")
        self.words = [shutil.which("send_nsca"), "-H", "127.0.0.1", "-p", str(port), "-c", configuration]
        library = os.path.join(folder, "source_address.so")
        self.environment = {**os.environ, "LD_PRELOAD": library, "SOURCE_ADDRESS": source}
        self.service = service
        self.sent = []  # the outputs with status 0
        self.unsent = 0
        self.is_stopped = False

    def send(self, output):
        ran = subprocess.run(self.words, input=f"web1\t{self.service}\t0\t{output}\n", env=self.environment,
                             capture_output=True, text=True, timeout=TIME_LIMIT, check=False)
        if ran.returncode == 0:
            self.sent.append(str(output))
        else:
            self.unsent += 1

    def run(self):
        number = 0
        while not self.is_stopped:
            number += 1
            self.send(number)
            time.sleep(0.02)


def start_senders(folder, port):
    """A sender of each address, to this port."""
    with open(os.path.join(folder, "send_nsca.cfg"), "w", encoding="ascii") as file:
        file.write("encryption_method=0\n")
    library = os.path.join(folder, "source_address.so")
    subprocess.run(["cc", "-shared", "-fPIC", "-o", library, "scenarios/source_address.c", "-ldl"], check=True)
    senders = [Sender(folder, port, service, source) for service, source in SOURCES.items()]
    for sender in senders:
        sender.start()
    return senders


def stop_senders(senders):
    for sender in senders:
        sender.is_stopped = True
        sender.join(TIME_LIMIT)


def wait_for(what, test):
    end = time.monotonic() + TIME_LIMIT
    while not test() and time.monotonic() < end:
        time.sleep(0.05)
    check(what, test(), True)


def serving(gateways, service):
    """The gateways whose pages have a result of this service."""
    line = re.compile(rf"^object;web1;{service};OK;", re.MULTILINE)
    return [gateway for gateway in gateways if line.search(gateway.daemon.page())]


def check_each_keeps_to_one(gateways):
    for service in SOURCES:
        wait_for(f"results of {service} are shown", lambda: len(serving(gateways, service)) > 0)
    time.sleep(1.0)
    for service in SOURCES:
        check(f"{service} keeps to one gateway", len(serving(gateways, service)), 1)


def count_results(senders, gateways, ended):
    """Each result that its sender called sent is in one log, once; but of each sender of the gateway that ended
    without a word at most one is in none: that between its last one there and its first one elsewhere."""
    logs = {gateway.name: gateway.logged() for gateway in gateways}
    total = lost = 0
    for sender in senders:
        found = []
        for output in sender.sent:
            names = [name for name, log in logs.items() for _ in range(log.get((sender.service, output), 0))]
            for gateway in gateways:
                if (sender.service, output) in gateway.restored:
                    names.remove(gateway.name)
            found.append(names)
        check(f"{sender.service} has sent much", len(found) > 50, True)
        before = max((place for place, names in enumerate(found) if names == [ended.name]), default=None)
        gaps = [place for place, names in enumerate(found) if len(names) != 1]
        check(f"results of {sender.service} that are not in one log, once", gaps,
              gaps if before is not None and gaps == [before + 1] and not found[before + 1] else [])
        total += len(found)
        lost += len(gaps)
    unsent = sum(sender.unsent for sender in senders)
    print(f"{total} results were called sent; {lost} of them were on their way to the gateway that was shut down "
          f"without a word, where {unsent} more were called unsent")
