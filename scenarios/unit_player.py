"""Plays systemd over the units of packaging/systemd: the commands of nscagate.service run as they stand there, but with paths of this
machine, on a folder of the test. What they print goes to the log or to the journal, as the unit has it."""
import os
import re
import shlex
import signal
import subprocess
import threading
import time

from daemon_clients import TIME_LIMIT, Daemon, free_port

UNITS = "packaging/systemd"
# To systemd these signals end a service as well as status 0 does.
CLEAN_ENDS = 0, signal.SIGHUP, signal.SIGINT, signal.SIGPIPE, signal.SIGTERM
SYSTEMCTL = """\
#!/bin/sh
case $* in
    'show --property ActiveState '*) echo active ;;
    'show '*) ;;
    *) echo "$*" >>"$CALLED" ;;
esac
"""


def addresses():
    """The lines of a configuration with three free ports."""
    return "".join(f'{name} = "127.0.0.1:{free_port()}"\n' for name in ("agents", "operators", "pages"))


class Served(Daemon):
    """A daemon whose output goes to a file, as the unit has it."""

    def __init__(self, words, log, configuration, environment):
        self.process = subprocess.Popen(words, env=environment, stdout=log, stderr=subprocess.PIPE)
        self.hosts, self.ports = {}, {}
        for name, host, port in re.findall(r'^(agents|operators|pages) = "([0-9.]+):(\d+)"', configuration, re.M):
            self.hosts[name], self.ports[name] = host, int(port)
        # systemd waits for its child too: what has ended is gone from /proc.
        threading.Thread(target=self.process.wait, daemon=True).start()

    def is_serving(self):
        try:
            return self.page() != ""
        except OSError:
            return False

    def wait_until_serving(self):
        end = time.monotonic() + TIME_LIMIT
        while not self.is_serving() and self.process.poll() is None and time.monotonic() < end:
            time.sleep(0.02)


class Unit:
    """The gateway's unit in a folder of its own."""

    def __init__(self, program, ctl, folder, configuration):
        self.folder = folder
        self.programs = {"nscagate": program, "nscagatectl": ctl, "systemctl": os.path.join(folder, "bin", "systemctl")}
        for name in ("bin", "state", "logs", "counts", "run", "runs"):
            os.makedirs(os.path.join(folder, name))
        self.config = os.path.join(folder, "gateway.toml")
        self.page = os.path.join(folder, "state", "page")
        self.log = os.path.join(folder, "logs", "log")
        self.called = os.path.join(folder, "called")
        self.environment = {**os.environ, "PATH": f"{folder}/bin:{os.environ['PATH']}", "CALLED": self.called,
                            "LOGS_DIRECTORY": os.path.join(folder, "runs")}
        with open(self.programs["systemctl"], "w", encoding="ascii") as file:
            file.write(SYSTEMCTL)
        os.chmod(self.programs["systemctl"], 0o755)
        os.symlink(ctl, os.path.join(folder, "bin", "nscagatectl"))
        self.configure(configuration)
        self.daemon = None
        self.journal = ""
        self.statuses = {}

    def configure(self, configuration):
        self.configuration = configuration
        with open(self.config, "w", encoding="latin-1") as file:
            file.write(configuration)

    def commands(self, key, unit="nscagate.service"):
        """The commands of this key, each as whether its failure counts, and its words."""
        with open(os.path.join(UNITS, unit), encoding="utf-8") as file:
            lines = re.findall(rf"^{key}=(.*)$", file.read(), re.M)
        found = []
        for line in lines:
            prefix, line = re.fullmatch(r"([-+]*)(.*)", line).groups()
            line = line.replace("%%", "%").replace("/etc/nscagate/gateway.toml", self.config)
            line = line.replace("/var/log/nscagate", os.path.join(self.folder, "logs"))
            line = line.replace("/run/nscagate/", os.path.join(self.folder, "run", ""))
            line = line.replace("exec /usr/bin/nscagate ", f"exec {self.programs['nscagate']} ")
            words = shlex.split(line.replace("/var/lib/nscagate", os.path.join(self.folder, "state")))
            words[0] = self.programs.get(os.path.basename(words[0]), words[0])
            found.append(("-" not in prefix, words))
        return found

    def run(self, key, unit="nscagate.service"):
        """Runs them one after another, until one fails whose failure counts; whether none did."""
        self.statuses[key] = []
        for counts, words in self.commands(key, unit):
            with open(self.log, "ab") as log:
                ran = subprocess.run(words, env=self.environment, stdout=log, stderr=subprocess.PIPE, timeout=900, check=False)
            self.statuses[key].append(ran.returncode)
            self.journal += ran.stderr.decode("latin-1")
            if ran.returncode != 0 and counts:
                return False
        return True

    def start(self):
        """Starts the daemon, and runs what the unit has before it; what was written to the journal."""
        self.journal = ""
        self.run("ExecStartPre")
        [(_, words)] = self.commands("ExecStart")
        with open(self.log, "ab") as log:
            self.daemon = Served(words, log, self.configuration, self.environment)
        self.environment["MAINPID"] = str(self.daemon.process.pid)
        self.daemon.wait_until_serving()
        return self.journal

    def stop(self):
        """Stops the daemon as systemd does; what was written to the journal."""
        self.journal = ""
        self.run("ExecStop")
        self.daemon.process.terminate()
        self.end()
        return self.journal

    def end(self):
        """Waits for the daemon's end, and runs what the unit has after it."""
        status = self.daemon.process.wait(TIME_LIMIT)
        self.environment["SERVICE_RESULT"] = "success" if -status in CLEAN_ENDS else "exit-code" if status > 0 else "signal"
        self.run("ExecStopPost")

    def last_log(self):
        """The log page of the run that ended last."""
        folder = os.path.dirname(self.log)
        with open(max((os.path.join(folder, name) for name in os.listdir(folder)), key=os.path.getmtime), encoding="latin-1") as file:
            return file.read()

    def crash(self):
        """Ends the daemon at once, and starts it again."""
        self.daemon.process.send_signal(signal.SIGKILL)
        self.end()
        return self.start()

    def take_calls(self):
        """What systemctl was called for since the last look."""
        if not os.path.exists(self.called):
            return []
        with open(self.called, encoding="utf-8") as file:
            calls = file.read().splitlines()
        os.remove(self.called)
        return calls

    def reload(self):
        """Whether all commands of a reload ended well. The restart that they ask for is done then."""
        self.journal = ""
        ended = self.run("ExecReload")
        if "--no-block start nscagate-restart.service" in self.take_calls() and self.run("ExecStartPre", "nscagate-restart.service"):
            self.run("ExecStart", "nscagate-restart.service")
            if self.take_calls() == ["try-restart nscagate.service"]:
                self.stop()
                self.start()
        return ended

    def watch(self, *words):
        """What the call of a minute prints, its status, and what it asked of systemctl."""
        ran = subprocess.run(["packaging/bin/nscagate-watch", "--config", os.path.join(self.folder, "state", "gateway.toml"),
                              "--next", self.config, "--page", self.page, "--folder", os.path.join(self.folder, "counts"), *words],
                             env=self.environment, capture_output=True, text=True, timeout=200, check=False)
        return ran.stdout + ran.stderr, ran.returncode, self.take_calls()
