"""Plays each outage against Prometheus and Alertmanager with the files of examples/alerting:
python3 alerting_test.py NSCAGATE STATUSWEB FOLDER. Ends with a line 'N passed, M failed'."""
import http.client
import http.server
import json
import os
import re
import shutil
import signal
import subprocess
import sys
import tempfile
import threading
import time
import urllib.parse

from daemon_clients import Daemon, ask, check, end_tests, free_port

CONFIGURATION = """\
agents = "127.0.0.1:{agents}"
operators = "127.0.0.1:{operators}"
pages = "127.0.0.1:{pages}"
limit = {limit}
"""
EAST = """
[[host]]
name = "web1"
[[host.service]]
name = 'HTTP "new"'
[[host]]
name = "quiet"
freshness = 4
"""
WEST = """
[[host]]
name = "db1"
"""
PATIENCE = 90  # seconds: beside other work an alert comes late


def run(*words):
    """What a checking program reports, and its status."""
    ran = subprocess.run(words, capture_output=True, text=True, timeout=60, check=False)
    return ran.returncode, ran.stdout


def get(port, path):
    """The JSON of a URL; None where nobody answers."""
    try:
        client = http.client.HTTPConnection("127.0.0.1", port, timeout=5)
        client.request("GET", path)
        return json.loads(client.getresponse().read())
    except (OSError, ValueError, http.client.HTTPException):
        return None


def wait_for(what, test, patience=PATIENCE):
    end = time.monotonic() + patience
    while not test() and time.monotonic() < end:
        time.sleep(0.1)
    check(what, bool(test()), True)


class Receiver:
    """Takes Alertmanager's notifications: for each alert, by name, gateway, host and service (that of statusweb has its instance
    there), the status, the receiver and the summary of the last."""

    def __init__(self):
        self.last = {}
        notes = self.last

        class Handler(http.server.BaseHTTPRequestHandler):
            def do_POST(self):
                body = json.loads(self.rfile.read(int(self.headers["content-length"])))
                for alert in body["alerts"]:
                    labels = {"service": alert["labels"].get("instance", ""), **alert["labels"]}
                    key = tuple(labels.get(name, "") for name in ("alertname", "gateway", "host", "service"))
                    notes[key] = alert["status"], self.path, alert["annotations"]["summary"]
                self.send_response(200)
                self.end_headers()

            def log_message(self, *_):
                pass

        self.server = http.server.ThreadingHTTPServer(("127.0.0.1", 0), Handler)
        self.port = self.server.server_address[1]
        threading.Thread(target=self.server.serve_forever, daemon=True).start()

    def comes(self, name, gateway="", host="", service="", to="/on-call", summary=""):
        key = name, gateway, host, service
        wait_for(f"{key} comes", lambda: self.last.get(key, [""])[0] == "firing")
        _, path, found = self.last.get(key, ("", "", ""))
        check(f"who is notified of {key}", path, to)
        check(f"the summary of {key}: {found}", summary in found, True)

    def goes(self, name, gateway="", host="", service=""):
        key = name, gateway, host, service
        wait_for(f"{key} goes", lambda: self.last.get(key, [""])[0] == "resolved")


class Gateway:
    """A gateway whose ports stay."""

    def __init__(self, program, folder, name, objects):
        self.program, self.folder, self.objects = program, os.path.join(folder, name), objects
        os.mkdir(self.folder)
        self.agents, self.operators, self.pages = (free_port() for _ in range(3))
        self.start(objects)

    def start(self, objects, limit=1000):
        text = CONFIGURATION.format(agents=self.agents, operators=self.operators, pages=self.pages, limit=limit)
        self.daemon = Daemon(self.program, self.folder, text + objects)

    def restart(self, objects, limit=1000):
        self.stop()
        self.start(objects, limit)

    def stop(self):
        ask(self.daemon, "[1] SHUTDOWN_PROGRAM")
        self.daemon.end()

    def send(self, line):
        return ask(self.daemon, "[1] " + line)


class Feeder(threading.Thread):
    """Reports a host as UP each half second, until it is stopped."""

    def __init__(self, gateway):
        super().__init__(daemon=True)
        self.gateway, self.is_stopped = gateway, False

    def run(self):
        while not self.is_stopped:
            try:
                self.gateway.send("PROCESS_HOST_CHECK_RESULT;quiet;0;up")
            except OSError:
                pass
            time.sleep(0.5)


def read(folder, name):
    with open(os.path.join(folder, name), encoding="utf-8") as file:
        return file.read()


def write(folder, name, text):
    with open(os.path.join(folder, name), "w", encoding="utf-8") as file:
        file.write(text)
    return os.path.join(folder, name)


def replaced(text, pattern, by, count):
    """A text with each match replaced, of which there have to be so many."""
    text, found = re.subn(pattern, by, text)
    check(f"matches of {pattern}", found, count)
    return text


def quick_files(example, folder, ports):
    """The example's files, with these ports, receivers of this test, and seconds for minutes."""
    rules = read(example, "nscagate.rules.yml")
    rules = re.sub(r"for: \d+m", "for: 1s", rules)
    rules = replaced(rules, "interval: 15s", "interval: 1s", 1)
    rules = replaced(rules, r"> 300\b", "> 4", 1)
    rules = replaced(rules, r"\[1h\]", "[6s]", 1)
    write(folder, "nscagate.rules.yml", rules)
    scrape = read(example, "prometheus.yml")
    scrape = replaced(scrape, "_interval: 15s", "_interval: 1s", 2)
    scrape = replaced(scrape, "127.0.0.1:9093", f"127.0.0.1:{ports['alertmanager']}", 1)
    scrape = replaced(scrape, "127.0.0.1:8080", f"127.0.0.1:{ports['statusweb']}", 1)
    write(folder, "prometheus.yml", scrape)
    routes = read(example, "alertmanager.yml")
    routes = replaced(routes, r"group_wait: \S+", "group_wait: 0s", 1)
    routes = replaced(routes, r"group_interval: \S+", "group_interval: 1s", 1)
    url = rf"webhook_configs:\n      - url: http://127.0.0.1:{ports['receiver']}/\1"
    routes = replaced(routes, r"email_configs:\n      - to: (\S+)@example.com", url, 2)
    write(folder, "alertmanager.yml", routes)
    return scrape


def begin(folder, name, words):
    with open(os.path.join(folder, name + ".log"), "w", encoding="utf-8") as log:
        return subprocess.Popen(words, stdout=log, stderr=log)


def end(process):
    process.kill()
    process.wait()


class Programs:
    """statusweb, Prometheus and Alertmanager, and the two gateways."""

    def __init__(self, nscagate, statusweb, example, folder):
        self.statusweb_program, self.folder = statusweb, folder
        self.receiver = Receiver()
        self.ports = {name: free_port() for name in ("alertmanager", "statusweb", "prometheus")}
        self.ports["receiver"] = self.receiver.port
        self.scrape = quick_files(example, folder, self.ports)
        self.east = Gateway(nscagate, folder, "east", EAST)
        self.west = Gateway(nscagate, folder, "west", WEST)
        self.alertmanager = begin(folder, "alertmanager", [
            "prometheus-alertmanager", f"--config.file={folder}/alertmanager.yml", f"--storage.path={folder}/alerts",
            f"--web.listen-address=127.0.0.1:{self.ports['alertmanager']}", "--cluster.listen-address="])
        # At first nobody scrapes statusweb.
        write(folder, "prometheus.yml", self.scrape.split("scrape_configs:")[0])
        self.prometheus = begin(folder, "prometheus", [
            "prometheus", f"--config.file={folder}/prometheus.yml", f"--storage.tsdb.path={folder}/data",
            f"--web.listen-address=127.0.0.1:{self.ports['prometheus']}", "--rules.alert.resend-delay=2s"])
        self.start_statusweb()

    def start_statusweb(self):
        self.statusweb = begin(self.folder, "statusweb", [
            self.statusweb_program, "--listen", f"127.0.0.1:{self.ports['statusweb']}", "--every", "1",
            "--gateway", f"east=127.0.0.1:{self.east.pages}", "--gateway", f"west=127.0.0.1:{self.west.pages}"])

    def scrape_all(self):
        write(self.folder, "prometheus.yml", self.scrape)
        self.prometheus.send_signal(signal.SIGHUP)

    def query(self, expression):
        found = get(self.ports["prometheus"], "/api/v1/query?query=" + urllib.parse.quote(expression))
        return found and found.get("data", {}).get("result")

    def end(self):
        for process in (self.prometheus, self.alertmanager, self.statusweb, self.east.daemon.process,
                        self.west.daemon.process):
            process.send_signal(signal.SIGCONT)
            end(process)


def play(programs, example):
    comes, goes = programs.receiver.comes, programs.receiver.goes
    east, west = programs.east, programs.west
    comes("StatuswebGone")
    programs.scrape_all()
    goes("StatuswebGone")
    feeder = play_objects(programs, east, comes, goes)
    check_dashboard(programs, example)
    # Three outages side by side.
    west.restart(WEST, limit=3)
    for _ in range(3):
        west.send("PROCESS_HOST_CHECK_RESULT;db1;0;up")
    feeder.is_stopped = True
    feeder.join()
    east.daemon.process.send_signal(signal.SIGSTOP)
    comes("GatewayDown", "east", summary="gateway east shows no page")
    comes("PageOld", "east", summary="what is shown of gateway east is ")
    comes("PageStandsStill", "west", summary="the page of gateway west is of another time (stands still)")
    east.daemon.process.send_signal(signal.SIGCONT)
    west.restart(WEST)
    for name, gateway in (("GatewayDown", "east"), ("PageOld", "east"), ("PageStandsStill", "west")):
        goes(name, gateway)
    play_statusweb(programs, east, comes, goes)
    play_lost_results(programs, east, comes, goes)
    east.restart(EAST.split("[[host.service]]", maxsplit=1)[0])
    comes("FewerObjects", "east", to="/operators", summary="fewer objects than an hour ago: 1")
    goes("FewerObjects", "east")
    west.restart(WEST.replace("db1", "lon1"))
    comes("OtherObjects", "west", summary="gateway west shows other objects than before")
    # It lasts an hour; a statusweb that has just begun knows of no page before.
    end(programs.statusweb)
    programs.start_statusweb()
    goes("OtherObjects", "west")


def play_objects(programs, east, comes, goes):
    """What becomes of hosts and services."""
    comes("StaleObject", "east", "quiet", summary="quiet  is silent")
    feeder = Feeder(east)
    feeder.start()
    goes("StaleObject", "east", "quiet")
    east.send("PROCESS_HOST_CHECK_RESULT;web1;1;no route")
    comes("HostProblem", "east", "web1", summary="host web1 is DOWN,")
    east.send("ACKNOWLEDGE_HOST_PROBLEM;web1;1;0;0;ann;on it")
    goes("HostProblem", "east", "web1")
    east.send("PROCESS_HOST_CHECK_RESULT;web1;0;up")
    service = 'HTTP "new"'
    east.send(f"PROCESS_SERVICE_CHECK_RESULT;web1;{service};2;timeout")
    comes("ServiceCritical", "east", "web1", service, summary=service + " on web1 is CRITICAL,")
    path = "/api/v2/alerts?filter=" + urllib.parse.quote('alertname="ServiceProblem"')
    found = []
    wait_for("ServiceCritical inhibits ServiceProblem", lambda: any(
        alert["status"]["inhibitedBy"] for alert in get(programs.ports["alertmanager"], path) or found))
    east.send(f"PROCESS_SERVICE_CHECK_RESULT;web1;{service};1;slow")
    goes("ServiceCritical", "east", "web1", service)
    comes("ServiceProblem", "east", "web1", service, to="/operators", summary=service + " on web1 is ")
    east.send(f"PROCESS_SERVICE_CHECK_RESULT;web1;{service};0;ok")
    goes("ServiceProblem", "east", "web1", service)
    return feeder


def play_statusweb(programs, east, comes, goes):
    """Where statusweb is gone, its problems stay."""
    east.send("PROCESS_HOST_CHECK_RESULT;web1;1;no route")
    comes("HostProblem", "east", "web1", summary="host web1 is DOWN,")
    instance = f"127.0.0.1:{programs.ports['statusweb']}"
    end(programs.statusweb)
    comes("StatuswebGone", service=instance, summary=f"no metrics of statusweb {instance}")
    time.sleep(3)
    check("a problem stays while statusweb is gone", programs.receiver.last["HostProblem", "east", "web1", ""][0], "firing")
    programs.start_statusweb()
    goes("StatuswebGone", service=instance)
    east.send("PROCESS_HOST_CHECK_RESULT;web1;0;up")
    goes("HostProblem", "east", "web1")


def play_lost_results(programs, east, comes, goes):
    """Where a gateway restarts without its results, its problems stay until their next results."""
    east.send("PROCESS_HOST_CHECK_RESULT;web1;1;no route")
    comes("HostProblem", "east", "web1", summary="host web1 is DOWN,")
    east.restart(EAST)
    time.sleep(5)
    check("a problem stays while its result is lost", programs.receiver.last["HostProblem", "east", "web1", ""][0], "firing")
    check("and no host is silent for that", ("StaleObject", "east", "web1", "") in programs.receiver.last, False)
    east.send("PROCESS_HOST_CHECK_RESULT;web1;0;up")
    goes("HostProblem", "east", "web1")


def expressions(dashboard):
    return [target["expr"] for panel in dashboard["panels"] for target in panel["targets"]]


def check_dashboard(programs, example):
    """Each query of the dashboard has an answer of Prometheus; that of problems while there is one."""
    programs.east.send("PROCESS_HOST_CHECK_RESULT;web1;1;no route")
    wait_for("a problem to be shown", lambda: programs.query("nscagate_problem"))
    found = expressions(json.loads(read(example, "grafana-dashboard.json")))
    check("the dashboard has queries", len(found) > 5, True)
    for expression in found:
        check(f"the dashboard's query {expression}", bool(programs.query(expression)), True)
    programs.east.send("PROCESS_HOST_CHECK_RESULT;web1;0;up")
    programs.receiver.goes("HostProblem", "east", "web1")


def alerts_of(rules):
    return set(re.findall(r"- alert: (\w+)", rules))


def check_files(example):
    if shutil.which("promtool"):
        rules = os.path.join(example, "nscagate.rules.yml")
        check("promtool takes the rules", run("promtool", "check", "rules", rules)[0], 0)
        check("promtool takes the scrape", run("promtool", "check", "config", os.path.join(example, "prometheus.yml"))[0], 0)
        status, printed = run("promtool", "test", "rules", os.path.join(example, "nscagate.rules_test.yml"))
        check(f"each outage of the rules' test {printed}", status, 0)
    else:
        print("the rules of alerts ... skipped: promtool is not installed")
    tested = set(re.findall(r"alertname: (\w+)\n        exp_alerts", read(example, "nscagate.rules_test.yml")))
    check("the alerts that the rules' test sees", tested, alerts_of(read(example, "nscagate.rules.yml")))
    if shutil.which("amtool"):
        config = os.path.join(example, "alertmanager.yml")
        check("amtool takes the routes", run("amtool", "check-config", config)[0], 0)
        for severity, receiver in (("critical", "on-call"), ("warning", "operators")):
            found = run("amtool", "config", "routes", "test", f"--config.file={config}", f"severity={severity}")
            check(f"who is notified of what is {severity}", found, (0, receiver + "\n"))
    else:
        print("the routes of alerts ... skipped: amtool is not installed")


def main():
    nscagate, statusweb, example = (os.path.abspath(word) for word in sys.argv[1:4])
    check_files(example)
    missing = [tool for tool in ("prometheus", "prometheus-alertmanager") if not shutil.which(tool)]
    for tool in missing:
        print(f"each outage ... skipped: {tool} is not installed")
    if missing:
        end_tests()
    for program in (nscagate, statusweb):
        check(f"{program} is built", os.access(program, os.X_OK), True)
    with tempfile.TemporaryDirectory() as folder:
        programs = Programs(nscagate, statusweb, example, folder)
        try:
            play(programs, example)
            seen = {key[0] for key, value in programs.receiver.last.items() if value[0] == "resolved"}
            check("the alerts that came and went", seen, alerts_of(read(example, "nscagate.rules.yml")))
        finally:
            programs.end()
    end_tests()


main()
