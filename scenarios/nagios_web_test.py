"""Shows two gateways by Nagios's CGI programs and enters commands there:
python3 nagios_web_test.py PROGRAM EXAMPLES CGI. Ends with a line 'N passed, M failed'."""
import json
import os
import re
import signal
import socket
import subprocess
import sys
import tempfile
import threading
import time
import urllib.parse

from daemon_clients import CONFIGURATION, TIME_LIMIT, Daemon, ask, check, end_tests, packet, read_all, read_exactly

OBJECTS = CONFIGURATION.replace("freshness = 300", "freshness = 0") + """\
[[host.service]]
name = 'Disk C:\\'
[[host.service]]
name = 'a="b" <i>, {c}'
[[host]]
name = "db1"
freshness = 1
"""
DISK = "Disk C:\\"


def send(daemon, host, service, code, output):
    with daemon.connect("agents") as connection:
        read_exactly(connection, 132)
        connection.sendall(packet(1, host.encode(), service.encode(), code, output.encode("latin-1")))
        connection.shutdown(socket.SHUT_WR)
        read_all(connection)
    daemon.page_with(";" + output.replace("\\", "\\\\").replace("\n", "\\x0a").replace("\t", "\\x09") + "\n")


class Web:
    """The folder of Nagios's files, the bridge, and the CGI programs."""

    def __init__(self, examples, cgi, folder, gateways):
        self.examples, self.cgi, self.folder = examples, cgi, folder
        self.gateways = gateways
        for name in ("nagios.cfg", "cgi.cfg"):
            with open(os.path.join(examples, name), encoding="ascii") as file:
                text = file.read()
            text = text.replace("/var/lib/nscagate-web", folder).replace("/etc/nscagate-web", folder)
            with open(os.path.join(folder, name), "w", encoding="ascii") as file:
                file.write(text)
        self.fifo = os.path.join(folder, "commands")
        words = [sys.executable, "-B", os.path.join(examples, "nagios_commands.py"), self.fifo, *gateways]
        self.bridge = subprocess.Popen(words, stdout=subprocess.PIPE)
        self.bridged = []
        threading.Thread(target=self.take_answers, daemon=True).start()

    def take_answers(self):
        for line in self.bridge.stdout:
            self.bridged.append(line.decode().rstrip("\n"))

    def answers(self, count):
        """The lines that the bridge has printed since the last call, once there are so many."""
        end = time.monotonic() + TIME_LIMIT
        while len(self.bridged) < count and time.monotonic() < end:
            time.sleep(0.02)
        found, self.bridged = self.bridged, []
        return [re.sub(r"\[\d+\] ", "", line) for line in found]

    def write(self, *gateways):
        words = [sys.executable, "-B", os.path.join(self.examples, "nagios_files.py"), self.folder]
        ran = subprocess.run([*words, *(gateways or self.gateways)], capture_output=True, text=True, check=False)
        return ran.returncode, ran.stderr

    def run(self, program, body=None, **variables):
        environment = {**os.environ, "NAGIOS_CGI_CONFIG": os.path.join(self.folder, "cgi.cfg"), "REMOTE_USER": "ann",
                       "REQUEST_METHOD": "GET" if body is None else "POST", **variables}
        ran = subprocess.run([os.path.join(self.cgi, program)], input=(body or "").encode(), env=environment,
                             capture_output=True, timeout=TIME_LIMIT, check=False)
        return ran.stdout.decode("latin-1")

    def ask(self, query):
        """The data of an answer of statusjson.cgi."""
        found = self.run("statusjson.cgi", QUERY_STRING=query)
        return json.loads(found[found.index("{"):])["data"]

    def enter(self, **fields):
        """Sends the form of a command, as a browser does."""
        form = {"cmd_mod": "2", "btnSubmit": "Commit", "nagFormId": "abcdef12", **fields}
        body = urllib.parse.urlencode(form)
        answer = self.run("cmd.cgi", body, HTTP_COOKIE="NagFormId=abcdef12", CONTENT_LENGTH=str(len(body)),
                          CONTENT_TYPE="application/x-www-form-urlencoded")
        check(f"the form {fields}", "successfully submitted" in answer, True)

    def write_line(self, line):
        with open(self.fifo, "w", encoding="ascii") as file:
            file.write(f"[1] {line}\n")


def show(web, one, other):
    """What is shown: of each object the gateway's row that has the latest result."""
    send(other, "web1", "HTTP", 0, "older")
    send(other, "web1", DISK, 1, "ends in \\")
    time.sleep(1.1)
    send(one, "web1", "HTTP", 2, "first \\ \\n|a=1;2\nsecond\t<b>\n|b=2\nc=3")
    send(one, "db1", "", 1, "down")
    one.page_with(";down\n")
    check("the files are written", web.write(), (0, ""))
    services = web.ask("query=servicelist&formatoptions=enumerate")["servicelist"]
    check("services", services, {"web1": {"HTTP": "critical", DISK: "warning", 'a="b" <i>, {c}': "pending"}})
    check("the count of services", web.ask("query=servicecount")["count"],
          {"ok": 0, "warning": 1, "critical": 1, "unknown": 0, "pending": 1})
    check("the count of hosts", web.ask("query=hostcount")["count"],
          {"up": 0, "down": 1, "unreachable": 0, "pending": 1})
    shown = web.ask("query=service&hostname=web1&servicedescription=HTTP")["service"]
    check("an output of several lines", [shown[key] for key in ("plugin_output", "long_plugin_output", "perf_data")],
          ["first \\ \\n", "second\t<b>\n", "a=1;2 b=2 c=3"])
    shown = web.ask("query=service&hostname=web1&servicedescription=" + urllib.parse.quote(DISK))["service"]
    check("an output that ends in a backslash", shown["plugin_output"], "ends in \\")
    page = web.run("extinfo.cgi", QUERY_STRING="type=2&host=web1&service=HTTP")
    check("a page shows it, escaped", "first \\ \\n<BR>second&#9&lt;b&gt;<BR>" in page, True)
    one.page_with(";DOWN;" + re.search(";DOWN;([0-9]+);", one.page()).group(1) + ";stale;")
    web.write()
    check("a stale host", web.ask("query=host&hostname=db1")["host"]["plugin_output"], "(stale) down")


def enter_commands(web, one, other):
    """What is entered goes to all gateways, and is shown."""
    ask(other, "[1] ADD_HOST_COMMENT;db1;1;bob;only <there> & \\")
    web.enter(cmd_typ="34", host="web1", service="HTTP", sticky_ack="on", com_author="x", com_data="on it \\")
    check("an acknowledgement goes to both", web.answers(2),
          [f"{name}: queued {number}: ACKNOWLEDGE_SVC_PROBLEM;web1;HTTP;2;0;0;ann;on it \\"
           for name, number in (("east", 1), ("west", 2))])
    check("it is sticky where the problem is", ";sticky;0;first" in one.page_with(";sticky;"), True)
    web.enter(cmd_typ="1", host="db1", persistent="on", com_author="x", com_data="rack 4")
    web.enter(cmd_typ="55", host="db1", com_author="x", com_data="disk", fixed="1", trigger="0", hours="1", minutes="0",
              start_time="01-01-2020 00:00:00", end_time="01-01-2100 00:00:00")
    check("a comment and downtime go to both", [line.split(":")[0] for line in web.answers(4)], ["east", "west"] * 2)
    one.page_with("downtime;1;"), other.page_with("downtime;1;")
    web.write()
    shown = web.ask("query=commentlist&details=true")["commentlist"]
    check("comments", {number: (entry["entry_type"], entry["comment_data"]) for number, entry in shown.items()},
          {"101": (4, "on it \\"), "201": (1, "rack 4"), "301": (2, "disk"),
           "102": (1, "only &lt;there&gt; &amp; \\"), "202": (1, "rack 4"), "302": (2, "disk")})
    shown = web.ask("query=downtimelist&details=true")["downtimelist"]
    check("downtime", {number: (entry["host_name"], entry["is_in_effect"]) for number, entry in shown.items()},
          {"101": ("db1", True), "102": ("db1", True)})
    check("a page shows a comment, escaped",
          "only &lt;there&gt; &amp; \\<" in web.run("extinfo.cgi", QUERY_STRING="type=1&host=db1"), True)


def name_ids(web, one, other):
    """What names an id goes to that id's gateway, with its own id."""
    web.enter(cmd_typ="2", com_id="202")
    check("the deletion of a comment goes to its gateway", web.answers(1), ["west: queued 5: DEL_HOST_COMMENT;2"])
    web.write_line("SCHEDULE_SVC_DOWNTIME;web1;HTTP;1;4000000000;0;102;60;ann;after the disk")
    check("downtime goes to its trigger's gateway", web.answers(1),
          ["west: queued 6: SCHEDULE_SVC_DOWNTIME;web1;HTTP;1;4000000000;0;1;60;ann;after the disk"])
    web.enter(cmd_typ="78", down_id="101")
    check("the deletion of downtime too", web.answers(1), ["east: queued 4: DEL_HOST_DOWNTIME;1"])
    end = time.monotonic() + TIME_LIMIT
    while "downtime;" in one.page() and time.monotonic() < end:
        time.sleep(0.02)
    left = [[line.split(";")[-1] for line in page.split("\n") if line.startswith(("comment;", "downtime;"))]
            for page in (one.page(), other.page_with("after the disk"))]
    check("what is left", left, [["on it \\\\", "rack 4"],
                                 ["only <there> & \\\\", "disk", "after the disk", "disk", "after the disk"]])
    for line in ("SHUTDOWN_PROGRAM", "DEL_HOST_COMMENT;103", "DEL_HOST_COMMENT;100"):
        web.write_line(line)
    check("to no gateway", web.answers(3), ["to none: SHUTDOWN_PROGRAM", "to none: DEL_HOST_COMMENT;103",
                                            "to none: DEL_HOST_COMMENT;100"])


def meet_faults(web, east):
    """A gateway that sends no whole page is named, and the others are shown; faulty words are refused."""
    with socket.create_server(("127.0.0.1", 0)) as server:
        def serve():
            connection, _ = server.accept()
            connection.sendall(b"status 5\nobject;web1;;UP")
            connection.close()
        threading.Thread(target=serve, daemon=True).start()
        cut = f"cut=127.0.0.1:{server.getsockname()[1]}"
        check("a page that is cut off", web.write(cut, east),
              (0, "nagios_files: cut: it is cut off, or no status page\n"))
    check("the other gateway is shown", web.ask("query=servicecount")["count"]["critical"], 1)
    before = os.stat(os.path.join(web.folder, "status.dat")).st_ino
    status, errors = web.write("127.0.0.1:9")
    check("no gateway at all", (status, errors.startswith("nagios_files: 127.0.0.1:9: ")), (0, True))
    path = os.path.join(web.folder, "status.dat")
    check("the files stay", os.stat(path).st_ino, before)
    os.utime(path, (time.time() - 61, time.time() - 61))
    web.write("127.0.0.1:9")
    check("old states are not shown", (os.path.exists(path), "Could not read" in web.run("status.cgi")), (False, True))
    for words in (("web1",), ("web1:x",), ("127.0.0.1:1",) * 100):
        check(f"the words {words[:2]}", web.write(*words)[0], 1)
    with open(os.path.join(web.examples, "nagios.cfg"), encoding="ascii") as file:
        check("nagios.cfg", len(file.readlines()), 6)


def main():
    program, examples, cgi = (os.path.abspath(word) for word in sys.argv[1:4])
    with tempfile.TemporaryDirectory() as folder:
        daemons = [Daemon(program, folder, OBJECTS) for _ in range(2)]
        operators = [f"{name}=127.0.0.1:{daemon.ports['operators']}" for name, daemon in zip(("east", "west"), daemons)]
        pages = [f"{name}=127.0.0.1:{daemon.ports['pages']}" for name, daemon in zip(("east", "west"), daemons)]
        web = Web(examples, cgi, folder, operators)
        web.gateways = pages
        try:
            show(web, *daemons)
            enter_commands(web, *daemons)
            name_ids(web, *daemons)
            meet_faults(web, pages[0])
        finally:
            web.bridge.send_signal(signal.SIGTERM)
            web.bridge.wait()
            for daemon in daemons:
                daemon.process.kill()
                daemon.end()
    end_tests()


main()
