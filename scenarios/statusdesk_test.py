"""Plays a browser after a proxy with statusdesk: python3 statusdesk_test.py DAEMON PROGRAM [SHIFT_CLOCK], the library of
shift_clock.c. Ends with a line 'N passed, M failed'."""
import concurrent.futures
import html
import os
import re
import socket
import subprocess
import sys
import tempfile
import time
import urllib.parse

from daemon_clients import CONFIGURATION, TIME_LIMIT, Daemon, ask, check, end_tests, free_port
from desk_clients import FORM, HOST, Desk, boxes
from played_gateways import Stuck, shows, takes

WEB1 = {"host": "web1", "service": ""}
DB1 = {"host": "db1", "service": ""}
HTTP = {"host": "web1", "service": "HTTP"}


def page_text(now):
    return (f"status {now}\nobject;web1;;UP;{now};fresh;-;0;up\nobject;web1;HTTP;CRITICAL;{now};fresh;-;0;no answer\n"
            f"object;db1;;UP;{now};fresh;-;0;up\ncomment;1;web1;;user;0;{now};ann;seen\n").encode()


def soon(found, seconds=TIME_LIMIT):
    """What this function returns, as soon as it is true, or else after these seconds."""
    end = time.monotonic() + seconds
    while not (value := found()) and time.monotonic() < end:
        time.sleep(0.02)
    return value


# Requests that fail a test: what, the status, and what is changed of a good one.
REFUSED = [
    ("GET", 405, {"method": "GET"}),
    ("HEAD", 405, {"method": "HEAD"}),
    ("PUT", 405, {"method": "PUT"}),
    ("DELETE", 405, {"method": "DELETE"}),
    ("a page of another site", 403, {"changed": [("Origin", "https://evil.example")]}),
    ("a page of another port", 403, {"changed": [("Origin", f"https://{HOST}:8443")]}),
    ("a page of no site", 403, {"changed": [("Origin", "null")]}),
    ("no Origin", 403, {"dropped": ["Origin"]}),
    ("two Origins", 403, {"changed": [("Origin", "https://" + HOST)] * 2}),
    ("another site's request", 403, {"changed": [("Sec-Fetch-Site", "cross-site")]}),
    ("a neighbour's request", 403, {"changed": [("Sec-Fetch-Site", "same-site")]}),
    ("nobody's request", 403, {"changed": [("Sec-Fetch-Site", "none")]}),
    ("a name that leads here", 421, {"changed": [("Host", "evil.example"), ("Origin", "https://evil.example")]}),
    ("an address", 421, {"changed": [("Host", "127.0.0.1"), ("Origin", "https://127.0.0.1")]}),
    ("a host that begins alike", 421, {"changed": [("Host", HOST + ".evil.example"), ("Origin", f"https://{HOST}.evil.example")]}),
    ("an address in brackets with more after it", 400, {"changed": [("Host", "[::1]evil"), ("Origin", "https://[::1]evil")]}),
    ("two Hosts", 400, {"changed": [("Host", HOST)] * 2}),
    ("no user", 403, {"dropped": ["X-Remote-User"]}),
    ("an empty user", 403, {"changed": [("X-Remote-User", "")]}),
    ("two users", 403, {"changed": [("X-Remote-User", "ann"), ("X-Remote-User", "bob")]}),
    ("one user twice", 403, {"changed": [("X-Remote-User", "ann")] * 2}),
    ("two users in one field", 403, {"changed": [("X-Remote-User", "ann, bob")]}),
    ("a user in a line that goes on", 400, {"changed": [("X-Remote-User", "ann\r\n bob")]}),
    ("a user with a blank before the colon", 400, {"changed": [("X-Remote-User", "ann"), ("X-Remote-User ", "bob")]}),
    ("a user who isn't on the list", 403, {"user": "carol"}),
    ("a user in other letters", 403, {"user": "Ann"}),
    ("the token of another user", 403, {"user": "bob"}),
    ("no token", 403, {"fields": {"token": ""}}),
    ("a token of another run", 403, {"fields": {"token": "0" * 64}}),
    ("a body that is no form", 415, {"changed": [("Content-Type", "text/plain")]}),
    ("a body of parts", 415, {"changed": [("Content-Type", "multipart/form-data; boundary=x")]}),
    ("a form of another charset", 415, {"changed": [("Content-Type", FORM + "; charset=latin1")]}),
    ("no type", 415, {"dropped": ["Content-Type"]}),
    ("two lengths", 400, {"changed": [("Content-Length", "5")]}),
    ("a length and pieces", 400, {"changed": [("Transfer-Encoding", "chunked")]}),
    ("another action", 400, {"fields": {"action": "shutdown"}}),
    ("no text", 400, {"fields": {"text": ""}}),
    ("a span that is none", 400, {"fields": {"action": "downtime", "for": "2w"}}),
    ("a setting that is none", 400, {"fields": {"action": "passive", "setting": "maybe"}}),
    ("an object that isn't shown", 404, {"fields": {"host": "web2"}}),
    ("a comment that isn't shown", 404, {"fields": {"action": "uncomment", "id": "9", "gateway": "east"}}),
    ("downtime that isn't shown", 404, {"fields": {"action": "cancel", "id": "1", "gateway": "east"}}),
    ("a gateway that there isn't", 404, {"fields": {"action": "uncomment", "id": "1", "gateway": "west"}}),
    ("a line's end", 409, {"fields": {"text": "x\n[1] SHUTDOWN_PROGRAM"}}),
    ("a carriage's return", 409, {"fields": {"text": "x\r\n"}}),
    ("a NUL", 409, {"fields": {"text": "x\0"}}),
    ("a text past a line", 409, {"fields": {"text": "x" * 9000}}),
    ("a host that has no problem", 409, {"named": WEB1, "fields": {"action": "acknowledge"}}),
    ("a field twice", 400, {"more": b"&text=y"}),
    ("a token twice", 400, {"more": b"&token=y"}),
    ("another encoding", 400, {"more": b"&more=gr%FCn"}),
    ("an overlong encoding", 400, {"more": b"&more=%C0%AF"}),
    ("half a surrogate", 400, {"more": b"&more=%ED%A0%80"}),
    ("a form of 16,385 bytes", 413, {"length": 16385}),
    ("a form of a megabyte", 413, {"length": 1 << 20}),
]

# Requests that pass each test, unlike those of a usual browser: what, and what is changed of one.
ADMITTED = [
    ("a port and other letters", {"changed": [("Host", "Desk.example:8443"), ("Origin", "https://Desk.example:8443")]}),
    ("an address in brackets", {"changed": [("Host", "[::1]:8443"), ("Origin", "https://[::1]:8443")]}),
    ("an old browser, and no TLS", {"changed": [("Origin", "http://" + HOST)], "dropped": ["Sec-Fetch-Site"]}),
    ("a form of 16,384 bytes", {"length": 16384}),
]

# Other requests: method, target, user, and the status.
ASKED = [
    ("GET", "/", "", 200), ("HEAD", "/", "", 200), ("POST", "/", "ann", 405), ("GET", "/nothing", "", 404),
    ("GET", "/style.css", "", 200), ("GET", "/status.json", "", 200), ("GET", "/metrics", "", 200), ("GET", "/changes", "", 200),
    ("GET", "/comments", "", 200), ("GET", "/downtime", "", 200),
    ("POST", "/object?host=web1", "ann", 405), ("GET", "/object?host=web1", "ann", 200), ("GET", "/object?host=web1", "", 403),
    ("GET", "/object?host=web1", "carol", 403), ("GET", "/object?host=web2", "ann", 404), ("GET", "/object?", "ann", 404),
    ("GET", "/command?action=comment&host=web1&text=x", "ann", 405),
    ("GET", "/object?host=web1&host=web1", "ann", 400), ("GET", "/object?host=gr%FCn", "ann", 400),
    ("GET", "/marks", "ann", 200), ("HEAD", "/marks", "ann", 200), ("GET", "/marks", "", 403), ("GET", "/marks", "carol", 403),
    ("POST", "/marks", "ann", 405), ("GET", "/marks?state=ok&state=ok", "ann", 400), ("GET", "/commands", "ann", 405)]


def play_refusals(program):
    """Requests that fail a test: each is refused with its status, and no line reaches the gateway. Others are sent."""
    port = takes()
    with Desk(program, ("east", shows(page_text(int(time.time()))).port, port.port), words=("--host", "[::1]")) as desk:
        desk.page_with(HTTP, "Acknowledge")

        def post(what, named=HTTP, fields=(), more=b"", length=0, **options):
            form = {**desk.form(named, action="comment", text=what), **dict(fields)}
            body = urllib.parse.urlencode(form).encode() + more
            return desk.post(form, body=body + b"&more=" + b"a" * (length - len(body) - 6) if length else body, **options)

        for what, status, options in REFUSED:
            found = post(what, **options)
            check(what, (found[0], port.lines, desk.log), (status, [], []))
            if status == 405:
                check(f"{what} is answered what is allowed", found[1]["Allow"], "POST")
        for method, target, user, status in ASKED:
            fields = [("Host", HOST)] + [("X-Remote-User", user)] * bool(user)
            check(f"{method} {target} for {user}", desk.ask(method, target, fields)[0], status)
        for what, status, options in REFUSED[:38]:
            form = {**desk.marked("", ["web1;HTTP"], action="comment", text=what), **dict(options.get("fields", ()))}
            options = {name: value for name, value in options.items() if name not in ("fields", "named")}
            found = desk.post(form, path="/commands", **options)
            check(f"for marks: {what}", (found[0], port.lines, desk.log), (status, [], []))
        check("a page of another name", desk.ask("GET", "/", [("Host", "evil.example")])[0], 421)
        check("a page after all of these", post("the good one")[0], 303)
        check("its line", soon(lambda: [line.partition(b" ")[2] for line in port.lines]),
              [b"ADD_SVC_COMMENT;web1;HTTP;0;ann;the good one\n"])
        for number, (what, options) in enumerate(ADMITTED, 2):
            check(what, post(what, **options)[0], 303)
            check(f"{what}: its line", soon(lambda number=number: commands_at(port)[number - 1:]), [f"ADD_SVC_COMMENT;web1;HTTP;0;ann;{what}"])


# Forms that the gateway would refuse, or that ask for no command: the object, the fields, the status, and the reason.
REASONS = [
    (WEB1, {"action": "acknowledge", "text": "x"}, 409, "web1: there is no problem to acknowledge"),
    (WEB1, {"action": "unacknowledge"}, 409, "web1: there is no acknowledgement to remove"),
    (HTTP, {"action": "downtime", "text": "x", "until": "1000"}, 409, "web1 HTTP: the downtime doesn't end after its start"),
    (HTTP, {"action": "downtime", "text": "x", "from": "900", "until": "1000"}, 409, "web1 HTTP: the downtime is over already"),
    (DB1, {"action": "downtime", "text": "x", "for": "2h", "services": "1"}, 409, "db1: the host has no services"),
    (HTTP, {"action": "comment", "text": "x" * 9000}, 409, "web1 HTTP: no line can hold the command"),
    (HTTP, {"action": "downtime", "text": "x", "for": "2h", "until": "4000000000"}, 400,
     "downtime ends after a span or at a moment: give one of them"),
    (HTTP, {"action": "downtime", "text": "x", "until": "noon"}, 400, "a time is as 2026-11-23T20:15 in UTC, or in seconds since 1970"),
    (HTTP, {"action": "downtime", "text": "x", "until": "2023-02-29T00:00"}, 400,
     "a time is as 2026-11-23T20:15 in UTC, or in seconds since 1970"),
    (HTTP, {"action": "passive", "setting": "maybe"}, 400, "passive checks are on or off"),
    (HTTP, {"action": "comment"}, 400, "the comment is missing"),
    (HTTP, {"action": "shutdown"}, 400, "the form names no action"),
]


def play_reasons(program):
    """What would be refused is named, and not sent."""
    port = takes()
    with Desk(program, ("east", shows(page_text(int(time.time()))).port, port.port)) as desk:
        desk.page_with(HTTP, "Acknowledge")
        for named, fields, status, reason in REASONS:
            found = desk.post(desk.form(named, **fields))
            notes = [html.unescape(note) for note in re.findall(r'<p class="alarm" role="alert">(.*)</p>', found[2])]
            check(f"{fields}", (found[0], notes), (status, ["east: not sent: " + reason]))
        time.sleep(0.5)
        check("nothing is sent", (port.lines, desk.log), ([], []))


# Texts of a person: each is the end of one line.
TEXTS = ["plain", "<script>alert(1)</script>", "\"' onload=x", "a;b;;c", "[1] SHUTDOWN_PROGRAM", "\\n\\x0a", "%0a&text=b+c",
         "\xe9\u4e2d", "\u2028", "\t|\x7f", "x" * 7000]


def play_lines(program):
    """Whatever the texts are, one line reaches the gateway: the command of the button, by the proxy's user."""
    port = takes()
    with Desk(program, ("east", shows(page_text(int(time.time()))).port, port.port)) as desk:
        desk.page_with(HTTP, "Acknowledge")
        for number, text in enumerate(TEXTS):
            status, fields, _ = desk.post(desk.form(HTTP, action="acknowledge", text=text, author="bob", sticky="1"))
            check(f"the answer to {text[:20]!r}", (status, str(fields["Location"]).split("&at=")[0]),
                  (303, "/object?host=web1&service=HTTP"))
            soon(lambda: len(port.lines) > number)
        check("the lines", [re.sub(rb"^\[\d+\]", b"[N]", line) for line in port.lines],
              [b"[N] ACKNOWLEDGE_SVC_PROBLEM;web1;HTTP;2;1;0;ann;" + text.encode() + b"\n" for text in TEXTS])
        soon(lambda: len(desk.log) >= len(TEXTS))
        check("each is five fields of the log", [(entry[1:3], entry[4:]) for entry in desk.log],
              [(["ann", "east"], ["queued 1"])] * len(TEXTS))


# What the page of the host below has, as its markup.
PARTS = [
    '<p class="state">&lt;east&gt;: DOWN <span class="badge stale">stale</span> <span class="badge">acknowledged, sticky</span> '
    '<span class="badge">downtime 1</span>, last result 5 min ago</p><pre>&lt;script&gt;</pre>',
    'name="host" value="&lt;b&gt;&quot;&#39;"><input type="hidden" name="service" value="">',
    "<li>&lt;i&gt;: &lt;/li&gt;&lt;form&gt;<form",
    'value="uncomment"><input type="hidden" name="gateway" value="&lt;east&gt;">'
    '<input type="hidden" name="id" value="1"><button>Delete comment</button></form></li>',
    "<li>&lt;u&gt;: &amp;amp;<form",
    'value="cancel"><input type="hidden" name="gateway" value="&lt;east&gt;">'
    '<input type="hidden" name="id" value="2"><button>Cancel downtime</button></form></li>',
    'value="acknowledge"><h2>Acknowledge</h2>',
    'value="passive"><h2>Passive checks</h2>',
]
FIELDS = ("token", "page", "host", "service", "action", "gateway", "id", "text", "sticky", "persistent", "for", "from", "until",
          "flexible", "services", "setting", "more")


def play_markup(program):
    """Names and texts of a page, of users and of answers are shown as texts."""
    now = int(time.time())
    page = (f"status {now}\nobject;<b>\"';;DOWN;{now - 300};stale;sticky;1;<script>\nobject;<b>\"';a b\\\\c;OK;{now};fresh;-;0;x\n"
            f"comment;1;<b>\"';;user;0;{now};<i>;</li><form>\ncomment;3;<b>\"';a b\\\\c;user;0;{now};me;of the service\n"
            f"downtime;2;<b>\"';;fixed;0;{now};{now + 9};0;{now};<u>;&amp;\n").encode()
    port = takes(b"full\n")
    with Desk(program, ("<east>", shows(page).port, port.port), users="<s>ann</s>", words=("--title", "<q>")) as desk:
        named, user = {"host": "<b>\"'", "service": ""}, "<s>ann</s>"
        plain = re.findall(r"<form", desk.page_with(named, "Acknowledge", user))
        status, fields, _ = desk.post(desk.form(named, user, action="comment", text="<script>1</script>"), user)
        check("a queue that is full is found out later", status, 303)
        text = desk.page_with(fields["Location"], "the queue is full", user)
        check("the answer is shown as a text", re.findall(r"<p class=\"alarm\" role=\"alert\">(.*)</p>", text),
              ["&lt;east&gt;: not queued: &lt;b&gt;&quot;&#39;: the queue is full"])
        check("no markup but the program's own", re.findall(r"</?(?:b|i|u|s|q|script|east)\b", text), [])
        check("the title and the user", [one in text for one in ("&lt;q&gt;", "&lt;s&gt;ann&lt;/s&gt;")], [True] * 2)
        check("the state, the texts and the forms", [part for part in PARTS if part not in text], [])
        service = {"host": "<b>\"'", "service": "a b\\\\c"}
        check("a host's page has no comment of its service, and the other way around",
              [[part in desk.page_with(one, "Acknowledge", user) for part in ('name="id" value="1"', 'name="id" value="3"')]
               for one in (named, service)], [[True, False], [False, True]])
        desk.post(desk.form(service, user, action="comment", text="one"), user)
        check("a name without the escapes of its page", soon(lambda: commands_at(port)[1:]), ["ADD_SVC_COMMENT;<b>\"';a b\\c;0;<s>ann</s>;one"])
        desk.post(desk.marked("", ["<b>\"';a b\\\\c"], user, action="comment", text="two"), user, path="/commands")
        check("a mark likewise", soon(lambda: commands_at(port)[2:]), ["ADD_SVC_COMMENT;<b>\"';a b\\c;0;<s>ann</s>;two"])
        _, fields, _ = desk.ask("GET", "/object?" + urllib.parse.urlencode(named), [("Host", HOST), ("X-Remote-User", user)])
        check("no script runs, and only its own forms are sent", fields["Content-Security-Policy"],
              "default-src 'none'; style-src 'self'; form-action 'self'; base-uri 'none'; frame-ancestors 'none'")
        check("its forms: a comment, downtime, and five for the object", len(plain), 7)
        for field in FIELDS:
            form = desk.form(named, user, action="downtime", text="x", **{"for": "2h"})
            status, _, text = desk.post({**form, field: "<script>1</script>"}, user)
            check(f"markup in {field}", (status in (303, 400, 403, 404, 409), "<script" in text), (True, False))


# Each form over a daemon: what, its object and fields, its command, and what the daemon's page shows of it then.
FORMS = [
    ("an acknowledgement", HTTP, {"action": "acknowledge", "text": "on it; 100%", "sticky": "1", "persistent": "1"},
     "ACKNOWLEDGE_SVC_PROBLEM;web1;HTTP;2;1;1;ann;on it; 100%", r"^object;web1;HTTP;CRITICAL;\d+;fresh;sticky;0;"),
    ("its end", HTTP, {"action": "unacknowledge"}, "REMOVE_SVC_ACKNOWLEDGEMENT;web1;HTTP",
     r"^object;web1;HTTP;CRITICAL;\d+;fresh;-;0;"),
    ("a normal acknowledgement", HTTP, {"action": "acknowledge", "text": "me"}, "ACKNOWLEDGE_SVC_PROBLEM;web1;HTTP;1;1;0;ann;me",
     r"^object;web1;HTTP;CRITICAL;\d+;fresh;normal;0;"),
    ("an acknowledgement of the host", WEB1, {"action": "acknowledge", "text": "me too"},
     "ACKNOWLEDGE_HOST_PROBLEM;web1;1;1;0;ann;me too", r"^object;web1;;DOWN;\d+;fresh;normal;0;"),
    ("its end, of the host", WEB1, {"action": "unacknowledge"}, "REMOVE_HOST_ACKNOWLEDGEMENT;web1", r"^object;web1;;DOWN;\d+;fresh;-;0;"),
    ("a comment", HTTP, {"action": "comment", "text": "<b>seen"}, "ADD_SVC_COMMENT;web1;HTTP;0;ann;<b>seen",
     r"^comment;\d+;web1;HTTP;user;0;\d+;ann;<b>seen$"),
    ("its deletion", HTTP, {"action": "uncomment", "id": r"^comment;(\d+);.*<b>seen$"}, "DEL_SVC_COMMENT;ID", None),
    ("a comment of the host that stays", WEB1, {"action": "comment", "text": "rack 4", "persistent": "1"},
     "ADD_HOST_COMMENT;web1;1;ann;rack 4", r"^comment;\d+;web1;;user;1;\d+;ann;rack 4$"),
    ("half an hour of downtime", HTTP, {"action": "downtime", "text": "half", "for": "30m"},
     "SCHEDULE_SVC_DOWNTIME;web1;HTTP;N;+1800;1;0;0;ann;half", r"^downtime;\d+;web1;HTTP;fixed;.*;ann;half$"),
    ("two hours of downtime", WEB1, {"action": "downtime", "text": "two", "for": "2h"},
     "SCHEDULE_HOST_DOWNTIME;web1;N;+7200;1;0;0;ann;two", r"^downtime;\d+;web1;;fixed;.*;ann;two$"),
    ("its end", WEB1, {"action": "cancel", "id": r"^downtime;(\d+);.*;two$"}, "DEL_HOST_DOWNTIME;ID", None),
    ("a day for each service", WEB1, {"action": "downtime", "text": "day", "for": "1d", "services": "1"},
     "SCHEDULE_HOST_SVC_DOWNTIME;web1;N;+86400;1;0;0;ann;day", r"^downtime;\d+;web1;HTTP;fixed;.*;ann;day$"),
    ("from and until", HTTP, {"action": "downtime", "text": "later", "for": "", "from": "4000000000", "until": "4000000600"},
     "SCHEDULE_SVC_DOWNTIME;web1;HTTP;4000000000;4000000600;1;0;0;ann;later",
     r"^downtime;\d+;web1;HTTP;fixed;0;4000000000;4000000600;.*;later$"),
    # The seconds of the dates are those of GNU date.
    ("from and until as dates", HTTP, {"action": "downtime", "text": "dates", "from": "2024-02-29T23:59", "until": "2106-02-07T06:28"},
     "SCHEDULE_SVC_DOWNTIME;web1;HTTP;1709251140;4294967280;1;0;0;ann;dates",
     r"^downtime;\d+;web1;HTTP;fixed;0;1709251140;4294967280;.*;dates$"),
    ("flexible downtime", HTTP, {"action": "downtime", "text": "flex", "for": "2h", "flexible": "90m"},
     "SCHEDULE_SVC_DOWNTIME;web1;HTTP;N;+7200;0;0;5400;ann;flex", r"^downtime;\d+;web1;HTTP;flexible;.*;flex$"),
    ("flexible downtime for each service", WEB1, {"action": "downtime", "text": "all", "for": "1d", "flexible": "30m", "services": "on"},
     "SCHEDULE_HOST_SVC_DOWNTIME;web1;N;+86400;0;0;1800;ann;all", r"^downtime;\d+;web1;HTTP;flexible;.*;all$"),
    ("passive checks of the host off", WEB1, {"action": "passive", "setting": "off"}, "DISABLE_PASSIVE_HOST_CHECKS;web1", None),
    ("passive checks off", HTTP, {"action": "passive", "setting": "off"}, "DISABLE_PASSIVE_SVC_CHECKS;web1;HTTP", None),
    ("passive checks on", HTTP, {"action": "passive", "setting": "on"}, "ENABLE_PASSIVE_SVC_CHECKS;web1;HTTP", None),
]


def command_in(line, identity):
    """A line of the log as the table has it: without its moment, with spans for later moments, and without the id."""
    command = re.sub(r"^\[(\d+)\] ", "", line)
    window = re.search(r";(1\d{9});(1\d{9});", command)
    if window:
        command = command.replace(window[0], f";N;+{int(window[2]) - int(window[1])};")
    return re.sub(rf";{identity}$", ";ID", command) if identity else command


def play_commands(daemon_program, program, folder):
    """Each form over a daemon: the next page names the outcome, and the daemon's page shows what the form asked for."""
    daemon = Daemon(daemon_program, folder, CONFIGURATION)
    with Desk(program, ("east", daemon.ports["pages"], daemon.ports["operators"])) as desk:
        ask(daemon, "[1] PROCESS_SERVICE_CHECK_RESULT;web1;HTTP;2;no answer", "[1] PROCESS_HOST_CHECK_RESULT;web1;1;down")
        desk.page_with(WEB1, "DOWN")
        for number, (what, named, fields, command, shown) in enumerate(FORMS):
            identity = None
            if "id" in fields:
                identity = re.search(fields["id"], daemon.page(), re.M)[1]
                fields = {**fields, "id": identity, "gateway": "east"}
                soon(lambda: f'name="id" value="{identity}"' in desk.page(named))
            status, headers, _ = desk.post(desk.form(named, **fields))
            check(f"{what}: the answer", (status, str(headers["Location"]).split("&at=")[0]),
                  (303, "/object?" + urllib.parse.urlencode(named)))
            next_page = desk.page_with(headers["Location"], ": queued ")
            check(f"{what}: the next page", re.search(r'<p class="soft" role="status">east: queued \d+', next_page) is not None, True)
            soon(lambda: len(desk.log) > number)
            _, user, gateway, line, answer = desk.log[-1]
            check(f"{what}: its line in the log", (user, gateway, command_in(line, identity), answer[:7]),
                  ("ann", "east", command, "queued "))
            if shown:
                check(f"{what}: the daemon's page", soon(lambda: re.search(shown, daemon.page(), re.M)) is not None, True)
            if identity:
                entry = rf"^(comment|downtime);{identity};.*(seen|two)$"
                check(f"{what}: it is gone", soon(lambda entry=entry: not re.search(entry, daemon.page(), re.M)), True)
            if shown or identity:
                soon(lambda: "may be from before" not in desk.page(headers["Location"]))
    ask(daemon, "[1] SHUTDOWN_PROGRAM")
    _, output, _ = daemon.end()
    check("the gateway accepted each", output.count("-> Accepted"), len(FORMS) + 2)


def alarms(page):
    """What a page says that failed, and what it says that is under way or done."""
    return [sorted(html.unescape(note) for note in re.findall(f'<p class="{kind}" role="{role}">(.*)</p>', page))
            for kind, role in (("alarm", "alert"), ("soft", "status"))]


def commands_at(port):
    """The commands that came to a port, without their moments, in order."""
    return [command_in(line.decode().rstrip("\n"), None) for line in port.lines]


# Forms of marks for which nothing is sent: the objects that are marked, the fields, the status, and what the page says.
UNSENT = [
    ([], {"action": "comment", "text": "x"}, 400, ["the form marks no object"]),
    ([f"web{number};" for number in range(257)], {"action": "comment", "text": "x"}, 400, ["the form marks more than 256 objects"]),
    (["web1;HTTP"], {"action": "comment", "text": ""}, 400, ["east: web1 HTTP: not sent: the comment is missing",
                                                            "west: web1 HTTP: not sent: the comment is missing"]),
    (["db1;"], {"action": "shutdown", "text": "x"}, 400, ["east: db1: not sent: the form names no action",
                                                           "west: db1: not sent: the form names no action"]),
    (["web9;", "mail1;HTTP"], {"action": "comment", "text": "x"}, 404, ["mail1 HTTP: not sent: no gateway shows it",
                                                                       "web9: not sent: no gateway shows it"]),
    (["mail1;"], {"action": "uncomment", "id": "1"}, 404, ["mail1: not sent: no gateway shows it"]),
    (["<script>;\"'"], {"action": "comment", "text": "x"}, 404, ["<script> \"': not sent: no gateway shows it"]),
    (["mail1;"], {"action": "comment", "text": "x\n[1] SHUTDOWN_PROGRAM"}, 409, ["west: mail1: not sent: mail1: no line can hold the command"]),
]


def play_marks(program):
    """A form for several objects sends what the form for each of them would, and names what is not sent."""
    now = int(time.time())
    pages = [f"status {now}\nobject;web1;;UP;{now};fresh;-;0;up\nobject;web1;HTTP;CRITICAL;{now};fresh;-;0;<no> answer\n"
             f"object;web1;SSH;WARNING;{now};fresh;-;0;slow\nobject;db1;;DOWN;{now};fresh;-;0;gone\n",
             f"status {now}\nobject;web1;;UP;{now};fresh;-;0;up\nobject;web1;HTTP;CRITICAL;{now};fresh;-;0;no answer\n"
             f"object;mail1;;DOWN;{now};fresh;-;0;gone\n"]
    east, west = takes(b"queued 3\n"), takes(b"queued 4\n")
    ports = [("east", shows(pages[0].encode()).port, east.port), ("west", shows(pages[1].encode()).port, west.port)]
    with Desk(program, *ports) as desk:
        page = desk.page_with("/marks", "5 of 5 objects, the worst first")
        check("the worst first", [*boxes(page)], ["web1;HTTP", "db1;", "mail1;", "web1;SSH", "web1;"])
        check("problems alone", [*boxes(desk.page("/marks?state=warning"))], ["web1;SSH"])
        check("its words stay in the form", re.findall('action="([^"]*)"', desk.page("/marks?at=5&state=ok&host=a%26b")),
              ["/commands?state=ok&amp;host=a%26b"])
        check("each has a link to its page", "/object?host=web1&amp;service=HTTP" in page and "&lt;no&gt; answer" in page, True)
        check("the object's page has one to many", 'href="/marks"' in desk.page(HTTP), True)
        for objects, fields, status, said in UNSENT:
            found = desk.post(desk.marked("", objects, **fields), path="/commands")
            check(f"{objects[:2]} {fields}", (found[0], alarms(found[2]), "<script" in found[2]), (status, [said, []], False))
        form = desk.marked("", ["db1;"], action="comment", text="x")
        for more in ("&mark.1=web1%3B", "&token=x", "&text=y"):
            found = desk.post(form, path="/commands", body=urllib.parse.urlencode({**form, "mark.1": "web1;"}).encode() + more.encode())
            check(f"a field twice: {more}", found[0], 400)
        check("nothing is sent", (east.lines, west.lines, desk.log), ([], [], []))

        form = desk.marked("?state=problems", ["db1;", "web1;", "web9;", "web1;HTTP"], action="acknowledge", text="on it", sticky="1",
                           host="db1", service="x", author="bob")
        status, _, text = desk.post(form, path="/commands?state=problems")
        check("what would be refused is named, and the others are sent", (status, alarms(text)), (409, [
            ["east: web1: not sent: web1: there is no problem to acknowledge", "web9: not sent: no gateway shows it",
             "west: web1: not sent: web1: there is no problem to acknowledge"],
            ["east: db1: being sent", "east: web1 HTTP: being sent", "west: web1 HTTP: being sent"]]))
        check("they come in order", soon(lambda: len(east.lines) == 2 and len(west.lines) == 1), True)
        check("their commands", (commands_at(east), commands_at(west)), (
            ["ACKNOWLEDGE_HOST_PROBLEM;db1;2;1;0;ann;on it", "ACKNOWLEDGE_SVC_PROBLEM;web1;HTTP;2;1;0;ann;on it"],
            ["ACKNOWLEDGE_SVC_PROBLEM;web1;HTTP;2;1;0;ann;on it"]))
        desk.page_with("/marks", "east: web1 HTTP: queued 3")
        page = desk.page_with("/marks", "west: web1 HTTP: queued 4")
        check("what came of them", sorted(note.partition(";")[0] for note in alarms(page)[1]),
              ["east: db1: queued 3", "east: web1 HTTP: queued 3", "west: web1 HTTP: queued 4"])
        check("nobody else sees it", alarms(desk.page("/marks", "bob")), [[], []])

        time.sleep(1.1)
        form = desk.marked("?state=problems", ["mail1;", "web1;SSH"], action="downtime", text="two hours", **{"for": "2h"})
        status, fields, _ = desk.post(form, path="/commands?state=problems")
        location = str(fields["Location"])
        check("downtime for two", (status, re.sub(r"\d+", "N", location)), (303, "/marks?at=N&state=problems"))
        check("they come", soon(lambda: len(east.lines) == 3 and len(west.lines) == 2), True)
        check("its commands", (commands_at(east)[2:], commands_at(west)[1:]), (
            ["SCHEDULE_SVC_DOWNTIME;web1;SSH;N;+7200;1;0;0;ann;two hours"], ["SCHEDULE_HOST_DOWNTIME;mail1;N;+7200;1;0;0;ann;two hours"]))
        found = [[], ["east: web1 SSH: queued 3", "west: mail1: queued 4"]]
        check("until a page is newer, the page loads itself again", soon(lambda: alarms(desk.page(location)) == found), True)
        page = desk.page(location)
        check("the orders of that moment", (alarms(page), "http-equiv" in page), (found, False))
        status, fields, _ = desk.post(form, path="/commands?state=problems")
        check("a form that comes again", (status, fields["Location"]), (303, "/marks?state=problems"))
        desk.post(desk.marked("", ["web1;HTTP"], action="comment", text="one", gateway="west"), path="/commands")
        check("one gateway's alone", soon(lambda: len(west.lines) == 3 and len(desk.log) == 6), True)
        check("no more came", (len(east.lines), len(west.lines), len(desk.log)), (3, 3, 6))
    rows = "".join(f"object;h{number};;DOWN;{now};fresh;-;0;x\n" for number in range(300))
    with Desk(program, ("east", shows(f"status {now}\n{rows}".encode()).port, east.port)) as desk:
        page = desk.page_with("/marks", "256 of 300 objects")
        status, _, _ = desk.post(desk.marked("", [*boxes(page)], action="comment", text="all"), path="/commands")
        check("all of a page", (status, soon(lambda: len(east.lines) == 259)), (303, True))


def play_slow_gateways(program):
    """A gateway that is slow, stuck or gone is named within four seconds, and costs the others nothing."""
    now = int(time.time())
    fast, slow, stuck = takes(b"queued 7\n"), takes(b"queued 8\n", seconds=9), Stuck()
    ports = {"fast": fast.port, "slow": slow.port, "stuck": stuck.port, "gone": free_port()}
    with Desk(program, *[(name, shows(page_text(now)).port, port) for name, port in ports.items()],
              ("other", shows(b"status %d\n" % now).port, takes().port)) as desk:
        desk.page_with(HTTP, "gone: ")
        form = desk.form(HTTP, action="comment", text="x")
        began = time.monotonic()
        status, fields, _ = desk.post(form)
        check("a form is answered at once", (status, time.monotonic() - began < 1), (303, True))
        page = desk.page(fields["Location"])
        asked = [re.search(f'role="(?:alert|status)">{name}: ', page) is not None for name in (*ports, "other")]
        check("the gateways that show the object are asked", asked, [True] * 4 + [False])
        check("what is under way is named", ["slow: being sent" in page, "stuck: being sent" in page], [True, True])
        check("the page loads itself again", '<meta http-equiv="refresh" content="2">' in page, True)
        for number in range(20):
            desk.post({**form, "text": f"more {number}", "gateway": "fast"})
        check("the fast one has 20 more at once", soon(lambda: len(fast.lines) == 21, 1), True)
        page = desk.page_with(fields["Location"], "stuck: not sent")
        check("four seconds, and no longer", 3.5 < time.monotonic() - began < 6, True)
        page = desk.page_with(fields["Location"], "slow: web1 HTTP: no answer came in time")
        check("what became of it at each", ["fast: queued 7" in page, "gone: not sent: " in page, "stuck: not sent: " in page,
                                            "slow: web1 HTTP: no answer came in time" in page], [True] * 4)
        check("each once", (len(slow.lines), [line.count(b";x\n") for line in slow.lines]), (1, [1]))
        soon(lambda: len(desk.log) == 24)
        logged = sorted(entry[2] for entry in desk.log if entry[3].endswith(";x"))
        check("the log has what was sent, and what could not be", logged, ["fast", "gone", "slow", "stuck"])


def play_full_queue(program):
    """Of 1,100 commands for a gateway that is stuck 1,024 wait; the others are refused. Another gateway has all of its own."""
    good, stuck = takes(), Stuck()
    with Desk(program, ("good", shows(page_text(int(time.time()))).port, good.port),
              ("stuck", shows(page_text(int(time.time()))).port, stuck.port)) as desk:
        desk.page_with(HTTP, "stuck: ")
        form = desk.form(HTTP, action="comment")

        def post(number, gateway):
            return desk.post({**form, "text": str(number), "gateway": gateway})
        began = time.monotonic()
        with concurrent.futures.ThreadPoolExecutor(16) as pool:
            answers = [*pool.map(lambda number: post(number, "stuck"), range(1100))]
            refused = [answer for answer in answers if answer[0] != 303]
            check("more than 1,024 don't wait", (0 < len(refused) < 77, {answer[0] for answer in refused}), (True, {503}))
            check("why", {"stuck: not sent: 1024 commands wait for this gateway" in answer[2] for answer in refused}, {True})
            answers = [*pool.map(lambda number: post(number, "good"), range(400))]
        took = time.monotonic() - began
        print(f"1,500 commands took {took:.1f} s beside a stuck gateway")
        check("another gateway takes 400", {answer[0] for answer in answers}, {303})
        check("it gets them", soon(lambda: len(good.lines) == 400), True)
        late = "stuck: not sent: it waited for 30 seconds"
        check("what waits for 30 seconds isn't sent", soon(lambda: late in desk.page(HTTP), 60), True)


def play_double_clicks(program):
    """The same form is sent once, however often and however fast it comes; a new page's form is another."""
    port = takes()
    with Desk(program, ("east", shows(page_text(int(time.time()))).port, port.port)) as desk:
        desk.page_with(HTTP, "Acknowledge")
        form = desk.form(HTTP, action="comment", text="once")
        with concurrent.futures.ThreadPoolExecutor(16) as pool:
            answers = [future.result()[:2] for future in [pool.submit(desk.post, form) for _ in range(32)]]
        check("a form that comes 32 times", {(status, str(fields["Location"]).split("&at=")[0]) for status, fields in answers},
              {(303, "/object?host=web1&service=HTTP")})
        desk.post(desk.form(HTTP, action="comment", text="once"))
        check("the form of another page is sent", soon(lambda: len(port.lines) >= 2), True)
        time.sleep(0.5)
        check("each once", len(port.lines), 2)


def play_hours(program, library, folder):
    """A token is of its hour and the next, and a form is sent again only after ten minutes."""
    shift, port = os.path.join(folder, "shift"), takes()

    def move_to(seconds):
        with open(shift + ".new", "w", encoding="ascii") as file:
            file.write(str(seconds))
        os.replace(shift + ".new", shift)
    at_half = 1800 - int(time.time()) % 3600
    move_to(at_half)
    with Desk(program, ("east", shows(page_text(int(time.time()))).port, port.port),
              environment={**os.environ, "LD_PRELOAD": library, "CLOCK_SHIFT": shift}) as desk:
        desk.page_with(HTTP, "Acknowledge")
        form = desk.form(HTTP, action="comment", text="once")
        for after, status, lines in ((0, 303, 1), (590, 303, 1), (605, 303, 2), (3600, 303, 3), (7200, 403, 3)):
            move_to(at_half + after)
            answer = desk.post(form)
            check(f"a form {after} s later", (answer[0], soon(lambda lines=lines: len(port.lines) == lines, 1)), (status, True))


def play_lost_log(program):
    """A command is sent where its line can't be logged, too."""
    port = takes()
    with Desk(program, ("east", shows(page_text(int(time.time()))).port, port.port), logs=False) as desk:
        desk.page_with(HTTP, "Acknowledge")
        desk.process.stdout.close()
        for text in ("one", "two"):
            desk.post(desk.form(HTTP, action="comment", text=text))
        check("both are sent", soon(lambda: len(port.lines) == 2), True)
        check("it serves", ("Acknowledge" in desk.page(HTTP), desk.process.poll()), (True, None))


def play_words(program):
    """Where it listens, and its options; scenarios/package_test has how it reports each bad value."""
    good = ["--gateway", "east=127.0.0.1:1", "--operators", "east=127.0.0.1:2", "--users", "ann"]

    def run(*words):
        ran = subprocess.run([program, *words], capture_output=True, timeout=TIME_LIMIT, check=False)
        return ran.returncode, ran.stdout.decode(), ran.stderr.decode()
    for address in ("0.0.0.0:0", "[::]:0", "192.0.2.1:0", "128.0.0.1:0", "[2001:db8::1]:0", "[::ffff:192.0.2.1]:0"):
        line = "statusdesk: --listen: not an address of loopback\n"
        check(f"--listen {address}", run("--listen", address, *good), (2, "", line))
    status, text, errors = run("--help")
    options = "--listen --gateway --operators --host --user-header --users --title --refresh --every"
    check("help", (status, " ".join(re.findall(r"^ +(--[a-z-]+)", text, re.M)), errors), (0, options, ""))
    with socket.create_server(("127.0.0.1", 0)) as taken:
        address = f"127.0.0.1:{taken.getsockname()[1]}"
        check("an address that is taken", run("--listen", address, *good), (4, "", f"statusdesk: bind {address}\n"))
    with Desk(program, ("east", 1, 1), words=("--listen", "127.9.9.9:0")) as desk:
        check("another address of loopback", desk.line.rpartition(":")[0], "listening 127.9.9.9")
    with Desk(program, ("east", shows(page_text(int(time.time()))).port, 1), words=("--user-header", "Remote-Name")) as desk:
        for name, status in (("Remote-Name", 200), ("remote-name", 200), ("X-Remote-User", 403)):
            answer = desk.ask("GET", "/object?host=web1", [("Host", HOST), (name, "ann")])
            check(f"the user in {name}", answer[0], status)


def main():
    daemon, program, library = (*sys.argv[1:], None)[:3]
    with tempfile.TemporaryDirectory() as folder:
        for play in (play_words, play_refusals, play_reasons, play_lines, play_markup, play_marks, play_slow_gateways, play_double_clicks,
                     play_lost_log):
            play(program)
        play_commands(daemon, program, folder)
        if library:
            play_hours(program, library, folder)
        else:
            print("the hours of a token ... skipped: cc is not installed")
        play_full_queue(program)
    end_tests()


main()
