"""Works statusdesk's pages in Chromium: python3 statusdesk_browser_test.py DAEMON PROGRAM. Ends with a line 'N passed, M
failed'."""
import json
import os
import re
import sys
import tempfile
import time

import browser
from daemon_clients import CONFIGURATION, TIME_LIMIT, Daemon, ask, check, end_tests, free_port
from desk_clients import HOST, Desk
from played_gateways import Port

LINK = 'a[href$="/object?host=web1&service=HTTP"]'
# What is done on the page of web1 HTTP: its action, what is filled in, and what each daemon's page shows then, or no longer.
STEPS = [
    ("acknowledge", {"text": "TEXT", "sticky": True}, r"^comment;\d+;web1;HTTP;ack;\d;\d+;ann;TEXT$"),
    ("comment", {"text": "TEXT"}, r"^comment;\d+;web1;HTTP;user;1;\d+;ann;TEXT$"),
    ("downtime", {"text": "TEXT"}, r"^downtime;\d+;web1;HTTP;fixed;0;(\d+);(\d+);.*;ann;TEXT$"),
    ("cancel", {}, r"^downtime;\d+;web1;HTTP;fixed;"),
]
LURE = """HTTP/1.1 200 OK\r\ncontent-type: text/html\r\nconnection: close\r\n\r\n<!doctype html><body>
<form method="post" action="{url}command">{fields}<button>Win</button></form>"""


class Keys:
    """Works a page by keys alone."""

    def __init__(self, page):
        self.page = page

    def go(self, selector):
        found = self.page.tab_to(selector)
        self.page.press("Enter")
        return found

    def fill(self, selector, value):
        found = self.page.tab_to(selector)
        if value is True:
            self.page.press(" ")
        else:
            self.page.write(value)
        return found


class Mouse:
    """Works a page by the mouse, but for its texts."""

    def __init__(self, page):
        self.page = page

    def go(self, selector):
        return self.page.click(selector)

    def fill(self, selector, value):
        found = self.page.click(selector)
        if value is not True:
            self.page.write(value)
        return found


def soon(daemon, pattern, is_there=True):
    """What the daemon's page shows of a pattern, once it does, or doesn't any more."""
    end = time.monotonic() + TIME_LIMIT
    while bool(found := re.search(pattern, daemon.page(), re.M)) != is_there and time.monotonic() < end:
        time.sleep(0.05)
    return found


def send(page, url, hand, name, action, fields):
    """Goes from the list to the object, fills in a form and sends it, and waits until the page names the outcome, and where
    an entry comes or goes, until it loads itself with that."""
    form = f"form:has([name=action][value={action}])"
    check(f"{name}: the list", page.open(url) and page.until(f"!!document.querySelector('{LINK}')"), True)
    check(f"{name}: the object", hand.go(LINK) and page.until(f"!!document.querySelector('{form}')"), True)
    for field, value in fields.items():
        check(f"{name}: {field}", hand.fill(f"{form} [name={field}]", name if value == "TEXT" else value), True)
    check(f"{name}: the button", hand.go(f"{form} button"), True)
    check(f"{name}: its outcome", page.until("location.search.includes('&at=')") and page.has(": queued "), True)
    if action in ("downtime", "cancel"):
        check(f"{name}: the page after it", page.until("!/before it|being sent/.test(document.body.innerText)"), True)


def work(page, url, hand, daemons):
    """Each step over these daemons; each of them has an entry of downtime of its own."""
    for action, fields, shown in STEPS:
        name = f"{action} by {type(hand).__name__} at {len(daemons)}"
        for _ in daemons if action == "cancel" else "1":
            send(page, url, hand, name, action, fields)
        for daemon in daemons:
            found = soon(daemon, shown.replace("TEXT", name), action != "cancel")
            check(f"{name}: the daemon's page", bool(found), action != "cancel")
            check(f"{name}: sticky", ";CRITICAL;" not in daemon.page() or ";fresh;sticky;" in daemon.page(), True)
            if action == "downtime" and found:
                check(f"{name}: two hours", int(found[2]) - int(found[1]), 7200)


def shows_after(desk, moment):
    """Whether statusdesk shows a page of each daemon from after this moment: it fetches them now and then."""
    end = time.monotonic() + TIME_LIMIT
    found = []
    while not (found and all(gateway["moment"] and gateway["moment"] > moment for gateway in found)) and time.monotonic() < end:
        time.sleep(0.2)
        found = json.loads(desk.ask("GET", "/status.json", [("Host", HOST), ("X-Remote-User", "ann")])[2])["gateways"]
    return all(gateway["moment"] > moment for gateway in found)


def mark(page, desk, url, hand, daemons):
    """Marks the host and its service on the page of many objects, and acknowledges both at once."""
    name = f"marks by {type(hand).__name__} at {len(daemons)}"
    for daemon in daemons:
        ask(daemon, "[1] PROCESS_HOST_CHECK_RESULT;web1;1;down")
        soon(daemon, "^object;web1;;DOWN;")
    check(f"{name}: the daemons' pages", shows_after(desk, int(time.time())), True)
    check(f"{name}: the page", page.open(url + "marks?state=problems") and
          page.until("document.querySelectorAll('[name^=mark]').length == 2"), True)
    for field, value in (("text", name), ("mark.0", True), ("mark.1", True)):
        check(f"{name}: {field}", hand.fill(f"[name='{field}']", value), True)
    check(f"{name}: the button", hand.go("button[value=acknowledge]"), True)
    check(f"{name}: the outcome", page.until("location.search.startsWith('?at=')") and page.has("web1 HTTP: queued "), True)
    check(f"{name}: the page after it", page.until("!/before it|being sent/.test(document.body.innerText)"), True)
    for daemon in daemons:
        for row in ("", "HTTP"):
            check(f"{name}: {row}", bool(soon(daemon, rf"^comment;\d+;web1;{row};ack;\d;\d+;ann;{name}$")), True)


def be_lured(page, url, daemons):
    """Another site's page posts a form with all that one of ann's has: Chromium sends its origin, and nothing is sent on."""
    page.open(url + "object?host=web1&service=HTTP")
    hidden = page.value("JSON.stringify([...document.forms[0].elements].map(e => [e.name, e.value]))")
    fields = {**dict(json.loads(hidden)), "action": "comment", "text": "lured"}
    form = "".join(f'<input type="hidden" name="{name}" value="{value}">' for name, value in fields.items() if name)
    site = Port(lambda connection: connection.recv(65536) and connection.sendall(LURE.format(url=url, fields=form).encode()))
    check("the other site", page.open(f"http://evil.example:{site.port}/") and page.click("button"), True)
    check("its form is refused", page.has("403"), True)
    check("nothing is sent on", ["lured" in daemon.page() for daemon in daemons], [False] * len(daemons))


def play(daemon_program, program, folder):
    daemons = []
    for name in ("east", "west"):
        os.mkdir(f"{folder}/{name}")
        daemons.append(Daemon(daemon_program, f"{folder}/{name}", CONFIGURATION))
        ask(daemons[-1], "[1] PROCESS_SERVICE_CHECK_RESULT;web1;HTTP;2;no answer")
        soon(daemons[-1], ";CRITICAL;")
    gateways = [(name, daemon.ports["pages"], daemon.ports["operators"]) for name, daemon in zip(("east", "west"), daemons)]
    with browser.Browser(folder, {"X-Remote-User": "ann"}, [HOST, "evil.example"]) as page:
        for count in (1, 2):
            port = free_port()
            url = f"http://{HOST}:{port}/"
            words = ("--listen", f"127.0.0.1:{port}", "--host", f"{HOST}:{port}")
            with Desk(program, *gateways[:count], words=words) as desk:
                for hand in (Keys(page), Mouse(page)):
                    work(page, url, hand, daemons[:count])
                    mark(page, desk, url, hand, daemons[:count])
                be_lured(page, url, daemons[:count])
    for daemon in daemons:
        ask(daemon, "[1] SHUTDOWN_PROGRAM")
        daemon.end()


def main():
    if browser.PROGRAM:
        with tempfile.TemporaryDirectory() as folder:
            play(*sys.argv[1:], folder)
    else:
        print("statusdesk in a browser ... skipped: chromium is not installed")
    end_tests()


main()
