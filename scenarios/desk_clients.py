"""What the tests of statusdesk share: the program, and requests of a browser after a proxy that names its user."""
import html
import http.client
import re
import socket
import subprocess
import threading
import time
import urllib.parse

from daemon_clients import TIME_LIMIT, free_port

HOST = "desk.example"
FORM = "application/x-www-form-urlencoded"


def hidden_fields(page):
    """The fields of a page's forms that nobody fills in: its token and number, and the object."""
    found = re.findall(r'name="(token|page|host|service)" value="([^"]*)"', page)
    return {name: html.unescape(value) for name, value in found}


def boxes(page):
    """The boxes of a page of many objects: the object of each, and its name."""
    return {html.unescape(value): name for name, value in re.findall(r'name="(mark\.\d+)" value="([^"]*)"', page)}


class Desk:
    """The program over these gateways: of each its name, and the numbers of its pages port and its operators' port. What it logs
    of a command is a list of the fields of its line."""

    def __init__(self, program, *gateways, users="ann,bob", words=(), environment=None, logs=True):
        words = [program, "--every", "1", "--host", HOST, "--users", users, *words]
        if "--listen" not in words:
            words += ["--listen", "127.0.0.1:0"]
        for name, pages, operators in gateways:
            words += ["--gateway", f"{name}=127.0.0.1:{pages}", "--operators", f"{name}=127.0.0.1:{operators}"]
        self.process = subprocess.Popen(words, env=environment, stdout=subprocess.PIPE, stderr=subprocess.PIPE)
        self.line = self.process.stdout.readline().decode()
        self.port = int(self.line.rpartition(":")[2])
        self.log = []
        if logs:
            threading.Thread(target=self.read_log, daemon=True).start()

    def read_log(self):
        for line in self.process.stdout:
            self.log.append(line.decode("utf-8").rstrip("\n").split("\t"))

    def __enter__(self):
        return self

    def __exit__(self, *_):
        self.process.kill()
        self.process.wait()

    def ask(self, method, path, fields=(), body=None):
        """The status, the header fields and the text of an answer to a request with these header fields."""
        with socket.create_connection(("127.0.0.1", self.port), TIME_LIMIT) as connection:
            connection.settimeout(TIME_LIMIT)
            lines = [f"{method} {path} HTTP/1.1", *(f"{name}: {value}" for name, value in fields)]
            if body is not None:
                lines.append(f"Content-Length: {len(body)}")
            connection.sendall("".join(line + "\r\n" for line in lines).encode("latin-1") + b"\r\n" + (body or b""))
            response = http.client.HTTPResponse(connection, method=method)
            response.begin()
            return response.status, response.headers, response.read().decode("utf-8", "replace")

    def page(self, named, user="ann"):
        query = named if isinstance(named, str) else "/object?" + urllib.parse.urlencode(named)
        return self.ask("GET", query, [("Host", HOST), ("X-Remote-User", user)])[2]

    def page_with(self, named, text, user="ann"):
        """The page of an object, or at a location, once it has this text; the last one after too long."""
        end = time.monotonic() + TIME_LIMIT
        page = self.page(named, user)
        while text not in page and time.monotonic() < end:
            time.sleep(0.05)
            page = self.page(named, user)
        return page

    def form(self, named, user="ann", **fields):
        """The fields of a form on a new page of the object, with these of a person."""
        return {**hidden_fields(self.page(named, user)), **fields}

    def marked(self, query, objects, user="ann", **fields):
        """The fields of the form on a new page of many objects, with these of them marked, and these of a person."""
        page = self.page("/marks" + query, user)
        marks = {boxes(page).get(one, f"mark.{1000 + number}"): one for number, one in enumerate(objects)}
        return {**hidden_fields(page), **marks, **fields}

    def post(self, form, user="ann", changed=(), dropped=(), body=None, method="POST", path="/command"):
        """The answer to a form, with some header fields changed, some added and some left out."""
        fields = [("Host", HOST), ("Origin", "https://" + HOST), ("Sec-Fetch-Site", "same-origin"), ("Content-Type", FORM),
                  ("X-Remote-User", user)]
        fields = [field for field in fields if field[0] not in dropped and field[0] not in dict(changed)] + list(changed)
        return self.ask(method, path, fields, urllib.parse.urlencode(form).encode() if body is None else body)
