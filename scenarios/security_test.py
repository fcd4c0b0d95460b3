"""A gateway after stunnel, sshd and nginx, with the files of examples/: python3 security_test.py NSCAGATE STATUSWEB STATUSDESK
EXAMPLES. Ends with a line 'N passed, M failed'."""
import base64
import contextlib
import getpass
import gzip
import http.client
import os
import re
import shutil
import signal
import socket
import ssl
import subprocess
import sys
import tempfile
import time
import urllib.parse

from daemon_clients import CONFIGURATION, TIME_LIMIT, Daemon, check, end_tests, free_port, read_all, read_exactly
from desk_clients import hidden_fields

ENDED = []  # processes to end


def run(*words, text=None):
    ran = subprocess.run(words, input=text, capture_output=True, text=True, timeout=60, check=False)
    return ran.returncode, ran.stdout + ran.stderr


def read(path):
    with open(path, encoding="utf-8") as file:
        return file.read()


def write(folder, name, text):
    path = os.path.join(folder, name)
    with open(path, "w", encoding="utf-8") as file:
        file.write(text)
    os.chmod(path, 0o600)
    return path


def replaced(text, *pairs):
    """A text with each of these texts replaced, which has to be there."""
    for old, new in pairs:
        check(f"{old!r} is there", old in text, True)
        text = text.replace(old, new)
    return text


def begin(folder, name, *words):
    with open(os.path.join(folder, name + ".log"), "w", encoding="utf-8") as log:
        process = subprocess.Popen(words, stdout=log, stderr=log)
    ENDED.append(process)
    return process


def listens(port):
    end = time.monotonic() + TIME_LIMIT
    while time.monotonic() < end:
        try:
            socket.create_connection(("127.0.0.1", port), 1).close()
            return True
        except OSError:
            time.sleep(0.05)
    return False


def certificate(folder, name, common_name):
    """A key and its own certificate, as docs/SECURITY.md makes them."""
    words = ["openssl", "req", "-x509", "-newkey", "ec", "-pkeyopt", "ec_paramgen_curve:P-256", "-noenc", "-days", "3650",
             "-subj", f"/CN={common_name}", "-addext", f"subjectAltName=DNS:{common_name}",
             "-keyout", f"{folder}/{name}.key", "-out", f"{folder}/{name}.pem"]
    check(f"openssl makes {name}", run(*words)[0], 0)


def stunnel_file(folder, example, name, *pairs):
    text = replaced(read(example), ("setuid = stunnel4\nsetgid = stunnel4\n", ""), ("/etc/stunnel/", folder + "/"), *pairs)
    return write(folder, name, text)


def send(port, output):
    """The status of send_nsca with a result of web1;HTTP."""
    path = write(os.getcwd(), "send_nsca.cfg", "encryption_method=0\n")
    return run("send_nsca", "-H", "127.0.0.1", "-p", str(port), "-c", path, "-to", "3", text=f"web1\tHTTP\t0\t{output}\n")[0]


def test_agents(daemon, folder, examples):
    for name in ("gateway", "agent", "stranger"):
        certificate(folder, name, name + ".example.com")
    shutil.copy(f"{folder}/agent.pem", f"{folder}/agents.pem")
    shared = free_port()
    server = stunnel_file(folder, f"{examples}/stunnel.conf", "server.conf", ("accept = 5666", f"accept = 127.0.0.1:{shared}"),
                          ("127.0.0.1:5667", f"127.0.0.1:{daemon.ports['agents']}"))
    serving = begin(folder, "server", "stunnel4", server)
    check("stunnel serves", listens(shared), True)
    ports = {}
    for name, key, expected in (("agent", "agent", "gateway"), ("stranger", "stranger", "gateway"),
                                ("deceived", "agent", "stranger")):
        ports[name] = free_port()
        path = stunnel_file(folder, f"{examples}/stunnel-agent.conf", name + ".conf",
                            ("accept = 127.0.0.1:5667", f"accept = 127.0.0.1:{ports[name]}"),
                            ("gateway.example.com:5666", f"127.0.0.1:{shared}"), ("agent.pem", key + ".pem"),
                            ("agent.key", key + ".key"), ("CAfile = " + folder + "/gateway.pem",
                                                          "CAfile = " + folder + f"/{expected}.pem"))
        begin(folder, name, "stunnel4", path)
        check(f"the stunnel of {name} serves", listens(ports[name]), True)
    check("an agent sends", send(ports["agent"], "over TLS"), 0)
    check("its result is shown", "over TLS" in daemon.page_with("over TLS"), True)
    check("many results on one connection", burst(ports["agent"]), True)
    check("the last of them is shown", "number 199" in daemon.page_with("number 199"), True)
    check("an agent with another certificate", send(ports["stranger"], "forged") != 0, True)
    check("an agent that meets another gateway", send(ports["deceived"], "leaked") != 0, True)
    check("without TLS nobody is greeted", greeting(shared), b"")
    # Who is taken out of the list is out after a restart.
    serving.send_signal(signal.SIGTERM)
    serving.wait()
    shutil.copy(f"{folder}/stranger.pem", f"{folder}/agents.pem")
    begin(folder, "server", "stunnel4", server)
    check("stunnel serves again", listens(shared), True)
    check("an agent that was taken out", send(ports["agent"], "too late") != 0, True)
    page = daemon.page()
    check("none of these is shown", [text for text in ("forged", "leaked", "too late") if text in page], [])


def burst(port):
    """Whether 200 results are sent on one connection, by the byte 17 between them."""
    path = write(os.getcwd(), "send_nsca.cfg", "encryption_method=0\n")
    text = "\027".join(f"web1\tHTTP\t0\tnumber {number}" for number in range(200))
    return run("send_nsca", "-H", "127.0.0.1", "-p", str(port), "-c", path, text=text)[1].startswith("200 data packet(s) sent")


def greeting(port):
    with socket.create_connection(("127.0.0.1", port), TIME_LIMIT) as connection:
        connection.settimeout(2)
        try:
            return read_exactly(connection, 132)
        except OSError:
            return b""


def forwarded(folder, name, port, *words):
    """ssh with these words to the sshd at this port."""
    return begin(folder, name, "ssh", "-F", "none", "-i", f"{folder}/key", "-p", str(port), "-N", "-o", "BatchMode=yes",
                 "-o", "StrictHostKeyChecking=yes", "-o", f"UserKnownHostsFile={folder}/known", "-o", "ExitOnForwardFailure=yes",
                 *words, f"{getpass.getuser()}@127.0.0.1")


def answers(family, address, line):
    """What is answered to a line there; nothing where nobody answers."""
    with socket.socket(family) as connection:
        connection.settimeout(5)
        try:
            connection.connect(address)
            connection.sendall(line)
            connection.shutdown(socket.SHUT_WR)
            return read_all(connection)
        except OSError:
            return b""


@contextlib.contextmanager
def sshd_folder():
    """The folder in which sshd, as root, leaves its rights: the first start of its service makes it. Whether it is there."""
    path = "/run/sshd"
    is_ours = os.geteuid() == 0 and not os.path.isdir(path)
    try:
        if is_ours:
            os.mkdir(path, 0o755)
    except OSError as error:
        print(f"operators over ssh ... skipped: {path} can't be made: {error.strerror}")
        yield False
        return
    try:
        yield True
    finally:
        if is_ours:
            os.rmdir(path)


def test_operators(daemon, folder, examples):
    with sshd_folder() as is_there:
        if is_there:
            play_ssh(daemon, folder, examples)


def play_ssh(daemon, folder, examples):
    for name in ("host", "key"):
        check(f"a key: {name}", run("ssh-keygen", "-q", "-t", "ed25519", "-N", "", "-f", f"{folder}/{name}")[0], 0)
    shutil.copy(f"{folder}/key.pub", f"{folder}/authorized")
    port = free_port()
    operators, pages = daemon.ports["operators"], daemon.ports["pages"]
    rules = replaced(read(f"{examples}/sshd_nscagate.conf"), ("Match Group nscagate-operators", "Match User " + getpass.getuser()),
                     ("127.0.0.1:5668", f"127.0.0.1:{operators}"), ("127.0.0.1:5669", f"127.0.0.1:{pages}"))
    path = write(folder, "sshd_config", f"""\
Port {port}
ListenAddress 127.0.0.1
HostKey {folder}/host
AuthorizedKeysFile {folder}/authorized
PidFile {folder}/sshd.pid
StrictModes no
PermitRootLogin prohibit-password
PasswordAuthentication no
{rules}""")
    check("sshd takes the file", run(shutil.which("sshd"), "-t", "-f", path)[0], 0)
    begin(folder, "sshd", shutil.which("sshd"), "-D", "-e", "-f", path)
    check("sshd serves", listens(port), True)
    write(folder, "known", f"[127.0.0.1]:{port} " + read(f"{folder}/host.pub"))
    local, other = free_port(), free_port()
    unix = f"{folder}/operators"
    forwarded(folder, "forward", port, "-L", f"{local}:127.0.0.1:{pages}", "-L", f"{unix}:127.0.0.1:{operators}",
              "-L", f"{other}:127.0.0.1:{daemon.ports['agents']}")
    check("ssh forwards", listens(local), True)
    check("a page over ssh", answers(socket.AF_INET, ("127.0.0.1", local), b"").startswith(b"status "), True)
    line = b"[1] ADD_HOST_COMMENT;web1;1;ann;over ssh\n"
    check("a line over ssh", answers(socket.AF_UNIX, unix, line), b"queued 1\n")
    check("nobody else may open the socket", os.stat(unix).st_mode & 0o777, 0o600)
    check("another port isn't forwarded", answers(socket.AF_INET, ("127.0.0.1", other), b""), b"")
    status, printed = run("ssh", "-F", "none", "-i", f"{folder}/key", "-p", str(port), "-o", "BatchMode=yes", "-o",
                          f"UserKnownHostsFile={folder}/known", f"{getpass.getuser()}@127.0.0.1", "echo a shell")
    check("a command over ssh", (status != 0, "a shell" in printed), (True, False))


class Site:
    """A web program after nginx, by this file of examples/, whose certificate and users have this name."""

    def __init__(self, folder, example, name, users, program, *words):
        self.host = name + ".example.com"
        self.pem = f"{folder}/{name}.pem"
        certificate(folder, name, self.host)
        write(folder, name + ".users", "".join(
            f"{user}:{run('openssl', 'passwd', '-apr1', password)[1].strip()}\n" for user, password in users))
        web, self.secure, self.plain = free_port(), free_port(), free_port()
        site = replaced(read(example), ("listen 443 ssl;", f"listen 127.0.0.1:{self.secure} ssl;"),
                        ("listen 80;", f"listen 127.0.0.1:{self.plain};"), ("    listen [::]:443 ssl;\n", ""),
                        ("    listen [::]:80;\n", ""), ("/etc/nginx/", folder + "/"))
        site, count = re.subn(r"(?<=proxy_pass http://127\.0\.0\.1:)\d+", str(web), site)
        check(f"the file of {name} leads to a program", count, 1)
        user = "user root;\n" if os.geteuid() == 0 else ""
        path = write(folder, name + ".conf", f"""\
{user}pid {folder}/{name}.pid;
error_log {folder}/{name}.error;
daemon off;
events {{}}
http {{
access_log off;
client_body_temp_path {folder};
proxy_temp_path {folder};
fastcgi_temp_path {folder};
uwsgi_temp_path {folder};
scgi_temp_path {folder};
{site}}}
""")
        check(f"nginx takes the file of {name}", run("nginx", "-t", "-q", "-c", path), (0, ""))
        begin(folder, name + ".program", program, "--listen", f"127.0.0.1:{web}",
              *[word.replace("PORT", str(self.secure)) for word in words])
        begin(folder, name + ".nginx", "nginx", "-c", path)
        check(f"{name} and nginx serve", (listens(web), listens(self.secure)), (True, True))

    def ask(self, path, user=None, method="GET", body=None, secure=True, pem=None, **fields):
        """The status of a request, its text, where it leads, and how it is compressed."""
        fields = {"Accept-Encoding": "gzip", **{name.replace("_", "-"): value for name, value in fields.items()}}
        if user:
            fields["Authorization"] = "Basic " + base64.b64encode(user.encode()).decode()
        if secure:
            context = ssl.create_default_context(cafile=pem or self.pem)
            client = http.client.HTTPSConnection(self.host, self.secure, timeout=10, context=context)
            client._create_connection = lambda address, *rest: socket.create_connection(("127.0.0.1", self.secure), 10)
        else:
            client = http.client.HTTPConnection("127.0.0.1", self.plain, timeout=10)
        client.request(method, path, body, headers=fields)
        answer = client.getresponse()
        text, coding = answer.read(), answer.getheader("content-encoding")
        if coding == "gzip":
            text = gzip.decompress(text)
        return answer.status, text.decode("utf-8", "replace"), answer.getheader("location"), coding

    def check_doors(self, folder):
        """Nobody comes in without TLS, the right server and a password."""
        for path in ("/", "/metrics", "/object?host=web1", "/command"):
            check(f"{self.host}{path} without a password", self.ask(path)[0], 401)
        check(f"{self.host}: a wrong password", self.ask("/", "ann:bad word")[0], 401)
        check(f"{self.host}: without TLS", self.ask("/", "ann:good word", secure=False)[::2], (301, "https://127.0.0.1/"))
        certificate(folder, "other", self.host)
        try:
            found = self.ask("/", "ann:good word", pem=f"{folder}/other.pem")
        except OSError as error:
            found = type(error).__name__
        check(f"{self.host}: a server with another certificate", found, "SSLCertVerificationError")


def test_pages(daemon, statusweb, folder, examples):
    site = Site(folder, f"{examples}/nginx.conf", "status", [("ann", "good word")], statusweb,
                "--gateway", f"east=127.0.0.1:{daemon.ports['pages']}")
    site.check_doors(folder)
    for path in ("/", "/status.json"):
        status, text, _, coding = site.ask(path, "ann:good word")
        check(f"{path} with the password, compressed", (status, "web1" in text, coding), (200, True, "gzip"))
    check("another method", site.ask("/", "ann:good word", "POST")[0], 403)


def test_forms(daemon, statusdesk, folder, examples):
    site = Site(folder, f"{examples}/nginx-desk.conf", "desk", [("ann", "good word"), ("bob", "bob's"), ("carol", "carol's")],
                statusdesk, "--gateway", f"east=127.0.0.1:{daemon.ports['pages']}", "--operators",
                f"east=127.0.0.1:{daemon.ports['operators']}", "--users", "ann,bob",
                "--host", "desk.example.com", "--host", "desk.example.com:PORT")
    site.check_doors(folder)
    passwords = {"ann": "ann:good word", "bob": "bob:bob's", "carol": "carol:carol's"}
    daemon.page_with("web1")
    named = urllib.parse.urlencode({"host": "web1", "service": ""})

    def page(user, **fields):
        return site.ask("/object?" + named, passwords[user], **fields)

    def post(user, form, **fields):
        fields = {"Origin": f"https://{site.host}:{site.secure}", "Content_Type": "application/x-www-form-urlencoded", **fields}
        return site.ask("/command", passwords[user], "POST", urllib.parse.urlencode(form), **fields)[0]

    check("who may send commands", [page(user)[0] for user in passwords], [200, 200, 403])
    check("the status page is for all with a password", site.ask("/", passwords["carol"])[0], 200)
    status, text, _, coding = page("ann", X_Remote_User="bob")
    check("a page of the password's user, not compressed", (status, ", as ann" in text, coding), (200, True, None))
    form = {**hidden_fields(text), "action": "comment", "text": "over nginx"}
    check("a form of a foreign page", post("ann", form, Origin="https://evil.example"), 403)
    check("a form with the token of another", post("bob", form), 403)
    check("the same, with a user of the browser's own", post("bob", form, X_Remote_User="ann"), 403)
    check("a form of a megabyte", post("ann", {**form, "more": "x" * (1 << 20)}), 413)
    check("another method", site.ask("/", passwords["ann"], "PUT")[0], 403)
    check("none of these sent anything", "over nginx" in daemon.page(), False)
    check("a form", post("ann", form), 303)
    check("its comment, on the daemon's page", ";ann;over nginx" in daemon.page_with(";ann;over nginx"), True)


def lacks(name, tools):
    """Whether a part of this name can't run here; it is said of each tool that isn't installed."""
    missing = [tool for tool in tools if not shutil.which(tool)]
    for tool in missing:
        print(f"{name} ... skipped: {tool} is not installed")
    return bool(missing)


def main():
    nscagate, statusweb, statusdesk, examples = (os.path.abspath(word) for word in sys.argv[1:])
    check(f"{nscagate} is built", os.access(nscagate, os.X_OK), True)
    parts = (("agents over stunnel", ("stunnel4", "openssl", "send_nsca"), test_agents, ()),
             ("operators over ssh", ("sshd", "ssh", "ssh-keygen"), test_operators, ()),
             ("pages after nginx", ("nginx", "openssl"), test_pages, (statusweb,)),
             ("forms after nginx", ("nginx", "openssl"), test_forms, (statusdesk,)))
    with tempfile.TemporaryDirectory() as folder:
        os.chdir(folder)
        daemon = Daemon(nscagate, folder, CONFIGURATION)
        ENDED.append(daemon.process)
        try:
            for name, tools, part, more in parts:
                if not lacks(name, tools):
                    part_folder = os.path.join(folder, name.replace(" ", "-"))
                    os.mkdir(part_folder)
                    part(daemon, *more, part_folder, examples)
        finally:
            for process in reversed(ENDED):
                process.send_signal(signal.SIGTERM)
                process.wait()
    end_tests()


main()
