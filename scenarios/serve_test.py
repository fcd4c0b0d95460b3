"""Plays a daemon's clients against the program: python3 serve_test.py PROGRAM. Ends with a line 'N passed, M failed'."""
import os
import re
import shutil
import socket
import struct
import subprocess
import sys
import tempfile
import threading
import time

from daemon_clients import CONFIGURATION, TIME_LIMIT, Daemon, ask, check, end_tests, free_port, packet, read_all, read_exactly


def send(daemon, packets, rest=b""):
    """Sends packets on one connection, after its greeting, and some bytes after them."""
    with daemon.connect("agents") as connection:
        greeting = read_exactly(connection, 132)
        check("the greeting's first 128 bytes are zeros", greeting[:128], bytes(128))
        moment = struct.unpack(">I", greeting[128:])[0]
        check("the greeting has the time", abs(moment - time.time()) < 5, True)
        connection.sendall(b"".join(packet(moment, *one) for one in packets) + rest)
        connection.shutdown(socket.SHUT_WR)
        check("nothing is written after the greeting", read_all(connection), b"")


def send_result(daemon, folder, line):
    """Sends a result, HOST, SERVICE, CODE and OUTPUT with tabs between them, by the real client if it is installed."""
    client = shutil.which("send_nsca") or shutil.which("send_nsca", path="/usr/sbin")
    if client is None:
        host, service, code, output = line.split("\t")
        send(daemon, [(host.encode(), service.encode(), int(code), output.encode())])
        return "none"
    configuration = os.path.join(folder, "send_nsca.cfg")
    with open(configuration, "w", encoding="ascii") as file:
        file.write("encryption_method=0\n")
    ran = subprocess.run([client, "-H", "127.0.0.1", "-p", str(daemon.ports["agents"]), "-c", configuration],
                         input=line + "\n", capture_output=True, text=True, timeout=TIME_LIMIT, check=False)
    check("send_nsca's status", ran.returncode, 0)
    return client


def without_moments(page):
    """A page with T in the place of each moment of this century."""
    return re.sub(r"\b[12]\d{9}\b", "T", page)


def play_a_day(program, folder):
    daemon = Daemon(program, folder, CONFIGURATION)
    check("the first page", without_moments(daemon.page()),
          "status T\nobject;web1;;PENDING;-;fresh;-;0;\nobject;web1;HTTP;PENDING;-;fresh;-;0;\n")
    client = send_result(daemon, folder, "web1\tHTTP\t2\ttimeout; 10s")
    print(f"the sender: {client}")
    check("a result is shown", without_moments(daemon.page_with("CRITICAL")).splitlines()[2],
          "object;web1;HTTP;CRITICAL;T;fresh;-;0;timeout; 10s")
    send(daemon, [(b"web1", b"", 0, b"up"), (b"db1", b"", 1, b"x")], rest=b"cut in mid-packet")
    check("the next sender is served", "UP" in daemon.page_with(";UP;"), True)
    now = int(time.time())
    check("an operator is answered line by line",
          ask(daemon, f"[{now}] ACKNOWLEDGE_SVC_PROBLEM;web1;HTTP;2;0;0;ann;on it", "no time",
              f"[{now}] SCHEDULE_HOST_DOWNTIME;web1;{now - 10};{now + 1000};1;0;0;bob;reboot",
              f"[{now}] DEL_SVC_COMMENT;7"),
          ["queued 1", "bad NoTime", "queued 2", "queued 3"])
    check("the page shows all of it", without_moments(daemon.page_with("downtime;1")),
          "status T\n"
          "object;web1;;UP;T;fresh;-;1;up\n"
          "object;web1;HTTP;CRITICAL;T;fresh;sticky;0;timeout; 10s\n"
          "comment;1;web1;HTTP;ack;0;T;ann;on it\n"
          "comment;2;web1;;downtime;0;T;bob;reboot\n"
          "downtime;1;web1;;fixed;0;T;T;0;T;bob;reboot\n")
    check("a shutdown is answered", ask(daemon, f"[{now}] SHUTDOWN_PROGRAM", f"[{now}] DEL_HOST_COMMENT;2"), ["closing"])
    status, output, errors = daemon.end()
    check("the daemon's status", status, 0)
    check("standard error", errors, "")
    check("the log page is printed at the end", without_moments(output),
          "log 6\n"
          "[T] 1:1 PROCESS_SERVICE_CHECK_RESULT;web1;HTTP;2;timeout; 10s -> Accepted\n"
          "[T] 1:2 PROCESS_HOST_CHECK_RESULT;web1;0;up -> Accepted\n"
          "[T] 1:3 PROCESS_HOST_CHECK_RESULT;db1;1;x -> NoSuchHost\n"
          "[T] 2:1 ACKNOWLEDGE_SVC_PROBLEM;web1;HTTP;2;0;0;ann;on it -> Accepted\n"
          "[T] 2:2 SCHEDULE_HOST_DOWNTIME;web1;T;T;1;0;0;bob;reboot -> Accepted\n"
          "[T] 2:3 DEL_SVC_COMMENT;7 -> NoSuchComment\n")


def play_a_dialogue(program, folder):
    """An operator who waits for each answer before the next line is sent is answered too."""
    daemon = Daemon(program, folder, CONFIGURATION)
    answers = []
    with daemon.connect("operators") as connection:
        answer = connection.makefile("rb")
        for line in (b"[1] ADD_HOST_COMMENT;web1;0;ann;hi", b"no time", b"[1] SHUTDOWN_PROGRAM"):
            connection.sendall(line + b"\n")
            answers.append(answer.readline())
    check("each line is answered before the next", answers, [b"queued 1\n", b"bad NoTime\n", b"closing\n"])
    check("the status after a dialogue", daemon.end()[0], 0)


def play_a_burst(program, folder):
    """All packets of one long connection are applied, and none is answered that the queue is full."""
    count = 40000
    daemon = Daemon(program, folder, f"items = {count}\n" + CONFIGURATION)
    send(daemon, [(b"web1", b"HTTP", number % 4, b"result %d" % number) for number in range(count)])
    daemon.page_with(f"result {count - 1}\n")
    ask(daemon, "[1] SHUTDOWN_PROGRAM")
    status, output, _ = daemon.end()
    check("the status after a burst", status, 0)
    check("a burst is logged whole", output.split("\n", 1)[0], f"log {count}")


def play_a_full_log(program, folder):
    """An item that finds the log full is reported, after the log page."""
    daemon = Daemon(program, folder, CONFIGURATION.replace("limit = 100000", "limit = 1"))
    send(daemon, [(b"web1", b"HTTP", 1, b"first"), (b"web1", b"HTTP", 2, b"second")])
    check("the page shows all of a full log", without_moments(daemon.page_with("first")).splitlines()[2],
          "object;web1;HTTP;WARNING;T;fresh;-;0;first")
    check("a shutdown with a full log is answered", ask(daemon, "[1] SHUTDOWN_PROGRAM"), ["closing"])
    status, output, errors = daemon.end()
    check("the status of a full log", status, 3)
    check("a full log is reported", errors, "nscagate: LogFull\n")
    check("a full log is printed", without_moments(output),
          "log 1\n[T] 1:1 PROCESS_SERVICE_CHECK_RESULT;web1;HTTP;1;first -> Accepted\n")


def play_an_old_packet(program, folder):
    """With the greatest age 0 a packet of 1970 is applied, and each operator's connection is served by itself."""
    daemon = Daemon(program, folder, CONFIGURATION)
    with daemon.connect("agents") as connection:
        read_exactly(connection, 132)
        connection.sendall(packet(1000, b"web1", b"HTTP", 2, b"timeout; 10s"))
        connection.shutdown(socket.SHUT_WR)
        read_all(connection)
    check("a packet of 1970 is applied", "CRITICAL" in daemon.page_with("CRITICAL"), True)
    check("a comment is queued", ask(daemon, "[1] ADD_HOST_COMMENT;web1;0;ann;hi"), ["queued 1"])
    check("the next connection closes", ask(daemon, "[1] SHUTDOWN_PROGRAM"), ["closing"])
    status, output, _ = daemon.end()
    check("the status after an old packet", status, 0)
    check("both are logged", without_moments(output),
          "log 2\n"
          "[T] 1:1 PROCESS_SERVICE_CHECK_RESULT;web1;HTTP;2;timeout; 10s -> Accepted\n"
          "[T] 2:1 ADD_HOST_COMMENT;web1;0;ann;hi -> Accepted\n")


def start_client(daemon, folder, lines, *words):
    """The real client under way, with these words, which sends these results on one connection. Without any it is silent."""
    client = shutil.which("send_nsca") or shutil.which("send_nsca", path="/usr/sbin")
    configuration = os.path.join(folder, "send_nsca.cfg")
    with open(configuration, "w", encoding="ascii") as file:
        file.write("encryption_method=0\n")
    started = subprocess.Popen([client, "-H", "127.0.0.1", "-p", str(daemon.ports["agents"]), "-c", configuration, *words],
                               stdin=subprocess.PIPE, stdout=subprocess.PIPE, stderr=subprocess.PIPE, text=True)
    if lines:
        started.stdin.write("\x17".join(lines) + "\n")
        started.stdin.close()
    return started


def play_real_clients_of_both_lengths(program, folder):
    """Real clients of both lengths are served at once, with no setting for either."""
    if not (shutil.which("send_nsca") or shutil.which("send_nsca", path="/usr/sbin")):
        print("real clients of both lengths ... skipped: send_nsca is not installed")
        return
    daemon = Daemon(program, folder, CONFIGURATION)
    outputs = {}
    clients = []
    for number in range(6):
        words = ["--legacy-2-7-mode"] if number % 2 else []
        outputs[number] = [f"result {one} of client {number}, {'x' * 480}" for one in range(10)]
        clients.append(start_client(daemon, folder, [f"web1\tHTTP\t1\t{output}" for output in outputs[number]], *words))
    for client in clients:
        client.wait(TIME_LIMIT)
        check("the status of a client of either length", client.returncode, 0)
        client.stdout.close()
        client.stderr.close()
    # Connections are served in turn, so all of them have been once this one is.
    send(daemon, [(b"web1", b"", 0, b"the last one")])
    daemon.page_with("the last one")
    ask(daemon, "[1] SHUTDOWN_PROGRAM")
    status, output, _ = daemon.end()
    check("the status after clients of both lengths", status, 0)
    logged = re.findall(r"HTTP;1;(result \d+ of client (\d), x*) -> Accepted", output)
    check("as many results are logged as were sent", (output.split("\n", 1)[0], len(logged)), ("log 61", 60))
    for number, expected in outputs.items():
        check("the results of each client, in its order", [text for text, client in logged if int(client) == number], expected)


def play_both_lengths_in_turns(program, folder):
    """Packets of both lengths on one connection; the last one's first 720 bytes carry their own check word too."""
    forged = b"a" * 514 + b'00002K"&_'
    daemon = Daemon(program, folder, CONFIGURATION)
    with daemon.connect("agents") as connection:
        read_exactly(connection, 132)
        connection.sendall(packet(1000, b"web1", b"", 0, b"short", 512) + packet(1000, b"web1", b"HTTP", 0, b"long")
                           + packet(1000, b"web1", b"", 1, b"short again", 512) + packet(1000, b"web1", b"HTTP", 2, forged))
        connection.shutdown(socket.SHUT_WR)
        read_all(connection)
    check("the last of both lengths is applied", "CRITICAL" in daemon.page_with("CRITICAL"), True)
    ask(daemon, "[1] SHUTDOWN_PROGRAM")
    status, output, _ = daemon.end()
    check("the status after both lengths in turns", status, 0)
    check("both lengths are logged in their order", without_moments(output),
          "log 4\n"
          "[T] 1:1 PROCESS_HOST_CHECK_RESULT;web1;0;short -> Accepted\n"
          "[T] 1:2 PROCESS_SERVICE_CHECK_RESULT;web1;HTTP;0;long -> Accepted\n"
          "[T] 1:3 PROCESS_HOST_CHECK_RESULT;web1;1;short again -> Accepted\n"
          f"[T] 1:4 PROCESS_SERVICE_CHECK_RESULT;web1;HTTP;2;{'a' * 511} -> Accepted\n")


def play_few_sessions(program, folder):
    """Operators are served when the agents' worker has served all of its connections."""
    daemon = Daemon(program, folder, "sessions = 1\n" + CONFIGURATION)
    send(daemon, [(b"web1", b"HTTP", 2, b"the only one")])
    for number in range(1, 4):
        check("an operator is served again", ask(daemon, "[1] ADD_HOST_COMMENT;web1;0;ann;hi"), [f"queued {number}"])
    check("the last one closes", ask(daemon, "[1] SHUTDOWN_PROGRAM"), ["closing"])
    status, output, _ = daemon.end()
    check("the status after few sessions", status, 0)
    check("all is logged", output.split("\n", 1)[0], "log 4")


def send_at_once(daemon, folder, hosts, is_real):
    """Each of these hosts sends a result of its own, all at once, by real clients or by own ones."""
    if is_real:
        clients = [start_client(daemon, folder, [f"{host}\t1\tfrom {host}"]) for host in hosts]
        for client in clients:
            check("the status of a client beside a silent one", client.wait(TIME_LIMIT), 0)
            client.stdout.close()
            client.stderr.close()
        return
    clients = [threading.Thread(target=send, args=(daemon, [(host.encode(), b"", 1, f"from {host}".encode())])) for host in hosts]
    for client in clients:
        client.start()
    for client in clients:
        client.join()


def play_four_workers(program, folder):
    """Of four clients at once, real ones if they are installed, one is silent: with four workers the other three are served
    within a second."""
    hosts = ("a", "b", "c")
    daemon = Daemon(program, folder, "workers = 4\n" + CONFIGURATION + "".join(f'[[host]]\nname = "{host}"\n' for host in hosts))
    is_real = bool(shutil.which("send_nsca") or shutil.which("send_nsca", path="/usr/sbin"))
    silent = start_client(daemon, folder, []) if is_real else daemon.connect("agents")
    time.sleep(0.5)
    began = time.monotonic()
    send_at_once(daemon, folder, hosts, is_real)
    took = time.monotonic() - began
    print(f"three clients beside a silent one took {took:.2f} s")
    check("three clients beside a silent one are served within a second", took < 1.0, True)
    for host in hosts:
        check("the result of a client beside a silent one is shown", f";from {host}\n" in daemon.page_with(f";from {host}\n"), True)
    if is_real:
        check("the silent one is still connected", silent.poll(), None)
    check("an operator is answered beside a silent client", ask(daemon, "[1] ADD_HOST_COMMENT;web1;0;ann;hi", "[1] SHUTDOWN_PROGRAM"),
          ["queued 1", "closing"])
    status, output, _ = daemon.end()
    if is_real:
        silent.kill()
        silent.communicate()
    else:
        silent.close()
    check("the status with four workers", status, 0)
    logged = re.findall(r"^\[\d+\] (\d):(\d+) PROCESS_HOST_CHECK_RESULT;(\w);1;from \3 -> Accepted$", output, flags=re.MULTILINE)
    check("the results of three clients are logged once", sorted(host for _, _, host in logged), list(hosts))
    for worker in "1234":
        numbers = [number for client, number, _ in logged if client == worker]
        check("the items of each worker are numbered from 1", numbers, [str(number) for number in range(1, len(numbers) + 1)])
    check("the operator is the client after four workers", " 5:1 ADD_HOST_COMMENT;web1;0;ann;hi -> Accepted" in output, True)
    check("as many records are logged as were queued", output.split("\n", 1)[0], "log 4")


def let_go_of(connection):
    """Whether the daemon lets go of a connection that could go on."""
    try:
        return read_all(connection) == b""
    except ConnectionResetError:
        return True


def send_in_pieces(daemon, name, pieces):
    """Sends these pieces on one connection with pauses between them, and leaves it open."""
    connection = daemon.connect(name)
    if name == "agents":
        read_exactly(connection, 132)
    for piece in pieces:
        try:
            connection.sendall(piece)
        except OSError:  # it was let go of
            pass
        time.sleep(0.3)
    return connection


def play_limits_of_a_session(program, folder):
    """The greatest age, the packets or lines and the reads of a session are those of the configuration, with two workers."""
    daemon = Daemon(program, folder, "workers = 2\nitems = 3\n" + CONFIGURATION.replace("greatest_age = 0", "greatest_age = 60"))
    with daemon.connect("agents") as connection:
        moment = int.from_bytes(read_exactly(connection, 132)[128:], "big")
        ages = [90, 30, 90, 0]
        connection.sendall(b"".join(packet(moment - age, b"web1", b"HTTP", 1, b"%d seconds old" % age) for age in ages))
        check("a session of more packets than it may is let go of", let_go_of(connection), True)
    daemon.page_with("30 seconds old")
    comment = "[1] ADD_HOST_COMMENT;web1;0;ann;hi"
    check("a session of more lines than it may is let go of", ask(daemon, *[comment] * 5), ["queued 1", "queued 2", "queued 3"])
    check("the next session closes", ask(daemon, "[1] SHUTDOWN_PROGRAM"), ["closing"])
    status, output, _ = daemon.end()
    check("the status with few items", status, 0)
    check("a packet is stale by the age that is configured, and the fourth isn't served",
          (output.split("\n", 1)[0], re.findall(r"(\d+) seconds old", output)), ("log 4", ["30"]))
    daemon = Daemon(program, folder, "workers = 2\nreads = 2\n" + CONFIGURATION)
    one = packet(1000, b"web1", b"HTTP", 2, b"in pieces", 512)
    with send_in_pieces(daemon, "agents", [one] * 3) as connection:
        check("an agent is let go of after as many reads as it may take", let_go_of(connection), True)
    with send_in_pieces(daemon, "agents", [one[:300], one[300:600], one[600:]]):
        check("a packet that comes in parts takes one read", "in pieces" in daemon.page_with("in pieces"), True)
    with send_in_pieces(daemon, "operators", [comment.encode() + b"\n"] * 2) as connection:
        try:
            answers = read_all(connection)
        except OSError as error:
            answers = str(error)
        check("an operator is let go of after as many reads as it may take", answers, b"queued 1\nqueued 2\n")
    check("the last session closes", ask(daemon, "[1] SHUTDOWN_PROGRAM"), ["closing"])
    status, output, _ = daemon.end()
    check("the status with few reads", (status, output.split("\n", 1)[0]), (0, "log 5"))


def play_three_addresses(program, folder):
    """Agents, operators and pages are served each at the address that is configured, with its port or, for 0, a free one."""
    hosts = {"agents": "127.0.0.1", "operators": "127.0.0.2", "pages": "127.0.0.3"}
    for without_port in hosts:
        ports = {name: 0 if name == without_port else free_port() for name in hosts}
        addresses = "".join(f'{name} = "{host}:{ports[name]}"\n' for name, host in hosts.items())
        daemon = Daemon(program, folder, "workers = 2\n" + addresses + CONFIGURATION.split("\n", 3)[3])
        check("the hosts that are printed", daemon.hosts, hosts)
        check("the ports that are printed", {name: port for name, port in daemon.ports.items() if name != without_port},
              {name: port for name, port in ports.items() if name != without_port})
        check("port 0 is printed as a free one", daemon.ports[without_port] > 0, True)
        for name, host in hosts.items():
            others = []
            for other in hosts.values():
                with socket.socket() as probe:
                    if probe.connect_ex((other, daemon.ports[name])) == 0:
                        others.append(other)
            check(f"the port of {name} is open at its own address alone", others, [host])
        send(daemon, [(b"web1", b"HTTP", 2, b"at the agents' address")])
        check("a page is at the address of pages", "at the agents' address" in daemon.page_with("at the agents' address"), True)
        check("an operator is answered at the address of operators", ask(daemon, "[1] SHUTDOWN_PROGRAM"), ["closing"])
        check("the status with three addresses", daemon.end()[0], 0)


def play_on_version_6(program, folder):
    """All three addresses may be of version 6 of the protocol, where the machine has it."""
    try:
        with socket.create_server(("::1", 0), family=socket.AF_INET6):
            pass
    except OSError:
        print("addresses of version 6 ... skipped: this machine has none")
        return
    daemon = Daemon(program, folder, CONFIGURATION.replace("127.0.0.1:0", "[::1]:0"))
    send(daemon, [(b"web1", b"HTTP", 1, b"by version 6")])
    check("a result that came by version 6 is shown", "by version 6" in daemon.page_with("by version 6"), True)
    check("an operator is answered by version 6", ask(daemon, "[1] SHUTDOWN_PROGRAM"), ["closing"])
    check("the status by version 6", daemon.end()[0], 0)


def refuse(program, folder, configuration, expected_status, expected_error):
    path = os.path.join(folder, "faulty.toml")
    with open(path, "w", encoding="latin-1") as file:
        file.write(configuration)
    ran = subprocess.run([program, "serve", "--config", path], capture_output=True, text=True, timeout=TIME_LIMIT, check=False)
    check(f"a configuration that is refused: {expected_error}", (ran.returncode, ran.stdout, ran.stderr),
          (expected_status, "", f"nscagate: {expected_error}\n"))


def main():
    program = sys.argv[1]
    with tempfile.TemporaryDirectory() as folder:
        play_a_day(program, folder)
        play_a_dialogue(program, folder)
        play_a_burst(program, folder)
        play_a_full_log(program, folder)
        play_an_old_packet(program, folder)
        play_real_clients_of_both_lengths(program, folder)
        play_both_lengths_in_turns(program, folder)
        play_few_sessions(program, folder)
        play_four_workers(program, folder)
        play_limits_of_a_session(program, folder)
        play_three_addresses(program, folder)
        play_on_version_6(program, folder)
        refuse(program, folder, "colour = 1\n", 2, "config: UnknownKey colour")
        refuse(program, folder, "capacity = 0\n", 2, "config: BadValue capacity")
        missing = subprocess.run([program, "serve", "--config", os.path.join(folder, "nothing.toml")],
                                 capture_output=True, text=True, timeout=TIME_LIMIT, check=False)
        check("a configuration that isn't there", (missing.returncode, missing.stdout, missing.stderr),
              (2, "", "nscagate: config: unreadable\n"))
        with socket.create_server(("127.0.0.1", 0)) as other:
            address = f"127.0.0.1:{other.getsockname()[1]}"
            for taken in ("agents", "operators", "pages"):
                addresses = dict.fromkeys(("agents", "operators", "pages"), "127.0.0.1:0") | {taken: address}
                lines = (f'{port} = "{bound}"\n' for port, bound in addresses.items())
                refuse(program, folder, "".join(lines), 4, f"bind {address}")
    end_tests()


main()
