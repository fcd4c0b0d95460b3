"""Plays senders of three addresses against three gateways after nginx's stream module:
python3 nginx_stream_test.py PROGRAM CONFIGURATION MODULE. Ends with a line 'N passed, M failed'."""
import os
import re
import subprocess
import sys
import tempfile

from balanced_gateways import Gateway, check_each_keeps_to_one, count_results, serving, start_senders, stop_senders, wait_for
from daemon_clients import ask, check, end_tests, free_port

HEAD = """\
load_module {module};
daemon off;
pid {folder}/nginx.pid;
error_log {folder}/nginx.log;
events {{}}
"""


def stream_block(example, gateways, port):
    """The example's block, with the addresses of these gateways and this port."""
    with open(example, encoding="ascii") as file:
        text = file.read()
    for line, place in (("    listen 5667;\n", f"    listen 127.0.0.1:{port};\n"), ("    listen [::]:5667;\n", "")):
        check(f"the example's line {line.strip()}", text.count(line), 1)
        text = text.replace(line, place)
    for number, gateway in enumerate(gateways, 1):
        text, count = re.subn(rf"server 10\.0\.0\.{number}:5667 ", f"server 127.0.0.1:{gateway.agents} ", text)
        check(f"the example's server {number}", count, 1)
    return text


def takes(folder, text):
    """What nginx says of a file with this text, and where that stands."""
    path = os.path.join(folder, "nginx.conf")
    with open(path, "w", encoding="ascii") as file:
        file.write(text)
    ran = subprocess.run(["nginx", "-t", "-q", "-c", path], capture_output=True, text=True, check=False)
    return path, (ran.returncode, ran.stdout + ran.stderr)


def end_of_debians_file(folder, block):
    """Debian's own file with the block at its end; without its sites, whose ports are others' here."""
    with open("/etc/nginx/nginx.conf", encoding="ascii") as file:
        text = file.read()
    text = re.sub(r"(?m)^\s*include /etc/nginx/(sites-enabled|conf\.d)/.*$", "", text)
    text = re.sub(r"/run/nginx\.pid", f"{folder}/debian.pid", re.sub(r"/var/log/nginx", folder, text))
    return text + block


def play(program, example, module, folder):
    gateways = [Gateway(program, folder, f"gw{number}") for number in (1, 2, 3)]
    port = free_port()
    block = stream_block(example, gateways, port)
    check("nginx takes Debian's file with the block at its end", takes(folder, end_of_debians_file(folder, block))[1], (0, ""))
    path, said = takes(folder, HEAD.format(module=module, folder=folder) + block)
    check("nginx takes the block", said, (0, ""))
    balancer = subprocess.Popen(["nginx", "-c", path], stdout=subprocess.DEVNULL, stderr=subprocess.DEVNULL)
    try:
        play_senders(folder, gateways, port)
    finally:
        balancer.terminate()
        balancer.wait()


def play_senders(folder, gateways, port):
    senders = start_senders(folder, port)
    check_each_keeps_to_one(gateways)
    check("no sender has failed", [sender.unsent for sender in senders], [0, 0, 0])
    ended = serving(gateways, "A")[0]
    others = [gateway for gateway in gateways if gateway is not ended]
    check("the gateway of A is shut down", ask(ended.daemon, "[1] SHUTDOWN_PROGRAM"), ["closing"])
    ended.take_log()
    wait_for("another gateway takes over", lambda: len(serving(others, "A")) == 1)
    stop_senders(senders)
    for gateway in others:
        check(f"{gateway.name} is shut down", ask(gateway.daemon, "[1] SHUTDOWN_PROGRAM"), ["closing"])
        gateway.take_log()
    count_results(senders, gateways, ended)


def main():
    program, example, module = (os.path.abspath(word) for word in sys.argv[1:4])
    with tempfile.TemporaryDirectory() as folder:
        os.chmod(folder, 0o755)
        play(program, example, module, folder)
    end_tests()


main()
