#!/usr/bin/env python3
"""Sends the lines of Nagios's command file, a FIFO, to the operators' addresses of gateways:
nagios_commands.py FIFO [NAME=]HOST:PORT..   The gateways stand in the order in which nagios_files.py has them."""
import os
import re
import stat
import sys

from gateways import divide_all, exchange, own_id

DELETION = re.compile(rb"(\[\d+\] DEL_(?:HOST|SVC)_(?:COMMENT|DOWNTIME);)(\d+)")
# The trigger is the fourth argument after the names.
DOWNTIME = re.compile(rb"(\[\d+\] SCHEDULE_(?:(?:HOST|HOST_SVC)_DOWNTIME;[^;]*|SVC_DOWNTIME;[^;]*;[^;]*)"
                      rb";\d+;\d+;\d+;)(\d+)(;.*)")
LEFT_OUT = re.compile(rb"\[\d+\] SHUTDOWN_PROGRAM")


def lines_for(line, gateways):
    """What each gateway is sent of a line, by its number: one that names an id goes to that id's gateway alone."""
    found = DELETION.fullmatch(line) or DOWNTIME.fullmatch(line)
    if LEFT_OUT.match(line):
        return {}
    if not found or int(found.group(2)) == 0:
        return {number: line for number in range(1, len(gateways) + 1)}
    number, own = own_id(int(found.group(2)))
    rest = found.group(3) if found.lastindex == 3 else b""
    return {number: found.group(1) + str(own).encode() + rest} if 1 <= number <= len(gateways) else {}


def pass_on(line, gateways):
    """Sends a line, and prints what each gateway answers."""
    sent = lines_for(line, gateways)
    if not sent:
        print(f"to none: {line.decode('latin-1')}", flush=True)
    for number, own_line in sent.items():
        name, host, port = gateways[number - 1]
        try:
            answer = exchange(host, port, own_line + b"\n").strip("\n") or "no answer"
        except OSError as fault:
            answer = str(fault)
        print(f"{name}: {answer}: {own_line.decode('latin-1')}", flush=True)


def open_fifo(path):
    """The FIFO, open for writing too: so it doesn't end with its first writer."""
    if not os.path.exists(path):
        os.mkfifo(path)
        os.chmod(path, 0o660)
    if not stat.S_ISFIFO(os.stat(path).st_mode):
        raise SystemExit(f"{path} is no FIFO")
    return os.open(path, os.O_RDWR)


def main(words):
    if len(words) < 2:
        raise SystemExit(__doc__)
    gateways = divide_all(words[1:])
    fifo = open_fifo(words[0])
    rest = b""
    while True:
        *lines, rest = (rest + os.read(fifo, 65536)).split(b"\n")
        for line in lines:
            pass_on(line, gateways)


if __name__ == "__main__":
    main(sys.argv[1:])
