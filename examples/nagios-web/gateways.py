"""What the writer of Nagios's files and the bridge of its commands share: gateways, their pages, and ids."""
import socket
import time

TIME_LIMIT = 5.0  # seconds for a page or an answer
FIELDS = {"object": 9, "comment": 9, "downtime": 12}
MOST_GATEWAYS = 99


def divide(word):
    """The name, host and port of [NAME=]HOST:PORT; an address of version 6 stands in brackets."""
    name, _, address = word.rpartition("=")
    host, colon, port = address.rpartition(":")
    if not colon or not host or not port.isdecimal():
        raise SystemExit(f"{word} is no [NAME=]HOST:PORT")
    return name or address, host.strip("[]"), int(port)


def divide_all(words):
    if not 1 <= len(words) <= MOST_GATEWAYS:
        raise SystemExit(f"1 to {MOST_GATEWAYS} gateways are wanted")
    return [divide(word) for word in words]


def shown_id(number, own):
    """The id on Nagios's pages of an id of gateway NUMBER, from 1: the gateway's number is its last two digits."""
    return own * 100 + number if own else 0


def own_id(shown):
    """The gateway's number and its own id."""
    return shown % 100, shown // 100


def exchange(host, port, sent):
    """All that a gateway writes to this, as text: each byte is one character."""
    end = time.monotonic() + TIME_LIMIT
    pieces = []
    with socket.create_connection((host, port), TIME_LIMIT) as connection:
        connection.sendall(sent)
        connection.shutdown(socket.SHUT_WR)
        while True:
            connection.settimeout(max(0.001, end - time.monotonic()))
            piece = connection.recv(65536)
            if not piece:
                return b"".join(pieces).decode("latin-1")
            pieces.append(piece)


def read_page(host, port):
    """The rows of a status page by their first word, each as its fields after that. A faulty page is a ValueError."""
    page = exchange(host, port, b"")
    lines = page.split("\n")
    if lines[-1] or not lines[0].startswith("status "):
        raise ValueError("it is cut off, or no status page")
    rows = {"moment": int(lines[0][7:]), "object": [], "comment": [], "downtime": []}
    for line in lines[1:-1]:
        word = line.split(";", 1)[0]
        if word in FIELDS:
            fields = line.split(";", FIELDS[word] - 1)
            if len(fields) != FIELDS[word]:
                raise ValueError("a line has too few fields")
            rows[word].append(fields[1:])
        elif word != "closing":
            raise ValueError("a line is none of a status page")
    return rows
