#!/usr/bin/env python3
"""Writes objects.cache and status.dat, which Nagios's web pages read, from the status pages of gateways:
nagios_files.py [--every SECONDS] FOLDER [NAME=]HOST:PORT.."""
import html
import os
import sys
import time

from gateways import divide_all, read_page, shown_id

CODES = {"PENDING": 0, "OK": 0, "UP": 0, "WARNING": 1, "DOWN": 1, "CRITICAL": 2, "UNREACHABLE": 2, "UNKNOWN": 3}
ACKNOWLEDGEMENTS = {"-": 0, "normal": 1, "sticky": 2}
ENTRY_TYPES = {"user": 1, "downtime": 2, "ack": 4}
OLDEST = 60  # seconds

# Nagios wants these of each object; no check is run and nobody is notified.
CHECKS = {"check_period": "always", "check_interval": 5, "retry_interval": 1, "max_check_attempts": 1,
          "active_checks_enabled": 0, "passive_checks_enabled": 1, "notification_period": "always"}
HEAD = """\
define timeperiod {
\ttimeperiod_name\talways
\talias\talways
\t}
define command {
\tcommand_name\tnone
\tcommand_line\t/bin/true
\t}
"""


def block(head, fields, tail, sign):
    """A block of one of the files. A backslash at the end of a line would join the next one to it."""
    lines = []
    for name, value in fields.items():
        value = str(value)
        lines.append(f"\t{name}{sign}{value}" + (" " if value.endswith("\\") else ""))
    return "\n".join([head, *lines, tail]) + "\n"


def plain(text):
    """A text of a page with a tab for its escape and one backslash for two; other escapes stay visible."""
    return "\\".join(part.replace("\\x09", "\t").replace("\\x0a", " ") for part in text.split("\\\\"))


def safe(text):
    """The text of a comment or of downtime: Nagios's pages escape the marks of HTML in outputs alone."""
    return html.escape(plain(text), quote=False)


def names_of(host, service):
    names = {"host_name": plain(host)}
    if service:
        names["service_description"] = plain(service)
    return names


def divide_output(output):
    """The first line, the other lines and the performance data of an output, as Nagios stores them, with \\\\ for a
    backslash and \\n for an LF. Performance data stands after the first | of the first line and of the others."""
    parts = []
    for part in output.split("\\\\"):
        part = part.replace("\\x0a", "\n").replace("\\x09", "\t")
        parts.append(part.replace("\\", "\\\\"))
    first, _, rest = "\\\\".join(parts).partition("\n")
    first, _, figures = first.partition("|")
    rest, _, more = rest.partition("|")
    return first, rest.replace("\n", "\\n"), " ".join([figures, *more.split("\n")]).strip(" ")


class Writer:
    """Writes the files. A page doesn't show since when an object has its state, so that is kept here."""

    def __init__(self, folder, gateways):
        self.folder = folder
        self.gateways = gateways
        self.started = int(time.time())
        self.since = {}

    def read(self):
        """The rows of each gateway that sends its page, with its number."""
        pages = []
        for number, (name, host, port) in enumerate(self.gateways, 1):
            try:
                pages.append((number, read_page(host, port)))
            except (OSError, ValueError) as fault:
                print(f"nagios_files: {name}: {fault}", file=sys.stderr, flush=True)
        return pages

    def merge(self, pages):
        """Of each object the moment of its latest result, and the row that has it."""
        newest = {}
        for _, rows in pages:
            for fields in rows["object"]:
                last = 0 if fields[3] == "-" else int(fields[3])
                key = fields[0], fields[1]
                if key not in newest or last > newest[key][0]:
                    newest[key] = last, fields
        return newest

    def changed(self, key, state, last):
        """Since when the object has this state: 0 where that was before this program began."""
        if key not in self.since:
            self.since[key] = state, 0
        elif self.since[key][0] != state:
            self.since[key] = state, last
        return self.since[key][1]

    def object_blocks(self, key, last, fields):
        """The object's block of each file."""
        host, service, state, _, fresh, acknowledged, depth, output = fields
        names = names_of(host, service)
        more = {"check_command": "none"} if service else {"alias": plain(host), "address": plain(host)}
        kind = "service" if service else "host"
        first, rest, figures = divide_output(output)
        shown = {**names, "has_been_checked": int(state != "PENDING"), "should_be_scheduled": 0, "check_type": 1,
                 "current_state": CODES[state], "last_hard_state": CODES[state], "state_type": 1, "current_attempt": 1,
                 "max_attempts": 1, "plugin_output": ("(stale) " if fresh == "stale" else "") + first,
                 "long_plugin_output": rest, "performance_data": figures, "last_check": last,
                 "last_state_change": self.changed(key, state, last), "last_update": int(time.time()),
                 "problem_has_been_acknowledged": int(acknowledged != "-"),
                 "acknowledgement_type": ACKNOWLEDGEMENTS[acknowledged], "active_checks_enabled": 0,
                 "passive_checks_enabled": 1, "scheduled_downtime_depth": depth, "notifications_enabled": 0}
        return (block(f"define {kind} {{", {**names, **more, **CHECKS}, "\t}", "\t"),
                block(f"{kind}status {{", shown, "\t}", "="))

    def write(self):
        """Writes both files once. Where no gateway sends its page they stay, until they are old."""
        pages = self.read()
        if not pages:
            self.remove_old()
            return
        now = int(time.time())
        cache = [HEAD]
        status = [block("info {", {"created": now, "version": "4.4.6"}, "\t}", "="),
                  block("programstatus {", {"nagios_pid": os.getpid(), "daemon_mode": 1, "program_start": self.started,
                                            "enable_notifications": 0, "active_service_checks_enabled": 0,
                                            "passive_service_checks_enabled": 1, "active_host_checks_enabled": 0,
                                            "passive_host_checks_enabled": 1}, "\t}", "=")]
        for key, (last, fields) in self.merge(pages).items():
            one, other = self.object_blocks(key, last, fields)
            cache.append(one)
            status.append(other)
        for number, rows in pages:
            status += [comment_block(number, fields) for fields in rows["comment"]]
            status += [downtime_block(number, fields) for fields in rows["downtime"]]
        self.replace("objects.cache", cache)
        self.replace("status.dat", status)

    def remove_old(self):
        """Without status.dat the pages report an error: they don't show how old their states are."""
        path = os.path.join(self.folder, "status.dat")
        if os.path.exists(path) and time.time() - os.stat(path).st_mtime > OLDEST:
            os.remove(path)

    def replace(self, name, blocks):
        path = os.path.join(self.folder, name)
        with open(path + ".new", "w", encoding="latin-1", newline="") as file:
            file.write("".join(blocks))
        os.replace(path + ".new", path)


def comment_block(number, fields):
    own, host, service, source, persistent, moment, author, text = fields
    return block("servicecomment {" if service else "hostcomment {",
                 {**names_of(host, service), "entry_type": ENTRY_TYPES[source],
                  "comment_id": shown_id(number, int(own)), "source": 1, "persistent": persistent, "entry_time": moment, "expires": 0, "expire_time": 0,
                  "author": safe(author), "comment_data": safe(text)}, "\t}", "=")


def downtime_block(number, fields):
    own, host, service, kind, trigger, starts, ends, lasts, begin, author, text = fields
    begun = begin != "-"
    return block("servicedowntime {" if service else "hostdowntime {",
                 {**names_of(host, service), "downtime_id": shown_id(number, int(own)), "entry_time": starts,
                  "start_time": starts, "flex_downtime_start": begin if begun and kind == "flexible" else 0, "end_time": ends,
                  "triggered_by": shown_id(number, int(trigger)), "fixed": int(kind == "fixed"), "duration": lasts,
                  "is_in_effect": int(begun), "start_notification_sent": 0, "author": safe(author),
                  "comment": safe(text)}, "\t}", "=")


def main(words):
    every = None
    if words[:1] == ["--every"] and len(words) > 1 and words[1].isdecimal() and int(words[1]) > 0:
        every = int(words[1])
        words = words[2:]
    if len(words) < 2:
        raise SystemExit(__doc__)
    writer = Writer(words[0], divide_all(words[1:]))
    while True:
        try:
            writer.write()
        except OSError as fault:
            print(f"nagios_files: {fault}", file=sys.stderr, flush=True)
            if every is None:
                raise SystemExit(1) from fault
        if every is None:
            return
        time.sleep(every)


if __name__ == "__main__":
    main(sys.argv[1:])
