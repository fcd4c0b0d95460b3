"""statusdesk_speed.py DAEMON PROGRAM: commands a second from eight browsers to a gateway of 1,000 objects, alone, and beside a
gateway that is stuck with a full queue.

No part of ./check: it measures, and its figures depend on the machine.
"""
import concurrent.futures
import os
import sys
import tempfile
import time

sys.path.insert(0, os.path.join(os.path.dirname(os.path.abspath(__file__)), '../scenarios'))
from daemon_clients import CONFIGURATION, Daemon, ask
from desk_clients import Desk
from played_gateways import Stuck, shows

COUNT = 1000  # No more than wait at most.
HOSTS = ''.join('[[host]]\nname = "host%d"\nfreshness = 300\n' % number for number in range(1000))


def send(desk, form, gateway, count):
    """Sends so many commands to a gateway; how many of them were taken."""
    def post(number):
        return desk.post({**form, 'text': str(number), 'gateway': gateway})[0]
    with concurrent.futures.ThreadPoolExecutor(8) as pool:
        return [*pool.map(post, range(count))].count(303)


def measure(program, daemon, is_stuck):
    gateways, stuck = [('good', daemon.ports['pages'], daemon.ports['operators'])], Stuck()
    if is_stuck:
        gateways.append(('stuck', shows(daemon.page().encode('latin-1')).port, stuck.port))
    with Desk(program, *gateways) as desk:
        named = {'host': 'host7', 'service': ''}
        desk.page_with(named, gateways[-1][0] + ': ')
        form = desk.form(named, action='comment')
        if is_stuck:
            send(desk, form, 'stuck', 1024)
        began = time.time()
        taken = send(desk, form, 'good', COUNT)
        answered = time.time() - began
        while sum(entry[2] == 'good' for entry in desk.log) < taken:
            time.sleep(0.01)
        print('%s: %d commands of %d are answered, %.0f a second, and sent, %.0f a second' % (
            'beside a stuck gateway' if is_stuck else 'alone', taken, COUNT, COUNT / answered, taken / (time.time() - began)))


def main():
    with tempfile.TemporaryDirectory() as folder:
        for is_stuck in (False, True) * 3:
            daemon = Daemon(sys.argv[1], folder, CONFIGURATION[:CONFIGURATION.index('[[host]]')] + HOSTS)
            measure(sys.argv[2], daemon, is_stuck)
            ask(daemon, '[1] SHUTDOWN_PROGRAM')
            daemon.end()


main()
