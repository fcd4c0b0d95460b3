"""statusweb_speed.py PROGRAM: seconds for each page over 16,384 objects, the memory after many, and requests a second of the
problems among 1,000; with the environment of its unit.

No part of ./check: it measures, and its figures depend on the machine.
"""
import http.client
import os
import socket
import subprocess
import sys
import threading
import time

STATES = ['OK', 'OK', 'OK', 'OK', 'OK', 'OK', 'OK', 'WARNING', 'OK', 'CRITICAL']
OUTPUT = 'OK - the output of a plugin, with some numbers 12345 | time=0.0%03ds;;;0.000;10.000'


def status_page(count):
    """The status page of this many objects, of which each sixteenth is a host: a gateway has 1,024 at most."""
    now = int(time.time())
    lines = ['status %d' % now]
    for index in range(count):
        state = STATES[index % 10] if index % 16 else 'UP'
        service = 'service %d' % (index % 16) if index % 16 else ''
        lines.append('object;host%05d;%s;%s;%d;fresh;-;0;%s'
                     % (index // 16, service, state, now - index % 300, OUTPUT % (index % 1000)))
    return ('\n'.join(lines) + '\n').encode()


def serve(page):
    """Sends a page to each reader, and returns the port."""
    listener = socket.socket()
    listener.bind(('127.0.0.1', 0))
    listener.listen(64)

    def run():
        while True:
            stream, _ = listener.accept()
            stream.sendall(page)
            stream.close()

    threading.Thread(target=run, daemon=True).start()
    return listener.getsockname()[1]


def environment():
    """The environment, with what the unit sets."""
    unit = os.path.join(os.path.dirname(__file__), '../packaging/systemd/statusweb.service')
    set_by_it = [line.strip().split('=', 2)[1:] for line in open(unit) if line.startswith('Environment=')]
    return dict(os.environ, **dict(set_by_it))


def start(program, page):
    """Starts the program over a gateway with this page, and returns it with its port."""
    words = [program, '--listen', '127.0.0.1:0', '--gateway', 'g=127.0.0.1:%d' % serve(page)]
    process = subprocess.Popen(words, stdout=subprocess.PIPE, env=environment())
    return process, int(process.stdout.readline().rsplit(b':', 1)[1])


def ask(port, path):
    connection = http.client.HTTPConnection('127.0.0.1', port, timeout=30)
    connection.request('GET', path)
    return connection.getresponse().read()


def pages(program):
    process, port = start(program, status_page(16384))
    for path in ['/', '/?output=LOAD&page=2', '/?state=problems', '/status.json', '/metrics']:
        ask(port, path)
        best = 10.0
        for _ in range(8):
            began = time.time()
            size = len(ask(port, path))
            best = min(best, time.time() - began)
        print('16384 objects, %s: %.3f s, %d bytes' % (path, best, size))
    process.kill()


def memory(program):
    process, port = start(program, status_page(16384))

    def report(what):
        status = dict(line.split(':', 1) for line in open('/proc/%d/status' % process.pid))
        print('%s: %d MB' % (what, int(status['VmRSS'].split()[0]) // 1024))

    for _ in range(120):
        ask(port, '/')
    report('after 120 pages of 16384 objects')
    readers = [threading.Thread(target=ask, args=(port, '/')) for _ in range(32)]
    for reader in readers:
        reader.start()
    for reader in readers:
        reader.join()
    report('after 32 at once')
    process.kill()


def requests(program):
    process, port = start(program, status_page(1000))
    answered = [0] * 8
    began = time.time()

    def load(client):
        while time.time() < began + 4:
            stream = socket.create_connection(('127.0.0.1', port))
            stream.sendall(b'GET /?state=problems HTTP/1.1\r\nHost: localhost\r\n\r\n')
            while stream.recv(65536):
                pass
            stream.close()
            answered[client] += 1

    clients = [threading.Thread(target=load, args=(client,)) for client in range(8)]
    for client in clients:
        client.start()
    for client in clients:
        client.join()
    print('1000 objects, /?state=problems: %.0f requests a second' % (sum(answered) / (time.time() - began)))
    process.kill()


pages(sys.argv[1])
memory(sys.argv[1])
requests(sys.argv[1])
