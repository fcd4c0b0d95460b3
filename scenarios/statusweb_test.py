"""Tests of the program statusweb over gateways that this file plays."""
import calendar
import concurrent.futures
import email.utils
import hashlib
import html
import html.parser
import http.client
import json
import os
import re
import resource
import shutil
import signal
import socket
import struct
import subprocess
import sys
import tempfile
import threading
import time
import urllib.parse
import xml.etree.ElementTree

from daemon_clients import free_port
from played_gateways import Port, shows

PROGRAM = sys.argv[1]
passed = failed = 0
counting = threading.Lock()


def test(name, holds, found=''):
    global passed, failed
    with counting:
        passed += bool(holds)
        failed += not holds
        print(f'{name} ... ok' if holds else f'{name} ... FAILED: {found}', flush=True)


def at_once(*calls):
    """What these functions return, called side by side."""
    with concurrent.futures.ThreadPoolExecutor(len(calls)) as pool:
        return [call.result() for call in [pool.submit(call) for call in calls]]


def endless(connection):
    connection.sendall(b'status 1\n')
    while True:
        connection.sendall(b'object;a;b;OK;1;fresh;-;0;x\n' * 10000)


def dripping(connection):
    for byte in b'status 1\n' + b'object;a;b;OK;1;fresh;-;0;x\n' * 100:
        connection.sendall(bytes([byte]))
        time.sleep(0.2)


class Web:
    """The program over these gateways, within these limits of the shell's `ulimit`."""

    def __init__(self, *gateways, words=(), limits='', port=None):
        self.port = port or free_port()
        words = [PROGRAM, '--listen', f'127.0.0.1:{self.port}', '--every', '1', *words]
        for name, port in gateways:
            words += ['--gateway', f'{name}=127.0.0.1:{port}']
        if limits:
            words = ['sh', '-c', f'ulimit {limits}; exec "$0" "$@"', *words]
        self.process = subprocess.Popen(words, stdout=subprocess.PIPE, stderr=subprocess.PIPE)
        self.line = self.process.stdout.readline()
        if not self.line:
            raise AssertionError(self.process.communicate()[1])

    def __enter__(self):
        return self

    def __exit__(self, *_):
        self.process.kill()
        self.process.wait()

    def ask(self, path, method='GET', timeout=30, body=None):
        client = http.client.HTTPConnection('127.0.0.1', self.port, timeout=timeout)
        client.request(method, path, body)
        response = client.getresponse()
        return response, response.read()

    def connect(self):
        return socket.create_connection(('127.0.0.1', self.port), timeout=30)

    def text(self, path):
        return self.ask(path)[1]

    def json(self, path='/status.json'):
        return json.loads(self.text(path))


class Tags(html.parser.HTMLParser):
    """The tags of a page with their attributes, but for the values that hold texts; and its text without that of the
    form: a line for each row of a table, each paragraph and each group of counts."""

    def __init__(self, page):
        super().__init__(convert_charrefs=True)
        self.tags, self.rows, self.cell, self.form, self.text = [], [], None, None, ''
        self.feed(page.decode('utf-8', 'replace'))
        self.close()
        lines = [' '.join(line.split()).strip('| ') for line in self.text.split('\0')]
        self.text = ''.join(line + '\n' for line in lines if line)

    def handle_starttag(self, tag, attributes):
        held = {'href', 'value'}
        self.tags.append((tag, [(name, '' if name in held else value) for name, value in attributes]))
        if tag == 'form':
            self.form = True
        if tag == 'tr':
            self.rows.append([])
        if tag == 'td' and self.rows:
            self.rows[-1].append('')
            self.cell = True

    def handle_endtag(self, tag):
        self.tags.append(('/' + tag, []))
        self.text += {'td': ' | ', 'th': ' | ', 'a': ' ', 'span': ' '}.get(
            tag, '\0' if tag in ('title', 'h1', 'h2', 'p', 'div', 'nav', 'caption', 'tr', 'footer') else '')
        if tag == 'form':
            self.form = None
        if tag == 'td':
            self.cell = None

    def handle_data(self, data):
        if not self.form:
            self.text += data
        if self.cell:
            self.rows[-1][-1] += data


def page_of(host, service, output, author, text, now):
    return b'\n'.join([
        b'status %d' % now,
        b'object;%s;;DOWN;%d;stale;normal;1;%s' % (host, now - 40, output),
        b'object;%s;%s;CRITICAL;%d;fresh;-;0;%s' % (host, service, now - 5, output),
        b'comment;1;%s;%s;user;1;%d;%s;%s' % (host, service, now - 9, author, text),
        b'downtime;2;%s;;fixed;0;%d;%d;0;%d;%s;%s' % (host, now - 60, now + 60, now - 60, author, text),
        b'']) 


def test_texts(now):
    """The tags of a page are the same whatever the texts are."""
    bad = bytes(byte for byte in range(1, 256) if byte not in b'\n;')
    texts = {
        'script': b'<script>alert(1)</script>',
        'quotes': b'"\' onload="alert(1)" x=\'',
        'references': b'&lt;&#60;&amp;&',
        'comment': b'--><!-- <![CDATA[ ]]>',
        'broken UTF-8': b'\xff\xfe\xc3(\xe2\x82<b>\xf0\x9f',
        'every byte': bad,
        'end of the title': b'</title></td></table><h1>',
    }
    plain = None
    for name, text in [('plain', b'plain'), *texts.items()]:
        author = text.replace(b';', b',')
        # What a name may hold: of the host the first bytes, of the service the last.
        name_text = bytes(byte for byte in author if byte >= 32 and byte != 127).strip()
        gateway = shows(page_of(name_text[:63], name_text[-127:], text + b';' + text, author, text, now))
        with Web(('east', gateway.port)) as web:
            response, page = web.ask('/?host=' + urllib.parse.quote_from_bytes(text[:3]))
            found = Tags(web.text('/'))
            filtered = Tags(page)
            read = web.json()
        if plain is None:
            plain = found
            test('a page of plain texts has four rows', len(found.rows) == 7, found.rows)
            continue
        test(f'tags are the same with {name}', found.tags == plain.tags, found.tags)
        test(f'no script with {name}', all(tag != 'script' for tag, _ in filtered.tags))
        test(f'the output is read again with {name}',
             read['objects'][0]['output'].encode('utf-8', 'replace')
             == (text + b';' + text).decode('utf-8', 'replace').encode('utf-8', 'replace'),
             read['objects'][0])


def east(now):
    return (b'status %d\n' % now
            + b'object;web1;;UP;%d;fresh;-;0;up\n' % (now - 10)
            + b'object;web1;HTTP;CRITICAL;%d;fresh;sticky;0;acknowledged\n' % (now - 10)
            + b'object;app1;;DOWN;%d;fresh;-;0;down\n' % (now - 20))


PAGES = 'scenarios/status_pages/'
# The moment of the pages there, which are played as if it were now.
MOMENT = 4000000000


def data(file):
    with open(PAGES + file, 'rb') as opened:
        return opened.read()


def moved(text, now):
    """A page with its moments near `MOMENT` as near this one."""
    return re.sub(rb'(?<![0-9])(?:399|400)[0-9]{7}(?![0-9])', lambda found: b'%d' % (int(found[0]) - MOMENT + now), text)


def moved_back(answer, now):
    """An answer with its moments near this one as near `MOMENT`."""
    def back(moment):
        return moment - now + MOMENT if abs(moment - now) < 9000000 else moment

    def instant(found):
        moment = calendar.timegm(time.strptime(found[0].decode(), '%Y-%m-%d %H:%M:%SZ'))
        return time.strftime('%Y-%m-%d %H:%M:%SZ', time.gmtime(back(moment))).encode()
    answer = re.sub(rb'(?<![0-9])[0-9]{10}(?![0-9])', lambda found: b'%010d' % back(int(found[0])), answer)
    return re.sub(rb'[0-9]{4}-[0-9]{2}-[0-9]{2} [0-9:]{8}Z', instant, answer)


def run_pages(name, files):
    """Whether the files of a name are what is shown of its pages, which are those of the gateways."""
    pages = sorted((file for file in files if file.endswith('.page')), key=lambda file: (file != name + '.page', file))
    now = int(time.time())
    gateways = [('east' if file == name + '.page' else file.split('.')[1], shows(moved(data(file), now)).port)
                for file in pages]
    query = '?' + data(name + '.query').decode().strip() if name + '.query' in files else ''
    kinds = [file.rpartition('.')[2] for file in files if file not in pages and file != name + '.query']
    test(f'{name} has pages and what they show',
         pages and kinds and {*kinds} <= {'html', 'json', 'metrics', 'object', 'text'}, files)
    with Web(*gateways) as web:
        if 'json' in kinds:
            expected = json.dumps(json.loads(data(name + '.json')), ensure_ascii=False, separators=(',', ':')).encode()
            answer = moved_back(web.text('/status.json' + query), now)
            test(f'{name}.json', answer == expected, answer)
        if 'metrics' in kinds:
            answer = moved_back(web.text('/metrics' + query), now)
            test(f'{name}.metrics', answer == data(name + '.metrics'), answer)
        if 'text' in kinds:
            text = Tags(moved_back(web.text('/' + query), now)).text
            test(f'{name}.text', text.encode() == data(name + '.text'), text)
        for kind, path in [('html', '/'), ('object', '/object')]:
            if kind in kinds:
                answer = moved_back(web.text(path + query), now)
                test(f'{name}.{kind}', answer == data(f'{name}.{kind}'), answer)


def test_pages():
    files = os.listdir(PAGES)
    for name in sorted({file.split('.')[0] for file in files}):
        run_pages(name, [file for file in files if file.split('.')[0] == name])


def test_faults(now):
    """Gateways that show no page are alarms, and the others are shown."""
    good = shows(east(now))
    cut = shows(east(now)[:-20])
    http_one = shows(b'HTTP/1.1 400 Bad Request\r\n\r\n')
    mute = Port(lambda connection: time.sleep(60))
    still = shows(east(now - 120))
    closing = shows(lambda: east(now) + b'closing;%d\n' % now)
    with Web(('good', good.port), ('down', free_port()), ('mute', mute.port), ('endless', Port(endless).port),
             ('dripping', Port(dripping).port), ('cut', cut.port), ('http', http_one.port),
             ('empty', shows(b'').port), ('still', still.port), ('closing', closing.port)) as web:
        began = time.time()
        page, read, metrics = at_once(lambda: web.text('/'), web.json, lambda: web.text('/metrics'))
        took = time.time() - began
        test('pages over bad gateways take at most 8 s', took < 8, took)
        test('all three come of one fetch', mute.count == 1, mute.count)
        began = time.time()
        web.text('/')
        took = time.time() - began
        test('a page over bad gateways that were fetched takes less than a second', took < 1, took)
        for name, cause in [('down', "it can&#39;t be reached"), ('mute', 'its page takes too long'),
                            ('endless', 'its page is too long'), ('dripping', 'its page takes too long'),
                            ('cut', 'damaged or cut off at line 4'), ('http', 'does not show a status page'),
                            ('empty', 'does not show a status page'), ('still', 'stands still'),
                            ('closing', 'is closing')]:
            alarm = f'<p class="alarm" role="alert"><strong>Gateway <bdi>{name}</bdi></strong>'
            lines = [line for line in page.decode().split('\n') if line.startswith(alarm)]
            test(f'an alarm: {name}', len(lines) == 1 and html.unescape(cause) in html.unescape(lines[0]), page[:3000])
        test('the good gateway has no alarm', b'Gateway <bdi>good' not in page)
        test('its objects are shown', b'acknowledged' in page and b'web1' in page)
        reachable = {row['name']: row['reachable'] for row in read['gateways']}
        test('JSON names who can be read', reachable == {
            'good': True, 'down': False, 'mute': False, 'endless': False, 'dripping': False, 'cut': False,
            'http': False, 'empty': False, 'still': False, 'closing': True}, reachable)
        alarms = {row['name']: row['alarms'] for row in read['gateways']}
        test('JSON names the alarms', alarms == {
            **dict.fromkeys(alarms, ['no page']), 'good': [], 'still': ['stands still'], 'closing': ['closing']}, alarms)
        named = sorted(tuple(value for _, value in labels) for name, labels in samples_of(metrics) if name == 'nscagate_alarm')
        test('metrics name the same', named == sorted((name, alarm) for name in alarms for alarm in alarms[name]), named)
        up = [line for line in metrics.decode().split('\n') if line.startswith('nscagate_up')]
        test('metrics name who can be read', 'nscagate_up{gateway="cut"} 0' in up
             and 'nscagate_up{gateway="good"} 1' in up, up)
    with Web(('down', free_port()), ('gone', free_port())) as web:
        page, read = web.text('/'), web.json()
        test('without a page of any gateway the status is 503', [web.ask(path)[0].status for path in (
            '/', '/status.json', '/metrics', '/changes', '/style.css')] == [503, 503, 200, 200, 200])
        test('a page over no gateway', page.count(b'<p class="alarm"') == 2 and read['objects'] == [], page[:3000])


def test_places(now):
    """A gateway without a name has its address as its name."""
    places = [f'127.0.0.1:{shows(east(now)).port}', f'[::1]:{free_port()}']
    with Web(words=[word for place in places for word in ('--gateway', place)]) as web:
        found = [(row['name'], row['reachable']) for row in web.json()['gateways']]
        test('gateways without names', found == [*zip(places, [True, False])], found)


def test_sharing(now):
    gateway = shows(east(now))
    with Web(('east', gateway.port)) as web:
        web.text('/')
        before = gateway.count
        began = time.time()
        pages = at_once(*[lambda: web.text('/')] * 100)
        took = time.time() - began
        test('browsers share the fetches', gateway.count - before <= took + 1, (gateway.count - before, took))
        test('each has the page', all(b'web1' in page for page in pages))


def soon(found, seconds=5):
    """What this function returns, as soon as it is true, or else after these seconds."""
    ends = time.time() + seconds
    while not (value := found()) and time.time() < ends:
        time.sleep(0.2)
    return value


def test_old(now):
    """The last page of a gateway that can't be reached stays, marked as old; one that shows fewer objects is an alarm."""
    text = [east(now)]
    gateway = shows(lambda: text[0])
    with Web(('east', gateway.port)) as web:
        fresh = web.json()
        test('a new page', fresh['gateways'] == [dict(
            name='east', reachable=True, moment=now, closing=None, alarms=[])]
             and not any(row['stale'] for row in fresh['objects']), fresh)
        before = samples_of(web.text('/metrics'))
        text[0] = b'HTTP/1.1 400 Bad Request\r\n\r\n'
        old = soon(lambda: (read := web.json())['gateways'][0].get('age') and read)
        test('JSON names the age of an old page and why there is no newer one', old and {
            **old['gateways'][0], 'age': 1} == dict(
                name='east', reachable=False, fault='it does not show a status page', moment=now, closing=None, age=1,
                alarms=['no new page']), old)
        test('the objects of an old page stay, and are stale', old and sorted(old['objects'], key=str) == sorted(
            ({**row, 'stale': True} for row in fresh['objects']), key=str), old)
        samples = samples_of(web.text('/metrics'))
        label = (('gateway', 'east'),)
        test('an old page is not up, and has its age', before['nscagate_up', label] == 1
             and before['nscagate_page_age_seconds', label] == 0 and samples['nscagate_up', label] == 0
             and samples['nscagate_page_age_seconds', label] > 0, samples)
        problems = {key: number for key, number in before.items() if key[0] == 'nscagate_problem'}
        test('its problems are named', len(problems) == 2 and problems.items() <= samples.items(), samples)
        kept = ['nscagate_problems_unhandled', 'nscagate_objects_acknowledged']
        test('its problems are counted', all(samples[name, ()] == before[name, ()] > 0 for name in kept)
             and samples['nscagate_objects_stale', ()] == 3, samples)
        page = html.unescape(Tags(web.text('/')).text)
        test('its alarm', re.search('Gateway east shows no new page: it does not show a status page. The one of '
                                    '[0-9]+ s ago is shown, and its objects are stale.\n', page), page)
        test('a mark and its age at each row', len(re.findall(r'\n(?:DOWN|UP|CRITICAL) .* stale .*s ago', page)) == 3, page)
        text[0] = east(now)
        again = soon(lambda: (read := web.json())['gateways'][0]['reachable'] and read)
        test('a page that is read again is new', again == fresh, again)
        text[0] = east(now).rpartition(b'object;')[0]
        alarm = soon(lambda: (page := Tags(web.text('/')).text) if 'has shown' in Tags(web.text('/')).text else '')
        test('a page with fewer objects is an alarm', 'Gateway east shows 2 objects, and has shown 3. '
             'Its page may be cut off.\n' in alarm, alarm)
        gateway.listener.shutdown(socket.SHUT_RDWR)
        gone = soon(lambda: (read := web.json())['gateways'][0].get('fault') and read)
        test('a gateway that is down', gone and gone['gateways'][0]['fault'] == "it can't be reached"
             and len(gone['objects']) == 2, gone)


def host(moment, state, age, name=b'web1'):
    """A page of this moment with one host, whose result is so many seconds old by it."""
    last = b'-' if age is None else b'%d' % (moment - age)
    return b'status %d\nobject;%s;;%s;%s;fresh;-;0;x\n' % (moment, name, state, last)


def test_clocks(now):
    """A page of another time is an alarm and old, and its rows hide none of another gateway."""
    def shown(*pages):
        """The gateways, the row, the samples and the text of these pages, each of a gateway with its index as its name."""
        with Web(*[(str(index), shows(page).port) for index, page in enumerate(pages)]) as web:
            read = web.json()
            return read['gateways'], read['objects'][0], samples_of(web.text('/metrics')), Tags(web.text('/')).text
    for page, words, alarm, fault, age in [
            (host(now + 7200, b'UP', 600), 'has a clock that is (2 h|119 min) ahead: one of the two clocks is wrong. '
             'Its objects are stale.', 'clock ahead', 'its clock is ahead', 0),
            (host(now - 259200, b'UP', 5), 'stands still: its page is 3 d old, and its objects are stale. Its log may be full.',
             'stands still', 'it stands still', 259200)]:
        gateways, row, samples, text = shown(page, host(now, b'DOWN', 20))
        test(f'a host that is DOWN is not hidden: {alarm}', row['gateway'] == '1' and row['state'] == 'DOWN'
             and not row['stale'] and samples['nscagate_problems_unhandled', ()] == 1, row)
        test(f'an alarm on the page: {alarm}', re.search(f'\nGateway 0 {words}\n', text), text)
        gateway = gateways[0]
        test(f'an alarm in JSON: {alarm}', (gateway['reachable'], gateway['fault'], gateway['alarms'])
             == (False, fault, [alarm]) and age <= gateway['age'] < age + 60, gateway)
        label = ('gateway', '0')
        test(f'an alarm in the metrics: {alarm}', samples['nscagate_alarm', (label, ('alarm', alarm))] == 1
             and samples['nscagate_up', (label,)] == 0
             and age <= samples['nscagate_page_age_seconds', (label,)] < age + 60, samples)
        gateways, row, samples, text = shown(page)
        test(f'its rows are stale, where no other gateway has them: {alarm}', row['stale']
             and samples['nscagate_objects_stale', ()] == 1 and text.startswith('(1) '), (row, text))
        ago = {'clock ahead': '10 min ago', 'stands still': '3 d ago'}[alarm]
        test(f'and of their age: {alarm}', re.search(f'\nUP .* stale .* {ago} ', text), text)
        _, row, _, _ = shown(page, host(now, b'PENDING', None))
        test(f'PENDING is shown where no gateway has a result alone: {alarm}', row['gateway'] == '0', row)
    for moment, alarms in [(now + 50, []), (now + 90, ['clock ahead']), (now - 30, []), (now - 61, ['stands still'])]:
        gateways, _, _, _ = shown(host(moment, b'UP', 5))
        test(f'the alarms of a page of {moment - now} s', gateways[0]['alarms'] == alarms, gateways)
    _, row, _, _ = shown(host(now + 30, b'UP', 20), host(now, b'DOWN', 10))
    test('ages are compared, and not moments', row['gateway'] == '1', row)
    _, row, _, _ = shown(host(now, b'UP', 10), host(now, b'DOWN', 10))
    test('of equal ages the first', row['gateway'] == '0', row)


def test_since(now):
    """Since when each object has its state, and the changes of states, of all pages that were fetched."""
    def page(moment, *states):
        return b'status %d\n' % moment + b''.join(
            b'object;web1;%s;%s;%d;fresh;-;0;x\n' % (service, state, moment) for service, state in states)
    pages = [page(now, (b'', b'UP'), (b'HTTP', b'OK')),
             page(now + 1, (b'', b'UP'), (b'HTTP', b'CRITICAL')),
             b'HTTP/1.1 400 Bad Request\r\n\r\n',
             page(now + 3, (b'', b'UP'), (b'HTTP', b'CRITICAL')),
             page(now + 4, (b'', b'DOWN'), (b'HTTP', b'CRITICAL'), (b'SSH', b'OK'))]
    wanted = [{'': now, 'HTTP': now}, {'': now, 'HTTP': now + 1}, {'': now, 'HTTP': now + 1}, {'': now, 'HTTP': now + 1},
              {'': now + 4, 'HTTP': now + 1, 'SSH': now + 4}]
    text = [pages[0]]
    gateway = shows(lambda: text[0])
    with Web(('east', gateway.port)) as web:
        for number, (text[0], since) in enumerate(zip(pages, wanted)):
            count = gateway.count
            soon(lambda: gateway.count >= count + 2)
            found = {row['service'] or '': row['since'] for row in web.json()['objects']}
            test(f'since when, of page {number + 1}', found == since, (found, since))
            least = {row['service'] or '': row['since_at_least'] for row in web.json()['objects']}
            test(f'at least since then, of page {number + 1}', least == {
                service: moment == now for service, moment in since.items()}, least)
        rows = {row[1]: row[3] for row in Tags(web.text('/')).rows if row}
        test('a state of the first page is older than that', rows == {
            'web1': '0 s ago', 'web1 / HTTP': '3 s ago', 'web1 / SSH': '0 s ago'}, rows)
        text[0] = page(now + 5, (b'', b'DOWN'), (b'HTTP', b'CRITICAL'), (b'SSH', b'OK'))
        with Web(('east', gateway.port)) as again:
            rows = {row[1]: row[3] for row in Tags(again.text('/')).rows if row}
            test('so is each after a restart', {*rows.values()} == {'over 0 s'} and len(rows) == 3, rows)
        text[0] = pages[-1]
        soon(lambda: web.json()['gateways'][0]['moment'] == now + 4)
        found = shown_in(web.text('/?sort=since'))
        test('the latest first', found == ['web1', 'web1/SSH', 'web1/HTTP'], found)


def test_restarts(now):
    """A gateway that has lost its results, as after a restart without a restore: each object is shown by its last one, as stale,
    until its next one. For an hour at most, where its gateway doesn't call it stale."""
    def page(moment, *rows):
        return b'status %d\n' % moment + b''.join(
            b'object;web1;%s;%s;%s;%s;%s;0;%s\n' % (name.encode(), state.encode(), b'-' if last is None else b'%d' % last,
                                                   mark.encode(), acknowledgement.encode(), output.encode())
            for name, state, last, mark, acknowledgement, output in rows)

    def row(name, state, last, mark='fresh', acknowledgement='-', output='x'):
        return name, state, last, mark, acknowledgement, output

    def lost(*names, mark='fresh'):
        return [row(name, 'PENDING', None, mark, output='') for name in names]
    host, http, ssh = row('', 'DOWN', now - 60), row('HTTP', 'CRITICAL', now - 30, 'fresh', 'sticky', 'timeout'), row('SSH', 'OK', now - 20)
    names = ['', 'HTTP', 'SSH', 'new']
    # What is shown of the four objects: the state, and whether it is stale, which 'new' never is; and the moment since when.
    problem = [('DOWN', now), ('CRITICAL', now), ('OK', now)]
    steps = [
        ('at first', page(now, host, http, ssh, *lost('new')), problem + [('PENDING', now)], []),
        ('without results', page(now + 1, *lost(*names)), problem + [('PENDING', now)], ['', 'HTTP', 'SSH']),
        ('with one result', page(now + 2, row('', 'DOWN', now + 2), *lost(*names[1:])), problem + [('PENDING', now)], ['HTTP', 'SSH']),
        ('without results again', page(now + 3, *lost(*names)), problem + [('PENDING', now)], ['', 'HTTP', 'SSH']),
        ('with all results', page(now + 4, row('', 'DOWN', now + 3), row('HTTP', 'CRITICAL', now + 4), row('SSH', 'OK', now + 4),
                                  row('new', 'OK', now + 4)), problem + [('OK', now + 4)], []),
    ]
    text = [steps[0][1]]
    gateway = shows(lambda: text[0])
    with Web(('east', gateway.port)) as web:
        for name, text[0], wanted, stale in steps:
            count = gateway.count
            soon(lambda: gateway.count >= count + 2)
            read = web.json()['objects']
            found = {row['service'] or '': row for row in read}
            test(f'states and since when, {name}', [(found[name]['state'], found[name]['since']) for name in names] == wanted, read)
            test(f'what is stale, {name}', sorted(name for name in names if found[name]['stale']) == stale, read)
            test(f'at least since then, {name}', all(found[name]['since_at_least'] for name in names[:3]), read)
            samples = samples_of(web.text('/metrics'))
            problems = sorted(dict(key[1])['service'] for key in samples if key[0] == 'nscagate_problem')
            test(f'problems stay in the metrics, {name}', problems == ['', 'HTTP'], samples)
            test(f'stale objects are counted, {name}', samples['nscagate_objects_stale', ()] == len(stale)
                 and not any(key[0] == 'nscagate_stale' for key in samples), samples)
            rows = {row[1]: row[0] for row in Tags(web.text('/')).rows if row}
            test(f'on the page, {name}', [rows[shown] for shown in ['web1', 'web1 / HTTP', 'web1 / SSH', 'web1 / new']]
                 == [state for state, _ in wanted], rows)
            object_page = Tags(web.text('/object?host=web1&service=HTTP')).text
            test(f'on the page of an object, {name}', 'CRITICAL' in object_page and 'PENDING' not in object_page, object_page)
            test(f'no change, {name}', web.text('/changes.json') == b'', web.text('/changes.json'))
            if name == 'without results':
                http_row = found['HTTP']
                test('a row by its last result', (http_row['last'], http_row['acknowledgement'], http_row['output'])
                     == (now - 30, 'sticky', 'timeout'), http_row)
        text[0] = page(now + 5, *lost(*names))
        count = gateway.count
        soon(lambda: gateway.count >= count + 2)
        text[0] = page(now + 6, row('', 'UP', now + 6), row('HTTP', 'WARNING', now + 6), *lost(*names[2:]))
        soon(lambda: web.text('/changes.json'))
        changes = [json.loads(line) for line in web.text('/changes.json').splitlines()]
        test('a change is from the last result', sorted((change['service'] or '', change['from'], change['to'], change['moment'])
             for change in changes) == [('', 'DOWN', 'UP', now + 6), ('HTTP', 'CRITICAL', 'WARNING', now + 6)], changes)

    # An hour, of which all but the last seconds lie before: pages of another time are taken in too, with an alarm.
    first = now - 3590
    steps = [(first - 100, [row('', 'DOWN', first - 200)], None), (first, lost(''), None),
             (now, lost(''), ('DOWN', first - 100, True, False)), (first + 3599, lost(''), ('DOWN', first - 100, True, False)),
             (first + 3600, lost(''), ('PENDING', first, False, False)),
             (first + 3601, lost('', mark='stale'), ('DOWN', first - 100, True, True)),
             (first + 3602, [row('', 'DOWN', first + 3602)], ('DOWN', first - 100, False, False))]
    text = [page(steps[0][0], *steps[0][1])]
    gateway = shows(lambda: text[0])
    with Web(('east', gateway.port)) as web:
        for moment, rows, wanted in steps:
            text[0] = page(moment, *rows)
            count = gateway.count
            soon(lambda: gateway.count >= count + 2)
            if wanted:
                read = web.json()['objects'][0]
                samples = samples_of(web.text('/metrics'))
                is_named = any(key[0] == 'nscagate_stale' for key in samples)
                test(f'{moment - first} s after the first page without a result',
                     (read['state'], read['since'], read['stale'], is_named) == wanted, (read, samples))
        test('no change in all that time', web.text('/changes.json') == b'', web.text('/changes.json'))


# The page and the feed of one change, with its moment in place of AT and SECONDS.
CHANGES = '''\
<!DOCTYPE html>
<html lang="en"><head><meta charset="utf-8"><meta name="viewport" content="width=device-width,initial-scale=1">\
<meta http-equiv="refresh" content="30"><link rel="stylesheet" href="/style.css">\
<link rel="alternate" type="application/atom+xml" href="/changes.atom"><title>nscagate</title></head>
<body><header><h1><a href="/">nscagate</a></h1><nav aria-label="Pages"><a href="/">Status</a> \
<a href="/changes">Changes</a> <a href="/comments">Comments</a> <a href="/downtime">Downtime</a></nav><p><bdi>east</bdi> at <time datetime="AT">AT</time></p>\
<p><bdi>west</bdi> at <time datetime="WEST">WEST</time></p></header>
<main>
<table><caption><h2>Changes of states</h2>1 shown, the newest first: of each gateway the last 1,000 since this program started</caption>
<thead><tr><th scope="col">Time</th><th scope="col">Object</th><th scope="col">From</th><th scope="col">To</th>\
<th scope="col">Gateway</th></tr></thead><tbody>
<tr class="critical"><td class="num cell"><time datetime="AT">AT</time></td>\
<td class="name"><a href="/object?host=web%2F1&amp;service=HTTP&amp;gateway=east"><bdi>web/1</bdi> <span class="soft">/</span> <bdi>HTTP</bdi></a></td>\
<td class="cell" data-name="from">OK</td>\
<td class="cell"><span class="badge state">CRITICAL</span></td><td class="cell soft" data-name="at">east</td></tr>
</tbody></table>
</main><footer><a href="/changes.json">changes.json</a> &middot; <a href="/changes.atom">changes.atom</a></footer>
</body></html>
'''
FEED = '''\
<?xml version="1.0" encoding="utf-8"?>
<feed xmlns="http://www.w3.org/2005/Atom"><id>nscagate:changes</id><title>nscagate</title><updated>AT</updated>\
<author><name>statusweb</name></author><link rel="self" href="/changes.atom"/><link href="/changes"/>
<entry><id>nscagate:change?gateway=east&amp;host=web%2F1&amp;service=HTTP&amp;moment=SECONDS&amp;from=OK&amp;to=CRITICAL</id>\
<title>web/1 / HTTP: OK to CRITICAL at east</title><updated>AT</updated><link href="/object?host=web%2F1&amp;service=HTTP&amp;gateway=east"/></entry>
</feed>
'''


def test_changes(now):
    """The changes of states on the pages of two gateways, as a page, as JSON lines and as a feed, the newest first."""
    def page(moment, host, *states):
        return b'status %d\n' % moment + b''.join(
            b'object;%s;%s;%s;%d;fresh;-;0;x\n' % (host, service, state, moment) for service, state in states)
    odd = '<b>"&\'ä\ufffd'
    texts = {'east': page(now, b'web/1', (b'', b'UP'), (b'HTTP', b'OK')),
             'west': page(now, odd[:-1].encode() + b'\xff', (b'', b'UP'), (b'a/b c', b'WARNING'))}
    gateways = {name: shows(lambda name=name: texts[name]) for name in texts}

    def show(name, text):
        texts[name] = text
        count = gateways[name].count
        soon(lambda: gateways[name].count >= count + 2)
    with Web(*[(name, gateway.port) for name, gateway in gateways.items()]) as web:
        test('no changes', web.text('/changes.json') == b'' and b'<caption><h2>Changes of states</h2>0 shown'
             in web.text('/changes') and b'<entry>' not in web.text('/changes.atom'))
        show('east', page(now + 1, b'web/1', (b'', b'UP'), (b'HTTP', b'CRITICAL')))

        def moment(seconds, between):
            return time.strftime(f'%Y-%m-%d{between}%H:%M:%SZ', time.gmtime(seconds))
        for path, between, text in [('/changes', ' ', CHANGES), ('/changes.atom', 'T', FEED)]:
            answer = web.text(path).decode()
            test(f'{path} of one change',
                 answer == text.replace('AT', moment(now + 1, between)).replace('SECONDS', str(now + 1))
                 .replace('WEST', moment(now, between)), answer)
        show('west', page(now + 2, odd[:-1].encode() + b'\xff', (b'', b'UP'), (b'a/b c', b'OK')))
        show('east', b'HTTP/1.1 400 Bad Request\r\n\r\n')
        text = Tags(web.text('/changes')).text
        test('the page of changes has the alarms', 'Gateway east shows no new page: it does not show a status page. The one of '
             in text and 'Gateway west' not in text, text)
        show('east', page(now + 4, b'web/1', (b'', b'DOWN'), (b'HTTP', b'CRITICAL')))
        wanted = [(now + 4, 'east', 'web/1', None, 'UP', 'DOWN'), (now + 2, 'west', odd, 'a/b c', 'WARNING', 'OK'),
                  (now + 1, 'east', 'web/1', 'HTTP', 'OK', 'CRITICAL')]
        response, lines = web.ask('/changes.json')
        rows = [dict(zip(('moment', 'gateway', 'host', 'service', 'from', 'to'), row)) for row in wanted]
        test('changes as JSON lines', lines == b''.join(json.dumps(
            row, ensure_ascii=False, separators=(',', ':')).encode() + b'\n' for row in rows)
            and response.getheader('content-type') == 'application/x-ndjson', lines)
        found = Tags(web.text('/changes'))
        test('changes as a page', [row for row in found.rows if row] == [
            [moment(when, ' '), host + (f' / {service}' if service else ''), before, after, at]
            for when, at, host, service, before, after in wanted], found.rows)
        response, feed = web.ask('/changes.atom')
        read = xml.etree.ElementTree.fromstring(feed)
        atom = '{http://www.w3.org/2005/Atom}'
        test('changes as a feed', [(entry.findtext(atom + 'title'), entry.findtext(atom + 'updated'))
                                   for entry in read.iter(atom + 'entry')] == [
            (host + (f' / {service}' if service else '') + f': {before} to {after} at {at}', moment(when, 'T'))
            for when, at, host, service, before, after in wanted]
            and response.getheader('content-type') == 'application/atom+xml', feed)
        ids = [entry.findtext(atom + 'id') for entry in read.iter(atom + 'entry')]
        test('its ids and its links', len({*ids}) == 3 and ids[2] == 'nscagate:change?gateway=east&host=web%2F1&service=HTTP'
             f'&moment={now + 1}&from=OK&to=CRITICAL' and read.findtext(atom + 'updated') == moment(now + 4, 'T')
             and urllib.parse.parse_qs(urllib.parse.urlsplit(read.findall(atom + 'entry')[0].find(
                 atom + 'link').get('href')).query) == {'host': ['web/1'], 'gateway': ['east']}, feed)
        test('each page links to them', b'<a href="/changes">' in web.text('/') and b'href="/changes.atom"' in web.text('/'))


def test_links(now):
    """A link leads to what it names, whatever bytes that has, and to nothing else."""
    odd = b'gr\xfcn +&%'

    def page(moment, service, entries=b''):
        return b'status %d\n' % moment + b''.join(
            b'object;%s;;UP;%d;fresh;-;0;x\nobject;%s;a b;%s;%d;fresh;-;0;x\n' % (host, moment, host, service, moment)
            for host in (b'web1', b'web10', odd)) + entries
    entries = b''.join(b'comment;%d;%s;%s;user;1;%d;ann;x\n' % (index, host, service, now - 9) for index, (host, service) in enumerate(
        [(b'web1', b''), (b'web10', b'a b'), (odd, b'a b')], 1)) + b''.join(
        b'downtime;%d;%s;%s;fixed;0;%d;%d;0;-;ann;x\n' % (index, host, service, now + 60, now + 99)
        for index, (host, service) in enumerate([(b'web1', b'a b'), (b'web10', b''), (odd, b'')], 1))
    texts = {name: page(now, b'OK', entries) for name in ('east', 'west')}
    gateways = {name: shows(lambda name=name: texts[name]) for name in texts}

    def rows_of(link):
        """The status of an object's page, and its rows: of the objects, the comments, the downtime entries and the changes."""
        response, answer = web.ask(link)
        tables = [Tags(table).rows for table in answer.split(b'<table>')[1:]]
        return response.status, [[row[:] for row in rows if row] for rows in tables]

    def links_in(text, begin):
        return [html.unescape(link) for link in re.findall(begin + '<a href="([^"]*)"', text.decode('latin-1'))]
    with Web(*[(name, gateway.port) for name, gateway in gateways.items()]) as web:
        web.text('/')
        texts['east'] = page(now + 1, b'CRITICAL', entries)
        count = gateways['east'].count
        soon(lambda: gateways['east'].count >= count + 2)
        for path, links in [
                ('/changes', links_in(web.text('/changes'), '<td class="name">')),
                ('/changes.atom', [entry.find('{*}link').get('href') for entry in xml.etree.ElementTree.fromstring(
                    web.text('/changes.atom')).iter('{http://www.w3.org/2005/Atom}entry')])]:
            found = [(status, [row[1] for row in rows[0]], [row[-1] for row in rows[0]], [row[1:] for row in rows[-1]])
                     for status, rows in map(rows_of, links)]
            wanted = [(200, [name + ' / a b'], ['east'], [[name + ' / a b', 'OK', 'CRITICAL', 'east']])
                      for name in ('gr\ufffdn +&%', 'web10', 'web1')]
            test(f'{path} leads to the objects at the gateway', sorted(found) == sorted(wanted), (links, found))
        links = links_in(web.text('/'), '<tr><td class="name">')
        found = [(status, rows[0][0][1]) for status, rows in map(rows_of, links)]
        name = 'gr\ufffdn +&%'
        test('a comment and a downtime entry lead to their objects', sorted(found) == sorted(
            (200, one) for one in [name, name + ' / a b', 'web1', 'web1 / a b', 'web10', 'web10 / a b']), (links, found))
        for host in (b'web1', b'web10', odd):
            quoted = urllib.parse.quote_plus(host)
            response, answer = web.ask(f'/object?host={quoted}&service=a+b')
            links = links_in(answer, '</h2>') + links_in(answer, ' &middot; ')[:1]
            shown = [shown_in(web.text(link)) for link in links]
            test(f'an object leads to its host, and to the objects of that: {host}', links == [
                f'/object?host={quoted}&service=', f'/?hostname={quoted}'] and shown == [
                    [quoted] * 2, [quoted + '/a+b', quoted]], (links, shown))
            read = web.json('/status.json?hostname=' + quoted)
            test(f'comments and downtime by the exact name: {host}', [
                row['host'] for table in ('objects', 'comments', 'downtimes') for row in read[table]]
                == [host.decode('utf-8', 'replace')] * 6, read)
        response, answer = web.ask('/object?host=web1&service=')
        test('a host leads to no other host', links_in(answer, '</h2>') == ['/?hostname=web1'], answer)
        test('an object of a gateway that has none is not found',
             web.ask('/object?host=web1&service=&gateway=eas')[0].status == 404)
        _, rows = rows_of('/object?host=web1&service=&gateway=west')
        test('the comments of a gateway alone', [[row[-1] for row in table] for table in rows[:2]] == [
            ['west'], ['1 at east, 1 at west']], rows)
        heads = links_in(web.text('/?hostname=web1&host=w'), '<th scope="col">')
        test('the order keeps the exact name', len(heads) == 3 and all(
            link.startswith('/?hostname=web1&state=all&host=w&') and len(shown_in(web.text(link))) == 2 for link in heads), heads)


def test_other_objects(now):
    """Gateways whose addresses are swapped are alarms, and each new object that is a problem is a change."""
    def page(moment, state, *names):
        return b'status %d\n' % moment + b''.join(b'object;%s;;%s;%d;fresh;-;0;x\n' % (name, state, moment) for name in names)
    a, b = ([b'%c%d' % (letter, number) for number in range(10)] for letter in b'ab')
    texts = {'east': page(now, b'UP', *a), 'west': page(now, b'DOWN', *b), 'half': page(now, b'UP', *a), 'less': page(now, b'UP', *a)}
    gateways = {name: shows(lambda name=name: texts[name]) for name in texts}
    with Web(*[(name, gateway.port) for name, gateway in gateways.items()]) as web:
        test('a first page has no changes', web.text('/changes.json') == b'')
        texts.update(east=page(now + 1, b'DOWN', *b), west=page(now + 1, b'UP', *a),
                     half=page(now + 1, b'UP', *a[:5], *b[:5]), less=page(now + 1, b'UP', *a[:4], *b[:6]))
        counts = {name: gateway.count for name, gateway in gateways.items()}
        soon(lambda: all(gateways[name].count >= counts[name] + 2 for name in gateways))
        alarms = {row['name']: row['alarms'] for row in web.json()['gateways']}
        test('less than half of the names is an alarm', alarms == {
            'east': ['other objects'], 'west': ['other objects'], 'half': [], 'less': ['other objects']}, alarms)
        samples = samples_of(web.text('/metrics'))
        test('in the metrics', [samples.get(('nscagate_alarm', (('gateway', name), ('alarm', 'other objects'))))
                                for name in texts] == [1, 1, None, 1], samples)
        text = Tags(web.text('/')).text
        test('on the page', "Gateway east shows other objects than within the hour before: its address may be another "
             "gateway's.\n" in text, text)
        changes = [json.loads(line) for line in web.text('/changes.json').splitlines()]
        test('each new object that is a problem is a change', sorted(
            (row['gateway'], row['host'], row['from'], row['to']) for row in changes)
            == [('east', name.decode(), None, 'DOWN') for name in b], changes)
        rows = [row[1:] for row in Tags(web.text('/changes')).rows if row]
        test('from -', rows[-1] == ['b0', '-', 'DOWN', 'east'] and len(rows) == 10, rows)
        test('in the feed too', b'<title>b0: - to DOWN at east</title>' in web.text('/changes.atom'))


def test_idle_browsers(now):
    """1,000 connections that send nothing or half a request keep nobody waiting."""
    # Each takes a descriptor here and one there.
    resource.setrlimit(resource.RLIMIT_NOFILE, (4096, resource.getrlimit(resource.RLIMIT_NOFILE)[1]))
    with Web(('east', shows(east(now)).port)) as web:
        web.text('/')
        idle = [web.connect() for _ in range(1000)]
        for connection in idle[::2]:
            connection.sendall(b'GET / HTTP/1.1\r\n')
        began = time.time()
        page = web.text('/')
        took = time.time() - began
        print(f'beside 1,000 idle connections a page took {took:.3f} s', flush=True)
        test('1,000 idle connections keep nobody waiting', took < 1 and b'web1' in page, took)
        idle[1].settimeout(30)
        test('an idle connection ends without an answer', idle[1].recv(10) == b'')
        for connection in idle:
            connection.close()


def test_tiles(now):
    """The number of each tile is that of the objects that its link shows."""
    page = b'status %d\n' % now + b''.join(
        b'object;%s;%s;%s;%s;%s;-;0;x\n' % (host, service, state, b'-' if state == b'PENDING' else b'%d' % now, mark)
        for host, service, state, mark in [
            (b'a', b'', b'DOWN', b'fresh'), (b'a', b'1', b'CRITICAL', b'fresh'), (b'a', b'2', b'WARNING', b'stale'),
            (b'a', b'3', b'PENDING', b'fresh'), (b'a', b'4', b'UNKNOWN', b'fresh'), (b'b', b'', b'PENDING', b'fresh'),
            (b'b', b'1', b'OK', b'stale'), (b'c', b'', b'UNREACHABLE', b'fresh'), (b'd', b'', b'UP', b'fresh')])
    with Web(('east', shows(page).port)) as web:
        for query, numbers, head in [('?refresh=0', [2, 2, 2, 9, 1, 1, 1, 1, 1, 1, 1], 'State'),
                                     ('?host=A&state=up&sort=since&refresh=0', [1, 1, 1, 5, 1, 0, 0, 1, 1, 1, 0], 'Since'),
                                     ('?hostname=b&service=1&gateway=east&refresh=0', [0, 1, 0, 1, 0, 0, 0, 0, 0, 0, 1], 'State')]:
            text = web.text('/' + query).decode()
            tiles = re.findall('<a class="tile [^>]* href="([^"]*)"><b>([0-9]+)</b> ([a-z]+)', text)
            test(f'the tiles of {query}', [int(number) for _, number, _ in tiles] == numbers and [name for _, _, name in tiles] == [
                'unhandled', 'stale', 'pending', 'objects', 'down', 'unreachable', 'up', 'critical', 'warning', 'unknown', 'ok'], tiles)
            for link, number, name in tiles:
                shown = web.text(html.unescape(link)).decode()
                test(f'the tile {name} of {query}', f'</h2>{number} of 9 shown' in shown and 'http-equiv' not in shown
                     and f'ending">{head}</th>' in shown, shown[:2000])
            test(f'the title counts what needs attention: {query}', '<title>(3) nscagate' in text, text[:400])
        text = web.text('/?hostname=a&refresh=0').decode()
        test('the rows that need none are dimmed', text.count('<tr class="') == 5 and text.count(' handled"') == 4, text)


# What a query selects of the two gateways below, in the order of the list.
QUERIES = {
    '': 'db web1/HTTP web2/ssh web2 web1/disk web1',
    'host=WEB': 'web1/HTTP web2/ssh web2 web1/disk web1',
    'host=x&host=%65b2': 'web2/ssh web2',
    'service=http': 'web1/HTTP',
    'service=s': 'web2/ssh web1/disk',
    'output=disk+full': 'web2/ssh',
    'gateway=west': 'db web2/ssh web2',
    'hostname=web1': 'web1/HTTP web1/disk web1',
    'hostname=web2&hostname=db': 'db',
    'hostname=web&host=web': '',
    'hostname=WEB1': '',
    'hostname=web1&host=2': '',
    'gateway=wes': '',
    'gateway=WEST': '',
    'acknowledged=yes': 'web1/HTTP',
    'acknowledged=NO&state=problems': 'db web2/ssh',
    'downtime=Yes': 'web1/HTTP',
    'downtime=no&host=web1': 'web1/disk web1',
    'acknowledged=maybe&downtime=': 'db web1/HTTP web2/ssh web2 web1/disk web1',
    'service=HTTP&output=full': '',
    'state=warning&service=SSH&gateway=west&acknowledged=no&downtime=no': 'web2/ssh',
}

# The order of what these queries select of them.
ORDERS = {
    '': 'db web2/ssh web1/HTTP web1 web1/disk web2',
    'sort=HOST': 'db web1/HTTP web1 web1/disk web2/ssh web2',
    'sort=host&sort=output': 'db web2/ssh web1/HTTP web1 web1/disk web2',
    'sort=host&host=web&downtime=no': 'web1 web1/disk web2/ssh web2',
}


def shown_in(page):
    """The objects of a page's list, each as the link of its row names it."""
    links = re.findall(r'</span></td><td class="name"><a href="/object\?host=([^&]*)&amp;service=([^"]*)"', page.decode('latin-1'))
    return [host + ('/' + service if service else '') for host, service in links]


def test_filters(now):
    """A query selects by names, output, gateway and marks, in any case, on the page and for scripts."""
    head = b'status %d\n' % now
    one = head + (b'object;web1;;UP;%d;fresh;-;0;up\n' % now
                  + b'object;web1;HTTP;CRITICAL;%d;fresh;normal;1;refused\n' % now
                  + b'object;web1;disk;OK;%d;fresh;-;0;9 %% full\n' % now
                  + b'downtime;1;web1;HTTP;fixed;0;%d;%d;0;%d;ann;x\n' % (now - 9, now + 99, now - 9))
    two = head + (b'object;web2;;UP;%d;fresh;-;0;up\n' % now + b'object;web2;ssh;WARNING;%d;fresh;-;0;Disk FULL\n' % now
                  + b'object;db;;DOWN;%d;fresh;-;0;down\n' % now)
    with Web(('east', shows(one).port), ('west', shows(two).port)) as web:
        for query, wanted in QUERIES.items():
            page = web.text('/?' + query)
            test(f'the page of {query}', sorted(shown_in(page)) == sorted(wanted.split()), shown_in(page))
            found = [row['host'] + ('/' + row['service'] if row['service'] else '')
                     for row in web.json('/status.json?' + query)['objects']]
            test(f'the same for scripts of {query}', found == shown_in(page), found)
        for query, wanted in ORDERS.items():
            test(f'the order of {query}', shown_in(web.text('/?' + query)) == wanted.split(), wanted)
        text = web.text('/?sort=host&gateway=west').decode()
        heads = re.findall('<th scope="col"(?: aria-sort="([a-z]*)")?>(?:<a href="([^"]*)">)?([^<]*)', text)[:5]
        orders = {name: urllib.parse.parse_qs(html.unescape(link)[2:]) for _, link, name in heads if link}
        test('the heads of the columns', [head[0] for head in heads] == ['', 'ascending', '', '', '']
             and {name: order['sort'] + order['gateway'] + order['page'] for name, order in orders.items()} == {
                 'State': ['worst', 'west', '1'], 'Since': ['since', 'west', '1'], 'Last result': ['last', 'west', '1']}, heads)
        test('scripts have one order', web.json('/status.json?sort=host') == web.json())
        for query, wanted in [
                ('', ''), ('state=PROBLEMS&sort=host&page=2', 'state problems'), ('host=a+%3C', 'host has a <'),
                ('hostname=a&service=b', 'host is a service has b'), ('output=a&gateway=east', 'output has a gateway is east'),
                ('acknowledged=no&downtime=yes&host=', 'acknowledged no in downtime yes')]:
            lines = [line for line in Tags(web.text('/?' + query)).text.split('\n') if line.startswith('Filter')]
            test(f'what is asked for is named: {query}', lines == [('Filter ' + wanted).strip()], lines)
        text = web.text('/?service=%22%3E%3Cb%3E&acknowledged=no&filters=OPEN').decode()
        test('the form keeps what is asked', ' name="service" value="&quot;&gt;&lt;b&gt;"' in text
             and '<select name="acknowledged"><option>any</option><option>yes</option><option selected>no</option>' in text, text)


def test_form(now):
    """What is typed into the form is never lost: it stands on a page that isn't loaded again alone."""
    class Fields(html.parser.HTMLParser):
        """The fields of a page's form, as a browser sends them."""
        def __init__(self, page):
            super().__init__(convert_charrefs=True)
            self.fields, self.select, self.selected = {}, None, False
            self.feed(page.decode())

        def handle_starttag(self, tag, attributes):
            attributes = dict(attributes)
            if tag == 'input':
                self.fields[attributes['name']] = attributes['value']
            if tag == 'select':
                self.select = attributes['name']
            self.selected = tag == 'option' and 'selected' in attributes

        def handle_data(self, data):
            if self.selected:
                self.fields[self.select] = data
            self.selected = False
    with Web(('east', shows(east(now)).port), words=['--refresh', '40']) as web:
        for query, fields in [
                ('', {}), ('refresh=7', {'refresh': '7'}), ('state=down&host=%3Ca&sort=last&page=2', {'state': 'down', 'host': '<a', 'sort': 'last'}),
                ('hostname=w&service=s&output=o&gateway=east&acknowledged=no&downtime=yes', {
                    'hostname': 'w', 'service': 's', 'output': 'o', 'gateway': 'east', 'acknowledged': 'no', 'downtime': 'yes'})]:
            page = web.text('/?' + query)
            test(f'a page that is loaded again has no form: {query}', b'http-equiv="refresh"' in page and b'<form' not in page, page)
            link = html.unescape(re.search('<a href="([^"]*)">Filter</a>', page.decode())[1])
            form = web.text(link)
            test(f'a page with the form is not: {query}', b'http-equiv' not in form and b'>Filter</a>' not in form, form)
            found = Fields(form).fields
            test(f'the form has what was asked: {query}', found == {
                'sort': 'worst', 'state': 'all', 'host': '', 'hostname': '', 'service': '', 'output': '', 'gateway': '',
                'acknowledged': 'any', 'downtime': 'any', 'refresh': '40', **fields}, found)
            again = web.text('/?' + urllib.parse.urlencode(found))
            seconds = fields.get('refresh', '40')
            test(f'what it asks is loaded again: {query}', f'content="{seconds}"'.encode() in again and b'<form' not in again
                 and shown_in(again) == shown_in(web.text('/?' + query + '&page=1')), again)
        page = web.text('/?refresh=0')
        test('a page that is never loaded again has the form', b'http-equiv' not in page and b'<form' in page
             and Fields(page).fields['refresh'] == '0', page)
    with Web(('east', shows(east(now)).port), words=['--refresh', '0']) as web:
        test('so has each, where none is loaded again', b'<form' in web.text('/') and b'http-equiv' not in web.text('/'))


def test_rows(now):
    """A list of more than 500 objects has pages, whose links keep the query."""
    names = [f'host{number:04d}{service}' for number in range(401) for service in ['', '/a', '/b']][:1201]
    page = f'status {now}\n' + ''.join(
        f'object;{name.replace("/", ";")};OK;{now};fresh;-;0;x\n' if '/' in name else f'object;{name};;UP;{now};fresh;-;0;x\n'
        for name in names)
    with Web(('east', shows(page.encode()).port)) as web:
        text = web.text('/?host=HOST&refresh=7&downtime=no&sort=host').decode()
        test('a page has 500 rows', shown_in(text.encode()) == names[:500] and '</h2>500 of 1201 shown<' in text, text[:2000])
        links = re.search('<nav class="pages" aria-label="Rows">1201 selected, page (.*)</nav>', text).group(1)
        others = [html.unescape(link) for link in re.findall('<a href="([^"]*)">', links)]
        test('the pages are links', re.sub('<a href="[^"]*">', '<a>', links)
             == '<b aria-current="page">1</b> <a>2</a> <a>3</a>', links)
        pages = [web.text(link) for link in others]
        test('they show the rest', [name for other in pages for name in shown_in(other)] == names[500:], others)
        test('they keep the query', all(b'content="7"' in other and b'host has <bdi>HOST</bdi>' in other
                                        and b'aria-sort="ascending">Object' in other
                                        and b'<b aria-current="page">%d</b>' % number in other
                                        for number, other in enumerate(pages, 2)), others)
        test('500 rows are one page', b'class="pages"' not in web.text('/?host=host00')
             and len(shown_in(web.text('/?host=host00'))) == 300)
        for query, wanted in [('page=0', 500), ('page=1', 500), ('page=x', 500), ('page=3', 201), ('page=4', 0), ('page=4294967295', 0)]:
            found = shown_in(web.text('/?' + query))
            test(f'the rows of {query}', len(found) == wanted, len(found))
        test('scripts have all in one', len(web.json('/status.json?page=2')['objects']) == 1201)


def test_entries(now):
    """Comments and downtime entries have pages of 500 rows, and the list of objects has those of its rows alone."""
    names = [(f'host{number:04d}', service) for number in range(601) for service in ['', 'a b']]
    page = f'status {now}\n' + ''.join(
        f'object;{host};{service};{"OK" if service else "UP"};{now};fresh;-;{1 if service else 0};x\n' for host, service in names) + ''.join(
        f'comment;{index};{host};{service};user;1;{now};ann;text {index}\n' for index, (host, service) in enumerate(names, 1)) + ''.join(
        f'downtime;{index};{host};a b;fixed;0;{now - 9};{now + 99};0;{now - 9};bob;text {index}\n'
        for index, (host, _) in enumerate(names[::2], 1))

    def entries_in(answer):
        """The names in the rows of the lists of comments and of downtime entries, and the texts there."""
        tables = {re.search('<h2>([A-Z][a-z]*)', table)[1]: table for table in answer.decode().split('<table>')[1:]}
        return [[(urllib.parse.unquote_plus(host), urllib.parse.unquote_plus(service)) for host, service in re.findall(
            '<tr><td class="name"><a href="/object\\?host=([^&]*)&amp;service=([^"]*)"', tables.get(name, ''))]
            for name in ('Comments', 'Downtime')]

    def listed_in(answer):
        """The objects of the list, as their links name them."""
        return [(host, urllib.parse.unquote_plus(service)) for host, service in (
            (link + '/').split('/')[:2] for link in shown_in(answer))]
    with Web(('east', shows(page.encode()).port)) as web:
        for query in ['', '?page=3', '?host=host0007', '?service=a', '?state=up&page=2', '?host=nowhere']:
            answer = web.text('/' + query)
            shown = listed_in(answer)
            test(f'the comments and the downtime entries of the rows of {query}', entries_in(answer) == [
                [name for name in names if name in shown], [name for name in names if name in shown and name[1]]], answer[-3000:])
        for path, index, wanted in [('/comments', 0, names), ('/downtime', 1, names[1::2])]:
            answer = web.text(path + '?refresh=7&host=HOST')
            count = len(wanted)
            test(f'{path} has 500 rows', entries_in(answer)[index] == wanted[:500] and f'500 of {count} shown'.encode() in answer
                 and b'content="7"' in answer, answer[:3000])
            links = [html.unescape(link) for link in re.findall(
                '<a href="([^"]*)">', re.search(f'{count} selected, page (.*)</nav>', answer.decode())[1])]
            rest = [web.text(link) for link in links]
            test(f'the links of {path} lead to the rest', all(link.startswith(path + '?') for link in links)
                 and sum((entries_in(other)[index] for other in rest), []) == wanted[500:]
                 and all(b'content="7"' in other for other in rest), links)
            answer = web.text(path + '?hostname=host0600')
            test(f'{path} of one host', entries_in(answer)[index] == [name for name in wanted if name[0] == 'host0600']
                 and b'class="pages"' not in answer, answer)
            answer = web.text(path + '?hostname=host060')
            test(f'{path} of no host', f'<p>No {path[1:]}.</p>'.encode() in answer and b'<table>' not in answer, answer)
            test(f'each page leads to {path}', f'<a href="{path}">'.encode() in web.text('/') and f'<a href="{path}">'.encode() in answer)
            (whole, _), (head, body) = web.ask(path), web.ask(path, 'HEAD')
            test(f'HEAD {path}', whole.status == head.status == 200 and body == b''
                 and whole.getheader('content-type') == 'text/html; charset=utf-8', head.getheaders())
        test('scripts have all', [len(web.json()[name]) for name in ('comments', 'downtimes')] == [1202, 601])
    with Web(('down', free_port())) as web:
        test('without a page of any gateway they are 503 with the alarm', all(
            web.ask(path)[0].status == 503 and b'<p class="alarm"' in web.text(path) for path in ('/comments', '/downtime')))


def test_slow_browsers(now):
    """Connections that send nothing, a byte a second, or read nothing, hold nobody, and end."""
    large = b'status %d\n' % now + b''.join(
        b'object;host%d;;UP;%d;fresh;-;0;%s\n' % (number, now, b"x" * 6000) for number in range(1000))
    with Web(('east', shows(large).port)) as web:
        web.text('/?host=host999')
        time.sleep(1)  # Until all threads have what they wait with.
        at_first = sockets_of(web.process.pid)
        deaf = []
        for _ in range(8):
            connection = socket.socket()
            connection.setsockopt(socket.SOL_SOCKET, socket.SO_RCVBUF, 4096)
            connection.connect(('127.0.0.1', web.port))
            connection.sendall(b'GET / HTTP/1.1\r\nHost: localhost\r\n\r\n')
            deaf.append(connection)
        silent = [web.connect() for _ in range(24)]
        slow = [web.connect() for _ in range(8)]
        ends = []

        def drip(connection):
            try:
                for byte in b'GET / HTTP/1.1\r\nHost: localhost\r\nA: b' + b'c' * 40:
                    connection.sendall(bytes([byte]))
                    time.sleep(0.5)
            except OSError:
                pass
            ends.append(time.time())
        began = time.time()
        for connection in slow:
            threading.Thread(target=drip, args=(connection,), daemon=True).start()
        time.sleep(0.5)
        page = web.text('/?host=host999')
        took = time.time() - began
        test('slow browsers hold nobody', took < 2 and b'host999' in page, took)
        silent[0].settimeout(30)
        test('a silent connection ends without an answer', silent[0].recv(10) == b'')
        while len(ends) < len(slow) and time.time() < began + 20:
            time.sleep(0.1)
        test('slow connections end', len(ends) == len(slow) and max(ends) < began + 14, ends)
        while web.process.poll() is None and sockets_of(web.process.pid) > at_first and time.time() < began + 30:
            time.sleep(0.1)
        took = time.time() - began
        test('a browser that reads nothing loses its connection', sockets_of(web.process.pid) <= at_first and took < 25, took)
        for connection in deaf + silent + slow:
            connection.close()


def sockets_of(pid):
    folder = f'/proc/{pid}/fd'
    count = 0
    for name in os.listdir(folder):
        try:
            count += os.readlink(f'{folder}/{name}').startswith('socket:')
        except OSError:
            pass
    return count


def test_descriptors(now):
    """Where the descriptors are used up, connections wait, and are served afterwards."""
    with Web(('east', shows(east(now)).port), limits='-n 45') as web:
        held = [web.connect() for _ in range(60)]
        time.sleep(1)
        test('the program runs without descriptors', web.process.poll() is None)
        for connection in held:
            connection.close()
        ends = time.time() + 8
        page = b''
        while b'web1' not in page and time.time() < ends:
            time.sleep(0.5)
            page = web.text('/')
        test('it serves again', b'web1' in page, page[:1000])


def test_memory(now):
    """A page for which there is no memory: the others are shown, and later pages are shown again."""
    line = b'object;host%d;;UP;1;fresh;-;0;' + b'x' * 200 + b'\n'
    large = b'status %d\n' % now + b''.join(line % number for number in range(250000))
    text = [large]
    good = shows(east(now))
    with Web(('large', shows(lambda: text[0]).port), ('good', good.port), limits='-v 700000') as web:
        def ask():
            try:
                return web.text('/status.json')
            except (OSError, http.client.HTTPException):
                return None
        answers = at_once(*[ask] * 8)
        whole = [answer for answer in answers if answer is not None]
        test('an answer is whole, or there is none', all(json.loads(answer) for answer in whole))
        test('the program runs without memory', web.process.poll() is None, web.process.returncode)
        text[0] = east(now)
        time.sleep(1.5)
        pages = at_once(*[lambda: web.text('/')] * 40)
        test('all threads serve afterwards', all(b'web1' in page for page in pages))


def test_ends(now):
    """A signal ends it at once, and its port can be bound again at once."""
    gateway = shows(east(now))
    with Web(('east', gateway.port)) as web:
        web.text('/')
        began = time.time()
        web.process.terminate()
        status = web.process.wait(10)
        test('SIGTERM ends it', status == -signal.SIGTERM and time.time() < began + 1, status)
    with Web(('east', gateway.port), port=web.port) as again:
        test('its port is bound again', again.line == web.line and b'web1' in again.text('/'), again.line)
        # A browser that has gone before its answer does not end the program.
        for _ in range(20):
            connection = again.connect()
            connection.sendall(b'GET / HTTP/1.1\r\nHost: localhost\r\n\r\n')
            connection.setsockopt(socket.SOL_SOCKET, socket.SO_LINGER, struct.pack('ii', 1, 0))
            connection.close()
        test('browsers that go end nothing', b'web1' in again.text('/') and again.process.poll() is None)


GUARDS = ("content-security-policy: default-src 'none'; style-src 'self'; form-action 'self'; base-uri 'none'; frame-ancestors 'none'"
          '\r\nx-content-type-options: nosniff\r\nreferrer-policy: no-referrer\r\ncross-origin-resource-policy: same-origin'
          '\r\nconnection: close\r\n')


def exchange(web, sent):
    """All that is answered to these bytes."""
    with web.connect() as connection:
        connection.sendall(sent)
        answer = b''
        while piece := connection.recv(65536):
            answer += piece
        return answer


def undated(answer):
    """An answer without its date."""
    return re.sub(b'\r\ndate: [^\r]*', b'', answer, count=1).decode()


def test_requests(now):
    with Web(('east', shows(east(now)).port), words=['--title', 'a <b>', '--refresh', '60', '--host', 'status.example']) as web:
        test('where it listens is printed', web.line == f'listening 127.0.0.1:{web.port}\n'.encode(), web.line)
        response, page = web.ask('/')
        test('the title and the refresh', b'<title>(1) a &lt;b&gt;</title>' in page
             and b'http-equiv="refresh" content="60"' in page, page[:400])
        test('no refresh', b'http-equiv' not in web.text('/?refresh=0'))
        test('a refresh after two seconds at least', b'http-equiv="refresh" content="2"' in web.text('/?refresh=1'))
        policy = response.getheader('content-security-policy')
        test('a policy without scripts', policy == "default-src 'none'; style-src 'self'; form-action 'self'; "
             "base-uri 'none'; frame-ancestors 'none'", policy)
        fields = {name: response.getheader(name) for name in [
            'x-content-type-options', 'referrer-policy', 'cache-control', 'connection', 'content-type']}
        test('the other fields', list(fields.values()) == [
            'nosniff', 'no-referrer', 'no-store', 'close', 'text/html; charset=utf-8'], fields)
        style, _ = web.ask('/style.css')
        dates = [web.ask(path, method)[0].getheader('date') for path, method in [
            ('/', 'GET'), ('/style.css', 'GET'), ('/other', 'GET'), ('/', 'POST'), ('/', 'HEAD')]]
        test('each answer has its date', all(
            abs(email.utils.parsedate_to_datetime(date).timestamp() - time.time()) < 5 for date in dates), dates)
        for host, status in [(b'localhost', 200), (b'localhost:80', 200), (b'10.0.0.1:8080', 200), (b'[::1]:8080', 200),
                             (b'status.example', 200), (b'evil.example', 421), (b'127.0.0.1.evil.example:8080', 421),
                             (b'localhost.evil.example', 421), (b'status.example.evil.example', 421)]:
            answer = exchange(web, b'GET / HTTP/1.1\r\nHost: ' + host + b'\r\n\r\n')
            test(f'the host {host.decode()} is {status}', answer.startswith(b'HTTP/1.1 %d ' % status)
                 and (b'web1' in answer) == (status == 200), answer[:300])
        test('the style', style.status == 200 and style.getheader('cache-control') == 'max-age=300')
        for method, path, status, body in [
                ('GET', '/other', 404, None), ('GET', '/status.jso', 404, None), ('GET', '//', 404, None),
                ('POST', '/', 405, None), ('POST', '/', 405, b'x' * 1000), ('DELETE', '/status.json', 405, None),
                ('HEAD', '/', 200, None), ('HEAD', '/other', 404, None)]:
            found = web.ask(path, method, body=body)
            test(f'{method} {path} is {status}', found[0].status == status, found)
            test(f'{method} {path} has the policy', found[0].getheader('content-security-policy') == policy)
        text = 'content-type: text/plain; charset=utf-8\r\ncache-control: no-store\r\n'
        for method, path, host, status, allowed, advice in [
                ('POST', '/', 'localhost', '405 Method Not Allowed', 'allow: GET, HEAD\r\n', ''),
                ('GET', '/', 'other.example', '421 Misdirected Request', '', ": this server doesn't answer to this name. "
                 'Use localhost or an IP address, or start it with --host NAME\n'),
                ('GET', '/other', 'localhost', '404 Not Found', '', ': nothing is at this path. The status is at /\n')]:
            answer = undated(exchange(web, f'{method} {path} HTTP/1.1\r\nHost: {host}\r\n\r\n'.encode()))
            test(f'the whole answer {status}', answer == f'HTTP/1.1 {status}\r\n{allowed}{text}{GUARDS}'
                 f'content-length: {3 + len(advice)}\r\n\r\n{status[:3]}{advice}', answer)
        for path in ['/', '/status.json', '/metrics', '/changes', '/changes.json', '/changes.atom', '/style.css']:
            (whole, _), (head, body) = web.ask(path), web.ask(path, 'HEAD')
            fields = [[field for field in answer.getheaders() if field[0] not in ('date', 'content-length')]
                      for answer in (whole, head)]
            test(f'HEAD {path} has the status and the fields of GET, and no body', whole.status == head.status == 200
                 and fields[0] == fields[1] and body == b'', (fields, body))
        answer = exchange(web, b'GET / HTTP/1.0\r\n\r\n')
        test('a request of HTTP/1.0', answer.startswith(b'HTTP/1.0 200'), answer[:200])
        guards = {
            'connection': 'close', 'content-length': '0', 'cache-control': 'no-store', 'content-security-policy': policy,
            'x-content-type-options': 'nosniff', 'referrer-policy': 'no-referrer', 'cross-origin-resource-policy': 'same-origin'}
        for sent, line in [
                (b'GET / HTTP/1.1\r\n', '400 Bad Request'), (b'status please\r\n', '400 Bad Request'),
                (b'POST / HTTP/1.1\r\nHost: h\r\nContent-Length: 16385\r\n', '413 Payload Too Large'),
                (b'GET /' + b'a' * 17000 + b' HTTP/1.1\r\nHost: h\r\n', '414 URI Too Long'),
                (b'GET / HTTP/1.1\r\nA: ' + b'b' * 20000 + b'\r\n', '431 Request Header Fields Too Large'),
                (b'POST / HTTP/1.1\r\nHost: h\r\nTransfer-Encoding: gzip, chunked\r\n', '501 Not Implemented')]:
            first, *lines = exchange(web, sent + b'\r\n').decode().split('\r\n')
            fields = dict(field.split(': ', 1) for field in lines[:-2])
            date = email.utils.parsedate_to_datetime(fields.pop('date', 'Thu, 01 Jan 1970 00:00:00 GMT')).timestamp()
            test(f'a refusal has the fields of every answer: {line}', first == f'HTTP/1.1 {line}' and fields == guards
                 and lines[-2:] == ['', ''] and abs(date - time.time()) < 5, (first, lines))
        long = exchange(web, b'POST / HTTP/1.1\r\nHost: h\r\nExpect: 100-continue\r\nTransfer-Encoding: chunked\r\n\r\n'
                        b'5000\r\n' + b'x' * 0x5000 + b'\r\n0\r\n\r\n').split(b'\r\n')
        test('a refusal after 100 Continue', long[:3] == [b'HTTP/1.1 100 Continue', b'', b'HTTP/1.1 413 Payload Too Large']
             and long.count(b'referrer-policy: no-referrer') == 1 and long[-2:] == [b'', b''], long)


def test_style(now):
    with Web(('east', shows(east(now)).port)) as web:
        response, style = web.ask('/style.css')
        tag = '"' + hashlib.sha256(style).hexdigest() + '"'
        test('the style has its tag', response.getheader('etag') == tag, response.getheaders())
        kept = 'cache-control: max-age=300\r\n' + GUARDS
        whole = {304: f'HTTP/1.1 304 Not Modified\r\netag: {tag}\r\n{kept}\r\n',
                 200: f'HTTP/1.1 200 OK\r\netag: {tag}\r\ncontent-type: text/css; charset=utf-8\r\n{kept}'
                      f'content-length: {len(style)}\r\n\r\n' + style.decode()}
        for value, status in [(tag, 304), ('W/' + tag, 304), (f'"a", {tag}', 304), ('"a"\r\nIf-None-Match: "b", W/' + tag, 304),
                              ('*', 304), (tag.upper(), 200), (tag[1:-1], 200), ('"a"', 200), (tag[:-2] + '"', 200), ('', 200)]:
            answer = exchange(web, b'GET /style.css HTTP/1.1\r\nHost: localhost\r\nIf-None-Match: '
                              + value.encode() + b'\r\n\r\n')
            test(f'If-None-Match: {value[:12]!r} is {status}',
                 b'\r\ndate: ' in answer and undated(answer) == whole[status], answer[:900])


def test_missing_objects(now):
    with Web(('east', shows(east(now)).port), ('gone', free_port())) as web:
        for query, status in [('host=web1&service=HTTP', 200), ('host=web1&service=', 200), ('host=web1', 200),
                              ('host=web1&service=http', 404), ('host=web&service=', 404), ('service=HTTP', 404), ('', 404)]:
            answer, page = web.ask('/object?' + query)
            head, _ = web.ask('/object?' + query, 'HEAD')
            test(f'/object?{query} is {status}', answer.status == head.status == status
                 and (b'No page of a gateway shows this object.' in page) == (status == 404), page[:900])
    with Web(('gone', free_port())) as web:
        test('without a page of any gateway an object is 503', web.ask('/object?host=web1')[0].status == 503)


def test_words():
    here = f'127.0.0.1:{free_port()}'
    for words, line in [
            (['--gateway', 'x'], '--gateway: not [NAME=]ADDRESS:PORT'),
            (['--gateway', 'a=1.2.3.4'], '--gateway: not [NAME=]ADDRESS:PORT'),
            (['--gateway', '=' + here], '--gateway: not [NAME=]ADDRESS:PORT'),
            (['--gateway', here, '--gateway', 'nowhere:1'], '--gateway: not [NAME=]ADDRESS:PORT'),
            (['--gateway', 'a=' + here, '--gateway', 'a=127.0.0.1:1'], '--gateway: two of one name'),
            (['--gateway', here, '--listen', 'nowhere'], '--listen: not an IP address and a port'),
            (['--gateway', here, '--refresh', '1'], '--refresh: not 0 or 2 to 3600'),
            (['--gateway', here, '--refresh', '3601'], '--refresh: not 0 or 2 to 3600'),
            (['--gateway', here, '--refresh', 'x'], '--refresh: not 0 or 2 to 3600'),
            (['--gateway', here, '--every', '0'], '--every: not 1 to 30'),
            (['--gateway', here, '--every', '31'], '--every: not 1 to 30')]:
        run = subprocess.run([PROGRAM, *words], capture_output=True, timeout=10)
        test(f'a bad value: {" ".join(words)}', run.returncode == 2 and run.stdout == b''
             and run.stderr == f'statusweb: {line}\n'.encode(), run)
    # What clap 4 reports of other words.
    missing = 'the following required arguments were not provided:\n  --gateway <gateway>\n\nUsage: statusweb '
    for words, lines in [
            ([], missing + '--gateway <gateway>'),
            (['--listen', here], missing + '--gateway <gateway> --listen <listen>'),
            (['--gateway'], "a value is required for '--gateway <gateway>' but none was supplied"),
            (['--gateway', here, 'more'], "unexpected argument 'more' found\n\nUsage: statusweb [OPTIONS] --gateway <gateway>"),
            (['--gateway', here, '--refresh', '1', '--refresh', '2'],
             "the argument '--refresh <refresh>' cannot be used multiple times\n\nUsage: statusweb [OPTIONS] --gateway <gateway>")]:
        run = subprocess.run([PROGRAM, *words], capture_output=True, timeout=10)
        test(f'bad words: {" ".join(words)}', run.returncode == 2 and run.stdout == b''
             and run.stderr == f"error: {lines}\n\nFor more information, try '--help'.\n".encode(), run)
    run = subprocess.run([PROGRAM, '--help'], capture_output=True, timeout=10)
    options = [line.split()[0] for line in run.stdout.decode().splitlines() if line.startswith('      --')]
    test('help', run.returncode == 0 and run.stderr == b''
         and options == ['--listen', '--gateway', '--title', '--refresh', '--every', '--host'], run)
    with socket.socket() as taken:
        taken.bind(('127.0.0.1', 0))
        taken.listen(1)
        address = '%s:%d' % taken.getsockname()
        run = subprocess.run([PROGRAM, '--gateway', here, '--listen', address], capture_output=True, timeout=10)
        test('an address that is taken', run.returncode == 4
             and run.stderr == f'statusweb: bind {address}\n'.encode(), run)
    run = subprocess.run([PROGRAM, '--gateway', here, b'\xff'], capture_output=True, timeout=10)
    test('words that are no text', run.returncode == 2 and run.stderr == b'statusweb: bad arguments\n', run)
    with open('/dev/full', 'wb') as full:
        run = subprocess.run([PROGRAM, '--gateway', here, '--listen', here], stdout=full, stderr=subprocess.PIPE,
                             timeout=10)
    test('an output that can not be written', run.returncode == 3 and run.stderr == b'statusweb: WriteFault\n', run)


GATEWAY = 'e\\"\nä,{}'


def samples_of(text):
    """The samples of a text in Prometheus's format: a number by name and labels."""
    found = {}
    for line in text.decode().split('\n')[:-1]:
        if line.startswith('# '):
            continue
        name, labels, number = re.fullmatch(r'([a-z_]+)(?:\{(.*)\})? ([0-9]+)', line).groups()
        pairs = re.findall(r'([a-z_]+)="((?:[^"\\]|\\.)*)"', labels or '')
        meant = {'\\n': '\n', '\\"': '"', '\\\\': '\\'}
        key = name, tuple((label, re.sub(r'\\.', lambda found: meant[found[0]], value)) for label, value in pairs)
        assert key not in found and ','.join(f'{label}="{value}"' for label, value in pairs) == (labels or ''), line
        found[key] = int(number)
    return found


def example(first_line):
    """The example of docs/STATUSWEB.md that begins with this line."""
    with open('docs/STATUSWEB.md') as page:
        block = re.search(f'^    {first_line}\n(?:    .*\n)*', page.read(), flags=re.M)[0]
    return re.sub('^    ', '', block, flags=re.M)


def promtool(kind, text):
    """What `promtool check` reports of a text, and its status."""
    with tempfile.NamedTemporaryFile('wb') as file:
        file.write(text)
        file.flush()
        words = [] if kind == 'metrics' else [file.name]
        return subprocess.run(['promtool', 'check', kind, *words], input=text, capture_output=True, timeout=60)


def scraped(port, folder):
    """What Prometheus itself finds in the metrics, by the example of docs/STATUSWEB.md."""
    with open(f'{folder}/prometheus.yml', 'w') as file:
        file.write('global:\n  scrape_interval: 1s\n')
        file.write(example('scrape_configs:').replace('127.0.0.1:8080', f'127.0.0.1:{port}'))
    own = free_port()
    with open(f'{folder}/log', 'w') as log:
        process = subprocess.Popen(['prometheus', f'--config.file={folder}/prometheus.yml', '--storage.tsdb.path',
                                    f'{folder}/data', f'--web.listen-address=127.0.0.1:{own}'], stdout=log, stderr=log)
    try:
        ends, found = time.time() + 30, []
        while not found and time.time() < ends:
            time.sleep(0.5)
            try:
                client = http.client.HTTPConnection('127.0.0.1', own, timeout=5)
                client.request('GET', '/api/v1/query?query=' + urllib.parse.quote('{__name__=~"nscagate_.*"}'))
                found = json.loads(client.getresponse().read()).get('data', {}).get('result', [])
            except OSError:
                pass
        return {(row['metric']['__name__'], tuple(sorted(
            (name, value) for name, value in row['metric'].items() if name not in ('__name__', 'instance', 'job')))):
            int(row['value'][1]) for row in found}
    finally:
        process.kill()
        process.wait()


def test_names():
    """The JSON and the metrics of a gateway whose name has what both escape, and of one that is down."""
    now = int(time.time())
    page = moved(data('three_gateways_one_of_them_cut_off.page'), now)
    with Web((GATEWAY, shows(page).port), ('down', free_port())) as web:
        response, answer = web.ask('/status.json')
        read = json.loads(answer)
        test('JSON of gateways', read['gateways'] == [
            dict(name=GATEWAY, reachable=True, moment=now, closing=None, alarms=[]),
            dict(name='down', reachable=False, fault="it can't be reached", alarms=['no page'])], read)
        test('JSON as another program writes it', answer == json.dumps(
            read, ensure_ascii=False, separators=(',', ':')).encode(), answer)
        test('the type of JSON', response.getheader('content-type') == 'application/json', response.headers)
        response, text = web.ask('/metrics?state=down')
        found = samples_of(text)
        up = [found['nscagate_up', (('gateway', name),)] for name in (GATEWAY, 'down')]
        objects = found['nscagate_page_objects', (('gateway', GATEWAY),)]
        test('the metrics of gateways', up == [1, 0] and objects == 5, text)
        test('the type of metrics', response.getheader('content-type') == 'text/plain; version=0.0.4; charset=utf-8',
             response.headers)
        if shutil.which('promtool'):
            run = promtool('metrics', text)
            test('promtool reads the metrics', run.returncode == 0 and run.stdout + run.stderr == b'', run)
        else:
            print('metrics by promtool ... skipped: promtool is not installed')
        if shutil.which('prometheus'):
            with tempfile.TemporaryDirectory() as folder:
                scrape = scraped(web.port, folder)
            # To Prometheus an empty label is none, and labels have no order.
            test('Prometheus reads the same samples', scrape == {
                (name, tuple(sorted(label for label in labels if label[1]))): number
                for (name, labels), number in found.items()}, scrape)
        else:
            print('metrics by Prometheus ... skipped: prometheus is not installed')


def test_browser(now):
    browser = shutil.which('chromium') or shutil.which('chromium-browser') or shutil.which('google-chrome')
    if not browser:
        print('a page in a browser ... skipped: chromium is not installed')
        return
    gateway = shows(page_of(b'<script>alert(1)</script>', b'"><img src=x onerror=alert(1)>', b'<b>', b'<i>', b"'", now))
    with Web(('east', gateway.port)) as web, tempfile.TemporaryDirectory() as folder:
        run = subprocess.run(
            [browser, '--headless', '--no-sandbox', '--disable-gpu', '--enable-logging=stderr', '--v=0',
             f'--user-data-dir={folder}', '--virtual-time-budget=3000', '--dump-dom',
             f'http://127.0.0.1:{web.port}/'], capture_output=True, timeout=120)
        log = run.stderr.decode('utf-8', 'replace')
        test('a browser reports nothing on its console', 'CONSOLE' not in log and 'Content Security' not in log, log)
        rows = [row for row in Tags(run.stdout).rows if row]
        test('the problem stands first in a browser', bool(rows) and rows[0][0] == 'DOWN', rows[:2])


def main():
    if not os.access(PROGRAM, os.X_OK):
        print(f'{PROGRAM} ... FAILED: it is not built')
        print('0 passed, 1 failed')
        sys.exit(1)
    def run(check, *arguments):
        try:
            check(*arguments)
        except Exception as error:
            test(check.__name__, False, repr(error))
    at_once(*[lambda check=check: run(check) for check in [test_words, test_pages, test_names]], *[
        lambda check=check: run(check, int(time.time())) for check in [
            test_texts, test_faults, test_places, test_old, test_clocks, test_since, test_restarts, test_changes, test_links, test_other_objects, test_tiles, test_filters, test_form, test_rows, test_entries, test_sharing,
            test_descriptors, test_ends, test_requests, test_style, test_missing_objects, test_browser]])
    # What takes the processors for itself.
    run(test_idle_browsers, int(time.time()))
    run(test_slow_browsers, int(time.time()))
    run(test_memory, int(time.time()))
    print(f'{passed} passed, {failed} failed')
    sys.exit(failed > 0)


main()
