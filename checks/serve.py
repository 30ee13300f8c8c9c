#!/usr/bin/env python3
"""Tests the built program over real connections, by sockets and by curl: replies byte by byte, connections that are
kept open, forms, cookies and redirects, requests that can't be read, clients that send nothing, send slowly or
disconnect, and how long these delay others, audits that are continued, messages on standard error, and how a run ends.
Argument: the program. Prints each failed case, then a count. If something was late, it is tested again, a bounded
number of times, since another program may keep the machine busy for a moment (late.py). What needs curl is skipped if
curl isn't installed, and the output says so (installed.py)."""
import contextlib
import http.client
import os
import select
import socket
import statistics
import struct
import subprocess
import sys
import tempfile
import threading
import time

from support import installed
from support import proved
from support.late import Late, Plain, all_of, as_many, looked_at
from support.serving import Served, free_port, is_listening, served

TOP = os.path.dirname(os.path.dirname(os.path.abspath(__file__)))
CALENDAR = os.path.join(TOP, 'examples', 'calendar')
PROGRAM = proved.program(proved.first_word())
HELLO = b'(app (view get "/" (params) (put "hello"))' \
        b' (view get "/large" (params) %s (put "end")))' % (b'(put "%s")' % (b'x' * 1000) * 100)
LARGE = 100 * 1000 + len('end')
ATTEMPTS = 20       # of each of ten clients, until its page comes


@contextlib.contextmanager
def hello(count, options=()):
    with tempfile.TemporaryDirectory() as folder:
        with open(os.path.join(folder, 'app'), 'wb') as app:
            app.write(HELLO)
        with served(PROGRAM, 'app', count, folder, options) as run:
            yield run


def expect(name, have, want):
    return None if have == want else '%s: %r, not %r' % (name, have, want)


def ends(name, run, connections, replies):
    line = b'served %d connections, %d replies\n' % (connections, replies)
    return expect(name + ', at the end', run.end(), (0, line))


def read_all(line):
    """Returns what arrives until the peer ends the connection."""
    parts = []
    while True:
        part = line.recv(65536)
        if not part:
            return b''.join(parts)
        parts.append(part)


def reply(status, closing, page=None, further=b''):
    """Returns a reply: a page of HTML, or the status as a text."""
    kind, body = (b'text/plain', status + b'\n') if page is None else (b'text/html', page)
    close = b'Connection: close\r\n' if closing else b''
    return b'HTTP/1.1 %s\r\nContent-Type: %s; charset=utf-8\r\nContent-Length: %d\r\n%s%s\r\n%s' % (
        status, kind, len(body), further, close, body)


def in_pieces():
    with hello(1) as run:
        with run.connect() as line:
            for piece in (b'GE', b'T / HTTP/1', b'.0\r\n\r', b'\n'):
                line.sendall(piece)
                time.sleep(0.02)
            yield all_of('in pieces', read_all(line), reply(b'200 OK', True, b'hello'))
        yield ends('in pieces', run, 1, 1)


def kept():
    """Checks a connection that is kept open: requests one after another, and several at once."""
    with hello(1) as run:
        line = http.client.HTTPConnection('127.0.0.1', run.port, timeout=20)
        for method, path, body in (('GET', '/', b'hello'), ('HEAD', '/', b''), ('GET', '/?a=b', b'hello')):
            line.request(method, path)
            answer = line.getresponse()
            have = answer.status, answer.getheader('Content-Length'), answer.getheader('Connection'), answer.read()
            yield expect('kept, %s %s' % (method, path), have, (200, '5', None, body))
        ask = b'GET / HTTP/1.1\r\nHost: a\r\n\r\n'
        line.sock.sendall(ask + ask.replace(b'\r\n\r\n', b'\r\nConnection: close\r\n\r\n') + ask)
        both = reply(b'200 OK', False, b'hello') + reply(b'200 OK', True, b'hello')
        yield all_of('several at once', read_all(line.sock), both)
        line.close()
        yield ends('kept', run, 1, 5)


def refused():
    """Checks requests that have no page or can't be read."""
    with hello(2) as run:
        with run.connect() as line:
            line.sendall(b'GET /nothing HTTP/1.1\r\nHost: a\r\n\r\nPOST / HTTP/1.1\r\nHost: a\r\nContent-Length: 0\r\n\r\nGET /\r\n\r\n')
            want = reply(b'404 Not Found', False)
            want += reply(b'405 Method Not Allowed', False, further=b'Allow: GET, HEAD\r\n')
            want += reply(b'400 Bad Request', True)
            yield all_of('refused', read_all(line), want)
        with run.connect() as line:
            line.sendall(b'POST / HTTP/1.1\r\nHost: a\r\nTransfer-Encoding: chunked\r\n\r\n0\r\n\r\n')
            yield all_of('chunks', read_all(line), reply(b'501 Not Implemented', True))
        yield ends('refused', run, 2, 4)


def large():
    """Checks a page that is sent in many pieces, and a HEAD request for it."""
    with hello(1) as run:
        line = http.client.HTTPConnection('127.0.0.1', run.port, timeout=20)
        for method, size in (('GET', LARGE), ('HEAD', 0)):
            line.request(method, '/large')
            answer = line.getresponse()
            yield expect('large, ' + method, (answer.getheader('Content-Length'), len(answer.read())), (str(LARGE), size))
        line.close()
        yield ends('large', run, 1, 2)


def asked(line):
    """Requests a page on a connection that then ends. Returns the page, and the seconds until it came."""
    began = time.monotonic()
    line.sendall(b'GET / HTTP/1.0\r\n\r\n')
    page = read_all(line)
    if not page:
        raise ConnectionAbortedError('no page came')
    return page, time.monotonic() - began


def in_time(name, seconds, most):
    """Checks that it took no longer than `most`. Half a second more is allowed, since the machine may be busy."""
    return None if seconds <= most + 0.5 else Late('%s: %.2f seconds, not %.2f' % (name, seconds, most))


def waited_for():
    """Checks that clients that send nothing, half a head or half a body delay nobody, and that their connections are
    closed."""
    halves = b'', b'GET / HTT', b'POST / HTTP/1.1\r\nHost: a\r\nContent-Length: 9\r\n\r\nname'
    with hello(2 * len(halves)) as run:
        for half in halves:
            with run.connect() as silent, run.connect() as line:
                silent.sendall(half)
                page, seconds = asked(line)
                yield expect('behind %r' % half, page, reply(b'200 OK', True, b'hello'))
                yield in_time('behind %r' % half, seconds, 0)
                yield expect('after %r' % half, read_all(silent), b'')
        yield ends('clients that wait', run, 2 * len(halves), len(halves))


def dripped():
    """Checks that a client that sends a byte from time to time delays nobody."""
    drips = b'GET / HTTP/1.1', b'POST / HTTP/1.1\r\nHost: a\r\nContent-Length: 99\r\n\r\nname=Ann'
    with hello(3 * len(drips)) as run:
        for drip in drips:
            with run.connect() as slow, run.connect() as line:
                slow.sendall(drip[:-6])
                began = time.monotonic()
                line.sendall(b'GET / HTTP/1.0\r\n\r\n')
                for byte in drip[-6:]:
                    if select.select([line], [], [], 2)[0]:
                        break
                    slow.sendall(bytes([byte]))
                yield all_of('behind a drip', read_all(line), reply(b'200 OK', True, b'hello'))
                yield in_time('behind a drip', time.monotonic() - began, 0)
                with run.connect() as line:
                    yield in_time('behind a drip, once more', asked(line)[1], 0)
        yield ends('clients that drip', run, 3 * len(drips), 2 * len(drips))


def let_go():
    """Checks that a kept connection on which nothing comes is closed a moment after its reply. If the front of a
    request came together with the request before it, or if a later request comes in pieces, the program waits for the
    rest."""
    ask = b'GET / HTTP/1.1\r\nHost: a\r\n\r\n'
    form = b'POST /none HTTP/1.1\r\nHost: a\r\ncontent-length: 4\r\n\r\na=bc'
    with hello(7) as run:
        for first, count in ((ask, 1), (form, 1), (ask * 3, 3)):
            with run.connect() as kept, run.connect() as line:
                kept.sendall(first)
                yield in_time('behind one that is kept', asked(line)[1], 0.02)
                yield as_many('one that was kept', read_all(kept).count(b'HTTP/1.1'), count)
        with run.connect() as line:
            for first, rest in ((ask + ask[:9], ask[9:]), (form + ask[:1], ask[1:]), (ask + form[:-3], form[-3:]),
                                (ask + form[:-8], form[-8:]), (ask[:3], ask[3:])):
                line.sendall(first)
                time.sleep(0.3)
                line.sendall(rest)
            line.shutdown(socket.SHUT_WR)
            yield as_many('fronts that came along', read_all(line).count(b'HTTP/1.1'), 9)
        yield ends('connections that are let go', run, 7, 17)


def taken_in_turn():
    """Checks that ten clients wait at most 0.15 seconds for a page on average. Each uses one connection as long as it
    is kept open."""
    clients, pages, times = 10, 6, []

    def client(run, place):
        line = http.client.HTTPConnection('127.0.0.1', run.port, timeout=20)
        time.sleep(place * 0.03)
        for _ in range(pages):
            began = time.monotonic()
            for _ in range(ATTEMPTS):
                try:
                    line.request('GET', '/')
                    line.getresponse().read()
                    times.append(time.monotonic() - began)
                    break
                except (http.client.HTTPException, OSError):
                    line.close()
            time.sleep(0.3)

    with hello(10 * clients * pages) as run:
        threads = [threading.Thread(target=client, args=(run, place)) for place in range(clients)]
        for thread in threads:
            thread.start()
        for thread in threads:
            thread.join()
        yield expect('pages of ten clients', len(times), clients * pages)
        mean = statistics.mean(times or [0])
        yield None if mean <= 0.15 else Late('ten clients: %.3f seconds a page on the average' % mean)


def gone():
    """Checks that clients that disconnect, some of them while their reply is written, end only their own connection."""
    asks = b'GET /large HTTP/1.1\r\nHost: a\r\n\r\n' * 100
    with hello(3) as run:
        with run.connect() as line:
            line.sendall(asks[:10])
        with run.connect() as line:
            line.sendall(asks)
            line.recv(1)
            line.setsockopt(socket.SOL_SOCKET, socket.SO_LINGER, struct.pack('ii', 1, 0))
        with run.connect() as line:
            line.sendall(b'GET / HTTP/1.0\r\n\r\n')
            yield all_of('behind one that went away', read_all(line), reply(b'200 OK', True, b'hello'))
        status, out = run.end()
        yield expect('clients that go away', (status, out[:21]), (0, b'served 3 connections,'))


def not_taken():
    """Checks that a client that doesn't read its replies delays the next one for three seconds and is then
    disconnected, and that a client that reads a large page slowly gets all of it."""
    asks = b'GET /large HTTP/1.1\r\nHost: a\r\n\r\n' * 200
    with hello(4) as run:
        with run.connect(room=4096) as idle, run.connect() as line:
            idle.sendall(asks)
            time.sleep(0.2)
            page, seconds = asked(line)
            yield expect('behind replies that are not taken', page, reply(b'200 OK', True, b'hello'))
            yield in_time('behind replies that are not taken', seconds, 3)
            yield None if seconds > 1 else 'replies that are not taken were taken: nothing is seen'
            with run.connect() as line:
                yield in_time('behind replies that are not taken, once more', asked(line)[1], 0)
        with run.connect(room=4096) as slow:
            slow.sendall(asks[:len(asks) // 200].replace(b'Host: a', b'Host: a\r\nConnection: close'))
            took = b''
            while len(took) < LARGE // 2:
                took += slow.recv(4096)
                time.sleep(0.02)
            yield as_many('a page that is taken slowly', len((took + read_all(slow)).partition(b'\r\n\r\n')[2]), LARGE)
        status, out = run.end()
        yield expect('replies that are not taken, at the end', (status, out[:21]), (0, b'served 4 connections,'))


HALF_FORM = b'POST /none HTTP/1.1\r\nHost: a\r\nContent-Length: %d\r\n\r\n'
ASKS = 60


def drip(lines, byte, over):
    """Sends a byte on each connection every half second until `over` is set. Connections that have ended are
    ignored."""
    while not over.wait(0.5):
        for line in lines:
            with contextlib.suppress(OSError):
                line.sendall(byte)


@contextlib.contextmanager
def dripping(lines, byte):
    """Sends bytes slowly on these connections while the block runs."""
    over = threading.Event()
    thread = threading.Thread(target=drip, args=(lines, byte, over))
    thread.start()
    try:
        yield
    finally:
        over.set()
        thread.join()


def beside(name, count, front, byte):
    """Measures one client's pages while many other clients have each sent the front of a request and send the rest
    slowly. The time that a plain server takes meanwhile is subtracted."""
    with hello(count + ASKS) as run, Plain() as plain, contextlib.ExitStack() as lines:
        crowd = [lines.enter_context(run.connect()) for _ in range(count)]
        for line in crowd:
            line.sendall(front)
        times, others = [], []
        with dripping(crowd, byte):
            for _ in range(ASKS):
                with run.connect() as line:
                    page, seconds = asked(line)
                times.append(seconds)
                others.append(plain.seconds())
                if page != reply(b'200 OK', True, b'hello'):
                    yield '%s: %r' % (name, page)
        for most, of in (0.005, statistics.median), (0.05, max):
            have = of(times), of(others)
            told = '%s: %.4f seconds, a plain server %.4f, not %.3f more' % (name, *have, most)
            yield None if have[0] - have[1] <= most else Late(told)
        lines.close()
        yield expect('%s, at the end' % name, run.end()[0], 0)


def beside_idle():
    yield from beside('beside 100 that are idle', 100, b'', b'')


def beside_heads():
    yield from beside('beside 100 that drip heads', 100, b'GET / HTT', b'x')


def beside_bodies():
    yield from beside('beside 20 that drip bodies', 20, HALF_FORM % 9000 + b'a=' + b'b' * 8400, b'b')


def late_request():
    """Checks that a connection that is idle for two of its three seconds is answered, and so is a long form in two
    parts. A connection that sends only the front of a request is closed, and a message says so."""
    with hello(3) as run:
        with run.connect() as idle, run.connect() as form, run.connect() as never:
            form.sendall(HALF_FORM % 9000 + b'a=' + b'b' * 4000)
            never.sendall(b'GET / HTT')
            time.sleep(2)
            yield expect('one that was idle', asked(idle)[0], reply(b'200 OK', True, b'hello'))
            form.sendall(b'b' * 4998)
            form.shutdown(socket.SHUT_WR)
            yield expect('a form in two parts', read_all(form), reply(b'404 Not Found', False))
            yield expect('one that never asks', read_all(never), b'')
        yield ends('late requests', run, 3, 2)
        yield expect('what is told of one that is let go', b'jac: connections let go, without a request in time: 1\n' in run.told, True)


def many():
    """Makes connections one after another, as many as possible in fifteen seconds, at most 100,000. Neither descriptors
    nor memory may grow. Of eight connections in turn, one sends a request, one disconnects at once, and the others send
    a part of a request."""
    fronts = b'', b'GET / HT', HALF_FORM % 9000 + b'a=' * 300, b'GET / HTTP/1.0\r\n\r\n', b'\r\n', b'G', b'GET /', b'P'
    with hello(1_000_000) as run:
        def held():
            with open('/proc/%d/statm' % run.run.pid) as pages:
                return len(os.listdir('/proc/%d/fd' % run.run.pid)), int(pages.read().split()[1]) * 4096

        def some(count):
            for place in range(count):
                with run.connect() as line:
                    line.sendall(fronts[place % len(fronts)])
                    if place % len(fronts) == 3:
                        read_all(line)
            with run.connect() as line:
                return asked(line)[0]

        some(2000)
        descriptors, memory = held()
        done, until = 2000, time.monotonic() + 15
        while done < 100_000 and time.monotonic() < until:
            yield expect('after %d connections' % done, some(2000), reply(b'200 OK', True, b'hello'))
            done += 2000
        now = held()
        yield expect('descriptors after %d connections' % done, now[0], descriptors)
        grown = now[1] - memory
        yield None if grown <= 1 << 20 else 'memory grew by %d bytes in %d connections' % (grown, done)
        print('connections one after another: %d' % done)


def burst():
    """Checks that three hundred clients each get their page if they connect while another client holds the program
    up."""
    asks = b'GET /large HTTP/1.1\r\nHost: a\r\n\r\n' * 200
    with hello(301) as run, contextlib.ExitStack() as lines:
        slow = lines.enter_context(run.connect(room=4096))
        slow.sendall(asks)
        time.sleep(0.2)
        began = time.monotonic()
        crowd = [lines.enter_context(run.connect()) for _ in range(300)]
        yield in_time('a burst of connections', time.monotonic() - began, 0)
        for line in crowd:
            line.sendall(b'GET / HTTP/1.0\r\n\r\n')
        pages = [read_all(line) for line in crowd]
        yield expect('pages of a burst', pages.count(reply(b'200 OK', True, b'hello')), 300)


HANDS_IN = '''
import os, socket, sys
kind, whose, words = sys.argv[1], sys.argv[2], sys.argv[3:]
if kind == 'file':
    one = open('app')
else:
    one = socket.socket()
    one.setsockopt(socket.SOL_SOCKET, socket.SO_REUSEADDR, 1)
    one.bind(('127.0.0.1', int(kind)))
    one.listen(300)
if one.fileno() != 3:
    os.dup2(one.fileno(), 3)
os.set_inheritable(3, True)
os.environ.update(LISTEN_FDS='1', LISTEN_PID=str(os.getpid()) if whose == 'own' else '1')
os.execv(words[0], words)
'''


@contextlib.contextmanager
def handed_in(kind, whose, port, count):
    """Starts a run with a descriptor 3: a socket that listens on a port, or a file."""
    with tempfile.TemporaryDirectory() as folder:
        with open(os.path.join(folder, 'app'), 'wb') as app:
            app.write(HELLO)
        words = [sys.executable, '-c', HANDS_IN, kind, whose, PROGRAM, 'serve', 'app', str(port), str(count)]
        run = subprocess.Popen(words, cwd=folder, stdin=subprocess.DEVNULL, stdout=subprocess.PIPE,
                               stderr=subprocess.PIPE)
        try:
            deadline = time.monotonic() + 20
            while run.poll() is None and not is_listening(port) and time.monotonic() < deadline:
                time.sleep(0.01)
            yield Served(run, port)
        finally:
            run.kill()
            run.wait()
            run.stdout.close()
            run.stderr.close()


def inherited():
    """Checks that a socket that is passed on as systemd does it is used. One for another process is ignored. One that
    listens on another port is refused, and so is a descriptor that is no socket."""
    port, other = free_port(), free_port()
    for name, kind, whose in ('handed in', str(port), 'own'), ('handed to another', str(other), 'another'):
        with handed_in(kind, whose, port, 1) as run:
            with run.connect() as line:
                yield expect('a page on a port that is %s' % name, asked(line)[0], reply(b'200 OK', True, b'hello'))
            yield ends('a port that is %s' % name, run, 1, 1)
    for name, kind in ('elsewhere', str(other)), ('a file', 'file'):
        with handed_in(kind, 'own', port, 1) as run:
            yield expect('handed in, %s' % name, run.end(), (8, b'door fault\n'))
            yield expect('handed in, %s: what is told' % name, run.told[:len('jac: 127.0.0.1:')], b'jac: 127.0.0.1:')


def taken_port():
    with contextlib.closing(socket.socket()) as door, tempfile.TemporaryDirectory() as folder:
        door.bind(('127.0.0.1', 0))
        door.listen()
        with open(os.path.join(folder, 'app'), 'wb') as app:
            app.write(HELLO)
        port = door.getsockname()[1]
        done = subprocess.run([PROGRAM, 'serve', 'app', str(port), '1'], cwd=folder, stdin=subprocess.DEVNULL,
                              stdout=subprocess.PIPE, stderr=subprocess.PIPE, timeout=60)
        yield expect('a port that is taken', (done.returncode, done.stdout), (8, b'door fault\n'))
        told = b'jac: 127.0.0.1:%d: Address already in use (os error 98)\n' % port
        yield expect('what is told of a port that is taken', done.stderr, told)


def told():
    """Checks the messages on standard error: where the program listens, and what the system said about a file."""
    with hello(1) as run:
        with run.connect() as line:
            asked(line)
        run.end()
        yield expect('where it listens', run.told, b'listening on 127.0.0.1:%d\n' % run.port)
    with tempfile.TemporaryDirectory() as folder:
        with open(os.path.join(folder, 'app'), 'wb') as app:
            app.write(HELLO)
        cases = (('replay', 'none', 'app'), 'none: No such file or directory (os error 2)', 4), \
                (('replay', 'app', '.'), '.: Is a directory (os error 21)', 4), \
                (('replay', 'app', 'app', '--audit', '.'), '.: Is a directory (os error 21)', 5)
        for words, want, status in cases:
            done = subprocess.run([PROGRAM, *words], cwd=folder, stdin=subprocess.DEVNULL, stdout=subprocess.PIPE,
                                  stderr=subprocess.PIPE, timeout=60)
            have = done.returncode, done.stderr.decode()
            yield expect('what is told of %s' % ' '.join(words), have, (status, 'jac: %s\n' % want))
        with open('/dev/full', 'wb') as full:
            done = subprocess.run([PROGRAM, 'check', 'app'], cwd=folder, stdin=subprocess.DEVNULL, stdout=full,
                                  stderr=subprocess.PIPE, timeout=60)
        want = 5, 'jac: standard output: No space left on device (os error 28)'
        yield expect('what is told of a full output', (done.returncode, done.stderr.decode().splitlines()[0]), want)


def audits():
    """Checks that an audit is appended to what its file holds."""
    with tempfile.TemporaryDirectory() as folder:
        name = os.path.join(folder, 'audit')
        for lines in (1, 2):
            with hello(1, ('--audit', name)) as run:
                with run.connect() as line:
                    asked(line)
                run.end()
            with open(name, 'rb') as audit:
                yield expect('the audit of run %d' % lines, audit.read(), b'1 200 - -\n' * lines)


def curl(*words):
    done = subprocess.run(['curl', '-s', '--max-time', '20', *words], stdin=subprocess.DEVNULL, stdout=subprocess.PIPE)
    return done.stdout.decode()


def followed(name, page):
    """Checks that a redirect was followed on the connection that it came on. A curl that is late has to make another
    connection."""
    told = page.splitlines()[-1]
    return None if told == '200 1 1' else (Late if told == '200 1 2' else str)('%s: %r, not 200 1 1' % (name, told))


def forms():
    """Checks a browser's forms, with curl: cookies say who the viewer is, and a redirect is followed on the kept
    connection."""
    with tempfile.TemporaryDirectory() as folder:
        options = '--sessions', 'sessions', '--audit', os.path.join(folder, 'audit')
        with served(PROGRAM, 'app', 6, CALENDAR, options) as run:
            told = '\n%{http_code} %{num_redirects} %{num_connects}'

            def ask(path, *words):
                return curl('-w', told, *words, run.address(path))

            page = ask('/setup', '-L', '-d', '')
            yield followed('a form without fields', page)
            page = ask('/people', '-L', '-b', 'a=b; session=ann', '--data-urlencode', 'name=Zoë & <Co>')
            yield followed('a form', page)
            yield expect('what the form added', '>Zoë &amp; &lt;Co&gt;</td>' in page, True)
            page = ask('/people', '-d', 'name=Nobody')
            yield expect('a form of nobody', page.splitlines()[-1], '404 0 1')
            event = '/events', '-L', '-b', 'session=ann', '-d', 'title=Talk&place=Room+2&day=2026-12-01'
            yield expect('an event', '<h1>Talk</h1>' in ask(*event), True)
            seen = curl('-b', 'session=ann', run.address('/')), curl('-b', 'session=dan', run.address('/'))
            yield expect('its title', ['>Talk</a>' in page for page in seen], [True, False])
            yield expect('its public title', ['>busy</a>' in page for page in seen], [False, True])
            yield ends('forms', run, 6, 9)
        with open(os.path.join(folder, 'audit')) as audit:
            lines = [line.split()[:3] for line in audit]
        want = '303 - 200 - 303 4096 200 4096 404 - 303 4096 200 4096 200 4096 200 4288'.split()
        yield expect('the audit', sum(([line[1], line[2]] for line in lines), []), want)


def main():
    results = []
    parts = [in_pieces, kept, refused, large, waited_for, dripped, let_go, taken_in_turn, gone, not_taken, taken_port,
             told, audits, beside_idle, beside_heads, beside_bodies, late_request, burst, many, inherited]
    has_curl = bool(installed.find('curl'))
    if has_curl:
        parts.append(forms)
    else:
        installed.skip_part('forms', 'curl')
    for part in parts:
        results += looked_at(part.__name__, part)
    for wrong in filter(None, results):
        print('FAILED ' + wrong)
    failed = sum(1 for wrong in results if wrong)
    print('%d passed, %d failed%s' % (len(results) - failed, failed, '' if has_curl else ', 1 skipped'))
    sys.exit(1 if failed else 0)


if __name__ == '__main__':
    main()
