"""Measures the built program over real connections, with one client and with two and ten at once, and over stores in
files. Argument: the program. A time is how long the client waits, the median of all requests unless something else is
said. The clients are this script, on the same machine.

Two and ten clients request the same list of 100 names in an SQLite file. They also request it from the servers that
come with Flask and Django, if these are installed. They use connections that they keep, opening a new one if one was
closed, and then a new connection for each page.

docs/COSTS.md has the last results, with their date. This isn't part of the gate, since the results depend on the
machine."""
import contextlib
import http.client
import os
import sqlite3
import statistics
import subprocess
import sys
import tempfile
import threading
import time

from support import proved
from support.serving import free_port, is_listening, served

PROGRAM = ''        # its path, once `main` was called
SHORT, LONG = 10, 100 * 1024
APPLICATION = '''(app
 (model User (fields (name text)))
 (view get "/short" (params) (put "%s"))
 (view get "/long" (params) (put "%s"))
 (view get "/names" (params) (for (from ((u User)) true key) (put (get User name u)) (put "\\n")))
 (view post "/join" (params (name text)) (create u User (set (name name)) (put u))))
''' % ('x' * SHORT, 'x' * LONG)
LISTED = 100        # records of the list that many clients request
PAGES = 40          # for each client
PAUSES = 0.1, 0     # seconds between two pages of a client
PYTHONS = sys.executable, '/usr/bin/python3'
COMMON = '''
import html, sqlite3, sys
def page():
    with sqlite3.connect('names') as store:
        return ''.join(html.escape(name) + "\\n" for (name,) in store.execute('SELECT name FROM User ORDER BY id'))
'''
OTHERS = {'Flask': COMMON + '''
import flask, logging, werkzeug.serving
logging.getLogger('werkzeug').setLevel(logging.ERROR)
werkzeug.serving.WSGIRequestHandler.protocol_version = 'HTTP/1.1'
app = flask.Flask('bench', root_path=os.getcwd())
app.add_url_rule('/names', 'names', page)
app.run('127.0.0.1', int(sys.argv[1]))
''', 'Django': COMMON + '''
import django.http, django.urls
from django.conf import settings
from django.core.management import execute_from_command_line
settings.configure(ROOT_URLCONF='__main__', ALLOWED_HOSTS=['*'], DEBUG=False, LOGGING_CONFIG=None)
urlpatterns = [django.urls.path('names', lambda request: django.http.HttpResponse(page()))]
execute_from_command_line(['bench', 'runserver', '--noreload', '127.0.0.1:' + sys.argv[1]])
'''}
JOIN = b'ask - POST "/join" "name=Annabel"\n'
NAMES = b'ask - GET "/names" ""\n'


def read_reply(reader):
    """Reads one reply. Returns the length of its body."""
    length = None
    while True:
        head = reader.readline()
        if head.lower().startswith(b'content-length:'):
            length = int(head.partition(b':')[2])
        if head == b'\r\n':
            return len(reader.read(length))


def waits(line, request, size, count):
    """Returns how long each of `count` requests waits for its reply."""
    reader, times = line.makefile('rb'), []
    for _ in range(count):
        began = time.perf_counter()
        line.sendall(request)
        have = read_reply(reader)
        times.append(time.perf_counter() - began)
        assert size in (None, have), have
    return times


def over_a_connection(folder):
    with served(PROGRAM, 'app', 1, folder) as run, run.connect() as line:
        for path, size, count in (('/short', SHORT, 5000), ('/long', LONG, 1000)):
            request = b'GET %s HTTP/1.1\r\nHost: localhost\r\n\r\n' % path.encode()
            times = waits(line, request, size, count)
            print('GET of %d bytes on a kept connection: %.0f microseconds' % (size, 1e6 * statistics.median(times)))
    for name, options in (('in memory', ()), ('with --db', ('--db', 'joined'))):
        with served(PROGRAM, 'app', 1, folder, options) as run, run.connect() as line:
            request = b'POST /join HTTP/1.1\r\nHost: localhost\r\n' \
                      b'Content-Type: application/x-www-form-urlencoded\r\nContent-Length: 12\r\n\r\nname=Annabel'
            times = waits(line, request, None, 1000)
            print('POST on a kept connection %s: %.0f microseconds' % (name, 1e6 * statistics.median(times)))


def seconds(folder, events, options=()):
    """Returns how many seconds a replay of these events takes."""
    with open(os.path.join(folder, 'events'), 'wb') as file:
        file.write(events)
    began = time.perf_counter()
    subprocess.run([PROGRAM, 'replay', 'app', 'events', *options], cwd=folder, stdin=subprocess.DEVNULL,
                   stdout=subprocess.DEVNULL, check=True)
    return time.perf_counter() - began


def over_a_store(folder):
    stored = '--db', 'store'
    for name, options in (('in memory', ()), ('with --db', stored)):
        print('10,000 POSTs of a replay %s: %.2f seconds' % (name, seconds(folder, JOIN * 10000, options)))
    sizes = sum(os.path.getsize(os.path.join(folder, name)) for name in os.listdir(folder) if name.startswith('store'))
    print('the file of 10,000 records: %d bytes' % sizes)
    for name, options in (('in memory', ()), ('with --db', ('--db', 'few'))):
        made = seconds(folder, JOIN * 1024, options)
        before = made if not options else seconds(folder, b'', options)
        events = NAMES * 100 if options else JOIN * 1024 + NAMES * 100
        took = (seconds(folder, events, options) - before) / 100
        print('GET of 1,024 records %s: %.2f milliseconds' % (name, 1e3 * took))


def python_with(name):
    """Returns a Python that has this module, or None."""
    for python in PYTHONS:
        with contextlib.suppress(OSError):
            if subprocess.run([python, '-c', 'import ' + name], stderr=subprocess.DEVNULL).returncode == 0:
                return python
    return None


@contextlib.contextmanager
def other(name, folder):
    """Starts another server. Yields its port, or None if the server isn't installed."""
    python, port = python_with(name.lower()), free_port()
    if not python:
        yield None
        return
    with open(os.path.join(folder, name + '.py'), 'w') as script:
        script.write(OTHERS[name])
    run = subprocess.Popen([python, name + '.py', str(port)], cwd=folder, stdin=subprocess.DEVNULL,
                           stdout=subprocess.DEVNULL, stderr=subprocess.DEVNULL)
    try:
        deadline = time.monotonic() + 30
        while not is_listening(port) and run.poll() is None and time.monotonic() < deadline:
            time.sleep(0.01)
        yield port
    finally:
        run.kill()
        run.wait()


def client(port, kept, pause, times, sizes):
    """Requests the list again and again. If the connection was closed, opens a new one."""
    line = http.client.HTTPConnection('127.0.0.1', port, timeout=60)
    for _ in range(PAGES):
        began = time.perf_counter()
        while True:
            try:
                line.request('GET', '/names')
                size = len(line.getresponse().read())
                break
            except (http.client.HTTPException, OSError):
                line.close()
        times.append(time.perf_counter() - began)
        sizes.add(size)
        if not kept:
            line.close()
        time.sleep(pause)
    line.close()


def many(name, port):
    for kept in (True, False):
        for pause in PAUSES:
            for count in (2, 10):
                times, sizes = [], set()
                clients = [threading.Thread(target=client, args=(port, kept, pause, times, sizes)) for _ in range(count)]
                began = time.perf_counter()
                for one in clients:
                    one.start()
                for one in clients:
                    one.join()
                took = time.perf_counter() - began
                assert sizes == {8 * LISTED} and len(times) == count * PAGES, (sizes, len(times))
                print('%-6s %2d clients, %s, %s: %5.0f pages a second, %6.1f ms on the average, %6.1f at most' % (
                    name, count, 'kept' if kept else 'new ', '%.1f s between' % pause if pause else 'no pause     ',
                    len(times) / took, 1e3 * statistics.mean(times), 1e3 * max(times)))


def over_many_connections(folder):
    seconds(folder, JOIN * LISTED, ('--db', 'list'))
    with served(PROGRAM, 'app', 1000000, folder, ('--db', 'list')) as run:
        many('jac', run.port)
    with contextlib.closing(sqlite3.connect(os.path.join(folder, 'names'))) as store, store:
        store.execute('CREATE TABLE User (id INTEGER PRIMARY KEY, name TEXT)')
        store.executemany('INSERT INTO User (name) VALUES (?)', [('Annabel',)] * LISTED)
    for name in OTHERS:
        with other(name, folder) as port:
            if port:
                many(name, port)
            else:
                print('left out, as it is not installed: ' + name)


def main(words):
    global PROGRAM
    PROGRAM = proved.program(words[0])
    with tempfile.TemporaryDirectory() as folder:
        with open(os.path.join(folder, 'app'), 'w') as app:
            app.write(APPLICATION)
        over_a_connection(folder)
        over_many_connections(folder)
        over_a_store(folder)

