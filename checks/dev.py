#!/usr/bin/env python3
"""Writes an application under `tools/dev.py`, as an editor and a browser would. Saves correct and wrong texts, adds
fields, changes the viewer, and reads what the bar says about labels. Meanwhile a client requests pages over and over,
and none of these requests may fail. Argument: the program. Prints each failed case, then a count."""
import contextlib
import http.client
import os
import re
import signal
import socket
import subprocess
import sys
import tempfile
import threading
import time
import urllib.parse

sys.dont_write_bytecode = True
from support import proved                                                  # noqa: E402
from support.serving import HOST, free_port, is_listening                   # noqa: E402

TOP = os.path.dirname(os.path.dirname(os.path.abspath(__file__)))
PROGRAM = proved.binary(proved.first_word())
DEV = os.path.join(TOP, 'tools', 'dev.py')
WAIT = 120      # seconds; the machine may be busy with other programs

APP = '''(app (viewer User)
 (model User (fields (name text)))
 (model Note (fields (owner (ref User)) (words text))
  (group (guards (words "<hidden>")) (policy (or (eq (get Note words this) "<i>") (eq (get Note owner this) viewer)))))
 (view post "/join" (params (name text)) (create u User (set (name name))) (redirect "/"))
 (view post "/note" (params (words text)) (create n Note (set (owner viewer) (words words))) (redirect "/"))
 (view get "/" (params)
  (template "<!DOCTYPE html><title>Notes</title><p>Edition one</p>
{% (for (from ((n Note)) true key)) %}<p>{{ (get Note words n) }}</p>{% end %}"))
 (view get "/{a}" (params (a text)) (esc a))
 (view get "/{a}/{b}" (params (a text) (b text)) (esc b))
 (view get "/{a}/{b}/{c}" (params (a text) (b text) (c text)) (esc c)))
'''
SECOND = APP.replace('Edition one', 'Edition two')
WRONG = SECOND.replace('(esc a)', '(esc aa)')
WIDER = SECOND.replace('(fields (name text))', '(fields (name text) (town text))')
SESSIONS = 'ann 4096\nbob 8192\nnobody -\n'


class Broken(Exception):
    pass


class Writer:
    """A run of dev in a folder of its own. Its temporary files are in another folder."""

    def __init__(self, folder, words=(), text=APP):
        self.folder, self.port = folder, free_port()
        self.room = os.path.join(folder, 'room')
        os.makedirs(self.room, exist_ok=True)
        self.save('sessions', SESSIONS)
        self.save('app', text)
        with open(os.path.join(folder, 'told'), 'wb') as told:
            self.run = subprocess.Popen([sys.executable, DEV, PROGRAM, 'app', str(self.port), '--sessions', 'sessions',
                                         *words],
                                        cwd=folder, stdin=subprocess.DEVNULL, stdout=told, stderr=told,
                                        env={**os.environ, 'TMPDIR': self.room})
        self.until('it listens', lambda: is_listening(self.port))
        self.until('the first text is read', lambda: self.version() > 0)

    def path(self, name):
        return os.path.join(self.folder, name)

    def save(self, name, text):
        """Saves as an editor does: a new file replaces the old one."""
        with open(self.path(name + '~'), 'w', encoding='utf-8') as file:
            file.write(text)
        os.replace(self.path(name + '~'), self.path(name))

    def saved(self, text, name='app'):
        """Saves a text, and waits until dev has taken it."""
        before = self.version()
        self.save(name, text)
        self.until('a save is taken', lambda: self.version() > before)

    def until(self, what, test):
        deadline = time.monotonic() + WAIT
        while not test():
            if time.monotonic() > deadline or self.run.poll() is not None:
                raise Broken('%s: this did not happen, and dev says %s' % (what, self.told()[-500:]))
            time.sleep(0.02)

    def told(self):
        with open(self.path('told'), encoding='utf-8', errors='replace') as file:
            return file.read()

    def ask(self, method, path, form=None, token=None, **headers):
        """Returns the status, the headers and the body of the reply."""
        line = http.client.HTTPConnection(HOST, self.port, timeout=WAIT)
        if token:
            headers['Cookie'] = 'first=1; session=%s; last=2' % token
        body = None
        if form is not None:
            body = urllib.parse.urlencode(form)
            headers['Content-Type'] = 'application/x-www-form-urlencoded'
        with contextlib.closing(line):
            line.request(method, path, body, {name.replace('_', '-'): value for name, value in headers.items()})
            reply = line.getresponse()
            return reply.status, reply.headers, reply.read().decode()

    def page(self, path='/', token=None):
        return self.ask('GET', path, token=token)[2]

    def version(self):
        return int(re.search(r'\d+', self.page('/dev//state')).group())

    def labels(self, token, path='/'):
        """Returns what the bar of this page says about the labels."""
        number = re.search(r'data-from="/dev//labels/(\d+)"', self.page(path, token)).group(1)
        return self.page('/dev//labels/' + number)

    def end(self, how=signal.SIGINT):
        """Ends the run, and returns its exit status."""
        if self.run.poll() is None:
            self.run.send_signal(how)
        return self.run.wait(WAIT)


@contextlib.contextmanager
def writer(words=(), text=APP):
    with tempfile.TemporaryDirectory() as folder:
        run = Writer(folder, words, text)
        try:
            yield run
        finally:
            run.end(signal.SIGTERM)


class Asker(threading.Thread):
    """Requests pages and posts notes until it is stopped, and records each unexpected reply."""

    def __init__(self, run):
        super().__init__()
        self.writer, self.wrong, self.count, self.posts, self.is_over = run, [], 0, 0, False

    def run(self):
        while not self.is_over:
            for method, form, want in (('GET', None, 200), ('POST', {'words': 'a note'}, 303), ('GET', None, 200)):
                try:
                    status = self.writer.ask(method, '/note' if form else '/', form, 'ann')[0]
                except OSError as fault:
                    status = repr(fault)
                self.count += 1
                self.posts += status == 303
                if status != want:
                    self.wrong.append('%s: %s' % (method, status))

    def stop(self):
        self.is_over = True
        self.join()


def expect(name, have, want):
    return None if have == want else '%s: %r, not %r' % (name, have, want)


def has(name, text, *parts, but=()):
    for part in parts:
        if part not in text:
            return '%s: no %r in %r' % (name, part, text[-1500:])
    for part in but:
        if part in text:
            return '%s: %r in it' % (name, part)
    return None


def children_of(number):
    with open('/proc/%d/task/%d/children' % (number, number), encoding='ascii') as file:
        return [int(child) for child in file.read().split()]


def is_gone(number):
    with open('/proc/%d/stat' % number, encoding='ascii') as file:
        return file.read().rpartition(') ')[2][0] == 'Z'


def saves():
    """Saves texts one after another while a client sends requests."""
    with writer(('--db', 'store.db')) as run:
        for name in 'Ann', 'Bob':
            run.ask('POST', '/join', {'name': name})
        yield has('the first text', run.page(), 'Edition one', 'jac-dev-bar', 'for writing, not for serving')
        asker = Asker(run)
        asker.start()
        try:
            run.saved(SECOND)
            yield has('the second text', run.page(), 'Edition two', but=['Edition one', 'is refused'])
            run.saved(WRONG)
            yield has('a text that is wrong', run.page(), 'Edition two', 'is refused',
                      'app:10:42: in the view get /{a}: ',
                      'nothing here is called aa', '(params (a text)) (esc aa))\n', ' ^^')
            yield has('it is told', run.told(), 'app:10:42: in the view get /{a}: ')
            run.saved(SECOND)
            yield has('it is right again', run.page(), but=['is refused'])
            run.saved(WIDER)
            yield has('a new field', run.page('/dev//'), 'the field town of User is new', 'store.db.before-1')
            run.saved(SECOND)
            yield has('a field is taken out', run.page(), 'the field town of User is missing', 'Edition two',
                      'Begin with a new store')
            run.saved(WIDER)
            run.saved(SESSIONS + 'eve 8192\n', 'sessions')
            yield has('a new session', run.page(), 'eve: User 8192')
        finally:
            asker.stop()
        yield expect('requests while it is saved', asker.wrong, [])
        yield None if asker.count > 20 else 'only %d requests came meanwhile' % asker.count
        yield expect('each note is there', run.page(token='ann').count('<p>a note</p>'), asker.posts)
        yield expect('the copy that is kept', os.path.exists(run.path('store.db.before-1')), True)
        yield expect('no further copy', os.path.exists(run.path('store.db.before-2')), False)
        run.saved(SESSIONS + 'eve Eve\n', 'sessions')
        yield has('a session of no form', run.page('/dev//'), 'sessions: line 4', 'sessions:4:5: the viewer is the number of',
                  ' ^^^')
        run.saved(SESSIONS, 'sessions')
        yield has('sessions as they were', run.page(), 'Edition two', but=['is refused'])


def stores():
    """Opens a store that an earlier run with other models has left."""
    with tempfile.TemporaryDirectory() as folder:
        run = Writer(folder, ('--db', 'store.db'))
        run.ask('POST', '/join', {'name': 'Ann'})
        run.ask('POST', '/note', {'words': 'kept'}, 'ann')
        run.end()
        run = Writer(folder, ('--db', 'store.db'), WIDER)
        yield has('an upgrade at the start', run.page(token='ann'), '<p>kept</p>', 'Edition two')
        run.end()
        run = Writer(folder, ('--db', 'store.db'), APP)
        page = run.ask('GET', '/')
        yield expect('a store of other models', page[0], 503)
        yield has('a store of other models', page[2], 'the field town of User is missing')
        yield expect('a new store', run.ask('POST', '/dev//new-store', {})[0], 303)
        yield has('a new store', run.page(token='ann'), 'Edition one', but=['<p>kept</p>'])
        yield expect('the store before', sorted(name for name in os.listdir(folder) if 'before' in name),
                     ['store.db.before-1', 'store.db.before-2'])
        run.end()


def viewers():
    """Changes the viewer, and checks what each viewer is shown."""
    with writer() as run:
        for name in 'Ann', 'Bob':
            run.ask('POST', '/join', {'name': name})
        run.ask('POST', '/note', {'words': 'a secret'}, 'ann')
        yield has('nobody asks', run.page(), 'asked by <b>nobody</b>', 'value="bob">bob: User 8192')
        reply = run.ask('POST', '/dev//as', {'token': 'bob', 'back': '/a%20b?c=d'})
        yield expect('another one asks', (reply[0], reply[1]['Location'], reply[1]['Set-Cookie']),
                     (303, '/a%20b?c=d', 'session=bob; Path=/; SameSite=Lax'))
        yield has('another one asks', run.page(token='bob'), 'asked by <b>User 8192</b>', 'value="bob" selected',
                  '0 shown', '1 hidden', but=['a secret'])
        yield has('their labels', run.labels('bob'), 'Hidden, of this page', 'Note 12289 (made by POST 3): words',
                  'by its own policy', 'app:4: (or (eq (get Note words this) &quot;&lt;i&gt;&quot;)', but=['<i>',
                                                                                                           'Shown to'])
        yield has('the owner\'s labels', run.labels('ann'), 'Shown to User 4096', 'Note 12289 (made by POST 3): words',
                  but=['Hidden, of this page'])
        yield has('a page without labels', run.labels('ann', '/plain'), 'nothing on this page is guarded')
        reply = run.ask('POST', '/dev//as', {'token': '', 'back': '/'})
        yield has('nobody asks again', reply[1]['Set-Cookie'], 'session=; Path=/;', 'Max-Age=0')
        yield expect('no such token', run.ask('POST', '/dev//as', {'token': 'x; y'})[0], 404)
        for back in '//evil.example/', 'http://evil.example/', '/\\evil.example', '/a\r\nb: c':
            yield expect('back to %r' % back, run.ask('POST', '/dev//as', {'token': 'ann',
                                                                           'back': back})[1]['Location'], '/')


def pages():
    """Checks which pages have the bar, and which paths belong to the application."""
    with writer() as run:
        mark = '<script>alert(1)</script>'
        page = run.ask('GET', '/?a=%s"\'' % mark)
        yield has('a target with markup', page[2], 'value="/?a=&lt;script&gt;', but=['a=<script>'])
        yield expect('a script asks', 'jac-dev' in run.ask('GET', '/', Sec_Fetch_Dest='empty')[2], False)
        head = run.ask('HEAD', '/')
        yield expect('a head', (head[0], head[2]), (200, ''))
        yield expect('another method', run.ask('PUT', '/', {})[0], 405)
        yield expect('no page', run.ask('POST', '/nothing', {})[0], 405)
        own = run.ask('GET', '/dev//nothing')
        yield expect('no page of dev', own[0], 404)
        yield expect('a page of one part', run.page('/dev').startswith('dev<jac-dev-bar'), True)
        yield expect('a page of two parts', run.page('/dev/x').startswith('x<jac-dev-bar'), True)
        yield has('its own page', run.page('/dev//'), 'below <code>/dev//</code>')
        yield expect('another name of this machine', run.ask('GET', '/', Host='evil.example')[0], 421)
        yield expect('by its name', run.ask('GET', '/', Host='localhost:80')[0], 200)
        for headers in {'Origin': 'http://evil.example'}, {'Sec-Fetch-Site': 'cross-site'}:
            yield expect('a form of elsewhere', run.ask('POST', '/dev//as', {'token': 'ann'}, **headers)[0], 403)
        with open('/proc/net/tcp', encoding='ascii') as table:
            doors = [line.split()[1] for line in table.readlines()[1:] if line.split()[3] == '0A']
        yield expect('where it listens', [door for door in doors if door.endswith(':%04X' % run.port)],
                     ['0100007F:%04X' % run.port])


def prefix():
    """Checks that no view can have a path below /dev//. The program refuses such a view, and answers such a path with
    404."""
    with tempfile.TemporaryDirectory() as folder:
        for name, text in (('app', APP), ('events', 'ask - GET "/dev//labels/1" ""\nask - GET "/dev//" ""\n'),
                           ('wrong', '(app (view get "/dev//labels" (params) (put "x")))')):
            with open(os.path.join(folder, name), 'w', encoding='utf-8') as file:
                file.write(text)
        out = [subprocess.run([PROGRAM, *words], cwd=folder, stdin=subprocess.DEVNULL, stdout=subprocess.PIPE,
                              stderr=subprocess.DEVNULL, check=False).stdout.decode()
               for words in (['replay', 'app', 'events'], ['check', 'wrong'])]
        yield expect('the program on dev\'s paths', out[0], 'reply 404 "" "404 Not Found\\n"\n' * 2)
        yield expect('a view with such a path', out[1], 'app: form at 1.2: expected path\n')


def late():
    """Opens a connection whose first byte comes late, as on a busy machine. The request must be answered, and must take
    effect only once."""
    sys.path.insert(0, os.path.dirname(DEV))
    import dev
    connect, calls = socket.create_connection, []

    def slow(*words):
        line = connect(*words)
        calls.append(line)
        time.sleep(4 if len(calls) == 1 else 0)
        return line

    with tempfile.TemporaryDirectory() as folder:
        with open(os.path.join(folder, 'app'), 'w', encoding='utf-8') as file:
            file.write(APP)
        child = dev.Child([PROGRAM, 'serve', '--audit', '%(audit)s', '--', file.name, '%(port)s', '100'], folder)
        socket.create_connection = slow
        try:
            note = b'POST /note HTTP/1.1\r\nHost: a\r\nContent-Type: application/x-www-form-urlencoded\r\n' \
                b'Content-Length: 10\r\nConnection: close\r\n\r\nwords=late'
            reply, line = child.ask(note)
            yield expect('a late request', (reply[:12], line), (b'HTTP/1.1 303', '1 303 - 32776'))
            yield expect('how often it was sent', len(calls), 2)
            page = child.ask(b'GET / HTTP/1.1\r\nHost: a\r\nConnection: close\r\n\r\n')[0]
            yield expect('how often it was done', page.count(b'<p>late</p>'), 1)
        finally:
            socket.create_connection = connect
            child.stop()


def beginnings():
    """Begins with a text that is wrong from the start, and checks how a run ends."""
    with writer(text=WRONG) as run:
        page = run.ask('GET', '/anything')
        yield expect('wrong from the first', page[0], 503)
        yield has('wrong from the first', page[2], 'nothing here is called aa', 'There is no page yet')
        before = run.version()
        os.remove(run.path('app'))
        run.until('a file that is gone', lambda: run.version() > before)
        yield has('a file that is gone', run.page(), 'app can&#x27;t be read', 'app: No such file or directory')
        run.saved(APP)
        yield has('then right', run.page(), 'Edition one')
        busy = subprocess.run([sys.executable, DEV, PROGRAM, 'app', str(run.port)], cwd=run.folder,
                              stdin=subprocess.DEVNULL,
                              stdout=subprocess.PIPE, stderr=subprocess.STDOUT, timeout=WAIT, check=False)
        yield expect('a port that is taken', (busy.returncode, b'Address already in use' in busy.stdout), (1, True))
        children = children_of(run.run.pid)
        yield expect('one run of the program', len(children), 1)
        os.kill(children[0], signal.SIGKILL)
        run.until('it is gone', lambda: is_gone(children[0]))
        yield has('the program was killed', run.page(), 'Edition one')
    for how in signal.SIGINT, signal.SIGTERM, signal.SIGHUP:
        with writer() as run:
            children = children_of(run.run.pid)
            yield expect('the status of the end', run.end(how), 128 + how)
            yield expect('what is left', (os.listdir(run.room),
                                          [one for one in children if os.path.exists('/proc/%d' % one)]),
                         ([], []))
    helped = subprocess.run([os.path.join(TOP, 'jac'), 'dev', '--help'], stdin=subprocess.DEVNULL,
                            stdout=subprocess.PIPE,
                            stderr=subprocess.PIPE, timeout=WAIT, check=False)
    yield expect('help', (helped.returncode, helped.stdout[:15], helped.stderr), (0, b'usage: jac dev ', b''))


def main():
    results = []
    for cases in (saves, stores, viewers, pages, prefix, late, beginnings):
        try:
            results += cases()
        except Broken as broken:
            results.append('%s: %s' % (cases.__name__, broken))
    for wrong in filter(None, results):
        print('FAILED ' + wrong)
    failed = sum(1 for wrong in results if wrong)
    print('%d passed, %d failed' % (len(results) - failed, failed))
    return 1 if failed else 0


if __name__ == '__main__':
    sys.exit(main())
