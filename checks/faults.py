#!/usr/bin/env python3
"""Causes each fault around the built program, at each place in turn. Files can't be read. An audit and an output are
full from each byte on. A disk fills up while requests are stored. A request ends after each of its bytes, in events and
over real connections. A client breaks its connection after each of these bytes. Requests are malformed. An application
ends after each of its bytes. A file is full when it has reached the process's limit on the size of files. Argument: the
program. Prints each failed case, then a count. If a client was so late that the program closed its connection, that
part is repeated, a bounded number of times (late.py)."""
import contextlib
import functools
import os
import resource
import signal
import socket
import sqlite3
import struct
import subprocess
import sys
import tempfile

from support import proved
from support.late import all_of, looked_at
from support.serving import served

PROGRAM = proved.binary(proved.first_word())
CALENDAR = b'''(app (viewer User)
 (model User (fields (name text)))
 (model Event (fields (title text) (host (ref User)) (open bool))
  (group (guards (title "private"))
   (policy (or (get Event open this) (eq (get Event host this) viewer)))))
 (view post "/join" (params (name text))
  (create u User (set (name name)) (put u)))
 (view post "/add" (params (title text) (open bool))
  (create e Event (set (title title) (host viewer) (open open)) (put e)))
 (view get "/list" (params)
  (for (from ((e Event)) true key) (put (get Event title e)) (put ";"))))'''
STORY = b'ask - POST "/join" "name=Ann"\nask - POST "/join" "name=Bob"\nask 4096 POST "/add" "title=raid&open=0"\n'
REPLIES = [b'reply 200 "" "4096"\n', b'reply 200 "" "8192"\n', b'reply 200 "" "12289"\n']
AUDIT = [b'1 200 - -\n', b'2 200 - -\n', b'3 200 4096 98312\n']
FAULT = b'write fault\n'
# the size of a file before it fills up, so large that the limit leaves room for the store beside it
HELD = 4 * 1024 * 1024
# the request that curl makes from a form
FORM = b'POST /join HTTP/1.1\r\nHost: localhost:8080\r\nUser-Agent: curl/8.5.0\r\nAccept: */*\r\nContent-Length: 8\r\n' \
       b'Content-Type: application/x-www-form-urlencoded\r\n\r\nname=Ann'
JOINED = b'HTTP/1.1 200 OK\r\nContent-Type: text/html; charset=utf-8\r\nContent-Length: %d\r\n\r\n%s'
BROKEN = {
    b'GET / HTTP/1.1\r\nHost: a\r\nHost: a\r\n\r\n': b'400 Bad Request',
    b'GET * HTTP/1.1\r\nHost: a\r\n\r\n': b'400 Bad Request',
    b'POST /join HTTP/1.1\r\nHost: a\r\nContent-Length: +8\r\n\r\n': b'400 Bad Request',
    b'POST /join HTTP/1.1\r\nHost: a\r\nContent-Length: 8\r\nContent-Length: 8\r\n\r\n': b'400 Bad Request',
    b'POST /join HTTP/1.1\r\nHost: a\r\nContent-Length: 99999999999999999999999\r\n\r\n': b'413 Content Too Large',
    b'GET / HTTP/1.1\r\nHost: a\r\n' + b'a: b\r\n' * 64 + b'\r\n': b'431 Request Header Fields Too Large',
}


class Folder:
    """A folder with the calendar, some events and a store, in which the program is run."""

    def __init__(self, folder):
        self.folder = folder
        self.write('a', CALENDAR)
        self.write('e', STORY)

    def path(self, name):
        return os.path.join(self.folder, name)

    def write(self, name, data):
        with open(self.path(name), 'wb') as handle:
            handle.write(data)

    def names(self):
        return sorted(os.listdir(self.folder))

    def run(self, *words, most=None, out=subprocess.PIPE):
        """Runs the program. Returns the status and the output. No file may become larger than `most` bytes."""
        done = subprocess.run([PROGRAM, *words], cwd=self.folder, timeout=120, stdin=subprocess.DEVNULL, stdout=out,
                              stderr=subprocess.DEVNULL, preexec_fn=None if most is None else lambda: grant(most))
        return done.returncode, done.stdout

    def replay(self, *options, most=None, out=subprocess.PIPE):
        return self.run('replay', 'a', 'e', '--db', 'd', *options, most=most, out=out)

    def clear(self):
        """Removes the store and the audit that a run left."""
        for left in self.names():
            if left.startswith(('d', 'l')):
                os.remove(self.path(left))

    def fill(self, name):
        """Makes a file of HELD bytes that takes no room on the disk."""
        with open(self.path(name), 'wb') as handle:
            handle.truncate(HELD)

    def behind(self, name):
        """Returns what was written after the first HELD bytes."""
        with open(self.path(name), 'rb') as handle:
            handle.seek(HELD)
            return handle.read()

    def number(self):
        """Returns the number of the next request that the store takes."""
        with contextlib.closing(sqlite3.connect(self.path('d'))) as database:
            return database.execute('SELECT number FROM meta').fetchone()[0]


def grant(most):
    """From now on the process can't write any file beyond `most` bytes. Such a write fails, and doesn't end the
    process."""
    signal.signal(signal.SIGXFSZ, signal.SIG_IGN)
    resource.setrlimit(resource.RLIMIT_FSIZE, (most, most))


def expect(name, have, want):
    return None if have == want else '%s: %r, not %r' % (name, have, want)


def unread(at):
    """Checks that nothing is answered if a file can't be read, and that neither an audit nor a store is made."""
    for name in 'a', 'e':
        with fresh() as other:
            os.remove(other.path(name))
            before = other.names()
            yield expect('no file ' + name, other.replay('--audit', 'l'), (4, b'read fault: %s\n' % name.encode()))
            yield expect('no file %s, afterwards' % name, other.names(), before)


def unaimed(at):
    """Checks that nothing is answered if the audit can't be written, and that no store is made."""
    os.mkdir(at.path('l'))
    before = at.names()
    yield expect('an audit that is a folder', at.replay('--audit', 'l'), (5, FAULT))
    yield expect('an audit that is a folder, afterwards', at.names(), before)


def lines_within(lines, size):
    """Returns how many of the lines are complete within their first `size` bytes."""
    return sum(len(b''.join(lines[:count])) <= size for count in range(1, len(lines) + 1))


def audits(at):
    """Checks an audit that has room for `size` more bytes. The request of the line that is cut off was stored and has
    no reply. Nothing after it is answered or stored."""
    whole = b''.join(AUDIT)
    for size in range(len(whole) + 1):
        at.clear()
        at.fill('l')
        lines = lines_within(AUDIT, size)
        full = size < len(whole)
        out = b''.join(REPLIES[:lines]) + (FAULT if full else b'')
        name = 'an audit of %d bytes' % size
        yield expect(name, at.replay('--audit', 'l', most=HELD + size), (5 if full else 0, out))
        yield expect(name + ', its bytes', at.behind('l'), whole[:size])
        yield expect(name + ', the next number', at.number(), min(lines + 1, 3) + 1)


def outputs(at):
    """Checks an output that has room for `size` more bytes. The request of the reply that is cut off is in the audit
    and was stored. Nothing after it is answered or stored. There is no room for the line about the fault either."""
    whole = b''.join(REPLIES)
    for size in range(len(whole) + 1):
        at.clear()
        at.fill('o')
        done = min(lines_within(REPLIES, size) + 1, 3)
        name = 'an output of %d bytes' % size
        with open(at.path('o'), 'ab') as out:
            status, _ = at.replay('--audit', 'l', most=HELD + size, out=out)
        with open(at.path('l'), 'rb') as audit:
            yield expect(name + ', the audit', audit.read(), b''.join(AUDIT[:done]))
        yield expect(name, status, 5 if size < len(whole) else 0)
        yield expect(name + ', its bytes', at.behind('o'), whole[:size])
        yield expect(name + ', the next number', at.number(), done + 1)


def full_disks(at):
    """Checks a store whose files may grow only to a given size. Each POST is stored or answered with 503. Each GET
    still shows what is stored, and so does the next run."""
    joins = [b'%04d' % join * 250 for join in range(30)]
    ask = b'ask - POST "/join" "name=%s"\nask - GET "/names" ""\n'
    at.write('a', CALENDAR[:-1] + b'\n (view get "/names" (params)'
             b' (for (from ((u User)) true key) (put (get User name u)) (put ";"))))')
    refusals = []
    for most in range(300_000, 1_500_001, 100_000):
        at.clear()
        at.write('e', b''.join(ask % join for join in joins))
        status, out = at.replay(most=most)
        kept, want = [], []
        lines = out.splitlines()
        for join, line in zip(joins, lines[::2]):
            if line.startswith(b'reply 200 '):
                kept.append(join)
                want.append(b'reply 200 "" "%d"' % (4096 * len(kept)))
            else:
                want.append(b'reply 503 "" "503 Service Unavailable\\n"')
            want.append(b'reply 200 "" "%s"' % b''.join(name + b';' for name in kept))
        name = 'a disk with room for files of %d bytes' % most
        yield expect(name, (status, lines), (0, want))
        at.write('e', b'ask - GET "/names" ""\n')
        yield expect(name + ', afterwards', at.replay(), (0, want[-1] + b'\n'))
        refusals.append(len(joins) - len(kept))
    seen = refusals[0] > 0 and refusals[-1] == 0
    yield None if seen else 'full disks refused %r requests: nothing is seen' % refusals


def fronts(at):
    """Checks that a request which ends before its last byte gets no reply and no number."""
    def quoted(data):
        return data.replace(b'\r', b'\\r').replace(b'\n', b'\\n')

    cuts = b''.join(b'open %d\ndata %d "%s"\nend %d\n' % (size, size, quoted(FORM[:size]), size) for size in range(len(FORM)))
    at.write('e', cuts)
    yield expect('fronts of a request', at.replay('--audit', 'l'), (0, b''))
    with open(at.path('l'), 'rb') as audit:
        yield expect('fronts of a request, the audit', audit.read(), b'')
    at.write('e', b'open 1\ndata 1 "%s"\nend 1\n' % quoted(FORM))
    yield expect('the whole of it', at.replay(), (0, b'sent 1 "%s"\n' % quoted(JOINED % (4, b'4096'))))


def read_all(line):
    """Returns what arrives until the peer ends the connection."""
    parts = []
    while True:
        part = line.recv(65536)
        if not part:
            return b''.join(parts)
        parts.append(part)


def asked(run, data):
    """Sends these bytes and closes the sending side of the connection. Returns what comes back."""
    with run.connect() as line:
        line.sendall(data)
        line.shutdown(socket.SHUT_WR)
        return read_all(line)


def connections(at):
    """Checks the same over real connections that the client ends or breaks. The end of one affects no other, and the
    next one is served."""
    with served(PROGRAM, 'a', 2 * len(FORM) + 2, at.folder) as run:
        for size in range(len(FORM)):
            yield expect('a connection that ends behind %d bytes' % size, asked(run, FORM[:size]), b'')
        yield all_of('a connection behind all that ended', asked(run, FORM), JOINED % (4, b'4096'))
        for size in range(len(FORM)):
            with run.connect() as line:
                line.sendall(FORM[:size])
                line.setsockopt(socket.SOL_SOCKET, socket.SO_LINGER, struct.pack('ii', 1, 0))
        yield all_of('a connection behind all that broke', asked(run, FORM), JOINED % (4, b'8192'))
        line = b'served %d connections, 2 replies\n' % (2 * len(FORM) + 2)
        yield expect('connections that end, at the end', run.end(), (0, line))


def broken(at):
    """Checks bytes that are no request, over real connections. There is one reply, and the connection is closed
    whatever would follow."""
    with served(PROGRAM, 'a', len(BROKEN), at.folder) as run:
        for data, status in BROKEN.items():
            want = b'HTTP/1.1 %s\r\nContent-Type: text/plain; charset=utf-8\r\nContent-Length: %d\r\nConnection: close\r\n' \
                   b'\r\n%s\n' % (status, len(status) + 1, status)
            with run.connect() as line:
                line.sendall(data)
                yield all_of('%r' % data[:80], read_all(line), want)
        line = b'served %d connections, %d replies\n' % (len(BROKEN), len(BROKEN))
        yield expect('what is no request, at the end', run.end(), (0, line))


def applications(at):
    """Checks an application that ends before its last byte."""
    for size in range(len(CALENDAR)):
        at.write('a', CALENDAR[:size])
        yield expect('the first %d bytes of an application' % size, at.run('check', 'a'),
                     (2, b'app: unclosed at %d\n' % size))
    at.write('a', CALENDAR)
    yield expect('the whole of it', at.run('check', 'a'), (0, b'ok 2 models, 3 views\n'))


@contextlib.contextmanager
def fresh():
    with tempfile.TemporaryDirectory() as folder:
        yield Folder(folder)


def in_fresh(part):
    with fresh() as at:
        yield from part(at)


def main():
    results = []
    for part in unread, unaimed, audits, outputs, full_disks, fronts, applications:
        results += in_fresh(part)
    for part in connections, broken:
        results += looked_at(part.__name__, functools.partial(in_fresh, part))
    for wrong in filter(None, results):
        print('FAILED ' + wrong)
    failed = sum(1 for wrong in results if wrong)
    print('%d passed, %d failed' % (len(results) - failed, failed))
    sys.exit(1 if failed else 0)


if __name__ == '__main__':
    main()
