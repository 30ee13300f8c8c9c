#!/usr/bin/env python3
"""Sends the built program as many bytes on one connection as it reads from one, 16,777,216, and one more. Each request
within the limit must get its page. A request whose last byte is past the limit must get none. So a limit that is a byte
lower or higher is noticed. Argument: the program. Prints each failed case, then a count."""
import contextlib
import os
import sys
import tempfile
import threading

from support import proved
from support.serving import served

PROGRAM = proved.program(proved.first_word())
LIMIT = 16777216
SIZE = 65536        # of a request; its body is below the limit for a body
HELLO = b'(app (view get "/" (params) (put "hello")) (view post "/" (params) (put "posted")))'
HEAD = b'POST / HTTP/1.1\r\nHost: a\r\nContent-Type: application/x-www-form-urlencoded\r\nContent-Length: %d\r\n\r\n'
REPLY = b'HTTP/1.1 200 OK\r\nContent-Type: text/html; charset=utf-8\r\nContent-Length: 6\r\n\r\nposted'
PATIENCE = 15       # seconds that the program has for what it has to do


def post(size):
    """Returns a request of `size` bytes."""
    body = next(n for n in range(size, 0, -1) if len(HEAD % n) + n == size)
    return HEAD % body + b'x' * body


def requests(total):
    """Returns requests that have `total` bytes together, and how many requests these are."""
    sizes = [SIZE] * (round(total / SIZE) - 1)
    sizes.append(total - sum(sizes))
    return b''.join(map(post, sizes)), len(sizes)


def received(line, wanted):
    """Returns what arrives, up to `wanted` bytes or to the end."""
    parts, size = [], 0
    while size < wanted:
        part = line.recv(min(65536, wanted - size))
        if not part:
            break
        parts.append(part)
        size += len(part)
    return b''.join(parts)


def ends(line):
    """Returns whether nothing more arrives and the peer soon ends the connection."""
    try:
        return line.recv(1) == b''
    except ConnectionResetError:
        return True
    except TimeoutError:
        return False


@contextlib.contextmanager
def sent(data):
    """Yields a run, and a connection on which the data is sent while the caller reads the replies."""
    with tempfile.TemporaryDirectory() as folder:
        with open(os.path.join(folder, 'app'), 'wb') as app:
            app.write(HELLO)
        with served(PROGRAM, 'app', 1, folder) as run, contextlib.closing(run.connect()) as line:
            line.settimeout(PATIENCE)
            sender = threading.Thread(target=send, args=(line, data), daemon=True)
            sender.start()
            yield run, line
            sender.join(PATIENCE)


def send(line, data):
    """Sends the data. Ignores what the peer no longer takes."""
    with contextlib.suppress(ConnectionError):
        line.sendall(data)


def pages(name, line, count):
    have = received(line, count * len(REPLY))
    if have != REPLY * count:
        right = next((i for i in range(count) if have[i * len(REPLY):(i + 1) * len(REPLY)] != REPLY), count)
        yield '%s: %d pages of %d, then %r' % (name, right, count, have[right * len(REPLY):][:len(REPLY)])


def counted(name, run, replies):
    have, want = run.end(), (0, b'served 1 connections, %d replies\n' % replies)
    if have != want:
        yield '%s: at the end %r, not %r' % (name, have, want)


def whole():
    """Checks that requests of LIMIT bytes together get their pages, and that a request after them gets none."""
    data, count = requests(LIMIT)
    with sent(data + post(200)) as (run, line):
        yield from pages('all bytes', line, count)
        if not ends(line):
            yield 'all bytes: there is a page past the limit'
        yield from counted('all bytes', run, count)


def one_more():
    """Checks that a request whose last byte is past the limit gets no page."""
    data, count = requests(LIMIT + 1)
    with sent(data) as (run, line):
        yield from pages('a byte more', line, count - 1)
        if not ends(line):
            yield 'a byte more: there is a page past the limit'
        yield from counted('a byte more', run, count - 1)


def main():
    cases = whole, one_more
    failed = 0
    for case in cases:
        found = list(case())
        failed += bool(found)
        for line in found:
            print('FAILED %s' % line)
    print('%d passed, %d failed' % (len(cases) - failed, failed))
    sys.exit(bool(failed))


if __name__ == '__main__':
    main()
