#!/usr/bin/env python3
"""Runs the built program with its examples, with files that are missing, wrong or too long, and with a standard output
that takes nothing. Argument: the program. Prints each failed case, then a count."""
import itertools
import os
import re
import subprocess
import sys
import tempfile

from support import proved

TOP = os.path.dirname(os.path.dirname(os.path.abspath(__file__)))
EXAMPLES = os.path.join(TOP, 'examples')
PROGRAM = proved.program(proved.first_word())
HELLO = b'(app (view get "/" (params) (put "hello")))'
ASK = b'ask - GET "/" ""\n'
PAGE = b'reply 200 "" "hello"\n'
DONE = b'reply 200 "" ""\n'

# Each note has a label that nobody is shown. Which note is the first one with the key depends on all these labels.
FIRST = b'(put (eq (none Note) (first (from ((n Note)) (eq (get Note body n) "key") key))))'
NOTES = b'''(app (model Note (fields (body text)) (group (guards (body "locked")) (policy false)))
 (view post "/some" (params)%s)
 (view post "/one" (params) (create n Note (set (body "key"))))
 (view post "/first" (params) %s)
 (view get "/first" (params) %s))
''' % (b' (create n Note (set (body "key")))' * 64, FIRST, FIRST)

WORDS = b'''(app (model Word (fields (text text)))
 (view post "/words" (params (word text)) (put word))
 (view get "/words" (params (word text)) (put word)))
'''
# What one connection sends, and how many replies it gets: one that stays open, one that is closed, one that is refused.
FORM = b'POST /words HTTP/1.1\r\nHost: a\r\nContent-Type: application/x-www-form-urlencoded\r\nContent-Length: %d\r\n\r\n%s'
KEPT = b'GET /words?word=one HTTP/1.1\r\nHost: a\r\n\r\nHEAD /words?word=two HTTP/1.1\r\nHost: a\r\nX: y\r\n\r\n' \
    + FORM % (14, b'word=three%21+') + b'GET /none HTTP/1.1\r\nHost: a\r\n\r\n'
CLOSED = FORM % (8, b'word=one') + b'GET /words HTTP/1.1\r\nHost: a\r\nConnection: close\r\n\r\nGET /words HTTP/1.1\r\n'
REFUSED = b'GET /words?word=one HTTP/1.1\r\nHost: a\r\n\r\n' + FORM % (4, b'word') + b'GET /words HTTP/1.1\r\n Host: a\r\n\r\nGET /'
STREAMS = (KEPT, 4), (CLOSED, 2), (REFUSED, 3)


def run(words, folder, **options):
    return subprocess.run([PROGRAM] + words, cwd=folder, stdin=subprocess.DEVNULL, stderr=subprocess.DEVNULL, timeout=120, **options)


def case(name, files, words, status, out):
    """Runs the program over these files, and compares its status and output."""
    with tempfile.TemporaryDirectory() as folder:
        for file, data in files.items():
            with open(os.path.join(folder, file), 'wb') as handle:
                handle.write(data)
        done = run(words, folder, stdout=subprocess.PIPE)
        if (done.returncode, done.stdout) == (status, out):
            return None
        return '%s: status %r, out %r' % (name, done.returncode, done.stdout[-200:])


def replay(name, app, events, status, out):
    return case(name, {'a': app, 'e': events}, ['replay', 'a', 'e'], status, out)


def examples():
    """Yields the examples of the repository: the folder of each, and what the names of its files begin with."""
    for name in sorted(os.listdir(EXAMPLES)):
        path = os.path.join(EXAMPLES, name)
        if name.endswith('.app'):
            yield EXAMPLES, name[:-len('app')]
        elif os.path.isdir(path):
            yield path, ''


def example(folder, prefix):
    """Checks an example: its output, and its audit if a file of the audit is beside it."""
    def beside(name):
        path = os.path.join(folder, prefix + name)
        if os.path.exists(path):
            with open(path, 'rb') as handle:
                return handle.read()
        return None

    words = ['replay', prefix + 'app', prefix + 'events']
    if beside('sessions') is not None:
        words += ['--sessions', prefix + 'sessions']
    done, audit = audited(folder, words)
    name = os.path.join(os.path.relpath(folder, TOP), prefix)
    if (done.returncode, done.stdout) != (0, beside('out')):
        return '%s: status %r, %s' % (name, done.returncode, difference(done.stdout, beside('out') or b''))
    if beside('audit') not in (None, audit):
        return '%s, audit: %s' % (name, difference(audit, beside('audit')))
    return None


def whys(folder):
    """Checks what viewers aren't shown of an example whose walk is stored in a file. The file `why` of the example has
    a line `why VIEWER` for each viewer, and the expected output after it."""
    with open(os.path.join(folder, 'why'), 'rb') as handle:
        parts = re.split(rb'(?m)^why (\S+)\n', handle.read())[1:]
    with tempfile.TemporaryDirectory() as room:
        store = ['--db', os.path.join(room, 'd')]
        run(['replay', 'app', 'events', '--sessions', 'sessions', *store], folder, stdout=subprocess.DEVNULL)
        for viewer, want in zip(parts[::2], parts[1::2]):
            done = run(['why', 'app', viewer.decode(), *store], folder, stdout=subprocess.PIPE)
            if (done.returncode, done.stdout) != (0, want):
                return '%s, why of %s: status %r, %s' % (os.path.relpath(folder, TOP), viewer.decode(), done.returncode,
                                                         difference(done.stdout, want))
    return None


def next_version(folder):
    """Checks the second version of an example, which is in its folder `next`. The first version's walk is stored in a
    file, the file is upgraded, and the second version's walk continues with it. The expected output begins with the
    line of the upgrade."""
    def content(*name):
        with open(os.path.join(folder, *name), 'rb') as handle:
            return handle.read()

    app, following = (os.path.join(folder, *name, 'app') for name in ([], ['next']))
    name = os.path.relpath(os.path.join(folder, 'next'), TOP)
    with tempfile.TemporaryDirectory() as room:
        store = ['--db', os.path.join(room, 'd')]
        kept = run(['replay', 'app', 'events', '--sessions', 'sessions', *store], folder, stdout=subprocess.PIPE)
        made = run(['upgrade', app, following, *store], folder, stdout=subprocess.PIPE)
        done, audit = audited(folder, ['replay', 'next/app', 'next/events', '--sessions', 'sessions', *store])
    if kept.stdout != content('out'):
        return '%s, the first walk over a file: %s' % (name, difference(kept.stdout, content('out')))
    parts = ('out', made.stdout + done.stdout), ('audit', audit)
    for part, have in parts:
        want = content('next', part)
        if have != want:
            return '%s, %s: status %r and %r, %s' % (name, part, made.returncode, done.returncode, difference(have, want))
    return None


def difference(have, want):
    """Returns the first line that differs, and the line that was wanted."""
    pairs = itertools.zip_longest(have.split(b'\n'), want.split(b'\n'), fillvalue=b'no line')
    return next(('line %d: %r for %r' % (at, a[:400], b[:400]) for at, (a, b) in enumerate(pairs, 1) if a != b), 'no difference')


def audited(folder, words):
    """Runs a command. Returns the run and its audit, which must be appended to what the file held before."""
    old = b'old\n' * 1000
    with tempfile.NamedTemporaryFile() as audit:
        audit.write(old)
        audit.flush()
        done = run(words + ['--audit', audit.name], folder, stdout=subprocess.PIPE)
        with open(audit.name, 'rb') as handle:
            kept, lines = handle.read(len(old)), handle.read()
        return done, lines if kept == old else b'the audit was not appended to the file\n' + kept + lines


def closed_output():
    with tempfile.TemporaryDirectory() as folder:
        for file, data in (('a', HELLO), ('e', ASK)):
            with open(os.path.join(folder, file), 'wb') as handle:
                handle.write(data)
        closed = run(['replay', 'a', 'e'], folder, preexec_fn=lambda: os.close(1)).returncode
        with open('/dev/full', 'wb') as full:
            filled = run(['replay', 'a', 'e'], folder, stdout=full).returncode
        return None if (closed, filled) == (5, 5) else 'outputs that take nothing: %r, %r' % (closed, filled)


def directory():
    with tempfile.TemporaryDirectory() as folder:
        os.mkdir(os.path.join(folder, 'a'))
        done = run(['replay', 'a', 'e'], folder, stdout=subprocess.PIPE)
        return None if (done.returncode, done.stdout) == (4, b'read fault: a\n') else 'a directory: %r' % (done,)


def many_labels():
    """Checks that a value of a POST may depend on 1,024 labels. With one more the POST runs out of memory and gets 500,
    and the run goes on. A GET makes its page in one world, whatever the number."""
    some, one = b'ask - POST "/some" ""\n', b'ask - POST "/one" ""\n'
    first = b'ask - POST "/first" ""\nask - GET "/first" ""\n'
    true, failed = b'reply 200 "" "true"\n', b'reply 500 "" "500 Internal Server Error\\n"\n'
    return replay('many labels', NOTES, some * 16 + first + one + first + one, 0,
                  DONE * 16 + true + true + DONE + failed + true + DONE)


def cuttings(stream):
    """Yields the stream in one piece, byte by byte, in pieces of each length up to 16, and cut in two at each place."""
    for length in [len(stream), *range(1, 17)]:
        yield [stream[at:at + length] for at in range(0, len(stream), length)]
    for at in range(1, len(stream)):
        yield [stream[:at], stream[at:]]


def quoted(data):
    """Returns the bytes as they are written between the quotes of a line of events."""
    return data.replace(b'\r', b'\\r').replace(b'\n', b'\\n')


def cut():
    """Checks that however a stream is cut into pieces, its replies are byte for byte those of the stream in one
    piece."""
    for stream, replies in STREAMS:
        ways = list(cuttings(stream))
        lines = []
        for number, way in enumerate(ways):
            pieces = [b'data %d "%s"\n' % (number, quoted(piece)) for piece in way]
            lines += [b'open %d\n' % number, *pieces, b'end %d\n' % number]
        with tempfile.TemporaryDirectory() as folder:
            for file, data in (('a', WORDS), ('e', b''.join(lines))):
                with open(os.path.join(folder, file), 'wb') as handle:
                    handle.write(data)
            done = run(['replay', 'a', 'e'], folder, stdout=subprocess.PIPE)
        sent = [[] for _ in ways]
        for line in done.stdout.splitlines():
            kind, number, rest = (line + b' ').split(b' ', 2)
            sent[int(number)].append((kind, rest))
        if done.returncode or sum(kind == b'sent' for kind, _ in sent[0]) != replies:
            return 'a stream in one piece: status %r, %r' % (done.returncode, sent[0])
        for way, have in zip(ways, sent):
            if have != sent[0]:
                return 'a stream cut in pieces %r: %r, not %r' % (way, have, sent[0])
    return None


def main():
    padded = HELLO + b' ' * (1048576 - len(HELLO))
    lines = b'\n' * (16777216 - len(ASK)) + ASK
    line = b'events: line 1: no form\n'
    tags = b'(app (view get "/" (params) (template "%s")))' % (b'a{{ (str 1) }}' * 10000)
    results = [example(folder, prefix) for folder, prefix in examples()]
    results += [whys(folder) for folder, prefix in examples() if os.path.exists(os.path.join(folder, 'why'))]
    results += [next_version(folder) for folder, prefix in examples() if os.path.isdir(os.path.join(folder, 'next'))]
    results += [
        case('a missing application', {}, ['replay', 'a', 'e'], 4, b'read fault: a\n'),
        case('missing events', {'a': HELLO}, ['replay', 'a', 'e'], 4, b'read fault: e\n'),
        directory(),
        replay('an application of the limit', padded, ASK, 0, PAGE),
        replay('an application of a byte more', padded + b' ', ASK, 10, b'too long: a, limit 1048576\n'),
        replay('events of the limit', HELLO, lines, 0, PAGE),
        replay('events of a byte more', HELLO, b'\n' + lines, 10, b'too long: e, limit 16777216\n'),
        replay('no line feed at the end', HELLO, ASK[:-1], 0, PAGE),
        replay('carriage returns', HELLO, ASK[:-1] + b'\r\n', 3, line),
        replay('a NUL', HELLO, b'ask - GET "/\0" ""\n', 0, b'reply 404 "" "404 Not Found\\n"\n'),
        replay('a target that is not UTF-8', HELLO, b'ask - GET "/\xff" ""\n', 3, line),
        replay('an application that is not UTF-8', HELLO + b'\xff', ASK, 2, b'app: not UTF-8 at 43\n'),
        case('a list of 100,000 atoms', {'a': b'(' + b'atom ' * 100000 + b')'}, ['check', 'a'], 2,
             b'app: form at top: expected app\n'),
        replay('a template of 10,000 tags', tags, ASK, 0, b'reply 200 "" "%s"\n' % (b'a1' * 10000)),
        many_labels(),
        cut(),
        closed_output(),
    ]
    for wrong in filter(None, results):
        print('FAILED ' + wrong)
    failed = sum(1 for wrong in results if wrong)
    print('%d passed, %d failed' % (len(results) - failed, failed))
    sys.exit(1 if failed else 0)


if __name__ == '__main__':
    main()
