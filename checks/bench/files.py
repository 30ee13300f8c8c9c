"""Measures what should cost in proportion to its length: the check of an application, and the bytes of connections.
Arguments: the program, and parts of the names of the series to measure, or none for all. Each series has several sizes,
each four times the one before unless that would exceed a limit. The growth is that of the seconds divided by that of
the size, so 1.00 means in proportion. A time is the processor time of a run, the best of three, and on a real
connection how long the client waits. The memory is the most that the run held.

docs/COSTS.md has the last results, with their date. This isn't part of the gate, since the results depend on the
machine."""
import concurrent.futures
import contextlib
import os
import sys
import tempfile
import threading
import time

from support import proved
from support.serving import served

KB, MB = 1024, 1024 * 1024
SIZES = [64 * KB, 256 * KB, MB - KB]
LONGEST = 16 * MB       # of an events file, and of one connection
ENOUGH = 10             # seconds after which a run isn't repeated
NAME = 64               # letters of the longest name
DEPTH = 64              # lists nested in one another
HELLO = b'''(app
 (view get "/" (params) (put "hello"))
 (view post "/" (params (word text)) (put "posted")))
'''
GET = b'GET / HTTP/1.1\r\nHost: a\r\n\r\n'


def long_name(letter, place):
    name = '%s%d' % (letter, place)
    return name + 'x' * (NAME - len(name))


def filled(size, begin, part, end):
    """Returns an application of about this size: its beginning, parts by their number, and its end."""
    parts, length, place = [begin], len(begin) + len(end), 0
    while length < size:
        parts.append(part(place))
        length += len(parts[-1])
        place += 1
    return ''.join(parts) + end


def models(count):
    """Returns models with as many fields as allowed, with long names, and a group that guards half of them."""
    fields = [long_name('f', place) for place in range(32)]
    listed = ' '.join('(%s int)' % name for name in fields)
    guards = ' '.join('(%s 0)' % name for name in fields[16:])
    return ''.join('(model %s (fields %s) (group (guards %s) (policy (lt 0 (get %s %s this)))))\n' % (
        long_name('M', place), listed, guards, long_name('M', place), fields[0]) for place in range(count))


def of_models(size):
    return '(app\n%s)\n' % models(size)


def of_models_and_views(size):
    def view(place):
        model = long_name('M', place * 37 % 64)
        return '(view get "/v%d" (params (r (ref %s))) (put (get %s %s r)))\n' % (place, model, model, long_name('f', place % 32))
    return filled(size, '(app\n' + models(64), view, ')\n')


def of_views(size):
    return filled(size, '(app\n', lambda place: '(view get "/v%d" (params (n int)) (put n))\n' % place, ')\n')


def of_statements(size):
    return filled(size, '(app (view get "/" (params (n int))\n', lambda place: '(put (add n %d))\n' % place, '))\n')


def of_parameters(size):
    """Returns an application of one view with many parameters, each of which is put once."""
    count = size // len('(p00000 int) (put p00000)\n')
    params = ' '.join('(p%05d int)' % place for place in range(count))
    return '(app (view get "/" (params %s)\n%s))\n' % (params, '\n'.join('(put p%05d)' % place for place in range(count)))


def deep(lists):
    return '(not ' * lists + 'true' + ')' * lists


def of_depth(lists):
    """Returns an application with one expression, so that `lists` lists are nested in one another. Three of them are
    around the expression."""
    return '(app (view get "/" (params) (put %s)))\n' % deep(lists - 3)


def of_deep_statements(size):
    """Returns an application of many expressions that are as deep as allowed."""
    return filled(size, '(app (view get "/" (params)\n', lambda place: '(put %s)\n' % deep(DEPTH - 3), '))\n')


def of_wide_expression(size):
    """Returns an application with one expression, a tree in which each list has two lists below it, as large as the
    size allows."""
    text = '1'
    while 2 * len(text) + KB <= size:
        text = '(add %s %s)' % (text, text)
    return '(app (view get "/" (params) (put %s)))\n' % text


CHECKS = [
    ('check, models of 32 fields', of_models, [4, 16, 64], 'models'),
    ('check, 64 models, views', of_models_and_views, [256 * KB, MB - KB], 'bytes'),
    ('check, views', of_views, SIZES, 'bytes'),
    ('check, statements', of_statements, SIZES, 'bytes'),
    ('check, parameters', of_parameters, SIZES, 'bytes'),
    ('check, one deep expression', of_depth, [16, DEPTH], 'lists'),
    ('check, deep expressions', of_deep_statements, SIZES, 'bytes'),
    ('check, one wide expression', of_wide_expression, SIZES, 'bytes'),
]


def quoted(data):
    """Returns the bytes as they are written in a line of events."""
    for plain, escaped in ((b'\\', b'\\\\'), (b'"', b'\\"'), (b'\r', b'\\r'), (b'\n', b'\\n')):
        data = data.replace(plain, escaped)
    return data


def connections(count):
    """Returns connections that are all open at once. Each sends three requests, each in two pieces, and all take
    turns."""
    lines = [b'open %d' % place for place in range(count)]
    for _ in range(3):
        for piece in (GET[:9], GET[9:]):
            lines += [b'data %d "%s"' % (place, quoted(piece)) for place in range(count)]
    return lines + [b'end %d' % place for place in range(count)], 3 * count


def get_of(size):
    """Returns a request of exactly `size` bytes."""
    head = b'GET / HTTP/1.1\r\nHost: a\r\nX: \r\n\r\n'
    return head.replace(b'X: ', b'X: ' + b'x' * (size - len(head)))


def post_of(size):
    """Returns a request with a form, of exactly `size` bytes."""
    head = b'POST / HTTP/1.1\r\nHost: a\r\nContent-Type: application/x-www-form-urlencoded\r\nContent-Length: %d\r\n\r\nword='
    body = size - len(head % 10 ** 4)
    return head % (body + len(b'word=')) + b'x' * body


def one_connection(request):
    """Returns a function that makes one connection, with as many such requests as an events file of this size holds."""
    def events(size):
        first, line, last = b'open 1', b'data 1 "%s"' % quoted(request), b'end 1'
        count = (size - len(first) - len(last) - 2) // (len(line) + 1)
        return [first] + [line] * count + [last], count
    return events


def byte_by_byte(size):
    """Returns one form whose body has `size` bytes. Each byte is a piece of its own."""
    body = b'word=' + b'x' * (size - len(b'word='))
    head = b'POST / HTTP/1.1\r\nHost: a\r\nContent-Type: application/x-www-form-urlencoded\r\nContent-Length: %d\r\n\r\n' % size
    pieces = [bytes([byte]) for byte in head + body]
    return [b'open 1'] + [b'data 1 "%s"' % quoted(piece) for piece in pieces] + [b'end 1'], 1


REPLAYS = [
    ('connections, 3 requests each', connections, [2500, 10000], 'connections'),
    ('one connection, GETs of 64', one_connection(get_of(64)), [LONGEST // 4, LONGEST], 'events file'),
    ('one connection, forms of 64 K', one_connection(post_of(64 * KB)), [LONGEST // 4, LONGEST], 'events file'),
    ('a form byte by byte', byte_by_byte, [15 * KB, 60 * KB], 'body'),
]
SERVED = [
    ('served, GETs of 64 bytes', get_of(64), [LONGEST // 16, LONGEST // 4, LONGEST]),
    ('served, forms of 64 KB', post_of(64 * KB), [LONGEST // 16, LONGEST // 4, LONGEST]),
]


def peak_of(process):
    with open('/proc/%d/status' % process) as status:
        return next(int(line.split()[1]) * 1024 for line in status if line.startswith('VmHWM'))


def run_once(words, out):
    """Returns a run's status, its processor seconds and its peak bytes of memory, or None if that peak is this
    process's own."""
    own = peak_of(os.getpid())
    actions = [(os.POSIX_SPAWN_OPEN, 1, out, os.O_WRONLY | os.O_CREAT | os.O_TRUNC, 0o600)]
    child = os.posix_spawn(words[0], words, os.environ, file_actions=actions)
    _, status, usage = os.wait4(child, 0)
    peak = usage.ru_maxrss * 1024
    return os.waitstatus_to_exitcode(status), usage.ru_utime + usage.ru_stime, peak if peak > own + MB else None


class Runs:
    """Runs the program from a process of its own that stays small."""

    def __init__(self, pool, program, folder):
        self.pool, self.program, self.folder = pool, program, folder
        pool.submit(os.getpid).result()

    def write(self, name, data):
        with open(os.path.join(self.folder, name), 'wb') as file:
            file.write(data)

    def once(self, words):
        paths = [os.path.join(self.folder, word) for word in words[1:]]
        out = os.path.join(self.folder, 'out')
        status, took, peak = self.pool.submit(run_once, [self.program, words[0], *paths], out).result()
        with open(out, 'rb') as file:
            text = file.read()
        if status:
            sys.exit('%s ended with %d: %r' % (' '.join(words), status, text[-200:]))
        return took, peak, text

    def best(self, *words):
        runs = [self.once(words)]
        while len(runs) < 3 and runs[0][0] < ENOUGH:
            runs.append(self.once(words))
        return min(run[0] for run in runs), runs[0][1], runs[0][2]


class Table:
    def __init__(self):
        self.before = {}
        print('%-31s %9s %-12s %10s %7s %9s  %s' % ('series', 'size', 'of', 'seconds', 'growth', 'peak MB', ''))

    def line(self, name, size, unit, took, peak, note=''):
        growth = ''
        if name in self.before:
            smaller, less = self.before[name]
            growth = '%7.2f' % (took / max(less, 1e-9) / (size / smaller))
        self.before[name] = size, took
        held = '%.1f' % (peak / MB) if peak else 'small'
        print('%-31s %9d %-12s %10.4f %7s %9s  %s' % (name, size, unit, took, growth, held, note), flush=True)


def check(runs, table, name, make, sizes, unit):
    for size in sizes:
        text = make(size)
        runs.write('app', text.encode())
        took, peak, out = runs.best('check', 'app')
        note = '%d bytes, %s' % (len(text), out.decode().strip())
        table.line(name, size if unit != 'bytes' else len(text), unit, took, peak, note)


def replay(runs, table, name, make, sizes, unit):
    runs.write('app', HELLO)
    for size in sizes:
        lines, replies = make(size)
        runs.write('events', b'\n'.join(lines) + b'\n')
        took, peak, out = runs.best('replay', 'app', 'events')
        if out.count(b'200 OK') != replies:
            sys.exit('%s: %d replies, not %d' % (name, out.count(b'200 OK'), replies))
        table.line(name, size, unit, took, peak, '%d replies' % replies)


def serve(runs, table, name, request, sizes):
    """Sends as many whole requests as fit into this size on one real connection. The replies are read meanwhile."""
    runs.write('app', HELLO)
    for size in sizes:
        count = size // len(request)
        # The program still waits for a second connection, so its peak memory can be read.
        with served(runs.program, 'app', 2, runs.folder) as run, contextlib.closing(run.connect()) as line:
            line.settimeout(600)
            sender = threading.Thread(target=line.sendall, args=(request * count,), daemon=True)
            began = time.perf_counter()
            sender.start()
            replies = read_replies(line, count)
            took = time.perf_counter() - began
            if replies != count:
                sys.exit('%s: %d replies, not %d' % (name, replies, count))
            table.line(name, count * len(request), 'bytes', took, peak_of(run.run.pid), '%d replies, waited for' % count)
            sender.join()


def read_replies(line, count):
    """Returns how many of `count` replies come before the connection ends."""
    replies, rest = 0, b''
    while replies < count:
        part = line.recv(MB)
        if not part:
            break
        replies += (rest + part).count(b'200 OK')
        rest = (rest + part)[-len(b'00 OK'):]
    return replies


def main(words):
    program, wanted = proved.program(words[0]), words[1:]
    table = Table()
    with tempfile.TemporaryDirectory() as folder, concurrent.futures.ProcessPoolExecutor(1) as pool:
        runs = Runs(pool, program, folder)
        for measure, all_series in ((check, CHECKS), (replay, REPLAYS), (serve, SERVED)):
            for series in all_series:
                if not wanted or any(word in series[0] for word in wanted):
                    measure(runs, table, *series)
