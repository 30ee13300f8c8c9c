"""Measures the built program. Arguments: the program, and the numbers of records (256, 1,024 and 4,096 by default, and
1,024, 4,096 and 16,384 guarded ones).

For each number N, N requests make a store of N events, and then each kind of request is sent to it. A list of N users
by N events is measured too, where each user has one event. The same is done for N events that only their host is shown,
made 64 in a request. There each page is made under labels: those of all events if the host of all requests it, and none
if nobody does. Their list is requested again and again, under labels that are cached, and then anew after a `POST` of
nobody.

The cost of a request is the processor time of a run with some of them minus that of the run without them, divided by
their number, the best of three. If a list is requested anew, the cost of its `POST` is subtracted. `jac demo` is
measured as a whole, the best of three.

If Flask is installed, it serves the same lists from SQLite in the same run, in one process and by its test client, with
queries written by hand. The ratio is our time divided by Flask's. Last come the bars, the limits that the costs should
keep.

docs/COSTS.md has the last results, with their date. This isn't part of the gate, since the results depend on the
machine."""
import concurrent.futures
import os
import sys
import tempfile
import time

from support import proved

SIZES = [256, 1024, 4096]
GUARDED_SIZES = [1024, 4096, 16384]
HOSTS = 16
LEAST = 0.4     # seconds that the requests of one measurement take at least
MOST = 60       # and that a single one may take before larger stores are skipped
PAIRED = [250, 1000, 4000]      # records of each of the two models that a query joins
DEMOS = {1000: 1, 2000: 4}      # requests of a demo, and the seconds that it may take

APPLICATION = r"""(app (viewer User)

 (model User (fields (name text) (town text)))

 (model Event (fields (title text) (host (ref User)) (open bool) (size int)))

 (view post "/join" (params (name text) (town text))
  (create u User (set (name name) (town town)) (put u)))

 (view post "/add" (params (title text) (host (ref User)) (open bool) (size int))
  (create e Event (set (title title) (host host) (open open) (size size)) (put e)))

 (view post "/rename" (params (event (ref Event)) (title text))
  (update Event event (set (title title))))

 (view get "/titles" (params)
  (for (from ((e Event)) true key) (put (get Event title e)) (put "\n")))

 (view get "/hosts" (params)
  (for (from ((e Event)) true key)
   (put (get Event title e)) (put " by ") (put (get User name (get Event host e))) (put "\n")))

 (view get "/large" (params)
  (put (count (from ((e Event)) (lt 500 (get Event size e)) key))))

 (view get "/sizes" (params)
  (for (from ((e Event)) true (up e size)) (put (get Event size e)) (put "\n")))

 (view get "/pairs" (params)
  (for (from ((u User) (e Event)) (eq (get Event host e) u) key)
   (put (get User name u)) (put " ") (put (get Event title e)) (put "\n"))))
"""

ROUND = 64      # guarded records that a request makes

GUARDED = r"""(app (viewer User)

 (model User (fields (name text)))

 (model Event (fields (title text) (host (ref User)) (open bool))
  (group (guards (title "private"))
   (policy (or (get Event open this) (eq (get Event host this) viewer)))))

 (view post "/join" (params (name text))
  (create u User (set (name name)) (put u)))

 (view post "/add" (params (title text) (open bool))
  (create e Event (set (title title) (host viewer) (open open)) (put e)))

 (view post "/many" (params (title text))
%s)

 (view get "/list" (params)
  (for (from ((e Event)) true key) (put (get Event title e)) (put ";"))))
""" % '\n'.join('  (create e%d Event (set (title title) (host viewer)))' % i for i in range(ROUND))

HOST = 4096     # the record of the user who hosts all guarded events

# these make no further event, so the number of events stays the same
JOINED = 'ask %d POST "/join" "name=New"' % HOST
JOIN = 'ask - POST "/join" "name=New"'
HOSTED = 'ask %d GET "/list" ""' % HOST
UNHOSTED = 'ask - GET "/list" ""'
BY_NOBODY = 'guarded, nobody: a POST'

# the requests to the guarded events: their names, their lines, and the row whose cost is subtracted
GUARDED_ASKED = [
    ('guarded, the host: a POST', [JOINED], None),
    (BY_NOBODY, [JOIN], None),
    ('guarded, the host: kept', [HOSTED], None),
    ('guarded, nobody: kept', [UNHOSTED], None),
    ('guarded, the host: anew', [JOIN, HOSTED], BY_NOBODY),
    ('guarded, nobody: anew', [JOIN, UNHOSTED], BY_NOBODY),
]
CROSSED = 'two binders, N by N'

# the requests and their paths
LISTS = [
    ('one get a record', '/titles'),
    ('two through a reference', '/hosts'),
    ('a count with a condition', '/large'),
    ('a sort', '/sizes'),
    ('two binders, %d by N' % HOSTS, '/pairs'),
]

QUERIES = {
    '/titles': ('select title from event order by id', ()),
    '/hosts': ('select event.title, user.name from event join user on user.id = event.host order by event.id', ()),
    '/large': ('select count(*) from event where size > 500', ()),
    '/sizes': ('select size from event order by size, id', ()),
    '/pairs': ('select user.name, event.title from user join event on event.host = user.id order by user.id, event.id', ()),
}


def size_of(place):
    return place * 7919 % 1000


def user_id(place):
    return (place + 1) * 4096


def joins(count):
    return ['ask - POST "/join" "name=User+%d&town=Town+%d"' % (i, i % 7) for i in range(count)]


def adds(first, count, hosts):
    return ['ask - POST "/add" "title=Event+%d&host=%d&open=%d&size=%d"'
            % (i, user_id(i % hosts), i % 2, size_of(i)) for i in range(first, first + count)]


def stored(count):
    """Returns the requests that make the store."""
    return joins(HOSTS) + adds(0, count, HOSTS)


def crossed(count):
    """Returns the requests that make a store of as many users as events, one event for each user."""
    return joins(count) + adds(0, count, count)


def guarded(count):
    """Returns the requests that make the store of guarded events."""
    return ['ask - POST "/join" "name=Ann"'] + ['ask %d POST "/many" "title=Event+%d"' % (HOST, i) for i in range(count // ROUND)]


def peak_of(process):
    with open('/proc/%d/status' % process) as status:
        return next(int(line.split()[1]) * 1024 for line in status if line.startswith('VmHWM'))


def run_once(words):
    """Returns a run's status, its processor seconds and its peak bytes. The system also counts the memory of the
    process that starts a run. So a peak that is no greater than this process's own says nothing, and this process's own
    is returned."""
    own = peak_of(os.getpid())
    child = os.posix_spawn(words[0], words, os.environ, file_actions=[(os.POSIX_SPAWN_OPEN, 1, '/dev/null', os.O_WRONLY, 0)])
    _, status, usage = os.wait4(child, 0)
    return os.waitstatus_to_exitcode(status), usage.ru_utime + usage.ru_stime, max(usage.ru_maxrss * 1024, own)


class Bench:
    """Runs the program from a process of its own that stays small."""

    def __init__(self, pool, program, folder, application, stored):
        self.pool = pool
        self.program = program
        self.folder = folder
        self.stored = stored
        self.kept = {}
        pool.submit(os.getpid).result()
        with open(os.path.join(folder, 'bench.app'), 'w') as file:
            file.write(application)

    def run(self, words):
        """Returns the processor seconds and the peak bytes of one run."""
        status, took, peak = self.pool.submit(run_once, words).result()
        if status:
            sys.exit('%s ended with %d' % (self.program, status))
        return took, peak

    def best_of(self, words):
        runs = [self.run(words) for _ in range(3)]
        return min(took for took, _ in runs), max(peak for _, peak in runs)

    def replay(self, events):
        """Returns the command of a run that answers these events."""
        path = os.path.join(self.folder, 'bench.events')
        with open(path, 'w') as file:
            file.write('\n'.join(events) + '\n')
        return [self.program, 'replay', os.path.join(self.folder, 'bench.app'), path]

    def once(self, events):
        return self.run(self.replay(events))

    def best(self, events):
        return self.best_of(self.replay(events))

    def before(self, count):
        """Returns the seconds and the peak of the run that only makes the store."""
        if count not in self.kept:
            self.kept[count] = self.best(self.stored(count))
        return self.kept[count]

    def request(self, count, asked):
        """Returns the seconds of a request and the peak bytes. asked(n) returns n such requests."""
        base, _ = self.before(count)
        store = self.stored(count)
        number = 1
        while True:
            took, _ = self.once(store + asked(number))
            if took - base >= LEAST or number >= 4096:
                break
            number *= 4
        took, peak = (took, _) if took > MOST else self.best(store + asked(number))
        return max(took - base, 0) / number, peak


def flask_times(sizes):
    """Returns the seconds of a request by path and number of records, or nothing if Flask isn't installed."""
    try:
        import flask
    except ImportError:
        return {}
    import sqlite3
    times = {}
    for count in sizes:
        base = sqlite3.connect(':memory:', check_same_thread=False)
        base.executescript('create table user (id integer primary key, name text, town text);'
                           'create table event (id integer primary key, title text, host int, open int, size int);')
        app = flask.Flask('bench', root_path=os.getcwd())
        for i in range(HOSTS):
            base.execute('insert into user values (?, ?, ?)', (i + 1, 'User %d' % i, 'Town %d' % (i % 7)))
        for i in range(count):
            base.execute('insert into event values (?, ?, ?, ?, ?)', (i + 1, 'Event %d' % i, i % HOSTS + 1, i % 2, size_of(i)))

        def listed(query, words):
            rows = base.execute(query, words).fetchall()
            return '\n'.join(' '.join(str(cell) for cell in row) for row in rows)

        def added():
            form = flask.request.form
            base.execute('insert into event (title, host, open, size) values (?, ?, ?, ?)',
                         (form['title'], int(form['host']), int(form['open']), int(form['size'])))
            base.commit()
            return str(base.execute('select last_insert_rowid()').fetchone()[0])

        for path, (query, words) in QUERIES.items():
            app.add_url_rule(path, path, lambda query=query, words=words: listed(query, words))
        app.add_url_rule('/add', '/add', added, methods=['POST'])
        client = app.test_client()
        for path in QUERIES:
            times[path, count] = timed(lambda: client.get(path).data)
        form = {'title': 'Event', 'host': '1', 'open': '1', 'size': '7'}
        times['/add', count] = timed(lambda: client.post('/add', data=form).data)
    return times


def timed(call):
    best, number = None, 1
    for _ in range(3):
        while True:
            start = time.process_time()
            for _ in range(number):
                call()
            took = time.process_time() - start
            if took >= LEAST / 2:
                break
            number *= 4
        best = took / number if best is None else min(best, took / number)
    return best


class Table:
    """Prints the lines of the table, and keeps what was measured by name and number of records."""
    def __init__(self, others):
        self.others = others
        self.took = {}
        print('%-28s %6s %12s %8s %9s %12s %7s' % ('request', 'N', 'ms', 'growth', 'peak MB', 'Flask ms', 'ratio'))

    def line(self, name, path, count, took, peak):
        self.took[name, count] = took
        fourth = self.took.get((name, count // 4))
        growth = '%8.2f' % (took / fourth) if fourth else ' ' * 8
        other = self.others.get((path, count))
        flask = '%12.3f %7.2f' % (other * 1000, took / other) if other else '%12s %7s' % ('-', '-')
        print('%-28s %6d %12.3f %s %9.1f %s' % (name, count, took * 1000, growth, peak / 2 ** 20, flask), flush=True)

    def ratio(self, name, path, count):
        other = self.others.get((path, count))
        return self.took[name, count] / other if other and (name, count) in self.took else None


def bar(text, value, most):
    """Prints one bar. If it wasn't measured, it is neither held nor broken."""
    if value is None:
        print('not measured: %s' % text)
    else:
        print('%s: %s: %.2f, at most %.2f' % ('held' if value <= most else 'BROKEN', text, value, most))


def main(words):
    program = proved.program(words[0])
    sizes = [int(word) for word in words[1:]] or SIZES
    with tempfile.TemporaryDirectory() as folder, concurrent.futures.ProcessPoolExecutor(1) as pool:
        bench = Bench(pool, program, folder, APPLICATION, stored)
        table = Table(flask_times(sizes))
        slow = set()
        for count in sizes:
            posts = [
                ('a POST that creates', '/add', lambda n: adds(count, n, HOSTS)),
                ('a POST that updates', None, lambda n: rename(count, n)),
            ]
            gets = [(name, path, lambda n, path=path: ['ask - GET "%s" ""' % path] * n) for name, path in LISTS]
            for name, path, asked in posts + gets:
                if name in slow:
                    continue
                took, peak = bench.request(count, asked)
                table.line(name, path, count, took, peak)
                if took > MOST / 16:
                    slow.add(name)
        peaks = measure_crossed(Bench(pool, program, folder, APPLICATION, crossed), table)
        labelled = [int(word) for word in words[1:]] or GUARDED_SIZES
        measure_guarded(Bench(pool, program, folder, GUARDED, guarded), table, labelled)
        for count in DEMOS:
            table.line('demo, whole', None, count, *bench.best_of([program, 'demo', str(count)]))
        bars(table, sizes, peaks)
        guarded_bars(table, labelled)


def measure_crossed(bench, table):
    """Returns the most memory of the runs, by number of records."""
    peaks = {}
    for count in PAIRED:
        took, peaks[count] = bench.request(count, lambda number: ['ask - GET "/pairs" ""'] * number)
        table.line(CROSSED, None, count, took, peaks[count])
    return peaks


def measure_guarded(bench, table, sizes):
    for count in sizes:
        for name, asked, beside in GUARDED_ASKED:
            took, peak = bench.request(count, lambda number, asked=asked: asked * number)
            table.line(name, None, count, took - table.took[beside, count] if beside else took, peak)


def rename(count, number):
    """Returns updates of records from all over the table, one after the other."""
    first = HOSTS + 1
    return ['ask - POST "/rename" "event=%d&title=New+%d"' % ((first + i * 37 % count) * 4096 + 1, i) for i in range(number)]


def bars(table, sizes, peaks):
    took = table.took
    first, last = sizes[0], sizes[-1]
    for name in ['a POST that creates', 'a POST that updates']:
        value = took[name, last] / took[name, first] if (name, last) in took and took.get((name, first)) else None
        bar('%s, at N = %d over N = %d' % (name, last, first), value, 1.5)
    for name, _ in LISTS:
        for count in sizes[1:]:
            value = took[name, count] / took[name, count // 4] if (name, count) in took and took.get((name, count // 4)) else None
            bar('%s, growth from N = %d to %d' % (name, count // 4, count), value, 4.6)
    if 1024 in sizes:
        bar('one get a record, N = 1024, over Flask', table.ratio('one get a record', '/titles', 1024), 1)
    growth_bars(table, CROSSED, PAIRED)
    bar('two binders over 1000 records each, peak MB', peaks[1000] / 2 ** 20, 40)


def growth_bars(table, name, sizes):
    for count in sizes[1:]:
        fourth = table.took.get((name, count // 4))
        bar('%s, growth from N = %d to %d' % (name, count // 4, count), table.took[name, count] / fourth if fourth else None, 4.6)


def guarded_bars(table, sizes):
    for name, _, _ in GUARDED_ASKED:
        growth_bars(table, name, sizes)
    for count, most in DEMOS.items():
        bar('demo %d, seconds' % count, table.took['demo, whole', count], most)
