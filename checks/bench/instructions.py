"""Counts the instructions that requests take, one line for each kind of request that has a goal, with the goal.
Arguments: the program, and parts of the names of the lines to print, or none for all. To get the cost of a request, a
run with two requests is compared with a run with some more, and the difference is divided by the number of these
further requests. If the line says so, it is also divided by the number of records or answers shown. If a page is
requested lazily, the events files of both runs have the same length. The lists of guarded and of plain events are those
of `bench times`, the pages of one event and of papers those of `bench records`.

valgrind counts, so a number is the same in each run, whatever else the machine does. Effects of the processor's caches
aren't counted; they are part of the times of `bench times`. A line without a goal is there for comparison.
docs/COSTS.md has the last results, with their date. This isn't part of the gate."""
import concurrent.futures
import os
import re
import shutil
import subprocess
import sys
import tempfile

from support import proved
from bench.records import ONE, OTHER, THIRD, Calendar, Conference, one_of, requests_for, write_app
from bench.times import APPLICATION, GUARDED, HOSTED, HOSTS, JOINED, UNHOSTED, guarded, stored

FEW = 2         # requests in the shorter run
MORE = 4        # further requests in the longer run
MOST = 64       # the same, if now and then a request takes more than the others
COUNTED = re.compile(r'I\s+refs:\s+([\d,]+)')
SMALL = '(app\n (view get "/" (params) (put "ten bytes!")))\n'
RECEIVED = r'data 1 "GET / HTTP/1.1\r\nHost: localhost\r\n\r\n"'
VIEWS = 2500
TITLE = ' (view get "/title/{id}" (params (id (ref Event))) (esc (get Event title id)))'


class Row:
    """What is measured: the application, the lines that make the store, the line of the request, the number that its
    cost is divided by, the most that it should take, and the options of the run."""

    def __init__(self, name, application, made, asked, by=1, goal=None, options=(), more=MORE):
        self.name, self.application, self.made, self.asked = name, application, made, asked
        self.by, self.goal, self.options, self.more = by, goal, options, more

    def cost(self, count):
        """Returns the cost of one request. `count` returns how many instructions a run over these lines takes."""
        few, many = (count(self, self.lines(more)) for more in (0, self.more))
        return (many - few) / self.more / self.by

    def lines(self, more):
        """Returns the lines of a run with `more` further requests."""
        return self.made + [self.asked] * (FEW + more)


class SmallRow(Row):
    """A request that takes little, among records that take much to make. What the records take varies by some
    ten-thousandths with the length of the events file, since memory is then laid out differently. That may be more than
    all the requests take. So empty lines, which are skipped, make the file of the shorter run as long as that of the
    longer run. The figure lacks what skipping them takes, which was three thousandths of it with a trial."""

    def lines(self, more):
        return super().lines(more) + [''] * ((self.more - more) * len(self.asked + '\n'))


class Check(Row):
    """A check of an application of many views, minus a check of one with a single view."""

    def __init__(self, views, goal=None):
        super().__init__('check of %d views' % views, None, [], None, goal=goal)
        self.views = views

    def cost(self, count):
        return count(self, views_of(self.views)) - count(self, views_of(1))


def views_of(number):
    return '(app\n%s)\n' % '\n'.join(' (view get "/page%d" (params) (put "x"))' % at for at in range(number))


def of_example(kind, folder):
    """Returns the text of the example with the view that makes its records."""
    path = os.path.join(folder, kind.name)
    os.makedirs(path, exist_ok=True)
    write_app(kind, path)
    with open(os.path.join(path, 'app'), encoding='utf-8') as file:
        return file.read()


def filled(kind, count):
    """Returns the lines that make `count` records of an example."""
    third = '&third=%d' % THIRD if kind is Conference else ''
    return ['ask - POST "/setup" ""'] + [
        'ask - POST "/bulk" "one=%d&other=%d%s"' % (ONE, OTHER, third) for _ in requests_for(kind, count)]


def rows(folder):
    for count in (64, 1024, 16384):
        yield Row('guarded list of %d, the host, a record' % count, GUARDED, guarded(count), HOSTED, count, 2600)
        yield Row('guarded list of %d, nobody, a record' % count, GUARDED, guarded(count), UNHOSTED, count, 2200)
    yield Row('plain list of 1024, a record', APPLICATION, stored(1024), 'ask - GET "/titles" ""', 1024, 2000)
    yield Row('count over 4096, a record', APPLICATION, stored(4096), 'ask - GET "/large" ""', 4096, 700)
    yield Row('sorted list of 4096, a record', APPLICATION, stored(4096), 'ask - GET "/sizes" ""', 4096, 3500)
    yield Row('two binders, %d by 1024, an answer' % HOSTS, APPLICATION, stored(1024), 'ask - GET "/pairs" ""', 1024, 4500)
    calendar, conference = of_example(Calendar, folder), of_example(Conference, folder)
    papers = -(-1024 // Conference.share) * Conference.share
    yield Row('papers, %d, an author, a record' % papers, conference, filled(Conference, 1024), 'ask %d GET "/" ""' % ONE, papers,
              9500)
    for count, goal in ((1024, 260000), (4096, 700000)):
        yield Row('a POST among %d, the host' % count, GUARDED, guarded(count), JOINED, goal=goal, more=MOST)
    page = 'ask %d GET "%s" ""'
    for count, options, goal in ((16384, (), 2700000), (1024, ('--lazy',), 40000), (16384, ('--lazy',), 40000)):
        path = Calendar.path % one_of(Calendar, requests_for(Calendar, count))
        kind, how = (SmallRow, ', lazily') if options else (Row, '')
        yield kind('one of %d events%s, the host' % (count, how), calendar, filled(Calendar, count), page % (ONE, path),
                   goal=goal, options=options)
    titled = calendar[:calendar.rindex(')')] + TITLE + ')\n'
    for count in (1024, 16384):
        path = (Calendar.path % one_of(Calendar, requests_for(Calendar, count))).replace('event', 'title')
        yield SmallRow('the title of one of %d events, lazily' % count, titled, filled(Calendar, count),
                       page % (ONE, path), goal=40000, options=('--lazy',))
    yield Row('a page of 10 bytes, on a connection', SMALL, ['open 1'], RECEIVED, goal=15000, more=MOST)
    yield Row('a page of 10 bytes, an ask', SMALL, [], 'ask - GET "/" ""', more=MOST)
    yield Check(VIEWS)


def instructions(program, words):
    """Returns how many instructions a run of the program takes."""
    words = ['valgrind', '--tool=cachegrind', '--cache-sim=no', '--cachegrind-out-file=/dev/null', program, *words]
    run = subprocess.run(words, stdout=subprocess.DEVNULL, stderr=subprocess.PIPE, text=True)
    found = COUNTED.search(run.stderr)
    if run.returncode or not found:
        sys.exit('%s ended with %d\n%s' % (' '.join(words[4:]), run.returncode, run.stderr[-2000:]))
    return int(found.group(1).replace(',', ''))


def counter(program):
    """Returns a function that counts the instructions of a row's runs, each in a folder of its own."""
    def count(row, given):
        with tempfile.TemporaryDirectory() as folder:
            app, events = os.path.join(folder, 'app'), os.path.join(folder, 'events')
            with open(app, 'w', encoding='utf-8') as file:
                file.write(given if row.application is None else row.application)
            if row.application is None:
                return instructions(program, ['check', app])
            with open(events, 'w', encoding='utf-8') as file:
                file.write('\n'.join(given) + '\n')
            return instructions(program, ['replay', app, events, *row.options])
    return count


def main(words):
    program, wanted = proved.binary(words[0]), words[1:]
    if shutil.which('valgrind') is None:
        sys.exit('there is no valgrind here')
    print('%-44s %14s %12s' % ('request', 'instructions', 'goal'))
    with tempfile.TemporaryDirectory() as folder, concurrent.futures.ThreadPoolExecutor(os.cpu_count()) as pool:
        found = [row for row in rows(folder) if not wanted or any(word in row.name for word in wanted)]
        count = counter(program)
        for row, waiting in [(row, pool.submit(row.cost, count)) for row in found]:
            took = waiting.result()
            met = '' if row.goal is None else '%12d%s' % (row.goal, '' if took <= row.goal else '  more')
            print('%-44s %14.0f %s' % (row.name, took, met), flush=True)
