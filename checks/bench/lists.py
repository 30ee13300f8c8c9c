"""Measures the guarded lists of examples/calendar and examples/conference, and the POST that adds a record to each,
compared with Flask and checks written by hand. Arguments: the program, and the numbers of records (64, 1,024 and 4,096
by default). The records are those of `bench records`. A view that is added to the application makes them, in memory and
in the file of a store. In each round, the viewer who hosts or wrote all of them adds a record, and then requests the
list twice, first after the `POST` and then again. Times are processor time of the program, the least of all rounds,
without the time that it waits for a disk.

Flask makes the same records and pages, byte for byte, from SQLite in memory or in a file, by its test client. It reads
each table once and makes each check in Python. Its times are the least of as many rounds. Last come the bars.

docs/COSTS.md has the last results, with their date. This isn't part of the gate, since the results depend on the
machine."""
import contextlib
import html
import os
import re
import sqlite3
import sys
import tempfile
import time

from support import proved
from bench.times import bar
from bench.examples import id_of
from bench.records import ONE, Calendar, Conference, Line, known, made, requests_for, write_app
from support.serving import served

SIZES = [64, 1024, 4096]
BARRED = 1024, 4096
ROUNDS = 7
PLACES = {'memory': (), 'file': ('--db', 'store')}
ASKED = 'a POST', 'list, first', 'list, again'


def table(caption, *heads):
    return "<table>\n<caption class='away'>%s</caption>\n<tr>%s</tr>\n" % (
        caption, ''.join("<th scope='col'>%s</th>" % head for head in heads))


class Events(Calendar):
    """The calendar's list, for the host of all events."""
    post, form = '/events', 'title=Meeting&place=Room&day=2026-05-03'

    @staticmethod
    def add(base, viewer, form, number):
        event = id_of(number, 0, 1)
        base.execute('insert into event values (?, ?, ?, ?, ?, ?)', (
            event, form['title'], form['place'], form['day'], viewer, form.get('open') == '1'))
        return '/event/%d' % event

    @staticmethod
    def rows(base, viewer):
        comes = {event for event, in base.execute('select event from guest where person = ?', (viewer,))}
        yield table('All events by day', 'Day', 'What', 'Where', 'Host')
        for event, title, place, day, host, name, is_open in base.execute(
                'select event.id, title, place, day, host, name, open from event join person on person.id = host '
                'order by day, event.id'):
            if not (is_open or viewer is not None and (host == viewer or event in comes)):
                title, place = 'busy', ''
            day, title, place, name = map(html.escape, (day, title, place, name))
            yield "<tr><td class='day'>%s</td><td><a href='/event/%d' aria-label='%s, %s, %s'>%s</a></td><td>%s</td>" \
                "<td class='name'>%s</td></tr>\n" % (day, event, title, day, name, title, place, name)

    @staticmethod
    def forms(base, viewer, tail):
        return tail


class Papers(Conference):
    """The conference's list, for the author of all papers, before the decisions are published."""
    post, form = '/papers', 'title=New&abstract=It+is+shown.'

    @staticmethod
    def add(base, viewer, form, number):
        if base.execute('select 1 from conference where decided').fetchone():
            return '/'
        paper = id_of(number, 0, 2)
        base.execute('insert into paper values (?, ?, ?, ?)', (paper, form['title'], form['abstract'], 'pending'))
        base.execute('insert into author values (?, ?, ?)', (id_of(number, 1, 3), paper, viewer))
        return '/paper/%d' % paper

    @staticmethod
    def rows(base, viewer):
        decided = base.execute('select 1 from conference where decided').fetchone() is not None
        wrote = {paper for paper, in base.execute('select paper from author where person = ?', (viewer,))}
        reviews = {}
        for paper, reviewer, score in base.execute('select paper, reviewer, score from review'):
            reviews.setdefault(paper, []).append((reviewer, score))
        yield table('All papers by title', 'Title', 'Decision', 'Reviews', 'Points')
        for title, paper, decision in sorted(Papers.seen(base, decided, wrote)):
            of_paper = reviews.get(paper, ())
            known = [score for reviewer, score in of_paper if reviewer == viewer or decided and paper in wrote]
            yield "<tr><td><a href='/paper/%d' aria-label='%s, paper %d'>%s</a></td><td class='short'>%s</td><td>%d</td>" \
                "<td class='short'>%s</td></tr>\n" % (
                    paper, html.escape(title), paper, html.escape(title), html.escape(decision), len(of_paper),
                    '%d, %d known' % (sum(known), len(known)) if known else '')

    @staticmethod
    def seen(base, decided, wrote):
        """Yields what the viewer may know of each paper."""
        for paper, title, decision in base.execute('select id, title, decision from paper'):
            accepted = decided and decision == 'accepted'
            if not (accepted or paper in wrote):
                title = 'a submission'
            yield title, paper, decision if decided and (accepted or paper in wrote) else 'pending'

    @staticmethod
    def forms(base, viewer, tail):
        others = base.execute('select id, name from person where id <> ? order by name, id', (viewer,)).fetchall()
        options = ''.join("<option value='%d'>%s</option>" % (number, html.escape(name)) for number, name in others)
        found = "(<select name='(?:second|third)'><option value=''>nobody</option>).*?(?=</select>)"
        return re.sub(found, lambda select: select.group(1) + options, tail)


def by_jac(program, kind, count, options, folder):
    """Returns the least seconds of each request, and the last page."""
    times = {name: [] for name in ASKED}
    with served(program, 'app', 1000000, folder, ('--sessions', 'sessions', *options)) as run:
        line = Line(run)
        made(line, kind, count)
        for _ in range(ROUNDS):
            for name, method, path, body, wanted in requests_of(kind):
                status, page, took = line.ask(ONE, method, path, body)
                if status != wanted:
                    sys.exit('%s %s: %d %s' % (method, path, status, page[:200].decode()))
                times[name].append(took)
    return {name: min(times[name]) for name in ASKED}, page.decode()


def requests_of(kind):
    return zip(ASKED, ('POST', 'GET', 'GET'), (kind.post, '/', '/'), (kind.form, '', ''), (303, 200, 200))


@contextlib.contextmanager
def base_of(kind, count, path):
    """Yields the database that Flask reads, with the records as the program makes them."""
    with contextlib.closing(sqlite3.connect(path, check_same_thread=False)) as base:
        base.executescript('create table person (id integer primary key, name text);' + kind.tables)
        people = [(id_of(1, at), name) for at, name in enumerate(kind.people)]
        base.executemany('insert into person values (?, ?)', people)
        for request in requests_for(kind, count):
            kind.fill(base, ONE, id_of(1, 2), request)
        base.commit()
        yield base


def app_of(kind, base, number, page):
    """Returns Flask's application. Its next POST has this number. What comes before and after the list is taken from
    the page."""
    import flask
    app = flask.Flask('bench', root_path=os.getcwd())
    head, tail = page.partition('<p>You are')[0], page.partition('</table>\n')[2]
    between = page.partition('</header>\n')[2].partition('<table>\n')[0]
    numbers = iter(range(number, number + ROUNDS))

    def viewer():
        asks = flask.request.cookies.get('session', type=int)
        return asks if asks and base.execute('select 1 from person where id = ?', (asks,)).fetchone() else None

    def listed():
        asks = viewer()
        rows = ''.join(kind.rows(base, asks))
        return head + known(base, asks) + between + rows + '</table>\n' + kind.forms(base, asks, tail)

    def added():
        asks = viewer()
        if asks is None:
            return 'Only who is logged in adds one.', 404
        to = kind.add(base, asks, flask.request.form, next(numbers))
        base.commit()
        return flask.redirect(to, 303)

    app.add_url_rule('/', 'list', listed)
    app.add_url_rule(kind.post, 'post', added, methods=['POST'])
    return app


def by_flask(kind, count, path, page):
    """Returns the least seconds of the same requests with Flask. Its last page has to be this one."""
    times = {name: [] for name in ASKED}
    requests = requests_for(kind, count)
    with base_of(kind, count, path) as base:
        client = app_of(kind, base, requests[-1] + 1, page).test_client()
        client.set_cookie('session', str(ONE))
        for _ in range(ROUNDS):
            for name, method, to, body, wanted in requests_of(kind):
                began = time.process_time()
                reply = client.open(to, method=method, data=body, content_type='application/x-www-form-urlencoded')
                read = reply.data
                times[name].append(time.process_time() - began)
                assert reply.status_code == wanted, (reply.status_code, read[:200])
    if read.decode().rstrip() != page.rstrip():
        sys.exit('Flask makes another page:\n%s\nand not\n%s' % (read.decode()[-3000:], page[-3000:]))
    return {name: min(times[name]) for name in ASKED}


def has_flask():
    with contextlib.suppress(ImportError):
        import flask                                                        # noqa: F401
        return True
    return False


def main(words):
    program = proved.program(words[0])
    sizes = [int(word) for word in words[1:]] or SIZES
    ratios = {}
    print('%-11s %7s  %-7s %-12s %10s %10s %7s' % ('application', 'records', 'where', 'asked', 'ms', 'Flask ms', 'ratio'))
    for kind in (Events, Papers):
        for count in sizes:
            for where, options in PLACES.items():
                with tempfile.TemporaryDirectory() as folder:
                    write_app(kind, folder)
                    ours, page = by_jac(program, kind, count, options, folder)
                    path = os.path.join(folder, 'flask') if options else ':memory:'
                    theirs = by_flask(kind, count, path, page) if has_flask() else {}
                    for name in ASKED:
                        ratios[kind.name, count, where, name] = row(kind, count, where, name, ours[name], theirs.get(name))
    for (name, count, where, asked), ratio in ratios.items():
        if count in BARRED:
            bar('%s of %d, %s, %s, over Flask' % (name, count, where, asked), ratio, 1)


def row(kind, count, where, name, ours, theirs):
    """Prints a line, and returns our time divided by Flask's, if there is one."""
    other = '%10.3f %7.2f' % (1e3 * theirs, ours / theirs) if theirs else '%10s %7s' % ('-', '-')
    print('%-11s %7d  %-7s %-12s %10.3f %s' % (kind.name, count, where, name, 1e3 * ours, other), flush=True)
    return ours / theirs if theirs else None
