"""Measures the page of one record among many: an event's page of examples/calendar and a paper's page of
examples/conference. Arguments: the program, and the numbers of records (1,000 and 16,000 by default). A view that is
added to the application makes the records in memory, some twenty or thirty in each request of nobody. Each page is
requested on a connection that is kept, by somebody who may see the record and by nobody, first after a `POST`, and then
again before anything is stored. Times are processor time of the program, the least of all rounds. If the program knows
`--lazy`, the same is measured with it.

If Flask is installed, it makes the same page, byte for byte, from SQLite in memory, by its test client, with checks and
queries written by hand and an index for each query.

docs/COSTS.md has the last results, with their date. This isn't part of the gate, since the results depend on the
machine."""
import contextlib
import html
import os
import sqlite3
import subprocess
import sys
import tempfile
import time

from support import proved
from bench.examples import TOP, id_of, users_file
from support.serving import processor_seconds, served

SIZES = [1000, 16000]
ROUNDS = 15
AGAIN = 25      # how often a page is requested again in a round: in all about as often as with Flask
LAZY = '--lazy'
# who hosts or writes everything, who is a guest or a second author, and who reviews
ONE, OTHER, THIRD = (id_of(1, place) for place in (1, 2, 3))


class Calendar:
    """Events of one host. Every fourth has a guest."""
    name, path, share, model = 'calendar', '/event/%d', 32, 1
    people = ['Ann', 'Bob', 'Cleo', 'Dan']
    askers = [('the host', ONE), ('nobody', None)]
    bulk = '(view post "/bulk" (params (one (ref Person)) (other (ref Person)))\n%s (redirect "/"))' % ''.join(
        ' (create e Event (set (title "Meeting %d") (place "Room %d") (day "2026-05-04") (host one))%s)\n' % (
            at, at, ' (create g Guest (set (event e) (person other)))' * (at % 4 == 0))
        for at in range(share))
    tables = '''
create table event (id integer primary key, title text, place text, day text, host int, open int);
create table guest (id integer primary key, event int, person int);
create index guests on guest (event);
'''

    @staticmethod
    def fill(base, one, other, request):
        """Adds what the request makes. The site in an id counts the records of all models."""
        site = 0
        for at in range(Calendar.share):
            event = id_of(request, site, 1)
            base.execute('insert into event values (?, ?, ?, ?, ?, 0)',
                         (event, 'Meeting %d' % at, 'Room %d' % at, '2026-05-04', one))
            site += 1
            if at % 4 == 0:
                base.execute('insert into guest values (?, ?, ?)', (id_of(request, site, 2), event, other))
                site += 1

    @staticmethod
    def page(base, viewer, event):
        title, place, day, host, is_open = base.execute(
            'select title, place, day, host, open from event where id = ?', (event,)).fetchone()
        guests = base.execute('select guest.id, person, name from guest join person on person.id = person '
                              'where event = ? order by guest.id', (event,)).fetchall()
        hosts = viewer is not None and host == viewer
        comes = viewer is not None and any(person == viewer for _, person, _ in guests)
        if not (is_open or hosts or comes):
            title, place = 'busy', ''
        yield '<h1>%s</h1>\n<p>%s' % (html.escape(title), html.escape(day))
        yield ', ' + html.escape(place) if place else ''
        yield '. The host is %s.</p>\n' % html.escape(name_of(base, host))
        if guests:
            yield '<h2>Guests</h2>\n<ul>\n'
            for number, _, name in guests:
                yield '<li>%s' % (html.escape(name) if hosts or comes else 'a guest')
                yield " <form class='inline' method='post' action='/guest/%d/remove'><button class='quiet'>Take %s off the " \
                    "list</button></form>" % (number, html.escape(name)) if hosts else ''
                yield '</li>\n'
            yield '</ul>\n'
        if hosts:
            yield from Calendar.forms(base, viewer, event, guests, is_open)

    @staticmethod
    def forms(base, viewer, event, guests, is_open):
        invited = {person for _, person, _ in guests}
        others = [(number, name) for number, name in base.execute(
            'select id, name from person where id <> ? order by name, id', (viewer,)) if number not in invited]
        if others:
            yield "<form class='fields' method='post' action='/event/%d/guests'>\n<h2>A further guest</h2>\n" % event
            yield "<input type='hidden' name='seen' value='%d'>\n\n<label>Person <select name='person'>" % len(guests)
            for number, name in others:
                yield "<option value='%d'>%s</option>" % (number, html.escape(name))
            yield '</select></label>\n<button>Invite</button>\n</form>\n'
        yield '<h2>Your event</h2>\n<p>%s</p>\n' % (
            'Everybody may see it.' if is_open else 'Its guests and you see what it is.')
        yield "<div class='actions'>\n<form method='post' action='/event/%d/open'>\n" % event
        yield "<input type='hidden' name='open' value='%d'>\n<button>%s</button>\n</form>\n" % (
            not is_open, 'Close the event' if is_open else 'Let everybody see it')
        yield '<details>\n<summary>Remove the event</summary>\n'
        yield "<form method='post' action='/event/%d/remove'><button class='danger'>Remove it, with its guests, for good" \
            '</button></form>\n</details>\n</div>\n' % event


class Conference:
    """Papers. Every third has a second author, every tenth a conflict, and one of twenty a review."""
    name, path, share, model = 'conference', '/paper/%d', 20, 2
    models = {'paper': 2, 'author': 3, 'conflict': 4, 'review': 6}
    people = ['Carol', 'Ann', 'Ben', 'Rita', 'Raj', 'Rosa']
    askers = [('an author', ONE), ('nobody', None)]
    bulk = '(view post "/bulk" (params (one (ref Person)) (other (ref Person)) (third (ref Person)))\n%s (redirect "/"))'
    bulk = bulk % ''.join(
        ' (create p Paper (set (title "On topic %d") (abstract "It is shown.") (decision "pending"))\n' % at
        + '  (create a Author (set (paper p) (person one)))\n'
        + '  (create a Author (set (paper p) (person other)))\n' * (at % 3 == 0)
        + '  (create c Conflict (set (paper p) (person third)))\n' * (at % 10 == 0)
        + '  (create r Review (set (paper p) (reviewer third) (score 3) (words "Sound.") (known true)))\n' * (at == 1)
        + ' )\n' for at in range(share))
    tables = '''
create table paper (id integer primary key, title text, abstract text, decision text);
create table author (id integer primary key, paper int, person int);
create table conflict (id integer primary key, paper int, person int);
create table assignment (id integer primary key, paper int, reviewer int);
create table review (id integer primary key, paper int, reviewer int, score int, words text);
create table conference (id integer primary key, decided int);
create index authors on author (paper);
create index conflicts on conflict (paper);
create index assignments on assignment (paper);
create index reviews on review (paper);
insert into conference values (1, 0);
'''

    @staticmethod
    def fill(base, one, other, request):
        site, third = 0, THIRD
        for at in range(Conference.share):
            paper = id_of(request, site, 2)
            rows = [('paper', (paper, 'On topic %d' % at, 'It is shown.', 'pending')), ('author', (0, paper, one))]
            rows += [('author', (0, paper, other))] * (at % 3 == 0) + [('conflict', (0, paper, third))] * (at % 10 == 0)
            rows += [('review', (0, paper, third, 3, 'Sound.'))] * (at == 1)
            for table, row in rows:
                words = 'insert into %s values (%s)' % (table, ', '.join('?' * len(row)))
                base.execute(words, (id_of(request, site, Conference.models[table]), *row[1:]))
                site += 1

    @staticmethod
    def page(base, viewer, paper):
        """Makes the page for an author and for nobody. The chair's and the reviewers' forms aren't made here."""
        title, abstract, decision = base.execute('select title, abstract, decision from paper where id = ?', (paper,)).fetchone()
        authors = base.execute('select person, name from author join person on person.id = person '
                               'where paper = ? order by author.id', (paper,)).fetchall()
        decided = base.execute('select 1 from conference where decided').fetchone() is not None
        wrote = viewer is not None and any(person == viewer for person, _ in authors)
        accepted = decided and decision == 'accepted'
        if not (accepted or wrote):
            title, abstract = 'a submission', ''
        if not (decided and (accepted or wrote)):
            decision = 'pending'
        yield '<h1>%s</h1>\n<p>Decision: %s</p>\n' % (html.escape(title), html.escape(decision))
        yield "<p class='text'>%s</p>\n" % html.escape(abstract) if abstract else ''
        yield '<h2>Authors</h2>\n<ul>\n'
        for _, name in authors:
            yield '<li>%s</li>\n' % (html.escape(name) if accepted or wrote else 'somebody')
        yield '</ul>\n'
        yield from Conference.reviews(base, viewer, paper, decided and wrote)
        for heading, table, person, shown in (('Reviewers', 'assignment', 'reviewer', False), ('Conflicts', 'conflict', 'person', wrote)):
            rows = base.execute('select name from %s join person on person.id = %s where paper = ? order by %s.id' % (
                table, person, table), (paper,)).fetchall()
            if rows:
                yield '<h2>%s</h2>\n<ul>\n' % heading
                for name, in rows:
                    yield '<li>%s</li>\n' % (html.escape(name) if shown else 'somebody')
                yield '</ul>\n'

    @staticmethod
    def reviews(base, viewer, paper, known):
        rows = base.execute('select reviewer, score, words from review where paper = ? order by id', (paper,)).fetchall()
        if rows:
            yield "<h2>Reviews</h2>\n<table>\n<caption class='away'>Reviews of this paper</caption>\n<tr>"
            yield "<th scope='col'>Reviewer</th><th scope='col'>Score</th><th scope='col'>Words</th></tr>\n"
            for reviewer, score, words in rows:
                mine = viewer is not None and reviewer == viewer
                yield "<tr><td class='name'>%s</td><td>%s</td><td class='text'>%s</td></tr>\n" % (
                    html.escape(name_of(base, reviewer)) if mine else 'a reviewer',
                    score if known or mine else '', html.escape(words) if known or mine else 'not shown')
            yield '</table>\n'


def known(base, viewer):
    """Returns what the top of a page says about the viewer."""
    said = "Nobody is logged in. <a href='/login'>Log in</a>"
    return '<p>%s</p>\n</header>\n' % (said if viewer is None else 'You are %s.' % html.escape(name_of(base, viewer)))


def name_of(base, person):
    return base.execute('select name from person where id = ?', (person,)).fetchone()[0]


def read_reply(reader):
    """Returns the status and the body of one reply, or None if the connection was closed before."""
    first, length = reader.readline(), 0
    while first:
        head = reader.readline()
        if head.lower().startswith(b'content-length:'):
            length = int(head.partition(b':')[2])
        if head == b'\r\n':
            return int(first.split()[1]), reader.read(length)
    return None


class Line:
    """A connection that is kept as long as the server keeps it. Then it is replaced by a new one."""

    def __init__(self, run):
        self.run = run
        self.open()

    def open(self):
        self.line = self.run.connect()
        self.reader = self.line.makefile('rb')

    def ask(self, viewer, method, path, body=''):
        """Returns the status, the body and the processor seconds."""
        cookie = '' if viewer is None else 'Cookie: session=%d\r\n' % viewer
        form = 'Content-Type: application/x-www-form-urlencoded\r\nContent-Length: %d\r\n' % len(body) if method == 'POST' else ''
        request = '%s %s HTTP/1.1\r\nHost: localhost\r\n%s%s\r\n%s' % (method, path, cookie, form, body)
        while True:
            began = processor_seconds(self.run.run.pid)
            with contextlib.suppress(ConnectionError):
                self.line.sendall(request.encode())
                reply = read_reply(self.reader)
                if reply:
                    return *reply, processor_seconds(self.run.run.pid) - began
            self.line.close()
            self.open()

    def post(self, viewer, path, body=''):
        status, body, _ = self.ask(viewer, 'POST', path, body)
        if status != 303:
            sys.exit('POST %s: %d %s' % (path, status, body[:200].decode()))


def made(line, kind, count):
    """Makes the records, and returns the id of one in the middle."""
    line.post(None, '/setup')
    requests = requests_for(kind, count)
    third = '&third=%d' % THIRD if kind is Conference else ''
    for request in requests:
        line.post(None, '/bulk', 'one=%d&other=%d%s' % (ONE, OTHER, third))
    return one_of(kind, requests)


def requests_for(kind, count):
    """Returns the numbers of the requests that make `count` records."""
    return range(2, 2 + -(-count // kind.share))


def one_of(kind, requests):
    return id_of(requests[len(requests) // 2], 0, kind.model)


def measured(program, kind, count, folder, options):
    """Returns for each viewer the seconds of the first and of the next requests, and the page, as the program serves
    it."""
    found = {}
    with served(program, 'app', 1000000, folder, ('--sessions', 'sessions', *options)) as run:
        line = Line(run)
        path = kind.path % made(line, kind, count)
        for who, viewer in kind.askers:
            first, again = [], []
            for _ in range(ROUNDS):
                line.post(None, '/setup')
                for times in [first] + [again] * AGAIN:
                    status, body, took = line.ask(viewer, 'GET', path)
                    assert status == 200, (status, body[:200])
                    times.append(took)
            found[who] = min(first), min(again), body.decode()
    return found


def by_flask(kind, count, pages):
    """Returns the least seconds of the same pages with Flask, or nothing if Flask isn't installed."""
    try:
        import flask
    except ImportError:
        return {}
    base = sqlite3.connect(':memory:', check_same_thread=False)
    base.executescript('create table person (id integer primary key, name text);' + kind.tables)
    base.executemany('insert into person values (?, ?)', [(id_of(1, at), name) for at, name in enumerate(kind.people)])
    requests = requests_for(kind, count)
    for request in requests:
        kind.fill(base, ONE, OTHER, request)
    app = flask.Flask('bench', root_path=os.getcwd())
    first = next(iter(pages.values()))
    before, after = first.partition('<title>')[0] + '<title>', ' - ' + first.partition('</title>')[0].rpartition(' - ')[2]
    after += '</title>' + first.partition('</title>')[2].partition('<p>')[0]

    def page(record):
        viewer = flask.request.cookies.get('session', type=int)
        body = ''.join(kind.page(base, viewer, record))
        title = body.partition('</h1>')[0].partition('<h1>')[2]
        return before + title + after + known(base, viewer) + '<main>\n' + body + '\n</main>\n</body>\n</html>\n'

    app.add_url_rule(kind.path.replace('%d', '<int:record>'), 'page', page)
    found, path = {}, kind.path % one_of(kind, requests)
    for who, asker in kind.askers:
        client = app.test_client()
        if asker is not None:
            client.set_cookie('session', str(asker))
        times = []
        for _ in range(400):
            began = time.process_time()
            body = client.get(path).data
            times.append(time.process_time() - began)
        if body.decode().rstrip() != pages[who].rstrip():
            sys.exit('Flask makes another page for %s:\n%s\nand not\n%s' % (who, body.decode(), pages[who]))
        found[who] = min(times)
    return found


def knows_lazy(program):
    """Returns whether the program's usage line names the flag."""
    run = subprocess.run([program], stdin=subprocess.DEVNULL, stdout=subprocess.PIPE, stderr=subprocess.DEVNULL)
    return LAZY.encode() in run.stdout


def write_app(kind, folder):
    with open(os.path.join(TOP, 'examples', kind.name, 'app')) as file:
        text = file.read().rstrip()
    with open(os.path.join(folder, 'app'), 'w') as file:
        file.write(text[:-1] + '\n ' + kind.bulk + ')\n')
    with open(os.path.join(folder, 'sessions'), 'w') as file:
        file.write(users_file(2))


def main(words):
    program = proved.program(words[0])
    sizes = [int(word) for word in words[1:]] or SIZES
    flags = [(), (LAZY,)] if knows_lazy(program) else [()]
    if len(flags) == 1:
        print('left out, as the program does not know it: %s' % LAZY)
    print('%-11s %7s  %-10s %-7s %10s %10s' % ('application', 'records', 'who asks', 'by', 'first ms', 'again ms'))
    for kind in (Calendar, Conference):
        for count in sizes:
            with tempfile.TemporaryDirectory() as folder:
                write_app(kind, folder)
                rows = {flag: measured(program, kind, count, folder, flag) for flag in flags}
                flask = by_flask(kind, count, {who: page for who, (_, _, page) in rows[()].items()})
                for who, _ in kind.askers:
                    for flag in flags:
                        first, again, page = rows[flag][who]
                        assert page == rows[()][who][2], 'another page with the flag'
                        row(kind, count, who, 'jac' + ' --lazy' * len(flag), first, again)
                    if who in flask:
                        row(kind, count, who, 'Flask', flask[who], flask[who])


def row(kind, count, who, by, first, again):
    print('%-11s %7d  %-10s %-11s %9.3f %9.3f' % (kind.name, count, who, by, 1e3 * first, 1e3 * again), flush=True)
