"""Measures the lists of the four larger applications in examples/. Arguments: the program, and the numbers of records
of each application's main model (250, 1,000 and 4,000 by default). The application's own forms make the records. The
records are spread over its users, one user for 20 records, and are mostly guarded. They are made twice. In the file of
a store, an application whose policies are always true makes them, and then the application with its own policies is
served over that file. In memory, the application with its own policies makes them. For this the time of all POSTs is
printed. Each POST resolves the labels of its page.

The list is requested by somebody who may see much of it, by somebody who may see little, and by nobody, twice each.
Times are processor time of the program. The memory is the most that the program held meanwhile. The labels are those
that the page shows. If a page takes longer than a minute, the rest of its application is skipped.

After the pages over the file come, for the same viewers, the processor time of a whole run that replays only the page,
and that of a `jac why`, both without their memory. Last come the bars, the limits that the costs should keep.

docs/COSTS.md has the last results, with their date. This isn't part of the gate, since the results depend on the
machine."""
import contextlib
import http.client
import itertools
import os
import re
import subprocess
import tempfile
import urllib.parse

from support import proved
from bench.times import bar
from support.serving import processor_seconds, served

TOP = os.path.dirname(os.path.dirname(os.path.dirname(os.path.abspath(__file__))))
SIZES = [250, 1000, 4000]
MOST = 60       # seconds for one page
FORM = {'Content-Type': 'application/x-www-form-urlencoded'}
SHARE = 20      # records for each user
PEOPLE = 'Ann Bob Cleo Dan Eve Finn Gwen Hugo Iris Jon Kim Lea Max Nina Otto Pia Quin Ruth Sam Tess'.split()


class Left(Exception):
    """Why the rest of an application is skipped."""


def id_of(number, site=0, model=0):
    """Returns the id that docs/LANGUAGE.md gives a record."""
    return (number * 64 + site) * 64 + model


def users_file(requests):
    """Returns a line for each record of the first model that so many requests may make."""
    ids = [id_of(1, site) for site in range(64)] + [id_of(number) for number in range(2, requests)]
    return ''.join('%d %d\n' % (one, one) for one in ids)


def name_of(place):
    return '%s %d' % (PEOPLE[place % len(PEOPLE)], place)


def day_of(place):
    return '2026-%02d-%02d' % (place * 7 % 12 + 1, place * 11 % 28 + 1)


class Site:
    """An application that is served. Each request has a connection of its own, since a connection that is kept is soon
    closed."""

    def __init__(self, run, audit):
        self.line = http.client.HTTPConnection('127.0.0.1', run.port, timeout=MOST)
        self.process, self.audit, self.number = run.run.pid, audit, 0

    def ask(self, method, viewer, path, body=None):
        """Returns the status, the location, the body and the seconds of a reply."""
        headers = dict(FORM) if method == 'POST' else {}
        if viewer is not None:
            headers['Cookie'] = 'session=%d' % viewer
        while True:
            self.line.close()
            began = processor_seconds(self.process)
            try:
                self.line.request(method, path, body, headers)
                answer = self.line.getresponse()
                read = answer.read()
                return answer.status, answer.getheader('Location'), read, processor_seconds(self.process) - began
            except TimeoutError:
                raise Left('%s %s takes more than %d seconds' % (method, path, MOST))
            except (BrokenPipeError, ConnectionResetError):
                # closed before its request was complete, because this script waited too long for a processor
                continue

    def post(self, viewer, path, **fields):
        """Sends a form, and returns the path that it leads to."""
        status, to, body, _ = self.ask('POST', viewer, path, urllib.parse.urlencode(fields).encode())
        if status != 303:
            raise Left('POST %s, request %d: %d %s' % (path, self.number + 1, status, body[:200].decode()))
        self.number += 1
        return to

    def person(self, viewer, **fields):
        self.post(viewer, '/people', **fields)
        return id_of(self.number)

    def page(self, viewer, path):
        """Returns a page's status, the seconds that it and the next one take, its bytes, the peak bytes of memory, and
        the number of labels."""
        with open('/proc/%d/clear_refs' % self.process, 'w') as refs:
            refs.write('5')
        status, _, body, took = self.ask('GET', viewer, path)
        _, _, _, again = self.ask('GET', viewer, path)
        with open('/proc/%d/status' % self.process) as table:
            peak = next(int(line.split()[1]) * 1024 for line in table if line.startswith('VmHWM'))
        return status, took, again, len(body), peak, self.shown()

    def shown(self):
        """Returns how many labels the last line of the audit names."""
        with open(self.audit) as audit:
            last = audit.read().splitlines()[-1].split()[3]
        return counted(last)


def calendar(site):
    """Makes events, of which a tenth is open. One user hosts a quarter of them, and every fifth has a guest."""
    site.post(None, '/setup')
    people = [id_of(1, place) for place in range(4)]
    for place in itertools.count():
        if place % SHARE == SHARE - 1:
            people.append(site.person(people[0], name=name_of(place)))
        host = people[0] if place % 4 == 0 else people[place % len(people)]
        fields = {'title': 'Meeting %d' % (place * 7919 % 1009), 'place': 'Room %d' % (place % 9), 'day': day_of(place)}
        if place % 10 == 9:
            fields['open'] = '1'
        event = site.post(host, '/events', **fields)
        if place % 5 == 0:
            site.post(host, event + '/guests', person=people[(place + 1) % len(people)])
        yield [('hosts a quarter', people[0], '/'), ('hosts a few', people[2], '/'), ('nobody', None, '/')]


def conference(site):
    """Makes papers. Every third has a second author, every tenth a conflict, and every twentieth a review."""
    site.post(None, '/setup')
    chair, first, second, reviewer, other = (id_of(1, place) for place in range(5))
    people = [first, second]
    for place in itertools.count():
        if place % SHARE == SHARE - 1:
            people.append(site.person(chair, name=name_of(place)))
        fields = {'title': 'On topic %d' % (place * 7919 % 1009), 'abstract': 'It is shown that %d.' % place}
        if place % 3 == 0:
            fields['second'] = people[(place + 1) % len(people)]
        if place % 10 == 0:
            fields['conflict'] = other
        paper = site.post(people[place % len(people)], '/papers', **fields)
        if place % 20 == 1:
            site.post(reviewer, paper + '/reviews', score=place % 5 + 1, words='Sound.')
        yield [('the chair', chair, '/'), ('an author', first, '/'), ('nobody', None, '/')]


def health(site):
    """Makes entries of patients by two doctors, one of whom has everybody's consent. Every twelfth entry is hidden."""
    site.post(None, '/setup')
    people, house, quinn = [id_of(1, 0), id_of(1, 1)], id_of(1, 2), id_of(1, 3)
    for patient in people:
        site.post(patient, '/consents', doctor=house)
    for place in itertools.count():
        if place % SHARE == SHARE - 1:
            people.append(site.person(house, name=name_of(place), born=day_of(place)))
            site.post(people[-1], '/consents', doctor=house)
        patient = people[place % len(people)]
        fields = {'day': day_of(place), 'title': 'Visit %d' % place, 'words': 'Nothing new.'}
        entry = site.post(quinn if place % 4 == 3 else house, '/person/%d/entries' % patient, **fields)
        if place % 12 == 0:
            site.post(patient, entry + '/hide', hidden='1')
        yield [('a doctor', house, '/'), ('a patient', people[0], '/'), ('nobody', None, '/')]


def courses(site):
    """Makes submissions of the students of two courses, to ten tasks each. The list is the page of a course, which
    counts them."""
    site.post(None, '/setup')
    teachers, student = [id_of(1, 0), id_of(1, 1)], None
    given = [site.post(teacher, '/courses', title='Course of %d' % teacher) for teacher in teachers]
    tasks = [[site.post(teacher, course + '/tasks', title='Task %d' % place, points=10) for place in range(10)]
             for teacher, course in zip(teachers, given)]
    first = None
    for place in itertools.count():
        turn = place // 10 % 2
        if place % 10 == 0:
            student = site.person(teachers[0], name=name_of(place))
            site.post(teachers[turn], given[turn] + '/places', student=student)
            first = first or student
        site.post(student, tasks[turn][place % 10] + '/submissions', words='By induction on %d.' % place)
        yield [('the teacher', teachers[0], given[0]), ('a student', first, given[0]), ('nobody', None, given[0])]


def without_policies(text):
    """Returns the application with policies that are always true."""
    parts, place = [], 0
    for found in re.finditer(r'\(policy\b', text):
        depth, end = 1, found.end()
        while depth:
            end = re.compile(r'[()]|"(?:[^"\\]|\\.)*"').search(text, end).end()
            depth += {'(': 1, ')': -1}.get(text[end - 1], 0)
        parts += [text[place:found.start()], '(policy true)']
        place = end
    return ''.join(parts) + text[place:]


@contextlib.contextmanager
def site_of(program, app, folder, options=('--db', 'store')):
    """Serves the application over a store's file in the folder, or in memory if there are no options."""
    options = '--sessions', 'sessions', '--audit', 'audit', *options
    with served(program, app, 1000000, folder, options) as run:
        site = Site(run, os.path.join(folder, 'audit'))
        with contextlib.closing(site.line):
            yield site


def made(make, count, site):
    """Makes `count` records. Returns who requests which list."""
    return next(itertools.islice(make(site), count - 1, None))


def write(make, count, folder):
    """Writes the application, a copy of it whose policies are always true, and the sessions."""
    with open(os.path.join(TOP, 'examples', make.__name__, 'app')) as file:
        text = file.read()
    for name, data in (('app', text), ('open', without_policies(text)), ('sessions', users_file(3 * count + 500))):
        with open(os.path.join(folder, name), 'w') as file:
            file.write(data)


def over_a_file(program, make, count, folder):
    with site_of(program, 'open', folder) as site:
        pages = made(make, count, site)
    with site_of(program, 'app', folder) as site:
        for who, viewer, path in pages:
            line(make.__name__, count, 'file', who, *site.page(viewer, path))
    for who, viewer, path in pages:
        for name, ran in (('replay', replay), ('why', why)):
            line(make.__name__, count, name, who, *ran(program, viewer, path, folder))


def in_memory(program, make, count, folder):
    with site_of(program, 'app', folder, ()) as site:
        pages = made(make, count, site)
        took = processor_seconds(site.process)
        TOOK[make.__name__, count, 'memory', 'all POSTs'] = took
        print('%-11s %7d  memory  all %d POSTs %33.3f' % (make.__name__, count, site.number, took), flush=True)
        for who, viewer, path in pages:
            line(make.__name__, count, 'memory', who, *site.page(viewer, path))


def measure(program, make, sizes):
    for count in sizes:
        for ways in over_a_file, in_memory:
            with tempfile.TemporaryDirectory() as folder:
                write(make, count, folder)
                try:
                    ways(program, make, count, folder)
                except Left as left:
                    print('%-11s is left at %d records: %s' % (make.__name__, count, left), flush=True)
                    return


def whole(words, folder):
    """Returns the status, the processor seconds and the output of a run."""
    run = subprocess.Popen(words, cwd=folder, stdin=subprocess.DEVNULL, stdout=subprocess.PIPE, stderr=subprocess.DEVNULL)
    out = run.stdout.read()
    run.stdout.close()
    _, ended, usage = os.wait4(run.pid, 0)
    run.returncode = os.waitstatus_to_exitcode(ended)
    return run.returncode, usage.ru_utime + usage.ru_stime, out


def replay(program, viewer, path, folder):
    """Returns the status, the processor seconds, the bytes and the labels of a run that makes only the page."""
    with open(os.path.join(folder, 'events'), 'w') as file:
        file.write('ask %s GET "%s" ""\n' % ('-' if viewer is None else viewer, path))
    words = [program, 'replay', 'app', 'events', '--audit', 'page', '--db', 'store']
    status, took, out = whole(words, folder)
    with open(os.path.join(folder, 'page')) as file:
        return status, took, None, len(out), 0, counted(file.read().splitlines()[-1].split()[3])


def why(program, viewer, path, folder):
    """Returns the same for a `why` over the file."""
    words = [program, 'why', 'app', '-' if viewer is None else str(viewer), '--db', 'store']
    status, took, out = whole(words, folder)
    return status, took, None, len(out), 0, counted(out.decode().split('\n')[0].removeprefix('shown '))


def counted(labels):
    return 0 if labels in ('-', 'nopage') else labels.count(',') + 1


TOOK = {}   # the seconds of the first page, by application, number of records, place and viewer


def line(name, count, where, who, status, took, again, size, peak, shown):
    TOOK[name, count, where, who] = took
    print('%-11s %7d  %-7s %-16s %6d %9.4f %9s %9d %8.1f %7d' % (
        name, count, where, who, status, took, '' if again is None else '%.4f' % again, size, peak / 2 ** 20, shown),
        flush=True)


BARS = [
    ('conference', 1000, 'memory', 'an author', 0.15),
    ('conference', 1000, 'file', 'an author', 0.15),
    ('conference', 4000, 'memory', 'an author', 0.7),
    ('conference', 4000, 'file', 'an author', 0.7),
    ('conference', 1000, 'memory', 'all POSTs', 10),
]


def main(words):
    program = proved.program(words[0])
    sizes = [int(word) for word in words[1:]] or SIZES
    print('%-11s %7s  %-7s %-16s %6s %9s %9s %9s %8s %7s' % (
        'application', 'records', 'where', 'who asks', 'status', 'seconds', 'again', 'bytes', 'peak MB', 'labels'))
    for make in (calendar, conference, health, courses):
        measure(program, make, sizes)
    for name, count, where, who, most in BARS:
        bar('%s of %d, %s, %s, seconds' % (name, count, where, who), TOOK.get((name, count, where, who)), most)
