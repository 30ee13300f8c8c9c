#!/usr/bin/env python3
"""Tests an application with walks: files of requests and expected replies.

    as ann POST /events title="Interview" -> 303 /event/{interview}
    as dan GET /event/{interview}
      has "busy"
      lacks "Interview"

Each walk begins without records, and has a store of its own. `jac replay` answers its requests. Without WALK, the walks
are the files `walk` and `*.walk` beside the application (in it, if it is a folder), or NAME.walk beside NAME.app. The
tokens of the file `sessions` in the same place are names of viewers.

The exit status is 0 if all replies are as expected, and 1 if one isn't. It is 2 if a walk is malformed, names something
that the application doesn't have, or can't be run. docs/USING.md, "Walks", has the grammar."""
import argparse
import contextlib
import glob
import os
import re
import sqlite3
import subprocess
import sys
import tempfile
import urllib.parse

sys.dont_write_bytecode = True
sys.path.insert(0, os.path.dirname(os.path.abspath(__file__)))
import assemble                                                             # noqa: E402
import audit                                                                # noqa: E402
import fault_place                                                          # noqa: E402
import walk_file                                                            # noqa: E402
import walk_page                                                            # noqa: E402
from walk_file import Malformed                                             # noqa: E402

TOP = os.path.dirname(os.path.dirname(os.path.abspath(__file__)))
# a walk's store is temporary, so it is in memory if that is possible
ROOM = '/dev/shm' if os.access('/dev/shm', os.W_OK) else None
REPLY = re.compile(rb'reply (\d+) "((?:[^"\\]|\\.)*)" "((?:[^"\\]|\\.)*)"\n')
ESCAPED = re.compile(rb'\\(n|r|\\|"|x([0-9a-fA-F]{2}))')
PLAIN = {b'n': b'\n', b'r': b'\r', b'\\': b'\\', b'"': b'"'}
# the characters that a browser doesn't encode in the address of a request
KEPT = "!$%&'()*+,-./:;=?@_~"


class Stopped(Exception):
    """The program refused its input, or ended unexpectedly."""


class Application:
    """An application, and the names of its parts. If it is a folder, it is joined into a file in the folder `room`."""

    def __init__(self, path, room):
        data, self.path = assemble.read(path), path
        if os.path.isdir(path):
            self.path = os.path.join(room, 'application%d' % len(os.listdir(room)))
            with open(self.path, 'wb') as file:
                file.write(data)
        self.names = audit.Names(data)
        self.models, self.groups = self.names.models, self.names.groups
        checker = fault_place.Checker(fault_place.read_tree(data, list(range(len(data) + 1))))
        self.fields = [[field.children[0].value for field in fault_place.fields_in(model).children[1:]]
                       for model in checker.models]
        self.viewer, self.params = checker.viewer.value if checker.viewer else None, {}
        for view in checker.views:
            names = [param.children[0].value for param in view.children[3].children[1:]]
            self.params.setdefault(view.children[1].value.upper(), set()).update(names)

    def label(self, number, field):
        """The label that shows a field of a record, or the record itself if no field is named. If there is no such
        label, a message that says why."""
        model = number % 64
        name = self.models[model]
        if not field:
            if ['the record'] not in self.groups[model]:
                return 'no group hides a %s: name a guarded field of it' % name
            return number * 8 + self.groups[model].index(['the record'])
        if field not in self.fields[model]:
            return 'a %s has no field %s%s' % (name, field, walk_file.meant(field, self.fields[model]))
        for place, group in enumerate(self.groups[model]):
            if field in group and group != ['the record']:
                return number * 8 + place
        return 'the %s of a %s is not guarded, so everybody is shown it' % (field, name)


class Reply:
    """A reply, and the labels of its audit line, none if there was no page."""

    def __init__(self, found, shown):
        location, body = (plain(part).decode(errors='replace') for part in found.groups()[1:])
        self.status, self.location, self.body = int(found[1]), location, body
        self.is_page = shown != 'nopage'
        self.labels = [] if shown in ('-', 'nopage') else [int(label) for label in shown.split(',')]

    def line(self):
        return '%d %s' % (self.status, self.location) if self.location else str(self.status)


def plain(data):
    return ESCAPED.sub(lambda found: bytes.fromhex(found[2].decode()) if found[2] else PLAIN[found[1]], data)


def quoted(text):
    return text.replace('\\', '\\\\').replace('"', '\\"').replace('\n', '\\n').replace('\r', '\\r')


class Store:
    """The store of one walk, in a folder of its own."""

    def __init__(self, program, folder):
        self.program, self.folder, self.asked = program, folder, []
        self.file = os.path.join(folder, 'store')

    def path(self, name):
        return os.path.join(self.folder, name)

    def run(self, words):
        done = subprocess.run([*self.program, *words], stdin=subprocess.DEVNULL, stdout=subprocess.PIPE,
                              stderr=subprocess.PIPE, check=False)
        if done.returncode:
            said = (done.stdout[-2000:] + done.stderr[-2000:]).decode(errors='replace')
            raise Stopped('%s ended with status %d:\n%s' % (words[0], done.returncode, said))
        return done.stdout

    def ask(self, application, requests):
        """The replies to these requests, which are lines of events."""
        self.asked += requests
        with open(self.path('events'), 'w', encoding='utf-8', newline='\n') as file:
            file.writelines(requests)
        with contextlib.suppress(FileNotFoundError):
            os.remove(self.path('audit'))
        out = self.run(['replay', application.path, self.path('events'), '--db', self.file,
                        '--audit', self.path('audit')])
        found = [REPLY.fullmatch(line) for line in out.splitlines(keepends=True)]
        if len(found) != len(requests) or not all(found):
            raise Stopped('these are no replies to %d requests: %r' % (len(requests), out[-200:]))
        with open(self.path('audit'), encoding='ascii') as file:
            return [Reply(reply, line.split()[3]) for reply, line in zip(found, file)]

    def last_made(self):
        """The ids of the records that the last numbered request made."""
        with contextlib.closing(sqlite3.connect(self.file)) as base:
            number = base.execute('SELECT number FROM meta').fetchone()[0] - 1
            found = [int.from_bytes(row[0], 'big') for row in base.execute('SELECT DISTINCT jid FROM rec')]
        return [record for record in found if record % audit.LOOP // 4096 == number]

    def upgrade(self, old, new):
        self.run(['upgrade', old.path, new.path, '--db', self.file])


def event(viewer, method, target, body):
    return 'ask %s %s "%s" "%s"\n' % (viewer, method, quoted(target), quoted(body))


def in_order(numbers):
    """The records that one request made, in the order of its `create` statements, and in a loop in the loop's order."""
    return sorted(numbers, key=lambda number: (number % audit.LOOP // 64 % 64, number // audit.LOOP))


def address(text):
    """A path as a browser requests it, with the characters encoded that aren't allowed."""
    return urllib.parse.quote(text, safe=KEPT)


class Walk:
    """A running walk: the names of its records, and what wasn't as expected."""

    def __init__(self, application, sessions, store):
        self.application, self.sessions, self.store = application, sessions, store
        self.ids = {name: number for name, number in sessions.items() if number != '-'}
        self.failures, self.steps, self.reply, self.who = [], 0, None, None
        self.waiting, self.told_of = [], None

    def fail(self, place, source, words):
        self.failures.append('%s:%d: %s\n%s' % (*place, source, '\n'.join('    ' + line for line in words)))

    def go(self, steps, told_of=None):
        """Runs the steps. Requests are collected until a reply is needed, and are then answered in one run."""
        self.told_of = told_of
        for step in steps:
            lacking = [name for name in self.names(step) if name not in self.ids and self.sessions.get(name) != '-']
            if lacking or step.kind != 'as':
                self.answer()
            if lacking:
                self.fail(step.place, step.source, ['no record is called %s, since the request that should have made '
                                                    'it made none; the walk ends here' % lacking[0]])
                return
            self.steps += 1
            self.step(step)
        self.answer()

    def step(self, step):
        if step.kind == 'upgrade':
            self.upgrade(step)
            return
        try:
            self.waiting.append((step, self.followed(step) if step.kind == 'follow' else self.request(step)))
        except Malformed:
            self.answer()
            raise
        if step.gives:
            self.answer()

    def answer(self):
        """Has the program answer the collected requests, and compares each reply with what is expected of it."""
        waiting, self.waiting = self.waiting, []
        if not waiting:
            return
        replies = self.store.ask(self.application, [request for _, request in waiting])
        for (step, _), self.reply in zip(waiting, replies):
            if step.gives:
                is_made = step.method == 'POST' and self.reply.is_page
                self.name(step, in_order(self.store.last_made() if is_made else []))
            if self.told_of:
                self.told_of(self, step)
            self.judge(step)

    @staticmethod
    def names(step):
        """The names that a step and its expectations use, without those that the step itself defines."""
        words = [step.target, step.location] + [word for _, word in step.fields]
        words += [word for look in step.looks for word in look.texts]
        names = [name for word in words if word for name in word.names()]
        names += [record for look in step.looks for record, _ in look.labels]
        names += [step.who] if step.who not in (None, 'nobody') else []
        return [name for name in names if name not in step.gives]

    def request(self, step):
        """The line of events for a step."""
        self.who = self.viewer(step)
        known = self.application.params.get('GET' if step.method == 'HEAD' else step.method, set())
        for name, _ in step.fields:
            if name not in known:
                raise Malformed(step.place, 'no view of %s has a parameter %s%s'
                                % (step.method, name, walk_file.meant(name, sorted(known))))
        target = address(step.target.text(self.ids))
        form = urllib.parse.urlencode([(name, word.text(self.ids)) for name, word in step.fields])
        if step.method != 'POST' and form:
            target, form = target + ('&' if '?' in target else '?') + form, ''
        return event(self.who, step.method, target, form)

    def viewer(self, step):
        """The viewer of a step, as in a line of events."""
        who = self.sessions.get(step.who) or self.ids.get(step.who, '-')
        model = self.application.models[who % 64] if who != '-' and who % 64 < len(self.application.models) else None
        if model != self.application.viewer and step.who in self.ids and step.who not in self.sessions:
            viewers = 'a viewer is a ' + self.application.viewer if self.application.viewer else 'there are no viewers'
            raise Malformed(step.place, '%s is a %s, and %s' % (step.who, model, viewers))
        return who

    def followed(self, step):
        """The line of events that requests the location of the last reply."""
        if not self.reply.location.startswith('/'):
            raise Malformed(step.place, 'the reply before has no location of this application: %s' % self.reply.line())
        return event(self.who, 'GET', self.reply.location, '')

    def name(self, step, made):
        """Gives the names of a step to the records that it made."""
        if len(made) < len(step.gives):
            models = ', '.join(self.application.models[number % 64] for number in made) or 'none'
            self.fail(step.place, step.source, ['- records for %s' % ', '.join(step.gives),
                                                '+ the request made %s; the reply is %s' % (models, self.reply.line())])
        for name, number in zip(step.gives, made):
            if name == '_':
                continue
            if self.sessions.get(name, number) != number:
                self.fail(step.place, step.source, ['- %s %s, in the sessions' % (name, self.sessions[name]),
                                                    '+ %s %d, which was made' % (name, number)])
            self.ids[name] = number

    def upgrade(self, step):
        try:
            new = Application(step.file, self.store.folder)
            self.store.upgrade(self.application, new)
        except (OSError, Stopped, fault_place.TreeFault) as error:
            raise Malformed(step.place, str(error)) from None
        self.application = new

    def judge(self, step):
        lacking = [name for name in step.gives if name != '_' and name not in self.ids]
        self.judge_status(step, lacking)
        for look in step.looks:
            if any(name in lacking for word in look.texts for name in word.names()) or \
                    any(record in lacking for record, _ in look.labels):
                continue
            wrong = self.of_labels(look) if look.kind in ('shows', 'hides', 'only') else \
                walk_page.wrong(self.reply.body, look.kind, [word.text(self.ids) for word in look.texts])
            if wrong:
                asked = ['asked by line %d: %s' % (step.place[1], step.source)]
                self.fail(look.place, look.source, asked + wrong)

    def judge_status(self, step, lacking):
        if step.status is None:
            if self.reply.status not in (200, 303):
                self.fail(step.place, step.source, ['- 200 or 303, as nothing else is said', '+ ' + self.reply.line()])
            return
        wanted = None
        if step.location and not set(step.location.names()) & set(lacking):
            wanted = urllib.parse.quote(step.location.text(self.ids), safe=''.join(map(chr, range(33, 127))))
        if self.reply.status != step.status or wanted not in (None, self.reply.location):
            self.fail(step.place, step.source, ['- %d%s' % (step.status, ' ' + wanted if wanted else ''),
                                                '+ ' + self.reply.line()])

    def of_labels(self, look):
        """Lines that say what is wrong with the labels of the page, or None."""
        wanted = []
        for record, field in look.labels:
            number = self.application.label(self.ids[record], field)
            if isinstance(number, str):
                raise Malformed(look.place, number)
            wanted.append((number, '%s.%s' % (record, field) if field else record))
        shown = set(self.reply.labels)
        if look.kind == 'hides':
            wrong = ['- ' + name + ' is hidden' for number, name in wanted if number in shown]
        else:
            wrong = ['- ' + name for number, name in wanted if number not in shown]
        if look.kind == 'only':
            wrong += ['+ ' + self.told(number) for number in sorted(shown - {number for number, _ in wanted})]
        told = ', '.join(self.told(number) for number in sorted(shown))
        return wrong + ['what is shown: ' + (told or 'nothing that is guarded')] if wrong else None

    def told(self, label):
        """A label by the name that the walk gave its record, or else as in the audit in words."""
        record = next((name for name, number in self.ids.items() if number == label // 8), None)
        text, fields = self.application.names.label(label)
        text = record or text
        return text if fields in ('the record', '') else '%s.%s' % (record, fields.split(', ')[0]) if record else \
            '%s: %s' % (text, fields)


def sessions_of(path):
    """The viewer of each token of a sessions file."""
    with open(path, encoding='ascii', errors='replace') as file:
        rows = [line.split() for line in file if line.strip()]
    found = {}
    for row in rows:
        if len(row) == 2 and walk_file.NAME.fullmatch(row[0]):
            found.setdefault(row[0], '-' if row[1] == '-' else int(row[1]) if row[1].isdigit() else '-')
    return found


def beside(application, name):
    """The path of a file beside an application, or in it if the application is a folder."""
    folder = application if os.path.isdir(application) else os.path.dirname(application)
    return os.path.join(folder, name)


def walks_of(application):
    name = os.path.basename(application)
    if not os.path.isdir(application) and name.endswith('.app'):
        return glob.glob(glob.escape(application[:-len('.app')]) + '.walk')
    return [path for path in [beside(application, 'walk')] if os.path.exists(path)] + \
        sorted(glob.glob(os.path.join(glob.escape(beside(application, '')), '*.walk')))


def tell(walk, step):
    """Prints what `--verbose` says about a step: its reply, the records that it made, and the labels that are shown."""
    named = ', '.join('%s = %s' % (name, walk.ids.get(name)) for name in step.gives if name != '_')
    print('%s:%d: %s\n    %s%s\n    shows %s' % (
        *step.place, step.source, walk.reply.line(), ', ' + named if named else '',
        ', '.join(walk.told(number) for number in walk.reply.labels) or 'nothing'))
    for line in walk_page.lines(walk.reply.body):
        print('    | ' + line)


def walked(program, application, steps, sessions, given):
    """Runs one walk, prints what wasn't as expected, and returns the walk."""
    with tempfile.TemporaryDirectory(dir=ROOM) as folder:
        store = Store(program, folder)
        walk = Walk(application, sessions, store)
        try:
            walk.go(steps, tell if given.verbose else None)
        finally:
            for failure in walk.failures:
                print(failure)
    if given.events:
        with open(given.events, 'w', encoding='utf-8', newline='\n') as file:
            file.writelines(store.asked)
    return walk


def walk_all(program, application, walks, sessions, given):
    """Runs all walks, and returns whether all replies were as expected."""
    failed = 0
    for path in walks:
        steps = walk_file.read(path, sessions)
        walk = walked(program, application, steps, sessions, given)
        looks = sum(len(step.looks) for step in steps)
        met = '%d not met' % len(walk.failures) if walk.failures else 'all met'
        print('%s: %d steps, %d expectations after them, %s' % (path, walk.steps, looks, met))
        failed += bool(walk.failures)
    return not failed


def refusal(program, path):
    """What the program says about a faulty application, with the fault's place. None if there is no fault."""
    tools = os.path.join(TOP, 'tools', '')
    is_script = program == [os.path.join(TOP, 'jac')]
    start = [sys.executable, tools + 'run_folder.py'] if os.path.isdir(path) and not is_script else []
    done = subprocess.run([*start, *program, 'check', path], stdin=subprocess.DEVNULL, stdout=subprocess.PIPE,
                          stderr=subprocess.STDOUT, check=False)
    if not done.returncode:
        return None
    said = done.stdout
    if not is_script:
        said += subprocess.run([sys.executable, tools + 'fault_place.py', *program, 'check', path], stdin=subprocess.DEVNULL,
                               stdout=subprocess.PIPE, stderr=subprocess.STDOUT, check=False).stdout
    return said.decode(errors='replace')


def parser():
    words = argparse.ArgumentParser(prog='walk', description=__doc__,
                                    formatter_class=argparse.RawDescriptionHelpFormatter)
    words.add_argument('application', metavar='APP', help='the application: a file, or a folder with its parts')
    words.add_argument('walks', metavar='WALK', nargs='*', help='the walks (default: those beside the application)')
    words.add_argument('--sessions', metavar='FILE', help='the sessions, whose tokens are names of viewers')
    words.add_argument('--verbose', '-v', action='store_true', help='print the reply to each request')
    words.add_argument('--events', metavar='FILE', help='write the requests of the last walk as events, for jac replay')
    words.add_argument('--program', metavar='PROGRAM', default=os.path.join(TOP, 'jac'),
                       help='the program that answers the requests, or the script jac, which chooses it')
    return words


def run(given):
    sessions = given.sessions or beside(given.application, 'sessions')
    known = sessions_of(sessions) if given.sessions or os.path.exists(sessions) else {}
    walks = given.walks or walks_of(given.application)
    if not walks:
        raise Stopped('%s has no walk beside it: write one, docs/USING.md says how' % given.application)
    said = refusal([given.program], given.application)
    if said:
        raise Stopped('%s is refused:\n%s' % (given.application, said))
    with tempfile.TemporaryDirectory(dir=ROOM) as room:
        return walk_all([given.program], Application(given.application, room), walks, known, given)


def main():
    given = parser().parse_intermixed_args()
    try:
        return 0 if run(given) else 1
    except BrokenPipeError:
        # the reader is gone, so the output that isn't flushed yet has no reader either
        os.dup2(os.open(os.devnull, os.O_WRONLY), sys.stdout.fileno())
    except Malformed as fault:
        print(fault)
    except (Stopped, assemble.Fault, OSError) as fault:
        print('walk: %s' % fault)
    except KeyboardInterrupt:
        print('walk: interrupted', file=sys.stderr)
    return 2


if __name__ == '__main__':
    sys.exit(main())
