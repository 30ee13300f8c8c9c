#!/usr/bin/env python3
"""Reads a store, even while it is served. Each command first makes a copy (deploy/backup.py), and runs the program on
the copy.

    python3 tools/live.py dump APP LABELS --db STORE          the records as these labels show them
    python3 tools/live.py why APP VIEWER --db STORE           what the viewer is shown, and why not the rest, in words
    python3 tools/live.py as APP VIEWER --db STORE            the records as the viewer sees them, in words
    python3 tools/live.py export APP VIEWER FILE --db STORE   the same records in a new SQLite file

VIEWER is the id of a record, or - for nobody. For `as` and `export` the program gets the models of the application,
with a view for each model that lists its records. The program answers these views for the viewer, so this script
decides no policy. The file of `export` has a table for each model, with columns for the record's id and its fields."""
import argparse
import contextlib
import html
import os
import re
import signal
import sqlite3
import sys
import tempfile

sys.dont_write_bytecode = True
TOOLS = os.path.dirname(os.path.abspath(__file__))
TOP = os.path.dirname(TOOLS)
sys.path.insert(0, TOOLS)
import application                                                          # noqa: E402
import audit                                                                # noqa: E402
import commands                                                             # noqa: E402
import fault_place                                                          # noqa: E402
import hidden                                                               # noqa: E402
import schema                                                               # noqa: E402
import store_copies                                                         # noqa: E402
import walk                                                                 # noqa: E402
import why                                                                  # noqa: E402

# the marks before a record and before each of its fields on a page; no escaped value contains a <
RECORD, FIELD = '<r>', '<f>'
TYPES = {'int': ' INTEGER', 'text': ' TEXT', 'bool': ' INTEGER'}
LARGEST = 2 ** 63 - 1


class Fault(Exception):
    """The reason why nothing can be shown."""


class Copy:
    """A copy of a store, a file with the application's text beside it, and the program that reads them."""

    def __init__(self, options, room):
        self.app, self.db, self.program, self.room = options.app, options.db, options.program, room
        self.data = application.read(options.app)
        self.text, self.store = self.write('text', self.data), os.path.join(room, 'copy.db')
        store_copies.copy_served(options.db, self.store)

    def write(self, name, data):
        path = os.path.join(self.room, name)
        with open(path, 'wb') as file:
            file.write(data)
        return path

    def asked(self, command, word):
        """The lines that a command of the program prints. Messages name the original files, not the copies."""
        try:
            return hidden.asked(self.program, command, self.text, word, self.store)
        except hidden.Fault as fault:
            raise Fault(str(fault).replace(self.text, self.app).replace(self.store, self.db)) from None

    def pages(self, text, viewer, count):
        """The pages of the first `count` views of an application for a viewer, and the labels that they show."""
        events = ''.join('ask %s GET "/%d" ""\n' % (viewer, place) for place in range(count))
        log = os.path.join(self.room, 'audit')
        status, out, told = hidden.output_of([
            self.program, 'replay', '--db', self.store, '--audit', log, '--', self.write('lists', text),
            self.write('events', events.encode())])
        replies = walk.REPLY.findall((out + '\n').encode())
        if status or [reply[0] for reply in replies] != [b'200'] * count:
            raise Fault(told or 'the program put no page of the records: %s' % out[-200:])
        with open(log, encoding='utf-8') as file:
            labels = {label for line in file for label in hidden.labels_of(line.split()[3])}
        return [walk.plain(reply[2]).decode() for reply in replies], labels


def list_view(place, model):
    """A view that lists the records of a model, each with its fields."""
    puts = ' '.join('(put "%s") (esc (get %s %s r))' % (FIELD, model.name, field) for field, _ in model.fields)
    return ' (view get "/%d" (params) (for (from ((r %s)) true key) (put "%s") (put r) %s))' % (
        place, model.name, RECORD, puts)


def lists_of(data, models):
    """An application that has the models of another one, with their policies, and views that list their records."""
    checker = fault_place.Checker(fault_place.read_tree(data, list(range(len(data) + 1))))
    head = '(app\n' + (' (viewer %s)\n' % checker.viewer.value if checker.viewer is not None else '')
    kept = b'\n'.join(data[model.start:model.end] for model in checker.models)
    views = '\n'.join(list_view(place, model) for place, model in enumerate(models))
    return head.encode() + kept + ('\n%s)\n' % views).encode()


def value_of(kind, text):
    if kind == 'text':
        return html.unescape(text)
    if kind == 'bool':
        return text == 'true'
    return int(text) if text else None


def records_of(model, page):
    """The records on a page that lists them: the id of each, and its values."""
    for record in page.split(RECORD)[1:]:
        number, *values = record.split(FIELD)
        yield int(number), [value_of(kind, text) for (_, kind), text in zip(model.fields, values)]


class World:
    """The records of a store as a viewer sees them, by model."""

    def __init__(self, copy, viewer):
        copy.asked('dump', '-')     # fails if the application or the store is wrong
        self.models, self.names = schema.of_application(copy.data), audit.Names(copy.data)
        pages, self.labels = copy.pages(lists_of(copy.data, self.models), viewer, len(self.models))
        self.records = [list(records_of(model, page)) for model, page in zip(self.models, pages)]

    def is_public(self, model, number, field):
        """Whether the viewer sees only the public value of a field, because the field is guarded and hidden."""
        return any(group != 'hides' and field in group and number * 8 + place not in self.labels
                   for place, group in enumerate(model.groups))

    def told(self, viewer):
        """The lines that say what the viewer sees."""
        count = sum(map(len, self.records))
        yield '%s sees %s' % ('nobody' if viewer == '-' else self.names.record(int(viewer)),
                              '1 record' if count == 1 else '%d records' % count)
        for model, records in zip(self.models, self.records):
            for number, values in records:
                yield self.names.record(number)
                for (field, kind), value in zip(model.fields, values):
                    public = self.is_public(model, number, field)
                    yield '    %s is %s%s' % (field, self.word(kind, value), ', its public value' if public else '')

    def word(self, kind, value):
        if kind == 'text':
            return '"%s"' % re.sub(r'[\\"\x00-\x1f\x7f-\x9f]', lambda found: escaped(found.group()), value)
        if kind in ('int', 'bool'):
            return str(value).lower()
        return 'no record' if value is None else self.names.record(value)


def escaped(character):
    """A character, escaped as in a dump."""
    short = {'\n': '\\n', '\r': '\\r', '\\': '\\\\', '"': '\\"'}.get(character)
    return short or ''.join('\\x%02x' % byte for byte in character.encode())


def free(name, taken):
    """The name, or if it is taken, the first free one with a number after it. As in SQLite, case doesn't matter."""
    tried, number = name, 2
    while tried.lower() in taken:
        tried, number = '%s_%d' % (name, number), number + 1
    taken.add(tried.lower())
    return '"%s"' % tried


def cell(value):
    """A value for SQLite. A number beyond SQLite's integers, as the id of a record of a loop may be, is a text."""
    is_wide = isinstance(value, int) and not -LARGEST - 1 <= value <= LARGEST
    return str(value) if is_wide else value


def write_tables(world, database):
    tables = set()
    for model, records in zip(world.models, world.records):
        taken = set()
        columns = [free(field, taken) + TYPES.get(kind, '') for field, kind in model.fields]
        columns.insert(0, free('id', taken) + ' PRIMARY KEY')
        name = 'model_' + model.name if model.name.lower().startswith('sqlite_') else model.name
        table = free(name, tables)
        database.execute('CREATE TABLE %s(%s)' % (table, ', '.join(columns)))
        database.executemany('INSERT INTO %s VALUES(%s)' % (table, ', '.join('?' * len(columns))),
                             ([cell(value) for value in (number, *values)] for number, values in records))
    database.commit()


def run_dump(options, room):
    return Copy(options, room).asked('dump', options.labels)


def run_why(options, room):
    copy = Copy(options, room)
    lines = copy.asked('why', options.viewer)
    return why.Why(audit.Names(copy.data), why.Policies(options.app, copy.data), why.Store.of_file(copy.store),
                   lines).told()


def run_as(options, room):
    return World(Copy(options, room), options.viewer).told(options.viewer)


def run_export(options, room):
    if os.path.lexists(options.file):
        raise Fault('%s is there already' % options.file)
    world = World(Copy(options, room), options.viewer)
    with tempfile.TemporaryDirectory(dir=os.path.dirname(os.path.abspath(options.file))) as beside:
        made = os.path.join(beside, 'made')
        with contextlib.closing(sqlite3.connect(made)) as database:
            write_tables(world, database)
        os.rename(made, options.file)
    return []


def operand(name):
    """A function that checks an operand as the program does."""
    def read(word):
        wrong = commands.operand_words(name, word)
        if wrong:
            raise argparse.ArgumentTypeError(wrong)
        return word
    return read


def options_of(words):
    parser = argparse.ArgumentParser(description=__doc__, allow_abbrev=False,
                                     formatter_class=argparse.RawDescriptionHelpFormatter)
    choice = parser.add_subparsers(metavar='COMMAND', required=True)
    for name, run, operands in (('dump', run_dump, ['labels']), ('why', run_why, ['viewer']), ('as', run_as, ['viewer']),
                                ('export', run_export, ['viewer', 'file'])):
        command = choice.add_parser(name, allow_abbrev=False)
        command.set_defaults(run=run)
        command.add_argument('app', metavar='APP', help='the application, a file or a folder')
        for word in operands:
            command.add_argument(word, metavar=word.upper(), type=operand(word.upper()))
        command.add_argument('--db', metavar='STORE', required=True, help='the store; a copy of it is read')
        command.add_argument('--program', metavar='FILE', default=os.path.join(TOP, 'jac'),
                             help='the program to run, instead of ./jac')
    return parser.parse_args(words)


def main(words):
    options = options_of(words)
    try:
        with tempfile.TemporaryDirectory(prefix='jac-live-') as room:
            for line in options.run(options, room):
                print(line)
    except (Fault, store_copies.Fault, application.Fault, OSError, sqlite3.Error) as fault:
        sys.exit('live: %s' % fault)


if __name__ == '__main__':
    signal.signal(signal.SIGPIPE, signal.SIG_DFL)
    main(sys.argv[1:])
