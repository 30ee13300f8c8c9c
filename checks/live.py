#!/usr/bin/env python3
"""Reads stores with tools/live.py. Compares the results with expectations written by hand, and with the program's dumps
under the labels that it says a viewer is shown. The store of the first part is served meanwhile. Argument: the program.
Prints each failure, then a count."""
import contextlib
import os
import re
import sqlite3
import subprocess
import sys
import tempfile

sys.dont_write_bytecode = True
from support import proved                                                  # noqa: E402
from support.serving import served                                          # noqa: E402

TOP = os.path.dirname(os.path.dirname(os.path.abspath(__file__)))
sys.path.insert(0, os.path.join(TOP, 'tools'))
import walk                                                                 # noqa: E402

PROGRAM = proved.binary(proved.first_word())
TOOL = os.path.join(TOP, 'tools', 'live.py')
# applications and their events
EXAMPLES = [('%s/app' % name, '%s/events' % name) for name in ('calendar', 'conference', 'courses', 'health')] + [
    ('%s.app' % name, '%s.events' % name) for name in ('agenda', 'invitations', 'planner', 'records')]

APP = '''(app (viewer User)
 (model User (fields (name text) (phone text))
  (group (guards (phone "none")) (policy (eq this viewer))))
 (model Note (fields (owner (ref User)) (words text) (size int) (Size bool) (ID text) (next (ref Note)))
  (group (guards (words "hidden")) (policy (eq (get Note owner this) viewer)))
  (group hides (policy (live viewer))))
 (model Mark nested (fields (of (ref Note))))
 (view post "/join" (params (name text) (phone text)) (create u User (set (name name) (phone phone))))
 (view post "/note" (params (words text) (size int) (next (ref Note)))
  (create n Note (set (owner viewer) (words words) (size size) (Size true) (next next))))
 (view post "/mark" (params) (for (from ((n Note)) true key) (create m Mark (set (of n))))))
'''
EVENTS = r'''ask - POST "/join" "name=%3Cr%3E%3Cb%3E%26lt%3BAnn%22%27&phone=555-1"
ask - POST "/join" "name=Bob%00%0A%5C%C2%9B%C3%A9&phone=555-2"
ask 4096 POST "/note" "words=secret&size=-9223372036854775808"
ask 8192 POST "/note" "words=zebra&size=9223372036854775807&next=12289"
ask 4096 POST "/mark" ""
'''
AS_BOB = r'''User 8192 (made by POST 2) sees 6 records
User 4096 (made by POST 1)
    name is "<r><b>&lt;Ann\"'"
    phone is "none", its public value
User 8192 (made by POST 2)
    name is "Bob\x00\n\\\xc2\x9bé"
    phone is "555-2"
Note 12289 (made by POST 3)
    owner is User 4096 (made by POST 1)
    words is "hidden", its public value
    size is -9223372036854775808
    Size is true
    ID is ""
    next is no record
Note 16385 (made by POST 4)
    owner is User 8192 (made by POST 2)
    words is "zebra"
    size is 9223372036854775807
    Size is true
    ID is ""
    next is Note 12289 (made by POST 3)
Mark 55344735820756045826 (made by POST 5 around Note 12289)
    of is Note 12289 (made by POST 3)
Mark 73791479894465597442 (made by POST 5 around Note 16385)
    of is Note 16385 (made by POST 4)
'''
AS_NOBODY = AS_BOB[AS_BOB.index('\n') + 1:AS_BOB.index('Note')].replace('"555-2"', '"none", its public value')
WHY_BOB = '''the viewer is shown
    User 8192 (made by POST 2): phone
    Note 12289 (made by POST 3): the record
    Note 16385 (made by POST 4): words
    Note 16385 (made by POST 4): the record
hidden stays User 4096 (made by POST 1): phone
    by its own policy, which is false: app:3: (eq this viewer)
hidden stays Note 12289 (made by POST 3): words
    by its own policy, which is false: app:5: (eq (get Note owner this) viewer)
'''
TABLES = {
    'User': (['id', 'name', 'phone'], [(4096, '<r><b>&lt;Ann"\'', 'none'), (8192, 'Bob\0\n\\\u009bé', '555-2')]),
    'Note': (['id_2', 'owner', 'words', 'size', 'Size_2', 'ID', 'next'],
             [(12289, 4096, 'hidden', -2 ** 63, 1, '', None), (16385, 8192, 'zebra', 2 ** 63 - 1, 1, '', 12289)]),
    'Mark': (['id', 'of'], [('55344735820756045826', 12289), ('73791479894465597442', 16385)]),
}


def look(folder, *words, store='store.db'):
    """Runs a command of live.py. Returns its status, its output and its standard error."""
    done = subprocess.run([sys.executable, TOOL, *words, '--db', store, '--program', PROGRAM], cwd=folder,
                          stdin=subprocess.DEVNULL, stdout=subprocess.PIPE, stderr=subprocess.PIPE, check=False)
    return done.returncode, done.stdout.decode(), done.stderr.decode()


def tables_of(path):
    """Returns the tables of an SQLite file: for each its columns and its rows."""
    with contextlib.closing(sqlite3.connect(path)) as database:
        found = {}
        for name, in database.execute("SELECT name FROM sqlite_master WHERE type = 'table'").fetchall():
            rows = database.execute('SELECT * FROM "%s"' % name)
            found[name] = [column[0] for column in rows.description], rows.fetchall()
        return found


def expect(name, have, want):
    return None if have == want else '%s: %r, not %r' % (name, have, want)


def looks(folder):
    """Checks what the commands say about the small store."""
    yield expect('as Bob', look(folder, 'as', 'app', '8192'), (0, AS_BOB, ''))
    yield expect('as nobody', look(folder, 'as', 'app', '-'), (0, 'nobody sees 2 records\n' + AS_NOBODY, ''))
    yield expect('why, for Bob', look(folder, 'why', 'app', '8192'), (0, WHY_BOB, ''))
    dump = look(folder, 'dump', 'app', '98315')
    yield expect('a dump', (dump[0], dump[1].count('\n'), dump[1][-9:]), (0, 3, 'number 6\n'))
    yield expect('an export', look(folder, 'export', 'app', '8192', 'out.db'), (0, '', ''))
    path = os.path.join(folder, 'out.db')
    yield expect('its tables', tables_of(path), TABLES)
    with open(path, 'rb') as file:
        data = file.read()
    yield expect('nothing of what is hidden', [word for word in (b'secret', b'555-1') if word in data], [])


def refused(folder):
    """Checks what is refused, and that a refusal leaves no file."""
    yield expect('a file that is there', look(folder, 'export', 'app', '-', 'out.db'),
                 (1, '', 'live: out.db is there already\n'))
    status, out, told = look(folder, 'export', 'app', '-', 'none.out', store='none.db')
    yield expect('no store', (status, out, told), (1, '', "live: none.db can't be copied: none.db isn't there\n"))
    for word in 'Bob', str(2 ** 128):
        status, out, told = look(folder, 'as', 'app', word)
        yield expect('no viewer', (status, out, 'VIEWER is the number of a record, or - for nobody' in told), (2, '', True))
    with open(os.path.join(folder, 'other'), 'w', encoding='utf-8') as file:
        file.write(APP.replace('(phone text)', '(mobile text)', 1).replace('(phone "none")', '(mobile "none")').replace(
            '(phone phone)', '(mobile phone)'))
    status, out, told = look(folder, 'export', 'other', '-', 'none.out')
    yield expect('another application', (status, out, ' | (schema (model User ' in told), (1, '', True))
    with open(os.path.join(folder, 'other'), 'a', encoding='utf-8') as file:
        file.write(')')
    status, out, told = look(folder, 'as', 'other', '-')
    yield expect('an application that is wrong', (status, out, 'app: stray at' in told), (1, '', True))
    yield expect('what is left', sorted(name for name in os.listdir(folder) if 'none' in name), [])


def run(folder, *words):
    return subprocess.run([PROGRAM, *words], cwd=folder, stdin=subprocess.DEVNULL, stdout=subprocess.PIPE,
                          check=True).stdout.decode()


def replayed(folder, app, events):
    for name, text in ('app', app), ('events', events):
        with open(os.path.join(folder, name), 'w', encoding='utf-8') as file:
            file.write(text)
    return run(folder, 'replay', 'app', 'events', '--db', 'store.db')


def dumped(folder, viewer):
    """Returns what the program dumps under the labels that the viewer is shown: for each model the cells of its
    records."""
    labels = run(folder, 'why', 'app', viewer, '--db', 'store.db').split('\n')[0].partition(' ')[2]
    found = {}
    for line in run(folder, 'dump', 'app', labels, '--db', 'store.db').split('\n')[:-2]:
        model, number, cells = re.fullmatch(r'(\S+) (\d+)(.*)', line).groups()
        cells = re.findall(r' [\w-]+=("(?:[^"\\]|\\.)*"|\S+)', cells)
        found.setdefault(model, []).append(tuple(map(plain, [number, *cells])))
    return found


def plain(word):
    """Returns a cell of a dump as an exported file has it."""
    if word.startswith('"'):
        return walk.plain(word[1:-1].encode()).decode()
    if word in ('none', 'true', 'false'):
        return {'none': None, 'true': 1, 'false': 0}[word]
    return int(word) if abs(int(word)) < 2 ** 63 else word


def same_as_dumped(folder, app, events):
    """Checks that an export of an example's store has what the program dumps, as nobody and as each viewer of its
    requests."""
    texts = []
    for name in app, events:
        with open(os.path.join(TOP, 'examples', name), encoding='utf-8') as file:
            texts.append(file.read())
    replayed(folder, *texts)
    for viewer in sorted({'-', *re.findall(r'(?m)^ask (\d+) ', texts[1])}):
        path = os.path.join(folder, 'out-' + viewer)
        status, _, told = look(folder, 'export', 'app', viewer, path)
        have = {model: rows for model, (_, rows) in tables_of(path).items() if rows} if status == 0 else told
        yield expect('%s as %s' % (app, viewer), have, dumped(folder, viewer))


def main():
    results = []
    with tempfile.TemporaryDirectory() as folder:
        replayed(folder, APP, EVENTS)
        with served(PROGRAM, 'app', 1000, folder, ('--db', 'store.db')):
            results += looks(folder)
        results += refused(folder)
    for app, events in EXAMPLES:
        with tempfile.TemporaryDirectory() as folder:
            results += same_as_dumped(folder, app, events)
    for wrong in filter(None, results):
        print('FAILED ' + wrong)
    failed = sum(1 for wrong in results if wrong)
    print('%d passed, %d failed' % (len(results) - failed, failed))
    return 1 if failed else 0


if __name__ == '__main__':
    sys.exit(main())
