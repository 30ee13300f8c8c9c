#!/usr/bin/env python3
"""Runs the built program over stores in files, which Python's module sqlite3 reads and damages. What a run leaves must
be there in the next run, in the bytes that docs/USING.md describes. A store that is damaged or belongs to another
application must be reported and left alone. What was answered before a run was killed must be kept. A store whose
upgrade was killed must be the old one or the new one. Arguments: the program, and how many runs of each kind to kill
(by default 50 that serve and 100 upgrades). Prints each failed case, and how long an upgrade of 10,000 records took,
then a count."""
import contextlib
import glob
import http.client
import os
import random
import re
import resource
import shutil
import signal
import sqlite3
import subprocess
import sys
import tempfile
import time

from support import proved
from support.serving import served

WORDS = proved.words(kills={'metavar': 'N', 'nargs': '?', 'type': int,
                            'help': 'how many runs of each kind are killed (50 that serve, 100 upgrades)'})
PROGRAM = proved.program(WORDS.program)
TOP = os.path.dirname(os.path.dirname(os.path.abspath(__file__)))
# the script copies a store before its upgrade; for any other program, store_copies.py is called as the script calls it
IS_SCRIPT = proved.is_script(PROGRAM) or PROGRAM == proved.PROVED
UPGRADE = [os.path.join(TOP, 'jac')] if IS_SCRIPT else [
    sys.executable, os.path.join(TOP, 'tools', 'store_copies.py'), 'upgrade', PROGRAM]
FAULT_PLACE = os.path.join(TOP, 'tools', 'fault_place.py')
KILLS, UPGRADES = (50, 100) if WORDS.kills is None else (WORDS.kills, WORDS.kills)
CALENDAR = b'''(app (viewer User)
 (model User (fields (name text)))
 (model Event (fields (title text) (host (ref User)) (open bool))
  (group (guards (title "private"))
   (policy (or (get Event open this) (eq (get Event host this) viewer)))))
%s
 (view post "/join" (params (name text))
  (create u User (set (name name)) (put u)))
 (view post "/add" (params (title text) (open bool))
  (create e Event (set (title title) (host viewer) (open open)) (put e)))
 (view get "/names" (params)
  (for (from ((u User)) true key) (put (get User name u)) (put ";")))
 (view get "/count" (params) (put (count (from ((u User)) true key))))
 (view get "/list" (params)
  (for (from ((e Event)) true key) (put (get Event title e)) (put ";"))))
'''
PLAIN = CALENDAR % b''
WITH_NOTES = CALENDAR % b' (model Note (fields (body text)))'
SCHEMA = '(schema (model User (fields (name text)) (groups))' \
         ' (model Event (fields (title text) (host (ref User)) (open bool)) (groups (title)))%s)'
# a reminder is made around each event, only an event's host is shown its drafts, and one group guards two fields
SHAPED = (CALENDAR % b''' (model Remind nested (fields (about (ref Event))))
 (model Draft (fields (of (ref Event)))
  (group hides (policy (eq (get Event host (get Draft of this)) viewer))))
 (model Badge (fields (front text) (back text))
  (group (guards (front "") (back "")) (policy (live viewer))))''').rstrip()[:-1] + b'''
 (view post "/remind" (params)
  (for (from ((e Event)) true key) (create r Remind (set (about e)))))
 (view post "/draft" (params (e (ref Event))) (create d Draft (set (of e)))))
'''
SHAPES = ' (model Remind nested (fields (about (ref Event))) (groups))' \
         ' (model Draft (fields (of (ref Event))) (groups hides))' \
         ' (model Badge (fields (front text) (back text)) (groups (front back)))'
STORED = SCHEMA % ''
WANTED = SCHEMA % ' (model Note (fields (body text)) (groups))'
STORY = b'ask - POST "/join" "name=Ann"\nask - POST "/join" "name=Bob"\nask 4096 POST "/add" "title=raid&open=0"\n'
TOLD = b'reply 200 "" "4096"\nreply 200 "" "8192"\nreply 200 "" "12289"\n'
NAMES = b'ask - GET "/names" ""\n'
LIST = b'ask 4096 GET "/list" ""\nask 8192 GET "/list" ""\n'
LISTED = b'reply 200 "" "raid;"\nreply 200 "" "private;"\n'
# the next version: events get a place, names are shown only to their bearers, and there is one more model
NEXT = WITH_NOTES.replace(b'(open bool))', b'(open bool) (place text))').replace(
    b'(fields (name text)))', b'(fields (name text)) (group (guards (name "someone")) (policy (eq this viewer))))')
RENEWED = '(schema (model User (fields (name text)) (groups (name)))' \
          ' (model Event (fields (title text) (host (ref User)) (open bool) (place text)) (groups (title)))' \
          ' (model Note (fields (body text)) (groups)))'
LAST = 2 ** 40
# What is done to a store so that it is refused, and what the message then says.
EXPLAINED = {
    'auto_vacuum': (['PRAGMA journal_mode = delete', 'PRAGMA auto_vacuum = FULL', 'VACUUM'], 'd is a database with auto_vacuum'),
    'number 0': (['UPDATE meta SET number = 0'], 'the number of d is 0, and its records ask for 4 at least'),
    'a number that is too low': (['UPDATE meta SET number = 2'], 'the number of d is 2, and its records ask for 4'),
    'a number past the last': (['UPDATE meta SET number = %d' % (LAST + 1)], '2^40 is the last. Put a backup'),
    'no number': (['DELETE FROM meta'], 'the table meta of d has no row'),
    'a second row': (["INSERT INTO meta VALUES(1, 4, 'x')"], 'the table meta of d has 2 rows'),
    'an index more': (['CREATE INDEX alts ON rec(alt)'], 'd has the index alts besides the tables of a store'),
    'statistics': (['ANALYZE'], 'd has the table sqlite_stat1, which an ANALYZE made'),
    'tables of another program': (['DROP TABLE meta', 'DROP TABLE rec', 'CREATE TABLE notes(body TEXT)'],
                                  'd is a database of another program: it has the table notes'),
}


class Folder:
    """A folder with a store `d`, in which the program is run."""

    def __init__(self, folder):
        self.folder = folder
        self.store = os.path.join(folder, 'd')

    def write(self, name, data):
        with open(os.path.join(self.folder, name), 'wb') as handle:
            handle.write(data)

    def replay(self, events, app=PLAIN, store='d'):
        """Replays events over the store. Returns the status and the output."""
        self.write('a', app)
        self.write('e', events)
        done = subprocess.run([PROGRAM, 'replay', 'a', 'e', '--db', store], cwd=self.folder, timeout=120,
                              stdin=subprocess.DEVNULL, stdout=subprocess.PIPE)
        return done.returncode, done.stdout

    def run(self, *words):
        """Runs any other command. Returns the status and the output."""
        done = subprocess.run([PROGRAM, *words], cwd=self.folder, timeout=120, stdin=subprocess.DEVNULL,
                              stdout=subprocess.PIPE)
        return done.returncode, done.stdout

    def told(self):
        """Returns what a replay over the store prints on standard error."""
        self.write('a', PLAIN)
        self.write('e', NAMES)
        done = subprocess.run([PROGRAM, 'replay', 'a', 'e', '--db', 'd'], cwd=self.folder, timeout=120,
                              stdin=subprocess.DEVNULL, stdout=subprocess.PIPE, stderr=subprocess.PIPE)
        return done.stderr

    def read(self, query):
        """Returns the result of a query on a copy of the store. So it is the program itself that recovers what a run
        left."""
        with tempfile.TemporaryDirectory() as copies:
            for file in glob.glob(self.store + '*'):
                shutil.copy(file, copies)
            with contextlib.closing(sqlite3.connect(os.path.join(copies, 'd'))) as database:
                return database.execute(query).fetchall()

    def alter(self, *texts):
        with contextlib.closing(sqlite3.connect(self.store)) as database:
            for text in texts:
                database.execute(text)
            database.commit()

    def content(self):
        """Returns all that the store holds, and which tables it has."""
        tables = self.read('SELECT name, sql FROM sqlite_master ORDER BY name')
        return tables, [self.read('SELECT * FROM %s' % name) for name, sql in tables if sql and 'TABLE' in sql]


def expect(name, have, want):
    return None if have == want else '%s: %r, not %r' % (name, have, want)


def number(value, size=16):
    return value.to_bytes(size, 'big')


def text(value):
    return b'\x02' + number(len(value), 8) + value


def guard(*pairs):
    return b''.join(number(label) + bytes([shown]) for label, shown in pairs)


def kept(at):
    """Checks two runs over one store. The second has the records of the first, and continues with its number."""
    yield expect('a new store', at.replay(STORY), (0, TOLD))
    again = b'ask - POST "/join" "name=Cid"\n' + NAMES + LIST
    yield expect('a store again', at.replay(again), (0, b'reply 200 "" "16384"\nreply 200 "" "Ann;Bob;Cid;"\n' + LISTED))
    yield expect('and once more', at.replay(NAMES), (0, b'reply 200 "" "Ann;Bob;Cid;"\n'))


def spelled(at):
    """Checks the rows of a store, byte for byte."""
    at.replay(STORY)
    yield expect('the table meta', at.read('SELECT k, number, schema FROM meta'), [(0, 4, STORED)])
    users = [(0, number(4096), 0, b'', text(b'Ann')), (0, number(8192), 0, b'', text(b'Bob'))]
    rest = b'\x04\x01' + number(4096) + b'\x03\x00'
    titles = {guard((98312, True)): text(b'raid') + rest, guard((98312, False)): text(b'private') + rest}
    rows = at.read('SELECT model, jid, alt, jvars, body FROM rec ORDER BY model, jid, alt')
    yield expect('rows of users', rows[:2], users)
    yield expect('rows of events', [row[:3] for row in rows[2:]], [(1, number(12289), 0), (1, number(12289), 1)])
    yield expect('what is shown and hidden', dict((row[3], row[4]) for row in rows[2:]), titles)


def shaped(at):
    """Checks that a record of a loop is one row without a guard, although the loop's record has two alternatives,
    and that the number of the loop's record precedes its own in its id. Also checks that a hidden record has no
    public row."""
    at.replay(STORY + b'ask - POST "/remind" ""\nask 4096 POST "/draft" "e=12289"\n', app=SHAPED)
    yield expect('the schema of shapes', at.read('SELECT schema FROM meta'), [(SCHEMA % SHAPES,)])
    event = b'\x04\x01' + number(12289)
    yield expect('a record of a loop', at.read('SELECT jid, alt, jvars, body FROM rec WHERE model = 2'),
                 [(number(12289 * 2 ** 52 + 16386), 0, b'', event)])
    yield expect('a hidden record', at.read('SELECT jid, alt, jvars, body FROM rec WHERE model = 3'),
                 [(number(20483), 0, guard((163864, True)), event)])


def made_by_hand(at):
    """Checks that a store that Python made can be used."""
    at.alter(
        'CREATE TABLE meta(k INTEGER PRIMARY KEY, number INTEGER NOT NULL, schema TEXT NOT NULL) STRICT',
        'CREATE TABLE rec(model INTEGER NOT NULL, jid BLOB NOT NULL, alt INTEGER NOT NULL, jvars BLOB NOT NULL,'
        ' body BLOB NOT NULL, PRIMARY KEY(model, jid, alt)) STRICT',
        "INSERT INTO meta VALUES(0, 7, '%s')" % STORED,
        "INSERT INTO rec VALUES(0, x'%s', 0, x'', x'%s')" % (number(4096).hex(), text(b'Dot').hex()))
    events = NAMES + b'ask - POST "/join" "name=Eve"\n' + NAMES
    out = b'reply 200 "" "Dot;"\nreply 200 "" "28672"\nreply 200 "" "Dot;Eve;"\n'
    yield expect('a store made by hand', at.replay(events), (0, out))


def damaged(at):
    """Checks stores with an invalid row. Whatever is requested, they are refused and left as they were."""
    event = "x'%s'" % number(12289).hex()
    spoils = {
        'a body that lacks its last byte': "UPDATE rec SET body = x'%s' WHERE model = 0" % text(b'Ann')[:-1].hex(),
        'a body of a byte more': "UPDATE rec SET body = x'%s00' WHERE model = 0" % text(b'Ann').hex(),
        'a body that is no text': "UPDATE rec SET body = x'%s' WHERE model = 0" % text(b'\xff').hex(),
        'a guard that does not rise': "UPDATE rec SET jvars = x'%s' WHERE model = 0" % guard((8, 1), (8, 1)).hex(),
        'a guard of half a label': "UPDATE rec SET jvars = x'00' WHERE model = 0",
        'an id of another model': "UPDATE rec SET jid = x'%s' WHERE model = 0 AND jid = x'%s'" % (
            number(4097).hex(), number(4096).hex()),
        'an id of 15 bytes': "UPDATE rec SET jid = x'%s' WHERE model = 0 AND jid = x'%s'" % (
            number(4096)[1:].hex(), number(4096).hex()),
        'a wide id of a model outside of loops': "UPDATE rec SET jid = x'%s' WHERE jid = x'%s'" % (
            number(4096 * 2 ** 52 + 4096).hex(), number(4096).hex()),
        'an id that no request made yet': "UPDATE rec SET jid = x'%s' WHERE jid = x'%s'" % (
            number(4 * 4096).hex(), number(4096).hex()),
        'a model beyond the schema': 'UPDATE rec SET model = 2 WHERE model = 0',
        'a model below the first': 'UPDATE rec SET model = -1 WHERE model = 0',
        'an alternative left out': 'DELETE FROM rec WHERE jid = %s AND alt = 0' % event,
        'an alternative from 1 on': "UPDATE rec SET alt = 1 WHERE model = 0",
        'alternatives that hold together': "UPDATE rec SET jvars = x'' WHERE jid = %s AND alt = 1" % event,
    }
    for name, spoil in spoils.items():
        with fresh() as other:
            other.replay(STORY)
            other.alter(spoil)
            yield from left_alone(other, name, NAMES + LIST)
    with fresh() as other:
        other.replay(STORY)
        other.alter(spoils['a guard of half a label'])
        yield expect('the row that is wrong', other.told(), b'jac: d: row 1 of rec, by model, jid and alt,'
                     b' can\'t stand there\n')


def left_alone(other, name, events):
    """Checks that the store is refused, that its content stays, and that nothing is left beside it."""
    before, beside = other.content(), sorted(os.listdir(other.folder))
    yield expect(name, other.replay(events), (6, b'store fault\n'))
    yield expect(name + ', afterwards', other.content(), before)
    yield expect(name + ', beside it', sorted(os.listdir(other.folder)), sorted({*beside, 'a', 'e'}))


def refused(at):
    """Checks stores that can't be attached. They are left as they were."""
    spoils = {
        'number 0': 'UPDATE meta SET number = 0',
        'a number past the last': 'UPDATE meta SET number = %d' % (LAST + 1),
        'no number': 'DELETE FROM meta',
        'another key': 'UPDATE meta SET k = 1',
        'a second row': "INSERT INTO meta VALUES(1, 4, 'x')",
        'another form': 'ALTER TABLE meta RENAME COLUMN number TO counted',
        'an index more': 'CREATE INDEX alts ON rec(alt)',
        'a view': 'CREATE VIEW names AS SELECT body FROM rec',
    }
    for name, spoil in spoils.items():
        with fresh() as other:
            other.replay(STORY)
            other.alter(spoil)
            yield from left_alone(other, name, NAMES)
    yield expect('a folder that is missing', at.replay(NAMES, store='no/d'), (6, b'store fault\n'))
    at.write('d', b'no database\n' * 1000)
    yield expect('a file that is no database', at.replay(NAMES), (6, b'store fault\n'))


def missing(at):
    """Checks that a dump of a store that doesn't exist says so, and makes no store."""
    at.write('a', PLAIN)
    done = subprocess.run([PROGRAM, 'dump', 'a', '-', '--db', 'd'], cwd=at.folder, timeout=120, stdin=subprocess.DEVNULL,
                          stdout=subprocess.PIPE, stderr=subprocess.PIPE)
    yield expect('a dump of no store', (done.returncode, done.stdout), (6, b'store fault\n'))
    yield expect('what a dump of no store says', done.stderr, b'jac: d: there is no such file\n')
    yield expect('what a dump of no store leaves', sorted(os.listdir(at.folder)), ['a'])


def full_pipe():
    """Returns the two ends of a pipe that takes no more bytes."""
    reads, writes = os.pipe()
    os.set_blocking(writes, False)
    with contextlib.suppress(BlockingIOError):
        while True:
            os.write(writes, b'.' * 4096)
    os.set_blocking(writes, True)
    return reads, writes


def until(holds, seconds=20):
    """Waits until `holds()` is true. Returns whether it became true in time."""
    end = time.monotonic() + seconds
    while time.monotonic() < end:
        if holds():
            return True
        time.sleep(0.01)
    return False


def is_waiting_to_write(run):
    """Returns whether the process is waiting at a write to its full pipe, by Linux's name for that place."""
    with open('/proc/%d/wchan' % run.pid) as place, open('/proc/%d/stat' % run.pid) as stat:
        return 'pipe_write' in place.read() or stat.read().rpartition(')')[2].split()[0] == 'S'


def refused_beside_a_serve(at, words):
    """Checks a run that is refused because the store doesn't exist, and that can't write its last line until another
    run has made the store and answered joins. The refused run ends, and the other run is killed. What the other run
    answered must be kept."""
    at.write('a', PLAIN)
    at.write('n', NEXT)
    name, form = 'beside a refused %s: ' % words[0], {'Content-Type': 'application/x-www-form-urlencoded'}
    reads, writes = full_pipe()
    run = subprocess.Popen([PROGRAM, *words, '--db', 'd'], cwd=at.folder, stdin=subprocess.DEVNULL, stdout=writes,
                           stderr=subprocess.DEVNULL)
    os.close(writes)
    yield expect(name + 'it waits', until(lambda: is_waiting_to_write(run)) and run.poll(), None)
    with served(PROGRAM, 'a', 7, at.folder, ('--db', 'd')) as serve:
        for turn in range(6):
            line = http.client.HTTPConnection('127.0.0.1', serve.port, timeout=10)
            line.request('POST', '/join', b'name=Ann', form)
            yield expect(name + 'a join', line.getresponse().status, 200)
            if turn == 4:
                out = b''
                while len(out) < 2 ** 22 and (piece := os.read(reads, 2 ** 16)):
                    out += piece
                yield expect(name + 'its end', (run.wait(20), out.lstrip(b'.')), (6, b'store fault\n'))
        yield expect(name + 'the log', os.path.exists(at.store + '-wal'), True)
        serve.run.kill()
        serve.run.wait()
    os.close(reads)
    yield expect(name + 'what is kept', at.replay(b'ask - GET "/count" ""\n'), (0, b'reply 200 "" "6"\n'))


def refused_dump(at):
    """Checks that a dump that is refused leaves the log of a run that began meanwhile."""
    return refused_beside_a_serve(at, ('dump', 'a', '-'))


def refused_upgrade(at):
    """Checks the same for an upgrade."""
    return refused_beside_a_serve(at, ('upgrade', 'a', 'n'))


def held(at):
    """Checks that the message for a store that another program holds differs from the one for a damaged store."""
    at.replay(STORY)
    with contextlib.closing(sqlite3.connect(at.store)) as database:
        database.execute('BEGIN IMMEDIATE')
        yield expect('a store that is held', at.told(), b'jac: d: another program has the file open\n')
    yield expect('the store afterwards', at.replay(NAMES), (0, b'reply 200 "" "Ann;Bob;"\n'))


def full(at):
    """Checks that a store at its last number can be read, and takes nothing more."""
    at.replay(STORY)
    at.alter('UPDATE meta SET number = %d' % LAST)
    out = b'reply 200 "" "Ann;Bob;"\nreply 507 "" "507 Insufficient Storage\\n"\n'
    yield expect('the last number', at.replay(NAMES + b'ask - POST "/join" "name=Cid"\n'), (0, out))


def of_another(at):
    """Checks that a store of another application is reported and left alone."""
    at.replay(STORY)
    before = at.content()
    line = ('other schema: %s | %s\n' % (STORED, WANTED)).encode()
    yield expect('another schema', at.replay(NAMES, app=WITH_NOTES), (9, line))
    yield expect('another schema, afterwards', at.content(), before)
    at.alter('UPDATE meta SET number = 0')
    yield expect('another schema beside a wrong number', at.replay(NAMES, app=WITH_NOTES), (9, line))
    at.alter('UPDATE meta SET number = 4')
    yield expect('its own again', at.replay(NAMES), (0, b'reply 200 "" "Ann;Bob;"\n'))


def of_another_program(at):
    """Checks that a database with tables of another program is refused and left alone."""
    at.alter('CREATE TABLE notes(body TEXT)', "INSERT INTO notes VALUES('seen')")
    before = at.content()
    yield expect('tables of another program', at.replay(NAMES), (6, b'store fault\n'))
    yield expect('tables of another program, afterwards', at.content(), before)


def explained(at, name):
    """Reads what is said about a store that the program refused, into `at.said`. Checks that its file and the files
    beside it stay as they are."""
    at.write('a', PLAIN)
    at.write('e', NAMES)
    status = subprocess.run([PROGRAM, 'replay', 'a', 'e', '--db', 'd'], cwd=at.folder, timeout=120,
                            stdin=subprocess.DEVNULL, stdout=subprocess.DEVNULL, stderr=subprocess.DEVNULL).returncode
    yield expect(name + ', refused', status, 6)
    before, files = bytes_of(at.store), sorted(os.listdir(at.folder))
    done = subprocess.run([sys.executable, FAULT_PLACE, '--status', '6', PROGRAM, 'replay', 'a', 'e', '--db', 'd'], cwd=at.folder,
                          timeout=120, stdin=subprocess.DEVNULL, stdout=subprocess.PIPE, stderr=subprocess.PIPE)
    at.said = done.stderr.decode()
    yield expect(name + ', on standard output', done.stdout, b'')
    yield expect(name + ', what it leaves', (bytes_of(at.store), sorted(os.listdir(at.folder))), (before, files))


def explained_refusals(at):
    """Checks that standard error says for each refused store what it is, and that the suggested command makes the store
    usable again."""
    for name, (spoils, want) in EXPLAINED.items():
        with fresh() as other:
            other.replay(STORY)
            other.alter(*spoils)
            yield from explained(other, name)
            yield None if want in other.said else '%s: %r is not in %r' % (name, want, other.said)
            command = re.search(r"sqlite3 d '([^']*)'", other.said)
            if command:
                other.alter(*command[1].split(';'))
                yield expect(name + ', after ' + command[1], other.replay(NAMES), (0, b'reply 200 "" "Ann;Bob;"\n'))
    at.write('d', b'no database\n' * 1000)
    yield from explained(at, 'no database')
    yield expect('what is said of no database', 'd is no database of SQLite' in at.said, True)


HOLD = "import sqlite3, sys; held = sqlite3.connect('d'); held.execute('BEGIN IMMEDIATE'); print(flush=True); sys.stdin.read()"


def explained_holder(at):
    """Checks that the message names the process that has a store open. Another process holds it, since a process that
    closes a file loses its own locks on it."""
    at.replay(STORY)
    holder = subprocess.Popen([sys.executable, '-c', HOLD], cwd=at.folder, stdin=subprocess.PIPE, stdout=subprocess.PIPE)
    with holder:
        holder.stdout.readline()
        yield from explained(at, 'a store that is held')
        yield expect('who holds a store', at.said.startswith('jac: d is open in the process %d (' % holder.pid), True)
        holder.stdin.close()


def explained_journal(at):
    """Checks that a change that another program left unfinished is reported, and that the suggested command undoes
    it."""
    at.replay(STORY)
    at.alter('PRAGMA journal_mode = delete')
    with fresh() as other, contextlib.closing(sqlite3.connect(at.store)) as database:
        database.execute('PRAGMA cache_size = 1')
        database.execute('BEGIN')
        database.execute("UPDATE rec SET body = zeroblob(100000)")
        for end in '', '-journal':
            shutil.copy(at.store + end, other.store + end)
        yield from explained(other, 'a journal')
        yield None if 'd-journal is of a change that another program' in other.said else 'a journal: %r' % other.said
        other.alter(*re.search(r"sqlite3 d '([^']*)'", other.said)[1].split(';'))
        yield expect('a journal that was played back', other.replay(NAMES), (0, b'reply 200 "" "Ann;Bob;"\n'))


def renamed(at):
    """Checks that a store whose schema was rewritten as USING says belongs to the application with the other names."""
    at.replay(STORY)
    app = PLAIN.replace(b'name', b'called').replace(b'Event', b'Meeting')
    at.write('n', app)
    yield expect('another name', at.replay(b'ask - GET "/calleds" ""\n', app=app)[0], 9)
    done = subprocess.run([sys.executable, os.path.join(TOP, 'tools', 'schema.py'), 'n'], cwd=at.folder,
                          stdin=subprocess.DEVNULL, stdout=subprocess.PIPE)
    at.alter("UPDATE meta SET schema = '%s'" % done.stdout.decode().rstrip('\n'))
    yield expect('after a rename', at.replay(b'ask - GET "/calleds" ""\n', app=app), (0, b'reply 200 "" "Ann;Bob;"\n'))
    for name, text in (('shapes', SHAPED), ('the calendar', PLAIN), ('the next version', NEXT)):
        with fresh() as other:
            other.replay(NAMES, app=text)
            done = subprocess.run([sys.executable, os.path.join(TOP, 'tools', 'schema.py'), 'a'], cwd=other.folder,
                                  stdin=subprocess.DEVNULL, stdout=subprocess.PIPE)
            yield expect('the schema of ' + name, [(done.stdout.decode()[:-1],)], other.read('SELECT schema FROM meta'))


def taken_out(at):
    """Checks that an invalid row is found and removed by the commands of USING, and that the store can then be used
    again."""
    at.replay(STORY)
    at.alter("UPDATE rec SET jvars = x'00' WHERE model = 1 AND alt = 0")
    row = re.search(rb'row (\d+) of rec', at.told())
    model, jid, alt = at.read('SELECT model, hex(jid), alt FROM rec ORDER BY model, jid, alt LIMIT 1 OFFSET %d' % (
        int(row[1]) - 1))[0]
    yield expect('the row', (model, jid, alt), (1, number(12289).hex().upper(), 0))
    at.alter("DELETE FROM rec WHERE model = %d AND jid = x'%s' AND alt = %d" % (model, jid, alt),
             "UPDATE rec SET alt = alt - 1 WHERE model = %d AND jid = x'%s' AND alt > %d" % (model, jid, alt))
    status, out = at.replay(NAMES + LIST)
    yield expect('without the row', (status, out.count(b'reply 200')), (0, 3))


def renewed(at):
    """Checks that one request stores each public value anew, as USING says."""
    at.replay(STORY)
    text = PLAIN.replace(b'"private"', b'"busy"').rstrip()[:-1] + b"""
 (view post "/renew" (params)
  (for (from ((e Event)) true key) (update Event e (set (title (get Event title e)))))))
"""
    yield expect('before', at.replay(LIST, app=text), (0, LISTED))
    yield expect('renewed', at.replay(b'ask - POST "/renew" ""\n' + LIST, app=text),
                 (0, b'reply 200 "" ""\n' + LISTED.replace(b'private', b'busy')))


def replay_killed(at, pause):
    """Replays many joins and kills the run after a while. Returns how many were answered."""
    at.write('a', PLAIN)
    at.write('e', b'ask - POST "/join" "name=Ann"\n' * 20000)
    with open(os.path.join(at.folder, 'out'), 'wb') as out:
        run = subprocess.Popen([PROGRAM, 'replay', 'a', 'e', '--db', 'd'], cwd=at.folder, stdin=subprocess.DEVNULL,
                               stdout=out)
        time.sleep(pause)
        run.send_signal(signal.SIGKILL)
        run.wait()
    with open(os.path.join(at.folder, 'out'), 'rb') as out:
        return out.read().count(b'\n')


def serve_killed(at, pause):
    """Sends many joins on one connection and kills the run after a while. Returns how many were answered."""
    at.write('a', PLAIN)
    answered, form = 0, {'Content-Type': 'application/x-www-form-urlencoded'}
    with served(PROGRAM, 'a', 1, at.folder, ('--db', 'd')) as run:
        line = http.client.HTTPConnection('127.0.0.1', run.port, timeout=10)
        # Another process sends the signal, so that it may come at any point of a request.
        killer = subprocess.Popen(['sh', '-c', 'sleep %f; kill -9 %d' % (pause, run.run.pid)])
        with contextlib.suppress(OSError, http.client.HTTPException):
            while True:
                line.request('POST', '/join', b'name=Ann', form)
                if line.getresponse().read():
                    answered += 1
        killer.wait()
    return answered


def killed(at):
    """Checks runs over one store that are killed at a random moment. Each answered join must be kept, at most one more,
    and no record in part."""
    ways = replay_killed, serve_killed
    known, randomness, deadline = 0, random.Random(7), time.monotonic() + 400
    for turn in range(KILLS):
        if time.monotonic() > deadline:
            yield 'killed runs: only %d of %d within the time' % (turn, KILLS)
            return
        way = ways[turn % len(ways)]
        answered = way(at, randomness.uniform(0.01, 0.4))
        last = at.read('SELECT number FROM meta')[0][0] - 1 if at.read('SELECT name FROM sqlite_master') else 0
        if not known + answered <= last <= known + answered + 1:
            yield '%s: %d joins were kept and %d answered, and %d are kept' % (way.__name__, known, answered, last)
        rows = at.read('SELECT model, jid, alt, jvars, body FROM rec ORDER BY jid') if last else []
        want = [(0, number(join * 4096), 0, b'', text(b'Ann')) for join in range(1, last + 1)]
        if rows != want:
            yield '%s: %d joins, and not their rows' % (way.__name__, last)
        known = last
    yield expect('after all', at.replay(b'ask - GET "/count" ""\n'), (0, b'reply 200 "" "%d"\n' % known))


def upgraded(at):
    """Checks the rows of a store that was upgraded, byte for byte. A store whose upgrade is refused must be left
    alone."""
    at.write('n', NEXT)
    at.replay(STORY)
    yield expect('an upgrade', at.run('upgrade', 'a', 'n', '--db', 'd'), (0, b'upgraded 3 records\n'))
    yield expect('the table meta, upgraded', at.read('SELECT k, number, schema FROM meta'), [(0, 4, RENEWED)])
    rows = at.read('SELECT model, jid, jvars, body FROM rec')
    want = []
    for user, name in (4096, b'Ann'), (8192, b'Bob'):
        want += [(0, number(user), guard((user * 8, True)), text(name)),
                 (0, number(user), guard((user * 8, False)), text(b'someone'))]
    rest = b'\x04\x01' + number(4096) + b'\x03\x00' + text(b'')
    want += [(1, number(12289), guard((98312, True)), text(b'raid') + rest),
             (1, number(12289), guard((98312, False)), text(b'private') + rest)]
    yield expect('the rows, upgraded', sorted(rows), sorted(want))
    before = at.content()
    line = ('other schema: %s | %s\n' % (RENEWED, STORED)).encode()
    yield expect('an upgrade from another schema', at.run('upgrade', 'a', 'n', '--db', 'd'), (9, line))
    yield expect('an upgrade back', at.run('upgrade', 'n', 'a', '--db', 'd'), (11, b'upgrade: group User 0\n'))
    yield expect('upgrades that are refused, afterwards', at.content(), before)
    yield expect('an upgrade in no folder', at.run('upgrade', 'a', 'n', '--db', 'no/d'), (6, b'store fault\n'))
    at.write('text', b'no database\n' * 1000)
    yield expect('an upgrade of no database', at.run('upgrade', 'a', 'n', '--db', 'text'), (6, b'store fault\n'))
    with fresh() as other, open('/dev/full', 'wb') as full:
        other.write('n', NEXT)
        other.replay(STORY)
        done = subprocess.run([PROGRAM, 'upgrade', 'a', 'n', '--db', 'd'], cwd=other.folder, timeout=120,
                              stdin=subprocess.DEVNULL, stdout=full, stderr=subprocess.DEVNULL)
        yield expect('an upgrade that can not be told', done.returncode, 5)
        yield expect('an upgrade that was not told', other.run('dump', 'n', '-', '--db', 'd')[1][-9:], b'number 4\n')
    yield expect('an upgrade once more', at.run('upgrade', 'n', 'n', '--db', 'd'), (0, b'upgraded 3 records\n'))
    at.alter("UPDATE rec SET body = x'%s' WHERE model = 1" % text(b'raid').hex())
    before = at.content()
    yield expect('an upgrade of damaged rows', at.run('upgrade', 'n', 'n', '--db', 'd'), (6, b'store fault\n'))
    yield expect('an upgrade of damaged rows, afterwards', at.content(), before)


def upgrade_with_a_copy(at, **given):
    """Upgrades a store by the script. Returns the status, the output and standard error."""
    done = subprocess.run([*UPGRADE, 'upgrade', 'a', 'n', '--db', 'd'], cwd=at.folder, timeout=120,
                          stdin=subprocess.DEVNULL, stdout=subprocess.PIPE, stderr=subprocess.PIPE, **given)
    return done.returncode, done.stdout, done.stderr


def copies_in(at):
    return sorted(name for name in os.listdir(at.folder) if name.startswith('d.before-upgrade-'))


def bytes_of(path):
    """Returns what a file holds, or None if it doesn't exist."""
    if not os.path.exists(path):
        return None
    with open(path, 'rb') as file:
        return file.read()


def no_more_bytes():
    """Prevents the process from writing any byte into files."""
    signal.signal(signal.SIGXFSZ, signal.SIG_IGN)
    resource.setrlimit(resource.RLIMIT_FSIZE, (0, 0))


def copied_before(at):
    """Checks that an upgrade by the script keeps a copy of the store under the first free name. The copy has what was
    only in the store's log."""
    at.write('n', NEXT)
    at.write('a', PLAIN)
    yield expect('no store', upgrade_with_a_copy(at)[:2], (6, b'store fault\n'))
    yield expect('no store, no copy', (copies_in(at), os.path.exists(at.store)), ([], False))
    with served(PROGRAM, 'a', 2, at.folder, ('--db', 'd')) as serve:
        line = http.client.HTTPConnection('127.0.0.1', serve.port, timeout=10)
        line.request('POST', '/join', b'name=Ann', {'Content-Type': 'application/x-www-form-urlencoded'})
        yield expect('a join', line.getresponse().status, 200)
        yield expect('a store that is served', upgrade_with_a_copy(at)[:2], (6, b'store fault\n'))
        yield expect('a store that is served, no copy', copies_in(at), [])
        serve.run.kill()
        serve.run.wait()
    os.chmod(at.store, 0o640)
    old = at.run('dump', 'a', '-', '--db', 'd')
    at.write('d.before-upgrade-1', b'of somebody else')
    yield expect('no room for a copy', upgrade_with_a_copy(at, preexec_fn=no_more_bytes)[0], 6)
    yield expect('no room, no copy', copies_in(at), ['d.before-upgrade-1'])
    yield expect('no room, the store', at.run('dump', 'a', '-', '--db', 'd'), old)
    done = upgrade_with_a_copy(at)
    yield expect('an upgrade with a copy', done[:2], (0, b'upgraded 1 records\n'))
    yield expect('where the copy is', b'jac: a copy of d from before the upgrade is d.before-upgrade-2\n' in done[2], True)
    yield expect('the copy', at.run('dump', 'a', '-', '--db', 'd.before-upgrade-2'), old)
    yield expect('who may read it', [os.stat(path).st_mode & 0o777 for path in glob.glob(at.store + '.before-upgrade-2')],
                 [0o640])
    yield expect('the store', at.run('dump', 'n', '-', '--db', 'd')[1], b'User 4096 name="someone"\nnumber 2\n')


def copied_with_its_log(at):
    """Checks that the copy has what a killed run left only in the log, byte for byte."""
    at.write('n', NEXT)
    at.write('a', PLAIN)
    with served(PROGRAM, 'a', 2, at.folder, ('--db', 'd')) as serve:
        line = http.client.HTTPConnection('127.0.0.1', serve.port, timeout=10)
        line.request('POST', '/join', b'name=Ann', {'Content-Type': 'application/x-www-form-urlencoded'})
        yield expect('a join in the log', line.getresponse().status, 200)
        serve.run.kill()
        serve.run.wait()
    before = {end: bytes_of(at.store + end) for end in ('', '-wal')}
    yield expect('a log', bool(before['-wal']), True)
    yield expect('an upgrade with a log', upgrade_with_a_copy(at)[:2], (0, b'upgraded 1 records\n'))
    for end, was in before.items():
        yield expect('a copy with its log, d' + end, bytes_of(at.store + '.before-upgrade-1' + end) == was, True)


def piped(at):
    """Checks that the script refuses a store that is a pipe, and doesn't wait for a writer."""
    at.write('a', PLAIN)
    os.mkfifo(at.store)
    for words in (('--db', 'd'), ('--db=d',)) if IS_SCRIPT else ():
        done = subprocess.run(['timeout', '20', *UPGRADE, 'dump', 'a', '-', *words], cwd=at.folder,
                              stdin=subprocess.DEVNULL, stdout=subprocess.PIPE, stderr=subprocess.PIPE)
        yield expect('a pipe, ' + ' '.join(words), (done.returncode, done.stdout), (6, b'store fault\n'))


def many(at, count):
    """Makes a store of `count` records, half of them closed events. Returns what dumps print before and after an
    upgrade if no label is shown."""
    users = [4096 * join for join in range(1, count // 2 + 1)]
    events = [4096 * add + 1 for add in range(count // 2 + 1, count + 1)]
    rows = [(0, number(user), 0, b'', text(b'Ann %d' % user)) for user in users]
    for user, event in zip(users, events):
        rest = b'\x04\x01' + number(user) + b'\x03\x00'
        rows += [(1, number(event), 0, guard((event * 8, False)), text(b'private') + rest),
                 (1, number(event), 1, guard((event * 8, True)), text(b'raid %d' % event) + rest)]
    at.replay(b'')
    with contextlib.closing(sqlite3.connect(at.store)) as database:
        database.executemany('INSERT INTO rec VALUES(?, ?, ?, ?, ?)', rows)
        database.execute('UPDATE meta SET number = %d' % (count + 1))
        database.commit()
    at.write('n', NEXT)
    last, event = ['number %d\n' % (count + 1)], 'Event %d title="private" host=%d open=false'
    old = ['User %d name="Ann %d"\n' % (user, user) for user in users]
    old += [event % pair + '\n' for pair in zip(events, users)]
    new = ['User %d name="someone"\n' % user for user in users]
    new += [event % pair + ' place=""\n' for pair in zip(events, users)]
    return ''.join(old + last).encode(), ''.join(new + last).encode()


def upgrade_killed(at, pause):
    """Begins an upgrade and kills it after a while."""
    run = subprocess.Popen([PROGRAM, 'upgrade', 'a', 'n', '--db', 'd'], cwd=at.folder, stdin=subprocess.DEVNULL,
                           stdout=subprocess.DEVNULL, stderr=subprocess.DEVNULL)
    time.sleep(pause)
    run.send_signal(signal.SIGKILL)
    run.wait()


def upgrades_killed(at):
    """Checks upgrades of 2,000 records that are killed at a random moment. After each, the store must be the old one or
    the new one, by the dumps of both applications."""
    old, new = many(at, 2000)
    saved = os.path.join(at.folder, 'saved')
    os.rename(at.store, saved)

    def begin():
        for file in glob.glob(at.store + '*'):
            os.remove(file)
        shutil.copy(saved, at.store)

    begin()
    began = time.monotonic()
    yield expect('an upgrade of 2,000 records', at.run('upgrade', 'a', 'n', '--db', 'd'), (0, b'upgraded 2000 records\n'))
    whole = time.monotonic() - began
    other = tuple((9, b'other schema: %s | %s\n' % pair) for pair in
                  ((RENEWED.encode(), STORED.encode()), (STORED.encode(), RENEWED.encode())))
    states = {((0, old), other[1]): 'old', (other[0], (0, new)): 'new'}
    found, randomness, deadline = {'old': 0, 'new': 0}, random.Random(11), time.monotonic() + 400 + 3 * UPGRADES * whole
    for turn in range(UPGRADES):
        if time.monotonic() > deadline:
            yield 'killed upgrades: only %d of %d within the time' % (turn, UPGRADES)
            return
        begin()
        upgrade_killed(at, randomness.uniform(0, whole * 1.1))
        dumps = tuple(at.run('dump', app, '-', '--db', 'd') for app in 'an')
        if dumps not in states:
            yield 'a killed upgrade: neither the old store nor the new one: %r' % [(dump[0], dump[1][-80:]) for dump in dumps]
            continue
        found[states[dumps]] += 1
    print('of %d upgrades that were killed %d left the old store and %d the new one' % (UPGRADES, found['old'], found['new']))
    begin()
    yield expect('an upgrade behind all', at.run('upgrade', 'a', 'n', '--db', 'd'), (0, b'upgraded 2000 records\n'))
    yield expect('what it left', at.run('dump', 'n', '-', '--db', 'd'), (0, new))


def upgrade_of_many(at):
    """Checks an upgrade of 10,000 records, and prints how long it took."""
    _, new = many(at, 10000)
    began, used = time.monotonic(), resource.getrusage(resource.RUSAGE_CHILDREN).ru_utime
    yield expect('an upgrade of 10,000 records', at.run('upgrade', 'a', 'n', '--db', 'd'), (0, b'upgraded 10000 records\n'))
    took, used = time.monotonic() - began, resource.getrusage(resource.RUSAGE_CHILDREN).ru_utime - used
    print('10,000 records were upgraded in %.2f seconds, %.2f of a processor' % (took, used))
    yield expect('10,000 records, upgraded', at.run('dump', 'n', '-', '--db', 'd'), (0, new))


@contextlib.contextmanager
def fresh():
    with tempfile.TemporaryDirectory() as folder:
        yield Folder(folder)


def main():
    results = []
    for part in (kept, spelled, shaped, made_by_hand, damaged, refused, missing, refused_dump, refused_upgrade, held, full,
                 of_another, of_another_program, explained_refusals, explained_holder, explained_journal, renamed,
                 taken_out, renewed, killed, upgraded, copied_before, copied_with_its_log,
                 piped, upgrades_killed, upgrade_of_many):
        with fresh() as at:
            results += list(part(at)) or [None]
    for wrong in filter(None, results):
        print('FAILED ' + wrong)
    failed = sum(1 for wrong in results if wrong)
    print('%d passed, %d failed' % (len(results) - failed, failed))
    sys.exit(1 if failed else 0)


if __name__ == '__main__':
    main()
