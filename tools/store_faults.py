"""Says what is wrong with a store that the program refused with `store fault`, and what can be done. The program
decides, and prints a cause of its own. This module reads the file and a copy of it, and changes neither. docs/USING.md,
"A store that is refused", lists the cases, and `checks/stores.py` tests them."""
import contextlib
import fcntl
import os
import shutil
import sqlite3
import struct
import tempfile

MAGIC, HEADER = b'SQLite format 3\0', 100
# the first bytes of a journal that SQLite has to play back
JOURNAL = bytes.fromhex('d9d505f920a163d7')
# the bytes of the header with the largest root page, which are 0 without auto_vacuum
LARGEST_ROOT = slice(52, 56)
LOCK_AT, LOCK_SIZE = 0x40000000, 512
LAST = 2 ** 40
# the most bytes of a store that is copied for a message: after a run was refused, and before a run
MOST_COPIED, MOST_COPIED_BEFORE = 1 << 28, 1 << 24
TABLES = ('meta', 'rec')
BACKUP = 'put a backup in its place (docs/DEPLOYING.md, "Backups")'
TAKE_BACKUP = 'P' + BACKUP[1:]


def told(store, most=MOST_COPIED):
    """What is wrong with a store, or ''. If the store has more than `most` bytes, its tables aren't read."""
    if os.path.isdir(store):
        return '%s is a folder, and a store is a file' % store
    if not os.path.isfile(store):
        return ''
    try:
        with open(store, 'rb') as file:
            header = file.read(HEADER)
            holder = holder_of(file)
    except OSError:
        return ''
    return of_holder(store, holder) or of_header(store, header) or of_journal(store) or of_content(store, most)


def holder_of(file):
    """The id of a process that has locks on the open file, or None."""
    lock = struct.pack('hhqqi4x', fcntl.F_WRLCK, os.SEEK_SET, LOCK_AT, LOCK_SIZE, 0)
    kind, _, _, _, process = struct.unpack('hhqqi4x', fcntl.fcntl(file, fcntl.F_GETLK, lock))
    return process if kind != fcntl.F_UNLCK else None


def of_holder(store, process):
    if process is None:
        return ''
    try:
        with open('/proc/%d/comm' % process, encoding='utf-8', errors='replace') as file:
            name = 'the process %d (%s)' % (process, file.read().strip())
    except OSError:
        name = 'another program'
    return '%s is open in %s, and a store is open in one program at a time. tools/live.py looks at one that is served' % (
        store, name)


def of_header(store, header):
    if not header:
        return ''
    if header[:len(MAGIC)] != MAGIC:
        return '%s is no database of SQLite: it begins with other bytes. Is it the right file? If it was a store, %s' % (
            store, BACKUP)
    if any(header[LARGEST_ROOT]):
        return '%s is a database with auto_vacuum, which is sound, and which jac doesn\'t read. This takes it off: ' \
            'sqlite3 %s \'PRAGMA auto_vacuum = NONE; VACUUM\'' % (store, store)
    return ''


def of_journal(store):
    """A message about a journal that another program left because it ended in the middle of a change, or ''. `jac`
    leaves no journals."""
    try:
        with open(store + '-journal', 'rb') as file:
            is_hot = file.read(len(JOURNAL)) == JOURNAL
    except OSError:
        return ''
    return '%s-journal is of a change that another program began and didn\'t finish. SQLite undoes that change: copy ' \
        'both files, then run sqlite3 %s \'PRAGMA schema_version\' once. Don\'t delete the journal, since the store is ' \
        'damaged without it' % (store, store) if is_hot else ''


def of_content(store, most):
    try:
        with copied(store, most) as copy:
            return copy and of_copy(store, copy) or ''
    except sqlite3.Error as fault:
        return '%s is damaged, SQLite says: %s. %s' % (store, fault, TAKE_BACKUP)
    except OSError:
        return ''


@contextlib.contextmanager
def copied(store, most):
    """A connection to a copy of a store and its log, or None if they are too large."""
    paths = [store + end for end in ('', '-wal') if os.path.isfile(store + end)]
    if sum(map(os.path.getsize, paths)) > most:
        yield None
        return
    with tempfile.TemporaryDirectory(prefix='jac-store-') as folder:
        copy = os.path.join(folder, 'store')
        for path in paths:
            shutil.copyfile(path, copy + path[len(store):])
        with contextlib.closing(sqlite3.connect(copy)) as connection:
            yield connection


def of_copy(store, copy):
    parts = copy.execute('SELECT type, name FROM sqlite_master WHERE sql IS NOT NULL ORDER BY name').fetchall()
    others = ['the %s %s' % part for part in parts if part[1] not in TABLES]
    if others:
        return of_others(store, others, [name for _, name in parts])
    found = copy.execute('PRAGMA integrity_check(1)').fetchone()[0]
    if found != 'ok':
        return '%s is damaged, SQLite says: %s. %s' % (store, ' '.join(found.split()), TAKE_BACKUP)
    return of_meta(store, copy) if len(parts) == len(TABLES) else ''


def of_others(store, others, names):
    if not set(TABLES) & set(names):
        return '%s is a database of another program: it has %s' % (store, some_of(others))
    if set(names) - set(TABLES) == {'sqlite_stat1'}:
        return '%s has the table sqlite_stat1, which an ANALYZE made. This takes it away: sqlite3 %s ' \
            '\'DROP TABLE sqlite_stat1\'' % (store, store)
    return '%s has %s besides the tables of a store. Something other than jac made that: take it away, or %s' % (
        store, some_of(others), BACKUP)


def some_of(others):
    return ', '.join(others[:3]) + (' and %d more' % (len(others) - 3) if len(others) > 3 else '')


def of_meta(store, copy):
    """What is wrong with the one row of the table `meta`, which has the number of the next request, or ''."""
    rows = copy.execute('SELECT k, number FROM meta').fetchall()
    if len(rows) != 1 or rows[0][0] != 0:
        return 'the table meta of %s has %s, where a store has one row, with k = 0. %s' % (
            store, 'no row' if not rows else '%d rows' % len(rows) if len(rows) > 1 else 'a row with k = %s' % rows[0][0],
            TAKE_BACKUP)
    least = least_number(copy)
    if rows[0][1] < least:
        return 'the number of %s is %d, and its records ask for %d at least: the next request has that number, and a ' \
            'number is used once. %s, or, if nothing was removed since its newest record was made, sqlite3 %s ' \
            '\'UPDATE meta SET number = %d\'' % (store, rows[0][1], least, TAKE_BACKUP, store, least)
    if rows[0][1] > LAST:
        return 'the number of %s is %d, and 2^40 is the last. %s' % (store, rows[0][1], TAKE_BACKUP)
    return ''


def least_number(copy):
    """The least number that the next request may have: greater than that of each request that made a record."""
    records = (int.from_bytes(row[0], 'big') for row in copy.execute('SELECT DISTINCT jid FROM rec') if
               isinstance(row[0], bytes))
    return max((record % 2 ** 52 // 4096 for record in records), default=0) + 1
