#!/usr/bin/env python3
"""A warm standby: copies a served store to another machine, restores it there, and tests whether that works.

A timer runs `copy`. It copies the store with backup.py into a folder, under a name with the time. The folder is on this
machine, or (as HOST:FOLDER) on another one, by ssh. `drill` and `restore` run on the machine with the folder, and use
the newest copy in it."""
import argparse
import contextlib
import datetime
import glob
import hashlib
import os
import shlex
import shutil
import sqlite3
import subprocess
import sys
import tempfile
import time

HERE = os.path.dirname(os.path.realpath(__file__))
FORM = 'store-%Y-%m-%dT%H-%M-%S.%fZ.db'
# Stores standard input under the copy's name if its checksum is right, and removes all but the newest copies.
TAKE = '''set -e
cd %(folder)s
trap 'rm -f .%(name)s' EXIT
cat >.%(name)s
echo '%(sum)s  .%(name)s' | sha256sum -c --quiet
sync .%(name)s
mv .%(name)s %(name)s
ls store-*.db | sort -r | tail -n +%(first)d | xargs -r rm --'''


class Refused(Exception):
    """What failed, in words."""


def now():
    return datetime.datetime.now(datetime.timezone.utc)


def copy(words):
    if words.keep < 1:
        raise Refused('at least one copy has to be kept')
    host, colon, folder = words.place.partition(':')
    if not colon:
        host, folder = '', words.place
    with tempfile.TemporaryDirectory() as room:
        made = os.path.join(room, 'store')
        done = subprocess.run([sys.executable, os.path.join(HERE, 'backup.py'), words.store, made], text=True,
                              stdin=subprocess.DEVNULL, stderr=subprocess.PIPE)
        if done.returncode:
            raise Refused('the store can\'t be copied: ' + done.stderr.strip())
        name = now().strftime(FORM)
        with open(made, 'rb') as file:
            script = TAKE % {'folder': shlex.quote(folder), 'name': name, 'first': words.keep + 1,
                             'sum': hashlib.file_digest(file, 'sha256').hexdigest()}
        shell = ['ssh', '-o', 'BatchMode=yes', '--', host, script] if host else ['sh', '-c', script]
        with open(made, 'rb') as file:
            if subprocess.run(shell, stdin=file).returncode:
                raise Refused('%s didn\'t take the copy' % words.place)
    print(name)


def newest(folder):
    """The path of the newest copy, and its age in seconds."""
    names = sorted(glob.glob(os.path.join(folder, 'store-*.db')))
    if not names:
        raise Refused('%s has no copy' % folder)
    made = datetime.datetime.strptime(os.path.basename(names[-1]), FORM).replace(tzinfo=datetime.timezone.utc)
    return names[-1], (now() - made).total_seconds()


def test(path):
    """Tests the whole file with SQLite. Raises `Refused` if it is damaged."""
    with contextlib.closing(sqlite3.connect('file:%s?mode=ro' % path, uri=True)) as base:
        try:
            told = base.execute('PRAGMA integrity_check').fetchall()
        except sqlite3.DatabaseError as error:
            told = error
    if told != [('ok',)]:
        raise Refused('%s is damaged: %s' % (path, told))


def drill(words):
    """Restores the newest copy into a temporary folder, and has the program read it."""
    path, age = newest(words.folder)
    begun = time.monotonic()
    with tempfile.TemporaryDirectory() as room:
        made = os.path.join(room, 'store.db')
        shutil.copyfile(path, made)
        test(made)
        done = subprocess.run([words.program, 'dump', words.application, '-', '--db', made], text=True,
                              stdin=subprocess.DEVNULL, stdout=subprocess.PIPE, stderr=subprocess.PIPE)
    lines = done.stdout.splitlines()
    if done.returncode or not lines or not lines[-1].startswith('number '):
        raise Refused('the program can\'t read %s: %s' % (path, (lines or [done.stderr])[-1]))
    print('%s is %d seconds old, shows a stranger %d records, and its next request is %s; restored and read in %.1f '
          'seconds' % (os.path.basename(path), age, len(lines) - 1, lines[-1], time.monotonic() - begun))
    if age > words.older:
        raise Refused('the newest copy is older than %d seconds' % words.older)


def free(store):
    """Raises `Refused` if the store is served, because then the program keeps it locked."""
    with contextlib.closing(sqlite3.connect('file:%s?mode=rw' % store, uri=True, timeout=0)) as base:
        try:
            base.execute('BEGIN EXCLUSIVE')
        except sqlite3.OperationalError as error:
            raise Refused('%s is in use: stop jac first (%s)' % (store, error)) from error
        except sqlite3.DatabaseError:
            pass        # it is damaged, so it is moved aside


def restore(words):
    """Puts the newest copy in place of the store. The old store is kept beside it, under another name."""
    path, age = newest(words.folder)
    test(path)
    aside = '%s.before-%s' % (words.store, now().strftime('%Y-%m-%dT%H-%M-%SZ'))
    made = words.store + '.new'
    shutil.copyfile(path, made)
    like = os.stat(words.store if os.path.exists(words.store) else os.path.dirname(os.path.abspath(words.store)))
    if os.geteuid() == 0:
        os.chown(made, like.st_uid, like.st_gid)
    os.chmod(made, 0o600)
    if os.path.exists(words.store):
        try:
            free(words.store)
        except Refused:
            os.unlink(made)
            raise
        for end in ('', '-wal', '-shm'):
            if os.path.exists(words.store + end):
                os.rename(words.store + end, aside + end)
        print('what was there is %s' % aside)
    os.rename(made, words.store)
    print('%s, %d seconds old, is %s' % (os.path.basename(path), age, words.store))


def parser():
    made = argparse.ArgumentParser(description=__doc__.split('\n')[0])
    commands = made.add_subparsers(dest='command', required=True, metavar='COMMAND')
    one = commands.add_parser('copy', help='copies a store that may be served')
    one.add_argument('store')
    one.add_argument('place', help='FOLDER, or HOST:FOLDER by ssh')
    one.add_argument('--keep', type=int, default=48, help='how many copies are kept (default: %(default)s)')
    one.set_defaults(does=copy)
    one = commands.add_parser('drill', help='tests whether the newest copy can be restored, and changes nothing')
    one.add_argument('folder')
    one.add_argument('application')
    one.add_argument('--program', default='/usr/local/bin/jac')
    one.add_argument('--older', type=int, default=3600,
                     help='how many seconds old the newest copy may be (default: %(default)s)')
    one.set_defaults(does=drill)
    one = commands.add_parser('restore', help='replaces the store by the newest copy; stop jac first')
    one.add_argument('folder')
    one.add_argument('store')
    one.set_defaults(does=restore)
    return made


def main():
    words = parser().parse_args()
    try:
        words.does(words)
    except (Refused, OSError, ValueError) as error:
        sys.exit('standby.py: %s' % error)


if __name__ == '__main__':
    main()
