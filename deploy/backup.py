#!/usr/bin/env python3
"""Copies a store while jac serves it, and tests the copy.

jac keeps the database locked, so no other program can read it through SQLite. But jac rarely writes the database's
file. It appends each commit to the log beside the file. So this script copies the file and the log. If the file was
written or the log was restarted meanwhile, it copies both again. Then SQLite takes the complete commits from the copied
log, and makes one file of both copies."""
import argparse
import os
import shutil
import sqlite3
import sys
import tempfile
import time

TRIES = 100
STILL = 0.1     # seconds; a file that was just written may be written again with the same time


def marks(store):
    """A value that changes if the file is written or its log is restarted. Otherwise jac only appends to the log."""
    found = os.stat(store)
    head = b''
    if os.path.exists(store + '-wal'):
        with open(store + '-wal', 'rb') as log:
            head = log.read(32)
    return found.st_mtime_ns, found.st_size, found.st_ino, head


def copy_both(store, copy):
    """Copies the file and the log, and returns whether the copies belong together."""
    before = marks(store)
    if time.time_ns() - before[0] < STILL * 1e9:
        time.sleep(STILL)
        return False
    shutil.copyfile(store, copy)
    if os.path.exists(store + '-wal'):
        shutil.copyfile(store + '-wal', copy + '-wal')
    return marks(store) == before


def join(copy, target):
    """Makes one database of a file and its log, and returns whether it is intact."""
    source, made = sqlite3.connect(copy), sqlite3.connect(target)
    with made:
        source.backup(made)
    source.close()
    made.execute('PRAGMA journal_mode = DELETE')
    told = made.execute('PRAGMA integrity_check').fetchall()
    made.close()
    return told == [('ok',)]


def main():
    words = argparse.ArgumentParser(description=__doc__, formatter_class=argparse.RawDescriptionHelpFormatter)
    words.add_argument('store', help="the store's file")
    words.add_argument('target', help="the file for the copy, which mustn't exist yet")
    words = words.parse_args()
    store, target = words.store, words.target
    if not os.path.exists(store):
        sys.exit("%s isn't there" % store)
    if os.path.exists(target):
        sys.exit('%s is there already' % target)
    folder = os.path.dirname(os.path.abspath(target))
    with tempfile.TemporaryDirectory(dir=folder) as room:
        copy = os.path.join(room, 'copy')
        for _ in range(TRIES):
            if copy_both(store, copy):
                break
        else:
            sys.exit('%s was written all the time' % store)
        made = os.path.join(room, 'made')
        if not join(copy, made):
            sys.exit('the copy is damaged')
        os.rename(made, target)


if __name__ == '__main__':
    main()
