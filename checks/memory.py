#!/usr/bin/env python3
"""Runs the built program while one of its allocations fails, or one and all later ones. A run must end with status 0 or
7. Each reply must be 500, or that of an undisturbed run of only the requests that weren't answered with 500. The audit
must agree with the replies. A store in a file must hold exactly what the answered requests left. A `check`, a `dump`
and a `why` must end as undisturbed ones do, or with status 7. So must an upgrade, and with status 7 it must leave the
old store.

A library that is loaded before the program counts its allocations, and makes the chosen ones fail. They are chosen from
all over the run, each once, as long as there is time.

Arguments: the program, and for how many seconds allocations are tried (90 by default). Prints each failed case, then a
count. If there is no C compiler, the check is skipped and says so (installed.py)."""
import collections
import contextlib
import glob
import os
import random
import re
import sqlite3
import subprocess
import sys
import tempfile
import time

from support import installed
from support import proved

WORDS = proved.words(seconds={'metavar': 'SECONDS', 'nargs': '?', 'type': float, 'default': 90,
                              'help': 'for how many seconds allocations are tried (%(default)s)'})
PROGRAM, SECONDS = proved.binary(WORDS.program), WORDS.seconds
COMPILERS = 'cc', 'gcc', 'clang'
SHOWN = 20      # most failures that are printed
LIBRARY = r'''
#include <errno.h>
#include <fcntl.h>
#include <stdio.h>
#include <stdlib.h>
#include <unistd.h>

void *__libc_malloc(size_t);
void *__libc_calloc(size_t, size_t);
void *__libc_realloc(void *, size_t);

static unsigned long first, last, count;
static int counts;

static int fails(void) {
    if (!counts) return 0;
    count++;
    if (count < first || last < count) return 0;
    errno = ENOMEM;
    return 1;
}

void *malloc(size_t size) { return fails() ? NULL : __libc_malloc(size); }
void *calloc(size_t number, size_t size) { return fails() ? NULL : __libc_calloc(number, size); }
void *realloc(void *old, size_t size) { return fails() ? NULL : __libc_realloc(old, size); }

__attribute__((constructor)) static void begin(void) {
    first = strtoul(getenv("FAIL_FIRST"), NULL, 10);
    last = strtoul(getenv("FAIL_LAST"), NULL, 10);
    counts = 1;
}

__attribute__((destructor)) static void end(void) {
    char text[32];
    int file, size;
    counts = 0;
    size = snprintf(text, sizeof text, "%lu\n", count);
    file = open(getenv("FAIL_COUNT"), O_WRONLY | O_CREAT | O_TRUNC, 0600);
    if (file < 0 || write(file, text, size) != size) _exit(99);
    close(file);
}
'''
APPLICATION = '''(app (viewer User)
 (model User (fields (name text)))
 (model Event (fields (title text) (host (ref User)) (open bool))
  (group (guards (title "private"))
   (policy (or (get Event open this) (eq (get Event host this) viewer)))))
 (view post "/join" (params (name text))
  (create u User (set (name name)) (put u)))
 (view post "/add" (params (title text) (open bool))
  (create e Event (set (title title) (host viewer) (open open)) (redirect (cat "/event/" (str e)))))
 (view post "/event/{id}" (params (id (ref Event)) (title text))
  (if (eq (get Event host id) viewer) ((update Event id (set (title title))) (put "changed")) ((missing))))
 (view post "/remove" (params (title text))
  (for (from ((e Event)) (eq (get Event title e) title) key) (delete Event e)) (put "removed"))
 (view get "/list" (params)
  (template "<ul>{% (for (from ((e Event)) true (up e title))) %}<li>{{ (get Event title e) }} by {{ (get User name (get Event host e)) }}{% end %}</ul>"))
 (view get "/count" (params) (put (count (from ((e Event)) (eq (get Event title e) "raid") key)))))
'''
NEXT = APPLICATION.replace('(open bool))', '(open bool) (place text))', 1).replace(
    '(fields (name text)))', '(fields (name text)) (group (guards (name "someone")) (policy (eq this viewer))))')
SESSIONS = 'ann 4096\nbob 8192\n'


def ask(viewer, method, target, body=''):
    return ['ask %s %s "%s" "%s"' % (viewer, method, target, body)]


def sent(number, token, method, target, body=''):
    """Returns the lines of a request on a connection of its own, in two pieces."""
    head = r'%s %s HTTP/1.1\r\nHost: a\r\nCookie: session=%s\r\n' % (method, target, token)
    if method == 'POST':
        head += r'Content-Type: application/x-www-form-urlencoded\r\nContent-Length: %d\r\n' % len(body)
    return ['open %d' % number, 'data %d "%s"' % (number, head), r'data %d "\r\n%s"' % (number, body), 'end %d' % number]


# Each item is one request. Its lines get exactly one reply.
REQUESTS = [
    ask('-', 'POST', '/join', 'name=Ann'),
    ask('-', 'POST', '/join', 'name=Bob'),
    ask('4096', 'POST', '/add', 'title=raid&open=0'),
    sent(1, 'bob', 'POST', '/add', 'title=feast&open=1'),
    ask('4096', 'POST', '/add', 'title=nap'),
    ask('4096', 'GET', '/list'),
    sent(2, 'bob', 'GET', '/list'),
    ask('4096', 'POST', '/event/12289', 'title=raid+two'),
    ask('8192', 'POST', '/event/12289', 'title=stolen'),
    ask('8192', 'GET', '/count'),
    ask('4096', 'POST', '/remove', 'title=nap'),
    ask('-', 'GET', '/nothing'),
    ask('4096', 'GET', '/list'),
    ask('-', 'GET', '/list'),
]


# The requests of a next run, which read the store and change nothing.
AFTERWARDS = [ask('4096', 'GET', '/list'), ask('8192', 'GET', '/list')]
FAILED = re.compile(rb'reply 500 |sent \d+ "HTTP/1.1 500 ')
OUT_OF_MEMORY = 7, b'memory'


class Run:
    """What a replay left: its status, its last line if the status isn't 0, its replies, its audit and its store."""

    def __init__(self, status, out, audit, store, count):
        self.status, self.audit, self.store, self.count = status, audit.splitlines(), store, count
        lines = out.splitlines()
        self.last = lines.pop() if status > 0 and lines else b''
        self.replies = [line for line in lines if not line.startswith(b'closed ')]

    def refused(self):
        """Returns the places of the replies that are 500."""
        return [place for place, line in enumerate(self.replies) if FAILED.match(line)]


class Runs:
    """Runs in a folder, with the library loaded before the program."""

    def __init__(self, folder, library, stored):
        self.folder, self.library, self.stored, self.known = folder, library, stored, {}
        self.write('app', APPLICATION)
        self.write('next', NEXT)
        self.write('sessions', SESSIONS)

    def write(self, name, text):
        with open(os.path.join(self.folder, name), 'w') as file:
            file.write(text)

    def read(self, name):
        path = os.path.join(self.folder, name)
        if not os.path.exists(path):
            return b''
        with open(path, 'rb') as file:
            return file.read()

    def program(self, words, first=0, last=0):
        """Runs the program while the allocations from the first to the last fail. Returns the status, the output and
        the number of allocations."""
        given = dict(os.environ, LD_PRELOAD=self.library, FAIL_FIRST=str(first), FAIL_LAST=str(last), FAIL_COUNT='count')
        done = subprocess.run([PROGRAM] + words, cwd=self.folder, env=given, stdin=subprocess.DEVNULL,
                              stdout=subprocess.PIPE, stderr=subprocess.DEVNULL, timeout=60)
        return done.returncode, done.stdout, int(self.read('count') or 0)

    def content(self):
        """Returns the next number and the rows of the store, and what a next run of the program reads from it."""
        self.write('events', ''.join(line + '\n' for lines in AFTERWARDS for line in lines))
        read = self.program(['replay', 'app', 'events', '--db', 'store'])[:2]
        return self.stored_rows(), read

    def stored_rows(self):
        with contextlib.closing(sqlite3.connect(os.path.join(self.folder, 'store'))) as database:
            rows = database.execute('SELECT * FROM rec ORDER BY 1, 2, 3').fetchall()
            return database.execute('SELECT number, schema FROM meta').fetchall(), rows

    def replay(self, requests, first=0, last=0):
        for file in glob.glob(os.path.join(self.folder, 'store*')) + glob.glob(os.path.join(self.folder, 'audit')):
            os.remove(file)
        self.write('events', ''.join(line + '\n' for lines in requests for line in lines))
        words = ['replay', 'app', 'events', '--sessions', 'sessions', '--audit', 'audit']
        status, out, count = self.program(words + ['--db', 'store'] * self.stored, first, last)
        audit = self.read('audit')
        return Run(status, out, audit, self.content() if self.stored else None, count)

    def undisturbed(self, places):
        """Returns the run of only the requests at these places, in which nothing fails."""
        if places not in self.known:
            self.known[places] = self.replay([REQUESTS[place] for place in places])
        return self.known[places]


def with_refusals(lines, refused, audit):
    """Returns the audit of the undisturbed run, with the lines of the refused requests added at their places."""
    lines, merged = list(lines), []
    for place, line in enumerate(audit, 1):
        if place - 1 in refused:
            merged.append(b'%d 500 %s nopage' % (place, line.split(b' ')[2]))
        else:
            merged.append(b'%d %s' % (place, lines.pop(0).partition(b' ')[2]))
    return merged


def wrong(runs, run):
    """Returns what is wrong in a disturbed replay, or None."""
    if (run.status, run.last) not in ((0, b''), OUT_OF_MEMORY):
        return 'status %d, %r' % (run.status, run.last)
    if run.status == 0 and len(run.replies) != len(REQUESTS):
        return 'status 0 after %d replies' % len(run.replies)
    refused = run.refused()
    answered = tuple(place for place in range(len(run.replies)) if place not in refused)
    plain = runs.undisturbed(answered)
    have = [line for place, line in enumerate(run.replies) if place not in refused]
    if have != plain.replies:
        return 'replies %r, not %r' % next((a, b) for a, b in zip(have, plain.replies) if a != b)
    # The audit line is written before its reply, so there may be one line more.
    if len(run.audit) not in (len(run.replies), len(run.replies) + 1):
        return '%d lines of the audit for %d replies' % (len(run.audit), len(run.replies))
    audit = run.audit[:len(run.replies)]
    if audit != with_refusals(plain.audit, refused, audit):
        return 'the audit %r, not %r' % (audit, plain.audit)
    if run.store != plain.store:
        return 'the store after %d replies: %r, not %r' % (len(run.replies), run.store, plain.store)
    return None


def spread(count):
    """Yields all numbers from 1 to `count`, in such an order that they are spread over the whole range from the
    beginning."""
    step, randomness = max(1, count // 64), random.Random(7)
    parts = [list(range(first, min(first + step, count + 1))) for first in range(1, count + 1, step)]
    for part in parts:
        randomness.shuffle(part)
    while any(parts):
        yield from [part.pop() for part in parts if part]


class Tally:
    """Counts what passed and what failed."""

    def __init__(self):
        self.passed = self.failed = 0

    def try_all(self, name, count, seconds, one):
        """Calls one(first, last) for as many allocations as there is time. `one` returns what is wrong, followed by
        marks, which are counted."""
        deadline, marks, tried = time.monotonic() + seconds, collections.Counter(), 0
        for first in spread(count):
            if time.monotonic() > deadline:
                break
            tried += 1
            for last, how in ((first, 'alone'), (2 ** 60, 'and all behind it')):
                fault, *seen = one(first, last)
                marks.update(seen)
                self.count('%s, allocation %d of %d %s' % (name, first, count, how), fault)
        print('%s: %d of %d allocations were made to fail, alone and with all behind them; %s' % (
            name, tried, count, ', '.join('%d %s' % (number, mark) for mark, number in marks.most_common())), flush=True)

    def count(self, name, fault):
        self.passed, self.failed = self.passed + (not fault), self.failed + bool(fault)
        if fault and self.failed <= SHOWN:
            print('FAILED %s: %s' % (name, fault), flush=True)


def replays(tally, name, runs, seconds):
    plain = runs.undisturbed(tuple(range(len(REQUESTS))))
    well = plain.status == 0 and plain.count and not plain.refused() and len(plain.replies) == len(REQUESTS)
    tally.count(name, None if well else 'where nothing fails: status %d, %d allocations, %r' % (
        plain.status, plain.count, plain.replies))

    def one(first, last):
        run = runs.replay(REQUESTS, first, last)
        return (wrong(runs, run), 'runs with status %d' % run.status, *['replies of 500' for _ in run.refused()])

    tally.try_all(name, plain.count, seconds, one)


def commands(tally, name, runs, words, seconds):
    """Checks that a command that changes nothing ends as it does if nothing fails, or because memory ran out."""
    *plain, count = runs.program(words)
    tally.count(name, None if plain[0] == 0 and count else 'where nothing fails: %r' % plain)

    def one(first, last):
        status, out, _ = runs.program(words, first, last)
        fault = [status, out] != plain and (status, out.splitlines()[-1:]) != (7, [b'memory'])
        return 'status %d, %r' % (status, out) if fault else None, 'runs with status %d' % status

    tally.try_all(name, count, seconds, one)


def upgrades(tally, name, runs, seconds):
    """Checks that an upgrade ends as it does if nothing fails, or because memory ran out. In that case the store must
    be the old one."""
    words, store, saved = ['upgrade', 'app', 'next', '--db', 'store'], os.path.join(runs.folder, 'store'), {}
    for file in glob.glob(store + '*'):
        with open(file, 'rb') as handle:
            saved[file] = handle.read()

    def begin():
        for file in glob.glob(store + '*'):
            os.remove(file)
        for file, data in saved.items():
            with open(file, 'wb') as handle:
                handle.write(data)

    old = runs.stored_rows()
    begin()
    status, out, count = runs.program(words)
    new = runs.stored_rows()
    well = status == 0 and count and new[0] != old[0]
    tally.count(name, None if well else 'where nothing fails: %d %r' % (status, out))

    def one(first, last):
        begin()
        ended, told, _ = runs.program(words, first, last)
        have = ended, told, runs.stored_rows()
        fault = have not in ((0, out, new), (7, b'memory\n', old))
        return 'status %d, %r, %s' % (ended, told, 'the old store' if have[2] == old else 'another store') if fault else None, \
            'runs with status %d' % ended

    tally.try_all(name, count, seconds, one)
    begin()


def main():
    installed.need(COMPILERS)
    compiler, tally = installed.find(*COMPILERS), Tally()
    # Files in memory, if they are available, save the time that a disk takes.
    with tempfile.TemporaryDirectory(dir='/dev/shm' if os.access('/dev/shm', os.W_OK) else None) as folder:
        source, library = os.path.join(folder, 'fails.c'), os.path.join(folder, 'fails.so')
        with open(source, 'w') as file:
            file.write(LIBRARY)
        subprocess.run([compiler, '-O1', '-fPIC', '-shared', '-o', library, source], check=True)
        runs = Runs(folder, library, True)
        replays(tally, 'a replay with --db', runs, SECONDS * 0.5)
        runs.replay(REQUESTS)
        commands(tally, 'a dump', runs, ['dump', 'app', '98312', '--db', 'store'], SECONDS * 0.05)
        commands(tally, 'a why', runs, ['why', 'app', '8192', '--db', 'store'], SECONDS * 0.05)
        upgrades(tally, 'an upgrade', runs, SECONDS * 0.1)
        commands(tally, 'a check', runs, ['check', 'app'], SECONDS * 0.05)
        replays(tally, 'a replay in memory', Runs(folder, library, False), SECONDS * 0.25)
    print('%d passed, %d failed' % (tally.passed, tally.failed))
    sys.exit(1 if tally.failed or not tally.passed else 0)


if __name__ == '__main__':
    main()
