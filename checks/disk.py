#!/usr/bin/env python3
"""Runs the built program over a store on a disk that fails once. In each run one system call fails, the N-th
`fdatasync` or the N-th `pwrite`, with EIO or with ENOSPC. Meanwhile events are added and listed for three viewers.
Every answer except 503 must hold. Each event whose `POST` was answered must be listed. From the request after the fault
on, the pages must be those of a fresh run over the same files. A line on standard error must name the store.

A library that is loaded before the program counts these calls, and makes the chosen call fail.

Arguments: the program, and the last N (30 by default). Prints each failed case, then a count. If there is no C
compiler, the check is skipped and says so."""
import contextlib
import glob
import http.client
import os
import re
import shutil
import subprocess
import sys
import tempfile

from support import proved
from support.serving import served

WORDS = proved.words(last={'metavar': 'N', 'nargs': '?', 'type': int, 'default': 30,
                           'help': 'the last call of each kind that fails (%(default)s)'})
PROGRAM, LAST = proved.binary(WORDS.program), WORDS.last
COMPILERS = 'cc', 'gcc', 'clang'
SKIPPED = 77
LIBRARY = r'''
#define _GNU_SOURCE
#include <dlfcn.h>
#include <errno.h>
#include <fcntl.h>
#include <stdlib.h>
#include <string.h>
#include <unistd.h>

static long at, count;
static int code, syncs;

static int fails(int sync) {
    if (sync != syncs) return 0;
    count++;
    if (count != at) return 0;
    errno = code;
    close(open(getenv("FAILED"), O_WRONLY | O_CREAT, 0600));
    errno = code;
    return 1;
}

#define NEXT(name) ((__typeof__(&name))dlsym(RTLD_NEXT, #name))

int fdatasync(int file) { return fails(1) ? -1 : NEXT(fdatasync)(file); }
int fsync(int file) { return fails(1) ? -1 : NEXT(fsync)(file); }
ssize_t pwrite(int file, const void *from, size_t size, off_t place) {
    return fails(0) ? -1 : NEXT(pwrite)(file, from, size, place);
}
ssize_t pwrite64(int file, const void *from, size_t size, off64_t place) {
    return fails(0) ? -1 : NEXT(pwrite64)(file, from, size, place);
}

__attribute__((constructor)) static void begin(void) {
    at = strtol(getenv("FAIL_AT"), NULL, 10);
    code = strtol(getenv("FAIL_CODE"), NULL, 10);
    syncs = !strcmp(getenv("FAIL_CALL"), "fdatasync");
}
'''
APPLICATION = '''(app (viewer User)
 (model User (fields (name text)))
 (model Event (fields (title text) (host (ref User)) (open bool))
  (group (guards (title "private"))
   (policy (or (get Event open this) (eq (get Event host this) viewer)))))
 (view post "/join" (params (name text))
  (create u User (set (name name)) (put u)))
 (view post "/add" (params (title text) (open bool))
  (create e Event (set (title title) (host viewer) (open open)) (put "added")))
 (view get "/list" (params)
  (for (from ((e Event)) true key) (put (get Event title e)) (put ";"))))
'''
SESSIONS = 'ann 4096\nbob 8192\n'
VIEWERS = ('ann', '4096'), ('bob', '8192'), (None, '-')
BEGIN = 'ask - POST "/join" "name=Ann"\nask - POST "/join" "name=Bob"\n'
CALLS = ('fdatasync', 'EIO'), ('fdatasync', 'ENOSPC'), ('pwrite', 'EIO'), ('pwrite', 'ENOSPC')
CODES = {'EIO': '5', 'ENOSPC': '28'}
ROUNDS = 6
REQUESTS = ROUNDS * 8 + 20


def write(folder, name, text):
    with open(os.path.join(folder, name), 'w') as file:
        file.write(text)


def compiled(folder):
    compiler = next(filter(shutil.which, COMPILERS), None)
    if compiler is None:
        print('skipped: the disk that fails, as no C compiler is installed')
        sys.exit(SKIPPED)
    write(folder, 'fail.c', LIBRARY)
    library = os.path.join(folder, 'fail.so')
    subprocess.run([compiler, '-shared', '-fPIC', '-O1', '-o', library, os.path.join(folder, 'fail.c'), '-ldl'], check=True)
    return library


def asked(port, token, method, path, body=None):
    """Sends a request on a connection of its own. Returns the status and the body."""
    headers = {'Content-Type': 'application/x-www-form-urlencoded'} if body else {}
    if token:
        headers['Cookie'] = 'session=' + token
    with contextlib.closing(http.client.HTTPConnection('127.0.0.1', port, timeout=20)) as line:
        line.request(method, path, body, headers)
        reply = line.getresponse()
        return reply.status, reply.read().decode()


def fresh_pages(folder):
    """Returns what a fresh run over a copy of the store lists for each viewer."""
    events = ''.join('ask %s GET "/list" ""\n' % number for _, number in VIEWERS)
    with tempfile.TemporaryDirectory() as copies:
        for file in glob.glob(os.path.join(folder, 'd*')):
            shutil.copy(file, copies)
        shutil.copy(os.path.join(folder, 'app'), copies)
        write(copies, 'events', events)
        done = subprocess.run([PROGRAM, 'replay', 'app', 'events', '--db', 'd'], cwd=copies, timeout=60,
                              stdin=subprocess.DEVNULL, stdout=subprocess.PIPE, stderr=subprocess.DEVNULL)
    return re.findall(r'reply (\d+) "" "(.*)"', done.stdout.decode())


def pages(port):
    return [(str(status), text) for status, text in (asked(port, token, 'GET', '/list') for token, _ in VIEWERS)]


class Session:
    """Sends the requests of one run. Records what was answered and what is wrong."""

    def __init__(self, folder, port):
        self.folder, self.port, self.added, self.faults, self.wrong = folder, port, [], 0, []

    def add(self, title):
        status, text = asked(self.port, 'ann', 'POST', '/add', 'title=%s&open=1' % title)
        if status == 200:
            self.added.append(title)
        elif status == 503:
            self.faults += 1
            self.look_after_fault(title)
        else:
            self.wrong.append('%s was answered with %d: %s' % (title, status, text))

    def look_after_fault(self, title):
        have = pages(self.port)
        want = fresh_pages(self.folder)
        if have != want:
            self.wrong.append('after %s was refused the pages are %r, and a fresh run has %r' % (title, have, want))

    def list(self):
        for status, text in pages(self.port):
            if status == '503':
                self.faults += 1
                continue
            lost = [title for title in self.added if title not in text.split(';')]
            if lost:
                self.wrong.append('a list lacks %s: %s' % (', '.join(lost), text))


def run(folder, library, call, error, at):
    """Makes a run in which one call fails. Returns what is wrong, and whether the call was reached."""
    write(folder, 'app', APPLICATION)
    write(folder, 'sessions', SESSIONS)
    write(folder, 'begin', BEGIN)
    subprocess.run([PROGRAM, 'replay', 'app', 'begin', '--db', 'd'], cwd=folder, stdout=subprocess.DEVNULL, check=True)
    failed = os.path.join(folder, 'failed')
    words = {'LD_PRELOAD': library, 'FAIL_AT': str(at), 'FAIL_CODE': CODES[error], 'FAIL_CALL': call, 'FAILED': failed}
    os.environ.update(words)
    try:
        opened = served(PROGRAM, 'app', REQUESTS, folder, ('--db', 'd', '--sessions', 'sessions'))
        with opened as serve:
            for name in words:
                os.environ.pop(name, None)
            if serve.run.poll() is not None:
                return end_of_refused(folder, serve), os.path.exists(failed)
            session = Session(folder, serve.port)
            for turn in range(ROUNDS):
                session.add('e%d' % turn)
                session.list()
            have, want = pages(serve.port), fresh_pages(folder)
            if have != want:
                session.wrong.append('at the end the pages are %r, and a fresh run has %r' % (have, want))
            serve.run.kill()
            told = serve.run.stderr.read().decode()
            if session.faults and not re.search(r'(?m)^jac: d: ', told):
                session.wrong.append('standard error has no line of the store: %r' % told)
            return session.wrong, os.path.exists(failed)
    finally:
        for name in words:
            os.environ.pop(name, None)


def end_of_refused(folder, serve):
    """Returns what is wrong after a run that couldn't attach the store."""
    status, out = serve.end()
    wrong = [] if (status, out) == (6, b'store fault\n') else ['it ended with %d: %r' % (status, out)]
    want = [('200', '')] * 3
    return wrong + ([] if fresh_pages(folder) == want else ['a fresh run can no longer open the store'])


def main():
    passed = failed = 0
    with tempfile.TemporaryDirectory() as tools:
        library = compiled(tools)
        for call, error in CALLS:
            for at in range(1, LAST + 1):
                with tempfile.TemporaryDirectory() as folder:
                    wrong, reached = run(folder, library, call, error, at)
                if not reached:
                    break
                for line in wrong:
                    print('FAILED %s %d with %s: %s' % (call, at, error, line))
                failed += 1 if wrong else 0
                passed += 0 if wrong else 1
            print('%s with %s: %d calls' % (call, error, at if reached else at - 1), flush=True)
    if passed + failed < 8:
        print('FAILED only %d calls were reached' % (passed + failed))
        failed += 1
    print('%d passed, %d failed' % (passed, failed))
    sys.exit(1 if failed else 0)


if __name__ == '__main__':
    main()
