#!/usr/bin/env python3
"""Serves an application while you write it. After each save the text is checked and linted. If it has no fault, it
replaces the old text. Requests that arrive meanwhile wait, and none is refused. `./jac dev` starts this script, and
passes the program as the first argument. docs/USING.md, "Writing an application", says what the browser shows.

Use it only while you write: it listens on 127.0.0.1, lets whoever reaches it be any viewer of the sessions file, and
shows which labels are hidden."""
import argparse
import contextlib
import os
import shutil
import signal
import socket
import sqlite3
import subprocess
import sys
import tempfile
import threading
import time

sys.dont_write_bytecode = True
sys.path.insert(0, os.path.dirname(os.path.abspath(__file__)))
import application                                                          # noqa: E402
import dev_proxy                                                            # noqa: E402
import fault_place                                                          # noqa: E402
import hidden                                                               # noqa: E402
import schema                                                               # noqa: E402
import store_faults                                                         # noqa: E402
from hidden import output_of                                                # noqa: E402

TOOLS = os.path.dirname(os.path.abspath(__file__))
HOST = '127.0.0.1'
EVERY = 0.15            # seconds between two looks at the files
CONNECTIONS = 1000000   # after which a process of `serve` ends, and the next one begins
TRIES = 5               # ports that are tried for a process of `serve`
ASKED = 50              # how often a request is sent, if its connection is dropped each time


class Refused(Exception):
    """Why a text isn't served: a headline, details, and whether a new store would help."""

    def __init__(self, headline, details='', is_schema=False):
        super().__init__(headline)
        self.headline, self.details, self.is_schema = headline, details, is_schema
        self.when = time.strftime('%H:%M:%S')


class Ended(Exception):
    """A process of `serve` ended before it listened."""

    def __init__(self, status, line, told):
        super().__init__(line)
        self.status, self.line, self.told = status, line, told


def tell(text):
    print('%s dev: %s' % (time.strftime('%H:%M:%S'), text), file=sys.stderr, flush=True)


class Source:
    """The files that are watched: the application's file or folder, and the sessions file."""

    def __init__(self, path, sessions):
        self.path, self.sessions = path, sessions

    def name(self):
        """The application's name on pages: its path, or the folder's name if the path is only `.` or `..`."""
        last = os.path.basename(os.path.normpath(self.path))
        return os.path.basename(os.path.realpath(self.path)) if last in ('.', '..') else self.path

    def files(self):
        found = [self.sessions] if self.sessions else []
        if not os.path.isdir(self.path):
            return found + [self.path]
        for folder, folders, names in os.walk(self.path):
            folders[:] = sorted(name for name in folders if not name.startswith('.'))
            found += [os.path.join(folder, name) for name in sorted(names) if not name.startswith('.')]
        return found

    def state(self):
        """A value that changes when one of the files is saved."""
        state = []
        for path in self.files():
            try:
                found = os.stat(path)
                state.append((path, found.st_mtime_ns, found.st_size, found.st_ino))
            except OSError:
                state.append((path, None))
        return state

    def read(self):
        """The text of the application as it is now."""
        try:
            return application.read(self.path)
        except application.Fault as fault:
            raise Refused('%s can\'t be read' % self.path, str(fault)) from None


class Text:
    """A text of the application that has no fault, in a file of its own."""

    def __init__(self, path, data, summary):
        self.path, self.data, self.summary = path, data, summary
        self.when, self.models = time.strftime('%H:%M:%S'), schema.of_application(data)


class Child:
    """A process of `serve`, on a port of its own."""

    def __init__(self, words, room):
        self.audit, self.run = os.path.join(room, 'audit'), None
        for attempt in range(TRIES):
            try:
                return self.start(words, room)
            except Ended as ended:
                # another program may have taken the port in between
                if ended.status != 8 or attempt == TRIES - 1:
                    raise
            except BaseException:
                self.stop()
                raise

    def start(self, words, room):
        with socket.socket() as door:
            door.bind((HOST, 0))
            self.port = door.getsockname()[1]
        self.read = os.path.getsize(self.audit) if os.path.exists(self.audit) else 0
        out, told = os.path.join(room, 'out'), os.path.join(room, 'told')
        with open(out, 'wb') as output, open(told, 'wb') as error:
            self.run = subprocess.Popen([part % {'port': self.port, 'audit': self.audit} for part in words],
                                        stdin=subprocess.DEVNULL, stdout=output, stderr=error, start_new_session=True)
        while True:
            ended = self.run.poll() is not None
            with open(told, encoding='utf-8', errors='replace') as file:
                text = file.read()
            if 'listening on ' in text and not ended:
                return
            if ended:
                with open(out, encoding='utf-8', errors='replace') as file:
                    raise Ended(self.run.returncode, file.read().rstrip('\n'), text.rstrip('\n'))
            time.sleep(0.005)

    def ask(self, request):
        """The reply's bytes, and its audit line. On a busy machine the first byte may arrive late. The program then
        drops the connection, reads nothing, and writes no audit line. So the request is sent again."""
        for _ in range(ASKED):
            reply, line = self.reply_to(request), self.audited()
            if reply or line:
                return reply, line
            if self.is_over():
                break
        raise ConnectionError('the connection ended without a reply')

    def reply_to(self, request):
        """The bytes that arrive until the connection ends."""
        parts = []
        with contextlib.suppress(ConnectionError), socket.create_connection((HOST, self.port), 600) as line:
            line.sendall(request)
            while parts[-1:] != [b'']:
                parts.append(line.recv(65536))
        return b''.join(parts)

    def audited(self):
        """The last line of the audit that was written since the previous call."""
        with open(self.audit, 'rb') as file:
            file.seek(self.read)
            lines = file.read()
        self.read += len(lines)
        return lines.decode('ascii', 'replace').rstrip('\n').rpartition('\n')[2]

    def is_over(self):
        return self.run.poll() is not None

    def stop(self):
        if self.run:
            self.run.terminate()
            self.run.wait()


class Dev:
    """What is served, and what was refused. A thread holds the lock `door` while it sends the program a request or
    replaces the program."""
    faults = OSError, Ended, hidden.Fault   # that `ask` and `why` may raise

    def __init__(self, options, room):
        self.program, self.port, self.room = options.program, options.port, room
        self.source = Source(options.app, options.sessions)
        self.sessions, self.is_kept = options.sessions, options.db is not None
        self.store = options.db or os.path.join(room, 'store.db')
        self.door, self.work, self.asking = threading.Lock(), threading.Lock(), threading.Lock()
        self.text = self.child = self.refused = self.waiting = None
        self.looks, self.note, self.kept = '', '', []
        self.version, self.texts, self.is_over = 0, 0, False

    # a save

    def take(self):
        """Serves the application as it is now, or notes what is wrong with it."""
        with self.work:
            try:
                text = self.checked(self.source.read())
                self.exchange(text)
            except Refused as refused:
                self.refused = refused
                tell('refused: ' + refused.headline)
                if refused.details:
                    print(refused.details, file=sys.stderr, flush=True)
            else:
                self.refused = None
                self.looks = self.looked()
                tell('%s%s' % (text.summary, '; places to look at: %d' % self.count_looks() if self.looks else ''))
            self.version += 1

    def checked(self, data):
        self.texts += 1
        path = os.path.join(self.room, 'text-%d' % self.texts)
        with open(path, 'wb') as file:
            file.write(data)
        status, line, _ = output_of([self.program, 'check', path])
        if status == 0:
            return Text(path, data, line)
        raise Refused(line.replace(path, self.source.path), fault_place.report(self.program, data, self.source.path, line))

    def looked(self):
        """What the linter prints for the application, or ''."""
        _, out, told = output_of([sys.executable, os.path.join(TOOLS, 'lint.py'), self.source.path])
        return '' if out.startswith('lint: nothing') else out or told

    def count_looks(self):
        return max(1, self.looks.count(': look at this'))

    def exchange(self, text):
        """Serves this text from now on. If it can't be served, the previous text is served again."""
        with self.door:
            if self.is_over:
                return
            self.stop()
            kept = None
            try:
                kept = self.upgraded(text)
                self.child = self.started(text)
            except (Refused, Ended) as fault:
                if kept:
                    self.put_back(kept)
                self.start_again()
                if isinstance(fault, Refused):
                    self.waiting = text if fault.is_schema else None
                    raise
                raise Refused(fault.line.replace(text.path, self.source.path), self.reason(fault)) from None
            if self.text:
                os.remove(self.text.path)
            self.text, self.waiting = text, None

    def reason(self, fault):
        """Why the program didn't start: what it printed, and what is wrong with the sessions or the store."""
        told = ''
        if fault.status == fault_place.LINES_REFUSED:
            told = fault_place.told_of_sessions(self.program, self.sessions)
        elif fault.status == fault_place.STORE_FAULT:
            told = store_faults.told(self.store)
        return '\n'.join(filter(None, (fault.told, told)))

    def started(self, text):
        words = [self.program, 'serve', '--lazy', '--db', self.store.replace('%', '%%'), '--audit', '%(audit)s']
        words += ['--sessions', self.sessions.replace('%', '%%')] if self.sessions else []
        return Child([*words, '--', text.path.replace('%', '%%'), '%(port)s', str(CONNECTIONS)], self.room)

    def start_again(self):
        """Serves the previous text again. If the program doesn't start, the next request tries again."""
        if self.text:
            with contextlib.suppress(Ended):
                self.child = self.started(self.text)

    def stop(self):
        if self.child:
            self.child.stop()
            self.child = None

    # the store

    def upgraded(self, text):
        """Upgrades the store if the text's models extend its own. Returns the copy of the old store, or None if there
        was nothing to upgrade. Raises `Refused` if the models don't extend those of the store."""
        stored = schema.of_store(self.store)
        if stored is None:
            return None
        old = schema.of_text(stored)
        lack = schema.first_lack(old, text.models)
        if lack:
            raise Refused('the store can\'t be upgraded to this text: %s' % lack, is_schema=True, details=(
                'An upgrade adds models, fields and groups after those that are there.%s Leave the old part as it is and '
                'add another, or begin with a new store.' % schema.likeness(old, text.models)))
        if schema.is_same(old, text.models):
            return None
        kept, bridge = self.copied(), os.path.join(self.room, 'old')
        with open(bridge, 'w', encoding='utf-8') as file:
            file.write(schema.application(old))
        status, line, told = output_of([self.program, 'upgrade', '--db', self.store, '--', bridge, text.path])
        if status:
            self.put_back(kept)
            raise Refused('the upgrade of the store failed: ' + line, told)
        self.kept.append(kept)
        self.note = '%s, since %s. The store as it was is kept as %s' % (
            line, schema.first_addition(old, text.models), kept)
        tell(self.note)
        return kept

    def free_name(self):
        number = 1
        while os.path.exists('%s.before-%d' % (self.store, number)):
            number += 1
        return '%s.before-%d' % (self.store, number)

    def copied(self):
        """Copies the store, which nobody serves meanwhile, and returns the copy's path."""
        kept = self.free_name()
        source, made = sqlite3.connect(self.store), sqlite3.connect(kept)
        source.backup(made)
        source.close()
        made.close()
        return kept

    def put_back(self, kept):
        """Replaces the store by the copy from before the upgrade."""
        if kept in self.kept:
            self.kept.remove(kept)
            self.note = ''
        for end in '-wal', '-shm':
            if os.path.exists(self.store + end):
                os.remove(self.store + end)
        os.replace(kept, self.store)

    def renew(self):
        """Keeps a copy of the store, and serves the waiting text with a new store."""
        with self.work:
            text = self.waiting
            if text is None:
                return
            with self.door:
                self.stop()
                kept = self.copied()
                for path in self.store, self.store + '-wal', self.store + '-shm':
                    if os.path.exists(path):
                        os.remove(path)
            try:
                self.exchange(text)
            except Refused as refused:
                self.refused = refused
            else:
                self.kept.append(kept)
                self.refused, self.looks = None, self.looked()
                self.note = 'a new store; the one before is kept as %s' % kept
                tell(self.note)
            self.version += 1

    def copy_for_reading(self):
        """Copies the store, between two requests, and its text, for commands that read them. Returns both paths."""
        copy = os.path.join(self.room, 'copy')
        with self.door:
            for end in '', '-wal':
                if os.path.exists(copy + end):
                    os.remove(copy + end)
                if os.path.exists(self.store + end):
                    shutil.copyfile(self.store + end, copy + end)
            shutil.copyfile(self.text.path, copy + '-text')
        return copy, copy + '-text'

    # a request

    def ask(self, request):
        """The reply, its audit line, and the text that was served, or None if no text is served."""
        with self.door:
            if self.text is None or self.is_over:
                return None
            if self.child is None or self.child.is_over():
                self.child = self.started(self.text)
            reply, line = self.child.ask(request)
            if not reply:
                raise ConnectionError('the connection ended before its reply came')
            return reply, line, self.text

    def why(self, viewer):
        """The labels that this viewer is shown of the store as it is now, and for each other label the reason."""
        with self.asking:
            copy, text = self.copy_for_reading()
            return hidden.why(self.program, text, self.source.path, viewer, copy)

    def close(self):
        """Ends the program, even while it answers a request."""
        self.is_over, child = True, self.child
        if child:
            child.stop()
        with self.door:
            self.stop()


def watch(dev):
    """Serves the application after each save, once its files no longer change."""
    seen = None
    while True:
        state = dev.source.state()
        if state != seen:
            time.sleep(EVERY / 2)
            if dev.source.state() == state:
                seen = state
                dev.take()
        time.sleep(EVERY)


def port_of(word):
    if not word.isdigit() or not 1 <= int(word) <= 65535:
        raise argparse.ArgumentTypeError('a port is a number from 1 to 65535')
    return int(word)


def options_of(words):
    parser = argparse.ArgumentParser(prog='jac dev', description=__doc__, allow_abbrev=False,
                                     formatter_class=argparse.RawDescriptionHelpFormatter)
    # the script jac passes it
    parser.add_argument('program', type=os.path.abspath, help=argparse.SUPPRESS)
    parser.add_argument('app', metavar='APP', help='the application')
    parser.add_argument('port', metavar='PORT', type=port_of, help='the port on this machine where browsers find it')
    parser.add_argument('--db', metavar='FILE', help='the store (default: a new one, which is removed at the end)')
    parser.add_argument('--sessions', metavar='FILE',
                        help="the sessions (default: the file `sessions` in the application's folder, if there is one)")
    options = parser.parse_args(words)
    beside = os.path.join(options.app, 'sessions')
    if options.sessions is None and os.path.isfile(beside):
        options.sessions = beside
    return options


def main(words):
    options = options_of(words)
    for number in signal.SIGTERM, signal.SIGHUP, signal.SIGINT:
        signal.signal(number, lambda number, _: sys.exit(128 + number))
    with tempfile.TemporaryDirectory(prefix='jac-dev-') as room:
        dev = Dev(options, room)
        try:
            server = dev_proxy.listen(dev, HOST, options.port)
        except OSError as fault:
            sys.exit('dev: port %d: %s' % (options.port, fault.strerror))
        try:
            tell('for writing, not for serving: http://%s:%d/ shows %s, on this machine alone; Ctrl-C ends it' % (
                HOST, options.port, dev.source.name()))
            threading.Thread(target=server.serve_forever, daemon=True).start()
            watch(dev)
        finally:
            dev.close()
            server.server_close()
            if dev.is_kept and dev.kept:
                tell('kept: ' + ' '.join(dev.kept))


if __name__ == '__main__':
    main(sys.argv[1:])
