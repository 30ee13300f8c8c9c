#!/usr/bin/env python3
"""Manages the accounts of an application: adds one, changes its password or its viewer, disables it, or lists all.

A folder has three files of accounts: `users` (names and passwords, for the server in front), `tokens` (the token of
each name, for the server in front) and `sessions` (the viewer of each token, for jac). The file `accounts.ini` beside
them has the commands that make jac and the server in front read these files again. A change runs them if it needs to.

A viewer is the id of a record, `-` for an account that is nobody to jac, or `=TEXT` for the one viewer that has a field
with this text in the store. A password is the first line of standard input. At a terminal the script asks for it."""
import argparse
import collections
import configparser
import contextlib
import fcntl
import getpass
import grp
import os
import re
import secrets
import shlex
import shutil
import sqlite3
import subprocess
import sys
import tempfile

HERE = os.path.dirname(os.path.realpath(__file__))
# nginx ignores the case of names in `tokens`, and gives the words in TAKEN a meaning of its own.
NAME = re.compile(r'[a-z0-9][a-z0-9._-]{0,63}')
TAKEN = {'default', 'hostnames', 'include', 'volatile'}
VIEWER = re.compile(r'[0-9]{1,39}|-')
# The most bytes of a password: bcrypt ignores any further ones.
LONGEST = 72
LABELS_AT_ONCE = 4000


class Refused(Exception):
    """What the user did wrong, or what failed, in words."""


class Settings:
    """What `accounts.ini` says."""

    def __init__(self, folder):
        path = os.path.join(folder, 'accounts.ini')
        read = configparser.ConfigParser(interpolation=None)
        try:
            with open(path, encoding='utf-8') as file:
                read.read_file(file)
            part = read['accounts']
            self.program, self.application, self.store = part['program'], part['application'], part['store']
            self.jac_group, self.front_group = part['jac group'], part['front group']
            self.restart_jac, self.reload_front = part['restart jac'], part['reload front']
            self.cost = part.getint('bcrypt cost', fallback=6)
        except (OSError, configparser.Error, KeyError, ValueError) as error:
            raise Refused('%s: %s' % (path, error)) from error
        if not 4 <= self.cost <= 17:
            raise Refused('%s: bcrypt cost is from 4 to 17' % path)


def pairs_of(path, form):
    """The two parts of each line of a file, by the first part. Empty if there is no such file. A malformed line is
    refused, because it would be lost when the file is written again."""
    try:
        with open(path, encoding='utf-8') as file:
            lines = file.read().splitlines()
    except FileNotFoundError:
        return {}
    pairs = {}
    for number, line in enumerate(lines, 1):
        match = re.fullmatch(form, line)
        if line.strip() and (not match or match[1] in pairs):
            raise Refused('%s: line %d %s' % (path, number, 'names this one again' if match else 'has no form'))
        if match:
            pairs[match[1]] = match[2]
    return pairs


class Accounts:
    """The three files. Nothing is written before `write`."""

    def __init__(self, folder):
        self.folder = folder
        self.users = pairs_of(os.path.join(folder, 'users'), r'(#?[^#:\s]+):(\S*)')
        self.tokens = pairs_of(os.path.join(folder, 'tokens'), r'(\S+) ([0-9A-Za-z_-]+);')
        self.viewers = pairs_of(os.path.join(folder, 'sessions'), r'([0-9A-Za-z_-]+) (\d+|-)')

    def names(self):
        return sorted(name.lstrip('#') for name in self.users)

    def is_active(self, name):
        return name in self.users

    def viewer(self, name):
        return self.viewers.get(self.tokens.get(name), '-')

    def check(self, name):
        if name not in self.names():
            raise Refused('there is no account %s' % name)

    def set_password(self, name, line):
        self.users.pop('#' + name, None)
        self.users[name] = line

    def disable(self, name):
        """Keeps the name in a comment, and removes the password."""
        self.users.pop(name, None)
        self.users['#' + name] = ''

    def set_viewer(self, name, viewer):
        """Gives the account a new token for this viewer, or removes its token if the viewer is `-`."""
        self.viewers.pop(self.tokens.pop(name, None), None)
        if viewer != '-':
            self.tokens[name] = secrets.token_hex(24)
            self.viewers[self.tokens[name]] = viewer

    def write(self, settings):
        """Replaces each of the files atomically."""
        self.put('sessions', ['%s %s' % pair for pair in self.viewers.items()], settings.jac_group)
        self.put('tokens', ['%s %s;' % pair for pair in self.tokens.items()], settings.front_group)
        self.put('users', ['%s:%s' % pair for pair in self.users.items()], settings.front_group)

    def put(self, file, lines, group):
        """Replaces a file atomically. Sets its group only if root runs the script."""
        path = os.path.join(self.folder, file)
        text = ''.join(line + '\n' for line in lines)
        try:
            owner = grp.getgrnam(group).gr_gid if os.geteuid() == 0 else -1
        except KeyError as error:
            raise Refused('there is no group %s, which accounts.ini names' % group) from error
        made, new = tempfile.mkstemp(prefix=file + '.', dir=self.folder)
        try:
            with open(made, 'w', encoding='utf-8') as out:
                out.write(text)
                os.fchown(out.fileno(), -1, owner)
                os.fchmod(out.fileno(), 0o640)
                out.flush()
                os.fsync(out.fileno())
            os.rename(new, path)
        except BaseException:
            os.unlink(new)
            raise


def checked_name(name):
    if not NAME.fullmatch(name) or name in TAKEN:
        raise Refused('a name has 1 to 64 small letters, digits, ".", "_" and "-", begins with a letter or a digit, '
                      'and is none of %s: %s is none' % (', '.join(sorted(TAKEN)), name))
    return name


def password():
    if sys.stdin.isatty():
        given = getpass.getpass('Password: ')
        if getpass.getpass('Once more: ') != given:
            raise Refused('the two passwords differ')
    else:
        given = sys.stdin.readline().rstrip('\n')
    if not given:
        raise Refused('the password is the first line of standard input, which is empty')
    if len(given.encode()) > LONGEST:
        raise Refused('a password has at most %d bytes' % LONGEST)
    return given


def hashed(name, given, cost):
    """The bcrypt hash of a password. Both nginx and Apache accept it."""
    if not shutil.which('htpasswd'):
        raise Refused('htpasswd isn\'t installed: apt install apache2-utils')
    words = ['htpasswd', '-n', '-i', '-B', '-C', str(cost), name]
    made = subprocess.run(words, input=given + '\n', stdout=subprocess.PIPE, stderr=subprocess.PIPE, text=True)
    line = made.stdout.strip()
    if made.returncode or not line.startswith(name + ':$2y$'):
        raise Refused('htpasswd: %s' % (made.stderr.strip() or 'no bcrypt'))
    return line.partition(':')[2]


def dumped(settings, store, labels):
    """The lines of a dump with these labels shown."""
    words = [settings.program, 'dump', settings.application, ','.join(map(str, labels)) or '-', '--db', store]
    done = subprocess.run(words, stdin=subprocess.DEVNULL, stdout=subprocess.PIPE, stderr=subprocess.PIPE, text=True)
    if done.returncode:
        raise Refused('the store can\'t be read: %s' % (done.stdout.splitlines() or [done.stderr])[-1])
    return done.stdout.splitlines()


def viewer_model(application):
    """The name of the model whose records are viewers, its place among the models, and how many groups it has."""
    with open(application, encoding='utf-8') as file:
        text = file.read()
    named = re.search(r'\(viewer\s+(\w+)\)', text)
    if not named:
        raise Refused('%s names no viewer: its accounts are nobody, "-"' % application)
    models = list(re.finditer(r'\(model\s+(\w+)', text))
    place = [model[1] for model in models].index(named[1])
    end = models[place + 1].start() if place + 1 < len(models) else text.find('(view ', models[place].start())
    return named[1], place, len(re.findall(r'\(group\b', text[models[place].start():end]))


def labels_of(store, place, groups):
    """The labels of all records of this model. A label is the record's id times 8, plus the position of the group."""
    with contextlib.closing(sqlite3.connect('file:%s?mode=ro' % store, uri=True)) as base:
        rows = base.execute('SELECT DISTINCT jid FROM rec WHERE model = ? ORDER BY jid', (place,))
        return [int.from_bytes(row[0], 'big') * 8 + group for row in rows for group in range(groups)]


def found(settings, text):
    """The viewers that have a text field with this text, guarded or as everybody sees it: their ids, each with the line
    of a dump. Reads a copy of the store."""
    model, place, groups = viewer_model(settings.application)
    spelled = text.replace('\\', '\\\\').replace('"', '\\"')
    record, ids = re.compile(r'%s (\d+) ' % model), collections.OrderedDict()
    with tempfile.TemporaryDirectory() as room:
        copy = os.path.join(room, 'store')
        words = [sys.executable, os.path.join(HERE, 'backup.py'), settings.store, copy]
        made = subprocess.run(words, stdin=subprocess.DEVNULL, stderr=subprocess.PIPE, text=True)
        if made.returncode:
            raise Refused('the store can\'t be copied: ' + made.stderr.strip())
        labels = labels_of(copy, place, groups)
        parts = [labels[at:at + LABELS_AT_ONCE] for at in range(0, len(labels), LABELS_AT_ONCE)]
        for part in [[], *parts]:
            for line in dumped(settings, copy, part):
                match = record.match(line)
                if match and '="%s"' % spelled in line:
                    ids.setdefault(match[1], line)
    return ids


def checked_viewer(settings, word):
    """The id of a viewer, or `-`."""
    if word.startswith('='):
        ids = found(settings, word[1:])
        if len(ids) != 1:
            some = ''.join('\n' + line for line in ids.values()) or ' none'
            raise Refused('one viewer has to have the text %s; there is:%s' % (word[1:], some))
        return next(iter(ids))
    if not VIEWER.fullmatch(word) or word != '-' and int(word) >= 1 << 128:
        raise Refused('a viewer is a number below 2^128, "-", or "=" and a text: %s is none' % word)
    return word


def run(name, command):
    """Runs a command of accounts.ini, unless it is empty."""
    words = shlex.split(command)
    if words:
        try:
            status = subprocess.run(words, stdin=subprocess.DEVNULL).returncode
        except OSError as error:
            status = error
        if status:
            raise Refused('the files are written, but "%s" failed (%s): %s. Once it can be done: account.py FOLDER '
                          'reload' % (name, status, command))


def reload_all(settings):
    """Makes jac read its sessions first, so that it never gets a token that it doesn't know."""
    run('restart jac', settings.restart_jac)
    run('reload front', settings.reload_front)


def add(accounts, settings, words):
    name = checked_name(words.name)
    if name in accounts.names():
        raise Refused('there is an account %s already' % name)
    viewer = checked_viewer(settings, words.viewer)
    accounts.set_password(name, hashed(name, password(), settings.cost))
    accounts.set_viewer(name, viewer)
    accounts.write(settings)
    if viewer != '-':
        reload_all(settings)


def change_password(accounts, settings, words):
    accounts.check(words.name)
    accounts.set_password(words.name, hashed(words.name, password(), settings.cost))
    accounts.write(settings)


def change_viewer(accounts, settings, words):
    accounts.check(words.name)
    accounts.set_viewer(words.name, checked_viewer(settings, words.viewer))
    accounts.write(settings)
    reload_all(settings)


def disable(accounts, settings, words):
    accounts.check(words.name)
    accounts.disable(words.name)
    accounts.write(settings)


def show(accounts, settings, words):
    for name in accounts.names():
        print('%s %s %s' % (name, accounts.viewer(name), 'active' if accounts.is_active(name) else 'disabled'))


def find(accounts, settings, words):
    ids = found(settings, words.text)
    for line in ids.values():
        print(line)
    if not ids:
        raise Refused('no viewer has the text %s' % words.text)


def reload(accounts, settings, words):
    reload_all(settings)


def parser():
    made = argparse.ArgumentParser(description=__doc__.split('\n')[0], epilog=__doc__.split('\n\n')[-1])
    made.add_argument('folder',
                      help='the folder with users, tokens, sessions and accounts.ini, such as /etc/jac/calendar')
    commands = made.add_subparsers(dest='command', required=True, metavar='COMMAND')
    for word, what, does, takes in (
            ('add', 'adds an account, with its password', add, ('name', 'viewer')),
            ('password', 'changes the password of an account, and activates the account if it is disabled',
             change_password, ('name',)),
            ('viewer', 'changes the viewer of an account', change_viewer, ('name', 'viewer')),
            ('disable', 'ends an account\'s logins at once, and allows no new ones', disable, ('name',)),
            ('list', 'prints each account: its name, its viewer, and whether it is active', show, ()),
            ('find', 'prints the viewers that have a field with this text in the store', find, ('text',)),
            ('reload', 'runs both commands of accounts.ini', reload, ())):
        command = commands.add_parser(word, help=what)
        command.set_defaults(does=does)
        for each in takes:
            command.add_argument(each)
    return made


def main():
    words = parser().parse_args()
    try:
        settings = Settings(words.folder)
        lock = os.open(words.folder, os.O_RDONLY)
        fcntl.flock(lock, fcntl.LOCK_EX)
        words.does(Accounts(words.folder), settings, words)
    except (Refused, OSError) as error:
        sys.exit('account.py: %s' % error)


if __name__ == '__main__':
    main()
