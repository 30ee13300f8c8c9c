#!/usr/bin/env python3
"""Compares the built program with one that caches nothing between requests, on random applications and random requests
of several viewers in turn. Each reply, each line of the audit, and the dump at the end must be the same. This check
isn't part of the gate.

Arguments: the program, a time such as `600s` or a number of applications, and the seed of the first application (by
default the time). The other program is a trial of these sources that caches labels for no viewer. It is built in a
temporary directory, which takes some minutes, unless JAC_FORGETFUL names it. What is right is checked by the second
interpreter (compare.py). This check makes longer runs, with more labels than that interpreter can handle.

Every other application is `linked.app`. Each of its policies links few labels: those of its own record and of the
records that its fields refer to. So after a change only some of the labels are computed again. The policies of the
random applications mostly read whole tables."""
import os
import random
import re
import shutil
import subprocess
import sys
import tempfile
import time

from compare import Maker, read_words, written

TOP = os.path.dirname(os.path.dirname(os.path.abspath(__file__)))
KEPT = 'crates/jac_viewer_caches/src/viewer_caches.rt', r'(const VIEWERS: usize = )\d+;', r'\g<1>0;'
MOST_NUMBERS = 12       # requests name records that were made by requests with smaller numbers than this
MOST_SECONDS = 20       # for one run
VIEWERS = None, 4096, 8192, 12288, 12289, 16384


def forgetful(folder):
    """Returns the path of the program that caches nothing. Builds it from these sources unless JAC_FORGETFUL names
    it."""
    given = os.environ.get('JAC_FORGETFUL')
    if given:
        return os.path.abspath(given)
    copy = os.path.join(folder, 'copy')
    shutil.copytree(TOP, copy, ignore=shutil.ignore_patterns('out', '.git'))
    path, old, new = KEPT
    with open(os.path.join(copy, path), encoding='utf-8') as file:
        text, count = re.subn(old, new, file.read())
    if count != 1:
        sys.exit('%s has no line that says for how many viewers labels are cached' % path)
    with open(os.path.join(copy, path), 'w', encoding='utf-8') as file:
        file.write(text)
    done = subprocess.run([sys.executable, os.path.join(copy, 'tools', 'trial.py'), '--print'], stdout=subprocess.PIPE)
    if done.returncode:
        sys.exit('the program that caches nothing could not be built')
    return done.stdout.decode().strip()


def ran(words, folder):
    """Runs a program to its end, or returns None if it took too long. Some applications need minutes for one
    request."""
    try:
        return subprocess.run(words, cwd=folder, stdin=subprocess.DEVNULL, stdout=subprocess.PIPE, stderr=subprocess.DEVNULL,
                              timeout=MOST_SECONDS)
    except subprocess.TimeoutExpired:
        return None


class Case:
    """An application, and requests to it that name records which may exist."""

    def __init__(self, seed):
        self.maker = Maker(seed)
        self.text = written(self.maker.application()).encode()
        random = self.maker.random
        models = range(len(self.maker.models))
        self.keys = [(number * 64 + site) * 64 + model for number in range(1, MOST_NUMBERS) for site in range(3) for model in models]
        self.viewers = random.sample(VIEWERS, 3)
        self.lines = [self.line() for _ in range(random.randint(20, 80))]
        self.stored = random.random() < 0.3

    def line(self):
        method, path, query, body = self.maker.request(self.keys)
        number = self.maker.pick(self.viewers)
        target = path + ('?' + query if query else '')
        return 'ask %s %s "%s" "%s"\n' % ('-' if number is None else number, method, target, body)

    def put_files(self, folder):
        with open(os.path.join(folder, 'app'), 'wb') as file:
            file.write(self.text)
        with open(os.path.join(folder, 'events'), 'w') as file:
            file.write(''.join(self.lines))

    def told_by(self, program, folder):
        """Returns the status, the replies, the audit, and the dump of the store if there is one. Returns None if the
        run took too long."""
        for name in ('audit', 'store'):
            if os.path.exists(os.path.join(folder, name)):
                os.remove(os.path.join(folder, name))
        words = [program, 'replay', 'app', 'events', '--audit', 'audit'] + ['--db', 'store'] * self.stored
        done = ran(words, folder)
        if done is None:
            return None
        with open(os.path.join(folder, 'audit'), 'rb') as file:
            audit = file.read()
        dump = b''
        if self.stored:
            dump = ran([program, 'dump', 'app', '-', '--db', 'store'], folder).stdout
        return done.returncode, done.stdout.split(b'\n'), audit.split(b'\n'), dump.split(b'\n')


class Linked(Case):
    """The application whose policies link few labels, with many requests to it."""
    OTHERS = {'review': 'paper', 'vote': 'review'}
    SECOND = {'paper': 'title'}

    def __init__(self, seed):
        with open(os.path.join(TOP, 'checks', 'linked.app'), 'rb') as file:
            self.text = file.read()
        self.random, self.stored = random.Random(seed), False
        self.made = {'paper': [], 'review': [], 'vote': []}
        self.lines = ['ask - POST "/join" "name=Ann"\n', 'ask - POST "/join" "name=Bob"\n']
        self.fill(self.random.randint(20, 200), self.random.randint(40, 200))

    def fill(self, first, more):
        for _ in range(first):
            self.add()
        for _ in range(more):
            self.random.choice((self.add, self.set, self.set, self.set, self.remove, self.look))()

    def ask(self, method, path, body=''):
        self.lines.append('ask %s %s "%s" "%s"\n' % (self.random.choice(('4096', '4096', '8192', '-')), method, path, body))

    def one(self, model):
        return self.random.choice(self.made[model] or [4096])

    def form(self, model):
        choice, other = self.random.choice, self.OTHERS.get(model)
        pairs = [(other, self.one(other))] if other else []
        pairs += [(self.SECOND.get(model, 'words'), choice(('raid', 'raid', 'tea'))), ('open', choice('1110'))]
        pairs += [('kind', choice('0112'))] * (model != 'vote')
        return '&'.join('%s=%s' % pair for pair in pairs)

    def add(self):
        model = self.random.choice(list(self.made))
        self.ask('POST', '/' + model, self.form(model))
        self.made[model].append((len(self.lines)) * 4096 + list(self.made).index(model) + 1)

    def set(self):
        model = self.random.choice(list(self.made))
        self.ask('POST', '/%s/set' % model, 'id=%d&%s' % (self.one(model), self.form(model)))

    def remove(self):
        model = self.random.choice(list(self.made))
        self.ask('POST', '/%s/remove' % model, 'id=%d' % self.one(model))

    def look(self):
        self.ask('GET', '/all')


def difference(have, want):
    """Returns the first difference between two runs, or None."""
    if have == want:
        return None
    if have[0] != want[0]:
        return 'status %d, and %d of the program that caches nothing' % (have[0], want[0])
    for what, one, other in zip(('reply', 'line of the audit', 'line of the dump'), have[1:], want[1:]):
        for place, pair in enumerate(zip(one, other)):
            if pair[0] != pair[1]:
                return '%s %d: %r, and %r of the program that caches nothing' % (what, place + 1, *pair)
        if len(one) != len(other):
            return '%d of kind %s, and %d of the program that caches nothing' % (len(one), what, len(other))


def main():
    program, most, seconds, first = read_words()
    seed = first
    requests = labels = slow = wrong = 0
    with tempfile.TemporaryDirectory() as folder:
        other = forgetful(folder)
        began = time.monotonic()
        while (time.monotonic() - began < seconds if most is None else seed - first < most) and wrong < 5:
            case = (Case, Linked)[seed % 2](seed)
            case.put_files(folder)
            seed += 1
            have = case.told_by(program, folder)
            want = None if have is None else case.told_by(other, folder)
            if want is None:
                slow += 1
                continue
            told = difference(have, want)
            if told:
                wrong += 1
                print('FAILED seed %d: %s' % (seed - 1, told))
                if most == 1:
                    print(case.text.decode() + '\n' + ''.join(case.lines))
            requests, labels = requests + len(case.lines), max([labels] + [line.count(b',') + 1 for line in have[2]])
    print('%d applications, %d of which took too long, %d requests, at most %d labels, from seed %d on: %d differ' % (
        seed - first, slow, requests, labels, first, wrong))
    sys.exit(1 if wrong else 0)


if __name__ == '__main__':
    main()
