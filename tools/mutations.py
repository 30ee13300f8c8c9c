#!/usr/bin/env python3
"""Tries the wrong bodies in checks/mutations, which aren't part of the gate. The prover has to refuse each of them.

    python3 tools/mutations.py [NAME ..]         tries those of these crates (default: all crates)
    python3 tools/mutations.py --list [NAME ..]  counts them, and lists those that can't be applied; nothing is proved

The script works on a copy of `crates/`, `crates.txt` and `HANDLES`, one crate after the other, lowest first. In the
copy, the wrong bodies of checks/mutations/NAME replace the crate's own, and the kit's `rt must-fail NAME` tries them.
This also proves the lower libraries that are missing, so the first crate of a run may take long. The copy is removed
when the run ends. With `--room FOLDER` the copy is in FOLDER and stays, so that a later run needn't prove the same
libraries again.

A line for each crate says how many wrong bodies were refused, and how long that took. The others are listed. Also
listed are those that were refused only because a proof names what they removed, because that says little about the
contract. The exit status is 0 if all were refused."""
import argparse
import collections
import os
import re
import shutil
import subprocess
import sys
import tempfile
import time

sys.dont_write_bytecode = True
import kit                                                                  # noqa: E402
from crates import TOP, copy_crate, crates                                  # noqa: E402

FOLDER = os.path.join(TOP, 'checks', 'mutations')
REFUSED, BY_NAME, MISSED, BAD, UNTRIED = 'refused', 'refused for a name alone', 'NOT REFUSED', 'BAD EDIT', 'NOT TRIED'
SAID = re.compile(r'^(?:rt: )?must-fail (\w+)/(\S+?)\.edit: (refused|NOT REFUSED|BAD EDIT|NOT TRIED)(.*)$')
NAME_ALONE = 'only because a proof file names what the edit took away'


def edits_of(name):
    """The paths of the crate's wrong bodies in checks/mutations."""
    folder = os.path.join(FOLDER, name)
    names = sorted(os.listdir(folder)) if os.path.isdir(folder) else []
    return [os.path.join(folder, file) for file in names if file.endswith('.edit')]


def outcome_of(said, rest):
    """The outcome of a wrong body, by what `rt` says about it."""
    return BY_NAME if said == REFUSED and NAME_ALONE in rest else said


def outcomes_in(output, name):
    """The outcome of each of the crate's wrong bodies, by name, with the words that `rt` prints after it."""
    found = {}
    for line in output.split('\n'):
        match = SAID.match(line)
        if match and match[1] == name:
            found[match[2]] = outcome_of(match[3], match[4]), match[4].removeprefix(', as it must be').lstrip(': ')
    return found


class Room:
    """A copy of the crates, for trying wrong bodies."""

    def __init__(self, folder):
        self.folder = os.path.abspath(folder)
        os.makedirs(self.folder, exist_ok=True)
        for name in 'crates.txt', 'HANDLES':
            shutil.copy2(os.path.join(TOP, name), self.folder)
        for name in crates():
            self.bring(name)

    def crate(self, name):
        return os.path.join(self.folder, 'crates', name)

    def bring(self, name):
        """Copies the crate's files anew. What was proved before stays."""
        for part in os.listdir(self.crate(name)) if os.path.isdir(self.crate(name)) else []:
            path = os.path.join(self.crate(name), part)
            if part != 'out':
                shutil.rmtree(path) if os.path.isdir(path) else os.remove(path)
        copy_crate(name, self.folder)

    def put(self, name, edits):
        folder = os.path.join(self.crate(name), 'must-fail')
        os.makedirs(folder)
        for edit in edits:
            shutil.copy2(edit, folder)

    def tries(self, rt, name):
        """What `rt must-fail` prints for the crate."""
        ran = subprocess.run([rt, 'must-fail', name], cwd=self.folder, stdin=subprocess.DEVNULL, text=True, errors='replace',
                             stdout=subprocess.PIPE, stderr=subprocess.STDOUT)
        return ran.stdout


def try_crate(room, rt, name):
    """Tries the crate's wrong bodies, prints the outcomes, and returns how often each outcome occurred."""
    edits, began = edits_of(name), time.monotonic()
    room.put(name, edits)
    output = room.tries(rt, name)
    found = outcomes_in(output, name)
    names = [os.path.splitext(os.path.basename(edit))[0] for edit in edits]
    outcomes = {edit: found.get(edit, (UNTRIED, 'rt must-fail says nothing of it')) for edit in names}
    counts = collections.Counter(outcome for outcome, _ in outcomes.values())
    refused = counts[REFUSED] + counts[BY_NAME]
    print('%s: %d of %d refused, %.1f minutes' % (name, refused, len(edits), (time.monotonic() - began) / 60), flush=True)
    for edit, (outcome, rest) in outcomes.items():
        if outcome != REFUSED:
            print('    %s: %s: %s' % (edit, outcome, rest[:300]), flush=True)
    if not found:
        print(''.join('    | %s\n' % line for line in output.rstrip('\n').split('\n')[-6:]), end='', flush=True)
    return counts


def try_all(names, folder):
    rt, counts = kit.path(), collections.Counter()
    room = Room(folder)
    for name in names:
        counts += try_crate(room, rt, name)
    wrong = counts[MISSED] + counts[BAD] + counts[UNTRIED]
    print('%d refused, %d of them for a name alone; %d not refused, %d that can\'t be read or applied, %d not tried'
          % (counts[REFUSED] + counts[BY_NAME], counts[BY_NAME], counts[MISSED], counts[BAD], counts[UNTRIED]))
    return 1 if wrong else 0


def list_all(names):
    """Prints how many wrong bodies each crate has, and which can't be applied."""
    read_edit, total, wrong = kit.load().read_edit, 0, 0
    for name in names:
        edits = edits_of(name)
        total += len(edits)
        print('%s: %d' % (name, len(edits)))
        for edit in edits:
            why = read_edit(edit, os.path.join(TOP, 'crates', name))[1]
            wrong += bool(why)
            if why:
                print('    %s: %s' % (os.path.splitext(os.path.basename(edit))[0], why))
    print('%d wrong bodies, %d can\'t be applied' % (total, wrong))
    return 1 if wrong else 0


def main():
    reader = argparse.ArgumentParser(description=__doc__, formatter_class=argparse.RawDescriptionHelpFormatter)
    reader.add_argument('names', metavar='NAME', nargs='*', help='a crate (default: all that have wrong bodies there)')
    reader.add_argument('--list', action='store_true', help='only count them, and list those that can\'t be applied')
    reader.add_argument('--room', metavar='FOLDER', help='the folder for the copy, which then stays')
    words = reader.parse_args()
    have = [name for name in crates() if edits_of(name)]
    lacking = [name for name in words.names if name not in have]
    if lacking:
        reader.error('checks/mutations has no wrong bodies of %s' % ', '.join(lacking))
    names = [name for name in have if name in words.names or not words.names]
    if words.list:
        sys.exit(list_all(names))
    if words.room:
        sys.exit(try_all(names, words.room))
    with tempfile.TemporaryDirectory(prefix='jac-mutations-') as folder:
        sys.exit(try_all(names, folder))


if __name__ == '__main__':
    main()
