#!/usr/bin/env python3
"""Proves and builds a program.

Runs the kit's `rt ci` over the program's crate and its lower crates, in a copy that has none of their wrong bodies. The
kit decides which crates are proved in parallel. A kit that keeps proofs keeps these too, for later runs and for the
gate. Every 20 seconds a line on standard error says how many crates are proved, how many minutes have passed, and how
many are expected to be left by the table of costs in docs/TESTING.md. If a proof fails, its log is printed, and the
exit status is 70."""
import os
import re
import selectors
import shutil
import signal
import subprocess
import sys
import tempfile
import time

sys.dont_write_bytecode = True
import kit                                                                  # noqa: E402
from arguments import script_parser                                         # noqa: E402
from costs import costs                                                     # noqa: E402
from crates import PROGRAM, TOP, below, copy_crate                          # noqa: E402
from program import PROVED, State, is_current                               # noqa: E402
from schedule import Task, computed, processors                             # noqa: E402

EVERY = 20      # seconds until the next progress line
PROVED_LINE = re.compile(r'rt: (\w+) proved\n')
KEPT_LINE = re.compile(r'rt: (\w+) is kept: ')
FAILED_LINE = re.compile(r'rt: (\w+) NOT PROVED')


class Stopped(SystemExit):
    """A signal ends this script."""

    def __init__(self, number):
        super().__init__(128 + number)
        self.name = signal.Signals(number).name


def tell(text):
    print('jac: ' + text, file=sys.stderr, flush=True)


def minutes(number):
    return '%d min' % round(number) if number >= 1 else 'less than a minute'


def copy(names, folder):
    """Copies what a proof of these crates reads into a folder, and makes it the top of a repository for the kit."""
    for name in names:
        copy_crate(name, folder)
    with open(os.path.join(TOP, 'crates.txt'), encoding='utf-8') as every:
        lines = [line for line in every if line.partition(':')[0].split()[:1] in [[name] for name in names]]
    with open(os.path.join(folder, 'crates.txt'), 'w', encoding='utf-8') as chosen:
        chosen.writelines(lines)
    shutil.copyfile(os.path.join(TOP, 'HANDLES'), os.path.join(folder, 'HANDLES'))
    os.mkdir(os.path.join(folder, '.git'))


class Progress:
    """What `rt ci` has printed about crates: those that it proved, those whose proofs an earlier run kept, and those
    that failed, with their logs."""

    def __init__(self, crates):
        """`crates` has for each crate the crates that it uses, lowest first."""
        self.crates, self.began = crates, time.monotonic()
        self.proved, self.kept, self.failed, self.log, self.told = set(), set(), [], [], []

    def read(self, line):
        if line.startswith('== '):
            self.log = []
        self.log.append(line)
        if found := PROVED_LINE.fullmatch(line):
            self.proved.add(found.group(1))
            return True
        if found := KEPT_LINE.match(line):
            self.kept.add(found.group(1))
        elif found := FAILED_LINE.match(line):
            self.failed.append(found.group(1))
            self.told += self.log
            self.log = []
        return False

    def minutes(self):
        return (time.monotonic() - self.began) / 60

    def computed(self, names):
        """The minutes that these proofs would take by the table of costs."""
        cost = costs(names)
        return computed([Task(name, [other for other in self.crates[name] if other in names], cost[name].proof,
                              cost[name].memory, None) for name in names], processors()) if names else 0

    def left(self):
        """The minutes that are expected to be left: those of the table, scaled by how long the proofs took so far."""
        new = [name for name in self.crates if name not in self.kept]
        left = self.computed([name for name in new if name not in self.proved])
        past = self.computed(new) - left
        return left * (self.minutes() / past if past > 1 else 1)

    def __str__(self):
        left = self.left()
        return '%d of %d crates, %s gone, %s%s left by the table of costs' % (
            len(self.proved | self.kept), len(self.crates), minutes(self.minutes()), 'about ' if left >= 1 else '',
            minutes(left))


def lines_of(process):
    """The lines that a process prints, each as soon as it is there, and None whenever it has printed none for a while.
    Ends when the process has closed its output."""
    text = b''
    with selectors.DefaultSelector() as ready:
        ready.register(process.stdout, selectors.EVENT_READ)
        while True:
            if not ready.select(EVERY):
                yield None
                continue
            more = os.read(process.stdout.fileno(), 1 << 16)
            if not more:
                return
            *whole, text = (text + more).split(b'\n')
            yield from (line.decode(errors='replace') + '\n' for line in whole)


def follow(process, progress):
    """Prints the progress until the process ends."""
    told = time.monotonic()
    for line in lines_of(process):
        proved = line is not None and progress.read(line)
        if time.monotonic() - told > EVERY or proved and time.monotonic() - told > EVERY / 4:
            tell(str(progress))
            told = time.monotonic()
    process.wait()


def why_not(process, progress):
    """Why the process proved less than it should, in words, or None."""
    if progress.failed:
        return '%s is not proved: its log is above' % progress.failed[0]
    if process.returncode < 0:
        name = signal.Signals(-process.returncode).name
        return 'rt was ended by %s%s' % (name, ', as the system does where memory runs out' if name == 'SIGKILL' else '')
    if process.returncode:
        return 'rt ended with status %d: its log is above' % process.returncode
    return None


def prove(words, folder, crates):
    """Runs this command in the folder, which proves the crates. Returns whether it succeeded. After a signal it prints
    how many crates are proved."""
    progress = Progress(crates)
    tell('proving and building %s; %s' % (list(crates)[-1], progress))
    process = subprocess.Popen(words, cwd=folder, stdin=subprocess.DEVNULL, stdout=subprocess.PIPE,
                               stderr=subprocess.STDOUT, start_new_session=True)
    try:
        follow(process, progress)
    except Stopped as stopped:
        tell('stopped by %s: %d of %d crates are proved' % (
            stopped.name, len(progress.proved | progress.kept), len(crates)))
        raise
    finally:
        if process.poll() is None:
            os.killpg(process.pid, signal.SIGTERM)
            process.wait()
    why = why_not(process, progress)
    if why:
        sys.stderr.writelines(progress.told or progress.log)
        tell(why)
        return False
    tell('%s is proved and built, in %s' % (list(crates)[-1], minutes(progress.minutes())))
    return True


def take(folder, program):
    """Moves the program that was built in this folder to where `jac` finds it."""
    made, place = (os.path.join(top, 'crates', program, 'out', program) for top in (folder, TOP))
    if os.path.isfile(made):
        os.makedirs(os.path.dirname(place), exist_ok=True)
        shutil.copy2(made, place + '.new')
        os.replace(place + '.new', place)


def build(program):
    """Proves and builds the program. If `jac` runs this program, records the sources that it was built from."""
    if program == PROGRAM and is_current(PROVED):
        tell('the program stands, proved and built of these sources')
        return 0
    rt, state, crates = kit.path(), State(PROVED), below(program)
    with tempfile.TemporaryDirectory(prefix='jac-prove-') as room:
        folder = os.path.join(room, 'copy')
        copy(crates, folder)
        if not prove([rt, 'ci'], folder, crates):
            return 70
        if State(PROVED).content != state.content:
            tell('the sources have changed meanwhile: once more')
            return build(program)
        take(folder, program)
    if program == PROGRAM:
        state.note(PROVED)
    return 0


def stop_by(number, _):
    raise Stopped(number)


def main():
    parser = script_parser('./prove')
    parser.add_argument('crate', metavar='CRATE', nargs='?', default=PROGRAM,
                        help="the program's crate (default: %(default)s)")
    return build(parser.parse_args().crate)


if __name__ == '__main__':
    # so that running proofs end with this script
    for number in signal.SIGTERM, signal.SIGHUP, signal.SIGINT:
        signal.signal(number, stop_by)
    sys.exit(main())
