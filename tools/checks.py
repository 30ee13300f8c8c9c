#!/usr/bin/env python3
"""Runs the checks, which test the program from outside. Several run in parallel. Those that measure time run one after
another. They test the proved program if it was built from these sources, or else the trial, which is built first. If
JAC_PROVED is set, the trial isn't used. A line says how each check ended. The last line counts the checks that passed
and failed, and those that were skipped, fully or in part, because a program isn't installed. The exit status is 1 if a
check failed, and 70 if there is no program to test."""
import argparse
import collections
import os
import re
import shutil
import signal
import subprocess
import sys
import tempfile
import time

sys.dont_write_bytecode = True
from crates import TOP                                                      # noqa: E402
from program import PROVED, TRIAL, is_current                               # noqa: E402
from schedule import processors                                             # noqa: E402

CHECKS = os.path.join(TOP, 'checks')
sys.path.append(CHECKS)
from support.installed import SKIPPED, missing, told                        # noqa: E402

LIST = os.path.join(CHECKS, 'list.txt')
TAIL = 40                           # lines of a failed check that are printed
COUNT = re.compile(r'(?m)^(\d+) passed, (\d+) failed(?:, (\d+) skipped)?$')
PART = re.compile(r'(?im)^skipped[:,]? (.*)$')
MOST_SHARE = 4                      # how much longer a check may take on a busy machine
FAULT = 70                          # the exit status if there is no program to test

Check = collections.namedtuple('Check', 'name words needs seconds alone about')     # a line of the list


def tell(text):
    print('test: ' + text, flush=True)


def read_line(line):
    """The check that a line of the list describes."""
    cells = [cell.strip() for cell in line.split('|')]
    name, words, needs, seconds, alone, about = cells
    needs = [tuple(need.strip().split('/')) for need in needs.split(',') if need]
    return Check(name, tuple(words.split()), tuple(needs), float(seconds), {'yes': True, 'no': False}[alone], about)


def read_list():
    checks = {}
    with open(LIST, encoding='utf-8') as lines:
        for number, line in enumerate(lines, 1):
            if line.strip() and not line.startswith('#'):
                try:
                    check = read_line(line)
                except (ValueError, KeyError):
                    sys.exit('%s, line %d: not a check: %s' % (LIST, number, line.strip()))
                checks[check.name] = check
    return checks


def print_list(checks):
    for check in checks:
        needs = ', '.join('/'.join(names) for names in check.needs)
        print('%-13s %3d s%s  %s%s' % (check.name, check.seconds, ', alone' if check.alone else '       ', check.about,
                                       ' (needs %s)' % needs if needs else ''))


def build_trial():
    words = [sys.executable, os.path.join(TOP, 'tools', 'trial.py')]
    with subprocess.Popen(words, stdin=subprocess.DEVNULL) as build:
        try:
            return build.wait() == 0
        finally:
            build.terminate()


def choose():
    """The program to test, or None if there is none. Prints which program it is."""
    if is_current(PROVED):
        tell('the proved program of these sources')
        return './jac'
    stale = 'the proved program is of other sources' if os.path.exists(PROVED) else 'there is no proved program'
    if os.environ.get('JAC_PROVED'):
        tell('%s, and JAC_PROVED asks for it: ./prove makes it' % stale)
        return None
    tell(stale + ', so this checks the trial, which is not proved')
    return TRIAL if build_trial() else None


class Run:
    """A running check, with its own process group and its own temporary directory."""

    def __init__(self, check, program, room):
        self.check, self.began, self.seconds, self.late = check, time.monotonic(), 0, False
        self.folder = os.path.join(room, check.name)
        os.mkdir(self.folder)
        given = dict(os.environ, TMPDIR=self.folder, PYTHONDONTWRITEBYTECODE='1', PYTHONUNBUFFERED='1')
        given.pop('JAC_PROVED', None)
        if program != TRIAL:
            given['JAC_PROVED'] = '1'
        words = [program if word == 'PROGRAM' else word for word in check.words]
        self.log = tempfile.TemporaryFile()
        self.process = subprocess.Popen(
            [sys.executable, os.path.join('checks', check.name + '.py'), *words], cwd=TOP, env=given,
            stdin=subprocess.DEVNULL, stdout=self.log, stderr=subprocess.STDOUT, preexec_fn=os.setpgrp)

    def most(self):
        """The seconds after which the check counts as hanging. A busy machine gives it more."""
        share = max(os.getloadavg()) / processors()
        return (600 + 10 * self.check.seconds) * min(MOST_SHARE, max(1, share))

    def is_over(self):
        ended = os.waitid(os.P_PID, self.process.pid, os.WEXITED | os.WNOHANG | os.WNOWAIT)
        self.seconds = time.monotonic() - self.began
        self.late = ended is None and self.seconds > self.most()
        if ended is None and not self.late:
            return False
        self.end()
        return True

    def end(self):
        """Ends the check and all processes that it left running, and removes its files."""
        # nobody has waited for the process yet, so the system can't have given its id to another one
        os.killpg(self.process.pid, signal.SIGKILL)
        self.process.wait()
        shutil.rmtree(self.folder, ignore_errors=True)

    def output(self):
        self.log.seek(0)
        return self.log.read().decode('utf-8', 'replace')


class Outcome:
    """The result of a check, by its exit status and its output."""

    def __init__(self, run):
        self.output, self.status = run.output(), run.process.returncode
        counted = None
        for counted in COUNT.finditer(self.output):
            pass
        self.counted = counted.group() if counted else ''
        self.passed, self.failed, skipped = (int(count or 0) for count in counted.groups()) if counted else (None, 0, 0)
        self.parts = PART.findall(self.output) or ['%d parts' % skipped] * bool(skipped)
        self.hangs = run.late

    def is_skipped(self):
        return self.status in (0, SKIPPED) and bool(self.parts) and not self.passed and not self.failed

    def fault(self):
        """Why the check counts as failed, or None."""
        if self.hangs:
            return 'was ended, as it seemed to hang'
        if self.status:
            return 'ended with status %d' % self.status
        if self.failed:
            return 'ended with status 0, and %s' % self.counted
        return 'checked nothing' if self.passed == 0 else None


class Report:
    """Prints the results of checks, and counts them."""

    def __init__(self):
        self.counts = collections.Counter()

    def line(self, how, name, took, text):
        self.counts[how] += 1
        print(('%-8s %-13s %8s  %s' % (how, name, took, text)).rstrip(), flush=True)

    def skip(self, name, why):
        self.line('skipped', name, '', why)

    def ended(self, run):
        name, outcome, took = run.check.name, Outcome(run), '%.1f s' % run.seconds
        if not outcome.is_skipped():
            fault = outcome.fault()
            self.line('failed' if fault else 'passed', name, took, fault or outcome.counted)
            if fault:
                tail = outcome.output.splitlines()[-TAIL:]
                print(''.join('         | %s\n' % line for line in tail), end='', flush=True)
        for part in outcome.parts:
            self.skip(name, part)

    def last(self):
        skipped = self.counts['skipped']
        print('%d passed, %d failed%s' % (self.counts['passed'], self.counts['failed'],
                                          ', %d skipped' % skipped if skipped else ''))


def run_all(checks, jobs, program, report):
    """Runs the checks that may run in parallel, longest first. Then runs those that measure time, one after another."""
    waiting = sorted(checks, key=lambda check: (check.alone, -check.seconds))
    running = []
    with tempfile.TemporaryDirectory(prefix='jac-test-', ignore_cleanup_errors=True) as room:
        # login.py starts Apache, which reads its files as another user
        os.chmod(room, 0o711)
        try:
            while waiting or running:
                while waiting and len(running) < jobs and not (running and waiting[0].alone):
                    running.append(Run(waiting.pop(0), program, room))
                time.sleep(0.05)
                for run in [run for run in running if run.is_over()]:
                    running.remove(run)
                    report.ended(run)
        finally:
            for run in running:
                run.end()


def arguments(checks):
    parser = argparse.ArgumentParser(prog='./test', description=__doc__)
    parser.add_argument('names', metavar='NAME', nargs='*', help='the checks to run (default: all)')
    parser.add_argument('--list', action='store_true', help='list the checks, and run none')
    parser.add_argument('--jobs', metavar='N', type=int, default=processors(),
                        help='how many checks run in parallel (default: %(default)s, one for each processor)')
    given = parser.parse_args()
    unknown = [name for name in given.names if name not in checks]
    if unknown:
        parser.error('no such check: %s; there are %s' % (', '.join(unknown), ', '.join(checks)))
    if given.jobs < 1:
        parser.error('at least one check runs at once')
    return given


def main():
    checks = read_list()
    given = arguments(checks)
    wanted = [check for name, check in checks.items() if not given.names or name in given.names]
    if given.list:
        print_list(wanted)
        return 0
    report, program, began = Report(), None, time.monotonic()
    lacking = {check: missing(check.needs) for check in wanted}
    ready = [check for check in wanted if not lacking[check]]
    if any('PROGRAM' in check.words for check in ready):
        program = choose()
        if not program:
            return FAULT
    for check in wanted:
        if lacking[check]:
            report.skip(check.name, ', '.join(map(told, lacking[check])))
    run_all(ready, given.jobs, program, report)
    tell('took %d s' % (time.monotonic() - began))
    report.last()
    return 1 if report.counts['failed'] else 0


if __name__ == '__main__':
    # so that running checks end with this script
    for number in signal.SIGTERM, signal.SIGHUP, signal.SIGINT:
        signal.signal(number, lambda number, _: sys.exit(128 + number))
    sys.exit(main())
