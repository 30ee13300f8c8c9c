#!/usr/bin/env python3
"""Checks what a build and a proof print while they work, and when they are stopped. Commands that sleep replace the
compiler and the proofs. No arguments. Prints each failed case, then a count."""
import os
import re
import signal
import subprocess
import sys
import tempfile
import time

TOP = os.path.dirname(os.path.dirname(os.path.abspath(__file__)))
sys.path.append(os.path.join(TOP, 'tools'))
from arguments import script_parser                                         # noqa: E402

WAIT = 120      # seconds; the machine may be busy with other programs

# Each of these scripts imports modules of tools/, and gets a folder of its own as its argument.
TRIAL = '''
import trial
trial.EVERY = 0.5
room = sys.argv[1]
work = """
import os, time
time.sleep(1.2)
open('printed.ll', 'w').close(); time.sleep(1.2)
open('parts', 'w').write('2'); time.sleep(1.2)
open('part0.o', 'w').close(); time.sleep(1.2)
open('part1.o', 'w').close(); time.sleep(1.2)
os.write(2, b'what it said')
"""
print(trial.run_telling([sys.executable, '-c', work], room, cwd=room))
'''
STOPPED = '''
import trial
for number in signal.SIGTERM, signal.SIGHUP, signal.SIGINT:
    signal.signal(number, trial.stop_by)
print('begun', flush=True)
trial.run_telling(['sleep', '600'], sys.argv[1])
'''
PROOF = '''
import build

build.EVERY = 0.5
for number in signal.SIGTERM, signal.SIGHUP, signal.SIGINT:
    signal.signal(number, build.stop_by)
rt = {
    'long': 'echo rt: first is kept: an earlier run; echo rt: second proved; exec sleep 600',
    'right': 'echo rt: first proved; sleep 1.2; echo == second; echo rt: second proved; echo rt: third proved',
    'wrong': 'echo == first; echo its log; echo rt: first proved; echo == second; echo a goal; echo rt: second NOT PROVED; '
             'echo rt: third NOT PROVED: its library second failed; exit 1',
    'refused': 'echo why; exit 2',
    'killed': 'echo rt: first proved; kill -KILL $$',
}[sys.argv[2]]
crates = {'first': [], 'second': ['first'], 'third': ['second']}
sys.exit(0 if build.prove(['bash', '-c', rt], sys.argv[1], crates) else 70)
'''
COPY = '''
import build, crates
names = crates.below('jac_rows')
build.copy(names, sys.argv[1] + '/copy')
found = sorted(os.listdir(sys.argv[1] + '/copy/crates'))
print(found == sorted(names), sorted(os.listdir(sys.argv[1] + '/copy')))
with open(sys.argv[1] + '/copy/crates.txt') as lines:
    print([line.partition(':')[0] for line in lines] == list(names))
print([name for _, folders, _ in os.walk(sys.argv[1]) for name in folders if name in ('out', 'must-fail')])
'''
BEGIN = '''import os, signal, subprocess, sys
sys.path.insert(0, %r)
sys.dont_write_bytecode = True
''' % os.path.join(TOP, 'tools')


def begun(script, folder, *words):
    return subprocess.Popen([sys.executable, '-c', BEGIN + script, folder, *words], stdin=subprocess.DEVNULL,
                            stdout=subprocess.PIPE, stderr=subprocess.PIPE, text=True)


def ended(script, *words):
    """Runs a script to its end. Returns the status, the output and standard error."""
    with tempfile.TemporaryDirectory() as folder:
        run = begun(script, folder, *words)
        out, told = run.communicate(timeout=WAIT)
        return run.returncode, out, told


def stopped(script, mark, how, *words):
    """Returns the status and the messages of a run that gets a signal as soon as it has printed `mark`."""
    with tempfile.TemporaryDirectory() as folder:
        run = begun(script, folder, *words)
        read = run.stdout if mark == 'begun' else run.stderr
        lines, deadline = '', time.monotonic() + WAIT
        while mark not in lines and time.monotonic() < deadline:
            lines += read.readline()
        run.send_signal(how)
        out, told = run.communicate(timeout=WAIT)
        return run.returncode, lines + told


def expect(name, have, want):
    return None if have == want else '%s: %r, not %r' % (name, have, want)


def said(name, text, *patterns):
    """Checks that the patterns are found in this order."""
    at = 0
    for pattern in patterns:
        found = re.compile(pattern).search(text, at)
        if not found:
            return '%s: no %s in %r' % (name, pattern, text)
        at = found.end()
    return None


def cases():
    status, out, told = ended(TRIAL)
    yield expect('a build', (status, out), (0, "b'what it said'\n"))
    yield said('a build', told, r'jac: \d+ s gone: reading and translating the sources', 'sharing the program out',
               'compiling, 0 of 2 parts done', 'compiling, 1 of 2 parts done', 'linking')
    for how in signal.SIGTERM, signal.SIGINT:
        status, told = stopped(STOPPED, 'begun', how)
        yield expect('a build that is stopped', status, 128 + how)
        yield said('a build that is stopped', told, 'jac: the trial is not built: stopped by %s\n' % how.name)
        status, told = stopped(PROOF, '2 of 3 crates', how, 'long')
        yield expect('a proof that is stopped', status, 128 + how)
        yield said('a proof that is stopped', told, 'proving and building third; 0 of 3 crates', 'by the table of costs',
                   'jac: stopped by %s: 2 of 3 crates are proved\n' % how.name)
    status, _, told = ended(PROOF, 'right')
    yield expect('a proof', status, 0)
    yield said('a proof', told, '1 of 3 crates, less than a minute gone', 'third is proved and built, in less than')
    status, _, told = ended(PROOF, 'wrong')
    yield expect('a proof that fails', status, 70)
    yield said('a proof that fails', told, '== second\na goal\nrt: second NOT PROVED\n',
               'jac: second is not proved: its log is above\n$')
    yield expect('the log of another crate', 'its log\n' in told, False)
    status, _, told = ended(PROOF, 'refused')
    yield expect('a command that fails', status, 70)
    yield said('a command that fails', told, 'why\njac: rt ended with status 2: its log is above\n$')
    status, _, told = ended(PROOF, 'killed')
    yield expect('a proof that is killed', status, 70)
    yield said('a proof that is killed', told, 'jac: rt was ended by SIGKILL, as the system does where memory runs out\n')
    status, out, told = ended(COPY)
    yield expect('a copy of crates', (status, out), (0, "True ['.git', 'HANDLES', 'crates', 'crates.txt']\nTrue\n[]\n"))


def main():
    script_parser().parse_args()
    results = list(cases())
    for wrong in filter(None, results):
        print('FAILED ' + wrong)
    failed = sum(1 for wrong in results if wrong)
    print('%d passed, %d failed' % (len(results) - failed, failed))
    return 1 if failed else 0


if __name__ == '__main__':
    sys.exit(main())
