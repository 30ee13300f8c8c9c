"""Measures a running gate, crate by crate: the processor time and the peak memory of each prover. It reads them from
/proc twice a second, until the gate ends. What a prover does after the last look at it isn't counted: a quarter of a
second of each prover, on average."""
import json
import os
import re
import subprocess
import sys
import tempfile
import time

from schedule import processors

LOOK = 0.5
TICKS, PAGE_SIZE = os.sysconf('SC_CLK_TCK'), os.sysconf('SC_PAGE_SIZE')
CRATE = re.compile(r'--crate-name (\w+) ')


class Prover:
    """A prover process: its processor seconds and its peak memory in bytes, at the last look."""

    def __init__(self, words, folder):
        self.words, self.folder, self.seconds, self.most = words, folder, 0, 0

    def look(self, fields):
        self.seconds = (int(fields[11]) + int(fields[12])) / TICKS
        self.most = max(self.most, int(fields[21]) * PAGE_SIZE)

    def step(self):
        """The step and the crate that it worked on, or None. The step is the proof, the proof of the tests, or the
        wrong bodies (edits)."""
        found = CRATE.search(self.words)
        if not found:
            return None
        name = found.group(1)
        if '/rt-edit-' in self.folder:
            return 'edits', name
        return ('tests' if 'out/%s_tests' % name in self.words else 'proof'), name


def fields_of(process):
    """The fields after the name of a process in /proc/PID/stat: its state, its parent and so on."""
    with open('/proc/%d/stat' % process) as file:
        return file.read().rpartition(')')[2].split()


def words_of(process):
    with open('/proc/%d/cmdline' % process, 'rb') as file:
        return file.read().replace(b'\0', b' ').decode(errors='replace')


class Gate:
    """A run of `rt ci` in a clone, for all crates or for those with these names."""

    def __init__(self, folder, names):
        self.began, self.processors, self.provers = time.monotonic(), processors(), {}
        self.process = subprocess.Popen(['rt', 'ci', *names], cwd=folder, stdin=subprocess.DEVNULL)

    def run(self):
        """Waits until the gate ends, and returns its exit status."""
        while self.process.poll() is None:
            self.look()
            time.sleep(LOOK)
        self.minutes = (time.monotonic() - self.began) / 60
        return self.process.returncode

    def look(self):
        known = {}
        for name in os.listdir('/proc'):
            if name.isdigit():
                try:
                    known[int(name)] = fields_of(int(name))
                except OSError:
                    pass    # it ended meanwhile
        left = [self.process.pid]
        while left:
            parent = left.pop()
            for process, fields in known.items():
                if int(fields[1]) == parent:
                    left.append(process)
                    self.look_at(process, fields)

    def look_at(self, process, fields):
        key = process, fields[19]
        try:
            if key not in self.provers:
                words = words_of(process)
                if '/rattle ' not in words:
                    return
                self.provers[key] = Prover(words, os.readlink('/proc/%d/cwd' % process))
            self.provers[key].look(fields)
        except OSError:
            pass            # it ended meanwhile

    def found(self):
        """The processor minutes and the most MB, by step and crate."""
        steps = {}
        for prover in self.provers.values():
            step = prover.step()
            if step:
                minutes, most = steps.get(step, (0, 0))
                steps[step] = minutes + prover.seconds / 60, max(most, prover.most >> 20)
        return steps


class Measures:
    """The measurements of gates on this machine, in a file in the temporary directory. For each gate: the elapsed
    minutes and the number of processors. For each step and crate: the processor minutes and the most MB, from the last
    gate that ran this step."""

    def __init__(self, folder=tempfile.gettempdir()):
        self.path = os.path.join(folder, 'jac-gate-measures.json')
        self.runs, self.found = [], {}
        if os.path.isfile(self.path):
            with open(self.path, encoding='utf-8') as file:
                kept = json.load(file)
            # a run may be its minutes alone, if an earlier version of this script wrote the file
            self.runs = [tuple(run) if isinstance(run, list) else (run, None) for run in kept['runs']]
            self.found = {(what, name): (minutes, most) for what, name, minutes, most in kept['steps']}

    def add(self, gate):
        """Adds the measurements of a gate, and writes the file."""
        found = gate.found()
        if found.keys() >= self.found.keys():
            # this gate ran all steps of the earlier ones, so none of their measurements is left
            self.runs = []
        self.runs.append((gate.minutes, gate.processors))
        self.found.update(found)
        steps = [[what, name, minutes, most] for (what, name), (minutes, most) in self.found.items()]
        with open(self.path + '.new', 'w', encoding='utf-8') as file:
            json.dump({'runs': self.runs, 'steps': steps}, file)
        os.replace(self.path + '.new', self.path)


def measured(folder, names):
    """Runs the gate there, and returns all measurements. Ends this script if the gate fails."""
    gate, measures = Gate(folder, names), Measures()
    status = gate.run()
    measures.add(gate)
    if status:
        sys.exit('the gate failed')
    return measures
