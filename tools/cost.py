#!/usr/bin/env python3
"""Measures the processor minutes of the gate, crate by crate: of each crate's proof, of the proof of its tests, and of
its wrong bodies (edits).

Without `--gate` each crate is proved from nothing, as many in parallel as processors and memory allow. This happens in
a clone of the last commit, in the temporary directory, and uses nothing that earlier runs kept. The measurements are
stored beside the clone. So after a run was interrupted, the next one measures only what is missing, unless a commit has
changed the crates.

With `--gate` the gate `rt ci` runs here, once, and is measured. What it proves is kept, as after any gate. On a machine
that keeps nothing, this gives the whole table and the elapsed time. With names of crates, `rt ci NAME ..` runs. Its
measurements are added to those of earlier gates on this machine, in a file in the temporary directory. So a table may
be of several gates, each of which proved what the earlier ones hadn't. If a crate was kept from a run that wasn't
measured, its row is missing, and nothing is written.

The wrong bodies of a crate cost one check of the crate at the beginning, one for each of them, and one at the end, as
in `rt ci`. The minutes are the processor time that the system counted for a process and for all processes that it
waited for. So other work on the machine makes them a little longer, but isn't counted itself."""
import collections
import os
import shutil
import subprocess
import sys
import tempfile
import time

sys.dont_write_bytecode = True
TOP = os.path.dirname(os.path.dirname(os.path.abspath(__file__)))
sys.path.insert(0, os.path.join(TOP, 'checks'))
import kit                                                                  # noqa: E402
from arguments import script_parser                                         # noqa: E402
from costs import HEAD, PAGE, costs                                         # noqa: E402
from crates import below, crates                                            # noqa: E402
from gate import measured                                                   # noqa: E402
from support.pages import differences                                       # noqa: E402
from schedule import Schedule, Task, computed, free_memory, processors                # noqa: E402

PROOF, TESTS, EDITS = STEPS = 'proof', 'tests', 'edits'


def step(what, name):
    """Runs one step in the clone, as `rt ci` does. This function runs in a process of its own, which is measured."""
    rt = kit.load()
    # the first call sets signal handlers, which only the main thread may do
    rt.rtlib.guarded()
    rt.Crate.allowed, rt.Crate.cuts_libraries = rt.handles_of(os.getcwd()), True
    if what == EDITS:
        # the proofs of this run have already made the lower libraries
        rt.rtlib.Crate.build_rlib = lambda *given, **named: 0
        # a kit that doesn't remember tries takes this flag for a crate's name, and there is no such crate
        return rt.edits_alone(['--anew', name])
    rt.rtlib.Crate = rt.Crate
    crate = next(crate for crate in rt.rtlib.crates_below(os.getcwd()) if crate.name == name)
    if what == TESTS and not crate.has_tests():
        return 0
    os.makedirs(os.path.join(crate.folder, 'out'), exist_ok=True)
    crate.out = sys.stdout
    return crate.ci(['--jobs', os.environ['RT_JOBS']], what == TESTS)


class Step:
    """A running step. After it ends, `minutes` and `memory` say what it took."""

    def __init__(self, clone, what, name, jobs):
        self.what, self.name, self.status = what, name, None
        self.log = tempfile.TemporaryFile()
        words = [sys.executable, os.path.abspath(__file__), '--step', what, name]
        self.process = subprocess.Popen(words, cwd=clone, env={**os.environ, 'RT_JOBS': str(jobs)},
                                        stdin=subprocess.DEVNULL, stdout=self.log, stderr=subprocess.STDOUT)

    def poll(self):
        if self.status is None:
            number, status, used = os.wait4(self.process.pid, os.WNOHANG)
            if number:
                self.status = self.process.returncode = os.waitstatus_to_exitcode(status)
                self.minutes = (used.ru_utime + used.ru_stime) / 60
                self.memory = used.ru_maxrss // 1024
        return self.status

    def print_log(self):
        self.log.seek(0)
        sys.stdout.flush()
        sys.stdout.buffer.write(self.log.read())
        sys.stdout.flush()


def named():
    """A name for the committed state of the crates."""
    trees = subprocess.run(['git', 'rev-parse', 'HEAD:crates', 'HEAD:crates.txt'], cwd=TOP, stdout=subprocess.PIPE,
                           text=True, check=True).stdout.split()
    return '-'.join(tree[:8] for tree in trees)


class Notes:
    """The measurements of the committed crates, one line for each step, in a file beside the clone."""

    def __init__(self, anew):
        self.folder = os.path.join(tempfile.gettempdir(), 'jac-cost-' + named())
        if anew:
            shutil.rmtree(self.folder, ignore_errors=True)
        self.clone, self.file = os.path.join(self.folder, 'clone'), os.path.join(self.folder, 'notes')
        if not os.path.isdir(self.clone):
            os.makedirs(self.folder, exist_ok=True)
            subprocess.run(['git', 'clone', '-q', TOP, self.clone], check=True)
        self.found, self.processors = {}, set()
        if os.path.isfile(self.file):
            with open(self.file, encoding='utf-8') as lines:
                for line in lines:
                    # the file may lack the number of processors, if an earlier version of this script wrote it
                    what, name, minutes, memory, *lanes = line.split()
                    self.found[what, name] = float(minutes), int(memory)
                    self.processors.update(map(int, lanes))

    def add(self, step):
        self.found[step.what, step.name] = step.minutes, step.memory
        self.processors.add(processors())
        with open(self.file, 'a', encoding='utf-8') as file:
            file.write('%s %s %.3f %d %d\n' % (step.what, step.name, step.minutes, step.memory, processors()))


def edits_of(name):
    """How many wrong bodies the crate has in `must-fail`."""
    folder = os.path.join(TOP, 'crates', name, 'must-fail')
    return sum(file.endswith('.edit') for file in os.listdir(folder)) if os.path.isdir(folder) else 0


def has(what, name):
    """Whether the crate has tests, or whether it has wrong bodies."""
    folder = os.path.join(TOP, 'crates', name)
    if what == EDITS:
        return edits_of(name) > 0
    for at, _, names in os.walk(os.path.join(folder, 'src')):
        for file in names:
            with open(os.path.join(at, file), encoding='utf-8') as text:
                if '#[test]' in text.read():
                    return True
    return False


def tasks_for(notes, wanted):
    """The proofs of the wanted crates and of their lower crates, and the tests and wrong bodies of the wanted crates,
    without the steps that are already measured."""
    every = crates()
    proofs = [name for name in every if any(name in below(other) for other in wanted)]
    thought = costs(every)
    for name in proofs:
        steps = [PROOF] + [what for what in (TESTS, EDITS) if name in wanted and has(what, name)]
        for what in steps:
            if (what, name) not in notes.found:
                after = [(PROOF, other) for other in below(name) if other != name] + [(PROOF, name)] * (what != PROOF)
                after = [it for it in after if it not in notes.found]
                yield Task((what, name), after, thought[name].proof * (2 if what == EDITS else 1), thought[name].memory,
                           lambda jobs, what=what, name=name: Step(notes.clone, what, name, jobs))


def measure(notes, wanted):
    """Runs the steps, and returns whether every crate was proved. If tests or wrong bodies fail, this is printed, and
    their time counts."""
    schedule, failed = Schedule(tasks_for(notes, wanted)), []
    while not schedule.is_over() and not (failed and not schedule.running):
        if not failed:
            schedule.begin()
        time.sleep(0.2)
        for run in schedule.ended():
            if run.run.status:
                run.run.print_log()
                print('FAILED %s of %s' % (run.run.what, run.run.name), flush=True)
            if run.run.status and run.run.what == PROOF:
                failed.append(run.run.name)
            else:
                notes.add(run.run)
                print('%s of %s: %.1f processor minutes, %d MB, %d jobs, %.1f min by the clock (%d of %d)' % (
                    run.run.what, run.run.name, run.run.minutes, run.run.memory, run.jobs, run.minutes(),
                    len(schedule.done), len(schedule.tasks)), flush=True)
    return not failed


def table(notes, names, when, how):
    """The table for the page, with a row for each crate and a row of the sums."""
    def cell(what, name):
        found = notes.found.get((what, name))
        return '%.1f' % found[0] if found else ''

    def total(what):
        return sum(minutes for (each, name), (minutes, _) in notes.found.items() if each == what and name in names)

    rows = ['| `%s` | %s | %d |' % (name, ' | '.join(cell(what, name) for what in STEPS), notes.found[PROOF, name][1])
            for name in names]
    sums = [total(what) for what in STEPS]
    rows.append('| **all** | %s | |' % ' | '.join('%.0f' % it for it in sums))
    said = 'Measured on %s, from nothing, by `tools/cost.py` in %s: %.0f processor minutes.' % (when, how, sum(sums))
    return '\n'.join([said, '', *HEAD, *rows])


def tasks_of(found):
    """The measured steps as tasks, in the order of `rt ci`: the proof of a crate and the proof of its tests wait for
    the proofs of the crates that it uses. Each of its wrong bodies waits for both."""
    every = crates()
    for (what, name), (minutes, _) in found.items():
        if what == EDITS:
            after, count = [(step, name) for step in (PROOF, TESTS) if (step, name) in found], edits_of(name)
        else:
            after, count = [(PROOF, other) for other in every[name]], 1
        for number in range(count):
            yield Task((what, name, number) if what == EDITS else (what, name), after, minutes / count, 0, None)


def how_long(measures):
    """Says which gates were measured, and how long one would take on two and on four processors."""
    clock = collections.Counter()
    for minutes, lanes in measures.runs:
        clock[lanes] += minutes
    took = ' and '.join('%.0f minutes by the clock%s' % (minutes, ' on %d processors' % lanes if lanes else '')
                        for lanes, minutes in clock.items())
    runs = 'a run of `rt ci` that took ' + took if len(measures.runs) == 1 else (
        '%d runs of `rt ci`, each of which proved what those before it had not, and which took %s' % (
            len(measures.runs), took))
    tasks = list(tasks_of(measures.found))
    # if a single run measured the time on so many processors, the time isn't computed as well
    thought = ' and '.join('%.0f minutes on %d processors' % (computed(tasks, lanes), lanes) for lanes in (2, 4)
                           if len(measures.runs) > 1 or lanes not in clock)
    return '%s (by these figures a run would take %s, if they did nothing else)' % (runs, thought)


def measure_gate(given):
    """Runs the gate here. Prints the table of all that was measured on this machine. With --write, also writes it."""
    measures, names = measured(TOP, given.names), list(crates())
    print('%.0f minutes by the clock on %d processors' % measures.runs[-1])
    lacking = ['%s of %s' % (what, name) for name in names for what in STEPS
               if (what == PROOF or has(what, name)) and (what, name) not in measures.found]
    if lacking:
        print('these were not measured on this machine: ' + ', '.join(lacking))
        return 1
    measures.found = {(what, name): it for (what, name), it in measures.found.items()
                      if name in names and (what == PROOF or has(what, name))}
    rows = table(measures, names, time.strftime('%-d %B %Y'), how_long(measures))
    print(rows)
    if given.write:
        differences(PAGE, {'cost': rows}, 'tools/cost.py', True)
    return 0


def measure_crates(given):
    """Measures crate by crate, and prints the table. With --write, also writes the table."""
    wanted, notes = given.names or list(crates()), Notes(given.anew)
    print('measuring in %s, with %d processors and %d MB' % (notes.clone, processors(), free_memory()), flush=True)
    if not measure(notes, wanted):
        return 1
    how = 'runs of one crate each, on %s processors' % ' or '.join(map(str, sorted(notes.processors or {processors()})))
    rows = table(notes, [name for name in crates() if (PROOF, name) in notes.found], time.strftime('%-d %B %Y'), how)
    print(rows)
    if given.write and len(wanted) == len(crates()):
        differences(PAGE, {'cost': rows}, 'tools/cost.py', True)
        shutil.rmtree(notes.folder)
    return 0


def main():
    parser = script_parser()
    parser.add_argument('names', metavar='CRATE', nargs='*', help='the crates to measure (default: all)')
    parser.add_argument('--gate', action='store_true', help='run `rt ci` here, and measure it')
    parser.add_argument('--write', action='store_true', help='write the table to docs/TESTING.md, if it has all crates')
    parser.add_argument('--anew', action='store_true', help='discard what earlier runs without --gate have measured')
    given = parser.parse_args()
    return measure_gate(given) if given.gate else measure_crates(given)


if __name__ == '__main__':
    if sys.argv[1:2] == ['--step']:
        sys.exit(step(*sys.argv[2:4]))
    sys.exit(main())
