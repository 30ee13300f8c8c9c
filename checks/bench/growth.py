"""Counts the instructions that guarded lists and POSTs take, by the number of events. Arguments: the program, and the
numbers of events (256, 1,024, 4,096 and 16,384 by default). The requests are those of `bench times`. The host of all
events is shown all labels, nobody is shown none. A list is requested again and again, and then anew after a `POST` of
nobody. To get the cost of a request, a run with two requests is compared with a run with some more, and the difference
is divided by the number of these further requests. There are four of a list, and 64 of a `POST`, since now and then one
`POST` makes the store allocate more room.

valgrind counts, so a number is the same in each run, whatever else the machine does. Effects of the processor's caches
aren't counted; they are part of the times of `bench times`. Last come the bars. docs/COSTS.md has the last results,
with their date. This isn't part of the gate."""
import concurrent.futures
import os
import re
import shutil
import subprocess
import sys
import tempfile

from support import proved
from bench.times import GUARDED, GUARDED_ASKED, bar, guarded

SIZES = [256, 1024, 4096, 16384]
BARRED = 1024, 4096     # the bars are for the growth from each of these numbers to four times as many
FEW = 2                 # requests in the shorter run
MORE = {'GET': 4, 'POST': 64}   # further requests in the longer run, by the method of the last request
GROWTH = 4.6
COUNTED = re.compile(r'I\s+refs:\s+([\d,]+)')


def instructions(program, folder, name, events):
    """Returns how many instructions a run over these events takes."""
    path = os.path.join(folder, name)
    with open(path, 'w') as file:
        file.write('\n'.join(events) + '\n')
    words = ['valgrind', '--tool=cachegrind', '--cache-sim=no', '--cachegrind-out-file=/dev/null',
             program, 'replay', os.path.join(folder, 'bench.app'), path]
    run = subprocess.run(words, stdout=subprocess.DEVNULL, stderr=subprocess.PIPE, text=True)
    found = COUNTED.search(run.stderr)
    if run.returncode or not found:
        sys.exit('%s ended with %d\n%s' % (program, run.returncode, run.stderr[-2000:]))
    return int(found.group(1).replace(',', ''))


def request(program, folder, name, count, asked):
    """Returns how many instructions a request takes if there are `count` events."""
    more = MORE[asked[-1].split()[2]]
    few, many = (instructions(program, folder, '%s, %d of %d' % (name, number, count), guarded(count) + asked * number)
                 for number in (FEW, FEW + more))
    return (many - few) / more


def main(words):
    program = proved.binary(words[0])
    sizes = [int(word) for word in words[1:]] or SIZES
    if shutil.which('valgrind') is None:
        sys.exit('there is no valgrind here')
    took = {}
    print('%-28s %6s %14s %8s' % ('request', 'N', 'instructions', 'growth'))
    with tempfile.TemporaryDirectory() as folder, concurrent.futures.ThreadPoolExecutor(os.cpu_count()) as pool:
        with open(os.path.join(folder, 'bench.app'), 'w') as file:
            file.write(GUARDED)
        waiting = {(name, count): pool.submit(request, program, folder, name, count, asked)
                   for count in sizes for name, asked, _ in GUARDED_ASKED}
        for count in sizes:
            for name, _, before in GUARDED_ASKED:
                took[name, count] = waiting[name, count].result() - (took[before, count] if before else 0)
                fourth = took.get((name, count // 4))
                growth = '%8.2f' % (took[name, count] / fourth) if fourth else ''
                print('%-28s %6d %14.0f %s' % (name, count, took[name, count], growth), flush=True)
    for name, _, _ in GUARDED_ASKED:
        for count in BARRED:
            both = (took.get((name, count)), took.get((name, 4 * count)))
            bar('%s, from %d to %d' % (name, count, 4 * count), both[1] / both[0] if all(both) else None, GROWTH)
