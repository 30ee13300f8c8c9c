"""Measures what attaching a file takes, by the number of its records. Arguments: the program, and the numbers of
records (1,024, 9,984 and 99,968 by default). The records are the guarded ones of `bench times`, each with two
alternatives. A run of its own makes them, 64 in a request. Then one run attaches the file and answers nothing, another
one answers a list requested by nobody, and a third one answers a list requested by the host of all records. A time is
the processor time of the whole run, the best of three. The memory is the peak of the three runs.

docs/COSTS.md has the last results, with their date. This isn't part of the gate, since the results depend on the
machine."""
import concurrent.futures
import contextlib
import os
import sqlite3
import sys
import tempfile

from support import proved
from bench.times import GUARDED, HOSTED, ROUND, UNHOSTED, bar, guarded, run_once

MB = 1024 * 1024
SIZES = [1024, 9984, 99968]
MOST = 150      # MB that a run over the largest file may use
RUNS = [('nothing', []), ('a list of nobody', [UNHOSTED]), ('a list of the host', [HOSTED])]


def replay(pool, program, folder, events):
    """Returns the processor seconds and the peak bytes of a run over the file."""
    with open(os.path.join(folder, 'events'), 'w') as file:
        file.write(''.join(line + '\n' for line in events))
    words = [program, 'replay', *(os.path.join(folder, name) for name in ('bench.app', 'events')),
             '--db', os.path.join(folder, 'store')]
    status, took, peak = pool.submit(run_once, words).result()
    if status:
        sys.exit('%s ended with %d' % (' '.join(words), status))
    return took, peak


def rows_in(folder):
    with contextlib.closing(sqlite3.connect(os.path.join(folder, 'store'))) as store:
        return store.execute('SELECT count(*) FROM rec').fetchone()[0]


def measure(pool, program, folder, count):
    """Makes the file, prints a line for each kind of run, and returns the largest of their peaks in bytes."""
    replay(pool, program, folder, guarded(count))
    rows, size = rows_in(folder), os.path.getsize(os.path.join(folder, 'store'))
    most = 0
    for name, events in RUNS:
        runs = [replay(pool, program, folder, events) for _ in range(3)]
        peak = max(held for _, held in runs)
        print('%7d %7d %9.1f  %-18s %9.3f %8.1f' % (
            count, rows, size / MB, name, min(took for took, _ in runs), peak / MB), flush=True)
        most = max(most, peak)
    return most


def main(words):
    program = proved.program(words[0])
    sizes = [int(word) for word in words[1:]] or SIZES
    print('%7s %7s %9s  %-18s %9s %8s' % ('records', 'rows', 'file MB', 'answers', 'seconds', 'peak MB'))
    held = {}
    with concurrent.futures.ProcessPoolExecutor(1) as pool:
        pool.submit(os.getpid).result()
        for count in sizes:
            with tempfile.TemporaryDirectory() as folder:
                with open(os.path.join(folder, 'bench.app'), 'w') as file:
                    file.write(GUARDED)
                held[count] = measure(pool, program, folder, count - count % ROUND) / MB
    bar('attaching %d records and a list, MB' % SIZES[-1], held.get(SIZES[-1]), MOST)
