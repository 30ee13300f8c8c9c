#!/usr/bin/env python3
"""Measures the built program. `python3 checks/bench NAME PROGRAM [WORD ..]`, with ./jac for PROGRAM.

How long something takes depends on the machine, so none of these is part of the gate. docs/COSTS.md has their last
results, with the date."""
import argparse
import importlib
import os
import sys

sys.dont_write_bytecode = True
sys.path.insert(0, os.path.dirname(os.path.dirname(os.path.abspath(__file__))))

BENCHES = {
    'times': 'one request of each kind, by the number of records, compared with Flask; words: numbers of records',
    'instructions': 'each kind of request that has a goal, by valgrind; words: parts of the names of the lines',
    'growth': 'instructions of guarded lists and POSTs, by valgrind; words: numbers of events',
    'lists': 'guarded lists of the calendar and the conference, compared with Flask; words: numbers of records',
    'records': 'the page of one record among many; words: numbers of records',
    'examples': 'the lists of the four larger applications; words: numbers of records',
    'files': 'what grows with the length of a file or a connection; words: parts of the names of the series',
    'attaching': 'attaching a file and answering one list; words: numbers of records',
    'connections': 'pages over real connections and over stores in files, compared with Flask and Django',
}


def main():
    parser = argparse.ArgumentParser(prog='bench', description=__doc__, formatter_class=argparse.RawDescriptionHelpFormatter)
    benches = parser.add_subparsers(dest='name', metavar='NAME', required=True)
    for name, about in BENCHES.items():
        one = benches.add_parser(name, help=about, description=about)
        one.add_argument('program', metavar='PROGRAM', help='./jac, or the path of a program')
        one.add_argument('words', metavar='WORD', nargs='*', help='what to measure; without any, everything')
    given = parser.parse_args()
    importlib.import_module('bench.' + given.name).main([given.program, *given.words])


if __name__ == '__main__':
    main()
