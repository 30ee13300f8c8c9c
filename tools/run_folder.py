#!/usr/bin/env python3
"""Runs a command of the program in which an application is a folder.

Arguments: the program, and the arguments of its command. The parts of each folder are joined (tools/assemble.py). The
program gets the joined text as `/proc/self/fd/N`, a file that has no name and is gone after the process ends. The
program replaces this process, so that it gets the signals, and its exit status is that of the process. If a folder
can't be joined, the program isn't run. `tools/assemble.py --help` says what the exit status is then."""
import os
import signal
import sys

sys.dont_write_bytecode = True
sys.path.insert(0, os.path.dirname(os.path.abspath(__file__)))
import assemble                                                             # noqa: E402
import fault_place                                                          # noqa: E402


def with_files(words):
    """The arguments, with a file in place of each folder."""
    words = list(words)
    for at in fault_place.places_of_applications(words):
        if assemble.main_part(words[at]):
            words[at] = assemble.path_of(assemble.read_or_exit(words[at]))
    return words


def main(words):
    if not words or words[0] in ('-h', '--help'):
        print(__doc__)
        return
    command = [words[0], *with_files(words[1:])]
    # Python ignores these signals, and the program would inherit that
    signal.signal(signal.SIGPIPE, signal.SIG_DFL)
    signal.signal(signal.SIGXFSZ, signal.SIG_DFL)
    os.execv(command[0], command)


if __name__ == '__main__':
    main(sys.argv[1:])
