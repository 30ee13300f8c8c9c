#!/usr/bin/env python3
"""Says whether a program was built from the current sources. The argument is the program. If it was, the exit status
is 0.

The sources are recorded in a file beside the program, PROGRAM.sources. It has a checksum of their names, sizes and
times, which `jac` compares at each start, a checksum of their content, and their paths. `rt ci` writes no such file. If
a proved program has none, and is younger than all its sources, it counts as built from them, and gets the file."""
import hashlib
import os
import subprocess
import sys

sys.dont_write_bytecode = True
from arguments import script_parser                                         # noqa: E402
from crates import PARTS, PROGRAM, TOP, below, files                        # noqa: E402

PROVED = os.path.join(TOP, 'crates', PROGRAM, 'out', PROGRAM)
TRIAL = os.path.join(TOP, 'out', 'trial', PROGRAM)


def parts_of(program):
    """The parts of a crate that count. For a trial that is only the code, because nothing else is read."""
    return ('src',) if program == TRIAL else PARTS


def paths_of(program):
    """The paths from which `find` reaches each file that the program is built from."""
    found = ['crates.txt']
    for name in below(PROGRAM):
        found += [path for path in ('crates/%s/%s' % (name, part) for part in parts_of(program))
                  if os.path.isdir(os.path.join(TOP, path))]
    return found


def look_of(paths):
    """The checksum of the names, sizes and times, as `jac` makes it."""
    words = "find \"$@\" -printf '%p %s %T@\\n' | cksum"
    return subprocess.run(['bash', '-c', words, 'bash', *paths], cwd=TOP, stdout=subprocess.PIPE, check=True,
                          text=True).stdout.strip()


def sources_of(program):
    """Each file that the program is built from."""
    return ['crates.txt', *(path for name in below(PROGRAM) for path in files(name, parts_of(program)))]


class State:
    """The sources as they are now. `look` is made first, so that the next start notices any later change."""

    def __init__(self, program):
        self.paths = paths_of(program)
        self.look = look_of(self.paths)
        content = hashlib.sha256()
        for path in sources_of(program):
            with open(os.path.join(TOP, path), 'rb') as file:
                content.update(repr((path, file.read())).encode())
        self.content = content.hexdigest()

    def note(self, program):
        """Records that the program was built from these sources."""
        # several checks may write the file at the same time
        new = '%s.%d.new' % (program, os.getpid())
        with open(new, 'w', encoding='utf-8') as file:
            file.write('\n'.join([self.look, self.content, *self.paths]) + '\n')
        os.replace(new, program + '.sources')


def noted(program):
    """The recorded checksum of the sources' content, or None if nothing was recorded."""
    try:
        with open(program + '.sources', encoding='utf-8') as file:
            return file.read().split('\n')[1]
    except (OSError, IndexError):
        return None


def is_youngest(program):
    """Whether the program is younger than each of its sources."""
    return all(os.stat(os.path.join(TOP, path)).st_mtime < os.stat(program).st_mtime for path in sources_of(program))


def is_current(program):
    """Whether the program exists, and its sources have the same content as when it was built."""
    if not os.access(program, os.X_OK):
        return False
    now, was = State(program), noted(program)
    if was == now.content or was is None and program == PROVED and is_youngest(program):
        now.note(program)
        return True
    return False


def main():
    parser = script_parser()
    parser.add_argument('program', metavar='PROGRAM', help='the path of the program')
    return 0 if is_current(os.path.abspath(parser.parse_args().program)) else 1


if __name__ == '__main__':
    sys.exit(main())
