#!/usr/bin/env python3
"""Calls each script of tools/, checks/, checks/bench and deploy/ with --help, and with a flag that it doesn't know.
--help must end with status 0 and print a text that begins with `usage: `. The flag must be refused with status 2. Both
must end within ten seconds. Nothing may be begun: no process may be left, and no file may be written. No arguments.
Prints each failure, then a count.

The scripts are those of a copy. So a script that begins its work at once finds no crates, and files that it writes are
noticed. A script is a file with a line `if __name__ == '__main__':`. Each check of checks/list.txt must be one."""
import concurrent.futures
import glob
import os
import re
import shutil
import signal
import subprocess
import sys
import tempfile

sys.dont_write_bytecode = True
from support.pages import TOP, script_parser                                # noqa: E402
from schedule import processors                                             # noqa: E402

MAIN = re.compile(r"(?m)^if __name__ == '__main__':")
MOST = 10       # seconds
UNKNOWN = '--no-such-flag'
OF_A_COMMAND = 'jac begins it, and all words behind the program are those of a command'
# scripts that only other programs start, and why their arguments are different
OTHERS = {
    'deploy/explain.py': "its words are those of the unit's ExecStart",
    'tools/fault_place.py': OF_A_COMMAND,
    'tools/parts.py': 'the trial has it called in the place of clang, and its words are those of clang',
    'tools/run_folder.py': OF_A_COMMAND,
    'tools/store_copies.py': OF_A_COMMAND,
}


def scripts(top):
    """Yields the paths of the scripts, relative to the top."""
    for folder in 'tools', 'checks', 'checks/bench', 'deploy':
        for path in sorted(glob.glob(os.path.join(top, folder, '*.py'))):
            with open(path, encoding='utf-8') as file:
                if MAIN.search(file.read()):
                    yield os.path.relpath(path, top)


def listed():
    """Returns the scripts of the checks that ./test runs."""
    with open(os.path.join(TOP, 'checks', 'list.txt'), encoding='utf-8') as lines:
        return ['checks/%s.py' % line.split('|')[0].strip() for line in lines if line.strip() and not line.startswith('#')]


def files(folder):
    """Returns the files and folders below a folder, each with its size and its time."""
    return {path: (found.st_size, found.st_mtime_ns) for at, folders, names in os.walk(folder)
            for path in (os.path.join(at, name) for name in folders + names) for found in [os.lstat(path)]}


def ended(path, flag, room):
    """Runs a script in this folder. Returns the status, the output, standard error, and whether it left a process. The
    status is None if the script took too long."""
    given = dict(os.environ, TMPDIR=room, PYTHONDONTWRITEBYTECODE='1')
    run = subprocess.Popen([sys.executable, path, flag], cwd=room, env=given, start_new_session=True, text=True,
                           stdin=subprocess.DEVNULL, stdout=subprocess.PIPE, stderr=subprocess.PIPE)
    try:
        out, told = run.communicate(timeout=MOST)
        status = run.returncode
    except subprocess.TimeoutExpired:
        status, out, told = None, '', ''
    try:
        os.killpg(run.pid, signal.SIGKILL)
        is_left = status is not None
    except ProcessLookupError:
        is_left = False
    run.communicate()
    return status, out, told, is_left


def asked(top, script, flag, want):
    """Returns what is wrong if a script of this copy gets this flag, or None."""
    with tempfile.TemporaryDirectory() as room:
        status, out, told, is_left = ended(os.path.join(top, script), flag, room)
        written = sorted(path[len(room) + 1:] for path in files(room))
    name = '%s %s' % (script, flag)
    if status is None:
        return '%s: it did not end within %d seconds' % (name, MOST)
    if status != want or not (told if want else out).startswith('usage: ') or (out if want else told):
        return '%s: status %d, and %r, %r' % (name, status, out[-300:], told[-300:])
    if written or is_left:
        return '%s: it left %s' % (name, ', '.join(written) or 'a process')
    return None


def answers(found):
    """Yields what is wrong with the scripts' answers, and with the files that they write."""
    with tempfile.TemporaryDirectory() as top, concurrent.futures.ThreadPoolExecutor(processors()) as pool:
        for folder in 'tools', 'checks', 'docs', 'deploy':
            shutil.copytree(os.path.join(TOP, folder), os.path.join(top, folder))
        before = files(top)
        yield from pool.map(lambda words: asked(top, *words),
                            [(script, *one) for script in found for one in (('--help', 0), (UNKNOWN, 2))])
        after = files(top)
        changed = [path[len(top) + 1:] for path in sorted(before.keys() | after.keys())
                   if before.get(path) != after.get(path)]
        yield 'these were written: ' + ', '.join(changed) if changed else None


def main():
    script_parser().parse_args()
    found = list(scripts(TOP))
    results = ["%s: it has no line `if __name__ == '__main__':`" % name if name not in found else None
               for name in [*listed(), *OTHERS]]
    results += answers([name for name in found if name not in OTHERS])
    for wrong in filter(None, results):
        print('FAILED ' + wrong)
    failed = sum(1 for wrong in results if wrong)
    print('%d passed, %d failed' % (len(results) - failed, failed))
    return 1 if failed else 0


if __name__ == '__main__':
    sys.exit(main())
