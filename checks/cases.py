#!/usr/bin/env python3
"""Runs the built program on the worked cases of checks/cases. Arguments: the program, and parts of the names of the
cases to run, or none to run all. Prints each failed case, then a count.

A case is a file NAME.case. It begins with a text that says what the case shows and why its outcome is right. The reason
comes from the language and its definitions, never from the program's output. Sections follow. Each section is a line
`== ..` and the lines up to the next such line:

    == file NAME                     a file in the folder of the runs
    == file NAME, no last line feed  the same without the line feed of its last line
    == run WORDS                     a run of the program with these arguments, quoted as for a shell
    == status N                      the exit status of the runs above
    == out                           the whole standard output of each of these runs
    == wrote NAME                    the file of this name that each of them left; before each run the file is as the
                                     case defines it, or doesn't exist
"""
import contextlib
import os
import re
import shlex
import subprocess
import sys
import tempfile

from support import proved

FOLDER = os.path.join(os.path.dirname(os.path.abspath(__file__)), 'cases')
CUT = ', no last line feed'


class Malformed(Exception):
    pass


def sections(text):
    """Returns the head of each section, with its lines as bytes."""
    parts = re.split(r'(?m)^== (.*)\n', text)
    if not parts[0].strip():
        raise Malformed('it does not say what it shows')
    return list(zip(parts[1::2], (part.encode() for part in parts[2::2])))


def parse(text):
    """Returns the files, and for each run its arguments, its exit status, its output and the files that it leaves."""
    files, runs, waiting, status = {}, [], [], None
    for head, content in sections(text):
        kind, _, rest = head.partition(' ')
        if kind == 'file':
            name = rest[:-len(CUT)] if rest.endswith(CUT) else rest
            files[name] = content[:-1] if rest.endswith(CUT) else content
        elif kind == 'run':
            waiting.append(shlex.split(rest))
        elif kind == 'status' and waiting:
            status = int(rest)
        elif kind == 'out' and waiting and status is not None:
            last = [(words, status, content, {}) for words in waiting]
            runs, waiting, status = runs + last, [], None
        elif kind == 'wrote' and not waiting and runs:
            for run in last:
                run[3][rest] = content
        else:
            raise Malformed('a section that does not belong here: == ' + head)
    if waiting or not runs:
        raise Malformed('a run without its status and output')
    return files, runs


def put(folder, name, content):
    """Writes the file, or removes it if there is no content."""
    with contextlib.suppress(FileNotFoundError):
        os.remove(os.path.join(folder, name))
    if content is not None:
        with open(os.path.join(folder, name), 'wb') as file:
            file.write(content)


def failures(program, text):
    """Yields a line for each thing that is wrong in a case."""
    files, runs = parse(text)
    with tempfile.TemporaryDirectory() as folder:
        for name, content in files.items():
            put(folder, name, content)
        for words, status, out, wrote in runs:
            for name in wrote:
                put(folder, name, files.get(name))
            done = subprocess.run([program] + words, cwd=folder, stdin=subprocess.DEVNULL,
                                  stdout=subprocess.PIPE, stderr=subprocess.DEVNULL, timeout=120)
            if (done.returncode, done.stdout) != (status, out):
                yield '%s: want %d and %r, have %d and %r' % (
                    shlex.join(words), status, out[-600:], done.returncode, done.stdout[-600:])
            for name, content in wrote.items():
                with open(os.path.join(folder, name), 'rb') as file:
                    left = file.read()
                if left != content:
                    yield '%s: want of %s %r, have %r' % (shlex.join(words), name, content[-600:], left[-600:])


def main():
    words = proved.words(names={'metavar': 'NAME', 'nargs': '*', 'help': 'run only the cases whose names contain this'})
    program = proved.program(words.program)
    names = [name for name in sorted(os.listdir(FOLDER)) if not words.names or any(w in name for w in words.names)]
    failed = 0
    for name in names:
        try:
            with open(os.path.join(FOLDER, name), encoding='utf-8', newline='') as file:
                wrong = list(failures(program, file.read()))
        except (Malformed, ValueError, OSError, subprocess.TimeoutExpired) as error:
            wrong = ['%s: %s' % (type(error).__name__, error)]
        for line in wrong:
            print('FAILED %s: %s' % (name, line))
        failed += bool(wrong)
    print('%d passed, %d failed' % (len(names) - failed, failed))
    sys.exit(1 if failed or not names else 0)


if __name__ == '__main__':
    main()
