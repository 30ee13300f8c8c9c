#!/usr/bin/env python3
"""Counts what is proved and tested, by storey of crates.txt, and compares the counts with docs/TESTING.md. If the page
is out of date, this says so and ends with status 1. With --write it rewrites the page's tables."""
import os
import re
import sys

sys.dont_write_bytecode = True
from cases import FOLDER, parse                                             # noqa: E402
from support.pages import TOP, differences, page_parser, read               # noqa: E402
from reading import Specs                                                   # noqa: E402

PAGE = 'docs/TESTING.md'
FUNCTION = re.compile(r'(?m)^\s*(pub )?(?:pub\([a-z]+\) )?(?:const )?fn \w+')
CLAUSE = re.compile(r'(?m)^\s*(?:requires|ensures)\b')
COLUMNS = ('lines', 'functions', 'public', 'clauses', 'definitions', 'lemmas', 'proofs by hand', 'wrong bodies', 'tests')


def paths(crate, part, end):
    """Yields the files of a part of a crate, as paths from the top."""
    for folder, _, files in os.walk(os.path.join(TOP, 'crates', crate, part)):
        for file in sorted(files):
            if file.endswith(end):
                yield os.path.relpath(os.path.join(folder, file), TOP)


def joined(found):
    return '\n'.join(map(read, found))


def definitions(found, crate):
    return sum(len(Specs(path, crate).items) for path in found)


def of_crate(crate):
    """Returns the counts of COLUMNS for a crate."""
    sources = list(paths(crate, 'src', '.rt'))
    tests = [path for path in sources if '#[test]' in read(path)]
    code = joined(path for path in sources if path not in tests)
    proofs = list(paths(crate, 'proofs', '.antt'))
    own = [path for path in proofs if path.count(os.sep) > 3]
    lemmas = [path for path in proofs if path not in own and not path.endswith('Lib.antt')]
    functions = FUNCTION.findall(code)
    return (code.count('\n'), len(functions), sum(1 for public in functions if public), len(CLAUSE.findall(code)),
            definitions(paths(crate, 'specs', '.antt'), crate), definitions(lemmas, crate),
            len({os.path.dirname(path) for path in own}), sum(1 for _ in paths(crate, 'must-fail', '.edit')),
            joined(tests).count('#[test]'))


def crates():
    return [line.split(':')[0].split()[0] for line in read('crates.txt').split('\n') if line and not line.startswith('#')]


def storeys():
    """Returns the storeys of crates.txt, as (heading, crates)."""
    found = []
    for line in read('crates.txt').split('\n'):
        if line.startswith('# ') and line[2:3].isdigit():
            found.append((line[2:].split(':')[0], []))
        elif line and not line.startswith('#'):
            found[-1][1].append(line.split(':')[0].split()[0])
    return found


def summed(counts):
    return [sum(column) for column in zip(*counts)]


def table(counts):
    """Returns a table with a row for each storey, which sums the counts of its crates, and a row for all."""
    lines = ['| Storey | %s |' % ' | '.join(COLUMNS), '|---' * (len(COLUMNS) + 1) + '|']
    rows = [(heading, summed(counts[name] for name in names)) for heading, names in storeys()]
    rows.append(('**all**', summed(counts.values())))
    return '\n'.join(lines + ['| %s | %s |' % (heading, ' | '.join(map(str, sums))) for heading, sums in rows])


def of_cases():
    runs = [len(parse(read(os.path.join(os.path.relpath(FOLDER, TOP), name)))[1]) for name in os.listdir(FOLDER)]
    replies = sum(content.count(b'reply ') for name in os.listdir(FOLDER)
                  for _, _, content, _ in parse(read(os.path.join(os.path.relpath(FOLDER, TOP), name)))[1])
    examples = [name for name in os.listdir(os.path.join(TOP, 'examples')) if name.endswith('.app') or '.' not in name]
    return ('`checks/cases` has %d worked cases, with %d runs of the program and %d replies. `examples` has %d examples, with '
            'their output.' % (len(runs), sum(runs), replies, len(examples)))


def main():
    write = page_parser().parse_args().write
    tables = {'counts': table({name: of_crate(name) for name in crates()}), 'cases': of_cases()}
    wrong = differences(PAGE, tables, 'checks/testing.py', write)
    for line in wrong:
        print('FAILED ' + line)
    print(tables['cases'])
    sys.exit(1 if wrong else 0)


if __name__ == '__main__':
    main()
