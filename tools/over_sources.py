#!/usr/bin/env python3
"""Checks a crate, and uses the sources of those lower crates that aren't proved yet. So you can work on a crate while
its lower crates are still being proved. Arguments: the crate, and arguments of `rattle check`, such as `--only
FILE::FUNCTION`, or `--only=`, which only reports errors of the code. Libraries in this clone are used as they are. The
work is kept in the crate's `out/incremental`. This proves nothing, because the contracts of the lower crates are
assumed."""
import argparse
import os
import sys

sys.dont_write_bytecode = True
from crates import TOP, below, folder                                       # noqa: E402

KIT = '/opt/rattle'


def uses(name):
    """The crates that the crate's line in crates.txt names, those of the kit included."""
    with open(os.path.join(TOP, 'crates.txt'), encoding='utf-8') as lines:
        for line in lines:
            head, _, names = line.partition('#')[0].partition(':')
            if head.split()[:1] == [name]:
                return names.split()
    sys.exit('there is no crate ' + name)


def library(name):
    return os.path.join(folder(name), 'out', 'rlib', name + '.rlib')


def words_below(crate):
    """The arguments that name the kit's crates, the libraries in this clone, and the other lower crates' sources."""
    own = [name for name in below(crate) if name != crate]
    kit = sorted({name for one in [*own, crate] for name in uses(one)} - set(own) - {crate})
    for name in ['core', 'std', *kit]:
        path = os.path.join(KIT, 'rlibs', name + '.rlib')
        if os.path.exists(path):
            yield from ('--extern', '%s=%s' % (name, path))
    for name in own:
        if os.path.exists(library(name)):
            yield from ('--extern', '%s=%s' % (name, library(name)), '-L', 'dependency=' + os.path.dirname(library(name)))
        else:
            yield from ('--lib', '%s:%s=%s' % (name, ','.join(['core', 'std', *uses(name)]),
                                               os.path.join(folder(name), 'src', 'lib.rt')))


def root():
    """The root file of the crate in the current folder, which is a program or a library."""
    main_file = os.path.join('src', 'main.rt')
    return main_file if os.path.exists(main_file) else os.path.join('src', 'lib.rt')


def main():
    parser = argparse.ArgumentParser(description=__doc__)
    parser.add_argument('crate')
    given, words = parser.parse_known_args()
    os.makedirs(os.path.join(folder(given.crate), 'out'), exist_ok=True)
    os.chdir(folder(given.crate))
    command = ['rattle', 'check', '--crate-name', given.crate, root(),
               '-L', 'dependency=' + os.path.join(KIT, 'rlibs'), *words_below(given.crate),
               '--antt-project', os.path.join(KIT, 'rattle', 'logic', 'antt-project.json'),
               '--logic-built', os.path.join(KIT, 'logic_built'), '--links', given.crate + '=', '--jobs', '1',
               '--incremental', os.path.join('out', 'incremental'), *words]
    os.execv(os.path.join(KIT, 'bin', 'rattle'), command)


if __name__ == '__main__':
    main()
