#!/usr/bin/env python3
"""Copies the libraries that a gate has proved from one clone to another, so that `rt check` there needn't prove the
lower crates again. A library is copied only if the text of its crate and of all lower crates is the same in both
clones. The script prints the names of the libraries that it copied. It helps whoever works on a crate. The gate doesn't
use these libraries."""
import argparse
import os
import shutil
import sys

sys.dont_write_bytecode = True
import kit                                                                  # noqa: E402


def load():
    """The kit's module, which reads the files of a program as `rt` does."""
    module = kit.load()
    make = module.rtlib.Crate.__init__

    def with_files(crate, *given, **named):
        make(crate, *given, **named)
        module.read_files(crate)

    module.rtlib.Crate.__init__ = with_files
    kit.remember_stamps(module.rtlib)
    return module.rtlib


def crates(rtlib, top):
    os.chdir(top)
    return {crate.name: crate for crate in rtlib.crates_below(top)}


def holds(crate, stamp):
    """Whether the crate has a library that isn't known to be out of date. A gate writes no stamp beside a library."""
    path = os.path.join(crate.folder, 'out', 'rlib', 'stamp')
    if not os.path.isfile(path):
        return os.path.isdir(crate.rlib)
    with open(path, encoding='utf-8') as file:
        return file.read() == stamp


def stock(rtlib, top, source):
    have = crates(rtlib, source)
    stamps = {name: crate.stamp() for name, crate in have.items()}
    lack = crates(rtlib, top)
    for name in sorted(lack, key=lambda name: len(lack[name].below())):
        crate = lack[name]
        same = name in have and stamps[name] == crate.stamp() and holds(have[name], stamps[name])
        if crate.is_built() or not same or not all(below.is_built() for below in crate.below()):
            continue
        into = os.path.join(crate.folder, 'out', 'rlib')
        shutil.rmtree(into, ignore_errors=True)
        shutil.copytree(os.path.join(have[name].folder, 'out', 'rlib'), into, symlinks=True)
        with open(os.path.join(into, 'stamp'), 'w', encoding='utf-8') as file:
            file.write(stamps[name])
        print(name)


def main():
    words = argparse.ArgumentParser(description=__doc__)
    words.add_argument('clone', help='the clone to copy to')
    words.add_argument('source', help='the clone to copy from')
    given = words.parse_args()
    stock(load(), os.path.abspath(given.clone), os.path.abspath(given.source))


if __name__ == '__main__':
    main()
