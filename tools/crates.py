"""The crates of the repository: which crates each one uses, by `crates.txt`, and how many lines it has."""
import os
import shutil

TOP = os.path.dirname(os.path.dirname(os.path.abspath(__file__)))
PARTS = 'src', 'specs', 'proofs'
PROGRAM = 'jac_main'


def crates():
    """Each crate, lowest first, with the crates of the repository that it uses directly."""
    found = {}
    with open(os.path.join(TOP, 'crates.txt'), encoding='utf-8') as lines:
        for line in lines:
            head, colon, names = line.partition('#')[0].partition(':')
            if colon:
                found[head.split()[0]] = names.split()
    return {name: [other for other in names if other in found] for name, names in found.items()}


def below(program):
    """The program's crate and its lower crates, lowest first, each with the crates that it uses directly."""
    every, wanted, left = crates(), set(), [program]
    while left:
        name = left.pop()
        if name not in wanted:
            wanted.add(name)
            left += every[name]
    return {name: names for name, names in every.items() if name in wanted}


def folder(name):
    return os.path.join(TOP, 'crates', name)


def copy_crate(name, top):
    """Copies a crate, without its wrong bodies and what was built, to where it is below the folder `top`."""
    shutil.copytree(folder(name), os.path.join(top, 'crates', name), dirs_exist_ok=True,
                    ignore=shutil.ignore_patterns('out', 'must-fail'))


def files(name, parts=PARTS):
    """The files of these parts of a crate, as paths from the top."""
    for part in parts:
        for at, folders, names in os.walk(os.path.join(folder(name), part)):
            folders.sort()
            yield from (os.path.relpath(os.path.join(at, file), TOP) for file in sorted(names))


def lines(name):
    """The number of lines of a crate's code, definitions and proofs."""
    count = 0
    for path in files(name):
        with open(os.path.join(TOP, path), 'rb') as file:
            count += file.read().count(b'\n')
    return count
