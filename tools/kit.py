"""The kit's command `rt`: its path, and its Python module, which knows the dependencies of a crate's code and how a
crate is checked."""
import importlib.machinery
import importlib.util
import os
import shutil
import sys


def path():
    """The path of `rt`. If it isn't installed, says so and ends the script with exit status 70 (nothing is built)."""
    found = shutil.which('rt')
    if found is None:
        print('jac: there is no rt here; CONTRIBUTING.md says what is needed to build the program', file=sys.stderr)
        sys.exit(70)
    return os.path.realpath(found)


def load():
    loader = importlib.machinery.SourceFileLoader('rt_main', path())
    module = importlib.util.module_from_spec(importlib.util.spec_from_loader('rt_main', loader))
    loader.exec_module(module)
    return module


def remember_stamps(rtlib):
    """Caches the checksum of each crate's text. Without the cache it is computed again for each crate above, which
    takes ten seconds or more for the topmost crates."""
    make, found = rtlib.Crate.stamp, {}

    def stamp(crate):
        if crate.folder not in found:
            found[crate.folder] = make(crate)
        return found[crate.folder]

    rtlib.Crate.stamp = stamp
