"""Reads the text of an application from its file or its folder."""
import os
import sys

sys.dont_write_bytecode = True
sys.path.insert(0, os.path.dirname(os.path.abspath(__file__)))
import assemble                                                             # noqa: E402


class Fault(Exception):
    """The reason why there is no text, in one or more lines."""


def read(path):
    try:
        return assemble.read(path)
    except OSError as fault:
        raise Fault('%s: %s' % (path, fault.strerror)) from None
    except assemble.Fault as fault:
        raise Fault(str(fault)) from None
