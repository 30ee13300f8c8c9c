"""Makes the argument parser of a script. The script's docstring is its description. `--help` only prints help. An
unknown flag ends the script with exit status 2."""
import argparse
import sys


def script_parser(prog=None):
    """A parser for the running script, without any arguments yet."""
    return argparse.ArgumentParser(prog=prog, description=sys.modules['__main__'].__doc__, allow_abbrev=False,
                                   formatter_class=argparse.RawDescriptionHelpFormatter)
