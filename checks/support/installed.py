"""The programs that a check needs on the machine. A check ends with the status SKIPPED if one isn't installed. A check
that skips only a part of itself goes on. Both print a line `skipped: WHAT, as PROGRAM is not installed`."""
import os
import shutil
import sys

SKIPPED = 77
# Where servers are installed, although a user's PATH may lack these folders.
FOLDERS = '/usr/local/sbin', '/usr/sbin', '/sbin'


def find(*names):
    """Returns the path of the first of these programs that is installed, or None."""
    path = os.pathsep.join([os.environ.get('PATH', os.defpath), *FOLDERS])
    return next(filter(None, (shutil.which(name, path=path) for name in names)), None)


def missing(needs):
    """Returns the needs that the machine doesn't meet. A need names one program, or several of which one is enough."""
    return [names for names in needs if not find(*names)]


def told(names):
    return ' or '.join(names) + ' is not installed'


def skip_part(what, *names):
    print('skipped: %s, as %s' % (what, told(names)), flush=True)


def need(*needs):
    """Ends the check if the machine doesn't meet one of these needs."""
    for names in missing(needs):
        skip_part('all of it', *names)
        print('0 passed, 0 failed, 1 skipped')
        sys.exit(SKIPPED)
