#!/usr/bin/env python3
"""Copies a store, either while it is served or before an upgrade.

    python3 tools/store_copies.py upgrade PROGRAM .. upgrade OLD NEW --db FILE

copies the store and its log to FILE.before-upgrade-N, where N is the first free number, and says so on standard error.
Then the command from PROGRAM on replaces this process. If the copy can't be made, the command isn't run, and the store
stays as it is. If there is no store, nothing is copied."""
import fcntl
import os
import shutil
import signal
import stat
import subprocess
import sys

sys.dont_write_bytecode = True
TOOLS = os.path.dirname(os.path.abspath(__file__))
sys.path.insert(0, TOOLS)
import commands                                                             # noqa: E402

BACKUP = os.path.join(os.path.dirname(TOOLS), 'deploy', 'backup.py')
LOG = '-wal'
# the bytes of a database that SQLite locks; whoever has locked all of them uses the file alone
LOCK_AT, LOCK_SIZE = 0x40000000, 512
STORE_FAULT = 6


class Fault(Exception):
    """The reason why there is no copy."""


def copy_served(store, target):
    """Copies a store, which may be served meanwhile, to a file that doesn't exist yet."""
    done = subprocess.run([sys.executable, BACKUP, store, target], stdin=subprocess.DEVNULL, stdout=subprocess.PIPE,
                          stderr=subprocess.STDOUT, check=False)
    if done.returncode:
        told = done.stdout.decode('utf-8', 'replace').strip('\n').split('\n')[-1]
        raise Fault("%s can't be copied: %s" % (store, told))


def write_new(source, target):
    """Copies an open file to a new one with the same permissions, and waits until it is on the disk."""
    old = os.fstat(source.fileno())
    with open(os.open(target, os.O_WRONLY | os.O_CREAT | os.O_EXCL, 0o600), 'wb') as file:
        try:
            shutil.copyfileobj(source, file)
            os.fchmod(file.fileno(), stat.S_IMODE(old.st_mode))
            file.flush()
            os.fsync(file.fileno())
        except OSError:
            os.remove(target)
            raise


def free_name(store):
    """The first name for a copy of the store that is free, both for the file and for its log."""
    number = 1
    while any(os.path.lexists('%s.before-upgrade-%d%s' % (store, number, end)) for end in ('', LOG)):
        number += 1
    return '%s.before-upgrade-%d' % (store, number)


def write_both(file, store, target):
    """Copies a store and the log beside it. `file` is the open store, which nobody else may write. The log is copied
    first, so that a copy is never without it."""
    has_log = os.path.exists(store + LOG)
    if has_log:
        with open(store + LOG, 'rb') as log:
            write_new(log, target + LOG)
    try:
        write_new(file, target)
    except OSError:
        if has_log:
            os.remove(target + LOG)
        raise
    folder = os.open(os.path.dirname(os.path.abspath(target)), os.O_RDONLY)
    os.fsync(folder)
    os.close(folder)


def copy_before_upgrade(store):
    """Copies the store, and returns the copy's name. The file is opened only once, because its locks are released when
    any of its descriptors is closed."""
    with open(store, 'r+b') as file:
        try:
            fcntl.lockf(file, fcntl.LOCK_EX | fcntl.LOCK_NB, LOCK_SIZE, LOCK_AT)
        except (BlockingIOError, PermissionError):
            raise Fault('another program has the file open') from None
        target = free_name(store)
        write_both(file, store, target)
    return target


def tell(text):
    print('jac: ' + text, file=sys.stderr, flush=True)


def keep_before(words):
    """Copies the store that a command with these arguments upgrades, if there is one. Exits if it can't be copied."""
    store = commands.value_of(words, '--db')
    if store is None or commands.fault(words) or not os.path.isfile(store):
        return
    try:
        tell('a copy of %s from before the upgrade is %s' % (store, copy_before_upgrade(store)))
    except (Fault, OSError) as fault:
        tell('%s: %s' % (store, fault if isinstance(fault, Fault) else fault.strerror))
        tell('nothing was upgraded, since there is no copy of %s' % store)
        print('store fault', flush=True)
        sys.exit(STORE_FAULT)


def main(words):
    if words[:1] != ['upgrade'] or 'upgrade' not in words[2:]:
        print(__doc__)
        return
    command = words[1:]
    keep_before(command[command.index('upgrade', 1):])
    # Python ignores these signals, and the program would inherit that
    signal.signal(signal.SIGPIPE, signal.SIG_DFL)
    signal.signal(signal.SIGXFSZ, signal.SIG_DFL)
    os.execvp(command[0], command)


if __name__ == '__main__':
    main(sys.argv[1:])
