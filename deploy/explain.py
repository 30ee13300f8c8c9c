#!/usr/bin/env python3
"""Explains in the service's journal why jac ended: which part of the application differs from the store and whether an
upgrade can convert the store, which word of the sessions is malformed, or what is wrong with a store that was refused.

A unit runs this script as ExecStopPost, with the arguments of its ExecStart. systemd's environment variables say how
jac ended. The script prints nothing if a signal ended jac or if there was no fault. It prints the same explanation at
most once a minute. It changes only a file in RUNTIME_DIRECTORY, where it notes what it explained. It needs the folder
`tools`, beside the script or in a clone."""
import os
import subprocess
import sys
import time

HERE = os.path.dirname(os.path.realpath(__file__))
FAULT_PLACE = [path for path in (os.path.join(HERE, 'tools', 'fault_place.py'), os.path.join(os.path.dirname(HERE), 'tools',
                                                                                  'fault_place.py')) if os.path.exists(path)]
AGAIN = 60      # seconds until the same explanation is printed again


def is_new(status):
    """Whether this status wasn't explained within the last minute. Notes that it is explained now."""
    folder = os.environ.get('RUNTIME_DIRECTORY')
    if not folder:
        return True
    name = os.path.join(folder, 'explained')
    try:
        with open(name, encoding='ascii') as file:
            if file.read() == status and 0 <= time.time() - os.stat(name).st_mtime < AGAIN:
                return False
    except OSError:
        pass
    try:
        with open(name, 'w', encoding='ascii') as file:
            file.write(status)
    except OSError:
        pass
    return True


def main(words):
    if not words or words[0] in ('-h', '--help'):
        print(__doc__)
        return
    status = os.environ.get('EXIT_STATUS', '')
    if os.environ.get('EXIT_CODE') != 'exited' or status == '0' or not status.isdigit() or not is_new(status):
        return
    if not FAULT_PLACE:
        sys.exit('explain: there is no folder tools beside %s' % os.path.realpath(__file__))
    sys.exit(subprocess.run([sys.executable, FAULT_PLACE[0], '--status', status, *words], stdin=subprocess.DEVNULL,
                            check=False).returncode)


if __name__ == '__main__':
    main(sys.argv[1:])
