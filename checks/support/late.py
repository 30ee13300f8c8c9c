"""Cases that fail because something was late, and for no other known reason. Another program may keep the machine busy
for a moment, so such cases are repeated a bounded number of times. A case that is late each time fails."""
import http.client
import socket
import subprocess
import sys
import time

LOOKS = 6
# What ends a part early if a client or the program was too slow: a closed connection, or a wait that timed out.
ENDINGS = TimeoutError, ConnectionError, http.client.HTTPException, subprocess.TimeoutExpired


PLAIN = '''import socket
door = socket.create_server(("127.0.0.1", 0))
print(door.getsockname()[1], flush=True)
while True:
    line, _ = door.accept()
    line.recv(65536)
    line.sendall(b"plain")
    line.close()
'''


class Plain:
    """A plain Python server in a process of its own. How long its page takes shows how slow the machine is."""

    def __enter__(self):
        self.run = subprocess.Popen([sys.executable, '-c', PLAIN], stdin=subprocess.DEVNULL, stdout=subprocess.PIPE,
                                    text=True)
        self.port = int(self.run.stdout.readline())
        return self

    def seconds(self):
        """Returns how long a page takes once its connection is open."""
        with socket.create_connection(('127.0.0.1', self.port), timeout=20) as line:
            began = time.monotonic()
            line.sendall(b'GET / HTTP/1.0\r\n\r\n')
            while line.recv(65536):
                pass
            return time.monotonic() - began

    def __exit__(self, *why):
        self.run.kill()
        self.run.wait()
        self.run.stdout.close()


class Late(str):
    """A case that may have failed only because something was late."""


def all_of(name, have, want):
    """Checks that all of these bytes came. If only the last ones are missing, the connection may have been closed
    before them."""
    if have == want:
        return None
    return (Late if want.startswith(have) else str)('%s: %r, not %r' % (name, have, want))


def as_many(name, have, want):
    """Checks that there are as many as wanted. If there are fewer, the connection may have been closed before the
    others."""
    if have == want:
        return None
    return (Late if have < want else str)('%s: %d, not %d' % (name, have, want))


def looked_at(name, part, looks=LOOKS):
    """Runs a part until nothing in it is late, at most `looks` times. Returns the results of the last run. The pauses
    between the runs get longer."""
    for look in range(looks):
        time.sleep(look)
        try:
            results = list(part())
        except ENDINGS as error:
            results = [Late('%s: %s: %s' % (name, type(error).__name__, error))]
        late = [one for one in results if isinstance(one, Late)]
        if not late:
            break
        print('%s: look %d of %d was late: %s' % (name, look + 1, looks, late[0][:200]), flush=True)
    return results
