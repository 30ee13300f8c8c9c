"""Runs of the program's command `serve` for the checks. Each listens on a free port until it ends or is no longer
needed. Several checks may run at once, so a port that was free may be taken a moment later. Then another one is
tried."""
import contextlib
import os
import socket
import subprocess
import time

HOST = '127.0.0.1'
PORTS = 5       # how many ports are tried
TAKEN = 8       # the exit status of a run whose port is taken


def free_port():
    with contextlib.closing(socket.socket()) as door:
        door.bind((HOST, 0))
        return door.getsockname()[1]


def doors(port):
    """Returns the sockets that listen on the port. They are found without connecting: state 0A in Linux's table."""
    with open('/proc/net/tcp') as table:
        rows = [line.split() for line in table.readlines()[1:]]
    return ['socket:[%s]' % row[9] for row in rows if int(row[1].partition(':')[2], 16) == port and row[3] == '0A']


def is_listening(port):
    """Returns whether some process listens on the port."""
    return bool(doors(port))


def listens(process, port):
    """Returns whether this process listens on the port."""
    found = doors(port)
    if not found:
        return False
    folder = '/proc/%d/fd' % process
    with contextlib.suppress(OSError):
        for name in os.listdir(folder):
            with contextlib.suppress(OSError):
                if os.readlink(os.path.join(folder, name)) in found:
                    return True
    return False


def processor_seconds(process):
    """Returns the processor time that all threads of the process have used, by the system's clock for it."""
    return time.clock_gettime((~process << 3) | 2)


class Served:
    """A run of `serve`."""

    def __init__(self, run, port):
        self.run, self.port, self.told = run, port, None

    def connect(self, room=None):
        """Opens a connection. `room` is the size of its receive buffer, if it is given."""
        line = socket.socket()
        line.settimeout(20)
        if room is not None:
            line.setsockopt(socket.SOL_SOCKET, socket.SO_RCVBUF, room)
        line.connect((HOST, self.port))
        line.setsockopt(socket.IPPROTO_TCP, socket.TCP_NODELAY, 1)
        return line

    def address(self, path):
        return 'http://%s:%d%s' % (HOST, self.port, path)

    def end(self):
        """Waits until the run ends by itself. Returns its status and its output. Its standard error is in `told`."""
        out, self.told = self.run.communicate(timeout=30)
        return self.run.returncode, out

    def kill(self):
        self.run.kill()
        self.run.wait()


def end(run):
    run.kill()
    run.wait()
    run.stdout.close()
    run.stderr.close()


def begin(program, app, count, folder, options):
    """Starts a run. Returns it when it listens or has ended, with its port."""
    for left in reversed(range(PORTS)):
        port = free_port()
        words = [program, 'serve', app, str(port), str(count), *options]
        run = subprocess.Popen(words, cwd=folder, stdin=subprocess.DEVNULL, stdout=subprocess.PIPE,
                               stderr=subprocess.PIPE)
        deadline = time.monotonic() + 20
        while run.poll() is None and not listens(run.pid, port) and time.monotonic() < deadline:
            time.sleep(0.01)
        if run.returncode != TAKEN or not left:
            return run, port
        end(run)


@contextlib.contextmanager
def served(program, app, count, folder, options=()):
    """Serves the application on a free port, for `count` connections. If the run hasn't ended at the end, it is
    killed."""
    run, port = begin(program, app, count, folder, options)
    try:
        yield Served(run, port)
    finally:
        end(run)
