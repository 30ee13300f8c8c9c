"""What the checks of deploy/ share: the program as its unit starts it, accounts, a certificate, requests over TLS."""
import contextlib
import http.client
import os
import re
import shlex
import shutil
import socket
import ssl
import subprocess
import sys
import threading
import time
import urllib.parse

from support.serving import HOST, is_listening

TOP = os.path.dirname(os.path.dirname(os.path.dirname(os.path.abspath(__file__))))
DEPLOY = os.path.join(TOP, 'deploy')
CALENDAR = os.path.join(TOP, 'examples', 'calendar', 'app')
PASSWORDS = {'ann': 'for ann', 'bob': 'for bob', 'eve': 'for eve'}
VIEWERS = {'ann': '4096', 'bob': '4160', 'eve': '-'}
HOST_NAME = 'localhost'
POLICY = ("default-src 'none'; style-src 'self' 'unsafe-inline'; img-src 'self' data:; form-action 'self'; "
          "base-uri 'none'; frame-ancestors 'none'")
SECURITY = {'Strict-Transport-Security': 'max-age=31536000', 'X-Content-Type-Options': 'nosniff',
            'Referrer-Policy': 'same-origin', 'Content-Security-Policy': POLICY}


def read(*names):
    with open(os.path.join(*names), encoding='utf-8') as file:
        return file.read()


def write(text, *names):
    with open(os.path.join(*names), 'w', encoding='utf-8') as file:
        file.write(text)


def placed(text, changes):
    """Returns the text with each of these changes made. Every text to be changed must be in it."""
    for old, new in changes:
        assert old in text, old
        text = text.replace(old, new)
    return text


def expect(name, have, want):
    return None if have == want else '%s: %r, not %r' % (name, have, want)


def shows(name, answer, *texts, but=()):
    status, _, page = answer
    if status != 200:
        return '%s: status %d' % (name, status)
    for text in texts:
        if text not in page:
            return '%s: no %r' % (name, text)
    for text in but:
        if text in page:
            return '%s: %r' % (name, text)
    return None


def secured(name, headers, but=()):
    """Checks that the headers of every page are there, and that no header names a server's version."""
    for header, value in SECURITY.items():
        if header not in but and headers.get_all(header) != [value]:
            return '%s: %s is %r' % (name, header, headers.get_all(header))
    if re.search(r'[0-9]', headers.get('Server', '')):
        return '%s: names a version, %s' % (name, headers['Server'])
    return None


def account(folder, *words, password=None, at=DEPLOY):
    """Runs account.py. Returns its status, its output and its standard error."""
    done = subprocess.run([sys.executable, os.path.join(at, 'account.py'), folder, *words], text=True,
                          input='' if password is None else password + '\n', stdout=subprocess.PIPE,
                          stderr=subprocess.PIPE)
    return done.returncode, done.stdout, done.stderr


def settle(folder, program, **changes):
    """Writes accounts.ini as it is in deploy/, changed for a folder of its own. Restarts and reloads leave a file in
    that folder."""
    lines = {'program': program, 'application': os.path.join(folder, 'app'), 'bcrypt cost': '4',
             'store': os.path.join(folder, 'store.db'), 'restart jac': 'touch %s/restarted' % folder,
             'reload front': 'touch %s/reloaded' % folder, 'jac group': 'root', 'front group': 'www-data', **changes}
    text = read(DEPLOY, 'accounts.ini')
    for key, value in lines.items():
        text, count = re.subn(r'(?m)^%s = .*$' % key, lambda match: '%s = %s' % (key, value), text)
        assert count == 1, key
    write(text, folder, 'accounts.ini')


def add_accounts(folder):
    """Adds the accounts of the checks. Returns the token of each account that has one."""
    for name, viewer in VIEWERS.items():
        status, _, told = account(folder, 'add', name, viewer, password=PASSWORDS[name])
        assert status == 0, told
    return dict(line.rstrip(';').split() for line in read(folder, 'tokens').splitlines())


def certify(folder):
    made = ['openssl', 'req', '-x509', '-newkey', 'rsa:2048', '-nodes', '-days', '2', '-subj', '/CN=localhost',
            '-addext', 'subjectAltName=DNS:localhost,DNS:board.localhost,IP:127.0.0.1',
            '-keyout', 'key.pem', '-out', 'certificate.pem']
    subprocess.run(made, cwd=folder, stdin=subprocess.DEVNULL, stderr=subprocess.DEVNULL, check=True)
    return ssl.create_default_context(cafile=os.path.join(folder, 'certificate.pem'))


def until(holds, seconds=20.0):
    """Waits until `holds()` is true. Returns whether it became true in time."""
    deadline = time.monotonic() + seconds
    while not holds():
        if time.monotonic() > deadline:
            return False
        time.sleep(0.03)
    return True


class Client:
    """Sends requests to a site with TLS, each on a connection of its own."""

    def __init__(self, port, trusted, host=HOST_NAME):
        self.port, self.trusted, self.own = port, trusted, 'https://%s:%d' % (host, port)
        self.host = '%s:%d' % (host, port)

    def address(self, path):
        return self.own + path

    def ask(self, method, path, headers=(), body=None, host=None):
        """Returns the status, the headers and the body of the reply."""
        line = http.client.HTTPSConnection('localhost', self.port, timeout=20, context=self.trusted)
        with contextlib.closing(line):
            line.putrequest(method, path, skip_host=True)
            line.putheader('Host', host or self.host)
            for name, value in headers:
                line.putheader(name, value)
            line.endheaders(body, encode_chunked=body is not None and not isinstance(body, bytes))
            answer = line.getresponse()
            return answer.status, answer.headers, answer.read().decode()

    def form(self, path, fields, headers=()):
        body = urllib.parse.urlencode(fields).encode()
        kind = [('Content-Type', 'application/x-www-form-urlencoded'), ('Content-Length', str(len(body)))]
        return self.ask('POST', path, [*kind, *headers], body)


def plain(port, path, host=HOST_NAME):
    """Sends a request without TLS. Returns the status, and where the reply redirects to."""
    line = http.client.HTTPConnection(HOST, port, timeout=20)
    with contextlib.closing(line):
        line.request('GET', path, headers={'Host': host})
        answer = line.getresponse()
        return answer.status, answer.headers['Location']


def unit_line(unit, changes):
    """Returns the command by which a unit starts the program, with its paths changed."""
    return shlex.split(placed(re.search(r'^ExecStart=(.*)$', read(DEPLOY, unit), re.M)[1], changes))


def socket_of(unit, port):
    """Returns a socket that listens on the port, opened as a socket unit does it."""
    text = read(DEPLOY, unit)
    made = socket.socket()
    made.setsockopt(socket.SOL_SOCKET, socket.SO_REUSEADDR, 1)
    made.setsockopt(socket.IPPROTO_TCP, socket.TCP_DEFER_ACCEPT, int(re.search(r'(?m)^DeferAcceptSec=(\d+)$', text)[1]))
    made.bind((HOST, port))
    made.listen(int(re.search(r'(?m)^Backlog=(\d+)$', text)[1]))
    return made


# Runs a command. The descriptor that the first argument names becomes descriptor 3, as systemd passes a socket on.
HAND_OVER = '''import os, sys
if int(sys.argv[1]) != 3: os.dup2(int(sys.argv[1]), 3)
os.set_inheritable(3, True)
os.environ.update(LISTEN_PID=str(os.getpid()), LISTEN_FDS='1')
os.execv(sys.argv[2], sys.argv[2:])'''


class Service:
    """jac as a unit starts it. It is started again whenever it ends. A socket that is passed on to it stays open."""

    def __init__(self, words, port, pid, handed=None):
        self.words, self.port, self.pid, self.runs, self.stopped = words, port, pid, [], False
        self.door = socket_of(handed, port) if handed else None
        self.thread = threading.Thread(target=self.keep)
        self.thread.start()
        self.wait()

    def keep(self):
        while not self.stopped:
            words, passed = self.words, ()
            if self.door:
                passed = (self.door.fileno(),)
                words = [sys.executable, '-c', HAND_OVER, str(passed[0]), *words]
            run = subprocess.Popen(words, stdin=subprocess.DEVNULL, stdout=subprocess.DEVNULL,
                                   stderr=subprocess.DEVNULL, pass_fds=passed)
            self.runs.append(run)
            write(str(run.pid), self.pid)
            run.wait()
            time.sleep(0.1)

    def wait(self):
        until(lambda: is_listening(self.port))

    def restart(self):
        """Restarts the service as `systemctl restart` does."""
        count = len(self.runs)
        self.runs[-1].terminate()
        until(lambda: len(self.runs) > count)
        self.wait()

    def stop(self):
        self.stopped = True
        while self.thread.is_alive():
            self.runs[-1].kill()
            self.thread.join(0.2)
        if self.door:
            self.door.close()


def service(program, folder, port, count=1000000, handed=False):
    """Starts the service of one application, jac.service."""
    assert 'Restart=always' in read(DEPLOY, 'jac.service') and 'RestartSec=100ms' in read(DEPLOY, 'jac.service')
    words = unit_line('jac.service', [('/usr/local/bin/jac', program), ('/etc/jac/calendar/', folder + '/'),
                                      (' 8080 ', ' %d ' % port), (' 1000000 ', ' %d ' % count),
                                      ('/var/lib/jac/calendar/', folder + '/'),
                                      ('/var/log/jac/calendar/', folder + '/')])
    return Service(words, port, os.path.join(folder, 'jac.pid'), 'jac.socket' if handed else None)


def close(run):
    """Ends a server that was started here. Returns its output."""
    run.terminate()
    return run.communicate(timeout=20)[0]


def site_files(folder):
    """Makes what /srv/jac has: the account pages and a style sheet."""
    os.makedirs(os.path.join(folder, 'static'))
    shutil.copytree(os.path.join(DEPLOY, 'account'), os.path.join(folder, 'account'))
    write('body { color: #223 }\n', folder, 'static', 'style.css')


class Skipped(str):
    """The result of a part that was skipped: the reason."""


def report(results):
    """Prints what failed and what was skipped, then the counts, and exits."""
    failed = skipped = passed = 0
    for result in results:
        if isinstance(result, Skipped):
            print('skipped ' + result, flush=True)
            skipped += 1
        elif result:
            print('FAILED ' + result, flush=True)
            failed += 1
        else:
            passed += 1
    print('%d passed, %d failed%s' % (passed, failed, ', %d skipped' % skipped if skipped else ''))
    sys.exit(1 if failed else 0)
