#!/usr/bin/env python3
"""Serves the calendar through nginx with the files of deploy/. Covers TLS, accounts and passwords, forged cookies,
forms of other sites, the site's own error pages, several applications, a rotated audit, backups, a standby, an
inherited socket, 20 restarts during requests, and what the journal says after a service has ended. Argument: the
program. Prints each failed case, then a count. What isn't installed is skipped, and the output says so.

With --load it also serves 32 and 300 clients for some minutes while the machine does other work. No request may fail.
Without --load this part is skipped."""
import argparse
import base64
import concurrent.futures
import contextlib
import gzip
import http.client
import os
import re
import shutil
import signal
import subprocess
import sys
import tempfile
import threading
import time

sys.dont_write_bytecode = True
from support import proved                                                  # noqa: E402
from support.fronts import (CALENDAR, DEPLOY, HOST_NAME, PASSWORDS, TOP, Client, Service, Skipped, account,  # noqa: E402
                    add_accounts, certify, close, expect, placed, plain, read, report, secured, service, settle,
                    shows, site_files, unit_line, until, write)
from support.serving import free_port, is_listening                         # noqa: E402

STYLE = 'body { color: #223 }\n'
MAIN = '''%s daemon off;
worker_processes 2;
pid nginx.pid;
error_log error.log warn;
events { worker_connections 4096; }
http {
    access_log off;
    %s
    client_body_temp_path body; proxy_temp_path proxy; fastcgi_temp_path f; uwsgi_temp_path u; scgi_temp_path s;
    include sites/*.conf;
}
'''
# The second application of the machine. Its files are made from those of the calendar (`as_documented`).
BOARD = 'board'
ACCOUNTS = 'ann 4096 active\nbob 4160 active\neve - active\n'
EVENTS = 300
RESTARTS = 20


def site_text(folder, tls, plain_port, port, static):
    """Returns nginx.conf, changed for a folder of its own."""
    changes = [('calendar.example.org', HOST_NAME), ('/etc/jac/calendar/', folder + '/'),
               ('root /srv/jac', 'root ' + static), ('127.0.0.1:8080', '127.0.0.1:%d' % port),
               ('listen 443', 'listen 127.0.0.1:%d' % tls), ('listen 80', 'listen 127.0.0.1:%d' % plain_port),
               ('return 301 https://' + HOST_NAME, 'return 301 https://%s:%d' % (HOST_NAME, tls))]
    return placed(read(DEPLOY, 'nginx.conf'), changes)


class Site(Client):
    """nginx in front of jac, in a folder of its own."""

    def __init__(self, folder, program):
        self.folder, self.program, self.plain, self.port_of_jac = folder, program, free_port(), free_port()
        settle(folder, program)
        super().__init__(free_port(), certify(folder))
        self.tokens = add_accounts(folder)
        site_files(folder)
        shutil.copy(CALENDAR, folder)
        os.makedirs(os.path.join(folder, 'sites'))
        write(site_text(folder, self.port, self.plain, self.port_of_jac, folder), folder, 'sites', 'calendar.conf')
        known = '/etc/nginx/mime.types'
        types = 'include %s;' % known if os.path.exists(known) else 'types { text/css css; }'
        write(MAIN % ('user root;' if os.geteuid() == 0 else '', types), folder, 'nginx.conf')
        self.words = ['nginx', '-p', folder, '-c', 'nginx.conf']
        self.run = subprocess.Popen(self.words, stdin=subprocess.DEVNULL, stdout=subprocess.PIPE,
                                    stderr=subprocess.STDOUT, text=True)
        until(lambda: self.run.poll() is not None or is_listening(self.port))
        settle(folder, program, **{'restart jac': "sh -c 'kill $(cat %s/jac.pid)'" % folder,
                                   'reload front': "sh -c 'kill -HUP $(cat %s/nginx.pid)'" % folder})

    def service(self, count=1000000, handed=False):
        return service(self.program, self.folder, self.port_of_jac, count, handed)

    def told(self):
        """Returns what nginx says about its files."""
        done = subprocess.run([*self.words, '-t'], stdin=subprocess.DEVNULL, stdout=subprocess.PIPE,
                              stderr=subprocess.STDOUT, text=True)
        return done.stdout

    def page(self, name, path='/', further=()):
        return self.ask('GET', path, [*basic(name), *further])

    def send(self, who, path, further=(), **fields):
        return self.form(path, fields, [*basic(who), *further])


def basic(name, password=None):
    words = '%s:%s' % (name, PASSWORDS[name] if password is None else password)
    return [('Authorization', 'Basic ' + base64.b64encode(words.encode()).decode())]


def run_jac(site, *words):
    done = subprocess.run([site.program, *words], cwd=site.folder, stdin=subprocess.DEVNULL, stdout=subprocess.PIPE,
                          text=True)
    return done.returncode, done.stdout


# Without a server.

def units(program):
    """Checks that the units of one application equal the template units, with the calendar as the instance, and that
    systemd accepts all units."""
    for kind in ('service', 'socket'):
        one = [line for line in read(DEPLOY, 'jac.' + kind).splitlines() if not line.startswith('#')]
        text = read(DEPLOY, 'jac@.' + kind)
        for old, new in (('jac@%i', 'jac'), ('%i', 'calendar'), ('${PORT}', '8080')):
            text = text.replace(old, new)
        several = [line for line in text.splitlines() if not line.startswith('#')]
        own = {'Description', 'User', 'EnvironmentFile', 'ListenStream', 'WantedBy', '[Install]', ''}
        have = [[line for line in lines if line.partition('=')[0] not in own] for lines in (one, several)]
        yield expect('the units of kind ' + kind, have[1], have[0])
    if not shutil.which('systemd-analyze'):
        yield Skipped('what systemd says of the units: systemd-analyze is not installed')
        return
    with tempfile.TemporaryDirectory() as folder:
        for name in os.listdir(DEPLOY):
            if name.endswith(('.service', '.socket', '.timer')):
                text = re.sub(r'/usr/(local/)?(bin|lib)/[a-z0-9/.]+', '/bin/true', read(DEPLOY, name))
                write(text, folder, name)
        os.makedirs(os.path.join(folder, 'jac@board.socket.d'))
        write('[Socket]\nListenStream=127.0.0.1:8081\n', folder, 'jac@board.socket.d', 'port.conf')
        for name in sorted(os.listdir(folder)):
            if name.endswith('.d'):
                continue
            unit = os.path.join(folder, name.replace('@.', '@board.'))
            if unit != os.path.join(folder, name):
                os.symlink(name, unit)
            done = subprocess.run(['systemd-analyze', 'verify', '--man=no', unit], stdin=subprocess.DEVNULL,
                                  stdout=subprocess.PIPE, stderr=subprocess.STDOUT, text=True)
            told = [line for line in done.stdout.splitlines() if folder in line or os.path.basename(unit) in line]
            yield expect('systemd on ' + name, (done.returncode, told), (0, []))


def explanations(program):
    """Checks the command that the units run after a service has ended. It has the same arguments as the start. It
    writes the reason to the journal, the same reason at most once a minute."""
    for unit in ('jac.service', 'jac@.service'):
        starts, ends = (re.findall(r'(?m)^%s=(.*)$' % name, read(DEPLOY, unit)) for name in ('ExecStart', 'ExecStopPost'))
        yield expect('the words of ' + unit, ends, ['-/usr/local/lib/jac/explain.py ' + line for line in starts])
    with tempfile.TemporaryDirectory() as folder:
        write('(app (model User (fields (name text))))', folder, 'app')
        write('', folder, 'sessions')
        subprocess.run([program, 'replay', 'app', 'sessions', '--db', 'store.db'], cwd=folder, check=True)
        write('(app (model User (fields (name text) (age int))))', folder, 'app')
        end = Ended(folder, program)
        yield expect('another schema', 'in %s/app the field age of User is new. ./jac upgrade' % folder in end.told('9'), True)
        yield expect('the same within a minute', end.told('9'), '')
        write('ann 4096\nbob\n', folder, 'sessions')
        yield expect('a line of the sessions', end.told('3').startswith('%s/sessions:2:3: the viewer is' % folder), True)
        os.utime(os.path.join(folder, 'explained'), (0, 0))
        yield expect('the same after a minute', end.told('3') != '', True)
        for status, code in (('0', 'exited'), ('TERM', 'killed'), ('9', 'killed')):
            yield expect('an end by %s, %s' % (code, status), end.told(status, code), '')
        write('no store\n' * 99, folder, 'store.db')
        yield expect('a store fault', 'store.db is no database of SQLite' in end.told('6'), True)
        yield expect('beside it', sorted(os.listdir(folder)), ['app', 'explained', 'lib', 'sessions', 'store.db'])


class Ended:
    """explain.py installed next to the tools as on a real machine, and run as the unit runs it."""

    def __init__(self, folder, program):
        self.folder = folder
        self.lib = os.path.join(folder, 'lib')
        os.makedirs(os.path.join(self.lib, 'tools'))
        shutil.copy(os.path.join(DEPLOY, 'explain.py'), self.lib)
        for name in os.listdir(os.path.join(TOP, 'tools')):
            if name.endswith('.py'):
                shutil.copy(os.path.join(TOP, 'tools', name), os.path.join(self.lib, 'tools'))
        self.words = unit_line('jac.service', [
            ('/usr/local/bin/jac', program), ('/etc/jac/calendar/', folder + '/'), ('/var/lib/jac/calendar/', folder + '/'),
            ('/var/log/jac/calendar/', folder + '/')])

    def told(self, status, code='exited'):
        """Returns what is written to the journal after an end of this kind."""
        done = subprocess.run([os.path.join(self.lib, 'explain.py'), *self.words], cwd=self.folder, text=True,
                              stdin=subprocess.DEVNULL, stdout=subprocess.PIPE, stderr=subprocess.STDOUT,
                              env={**os.environ, 'EXIT_CODE': code, 'EXIT_STATUS': status, 'RUNTIME_DIRECTORY': self.folder})
        return done.stdout


def refusals(folder):
    """Checks what account.py refuses, and that a refusal changes nothing."""
    def files():
        return {name: read(folder, name) for name in ('users', 'tokens', 'sessions')}

    before = files()
    for words, password, told in (
            (('add', 'ann', '-'), 'x', 'there is an account ann already'),
            (('add', 'Ann', '-'), 'x', 'a name has'), (('add', 'default', '4096'), 'x', 'a name has'),
            (('add', 'a:b', '-'), 'x', 'a name has'), (('add', '', '-'), 'x', 'a name has'),
            (('add', 'x' * 65, '-'), 'x', 'a name has'), (('add', '#x', '-'), 'x', 'a name has'),
            (('add', 'finn', 'Ann'), 'x', 'a viewer is a number'),
            (('add', 'finn', str(1 << 128)), 'x', 'a viewer is a number'),
            (('add', 'finn', '-'), '', 'the password is the first line'),
            (('add', 'finn', '-'), 'x' * 73, 'at most 72 bytes'),
            (('add', 'finn', '=Ann'), 'x', 'the store can\'t be copied'),
            (('password', 'finn'), 'x', 'there is no account finn'),
            (('viewer', 'finn', '-'), None, 'there is no account finn'),
            (('disable', 'finn'), None, 'there is no account finn')):
        status, out, have = account(folder, *words, password=password)
        yield expect(' '.join(words)[:80], (status, out, told in have), (1, '', True))
    yield expect('the files after refusals', files(), before)
    for name, line in (('users', 'ann'), ('tokens', 'ann 12'), ('sessions', 'x'), ('tokens', 'ann 12;'),
                       ('sessions', '')):
        write(before[name] + (line or before['sessions'].splitlines()[0]) + '\n', folder, name)
        status, _, have = account(folder, 'list')
        number = len(before[name].splitlines()) + 1
        yield expect('a line %s of %s' % (line, name), (status, '%s: line %d ' % (name, number) in have), (1, True))
        write(before[name], folder, name)
    settings = read(folder, 'accounts.ini')
    for old, new in (('[accounts]', '[others]'), ('bcrypt cost = 4', 'bcrypt cost = 3'), ('program =', 'programme =')):
        write(placed(settings, [(old, new)]), folder, 'accounts.ini')
        yield expect(new, (account(folder, 'list')[0], 'accounts.ini' in account(folder, 'list')[2]), (1, True))
    write(settings, folder, 'accounts.ini')


def accounts(program):
    """Checks account.py in a folder of its own."""
    if not shutil.which('htpasswd'):
        yield Skipped('accounts: htpasswd is not installed')
        return
    with tempfile.TemporaryDirectory() as folder:
        settle(folder, program)
        shutil.copy(CALENDAR, folder)
        tokens = add_accounts(folder)
        yield expect('the accounts', account(folder, 'list'), (0, ACCOUNTS, ''))
        sessions = dict(line.split() for line in read(folder, 'sessions').splitlines())
        yield expect('the sessions', sessions, {tokens['ann']: '4096', tokens['bob']: '4160'})
        made = [name for name in ('restarted', 'reloaded') if os.path.exists(os.path.join(folder, name))]
        yield expect('what was reloaded', made, ['restarted', 'reloaded'])
        yield from refusals(folder)
        for name in made:
            os.unlink(os.path.join(folder, name))
        hashes = [line.partition(':')[2] for line in read(folder, 'users').splitlines()]
        yield expect('the passwords', [value[:7] for value in hashes], ['$2y$04$'] * 3)
        modes = [os.stat(os.path.join(folder, name)).st_mode & 0o777 for name in ('users', 'tokens', 'sessions')]
        yield expect('who reads the files', modes, [0o640] * 3)
        yield expect('ann is disabled', account(folder, 'disable', 'ann'), (0, '', ''))
        yield expect('twice', account(folder, 'disable', 'ann'), (0, '', ''))
        yield expect('the accounts then', account(folder, 'list')[1],
                     ACCOUNTS.replace('ann 4096 active', 'ann 4096 disabled'))
        yield expect('her password', [line for line in read(folder, 'users').splitlines() if 'ann' in line], ['#ann:'])
        yield expect('another one', account(folder, 'password', 'ann', password='another'), (0, '', ''))
        yield expect('the accounts at last', account(folder, 'list')[1], ACCOUNTS)
        made = [name for name in ('restarted', 'reloaded') if os.path.exists(os.path.join(folder, name))]
        yield expect('nothing is reloaded for passwords', made, [])
        yield expect('eve is somebody', account(folder, 'viewer', 'eve', '4224'), (0, '', ''))
        yield expect('bob is nobody', account(folder, 'viewer', 'bob', '-'), (0, '', ''))
        yield expect('the viewers', account(folder, 'list')[1], 'ann 4096 active\nbob - active\neve 4224 active\n')
        yield expect('an old token', tokens['bob'] in read(folder, 'sessions') + read(folder, 'tokens'), False)
        settle(folder, program, **{'restart jac': 'false'})
        status, _, told = account(folder, 'viewer', 'bob', '4160')
        yield expect('a restart that fails', (status, 'account.py FOLDER reload' in told), (1, True))


def guarded_names(program):
    """Checks that names hidden by a policy are found too. In the clinic, a patient's name is hidden."""
    with tempfile.TemporaryDirectory() as folder:
        health = os.path.join(TOP, 'examples', 'health')
        settle(folder, program)
        shutil.copy(os.path.join(health, 'app'), folder)
        words = [program, 'replay', 'app', os.path.join(health, 'events'), '--db', 'store.db']
        subprocess.run(words, cwd=folder, stdin=subprocess.DEVNULL, stdout=subprocess.DEVNULL, check=True)
        dump = subprocess.run([program, 'dump', 'app', '-', '--db', 'store.db'], cwd=folder, text=True,
                              stdin=subprocess.DEVNULL, stdout=subprocess.PIPE)
        hidden = re.findall(r'(?m)^Person (\d+) name="a patient"', dump.stdout)
        yield None if hidden else 'nobody\'s name is hidden in the clinic'
        status, out, _ = account(folder, 'find', 'Ben')
        one = re.findall(r'Person (\d+) ', out)
        yield expect('a hidden name', (status, len(one), set(one) <= set(hidden)), (0, 1, True))
        status, out, told = account(folder, 'find', 'No one')
        yield expect('no such name', (status, out, told), (1, '', 'account.py: no viewer has the text No one\n'))


# Through nginx.

def strangers(site):
    """Checks that requests fail without an account, with a wrong password or for another host, and that requests
    without TLS are redirected."""
    forged = ('Cookie', 'session=' + site.tokens['ann'])
    for name, headers in (('no password', []), ('a forged cookie', [forged]),
                          ('a wrong password', [*basic('ann', 'for bob'), forged])):
        yield expect(name, site.ask('GET', '/', headers)[0], 401)
    for host in (HOST_NAME, 'evil.example'):
        yield expect('without TLS', plain(site.plain, '/people?a=b', host), (301, site.own + '/people?a=b'))
    for host in ('evil.example', HOST_NAME + '.evil.example', 'evil.example:%d' % site.port):
        yield expect('the host ' + host, site.ask('GET', '/', basic('ann'), host=host)[0], 421)


def people(site):
    """Checks that two accounts each get their own view of the same page, and that a third account is nobody."""
    yield expect('it is set up', site.send('ann', '/setup')[0], 303)
    status, headers, _ = site.send('ann', '/events', title='Secret talk', place='Room 2', day='2026-12-01')
    yield expect('an event', (status, headers['Location'][:7]), (303, '/event/'))
    yield shows('ann', site.page('ann'), 'You are Ann.', '>Secret talk</a>')
    yield shows('bob', site.page('bob'), 'You are Bob.', '>busy</a>', but=['Secret'])
    forged = 'session=' + site.tokens['ann']
    for name, cookies in (('one', [forged]), ('among others', ['a=b; %s; c=d' % forged]), ('two', [forged, forged])):
        answer = site.page('bob', further=[('Cookie', cookie) for cookie in cookies])
        yield shows('bob with a forged cookie, ' + name, answer, 'You are Bob.', but=['Secret'])
    answer = site.page('eve', further=[('Cookie', forged)])
    yield shows('who has no token', answer, 'Nobody is logged in.', but=['Secret'])
    yield expect('an event of nobody', site.send('eve', '/events', title='Mine')[0], 404)
    yield expect('a large form', site.send('eve', '/people', name='x' * 60000)[0], 404)
    chunked = [*basic('ann'), ('Content-Type', 'application/x-www-form-urlencoded'), ('Transfer-Encoding', 'chunked')]
    yield expect('a form in chunks', site.ask('POST', '/people', chunked, iter([b'name=', b'Finn']))[0], 303)


def headers_of(site):
    """Checks how long private pages and the style sheet may be cached, their content types, and the headers of every
    page."""
    _, headers, _ = site.page('ann')
    have = headers.get_all('Cache-Control'), headers.get_all('Vary'), headers['Content-Type']
    yield expect('a private page', have, (['private, no-store'], ['Authorization'], 'text/html; charset=utf-8'))
    status, headers, body = site.ask('GET', '/static/style.css')
    have = status, headers['Content-Type'], headers.get_all('Cache-Control'), headers['Vary'], body
    yield expect('the style sheet', have, (200, 'text/css', ['public, max-age=3600'], None, STYLE))
    yield expect('no such file', site.ask('GET', '/static/none.css')[0], 404)
    for path in ('/static/%2e%2e/tokens', '/account/%2e%2e/tokens', '/account/../users', '/static../tokens', '/tokens'):
        yield expect('outside of the files: ' + path, site.ask('GET', path)[0], 401)
    for path in ('/', '/people', '/none', '/static/style.css', '/static/none', '/account/503.html',
                 '/account/login.html'):
        yield secured(path, site.page('ann', path)[1])
        yield secured('a stranger at ' + path, site.ask('GET', path)[1])
    yield secured('another host', site.ask('GET', '/', host='evil.example')[1])
    yield expect('a folder', site.ask('GET', '/static')[0], 401)


def other_sites(site):
    """Checks that forms on other sites' pages are refused, although the browser sends the password with them."""
    own = site.own
    for further, want in (([('Sec-Fetch-Site', 'cross-site')], 403), ([('Sec-Fetch-Site', 'same-site')], 403),
                          ([('Origin', 'https://elsewhere.example')], 403), ([('Origin', 'null')], 403),
                          ([('Origin', own + '.elsewhere.example')], 403), ([('Origin', own)], 303),
                          ([('Sec-Fetch-Site', 'same-origin'), ('Origin', own)], 303),
                          ([('Sec-Fetch-Site', 'none')], 303)):
        yield expect('a form with %r' % further, site.send('ann', '/people', further, name='Gwen')[0], want)
    yield expect('a link on another site', site.page('ann', '/people', [('Sec-Fetch-Site', 'cross-site')])[0], 200)


def changed_accounts(site):
    """Runs account.py while the site is served. Each change takes effect at once, or as soon as both programs have read
    their files again."""
    folder = site.folder
    yield expect('bob is disabled', account(folder, 'disable', 'bob'), (0, '', ''))
    yield expect('who is disabled', site.page('bob')[0], 401)
    yield expect('with no password', site.ask('GET', '/', basic('bob', ''))[0], 401)
    yield expect('bob again', account(folder, 'password', 'bob', password=PASSWORDS['bob']), (0, '', ''))
    yield shows('bob again', site.page('bob'), 'You are Bob.')
    status, out, _ = account(folder, 'find', 'Cleo')
    yield expect('cleo is found', (status, out), (0, 'Person 4224 name="Cleo"\n'))
    yield expect('cleo', account(folder, 'add', 'cleo', '=Cleo', password='for cleo'), (0, '', ''))
    until(lambda: 'You are Cleo.' in site.ask('GET', '/', basic('cleo', 'for cleo'))[2])
    yield shows('cleo', site.ask('GET', '/', basic('cleo', 'for cleo')), 'You are Cleo.')
    status, _, told = account(folder, 'add', 'gwen', '=Gwen', password='x')
    yield expect('two of one name', (status, told.count('Person ')), (1, 3))
    yield expect('cleo is nobody', account(folder, 'viewer', 'cleo', '-'), (0, '', ''))
    until(lambda: 'Nobody' in site.ask('GET', '/', basic('cleo', 'for cleo'))[2])
    yield shows('cleo is nobody', site.ask('GET', '/', basic('cleo', 'for cleo')), 'Nobody is logged in.')


def error_pages(site, jac):
    """Checks the site's own error pages. A 404 comes from the program. Afterwards jac has ended."""
    answer = site.send('ann', '/people', name='x' * 70000)
    yield expect('a form too large', (answer[0], 'Too much at once' in answer[2]), (413, True))
    yield secured('a form too large', answer[1])
    kind = [*basic('ann'), ('Content-Type', 'text/plain'), ('Content-Length', '3')]
    answer = site.ask('POST', '/people', kind, b'a=b')
    yield expect('no form', (answer[0], 'Not a form of this site' in answer[2]), (415, True))
    answer = site.page('ann', '/none')
    yield expect('no such page', (answer[0], '/account/' in answer[2]), (404, False))
    jac.stop()
    for name, answer in (('a page', site.page('ann')), ('a form', site.send('ann', '/people', name='x'))):
        yield expect(name + ' without jac', (answer[0], 'Not available' in answer[2]), (502, True))
        yield secured(name + ' without jac', answer[1])
    yield expect('the style of that page', site.ask('GET', '/account/style.css')[0], 200)


def wrk(site, clients, seconds, timeout):
    """Runs wrk. Returns the errors that it reports and its count of requests. A reply that takes longer than `timeout`
    seconds is an error too."""
    words = ['wrk', '-t2', '-c%d' % clients, '-d%ds' % seconds, '--timeout', '%ds' % timeout,
             '-H', 'Authorization: ' + basic('ann')[0][1], site.own + '/']
    done = subprocess.run(words, stdin=subprocess.DEVNULL, stdout=subprocess.PIPE, text=True, timeout=seconds + 120)
    lines = [line.strip() for line in done.stdout.splitlines()]
    counts = ', '.join(line for line in lines if 'requests' in line.lower())
    print('wrk, %d clients through nginx: %s' % (clients, counts), flush=True)
    some = re.search(r'(\d+) requests in', done.stdout)
    return [line for line in lines if re.search('Socket errors|Non-2xx', line)], int(some[1]) if some else 0


def load(site):
    """Sends requests of many clients at once. No reply may fail, and nobody may get another client's page."""
    if shutil.which('wrk'):
        wrong, count = wrk(site, 32, 10, 8)
        yield expect('32 connections of wrk', (wrong, count > 0), ([], True))
    else:
        yield Skipped('32 connections for 10 seconds: wrk is not installed')

    def client(name, want, but):
        return [shows('%s among many' % name, site.page(name), want, but=but) for _ in range(10)]

    with concurrent.futures.ThreadPoolExecutor(16) as pool:
        calls = [pool.submit(client, *who)
                 for who in 8 * (('ann', 'Secret talk', ['You are Bob.']), ('bob', 'You are Bob.', ['Secret']))]
        yield next((wrong for call in calls for wrong in call.result() if wrong), None)


@contextlib.contextmanager
def writing(site):
    """Adds events as Ann until the block ends. Yields a list whose only item counts the events that were answered."""
    answered, over = [0], threading.Event()

    def writer():
        while not over.is_set():
            if site.send('ann', '/events', title='Event %d' % answered[0], day='2026-12-02')[0] == 303:
                answered[0] += 1

    thread = threading.Thread(target=writer)
    thread.start()
    try:
        yield answered
    finally:
        over.set()
        thread.join()


def events_in(site, store):
    """Returns how many of the events that `writing` adds are in this store. Reads a copy, because the program would
    take the store over."""
    with tempfile.TemporaryDirectory() as room:
        copy = os.path.join(room, 'store')
        for end in ('', '-wal'):
            if os.path.exists(store + end):
                shutil.copyfile(store + end, copy + end)
        status, out = run_jac(site, 'dump', 'app', '-', '--db', copy)
    return sum(line.startswith('Event ') for line in out.splitlines()) - 1 if status == 0 else None


def backups(site):
    """Checks that copies made while forms are sent are whole, and have everything that was answered before."""
    with writing(site) as answered:
        for place in range(3):
            time.sleep(0.5)
            before, copy = answered[0], os.path.join(site.folder, 'copy-%d.db' % place)
            words = [sys.executable, os.path.join(DEPLOY, 'backup.py'), os.path.join(site.folder, 'store.db'), copy]
            done = subprocess.run(words, stdin=subprocess.DEVNULL, stderr=subprocess.PIPE, text=True)
            after = answered[0]
            yield expect('a backup', (done.returncode, done.stderr), (0, ''))
            have = events_in(site, copy)
            within = have is not None and before <= have <= after + 1
            yield None if within else 'a backup of %d to %d events has %s' % (before, after, have)
        yield from standby(site, answered)
    yield None if answered[0] >= 10 else 'only %d forms came in meanwhile' % answered[0]


def stand_by(*words, path=None):
    done = subprocess.run([sys.executable, os.path.join(DEPLOY, 'standby.py'), *words], stdin=subprocess.DEVNULL,
                          stdout=subprocess.PIPE, stderr=subprocess.PIPE, text=True,
                          env={**os.environ, **({'PATH': path + ':' + os.environ['PATH']} if path else {})})
    return done.returncode, done.stdout, done.stderr


# Replaces ssh: it runs the command on this machine, and records the host name.
AS_SSH = '''#!/bin/sh
while [ "$1" != -- ]; do shift; done
echo "$2" >>%s
exec sh -c "$3"
'''


def standby(site, answered):
    """Checks that copies of a store being served go to a folder, which stands for another machine. A drill restores the
    newest copy."""
    store, away, ways = os.path.join(site.folder, 'store.db'), os.path.join(site.folder, 'it\'s away'), \
        os.path.join(site.folder, 'ways')
    app = os.path.join(site.folder, 'app')
    for folder in (away, ways):
        os.makedirs(folder)
    yield expect('a drill without a copy', stand_by('drill', away, app)[0], 1)
    write(AS_SSH % os.path.join(ways, 'hosts'), ways, 'ssh')
    os.chmod(os.path.join(ways, 'ssh'), 0o755)
    for place, path in ((away, None), ('standby.example.org:' + away, ways), (away, None)):
        before = answered[0]
        status, out, told = stand_by('copy', store, place, '--keep', '2', path=path)
        yield expect('a copy for ' + place, (status, told, out.strip() in os.listdir(away)), (0, '', True))
    yield expect('the other machine', read(ways, 'hosts'), 'standby.example.org\n')
    yield expect('the copies', [name[:6] for name in os.listdir(away)], ['store-'] * 2)
    have = events_in(site, os.path.join(away, sorted(os.listdir(away))[-1]))
    yield None if have is not None and before <= have <= answered[0] + 1 else 'the newest copy has %s events' % have
    status, out, told = stand_by('drill', away, app, '--program', site.program)
    yield expect('a drill', (status, 'next request is number' in out, told), (0, True, ''))
    status, _, told = stand_by('drill', away, app, '--program', site.program, '--older', '0')
    yield expect('a drill over an old copy', (status, 'older than 0 seconds' in told), (1, True))
    status, _, told = stand_by('restore', away, store)
    yield expect('a restore over a store that is served', (status, 'stop jac first' in told), (1, True))
    status, _, told = stand_by('copy', store, os.path.join(site.folder, 'nowhere'))
    yield expect('a copy to a folder that isn\'t there', (status, 'didn\'t take the copy' in told), (1, True))
    newest = os.path.join(away, 'store-2099-01-01T00-00-00.000000Z.db')
    shutil.copy(os.path.join(away, sorted(os.listdir(away))[-1]), newest)
    with open(newest, 'r+b') as file:
        file.seek(5000)
        file.write(b'x' * 3000)
    for words in (('drill', away, app, '--program', site.program), ('restore', away, os.path.join(ways, 'store.db'))):
        yield expect('a damaged copy: ' + words[0], (stand_by(*words)[0], os.listdir(ways)), (1, os.listdir(ways)))
    yield expect('nothing was put there', os.path.exists(os.path.join(ways, 'store.db')), False)
    os.unlink(newest)


def restored(site):
    """Checks that the other machine continues with the newest copy, and that its old store is kept aside."""
    away, store = os.path.join(site.folder, 'it\'s away'), os.path.join(site.folder, 'store.db')
    want = events_in(site, os.path.join(away, sorted(os.listdir(away))[-1]))
    have = events_in(site, store)
    status, out, told = stand_by('restore', away, store)
    yield expect('a restore', (status, told, out.count('\n')), (0, '', 2))
    aside = re.search(r'what was there is (.*)', out)[1]
    yield expect('the store then', (events_in(site, store), events_in(site, aside)), (want, have))
    jac = site.service()
    try:
        yield shows('the calendar goes on', site.page('ann'), 'You are Ann.', 'Secret talk')
    finally:
        jac.stop()


def as_documented(name):
    """Returns what the command of docs/DEPLOYING.md makes of this file for a second application."""
    page = read(TOP, 'docs', 'DEPLOYING.md')
    command = re.search(r"(?m)^    sed '(.*)' deploy/%s >" % re.escape(name), page)[1]
    done = subprocess.run(['sed', command, os.path.join(DEPLOY, name)], stdout=subprocess.PIPE, text=True, check=True)
    return done.stdout


def board_files(site, folder, host, port):
    """Makes the second application's files as the page says, and gives them to nginx."""
    os.makedirs(folder)
    settle(folder, site.program)
    account(folder, 'add', 'ann', '4096', password='for the board')
    shutil.copy(os.path.join(TOP, 'examples', 'conference', 'app'), folder)
    for name in ('key.pem', 'certificate.pem'):
        shutil.copy(os.path.join(site.folder, name), folder)
    changes = [('%s.example.org' % BOARD, host), ('/etc/jac/%s/' % BOARD, folder + '/'),
               ('root /srv/jac', 'root ' + site.folder), ('127.0.0.1:8081', '127.0.0.1:%d' % port),
               ('listen 443', 'listen 127.0.0.1:%d' % site.port), ('listen 80', 'listen 127.0.0.1:%d' % site.plain)]
    write(placed(as_documented('nginx.conf'), changes), site.folder, 'sites', BOARD + '.conf')


def two_applications(site):
    """Checks that a second application on the machine has its own host, accounts, store and audit."""
    folder, port, host = os.path.join(site.folder, BOARD), free_port(), '%s.%s' % (BOARD, HOST_NAME)
    for line in ('application = /etc/jac/board/app', 'store = /var/lib/jac/board/store.db', 'jac group = jac-board',
                 'restart jac = systemctl try-restart jac@board.service', 'program = /usr/local/bin/jac'):
        yield expect('accounts.ini of the board, ' + line, line in as_documented('accounts.ini').splitlines(), True)
    board_files(site, folder, host, port)
    yield expect('nginx takes both', 'successful' in site.told(), True)
    site.run.send_signal(signal.SIGHUP)
    words = unit_line('jac@.service', [('/usr/local/bin/jac', site.program), ('/etc/jac/%i/', folder + '/'),
                                       ('${PORT}', str(port)), ('/var/lib/jac/%i/', folder + '/'),
                                       ('/var/log/jac/%i/', folder + '/')])
    both = site.service(), Service(words, port, os.path.join(folder, 'jac.pid'))
    try:
        yield from both_served(site, folder, host)
    finally:
        for each in both:
            each.stop()


def both_served(site, folder, host):
    """Checks that each of the two applications is reached by its own name and accounts."""
    board, own = '%s:%d' % (host, site.port), basic('ann', 'for the board')
    until(lambda: site.ask('GET', '/', own, host=board)[0] == 200)
    yield shows('the board', site.ask('GET', '/', own, host=board), ' - Papers</title>', but=['Secret talk'])
    yield shows('the calendar', site.page('ann'), 'Secret talk')
    yield expect('a password of the calendar', site.ask('GET', '/', basic('ann'), host=board)[0], 401)
    yield expect('a password of the board', site.ask('GET', '/', own)[0], 401)
    yield expect('without TLS', plain(site.plain, '/a', host), (301, 'https://%s/a' % host))
    headers = [*own, ('Content-Length', '0'), ('Origin', site.own)]
    yield expect('a form of the calendar to the board', site.ask('POST', '/setup', headers, host=board)[0], 403)
    yield expect('its audit', len(read(folder, 'audit').splitlines()) > 0, True)


def audit_lines(folder):
    """Yields the lines of all files of the audit, oldest first."""
    names = sorted((name for name in os.listdir(folder) if re.fullmatch(r'audit(\.\d+(\.gz)?)?', name)),
                   key=lambda name: -int(re.sub(r'\D', '', name) or 0))
    for name in names:
        with (gzip.open if name.endswith('.gz') else open)(os.path.join(folder, name), 'rt') as file:
            yield from file.read().splitlines(keepends=True)


def broken_off(lines):
    """Returns the first line of the audit that is malformed or whose number doesn't follow the number before it, or
    None."""
    last = 0
    for line in lines:
        if not re.fullmatch(r'\d+ \d{3} \S+ \S+\n', line):
            return 'a line of the audit is %r' % line
        number = int(line.split()[0])
        if number not in (last + 1, 1):
            return 'in the audit %d follows %d' % (number, last)
        last = number
    return None


def rotated(site, handed=False):
    """Rotates the audit's file while pages are requested. No line may be lost. The service ends after every 60
    connections."""
    if not shutil.which('logrotate'):
        yield Skipped('an audit that is rotated: logrotate is not installed')
        return
    write(placed(read(DEPLOY, 'jac.logrotate'), [('/var/log/jac/*/', site.folder + '/')]), site.folder, 'logrotate')
    os.chmod(os.path.join(site.folder, 'logrotate'), 0o644)
    before = list(audit_lines(site.folder))
    jac, seen, failed = site.service(60, handed), 0, 0
    try:
        for place in range(300):
            if place % 70 == 65:
                words = ['logrotate', '-f', '-s', 'state', os.path.join(site.folder, 'logrotate')]
                done = subprocess.run(words, cwd=site.folder, stdin=subprocess.DEVNULL, stdout=subprocess.PIPE,
                                      stderr=subprocess.STDOUT, text=True)
                yield expect('logrotate', (done.returncode, done.stdout), (0, ''))
            if not handed:
                jac.wait()
            status = site.page('ann')[0]
            seen, failed = seen + (status == 200), failed + (status != 200)
    finally:
        jac.stop()
    lines = list(audit_lines(site.folder))
    files = [name for name in os.listdir(site.folder) if name.startswith('audit')]
    yield expect('the audit goes on', lines[:len(before)], before)
    yield broken_off(lines[len(before):])
    more = len(lines) - len(before)
    yield None if seen <= more <= seen + failed + len(jac.runs) else '%d pages, %d lines' % (seen, more)
    yield None if len(files) >= 3 and 'audit.2.gz' in files else 'the files of the audit are %s' % files
    yield None if seen >= 250 and (not handed or not failed) else '%d pages of 300 came' % seen


def started_again(site):
    """Checks that a service which ends after its number of connections is started again with the data that it
    stored."""
    jac = site.service(10)
    try:
        seen = 0
        for _ in range(60):
            jac.wait()
            status, _, page = site.page('ann')
            seen += status == 200 and 'Secret talk' in page
            time.sleep(0.01)
        yield None if seen >= 50 else 'of 60 pages %d came from a service that is started again' % seen
        yield None if len(jac.runs) >= 4 else 'it was started %d times' % len(jac.runs)
    finally:
        jac.stop()


# With an inherited socket.

def takes_the_port(site):
    """Checks that the program uses an inherited socket, even if it has no network of its own."""
    jac = site.service(handed=True)
    try:
        yield expect('a port that is handed over', site.page('ann')[0], 200)
        first = len(jac.runs)
        jac.restart()
        yield expect('it is started again', (site.page('ann')[0], len(jac.runs)), (200, first + 1))
        words = [shutil.which('unshare') or 'unshare', '--net']
        if subprocess.run([*words, 'true'], stderr=subprocess.DEVNULL).returncode:
            yield Skipped('a program without a network: unshare --net may not be used here')
            return
        jac.words = [*words, *jac.words]
        jac.restart()
        yield expect('without a network of its own', site.page('ann')[0], 200)
    finally:
        jac.stop()


class Asking:
    """Clients in a loop. Each sends GETs or POSTs, and records those that failed."""

    def __init__(self, site):
        self.site, self.over, self.lock = site, threading.Event(), threading.Lock()
        self.asked, self.sent, self.wrong_asked, self.wrong_sent = 0, 0, [], []
        self.threads = [threading.Thread(target=self.ask) for _ in range(8)] + [threading.Thread(target=self.send)]
        for thread in self.threads:
            thread.start()

    def status(self, call):
        try:
            return call()[0]
        except (OSError, http.client.HTTPException) as error:
            return type(error).__name__

    def ask(self):
        while not self.over.is_set():
            status = self.status(lambda: self.site.page('ann'))
            with self.lock:
                self.asked += 1
                if status != 200:
                    self.wrong_asked.append(status)

    def send(self):
        while not self.over.is_set():
            status = self.status(lambda: self.site.send('ann', '/events', title='Event', day='2026-12-03'))
            self.sent += 1
            if status != 303:
                self.wrong_sent.append(status)

    def go_on(self, count):
        """Waits until `count` more GETs have ended."""
        goal = self.asked + count
        until(lambda: self.asked >= goal, 60)

    def end(self):
        self.over.set()
        for thread in self.threads:
            thread.join()


def restarts(site):
    """Restarts the service under load. No GET may fail, and at most one POST for each restart. Each answered POST must
    be stored."""
    before = events_in(site, os.path.join(site.folder, 'store.db'))
    jac = site.service(handed=True)
    clients = Asking(site)
    try:
        for _ in range(RESTARTS):
            clients.go_on(20)
            jac.restart()
        clients.go_on(20)
    finally:
        clients.end()
        jac.stop()
    print('%d restarts: of %d GETs %d failed, of %d POSTs %d' % (RESTARTS, clients.asked, len(clients.wrong_asked),
                                                              clients.sent, len(clients.wrong_sent)), flush=True)
    yield expect('GETs in %d restarts' % RESTARTS, clients.wrong_asked, [])
    few = len(clients.wrong_sent) <= RESTARTS
    yield None if few else 'POSTs that failed in %d restarts: %s' % (RESTARTS, clients.wrong_sent)
    enough = clients.asked > 100 and clients.sent > 20
    yield None if enough else 'only %d GETs and %d POSTs' % (clients.asked, clients.sent)
    stored = events_in(site, os.path.join(site.folder, 'store.db')) - before
    answered = clients.sent - len(clients.wrong_sent)
    yield None if answered <= stored <= clients.sent else '%d POSTs were answered, %d are stored' % (answered, stored)


@contextlib.contextmanager
def other_work():
    """Keeps each processor busy with a process that only counts."""
    runs = [subprocess.Popen([sys.executable, '-c', 'while True: pass']) for _ in range(os.cpu_count())]
    try:
        yield
    finally:
        for run in runs:
            run.kill()
            run.wait()


def heavy(site):
    """Serves 32 clients for a minute, three times, and 300 clients on a page of 300 events, while the machine does
    other work. No request may fail."""
    if not shutil.which('wrk'):
        yield Skipped('32 clients for a minute, and 300 at once: wrk is not installed')
        return
    for name in ('store.db', 'store.db-wal'):
        with contextlib.suppress(FileNotFoundError):
            os.unlink(os.path.join(site.folder, name))
    jac = site.service(handed=True)
    try:
        yield expect('it is set up', site.send('ann', '/setup')[0], 303)
        with other_work():
            for _ in range(3):
                wrong, count = wrk(site, 32, 60, 20)
                yield expect('32 clients for a minute', (wrong, count > 0), ([], True))
        answers = {site.send('ann', '/events', title='Event %d' % place, day='2026-12-03')[0]
                   for place in range(EVENTS)}
        yield expect('%d events' % EVENTS, (answers, site.page('ann')[2].count('>Event ')), ({303}, EVENTS))
        with other_work():
            wrong, count = wrk(site, 300, 20, 15)
            yield expect('300 clients on %d events' % EVENTS, (wrong, count > 0), ([], True))
    finally:
        jac.stop()


def served_parts(site):
    jac = site.service()
    try:
        for part in (strangers, people, headers_of, other_sites, changed_accounts, load, backups):
            yield from part(site)
        yield from error_pages(site, jac)
    finally:
        jac.stop()


def loaded(site, load):
    if load:
        yield from heavy(site)
    else:
        yield Skipped('the option --load isn\'t given: 32 clients for a minute, three times, and 300 clients')


def through_nginx(program, load):
    missing = [name for name in ('nginx', 'openssl', 'htpasswd') if not shutil.which(name)]
    if missing:
        yield Skipped('all that goes through nginx: %s is not installed' % ', '.join(missing))
        return
    with tempfile.TemporaryDirectory() as folder:
        site = Site(folder, program)
        try:
            if site.run.poll() is not None:
                yield 'nginx takes the files: ' + site.told()
                return
            yield from served_parts(site)
            for part in (restored, two_applications, started_again, rotated, takes_the_port,
                         lambda each: rotated(each, handed=True), restarts):
                yield from part(site)
            yield from loaded(site, load)
        finally:
            close(site.run)


def main():
    reader = argparse.ArgumentParser(description=__doc__.split('\n\n')[0])
    reader.add_argument('program', help='./jac, or a trial')
    reader.add_argument('--load', action='store_true', help='also serve 32 and 300 clients, for some minutes')
    words = reader.parse_args()
    program = proved.program(words.program)
    parts = (units(program), explanations(program), accounts(program), guarded_names(program),
             through_nginx(program, words.load))
    report(result for part in parts for result in part)


if __name__ == '__main__':
    main()
