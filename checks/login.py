#!/usr/bin/env python3
"""Logs in to the calendar and out of it through Apache, with the files of deploy/. Covers wrong passwords, a login that
has expired, forged cookies, forms of other sites, accounts that are disabled or get another password, and the site's
own error pages. A walk in a headless Chromium does the same, and also checks the account pages on the screens of a
phone and of a desktop.

Argument: the program. With --pictures FOLDER it writes a picture of each page of that walk there. Prints each failed
case, then a count. If Apache or something that it needs isn't installed, the check is skipped and says so. If only
Chromium isn't installed, only the walk is skipped."""
import argparse
import contextlib
import os
import re
import shutil
import socket
import sqlite3
import subprocess
import sys
import tempfile
import time

sys.dont_write_bytecode = True
import browser                                                              # noqa: E402
from support import installed                                               # noqa: E402
from support import proved                                                  # noqa: E402
from support.fronts import (CALENDAR, DEPLOY, HOST_NAME, PASSWORDS, TOP, Client, Skipped, account, add_accounts,  # noqa: E402
                    certify, close, expect, placed, plain, read, report, secured, service, settle, shows, site_files,
                    until, write)
from support.serving import HOST, free_port, is_listening                   # noqa: E402

AVAILABLE = '/etc/apache2/mods-available'
SQLITE = 'apr_dbd_sqlite3'
# The modules that Debian's Apache loads by default.
BASE = ('mpm_event', 'authn_core', 'authn_file', 'authz_core', 'authz_user', 'mime', 'alias', 'env', 'reqtimeout',
        'setenvif')
MAIN = '''ServerRoot %(folder)s
DefaultRuntimeDir %(folder)s
PidFile %(folder)s/pid
ErrorLog %(folder)s/error.log
%(user)s
Listen 127.0.0.1:%(tls)d
Listen 127.0.0.1:%(plain)d
%(modules)s
TypesConfig /etc/mime.types
<Directory />
    Require all denied
</Directory>
Include %(folder)s/site.conf
'''
# The statement by which docs/DEPLOYING.md makes the file of logins.
TABLE = re.search(r'sqlite3 /var/lib/jac-logins/calendar.db "(.*)"', read(TOP, 'docs', 'DEPLOYING.md'))[1]


def loaded(text):
    """Returns the lines that load the modules which the site asks for, and the modules that these need."""
    lines, left = [], [*BASE, *re.search(r'(?m)^# a2enmod (.*)$', text)[1].split()]
    seen = set()

    def load(name):
        if name in seen:
            return
        seen.add(name)
        said = read(AVAILABLE, name + '.load')
        for other in ' '.join(re.findall(r'(?m)^# Depends: (.*)$', said)).split():
            load(other)
        lines.extend(line for line in said.splitlines() if line.startswith('LoadModule'))

    for name in left:
        load(name)
    return '\n'.join(lines)


class Site(Client):
    """Apache in front of jac, in a folder of its own."""

    def __init__(self, folder, program, age):
        self.folder, self.plain, self.port_of_jac = folder, free_port(), free_port()
        settle(folder, program)
        write('%064x' % 1, folder, 'passphrase')
        shutil.copy(CALENDAR, folder)
        site_files(folder)
        logins = os.path.join(folder, 'logins')
        os.makedirs(logins)
        with contextlib.closing(sqlite3.connect(os.path.join(logins, 'calendar.db'))) as base:
            base.executescript(TABLE)
        super().__init__(free_port(), certify(folder))
        self.tokens = add_accounts(folder)
        text = read(DEPLOY, 'apache.conf')
        changes = [('calendar.example.org', HOST_NAME), ('calendar\\.example\\.org', HOST_NAME),
                   ('*:443', '*:%d' % self.port), ('*:80', '*:%d' % self.plain),
                   ('https://%s/' % HOST_NAME, self.own + '/'),
                   ('/etc/jac/calendar/', folder + '/'), ('/var/lib/jac-logins/', logins + '/'), ('/srv/jac', folder),
                   ('127.0.0.1:8080', '127.0.0.1:%d' % self.port_of_jac),
                   ('SessionMaxAge 28800', 'SessionMaxAge %d' % age)]
        write(placed(text, changes), folder, 'site.conf')
        user = ''
        if os.geteuid() == 0:
            user = 'User www-data\nGroup www-data'
            os.chmod(folder, 0o711)
            for file in (logins, *(os.path.join(logins, name) for name in os.listdir(logins))):
                shutil.chown(file, 'www-data')
        write(MAIN % {'folder': folder, 'tls': self.port, 'plain': self.plain, 'user': user, 'modules': loaded(text)},
              folder, 'main.conf')
        self.run = subprocess.Popen(['apache2', '-d', folder, '-f', 'main.conf', '-DFOREGROUND'], text=True,
                                    stdin=subprocess.DEVNULL, stdout=subprocess.PIPE, stderr=subprocess.STDOUT)
        until(lambda: self.run.poll() is not None or is_listening(self.port))

    def log_in(self, name, password=None, back='', further=(), **fields):
        given = PASSWORDS.get(name) if password is None else password
        fields = {'httpd_username': name, 'httpd_password': given, **fields}
        page = self.own + '/account/login.html' + back
        return self.form('/account/in', fields, [('Referer', page), ('Origin', self.own), *further])

    def logged_in(self, name, password=None):
        """Logs in, and returns the cookie."""
        return ('Cookie', cookie_of(self.log_in(name, password)))

    def page(self, *headers, path='/'):
        return self.ask('GET', path, headers)


def cookie_of(answer):
    return (answer[1].get('Set-Cookie') or '').partition(';')[0]


def sent_to(answer):
    return answer[0], answer[1].get('Location')


def who(answer):
    """Returns the status, and whom the calendar's page greets."""
    match = re.search(r'You are (\w+)|Nobody is logged in', answer[2])
    return answer[0], match and match[0]


ASKED = 302, '/account/login.html?/'


def logins(site):
    """Checks right and wrong names and passwords, and the page that follows."""
    yield expect('a page without a login', sent_to(site.page(path='/event/5')), (302, '/account/login.html?/event/5'))
    asked = '/event/5?a=b&c=%2F%0d%0aX:'
    yield expect('a page with a query', sent_to(site.page(path=asked)), (302, '/account/login.html?' + asked))
    yield expect('a form without a login', sent_to(site.form('/people', {'name': 'x'}, [('Origin', site.own)])), ASKED)
    answer = site.log_in('ann', 'for bob', '?/people')
    yield expect('a wrong password', sent_to(answer), (302, '/account/wrong.html?/people'))
    yield expect('an unknown name', sent_to(site.log_in('zoe', 'for ann')), (302, '/account/wrong.html?/'))
    yield expect('nothing', sent_to(site.log_in('', '')), (302, '/account/wrong.html?/'))
    yield expect('a wrong password gives no login', cookie_of(site.log_in('ann', 'for bob')), '')
    yield expect('back to a page', sent_to(site.log_in('ann', back='?/people?a=b')), (302, '/people?a=b'))
    answer = site.log_in('ann')
    have = (answer[1]['Set-Cookie'] or '').split(';')[1:]
    yield expect('a login', (sent_to(answer), have),
                 ((302, '/'), ['Max-Age=28800', 'path=/', 'Secure', 'HttpOnly', 'SameSite=Lax']))
    for back in ('?//evil.example/', '?/\\evil.example', '?https://evil.example/'):
        yield expect('back to ' + back, sent_to(site.log_in('ann', back=back))[1], '/')
    for path in ('//evil.example/', '/\\evil.example'):
        yield expect('asked for ' + path, sent_to(site.page(path=path)), ASKED)


def people(site):
    """Checks two accounts with their own views of a page, an account that is nobody, and forged cookies."""
    ann, bob, eve = (site.logged_in(name) for name in ('ann', 'bob', 'eve'))
    own = ('Origin', site.own)
    yield expect('it is set up', site.form('/setup', {}, [ann, own])[0], 303)
    yield expect('an event', site.form('/events', {'title': 'Secret talk', 'day': '2026-12-01'}, [ann, own])[0], 303)
    yield shows('ann', site.page(ann), 'You are Ann.', '>Secret talk</a>')
    yield shows('bob', site.page(bob), 'You are Bob.', '>busy</a>', but=['Secret'])
    yield expect('an account without a token', who(site.page(eve)), (200, 'Nobody is logged in'))
    forged = 'session=' + site.tokens['ann']
    for name, cookies in (('behind', [bob[1] + '; ' + forged]), ('before', [forged + '; ' + bob[1]]),
                          ('in a header of its own', [forged, bob[1]]), ('twice', [bob[1], forged, forged])):
        answer = site.page(*(('Cookie', cookie) for cookie in cookies))
        yield expect('bob with a forged cookie ' + name, who(answer), (200, 'You are Bob'))
    answer = site.page(('Cookie', eve[1] + '; ' + forged))
    yield expect('nobody with a forged cookie', who(answer), (200, 'Nobody is logged in'))
    yield expect('a forged cookie alone', sent_to(site.page(('Cookie', forged))), ASKED)
    yield expect('a header of a password', sent_to(site.page(('Authorization', 'Basic YW5uOmZvciBhbm4='))), ASKED)
    value = ann[1]
    turned = value[:40] + ('0' if value[40] != '0' else '1') + value[41:]
    plain_one = '__Host-account=calendar-user=ann&calendar-pw=for+ann'
    for name, cookie in (('turned', turned), ('cut', value[:-12]), ('empty', '__Host-account='),
                         ('of words', plain_one)):
        yield expect('a login that is ' + name, sent_to(site.page(('Cookie', cookie))), ASKED)
    chunks = [ann, own, ('Content-Type', 'application/x-www-form-urlencoded'), ('Transfer-Encoding', 'chunked')]
    yield expect('a form in chunks', site.ask('POST', '/people', chunks, iter([b'name=', b'Finn']))[0], 303)
    yield expect('a large form', site.form('/people', {'name': 'x' * 60000}, [eve, own])[0], 404)
    for method in ('PUT', 'DELETE', 'TRACE'):
        yield expect(method, site.ask(method, '/', [ann, ('Content-Length', '0')])[0], 405)


# In a browser.

PLACE = 'location.pathname + location.search'
FOCUS = 'document.activeElement.name'
# The width of the window, whether the main part is within %d pixels, and what the style sheet says about its border.
LOOKS = '''(() => { const main = document.querySelector("main"), box = main.getBoundingClientRect();
  return `${innerWidth} ${box.left >= 0 && box.right <= %d} ${getComputedStyle(main).borderRadius}`; })()'''
TITLE = 'Surprise party'
NO_EVENT = [TITLE, 'You are']


def arrives(name, page, shown, place, *texts, but=()):
    """Checks that the browser is at this place, and that its page shows `texts` and none of `but`."""
    return browser.shows(name, shown, *texts, but=but) or expect(name, page.run(PLACE), place)


def press_key(page, key, **params):
    page.call('Input.dispatchKeyEvent', type='keyDown', key=key, **params)


def gives(page, name, password):
    """Logs in with the keyboard alone. When the page comes, the focus is on the field for the name."""
    if not until(lambda: page.run(FOCUS) == 'httpd_username', 5):
        raise browser.Broken('the field for the name has no focus')
    page.call('Input.insertText', text=name)
    press_key(page, 'Tab', windowsVirtualKeyCode=9)
    page.call('Input.insertText', text=password)
    return page.loaded(press_key, page, 'Enter', windowsVirtualKeyCode=13, text='\r')


def leaves(page):
    """Presses the button for logging out, on the page that has it."""
    page.go('/account/logout.html')
    return page.press('/account/out', 'Log out')


def ann_comes(page):
    """Ann has to log in, mistypes her password, arrives at the page that she requested, and adds an event."""
    asked, wrong = '/account/login.html?/people', 'The name or the password was wrong.'
    yield arrives('a page without a login', page, page.go('/people'), asked, 'Log in', 'Name', 'Password',
                  but=[wrong, 'You are', 'Cleo'])
    yield arrives('a wrong password', page, gives(page, 'ann', PASSWORDS['bob']), '/account/wrong.html?/people', wrong,
                  but=['You are', 'Cleo'])
    yield arrives('the right one', page, gives(page, 'ann', PASSWORDS['ann']), '/people', 'You are Ann.', 'Cleo')
    yield arrives('the next page', page, page.go('/'), '/', 'You are Ann.', 'A new event')
    shown = page.send('/events', title=TITLE, day='2026-12-24', place='Room 2')
    yield browser.shows('a new event', shown, TITLE, 'Room 2', 'The host is Ann.')


def walked(page):
    """Ann logs in and out, Bob logs in and gets the page of her event, and the account pages are checked."""
    yield from ann_comes(page)
    event = page.run(PLACE)
    yield None if re.fullmatch(r'/event/\d+', event) else 'a new event: at %s' % event
    yield arrives('a logout', page, leaves(page), '/account/login.html', 'Log in', but=NO_EVENT)
    yield arrives('the event after the logout', page, page.go(event), '/account/login.html?' + event, 'Log in',
                  but=NO_EVENT)
    yield arrives('the event for bob', page, gives(page, 'bob', PASSWORDS['bob']), event, 'You are Bob.', 'busy',
                  but=[TITLE, 'Room 2'])
    yield arrives('a logout of bob', page, leaves(page), '/account/login.html', 'Log in', but=['You are'])
    yield arrives('all pages after it', page, page.go('/'), '/account/login.html?/', 'Log in', but=['You are', 'busy'])
    page.go('/account/login.html?' + event)
    yield arrives('the event for ann', page, gives(page, 'ann', PASSWORDS['ann']), event, 'You are Ann.', TITLE,
                  but=['busy'])
    yield from widths(page)


def widths(page):
    """Checks that the account pages are no wider than the screen, and are styled under the Content-Security-Policy."""
    for width in (browser.PHONE, browser.DESKTOP):
        page.screen(width)
        for name in ('login', 'wrong', 'logout'):
            page.go('/account/%s.html' % name)
            about, wide = '%s.html in %d pixels' % (name, width), page.run(browser.WIDTH)
            yield None if wide <= width else '%s: %d are needed' % (about, wide)
            yield expect(about, page.run(LOOKS % width), '%d true 6px' % width)


def in_chromium(site):
    """Makes the walk over a calendar that is set up. The browser ignores that it doesn't know the certificate, which is
    made here."""
    found = installed.find(*browser.NAMES)
    if not found:
        yield Skipped('the walk in a browser: %s' % installed.told(browser.NAMES))
        return
    # a browser that ends may still write files, so leftover files are ignored
    with tempfile.TemporaryDirectory(ignore_cleanup_errors=True) as folder:
        yield from browser.walk(found, folder, 'in a browser', walked, lambda: contextlib.nullcontext(site),
                                '--ignore-certificate-errors')


def other_sites(site):
    """Checks forms of other sites that are sent to the calendar, to the login and to the logout."""
    ann = site.logged_in('ann')
    for further, want in (([('Sec-Fetch-Site', 'cross-site')], 403), ([('Sec-Fetch-Site', 'same-site')], 403),
                          ([('Origin', 'https://elsewhere.example')], 403), ([('Origin', 'null')], 403),
                          ([('Origin', site.own + '.elsewhere.example')], 403), ([('Origin', site.own)], 303),
                          ([('Origin', site.own), ('Sec-Fetch-Site', 'same-origin')], 303)):
        yield expect('a form with %r' % further, site.form('/people', {'name': 'Gwen'}, [ann, *further])[0], want)
    fields = {'httpd_username': 'bob', 'httpd_password': PASSWORDS['bob'], 'httpd_location': 'https://evil.example/'}
    for further in ([('Origin', 'https://evil.example')], [('Origin', 'null')], [('Sec-Fetch-Site', 'cross-site')], []):
        yield expect('a login with %r' % further, site.form('/account/in', fields, further)[0], 403)
        yield expect('a logout with %r' % further, site.form('/account/out', {}, [ann, *further])[0], 403)
    yield expect('the login is still open', who(site.page(ann)), (200, 'You are Ann'))
    yield expect('a link on another site', site.page(ann, ('Sec-Fetch-Site', 'cross-site'))[0], 200)
    yield expect('another host', site.ask('GET', '/', [ann], host='evil.example')[0], 421)
    yield expect('another host, longer', site.ask('GET', '/', [ann], host=HOST_NAME + '.evil.example')[0], 421)
    for host in (HOST_NAME, 'evil.example'):
        yield expect('without TLS', plain(site.plain, '/people?a=b', host), (301, site.own + '/people?a=b'))


def ends(site):
    """Checks that logging out, being disabled and getting another password each end a login at once."""
    own = ('Origin', site.own)
    ann, second, bob = site.logged_in('ann'), site.logged_in('ann'), site.logged_in('bob')
    answer = site.form('/account/out', {}, [ann, own])
    yield expect('a logout', sent_to(answer), (307, '/account/login.html'))
    answer = site.form('/account/login.html', {}, [own])
    yield expect('its next step', sent_to(answer), (303, site.own + '/account/login.html'))
    yield expect('a login that was ended', sent_to(site.page(ann)), ASKED)
    yield expect('another one of the same account', who(site.page(second)), (200, 'You are Ann'))
    yield expect('she is disabled', account(site.folder, 'disable', 'ann')[0], 0)
    yield expect('a login of who is disabled', sent_to(site.page(second)), ASKED)
    yield expect('a form of who is disabled', sent_to(site.form('/people', {'name': 'x'}, [second, own])), ASKED)
    for name in ('ann', '#ann'):
        yield expect('who is disabled logs in as ' + name, sent_to(site.log_in(name, PASSWORDS['ann'])),
                     (302, '/account/wrong.html?/'))
    yield expect('bob is still logged in', who(site.page(bob)), (200, 'You are Bob'))
    yield expect('another password', account(site.folder, 'password', 'ann', password='another')[0], 0)
    yield expect('the login of before', sent_to(site.page(second)), ASKED)
    yield expect('the old password', sent_to(site.log_in('ann')), (302, '/account/wrong.html?/'))
    yield expect('the new one', who(site.page(site.logged_in('ann', 'another'))), (200, 'You are Ann'))
    account(site.folder, 'password', 'ann', password=PASSWORDS['ann'])
    added = account(site.folder, 'add', 'finn', '-', password='for finn')
    yield expect('a new account', (added, who(site.page(site.logged_in('finn', 'for finn')))),
                 ((0, '', ''), (200, 'Nobody is logged in')))


def headers_of(site):
    """Checks what may be cached, and the headers of every page."""
    ann = site.logged_in('ann')
    _, headers, _ = site.page(ann)
    have = headers.get_all('Cache-Control'), headers.get_all('Vary'), headers['Content-Type']
    yield expect('a private page', have, (['private, no-store'], ['Cookie'], 'text/html; charset=utf-8'))
    status, headers, _ = site.page(path='/static/style.css')
    have = status, headers['Content-Type'], headers.get_all('Cache-Control'), headers['Set-Cookie']
    yield expect('the style sheet', have, (200, 'text/css', ['public, max-age=3600'], None))
    for path in ('/', '/people', '/none', '/account/login.html', '/account/style.css', '/static/style.css',
                 '/static/none'):
        yield secured(path, site.page(ann, path=path)[1])
        yield secured('a stranger at ' + path, site.page(path=path)[1])
    yield secured('a page of another host', site.ask('GET', '/', host='evil.example')[1])
    yield secured('a wrong password', site.log_in('ann', 'wrong')[1])
    for path in ('/static/../tokens', '/static/%2e%2e/tokens', '/account/%2e%2e/users', '/account/', '/account/in/x',
                 '/tokens', '/account/../key.pem', '/account/out/'):
        yield expect(path, ('session' in site.page(path=path)[2], site.page(path=path)[0] == 200), (False, False))


def error_pages(site, jac):
    """Checks the site's own error pages. A 404 comes from the program."""
    ann, own = site.logged_in('ann'), ('Origin', site.own)
    answer = site.form('/people', {'name': 'x' * 70000}, [ann, own])
    yield expect('a form too large', (answer[0], 'Too much at once' in answer[2]), (413, True))
    kind = [ann, own, ('Content-Type', 'text/plain'), ('Content-Length', '3')]
    answer = site.ask('POST', '/people', kind, b'a=b')
    yield expect('no form', (answer[0], 'Not a form of this site' in answer[2]), (415, True))
    answer = site.page(ann, path='/none')
    yield expect('no such page', (answer[0], '/account/' in answer[2]), (404, False))
    jac.stop()
    answer = site.page(ann)
    yield expect('without jac', (answer[0], 'Not available' in answer[2]), (503, True))
    yield secured('without jac', answer[1])
    yield expect('a form without jac', site.form('/people', {'name': 'x'}, [ann, own])[0], 503)


def beside_slow_form(site, slow, other):
    """Returns how long the slowest of some pages took while a part of a form was missing, and the reply to the form."""
    line = site.trusted.wrap_socket(socket.create_connection((HOST, site.port)), server_hostname=HOST_NAME)
    with contextlib.closing(line):
        head = ('POST /people HTTP/1.1', 'Host: ' + site.host, 'Cookie: ' + slow[1], 'Origin: ' + site.own,
                'Content-Type: application/x-www-form-urlencoded', 'Content-Length: 40005', '', 'name=')
        line.sendall('\r\n'.join(head).encode() + b'x' * 30000)
        time.sleep(0.3)
        worst = 0.0
        for _ in range(5):
            begun = time.monotonic()
            site.page(other)
            worst = max(worst, time.monotonic() - begun)
        line.sendall(b'x' * 10000)
        line.settimeout(20)
        return worst, line.recv(12)


def slow_forms(site):
    """Checks that a form that arrives slowly delays nobody. Since the machine may be busy, it is tried up to three
    times. A page that the form really delays takes 2.7 seconds each time, and the form is cut off."""
    ann, bob = site.logged_in('ann'), site.logged_in('bob')
    tries = [beside_slow_form(site, ann, bob)]
    while len(tries) < 3 and (tries[-1][0] > 1 or tries[-1][1] != b'HTTP/1.1 303'):
        tries.append(beside_slow_form(site, ann, bob))
    yield None if min(tries)[0] < 1 else 'beside a slow form pages took %s s' % [round(worst, 1) for worst, _ in tries]
    yield expect('the slow form', tries[-1][1], b'HTTP/1.1 303')


def documented(site):
    """Checks that docs/DEPLOYING.md enables the modules that the site's file names."""
    page = read(TOP, 'docs', 'DEPLOYING.md')
    asked = re.search(r'(?m)^# (a2enmod .*)$', read(DEPLOY, 'apache.conf'))[1]
    yield expect('the modules on the page', '    %s\n' % asked in page, True)


def runs_out(site):
    """Checks that a login expires, and that the timer's command removes its row."""
    ann = site.logged_in('ann')
    yield expect('a new login', who(site.page(ann))[0], 200)
    time.sleep(7)
    yield expect('a login that ran out', sent_to(site.page(ann)), ASKED)
    path = os.path.join(site.folder, 'logins', 'calendar.db')
    statement = re.search(r'(?m)^ExecStart=.*"(delete .*)"$', read(DEPLOY, 'jac-logins.service'))[1].replace('%%', '%')
    bob = site.logged_in('bob')
    with contextlib.closing(sqlite3.connect(path, timeout=20)) as base:
        before = base.execute('select count(*) from session').fetchone()[0]
        base.execute(statement)
        base.commit()
        after = base.execute('select count(*) from session').fetchone()[0]
    yield None if 1 <= after < before else 'of %d rows of logins %d are left' % (before, after)
    yield expect('a login that is open', who(site.page(bob))[0], 200)


def results_of(program, age, parts):
    with tempfile.TemporaryDirectory() as folder:
        site = Site(folder, program, age)
        try:
            if site.run.poll() is not None:
                yield 'Apache takes the files: %s' % site.run.communicate()[0]
                return
            jac = service(program, folder, site.port_of_jac)
            try:
                for part in parts:
                    yield from part(site)
                if age > 60:
                    yield from error_pages(site, jac)
            finally:
                jac.stop()
        finally:
            close(site.run)


def lacking():
    """Returns the names of what isn't installed."""
    names = [name for name in ('apache2', 'openssl', 'htpasswd') if not shutil.which(name)]
    if not names and not any(SQLITE in file for folder, _, files in os.walk('/usr/lib') for file in files
                             if 'apr-util' in folder):
        names = ['libaprutil1-dbd-sqlite3']
    return names


def main():
    reader = argparse.ArgumentParser(description=__doc__.split('.')[0])
    reader.add_argument('program', help='./jac, or a trial')
    reader.add_argument('--pictures', metavar='FOLDER', help='a folder for pictures of the pages in a browser')
    words = reader.parse_args()
    browser.PICTURES = words.pictures
    missing = lacking()
    if missing:
        report([Skipped('all of it: %s is not installed' % ', '.join(missing))])
    program = proved.program(words.program)
    parts = documented, logins, people, in_chromium, other_sites, headers_of, slow_forms, ends
    report([*results_of(program, 28800, parts), *results_of(program, 6, [runs_out])])


if __name__ == '__main__':
    main()
