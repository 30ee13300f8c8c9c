#!/usr/bin/env python3
"""Checks the pages that the scripts make, in a headless Chromium at 390 and at 1280 pixels: the bar of tools/dev.py,
open and closed; its pages for a text that is refused, for a first text that is refused and for another schema; its own
page; the labels of a page; its page if the program gives no reply; and the page of tools/access_matrix.py. Nothing may
be wider than the screen. Each page must have a title, a language and a way back.

Arguments: the program, and optionally a folder for pictures of the pages; `checks/markup.py --pictures` takes those of
the examples. Prints each failed case, then a count. If Chromium isn't installed, the check is skipped and says so."""
import contextlib
import functools
import glob
import http.client
import http.server
import os
import shutil
import signal
import subprocess
import sys
import tempfile
import threading
import time
import urllib.parse

sys.dont_write_bytecode = True
import browser                                                              # noqa: E402
from support import installed                                                            # noqa: E402
import markup                                                               # noqa: E402
from support import proved                                                               # noqa: E402
from browser import DESKTOP, PHONE, WIDTH                                   # noqa: E402
from support.serving import HOST, free_port, is_listening                           # noqa: E402

TOP = proved.TOP
WAIT = browser.WAIT = 120
BAR = '''(() => { const bar = document.querySelector("jac-dev-bar");
  const room = bar && bar.shadowRoot.querySelector(".bar");
  return room ? room.scrollWidth - room.clientWidth : -1 })()'''
OPEN = 'document.querySelector("jac-dev-bar").shadowRoot.querySelector(".labels").open = true'
# the text of the labels once they are loaded
READ = 'document.querySelector("jac-dev-bar").shadowRoot.querySelector(".labels .inside").innerText'
HEAD = 'document.documentElement.lang + "|" + document.title'
BACK = 'document.links.length + document.querySelectorAll("form").length'
# how much of the page's end is under the bar after scrolling to the end
UNDER = '''(() => { const bar = document.querySelector("jac-dev-bar");
  if (!bar) return 0;
  scrollTo(0, document.documentElement.scrollHeight);
  const room = bar.shadowRoot.querySelector(".bar").getBoundingClientRect().top;
  const last = Math.max(...Array.from(document.body.children).filter((one) => one !== bar)
    .map((one) => one.getBoundingClientRect().bottom));
  scrollTo(0, 0);
  return Math.max(0, Math.ceil(last - room)) })()'''
# everything that is wider than the screen, except what can be scrolled sideways by itself
TOO_WIDE = '''(() => { const found = [];
  for (const one of document.querySelectorAll("body *")) {
    let box = one;
    while (box && getComputedStyle(box).overflowX === "visible") box = box.parentElement;
    if (one.getBoundingClientRect().right > innerWidth + 1 && (!box || box === document.documentElement)) {
      found.push(one.tagName + " " + one.className);
    }
  }
  return found.slice(0, 3).join(", ") })()'''


class Dev:
    """A run of dev over a copy of an example, in a folder of its own."""

    def __init__(self, program, folder, example='calendar', before=None, options=()):
        self.folder, self.port = folder, free_port()
        self.app = os.path.join(folder, example)
        shutil.copytree(os.path.join(TOP, 'examples', example), self.app)
        if before:
            self.change(*before)
        with open(os.path.join(folder, 'told'), 'wb') as told:
            self.run = subprocess.Popen([sys.executable, os.path.join(TOP, 'tools', 'dev.py'), program, example,
                                         str(self.port), *options], cwd=folder, stdin=subprocess.DEVNULL, stdout=told, stderr=told)
        until(lambda: is_listening(self.port) and b'"version": 0' not in self.get('/dev//state'))

    def get(self, path):
        line = http.client.HTTPConnection(HOST, self.port, timeout=WAIT)
        with contextlib.closing(line):
            line.request('GET', path)
            return line.getresponse().read()

    def post(self, path, token='', **fields):
        line = http.client.HTTPConnection(HOST, self.port, timeout=WAIT)
        with contextlib.closing(line):
            line.request('POST', path, urllib.parse.urlencode(fields), {
                'Content-Type': 'application/x-www-form-urlencoded', 'Cookie': 'session=' + token})
            return line.getresponse().status

    def change(self, name, old, new):
        """Saves a part in which one text is replaced by another."""
        path = os.path.join(self.app, name)
        with open(path, encoding='utf-8') as file:
            text = file.read()
        assert old in text, (path, old)
        with open(path + '~', 'w', encoding='utf-8') as file:
            file.write(text.replace(old, new, 1))
        os.replace(path + '~', path)

    def changed(self, *words):
        before = self.get('/dev//state')
        self.change(*words)
        until(lambda: self.get('/dev//state') != before)

    def program(self):
        """Returns the number of the process that serves."""
        for name in filter(str.isdigit, os.listdir('/proc')):
            with contextlib.suppress(OSError), open('/proc/%s/stat' % name) as stat, \
                    open('/proc/%s/cmdline' % name, 'rb') as words:
                parent = int(stat.read().rpartition(')')[2].split()[1])
                if parent == self.run.pid and b'serve' in words.read().split(b'\0'):
                    return int(name)
        raise browser.Broken('dev serves nothing')

    def end(self):
        if self.run.poll() is None:
            self.run.send_signal(signal.SIGTERM)
        self.run.wait(WAIT)


def until(holds):
    deadline = time.monotonic() + WAIT
    while not holds():
        if time.monotonic() > deadline:
            raise browser.Broken('something takes longer than %d seconds' % WAIT)
        time.sleep(0.05)


@contextlib.contextmanager
def dev_over(program, **words):
    with tempfile.TemporaryDirectory(ignore_cleanup_errors=True) as folder:
        dev = Dev(program, folder, **words)
        try:
            yield dev
        finally:
            dev.end()


class Looker:
    """The browser, and the folder for pictures if there is one."""

    def __init__(self, chromium, pictures):
        self.chromium, self.pictures = chromium, pictures

    def page(self, port):
        return browser.Page(self.chromium, markup.Address(port), 'pictures')

    def looked(self, page, name, path, *texts, act=None):
        """Checks a page at each width: what it says, and that it fits."""
        for width, screen in ((PHONE, 'phone'), (DESKTOP, 'desktop')):
            page.screen(width)
            _, text = page.go(path)
            if act:
                text += act(page)
            if self.pictures:
                markup.picture(page, self.pictures, '%s-%s' % (name, screen))
            lacking = [one for one in texts if one not in text]
            yield None if not lacking else '%s: no %s in %r' % (name, lacking, text[:2000])
            wide, bar = page.run(WIDTH), page.run(BAR)
            fits = wide <= width and bar <= 0
            yield None if fits else '%s at %d: %d pixels wide, and its bar %d too many: %s' % (
                name, width, wide, max(0, bar), page.run(TOO_WIDE))
            yield None if page.run(UNDER) == 0 else '%s at %d: %d pixels of its end are under the bar' % (
                name, width, page.run(UNDER))
            language, _, title = page.run(HEAD).partition('|')
            yield None if language and title else '%s: language %r, title %r' % (name, language, title)
            yield None if page.run(BACK) else '%s: no link and no form' % name


def opened(page):
    """Opens the labels of the bar, and returns their text."""
    page.run(OPEN)
    until(lambda: 'In words' not in page.run(READ))
    return page.run(READ)


IN_BAR = 'document.querySelector("jac-dev-bar").shadowRoot.querySelector(".bar").innerText'


def of_bar(page):
    return page.run(IN_BAR)


def of_dev(program, looker):
    with dev_over(program) as dev:
        page = looker.page(dev.port)
        yield None if dev.post('/setup') == 303 else 'the calendar is not set up'
        for title, is_open in (('Interview at Acme', ''), ('Picnic', '1'), (markup.LONG, '')):
            dev.post('/events', 'ann', title=title, place=title, day='2027-03-02', open=is_open)
        page.be('bob')
        yield from looker.looked(page, 'bar', '/', 'jac dev', 'asked by', 'labels of this page', act=of_bar)
        yield from looker.looked(page, 'bar-open', '/', 'Hidden, of this page', act=opened)
        page.be('ann')
        yield from looker.looked(page, 'bar-open-ann', '/', 'Shown to', act=opened)
        yield from looker.looked(page, 'own-page', '/dev//', 'for writing an application')
        number = dev.get('/').decode().split('/dev//page/')[1].split('"')[0]
        yield from looker.looked(page, 'labels', '/dev//page/' + number, 'Labels of /')
        dev.changed('main', '(get Event ', '(gett Event ')
        yield from looker.looked(page, 'refused', '/', 'is refused', 'gett', act=of_bar)
        dev.changed('main', '(gett Event ', '(get Event ')
        dev.changed('main', '(fields (name text)', '(fields (called text) (name text)')
        yield from looker.looked(page, 'other-schema', '/', 'Begin with a new store', act=of_bar)
    with dev_over(program, before=('main', '(viewer Person)', '(viewer Persn)')) as dev:
        yield from looker.looked(looker.page(dev.port), 'refused-at-first', '/', 'There is no page yet')
    with dev_over(program, options=('--db', 'd')) as dev:
        os.kill(dev.program(), signal.SIGKILL)
        store = os.path.join(dev.folder, 'd')
        for path in glob.glob(store + '-*'):
            os.remove(path)
        with open(store, 'w', encoding='ascii') as file:
            file.write('no store')
        yield from looker.looked(looker.page(dev.port), 'no-reply', '/people', 'No reply', 'store fault',
                                 'Ask for this page again')


@contextlib.contextmanager
def files_of(folder):
    handler = functools.partial(type('Quiet', (http.server.SimpleHTTPRequestHandler,), {'log_message': lambda *_: None}),
                                directory=folder)
    with http.server.ThreadingHTTPServer((HOST, 0), handler) as server:
        threading.Thread(target=server.serve_forever, daemon=True).start()
        try:
            yield server.server_address[1]
        finally:
            server.shutdown()


def of_matrix(program, looker):
    """Checks the page of who sees what for the conference."""
    example = os.path.join(TOP, 'examples', 'conference')
    with tempfile.TemporaryDirectory() as folder:
        words = {'cwd': folder, 'stdin': subprocess.DEVNULL, 'stdout': subprocess.DEVNULL, 'check': True}
        sessions = ['--sessions', os.path.join(example, 'sessions')]
        subprocess.run([program, 'replay', os.path.join(example, 'app'), os.path.join(example, 'events'), *sessions, '--db',
                        'd'], **words)
        subprocess.run([sys.executable, os.path.join(TOP, 'tools', 'access_matrix.py'), os.path.join(example, 'app'), '--db',
                        'd', *sessions, '--program', program, '--output', 'matrix.html'], **words)
        with files_of(folder) as port:
            yield from looker.looked(looker.page(port), 'matrix', '/matrix.html', 'Who sees what')


def main():
    words = proved.words(pictures={'metavar': 'FOLDER', 'nargs': '?', 'help': 'a folder for pictures of the pages'})
    installed.need(browser.NAMES)
    program, pictures = proved.binary(words.program), words.pictures
    chromium = installed.find(*browser.NAMES)
    with tempfile.TemporaryDirectory(ignore_cleanup_errors=True) as folder, \
            contextlib.closing(markup.Watched(chromium, folder)) as run:
        looker = Looker(run, pictures)
        results = [*of_dev(program, looker), *of_matrix(program, looker)]
    for wrong in filter(None, results):
        print('FAILED ' + wrong)
    failed = sum(1 for wrong in results if wrong)
    print('%d passed, %d failed' % (len(results) - failed, failed))
    return 1 if failed else 0


if __name__ == '__main__':
    sys.exit(main())
