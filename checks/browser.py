#!/usr/bin/env python3
"""Uses the four applications of examples/ in a headless Chromium: the start page, forms that add and change records,
lists, the page of one record, what another viewer gets there, and a page that doesn't exist. Then two Chromiums, each
as another person, click through the calendar in turn, 50 clicks in each walk. No page may take longer than 0.3 seconds.

Other programs may slow the machine down. So after each click a third Chromium loads the same page from a plain Python
server, and twice that time is subtracted. If a page is late, the walk is repeated, up to ten walks in all. Each page
has to be in time in at least one walk. A page that takes 5 seconds or more may have waited for the other browser. The
second walk with such a page fails.

Arguments: the program, and optionally a folder for pictures of the pages. Prints each failed case, then a count. If
Chromium isn't installed, the check is skipped and says so (installed.py)."""
import base64
import contextlib
import functools
import http.server
import itertools
import json
import os
import select
import subprocess
import sys
import tempfile
import threading
import time
import urllib.request

from support import installed
from support import proved
from support.serving import HOST, served

TOP = os.path.dirname(os.path.dirname(os.path.abspath(__file__)))
PROGRAM = PICTURES = None
NAMES = 'chromium', 'chromium-browser', 'google-chrome'
WAIT = 60
BROWSERS = 4        # most browsers started for one walk; a new one is started if the last one failed
CLICKS, MOST, WALKS, NEVER = 50, 0.3, 10, 5
STUCK = 2           # walks with a page of NEVER seconds or more, after which the check fails
SHARE = 2           # how many times the plain page's time is subtracted
LAST = 300          # seconds after which no further walk begins
PHONE, DESKTOP = 390, 1280

# Fills in and submits the form whose action ends with `end`.
SEND = '''((end, fields) => {
  const form = document.querySelector(`form[action$="${end}"]`);
  for (const [name, value] of Object.entries(fields)) {
    const field = form.elements[name];
    if (field.type === "checkbox") { field.checked = value; }
    else if (field.tagName === "SELECT") {
      field.value = Array.from(field.options).find((option) => option.text === value).value;
    }
    else { field.value = value; }
  }
  form.requestSubmit();
})(%s, %s)'''
# Presses the button with this text in the form whose action ends with `end`.
PRESS = '''((end, text) => Array.from(document.querySelectorAll(`form[action$="${end}"] button`))
  .find((button) => button.textContent === text).click())(%s, %s)'''
FOLLOW = 'Array.from(document.links).find((link) => link.text === %s).click()'
TEXT = 'document.body && document.body.innerText'
WIDTH = 'document.documentElement.scrollWidth'


class Broken(Exception):
    pass


class Browser:
    """A Chromium that is controlled through two pipes, by JSON messages that each end with a NUL."""

    def __init__(self, program, folder, *further):
        asked, self.asks = os.pipe()
        self.answers, answered = os.pipe()
        command = 'exec "$0" "$@" 3<&%d 4>&%d' % (asked, answered)
        flags = ['--headless', '--no-sandbox', '--disable-gpu', '--disable-dev-shm-usage', '--no-first-run',
                 '--remote-debugging-pipe', '--user-data-dir=' + folder, *further, 'about:blank']
        self.run = subprocess.Popen(['bash', '-c', command, program, *flags], pass_fds=(asked, answered),
                                    stdin=subprocess.DEVNULL, stdout=subprocess.DEVNULL, stderr=subprocess.DEVNULL)
        os.close(asked)
        os.close(answered)
        self.read, self.number, self.waiting = b'', 0, []

    def receive(self):
        while b'\0' not in self.read:
            if not select.select([self.answers], [], [], WAIT)[0]:
                raise Broken('the browser says nothing')
            part = os.read(self.answers, 1 << 20)
            if not part:
                raise Broken('the browser went away')
            self.read += part
        message, _, self.read = self.read.partition(b'\0')
        return json.loads(message)

    def call(self, method, session=None, **params):
        self.number += 1
        message = {'id': self.number, 'method': method, 'params': params}
        if session:
            message['sessionId'] = session
        os.write(self.asks, json.dumps(message).encode() + b'\0')
        while True:
            answer = self.receive()
            if answer.get('id') == self.number:
                if 'error' in answer:
                    raise Broken('%s: %s' % (method, answer['error']['message']))
                return answer['result']
            self.waiting.append(answer)

    def event(self, session, *methods):
        """Returns the next event of one of these kinds on the page of this session."""
        while True:
            event = self.waiting.pop(0) if self.waiting else self.receive()
            if event.get('method') in methods and event.get('sessionId') == session:
                return event['params']

    def close(self):
        with contextlib.suppress(Broken, OSError):
            self.call('Browser.close')
        self.run.kill()
        self.run.wait()
        os.close(self.asks)
        os.close(self.answers)


class Page:
    """A page of the browser that shows a served application."""

    def __init__(self, browser, run, name):
        self.browser, self.server, self.name, self.shots, self.seconds = browser, run, name, 0, 0
        target = browser.call('Target.createTarget', url='about:blank')['targetId']
        self.session = browser.call('Target.attachToTarget', targetId=target, flatten=True)['sessionId']
        self.call('Page.enable')
        self.call('Network.enable')

    def call(self, method, **params):
        return self.browser.call(method, self.session, **params)

    def run(self, script):
        result = self.call('Runtime.evaluate', expression=script)
        if 'exceptionDetails' in result:
            raise Broken('%s: %s' % (script[:80], result['exceptionDetails'].get('exception', {}).get('description')))
        return result['result'].get('value')

    def loaded(self, act, *words, **params):
        """Takes a step and waits until the new page is loaded. Returns the page's status and text."""
        self.browser.waiting.clear()
        began = time.monotonic()
        act(*words, **params)
        status = None
        while status is None:
            answer = self.browser.event(self.session, 'Network.responseReceived', 'Network.loadingFailed')
            if answer['type'] == 'Document' and 'errorText' in answer:
                raise Broken('a page fails: %s' % answer['errorText'])
            if answer['type'] == 'Document':
                status = answer['response']['status']
        self.browser.event(self.session, 'Page.loadEventFired')
        self.seconds = time.monotonic() - began
        self.picture()
        return status, self.text()

    def text(self):
        """Returns the page's text. A page without a body is loading itself again, as those of `./jac dev` do."""
        ends = time.monotonic() + WAIT
        while True:
            text = self.run(TEXT)
            if text is not None:
                return text
            if time.monotonic() > ends:
                raise Broken('a page has no body')
            time.sleep(0.05)

    def picture(self):
        if PICTURES:
            self.shots += 1
            print('%s-%02d: %.2f seconds' % (self.name, self.shots, self.seconds))
            data = self.call('Page.captureScreenshot', captureBeyondViewport=True)['data']
            with open(os.path.join(PICTURES, '%s-%02d.png' % (self.name, self.shots)), 'wb') as file:
                file.write(base64.b64decode(data))

    def screen(self, width, height=800):
        self.call('Emulation.setDeviceMetricsOverride', width=width, height=height, deviceScaleFactor=1,
                  mobile=width == PHONE)

    def be(self, token):
        self.call('Network.clearBrowserCookies')
        if token:
            self.call('Network.setCookie', name='session', value=token, url=self.server.address('/'))

    def go(self, path):
        return self.loaded(self.call, 'Page.navigate', url=self.server.address(path))

    def follow(self, text):
        return self.loaded(self.run, FOLLOW % json.dumps(text))

    def send(self, end, **fields):
        return self.loaded(self.run, SEND % (json.dumps(end), json.dumps(fields)))

    def press(self, end, text):
        return self.loaded(self.run, PRESS % (json.dumps(end), json.dumps(text)))


def shows(name, page, *texts, but=(), status=200):
    """Checks that the page has this status, shows `texts`, and shows none of `but`."""
    if page[0] != status:
        return '%s: status %d, not %d' % (name, page[0], status)
    for text in texts:
        if text not in page[1]:
            return '%s: no %r in %r' % (name, text, page[1])
    for text in but:
        if text in page[1]:
            return '%s: %r in %r' % (name, text, page[1])
    return None


def calendar(page):
    yield shows('an empty calendar', page.go('/'), 'Nobody is here yet.', 'There are no events yet.')
    yield shows('it is set up', page.send('/setup'), but=['Nobody is here yet.'])
    page.be('ann')
    yield shows('a viewer', page.go('/'), 'You are Ann.', 'A new event')
    added = page.send('/events', title='Interview at <Acme>', day='2026-12-01', place='Room 2')
    yield shows('an event', added, 'Interview at <Acme>', 'Room 2', 'The host is Ann.')
    yield shows('a guest', page.send('/guests', person='Bob'), 'Take Bob off the list')
    yield shows('all events', page.follow('Calendar'), 'Interview at <Acme>')
    page.be('dan')
    yield shows('for another', page.go('/'), 'busy', but=['Interview', 'Room 2'])
    yield shows('one event for another', page.follow('busy'), 'a guest', but=['Interview', 'Bob'])
    page.be('bob')
    yield shows('for a guest', page.go('/'), 'Interview at <Acme>', 'Room 2')
    yield shows('people', page.follow('People'), 'Cleo')
    yield shows('no page', page.go('/nothing'), 'No such page', status=404)


def conference(page):
    yield shows('an empty conference', page.go('/'), 'Nobody is logged in.')
    yield shows('it is set up', page.send('/setup'), but=['Add a chair'])
    page.be('ann')
    page.go('/')
    added = page.send('/papers', title='Lattices for lunch', abstract='On meets & joins.', second='Ben', conflict='Raj')
    yield shows('a paper', added, 'Lattices for lunch')
    yield shows('its page', page.go('/') and page.follow('Lattices for lunch'), 'On meets & joins.', 'Ann', 'Ben')
    page.be('rita')
    yield shows('for a reviewer', page.go('/') and page.follow('Lattices for lunch'), 'On meets & joins.', but=['Ben'])
    yield shows('a review', page.send('/reviews', score='5', words='Tasty.'), 'Tasty.')
    page.be('raj')
    yield shows('for who has a conflict', page.go('/') and page.follow('Lattices for lunch'), but=['Tasty.'])
    page.be('carol')
    yield shows('for the chair', page.go('/') and page.follow('Lattices for lunch'), 'Tasty.', 'Rita')
    yield shows('a decision', page.press('/decision', 'Accept the paper'), 'accepted')
    page.be('ann')
    yield shows('before it is published', page.go('/'), 'pending', but=['accepted'])
    page.be('carol')
    page.go('/')
    yield shows('published', page.send('/publish'), 'accepted')
    page.be(None)
    yield shows('for everybody', page.go('/'), 'Lattices for lunch', 'accepted')
    yield shows('no page', page.go('/nothing'), 'No such page', status=404)


def health(page):
    yield shows('an empty portal', page.go('/'), 'Nobody is logged in.')
    yield shows('it is set up', page.send('/setup'), but=['Add two patients'])
    page.be('house')
    page.go('/people')
    yield shows('a patient', page.follow('Ann'), 'Ann')
    added = page.send('/entries', day='2026-11-02', title='Blood test', words='Nothing < normal.')
    yield shows('an entry', added, 'Blood test', 'Nothing < normal.')
    yield shows('all entries', page.follow('Records'), 'Blood test')
    page.be('quinn')
    yield shows('without a consent', page.go('/'), but=['Blood test'])
    page.be('ann')
    yield shows('the own page', page.go('/') and page.follow('your page'), 'Blood test')
    yield shows('a consent', page.send('/consents', doctor='Dr Quinn'), 'Withdraw')
    page.be('quinn')
    yield shows('with a consent', page.go('/'), 'Blood test')
    page.be('ann')
    page.go('/')
    page.follow('Blood test')
    yield shows('a hidden entry', page.send('/hide'), 'Show it to my doctors again')
    page.be('quinn')
    yield shows('it is hidden', page.go('/'), but=['Blood test'])
    page.be(None)
    yield shows('for nobody', page.go('/people'), 'a patient', but=['Ann'])
    yield shows('no page', page.go('/nothing'), 'No such page', status=404)


def courses(page):
    yield shows('no courses', page.go('/'), 'Nobody is logged in.')
    yield shows('they are set up', page.send('/setup'), but=['Add two instructors'])
    page.be('ada')
    page.go('/')
    yield shows('a course', page.send('/courses', title='Logic & sets'), 'Logic & sets')
    yield shows('its page', page.go('/') and page.follow('Logic & sets'), 'Give a place')
    yield shows('a place', page.send('/places', student='Mia'), 'Mia')
    page.send('/places', student='Noah')
    yield shows('a task', page.send('/tasks', title='Induction', points='10'), 'Induction')
    page.be('mia')
    page.go('/')
    page.follow('Logic & sets')
    yield shows('its page for a student', page.follow('Induction'), 'not returned yet')
    yield shows('a submission', page.send('/submissions', words='By <induction>.'), 'By <induction>.')
    page.be('noah')
    page.go('/')
    page.follow('Logic & sets')
    yield shows('for another student', page.follow('Induction'), but=['By <induction>.'])
    page.be('ada')
    page.go('/')
    page.follow('Logic & sets')
    yield shows('for the teacher', page.follow('Induction'), 'By <induction>.', 'Grade of Mia')
    yield shows('a grade', page.send('/grade', grade='9', remark='Neat.'), '9')
    yield shows('returned', page.send('/return'), 'Take the grades back')
    page.be('mia')
    page.go('/')
    page.follow('Logic & sets')
    yield shows('the own grade', page.follow('Induction'), '9', 'Neat.')
    yield shows('no page', page.go('/nothing'), 'No such page', status=404)


def walk(program, folder, name, steps, serve, *further):
    """Returns what is wrong after each step of a walk. If the browser fails at a step, the walk begins again in a new
    browser and with a new server from `serve`."""
    for place in range(BROWSERS):
        results, own = [], os.path.join(folder, '%s-%d' % (name, place))
        with serve() as server, contextlib.closing(Browser(program, own, *further)) as browser:
            try:
                for wrong in steps(Page(browser, server, name)):
                    results.append(wrong and '%s: %s' % (name, wrong))
                break
            except Broken as broken:
                results.append('%s: %s' % (name, broken))
                print('%s, browser %d of %d: %s' % (name, place + 1, BROWSERS, broken), flush=True)
    return results


def example(name):
    """Serves an application of examples/."""
    return served(PROGRAM, 'app', 1000, os.path.join(TOP, 'examples', name), ('--sessions', 'sessions'))


def clicks(page, name):
    """Makes one person's clicks without end: the lists of events and of people, and every fourth time a new event."""
    for step in itertools.count():
        if step % 4 == 3:
            got = page.send('/events', title='%s %d' % (name, step), day='2026-12-01', place='Room 2')
            yield shows('an event of %s' % name, got, '%s %d' % (name, step), 'The host is %s.' % name)
        elif step % 4 == 0:
            yield shows('all events for %s' % name, page.go('/'), 'You are %s.' % name)
        else:
            yield shows('a list for %s' % name, page.follow(('People', 'Calendar')[step % 4 - 1]), 'You are %s.' % name)


class Quiet(http.server.ThreadingHTTPServer):
    def handle_error(self, request, client_address):
        """Ignores errors: a browser may open a connection ahead and close it unused."""


class Plain:
    """A plain Python server with one page. The time to load this page shows how slow the machine is at the moment."""

    def __init__(self, page):
        class Handler(http.server.BaseHTTPRequestHandler):
            def do_GET(self):
                self.send_response(200)
                self.send_header('Content-Type', 'text/html; charset=utf-8')
                self.send_header('Content-Length', str(len(page)))
                self.end_headers()
                self.wfile.write(page)

            def log_message(self, *words):
                pass

        self.server = Quiet((HOST, 0), Handler)
        threading.Thread(target=self.server.serve_forever, daemon=True).start()

    def address(self, path):
        return 'http://%s:%d%s' % (HOST, self.server.server_port, path)

    def close(self):
        self.server.shutdown()
        self.server.server_close()


def two_people(program, run, plain, folder):
    """Lets two browsers click in turn. Returns what is wrong, and for each click the seconds of the page and of the
    plain page."""
    results, times = [], []
    with contextlib.ExitStack() as stack:
        def opened(name, server):
            browser = Browser(program, os.path.join(folder, name))
            return Page(stack.enter_context(contextlib.closing(browser)), server, name)

        people, other = [opened('Ann', run), opened('Bob', run)], opened('plain', plain)
        for page in people:
            page.be(page.name.lower())
        for page in [*people, other]:
            page.go('/')    # this first page also starts the browser, so it doesn't count as a click
        steps = [clicks(page, page.name) for page in people]
        for click in range(CLICKS):
            results.append(next(steps[click % 2]))
            other.go('/')
            times.append((people[click % 2].seconds, other.seconds))
    return results, times


def first_page(run):
    """Sets up a calendar, and returns its first page."""
    with run.connect() as line:
        line.sendall(b'POST /setup HTTP/1.0\r\n\r\n')
        line.recv(1)
    with urllib.request.urlopen(run.address('/'), timeout=WAIT) as answer:
        return answer.read()


def walk_in_turn(program, folder):
    """Runs one walk of two browsers. Returns what is wrong and the seconds of each click, or two empty lists if a
    browser failed."""
    with served(PROGRAM, 'app', 10000, os.path.join(TOP, 'examples', 'calendar'), ('--sessions', 'sessions')) as run:
        try:
            with contextlib.closing(Plain(first_page(run))) as plain:
                return two_people(program, run, plain, folder)
        except (Broken, OSError) as broken:
            print('two browsers: %s' % broken, flush=True)
            return [], []


def in_turn(program, folder):
    """Checks that each page came in time in at least one walk, and that fewer than STUCK walks had a page of NEVER
    seconds."""
    results, shortest, stuck, began = [], [NEVER] * CLICKS, 0, time.monotonic()
    for place in range(WALKS):
        time.sleep(place)
        wrong, times = walk_in_turn(program, os.path.join(folder, str(place)))
        results += [one and 'two browsers: ' + one for one in wrong]
        beyond = [took - SHARE * plain for took, plain in times] or [NEVER] * CLICKS
        shortest, stuck = list(map(min, shortest, beyond)), stuck + bool(times and max(beyond) >= NEVER)
        late = sum(1 for seconds in shortest if seconds > MOST)
        for name, column in zip(('pages', 'plain pages'), zip(*times)):
            print('two browsers: %d %s, %.3f seconds on the average, %.3f at most' % (
                len(column), name, sum(column) / len(column), max(column)))
        print('two browsers: %d pages late in each of %d walks' % (late, place + 1), flush=True)
        if stuck == STUCK:
            return results + ['two browsers: in %d walks a page took %d seconds and more' % (STUCK, NEVER)]
        if not late or time.monotonic() - began > LAST:
            break
    return results + ['two browsers: %d pages took longer than %.1f seconds in each of %d walks' % (
        late, MOST, place + 1) if late else None]


def main():
    global PROGRAM, PICTURES
    words = proved.words(pictures={'metavar': 'FOLDER', 'nargs': '?', 'help': 'a folder for pictures of the pages'})
    PROGRAM = proved.program(words.program)
    PICTURES = os.path.abspath(words.pictures) if words.pictures else None
    installed.need(NAMES)
    found, results = installed.find(*NAMES), []
    # a browser that ends may still write files, so leftover files are ignored
    with tempfile.TemporaryDirectory(ignore_cleanup_errors=True) as folder:
        for steps in (calendar, conference, health, courses):
            name = steps.__name__
            results += walk(found, folder, name, steps, functools.partial(example, name))
        results += in_turn(found, folder)
    for wrong in filter(None, results):
        print('FAILED ' + wrong)
    failed = sum(1 for wrong in results if wrong)
    print('%d passed, %d failed' % (len(results) - failed, failed))
    sys.exit(1 if failed else 0)


if __name__ == '__main__':
    main()
