#!/usr/bin/env python3
"""Requests every page of the four large examples: each path, as each person and as nobody, after the example's walk,
with a long word and several lines stored. Also requests every page that refuses a form.

Each page must be valid HTML, by html5lib and by tidy. It must have a title that no other path has, a language, a
charset, a viewport, one main part with one heading, a label for each field, a name for each button and link that
distinguishes it from the others, a way back to the first page and, for nobody, a way to log in. It may have no script
and nothing from other sites. In Chromium, under the Content-Security-Policy below, the largest page of each kind must
be no wider than the screen of a phone and break no short word there. Its style sheet and a form must work.

Argument: the program. With --pictures FOLDER it writes pictures of these pages there, as a desktop and as a phone show
them. A part that needs Debian's python3-html5lib, tidy, chromium or a font is skipped if that isn't installed. Prints
each failed case, then a count."""
import argparse
import base64
import collections
import contextlib
import html.parser
import http.client
import http.server
import os
import re
import shutil
import subprocess
import sys
import tempfile
import threading
import urllib.parse

sys.dont_write_bytecode = True
import browser                                                              # noqa: E402
from support import proved                                                  # noqa: E402
from browser import DESKTOP, PHONE, WIDTH                                   # noqa: E402
from support.serving import HOST, served                                    # noqa: E402

TOP = proved.TOP
# a browser may start late on a busy machine
browser.WAIT = 120
sys.path.insert(0, os.path.join(TOP, 'tools'))
import assemble                                                             # noqa: E402

POLICY = "default-src 'none'; style-src 'self' 'unsafe-inline'; img-src 'self' data:; form-action 'self'; " \
    "base-uri 'none'; frame-ancestors 'none'"
LONG = 'Donaudampfschifffahrtsgesellschaftskapitaen' * 4
LINES = 'The first line.\nThe second one.'
# paths that no link leads to: an export, the login, and pages that don't exist
ANYWHERE = '/export', '/login', '/nothing', '/nothing/at', '/nothing/at/all'
# each example, what is stored in addition to its walk, and paths of records that don't exist
SITES = {
    'calendar': ([(4096, '/events', {'title': LONG, 'place': LONG, 'day': '2027-05-05', 'open': '1'})], ['/event/1']),
    'conference': ([(4160, '/papers', {'title': LONG, 'abstract': LINES})], ['/paper/1']),
    'health': ([(4224, '/person/4096/entries', {'title': LONG, 'words': LINES + LONG, 'day': '2027-05-05'}),
                (4096, '/notes', {'words': LINES + LONG})], ['/entry/1', '/person/1']),
    'courses': ([(4096, '/courses', {'title': LONG})], ['/course/1', '/task/1']),
    'courses/next': ([(4096, '/courses', {'title': LONG}), (4096, '/people/mail', {'mail': LONG})],
                     ['/course/1', '/task/1']),
}
ASK = re.compile(r'(?m)^ask (\S+) ([A-Z]+) "([^"]*)" "([^"]*)"$')
VOID = {'meta', 'link', 'input', 'br', 'hr', 'img'}
FORM = {'Content-Type': 'application/x-www-form-urlencoded'}

Reply = collections.namedtuple('Reply', 'status location body')


class Element:
    def __init__(self, name, attributes, parent):
        self.name, self.attributes, self.parent, self.parts = name, attributes, parent, []

    def all(self, *names):
        """Yields the elements below that have one of these names, or all, in order."""
        for part in self.parts:
            if isinstance(part, Element):
                if part.name in names or not names:
                    yield part
                yield from part.all(*names)

    def first(self, name):
        return next(self.all(name), None)

    def text(self):
        return ' '.join(''.join(part if isinstance(part, str) else part.text() for part in self.parts).split())

    def within(self, name):
        return self.parent is not None and (self.parent.name == name or self.parent.within(name))

    def label(self):
        """Returns what a screen reader calls the element."""
        return self.attributes.get('aria-label') or self.text()


class Tree(html.parser.HTMLParser):
    """The elements of a valid page."""

    def __init__(self, text):
        super().__init__()
        self.root = self.open = Element('', {}, None)
        self.feed(text)
        self.close()

    def handle_starttag(self, tag, attrs):
        element = Element(tag, {name: value or '' for name, value in attrs}, self.open)
        self.open.parts.append(element)
        self.open = self.open if tag in VOID else element

    def handle_endtag(self, tag):
        self.open = self.open.parent or self.root

    def handle_data(self, data):
        self.open.parts.append(data)


# What is required of a page. Each function yields what is wrong.

def of_the_head(text, root):
    language = next((element.attributes.get('lang') for element in root.all('html')), None)
    if not text.startswith('<!DOCTYPE html>\n'):
        yield 'no doctype'
    if not language:
        yield 'no language'
    if "<meta charset='utf-8'>" not in text[:1024]:
        yield 'no charset at its beginning'
    if not any(element.attributes.get('name') == 'viewport' and 'width=device-width, initial-scale=1' in
               element.attributes.get('content', '') for element in root.all('meta')):
        yield 'no viewport'
    title = root.first('title')
    if title is None or not re.match(r'\S.* - \S', title.text()):
        yield 'no title of its own: %r' % (title and title.text())


def of_the_body(root):
    for name in 'main', 'h1', 'nav':
        if len(list(root.all(name))) != 1:
            yield '%d elements %s' % (len(list(root.all(name))), name)
    main = root.first('main')
    if main is not None and main.first('h1') is None:
        yield 'no heading in its main part'
    for heading in root.all('h1', 'h2', 'caption'):
        if not heading.text():
            yield 'an empty %s' % heading.name
    for table in root.all('table'):
        if table.first('caption') is None:
            yield 'a table without a caption'
    for head in root.all('th'):
        if head.attributes.get('scope') not in ('col', 'row'):
            yield 'a head without a scope: %s' % head.text()


def of_the_fields(root):
    for field in root.all('input', 'select', 'textarea'):
        if field.attributes.get('type') != 'hidden' and not field.within('label'):
            yield 'a field without a label: %s' % field.attributes.get('name')
    ids = [element.attributes['id'] for element in root.all() if 'id' in element.attributes]
    if len(ids) != len(set(ids)):
        yield 'an id twice'
    for form in root.all('form'):
        action = form.attributes.get('action', '')
        if form.attributes.get('method') != 'post' or not action.startswith('/') or action.startswith('//'):
            yield 'a form that leads to %r' % action


def of_names(root):
    """Checks that links with the same name lead to the same place, and that buttons with the same name are in the same
    form."""
    links, buttons = {}, {}
    for link in root.all('a'):
        if not link.label():
            yield 'a link without a text to %s' % link.attributes.get('href')
        if links.setdefault(link.label(), link.attributes.get('href')) != link.attributes.get('href'):
            yield 'two links are called %r' % link.label()
    for form in root.all('form'):
        for button in form.all('button'):
            if not button.label():
                yield 'a button without a text'
            if buttons.setdefault(button.label(), form) is not form:
                yield 'two buttons are called %r' % button.label()


def of_ways(root, viewer):
    hrefs = [link.attributes.get('href') for link in root.all('a')]
    if '/' not in hrefs:
        yield 'no way back to the first page'
    if viewer is None and '/login' not in hrefs:
        yield 'no way in'


def of_content(text, root):
    """Yields what the Content-Security-Policy would not allow."""
    for element in root.all():
        if element.name in ('script', 'iframe', 'object', 'embed', 'base'):
            yield 'an element %s' % element.name
        for name, value in element.attributes.items():
            if name.startswith('on'):
                yield 'a script in an attribute %s' % name
            if name in ('src', 'href', 'action') and not re.match(r'/(?!/)|data:,$', value):
                yield 'something from elsewhere: %s' % value


def wrong_parts(text, viewer):
    root = Tree(text).root
    yield from of_the_head(text, root)
    yield from of_the_body(root)
    yield from of_the_fields(root)
    yield from of_names(root)
    yield from of_ways(root, viewer)
    yield from of_content(text, root)


def html5lib_faults(text, library=[]):
    if not library:
        assemble.with_debian('html5lib')
        import html5lib
        library.append(html5lib)
    parser = library[0].HTMLParser()
    parser.parse(text)
    return ['html5lib, line %d: %s' % (place[0], fault) for place, fault, _ in parser.errors]


def tidy_faults(text):
    done = subprocess.run(['tidy', '-q', '-e', '-utf8'], input=text.encode(), stdout=subprocess.PIPE,
                          stderr=subprocess.STDOUT, check=False, timeout=60)
    lines = done.stdout.decode('utf-8', 'replace').splitlines()
    # this version of tidy is older than the attribute
    return ['tidy, ' + line for line in lines if '"aria-current"' not in line]


def fetched(port, method, path, body, headers):
    """Returns the reply to a request. On a busy machine the first byte may come so late that the program closes the
    connection. Then the request is sent again."""
    for _ in range(50):
        with contextlib.closing(http.client.HTTPConnection(HOST, port, timeout=60)) as line:
            try:
                line.request(method, path, body, headers)
                answer = line.getresponse()
                return answer, answer.read()
            except (http.client.RemoteDisconnected, ConnectionResetError, BrokenPipeError):
                continue
    raise OSError('the program closes each connection')


# The pages of a site.

class Site:
    """An example that is served. Requests name its people by number."""

    def __init__(self, name, run, tokens):
        self.name, self.run, self.tokens = name, run, tokens
        self.pages = {}

    def ask(self, viewer, method, path, fields=None):
        headers = dict(FORM) if method == 'POST' else {}
        if viewer is not None:
            headers['Cookie'] = 'session=' + self.tokens[viewer]
        body = None if method == 'GET' else fields if isinstance(fields, str) else urllib.parse.urlencode(fields or {})
        answer, read = fetched(self.run.port, method, path, body, headers)
        return Reply(answer.status, answer.getheader('Location'), read.decode())

    def walk(self, events, besides):
        """Sends the requests of the walk that are on lines of their own, and those of `besides`. The latter come last,
        or before the decisions are published, since no paper is taken after that."""
        asks = ASK.findall(events)
        place = next((at for at, ask in enumerate(asks) if ask[2] == '/publish'), len(asks))
        for viewer, method, target, body in asks[:place]:
            self.ask(None if viewer == '-' else int(viewer), method, target, body)
        for viewer, path, fields in besides:
            reply = self.ask(viewer, 'POST', path, fields)
            if reply.status != 303:
                raise ValueError('%s: POST %s: %s' % (self.name, path, reply.body[:300]))
        for viewer, method, target, body in asks[place:]:
            self.ask(None if viewer == '-' else int(viewer), method, target, body)

    def crawl(self, viewer, paths):
        """Requests each page that links lead to from these paths."""
        left = list(paths)
        while left:
            path = left.pop()
            if (viewer, path) not in self.pages:
                reply = self.ask(viewer, 'GET', path)
                self.pages[viewer, path] = reply
                left += [link.attributes['href'] for link in Tree(reply.body).root.all('a')
                         if link.attributes.get('href', '').startswith('/')]

    def actions(self):
        """Returns the paths that the forms of all pages are sent to."""
        return sorted({form.attributes['action'] for reply in self.pages.values()
                       for form in Tree(reply.body).root.all('form')})

    def refusals(self):
        """Yields the replies to refused forms. Each form is sent empty and with wrong values, as nobody and as each
        person."""
        for action in self.actions():
            for viewer in [None, *self.tokens]:
                for fields in {}, {'score': '-7', 'grade': '7777777', 'points': '-7', 'title': ' ', 'words': 'A <b>'}:
                    if viewer is None or not re.search(r'/(remove|publish|withdraw|close|setup)$', action):
                        reply = self.ask(viewer, 'POST', action, fields)
                        if reply.status != 303:
                            yield viewer, 'POST %s' % action, reply


def sessions(folder):
    with open(os.path.join(folder, 'sessions'), encoding='utf-8') as file:
        return {int(viewer): token for token, viewer in (line.split() for line in file.read().splitlines())}


@contextlib.contextmanager
def site_of(program, name):
    """Serves the example after its walk. The second version of courses continues with the records of the first."""
    first = os.path.join(TOP, 'examples', name.partition('/')[0])
    besides, lacking = SITES[name]
    with tempfile.TemporaryDirectory() as room:
        options = ['--sessions', os.path.join(first, 'sessions'), '--db', os.path.join(room, 'd')]
        if '/' in name:
            for words in (['replay', 'app', 'events', *options],
                          ['upgrade', 'app', name.partition('/')[2] + '/app', *options[2:]]):
                subprocess.run([program, *words], cwd=first, stdin=subprocess.DEVNULL, stdout=subprocess.DEVNULL,
                               check=True)
        with served(program, os.path.join(TOP, 'examples', name, 'app'), 1000000, room, options) as run:
            site = Site(name, run, sessions(first))
            with open(os.path.join(TOP, 'examples', name, 'events'), encoding='utf-8') as file:
                events = file.read()
            site.empty = None if '/' in name else site.ask(None, 'GET', '/')
            site.walk(events, besides)
            for viewer in [None, *site.tokens]:
                site.crawl(viewer, ['/', *ANYWHERE, *lacking])
            yield site


def titles(site):
    """Checks that paths of different kinds have different titles."""
    kinds = {}
    for (_, path), reply in site.pages.items():
        title = Tree(reply.body).root.first('title')
        kind = 'no record' if path in SITES[site.name][1] else kind_of(path)
        kind = '/nothing' if kind.startswith('/nothing') else kind
        kinds.setdefault(title.text() if title else '', set()).add(kind)
    for title, found in kinds.items():
        if len(found) > 1:
            yield '%s: the title %r is that of %s' % (site.name, title, ' and '.join(sorted(found)))


def of_pages(site, tools):
    """Checks each page that differs from those before it."""
    pages = [(viewer, 'GET ' + path, reply) for (viewer, path), reply in site.pages.items()] + list(site.refusals())
    pages += [(None, 'GET / of an empty site', site.empty)] if site.empty else []
    seen = set()
    for viewer, asked, reply in pages:
        if (viewer is None, reply.body) in seen:
            continue
        seen.add((viewer is None, reply.body))
        wrong = [*wrong_parts(reply.body, viewer), *(fault for tool in tools for fault in tool(reply.body))]
        wrong += [] if asked.startswith('POST') or reply.status in (200, 404) else ['status %d' % reply.status]
        yield wrong and '%s, %s as %s: %s' % (site.name, asked, site.tokens.get(viewer, 'nobody'), '; '.join(wrong[:5]))
    yield from titles(site)


# In a browser.

class Front(http.server.BaseHTTPRequestHandler):
    """Forwards each request, and adds the Content-Security-Policy to the reply."""
    port = None

    def handed_on(self):
        body = self.rfile.read(int(self.headers.get('Content-Length', 0)))
        headers = {name: value for name, value in self.headers.items() if name in ('Cookie', 'Content-Type')}
        answer, read = fetched(self.port, self.command, self.path, body or None, headers)
        self.send_response_only(answer.status)
        for name, value in answer.getheaders():
            if name.lower() not in ('connection', 'content-length'):
                self.send_header(name, value)
        self.send_header('Content-Security-Policy', POLICY)
        self.send_header('Content-Length', str(len(read)))
        self.end_headers()
        self.wfile.write(read)

    do_GET = do_POST = handed_on

    def log_message(self, *words):
        pass


@contextlib.contextmanager
def front_of(port):
    handler = type('FrontOf', (Front,), {'port': port})
    with http.server.ThreadingHTTPServer((HOST, 0), handler) as server:
        threading.Thread(target=server.serve_forever, daemon=True).start()
        try:
            yield server.server_address[1]
        finally:
            server.shutdown()


class Address:
    def __init__(self, port):
        self.port = port

    def address(self, path):
        return 'http://%s:%d%s' % (HOST, self.port, path)


STYLED = 'getComputedStyle(document.querySelector("header")).display'
# the short words that are broken over several lines
BROKEN = '''(() => { const found = [], texts = document.createTreeWalker(document.body, NodeFilter.SHOW_TEXT);
  for (let text = texts.nextNode(); text; text = texts.nextNode()) {
    if (text.parentElement.closest(".away")) continue;
    for (const word of text.data.matchAll(/(?<![^\\s])\\p{L}{2,10}(?![^\\s])/gu)) {
      const range = document.createRange();
      range.setStart(text, word.index);
      range.setEnd(text, word.index + word[0].length);
      if (range.getClientRects().length > 1) found.push(word[0]);
    }
  }
  return found.slice(0, 3).join(", ") })()'''


class Watched(browser.Browser):
    """A browser that records the security violations that it reports."""

    def __init__(self, program, folder):
        self.said = []
        super().__init__(program, folder)

    def receive(self):
        message = super().receive()
        entry = message.get('params', {}).get('entry', {}) if message.get('method') == 'Log.entryAdded' else {}
        if entry.get('source') in ('security', 'violation'):
            self.said.append(entry['text'])
        return message


def refusals_of_the_browser(page):
    """Returns the security violations that the browser has reported since the last call."""
    page.run('1')
    said, page.browser.said = page.browser.said, []
    return said


def picture(page, folder, name):
    metrics = page.call('Page.getLayoutMetrics')['cssContentSize']
    clip = {'x': 0, 'y': 0, 'width': metrics['width'], 'height': min(metrics['height'], 3000), 'scale': 1}
    data = page.call('Page.captureScreenshot', captureBeyondViewport=True, clip=clip)['data']
    with open(os.path.join(folder, name + '.png'), 'wb') as file:
        file.write(base64.b64decode(data))


def kind_of(path):
    return re.sub(r'\d+', '*', path)


def largest(site):
    """Returns the largest page of each kind, and the first page as nobody sees it."""
    found = {}
    for asked, reply in site.pages.items():
        best = found.get(kind_of(asked[1]))
        if best is None or len(reply.body) > len(site.pages[best].body):
            found[kind_of(asked[1])] = asked
    return [(None, '/'), *found.values()]


def looked_at(site, page, pictures):
    """Checks the largest page of each kind in the browser."""
    for viewer, path in largest(site):
        page.be(site.tokens.get(viewer))
        name = '%s, %s as %s' % (site.name, path, site.tokens.get(viewer, 'nobody'))
        page.screen(PHONE)
        page.go(path)
        width, styled, said = page.run(WIDTH), page.run(STYLED), refusals_of_the_browser(page)
        yield None if width <= PHONE else '%s: %d pixels wide on a phone' % (name, width)
        broken = page.run(BROKEN)
        yield None if not broken else '%s: on a phone these words are broken: %s' % (name, broken)
        fits = styled == 'flex' and not said
        yield None if fits else '%s: not under the policy of content: %s' % (name, said or styled)
        if pictures:
            file = re.sub(r'\W+', '-', name).strip('-')
            picture(page, pictures, file + '-phone')
            page.screen(DESKTOP)
            picture(page, pictures, file + '-desktop')


def sent_by_a_browser(site, page):
    """Checks that a form can be sent under the Content-Security-Policy."""
    if site.name == 'calendar':
        page.be('ann')
        page.go('/people')
        status, text = page.send('/people', name='Eve & Co')
        said = refusals_of_the_browser(page)
        right = (status, said) == (200, []) and 'Eve & Co' in text
        yield None if right else 'a form in a browser: %r' % ((status, said, text),)


def in_chromium(program, site, pictures):
    with tempfile.TemporaryDirectory(ignore_cleanup_errors=True) as folder, \
            contextlib.closing(Watched(program, folder)) as chromium, front_of(site.run.port) as port:
        page = browser.Page(chromium, Address(port), site.name)
        page.call('Log.enable')
        yield from looked_at(site, page, pictures)
        yield from sent_by_a_browser(site, page)


def installed(quick):
    """Returns the tools that are installed, Chromium if it is, and the names of those that aren't."""
    tools, lacking = [], []
    try:
        html5lib_faults('<!DOCTYPE html><title>a</title>')
        tools.append(html5lib_faults)
    except ImportError:
        lacking.append('html5lib')
    if shutil.which('tidy'):
        tools.append(tidy_faults)
    else:
        lacking.append('tidy')
    chromium = None if quick else next(filter(None, map(shutil.which, browser.NAMES)), None)
    if not chromium:
        return tools, None, lacking + ['chromium']
    if not has_font():
        return tools, None, lacking + ['chromium, which has no font,']
    return tools, chromium, lacking


def has_font():
    """Returns whether fontconfig finds a font. Without a font Chromium shows no text, so its pages have another
    width."""
    lister = shutil.which('fc-list')
    return lister is None or bool(subprocess.run([lister], capture_output=True, check=False).stdout.strip())


def main():
    parser = argparse.ArgumentParser(description=__doc__, formatter_class=argparse.RawDescriptionHelpFormatter)
    parser.add_argument('program', nargs='?', default=os.path.join(TOP, 'jac'), help='./jac, or a program')
    parser.add_argument('--pictures', metavar='FOLDER', help='a folder for pictures of the pages')
    parser.add_argument('--quick', action='store_true', help='skip what needs Chromium')
    parser.add_argument('--site', choices=SITES, help='check only this site')
    words = parser.parse_args()
    program = proved.program(words.program)
    tools, chromium, lacking = installed(words.quick)
    results = []
    for name in [words.site] if words.site else SITES:
        with site_of(program, name) as site:
            if chromium:
                results += in_chromium(chromium, site, words.pictures)
            # all forms that are accepted change records, so this comes last
            results += of_pages(site, tools)
    for wrong in filter(None, results):
        print('FAILED ' + wrong)
    for name in lacking:
        print('skipped, as it is not installed or not wanted: what %s says of the pages' % name)
    failed = sum(1 for wrong in results if wrong)
    print('%d passed, %d failed%s' % (len(results) - failed, failed, ', %d skipped' % len(lacking) if lacking else ''))
    return 1 if failed or not results else 0


if __name__ == '__main__':
    sys.exit(main())
