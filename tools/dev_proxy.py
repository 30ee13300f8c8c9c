"""The proxy of `tools/dev.py`. It passes each request of a browser to the program, and adds a bar to each HTML page.

Its own pages are below `/dev//`. No view has such a path: a view's path has no empty segment, and a segment `{NAME}`
matches no empty one."""
import collections
import http.server
import json
import re
import urllib.parse

import dev_pages
from dev_pages import PREFIX
from hidden import labels_of

PAGES = 500             # the most pages that are remembered, for later requests of their labels
MOST = 1 << 20          # the most bytes of a body
NAMES = {'127.0.0.1', 'localhost', '[::1]', ''}
# headers that are for one connection only (RFC 9110, section 7.6.1)
OF_CONNECTION = {'connection', 'keep-alive', 'proxy-connection', 'te', 'trailer', 'upgrade', 'expect'}
AUDIT = re.compile(r'\d+ (\d+) (-|\d+) (-|nopage|[\d,]+)(?: of (-|[\d,]+))?')


class Page:
    """A page that was shown: its request, viewer and labels. `consulted` is None if the audit doesn't have it."""

    def __init__(self, number, method, target, line, text):
        found = AUDIT.fullmatch(line)
        self.number, self.method, self.target, self.text = number, method, target, text
        self.viewer = found.group(2) if found else '-'
        self.shown = labels_of(found.group(3)) if found else []
        self.consulted = labels_of(found.group(4)) if found and found.group(4) else None

    def hidden(self):
        """The labels that the page consulted and that aren't shown, or None if the consulted labels aren't known."""
        if self.consulted is None:
            return None
        return [label for label in self.consulted if label not in self.shown]


def split_reply(reply):
    """The status line, the headers as pairs, and the body."""
    head, _, body = reply.partition(b'\r\n\r\n')
    first, *lines = head.decode('latin-1').split('\r\n')
    return first, [tuple(part.strip() for part in line.split(':', 1)) for line in lines if ':' in line], body


class Handler(http.server.BaseHTTPRequestHandler):
    protocol_version = 'HTTP/1.1'
    timeout = 60        # seconds until an idle connection is closed

    def answer(self):
        self.target = self.requestline.split()[1]
        host = self.headers.get('Host', '')
        if re.sub(r':\d*$', '', host) not in NAMES:
            self.refuse(421, 'This is for writing an application, on its own machine: open http://127.0.0.1:%d/\n'
                        % self.server.dev.port)
        elif self.target.startswith(PREFIX):
            self.own()
        else:
            self.hand_on()

    do_GET = do_HEAD = do_POST = do_PUT = do_DELETE = do_PATCH = do_OPTIONS = do_TRACE = answer

    def log_message(self, *_):
        """Logs nothing."""

    def body(self):
        """The body of the request, or None if it can't be read."""
        length = self.headers.get('Content-Length', '0')
        if not length.isdigit() or int(length) > MOST or 'Transfer-Encoding' in self.headers:
            self.close_connection = True
            return None
        return self.rfile.read(int(length))

    # replies

    def send(self, first, headers, body):
        lines = [first] + ['%s: %s' % pair for pair in headers]
        lines += ['Content-Length: %d' % len(body)] if self.command != 'HEAD' else []
        lines += ['Connection: close'] if self.close_connection else []
        head = '\r\n'.join(lines).encode('latin-1') + b'\r\n\r\n'
        self.wfile.write(head + (body if self.command != 'HEAD' else b''))

    def send_text(self, status, kind, text, headers=()):
        first = 'HTTP/1.1 %d %s' % (status, http.server.BaseHTTPRequestHandler.responses[status][0])
        self.send(first, [('Content-Type', kind + '; charset=utf-8'), ('Cache-Control', 'no-store'), *headers],
                  text.encode())

    def refuse(self, status, text):
        self.body()
        self.send_text(status, 'text/plain', text)

    def redirect(self, path, headers=()):
        self.send_text(303, 'text/plain', '', [('Location', path), *headers])

    # requests for the application's pages

    def as_sent(self, body):
        kept = [(name, value) for name, value in self.headers.items() if name.lower() not in OF_CONNECTION]
        lines = ['%s %s HTTP/1.1' % (self.command, self.target)] + ['%s: %s' % pair for pair in kept]
        return '\r\n'.join(lines + ['Connection: close', '', '']).encode('latin-1') + (body or b'')

    def hand_on(self):
        dev, body = self.server.dev, self.body()
        try:
            answer = dev.ask(self.as_sent(body))
        except dev.faults as fault:
            return self.send_text(502, 'text/html', dev_pages.broken(
                dev, fault, self.target if self.command == 'GET' else '/'))
        if answer is None:
            return self.send_text(503, 'text/html', dev_pages.home(dev, self.token()))
        reply, line, text = answer
        first, headers, page = split_reply(reply)
        headers = [pair for pair in headers if pair[0].lower() not in ('content-length', 'connection')]
        if page and self.is_shown(dict(headers)):
            headers.append(('Cache-Control', 'no-store'))
            page = with_bar(page, dev_pages.bar(dev, self.remember(line, text), self.token()))
        return self.send(first, headers, page)

    def is_shown(self, headers):
        """Whether the reply is an HTML page that the browser shows, not one that a script requested."""
        return headers.get('Content-Type', '').startswith('text/html') and \
            self.headers.get('Sec-Fetch-Dest', 'document') in ('document', 'iframe', 'frame') and self.command != 'HEAD'

    def remember(self, line, text):
        server = self.server
        server.number += 1
        page = Page(server.number, self.command, self.target, line, text)
        server.pages[page.number] = page
        while len(server.pages) > PAGES:
            server.pages.popitem(last=False)
        return page

    def token(self):
        found = re.search(r'(?:^|;)\s*session=([^;\s]*)', self.headers.get('Cookie', ''))
        return found.group(1) if found else None

    # requests for dev's own pages

    def own(self):
        dev, word = self.server.dev, self.target[len(PREFIX):].partition('?')[0]
        if self.command == 'POST':
            return self.own_form(dev, word, self.body())
        self.body()
        if self.command not in ('GET', 'HEAD'):
            return self.send_text(405, 'text/plain', 'no such form\n')
        if word == '':
            return self.send_text(200, 'text/html', dev_pages.home(dev, self.token()))
        if word == 'state':
            return self.send_text(200, 'application/json', json.dumps({'version': dev.version}))
        found = re.fullmatch(r'(labels|page)/(\d+)', word)
        page = self.server.pages.get(int(found.group(2))) if found else None
        if page is None:
            return self.send_text(404, 'text/plain', 'There is no such page of dev, or it is forgotten.\n')
        try:
            text = dev_pages.labels(dev, page)
        except dev.faults as fault:
            text = dev_pages.told(str(fault))
        return self.send_text(200, 'text/html', text if found.group(1) == 'labels' else dev_pages.alone(page, text))

    def own_form(self, dev, word, body):
        if not self.is_of_here():
            return self.send_text(403, 'text/plain', 'This form is not one of dev\'s own pages.\n')
        form = urllib.parse.parse_qs((body or b'').decode('utf-8', 'replace'), keep_blank_values=True)
        back = form.get('back', ['/'])[0]
        # only a path of this proxy, and nothing that a browser takes for the name of another host
        back = back if re.fullmatch(r'/(?![/\\])[!-~]*', back) else '/'
        if word == 'as':
            token = form.get('token', [''])[0]
            if token and token not in dict(dev_pages.sessions(dev)):
                return self.send_text(404, 'text/plain', 'The sessions file has no such token.\n')
            cookie = 'session=%s; Path=/; SameSite=Lax%s' % (token, '' if token else '; Max-Age=0')
            return self.redirect(back, [('Set-Cookie', cookie)])
        if word == 'new-store':
            dev.renew()
            return self.redirect(back)
        return self.send_text(404, 'text/plain', 'no such form\n')

    def is_of_here(self):
        origin, site = self.headers.get('Origin'), self.headers.get('Sec-Fetch-Site', 'same-origin')
        return site in ('same-origin', 'none') and (origin is None or origin == 'http://' + self.headers.get('Host',
                                                                                                             ''))


def with_bar(page, bar):
    """The page with the bar at the end of its body."""
    ends = list(re.finditer(rb'(?i)</body\s*>', page))
    at = ends[-1].start() if ends else len(page)
    return page[:at] + bar.encode() + page[at:]


class Server(http.server.ThreadingHTTPServer):
    daemon_threads = True
    request_queue_size = 128
    allow_reuse_address = True

    def handle_error(self, request, client_address):
        """Prints nothing, because a browser may close a connection at any time."""


def listen(dev, host, port):
    server = Server((host, port), Handler)
    server.dev, server.pages, server.number = dev, collections.OrderedDict(), 0
    return server
