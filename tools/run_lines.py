"""Says which word of a line in a sessions file or an events file is malformed, and what the grammar expects. This is
only for messages, because the program decides which lines it accepts. docs/USING.md, "Events" and "Sessions", has the
rules. `checks/fault_places.py` compares the rules here with those of the program."""
import difflib
import re

MANY = 2 ** 128
SESSION = 'a line is TOKEN VIEWER, as in: ann 4096'
ASK = 'ask VIEWER METHOD "PATH" "BODY"'
EVENTS = {'ask': ASK, 'open': 'open N', 'data': 'data N "BYTES"', 'end': 'end N'}
EXAMPLE = 'as in: ask 4096 POST "/join" "name=Ann"'
ESCAPE = re.compile(rb'\\(?:[nr\\"]|x[0-9a-fA-F]{2})')
TOKEN = re.compile(rb'[A-Za-z0-9_-]+')
MOST_TOKEN, MOST_METHOD = 128, 15


class Wrong(Exception):
    """What is wrong with a line: a span of bytes in the line, and a message."""

    def __init__(self, start, end, words):
        super().__init__(words)
        self.start, self.end, self.words = start, end, words


class LineFault:
    """A line that the program refuses: what the program prints, a span of bytes in the file, and a message."""

    def __init__(self, line, start, end, words):
        self.line, self.start, self.end, self.words = line, start, end, words


def text_of(data):
    return data.decode('utf-8', 'replace')


def lines_of(data):
    """The lines that aren't empty: the number, the offset and the bytes of each."""
    at = 0
    for number, line in enumerate(data.split(b'\n'), 1):
        if line:
            yield number, at, line
        at += len(line) + 1


class Line:
    """A line that is read word by word, from its beginning."""

    def __init__(self, data, form):
        self.data, self.form, self.at = data, form, 0
        if data.endswith(b'\r'):
            raise Wrong(len(data) - 1, len(data), 'the line ends with a carriage return: save the file with lines that '
                        'end with a line feed alone')
        if data.startswith(b'\xef\xbb\xbf'):
            raise Wrong(0, 3, 'the file begins with a byte order mark: save it as UTF-8 without one')
        if data.lstrip().startswith((b'#', b';', b'//')):
            raise Wrong(0, len(data), 'there are no comments')
        if data[:1] in (b' ', b'\t'):
            raise Wrong(0, len(data) - len(data.lstrip(b' \t')), 'the line begins with white space')

    def word(self, what):
        """Reads the bytes up to the next space, or to the end of the line. Returns where they begin and end."""
        if self.at >= len(self.data):
            raise Wrong(max(0, len(self.data) - 1), len(self.data), '%s is missing: %s' % (what, self.form))
        start = self.at
        space = self.data.find(b' ', start)
        end = len(self.data) if space < 0 else space
        if end == start:
            raise Wrong(start - 1, self.after_spaces(start), 'one space stands before %s, and here are more' % what)
        tab = self.data.find(b'\t', start, end)
        if tab >= 0:
            raise Wrong(tab, tab + 1, 'a tab stands here, and one space is wanted')
        self.at = end
        return start, end

    def after_spaces(self, at):
        return len(self.data) - len(self.data[at:].lstrip(b' '))

    def space(self, what):
        """Skips the one space before a part."""
        if self.at >= len(self.data):
            raise Wrong(max(0, len(self.data) - 1), len(self.data), '%s is missing: %s' % (what, self.form))
        if self.data[self.at:self.at + 1] != b' ':
            raise Wrong(self.at, self.at + 1, 'one space is wanted here, before %s' % what)
        self.at += 1

    def end(self, last):
        """Checks that the line ends after its last part."""
        if self.at < len(self.data):
            rest = self.data[self.at:]
            if not rest.strip():
                raise Wrong(self.at, len(self.data), 'the line ends with white space')
            raise Wrong(self.at, len(self.data), 'the line ends after %s: %s' % (last, self.form))

    def number(self, what, most, limit, said):
        """Reads a number below a limit. `said` is the message about a word that isn't a number."""
        start, end = self.word(what)
        word = self.data[start:end]
        if not re.fullmatch(rb'[0-9]+', word):
            raise Wrong(start, end, said % text_of(word))
        if len(word) > most or int(word) >= limit:
            raise Wrong(start, end, '%s is below 2^%d and has at most %d digits' % (
                what, limit.bit_length() - 1, most))
        return int(word)

    def viewer(self):
        if self.data[self.at:self.at + 1] == b'-' and self.data[self.at + 1:self.at + 2] in (b'', b' '):
            self.at += 1
        else:
            self.number('the viewer', 39, MANY, 'the viewer is the number of a record, or - for nobody, and not %s')

    def quoted(self, what):
        """Reads a text in quotes. Returns its bytes, and where it begins."""
        start = self.at
        if self.data[start:start + 1] == b' ':
            raise Wrong(start - 1, self.after_spaces(start), 'one space stands before %s, and here are more' % what)
        if self.data[start:start + 1] != b'"':
            end = self.data.find(b' ', start)
            raise Wrong(start, len(self.data) if end < 0 else end, '%s stands in double quotes' % what)
        at, value = start + 1, bytearray()
        while at < len(self.data) and self.data[at:at + 1] != b'"':
            found = ESCAPE.match(self.data, at)
            if self.data[at:at + 1] == b'\\' and not found:
                raise Wrong(at, min(at + 2, len(self.data)), 'after a backslash stands n, r, a backslash, a quote, or x '
                            'and two digits of base 16')
            value += unescaped(found.group()) if found else self.data[at:at + 1]
            at = found.end() if found else at + 1
        if at >= len(self.data):
            raise Wrong(start, start + 1, '%s has no second quote on this line: a line feed in it is written \\n' % what)
        self.at = at + 1
        return bytes(value), start


def unescaped(escape):
    """The byte that an escape stands for."""
    if escape[1:2] == b'x':
        return bytes([int(escape[2:], 16)])
    return {b'n': b'\n', b'r': b'\r'}.get(escape[1:2], escape[1:2])


def read_session(data):
    """Checks a line of a sessions file. Raises `Wrong` if it is malformed."""
    line = Line(data, SESSION)
    start, end = line.word('the token')
    word = data[start:end]
    found = TOKEN.match(word)
    if not found or found.end() < len(word):
        at = start + (found.end() if found else 0)
        sign = text_of(data[at:])[:1]
        between = sign in '=:,;' and found
        raise Wrong(at, at + len(sign.encode()) or at + 1, ('one space stands between the token and the viewer, and not %s'
                    if between else 'a token has letters, digits, - and _ alone, and not %s') % sign)
    if len(word) > MOST_TOKEN:
        raise Wrong(start, end, 'a token has at most %d characters, and this one has %d' % (MOST_TOKEN, len(word)))
    line.space('the viewer')
    line.viewer()
    line.end('the viewer')


def read_event(data):
    """The verb of a line of events, and the number of its connection or None. Raises `Wrong` if it is malformed."""
    line = Line(data, 'the line is ' + ASK)
    start, end = line.word('a word')
    verb = text_of(data[start:end])
    if verb not in EVENTS:
        near = difflib.get_close_matches(verb.lower(), EVENTS, 1)
        hint = '; is it %s?' % near[0] if near else ', ' + EXAMPLE
        raise Wrong(start, end, 'a line begins with ask, open, data or end, and not with %s%s' % (verb, hint))
    line.form = 'the line is ' + EVENTS[verb]
    if verb == 'ask':
        read_ask(line)
        return verb, None
    line.space('N')
    number = line.number('N', 10, 2 ** 32, 'N, which tells connections apart, is a number, and not %s')
    if verb == 'data':
        line.space('what came')
        line.quoted('what came')
    line.end('what came' if verb == 'data' else 'N')
    return verb, number


def read_ask(line):
    line.space('the viewer')
    line.viewer()
    line.space('the method')
    start, end = line.word('the method')
    method = text_of(line.data[start:end])
    if not re.fullmatch('[A-Z]+', method):
        is_small = re.fullmatch('[A-Za-z]+', method)
        raise Wrong(start, end, 'a method has capital letters alone: %s' % (
            '%s, and not %s' % (method.upper(), method) if is_small else 'GET or POST, and not ' + method))
    if len(method) > MOST_METHOD:
        raise Wrong(start, end, 'a method has at most %d letters' % MOST_METHOD)
    line.space('the path')
    path, at = line.quoted('the path')
    if not path.startswith(b'/'):
        raise Wrong(at, line.at, 'a path begins with /')
    try:
        path.decode()
    except UnicodeDecodeError:
        raise Wrong(at, line.at, 'a path is UTF-8, and these bytes are not') from None
    line.space('the body, which is "" where there is none,')
    line.quoted('the body')
    line.end('the body')


def faults_of_sessions(data):
    """The malformed lines of a sessions file."""
    for number, at, line in lines_of(data):
        try:
            read_session(line)
        except Wrong as wrong:
            yield LineFault('sessions: line %d' % number, at + wrong.start, at + wrong.end, wrong.words)


def faults_of_events(data):
    """The malformed lines of events, and the lines for a connection that isn't open, or that is open already."""
    connections = {}
    for number, at, line in lines_of(data):
        try:
            verb, connection = read_event(line)
        except Wrong as wrong:
            yield LineFault('events: line %d: no form' % number, at + wrong.start, at + wrong.end, wrong.words)
            continue
        if connection is None:
            continue
        is_open, since = connections.get(connection, (False, None))
        if is_open == (verb == 'open'):
            yield LineFault('events: line %d: connection %d is %sopen' % (number, connection, '' if is_open else 'not '),
                            at, at + len(line), state_words(connection, is_open, since))
        else:
            connections[connection] = (verb != 'end', number)


def state_words(connection, is_open, since):
    """The message about a line for a connection that is open already, or that isn't open. `since` is the number of the
    connection's last line, if it has one."""
    if is_open:
        return 'connection %d is open since line %d, and no line has ended it: write end %d before this' % (
            connection, since, connection)
    if since:
        return 'connection %d ended in line %d: write open %d before this' % (connection, since, connection)
    return 'no line has begun connection %d: write open %d before this' % (connection, connection)
