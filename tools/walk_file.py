"""Reads walks: files of steps that test an application. docs/USING.md, "Walks", has the grammar.

`read` returns the steps of a file, each with what is expected of its reply. If a line is malformed, the file is
refused, with the number of this line."""
import difflib
import os
import re

NAME = re.compile(r'[A-Za-z][A-Za-z0-9_-]*')
FIELD = re.compile(r'[A-Za-z][A-Za-z0-9_-]*')
METHOD = re.compile(r'[A-Z]{1,15}')
ESCAPES = {'n': '\n', 'r': '\r', 't': '\t', '\\': '\\', '"': '"', '{': '{'}
OF_TEXTS = ('has', 'lacks', 'is')
OF_LABELS = ('shows', 'hides')
BEGINNINGS = ('as', 'follow', 'include', 'upgrade') + OF_TEXTS + OF_LABELS
MOST_INCLUDES = 16
MOST_NAMES = 12


class Malformed(Exception):
    """A line is malformed, or names something that the application doesn't have."""

    def __init__(self, place, words):
        super().__init__('%s:%d: %s' % (*place, words))


class Word:
    """A word of a line. Its parts are texts, and names in braces for ids, each as a list of one name."""

    def __init__(self):
        self.parts, self.quoted = [], False

    def add(self, text):
        if self.parts and isinstance(self.parts[-1], str):
            self.parts[-1] += text
        else:
            self.parts.append(text)

    def plain(self):
        """The word as a text, or None if it has quotes or names in braces."""
        return self.parts[0] if len(self.parts) == 1 and not self.quoted and isinstance(self.parts[0], str) else None

    def names(self):
        return [part[0] for part in self.parts if isinstance(part, list)]

    def text(self, ids):
        return ''.join(part if isinstance(part, str) else str(ids[part[0]]) for part in self.parts)

    def split(self, mark):
        """The text before the first mark, and the word after it. None if the word doesn't begin with a text that has
        the mark."""
        if not self.parts or not isinstance(self.parts[0], str) or mark not in self.parts[0]:
            return None
        before, _, after = self.parts[0].partition(mark)
        rest = Word()
        rest.parts, rest.quoted = ([after] if after else []) + self.parts[1:], True
        return before, rest


class Line:
    """The words of a line, which is read from left to right."""

    def __init__(self, place, text):
        self.place, self.source, self.at = place, ' '.join(text.split()), 0
        self.words, self.ends = [], True
        self.cut(text)

    def bad(self, words):
        return Malformed(self.place, words)

    def cut(self, text):
        at, word, inside = 0, None, False
        while at < len(text):
            sign = text[at]
            if not inside and sign.isspace():
                word = None
            elif not inside and sign == '#' and word is None:
                break
            elif not inside and sign == '\\' and word is None and not text[at + 1:].strip():
                self.ends = False
                break
            else:
                if word is None:
                    word = Word()
                    self.words.append(word)
                inside, at = self.put(word, text, at, inside)
            at += 1
        if inside:
            raise self.bad('a text in quotes has no end on this line; \\n in it is a line feed')

    def put(self, word, text, at, inside):
        """Adds what is at this offset to the word. Returns whether a text in quotes is open now, and the offset of the
        last character that was read."""
        if text[at] == '"':
            word.quoted = True
            word.add('')
            return not inside, at
        if inside and text[at] == '\\':
            if text[at + 1:at + 2] not in ESCAPES or at + 1 == len(text):
                raise self.bad('n, r, t, {, a quote or a backslash is expected after a backslash in quotes')
            word.add(ESCAPES[text[at + 1]])
            return inside, at + 1
        if text[at] == '{':
            found = re.compile(r'\{(%s)\}' % NAME.pattern).match(text, at)
            if not found:
                raise self.bad('a brace begins the name of a record, as {raid}; for a brace itself write "\\{"')
            word.parts.append([found.group(1)])
            return inside, found.end() - 1
        word.add(text[at])
        return inside, at

    def more(self):
        return self.at < len(self.words)

    def peek(self):
        return self.words[self.at].plain() if self.more() else None

    def take(self, what):
        if not self.more():
            raise self.bad('here the line ends, and %s is lacking' % what)
        self.at += 1
        return self.words[self.at - 1]

    def take_plain(self, what, form):
        word = self.take(what).plain()
        if word is None or not form.fullmatch(word):
            raise self.bad('%s is expected, and not %s' % (what, self.shown(self.at - 1)))
        return word

    def shown(self, at):
        word = self.words[at]
        return word.plain() or '"%s"' % ''.join(
            part if isinstance(part, str) else '{%s}' % part[0] for part in word.parts)


class Look:
    """One thing that is expected of a reply. `kind` is a word of OF_TEXTS or OF_LABELS, or `only`."""

    def __init__(self, line, kind):
        self.place, self.source, self.kind = line.place, line.source, kind
        self.texts, self.labels = [], []


class Step:
    """A request (`as`), a request for the location of the last reply (`follow`), or an `upgrade`."""

    def __init__(self, line, kind):
        self.place, self.source, self.kind = line.place, line.source, kind
        self.gives, self.who, self.method, self.target, self.fields = [], None, 'GET', None, []
        self.status = self.location = self.file = None
        self.looks = []


class Reader:
    def __init__(self, sessions):
        self.known, self.steps, self.open = set(sessions), [], []

    def file(self, path, place=None):
        if len(self.open) == MOST_INCLUDES or os.path.abspath(path) in self.open:
            raise Malformed(place, 'these files include each other without end')
        try:
            with open(path, encoding='utf-8', newline='\n') as file:
                texts = file.read().split('\n')
        except (OSError, UnicodeDecodeError) as error:
            raise Malformed(place or (path, 1), 'the walk %s cannot be read: %s' % (path, error)) from None
        self.open.append(os.path.abspath(path))
        first = len(self.steps)
        for line in lines(path, texts):
            self.line(line, first)
        self.open.pop()

    def line(self, line, first):
        word = line.peek()
        gives = self.gives(line)
        if word in OF_TEXTS + OF_LABELS and not gives:
            line.take(word)
            if len(self.steps) == first or self.steps[-1].kind == 'upgrade':
                raise line.bad('%s says what is expected of a reply, and there is no request before it' % word)
            self.steps[-1].looks.append(self.look(line, word))
        elif line.peek() == 'as':
            self.request(line, gives)
        elif word == 'follow':
            self.follow(line)
        elif word in ('include', 'upgrade'):
            self.of_file(line, word)
        else:
            raise line.bad(unknown(line))
        if line.more():
            raise line.bad('the line should end before ' + line.shown(line.at))

    @staticmethod
    def gives(line):
        """The names before `=`, one for each record that the request makes."""
        plain = [word.plain() for word in line.words]
        if '=' not in plain:
            return []
        text = ' '.join(word or '?' for word in plain[:plain.index('=')])
        names = [name.strip() for name in text.split(',')]
        for name in names:
            if not NAME.fullmatch(name) and name != '_':
                raise line.bad('names of records, with commas between them, are expected before =, and not %s'
                               % (name or 'nothing'))
        line.at = plain.index('=') + 1
        if line.peek() != 'as':
            raise line.bad('a request, which begins with as, is expected after =')
        return names

    def request(self, line, gives):
        step = Step(line, 'as')
        line.take('as')
        step.who = line.take_plain('who asks, a name or nobody', NAME)
        if step.who != 'nobody':
            self.need(line, step.who)
        step.method = line.take_plain('a method in capital letters, as GET', METHOD)
        step.target = line.take('the path')
        if not step.target.parts or not str(step.target.parts[0]).startswith('/'):
            raise line.bad('a path begins with /, and not as %s does' % line.shown(line.at - 1))
        self.need(line, *step.target.names())
        while line.more() and line.peek() != '->':
            step.fields.append(self.field(line))
        for name in gives:
            if name == 'nobody':
                raise line.bad('nobody is no name for a record')
            if name != '_' and gives.count(name) > 1:
                raise line.bad('%s is named twice' % name)
        step.gives = gives
        self.known.update(name for name in gives if name != '_')
        self.wanted(line, step)

    def field(self, line):
        pair = line.take('a field').split('=')
        if pair is None or not FIELD.fullmatch(pair[0]):
            raise line.bad('a field is NAME=VALUE, without spaces that are not in quotes; %s is none'
                           % line.shown(line.at - 1))
        self.need(line, *pair[1].names())
        return pair

    def follow(self, line):
        step = Step(line, 'follow')
        line.take('follow')
        if not self.steps or self.steps[-1].kind == 'upgrade':
            raise line.bad('there is no request before this one whose location could be asked for')
        self.wanted(line, step)

    def wanted(self, line, step):
        """Reads the end of a step, which may have `-> STATUS` and a location."""
        self.steps.append(step)
        if not line.more():
            return
        if line.take('->').plain() != '->':
            raise line.bad('-> and a status are expected, and not %s' % line.shown(line.at - 1))
        step.status = int(line.take_plain('a status of three digits', re.compile('[1-5][0-9][0-9]')))
        if line.more():
            step.location = line.take('a location')
            self.need(line, *step.location.names())

    def of_file(self, line, word):
        line.take(word)
        path = os.path.join(os.path.dirname(line.place[0]), line.take('a file').text({}))
        if word == 'include':
            self.file(path, line.place)
        else:
            step = Step(line, 'upgrade')
            step.file = path
            self.steps.append(step)

    def look(self, line, word):
        look = Look(line, word)
        if word in OF_TEXTS:
            while line.more():
                look.texts.append(line.take('a text'))
                self.need(line, *look.texts[-1].names())
                if not look.texts[-1].quoted:
                    raise line.bad('a text in quotes is expected, and not %s' % line.shown(line.at - 1))
            if not look.texts or word == 'is' and len(look.texts) > 1:
                raise line.bad('%s in quotes is expected after %s' % ('one text' if word == 'is' else 'a text', word))
            return look
        if word == 'shows' and line.peek() == 'only':
            line.take('only')
            look.kind = 'only'
        if word == 'shows' and line.peek() == 'nothing':
            line.take('nothing')
            look.kind = 'only'
            return look
        while line.more():
            look.labels.append(self.label(line))
        if not look.labels:
            raise line.bad('a record and a field, as raid.title, are expected after %s' % word)
        return look

    def label(self, line):
        """Reads the name of a record and a guarded field, or the name of a record that a group hides and ''."""
        word = line.take('a record').plain() or ''
        record, dot, field = word.partition('.')
        if not NAME.fullmatch(record) or dot and not NAME.fullmatch(field):
            raise line.bad('a label is a record and a guarded field of it, as raid.title, or the record, as raid, '
                           'where a group hides it; %s is neither' % line.shown(line.at - 1))
        self.need(line, record)
        return record, field

    def need(self, line, *names):
        for name in names:
            if name not in self.known:
                raise line.bad('nothing is called %s%s' % (name, meant(name, sorted(self.known)) or self.names_here()))

    def names_here(self):
        """The end of a message, with the names that a line may use."""
        names = sorted(self.known)
        if not names:
            return ': no line before this names a record, as in: ann = as nobody POST /join, and no session has a name'
        return '; the names here are ' + ', '.join(names[:MOST_NAMES] + ['..'] * (len(names) > MOST_NAMES))


def lines(path, texts):
    """The lines that have words. A line that ends with a backslash is continued by the next one."""
    text, start = '', None
    for number, piece in enumerate(texts, 1):
        start = start or number
        line = Line((path, start), text + ' ' + piece.rstrip('\r'))
        if line.ends:
            if line.words:
                yield line
            text, start = '', None
        else:
            text = (text + ' ' + piece.rstrip('\r')).rstrip()[:-1]
    if start:
        raise Malformed((path, start), 'the last line ends with a backslash, and nothing follows')


def meant(word, known):
    near = difflib.get_close_matches(word, known, 1)
    return ': is %s meant?' % near[0] if near else ''


def unknown(line):
    word = line.peek()
    if word and METHOD.fullmatch(word):
        return 'a request begins with who asks: as nobody %s ..' % word
    return 'a line begins with as, with names and =, with has, lacks, is, shows, hides, follow, include or upgrade, ' \
        'and not with %s%s' % (line.shown(0), meant(word or '', BEGINNINGS))


def read(path, sessions):
    """The steps of a file. The file may use the names in `sessions`."""
    reader = Reader(sessions)
    reader.file(path)
    return reader.steps
