"""Finds where in an HTML page a value is put. It knows enough HTML to say where escaping doesn't protect the page."""
import re

ADDRESSES = {'href', 'src', 'action', 'formaction', 'data', 'poster', 'cite', 'background', 'manifest', 'ping',
             'srcset', 'xlink:href'}
RAW = {'script', 'style'}
NAME = re.compile(r'[A-Za-z][A-Za-z0-9:-]*')
SPACE = ' \t\r\n\f'
# The beginning of an address with a known site and scheme, and of one that is a script.
KNOWN = re.compile(r'(?:/[^/\\]|[?#]|\.{1,2}/|(?:https?:)?//[^/?#]+[/?#]|(?:mailto|tel|sms):|[^:/?#\\]+[/?#])', re.I)
SCRIPT = re.compile(r'(?:javascript|vbscript):|data:text/html', re.I)
REFRESH = re.compile(r'.*\burl\s*=\s*[\'"]?', re.I | re.S)
# Stands for a value about which nothing is known.
VALUE = '0'


class Markup:
    """The state after some text of a page: between tags, in a tag, in an attribute's value, or in a script. `said` is
    the attribute's value so far."""

    def __init__(self, mode='text', tag='', attribute='', said=''):
        self.mode, self.tag, self.attribute, self.said = mode, tag, attribute, said

    def state(self):
        """A tuple that is the same for equal states."""
        return self.mode, self.tag, self.attribute, self.said

    def after(self, text):
        """The state after literal text of the page, or after a value if `text` is None."""
        next_one = Markup(*self.state())
        if text is None:
            next_one.put_value()
        else:
            next_one.feed(text)
        return next_one

    def feed(self, text):
        """Changes the state by literal text of the page."""
        at = 0
        while at < len(text):
            at = getattr(self, 'in_' + self.mode)(text, at)

    def put_value(self):
        """Changes the state by a value about which nothing is known."""
        if self.mode == 'before':
            self.mode = 'unquoted'
        if self.mode in ('unquoted', 'single', 'double'):
            self.said = (self.said + VALUE)[:80]

    def danger(self):
        """Why escaping doesn't protect a text that is put here, or None if it does."""
        if self.mode in ('before', 'unquoted'):
            return 'the value of the attribute %s has no quotes, so a space in the text ends it and begins another ' \
                'attribute' % self.attribute
        if self.mode == 'tag':
            return 'it is inside a tag and outside of an attribute\'s value, so the text may be an attribute of its own'
        if self.mode == 'raw':
            return 'it is inside of <%s>, where HTML reads no escape' % self.tag
        return self.danger_of_value() if self.mode in ('single', 'double') else None

    def danger_of_value(self):
        """The same for an attribute's value in quotes."""
        if self.attribute.startswith('on') or self.attribute == 'style':
            return 'the value of %s is read as %s after its escapes were read' % (
                self.attribute, 'a style' if self.attribute == 'style' else 'a script')
        if self.attribute == 'srcdoc':
            return 'the value of srcdoc is read as a page after its escapes were read'
        said, refresh = self.said, REFRESH.match(self.said)
        is_refresh = self.tag == 'meta' and self.attribute == 'content' and refresh
        if self.attribute in ADDRESSES or is_refresh:
            begun = (said[refresh.end():] if is_refresh else said).strip()
            if SCRIPT.match(begun):
                return 'the address in %s is read as a script after its escapes were read' % self.attribute
            if not KNOWN.match(begun):
                return 'the address in %s begins with the text, or with no more than a slash before it, so it may be ' \
                    'that of another site, or a script by javascript:' % self.attribute
        return None

    # Each mode reads from an offset in the text, and returns the offset after what it read.

    def in_text(self, text, at):
        begin = text.find('<', at)
        if begin < 0:
            return len(text)
        if text.startswith('<!--', begin):
            self.mode = 'comment'
            return begin + 4
        found = NAME.match(text, begin + 1)
        if found or text.startswith(('</', '<!'), begin):
            self.mode, self.tag = 'tag', found.group().lower() if found else ''
            return found.end() if found else begin + 2
        return begin + 1

    def in_comment(self, text, at):
        end = text.find('-->', at)
        self.mode = 'comment' if end < 0 else 'text'
        return len(text) if end < 0 else end + 3

    def in_raw(self, text, at):
        end = text.lower().find('</' + self.tag, at)
        if end < 0:
            return len(text)
        self.mode, tag = 'tag', self.tag
        self.tag = ''
        return end + 2 + len(tag)

    def in_tag(self, text, at):
        if text[at] == '>':
            self.mode = 'raw' if self.tag in RAW else 'text'
            self.tag, self.attribute, self.said = self.tag if self.mode == 'raw' else '', '', ''
            return at + 1
        found = NAME.match(text, at)
        if found:
            self.attribute, self.said = found.group().lower(), ''
            return found.end()
        if text[at] == '=':
            self.mode, self.said = 'before', ''
        return at + 1

    def in_before(self, text, at):
        if text[at] in SPACE:
            return at + 1
        if text[at] in '\'"':
            self.mode = 'single' if text[at] == "'" else 'double'
            return at + 1
        self.mode = 'unquoted'
        return at

    def in_unquoted(self, text, at):
        if text[at] in SPACE or text[at] == '>':
            self.mode, self.attribute, self.said = 'tag', '', ''
            return at
        self.said = (self.said + text[at])[:80]
        return at + 1

    def in_quoted(self, text, at, quote):
        end = text.find(quote, at)
        if end < 0:
            self.said = (self.said + text[at:])[:80]
            return len(text)
        self.mode, self.attribute, self.said = 'tag', '', ''
        return end + 1

    def in_single(self, text, at):
        return self.in_quoted(text, at, "'")

    def in_double(self, text, at):
        return self.in_quoted(text, at, '"')
