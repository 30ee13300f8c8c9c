"""Compares texts with an HTML page, both as it was sent and as a browser shows it, without tags."""
import difflib
import html
import html.parser

# tags of elements within a line; every other tag begins and ends a line
WITHIN = frozenset('a abbr b bdi bdo big cite code data del dfn em font i ins kbd label mark q s samp small span '
                   'strike strong sub sup time tt u var'.split())
UNSEEN = frozenset(('style', 'script'))
# elements that are side by side, such as the cells of a row or the options of a list
BESIDE = frozenset('td th option input button select textarea'.split())
MOST_LINES = 30


class Reading(html.parser.HTMLParser):
    """Collects the text of a page as a browser shows it."""

    def __init__(self, is_text):
        super().__init__(convert_charrefs=True)
        # how many elements are open that aren't shown, and how many in which a line feed ends a line
        self.parts, self.unseen, self.kept = [], 0, int(is_text)

    def handle_starttag(self, tag, attrs):
        self.unseen += tag in UNSEEN
        self.kept += tag == 'pre'
        self.cut(tag)

    def handle_endtag(self, tag):
        self.unseen -= tag in UNSEEN and self.unseen > 0
        self.kept -= tag == 'pre' and self.kept > 0
        self.cut(tag)

    def cut(self, tag):
        if tag not in WITHIN:
            self.parts.append(' ' if tag in BESIDE else '\n')

    def handle_data(self, data):
        if not self.unseen:
            self.parts.append(data if self.kept else data.replace('\n', ' '))


def lines(body):
    """The lines of a page as a browser shows it. A page without tags is plain text."""
    reading = Reading('<' not in body)
    reading.feed(body)
    reading.close()
    found = (' '.join(line.split()) for line in ''.join(reading.parts).split('\n'))
    return [line for line in found if line]


def readings(body):
    """The page in the three ways in which a text is looked for: as it was sent, with its escapes decoded, and as a
    browser shows it, with one space for each run of white space."""
    return body, html.unescape(body), ' '.join(lines(body))


def stands(body, text):
    as_read = ' '.join(text.split())
    sent, unescaped, read = readings(body)
    return text in sent or text in unescaped or bool(as_read) and as_read in read


def shortened(found):
    if len(found) <= MOST_LINES:
        return found
    return found[:MOST_LINES] + ['  .. and %d lines more' % (len(found) - MOST_LINES)]


def wrong(body, kind, texts):
    """What is wrong with a page, as lines of a diff, or None. `-` is what was expected, and `+` is what is there."""
    if kind == 'is':
        if body == texts[0]:
            return None
        return [line.rstrip('\n') for line in difflib.ndiff(texts[0].split('\n'), body.split('\n'))
                if not line.startswith('?')]
    found = []
    for text in texts:
        if kind == 'has' and not stands(body, text):
            found += lacking(body, text)
        if kind == 'lacks' and stands(body, text):
            found += standing(body, text)
    return found or None


def lacking(body, text):
    """The page as a browser shows it, with the missing text before the most similar line, or before the page."""
    page = lines(body)
    near = difflib.get_close_matches(text, page, 1, 0.3)
    at = page.index(near[0]) if near else 0
    start = max(0, at - MOST_LINES // 2)
    before = ['  ' + line for line in page[start:at]]
    after = [('+ ' if near and number == 0 else '  ') + line for number, line in enumerate(page[at:])]
    return (['  ..'] if start else []) + before + ['- ' + text] + (shortened(after) or ['+ the page is empty'])


def standing(body, text):
    """The lines of the page that have the text, as a browser shows them, or else as they were sent."""
    as_read = ' '.join(text.split())
    found = [line for line in lines(body) if as_read and as_read in line]
    found = found or [line for line in body.split('\n') if text in line or text in html.unescape(line)]
    return ['- no ' + text] + shortened(['+ ' + line for line in found or [' '.join(lines(body))[:400]]])
