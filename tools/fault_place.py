#!/usr/bin/env python3
"""Shows the place of the fault for which the program refused an application.

Arguments: `--status N` if the run's exit status is known, then the program and the arguments of its command. This
script runs the program's `check`, and reads the same text itself. If both find the same fault, standard error shows the
file, the line and the column, the text with a mark under it, what was expected, and what is there. If they don't agree,
nothing is shown. If the application is a folder, the place is in a part of it.

The same is done for lines of the sessions and of the events, for the arguments of the command, and for a store that
belongs to another application or is refused. The script changes nothing. The program alone decides the line that it
prints, its exit status and what is stored."""
import itertools
import os
import re
import subprocess
import sys
import tempfile
import unicodedata

sys.dont_write_bytecode = True
sys.path.insert(0, os.path.dirname(os.path.abspath(__file__)))
import assemble                                                             # noqa: E402
import commands                                                             # noqa: E402
import meanings                                                             # noqa: E402
import run_lines                                                            # noqa: E402

LIMIT = 1048576
EXPRESSIONS = ['get', 'live', 'add', 'sub', 'mul', 'eq', 'lt', 'and', 'or', 'not', 'cat', 'str', 'pick', 'count', 'sum',
               'some', 'first', 'none']
STATEMENTS = ['put', 'esc', 'let', 'assign', 'if', 'for', 'create', 'update', 'delete', 'missing', 'redirect', 'template']
SHAPES = {
    'none': '(none MODEL)', 'get': '(get MODEL FIELD reference)', 'live': '(live reference)', 'not': '(not truth)',
    'str': '(str value)', 'pick': '(pick truth value value)', 'count': '(count query)', 'sum': '(sum query number)',
    'some': '(some query)', 'first': '(first query)', 'cat': '(cat text ..)',
    'put': '(put value)', 'esc': '(esc value)', 'let': '(let NAME value statement ..)', 'assign': '(assign NAME value)',
    'if': '(if truth (statement ..) (statement ..))', 'for': '(for query statement ..)',
    'create': '(create NAME MODEL (set (FIELD value) ..) statement ..)',
    'update': '(update MODEL reference (set (FIELD value) ..))', 'delete': '(delete MODEL reference)',
    'missing': '(missing)', 'redirect': '(redirect text)', 'template': '(template "..")',
}
SHAPES.update({word: '(%s a b)' % word for word in ('add', 'sub', 'mul', 'eq', 'lt', 'and', 'or')})
OPERANDS = {'none': 1, 'get': 3, 'live': 1, 'not': 1, 'str': 1, 'pick': 3, 'count': 1, 'sum': 2, 'some': 1, 'first': 1,
            'put': 1, 'esc': 1, 'assign': 2, 'if': 3, 'update': 3, 'delete': 2, 'missing': 0, 'redirect': 1, 'template': 1}
OPERANDS.update({word: 2 for word in ('add', 'sub', 'mul', 'eq', 'lt', 'and', 'or')})
NUMBERS = ['no', 'one', 'two', 'three', 'four', 'five', 'six', 'seven', 'eight', 'nine', 'ten']
WANTED = {
    'app': 'an application: (app (viewer MODEL) model .. view ..), in this order',
    'item': 'a model or a view: (model NAME (fields ..) (group ..) ..), with nested behind the NAME of a model whose '
            'records are created in a for, or (view get "/path" (params ..) statement ..)',
    'name': 'a name: up to 64 letters, digits, _ and -, of which the first is a letter, and none of '
            'this, viewer, true, false',
    'fields': 'the fields: (fields (NAME kind) ..)',
    'field': 'a field: (NAME kind)',
    'kind': 'a kind: int, text, bool or (ref MODEL)',
    'group': 'a group: (group (guards (FIELD public-value) ..) (policy truth)), or (group hides (policy truth))',
    'guard': 'a guarded field and its public value: (FIELD value)',
    'policy': 'a policy: (policy truth)',
    'method': 'a method: get or post, in small letters',
    'path': 'a path in quotes: "/", or segments each behind a /, of letters, digits, - _ . ~, or a whole {NAME}',
    'params': 'the parameters: (params (NAME kind) ..)',
    'param': 'a parameter: (NAME kind)',
    'statement': 'a statement',
    'set': 'the fields that are set: (set (FIELD value) ..)',
    'cell': 'a field and its value: (FIELD value)',
    'body': 'a list of statements: ((put ..) ..), or () for none',
    'query': 'a query: (from ((NAME MODEL) ..) truth order)',
    'binder': 'a name and its model: (NAME MODEL)',
    'order': 'an order: key, (up NAME FIELD) or (down NAME FIELD)',
    'expression': 'an expression',
}


class Fault(Exception):
    """A fault: the line that the program prints, the span of bytes in the file, and a message with notes."""

    def __init__(self, line, start, end, words, notes=()):
        super().__init__(line)
        self.line, self.start, self.end, self.words, self.notes = line, start, end, words, list(notes)


class TreeFault(Exception):
    def __init__(self, what, at, words, start=None, end=None, notes=()):
        super().__init__(what)
        self.what, self.at, self.words, self.notes = what, at, words, list(notes)
        self.start = at if start is None else start
        self.end = self.start + 1 if end is None else end


class FormFault(Exception):
    """A tree isn't what was expected. `path` leads to it from the tree where the reading began."""

    def __init__(self, node, path, want, words=None):
        super().__init__(want)
        self.node, self.path, self.want, self.words = node, path, want, words


class CheckFault(Exception):
    def __init__(self, node, cause, words=None, notes=()):
        super().__init__(cause)
        self.node, self.cause, self.words, self.notes = node, cause, words, notes


class Node:
    """A tree and its place: `start` and `end` are offsets in the file. `places` has the offsets of a text's bytes."""

    def __init__(self, kind, start, end, value=None, children=(), places=None):
        self.kind, self.start, self.end, self.value = kind, start, end, value
        self.children, self.places = list(children), places

    def is_atom(self, word=None):
        return self.kind == 'atom' and (word is None or self.value == word)

    def head(self):
        if self.kind == 'list' and self.children and self.children[0].kind == 'atom':
            return self.children[0].value
        return None


ATOM = re.compile(rb'[A-Za-z0-9_-]+')
WHITE = b' \t\r\n'
ESCAPES = {ord('n'): 10, ord('r'): 13, ord('t'): 9, ord('\\'): 92, ord('"'): 34}


def valid_length(data):
    try:
        data.decode('utf-8')
        return len(data)
    except UnicodeDecodeError as fault:
        return fault.start


def read_tree(data, places):
    """Parses bytes into a tree. `places[i]` is the offset of byte i in the file. The last one is that of the end."""
    if len(data) > LIMIT:
        raise TreeFault('long', 0, 'the text has more than %d bytes' % LIMIT)
    valid = valid_length(data)
    if valid < len(data):
        raise TreeFault('not UTF-8', valid, 'these bytes are not UTF-8: save the file in that encoding')
    at, open_lists, done, texts = 0, [], None, []
    size = len(data)
    while at < size:
        byte = data[at]
        if byte in WHITE:
            at += 1
            continue
        if done is not None:
            raise ended_early(data, at, done, texts)
        if byte == ord('('):
            if len(open_lists) == 64:
                raise TreeFault('deep', at, 'this is a list inside 64 lists, and 64 is the most')
            open_lists.append(Node('list', at, None))
            at += 1
        elif byte == ord(')'):
            if not open_lists:
                raise TreeFault('stray', at, 'this closing bracket has no opening one')
            node = open_lists.pop()
            node.end = at + 1
            at += 1
            if open_lists:
                open_lists[-1].children.append(node)
            else:
                done = node
        elif byte == ord('"'):
            node, at = read_text(data, at, open_lists, texts)
            texts.append(node)
            if open_lists:
                open_lists[-1].children.append(node)
            else:
                done = node
        else:
            found = ATOM.match(data, at)
            if not found:
                raise TreeFault('stray', at, 'the character %s may not stand here%s' % (
                    shown(data, at), quote_hint(data, at, texts)), end=at + character_length(data, at),
                    notes=text_notes(texts))
            node = Node('atom', at, found.end(), found.group().decode())
            at = found.end()
            if open_lists:
                open_lists[-1].children.append(node)
            else:
                done = node
    if done is None:
        raise unclosed(data, open_lists)
    return moved(done, places)


def character_length(data, at):
    return len(data[at:at + 4].decode('utf-8', 'ignore')[:1].encode()) or 1


def shown(data, at):
    return data[at:at + 4].decode('utf-8', 'ignore')[:1] or '?'


def quote_hint(data, at, texts):
    if data[at] == ord("'"):
        return ': texts stand in double quotes (within a text they are written \\")'
    if data[at] == ord(';'):
        return ': there are no comments'
    if texts and texts[-1].end == at:
        return ', right behind a text: is a quote inside of it written \\" ?'
    return ''


def text_notes(texts):
    if texts and b'\n' in texts[-1].raw:
        return [(texts[-1].start, 'the last text before it began here, and goes over more than one line')]
    return []


def read_text(data, start, open_lists, texts):
    at, value, places = start + 1, bytearray(), []
    while at < len(data):
        byte = data[at]
        if byte == ord('"'):
            places.append(at)
            node = Node('text', start, at + 1, bytes(value), (), places)
            node.raw = data[start:at + 1]
            return node, at + 1
        if byte == ord('\\'):
            if at + 1 == len(data):
                break
            if data[at + 1] not in ESCAPES:
                raise TreeFault('stray', at + 1, 'behind a backslash in a text stands n, r, t, \\ or "',
                                end=at + 1 + character_length(data, at + 1))
            places.append(at)
            value.append(ESCAPES[data[at + 1]])
            at += 2
        else:
            places.append(at)
            value.append(byte)
            at += 1
    raise TreeFault('unclosed', len(data), 'this text is never closed: its second quote is missing', start, start + 1,
                    notes=text_notes(texts))


def column_of(data, at):
    return at - (data.rfind(b'\n', 0, at) + 1)


def unclosed(data, open_lists):
    if not open_lists:
        return TreeFault('unclosed', len(data), 'there is nothing but white space: an application is (app ..)')
    guess = never_closed(data, open_lists)
    words = 'a bracket is missing: as the lines are laid out, the one that opens here is never closed'
    return TreeFault('unclosed', len(data), words, guess, guess + 1)


def never_closed(data, open_lists):
    """The offset of the list that probably lacks its closing bracket. By the layout, that is the first list with a
    child that begins a line and is indented no further than the list. If the layout doesn't show it, it is the
    innermost list that is open at the end."""
    inside = {id(node): below for node, below in zip(open_lists, open_lists[1:])}
    found, left = [], [open_lists[0]]
    while left:
        node = left.pop()
        children = node.children + ([inside[id(node)]] if id(node) in inside else [])
        own = [child for child in children if begins_its_line(data, child.start) and data.rfind(b'\n', 0, child.start) > node.start]
        back = [child for child in own if column_of(data, child.start) <= column_of(data, node.start)]
        if back and not (node is open_lists[0] and back[0] is own[0]):
            found.append((back[0].start, node.start))
        left += [child for child in children if child.kind == 'list']
    return min(found)[1] if found else open_lists[-1].start


def begins_its_line(data, at):
    return not data[data.rfind(b'\n', 0, at) + 1:at].strip()


def ended_early(data, at, done, texts):
    """The fault if something follows the bracket that closes the first list: there is a bracket too many before it."""
    early = closed_early(data, done)
    if early is not None:
        return TreeFault('stray', at,
                         'this bracket seems to be one too many: what follows it belongs inside of the list that it '
                         'closes', early, early + 1, text_notes(texts))
    if data[at] == ord(')') or done.head() != 'app':
        what = 'this closing bracket has no opening one' if data[at] == ord(')') else \
            'something follows the list that ended before'
        return TreeFault('stray', at, what, notes=[(done.start, 'the list that ended begins here')] + text_notes(texts))
    last = done.children[-1]
    return TreeFault('stray', at,
                     'this bracket closes the application, and something follows it: the item before, that of line '
                     '%d, has a bracket too many' % line_and_column(data, last.start)[0], done.end - 1, done.end,
                     [(at, 'this follows')] + text_notes(texts))


def closed_early(data, done):
    """The offset of the bracket that probably is one too many, or None. It is the bracket before the first child of the
    application that isn't an item, or else before the first child that begins a line and is indented further than the
    first such child of its list."""
    found, left = [], [done]
    for before, child in zip(done.children[1:], done.children[2:]):
        is_item = child.head() in ('model', 'view', 'viewer')
        if done.head() == 'app' and before.head() in ('model', 'view') and not is_item:
            return before.end - 1
    while left:
        node = left.pop()
        own = [place for place, child in enumerate(node.children) if begins_its_line(data, child.start)]
        for place in own[1:]:
            before = node.children[place - 1]
            column, first = (column_of(data, node.children[one].start) for one in (place, own[0]))
            if before.kind == 'list' and column > first:
                found.append(before.end - 1)
                break
        left += [child for child in node.children if child.kind == 'list']
    return min(found, default=None)


def moved(node, places):
    """The same tree, with offsets in the file in place of offsets in the bytes."""
    left = [node]
    while left:
        one = left.pop()
        one.start, one.end = places[one.start], places[one.end - 1] + 1
        if one.places is not None:
            one.places = [places[place] for place in one.places]
        left += one.children
    return node


# The parts of models and of groups. The atom `nested` may follow the name of a model.

def is_nested(model):
    return model.children[2].is_atom('nested')


def fields_in(model):
    return model.children[3 if is_nested(model) else 2]


def groups_in(model):
    return model.children[4 if is_nested(model) else 3:]


def hides(group):
    return group.children[1].is_atom('hides')


def guards_in(group):
    return [] if hides(group) else group.children[1].children[1:]


# Forms. Each reader gets a tree and its path, and raises the first fault in reading order.

def is_name(node):
    return node.kind == 'atom' and re.fullmatch(r'[A-Za-z][A-Za-z0-9_-]{0,63}', node.value) is not None and \
        node.value not in ('this', 'viewer', 'true', 'false')


def need_name(node, path):
    if not is_name(node):
        raise FormFault(node, path, 'name')


def read_expression(node, path):
    if node.kind == 'text':
        return
    if node.kind == 'atom':
        if node.value in ('true', 'false', 'this', 'viewer') or is_name(node):
            return
        if re.fullmatch(r'-?[0-9]+', node.value) and -2 ** 63 <= int(node.value) < 2 ** 63:
            return
        raise FormFault(node, path, 'expression')
    word = node.head()
    operands = node.children[1:]
    if word not in EXPRESSIONS or (word == 'cat' and not operands) or (word != 'cat' and len(operands) != OPERANDS[word]):
        raise FormFault(node, path, 'expression')
    if word == 'none':
        return need_name(operands[0], path + [1])
    if word == 'get':
        need_name(operands[0], path + [1])
        need_name(operands[1], path + [2])
        return read_expression(operands[2], path + [3])
    first = 1
    if word in ('count', 'sum', 'some', 'first'):
        read_query(operands[0], path + [1], word in ('count', 'sum'))
        first = 2
    for number, operand in enumerate(operands[first - 1:], first):
        read_expression(operand, path + [number])


def read_query(node, path, single=False):
    if node.head() != 'from' or len(node.children) != 4:
        raise FormFault(node, path, 'query')
    binders, condition, order = node.children[1:]
    if binders.kind != 'list' or not binders.children or (single and len(binders.children) > 1):
        raise FormFault(node, path, 'query')
    if len(binders.children) > 3:
        raise FormFault(binders, path + [1], 'too many binders')
    for number, binder in enumerate(binders.children):
        here = path + [1, number]
        if binder.kind != 'list' or len(binder.children) != 2:
            raise FormFault(binder, here, 'binder')
        need_name(binder.children[0], here + [0])
        need_name(binder.children[1], here + [1])
    read_expression(condition, path + [2])
    if order.is_atom('key'):
        return
    if order.head() not in ('up', 'down') or len(order.children) != 3:
        raise FormFault(order, path + [3], 'order')
    need_name(order.children[1], path + [3, 1])
    need_name(order.children[2], path + [3, 2])


def at_path(node, path):
    for number in path:
        if node.kind != 'list' or number >= len(node.children):
            return None
        node = node.children[number]
    return node


# Templates.

class Tag:
    def __init__(self, kind, at, start, end):
        self.kind, self.at, self.start, self.end = kind, at, start, end


def tags_of(text):
    """The tags of a text. A tag begins with `{{` or `{%`, and ends with the next `}}` or `%}` outside of quotes."""
    at = 0
    while True:
        found = re.compile(rb'\{\{|\{%').search(text, at)
        if not found:
            return
        begin, closing = found.start(), (b'}}' if found.group() == b'{{' else b'%}')
        place, quoted = begin + 2, False
        while place < len(text):
            if quoted and text[place] == ord('\\'):
                place += 2
                continue
            if text[place] == ord('"'):
                quoted = not quoted
            elif not quoted and text.startswith(closing, place):
                break
            place += 1
        if place >= len(text):
            yield Tag('endless', begin, begin + 2, len(text))
            return
        yield Tag('output' if closing == b'}}' else 'control', begin, begin + 2, place)
        at = place + 2


def template_fault(node):
    """The first fault of a template's text, or None: its kind, the tag's offset in the text, the start and the end of a
    span in the file, a message, and notes."""
    text, places = node.value, node.places
    open_blocks, last = [], None

    def here(at):
        return places[min(at, len(places) - 1)]

    for tag in tags_of(text):
        start, end = here(tag.at), here(tag.end + 1) + 1
        if tag.kind == 'endless':
            closing = '}}' if text[tag.at + 1] == ord('{') else '%}'
            return ('unclosed', tag.at, here(tag.at), here(tag.at) + 2,
                    'this tag has no end: no %s follows outside of a quoted text' % closing, [])
        try:
            tree = read_tree(text[tag.start:tag.end], places[tag.start:tag.end + 1])
        except TreeFault as fault:
            hint = bare_words(text[tag.start:tag.end], tag.kind)
            if hint and fault.what == 'stray':
                inside = text[tag.start:tag.end]
                first = tag.start + len(inside) - len(inside.lstrip())
                return ('tree', tag.at, here(first), here(tag.start + len(inside.rstrip()) - 1) + 1, hint, [])
            # the fault is in the tag's content, or at the tag's end if the content ends too early
            spot = here(tag.start + fault.start)
            return ('tree', tag.at, spot, spot + 1,
                    'what stands in the tag is no tree: ' + in_tag(fault, text, tag), [(start, 'the tag begins here')])
        word = tree.head()
        if tag.kind == 'output':
            reader, operand, path = read_expression, tree, None
        else:
            if tree.kind == 'atom' and tree.value in ('else', 'end'):
                if not open_blocks:
                    return ('stray', tag.at, start, end, 'there is no open block for this %s' % tree.value, [])
                if tree.value == 'else':
                    block = open_blocks[-1]
                    if block[0] != 'if' or block[3]:
                        why = 'an if has one else' if block[0] == 'if' else 'the open block is a %s, which has no else' % block[0]
                        return ('stray', tag.at, start, end, why, [(block[1], 'the open block begins here')])
                    open_blocks[-1] = block[:3] + (True,)
                else:
                    open_blocks.pop()
                continue
            shapes = {'put': 2, 'if': 2, 'for': 2, 'let': 3}
            if word not in shapes or len(tree.children) != shapes[word] or (word == 'let' and not is_name(tree.children[1])):
                return ('stray', tag.at, start, end, bare_words(text[tag.start:tag.end], 'control') or
                        'this is no tag: between {% and %} stands (put e), (let NAME e), (if e), (for q), else or end', [])
            operand = tree.children[-1]
            reader = read_query if word == 'for' else read_expression
        try:
            reader(operand, [])
        except FormFault as fault:
            return ('form', tag.at, fault.node.start, fault.node.end, form_words(fault), [(start, 'the tag begins here')])
        if tag.kind == 'control' and word in ('if', 'for', 'let'):
            if len(open_blocks) == 64:
                return ('deep', tag.at, start, end, 'this is a block inside 64 blocks, and 64 is the most', [])
            open_blocks.append((word, start, tag.at, False))
    if open_blocks:
        word, start, at, _ = open_blocks[-1]
        return ('unclosed', at, start, start + 2, 'this %s has no {%% end %%}' % word, [])
    return None


FORMS_OF_TAGS = {
    'if': '{% (if truth) %}', 'for': '{% (for (from ((NAME MODEL)) true key)) %}', 'let': '{% (let NAME e) %}',
    'set': '{% (let NAME e) %} .. {% end %}', 'put': '{% (put e) %}',
    'elif': '{% else %}{% (if truth) %} .. {% end %}{% end %}',
    'elsif': '{% else %}{% (if truth) %} .. {% end %}{% end %}',
    'elseif': '{% else %}{% (if truth) %} .. {% end %}{% end %}',
    'endif': '{% end %}', 'endfor': '{% end %}', 'endlet': '{% end %}',
}


def bare_words(inside, kind):
    """A message about a tag that is written as in other template languages, without brackets; or None."""
    words = inside.decode('utf-8', 'replace').split()
    if not words or words[0].startswith(('(', "'", '"')) or "'" in words[0]:
        return None
    if kind == 'output':
        field = re.match(r'([A-Za-z][\w-]*)\.([A-Za-z][\w-]*)', words[0])
        form = '{{ (get MODEL %s %s) }}' % (field.group(2), field.group(1)) if field else '{{ (get MODEL FIELD NAME) }}'
        more = ', and there are no filters' if '|' in inside.decode('utf-8', 'replace') else ''
        return 'a tag holds one form in brackets, or one word: %s%s' % (form, more)
    word = 'elif' if words[:2] == ['else', 'if'] else words[0]
    if word in FORMS_OF_TAGS:
        one = 'each block ends alike' if word.startswith('end') else 'a tag holds one form in brackets'
        return '%s: %s' % (one, FORMS_OF_TAGS[word])
    return None


def in_tag(fault, text, tag):
    if fault.what == 'unclosed' and not text[tag.start:tag.end].strip():
        return 'it is empty'
    if b"'" in text[tag.start:tag.end] and fault.what == 'stray' and text[tag.start + fault.at] == ord("'"):
        return 'texts stand in double quotes, which a template writes \\"'
    return fault.words


# Messages.

def counted(number, word):
    return '%s %s%s' % (NUMBERS[number] if number < len(NUMBERS) else number, word, '' if number == 1 else 's')


def what_stands(node):
    if node.kind == 'text':
        return 'a text'
    if node.kind == 'atom':
        return 'the word %s' % node.value
    if not node.children:
        return 'an empty list'
    word = node.head()
    return 'a list that begins with %s' % (word if word else what_stands(node.children[0]))


def form_words(fault):
    if fault.words:
        return fault.words
    node, want = fault.node, fault.want
    known = {'expression': EXPRESSIONS, 'statement': STATEMENTS}.get(want)
    if known and node.kind == 'list':
        word = node.head()
        if word in known:
            return shape_words(word, node)
        if word is None:
            return '%s begins with its word; here is %s' % (WANTED[want], what_stands(node))
        other = STATEMENTS if want == 'expression' else EXPRESSIONS
        where = ', which is a form of %s' % ('statements' if want == 'expression' else 'expressions') if word in other else ''
        close = meanings.meant(word, getattr(meanings, want.upper() + 'S'))
        close = close or (None if where else nearest(word, known, 0.75))
        guess = '; is it %s?' % close if close else ''
        return 'there is no %s %s%s%s; the forms of %s are %s' % (
            want, word, where, guess, WANTED[want], ' '.join(known))
    if want == 'expression' and node.kind == 'atom':
        if re.fullmatch(r'-?[0-9]+', node.value):
            return 'a number has 64 bits: it lies between -9223372036854775808 and 9223372036854775807'
        return '%s is no name and no number: %s' % (node.value, WANTED['name'])
    if want == 'query' and node.head() == 'from':
        if len(node.children) != 4:
            return 'a query has three parts, (from ((NAME MODEL) ..) truth order); here are %s' % counted(
                len(node.children) - 1, 'part')
        binders = node.children[1]
        if binders.kind == 'list' and len(binders.children) > 1:
            return 'the query of a count or a sum has one binder; here are %s' % counted(len(binders.children), 'binder')
        return 'the binders of a query are a list of lists, as ((e Event))'
    if want == 'kind':
        word = node.head() if node.kind == 'list' else node.value if node.kind == 'atom' else ''
        close = meanings.meant(word or '', meanings.KINDS)
        return 'expected %s; here is %s%s' % (WANTED[want], what_stands(node), '; is it %s?' % close if close else '')
    if want == 'name' and node.kind == 'list' and node.children:
        return '%s; here is a list' % WANTED[want]
    return 'expected %s; here is %s' % (WANTED[want], what_stands(node))


def shape_words(word, node):
    have = len(node.children) - 1
    if word in OPERANDS and have != OPERANDS[word]:
        return '%s takes %s, %s; here are %s' % (
            word, counted(OPERANDS[word], 'operand'), SHAPES[word], counted(have, 'operand'))
    return 'expected %s' % SHAPES[word]


def nearest(word, words, least=0.6):
    import difflib
    found = difflib.get_close_matches(word, words, 1, least)
    return found[0] if found else None


# The checker finds the first fault of names and kinds, in the same order as the program.

def kind_text(kind):
    return 'ref ' + kind[1] if isinstance(kind, tuple) else kind


class Scope:
    def __init__(self, names, this=None, public=False):
        self.names, self.this, self.public = names, this, public

    def with_names(self, names):
        return Scope(self.names + names, self.this, self.public)

    def look_up(self, name):
        for other, kind, by_let in reversed(self.names):
            if other == name:
                return kind, by_let
        return None


class Checker:
    def __init__(self, tree):
        items = tree.children[1:]
        self.viewer = None
        if items and items[0].head() == 'viewer':
            self.viewer = items[0].children[1]
            items = items[1:]
        self.models = [item for item in items if item.head() == 'model']
        self.views = [item for item in items if item.head() == 'view']
        self.names = {model.children[1].value for model in self.models}
        self.fields, self.nested = {}, {}
        for model in self.models:
            name = model.children[1].value
            if name not in self.fields:
                self.fields[name] = self.fields_of(fields_in(model).children[1:])
                self.nested[name] = is_nested(model)

    def fields_of(self, nodes):
        kinds = {}
        for node in nodes:
            kind = node.children[1]
            kinds.setdefault(node.children[0].value, kind.value if kind.kind == 'atom' else self.reference(kind.children[1]))
        return kinds

    def reference(self, name):
        """The kind of a reference. References to unknown models all have the same kind, in which no model is named."""
        return ('ref', name.value if name.value in self.names else '')

    def check(self):
        """Raises the first fault, if there is one."""
        if self.viewer is not None:
            self.placed('viewer', self.known_model, self.viewer)
        for place, model in enumerate(self.models):
            self.placed('model ' + model.children[1].value, self.model, place, model)
        for number, view in enumerate(self.views):
            self.placed('view %d' % number, self.view, view)

    @staticmethod
    def placed(place, test, *words):
        try:
            test(*words)
        except CheckFault as fault:
            raise Fault('app: %s: %s' % (place, fault.cause), fault.node.start, fault.node.end,
                        fault.words or '', fault.notes) from None

    # names

    def known_model(self, node):
        if node.value not in self.fields:
            self.unknown(node, self.fields, 'there is no model')

    def known_field(self, model, node):
        if node.value not in self.fields[model]:
            self.unknown(node, self.fields[model], model + ' has no field')

    @staticmethod
    def unknown(node, known, words):
        close = nearest(node.value, list(known))
        have = ', '.join(known) if known else 'none'
        raise CheckFault(node, 'unknown name ' + node.value, '%s %s%s; there is %s' % (
            words, node.value, '; is it %s?' % close if close else '', have))

    @staticmethod
    def twice(node, what, before=None):
        raise CheckFault(node, node.value + ' named twice', 'this %s has that name already' % what)

    # models and views

    def model(self, place, model):
        name, fields, groups = model.children[1], fields_in(model), groups_in(model)
        if any(other.children[1].value == name.value for other in self.models[:place]):
            self.twice(name, 'application')
        self.field_list(fields.children[1:], 'model')
        guarded = set()
        for number, group in enumerate(groups):
            if hides(group) and any(hides(other) for other in groups[:number]):
                raise CheckFault(group.children[1], 'hides named twice', 'a group before this one hides the records of this model')
            for guard in guards_in(group):
                field, value = guard.children
                self.known_field_of(fields, field)
                if field.value in guarded:
                    raise CheckFault(field, field.value + ' named twice', 'this field is guarded already')
                guarded.add(field.value)
                have = self.judge(value, Scope([], ('ref', name.value), True))
                self.want(self.fields_of(fields.children[1:])[field.value], have, value, 'the field ' + field.value)
            policy = group.children[2].children[1]
            have = self.judge(policy, Scope([], ('ref', name.value)))
            self.want('bool', have, policy, 'a policy')

    def known_field_of(self, fields, node):
        known = self.fields_of(fields.children[1:])
        if node.value not in known:
            self.unknown(node, known, 'this model has no field')

    def field_list(self, nodes, what):
        seen = set()
        for node in nodes:
            name, kind = node.children
            if name.value in seen:
                self.twice(name, what)
            seen.add(name.value)
            if kind.kind == 'list':
                self.known_model(kind.children[1])

    def view(self, view):
        method, path, params, body = view.children[1].value, view.children[2], view.children[3], view.children[4:]
        self.field_list(params.children[1:], 'view')
        known = self.fields_of(params.children[1:])
        for found in re.finditer(rb'\{([^}]*)\}', path.value):
            if found.group(1).decode() not in known:
                span = Node('atom', path.places[found.start()], path.places[found.end() - 1] + 1, found.group(1).decode())
                self.unknown(span, known, 'there is no parameter')
        names = [(name, kind, False) for name, kind in known.items()]
        self.body(body, Scope(names), method == 'get', [])

    # statements; `loops` has the models of the binders of each loop around them

    def body(self, statements, scope, is_get, loops):
        for statement in statements:
            self.statement(statement, scope, is_get, loops)

    def statement(self, node, scope, is_get, loops):
        word, parts = node.head(), node.children[1:]
        if word in ('put', 'esc'):
            self.judge(parts[0], scope)
        elif word == 'let':
            kind = self.judge(parts[1], scope)
            self.body(parts[2:], scope.with_names([(parts[0].value, kind, True)]), is_get, loops)
        elif word == 'assign':
            self.assign(node, parts, scope)
        elif word == 'if':
            self.want('bool', self.judge(parts[0], scope), parts[0], 'the condition of an if')
            self.body(parts[1].children, scope, is_get, loops)
            self.body(parts[2].children, scope, is_get, loops)
        elif word == 'for':
            inner = self.query(node, parts[0], scope, 'for')
            models = [binder.children[1].value for binder in parts[0].children[1].children]
            self.body(parts[1:], inner, is_get, loops + [models])
        elif word == 'create':
            self.write(node, is_get)
            name, model, cells = parts[:3]
            self.known_model(model)
            self.cell_names(model.value, cells.children[1:])
            self.loop(node, model, loops)
            self.cell_values(model.value, cells.children[1:], scope)
            self.body(parts[3:], scope.with_names([(name.value, ('ref', model.value), False)]), is_get, loops)
        elif word == 'update':
            self.write(node, is_get)
            model, target, cells = parts
            self.known_model(model)
            self.cell_names(model.value, cells.children[1:])
            have = self.judge(target, scope)
            for cell in cells.children[1:]:
                self.judge(cell.children[1], scope)
            self.want(('ref', model.value), have, target, 'what an update of %s changes' % model.value)
            self.cell_values(model.value, cells.children[1:], scope)
        elif word == 'delete':
            self.write(node, is_get)
            self.known_model(parts[0])
            self.want(('ref', parts[0].value), self.judge(parts[1], scope), parts[1], 'what a delete of %s takes away' % parts[0].value)
        elif word == 'redirect':
            self.want('text', self.judge(parts[0], scope), parts[0], 'where a redirect leads')
        elif word == 'template':
            self.body(statements_of(parts[0]), scope, is_get, loops)

    def assign(self, node, parts, scope):
        found = scope.look_up(parts[0].value)
        if found is None or not found[1]:
            why = 'no let binds %s' % parts[0].value if found is None else \
                '%s is a parameter or the name of a record; an assign changes what a let has bound' % parts[0].value
            raise CheckFault(node, 'assign may not stand here', why)
        self.want(found[0], self.judge(parts[1], scope), parts[1], parts[0].value)

    @staticmethod
    def write(node, is_get):
        if is_get:
            raise CheckFault(node, 'write in a get view', 'a get view may not create, update or delete: make it a post view')

    def loop(self, node, model, loops):
        if self.nested[model.value] and not (len(loops) == 1 and len(loops[0]) == 1 and not self.nested[loops[0][0]]):
            raise CheckFault(node, model.value + ' is created in a loop alone',
                             'a record of a nested model is created in exactly one for, over one name of a model that is not nested')
        if loops and not self.nested[model.value]:
            raise CheckFault(node, 'create in a loop', 'a create may not stand inside of a for, where its model is not nested')

    def cell_names(self, model, cells):
        seen = set()
        for cell in cells:
            self.known_field(model, cell.children[0])
            if cell.children[0].value in seen:
                self.twice(cell.children[0], 'set')
            seen.add(cell.children[0].value)

    def cell_values(self, model, cells, scope):
        kinds = [(cell, self.judge(cell.children[1], scope)) for cell in cells]
        for cell, have in kinds:
            field = cell.children[0].value
            self.want(self.fields[model][field], have, cell.children[1], 'the field %s of %s' % (field, model))

    # expressions

    def want(self, want, have, node, whose):
        if want == have:
            return
        words = '%s is %s, and this is %s' % (whose, kind_text(want), kind_text(have))
        for kind in self.kinds():
            if ('ref', '') in (want, have) and kind.value not in self.names:
                node, words = kind, 'there is no model %s, so nothing that it is compared with is of its kind' % kind.value
                break
        raise CheckFault(node, 'wrong kind: want %s, have %s' % (kind_text(want), kind_text(have)), words)

    def kinds(self):
        """The names of models in the kinds of fields and parameters."""
        lists = [fields_in(model) for model in self.models] + [view.children[3] for view in self.views]
        return [field.children[1].children[1] for fields in lists for field in fields.children[1:]
                if field.children[1].kind == 'list']

    @staticmethod
    def public(scope, node, word):
        if scope.public:
            raise CheckFault(node, word + ' may not stand here',
                             'a public value is made of the record\'s own cells: literals, (get M F this) and what is '
                             'computed of them')

    def query(self, node, query, scope, word):
        self.public(scope, node, word)
        binders, condition, order = query.children[1:]
        seen, names = set(), []
        for binder in binders.children:
            name, model = binder.children
            if name.value in seen:
                self.twice(name, 'query')
            seen.add(name.value)
            self.known_model(model)
            names.append((name.value, ('ref', model.value), False))
        if order.kind == 'list':
            self.order(binders, order)
        inner = scope.with_names(names)
        have = self.judge(condition, inner)
        self.want_later.append(('bool', have, condition, 'the condition of a query'))
        if word == 'for':
            self.settle()
        return inner

    want_later = []

    def settle(self):
        later, Checker.want_later = Checker.want_later, []
        for words in later:
            self.want(*words)

    def order(self, binders, order):
        for binder in binders.children:
            if binder.children[0].value == order.children[1].value:
                return self.known_field(binder.children[1].value, order.children[2])
        raise CheckFault(order.children[1], 'unknown name ' + order.children[1].value,
                         'an order goes by one of this query\'s own names: ' + ', '.join(
                             binder.children[0].value for binder in binders.children))

    def asked(self, node, scope, word, kind):
        query = node.children[1]
        outer, Checker.want_later = Checker.want_later, []
        try:
            inner = self.query(node, query, scope, word)
            if word == 'sum':
                have = self.judge(node.children[2], inner)
                self.settle()
                self.want('int', have, node.children[2], 'what a sum adds')
            self.settle()
        finally:
            Checker.want_later = outer
        if word == 'first':
            return ('ref', query.children[1].children[0].children[1].value)
        return kind

    def judge(self, node, scope):
        if node.kind == 'text':
            return 'text'
        if node.kind == 'atom':
            return self.atom(node, scope)
        word, parts = node.head(), node.children[1:]
        if word == 'none':
            self.known_model(parts[0])
            return ('ref', parts[0].value)
        if word == 'get':
            if scope.public and not parts[2].is_atom('this'):
                raise CheckFault(node, 'get may not stand here', 'a public value reads its own record alone, (get M F this)')
            self.known_model(parts[0])
            self.known_field(parts[0].value, parts[1])
            have = self.judge(parts[2], scope)
            self.want(('ref', parts[0].value), have, parts[2], 'the record of a get of %s' % parts[0].value)
            return self.fields[parts[0].value][parts[1].value]
        if word == 'live':
            self.public(scope, node, 'live')
            have = self.judge(parts[0], scope)
            if not isinstance(have, tuple):
                raise CheckFault(parts[0], 'wrong kind: want ref, have ' + kind_text(have),
                                 'live asks for a reference, and this is ' + kind_text(have))
            return 'bool'
        if word in ('count', 'sum', 'some', 'first'):
            return self.asked(node, scope, word, {'count': 'int', 'sum': 'int', 'some': 'bool', 'first': None}[word])
        return self.operation(node, word, parts, [self.judge(part, scope) for part in parts])

    def atom(self, node, scope):
        word = node.value
        if word in ('true', 'false'):
            return 'bool'
        if re.fullmatch(r'-?[0-9]+', word):
            return 'int'
        if word == 'this':
            if scope.this is None:
                raise CheckFault(node, 'this may not stand here', 'this is the record of a policy or of a public value')
            return scope.this
        if word == 'viewer':
            if scope.public:
                raise CheckFault(node, 'viewer in a public value', 'everybody else sees the public value, whoever looks')
            if self.viewer is None:
                raise CheckFault(node, 'unknown name viewer', 'the application has no (viewer MODEL) before its models')
            return ('ref', self.viewer.value)
        if scope.public:
            raise CheckFault(node, word + ' may not stand here', 'a public value has no names: it reads (get M F this)')
        found = scope.look_up(word)
        if found is None:
            raise self.nameless(node, scope)
        return found[0]

    def nameless(self, node, scope):
        """The fault of a name that isn't bound here. Says where the name is bound, or what it may mean, and which names
        there are."""
        word, known = node.value, list(dict.fromkeys(name for name, _, _ in scope.names))
        cause, close = 'unknown name ' + word, nearest(word, known)
        around = next((item for item in self.models + self.views if item.start <= node.start < item.end), None)
        binding = binding_of(around, node) if around else None
        if binding:
            lost, places = binding.lost(node)
            return CheckFault(node, cause, 'nothing here is called %s: %s; %s' % (
                word, lost, self.names_here(known, scope)), places)
        hint = '; is it %s?' % close if close else self.field_hint(word)
        return CheckFault(node, cause, 'nothing here is called %s%s; %s' % (word, hint, self.names_here(known, scope)))

    def field_hint(self, word):
        model = next((model for model in self.fields if word in self.fields[model]), None)
        return model and '; it is a field of %s, which (get %s %s ..) reads of a record' % (model, model, word) or ''

    def names_here(self, known, scope):
        known = known + ['viewer'] * (self.viewer is not None) + ['this'] * (scope.this is not None)
        return 'there is ' + (', '.join(known) or 'no name')

    def operation(self, node, word, parts, kinds):
        if word in ('add', 'sub', 'mul', 'and', 'or'):
            kind = 'int' if word in ('add', 'sub', 'mul') else 'bool'
            for part, have in zip(parts, kinds):
                self.want(kind, have, part, 'each operand of ' + word)
            return kind
        if word in ('eq', 'lt'):
            if word == 'lt' and kinds[0] not in ('int', 'text'):
                raise CheckFault(parts[0], 'wrong kind: want int or text, have ' + kind_text(kinds[0]),
                                 'lt compares two numbers or two texts, and this is ' + kind_text(kinds[0]))
            self.want(kinds[0], kinds[1], parts[1], 'what stands before it in ' + word)
            return 'bool'
        if word == 'not':
            self.want('bool', kinds[0], parts[0], 'the operand of not')
            return 'bool'
        if word == 'cat':
            for part, have in zip(parts, kinds):
                self.want('text', have, part, 'each part of cat (str makes a text of it)')
            return 'text'
        if word == 'str':
            return 'text'
        self.want('bool', kinds[0], parts[0], 'the condition of pick')
        self.want(kinds[1], kinds[2], parts[2], 'what stands before it in pick')
        return kinds[1]


class Binding:
    """A form that binds names for what is inside it. In a template it has no bracket at its end."""

    def __init__(self, form, is_tag):
        self.form, self.is_tag = form, is_tag

    def names(self):
        word, parts = self.form.head(), self.form.children[1:]
        if word in ('create', 'let'):
            return [parts[0].value]
        query = parts[0] if word == 'for' else self.form
        if query.head() != 'from' or len(query.children) < 4:
            return []
        return [binder.children[0].value for binder in query.children[1].children]

    def lost(self, node):
        """A message about a name that is used outside of the form that binds it, and the places of this form."""
        word = {'from': 'query'}.get(self.form.head(), self.form.head())
        begins = (self.form.start, 'this %s has it' % word)
        if self.form.start < node.start < self.form.end:
            return 'the %s that has this name binds it for what comes after that' % word, [begins]
        if node.start < self.form.start:
            return 'the %s that has this name begins further on, and only what stands inside of it knows the name' % word, \
                [begins]
        ends = [] if self.is_tag else [(self.form.end - 1, 'and ends with this bracket')]
        return 'the %s that has this name ended before, and only what stands inside of it knows the name' % word, \
            [begins, *ends]


def binding_of(around, node):
    """The form that binds the name of this node elsewhere in its model or view: the last such form before the node, or
    else the first one after it, or None."""
    found = [one for one in bindings_in(around) if node.value in one.names()]
    before = [one for one in found if one.form.start < node.start]
    return (before[-1:] or found[:1] or [None])[0]


def bindings_in(node):
    """The forms in a tree that bind names, also those in templates, in the order of the text."""
    left = [(node, False)]
    while left:
        one, is_tag = left.pop()
        word, parts = one.head(), one.children[1:]
        if word == 'template' and len(parts) == 1 and parts[0].kind == 'text':
            left += [(child, True) for child in reversed(statements_of(parts[0]))]
            continue
        if word in OPERANDS_OF_BINDERS and len(parts) >= OPERANDS_OF_BINDERS[word]:
            yield Binding(one, is_tag)
        # the query of a for isn't a form of its own
        below = parts[0].children[1:] + parts[1:] if word == 'for' and parts else one.children
        left += [(child, is_tag) for child in reversed(below)]


# The forms that bind names, each with its least number of operands. A field may be named like such a form.
OPERANDS_OF_BINDERS = {'create': 3, 'let': 2, 'for': 1, 'from': 3}


def statements_of(node):
    """The statements that replace a template without a fault, with a `put` for each piece of literal text."""
    text, places = node.value, node.places
    stack, current, at = [], [], 0

    def tree(word, start, end, parts):
        return Node('list', start, end, None, [Node('atom', start, end, word)] + parts)

    def literal(at, end):
        if at == end:
            return []
        piece = Node('text', places[at], places[end], text[at:end], (), places[at:end + 1])
        return [tree('put', piece.start, piece.end, [piece])]

    def close(block, current):
        kind, head, start, end, outer, then = block
        if kind == 'if':
            first, second = (then, current) if then is not None else (current, [])
            parts = [head[0], Node('list', start, end, None, first), Node('list', start, end, None, second)]
        else:
            parts = head + current
        outer.append(tree(kind, start, end, parts))
        return outer

    for tag in tags_of(text):
        start, end = places[tag.at], places[min(tag.end + 1, len(places) - 1)] + 1
        current += literal(at, tag.at)
        at = tag.end + 2
        content = read_tree(text[tag.start:tag.end], places[tag.start:tag.end + 1])
        if tag.kind == 'output':
            current.append(tree('esc', start, end, [content]))
        elif content.kind == 'atom' and content.value == 'else':
            stack[-1] = stack[-1][:5] + (current,)
            current = []
        elif content.kind == 'atom':
            current = close(stack.pop(), current)
        elif content.head() == 'put':
            current.append(content)
        else:
            stack.append((content.head(), content.children[1:], start, end, current, None))
            current = []
    return current + literal(at, len(text))


def templates_in(node):
    """The texts of the templates in a tree, in reading order."""
    left = [node]
    while left:
        one = left.pop()
        if one.head() == 'template' and len(one.children) == 2 and one.children[1].kind == 'text':
            yield one.children[1]
        elif one.kind == 'list':
            left += reversed(one.children)


# The fault that a line of the program reports.

def fault_of(data, line):
    """Returns or raises the fault that the program's line reports in this text. Returns None if it isn't found here."""
    try:
        tree = read_tree(data, list(range(len(data) + 1)))
    except TreeFault as fault:
        return Fault('app: %s at %d' % (fault.what, fault.at), fault.start, fault.end, fault.words, fault.notes)
    found = re.fullmatch(r'app: form at ([0-9.]+|top): expected ([a-z]+)', line)
    if found:
        path = [] if found.group(1) == 'top' else [int(number) for number in found.group(1).split('.')]
        node = at_path(tree, path)
        if node is None:
            return None
        meant, words = misplaced(tree, path, node, found.group(2))
        return Fault(line, meant.start, meant.end, words or form_words(FormFault(node, path, found.group(2))))
    found = re.fullmatch(r'app: too many ([a-z]+) at ([0-9.]+|top): ([0-9]+), limit ([0-9]+)', line)
    if found:
        path = [] if found.group(2) == 'top' else [int(number) for number in found.group(2).split('.')]
        node = at_path(tree, path)
        what = {'sites': 'create statements'}.get(found.group(1), found.group(1))
        return node and Fault(line, node.start, node.end, 'here are %s %s, and %s is the most' % (
            found.group(3), what, found.group(4)))
    found = re.fullmatch(r'app: template in view ([0-9]+): ([a-z]+) at ([0-9]+)', line)
    views = [item for item in tree.children if item.head() == 'view']
    if found:
        for template in templates_in(views[int(found.group(1))]):
            fault = template_fault(template)
            if fault:
                return Fault('app: template in view %s: %s at %d' % (found.group(1), fault[0], fault[1]), *fault[2:])
        return None
    found = re.fullmatch(r'app: view ([0-9]+): path clashes', line)
    if found:
        return clash(line, views, int(found.group(1)))
    Checker(tree).check()
    return None


def misplaced(tree, path, node, want):
    """The tree to mark, and a message if it would be right at another place, or ''."""
    parent = at_path(tree, path[:-1]) if path else None
    if want == 'item' and parent is tree:
        views = [item for item in tree.children[:path[-1]] if item.head() == 'view']
        if node.head() == 'model' and views:
            return node, 'models come before views: this one comes after %s' % counted(len(views), 'view')
        if node.head() == 'viewer':
            return node, '(viewer MODEL) comes first, before the models and the views'
    if want == 'statement' and len(path) > 1:
        around = at_path(tree, path[:-2])
        if around.head() == 'if' and path[-2] in (2, 3) and parent.head() in STATEMENTS:
            return parent, 'a branch is a list of statements: ((%s ..))' % parent.head()
        first = node.children[0] if node.kind == 'list' and node.children else None
        if first is not None and first.head() in STATEMENTS and parent.head() in ('let', 'for', 'create', 'view'):
            return node, 'the statements of a %s stand beside each other, with no list round them' % parent.head()
    return node, ''


def clash(line, views, number):
    path = views[number].children[2]
    shape = re.sub(rb'\{[^}]*\}', b'{}', path.value)
    notes = [(view.children[2].start, 'the earlier path') for view in views[:number]
             if view.children[1].value == views[number].children[1].value
             and re.sub(rb'\{[^}]*\}', b'{}', view.children[2].value) == shape][:1]
    return Fault(line, path.start, path.end,
                 'this path can\'t be told apart from that of an earlier view of the same method', notes)


def line_and_column(data, at):
    """The line and the column of an offset, both counted from 1, the column in characters."""
    begin = data.rfind(b'\n', 0, at) + 1
    return data.count(b'\n', 0, at) + 1, len(data[begin:at].decode('utf-8', 'replace')) + 1


def width(text):
    return sum(0 if unicodedata.combining(one) else 2 if unicodedata.east_asian_width(one) in 'WF' else 1 for one in text)


def marked(data, at, end):
    part = part_of(data, at)
    if part:
        return marked_part(data, at, end, *part)
    begin = data.rfind(b'\n', 0, at) + 1
    stop = data.find(b'\n', at)
    stop = len(data) if stop < 0 else stop
    return marked_line(data[begin:at].decode('utf-8', 'replace'),
                       data[at:max(at, min(end, stop))].decode('utf-8', 'replace'),
                       data[max(at, min(end, stop)):stop].decode('utf-8', 'replace'))


def part_of(data, at):
    """The file, the line and the column in the part that a byte comes from, or None if the application is no folder."""
    return data.place(at) if isinstance(data, assemble.Application) else None


def marked_part(data, at, end, path, line, column):
    """The line of a part with a mark under it. If Jinja2 inserted a value there, the mark is under the `[[ .. ]]`."""
    try:
        text = assemble.line_of(path, line)
    except (OSError, IndexError, UnicodeDecodeError):
        return marked(bytes(data), at, end)
    last = part_of(data, max(at, end - 1))
    same_line = last is not None and last[:2] == (path, line) and last[2] >= column
    until = last[2] if same_line else len(text)
    value = re.match(r'\[\[.*?\]\]', text[column - 1:])
    if data.piece(at).is_value and value:
        until = column - 1 + value.end()
    return marked_line(text[:column - 1], text[column - 1:until], text[until:])


def marked_line(before, marks, behind):
    before, marks, behind = before.expandtabs(1), marks.expandtabs(1), behind.expandtabs(1)
    if len(before) > 60:
        before = '..' + before[-58:]
    if len(marks) > 60:
        marks, behind = marks[:58] + '..', ''
    behind = behind.rstrip('\r')[:max(0, 100 - len(before) - len(marks))]
    return '    %s%s%s\n    %s%s' % (before, marks, behind, ' ' * width(before), '^' * max(1, width(marks)))


def where(data, name, at):
    part = part_of(data, at)
    return '%s:%d:%d' % (part if part else (name, *line_and_column(data, at)))


def view_around(data, at):
    """Names the view (by method and path) or the model around an offset, or returns None if no head can be read."""
    heads = re.finditer(rb'\(\s*(?:view\s+([a-z]+)\s+"([^"\\\n]*)"|model\s+([A-Za-z0-9_-]+))', data)
    before = [found for found in heads if found.start() <= at]
    if not before:
        return None
    method, path, model = before[-1].groups()
    if model:
        return 'in the model %s' % model.decode()
    return 'in the view %s %s' % (method.decode(), path.decode('utf-8', 'replace'))


def shown_fault(data, name, fault):
    place = view_around(data, fault.start)
    head = '%s: %s%s' % (where(data, name, fault.start), place + ': ' if place else '', fault.words)
    lines = [head, marked(data, fault.start, fault.end)]
    for at, words in fault.notes:
        lines += ['%s: %s' % (where(data, name, at), words), marked(data, at, at + 1)]
    return '\n'.join(lines)


def fault_of_line(data, line):
    """The fault that the program's line reports, or None if this script finds another fault or none."""
    try:
        fault = fault_of(data, line)
    except Fault as found:
        fault = found
    except (CheckFault, FormFault, TreeFault, IndexError, KeyError, AttributeError, RecursionError, UnicodeDecodeError):
        return None
    return fault if fault and fault.line == line else None


# Further faults: the part that has a fault is blanked out, and the program checks the rest.

MOST_FURTHER = 5
MOST_ASKED = 12     # how often the program checks the rest
ALONE = ('put', 'esc', 'assign', 'update', 'delete', 'redirect')


def unit_of(data, at):
    """The smallest part around an offset that can be left out without changing the meaning of the rest: a tag that
    shows a value, a statement that binds no name, or a view. None if there is no such part."""
    tree = read_tree(data, list(range(len(data) + 1)))
    view = next((item for item in tree.children if item.head() == 'view' and item.start <= at < item.end), None)
    if view is None:
        return None
    around, node = None, view
    while node is not None:
        if node.head() in ALONE and around.head() in (None, 'view', 'let', 'for', 'create'):
            return node.start, node.end
        if node.head() == 'template' and len(node.children) == 2 and node.children[1].kind == 'text':
            return tag_around(node.children[1], at) or (view.start, view.end)
        around, node = node, next((child for child in node.children if child.start <= at < child.end), None)
    return view.start, view.end


def tag_around(text, at):
    for tag in tags_of(text.value):
        start, end = text.places[tag.at], text.places[min(tag.end + 1, len(text.places) - 1)] + 1
        if tag.kind == 'output' and start <= at < end:
            return start, end
    return None


def further(program, data, name, fault):
    """The faults that the program reports after the part with the first fault is blanked out, then the part with the
    second one, and so on. Each place is reported once, because a part of a folder may be in several views."""
    whole, found, known = data, [], {where(data, name, fault.start)}
    with tempfile.NamedTemporaryFile(prefix='jac-fault-') as file:
        for _ in range(MOST_ASKED):
            unit = unit_of(data, fault.start)
            if unit is None:
                break
            data = data[:unit[0]] + re.sub(rb'[^\r\n]', b' ', data[unit[0]:unit[1]]) + data[unit[1]:]
            file.seek(0)
            file.truncate()
            file.write(data)
            file.flush()
            line = refusal(program, file.name)
            fault = fault_of_line(data, line) if line else None
            if not fault or len(found) == MOST_FURTHER:
                break
            place = where(whole, name, fault.start)
            if place not in known:
                known.add(place)
                found.append(Fault(fault.line, fault.start, fault.end, fault.words))
    return found


def report(program, data, name, line):
    """The messages about the fault that the program's line reports and about further faults, or ''."""
    fault = fault_of_line(data, line)
    if not fault:
        return ''
    shown = [shown_fault(data, name, fault)]
    try:
        more = further(program, data, name, fault)
    except (TreeFault, OSError, IndexError, KeyError, AttributeError, RecursionError):
        more = []
    if more:
        shown.append('and further on:')
        shown += [shown_fault(data, name, one) for one in more]
    return '\n'.join(shown)


# How many applications each command takes. Other commands take none.
TAKEN = {'check': 1, 'replay': 1, 'serve': 1, 'dump': 1, 'upgrade': 2, 'why': 1}


def places_of_applications(words):
    """The positions of the applications among the arguments of a command."""
    found, place, plain = [], 1, False
    while place < len(words):
        word = words[place]
        if not plain and word == '--':
            plain = True
        elif not plain and word in ('--db', '--sessions', '--audit'):
            place += 1
        elif plain or word == '-' or not word.startswith('-'):
            found.append(place)
        place += 1
    return found[:TAKEN.get(words[0], 0)] if words else []


def applications_in(words):
    """The files and folders of the applications among the arguments of a command."""
    return [words[place] for place in places_of_applications(words)]


def refusal(program, name):
    """The line with which the program refuses this application, or None."""
    told = subprocess.run([program, 'check', '--', name], stdin=subprocess.DEVNULL, stdout=subprocess.PIPE,
                          stderr=subprocess.DEVNULL, check=False, close_fds=False)
    line = told.stdout.decode('utf-8', 'replace').rstrip('\n')
    return line if told.returncode == 2 and line.startswith('app: ') else None


def main(words):
    status, words = (int(words[1]), words[2:]) if words[:1] == ['--status'] else (None, words)
    wrong = commands.fault(words[1:])
    if wrong:
        tell(wrong)
        return
    for name in applications_in(words[1:]):
        if not os.path.isfile(name) and not os.path.isdir(name):
            return
        try:
            data = assemble.read(name)
        except (OSError, assemble.Fault):
            return
        line = refusal(words[0], assemble.path_of(data) if isinstance(data, assemble.Application) else name)
        if line:
            told = report(words[0], data, name, line)
            if told:
                print(told, file=sys.stderr)
            return
    told = told_of_lines(words[0], words[1:]) if status in (None, LINES_REFUSED) else ''
    if told:
        print(told, file=sys.stderr)
        return
    told = told_of_store(words[1:]) if status in (None, *OTHER_SCHEMAS) else ''
    if not told and (status == STORE_FAULT or status is None and words[1:2] == ['serve']):
        told = told_of_fault(words[1:], is_refused=status is not None)
    if told:
        tell(told)


def tell(words):
    print('jac: ' + words, file=sys.stderr)


LINES_REFUSED, STORE_FAULT, OTHER_SCHEMAS = 3, 6, (9, 11)
MOST_LINES = 1 << 24    # the most bytes of a file of sessions or events that is read here


def told_of_lines(program, words):
    """Messages about the lines that the program refuses, of the sessions or else of the events, or ''."""
    return told_of_sessions(program, commands.value_of(words, '--sessions')) or \
        shown_lines(program, commands.events(words), run_lines.faults_of_events, lambda name: ['--', name])


def told_of_sessions(program, name):
    return shown_lines(program, name, run_lines.faults_of_sessions, lambda name: ['/dev/null', '--sessions=' + name])


def shown_lines(program, name, reader, words_of):
    """Messages about the faults in a file of lines, or '' if the program doesn't report the same first fault."""
    if not name or not os.path.isfile(name) or os.path.getsize(name) > MOST_LINES:
        return ''
    try:
        with open(name, 'rb') as file:
            data = file.read()
    except OSError:
        return ''
    faults = list(itertools.islice(reader(data), 1 + MOST_FURTHER))
    if not faults or last_line(program, words_of(name)) != faults[0].line:
        return ''
    shown = ['%s: %s\n%s' % (where(data, name, one.start), one.words, marked(data, one.start, one.end)) for one in faults]
    return '\n'.join(shown[:1] + ['and further on:'] * (len(shown) > 1) + shown[1:])


def last_line(program, words):
    """The last line that `replay` prints for an empty application and these arguments."""
    with tempfile.NamedTemporaryFile(prefix='jac-fault-') as app, tempfile.TemporaryFile() as out:
        app.write(b'(app)')
        app.flush()
        replay = ['replay', app.name, *words] if words[0] != '--' else ['replay', '--', app.name, *words[1:]]
        subprocess.run([program, *replay], stdin=subprocess.DEVNULL, stdout=out, stderr=subprocess.DEVNULL, check=False)
        out.seek(-min(256, out.tell()), os.SEEK_CUR)
        return out.read().decode('utf-8', 'replace').rstrip('\n').rpartition('\n')[2]


def told_of_fault(words, is_refused):
    """What is wrong with the store that the program refused or may be about to refuse, or ''."""
    import store_faults
    store = commands.value_of(words, '--db')
    most = store_faults.MOST_COPIED if is_refused else store_faults.MOST_COPIED_BEFORE
    return store_faults.told(store, most) if store else ''


def told_of_store(words):
    """A message if the store belongs to another application or another version, or ''."""
    import application
    import schema
    try:
        apps = [(name, application.read(name)) for name in commands.applications(words)]
        return schema.told(words[0], commands.value_of(words[1:], '--db'), apps) if apps else ''
    except (TreeFault, application.Fault, IndexError, KeyError, AttributeError):
        return ''


if __name__ == '__main__':
    main(sys.argv[1:])
