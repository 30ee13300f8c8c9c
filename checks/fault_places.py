#!/usr/bin/env python3
"""Damages applications in known places, and checks that the message for the refused application (tools/fault_place.py)
points there. Arguments: the program, and a seed (1 by default). Prints each failure, then a count.

The applications are the examples. The file, the line and the column of each damage are known from how it was made. If
nothing is wrong, there must be no message."""
import glob
import importlib.util
import os
import random
import re
import subprocess
import sys
import tempfile

sys.dont_write_bytecode = True
from support import proved                                                  # noqa: E402

TOP = os.path.dirname(os.path.dirname(os.path.abspath(__file__)))
SCRIPT = os.path.join(TOP, 'tools', 'fault_place.py')
SPEC = importlib.util.spec_from_file_location('fault_place', SCRIPT)
fault_place = importlib.util.module_from_spec(SPEC)
SPEC.loader.exec_module(fault_place)

WORDS = proved.words(seed={'metavar': 'SEED', 'nargs': '?', 'type': int, 'default': 1,
                           'help': 'the seed that chooses the damages (%(default)s)'})
PROGRAM = os.path.abspath(WORDS.program)
WANTED = 10
OPERATIONS = {'add', 'sub', 'mul', 'eq', 'lt', 'and', 'or'}


def tree_of(data):
    return fault_place.read_tree(data, list(range(len(data) + 1)))


def nodes(tree):
    left = [tree]
    while left:
        one = left.pop()
        yield one
        left += one.children


def without(data, start, end):
    return data[:start] + data[end:]


def with_text(data, start, end, text):
    return data[:start] + text + data[end:]


# Each of these functions yields all pairs of a damaged text and the place that the message has to name.

def lost_brackets_of_items(data, tree):
    """The last bracket of a model or of a view is missing."""
    for item in tree.children[2:-1]:
        yield without(data, item.end - 1, item.end), item.start


def lost_brackets(data, tree):
    """The last bracket of a list is missing, and what follows the list begins the next line in the same column."""
    for node in nodes(tree):
        for one, behind in zip(node.children, node.children[1:]):
            if one.kind == 'list' and fault_place.begins_its_line(data, one.start) and fault_place.begins_its_line(data, behind.start) \
                    and fault_place.column_of(data, one.start) == fault_place.column_of(data, behind.start):
                yield without(data, one.end - 1, one.end), one.start


def brackets_too_many(data, tree):
    at = tree.end
    yield with_text(data, at, at, b')'), at


def operands_too_many(data, tree):
    for node in nodes(tree):
        if node.head() in OPERATIONS:
            yield with_text(data, node.end - 1, node.end - 1, b' 1'), node.start


def operands_too_few(data, tree):
    for node in nodes(tree):
        if node.head() in OPERATIONS and len(node.children) == 3:
            last = node.children[2]
            yield without(data, last.start, last.end), node.start


def unknown_forms(data, tree):
    for node in nodes(tree):
        if node.head() in fault_place.EXPRESSIONS and len(node.children) > 1 and node.head() != 'none':
            yield with_text(data, node.children[0].start, node.children[0].end, b'len'), node.start


def unknown_statements(data, tree):
    for view in tree.children:
        if view.head() == 'view':
            for statement in view.children[4:]:
                yield with_text(data, statement.children[0].start, statement.children[0].end, b'print'), statement.start


def quotes_in_tags(data, tree):
    """A text in a template's tag is in single quotes."""
    for node in nodes(tree):
        if node.head() == 'template':
            text, places = node.children[1].value, node.children[1].places
            for tag in fault_place.tags_of(text):
                found = re.search(rb'"([^"\\]*)"', text[tag.start:tag.end])
                if found:
                    first, second = places[tag.start + found.start()], places[tag.start + found.end() - 1]
                    yield with_text(with_text(data, second, second + 2, b"'"), first, first + 2, b"'"), first


def lost_ends(data, tree):
    """The `end` of an outermost block is missing. The message has to name the beginning of that block."""
    for node in nodes(tree):
        if node.head() != 'template':
            continue
        text, places, outer, depth = node.children[1].value, node.children[1].places, None, 0
        for tag in fault_place.tags_of(text):
            word = re.match(rb'\s*\(?\s*([a-z]+)', text[tag.start:tag.end])
            word = word.group(1) if word and tag.kind == 'control' else b''
            if word in (b'if', b'for', b'let'):
                outer = tag.at if depth == 0 else outer
                depth += 1
            elif word == b'end':
                depth -= 1
                if depth == 0:
                    yield without(data, places[tag.at], places[tag.end + 1] + 1), places[outer]


def ends_too_many(data, tree):
    for node in nodes(tree):
        if node.head() == 'template':
            at = node.children[1].end - 1
            yield with_text(data, at, at, b'{% end %}'), at


def unknown_fields(data, tree):
    for view in tree.children:
        if view.head() == 'view':
            for node in nodes(view):
                if node.head() == 'get' and len(node.children) == 4 and node.children[2].kind == 'atom':
                    at = node.children[2]
                    yield with_text(data, at.end, at.end, b'x'), at.start


def unknown_kinds(data, tree):
    for model in tree.children:
        if model.head() == 'model':
            for field in fault_place.fields_in(model).children[1:]:
                if field.children[1].kind == 'atom':
                    yield with_text(data, field.children[1].start, field.children[1].end, b'string'), field.children[1].start


def unknown_models(data, tree):
    for node in nodes(tree):
        if node.head() == 'ref':
            yield with_text(data, node.children[1].end, node.children[1].end, b's'), node.children[1].start


def policies_of_numbers(data, tree):
    for node in nodes(tree):
        if node.head() == 'policy':
            yield with_text(data, node.children[1].start, node.children[1].end, b'1'), node.children[1].start


def conditions_of_texts(data, tree):
    for view in tree.children:
        if view.head() == 'view':
            for node in nodes(view):
                if node.head() == 'if' and len(node.children) == 4:
                    yield with_text(data, node.children[1].start, node.children[1].end, b'"yes"'), node.children[1].start


def comments(data, tree):
    for item in tree.children[2:]:
        yield with_text(data, item.start, item.start, b'; a view\n'), item.start


def twice_named(data, tree):
    for model in tree.children:
        if model.head() == 'model':
            field = fault_place.fields_in(model).children[1]
            at = fault_place.fields_in(model).end - 1
            yield with_text(data, at, at, b' ' + data[field.start:field.end]), at + 2


# Texts, each with the place and the words of its message. The program's own line has only a code.

VIEW = '(app (model User (fields (name text) (age int)))\n (view get "/" (params (j int))\n  %s))'
LOST = '(app (viewer User)\n (model User (fields (name text)))\n (view post "/" (params (years int))\n  %s))'
TAG = VIEW % '(template "%s")'
MESSAGES = [
    ('(app (view get "/" (params) (put "a"))\n (model User (fields (name text))))', '2:2', 'models come before views'),
    ('(app (model User (fields)) (viewer User))', '1:28', '(viewer MODEL) comes first'),
    (VIEW % '(if true (put "a") (put "b"))', '3:12', 'a branch is a list of statements: ((put ..))'),
    (VIEW % '(if true () (esc "b"))', '3:15', 'a branch is a list of statements: ((esc ..))'),
    (VIEW % '(let x 1 ((put "a")))', '3:12', 'the statements of a let stand beside each other'),
    (TAG % '{% if true %}a{% end %}', '3:17', 'a tag holds one form in brackets: {% (if truth) %}'),
    (TAG % 'a{% for u in users %}a{% end %}', '3:18', 'a tag holds one form in brackets: {% (for (from '),
    (TAG % '{% (if true) %}a{% elif false %}b{% end %}', '3:33',
     'a tag holds one form in brackets: {% else %}{% (if truth) %} .. {% end %}{% end %}'),
    (TAG % '{% (if true) %}a{% endif %}', '3:30', 'each block ends alike: {% end %}'),
    (TAG % '{{ j.title }}', '3:17', 'a tag holds one form in brackets, or one word: {{ (get MODEL title j) }}'),
    (TAG % '{{ j | upper }}', '3:17', 'there are no filters'),
    (VIEW % '(put (not))', '3:8', 'here are no operands'),
    (VIEW % '(put (exists (from ((u User)) true key)))', '3:8', 'there is no expression exists; is it some?'),
    (VIEW % '(put (length j))', '3:8', 'there is no expression length; is it count?'),
    (VIEW % '(put (gt j 1))', '3:8', 'is it lt with its operands turned round?'),
    (LOST % '(create ann User (set (name "a")) (put ann)) (put ann)', '4:53',
     'nothing here is called ann: the create that has this name ended before, and only what stands inside of it knows '
     'the name; there is years, viewer'),
    (LOST % '(put ann) (create ann User (set (name "a")))', '4:8', 'the create that has this name begins further on'),
    (LOST % '(create ann User (set (name (get User name ann))))', '4:46', 'binds it for what comes after that'),
    (LOST % '(template "{% (let x 1) %}{{ x }}{% end %}{{ x }}")', '4:48', 'the let that has this name ended before'),
    (LOST % '(if (some (from ((u User)) true key)) ((put u)) ())', '4:47', 'the query that has this name ended before'),
    (LOST % '(put name)', '4:8', 'nothing here is called name; it is a field of User, which (get User name ..) reads'),
    (LOST % '(put yeas)', '4:8', 'nothing here is called yeas; is it years?; there is years, viewer'),
    (VIEW % '(put (frobnicate j))', '3:8', 'there is no expression frobnicate; the forms'),
    (VIEW % '(print "a")', '3:3', 'there is no statement print; is it put?'),
    (VIEW % '(putt "a")', '3:3', 'there is no statement putt; is it put?'),
    (VIEW % '(put (if true 1 2))', '3:8', 'there is no expression if, which is a form of statements; is it pick?'),
    ('(app (model User (fields (name string))))', '1:32', 'here is the word string; is it text?'),
    ('(app\n (view get "/" (params)\n  (put "a"))\n  (put "b"))\n (view get "/b" (params)))', '3:12',
     'this bracket seems to be one too many'),
    ('(app\n (view get "/" (params)\n  (if true\n   ((put "a")))\n    ((put "b")))\n (view get "/b" (params))))',
     '4:15',
     'this bracket seems to be one too many'),
    ('(app\n (view get "/" (params)\n  (put "a")))\n (view get "/b" (params)))', '3:13',
     'this bracket closes the application, and something follows it: the item before, that of line 2, has a bracket '
     'too many'),
]
# Texts with several faults: the places of the messages, in order.
FURTHER = [
    (VIEW % '(put x) (put (get User towns (first (from ((u User)) true key)))) (put (add 1 "a"))', ['3:8', '3:26',
                                                                                                    '3:81']),
    (TAG % '{{ x }}{{ y }}{% (if z) %}{% end %}', ['3:17', '3:24', '3:35']),
    ('(app (view get "/" (params) (putt 1))\n (view get "/b" (params) (puut 1))\n (view get "/c" (params) (put z)))',
     ['1:29', '2:26', '3:31']),
    (VIEW % '(if true (put "a") (put "b"))', ['3:12']),
    ('(app (model User (fields (a b)))\n (view get "/" (params) (put x)))', ['1:29']),
    ('(app\n %s)' % '\n '.join('(view get "/%d" (params) (put x))' % number for number in range(9)),
     ['%d:31' % line for line in range(2, 8)]),
]
# Arguments that the program refuses, with the message for each; then arguments that it accepts.
COMMANDS = [
    ('', 'what jac does'), ('foo', 'there is no command foo\n'), ('serv a 1 1',
                                                                  'there is no command serv; is it serve?'),
    ('--help', 'what jac does'), ('check', 'APP is missing: the command is check APP'),
    ('check a b', 'b is one word too many'), ('check a --db x', 'check takes no --db'),
    ('replay a', 'EVENTS is missing'), ('replay a b --dbb x', 'there is no option --dbb; is it --db?'),
    ('replay a b --lazy=1', '--lazy has no value'), ('replay a b --lazy --lazy', '--lazy is there twice'),
    ('replay a b --db', '--db takes the name of a file'), ('replay a b --db --lazy', '--db takes the name of a file'),
    ('replay a b --db=', '--db takes the name of a file, and this one is empty'), ('replay a b -x',
                                                                                   'there is no option -x'),
    ('serve a 80a 0', 'PORT is a number from 1 to 65535, and not 80a; and COUNT, how many connections are served, is'),
    ('serve a 80a 1', 'PORT is a number from 1 to 65535, and not 80a'), ('serve a 080 1', 'PORT is a number'),
    ('serve a 65536 1', 'PORT is a number'), ('serve a 80 0', 'COUNT, how many'), ('demo 2001', 'N, how many'),
    ('demo', 'N is missing'), ('why a b', 'VIEWER is the number of a record'), ('why a b --audit x',
                                                                                'why takes no --audit'),
    ('dump a 1,,2', 'LABELS are numbers joined by commas'), ('dump a 340282366920938463463374607431768211456',
                                                             'LABELS are'),
    ('upgrade a b', 'upgrade asks for --db FILE'),
]
TAKEN = ['check none', 'replay none b --db=-x --lazy', 'dump none 1,2 --db none', 'why none -', 'check -- -none',
         'upgrade --db=a=b none none', 'serve none 65535 1000000 --audit a --db b --sessions c', 'why none 0',
         'dump none 340282366920938463463374607431768211455']
# Stores: the application that made the store, the command, the application that the command gets, and the message.
WIDE = '(app (model User (fields (name text) (age int)) (group (guards (age 0)) (policy true))))'
NARROW = '(app (model User (fields (name text))))'
OTHER = '(app (model User (fields (name int))))'
STORES = [
    (NARROW, 'dump next -', WIDE,
     'in next the field age of User is new. ./jac upgrade OLD next --db store brings it there'),
    (WIDE, 'replay next none', NARROW,
     'in next the field age of User is missing. The store is one of a later version of next'),
    (NARROW, 'why next -', OTHER, 'in next the field name of User is int where it was text. No upgrade leads there'),
    (WIDE, 'serve next 80 1', WIDE.replace('guards (age 0)', 'guards (name "")'),
     'group 1 of User guards name where it was one '
     'that guards age. No upgrade leads there'),
    (WIDE, 'dump next -', WIDE.replace('(guards (age 0))', 'hides'), 'group 1 of User hides its records'),
    (NARROW, 'dump next -', NARROW.replace('User', 'Person'), 'model 1 is Person where it was User'),
    (NARROW, 'dump next -', NARROW.replace('User ', 'User nested '), 'the model User is nested where it was not'),
    (WIDE, 'upgrade app next', NARROW, 'next does not extend app: the field age of User is missing. An upgrade adds models, '
     'fields and groups after those that are there. It looks as if the field age of User was removed: leave it'),
    (WIDE, 'upgrade app next', WIDE.replace('age', 'years'), 'It looks as if the field age of User was renamed to years'),
    (WIDE, 'upgrade app next', WIDE.replace('(name text) (age int)', '(age int) (name text)'),
     'It looks as if the order was changed: put the field name of User back in its place'),
    (NARROW, 'upgrade app next', NARROW.replace('(name', '(mail text) (name'),
     'It looks as if the field mail of User was put in before others: put it after them'),
    (NARROW, 'dump next -', NARROW.replace('User', 'Person'), 'It looks as if the model User was renamed to Person'),
    (NARROW, 'dump next -', NARROW.replace('(model User', '(model Event (fields (title text))) (model User'),
     'It looks as if the model Event was put in before others: put it after them'),
    (NARROW, 'dump next -', '(app (model Event (fields (title text))))',
     'It looks as if the model User was removed: leave it in its place'),
    (WIDE, 'upgrade next app', NARROW, 'store is a store of app already'),
    (WIDE, 'dump next -', WIDE.replace('true', 'false'), ''),
]

DAMAGES = [lost_brackets_of_items, lost_brackets, brackets_too_many, operands_too_many, operands_too_few, unknown_forms,
           unknown_statements, quotes_in_tags, lost_ends, ends_too_many, unknown_fields, unknown_kinds, unknown_models,
           policies_of_numbers, conditions_of_texts, comments, twice_named]


# Sessions files that the program refuses: the line and the column of the fault, and the message.
SESSIONS = [
    (b'ann 4096\nbob Bob\n', '2:5', 'the viewer is the number of a record, or - for nobody, and not Bob'),
    (b'ann', '1:3', 'the viewer is missing: a line is TOKEN VIEWER'), (b'ann ', '1:4', 'the viewer is missing'),
    (b'ann  4096', '1:4', 'one space stands before the viewer, and here are more'),
    (b'ann\t4096', '1:4', 'a tab stands here'), (b'ann=4096', '1:4', 'one space stands between the token and the viewer'),
    (b'ann 4096 x', '1:9', 'the line ends after the viewer'), (b'ann 4096 ', '1:9', 'the line ends with white space'),
    (b' ann 4096', '1:1', 'the line begins with white space'), (b'# who is who\nann 1', '1:1', 'there are no comments'),
    (b'ann 4096\r\n', '1:9', 'the line ends with a carriage return'), (b'a.b 1', '1:2', 'and not .'),
    (b'a' * 129 + b' 1', '1:1', 'a token has at most 128 characters, and this one has 129'),
    (b'\xef\xbb\xbfann 4096\n', '1:1', 'a byte order mark'), (b'ann -4096', '1:5', 'and not -4096'),
    (b'ann ' + str(2 ** 128).encode(), '1:5', 'is below 2^128'), (b'ann 0' + b'0' * 39, '1:5', 'at most 39 digits'),
]
EVENTS = [
    (b'say - GET "/" ""', '1:1', 'a line begins with ask, open, data or end, and not with say'),
    (b'Ask - GET "/" ""', '1:1', 'is it ask?'), (b'hello', '1:1', 'and not with hello'),
    (b'\nask', '2:3', 'the viewer is missing: the line is ask VIEWER METHOD'),
    (b'ask ann GET "/" ""', '1:5', 'the viewer is the number of a record, or - for nobody, and not ann'),
    (b'ask - get "/" ""', '1:7', 'a method has capital letters alone: GET, and not get'),
    (b'ask - ABCDEFGHIJKLMNOP "/" ""', '1:7', 'at most 15 letters'),
    (b'ask - GET /', '1:11', 'the path stands in double quotes'), (b'ask - GET "x" ""', '1:11', 'a path begins with /'),
    (b'ask - GET "/"', '1:13', 'the body, which is "" where there is none, is missing'),
    (b'ask - GET "/" x', '1:15', 'stands in double quotes'), (b'ask - GET  "/" ""', '1:10', 'and here are more'),
    (b'ask - GET "/\\q" ""', '1:13', 'after a backslash stands n, r,'), (b'ask - GET "/\\xff" ""', '1:11', 'is UTF-8'),
    (b'ask - GET "/" "a', '1:15', 'has no second quote on this line'), (b'ask - GET "/" "" x', '1:17', 'ends after the body'),
    (b'open one', '1:6', 'N, which tells connections apart, is a number, and not one'),
    (b'open 4294967296', '1:6', 'N is below 2^32'), (b'open 1\ndata 1 x\n', '2:8', 'stands in double quotes'),
    (b'data 7 "x"', '1:1', 'no line has begun connection 7: write open 7 before this'),
    (b'open 1\n\nopen 1\n', '3:1', 'connection 1 is open since line 1'),
    (b'open 1\nend 1\nend 1\n', '3:1', 'connection 1 ended in line 2'),
    (b'ask - GET "/" ""\r\n', '1:17', 'the line ends with a carriage return'),
]
# and files that it accepts
LINES_TAKEN = [(b'', b''), (b'-_ 0\n\nann -\nann 7', b'ask - GET "\\x2f" "\xff\\""\nopen 0\ndata 0 ""\nend 0\nopen 0'),
               (b'a' * 128 + b' ' + str(2 ** 128 - 1).encode(), b'ask ' + b'0' * 35 + b'4096 QQQQQQQQQQQQQQQ "/" ""\n\n')]


def expected(name, out, err, want):
    """Returns what is wrong with a message, or None. Standard output has to be empty. Standard error has to contain the
    wanted words, or be empty if none are wanted."""
    right = not out and (want in err if want else not err)
    return None if right else '%s: wanted %s, and this is said: %s' % (name, want or 'nothing', (out + err)[:300])


def places(text):
    return re.findall(r'(?m)^damaged\.app:(\d+:\d+): ', text)


def messages(folder):
    for text, place, want in MESSAGES:
        out, err = said(folder, text.encode())
        yield expected(text, out, err.split('\nand further')[0], want)
        yield None if err.startswith('damaged.app:%s: ' % place) else '%s: wanted %s, and this is said: %s' % (text,
                                                                                                               place,
                                                                                                               err)
    for text, want in FURTHER:
        out, err = said(folder, text.encode())
        have = places(err)
        yield None if have == want else '%s: wanted the places %s, and these are said: %s' % (text, want, have)


def status(folder, words):
    return subprocess.run([PROGRAM, *words], cwd=folder, stdin=subprocess.DEVNULL, stdout=subprocess.PIPE,
                          stderr=subprocess.DEVNULL, check=False).returncode


def commands(folder):
    for line, want in COMMANDS:
        words = line.split()
        yield expected('the words ' + line, *said(folder, b'', words=words), 'jac: ' + want)
        yield None if status(folder, words) == 1 else 'the program takes the words ' + line
    for line in TAKEN:
        yield expected('the words ' + line, *said(folder, b'', words=line.split()), '')
        yield None if status(folder, line.split()) == 4 else 'the program refuses the words ' + line


def refused_lines(folder):
    """Checks the place and the words for each refused file, and the lines that are named for a file with several wrong
    lines."""
    names = {'sessions': (SESSIONS, ['replay', 'damaged.app', 'none', '--sessions', 'lines']),
             'events': (EVENTS, ['replay', 'damaged.app', 'lines'])}
    for kind, (cases, words) in names.items():
        for data, place, want in cases:
            yield expected_lines(folder, '%s %r' % (kind, data), data, words, 'lines:%s: ' % place, want)
    wrong = b'ann\nbob 8192\ncy Cy\n' + b'dan\n' * 9
    have = re.findall(r'(?m)^lines:(\d+):', said_of_lines(folder, wrong, names['sessions'][1])[1])
    yield None if have == ['1', '3', '4', '5', '6', '7'] else 'several lines: the lines %s are told' % have
    for sessions, events in LINES_TAKEN:
        with open(os.path.join(folder, 'taken'), 'wb') as file:
            file.write(sessions)
        words = ['replay', 'damaged.app', 'lines', '--sessions', 'taken']
        yield expected('taken lines', *said_of_lines(folder, events, words), '')
        yield None if status(folder, words) == 0 else 'the program refuses %r or %r' % (sessions, events)


def said_of_lines(folder, data, words):
    with open(os.path.join(folder, 'lines'), 'wb') as file:
        file.write(data)
    with open(os.path.join(folder, 'none'), 'wb'):
        pass
    return said(folder, b'(app)', words=words)


def expected_lines(folder, name, data, words, place, want):
    out, err = said_of_lines(folder, data, words)
    if out or not err.startswith(place) or want not in err.split('\n')[0]:
        return '%s: wanted %s%s, and this is said: %s' % (name, place, want, (out + err)[:300])
    return None if status(folder, words) == 3 else '%s: the program takes it' % name


def stores(folder):
    for first, line, second, want in STORES:
        for name, text in ('app', first), ('next', second), ('events', ''):
            with open(os.path.join(folder, name), 'w', encoding='utf-8') as file:
                file.write(text)
        for name in 'store', 'store-wal':
            if os.path.exists(os.path.join(folder, name)):
                os.remove(os.path.join(folder, name))
        status(folder, ['replay', 'app', 'events', '--db', 'store'])
        words = line.split() + ['--db', 'store']
        yield expected('%s, then %s' % (first, line), *said(folder, b'', words=words), want)
        if line.startswith(('dump', 'why')):
            yield None if status(folder, words) == (9 if want else 0) else 'the program takes the store: ' + line


def said(folder, data, name='damaged.app', words=('check', 'damaged.app')):
    with open(os.path.join(folder, name), 'wb') as file:
        file.write(data)
    told = subprocess.run([sys.executable, SCRIPT, PROGRAM, *words], cwd=folder, stdin=subprocess.DEVNULL,
                          stdout=subprocess.PIPE, stderr=subprocess.PIPE, check=False)
    return told.stdout.decode(), told.stderr.decode()


def main():
    chance = random.Random(WORDS.seed)
    paths = sorted(glob.glob(os.path.join(TOP, 'examples', '*.app')) + glob.glob(os.path.join(TOP, 'examples', '*', 'app')))
    texts = {os.path.relpath(path, TOP): open(path, 'rb').read() for path in paths}
    passed = failed = 0
    with tempfile.TemporaryDirectory() as folder:
        for name, data in texts.items():
            out, err = said(folder, data)
            if out or err:
                print('FAILED %s: nothing is wrong, and this is said: %s' % (name, err[:200]))
                failed += 1
            else:
                passed += 1
        for damage in DAMAGES:
            tries = [(name, *one) for name, data in texts.items() for one in damage(data, tree_of(data))]
            for name, data, at in chance.sample(tries, min(WANTED, len(tries))):
                out, err = said(folder, data)
                want = 'damaged.app:%d:%d: ' % fault_place.line_and_column(data, at)
                if not out and err.startswith(want):
                    passed += 1
                else:
                    print('FAILED %s, %s: wanted %s, and this is said: %s' % (damage.__name__, name, want, err[:300]))
                    failed += 1
        for wrong in [*messages(folder), *commands(folder), *refused_lines(folder), *stores(folder)]:
            if wrong:
                print('FAILED ' + wrong)
            failed, passed = failed + bool(wrong), passed + (not wrong)
        said(folder, texts['examples/calendar.app'], 'well.app')
        said(folder, b'(app (model User (fields (name', 'open.app')
        for words, want in ((['upgrade', 'well.app', 'damaged.app', '--db', 'd'], 'damaged.app:1:20: '),
                            (['upgrade', '--db', 'd', 'damaged.app', 'open.app'], 'damaged.app:1:20: '),
                            (['why', 'damaged.app', '4096'], 'damaged.app:1:20: '), (['upgrade', 'well.app',
                                                                                      'well.app', '--db', 'd'], ''),
                            (['why', 'well.app', '4096'], ''), (['why', 'well.app', 'damaged.app'], 'jac: VIEWER is ')):
            out, err = said(folder, b'(app (view get "/" (putt "a")))', words=words)
            if out or err[:len(want) or None] != want:
                print('FAILED %s: wanted %s, and this is said: %s' % (' '.join(words), want, err[:300]))
                failed += 1
            else:
                passed += 1
    print('%d passed, %d failed' % (passed, failed))
    return 1 if failed else 0


if __name__ == '__main__':
    sys.exit(main())
