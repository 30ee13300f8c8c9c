#!/usr/bin/env python3
"""Compares the editor modes (editors/) with the table that they are made from, the table with docs/LANGUAGE.md, and the
modes with the examples. No arguments. Prints each failure, then a count.

Each form of docs/LANGUAGE.md must be in the table, and each word of the table must be a form on that page. The random
applications, the reference interpreter and tools/fault_place.py must have each form, and tools/form_places.py must find
it. In the examples, each word that begins a form must get the syntax group of its kind from Vim, and the scope of its
kind from the TextMate grammar. The part for Vim is skipped if Vim isn't installed. A few lines of this script read the
grammar as an editor does."""
import glob
import json
import os
import re
import shutil
import subprocess
import sys
import tempfile
import textwrap

sys.dont_write_bytecode = True
from support.pages import TOP, read, script_parser                          # noqa: E402

sys.path.insert(0, os.path.join(TOP, 'tools'))
import editors                                                              # noqa: E402
import fault_place                                                          # noqa: E402
import form_places                                                          # noqa: E402

PAGE = 'docs/LANGUAGE.md'
COMPARED = 'checks/compare.py', 'checks/reference_interpreter.py'
CODE = re.compile(r'`([^`\n]+)`')
APART = re.compile(r'(?m)(?:^    .*\n)+')
HEAD = re.compile(r'\(([a-z]+)(?=[\s)])')
QUOTED = re.compile(r'"(?:[^"\\]|\\.)*"')
# lists inside these forms begin with a name, so they aren't forms
OF_PAIRS = ('fields', 'params', 'set', 'guards')
GROUPS = {'declaration': 'jacDeclaration', 'kind': 'jacKind', 'statement': 'jacStatement', 'part': 'jacStatement',
          'expression': 'jacExpression', 'query': 'jacQuery', 'order': 'jacOrder'}
SCOPES = {'declaration': 'storage.type.declaration', 'kind': 'storage.type.kind',
          'statement': 'keyword.control.statement', 'part': 'keyword.control.statement',
          'expression': 'support.function.expression', 'query': 'keyword.control.query',
          'order': 'keyword.operator.order'}
EXAMPLES = ['examples/notes.app', 'examples/invitations.app', 'examples/records.app', 'examples/agenda.app']
# words that don't begin a form: the text before the word, the word, its group in Vim and its scope in the grammar
ATOMS = '''(app (viewer User)
 (model User (fields (name text) (age int)))
 (model Note nested (fields (text text) (to (ref User)))
  (group hides (policy (and true (eq (get Note to this) viewer)))))
 (view post "/a/{id}" (params (id (ref User)) (b bool))
  (create u User (set (name "a\\n") (age -3))) (for (from ((e User)) true key) (put (get User name e))))
 (view get "/" (params)
  (template "<p>{% (if true) %}a{% else %}{{ (pick b \\"get\\" 2) }}{% end %}</p>")))
'''
WANTED = [
    ('(name ', 'text', 'jacKind', 'storage.type.kind'), ('(age ', 'int', 'jacKind', 'storage.type.kind'),
    ('Note ', 'nested', 'jacMark', 'storage.modifier.mark'), ('(group ', 'hides', 'jacMark', 'storage.modifier.mark'),
    ('(and ', 'true', 'jacConstant', 'constant.language'), ('to ', 'this', 'jacConstant', 'constant.language'),
    ('this) ', 'viewer', 'jacConstant', 'constant.language'),
    ('(view ', 'post', 'jacMethod', 'storage.modifier.method'),
    ('/a/', '{id}', 'jacName', 'variable.parameter.path'), ('(b ', 'bool', 'jacKind', 'storage.type.kind'),
    ('"a', '\\n', 'jacEscape', 'constant.character.escape'), ('(age ', '-3', 'jacNumber', 'constant.numeric'),
    ('true ', 'key', 'jacOrder', 'keyword.operator.order'), ('(if ', 'true', 'jacConstant', 'constant.language'),
    ('{% ', 'else', 'jacTagWord', 'keyword.control.tag'), ('', '{{', 'jacDelimiter', 'punctuation.section.embedded'),
    ('\\"', 'get', 'jacTagText', 'string.quoted.double'), ('{% ', 'end', 'jacTagWord', 'keyword.control.tag'),
]


def heads(node, parent=None):
    """Yields the atoms that begin a form in a tree, also inside templates. A list that begins with a name isn't a
    form."""
    if node.kind != 'list':
        return
    head = node.head()
    if head and parent not in OF_PAIRS and parent != 'binders':
        yield node.children[0]
    for child in node.children:
        if head == 'template' and child.kind == 'text':
            for statement in fault_place.statements_of(child):
                yield from (atom for atom in heads(statement) if atom.end > atom.start)
        else:
            yield from heads(child, 'binders' if head is None and parent == 'from' else head)


def of_language():
    """Checks that the table has each form of the page, and that the page has each word of the table."""
    known = {}
    for word, kind, _ in editors.forms():
        known.setdefault(word, set()).add(kind)
    text = read(PAGE)
    rows = [line.split(' | ')[0] for line in text.split('\n') if line.startswith('| `')]
    tables = {head for row in rows for head in HEAD.findall(row)}
    yield None if len(tables) > 30 else '%s: %d forms in its tables' % (PAGE, len(tables))
    # the page writes branches as (s ..) and (t ..), where s and t stand for statements
    for word in sorted(tables - {'s', 't'}):
        yield None if word in known else 'editors/forms.txt has no %s, a form of %s' % (word, PAGE)
    for block in APART.findall(text):
        for form in of_block(textwrap.dedent(block)):
            yield None if form in known else 'editors/forms.txt has no %s: %s' % (form, block)
    code = [QUOTED.sub('""', part) for part in CODE.findall(text)] + APART.findall(text)
    for word, kind, form in editors.forms():
        wanted = r'\(%s(?=[\s)])' % word if form.startswith('(' + word) else r'(?<![\w-])%s(?![\w-])' % word
        yield None if any(re.search(wanted, part) for part in code) else '%s has no %s, %s' % (PAGE, kind, word)
    for word in [*fault_place.STATEMENTS, *fault_place.EXPRESSIONS]:
        yield None if known.get(word, set()) & {'statement', 'expression'} else 'editors/forms.txt has no %s' % word
    for word in editors.table()['statement'] + editors.table()['expression']:
        yield None if word in fault_place.SHAPES else 'tools/fault_place.py has no form %s' % word
        yield None if form_places.names(word) else 'tools/form_places.py finds no form %s' % word
        # a template is expanded before applications are compared
        for path in (COMPARED if word != 'template' else ()):
            made = re.search(r"'%s'|\b(?:mean|run)_%s\b" % (word, word), read(path))
            yield None if made else '%s has no form %s' % (path, word)


def of_block(block):
    """Returns the forms in an indented block of the page: an application, some of its parts, or statements."""
    if not block.startswith('('):
        return []
    data = ('(parts %s)' % block.replace(' ..', '')).encode()
    return [atom.value for atom in heads(fault_place.read_tree(data, list(range(len(data) + 1)))) if atom.value != 'parts']


def of_files():
    done = subprocess.run([sys.executable, os.path.join(TOP, 'tools', 'editors.py')], stdout=subprocess.PIPE,
                          check=False)
    yield None if done.returncode == 0 else done.stdout.decode()


def wanted_in(path):
    """Yields the places in a file at which a form begins, by line and column from 1, with the word and its kind."""
    with open(path, 'rb') as file:
        data = file.read()
    kinds = {}
    for word, kind, form in editors.forms():
        if form.startswith('(' + word):
            kinds[word] = kind
    for atom in heads(fault_place.read_tree(data, list(range(len(data) + 1)))):
        if atom.value in kinds and data[atom.start:atom.end] == atom.value.encode():
            start = data.rfind(b'\n', 0, atom.start) + 1
            yield data.count(b'\n', 0, atom.start) + 1, atom.start - start + 1, atom.value, kinds[atom.value]


def of_atoms():
    """Yields the places of the words that don't begin a form."""
    at = 0
    for before, word, group, scope in WANTED:
        at = ATOMS.index(before + word, at) + len(before)
        start = ATOMS.rfind('\n', 0, at) + 1
        yield ATOMS.count('\n', 0, at) + 1, at - start + 1, word, group, scope


def by_vim(path, places):
    """Returns the file type and the groups that Vim gives to these places of a file."""
    with tempfile.TemporaryDirectory() as room:
        script, out = os.path.join(room, 'script.vim'), os.path.join(room, 'out')
        lines = ['set nocompatible', 'set runtimepath^=' + os.path.join(TOP, 'editors', 'vim'), 'syntax on',
                 'filetype plugin on', 'edit ' + path, 'let out = [&filetype]']
        lines += ["call add(out, synIDattr(synID(%d, %d, 1), 'name'))" % place for place in places]
        with open(script, 'w', encoding='utf-8') as file:
            file.write('\n'.join([*lines, "call writefile(out, '%s')" % out, 'qall!\n']))
        subprocess.run(['vim', '-u', 'NONE', '-i', 'NONE', '-n', '-es', '-S', script], stdin=subprocess.DEVNULL,
                       stdout=subprocess.DEVNULL, timeout=120, check=False)
        return open(out, encoding='utf-8').read().split('\n')[:-1] if os.path.exists(out) else ['nothing']


class Grammar:
    """Reads lines by a grammar as an editor does: in each line the rule that matches first wins, and of several such
    rules the one listed first."""

    def __init__(self, grammar):
        self.repository = grammar['repository']
        self.top = {'patterns': grammar['patterns']}

    def expanded(self, patterns):
        for pattern in patterns:
            if 'include' in pattern:
                yield from self.expanded(self.repository[pattern['include'][1:]]['patterns'])
            else:
                yield pattern

    def scopes(self, text):
        """Returns the innermost scope of each character that has one, by line and column from 1."""
        found, open_rules = {}, [self.top]
        for number, line in enumerate(text.split('\n'), 1):
            at = 0
            while at <= len(line):
                at = self.step(line, at, open_rules, number, found)
        return found

    def step(self, line, at, open_rules, number, found):
        rule = open_rules[-1]
        choices = [(re.compile(rule['end']).search(line, at), None)] if 'end' in rule else []
        choices += [(re.compile(one.get('match') or one['begin']).search(line, at), one)
                    for one in self.expanded(rule.get('patterns', []))]
        choices = [(match, one) for match, one in choices if match]
        match, one = min(choices, key=lambda choice: choice[0].start(), default=(None, None))
        end = match.start() if match else len(line)
        found.update({(number, place + 1): rule.get('name') for place in range(at, end)})
        if not match:
            return len(line) + 1
        captures = (rule if one is None else one).get('endCaptures' if one is None else 'beginCaptures', {})
        name = captures.get('0', {}).get('name') or (rule if one is None else one).get('name')
        found.update({(number, place + 1): name for place in range(match.start(), match.end())})
        if one is None:
            open_rules.pop()
        elif 'begin' in one:
            open_rules.append(one)
        return match.end() if match.end() > at or one is None or 'begin' in one else at + 1


def of_modes(path, places):
    """Checks the groups and scopes of a file. Each of `places` has a line, a column, a word, a group and a scope."""
    if shutil.which('vim'):
        have = by_vim(path, [place[:2] for place in places])
        wrong = [(place[:4], group) for place, group in zip(places, have[1:]) if place[3] != group]
        yield None if have[0] == 'jac' and not wrong and len(have) == len(places) + 1 else \
            '%s by Vim: %s, %d of %d places are wrong: %s' % (path, have[0], len(wrong), len(places), wrong[:6])
    with open(os.path.join(TOP, 'editors', 'textmate', 'jac.tmLanguage.json'), encoding='utf-8') as file:
        grammar = Grammar(json.load(file))
    with open(path, encoding='utf-8') as file:
        scopes = grammar.scopes(file.read())
    wrong = [(place[:3] + place[4:], scopes.get(place[:2])) for place in places
             if scopes.get(place[:2]) != place[4] + '.jac']
    yield None if not wrong else '%s by the grammar: %d of %d places are wrong: %s' % (
        path, len(wrong), len(places), wrong[:6])


def of_examples(room):
    large = glob.glob('examples/*/app', root_dir=TOP)
    for name in EXAMPLES + sorted(large):
        path = os.path.join(TOP, name)
        places = [(line, column, word, GROUPS[kind], SCOPES[kind]) for line, column, word, kind in wanted_in(path)]
        yield None if len(places) > 50 else '%s: %d places' % (name, len(places))
        yield from of_modes(path, places)
    path = os.path.join(room, 'atoms.app')
    with open(path, 'w', encoding='utf-8') as file:
        file.write(ATOMS)
    yield from of_modes(path, list(of_atoms()))


def main():
    script_parser().parse_args()
    with tempfile.TemporaryDirectory() as room:
        results = [*of_language(), *of_files(), *of_examples(room)]
    for wrong in filter(None, results):
        print('FAILED ' + wrong)
    failed = sum(1 for wrong in results if wrong)
    skipped = 0 if shutil.which('vim') else 1
    if skipped:
        print('SKIPPED the groups of Vim, which is not installed')
    print('%d passed, %d failed%s' % (len(results) - failed, failed, ', %d skipped' % skipped if skipped else ''))
    return 1 if failed else 0


if __name__ == '__main__':
    sys.exit(main())
