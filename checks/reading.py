#!/usr/bin/env python3
"""Follows the names from the clauses of the program's top call, `run` of jac_app, through the definitions in specs/,
and compares what it finds with docs/READING.md. If the page is out of date, this says so and ends with status 1.

    checks/reading.py             compares
    checks/reading.py --write     rewrites the tables of docs/READING.md
    checks/reading.py --beyond    prints, file by file, the definitions of specs/ that the promise doesn't reach
    checks/reading.py --types     prints, file by file, the types and traits that the definitions name

A name is followed if it is defined in specs/, or is a type or a trait of the code. Names from a library are counted.
Variables aren't distinguished from definitions: a variable counts as a definition if its file has or imports a
definition of that name. So the result may have too many definitions, but never too few."""
import os
import re
import sys

sys.dont_write_bytecode = True
from support.pages import TOP, differences, page_parser, read               # noqa: E402

START = ('jac_app', 'program', 'run')
PAGE = 'docs/READING.md'
SOURCES = '## Which notions are public ones'
# The law that states the promise, the definitions that READING quotes with it, and the pages that quote its words.
LAWS = 'jac_headline', 'laws'
HEADLINE = 'headline'
QUOTED = 'HasReplayedFaithfully', 'IsFaithful', 'IsRightPage'
QUOTERS = 'README.md', 'docs/GUARANTEES.md'
# How many definitions each law may reach, and the names at which that count stops. docs/READING.md explains each of
# these names, so what they reach isn't counted.
LIMITS = {
    'headline': (230, ('IsTopRun', 'command_of', 'HoldSessions', 'IsApplication', 'IsAttached', 'script_of',
                       'application_hearing', 'found', 'parameters', 'PutsReplay', 'audit_lines')),
    'nothing_forbidden_is_shown': (100, ('IsFaithful', 'world_behind')),
    'hidden_changes_no_byte': (60, ('IsTopRun', 'command_of', 'HoldGiven', 'HasReplayedFaithfully', 'entry_on')),
    'update_leaves_others': (30, ()),
}

WORD = re.compile(r"(\.?)([^\W\d][\w'-]*)")
HEAD = re.compile(r"(?:(?:abbrev|unfoldable|opaque|pub)\s+)*(?:(record|data)\s+)?([^\W\d][\w'-]*)(\s.*)?$", re.S)


def uncommented(text):
    return re.sub(r'(?m)(?:--|//).*$', '', text)


def first_sentence(text):
    """Returns the first sentence of the first comment, or the whole comment if no sentence ends in it. It gets a
    capital letter, and loses its full stop."""
    first = re.search(r'(?m)^-- .*(?:\n-- .*)*', text)
    words = re.sub(r'\n-- ', ' ', first.group()[3:]).strip() if first else ''
    words = re.sub(r'(?<=\.) .*$', '', words).rstrip('.')
    return words[:1].upper() + words[1:]


def brief(sentence, name):
    """Returns the sentence up to its first colon, if that says by itself what the file is about: it has four words or
    more, and doesn't begin with the file's name."""
    before = sentence.partition(': ')[0]
    return before if len(before.split()) >= 4 and not before.startswith(name) else sentence


class Item:
    """A definition of specs/, or a type, a trait or the top call of the code."""

    def __init__(self, place, name, text=''):
        self.place, self.name, self.text = place, name, text


class Place:
    """A file: its items, and what its imports name."""

    def __init__(self, path, crate):
        self.path, self.crate = path, crate
        self.items, self.imports, self.given = {}, {}, {}

    def add_imports(self, text, pattern, separator):
        for given, path, names, alias in re.findall(pattern, text):
            path = path.split(separator)
            if alias:
                pairs = [(alias, path)]
            elif names:
                pairs = [self.one_import(path, name.strip()) for name in names.split(',') if name.strip()]
            else:
                pairs = [(path[-1], path)]
            self.imports.update(pairs)
            if given:
                self.given.update(pairs)

    @staticmethod
    def one_import(path, name):
        name, _, alias = name.partition(' as ')
        return (alias.strip() or name.strip()), path + [name.strip()]


class Specs(Place):
    """A file of specs/."""

    def __init__(self, path, crate):
        super().__init__(path, crate)
        text = read(path)
        self.about = first_sentence(text)
        self.add_imports(text, r'(?m)^(pub )?use Rattle\.([\w.]+?)(?:\.\{([^}]*)\}| as (\w+))?$', '.')
        self.add_items(uncommented(text))

    def add_items(self, text):
        inner, current = False, None
        for line in text.split('\n'):
            indent = len(line) - len(line.lstrip())
            if not line.strip() or line.lstrip().startswith(('use ', 'pub use ')):
                continue
            if re.match(r'(module\b.*where|(abbrev )?mutual)\s*$', line):
                inner, current = True, None
                continue
            if indent == 0:
                inner = False
            found = HEAD.match(line.strip()) if indent == (2 if inner else 0) else None
            if found:
                current = self.item_at(found) or current
            if current:
                current.text += line + '\n'

    def item_at(self, found):
        kind, name, rest = found.groups()
        starts = kind or (rest or '').lstrip().startswith(':')
        if starts and name not in self.items:
            self.items[name] = Item(self, name)
        return self.items.get(name)


class Code(Place):
    """A file of src/: its types and traits, each with its clauses or its model."""

    def __init__(self, path, crate):
        super().__init__(path, crate)
        text = read(path)
        self.add_imports(text, r'\b(ghost )?use Rattle\.([\w.]+?)(?:\.\{([^}]*)\}| as (\w+))?;', '.')
        self.add_imports(text, r'(?m)^()use ([\w:]+?)(?:::\{([^}]*)\}|(?: as (\w+)))?;', '::')
        text = uncommented(text)
        for kind, name in re.findall(r'(?m)^(?:pub(?:\([a-z]+\))? )?(struct|enum|trait|type) (\w+)', text):
            self.items[name] = Item(self, name, self.block(text, r'%s %s\b' % (kind, name)))
        for name, model in re.findall(r'(?m)^impl(?:<[^>]*>)? Model for (\w+)(.*?^\})', text, re.S | re.M):
            if name in self.items:
                self.items[name].text += re.sub(r'ghost use [^;]*;', '', model)

    @staticmethod
    def block(text, head):
        """Returns the text from the head to its end: a semicolon, or the brace that closes the one on the head's
        line."""
        start = re.search(r'(?m)^.*\b' + head, text).start()
        ends = [at for at in (text.find('\n}', start), text.find(';\n', start)) if at > 0]
        line = text[start:text.find('\n', start)]
        return text[start:(text.find('\n}', start) if line.rstrip().endswith('{') else min(ends))]

    def call(self, name):
        """Returns a function's head with its clauses, without its body."""
        text = uncommented(read(self.path))
        return Item(self, name, re.search(r'(?m)^pub fn %s\b.*?^\{' % name, text, re.S | re.M).group())


class Repository:
    def __init__(self):
        self.specs, self.code, self.types = {}, {}, {}
        for crate in sorted(os.listdir(os.path.join(TOP, 'crates'))):
            if not crate.endswith('_tests'):
                self.add_files(crate, 'specs', '.antt', Specs, self.specs)
                self.add_files(crate, 'src', '.rt', Code, self.code)
        for (crate, _), place in self.code.items():
            for name, item in place.items.items():
                self.types.setdefault((crate, name), item)

    @staticmethod
    def add_files(crate, part, end, kind, places):
        top = os.path.join(TOP, 'crates', crate, part)
        for folder, _, files in os.walk(top):
            for file in sorted(files):
                path = os.path.join(folder, file)
                module = os.path.relpath(path, top)[:-len(end)].replace(os.sep, '.')
                if file.endswith(end) and module not in ('Lib', 'tests'):
                    places[crate, module] = kind(os.path.relpath(path, TOP), crate)

    def item_of(self, place, name):
        """Returns the item that a name in this place stands for, 'std' for a name of a library, or None for anything
        else."""
        if name in place.items:
            return place.items[name]
        if name in place.imports:
            return self.imported(place, place.imports[name])
        return self.types.get((place.crate, name)) if isinstance(place, Code) else None

    def imported(self, place, path):
        crate = place.crate if path[0] in ('crate', 'self', 'super') else path[0]
        if not os.path.isdir(os.path.join(TOP, 'crates', crate)):
            return 'std'
        if 'declared' in path:
            path = [word for word in path if word != 'TheVariants']
            return next((self.types[crate, word] for word in reversed(path) if (crate, word) in self.types), None)
        if len(path) > 2 and path[1] == 'specs':
            target = self.specs.get((crate, '.'.join(path[2:-1])))
            if target is None:
                return None
            found = target.items.get(path[-1])
            if not found and path[-1] in target.given:
                found = self.imported(target, target.given[path[-1]])
            return found
        return self.types.get((crate, path[-1]))

    def cited(self, item):
        """Returns the items that an item's text names, in their order, and the names of libraries."""
        own, library = [], set()
        for dot, name in WORD.findall(item.text):
            found = None if dot else self.item_of(item.place, name)
            if found == 'std':
                library.add(name)
            elif found and found is not item and found not in own:
                own.append(found)
        return own, library

    def walk(self, call=START, stops=()):
        """Returns the item of a call, the items that it reaches, each with those that it cites, and the names of
        libraries. The walk doesn't continue beyond the items that `stops` names."""
        start = self.code[call[:2]].call(call[2])
        seen, library = {}, set()

        def visit(item):
            if item.name in stops:
                seen[item] = []
                return
            seen[item], words = self.cited(item)
            library.update(words)
            for other in reversed(seen[item]):
                if other not in seen:
                    visit(other)

        sys.setrecursionlimit(10000)
        visit(start)
        return start, seen, library


def in_order(start, seen):
    """Returns the files of what was reached, each before those that it cites."""
    cites = {}
    for item, own in seen.items():
        cites.setdefault(item.place, []).extend(other.place for other in own)
    done, order = set(), []

    def visit(place):
        done.add(place)
        for other in reversed(cites.get(place, [])):
            if other not in done:
                visit(other)
        order.append(place)

    visit(start.place)
    return order[::-1]


def names(items):
    return ', '.join('`%s`' % name for name in items) or 'none'


def by_file(seen):
    """Returns the names of what was reached, by file."""
    reached = {}
    for item in seen:
        reached.setdefault(item.place, set()).add(item.name)
    return reached


def short(place):
    """Returns a file of specs/ as the page writes it: `app/Run` for crates/jac_app/specs/Run.antt."""
    return place.path[len('crates/jac_'):-len('.antt')].replace('/specs/', '/')


def definitions_list(start, seen):
    """Returns a list of the files of specs/ that are reached, with a line for each. Each comes before those that it
    cites."""
    reached, lines = by_file(seen), []
    for place in in_order(start, seen):
        if isinstance(place, Specs):
            count = sum(1 for name in place.items if name in reached[place])
            of = '' if count == len(place.items) else '/%d' % len(place.items)
            lines.append('- %s, %d%s. %s' % (short(place), count, of, brief(place.about, short(place).rpartition('/')[2])))
    return '\n'.join(lines)


def types_lines(start, seen):
    """Yields the types and traits that are reached, a line for each file."""
    reached = by_file(seen)
    for place in in_order(start, seen):
        own = [name for name in place.items if name in reached[place]]
        if isinstance(place, Code) and own:
            yield '%s: %s' % (place.path, ', '.join(own))


def beyond_lines(repository, seen):
    """Yields the definitions that aren't reached, a line for each file."""
    reached = by_file(seen)
    for place in repository.specs.values():
        rest = [name for name in place.items if name not in reached.get(place, ())]
        if rest:
            yield '%s: %s' % (place.path, ', '.join(rest))


def counts(repository, seen):
    reached = [item for item in seen if isinstance(item.place, Specs)]
    files = {item.place for item in reached}
    return (len(reached), len(files), sum(len(place.items) for place in repository.specs.values()) - len(reached))


def sentence(repository, seen, library):
    return ('The promise reaches %d definitions in %d files of `specs/`, and %d names of the kit\'s libraries. %d definitions '
            'of `specs/` aren\'t reached.' % (counts(repository, seen)[:2] + (len(library),) + counts(repository, seen)[2:]))


def lost_definitions(repository):
    """Returns what the page's table of public sources cites as `CRATE/FILE`, `NAME`, .. and specs/ doesn't have."""
    lost = []
    for row in read(PAGE).split(SOURCES)[1].split('\n'):
        place = None
        for word in re.findall(r'`([^`]*)`', row) if row.startswith('|') else ():
            if '/' in word:
                crate, _, module = word.partition('/')
                place = repository.specs.get(('jac_' + crate, module.replace('/', '.')))
                lost += [word] if place is None else []
            elif place is not None and word not in place.items:
                lost.append('%s in %s' % (word, place.path))
    return ['%s: there is no %s' % (PAGE, word) for word in lost]


def law_words(name):
    """Returns the doc comment of a law, as a page quotes it."""
    text = read('crates/%s/src/%s.rt' % LAWS)
    lines = re.search(r'((?:^///.*\n)+)pub fn %s\b' % name, text, re.M).group(1).rstrip('\n').split('\n')
    return '\n'.join(line[4:] for line in lines)


def law_code(repository, name):
    """Returns the code of a law and of the definitions that are quoted with it."""
    _, seen, _ = repository.walk(LAWS + (name,))
    law = re.search(r'(?ms)^pub fn %s\b.*?^\{\}' % name, read('crates/%s/src/%s.rt' % LAWS)).group()
    items = {item.name: item for item in seen if item.place.crate == LAWS[0]}
    return '\n'.join(['```', law, ''] + [items[word].text.rstrip('\n') + '\n' for word in QUOTED]).rstrip('\n') + '\n```'


def law_counts(repository):
    """Returns a table of how many definitions each law reaches, and the laws that reach more than they may."""
    lines, wrong = ['| Law | Definitions | Each counted as one |', '|---|---|---|'], []
    for name, (limit, stops) in LIMITS.items():
        _, seen, _ = repository.walk(LAWS + (name,), stops)
        count = sum(1 for item in seen if isinstance(item.place, Specs))
        lines.append('| `%s` | %d | %s |' % (name, count, names(stops)))
        wrong += ['%s reaches %d definitions, and may reach %d' % (name, count, limit)] if count > limit else []
        wrong += ['%s: the walk meets no %s' % (name, stop) for stop in stops if stop not in {item.name for item in seen}]
    return '\n'.join(lines), wrong


def options():
    parser = page_parser()
    parser.add_argument('--beyond', action='store_true',
                        help="print, file by file, the definitions that the promise doesn't reach instead")
    parser.add_argument('--types', action='store_true',
                        help='print, file by file, the types and traits that the definitions name instead')
    return parser.parse_args()


def main():
    given, repository = options(), Repository()
    start, seen, library = repository.walk()
    if given.types:
        return print('\n'.join(types_lines(start, seen)))
    if given.beyond:
        return print('\n'.join(beyond_lines(repository, seen)))
    parts = {'definitions': definitions_list(start, seen),
             'counts': sentence(repository, seen, library),
             'statement': law_code(repository, HEADLINE)}
    parts['laws'], wrong = law_counts(repository)
    for page in QUOTERS:
        wrong += differences(page, {'headline': law_words(HEADLINE)}, 'checks/reading.py', given.write)
    wrong += lost_definitions(repository) + differences(PAGE, parts, 'checks/reading.py', given.write)
    for line in wrong:
        print('FAILED ' + line)
    print(parts['counts'])
    sys.exit(1 if wrong else 0)


if __name__ == '__main__':
    main()
