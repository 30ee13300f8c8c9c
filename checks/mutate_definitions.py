#!/usr/bin/env python3
"""Mutates the definitions of the ordinary interpreter, the policies, the requests and the pages, one at a time, and
checks that a computed example of jac_semantics_examples fails. It isn't part of the gate. That crate proves the values
of the examples.

    python3 checks/mutate_definitions.py [--count 200] [--seed 1] [--only TEXT] [--list] [--all]
                             [--prove] [--jobs 1] [--through "WORDS"] [--results FILE]

These are the mutations of a definition's right side: `&&` for `||`, `<` for `<=`, `true` for `false`, a number plus
one, `None` for a `Some`, last for first, two arguments or two neighbouring cases exchanged, the sides of an `if`
exchanged, and a case, a `not`, a condition or a field of a record left out. All of them are made from the text in one
order. The seed chooses --count of them, spread over the files. `--all` takes all. `definition_values.py` computes the
value of each example with the mutation in place, in a tenth of a second for each mutation. If an example then has no
meaning, for example because of a wrong type, the mutation is invalid. It is reported as `not made` and doesn't count.

Mutations that no example notices are reported. With `--prove` the prover then checks the whole crate of the definition
in a copy. If it refuses the definition, the mutation is invalid. If it refuses a law or the code, that law or code
notices the mutation. With `--prove` statements are mutated too. Their names begin with a capital letter, and
`definition_values.py` can't evaluate them. If jac_semantics_examples depends on their crate, the prover checks its
examples too. Mutations of jac_engine are first tried with the examples of jac_answer_examples. For that the definitions
are copied among those of this crate, so that the engine isn't proved for each mutation. `--jobs` is the number of
copies that work in parallel. `--through` is a command that each check is run through. Mutations whose outcome is in the
results file aren't tried again."""
import collections
import concurrent.futures
import os
import queue
import random
import re
import shutil
import subprocess
import sys
import tempfile

sys.dont_write_bytecode = True
from definition_values import Logic, parts                                  # noqa: E402
from support.pages import TOP, read, script_parser                          # noqa: E402

SAMPLES, FILES = 'jac_semantics_examples', {
    'jac_plain': ('Expressions', 'World', 'Statements', 'Policies', 'Requests', 'Reading', 'Records', 'Making', 'Models'),
    'jac_rows': ('Project', 'Tables', 'Good'),
    'jac_engine': ('Answers',),
}
# Crates whose definitions are tried with another crate's examples, as a copy among that crate's definitions.
ASKED = {'jac_engine': 'jac_answer_examples'}
OPENING, CLOSING = '([{', ')]}'
TOKEN = re.compile(r'"(?:[^"\\]|\\.)*"|λ|[◌\w.₀-₉]+(?:-[\w.]+)*|[()\[\]{};,]|[^\s\w()\[\]{};,"λ]+')
EXCHANGED = {'&&': '||', '||': '&&', '<': '≤', '≤': '<', '+ℤ': '-ℤ', '-ℤ': '+ℤ', '*ℤ': '+ℤ', '+': '*', '*': '+', '/': '%',
             '%': '/', 'true': 'false', 'false': 'true', 'nat_lt': 'nat_le', 'nat_le': 'nat_lt', '×': '⊎', '⊎': '×',
             'is_narrow': 'is_wide', 'is_wide': 'is_narrow', 'verbs.Get': 'verbs.Post', 'verbs.Post': 'verbs.Get'}
# Words and signs after which a new application begins.
KEYWORDS = {'if', 'then', 'else', 'let', 'in', 'λ', 'record', 'before', '=', '→', '&&', '||', '++', '∷', '==', '≡', '×', '⊎',
            '<', '≤', '+', '*', '/', '%', '^', '+ℤ', '-ℤ', '*ℤ', ':', '.', ';', ','}
# How the prover reports an example that it refuses.
EXAMPLE = re.compile(r'(?m)^fn (?:%s)::\w+::(\w+): no' % '|'.join([SAMPLES, *ASKED.values()]))
# Functions whose result doesn't depend on the order of their two arguments, so exchanging these is no mutation.
EVEN = {'same_text', 'equality.ghosts.eq', 'beq'}
Turn = collections.namedtuple('Turn', 'crate path line kind before after text says')
Item = collections.namedtuple('Item', 'start end indent name')


def masked(text):
    """Returns the text with blanks for comments and underscores for what is in quotes, place for place."""
    blank = lambda match: re.sub(r'[^\n]', ' ', match.group(0))                 # noqa: E731
    quoted = lambda match: '"' + '_' * (len(match.group(0)) - 2) + '"'          # noqa: E731
    return re.sub(r'"(?:[^"\\\n]|\\.)*"', quoted, re.sub(r'(?m)^\s*--.*$', blank, text))


def items(plain):
    """Returns the items of the text, each a line with what belongs to it: a clause of a definition, a field, a
    signature."""
    found = []
    for match in re.finditer(r'(?m)^( *)(\S.*)$', plain):
        indent = len(match.group(1))
        first = match.group(2).split()[0]
        if found and (indent > found[-1].indent or re.match(r'[)\]}]', first)):
            found[-1] = found[-1]._replace(end=match.end())
        else:
            found.append(Item(match.start(), match.end(), indent, first))
        if re.match(r'(?:pub )?(?:abbrev )?(?:mutual|module)\b|(?:abbrev )?mutual$|.*\bwhere$', match.group(2)):
            found[-1] = found[-1]._replace(indent=indent, name='', end=match.end())
            found.append(Item(match.end(), match.end(), 10 ** 6, ''))
    return [item for item in found if item.name and item.name not in ('use', 'pub', 'abbrev', 'record', 'mutual')]


def clauses(text):
    """Yields the clauses of the definitions: the item of each, and where its right side begins."""
    plain = masked(text)
    for item in items(plain):
        equals = re.search(r' =(?=\s)', plain[item.start:item.end])
        if equals and not re.search(r' : ', plain[item.start:item.start + equals.start()]):
            yield item, item.start + equals.end()


def fields(text):
    """Yields where the fields begin and end of the records that aren't plain data. Each such field states something."""
    plain = masked(text)
    for match in re.finditer(r'(?m)^pub record \w+(?:.*\n(?!  pub ))*.*\bwhere\n((?:  .*\n)*)', plain):
        inner, start = match.group(1), match.start(1)
        places = [found.start() for found in re.finditer(r'(?m)^  pub ', inner)] + [len(inner.rstrip()) + 1]
        if len(places) > 2 and re.search(r'≡|≤|<|\b(?:Is|Are|Has|Shows)[A-Z]', inner):
            for begin, end in zip(places, places[1:]):
                yield start + begin, start + end


def atoms(text, start, end):
    """Returns the applications between two places, also those inside brackets, each as the places of its parts."""
    plain, run, found = masked(text), [], []

    def close():
        if len(run) > 1:
            found.append(list(run))
        run.clear()

    place = start
    while place < end:
        match = TOKEN.search(plain, place, end)
        if not match:
            break
        token, place = match.group(0), match.end()
        if token in OPENING:
            depth, inner = 1, place
            while depth and place < end:
                depth += (plain[place] in OPENING) - (plain[place] in CLOSING)
                place += 1
            found += atoms(text, inner, place - 1)
            run.append((match.start(), place))
        elif token in KEYWORDS or not re.match(r'[\w"◌]', token):
            close()
            if token == 'λ':
                dot = re.compile(r'\.(?=\s)').search(plain, place, end)
                place = dot.end() if dot else place
        else:
            run.append((match.start(), match.end()))
    close()
    return found


def signatures():
    """Returns the types of the arguments of each name of specs/ that has only one signature."""
    found = collections.defaultdict(set)
    for crate in ('jac_value', 'jac_world', 'jac_lang', 'jac_rows', 'jac_plain', 'jac_route', 'jac_replies', 'jac_engine'):
        folder = os.path.join(TOP, 'crates', crate, 'specs')
        for file in sorted(os.listdir(folder)):
            text = masked(read(os.path.relpath(os.path.join(folder, file), TOP)))
            for name, kind in re.findall(r'(?m)^ *(?:abbrev )?(?:pub )?(\w+) : (.*→.*)$', text):
                types = [text[one:two].strip() for text, one, two in arguments_of(kind)]
                found[name].add(tuple(one for one in types if not one.startswith('{')))
            for name, header in re.findall(r'(?m)^pub record (\w+)((?: *\n? *\([^)]*(?:\([^)]*\)[^)]*)*\))+)', text):
                found[name].add(tuple(kind.strip() for names, kind in re.findall(r'\(([\w ]+) : ((?:[^()]|\([^()]*\))*)\)', header)
                                      for _ in names.split()))
    return {name: next(iter(types)) for name, types in found.items() if len(types) == 1}


def arguments_of(kind):
    """Returns the argument types of a type: its parts before its outermost arrows."""
    parts = operands(kind, 0, len(kind), '→')
    return [(kind, one, two) for one, two in parts[:-1]]


def may_exchange(known_types, head, place):
    """Returns whether two neighbouring arguments may have the same type: they do, or the function's signature isn't
    known here."""
    types = known_types.get(head.split('.')[-1])
    return types is None or place + 1 >= len(types) or types[place] == types[place + 1]


def by_tokens(text, start, end, known_types):
    """Yields mutations with their kinds: a word's opposite, a number plus one, none for some, a `not` left out, two
    arguments exchanged."""
    plain = masked(text)
    for match in TOKEN.finditer(plain, start, end):
        token = match.group(0)
        if token in EXCHANGED:
            yield 'for ' + token, match.start(), match.end(), EXCHANGED[token]
        elif re.fullmatch(r'\d+', token):
            yield 'one more', match.start(), match.end(), str(int(token) + 1)
        elif re.fullmatch(r'0x[0-9A-F]+', token):
            yield 'one more', match.start(), match.end(), hex(int(token, 16) + 1)
    for run in atoms(text, start, end):
        head = text[run[0][0]:run[0][1]]
        if head == 'Some' and len(run) == 2:
            yield 'none for some', run[0][0], run[1][1], 'None'
        if head == 'not' and len(run) == 2:
            yield 'without not', run[0][0], run[1][1], text[run[1][0]:run[1][1]]
        for place, (one, two) in enumerate(zip(run[1:], run[2:])):
            first, second = text[one[0]:one[1]], text[two[0]:two[1]]
            if first != second and head not in EVEN and may_exchange(known_types, head, place):
                yield 'exchanged', one[0], two[1], second + text[one[1]:two[0]] + first


def named_kinds(left, types, known_types):
    """Returns the variables of a left side, each with its type, as far as that is known."""
    found = {}
    for part, kind in zip(parts(left), types or ()):
        if re.fullmatch(r'[a-z]\w*', part):
            found[part] = kind
        inner = re.fullmatch(r'\((?:[\w]+\.)?(\w+)((?: [a-z]\w*)+)\)', part)
        if inner and inner.group(1) in known_types:
            found.update(zip(inner.group(2).split(), known_types[inner.group(1)]))
    return {name: kind for name, kind in found.items() if name not in ('true', 'false', 'zero', 'suc')}


def by_names(text, item, start, known_types):
    """Yields mutations: a variable replaced by the next one of its type, and the values of two neighbouring fields of a
    record exchanged."""
    plain = masked(text)
    left = plain[item.start:start - 2].strip()[len(item.name):]
    kinds = named_kinds(left, known_types.get(item.name), known_types)
    for match in re.finditer(r'(?<![\w.])([a-z]\w*)', plain[start:item.end]):
        alike = [name for name in kinds if kinds[name] == kinds.get(match.group(1))]
        if len(alike) > 1:
            other = alike[(alike.index(match.group(1)) + 1) % len(alike)]
            yield 'another name', start + match.start(1), start + match.end(1), other
    for match in re.finditer(r'record (?:\w+ )?\{([^{}]*)\}', plain[start:item.end]):
        begin = start + match.start(1)
        values = [(begin + found.start(1), begin + found.end(1)) for found in re.finditer(r'\w+ = ([^;]+)', match.group(1))]
        for one, two in zip(values, values[1:]):
            first, second = text[one[0]:one[1]].strip(), text[two[0]:two[1]].strip()
            if first != second:
                yield 'exchanged fields', one[0], two[1], second + text[one[1]:two[0]] + first


def operands(plain, start, end, sign):
    """Returns the places of the operands of this sign at the outermost level between two places, or nothing if the sign
    isn't there."""
    depth, cuts, place = 0, [], start
    while place < end:
        mark = plain[place]
        depth += (mark in OPENING) - (mark in CLOSING)
        if not depth and plain.startswith(' %s ' % sign, place):
            cuts.append(place)
        place += 1
    if not cuts:
        return []
    edges = [start] + [cut + len(sign) + 2 for cut in cuts]
    return list(zip(edges, cuts + [end]))


def spans(plain, start, end):
    """Yields the places of the right side, and of what is inside each of its brackets."""
    yield start, end
    stack = []
    for place in range(start, end):
        if plain[place] in OPENING:
            stack.append(place + 1)
        elif plain[place] in CLOSING and stack:
            yield stack.pop(), place


def by_structure(text, start, end):
    """Yields mutations: a condition left out, and the sides of a `++` or of an `if` exchanged."""
    plain = masked(text)
    for begin, stop in spans(plain, start, end):
        while begin < stop and plain[begin].isspace():
            begin += 1
        for sign, kind in (('&&', 'left out'), ('||', 'left out'), ('×', 'left out'), ('++', 'last for first')):
            parts = operands(plain, begin, stop, sign)
            for one, two in zip(parts, parts[1:]):
                first, second = text[one[0]:one[1]], text[two[0]:two[1]]
                if ' ≡ ' in first and sign == '&&' or '→' in first or ' if ' in ' ' + first:
                    continue
                if kind == 'left out':
                    yield kind, one[0], two[1], first
                    yield kind, one[0], two[1], second
                elif first.strip() != second.strip():
                    yield kind, one[0], two[1], '(%s) ++ (%s)' % (second.replace('∷ []', '∷ []'), first)
        sides = re.match(r'\s*if (.*?) then (.*?) else (.*)$', plain[begin:stop], re.S)
        if sides and not re.search(r'\b(?:if|then|else)\b', sides.group(1) + sides.group(2)):
            one, two = (tuple(begin + place for place in sides.span(group)) for group in (2, 3))
            yield 'exchanged sides', one[0], two[1], text[two[0]:two[1]] + text[one[1]:two[0]] + text[one[0]:one[1]]


def variables(side):
    return set(re.findall(r'(?<![\w.])[a-z]\w*(?![\w.])', side))


def by_cases(text, found):
    """Yields mutations: a case left out that another case covers, and the right sides of two neighbouring cases
    exchanged."""
    for place, ((one, right), (two, other)) in enumerate(zip(found, found[1:])):
        if one.name != two.name or one.indent != two.indent:
            continue
        heads = variables(text[one.start:right]), variables(text[two.start:other])
        first, second = text[right:one.end].strip(), text[other:two.end].strip()
        bound = not (variables(first) & (heads[0] - heads[1])) and not (variables(second) & (heads[1] - heads[0]))
        if first != second and bound:
            yield 'exchanged cases', one.start, two.end, (text[one.start:right] + ' ' + second + text[one.end:other] + ' ' + first)
        later = [text[item.start:side] for item, side in found[place + 1:] if item.name == one.name]
        if any(not re.search(r'[(\[A-Z.]|true|false|zero|suc', side) for side in later):
            yield 'without a case', one.start, two.end, text[two.start:two.end]


def turns(crate, name, known_types):
    """Returns all mutations of a file, in the order of the text. Those of statements are marked."""
    path = 'crates/%s/specs/%s.antt' % (crate, name)
    text, made = read(path), []
    found = list(clauses(text))
    for item, right in found:
        several = (list(by_tokens(text, right, item.end, known_types)) + list(by_structure(text, right, item.end))
                   + list(by_names(text, item, right, known_types)))
        made += [(item.name[0].isupper(),) + each for each in several]
    made += [(text[each[1]:each[2]].lstrip()[0].isupper(),) + each for each in by_cases(text, found)]
    for begin, end in fields(text):
        made.append((True, 'without a field', begin, end, ''))
        made += [(True,) + each for each in by_tokens(text, text.index(' : ', begin) + 3, end, known_types)]
    seen = {}
    for says, kind, start, end, new in made:
        whole = text[:start] + new + text[end:]
        if whole != text:
            seen.setdefault(whole, Turn(crate, path, text.count('\n', 0, start) + 1, kind, squeezed(text[start:end]),
                                        squeezed(new), whole, says))
    return sorted(seen.values(), key=lambda turn: (turn.line, turn.kind, turn.before, turn.after))


def squeezed(words):
    return ' '.join(words.split())


def chosen(words):
    """Returns the chosen mutations, in an order that the seed gives, and the number of all mutations. Each file is
    represented in proportion to its mutations."""
    known_types, chance, found = signatures(), random.Random(words.seed), []
    every = [[turn for turn in turns(crate, name, known_types) if words.prove or not turn.says]
             for crate, names in FILES.items() for name in names if words.prove or crate != 'jac_engine']
    total = sum(map(len, every))
    if words.all:
        return sum(every, []), total
    for made in every:
        found += chance.sample(made, min(len(made), max(3, round(words.count * len(made) / total))))
    chance.shuffle(found)
    return found[:words.count], total


def below(crate, but=()):
    """Returns the crate and the crates of this repository that it depends on, without those of `but`, lowest first."""
    lines = dict(line.split(':', 1) for line in read('crates.txt').split('\n') if line and not line.startswith('#'))
    needed, left = set(), [crate]
    while left:
        name = left.pop()
        if name in lines and name not in needed and name not in but:
            needed.add(name)
            left += lines[name].split()
    kept = {name: ' '.join(word for word in lines[name].split() if word not in but) for name in lines if name in needed}
    return list(kept), kept


def copy(folder, crate, but=()):
    """Fills a folder with what this crate needs, including libraries."""
    needed, lines = below(crate, but)
    with open(os.path.join(folder, 'crates.txt'), 'w', encoding='utf-8') as file:
        file.write(''.join('%s: %s\n' % (name, lines[name]) for name in needed))
    shutil.copy(os.path.join(TOP, 'HANDLES'), folder)
    for name in needed:
        shutil.copytree(os.path.join(TOP, 'crates', name), os.path.join(folder, 'crates', name), symlinks=True,
                        ignore=shutil.ignore_patterns('must-fail'))


def as_own(folder, crate, asked):
    """Copies the definitions of a crate that are mutated among those of the crate whose examples are tried."""
    top = os.path.join(folder, 'crates', asked)
    for name in FILES[crate]:
        shutil.copy(os.path.join(TOP, 'crates', crate, 'specs', name + '.antt'), os.path.join(top, 'specs'))
        with open(os.path.join(top, 'specs', 'Lib.antt'), 'a', encoding='utf-8') as file:
            file.write('pub mod %s\n' % name)
    for at, _, names in os.walk(top):
        for name in names:
            if name.endswith(('.rt', '.antt')):
                path = os.path.join(at, name)
                text = read(path).replace('Rattle.%s.specs.' % crate, 'Rattle.%s.specs.' % asked)
                with open(path, 'w', encoding='utf-8') as file:
                    file.write(text)


class Place:
    """Folders with what a definition's crate needs. Mutations are tried in them one after another."""

    def __init__(self, through):
        self.through, self.folders = through, {}

    def folder(self, crate, asked):
        if (crate, asked) not in self.folders:
            self.folders[crate, asked] = tempfile.mkdtemp(prefix='turned-')
            copy(self.folders[crate, asked], asked, but=[crate] if ASKED.get(crate) == asked else [])
            if ASKED.get(crate) == asked:
                as_own(self.folders[crate, asked], crate, asked)
        return self.folders[crate, asked]

    def tried(self, turn):
        """Returns the prover's outcome for a mutation: it is invalid, or an example, a law or the code notices it, or
        nothing does."""
        outcome = self.told(turn, ASKED[turn.crate]) if turn.crate in ASKED else 'SURVIVES'
        if outcome != 'SURVIVES':
            return outcome
        return self.told(turn, SAMPLES if turn.says and turn.crate in below(SAMPLES)[0] else turn.crate)

    def told(self, turn, asked):
        """Returns the outcome of checking one crate with the mutation."""
        place = turn.path.replace(turn.crate, asked) if ASKED.get(turn.crate) == asked else turn.path
        path = os.path.join(self.folder(turn.crate, asked), place)
        before = read(path)
        with open(path, 'w', encoding='utf-8') as file:
            file.write(turn.text)
        top = path[:-len(place)]
        done = subprocess.run(self.through + ['rt', 'check'], cwd=os.path.join(top, 'crates', asked),
                              stdout=subprocess.PIPE, stderr=subprocess.STDOUT, check=False)
        with open(path, 'w', encoding='utf-8') as file:
            file.write(before)
        told = done.stdout.decode(errors='replace')
        example = EXAMPLE.search(told)
        if not done.returncode and 'logic=proved' in told:
            return 'SURVIVES'
        if is_unmade(told, os.path.basename(turn.path)):
            return 'not made'
        return 'example ' + example.group(1) if example else 'a law'

    def close(self):
        for folder in self.folders.values():
            shutil.rmtree(folder, ignore_errors=True)


def is_unmade(told, name):
    """Returns whether the definition itself was refused."""
    return re.search(r'(?m)specs/(?:\S*/)?%s: ?\S*.*(?:error|expected|refused)' % re.escape(name), told) is not None


def by_examples(numbered):
    """Yields what the examples say about each mutation."""
    logic = Logic(SAMPLES)
    wrong = logic.fails()
    if wrong:
        sys.exit('FAILED the example %s doesn\'t hold: %s' % (wrong[0], wrong[1] or 'its sides differ'))
    for number, turn in numbered:
        failed = None if turn.says else logic.fails((turn.path, turn.text))
        yield number, turn, 'SURVIVES' if failed is None else 'not made' if failed[1] else 'example ' + failed[0]


def line_of(number, turn, outcome):
    return '%d | %s | %s:%d | %s | %s | %s' % (number, outcome, turn.path.replace('crates/', ''), turn.line, turn.kind,
                                               turn.before[:200], turn.after[:200])


def known(path):
    """Returns the outcomes of earlier runs, by what follows the outcome in a line of the results."""
    if not path or not os.path.exists(path):
        return {}
    with open(path, encoding='utf-8') as file:
        lines = [line.split(' | ', 2) for line in file.read().split('\n') if re.match(r'\d+ \| ', line)]
    return {rest: outcome for _, outcome, rest in lines}


def ask_prover(left, words):
    """Yields what the prover says about these mutations, each as it becomes known."""
    places = queue.Queue()
    for _ in range(words.jobs):
        places.put(Place(words.through.split()))

    def one(number, turn):
        place = places.get()
        try:
            return number, turn, place.tried(turn)
        finally:
            places.put(place)

    with concurrent.futures.ThreadPoolExecutor(words.jobs) as pool:
        for done in concurrent.futures.as_completed([pool.submit(one, *each) for each in left]):
            yield done.result()
    while not places.empty():
        places.get().close()


def try_all(numbered, words):
    """Prints and records the outcome of each mutation as it becomes known. Returns how often each outcome occurred."""
    told, outcomes = known(words.results), {}

    def tell(number, turn, outcome):
        outcomes[number] = outcome
        line = line_of(number, turn, outcome)
        print(line, flush=True)
        if words.results:
            with open(words.results, 'a', encoding='utf-8') as file:
                file.write(line + '\n')

    left, fresh = [], []
    for number, turn in numbered:
        outcome = told.get(line_of(number, turn, '').split(' | ', 2)[2])
        if outcome:
            outcomes[number] = outcome
        else:
            fresh.append((number, turn))
    for number, turn, outcome in by_examples(fresh):
        if outcome == 'SURVIVES' and words.prove:
            left.append((number, turn))
        else:
            tell(number, turn, outcome)
    for each in ask_prover(left, words) if left else ():
        tell(*each)
    return collections.Counter(outcome.split()[0] for outcome in outcomes.values())


def read_words():
    parser = script_parser()
    for name, shown, kind, value, about in (
            ('--count', 'N', int, 200, 'how many mutations the seed chooses (%(default)s)'),
            ('--seed', 'N', int, 1, 'the seed (%(default)s)'),
            ('--jobs', 'N', int, 1, 'how many copies work in parallel (%(default)s)'),
            ('--through', 'WORDS', str, '', 'a command that each check is run through'),
            ('--results', 'FILE', str, '', 'the file of outcomes; those of earlier runs are read from it'),
            ('--only', 'TEXT', str, '', 'only the mutations in files whose path has this text')):
        parser.add_argument(name, metavar=shown, type=kind, default=value, help=about)
    for name, about in (('--list', 'list the mutations, and try none'), ('--all', 'take all mutations'),
                        ('--prove', 'ask the prover about each mutation that no example notices')):
        parser.add_argument(name, action='store_true', help=about)
    return parser.parse_args()


def main():
    words = read_words()
    found, total = chosen(words)
    numbered = [(number, turn) for number, turn in enumerate(found) if words.only in turn.path]
    if words.list:
        for number, turn in numbered:
            print(line_of(number, turn, 'to try'))
        print('%d of %d' % (len(numbered), total))
        return
    counts = try_all(numbered, words)
    made = len(numbered) - counts['not']
    print('%d turns of %d that there are: %d not made; of %d, %d seen by an example, %d by a law, %d by nothing' % (
        len(numbered), total, counts['not'], made, counts['example'], counts['a'], counts['SURVIVES']))
    sys.exit(1 if counts['SURVIVES'] else 0)


if __name__ == '__main__':
    main()
