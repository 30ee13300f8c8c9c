"""Evaluates closed terms of specs/. It handles the part of the logic that definitions by cases are written in, with
numbers, lists, records and functions, and the names of std that they use. No proof depends on it.
`mutate_definitions.py` uses it to compute the values of the examples after a definition was mutated."""
import os
import re
import sys

from support.pages import TOP, read

sys.setrecursionlimit(100000)
TOKEN = re.compile(r'"(?:[^"\\]|\\.)*"|0x[0-9A-F_]+|◌[^\s(){},;]+◌|\.(?=[01]\b)|[\w\'₀-₉]+(?:[.-](?=[\w])[\w]+)*|\+ℤ|-ℤ|\*ℤ|\+\+|&&|\|\||==|'
                   r'[()\[\]{};,λ∷≡→×⊎^=<≤+*/%.:]|\S')
LEVELS = (('→',), ('⊎',), ('×',), ('≡',), ('||',), ('&&',), ('==', '<', '≤'), ('∷', '++'), ('+', '+ℤ', '-ℤ', '-'), ('*', '*ℤ', '/', '%'), ('^',))
RIGHT = {'∷', '++', '→', '×', '⊎', '^', '&&', '||'}


class Fault(Exception):
    """A term that has no value: as it is written, it has no meaning."""


class Made(tuple):
    """A constructor applied to its arguments."""
    __slots__ = ()

    def __new__(cls, name, *args):
        return tuple.__new__(cls, (name,) + args)


class Rec(dict):
    __hash__ = None


def none():
    return Made('None')


def some(x):
    return Made('Some', x)


# --- terms ---------------------------------------------------------------------------------------------------------------

class Reader:
    """Reads a term from its tokens. A term is a tuple, and its first item says what kind of term it is."""

    def __init__(self, text):
        self.tokens, self.at = TOKEN.findall(text), 0

    def peek(self):
        return self.tokens[self.at] if self.at < len(self.tokens) else None

    def take(self, wanted=None):
        token = self.peek()
        if token is None or wanted is not None and token != wanted:
            raise Fault('%s in place of %s' % (token, wanted))
        self.at += 1
        return token

    def term(self):
        token = self.peek()
        if token == 'λ':
            return self.function()
        if token == 'if':
            self.take()
            test = self.term()
            self.take('then')
            one = self.term()
            self.take('else')
            return ('if', test, one, self.term())
        if token == 'let':
            self.take()
            name = self.take()
            if self.peek() == ':':
                while self.peek() != '=':
                    self.take()
            self.take('=')
            value = self.term()
            self.take('in')
            return ('let', name, value, self.term())
        return self.infix(0)

    def function(self):
        self.take('λ')
        names = []
        while self.peek() != '.':
            if self.peek() == '(':
                self.take()
                while self.peek() != ':':
                    names.append(self.take())
                depth = 1
                while depth:
                    token = self.take()
                    depth += (token == '(') - (token == ')')
            else:
                names.append(self.take())
                if names[-1].endswith('.'):
                    names[-1] = names[-1][:-1]
                    break
        if self.peek() == '.':
            self.take()
        return ('function', tuple(names), self.term())

    def infix(self, level):
        if level == len(LEVELS):
            return self.application()
        left = self.infix(level + 1)
        if self.peek() in LEVELS[level] and self.peek() in RIGHT:
            sign = self.take()
            right = self.term() if self.peek() in ('λ', 'if', 'let') else self.infix(level)
            return ('infix', sign, left, right)
        while self.peek() in LEVELS[level]:
            sign = self.take()
            right = self.term() if self.peek() in ('λ', 'if', 'let') else self.infix(level + 1)
            left = ('infix', sign, left, right)
        return left

    def application(self):
        parts = [self.atom()]
        while self.starts_atom():
            parts.append(self.term() if self.peek() == 'λ' else self.atom())
        return parts[0] if len(parts) == 1 else ('apply', parts[0], tuple(parts[1:]))

    def starts_atom(self):
        token = self.peek()
        return token is not None and token not in ('then', 'else', 'in', 'if', 'let') and (
            token in '([' or token == 'record' or token[0] in '"◌' or re.match(r'\w', token) is not None)

    def atom(self):
        token = self.take()
        if token == '(':
            parts = [self.term()]
            while self.peek() == ',':
                self.take()
                parts.append(self.term())
            self.take(')')
            found = parts[0] if len(parts) == 1 else ('tuple', tuple(parts))
        elif token == '[':
            self.take(']')
            found = ('name', '[]')
        elif token == '{':
            while self.take() != '}':
                pass
            return self.atom()
        elif token == 'record':
            found = self.record()
        elif token[0] == '"':
            found = ('text', token[1:-1])
        elif re.fullmatch(r'0x[0-9A-F_]+|[0-9_]+', token):
            found = ('number', int(token.replace('_', ''), 0))
        elif re.match(r'[\w◌]', token):
            found = ('name', token)
        else:
            raise Fault('a term begins with ' + token)
        while self.peek() == '.' and self.at + 1 < len(self.tokens) and re.match(r'\w', self.tokens[self.at + 1]):
            self.take()
            found = ('field', found, self.take())
        if self.peek() == '{' and found[0] == 'name':
            while self.take() != '}':
                pass
        return found

    def record(self):
        base = None if self.peek() == '{' else self.atom_before_braces()
        self.take('{')
        parts = []
        while self.peek() != '}':
            name = self.take()
            self.take('=')
            parts.append((name, self.term()))
            if self.peek() == ';':
                self.take()
        self.take('}')
        return ('record', base, tuple(parts))

    def atom_before_braces(self):
        if self.peek() == '(':
            return self.atom()
        return ('name', self.take())


def read_term(text):
    reader = Reader(text)
    term = reader.term()
    if reader.peek() is not None:
        raise Fault('left over: ' + str(reader.peek()))
    return term


# --- files ---------------------------------------------------------------------------------------------------------------

class File:
    """The definitions of a file by name, each with its clauses (patterns and a term), and the modules that other names
    come from."""

    def __init__(self, world, text):
        self.world, self.names, self.modules, self.clauses, self.read, self.ready = world, {}, {}, {}, {}, {}
        text = re.sub(r'(?m)^\s*--.*$', '', text)
        for line in re.findall(r'(?m)^\s*(?:pub )?(?:ghost )?use (.*?);?$', text):
            self.imports(line)
        if not text.lstrip().startswith(('ghost', '#!')):
            for name, left, right in definitions(text):
                self.clauses.setdefault(name, []).append((left, right))

    def imports(self, line):
        braces = re.fullmatch(r'([\w.]+)\.\{(.*)\}', line)
        if braces:
            for word in braces.group(2).split(','):
                name, _, other = word.strip().partition(' as ')
                self.names[other.strip() or name] = (braces.group(1), name)
        else:
            path, _, other = line.partition(' as ')
            self.modules[other.strip() or path.split('.')[-1]] = path

    def of(self, name):
        """Returns what a name in this file means: its own definition, or an imported one."""
        if name in self.clauses:
            if name not in self.read:
                self.read[name] = [(tuple(map(read_term, parts(left))), read_term(right)) for left, right in self.clauses[name]]
            if name not in self.ready:
                self.ready[name] = function_of(self, name, self.read[name])
            return self.ready[name]
        if name.rpartition('.')[0].endswith('ghosts'):
            return STD[name[name.index('ghosts'):]]
        if name in self.names:
            path, other = self.names[name]
            found = self.world.file(path)
            if found is not None and (other in found.clauses or other in found.names):
                return found.of(other)
            name = other
        if name in STD:
            return STD[name]
        head, _, last = name.rpartition('.')
        if (head and (head.split('.')[0] in self.modules or head.split('.')[0][:1].isupper())
                or name[:1].isupper() and not head):
            return constructor(last)
        raise Fault('no meaning of ' + name)


def definitions(text):
    """Returns the clauses of a file, each as its name, its left side and its right side."""
    lines, found = text.split('\n'), []
    place = 0
    while place < len(lines):
        line = lines[place]
        indent = len(line) - len(line.lstrip())
        block = line
        place += 1
        if not line.strip() or re.match(r'\s*(?:pub )?use |abbrev mutual|mutual|(?:pub )?(?:record|data) |module ', line):
            continue
        while place < len(lines) and lines[place].strip() and (
                len(lines[place]) - len(lines[place].lstrip()) > indent or re.match(r'\s*[)\]}]', lines[place])):
            block += '\n' + lines[place]
            place += 1
        match = re.match(r'\s*(\w+)((?:[^="]|"[^"]*")*?)\s=\s(.*)', block, re.S)
        if match and not re.search(r' : ', match.group(2)):
            found.append((match.group(1), match.group(2), match.group(3)))
    return found


def parts(left):
    """Returns the patterns of a left side."""
    out, depth, start = [], 0, None
    for place, mark in enumerate(left + ' '):
        if mark in '([{':
            if depth == 0 and start is None:
                start = place
            depth += 1
        elif mark in ')]}':
            depth -= 1
        elif mark.isspace() and not depth:
            if start is not None:
                out.append(left[start:place])
            start = None
        elif start is None:
            start = place
    return [part for part in out if not part.startswith('{')]


def matches(pattern, value, env, file):
    kind = pattern[0]
    if kind == 'name':
        name = pattern[1]
        if name == '_':
            return True
        if name == '[]':
            return value == ()
        if name in ('true', 'false'):
            return value is (name == 'true')
        if name == 'zero':
            return value == 0
        if '.' in name or name[:1].isupper():
            return isinstance(value, Made) and value[0] == name.split('.')[-1] and len(value) == 1
        env[name] = value
        return True
    if kind == 'infix' and pattern[1] == '∷':
        return (isinstance(value, tuple) and not isinstance(value, Made) and len(value) > 0
                and matches(pattern[2], value[0], env, file) and matches(pattern[3], value[1:], env, file))
    if kind == 'apply':
        name = pattern[1][1].split('.')[-1]
        if name == 'suc':
            return isinstance(value, int) and value > 0 and matches(pattern[2][0], value - 1, env, file)
        return (isinstance(value, Made) and value[0] == name and len(value) == len(pattern[2]) + 1
                and all(matches(one, other, env, file) for one, other in zip(pattern[2], value[1:])))
    if kind == 'tuple':
        return len(value) == len(pattern[1]) and all(matches(one, other, env, file) for one, other in zip(pattern[1], value))
    raise Fault('no pattern: ' + str(pattern))


def curried(size, body):
    """Returns a function of `size` arguments that are passed one at a time."""
    if size == 0:
        return body(())

    def given(have):
        return lambda x: body(have + (x,)) if len(have) + 1 == size else given(have + (x,))
    return given(())


def function_of(file, name, clauses):
    size = len(clauses[0][0])

    def body(args):
        file.world.spend()
        for patterns, right in clauses:
            env = {}
            if len(patterns) != size:
                raise Fault('clauses of several lengths: ' + name)
            if all(matches(pattern, value, env, file) for pattern, value in zip(patterns, args)):
                return evaluate(right, env, file)
        raise Fault('no case of ' + name)
    return curried(size, body)


def constructor(name):
    sizes = {'true': 0}
    return sizes.get(name) or Maker(name, ())


class Maker(Made):
    """A constructor that takes any number of arguments, one at a time."""
    __slots__ = ()

    def __new__(cls, name, args):
        return tuple.__new__(cls, (name,) + args)

    def __call__(self, x):
        return Maker(self[0], tuple(self[1:]) + (x,))


def apply(f, x):
    if not callable(f):
        raise Fault('it is no function')
    return f(x)


def evaluate(term, env, file):
    kind = term[0]
    if kind == 'name':
        return look(term[1], env, file)
    if kind == 'number':
        return term[1]
    if kind == 'text':
        return tuple(unescaped(term[1]).encode())
    if kind == 'apply':
        value = evaluate(term[1], env, file)
        for arg in term[2]:
            value = apply(value, evaluate(arg, env, file))
        return value
    if kind == 'infix':
        return INFIX[term[1]](lambda: evaluate(term[2], env, file), lambda: evaluate(term[3], env, file))
    if kind == 'if':
        return evaluate(term[2] if truth(evaluate(term[1], env, file)) else term[3], env, file)
    if kind == 'let':
        return evaluate(term[3], dict(env, **{term[1]: evaluate(term[2], env, file)}), file)
    if kind == 'function':
        return curried(len(term[1]), lambda args: evaluate(term[2], dict(env, **dict(zip(term[1], args))), file))
    if kind == 'field':
        return field(evaluate(term[1], env, file), term[2])
    if kind == 'tuple':
        return Made('', *(evaluate(part, env, file) for part in term[1]))
    if kind == 'record':
        value = Rec(evaluate(term[1], env, file) if term[1] else {})
        value.update((name, evaluate(part, env, file)) for name, part in term[2])
        return value
    raise Fault('no term: ' + kind)


def look(name, env, file):
    head, *rest = name.split('.')
    if head in env:
        value = env[head]
        for part in rest:
            value = field(value, part)
        return value
    if name in ('true', 'false'):
        return name == 'true'
    if rest and (head in file.clauses or head in file.names) and head != 'ghosts' and head[:1].islower() and head not in file.modules:
        value = file.of(head)
        if isinstance(value, Rec):
            for part in rest:
                value = field(value, part)
            return value
    return file.of(name)


def field(value, name):
    if name in ('0', '1') and isinstance(value, Made) and value[0] == '':
        return value[int(name) + 1]
    if not isinstance(value, Rec) or name not in value:
        raise Fault('no field ' + name)
    return value[name]


def unescaped(text):
    return re.sub(r'\\(.)', lambda match: {'n': '\n', 'r': '\r', 't': '\t'}.get(match.group(1), match.group(1)), text)


# --- what std says -------------------------------------------------------------------------------------------------------

def truth(value):
    if not isinstance(value, bool):
        raise Fault('no truth value')
    return value


def number(value):
    if isinstance(value, bool) or not isinstance(value, int):
        raise Fault('no number')
    return value


def listed(value):
    if isinstance(value, Made) or not isinstance(value, tuple):
        raise Fault('no list')
    return value


def option(value):
    if not isinstance(value, Made) or value[0] not in ('None', 'Some'):
        raise Fault('no option')
    return None if value[0] == 'None' else value


def of(size, body):
    return curried(size, lambda args: body(*args))


def rank(value):
    """Returns a key that orders values as their derived comparison does."""
    order = ('Int', 'Text', 'Bool', 'Ref')
    if not isinstance(value, Made) or value[0] not in order:
        raise Fault('no value')
    inner = value[1]
    if value[0] == 'Ref':
        inner = () if option(inner) is None else (inner[1],)
    return order.index(value[0]), inner


def cmp_values(a, b):
    one, two = rank(a), rank(b)
    return Made('Less') if one < two else Made('Greater') if one > two else Made('Equal')


def position(test, items):
    for place, item in enumerate(listed(items)):
        if truth(apply(test, item)):
            return some(place)
    return none()


def slice_set(items, place, value):
    return tuple(value if at == place else item for at, item in enumerate(listed(items)))


def pointwise(test, one, two):
    return len(listed(one)) == len(listed(two)) and all(truth(apply(apply(test, a), b)) for a, b in zip(one, two))


def percent(b):
    return tuple(b'%%%02X' % number(b))


def saturated(i):
    return max(-2 ** 63, min(2 ** 63 - 1, number(i)))


def decimal(i):
    return tuple(str(number(i)).encode())


STD = {
    'codes': lambda text: text, 'pos': lambda n: number(n), 'negsuc': lambda n: -number(n) - 1, 'neg_ℤ': lambda i: -number(i),
    '[]': (), 'true': True, 'false': False, 'not': lambda b: not truth(b), 'None': none(), 'Some': some, 'w64': 64, 'zero': 0,
    'suc': lambda n: number(n) + 1, 'length': lambda xs: len(listed(xs)), 'map': of(2, lambda f, xs: tuple(apply(f, x) for x in listed(xs))),
    'take': of(2, lambda n, xs: listed(xs)[:number(n)]), 'drop': of(2, lambda n, xs: listed(xs)[number(n):]),
    'slice_get': of(2, lambda xs, n: some(listed(xs)[number(n)]) if number(n) < len(listed(xs)) else none()),
    'slice_set': of(3, slice_set), 'unwrap_or': of(2, lambda o, x: x if option(o) is None else o[1]),
    'position': of(2, position), 'pointwise': of(3, pointwise), '◌==◌': of(2, lambda a, b: number(a) == number(b)),
    'nat_le': of(2, lambda a, b: number(a) <= number(b)), 'nat_lt': of(2, lambda a, b: number(a) < number(b)),
    'flat_map': of(2, lambda f, xs: tuple(y for x in listed(xs) for y in listed(apply(f, x)))),
    'list_any': of(2, lambda f, xs: any(truth(apply(f, x)) for x in listed(xs))),
    'list_all': of(2, lambda f, xs: all(truth(apply(f, x)) for x in listed(xs))),
    'beq': of(2, lambda a, b: truth(a) == truth(b)), 'saturate_signed': of(2, lambda w, i: saturated(i)),
    'is_lt': lambda o: o[0] == 'Less', 'ghosts.cmp': of(2, cmp_values), 'ghosts.eq': of(2, lambda a, b: rank(a) == rank(b)),
    'percent_encode_byte': percent, 'decimal': decimal, 'signed_decimal': decimal,
}


def cons(a, b):
    return (a(),) + listed(b())


INFIX = {
    '&&': lambda a, b: truth(a()) and truth(b()), '||': lambda a, b: truth(a()) or truth(b()), '∷': cons,
    '++': lambda a, b: listed(a()) + listed(b()), '==': lambda a, b: number(a()) == number(b()),
    '+': lambda a, b: number(a()) + number(b()), '*': lambda a, b: number(a()) * number(b()),
    '/': lambda a, b: number(a()) // number(b()), '%': lambda a, b: number(a()) % number(b()),
    '-': lambda a, b: max(0, number(a()) - number(b())), '^': lambda a, b: number(a()) ** number(b()),
    '+ℤ': lambda a, b: number(a()) + number(b()), '-ℤ': lambda a, b: number(a()) - number(b()),
    '*ℤ': lambda a, b: number(a()) * number(b()),
}


# --- examples ------------------------------------------------------------------------------------------------------------

class Logic:
    """The files of specs/. One of them may be given another text."""

    def __init__(self, crate):
        self.files, self.left, self.turned = {}, 0, None
        self.examples = list(self.examples_of(crate))

    def spend(self):
        self.left -= 1
        if self.left < 0:
            raise Fault('it takes too long')

    def file(self, path):
        """Returns the file of a module's path, such as `Rattle.jac_plain.specs.World`, or None if the repository has no
        such file."""
        words = path.split('.')
        where = 'crates/%s/specs/%s.antt' % (words[1], '/'.join(words[3:])) if len(words) > 3 else ''
        if where not in self.files:
            known = where and os.path.exists(os.path.join(TOP, where))
            self.files[where] = File(self, read(where)) if known else None
        return self.files[where]

    def examples_of(self, crate):
        """Yields the equations among the examples in a crate's clauses, each with its name, its file and its two
        sides."""
        folder = 'crates/%s/src' % crate
        for name in sorted(os.listdir(os.path.join(TOP, folder))):
            text = read('%s/%s' % (folder, name))
            file = File(self, text)
            for function, body in re.findall(r'(?s)pub fn (\w+)\(\)(.*?)\n\{\}', text):
                for clause, term in re.findall(r'(?s)ensures (\w+) \{ (.*?) \}(?=\n    ensures|$)', body):
                    if '→' in term:
                        continue        # a statement, which only the prover can check
                    read_as = read_term(term)
                    if read_as[:2] == ('infix', '≡'):
                        yield '%s.%s' % (function, clause), file, read_as

    def fails(self, turned=None):
        """Returns the first example that fails, or None. An example fails if its two sides have different values, or if
        it has no meaning. In the latter case the reason is returned too. `turned` is a path, and a text that replaces
        that file's text."""
        kept = dict(self.files)
        if turned:
            self.files[turned[0]] = File(self, turned[1])
        for file in self.files.values():
            if file is not None:
                file.ready = {}
        for _, file, _ in self.examples:
            file.ready = {}
        try:
            for name, file, (_, _, one, two) in self.examples:
                self.left = 400000
                try:
                    if evaluate(one, {}, file) != evaluate(two, {}, file):
                        return name, None
                except (Fault, RecursionError, TypeError, IndexError, KeyError, ValueError) as fault:
                    return name, '%s: %s' % (type(fault).__name__, fault)
            return None
        finally:
            if turned:
                self.files = kept
