#!/usr/bin/env python3
"""Compares the built program with the second interpreter of checks/reference_interpreter.py, on random applications and
random requests.

For each request, the status, the location and the body must be those of the ordinary interpreter in the world that the
audited labels show. These labels must be settled for the viewer. At the end, for some sets of labels, the tables of the
store must be those of the worlds. About a third of the applications are run over a file, and in two runs. Then the
program is asked why labels are hidden, and each hidden label must have the reason that the worlds give. The file is
upgraded to a random extension of the application, dumped, and used for further requests.

Arguments: the program, a number of applications or a time such as `600s`, and the seed of the first application (by
default the time). Prints each failure, then a count."""
import copy
import os
import random
import re
import subprocess
import sys
import tempfile
import time
import urllib.parse

from support import proved
from reference_interpreter import App, Store, pairs_of, read_parameter, text_of

MOST_LABELS = 7
TEXTS = b'', b'a', b'b', b'ab', b'<x>', b'"', b'a\\b', 'é'.encode()
NUMBERS = 0, 1, 2, 7, -3, 2 ** 63 - 1, -2 ** 63
PLAIN = 'int', 'text', 'bool'


def written(tree):
    if isinstance(tree, bytes):
        return '"%s"' % tree.decode().replace('\\', '\\\\').replace('"', '\\"')
    return '(%s)' % ' '.join(map(written, tree)) if isinstance(tree, list) else str(tree)


class Scope:
    """What an expression may use: names with their kinds, and whether there are a viewer, a record, queries and
    tables."""

    def __init__(self, names, viewer=None, this=None, queries=True, tables=True):
        self.names, self.viewer, self.this, self.queries, self.tables = names, viewer, this, queries, tables

    def plus(self, names):
        return Scope(self.names + names, self.viewer, self.this, self.queries, self.tables)


class Maker:
    """Makes random well-formed applications, and requests to them."""

    def __init__(self, seed):
        self.random = random.Random(seed)
        self.names = 0

    def chance(self, part):
        return self.random.random() < part

    def pick(self, things):
        return self.random.choice(list(things))

    def fresh(self, letter):
        self.names += 1
        return '%s%d' % (letter, self.names)

    # expressions

    def literal(self, kind):
        if kind == 'int':
            return str(self.pick(NUMBERS))
        if kind == 'text':
            return self.pick(TEXTS)
        if kind == 'bool':
            return self.pick(('true', 'false'))
        return ['none', kind[1]]

    def leaves(self, kind, scope):
        found = [name for name, have in scope.names if have == kind]
        if isinstance(kind, list):
            if scope.viewer == kind[1]:
                found.append('viewer')
            if scope.this == kind[1]:
                found.append('this')
        return found

    def expression(self, kind, scope, depth):
        leaves = self.leaves(kind, scope)
        if depth <= 0 or self.chance(0.25):
            return self.pick(leaves) if leaves and self.chance(0.8) else self.literal(kind)
        forms = [self.get, self.choice]
        if kind == 'int':
            forms += [self.arithmetic, self.counted, self.summed]
        elif kind == 'text':
            forms += [self.joined, self.spelled]
        elif kind == 'bool':
            forms += [self.compared, self.compared, self.less, self.both, self.denied, self.some, self.alive]
        else:
            forms += [self.first]
        made = self.pick(forms)(kind, scope, depth - 1)
        return made if made is not None else (self.pick(leaves) if leaves else self.literal(kind))

    def get(self, kind, scope, depth):
        fields = [(model, name) for model in self.models for name, have in model['fields'] if have == kind]
        if not scope.tables:
            fields = [(model, name) for model, name in fields if model['name'] == scope.this]
        if not fields:
            return None
        model, name = self.pick(fields)
        reference = 'this' if not scope.tables else self.expression(['ref', model['name']], scope, depth)
        return ['get', model['name'], name, reference]

    def choice(self, kind, scope, depth):
        return ['pick', self.expression('bool', scope, depth), self.expression(kind, scope, depth),
                self.expression(kind, scope, depth)]

    def arithmetic(self, kind, scope, depth):
        return [self.pick(('add', 'sub', 'mul')), self.expression('int', scope, depth), self.expression('int', scope, depth)]

    def counted(self, kind, scope, depth):
        return ['count', self.query(scope, depth, 1)[0]] if scope.queries else None

    def summed(self, kind, scope, depth):
        if not scope.queries:
            return None
        query, bound = self.query(scope, depth, 1)
        return ['sum', query, self.expression('int', scope.plus(bound), depth)]

    def joined(self, kind, scope, depth):
        return ['cat'] + [self.expression('text', scope, depth) for _ in range(self.random.randint(1, 3))]

    def spelled(self, kind, scope, depth):
        return ['str', self.expression(self.kind(), scope, depth)]

    def compared(self, kind, scope, depth):
        one = self.kind()
        return ['eq', self.expression(one, scope, depth), self.expression(one, scope, depth)]

    def less(self, kind, scope, depth):
        one = self.pick(('int', 'text'))
        return ['lt', self.expression(one, scope, depth), self.expression(one, scope, depth)]

    def both(self, kind, scope, depth):
        return [self.pick(('and', 'and', 'or')), self.expression('bool', scope, depth), self.expression('bool', scope, depth)]

    def denied(self, kind, scope, depth):
        return ['not', self.expression('bool', scope, depth)]

    def some(self, kind, scope, depth):
        return ['some', self.query(scope, depth, 2)[0]] if scope.queries else None

    def alive(self, kind, scope, depth):
        if not scope.tables:
            return None
        return ['live', self.expression(['ref', self.pick(self.models)['name']], scope, depth)]

    def first(self, kind, scope, depth):
        return ['first', self.query(scope, depth, 2, kind[1])[0]] if scope.queries else None

    def kind(self):
        return self.pick(PLAIN) if self.chance(0.6) else ['ref', self.pick(self.models)['name']]

    def query(self, scope, depth, most, first=None):
        binders = []
        for place in range(self.random.randint(1, most)):
            model = first if first and not place else self.pick(self.models)['name']
            binders.append((self.fresh('b'), model))
        bound = [(name, ['ref', model]) for name, model in binders]
        inner = scope.plus(bound)
        condition = self.sought(binders, scope, inner, depth) if self.chance(0.6) else self.expression('bool', inner, depth)
        order = 'key'
        if self.chance(0.4):
            name, model = self.pick(binders)
            fields = self.by_name(model)['fields']
            order = [self.pick(('up', 'down')), name, self.pick(fields)[0]]
        return ['from', [[name, model] for name, model in binders], condition, order], bound

    def sought(self, binders, scope, inner, depth):
        """Returns a condition that looks records up by a value, sometimes combined with another condition."""
        name, model = self.pick(binders)
        field, kind = self.pick(self.by_name(model)['fields'])
        sides = [['get', model, field, name], self.expression(kind, self.pick((scope, inner)), min(depth, 1))]
        if self.chance(0.2):
            sides.reverse()
        found = ['eq'] + sides
        if self.chance(0.5):
            other = self.expression('bool', inner, depth)
            found = ['and', found, other] if self.chance(0.5) else ['and', other, found]
        return found

    def by_name(self, name):
        return next(model for model in self.models if model['name'] == name)

    # applications

    def application(self):
        count = self.random.randint(1, 3)
        self.models = [{'name': 'M%d' % k, 'fields': [], 'nested': False} for k in range(count)]
        self.models[0]['fields'].append((self.fresh('f'), 'text'))
        for model in self.models:
            for _ in range(self.random.randint(1, 3)):
                model['fields'].append((self.fresh('f'), self.kind()))
        if count > 1 and self.chance(0.25):
            self.models[-1]['nested'] = True
        self.viewer = 'M0' if self.chance(0.85) else None
        trees = [['viewer', self.viewer]] if self.viewer else []
        trees += [self.model(model) for model in self.models]
        self.views = []
        for k in range(self.random.randint(2, 4)):
            self.views.append(self.view('post', k))
        for k in range(self.random.randint(2, 4)):
            self.views.append(self.view('get', k))
        return ['app'] + trees + [view['tree'] for view in self.views]

    def model(self, model):
        tree = ['model', model['name']] + (['nested'] if model['nested'] else [])
        tree.append(['fields'] + [[name, kind] for name, kind in model['fields']])
        free, groups = list(model['fields']), []
        for _ in range(self.random.choice((0, 1, 1, 2))):
            hides = not any(group[1] == 'hides' for group in groups)
            if hides and self.chance(0.25):
                groups.append(['group', 'hides', self.policy(model)])
            elif free:
                groups.append(self.guarding(model, free, 2))
        return tree + groups

    def guarding(self, model, free, most):
        """Returns a group that guards one or two of these fields, and removes those fields from `free`."""
        guards = [free.pop(self.random.randrange(len(free)))]
        if len(free) and most > 1 and self.chance(0.3):
            guards.append(free.pop())
        return ['group', ['guards'] + [[name, self.public(model, kind)] for name, kind in guards], self.policy(model)]

    def policy(self, model):
        return ['policy', self.expression('bool', Scope([], self.viewer, model['name'], tables=True), 3)]

    def public(self, model, kind):
        return self.expression(kind, Scope([], None, model['name'], queries=False, tables=False), 2)

    # the next version of an application

    def extension(self, tree):
        """Returns an application that extends this one. Fields, groups and models are added. Some policies, some public
        values and all views are replaced."""
        parts = copy.deepcopy([part for part in tree[1:] if part[0] != 'view'])
        trees = [part for part in parts if part[0] == 'model']
        for model in self.models:
            for _ in range(self.random.choice((0, 0, 1, 2))):
                model['fields'].append((self.fresh('f'), self.kind()))
        if self.chance(0.4):
            fields = [(self.fresh('f'), 'text'), (self.fresh('f'), self.kind())]
            self.models.append({'name': 'M%d' % len(self.models), 'fields': fields, 'nested': self.chance(0.2)})
        for model, part in zip(self.models, trees):
            self.extend(model, part)
        parts += [self.model(model) for model in self.models[len(trees):]]
        self.views = [self.view('post', k) for k in range(2)] + [self.view('get', k) for k in range(2)]
        return ['app'] + parts + [view['tree'] for view in self.views]

    def extend(self, model, tree):
        place = next(k for k, part in enumerate(tree) if isinstance(part, list))
        tree[place] = ['fields'] + [[name, kind] for name, kind in model['fields']]
        kinds, guarded, hides = dict(model['fields']), set(), False
        for group in tree[place + 1:]:
            hides = hides or group[1] == 'hides'
            if self.chance(0.3):
                group[2] = self.policy(model)
            for guard in group[1][1:] if group[1] != 'hides' else []:
                guarded.add(guard[0])
                if self.chance(0.3):
                    guard[1] = self.public(model, kinds[guard[0]])
        free = [field for field in model['fields'] if field[0] not in guarded]
        if self.chance(0.5):
            if not hides and self.chance(0.4):
                tree.append(['group', 'hides', self.policy(model)])
            elif free:
                tree.append(self.guarding(model, free, 2))

    def view(self, method, k):
        params = [(self.fresh('p'), self.kind()) for _ in range(self.random.randint(0, 2))]
        path = '/%s%d' % (method, k)
        if params and self.chance(0.4):
            path += '/{%s}' % params[0][0]
        self.left = 2
        body = self.statements(method, Scope(params, self.viewer), 2, [], None)
        if method == 'get' or not body:
            body.append(['put', self.expression('text', Scope(params, self.viewer), 2)])
        tree = ['view', method, path.encode(), ['params'] + [[name, kind] for name, kind in params]] + body
        return {'method': method.upper(), 'path': path, 'params': params, 'tree': tree}

    def statements(self, method, scope, depth, lets, loop):
        return [self.statement(method, scope, depth, lets, loop) for _ in range(self.random.randint(1, 3))]

    def statement(self, method, scope, depth, lets, loop):
        forms = [self.put, self.put, self.escape]
        if depth > 0:
            forms += [self.branch, self.loop, self.bound]
        if lets:
            forms += [self.assigned]
        if method == 'post':
            forms += [self.create] * 3 + [self.update, self.update, self.delete, self.redirect]
        if self.chance(0.05):
            return ['missing']
        made = self.pick(forms)(method, scope, depth, lets, loop)
        return made if made is not None else self.put(method, scope, depth, lets, loop)

    def put(self, method, scope, depth, lets, loop):
        return ['put', self.expression(self.kind(), scope, 3)]

    def escape(self, method, scope, depth, lets, loop):
        return ['esc', self.expression(self.kind(), scope, 2)]

    def redirect(self, method, scope, depth, lets, loop):
        return ['redirect', ['cat', b'/', self.expression('text', scope, 2)]]

    def branch(self, method, scope, depth, lets, loop):
        return ['if', self.expression('bool', scope, 3), self.statements(method, scope, depth - 1, lets, loop),
                self.statements(method, scope, depth - 1, lets, loop) if self.chance(0.5) else []]

    def loop(self, method, scope, depth, lets, loop):
        query, bound = self.query(scope, 2, 2)
        plain = len(bound) == 1 and not self.by_name(bound[0][1][1])['nested']
        inner = 'around' if plain and loop is None else 'never'
        return ['for', query] + self.statements(method, scope.plus(bound), depth - 1, lets, inner)

    def bound(self, method, scope, depth, lets, loop):
        name, kind = self.fresh('x'), self.kind()
        inner = scope.plus([(name, kind)])
        return ['let', name, self.expression(kind, scope, 2)] \
            + self.statements(method, inner, depth - 1, lets + [(name, kind)], loop)

    def assigned(self, method, scope, depth, lets, loop):
        name, kind = self.pick(lets)
        return ['assign', name, self.expression(kind, scope, 2)]

    def sets(self, model, scope, part):
        return ['set'] + [[name, self.expression(kind, scope, 2)] for name, kind in model['fields'] if self.chance(part)]

    def create(self, method, scope, depth, lets, loop):
        wanted = {None: False, 'around': True}.get(loop)
        models = [model for model in self.models if model['nested'] == wanted]
        if not models or not self.left:
            return None
        self.left -= 1
        model, name = self.pick(models), self.fresh('c')
        inner = scope.plus([(name, ['ref', model['name']])])
        body = self.statements(method, inner, depth - 1, lets, loop) if depth > 0 and self.chance(0.4) else []
        return ['create', name, model['name'], self.sets(model, scope, 0.8)] + body

    def update(self, method, scope, depth, lets, loop):
        model = self.pick(self.models)
        return ['update', model['name'], self.expression(['ref', model['name']], scope, 2), self.sets(model, scope, 0.6)]

    def delete(self, method, scope, depth, lets, loop):
        if self.chance(0.5):
            return None
        model = self.pick(self.models)
        return ['delete', model['name'], self.expression(['ref', model['name']], scope, 2)]

    # requests

    def value(self, kind, keys):
        if kind == 'int':
            return str(self.pick(NUMBERS + (2 ** 63, '+1', 'x', '-'))).encode()
        if kind == 'text':
            return self.pick(TEXTS)
        if kind == 'bool':
            return self.pick((b'1', b'true', b'on', b'false', b''))
        return str(self.pick(keys) if keys and self.chance(0.85) else self.pick((0, 4096, 12289))).encode()

    def request(self, keys):
        view = self.pick(self.views)
        values = [(name, self.value(kind, keys)) for name, kind in view['params'] if self.chance(0.9)]
        path, sent = view['path'], list(values)
        if '{' in path:
            name, kind = view['params'][0]
            inside = self.value(kind, keys)
            path = path[:path.index('{')] + urllib.parse.quote_from_bytes(inside, safe='')
            if not inside:
                path = '/nowhere'
            sent = [(name, inside)] + sent
        if self.chance(0.03):
            path = '/nowhere'
        method = view['method'] if self.chance(0.95) else self.pick(('GET', 'POST', 'HEAD'))
        text = urllib.parse.urlencode(values)
        query, body = (text, '') if view['method'] == 'GET' or self.chance(0.1) else ('', text)
        return method, path, query, body


def unescaped(text):
    short = {b'n': b'\n', b'r': b'\r', b't': b'\t'}
    return re.sub(rb'\\(x[0-9a-fA-F]{2}|.)', lambda m: bytes([int(m[1][1:], 16)]) if m[1][:1] == b'x' and len(m[1]) == 3
                  else short.get(m[1], m[1]), text)


REPLY = re.compile(rb'reply (\d+) "((?:[^"\\]|\\.)*)" "((?:[^"\\]|\\.)*)"$')


class Case:
    def __init__(self, program, seed):
        self.program, self.maker = program, Maker(seed)
        self.tree = self.maker.application()
        self.begin('app', written(self.tree).encode())
        self.store, self.most, self.asked = Store(self.app), MOST_LABELS, 0

    def begin(self, name, text):
        """Makes this the application of all further runs."""
        self.name, self.text = name, text
        self.app = App(text)
        self.lines, self.expected = [], []

    def find(self, method, path):
        """Returns, for each method, the first view that the path matches, with the values of its path parameters."""
        parts = [urllib.parse.unquote_to_bytes(part) for part in path.split('/')]
        found = {}
        for view in self.app.views:
            wanted = view.path.split('/')
            if len(wanted) == len(parts):
                taken = [(want[1:-1], part.decode('utf-8', 'replace').encode()) for want, part in zip(wanted, parts)
                         if want.startswith('{')]
                if all(want.startswith('{') or want.encode() == part for want, part in zip(wanted, parts)):
                    found.setdefault(view.method, (view, taken))
        return found

    def values(self, view, taken, query, body, method):
        pairs = taken + [(name, value.encode()) for name, value in pairs_of(query)]
        if method == 'POST':
            pairs += [(name, value.encode()) for name, value in pairs_of(body)]
        return [(name, read_parameter(self.app, kind, next((value for have, value in pairs if have == name), b'')))
                for name, kind in view.params]

    def ask(self):
        """Adds one more request, unless it would make too many labels to compare."""
        method, path, query, body = self.maker.request(self.store.keys())
        number = self.maker.pick((None, 4096, 8192, 12288, 12289, 16384))
        viewer = self.app.viewer_of(number)
        found = self.find(method, path)
        view, taken = found.get('GET' if method == 'HEAD' else method, (None, None))
        if view is None:
            self.expected.append((404 if not found else 405, viewer, None, method, None))
        elif view.method == 'GET':
            values = self.values(view, taken, query, body, method)
            worlds = self.store.worlds.copy()
            labels = list(self.store.labels)

            def page(shown):
                run = self.store.run_view(worlds[frozenset(shown) & frozenset(labels)].copy(), view, values, viewer, shown)
                return run.page()
            self.expected.append((None, viewer, page, method, self.seen()))
        else:
            values = self.values(view, taken, query, body, method)
            pages = self.store.post(view, values, viewer, self.most)
            if pages is None:
                return
            labels = list(self.store.labels)
            self.expected.append((None, viewer, lambda shown: pages[frozenset(shown) & frozenset(labels)], method, self.seen()))
        target = path + ('?' + query if query else '')
        self.lines.append('ask %s %s "%s" "%s"\n' % ('-' if number is None else number, method, target, body))

    def seen(self):
        """Returns the store as it is now."""
        now = Store(self.app)
        now.labels, now.worlds = self.store.labels, self.store.worlds
        return now

    def run(self, folder):
        self.folder = folder
        for _ in range(self.maker.random.randint(3, 14)):
            self.ask()
        stored = self.maker.chance(0.33)
        wrong = self.replays(self.maker.random.randint(0, len(self.lines)) if stored else len(self.lines), stored)
        if wrong or not stored:
            return wrong
        return self.dumps() or self.whys() or self.upgrades()

    def write(self, name, data):
        with open(os.path.join(self.folder, name), 'wb') as file:
            file.write(data)

    def runs(self, *words):
        """Runs the program. Returns the exit status and the output."""
        done = subprocess.run([self.program, *words], cwd=self.folder, stdin=subprocess.DEVNULL, stdout=subprocess.PIPE,
                              stderr=subprocess.DEVNULL)
        return done.returncode, done.stdout

    def replays(self, cut, stored):
        """Replays the requests in two runs, split at `cut`, and compares the results."""
        self.write(self.name, self.text)
        replies, audits = [], []
        for part, lines in enumerate((self.lines[:cut], self.lines[cut:])):
            if lines or not part:
                audit = '%s.audit%d' % (self.name, part)
                self.write('events', ''.join(lines).encode())
                status, out = self.runs('replay', self.name, 'events', '--audit', audit, *['--db', 'store'] * stored)
                if status:
                    return 'status %d: %r' % (status, out[-200:])
                replies += out.split(b'\n')[:-1]
                with open(os.path.join(self.folder, audit)) as file:
                    audits += file.read().split('\n')[:-1]
        self.asked += len(self.lines)
        if not len(replies) == len(audits) == len(self.expected):
            return '%d requests, %d replies, %d lines of the audit' % (len(self.expected), len(replies), len(audits))
        for place, (want, reply, audit) in enumerate(zip(self.expected, replies, audits)):
            wrong = self.differs(want, reply, audit)
            if wrong:
                return 'request %d, %s: %s' % (place + 1, self.lines[place].strip(), wrong)
        return None

    def differs(self, want, reply, audit):
        status, viewer, page, method, store = want
        match = REPLY.match(reply)
        have = int(match[1]), unescaped(match[2]), unescaped(match[3])
        _, told, who, shown = audit.split(' ')
        if who != ('-' if viewer is None else str(viewer)) or int(told) != have[0]:
            return 'audit %s' % audit
        if page is None:
            return None if (have[0], shown) == (status, 'nopage') else 'reply %r, wanted %d' % (reply, status)
        if shown == 'nopage':
            return 'no page: %r' % reply
        labels = [] if shown == '-' else [int(label) for label in shown.split(',')]
        wanted = page(labels)
        if method == 'HEAD':
            wanted = wanted[:2] + (b'',)
        if have != wanted:
            return 'reply %r under %s, wanted %r' % (have, shown, wanted)
        why = store.unsettled(viewer, labels)
        return 'labels %s of %s: %s' % (shown, who, why) if why else None

    def dumps(self):
        for _ in range(3):
            labels = [label for label in self.store.labels if self.maker.chance(0.5)]
            _, out = self.runs('dump', self.name, ','.join(map(str, labels)) or '-', '--db', 'store')
            world = self.store.world(labels)
            lines = []
            for model in self.app.models:
                for key in sorted(world.tables[model.place]):
                    cells = zip(model.names, world.tables[model.place][key])
                    lines.append('%s %d%s' % (model.name, key, ''.join(' %s=%s' % (name, dumped(cell)) for name, cell in cells)))
            lines.append('number %d' % world.number)
            have = out.decode('latin-1').split('\n')[:-1]
            if have != lines:
                return '%s, dump of %s: %r, wanted %r' % (self.name, labels, have, lines)
        return None

    def whys(self):
        """Compares what two viewers aren't shown, and the reasons."""
        for number in None, self.maker.pick((4096, 8192, 12289)):
            status, out = self.runs('why', self.name, '-' if number is None else str(number), '--db', 'store')
            lines = out.decode('latin-1').split('\n')[:-1]
            if status or not lines or not lines[0].startswith('shown '):
                return '%s, why of %s: status %d: %r' % (self.name, number, status, lines)
            told, viewer = lines[0][len('shown '):], self.app.viewer_of(number)
            shown = [] if told == '-' else [int(label) for label in told.split(',')]
            why = self.store.unsettled(viewer, shown)
            if why:
                return '%s, why of %s: %s: %s' % (self.name, number, lines[0], why)
            wanted = ['%s because %s' % tuple(map(self.named, pair)) for pair in self.store.whys(viewer, shown)]
            if lines[1:] != wanted:
                return '%s, why of %s: %r, wanted %r' % (self.name, number, lines, wanted)
        return None

    def named(self, label):
        key, group = label // 8, label % 8
        return '%d %s %d %d' % (label, self.app.models[key % 64].name, key, group)

    def upgrades(self):
        """Upgrades the store to the next version of the application, and continues with that version."""
        text = written(self.maker.extension(self.tree)).encode()
        store = self.store.upgraded(App(text))
        if len(store.labels) > MOST_LABELS + 2:
            return None
        self.write('next', text)
        have, want = self.runs('upgrade', 'app', 'next', '--db', 'store'), b'upgraded %d records\n' % len(self.store.keys())
        if have != (0, want):
            return 'upgrade: status %d: %r, wanted %r' % (*have, want)
        self.begin('next', text)
        self.store, self.most = store, max(MOST_LABELS, len(store.labels))
        wrong = self.dumps() or self.whys()
        if wrong:
            return wrong
        for _ in range(self.maker.random.randint(0, 6)):
            self.ask()
        return self.replays(len(self.lines), True) or self.dumps()


def dumped(cell):
    if cell is None:
        return 'none'
    if isinstance(cell, bytes):
        short = {10: '\\n', 13: '\\r', 34: '\\"', 92: '\\\\'}
        return '"%s"' % ''.join(short.get(byte) or (chr(byte) if 32 <= byte <= 126 else '\\x%02x' % byte) for byte in cell)
    return text_of(cell).decode()


def read_words():
    """Returns the program, the number of applications or None, the number of seconds or None, and the first seed."""
    words = proved.words(number={'metavar': 'NUMBER', 'help': 'the number of applications, or a time such as 600s'},
                         seed={'metavar': 'SEED', 'nargs': '?', 'type': int, 'default': int(time.time()) * 1000,
                               'help': 'the seed of the first application, instead of the time'})
    word = words.number
    most, seconds = (None, float(word[:-1])) if word.endswith('s') else (int(word), None)
    return proved.program(words.program), most, seconds, words.seed


def main():
    program, most, seconds, seed = read_words()
    began, count, requests, wrong = time.monotonic(), 0, 0, 0
    while (time.monotonic() - began < seconds if most is None else count < most) and wrong < 5:
        with tempfile.TemporaryDirectory() as folder:
            case = Case(program, seed)
            told = case.run(folder)
            if told:
                wrong += 1
                print('FAILED seed %d: %s' % (seed, told))
                if most == 1:
                    print(case.text.decode() + '\n' + ''.join(case.lines))
        count, requests, seed = count + 1, requests + case.asked, seed + 1
    print('%d applications, %d requests, from seed %d on: %d differ' % (count, requests, seed - count, wrong))
    sys.exit(1 if wrong else 0)


if __name__ == '__main__':
    main()
