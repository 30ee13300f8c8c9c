"""The rules of the linter. `found_in` returns the places to look at in the text of an application. tools/lint.py prints
them, and its docstring says what each kind means. A place to look at needn't be wrong."""
import collections
import itertools
import os
import re
import sys
import urllib.parse

sys.path.insert(0, os.path.dirname(os.path.abspath(__file__)))
import fault_place                                                          # noqa: E402
from markup import Markup                                                   # noqa: E402

KINDS = ('write', 'unasked', 'branch', 'nobody', 'copy', 'sum', 'markup', 'escape', 'redirect', 'unlinked')
STORES = {'create': 'a create', 'update': 'an update', 'delete': 'a delete'}
# Follows a name that is bound again in a view, before a number. No name of an application has this character.
AGAIN = '\''
# The most texts before a place that are told apart.
MOST = 64
# The beginning of a location within this site, or at a site that the application names.
OWN_SITE = re.compile(r'/[^/\\]|[?#]|\.{1,2}/|https?://[^/?#]+[/?#]|[A-Za-z0-9_-]+[/?#]')

# The messages of each kind.
SETS_GUARDED = (
    'whoever sends this form sets the guarded %s of %s: no condition around it asks who the viewer is. If '
    'somebody to whom it is hidden saves a form that was filled from it, its public value is stored over it')
MAKES_GUARDED = (
    'whoever sends this form makes a %s with this %s: no condition around it and no field of it asks who the viewer is')
DECIDES = (
    'whoever sends this form %s: no condition around it asks who the viewer is, so anybody may decide who %s')
HIDDEN_FIELD = (
    '%s the guarded %s of %s%s: for those to whom that field is hidden its public value decides whether this was done')
HIDDEN_RECORD = (
    '%s %s: for those to whom it is hidden this wasn\'t done, and what it stores isn\'t there')
NOBODY_IN_POLICY = (
    'this policy compares a reference with viewer and does not ask (live viewer): where nobody asks viewer is '
    'none, and none equals none, so a stranger is shown what has none here')
NOBODY_OF_FIELD = (
    'this policy compares %s, which is read of the viewer, and does not ask (live viewer): where nobody asks it is %s, '
    'so a stranger is shown what has the same here')
NOBODY_AROUND_WRITE = (
    '%s depends on this comparison with viewer, and nothing asks (live viewer): where nobody asks viewer is none, and '
    'none equals none, so a stranger may do this where this is none')
NOBODY_AROUND_FIELD = (
    '%s depends on this comparison with %s, which is read of the viewer, and nothing asks (live viewer): where nobody '
    'asks it is %s, so a stranger may do this where this is the same')
COPIED = (
    'the guarded %s of a %s is stored here, and this view deletes a %s too: nobody is shown the label of a record'
    ' that is gone, so the copy reads as its public value for everybody, for good')
COPIED_RECORD = (
    'the %s of a %s, which a group hides, is stored here, and this view deletes a %s too: nobody is shown the label of'
    ' a record that is gone, so the copy reads as the default of its kind for everybody, for good')
SUMMED = 'the guarded %s of %s is added up here: where it is hidden its public value counts'
RAW = (
    'this puts a text as it is, and each page is sent as HTML, so markup in %s is markup of the page: esc, or {{ '
    '}} in a template, escapes it')
UNPROTECTED = 'escaping does not protect this place: %s'
ELSEWHERE = (
    'what is in %s may lead to another site: put a path of this one before it, as (cat "/list/" ..) does, or '
    'compare it with those that are allowed')
UNLINKED = 'no page of this application leads here by a link, a form or a redirect; it may be there for a script'


class NotServed(Exception):
    """The text isn't a valid application."""


class Found(collections.namedtuple('Found', 'start place kind subject words')):
    """One place to look at: its offset, its view or model, its kind, its subject and its message."""

    def entry(self):
        """The entry that accepts it. It has only the view or model, the kind and the subject."""
        return '%s: %s' % (self.place, ' '.join(filter(None, (self.kind, self.subject))))


Step = collections.namedtuple('Step', 'node conditions')
Condition = collections.namedtuple('Condition', 'node holds')
Read = collections.namedtuple('Read', 'node subject words')


def found_in(data):
    """The places to look at in an application's text, in the order of the text. Raises NotServed."""
    try:
        tree = fault_place.read_tree(data, list(range(len(data) + 1)))
        if not is_application(tree):
            raise NotServed
        application = Application(tree)
    except (fault_place.TreeFault, fault_place.Fault, fault_place.FormFault, fault_place.CheckFault, IndexError, KeyError, AttributeError,
            TypeError, ValueError, RecursionError):
        raise NotServed from None
    found = [one for rule in RULES for one in rule(application)]
    return sorted(set(found))


def is_application(tree):
    """Whether the items are models and then views, in a form that the rules can read. The checker tests kinds."""
    items = tree.children[1:]
    if items and items[0].head() == 'viewer':
        items = items[1:]
    heads = [item.head() for item in items]
    models = heads.count('model')
    return tree.head() == 'app' and heads == ['model'] * models + ['view'] * (len(heads) - models) and \
        all(fault_place.is_name(model.children[1]) for model in items[:models]) and \
        not any(fault_place.template_fault(template) for view in items[models:] for template in fault_place.templates_in(view))


# The text, with the kind of each expression.

class Kinds(fault_place.Checker):
    """The checker, which also notes the kind of each expression."""

    def statement(self, node, scope, is_get, loops):
        if node.head() == 'template':
            self.body(written(node), scope, is_get, loops)
        else:
            super().statement(node, scope, is_get, loops)

    def judge(self, node, scope):
        node.value_kind = super().judge(node, scope)
        return node.value_kind


def written(template):
    """The statements that replace a template. They are made only once."""
    if not hasattr(template, 'statements'):
        template.statements = fault_place.statements_of(template.children[1])
    return template.statements


def inside(node):
    """The expressions in an expression or a query, itself included, without names of models, fields and binders."""
    left = [node]
    while left:
        one = left.pop()
        yield one
        word = one.head()
        if word == 'from':
            left.append(one.children[2])
        elif word == 'get':
            left.append(one.children[3])
        elif word != 'none':
            left += reversed(one.children[1:])


def meaning(node):
    """The value of a name, if one `let` binds it and no `assign` changes it; else the expression itself."""
    while getattr(node, 'means', None) is not None:
        node = node.means
    return node


def spelled_out(node):
    """The expressions in an expression, and those in the values of its names."""
    for one in inside(node):
        yield one
        if meaning(one) is not one:
            yield from spelled_out(meaning(one))


def is_viewer(node):
    return meaning(node).is_atom('viewer')


def is_of_viewer(node):
    """Whether this expression reads a field of the viewer, or of a record that such a field refers to."""
    node = meaning(node)
    return node.head() == 'get' and (is_viewer(node.children[3]) or is_of_viewer(node.children[3]))


def spelled(name):
    """A name as the application spells it."""
    return name.partition(AGAIN)[0]


def text_of(node):
    """An expression as it is written."""
    if node.kind != 'list':
        return spelled(node.value) if node.kind == 'atom' else repr(node.value)
    return '(%s)' % ' '.join(text_of(child) for child in node.children)


def fact_of(node):
    """An expression as a text in which names are replaced by their values. Two expressions that differ only in such
    names have the same text."""
    node = meaning(node)
    if node.kind != 'list':
        return node.value if node.kind == 'atom' else repr(node.value)
    return '(%s)' % ' '.join(fact_of(child) for child in node.children)


class Apart:
    """Makes the names of a view unique: a name that is bound again gets a number."""

    def __init__(self, view):
        self.counts = {}
        names = {}
        for param in view.children[3].children[1:]:
            self.bind(param.children[0], names)
        self.statements(view.children[4:], names)

    def bind(self, node, names):
        """Binds a name, and adds it to `names`."""
        word = node.value
        self.counts[word] = self.counts.get(word, 0) + 1
        node.value = names[word] = word if self.counts[word] == 1 else '%s%s%d' % (word, AGAIN, self.counts[word])

    def statements(self, nodes, names):
        for node in nodes:
            self.statement(node, names)

    def statement(self, node, names):
        word, parts = node.head(), node.children[1:]
        if word == 'template':
            self.statements(written(node), names)
        elif word == 'if':
            self.expression(parts[0], names)
            self.statements(parts[1].children, names)
            self.statements(parts[2].children, names)
        elif word == 'for':
            self.statements(parts[1:], self.query(parts[0], names))
        elif word == 'let':
            self.expression(parts[1], names)
            self.statements(parts[2:], self.bound(parts[0], names))
        elif word == 'create':
            self.cells(parts[2], names)
            self.statements(parts[3:], self.bound(parts[0], names))
        else:
            self.simple(word, parts, names)

    def simple(self, word, parts, names):
        """A statement that binds nothing."""
        if word == 'assign':
            parts[0].value = names[parts[0].value]
        if word == 'update':
            self.cells(parts[2], names)
        if parts:
            self.expression(parts[1 if word in ('assign', 'update', 'delete') else 0], names)

    def cells(self, node, names):
        for cell in node.children[1:]:
            self.expression(cell.children[1], names)

    def bound(self, node, names):
        inner = dict(names)
        self.bind(node, inner)
        return inner

    def query(self, node, names):
        """Makes the names of a query unique, and returns the names that are known inside it."""
        inner, order = dict(names), node.children[3]
        own = {}
        for binder in node.children[1].children:
            self.bind(binder.children[0], own)
        inner.update(own)
        self.expression(node.children[2], inner)
        if order.kind == 'list':
            order.children[1].value = own[order.children[1].value]
        return inner

    def expression(self, node, names):
        word = node.head()
        if node.kind == 'atom':
            node.value = names.get(node.value, node.value)
        elif word in ('count', 'sum', 'some', 'first'):
            inner = self.query(node.children[1], names)
            for part in node.children[2:]:
                self.expression(part, inner)
        elif word == 'get':
            self.expression(node.children[3], names)
        elif word is not None and word != 'none':
            for part in node.children[1:]:
                self.expression(part, names)


class View:
    """A view: its statements, each with the conditions around it, and what its names are bound to."""

    def __init__(self, node):
        self.node, self.path = node, node.children[2].value.decode('utf-8', 'replace')
        self.is_post = node.children[1].value == 'post'
        self.place = 'view %s %s' % (node.children[1].value, self.path)
        self.body = node.children[4:]
        Apart(node)
        self.params = {param.children[0].value for param in node.children[3].children[1:]}
        self.steps = list(self.walk())
        self.values, self.influences = {}, {}
        for step in self.steps:
            self.note_binding(step)
        self.sent = self.names_sent()
        for step in self.steps:
            for part in expressions_of(step.node):
                self.note_meanings(part)

    def note_binding(self, step):
        """Notes what a `let` or an `assign` binds, and what an `assign` depends on."""
        if step.node.head() in ('let', 'assign'):
            name, value = step.node.children[1].value, step.node.children[2]
            self.values.setdefault(name, []).append(value)
            around = [one for condition in step.conditions for one in in_turn(condition.node)]
            self.influences.setdefault(name, []).extend([value, *(around if step.node.head() == 'assign' else [])])

    def note_meanings(self, expression):
        for node in inside(expression):
            if node.kind == 'atom' and len(self.values.get(node.value, ())) == 1:
                node.means = self.values[node.value][0]

    def names_sent(self):
        """The names whose values come from parameters, as they are or computed."""
        sent, before = set(self.params), None
        while sent != before:
            before = set(sent)
            sent.update(name for name, values in self.values.items()
                        if any(names_in(value, before) for value in values))
        return sent

    def walk(self):
        """Each statement, with the conditions around it."""
        left = [Step(statement, ()) for statement in reversed(self.body)]
        while left:
            step = left.pop()
            yield step
            left += reversed(list(self.below(*step)))

    def below(self, node, conditions):
        """The statements directly inside a statement, with the conditions around them."""
        word, parts = node.head(), node.children[1:]
        below = []
        if word == 'if':
            for body, holds in ((parts[1], True), (parts[2], False)):
                for one in body.children:
                    yield Step(one, conditions + (Condition(parts[0], holds),))
        elif word == 'let':
            below = parts[2:]
        elif word == 'for':
            conditions = conditions + (Condition(parts[0], True),)
            below = parts[1:]
        elif word == 'create':
            below = parts[3:]
        elif word == 'template':
            below = written(node)
        for one in below:
            yield Step(one, conditions)

    def meant(self, node):
        """The expressions in an expression, and those that its names depend on."""
        seen, left = set(), [node]
        while left:
            for one in inside(left.pop()):
                yield one
                if one.kind == 'atom' and one.value in self.influences and one.value not in seen:
                    seen.add(one.value)
                    left += self.influences[one.value]

    def asks_viewer(self, conditions):
        return any(is_viewer(node) for condition in conditions for node in self.meant(condition.node))

    def stores(self):
        return [step for step in self.steps if step.node.head() in STORES]


def in_turn(condition):
    """What an `assign` depends on because of a condition around it: the condition, and the first record of a query with
    an order, because the value depends on the order too."""
    if condition.head() == 'from' and condition.children[3].kind == 'list':
        word = fault_place.Node('atom', condition.start, condition.start, 'first')
        return [condition, fault_place.Node('list', condition.start, condition.end, None, [word, condition])]
    return [condition]


def names_in(node, names):
    """Whether a value comes from these names, as they are or computed. What is read from a record doesn't, even if one
    of these names refers to the record."""
    if node.kind == 'atom':
        return node.value in names
    if node.head() in ('get', 'live', 'count', 'sum', 'some', 'first', None):
        return False
    return any(names_in(child, names) for child in node.children[1:])


class Policy:
    def __init__(self, model, group):
        self.model, self.hides = model, fault_place.hides(group)
        self.guards = {guard.children[0].value: guard.children[1] for guard in fault_place.guards_in(group)}
        self.condition = group.children[-1].children[1]

    def place(self):
        return 'model ' + self.model


class Application:
    """The application, parsed and checked, with what its policies read."""

    def __init__(self, tree):
        checker = Kinds(tree)
        checker.check()
        self.models = [model.children[1].value for model in checker.models]
        self.policies = [Policy(model.children[1].value, group)
                         for model in checker.models for group in fault_place.groups_in(model)]
        self.views = [View(view) for view in checker.views]
        self.hiding = {policy.model for policy in self.policies if policy.hides}
        self.guarded = {(policy.model, field) for policy in self.policies for field in policy.guards}
        self.read_fields, self.ranges, self.roles = {}, {}, {}
        self.found, self.checked_fields, self.checked_records = {}, {}, {}
        for policy in self.policies:
            self.note_reads(policy)
        for view in self.views:
            for step in view.stores():
                self.note_checks(view, step)

    def note_reads(self, policy):
        """Notes which fields a policy reads, which of them are the viewer's, and which models' records it finds."""
        for node in inside(policy.condition):
            word = node.head()
            if word == 'get':
                cell = node.children[1].value, node.children[2].value
                self.read_fields.setdefault(cell, policy.model)
                if is_viewer(node.children[3]):
                    self.roles.setdefault(cell, 'the policy of %s' % policy.model)
            elif word == 'from':
                for model in models_of(node):
                    self.ranges.setdefault(model, policy.model)
            elif word == 'first' and ordered_by(node.children[1]):
                self.read_fields.setdefault(ordered_by(node.children[1]), policy.model)
            if word in ('get', 'live') and not node.children[-1].is_atom('this'):
                self.found.setdefault(node.children[-1].value_kind[1], policy.model)

    def note_checks(self, view, step):
        """Notes what the conditions around a write ask about the viewer: the viewer's fields that they read, and the
        records and fields in which they look for the viewer."""
        place = 'the ' + view.place
        for condition in step.conditions:
            own = condition.node.children[2] if condition.node.head() == 'from' else condition.node
            for node in view.meant(own):
                word = node.head()
                if word == 'get' and is_viewer(node.children[3]):
                    self.roles.setdefault((node.children[1].value, node.children[2].value), place)
                elif word == 'eq' and any(map(is_viewer, node.children[1:])):
                    for read in (meaning(part) for part in node.children[1:]):
                        if read.head() == 'get':
                            self.checked_fields.setdefault((read.children[1].value, read.children[2].value), place)
                elif word == 'from' and any(is_viewer(one) for one in inside(node)):
                    self.note_search(node, place)

    def note_search(self, query, place):
        """Notes which fields a query that looks for the viewer reads: of the viewer, or of records that refer to the
        viewer."""
        facts, asked = facts_of(query), {}
        for name, model in zip(names_of(query), models_of(query)):
            is_own = {'(eq %s viewer)' % name, '(eq viewer %s)' % name} & facts
            asked[name] = self.roles if is_own else self.checked_fields
            if not is_own:
                self.checked_records.setdefault(model, place)
        for node in inside(query):
            if node.head() == 'get' and node.children[3].kind == 'atom' and node.children[3].value in asked:
                asked[node.children[3].value].setdefault((node.children[1].value, node.children[2].value), place)

    def posts(self):
        return [view for view in self.views if view.is_post]

    def guarded_reads(self, nodes):
        """Those of these expressions that read a guarded field."""
        return [node for node in nodes if node.head() == 'get'
                and (node.children[1].value, node.children[2].value) in self.guarded]

    def hidden_reads(self, nodes):
        """What these expressions read that may be hidden: guarded fields, and records that a group hides."""
        for node in nodes:
            if node.head() == 'get':
                yield from self.reads_of_get(node, *(child.value for child in node.children[1:3]))
            elif node.head() == 'live' and node.children[1].value_kind[1] in self.hiding:
                yield hidden_record(node, node.children[1].value_kind[1], 'asks live of', is_viewer(node.children[1]))
            elif node.head() == 'from':
                for model in models_of(node):
                    if model in self.hiding:
                        yield hidden_record(node, model, 'goes over', False)
            elif node.head() == 'first':
                yield from self.reads_of_order(node.children[1])

    def reads_of_get(self, node, model, field):
        own = is_viewer(node.children[3])
        if (model, field) in self.guarded:
            yield hidden_field(node, model, field, 'reads', own)
        if model in self.hiding:
            yield hidden_record(node, model, 'reads the %s of' % field, own)

    def reads_of_order(self, query):
        if ordered_by(query) in self.guarded:
            yield hidden_field(query.children[3], *ordered_by(query), 'is sorted by', False)


def models_of(query):
    return [binder.children[1].value for binder in query.children[1].children]


def ordered_by(query):
    """The model and the field by which a query is ordered, or None."""
    order = query.children[3]
    models = {binder.children[0].value: binder.children[1].value for binder in query.children[1].children}
    return (models[order.children[1].value], order.children[2].value) if order.kind == 'list' else None


def names_of(query):
    return [binder.children[0].value for binder in query.children[1].children]


def hidden_field(node, model, field, does, own):
    whose = ', the viewer\'s own, which others may not be shown' if own else ''
    return Read(node, '%s.%s' % (model, field), HIDDEN_FIELD % (does, field, model, whose))


def hidden_record(node, model, does, own):
    whose = 'a record of %s, which may be hidden'
    if own:
        whose = 'the viewer\'s own record of %s, which others may not be shown'
    elif does == 'goes over':
        whose = 'the records of %s, which may be hidden'
    return Read(node, model, HIDDEN_RECORD % (does, whose % model))


# Writes.

def writes(application):
    """Guarded fields that are set from parameters, if no condition asks who the viewer is."""
    for view in application.posts():
        for step in view.stores():
            node, word = step.node, step.node.head()
            if word == 'delete' or view.asks_viewer(step.conditions):
                continue
            model = node.children[1 if word == 'update' else 2].value
            cells = node.children[3].children[1:]
            fields = [cell.children[0] for cell in cells if (model, cell.children[0].value) in application.guarded
                      and names_in(cell.children[1], view.sent)]
            if not fields:
                continue
            names = ' and '.join(field.value for field in fields)
            subject = ' '.join('%s.%s' % (model, field.value) for field in fields)
            if word == 'update':
                yield Found(fields[0].start, view.place, 'write', subject, SETS_GUARDED % (names, model))
            elif not any(is_viewer(one) for cell in cells for one in view.meant(cell.children[1])):
                yield Found(fields[0].start, view.place, 'write', subject, MAKES_GUARDED % (model, names))


def unasked(application):
    """Writes that change who sees or may do what, if no condition asks who the viewer is."""
    for view in application.posts():
        for step in view.stores():
            if not view.asks_viewer(step.conditions):
                for node, subject, words, what in powers(application, step.node):
                    yield Found(node.start, view.place, 'unasked', subject, DECIDES % (words, what))


def powers(application, node):
    """The changes of a statement that policies or checks of the viewer depend on."""
    word = node.head()
    model = node.children[2 if word == 'create' else 1].value
    does = 'makes' if word == 'create' else 'deletes'
    if word in ('create', 'delete') and model in application.ranges:
        yield node, model, '%s a %s, and the policy of %s goes over these records' % (
            does, model, application.ranges[model]), 'sees what'
    elif word in ('create', 'delete') and model in application.checked_records:
        yield node, model, '%s a %s, and %s looks for the viewer in these records' % (
            does, model, application.checked_records[model]), 'may do that'
    elif word == 'delete' and model in application.found:
        yield node, model, 'deletes a %s, and the policy of %s reads such a record' % (
            model, application.found[model]), 'sees what'
    for cell in node.children[3].children[1:] if word != 'delete' else ():
        yield from powers_of_cell(application, word, model, cell)


def powers_of_cell(application, word, model, cell):
    field = model, cell.children[0].value
    subject = '.'.join(field)
    if field in application.roles and not cell.children[1].is_atom('false'):
        place = application.roles[field]
        words = 'sets the %s of a %s, which %s asks of the viewer' % (field[1], model, place)
        yield cell, subject, words, 'sees what' if place.startswith('the policy') else 'may do that'
    elif word == 'update' and field in application.read_fields:
        yield cell, subject, 'changes the %s of a %s, which the policy of %s reads' % (
            field[1], model, application.read_fields[field]), 'sees what'
    elif word == 'update' and field in application.checked_fields:
        yield cell, subject, 'changes the %s of a %s, in which %s looks for the viewer' % (
            field[1], model, application.checked_fields[field]), 'may do that'


def branches(application):
    """Writes that depend on something that may be hidden: in a condition, or in the value that finds their record."""
    for view in application.posts():
        told = set()
        for step in view.stores():
            sources = [condition.node for condition in step.conditions]
            if step.node.head() != 'create':
                sources.append(step.node.children[2])
            for source in sources:
                what = 'depends on a condition that'
                if source is step.node.children[2]:
                    what = 'finds its record by a value that'
                for read in application.hidden_reads(view.meant(source)):
                    places = {(source.start, read.subject), (read.node.start, read.subject)}
                    if not places & told:
                        yield Found(read.node.start, view.place, 'branch', read.subject, '%s %s %s' % (
                            STORES[step.node.head()], what, read.words))
                    told |= places


# Nobody: for a stranger viewer is none, and none equals none.

def nobody(application):
    for policy in application.policies:
        for node, one, other in strangers(policy.condition, True, frozenset(['this']), frozenset()):
            yield Found(node.start, policy.place(), 'nobody', text_of(one), NOBODY_IN_POLICY if is_viewer(other)
                        else NOBODY_OF_FIELD % (text_of(other), default_of(other)))
    for view in application.posts():
        for step in view.stores():
            facts = {fact for condition in step.conditions for fact in facts_of(condition.node, condition.holds)}
            loops = [node for node, _ in step.conditions if node.head() == 'from']
            certain = frozenset(name for loop in loops for name in names_of(loop))
            store = STORES[step.node.head()]
            for node, holds in step.conditions:
                for eq, one, other in strangers(node, holds, certain, frozenset(facts)):
                    yield Found(eq.start, view.place, 'nobody', text_of(one), NOBODY_AROUND_WRITE % store if is_viewer(
                        other) else NOBODY_AROUND_FIELD % (store, text_of(other), default_of(other)))


def facts_of(node, holds=True):
    """The facts that follow from a condition that is true (or false, if `holds` is false), each as a text."""
    node = meaning(node)
    word, parts = node.head(), node.children[1:]
    if word == ('and' if holds else 'or'):
        return facts_of(parts[0], holds) | facts_of(parts[1], holds)
    if word == 'not':
        return facts_of(parts[0], not holds) | ({fact_of(node)} if holds else set())
    if word == 'from':
        return facts_of(parts[1]) if holds else set()
    if word == 'some' and holds:
        names, facts = names_of(parts[0]), facts_of(parts[0])
        are_viewer = {'(eq %s viewer)' % name for name in names} | {'(eq viewer %s)' % name for name in names}
        return {'(live viewer)'} if is_somebody(facts) or are_viewer & facts else set()
    return {fact_of(node) if holds else '(not %s)' % fact_of(node)}


# The facts which say that somebody is logged in. A stranger's fields are false, 0, none or the empty text.
SOMEBODY = re.compile(r'\(live (?:viewer|\(get \S+ \S+ viewer\))\)|\(get \S+ \S+ viewer\)|'
                      r'\(eq \(get \S+ \S+ viewer\) (?:b([\'"]).+\1|-?[1-9][0-9]*)\)|'
                      r'\(lt [0-9]+ \(get \S+ \S+ viewer\)\)|'
                      r'\(not \(eq (?:viewer \(none \S+\)|\(none \S+\) viewer)\)\)')


def is_somebody(facts):
    """Whether one of these facts says that somebody is logged in."""
    return any(SOMEBODY.fullmatch(fact) for fact in facts)


def strangers(node, holds, certain, facts):
    """The comparisons with viewer, or with a field of the viewer, that may make a condition true for a stranger (or
    false unless `holds`), each with its two sides. `certain` has the names that are never none. `facts` has what else
    is known to be true."""
    node = meaning(node)
    word, parts = node.head(), node.children[1:]
    if word in ('eq', 'lt'):
        yield from compared(node, holds, certain, facts)
        yield from counted(node, holds, certain, facts)
    elif word == 'not':
        yield from strangers(parts[0], not holds, certain, facts)
    elif word in ('and', 'or'):
        sure = facts | facts_of(node, holds) if word == ('and' if holds else 'or') else facts
        for part in parts:
            yield from strangers(part, holds, certain, sure)
    elif word == 'from':
        yield from strangers(parts[1], holds, certain.union(names_of(node)), facts)
    elif word == 'some':
        yield from strangers(parts[0], holds, certain, facts)
    elif word in ('get', 'live') and holds:
        yield from counted(node, holds, certain, facts)
    elif word == 'pick':
        for is_so, part in ((True, parts[1]), (False, parts[2])):
            yield from strangers(parts[0], is_so, certain, facts)
            yield from strangers(part, holds, certain, facts | facts_of(parts[0], is_so))


def queries_in(node):
    """The outermost queries in an expression, each with the word before it."""
    node = meaning(node)
    if node.head() in ('count', 'sum', 'some', 'first'):
        return [(node.head(), node.children[1])]
    parts = node.children[3:] if node.head() == 'get' else node.children[1:]
    return [one for part in parts for one in queries_in(part)] if node.head() not in (None, 'none') else []


def counted(node, holds, certain, facts):
    """The comparisons in the queries of an `eq`, an `lt`, a `get` or a `live`. If a count or a sum is 0, or less than
    another number, the condition of its query counts as false."""
    parts = node.children[-1:] if node.head() in ('get', 'live') else node.children[1:]
    is_none = node.head() == 'eq' and any(part.is_atom('0') for part in parts)
    for place, part in enumerate(parts):
        for word, query in queries_in(part):
            is_few = is_none or node.head() == 'lt' and place == 0
            yield from strangers(query, holds != (is_few and word in ('count', 'sum')), certain, facts)


def default_of(node):
    """The value that a field has for a stranger, in words."""
    kind = meaning(node).value_kind
    return 'none' if isinstance(kind, tuple) else {'int': '0', 'text': 'the empty text', 'bool': 'false'}[kind]


def is_fixed(node):
    """Whether an expression is a literal. A comparison of a literal with a field of the viewer isn't listed."""
    node = meaning(node)
    return node.kind == 'text' or node.head() == 'none' or node.kind == 'atom' and bool(
        re.fullmatch('true|false|-?[0-9]+', node.value))


def compared(node, holds, certain, facts):
    one, other = node.children[1:]
    if is_viewer(one) or is_of_viewer(one) and not is_viewer(other):
        one, other = other, one
    if node.head() != 'eq' or not holds or not (is_viewer(other) or is_of_viewer(other)) or is_somebody(facts):
        return
    if is_viewer(one) or is_of_viewer(one) or is_fixed(one):
        return
    default = {'0': '0', 'none': '', 'the empty text': "b''", 'false': 'false'}[default_of(other)]
    is_other = {'(live %s)' % fact_of(one), '(live %s)' % fact_of(other)} | {
        '(not (eq %s %s))' % sides for sides in ((fact_of(one), default), (default, fact_of(one)))}
    if not (one.kind == 'atom' and one.value in certain) and not is_other & facts:
        yield node, one, other


# What is stored.

def copies(application):
    """Guarded fields, and fields of hidden records, that are stored elsewhere by a view that deletes such a record."""
    for view in application.posts():
        deleted = {step.node.children[1].value for step in view.stores() if step.node.head() == 'delete'}
        for step in view.stores():
            for cell in step.node.children[3].children[1:] if step.node.head() != 'delete' else ():
                for node in view.meant(cell.children[1]):
                    if node.head() == 'get' and node.children[1].value in deleted:
                        yield from copied(application, view, node)


def copied(application, view, node):
    model, field = node.children[1].value, node.children[2].value
    if (model, field) in application.guarded or model in application.hiding:
        words = COPIED if (model, field) in application.guarded else COPIED_RECORD
        yield Found(node.start, view.place, 'copy', '%s.%s' % (model, field), words % (field, model, model))


def sums(application):
    """Guarded numbers that a sum adds up, unless its query asks for a truth value that the same group guards."""
    places = [(policy.place(), [policy.condition]) for policy in application.policies]
    places += [(view.place, [part for step in view.steps for part in expressions_of(step.node)])
               for view in application.views]
    for place, expressions in places:
        for node in (one for expression in expressions for one in inside(expression) if one.head() == 'sum'):
            for read in application.guarded_reads(inside(node.children[2])):
                model, field = read.children[1].value, read.children[2].value
                if not is_known(application, model, field, node.children[1].children[2]):
                    yield Found(read.start, place, 'sum', '%s.%s' % (model, field), SUMMED % (field, model))


def sums_by_hand(application):
    """Guarded numbers that a loop adds to a name, unless a condition around it asks for a truth value that the same
    group guards."""
    for view in application.views:
        for node, conditions in view.steps:
            value = node.children[2] if node.head() == 'assign' else None
            loops = any(condition.node.head() == 'from' for condition in conditions)
            if value is None or not loops or value.head() not in ('add', 'sub') or not any(
                    one.is_atom(node.children[1].value) for one in inside(value)):
                continue
            for read in application.guarded_reads(spelled_out(value)):
                model, field = read.children[1].value, read.children[2].value
                if not any(is_known(application, model, field, condition.node) for condition in conditions):
                    yield Found(read.start, view.place, 'sum', '%s.%s' % (model, field), SUMMED % (field, model))


def expressions_of(statement):
    """The expressions directly in a statement."""
    word, parts = statement.head(), statement.children[1:]
    if word in ('create', 'update'):
        return [cell.children[1] for cell in parts[2].children[1:]] + (parts[1:2] if word == 'update' else [])
    places = {'put': 0, 'esc': 0, 'redirect': 0, 'if': 0, 'for': 0, 'let': 1, 'assign': 1, 'delete': 1}
    return [parts[places[word]]] if word in places else []


def is_known(application, model, field, condition):
    """Whether a condition asks for a truth value that the field's group also guards, with the public value false."""
    beside = {name for policy in application.policies if policy.model == model and field in policy.guards
              for name, public in policy.guards.items() if public.is_atom('false')}
    return any(node.children[1].value == model and node.children[2].value in beside
               for node in application.guarded_reads(inside(condition)))


# Output.

def pages(application):
    """Texts that are put unescaped, and texts that are escaped where that doesn't protect the page."""
    for view in application.views:
        putting = Putting(view)
        putting.statements(view.body, [Markup()])
        yield from putting.found


class Putting:
    """Follows the statements of a view as they put a page, and notes where they put a text that somebody else chose.
    What was put before a statement depends on the branches taken. Each possibility is a `Markup`."""

    def __init__(self, view):
        self.view, self.found = view, []

    def statements(self, nodes, before):
        for node in nodes:
            before = self.statement(node, before)
        return before

    def statement(self, node, before):
        word, parts = node.head(), node.children[1:]
        if word in ('put', 'esc'):
            return self.value(word, parts[0], before)
        if word == 'if':
            return told_apart([one for part in parts[1:] for one in self.statements(part.children, before)])
        if word == 'for':
            once, known = self.statements(parts[1:], before), {markup.state() for markup in before}
            others = [markup for markup in once if markup.state() not in known]
            return told_apart([*before, *others, *(self.statements(parts[1:], others) if others else [])])
        if word == 'let':
            return self.statements(parts[2:], before)
        if word == 'create':
            return self.statements(parts[3:], before)
        if word == 'template':
            return self.statements(written(node), before)
        return before

    def value(self, word, node, before):
        """The states of the page after a value. `word` is the statement that puts it, or '' for a part of a value."""
        if word:
            self.look(word, node, before)
        node = meaning(node)
        if node.kind == 'text':
            return [markup.after(node.value.decode('utf-8', 'replace')) for markup in before]
        if node.head() == 'cat':
            for part in node.children[1:]:
                if word == 'esc':
                    self.look(word, part, before)
                before = self.value('', part, before)
            return before
        if node.head() == 'pick':
            return told_apart([one for part in node.children[2:] for one in self.value('', part, before)])
        return [markup.after(None) for markup in before]

    def look(self, word, node, before):
        """Notes the texts in a value that somebody else chose, if they are put unescaped, or if escaping doesn't
        protect the page here."""
        danger = next(filter(None, (markup.danger() for markup in before)), None)
        for one in texts_in(self.view, node):
            subject = subject_of(one)
            if word == 'put':
                self.found.append(Found(one.start, self.view.place, 'markup', subject, RAW % subject))
            elif danger:
                self.found.append(Found(one.start, self.view.place, 'escape', subject, UNPROTECTED % danger))


def told_apart(pages):
    """These states of a page, each once, and at most MOST of them."""
    return list({page.state(): page for page in pages}.values())[:MOST]


def subject_of(node):
    if node.head() == 'get':
        return '%s.%s' % (node.children[1].value, node.children[2].value)
    return spelled(node.value) if node.kind == 'atom' else node.head()


def texts_in(view, node, seen=frozenset()):
    """The parts of a text that somebody else may have chosen: parameters, fields, and names bound to such parts."""
    if node.kind == 'text' or node.value_kind != 'text':
        return []
    word, parts = node.head(), node.children[1:]
    if word in ('cat', 'str'):
        return [one for part in parts for one in texts_in(view, part, seen)]
    if word == 'pick':
        return [one for part in parts[1:] for one in texts_in(view, part, seen)]
    if node.kind == 'atom' and node.value in view.values and node.value not in view.params:
        if node.value in seen:
            return []
        bound = [one for value in view.values[node.value] for one in texts_in(view, value, seen | {node.value})]
        return [node] if bound else []
    return [node]


# Redirects and links.

def redirects(application):
    """Redirects to a location that somebody else may have chosen."""
    for view in application.views:
        for step in view.steps:
            if step.node.head() == 'redirect':
                for node in leads_away(view, step.node.children[1], ['']):
                    subject = subject_of(node)
                    yield Found(node.start, view.place, 'redirect', subject, ELSEWHERE % subject)


def leads_away(view, node, before, seen=frozenset()):
    """The parts of a location that may choose its site. `before` has the texts that may be before it."""
    if all(OWN_SITE.match(text) for text in before):
        return []
    node = meaning(node)
    word, parts = node.head(), node.children[1:]
    if word == 'pick':
        return [one for part in parts[1:] for one in leads_away(view, part, before, seen)]
    if word == 'cat':
        found = []
        for part in parts:
            found += leads_away(view, part, before, seen)
            before = list(dict.fromkeys(text + more for text in before for more in beginnings(part)))[:MOST]
        return found
    if node.kind == 'atom' and node.value in view.values and node.value not in view.params:
        return [one for value in view.values[node.value] if node.value not in seen
                for one in leads_away(view, value, before, seen | {node.value})]
    return texts_in(view, node)


def beginnings(node):
    """The texts that a part of a location may be, as far as they are known. A reference that is none is the empty text.
    A text that somebody else chose may also be empty."""
    node = meaning(node)
    word, parts = node.head(), node.children[1:]
    if node.kind == 'text':
        return [node.value.decode('utf-8', 'replace')]
    if word == 'pick':
        return beginnings(parts[1]) + beginnings(parts[2])
    if word == 'cat':
        return [''.join(texts) for texts in itertools.islice(itertools.product(*map(beginnings, parts)), MOST)]
    kind = meaning(parts[0]).value_kind if word == 'str' else node.value_kind
    return [''] if kind == 'text' else ['0', ''] if isinstance(kind, tuple) else ['0']


def unlinked(application):
    """Views that no page leads to, if the links of all pages are known."""
    linked = {shape(path) for view in application.views
              for path in re.findall(r'(?:href|action|src)\s*=\s*[\'"]?([^\'"\s>]*)', put_in(view))}
    led = linked | {shape(path) for view in application.views for step in view.steps
                    if step.node.head() == 'redirect' for path in literals(step.node.children[1])}
    if not linked or any(path.startswith('*') for path in led):
        return
    for view in application.views:
        path = shape(view.path)
        is_missing = any(statement.head() == 'missing' for statement in view.body)
        if path != '/' and path not in led and not (path == '/*' and is_missing):
            yield Found(view.node.children[2].start, view.place, 'unlinked', '', UNLINKED)


def shape(path):
    path = path.split('?')[0].split('#')[0]
    return urllib.parse.unquote(re.sub(r'\{[^}]*\}|\x00', '*', path))


def put_in(view):
    """The text that a view puts, with a mark in place of each value."""
    return ''.join(literals(step.node.children[1])[0] for step in view.steps if step.node.head() in ('put', 'esc'))


def literals(node):
    """The texts that an expression may be, with a mark in place of each value."""
    if node.kind == 'text':
        return [node.value.decode('utf-8', 'replace')]
    if node.head() == 'cat':
        texts = ['']
        for part in node.children[1:]:
            texts = [text + more for text in texts for more in literals(part)][:64]
        return texts
    if node.head() == 'pick':
        return literals(node.children[2]) + literals(node.children[3])
    return ['\x00']


RULES = (writes, unasked, branches, nobody, copies, sums, sums_by_hand, pages, redirects, unlinked)
