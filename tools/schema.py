#!/usr/bin/env python3
"""Prints the schema of an application: its models, with their fields and groups, as the table `meta` of a store has
them. The argument is the application. docs/USING.md, "A rename", says what the output is for.

Other scripts use the functions here. They read the schema of a store or an application, find the first difference
between two schemas, and say whether `upgrade` can convert a store."""
import os
import sqlite3
import sys

sys.dont_write_bytecode = True
sys.path.insert(0, os.path.dirname(os.path.abspath(__file__)))
from arguments import script_parser                                         # noqa: E402
import fault_place                                                          # noqa: E402

# the public values in an application that is made from a schema only
PUBLIC = {'int': '0', 'text': '""', 'bool': 'false'}


class Model:
    """A model of a schema. `groups` has for each group the fields that it guards, or the word `hides`."""

    def __init__(self, name, nested, fields, groups):
        self.name, self.nested, self.fields, self.groups = name, nested, fields, groups


def kind_text(node):
    return node.value if node.kind == 'atom' else '(ref %s)' % node.children[1].value


def fields_of(node):
    return [(field.children[0].value, kind_text(field.children[1])) for field in node.children[1:]]


def of_tree(tree):
    """The models of an application's tree."""
    return [Model(model.children[1].value, fault_place.is_nested(model), fields_of(fault_place.fields_in(model)),
                  ['hides' if fault_place.hides(group) else
                   tuple(guard.children[0].value for guard in fault_place.guards_in(group))
                   for group in fault_place.groups_in(model)])
            for model in tree.children if model.head() == 'model']


def of_application(data):
    return of_tree(fault_place.read_tree(data, list(range(len(data) + 1))))


def of_text(text):
    """The models of a schema's text, `(schema (model NAME (fields ..) (groups ..)) ..)`."""
    data = text.encode()
    models = []
    for model in fault_place.read_tree(data, list(range(len(data) + 1))).children[1:]:
        groups = ['hides' if group.kind == 'atom' else tuple(field.value for field in group.children)
                  for group in model.children[-1].children[1:]]
        models.append(Model(model.children[1].value, model.children[2].is_atom('nested'),
                            fields_of(model.children[-2]), groups))
    return models


def of_store(path):
    """The schema's text of a store, or None if it can't be read, for example because another program uses the store."""
    if not os.path.isfile(path):
        return None
    try:
        store = sqlite3.connect('file:%s?mode=rw' % path.replace('%', '%25').replace('?', '%3f').replace('#', '%23'),
                                uri=True, timeout=0)
        try:
            found = store.execute('SELECT schema FROM meta').fetchall()
        finally:
            store.close()
    except sqlite3.Error:
        return None
    return found[0][0] if len(found) == 1 and isinstance(found[0][0], str) else None


def group_text(group):
    return 'hides its records' if group == 'hides' else 'guards ' + ', '.join(group)


def first_lack(old, new):
    """The first part of the old models that is missing or different in the new ones, in words. None if the new models
    extend the old ones."""
    for place, model in enumerate(old):
        if place >= len(new):
            return 'the model %s is missing' % model.name
        other = new[place]
        if other.name != model.name:
            return 'model %d is %s where it was %s' % (place + 1, other.name, model.name)
        if other.nested != model.nested:
            return 'the model %s is %s' % (model.name,
                                           'nested where it was not' if other.nested else 'not nested where it was')
        lack = first_lack_in(model, other)
        if lack:
            return lack
    return None


def first_lack_in(old, new):
    """The same for two models with the same name."""
    for place, (name, kind) in enumerate(old.fields):
        if place >= len(new.fields):
            return 'the field %s of %s is missing' % (name, old.name)
        if new.fields[place][0] != name:
            return 'field %d of %s is %s where it was %s' % (place + 1, old.name, new.fields[place][0], name)
        if new.fields[place][1] != kind:
            return 'the field %s of %s is %s where it was %s' % (name, old.name, new.fields[place][1], kind)
    for place, group in enumerate(old.groups):
        if place >= len(new.groups):
            return 'the group of %s that %s is missing' % (old.name, group_text(group))
        if new.groups[place] != group:
            return 'group %d of %s %s where it was one that %s' % (
                place + 1, old.name, group_text(new.groups[place]), group_text(group))
    return None


def likeness(old, new):
    """What change the first such difference looks like, and what to do about it, or ''."""
    found = likeness_of(old, new, [model.name for model in old], [model.name for model in new], 'model %s', is_renamed)
    if found:
        return found
    for model, other in zip(old, new):
        found = likeness_of(model.fields, other.fields, [name for name, _ in model.fields],
                            [name for name, _ in other.fields], 'field %%s of %s' % model.name, lambda a, b: a[1] == b[1])
        if found or first_lack_in(model, other):
            return found
    return ''


def is_renamed(old, new):
    """Whether two models look alike except for their own names: they have the same field names and the same groups."""
    return old.nested == new.nested and [name for name, _ in old.fields] == [name for name, _ in new.fields] and \
        old.groups == new.groups


def likeness_of(old, new, names, others, what, is_alike):
    """The same for two lists of models, or of fields, with the names in each."""
    for place, name in enumerate(names):
        other = others[place] if place < len(others) else None
        if other == name:
            continue
        if name in others:
            if other in names:
                return ' It looks as if the order was changed: put the %s back in its place.' % (what % name)
            return ' It looks as if the %s was put in before others: put it after them.' % (what % other)
        if other is not None and other not in names and is_alike(old[place], new[place]):
            return ' It looks as if the %s was renamed to %s: docs/USING.md, "A rename", has the command for that.' % (
                what % name, other)
        return ' It looks as if the %s was removed: leave it in its place, since what nobody uses does no harm.' % (
            what % name)
    return ''


def first_addition(old, new):
    """The first part that the new models add to the old ones, which they extend, or None."""
    for model, other in zip(old, new):
        for name, _ in other.fields[len(model.fields):]:
            return 'the field %s of %s is new' % (name, model.name)
        for group in other.groups[len(model.groups):]:
            return 'the group of %s that %s is new' % (model.name, group_text(group))
    for other in new[len(old):]:
        return 'the model %s is new' % other.name
    return None


def is_same(old, new):
    return first_lack(old, new) is None and first_addition(old, new) is None


def guard_text(model, field):
    kind = dict(model.fields)[field]
    return '(%s %s)' % (field, PUBLIC.get(kind) or '(none %s)' % kind[5:-1])


def model_text(model):
    groups = [' (group hides (policy false))' if group == 'hides' else
              ' (group (guards %s) (policy false))' % ' '.join(guard_text(model, field) for field in group)
              for group in model.groups]
    return '(model %s%s (fields %s)%s)' % (
        model.name, ' nested' if model.nested else '', ' '.join('(%s %s)' % field for field in model.fields),
        ''.join(groups))


def application(models):
    """An application that has only this schema, for `upgrade` as the old application."""
    return '(app\n %s)\n' % '\n '.join(map(model_text, models))


def schema_text(models):
    """The schema's text, as a store has it."""
    texts = []
    for model in models:
        groups = ' '.join(group if group == 'hides' else '(%s)' % ' '.join(group) for group in model.groups)
        texts.append('(model %s%s (fields%s) (groups%s))' % (
            model.name, ' nested' if model.nested else '', ''.join(' (%s %s)' % field for field in model.fields),
            ' ' + groups if groups else ''))
    return '(schema%s)' % ''.join(' ' + text for text in texts)


def told(command, store, apps):
    """A message if the store belongs to another application than the command's, or if the two applications of an
    upgrade don't fit, or ''. `apps` has the name and the text of each application of the command."""
    models = [of_application(data) for _, data in apps]
    stored = of_store(store) if store else None
    if command == 'upgrade' and stored is not None and len(apps) == 2 and is_same(of_text(stored), models[1]):
        return '%s is a store of %s already.' % (store, apps[1][0])
    if stored is not None and not is_same(of_text(stored), models[0]):
        return of_other(command, store, of_text(stored), apps[0][0], models[0])
    if command == 'upgrade' and len(apps) == 2:
        lack = first_lack(*models)
        return lack and '%s does not extend %s: %s. An upgrade adds models, fields and groups after those that are ' \
            'there.%s' % (apps[1][0], apps[0][0], lack, likeness(*models))
    return ''


def of_other(command, store, old, name, new):
    """A message with the first difference between the store's schema and the application's. It says whether an upgrade
    can convert the store."""
    lack = first_lack(old, new)
    if lack:
        words = '%s keeps records of another application. Compared with it, in %s %s.' % (store, name, lack)
        back = first_lack(new, old)
        if back is None:
            return words + ' The store is one of a later version of %s; no upgrade leads back.' % name
        return words + ' No upgrade leads there: it adds models, fields and groups after those that are there.' + \
            likeness(old, new)
    words = '%s keeps records of an earlier version: in %s %s.' % (store, name, first_addition(old, new))
    if command == 'upgrade':
        return words + ' The first application of an upgrade is the one that the store was made by.'
    return words + ' ./jac upgrade OLD %s --db %s brings it there, with OLD the application that it was made by.' % (
        name, store)


def main():
    import application as applications
    parser = script_parser()
    parser.add_argument('application', metavar='APP', help='the file or the folder of the application')
    name = parser.parse_args().application
    try:
        print(schema_text(of_application(applications.read(name))))
    except (applications.Fault, fault_place.TreeFault, IndexError, KeyError, AttributeError) as fault:
        print('schema: %s' % (fault if isinstance(fault, applications.Fault) else
                              '%s is no application that is served' % name), file=sys.stderr)
        return 1
    return 0


if __name__ == '__main__':
    sys.exit(main())
