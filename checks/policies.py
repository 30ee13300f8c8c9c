#!/usr/bin/env python3
"""Finds out, for the larger examples and for the calendar of `jac demo`, which guarded fields their policies read. An
application is open if its policies read no guarded field and no group hides records (`is_open_app` in
crates/jac_open_app_laws/specs/Open.antt). Compares the result with the table of docs/GUARANTEES.md. If the page is out
of date, this says so and ends with status 1. With --write it rewrites the table. With names of applications it prints
their table instead."""
import re
import sys

sys.dont_write_bytecode = True
from support.pages import differences, page_parser, read                    # noqa: E402

PAGE = 'docs/GUARANTEES.md'
NAMED = ('examples/calendar.app', 'examples/calendar/app', 'examples/conference/app', 'examples/courses/app',
         'examples/health/app')
TOKEN = re.compile(r'"(?:[^"\\]|\\.)*"|[()]|[^\s()"]+')


def tree(text):
    """Returns the nested lists of a text."""
    stack = [[]]
    for token in TOKEN.findall(text):
        if token == '(':
            stack.append([])
        elif token == ')':
            done = stack.pop()
            stack[-1].append(done)
        else:
            stack[-1].append(token)
    return stack[0][0]


def parts(form, head):
    return [part for part in form if isinstance(part, list) and part[:1] == [head]]


def fields_read(form):
    """Yields the fields that an expression reads: those of `get`, and those that a query is sorted by."""
    if not isinstance(form, list):
        return
    if form[:1] == ['get']:
        yield form[1] + '.' + form[2]
    if form[:1] == ['from']:
        models = dict(form[1])
        for order in parts(form, 'up') + parts(form, 'down'):
            yield models[order[1]] + '.' + order[2]
    for part in form:
        yield from fields_read(part)


def hidden_reads(text):
    """Returns the guarded fields that policies of the application read, in the order of its models."""
    models = parts(tree(text), 'model')
    groups = [(model[1], group) for model in models for group in parts(model, 'group')]
    guarded = [model + '.' + guard[0] for model, group in groups for guards in parts(group, 'guards') for guard in guards[1:]]
    wanted = {field for _, group in groups for field in fields_read(parts(group, 'policy')[0][1])}
    return [field for field in guarded if field in wanted]


def has_hidden_records(text):
    return any('hides' in group for model in parts(tree(text), 'model') for group in parts(model, 'group'))


def row(name):
    text = read(name)
    found = hidden_reads(text)
    return '| `%s` | %s | %s |' % (name, 'no' if found or has_hidden_records(text) else 'yes', ', '.join('`%s`' % f for f in found) or 'none')


def table(names):
    return '\n'.join(['| Application | Open | Guarded fields that its policies read |', '|---|---|---|', *map(row, names)])


def main():
    parser = page_parser()
    parser.add_argument('names', metavar='APP', nargs='*', help='print the table of these applications instead')
    given = parser.parse_args()
    if given.names:
        print(table(given.names))
        return
    wrong = differences(PAGE, {'open applications': table(NAMED)}, 'checks/policies.py', given.write)
    for line in wrong:
        print('FAILED ' + line)
    print('%d applications, %d failed' % (len(NAMED), len(wrong)))
    sys.exit(1 if wrong else 0)


if __name__ == '__main__':
    main()
