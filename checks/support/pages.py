"""Tables of docs/ that a script writes. Each is between two marks, `<!-- NAME: SCRIPT writes this -->` and `<!-- NAME:
its end -->`."""
import os
import sys

TOP = os.path.dirname(os.path.dirname(os.path.dirname(os.path.abspath(__file__))))
sys.path.append(os.path.join(TOP, 'tools'))
from arguments import script_parser                                         # noqa: E402


def page_parser():
    """Returns a parser for the arguments of a script that compares its tables with their page, or writes them."""
    parser = script_parser()
    parser.add_argument('--write', action='store_true', help='rewrite the tables instead of comparing them')
    return parser


def read(path):
    with open(os.path.join(TOP, path), encoding='utf-8') as file:
        return file.read()


def with_tables(text, tables, script):
    for name, table in tables.items():
        begin, end = '<!-- %s: %s writes this -->' % (name, script), '<!-- %s: its end -->' % name
        if text.count(begin) != 1 or text.count(end) != 1:
            raise SystemExit('FAILED the page lacks the marks of its table ' + name)
        text = text[:text.index(begin) + len(begin)] + '\n' + table + '\n' + text[text.index(end):]
    return text


def differences(path, tables, script, write):
    """Returns the lines in which the page differs from the tables. With `write`, writes the tables into the page and
    returns nothing."""
    text = read(path)
    fresh = with_tables(text, tables, script)
    if text == fresh:
        return []
    if write:
        with open(os.path.join(TOP, path), 'w', encoding='utf-8') as file:
            file.write(fresh)
        return []
    was, now = text.split('\n'), fresh.split('\n')
    wrong = ['%s lacks: %s' % (path, line[:160]) for line in now if line not in was]
    wrong += ['%s has: %s' % (path, line[:160]) for line in was if line not in now]
    return wrong or ['%s has its lines in another order' % path]
