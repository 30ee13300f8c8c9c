#!/usr/bin/env python3
"""Makes the table of docs/LAYERS.md from crates.txt: each storey with its crates, their promises, and the crates
directly below them. A crate is left out if another crate of the same line rests on it. If the page is out of date, this
says so and ends with status 1. It also fails if a crate has no promise, or uses a crate that doesn't come before it.
With --write it rewrites the table. With --lines it prints the lines of code of each crate instead. With --laws it
prints the laws of each crate that no code calls, which are public functions whose comment begins with "A law"."""
import os
import re
import sys

sys.dont_write_bytecode = True
from support.pages import differences, page_parser, read                    # noqa: E402
from testing import of_crate                                                # noqa: E402

PAGE = 'docs/LAYERS.md'
LAW = re.compile(r'/// A law\b(?:.*\n *///)*.*\n *pub fn (\w+)')


def storeys(text):
    """Returns the storeys as (heading, crates), each crate as (name, promise, the names that it uses), then what is
    wrong, then the names of all crates."""
    found, wrong, comment, order = [], [], None, []
    for line in text.split('\n'):
        if line.startswith('# ') and line[2:3].isdigit():
            found.append((line[2:], []))
        elif line.startswith('# '):
            comment = line[2:]
        elif line and found:
            name, _, uses = line.partition(':')
            name = name.split()[0]
            if comment is None:
                wrong.append('crates.txt: %s has no promise' % name)
            found[-1][1].append((name, comment or '', uses.split()))
            order.append(name)
            comment = None
    own = set(order)
    for number, name in enumerate(order):
        uses = next(uses for _, crates in found for other, _, uses in crates if other == name)
        wrong += ['crates.txt: %s uses %s, which comes after it' % (name, used) for used in uses
                  if used in own and used not in order[:number]]
    return found, wrong, own


def reduced(found, own):
    """Returns, for each crate, the crates of the repository that it uses, without those that another one of these rests
    on."""
    uses = {name: [used for used in uses if used in own] for _, crates in found for name, _, uses in crates}
    rests = {}
    for name, used in uses.items():
        rests[name] = set(used).union(*(rests.get(other, ()) for other in used))
    return {name: [one for one in used if not any(one in rests[other] for other in used)] for name, used in uses.items()}


def table(found, own):
    lines, direct = [], reduced(found, own)
    for heading, crates in found:
        lines += ['### ' + heading, '', '| Crate | Promise | Rests on |', '|---|---|---|']
        for name, promise, uses in crates:
            inner = ' '.join(used[len('jac_'):] for used in direct[name])
            outer = ' '.join('`%s`' % used for used in uses if used not in own and not used.startswith('sqlite_'))
            cell = ', '.join(filter(None, (inner, outer))) or 'none'
            lines.append('| `%s` | %s | %s |' % (name, promise, cell))
        lines.append('')
    return '\n'.join(lines).rstrip('\n')


def sources(name):
    """Returns the texts of the crate's modules."""
    folder = os.path.join('crates', name, 'src')
    return [read(os.path.join(folder, file)) for file in sorted(os.listdir(folder)) if file.endswith('.rt')]


def laws(found):
    """Yields a line for each crate that has laws which no function calls."""
    names = [name for _, crates in found for name, _, _ in crates]
    texts = {name: sources(name) for name in names}
    called = set(re.findall(r'(?<!fn )\b(\w+)\(\)', '\n'.join(text for each in texts.values() for text in each)))
    for name in names:
        own = [law for text in texts[name] for law in LAW.findall(text) if law not in called]
        if own:
            yield '%s: %s' % (name, ', '.join(own))


def options():
    parser = page_parser()
    parser.add_argument('--lines', action='store_true', help='print the lines of code of each crate instead')
    parser.add_argument('--laws', action='store_true', help='print the laws that no code calls instead')
    return parser.parse_args()


def main():
    given = options()
    found, wrong, own = storeys(read('crates.txt'))
    if given.lines:
        for _, crates in found:
            for name, _, _ in crates:
                print('%6d %s' % (of_crate(name)[0], name))
        return
    if given.laws:
        print('\n'.join(laws(found)))
        return
    wrong += differences(PAGE, {'crates': table(found, own)}, 'checks/layers.py', given.write)
    for line in wrong:
        print('FAILED ' + line)
    print('%d crates in %d storeys' % (len(own), len(found)))
    sys.exit(1 if wrong else 0)


if __name__ == '__main__':
    main()
