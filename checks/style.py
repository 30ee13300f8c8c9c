#!/usr/bin/env python3
"""Checks the form of the code and of the definitions: lines of at most 100 columns, at most 7 arguments for a function,
no module named by a gerund, no public name of specs/ in two files, and no bare participle as such a name.
checks/style.txt lists what breaks these rules, and how often. That list may only get shorter. If something is new or
more frequent, or if an entry allows more than is needed, this says so and ends with status 1. With --write it removes
from the list what is no longer needed, and adds nothing."""
import collections
import os
import re
import sys

sys.dont_write_bytecode = True
from support.pages import TOP, read, script_parser                          # noqa: E402
from reading import Specs                                                   # noqa: E402
from testing import crates, paths                                           # noqa: E402

LIST = 'checks/style.txt'
COLUMNS, ARGUMENTS = 100, 7
# Imports, and attributes that name the tactics for a crate or a function, are on one line, as `rt fmt` lays them out.
IMPORT = re.compile(r'\s*(?:ghost use|pub use|use) |\s*#!?\[tactic\(')
FUNCTION = re.compile(r'\bfn (\w+)')
MODULE = re.compile(r'(?m)^(?:pub )?mod (\w+)')
GERUND = re.compile(r'[a-z]+ing$')
PARTICIPLE = re.compile(r'[a-z]+(?:ed|en|own)$')
# Words that end like a gerund or a participle but are none, and modules that are nouns.
NOUNS = {'expanded_seed', 'seed', 'need', 'token', 'down', 'own', 'open', 'string', 'routing', 'spelling', 'meaning',
         'reading', 'nothing', 'thing', 'opening', 'ending', 'binding', 'hearing', 'answering', 'serving', 'words'}
ABOUT = {
    'wide': 'lines of %s are wider than %d columns' % ('%s', COLUMNS),
    'arguments': '%%s takes more than %d arguments' % ARGUMENTS,
    'gerund': 'module %s is named by a gerund',
    'twice': 'the word %s of specs/ is in more than one file',
    'participle': 'the word %s of specs/ is a bare participle',
}


def wide_lines(text):
    """Returns how many lines are too wide, without those that the layout keeps on one line."""
    return sum(1 for line in text.split('\n') if len(line) > COLUMNS and not IMPORT.match(line))


def closing(text, start):
    """Returns the place after the bracket that closes the one at this place."""
    depth, pairs = 0, {'(': 1, '[': 1, '{': 1, ')': -1, ']': -1, '}': -1}
    for place in range(start, len(text)):
        depth += pairs.get(text[place], 0)
        if not depth:
            return place + 1
    return len(text)


def arguments(text, start):
    """Returns how many arguments the function has whose name ends at this place."""
    place = start
    if text[place:place + 1] == '<':
        depth = 0
        while place < len(text):
            depth += {'<': 1, '>': -1}.get(text[place], 0) if text[place - 1:place + 1] != '->' else 0
            place += 1
            if not depth:
                break
    if text[place:place + 1] != '(':
        return 0
    inside, depth, parts = text[place + 1:closing(text, place) - 1], 0, ['']
    for mark in inside:
        depth += {'(': 1, '[': 1, '<': 1, '{': 1, ')': -1, ']': -1, '>': -1, '}': -1}.get(mark, 0)
        if mark == ',' and not depth:
            parts.append('')
        else:
            parts[-1] += mark
    return sum(1 for part in parts if part.strip())


def of_sources(crate):
    found = collections.Counter()
    for path in paths(crate, 'src', '.rt'):
        text = read(path)
        found['wide', path] += wide_lines(text)
        code = re.sub(r'(?m)//.*$', '', text)
        for match in FUNCTION.finditer(code):
            if arguments(code, match.end()) > ARGUMENTS:
                found['arguments', '%s::%s' % (crate, match.group(1))] += 1
        for name in MODULE.findall(code):
            if GERUND.match(name) and name not in NOUNS:
                found['gerund', '%s::%s' % (crate, name)] += 1
    return found


def of_specs(crate, words):
    found = collections.Counter()
    for path in paths(crate, 'specs', '.antt'):
        text = read(path)
        found['wide', path] += wide_lines(text)
        for name, item in Specs(path, crate).items.items():
            if re.search(r'(?m)^[^\n]*\bpub\b', item.text) is None:
                continue
            words[name].add(path)
            if PARTICIPLE.match(name) and name not in NOUNS:
                found['participle', '%s.%s' % (os.path.splitext(path)[0].replace('crates/', '').replace('/specs/', '.'),
                                               name)] += 1
    return found


def everything():
    found, words = collections.Counter(), collections.defaultdict(set)
    for crate in crates():
        found += of_sources(crate)
        found += of_specs(crate, words)
    for name, files in words.items():
        if len(files) > 1:
            found['twice', name] = len(files)
    return +found


def allowed():
    entries = collections.Counter()
    for line in read(LIST).split('\n'):
        if line and not line.startswith('#'):
            kind, name, count = line.split()
            entries[kind, name] = int(count)
    return entries


def written(entries):
    lines = ['# What checks/style.py lets pass: the rule, what breaks it, and how often. It may only get shorter.']
    lines += ['%s %s %d' % (kind, name, count) for (kind, name), count in sorted(entries.items())]
    with open(os.path.join(TOP, LIST), 'w', encoding='utf-8') as file:
        file.write('\n'.join(lines) + '\n')


def complaints(found, entries):
    for kind, name in sorted(set(found) | set(entries)):
        now, may = found[kind, name], entries[kind, name]
        if now > may:
            yield '%s: %d, and at most %d are allowed' % (ABOUT[kind] % name, now, may)
        if now < may:
            yield '%s lets pass more than there is: %s %s %d, now %d' % (LIST, kind, name, may, now)


def main():
    parser = script_parser()
    parser.add_argument('--write', action='store_true', help='remove from the list what is no longer needed')
    write = parser.parse_args().write
    found = everything()
    entries = allowed()
    if write:
        entries = collections.Counter({key: min(count, found[key]) for key, count in entries.items() if found[key]})
        written(entries)
    wrong = list(complaints(found, entries))
    for line in wrong:
        print('FAILED ' + line)
    sums = collections.Counter()
    for (kind, _), count in found.items():
        sums[kind] += count
    print('style: ' + ', '.join('%d %s' % (sums[kind], kind) for kind in sorted(sums)))
    sys.exit(1 if wrong else 0)


if __name__ == '__main__':
    main()
