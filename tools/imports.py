#!/usr/bin/env python3
"""Lists the names that a file imports from a crate's specs/ or proofs/ and that aren't there, and the names that an
.antt file uses and doesn't import. This takes some seconds. A check of the crate finds these faults too, but only after
its whole proof.

The script only reads text, so it may overlook a fault. A name counts as there if any line may define it. A use without
an import is only found if some other file imports the name. A name counts as bound if its file has it before a colon,
an equals sign, the arrow of a case or the dot of a λ."""
import os
import re
import subprocess
import sys

sys.dont_write_bytecode = True
from arguments import script_parser                                         # noqa: E402

TOP = os.path.dirname(os.path.dirname(os.path.abspath(__file__)))
IMPORT = re.compile(r'(?m)^\s*(?:pub )?(?:ghost )?use Rattle\.(jac_\w+)\.(specs|proofs)\.([\w.+-]+?)\.\{([^}]*)\}')
GROUP = re.compile(r'(?m)^\s*(?:pub )?use [^\n]*?\{([^}]*)\}')
HEADS = [re.compile(r"(?m)^\s*(?:(?:abbrev|unfoldable|opaque|pub|record|data) )*([^\W\d][\w'-]*)(?: :| \()"),
         re.compile(r"\bpub (?:record |data )?([^\W\d][\w'-]*)"),
         re.compile(r"\b(?:record|data) pub ([^\W\d][\w'-]*)")]
WORD = re.compile(r"[^\W\d][\w'-]*$")
USE = re.compile(r'(?m)^[ \t]*(?:pub )?(?:ghost )?use [^\n]*')
NAME = r"[^\W\d][\w'≢-]*"
TOKEN = re.compile(r"[.◌+*-]?%s◌?|\S" % NAME)
PLAIN = re.compile(NAME + '$')
# For each sign that binds the names before it: the characters after which these names begin.
BEGINS = {':': '({[→', '=': ';{', '↦': '|[', '.': 'λ'}
HELD = {'let', 'in', '=', ':'}
# Words of the prover itself.
OWN = {'at', 'rw'}


def names_of(group):
    """The names of an import's group, each with the name that the file uses for it."""
    for entry in group.split(','):
        name, _, alias = entry.strip().partition(' as ')
        if WORD.match(name.strip()):
            yield name.strip(), (alias or name).strip()


def given_by(text):
    """The names that a file of specs/ or proofs/ defines or imports."""
    names = {name for head in HEADS for name in head.findall(text)}
    names.update(alias for group in GROUP.findall(text) for _, alias in names_of(group))
    return names


def brought_in(text):
    """The names that a file imports, as the file uses them, operators without the marks of their operands."""
    names = set()
    for line in USE.findall(text):
        group = re.search(r'\{([^}]*)\}', line)
        if group:
            names.update(entry.strip().split(' as ')[-1].strip('◌ ') for entry in group[1].split(','))
        alias = re.search(r' as ([\w-]+)\s*$', line) or re.search(r'\.([\w-]+)\s*$', line)
        if alias:
            names.add(alias[1])
    return names


def bound_in(line, tokens):
    """The names that a line may bind."""
    names = set()
    for at, token in enumerate(tokens):
        if token in BEGINS and not (token == '.' and 'λ' not in tokens[:at]):
            first = at
            while first and tokens[first - 1] not in BEGINS[token] and tokens[first - 1] not in HELD:
                first -= 1
            names.update(filter(PLAIN.match, tokens[first:at]))
    head = re.match(r'[^=≡:]*(?= =(?: |$))', line)
    return names | set(re.findall(NAME, head[0]) if head else ())


def lacked(text, brought, known):
    """The names that a file uses and other files import, and that this file neither defines nor imports."""
    body = re.sub(r'"(?:[^"\\\n]|\\.)*"|--[^\n]*', '', USE.sub('', text))
    used, bound = set(), set(re.findall(r'(?:^|\W)(?:pub|record|data|module) (?:record |data )?(%s)' % NAME, body))
    for line in body.split('\n'):
        tokens = TOKEN.findall(line)
        used.update(filter(PLAIN.match, tokens))
        bound |= bound_in(line, tokens)
    return sorted(name for name in used if name in known and name not in brought and name not in bound and name not in OWN)


def main():
    script_parser().parse_args()
    paths = subprocess.run(['git', 'ls-files', 'crates'], cwd=TOP, capture_output=True, text=True, check=True).stdout.split()
    texts = {}
    for path in paths:
        if path.endswith(('.antt', '.rt')) and os.path.exists(os.path.join(TOP, path)):
            with open(os.path.join(TOP, path), encoding='utf-8') as file:
                texts[path] = file.read()
    given, lacking = {}, 0
    for path, text in texts.items():
        for crate, folder, module, group in IMPORT.findall(text):
            home = 'crates/%s/%s/%s.antt' % (crate, folder, module.replace('.', '/'))
            if home not in texts:
                continue
            if home not in given:
                given[home] = given_by(texts[home])
            for name, _ in names_of(group):
                if name not in given[home]:
                    print('%s: %s has no %s' % (path, home, name))
                    lacking += 1
    brought = {path: brought_in(text) for path, text in texts.items() if path.endswith('.antt') and not path.endswith('/Lib.antt')}
    known = set().union(*brought.values())
    for path, names in brought.items():
        for name in lacked(texts[path], names, known):
            print('%s: uses %s, which it doesn\'t bring in' % (path, name))
            lacking += 1
    print('imports: %d files, %d names lacking' % (len(texts), lacking))
    return 1 if lacking else 0


if __name__ == '__main__':
    sys.exit(main())
