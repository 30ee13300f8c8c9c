#!/usr/bin/env python3
"""Lists the files and lines that contain a form (construct) of the language: first those of the crates, lowest crate
first, then those of checks, tools, editors and docs/LANGUAGE.md. Cases and applications that use the form are only
counted.

A new form belongs in the same files as the form that is most like it, so list that one first. Once jac_forms reads the
new form, --like lists what is left to do: the files that contain the other form, but not the new one.

A form is found by its word, by its names in jac_forms and jac_lang, and by the functions that are called only for it.
So a file with another word of the same spelling may be listed, and a lemma or a helper's helper isn't listed."""
import argparse
import functools
import os
import re
import sys

sys.dont_write_bytecode = True
from crates import TOP, crates                                              # noqa: E402

CODE = '.rt', '.antt'
KINDS = {'Expr': ('Expr|Form', 'expr|forms', 'Expression'), 'Op': ('Op', 'ops?', None),
         'Stmt': ('Stmt|Step|Single', 'stmt|steps|singles', 'Statement')}
DECLARED = 'jac_lang/src/expressions.rt', 'jac_lang/src/statements.rt', 'jac_forms/src/words.rt', 'jac_forms/src/steps.rt'
OTHERS = 'checks', 'tools', 'editors', 'docs/LANGUAGE.md'
MIRROR = 'crates/jac_lang/specs/Mirror.antt'
SKIPPED = {'out', '__pycache__', '.git'}


def files(top):
    """The files at and below a path, as paths from the top of the repository."""
    if os.path.isfile(os.path.join(TOP, top)):
        yield top
    for at, folders, names in os.walk(os.path.join(TOP, top)):
        folders[:] = sorted(set(folders) - SKIPPED)
        yield from (os.path.relpath(os.path.join(at, name), TOP) for name in sorted(names))


@functools.lru_cache(maxsize=None)
def text_of(path):
    with open(os.path.join(TOP, path), encoding='utf-8', errors='replace') as file:
        return file.read()


def names(word):
    """The type of a form in jac_lang, its name there, and its name in specs/ or None. None if there is no such form."""
    for path, kind in (('words', 'Expr'), ('steps', 'Stmt')):
        text = text_of('crates/jac_forms/src/%s.rt' % path)
        found = re.search(r'"%s"(?: => |\s*\{\s*)Some\((?:\w+::)?(\w+)::(\w+)\)' % re.escape(word), text)
        if found:
            kind, name = 'Op' if found.group(1) == 'Op' else kind, found.group(2)
            twin = re.search(r"\(?\b%s\.%s'?[ )].*?= \w+\.(\w+)" % (kind.lower(), name), text_of(MIRROR))
            return kind, name, twin.group(1) if twin else None
    return None


def helpers(kind, name):
    """The functions that are called only for this form."""
    own, others = set(), set()
    for path in (path for path in files('crates') if path.endswith('.rt')):
        for form, called in re.findall(r'\b%s::(\w+)\b[^=;]{0,120}=> (?:\{\s*)?(\w+)\(' % kind, text_of(path)):
            (own if form == name else others).add(called)
    return own - others - {'Ok', 'Err', 'Some'}


def pattern(word, kind, name, twin):
    """The pattern that a line with the form matches."""
    code, logic, plain = KINDS[kind]
    called = helpers(kind, name) | {'%s_%s' % (verb, word) for verb in ('mean', 'run')} | {word + '_verdict'}
    parts = [r'\b(?:%s)::%s\b' % (code, name), r"\b(?:%s)\.%s'?(?![\w'])" % (logic, name),
             r'\b(?:[\w]+-)?(?:%s)\b' % '|'.join(sorted(called)), '"%s"' % re.escape(word), "'%s'" % re.escape(word)]
    return re.compile('|'.join(parts + ([r'\b%s\.%s\b' % (plain, twin)] if twin else [])))


def found_in(path, wanted, word, name, twin):
    """The numbers of the lines of a file that contain the form."""
    own = [wanted.pattern]
    if path.startswith('editors'):
        own = [r'^%s\s|[|(]%s\\?[|)]' % ((re.escape(word),) * 2)]
    elif path.startswith('docs'):
        own = [r'^\| .*`\(%s[ )]' % re.escape(word)]
    elif path.endswith(DECLARED):
        own += [r'^    %s\b *[,({]' % name]
    elif path.endswith('jac_lang/specs/Syntax.antt'):
        own += [r'^    %s : ' % twin]
    have, text = re.compile('|'.join(own), re.MULTILINE), text_of(path)
    return sorted({text.count('\n', 0, match.start()) + 1 for match in have.finditer(text)})


def places(word):
    """Each file that contains the form, with the numbers of the lines."""
    if names(word) is None:
        return
    kind, name, twin = names(word)
    wanted = pattern(word, kind, name, twin)
    for top in [*('crates/' + crate for crate in crates()), *OTHERS]:
        for path in files(top):
            if path.startswith('crates') and not path.endswith(CODE + ('.edit',)):
                continue
            if not path.startswith('crates') and path.endswith(('.case', '.app')):
                continue
            lines = found_in(path, wanted, word, name, twin)
            if lines:
                yield path, lines


def used(word):
    """How many cases, and how many other files of applications and pages, contain the form in brackets."""
    form = re.compile(r'\(%s[ )]' % re.escape(word))
    cases = [path for path in files('checks/cases') if form.search(text_of(path))]
    rest = [path for top in ('examples', 'tools/new', 'checks/linted', 'docs', 'crates/jac_main/data') for path in files(top)
            if form.search(text_of(path))]
    return len(cases), len(rest)


def main():
    words = argparse.ArgumentParser(description=__doc__, formatter_class=argparse.RawDescriptionHelpFormatter)
    words.add_argument('word', help='a form of an expression or of a statement, such as not or redirect')
    words.add_argument('--like', metavar='OTHER', help='list the files that contain OTHER, but not the form')
    words.add_argument('--lines', action='store_true', help='show each line, as grep does')
    given = words.parse_args()
    shown = given.like or given.word
    if names(shown) is None:
        sys.exit('jac_forms reads no form %s' % shown)
    passed = {path for path, _ in places(given.word)} if given.like else set()
    left = [(path, lines) for path, lines in places(shown) if path not in passed]
    for path, lines in left:
        text = text_of(path).split('\n')
        print('\n'.join('%s:%d:%s' % (path, number, text[number - 1]) for number in lines) if given.lines
              else '%s: %s' % (path, ', '.join(map(str, lines))))
    print('%d files; %s is used in %d cases, and in %d files of applications and pages' % (len(left), shown, *used(shown)))


if __name__ == '__main__':
    main()
