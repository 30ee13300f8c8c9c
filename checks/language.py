#!/usr/bin/env python3
"""Runs the examples of docs/LANGUAGE.md, and what the other pages show of applications. Argument: the program. Prints
each wrong line, then a count.

An example states its output: `STATEMENTS` puts `TEXT`, `TEMPLATE` puts `TEXT`, `EXPRESSION` is `TEXT`, `STATEMENTS`
answers 404 with `TEXT`, `STATEMENTS` redirects to `LOCATION`. It runs in the page's library, which its `/fill` has
filled. An indented block is an application, some of its parts, a query or statements, and the program has to accept it.
A model in a block is known in the blocks after it. On every page, the program has to accept each indented application.

On the page of an example's folder, an indented view has to be in the example's application. Lines that begin with a
digit have to be lines of its audit or of the output of `why`. What a table says that a viewer reads has to be in its
output, escaped as HTML. The pages of these examples have one style.

In the section on writing, each case that is named has to be in checks/cases, and each form has to be in one of these
cases, where `..` stands for whatever is left out. What the section says and no case has runs here, and so does the
tutorial's mistake. Each part of a view that docs/TEMPLATES.md shows in an indented block has to be in an example.

README's first application has to be an example about which the linter reports nothing. The replies that README shows
have to be those of its run."""
import glob
import html
import os
import re
import subprocess
import sys
import tempfile
import textwrap

sys.dont_write_bytecode = True
from support import proved                                                  # noqa: E402
from support.pages import TOP, read                                         # noqa: E402

PROGRAM = proved.program(proved.first_word())
PAGE = 'docs/LANGUAGE.md'
EXAMPLE = re.compile(r'`([^`\n]+)` (is|puts|answers 404 with|redirects to) `([^`\n]+)`')
APART = re.compile(r'(?m)(?:^    .*\n)+(?:\n+(?:^    .*\n)+)*')
WRITES = re.compile(r'\((?:create|update|delete) ')
ASKS = re.compile(r'(?m)^\| Who asks \|.*\n(?:\|.*\n)+')
STYLE = re.compile(r'(?s)<style>.*?</style>')
EVENTS = 'ask - POST "/fill" ""\nask 4096 %s "/example" ""\n'
QUOTED = re.compile(r'"(?:[^"\\]|\\.)*"')
INLINE = re.compile(r'`([^`\n]+)`')

# Whoever posts /drop deletes a draft. Words that the form sends again aren't a copy of the draft's words.
WRITING = '''(app (viewer User)
 (model User (fields (name text)))
 (model Draft (fields (author (ref User)) (words text))
  (group (guards (words "not yet")) (policy (eq (get Draft author this) viewer))))
 (model Article (fields (words text)))
 (view post "/join" (params (name text)) (create u User (set (name name))))
 (view post "/drafts" (params (words text)) (create d Draft (set (author viewer) (words words))))
 (view post "/drop/{id}" (params (id (ref Draft))) (delete Draft id))
 (view post "/publish/{id}" (params (id (ref Draft)) (words text)) (create a Article (set (words words))) (delete Draft id))
 (view get "/" (params) (put (count (from ((d Draft)) true key))) (put " drafts, ")
  (for (from ((a Article)) true key) (put (get Article words a)) (put ";"))))
'''
WRITTEN = '''ask - POST "/join" "name=Ann"
ask - POST "/join" "name=Bob"
ask 4096 POST "/drafts" "words=spring"
ask 4096 POST "/publish/12289" "words=spring"
ask 4096 POST "/drafts" "words=summer"
ask 4096 GET "/" ""
ask 8192 POST "/drop/20481" ""
ask - GET "/" ""
'''
READS = [(5, 'reply 200 "" "1 drafts, spring;"'), (7, 'reply 200 "" "0 drafts, spring;"')]
# Ann adds a closed event. Bob saves the form that was filled in for him. Ann lists the events.
RENAME = '''ask - POST "/join" "name=Ann"
ask - POST "/join" "name=Bob"
ask 4096 POST "/add" "title=raid&open=0"
ask 8192 POST "/rename" "event=12289&title=private"
ask 4096 GET "/list" ""
'''
RENAMED = [['reply 200 "" ""', 'reply 200 "" "private;"'], ['reply 404 "" "not yours"', 'reply 200 "" "raid;"']]


def apart(page):
    """Returns the blocks of a page that are indented by four spaces."""
    return [textwrap.dedent(block).strip('\n') for block in APART.findall(read(page))]


def trees(text):
    """Returns the outermost lists of a text. Brackets in quotes don't count."""
    plain, depth, start, found = QUOTED.sub(lambda found: '_' * len(found[0]), text), 0, 0, []
    for at, byte in enumerate(plain):
        if byte == '(':
            start = at if depth == 0 else start
            depth += 1
        elif byte == ')':
            depth -= 1
            if depth == 0:
                found.append(text[start:at + 1])
    return found


def models(text):
    """Returns the models of an application or of some of its parts, by name."""
    parts = trees(text[1:-1]) if text.startswith('(app') else trees(text)
    return {part.split()[1]: part for part in parts if part.startswith('(model ')}


def application(known, rest):
    return '(app (viewer User)\n%s\n%s)\n' % ('\n'.join(known.values()), rest)


def program(words, files):
    """Runs the program over these files. Returns its status and the lines of its output."""
    with tempfile.TemporaryDirectory() as folder:
        for name, text in files.items():
            with open(os.path.join(folder, name), 'w', encoding='utf-8') as handle:
                handle.write(text)
        done = subprocess.run([PROGRAM] + words, cwd=folder, stdin=subprocess.DEVNULL, stdout=subprocess.PIPE, timeout=120)
        return done.returncode, done.stdout.decode('ascii').splitlines() or ['nothing']


def refused(app):
    """Returns what the program says against an application, or None."""
    status, lines = program(['check', 'app'], {'app': app})
    return None if status == 0 else lines[-1]


def quoted(text):
    return text.replace('\\', '\\\\').replace('"', '\\"')


def view(code, kind):
    """Returns the method and the text of the view whose page shows an example."""
    if kind == 'is':
        code = '(put %s)' % code
    elif not code.startswith('('):
        code = '(template "%s")' % quoted(code)
    method = 'post' if WRITES.search(code) else 'get'
    return method, '(view %s "/example" (params) %s)' % (method, code)


def reply(kind, text):
    if kind == 'redirects to':
        return 'reply 303 "%s" ""' % quoted(text)
    return 'reply %d "" "%s"' % (404 if kind.startswith('answers') else 200, quoted(text))


def wrong_example(library, code, kind, text):
    method, shown = view(code, kind)
    app = application(models(library), '\n'.join(part for part in trees(library[1:-1]) if part.startswith('(view p')) + shown)
    status, lines = program(['replay', 'app', 'events'], {'app': app, 'events': EVENTS % method.upper()})
    want = reply(kind, text)
    return None if (status, lines[-1]) == (0, want) else '%s: want %s, have %s' % (code, want, lines[-1])


def part_of(known, block):
    """Returns the application that a block is a part of. `..` is replaced by nothing."""
    block = block.replace(' ..', '')
    if block.startswith(('(model', '(view')):
        known = {**known, **models(block)}
        return application(known, '\n'.join(part for part in trees(block) if not part.startswith('(model')))
    if block.startswith('(from'):
        block = '(for %s)' % block
    return application(known, '(view get "/example" (params) %s)' % block)


def of_language():
    """Checks each example and each block of the page of the language."""
    blocks = [block for block in apart(PAGE) if block.startswith('(')]
    library = next(block for block in blocks if block.startswith('(app'))
    for code, kind, text in EXAMPLE.findall(read(PAGE)):
        yield wrong_example(library, code, kind, text)
    known = models(library)
    for block in blocks:
        if not block.startswith('(app'):
            known = {**known, **models(block)}
            fault = refused(part_of(known, block))
            yield fault and '%s: %s' % (block, fault)


def of_pages():
    """Checks each application on any page, and what the page of an example's folder quotes from the folder."""
    names = ['README.md'] + sorted(glob.glob('docs/*.md', root_dir=TOP)) + sorted(glob.glob('examples/*/README.md', root_dir=TOP))
    for name in names:
        for block in apart(name):
            if block.startswith('(app'):
                fault = refused(block)
                yield fault and '%s: %s: %s' % (name, block, fault)
            elif name.startswith('examples'):
                yield uncited(os.path.dirname(name), block)
        for table in ASKS.findall(read(name)) if name.startswith('examples') else ():
            yield untold(os.path.dirname(name), table)


def uncited(folder, block):
    """Returns what the page of a folder quotes and the folder doesn't have."""
    if block.startswith('(') and textwrap.indent(block, ' ') not in beside(folder, 'app', 'next/app'):
        return '%s: not in its application: %s' % (folder, block)
    if block.startswith('<') and block not in beside(folder, 'pages/export.html'):
        return '%s: not in its pages: %s' % (folder, block)
    told = beside(folder, 'audit', 'next/audit', 'why').splitlines()
    lines = [line for line in block.splitlines() if line[:1].isdigit() and line not in told]
    return '%s: not in its audit, nor told by why: %s' % (folder, lines[0]) if lines else None


def beside(folder, *names):
    """Returns the contents of these files of the folder, as far as they exist."""
    return ''.join(read('%s/%s' % (folder, name)) for name in names if os.path.exists(os.path.join(TOP, folder, name)))


def of_styles():
    """Checks that the larger examples all have the same style."""
    names = glob.glob('examples/*/app', root_dir=TOP) + glob.glob('examples/*/next/app', root_dir=TOP)
    styles = {style for name in names for style in STYLE.findall(read(name))}
    yield None if len(styles) == 1 else 'examples: %d styles' % len(styles)


def plain(text):
    return ' '.join(text.split())


def of_writing():
    """Checks each case that the section on writing names, each form of that section, and what no case has."""
    section = read(PAGE).split('\n## Writing\n')[1].split('\n## ')[0]
    cases = ['checks/cases/%s.case' % name for name in re.findall(r'`([a-z_]{12,})`', section)]
    missing = [case for case in cases if not os.path.exists(os.path.join(TOP, case))]
    yield 'no such case: %s' % missing if missing or len(cases) < 5 else None
    texts = [plain(read(case)) for case in cases if case not in missing]
    for form in INLINE.findall(section):
        if form.startswith('('):
            shape = '.*?'.join(re.escape(part) for part in plain(form).split('..'))
            yield None if any(re.search(shape, text) for text in texts) else 'in no case that is named: ' + form
    status, lines = program(['replay', 'app', 'events'], {'app': WRITING, 'events': WRITTEN})
    have = [(at, lines[at]) for at, _ in READS] if len(lines) == 8 else lines
    yield None if (status, have) == (0, READS) else 'writing: want %s, have %s' % (READS, have)


def of_the_slip():
    """Checks the tutorial's two views that rename an event of its calendar."""
    calendar = read('examples/calendar.app').rstrip()
    views = [block for block in apart('docs/TUTORIAL.md') if block.startswith('(view post "/rename"')]
    yield None if len(views) == len(RENAMED) else 'docs/TUTORIAL.md: %d views that rename' % len(views)
    for view, want in zip(views, RENAMED):
        status, lines = program(['replay', 'app', 'events'], {'app': calendar[:-1] + view + ')', 'events': RENAME})
        yield None if (status, lines[3:]) == (0, want) else '%s: want %s, have %s' % (view, want, lines[3:])


def of_readme():
    """Checks the README's first application, the replies that README shows, and that the linter reports nothing about
    it."""
    blocks = apart('README.md')
    name = re.search(r'`(examples/\S+)\.app`', read('README.md')).group(1)
    app, events, out = (read('%s.%s' % (name, end)) for end in ('app', 'events', 'out'))
    yield None if blocks[0] == app.rstrip('\n') else 'README.md: its first application is not %s.app' % name
    shown = '$ ./jac replay %s.app %s.events --audit audit\n%s' % (name, name, out.rstrip('\n'))
    yield None if blocks[1] == shown else 'README.md: want %s, have %s' % (shown, blocks[1])
    status, lines = program(['replay', 'app', 'events'], {'app': blocks[0], 'events': events})
    yield None if (status, lines) == (0, out.splitlines()) else 'README.md: its application puts %s' % lines
    said = subprocess.run([sys.executable, os.path.join(TOP, 'tools', 'lint.py'), name + '.app'], cwd=TOP,
                          stdout=subprocess.PIPE, check=False).stdout.decode()
    yield None if said == 'lint: nothing to look at\n' else 'README.md: its application is to be looked at: ' + said


def of_templates():
    """Checks each part of a view that the page on templates shows in an indented block."""
    examples = [plain(read(name)) for name in ('examples/guestbook.app', 'examples/notes.app')]
    for block in apart('docs/TEMPLATES.md'):
        if block.startswith(('(view', '(let', '(if', '{%')):
            yield None if any(plain(block) in text for text in examples) else 'docs/TEMPLATES.md: in no example: ' + block


def untold(folder, table):
    """Returns what a table says that somebody read and the folder's output doesn't have."""
    out = beside(folder, 'out', 'next/out')
    lacking = [text for text in re.findall(r'`([^`\n]+)`', table) if html.escape(text) not in out]
    return '%s: not in its output: %s' % (folder, lacking[0]) if lacking else None


def main():
    results = [*of_language(), *of_readme(), *of_writing(), *of_the_slip(), *of_templates(), *of_pages(), *of_styles()]
    for wrong in filter(None, results):
        print('FAILED ' + wrong)
    failed = sum(1 for wrong in results if wrong)
    print('%d passed, %d failed' % (len(results) - failed, failed))
    sys.exit(1 if failed else 0)


if __name__ == '__main__':
    main()
