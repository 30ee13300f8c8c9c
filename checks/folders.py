#!/usr/bin/env python3
"""Checks applications that are folders: the text that `tools/assemble.py` puts together, the places that its map and
the messages name, and the exit statuses. Also checks that `jac serve` of a folder ends as the program does and leaves
no file.

Arguments: the script `jac`, or a program that `tools/run_folder.py` runs. Without Jinja2 everything is skipped except
the test of the message that names the missing package. Prints each failed case, then a count."""
import argparse
import filecmp
import glob
import os
import signal
import subprocess
import sys
import tempfile

sys.dont_write_bytecode = True
from support import proved                                                  # noqa: E402
from support.serving import free_port                                       # noqa: E402

TOP = proved.TOP
TOOLS = os.path.join(TOP, 'tools')
sys.path.insert(0, TOOLS)
import assemble                                                             # noqa: E402

MAIN = '''[# who sees what #]
[% from "rules" import is_host %]
(app (viewer Person)
 (model Person (fields (name text) (role text))
  (group (guards (name "somebody")) (policy (or (eq this viewer) [[ is_host() ]]))))
 (view post "/join" (params (name text)) (create p Person (set (name name))) (redirect "/"))
 (view get "/" (params) [[ page("list.html", title="People") ]]))
'''
RULES = '''[% macro is_host() %]
(eq (get Person role viewer) "host")[% endmacro %]
'''
LAYOUT = '''<!DOCTYPE html>
<html lang="en"><title>[[ title ]]</title>
<main>[% block main %][% endblock %]</main>
'''
LIST = '''[% extends "layout.html" %]
[% block main %]
<p class="first">A \\ and a "quote"</p>
{% (for (from ((p Person)) true key)) %}<li>{{ (get Person name p) }}{{ "x" }}</li>
{% end %}[% endblock %]
'''
TEXT = '''(app (viewer Person)
 (model Person (fields (name text) (role text))
  (group (guards (name "somebody")) (policy (or (eq this viewer) (eq (get Person role viewer) "host")))))
 (view post "/join" (params (name text)) (create p Person (set (name name))) (redirect "/"))
 (view get "/" (params) (template "<!DOCTYPE html>
<html lang=\\"en\\"><title>People</title>
<main><p class=\\"first\\">A \\\\ and a \\"quote\\"</p>
{% (for (from ((p Person)) true key)) %}<li>{{ (get Person name p) }}{{ \\"x\\" }}</li>
{% end %}</main>
")))
'''
PARTS = {'main': MAIN, 'pages/rules': RULES, 'pages/layout.html': LAYOUT, 'pages/list.html': LIST}
# a change of a part, the program's line, and the place that the message names
REFUSED = [
    ('pages/list.html', 'get Person name p', 'get Persn name p', 'app: view 1: unknown name Persn',
     'pages/list.html:4:53: in the view get /: there is no model Persn'),
    ('pages/list.html', '{% end %}', '', 'app: template in view 1: unclosed at',
     'pages/list.html:4:1: in the view get /: '),
    ('pages/list.html', '"x"', '(add 1)', 'app: template in view 1: form at',
     'pages/list.html:4:73: in the view get /: add'),
    ('pages/rules', 'Person role', 'Person rôle', 'app: stray at', 'pages/rules:2:18: in the model Person: '),
    ('pages/rules', 'role viewer', 'rule viewer', 'app: model Person: unknown name rule',
     'pages/rules:2:17: in the model Person: '),
    ('main', '(params)', '(params))', 'app: stray at', 'main:7:24: '),
    ('main', '(create p Person', '(create p Persons', 'app: view 0: unknown name Persons',
     'main:6:52: in the view post /join: '),
]
# a change of a part that Jinja2 refuses, and the message with its place
FAULTY = [
    ('pages/list.html', '[% block main %]', '[% blok main %]', "pages/list.html:2: Encountered unknown tag 'blok'."),
    ('pages/list.html', '"layout.html"', '"lay.html"', 'pages/list.html:1: there is no part lay.html in '),
    ('pages/layout.html', '[[ title ]]', '[[ titel ]]', "pages/layout.html:2: 'titel' is undefined"),
    ('pages/layout.html', '[[ title ]]', '[[ title', 'pages/layout.html:2: '),
    ('pages/layout.html', '[[ title ]]', '[% include "layout.html" %]', 'pages/layout.html:2: a part includes itself'),
    ('main', 'is_host() ]]', 'is_host(1, 2) ]]', 'main:5: '),
    ('main', 'is_host() ]]', '"".__class__.__mro__ ]]', 'main:5: '),
    ('pages/rules', 'role', '\udcff', 'pages/rules:2: this part is not UTF-8'),
]


class Folder:
    """A folder of parts in a temporary directory."""

    def __init__(self, room, parts):
        self.room, self.path = room, os.path.join(room, 'site')
        for name, text in parts.items():
            path = os.path.join(self.path, name)
            os.makedirs(os.path.dirname(path), exist_ok=True)
            with open(path, 'wb') as file:
                file.write(text.encode('utf-8', 'surrogateescape'))

    def ran(self, command, *words, environment=None):
        done = subprocess.run([*command, *words], cwd=self.room, stdin=subprocess.DEVNULL, stdout=subprocess.PIPE,
                              stderr=subprocess.PIPE, timeout=120, check=False,
                              env={**os.environ, **(environment or {})})
        return done.returncode, done.stdout.decode(), done.stderr.decode()


def script(name):
    return [sys.executable, os.path.join(TOOLS, name)]


def changed(name, old, new):
    if PARTS[name].count(old) < 1:
        raise ValueError('%s has no %s' % (name, old))
    return {**PARTS, name: PARTS[name].replace(old, new, 1)}


def of_the_text(command):
    """Checks the text that is put together, its map, and a replay of it."""
    with tempfile.TemporaryDirectory() as room:
        folder = Folder(room, PARTS)
        have = folder.ran(script('assemble.py'), 'site', '--map', 'map')
        yield None if have == (0, TEXT, '') else 'the text: %r' % (have,)
        with open(os.path.join(room, 'map'), encoding='utf-8') as file:
            lines = file.read().splitlines()
        want = {'1 site/main 3', '6 site/pages/layout.html 2', '8 site/pages/list.html 4'}
        yield None if len(lines) == 10 and want <= set(lines) else 'the map: %r' % lines
        with open(os.path.join(room, 'events'), 'w', encoding='utf-8') as file:
            file.write('ask - POST "/join" "name=Ann"\nask - GET "/" ""\n')
        status, out, _ = folder.ran(command, 'replay', '--db=d', '--', 'site', 'events')
        yield None if status == 0 and '<li>somebodyx</li>' in out else 'a replay: %r' % ((status, out),)
        for words, want in ((['dump', 'site', '-', '--db', 'd'], 'Person 4096 name="somebody" role=""\nnumber 2\n'),
                            (['why', '--db', 'd', 'site', '4096'], 'shown 32768\n'),
                            (['upgrade', 'site', 'site', '--db', 'd'], 'upgraded 1 records\n')):
            have = folder.ran(command, *words)[:2]
            yield None if have == (0, want) else '%s: %r' % (' '.join(words), have)


def of_the_place(command):
    """Checks the program's line, and the place in a part that the message on standard error names."""
    pointing = command if command[-1].endswith('jac') else None
    for name, old, new, line, place in REFUSED:
        with tempfile.TemporaryDirectory() as room:
            folder = Folder(room, changed(name, old, new))
            status, out, _ = folder.ran(command, 'check', 'site')
            yield None if status == 2 and out.startswith(line) else '%s: %r' % (new, (status, out))
            program = proved.binary(command[-1]) if pointing else command[-1]
            said = folder.ran(script('fault_place.py'), program, 'check', 'site')[2]
            yield None if said.startswith('site/' + place) else '%s: the message is %r' % (new, said)


def of_faults(command):
    """Checks the message for a fault that Jinja2 finds, and the exit status, for each script that takes a folder."""
    for name, old, new, words in FAULTY:
        with tempfile.TemporaryDirectory() as room:
            folder = Folder(room, changed(name, old, new))
            for ran in ([*script('assemble.py'), 'site'], [*command, 'check', 'site'], [*script('lint.py'), 'site'],
                        [*script('why.py'), 'site'], [*script('audit.py'), 'site', '/dev/null']):
                status, out, err = folder.ran(ran)
                right = (status, out) == (65, '') and err.startswith('site/' + words)
                yield None if right else '%s, %s: %r' % (new, ran[1], (status, out, err))


def of_lacking_jinja(command):
    """Checks that without Jinja2 one line names its package, and that a single file can still be used."""
    with tempfile.TemporaryDirectory() as room:
        folder = Folder(room, PARTS)
        with open(os.path.join(room, 'jinja2.py'), 'w', encoding='utf-8') as file:
            file.write('raise ImportError\n')
        with open(os.path.join(room, 'file.app'), 'w', encoding='utf-8') as file:
            file.write(TEXT)
        lacking = {'PYTHONPATH': room}
        status, out, err = folder.ran(command, 'check', 'site', environment=lacking)
        right = (status, out) == (69, '') and 'python3-jinja2' in err and len(err.splitlines()) == 1
        yield None if right else 'without Jinja2: %r' % ((status, out, err),)
        have = folder.ran(command, 'check', 'file.app', environment=lacking)[:2]
        yield None if have == (0, 'ok 1 models, 2 views\n') else 'a file without Jinja2: %r' % (have,)


def of_serving(command):
    """Checks that a service over a folder listens, is ended by the signal that it gets, and leaves no file."""
    for number in (signal.SIGTERM, signal.SIGINT, signal.SIGKILL):
        with tempfile.TemporaryDirectory() as room, tempfile.TemporaryDirectory() as temporary:
            folder = Folder(room, PARTS)
            port = str(free_port())
            run = subprocess.Popen([*command, 'serve', 'site', port, '5'], cwd=folder.room, stdin=subprocess.DEVNULL,
                                   stdout=subprocess.DEVNULL, stderr=subprocess.PIPE,
                                   env={**os.environ, 'TMPDIR': temporary})
            with run:
                said = next((line for line in run.stderr if b'listening' in line), b'')
                run.send_signal(number)
                status = run.wait(timeout=20)
            right = said.endswith(b'listening on 127.0.0.1:%s\n' % port.encode())
            right = right and status == -number and not os.listdir(temporary)
            yield None if right else 'serving until %s: %r' % (number.name, (said, status, os.listdir(temporary)))


def of_the_examples():
    """Checks that the parts of each example have their assembled text beside them, in the file `app`."""
    mains = sorted(glob.glob(os.path.join(TOP, 'examples', '**', 'main'), recursive=True))
    for path in mains:
        folder = os.path.dirname(path)
        with open(os.path.join(folder, 'app'), 'rb') as file:
            same = file.read() == assemble.read(folder)
        name = os.path.relpath(folder, TOP)
        yield None if same else '%s/app is not what its parts are put together to: ' \
            'python3 tools/assemble.py %s > %s/app' % (name, name, name)


# The parts that the next version of courses takes unchanged from the first one.
COPIES = ('first/course.html', 'first/export.html', 'first/forms.html', 'first/people.html', 'first/task.html',
          'courses.html', 'layout.html', 'login.html', 'none.html', 'refused.html', 'rules', 'style.css')


def of_the_copies():
    """Checks that the parts that two versions of an example share are the same."""
    first, second = (os.path.join(TOP, 'examples', name, 'pages') for name in ('courses', 'courses/next'))
    for name in COPIES:
        own, copy = os.path.join(first, os.path.basename(name)), os.path.join(second, name)
        yield None if filecmp.cmp(own, copy, shallow=False) else '%s is not the same as %s' % (copy, own)


def has_jinja():
    try:
        return bool(assemble.jinja('examples'))
    except assemble.Fault:
        return False


def main():
    parser = argparse.ArgumentParser(description=__doc__, formatter_class=argparse.RawDescriptionHelpFormatter)
    parser.add_argument('program', nargs='?', default=os.path.join(TOP, 'jac'), help='./jac, or a program')
    program = proved.program(parser.parse_args().program)
    command = [program] if proved.is_script(program) else [*script('run_folder.py'), program]
    results, skipped = list(of_lacking_jinja(command)), 0
    parts = [lambda: of_the_text(command), lambda: of_the_place(command), lambda: of_faults(command),
             lambda: of_serving(command), of_the_examples, of_the_copies]
    if has_jinja():
        results += [result for part in parts for result in part()]
    else:
        skipped = len(parts)
    for wrong in filter(None, results):
        print('FAILED ' + wrong)
    failed = sum(1 for wrong in results if wrong)
    print('%d passed, %d failed%s' % (len(results) - failed, failed, ', %d skipped' % skipped if skipped else ''))
    return 1 if failed else 0


if __name__ == '__main__':
    sys.exit(main())
