#!/usr/bin/env python3
"""Makes a new application (tools/new.py) in a temporary directory, and does what its README.md says: checks it, walks
it, runs the linter on it, serves it, and makes the first changes. Argument: the program, or the script jac. Prints each
failed case, then a count.

While the application is served, two people and a stranger use it. Its walk must fail if the policy lets everybody read,
and if a view that writes doesn't check the viewer. tidy reads the pages of the walk, if it is installed. Without Jinja2
all but the first two cases are skipped."""
import os
import re
import shutil
import subprocess
import sys
import tempfile
import urllib.error
import urllib.parse
import urllib.request

sys.dont_write_bytecode = True
from support import proved                                                  # noqa: E402
from support import serving                                                 # noqa: E402
from support.pages import TOP                                               # noqa: E402

TOOLS = os.path.join(TOP, 'tools')
sys.path.insert(0, TOOLS)
import walk                                                                 # noqa: E402

PROGRAM = proved.program(proved.first_word())
PYTHON = [sys.executable]
START = [PROGRAM] if proved.is_script(PROGRAM) else [*PYTHON, os.path.join(TOOLS, 'run_folder.py'), PROGRAM]
WALK = [*PYTHON, os.path.join(TOOLS, 'walk.py'), '--program', PROGRAM]
# a change of main, and a line of the walk that must then be reported
TURNED = [
    ('(policy (or (get Note shared this) (and (live viewer) (eq (get Note owner this) viewer))))', '(policy true)',
     'lacks "Plan" "boat" "Let everybody read it"'),
    ('(if [[ is_owner("id") ]]\n   ((update', '(if (live id)\n   ((update',
     'as bob POST /note/{plan}/share shared=1 -> 404'),
    ('(if [[ is_owner("id") ]]\n   ((delete', '(if (live id)\n   ((delete',
     'as nobody POST /note/{plan}/remove -> 404'),
    ('"/notes" (params (title text) (words text) (shared bool))\n  (if (live viewer)',
     '"/notes" (params (title text) (words text) (shared bool))\n  (if true',
     'as nobody POST /notes title=Spam -> 404'),
]
# what README.md says to change first: a new field, and who reads it
FIELD = [
    ('main', '(shared bool))\n  (group', '(shared bool) (day text))\n  (group'),
    ('main', '"/notes" (params (title text) (words text) (shared bool))',
     '"/notes" (params (title text) (words text) (shared bool) (day text))'),
    ('main', '(owner viewer) (shared shared))', '(owner viewer) (shared shared) (day day))'),
    ('pages/forms.html', '<button>', '<label>Day <input name="day" type="date"></label>\n<button>'),
    ('pages/note.html', '<p>By', '<p>{{ (get Note day id) }}</p>\n<p>By'),
    ('walk', 'words="Buy the boat." ->', 'words="Buy the boat." day=2027-03-01 ->'),
    ('walk', 'has "Plan" "Buy the boat." "Let', 'has "2027-03-01" "Plan" "Buy the boat." "Let'),
]
UNREAD = [('walk', 'lacks "Plan" "boat" "Let', 'lacks "2027-03-01" "Plan" "boat" "Let')]
GROUP = '(group (guards (day "")) (policy (and (live viewer) (eq (get Note owner this) viewer))))'
GUARDED = [('main', ' viewer))))))\n', ' viewer)))))\n  %s)\n' % GROUP)]


def run(words, folder=TOP):
    done = subprocess.run(words, cwd=folder, stdin=subprocess.DEVNULL, stdout=subprocess.PIPE, stderr=subprocess.STDOUT,
                          timeout=300, check=False)
    return done.returncode, done.stdout.decode(errors='replace')


def make(folder):
    return run([*PYTHON, os.path.join(TOOLS, 'new.py'), folder])


def has_jinja():
    return run([*PYTHON, '-c', 'import sys; sys.path.insert(0, "tools"); import assemble; assemble.jinja("")'])[0] == 0


def of_making(folder):
    """Checks that a folder is made, and that a folder that exists already is left alone."""
    status, out = make(folder)
    right = status == 0 and os.path.isfile(os.path.join(folder, 'main')) and 'README.md says what to type' in out
    yield None if right else 'new: %d, %s' % (status, out)
    before = sorted(os.listdir(folder))
    status, out = make(folder)
    right = status == 2 and 'nothing was written' in out and sorted(os.listdir(folder)) == before
    yield None if right else 'new over a folder that is there: %d, %s' % (status, out)


def commands(folder):
    """Yields the commands that README.md says to type, with the program that is checked."""
    with open(os.path.join(folder, 'README.md'), encoding='utf-8') as file:
        text = file.read()
    for line in re.findall(r'(?m)^\| to .*\| `([^`]*)` \|$', text):
        words = line.split()
        if os.path.basename(words[0]) == 'jac':
            yield words[1], (WALK if words[1] == 'walk' else [*START, words[1]]) + words[2:]
        else:
            yield os.path.basename(words[1]), [*PYTHON, *words[1:]]


def of_readme(folder):
    """Checks the commands of README.md that end by themselves."""
    found = dict(commands(folder))
    yield None if set(found) == {'check', 'walk', 'serve', 'dev', 'lint.py'} else 'README.md has the commands %s' % list(found)
    for name, said in (('check', 'ok 2 models'), ('walk', 'all met'), ('lint.py', 'nothing to look at')):
        status, out = run(found[name], folder)
        yield None if status == 0 and said in out else '%s: %d, %s' % (name, status, out)


class Kept(urllib.request.HTTPRedirectHandler):
    """Doesn't follow redirects."""

    def redirect_request(self, *_):
        return None


def asked(port, path, who, form=None):
    """Sends a request. Returns the status, the location and the page."""
    body = urllib.parse.urlencode(form).encode() if form is not None else None
    request = urllib.request.Request('http://127.0.0.1:%d%s' % (port, path), body)
    request.add_header('Connection', 'close')
    if who:
        request.add_header('Cookie', 'session=' + who)
    try:
        with urllib.request.build_opener(Kept).open(request, timeout=20) as reply:
            return reply.status, reply.headers.get('Location'), reply.read().decode()
    except urllib.error.HTTPError as reply:
        return reply.code, reply.headers.get('Location'), reply.read().decode()


def of_serving(folder):
    """Checks the application, served as README.md says: only Ann can read a note that she writes."""
    words = dict(commands(folder))['serve']
    port = serving.free_port()
    words[words.index('8080')] = str(port)
    with subprocess.Popen(words, cwd=folder, stdin=subprocess.DEVNULL, stdout=subprocess.DEVNULL,
                          stderr=subprocess.PIPE) as service:
        try:
            for line in service.stderr:
                if b'listening on' in line:
                    break
            first = asked(port, '/', None)
            asked(port, '/setup', None, {})
            status, note, _ = asked(port, '/notes', 'ann', {'title': 'Plan <1>', 'words': 'Buy the boat.'})
            yield None if first[0] == 200 and 'Add Ann and Bob' in first[2] else 'the first page: %s' % (first,)
            yield None if status == 303 and note else 'a note: %s, %s' % (status, note)
            for who, there in (('ann', True), ('bob', False), (None, False), ('guessed', False)):
                status, _, page = asked(port, note or '/', who)
                right = status == 200 and ('Buy the boat.' in page) == ('Plan &lt;1&gt;' in page) == there
                yield None if right else 'the note for %s: %s, %s' % (who, status, page)
        finally:
            service.kill()


def of_turned(folder):
    """Checks that the walk notices each change of the application."""
    path = os.path.join(folder, 'main')
    with open(path, encoding='utf-8') as file:
        text = file.read()
    for old, new, line in TURNED:
        with open(path, 'w', encoding='utf-8') as file:
            file.write(text.replace(old, new))
        status, out = run([*WALK, '.'], folder)
        places = text.count(old)
        right = places == 1 and status == 1 and line in out
        yield None if right else 'turned to %s: %d times, %d, want %s, have %s' % (new, places, status, line, out)
    with open(path, 'w', encoding='utf-8') as file:
        file.write(text)


def change(folder, edits):
    """Makes the edits. The text of each edit must be in its file exactly once. Returns a message if it isn't, or
    None."""
    for name, old, new in edits:
        path = os.path.join(folder, name)
        with open(path, encoding='utf-8') as file:
            text = file.read()
        if text.count(old) != 1:
            return '%s has %r %d times' % (name, old, text.count(old))
        with open(path, 'w', encoding='utf-8') as file:
            file.write(text.replace(old, new))
    return None


def of_changes(folder, copy):
    """Checks the changes that README.md begins with, and that the earlier records are upgraded."""
    with open(os.path.join(folder, 'README.md'), encoding='utf-8') as file:
        yield None if GROUP in file.read() else 'README.md has another group'
    with open(os.path.join(folder, 'events'), 'w', encoding='utf-8') as file:
        file.write('ask - POST "/setup" ""\nask 4096 POST "/notes" "title=Plan"\n')
    store = ['--db', os.path.join(folder, 'store')]
    run([*START, 'replay', '.', 'events', *store], folder)
    shutil.copytree(folder, copy)
    for edits, want in ((FIELD, 'all met'), (UNREAD, 'lacks "2027-03-01"'), (GUARDED, 'all met')):
        wrong = change(folder, edits)
        status, out = run([*WALK, '.'], folder)
        right = status == (0 if want == 'all met' else 1) and want in out
        yield wrong if wrong else None if right else 'a change of %s: %d, %s' % (edits, status, out)
    status, out = run([*START, 'upgrade', copy, '.', *store], folder)
    yield None if status == 0 and 'upgraded 3 records' in out else 'the upgrade: %d, %s' % (status, out)


def of_markup(folder):
    """Yields what tidy says against the pages that the walk gets."""
    events = os.path.join(folder, 'events')
    run([*WALK, '.', '--events', events], folder)
    done = subprocess.run([*START, 'replay', folder, events], stdin=subprocess.DEVNULL, stdout=subprocess.PIPE,
                          stderr=subprocess.DEVNULL, check=False)
    os.remove(events)
    pages = [walk.plain(body) for status, _, body in walk.REPLY.findall(done.stdout) if status != b'303']
    yield None if len(pages) > 10 else 'the walk is answered by %d pages' % len(pages)
    for page in pages:
        said = subprocess.run(['tidy', '-errors', '-quiet', '--drop-empty-elements', 'no'], input=page,
                              stdout=subprocess.DEVNULL, stderr=subprocess.PIPE, check=False).stderr.decode()
        yield '%s: %s' % (said, page.decode()) if said else None


def main():
    skipped = 0
    with tempfile.TemporaryDirectory() as room:
        folder = os.path.join(room, 'our-notes')
        results = [*of_making(folder)]
        if has_jinja():
            results += [*of_readme(folder), *of_turned(folder), *of_serving(folder)]
            results += of_markup(folder) if shutil.which('tidy') else []
            results += of_changes(folder, os.path.join(room, 'copy'))
            if not shutil.which('tidy'):
                skipped = 1
                print('SKIPPED whether the pages are HTML, since tidy is not installed')
        else:
            skipped = 1
            print('SKIPPED what needs Jinja2, which is not installed (python3-jinja2)')
    for wrong in filter(None, results):
        print('FAILED ' + wrong)
    failed = sum(1 for wrong in results if wrong)
    print('%d passed, %d failed%s' % (len(results) - failed, failed, ', %d skipped' % skipped if skipped else ''))
    return 1 if failed else 0


if __name__ == '__main__':
    sys.exit(main())
