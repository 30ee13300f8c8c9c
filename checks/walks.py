#!/usr/bin/env python3
"""Runs the walks of the examples and of the tutorial, and checks that a wrong walk fails. Argument: the program. Prints
each failure, then a count.

Each walk of an example is copied with all its expectations inverted: `has` becomes `lacks`, `shows` becomes `hides`,
and each status becomes another one. Each of these lines must be reported. Walks that are malformed, or that have words
that mean nothing in their application, must be refused with their line and exit status 2."""
import contextlib
import glob
import io
import os
import re
import shutil
import subprocess
import sys
import tempfile
import textwrap

sys.dont_write_bytecode = True
from support import proved                                                  # noqa: E402
from support.pages import TOP, read                                         # noqa: E402

PROGRAM = proved.program(proved.first_word())
TOOL = os.path.join(TOP, 'tools', 'walk.py')
sys.path.insert(0, os.path.join(TOP, 'tools'))
import walk                                                                 # noqa: E402

SUMMARY = re.compile(r'(\d+) steps, (\d+) expectations after them, (?:(\d+) not met|all met)\n$')
QUOTED = re.compile(r'"(?:[^"\\]|\\.)*"')
# the number of the line, and the words that were expected or are shown
REPORTED = re.compile(r'(?m)^(?:[^\n ]*):(\d+): .*\n((?:    .*\n)*)')
TURNED = {'has': 'lacks', 'lacks': 'has', 'shows': 'hides', 'hides': 'shows'}
APART = re.compile(r'(?m)(?:^    .*\n)+(?:\n+(?:^    .*\n)+)*')

APP = '''(app (viewer User)
 (model User (fields (name text)))
 (model Card (fields (owner (ref User)) (phone text) (town text) (fax text))
  (group (guards (phone "hidden") (fax "")) (policy (and (live viewer) (eq (get Card owner this) viewer)))))
 (model Diary (fields (owner (ref User)) (words text))
  (group hides (policy (and (live viewer) (eq (get Diary owner this) viewer)))))
 (model Mail nested (fields (to (ref User))))
 (view post "/join" (params (name text)) (create u User (set (name name))) (redirect "/?said=Welcome"))
 (view post "/cards" (params (phone text) (town text))
  (create c Card (set (owner viewer) (phone phone) (town town))
   (create d Diary (set (owner viewer) (words phone)))
   (redirect (cat "/card/" (str c)))))
 (view post "/mails" (params) (for (from ((u User)) true key) (create m Mail (set (to u)))))
 (view get "/" (params (said text) (q text))
  (template "<p title='{{ q }}'>{{ said }}</p><ul>{% (for (from ((c Card)) true key)) %}
<li><b>{{ (get Card town c) }}</b>: {{ (get Card phone c) }}</li>
{% end %}</ul>"))
 (view get "/card/{id}" (params (id (ref Card)))
  (if (live id) ((esc (get Card phone id))) ((missing) (put "gone"))))
 (view get "/mails" (params) (for (from ((m Mail)) true key) (put m) (put " ") (put (get Mail to m)) (put ";"))))
'''
NEXT = APP.replace('(fax text))', '(fax text) (open bool))', 1)
SESSIONS = 'ann 4096\nguest -\n'
JOINED = '''ann = as nobody POST /join name=Ann -> 303 "/?said=Welcome"
bob = as nobody POST /join name="Bob B." -> 303
card, diary = as ann POST /cards phone="1 < 2" town=Rome -> 303 /card/{card}
'''
# walks over APP that are right
GOOD = {
    'all forms': JOINED + '''as ann GET /card/{card} -> 200   # a comment
  is "1 &lt; 2"
  has "1 < 2" "1 &lt; 2"
  shows card.phone diary
  shows only card.phone diary
as bob GET /card/{card}
  has "hidden"
  lacks "1 < 2" "1 &lt;"
  hides card.phone diary
as nobody GET /
  has "Rome: hidden" "<b>Rome</b>" "Rome:   hidden"
  shows nothing
as guest HEAD / -> 200
  is ""
as nobody GET / q="\\"a\\" & \\{b}" -> 200
  has "\\"a\\" & \\{b}" "title='&quot;a&quot;"
as nobody GET /none -> 404
as nobody DELETE / -> 405
as nobody GET "/?said=two words" \\
  q=x -> 200
  has "two words"
''',
    'a location that is followed': '''as nobody POST /join name=Ann -> 303
follow -> 200
  has "Welcome"
''',
    'records of a loop': JOINED + '''anns, bobs = as nobody POST /mails
as nobody GET /mails
  is "{anns} {ann};{bobs} {bob};"
''',
    'an included file': '''include people
as ann GET /card/{card}
  has "1 < 2"
''',
    'an upgrade': JOINED + '''upgrade next
as ann GET /card/{card} -> 200
  shows card.phone
''',
}
# walks that fail: the line that is reported, and words of the message
FAILING = {
    'a status': (JOINED + 'as ann GET /card/{card} -> 404\n', 4, ['- 404', '+ 200']),
    'a status that nothing is said of': ('as ann GET /none\n', 1, ['- 200 or 303', '+ 404']),
    'a location': ('ann = as ann POST /join name=A -> 303 /card/{ann}\n', 1,
                   ['- 303 /card/4096', '+ 303 /?said=Welcome']),
    'a text': (JOINED + 'as bob GET /\n  has "Rome"\n  has "Rome: 1 < 2"\n', 6,
               ['asked by line 4', '- Rome: 1 < 2', '+ Rome: hidden']),
    'a text that is there': (JOINED + 'as bob GET /\n  lacks "Paris"\n  lacks "Rome"\n', 6,
                             ['- no Rome', '+ Rome: hidden']),
    'a text in an attribute': ('as ann GET / q="secret \\"x\\""\n  lacks "secret \\"x\\""\n', 2, ['- no secret "x"']),
    'a whole page': (JOINED + 'as bob GET /card/{card}\n  is "hid"\n', 5, ['- hid', '+ hidden']),
    'a label': (JOINED + 'as bob GET /\n  shows card.phone\n', 5,
                ['- card.phone', 'what is shown: nothing that is guarded']),
    'a label that is shown': (JOINED + 'as ann GET /\n  hides diary\n', 5,
                              ['- diary is hidden', 'what is shown: card.phone, diary']),
    'one label by two fields': (JOINED + 'as bob GET /\n  shows card.phone card.fax\n', 5,
                                ['- card.phone', '- card.fax']),
    'a label too many': (JOINED + 'as ann GET /\n  shows only diary\n', 5, ['+ card.phone']),
    'labels where none are wanted': (JOINED + 'as ann GET /\n  shows nothing\n', 5, ['+ card.phone', '+ diary']),
    'a record that was not made': ('a, b = as nobody POST /join name=A -> 303\nas nobody GET /card/{b} -> 200\n', 1,
                                   ['- records for a, b', '+ the request made User; the reply is 303 /?said=Welcome']),
    'a name that means nothing then': ('b = as nobody GET / -> 200\nas nobody GET /card/{b} -> 200\n', 2,
                                       ['no record is called b', 'the walk ends here']),
    'a session of somebody else': ('bob = as nobody POST /join name=B\nann = as nobody POST /join name=A\n', 2,
                                   ['- ann 4096, in the sessions', '+ ann 8192, which was made']),
}
# walks that are malformed, or name what doesn't exist: the line, and words of the message
REFUSED = {
    'an unknown word': ('as ann GET /\n  hass "x"\n', 2, 'not with hass: is has meant?'),
    'a request without who asks': ('GET /\n', 1, 'a request begins with who asks: as nobody GET'),
    'nobody of that name': ('as anne GET /\n', 1, 'nothing is called anne: is ann meant?'),
    'a record that is no viewer': (JOINED + 'as card GET /\n', 4, 'card is a Card, and a viewer is a User'),
    'a record of no name': ('as ann GET /card/{card}\n', 1, 'nothing is called card; the names here are ann'),
    'an expectation before a request': ('\n# none\nhas "x"\n', 3, 'there is no request before it'),
    'a text without quotes': ('as ann GET /\n has x\n', 2, 'a text in quotes is expected, and not x'),
    'no text': ('as ann GET /\n has\n', 2, 'a text in quotes is expected after has'),
    'a quote without its end': ('as ann GET /\n has "x\n', 2, 'a text in quotes has no end on this line'),
    'an unknown escape': ('as ann GET /\n has "\\q"\n', 2, 'is expected after a backslash'),
    'a brace': ('as ann GET /card/{1}\n', 1, 'a brace begins the name of a record'),
    'a method in small letters': ('as ann get /\n', 1, 'a method in capital letters'),
    'a path without a slash': ('as ann GET card\n', 1, 'a path begins with /'),
    'a line that ends': ('as ann GET\n', 1, 'the path is lacking'),
    'no status': ('as ann GET / -> ok\n', 1, 'a status of three digits is expected, and not ok'),
    'a word too many': ('as ann GET / -> 303 /a /b\n', 1, 'the line should end before /b'),
    'a field without a value': ('as ann POST /join name\n', 1, 'a field is NAME=VALUE'),
    'an unknown field': ('as ann POST /join nam=x\n', 1, 'no view of POST has a parameter nam: is name meant?'),
    'a name twice': ('a, a = as ann POST /join name=x\n', 1, 'a is named twice'),
    'a name that is none': ('1a = as ann POST /join name=x\n', 1, 'and not 1a'),
    'a field that is not guarded': (JOINED + 'as ann GET /\n shows card.town\n', 5,
                                    'the town of a Card is not guarded'),
    'a field that is none': (JOINED + 'as ann GET /\n shows card.phon\n', 5,
                             'a Card has no field phon: is phone meant?'),
    'a label of no record': ('as ann GET /\n shows raid.title\n', 2, 'nothing is called raid'),
    'a record that no group hides': (JOINED + 'as ann GET /\n shows card\n', 5, 'no group hides a Card'),
    'a label that is none': (JOINED + 'as ann GET /\n shows "card"\n', 5, 'a label is a record and a guarded field'),
    'a reply without a location': ('as ann GET /\nfollow\n', 2, 'has no location of this application'),
    'a file that is not there': ('as ann GET /\ninclude none\n', 2, 'cannot be read'),
    'a file that includes itself': ('include walk\n', 1, 'include each other'),
    'an upgrade that is none': ('as ann GET /\nupgrade other\n', 2, 'upgrade ended with status 11'),
    'a last line that goes on': ('as ann GET / \\', 1, 'the last line ends with a backslash'),
}


def walked(words, folder=TOP):
    """Runs a walk. Returns its exit status and its output. It runs in this process, which is quicker than in one of its
    own."""
    out = io.StringIO()
    argv, sys.argv = sys.argv, ['walk.py', '--program', PROGRAM, *words]
    os.chdir(folder)
    try:
        with contextlib.redirect_stdout(out):
            return walk.main(), out.getvalue()
    finally:
        os.chdir(TOP)
        sys.argv = argv


def run(words, folder):
    """Does the same in a process of its own."""
    done = subprocess.run([sys.executable, TOOL, '--program', PROGRAM, *words], cwd=folder, stdin=subprocess.DEVNULL,
                          stdout=subprocess.PIPE, stderr=subprocess.STDOUT, timeout=900, check=False)
    return done.returncode, done.stdout.decode()


def put(folder, files):
    for name, text in files.items():
        with open(os.path.join(folder, name), 'w', encoding='utf-8') as file:
            file.write(text)


def over(text, app=APP):
    """Runs a walk over an application of its own, with sessions, a walk to include and two applications to upgrade
    to."""
    with tempfile.TemporaryDirectory() as folder:
        put(folder, {'app': app, 'walk': text, 'sessions': SESSIONS, 'people': JOINED, 'next': NEXT,
                     'other': APP.replace('Diary', 'Book')})
        return walked(['app', 'walk'], folder)


def reported(out):
    """Returns the lines that are reported, each with its message."""
    found = {}
    for line, said in REPORTED.findall(out):
        found[int(line)] = found.get(int(line), '') + said
    return found


def of_small_walks():
    for name, text in GOOD.items():
        status, out = over(text)
        yield None if status == 0 and SUMMARY.search(out) else '%s: %d, %s' % (name, status, out)
    for name, (text, line, words) in FAILING.items():
        status, out = over(text)
        said = reported(out)
        right = status == 1 and line in said and all(word in said[line] for word in words)
        yield None if right else '%s: %d, want line %d with %s, have %s' % (name, status, line, words, out)
    for name, (text, line, words) in REFUSED.items():
        status, out = over(text)
        right = status == 2 and ('\n' + out).count('\nwalk:%d: ' % line) == 1 and words in out
        yield None if right else '%s: %d, want line %d with %s, have %s' % (name, status, line, words, out)
    status, out = over('as ann GET /\n', APP.replace('(put "gone")', '(putt "gone")'))
    right = status == 2 and 'app is refused' in out
    yield None if right else 'an application that is refused: %d, %s' % (status, out)


def of_processes():
    """Checks the output and the exit status of a process: 0, 1 and 2, and the help."""
    status, out = run(['--help'], TOP)
    yield None if status == 0 and out.startswith('usage: walk') else '--help: %d, %s' % (status, out)
    with tempfile.TemporaryDirectory() as folder:
        put(folder, {'app': APP, 'walk': 'as nobody GET / -> 200\n', 'one.walk': 'as nobody GET /none -> 404\n'})
        status, out = run(['app'], folder)
        yield None if (status, out.count('all met')) == (0, 2) else 'two walks: %d, %s' % (status, out)
        put(folder, {'two.walk': 'as nobody GET / -> 404\n'})
        status, out = run(['app', 'two.walk', '--events', 'events'], folder)
        right = status == 1 and open(os.path.join(folder, 'events'), encoding='utf-8').read() == 'ask - GET "/" ""\n'
        yield None if right else 'a walk that fails, with its events: %d, %s' % (status, out)
        status, out = run(['app', 'none.walk'], folder)
        yield None if status == 2 and 'cannot be read' in out else 'no walk: %d, %s' % (status, out)
        os.remove(os.path.join(folder, 'walk'))
        status, out = run(['app', '--verbose'], folder)
        yield None if status == 1 and '    200\n' in out and '    404\n' in out else '--verbose: %d, %s' % (status, out)


def of_examples():
    """Checks the walks of each example, and a copy of each with all expectations inverted."""
    paths = sum((glob.glob('examples/' + pattern, root_dir=TOP) for pattern in ('*.walk', '*/walk', '*/*.walk')), [])
    for path in sorted(paths):
        beside = path[:-len('walk')] + 'app'
        application = beside if beside.endswith('.app') and os.path.exists(beside) else application_of(path)
        status, out = walked([application, path])
        found = SUMMARY.search(out)
        yield None if status == 0 and found and int(found.group(2)) > 5 else '%s: %d, %s' % (path, status, out)
        yield untold(application, path)
    found = {os.path.dirname(path) for path in paths}
    for name in ('calendar', 'conference', 'courses', 'health'):
        yield None if 'examples/' + name in found else '%s has no walk' % name


def application_of(path):
    """Returns the application of a walk in a folder: its file, or the folder itself."""
    folder = os.path.dirname(path)
    return os.path.join(folder, 'app') if os.path.isfile(os.path.join(TOP, folder, 'app')) else folder


def of_statuses(line):
    """Returns a line with another status, and what must be reported about it."""
    found = re.search(r'-> (\d\d\d)', line)
    if not found:
        return line, []
    return line[:found.start()] + '-> 299' + line[found.end():], ['- 299', '+ ' + found.group(1)]


def of_texts(line):
    word = line.split()[0] if line.split() else ''
    if word not in ('has', 'lacks'):
        return line, []
    said = [unquoted(text) for text in QUOTED.findall(line)]
    return line.replace(word, TURNED[word], 1), ['- %s%s' % ('no ' if word == 'has' else '', text) for text in said]


def of_labels(line):
    words = line.split()
    if not words or words[0] not in ('shows', 'hides') or 'nothing' in words:
        return line, []
    if words[1] == 'only':
        return ' '.join(['hides', *words[2:]]), ['- %s is hidden' % words[2]]
    return line.replace(words[0], TURNED[words[0]], 1), ['- %s' % word for word in words[1:]]


def unquoted(text):
    return text[1:-1].replace('\\"', '"').replace('\\n', '\n    ').replace('\\\\', '\\')


def turned(text):
    """Returns a walk with all expectations inverted, and for each line number what must be reported there."""
    lines, want, first = [], {}, None
    for number, line in enumerate(text.split('\n'), 1):
        first = first or number
        for turn in (of_statuses, of_texts, of_labels):
            line, said = turn(line)
            if said:
                want[first] = said
        lines.append(line)
        first = first if line.endswith('\\') else None
    return '\n'.join(lines), want


def untold(application, path):
    """Returns what isn't reported about a copy of a walk with all expectations inverted."""
    text, want = turned(read(path))
    folder = os.path.dirname(path)
    with tempfile.TemporaryDirectory() as room:
        copy = os.path.join(room, 'copy')
        shutil.copytree(os.path.join(TOP, folder), copy)
        put(copy, {'turned': text})
        status, out = walked([os.path.join(copy, os.path.relpath(application, folder)), os.path.join(copy, 'turned')])
    have = reported(out)
    lost = [(line, text) for line, said in want.items() for text in said if text not in have.get(line, '')]
    lost += [(line, 'nothing') for line in have if line not in want]
    if status != 1 or not want:
        return '%s, turned: status %d, %s' % (path, status, out)
    return '%s, turned: not reported of %d lines: %s' % (path, len(want), lost[:9]) if lost else None


def of_pages():
    """Checks the walks in indented blocks of pages. Each runs over the last application in such a block before it, or
    for docs/USING.md over the calendar, which that page is about."""
    for page, application in (('docs/TUTORIAL.md', None), ('docs/USING.md', read('examples/calendar/app'))):
        walks = 0
        for block in APART.findall(read(page)):
            text = textwrap.dedent(block)
            if text.startswith('(app') and page == 'docs/TUTORIAL.md':
                application = text
            elif re.match(r'(#.*\n|\s)*([a-z_, ]+= )?as \w+ [A-Z]+ ', text):
                status, out = over(text, application)
                walks += 1
                yield None if status == 0 else '%s: %s: %s' % (page, text, out)
        yield None if walks else page + ': no walk'


def main():
    results = [*of_small_walks(), *of_processes(), *of_examples(), *of_pages()]
    for wrong in filter(None, results):
        print('FAILED ' + wrong)
    failed = sum(1 for wrong in results if wrong)
    print('%d passed, %d failed' % (len(results) - failed, failed))
    return 1 if failed else 0


if __name__ == '__main__':
    sys.exit(main())
