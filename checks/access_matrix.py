#!/usr/bin/env python3
"""Compares the page that tools/access_matrix.py writes about a store with expectations written by hand: who is shown
what, and the reasons. Also checks that a store being served is left alone, that no markup from the store gets onto the
page, and that the page has no guarded value. Argument: the program. Prints each failure, then a count."""
import html
import os
import re
import subprocess
import sys
import tempfile

sys.dont_write_bytecode = True
from support import proved                                                  # noqa: E402
from support.serving import served                                          # noqa: E402

TOP = os.path.dirname(os.path.dirname(os.path.abspath(__file__)))
PROGRAM = proved.binary(proved.first_word())
TOOL = os.path.join(TOP, 'tools', 'access_matrix.py')

APP = '''(app (viewer User)
 (model User (fields (name text) (phone text))
  (group (guards (phone "none")) (policy (eq this viewer))))
 (model Note (fields (head text) (owner (ref User)) (words text))
  (group (guards (words "hidden")) (policy (or (eq (get Note owner this) viewer) (eq (get Note words this) "<open>"))))
  (group hides (policy (live viewer))))
 (view post "/join" (params (name text) (phone text)) (create u User (set (name name) (phone phone))))
 (view post "/note" (params (head text) (words text)) (create n Note (set (head head) (owner viewer) (words words)))))
'''
EVENTS = '''ask - POST "/join" "name=%3Cb%3EAnn&phone=555-1"
ask - POST "/join" "name=Bob&phone=555-2"
ask 4096 POST "/note" "head=walrus&words=secret"
ask 8192 POST "/note" "head=zebra&words=%3Copen%3E"
'''
# the rows (labels), and for each viewer which of them are shown (✓)
ROWS = ['User 4096 “<b>Ann”: phone', 'User 8192 “Bob”: phone', 'Note 12289: words', 'Note 12289: the record',
        'Note 16385: words', 'Note 16385: the record']
SHOWN = {'ann': '✓-✓✓✓✓', 'bob': '-✓-✓✓✓', 'nobody': '-----' + '-'}


def page(folder, *words, store='store.db'):
    done = subprocess.run([sys.executable, TOOL, 'app', '--db', store, '--program', PROGRAM, *words], cwd=folder,
                          stdin=subprocess.DEVNULL, stdout=subprocess.PIPE, stderr=subprocess.PIPE, check=False)
    return done.returncode, done.stdout.decode(), done.stderr.decode()


def cells(text):
    """Returns the names of the rows, and for each column its cells as a string: ✓ for shown, - for hidden."""
    rows = re.findall(r'<tr data-name="([^"]*)">.*?</th>(.*?)</tr>', text)
    heads = re.findall(r'<th scope="col" title="[^"]*"><span>([^<]*)</span>', text)
    marks = [['-' if kind == 'h' else '✓' for kind in re.findall(r'<td class="([sh])">', row)] for _, row in rows]
    return [html.unescape(name) for name, _ in rows], dict(zip(heads, map(''.join, zip(*marks))))


def expect(name, have, want):
    return None if have == want else '%s: %r, not %r' % (name, have, want)


def compared(folder):
    status, text, _ = page(folder, '--sessions', 'sessions')
    yield expect('a page', status, 0)
    yield expect('its cells', cells(text), (ROWS, SHOWN))
    yield expect('no value of what is guarded', [word for word in ('secret', '555-', 'walrus',
                                                                   'zebra') if word in text], [])
    yield expect('no markup of the store', ('<b>Ann' in text, '&lt;b&gt;Ann' in text), (False, True))
    reasons = dict(re.findall(r'(?s)<li id="r(\d+)"><code>(.*?)</code>', text))
    yield expect('the reasons that cells name', set(re.findall(r'href="#r(\d+)"', text)), set(reasons))
    yield expect('the policy of a phone', [number for number, reason in reasons.items()
                                           if reason.endswith('app:3: (eq this viewer)')] != [], True)
    yield expect('a policy with markup', ('"<open>"' in text, '&quot;&lt;open&gt;&quot;' in text), (False, True))
    yield expect('those that were named', list(cells(page(folder, '--viewers', '8192,-')[1])[1]), ['Bob', 'nobody'])
    yield expect('all that there are', list(cells(page(folder)[1])[1]), ['&lt;b&gt;Ann', 'Bob', 'nobody'])
    page(folder, '--output', 'page.html')
    with open(os.path.join(folder, 'page.html'), encoding='utf-8') as file:
        yield expect('in a file', cells(file.read())[0], ROWS)


def refused(folder):
    for name, words, want in (('no store', {'store': 'none.db'}, "access_matrix: none.db can't be copied"),
                              ('no such store', {'store': 'app'}, "access_matrix: app can't be copied")):
        status, text, told = page(folder, **words)
        yield expect(name, (status, text, told[:len(want)]), (1, '', want))
    with open(os.path.join(folder, 'app'), 'a', encoding='utf-8') as app:
        app.write(')')
    status, text, told = page(folder)
    yield expect('an application that is wrong', (status, text, 'app: stray at' in told), (1, '', True))


def main():
    with tempfile.TemporaryDirectory() as folder:
        for name, text in ('app', APP), ('events', EVENTS), ('sessions', 'ann 4096\nbob 8192\n'):
            with open(os.path.join(folder, name), 'w', encoding='utf-8') as file:
                file.write(text)
        subprocess.run([PROGRAM, 'replay', 'app', 'events', '--db', 'store.db'], cwd=folder, stdin=subprocess.DEVNULL,
                       stdout=subprocess.DEVNULL, check=True)
        results = list(compared(folder))
        with served(PROGRAM, 'app', 1000, folder, ('--db', 'store.db')):
            results.append(expect('while it is served', cells(page(folder, '--sessions', 'sessions')[1]), (ROWS,
                                                                                                           SHOWN)))
        results += refused(folder)
    for wrong in filter(None, results):
        print('FAILED ' + wrong)
    failed = sum(1 for wrong in results if wrong)
    print('%d passed, %d failed' % (len(results) - failed, failed))
    return 1 if failed else 0


if __name__ == '__main__':
    sys.exit(main())
