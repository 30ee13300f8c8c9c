#!/usr/bin/env python3
"""Compares what the linter (tools/lint.py), the audit in words (tools/audit.py) and the reasons in words (tools/why.py)
say with expectations written by hand. Argument: the program, or none. Prints each failure, then a count.

For each application there are the lines and columns at which the linter says `look at this`, with the entries that
accept them, or none if it has nothing to say. The applications are those of checks/linted, each with something that
surprised people, worked cases, examples, and texts below. For some audits there are lines of the output. For `why`
there are its lines and the rows of a store, with what is said about them. If the program is given, it makes these lines
and rows too, and the same must be said about them. Otherwise that part is skipped."""
import contextlib
import glob
import io
import os
import re
import sqlite3
import subprocess
import sys
import tempfile

sys.dont_write_bytecode = True
TOP = os.path.dirname(os.path.dirname(os.path.abspath(__file__)))
sys.path.insert(0, os.path.join(TOP, 'tools'))
import assemble                                                             # noqa: E402
import audit                                                                # noqa: E402
import lint_rules                                                           # noqa: E402
import lint                                                                 # noqa: E402
from support import proved                                                  # noqa: E402
import why                                                                  # noqa: E402


def application(case):
    """Returns a file of a worked case: `app`, or the file whose name follows the name of the case."""
    case, _, name = case.partition(' ')
    with open(os.path.join(TOP, 'checks', 'cases', case + '.case'), encoding='utf-8') as file:
        return re.search(r'(?s)== file %s\n(.*?\n)== ' % (name or 'app'), file.read()).group(1)


# Words of the message of each kind, as patterns.
WORDS = {
    'write': 'asks who the viewer is', 'unasked': 'so anybody may decide who',
    'branch': '(?:depends on a condition|finds its record by a value) that',
    'nobody': 'none equals none|a stranger (?:is shown what has the same|may do this where this is the same)',
    'copy': 'nobody is shown the label of a record that is gone',
    'sum': 'where it is hidden its public value counts', 'markup': 'each page is sent as HTML',
    'escape': 'escaping does not protect this place', 'redirect': 'may lead to another site',
    'unlinked': 'no page of this application leads here',
}

# What the linter says about each application: the line, the column, and the entry without its view or model.
CASES = {
    'a_form_saves_what_it_was_filled_with': [
        (4, 44, 'nobody (get Card owner this)'), (9, 25, 'write Card.phone')],
    'a_copy_of_a_record_that_is_gone': [
        (5, 43, 'nobody (get Draft author this)'), (11, 33, 'copy Draft.words'), (12, 77, 'unasked Draft.published')],
    'a_branch_stores_in_its_own_worlds': [
        (4, 42, 'nobody (get Event host this)'), (9, 11, 'branch Event.title')],
    'a_hidden_number_is_a_number': [
        (4, 52, 'nobody (get Score of this)'), (7, 33, 'write Score.points'), (9, 41, 'sum Score.points')],
    'a_share_that_reads_a_hidden_record trap': [(18, 30, 'branch Paper')],
    'a_share_that_reads_a_hidden_record recipe': [],
    'a_role_that_reads_a_hidden_record trap': [
        (5, 13, 'branch Person'), (5, 93, 'unasked Person.hr'), (7, 7, 'branch Person'), (9, 7, 'branch Person')],
    'a_role_that_reads_a_hidden_record recipe': [(8, 43, 'unasked Role')],
}
TRAPS = {
    'checks/linted/share.app': [(18, 30, 'branch Paper')],
    'checks/linted/fire.app': [(5, 40, 'unasked Person.hr'), (7, 7, 'branch Person'), (9, 7, 'branch Person')],
    'examples/calendar.app': [(5, 38, 'nobody (get Event host this)'), (11, 41, 'markup Event.title')],
    'checks/linted/badges.app': [
        (3, 52, 'nobody (get Person boss this)'), (5, 79, 'nobody (get Badge of b)'), (7, 7, 'branch Person'),
        (10, 8, 'nobody (get Badge of b)'), (13, 9, 'branch Person')],
    'checks/linted/clubs.app': [(10, 3, 'unasked Member'), (12, 3, 'unasked Member'), (14, 26, 'unasked Member.club')],
    'checks/linted/login.app': [(3, 48, 'redirect to'), (4, 40, 'redirect Person.home'), (5, 59, 'redirect to'),
                               (6, 54, 'redirect to')],
    'checks/linted/profiles.app': [
        (7, 14, 'escape name'), (7, 84, 'markup name'), (8, 13, 'escape Person.site'), (9, 29, 'escape note'),
        (9, 44, 'escape note'), (11, 20, 'escape note'), (14, 20, 'markup note')],
    'checks/linted/salaries.app': [
        (5, 7, 'branch Person.boss'), (9, 7, 'branch Person.boss'), (10, 13, 'branch Person.salary')],
    'checks/linted/tasks.app': [(5, 67, 'nobody (get Task helper this)'), (12, 13, 'nobody (get Task of id)')],
    'checks/linted/tickets.app': [(9, 7, 'branch Ticket')],
    'checks/linted/visits.app': [(9, 29, 'branch Visit'), (14, 8, 'branch Visit'), (14, 36, 'unasked Visit')],
    'checks/linted/wards.app': [(7, 37, 'unasked Person.nurse'), (11, 26, 'unasked Person.ward')],
    # loops in loops, references that are followed, orders that decide something, and numbers that a loop adds up
    'checks/linted/prizes.app': [
        (12, 12, 'branch Score.points'), (20, 32, 'branch Score.points'), (25, 32, 'branch Score.points'),
        (30, 58, 'sum Score.points')],
    # fields of the viewer, what a policy finds through a reference or by an order, names that are bound again
    'checks/linted/teams.app': [
        (6, 44, 'nobody (get Plan team this)'), (11, 97, 'nobody (get Member person m)'), (21, 58, 'unasked Team'),
        (22, 89, 'unasked Member.rank'), (23, 91, 'unasked Person.chair'), (29, 14, 'nobody (get Plan team id)'),
        (34, 37, 'write Plan.words')],
    # what a view's check reads, a value that is assigned, and a copy of a hidden record
    'checks/linted/guards.app': [
        (10, 3, 'unasked Shift'), (12, 37, 'unasked Person.guard'), (24, 28, 'write Door.code'),
        (27, 34, 'copy Diary.words')],
    # addresses, branches and loops that end inside a tag, markup that names stand for
    'checks/linted/signs.app': [
        (6, 19, 'escape q'), (6, 48, 'escape q'), (8, 67, 'escape Person.name'), (9, 74, 'escape link'),
        (9, 121, 'escape link'), (10, 20, 'escape Sign.words'), (10, 69, 'escape link'), (11, 90, 'escape q'),
        (12, 12, 'unlinked'), (17, 21, 'escape q'), (17, 39, 'markup shown'), (18, 47, 'escape q'),
        (20, 9, 'escape Sign.words')],
    'checks/linted/ways.app': [
        (4, 94, 'redirect to'), (5, 77, 'redirect to'), (6, 93, 'redirect to'), (10, 14, 'redirect Way.to'),
        (11, 89, 'redirect to')],
}
# An application in a folder: each place is in a part, and the entry has its view.
HALL = [
    ('pages/rules:2:1', 'model Booking: nobody (get Booking team this)'),
    ('main:10:104', 'view post /book: redirect day'),
    ('pages/rules:2:1', 'view post /booking/{id}/remove: nobody (get Booking team id)'),
    ('pages/list.html:4:58', 'view get /: escape Booking.day'),
    ('pages/list.html:4:90', 'view get /: markup Booking.words'),
    ('pages/rules:4:81', 'view get /: escape Booking.day'),
    ('pages/list.html:4:58', 'view get /{day}: escape Booking.day'),
    ('pages/list.html:4:90', 'view get /{day}: markup Booking.words'),
    ('pages/rules:4:81', 'view get /{day}: escape Booking.day'),
]
EXAMPLES = {
    'examples/agenda.app': [(22, 35, 'branch Event.title')],
    'examples/courses.app': [],
    'examples/guestbook.app': [],
    'examples/guests.app': [],
    'examples/hello.app': [],
    'examples/invitations.app': [(32, 30, 'branch Invite')],
    'examples/library.app': [],
    'examples/meetings.app': [
        (12, 13, 'unlinked'), (15, 13, 'unlinked'), (19, 13, 'unlinked'), (20, 47, 'branch Event.host')],
    'examples/notes.app': [],
    'examples/planner.app': [],
    'examples/people.app': [],
    'examples/records.app': [(25, 30, 'branch Record')],
    'examples/shop.app': [],
}
# All that the linter reports about these is accepted. About the larger ones it does report something.
SMALL = sorted(glob.glob('examples/*.app', root_dir=TOP))
LARGE = ('examples/calendar/app', 'examples/conference/app', 'examples/courses/app', 'examples/courses/next/app',
         'examples/health/app')

MODEL = '''(app (viewer User)
 (model User (fields (name text)))
 (model Card (fields (owner (ref User)) (phone text) (calls int) (known bool))
  (group (guards (phone "-") (calls 0) (known false)) (policy (and (live viewer) (eq (get Card owner this) viewer)))))
 (model Paper (fields (words text)))
%s)
'''
# correct views that a hasty linter would report, and faults that a name hides from it
VIEWS = {
    'a loop that counts what is found by a guarded text': ('''
 (view get "/" (params (q text) (skip int))
  (let place 0
   (for (from ((c Card)) (not (lt (get Card phone c) q)) (up c phone))
    (if (lt place skip) () ((put place)))
    (assign place (add place 1)))
   (put place)))''', []),
    'a loop that adds what a name stands for': ('''
 (view get "/" (params)
  (let all 0
   (for (from ((c Card)) true key) (let calls (get Card calls c) (assign all (add calls all))))
   (put all)))''', [(8, 47, 'sum Card.calls')]),
    'who looks stands behind a name': ('''
 (view post "/card/{id}" (params (id (ref Card)) (phone text))
  (let mine (and (live viewer) (eq (get Card owner id) viewer))
   (if mine ((update Card id (set (phone phone)))) ((missing)))))''', []),
    'a copy behind a name': ('''
 (view post "/move/{id}" (params (id (ref Card)))
  (let words (get Card phone id)
   (create p Paper (set (words words)))
   (delete Card id)))''', [(7, 14, 'copy Card.phone')]),
    'a sum of those that are known': ('''
 (view get "/calls" (params)
  (put (sum (from ((c Card)) (get Card known c) key) (get Card calls c))))''', []),
    'a sum that asks another record': ('''
 (view get "/calls" (params)
  (put (sum (from ((c Card)) (live c) key) (get Card calls c))))''', [(7, 44, 'sum Card.calls')]),
    'a link that is computed': ('''
 (view get "/" (params (to text)) (template "<a href='{{ to }}'>on</a>"))
 (view get "/cards" (params) (put "cards"))''', [(6, 58, 'escape to')]),
    'a redirect to one of two': ('''
 (view get "/" (params) (put "<a href='/one'>one</a>"))
 (view get "/one" (params (b bool)) (redirect (pick b "/two" "/three")))
 (view get "/two" (params) (put "two"))
 (view get "/three" (params) (put "three"))
 (view get "/four" (params) (put "four"))''', [(10, 12, 'unlinked')]),
    'no page for a browser': ('''
 (view get "/" (params) (put "cards"))
 (view get "/cards" (params) (redirect "/"))''', []),
    'an assign under a hidden condition': ('''
 (view post "/count" (params)
  (let calls 0
   (for (from ((c Card)) (get Card known c) key) (assign calls (add calls 1)))
   (if (and (live viewer) (lt 3 calls)) ((create p Paper (set (words "busy")))) ())))''',
                                           [(8, 26, 'branch Card.known')]),
    'what is hidden is stored and decides nothing': ('''
 (view post "/copy/{id}" (params (id (ref Card)))
  (if (live viewer) ((create p Paper (set (words (get Card phone id))))) ()))''', []),
    'a page that depends on what is hidden': ('''
 (view post "/note/{id}" (params (id (ref Card)))
  (if (get Card known id) ((put "known")) ((put "hidden")))
  (if (live viewer) ((create p Paper (set (words "seen")))) ()))''', []),
    'a record that is found by what is hidden': ('''
 (view post "/first" (params)
  (if (live viewer) ((delete Card (first (from ((c Card)) true (down c calls))))) ()))''',
                                                [(7, 64, 'branch Card.calls')]),
    'names that are words of the language': ('''
 (view post "/{live}" (params (live (ref Card)) (get text))
  (if (and (live viewer) (eq (get Card owner live) viewer))
   ((update Card live (set (phone get))) (esc get))
   ()))''', []),
    'a comparison where none is no match': ('''
 (view post "/drop/{id}" (params (id (ref Card)))
  (if (and (live (get Card owner id)) (eq (get Card owner id) viewer)) ((delete Card id)) ()))
 (view post "/keep/{id}" (params (id (ref Card)))
  (if (or (eq viewer (none User)) (eq (get Card owner id) viewer)) () ((delete Card id))))
 (view post "/mine" (params)
  (if (some (from ((u User)) (eq u viewer) key))
   ((for (from ((c Card)) (eq (get Card owner c) viewer) key) (delete Card c))) ()))''', []),
    'values that no text is in': ('''
 (view get "/card/{id}" (params (id (ref Card)))
  (let kind (pick (live id) "here" "gone")
   (template "<p class={{ kind }} id={{ id }} data-calls={{ (get Card calls id) }}>{% (put kind) %}</p>")
   (put (cat "<b>" (str (get Card calls id)) "</b>"))))''', []),
    'branches inside of a tag': ('''
 (view get "/card/{id}" (params (id (ref Card)) (to text))
  (template "<p {% (if (live id)) %}title='{{ to }}'{% else %}title={{ to }}{% end %}>{{ to }}</p>"))''',
                                 [(7, 72, 'escape to')]),
}

# For fire.app, with views added before its last one and with accepted entries: the status, the lines, and what is left.
ALL = '''view post /first: unasked Person.hr
    The first one is whoever serves it.

view post /add: branch Person
    It was tried,
    and it is well.
view post /remove: branch Person
\tSo it is meant.
'''
LEFT = ['unasked Person.hr', 'branch Person', 'branch Person']
MORE = '''
 (view post "/again" (params (id (ref Person)))
  (if (get Person hr viewer) ((delete Person id)) ()))
'''
ACCEPTED = {
    'nothing is accepted': ('', '', (1, '', LEFT)),
    'all is accepted': ('', ALL, (0, 'lint: nothing to look at, 3 accepted\n', [])),
    'one is accepted': ('', ALL.split('\n\n')[0], (1, '', LEFT[1:])),
    'one is new': (MORE, ALL, (1, '', ['branch Person'])),
    'one no longer applies': ('', ALL + 'view get /: markup Person.name\n    It is a name.\n', (
        1, 'fire.app.accepted:9: no longer applies, nothing like it is found: view get /: markup Person.name\n', [])),
    'one has no reason': ('', ALL.replace('    The first one is whoever serves it.\n', ''), (
        2, 'fire.app.accepted:1: this entry has no reason: say below it, indented, why it is well\n', [])),
    'a reason is empty': ('', 'view post /add: branch Person\n      \n', (
        2, 'fire.app.accepted:1: this entry has no reason: say below it, indented, why it is well\n', [])),
    'a reason has no entry': ('', '\n    It is well.\n', (
        2, 'fire.app.accepted:2: this reason has no entry before it\n', [])),
    'an entry has no form': ('', 'view post /add: wrong Person\n    It is well.\n', (
        2, 'fire.app.accepted:1: expected PLACE: KIND SUBJECT, as a warning shows it after "accepted as"\n', [])),
    'an entry is there twice': ('', ALL + ALL, (2, ''.join(
        'fire.app.accepted:%d: this entry is in line %d already\n' % (line + 8, line) for line in (1, 4, 7)), [])),
}

AUDITS = [
    (['examples/calendar/app', 'examples/calendar/audit'], [
        'reply 2: 303 for nobody, who is shown nothing that is guarded\n',
        'reply 5: 303 for Person 4096 (made by POST 1), who is shown\n'
        '    Event 8193 (made by POST 2): title, place\n'
        '    Event 12289 (made by POST 3): title, place\n'
        '    Guest 16386 (made by POST 4): person\n'
        'reply 6: ']),
    (['examples/courses/app', 'examples/courses/audit'], [
        'reply 20: 200 for Person 4224 (made by POST 1), who is shown\n'
        '    Place 16386 (made by POST 4): student\n'
        '    Submission 32772 (made by POST 8): student, words\n'
        'reply 21: ',
        'reply 24: 200 for Person 4224 (made by POST 1), who is shown\n'
        '    Place 16386 (made by POST 4): student\n'
        '    Submission 32772 (made by POST 8): student, words, grade, remark, graded\n'
        'reply 25: ']),
    (['examples/agenda.app', 'examples/agenda.audit', 'examples/agenda.events'], [
        'reply 14: 404 to POST /drop for User 8192 (made by POST 2), who is shown\n'
        '    Event 16385 (made by POST 4): title\n'
        'reply 15: ']),
    (['examples/invitations.app', 'examples/invitations.audit', 'examples/invitations.events'], [
        'reply 15: 200 to GET / for User 12288 (made by POST 3), who is shown\n'
        '    Party 20481 (made by POST 5): title\n'
        '    Invite 55340232221128695810 (made by POST 10 around User 12288): the record\n'
        'reply 16: ']),
]

DIARY = '''(app (viewer User)
 (model User (fields (name text)))
 (model Entry (fields (body text) (owner (ref User)))
  (group hides (policy (and (live viewer) (eq (get Entry owner this) viewer))))
  (group (guards (body "no words")) (policy (live viewer))))
 (model Note (fields (body text)) (group (guards (body "none")) (policy true)))
 (view post "/join" (params (name text)) (create u User (set (name name))))
 (view post "/write" (params (body text)) (create e Entry (set (body body) (owner viewer))))
 (view post "/note" (params (id (ref Entry)))
  (if (live id) ((create n Note (set (body "it is there")))) ((create n Note (set (body "it is not there"))))))
 (view post "/drop" (params (id (ref Entry))) (delete Entry id)))
'''
TWO = '''(app (model Note (fields (body text))
  (group (guards (body "locked"))
   (policy
    (or (eq (get Note body this) "b") (eq (count (from ((n Note)) (not (eq (get Note body n) "locked")) key)) 1)))))
 (view post "/new" (params (body text)) (create n Note (set (body body)))))
'''
WRITTEN = '''ask - POST "/join" "name=Ann"
ask - POST "/join" "name=Bob"
ask 4096 POST "/write" "body=tired"
ask 4096 POST "/note" "id=12289"
'''
# One of the two notes is made where the entry (12289, label 98312) is shown, and one where it is hidden: 16386 and
# 16450, by the first and the second create of the fourth request.
ENTRY = 'Entry 12289 (made by POST 3): the record'
SEEN, UNSEEN = 'Note 16386 (made by POST 4): body', 'Note 16450 (made by POST 4): body'
FALSE = 'by its own policy, which is false: app:4: (and (live viewer) (eq (get Entry owner this) viewer))\n'
ROWS = [(4096, []), (8192, []),
        (12289, [(98312, 1), (98313, 0)]), (12289, [(98312, 1), (98313, 1)]),
        (16386, [(98312, 1), (131088, 0)]), (16386, [(98312, 1), (131088, 1)]),
        (16450, [(98312, 0), (131600, 0)]), (16450, [(98312, 0), (131600, 1)])]
PAPER = 'by its own policy, which is false: app:6: (and (live viewer) (or (eq (get Paper owner this) viewer) ' \
    '(some (from ((r Reader)) (and (eq (get Reader paper r) this) (eq (get Reader person r) viewer)) key))))'
# The application, its requests, the viewer, the lines of `why`, the rows of the store, and what is said about them.
REASONS = {
    'a policy that is false, and records that are not there': (DIARY, WRITTEN, '8192', '''shown 131600
98312 Entry 12289 0 because 98312 Entry 12289 0
98313 Entry 12289 1 because 98313 Entry 12289 1
131088 Note 16386 0 because 131088 Note 16386 0
''', ROWS, '''the viewer is shown
    UNSEEN
hidden stays ENTRY
    FALSE\
hidden stays Entry 12289 (made by POST 3): body
    because its record is not there: it was stored where ENTRY is shown
    and ENTRY stays hidden
        FALSE\
hidden stays SEEN
    because its record is not there: it was stored where ENTRY is shown
    and ENTRY stays hidden
        FALSE\
'''),
    'a record that is there where another one is hidden': (DIARY, WRITTEN, '4096', '''shown 98312,98313,131088
131600 Note 16450 0 because 131600 Note 16450 0
''', ROWS, '''the viewer is shown
    ENTRY
    Entry 12289 (made by POST 3): body
    SEEN
hidden stays UNSEEN
    because its record is not there: it was stored where ENTRY is hidden, and it is shown here
'''),
    'a record that was stored by what is gone': (DIARY, WRITTEN + 'ask 4096 POST "/drop" "id=12289"\n', '4096',
                                                 '''shown 131600
131088 Note 16386 0 because 131088 Note 16386 0
''', [row for row in ROWS if row[0] != 12289], '''the viewer is shown
    UNSEEN
hidden stays SEEN
    because its record is not there: it was stored where ENTRY is shown
    and ENTRY is shown to nobody, because that record is gone
'''.replace('ENTRY', ENTRY)),
    'a share that reads a hidden record': (
        application('a_share_that_reads_a_hidden_record trap'),
        application('a_share_that_reads_a_hidden_record events'), '8192', '''shown -
98312 Paper 12289 0 because 98312 Paper 12289 0
163856 Reader 20482 0 because 163856 Reader 20482 0
''', [(4096, []), (8192, []), (12289, [(98312, 1)]), (20482, [(98312, 1), (163856, 1)])],
        '''the viewer is shown nothing that is guarded
hidden stays Paper 12289 (made by POST 3): the record
    PAPER
hidden stays Reader 20482 (made by POST 5): the record
    because its record is not there: it was stored where Paper 12289 (made by POST 3): the record is shown
    and Paper 12289 (made by POST 3): the record stays hidden
        PAPER
'''.replace('PAPER', PAPER)),
    'a label that another one stands against': (TWO, 'ask - POST "/new" "body=a"\nask - POST "/new" "body=b"\n', '-',
                                                '''shown 32768
65536 Note 8192 0 because 32768 Note 4096 0
''', [(4096, [(32768, 0)]), (4096, [(32768, 1)]), (8192, [(65536, 0)]), (8192, [(65536, 1)])], '''the viewer is shown
    Note 4096 (made by POST 1): body
hidden stays Note 8192 (made by POST 2): body
    because Note 4096 (made by POST 1): body could not be shown beside it
    by the policy of that one, app:4: (or (eq (get Note body this) "b") (eq (count (from ((n Note)) (not \
(eq (get Note body n) "locked")) key)) 1))
'''),
}


def run(tool, words, folder=TOP):
    """Returns the exit status and the output of a tool. The tool is called in this process, so that it starts at
    once."""
    said, before = io.StringIO(), os.getcwd()
    os.chdir(folder)
    try:
        with contextlib.redirect_stdout(said), contextlib.redirect_stderr(said):
            status = tool.main(words) or 0
    except SystemExit as end:
        status = end.code if isinstance(end.code, int) else 1
        said.write('' if isinstance(end.code, int) else '%s\n' % end.code)
    finally:
        os.chdir(before)
    return status, said.getvalue()


def looked(name, path, want):
    """Returns what is wrong with the linter's output for a file without accepted entries, or None."""
    status, out = run(lint, [path, '--accepted', os.devnull])
    have = [(int(line), int(column), entry) for line, column, _, entry in places(path, out)]
    if not want and (status, out) == (0, 'lint: nothing to look at\n'):
        return None
    are_said = all(re.search(WORDS[entry.split()[0]], words) for _, _, words, entry in places(path, out))
    if want and (status, have) == (1, want) and are_said:
        return None
    return '%s: want %s, have status %d and %s' % (name, want, status, out)


def places(path, out):
    """Returns the line, the column, the words and the entry, without its view or model, of each place that is shown."""
    return re.findall(r'(?m)^%s:(\d+):(\d+): look at this, in the [^:]*: (.*)\n(?:    .*\n)*?'
                      r'    accepted as: [^:]*: (.*)$' % re.escape(path), out)


def of_texts(folder):
    texts = {name: (application(name), want) for name, want in CASES.items()}
    texts.update({name: (MODEL % views.strip('\n'), want) for name, (views, want) in VIEWS.items()})
    for name, (text, want) in texts.items():
        path = os.path.join(folder, 'app')
        with open(path, 'w', encoding='utf-8') as file:
            file.write(text)
        yield looked(name, path, want)


def of_whole_examples():
    """Checks that all that the linter reports about the examples is accepted, and that it reports something about the
    larger ones."""
    for path in (*SMALL, *LARGE):
        status, out = run(lint, [path])
        right = status == 0 and re.fullmatch(r'lint: nothing to look at(, [1-9]\d* accepted)%s\n' % (
            '?' if path in SMALL else ''), out)
        yield None if right else '%s: status %d, %s' % (path, status, out)


def of_folder():
    """Checks an application in a folder, if Jinja2 is installed to put it together."""
    status, out = run(lint, ['checks/linted/hall', '--accepted', os.devnull])
    have = re.findall(r'(?m)^checks/linted/hall/(\S+?:\d+:\d+): look at this.*\n(?:    .*\n)*?'
                      r'    accepted as: (.*)$', out)
    if status == assemble.UNAVAILABLE:
        return []
    return [None if (status, have) == (1, HALL) else 'the hall: want %s, have status %d and %s' % (HALL, status, out)]


def of_accepted(folder):
    """Checks what is said about an application with accepted entries."""
    path = os.path.join(folder, 'fire.app')
    with open(os.path.join(TOP, 'checks', 'linted', 'fire.app'), encoding='utf-8') as file:
        text = file.read()
    for name, (more, accepted, want) in ACCEPTED.items():
        for file, content in ((path, text.replace(' (view get', more + ' (view get')), (path + '.accepted', accepted)):
            with open(file, 'w', encoding='utf-8') as handle:
                handle.write(content)
        status, out = run(lint, [path])
        have = (status, re.sub(r'(?m)^(?:    .*|.*look at this.*)\n', '', out).replace(path, 'fire.app'),
                [entry for *_, entry in places(path, out)])
        yield None if have == want else '%s: want %s, have %s' % (name, want, have)
    stray = os.path.join(folder, 'fire.accepted')
    with open(stray, 'w', encoding='utf-8'):
        status, out = run(lint, [path])
    os.unlink(stray)
    right = out.startswith('lint: %s is not read: the name is %s.accepted\n' % (stray, path))
    yield None if right else 'a file of another name: %d, %s' % (status, out)


def of_refusals(folder):
    """Checks that what isn't an application is refused, and that the command explains its arguments."""
    path = os.path.join(folder, 'no.app')
    for text in ('', '(app (model 5 (fields)))', '(app (view get "/" (params) (template "{{ x")))',
                 '(view get "/" (params))', '(app (view get "/" (params)) (model A (fields)))',
                 '(app (view get "/" (params) (put x)))'):
        with open(path, 'w', encoding='utf-8') as file:
            file.write(text)
        status, out = run(lint, [path])
        want = 'lint: %s is no application that is served; ./jac check %s says why\n' % (path, path)
        yield None if (status, out) == (2, want) else '%s: %d, %s' % (text, status, out)
    for words, want in (([path + '.none'], 2), (['--help'], 0), ([], 2)):
        status, out = run(lint, words)
        yield None if status == want and out and 'Traceback' not in out else 'lint.py %s: %d, %s' % (words, status, out)


def of_commands():
    """Checks the exit status of the command itself."""
    for word, want in (('checks/linted/share.app', 1), ('examples/hello.app', 0), ('examples/none.app', 2)):
        status = subprocess.run([sys.executable, 'tools/lint.py', word], cwd=TOP, stdout=subprocess.DEVNULL,
                                check=False).returncode
        yield None if status == want else 'lint.py %s: status %d' % (word, status)


def of_all_cases():
    """Checks that each application in checks/cases is read, or is said to be no application that is served."""
    for path in sorted(glob.glob(os.path.join(TOP, 'checks', 'cases', '*.case'))):
        with open(path, encoding='utf-8', newline='') as file:
            texts = re.findall(r'(?ms)^== file [^\n]*\n(\(app.*?)(?=^== )', file.read())
        try:
            for text in texts:
                with contextlib.suppress(lint_rules.NotServed):
                    lint_rules.found_in(text.encode())
            yield None
        except Exception as fault:
            yield '%s: %r' % (path, fault)


def of_audits():
    for words, parts in AUDITS:
        out = run(audit, words)[1]
        for part in parts:
            yield None if part in out else '%s: no %r in what is said' % (words[1], part)


def spelled(text):
    """Replaces the names UNSEEN, SEEN, ENTRY and FALSE by the texts that they stand for."""
    for name, words in (('UNSEEN', UNSEEN), ('SEEN', SEEN), ('ENTRY', ENTRY), ('FALSE', FALSE)):
        text = text.replace(name, words)
    return text


def put(folder, files):
    for name, text in files.items():
        with open(os.path.join(folder, name), 'w', encoding='utf-8') as file:
            file.write(text)


def stored(path, rows):
    """Makes a store of these rows. Each row is a record with the labels under which it is there."""
    with contextlib.closing(sqlite3.connect(path)) as database, database:
        database.execute('CREATE TABLE rec(model INTEGER, jid BLOB, alt INTEGER, jvars BLOB, body BLOB)')
        for number, (record, guard) in enumerate(rows):
            labels = b''.join(label.to_bytes(16, 'big') + bytes([shown]) for label, shown in guard)
            row = record % 64, record.to_bytes(16, 'big'), number, labels, b''
            database.execute('INSERT INTO rec VALUES(?, ?, ?, ?, ?)', row)


def of_reasons():
    """Checks what is said about the lines of `why`: with their store, without it, and with a store that doesn't
    exist."""
    for name, (app, _, _, lines, rows, want) in REASONS.items():
        own = sum(line.split()[:4] == line.split()[5:] for line in lines.splitlines())
        either = '\n    by its own policy, or because its record is not there (--db says which): app:'
        with tempfile.TemporaryDirectory() as folder:
            put(folder, {'app': app, 'lines': lines})
            stored(os.path.join(folder, 'd'), rows)
            have = run(why, ['app', 'lines', '--db', 'd'], folder)
            yield None if have == (0, spelled(want)) else '%s: want %s, have %s' % (name, spelled(want), have)
            have = run(why, ['app', 'lines'], folder)
            yield None if (have[0], have[1].count(either)) == (0, own) else '%s, without a store: %s' % (name, have)
            have = run(why, ['app', 'lines', '--db', 'none'], folder)
            yield None if have == (1, 'why: none: No such file or directory\n') else '%s: %s' % (name, have)


def of_program(program):
    """Checks that from the same requests the program makes the same lines, and a store about which the same is said."""
    for name, (app, events, viewer, lines, _, want) in REASONS.items():
        with tempfile.TemporaryDirectory() as folder:
            put(folder, {'app': app, 'events': events})
            for words in (['replay', 'app', 'events'], ['why', 'app', viewer]):
                done = subprocess.run([program, *words, '--db', 'd'], cwd=folder, stdout=subprocess.PIPE, check=False)
            put(folder, {'lines': done.stdout.decode()})
            out = run(why, ['app', 'lines', '--db', 'd'], folder)[1]
            right = (done.stdout.decode(), out) == (lines, spelled(want))
            yield None if right else '%s, by the program: want %s and %s, have %s and %s' % (
                name, lines, spelled(want), done.stdout.decode(), out)


def main():
    parser = proved.script_parser()
    parser.add_argument('program', metavar='PROGRAM', nargs='?', help='./jac, or the path of a program')
    given = parser.parse_args().program
    with tempfile.TemporaryDirectory() as folder:
        results = [*of_texts(folder), *(looked(name, name, want) for name, want in {**TRAPS, **EXAMPLES}.items()),
                   *of_whole_examples(), *of_folder(), *of_accepted(folder), *of_refusals(folder), *of_commands(),
                   *of_all_cases(), *of_audits(), *of_reasons()]
    if given:
        results += of_program(proved.program(given))
    for wrong in filter(None, results):
        print('FAILED ' + wrong)
    failed = sum(1 for wrong in results if wrong)
    skipped = '' if given else ', %d skipped' % len(REASONS)
    print('%d passed, %d failed%s' % (len(results) - failed, failed, skipped))
    return 1 if failed else 0


if __name__ == '__main__':
    sys.exit(main())
