#!/usr/bin/env python3
"""Writes an HTML page that shows who sees what of a store.

    python3 tools/access_matrix.py APP --db FILE --sessions SESSIONS --output page.html

The page has a table, with a row for each guarded group of a record and a column for each viewer. A cell says whether
the viewer is shown what the group guards. If not, the cell has the number of a reason. The reasons are listed below the
table, each with the policy and its place. The script works on a copy, so the store may be served meanwhile.

The page is for the operator, because it names records that a viewer must not know about. It contains no guarded value.
If everybody sees a record, the record is named by its first text that no group guards."""
import argparse
import html
import os
import re
import sys
import tempfile
import time

sys.dont_write_bytecode = True
TOOLS = os.path.dirname(os.path.abspath(__file__))
TOP = os.path.dirname(TOOLS)
sys.path.insert(0, TOOLS)
import application                                                          # noqa: E402
import audit                                                                # noqa: E402
import fault_place                                                          # noqa: E402
import hidden                                                               # noqa: E402
import store_copies                                                         # noqa: E402

EVERY = 20          # seconds between two progress lines
WIDE = 30           # the most characters of a record's name

STYLE = '''
* { box-sizing: border-box }
body { margin: 0; padding: 0 1rem 1rem; font: 14px/1.4 system-ui, sans-serif; color: #1d2333; overflow-wrap: anywhere }
h1 { font-size: 1.3rem; margin: .8rem 0 .2rem } h2 { font-size: 1.1rem; margin: 1rem 0 .2rem }
p { margin: .3rem 0; max-width: 60rem }
.choice { display: none; flex-wrap: wrap; gap: .4rem 1rem; margin: .5rem 0 }
.choice input, .choice select { font: inherit; max-width: 12rem }
.room { overflow: auto; width: fit-content; max-width: 100%; max-height: max(calc(100vh - 14rem), 20rem); border: 1px solid #b9c2da }
table { border-collapse: separate; border-spacing: 0 }
th, td { border-right: 1px solid #e3e7f1; border-bottom: 1px solid #e3e7f1; padding: 0 .2rem; font-weight: normal }
td { width: 1.6rem; min-width: 1.6rem; height: 1.5rem; text-align: center }
td a { display: block; color: #8c1d18; text-decoration: none }
.s { background: #d8efdc; color: #14652f } .h { background: #fbe9e7 }
thead th { position: sticky; top: 0; z-index: 2; background: #eef1f8; vertical-align: bottom; padding: .3rem 0 }
thead span { display: inline-block; max-height: 10rem; overflow: hidden; writing-mode: vertical-rl;
  transform: rotate(180deg);
  white-space: nowrap; text-overflow: ellipsis }
tr > th:first-child { position: sticky; left: 0; z-index: 1; width: 20rem; min-width: 18rem; max-width: 20rem;
  background: #fff;
  text-align: left; padding: .1rem .4rem }
thead tr > th:first-child, .model th:first-child { background: #eef1f8 } thead tr > th:first-child { z-index: 3 }
.model th { font-weight: bold; background: #eef1f8 }
tfoot td, tfoot th { background: #eef1f8 }
small { color: #5a637c }
ol { padding-left: 2.4rem } li { margin: .3rem 0 } li:target { background: #fff3c9 }
code { white-space: pre-wrap; font: 13px/1.4 ui-monospace, monospace }
.told { position: sticky; bottom: 0; z-index: 4; margin: .4rem 0 0; padding: .4rem .6rem; min-height: 3.2rem;
  background: #fff3c9;
  border: 1px solid #d9c77c; display: none }
tr.off, .one td:not(.on), .one thead th:not(.on):not(:first-child) { display: none }
@media (max-width: 40em) { body { padding: 0 .5rem .5rem; font-size: 13px }
  tr > th:first-child { width: 9rem; min-width: 9rem; max-width: 9rem } .room { max-height: 70vh } }
'''
# Filters rows and columns, and shows a cell's reason. Without this script the page shows the whole table and all
# reasons.
SCRIPT = '''
const table = document.querySelector("table"), told = document.querySelector(".told");
const [rows, column, state] = document.querySelectorAll(".choice input, .choice select");
document.querySelector(".choice").style.display = "flex";
told.style.display = "block";
const heads = [...table.tHead.rows[0].cells];
const place = (cell) => cell.cellIndex;
const choose = () => {
  const text = rows.value.toLowerCase(), at = +column.value;
  table.classList.toggle("one", at > 0);
  for (const cell of table.querySelectorAll(".on")) cell.classList.remove("on");
  for (const body of table.tBodies) {
    let left = 0;
    for (const row of body.rows) {
      if (row.classList.contains("model")) continue;
      const cell = row.cells[at];
      const other = at > 0 && state.value && !cell.classList.contains(state.value);
      const off = other || !row.dataset.name.toLowerCase().includes(text);
      row.classList.toggle("off", off);
      if (at > 0) cell.classList.add("on");
      left += !off;
    }
    body.rows[0].classList.toggle("off", !left);
  }
  if (at > 0) { heads[at].classList.add("on"); table.tFoot.rows[0].cells[at].classList.add("on"); }
};
for (const field of [rows, column, state]) field.addEventListener("input", choose);
const tell = (event) => {
  const cell = event.target.closest("tbody td");
  if (!cell) return;
  const row = cell.parentElement, who = heads[place(cell)].title, number = cell.textContent.trim();
  const reason = document.getElementById("r" + number);
  told.textContent = who + (cell.classList.contains("s") ? " is shown " : " is not shown ") + row.dataset.name
    + (reason ? ": " + reason.textContent : "");
};
table.addEventListener("mouseover", tell);
table.addEventListener("focusin", tell);
table.addEventListener("click", (event) => { tell(event); event.preventDefault(); });
'''
PAGE = '''<!DOCTYPE html>
<html lang="en">
<meta charset="utf-8">
<title>Who sees what: %(app)s</title>
<meta name="viewport" content="width=device-width">
<style>%(style)s</style>
<h1>Who sees what: %(app)s</h1>
<p>The store %(store)s as it was at %(when)s: %(labels)d guarded groups of records, %(viewers)d viewers. A cell says
whether the viewer of its column is shown what is guarded in its row: <span class="s">&nbsp;✓&nbsp;</span> it is shown,
<span class="h">&nbsp;1&nbsp;</span> it is hidden, for the reason of that number, below the table.</p>
<div class="choice"><label>Rows with <input type="search"></label>
<label>Viewer <select><option value="0">all</option>%(options)s</select></label>
<label>Cells <select><option value="">all</option><option value="s">shown</option>
<option value="h">hidden</option></select></label></div>
<div class="room"><table>
<thead><tr><th scope="col">Record</th>%(heads)s</tr></thead>
%(bodies)s
<tfoot><tr><th scope="row">shown, of %(labels)d</th>%(sums)s</tr></tfoot>
</table></div>
<p class="told" aria-live="polite">Point at a cell, or tap it: its reason is said here.</p>
<h2>Reasons</h2>
<ol>
%(reasons)s
</ol>
<script>%(script)s</script>
</html>
'''


def escaped(text):
    return html.escape(str(text), quote=True)


class Store:
    """A copy of a store, the file with the application's text, and the program that reads them."""

    def __init__(self, program, app, text, copy):
        self.program, self.app, self.text, self.copy = program, app, text, copy

    def why(self, viewer):
        """The labels that the viewer is shown, and for each other label the reason in words."""
        shown, reasons = hidden.why(self.program, self.text, self.app, viewer, self.copy)
        return set(shown), reasons

    def names(self, guarded):
        """For each record that everybody sees: its model, and its first unguarded text that isn't empty."""
        found = {}
        for line in hidden.asked(self.program, 'dump', self.text, '-', self.copy)[:-1]:
            model, number, *_ = line.split(' ', 2)
            texts = re.findall(r' (\S+?)="((?:[^"\\]|\\.)*)"', line)
            text = next((value for field, value in texts if field not in guarded[model] and value), None)
            found[int(number)] = (model, plain(text)) if text else (model, '')
        return found


def plain(text):
    """A text of a dump without its escapes, shortened to WIDE characters."""
    def byte(found):
        word = found.group(1)
        return {'n': b' ', 'r': b' ', 't': b' '}.get(word) or (bytes([int(word[1:],
                                                                          16)]) if len(word) == 3 else word.encode())
    parts = re.split(r'\\(x[0-9A-Fa-f]{2}|.)', text)
    whole = b''.join(part.encode() if number % 2 == 0 else byte(re.match('(.*)', part)) for number,
                     part in enumerate(parts))
    words = whole.decode('utf-8', 'replace')
    return words if len(words) <= WIDE else words[:WIDE - 2] + '..'


class Column:
    """A viewer: a short and a long name, the labels that are shown, and the reasons for the other labels."""

    def __init__(self, head, title, shown, hidden):
        self.head, self.title, self.shown, self.hidden = head, title, shown, hidden


def viewers_of(options, names, known, model):
    """Each viewer as in --viewers, with a short and a long name. The viewers are those of --viewers, or those of the
    sessions, or the records of the viewer's model that everybody sees. Nobody is always one of them."""
    found = {}
    if options.viewers:
        found = {viewer: '' for viewer in options.viewers}
    elif options.sessions:
        with open(options.sessions, encoding='utf-8', errors='replace') as file:
            for line in file.read().split('\n'):
                token, _, viewer = line.partition(' ')
                if re.fullmatch(r'\d+|-', viewer):
                    found.setdefault(viewer, token)
    else:
        found = {str(number): '' for number, (name, _) in known.items() if name == model}
    found.setdefault('-', '')
    for viewer, token in found.items():
        record = 'nobody' if viewer == '-' else names.name(int(viewer))
        own = '' if viewer == '-' else known.get(int(viewer), ('', ''))[1]
        called = token or own
        yield viewer, called or record, '%s (%s)' % (called, record) if called else record


def columns_of(options, store, names, known, model):
    told, columns = time.monotonic(), []
    viewers = list(viewers_of(options, names, known, model))
    for number, (viewer, head, title) in enumerate(viewers):
        if time.monotonic() - told > EVERY:
            told = time.monotonic()
            print('access_matrix: %d of %d viewers' % (number, len(viewers)), file=sys.stderr, flush=True)
        columns.append(Column(head, title, *store.why(viewer)))
    return columns


def row_of(label, names, known):
    """The header of a row: the record, with its name if it has one, and what the group guards."""
    number = label // 8
    own = known.get(number, ('', ''))[1]
    return '%s%s' % (names.name(number), ' “%s”' % own if own else ''), names.label(label)[1]


def cell(column, label, reasons):
    if label in column.shown:
        return '<td class="s">✓</td>'
    reason = column.hidden.get(label, 'it was not there yet, or no more')
    number = reasons.setdefault(reason, len(reasons) + 1)
    return '<td class="h"><a href="#r%d">%d</a></td>' % (number, number)


def bodies(names, known, columns, labels, reasons):
    """The rows of the table, grouped by model."""
    made, last = [], None
    for label in sorted(labels, key=lambda label: (label // 8 % 64, label // 8, label % 8)):
        model = label // 8 % 64
        if model != last:
            made.append('%s<tbody><tr class="model"><th scope="rowgroup" colspan="%d">%s</th></tr>' % (
                '</tbody>' if made else '', len(columns) + 1, escaped(names.models[model])))
            last = model
        record, fields = row_of(label, names, known)
        made.append('<tr data-name="%s"><th scope="row">%s <small>%s</small></th>%s</tr>' % (
            escaped('%s: %s' % (record, fields)), escaped(record), escaped(fields),
            ''.join(cell(column, label, reasons) for column in columns)))
    return '\n'.join(made) + ('</tbody>' if made else '')


def page(options, names, known, columns):
    labels = set().union(*(column.shown | set(column.hidden) for column in columns))
    reasons = {}
    return PAGE % {
        'app': escaped(options.app), 'store': escaped(options.db), 'when': time.strftime('%Y-%m-%d %H:%M:%S'),
        'style': STYLE,
        'script': SCRIPT, 'labels': len(labels), 'viewers': len(columns),
        'options': ''.join('<option value="%d">%s</option>' % (place, escaped(column.title))
                           for place, column in enumerate(columns, 1)),
        'heads': ''.join('<th scope="col" title="%s"><span>%s</span></th>' % (escaped(column.title),
                                                                              escaped(column.head))
                         for column in columns),
        'bodies': bodies(names, known, columns, labels, reasons),
        'sums': ''.join('<td>%d</td>' % len(column.shown) for column in columns),
        'reasons': '\n'.join('<li id="r%d"><code>%s</code></li>' % (number, escaped(reason))
                             for reason, number in reasons.items()) or '<li>Nothing is hidden.</li>'}


def made(options, room):
    """The page, made from a copy of the store."""
    copy = os.path.join(room, 'copy.db')
    store_copies.copy_served(options.db, copy)
    data, text = application.read(options.app), os.path.join(room, 'text')
    with open(text, 'wb') as file:
        file.write(data)
    store = Store(options.program, options.app, text, copy)
    hidden.asked(options.program, 'dump', text, '-', copy)  # fails if the application or the store is wrong
    names, checker = audit.Names(data), fault_place.Checker(fault_place.read_tree(data, list(range(len(data) + 1))))
    guarded = {model.children[1].value: {guard.children[0].value for group in fault_place.groups_in(model)
                                         for guard in fault_place.guards_in(group)} for model in checker.models}
    known = store.names(guarded)
    model = checker.viewer.value if checker.viewer is not None else None
    return page(options, names, known, columns_of(options, store, names, known, model))


def viewers_option(word):
    viewers = word.split(',')
    if not all(re.fullmatch(r'\d{1,39}|-', viewer) for viewer in viewers):
        raise argparse.ArgumentTypeError('viewers are numbers of records, or - for nobody, joined by commas')
    return viewers


def options_of(words):
    parser = argparse.ArgumentParser(description=__doc__, allow_abbrev=False,
                                     formatter_class=argparse.RawDescriptionHelpFormatter)
    parser.add_argument('app', metavar='APP', help='the application')
    parser.add_argument('--db', metavar='FILE', required=True, help='its store')
    parser.add_argument('--sessions', metavar='FILE', help='the sessions; each viewer has a column, named by a token')
    parser.add_argument('--viewers', metavar='V,V', type=viewers_option,
                        help='the viewers that have a column; without this option and --sessions, those whose records '
                        'everybody sees')
    parser.add_argument('--output', metavar='FILE', help='the file for the page, instead of standard output')
    parser.add_argument('--program', metavar='FILE', default=os.path.join(TOP, 'jac'),
                        help='the program to run, instead of ./jac')
    return parser.parse_args(words)


def main(words):
    options = options_of(words)
    try:
        with tempfile.TemporaryDirectory(prefix='jac-matrix-') as room:
            text = made(options, room)
    except (store_copies.Fault, application.Fault, hidden.Fault, OSError) as fault:
        sys.exit('access_matrix: %s' % fault)
    if options.output:
        with open(options.output, 'w', encoding='utf-8') as file:
            file.write(text)
    else:
        sys.stdout.write(text)


if __name__ == '__main__':
    main(sys.argv[1:])
