"""The pages of `tools/dev.py`: the bar that it adds to each page, its own page, and the labels of a page in words. Each
text from the application, the sessions or the store is escaped here, where it is inserted."""
import html
import json
import os
import re
import sys

sys.dont_write_bytecode = True
sys.path.insert(0, os.path.dirname(os.path.abspath(__file__)))
import audit                                                                # noqa: E402

PREFIX = '/dev//'

STYLE = '''
:host { all: initial }
* { box-sizing: border-box }
.bar, main { font: 14px/1.45 system-ui, sans-serif; color: #1d2333; overflow-wrap: anywhere }
.bar { position: fixed; z-index: 2147483647; left: 0; right: 0; bottom: 0; max-height: 70vh; overflow: auto;
  border-top: 2px solid #3b4a7a; background: #eef1f8; box-shadow: 0 -2px 8px #0003 }
.line { display: flex; flex-wrap: wrap; gap: .3em 1em; align-items: center; padding: .35em .8em }
.line form { display: flex; gap: .4em; align-items: center; margin: 0 }
.line b { color: #3b4a7a }
select, button { font: inherit; padding: .1em .4em }
select { max-width: 12em }
button { border: 1px solid #3b4a7a; border-radius: 3px; background: #fff; color: #1d2333; cursor: pointer }
a { color: #2446a8 }
summary { cursor: pointer; padding: .2em .8em }
.inside { padding: 0 .8em .6em }
.wrong { border-top: 4px solid #b3261e; background: #fdf0ee }
p { margin: .4em 0 }
.wrong > * { margin: 0; padding: .35em .8em }
.wrong > pre { margin: 0 .8em }
.wrong h2, .wrong strong { color: #8c1d18; font-size: 1em }
pre { margin: .3em 0; padding: .5em .8em; overflow-x: auto; font: 13px/1.4 ui-monospace, monospace; background: #fff;
  border: 1px solid #ccd3e6; border-radius: 3px }
ul { margin: .2em 0; padding-left: 1.3em }
li { margin: .15em 0 }
li pre { white-space: pre-wrap }
h1 { font-size: 1.3em } h2 { font-size: 1.05em; margin: 1em 0 .2em } h3 { font-size: 1em; margin: .6em 0 .1em }
.shown { color: #14652f } .hidden { color: #8c1d18 }
'''
PAGE = '''<!DOCTYPE html>
<html lang="en">
<meta charset="utf-8">
<title>%s</title>
<meta name="viewport" content="width=device-width">
<style>body { margin: 0 } main { max-width: 60em; margin: 0 auto; padding: 1em } main .line { padding: .35em 0 } %s</style>
<main>
%s
</main>
%s
</html>
'''
# RELOAD is for each page, MOVE for the bar. Without these scripts pages still work, but don't change by themselves.
RELOAD = '''<script>(() => {
  const version = %d, again = %s;
  const look = setInterval(async () => {
    if (document.hidden) return;
    try {
      const state = await (await fetch("/dev//state")).json();
      if (state.version === version) return;
      clearInterval(look);
      if (again) location.reload(); else changed();
    } catch (gone) { /* dev has ended, or is about to begin */ }
  }, 700);
  const changed = () => {
    const bar = document.querySelector("jac-dev-bar");
    if (bar) bar.shadowRoot.querySelector(".news").textContent = "A new text was saved: open a page again.";
  };
})()</script>'''
MOVE = '''<script>(() => {
  const bar = document.querySelector("jac-dev-bar").shadowRoot;
  const choice = bar.querySelector("select");
  choice.addEventListener("change", () => choice.form.submit());
  // the page ends above the bar, however high that is
  const room = bar.querySelector(".bar");
  new ResizeObserver(() => { bar.host.style.height = room.offsetHeight + 16 + "px"; }).observe(room);
  const labels = bar.querySelector(".labels");
  labels.addEventListener("toggle", async () => {
    const room = labels.querySelector(".inside");
    if (labels.open && !room.dataset.read) {
      room.dataset.read = "yes";
      room.innerHTML = await (await fetch(room.dataset.from)).text();
    }
  });
})()</script>'''


def escaped(text):
    return html.escape(str(text), quote=True)


def sessions(dev):
    """The tokens of the sessions file, each with its viewer. If a token is in several lines, the first one counts."""
    found = {}
    if dev.sessions:
        try:
            with open(dev.sessions, encoding='utf-8', errors='replace') as file:
                lines = file.read().split('\n')
        except OSError:
            lines = []
        for line in lines:
            parts = re.fullmatch(r'([A-Za-z0-9_-]{1,128}) (\d+|-)', line)
            if parts:
                found.setdefault(*parts.groups())
    return list(found.items())


def named(text, viewer):
    """A viewer in words."""
    return 'nobody' if viewer == '-' else audit.Names(text.data).name(int(viewer)) if text else viewer


def choice(dev, text, token, back):
    """The form that changes the viewer."""
    options = ['<option value="">nobody</option>']
    for name, viewer in sessions(dev):
        options.append('<option value="%s"%s>%s: %s</option>' % (
            escaped(name), ' selected' if name == token else '', escaped(name), escaped(named(text, viewer))))
    return '<form method="post" action="%sas"><input type="hidden" name="back" value="%s"><label>ask as <select ' \
           'name="token">%s</select></label> <button>Change</button></form>' % (PREFIX, escaped(back), ''.join(options))


def told(text):
    """Messages with marked lines, as HTML. The browser wraps a message, but not the indented lines below it."""
    parts = re.findall(r'(?m)^(?:[ \t]+.*(?:\n[ \t].*)*|\S.*)', text)
    return ''.join(('<pre>%s</pre>' if part[0] in ' \t' else '<p>%s</p>') % escaped(part) for part in parts)


def wrong(dev):
    """What is wrong with the last saved text, or ''."""
    refused = dev.refused
    if not refused:
        return ''
    parts = ['<div class="wrong" role="alert"><h2>The text saved at %s is refused</h2>' % escaped(refused.when)]
    if refused.is_schema or not refused.details:
        line = refused.headline
        parts.append('<p><strong>%s</strong></p>%s' % (
            escaped(line[0].upper() + line[1:] if refused.is_schema else line), told(refused.details)))
    else:
        parts.append('%s<p><code>%s</code></p>' % (told(refused.details), escaped(refused.headline)))
    if refused.is_schema:
        parts.append('<form method="post" action="%snew-store"><button>Begin with a new store</button> The one that is '
                     'there is kept under another name.</form>' % PREFIX)
    if dev.text:
        parts.append('<p>Pages are still those of the text saved at %s.</p>' % escaped(dev.text.when))
    return ''.join(parts) + '</div>'


def counts(page):
    hidden = page.hidden()
    return 'labels of this page: <span class="shown">%d shown</span>, <span class="hidden">%s</span>' % (
        len(page.shown), 'the hidden ones' if hidden is None else '%d hidden' % len(hidden))


def bar(dev, page, token):
    """The bar of a page."""
    back = page.target if page.method == 'GET' else '/'
    looks = '<details><summary>places to look at: %d</summary><div class="inside">%s</div></details>' % (
        dev.count_looks(), told(dev.looks)) if dev.looks else ''
    inside = '''%s<div class="line"><b>jac dev</b><span>asked by <b>%s</b></span>%s
<a href="%s">for writing, not for serving</a><span class="news"></span></div>
<details class="labels"><summary>%s</summary>
<div class="inside" data-from="%slabels/%d"><a href="%spage/%d">In words</a></div></details>%s''' % (
        wrong(dev), escaped(named(page.text, page.viewer)), choice(dev, page.text, token, back), PREFIX, counts(page),
        PREFIX,
        page.number, PREFIX, page.number, looks)
    return '<jac-dev-bar style="display:block;height:9rem"><template shadowrootmode="open"><style>%s</style>' \
           '<div class="bar">%s' \
           '</div></template></jac-dev-bar>%s%s' % (STYLE, inside, RELOAD % (dev.version,
                                                                             json.dumps(page.method == 'GET')), MOVE)


def home(dev, token):
    """Dev's own page. As long as no text is served, it is shown in place of each page."""
    text = dev.text
    parts = ['<h1>%s</h1>' % escaped(dev.source.name()), wrong(dev)]
    if text:
        parts.append('<p>Pages are those of the text saved at %s: %s. <a href="/">Open it</a></p>' % (
            escaped(text.when), escaped(text.summary)))
    else:
        parts.append('<p>There is no page yet: they begin with the first text that is right.</p>')
    parts.append('<div class="line">%s</div>' % choice(dev, text, token, '/'))
    if not dev.sessions:
        parts.append('<p>There is no sessions file, so everybody is nobody: <code>--sessions FILE</code> names '
                     'one.</p>')
    if dev.looks:
        parts.append('<h2>Places to look at</h2>%s' % told(dev.looks))
    kind = escaped(dev.store) if dev.is_kept else 'one that was made for this run, and goes with it'
    parts.append('<h2>The store</h2><p>It is %s.%s</p>' % (kind, ' ' + escaped(dev.note) + '.' if dev.note else ''))
    parts.append('''<h2>What this is</h2>
<p>This is <code>jac dev</code>, for writing an application and not for serving it: it listens on this machine alone,
lets whoever reaches it be anybody of the sessions file, and tells which labels are hidden. Its own pages are
below <code>%s</code>. No view has such a path, since no part of a view's path is empty.</p>''' % PREFIX)
    return PAGE % (escaped(dev.source.name()), STYLE, '\n'.join(parts), RELOAD % (dev.version, 'true'))


def broken(dev, fault, back):
    """The page that says that the program gave no reply. `back` is the page to request again."""
    words = '\n'.join(part for part in (getattr(fault, 'line', ''), getattr(fault, 'told', '')) if part) or str(fault)
    text = '<h1>No reply</h1>' \
           '<p>The program gave no reply to this request, and is started again with the next one.</p>' \
           '<pre>%s</pre>' \
           '<p><a href="%s">Ask for this page again</a>, or for <a href="/">the first one</a>.</p>' % (
               escaped(words), escaped(back))
    return PAGE % ('No reply', STYLE, text, RELOAD % (dev.version, 'true'))


# the labels of a page in words

def item(names, label, reason=''):
    record, fields = names.label(label)
    return '<li>%s%s%s</li>' % (escaped(record), ': ' + escaped(fields) if fields else '',
                                '<pre>%s</pre>' % escaped(reason) if reason else '')


def listed(head, kind, items):
    return '<h3 class="%s">%s</h3><ul>%s</ul>' % (kind, head, ''.join(items)) if items else ''


def labels(dev, page):
    """The labels of a page: those that are shown, and those that are hidden, with the policies that hide them."""
    names = audit.Names(page.text.data)
    _, why = dev.why(page.viewer)
    hidden = page.hidden()
    stale = '' if page.text is dev.text else '<p>This page is of an earlier text.</p>'
    of = 'of this page' if hidden is not None else 'of the store'
    rest = sorted(why) if hidden is None else hidden
    whom = 'a stranger' if page.viewer == '-' else named(page.text, page.viewer)
    parts = [stale, listed('Shown to %s' % escaped(whom), 'shown', [item(names, label) for label in page.shown])]
    parts.append(listed('Hidden, %s' % of, 'hidden', [item(names, label, why.get(label, '')) for label in rest]))
    if not page.shown and not rest:
        parts.append('<p>No label was consulted: nothing on this page is guarded.</p>')
    return ''.join(parts)


def alone(page, text):
    """The text that `labels` returns, as a page of its own."""
    body = '<h1>Labels of %s</h1>%s<p><a href="%s">Back</a></p>' % (
        escaped(page.target), text, escaped(page.target) if page.method == 'GET' else '/')
    return PAGE % ('Labels', STYLE, body, '')
