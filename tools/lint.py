#!/usr/bin/env python3
"""The linter. It lists places to look at in an application that `jac check` accepts, each with its line, its column and
what it means.

A place that it lists may be right, and a place that it doesn't list may be wrong. The kinds are

  write     a post view sets a guarded field from a parameter, and no condition asks who the viewer is
  unasked   a post view changes what a policy or a check of the viewer reads, and no condition asks who the viewer is
  branch    a write depends on something that may be hidden: only those who are shown it see what the write stores
  nobody    a reference is compared with viewer, and nothing asks (live viewer): for a stranger viewer is none, and none
            equals none. Or a field is compared with a field of the viewer: a stranger's are none, 0, false or empty
  copy      a view stores a guarded field (or a field of a hidden record) elsewhere, and deletes such a record
  sum       guarded numbers are added up, by a sum or in a loop: a hidden number counts as its public value
  markup    a text that the application doesn't fix is put unescaped
  escape    a text is escaped where that doesn't protect the page: an attribute without quotes, a script, an address
  redirect  a redirect leads to where a parameter or a stored text says
  unlinked  no page leads to a view. Not listed if a link or a redirect is computed, or if no page has a link

docs/LANGUAGE.md, "Writing", says more about each kind. If a place is right, add an entry to a file beside the
application. The file has the application's name with .accepted at its end (in a folder: app.accepted). An entry is the
line that is printed after "accepted as". The reason follows on indented lines:

  view post /setup: unasked Person.chair
      Anybody may press it, and it does something only if nobody is there yet.

An entry accepts all places of its kind and subject in its view, even after they move. An entry that matches no place
any more is reported. The exit status is 0 if there is nothing to look at, and 1 if there is something. It is 2 if the
application is refused, or if the file of accepted places can't be read or has an entry without a reason."""
import argparse
import os
import re
import signal
import sys

sys.dont_write_bytecode = True
sys.path.insert(0, os.path.dirname(os.path.abspath(__file__)))
import assemble                                                             # noqa: E402
import fault_place                                                          # noqa: E402
import lint_rules                                                           # noqa: E402

ENTRY = re.compile(r'((?:view (?:get|post) /\S*|model \S+): (%s)(?: .+)?)' % '|'.join(lint_rules.KINDS))


class Refused(Exception):
    """The faults of a file of accepted places, one on each line."""


class Accepted:
    """The entries of a file, each with the number of its line and its reason."""

    def __init__(self, name, text):
        self.name, self.entries, wrong, entry = name, {}, [], None
        for number, line in enumerate(text.split('\n'), 1):
            if line[:1] in (' ', '\t') and line.strip():
                if entry is None:
                    wrong.append('%s:%d: this reason has no entry before it' % (name, number))
                else:
                    self.entries[entry][1].append(line.strip())
            elif line.strip():
                entry = line.rstrip()
                if not ENTRY.fullmatch(entry):
                    wrong.append('%s:%d: expected PLACE: KIND SUBJECT, as a warning shows it after "accepted as"' % (
                        name, number))
                elif entry in self.entries:
                    wrong.append('%s:%d: this entry is in line %d already' % (name, number, self.entries[entry][0]))
                self.entries.setdefault(entry, (number, []))
        wrong += ['%s:%d: this entry has no reason: say below it, indented, why it is well' % (name, number)
                  for number, reason in self.entries.values() if not reason]
        if wrong:
            raise Refused('\n'.join(wrong))

    def stale(self, found):
        """Messages about the entries that match no place."""
        entries = {one.entry() for one in found}
        return ['%s:%d: no longer applies, nothing like it is found: %s' % (self.name, number, entry)
                for entry, (number, _) in self.entries.items() if entry not in entries]


def read_application(name):
    """The text of the application in a file or a folder."""
    return assemble.read_or_exit(name)


def accepted_name(application):
    """The file of accepted places, beside an application or in its folder."""
    return os.path.join(application, 'app.accepted') if os.path.isdir(application) else application + '.accepted'


def misplaced(application):
    """Files beside an application, or in its folder, that look like files of accepted places but aren't read."""
    whole = os.path.normpath(application)
    names = [whole + '.accepted', os.path.join(whole, 'main.accepted'), os.path.splitext(whole)[0] + '.accepted']
    read = os.path.normpath(accepted_name(application))
    return [name for name in dict.fromkeys(names) if name != read and os.path.isfile(name)]


def read_accepted(name):
    try:
        with open(name, encoding='utf-8') as file:
            return Accepted(name, file.read())
    except FileNotFoundError:
        return Accepted(name, '')
    except UnicodeDecodeError:
        raise Refused('%s: not UTF-8' % name) from None


def shown(data, name, found):
    """The message about places with the same entry and the same words: the first place and what it means, the text with
    a mark under it, the other places, and the entry that accepts them."""
    first, *others = found
    lines = ['%s: look at this, in the %s: %s' % (fault_place.where(data, name, first.start), first.place, first.words),
             fault_place.marked(data, first.start, first.start + 1)]
    if others:
        lines.append('    and also: ' + ', '.join(fault_place.where(data, name, one.start) for one in others))
    return '\n'.join([*lines, '    accepted as: ' + first.entry()])


def looked(data, name, accepted):
    """The messages about an application's text, without the accepted places, and how many entries match a place."""
    found, groups = lint_rules.found_in(data), {}
    for one in found:
        if one.entry() not in accepted.entries:
            groups.setdefault((one.entry(), one.words), []).append(one)
    stale = accepted.stale(found)
    return [shown(data, name, group) for group in groups.values()] + stale, len(accepted.entries) - len(stale)


def options(words):
    parser = argparse.ArgumentParser(description=__doc__, formatter_class=argparse.RawDescriptionHelpFormatter)
    parser.add_argument('application', help='the file or the folder of the application')
    parser.add_argument('--accepted', metavar='FILE', help='the file of accepted places, if it has another name')
    return parser.parse_args(words)


def main(words):
    given = options(words)
    try:
        data = read_application(given.application)
        for name in [] if given.accepted else misplaced(given.application):
            print('lint: %s is not read: the name is %s' % (name, accepted_name(given.application)), file=sys.stderr)
        accepted = read_accepted(given.accepted or accepted_name(given.application))
        lines, count = looked(data, given.application, accepted)
    except Refused as refused:
        print(refused)
        return 2
    except OSError as fault:
        print('lint: %s: %s' % (fault.filename, fault.strerror))
        return 2
    except lint_rules.NotServed:
        print('lint: %s is no application that is served; ./jac check %s says why' % (
            given.application, given.application))
        return 2
    print('\n'.join(lines) if lines else 'lint: nothing to look at' + (', %d accepted' % count if count else ''))
    return 1 if lines else 0


if __name__ == '__main__':
    signal.signal(signal.SIGPIPE, signal.SIG_DFL)
    sys.exit(main(sys.argv[1:]))
