#!/usr/bin/env python3
"""Puts the output of `jac why` into words: what the viewer is shown, and why the rest is hidden.

  ./jac why examples/calendar.app 8192 --db raid.db | python3 tools/why.py examples/calendar.app --db raid.db

The first line of that output is `shown LABELS`. Each further line is `LABEL MODEL ID GROUP because LABEL MODEL ID
GROUP`. The first label is for the guarded fields of a record, or for the record itself if the group hides it. It is
hidden, because if it were shown, the second label wouldn't be allowed. Usually both labels are the same. Then there are
two possible reasons, which the line doesn't tell apart:

  - the label's policy is false, or
  - its record isn't there: it was stored only where another label is shown, and that label is hidden from this viewer.

With --db, this script says which reason it is, and for the second one why the other label is hidden. It reads a copy of
the store's file, and never writes the file. If the two labels differ, the first one could be shown alone, but not
beside what is shown."""
import argparse
import contextlib
import os
import re
import shutil
import signal
import sqlite3
import sys
import tempfile

sys.dont_write_bytecode = True
sys.path.insert(0, os.path.dirname(os.path.abspath(__file__)))
import assemble                                                             # noqa: E402
import audit                                                                # noqa: E402
import fault_place                                                          # noqa: E402

LINE = re.compile(r'(\d+) (\S+) (\d+) (\d+) because (\d+) (\S+) (\d+) (\d+)')
SHOWN = re.compile(r'shown (-|\d+(?:,\d+)*)')
# The size of a label in a row: 16 bytes for the label, and one that is 1 if the row needs it shown, and 0 if hidden.
LITERAL = 17


class Policies:
    """The policy of each label: the line where it begins, and its text on one line."""

    def __init__(self, path, data):
        self.path, self.data = path, data
        models = fault_place.Checker(fault_place.read_tree(data, list(range(len(data) + 1)))).models
        self.groups = [[group.children[-1].children[1] for group in fault_place.groups_in(model)] for model in models]

    def told(self, label):
        model, group = label // 8 % 64, label % 8
        if model >= len(self.groups) or group >= len(self.groups[model]):
            return 'a policy that %s does not have' % self.path
        policy = self.groups[model][group]
        text = self.data[policy.start:policy.end].decode('utf-8', errors='replace')
        place = fault_place.where(self.data, self.path, policy.start).rpartition(':')[0]
        return '%s: %s' % (place, ' '.join(text.split()))


class Store:
    """The rows of each record of a store. A row has the labels that must be shown, and those that must be hidden, for
    the row to be there."""

    def __init__(self, rows):
        self.rows = {}
        for record, guard in rows:
            literals = {(int.from_bytes(guard[at:at + 16], 'big'), guard[at + 16] == 1)
                        for at in range(0, len(guard), LITERAL)}
            self.rows.setdefault(int.from_bytes(record, 'big'), []).append(literals)

    @classmethod
    def of_file(cls, path):
        """The store in a file. A copy is read, because SQLite may write to a file that it opens."""
        with tempfile.TemporaryDirectory() as folder:
            copy = os.path.join(folder, 'store')
            shutil.copyfile(path, copy)
            if os.path.exists(path + '-wal'):
                shutil.copyfile(path + '-wal', copy + '-wal')
            with contextlib.closing(sqlite3.connect(copy)) as database:
                return cls(database.execute('SELECT jid, jvars FROM rec ORDER BY model, jid, alt').fetchall())

    def lacks(self, record, world):
        """An empty list if a record is there in a world. Otherwise, for each way in which it could be there, the labels
        that the world would have to show or to hide."""
        ways = [{(label, shown) for label, shown in row if (label in world) != shown}
                for row in self.rows.get(record, [])]
        if set() in ways:
            return []
        least = [way for way in ways if not any(other < way for other in ways)]
        return [way for at, way in enumerate(least) if way not in least[:at]]


class Why:
    """Puts the lines into words. `store` is None if there is no --db."""

    def __init__(self, names, policies, store, lines):
        self.names, self.policies, self.store, self.lines = names, policies, store, lines
        found = [SHOWN.fullmatch(line) for line in lines]
        self.shown = {int(label) for one in found if one and one.group(1) != '-' for label in one.group(1).split(',')}
        found = [LINE.fullmatch(line) for line in lines]
        self.reasons = {int(one.group(1)): int(one.group(5)) for one in found if one}

    def named(self, label):
        record, fields = self.names.label(label)
        return '%s: %s' % (record, fields) if fields else record

    def told(self):
        for line in self.lines:
            found = LINE.fullmatch(line)
            if found:
                label = int(found.group(1))
                yield from self.hidden('hidden stays ' + self.named(label), '    ', label, {label})
            elif SHOWN.fullmatch(line):
                labels = [] if line.endswith(' -') else line[len('shown '):].split(',')
                yield 'the viewer is shown' + ('' if labels else ' nothing that is guarded')
                yield from ('    ' + self.named(int(label)) for label in labels)
            else:
                yield 'not a line of `why`: ' + line

    def hidden(self, head, indent, label, seen):
        """Lines that say why a label is hidden. `seen` has the labels for which that was said already."""
        reason = self.reasons[label]
        lacks = self.store.lacks(reason // 8, self.shown | {label}) if self.store else []
        yield head
        if label != reason:
            yield '%sbecause %s could not be shown beside it' % (indent, self.named(reason))
        if self.store and reason // 8 not in self.store.rows:
            yield '%sbecause there is no such record in this store: it is another one than that of the lines' % indent
        elif lacks:
            yield '%sbecause %s record is not there: it was stored where %s' % (
                indent, 'its' if label == reason else 'that', ', or where '.join(self.way(way) for way in lacks))
            for other in sorted({other for way in lacks for other, shown in way if shown} - seen):
                yield from self.needed(other, indent, seen | {other})
        elif label != reason:
            yield '%sby the policy of that one, %s' % (indent, self.policies.told(reason))
        elif self.store:
            yield '%sby its own policy, which is false: %s' % (indent, self.policies.told(label))
        else:
            yield '%sby its own policy, or because its record is not there (--db says which): %s' % (
                indent, self.policies.told(label))

    def needed(self, label, indent, seen):
        """Lines that say why a label is hidden that must be shown for a record to be there."""
        if label in self.reasons:
            yield from self.hidden('%sand %s stays hidden' % (indent, self.named(label)), indent + '    ', label, seen)
        elif label // 8 in self.store.rows:
            yield '%sand %s stays hidden, of which the lines say nothing' % (indent, self.named(label))
        else:
            yield '%sand %s is shown to nobody, because that record is gone' % (indent, self.named(label))

    def way(self, way):
        return ' and '.join('%s is %s' % (self.named(label), 'shown' if shown else 'hidden, and it is shown here')
                            for label, shown in sorted(way))


def options(words):
    parser = argparse.ArgumentParser(description=__doc__, formatter_class=argparse.RawDescriptionHelpFormatter)
    parser.add_argument('application', help="the application's file or folder")
    parser.add_argument('lines', nargs='?', help='the file with the lines (default: standard input)')
    parser.add_argument('--db', metavar='FILE', help='the store that `jac why` has read')
    return parser.parse_args(words)


def main(words):
    given = options(words)
    try:
        data = assemble.read_or_exit(given.application)
        store = Store.of_file(given.db) if given.db else None
        with open(given.lines, encoding='utf-8', errors='replace') if given.lines else sys.stdin as file:
            lines = file.read().splitlines()
    except OSError as fault:
        sys.exit('why: %s: %s' % (fault.filename, fault.strerror))
    except sqlite3.Error as fault:
        sys.exit('why: %s: %s' % (given.db, fault))
    for line in Why(audit.Names(data), Policies(given.application, data), store, lines).told():
        print(line)


if __name__ == '__main__':
    signal.signal(signal.SIGPIPE, signal.SIG_DFL)
    main(sys.argv[1:])
