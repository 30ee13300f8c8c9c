#!/usr/bin/env python3
"""Prints the lines of an audit in words: who made the request, the reply's status, and which guarded fields or hidden
records were shown to the viewer.

Arguments: the application's file or folder, the audit, and optionally the events that were answered. If all events are
`ask` lines, the method and path of each request are printed too.

A line of an audit is `K STATUS VIEWER SHOWN`: the number of the reply, its status, the viewer's record or `-`, and the
labels that were shown. A label belongs to a group of a record. If the label is in the line, the page used the actual
values of the group's fields. If it isn't, the page used their public values."""
import os
import re
import signal
import sys

sys.dont_write_bytecode = True
sys.path.insert(0, os.path.dirname(os.path.abspath(__file__)))
from arguments import script_parser                                         # noqa: E402
import assemble                                                             # noqa: E402
import fault_place                                                          # noqa: E402


# the id of a record made in a loop is its own number, plus this times the id of the loop's record
LOOP = 2 ** 52


class Names:
    """The meaning of the numbers of records and labels in an application."""

    def __init__(self, data):
        checker = fault_place.Checker(fault_place.read_tree(data, list(range(len(data) + 1))))
        self.models = [model.children[1].value for model in checker.models]
        self.groups = [[self.parts(group) for group in fault_place.groups_in(model)] for model in checker.models]

    @staticmethod
    def parts(group):
        return ['the record'] if fault_place.hides(group) else [guard.children[0].value for guard in fault_place.guards_in(group)]

    def record(self, number):
        model, post, around = number % 64, number % LOOP // 4096, number // LOOP
        if model >= len(self.models) or post == 0:
            return 'record %d' % number
        return '%s %d (made by POST %d%s)' % (
            self.models[model], number, post, ' around %s' % self.name(around) if around else '')

    def name(self, number):
        model = number % 64
        return '%s %d' % (self.models[model] if model < len(self.models) else 'record', number)

    def label(self, number):
        record, group = number // 8, number % 8
        model = record % 64
        if model >= len(self.models) or group >= len(self.groups[model]):
            return 'label %d' % number, ''
        return self.record(record), ', '.join(self.groups[model][group])


def asked(path):
    """The method and path of each request, by the number of its reply. Empty if an event isn't an `ask` line."""
    with open(path, encoding='utf-8', errors='replace') as file:
        lines = [line for line in file.read().split('\n') if line]
    asks = [re.fullmatch(r'ask \S+ ([A-Z]+) "([^"]*)" ".*"', line) for line in lines]
    return {number: '%s %s' % found.groups() for number, found in enumerate(asks, 1)} if all(asks) else {}


def told(names, line, asks):
    found = re.fullmatch(r'(\d+) (\d+) (-|\d+) (-|nopage|\d+(?:,\d+)*)', line)
    if not found:
        return 'not a line of an audit: ' + line
    number, status, viewer, labels = found.groups()
    who = 'nobody' if viewer == '-' else names.record(int(viewer))
    head = 'reply %s: %s%s for %s' % (number, status, ' to ' + asks[int(number)] if int(number) in asks else '', who)
    if labels == 'nopage':
        return head + ': no page'
    if labels == '-':
        return head + ', who is shown nothing that is guarded'
    shown = {}
    for label in labels.split(','):
        record, fields = names.label(int(label))
        shown.setdefault(record, []).append(fields)
    return '\n'.join([head + ', who is shown'] + ['    %s%s' % (record, ': ' + ', '.join(fields) if any(fields) else '')
                                                    for record, fields in shown.items()])


def main(words):
    parser = script_parser()
    parser.add_argument('application', metavar='APP', help='the file or the folder of the application')
    parser.add_argument('audit', metavar='AUDIT', help='the file of the audit')
    parser.add_argument('events', metavar='EVENTS', nargs='?', help='the file of the events that were answered')
    given = parser.parse_args(words)
    names = Names(assemble.read_or_exit(given.application))
    asks = {} if given.events is None else asked(given.events)
    with open(given.audit, encoding='utf-8', errors='replace') as file:
        for line in file.read().split('\n'):
            if line:
                print(told(names, line, asks))


if __name__ == '__main__':
    signal.signal(signal.SIGPIPE, signal.SIG_DFL)
    main(sys.argv[1:])
