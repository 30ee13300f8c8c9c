"""Asks `jac why` and `tools/why.py` what a viewer is shown of a store, and what is hidden."""
import os
import re
import subprocess
import sys

WHY = os.path.join(os.path.dirname(os.path.abspath(__file__)), 'why.py')


class Fault(Exception):
    """The program failed: the line that it printed, and its standard error."""

    def __init__(self, line, told):
        super().__init__('\n'.join(part for part in (line, told) if part))


def output_of(words):
    """The exit status of a command, its standard output and its standard error."""
    done = subprocess.run(words, stdin=subprocess.DEVNULL, stdout=subprocess.PIPE, stderr=subprocess.PIPE, check=False)
    out, told = (text.decode('utf-8', 'replace').rstrip('\n') for text in (done.stdout, done.stderr))
    return done.returncode, out, told


def labels_of(text):
    return [] if text in ('-', 'nopage') else [int(label) for label in text.split(',')]


def asked(program, command, text, word, store):
    """The lines that a command prints about a store."""
    status, out, told = output_of([program, command, '--db', store, '--', text, word])
    if status:
        raise Fault(out[-500:], told)
    return out.split('\n')


def why(program, text, app, viewer, store):
    """The labels that the viewer is shown, and for each other label the reason in words. `text` is the file with the
    application's text, and `app` is its name in messages."""
    lines = asked(program, 'why', text, viewer, store)
    hidden = [int(line.partition(' ')[0]) for line in lines[1:]]
    with open(store + '-lines', 'w', encoding='utf-8') as file:
        file.write('\n'.join(lines) + '\n')
    blocks = in_words(app, text, store, len(hidden))
    return labels_of(lines[0].partition(' ')[2]), dict(zip(hidden, blocks))


def in_words(app, text, store, count):
    """What `why.py` prints about each of `count` hidden labels, or '' for each if it fails. A line that isn't indented
    begins the text about the next label."""
    for words in [app, store + '-lines', '--db', store], [text, store + '-lines', '--db', store], [text,
                                                                                                   store + '-lines']:
        status, out, _ = output_of([sys.executable, WHY, *words])
        blocks = [block for block in re.findall(r'(?m)^\S.*(?:\n[ \t].*)*', out) if block.startswith('hidden stays ')]
        if status == 0 and len(blocks) == count:
            return [reason(block).replace(text, app) for block in blocks]
    return [''] * count


def reason(block):
    """The lines after the first one, each without the first four columns, which are indent."""
    return '\n'.join(line[4:].rstrip() for line in block.split('\n')[1:])
