#!/usr/bin/env python3
"""Makes a new application in a folder: pages with a layout, a policy, two people to log in as, and a walk that passes.

FOLDER is made if it doesn't exist. Otherwise it must be empty. Its README.md says what to type next. Nothing is run."""
import argparse
import os
import re
import sys

TOP = os.path.dirname(os.path.dirname(os.path.abspath(__file__)))
TEMPLATE = os.path.join(TOP, 'tools', 'new')


def parts():
    """The paths of the template's files in the template."""
    for folder, _, names in os.walk(TEMPLATE):
        for name in names:
            yield os.path.relpath(os.path.join(folder, name), TEMPLATE)


def path_from(folder, path):
    """A path as it is typed in the folder. It is relative if the folder is in this clone."""
    inside = os.path.commonpath([os.path.realpath(folder), os.path.realpath(TOP)]) == os.path.realpath(TOP)
    return os.path.relpath(path, folder) if inside else path


def values(folder):
    """The values of the template's marks. The site is named after the folder."""
    name = re.sub('[^A-Za-z0-9]+', '-', os.path.basename(os.path.abspath(folder))).strip('-') or 'notes'
    site = name.replace('-', ' ')
    return {'name': name, 'site': site[0].upper() + site[1:], 'jac': path_from(folder, os.path.join(TOP, 'jac')),
            'tools': path_from(folder, os.path.join(TOP, 'tools'))}


def make(folder):
    """Writes the files. None of them may exist yet."""
    os.makedirs(os.path.join(folder, 'pages'), exist_ok=True)
    marks = values(folder)
    for path in sorted(parts()):
        with open(os.path.join(TEMPLATE, path), encoding='utf-8') as file:
            text = re.sub('@([a-z]+)@', lambda found: marks[found.group(1)], file.read())
        with open(os.path.join(folder, path), 'x', encoding='utf-8') as file:
            file.write(text)


def main():
    words = argparse.ArgumentParser(prog='new', description=__doc__,
                                    formatter_class=argparse.RawDescriptionHelpFormatter)
    words.add_argument('folder', metavar='FOLDER', help='the folder to make')
    folder = words.parse_args().folder
    try:
        if os.path.exists(folder) and (not os.path.isdir(folder) or os.listdir(folder)):
            print('new: %s is there, and is no empty folder: nothing was written' % folder, file=sys.stderr)
            return 2
        make(folder)
    except OSError as error:
        print('new: %s' % error, file=sys.stderr)
        return 2
    print('%s is made; %s says what to type next' % (folder, os.path.join(folder, 'README.md')))
    return 0


if __name__ == '__main__':
    sys.exit(main())
