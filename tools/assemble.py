#!/usr/bin/env python3
"""Joins the parts of an application's folder to one text, and writes the text to standard output.

The folder has the application's text in `main` (or in `app`, if there is no `main`), and its HTML files in `pages`.
Jinja2 joins them. Its delimiters differ from those of the language's templates:

    [% extends "layout.html" %]    a block of Jinja2: extends, block, include, import, macro, set, if, for, raw
    [[ title ]]                    a value
    [# comment #]                  a comment, which is removed
    [[ page("list.html") ]]        in `main`: a template with the content of this file; further arguments are the file's
                                   values, as in [[ page("list.html", title="People") ]]

The exit status is 65 if Jinja2 finds a fault (standard error has its file and line), 69 if Jinja2 isn't installed, and
otherwise 0. Other scripts call `read`, which takes a file or a folder."""
import argparse
import bisect
import os
import re
import sys
import traceback

FAULT, UNAVAILABLE = 65, 69
DEBIAN = '/usr/lib/python3/dist-packages'
MARK = re.compile('\0([0-9]+)(p?)\0')


class Fault(Exception):
    """The reason why a folder can't be joined: a message with its place, and the exit status."""

    def __init__(self, words, status=FAULT):
        super().__init__(words)
        self.status = status


class Application(bytes):
    """The text of an application that was joined from parts, with the place of each byte in its part."""

    def __new__(cls, data, pieces):
        text = super().__new__(cls, data)
        text.pieces = pieces
        text.starts = [piece.start for piece in pieces]
        return text

    def piece(self, at):
        """The piece that a byte of the text comes from, or None if it isn't known."""
        found = bisect.bisect_right(self.starts, at) - 1
        return self.pieces[found] if found >= 0 else None

    def place(self, at):
        """The file, the line and the column of a byte of the text, or None if they aren't known."""
        piece = self.piece(at)
        if piece is None:
            return None
        before = self[piece.start:at].decode('utf-8', 'replace')
        offset = len(re.sub(r'\\(.)', r'\1', before) if piece.is_page else before)
        return piece.path, piece.line, piece.column + (0 if piece.is_value else offset)


class Piece:
    """The bytes of a text, from `start` on, that come from one line of a part."""

    def __init__(self, path, line, column, is_value):
        self.path, self.line, self.column, self.is_value = path, line, column, is_value
        self.start, self.is_page = None, False

    def at(self, start, is_page):
        piece = Piece(self.path, self.line, self.column, self.is_value)
        piece.start, piece.is_page = start, is_page
        return piece


def main_part(path):
    """The name of the main part of a folder, or None if the path isn't the folder of an application."""
    names = [name for name in ('main', 'app') if os.path.isfile(os.path.join(path, name))]
    return names[0] if os.path.isdir(path) and names else None


def read(path):
    """The text of the application in a file or a folder. Raises `Fault` if the folder can't be joined."""
    if main_part(path):
        return assembled(path)
    with open(path, 'rb') as file:
        return file.read()


def read_or_exit(path):
    """The same for a script. A fault is printed on standard error, and ends the script."""
    try:
        return read(path)
    except Fault as fault:
        print(fault, file=sys.stderr)
        sys.exit(fault.status)


def path_of(data):
    """A path by which this process and its child processes read the text. The file has no name of its own, and is gone
    after the last of these processes ends."""
    number = os.memfd_create('application', 0)
    with open(number, 'wb', closefd=False) as file:
        file.write(data)
    return '/proc/self/fd/%d' % number


def with_debian(name):
    """Imports a module that may be installed only for Debian's own Python."""
    try:
        return __import__(name)
    except ImportError:
        sys.path.append(DEBIAN)
        try:
            return __import__(name)
        finally:
            sys.path.remove(DEBIAN)


def jinja(folder):
    try:
        with_debian('jinja2')
        import jinja2.ext
        import jinja2.sandbox
        return jinja2
    except ImportError:
        raise Fault('jac: %s is a folder, and Jinja2, which puts it together, is not installed: '
                    'apt-get install python3-jinja2' % folder, UNAVAILABLE) from None


def quoted(text):
    """The template statement with this text."""
    text = text.replace('\\', '\\\\').replace('"', '\\"')
    return '(template "%s")' % MARK.sub('\0\\1p\0', text)


def environment(jinja2, folder, extensions):
    """Jinja2 with the delimiters of a folder, in a sandbox, so that an untrusted folder can't run code."""
    parts = jinja2.sandbox.SandboxedEnvironment(
        loader=loader(jinja2, [os.path.join(folder, 'pages'), folder]), undefined=jinja2.StrictUndefined,
        block_start_string='[%', block_end_string='%]', variable_start_string='[[', variable_end_string=']]',
        comment_start_string='[#', comment_end_string='#]', trim_blocks=True, lstrip_blocks=True,
        keep_trailing_newline=True, extensions=extensions)
    parts.globals['page'] = lambda name, **values: quoted(parts.get_template(name).render(**values))
    return parts


def loader(jinja2, folders):
    class Loader(jinja2.FileSystemLoader):
        def get_source(self, environment, template):
            try:
                return super().get_source(environment, template)
            except UnicodeDecodeError as fault:
                line = fault.object.count(b'\n', 0, fault.start) + 1
                path = next(path for path in (os.path.join(one, template) for one in folders) if os.path.isfile(path))
                raise Fault('%s:%d: this part is not UTF-8' % (path, line)) from None
    return Loader(folders)


def marking(jinja2, pieces):
    """The Jinja2 extension that puts a mark with the piece's number before each piece of a part."""
    token_type = jinja2.lexer.Token

    class Marking(jinja2.ext.Extension):
        def preprocess(self, source, name, filename=None):
            self.lines, self.used = source.split('\n'), {}
            return source

        def mark(self, path, line, column, is_value=False):
            pieces.append(Piece(path, line, column, is_value))
            return '\0%d\0' % (len(pieces) - 1)

        def column(self, line, sign):
            """The column of the sign in its line. The search begins after the last sign that was found in this line."""
            text = self.lines[line - 1] if line <= len(self.lines) else ''
            found = text.find(sign, self.used.get(line, 0))
            self.used[line] = found + len(sign) if found >= 0 else self.used.get(line, 0)
            return max(found, 0) + 1

        def filter_stream(self, stream):
            path = stream.filename or stream.name
            for token in stream:
                if token.type == 'data':
                    texts = token.value.split('\n')
                    marked = [self.mark(path, token.lineno + number, 1 if number else self.column(token.lineno, text))
                              + text for number, text in enumerate(texts)]
                    self.column(token.lineno + len(texts) - 1, texts[-1])
                    token = token_type(token.lineno, 'data', '\n'.join(marked))
                elif token.type == 'variable_begin':
                    column = self.column(token.lineno, '[[')
                    yield token_type(token.lineno, 'data', self.mark(path, token.lineno, column, True))
                elif token.type in ('variable_end', 'block_end'):
                    self.column(token.lineno, ']]' if token.type == 'variable_end' else '%]')
                yield token
    return Marking


def rendered(jinja2, folder, name, pieces=None):
    extensions = [] if pieces is None else [marking(jinja2, pieces)]
    return environment(jinja2, folder, extensions).get_template(name).render()


def unmarked(text, pieces):
    """The text without its marks, and the pieces with their places in it."""
    data, placed, at = bytearray(), [], 0
    for found in MARK.finditer(text):
        data += text[at:found.start()].encode()
        placed.append(pieces[int(found.group(1))].at(len(data), bool(found.group(2))))
        at = found.end()
    return bytes(data + text[at:].encode()), placed


def assembled(folder):
    """The text that the folder is joined to. Its places are unknown if marks would change the text, for example because
    a part uses the length of a macro's text."""
    jinja2, name = jinja(folder), main_part(folder)
    try:
        data, pieces = rendered(jinja2, folder, name).encode(), []
        marked, placed = unmarked(rendered(jinja2, folder, name, pieces), pieces)
    except Fault:
        raise
    except Exception as error:
        raise Fault(fault_words(jinja2, folder, name, error)) from None
    return Application(data, placed if marked == data else [])


def fault_words(jinja2, folder, name, error):
    """The message of a fault of Jinja2, with its file and line and the text of this line."""
    if isinstance(error, jinja2.TemplateSyntaxError):
        path, line, words = error.filename or os.path.join(folder, error.name or name), error.lineno, error.message
    else:
        frames = [(frame.filename, frame.lineno) for frame in traceback.extract_tb(error.__traceback__)
                  if frame.filename.startswith(os.path.join(folder, '')) and not frame.filename.endswith('.py')]
        path, line = frames[-1] if frames else (os.path.join(folder, name), 1)
        words = str(error) or type(error).__name__
        if isinstance(error, jinja2.TemplateNotFound):
            words = 'there is no part %s in %s' % (error.name, os.path.join(folder, 'pages'))
        elif isinstance(error, RecursionError):
            words = 'a part includes itself without an end'
    try:
        text = '\n    ' + line_of(path, line).strip()
    except (OSError, IndexError, UnicodeDecodeError):
        text = ''
    return '%s:%d: %s%s' % (path, line, words, text)


def line_of(path, line):
    with open(path, encoding='utf-8') as file:
        return file.read().split('\n')[line - 1]


def write_map(data, path):
    with open(path, 'w', encoding='utf-8') as file:
        at = 0
        for number, line in enumerate(data.split(b'\n'), 1):
            place = data.place(at)
            if place and (line or at < len(data)):
                file.write('%d %s %d\n' % (number, *place[:2]))
            at += len(line) + 1


def main():
    parser = argparse.ArgumentParser(description=__doc__, formatter_class=argparse.RawDescriptionHelpFormatter)
    parser.add_argument('folder', metavar='FOLDER', help='the folder of the application')
    parser.add_argument('--map', metavar='FILE', help='write for each line of the text its number, and the file and '
                        'the line of the part that its first byte comes from')
    words = parser.parse_args()
    if not main_part(words.folder):
        sys.exit('assemble: %s is no folder that has a file main or app' % words.folder)
    data = read_or_exit(words.folder)
    if words.map:
        write_map(data, words.map)
    sys.stdout.buffer.write(data)


if __name__ == '__main__':
    main()
