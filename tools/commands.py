"""Says which argument of a command is wrong, after the program has printed its usage line. This is only for messages,
because the program decides what it accepts. docs/USING.md has the rules. `checks/fault_places.py` compares the rules
here with those of the program."""
import difflib
import re

COMMANDS = {'check': ['APP'], 'replay': ['APP', 'EVENTS'], 'serve': ['APP', 'PORT', 'COUNT'], 'demo': ['N'],
            'dump': ['APP', 'LABELS'], 'upgrade': ['OLD', 'NEW'], 'why': ['APP', 'VIEWER']}
FILES = ['--db', '--sessions', '--audit']
OPTIONS = {'check': [], 'replay': FILES + ['--lazy'], 'serve': FILES + ['--lazy'], 'demo': [], 'dump': ['--db'],
           'upgrade': ['--db'], 'why': ['--db']}
FLAGS = ['--lazy']
MANY = 2 ** 128
HELP = '''what jac does; docs/USING.md says more about each command
    check APP               reads an application, and prints its first fault
    dev APP PORT            serves it to a browser on this machine while you write it
    lint APP                lists places to think about: writes, raw text, strangers
    walk APP WALK..         tests it with walks, files of requests and expected replies
    serve APP PORT COUNT    answers the requests of COUNT connections to a port
    replay APP EVENTS       answers the requests in a file of events
    dump APP LABELS         prints the records of a store as these labels show them
    why APP VIEWER          prints what a viewer isn't shown of a store, and why
    upgrade OLD NEW         converts a store from one version of an application to the next
    demo N                  answers N requests of its own
options: --db FILE, the store; --sessions FILE, who is who; --audit FILE, what was shown; --lazy'''


def whole(word, least, most):
    return re.fullmatch(r'0|[1-9][0-9]*', word) is not None and least <= int(word) <= most


def operand_words(name, word):
    """What is wrong with this word as the operand, or ''."""
    if word == '':
        return '%s is an empty name' % name
    if name == 'PORT' and not whole(word, 1, 65535):
        return 'PORT is a number from 1 to 65535, and not %s' % word
    if name == 'COUNT' and not whole(word, 1, 1000000):
        return 'COUNT, how many connections are served, is a number from 1 to 1000000, and not %s' % word
    if name == 'N' and not whole(word, 1, 2000):
        return 'N, how many requests are answered, is a number from 1 to 2000, and not %s' % word
    if name == 'VIEWER' and word != '-' and not whole(word, 0, MANY - 1):
        return 'VIEWER is the number of a record, or - for nobody, and not %s' % word
    if name == 'LABELS' and word != '-' and not all(whole(one, 0, MANY - 1) for one in word.split(',')):
        return 'LABELS are numbers joined by commas, or - for none, and not %s' % word
    return ''


def shape(command):
    return ' '.join([command] + COMMANDS[command])


def near(word, words):
    found = difflib.get_close_matches(word, words, 1, 0.6)
    return '; is it %s?' % found[0] if found else ''


def option_words(command, option):
    known = OPTIONS[command]
    if option in OPTIONS['serve']:
        return '%s takes no %s%s' % (command, option, '; it takes ' + ' '.join(known) if known else '')
    return 'there is no option %s%s' % (option, near(option, known) if known else '; %s takes none' % command)


class Words:
    """The arguments of a command, read one after another."""

    def __init__(self, command, words):
        self.command, self.left, self.operands, self.seen = command, list(words), [], []

    def fault(self):
        """A message about the first wrong argument, or ''."""
        plain = False
        while self.left:
            word = self.left.pop(0)
            if plain or word == '-' or not word.startswith('-'):
                self.operands.append(word)
            elif word == '--':
                plain = True
            else:
                wrong = self.option(word)
                if wrong:
                    return wrong
        return self.ends()

    def option(self, word):
        name, equals, value = word.partition('=')
        if name not in OPTIONS[self.command]:
            return option_words(self.command, name)
        if name in self.seen:
            return '%s is there twice' % name
        self.seen.append(name)
        if name in FLAGS:
            return '%s has no value' % name if equals else ''
        if not equals:
            if not self.left or self.left[0].startswith('-') and self.left[0] != '-':
                return '%s takes the name of a file; one that begins with - stands after =, as %s=-name' % (name, name)
            value = self.left.pop(0)
        return '%s takes the name of a file, and this one is empty' % name if value == '' else ''

    def ends(self):
        wanted = COMMANDS[self.command]
        if len(self.operands) > len(wanted):
            return '%s is one word too many: the command is %s' % (self.operands[len(wanted)], shape(self.command))
        wrong = [words for words in map(operand_words, wanted, self.operands) if words]
        if wrong:
            return '; and '.join(wrong)
        if len(self.operands) < len(wanted):
            return '%s is missing: the command is %s' % (wanted[len(self.operands)], shape(self.command))
        if self.command == 'upgrade' and '--db' not in self.seen:
            return 'upgrade asks for --db FILE, the store that is upgraded'
        return ''


def applications(words):
    """The applications among the arguments of a valid command."""
    read = Words(words[0], words[1:])
    read.fault()
    return [word for name, word in zip(COMMANDS[words[0]], read.operands) if name in ('APP', 'OLD', 'NEW')]


def events(words):
    """The file of events among the arguments of a valid command, or None."""
    read = Words(words[0], words[1:])
    read.fault()
    return dict(zip(COMMANDS[words[0]], read.operands)).get('EVENTS')


def value_of(words, option):
    """The file that this option names, or None."""
    words = words[:words.index('--')] if '--' in words else words
    for place, word in enumerate(words):
        if word == option and place + 1 < len(words):
            return words[place + 1]
        if word.startswith(option + '='):
            return word[len(option) + 1:]
    return None


def fault(words):
    """What is wrong with a command and its arguments, or ''."""
    if not words or words[0] in ('help', '--help', '-h'):
        return HELP
    if words[0] not in COMMANDS:
        return 'there is no command %s%s\n%s' % (words[0] or '""', near(words[0], [*COMMANDS, 'dev', 'lint', 'walk']), HELP)
    return Words(words[0], words[1:]).fault()
