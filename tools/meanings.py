"""Words of other languages, and the words of this language for them, for the messages of `fault_place.py`."""

EXPRESSIONS = {
    'add': ('plus', 'sum2', 'increment', 'inc'),
    'sub': ('minus', 'subtract', 'decrement', 'dec', 'diff'),
    'mul': ('times', 'multiply', 'product'),
    'eq': ('equal', 'equals', 'is', 'same', 'matches'),
    'not (eq a b)': ('ne', 'neq', 'differs', 'unequal', 'isnt'),
    'lt': ('less', 'below', 'smaller', 'before'),
    'lt with its operands turned round': ('gt', 'greater', 'more', 'above', 'after'),
    'not (lt b a)': ('le', 'lte', 'leq'),
    'not (lt a b)': ('ge', 'gte', 'geq'),
    'cat': ('concat', 'concatenate', 'append', 'join', 'format', 'strcat', 'string-append'),
    'str': ('string', 'text', 'to-string', 'tostring', 'to_string', 'show', 'int-to-text'),
    'pick': ('cond', 'choose', 'ternary', 'case', 'when', 'select', 'if'),
    'count': ('length', 'len', 'size', 'number', 'total'),
    'sum': ('total-of', 'add-up', 'sum-of'),
    'some': ('exists', 'any', 'contains', 'has', 'in', 'exist', 'nonempty'),
    'not (some ..) of what is not so': ('all', 'every', 'forall', 'none-of'),
    'first': ('find', 'head', 'top', 'one', 'get-first', 'max', 'min', 'last', 'lookup'),
    'none': ('null', 'nil', 'nothing', 'empty', 'undefined'),
    'live': ('defined', 'is-live', 'alive', 'present', 'is-set', 'not-null'),
    'get': ('field', 'read', 'ref', 'dot', 'access', 'attr', 'load', 'fetch'),
}
STATEMENTS = {
    'put': ('print', 'echo', 'write', 'output', 'say', 'emit', 'puts', 'text', 'html'),
    'esc': ('escape', 'escaped', 'h', 'quote'),
    'let': ('var', 'def', 'define', 'val', 'const', 'local', 'bind'),
    'assign': ('set', 'set!', 'store', 'change'),
    'if': ('when', 'unless', 'cond', 'case', 'switch', 'else'),
    'for': ('foreach', 'each', 'while', 'loop', 'from', 'map', 'do'),
    'create': ('insert', 'new', 'make', 'add', 'add-record'),
    'update': ('edit', 'modify', 'save', 'put-field', 'replace'),
    'delete': ('remove', 'drop', 'destroy', 'erase'),
    'missing': ('notfound', 'not-found', 'not_found', '404', 'abort', 'fail', 'deny', 'error'),
    'redirect': ('goto', 'go', 'location', 'forward', 'return', 'send'),
    'template': ('render', 'page', 'include', 'view'),
}
KINDS = {
    'int': ('integer', 'number', 'num', 'long', 'float', 'double', 'decimal', 'i64', 'u64'),
    'text': ('string', 'str', 'varchar', 'char', 'date', 'datetime', 'time', 'bytes', 'json'),
    'bool': ('boolean', 'truth', 'flag', 'bit'),
    '(ref MODEL)': ('ref', 'reference', 'id', 'key', 'foreign', 'link'),
}


def meant(word, meanings):
    """The word of this language for a word of another language, or None."""
    plain = word.lower().rstrip('?')
    return next((here for here, others in meanings.items() if plain in others), None)
