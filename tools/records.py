"""The records of catalogues, views and trees: each in words on a line, and the eight bytes that it stands for. tools/packing.py says how."""
import struct

from texts import HIGH, LOW, Bad, Line, decimal, pointed

OPS = ['plus', 'minus', 'times', 'divide', 'and', 'or', '<', '<=', '=', '<>', '>=', '>']
ALONE = {'null': 1, 'not': 8, 'if': 9, 'bind': 23, 'bindc': 24, 'lub': 25, 'dom': 26}
BLOCKS = {'exists': 10, 'value': 11, 'agg': 27, 'count': 28, 'max': 29, 'min': 30}
BLOCK_WORDS = {kind: word for word, kind in BLOCKS.items()}
PARTS = {10: ['where'], 11: ['where', 'value'], 27: ['class'], 28: ['where'], 29: ['where', 'value'], 30: ['where', 'value']}
PLACES = {'data': (17, 3), 'cellclass': (18, 3), 'rowclass': (19, 2), 'local': (20, 1), 'localclass': (21, 1)}
TYPES = {1: 'boolean', 2: 'fixed', 3: 'time', 4: 'interval', 5: 'class'}
TREE_ONLY = list(PLACES) + ['agg', 'bind', 'bindc', 'lub', 'dom', 'conv']
CHILDREN = {7: 2, 8: 1, 9: 3, 16: 2, 22: 1, 23: 2, 24: 3, 25: 2, 26: 2}


def record(kind, op=0, a=0, b=0, c=0):
    return struct.pack('<BBHHH', kind, op, a, b, c)


def fields(r):
    return struct.unpack('<BBHHH', r)


def field(line, what):
    return line.number(0, 65535, what)


def digits(line):
    p = line.number(0, 15, 'the number of digits')
    return 16 * p + line.number(0, 15, 'the number of decimal places')


def form(line):
    return line.number(0, 255, 'a format')


def constant(kind, op, value):
    return record(kind, op, 0, value & 65535, value >> 16 & 65535)


# Catalogues

def type_of(line):
    word = line.take('a type')
    if word not in TYPES.values():
        raise Bad(f'`{word}` is not a type: ' + ', '.join(TYPES.values()))
    kind = next(k for k in TYPES if TYPES[k] == word)
    return 256 * kind + (digits(line) if kind == 2 else form(line) if kind in (3, 4) else 0)


def typed(t):
    """A type in words; None for a number that is no type."""
    kind, low = t >> 8, t & 255
    if kind == 2:
        return f'fixed {low >> 4} {low & 15}'
    if kind in (3, 4):
        return f'{TYPES[kind]} {low}'
    return TYPES[kind] if kind in TYPES and low == 0 else None


def kept_class(line, words):
    stored = line.keyword('always', 'upto') == 'upto'
    return stored * 1, words.class_of(line.take('a class'))


def catalogue_record(line, words):
    kind = line.take('a record')
    if kind == 'table':
        a = words.name(line, "a table's name")
        line.keyword('class')
        c = words.class_of(line.take('a class'))
        line.keyword('rows')
    elif kind == 'column':
        a = words.name(line, "a column's name")
        c = type_of(line)
        line.keyword('cells')
    else:
        raise Bad(f'`{kind}` is not a record of a catalogue: table, column')
    op, b = kept_class(line, words)
    return record(1 if kind == 'table' else 2, op, a, b, c)


def catalogue_said(r, words):
    kind, op, a, b, c = fields(r)
    how = f'{("always", "upto")[op & 1]} {words.classed(b)}'
    if kind == 1:
        return f'table {words.named(a)} class {words.classed(c)} rows {how}'
    return f'column {words.named(a)} {typed(c)} cells {how}'


# Views and trees

def tree_record(line, words):
    """A record of a tree; those of a view too, but for its names."""
    kind = line.take('a record')
    if kind in ALONE:
        return record(ALONE[kind])
    if kind in ('true', 'false'):
        return record(2, kind == 'true')
    if kind == 'fixed':
        op = digits(line)
        return constant(3, op, decimal(line.take('a value'), op % 16))
    if kind == 'time':
        op = form(line)
        return constant(4, op, words.time_of(op, line.take('a value')))
    if kind == 'interval':
        return constant(5, form(line), line.number(LOW, HIGH, 'an interval'))
    if kind == 'class':
        return record(6, 0, words.class_of(line.take('a class')))
    if kind in OPS:
        return record(7, OPS.index(kind) + 1, field(line, 'the number of digits') if line.more() else 0)
    if kind in BLOCKS or kind == 'select':
        return block_record(kind, line)
    if kind == 'table':
        return record(12, 0, field(line, "a table's number"))
    if kind in PLACES:
        return record(PLACES[kind][0], 0, *(field(line, 'a place') for _ in range(PLACES[kind][1])))
    if kind == 'conv':
        return record(22, digits(line))
    if kind in ('let', 'col', 'classof'):
        raise Bad(f'`{kind}` is a record of a view, not of a tree')
    raise Bad(f'`{kind}` is not a record')


def block_record(kind, line):
    op = 16 * line.number(0, 15, 'the number of digits') if kind == 'count' else 0
    line.keyword('tables')
    tables = field(line, 'a number of tables')
    if kind != 'select':
        return record(BLOCKS[kind], op, tables)
    line.keyword('values')
    return record(13, 0, tables, field(line, 'a number of values'))


def view_record(line, words):
    kind = line.words[0]
    if kind in TREE_ONLY:
        raise Bad(f'`{kind}` is a record of a tree, not of a view')
    if kind in OPS:
        line.take('a record')
        return record(7, OPS.index(kind) + 1)
    if kind not in ('table', 'let', 'col', 'classof'):
        return tree_record(line, words)
    line.take('a record')
    if kind in ('table', 'let'):
        return record(12 if kind == 'table' else 16, 0, words.name(line, 'a name'))
    a, b = words.name(line, "a column's name"), 0
    if line.more():
        line.keyword('of')
        b = words.name(line, "a table's name")
    return record(14 if kind == 'col' else 15, 0, a, b)


def tree_said(r, words):
    kind, op, a, b, c = fields(r)
    value = struct.unpack('<i', r[4:])[0]
    for word, k in ALONE.items():
        if k == kind:
            return word
    for word, (k, n) in PLACES.items():
        if k == kind:
            return ' '.join([word] + [str(x) for x in (a, b, c)[:n]])
    said = {2: ('false', 'true')[op & 1], 3: f'fixed {op >> 4} {op & 15} {pointed(value, op & 15)}', 5: f'interval {op} {value}',
            12: f'table {a}', 13: f'select tables {a} values {b}', 22: f'conv {op >> 4} {op & 15}'}
    if kind in PARTS:
        return BLOCK_WORDS[kind] + (f' {op >> 4}' if kind == 28 else '') + f' tables {a}'
    if kind == 4:
        return f'time {op} {words.timed(op, value)}'
    if kind == 6:
        return f'class {words.classed(a)}'
    if kind == 7 and 1 <= op <= 12:
        return OPS[op - 1] + (f' {a}' if a else '')
    return said.get(kind)


def view_said(r, words):
    kind, _, a, b, _ = fields(r)
    if kind in (12, 16):
        return ('table ' if kind == 12 else 'let ') + words.named(a)
    if kind in (14, 15):
        return ('col ' if kind == 14 else 'classof ') + words.named(a) + (f' of {words.named(b)}' if b else '')
    return tree_said(r, words)


RECORDS = {'catalogue': (catalogue_record, catalogue_said), 'view': (view_record, view_said), 'tree': (tree_record, tree_said)}


def plain_record(line):
    line.take('`record`')
    kind = line.number(0, 255, 'a kind')
    return record(kind, line.number(0, 255, 'an op'), *(field(line, 'a field') for _ in range(3)))


def record_of(file, line, words):
    r = plain_record(line) if line.words[0] == 'record' else RECORDS[file][0](line, words)
    line.end()
    return r


def said(file, r, words):
    """A record in words. It is read again, and written as numbers where its words don't say it wholly."""
    try:
        text = RECORDS[file][1](r, words)
        if text and record_of(file, Line(text.split()), words) == r:
            return text
    except Bad:
        pass
    return 'record ' + ' '.join(str(x) for x in fields(r))


def children(kind, a, values):
    """How many children a record of a view or tree has, with a tables and, in SELECT, so many values."""
    if kind == 13:
        return a + 1 + values
    return a + len(PARTS[kind]) if kind in PARTS else CHILDREN.get(kind, 0)


def depths(file, records):
    """How deep each record of a view or tree stands, for its indentation; a tree's SELECT has a class beside each value."""
    left, found = [], []
    for r in records:
        while left and left[-1] == 0:
            left.pop()
        if left:
            left[-1] -= 1
        found.append(len(left))
        kind, _, a, b, _ = fields(r)
        left.append(children(kind, a, 2 * b if file == 'tree' else b))
    return found
