"""The filter's five files as texts: each record in words on a line, and the bytes that it stands for. tools/texts.py has the words.

A text's first line says which file it is. A CLASS, NAME, VALUE and so on are written as tools/texts.py says. NAME may be a number.

catalogue   table NAME class CLASS rows always CLASS      the rows' class is always this one
            table NAME class CLASS rows upto CLASS        each row stores its own, up to this one
            column NAME TYPE cells always|upto CLASS      TYPE: boolean, fixed DIGITS PLACES, time FORMAT, interval FORMAT, class
view        select tables N values N                      then the tables, the where, the values
            exists tables N, count DIGITS tables N        then the tables, the where
            value tables N, max tables N, min tables N    then the tables, the where, the value
            table NAME, col NAME [of TABLE], classof NAME [of TABLE], let NAME, if, not
            plus minus times divide and or < <= = <> >= >
            null, true, false, fixed DIGITS PLACES VALUE, time FORMAT VALUE, interval FORMAT VALUE, class CLASS
tree        the same, with plus DIGITS, table N, data N N N, cellclass N N N, rowclass N N, local N, localclass N,
            conv DIGITS PLACES, bind, bindc, lub, dom, agg tables N
store       catalogue FILE                                the types and classes of the cells come from here
            table NAME                                    the rows of the next table follow
            row CLASS CELL ..                             a CELL is VALUE@CLASS, or VALUE where the class is always the same
answer      row CELL ..                                   a CELL is VALUE@CLASS or `withheld`, its value a plain number

A record of a catalogue, view or tree that no words say is written `record KIND OP A B C`."""
import struct

from records import depths, fields, record_of, said, typed
from texts import HIGH, LOW, Bad, Words, beside, decimal, number, opened, pointed, with_line

MARKS = {'view': b'DRQ\0', 'catalogue': b'DRC\0', 'tree': b'DRT\0', 'store': b'DRS\0', 'answer': b'DRA\0'}


# Catalogues as tables with columns

class Table:
    def __init__(self, name, op, bound, own):
        self.name, self.op, self.bound, self.own, self.columns = name, op, bound, own, []


class Column:
    def __init__(self, name, op, bound, kind):
        self.name, self.op, self.bound, self.type = name, op, bound, kind


def tables_of(data):
    """The tables of a catalogue file; as many as can be read of a bad one."""
    tables = []
    for i in range(8, len(data) - 7, 8):
        kind, op, a, b, c = fields(data[i:i + 8])
        if kind == 1:
            tables.append(Table(a, op, b, c))
        elif kind == 2 and tables:
            tables[-1].columns.append(Column(a, op, b, c))
    return tables


# Stores and answers

def cell(mark, c, value):
    return struct.pack('<BBHi', mark, 0, c, value)


def value_of(word, t, words):
    """A value of a column's type, or of none: its number."""
    kind, low = (t or 0) >> 8, (t or 0) & 255
    if kind == 1 and word in ('true', 'false'):
        return (word == 'true') * 1
    if kind == 2:
        return decimal(word, low & 15)
    if kind == 3:
        return words.time_of(low, word)
    if kind == 5 and not word.isdigit():
        return words.class_of(word)
    return number(word, LOW, HIGH, typed(t) if t and typed(t) else 'a value')


def value_said(value, t, words):
    kind, low = (t or 0) >> 8, (t or 0) & 255
    if kind == 1 and value in (0, 1):
        return ('false', 'true')[value]
    if kind == 2:
        return pointed(value, low & 15)
    if kind == 3:
        return words.timed(low, value)
    return words.classed(value) if kind == 5 and 0 <= value <= 65535 else str(value)


def cell_of(word, column, words):
    value, at, own = word.partition('@')
    if at:
        c = words.class_of(own)
    elif column and column.op == 0:
        c = column.bound
    else:
        raise Bad(f'`{word}` has no class: write it as {word}@CLASS')
    return cell(1, c, 0) if value == 'null' else cell(0, c, value_of(value, column and column.type, words))


def cell_said(b, column, words):
    mark, zero, c, value = struct.unpack('<BBHi', b)
    if zero or mark > 1 or mark == 1 and value:
        raise Bad(f'no words say a cell of mark {mark}, zero byte {zero}, value {value}')
    text = 'null' if mark else value_said(value, column and column.type, words)
    return text if column and column.op == 0 and column.bound == c else f'{text}@{words.classed(c)}'


def row_of(line, table, words):
    body = struct.pack('<H', words.class_of(line.take("the row's class")))
    if table is None:
        columns = [None] * (len(line.words) - line.at)
    else:
        columns = table.columns
    for i, column in enumerate(columns):
        what = f'cell {i + 1} of {len(columns)}'
        body += in_cell(what + (f', {words.named(column.name)}' if column else ''), lambda: cell_of(line.take(what), column, words))
    line.end()
    return body


def in_cell(what, work):
    try:
        return work()
    except Bad as why:
        raise Bad(f'{what}: {why}') from None


class Store:
    """A store as its lines come."""

    def __init__(self, path, words, catalogue):
        self.path, self.words, self.given = path, words, catalogue is not None
        self.tables, self.counts, self.rows = None, [], []
        if catalogue:
            self.over(catalogue)

    def over(self, catalogue):
        if catalogue.data[:4] != MARKS['catalogue']:
            raise Bad('it is not a catalogue')
        self.words.take_in(catalogue.words)
        self.tables = tables_of(catalogue.data)

    def line(self, line):
        kind = line.take('a line')
        if kind == 'catalogue':
            self.named_catalogue(line)
        elif kind == 'table':
            self.table(line)
        elif kind == 'row' and self.counts:
            table = self.tables[len(self.counts) - 1] if self.tables is not None else None
            self.rows[-1] += row_of(line, table, self.words)
            self.counts[-1] += 1
        elif kind == 'row':
            raise Bad('a row stands before the first `table`')
        else:
            raise Bad(f'`{kind}` is not a line of a store: catalogue, table, row')

    def named_catalogue(self, line):
        other = line.rest('a file')
        if self.counts:
            raise Bad('`catalogue` stands before the first table')
        if not self.given:
            self.over(read(beside(self.path, other)))

    def table(self, line):
        at = len(self.counts)
        if self.tables is not None:
            if at == len(self.tables):
                raise Bad(f'the catalogue has {at} tables, and this is one more')
            name = self.words.name(line, "the table's name")
            if name != self.tables[at].name:
                raise Bad(f'`{self.words.named(name)}` stands where table `{self.words.named(self.tables[at].name)}` is wanted: the tables stand in the order of the catalogue')
        elif line.more():
            line.take('a name')
        line.end()
        self.counts.append(0)
        self.rows.append(b'')

    def data(self):
        if self.tables is not None and len(self.counts) < len(self.tables):
            raise Bad(f'no line `table {self.words.named(self.tables[len(self.counts)].name)}`: a table without rows has its line too')
        if any(n > 65535 for n in self.counts):
            raise Bad('a table has more than 65535 rows')
        return len(self.counts), b''.join(struct.pack('<H', n) + rows for n, rows in zip(self.counts, self.rows))


class Answer:
    """An answer as its lines come."""

    def __init__(self, words):
        self.words, self.rows, self.width = words, [], None

    def line(self, line):
        line.keyword('row')
        if self.width not in (None, len(line.words) - 1):
            raise Bad(f'{len(line.words) - 1} cells, where the rows above have {self.width}')
        self.width = len(line.words) - 1
        self.rows.append(b''.join(cell(2, 0, 0) if word == 'withheld' else cell_of(word, None, self.words) for word in line.words[1:]))

    def data(self):
        return len(self.rows), b''.join(self.rows)


class Records:
    """The records of a catalogue, a view or a tree as they come."""

    def __init__(self, file, words):
        self.file, self.words, self.records = file, words, []

    def line(self, line):
        self.records.append(record_of(self.file, line, self.words))

    def data(self):
        return len(self.records), b''.join(self.records)


class Packed:
    """A file's bytes, with the words and the line numbers of the text that they come from, if they do."""

    def __init__(self, data, words=None, lines=None):
        self.data, self.words, self.lines = data, words or Words(), lines or []


def packed_text(path, data=None, catalogue=None):
    """The file that a text stands for; a store's text names its catalogue, unless one is given."""
    kind, words, lines = opened(path, data)
    if kind == 'names':
        raise Bad(f'{path} holds names alone, and no file')
    made = Store(path, words, catalogue) if kind == 'store' else Answer(words) if kind == 'answer' else Records(kind, words)
    for at, line in lines:
        with_line(path, at, lambda: made.line(line))
    n, body = with_line(path, len(lines) and lines[-1][0], made.data)
    if n > 65535:
        raise Bad(f'{path}: {n} records are more than 65535')
    return Packed(MARKS[kind] + struct.pack('<HH', 1, n) + body, words, [at for at, _ in lines])


def is_text(data):
    """A packed file has a zero byte in its header; a text has none."""
    try:
        data.decode()
    except UnicodeDecodeError:
        return False
    return len(data) > 0 and b'\0' not in data


def read(path):
    """A file as it is, or packed from a text."""
    with open(path, 'rb') as f:
        data = f.read()
    return packed_text(path, data) if is_text(data) else Packed(data)


def unpacked(data, words, more=None, path=None):
    """The text of a file: `more` is a store's catalogue file (at `path`), or an answer's number of columns."""
    kind = next((k for k in MARKS if data[:4] == MARKS[k]), None)
    if kind is None or len(data) < 8 or data[4:6] != b'\1\0':
        raise Bad('its first eight bytes are not those of a file of version 1')
    n, body = struct.unpack('<H', data[6:8])[0], data[8:]
    if kind == 'store':
        lines = store_lines(n, body, words, tables_of(more))
        lines.insert(0, f'catalogue {path}')
    elif kind == 'answer':
        lines = answer_lines(n, body, words, more)
    else:
        lines = record_lines(kind, n, body, words)
    return '\n'.join([kind] + words.declarations() + lines) + '\n'


def record_lines(kind, n, body, words):
    if len(body) != 8 * n:
        raise Bad(f'{len(body)} bytes follow the header, where {n} records take {8 * n}')
    records = [body[i:i + 8] for i in range(0, len(body), 8)]
    deep = [fields(r)[0] == 2 for r in records] if kind == 'catalogue' else depths(kind, records)
    return ['  ' * d + said(kind, r, words) for r, d in zip(records, deep)]


def store_lines(n, body, words, tables):
    if n != len(tables):
        raise Bad(f'a store of {n} tables, where the catalogue has {len(tables)}')
    lines, at = [], 0
    for table in tables:
        rows = short(body, at)
        at += 2
        lines.append(f'table {words.named(table.name)}')
        for _ in range(rows):
            cells = [words.classed(short(body, at))]
            at += 2
            for column in table.columns:
                cells.append(cell_said(piece(body, at, 8), column, words))
                at += 8
            lines.append('  row ' + ' '.join(cells))
    if at != len(body):
        raise Bad(f'{len(body) - at} bytes follow the last row')
    return lines


def answer_lines(n, body, words, columns):
    if len(body) != 8 * n * columns:
        raise Bad(f'{len(body)} bytes follow the header, where {n} rows of {columns} cells take {8 * n * columns}')
    cells = [body[i:i + 8] for i in range(0, len(body), 8)]
    texts = ['withheld' if b == cell(2, 0, 0) else cell_said(b, None, words) for b in cells]
    return ['row ' + ' '.join(texts[i:i + columns]) for i in range(0, len(texts), columns)]


def short(body, at):
    return struct.unpack('<H', piece(body, at, 2))[0]


def piece(body, at, length):
    if at + length > len(body):
        raise Bad('the file ends too early')
    return body[at:at + length]
