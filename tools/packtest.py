"""The self-test of tools/pack: texts and files there and back, and a message with its line for each bad line."""
import os
import struct
import tempfile

import packing
import records
import texts
from texts import Bad

ROOT = os.path.dirname(os.path.dirname(os.path.abspath(__file__)))
EXTENSIONS = {'catalogue': 'drc', 'view': 'drq', 'store': 'drs'}

# A kind of file, a line that is bad in it, and what the message has to say.
BAD = [
    ('catalogue', 'tabel 7 class 0 rows always 0', '`tabel` is not a record of a catalogue'),
    ('catalogue', 'table parts class 0 rows always 0', '`parts` is not a known name'),
    ('catalogue', 'table 65536 class 0 rows always 0', 'outside 0 to 65535'),
    ('catalogue', 'table 7', 'the line ends where `class` is wanted'),
    ('catalogue', 'table 7 class public rows always 0', '`public` is not a level'),
    ('catalogue', 'table 7 class level16 rows always 0', 'outside 0 to 15'),
    ('catalogue', 'table 7 class level1+mark12 rows always 0', 'outside 0 to 11'),
    ('catalogue', 'table 7 class level1+mark1+mark1 rows always 0', 'twice'),
    ('catalogue', 'table 7 class 0 rows never 0', '`never` stands where `always` or `upto` is wanted'),
    ('catalogue', 'table 7 class 0 rows always 0 0', '`0` is one word too many'),
    ('catalogue', 'column 20 string cells always 0', '`string` is not a type'),
    ('catalogue', 'column 20 fixed 4 cells always 0', '`cells` is not the number of decimal places'),
    ('catalogue', 'column 20 time 256 cells always 0', 'outside 0 to 255'),
    ('catalogue', 'record 1 2 3', 'the line ends where a field is wanted'),
    ('catalogue', 'record 256 0 0 0 0', 'outside 0 to 255'),
    ('view', 'select 1 2', '`1` stands where `tables` is wanted'),
    ('view', 'select tables one values 2', '`one` is not a number of tables'),
    ('view', 'col', "the line ends where a column's name is wanted"),
    ('view', 'col price', '`price` is not a known name: no line `name NUMBER price`'),
    ('view', 'col 20 in 7', '`in` stands where `of` is wanted'),
    ('view', 'fixed 5 2 1.234', '1.234 has 3 decimal places where 2 are held'),
    ('view', 'fixed 5 2 1,5', '`1,5` is not a decimal number'),
    ('view', 'fixed 9 0 3000000000', '3000000000 does not fit 32 bits'),
    ('view', 'time 1 2026-11-15', 'no line `format 1 UNIT`'),
    ('view', 'interval 1 2147483648', 'outside -2147483648 to 2147483647'),
    ('view', 'plus 4', '`4` is one word too many'),
    ('view', 'count tables 1', '`tables` is not the number of digits'),
    ('view', 'count 16 tables 1', 'outside 0 to 15'),
    ('view', 'count 3', 'the line ends where `tables` is wanted'),
    ('view', 'max 3 tables 1', '`3` stands where `tables` is wanted'),
    ('view', 'lub', '`lub` is a record of a tree, not of a view'),
    ('view', 'true true', '`true` is one word too many'),
    ('view', 'name 7', 'the line ends where its word is wanted'),
    ('view', 'name 7 7up', '`7up` is not a word for a name'),
    ('view', 'mark 12 lab', 'outside 0 to 11'),
    ('view', 'format 1 week', '`week` is not a unit'),
    ('view', 'names nowhere.txt', 'there is no file nowhere.txt'),
    ('tree', 'col 20', '`col` is a record of a view, not of a tree'),
    ('tree', 'data 0 0', 'the line ends where a place is wanted'),
    ('store', 'row 0 1@0', 'a row stands before the first `table`'),
    ('store', 'rows 3', '`rows` is not a line of a store'),
    ('store', 'catalogue nowhere.txt', 'there is no file nowhere.txt'),
    ('answer', 'cell 0 1', '`cell` stands where `row` is wanted'),
    ('answer', 'row 1', '`1` has no class'),
    ('answer', 'row true@0', '`true` is not a value'),
    ('names', 'table 7', '`table` does not belong in a text of names'),
    ('names', 'names other.txt', '`names` does not belong in a text of names'),
]

# A line of each kind of record, and the record's numbers as documents 01 and 02 have them.
SAID = [
    ('catalogue', 'table 7 class level0+mark0 rows upto level2+mark1', (1, 1, 7, 8194, 1)),
    ('catalogue', 'column 20 boolean cells always 0', (2, 0, 20, 0, 256)),
    ('catalogue', 'column 20 fixed 4 2 cells upto 4096', (2, 1, 20, 4096, 578)),
    ('catalogue', 'column 20 time 3 cells always 0', (2, 0, 20, 0, 771)),
    ('catalogue', 'column 20 interval 3 cells always 0', (2, 0, 20, 0, 1027)),
    ('catalogue', 'column 20 class cells always 0', (2, 0, 20, 0, 1280)),
    ('view', 'null', (1, 0, 0, 0, 0)), ('view', 'false', (2, 0, 0, 0, 0)), ('view', 'true', (2, 1, 0, 0, 0)),
    ('view', 'fixed 4 2 -0.01', (3, 66, 0, 65535, 65535)), ('view', 'time 3 65536', (4, 3, 0, 0, 1)),
    ('view', 'interval 3 5', (5, 3, 0, 5, 0)), ('view', 'class level1+mark11', (6, 0, 6144, 0, 0)),
    ('view', 'plus', (7, 1, 0, 0, 0)), ('view', 'minus', (7, 2, 0, 0, 0)), ('view', 'times', (7, 3, 0, 0, 0)),
    ('view', 'divide', (7, 4, 0, 0, 0)), ('view', 'and', (7, 5, 0, 0, 0)), ('view', 'or', (7, 6, 0, 0, 0)),
    ('view', '<', (7, 7, 0, 0, 0)), ('view', '<=', (7, 8, 0, 0, 0)), ('view', '=', (7, 9, 0, 0, 0)),
    ('view', '<>', (7, 10, 0, 0, 0)), ('view', '>=', (7, 11, 0, 0, 0)), ('view', '>', (7, 12, 0, 0, 0)),
    ('view', 'not', (8, 0, 0, 0, 0)), ('view', 'if', (9, 0, 0, 0, 0)), ('view', 'exists tables 2', (10, 0, 2, 0, 0)),
    ('view', 'value tables 1', (11, 0, 1, 0, 0)), ('view', 'table 7', (12, 0, 7, 0, 0)), ('view', 'select tables 2 values 3', (13, 0, 2, 3, 0)),
    ('view', 'col 20', (14, 0, 20, 0, 0)), ('view', 'col 20 of 7', (14, 0, 20, 7, 0)), ('view', 'classof 20 of 7', (15, 0, 20, 7, 0)),
    ('view', 'let 9', (16, 0, 9, 0, 0)), ('view', 'count 3 tables 2', (28, 48, 2, 0, 0)), ('view', 'max tables 1', (29, 0, 1, 0, 0)),
    ('view', 'min tables 4', (30, 0, 4, 0, 0)),
    ('tree', 'data 1 2 3', (17, 0, 1, 2, 3)), ('tree', 'cellclass 1 2 3', (18, 0, 1, 2, 3)), ('tree', 'rowclass 1 2', (19, 0, 1, 2, 0)),
    ('tree', 'local 1', (20, 0, 1, 0, 0)), ('tree', 'localclass 1', (21, 0, 1, 0, 0)), ('tree', 'conv 4 2', (22, 66, 0, 0, 0)),
    ('tree', 'bind', (23, 0, 0, 0, 0)), ('tree', 'bindc', (24, 0, 0, 0, 0)), ('tree', 'lub', (25, 0, 0, 0, 0)), ('tree', 'dom', (26, 0, 0, 0, 0)),
    ('tree', 'agg tables 2', (27, 0, 2, 0, 0)), ('tree', 'plus 4', (7, 1, 4, 0, 0)), ('tree', 'table 3', (12, 0, 3, 0, 0)),
    ('tree', 'count 9 tables 1', (28, 144, 1, 0, 0)), ('tree', 'max tables 2', (29, 0, 2, 0, 0)), ('tree', 'min tables 1', (30, 0, 1, 0, 0)),
    ('tree', 'record 99 1 2 3 4', (99, 1, 2, 3, 4)),
]


def same(what, one, other):
    if one != other:
        raise Bad(f'{what}: the bytes are not the same')


def again(room, data, words, more=None):
    """The bytes of a file's text."""
    text = packing.unpacked(data, words, more, 'catalogue')
    with open(os.path.join(room, 'catalogue'), 'wb') as f:
        f.write(more if isinstance(more, bytes) else b'')
    return text, packing.packed_text(os.path.join(room, 'text'), text.encode()).data


def examples(room):
    folder = os.path.join(ROOT, 'examples')
    names = texts.read_words(os.path.join(folder, 'names.txt'))
    catalogue = packing.read(os.path.join(folder, 'catalogue.txt')).data
    count = 0
    for file in sorted(os.listdir(folder)):
        if not file.endswith('.txt') or file == 'names.txt':
            continue
        path = os.path.join(folder, file)
        with open(os.path.join(folder, 'packed', f'{file[:-4]}.{EXTENSIONS[texts.opened(path)[0]]}'), 'rb') as f:
            data = f.read()
        same(f'examples/{file} and its packed file', packing.read(path).data, data)
        for words in (texts.Words(), names):
            same(f'examples/{file} there and back', again(room, data, words, catalogue)[1], data)
        count += 1
    return count


def cases():
    """The files of each case of crates/vectors, and whether it is accepted."""
    folder = os.path.join(ROOT, 'crates', 'vectors')
    with open(os.path.join(folder, 'stdin'), 'rb') as f:
        data = f.read()
    at = 0
    for line in open(os.path.join(folder, 'stdout')):
        sizes = struct.unpack('<3H5I', data[at:at + 26])
        at += 26
        files = []
        for size in sizes[5:]:
            files.append(data[at:at + size])
            at += size
        yield line.split()[0] == '0', sizes[0] == 2, *files


def vectors(room):
    """Each accepted case's files are said in words and come back; so do other files, where they can be said."""
    count = 0
    for accepted, has_store, catalogue, view, store in cases():
        for data, more in [(catalogue, None), (view, None)] + [(store, catalogue)] * has_store:
            try:
                text, back = again(room, data, texts.Words(), more)
            except Bad:
                if accepted:
                    raise
                continue
            same('a file of crates/vectors there and back', back, data)
            if accepted and any(line.split()[0] == 'record' for line in text.splitlines()):
                raise Bad('an accepted file of crates/vectors has a record that no words say')
            count += 1
    return count


def other_files(room):
    """A tree of every kind and op, and an answer."""
    body = [records.record(kind, op, a, b, c) for kind in range(32) for op in (0, 1, 2, 12, 13, 16, 66, 144, 255) for a, b, c in ((0, 0, 0), (1, 0, 0), (9, 2, 65535))]
    tree = packing.MARKS['tree'] + struct.pack('<HH', 1, len(body)) + b''.join(body)
    same('a tree there and back', again(room, tree, texts.Words())[1], tree)
    cells = [packing.cell(0, 4097, -5), packing.cell(1, 8191, 0), packing.cell(2, 0, 0), packing.cell(0, 0, 2**31 - 1)]
    answer = packing.MARKS['answer'] + struct.pack('<HH', 1, 2) + b''.join(cells)
    same('an answer there and back', again(room, answer, texts.Words(), 2)[1], answer)
    return 2


def said_lines(room):
    for kind, line, numbers in SAID:
        data = packing.packed_text(os.path.join(room, 'text'), f'{kind}\n{line}'.encode()).data
        same(f'the line `{line}` of a {kind} and its record', data[8:], records.record(*numbers))
    return len(SAID)


def bad_lines(room):
    for kind, line, message in BAD:
        try:
            path = os.path.join(room, 'bad')
            with open(path, 'w') as f:
                f.write(f'# A comment.\n{kind}\n{line}\n')
            texts.read_words(path) if kind == 'names' else packing.packed_text(path)
        except Bad as why:
            if f'{path}, line 3: ' not in str(why) or message not in str(why):
                raise Bad(f'the line `{line}` of a {kind} gives another message: {why}')
        else:
            raise Bad(f'the line `{line}` of a {kind} was taken')
    return len(BAD)


def run():
    with tempfile.TemporaryDirectory() as room:
        print(f'{examples(room)} texts of examples/ are their packed files')
        print(f'{vectors(room)} files of crates/vectors there and back')
        print(f'{other_files(room)} other files there and back')
        print(f'{said_lines(room)} lines are the records that documents 01 and 02 number')
        print(f'{bad_lines(room)} bad lines refused, each with its line and its fault')
