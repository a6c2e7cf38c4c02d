"""What showtree and showanswer print, laid out in words: a tree, an answer with its heads, a refusal with its meaning."""
import records
from packing import short, tables_of, value_said
from records import BLOCK_WORDS, OPS, PARTS, children, typed

MEANING = {
    21: 'not a catalogue: under eight bytes, or a wrong mark, zero byte or version',
    22: 'a catalogue whose count is outside 1 to 2,080, or whose length does not fit its count',
    23: 'a rule of catalogues is broken',
    24: 'the name of this table, or of this column in its table, is used before',
    31: 'not a store: under eight bytes, or a wrong mark, zero byte or version',
    32: 'a store whose count is not the number of tables, whose length does not fit its rows, or of over 65,528 bytes',
    33: 'a row class or a cell that breaks its rule',
    1: 'not a view: under eight bytes, or a wrong mark, zero byte or version',
    2: 'a view whose count is outside 1 to 1,024, or whose length does not fit its count',
    3: 'an unknown kind or op, or a field out of its rule',
    4: 'a record that may not stand here, or the view ends too early',
    5: 'deeper than 16',
    6: 'no such table',
    7: 'no such column',
    8: 'ambiguous: the name has more than one match in the nearest scope that has any',
    9: 'a rule of types is broken',
    10: 'the tree needs more than 8,190 records',
    41: 'the answer does not fit its buffer, or has more than 65,535 rows',
}
FILE = {2: 'catalogue', 3: 'store'}
ROLES = {9: ['if', 'then', 'else'], 23: ['let', 'in'], 24: ['class', 'let', 'in'], 26: ['clearance', 'covers']}


class Node:
    """A record of a tree with its children, and the number of the record after them."""

    def __init__(self, at, fields):
        self.at, (self.kind, self.op, self.a, self.b, self.c) = at, fields
        self.children, self.next = [], at + 1

    def roles(self):
        if self.kind == 13:
            return ['from'] * self.a + ['where'] + [w for i in range(self.b) for w in (f'value {i + 1}', f'class of value {i + 1}')]
        return ['from'] * self.a + PARTS[self.kind] if self.kind in PARTS else ROLES.get(self.kind, [''] * len(self.children))


def node(lines, at=0):
    made = Node(at, lines[at])
    for _ in range(children(made.kind, made.a, 2 * made.b)):
        made.children.append(node(lines, made.next))
        made.next = made.children[-1].next
    return made


def columned(lines, gap='  '):
    """Lines of cells, each column as wide as its widest cell."""
    widths = [max(len(line[i]) for line in lines) for i in range(len(lines[0]))]
    return [gap.join(cell.ljust(w) for cell, w in zip(line, widths)).rstrip() for line in lines]


class Said:
    """The words for one run: the files, where they come from, and the names that they use."""

    def __init__(self, files, paths, words):
        self.files, self.paths, self.words = files, paths, words
        self.tables = tables_of(files['catalogue'].data)

    # Names, types and bounds in a tree. A scope is a block's tables or a local's type and bound; the innermost stands last.

    def inner(self, n, i, scopes):
        """The scopes that child i of a record stands in."""
        if (n.kind == 13 or n.kind in PARTS) and i >= n.a:
            return scopes + [[self.tables[t.a] for t in n.children[:n.a]]]
        if n.kind == 23 and i == 1:
            return scopes + [(self.type(n.children[0], scopes), 0)]
        if n.kind == 24 and i == 2:
            return scopes + [(self.type(n.children[1], scopes), self.bound(n.children[0], scopes))]
        return scopes

    def column(self, n, scopes):
        table = scopes[-1 - n.a][n.b]
        return table, table.columns[n.c]

    def column_name(self, n, scopes):
        table, column = self.column(n, scopes)
        return self.words.word('name', table.name, f'table{table.name}') + '.' + self.words.word('name', column.name, f'column{column.name}')

    def type(self, n, scopes):
        """The type of a data tree, as the catalogue writes types; 0 is null's."""
        if n.kind in (3, 22, 28):
            return 512 + n.op
        if n.kind in (4, 5):
            return 256 * (n.kind - 1) + n.op
        if n.kind == 17:
            return self.column(n, scopes)[1].type
        if n.kind == 20:
            return scopes[-1 - n.a][0]
        if n.kind in (9, 11, 23, 24, 29, 30):
            i = 1 if n.kind == 9 else len(n.children) - 1
            return self.type(n.children[i], self.inner(n, i, scopes))
        if n.kind == 7 and n.op <= 4:
            return self.result(n, scopes)
        return {1: 0, 6: 1280, 18: 1280, 19: 1280, 21: 1280, 25: 1280}.get(n.kind, 256)

    def result(self, n, scopes):
        """The type of plus, minus, times or divide: the left operand's, and of two fixed ones a = p and the larger s."""
        left, right = (self.type(child, scopes) for child in n.children)
        return 512 + 16 * n.a + max(left & 15, right & 15) if left >> 8 == 2 else left

    def bound(self, n, scopes):
        """The bound of a class tree."""
        if n.kind == 18:
            return self.column(n, scopes)[1].bound
        if n.kind == 19:
            return scopes[-1 - n.a][n.b].bound
        if n.kind == 21:
            return scopes[-1 - n.a][1]
        if n.kind in (9, 25):
            left, right = (self.bound(child, scopes) for child in n.children[-2:])
            return max(left >> 12, right >> 12) << 12 | (left | right) & 4095
        if n.kind in (23, 24, 27):
            i = len(n.children) - 1
            return self.bound(n.children[i], self.inner(n, i, scopes))
        return n.a

    # The tree

    def record(self, n, scopes):
        """A record of a tree, with names for numbers."""
        out = f' ({n.a} out)' if n.kind in (17, 18, 19, 20, 21) and n.a else ''
        if n.kind == 13:
            return 'select'
        if n.kind in PARTS:
            return BLOCK_WORDS[n.kind] + (f' to {typed(self.type(n, scopes))}' if n.kind == 28 else '')
        if n.kind == 12:
            return f'table {self.words.named(self.tables[n.a].name)}'
        if n.kind in (17, 18):
            return ('data ' if n.kind == 17 else 'cellclass ') + self.column_name(n, scopes) + out
        if n.kind == 19:
            return f'rowclass {self.words.named(scopes[-1 - n.a][n.b].name)}{out}'
        if n.kind in (20, 21):
            return ('local' if n.kind == 20 else 'localclass') + out
        if n.kind == 7:
            return OPS[n.op - 1] + (f' to {typed(self.result(n, scopes))}' if n.a else '')
        return records.said('tree', records.record(n.kind, n.op, n.a, n.b, n.c), self.words)

    def tree_lines(self, n, scopes, role, deep):
        yield [str(n.at).rjust(5), '  ' * deep + self.record(n, scopes), role]
        for i, (child, its) in enumerate(zip(n.children, n.roles())):
            yield from self.tree_lines(child, self.inner(n, i, scopes), its, deep + 1)

    def tree(self, root, count):
        lines = [['  no.', 'record', 'role']] + list(self.tree_lines(root, [], '', 0))
        return '\n'.join([f'Tree: {count} records'] + columned(lines))

    # The answer

    def title(self, n, scopes):
        """A short head for a value."""
        if n.kind == 17:
            return self.column_name(n, scopes)
        if n.kind == 18:
            return 'class of ' + self.column_name(n, scopes)
        if n.kind in (11, 29, 30):
            return BLOCK_WORDS[n.kind] + ' of ' + self.title(n.children[-1], self.inner(n, len(n.children) - 1, scopes))
        if n.kind in (10, 28):
            return BLOCK_WORDS[n.kind] + ' ' + ', '.join(self.words.named(self.tables[t.a].name) for t in n.children[:n.a])
        if n.kind == 7:
            return OPS[n.op - 1]
        return {8: 'not', 9: 'if', 20: 'local', 22: 'conv', 23: 'let'}.get(n.kind, 'constant')

    def head(self, root):
        """For each value: its head, type, class in words, and its class where that is always the same."""
        scopes = self.inner(root, root.a, [])
        found = []
        for i in range(root.a + 1, len(root.children), 2):
            data, label = root.children[i:i + 2]
            t, bound = self.type(data, scopes), self.bound(label, scopes)
            fixed = label.kind == 6
            found.append((self.title(data, scopes), t, ('always ' if fixed else 'upto ') + self.words.classed(bound), bound if fixed else None))
        return found

    def cell(self, mark, c, value, t, fixed):
        if mark == 2:
            return 'withheld'
        text = 'null' if mark else self.value(value, t)
        return text if c == fixed else f'{text} @{self.words.classed(c)}'

    def value(self, value, t):
        unit = self.words.words['format'].get(t & 255) if t >> 8 == 4 else None
        return f'{value} {unit}{"" if value in (1, -1) else "s"}' if unit else value_said(value, t, self.words)

    def laid(self, root, rows):
        """The heads of an answer, and its rows."""
        head = self.head(root)
        lines = [['', *(str(i + 1) for i in range(len(head)))], ['value', *(h[0] for h in head)],
                 ['type', *(typed(h[1]) or 'null' for h in head)], ['class', *(h[2] for h in head)]]
        for i, row in enumerate(rows):
            lines.append([f'row {i + 1}', *(self.cell(*row[3 * j:3 * j + 3], h[1], h[3]) for j, h in enumerate(head))])
        laid = columned(lines, ' | ')
        if rows:
            laid.insert(4, '-' * max(len(line) for line in laid))
        return laid

    def columns(self, root):
        return '\n'.join(['Answer columns:'] + self.laid(root, []))

    def answer(self, root, rows, q):
        count = f'{len(rows)} row' + ('' if len(rows) == 1 else 's')
        return '\n'.join([f'Answer: {count} for clearance {self.words.classed(q)} ({q})'] + self.laid(root, rows))

    # Refusals

    def refusal(self, number, place):
        file = FILE.get(number // 10, 'view')
        lines = [['  number', f'{number}: {MEANING[number]}'], ['  place', f'{place}: {self.place(number, place, file)}']]
        return '\n'.join([f'Refused: number {number}, place {place}'] + columned(lines))

    def place(self, number, place, file):
        if number in (10, 41):
            return f'the whole {"tree" if number == 10 else "answer"}'
        if number % 10 in (1, 2):
            return f'the {file} {self.paths[file]} as a whole'
        if number == 33:
            return f'byte {place} of the store {self.paths["store"]}: ' + self.byte(place)
        packed = self.files[file]
        if 16 + 8 * place > len(packed.data):
            return f'record {place} of the {file} {self.paths[file]} is missing'
        line = f' (line {packed.lines[place]})' if packed.lines else ''
        r = packed.data[8 + 8 * place:16 + 8 * place]
        return f'record {place} of the {file} {self.paths[file]}{line}: ' + records.said(file, r, self.words)

    def byte(self, place):
        """Which row class or cell begins at a byte of a store."""
        data, at = self.files['store'].data, 8
        for table in self.tables:
            size = 2 + 8 * len(table.columns)
            rows = short(data, at)
            if place < at + 2 + rows * size:
                row, within = divmod(place - at - 2, size)
                what = 'its row class' if within < 2 else f'cell {self.words.named(table.columns[(within - 2) // 8].name)}'
                return f'table {self.words.named(table.name)}, row {row + 1}, {what}'
            at += 2 + rows * size
        return 'past the last row'
