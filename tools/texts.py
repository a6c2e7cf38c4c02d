"""The words for the filter's files: names, classes, types and values in a text, and what they are in bytes.

tools/packing.py has the files themselves. A text holds one record on a line; `#` begins a comment. These lines may stand in any text,
and a text that begins with `names` holds nothing else:

  names FILE            the lines of another text of names, looked for beside this one
  name NUMBER WORD      a word for a table's, a column's or a local's name
  level NUMBER WORD     a word for a class's level, 0 to 15
  mark NUMBER WORD      a word for one of a class's marks, 0 to 11
  format NUMBER UNIT    times of this format count seconds, minutes, hours or days from the start of 1970, intervals last so many

A class is written as its level and its marks, `level1+mark0+mark3`, with a word for each where there is one, or as its number."""
import datetime
import os
import re

UNITS = {'second': 1, 'minute': 60, 'hour': 3600, 'day': 86400}
DECLARED = {'name': 65535, 'level': 15, 'mark': 11, 'format': 255}
WORD = re.compile(r'[A-Za-z][A-Za-z0-9_-]*$')
PLAIN = re.compile(r'(level|mark)[0-9]+$')
LOW, HIGH = -2**31, 2**31 - 1


class Bad(Exception):
    """What is wrong, in words for the person who wrote the text."""


def number(word, low, high, what='a number'):
    """A whole number within its limits."""
    if not re.match(r'-?[0-9]{1,20}$', word):
        raise Bad(f'`{word}` is not {what}: a number from {low} to {high} is wanted')
    if not low <= int(word) <= high:
        raise Bad(f'{word} is not {what}: it is outside {low} to {high}')
    return int(word)


def decimal(word, scale):
    """A decimal number, as a whole number of its smallest places."""
    parts = re.match(r'(-?)([0-9]{1,20})(?:\.([0-9]+))?$', word)
    if not parts:
        raise Bad(f'`{word}` is not a decimal number')
    places = parts[3] or ''
    if len(places) > scale:
        raise Bad(f'{word} has {len(places)} decimal places where {scale} are held')
    m = int(parts[2] + places.ljust(scale, '0'))
    return small(-m if parts[1] else m, word)


def small(m, word):
    if not LOW <= m <= HIGH:
        raise Bad(f'{word} does not fit 32 bits')
    return m


def pointed(m, scale):
    """The same, with its decimal point again."""
    digits = str(abs(m)).rjust(scale + 1, '0')
    sign = '-' if m < 0 else ''
    return sign + (digits[:-scale] + '.' + digits[-scale:] if scale else digits)


class Line:
    """The words of a line, taken one after the other."""

    def __init__(self, words):
        self.words = words
        self.at = 0

    def more(self):
        return self.at < len(self.words)

    def take(self, what):
        if not self.more():
            raise Bad(f'the line ends where {what} is wanted')
        self.at += 1
        return self.words[self.at - 1]

    def number(self, low, high, what):
        return number(self.take(what), low, high, what)

    def keyword(self, *choices):
        word = self.take(' or '.join(f'`{c}`' for c in choices))
        if word not in choices:
            raise Bad(f'`{word}` stands where ' + ' or '.join(f'`{c}`' for c in choices) + ' is wanted')
        return word

    def rest(self, what):
        """The rest of the line as one word, such as a file's name with spaces."""
        self.take(what)
        words = self.words[self.at - 1:]
        self.at = len(self.words)
        return ' '.join(words)

    def end(self):
        if self.more():
            raise Bad(f'`{self.words[self.at]}` is one word too many')


class Words:
    """The words that a text and its texts of names declare, and the reading and writing with them."""

    def __init__(self):
        self.numbers = {kind: {} for kind in DECLARED}
        self.words = {kind: {} for kind in DECLARED}
        self.used = set()

    def declare(self, kind, n, word):
        if kind == 'format':
            if word not in UNITS:
                raise Bad(f'`{word}` is not a unit: ' + ', '.join(UNITS))
        elif not WORD.match(word) or PLAIN.match(word) or word in ('null', 'withheld'):
            raise Bad(f'`{word}` is not a word for a {kind}: letters, digits, - and _, a letter first, and not as `level1` or `null`')
        elif self.numbers[kind].get(word, n) != n:
            raise Bad(f'`{word}` is already {kind} {self.numbers[kind][word]}')
        if self.words[kind].get(n, word) != word:
            raise Bad(f'{kind} {n} is already `{self.words[kind][n]}`')
        self.numbers[kind][word] = n
        self.words[kind][n] = word

    def line(self, kind, line):
        n = line.number(0, DECLARED[kind], f'the number of a {kind}')
        self.declare(kind, n, line.take('a unit' if kind == 'format' else 'its word'))
        line.end()

    def take_in(self, other):
        for kind in DECLARED:
            for n, word in other.words[kind].items():
                self.declare(kind, n, word)
        return self

    def word(self, kind, n, plain):
        if n not in self.words[kind]:
            return plain
        self.used.add((kind, n))
        return self.words[kind][n]

    def declarations(self):
        """The lines that declare the words used so far."""
        return [f'{kind} {n} {self.words[kind][n]}' for kind in DECLARED for k, n in sorted(self.used) if k == kind]

    # Names

    def name(self, line, what):
        word = line.take(what)
        if word in self.numbers['name']:
            return self.numbers['name'][word]
        if not word.isdigit():
            raise Bad(f'`{word}` is not a known name: no line `name NUMBER {word}`')
        return number(word, 0, 65535, what)

    def named(self, n):
        return self.word('name', n, str(n))

    # Classes

    def class_of(self, word):
        if word.isdigit():
            return number(word, 0, 65535, 'a class')
        level, *marks = word.split('+')
        c = 4096 * self.part('level', level)
        for mark in marks:
            bit = 1 << self.part('mark', mark)
            if c & bit:
                raise Bad(f'`{word}` has the mark `{mark}` twice')
            c |= bit
        return c

    def part(self, kind, word):
        if word in self.numbers[kind]:
            return self.numbers[kind][word]
        if PLAIN.match(word) and word.startswith(kind):
            return number(word[len(kind):], 0, DECLARED[kind], f'a {kind}')
        raise Bad(f'`{word}` is not a {kind}: {kind}0 to {kind}{DECLARED[kind]}, or a word of a line `{kind} NUMBER WORD`')

    def classed(self, c):
        level = self.word('level', c >> 12, f'level{c >> 12}')
        return '+'.join([level] + [self.word('mark', i, f'mark{i}') for i in range(12) if c >> i & 1])

    # Times

    def time_of(self, form, word):
        if re.match(r'-?[0-9]+$', word):
            return number(word, LOW, HIGH, 'a time')
        unit = self.words['format'].get(form)
        if unit is None:
            raise Bad(f'`{word}` is not a time: no line `format {form} UNIT`, so its number is wanted')
        try:
            moment = datetime.datetime.fromisoformat(word)
        except ValueError:
            raise Bad(f'`{word}` is not a time: 2026-11-15 or 2026-11-15T08:30:00 is wanted')
        seconds = (moment.replace(tzinfo=None) - datetime.datetime(1970, 1, 1)) // datetime.timedelta(seconds=1)
        if moment.tzinfo or moment.microsecond or seconds % UNITS[unit]:
            raise Bad(f'{word} is not a whole {unit}')
        return small(seconds // UNITS[unit], word)

    def timed(self, form, value):
        unit = self.word('format', form, None)
        try:
            moment = datetime.datetime(1970, 1, 1) + datetime.timedelta(seconds=value * UNITS[unit])
        except (KeyError, OverflowError):
            return str(value)
        return moment.date().isoformat() if unit == 'day' else moment.isoformat()


def read_words(path):
    """The words of a text of names."""
    kind, words, lines = opened(path)
    if kind != 'names':
        raise Bad(f'{path} begins with `{kind}`: a text of names begins with `names`')
    for at, line in lines:
        with_line(path, at, lambda: refuse(line))
    return words


def refuse(line):
    raise Bad(f'`{line.words[0]}` does not belong in a text of names')


def with_line(path, at, work):
    """Does some work for a line, and says which line it was if that fails."""
    try:
        return work()
    except Bad as why:
        raise Bad(f'{path}, line {at}: {why}') from None


def opened(path, data=None):
    """A text's kind, its words, and its other lines, with their numbers in the file."""
    text = decoded(path, data)
    kind, words, rest = None, Words(), []
    for at, said in enumerate(text.split('\n'), 1):
        found = said.split('#')[0].split()
        if not found:
            continue
        line = Line(found)
        if kind is None:
            kind = with_line(path, at, lambda: kind_of(line))
        elif not with_line(path, at, lambda: declared(path, kind, words, found)):
            rest.append((at, line))
    if kind is None:
        raise Bad(f'{path}: no line says which file it is')
    return kind, words, rest


def decoded(path, data):
    if data is None:
        with open(path, 'rb') as f:
            data = f.read()
    try:
        return data.decode('utf-8-sig')
    except UnicodeDecodeError:
        raise Bad(f'{path}: not a text')


KINDS = ('catalogue', 'view', 'tree', 'store', 'answer', 'names')


def kind_of(line):
    word = line.take('a word')
    if word not in KINDS:
        raise Bad(f'`{word}` stands where the text says which file it is: ' + ', '.join(KINDS))
    line.end()
    return word


def declared(path, kind, words, found):
    """Takes a line that declares words; answers whether it was one."""
    line = Line(found)
    first = line.take('a word')
    if first == 'names' and kind != 'names':
        words.take_in(read_words(beside(path, line.rest('a file'))))
        return True
    if first in DECLARED:
        words.line(first, line)
        return True
    return False


def beside(path, other):
    """A file that a text names: beside the text, or else from where the command runs."""
    near = os.path.join(os.path.dirname(path), other)
    found = near if os.path.isfile(near) else other
    if not os.path.isfile(found):
        raise Bad(f'there is no file {other}')
    return found
