"""Files of cases as checks/cases/README.md describes them, and the texts that their steps give."""
import random
import re

import reader
from plain.database import image_of
from plain.made import records

ESCAPED = re.compile(rb'\\([0-9A-Fa-f]{2})(?:\{([0-9]+)\})?')


class Step:
    """A line at the margin, and the indented lines below it."""

    def __init__(self, words, line):
        self.words, self.line, self.content = words, line, []


class Case:
    """A title, and the steps below it."""

    def __init__(self, title, path, line):
        self.title, self.path, self.line, self.steps = title, path, line, []


def cases_of(path):
    """The cases of a file. An empty line before an indented one belongs to the lines of the step."""
    with open(path, encoding='utf-8') as file:
        lines = file.read().split('\n')
    cases, empty = [], 0
    for number, line in enumerate(lines, 1):
        if line.startswith('# ') and cases and not cases[-1].steps:
            cases[-1].title += line[1:]
        elif line.startswith('# '):
            cases.append(Case(line[2:], path, number))
        elif line.startswith('  '):
            cases[-1].steps[-1].content += empty * [''] + [line[2:]]
        elif line:
            cases[-1].steps.append(Step(line, number))
        empty = 0 if line else empty + 1
    return cases


def decoded(line):
    """The bytes of a line, in which a backslash and two hexadecimal digits stand for a byte, and {N} behind them for N of it."""
    return ESCAPED.sub(lambda found: bytes([int(found[1], 16)]) * int(found[2] or 1), line.encode())


def shown(text):
    """A text as a line of a case shows it."""
    return ''.join(chr(c) if 0x20 <= c < 0x7F and c != 0x5C else f'\\{c:02X}' for c in text)


def records_text(lines):
    return b''.join(decoded(line) + b'\n' for line in lines)


class NoSuchRecord(Exception):
    """A record to be taken out that isn't there."""


class Text:
    """An image or batches, the line from which records are taken out, and the line before which the next one goes."""

    def __init__(self, text=b''):
        self.text, self.first, self.next = text, 0, text.count(b'\n')

    def take_out(self, lines, record):
        if record not in lines[self.first:]:
            raise NoSuchRecord(shown(record))
        self.next = lines.index(record, self.first)
        del lines[self.next]

    def put_in(self, lines, record):
        lines.insert(self.next, record)
        self.next += 1

    def edit(self, changes):
        """Takes the records out that stand behind `-`, and puts those in that stand behind `+`, each where the last one was. Behind `@`
        stands the line from which it goes on."""
        lines = self.text.split(b'\n')
        for change in changes:
            if change.startswith('@ '):
                self.first = self.next = int(change[2:]) - 1
            else:
                (self.take_out if change.startswith('- ') else self.put_in)(lines, decoded(change[2:]))
        self.text = b'\n'.join(lines)

    def append(self, lines, times=1):
        self.text += times * records_text(lines)
        self.next = self.text.count(b'\n')

    def cut(self, count):
        """Keeps the first lines."""
        self.text = b''.join(self.text.splitlines(keepends=True)[:count])
        self.next = count


def with_value(text, number, field, value):
    """A text with another value in a field of the record of this number; field 0 is the whole record."""
    lines = text.split(b'\n')
    fields = lines[number - 1].split(b',')
    if field:
        fields[field - 1] = value
    lines[number - 1] = b','.join(fields) if field else value
    return b'\n'.join(lines)


# ---- images that are made or turned into others --------------------------------------------------------------------------


def made(warehouses, customers, items):
    """The image of `make`."""
    return image_of(records(warehouses, customers, items)).encode()


def in_version_1(image):
    """The image in version 1, where a district's record has its three."""
    lines = image.split(b'\n')
    more = {tuple(line.split(b',')[:3]): line.split(b',')[3] for line in lines if line[:2] in (b'Y,', b'X,')}
    whole = []
    for line in lines:
        if line[:2] == b'D,':
            key = tuple(line.split(b',')[1:3])
            line = b','.join([line, more[(b'Y', *key)], more[(b'X', *key)]])
        if line[:2] not in (b'Y,', b'X,'):
            whole.append(line)
    return numbered(b'eve-tpcc,1', whole[1:-2])


def in_version_2(image):
    """The image in version 2, where a district's record becomes three."""
    whole = []
    for line in image.split(b'\n')[1:-2]:
        if line[:2] == b'D,':
            district, ytd, after = line.rsplit(b',', 2)
            key = b','.join(line.split(b',')[1:3])
            whole += [district, b'Y,' + key + b',' + ytd, b'X,' + key + b',' + after]
        else:
            whole.append(line)
    return numbered(b'eve-tpcc,2', whole)


def turned(image):
    """The image with its records in the opposite order."""
    lines = image.split(b'\n')
    return numbered(lines[0], lines[-3:0:-1])


def numbered(first, lines):
    return b'\n'.join([first, *lines, b'E,%d' % len(lines), b''])


# ---- other ways to write the same records --------------------------------------------------------------------------------


def fields_of(line):
    """The fields of a record as they are written, quotation marks included."""
    return re.findall(rb'(?:^|,)((?:"(?:[^"]|"")*")?[^,]*)', line)


def respelt(text, seed):
    """The same records with other ends of lines, empty lines, fields in quotation marks, and a byte order mark, as a seed has it."""
    drawn = random.Random(seed)
    written = [drawn.choice([b'', b'\xef\xbb\xbf'])]
    for line in text.splitlines():
        fields = [field if field[:1] == b'"' or b'"' in field or drawn.random() < 0.7 else b'"' + field + b'"' for field in fields_of(line)]
        written += [b','.join(fields), drawn.choice([b'\n', b'\r\n', b'\r', b'\r', b'\n\n', b'\r\n\r'])]
    return b''.join(written)


MODIFIERS = {'turned': turned, 'in version 1': in_version_1, 'in version 2': in_version_2, 'as stored': reader.stored,
             'respelt': lambda text: respelt(text, 0)}


def read_file(path):
    with open(path, 'rb') as file:
        return file.read()
