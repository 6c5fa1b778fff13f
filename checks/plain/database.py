"""Databases and their images (FORMATS, 'Image').

A key is a record's letter and the numbers after it, as in `('C', 1, 1, 7)`. Cards and rows are named tuples of columns; a null is None."""
import csv
import io
from collections import defaultdict, namedtuple

VERSION = ['eve-tpcc', 2]
TEXTS = {'name', 'last', 'middle', 'first', 'credit', 'data', 'info', *(f'dist{d:02}' for d in range(1, 11))}


class Kind:
    """A kind of record: the numbers of its key, and the types of its card and of its row."""

    def __init__(self, numbers, card, row):
        self.numbers = numbers
        self.card = card and namedtuple('Card', card)
        self.row = row is not None and namedtuple('Row', row)


KINDS = {
    'W': Kind(1, 'name tax', 'ytd'),
    'D': Kind(2, 'name tax', None),
    'Y': Kind(2, None, 'ytd'),
    'X': Kind(2, None, 'next'),
    'C': Kind(3, 'last middle first credit discount', 'balance ytd_payment payment_cnt delivery_cnt data'),
    'I': Kind(1, 'name price data', None),
    'S': Kind(2, 'data dist01 dist02 dist03 dist04 dist05 dist06 dist07 dist08 dist09 dist10', 'quantity ytd order_cnt remote_cnt'),
    'O': Kind(3, None, 'c entry carrier ol_cnt all_local'),
    'N': Kind(3, None, ''),
    'L': Kind(4, None, 'item supply delivery quantity amount info'),
    'H': Kind(1, None, 'c cd cw d w date amount data'),
}
# The order of a stored image.
ORDER = 'WDYXCISONLH'


def shelf_of(key):
    """Where a row stands: with all of its kind, or with those of its district's book."""
    return key[:3] if key[0] in 'ONL' else key[:1]


class Rows:
    """Rows by key."""

    def __init__(self):
        self.shelves = defaultdict(dict)

    def __getitem__(self, key):
        return self.shelves[shelf_of(key)][key]

    def within(self, kind, w, d):
        """The rows of a kind of a district's book."""
        return self.shelves[(kind, w, d)]

    def change(self, changes):
        """Gives each key its new row, or none."""
        for key, row in changes.items():
            if row is None:
                self.shelves[shelf_of(key)].pop(key, None)
            else:
                self.shelves[shelf_of(key)][key] = row

    def items(self):
        """All keys with their rows, in no order."""
        return (pair for shelf in self.shelves.values() for pair in shelf.items())

    def copy(self):
        """The same rows, which may change apart."""
        rows = Rows()
        for shelf, table in self.shelves.items():
            rows.shelves[shelf] = dict(table)
        return rows


class Database:
    """Cards and rows by key."""

    def __init__(self, cards, rows):
        self.cards = cards
        self.rows = rows

    def copy(self):
        """The same database, whose rows may change apart."""
        return Database(self.cards, self.rows.copy())


# ---- records

def value_of(name, field):
    """A column's value, out of its field."""
    if name in TEXTS:
        return field
    return None if field == '-' else int(field)


def made_of(kind, fields):
    """A card or a row out of its fields."""
    return kind(*map(value_of, kind._fields, fields))


def key_of(fields):
    """The key of a record."""
    return (fields[0], *map(int, fields[1:KINDS[fields[0]].numbers + 1]))


def read_record(fields):
    """The key, the card and the row of a record; no card or no row is None."""
    kind, key = KINDS[fields[0]], key_of(fields)
    rest = fields[len(key):]
    if not kind.card or not kind.row:
        card = made_of(kind.card, rest) if kind.card else None
        return key, card, made_of(kind.row, rest) if kind.row else None
    first, last = (kind.row, kind.card) if fields[0] == 'S' else (kind.card, kind.row)
    cut = len(first._fields)
    made = {first: made_of(first, rest[:cut]), last: made_of(last, rest[cut:])}
    return key, made[kind.card], made[kind.row]


def read_records(records):
    """The database of an image's records."""
    cards, rows = {}, Rows()
    for fields in records:
        key, card, row = read_record(fields)
        if card is not None:
            cards[key] = card
        if row is not None:
            rows.change({key: row})
    return Database(cards, rows)


def split(text):
    """The records of a text, as lists of fields."""
    return [fields for fields in csv.reader(text.splitlines()) if fields]


def read_image(text):
    """The database of a sound image of version 2."""
    return read_records(split(text)[1:-1])


def written(records):
    """The text of records."""
    text = io.StringIO()
    csv.writer(text, lineterminator='\n').writerows([['-' if value is None else value for value in fields] for fields in records])
    return text.getvalue()


def record_of(database, key):
    """The fields of the record with this key."""
    kind = KINDS[key[0]]
    card = database.cards[key] if kind.card else ()
    row = database.rows[key] if kind.row else ()
    return [*key, *row, *card] if key[0] == 'S' else [*key, *card, *row]


def image_of(records):
    """The image of records."""
    return written([VERSION, *records, ['E', len(records)]])


def write_image(database):
    """The image of a database."""
    keys = {*database.cards, *(key for key, _ in database.rows.items())}
    return image_of([record_of(database, key) for key in sorted(keys, key=lambda key: (ORDER.index(key[0]), key[1:]))])
