"""Worked cases of checks/values: reads them, and compares what is wanted in them with the plain computation.

A file has cases, each a title behind `# ` and lines below, of what is given and of what is wanted of it. `X*9` in a line is nine times X,
and a line behind `9 * ` stands there nine times.

| Given | What it is |
|---|---|
| `make W C I` | the image of `make W C I` |
| `put RECORD`, `drop RECORD` | a record of the image, in the place of the one with its key; one less, by its key |
| `batch MOMENT VERDICT` | a batch, and below it its requests, a record a line |
| `row RECORD`, `card RECORD`, `reply RECORD` | a row, a card, a reply, of no image |
| `hashed N PRIOR CATALOG` | the number, the previous token and the catalog's digest of a token of these rows and replies |
| `bits GRANULE ..`, `touches GRANULE .. | GRANULE ..` | granules, spelled as in `C1.2.3`; what a footprint reads and writes |

| Wanted | Of what |
|---|---|
| indented, a record, or `reads` or `writes` and granules | of a request, the reply, or what it declares |
| `path WORD`, `strays PLACE ..`, `cut PLACE .. | ..`, `exact PLACE .. | ..`, `token HEX` | of a batch; its levels by bits, and by granules |
| `stored RECORD`, `unchanged` | of the image after a batch: how a record of it begins; it is as before the batch |
| `leaf N`, `bytes HEX` | of a row |
| `hash N HEX`, `root HEX`, `catalog HEX`, `opening HEX` | of rows, cards or an image: the hash of leaf N, the token before any batch |
| `digest HEX`, `are N ..` | of replies, of granules |"""
import glob
import os
import re

from plain import hashes
from plain.database import image_of, key_of, read_image, read_records, record_of, split, written
from plain.levels import Footprint, cut, declared, run_levels
from plain.made import records as made
from plain.replica import Replica, batch_text, read_batches

FOLDER = os.path.join(os.path.dirname(os.path.abspath(__file__)), 'values')
REQUESTS = ('N,', 'P,', 'O,', 'D,', 'S,')


class Batch:
    """A batch of a case: its text, and the lines of what is wanted of it and of its requests by place."""

    def __init__(self, moment, verdict):
        self.head, self.requests, self.wanted, self.of_requests = (moment, verdict), [], [], []

    def text(self):
        """Its records."""
        return batch_text(*self.head, self.requests)


class Case:
    """A worked case."""

    def __init__(self, title, lines):
        self.title, self.given, self.wanted, self.batches = title, [], [], []
        self.records = {}
        for line in lines:
            self.read(re.sub(r'(\w+)\*(\d+)', lambda found: found[1] * int(found[2]), line))
        self.image = self.records and image_of([*self.records.values()])

    def read(self, line):
        """Takes a line."""
        word, _, rest = line.partition(' ')
        if word.isdigit():
            for _ in range(int(word)):
                self.read(rest[2:])
        elif word == 'make':
            self.records = {key_of(fields): fields for fields in made(*map(int, rest.split()))}
        elif word == 'put':
            self.records[key_of(split(rest)[0])] = split(rest)[0]
        elif word == 'drop':
            del self.records[key_of(split(rest)[0])]
        elif word == 'batch':
            self.batches.append(Batch(*rest.split()))
        elif line[:2] in REQUESTS:
            self.batches[-1].requests.append(line)
        elif line.startswith('    '):
            self.batches[-1].of_requests.append((len(self.batches[-1].requests) - 1, line.strip()))
        else:
            (self.batches[-1].wanted if self.batches else self.wanted).append((word, rest))


def cases(pattern='*.txt'):
    """The cases of files of checks/values, with the names of these."""
    for path in sorted(glob.glob(os.path.join(FOLDER, pattern))):
        with open(path, encoding='ascii') as file:
            parts = re.split(r'^# ', file.read(), flags=re.MULTILINE)
        for part in parts[1:]:
            title, *lines = part.rstrip().split('\n')
            yield os.path.basename(path), Case(title, [line for line in lines if line])


# ---- granules and levels

def granule_of(word):
    """The granule of a word."""
    return (word[0], *map(int, word[1:].split('.')))


def granules_of(words):
    """The granules of words."""
    return {granule_of(word) for word in words.split()}


def spelled(places):
    """Levels as they are written."""
    return ' | '.join(' '.join(map(str, level)) for level in places)


def spelled_granules(granules):
    """Granules as they are written, in some order."""
    return ' '.join(sorted(granule[0] + '.'.join(map(str, granule[1:])) for granule in granules))


# ---- comparisons: pairs of what is wanted and what there is

def in_levels(database, batch, first, levels, told, replica):
    """Executes a batch in these levels, and compares that with what was told of it when a replica executed it in order. Returns the places
    that stray."""
    rows = database.copy()
    strays, replies = run_levels(rows, batch, first, declared(database, batch.requests), levels)
    yield bool(told.strays), bool(strays)
    if not strays:
        yield (told.replies, dict(replica.database.rows.items())), (replies, dict(rows.rows.items()))
    return strays


def of_batch(batch, expected):
    """Executes a case's batch, and compares what is wanted of it."""
    replica, read = expected.replica, read_batches(batch.text())[0]
    before, first = replica.database.copy(), replica.next
    footprints = declared(before, read.requests)
    by_bits = cut(footprints, hashes.bit)
    told = expected.add(batch.text())
    for place, wanted in batch.of_requests:
        word, _, rest = wanted.partition(' ')
        if word in ('reads', 'writes'):
            yield spelled_granules(granules_of(rest)), spelled_granules(getattr(footprints[place], word))
        else:
            yield wanted + '\n', written([told.replies[place]])
    strays = yield from in_levels(before, read, first, by_bits, told, replica)
    found = {'path': told.path, 'strays': ' '.join(map(str, strays)), 'cut': spelled(by_bits), 'exact': spelled(cut(footprints)),
             'token': replica.token.hex()}
    for word, rest in batch.wanted:
        if word == 'stored':
            yield rest, written([record_of(replica.database, key_of(split(rest)[0]))])[:len(rest)]
        elif word == 'unchanged':
            yield dict(before.rows.items()), dict(replica.database.rows.items())
        else:
            yield rest, found[word]


def value_of(field):
    """A field of a reply's record: a number, a text, or None."""
    if field == '-':
        return None
    return int(field) if re.fullmatch(r'-?\d+', field) else field


class Values:
    """Rows, cards, replies and footprints of a case, and what there is to be wanted of them."""

    def __init__(self, case):
        def given(word):
            return [rest for found, rest in case.wanted if found == word]
        listed = [split(record)[0] for record in given('row') + given('card')]
        self.database = read_image(case.image) if case.image else read_records(listed)
        self.rows = dict(self.database.rows.items())
        self.replies = [[value_of(field) for field in split(record)[0]] for record in given('reply')]
        self.footprints = [Footprint(*map(granules_of, both.split('|'))) for both in given('touches')]
        self.granules = [granule_of(word) for words in given('bits') for word in words.split()]
        self.hashed = [words.split() for words in given('hashed')]

    def leaf_hash(self, rest):
        """The hash of a leaf behind the leaf."""
        n = rest.split()[0]
        return f'{n} ' + hashes.sha256(hashes.leaf_texts(self.database.rows).get(int(n), b'\0')).hex()

    def token(self):
        """The token of what is hashed."""
        number, prior, catalog = self.hashed[0]
        digests = (bytes.fromhex(prior), bytes.fromhex(catalog), hashes.root(self.database.rows), hashes.replies_digest(self.replies))
        return hashes.token(int(number), *digests).hex()


# What there is, by the word for it, of values and of what stands behind the word.
FOUND = {
    'leaf': lambda values, _: str(hashes.leaf(*values.rows)),
    'bytes': lambda values, _: hashes.encoded(*[*values.rows.items()][0]).hex(),
    'hash': Values.leaf_hash,
    'root': lambda values, _: hashes.root(values.database.rows).hex(),
    'catalog': lambda values, _: hashes.catalog_digest(values.database.cards).hex(),
    'opening': lambda values, _: Replica(values.database).token.hex(),
    'digest': lambda values, _: hashes.replies_digest(values.replies).hex(),
    'token': lambda values, _: values.token(),
    'are': lambda values, _: ' '.join(str(hashes.bit(granule)) for granule in values.granules),
    'cut': lambda values, _: spelled(cut(values.footprints, hashes.bit)),
    'exact': lambda values, _: spelled(cut(values.footprints)),
}
GIVEN = ('row', 'card', 'reply', 'touches', 'bits', 'hashed')


def of_values(case):
    """Compares what is wanted of rows, cards, replies, granules and footprints, or of an image."""
    values = Values(case)
    for word, rest in case.wanted:
        if word not in GIVEN:
            yield rest.replace(' ', '') if word == 'bytes' else rest, FOUND[word](values, rest)


def fault(case, expected):
    """What the plain computation has otherwise, or nothing. Executes the case's batches on what is expected of its image."""
    pairs = [*of_values(case), *(pair for batch in case.batches for pair in of_batch(batch, expected))]
    told = [f'  wanted {wanted}\n  got    {found}' for wanted, found in pairs if wanted != found]
    return '\n'.join(told) or (None if pairs else '  nothing is wanted')
