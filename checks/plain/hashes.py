"""Rows, leaves and tokens in bytes (FORMATS, the section of this name), and the bits of granules."""
import hashlib
from collections import defaultdict
from functools import lru_cache

KINDS = {'W': 1, 'D': 2, 'C': 3, 'S': 4, 'O': 5, 'N': 6, 'L': 7, 'H': 8, 'Y': 9, 'X': 10, 'I': 11}
MULTIPLIER = 0x9E3779B97F4A7C15
HEIGHT = 16
# The columns of a body, each with how many bytes it takes: `t` and the bytes of its length for a text, `c` for characters as they are. A
# column with `?` is 1 if it isn't null, else 0; a null is 0.
ROWS = {
    'W': 'ytd:8',
    'C': 'balance:8 ytd_payment:8 payment_cnt:4 delivery_cnt:4 data:t2',
    'S': 'quantity:4 ytd:4 order_cnt:4 remote_cnt:4',
    'O': 'c:2 entry:8 carrier:1 ol_cnt:1 all_local:1',
    'N': '',
    'L': 'item:4 supply:1 delivery?:1 delivery:8 quantity:1 amount:4 info:t1',
    'H': 'c:2 cd:1 cw:1 d:1 w:1 date:8 amount:4 data:t1',
    'Y': 'ytd:8',
    'X': 'next:4',
}
CARDS = {
    'W': 'name:t1 tax:2',
    'D': 'name:t1 tax:2',
    'C': 'last:t1 middle:t1 first:t1 credit:c discount:2',
    'S': 'data:t1 ' + ' '.join(f'dist{d:02}:t1' for d in range(1, 11)),
    'I': 'name:t1 price:4 data:t1',
}
TAG = b'EVE-TPCC-2'


def sha256(text):
    """The hash of bytes."""
    return hashlib.sha256(text).digest()


def number(value, length):
    """A number in so many bytes; a null is 0."""
    return ((value or 0) % 256 ** length).to_bytes(length, 'big')


def text(value, length):
    """A text behind its length, which has so many bytes."""
    return number(len(value), length) + value.encode('ascii')


def column(row, name, form):
    """The bytes of a column."""
    if name.endswith('?'):
        return number(int(getattr(row, name[:-1]) is not None), int(form))
    value = getattr(row, name)
    if form == 'c':
        return value.encode('ascii')
    return text(value, int(form[1:])) if form.startswith('t') else number(value, int(form))


def code(key):
    """The code of a key."""
    kind, first, *rest = key
    if kind in 'WHI':
        low = first
    elif kind == 'S':
        low = first * 2 ** 17 + rest[0]
    else:
        low = first * 16 + rest[0]
        if kind in 'CONL':
            low = low * 2 ** (12 if kind == 'C' else 24) + rest[1]
        if kind == 'L':
            low = low * 16 + rest[2]
    return KINDS[kind] * 2 ** 56 + low


@lru_cache(maxsize=None)
def encoded(key, values, is_card=False):
    """The bytes of a row or a card."""
    layout = (CARDS if is_card else ROWS)[key[0]].split()
    body = b''.join(column(values, *word.split(':')) for word in layout)
    return number(code(key), 8) + number(len(body), 2) + body


# ---- the tree

def leaf(key):
    """The leaf of a row."""
    return code(key) * MULTIPLIER % 2 ** 64 >> 64 - HEIGHT


def leaf_texts(rows):
    """The text of each leaf that has rows."""
    leaves = defaultdict(list)
    for key, row in rows.items():
        leaves[leaf(key)].append((code(key), encoded(key, row)))
    return {n: b'\0' + b''.join(row for _, row in sorted(leaves[n])) for n in leaves}


@lru_cache(maxsize=None)
def joined(left, right):
    """The node above two."""
    return sha256(b'\1' + left + right)


@lru_cache(maxsize=None)
def empty(height):
    """A node of this height without rows."""
    return joined(empty(height - 1), empty(height - 1)) if height else sha256(b'\0')


def root(rows):
    """The root of the rows."""
    nodes = {n: sha256(leaf_text) for n, leaf_text in leaf_texts(rows).items()}
    for height in range(HEIGHT):
        nodes = {n: joined(nodes.get(2 * n, empty(height)), nodes.get(2 * n + 1, empty(height))) for n in {n // 2 for n in nodes}}
    return nodes.get(0, empty(HEIGHT))


# ---- digests and tokens

def catalog_digest(cards):
    """The digest of the cards."""
    return sha256(b''.join(encoded(key, cards[key], True) for key in sorted(cards, key=code)))


def reply_body(kind, fields):
    """The body of a reply that isn't a refusal, out of its record's fields behind `ok`."""
    if kind == 'new-order':
        o, total, *lines = fields
        listed = zip(lines[0::3], lines[1::3], lines[2::3])
        return number(o, 4) + number(total, 8) + number(len(lines) // 3, 1) + b''.join(
            number(stock, 4) + brand.encode() + number(amount, 4) for stock, brand, amount in listed)
    if kind == 'payment':
        c, balance, credit, *shown = fields
        return number(c, 2) + number(balance, 8) + credit.encode() + b''.join(text(data, 1) for data in shown)
    if kind == 'order-status':
        c, first, middle, last, balance, *order = fields
        return number(c, 2) + text(first, 1) + text(middle, 1) + text(last, 1) + number(balance, 8) + order_body(order)
    return b''.join(number(value, 4) for value in fields)


def order_body(order):
    """The bytes of the order of an Order-Status, or of none."""
    if order == [None]:
        return number(0, 1)
    o, entry, carrier, *lines = order
    out = number(1, 1) + number(o, 4) + number(entry, 8) + number(carrier, 1) + number(len(lines) // 5, 1)
    for item, supply, quantity, amount, delivery in zip(*(lines[place::5] for place in range(5))):
        out += number(item, 4) + number(supply, 1) + number(quantity, 1) + number(amount, 4)
        out += number(int(delivery is not None), 1) + number(delivery, 8)
    return out


REPLIES = ['new-order', 'payment', 'order-status', 'delivery', 'stock-level']


def reply_bytes(reply):
    """The bytes of a reply, a record with its number."""
    request, kind, status, *fields = reply
    refused = status == 'refused'
    head = number(request, 8) + number(1 + REPLIES.index(kind), 1) + number(fields[0] if refused else 0, 1)
    return head if refused else head + reply_body(kind, fields)


def replies_digest(replies):
    """The digest of replies."""
    return sha256(b''.join(map(reply_bytes, replies)))


def token(sequence, prior, catalog, rows_root, replies):
    """The token of a batch, out of its number and four digests."""
    return sha256(TAG + number(sequence, 8) + prior + catalog + rows_root + replies)


# ---- signatures

# The numbers of granules are those of their kinds: W, C, S, a book B, a sum Y, a next number X.
GRANULES = {'W': 1, 'C': 3, 'S': 4, 'B': 5, 'Y': 6, 'X': 7}


def bit(granule):
    """The bit of a granule in signatures, 0 to 511."""
    kind, w, *rest = granule
    d = 0 if kind in 'WS' else rest[0]
    n = rest[-1] if kind in 'CS' else 0
    packed = GRANULES[kind] * 2 ** 48 + w * 2 ** 32 + d * 2 ** 24 + n
    return packed * MULTIPLIER % 2 ** 64 >> 64 - 9
