"""The image of `make W C I` (FORMATS)."""
from functools import lru_cache


def customer(w, d, c):
    """The record of a customer."""
    credit, data = ('BC', 500 * 'x') if c % 10 == 0 else ('GC', '')
    return ['C', w, d, c, f'NAME{c % 10}', 'OE', f'F{9 - c // 20 % 10}', credit, 1000, -1000, 1000, 1, 0, data]


def item(i):
    """The record of an item."""
    return ['I', i, f'ITEM{i}', 100 * ((i - 1) % 100 + 1), 'ORIGINAL' if i % 10 == 0 else 'PLAIN']


def stock(w, i):
    """The record of an item's stock in a warehouse."""
    return ['S', w, i, 10 + i % 91, 0, 0, 0, 'ORIGINAL' if i % 20 == 0 else 'PLAIN', *(f'DIST{d:02}' for d in range(1, 11))]


@lru_cache(maxsize=4)
def records(warehouses, customers, items):
    """The records of the made database, in the order of a stored image."""
    numbers, districts = range(1, warehouses + 1), [(w, d) for w in range(1, warehouses + 1) for d in range(1, 11)]
    return [*(['W', w, f'W{w}', 1000, 30000000] for w in numbers),
            *(['D', w, d, f'D{d}', 500] for w, d in districts),
            *(['Y', w, d, 3000000] for w, d in districts),
            *(['X', w, d, 1] for w, d in districts),
            *(customer(w, d, c) for w, d in districts for c in range(1, customers + 1)),
            *(item(i) for i in range(1, items + 1)),
            *(stock(w, i) for w in numbers for i in range(1, items + 1))]
