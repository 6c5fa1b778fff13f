#!/usr/bin/env python3
"""workload.py W C I [--batches N] [--size S] [--seed K] [--mix N,P,O,D,S] [--remote PERCENT]

Writes batches in TPC-C's mix for the image of `eve-tpcc make W C I`: W warehouses, C customers a district, I items. Customers, last names
and items are drawn by NURand (TPC-C clause 2.1.6); 60 per cent of payments and order statuses name the customer by last name, and one per
cent of new orders end with an unused item (clause 2.4.1.4). The default is 10 batches of 1,000 requests and seed 1. --mix gives the weights
of New-Order, Payment, Order-Status, Delivery and Stock-Level, by default 45,43,4,4,4 (clause 5.2.3); --remote the percentage of order lines
that another warehouse supplies, by default 1. The same arguments give the same bytes."""
import argparse
import random

UNUSED_ITEM = 999_999


class Draw:
    """Draws the values of requests."""

    def __init__(self, size, seed):
        self.warehouses, self.customers, self.items = size
        self.random = random.Random(seed)
        self.constants = {spread: self.random.randint(0, spread) for spread in (255, 1023, 8191)}

    def is_within(self, percent):
        return self.random.random() * 100 < percent

    def between(self, low, high):
        return self.random.randint(low, high)

    def skewed(self, spread, low, high):
        """NURand of the standard."""
        mixed = self.between(0, spread) | self.between(low, high)
        return (mixed + self.constants[spread]) % (high - low + 1) + low

    def warehouse(self):
        return self.between(1, self.warehouses)

    def other_warehouse(self, home):
        others = [w for w in range(1, self.warehouses + 1) if w != home]
        return self.random.choice(others) if others else home

    def customer(self):
        """The fields that name a customer: by last name, of which a generated database has at most ten, or by number."""
        if self.is_within(60):
            return f'L,NAME{self.skewed(255, 1, min(10, self.customers)) % 10}'
        return f'I,{self.skewed(1023, 1, self.customers)}'


def new_order(draw, w, d, remote):
    lines = draw.between(5, 15)
    items = [draw.skewed(8191, 1, draw.items) for _ in range(lines)]
    if draw.is_within(1):
        items[-1] = UNUSED_ITEM
    fields = [w, d, draw.skewed(1023, 1, draw.customers)]
    for item in items:
        fields += [item, draw.other_warehouse(w) if draw.is_within(remote) else w, draw.between(1, 10)]
    return 'N,' + ','.join(map(str, fields))


def payment(draw, w, d, _):
    cw, cd = (draw.other_warehouse(w), draw.between(1, 10)) if draw.is_within(15) else (w, d)
    return f'P,{w},{d},{cw},{cd},{draw.customer()},{draw.between(100, 500_000)}'


def order_status(draw, w, d, _):
    return f'O,{w},{d},{draw.customer()}'


def delivery(draw, w, _, __):
    return f'D,{w},{draw.between(1, 10)}'


def stock_level(draw, w, d, _):
    return f'S,{w},{d},{draw.between(10, 20)}'


KINDS = [new_order, payment, order_status, delivery, stock_level]


def weights(word):
    """The weights of a mix."""
    numbers = [int(number) for number in word.split(',')]
    if len(numbers) != len(KINDS) or min(numbers) < 0 or max(numbers) == 0:
        raise ValueError
    return numbers


def main():
    ask = argparse.ArgumentParser(description=__doc__, formatter_class=argparse.RawDescriptionHelpFormatter)
    for name, most in ('warehouses', 100), ('customers', 3_000), ('items', 100_000):
        ask.add_argument(name, type=int, choices=range(1, most + 1), metavar=name[0].upper())
    ask.add_argument('--batches', type=int, default=10, metavar='N')
    ask.add_argument('--size', type=int, default=1_000, choices=range(1_025), metavar='S')
    ask.add_argument('--seed', type=int, default=1, metavar='K')
    ask.add_argument('--mix', type=weights, metavar='N,P,O,D,S', default=[45, 43, 4, 4, 4])
    ask.add_argument('--remote', type=float, default=1, metavar='PERCENT')
    ask = ask.parse_args()
    draw = Draw((ask.warehouses, ask.customers, ask.items), ask.seed)
    for batch in range(ask.batches):
        print(f'B,{1_000 + batch},commit,{ask.size}')
        for kind in draw.random.choices(KINDS, ask.mix, k=ask.size):
            w = draw.warehouse()
            print(kind(draw, w, draw.between(1, 10), ask.remote))


if __name__ == '__main__':
    main()
