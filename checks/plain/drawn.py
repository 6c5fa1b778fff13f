"""Sound databases and batches that look random, drawn from a seed."""
import random

from plain.database import image_of, written
from plain.made import records as made
from plain.replica import batch_text

LAST_NAMES = ['BAR', 'OUGHT', 'A,B', 'SAY "NO"', '', 'X' * 16]
DISTRICTS = range(1, 11)
LETTERS = 'ABCxyz019 ,"-|'


class Database:
    """The records of a database that looks random, and what requests may name of it."""

    def __init__(self, seed):
        self.dice = random.Random(seed)
        dice = self.dice
        self.warehouses = dice.sample(range(1, 101), dice.randint(1, 3))
        self.items = [1, 100000, *dice.sample(range(2, 100000), dice.randint(6, 16))]
        self.customers = {}
        self.stocks = [(w, i) for w in self.warehouses for i in self.items if dice.random() < 0.9]
        self.records = [['I', i, self.text(24), dice.choice([0, 1, 99999, dice.randint(1, 9999)]), self.data()] for i in self.items]
        for w, i in self.stocks:
            counts = [self.count() for _ in range(3)]
            self.records.append(['S', w, i, dice.randint(-20, 100), *counts, self.data(), *(self.text(24) for _ in DISTRICTS)])
        for w in self.warehouses:
            self.add_warehouse(w)
        dice.shuffle(self.records)

    def text(self, most):
        """A text of at most so many letters."""
        return ''.join(self.dice.choice(LETTERS) for _ in range(self.dice.choice([0, most, self.dice.randint(0, most)])))

    def data(self):
        """A text of an item or a stock, which may say that it is an original."""
        return self.dice.choice(['', self.text(20) + 'ORIGINAL' + self.text(20), self.text(50)])

    def money(self, most):
        """A sum of money, or a debt, often a large one."""
        return self.dice.choice([0, -1, most, -most, self.dice.randint(-most, most)])

    def count(self):
        """A count, which now and then is near the last one."""
        return self.dice.randint(0, 999) if self.dice.random() < 0.98 else 10 ** 9 - self.dice.randint(0, 20)

    def add_warehouse(self, w):
        """Adds a warehouse with its districts."""
        sums = [self.money(10 ** 14) for _ in DISTRICTS]
        self.records.append(['W', w, self.text(10), self.dice.randint(0, 9999), sum(sums)])
        for d, ytd in zip(DISTRICTS, sums):
            self.records += [['D', w, d, self.text(10), self.dice.randint(0, 9999)], ['Y', w, d, ytd]]
            self.customers[w, d] = self.dice.sample(range(1, 3001), self.dice.randint(1, 5))
            for c in self.customers[w, d]:
                self.add_customer(w, d, c)
            self.add_orders(w, d)

    def add_customer(self, w, d, c):
        """Adds a customer, and perhaps a payment of before."""
        dice = self.dice
        names = [dice.choice(LAST_NAMES), self.text(2), dice.choice(['A', 'AB', 'B'])]
        money = [self.money(10 ** 15 - 99999) for _ in range(2)]
        numbers = [dice.randint(0, 9999), *money, self.count(), self.count()]
        self.records.append(['C', w, d, c, *names, dice.choice(['GC', 'BC']), *numbers, self.text(dice.choice([20, 500]))])
        if dice.random() < 0.3:
            number = 10 ** 6 + 3001 * (10 * w + d) + c
            self.records.append(['H', number, c, d, w, d, w, dice.randint(0, 10 ** 12 - 1), dice.randint(0, 999999), self.text(24)])

    def add_orders(self, w, d):
        """Adds a district's orders, of which the last ones may be new, and its next number."""
        dice = self.dice
        last = dice.choice([0, 0, 1, 3, 25, 9999990])
        new = dice.randint(0, min(last, 3))
        older = dice.sample(range(1, last + 1), min(last, dice.randint(0, 4)))
        numbers = {*range(last - new + 1, last + 1), *([last] if last else []), *older}
        self.records.append(['X', w, d, last + 1])
        for o in numbers:
            is_new, count = o > last - new, dice.randint(1, 6)
            carrier, moment = (None, None) if is_new else (dice.randint(1, 10), dice.randint(0, 99))
            c, entry = dice.choice(self.customers[w, d]), dice.randint(0, 10 ** 12 - 1)
            self.records.append(['O', w, d, o, c, entry, carrier, count, dice.randint(0, 1)])
            self.records += [['N', w, d, o]] * is_new
            for number in range(1, count + 1):
                supply, i = dice.choice(self.stocks)
                self.records.append(['L', w, d, o, number, i, supply, moment, dice.randint(0, 99), dice.randint(0, 999999), self.text(24)])

    def image(self):
        """Its image."""
        return image_of(self.records)


class Requests:
    """Requests that look random, mostly of two districts, so that many meet, with many, few or no deliveries; some name what isn't
    there."""

    def __init__(self, database):
        self.database, self.dice = database, database.dice
        self.districts = self.dice.sample([*database.customers], 2)
        self.kinds = 'NNNNPPPOOSSS' + self.dice.choice(['', 'D', 'DDD'])

    def district(self):
        """A warehouse and a district."""
        return self.dice.choice(self.districts if self.dice.random() < 0.8 else [*self.database.customers, (101 - self.districts[0][0], 3)])

    def customer(self, w, d):
        """The number of a customer."""
        return self.dice.choice(self.database.customers.get((w, d), [3000])) if self.dice.random() < 0.95 else 2999

    def named(self, w, d):
        """The fields of a customer who is named by number or last name."""
        return ['I', self.customer(w, d)] if self.dice.random() < 0.6 else ['L', self.dice.choice(LAST_NAMES)]

    def line(self, w):
        """The fields of a line of an order."""
        if self.dice.random() < 0.004:
            return [self.dice.choice([2, 999999]), w, 1]
        own = [stock for stock in self.database.stocks if stock[0] == w]
        supply, i = self.dice.choice(own if own and self.dice.random() < 0.8 else self.database.stocks)
        return [i, supply, self.dice.randint(1, 10)]

    def draw(self):
        """A request's fields."""
        (w, d), kind = self.district(), self.dice.choice(self.kinds)
        if kind == 'N':
            return ['N', w, d, self.customer(w, d), *sum((self.line(w) for _ in range(self.dice.randint(5, 15))), [])]
        if kind == 'P':
            cw, cd = self.district() if self.dice.random() < 0.3 else (w, d)
            return ['P', w, d, cw, cd, *self.named(cw, cd), self.dice.choice([100, 500000, 1234])]
        if kind == 'O':
            return ['O', w, d, *self.named(w, d)]
        return ['D', w, self.dice.randint(1, 10)] if kind == 'D' else ['S', w, d, self.dice.randint(10, 20)]

    def batch(self, count):
        """The text of a batch of so many requests."""
        verdict = 'rerun' if self.dice.random() < 0.15 else 'commit'
        lines = [written([self.draw()]).rstrip('\n') for _ in range(count)]
        return batch_text(self.dice.choice([0, 10 ** 12 - 1, 86400]), verdict, lines)


def wide(seed):
    """The image of a made database of many warehouses, a batch of requests few of which meet, so that threads execute it in levels, and
    another one with deliveries, which stray."""
    dice, warehouses = random.Random(seed), range(1, 61)
    places, stocks = [(w, d) for w in warehouses for d in DISTRICTS], [(w, i) for w in warehouses for i in range(1, 61)]
    dice.shuffle(stocks)
    lines = [f'P,{w},{dice.randint(1, 10)},{w},{dice.randint(1, 10)},I,{dice.randint(1, 3)},1234' for w in warehouses]
    for w, d in dice.sample(places, 450):
        sold = [stocks.pop() for _ in range(5)]
        lines.append(f'N,{w},{d},{dice.randint(1, 3)},' + ','.join(f'{i},{supply},{dice.randint(1, 10)}' for supply, i in sold))
    lines += [f'S,{w},{d},15' for w, d in dice.sample(places, 72)] + [f'O,{w},{d},I,2' for w, d in dice.sample(places, 72)]
    dice.shuffle(lines)
    later = [*lines, 'D,7,1', 'D,8,2', 'D,7,3']
    return image_of(made(len(warehouses), 3, 60)), batch_text(7, 'commit', lines), batch_text(8, 'commit', later)
