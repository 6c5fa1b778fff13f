#!/usr/bin/env python3
"""growth.py PROGRAM [--only WORD] [--jobs N]: how many instructions a call takes on small and large databases.

PROGRAM is the built eve-tpcc, with its symbols. Valgrind's callgrind, which repeats nearly to the instruction, counts those of requests of
each kind, of marks, commits and rollbacks, and of records loaded, by one worker, on databases of three sizes. A call's count is the
difference of two parts of a session, of which one makes twice as many calls, per call. What computing hashes takes is told apart.

No call may grow by more than the logarithm of the size does, but for hashing, since leaves grow with the rows; but hashing may take no more
where new orders were delivered than where the same rows were loaded. Prints a table, then `N passed, M failed`."""
import argparse
import math
import os
import subprocess
import sys
import tempfile
from concurrent.futures import ThreadPoolExecutor

from callgrind import Session, of_check, per_call, written
from room import PAYMENT, SHORT_ORDER, STOCK_LEVEL, late, made, payments, with_orders, with_records

SIZES = 1000, 10000, 100000
NAMESAKES = 30, 300, 2990
CALLS, POINTS = 32, 8
SLACK = 40
NEWEST, FIRST, NONE = 'O,1,1,I,1', 'O,1,1,I,2', 'O,1,1,I,3'
NAMED_STATUS, NAMED_PAYMENT = 'O,1,1,L,', 'P,1,1,1,1,L,,100'
DELIVERY = 'D,1,1'
EMPTIED, RELOADED = 'Payment after all is delivered', 'Payment, the same loaded'
BEYOND = 'Hashing after all is delivered, beyond the same loaded'
HEAD = '| Instructions of a call | at 1,000 | 10,000 | 100,000 | of hashing: 1,000 | 10,000 | 100,000 | |\n|---|---|---|---|---|---|---|---|'


def orders(districts, count, undelivered):
    """Records of so many orders of one line in each of the first districts, the last ones undelivered, the first one customer 2's."""
    each = [(d, o, o > count - undelivered) for d in range(1, districts + 1) for o in range(1, count + 1)]
    records = [f'O,1,{d},{o},{2 if o == 1 else 1},0,{"-" if is_new else 1},1,1' for d, o, is_new in each]
    records += [f'N,1,{d},{o}' for d, o, is_new in each if is_new]
    return records + [f'L,1,{d},{o},1,1,1,{"-" if is_new else 0},0,0,' for d, o, is_new in each]


class Images:
    """Texts of images, of the program's own least one on."""

    def __init__(self, program):
        self.program, self.least = program, made(program, (1, 3, 15))

    def undelivered(self, size):
        """Orders of a district, all new."""
        return with_orders(self.least, 1, size, orders(1, size, size))

    def unsorted(self, size):
        """The same, every second record late."""
        return with_orders(self.least, 1, size, late(orders(1, size, size)))

    def delivered(self, size):
        """Orders of a district, all delivered but the last few."""
        return with_orders(self.least, 1, size, orders(1, size, 5 * CALLS))

    def history(self, size):
        """Payments of one customer."""
        return with_records(self.least, payments(size))

    def namesakes(self, size):
        """Customers of a district with one name."""
        return with_records(self.least, [f'C,1,1,{number},,,,GC,0,0,0,0,0,' for number in range(4, size + 4)])

    def spread(self, size):
        """Orders of ten districts, all new."""
        return with_orders(self.least, 10, size // 10, orders(10, size // 10, size // 10))

    def emptied(self, size):
        """The same, once all are delivered and the image is written."""
        with tempfile.TemporaryDirectory() as folder:
            words = [self.program, 'serve', written(folder, self.spread(size))]
            printed = subprocess.run(words, input=deliveries(size) + 'I\n', capture_output=True, text=True, check=True).stdout
        return printed[printed.index('\neve-tpcc,') + 1:]


def batch(requests):
    return f'B,0,commit,{len(requests)}\n' + ''.join(request + '\n' for request in requests)


def deliveries(size):
    """Commands that deliver what `spread` has, committed as they go."""
    return ''.join(batch([DELIVERY] * min(1000, size // 10 - begin)) + 'C\n' for begin in range(0, size // 10, 1000))


def committed(request):
    """A batch of requests, committed."""
    return lambda count: batch([request] * count) + 'C\n'


def in_flight(request):
    """The same as the last of eight batches in flight."""
    return lambda count: batch([]) * (POINTS - 1) + batch([request] * count) + 'C\n' * POINTS


def one_by_one(*request):
    """Batches of one request or none, of which eight are in flight: each lets the oldest be committed."""
    return lambda count: batch(request) * POINTS + ('C\n' + batch(request)) * (count - POINTS) + 'C\n' * POINTS


def rolled_back(request):
    """Batches of one request, each rolled back."""
    return lambda count: (batch([request]) + 'R,0\n') * count


def rolled_back_at_once(request):
    """Eight batches in flight, rolled back by one command."""
    return lambda count: batch([request] * (count // POINTS)) * POINTS + 'R,0\n'


def marks(count):
    """Batches without a request, committed."""
    return (batch([]) + 'C\n') * count


# On which image what is called, by the commands of a session that make so many calls: rollbacks first, to state 0.
CALLED = [
    ('undelivered', 'New-Order, rolled back', rolled_back(SHORT_ORDER)),
    ('undelivered', 'New-Order, eight points rolled back at once', rolled_back_at_once(SHORT_ORDER)),
    ('undelivered', 'Delivery, rolled back', rolled_back(DELIVERY)),
    ('undelivered', 'Delivery, eight points rolled back at once', rolled_back_at_once(DELIVERY)),
    ('history', 'Payment, rolled back', rolled_back(PAYMENT)),
    ('history', 'Payment, eight points rolled back at once', rolled_back_at_once(PAYMENT)),
    ('undelivered', 'A mark and a commit', marks),
    ('undelivered', 'A mark and a commit, eight points', one_by_one()),
    ('undelivered', 'Order-Status, the only order is the first', committed(FIRST)),
    ('undelivered', 'Order-Status, the same, eight points', in_flight(FIRST)),
    ('undelivered', 'Order-Status, the newest order', committed(NEWEST)),
    ('undelivered', 'Order-Status, no order', committed(NONE)),
    ('namesakes', 'Order-Status by the name of 30, 300, 2,990', committed(NAMED_STATUS)),
    ('undelivered', 'Stock-Level', committed(STOCK_LEVEL)),
    ('undelivered', 'Payment', committed(PAYMENT)),
    ('history', 'Payment by the customer of all history', committed(PAYMENT)),
    ('history', 'Payment, eight points', in_flight(PAYMENT)),
    ('namesakes', 'Payment by the name of 30, 300, 2,990', committed(NAMED_PAYMENT)),
    ('undelivered', 'New-Order, none delivered', committed(SHORT_ORDER)),
    ('undelivered', 'New-Order, eight points', in_flight(SHORT_ORDER)),
    ('undelivered', 'New-Order, each with a commit', one_by_one(SHORT_ORDER)),
    ('delivered', 'New-Order, most delivered', committed(SHORT_ORDER)),
    ('undelivered', 'Delivery, none delivered', committed(DELIVERY)),
    ('undelivered', 'Delivery, eight points', in_flight(DELIVERY)),
    ('undelivered', 'Delivery, each with a commit', one_by_one(DELIVERY)),
    ('delivered', 'Delivery, most delivered', committed(DELIVERY)),
    ('spread', EMPTIED, committed(PAYMENT)),
    ('emptied', RELOADED, committed(PAYMENT)),
]
LOADED = [
    ('undelivered', 'A record loaded, of orders'),
    ('unsorted', 'A record loaded, of orders, every second late'),
    ('history', 'A record loaded, of history'),
    ('namesakes', 'A record loaded, of 30, 300, 2,990 customers alike'),
]


def called(images, kind, size, only):
    """For each call on a kind of image, the instructions: of hashing, and all others. What `emptied` has goes on with the numbers of `spread`."""
    words, counts = ['--from', f'0,{size // 10 + 1},{64 * "0"}'] if kind == 'emptied' else [], {}
    with Session(images.program, getattr(images, kind)(size), words) as session:
        session.answer(deliveries(size) if kind == 'spread' else '')
        session.begin()
        for on_image, what, commands in CALLED:
            if on_image == kind and only in what:
                _, less, more = [session.counted(commands(count)) for count in (CALLS, CALLS, 2 * CALLS)]
                counts[what] = per_call(less, more, CALLS)
    return counts


def loaded(images, kind, size, only):
    """The instructions of loading a record."""
    image, counts = getattr(images, kind)(size), {}
    for on_image, what in LOADED:
        if on_image == kind and only in what:
            less, more = of_check(images.program, images.least), of_check(images.program, image)
            counts[what] = per_call(less, more, image.count('\n') - images.least.count('\n'))
    return counts


def rows(images, pool, only):
    """What was called, the sizes, and the instructions of hashing and all others at each."""
    asked = [(kind, what, called) for kind, what, _ in CALLED] + [(kind, what, loaded) for kind, what in LOADED]
    asked, started = [it for it in asked if only in it[1]], {}
    for kind, _, count in asked:
        for size in sizes(kind):
            if (kind, count, size) not in started:
                started[kind, count, size] = pool.submit(count, images, kind, size, only)
    for kind, what, count in asked:
        yield what, sizes(kind), *zip(*(started[kind, count, size].result()[what] for size in sizes(kind)))


def sizes(kind):
    return NAMESAKES if kind == 'namesakes' else SIZES


def grows(counts, at):
    """Whether counts grow by more than the logarithm of the size does."""
    return any(count > counts[0] * math.log(size) / math.log(at[0]) + SLACK for count, size in zip(counts, at))


def told(what, others, hashing, is_bad):
    """Prints a row, and hands back whether it is bad."""
    print(f'| {what} | {" | ".join(f"{it:,}" for it in others + hashing)} | {"grows" if is_bad else ""} |', flush=True)
    return is_bad


def main():
    ask = argparse.ArgumentParser(description=__doc__, formatter_class=argparse.RawDescriptionHelpFormatter)
    ask.add_argument('program')
    ask.add_argument('--only', default='')
    ask.add_argument('--jobs', type=int, default=os.cpu_count())
    ask = ask.parse_args()
    images, bad, hashed = Images(os.path.abspath(ask.program)), [], {}
    print(HEAD)
    with ThreadPoolExecutor(ask.jobs) as pool:
        for what, at, hashing, others in rows(images, pool, ask.only):
            hashed[what] = hashing
            bad.append(told(what, others, hashing, grows(others, at)))
    if EMPTIED in hashed and RELOADED in hashed:
        more = tuple(a - b for a, b in zip(hashed[EMPTIED], hashed[RELOADED]))
        bad.append(told(BEYOND, (0, 0, 0), more, grows(more, SIZES)))
    print(f'{bad.count(False)} passed, {bad.count(True)} failed')
    sys.exit(1 if any(bad) else 0)


if __name__ == '__main__':
    main()
