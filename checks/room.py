#!/usr/bin/env python3
"""room.py PROGRAM: the peak memory of a built eve-tpcc for inputs of many shapes and sizes, sound and damaged.

PROGRAM is what `rt run` built, such as crates/eve_tpcc/out/eve_tpcc. Prints for each input the bytes of image and batches, the peak of
resident memory, and that above the least input's peak, per byte of input. Each input is run with one worker, under Linux's `/usr/bin/time`."""
import os
import subprocess
import sys
import tempfile

SMALL = (1, 1, 1)
SHORT_ORDER = 'N,1,1,1' + ''.join(f',{item},1,1' for item in range(1, 6))
NEW_ORDER = 'N,1,1,1' + ''.join(f',{item},1,1' for item in range(1, 16))
PAYMENT = 'P,1,1,1,1,I,1,100'
STOCK_LEVEL = 'S,1,1,10'


def made(program, sizes):
    """The image that the program makes."""
    return subprocess.run([program, 'make', *map(str, sizes)], capture_output=True, check=True).stdout.decode()


def with_records(image, records):
    """The image with more records before its end."""
    lines = image.splitlines()[:-1] + records
    return '\n'.join(lines + [f'E,{len(lines) - 1}', ''])


def with_text(image, text):
    """The image with a text in the place of its end."""
    return '\n'.join(image.splitlines()[:-1] + [text])


def payments(count):
    """Records of the history, as short as may be."""
    return [f'H,{number},1,1,1,1,1,0,0,' for number in range(1, count + 1)]


def customers(count):
    """Records of customers, as short as may be, but for the first of each district."""
    return [f'C,1,{1 + place // 2999},{2 + place % 2999},,,,GC,0,0,0,0,0,' for place in range(count)]


def orders(districts, count, lines, are_new):
    """Records of a number of orders in each of the first districts, with a number of lines each."""
    each = [(d, o) for d in range(1, districts + 1) for o in range(1, count + 1)]
    carrier, delivery = ('-', '-') if are_new else (1, 0)
    made = [f'O,1,{d},{o},1,0,{carrier},{lines},1' for d, o in each]
    made += [f'N,1,{d},{o}' for d, o in each if are_new]
    return made + [f'L,1,{d},{o},{number},1,1,{delivery},0,0,' for d, o in each for number in range(1, lines + 1)]


def with_orders(image, districts, count, records):
    """The image, which has no orders, with a number of orders in each of the first districts."""
    lines = image.splitlines()
    for place, line in enumerate(lines):
        if line.startswith('X,1,') and int(line.split(',')[2]) <= districts:
            lines[place] = line.rsplit(',', 1)[0] + f',{count + 1}'
    return with_records('\n'.join(lines), records)


def late(records):
    """The records, every second one behind all others."""
    return records[::2] + records[1::2]


def batches(request, a_batch, count):
    """So many batches of one request."""
    return (f'B,0,commit,{a_batch}\n' + f'{request}\n' * a_batch) * count


def orders_of_all(count):
    """A batch of new orders of 15 items each, no item twice."""
    items = [range(1 + 15 * place, 16 + 15 * place) for place in range(count)]
    lines = ['N,1,1,1' + ''.join(f',{item},1,1' for item in some) for some in items]
    return '\n'.join([f'B,0,commit,{count}', *lines, ''])


def shapes(program):
    """Images of some 1,100,000 short rows in several shapes: what each is, and the image."""
    small, middle = made(program, SMALL), made(program, (1, 10, 10))
    rows = payments(1100000)
    yield '1100000 short payments of the history', with_records(small, rows)
    yield 'the same, every second one late', with_records(small, late(rows))
    rows = orders(1, 367000, 1, True)
    yield '367000 new orders of one line in a district', with_orders(small, 1, 367000, rows)
    yield 'the same, every second record late', with_orders(small, 1, 367000, late(rows))
    rows = orders(10, 10000, 10, False)
    yield '10000 orders of 10 lines in each of ten districts', with_orders(middle, 10, 10000, rows)
    yield 'the same, every second record late', with_orders(middle, 10, 10000, late(rows))


def inputs(program):
    """What each input is, its image and its batches."""
    small, middle = made(program, SMALL), made(program, (1, 45, 100))
    yield 'the least image, no batch', small, ''
    for sizes in (1, 45, 100), (1, 300, 10000), (1, 1000, 33333), (1, 3000, 100000), (2, 3000, 100000):
        yield 'make ' + ' '.join(map(str, sizes)), made(program, sizes), ''
    for count in 3000, 29990:
        yield f'{count} short customers', with_records(small, customers(count)), ''
    for count in 10000, 100000, 1000000:
        yield f'{count} short payments of the history', with_records(small, payments(count)), ''
    for what, image in shapes(program):
        yield what, image, ''
    yield '100 batches of 1000 new orders of 5 lines', middle, batches(SHORT_ORDER, 1000, 100)
    for count in 1, 10, 100:
        yield f'{count} batches of 1000 new orders of 15 lines', middle, batches(NEW_ORDER, 1000, count)
        yield f'{count} batches of 1000 payments', middle, batches(PAYMENT, 1000, count)
        yield f'{count} batches of 1000 stock levels', middle, batches(STOCK_LEVEL, 1000, count)
    wide = made(program, (1, 45, 400))
    yield 'make 1 45 400', wide, ''
    yield '20 new orders of 300 items, and 1000 stock levels of them', wide, orders_of_all(20) + batches(STOCK_LEVEL, 1000, 1)
    yield '300000 batches of no request', small, 'B,0,commit,0\n' * 300000
    yield 'an end of 10^15 records', with_text(small, f'E,{10**15}\n'), ''
    yield 'a head of 10^15 requests', small, f'B,0,commit,{10**15}\n'
    yield 'a head of 1024 requests, and none of them', small, 'B,0,commit,1024\n'
    yield '5000000 fields in a record', with_text(small, 'W' + ',1' * 5000000), ''
    yield 'a field of 10^7 bytes', with_text(small, 'I,2,' + 'x' * 10**7 + ',1,\n'), ''
    yield 'a quotation that never ends', with_text(small, '"' + 'x' * 10**7), ''
    yield '10^7 empty lines', small, '\n' * 10**7
    yield '10^7 commas', small, ',' * 10**7


def peak(program, image, lines):
    """The most resident memory in KB, and the status. A process between this one and the program is as small as may be, since
    the peak of a child begins with what its parent has."""
    ended = subprocess.run(['/usr/bin/time', '-q', '-f', '%M', program, 'run', image, lines], stdin=subprocess.DEVNULL,
                           stdout=subprocess.DEVNULL, stderr=subprocess.PIPE, check=False)
    return int(ended.stderr.split()[-1]), ended.returncode


def main(program):
    program = os.path.abspath(program)
    least = None
    print('| Input | Image, bytes | Batches, bytes | Peak, KB | Times the bytes | Status |\n|---|---|---|---|---|---|')
    with tempfile.TemporaryDirectory() as folder:
        paths = [os.path.join(folder, name) for name in ('image.csv', 'batches.csv')]
        for what, *texts in inputs(program):
            for path, text in zip(paths, texts):
                with open(path, 'w') as file:
                    file.write(text)
            most, status = peak(program, *paths)
            least = least or most
            size = sum(map(len, texts))
            times = max(0, most - least) * 1024 / size
            print(f'| {what} | {len(texts[0])} | {len(texts[1])} | {most} | {times:.1f} | {status} |', flush=True)


if __name__ == '__main__':
    main(sys.argv[1])
