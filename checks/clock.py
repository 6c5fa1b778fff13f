#!/usr/bin/env python3
"""clock.py PROGRAM: the microseconds of requests, by the number of orders in their district.

PROGRAM is the built eve-tpcc. A request's time is what `--stats` says of executing, and of executing and hashing, in up to 20 batches of
1,000 requests by one worker, per request. Each is the least of three runs, so run it on an idle machine; `growth.py` counts instructions."""
import json
import os
import subprocess
import sys
import tempfile

from callgrind import written
from growth import DELIVERY, FIRST, Images, batch

SIZES = 1000, 10000, 100000, 360000


def seconds(program, image, batches):
    """The least times of three runs of batches: of executing, and with hashing."""
    times = []
    for _ in range(3):
        words = [program, 'run', image, batches, '--workers', '1', '--stats']
        ran = subprocess.run(words, stdout=subprocess.DEVNULL, stderr=subprocess.PIPE, check=True)
        spent = json.loads(ran.stderr)['seconds']
        times.append((spent['execute'], spent['execute'] + spent['hash']))
    return [min(each) for each in zip(*times)]


def microseconds(images, request, size):
    """The times of a request in batches of at most a thousand; of deliveries there are at most as many as orders."""
    counts = [1000] * (min(20, size // 1000) if request == DELIVERY else 20)
    with tempfile.TemporaryDirectory() as folder:
        image, path = written(folder, images.undelivered(size)), os.path.join(folder, 'batches.csv')
        with open(path, 'w', encoding='ascii') as file:
            file.write(''.join(batch([request] * count) for count in counts))
        return [1e6 * each / sum(counts) for each in seconds(images.program, image, path)]


def main():
    images = Images(os.path.abspath(sys.argv[1]))
    print('| Microseconds of a request | ' + ' | '.join(f'{size:,}' for size in SIZES) + ' |\n|---|' + '---|' * len(SIZES))
    for what, request in ('Order-Status, the only order is the first', FIRST), ('Delivery, none delivered', DELIVERY):
        each = [microseconds(images, request, size) for size in SIZES]
        for part, place in ('executing', 0), ('with hashing', 1):
            print(f'| {what}, {part} | ' + ' | '.join(f'{times[place]:.1f}' for times in each) + ' |', flush=True)


if __name__ == '__main__':
    main()
