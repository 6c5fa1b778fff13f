#!/usr/bin/env python3
"""refusals.py PROGRAM [STRIDE]: lets allocations of a built eve-tpcc fail while it opens an image of many cards, and checks the messages.

PROGRAM is what `rt run` built, such as crates/eve_tpcc/out/eve_tpcc. It runs no batch on the image of `make 1 20 4100`, whose catalog has
more than 8,192 cards, so that with several processors a thread computes its digest beside the pages and the tree. Allocations fail one at a
time (as in refused.py), first on one processor, then on all: the first hundred, one of each STRIDE (97 by default) while the image is read
and checked, and each from there on. In this order the runs must end with the message of words that can't be read, then with that of an
image, then with that of a run; and anywhere with the whole text, if the program does without the allocation. Prints how many ended how, with
the first and the last of each kind. Ends with status 1 if one ends otherwise or out of this order, or none with the message of an image or
of a run. Takes some minutes."""
import concurrent.futures
import os
import subprocess
import sys
import tempfile
import threading

import refused

# The sizes of the image, as `make` has them.
SIZES = '1', '20', '4100'

# Growths at the beginning that are refused each, since the words are read there.
FIRST = 100

# Notes behind the number of growths how many there were when a thread was first started.
NOTES = r"""
#include <dlfcn.h>
#include <pthread.h>
#ifndef RTLD_NEXT
#define RTLD_NEXT ((void *)-1l)
#endif
typedef int starter(pthread_t *, const pthread_attr_t *, void *(*)(void *), void *);
static starter *start;
__attribute__((constructor)) static void find(void) { start = (starter *)dlsym(RTLD_NEXT, "pthread_create"); }
int pthread_create(pthread_t *thread, const pthread_attr_t *attributes, void *(*body)(void *), void *given) {
    if (growths && !growths[1]) growths[1] = *growths;
    return start(thread, attributes, body, given);
}
"""

# The kinds of refused runs in the order in which they must come, with the status and the line of each.
KINDS = {
    'words': (2, b'eve-tpcc: command line: no memory for its words\n'),
    'image': (1, b'eve-tpcc: image: 6 Memory\n'),
    'run': (1, b'eve-tpcc: run: 1 Memory\n'),
}

PROCESSORS = sorted(os.sched_getaffinity(0))


class Opened(refused.Tried):
    """The program on an image and on no batch, in a folder of its own."""

    def __init__(self, program, image):
        self.folder = tempfile.TemporaryDirectory()
        super().__init__([program, 'run', image, os.devnull, '--workers', '1'], self.folder.name, NOTES)

    def started(self):
        """How many growths there were when the last run first started a thread, 0 where it started none."""
        with open(self.growths, 'rb') as file:
            return int.from_bytes(file.read()[8:16], sys.byteorder)


def kind_of(ended):
    """How a run ended: whole, of one of the kinds, or wrong."""
    if ended.returncode == 0 and not ended.stderr and not ended.stdout:
        return 'whole'
    for kind, (status, line) in KINDS.items():
        if ended.returncode == status and ended.stderr == line and not ended.stdout:
            return kind
    return 'wrong'


def kinds_of(program, image, numbers, one):
    """How the program ends with each of these growths refused, on one processor or on all; as many run at once as there are."""
    mine = threading.local()
    processors = iter(PROCESSORS)

    def begin():
        mine.opened = Opened(program, image)
        if one:
            os.sched_setaffinity(0, {next(processors)})

    def end_of(number):
        ended, _ = mine.opened.run(number)
        kind = kind_of(ended)
        if kind == 'wrong':
            print(f'growth {number}: status {ended.returncode}, {ended.stdout[-100:]!r}, {ended.stderr[:200]!r}', flush=True)
        return kind

    with concurrent.futures.ThreadPoolExecutor(len(PROCESSORS), initializer=begin) as pool:
        return dict(zip(numbers, pool.map(end_of, numbers)))


def told(kinds):
    """How many growths ended how, and for each kind the first and the last one."""
    parts = []
    for kind in [*KINDS, 'whole', 'wrong']:
        of_kind = [number for number, it in kinds.items() if it == kind]
        if of_kind:
            parts.append(f'{len(of_kind)} {kind} ({of_kind[0]} to {of_kind[-1]})')
    return ', '.join(parts)


def in_order(kinds):
    """Whether the kinds come in their order, those of an image and of a run among them, and nothing is wrong."""
    places = [list(KINDS).index(it) for it in kinds.values() if it in KINDS]
    return places == sorted(places) and {'image', 'run'} <= set(kinds.values()) and 'wrong' not in kinds.values()


def main(program, stride=97):
    with tempfile.TemporaryDirectory() as folder:
        image = os.path.join(folder, 'image.csv')
        with open(image, 'wb') as file:
            subprocess.run([program, 'make', *SIZES], stdout=file, check=True)
        opened = Opened(program, image)
        ended, growths = opened.run(0)
        read = opened.started()
        if kind_of(ended) != 'whole' or not read:
            sys.exit('with ample memory it fails, or starts no thread: this needs several processors')
        os.sched_setaffinity(0, PROCESSORS[:1])
        alone = opened.run(0)[1]
        os.sched_setaffinity(0, PROCESSORS)
        print(f'{read} growths come before the first thread', flush=True)
        is_well = True
        for what, one, last in ('one processor', True, alone), (f'{len(PROCESSORS)} processors', False, growths):
            numbers = [*range(1, FIRST), *range(FIRST, read, stride), *range(read, last + 1)]
            kinds = kinds_of(program, image, numbers, one)
            is_well = is_well and in_order(kinds)
            order = 'in order' if in_order(kinds) else 'NOT as they must come'
            print(f'on {what}: {last} growths; {told(kinds)}; {order}', flush=True)
    return is_well


if __name__ == '__main__':
    sys.exit(0 if main(os.path.abspath(sys.argv[1]), *map(int, sys.argv[2:3])) else 1)
