#!/usr/bin/env python3
"""values.py PROGRAM: compares the values that the program shows (replies, paths, tokens, stored images, stamps, strays) with those of
`plain/`, a second computation that shares no code with it.

The worked cases of `values/` have what is wanted beside what is given, and both computations must have it; `worked.py` says how they are
written. Then come databases and batches that look random, batches that threads execute in levels, leaves of all lengths and in all numbers,
and sessions that go back to each of eight states. Prints what failed, then `N passed, M failed`. Ends with status 1 if anything failed."""
import os
import sys
import traceback
from concurrent.futures import ProcessPoolExecutor

sys.dont_write_bytecode = True

import trials
import worked


def listed():
    """Each trial: its title, its function, and what it is about."""
    yield from ((f'{name}: {case.title}', trials.worked_case, case) for name, case in worked.cases())
    made = [(1, 1, 1), (2, 45, 100), (100, 1, 7), (1, 300, 3), (1, 1, 1100)]
    yield from ((f'make {numbers}', trials.made_image, numbers) for numbers in made)
    yield from ((f'random database {seed}', trials.random_runs, seed) for seed in range(1, 41))
    yield 'levels by threads', trials.wide_runs, 1
    yield 'numbers of dirty leaves', trials.dirty_leaves, [1, 2, 4, 8]
    yield from ((f'a long leaf without {left_out} customers', trials.long_leaf, left_out) for left_out in range(14, 57, 14))
    yield from ((f'back to eight points {seed}', trials.points, seed) for seed in (1, 2, 3))


def tried(trial):
    """What is wrong, or nothing. An exception is of an answer that can't be read."""
    title, function, about, program = trial
    try:
        fault = function(program, about)
    except Exception:
        fault = traceback.format_exc(limit=-2)
    return fault and f'{title}\n{fault}'


def main(program):
    """Tries everything, and prints what failed."""
    with ProcessPoolExecutor() as pool:
        told = [*pool.map(tried, ((*trial, os.path.abspath(program)) for trial in listed()), chunksize=4)]
    faults = [fault for fault in told if fault]
    for fault in faults:
        print(fault)
    print(f'{len(told) - len(faults)} passed, {len(faults)} failed')
    return 1 if faults else 0


if __name__ == '__main__':
    sys.exit(main(sys.argv[1]))
