#!/usr/bin/env python3
"""races.py PROGRAM [RUNS]: runs with 2 to 8 workers under DRD, valgrind's detector of data races, RUNS of them (100).

By turns a run has a batch of 1,000 new orders that share nothing, executed in levels, or one in TPC-C's mix, executed in order; both are
hashed on several threads. Then come small batches, hashed with helpers. Each run must report nothing, and print what one worker prints.
DRD takes an atomic load or store for a plain one, so what it reports of the words that helpers and their owner share is suppressed."""
import os
import subprocess
import sys
import tempfile

HERE = os.path.dirname(os.path.realpath(__file__))
WORKLOAD = os.path.join(HERE, '..', 'examples', 'workload.py')
MADE = ['100', '3', '50']
DRD = ['valgrind', '--tool=drd', '--error-exitcode=9', '-q']
ATOMIC = '''{
   words that helpers and their owner share
   drd:ConflictingAccess
   fun:hashers::*
}
'''


def mixed(seed, count, size):
    """Batches of so many requests in TPC-C's mix."""
    words = [sys.executable, WORKLOAD, *MADE, '--batches', str(count), '--size', str(size), '--seed', str(seed)]
    return subprocess.run(words, capture_output=True, text=True, check=True).stdout


def apart(seed):
    """A batch of 1,000 new orders of five lines: ten of each warehouse, one of each district, each with items of its own."""
    lines = ['B,100,commit,1000']
    for place in range(1000):
        warehouse, district = place % 100 + 1, place // 100 + 1
        items = ((district - 1) * 5 + n + 1 for n in range(5))
        lines.append(f'N,{warehouse},{district},{seed % 3 + 1},' + ','.join(f'{item},{warehouse},{seed % 10 + 1}' for item in items))
    return '\n'.join(lines) + '\n'


def batches(seed):
    return (mixed(seed, 1, 1000) if seed % 2 else apart(seed)) + mixed(seed, 3, 64)


def run(words):
    done = subprocess.run(words, capture_output=True)
    return done.returncode, done.stdout, done.stderr


def main():
    program = os.path.realpath(sys.argv[1])
    runs = int(sys.argv[2]) if len(sys.argv) > 2 else 100
    failed = 0
    with tempfile.TemporaryDirectory() as folder:
        image = os.path.join(folder, 'image')
        suppressed = os.path.join(folder, 'suppressed')
        with open(suppressed, 'w', encoding='ascii') as out:
            out.write(ATOMIC)
        with open(image, 'wb') as out:
            subprocess.run([program, 'make', *MADE], stdout=out, check=True)
        for seed in range(1, runs + 1):
            path = os.path.join(folder, 'batches')
            with open(path, 'w', encoding='ascii') as out:
                out.write(batches(seed))
            wanted = run([program, 'run', image, path])
            workers = str(2 + seed % 7)
            status, out, report = run([*DRD, f'--suppressions={suppressed}', program, 'run', image, path, '--workers', workers])
            if (status, out) != wanted[:2]:
                failed += 1
                print(f'seed {seed}, {workers} workers: status {status}\n{report.decode(errors="replace")[:2000]}', flush=True)
    print(f'{runs - failed} passed, {failed} failed')
    sys.exit(1 if failed else 0)


if __name__ == '__main__':
    main()
