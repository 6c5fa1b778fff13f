#!/usr/bin/env python3
"""ends.py PROGRAM: runs a built eve-tpcc whose reads and writes move 50 bytes at most, and fail in turn.

For `check`, and for `run` with and without `--store`, by one worker and by two: first no call fails, and all is as with whole reads and
writes. Then each call of each end fails: of the image, of the batches, of the output, and of the stored image. The run must end with status
1 and the line of that fault. Where a read fails, nothing is written, but the image is stored as it is if it was read; where a write fails,
its end has the bytes of the calls before, and an image is only stored when the output is whole. The library that lets calls fail is
compiled by `cc` (Linux with glibc only). Prints what each end came to, then `N passed, M failed`. Ends with status 1 if any failed."""
import os
import subprocess
import sys
import tempfile

LIBRARY = r"""
#define _GNU_SOURCE
#include <errno.h>
#include <stdatomic.h>
#include <stdio.h>
#include <stdlib.h>
#include <string.h>
#include <sys/syscall.h>
#include <unistd.h>
static _Atomic long calls;
static int is_end(int file) {
    char link[32], path[4096];
    snprintf(link, sizeof link, "/proc/self/fd/%d", file);
    ssize_t length = readlink(link, path, sizeof path - 1);
    if (length < 0) return 0;
    path[length] = 0;
    char *name = strrchr(path, '/');
    return name && !strcmp(name + 1, getenv("END"));
}
static long moved(long call, int file, void *bytes, size_t size) {
    if (is_end(file) && atomic_fetch_add(&calls, 1) == atol(getenv("CALL"))) {
        errno = EIO;
        return -1;
    }
    return syscall(call, file, bytes, size < STEP ? size : STEP);
}
ssize_t read(int file, void *bytes, size_t size) { return moved(SYS_read, file, bytes, size); }
ssize_t write(int file, const void *bytes, size_t size) { return moved(SYS_write, file, (void *)bytes, size); }
"""
STEP = 50
MOST_CALLS = 1000
BATCHES = b'B,7,commit,3\nP,1,1,1,1,I,1,1000\nP,1,2,1,1,I,10,100\nP,1,1,1,1,I,2,100\n'
FAULTS = {'image.csv': b'image: 7 Read', 'batches.csv': b'batches: 7 Read', 'output': b'output: 1 Write', 'stored.csv': b'store: 1 Write'}
COMMANDS = [
    ('check image.csv', ['image.csv', 'output']),
    ('run image.csv batches.csv', ['image.csv', 'batches.csv', 'output']),
    ('run image.csv batches.csv --workers 2', ['image.csv', 'batches.csv', 'output']),
    ('run image.csv batches.csv --store stored.csv', ['image.csv', 'batches.csv', 'output', 'stored.csv']),
    ('run image.csv batches.csv --workers 2 --store stored.csv', ['image.csv', 'batches.csv', 'output', 'stored.csv']),
]


class Tried:
    """A program in a folder with an image and batches."""

    def __init__(self, program, folder):
        self.program, self.folder, self.library = program, folder, os.path.join(folder, 'failing.so')
        source = os.path.join(folder, 'failing.c')
        with open(source, 'w', encoding='utf-8') as file:
            file.write(f'#define STEP {STEP}\n{LIBRARY}')
        subprocess.run(['cc', '-O2', '-shared', '-fPIC', '-o', self.library, source], check=True)

    def run(self, words, names):
        """The status, and what comes to the output, to standard error and to the stored image, in place of which nothing was."""
        stored = os.path.join(self.folder, 'stored.csv')
        open(stored, 'wb').close()
        with open(os.path.join(self.folder, 'output'), 'wb') as output:
            ended = subprocess.run([self.program, *words.split()], cwd=self.folder, stdin=subprocess.DEVNULL, stdout=output,
                                   stderr=subprocess.PIPE, env={**os.environ, **names}, timeout=60, check=False)
        with open(output.name, 'rb') as text, open(stored, 'rb') as image:
            return ended.returncode, text.read(), ended.stderr, image.read()

    def failing(self, words, end, call):
        return self.run(words, {'LD_PRELOAD': self.library, 'END': end, 'CALL': str(call)})


def wanted(whole, end, call, opening):
    """What must come of a run whose call of this end fails; it stores the opening image, if any, where there is no batch."""
    text, image = whole[1], whole[3]
    line = b'eve-tpcc: ' + FAULTS[end] + b'\n'
    return {'image.csv': (1, b'', line, b''), 'batches.csv': (1, b'', line, opening), 'output': (1, text[:STEP * call], line, b''),
            'stored.csv': (1, text, line, image[:STEP * call])}[end]


def try_end(tried, words, whole, end, opening):
    """How many calls of an end failed as they must, and how many didn't."""
    passed = failed = 0
    for call in range(MOST_CALLS):
        got = tried.failing(words, end, call)
        if got == whole:
            break
        if got == wanted(whole, end, call, opening):
            passed += 1
        else:
            failed += 1
            print(f'{words}, call {call} of {end}: {got}')
    print(f'{words}: {passed + failed} calls of {end}')
    return passed, failed + (0 if passed else 1)


def main(program):
    told = []
    with tempfile.TemporaryDirectory() as folder:
        tried = Tried(program, folder)
        image = subprocess.run([program, 'make', '1', '1', '5'], capture_output=True, check=True).stdout
        with open(os.path.join(folder, 'image.csv'), 'wb') as file:
            file.write(image)
        with open(os.path.join(folder, 'batches.csv'), 'wb') as file:
            file.write(BATCHES)
        for words, ends in COMMANDS:
            whole = tried.run(words, {})
            told.append((1, 0) if whole[0] == 0 and tried.failing(words, 'none', 0) == whole else (0, 1))
            told += [try_end(tried, words, whole, end, image if 'stored.csv' in ends else b'') for end in ends]
    passed, failed = map(sum, zip(*told))
    print(f'{passed} passed, {failed} failed')
    return 1 if failed else 0


if __name__ == '__main__':
    sys.exit(main(os.path.abspath(sys.argv[1])))
