#!/usr/bin/env python3
"""refused.py PROGRAM WANTED [FIRST [LAST]] [-- WORD ..]: runs a built program with each of its allocations failing in turn.

PROGRAM is what `rt run` built, such as crates/test_execution/out/test_execution, and WANTED the text that it prints with enough memory, such
as crates/test_execution/stdout. An allocation is a call of malloc, calloc or realloc; FIRST and LAST are the numbers of the first and last to
fail, by default all. With WORDs, which are passed to the program, its text is consecutive lines of WANTED. With an allocation failing it
must end with status 0 and the whole text, or with status 1 and some lines of the text in order, and print nothing on standard error. The
library that lets allocations fail is compiled by `cc` (Linux with glibc only). Ends with status 1 if any run does anything else."""
import os
import subprocess
import sys
import tempfile

LIBRARY = r"""
#include <errno.h>
#include <fcntl.h>
#include <stdatomic.h>
#include <stdlib.h>
#include <sys/mman.h>
#include <unistd.h>
extern void *__libc_malloc(size_t);
extern void *__libc_calloc(size_t, size_t);
extern void *__libc_realloc(void *, size_t);
static _Atomic long *growths;
static long refused;
__attribute__((constructor)) static void begin(void) {
    int file = open(getenv("GROWTHS"), O_RDWR);
    refused = atol(getenv("REFUSED"));
    growths = mmap(0, sizeof(long), PROT_READ | PROT_WRITE, MAP_SHARED, file, 0);
}
static int is_refused(void) {
    if (!growths) return 0;
    long growth = atomic_fetch_add(growths, 1) + 1;
    if (refused == 0 || (refused > 0 ? growth != refused : growth < -refused)) return 0;
    errno = ENOMEM;
    return 1;
}
void *malloc(size_t size) { return is_refused() ? 0 : __libc_malloc(size); }
void *calloc(size_t count, size_t size) { return is_refused() ? 0 : __libc_calloc(count, size); }
void *realloc(void *old, size_t size) { return is_refused() ? 0 : __libc_realloc(old, size); }
"""

# Runs between two lines of progress.
RUNS_A_LINE = 1000


class Tried:
    """A program with its words, whose growths are counted, and refused. The notes are more code of the library."""

    def __init__(self, words, folder, notes=''):
        self.words = [os.path.abspath(words[0]), *words[1:]]
        self.library = os.path.join(folder, 'refusing.so')
        self.growths = os.path.join(folder, 'growths')
        source = os.path.join(folder, 'refusing.c')
        with open(source, 'w') as file:
            file.write(LIBRARY + notes)
        subprocess.run(['cc', '-O2', '-shared', '-fPIC', '-o', self.library, source], check=True)

    def run(self, refused):
        """What the program prints and says, its status, and its growths, of which this one is refused; none where it is 0, and
        all from the Nth on where it is -N."""
        with open(self.growths, 'wb') as file:
            file.write(bytes(16))
        names = {'LD_PRELOAD': self.library, 'GROWTHS': self.growths, 'REFUSED': str(refused)}
        ended = subprocess.run(self.words, env={**os.environ, **names}, stdin=subprocess.DEVNULL,
                               capture_output=True, timeout=120)
        with open(self.growths, 'rb') as file:
            return ended, int.from_bytes(file.read(8), sys.byteorder)


def is_part(lines, whole):
    """Whether the lines are some of the whole ones, in their order."""
    rest = iter(whole)
    return all(line in rest for line in lines)


def kind_of(ended, wanted):
    """How a run ended: whole, refused, or wrong."""
    if ended.stderr:
        return 'wrong'
    if ended.returncode == 0 and ended.stdout == wanted:
        return 'whole'
    if ended.returncode == 1 and is_part(ended.stdout.splitlines(True), wanted.splitlines(True)):
        return 'refused'
    return 'wrong'


def stands_in(part, whole):
    """Whether the part is some lines of the whole, one behind the other."""
    return part.endswith(b'\n') and b'\n' + part in b'\n' + whole


def main(program, wanted, first=1, last=None, words=()):
    with open(wanted, 'rb') as file:
        wanted = file.read()
    counts = {'whole': 0, 'refused': 0, 'wrong': 0}
    with tempfile.TemporaryDirectory() as folder:
        tried = Tried([program, *words], folder)
        ended, growths = tried.run(0)
        if words and stands_in(ended.stdout, wanted):
            wanted = ended.stdout
        if kind_of(ended, wanted) != 'whole':
            sys.exit('with ample memory the program prints something else')
        last = growths if last is None else last
        print(f'{growths} growths with ample memory; from {first} to {last} each is refused', flush=True)
        for refused in range(first, last + 1):
            ended, _ = tried.run(refused)
            kind = kind_of(ended, wanted)
            counts[kind] += 1
            if kind == 'wrong':
                print(f'growth {refused}: status {ended.returncode}, {ended.stdout[-200:]!r}, {ended.stderr[:200]!r}')
            if (refused - first + 1) % RUNS_A_LINE == 0:
                print(f'up to {refused}: {counts}', flush=True)
    print(f'{counts["whole"]} runs were whole, {counts["refused"]} lacked what was refused, {counts["wrong"]} were wrong')
    return counts['wrong'] == 0


if __name__ == '__main__':
    split = sys.argv.index('--') if '--' in sys.argv else len(sys.argv)
    sys.exit(0 if main(*sys.argv[1:3], *map(int, sys.argv[3:split][:2]), words=sys.argv[split + 1:]) else 1)
