#!/usr/bin/env python3
"""lines.py PROGRAM IMAGE BATCHES: runs a built eve-tpcc with allocations failing, and checks the message of each fault.

For `check`, and for `run` with one worker and with two, each allocation fails in turn, and all from each on. Each run must end with status 0
and the whole text; or with status 1, a prefix of the text, and one line of a fault on standard error; or with status 2, no text and a line
on standard error, if the words of the command line can't be read. Ends with status 1 if any run does anything else."""
import re
import sys
import tempfile

from refused import Tried

FAULT = re.compile(rb'eve-tpcc: (image|batches|run|output|store): [0-9]+ [A-Za-z]+(\([0-9]+\))?( at record [0-9]+)?\n')


def kind_of(ended, wanted):
    """How a run ended: whole, with the line of a fault, with words that can't be read, or wrong."""
    if ended.returncode == 0 and ended.stdout == wanted and not ended.stderr:
        return 'whole'
    if ended.returncode == 1 and wanted.startswith(ended.stdout) and FAULT.fullmatch(ended.stderr):
        return 'told'
    if ended.returncode == 2 and not ended.stdout and ended.stderr:
        return 'unread'
    return 'wrong'


def try_all(words, folder):
    """Tries these words, prints what they came to, and answers whether all is well."""
    tried = Tried(words, folder)
    ended, growths = tried.run(0)
    if ended.returncode or ended.stderr:
        sys.exit(f'{words[1:]}: with ample memory it ends with status {ended.returncode}: {ended.stderr}')
    counts = {'whole': 0, 'told': 0, 'unread': 0, 'wrong': 0}
    for refused in range(1, growths + 1):
        for number in (refused, -refused):
            got, _ = tried.run(number)
            kind = kind_of(got, ended.stdout)
            counts[kind] += 1
            if kind == 'wrong':
                print(f'growth {number}: status {got.returncode}, {got.stdout[-100:]!r}, {got.stderr[:200]!r}')
    print(f'{" ".join(words[1:2] + words[4:])}: {growths} growths; {counts}', flush=True)
    return not counts['wrong']


def main(program, image, batches):
    with tempfile.TemporaryDirectory() as folder:
        lines = [['check', image], ['run', image, batches, '--workers', '1'], ['run', image, batches, '--workers', '2']]
        return all([try_all([program, *words], folder) for words in lines])


if __name__ == '__main__':
    sys.exit(0 if main(*sys.argv[1:4]) else 1)
