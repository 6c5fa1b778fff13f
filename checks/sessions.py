#!/usr/bin/env python3
"""sessions.py PROGRAM: runs the sessions of README.md, docs/, examples/ and the helps, and compares what they print line by line; and
runs the program with `--stats`.

PROGRAM is the built eve-tpcc. A session is a block indented by four spaces (in a help by two) that begins with `$ `; each such line is a
command, and the lines up to the next one are what it prints. The sessions of a document share a folder, in which `examples` and `crates`
are the repository's, `requests.csv` is that of the examples, and `eve-tpcc` is the program. `cat` of a missing file creates it with the lines
shown. A command has a minute. With `--stats` a command writes the same bytes, and its statistics agree with them. Then each wrong body must
edit a function, and its `old:` lines must occur once in its file, as `rt must-fail` requires. Prints what failed, then `N passed, M failed`.
Ends with status 1 if anything failed."""
import csv
import glob
import json
import os
import re
import shutil
import subprocess
import sys
import tempfile

import edits

TOP = os.path.dirname(os.path.dirname(os.path.abspath(__file__)))
HELPS = 'for name in make check run serve; do eve-tpcc $name --help; done'
SECONDS = 60
KINDS = ['new-order', 'payment', 'order-status', 'delivery', 'stock-level']
REFUSALS = ['Item number is not valid', 'Unknown key', 'Limit reached']
PATHS = ['parallel', 'reran', 'verdict', 'sequential']
PARTS = ['load', 'read', 'execute', 'hash', 'write', 'store']
MEMBERS = ['batches', 'requests', 'replies', 'paths', 'levels', 'strays', 'first_stray', 'dirty_leaves', 'seconds', 'peak_memory_bytes']


def blocks(lines, indent):
    """The indented blocks of a document that are sessions."""
    block = []
    for line in [*lines, '']:
        if line.startswith(indent):
            block.append(line[len(indent):])
            continue
        if block and block[0].startswith('$ '):
            yield block
        block = []


def commands(block):
    """Each command of a session, and the lines that it prints."""
    for line in block:
        if line.startswith('$ '):
            command, printed = line[2:], []
            yield command, printed
        else:
            printed.append(line)


def make_room(folder, program):
    """Lays out the folder of a document's sessions."""
    os.mkdir(os.path.join(folder, 'bin'))
    os.symlink(program, os.path.join(folder, 'bin', 'eve-tpcc'))
    for name in ('examples', 'crates'):
        os.symlink(os.path.join(TOP, name), os.path.join(folder, name))
    shutil.copy(os.path.join(TOP, 'examples', 'requests.csv'), folder)


def printed_by(command, wanted, folder):
    """The lines that a command prints."""
    shown = re.fullmatch(r'cat (\S+)', command)
    if shown and not os.path.exists(os.path.join(folder, shown[1])):
        with open(os.path.join(folder, shown[1]), 'w', encoding='utf-8') as file:
            file.write(''.join(line + '\n' for line in wanted))
    names = {**os.environ, 'PATH': os.path.join(folder, 'bin') + os.pathsep + os.environ['PATH']}
    try:
        ended = subprocess.run(['bash', '-c', command], cwd=folder, env=names, stdin=subprocess.DEVNULL, stdout=subprocess.PIPE,
                               stderr=subprocess.STDOUT, timeout=SECONDS, check=False)
    except subprocess.TimeoutExpired:
        return [f'nothing within {SECONDS} seconds']
    return ended.stdout.decode('utf-8', 'replace').splitlines()


def sessions(document, program):
    """Runs the sessions of a document, or of the helps if none is given; for each command, what is wrong with it, or nothing."""
    with tempfile.TemporaryDirectory() as folder:
        make_room(folder, program)
        if document:
            with open(document, encoding='utf-8') as file:
                shown, name = [*blocks(file.read().split('\n'), '    ')], os.path.relpath(document, TOP)
        else:
            shown, name = [*blocks(printed_by(HELPS, [], folder), '  ')], 'help'
        for block in shown:
            listed = [(command, list(printed)) for command, printed in [*commands(block)]]
            for command, wanted in listed:
                got = printed_by(command, wanted, folder)
                yield None if got == wanted else f'{name}: $ {command}\n  wanted {wanted}\n  got    {got}'


def counted(text):
    """The part of the statistics that a text of replies tells."""
    rows = [row for row in csv.reader(text.splitlines()) if len(row) > 2]
    replies = [(row[1], row[4] if row[2] == 'refused' else None) for row in rows if row[0].isdigit()]
    paths = [row[2] for row in rows if row[0] == 'batch']
    return {'batches': len(paths), 'requests': len(replies),
            'replies': {kind: {'done': replies.count((kind, None)),
                               'refused': {refusal: replies.count((kind, refusal)) for refusal in REFUSALS}} for kind in KINDS},
            'paths': {path: paths.count(path) for path in PATHS}}


def statistics_fault(program, words, stdin, folder):
    """What is wrong with the statistics of a command, or nothing."""
    plain, told = [subprocess.run([program, *words, *more], cwd=folder, input=stdin, capture_output=True, timeout=SECONDS, check=False)
                   for more in ([], ['--stats'])]
    if (plain.stdout, plain.returncode) != (told.stdout, told.returncode):
        return 'another output or status'
    lines = told.stderr.decode().splitlines()
    if lines[:-1] != plain.stderr.decode().splitlines():
        return f'other lines before the object: {lines}'
    found, wanted = json.loads(lines[-1]), counted(told.stdout.decode())
    if [*found] != MEMBERS or [*found['seconds']] != PARTS:
        return f'other members: {found}'
    if not 0 < found['peak_memory_bytes'] < 1 << 32 or not 0 < sum(found['seconds'].values()) < SECONDS:
        return f'no time or memory: {found}'
    return None if {name: found[name] for name in wanted} == wanted else f'wanted {wanted}, got {found}'


def statistics(program):
    """Runs commands with and without `--stats`; for each, what is wrong, or nothing."""
    with tempfile.TemporaryDirectory() as folder:
        make_room(folder, program)
        with open(os.path.join(folder, 'small.csv'), 'wb') as file:
            file.write(subprocess.run([program, 'make', '1', '7', '5'], capture_output=True, timeout=SECONDS, check=True).stdout)
        with open(os.path.join(folder, 'requests.csv'), 'rb') as file:
            text = file.read()
        stamp = ['--from', '1,7,' + 64 * 'a']
        for words, stdin in ((['run', 'small.csv', 'requests.csv'], b''), (['run', 'small.csv', '-', '--workers', '2'], 9 * text),
                             (['run', 'small.csv', 'requests.csv', '--store', 'later.csv'], b''),
                             (['run', 'small.csv', 'requests.csv', *stamp, '--at'], b''), (['run', 'small.csv', '-'], text + b'B,1,commit'),
                             (['serve', 'small.csv'], text + b'R,0\nT\nC\nX\n' + text), (['serve', 'small.csv', *stamp], text + b'C\nB')):
            fault = statistics_fault(program, words, stdin, folder)
            yield fault and f'{" ".join(words)} --stats: {fault}'


def wrong_bodies():
    """For each wrong body, why it can't be applied, or nothing."""
    for crate in edits.crates_with_edits():
        texts = edits.texts_of(crate)
        for path in edits.paths_of(crate):
            try:
                edits.read_edit(path, texts)
                yield None
            except edits.BadEdit as bad:
                yield f'{os.path.relpath(path, TOP)}: {bad}'


def main(program):
    documents = [f'{TOP}/README.md', *sorted(glob.glob(f'{TOP}/docs/*.md') + glob.glob(f'{TOP}/examples/**/*.md', recursive=True))]
    told = [fault for document in [*documents, None] for fault in sessions(document, os.path.abspath(program))]
    told += [*statistics(os.path.abspath(program)), *wrong_bodies()]
    faults = [fault for fault in told if fault]
    for fault in faults:
        print(fault)
    print(f'{len(told) - len(faults)} passed, {len(faults)} failed')
    return 1 if faults else 0


if __name__ == '__main__':
    sys.exit(main(sys.argv[1]))
