"""The program against the plain computation: what it prints, stores and reports of batches on an image, for several numbers of workers."""
import difflib
import json
import os
import subprocess
import tempfile
from functools import lru_cache

from plain.database import read_image, write_image
from plain.replica import Replica, read_batches

SECONDS = 60
GRANULES = {'W': 'Warehouse', 'C': 'Customer', 'S': 'Stock', 'B': 'Book', 'Y': 'DistrictYtd', 'X': 'DistrictNext'}


@lru_cache(maxsize=4)
def opened(image):
    """The replica of an image."""
    return Replica(read_image(image))


class Expected:
    """What the plain computation has for batches on an image."""

    def __init__(self, image):
        self.image, self.batches, self.text = image, '', ''
        self.replica = opened(image).copy()
        rows = self.replica.database.rows
        self.check = f'ok {len(rows.shelves[("W",)])} {sum(map(len, rows.shelves.values()))} {self.replica.token.hex()}\n'
        self.leaves, self.reran = [], []

    def add(self, text):
        """Executes the batch of a text, and tells of it."""
        first, told = self.replica.next, self.replica.execute(read_batches(text)[0])
        self.batches += text
        self.text += self.replica.text_of(told)
        self.leaves.append(len(told.leaves))
        if told.path == 'reran':
            self.reran.append((self.replica.sequence, {first + place: beyond for place, beyond in told.strays.items()}))
        return told


def difference(what, wanted, got):
    """How two texts differ, or nothing."""
    if wanted == got:
        return None
    lines = [*difflib.unified_diff(wanted.splitlines(), got.splitlines(), 'wanted', 'got', lineterm='', n=0)]
    return '\n'.join([f'{what}:', *(line[:300] for line in lines[:12])])


def write(path, text):
    """Writes a file."""
    with open(path, 'w', encoding='ascii', newline='') as file:
        file.write(text)


def read(path):
    """What a file has."""
    with open(path, encoding='ascii', newline='') as file:
        return file.read()


def call(program, words, text=''):
    """The status, output and errors of a command."""
    try:
        ended = subprocess.run([program, *words], input=text.encode(), capture_output=True, timeout=SECONDS, check=False)
    except subprocess.TimeoutExpired:
        return -1, '', f'nothing within {SECONDS} seconds'
    return ended.returncode, ended.stdout.decode(), ended.stderr.decode()


def stray_fault(expected, told, workers):
    """What is wrong with the strays that statistics report, or nothing."""
    if told['strays'] != len(expected.reran):
        return f'strays: wanted {len(expected.reran)}, got {told["strays"]}'
    if not expected.reran:
        return None if told['first_stray'] is None else f'no stray, got {told["first_stray"]}'
    (batch, strays), stray = expected.reran[0], told['first_stray']
    beyond = {' '.join([GRANULES[granule[0]], *map(str, granule[1:])]) for granule in strays.get(stray['request'], ())}
    is_first = workers > 1 or stray['request'] == min(strays)
    if stray['batch'] == batch and is_first and stray['granule'] in beyond:
        return None
    return f'first stray: wanted one of {strays} of batch {batch}, got {stray}'


def statistics_faults(expected, told, workers, levels):
    """What is wrong with statistics, or nothing of each."""
    yield stray_fault(expected, told, workers)
    if workers == 1 and told['dirty_leaves'] != sum(expected.leaves):
        yield f'dirty leaves: wanted {expected.leaves}, {sum(expected.leaves)} in all, got {told["dirty_leaves"]}'
    if levels is not None and told['levels'] != levels:
        yield f'levels: wanted {levels}, got {told["levels"]}'


def faults_of(*told):
    """Several faults as one, or nothing."""
    return '\n'.join(fault for fault in told if fault) or None


def run_fault(program, expected, workers, levels=None):
    """What is wrong with a run by so many workers, or nothing; executed in so many levels, if these are wanted."""
    with tempfile.TemporaryDirectory() as folder:
        image, batches, stored = (os.path.join(folder, name) for name in ('image', 'batches', 'stored'))
        write(image, expected.image)
        write(batches, expected.batches)
        status, output, errors = call(program, ['run', image, batches, '--workers', str(workers), '--store', stored, '--at', '--stats'])
        if status:
            return f'{workers} workers: status {status}: {errors}'
        left = read(stored)
    at, statistics, *_ = errors.split('\n')
    fault = faults_of(difference('output', expected.text, output), difference('--at', f'at,{expected.replica.stamp()}', at),
                      difference('stored image', write_image(expected.replica.database), left),
                      *statistics_faults(expected, json.loads(statistics), workers, levels))
    return fault and f'{workers} workers: {fault}'


def check_fault(program, image, wanted):
    """What is wrong with `check`, or nothing."""
    status, output, errors = call(program, ['check', '-'], image)
    return difference('check', wanted, output if status == 0 else errors)


def serve_fault(program, image, commands, answers):
    """What is wrong with a session, or nothing."""
    with tempfile.TemporaryDirectory() as folder:
        path = os.path.join(folder, 'image')
        write(path, image)
        status, output, errors = call(program, ['serve', path], commands)
    return faults_of(difference('answers', answers, output), errors, status and f'status {status}')
