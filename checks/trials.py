"""What checks/values.py tries: a trial is a function of the program and an argument, which returns what is wrong, or nothing."""
import worked
from against import Expected, call, check_fault, difference, faults_of, run_fault, serve_fault
from plain import drawn
from plain.database import image_of, write_image
from plain.hashes import bit, leaf
from plain.levels import cut, declared, itself
from plain.made import records
from plain.replica import batch_text, read_batches

LONG_LEAF = 31739
LEAST_LEAVES, MOST_LEAVES = 4, 70


def runs(program, expected, workers):
    """The check of an image and runs of batches on it."""
    opening = check_fault(program, expected.image, expected.check)
    return faults_of(opening, *(run_fault(program, expected, count) for count in workers if expected.batches))


# ---- made and worked images

def made_image(program, numbers):
    """The image of `make`, and its check."""
    wanted = image_of(records(*numbers))
    _, image, _ = call(program, ['make', *map(str, numbers)])
    return faults_of(difference('image', wanted, image), check_fault(program, wanted, Expected(wanted).check))


def worked_case(program, case):
    """What is wanted in a worked case, by the plain computation, and its image and batches, by both."""
    expected = Expected(case.image) if case.image else None
    plain = worked.fault(case, expected)
    return faults_of(plain and f'plain computation:\n{plain}', runs(program, expected, [1, 3]) if expected else None)


# ---- what looks random

def level_fault(expected, text):
    """Executes a batch in order and in levels, by bits and by granules, and tells what differs."""
    replica, batch = expected.replica, read_batches(text)[0]
    before, first, told = replica.database.copy(), replica.next, expected.add(text)
    footprints = declared(before, batch.requests)
    for number in (itself, bit):
        pairs = worked.in_levels(before, batch, first, cut(footprints, number), told, replica)
        if any(one != other for one, other in pairs):
            return f'batch {replica.sequence}: in levels, other replies, rows or strays'
    return None


def random_runs(program, seed):
    """Four batches on a database that looks random."""
    database = drawn.Database(seed)
    requests, expected = drawn.Requests(database), Expected(database.image())
    return faults_of(*(level_fault(expected, requests.batch(count)) for count in (5, 20, 30, 2)), runs(program, expected, [1, 2 + seed % 7]))


def wide_runs(program, seed):
    """A batch that threads execute in levels, and one more, some of whose requests stray."""
    image, *batches = drawn.wide(seed)
    expected, levels, paths = Expected(image), 0, []
    for batch in batches:
        levels += len(cut(declared(expected.replica.database, read_batches(batch)[0].requests)))
        paths.append(expected.add(batch).path)
    if paths != ['parallel', 'reran']:
        return f'not batches of which the second one strays: {paths}'
    return faults_of(run_fault(program, expected, 1), *(run_fault(program, expected, count, levels) for count in (2, 5)))


# ---- texts of many lengths, and many leaves at once

def customer(w, d, c, length):
    """The record of a customer of bad credit, with so many letters as data."""
    return ['C', w, d, c, f'NAME{c % 7}', 'OE', 'F9', 'BC', 0, 0, 0, 0, 0, length * 'x']


def lengths_image():
    """An image whose customers have texts of 0 to 500 letters."""
    rest = [record for record in records(1, 1, 1) if record[0] != 'C']
    return image_of([*rest, *(customer(1, 1 + length % 10, 1 + length // 10, length) for length in range(501))])


def payments(d, leaves):
    """A batch of payments in a district that change so many leaves, unless two of its rows share one: those of the warehouse and of the
    district, of half as many customers, and of HISTORY."""
    customers = (leaves - 2) // 2
    return batch_text(5, 'commit', [f'P,1,{d},1,{d},I,{1 + place % customers},{100 + place}' for place in range(leaves - 2 - customers)])


def dirty_leaves(program, workers):
    """Batches that change 4 to 70 leaves, of texts of many lengths; fewer, but for none, no batch can."""
    expected, wanted = Expected(lengths_image()), {*range(LEAST_LEAVES, MOST_LEAVES + 1)}
    for d in drawn.DISTRICTS:
        for leaves in wanted - {*expected.leaves}:
            expected.add(payments(d, leaves))
    missing = wanted - {*expected.leaves}
    return faults_of(missing and f'no batch changes so many leaves: {missing}', runs(program, expected, workers))


def long_leaf(program, left_out):
    """An image with a leaf of very many bytes, of all its customers but the first few, some of whom pay."""
    records_by_key = next(worked.cases('long_leaf.txt'))[1].records
    keys = [key for key in records_by_key if key[0] == 'C' and leaf(key) == LONG_LEAF]
    expected = Expected(image_of([records_by_key[key] for key in records_by_key if key not in keys[:left_out]]))
    expected.add(batch_text(0, 'commit', [f'P,{w},{d},{w},{d},I,{c},100' for _, w, d, c in keys[left_out::5]]))
    return runs(program, expected, [2])


# ---- points

def session(batches):
    """Replicas after each of these batches and before them, their texts, and what a session answers."""
    expected = Expected(image_of(records(1, 45, 100)))
    replicas, texts = [expected.replica.copy()], []
    for batch in batches:
        before = len(expected.text)
        expected.add(batch)
        replicas.append(expected.replica.copy())
        texts.append(expected.text[before:])
    return expected.image, replicas, texts


def state_of(replica):
    """The commands that show a state, and the answers to them."""
    stored = write_image(replica.database)
    return 'T\nA\nI\n', (f'state,{replica.sequence},{replica.token.hex()}\nat,{replica.stamp()}\n'
                         f'image,{replica.sequence},{len(stored)}\n{stored}')


def points(program, seed):
    """Goes back from eight uncommitted batches to each state before, and executes the later ones again; then further and further back;
    and to the one that was committed last."""
    dice = drawn.random.Random(seed)
    lines = ['P,1,1,1,1,I,{},1000', 'N,1,{},1,1,1,1,2,1,1,3,1,1,4,1,1,5,1,1', 'D,1,{}', 'P,1,1,1,1,L,NAME0,100{}']
    batches = [batch_text(place, 'commit', [line.format(dice.randint(1, 9)) for line in dice.sample(lines, 3)]) for place in range(8)]
    image, replicas, texts = session(batches)
    commands, answers = ''.join(batches), ''.join(texts)

    def back_to(point):
        nonlocal commands, answers
        shown, state = state_of(replicas[point])
        commands += f'R,{point}\n{shown}'
        answers += f'rollback,{point},{replicas[point].token.hex()}\n{state}'
    for point in range(9):
        back_to(point)
        commands += ''.join(batches[point:])
        answers += ''.join(texts[point:])
    for point in range(7, -1, -1):
        back_to(point)
    commands += ''.join(batches) + 'C\nC\nC\nR,2\nR,9\n'
    answers += ''.join(texts) + 'commit,1\ncommit,2\ncommit,3\nrefused,4,NoSuchPoint\nrefused,4,NoSuchPoint\n'
    back_to(3)
    return serve_fault(program, image, commands, answers)
