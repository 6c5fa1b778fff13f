"""Images and batches that are spoilt a thousand times, from one seed, and the answers to them: a fault or how many batches are read, by the
reader, or the line of `check`, by the plain computation."""
import random

from against import Expected
from case_files import in_version_1, records_text, shown
from reader import fault_of_batches, fault_of_image, stored

SEED = 20_260_101

PIECES = [b'0', b'9', b'1', b'-', b',', b'"', b'x', b'\n', b'\r', b'\0', b'\xff', b' ', b'00', b'-1', b'10', b'1000000000000000',
          b'99999999999999999999999999', b'""', b'E,1\n', b'W,1,A,0,0\n', b'N,1,1,2\n', b'D,1,3,,0\n', b'Y,1,3,0\n', b'X,1,11,1\n']


def lines_of(text):
    """Where each line begins, and its length."""
    places, at = [], 0
    for line in text.splitlines(keepends=True):
        places.append((at, len(line)))
        at += len(line)
    return places


def spoilt(text, pick):
    """A place, how many bytes go there, and the bytes that come."""
    at, way = pick(len(text)), pick(10)
    if way < 5:
        return at, 1, PIECES[pick(len(PIECES))]
    if way == 5:
        return at, 0, PIECES[pick(len(PIECES))]
    if way == 6:
        return at, 1 + pick(4), b''
    start, length = lines_of(text)[pick(len(lines_of(text)))]
    if way == 7:
        return start, length, b''
    if way == 8:
        return start, 0, text[start:start + length]
    return at, len(text) - at, b''


BATCHES = records_text([
    'B,100,commit,5', 'N,1,1,1,1,1,1,2,1,1,3,1,1,4,1,1,5,1,1', 'P,1,1,1,1,I,10,1000', 'P,1,1,1,1,L,NAME7,500000', 'O,1,1,I,1',
    'O,1,1,L,NAME1', 'B,999999999999,rerun,0', 'B,0,commit,3', 'D,1,10', 'S,1,1,20',
    'N,1,10,3000,1,1,10,999999,100,1,3,1,1,4,1,1,5,1,1,6,1,1',
])


def answer_of_image(text):
    found = fault_of_image(text)
    return f'! eve-tpcc: image: {found}' if isinstance(found, str) else Expected(stored(text).decode('ascii')).check.rstrip()


def answer_of_batches(text):
    read, fault = fault_of_batches(text)
    return f'{read} batches, {f"batches: {fault}" if fault else "no fault"}'


def tries(image):
    """A thousand texts that are spoilt: the title of each, whether it is an image, the text, and the answer that is wanted."""
    drawn = random.Random(SEED)
    for title, text, count, answer_of in (('an image', image, 300, answer_of_image), ('an image of version 1', in_version_1(image), 300, answer_of_image),
                                          ('batches', BATCHES, 400, answer_of_batches)):
        for _ in range(count):
            at, gone, piece = spoilt(text, lambda below: int(drawn.random() * below))
            changed = text[:at] + piece + text[at + gone:]
            yield f'{title}: {gone} bytes at {at} become {shown(piece)}', answer_of is answer_of_image, changed, answer_of(changed)
