"""Steps of cases about runs, images that are stored, and tables of answers. checks/cases/README.md describes them."""
import re

import case_files
import reader
from case_files import Text, decoded, records_text, respelt, shown, with_value
from case_steps import HEAD, Wanted, difference, lines_of

NO_ROWS = b'eve-tpcc,2\nE,0\n'
COUNT = re.compile(r'[0-9]+ batches, ')
ROW = re.compile(r'((?:[0-9]+ batches, )?(?:no fault|[a-z]+: [0-9]+ \w+(?:\([0-9]\))?(?: at record [0-9]+)?)): (.*)')


def answer_of(ended):
    """What a run answers: that there is no fault, or the fault's line without its head."""
    if ended.status == 0 and not ended.errors:
        return 'no fault'
    if ended.status == 1 and ended.errors.startswith(HEAD):
        return shown(ended.errors[len(HEAD):].rstrip(b'\n'))
    return f'status {ended.status}, {ended.errors!r}'


def row_of(line):
    """The two parts of a row: an answer, and what is tried."""
    return ROW.fullmatch(line).groups()


def want_run(trial, step, workers, ways, last, count):
    """The run by each number of workers, and by the first with the texts written in other ways."""
    wanted = trial.wanted(step.content)
    tries = [(number, trial.image.text, trial.batches.text) for number in workers.split()]
    for seed in range(1, int(ways or 0) + 1):
        tries.append((workers.split()[0], respelt(trial.image.text, seed), respelt(trial.batches.text, -seed)))
    for number, image, batches in tries:
        trial.lay_out(image, batches)
        ended = trial.room.run(['run', 'image.csv', 'batches.csv', '--workers', number])
        if last:
            trial.tell(step, None if len(ended.output.splitlines()) == int(count) else '    another number of lines', f' by {number}')
            ended.output = b''.join(ended.output.splitlines(keepends=True)[-int(last):])
        trial.compare(step, wanted, ended, f' by {number}')


def want_check(trial, step, times):
    trial.lay_out()
    for _ in range(int(times or 1)):
        trial.compare(step, trial.wanted(step.content), trial.room.run(['check', 'image.csv']))


def want_made(trial, step, *sizes):
    trial.compare(step, Wanted(case_files.made(*map(int, sizes)), b'', 0), trial.room.run(['make', *sizes]))


def stored(trial, batches):
    """The image that a run of these batches stores; where it fails, the file is to stay what it was."""
    trial.lay_out(batches=batches)
    trial.room.write('stored.csv', b'no image\n')
    trial.room.run(['run', 'image.csv', 'batches.csv', '--workers', '2', '--store', 'stored.csv'])
    return trial.room.read('stored.csv')


def want_changes(trial, step):
    """The records that the batches take from the image, behind `-`, and those that they put in, behind `+`."""
    before, after = trial.image.text.splitlines(), stored(trial, trial.batches.text).splitlines()
    got = [f'- {shown(line)}' for line in before if line not in set(after)]
    got += [f'+ {shown(line)}' for line in after if line not in set(before)]
    trial.tell(step, difference(step.content, got))


def want_stored(trial, step, what):
    """The image that a run without a batch stores: written here, as it was given, as a file, or as the reader works it out."""
    if what is None:
        wanted = records_text(step.content)
    elif what == ' as it is':
        wanted = trial.image.text
    else:
        wanted = reader.stored(trial.image.text) if what == ' as read' else trial.read(what[4:])
    trial.tell(step, difference(lines_of(wanted, b'', 0), lines_of(stored(trial, b''), b'', 0)))


def answer(trial, text):
    """The fault of an image, or of batches and behind how many of them."""
    if trial.last is trial.image:
        trial.room.write('image.csv', text)
        ended = trial.room.run(['check', 'image.csv'])
        return answer_of(ended)
    trial.lay_out(trial.image.text or NO_ROWS, text)
    ended = trial.room.run(['run', 'image.csv', 'batches.csv'])
    return f'{ended.output.count(b"batch,")} batches, {answer_of(ended)}'


def try_one(trial, step, wanted, text, what=''):
    got = answer(trial, text)
    if not COUNT.match(wanted):
        got = COUNT.sub('', got)
    trial.tell(step, None if got == wanted else f'    wanted {wanted}\n    got    {got}', what and f': {what}')


def try_spoilt(trial, title, is_image, text, wanted):
    """A text that was spoilt at random: the line of an image, or how many batches are read."""
    step = case_files.Step(title, 0)
    trial.last = Text(text)
    if is_image:
        trial.lay_out(image=text)
        trial.compare(step, trial.wanted([wanted]), trial.room.run(['check', 'image.csv']))
    else:
        try_one(trial, step, wanted, text)


def want_answer(trial, step):
    try_one(trial, step, step.content[0], trial.last.text)


def want_texts(trial, step, what, chopped):
    """The answer to each of these texts: rows of an answer, a colon and the text up to its last line end."""
    trial.last = trial.image if what == 'images' else trial.batches
    for answer, value in map(row_of, step.content):
        try_one(trial, step, answer, decoded(value) + (b'' if chopped else b'\n'), value)


def want_records(trial, step, number):
    """The answer with each of these records in the place of one: rows of an answer, a colon and a record."""
    for answer, value in map(row_of, step.content):
        try_one(trial, step, answer, with_value(trial.last.text, int(number), 0, decoded(value)), value)


def want_fields(trial, step, number, field):
    """The answer with each of these values in a field: rows of an answer, a colon, and values between bars."""
    for answer, values in map(row_of, step.content):
        for name, others in trial.sets.items():
            values = values.replace(name, others)
        for value in values.split('|'):
            try_one(trial, step, answer, with_value(trial.last.text, int(number), int(field), decoded(value)), value)


def want_cuts(trial, step):
    """The answer for each beginning of the text: rows of an answer, a colon, and lengths."""
    tried = []
    for answer, spans in map(row_of, step.content):
        for span in spans.split():
            first, _, last = span.partition('-')
            for length in range(int(first), int(last or first) + 1):
                tried.append(length)
                try_one(trial, step, answer, trial.last.text[:length], str(length))
    trial.tell(step, None if sorted(tried) == [*range(len(trial.last.text) + 1)] else '    not each length stands here once')


STEPS = [
    (r'run by ([0-9 ]+?)(?:, respelt in ([0-9]+) ways)?(?:, the last ([0-9]+) of ([0-9]+) lines)?', want_run),
    (r'check(?:, ([0-9]+) times)?', want_check),
    (r'make (\S+) (\S+) (\S+)', want_made),
    ('changes', want_changes),
    (r'stored( as it is| as read| as \S+)?', want_stored),
    ('fault|read', want_answer),
    ('texts of (images|batches)(, less the last byte)?', want_texts),
    ('record ([0-9]+)', want_records),
    ('record ([0-9]+), field ([0-9]+)', want_fields),
    ('cuts', want_cuts),
]
