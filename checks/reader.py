"""A plain reader of images and batches, written from docs/FORMATS.md. It shares no code with the program: its answers are what cases want
of images and batches that are spoilt at random."""

# ---- records of a CSV text, as bytes -------------------------------------------------------------------------------------


def records(text):
    """The records: fields between commas, lines ended by CR, LF or both, empty lines passed over; a field that begins with a
    quotation mark goes to its end, where two stand for one, and whatever stands behind that end belongs to it too."""
    found, record, field, state = [], [], bytearray(), 'start'
    for byte in text:
        c = bytes([byte])
        if state == 'start':
            if c in b'\r\n':
                continue
            state = 'field'
        if state == 'field' and c == b'"':
            state = 'quoted'
        elif state == 'quoted':
            if c == b'"':
                state = 'after'
            else:
                field += c
        elif state == 'after' and c == b'"':
            field += c
            state = 'quoted'
        elif c == b',':
            record.append(bytes(field))
            field, state = bytearray(), 'field'
        elif c in b'\r\n':
            found.append(record + [bytes(field)])
            record, field, state = [], bytearray(), 'start'
        else:
            field += c
            state = 'plain'
    if state != 'start':
        found.append(record + [bytes(field)])
    return found


# ---- values of fields ----------------------------------------------------------------------------------------------------


class Bad(Exception):
    """A field that is none of its kind."""


class Beyond(Exception):
    """A number outside its range."""


def number(least, most):
    def read(field):
        digits = field[1:] if least < 0 and field[:1] == b'-' else field
        if not digits or any(c not in b'0123456789' for c in digits) or digits[:1] == b'0' and digits != b'0':
            raise Bad
        if digits != field and digits == b'0':
            raise Bad
        value = -int(digits) if digits != field else int(digits)
        if not least <= value <= most:
            raise Beyond
        return value
    return read


def text(most):
    def read(field):
        if len(field) > most or any(not 0x20 <= c <= 0x7E for c in field):
            raise Bad
        return field
    return read


def one_of(*words):
    def read(field):
        if field not in words:
            raise Bad
        return field
    return read


def or_null(read):
    return lambda field: None if field == b'-' else read(field)


MONEY = number(-10**15, 10**15)
COUNT = number(0, 10**9)
RATE = number(0, 9999)
MOMENT = number(0, 999_999_999_999)
W, D, C, I = number(1, 100), number(1, 10), number(1, 3000), number(1, 100_000)
O, LINE, AMOUNT = number(1, 9_999_998), number(1, 15), number(0, 999_999)
H = number(1, 999_999_999_999_999)

NEXT = number(1, 9_999_999)
DISTRICT = [W, D, text(10), RATE]

COLUMNS = {
    b'W': [W, text(10), RATE, MONEY],
    b'C': [W, D, C, text(16), text(2), text(16), one_of(b'GC', b'BC'), RATE, MONEY, MONEY, COUNT, COUNT, text(500)],
    b'I': [I, text(24), number(0, 99_999), text(50)],
    b'S': [W, I, number(-9999, 9999), COUNT, COUNT, COUNT, text(50)] + 10 * [text(24)],
    b'O': [W, D, O, C, MOMENT, or_null(number(1, 10)), LINE, number(0, 1)],
    b'N': [W, D, O],
    b'L': [W, D, O, LINE, I, W, or_null(MOMENT), number(0, 99), AMOUNT, text(24)],
    b'H': [H, C, D, W, D, W, MOMENT, AMOUNT, text(24)],
}
COLUMNS_OF = {
    b'1': {**COLUMNS, b'D': DISTRICT + [MONEY, NEXT]},
    b'2': {**COLUMNS, b'D': DISTRICT, b'Y': [W, D, MONEY], b'X': [W, D, NEXT]},
}
STORED = (b'W', b'D', b'Y', b'X', b'C', b'I', b'S', b'O', b'N', b'L', b'H')
KEY_LENGTH = {b'W': 1, b'D': 2, b'Y': 2, b'X': 2, b'C': 3, b'I': 1, b'S': 2, b'O': 3, b'N': 3, b'L': 4, b'H': 1}

# ---- images --------------------------------------------------------------------------------------------------------------


def read_record(columns, kind, fields):
    if kind not in columns or len(fields) != len(columns[kind]):
        raise Bad
    return [read(field) for read, field in zip(columns[kind], fields)]


def put(tables, kind, key, columns):
    """A district's columns that change stand in tables of their own, in either version."""
    tables[kind][key] = columns
    if kind == b'D' and len(columns) == 4:
        tables[kind][key], tables[b'Y'][key], tables[b'X'][key] = columns[:2], columns[2:3], columns[3:]


def fault_of_image(image):
    """The fault as its line says it, or the tables."""
    tables, ended, columns = {kind: {} for kind in KEY_LENGTH}, False, None
    for n, record in enumerate(records(image), 1):
        if n == 1:
            columns = COLUMNS_OF.get(record[1]) if len(record) == 2 and record[0] == b'eve-tpcc' else None
            if columns is None:
                return f'1 BadRecord at record {n}'
            continue
        kind, fields = record[0], record[1:]
        if ended:
            return f'1 BadRecord at record {n}'
        if kind == b'E':
            if len(fields) != 1 or fields[0] != str(n - 2).encode():
                return f'1 BadRecord at record {n}'
            ended = True
            continue
        try:
            values = read_record(columns, kind, fields)
        except Bad:
            return f'1 BadRecord at record {n}'
        except Beyond:
            return f'5 LimitReached at record {n}'
        key = tuple(values[:KEY_LENGTH[kind]])
        if key in tables[kind]:
            return f'2 Duplicate at record {n}'
        put(tables, kind, key, values[KEY_LENGTH[kind]:])
    if not ended:
        return '8 Truncated'
    if lacks_a_parent(tables):
        return '3 MissingParent'
    for condition, holds in enumerate((condition_1, condition_2, condition_3, condition_4), 1):
        if not holds(tables):
            return f'4 Inconsistent({condition})'
    return tables


def lacks_a_parent(t):
    w, d, c, i, s = t[b'W'], t[b'D'], t[b'C'], t[b'I'], t[b'S']
    return not (
        all((x, y) in d for (x,) in w for y in range(1, 11))
        and all((x,) in w for x, _ in d)
        and d.keys() == t[b'Y'].keys() == t[b'X'].keys()
        and all((x,) in w and (x, y) in d for x, y, _ in c)
        and all((x,) in w and (item,) in i for x, item in s)
        and all((x, y) in d and (x, y, row[0]) in c for (x, y, _), row in t[b'O'].items())
        and all(key in t[b'O'] for key in t[b'N'])
        and all(key[:3] in t[b'O'] and t[b'O'][key[:3]][3] >= key[3] and (row[1], row[0]) in s for key, row in t[b'L'].items())
        and all((row[2], row[1], row[0]) in c and (row[4], row[3]) in d for row in t[b'H'].values()))


def condition_1(t):
    return all(row[2] == sum(ytd for (x, _), (ytd,) in t[b'Y'].items() if x == w) for (w,), row in t[b'W'].items())


def orders_of(t, kind, district):
    return [key[2] for key in t[kind] if key[:2] == district]


def condition_2(t):
    return all(after - 1 == max(orders_of(t, b'O', key), default=0)
               and (not orders_of(t, b'N', key) or after - 1 == max(orders_of(t, b'N', key)))
               for key, (after,) in t[b'X'].items())


def condition_3(t):
    spans = [orders_of(t, b'N', key) for key in t[b'D']]
    return all(not n or max(n) - min(n) + 1 == len(n) for n in spans)


def condition_4(t):
    return all(sum(row[3] for o, row in t[b'O'].items() if o[:2] == key) == sum(line[:2] == key for line in t[b'L'])
               for key in t[b'D'])


# ---- images that are stored ----------------------------------------------------------------------------------------------


def written(value):
    """A field as it is stored."""
    field = value if isinstance(value, bytes) else b'-' if value is None else str(value).encode()
    return b'"' + field.replace(b'"', b'""') + b'"' if any(c in b',"\r\n' for c in field) else field


def stored(image):
    """The image that is stored of the database of a sound one."""
    tables = fault_of_image(image)
    lines = [b','.join([kind, *map(written, key + tuple(tables[kind][key]))]) for kind in STORED for key in sorted(tables[kind])]
    return b'\n'.join([b'eve-tpcc,2', *lines, b'E,%d' % len(lines), b''])


# ---- batches -------------------------------------------------------------------------------------------------------------

ITEM_LINE = [number(1, 999_999), W, number(1, 10)]
CUSTOMER = {b'I': C, b'L': text(16)}


def columns_of(record):
    """How the fields of a request are read; None where there are too many or too few."""
    count, by = len(record) - 1, lambda place: CUSTOMER.get(record[place], C)
    if record[0] == b'N':
        lines = (count - 3) // 3
        return [W, D, C] + lines * ITEM_LINE if (count - 3) % 3 == 0 and 5 <= lines <= 15 else None
    columns = {
        b'P': lambda: [W, D, W, D, one_of(b'I', b'L'), by(5), number(100, 500_000)],
        b'O': lambda: [W, D, one_of(b'I', b'L'), by(3)],
        b'D': lambda: [W, number(1, 10)],
        b'S': lambda: [W, D, number(10, 20)],
    }[record[0]]
    lengths = {b'P': 7, b'O': 4, b'D': 2, b'S': 3}
    return columns() if count == lengths[record[0]] else None


def count_of(field):
    value = number(0, 10**30)(field)
    if value > 1024:
        raise OverflowError
    return value


def fault_of_batches(batches):
    """How many batches are read, and the fault that follows, None where none does."""
    read, left, n = 0, None, 0
    for n, record in enumerate(records(batches), 1):
        wanted = b'B' if left is None else (b'N', b'P', b'O', b'D', b'S')
        if record[0] not in wanted or not record[0]:
            return read, f'4 UnknownKind at record {n}'
        columns = columns_of(record) if left is not None else [MOMENT, one_of(b'commit', b'rerun'), count_of]
        if columns is None or len(columns) != len(record) - 1:
            return read, f'2 WrongCount at record {n}'
        try:
            values = [column(field) for column, field in zip(columns, record[1:])]
        except Bad:
            return read, f'1 BadField at record {n}'
        except Beyond:
            return read, f'3 OutOfRange at record {n}'
        except OverflowError:
            return read, f'5 BatchTooLong at record {n}'
        left = values[2] if left is None else left - 1
        if left == 0:
            read, left = read + 1, None
    return read, None if left is None else f'2 WrongCount at record {n + 1}'
