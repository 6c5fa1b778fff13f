"""The five transactions, a request at a time (DEFINITIONS, 'The step of a request')."""
from collections import namedtuple

from plain.database import KINDS

NewOrder = namedtuple('NewOrder', 'w d c lines')
Payment = namedtuple('Payment', 'w d cw cd form customer amount')
OrderStatus = namedtuple('OrderStatus', 'w d form customer')
Delivery = namedtuple('Delivery', 'w carrier')
StockLevel = namedtuple('StockLevel', 'w d threshold')
OrderedLine = namedtuple('OrderedLine', 'item supply quantity')
NAMES = {NewOrder: 'new-order', Payment: 'payment', OrderStatus: 'order-status', Delivery: 'delivery', StockLevel: 'stock-level'}
DISTRICTS = range(1, 11)
MOST_CENTS, MOST_COUNT, LAST_ORDER, MOST_STOCK = 10 ** 15, 10 ** 9, 9999998, 9999


class Refused(Exception):
    """A request is refused, with a code and a text."""


ITEM_NOT_VALID = (1, 'Item number is not valid')
UNKNOWN_KEY = (2, 'Unknown key')
LIMIT_REACHED = (3, 'Limit reached')


def named(form, field):
    """A customer's number or last name."""
    return int(field) if form == 'I' else field


def read_request(fields):
    """The request of a record."""
    kind, *rest = fields
    if kind == 'N':
        w, d, c, *lines = map(int, rest)
        return NewOrder(w, d, c, [OrderedLine(*lines[place:place + 3]) for place in range(0, len(lines), 3)])
    if kind == 'P':
        return Payment(*map(int, rest[:4]), rest[4], named(rest[4], rest[5]), int(rest[6]))
    if kind == 'O':
        return OrderStatus(int(rest[0]), int(rest[1]), rest[2], named(rest[2], rest[3]))
    return (Delivery if kind == 'D' else StockLevel)(*map(int, rest))


# ---- what is found

def known(database, *keys):
    """Refuses a request if one of the keys has no card."""
    if any(key not in database.cards for key in keys):
        raise Refused(*UNKNOWN_KEY)


def chosen(database, w, d, form, customer):
    """The number of the customer that a request names."""
    if form == 'I':
        known(database, ('C', w, d, customer))
        return customer
    holders = sorted((card.first, key[3]) for key, card in database.cards.items()
                     if key[:3] == ('C', w, d) and card.last == customer)
    if not holders:
        raise Refused(*UNKNOWN_KEY)
    return holders[(len(holders) + 1) // 2 - 1][1]


def found(database, request):
    """The number of the request's customer, or None if it has none. Refuses what isn't there."""
    if isinstance(request, NewOrder):
        known(database, ('W', request.w), ('D', request.w, request.d), ('C', request.w, request.d, request.c))
        if any(('I', line.item) not in database.cards for line in request.lines):
            raise Refused(*ITEM_NOT_VALID)
        known(database, *(('S', line.supply, line.item) for line in request.lines))
        return request.c
    if isinstance(request, Payment):
        known(database, ('W', request.w), ('D', request.w, request.d))
        return chosen(database, request.cw, request.cd, request.form, request.customer)
    if isinstance(request, OrderStatus):
        return chosen(database, request.w, request.d, request.form, request.customer)
    known(database, ('W', request.w) if isinstance(request, Delivery) else ('D', request.w, request.d))
    return None


def new_orders(rows, w, d):
    """The numbers of a district's new orders, ascending."""
    return sorted(key[3] for key in rows.within('N', w, d))


def last_order(rows, w, d, c):
    """The number of a customer's last order, or None."""
    return max((key[3] for key, row in rows.within('O', w, d).items() if row.c == c), default=None)


def lines_of(rows, w, d, o):
    """The lines of an order by key, ascending."""
    return sorted((key, row) for key, row in rows.within('L', w, d).items() if key[3] == o)


def recent_items(rows, w, d):
    """The items in the lines of a district's last twenty orders."""
    end = rows['X', w, d].next
    return {row.item for key, row in rows.within('L', w, d).items() if end - 20 <= key[3] < end}


def within(value, least, most):
    """The value, which has to be within its limits."""
    if not least <= value <= most:
        raise Refused(*LIMIT_REACHED)
    return value


def cents(value):
    """A sum of money within its limits."""
    return within(value, -MOST_CENTS, MOST_CENTS)


def count(value):
    """A count within its limits."""
    return within(value, 0, MOST_COUNT)


# ---- the transactions: the fields of the reply behind `ok`, and the changes

def sold(stock, line, w):
    """The row of a stock after a line of an order of this warehouse."""
    quantity = stock.quantity - line.quantity
    return stock._replace(quantity=within(quantity if quantity >= 10 else quantity + 91, -MOST_STOCK, MOST_STOCK),
                          ytd=count(stock.ytd + line.quantity), order_cnt=count(stock.order_cnt + 1),
                          remote_cnt=count(stock.remote_cnt + (line.supply != w)))


def new_order(database, p, c, _, moment):
    """Clause 2.4."""
    cards, rows = database.cards, database.rows
    o = within(rows['X', p.w, p.d].next, 1, LAST_ORDER)
    local = int(all(line.supply == p.w for line in p.lines))
    changes = {('X', p.w, p.d): KINDS['X'].row(o + 1), ('N', p.w, p.d, o): KINDS['N'].row(),
               ('O', p.w, p.d, o): KINDS['O'].row(c, moment, None, len(p.lines), local)}
    shown, total = [], 0
    for place, line in enumerate(p.lines, 1):
        key, item, card = ('S', line.supply, line.item), cards['I', line.item], cards['S', line.supply, line.item]
        changes[key] = sold(changes[key] if key in changes else rows[key], line, p.w)
        amount = line.quantity * item.price
        changes['L', p.w, p.d, o, place] = KINDS['L'].row(line.item, line.supply, None, line.quantity, amount, card[p.d])
        shown += [changes[key].quantity, 'B' if 'ORIGINAL' in item.data and 'ORIGINAL' in card.data else 'G', amount]
        total += amount
    taxes = 10000 + cards['W', p.w].tax + cards['D', p.w, p.d].tax
    total = (total * (10000 - cards['C', p.w, p.d, c].discount) * taxes + 50000000) // 100000000
    return [o, total, *shown], changes


def payment(database, p, c, number, moment):
    """Clause 2.5."""
    cards, rows, key = database.cards, database.rows, ('C', p.cw, p.cd, c)
    row, card, data = rows[key], cards[key], rows[key].data
    if card.credit == 'BC':
        data = f'{c} {p.cd} {p.cw} {p.d} {p.w} {p.amount}|{data}'[:500]
    paid = row._replace(balance=cents(row.balance - p.amount), ytd_payment=cents(row.ytd_payment + p.amount),
                        payment_cnt=count(row.payment_cnt + 1), data=data)
    name = cards['W', p.w].name + '    ' + cards['D', p.w, p.d].name
    changes = {('W', p.w): KINDS['W'].row(cents(rows['W', p.w].ytd + p.amount)),
               ('Y', p.w, p.d): KINDS['Y'].row(cents(rows['Y', p.w, p.d].ytd + p.amount)), key: paid,
               ('H', number): KINDS['H'].row(c, p.cd, p.cw, p.d, p.w, moment, p.amount, name)}
    return [c, paid.balance, card.credit, *([data[:200]] if card.credit == 'BC' else [])], changes


def order_status(database, p, c, *_):
    """Clause 2.6."""
    rows, key = database.rows, ('C', p.w, p.d, c)
    card, o = database.cards[key], last_order(database.rows, p.w, p.d, c)
    reply = [c, card.first, card.middle, card.last, rows[key].balance]
    if o is None:
        return [*reply, None], {}
    order = rows['O', p.w, p.d, o]
    lines = [[row.item, row.supply, row.quantity, row.amount, row.delivery] for _, row in lines_of(rows, p.w, p.d, o)]
    return [*reply, o, order.entry, order.carrier, *sum(lines, [])], {}


def delivery(database, p, _, __, moment):
    """Clause 2.7."""
    rows, changes, delivered = database.rows, {}, []
    for d in DISTRICTS:
        o = min(new_orders(rows, p.w, d), default=None)
        delivered.append(o)
        if o is not None:
            order, lines = rows['O', p.w, d, o], lines_of(rows, p.w, d, o)
            key = ('C', p.w, d, order.c)
            changes['N', p.w, d, o] = None
            changes['O', p.w, d, o] = order._replace(carrier=p.carrier)
            changes.update((line, row._replace(delivery=moment)) for line, row in lines)
            changes[key] = rows[key]._replace(balance=cents(rows[key].balance + sum(row.amount for _, row in lines)),
                                              delivery_cnt=count(rows[key].delivery_cnt + 1))
    return delivered, changes


def stock_level(database, p, *_):
    """Clause 2.8."""
    items = [i for i in recent_items(database.rows, p.w, p.d) if ('S', p.w, i) in database.cards]
    return [sum(database.rows['S', p.w, i].quantity < p.threshold for i in items)], {}


CASES = {NewOrder: new_order, Payment: payment, OrderStatus: order_status, Delivery: delivery, StockLevel: stock_level}


def step(database, request, number, moment):
    """The reply to a request, as its record's fields, and its changes: by key the new row, or None."""
    name = NAMES[type(request)]
    try:
        fields, changes = CASES[type(request)](database, request, found(database, request), number, moment)
    except Refused as refusal:
        return [number, name, 'refused', *refusal.args], {}
    return [number, name, 'ok', *fields], changes
