"""What requests touch and declare, their levels, and whether they stray (DEFINITIONS, 'What a request touches' and 'Footprints and
levels'). A granule is spelled as a letter and its numbers, as in `('B', 1, 3)` for a book."""
from collections import namedtuple

from plain.steps import (DISTRICTS, Delivery, NewOrder, OrderStatus, Payment, Refused, StockLevel, found, new_orders, recent_items,
                         step)

Footprint = namedtuple('Footprint', 'reads writes')
NOTHING = Footprint(frozenset(), frozenset())


def delivered(rows, w, place):
    """What a delivery touches that finds in each district the new order with so many others before it."""
    reads, writes = {('B', w, d) for d in DISTRICTS}, set()
    for d in DISTRICTS:
        for o in new_orders(rows, w, d)[place:place + 1]:
            writes |= {('B', w, d), ('C', w, d, rows['O', w, d, o].c)}
    return Footprint(reads | writes, writes)


def counted(database, p, items):
    """The stocks of a warehouse of these items."""
    return {('S', p.w, i) for i in items if ('S', p.w, i) in database.cards}


def touch(database, request, place=0):
    """What a request touches; of a delivery, what it would touch with so many others before it."""
    try:
        customer = found(database, request)
    except Refused:
        return NOTHING
    p = request
    if isinstance(p, NewOrder):
        writes = {('X', p.w, p.d), ('B', p.w, p.d), *(('S', line.supply, line.item) for line in p.lines)}
        return Footprint(writes, writes)
    if isinstance(p, Payment):
        writes = {('W', p.w), ('Y', p.w, p.d), ('C', p.cw, p.cd, customer)}
        return Footprint(writes, writes)
    if isinstance(p, OrderStatus):
        return Footprint({('C', p.w, p.d, customer), ('B', p.w, p.d)}, set())
    if isinstance(p, Delivery):
        return delivered(database.rows, p.w, place)
    return Footprint({('X', p.w, p.d), ('B', p.w, p.d)} | counted(database, p, recent_items(database.rows, p.w, p.d)), set())


def ordered_ahead(database, p, earlier):
    """The items that earlier requests of a batch order in a stock level's district, unless they're refused for what isn't there."""
    items = set()
    for order in earlier:
        if isinstance(order, NewOrder) and (order.w, order.d) == (p.w, p.d) and touch(database, order) is not NOTHING:
            items |= {line.item for line in order.lines}
    return items


def declared(database, requests):
    """What each request of a batch declares."""
    footprints = []
    for place, p in enumerate(requests):
        earlier = requests[:place]
        before = sum(isinstance(other, Delivery) and other.w == p.w for other in earlier) if isinstance(p, Delivery) else 0
        footprint = touch(database, p, before)
        if isinstance(p, StockLevel) and footprint is not NOTHING:
            footprint = Footprint(footprint.reads | counted(database, p, ordered_ahead(database, p, earlier)), set())
        footprints.append(footprint)
    return footprints


def undeclared(footprint, touched):
    """The granules that a touch reads or writes, and a footprint doesn't."""
    return (touched.reads - footprint.reads) | (touched.writes - footprint.writes)


def itself(granule):
    """A granule as its own number."""
    return granule


def cut(footprints, number=itself):
    """The places of each level, by a numbering of granules: a footprint meets another if one writes a number that the other touches."""
    numbered = [Footprint(*({number(granule) for granule in granules} for granules in footprint)) for footprint in footprints]
    levels, places = [], []
    for place, one in enumerate(numbered):
        level = 1 + max((levels[k] for k in range(place) if one.writes & numbered[k].reads or one.reads & numbered[k].writes), default=-1)
        levels.append(level)
        places += [[]] if level == len(places) else []
        places[level].append(place)
    return places


def run_levels(database, batch, first, footprints, levels):
    """The places that stray in the first level in which some do; else none. The replies by place, if none stray. The rows change."""
    replies = {}
    for level in levels:
        strays = [place for place in level if undeclared(footprints[place], touch(database, batch.requests[place]))]
        if strays:
            return strays, None
        steps = [(place, *step(database, batch.requests[place], first + place, batch.moment)) for place in level]
        for place, reply, changes in steps:
            replies[place] = reply
            database.rows.change(changes)
    return [], [replies[place] for place in range(len(batch.requests))]
