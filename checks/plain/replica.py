"""A replica: a database on which batches are executed one request after the other (DEFINITIONS, 'One after the other')."""
from collections import namedtuple

from plain.database import split, written
from plain.hashes import catalog_digest, leaf, replies_digest, root, token
from plain.levels import declared, touch, undeclared
from plain.steps import read_request, step

Batch = namedtuple('Batch', 'moment verdict requests')
# What is known of an executed batch: its replies, its path, the leaves whose rows it changed, and by the places of the requests that
# strayed what each touched and hadn't declared.
Told = namedtuple('Told', 'replies path leaves strays')


def read_batches(text):
    """The batches of a text."""
    records, batches = split(text), []
    while records:
        _, moment, verdict, count = records[0]
        batches.append(Batch(int(moment), verdict, [read_request(fields) for fields in records[1:int(count) + 1]]))
        del records[:int(count) + 1]
    return batches


def batch_text(moment, verdict, requests):
    """A batch of these lines."""
    return ''.join([f'B,{moment},{verdict},{len(requests)}\n', *(line + '\n' for line in requests)])


class Replica:
    """A state: a database, the numbers of the last batch and of the next request, and the token."""

    def __init__(self, database):
        self.database = database
        self.sequence = 0
        self.next = 1 + max((key[1] for key in database.rows.shelves[('H',)]), default=0)
        self.catalog = catalog_digest(database.cards)
        self.token = self.token_after(bytes(32), [])

    def token_after(self, prior, replies):
        """The token of the present rows and these replies."""
        return token(self.sequence, prior, self.catalog, root(self.database.rows), replies_digest(replies))

    def copy(self):
        """The same state, which may change apart."""
        other = Replica.__new__(Replica)
        other.__dict__.update(self.__dict__, database=self.database.copy())
        return other

    def execute(self, batch):
        """Executes a batch, and tells of it."""
        footprints, replies, leaves, strays = declared(self.database, batch.requests), [], set(), {}
        for place, request in enumerate(batch.requests):
            beyond = undeclared(footprints[place], touch(self.database, request))
            if beyond:
                strays[place] = beyond
            reply, changes = step(self.database, request, self.next + place, batch.moment)
            self.database.rows.change(changes)
            replies.append(reply)
            leaves |= {leaf(key) for key in changes}
        self.sequence, self.next = self.sequence + 1, self.next + len(replies)
        self.token = self.token_after(self.token, replies)
        path = 'verdict' if batch.verdict == 'rerun' else 'reran' if strays else 'parallel'
        return Told(replies, path, leaves, strays)

    def text_of(self, told):
        """The text of the batch that was executed last."""
        return written([*told.replies, ['batch', self.sequence, told.path, self.token.hex()]])

    def stamp(self):
        """The state's stamp, as it is spelled."""
        return f'{self.sequence},{self.next},{self.token.hex()}'
