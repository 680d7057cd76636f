"""Every order of the events of one small cluster: how many there are, and each by its number.

The cluster has two proxies, which have the batches in turn, some resolvers and a move. The batches are sequenced in one
order. A row is offered to a resolver after it was sequenced and after the row before it was offered there. A proxy finishes
a row after it was offered to every resolver, and its rows in order. The move can stand anywhere. With repeats each offer is
given twice, and the second time any time after the first; it is refused where its reply was acknowledged by then, as
docs/FORMATS.md says. No other event is refused.

Orders are counted by the states between their events, of which there are few, and never listed.
"""
import itertools
import random
import sys

from tests.scripts.common.script import KEY_SERVERS, LOCKED, SERVER_1, SERVER_2, write
from tests.scripts.turns.words import finish, move, offer, one_key, put, put_servers, put_tag, sequence, transaction, turns

from .cases import Case

PROXIES, STEP, WINDOW = 2, 10, 100
# how many states are looked at before a cluster is too large
MOST_STATES = 50_000


class TooLarge(Exception):
    """Of a cluster with too many states."""


class Orders:
    """All orders of a cluster, or a sample of them, whose batches a seed decides."""

    what = "order"

    def __init__(self, batches, resolvers, repeats, seed, sample=None):
        self.batches, self.resolvers, self.repeats, self.seed = batches, resolvers, repeats, seed
        self.counts = {}
        # a state: how many rows are sequenced, whether the move is made; for each resolver how many rows it was offered, and
        # which of them again; for each proxy how many rows it has finished
        self.first = 0, False, (0,) * resolvers, (0,) * resolvers, (0,) * PROXIES
        self.total = self.count(self.first)
        if self.total > sys.maxsize and sample is None:
            raise TooLarge("the cluster has %d orders: take --sample" % self.total)
        self.given = drawn_batches(batches, random.Random("orders %s" % seed))
        rng = random.Random("sample %s" % seed)
        self.sample = None if sample is None or sample >= self.total else [rng.randrange(self.total) for _ in range(sample)]

    def __len__(self):
        return self.total if self.sample is None else len(self.sample)

    def case(self, number):
        place = number if self.sample is None else self.sample[number]
        words = "order %d of tools/compare --orders --batches %d --resolvers %d%s --seed %s" % (
            place, self.batches, self.resolvers, " --repeats" * self.repeats, self.seed)
        return Case("turns", "order-%s-%d" % (self.seed, place), words, self.script_of(self.order(place)))

    def script_of(self, order):
        """The bytes of the script with these events."""
        events = [self.event(*it) for it in order]
        return write(turns(*events, ask=["n"], proxies=PROXIES, resolvers=self.resolvers, window=WINDOW, step=STEP)).encode()

    # -- the states

    def ways_on(self, state):
        """The events that can come in a state, each with the state after it."""
        sequenced, moved, offered, again, finished = state
        if not moved:
            yield ("move", self.resolvers - 1), (sequenced, True, offered, again, finished)
        if sequenced < self.batches:
            yield ("sequence", sequenced, sequenced % PROXIES), (sequenced + 1, moved, offered, again, finished)
        for resolver, count in enumerate(offered):
            if count < sequenced:
                yield ("offer", count, resolver), (sequenced, moved, with_one_more(offered, resolver), again, finished)
            for row in range(count if self.repeats else 0):
                if not again[resolver] >> row & 1:
                    yield (
                        ("offer", row, resolver),
                        (sequenced, moved, offered, with_one_more(again, resolver, 1 << row), finished),
                    )
        for proxy, count in enumerate(finished):
            if count * PROXIES + proxy < min(sequenced, *offered):
                yield ("finish", proxy), (sequenced, moved, offered, again, with_one_more(finished, proxy))

    def asked(self, state):
        """The events that can be asked for in a state, refused ones too. Each kind also with a number that names nothing."""
        sequenced = state[0]
        yield from (("move", resolver) for resolver in (self.resolvers - 1, self.resolvers))
        yield from [("sequence", sequenced, sequenced % PROXIES)] if sequenced < self.batches else []
        yield "sequence", 0, PROXIES
        yield from (("offer", *it) for it in itertools.product(range(self.batches + 1), range(self.resolvers + 1)))
        yield from (("finish", proxy) for proxy in range(PROXIES + 1))

    def count(self, state):
        """In how many orders the events that are left can come."""
        if state not in self.counts:
            if len(self.counts) >= MOST_STATES:
                raise TooLarge("the cluster has more than %d states: take fewer batches or resolvers" % MOST_STATES)
            after = [it for _, it in self.ways_on(state)]
            self.counts[state] = sum(map(self.count, after)) if after else 1
        return self.counts[state]

    def order(self, place):
        """The events of the order with this number."""
        state, events = self.first, []
        while True:
            for event, after in self.ways_on(state):
                if place < self.counts[after]:
                    state = after
                    events.append(event)
                    break
                place -= self.counts[after]
            else:
                return events

    def event(self, kind, *words):
        if kind == "move":
            return move("m", "t", *words)
        if kind == "sequence":
            row, proxy = words
            return sequence(proxy, *self.given[row])
        return offer(*words) if kind == "offer" else finish(*words)


def with_one_more(counts, place, more=1):
    return counts[:place] + (counts[place] + more,) + counts[place + 1 :]


# ---- the batches


def drawn_batches(count, rng):
    """Batches that a move of the range from m to t changes: each writes a key there, which no state transaction does, so its
    requests tell whether the move came before. Each but the first reads what the batch before it wrote there, and conflicts.
    The first writes rows of the metadata, and one before the last locks the database, which later ones meet.
    """
    taken, other = rng.choice(["m", "n", "s"]), rng.choice(["a", "l", "t"])
    rows_server, lock_server = rng.sample([SERVER_1, SERVER_2], 2)
    rows = transaction(
        0, [], [one_key(taken)], [put_tag(rows_server, "\\x00\\x00\\x01"), put_servers("", rows_server)], True,
    )
    lock = transaction(0, [], [one_key(LOCKED)], [put(LOCKED, "L"), put_tag(lock_server, "\\x00\\x00\\x02")], True)
    batches = [drawn_batch(number, taken, other, rng) for number in range(count)]
    batches[0].insert(0, rows)
    batches[rng.randrange(max(count - 1, 1))].append(lock)
    return batches


def drawn_batch(number, taken, other, rng):
    """The conflict of a batch but the first, its write of the key that the move takes, and one more transaction."""
    before = rng.randrange(STEP * number + 1)
    conflict = transaction(rng.randrange(STEP * number or 1), [one_key(taken)], [one_key(other)], [put(other, "1")])
    writes = transaction(0, [], [one_key(taken)], [put(taken, "%d" % number)])
    more = rng.choice([
        transaction(before, [one_key(other)], [one_key("k")], [put("k", "2")], rng.random() < 0.5),
        transaction(before, [["a", "z"]], [[taken, "z"]], [put(taken, "3")]),
        transaction(before, [], [["a", "z"]], [put(other, "4")]),
        transaction(
            before, [one_key(other)], [], [put(KEY_SERVERS + "m", "\\x01%s\\x00" % rng.choice([SERVER_1, SERVER_2]))],
            rng.random() < 0.5,
        ),
    ])
    return [*([conflict] if number else []), writes, more]
