"""Random turns scripts, by few keys, servers and values, so that reads and writes, moves and rows meet.

A script is drawn event by event, with most offers and finishes in their turn and some out of it.
"""
import copy

from tests.scripts.common.script import BATCH_TOO_LARGE
from tests.scripts.turns.content_cases import MUTATION_FAULTS, RANGE_FAULTS
from tests.scripts.turns.words import finish, move, offer, sequence, transaction, turns

from .faults import spelled_wrong
from .fold import GREATEST, KEYS, OTHERS, SERVERS, TAGS, change, clear, location
from .spelling import text

POINTS = [b"a", b"b", b"c", b"d", b"e", b"m", b"n", b"\xff", b"\xff/dbLocked", b"\xff\xff"]
SERVER_KEYS = b"\xff/serverKeys/"
EDGES = sorted([b"", *POINTS, *(point + b"\0" for point in POINTS[:-1])])


class Drawn:
    """A script that is being drawn, and about how far its cluster has come."""

    def __init__(self, rng):
        self.rng = rng
        self.proxies, self.resolvers = rng.choice([1, 2, 2, 3]), rng.choice([1, 2, 2, 3])
        self.step = rng.choice([1, 10, 10, 10, 140, GREATEST // 4])
        self.window = min(10**9, rng.choice([1, 2, 5, 30]) * self.step)
        self.owners, self.judged, self.finished = [], [0] * self.resolvers, [0] * self.proxies
        self.moved = [(0, len(EDGES) - 1)]

    def last_version(self):
        return min(len(self.owners) * self.step, GREATEST)

    def span(self):
        """A range over some of the points, often of one key."""
        begin = self.rng.randrange(len(POINTS) - 1)
        end = POINTS[self.rng.randrange(begin + 1, len(POINTS))] if self.rng.random() < 0.4 else POINTS[begin] + b"\0"
        return [text(POINTS[begin]), text(end)]

    def mutation(self):
        kind = self.rng.random()
        if kind < 0.07:
            return self.server_keys()
        if kind < 0.5:
            return change(self.rng)
        if kind < 0.7:
            value = b"v" * self.rng.randrange(3) + b"0123456789" + self.rng.choice([b"", b"xyz"])
            place = self.rng.randrange(len(value) - 9)
            key = self.rng.choice([b"\xff/metadataVersion", b"\xff/metadataVersion", b"\xff/dbLocked", b"k", *OTHERS])
            return {"set_stamped": [text(key), text(value + place.to_bytes(4, "little"))]}
        if kind < 0.8:
            return {"clear": [text(key) for key in clear(self.rng)]}
        return {"set": [text(self.rng.choice(POINTS[:7])), "v"]}

    def server_keys(self):
        """A Set of what a server has, now and then with another shape of key, or a Clear of some."""
        rng, server = self.rng, self.rng.choice(SERVERS)
        key = SERVER_KEYS + server + b"/" + rng.choice(KEYS[:4])
        if rng.random() < 0.1:
            return {"clear": [text(key), text(SERVER_KEYS[:-1] + b"0")]}
        if rng.random() < 0.3:
            key = SERVER_KEYS + rng.choice(
                [server, server[1:] + b"/m", server + b"0/m", server + b"0", b"", b"/", b"/" * 17]
            )
        return {"set": [text(key), rng.choice(["", "1"])]}

    def transaction(self):
        rng, last = self.rng, self.last_version()
        near = [last - distance * self.step // 2 for distance in range(-2, 9)]
        snapshot = min(GREATEST, max(0, rng.choice([0, last, last, last, *near, *near, last - self.window, GREATEST])))
        reads = [self.span() for _ in range(rng.choice([0, 1, 1, 2]))]
        writes = [self.span() for _ in range(rng.choice([0, 1, 1, 2]))]
        return transaction(
            snapshot, reads, writes, [self.mutation() for _ in range(rng.choice([0, 0, 1, 2]))], rng.random() < 0.5,
        )

    def sequence(self, proxy=None):
        proxy = self.rng.randrange(self.proxies) if proxy is None else proxy
        event = sequence(proxy, *[self.transaction() for _ in range(self.rng.choice([0, 1, 1, 2, 4]))])
        if proxy < self.proxies and (len(self.owners) + 1) * self.step <= GREATEST:
            self.owners.append(proxy)
        return event

    def moved_range(self):
        """The places in EDGES of a range that repeats, nests in or touches one that moved before, or of any."""
        begin, end = self.rng.choice(self.moved[-3:])
        kind = self.rng.randrange(4)
        if kind == 0:
            return begin, end
        if kind == 1:
            return tuple(sorted(self.rng.sample(range(begin, end + 1), 2)))
        if kind == 2 and end + 1 < len(EDGES):
            return end, self.rng.randrange(end + 1, len(EDGES))
        return tuple(sorted(self.rng.sample(range(len(EDGES)), 2)))

    def move(self):
        self.moved.append(self.moved_range())
        begin, end = self.moved[-1]
        return move(text(EDGES[begin]), text(EDGES[end]), self.rng.randrange(self.resolvers))

    def offer(self):
        """The next row to a resolver that has one, or else any."""
        behind = [it for it, judged in enumerate(self.judged) if judged < len(self.owners)]
        if not behind:
            return self.any_offer()
        resolver = self.rng.choice(behind)
        self.judged[resolver] += 1
        return offer(self.judged[resolver] - 1, resolver)

    def any_offer(self):
        """A row to a resolver, in its turn or not; the row and the resolver may be one too many."""
        row, resolver = (
            self.rng.randrange(len(self.owners) + 1), self.rng.randrange(self.resolvers + (self.rng.random() < 0.2)),
        )
        if resolver < self.resolvers and self.judged[resolver] == row < len(self.owners):
            self.judged[resolver] += 1
        return offer(row, resolver)

    def finish(self):
        """A proxy that may finish, or else any."""
        waiting = [(proxy, self.awaited(proxy)) for proxy in range(self.proxies)]
        ready = [proxy for proxy, row in waiting if row is not None and row < min(self.judged)]
        proxy = self.rng.choice(ready or list(range(self.proxies)))
        self.finished[proxy] += proxy in ready
        return finish(proxy)

    def awaited(self, proxy):
        rows = [row for row, owner in enumerate(self.owners) if owner == proxy]
        return rows[self.finished[proxy]] if self.finished[proxy] < len(rows) else None

    def stranger(self):
        """An event of a proxy or a resolver that the cluster does not have, or of a finish that may be too early."""
        kind = self.rng.randrange(4)
        if kind == 0:
            return self.sequence(self.proxies + self.rng.randrange(2))
        if kind == 1:
            return move(*self.span(), self.resolvers)
        return finish(self.rng.randrange(self.proxies + 1) if kind == 2 else self.proxies)

    def first_batch(self):
        """A batch of the first proxy that sets tags and rows, for the later ones to change."""
        tags = [
            {"set": [text(b"\xff/serverTag/" + server), text(self.rng.choice(TAGS))]}
            for server in self.rng.sample(SERVERS, 4)
        ]
        rows = [{"set": [text(b"\xff/keyServers/" + key), text(location(self.rng))]} for key in self.rng.sample(KEYS, 3)]
        self.owners.append(0)
        return sequence(0, transaction(0, [], [], tags + rows, True))

    def script(self, size=None):
        """The whole script, of about as many events as the size says."""
        events = [self.first_batch()] if self.rng.random() < 0.7 else []
        draws = (
            [self.sequence] * 5 + [self.move] * self.rng.choice([2, 2, 2, 12]) + [self.offer] * 12 + [self.any_offer] * 2
            + [self.finish] * 5 + [self.stranger]
        )
        events += [
            self.rng.choice(draws)()
            for _ in range(self.rng.choice([5, 5, 15, 15, 30, 30, 45, 45, 120]) if size is None else size)
        ]
        if self.rng.random() < 0.5:
            events += [self.offer() for _ in range(self.resolvers * len(self.owners))] + [self.finish() for _ in self.owners]
        ask = [text(self.rng.choice([*POINTS, *KEYS])) for _ in range(self.rng.choice([0, 1, 3]))]
        return turns(*events, ask=ask, proxies=self.proxies, resolvers=self.resolvers, window=self.window, step=self.step)


def right_script(rng, size=None):
    return Drawn(rng).script(size)


# ---- faults


def lists_of_content(script):
    """The lists into which a fault can be put, in the order of the checks, each with its faults."""
    for event in script["events"]:
        for part in event["sequence"]["batch"] if "sequence" in event else ():
            yield part["reads"], RANGE_FAULTS
            yield part["writes"], RANGE_FAULTS
            yield part["mutations"], MUTATION_FAULTS
        if "move" in event:
            yield event["move"], RANGE_FAULTS


def plant_content(rng, wholes):
    """Puts a fault into one of these lists and moves at random, if there are any: the fault, and what is answered."""
    if not wholes:
        return None, None
    mutations = [it for it in wholes if it[1] is MUTATION_FAULTS]
    whole, faults = rng.choice(mutations if mutations and rng.random() < 0.5 else wholes)
    kind = rng.choice(sorted({answer for _, answer in faults.values()}))
    value, answer = copy.deepcopy(rng.choice([fault for fault in faults.values() if fault[1] == kind]))
    if isinstance(whole, dict):
        whole["range"] = value
    else:
        whole.insert(rng.randrange(len(whole) + 1), value)
    return value, answer


def plant_large_batch(rng, script):
    """Makes a random batch too large, where there is one."""
    batches = [event["sequence"]["batch"] for event in script["events"] if "sequence" in event]
    if batches:
        rng.choice(batches).extend(transaction() for _ in range(1024 + rng.randrange(2)))


def first_fault(script, planted):
    """The answer to the first fault of content in the order of the checks, or nothing."""
    for event in script["events"]:
        for whole, _ in lists_of_content({"events": [event]}):
            for value in whole.values() if isinstance(whole, dict) else whole:
                for fault, answer in planted:
                    if value is fault:
                        return answer
        if "sequence" in event and len(event["sequence"]["batch"]) > 1024:
            return BATCH_TOO_LARGE
    return None


def wrong_script(rng, size=None):
    """The text of a script with one to three kinds of fault, what it must be answered, or nothing without a place for
    them, and the fault of JSON, if it has one.
    """
    script = right_script(rng, size)
    large = rng.random() < 0.1
    kinds = rng.sample(["content", "content", "content", "form", "json"], rng.choice([0, 1, 2] if large else [1, 1, 2, 3]))
    planted = [plant_content(rng, list(lists_of_content(script))) for _ in range(kinds.count("content"))]
    if large:
        plant_large_batch(rng, script)
    return spelled_wrong(rng, script, kinds, large, first_fault(script, planted))
