"""What an implementation in this process says of every order of a small cluster's events.

First each event that can be asked for at a point, refused ones too, is put into one order through the point, and the whole
text must be the second program's. So the lines of each event at each point are known, and the right text of every order is
put together of them; that the second program itself says so is looked at in some orders. Last, the replies and outcomes
before a point must be the same whichever order leads to it, and the ends as many as the places of the move.
"""
import itertools
import random
import time
from array import array
from typing import NamedTuple

from tests.orders.points import points_of
from tests.scripts.common.script import write
from tests.scripts.turns import reference
from tests.scripts.turns.orders import lines_of_events

# of how many orders the text is the second program's: every so many, and of a large cluster at most so many
EVERY, MOST_BY_SECOND = 50, 5_000
MOST_FAULTS = 3
# into how many parts the texts are put, so that the texts of one part are few
PARTS = 256


class Fault(NamedTuple):
    """A script, the first line (from 1) at which its text is wrong, that line and the right one."""

    words: str
    script: str
    line: int
    said: str
    right: str

    def __str__(self):
        where = "\n%s\nline %d is: %s\nand must be: %s" % self[1:] if self.script else ""
        return self.words + where


class Enough(Exception):
    """There are so many faults that nothing else is tried."""


class Different:
    """How many different texts there are, of which 64 bits each are kept."""

    def __init__(self):
        self.parts = [array("q") for _ in range(PARTS)]

    def add(self, text):
        bits = hash(text)
        self.parts[bits % PARTS].append(bits)

    def count(self):
        return sum(len(set(part)) for part in self.parts)


class Trial:
    """The trial of an implementation on a cluster: `call` gives the text of a script, both as bytes."""

    def __init__(self, cluster, call, second=reference.answer):
        self.cluster, self.call, self.second = cluster, call, second
        self.points = points_of(cluster, random.Random("points %s" % cluster.seed))
        self.head, _, self.tail = cluster.script_of([]).partition(b"]")
        self.every = max(EVERY, cluster.total // MOST_BY_SECOND)
        # how many scripts had an event put in; how many orders were tried, in how many seconds of a processor, and how many
        # of these the second program took
        self.asked, self.orders, self.used, self.used_by_second = 0, 0, 0.0, 0.0
        self.different, self.faults = Different(), []

    def run(self, every_order=True):
        """Tries the points, and then every order; without that the points alone."""
        try:
            for point in self.points:
                self.try_point(point)
            self.compare_ends()
            if every_order:
                self.try_orders()
        except Enough:
            pass

    def note(self, words, script="", said="", right=""):
        """Notes a fault of a script, by the first line that differs."""
        pairs = itertools.zip_longest(said.splitlines(), right.splitlines(), fillvalue="(no line)")
        line, pair = next(((number, it) for number, it in enumerate(pairs, 1) if it[0] != it[1]), (0, ("", "")))
        self.faults.append(Fault(words, script, line, *pair))
        if len(self.faults) == MOST_FAULTS:
            raise Enough

    # -- the points

    def try_point(self, point):
        """Puts each event into an order through a point, and keeps the lines of those with which orders go on."""
        ways = dict(point.ways)
        point.told = frozenset() if point.told is None else point.told
        for event in self.cluster.asked(point.state):
            after = ways.get(event)
            events, _ = self.lines_of([*point.way, event, *(after or point).rest()])
            if after:
                self.step(point, event, after, events[len(point.way)])
        if not ways:
            point.end = self.lines_of(point.way)[1].encode()

    def lines_of(self, events):
        """The lines of each event by the second program, and those after the last; the whole text must be the same."""
        script = self.cluster.script_of(events)
        right, said = self.second(script), self.call(script).decode(errors="backslashreplace")
        self.asked += 1
        if said != right:
            self.note("another text than the second program's", script.decode(), said, right)
        return lines_of_events(right)

    def step(self, point, event, after, lines):
        """Keeps the lines of an event at a point; by any order the same was told before the point after it."""
        piece = write(self.cluster.event(*event)).encode() + b","
        point.steps.append((piece, lines.encode(), after))
        told = point.told | told_by(lines)
        if after.told is None:
            after.told = told
        elif after.told != told:
            script = self.cluster.script_of([*point.way, event, *after.rest()]).decode()
            words = "by this order other replies and outcomes than by another one to the same state"
            self.note(words, script, *("".join(sorted(it)) for it in (told - after.told, after.told - told)))

    def ends(self):
        """The different ends of all orders: the replies, the outcomes, and what is printed of the proxies."""
        return {(it.told, it.end) for it in self.points if not it.ways}

    def places(self):
        """In how many places the move can come so that it changes a reply."""
        return self.cluster.batches + 1 if self.cluster.resolvers > 1 else 1

    def compare_ends(self):
        """Each place of the move has one end, and no two places that change a reply have the same."""
        by_place = {(it.place, it.told, it.end) for it in self.points if not it.ways}
        if (len(by_place), len(self.ends())) != (self.cluster.batches + 1, self.places()):
            self.note("%d different ends, where the move has %d places" % (len(self.ends()), self.places()))

    # -- the orders

    def try_orders(self):
        begun = time.process_time()
        for script, right in self.orders_from(self.points[0], self.head, b""):
            said = self.call(script)
            self.different.add(said)
            if said != right:
                self.note("another text than other orders through the same states", script.decode(), *decoded(said, right))
            if self.orders % self.every == 0:
                self.try_second(script, right)
            self.orders += 1
        self.used = time.process_time() - begun
        if self.orders != self.cluster.total:
            self.note("%d orders were tried of %d" % (self.orders, self.cluster.total))

    def try_second(self, script, right):
        begun = time.process_time()
        said = self.second(script)
        self.used_by_second += time.process_time() - begun
        if said.encode() != right:
            self.note("the second program has another text than for other orders", script.decode(), said, right.decode())

    def orders_from(self, point, script, text):
        """Each order that goes on from a point after this beginning of its script and its text."""
        if not point.steps:
            yield script[:-1] + b"]" + self.tail, text + point.end
        for piece, lines, after in point.steps:
            yield from self.orders_from(after, script + piece, text + lines)


def told_by(lines):
    """What an event tells for good: the outcomes of a finish, or a reply, which a repeated offer must give again."""
    return {lines.replace(" again ", " judged ", 1)} if lines.startswith(("offer ", "finish ")) else set()


def decoded(*texts):
    return [it.decode(errors="backslashreplace") for it in texts]
