"""What random turns scripts come to inside a cluster, which no line of an answer names: reads from before several moves,
what leaves the window, what a read conflicts with, and what happens at proxies and resolvers after the third.

The reference carries out the events; each situation is then counted from its records and verdicts.
"""
import collections

from tests.scripts.fold.reference import read_json
from tests.scripts.turns import reference as turns_reference

MUST_BE_MET = [
    "a read from before three moves", "an owner before the window", "a write before the window",
    "a conflict after such a write", "a conflict with its own share alone", "a conflict from past the version",
    "five unseen rows", "five unseen rows again", "a reply given again after the third resolver",
    "an early request after the third resolver", "a reply given up after the third resolver",
    "a second record finished after the third proxy",
]

# what stands in the line of an offer to a resolver after the third one, and what that is
AFTER_THE_THIRD = {
    " again ": "a reply given again after the third resolver", "refused 30 ": "an early request after the third resolver",
    "refused 31 ": "a reply given up after the third resolver",
}


class Counted(turns_reference.Cluster):
    """A cluster that keeps each share, and counts the situations."""

    def __init__(self, *numbers):
        super().__init__(*numbers)
        self.found, self.shares = collections.Counter(), {}

    def share(self, row, resolver):
        if (row, resolver) not in self.shares:
            self.shares[row, resolver] = turns_reference.share(self.history[row], resolver, self.window)
        return self.shares[row, resolver]

    def count_offer(self, line):
        unseen = line.partition(" unseen ")[2].split(" ")
        if len(unseen) >= 5:
            self.found["five unseen rows again" if " again " in line else "five unseen rows"] += 1

    def count_after_the_third(self, line):
        for words, what in AFTER_THE_THIRD.items():
            self.found[what] += words in line

    def count_reads(self, record):
        for transaction in record.batch:
            for span in turns_reference.all_reads(transaction):
                lists = [turns_reference.owners(record, key) for key in turns_reference.keys_that_differ(record, span)]
                self.found["a read from before three moves"] += any(
                    date >= max(transaction.snapshot, record.previous - self.window) for it in lists
                    for date, _ in it[1:][-3:-2]
                )
                asked, all_of_them = (
                    turns_reference.readers(record, span, transaction.snapshot, window)
                    for window in (self.window, record.version)
                )
                self.found["an owner before the window"] += asked != all_of_them

    def committed(self, row, resolver):
        said = self.verdicts[row][resolver]
        return [part for part in self.share(row, resolver) if said[part.number] == "committed"]

    def count_verdicts(self, record, resolver):
        last_kept = record.previous - self.window
        before = [(it.version, part) for it in self.history[: record.row] for part in self.committed(it.row, resolver)]
        earlier = [(version, write) for version, part in before for write in part.writes]
        forgotten = [write for version, write in earlier if version <= last_kept]
        for part in self.share(record.row, resolver):
            snapshot, verdict = record.batch[part.number].snapshot, self.verdicts[record.row][resolver][part.number]
            above = [write for version, write in earlier if version > snapshot]
            if verdict == "committed":
                self.found["a write before the window"] += overlap(part.reads, forgotten)
            if verdict == "conflict":
                self.found["a conflict after such a write"] += bool(forgotten)
                self.found["a conflict with its own share alone"] += not overlap(part.reads, above)
                self.found["a conflict from past the version"] += snapshot >= record.version


def overlap(reads, writes):
    return any(a < d and c < b for a, b in reads for c, d in writes)


def met(script):
    """How often each situation comes in a right script."""
    numbers, events, _ = turns_reference.read_turns(read_json(script))
    cluster = Counted(*numbers)
    for kind, *words in events:
        lines = list(getattr(cluster, kind)(*words))
        if kind == "offer":
            cluster.count_offer(lines[0])
            if words[1] > 2:
                cluster.count_after_the_third(lines[0])
    for record in cluster.history:
        cluster.count_reads(record)
        for resolver in range(cluster.resolvers):
            cluster.count_verdicts(record, resolver)
    cluster.found["a second record finished after the third proxy"] += any(count > 1 for count in cluster.finished[3:])
    return cluster.found
