"""The lines of a threads script's text that no order of its batches changes, as far as they follow from simple bounds.

Of each transaction those outcomes are known that it may have: a set that can be too large. So what is found wrong here is
wrong in every order, and what is found right may be wrong.
"""
from typing import NamedTuple

from tests.scripts.fold.reference import (
    KEY_SERVERS, LOCKED, METADATA_VERSION, SERVER_TAG, is_locked, is_server_tag, listed, lists_tags, own_tags, quoted,
    servers_of, tags_of,
)
from tests.scripts.threads.orders import last_change
from tests.scripts.threads.reference import committed_rows, meeting_lines, overlap, refused_after
from tests.scripts.turns.reference import all_reads, is_state, stamped

from .texts import words_in

# what stands for an outcome that depends on the order
OPEN = "*"


class Found(NamedTuple):
    """A line of TEXT that no order has: its number from 0, what must stand there,
    or nothing and why nothing of the kind can.
    """

    at: int
    line: str
    why: str


class Bounds:
    """What the batches of a script may give, whatever their order is."""

    def __init__(self, script):
        self.script, self.rows = script, committed_rows(script)
        self.is_short = self.rows < sum(map(len, script.work))
        self.batches = [
            [[stamped(it, 0, at) for at, it in enumerate(batch)] for batch in batches] for batches in script.work
        ]
        self.given = [
            (proxy, number, place, transaction) for proxy, batches in enumerate(self.batches)
            for number, batch in enumerate(batches) for place, transaction in enumerate(batch)
        ]
        self.outcomes = {}
        for proxy, number, place, transaction in self.given:
            self.outcomes[proxy, number, place] = self.possible(proxy, number, place, transaction)

    # -- outcomes

    def versions(self, proxy, number):
        """The least and the greatest version that a batch may have."""
        later = 0 if self.is_short else len(self.batches[proxy]) - number - 1
        return (number + 1) * self.script.step, (self.rows - later) * self.script.step

    def before(self, proxy, number, place):
        """The transactions that may be committed before this one, each with whether they surely come before it."""
        for other in self.given:
            same, earlier = other[0] == proxy, other[1:3] < (number, place)
            if not same or earlier:
                yield other, same

    def possible(self, proxy, number, place, transaction):
        """The outcomes that a transaction may have if its batch gets a row."""
        reads, (least, greatest) = all_reads(transaction), self.versions(proxy, number)
        oldest = [version - self.script.window for version in (least, greatest)]
        if reads and transaction.snapshot < oldest[0]:
            return {"too_old"}
        found = set()
        hits = [self.hit(it, sure, proxy, number, transaction) for it, sure in self.before(proxy, number, place)]
        if reads and transaction.snapshot < oldest[1]:
            found.add("too_old")
        if any(hits):
            found.add("conflict")
        if "surely" not in hits:
            found.add("committed")
            if not transaction.lock_aware and self.may_be_locked(proxy, number):
                found.add("locked")
        return found

    def hit(self, other, is_earlier, proxy, number, transaction):
        """Whether a transaction before this one `may` make it conflict, or does so `surely`, or nothing."""
        theirs, batch, place, writer = other
        if not any(overlap(read, write) for read in all_reads(transaction) for write in writer.writes):
            return None
        is_same = (theirs, batch) == (proxy, number)
        least, greatest = self.versions(theirs, batch)
        if not is_same and greatest <= transaction.snapshot:
            return None
        # (a write and a read of one key both go to its last owner: no key moves after the first batch)
        is_committed = is_earlier and (
            not all_reads(writer) or self.outcomes[theirs, batch, place] <= {"committed", "locked"}
        )
        return "surely" if is_committed and (is_same or least > transaction.snapshot) else "may"

    def may_be_locked(self, proxy, number):
        """Whether a transaction may lock the database before a batch."""
        return any(
            is_state(it) and is_locking(last_change(LOCKED, it.changes))
            for other, batch, _, it in self.given if other != proxy or batch < number
        )

    # -- the metadata after all batches

    def touching(self, key):
        """The transactions that may change a row: of each the last change of it, and whether it is surely committed."""
        for proxy, number, place, transaction in self.given:
            change = last_change(key, transaction.changes)
            if change and is_state(transaction):
                is_sure = not self.is_short and self.outcomes[proxy, number, place] == {"committed"}
                yield change, is_sure, self.is_stamped(proxy, number, place, key)

    def is_stamped(self, proxy, number, place, key):
        return any(it[:2] == ("set_stamped", key) for it in self.script.work[proxy][number][place].changes)

    def value(self, key):
        """Whether a row is known after all batches, and its value, or nothing if it is not there."""
        touching = list(self.touching(key))
        if len(touching) > 1 or not all(is_sure and not is_stamped for _, is_sure, is_stamped in touching):
            return False, None
        return True, next((value for (kind, _, value), _, _ in touching if kind == "set"), None)

    def ever_set(self, prefix):
        """The keyServers or serverTag rows that some transaction sets, and each value."""
        for _, _, _, transaction in self.given:
            for kind, key, value in transaction.changes:
                if kind == "set" and key.startswith(prefix):
                    yield key, value

    def known_tags(self, row):
        """The tags of a keyServers row after all batches, as text, or nothing if they depend on the order."""
        is_known, value = self.value(row)
        if not is_known or value is None:
            return None
        servers = {SERVER_TAG + it: self.value(SERVER_TAG + it) for it in servers_of(value)}
        if not all(known for known, _ in servers.values()):
            return None
        kept = {row: value, **{key: tag for key, (_, tag) in servers.items() if tag is not None}}
        return listed(tags_of(kept, row[len(KEY_SERVERS) :]))

    def given_tags(self):
        """All tags that some transaction gives to a server or lists, as text."""
        tags = {"%d:%d" % (it[0], it[1] * 256 + it[2]) for key, it in self.ever_set(SERVER_TAG) if is_server_tag(key)}
        return tags | {
            "%d:%d" % it for _, value in self.ever_set(KEY_SERVERS) if lists_tags(value) for it in own_tags(value)
        }


def is_locking(change):
    return change is not None and change[0] == "set" and is_locked({LOCKED: change[2]})


# ---- the lines of TEXT


class Reading:
    """The lines of TEXT, gone through from the first to the last."""

    def __init__(self, script, lines):
        self.script, self.lines, self.at, self.bounds = script, lines, 0, Bounds(script)

    def next(self):
        return self.lines[self.at] if self.at < len(self.lines) else ""

    def take(self, line):
        """Goes past a line that must stand here, or gives what is wrong."""
        if self.next() != line:
            yield Found(self.at, line, "")
        self.at += 1

    def faults(self):
        """What is wrong in every order: after the first one the rest may be found wrong for this alone."""
        for proxy, batches in enumerate(self.bounds.batches):
            for number, batch in enumerate(batches):
                yield from self.batch(proxy, number, batch)
        versions = yield from self.closings()
        for proxy, version in enumerate(versions):
            yield from self.proxy(proxy, version)
        if None not in versions:
            for line in meeting_lines(versions):
                yield from self.take(line)

    def batch(self, proxy, number, batch):
        """A batch has its outcomes, or a refusal where it may get no row."""
        beginning, line = "batch %d %d " % (proxy, number), self.next()
        outcomes = [self.bounds.outcomes[proxy, number, place] for place in range(len(batch))]
        words = [next(iter(it)) if len(it) == 1 else OPEN for it in outcomes]
        others = sum(map(len, self.bounds.batches)) - len(self.bounds.batches[proxy])
        is_refused = (
            beginning + str(refused_after(self.script, self.bounds.rows)) == line and number >= self.bounds.rows - others
        )
        theirs = words_in(line[len(beginning) :])
        is_fine = number < self.bounds.rows and len(theirs) == len(batch) and all(
            it in may for it, may in zip(theirs, outcomes)
        )
        if not line.startswith(beginning) or not (is_refused or is_fine):
            must = "refused" if number >= self.bounds.rows else " ".join(words) or "none"
            yield Found(
                self.at, beginning + (refused_after(self.script, self.bounds.rows) if must == "refused" else must), "",
            )
        self.at += 1

    def closings(self):
        """For each proxy the version of its closing, or nothing."""
        rows, versions = self.bounds.rows, []
        for proxy in range(self.script.proxies):
            refused = refused_after(self.script, rows)
            rows += not refused
            versions.append(None if refused else rows * self.script.step)
            yield from self.take("closing %d %s" % (proxy, refused or "version %d" % versions[-1]))
        return versions

    def proxy(self, proxy, version):
        """The metadata of a proxy: what is known is that after all batches, so of a proxy that has a closing."""
        yield from self.take("proxy %d" % proxy)
        if version is None:
            while self.next().split(" ")[0] in ("version", "locked", "metadata_version", "route", "tags"):
                self.at += 1
            return
        yield from self.take("version %d" % version)
        yield from self.row("locked", LOCKED, lambda value: "yes" if value else "no")
        yield from self.row("metadata_version", METADATA_VERSION, lambda value: "none" if value is None else quoted(value))
        yield from self.routes()
        for key in self.script.ask:
            yield from self.tags("tags %s " % quoted(key), key)

    def row(self, name, key, word):
        is_known, value = self.bounds.value(key)
        if is_known:
            yield from self.take("%s %s" % (name, word(value)))
        else:
            self.at += 1

    def routes(self):
        """The routes: those of the rows that are there in every order, and of others that some transaction sets."""
        rows = sorted({row for row, _ in self.bounds.ever_set(KEY_SERVERS)})
        known = [row for row in rows if self.bounds.value(row)[0]]
        for row in rows:
            beginning = "route %s " % quoted(row[len(KEY_SERVERS) :])
            if self.next().startswith(beginning) or (row in known and self.bounds.value(row)[1] is not None):
                yield from self.tags(beginning, row[len(KEY_SERVERS) :])
        if self.next().startswith("route "):
            why = "No order has it here: the keyServers rows that some transaction sets have their routes above."
            yield Found(self.at, None, why)

    def tags(self, beginning, key):
        """The tags of a key: those of the last row at or before it that is ever set, if that is known."""
        rows = [row for row, _ in self.bounds.ever_set(KEY_SERVERS) if row[len(KEY_SERVERS) :] <= key]
        tags = self.bounds.known_tags(max(rows)) if rows else "none"
        line = self.next()
        if tags is not None:
            yield from self.take(beginning + tags)
            return
        added = [it for it in words_in(line[len(beginning) :]) if it not in self.bounds.given_tags()]
        if not line.startswith(beginning):
            yield Found(self.at, beginning + OPEN, "")
        elif added:
            yield Found(self.at, None, "No transaction gives %s to a server, or lists it." % added[0])
        self.at += 1


def first_fault(script, lines):
    """The first line of TEXT that is found to be wrong in every order, or nothing."""
    return next(Reading(script, lines).faults(), None)
