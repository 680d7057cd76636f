"""Decides whether a text is one that a threads script can come to: whether there is an order of its batches with this text.

    python3 -m tests.scripts.threads.orders SCRIPT TEXT [--meetings]

Two files, each `-` for standard input. It prints an order, as the proxy of each row, or says what is wrong and ends with 1.
With `--meetings` the text has to end with the lines of each two proxies and of the audits. For a refused script there is one
text, its refusal. It needs no program: `what_is_wrong` says the same of bytes.

The batches of a proxy come in their own order, and after all of them the closings in the order of the proxies. So an order
is a way through the numbers of batches that each proxy has had, and the text says much of where it goes: what each batch
comes to, which rows are in the metadata at the end, and in which row a proxy has its last batch if its closing is refused.
The search goes depth first and leaves a way where the text contradicts it. It takes none twice: two ways are one from where
each proxy has had as many batches, the metadata is the same, and no read still to come tells the committed writes apart. The
order that it finds is printed anew by reference.py, and that must be the text, byte by byte.

Orders of sequencing alone are searched, never those of offers and finishes: by the law `one_end_law` of crates/endings all
of these lead to one end. What a proxy acknowledges decides what a resolver forgets, and nothing that is printed.
"""
import bisect
import sys
from typing import NamedTuple

from tests.scripts.fold.reference import (
    KEY_SERVERS, LOCKED, METADATA_VERSION, SERVER_TAG, Refused, is_kept, is_locked, listed, lists_tags, metadata_lines,
    own_tags, quoted, read_bytes, servers_of, tags_of,
)
from tests.scripts.threads.reference import (
    REFUSED, Work, committed_rows, meeting_lines, overlap, printed, refused_after, script_of, words_of,
)
from tests.scripts.turns.reference import all_reads, stamped

# how many states a search looks at before it says that it does not know: some minutes, where few texts take a second
STATES = 1_000_000
UNKNOWN = "it is not known"
OUTCOMES = {"committed", "conflict", "too_old", "locked"}
# a version that is old to each batch, and one that none reaches
OLD, NEVER = 2**64, 2**64


class Wrong(Exception):
    """Why a text is none of the script's, in words."""


class Final(NamedTuple):
    """What a text says of the metadata after all batches."""

    lines: list
    locked: bool
    metadata_version: str
    # for each keyServers row its tags
    routes: dict


class Said(NamedTuple):
    """What a text says, if its form is right."""

    # for each proxy the words of its batches that got a row
    outcomes: list
    # for each proxy the row of its last batch if its closing is refused, and otherwise nothing
    last_rows: list
    # for each proxy the lines of its metadata
    shown: list
    final: Final


# ---- what a text says


class Lines:
    """The lines of a text, which are taken one after another."""

    def __init__(self, text):
        self.lines, self.at = text.split("\n"), 0
        if self.lines.pop():
            raise Wrong("the last line does not end")

    def next(self):
        return self.lines[self.at] if self.at < len(self.lines) else "the end"

    def take(self, beginning):
        """What follows this beginning in the next line."""
        line = self.next()
        if not line.startswith(beginning):
            raise Wrong("line %d does not begin with %r: %s" % (self.at + 1, beginning, line))
        self.at += 1
        return line[len(beginning) :]

    def expect(self, line):
        if self.take(line):
            self.at -= 1
            raise Wrong("line %d is not %r: %s" % (self.at + 1, line, self.next()))


def read_batches(script, lines):
    """For each proxy the words of its batches that got a row. The others are its last ones, and refused as they must be."""
    rows, outcomes = committed_rows(script), []
    for proxy, batches in enumerate(script.work):
        outcomes.append([])
        for number, batch in enumerate(batches):
            words = lines.take("batch %d %d " % (proxy, number))
            if words.startswith(REFUSED):
                lines.at -= 1
                break
            if not are_outcomes(words, batch):
                raise Wrong("line %d does not have the outcomes of its batch: %s" % (lines.at, words))
            outcomes[proxy].append(words)
        for number in range(len(outcomes[proxy]), len(batches)):
            lines.expect("batch %d %d %s" % (proxy, number, refused_after(script, rows)))
    if sum(map(len, outcomes)) != rows:
        raise Wrong("%d batches got a row, and not %d" % (sum(map(len, outcomes)), rows))
    return outcomes


def are_outcomes(words, batch):
    """Whether these are as many outcomes as the batch has transactions."""
    each = words.split(" ")
    return len(each) == len(batch) and OUTCOMES.issuperset(each) if batch else words == "none"


def read_closings(script, lines):
    """For each proxy the version of its closing, or nothing if it is refused."""
    rows, versions = committed_rows(script), []
    for proxy in range(script.proxies):
        refused = refused_after(script, rows)
        rows += not refused
        versions.append(None if refused else rows * script.step)
        lines.expect("closing %d %s" % (proxy, refused or "version %d" % versions[-1]))
    return versions


def read_proxies(script, lines):
    """For each proxy its version and the lines of its metadata, from that of the version on."""
    for proxy in range(script.proxies):
        lines.expect("proxy %d" % proxy)
        first = lines.at
        version = lines.take("version ")
        lines.take("locked ")
        lines.take("metadata_version ")
        while lines.next().startswith("route "):
            lines.at += 1
        for key in script.ask:
            lines.take("tags %s " % quoted(key))
        if not version.isdecimal():
            raise Wrong("line %d has no version: %s" % (first + 1, version))
        yield int(version), lines.lines[first : lines.at]


def read_said(script, text, meetings):
    """What a text says, if its form is right."""
    lines = Lines(text)
    outcomes, closings = read_batches(script, lines), read_closings(script, lines)
    versions, shown = zip(*read_proxies(script, lines))
    for line in meeting_lines(versions) if meetings else ():
        lines.expect(line)
    if lines.at < len(lines.lines):
        raise Wrong("line %d is one too many: %s" % (lines.at + 1, lines.next()))
    check_versions(script, outcomes, closings, versions)
    latest = max(range(script.proxies), key=versions.__getitem__)
    for proxy, closing in enumerate(closings):
        if closing and shown[proxy][1:] != shown[latest][1:]:
            raise Wrong("the metadata of proxies %d and %d after all batches differs" % (proxy, latest))
        if versions[proxy] == 0 and shown[proxy] != list(metadata_lines(0, {}, script.ask)):
            raise Wrong("proxy %d has metadata at version 0" % proxy)
    last_rows = [None if closing else version // script.step - 1 for closing, version in zip(closings, versions)]
    return Said(outcomes, last_rows, shown, read_final(script, shown[latest]))


def check_versions(script, outcomes, closings, versions):
    """A proxy is at the version of its closing, or of its last batch, or at 0.
    Some proxy is at the version of the last row.
    """
    for proxy, (words, closing, version) in enumerate(zip(outcomes, closings, versions)):
        count, rest = divmod(version, script.step)
        own = version == 0 if not words else rest == 0 and len(words) <= count <= committed_rows(script)
        if not (version == closing if closing else own):
            raise Wrong("proxy %d cannot be at version %d" % (proxy, version))
    own = [version for closing, version in zip(closings, versions) if version and not closing]
    if len(set(own)) < len(own):
        raise Wrong("two proxies are at the version of one batch")
    if max(versions) < committed_rows(script) * script.step:
        raise Wrong("no proxy is at the version of the last row")


def read_final(script, lines):
    """What the lines of a metadata say. An asked key has the tags of its route."""
    routes = {}
    for line in lines[3 : len(lines) - len(script.ask)]:
        spelled, _, tags = line[len("route ") :].partition(" ")
        try:
            key = read_bytes(spelled[1:-1])
        except Refused:
            raise Wrong("no key is spelled %s" % spelled) from None
        if line != "route %s %s" % (quoted(key), tags) or any(key <= before for before in list(routes)[-1:]):
            raise Wrong("a route is spelled otherwise, or does not follow the one before: %s" % line)
        routes[key] = tags
    keys = list(routes)
    for asked, line in zip(script.ask, lines[3 + len(routes) :]):
        at = bisect.bisect(keys, asked)
        tags = routes[keys[at - 1]] if at else "none"
        if line != "tags %s %s" % (quoted(asked), tags):
            raise Wrong("an asked key does not have the tags of its route, %s: %s" % (tags, line))
    return Final(lines[1:], lines[1] == "locked yes", lines[2][len("metadata_version ") :], routes)


# ---- what the batches still to come can change


class Later:
    """What the batches of a script that got a row touch and read, by how many of them each proxy has had."""

    def __init__(self, script, said):
        self.final = said.final
        self.shown = [LOCKED, METADATA_VERSION, *(KEY_SERVERS + key for key in said.final.routes)]
        # for each proxy and batch its changes of kept rows, and for each proxy the ranges that it reads, each with its batch
        self.changes, self.reads = [[[] for _ in batches] for batches in said.outcomes], [[] for _ in said.outcomes]
        # for each proxy the last batch with a transaction that commits if there is no lock, and with one that the lock
        # refuses
        self.last_unlocked, self.last_locked = [-1] * script.proxies, [-1] * script.proxies
        for proxy, batches in enumerate(said.outcomes):
            for number, words in enumerate(batches):
                for transaction, outcome in zip(script.work[proxy][number], words.split(" ")):
                    self.add(proxy, number, transaction, outcome)
        # for each server the tags that it ever gets
        self.tags = {}
        for change in self.all_changes():
            if change[0] != "clear" and change[1].startswith(SERVER_TAG):
                self.tags.setdefault(change[1], set()).add(change[2])
        self.known_touches, self.known_snapshots = {}, {}

    def add(self, proxy, number, transaction, outcome):
        self.reads[proxy] += [(number, span, transaction.snapshot) for span in all_reads(stamped(transaction, 0, 0))]
        if outcome == "locked":
            self.last_locked[proxy] = number
        if outcome == "committed":
            self.changes[proxy][number] += [it for it in transaction.changes if it[0] == "clear" or is_kept(it[1])]
            if not transaction.lock_aware:
                self.last_unlocked[proxy] = number

    def all_changes(self):
        return (change for batches in self.changes for changes in batches for change in changes)

    def touched(self, proxy, number, before, after):
        """The rows that a batch touches, of those that are kept before it or after it, or are shown in the end."""
        changes = self.changes[proxy][number]
        clears = [(begin, end) for kind, begin, end in changes if kind == "clear"]
        cleared = {row for row in [*before, *after, *self.shown] if is_in_one(row, clears)} if clears else set()
        return cleared.union(row for kind, row, _ in changes if kind != "clear")

    def meets_lock(self, locked, had):
        """Whether a batch still to come needs the lock to be otherwise."""
        return any(last >= past for last, past in zip(self.last_unlocked if locked else self.last_locked, had))

    def touches(self, row):
        """The batches that touch a row: of each its proxy, its number, and whether the row can be left so in the end."""
        if row not in self.known_touches:
            self.known_touches[row] = [
                (proxy, number, self.may_stay(row, last_change(row, changes)))
                for proxy, batches in enumerate(self.changes)
                for number, changes in enumerate(batches) if last_change(row, changes)
            ]
        return self.known_touches[row]

    def may_stay(self, row, change):
        """Whether a row that was last changed so can be as the text shows it in the end, whatever the other rows are."""
        kind, _, value = change
        if row == LOCKED:
            return (kind != "clear" and value != b"") == self.final.locked
        if row == METADATA_VERSION and kind != "set_stamped":
            return (quoted(value) if kind == "set" else "none") == self.final.metadata_version
        if row.startswith(KEY_SERVERS):
            tags = self.final.routes.get(row[len(KEY_SERVERS) :])
            return tags is None if kind == "clear" else tags is not None and self.may_have(value, tags)
        return True

    def may_have(self, value, tags):
        """Whether a keyServers value may have these tags: those that it lists, or by all that its servers ever get."""
        if lists_tags(value):
            return tags == listed(sorted(set(own_tags(value))))
        given = {found for server in servers_of(value) for found in self.tags.get(SERVER_TAG + server, ())}
        return tags == "none" or set(tags.split(" ")) <= {tag_text(found) for found in given}

    def snapshots(self, span, had):
        """The snapshots at which batches still to come read in a range, in order."""
        place = span, had
        if place not in self.known_snapshots:
            self.known_snapshots[place] = sorted({
                snapshot for proxy, past in enumerate(had) for number, read, snapshot in self.reads[proxy]
                if number >= past and overlap(read, span)
            })
        return self.known_snapshots[place]

    def seen_of(self, writes, had):
        """The committed writes as reads still to come see them: for each range how many snapshots lie below its version."""
        seen = [(span, bisect.bisect_left(self.snapshots(span, had), version)) for span, version in writes.items()]
        return frozenset((span, below) for span, below in seen if below)


def is_in_one(row, spans):
    return any(begin <= row < end for begin, end in spans)


def last_change(row, changes):
    """The last of these changes that touches a row, or nothing."""
    touching = [it for it in changes if (it[1] <= row < it[2] if it[0] == "clear" else it[1] == row)]
    return touching[-1] if touching else None


def tag_text(value):
    return listed([(value[0], value[1] * 256 + value[2])])


class Spared:
    """The reads that no write may hit: those of transactions that every resolver commits, by the text."""

    def __init__(self, work, said):
        self.reads = [[[] for _ in said.outcomes] for _ in range(work.script.resolvers)]
        for proxy, batches in enumerate(said.outcomes):
            for number, words in enumerate(batches):
                # (the older a record is, the fewer resolvers its reads are sent to)
                for resolver, parts in enumerate(work.shares(proxy, number, OLD)):
                    for part in parts:
                        if words.split(" ")[part.number] in ("committed", "locked"):
                            snapshot = work.script.work[proxy][number][part.number].snapshot
                            self.reads[resolver][proxy] += [(number, read, snapshot) for read in part.reads]
        self.least = {}

    def is_hit(self, known, then, version, had):
        """Whether what a batch has committed at this version makes a batch still to come conflict that does not."""
        return any(
            at == version and self.least_snapshot(resolver, write, had) < version
            for resolver, (before, after) in enumerate(zip(known.writes, then.writes)) if after is not before
            for write, at in after.items()
        )

    def least_snapshot(self, resolver, write, had):
        place = resolver, write, had
        if place not in self.least:
            self.least[place] = min((
                snapshot for proxy, past in enumerate(had) for number, read, snapshot in self.reads[resolver][proxy]
                if number >= past and overlap(read, write)
            ), default=NEVER)
        return self.least[place]


class Rows:
    """The first and the last row that each batch can have, by the text.

    A transaction with reads is too old exactly where its version lies more than the window above its snapshot, and the
    batches of a proxy come one after another. The last one stands where the proxy ends, if its closing is refused.
    """

    def __init__(self, script, said):
        count = sum(map(len, said.outcomes))
        self.first, self.last = [], []
        for proxy, batches in enumerate(said.outcomes):
            bounds = [self.bounds(script, script.work[proxy][number], words, count) for number, words in enumerate(batches)]
            if bounds and said.last_rows[proxy] is not None:
                bounds[-1] = max(bounds[-1][0], said.last_rows[proxy]), min(bounds[-1][1], said.last_rows[proxy])
            first, last = [low for low, _ in bounds], [high for _, high in bounds]
            for number in range(1, len(bounds)):
                first[number] = max(first[number], first[number - 1] + 1)
            for number in reversed(range(len(bounds) - 1)):
                last[number] = min(last[number], last[number + 1] - 1)
            self.first.append(first)
            self.last.append(last)

    def bounds(self, script, batch, words, count):
        low, high = 0, count - 1
        for transaction, outcome in zip(batch, words.split(" ")):
            young = (transaction.snapshot + script.window) // script.step
            if outcome == "too_old":
                low = max(low, young)
            elif all_reads(stamped(transaction, 0, 0)):
                high = min(high, young - 1)
        return low, high

    def can_be_met(self, row, had):
        """Whether as many batches as must have one of the next rows, up to any of them, find one."""
        lasts = sorted(last for proxy, past in enumerate(had) for last in self.last[proxy][past:])
        return all(row + place <= last for place, last in enumerate(lasts))


# ---- the search


class Search:
    def __init__(self, script, said):
        self.script, self.said, self.work = script, said, Work(script)
        self.later, self.rows, self.spared = Later(script, said), Rows(script, said), Spared(self.work, said)
        self.counts = [len(words) for words in said.outcomes]

    def orders(self):
        """The orders that nothing contradicts, but for those that go on alike from a state that was met before."""
        known, had = self.work.begin(), (0,) * self.script.proxies
        order, met = [], set()
        ways = [iter([(None, known, had)] if self.agrees(known.kept, had, self.later.shown) else [])]
        while ways:
            proxy, known, had = next(ways[-1], (None, None, None))
            if known is None:
                ways.pop()
                continue
            state = had, frozenset(known.kept.items()), tuple(self.later.seen_of(writes, had) for writes in known.writes)
            if state in met:
                continue
            met.add(state)
            if len(met) > STATES:
                raise Wrong("%s: the search looked at %d states" % (UNKNOWN, STATES))
            order[max(known.rows - 1, 0) :] = [proxy] * (known.rows > 0)
            if known.rows == sum(self.counts):
                yield list(order)
            ways.append(self.ways_on(known, had))

    def ways_on(self, known, had):
        """The states after the next row, for each proxy that may have it;
        first for those whose batches have to come soonest.
        """
        waiting = [it for it in range(len(had)) if had[it] < self.counts[it] and self.rows.first[it][had[it]] <= known.rows]
        for proxy in sorted(waiting, key=lambda it: (self.rows.last[it][had[it]], had[it] - self.counts[it])):
            after = self.after(known, proxy, had)
            if after:
                yield (proxy, *after)

    def after(self, known, proxy, had):
        """What is known after a proxy's next batch, and how many each has had then; nothing if the text says otherwise."""
        number, had = had[proxy], had[:proxy] + (had[proxy] + 1,) + had[proxy + 1 :]
        if not self.rows.can_be_met(known.rows + 1, had):
            return None
        outcomes, then = self.work.commit(known, proxy, number)
        version = then.rows * self.script.step
        if words_of(outcomes) != self.said.outcomes[proxy][number] or self.spared.is_hit(known, then, version, had):
            return None
        if self.said.last_rows[proxy] is not None and had[proxy] == self.counts[proxy]:
            if list(metadata_lines(version, then.kept, self.script.ask)) != self.said.shown[proxy]:
                return None
        touched = self.later.touched(proxy, number, known.kept, then.kept)
        return (then, had) if self.agrees(then.kept, had, touched) else None

    def agrees(self, kept, had, rows):
        """Whether each of these rows can be as the text shows it in the end:
        as it is, or as a batch still to come leaves it.
        """
        return all(
            self.left_fits(had, row) if self.is_touched_later(had, row) else self.row_agrees(kept, had, row) for row in rows
        )

    def is_touched_later(self, had, row):
        return any(number >= had[proxy] for proxy, number, _ in self.later.touches(row))

    def left_fits(self, had, row):
        return any(may_stay and number >= had[proxy] for proxy, number, may_stay in self.later.touches(row))

    def row_agrees(self, kept, had, row):
        final = self.said.final
        if row == LOCKED:
            return is_locked(kept) == final.locked and not self.later.meets_lock(final.locked, had)
        if row == METADATA_VERSION:
            return (quoted(kept[row]) if row in kept else "none") == final.metadata_version
        if row.startswith(KEY_SERVERS):
            return (row in kept) == (row[len(KEY_SERVERS) :] in final.routes) and self.route_agrees(kept, had, row)
        server = row[len(SERVER_TAG) :]
        return all(
            self.route_agrees(kept, had, other) for other, value in kept.items()
            if other.startswith(KEY_SERVERS) and server in servers_of(value) and not self.is_touched_later(had, other)
        )

    def route_agrees(self, kept, had, row):
        """Whether a row that stays as it is has the tags of its route, if those stay too."""
        if row not in kept:
            return True
        tags = [SERVER_TAG + server for server in servers_of(kept[row])]
        if any(self.is_touched_later(had, tag) for tag in tags):
            return True
        key, alone = row[len(KEY_SERVERS) :], {it: kept[it] for it in [row, *tags] if it in kept}
        return listed(tags_of(alone, key)) == self.said.final.routes.get(key)


# ---- the answer


def order_of(script, text, meetings=False):
    """An order of which this is the text; raises Wrong if there is none."""
    said = read_said(script, text, meetings)
    for order in Search(script, said).orders():
        if printed(script, order, meetings) == text:
            return order
    raise Wrong("no order of the batches has this text")


def what_is_wrong(script, text, meetings=False):
    """Words about a text that the bytes of a script cannot come to, or nothing."""
    script, refused = script_of(script)
    if refused:
        return None if text == refused + "\n" else "the script must be %s" % refused
    try:
        order_of(script, text, meetings)
    except Wrong as wrong:
        return str(wrong)
    return None


def main():
    words = [word for word in sys.argv[1:] if word != "--meetings"]
    if len(words) != 2 or words == ["-", "-"]:
        sys.exit(__doc__)
    script, text = [sys.stdin.buffer.read() if word == "-" else open(word, "rb").read() for word in words]
    meetings = "--meetings" in sys.argv
    wrong = what_is_wrong(script, text.decode(), meetings)
    if not wrong and script_of(script)[0]:
        print("in the order", *order_of(script_of(script)[0], text.decode(), meetings))
    print(wrong or "as it must be")
    return 1 if wrong else 0


if __name__ == "__main__":
    sys.exit(main())
