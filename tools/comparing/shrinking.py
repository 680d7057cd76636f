"""Makes a script smaller for as long as an implementation's first difference is of the same kind."""
import json
import time

from tests.scripts.common.script import write
from tests.scripts.fold.reference import DEEPEST, depth_of

from . import cuts, smaller
from .spelled import cut, unnested

# the fields of a script that are written with one item on a line
LONG_FIELDS = {"events", "rows", "work", "moves"}
PASSES = {
    "fold": [cuts.fold_rows, cuts.items_of("states"), cuts.columns, cuts.items_of("mutations"), cuts.items_of("ask")],
    "turns": [
        cuts.tail, cuts.batches_of_turns, cuts.events, cuts.items_of("batch"), cuts.resolvers_of_turns,
        cuts.proxies_of_turns, cuts.items_of("mutations"), cuts.items_of("reads"), cuts.items_of("writes"),
        cuts.items_of("ask"),
    ],
    "threads": [
        cuts.batches_of_threads, cuts.rounds_of_threads, cuts.proxies_of_threads, cuts.transactions_of_threads,
        cuts.items_of("moves"), cuts.resolvers_of_threads, cuts.items_of("mutations"), cuts.items_of("reads"),
        cuts.items_of("writes"), cuts.items_of("ask"),
    ],
}
# the order in which fields are written
FIELDS = (
    "proxies", "resolvers", "window", "step", "proxy", "batch", "snapshot", "reads", "writes", "version", "states",
    "mutations", "lock_aware", "verdicts", "range", "row", "resolver", "ask", "moves", "work", "rows", "events",
)
# a text that is no JSON, or whose spelling matters, is cut in pieces of so many characters at first
FIRST_PIECE = 4096


def parsed(script):
    """The JSON value of a script, or nothing if it has none that can be written again, or one too deep for a script."""
    try:
        text = script.decode()
        return json.loads(text, object_pairs_hook=in_order) if depth_of(text) <= DEEPEST else None
    except ValueError:
        return None


def in_order(members):
    """An object with its fields in the order of docs/FORMATS.md, and after them those that it does not name."""
    found = dict(members)
    return {name: found[name] for name in (*(it for it in FIELDS if it in found), *(it for it in found if it not in FIELDS))}


def spelled(value):
    """The JSON of a script, with one event, row, batch list or move on a line."""
    if not isinstance(value, dict):
        return write(value) + "\n"
    members = []
    for name, inner in value.items():
        if name in LONG_FIELDS and isinstance(inner, list) and inner:
            members.append("%s:[\n%s]" % (write(name), ",\n".join(map(write, inner))))
        else:
            members.append("%s:%s" % (write(name), write(inner)))
    return "{%s}\n" % ",".join(members)


class Shrinker:
    """Tries smaller scripts. `attempt` gives for the bytes of one what was found: kind, line and right text."""

    def __init__(self, attempt, kind, seconds):
        self.attempt, self.kind = attempt, kind
        self.end, self.tried, self.runs = time.monotonic() + seconds, set(), 0
        # the smallest script so far, and what was found of it
        self.script, self.found = None, None

    def is_over(self):
        return time.monotonic() > self.end

    def accepts(self, value):
        return self.accepts_text(spelled(value))

    def accepts_text(self, text):
        """Whether a script shows the same kind of difference; then it is the smallest so far. In its text a byte that is no
        UTF-8 is half a surrogate pair.
        """
        try:
            script = text.encode(errors="surrogateescape")
        except UnicodeEncodeError:
            return False
        if script in self.tried or self.is_over():
            return False
        self.tried.add(script)
        self.runs += 1
        found = self.attempt(script)
        if found.kind != self.kind:
            return False
        self.script, self.found = script, found
        return True

    def drop(self, count, without, accepts=None):
        """Leaves out as many as it can of so many things, many at once at first; says which are gone.

        `without` makes the value that lacks the things with these numbers, and `accepts` tries it.
        """
        accepts, kept, gone = accepts or self.accepts, list(range(count)), frozenset()
        size = count
        while size and kept:
            place = len(kept)
            while place > 0 and not self.is_over():
                begin = max(0, place - size)
                more = gone.union(kept[begin:place])
                if accepts(without(more)):
                    gone = more
                    del kept[begin:place]
                place = begin
            size //= 2
        return gone

    def shrink(self, mode, script):
        """The smallest script that it finds, as bytes: the given one if no smaller one shows the same kind."""
        value = parsed(script)
        if value is None or not self.accepts(value):
            self.cut_text(script)
            return self.script or script
        passes = PASSES[mode] if cuts.has_form(mode, value) else [cuts.anything]
        passes = [*passes, *smaller.PASSES[mode]] if cuts.has_form(mode, value) else passes
        before = None
        while before != value and not self.is_over():
            before = json.loads(json.dumps(value))
            for one in passes:
                value = one(self, value)
        return self.script

    def cut_text(self, script):
        """Cuts brackets of what nests too deep, items, and then characters, out of a text that is no JSON, or whose spelling
        matters.
        """
        text = script.decode(errors="surrogateescape")
        text = cut(self, unnested(self, text) if depth_of(text) > DEEPEST else text)
        size = min(FIRST_PIECE, len(text))
        while size and not self.is_over():
            place = len(text)
            while place > 0 and not self.is_over():
                begin = max(0, place - size)
                if self.accepts_text(text[:begin] + text[place:]):
                    text = text[:begin] + text[place:]
                place = begin
            size //= 2
