"""Turns scripts with two faults at once, in both orders, and with one fault at each end of each list."""
import itertools

from tests.scripts.common.script import BAD_SHAPE, BATCH_TOO_LARGE, NOT_JSON, Fields, Written, at, changed, write
from tests.scripts.fold.order_cases import NO_JSON, NO_MEMBERS, turned
from tests.scripts.turns.content_cases import MUTATION_FAULTS, RANGE_FAULTS
from tests.scripts.turns.words import finish, lines, move, offer, one_key, put, sequence, shown, transaction, turns

LARGE = [transaction()] * 1025


def wide():
    """Batches of three transactions, each with three reads, writes and mutations, with moves between them;
    all is refused or waits.
    """
    def batch():
        three = [one_key("r") for _ in range(3)]
        return [transaction(0, three, three, [put("k", "v") for _ in range(3)]) for _ in range(3)]

    return turns(
        sequence(9, *batch()), move("m", "t", 9), sequence(9, *batch()), move("m", "t", 9), sequence(9, *batch()),
        offer(0, 0), finish(0), ask=["a", "b"],
    )


def printed_wide():
    events = ["refused 32 NoSuchProxy", "refused 20 NoSuchResolver"] * 2 + ["refused 32 NoSuchProxy", "refused 35 NoSuchRow"]
    asked = ['tags "a" none', 'tags "b" none']
    return lines(events, "refused 42 OutOfTurn none", shown(0, 0, *asked), shown(1, 0, *asked))


def with_large_batch(batch=LARGE):
    """The wide script with this batch in the middle."""
    return changed(wide(), ("events", 2, "sequence", "batch"), batch)


def place(event, number, *more):
    """The way to a transaction, or to a place in it."""
    return ("events", event, "sequence", "batch", number, *more)


MOVES = [("events", event, "move", "range") for event in (1, 3)]
ENDS = [
    place(event, number, name, index)
    for event in (0, 4) for number in (0, 2) for name in ("reads", "writes", "mutations") for index in (0, 2)
]

# a fault of each number and of each kind, for ranges and for mutations
SOME_RANGES = ["a long begin", "an end past the key space", "equal ends"]
SOME_MUTATIONS = [
    "a key of 10,001 bytes", "a value of 100,001 bytes", "a key at the end of the key space", "ends the wrong way round",
    "a tag of two bytes", "a stamp of a keyServers row", "one byte too few",
]


def faults_at(path, names=None):
    """The faults that can stand at a place, or those of these names: what stands there, and what is answered."""
    faults = MUTATION_FAULTS if "mutations" in path else RANGE_FAULTS
    return [(name, *faults[name]) for name in (names or faults) if name in faults]


def some_faults_at(path):
    return faults_at(path, SOME_MUTATIONS if "mutations" in path else SOME_RANGES)


def in_words(path):
    return "event %d, %s" % (path[1], " ".join(map(str, path[4:])) or "range")


def faults_at_the_ends():
    """Each fault in the first and the last place of each list."""
    for path in ENDS + MOVES:
        for name, value, answer in faults_at(path):
            yield "%s at %s" % (name, in_words(path)), write(changed(wide(), path, value)), answer


# places in the order of the checks
CHECKED = [
    place(0, 0, "reads", 0), place(0, 0, "reads", 2), place(0, 0, "writes", 0), place(0, 0, "mutations", 0),
    place(0, 0, "mutations", 2), place(0, 2, "reads", 2), MOVES[0], place(2, 1, "writes", 1), MOVES[1],
    place(4, 2, "mutations", 2),
]


def two_faults():
    """The first fault in the order of the events is answered, whatever its number is and however the fields stand."""
    for first, second in itertools.combinations(CHECKED, 2):
        for name, value, answer in some_faults_at(first):
            for other, another, _ in some_faults_at(second):
                script = changed(changed(wide(), first, value), second, another)
                named = "%s at %s, %s at %s" % (name, in_words(first), other, in_words(second))
                yield named, write(script), answer
                if name < other:
                    yield named + ", turned", write(all_turned(script)), answer


def all_turned(value):
    """The value with the fields of each object in the other order."""
    if isinstance(value, dict):
        return {name: all_turned(value[name]) for name in reversed(list(value))}
    return [all_turned(inner) for inner in value] if isinstance(value, list) else value


def large_batches():
    """A batch that is too large comes after the faults inside it and before those of the next event."""
    yield "a batch too large", write(with_large_batch()), BATCH_TOO_LARGE
    for path in CHECKED:
        for name, value, answer in some_faults_at(path):
            for event in (0, 2, 4):
                script = changed(wide(), path, value)
                batch = script["events"][event]["sequence"]["batch"]
                batch += [transaction()] * (1025 - len(batch))
                first = answer if path[1] <= event else BATCH_TOO_LARGE
                yield "event %d too large, %s at %s" % (event, name, in_words(path)), write(script), first
    for name, value, answer in some_faults_at(place(2, 0, "mutations", 0)):
        script = with_large_batch([*LARGE[1:], transaction(0, [], [], [value])])
        yield "a batch too large, %s in its last transaction" % name, write(script), answer


# faults of form: a way to a place of the wide script, and what stands there
SHAPELESS = {
    "no text in the first key": (place(0, 0, "reads", 0, 0), "\\x6d"),
    "no text in the last value": (place(4, 2, "mutations", 2, "set", 1), "\\xFF"),
    "no text in a range that moves": (MOVES[1] + (0,), "a b"),
    "a null for the first read": (place(0, 0, "reads", 0), None),
    "a null for the last mutation": (place(4, 2, "mutations", 2), None),
    "a negative snapshot in the first transaction": (place(0, 0, "snapshot"), -1),
    "a negative snapshot in the last transaction": (place(4, 2, "snapshot"), -1),
    "no bool in the first transaction": (place(0, 0, "lock_aware"), 0),
    "one more field in the last transaction": (place(4, 2, "x"), 1),
    "a proxy too great": (("events", 0, "sequence", "proxy"), 2**63),
    "no row": (("events", 5, "offer", "row"), None),
    "a resolver in words": (("events", 3, "move", "resolver"), "0"),
    "a strange last event": (("events", 6), {"finished": {"proxy": 0}}),
    "no proxies": (("proxies",), 0),
    "65 resolvers": (("resolvers",), 65),
    "no window": (("window",), 0),
    "no step": (("step",), 0),
    "no first asked key": (("ask", 0), "a b"),
    "no last asked key": (("ask", 1), "\\"),
    "one more field": (("x",), 1),
}

# faults of content: a way to a place, and what stands there
FAULTY = [
    (path, name, value) for path in (CHECKED[0], CHECKED[4], MOVES[0], CHECKED[9]) for name, value, _ in some_faults_at(path)
]


def form_and_content():
    """A fault of form is answered wherever it stands, before a fault of content or after it."""
    for shapeless, (way, new) in SHAPELESS.items():
        for path, name, value in FAULTY:
            if way[: len(path)] != path:
                script = changed(changed(wide(), path, value), way, new)
                yield "%s, and %s at %s" % (shapeless, name, in_words(path)), write(script), BAD_SHAPE
                yield "%s, and %s at %s, turned" % (shapeless, name, in_words(path)), write(turned(script)), BAD_SHAPE
        script = changed(with_large_batch(), way, new)
        yield "%s, and a batch too large" % shapeless, write(script), BAD_SHAPE


def json_and_others():
    """What is no JSON is answered wherever it stands, before all other faults and after them."""
    wrong = {"%s at %s" % (name, in_words(path)): write(changed(wide(), path, value)) for path, name, value in FAULTY}
    wrong |= {name: write(changed(wide(), way, new)) for name, (way, new) in SHAPELESS.items()}
    wrong["a batch too large"] = write(with_large_batch())
    for number, (name, text) in enumerate(wrong.items()):
        for other, (before, behind) in NO_JSON.items():
            yield "%s, and %s" % (name, other), before + text + behind, NOT_JSON
        member = NO_MEMBERS[number % len(NO_MEMBERS)]
        yield "%s, and first %s" % (name, member), "{" + member + "," + text[1:], NOT_JSON
        yield "%s, and last %s" % (name, member), text[:-1] + "," + member + "}", NOT_JSON


def doubled_faults():
    """Where a field stands twice, what its first value holds counts for nothing, whatever its fault is."""
    for path, name, value in FAULTY:
        faulty, fine = changed(wide(), path, value), wide()
        answer = dict((name, answer) for name, _, answer in some_faults_at(path))[name]
        again = Fields([("events", faulty["events"]), *fine.items()])
        before = Fields([*fine.items(), ("events", faulty["events"])])
        yield "%s at %s in events that stand again" % (name, in_words(path)), write(again), printed_wide()
        yield "%s at %s in events that stood before" % (name, in_words(path)), write(before), answer
        both = Fields([("ask", Written("[7]")), *faulty.items()])
        yield "%s at %s behind a wrong ask that stands again" % (name, in_words(path)), write(both), answer
        inside = changed(wide(), path[:2], Fields([next(iter(at(faulty, path[:2]).items())), *at(fine, path[:2]).items()]))
        yield "%s at %s in an event's field that stands again" % (name, in_words(path)), write(inside), printed_wide()


CASES = (faults_at_the_ends, two_faults, large_batches, form_and_content, json_and_others, doubled_faults)
