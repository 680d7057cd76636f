"""Threads scripts with two faults at once, in both orders, and with one fault at each end of each list."""
import itertools

from tests.scripts.common.script import (
    BAD_SHAPE, BATCH_TOO_LARGE, NO_SUCH_RESOLVER, NOT_JSON, Fields, Written, at, changed, write,
)
from tests.scripts.fold.order_cases import NO_JSON, NO_MEMBERS, turned
from tests.scripts.threads.words import closings, move, outcomes, threads
from tests.scripts.turns.order_cases import all_turned, faults_at, some_faults_at
from tests.scripts.turns.words import lines, one_key, put, shown, transaction

NOBODY = 2


def wide():
    """Two moves, and two proxies with two batches of two transactions, each with two reads, writes and mutations."""
    def batch():
        reads, writes = ([one_key(key) for _ in range(2)] for key in ("r", "w"))
        return [transaction(0, reads, writes, [put("k", "v") for _ in range(2)]) for _ in range(2)]

    return threads([batch(), batch()], [batch(), batch()], moves=[move("m", "t", 1), move("m", "t", 0)], ask=["a", "b"])


def printed_wide():
    asked = ['tags "a" none', 'tags "b" none']
    batches = [outcomes(proxy, *["committed committed"] * 2) for proxy in (0, 1)]
    return lines(*batches, closings(50, 60), shown(0, 50, *asked), shown(1, 60, *asked))


def place(proxy, number, *more):
    """The way to a batch, to a transaction or to a place in it."""
    return ("work", proxy, number, *more)


MOVES = [("moves", number, "range") for number in (0, 1)]
BATCHES = [place(0, 0), place(0, 1), place(1, 1)]
ENDS = [
    place(*batch, number, name, number)
    for batch in ((0, 0), (1, 1)) for number in (0, 1) for name in ("reads", "writes", "mutations")
]


def in_words(path):
    return " ".join(map(str, path))


def with_nobody(script, number=0):
    """The script with a move to a resolver that is not there."""
    return changed(script, ("moves", number, "resolver"), NOBODY)


def with_large_batch(script, path):
    """The script with as many transactions more in this batch that it is too large."""
    at(script, path).extend(transaction() for _ in range(1025 - len(at(script, path))))
    return script


def faults_at_the_ends():
    """Each fault in the first and the last place of each list, also where a move goes to nobody."""
    for number, path in enumerate(ENDS + MOVES):
        for name, value, answer in faults_at(path):
            script = changed(wide(), path, value)
            yield "%s at %s" % (name, in_words(path)), write(script), answer
            if number % 3 == 0:
                yield "%s at %s, and a move to nobody" % (name, in_words(path)), write(with_nobody(script)), answer


# places in the order of the checks: the moves come first, however the fields stand
CHECKED = [
    *MOVES, place(0, 0, 0, "reads", 0), place(0, 0, 0, "writes", 1), place(0, 0, 1, "mutations", 0),
    place(0, 1, 0, "mutations", 1), place(1, 0, 0, "reads", 1), place(1, 1, 1, "mutations", 1),
]


def two_faults():
    """The first fault in the order of the moves and then of the work is answered, whatever its number is."""
    for first, second in itertools.combinations(CHECKED, 2):
        for number, (name, value, answer) in enumerate(some_faults_at(first)):
            for other, another, _ in some_faults_at(second)[number % 2 :: 2]:
                script = changed(changed(wide(), first, value), second, another)
                named = "%s at %s, %s at %s" % (name, in_words(first), other, in_words(second))
                yield named, write(script), answer
                if name < other:
                    yield named + ", turned", write(all_turned(script)), answer


def moves_to_nobody():
    """A move to nobody comes after every other fault of content, wherever either stands."""
    for number in (0, 1):
        yield "move %d to nobody" % number, write(with_nobody(wide(), number)), NO_SUCH_RESOLVER
        yield "move %d to nobody, turned" % number, write(all_turned(with_nobody(wide(), number))), NO_SUCH_RESOLVER
        for path in CHECKED:
            for name, value, answer in some_faults_at(path):
                script = with_nobody(changed(wide(), path, value), number)
                yield "move %d to nobody, %s at %s" % (number, name, in_words(path)), write(script), answer
        for path in BATCHES:
            script = with_nobody(with_large_batch(wide(), path), number)
            yield "move %d to nobody, %s too large" % (number, in_words(path)), write(script), BATCH_TOO_LARGE
    yield "both moves to nobody", write(with_nobody(with_nobody(wide()), 1)), NO_SUCH_RESOLVER


def large_batches():
    """A batch that is too large comes after the moves and the faults inside it, and before those of the next batch."""
    for batch in BATCHES:
        yield "%s too large" % in_words(batch), write(with_large_batch(wide(), batch)), BATCH_TOO_LARGE
        for path in CHECKED:
            is_first = path[0] == "moves" or path[1:3] <= batch[1:]
            for name, value, answer in some_faults_at(path)[::3]:
                script = with_large_batch(changed(wide(), path, value), batch)
                named = "%s too large, %s at %s" % (in_words(batch), name, in_words(path))
                yield named, write(script), answer if is_first else BATCH_TOO_LARGE
        for name, value, answer in some_faults_at((*batch, "mutations")):
            script = with_large_batch(wide(), batch)
            at(script, batch)[-1]["mutations"].append(value)
            yield "%s too large, %s in its last transaction" % (in_words(batch), name), write(script), answer


# faults of form: a way to a place of the wide script, and what stands there
SHAPELESS = {
    "no text in the first key": (place(0, 0, 0, "reads", 0, 0), "\\x6d"),
    "no text in the last value": (place(1, 1, 1, "mutations", 1, "set", 1), "\\xFF"),
    "no text in a range that moves": (MOVES[1] + (0,), "a b"),
    "a null for the first read": (place(0, 0, 0, "reads", 0), None),
    "a null for the last mutation": (place(1, 1, 1, "mutations", 1), None),
    "a null for the last batch": (place(1, 1), None),
    "a null for the last move": (("moves", 1), None),
    "a negative snapshot in the first transaction": (place(0, 0, 0, "snapshot"), -1),
    "a negative snapshot in the last transaction": (place(1, 1, 1, "snapshot"), -1),
    "no bool in the first transaction": (place(0, 0, 0, "lock_aware"), 0),
    "one more field in the last transaction": (place(1, 1, 1, "x"), 1),
    "one more field in the first move": (("moves", 0, "x"), 1),
    "a resolver in words": (("moves", 1, "resolver"), "0"),
    "a resolver too great": (("moves", 0, "resolver"), 2**63),
    "no proxies": (("proxies",), 0),
    "one proxy": (("proxies",), 1),
    "three proxies": (("proxies",), 3),
    "65 resolvers": (("resolvers",), 65),
    "no window": (("window",), 0),
    "no step": (("step",), 0),
    "no rows": (("rows",), 0),
    "4,097 rows": (("rows",), 4097),
    "no first asked key": (("ask", 0), "a b"),
    "no last asked key": (("ask", 1), "\\"),
    "one more field": (("x",), 1),
}

# faults of content: a way to a place, and what stands there
FAULTY = [
    (path, name, value) for path in (MOVES[1], CHECKED[2], CHECKED[5], CHECKED[7]) for name, value, _ in some_faults_at(path)
]


def form_and_content():
    """A fault of form is answered wherever it stands, before a fault of content or after it."""
    for shapeless, (way, new) in SHAPELESS.items():
        for number, (path, name, value) in enumerate(FAULTY):
            if way[: len(path)] != path and path[: len(way)] != way:
                script = changed(changed(wide(), path, value), way, new)
                script = turned(script) if number % 2 else script
                yield "%s, and %s at %s" % (shapeless, name, in_words(path)), write(script), BAD_SHAPE
        for what, script in (
            ("a move to nobody", with_nobody(wide())), ("a batch too large", with_large_batch(wide(), place(0, 0))),
        ):
            yield "%s, and %s" % (shapeless, what), write(changed(script, way, new)), BAD_SHAPE


def json_and_others():
    """What is no JSON is answered wherever it stands, before all other faults and after them."""
    wrong = {"%s at %s" % (name, in_words(path)): write(changed(wide(), path, value)) for path, name, value in FAULTY[::2]}
    wrong |= {name: write(changed(wide(), way, new)) for name, (way, new) in SHAPELESS.items()}
    wrong["a batch too large"] = write(with_large_batch(wide(), place(0, 0)))
    wrong["a move to nobody"] = write(with_nobody(wide()))
    for number, (name, text) in enumerate(wrong.items()):
        for other, (before, behind) in list(NO_JSON.items())[number % 2 :: 2]:
            yield "%s, and %s" % (name, other), before + text + behind, NOT_JSON
        member = NO_MEMBERS[number % len(NO_MEMBERS)]
        yield "%s, and first %s" % (name, member), "{" + member + "," + text[1:], NOT_JSON
        yield "%s, and last %s" % (name, member), text[:-1] + "," + member + "}", NOT_JSON


def doubled_faults():
    """Where a field stands twice, what its first value holds counts for nothing, whatever its fault is."""
    faulty = [
        (path, name, changed(wide(), path, value), answer) for path in CHECKED[1::2] for name, value,
        answer in some_faults_at(path)
    ]
    faulty.append((MOVES[0], "nobody", with_nobody(wide()), NO_SUCH_RESOLVER))
    for path, name, wrong, answer in faulty:
        field, fine = path[0], wide()
        again = Fields([(field, wrong[field]), *fine.items()])
        before = Fields([*fine.items(), (field, wrong[field])])
        yield "%s in %s that stand again" % (name, field), write(again), printed_wide()
        yield "%s in %s that stood before" % (name, field), write(before), answer
        both = Fields([("ask", Written("[7]")), *wrong.items()])
        yield "%s at %s behind a wrong ask that stands again" % (name, in_words(path)), write(both), answer


CASES = (faults_at_the_ends, two_faults, moves_to_nobody, large_batches, form_and_content, json_and_others, doubled_faults)
