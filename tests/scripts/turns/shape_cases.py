"""Turns scripts without their form: numbers of the cluster, events, mutations, and fields that stand elsewhere."""
from tests.scripts.common.forms import TURNS
from tests.scripts.common.script import BAD_SHAPE, Fields, at, write
from tests.scripts.turns.words import case, finish, move, offer, sequence, shown, transaction, turns

EVENT = ("events", 1, "sequence")
FIRST = (*EVENT, "batch", 0)

# how large the numbers of a cluster may be
MOST = {"proxies": 64, "resolvers": 64, "window": 10**9, "step": 2**63 - 1}


def numbers_of_the_cluster():
    for name, most in MOST.items():
        for number in sorted(
            {0, most + 1, 2**32 + 1 if most < 2**32 else 2**63, 2**63 - 1, 2**63, 2**64 - 1, 2**64, 2**64 + 1} - {most}
        ):
            yield "%s %d" % (name, number), write(TURNS.changed((name,), number)), BAD_SHAPE
            yield "%s %d, without events" % (name, number), write(dict(turns(), **{name: number})), BAD_SHAPE
        for number in (1, most):
            numbers = {"proxies": 1, "resolvers": 1, name: number}
            script = dict(turns(), **numbers)
            yield case("%s %d" % (name, number), script, *[shown(proxy, 0) for proxy in range(numbers["proxies"])])


def numbers_of_events():
    """Every other number goes up to the greatest, and no further."""
    for path, _ in TURNS.places("number"):
        if path[0] == "events":
            for number in (2**63, 2**63 + 1, 2**64 - 1, 2**64, 2**64 + 1, -1):
                yield "%s %d" % (".".join(map(str, path)), number), write(TURNS.changed(path, number)), BAD_SHAPE


def moved(old, new, name):
    script = TURNS.good()
    at(script, new)[name] = at(script, old).pop(name)
    return write(script)


def moved_fields():
    """A field that stands in the object around its own, or in the one inside."""
    yield "ask in an event", moved((), EVENT, "ask"), BAD_SHAPE
    yield "step in an event", moved((), ("events", 0, "move"), "step"), BAD_SHAPE
    yield "batch around the sequence", moved(EVENT, ("events", 1), "batch"), BAD_SHAPE
    yield "proxy around the sequence", moved(EVENT, ("events", 1), "proxy"), BAD_SHAPE
    yield "proxy in a transaction", moved(EVENT, FIRST, "proxy"), BAD_SHAPE
    yield "lock_aware around the transactions", moved(FIRST, EVENT, "lock_aware"), BAD_SHAPE
    yield "lock_aware in a mutation", moved(FIRST, (*FIRST, "mutations", 0), "lock_aware"), BAD_SHAPE
    yield "reads around the transactions", moved(FIRST, EVENT, "reads"), BAD_SHAPE
    yield "range around the move", moved(("events", 0, "move"), ("events", 0), "range"), BAD_SHAPE
    yield "row around the offer", moved(("events", 2, "offer"), ("events", 2), "row"), BAD_SHAPE


def fold_script():
    return {"resolvers": 1, "rows": [], "ask": []}


def other_forms():
    """What is right elsewhere: a fold script, a batch, one event, and a script of threads."""
    yield "a fold script", write(fold_script()), BAD_SHAPE
    yield "a fold script's rows for the events", write(dict(turns(), rows=[])), BAD_SHAPE
    yield "a batch", write([transaction()]), BAD_SHAPE
    yield "an event", write(finish(0)), BAD_SHAPE
    yield "a list of events", write([finish(0)]), BAD_SHAPE
    threads = {"proxies": 1, "resolvers": 1, "window": 1, "step": 1, "rows": 1, "moves": [], "work": [[]], "ask": []}
    yield "a threads script", write(threads), BAD_SHAPE
    yield "a list of batches for a batch", write(TURNS.changed((*EVENT, "batch"), [[transaction()]])), BAD_SHAPE
    yield "a list of lists of events", write(TURNS.changed(("events",), [[finish(0)]])), BAD_SHAPE


def events_of_wrong_form():
    """Each event by another name, with the fields of each other event, as a list, and two in one object."""
    events = [sequence(0), move("a", "b", 0), offer(0, 0), finish(0)]
    for event in events:
        (name, inner), = event.items()
        for other in (
            "Sequence", "seq", "moves", "move_range", "offers", "resolve", "commit", "begin", "event", "", name + "_",
        ):
            yield "%r for %s" % (other, name), write(turns({other: inner})), BAD_SHAPE
        for value in (None, [], [inner], list(inner.values()), {}, True, 0, "0"):
            yield "%s of %r" % (name, value), write(turns({name: value})), BAD_SHAPE
        yield "%s as a list" % name, write(turns() | {"events": [[name, inner]]}), BAD_SHAPE
        yield "%s with a type" % name, write(turns(dict(inner, type=name))), BAD_SHAPE
        yield "the fields of %s alone" % name, write(turns(inner)), BAD_SHAPE
        for another in events:
            (other, fields), = another.items()
            if other != name:
                yield "%s with the fields of %s" % (name, other), write(turns({name: fields})), BAD_SHAPE
                yield "%s and %s in one" % (name, other), write(turns({**event, **another})), BAD_SHAPE
    for word in ("finish", "sequence", None, True, 0, [], {}):
        yield "%r for an event" % (word,), write(turns() | {"events": [word]}), BAD_SHAPE


def wrong_mutations():
    """A mutation by another name, two in one object, and the forms of other mutations."""
    pair = ["k", "l"]
    for other in (
        "Set", "setStamped", "set-stamped", "set_stamp", "stamped", "SetStamped", "clear_range", "set_versionstamped_value",
        "add", "",
    ):
        yield "%r for a mutation" % other, {other: pair}
    for first, second in (("set", "clear"), ("set", "set_stamped"), ("clear", "set_stamped")):
        yield "%s and %s in one" % (first, second), {first: pair, second: pair}
        yield "%s and %s in one, turned" % (first, second), {second: pair, first: pair}
    for name in ("set", "clear", "set_stamped"):
        for value in (None, {}, {"key": "k", "value": "v"}, "kl", [pair], [["k"], ["l"]], ["k", None], [7, "l"]):
            yield "%s of %r" % (name, value), {name: value}
        yield "%s as a list" % name, [name, *pair]
        yield "%s twice, the last one short" % name, Fields([(name, pair), (name, pair[:1])])
    yield "no mutation", {}


def mutations_of_wrong_form():
    for name, mutation in wrong_mutations():
        yield name, write(TURNS.changed((*FIRST, "mutations", 1), mutation)), BAD_SHAPE


CASES = (
    numbers_of_the_cluster, numbers_of_events, moved_fields, other_forms, events_of_wrong_form, mutations_of_wrong_form,
)
