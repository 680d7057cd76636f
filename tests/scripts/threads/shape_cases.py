"""Threads scripts without their form: numbers of the cluster, lists of work, moves, mutations,
and fields that stand elsewhere.
"""
from tests.scripts.common.forms import THREADS
from tests.scripts.common.script import BAD_SHAPE, NO_SUCH_RESOLVER, NOT_JSON, at, write
from tests.scripts.threads.words import closings, move, threads
from tests.scripts.turns.shape_cases import MOST as MOST_OF_TURNS, wrong_mutations
from tests.scripts.turns.words import case, sequence, shown, transaction, turns

FIRST = ("work", 0, 0, 0)

# how large the numbers of a cluster may be
MOST = {**MOST_OF_TURNS, "rows": 4096}


def ends(proxies, rows, step):
    """How the closings of proxies without batches end, and where each proxy is then."""
    for proxy in range(proxies):
        version = (proxy + 1) * step
        if proxy < rows and version < 2**63:
            yield version, version
        else:
            yield "refused 50 LedgerFull %d" % rows if proxy >= rows else "refused 51 VersionsEnd", 0


def numbers_of_the_cluster():
    """Each number at its limits and past them."""
    for name, most in MOST.items():
        for number in sorted(
            {0, most + 1, 2**32 + 1 if most < 2**32 else 2**63, 2**63 - 1, 2**63, 2**64 - 1, 2**64, 2**64 + 1} - {most}
        ):
            yield "%s %d" % (name, number), write(THREADS.changed((name,), number)), BAD_SHAPE
            yield "%s %d, without work" % (name, number), write(dict(threads([], []), **{name: number})), BAD_SHAPE
        for number in sorted({1, 2, most}):
            numbers = {"proxies": 2, "rows": 100, "step": 10, name: number}
            proxies, rows, step = (numbers[it] for it in ("proxies", "rows", "step"))
            closed, versions = zip(*ends(proxies, rows, step))
            script = {**threads(*[[]] * proxies), name: number}
            yield case("%s %d" % (name, number), script, closings(*closed), *[shown(*it) for it in enumerate(versions)])


def numbers_of_lists():
    """Every other number goes up to the greatest, and no further."""
    for path, _ in THREADS.places("number"):
        if len(path) > 1:
            for number in (2**63, 2**63 + 1, 2**64 - 1, 2**64, 2**64 + 1, -1):
                yield "%s %d" % (".".join(map(str, path)), number), write(THREADS.changed(path, number)), BAD_SHAPE
    yield "the greatest resolver", write(THREADS.changed(("moves", 0, "resolver"), 2**63 - 1)), NO_SUCH_RESOLVER
    yield "the greatest snapshot", write(THREADS.changed((*FIRST, "snapshot"), 2**63 - 1)), THREADS.answer


# what is no list of batches, and what is no batch
NO_BATCHES = [None, 0, "", True, {}, {"batches": []}, [0], [None], [{}], ["a"], [[{}]], [[[]]], [[0]], [[None]], [[[[]]]]]


def lists_of_work():
    """One list of batches for each proxy, and nothing else in them."""
    for count in (0, 1, 3, 4, 64, 65):
        yield "%d lists of two proxies" % count, write(THREADS.changed(("work",), [[]] * count)), BAD_SHAPE
    for count in (0, 2):
        yield "%d lists of one proxy" % count, write(threads([]) | {"work": [[]] * count}), BAD_SHAPE
    yield "no lists and no proxies", write(threads()), BAD_SHAPE
    for wrong in NO_BATCHES:
        for work in ([wrong, []], [[], wrong], [[[]], wrong]):
            yield "work %r" % (work,), write(THREADS.changed(("work",), work)), BAD_SHAPE
        yield "work %r of one proxy" % (wrong,), write(threads([]) | {"work": [wrong]}), BAD_SHAPE
    for wrong in (None, 0, "", {}, {"0": [], "1": []}, [], [[[], []]], [[], [], []]):
        yield "work %r" % (wrong,), write(THREADS.changed(("work",), wrong)), BAD_SHAPE
    for name in ("snapshot", "reads", "writes", "mutations", "lock_aware"):
        part = transaction()
        del part[name]
        yield "a transaction without %s" % name, write(threads([[part]])), BAD_SHAPE


def moved(old, new, name):
    script = THREADS.good()
    at(script, new)[name] = at(script, old).pop(name)
    return write(script)


def moved_fields():
    """A field that stands in the object around its own, or in the one inside."""
    yield "ask in a transaction", moved((), FIRST, "ask"), BAD_SHAPE
    yield "rows in a transaction", moved((), FIRST, "rows"), BAD_SHAPE
    yield "step in a move", moved((), ("moves", 0), "step"), BAD_SHAPE
    yield "range around the moves", moved(("moves", 0), (), "range"), BAD_SHAPE
    yield "resolver around the moves", moved(("moves", 0), (), "resolver"), BAD_SHAPE
    yield "lock_aware around the work", moved(FIRST, (), "lock_aware"), BAD_SHAPE
    yield "lock_aware in a mutation", moved(FIRST, (*FIRST, "mutations", 0), "lock_aware"), BAD_SHAPE
    yield "reads of another transaction", moved(FIRST, ("work", 1, 0, 0), "reads"), BAD_SHAPE


def other_forms():
    """What is right elsewhere: a fold script, a turns script, a batch, work alone; and what is nothing."""
    fold = {"resolvers": 1, "rows": [], "ask": []}
    for value in ({}, [], None, 0, "", True, [[]], [{}], [threads([])]):
        yield "%r" % (value,), write(value), BAD_SHAPE
    yield "a fold script", write(fold), BAD_SHAPE
    yield "a fold script's rows for the rows", write(THREADS.changed(("rows",), [])), BAD_SHAPE
    yield "a turns script", write(turns()), BAD_SHAPE
    yield "a turns script with work", write({**turns(), **threads([], [])}), BAD_SHAPE
    yield "events for the work", write(dict(threads([], []), work=[sequence(0), sequence(1)])), BAD_SHAPE
    yield "events in the work", write(dict(threads([], []), work=[[sequence(0)], []])), BAD_SHAPE
    yield "a batch", write([transaction()]), BAD_SHAPE
    yield "the work alone", write([[[transaction()]]]), BAD_SHAPE


RANGE = ["a", "b"]
NO_MOVES = [
    {}, [], None, 0, "", [RANGE, 0], {"range": RANGE}, {"resolver": 0}, {"range": RANGE, "dest": 0},
    {"Range": RANGE, "resolver": 0}, {"range": RANGE, "resolver": 0, "date": 1}, {"range": ["a"], "resolver": 0},
    {"range": ["a", "b", "c"], "resolver": 0}, {"range": {"begin": "a", "end": "b"}, "resolver": 0},
    {"range": ["a", "\\xFF"], "resolver": 0}, {"range": RANGE, "resolver": -1}, {"range": RANGE, "resolver": 2**63},
    {"range": RANGE, "resolver": "0"}, {"range": RANGE, "resolver": [0]}, {"move": {"range": RANGE, "resolver": 0}},
    {"range": RANGE, "resolver": None}, {"range": None, "resolver": 0},
]


def moves_of_wrong_form():
    """What is no move, alone, before a move and behind one."""
    fine = move("a", "b", 0)
    for wrong in NO_MOVES:
        for moves in ([wrong], [wrong, fine], [fine, wrong]):
            yield "moves %r" % (moves,), write(threads([], moves=moves)), BAD_SHAPE
    for wrong in (None, {}, "", 0, fine, [[fine]]):
        yield "moves %r" % (wrong,), write(threads([]) | {"moves": wrong}), BAD_SHAPE


def mutations_of_wrong_form():
    for name, mutation in wrong_mutations():
        yield name, write(THREADS.changed((*FIRST, "mutations", 1), mutation)), BAD_SHAPE


def beginnings():
    """No beginning of a script is JSON."""
    batch = [transaction(7, [], [["n", "n\\x00"]], [{"set": ["n", "1"]}])]
    whole = write(
        threads([batch, []], [[]], moves=[move("m", "t", 1), move("", "\\xff", 2)], resolvers=3, ask=["n", "\\xff"])
    )
    for length in range(len(whole)):
        yield "the first %d bytes" % length, whole[:length], NOT_JSON
    yield "two proxies and no end", '{"proxies":2', NOT_JSON
    yield "200 lists", "[" * 200 + "]" * 200, NOT_JSON


CASES = (
    numbers_of_the_cluster, numbers_of_lists, lists_of_work, moved_fields, other_forms, moves_of_wrong_form,
    mutations_of_wrong_form, beginnings,
)
