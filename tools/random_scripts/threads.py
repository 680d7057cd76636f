"""Random threads scripts, by few keys, servers and values, so that reads and writes, moves and rows meet."""
from tests.scripts.common.script import BATCH_TOO_LARGE, NO_SUCH_RESOLVER
from tests.scripts.threads.words import move, threads
from tests.scripts.turns.content_cases import MUTATION_FAULTS, RANGE_FAULTS
from tests.scripts.turns.words import transaction

from .faults import spelled_wrong
from .fold import GREATEST
from .turns import Drawn, plant_content

# numbers of proxies, each with a number of batches for each
SIZES = [(1, 12), (2, 2), (2, 6), (2, 14), (3, 3), (3, 9), (4, 4), (4, 6), (5, 4), (6, 3), (8, 2)]


def random_threads(rng, proxies, batches, transactions=(0, 1, 1, 2)):
    """A script of so many proxies with so many batches each, or a few less; most snapshots lie among its versions."""
    drawn = Drawn(rng)
    drawn.resolvers, drawn.step = rng.choice([1, 2, 3, 4]), rng.choice([1, 10, 10, 10, 140, GREATEST // 5])
    drawn.window = min(10**9, rng.choice([2, 5, 30, 1000]) * drawn.step)
    work = []
    for _ in range(proxies):
        work.append([])
        for _ in range(max(0, batches - rng.choice([0, 0, 0, 1]))):
            drawn.owners = [0] * rng.randrange(proxies * batches)
            work[-1].append([drawn.transaction() for _ in range(rng.choice(transactions))])
    if work[0] and rng.random() < 0.7:
        work[0][0] = drawn.first_batch()["sequence"]["batch"]
    moves = [move(*drawn.span(), rng.randrange(drawn.resolvers)) for _ in range(rng.choice([0, 0, 1, 3]))]
    count = sum(map(len, work))
    rows = rng.choice([4096, count + proxies, max(1, count + rng.randrange(-2, proxies))])
    return threads(
        *work, moves=moves, ask=["a", "\\xff", ""][: rng.randrange(4)], resolvers=drawn.resolvers, window=drawn.window,
        step=drawn.step, rows=rows,
    )


def right_script(rng, size=None):
    """A script without a fault, of about as many batches as the size says."""
    if size is None:
        return random_threads(rng, *rng.choice(SIZES))
    proxies = rng.randrange(1, 1 + max(1, min(4, size)))
    return random_threads(rng, proxies, -(-size // proxies))


# ---- faults


def lists_of_content(script):
    """The lists and moves into which a fault can be put, in the order of the checks, each with its faults;
    and batches between.
    """
    for one in script["moves"]:
        yield one, RANGE_FAULTS
    for batches in script["work"]:
        for batch in batches:
            for part in batch:
                yield part["reads"], RANGE_FAULTS
                yield part["writes"], RANGE_FAULTS
                yield part["mutations"], MUTATION_FAULTS
            yield batch, None


def plant(rng, script):
    """Puts a fault of content into a random place:
    what was put there, and what it is answered, or nothing without a place.
    """
    return plant_content(rng, [it for it in lists_of_content(script) if it[1] is not None])


def plant_large_batch(rng, script):
    """Makes a random batch too large, where there is one."""
    batches = [batch for batches in script["work"] for batch in batches]
    if batches:
        rng.choice(batches).extend(transaction() for _ in range(1024 + rng.randrange(2)))


def plant_nobody(rng, script):
    """A move to a resolver that is not there, among the others."""
    script["moves"].insert(rng.randrange(len(script["moves"]) + 1), move("a", "b", script["resolvers"] + rng.randrange(2)))


def first_fault(script, planted):
    """The answer to the first fault of content in the order of the checks, or nothing."""
    for whole, faults in lists_of_content(script):
        if faults is None:
            if len(whole) > 1024:
                return BATCH_TOO_LARGE
            continue
        for value in whole.values() if isinstance(whole, dict) else whole:
            for fault, answer in planted:
                if value is fault:
                    return answer
    return NO_SUCH_RESOLVER if any(one["resolver"] >= script["resolvers"] for one in script["moves"]) else None


def wrong_script(rng, size=None):
    """The text of a script with one to three kinds of fault, what it must be answered, or nothing without a place for
    them, and the fault of JSON, if it has one.
    """
    script = random_threads(rng, *rng.choice(SIZES[1:6])) if size is None else right_script(rng, size)
    large, nobody = rng.random() < 0.05, rng.random() < 0.2
    kinds = rng.sample(
        ["content", "content", "content", "form", "json"], rng.choice([0, 1, 2] if large or nobody else [1, 1, 2, 3]),
    )
    planted = [plant(rng, script) for _ in range(kinds.count("content"))]
    if nobody:
        plant_nobody(rng, script)
    if large:
        plant_large_batch(rng, script)
    return spelled_wrong(rng, script, kinds, large, first_fault(script, planted))
