"""The kinds of scripts that bench/growth runs: each is made of a source of random numbers and a length."""
import random
from typing import Callable, NamedTuple

STEP, KEYS, SERVERS = 10, 1_000_000, 300
# windows of a hundred batches and of twenty
WINDOW, SHORT = 100 * STEP, 20 * STEP
ALL_KEYS = ["", "\\xff"]


def key(number):
    return "user/%09d" % number


def point(number):
    return [key(number), key(number) + "\\x00"]


def put(number):
    return {"set": [key(number), "value%09d" % number]}


def server(number):
    return "server%010d" % number


def row(chance, number):
    """A Set of a keyServers row with a team of three."""
    team = sorted(chance.sample(range(SERVERS), 3))
    return {"set": ["\\xff/keyServers/" + key(number), "\\x03" + "".join(map(server, team)) + "\\x00"]}


def tag(number):
    return {"set": ["\\xff/serverTag/" + server(number), "\\x00\\x%02x\\x%02x" % divmod(number, 32)]}


def transaction(mutations, reads=(), writes=(), snapshot=0, lock_aware=True):
    return {"snapshot": snapshot, "reads": list(reads), "writes": list(writes), "mutations": mutations, "lock_aware": lock_aware}


def plain(chance, number, count):
    """A batch of transactions that each read three keys and write two."""
    made = []
    for _ in range(count):
        written = [chance.randrange(KEYS) for _ in range(2)]
        reads = [point(chance.randrange(KEYS)) for _ in range(3)]
        snapshot = max(0, number * STEP - 8 * STEP)
        made.append(transaction([*map(put, written)], reads, [*map(point, written)], snapshot, False))
    return made


def sequence(proxy, batch):
    return {"sequence": {"proxy": proxy, "batch": batch}}


def ended(number, proxy, resolvers):
    """The events after a batch was sequenced: each resolver judges it, and its proxy finishes it."""
    return [{"offer": {"row": number, "resolver": it}} for it in range(resolvers)] + [{"finish": {"proxy": proxy}}]


def rounds(proxies, resolvers, batches):
    """Each batch is sequenced, offered to each resolver and finished before the next."""
    for number, batch in enumerate(batches):
        yield from [sequence(number % proxies, batch), *ended(number, number % proxies, resolvers)]


def moved(keys, resolver):
    return {"move": {"range": keys, "resolver": resolver}}


def move(chance):
    begin = chance.randrange(KEYS)
    return moved([key(begin), key(begin + chance.randrange(1, 2_000))], chance.randrange(4))


def script(proxies, resolvers, events, window=WINDOW):
    numbers = {"proxies": proxies, "resolvers": resolvers, "window": window, "step": STEP}
    return {**numbers, "events": list(events), "ask": ["a"]}


def moves(chance, count):
    batches = (plain(chance, number, 2) for number in range(count))
    return script(4, 4, (it for number, batch in enumerate(batches)
                         for it in [sequence(number % 4, batch), *ended(number, number % 4, 4), move(chance)]))


def wide(chance, count):
    batches = [[transaction([], [ALL_KEYS])] for _ in range(4)]
    return script(4, 4, [*(move(chance) for _ in range(count)), *rounds(4, 4, batches)])


def begun(chance, count):
    events = [sequence(0, plain(chance, number, 2)) for number in range(count)]
    events += [{"offer": {"row": number, "resolver": 0}} for number in range(count)]
    return script(1, 1, events + [{"finish": {"proxy": 0}}] * count)


def filled(chance, count):
    """A batch that puts tags and keyServers rows."""
    changes = [tag(number) for number in range(SERVERS)] + [row(chance, 20 * number) for number in range(count)]
    return [transaction(changes[place : place + 100]) for place in range(0, len(changes), 100)]


def in_batches(chance, count, *batches):
    return script(1, 1, rounds(1, 1, [filled(chance, count), *batches]))


def rows_between(begin, end):
    return {"clear": ["\\xff/keyServers/" + key(begin), "\\xff/keyServers/" + key(end)]}


def clears(chance, count):
    ranges = [sorted(chance.sample(range(20 * count), 2)) for _ in range(count // 10)]
    return in_batches(chance, count, [transaction([rows_between(*it) for it in ranges])])


def late(chance, count):
    """Each batch but the last clears ten rows and puts them again."""
    changes = [[rows_between(0, 200), *(row(chance, 20 * place) for place in range(10))] for _ in range(count)]
    events = [it for number, made in enumerate(changes) for it in [sequence(0, [transaction(made)]), *ended(number, 0, 1)]]
    return script(2, 1, events + [sequence(1, plain(chance, count, 2)), *ended(count, 1, 1)])


def hidden(chance, count):
    sets = [put(20 * count + number) for number in range(500)]
    return in_batches(chance, count, [transaction([rows_between(20, 20 * count), *sets])])


def tags(chance, count):
    cleared = {"clear": [key(0), key(20 * count)]}
    return in_batches(chance, count, *([transaction([cleared] * 5)] for _ in range(20)))


def states(chance, count):
    changes = [[transaction([row(chance, 20 * chance.randrange(5_000))])] for _ in range(count)]
    events = [it for number, batch in enumerate(changes) for it in [sequence(0, batch), *ended(number, 0, 4)]]
    for proxy in range(1, 16):
        number = count + proxy - 1
        events += [sequence(proxy, plain(chance, number, 2)), *ended(number, proxy, 4)]
    return script(16, 4, events)


def printed(chance, count):
    batch = [transaction([put(chance.randrange(KEYS)) for _ in range(count)], lock_aware=False) for _ in range(1_024)]
    return script(1, 1, rounds(1, 1, [batch]))


def small(chance, count):
    return script(1, 1, rounds(1, 1, (plain(chance, number, 1) for number in range(count))))


# ---- slow bodies that are right: each of these kinds tells one


def owners(chance, count):
    """Before each batch a range of its own moves, and with every tenth all keys move: the ranges before are joined again."""
    events = []
    for number in range(count):
        begin = key(number * KEYS // count)
        events.append(moved([begin, begin + "\\x00"], 1 + number % 3))
        if number % 10 == 9:
            events.append(moved(ALL_KEYS, 0))
        events += [sequence(0, [transaction([], [point(chance.randrange(KEYS))])]), *ended(number, 0, 4)]
    return script(1, 4, events, SHORT)


def writes(chance, count):
    """Each batch reads all keys as the batch before left them, and writes four: no read meets a write."""
    batches = []
    for number in range(count):
        written = [point(chance.randrange(KEYS)) for _ in range(4)]
        batches.append([transaction([], [ALL_KEYS], written, number * STEP)])
    return script(1, 1, rounds(1, 1, batches), SHORT)


def requests(chance, count):
    """Batches of forty reads, after moves by which each read goes to eight resolvers."""
    parts = [key(KEYS * place // 8) for place in range(8)]
    reads = [[parts[0], parts[7] + "%09d" % number] for number in range(40)]
    events = [moved([begin, key(KEYS)], place) for place, begin in enumerate(parts)]
    batches = ([transaction([], reads, [], number * STEP)] for number in range(count))
    return script(1, 8, [*events, *rounds(1, 8, batches)])


def values(chance, count):
    """A batch of one transaction that puts more and more values of 10,000 bytes."""
    changes = [{"set": [key(number), "v" * 10_000]} for number in range(count)]
    return script(1, 1, rounds(1, 1, [[transaction(changes)]]))


def fold_lists(chance, count):
    """A fold script in which each list has elements."""
    changes = [tag(1), row(chance, 1), rows_between(5, 9)]
    state = {"mutations": changes, "lock_aware": True, "verdicts": ["committed", "committed"]}
    rows = [{"version": STEP * number, "states": [state] * 4} for number in range(1, count + 1)]
    return {"resolvers": 2, "ask": [key(1), key(2)], "rows": rows}


def turns_lists(chance, count):
    """A turns script in which each list has elements."""
    numbers = script(1, 1, [])
    return {**numbers, "events": list(rounds(1, 1, (plain(chance, number, 4) for number in range(count))))}


def threads_lists(chance, count):
    """A threads script in which each list has elements: batches of two proxies."""
    work = [[plain(chance, number, 8) for number in range(count // 2)] for _ in range(2)]
    moves = [moved([key(0), key(KEYS // 2)], 1)["move"]]
    numbers = {"proxies": 2, "resolvers": 2, "window": WINDOW, "step": STEP, "rows": 4_096}
    return {**numbers, "moves": moves, "ask": [key(1)], "work": work}


class Kind(NamedTuple):
    """How a script is made and how long it is at first; the most bytes of the peak for each further byte of it; and its mode."""

    made: Callable
    count: int
    most_bytes: float | None = None
    mode: str = "turns"

    @property
    def name(self):
        return self.made.__name__

    def script_of(self, count):
        return self.made(random.Random(7), count)


KINDS = [
    Kind(moves, 2_000), Kind(wide, 10_000), Kind(begun, 4_000), Kind(clears, 2_000), Kind(late, 1_000), Kind(hidden, 10_000),
    Kind(tags, 10_000), Kind(states, 2_000), Kind(printed, 64), Kind(small, 10_000),
    Kind(owners, 4_000), Kind(writes, 4_000), Kind(requests, 1_000, 6), Kind(values, 1_000, 3.5),
    Kind(fold_lists, 4_000, 6, "fold"), Kind(turns_lists, 2_000, 6), Kind(threads_lists, 1_000, 10, "threads"),
]
