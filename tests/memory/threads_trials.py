"""The built program on threads scripts: growths and threads are refused to it, and its threads are held up at random.

It is also run in address spaces in which not all of its threads have room.

Which growth has which number, and what a script comes to, depends on how the threads come. So it is not one text that a run
is compared with. A run must end in time, and with one of two ends: with status 0 and a text that some order of the batches
gives, as tests/scripts/threads/orders.py decides, or with the status of want of memory and nothing written.
"""
import functools

from tests import watched
from tests.memory.program import LIMIT, OUT_OF_MEMORY, Example, limit_space, refuse_each
from tests.scripts.common.script import KEY_SERVERS, LISTING, LOCKED, SERVER_1, SERVER_2, SERVER_TAG, write
from tests.scripts.threads.orders import what_is_wrong
from tests.scripts.threads.random_cases import random_cases
from tests.scripts.threads.words import move, threads
from tests.scripts.turns.words import clear, one_key, put, put_servers, put_tag, transaction

# how many numbers of growths are tried past the first that a run does not reach
PAST = 20

# how many of the growths that are refused while the threads are shaken, of how many random scripts each is run how often
EVERY_SHAKEN, SEEDS, TIMES = 2, 60, 5

# of how many random scripts growths are refused, and one of how many of each; with --all each growth of more scripts
SOME_SCRIPTS, EVERY_OF_SOME, ALL_SCRIPTS = 6, 11, 40

# address spaces, in megabytes: in the first ones no thread has room, and in the last ones eight proxies have
SPACES = range(8, 160, 2)


def example(name, *work, **more):
    """A script with these lists of batches; what it is answered is left open."""
    return Example(name, ["threads"], write(threads(*work, ask=["a", "z"], **more)).encode(), None, 0)


def script_of(seed):
    """The right random script of this seed."""
    _, _, name, script, _ = next(random_cases([seed]))
    return Example("random threads, %s" % name, ["threads"], script, None, 0)


def two_by_two():
    """Two proxies with two batches each, all different: they conflict, lock the database and change the metadata."""
    tags = [put_tag(SERVER_1, "\\x00\\x00\\x01"), put_servers("", SERVER_1)]
    first = [transaction(0, [one_key("n")], [one_key("a")], tags)]
    second = [
        transaction(0, [one_key("a")], [one_key("n")], [put("a", "1")]),
        transaction(10, [], [], [put_servers("m", SERVER_1)], True),
    ]
    third = [transaction(0, [], [one_key(LOCKED)], [put(LOCKED, "L")], True)]
    last = [transaction(0, [], [], [{"clear": [KEY_SERVERS, KEY_SERVERS[:-1] + "0"]}], True), transaction(0, [one_key("n")])]
    return example("two proxies with two batches each", [first, last], [second, third], moves=[move("m", "t", 1)])


def listed_and_cleared():
    """Rows that list tags beside rows of servers, and tags of servers, which two proxies put and clear,
    and a third learns of.
    """
    rows = [put(KEY_SERVERS, LISTING), put_servers("m", SERVER_1), put_servers("p", SERVER_1, SERVER_2)]
    tags = [put_tag(SERVER_1, "\\x00\\x00\\x07"), put_tag(SERVER_2, "\\x00\\x00\\x09")]
    over_all = [put("z", "1"), clear("a", "z"), put("a", "1")]
    other_rows = [
        clear(KEY_SERVERS + "m", KEY_SERVERS + "q"), put(KEY_SERVERS + "n", LISTING), tags[0],
        clear(*one_key(SERVER_TAG + SERVER_2)),
    ]
    first = [[transaction(0, [], [], rows + tags, True)], [transaction(0, [], [], over_all, True)]]
    second = [[transaction(0, [], [], other_rows, True)], [transaction(0, [], [one_key("a")], over_all)]]
    return example("rows that list tags, and Clears", first, second, [])


@functools.lru_cache(maxsize=None)
def fault_of(script, text):
    return what_is_wrong(script, text.decode(), meetings=True)


def is_right(example, ended):
    """Whether a run ended in one of the two ways."""
    if ended.returncode == OUT_OF_MEMORY:
        return not ended.stdout and not ended.stderr
    return ended.returncode == example.status and not ended.stderr and not fault_of(example.script, ended.stdout)


def refuse_growths(trial, example):
    """Each growth once, and each with all that follow;
    and numbers past the last, since there may be more growths another time.
    """
    for more in ({}, {"REFUSE_ON": 1}):
        count = refuse_each(trial, example, "REFUSE_GROWTH", lambda _, ended: is_right(example, ended), **more)
        for number in range(count + 2, count + PAST):
            ended, _ = trial.run(example.script, example.words, REFUSE_GROWTH=number, **more)
            trial.expect(
                is_right(example, ended), "%s: ends wrong where growth %d is refused: %r" % (example.name, number, ended),
            )


def refuse_shaken(trial, example):
    """One of some growths, each while the threads are shaken in another way."""
    number, refused = 1, True
    while refused:
        ended, refused = trial.run(example.script, example.words, REFUSE_GROWTH=number, SHAKE=number)
        trial.expect(
            is_right(example, ended),
            "%s: ends wrong where growth %d is refused, shaken: %r" % (example.name, number, ended),
        )
        number += EVERY_SHAKEN


def refuse_random(trial, seed, first, step):
    """Of a random script each growth of some, alone and with all that follow in turn."""
    drawn, number, refused = script_of(seed), first, True
    while refused:
        more = {"REFUSE_ON": 1} if number // step % 2 else {}
        ended, refused = trial.run(drawn.script, drawn.words, REFUSE_GROWTH=number, **more)
        trial.expect(
            is_right(drawn, ended),
            "%s: ends wrong where growth %d is refused, with %s: %r" % (drawn.name, number, more, ended),
        )
        number += step
    trial.expect(number > first + step, "%s: only one growth of it was tried" % drawn.name)


def narrow_spaces(trial):
    """Address spaces of many sizes: in small ones no thread has room or some have none, and all that were started end."""
    tried, ends = example("8 proxies in little space", *[[[transaction(0, [], [one_key("a")])]] * 2] * 8), set()
    for size in SPACES:
        how = {"preexec_fn": functools.partial(limit_space, size * 2**20)}
        ended = watched.run([trial.program, *tried.words], tried.script, LIMIT, **how)
        ends.add(ended.returncode)
        trial.expect(is_right(tried, ended), "ends wrong in an address space of %d megabytes: %r" % (size, ended))
    trial.expect(ends == {0, OUT_OF_MEMORY}, "address spaces of all sizes end with %s" % ends)


def refuse_threads(trial):
    """The start of each thread in turn, a resolver's or a proxy's, while those before it run or have ended:
    all threads end.
    """
    def is_want_of_memory(_, ended):
        return (ended.returncode, ended.stdout) == (OUT_OF_MEMORY, b"")

    for proxies in (1, 2, 8):
        tried = example("%d proxies" % proxies, *[[[transaction(0, [], [one_key("a")])]] * 5] * proxies)
        for more in ({}, {"REFUSE_ON": 1}, {"SHAKE": 1}):
            count = refuse_each(trial, tried, "REFUSE_THREAD", is_want_of_memory, **more)
            # (one for each proxy, and one for each of two resolvers)
            trial.expect(count == proxies + 2, "%d proxies: %d threads are started" % (proxies, count))


def shake_random(trial):
    """Random scripts, each some times with its threads shaken in another way: all texts are right, and they differ."""
    different = 0
    for drawn in map(script_of, range(SEEDS)):
        texts = set()
        for time in range(TIMES):
            ended, _ = trial.run(drawn.script, drawn.words, SHAKE=time + 1)
            texts.add(ended.stdout)
            trial.expect(is_right(drawn, ended), "%s: ends wrong with its threads shaken: %r" % (drawn.name, ended))
        different += len(texts) > 1
    trial.expect(different, "no random script came to two texts with its threads shaken")


def random_trials(is_all, turn):
    """Random scripts of which growths are refused: without `is_all` other scripts and growths for each number of a turn."""
    if is_all:
        yield from ((refuse_random, seed, 1, 1) for seed in range(ALL_SCRIPTS))
    else:
        first = SOME_SCRIPTS * turn
        yield from (
            (refuse_random, seed, 1 + seed % EVERY_OF_SOME, EVERY_OF_SOME) for seed in range(first, first + SOME_SCRIPTS)
        )


def trials(stored, is_all, turn):
    """All trials, with the stored examples: each a call and what it takes beside the runs."""
    for tried in (two_by_two(), listed_and_cleared(), *(it for it in stored if it.words == ["threads"])):
        yield from ((refuse_growths, tried), (refuse_shaken, tried))
    yield from ((refuse_threads,), (shake_random,), (narrow_spaces,), *random_trials(is_all, turn))
