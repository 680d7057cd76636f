"""The built program on scripts that are longer, or come to more, than the stored examples.

What they must be answered, the second programs of tests/scripts say, or a rule. Of the long ones each read and each write
fails in turn, or gives or takes nothing; of the others each growth is refused.
"""
import errno
import functools
import random

from tests.memory import threads_trials
from tests.memory.program import (
    DEVICE_FAILED, READ_SIZE, SCRIPT_REFUSED, Example, refuse_each, refuse_growths, run_in_parts, shorten_calls,
)
from tests.scripts.common.forms import FOLD, THREADS, TURNS
from tests.scripts.common.hostile_cases import with_asked
from tests.scripts.common.script import LOCKED, METADATA_VERSION, SERVER_1, SERVER_2, SERVER_3, write
from tests.scripts.fold import reference
from tests.scripts.fold.right_cases import LOCK as LOCKING, clear_rows, row, script, tag
from tests.scripts.threads.words import move as moved, with_meetings
from tests.scripts.turns import reference as turns_reference
from tests.scripts.turns.words import (
    LOCK, clear, finish, move, offer, offers, one_key, put, put_servers, put_tag, sequence, stamp, transaction, turns,
)

# how many keys the long scripts ask for, so that they take several reads and their text several pages
ASKED = 1_200

# what one call gives or takes of the long scripts: less than a full read, as much, and more
SIZES = (1_000, READ_SIZE - 1, READ_SIZE, READ_SIZE + 1)

NOT_JSON = SCRIPT_REFUSED, b"refused 70 NotJson\n"
ERRORS = (errno.EIO, errno.EINTR, errno.EAGAIN)


# ---- long scripts on devices that fail


def long_example(form):
    """The good script of a mode, which asks for many keys."""
    asked = ["%04d\\x00" % number for number in range(ASKED)]
    found = form.answer.splitlines()[-1].rpartition(" ")[2]
    text = with_asked(form, "".join('tags "%s" %s\n' % (key, found) for key in asked))
    if form is THREADS:
        text = with_meetings(text)
    words = [] if form is FOLD else [form.mode]
    return Example("a long script of " + form.mode, words, write(form.changed(("ask",), asked)).encode(), text.encode(), 0)


def fail_reads(trial, example):
    """Each read fails, of full ones and of short ones; there is one for each part of the script and one for its end."""
    def judge(_, ended):
        return (ended.returncode, ended.stdout) == (DEVICE_FAILED, b"")

    for size in (READ_SIZE, 1_000):
        for error in ERRORS:
            count = refuse_each(trial, example, "REFUSE_READ", judge, REFUSE_ERROR=error, SHORT_READ=size)
            needed = -(-len(example.script) // size) + 1
            trial.expect(count == needed, "%s: %d reads of %d bytes, and not %d" % (example.name, count, size, needed))


def end_early(trial, example, size):
    """Each read in turn gives nothing: that is the end of the script, whatever would come after it."""
    whole = example.status, example.output

    def judge(number, ended):
        is_whole = (number - 1) * size >= len(example.script.rstrip())
        return (ended.returncode, ended.stdout) == (whole if is_whole else NOT_JSON)

    refuse_each(trial, example, "REFUSE_READ", judge, REFUSE_ERROR=0, SHORT_READ=size)


def fail_writes(trial, example):
    """Each write fails or takes nothing, of short ones: what was written is what the writes before took."""
    for size in (1_000, READ_SIZE):
        def judge(number, ended):
            return (ended.returncode, ended.stdout) == (DEVICE_FAILED, example.output[: (number - 1) * size])

        for error in (*ERRORS, errno.ENOSPC, 0):
            count = refuse_each(trial, example, "REFUSE_WRITE", judge, REFUSE_ERROR=error, SHORT_WRITE=size)
            needed = -(-len(example.output) // size)
            trial.expect(count == needed, "%s: %d writes of %d bytes, and not %d" % (example.name, count, size, needed))


def give_uneven_parts(trial, example):
    """The script comes in parts of any size, and reads and writes take any other size."""
    name, words, whole, output, status = example
    for seed in range(5):
        rng, parts, place = random.Random(seed), [], 0
        while place < len(whole):
            parts.append(whole[place : place + rng.choice([1, 2, 7, 100, 1_000, READ_SIZE, 6_000])])
            place += len(parts[-1])
        got = run_in_parts(trial, words, parts, lambda _: None)
        trial.expect(got == (output, status), "%s: ends wrong in uneven parts, seed %d" % (name, seed))
    for size in SIZES:
        ended, _ = trial.run(whole, words, SHORT_READ=size, SHORT_WRITE=size + 1)
        fine = (ended.returncode, ended.stdout, ended.stderr) == (status, output, b"")
        trial.expect(fine, "%s: ends wrong where calls take %d bytes" % (name, size))


# ---- scripts whose growths are refused


def stored_run():
    """A journal with tags that change, a Clear, a lock, and transactions that a resolver or the lock refuses."""
    tags = [tag(SERVER_1, "\\x00\\x00\\x01"), tag(SERVER_2, "\\x00\\x00\\x02"), tag(SERVER_3, "\\x00\\x01\\x00")]
    whole = script(
        [(True, [*tags, row("", [SERVER_1]), row("m", [SERVER_2], [SERVER_1, SERVER_3]), row("t")])],
        [
            (False, [clear_rows("m", "n")], "committed", "conflict"),
            (False, [clear_rows("s", "z"), tag(SERVER_2, "\\x00\\x00\\x09")]),
        ],
        [(True, [LOCKING, {"set": [METADATA_VERSION, "v"]}])],
        [(False, [clear_rows("", "z")]), (True, [row("p", [SERVER_2])])], ask=["a", "m", "z"], resolvers=2,
    ).encode()
    return Example("a stored run", [], whole, reference.answer(whole).encode(), 0)


def of_turns(name, *events, **more):
    whole = write(turns(*events, **more)).encode()
    return Example(name, ["turns"], whole, turns_reference.answer(whole).encode(), 0)


def owners_and_moves():
    """Moves that nest, touch, repeat and go back, with reads from before them, and owners that leave the window."""
    reads = [transaction(snapshot, [["a", "z"]], [one_key("p")]) for snapshot in (0, 11, 21, 30)]
    return of_turns(
        "owners and moves", move("m", "t", 1), sequence(0, *reads[:1]), move("n", "p", 2), move("p", "q", 1),
        sequence(0, *reads), move("m", "t", 1), move("a", "n", 2), move("n", "p", 0), sequence(0, *reads),
        offers(0, 1, 2, resolvers=3), finish(0), finish(0), sequence(0, *reads), offers(3, resolvers=3), finish(0),
        finish(0), proxies=1, resolvers=3, window=25,
    )


def repeats_given_up():
    """Replies that are given again, by each resolver and to a proxy that is told of rows; and that are given up at last."""
    rows = [transaction(0, [], [one_key(key)], [put_servers(key, SERVER_1)], True) for key in "abc"]
    return of_turns(
        "repeats given up", sequence(0, *rows, transaction(0, [], [], [put_tag(SERVER_1, "\\x00\\x00\\x01")], True)),
        sequence(1, *rows[:2]), sequence(0, transaction(0, [["a", "c"]])), offers(0, 1, 2), offers(0, 1, 2), finish(0),
        finish(1), sequence(0), sequence(1), offers(3, 4), offers(0, 1, 2, 3, 4), offer(9, 0), offer(5, 0), finish(0),
        finish(0), finish(1), finish(1), ask=["a", "z"],
    )


def late_proxy():
    """A proxy that is told of five rows, with a lock, a stamp and Clears among them."""
    given = [
        [put_tag(SERVER_1, "\\x00\\x00\\x01"), put_servers("", SERVER_1), put_servers("m", SERVER_1)], [put(LOCKED, "L")],
        [stamp(METADATA_VERSION, "\\x00" * 14)], [clear("\\xff/keyServers/a", "\\xff/keyServers/z")],
        [put(LOCKED, ""), put("k", "v")],
    ]
    batches = [sequence(0, transaction(0, [], [], changes, True)) for changes in given]
    last = transaction(0, [], [one_key("a")], [put("a", "1"), clear("a", "z")])
    return of_turns(
        "a late proxy", batches, sequence(1, last, LOCK), sequence(1, last), offers(*range(7)), [finish(0)] * 5, finish(1),
        finish(1),
        ask=["a", "z"],
    )


def three_proxies():
    """Proxies of which one locks, one moves on under the lock, and one learns of all by its closing,
    over ranges that moved.
    """
    tags = [put_tag(SERVER_1, "\\x00\\x00\\x01"), put_servers("", SERVER_1), put_servers("m", SERVER_1)]
    first = [[transaction(0, [one_key("n")], [one_key("a")], tags, True)], [LOCK, transaction(0, [one_key("a")])]]
    second = [[transaction(10, [["a", "z"]], [one_key("n")], [stamp(METADATA_VERSION, "\\x00" * 14)], True)], []]
    return threads_trials.example(
        "three proxies, of which one is late", first, second, [], moves=[moved("m", "t", 1), moved("n", "p", 0)],
    )


def trials():
    """All trials: each a call and what it takes beside the runs."""
    for tried in map(long_example, (FOLD, TURNS, THREADS)):
        ends = (functools.partial(end_early, size=READ_SIZE), functools.partial(end_early, size=1_000))
        yield from ((trial_of, tried) for trial_of in (fail_reads, fail_writes, shorten_calls, give_uneven_parts, *ends))
    for tried in (stored_run(), owners_and_moves(), repeats_given_up(), late_proxy()):
        yield from ((trial_of, tried) for trial_of in (refuse_growths, functools.partial(end_early, size=7)))
    yield from ((trial_of, three_proxies()) for trial_of in (threads_trials.refuse_growths, threads_trials.refuse_shaken))
