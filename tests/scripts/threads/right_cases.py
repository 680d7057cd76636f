"""Right threads scripts, each with what it must be answered, worked out by hand.

Where the order of the batches changes the text, all right texts are given, or none, and then orders.py alone decides.
Scripts of one proxy have one order.
"""
from tests.scripts.common.script import (
    KEY_SERVERS, LISTING, LOCKED, METADATA_VERSION, NO_SUCH_RESOLVER, SERVER_1, SERVER_2, SERVER_3, write,
)
from tests.scripts.threads.words import (
    closings, committed, move, outcomes, reading_and_writing, routes, threads, three_by_nine,
)
from tests.scripts.turns.words import (
    LOCK, case, clear, lines, one_key, put, put_servers, put_tag, read, shown, stamp, transaction, written,
)

SERVER_4 = "server0000000004"
ALL_KEY_SERVERS = [KEY_SERVERS, KEY_SERVERS[:-1] + "0"]

# how often a script is run whose text depends on the order
TIMES = 20


def each_time(name, script, answers=None):
    """The same script many times, with all texts that it may be answered, or nothing where they are not listed."""
    for number in range(TIMES):
        yield "%s, time %d" % (name, number), write(script), answers


def small_ones():
    """No batches at all, batches without transactions, and as many proxies as there may be."""
    yield case("one proxy without batches", threads([]), closings(10), shown(0, 10))
    yield case("one proxy with an empty batch", threads([[]]), "batch 0 0 none", closings(20), shown(0, 20))
    every = range(64)
    yield case(
        "64 proxies without batches", threads(*[[]] * 64), closings(*(10 * it + 10 for it in every)),
        *[shown(it, 10 * it + 10) for it in every],
    )
    yield case(
        "64 proxies and 64 resolvers, with an empty batch each", threads(*[[[]]] * 64, resolvers=64, rows=128),
        ["batch %d 0 none" % it for it in every], closings(*(10 * it + 650 for it in every)),
        *[shown(it, 10 * it + 650) for it in every],
    )
    yield case("batches of the last proxy alone", threads([], [[], []]), ["batch 1 0 none", "batch 1 1 none"],
               closings(30, 40), shown(0, 30),
               shown(1, 40))
    asked = ['tags "%s" none' % key for key in ("", "\\xff\\xff\\xff", "k" * 20_000)]
    yield case(
        "any bytes may be asked", threads([], ask=["", "\\xff\\xff\\xff", "k" * 20_000]), closings(10), shown(0, 10, *asked),
    )


def three_proxies_with_nine_batches():
    """All is committed, and each proxy ends with the rows of all.
    Without a row for the last closing, its proxy may lack some.
    """
    each = [shown(proxy, 280 + 10 * proxy, *routes(range(27)), 'tags "k13" 0:1') for proxy in range(3)]
    text = lines(committed(9, 9, 9), closings(280, 290, 300), *each)
    for rows in (30, 31, 4096):
        yield from each_time("%d rows" % rows, three_by_nine(rows), (text,))
    yield from each_time("29 rows", three_by_nine(29))
    yield from each_time("20 rows", three_by_nine(20))


def each_outcome():
    """The outcomes of transactions, worked out for one proxy with a window of 15 versions."""
    both = [["n", "o"]]
    read_and_written = [transaction(snapshot, both, both) for snapshot in (0, 5, 10)]
    plain, aware = transaction(), transaction(lock_aware=True)
    locking = transaction(0, [], [], [put(LOCKED, "x")], True)
    work = [[read_and_written[0]], read_and_written[1:], [locking, read_and_written[0]], [plain, aware], []]
    yield case(
        "each outcome", threads(work, moves=[move("m", "t", 1)], window=15, rows=6),
        outcomes(0, "committed", "conflict committed", "committed too_old", "locked committed", "none"),
        closings(60), shown(0, 60, locked="yes"),
    )
    yield case(
        "the first snapshot inside the window, the last outside, and a write without reads",
        threads([[read("a", 40), read("a", 39), written("b")]], window=100, step=140),
        outcomes(0, "committed too_old committed"), closings(280), shown(0, 280),
    )
    yield case(
        "a read behind a write of its batch, and before one",
        threads([[written("a"), read("a")], [read("b", 10), written("b", 10)]]),
        outcomes(0, "committed conflict", "committed committed"), closings(30), shown(0, 30),
    )
    yield case(
        "reads at the version of a write and before it, and the write of one that is in conflict",
        threads([
            [transaction(0, [], [["a", "c"]])],
            [read("b", 10), read("b", 9), read("c", 9), transaction(9, [one_key("b")], [one_key("d")]), read("d", 9),
             transaction(9, [one_key("e")], [one_key("e")])],
        ], resolvers=1),
        outcomes(0, "committed", "committed conflict committed conflict committed committed"), closings(30), shown(0, 30),
    )
    yield case(
        "a read outside the window behind a write of its batch, and one inside",
        threads([[written("a"), read("a", 39), read("a", 40)]], window=100, step=140),
        outcomes(0, "committed too_old conflict"), closings(280), shown(0, 280),
    )
    yield case(
        "1,024 transactions", threads([[transaction()] * 1024, [transaction()] * 1023]),
        outcomes(0, " ".join(["committed"] * 1024), " ".join(["committed"] * 1023)), closings(30), shown(0, 30),
    )


def full_ledgers():
    """A batch for which there is no row, or no version, is refused, and so are all that follow;
    a full ledger comes first.
    """
    full, end = "refused 50 LedgerFull %d", "refused 51 VersionsEnd"
    yield case("no row for a closing", threads([], [], rows=1), closings(10, full % 1), shown(0, 10), shown(1, 0))
    yield case(
        "one row for two batches", threads([[], []], rows=1), outcomes(0, "none", full % 1), closings(full % 1),
        shown(0, 10),
    )
    yield case(
        "a row for each batch and none for the closing", threads([[], []], rows=2), outcomes(0, "none", "none"),
        closings(full % 2), shown(0, 20),
    )
    last, half = 2**63 - 1, 2**62
    yield case(
        "the greatest step", threads([[], []], step=last, rows=6), outcomes(0, "none", end), closings(end), shown(0, last),
    )
    yield case("half of it", threads([[], []], step=half), outcomes(0, "none", end), closings(end), shown(0, half))
    yield case("just below half of it", threads([[], []], step=half - 1), outcomes(0, "none", "none"), closings(end),
               shown(0, 2 * half - 2))
    yield case("two ends at once", threads([[], []], step=last, rows=1), outcomes(0, "none", full % 1), closings(full % 1),
               shown(0, last))
    yield case("no version for a closing", threads([], [], step=last), closings(last, end), shown(0, last), shown(1, 0))
    lost = [[LOCK, transaction(0, [], [], [put_tag(SERVER_1, "\\x00\\x00\\x01")], True)]]
    yield case(
        "what a refused batch would change", threads([[]] + lost * 2, rows=1), outcomes(0, "none", full % 1, full % 1),
        closings(full % 1), shown(0, 10),
    )
    yield from each_time("two rows for four batches", threads([[], []], [[], []], rows=2), tuple(
        lines(
            outcomes(0, *["none"] * count, *[full % 2] * (2 - count)),
            outcomes(1, *["none"] * (2 - count), *[full % 2] * count), closings(full % 2, full % 2), shown(0, first),
            shown(1, second),
        )
        for count, first, second in ((2, 20, 0), (0, 0, 20), (1, 10, 20), (1, 20, 10))
    ))


def rivals():
    """Of those that read and write one key one commits;
    of two that read what the other writes, either; of a ring, all but one.
    """
    for count in (2, 3, 8):
        script = threads(*[[reading_and_writing("a", "a")]] * count)
        answers = [["committed" if it == first else "conflict" for it in range(count)] for first in range(count)]
        yield from each_time("one key of %d" % count, script, tuple(one_batch_each(*said) for said in answers))
    script = threads([reading_and_writing("a", "b")], [reading_and_writing("b", "a")])
    answers = (("committed", "conflict"), ("conflict", "committed"))
    yield from each_time("two keys, crossed", script, tuple(one_batch_each(*said) for said in answers))
    script = threads([reading_and_writing("a", "b")], [reading_and_writing("b", "c")], [reading_and_writing("c", "a")])
    answers = [["conflict" if it == last else "committed" for it in range(3)] for last in range(3)]
    yield from each_time("three keys, in a ring", script, tuple(one_batch_each(*said) for said in answers))
    yield from each_time("six batches of one key each", threads(*[[reading_and_writing("a", "a")] * 6] * 4))


def one_batch_each(*said, **more):
    """The text of proxies with one batch each that have these outcomes."""
    ends = [10 * (len(said) + 1 + proxy) for proxy in range(len(said))]
    batches = [outcomes(proxy, words) for proxy, words in enumerate(said)]
    return lines(*batches, closings(*ends), *[shown(proxy, end, **more) for proxy, end in enumerate(ends)])


def locks():
    """A lock holds for all that comes after it and is not lock aware; whoever sets it, all proxies know it in the end."""
    plain, aware = [transaction(0, [], [], [put("k", "v")])], [transaction(0, [], [], [put("k", "v")], True)]
    yield from each_time("a lock and a plain batch", threads([[LOCK]], [plain]), (
        one_batch_each("committed", "committed", locked="yes"), one_batch_each("committed", "locked", locked="yes"),
    ))
    yield (
        "a lock and a lock-aware batch", write(threads([[LOCK]], [aware])),
        one_batch_each("committed", "committed", locked="yes"),
    )
    # (a state transaction that is not lock aware reads the lock)
    state = [transaction(0, [], [], [put(METADATA_VERSION, "v")])]
    yield from each_time("a lock and a state transaction", threads([[LOCK]], [state]), (
        one_batch_each("committed", "committed", locked="yes", metadata_version='"v"'),
        one_batch_each("committed", "conflict", locked="yes"),
    ))
    unlock = transaction(10, [], [one_key(LOCKED)], [put(LOCKED, "")], True)
    late = [transaction(20, [], [], [put(METADATA_VERSION, "v")])]
    yield case(
        "a lock that is given up", threads([[LOCK], plain, [unlock, *plain], late]),
        outcomes(0, "committed", "locked", "committed locked", "conflict"), closings(50), shown(0, 50),
    )
    yield from each_time("locks that are taken and given up by three", threads(*[[[LOCK], plain, [unlock], plain]] * 3))


def windows():
    """A short window, in which what is old depends on the order."""
    yield case(
        "snapshots of one proxy", threads([[read("a", 0)], [read("a", 5)], [read("a", 5)], [written("a", 0)]], window=15),
        outcomes(0, "committed", "committed", "too_old", "committed"), closings(50), shown(0, 50),
    )
    old = [transaction(0, [one_key("a")])]
    yield from each_time("a read that is old in the last row", threads([old], [[]], window=15), (
        one_batch_each("committed", "none"), one_batch_each("too_old", "none"),
    ))
    yield from each_time("reads that grow old", threads(*[[old, [read("b", 10)], [read("c", 20)]]] * 3, window=25))


def moved_ranges():
    """All moves are made before the first batch, after version 0:
    a read goes back to their date, a write to the last owner.
    """
    yield case(
        "a conflict that one resolver alone sees",
        threads(
            [[written("n")], [transaction(5, [one_key("n")], [one_key("b")])], [read("b", 10)]], moves=[move("m", "t", 1)],
        ),
        outcomes(0, "committed", "conflict", "conflict"), closings(40), shown(0, 40),
    )
    yield case(
        "a state transaction that the last resolver alone refuses",
        threads(
            [[written("n")], [transaction(5, [one_key("n")], [], [put(METADATA_VERSION, "v")], True)]],
            moves=[move("m", "t", 1)],
        ),
        outcomes(0, "committed", "conflict"), closings(30), shown(0, 30),
    )
    crossed = [
        [transaction(0, [one_key("n")], [one_key("b")])], [written("n")], [transaction(19, [one_key("n")], [one_key("b")])],
    ]
    yield case(
        "a write that counts where its transaction conflicts elsewhere",
        threads([*crossed, [read("b", 29)], [read("b", 30)]], moves=[move("m", "t", 1)]),
        outcomes(0, "committed", "committed", "conflict", "conflict", "committed"), closings(60), shown(0, 60),
    )
    yield from each_time("owners of before, in three proxies", threads(*[crossed] * 3, moves=[move("m", "t", 1)]))
    yield case(
        "moves to and fro, and a range over the borders of all",
        threads(
            [[transaction(0, [], [["a", "z"]])], [transaction(10, [["c", "d"]])], [transaction(9, [["c", "d"]])]],
            moves=[move("b", "d", 1), move("c", "e", 2), move("d", "f", 0)], resolvers=3,
        ),
        outcomes(0, "committed", "committed", "conflict"), closings(40), shown(0, 40),
    )


def overlapping_moves():
    """Of moves that overlap the later one counts."""
    # the write of c counts unless it goes to the resolver at which its transaction conflicts
    overlapping = [move("b", "d", 1), move("c", "e", 0)]
    batches = [[written("n")], [transaction(5, [one_key("n")], [one_key("c")])], [read("c", 10)]]
    for name, moves, last in (("later", overlapping, "committed"), ("earlier", overlapping[::-1], "conflict")):
        yield case(
            "two moves that overlap, of which the %s goes back to the first resolver" % name, threads(batches, moves=moves),
            outcomes(0, "committed", "conflict", last), closings(40), shown(0, 40),
        )
    many = [move("a", "z", it) for it in range(64)]
    yield case("moves to each of 64", threads([[written("n")], [read("n")]], moves=many, resolvers=64),
               outcomes(0, "committed", "conflict"), closings(30), shown(0, 30))


def four_servers():
    """A transaction that gives four servers their tags and keys."""
    tags = [
        put_tag(server, "\\x00\\x00\\x%02x" % (it + 1)) for it, server in enumerate((SERVER_1, SERVER_2, SERVER_3, SERVER_4))
    ]
    rows = [
        put_servers("", SERVER_1), put_servers("b", SERVER_2), put_servers("f", SERVER_1, SERVER_3),
        put_servers("q", SERVER_4),
    ]
    return transaction(0, [], [], tags + rows, True)


def metadata():
    """Tags and rows: what one proxy commits, all print."""
    first = [four_servers()]
    known = ['route "" 0:1', 'route "b" 0:2', 'route "f" 0:1 0:3', 'route "q" 0:4', 'tags "a" 0:1', 'tags "z" 0:4']
    yield case(
        "rows of the first of three proxies", threads([first], [], [], ask=["a", "z"]), outcomes(0, "committed"),
        closings(20, 30, 40), *[shown(proxy, 20 + 10 * proxy, *known) for proxy in range(3)],
    )
    cleared = [transaction(0, [], [], [clear(*ALL_KEY_SERVERS)], True)]
    yield case(
        "rows that are cleared", threads([first, cleared], [], ask=["a"]), outcomes(0, "committed", "committed"),
        closings(30, 40), shown(0, 30, 'tags "a" none'), shown(1, 40, 'tags "a" none'),
    )
    marked = [transaction(0, [], [], [put(LOCKED, "L"), put(METADATA_VERSION, "v")], True)]
    everything = [transaction(0, [], [], [clear("", "\\xff\\xff")], True)]
    yield case(
        "a Clear of all keys behind a lock and a metadata version, of which another proxy learns",
        threads([first, marked, everything], [], ask=["a"]), outcomes(0, "committed", "committed", "committed"),
        closings(40, 50), shown(0, 40, 'tags "a" none'), shown(1, 50, 'tags "a" none'),
    )
    yield from each_time(
        "rows that are put and cleared by three", threads([first, cleared], [first], [cleared, first], ask=["a"]),
    )


def listed_tags():
    """A row that lists tags, and a server's tag beside it: what one proxy commits, all print."""
    listed = [transaction(0, [], [], [put(KEY_SERVERS, LISTING), put_servers("m", SERVER_1)], True)]
    given = [transaction(0, [], [], [put_tag(SERVER_1, "\\x00\\x00\\x07")], True)]
    both = ['route "" 0:1 0:2 3:258', 'route "m" 0:7', 'tags "a" 0:1 0:2 3:258', 'tags "z" 0:7']
    yield case(
        "a row that lists tags, and a tag of a server of the other row", threads([listed, given], [], ask=["a", "z"]),
        outcomes(0, "committed", "committed"), closings(30, 40), shown(0, 30, *both), shown(1, 40, *both),
    )
    yield from each_time(
        "a row that lists tags, beside the tag of a server", threads([listed], [given], [], ask=["a", "z"]), (
            lines(
                outcomes(0, "committed"), outcomes(1, "committed"), closings(30, 40, 50),
                *[shown(proxy, 30 + 10 * proxy, *both) for proxy in range(3)],
            ),
        ),
    )


def stamps():
    """A stamp has the version of its batch and the place of its transaction."""
    stamped = [transaction(0, [], [], [stamp(METADATA_VERSION, "\\x00" * 14)])]
    texts = ['"%s\\x%02x\\x00\\x00"' % ("\\x00" * 7, version) for version in (10, 20)]
    yield case("a stamp of the first row", threads([stamped]), outcomes(0, "committed"), closings(20),
               shown(0, 20, metadata_version=texts[0]))
    yield case("a stamp of the second transaction", threads([[transaction(), *stamped]]), outcomes(0, "committed committed"),
               closings(20), shown(0, 20, metadata_version=texts[0][:-3] + "01\""))
    yield from each_time("a stamp in the first row or the second", threads([stamped], [[]]), tuple(
        one_batch_each("committed", "none", metadata_version=it) for it in texts
    ))


def fields_that_matter():
    """One script, and for each of its fields a change that changes the answer."""
    def script(**changes):
        batches = [
            [transaction(0, [one_key("n")], [one_key("n")])], [transaction(5, [one_key("n")], [one_key("b")])],
            [read("b", 10)],
        ]
        return {**threads(batches, moves=[move("m", "t", 1)], ask=["a"], window=100, rows=4), **changes}

    def answer(said, end, version, asked=('tags "a" none',)):
        return outcomes(0, *said), closings(end), shown(0, version, *asked)

    usual, asked = ("committed", "conflict", "conflict"), 'tags "a" none'
    yield case("as it is", script(), *answer(usual, 40, 40))
    yield case("no moves", script(moves=[]), *answer(("committed", "conflict", "committed"), 40, 40))
    yield case("a window of 19", script(window=19), *answer(("committed", "conflict", "too_old"), 40, 40))
    yield case("a step of 3", script(step=3), *answer(("committed", "committed", "committed"), 12, 12))
    yield case("three rows", script(rows=3), *answer(usual, "refused 50 LedgerFull 3", 30))
    yield case("no work", script(work=[[]]), *answer((), 10, 10))
    yield case("no asked keys", script(ask=[]), *answer(usual, 40, 40, ()))
    two = script(proxies=2, work=script()["work"] + [[]], rows=5)
    yield case("two proxies", two, outcomes(0, *usual), closings(40, 50), shown(0, 40, asked), shown(1, 50, asked))
    yield "one resolver", write(script(resolvers=1)), NO_SUCH_RESOLVER


CASES = (
    small_ones, three_proxies_with_nine_batches, each_outcome, full_ledgers, rivals, locks, windows, moved_ranges,
    overlapping_moves, metadata, listed_tags, stamps, fields_that_matter,
)
