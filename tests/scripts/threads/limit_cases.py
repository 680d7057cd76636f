"""Right threads scripts at the limits and at sizes where a body could give up, each with the lines that it must be answered.

They come to one text whatever the order of the batches is: what different proxies do does not conflict, or one proxy does
all. The lines are worked out by hand, by a rule for each of many alike batches.
"""
from tests.scripts.common.script import KEY_SERVERS, METADATA_VERSION, SERVER_1
from tests.scripts.threads.words import closings, move, outcomes, threads
from tests.scripts.turns.limit_cases import GREATEST, TAG, key_of, marking, routed, row_put
from tests.scripts.turns.words import LOCK, case, clear, one_key, put, put_servers, shown, transaction

COMMITTED = "committed"


def words(count, word_of=lambda _: COMMITTED):
    return " ".join(word_of(it) for it in range(count))


def full_cluster():
    """Each of 64 proxies reads and writes a key of its own at a resolver of its own, and commits a row."""
    every = range(64)
    own = [one_key(key_of(it)) for it in every]
    yield case(
        "64 proxies and 64 resolvers, each with a key of its own", threads(
            *[[[row_put(it, snapshot=0, reads=[own[it]], writes=[own[it]])]] for it in every],
            moves=[move(*own[it], it) for it in every], resolvers=64, rows=128, window=10_000,
        ),
        *[outcomes(it, COMMITTED) for it in every], closings(*(10 * it + 650 for it in every)),
        *[shown(it, 10 * it + 650, *routed(every)) for it in every],
    )


def full_batches():
    """Batches of 1,024 transactions that each read what the one before wrote, and write what the next one reads."""
    count = 1024
    keys = [[one_key("%s%04d" % (name, it)) for it in range(count + 1)] for name in "ab"]
    chains = [[transaction(0, [own[it]], [own[it + 1]]) for it in range(count)] for own in keys]
    said = words(count, lambda it: "conflict" if it % 2 else COMMITTED)
    yield case(
        "1,024 transactions that each read and write", threads([chains[0]], resolvers=1), outcomes(0, said), closings(20),
        shown(0, 20),
    )
    yield case(
        "1,024 transactions that each read and write, of each of two proxies", threads([chains[0]], [chains[1]]),
        outcomes(0, said), outcomes(1, said), closings(30, 40), shown(0, 30), shown(1, 40),
    )
    every = [one_key(key_of(it)) for it in range(1000)]
    yield case(
        "1,000 reads and 1,000 writes of a transaction", threads([
            [transaction(0, [], every)],
            [transaction(9, [one_key("j")] * 1000, every), transaction(9, [one_key("j")] * 999 + every[-1:])],
        ]),
        outcomes(0, COMMITTED, "committed conflict"), closings(30), shown(0, 30),
    )


def many_states():
    """Batches of many state transactions, and of many under the lock;
    a proxy without batches learns all rows by its closing.
    """
    for count in (3, 60, 1024):
        yield case(
            "%d state transactions of a batch" % count, threads([[row_put(it) for it in range(count)]], []),
            outcomes(0, words(count)), closings(20, 30), shown(0, 20, *routed(range(count))),
            shown(1, 30, *routed(range(count))),
        )
    for count in (9, 60, 1024):
        aware = range(0, count, 2)
        batch = [row_put(it, snapshot=10, lock_aware=it % 2 == 0) for it in range(count)]
        yield case(
            "%d transactions under the lock" % count, threads([[LOCK], batch], []),
            outcomes(0, COMMITTED, words(count, lambda it: "locked" if it % 2 else COMMITTED)), closings(30, 40),
            shown(0, 30, *routed(aware), locked="yes"), shown(1, 40, *routed(aware), locked="yes"),
        )
    puts = [TAG, *[put_servers(key_of(it), SERVER_1) for it in range(1000)]]
    cleared = clear(KEY_SERVERS + key_of(1), KEY_SERVERS + key_of(1000))
    yield case(
        "1,000 mutations of a transaction, and a Clear of 999 rows",
        threads([[transaction(0, [], [], puts, True)], [transaction(0, [], [], [cleared], True)]], []),
        outcomes(0, COMMITTED, COMMITTED), closings(30, 40), shown(0, 30, *routed([0])), shown(1, 40, *routed([0])),
    )


def many_moves():
    """1,000 moves of one range among 64 resolvers; and the greatest snapshots."""
    read, written = [transaction(0, [one_key("n")]), transaction(2, [one_key("n")])], [transaction(0, [], [["a", "z"]])]
    yield case(
        "1,000 moves of one range among 64 resolvers",
        threads([read, written, read], moves=[move("m", "t", it % 64) for it in range(1000)], resolvers=64),
        outcomes(0, "committed committed", COMMITTED, "conflict conflict"), closings(40), shown(0, 40),
    )
    many = [transaction(GREATEST, [one_key("n"), one_key(key_of(it))], [one_key(key_of(it))]) for it in range(100)]
    again = [*many, transaction(GREATEST, [one_key(key_of(99))])]
    yield case(
        "100 reads at the greatest snapshot, behind a write", threads([written, many, again], moves=[move("m", "t", 1)]),
        outcomes(0, COMMITTED, words(100), words(101, lambda it: "conflict" if it == 100 else COMMITTED)), closings(40),
        shown(0, 40),
    )
    step = GREATEST // 7
    yield case(
        "as many batches as there are versions", threads([[marking(it)] for it in range(8)], [], step=step),
        outcomes(0, *[COMMITTED] * 7, "refused 51 VersionsEnd"), closings(*["refused 51 VersionsEnd"] * 2),
        shown(0, 7 * step, metadata_version='"6"'), shown(1, 0),
    )


def many_batches():
    """Proxies that know nothing of 17, 101 and 200 rows learn them by their closings."""
    for count in (17, 101, 200):
        end = 10 * count + 10
        yield case(
            "%d batches of one proxy, and two that learn of them at once" % count,
            threads([[row_put(it, lock_aware=True)] for it in range(count)], [], [], rows=count + 3),
            outcomes(0, *[COMMITTED] * count), closings(end, end + 10, end + 20),
            *[shown(it, end + 10 * it, *routed(range(count))) for it in range(3)],
        )
    yield case(
        "101 batches of each of two proxies",
        threads(*[[[row_put(101 * it + number, lock_aware=True)] for number in range(101)] for it in range(2)], rows=204),
        *[outcomes(it, *[COMMITTED] * 101) for it in range(2)], closings(2030, 2040),
        *[shown(it, 2030 + 10 * it, *routed(range(202))) for it in range(2)],
    )


def greatest_ledgers():
    """A ledger of 4,096 rows: all are used, and the next batch and the closing are refused."""
    rows = 4096
    full = "refused 50 LedgerFull %d" % rows
    marks = {0: [marking(0)], rows - 2: [marking(1)], rows - 1: [marking(2)]}
    yield case(
        "4,097 batches in 4,096 rows",
        threads([
            marks.get(it, [transaction(0, [], [], [put(METADATA_VERSION, "x")])] * (it == rows)) for it in range(rows + 1)
        ],
                [], rows=rows, resolvers=1),
        outcomes(0, *[COMMITTED if it in marks else "none" for it in range(rows)], full), closings(full, full),
        shown(0, 10 * rows, metadata_version='"2"'), shown(1, 0),
    )


CASES = (full_cluster, full_batches, many_states, many_moves, many_batches, greatest_ledgers)
