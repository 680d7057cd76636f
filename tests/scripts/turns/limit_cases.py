"""Right turns scripts at the limits and at sizes where a body could give up, each with the lines that it must be answered.

The lines are worked out by hand, by a rule for each of many alike events.
"""
from tests.scripts.common.script import KEY_SERVERS, METADATA_VERSION, SERVER_1, SERVER_TAG
from tests.scripts.turns.words import (
    LOCK, case, clear, finish, finished, move, offer, offered, offered_to_both, offers, one_key, private_tag, put,
    put_servers, put_tag, sequence, sequenced, shown, transaction, turns,
)

GREATEST = 2**63 - 1
TAG = put_tag(SERVER_1, "\\x00\\x00\\x01")


def key_of(number):
    return "k%04d" % number


def routed(numbers):
    return ['route "%s" 0:1' % key_of(number) for number in numbers]


def versions(first, last, step=10):
    """The versions of these rows, both among them, as words."""
    return " ".join(str(step * (row + 1)) for row in range(first, last + 1)) or "none"


def row_put(number, **more):
    """A state transaction that puts the server at a key of its own; the first one gives the server its tag."""
    return transaction(mutations=[put_servers(key_of(number), SERVER_1)] + [TAG] * (number == 0), **more)


def row_done(number, transaction=0):
    """What is printed of its mutations, as those of this transaction."""
    first = ["mutation %d 1 tags 0:1" % transaction, private_tag(transaction, 1, SERVER_1, "0:1")] if number == 0 else []
    return ["mutation %d 0 tags 0:1" % transaction, *first]


def marking(number):
    """A lock-aware state transaction that sets the metadata version to a number."""
    return transaction(0, [], [], [put(METADATA_VERSION, str(number))], True)


# ---- proxies and resolvers


def full_cluster():
    """Each of 64 proxies commits a row and reads what the proxy before it wrote at a resolver of its own."""
    count = 64

    def batch(proxy):
        own, other = one_key(key_of(proxy)), one_key(key_of((proxy - 1) % count))
        return row_put(proxy, snapshot=10 * proxy, reads=[own], writes=[own]), transaction(2, [other])

    def judged(row, resolver):
        asked = {False: "", True: " conflict" if row else " committed"}[resolver == (row - 1) % count]
        return offered(row, resolver, "committed" + asked, versions(0, row - 1))

    def done(proxy):
        read = "txn 1 conflict 1020" if proxy else "txn 1 committed 10 1"
        return finished(proxy, 10 * proxy + 10, "txn 0 committed %d 0" % (10 * proxy + 10), *row_done(proxy), read)

    every = range(count)
    yield case(
        "64 proxies and 64 resolvers, each with a key of its own", turns(
            [move(*one_key(key_of(it)), it) for it in every], [sequence(it, *batch(it)) for it in every],
            offers(*every, resolvers=count), [finish(it) for it in every], proxies=count, resolvers=count, window=1000,
        ),
        ["move date 1"] * count, sequenced(count), [judged(row, resolver) for row in every for resolver in every],
        *[done(proxy) for proxy in every], *[shown(proxy, 10 * proxy + 10, *routed(range(proxy + 1))) for proxy in every],
    )


# ---- transactions


def full_batches():
    """1,024 transactions that each read what the one before wrote, and write what the next one reads."""
    count = 1024
    chain = [transaction(0, [one_key(key_of(it))], [one_key(key_of(it + 1))]) for it in range(count)]
    verdicts = ["conflict" if it % 2 else "committed" for it in range(count)]
    done = ["txn %d conflict 1020" % it if it % 2 else "txn %d committed 10 %d" % (it, it) for it in range(count)]
    reads = [transaction(snapshot, [one_key(key_of(it))]) for it in (1, 2, 1023, 1024) for snapshot in (9, 10)]
    later = [
        "conflict" if it in (1, 1023) and snapshot == 9 else "committed" for it in (1, 2, 1023, 1024) for snapshot in (9, 10)
    ]
    ended = [
        "txn %d conflict 1020" % it if word == "conflict" else "txn %d committed 20 %d" % (it, it)
        for it, word in enumerate(later)
    ]
    yield case(
        "1,024 transactions that each read and write", turns(
            sequence(0, *chain), sequence(0, *reads), offers(0, 1, resolvers=1), finish(0), finish(0), proxies=1,
            resolvers=1,
        ),
        sequenced(2), offered(0, 0, " ".join(verdicts)), offered(1, 0, " ".join(later)), finished(0, 10, *done),
        finished(0, 20, *ended), shown(0, 20),
    )
    # (resolver 1 has the keys from k0512 on: it commits the write of the 511th, which conflicts at resolver 0, and so all
    # turns round)
    first, last = verdicts[:512], ["committed" if it % 2 else "conflict" for it in range(512, count)]
    done[512:] = ["txn %d committed 10 %d" % (it, it) if it % 2 else "txn %d conflict 1020" % it for it in range(512, count)]
    yield case(
        "1,024 transactions that each read and write, at two resolvers", turns(
            move(key_of(512), "l", 1), sequence(0, *[dict(it, snapshot=2) for it in chain]), offers(0), finish(0), proxies=1,
        ),
        "move date 1", sequenced(1), offered(0, 0, " ".join(first)), offered(0, 1, " ".join(["committed", *last])),
        finished(0, 10, *done), shown(0, 10),
    )


def many_ranges():
    """A transaction with many reads and writes conflicts by the last of them; and one with many mutations."""
    count = 1000
    every = [one_key(key_of(it)) for it in range(count)]
    batch = [
        transaction(0, [], every), transaction(0, [one_key("j"), *every[-1:]]), transaction(0, [one_key("j")] * count),
        transaction(0, [one_key("j")] * count + [["k0999\\x00", "z"]], [one_key("j")] * count),
        transaction(0, [one_key("i")] * count + [["j\\x00", "k0000\\x00"]]),
        transaction(0, [["a", "j"]] * count + [one_key("j")]),
    ]
    said = ["committed", "conflict", "committed", "committed", "conflict", "conflict"]
    numbered = [
        "txn %d conflict 1020" % it if word == "conflict" else "txn %d committed 10 %d" % (it, it)
        for it, word in enumerate(said)
    ]
    yield case(
        "1,000 reads and 1,000 writes of a transaction",
        turns(sequence(0, *batch), offer(0, 0), finish(0), proxies=1, resolvers=1), sequenced(1),
        offered(0, 0, " ".join(said)), finished(0, 10, *numbered), shown(0, 10),
    )
    puts = [put_servers(key_of(it), SERVER_1) for it in range(count)]
    cleared = clear(KEY_SERVERS + key_of(1), KEY_SERVERS + key_of(count))
    for name, more, left in (
        ("1,000 mutations of a transaction", [put("a", "1"), put("z", "1")], range(count)),
        ("1,000 mutations of a transaction, and a Clear of 999 rows", [cleared, put("z", "1")], [0]),
        ("1,000 mutations of a transaction, a Clear of 999 rows, and one again", [cleared, puts[7]], [0, 7]),
    ):
        mutations = [TAG, *puts, *more]
        tags = [
            "mutation 0 %d tags %s" % (it, "none" if one == put("a", "1") else "0:1") for it, one in enumerate(mutations)
        ]
        tags.insert(1, private_tag(0, 0, SERVER_1, "0:1"))
        yield case(
            name, turns(sequence(0, transaction(0, [], [], mutations)), offer(0, 0), finish(0), proxies=1, resolvers=1),
            sequenced(1), offered(0, 0, "committed"), finished(0, 10, "txn 0 committed 10 0", *tags),
            shown(0, 10, *routed(left)),
        )


def many_states():
    """Batches of many state transactions, of which some conflict at one resolver; another proxy is told of them."""
    for count in (3, 60, 1024):
        batch = [
            row_put(it, reads=[one_key("w")] if it % 3 == 2 else [], writes=[one_key("w")] if it == 0 else [])
            for it in range(count)
        ]
        fine = [it for it in range(count) if it % 3 != 2]
        said = " ".join("conflict" if it % 3 == 2 else "committed" for it in range(count))
        done = []
        for it in range(count):
            done += ["txn %d committed 10 %d" % (it, it)] if it in fine else ["txn %d conflict 1020" % it]
            done += row_done(it, it) if it in fine else []
        yield case(
            "%d state transactions of a batch" % count,
            turns(
                sequence(0, *batch), sequence(1, transaction(0, [], [], [put("z", "1")])), offers(0, 1), finish(0),
                finish(1),
            ),
            sequenced(2), offered(0, 0, said), offered(0, 1, " ".join(["committed"] * count)),
            offered_to_both(1, unseen="10"), finished(0, 10, *done),
            finished(1, 20, "txn 0 committed 20 0", "mutation 0 0 tags 0:1"), shown(0, 10, *routed(fine)),
            shown(1, 20, *routed(fine)),
        )


def under_the_lock():
    """Batches of many transactions under the lock: those that are lock aware are committed, and the others are not."""
    for count in (9, 60, 1024):
        batch = [row_put(it, snapshot=10, lock_aware=it % 2 == 0) for it in range(count)]
        plain = [transaction(10, [], [], [put("z", "1")], it % 2 == 1) for it in range(count)]
        aware, words = range(0, count, 2), " ".join(["committed"] * count)
        done = []
        for it in range(count):
            done += ["txn %d locked 1038" % it] if it % 2 else ["txn %d committed 20 %d" % (it, it)]
            done += [] if it % 2 else row_done(it, it)
        later = []
        for it in range(count):
            later += ["txn %d committed 30 %d" % (it, it), "mutation %d 0 tags 0:1" % it] if it % 2 else [
                "txn %d locked 1038" % it
            ]
        yield case(
            "%d transactions under the lock" % count,
            turns(
                sequence(0, LOCK), sequence(0, *batch), sequence(1, *plain), offers(0, 1, 2), finish(0), finish(0),
                finish(1),
            ),
            sequenced(3), offered_to_both(0, "committed"), offered_to_both(1, words), offered_to_both(2, unseen="10 20"),
            finished(0, 10, "txn 0 committed 10 0", "mutation 0 0 tags none"), finished(0, 20, *done),
            finished(1, 30, *later), shown(0, 20, *routed(aware), locked="yes"), shown(1, 30, *routed(aware), locked="yes"),
        )


# ---- moves, dates and snapshots


def thousand_moves():
    """1,000 moves: of one range among 64 resolvers, and of as many ranges that touch."""
    count = 1000
    batch = [transaction(0, [one_key("n")]), transaction(2, [one_key("n")]), transaction(0, [], [["a", "z"]])]
    last = (count - 1) % 64
    done = finished(0, 10, *["txn %d committed 10 %d" % (it, it) for it in range(3)])

    def script(moves, resolvers):
        return turns(moves, sequence(0, *batch), offers(0, resolvers=resolvers), finish(0), proxies=1, resolvers=resolvers)

    def verdicts(resolver, is_last):
        return " ".join(["committed"] * (1 + is_last + (is_last or resolver == 0)))

    yield case(
        "1,000 moves of one range among 64 resolvers", script([move("m", "t", it % 64) for it in range(count)], 64),
        ["move date 1"] * count, sequenced(1), [offered(0, it, verdicts(it, it == last)) for it in range(64)], done,
        shown(0, 10),
    )
    batch = [
        transaction(0, [[key_of(0), key_of(count)]]), transaction(2, [one_key(key_of(777))]),
        transaction(0, [], [["a", "z"]]),
    ]

    def said(resolver):
        return offered(0, resolver, " ".join(["committed"] * (2 + (resolver == 777 % 8))))

    yield case(
        "1,000 moves of ranges that touch", script([move(key_of(it), key_of(it + 1), it % 8) for it in range(count)], 8),
        ["move date 1"] * count, sequenced(1), [said(it) for it in range(8)], done, shown(0, 10),
    )


def moves_after_batches():
    """Each batch is followed by a move to the next of three resolvers; the last batch reads from before some of them."""
    count = 600
    end = 10 * count
    for window, snapshots in ((10**9, (0, end - 19, end - 9, end, end + 2)), (25, (end - 15, end - 9, end, end + 2))):
        reads = [transaction(snapshot, [one_key("n")]) for snapshot in snapshots]
        said = {resolver: [] for resolver in range(3)}
        for snapshot in snapshots:
            bound = max(snapshot, end - window)
            # (the move after row r is dated 10 r + 11, and goes to resolver r modulo 3)
            asked = {row % 3 for row in range(count) if row == count - 1 or 10 * row + 21 >= bound} | (
                {0} if bound <= 11 else set()
            )
            for resolver in asked:
                said[resolver].append("committed")
        yield case(
            "%d moves, each after a batch, and a window of %d" % (count, window), turns(
                *[[sequence(0), move("m", "t", row % 3), *offers(row, resolvers=3), finish(0)] for row in range(count)],
                sequence(0, *reads), offers(count, resolvers=3), finish(0), proxies=1, resolvers=3, window=window,
            ),
            *[
                ["sequence row %d version %d" % (row, 10 * row + 10), "move date %d" % (10 * row + 11),
                 *[offered(row, it) for it in range(3)], *finished(0, 10 * row + 10)] for row in range(count)
            ],
            "sequence row %d version %d" % (count, end + 10),
            [offered(count, it, " ".join(said[it]) or "none") for it in range(3)],
            finished(0, end + 10, *["txn %d committed %d %d" % (it, end + 10, it) for it in range(len(snapshots))]),
            shown(0, end + 10),
        )


def greatest_dates():
    """A record of the greatest version after a move, and a move after it, whose date is past every version."""
    step = GREATEST // 7
    begun = 6 * step
    batch = [transaction(it, [one_key("n")]) for it in (begun, begun + 1, begun + 2, GREATEST)]
    batch += [transaction(0, [], [one_key("n")]), transaction(GREATEST, [one_key("n")])]
    yield case(
        "the greatest version, the greatest date and the greatest snapshots", turns(
            [sequence(0)] * 6, move("m", "t", 1), sequence(0, *batch), move("m", "t", 0), sequence(0), offers(*range(7)),
            [finish(0)] * 7, window=10**9, step=step, proxies=1,
        ),
        sequenced(6, step), "move date %d" % (begun + 1), "sequence row 6 version %d" % GREATEST, "move date %d" % 2**63,
        "refused 51 VersionsEnd", *[offered_to_both(row) for row in range(6)], offered(6, 0, "too_old too_old"),
        offered(6, 1, "too_old too_old too_old committed committed conflict"),
        *[finished(0, step * (row + 1)) for row in range(6)],
        finished(
            0, GREATEST, *["txn %d too_old 1007" % it for it in range(3)], "txn 3 committed %d 3" % GREATEST,
            "txn 4 committed %d 4" % GREATEST, "txn 5 conflict 1020",
        ),
        shown(0, GREATEST),
    )
    many = [transaction(GREATEST, [one_key("n"), one_key(key_of(it))], [one_key(key_of(it))]) for it in range(100)]
    yield case(
        "100 reads at the greatest snapshot, behind a write and a move", turns(
            sequence(0, transaction(0, [], [["a", "z"]])), move("m", "t", 1), sequence(0, *many), sequence(0, *many),
            offers(0, 1, 2), [finish(0)] * 3, proxies=1,
        ),
        sequenced(1), "move date 11", sequenced(3)[1:], offered(0, 0, "committed"), offered(0, 1),
        *[offered_to_both(row, " ".join(["committed"] * 100)) for row in (1, 2)], finished(0, 10, "txn 0 committed 10 0"),
        *[finished(0, end, *["txn %d committed %d %d" % (it, end, it) for it in range(100)]) for end in (20, 30)],
        shown(0, 30),
    )


# ---- rows


def told_of_many():
    """A late proxy is told of many rows, at each resolver, also where it asks again."""
    for count in (16, 17, 18, 101, 257, 513):
        rows = range(count)
        told, end = versions(0, count - 1), 10 * count + 10
        yield case(
            "a reply that tells %d rows, and that reply again" % count, turns(
                [sequence(0, row_put(row)) for row in rows], sequence(1), offers(*rows, count), offers(count), offers(count),
                [finish(0) for _ in rows], finish(1), offers(count), window=10_000,
            ),
            sequenced(count + 1), *[offered_to_both(row, "committed") for row in rows], offered_to_both(count, unseen=told),
            *[offered(count, resolver, unseen=told, how="again") for _ in range(2) for resolver in (0, 1)],
            *[finished(0, 10 * row + 10, "txn 0 committed %d 0" % (10 * row + 10), *row_done(row)) for row in rows],
            finished(1, end), [offered(count, resolver, unseen=told, how="again") for resolver in (0, 1)],
            shown(0, 10 * count, *routed(rows)), shown(1, end, *routed(rows)),
        )


def begun_before_any_is_finished():
    """200 records begun one after another, asked for again, and given up once half of them are finished."""
    count, half = 200, 100
    rows, end = range(count), 10 * count + 10
    done = [finished(0, 10 * row + 10, "txn 0 committed %d 0" % (10 * row + 10), "mutation 0 0 tags none") for row in rows]
    yield case(
        "200 records of one proxy begun before any is finished, and their replies again", turns(
            [sequence(0, marking(row)) for row in rows], offers(*rows), [offer(row, 0) for row in rows], [finish(0)] * half,
            sequence(0), offers(count), [offer(row, 0) for row in rows], [finish(0)] * (half + 1), proxies=1,
        ),
        sequenced(count), *[offered_to_both(row, "committed") for row in rows],
        [offered(row, 0, "committed", how="again") for row in rows], *done[:half],
        "sequence row %d version %d" % (count, end), offered_to_both(count), ["refused 31 GivenUp %d" % (10 * half)] * half,
        [offered(row, 0, "committed", how="again") for row in rows[half:]], *done[half:], finished(0, end),
        shown(0, end, metadata_version='"%d"' % (count - 1)),
    )
    proxies, ended = [row % 3 for row in rows], [199, 197, 198]
    yield case(
        "200 records of three proxies in turn begun before any is finished", turns(
            [sequence(proxies[row], marking(row)) for row in rows], offers(*rows),
            [finish(proxies[row]) for row in rows[::-1]], proxies=3,
        ),
        sequenced(count), *[offered_to_both(row, "committed", versions(max(row - 2, 0), row - 1)) for row in rows],
        *[finished_in_turn(place, proxies) for place in range(count)],
        *[
            shown(proxy, 10 * row + 10, metadata_version='"%d"' % row)
            for proxy, row in enumerate(sorted(ended, key=lambda it: it % 3))
        ],
    )


def finished_in_turn(place, proxies):
    """What is printed where all records are finished, each proxy's from its first on,
    in the order of the proxies from the last row.
    """
    order = proxies[::-1]
    proxy, before = order[place], order[:place].count(order[place])
    row = [it for it, of in enumerate(proxies) if of == proxy][before]
    return finished(proxy, 10 * row + 10, "txn 0 committed %d 0" % (10 * row + 10), "mutation 0 0 tags none")


def many_rows():
    """More rows than a ledger of threads may have."""
    count = 4100
    rows = range(count)
    yield case(
        "4,100 rows",
        turns([sequence(0) for _ in rows], [offer(row, 0) for row in rows], [finish(0)] * 20, proxies=1, resolvers=1),
        sequenced(count), [offered(row, 0) for row in rows], *[finished(0, 10 * row + 10) for row in range(20)],
        shown(0, 200),
    )


def many_events():
    """More events than any other script here has: all but the last four are refused."""
    count = 25_000
    yield case(
        "%d events that are refused, and then a batch" % count,
        turns([finish(0)] * count, sequence(0), offers(0), finish(0), proxies=1),
        ["refused 42 OutOfTurn none"] * count, sequenced(1), offered_to_both(0), finished(0, 10), shown(0, 10),
    )


def many_tags():
    """A server whose tag changes with each batch, by two proxies in turn; each batch gets the tag that it sets."""
    count = 300
    first = [sequence(0, transaction(0, [], [], [put_servers("", SERVER_1)])), *offers(0), finish(0)]
    rest = [
        [sequence((row - 1) % 2, transaction(0, [], [], [put(SERVER_TAG + SERVER_1, "\\x00" + spelled(row))], True)),
         *offers(row),
         finish((row - 1) % 2)] for row in range(1, count + 1)
    ]
    yield case(
        "300 tags of one server, by two proxies", turns(first, *rest),
        sequenced(1), offered_to_both(0, "committed"), finished(0, 10, "txn 0 committed 10 0", "mutation 0 0 tags none"),
        *[tagged(row) for row in range(1, count + 1)],
        shown(0, 10 * count, 'route "" 0:%d' % (count - 1)), shown(1, 10 * count + 10, 'route "" 0:%d' % count),
    )


def tagged(row):
    """What is printed of the batch in this row. Its proxy has not seen the row before; the second row is of proxy 1 and the
    third of 0.
    """
    proxy, version = (row - 1) % 2, 10 * row + 10
    unseen = "10 20"[: 5 * (row == 2)] or ("none" if row == 1 else str(version - 10))
    return [
        "sequence row %d version %d" % (row, version), *offered_to_both(row, "committed", unseen),
        *finished(
            proxy, version, "txn 0 committed %d 0" % version, "mutation 0 0 tags 0:%d" % row,
            private_tag(0, 0, SERVER_1, "0:%d" % row),
        ),
    ]


def spelled(number):
    """Two bytes of a number, the high one first."""
    return "".join(
        chr(byte) if 0x21 <= byte <= 0x7E and byte not in (0x22, 0x5C) else "\\x%02x" % byte
        for byte in number.to_bytes(2, "big")
    )


CASES = (
    full_cluster, full_batches, many_ranges, many_states, under_the_lock, thousand_moves, moves_after_batches,
    greatest_dates, told_of_many, begun_before_any_is_finished, many_rows, many_events, many_tags,
)
