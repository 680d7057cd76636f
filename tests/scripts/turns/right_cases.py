"""Right turns scripts, each with the lines that it must be answered, worked out by hand."""
from tests.scripts.common.script import BAD_STAMP, LOCKED, METADATA_VERSION, SERVER_1, write
from tests.scripts.turns.words import (
    LOCK, case, clear, finish, finished, move, offer, offered, offered_to_both, offers, one_key, private_tag, put,
    put_servers, put_tag, read, sequence, sequenced, shown, stamp, transaction, turns, written,
)


def stamps():
    """The stamp is the version in eight bytes and the number of the transaction in two."""
    stamped = transaction(0, [], [], [stamp(METADATA_VERSION, "\\x00" * 14)])
    yield case(
        "a stamp of the metadata version", turns(sequence(0, stamped), offers(0), finish(0)),
        sequenced(1), offered_to_both(0, "committed"), finished(0, 10, "txn 0 committed 10 0", "mutation 0 0 tags none"),
        shown(0, 10, metadata_version='"\\x00\\x00\\x00\\x00\\x00\\x00\\x00\\x0a\\x00\\x00"'), shown(1, 0),
    )
    late = transaction(0, [], [], [stamp(METADATA_VERSION, "\\x00" * 10 + "\\x01\\x00\\x00\\x00")])
    yield "a stamp past the end of its value", write(turns(sequence(0, late), offers(0), finish(0))), BAD_STAMP
    second = transaction(0, [], [], [stamp(METADATA_VERSION, "ab0123456789c\\x02\\x00\\x00\\x00")], True)
    yield case(
        "a stamp within a value, by the second transaction",
        turns(sequence(0, transaction(), second), offers(0), finish(0), step=258), sequenced(1, 258),
        offered_to_both(0, "committed"),
        finished(0, 258, "txn 0 committed 258 0", "txn 1 committed 258 1", "mutation 1 0 tags none"),
        shown(0, 258, metadata_version='"ab\\x00\\x00\\x00\\x00\\x00\\x00\\x01\\x02\\x00\\x01c"'), shown(1, 0),
    )


def moved_ranges():
    """A read goes back through the owners to its snapshot, and a write goes to the last owner."""
    reads = [read("n", snapshot) for snapshot in (20, 21, 30)]
    yield case(
        "reads before and after the date of a move",
        turns(
            sequence(0), sequence(0), move("m", "t", 1), sequence(0), sequence(0, *reads), offers(0, 1, 2, 3),
            [finish(0)] * 4,
        ),
        sequenced(2), "move date 21", sequenced(4)[2:], offered_to_both(0), offered_to_both(1), offered_to_both(2),
        offered(3, 0, "committed committed"), offered(3, 1, "committed committed committed"),
        finished(0, 10), finished(0, 20), finished(0, 30),
        finished(0, 40, "txn 0 committed 40 0", "txn 1 committed 40 1", "txn 2 committed 40 2"), shown(0, 40), shown(1, 0),
    )
    yield case(
        "a conflict that one resolver alone sees",
        turns(
            move("m", "t", 1), sequence(0, written("n")), sequence(0, transaction(5, [one_key("n")], [one_key("b")])),
            sequence(0, read("b", 10)), offers(0, 1, 2), [finish(0)] * 3,
        ),
        "move date 1", sequenced(3), offered(0, 0), offered(0, 1, "committed"), offered(1, 0, "committed"),
        offered(1, 1, "conflict"), offered(2, 0, "conflict"), offered(2, 1), finished(0, 10, "txn 0 committed 10 0"),
        finished(0, 20, "txn 0 conflict 1020"), finished(0, 30, "txn 0 conflict 1020"), shown(0, 30), shown(1, 0),
    )
    yield case(
        "moves to and fro, and a range over the borders of all",
        turns(
            move("b", "d", 1), move("c", "e", 2), move("d", "f", 0), sequence(0, transaction(0, [], [["a", "z"]])),
            sequence(0, transaction(10, [["c", "d"]])), offers(0, 1, resolvers=3), finish(0), finish(0), resolvers=3,
            proxies=1,
        ),
        ["move date 1"] * 3, sequenced(2), [offered(0, resolver, "committed") for resolver in range(3)],
        offered(1, 0), offered(1, 1), offered(1, 2, "committed"),
        finished(0, 10, "txn 0 committed 10 0"), finished(0, 20, "txn 0 committed 20 0"), shown(0, 20),
    )


def owners_in_the_window():
    """A read asks the owners back to its snapshot, or to the window; a range goes whole to each who is asked."""
    batch = [
        transaction(20, [["m", "t"]]), transaction(30, [["m", "t"]]), transaction(0, [], [["a", "z"]]),
        transaction(0, [], [["m", "t"]]),
    ]

    def moved_twice(window):
        return turns(
            [sequence(0)] * 2, move("m", "t", 1), [sequence(0)] * 2, move("p", "q", 2), sequence(0, *batch),
            offers(*range(5), resolvers=3), [finish(0)] * 5, resolvers=3, proxies=1, window=window,
        )

    begun = [sequenced(2), "move date 21", sequenced(4)[2:], "move date 41", sequenced(5)[4:]]
    begun += [offered(row, resolver) for row in range(4) for resolver in range(3)]
    ended, writes = [finished(0, 10 * number) for number in range(1, 5)], ["txn 2 committed 50 2", "txn 3 committed 50 3"]
    yield case(
        "a read from before two moves", moved_twice(100), *begun, offered(4, 0, "committed committed"),
        *[offered(4, resolver, "committed committed committed committed") for resolver in (1, 2)], *ended,
        finished(0, 50, "txn 0 committed 50 0", "txn 1 committed 50 1", *writes), shown(0, 50),
    )
    yield case(
        "a read from before a move that left the window", moved_twice(10), *begun, offered(4, 0, "committed"),
        *[offered(4, resolver, "too_old too_old committed committed") for resolver in (1, 2)], *ended,
        finished(0, 50, "txn 0 too_old 1007", "txn 1 too_old 1007", *writes), shown(0, 50),
    )
    moves = [move("%02d" % number, "z", number) for number in range(1, 64)]
    reads = [transaction(snapshot, [["63", "z"]]) for snapshot in (1, 2)]
    yield case(
        "keys that moved 63 times", turns(
            moves, sequence(0, *reads, transaction(0, [], [["", "z"]])), offers(0, resolvers=64), finish(0), resolvers=64,
            proxies=1,
        ),
        ["move date 1"] * 63, sequenced(1), [offered(0, resolver, "committed committed") for resolver in range(63)],
        offered(0, 63, "committed committed committed"),
        finished(0, 10, *["txn %d committed 10 %d" % (it, it) for it in range(3)]), shown(0, 10),
    )


def verdicts():
    """Too old before the window, and in conflict with what is committed after the snapshot or earlier in the batch."""
    yield case(
        "the first snapshot inside the window, the last outside, and a write without reads",
        turns(sequence(0, read("a", 40), read("a", 39), written("b")), offers(0), finish(0), step=140),
        sequenced(1, 140), offered(0, 0, "committed too_old committed"), offered(0, 1),
        finished(0, 140, "txn 0 committed 140 0", "txn 1 too_old 1007", "txn 2 committed 140 2"), shown(0, 140), shown(1, 0),
    )
    yield case(
        "a read behind a write of its batch, and before one",
        turns(
            sequence(0, written("a"), read("a")), sequence(0, read("b", 10), written("b", 10)), offers(0, 1), finish(0),
            finish(0),
        ),
        sequenced(2), offered(0, 0, "committed conflict"), offered(0, 1), offered(1, 0, "committed committed"),
        offered(1, 1), finished(0, 10, "txn 0 committed 10 0", "txn 1 conflict 1020"),
        finished(0, 20, "txn 0 committed 20 0", "txn 1 committed 20 1"), shown(0, 20), shown(1, 0),
    )
    yield case(
        "reads at the version of a write and before it, and the write of one that is in conflict",
        turns(
            sequence(0, transaction(0, [], [["a", "c"]])),
            sequence(0, read("b", 10), read("b", 9), read("c", 9), transaction(9, [one_key("b")], [one_key("d")]),
                     read("d", 9),
                     transaction(9, [one_key("e")], [one_key("e")])),
            offers(0, 1, resolvers=1), finish(0), finish(0), resolvers=1, proxies=1,
        ),
        sequenced(2), offered(0, 0, "committed"), offered(1, 0, "committed conflict committed conflict committed committed"),
        finished(0, 10, "txn 0 committed 10 0"),
        finished(0, 20, "txn 0 committed 20 0", "txn 1 conflict 1020", "txn 2 committed 20 2", "txn 3 conflict 1020",
                 "txn 4 committed 20 4", "txn 5 committed 20 5"),
        shown(0, 20),
    )


def many_parts():
    """Conflicts inside a large share, with writes that have left the window, and at snapshots past the version."""
    keys = ["%04d" % number for number in range(512)]
    yield case(
        "512 writes of a batch and a read of each, and of all by the next batch", turns(
            sequence(0, *map(written, keys), *map(read, keys)),
            sequence(0, transaction(0, [["0", "1"]]), transaction(9, [["0", "1"]]), transaction(10, [["0", "1"]])),
            offers(0, 1, resolvers=1), finish(0), finish(0), proxies=1, resolvers=1,
        ),
        sequenced(2), offered(0, 0, "committed " * 512 + "conflict " * 511 + "conflict"),
        offered(1, 0, "conflict conflict committed"),
        finished(
            0, 10, *["txn %d committed 10 %d" % (it, it) for it in range(512)],
            *["txn %d conflict 1020" % it for it in range(512, 1024)],
        ),
        finished(0, 20, "txn 0 conflict 1020", "txn 1 conflict 1020", "txn 2 committed 20 2"), shown(0, 20),
    )
    yield case(
        "writes that have left the window, and one inside", turns(
            sequence(0, transaction(0, [], [["a", "c"]])), sequence(0, written("d")), sequence(0, written("e")),
            sequence(0, read("b", 20), read("b", 19), read("d", 20), read("e", 20), read("e", 30)),
            offers(*range(4), resolvers=1), [finish(0)] * 4, proxies=1, resolvers=1, window=20,
        ),
        sequenced(4), [offered(row, 0, "committed") for row in range(3)],
        offered(3, 0, "committed too_old committed conflict committed"),
        *[finished(0, 10 * number, "txn 0 committed %d 0" % (10 * number)) for number in range(1, 4)],
        finished(
            0, 40, "txn 0 committed 40 0", "txn 1 too_old 1007", "txn 2 committed 40 2", "txn 3 conflict 1020",
            "txn 4 committed 40 4",
        ),
        shown(0, 40),
    )
    yield case(
        "a read past the version behind a write of its batch", turns(
            sequence(0, written("b", 35), read("b", 35), read("c", 35)), offers(0, resolvers=1), finish(0), proxies=1,
            resolvers=1,
        ),
        sequenced(1), offered(0, 0, "committed conflict committed"),
        finished(0, 10, "txn 0 committed 10 0", "txn 1 conflict 1020", "txn 2 committed 10 2"), shown(0, 10),
    )


def refused_writes():
    """What a transaction that is refused wrote counts for nothing; too old comes before conflict."""
    yield case(
        "the write of a batch before that was in conflict",
        turns(
            sequence(0, written("b")), sequence(0, transaction(9, [one_key("b")], [one_key("d")])),
            sequence(0, read("d", 9)), offers(0, 1, 2, resolvers=1), [finish(0)] * 3, resolvers=1, proxies=1,
        ),
        sequenced(3), offered(0, 0, "committed"), offered(1, 0, "conflict"), offered(2, 0, "committed"),
        finished(0, 10, "txn 0 committed 10 0"), finished(0, 20, "txn 0 conflict 1020"),
        finished(0, 30, "txn 0 committed 30 0"), shown(0, 30),
    )
    yield case(
        "a read outside the window behind a write of its batch, and one inside",
        turns(sequence(0, written("a"), read("a", 39), read("a", 40)), offers(0), finish(0), step=140, proxies=1),
        sequenced(1, 140), offered(0, 0, "committed too_old conflict"), offered(0, 1),
        finished(0, 140, "txn 0 committed 140 0", "txn 1 too_old 1007", "txn 2 conflict 1020"), shown(0, 140),
    )
    state = transaction(5, [one_key("n")], [], [put(METADATA_VERSION, "v")], True)
    yield case(
        "a state transaction that the last resolver alone refuses",
        turns(
            move("m", "t", 1), sequence(0, written("n")), sequence(1, state), sequence(0), offers(0, 1, 2), finish(0),
            finish(1), finish(0),
        ),
        "move date 1", sequenced(3), offered(0, 0), offered(0, 1, "committed"), offered(1, 0, "committed", "10"),
        offered(1, 1, "conflict", "10"), offered_to_both(2, "none", "20"), finished(0, 10, "txn 0 committed 10 0"),
        finished(1, 20, "txn 0 conflict 1020"), finished(0, 30), shown(0, 30), shown(1, 20),
    )


# mutations, each with whether it makes a state transaction
STATES = [
    (put("\\xff", "v"), True), (put("\\xff\\x01\\xff", "v"), True), (put("\\xff\\x02", "v"), False),
    (put("\\xff\\x02a", "v"), False), (put("\\xff\\x03", "v"), True), (put("\\xfe\\xff", "v"), False),
    (put("a", "v"), False), (put("", ""), False), (stamp("\\xff/x", "\\x00" * 14), True),
    (stamp("\\xff\\x02/x", "\\x00" * 14), False), (stamp("k", "\\x00" * 14), False), (clear("a", "\\xff"), False),
    (clear("a", "\\xff\\x00"), True), (clear("a", "\\xff\\x02"), True), (clear("\\xff", "\\xff\\x02"), True),
    (clear("\\xff\\x02", "\\xff\\x03"), False), (clear("\\xff\\x02a", "\\xff\\x02b"), False),
    (clear("\\xff\\x02a", "\\xff\\x03"), False), (clear("\\xff\\x02", "\\xff\\x03\\x00"), True),
    (clear("\\xff\\x01\\xff", "\\xff\\x03"), True), (clear("\\xff\\x02", "\\xff\\x04"), True), (clear("", "a"), False),
    (clear("a", "\\xfe\\xff"), False), (clear("", "\\xff\\xff"), True),
]


def state_transactions():
    """A state transaction goes to every resolver, and another one without ranges to none."""
    for mutation, is_state in STATES:
        yield case(
            "%s" % mutation, turns(sequence(0, transaction(0, [], [], [mutation])), offers(0), finish(0), proxies=1),
            sequenced(1), offered_to_both(0, "committed" if is_state else "none"),
            finished(0, 10, "txn 0 committed 10 0", "mutation 0 0 tags none"), shown(0, 10),
        )


def locked(snapshot):
    """A lock by one proxy, a tag set by another with this snapshot, and an empty batch that is told of both."""
    tag = transaction(snapshot, [], [], [put_tag(SERVER_1, "\\x00\\x00\\x01")])
    return turns(
        sequence(0, LOCK, transaction(0, [], [one_key("a")], [put("a", "1")])), sequence(1, tag), sequence(0),
        offers(0, 1, 2), finish(0), finish(1), finish(0),
    )


def locks():
    """The lock is read once for each batch, and what meets it is neither committed nor applied by anyone."""
    first = finished(
        0, 10, "txn 0 committed 10 0", "mutation 0 0 tags none", "txn 1 committed 10 1", "mutation 1 0 tags none",
    )
    offered_first = [offered(0, 0, "committed committed"), offered(0, 1, "committed")]
    yield case(
        "a lock and a plain write of another proxy",
        turns(
            sequence(0, LOCK, transaction(0, [], [one_key("a")], [put("a", "1")])),
            sequence(1, transaction(0, [], [one_key("b")], [put("b", "1")])), offers(0, 1), finish(0), finish(1),
        ),
        sequenced(2), offered_first, offered(1, 0, "committed", "10"), offered(1, 1, "none", "10"), first,
        finished(1, 20, "txn 0 locked 1038"), shown(0, 10, locked="yes"), shown(1, 20, locked="yes"),
    )
    yield case(
        "a state transaction that meets the lock", locked(10),
        sequenced(3), offered_first, offered_to_both(1, "committed", "10"), offered_to_both(2, "none", "20"), first,
        finished(1, 20, "txn 0 locked 1038"), finished(0, 30), shown(0, 30, locked="yes"), shown(1, 20, locked="yes"),
    )
    yield case(
        "a state transaction that has not seen the lock", locked(9),
        sequenced(3), offered_first, offered(1, 0, "conflict", "10"), offered(1, 1, "committed", "10"),
        offered_to_both(2, "none", "20"), first, finished(1, 20, "txn 0 conflict 1020"), finished(0, 30),
        shown(0, 30, locked="yes"), shown(1, 20, locked="yes"),
    )


def outcomes():
    """Transactions that are committed, in conflict, too old and refused by the lock."""
    write_of_n = transaction(0, [], [one_key("n")], [put("n", "1")])
    yield case(
        "a write before a move, and a read after it",
        turns(
            sequence(0), sequence(0, write_of_n), move("m", "t", 1), sequence(0, read("n", 10)), offers(0, 1, 2),
            [finish(0)] * 3, ask=["n"], proxies=1,
        ),
        sequenced(2), "move date 21", sequenced(3)[2:], offered_to_both(0), offered(1, 0, "committed"), offered(1, 1),
        offered(2, 0, "conflict"), offered(2, 1, "committed"), finished(0, 10),
        finished(0, 20, "txn 0 committed 20 0", "mutation 0 0 tags none"), finished(0, 30, "txn 0 conflict 1020"),
        shown(0, 30, 'tags "n" none'),
    )
    tagged = transaction(0, [], [], [put_tag(SERVER_1, "\\x00\\x00\\x01"), put_servers("", SERVER_1), put("a", "1")], True)
    late = transaction(0, [["a", "b"]], [], [put("a", "2")])
    lock = transaction(0, [], [], [put(LOCKED, "L")], True)
    plain, aware = transaction(0, [], [["b", "c"]], [put("b", "3")]), transaction(0, [], [], [clear("b", "c")], True)
    routes = ['route "" 0:1', 'tags "a" 0:1']
    yield case(
        "all but a conflict, by two proxies in turn, with the tags of one server",
        turns(
            sequence(0, tagged), offers(0), finish(0), sequence(1, late), offers(1), finish(1), sequence(1, lock), offers(2),
            finish(1),
            sequence(0, plain, aware), offers(3), finish(0), ask=["a"], window=10,
        ),
        sequenced(1), offered_to_both(0, "committed"),
        finished(
            0, 10, "txn 0 committed 10 0", "mutation 0 0 tags 0:1", private_tag(0, 0, SERVER_1, "0:1"),
            "mutation 0 1 tags 0:1", "mutation 0 2 tags 0:1",
        ),
        sequenced(2)[1:], offered(1, 0, "too_old", "10"), offered(1, 1, "none", "10"), finished(1, 20, "txn 0 too_old 1007"),
        sequenced(3)[2:], offered_to_both(2, "committed"), finished(1, 30, "txn 0 committed 30 0", "mutation 0 0 tags 0:1"),
        sequenced(4)[3:], offered(3, 0, "committed", "20 30"), offered(3, 1, "none", "20 30"),
        finished(0, 40, "txn 0 locked 1038", "txn 1 committed 40 1", "mutation 1 0 tags 0:1"),
        shown(0, 40, *routes, locked="yes"), shown(1, 30, *routes, locked="yes"),
    )


def locks_among_rows():
    """A lock counts from the next batch on, and for the rows of both proxies."""
    lock = transaction(0, [], [], [put(LOCKED, "L")], True)
    yield case(
        "a lock, and a state transaction of its batch that is not lock aware",
        turns(sequence(0, lock, transaction(0, [], [], [put_servers("", SERVER_1)])), offers(0), finish(0), proxies=1),
        sequenced(1), offered_to_both(0, "committed committed"),
        finished(0, 10, "txn 0 committed 10 0", "mutation 0 0 tags none", "txn 1 committed 10 1", "mutation 1 0 tags none"),
        shown(0, 10, 'route "" none', locked="yes"),
    )
    yield case(
        "a lock, and then a batch of another proxy of which one transaction is lock aware",
        turns(
            sequence(0, lock),
            sequence(
                1, transaction(10, [], [], [put_servers("", SERVER_1)]),
                transaction(10, [], [], [put(METADATA_VERSION, "v")], True),
            ),
            sequence(0, transaction(0, [], [], [put("a", "1")])), offers(0, 1, 2), finish(0), finish(0),
        ),
        sequenced(3), offered_to_both(0, "committed"), offered_to_both(1, "committed committed", "10"),
        offered_to_both(2, "none", "20"), finished(0, 10, "txn 0 committed 10 0", "mutation 0 0 tags none"),
        finished(0, 30, "txn 0 locked 1038"), shown(0, 30, locked="yes", metadata_version='"v"'), shown(1, 0),
    )


def locks_of_both():
    """A lock holds for the rows of both proxies, and only one that every resolver committed."""
    lock = transaction(0, [], [], [put(LOCKED, "L")], True)
    yield case(
        "a row of keys that is set under the lock, of which both proxies learn",
        turns(
            sequence(0, lock), sequence(1, transaction(10, [], [], [put_servers("", SERVER_1)])), sequence(0),
            offers(0, 1, 2), finish(0), finish(1), finish(0),
        ),
        sequenced(3), offered_to_both(0, "committed"), offered_to_both(1, "committed", "10"),
        offered_to_both(2, "none", "20"), finished(0, 10, "txn 0 committed 10 0", "mutation 0 0 tags none"),
        finished(1, 20, "txn 0 locked 1038"), finished(0, 30), shown(0, 30, locked="yes"), shown(1, 20, locked="yes"),
    )
    yield case(
        "a lock that one resolver alone committed",
        turns(
            move("m", "t", 1), sequence(0, written("n")),
            sequence(1, transaction(5, [one_key("n")], [], [put(LOCKED, "L")], True)),
            sequence(0, transaction(0, [], [], [put("a", "1")])), offers(0, 1, 2), finish(0), finish(0),
        ),
        "move date 1", sequenced(3), offered(0, 0), offered(0, 1, "committed"), offered(1, 0, "committed", "10"),
        offered(1, 1, "conflict", "10"), offered_to_both(2, "none", "20"), finished(0, 10, "txn 0 committed 10 0"),
        finished(0, 30, "txn 0 committed 30 0", "mutation 0 0 tags none"), shown(0, 30), shown(1, 0),
    )


def told_rows():
    """A proxy is told what it has not seen, and ends with the same rows."""
    batches = [sequence(0, transaction(0, [], [], [put_servers(key, SERVER_1)])) for key in "abcde"]
    routes = ['route "%s" none' % key for key in "abcde"]
    own = [
        finished(0, 10 * number, "txn 0 committed %d 0" % (10 * number), "mutation 0 0 tags none") for number in range(1, 6)
    ]
    yield case(
        "five batches of one proxy, told to the other at once",
        turns(batches, offers(*range(5)), [finish(0)] * 5, sequence(1), offers(5), finish(1)),
        sequenced(5), *[offered_to_both(row, "committed") for row in range(5)], *own, sequenced(6)[5:],
        offered_to_both(5, "none", "10 20 30 40 50"), finished(1, 60), shown(0, 50, *routes), shown(1, 60, *routes),
    )
    yield case(
        "a request again, one before its turn, and one whose reply was acknowledged",
        turns(
            sequence(0), sequence(1), sequence(1), offer(0, 0), offer(0, 0), offer(2, 0), offer(0, 1), finish(0),
            sequence(0), offer(1, 0), offer(2, 0), offer(3, 0), offer(0, 0),
        ),
        sequenced(3), offered(0, 0), offered(0, 0, how="again"), "refused 30 Early 10", offered(0, 1), finished(0, 10),
        sequenced(4)[3:], offered(1, 0, "none", "10"), offered(2, 0), offered(3, 0, "none", "20 30"),
        "refused 31 GivenUp 10", shown(0, 10), shown(1, 0),
    )
    yield case(
        "two records of one proxy begun before the first is finished",
        turns(
            *[
                sequence(proxy, transaction(0, [], [], [put(METADATA_VERSION, value)], True))
                for proxy, value in ((0, "a"), (1, "b"), (0, "c"))
            ],
            offers(0, 1, 2), offer(0, 0), finish(0), finish(0),
        ),
        sequenced(3), offered_to_both(0, "committed"), offered_to_both(1, "committed", "10"),
        offered_to_both(2, "committed", "20"), offered(0, 0, "committed", how="again"),
        finished(0, 10, "txn 0 committed 10 0", "mutation 0 0 tags none"),
        finished(0, 30, "txn 0 committed 30 0", "mutation 0 0 tags none"), shown(0, 30, metadata_version='"c"'), shown(1, 0),
    )


def refused_events():
    """A refused event has its line and changes nothing, and the events behind it are carried out."""
    yield case(
        "each refusal", turns(
            move("a", "b", 2), finish(0), sequence(0), offer(0, 0), finish(0), offer(9, 0), offer(0, 2), offer(9, 2),
            sequence(2), finish(2), offer(0, 1), finish(0), finish(0),
        ),
        "refused 20 NoSuchResolver", "refused 42 OutOfTurn none", sequenced(1), offered(0, 0), "refused 43 MissingReply 1",
        "refused 35 NoSuchRow", "refused 33 WrongResolver", "refused 35 NoSuchRow", "refused 32 NoSuchProxy",
        "refused 32 NoSuchProxy", offered(0, 1), finished(0, 10), "refused 42 OutOfTurn none", shown(0, 10), shown(1, 0),
    )


def last_versions():
    """A step to a version past the last is refused, and other events go on."""
    half = 4611686018427387904
    yield case(
        "a step after which no version is left",
        turns(sequence(0), sequence(0), offer(0, 0), sequence(1), sequence(2), move("a", "b", 0), step=half),
        "sequence row 0 version %d" % half, "refused 51 VersionsEnd", offered(0, 0), "refused 51 VersionsEnd",
        "refused 32 NoSuchProxy", "move date %d" % (half + 1), shown(0, 0), shown(1, 0),
    )
    last = 2**63 - 1
    yield case(
        "the greatest version", turns(sequence(0), move("a", "b", 1), sequence(1), offers(0), finish(0), step=last),
        "sequence row 0 version %d" % last, "move date %d" % (last + 1), "refused 51 VersionsEnd", offered_to_both(0),
        finished(0, last), shown(0, last), shown(1, 0),
    )


def refused_finishes_and_offers():
    """A finish names the first resolver that has not judged, and an early offer the version of its resolver."""
    yield case(
        "the first resolver of those that have not judged",
        turns(sequence(0), finish(0), offer(0, 0), finish(0), resolvers=3, proxies=1), sequenced(1),
        "refused 43 MissingReply 0", offered(0, 0), "refused 43 MissingReply 1", shown(0, 0),
    )
    yield case(
        "early offers name the version of the resolver", turns(
            sequence(0), sequence(0), sequence(0), offer(1, 0), offer(0, 0), offer(2, 0), offer(1, 0), offer(2, 1),
            finish(0),
        ),
        sequenced(3), "refused 30 Early 0", offered(0, 0), "refused 30 Early 10", offered(1, 0), "refused 30 Early 0",
        "refused 43 MissingReply 1", shown(0, 0), shown(1, 0),
    )


def small_ones():
    """Scripts with little in them."""
    yield case("no events", turns(), shown(0, 0), shown(1, 0))
    yield case("one proxy and one resolver", turns(ask=["a"], proxies=1, resolvers=1), shown(0, 0, 'tags "a" none'))
    yield case("a move alone", turns(move("a", "b", 0), proxies=1), "move date 1", shown(0, 0))
    yield case("64 proxies and 64 resolvers", turns(proxies=64, resolvers=64), *[shown(proxy, 0) for proxy in range(64)])
    first = sequence(63, transaction(0, [], [], [put(METADATA_VERSION, "v")]), written("n"))
    yield case(
        "batches among 64 proxies and 64 resolvers", turns(
            move("m", "t", 63), first, offers(0, resolvers=64), finish(63), sequence(0, read("n", 5)),
            offers(1, resolvers=64), finish(0), proxies=64, resolvers=64,
        ),
        "move date 1", sequenced(1), [offered(0, resolver, "committed") for resolver in range(63)],
        offered(0, 63, "committed committed"),
        finished(63, 10, "txn 0 committed 10 0", "mutation 0 0 tags none", "txn 1 committed 10 1"), sequenced(2)[1:],
        [offered(1, resolver, unseen="10") for resolver in range(63)], offered(1, 63, "conflict", "10"),
        finished(0, 20, "txn 0 conflict 1020"), shown(0, 20, metadata_version='"v"'),
        *[shown(proxy, 0) for proxy in range(1, 63)], shown(63, 10, metadata_version='"v"'),
    )
    yield case(
        "an empty transaction is committed, and asks nobody",
        turns(sequence(0, transaction()), offers(0), finish(0), proxies=1), sequenced(1), offered_to_both(0),
        finished(0, 10, "txn 0 committed 10 0"), shown(0, 10),
    )
    unlock = transaction(0, [], [], [clear(LOCKED, LOCKED + "\\x00")], True)
    yield case(
        "a lock that is gone", turns(sequence(0, LOCK), sequence(0, unlock), offers(0, 1), finish(0), finish(0), proxies=1),
        sequenced(2), offered_to_both(0, "committed"), offered_to_both(1, "committed"),
        finished(0, 10, "txn 0 committed 10 0", "mutation 0 0 tags none"),
        finished(0, 20, "txn 0 committed 20 0", "mutation 0 0 tags none"), shown(0, 20),
    )


def last_numbers():
    """The greatest numbers of a script, where the cluster has no such proxy, resolver or row."""
    last = 2**63 - 1
    yield case(
        "the greatest numbers", turns(
            sequence(last), move("a", "b", last), offer(last, last), finish(last),
            sequence(0, transaction(last, [one_key("a")])), offer(0, last), offers(0), finish(0), proxies=1, window=10**9,
        ),
        "refused 32 NoSuchProxy", "refused 20 NoSuchResolver", "refused 35 NoSuchRow", "refused 32 NoSuchProxy",
        sequenced(1), "refused 33 WrongResolver", offered(0, 0, "committed"), offered(0, 1),
        finished(0, 10, "txn 0 committed 10 0"),
        shown(0, 10),
    )


def many_events():
    """A batch of one proxy for each key, and one of the other proxy that is told of them all:
    more text than one write takes.
    """
    count = 400
    keys = ["%060d" % number for number in range(count)]
    events = [
        [sequence(0, transaction(0, [], [], [put_servers(key, SERVER_1)], True)), offer(row, 0), finish(0)]
        for row, key in enumerate(keys)
    ]
    answers = [
        ["sequence row %d version %d" % (row, row + 1), offered(row, 0, "committed"),
         *finished(0, row + 1, "txn 0 committed %d 0" % (row + 1), "mutation 0 0 tags none")] for row in range(count)
    ]
    routes = ['route "%s" none' % key for key in keys] + ['tags "%s" none' % key for key in keys]
    versions = " ".join(str(row + 1) for row in range(count))
    yield case(
        "%d batches" % count,
        turns(*events, sequence(1), offer(count, 0), finish(1), ask=keys, resolvers=1, window=10, step=1),
        *answers, "sequence row %d version %d" % (count, count + 1), offered(count, 0, "none", versions),
        finished(1, count + 1), shown(0, count, *routes), shown(1, count + 1, *routes),
    )


def repeats():
    """A request that comes again gets the same reply at each of 64 resolvers."""
    state = transaction(0, [], [], [put(METADATA_VERSION, "v")], True)
    yield case(
        "a request again at each of 64 resolvers",
        turns(sequence(0, state), offers(0, resolvers=64), offers(0, resolvers=64), finish(0), proxies=1, resolvers=64),
        sequenced(1), [offered(0, it, "committed") for it in range(64)],
        [offered(0, it, "committed", how="again") for it in range(64)],
        finished(0, 10, "txn 0 committed 10 0", "mutation 0 0 tags none"), shown(0, 10, metadata_version='"v"'),
    )


CASES = (
    small_ones, repeats, stamps, moved_ranges, owners_in_the_window, verdicts, many_parts, refused_writes,
    state_transactions, locks, outcomes, locks_among_rows, locks_of_both, told_rows, refused_events,
    refused_finishes_and_offers, last_versions, last_numbers, many_events,
)
