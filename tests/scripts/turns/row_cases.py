"""Right turns scripts that set and clear rows of metadata: the tags of mutations, and private copies, worked out by hand."""
from tests.scripts.common.script import (
    KEY_SERVERS, LISTING, LOCKED, METADATA_VERSION, SERVER_1, SERVER_2, SERVER_3, SERVER_TAG,
)
from tests.scripts.turns.words import (
    case, clear, finish, finished, offer, offered, offered_to_both, offers, one_key, private, private_tag, put, put_servers,
    put_tag, sequence, sequenced, shown, stamp, transaction, turns,
)

SERVER_4 = "server0000000004"


def four_servers():
    """A batch that gives four servers their tags and keys, with two servers at one key."""
    tags = [
        put_tag(server, "\\x00\\x00\\x0%d" % number)
        for number, server in enumerate((SERVER_1, SERVER_2, SERVER_3, SERVER_4), 1)
    ]
    rows = [
        put_servers("", SERVER_1), put_servers("b", SERVER_2), put_servers("f", SERVER_1, SERVER_3),
        put_servers("q", SERVER_4),
    ]
    return transaction(0, [], [], tags + rows)


# what a proxy routes after it
FOUR_ROUTES = ['route "" 0:1', 'route "b" 0:2', 'route "f" 0:1 0:3', 'route "q" 0:4']
FOUR_FINISHED = finished(
    0, 10, "txn 0 committed 10 0",
    "mutation 0 0 tags 0:4", private_tag(0, 0, SERVER_1, "0:1"), "mutation 0 1 tags 0:4", private_tag(0, 1, SERVER_2, "0:2"),
    "mutation 0 2 tags 0:4", private_tag(0, 2, SERVER_3, "0:3"), "mutation 0 3 tags 0:4", private_tag(0, 3, SERVER_4, "0:4"),
    *["mutation 0 %d tags 0:4" % place for place in range(4, 8)],
)

# a lock and a metadata version, and a Clear of them and of all else
MARKED = transaction(0, [], [], [put(LOCKED, "L"), put(METADATA_VERSION, "v")], True)
ALL_CLEARED = transaction(0, [], [], [clear("", "\\xff\\xff")], True)


def tags():
    """Tags come from the metadata after the whole batch; a Clear has those of all keys of its range."""
    yield case(
        "a Clear over four servers, and a Set and a Clear of all rows",
        turns(
            sequence(0, four_servers()), sequence(0, transaction(0, [], [], [clear("a", "\\xff")])),
            sequence(0, transaction(0, [], [], [put("a", "1"), clear(KEY_SERVERS, "\\xff/keyServers0")], True)),
            offers(0, 1, 2), [finish(0)] * 3,
        ),
        sequenced(3), offered_to_both(0, "committed"), offered_to_both(1, "none"), offered_to_both(2, "committed"),
        FOUR_FINISHED, finished(0, 20, "txn 0 committed 20 0", "mutation 0 0 tags 0:1 0:2 0:3 0:4"),
        finished(0, 30, "txn 0 committed 30 0", "mutation 0 0 tags none", "mutation 0 1 tags none"), shown(0, 30),
        shown(1, 0),
    )
    yield case(
        "a Clear of all keys", turns(
            sequence(0, four_servers()), sequence(0, transaction(0, [], [], [clear("", "\\xff\\xff")], True)), offers(0, 1),
            finish(0), finish(0),
        ),
        sequenced(2), offered_to_both(0, "committed"), offered_to_both(1, "committed"), FOUR_FINISHED,
        finished(0, 20, "txn 0 committed 20 0", "mutation 0 0 tags none"), shown(0, 20), shown(1, 0),
    )
    yield case(
        "a Clear of all keys behind a lock and a metadata version, of which another proxy learns", turns(
            sequence(0, four_servers()), sequence(0, MARKED), sequence(0, ALL_CLEARED), sequence(1), offers(0, 1, 2, 3),
            [finish(0)] * 3, finish(1),
        ),
        sequenced(4), *[offered_to_both(row, "committed") for row in range(3)], offered_to_both(3, "none", "10 20 30"),
        FOUR_FINISHED, finished(0, 20, "txn 0 committed 20 0", "mutation 0 0 tags 0:4", "mutation 0 1 tags 0:4"),
        finished(0, 30, "txn 0 committed 30 0", "mutation 0 0 tags none"), finished(1, 40), shown(0, 30), shown(1, 40),
    )


def tags_at_borders():
    """A Set has the tags of its key, and a Clear those of each key of its range, just at the rows and beside them."""
    asked = [
        ("", "0:1"), ("a", "0:1"), ("a\\xff", "0:1"), ("b", "0:2"), ("b\\x00", "0:2"), ("e", "0:2"), ("f", "0:1 0:3"),
        ("q", "0:4"), ("\\xff\\xff\\xff", "0:4"),
    ]
    cleared = [
        (("a", "b"), "0:1"), (("b", "b\\x00"), "0:2"), (("b", "f"), "0:2"), (("b", "f\\x00"), "0:1 0:2 0:3"),
        (("c", "d"), "0:2"), (("c", "q"), "0:1 0:2 0:3"), (("p", "z"), "0:1 0:3 0:4"),
    ]
    sets = transaction(0, [], [], [put(key, "1") for key, _ in asked[:-1]] + [clear(*ends) for ends, _ in cleared])
    listed = [found for _, found in asked[:-1] + cleared]
    yield case(
        "a mutation at each border", turns(
            sequence(0, four_servers()), sequence(0, sets), offers(0, 1), finish(0), finish(0),
            ask=[key for key, _ in asked], proxies=1,
        ),
        sequenced(2), offered_to_both(0, "committed"), offered_to_both(1, "none"), FOUR_FINISHED,
        finished(0, 20, "txn 0 committed 20 0", *["mutation 0 %d tags %s" % pair for pair in enumerate(listed)]),
        shown(0, 20, *FOUR_ROUTES, *['tags "%s" %s' % pair for pair in asked]),
    )


def listed_tags():
    """A row that lists tags has them, whatever tags servers get; a Clear has those of rows of both forms."""
    rows = transaction(
        0, [], [], [put(KEY_SERVERS, LISTING), put_servers("m", SERVER_1), put("a", "1"), put("z", "1")], True,
    )
    tagged = transaction(
        0, [], [], [put("z", "2"), put_tag(SERVER_1, "\\x00\\x00\\x07"), clear("a", "z"), put("a", "2")], True,
    )
    joined = transaction(0, [], [], [put(KEY_SERVERS + "m", LISTING), put("z", "3"), clear("a", "z")], True)
    routes = ['route "" 0:1 0:2 3:258', 'route "m" %s']
    yield case(
        "listed tags, and the tag of a server beside them",
        turns(
            sequence(0, rows), offers(0), finish(0), sequence(1, tagged), offers(1), finish(1), sequence(0, joined),
            offers(2), finish(0), ask=["b", "y"],
        ),
        "sequence row 0 version 10", offered_to_both(0, "committed"),
        finished(
            0, 10, "txn 0 committed 10 0", "mutation 0 0 tags none", "mutation 0 1 tags none",
            "mutation 0 2 tags 0:1 0:2 3:258", "mutation 0 3 tags none",
        ),
        "sequence row 1 version 20", offered_to_both(1, "committed", "10"),
        finished(
            1, 20, "txn 0 committed 20 0", "mutation 0 0 tags 0:7", "mutation 0 1 tags 0:7",
            private_tag(0, 1, SERVER_1, "0:7"), "mutation 0 2 tags 0:1 0:2 0:7 3:258", "mutation 0 3 tags 0:1 0:2 3:258",
        ),
        "sequence row 2 version 30", offered_to_both(2, "committed", "20"),
        finished(
            0, 30, "txn 0 committed 30 0", *["mutation 0 %d tags 0:1 0:2 3:258" % place for place in range(3)],
        ),
        shown(0, 30, routes[0], routes[1] % "0:1 0:2 3:258", 'tags "b" 0:1 0:2 3:258', 'tags "y" 0:1 0:2 3:258'),
        shown(1, 20, routes[0], routes[1] % "0:7", 'tags "b" 0:1 0:2 3:258', 'tags "y" 0:7'),
    )


# the keys split at `m`, in a batch of three transactions, and what a proxy routes then
SPLIT = [
    transaction(0, [], [], [put("a", "1")]),
    transaction(0, [], [], [put_tag(SERVER_1, "\\x00\\x00\\x01"), put_tag(SERVER_2, "\\x00\\x00\\x02")], True),
    transaction(0, [], [], [put_servers("", SERVER_1), put_servers("m", SERVER_2)], True),
]
ALL_TO_1, REST_TO_1, REST_TO_2 = 'route "" 0:1', 'route "m" 0:1', 'route "m" 0:2'
WRITTEN, JOINED, NOTHING = put("z", "1"), clear(KEY_SERVERS + "m", KEY_SERVERS + "n"), put(METADATA_VERSION, "v")

# what another proxy changes and then the own batch, the tags of each of its mutations, and the routes after it
AFTER_THE_SPLIT = {
    "a key after a boundary": (NOTHING, [NOTHING, WRITTEN], ["0:2", "0:2"], [ALL_TO_1, REST_TO_2]),
    "tags after a Clear of the batch": (NOTHING, [WRITTEN, JOINED, WRITTEN], ["0:1", "0:1", "0:1"], [ALL_TO_1]),
    "a Set after a Clear": (
        NOTHING, [JOINED, put_servers("m", SERVER_1), WRITTEN], ["0:1", "0:1", "0:1"], [ALL_TO_1, REST_TO_1],
    ),
    "a Set before a Clear": (NOTHING, [put_servers("m", SERVER_1), JOINED, WRITTEN], ["0:1", "0:1", "0:1"], [ALL_TO_1]),
    "a Clear of another proxy": (JOINED, [NOTHING, WRITTEN], ["0:1", "0:1"], [ALL_TO_1]),
    "a Set after a Clear of another proxy": (
        JOINED, [put_servers("m", SERVER_2), WRITTEN], ["0:2", "0:2"], [ALL_TO_1, REST_TO_2],
    ),
    "Clears of both": (JOINED, [clear(SERVER_TAG, "\\xff/serverTag0"), WRITTEN], ["none", "none"], ['route "" none']),
}


# a Set of a server's tag and of what servers have, and what is printed of it, at its place
SERVER_KEYS, SERVER_0 = "\\xff/serverKeys/", "\\x00" * 15 + "/"
TAG_1, TAG_2 = put_tag(SERVER_1, "\\x00\\x00\\x01"), put_tag(SERVER_1, "\\x03\\x01\\x02")
KEYS_1, KEYS_2 = (put(SERVER_KEYS + server + "/m", "1") for server in (SERVER_1, SERVER_2))
COPY_OF_KEYS = (SERVER_KEYS + SERVER_1 + "/m", "0:1")
COPY_OF_TAG_1, COPY_OF_TAG_2 = (SERVER_TAG + SERVER_1, "0:1"), (SERVER_TAG + SERVER_1, "3:258")

# the mutations of a transaction, and the key and the tag of the private copy of each, if it has one
COPIES = {
    "a server with a tag and one without": [(TAG_1, COPY_OF_TAG_1), (KEYS_1, COPY_OF_KEYS), (KEYS_2, None)],
    "keys before the tag": [(KEYS_1, COPY_OF_KEYS), (TAG_1, COPY_OF_TAG_1), (KEYS_2, None)],
    "keys between two tags": [
        (TAG_1, COPY_OF_TAG_1), (KEYS_1, (SERVER_KEYS + SERVER_1 + "/m", "3:258")), (TAG_2, COPY_OF_TAG_2),
    ],
    "a tag that is cleared": [(TAG_1, COPY_OF_TAG_1), (KEYS_1, None), (clear(SERVER_TAG, "\\xff/serverTag0"), None)],
    "a tag that is cleared and set again": [
        (TAG_1, COPY_OF_TAG_1), (clear(SERVER_TAG, "\\xff/serverTag0"), None),
        (KEYS_1, (SERVER_KEYS + SERVER_1 + "/m", "3:258")), (TAG_2, COPY_OF_TAG_2),
    ],
    "bytes without a character of their own": [
        (TAG_1, COPY_OF_TAG_1),
        (put(SERVER_KEYS + SERVER_1 + "/\\x20\\x22\\x5c", "1"), (SERVER_KEYS + SERVER_1 + "/\\x20\\x22\\x5c", "0:1")),
    ],
    "a Clear of keys": [(TAG_1, COPY_OF_TAG_1), (clear(SERVER_KEYS, "\\xff/serverKeys0"), None)],
    "a slash and nothing after it": [
        (TAG_1, COPY_OF_TAG_1), (put(SERVER_KEYS + SERVER_1 + "/", ""), (SERVER_KEYS + SERVER_1 + "/", "0:1")),
    ],
    "slashes in the id": [
        (put_tag(SERVER_0, "\\x00\\x00\\x01"), (SERVER_TAG + SERVER_0, "0:1")),
        (put(SERVER_KEYS + SERVER_0 + "/", "1"), (SERVER_KEYS + SERVER_0 + "/", "0:1")),
        (put(SERVER_KEYS + SERVER_0, "1"), None),
    ],
    "a key without a slash": [(TAG_1, COPY_OF_TAG_1), (put(SERVER_KEYS + SERVER_1, "1"), None)],
    "a byte in place of the slash": [(TAG_1, COPY_OF_TAG_1), (put(SERVER_KEYS + SERVER_1 + "0m", "1"), None)],
    "ids of 15 and of 17 bytes": [
        (TAG_1, COPY_OF_TAG_1), (put(SERVER_KEYS + SERVER_1[:-1] + "/m", "1"), None),
        (put(SERVER_KEYS + SERVER_1 + "1/m", "1"), None),
    ],
    "a stamp of keys": [
        (TAG_1, COPY_OF_TAG_1),
        (stamp(SERVER_KEYS + SERVER_1 + "/m", "\\x00" * 14), COPY_OF_KEYS),
    ],
}


def private_copies():
    """A Set of what a server has, or of its tag, has a copy with the tag after the whole batch, if the server has one."""
    for name, pairs in COPIES.items():
        printed = []
        for place, (_, copy) in enumerate(pairs):
            printed += ["mutation 0 %d tags none" % place, *([private(0, place, *copy)] if copy else [])]
        yield case(
            name,
            turns(
                sequence(0, transaction(0, [], [], [mutation for mutation, _ in pairs])), offer(0, 0), finish(0), proxies=1,
                resolvers=1,
            ),
            sequenced(1), offered(0, 0, "committed"), finished(0, 10, "txn 0 committed 10 0", *printed), shown(0, 10),
        )


def copies_by_earlier_tags():
    """The tag of a copy may be one that another proxy or an earlier batch set."""
    told, own = (transaction(0, [], [], [mutation], True) for mutation in (TAG_2, KEYS_1))
    yield case(
        "copies of its own mutations alone, by a tag that another proxy set",
        turns(sequence(0, told), sequence(1, own), sequence(0), offers(0, 1, 2), finish(1), finish(0), finish(0)),
        sequenced(3), offered_to_both(0, "committed"), offered_to_both(1, "committed", "10"),
        offered_to_both(2, unseen="20"),
        finished(
            1, 20, "txn 0 committed 20 0", "mutation 0 0 tags none", private(0, 0, SERVER_KEYS + SERVER_1 + "/m", "3:258"),
        ),
        finished(0, 10, "txn 0 committed 10 0", "mutation 0 0 tags none", private(0, 0, *COPY_OF_TAG_2)),
        finished(0, 30), shown(0, 30), shown(1, 20),
    )
    first = transaction(0, [], [one_key("a")], [TAG_1], True)
    late = transaction(0, [one_key("a")], [], [TAG_2], True)
    yield case(
        "a copy by the tag before a transaction that is refused",
        turns(
            sequence(0, first), sequence(0, late, transaction(0, [], [], [KEYS_1])), offer(0, 0), offer(1, 0), finish(0),
            finish(0), proxies=1, resolvers=1,
        ),
        sequenced(2), offered(0, 0, "committed"), offered(1, 0, "conflict committed"),
        finished(0, 10, "txn 0 committed 10 0", "mutation 0 0 tags none", private(0, 0, *COPY_OF_TAG_1)),
        finished(
            0, 20, "txn 0 conflict 1020", "txn 1 committed 20 1", "mutation 1 0 tags none", private(1, 0, *COPY_OF_KEYS),
        ),
        shown(0, 20),
    )


def no_copy_and_a_long_one():
    """Listed tags give no copy, and the longest key has one."""
    yield case(
        "no copy for a server without a tag, though all keys have listed tags",
        turns(
            sequence(0, transaction(0, [], [], [put(KEY_SERVERS, LISTING), KEYS_1])), offer(0, 0), finish(0), proxies=1,
            resolvers=1,
        ),
        sequenced(1), offered(0, 0, "committed"),
        finished(0, 10, "txn 0 committed 10 0", *["mutation 0 %d tags 0:1 0:2 3:258" % place for place in range(2)]),
        shown(0, 10, 'route "" 0:1 0:2 3:258'),
    )
    longest = SERVER_KEYS + SERVER_1 + "/" + "k" * (10_000 - 30)
    yield case(
        "a copy of the longest key",
        turns(
            sequence(0, transaction(0, [], [], [TAG_1, put(longest, "v" * 100_000)])), offer(0, 0), finish(0), proxies=1,
            resolvers=1,
        ),
        sequenced(1), offered(0, 0, "committed"),
        finished(
            0, 10, "txn 0 committed 10 0", "mutation 0 0 tags none", private(0, 0, *COPY_OF_TAG_1), "mutation 0 1 tags none",
            private(0, 1, longest, "0:1"),
        ),
        shown(0, 10),
    )


def clears_and_sets():
    """The metadata after the rows of two proxies, of which one splits the keys and the other one joins them or not."""
    for name, (told, own, listed, routes) in AFTER_THE_SPLIT.items():
        mark = '"v"' if NOTHING in [told, *own] else "none"
        yield case(
            name,
            turns(
                sequence(0, *SPLIT), sequence(1, transaction(0, [], [], [told], True)),
                sequence(0, transaction(0, [], [], own, True)), offers(0, 1, 2), finish(0), finish(0),
            ),
            sequenced(3), offered(0, 0, "committed committed"), offered(0, 1, "committed committed"),
            offered_to_both(1, "committed", "10"), offered_to_both(2, "committed", "20"),
            finished(
                0, 10, "txn 0 committed 10 0", "mutation 0 0 tags 0:1", "txn 1 committed 10 1",
                "mutation 1 0 tags 0:2", private_tag(1, 0, SERVER_1, "0:1"), "mutation 1 1 tags 0:2",
                private_tag(1, 1, SERVER_2, "0:2"), "txn 2 committed 10 2", "mutation 2 0 tags 0:2", "mutation 2 1 tags 0:2",
            ),
            finished(0, 30, "txn 0 committed 30 0", *["mutation 0 %d tags %s" % pair for pair in enumerate(listed)]),
            shown(0, 30, *routes, metadata_version=mark), shown(1, 0),
        )


CASES = (
    tags, tags_at_borders, listed_tags, private_copies, copies_by_earlier_tags, no_copy_and_a_long_one, clears_and_sets,
)
