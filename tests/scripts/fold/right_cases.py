"""Right scripts, each with the lines that it must be answered, worked out by hand."""
from tests.scripts.common.script import (
    KEY_SERVERS, LISTING, LOCKED, METADATA_VERSION, SERVER_1, SERVER_2, SERVER_3, SERVER_TAG, write,
)

YES, NO = True, False
MARK, UNMARK = {"set": [METADATA_VERSION, "m"]}, {"clear": [METADATA_VERSION, METADATA_VERSION + "\\x00"]}
LOCK, EMPTY_LOCK, UNLOCK = {"set": [LOCKED, "L"]}, {"set": [LOCKED, ""]}, {"clear": [LOCKED, LOCKED + "\\x00"]}


def tag(server, text):
    return {"set": [SERVER_TAG + server, text]}


def row(key, sources=(), destinations=()):
    value = "\\x%02x%s\\x%02x%s" % (len(sources), "".join(sources), len(destinations), "".join(destinations))
    return {"set": [KEY_SERVERS + key, value]}


def clear_rows(begin, end):
    return {"clear": [KEY_SERVERS + begin, KEY_SERVERS + end]}


def script(*rows, ask=(), resolvers=1):
    """A script with rows 10, 20 and so on; a transaction is its lock-aware mark, its changes, and verdicts or none."""
    return write({"resolvers": resolvers, "ask": list(ask), "rows": [
        {"version": 10 * number, "states": [
            {"lock_aware": aware, "mutations": changes, "verdicts": list(verdicts or ["committed"] * resolvers)}
            for aware, changes, *verdicts in states
        ]}
        for number, states in enumerate(rows, 1)
    ]})


def head(version, locked="no", metadata_version="none"):
    return "version %d\nlocked %s\nmetadata_version %s\n" % (version, locked, metadata_version)


def locks():
    """The lock is read once for each row, and only what is not lock aware meets it."""
    marked, yes = '"m"', "yes"
    yield "no lock", script([(NO, [MARK])]), head(10, "no", marked)
    yield "a lock of the same transaction", script([(NO, [LOCK, MARK])]), head(10, yes, marked)
    yield "a lock of the same row", script([(YES, [LOCK]), (NO, [MARK])]), head(10, yes, marked)
    yield "a lock of the row before", script([(YES, [LOCK])], [(NO, [MARK])]), head(20, yes)
    yield "a lock of the row before, lock aware", script([(YES, [LOCK])], [(YES, [MARK])]), head(20, yes, marked)
    yield "an empty lock", script([(YES, [EMPTY_LOCK])], [(NO, [MARK])]), head(20, "no", marked)
    yield "an unlock of the same row", script([(YES, [LOCK])], [(YES, [UNLOCK]), (NO, [MARK])]), head(20)
    yield "an emptied lock of the same row", script([(YES, [LOCK])], [(YES, [EMPTY_LOCK]), (NO, [MARK])]), head(20)
    yield "an unlock of the row before", script([(YES, [LOCK])], [(YES, [UNLOCK])], [(NO, [MARK])]), head(30, "no", marked)
    yield "an unlock that the lock meets", script([(YES, [LOCK])], [(NO, [UNLOCK])], [(NO, [MARK])]), head(30, yes)
    yield "a lock that is not committed", script([(YES, [LOCK], "conflict")], [(NO, [MARK])]), head(20, "no", marked)
    yield "a lock behind rows without transactions", script([(YES, [LOCK])], [], [], [(NO, [MARK])]), head(40, yes)


def verdicts():
    """A transaction is let pass where every resolver committed it."""
    words = ("committed", "conflict", "too_old")
    for first in words:
        for last in words:
            value = '"m"' if (first, last) == ("committed", "committed") else "none"
            yield "%s and %s" % (first, last), script([(YES, [MARK], first, last)], resolvers=2), head(10, "no", value)
            yield (
                "%s and %s, then no mark" % (first, last), script([(YES, [MARK], first, last), (NO, [UNMARK])], resolvers=2),
                head(10),
            )
    for place in range(64):
        said = ["committed"] * place + ["too_old"] + ["committed"] * (63 - place)
        yield "resolver %d of 64" % place, script([(YES, [MARK], *said)], resolvers=64), head(10)


def tags():
    """Tags rise by locality and then by id, each stands once, and who has none adds none."""
    three = [tag(SERVER_1, "\\x01\\x00\\x00"), tag(SERVER_2, "\\x00\\x01,"), tag(SERVER_3, "\\x00\\x00\\xff")]
    for sources, destinations, listed in (
        ((), (), "none"),
        ((SERVER_1,), (), "1:0"),
        ((), (SERVER_1,), "1:0"),
        ((SERVER_1, SERVER_2), (), "0:300 1:0"),
        ((SERVER_1,), (SERVER_2,), "0:300 1:0"),
        ((SERVER_1,), (SERVER_1,), "1:0"),
        ((SERVER_1, SERVER_2, SERVER_3), (SERVER_1, SERVER_2), "0:255 0:300 1:0"),
        (("server0000000009",), (), "none"),
        ((SERVER_2, "server0000000009"), (), "0:300"),
    ):
        answer = head(10) + 'route "k" %s\ntags "k" %s\ntags "j" none\n' % (listed, listed)
        name = "sources %s, destinations %s" % (sources, destinations)
        yield name, script([(NO, [*three, row("k", sources, destinations)])], ask=["k", "j"]), answer
        yield (
            name + ", set before the tags", script([(NO, [row("k", sources, destinations), *three])], ask=["k", "j"]),
            answer,
        )
    equal = [tag(SERVER_1, "\\x03\\x01\\x02"), tag(SERVER_2, "\\x03\\x01\\x02"), row("", (SERVER_1, SERVER_2))]
    yield "two servers of one tag", script([(NO, equal)], ask=["a"]), head(10) + 'route "" 3:258\ntags "a" 3:258\n'
    last = [tag(SERVER_1, "\\x00\\x00\\x00"), tag(SERVER_2, "\\xff\\xff\\xff"), row("", (SERVER_1, SERVER_2))]
    yield (
        "the first tag and the last", script([(NO, last)], ask=["a"]),
        head(10) + 'route "" 0:0 255:65535\ntags "a" 0:0 255:65535\n',
    )


def tags_that_change():
    """The tags of a row are those that its servers have after the last row."""
    equal = [tag(SERVER_1, "\\x03\\x01\\x02"), tag(SERVER_2, "\\x03\\x01\\x02"), row("", (SERVER_1, SERVER_2))]
    gone = [{"clear": [SERVER_TAG + SERVER_1, SERVER_TAG + SERVER_2]}]
    yield "a tag that is gone", script([(NO, equal)], [(NO, gone)], ask=["a"]), head(20) + 'route "" 3:258\ntags "a" 3:258\n'
    changed = [tag(SERVER_1, "\\x00\\x00\\x05")]
    yield "a tag that changed", script([(NO, equal)], [(NO, changed)]), head(20) + 'route "" 0:5 3:258\n'
    later = [
        [(NO, [row("", [SERVER_1])])], [(NO, [tag(SERVER_1, "\\x00\\x00\\x01")])],
        [(NO, [row("m", [SERVER_1], [SERVER_2])])], [(NO, [tag(SERVER_2, "\\x00\\x00\\x00")])],
    ]
    answer = head(40) + 'route "" 0:1\nroute "m" 0:0 0:1\ntags "a" 0:1\ntags "m" 0:0 0:1\n'
    yield "tags in later rows than their servers", script(*later, ask=["a", "m"]), answer
    answer = head(50) + 'route "" none\nroute "m" none\ntags "a" none\ntags "m" none\n'
    all_tags = [{"clear": [SERVER_TAG, "\\xff/serverTag0"]}]
    yield "all tags gone, and their servers not", script(*later, [(NO, all_tags)], ask=["a", "m"]), answer


def listed_tags():
    """A row that lists tags has them, whatever tags servers have; a row of servers beside it has those of its servers."""
    both = [{"set": [KEY_SERVERS, LISTING]}, row("m", [SERVER_1])]
    answer = 'route "" 0:1 0:2 3:258\nroute "m" %s\ntags "a" 0:1 0:2 3:258\ntags "m" %s\n'
    yield (
        "listed tags, and a server without a tag", script([(NO, both)], ask=["a", "m"]),
        head(10) + answer % ("none", "none"),
    )
    given = [tag(SERVER_1, "\\x00\\x00\\x01"), tag(SERVER_2, "\\x00\\x00\\x05")]
    yield (
        "listed tags before tags of servers", script([(NO, both)], [(NO, given)], ask=["a", "m"]),
        head(20) + answer % ("0:1", "0:1"),
    )
    yield (
        "listed tags after tags of servers", script([(NO, given)], [(NO, both)], ask=["a", "m"]),
        head(20) + answer % ("0:1", "0:1"),
    )
    gone = {"clear": [SERVER_TAG, "\\xff/serverTag0"]}
    yield (
        "listed tags that stay when all tags of servers go", script([(NO, given + both)], [(NO, [gone])], ask=["a", "m"]),
        head(20) + answer % ("none", "none"),
    )
    twice = {"set": [KEY_SERVERS, LISTING[:-16] + "\\x01\\x00\\x00\\x01"]}
    yield "a tag in both lists", script([(NO, [twice])], ask=["a"]), head(10) + 'route "" 0:1 0:2\ntags "a" 0:1 0:2\n'
    no_tags = {"set": [KEY_SERVERS, "\\x00\\x00\\x00\\x00"]}
    yield (
        "two empty lists of tags", script([(NO, [*given, no_tags])], ask=["a"]), head(10) + 'route "" none\ntags "a" none\n',
    )
    yield (
        "a row of servers in place of listed tags, and back",
        script(
            [(NO, given + both)], [(NO, [row("", [SERVER_2])])], [(NO, [{"set": [KEY_SERVERS + "m", LISTING]}])],
            ask=["a", "m"],
        ),
        head(30) + 'route "" 0:5\nroute "m" 0:1 0:2 3:258\ntags "a" 0:5\ntags "m" 0:1 0:2 3:258\n',
    )
    yield (
        "a row of listed tags that is gone", script([(NO, given + both)], [(NO, [clear_rows("", "a")])], ask=["a", "m"]),
        head(20) + 'route "m" 0:1\ntags "a" none\ntags "m" 0:1\n',
    )


def routes():
    """A row has the keys from its own up to the next; a Clear takes its begin and not its end."""
    rows = [tag(SERVER_1, "\\x00\\x00\\x01"), row("b", (SERVER_1,)), row("m"), row("t", (SERVER_1,))]
    lines = {"b": 'route "b" 0:1\n', "m": 'route "m" none\n', "t": 'route "t" 0:1\n'}
    for begin, end, left in (
        ("", "b", "bmt"), ("", "b\\x00", "mt"), ("b", "m", "mt"), ("b\\x00", "m", "bmt"), ("b\\x00", "m\\x00", "bt"),
        ("b", "t", "t"), ("b", "t\\x00", ""), ("m", "\\xff", "b"), ("u", "z", "bmt"), ("", "\\xff\\xff", ""),
    ):
        answer = head(20) + "".join(lines[key] for key in left)
        yield "a Clear from %s to %s" % (begin, end), script([(NO, rows)], [(NO, [clear_rows(begin, end)])]), answer
    asked = [
        "", "a", "b", "b\\x00", "l\\xff", "m", "s", "t", "\\xff", "\\xff/keyServers/b", "\\xff\\xff\\xff", "k" * 20_000, "b",
        "b",
    ]
    owners = "--bbbmmttttbbb"
    answer = head(10) + "".join(lines[key] for key in "bmt")
    for key, owner in zip(asked, owners):
        answer += 'tags "%s" %s\n' % (key, "0:1" if owner in "bt" else "none")
    yield "keys of each row, asked in any order and twice", script([(NO, rows)], ask=asked), answer
    bytewise = [row(key) for key in ("\\xff", "a", "\\x80", "", "B", "\\x00", "ab", "\\x7f")]
    answer = head(10) + "".join(
        'route "%s" none\n' % key for key in ("", "\\x00", "B", "a", "ab", "\\x7f", "\\x80", "\\xff")
    )
    yield "rows in the order of unsigned bytes", script([(NO, bytewise)]), answer


def small_ones():
    """Scripts with little in them."""
    yield "nothing", script(), head(0)
    yield "a key without rows", script(ask=["a"]), head(0) + 'tags "a" none\n'
    yield "a row without transactions", script([]), head(10)
    yield "a transaction without changes", script([(NO, [])]), head(10)
    yield "an empty metadata version", script([(NO, [{"set": [METADATA_VERSION, ""]}])]), head(10, "no", '""')
    yield "a metadata version that is gone", script([(NO, [MARK, UNMARK])]), head(10)
    kept = [tag(SERVER_1, "\\x00\\x00\\x01"), row("", (SERVER_1,)), row("m"), LOCK, MARK]
    everything = {"clear": ["", "\\xff\\xff"]}
    yield "a Clear of all keys", script([(YES, kept)], [(YES, [everything])], ask=["z"]), head(20) + 'tags "z" none\n'
    yield "a metadata version set twice", script([(NO, [MARK, {"set": [METADATA_VERSION, "n"]}])]), head(10, "no", '"n"')


CASES = (small_ones, locks, verdicts, tags, tags_that_change, listed_tags, routes)
