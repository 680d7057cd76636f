"""Right fold scripts at the limits and at sizes where a body could give up, each with the lines that it must be answered.

The lines are worked out by hand, by a rule for each of many alike rows or transactions.
"""
from tests.scripts.common.script import KEY_SERVERS, METADATA_VERSION, SERVER_1, write
from tests.scripts.fold.right_cases import LOCK, head, script, tag

YES, NO = True, False


def key_of(number):
    return "k%04d" % number


def put(number):
    return {"set": [KEY_SERVERS + key_of(number), "\\x01" + SERVER_1 + "\\x00"]}


TAGGED = [tag(SERVER_1, "\\x00\\x00\\x01")]


def routes(numbers):
    return "".join('route "%s" 0:1\n' % key_of(number) for number in numbers)


def many_states():
    """Rows of many transactions, each of which one of 64 resolvers refuses or none."""
    for count in (3, 60, 1024):
        states = [(YES, TAGGED)] + [(NO, [put(it)], *verdicts(it)) for it in range(count)]
        fine = [it for it in range(count) if it % 3 == 0]
        yield (
            "%d transactions of a row, with 64 resolvers" % (count + 1), script(states, resolvers=64),
            head(10) + routes(fine),
        )


def verdicts(number):
    said = ["committed"] * 64
    said[number % 64] = ("committed", "conflict", "too_old")[number % 3]
    return said


def under_the_lock():
    """Rows of many transactions under the lock: those that are lock aware are let pass."""
    for count in (9, 60, 1024):
        states = [(it % 2 == 0, [put(it)]) for it in range(count)]
        text = head(20, "yes") + routes(range(0, count, 2))
        yield "%d transactions under the lock" % count, script([(YES, [*TAGGED, LOCK])], states), text


def rows_up_to_the_greatest_version():
    """4,096 rows and more, up to the greatest version."""
    for count in (4096, 5000):
        last = 2**63 - 1
        rows = [
            {"version": last - count + 1 + it, "states": [{
                "lock_aware": it % 2 == 0, "mutations": [{"set": [METADATA_VERSION, str(it)]}],
                "verdicts": ["conflict" if it % 5 == 4 else "committed"],
            }]} for it in range(count)
        ]
        latest = max(it for it in range(count) if it % 5 != 4)
        yield "%d rows" % count, write({"resolvers": 1, "rows": rows, "ask": []}), head(last, "no", '"%d"' % latest)


def many_mutations():
    """1,200 mutations of a transaction; a Clear of all rows but the ends; and the rows put again."""
    count = 1200
    puts, inner = (
        TAGGED + [put(it) for it in range(count)], {"clear": [KEY_SERVERS + key_of(1), KEY_SERVERS + key_of(count - 1)]},
    )
    ends = [0, count - 1]
    yield "%d rows of a transaction" % count, script([(NO, puts)]), head(10) + routes(range(count))
    yield "%d rows of a transaction, and a Clear" % count, script([(NO, [*puts, inner])]), head(10) + routes(ends)
    again = [put(it) for it in range(2, count, 100)]
    text = head(30) + routes(sorted([*ends, *range(2, count, 100)]))
    yield "%d rows, a Clear, and some rows again" % count, script([(NO, puts)], [(NO, [inner])], [(NO, again)]), text
    cleared = [{"clear": [KEY_SERVERS + key_of(it), KEY_SERVERS + key_of(it) + "\\x00"]} for it in range(count) if it % 7]
    yield (
        "%d rows, and a Clear of each but some" % count, script([(NO, puts)], [(NO, cleared)]),
        head(20) + routes(range(0, count, 7)),
    )
    twice = [{"set": [METADATA_VERSION, str(it)]} for it in range(5000)]
    yield "5,000 values of one row", script([(NO, twice)]), head(10, "no", '"4999"')


def many_tags():
    """A row with as many sources and destinations as there may be, each with a tag of its own; and as many asked keys."""
    servers = ["server%010d" % it for it in range(510)]
    ids = ["".join("\\x%02x" % (0x80 + byte) for byte in divmod(509 - it, 100)) for it in range(510)]
    tags = [tag(server, "\\x07" + spelled) for server, spelled in zip(servers, ids)]
    value = "\\xff%s\\xff%s" % ("".join(servers[:255]), "".join(servers[255:]))
    numbers = sorted((0x80 + high) * 256 + 0x80 + low for high, low in (divmod(it, 100) for it in range(510)))
    listed = " ".join("7:%d" % it for it in numbers)
    row = {"set": [KEY_SERVERS + "m", value]}
    text = 'route "m" %s\ntags "a" none\ntags "m" %s\n' % (listed, listed)
    yield "510 tags of a row", script([(NO, [*tags, row])], ask=["a", "m"]), head(10) + text
    yield (
        "510 tags that are set after their row", script([(NO, [row])], *[[(NO, [it])] for it in tags], ask=["a", "m"]),
        head(5110) + text,
    )
    asked = ["%05d" % it for it in range(5000)]
    yield "5,000 asked keys", script(ask=asked), head(0) + "".join('tags "%s" none\n' % key for key in asked)


def long_values():
    """Values and keys of the greatest length, of bytes that are printed as they are and of escapes."""
    for unit in ("v", "\\xff"):
        value = unit * 100_000
        mark = {"set": [METADATA_VERSION, value]}
        yield "a metadata version of 100,000 %s" % unit, script([(NO, [mark])]), head(10, "no", '"%s"' % value)
        key = unit * (10_000 - len("_/keyServers/"))
        row = {"set": [KEY_SERVERS + key, "\\x00\\x00"]}
        text = 'route "%s" none\ntags "%s" none\n' % (key, key)
        yield "a row's key of 10,000 bytes with %s" % unit, script([(NO, [row])], ask=[key]), head(10) + text


CASES = (many_states, under_the_lock, rows_up_to_the_greatest_version, many_mutations, many_tags, long_values)
