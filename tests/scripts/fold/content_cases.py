"""Scripts of the right form whose keys, values, ranges or rows are at fault, or stand just within their limits."""
from tests.scripts.common.forms import FOLD
from tests.scripts.common.script import (
    BAD_ROW, EMPTY_RANGE, KEY_OUTSIDE, KEY_SERVERS, KEY_TOO_LONG, LOCKED, METADATA_VERSION, SERVER_1, SERVER_2, SERVER_3,
    SERVER_TAG, VALUE_TOO_LONG, write,
)

LAST_KEY = "\\xff\\xfe" + "\\xff" * 9998
TWO_SOURCES = "\\x02" + SERVER_1 + SERVER_2 + "\\x01" + SERVER_3


def tags(sources=(), destinations=()):
    """The value of a keyServers row that lists tags, each given as one number: 65,536 times the locality, and the id."""
    lists = [bytes([len(some)]) + b"".join(tag.to_bytes(3, "big") for tag in some) for some in (sources, destinations)]
    return "".join(
        "\\x%02x" % byte if not 0x21 <= byte <= 0x7E or byte in b'"\\' else chr(byte) for byte in b"\0\0" + b"".join(lists)
    )


def set_at_row(value):
    return {"set": [KEY_SERVERS + "m", value]}


def set_tag(value):
    return {"set": [SERVER_TAG + SERVER_2, value]}


# changes with one fault each
FAULTS = {
    "a key of 10,001 bytes": ({"set": ["k" * 10001, "1"]}, KEY_TOO_LONG),
    "a system key of 10,001 bytes": ({"set": ["\\xff" + "k" * 10000, "1"]}, KEY_TOO_LONG),
    "a keyServers key of 10,001 bytes": ({"set": [KEY_SERVERS + "k" * 9988, "\\x00\\x00"]}, KEY_TOO_LONG),
    "a long begin": ({"clear": ["k" * 10001, "z"]}, KEY_TOO_LONG),
    "a long end": ({"clear": ["a", "k" * 10002]}, KEY_TOO_LONG),
    "a value of 100,001 bytes": ({"set": ["k", "v" * 100001]}, VALUE_TOO_LONG),
    "a value of 100,001 escapes": ({"set": ["k", "\\x00" * 100001]}, VALUE_TOO_LONG),
    "a lock of 100,001 bytes": ({"set": [LOCKED, "v" * 100001]}, VALUE_TOO_LONG),
    "a metadata version of 100,001 bytes": ({"set": [METADATA_VERSION, "v" * 100001]}, VALUE_TOO_LONG),
    "a key at the end of the key space": ({"set": ["\\xff\\xff", "1"]}, KEY_OUTSIDE),
    "a key behind the end of the key space": ({"set": ["\\xff\\xff\\x00", "1"]}, KEY_OUTSIDE),
    "a key past all": ({"set": ["\\xff" * 10000, "1"]}, KEY_OUTSIDE),
    "a begin at the end of the key space": ({"clear": ["\\xff\\xff", "\\xff\\xff"]}, KEY_OUTSIDE),
    "a begin behind the end of the key space": ({"clear": ["\\xff\\xffa", "b"]}, KEY_OUTSIDE),
    "an end past the key space": ({"clear": ["a", "\\xff\\xff\\x00"]}, KEY_OUTSIDE),
    "an end past the key space, below its begin": ({"clear": ["\\xff\\xffb", "\\xff\\xffa"]}, KEY_OUTSIDE),
    "no begin and no end": ({"clear": ["", ""]}, EMPTY_RANGE),
    "equal ends": ({"clear": ["a", "a"]}, EMPTY_RANGE),
    "ends the wrong way round": ({"clear": ["b", "a"]}, EMPTY_RANGE),
    "an end that is a beginning of the begin": ({"clear": ["a\\x00", "a"]}, EMPTY_RANGE),
    "ends that compare by unsigned bytes": ({"clear": ["\\x80", "\\x7f"]}, EMPTY_RANGE),
    "an empty keyServers value": (set_at_row(""), BAD_ROW),
    "a keyServers value without its second count": (set_at_row("\\x01" + SERVER_1), BAD_ROW),
    "a first count of 255 alone": (set_at_row("\\xff"), BAD_ROW),
    "sources that do not rise": (set_at_row("\\x02" + SERVER_2 + SERVER_1 + "\\x00"), BAD_ROW),
    "equal sources": (set_at_row("\\x02" + SERVER_1 + SERVER_1 + "\\x00"), BAD_ROW),
    "destinations that do not rise": (set_at_row("\\x00\\x02" + SERVER_2 + SERVER_1), BAD_ROW),
    "equal destinations": (set_at_row("\\x00\\x02" + SERVER_1 + SERVER_1), BAD_ROW),
    "sources that fall at last": (set_at_row("\\x03" + SERVER_1 + SERVER_3 + SERVER_2 + "\\x00"), BAD_ROW),
    "no servers and a byte, which counts no tags": (set_at_row("\\x00\\x00\\x00"), BAD_ROW),
    "a count of tags alone": (set_at_row("\\x00\\x00\\x01"), BAD_ROW),
    "source tags that do not rise": (set_at_row(tags([2, 1])), BAD_ROW),
    "equal source tags": (set_at_row(tags([1, 1])), BAD_ROW),
    "destination tags that do not rise": (set_at_row(tags([], [2, 1])), BAD_ROW),
    "equal destination tags": (set_at_row(tags([], [1, 1])), BAD_ROW),
    "tags that rise by their ids alone": (set_at_row(tags([2 * 65536 + 1, 65536 + 2])), BAD_ROW),
    "tags that fall before they end": (set_at_row("\\x00\\x00\\x03\\x00\\x00\\x02\\x00\\x00\\x01"), BAD_ROW),
    "a byte after no tags": (set_at_row(tags() + "\\x00"), BAD_ROW),
    "a byte after the destination tags": (set_at_row(tags([1], [2]) + "\\x00"), BAD_ROW),
    "a tag after the destination tags": (set_at_row(tags([1], [2]) + "\\x00\\x00\\x03"), BAD_ROW),
    "a byte after the destinations": (set_at_row(TWO_SOURCES + "\\x00"), BAD_ROW),
    "a server after the destinations": (set_at_row(TWO_SOURCES + SERVER_1), BAD_ROW),
    "a bad value of the first keyServers row": ({"set": [KEY_SERVERS, "\\x00"]}, BAD_ROW),
    "an empty tag": (set_tag(""), BAD_ROW),
    "a tag of one byte": (set_tag("\\x00"), BAD_ROW),
    "a tag of two bytes": (set_tag("\\x00\\x01"), BAD_ROW),
    "a tag of four bytes": (set_tag("\\x00\\x00\\x01\\x00"), BAD_ROW),
}

# a fault of each number, and of each kind of change
SOME = [
    "a key of 10,001 bytes", "a long end", "a value of 100,001 bytes", "a key at the end of the key space",
    "an end past the key space", "equal ends", "sources that do not rise", "a tag of two bytes",
]

LONG_VALUE, LONG_BEGIN, LONG_END = "v" * 100001, "k" * 10001, "k" * 10002
OUTSIDE, LONG_OUTSIDE = "\\xff\\xffa", "\\xff\\xff" + "k" * 10000
# changes with two faults each: the lesser number is answered
TWO_FAULTS = [
    ({"set": [LONG_BEGIN, LONG_VALUE]}, KEY_TOO_LONG),
    ({"set": [LONG_OUTSIDE, "1"]}, KEY_TOO_LONG),
    ({"set": [LONG_OUTSIDE, LONG_VALUE]}, KEY_TOO_LONG),
    ({"set": [OUTSIDE, LONG_VALUE]}, VALUE_TOO_LONG),
    ({"set": [KEY_SERVERS + "k" * 9988, "\\x00"]}, KEY_TOO_LONG),
    ({"set": [KEY_SERVERS + "k" * 9988, LONG_VALUE]}, KEY_TOO_LONG),
    ({"set": [KEY_SERVERS + "m", LONG_VALUE]}, VALUE_TOO_LONG),
    ({"set": [SERVER_TAG + SERVER_1, LONG_VALUE]}, VALUE_TOO_LONG),
    ({"clear": [LONG_BEGIN, LONG_END]}, KEY_TOO_LONG),
    ({"clear": [LONG_BEGIN, "a"]}, KEY_TOO_LONG),
    ({"clear": ["z", LONG_END]}, KEY_TOO_LONG),
    ({"clear": [LONG_OUTSIDE, "a"]}, KEY_TOO_LONG),
    ({"clear": [OUTSIDE, LONG_END]}, KEY_TOO_LONG),
    ({"clear": ["a", LONG_OUTSIDE]}, KEY_TOO_LONG),
    ({"clear": [OUTSIDE, "a"]}, KEY_OUTSIDE),
    ({"clear": [OUTSIDE, OUTSIDE]}, KEY_OUTSIDE),
    ({"clear": ["\\xff\\xff", "\\xff\\xfe"]}, KEY_OUTSIDE),
]

# changes without a fault, close to the limits, that change nothing which is printed
FINE = {
    "a key of 10,000 bytes": {"set": ["k" * 10000, "1"]},
    "a key of 10,000 escapes": {"set": ["\\x00" * 10000, "1"]},
    "a value of 100,000 bytes": {"set": ["k", "v" * 100000]},
    "a value of 100,000 escapes": {"set": ["k", "\\xff" * 100000]},
    "a key and a value at their limits": {"set": ["k" * 10000, "v" * 100000]},
    "the last key": {"set": [LAST_KEY, ""]},
    "the first key past the stored system keys": {"set": ["\\xff\\x03", ""]},
    "no key and no value": {"set": ["", ""]},
    "a begin of 10,000 bytes": {"clear": ["k" * 10000, "z"]},
    "an end of 10,001 bytes": {"clear": ["jj", "k" * 10001]},
    "both ends of 10,000 bytes and more": {"clear": ["k" * 10000, "k" * 10001]},
    "the range of one key": {"clear": ["k", "k\\x00"]},
    "a range up to the system keys": {"clear": ["", "\\xff"]},
    "a range behind the kept rows": {"clear": ["\\xff/t", "\\xff\\xff"]},
    "the range of the last key": {"clear": [LAST_KEY, LAST_KEY + "\\x00"]},
    "a range between bytes of half": {"clear": ["\\x7f", "\\x80"]},
    "a serverTag key of no bytes more": {"set": [SERVER_TAG, "\\x00"]},
    "a serverTag key of 15 bytes more": {"set": [SERVER_TAG + SERVER_1[1:], "\\x00"]},
    "a serverTag key of 17 bytes more": {"set": [SERVER_TAG + SERVER_1 + "1", "\\x00"]},
    "a key before the keyServers rows": {"set": ["\\xff/keyServers", "\\x00"]},
    "a key behind the keyServers rows": {"set": ["\\xff/keyServers0", "\\x00"]},
    "a key of other letters": {"set": ["\\xff/keyservers/", "\\x00"]},
    "a key behind the lock": {"set": [LOCKED + "\\x00", "L"]},
    "a key before the lock": {"set": [LOCKED[:-1], "L"]},
    "an empty lock": {"set": [LOCKED, ""]},
    "a tag of a server without keys": {"set": [SERVER_TAG + SERVER_2, "\\xff\\xff\\xff"]},
}


def with_change(change):
    """The good script with another last change of its first row."""
    return write(FOLD.changed(("rows", 0, "states", 0, "mutations", 2), change))


def one_fault():
    for name, (change, answer) in FAULTS.items():
        yield name, with_change(change), answer


def no_fault():
    for name, change in FINE.items():
        yield name, with_change(change), FOLD.answer
    without = FOLD.answer.replace('route "" 0:1\n', "").replace('tags "a" 0:1', 'tags "a" none')
    yield "a range to the end of the key space", with_change({"clear": ["zz", "\\xff\\xff"]}), without
    yield "all keys", with_change({"clear": ["", "\\xff\\xff"]}), without
    far = KEY_SERVERS + "k" * 9987
    more = 'route "" 0:1\nroute "%s" none\n' % ("k" * 9987)
    yield (
        "a keyServers key of 10,000 bytes", with_change({"set": [far, "\\x00\\x00"]}),
        FOLD.answer.replace('route "" 0:1\n', more),
    )
    rows = 'route "" 0:1\nroute "m" 0:1\n'
    yield "destinations alone", with_change(set_at_row("\\x00\\x01" + SERVER_1)), FOLD.answer.replace('route "" 0:1\n', rows)
    yield "equal lists", with_change(set_at_row(("\\x01" + SERVER_1) * 2)), FOLD.answer.replace('route "" 0:1\n', rows)
    yield (
        "a later source", with_change(set_at_row("\\x01" + SERVER_2 + "\\x01" + SERVER_1)),
        FOLD.answer.replace('route "" 0:1\n', rows),
    )


def servers(count):
    return "".join("server%010d" % number for number in range(1, count + 1))


def many_servers():
    """255 servers in a list, and values cut or made longer at each of their bytes."""
    rows = FOLD.answer.replace('route "" 0:1\n', 'route "" 0:1\nroute "m" 0:1\n')
    yield "255 sources", with_change(set_at_row("\\xff" + servers(255) + "\\x00")), rows
    yield "255 destinations", with_change(set_at_row("\\x00\\xff" + servers(255))), rows
    yield "255 of both", with_change(set_at_row(("\\xff" + servers(255)) * 2)), rows
    for first, second in ((254, 0), (0, 254), (254, 255), (255, 254)):
        value = "\\xff%s\\xff%s" % (servers(first), servers(second))
        yield "%d and %d servers for 255" % (first, second), with_change(set_at_row(value)), BAD_ROW
    yield "256 servers for 0", with_change(set_at_row("\\x00" + servers(256) + "\\x00")), BAD_ROW


def cut_rows():
    """Each proper beginning of a keyServers value and of a tag."""
    units = ["\\x02", *SERVER_1, *SERVER_2, "\\x02", *SERVER_1, *SERVER_3]
    for length in range(len(units)):
        yield "a keyServers value cut at %d" % length, with_change(set_at_row("".join(units[:length]))), BAD_ROW
        more = units[:length] + ["\\x00"] + units[length:]
        yield "a keyServers value with a zero at %d" % length, with_change(set_at_row("".join(more))), BAD_ROW
    for count in range(256):
        if count != 1:
            value = "\\x%02x" % count if not 0x21 <= count <= 0x7E or count in (0x22, 0x5C) else chr(count)
            yield "a count of %d for 1" % count, with_change(set_at_row(value + SERVER_1 + "\\x00")), BAD_ROW
            yield "a last count of %d for 1" % count, with_change(set_at_row("\\x00" + value + SERVER_1)), BAD_ROW


def cut_tags():
    """Each proper beginning of a value that lists tags but that of two zero bytes, 255 tags in a list,
    and one more or fewer.
    """
    units = [1, 256, 65536], [66051, 16777215]
    whole = tags(*units).split("\\x")[1:]
    for length in [1, *range(3, len(whole))]:
        yield "tags cut at %d" % length, with_change(set_at_row("".join("\\x" + unit for unit in whole[:length]))), BAD_ROW
    rows = FOLD.answer.replace('route "" 0:1\n', 'route "" 0:1\nroute "m" %s\n')
    yield "tags that are whole", with_change(set_at_row(tags(*units))), rows % "0:1 0:256 1:0 1:515 255:65535"
    yield "tags in both lists", with_change(set_at_row(tags(*units[:1] * 2))), rows % "0:1 0:256 1:0"
    yield "no tags at all", with_change(set_at_row(tags())), rows % "none"
    yield "destination tags alone", with_change(set_at_row(tags([], [66051]))), rows % "1:515"
    many = " ".join("0:%d" % tag for tag in range(256, 511))
    yield "255 source tags", with_change(set_at_row(tags(range(256, 511)))), rows % many
    yield "255 destination tags", with_change(set_at_row(tags([], range(256, 511)))), rows % many
    for count in (254, 255):
        short = tags(range(256, 256 + count)).replace("\\x%02x" % count, "\\x%02x" % (count ^ 1), 1)
        yield "%d tags for %d" % (count, count ^ 1), with_change(set_at_row(short)), BAD_ROW


def ids_that_do_not_rise():
    """Two ids that differ in one byte, in each order."""
    for place in range(16):
        for low, high in (("\\x00", "\\x01"), ("0", "1"), ("\\x7f", "\\x80"), ("\\xfe", "\\xff"), ("\\x00", "\\xff")):
            first, second = ("".join([*SERVER_1[:place], byte, *SERVER_1[place + 1 :]]) for byte in (low, high))
            falling = second + first
            rising = FOLD.answer.replace(
                'route "" 0:1\n', 'route "" 0:1\nroute "m" %s\n' % ("0:1" if SERVER_1 in (first, second) else "none"),
            )
            yield "sources that fall at byte %d" % place, with_change(set_at_row("\\x02" + falling + "\\x00")), BAD_ROW
            yield "destinations that fall at byte %d" % place, with_change(set_at_row("\\x00\\x02" + falling)), BAD_ROW
            yield "sources that rise at byte %d" % place, with_change(set_at_row("\\x02" + first + second + "\\x00")), rising


def two_limits_of_one_change():
    for number, (change, answer) in enumerate(TWO_FAULTS):
        yield "two faults of one change, the %d. pair" % number, with_change(change), answer


CASES = (one_fault, no_fault, many_servers, cut_rows, cut_tags, ids_that_do_not_rise, two_limits_of_one_change)
