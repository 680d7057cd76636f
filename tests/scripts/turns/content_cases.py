"""Turns scripts of the right form whose keys, values, ranges, stamps or batches are at fault,
or stand just within their limits.
"""
from tests.scripts.common.script import (
    BAD_ROW, BAD_STAMP, BATCH_TOO_LARGE, KEY_OUTSIDE, KEY_SERVERS, KEY_TOO_LONG, LISTING, LOCKED, METADATA_VERSION, SERVER_1,
    SERVER_2, SERVER_TAG, VALUE_TOO_LONG, write,
)
from tests.scripts.fold import content_cases
from tests.scripts.fold.content_cases import FAULTS, FINE, LONG_BEGIN, LONG_OUTSIDE, LONG_VALUE, OUTSIDE, TWO_FAULTS
from tests.scripts.turns.words import (
    case, finish, finished, lines, move, offer, offered, one_key, private_tag, sequence, sequenced, shown, stamp,
    transaction, turns,
)

ZEROS = "\\x00" * 10


def offset(place):
    """The four bytes that name a place."""
    return "".join(
        "\\x%02x" % byte if not 0x21 <= byte <= 0x7E or byte in (0x22, 0x5C) else chr(byte)
        for byte in place.to_bytes(4, "little")
    )


# stamped values that have no room for their stamp, or that no stamp may be put into
STAMP_FAULTS = {
    "no stamped value": (stamp("k", ""), BAD_STAMP),
    "a stamped value of three bytes": (stamp("k", "\\x00\\x00\\x00"), BAD_STAMP),
    "an offset alone": (stamp("k", offset(0)), BAD_STAMP),
    "nine bytes and an offset": (stamp("k", "012345678" + offset(0)), BAD_STAMP),
    "one byte too few": (stamp("k", ZEROS + offset(1)), BAD_STAMP),
    "an offset at the end": (stamp("k", ZEROS + offset(10)), BAD_STAMP),
    "an offset that counts its own bytes": (stamp("k", ZEROS + offset(4)), BAD_STAMP),
    "an offset with its high byte first": (stamp("k", ZEROS * 2 + "\\x00\\x00\\x00\\x01"), BAD_STAMP),
    "an offset in its second byte": (stamp("k", ZEROS * 2 + offset(256)), BAD_STAMP),
    "an offset in its third byte": (stamp("k", ZEROS * 2 + offset(65536)), BAD_STAMP),
    "the greatest offset": (stamp("k", ZEROS * 2 + offset(2**32 - 1)), BAD_STAMP),
    "an offset that would come round": (stamp("k", ZEROS + offset(2**32 - 10)), BAD_STAMP),
    "an offset past a long value": (stamp("k", "v" * 99_996 + offset(99_987)), BAD_STAMP),
    "a bad stamp of a system key": (stamp(METADATA_VERSION, ZEROS), BAD_STAMP),
    "a bad stamp of the lock": (stamp(LOCKED, "L"), BAD_STAMP),
    "a stamp of a keyServers row": (stamp(KEY_SERVERS + "m", ZEROS + offset(0)), BAD_ROW),
    "a stamp of a keyServers row that decodes": (stamp(KEY_SERVERS, "\\x01" + SERVER_1 + "\\x00" + offset(0)), BAD_ROW),
    "a stamp of a keyServers row that lists tags": (stamp(KEY_SERVERS, LISTING), BAD_ROW),
    "a stamp of a serverTag row": (stamp(SERVER_TAG + SERVER_1, ZEROS + offset(0)), BAD_ROW),
    "a stamp of three bytes of a serverTag row": (stamp(SERVER_TAG + SERVER_1, "\\x00\\x00\\x01"), BAD_ROW),
    "a long stamped key": (stamp(LONG_BEGIN, ZEROS + offset(0)), KEY_TOO_LONG),
    "a long stamped value": (stamp("k", "v" * 99_997 + offset(0)), VALUE_TOO_LONG),
    "a stamped key at the end of the key space": (stamp("\\xff\\xff", ZEROS + offset(0)), KEY_OUTSIDE),
    "a stamped key past all": (stamp("\\xff" * 10_000, ZEROS + offset(0)), KEY_OUTSIDE),
}

# stamped values with room for their stamp: one at each end of the longest value, one of ten bytes, and keys that are like
# kept rows
FINE_STAMPS = {
    "ten bytes and an offset": stamp("k", "0123456789" + offset(0)),
    "a stamp at the end": stamp("k", "ab" + ZEROS + offset(2)),
    "a stamp at the end of the longest value": stamp("k", "v" * 99_996 + offset(99_986)),
    "a stamp at the front of the longest value": stamp("k", "v" * 99_996 + offset(0)),
    "a stamp of the longest key": stamp("k" * 10_000, ZEROS + offset(0)),
    "a stamp of no key": stamp("", ZEROS + offset(0)),
    "a stamp of the last key": stamp(content_cases.LAST_KEY, ZEROS + offset(0)),
    "a stamp of a short serverTag key": stamp(SERVER_TAG + SERVER_1[1:], ZEROS + offset(0)),
    "a stamp before the keyServers rows": stamp("\\xff/keyServers", ZEROS + offset(0)),
}

# of the mutations without a fault those that have a private copy
FINE_COPIES = {"a tag of a server without keys": [private_tag(0, 0, SERVER_2, "255:65535")]}

# stamps with two faults each: the lesser number is answered
STAMPS_OF_TWO_FAULTS = [
    (stamp(LONG_BEGIN, LONG_VALUE), KEY_TOO_LONG),
    (stamp(LONG_BEGIN, ""), KEY_TOO_LONG),
    (stamp(LONG_OUTSIDE, ""), KEY_TOO_LONG),
    (stamp(KEY_SERVERS + "k" * 9_988, ""), KEY_TOO_LONG),
    (stamp(OUTSIDE, LONG_VALUE), VALUE_TOO_LONG),
    (stamp("k", LONG_VALUE), VALUE_TOO_LONG),
    (stamp(KEY_SERVERS, LONG_VALUE), VALUE_TOO_LONG),
    (stamp(SERVER_TAG + SERVER_1, LONG_VALUE), VALUE_TOO_LONG),
    (stamp(OUTSIDE, ""), KEY_OUTSIDE),
    (stamp("\\xff\\xff", ZEROS), KEY_OUTSIDE),
    (stamp(KEY_SERVERS, ""), BAD_ROW),
    (stamp(SERVER_TAG + SERVER_1, ZEROS + offset(1)), BAD_ROW),
]

# mutations of one fault, of two, and the ranges among them
MUTATION_FAULTS = {**FAULTS, **STAMP_FAULTS}
PAIRS = [*TWO_FAULTS, *STAMPS_OF_TWO_FAULTS]
RANGE_FAULTS = {name: (change["clear"], answer) for name, (change, answer) in FAULTS.items() if "clear" in change}


def events_of(*mutations, reads=(), writes=()):
    """One batch of one transaction with these mutations, which is carried out."""
    return [sequence(0, transaction(0, reads, [one_key("w"), *writes], mutations)), offer(0, 0), finish(0)]


def script_of(events):
    return turns(*events, proxies=1, resolvers=1)


def carried_out(mutations, *copies):
    """What is printed where they touch no kept row, but for a tag, of which the server gets a copy."""
    tags = ["mutation 0 %d tags none" % place for place in range(mutations)]
    return [sequenced(1), offered(0, 0, "committed"), finished(0, 10, "txn 0 committed 10 0", *tags, *copies), shown(0, 10)]


def places_of_range(span):
    """The range as a read, as a write, as that of a Clear and as that of a move."""
    yield "read", events_of(reads=[span])
    yield "written", events_of(writes=[span])
    yield "cleared", events_of({"clear": span})
    yield "moved", [{"move": {"range": span, "resolver": 0}}]


def one_fault():
    for name, (mutation, answer) in MUTATION_FAULTS.items():
        yield name, write(script_of(events_of(mutation))), answer


def faults_of_ranges():
    for name, (span, answer) in RANGE_FAULTS.items():
        for how, events in places_of_range(span):
            yield "%s, %s" % (name, how), write(script_of(events)), answer


def two_limits_of_one_mutation():
    for number, (mutation, answer) in enumerate(PAIRS):
        yield "two faults of one mutation, the %d. pair" % number, write(script_of(events_of(mutation))), answer
        for how, events in places_of_range(mutation["clear"]) if "clear" in mutation else ():
            yield "two faults of one range, the %d. pair, %s" % (number, how), write(script_of(events)), answer


def no_fault():
    """Mutations and ranges close to the limits."""
    for name, mutation in FINE.items():
        yield case(name, script_of(events_of(mutation)), *carried_out(1, *FINE_COPIES.get(name, [])))
    for name, mutation in FINE.items():
        if "clear" in mutation:
            span = mutation["clear"]
            yield case(name + ", read", script_of(events_of(reads=[span])), *carried_out(0))
            yield case(name + ", written", script_of(events_of(writes=[span])), *carried_out(0))
            moved = turns(move(*span, 0), *events_of(reads=[span]), proxies=1, resolvers=1)
            yield case(name + ", moved", moved, "move date 1", *carried_out(0))


def stamps_with_room():
    """A stamp at each end of the longest value, in a value of ten bytes, and in keys that are like kept rows."""
    for name, mutation in FINE_STAMPS.items():
        yield case(name, script_of(events_of(mutation)), *carried_out(1))
    text, stamped = "abcdefghijklm", "\\x00" * 7 + "\\x0a\\x00\\x00"
    for place in range(4):
        before, printed = carried_out(1)[:-1], text[:place] + stamped + text[place + 10 :]
        script = script_of(events_of(stamp(METADATA_VERSION, text + offset(place))))
        yield case("a stamp at %d" % place, script, *before, shown(0, 10, metadata_version='"%s"' % printed))


def batches():
    """1,024 transactions in a batch, and one more."""
    for count in (1024, 1025, 1026, 2000):
        script = turns(sequence(0, *[transaction()] * count), offer(0, 0), finish(0), proxies=1, resolvers=1)
        numbered = finished(0, 10, *["txn %d committed 10 %d" % (number, number) for number in range(count)])
        answer = lines(sequenced(1), offered(0, 0), numbered, shown(0, 10))
        yield "%d transactions" % count, write(script), answer if count <= 1024 else BATCH_TOO_LARGE


CASES = (one_fault, faults_of_ranges, two_limits_of_one_mutation, no_fault, stamps_with_room, batches)
