"""Threads scripts of the right form whose keys, values, ranges, stamps, batches or moves are at fault,
or stand just within limits.
"""
from tests.scripts.common.script import BATCH_TOO_LARGE, METADATA_VERSION, NO_SUCH_RESOLVER, write
from tests.scripts.fold.content_cases import FINE
from tests.scripts.threads.words import closings, move, outcomes, threads
from tests.scripts.turns.content_cases import FINE_STAMPS, MUTATION_FAULTS, PAIRS, RANGE_FAULTS, offset
from tests.scripts.turns.words import case, one_key, shown, stamp, transaction


def work_of(*mutations, reads=(), writes=()):
    """The batches of one proxy: one of one transaction with these mutations."""
    return [[transaction(0, reads, [one_key("w"), *writes], mutations)]]


def script_of(work, moves=()):
    return threads(work, moves=moves, resolvers=1)


def carried_out(**more):
    """What is printed where no kept row but the metadata version is touched."""
    return outcomes(0, "committed"), closings(20), shown(0, 20, **more)


def places_of_range(span):
    """The range as a read, as a write, as that of a Clear and as that of a move."""
    yield "read", script_of(work_of(reads=[span]))
    yield "written", script_of(work_of(writes=[span]))
    yield "cleared", script_of(work_of({"clear": span}))
    yield "moved", script_of(work_of(), [move(*span, 0)])


def one_fault():
    for name, (mutation, answer) in MUTATION_FAULTS.items():
        yield name, write(script_of(work_of(mutation))), answer


def faults_of_ranges():
    for name, (span, answer) in RANGE_FAULTS.items():
        for how, script in places_of_range(span):
            yield "%s, %s" % (name, how), write(script), answer


def two_limits_of_one_mutation():
    for number, (mutation, answer) in enumerate(PAIRS):
        yield "two faults of one mutation, the %d. pair" % number, write(script_of(work_of(mutation))), answer
        for how, script in places_of_range(mutation["clear"]) if "clear" in mutation else ():
            yield "two faults of one range, the %d. pair, %s" % (number, how), write(script), answer


def no_fault():
    """Mutations and ranges close to the limits."""
    for name, mutation in {**FINE, **FINE_STAMPS}.items():
        yield case(name, script_of(work_of(mutation)), *carried_out())
        for how, script in places_of_range(mutation["clear"]) if "clear" in mutation else ():
            yield case("%s, %s" % (name, how), script, *carried_out())
    text, stamped = "abcdefghijklm", "\\x00" * 7 + "\\x0a\\x00\\x00"
    for place in range(4):
        printed = text[:place] + stamped + text[place + 10 :]
        script = script_of(work_of(stamp(METADATA_VERSION, text + offset(place))))
        yield case("a stamp at %d" % place, script, *carried_out(metadata_version='"%s"' % printed))


def batches():
    """1,024 transactions in a batch, and one more, as the first batch and as the last."""
    for count in (1024, 1025, 1026, 2000):
        large, said = [transaction()] * count, " ".join(["committed"] * count)
        fine = (outcomes(0, said, "none"), closings(30), shown(0, 30))
        for name, work in (("first", [large, []]), ("last", [[], large])):
            if count > 1024:
                yield "%d transactions in the %s batch" % (count, name), write(threads(work)), BATCH_TOO_LARGE
            elif name == "first":
                yield case("%d transactions in the first batch" % count, threads(work), *fine)


def moves_to_nobody():
    """A move to a resolver that is not there, alone, behind right moves and before them."""
    for resolvers in (1, 2, 63, 64):
        fine = [move("a", "b", it) for it in range(resolvers)]
        yield case(
            "moves to each of %d" % resolvers, threads([], moves=fine, resolvers=resolvers), closings(10), shown(0, 10),
        )
        for number in (resolvers, resolvers + 1, 64, 65, 2**32, 2**63 - 1):
            for moves in ([move("a", "b", number)], [*fine, move("a", "b", number)], [move("a", "b", number), *fine]):
                name = "one of %d moves goes to %d of %d" % (len(moves), number, resolvers)
                yield name, write(threads([], moves=moves, resolvers=resolvers)), NO_SUCH_RESOLVER


CASES = (one_fault, faults_of_ranges, two_limits_of_one_mutation, no_fault, batches, moves_to_nobody)
