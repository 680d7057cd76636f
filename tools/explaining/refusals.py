"""Why a script is refused: the first fault that it has, and where; or that it has none."""
import json
import math

from tests.scripts.fold.reference import (
    DEEPEST, KEY_SERVERS, Refused, check_change, depth_of, is_server_tag, read_json, read_script,
)
from tests.scripts.threads.reference import read_threads
from tests.scripts.turns.reference import REFUSALS, check_mutation, read_turns

from .journal import change_words, row_name
from .texts import some

MEANINGS = {
    10: "a key, or the end of a range, is too long", 11: "a value is too long",
    12: "a key or the begin of a range is at or past \\xff\\xff, or the end of a range past it",
    13: "the begin of a range is not below its end",
    14: "a keyServers or serverTag value does not decode, or a SetStamped has such a row",
    15: "a stamped value is under four bytes, or its ten bytes go past its end",
    16: "a batch has more than 1,024 transactions", 20: "a move goes to a missing resolver", 70: "it is not JSON",
    71: "it does not have the form of its mode, or a number is outside its limits",
}

# how many row values are shown
MOST_ROWS = 5


def faults_of(check_it, *given):
    """The number of the refusal that a check ends with, or nothing."""
    try:
        check_it(*given)
    except Refused as refused:
        return refused.args[0]
    return None


def refusal_words(mode, script, number):
    """Why a script is refused by this number, and where the fault stands."""
    yield "The script is refused by %d %s: %s." % (number, REFUSALS[number], MEANINGS[number])
    if number < 70:
        place = next((place for place, found in places_of(mode, read_json(script)) if found == number), None)
        if place:
            yield "The first fault is at %s." % place
    if number == 70:
        yield why_no_json(script)


def finite(spelled):
    if not math.isfinite(float(spelled)):
        raise ValueError("The number %.40s is too large for a 64-bit float" % spelled)


def no_word(word):
    raise ValueError("JSON has no %s" % word)


def why_no_json(script):
    """What makes of a script that is refused by 70 no JSON value."""
    try:
        text = script.decode()
    except UnicodeDecodeError as error:
        return "It is not UTF-8: byte %d, \\x%02x, begins no character." % (error.start, script[error.start])
    depth = depth_of(text)
    if depth > DEEPEST:
        return "Its lists and objects nest %d deep, and may nest %d." % (depth, DEEPEST)
    try:
        json.loads(text, parse_int=finite, parse_float=finite, parse_constant=no_word)
    except ValueError as error:
        return "%s." % error
    return "An escape of half a surrogate pair stands alone in it."


def script_refusal(line, mode):
    """The number by which a first line refuses a whole script, or nothing. (In a turns text 20 is of an event.)"""
    words = line.split(" ") if line else []
    number = int(words[1]) if len(words) == 3 and words[0] == "refused" and words[1].isdecimal() else None
    return number if number in MEANINGS and (number, mode) != (20, "turns") else None


def no_fault_words(mode, script, number):
    """That a script which TEXT refuses by this number has no such fault; of row values also what they hold."""
    yield "TEXT refuses the script by %d: %s. The script has no fault." % (number, MEANINGS[number])
    if number == 14:
        rows = [(place, change) for place, _, change in all_places(mode, read_json(script)) if change and is_row(change)]
        yield from some(("The row value of %s decodes: it sets %s to %s." % (
            place, row_name(change[1]),
            change_words(change).removeprefix("sets it to ")) for place, change in rows), MOST_ROWS)


def is_row(change):
    """Whether a mutation sets a row whose value has to decode."""
    return change[0] == "set" and (change[1].startswith(KEY_SERVERS) or is_server_tag(change[1]))


def places_of(mode, value):
    """Each part of a script that has a fault, in order, and the number of its fault."""
    return ((place, found) for place, found, _ in all_places(mode, value) if found)


def all_places(mode, value):
    """Each part of a script that is checked, in order, the number of its fault, if it has one, and the mutation,
    if it is one.
    """
    return {"fold": fold_places, "turns": turns_places, "threads": threads_places}[mode](value)


def fold_places(value):
    for row, (_, states) in enumerate(read_script(value)[0]):
        for number, (changes, _, _) in enumerate(states):
            for at, change in enumerate(changes):
                yield "mutation %d of transaction %d of row %d" % (at, number, row), faults_of(check_change, change), change


def turns_places(value):
    for number, event in enumerate(read_turns(value)[1]):
        if event[0] == "move":
            yield "the range of event %d" % number, faults_of(check_change, ("clear", *event[1])), None
        if event[0] == "sequence":
            yield from batch_places("of event %d" % number, event[2])


def threads_places(value):
    script = read_threads(value)
    for number, (span, _) in enumerate(script.moves):
        yield "the range of move %d" % number, faults_of(check_change, ("clear", *span)), None
    for proxy, batches in enumerate(script.work):
        for number, batch in enumerate(batches):
            yield from batch_places("of batch %d of proxy %d" % (number, proxy), batch)
    for number, (_, resolver) in enumerate(script.moves):
        yield "move %d" % number, 20 if resolver >= script.resolvers else None, None


def batch_places(where, batch):
    for number, transaction in enumerate(batch):
        whose = "of transaction %d %s" % (number, where)
        for name, spans in (("read", transaction.reads), ("write", transaction.writes)):
            for at, span in enumerate(spans):
                yield "%s %d %s" % (name, at, whose), faults_of(check_change, ("clear", *span)), None
        for at, mutation in enumerate(transaction.changes):
            yield "mutation %d %s" % (at, whose), faults_of(check_mutation, mutation), mutation
    yield "the batch %s" % where, 16 if len(batch) > 1024 else None, None
