"""Readers of JSON that take more or less than docs/FORMATS.md says, as changes of the second program, and that random scripts
find each.
"""
import collections
from typing import NamedTuple

from tests.tools import in_process
from tools import random_scripts
from tools.comparing import cases, right, running, trying
from tools.random_scripts import json_faults

# how many scripts of each mode are tried, and of which seed
SCRIPTS, SEED = 200, 3
# how many bytes the smallest script may have that shows a reader: one too deep has over a hundred brackets
SMALL = 900
DECODED = 'text = script.decode("utf-8")'
IS_NUMBER = """want(isinstance(value, Number) and UNSIGNED.fullmatch(value) and int(value) <= GREATEST_NUMBER)
    return int(value)"""
READ = """        want(depth_of(text) <= DEEPEST, 70)
        value = json.loads(
            text, parse_int=number, parse_float=number, parse_constant=refuse_word, object_pairs_hook=last_of_each,
        )
    except (ValueError, RecursionError):
        raise Refused(70) from None
    want_characters(value)
"""
# what Python's json takes, as it stands
PLAIN = """        value = json.loads(script, parse_int=Number)
    except (ValueError, RecursionError):
        raise Refused(70) from None
"""


class Reader(NamedTuple):
    """A text of the second program for fold scripts, by which all modes read JSON, another one, and what is then found."""

    old: str
    new: str
    # what the explanation of a difference says
    said: str


READERS = {
    "json.loads": Reader(READ, PLAIN, ""),
    "takes half a surrogate pair": Reader(
        "want(not SURROGATE.search(value), 70)", "want(True)", "An escape of half a surrogate pair stands alone in it.",
    ),
    "takes a number that no float can hold": Reader(
        "want(math.isfinite(float(spelled)), 70)", "want(True)", "is too large for a 64-bit float.",
    ),
    "takes NaN": Reader(
        "no JSON.\"\"\"\n    raise Refused(70)", "no JSON.\"\"\"\n    return None", "JSON has no ",
    ),
    "takes any depth": Reader("want(depth_of(text) <= DEEPEST, 70)", "want(True)", "Its lists and objects nest "),
    "takes 126 levels": Reader("DEEPEST = 127", "DEEPEST = 126", "does not have the form of its mode"),
    "puts a character for bytes that are no UTF-8": Reader(
        DECODED, 'text = script.decode("utf-8", "replace")', "It is not UTF-8: byte ",
    ),
    "takes a byte order mark": Reader(DECODED, 'text = script.decode("utf-8-sig")', "Unexpected UTF-8 BOM"),
    "takes any encoding": Reader(DECODED, "text = script.decode(json.detect_encoding(script))", "is not JSON"),
    "takes control characters": Reader("text, parse_int", "text, strict=False, parse_int", "Invalid control character at"),
    "takes -0": Reader('re.compile(r"0|', 're.compile(r"-?0|', "does not have the form of its mode"),
    "takes 20.0": Reader(
        IS_NUMBER, "want(isinstance(value, Number) and float(value).is_integer() and 0 <= float(value) < 2**63)\n"
        "    return int(value) if value.isdecimal() else int(float(value))", "does not have the form of its mode",
    ),
    "takes the low 64 bits of a number": Reader(
        IS_NUMBER, "want(isinstance(value, Number) and UNSIGNED.fullmatch(value))\n    return int(value) % 2**64",
        "does not have the form of its mode",
    ),
    "takes names in any case": Reader(
        "return dict(members)", "return {name.lower(): value for name, value in members}",
        "does not have the form of its mode",
    ),
    "takes the first of two values": Reader(
        "return dict(members)", "return dict(reversed(members))", "does not have the form of its mode",
    ),
}


def change_of(name):
    return "fold", READERS[name].old, READERS[name].new


class Json:
    """The scripts of a mode with a fault of their JSON alone."""

    def __init__(self, mode):
        self.mode = mode

    def __len__(self):
        return SCRIPTS

    def case(self, number):
        return cases.Case(self.mode, "json", "json", random_scripts.drawn(self.mode, "json", "%d.%d" % (SEED, number))[0])


def is_found(name, mode):
    """Words about a reader that random scripts do not find, or that is not made small or not explained, or nothing."""
    running.run = in_process.Implementation(change_of(name))
    found = in_process.first_difference([Json(mode)])
    if found is None:
        return "no difference is found"
    told = trying.tell(in_process.HOW, *found)
    if len(told.script) > SMALL:
        return "its script still has %d bytes: %.2000r" % (len(told.script), told.script)
    words = "\n".join(told.explanation)
    return None if READERS[name].said in words and in_process.CANNOT not in words else words


def readers_with_modes():
    """Each reader with a mode, the modes in turn."""
    return [(name, cases.MODES[number % len(cases.MODES)]) for number, name in enumerate(READERS)]


# ---- the faults


def answer_of(mode, script):
    """The refusal of a script by the second program."""
    text = right.second_text(mode, script)
    return text.decode() if text is not None else ""


def each_fault_comes(mode):
    """Every fault of JSON comes among the random scripts of a mode, and the second program answers it as is known."""
    found = collections.Counter()
    for number in range(SCRIPTS):
        script, answer, name = random_scripts.drawn_with_fault(mode, "json", "%d.%d" % (SEED, number))
        found[name] += 1
        said = answer_of(mode, script)
        if said != answer:
            return "%s: %.300r is answered %.80r" % (name, script, said)
    missed = set(json_faults.FAULTS) - set(found)
    return "%s do not come" % sorted(missed) if missed else None
