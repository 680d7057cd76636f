"""Random scripts of each mode, each from its seed. They reach every refusal and outcome.

A script is spelled with its fields in any order, with any white space and any escapes of JSON, and some have names that
stand twice in an object. Those of the kind `wrong` get one to three faults, in random places; those of the kind `json` are
small, and get one fault of their JSON. Of most it is known as they are made which fault is answered.

The words of scripts and the tables of faults are those of tests/scripts.
"""
import random

from . import fold, json_faults, threads, turns
from .spelling import spell
from .turns_kinds import Cleared, Moved, Nested, Wide

# of how many scripts without a fault some objects have a name twice, and of these how many objects have
TWICE_IN, TWICE = 0.2, 0.05


def spelled(script_of):
    """A call that spells what another one draws; what it is answered is not known as it is made."""
    return lambda rng, size: (spell(rng, script_of(rng, size), TWICE if rng.random() < TWICE_IN else 0).encode(), None, None)


def with_json_fault(script_of, *sizes):
    """A call that draws a script of one of these sizes, if none is given, with a fault of its JSON."""
    def draw(rng, size):
        script = script_of(rng, rng.choice(sizes) if size is None else size)
        return json_faults.plant(rng, spell(rng, script))

    return draw


def of_class(drawn):
    return spelled(lambda rng, size: drawn(rng).script(size))


# for each mode its kinds of scripts, each with a call that draws the text of one, what it is answered or nothing, and the
# name of the fault of its JSON or nothing
KINDS = {
    "fold": {
        "right": spelled(fold.right_script), "wrong": fold.wrong_script,
        "json": with_json_fault(fold.right_script, 0, 1, 2, 3),
    },
    "turns": {
        "right": spelled(turns.right_script), "nested": of_class(Nested), "cleared": of_class(Cleared),
        "wide": of_class(Wide), "moved": of_class(Moved), "wrong": turns.wrong_script,
        "json": with_json_fault(turns.right_script, 0, 2, 5, 10),
    },
    "threads": {
        "right": spelled(threads.right_script), "wrong": threads.wrong_script,
        "json": with_json_fault(threads.right_script, 1, 2, 4),
    },
}
# the order in which a long row of random scripts takes the kinds, again and again
CYCLES = {
    "fold": ("right", "right", "wrong", "json"),
    "turns": (
        "right", "nested", "right", "json", "cleared", "right", "moved", "wrong", "right", "wide", "right", "json", "wrong",
    ),
    "threads": ("right", "right", "json", "right", "wrong"),
}


def drawn(mode, kind, seed, size=None):
    """The bytes of a random script, and what it is answered, or nothing if that is not known as it is made."""
    return drawn_with_fault(mode, kind, seed, size)[:2]


def drawn_with_fault(mode, kind, seed, size=None):
    """The same, and the name of the fault of its JSON, or nothing if it has none."""
    rng = random.Random("%s %s %s" % (mode, kind, seed))
    return KINDS[mode][kind](rng, size)
