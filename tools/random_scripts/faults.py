"""Faults of the form of a script, in random places, and how a script is spelled with faults of form and of JSON."""
from tests.scripts.common.script import BAD_SHAPE, at, kind_at, places, write

from . import json_faults
from .spelling import spell


def plant_form(rng, script):
    """Puts a value of another type at a random place."""
    path, value = rng.choice([(path, value) for path, value in places(script) if path])
    wrong = {
        "list": [None, {}, "a", 1], "dict": [None, [], "a", {}, {"x": 1}],
        "number": [None, "1", True, -1, 1.5, 2**63, 2**64], "bool": [None, 0, 1, "true", []],
        "verdict": [None, True, "Committed", "", ["committed"]], "bytes": [None, 7, "\\", "a b", "\\x6d", []],
        "batches": [None, {}, "a", 1, [{}]],
    }
    at(script, path[:-1])[path[-1]] = rng.choice(wrong[kind_at(path, value)])


def spelled_wrong(rng, script, kinds, is_large, answer):
    """The text of a script, with the faults of form and of JSON among these kinds, what it must be answered (so far,
    `answer`), and the name of the fault of JSON, if it has one.
    """
    if "form" in kinds:
        plant_form(rng, script)
        answer = BAD_SHAPE
    spelled = write(script) if is_large else spell(rng, script)
    return json_faults.plant(rng, spelled) if "json" in kinds else (spelled.encode(), answer, None)
