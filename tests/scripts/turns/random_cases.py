"""Random turns scripts as cases, each from its seed, and what they must meet."""
import collections

from tests.scripts.common.random_cases import cases_of
from tools.random_scripts.fold import LISTED_TEXT

# of so many seeds one gives a script of many proxies and resolvers
WIDE_AMONG = 4


def random_turns(seeds):
    return cases_of("turns", ("right", "wrong", "json"), seeds)


def nested_turns(seeds):
    """Cases of ranges that touch, nest and repeat."""
    return cases_of("turns", ("nested",), seeds)


def cleared_turns(seeds):
    """Cases of Clears of many rows."""
    return cases_of("turns", ("cleared",), seeds)


def wide_turns(seeds):
    """Cases of more than three proxies and resolvers, for some of the seeds."""
    return cases_of("turns", ("wide",), [seed for seed in seeds if seed % WIDE_AMONG == 0])


def moved_turns(seeds):
    """Cases of many moves at one date."""
    return cases_of("turns", ("moved",), seeds)


# ---- what the scripts meet

EVENT_REFUSALS = (20, 30, 31, 32, 33, 35, 42, 43, 51)
SCRIPT_REFUSALS = (10, 11, 12, 13, 14, 15, 16, 70, 71)
MUST_BE_MET = [
    *("refused %d" % number for number in EVENT_REFUSALS + SCRIPT_REFUSALS), "sequence", "move", "judged", "again", "finish",
    "verdict conflict", "verdict too_old", "verdict committed", "unseen rows", "txn conflict", "txn too_old", "txn locked",
    "txn committed", "mutation with tags", "mutation without tags", "mutation with listed tags", "copy of a tag",
    "copy of keys", "locked yes", "metadata_version", "route with tags",
]


def met(answer):
    """How often each kind of line stands in an answer."""
    found = collections.Counter()
    for line in answer.splitlines():
        first, *words = line.split(" ")
        if first in ("refused", "txn"):
            found["%s %s" % (first, words[0] if first == "refused" else words[1])] += 1
        elif first == "offer":
            found[words[4]] += 1
            end = words.index("unseen")
            found.update("verdict " + word for word in words[5:end] if word != "none")
            found["unseen rows"] += words[-1] != "none"
        elif first == "mutation":
            found["mutation without tags" if words[-1] == "none" else "mutation with tags"] += 1
            found["mutation with listed tags"] += LISTED_TEXT in words
        elif first == "private":
            found["copy of a tag" if "/serverTag/" in words[2] else "copy of keys"] += 1
        elif first == "route":
            found["route with tags"] += words[-1] != "none"
        elif words[-1] not in ("no", "none"):
            found["locked yes" if first == "locked" else first] += 1
    return found
