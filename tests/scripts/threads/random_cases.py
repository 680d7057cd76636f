"""Random threads scripts as cases, each from its seed, and what they must meet."""
import collections

from tests.scripts.common.random_cases import cases_of
from tools.random_scripts.fold import LISTED_TEXT


def random_cases(seeds):
    return cases_of("threads", ("right", "wrong", "json"), seeds)


# ---- what the scripts meet

MUST_BE_MET = [
    *("refused %d" % number for number in (10, 11, 12, 13, 14, 15, 16, 20, 70, 71)), "batch refused 50", "batch refused 51",
    "closing refused 50", "closing refused 51", "closing", "committed", "conflict", "too_old", "locked", "none",
    "locked yes", "metadata_version", "route with tags", "route with listed tags",
]


def met(answer):
    """How often each kind of line, and each outcome, stands in an answer."""
    found = collections.Counter()
    for line in answer.splitlines():
        first, *words = line.split(" ")
        if first == "refused":
            found["refused %s" % words[0]] += 1
        elif "refused" in words:
            found["%s refused %s" % (first, words[words.index("refused") + 1])] += 1
        elif first == "batch":
            found.update(words[2:])
        elif first == "route":
            found["route with tags"] += words[-1] != "none"
            found["route with listed tags"] += LISTED_TEXT in words
        elif words[-1:] not in (["no"], ["none"]):
            found["locked yes" if first == "locked" else first] += 1
    return found
