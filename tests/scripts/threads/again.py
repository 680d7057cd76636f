"""Runs the built program many times on one threads script, and says how many different texts come, and that each is right.

    python3 -m tests.scripts.threads.again SCRIPT [TIMES [PROGRAM]]

SCRIPT is a file, or `seed N` for a random script of tests/scripts/run; 1,000 times without TIMES. As many runs go on at once
as there are processors. It ends with 1 if a text is one that no order of the batches gives, if a run ends otherwise than
with status 0, or if one has not ended in a minute.
"""
import collections
import concurrent.futures
import os
import sys

from tests import watched
from tests.parts import ROOT
from tests.scripts.threads import random_cases as threads_random
from tests.scripts.threads.orders import what_is_wrong

PROGRAM = os.path.join(ROOT, "crates", "proxy_run", "out", "proxy_run")
TIMES, LIMIT = 1000, 60


def script_named(name):
    """The bytes of a file, or of the right random script of a seed."""
    if name.startswith("seed "):
        return next(threads_random.random_cases([int(name[len("seed ") :])]))[3]
    with open(name, "rb") as file:
        return file.read()


def run_once(program, script):
    """How a run ended: its status, its text and what else it said; or words about a run that did not end."""
    try:
        ended = watched.run([program, "threads"], script, LIMIT)
        return ended.returncode, ended.stdout.decode(errors="replace"), ended.stderr
    except watched.Hung as hung:
        return None, str(hung), b""


def fault_of(script, end):
    """Words about an end that is not right, or nothing."""
    status, text, more = end
    if (status, more) != (0, b""):
        return "status %s, it says %.200r beside its text %.1000r" % (status, more, text)
    return what_is_wrong(script, text, meetings=True)


def main():
    words = sys.argv[1:]
    if len(words) not in (1, 2, 3):
        sys.exit(__doc__)
    script, times = script_named(words[0]), int(words[1]) if len(words) > 1 else TIMES
    program = os.path.abspath(words[2]) if len(words) > 2 else PROGRAM
    with concurrent.futures.ThreadPoolExecutor(len(os.sched_getaffinity(0))) as at_once:
        ends = collections.Counter(at_once.map(lambda _: run_once(program, script), range(times)))
    wrong = [(end, fault) for end, fault in ((end, fault_of(script, end)) for end in ends) if fault]
    for (_, text, _), fault in wrong[:5]:
        print("%s\n%s" % (fault, text))
    often = ", ".join(str(count) for _, count in ends.most_common(10))
    print(
        "%d runs, %d different texts, %d of them wrong; the most frequent came so often: %s"
        % (times, len(ends), len(wrong), often)
    )
    return 1 if wrong else 0


if __name__ == "__main__":
    sys.exit(main())
