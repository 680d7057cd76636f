#!/usr/bin/env python3
"""What the proof, the tests and the edits of each crate cost, in seconds of a processor.

usage: tests/costs.py [--limits] [FILE]
  --limits  fails if a crate costs more than a limit below allows, and names the crates
  FILE      what a run of tests/run left (the last one's tests/out/costs)

A line of FILE is `WHAT CRATE SECONDS`: WHAT is proof, tests or edits, or the name of another check of that crate.
tests/run takes the lines of proofs and tests from a `Watch`, and those of edits from tests/edits/run.
"""
import argparse
import collections
import os
import sys
import threading
import time

ROOT = os.path.dirname(os.path.dirname(os.path.abspath(__file__)))
LAST = os.path.join(ROOT, "tests", "out", "costs")

# What one crate may cost, in seconds of a processor. A crate that costs more is to be split or mended.
LIMITS = {
    # all crates that stand on a crate wait for its proof; most take 50 to 250
    "proof": 300,
    # a crate of tests has those of several libraries, and nothing waits for it
    "tests": 400,
    # all edits of a crate, as --all tries them
    "edits": 300,
}

# What crates cost that were above a limit when it was set, as measured on four busy processors. None may grow further.
EXCEPTIONS = {
    ("proof", "proxy_state"): 577,
    ("proof", "scripts"): 328,
    ("edits", "agreed_ledger"): 393,
    ("edits", "dated_owners"): 379,
    ("edits", "model"): 755,
    ("edits", "mutation"): 488,
    ("edits", "proxy_state"): 1279,
    ("edits", "request_builder"): 455,
    ("edits", "scripts"): 711,
    ("edits", "state_memory"): 442,
    ("edits", "system_keys"): 493,
}

TICKS = os.sysconf("SC_CLK_TCK")

# How often a watch looks, in seconds.
LOOK = 1


class Watch(threading.Thread):
    """Looks each second at what runs below a process, and keeps what each check of a crate has used so far.

    A check is a process with the words `rattle` and `--crate-name`, with all that it starts. The time between the last
    look and its end is lost, half a second on average.
    """

    def __init__(self, process):
        super().__init__(daemon=True)
        self.process, self.used, self.is_over = process, {}, threading.Event()
        # when the first and the last check of each kind were seen, and the last of all
        self.spans, self.last = {}, time.monotonic()

    def run(self):
        while not self.is_over.wait(LOOK):
            self.look()

    def end(self):
        self.is_over.set()
        self.join()

    def look(self):
        processes, below = all_processes()
        waiting = list(below[self.process])
        while waiting:
            number = waiting.pop()
            check = check_of(number)
            if check:
                self.see(*check, (number, processes[number][0]), used_by(number, processes, below))
            else:
                waiting += below[number]

    def see(self, what, crate, process, ticks):
        self.last = time.monotonic()
        self.spans[what] = self.spans.get(what, (self.last,))[0], self.last
        key = what, crate, process
        self.used[key] = max(self.used.get(key, 0), ticks)

    def costs(self):
        """The seconds of each check of each crate."""
        costs = collections.Counter()
        for (what, crate, _), ticks in self.used.items():
            costs[what, crate] += ticks / TICKS
        return costs

    def used_in_all(self):
        """The seconds of a processor that all checks of each kind took."""
        used = collections.Counter()
        for (what, _), seconds in self.costs().items():
            used[what] += seconds
        return used

    def lasted(self):
        """How many seconds lie between the first and the last check of each kind."""
        return {what: last - first for what, (first, last) in self.spans.items()}


def all_processes():
    """For each process when it was started, with the ticks that it and its ended children have used; and its children."""
    processes, below = {}, collections.defaultdict(list)
    for name in filter(str.isdigit, os.listdir("/proc")):
        try:
            with open(f"/proc/{name}/stat") as file:
                fields = file.read().rpartition(")")[2].split()
        except OSError:
            continue
        below[int(fields[1])].append(int(name))
        processes[int(name)] = int(fields[19]), sum(map(int, fields[11:15]))
    return processes, below


def send(signal, process):
    """Sends the signal to a process and to all below it."""
    _, below = all_processes()
    waiting = [process]
    while waiting:
        number = waiting.pop()
        waiting += below[number]
        try:
            os.kill(number, signal)
        except ProcessLookupError:
            pass


def used_by(number, processes, below):
    """The ticks that a process has used, with all below it."""
    return processes[number][1] + sum(used_by(it, processes, below) for it in below[number])


def check_of(number):
    """Which check of which crate a process is, if it is one."""
    try:
        with open(f"/proc/{number}/cmdline") as file:
            words = file.read().split("\0")
        folder = os.readlink(f"/proc/{number}/cwd")
    except OSError:
        return None
    if os.path.basename(words[0]) != "rattle" or "--crate-name" not in words[:-1]:
        return None
    crate = words[words.index("--crate-name") + 1]
    is_in_place = os.path.basename(folder) == crate
    return ("tests" if "--test" in words else "proof" if is_in_place else "must-fail"), crate


def write(costs, path):
    os.makedirs(os.path.dirname(path), exist_ok=True)
    with open(path, "w") as file:
        file.write("".join(f"{what} {crate} {seconds:.0f}\n" for (what, crate), seconds in sorted(costs.items())))


def read(path):
    with open(path) as file:
        lines = [line.split() for line in file]
    return collections.Counter({(what, crate): float(seconds) for what, crate, seconds in lines})


def table(costs):
    """The crates and what each costs, the dearest first."""
    kinds = [*LIMITS, *sorted({what for what, _ in costs} - {*LIMITS})]
    crates = collections.Counter()
    for (_, crate), seconds in costs.items():
        crates[crate] += seconds
    yield row("crate", [*kinds, "all"])
    for crate, seconds in crates.most_common():
        yield row(crate, [number(costs[kind, crate]) for kind in kinds] + [number(seconds)])
    sums = [sum(seconds for (what, _), seconds in costs.items() if what == kind) for kind in kinds]
    yield row("all crates", [*map(number, sums), number(sum(sums))])


def row(name, cells):
    return f"{name:22}" + "".join(f"{cell:>11}" for cell in cells)


def number(seconds):
    return f"{seconds:,.0f}" if seconds else "-"


def above_limits(costs):
    """What each crate is over its limit with."""
    for (what, crate), seconds in sorted(costs.items(), key=lambda it: -it[1]):
        limit = EXCEPTIONS.get((what, crate), LIMITS.get(what))
        if limit is not None and seconds > limit:
            yield f"{crate}: its {what} took {seconds:,.0f} seconds of a processor, and {limit} are allowed"


def main():
    reader = argparse.ArgumentParser(description=__doc__, formatter_class=argparse.RawDescriptionHelpFormatter)
    reader.add_argument("--limits", action="store_true")
    reader.add_argument("file", nargs="?", default=LAST)
    options = reader.parse_args()
    if not os.path.exists(options.file):
        sys.exit(f"{options.file} is not there: tests/run leaves it")
    costs = read(options.file)
    print("\n".join(table(costs)))
    above = list(above_limits(costs)) if options.limits else []
    print("".join(f"ABOVE THE LIMIT: {it}\n" for it in above), end="")
    return 1 if above else 0


if __name__ == "__main__":
    sys.exit(main())
