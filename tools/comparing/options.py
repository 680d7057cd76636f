"""The words of tools/compare."""
import argparse
import os
import random
import re
import shutil

from .cases import MODES
from .right import BUILT, ROOT

FOLDER = os.path.join(ROOT, "out", "compare")
RANDOM, SECONDS, SHRINK_SECONDS = 300, 30, 30
SEEDS = 2**32


def number(least, most):
    """A reader of whole numbers within these limits."""
    def read(words):
        if not re.fullmatch(r"[0-9]{1,18}", words, re.ASCII) or not least <= int(words) <= most:
            raise argparse.ArgumentTypeError("%r is no number from %d to %d" % (words, least, most))
        return int(words)

    return read


def seconds(words):
    """A number of seconds, which may have a fraction."""
    if not re.fullmatch(r"[0-9]{1,6}(\.[0-9]{1,3})?", words, re.ASCII):
        raise argparse.ArgumentTypeError("%r is no number of seconds" % words)
    return float(words)


def modes(words):
    found = words.split(",")
    if not found or set(found) - set(MODES):
        raise argparse.ArgumentTypeError("%r is not some of %s, with commas between" % (words, ",".join(MODES)))
    return found


def shard(words):
    found = re.fullmatch(r"([0-9]{1,6})/([0-9]{1,6})", words, re.ASCII)
    part, of = map(int, found.groups()) if found else (0, 0)
    if not 1 <= part <= of:
        raise argparse.ArgumentTypeError("%r is no shard such as 3/16, from 1/16 to 16/16" % words)
    return part, of


def reader(words):
    """The reader of the options, which stand before `--`."""
    how = argparse.RawDescriptionHelpFormatter
    found = argparse.ArgumentParser(
        prog="compare", description=words, formatter_class=how, usage="tools/compare [OPTIONS] -- COMMAND..",
    )
    add_scripts(found.add_argument)
    add_ends(found.add_argument)
    add_orders(found.add_argument)
    return found


def add_scripts(add):
    """What is tried, and what is right."""
    add(
        "--modes", type=modes, default=list(MODES), metavar="LIST",
        help="the modes that COMMAND has [default: %s]" % ",".join(MODES),
    )
    add(
        "--random", type=number(0, 10**12), default=RANDOM, metavar="N",
        help="how many random scripts to try [default: %d]" % RANDOM,
    )
    add(
        "--seed", type=number(0, SEEDS - 1), metavar="S",
        help="what decides the random scripts [default: drawn, and printed]",
    )
    add(
        "--shard", type=shard, default=(1, 1), metavar="K/N",
        help="tries each Nth script, from the Kth on, so that N machines share them",
    )
    add(
        "--program", metavar="PROGRAM",
        help="what says what is right, with its words [default: %s, else the second program]" % BUILT,
    )


def add_ends(add):
    """How it is run, when it ends, and what becomes of a difference."""
    count = number(1, 10**12)
    add("--seconds", type=seconds, default=SECONDS, metavar="X", help="how long a run may take [default: %d]" % SECONDS)
    add("--minutes", type=seconds, metavar="X", help="begins no further script after so many minutes")
    add("--jobs", type=number(1, 1024), metavar="N", help="how many runs go on at once [default: the processors]")
    add("--keep-going", type=count, default=1, metavar="N", help="stops at the Nth difference [default: 1]")
    add(
        "--json", action="store_true",
        help="prints one JSON object on a line for each difference (name, mode, source, kind, line, script, right, "
             "theirs, status, explanation, folder), and all else on standard error",
    )
    add("--folder", default=FOLDER, help="where scripts and texts that differ are left [default: out/compare]")
    add(
        "--shrink-seconds", type=seconds, default=SHRINK_SECONDS, metavar="X",
        help="how long making a script smaller may take; 0 leaves it as it is [default: %d]" % SHRINK_SECONDS,
    )
    add("--any-status", action="store_true", help="does not look at the status that a run ends with, unless it crashes")


def add_orders(add):
    """Every order of the events of a small cluster."""
    count = number(1, 10**12)
    add("--orders", action="store_true", help="tries every order of the events of a small cluster")
    add("--batches", type=number(1, 8), metavar="N", help="with --orders, how many batches it has [default: 2]")
    add("--resolvers", type=number(1, 8), metavar="N", help="with --orders, how many resolvers it has [default: 2]")
    add("--repeats", action="store_true", help="with --orders, each offer is given twice")
    add("--sample", type=count, metavar="N", help="with --orders, tries N orders that are drawn")


def command_of(found, given):
    """The options before `--` and the command after it, or the end of the process with status 2."""
    cut = given.index("--") if "--" in given else len(given)
    (options, others), command = found.parse_known_args(given[:cut]), given[cut + 1 :]
    if others:
        found.error(
            "unrecognized arguments: %s%s"
            % (" ".join(others), "" if command else "; the command stands after --, as in: -- ./mine")
        )
    if not command:
        found.error("name the command after --, as in: -- ./mine")
    if not shutil.which(command[0]):
        found.error("the command %s cannot be found, or not be run" % command[0])
    return options, command


def read(words, given):
    """The options of tools/compare, with its command."""
    found = reader(words)
    options, options.command = command_of(found, given)
    check_orders(found, options)
    options.seed = random.SystemRandom().randrange(SEEDS) if options.seed is None else options.seed
    options.jobs = options.jobs or len(os.sched_getaffinity(0))
    return options


def check_orders(found, options):
    """Options of --orders mean nothing without it, and those of random scripts nothing with it."""
    others = [name for name in ("batches", "resolvers", "repeats", "sample") if getattr(options, name)]
    if others and not options.orders:
        found.error("--%s goes with --orders" % others[0])
    if options.orders and "turns" not in options.modes:
        found.error("--orders are scripts of turns, which --modes leaves out")
    options.batches, options.resolvers = options.batches or 2, options.resolvers or 2
