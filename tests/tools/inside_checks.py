"""What needs no process of its own: the orders of a small cluster, the shards and the random scripts of tools/compare, and
what is right without a built program. Each check returns words about a fault, or nothing.
"""
import contextlib
import functools
import io
import itertools
import os
import random
import types

from tests.orders.points import points_of
from tests.orders.trial import Trial
from tests.scripts.fold import reference
from tests.scripts.turns import reference as turns_reference
from tests.tools import in_process, random_texts, readers_of_json, wrong_rule_cases
from tests.tools.compare_checks import COMPARE, PATIENCE, SECOND, TURNS, called, want, want_last
from tools.comparing import cases, right, running, trying
from tools.comparing.orders import Orders

# for numbers of batches and resolvers, and whether offers are repeated, how many orders there are: they were counted
# otherwise
COUNTS = {
    (1, 1, False): 4, (2, 2, False): 576, (3, 2, False): 59_670, (4, 2, False): 8_949_786, (2, 2, True): 703_248,
    (3, 2, True): 20_376_063_904,
}
# how many orders of the larger cluster are tried
SAMPLE = 150
# of how many seeds the batches of a small cluster are looked at, and what its scripts come to, each found once
DRAWN, KEPT = 20, functools.lru_cache(None)(turns_reference.answer)
# a change by which the first value counts of a name that stands twice, and how many bytes its smallest script may have
FIRST_OF_TWO, SMALL = ("fold", "return dict(members)", "return dict(reversed(members))"), 250
# a rule that only some orders show: the reply names what its proxy had not finished
OF_SOME_ORDERS = "rows count as seen when they are finished"


def orders_are_counted():
    found = {numbers: Orders(*numbers, 1).total for numbers in COUNTS}
    return None if found == COUNTS else "%s" % found


def every_order_comes_once():
    """Each number gives another order, whose events are those of the cluster, and of which nothing is refused."""
    orders = Orders(2, 2, False, 1)
    scripts = {orders.case(number).script for number in range(len(orders))}
    texts = [turns_reference.answer(it) for it in scripts]
    if len(scripts) != len(orders) or any("refused" in it for it in texts):
        return "%d scripts, %d texts with a refusal" % (len(scripts), sum("refused" in it for it in texts))
    met = {word for text in texts for word in text.split()}
    return None if {"conflict", "committed", "move"} <= met else "they meet %s" % met


def orders_are_those_of_all_permutations():
    """The orders are as many as permutations of the events of which the second program refuses nothing."""
    orders = Orders(1, 2, False, 1)
    steps = orders.order(0)
    kept = 0
    for order in itertools.permutations(steps):
        script = orders.script_of(order)
        kept += "refused" not in turns_reference.answer(script)
    return None if kept == len(orders) else "%d permutations, and %d orders" % (kept, len(orders))


def larger_orders_are_drawn():
    orders = Orders(3, 2, False, 5, 40)
    again = Orders(3, 2, False, 5, 40)
    scripts = [orders.case(number).script for number in range(len(orders))]
    if scripts != [again.case(number).script for number in range(len(again))]:
        return "the sample is another one"
    texts = [turns_reference.answer(it) for it in scripts]
    if any("refused" in it for it in texts) or not any("locked yes" in it for it in texts):
        return "a refusal, or no lock"
    return None if len(set(scripts)) > 30 else "%d different orders" % len(set(scripts))


def each_place_of_the_move_shows():
    """Whichever batches a seed draws, a state transaction, a conflict and a lock show, and where the move came."""
    for seed in range(DRAWN):
        orders = Orders(2, 2, False, seed)
        points = [it for it in points_of(orders, random.Random(seed)) if not it.ways]
        texts = [turns_reference.answer(orders.script_of(it.way)) for it in points]
        ends = {"".join(sorted(it for it in text.splitlines(True) if not it.startswith("move "))) for text in texts}
        if len(ends) != 3 or not all({"conflict", "private", "1038"} <= set(it.split()) for it in texts):
            return "seed %d: %d ends, %s" % (seed, len(ends), texts)
    return None


def trial_of_orders(call=turns_reference.answer, second=turns_reference.answer, given=None):
    """What is found of an implementation on a small cluster, once all its orders were tried."""
    orders = Orders(2, 2, False, 7)
    orders.given = given or orders.given
    trial = Trial(orders, lambda script: call(script).encode(), second)
    trial.run()
    return trial


def every_order_is_tried():
    """All orders of a small cluster are tried, each of its events at each state, and a right implementation passes."""
    trial = trial_of_orders(KEPT, KEPT)
    found = trial.orders, trial.different.count(), len(trial.ends()), trial.faults
    return None if found == (576, 576, 3, []) and trial.asked > 1000 else "%s, %d events" % (found, trial.asked)


def wrong_order_is_told():
    """An implementation that answers one order wrongly is told by that order's script and the wrong line."""
    script = Orders(2, 2, False, 7).case(300).script
    right = KEPT(script).splitlines()
    place = next(number for number, line in enumerate(right) if line.startswith("offer row 1 "))
    wrong = "\n".join([*right[:place], right[place].replace("judged", "again"), *right[place + 1 :], ""])
    (fault,) = trial_of_orders(lambda it: wrong if it == script else KEPT(it), KEPT).faults or [None]
    told = fault and (fault.script, fault.line, fault.said, fault.right)
    return None if told == (script.decode(), place + 1, wrong.splitlines()[place], right[place]) else str(fault)


def wrong_state_is_told():
    """So is one that does not refuse a finish too many."""
    def wrong(script):
        return KEPT(script).replace("refused 42 OutOfTurn", "refused 43 MissingReply")

    faults = trial_of_orders(wrong, KEPT).faults
    told = [(it.said, it.right) for it in faults]
    return None if told == [("refused 43 MissingReply none", "refused 42 OutOfTurn none")] * len(told) != [] else str(faults)


def broken_laws_are_told():
    """Lines that depend on more than the state, ends that do not show where the move came, and a second program that has
    another text once all events were asked for, are told.
    """
    asked, calls = trial_of_orders(KEPT, KEPT).asked, itertools.count()
    def answer(script):
        """Counts a finish of row 0 before row 1 is offered as another outcome."""
        text = KEPT(script)
        place, later = text.find("finish proxy 0 version 10\n"), text.find("offer row 1 resolver 0")
        return text.replace("txn 0 committed 10 0", "txn 0 committed 10 9") if -1 < place < later else text

    def late(script):
        return KEPT(script).replace("committed", "conflict") if next(calls) >= asked else KEPT(script)

    trials = {
        "other replies": trial_of_orders(answer, answer), "different ends": trial_of_orders(given=[[], []]),
        "the second program has another": trial_of_orders(KEPT, late),
    }
    missed = {why: it.faults for why, it in trials.items() if not any(why in fault.words for fault in it.faults)}
    return str(missed) if missed else None


def orders_find_a_wrong_rule():
    rule = next(it for it in wrong_rule_cases.ALL if it.name == OF_SOME_ORDERS)
    running.run = in_process.Implementation((rule.module, rule.old, rule.new))
    found = in_process.first_difference([Orders(3, 2, False, 1, 30)])
    return None if found else "no order shows that %s" % OF_SOME_ORDERS


def shards_partition_the_cases():
    sources = [cases.Examples(cases.MODES), cases.Random(cases.MODES, 100, 7)]
    every = list(cases.places_of(sources))
    shards = [list(cases.places_of(sources, (part, 16))) for part in range(1, 17)]
    together = sorted(it for shard in shards for it in shard)
    sizes = {len(shard) for shard in shards}
    return None if together == sorted(every) and max(sizes) - min(sizes) <= 1 else "shards of %s cases" % sizes


def random_scripts_are_those_of_the_seed():
    """A script depends on the seed and its number alone, and the modes and kinds take turns."""
    few, many, other = (cases.Random(cases.MODES, count, seed) for count, seed in ((20, 7), (2000, 7), (20, 8)))
    first, again, another = ([source.case(number) for number in range(20)] for source in (few, many, other))
    if first != again or any(one.script == two.script for one, two in zip(first, another)):
        return "the scripts are other ones"
    if {it.mode for it in first[:3]} != set(cases.MODES) or len({it.name for it in first}) != 20:
        return "the modes are %s" % [it.mode for it in first]
    only = cases.Random(["fold"], 3, 7).case(0)
    return None if only.mode == "fold" and reference.answer(only.script) else "the modes are not those that are asked for"


def fault_of_spelling_is_made_small():
    """A script in which a name stands twice is made small, though nothing differs of it once it is written anew."""
    running.run = in_process.Implementation(FIRST_OF_TWO)
    found = in_process.first_difference([cases.Random(["fold"], 300, 3)])
    if found is None:
        return "no random script has a name twice"
    told = trying.tell(in_process.HOW, *found)
    return None if len(told.script) < SMALL else told.script.decode()


def each_fault_of_json_comes():
    """In each mode, and the second program answers it as is known when it is made."""
    return next(filter(None, map(readers_of_json.each_fault_comes, cases.MODES)), None)


def first_difference_needs_no_program():
    """Without a program the second program says what is right, and one line on standard error says so."""
    path, kept, said = os.path.join(TURNS, "two_proxies"), right.PROGRAM, io.StringIO()
    for program, words in ((None, "there is no built program, so the second program"), ("python3 %s" % SECOND, "")):
        options = types.SimpleNamespace(script=path + ".json", text=path + ".out", ours=None, program=program, mode=None)
        right.PROGRAM = "/nothing"
        try:
            with contextlib.redirect_stderr(said):
                status, _ = random_texts.tool().compared(options)
        finally:
            right.PROGRAM = kept
        if status or words not in said.getvalue() or said.getvalue().count("\n") != 1:
            return "status %d, %r" % (status, said.getvalue())
    return None


INSIDE = (
    first_difference_needs_no_program, fault_of_spelling_is_made_small, each_fault_of_json_comes,
    orders_are_counted, every_order_comes_once, orders_are_those_of_all_permutations, larger_orders_are_drawn,
    each_place_of_the_move_shows, every_order_is_tried, wrong_order_is_told, wrong_state_is_told, broken_laws_are_told,
    orders_find_a_wrong_rule, shards_partition_the_cases, random_scripts_are_those_of_the_seed,
)


# ---- the built program


def of_program(program):
    """Checks of the built program, each with its name."""
    def all_of_it(folder):
        words = ["--orders", "--seed", "7", "--seconds", PATIENCE, "--folder", folder]
        status, lines, said = called(COMPARE, *words, "--", program)
        want(status == 0, "\n".join([*lines, said]))
        want_last(lines, r"576 orders: 0 differ \(seed 7\)")

    def some_of_it(folder):
        words = ["--orders", "--batches", "3", "--sample", str(SAMPLE), "--seed", "7", "--seconds", PATIENCE]
        status, lines, said = called(COMPARE, *words, "--folder", folder, "--", program)
        want(status == 0, "\n".join([*lines, said]))
        want("has 59670 orders" in "\n".join(lines), "\n".join(lines))
        want_last(lines, r"%d orders: 0 differ \(seed 7\)" % SAMPLE)

    yield "every order of a small cluster", all_of_it
    yield "some orders of a larger cluster", some_of_it
