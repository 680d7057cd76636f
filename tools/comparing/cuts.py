"""Ways to leave parts out of a script: each takes a shrinker and a script's value, and returns the smaller value."""
import copy

from tests.scripts.common.script import at, write
from tests.scripts.fold.reference import Refused, read_json, read_script
from tests.scripts.threads.reference import read_threads
from tests.scripts.turns.reference import read_turns

# what can follow a line of an event and is of the same event
FURTHER = ("txn ", "mutation ", "private ")
READERS = {"fold": read_script, "turns": read_turns, "threads": read_threads}


def has_form(mode, value):
    """Whether a value has the form of its mode's scripts."""
    try:
        READERS[mode](read_json(write(value).encode()))
        return True
    except Refused:
        return False


def changed(value, **fields):
    return {**value, **fields}


# ---- any lists


def places_of(value, name, path=()):
    """The ways to the lists with this name."""
    if isinstance(value, dict):
        for field, inner in value.items():
            if field == name and isinstance(inner, list):
                yield (*path, field)
            yield from places_of(inner, name, (*path, field))
    elif isinstance(value, list):
        for place, inner in enumerate(value):
            yield from places_of(inner, name, (*path, place))


def without_items(value, listed, gone):
    """A copy of a value that lacks the items with these numbers, of those that are listed by their lists and places."""
    copied = copy.deepcopy(value)
    for number in sorted(gone, reverse=True):
        path, place = listed[number]
        del at(copied, path)[place]
    return copied


def dropped(shrinker, value, paths):
    """Leaves out items of the lists at these places."""
    listed = [(path, place) for path in paths for place in range(len(at(value, path)))]
    gone = shrinker.drop(len(listed), lambda gone: without_items(value, listed, gone))
    return without_items(value, listed, gone)


def items_of(name):
    """Leaves out items of all lists with this name."""
    return lambda shrinker, value: dropped(shrinker, value, list(places_of(value, name)))


def anything(shrinker, value):
    """Leaves out items and fields of a value that does not have the form of a script."""
    for path in list(all_places(value)):
        try:
            inner = at(value, path)
        except (KeyError, IndexError, TypeError):
            continue
        keys = list(inner) if isinstance(inner, dict) else list(range(len(inner)))
        gone = shrinker.drop(len(keys), lambda gone, path=path, keys=keys: without_keys(value, path, keys, gone))
        value = without_keys(value, path, keys, gone)
    return value


def all_places(value, path=()):
    if isinstance(value, (dict, list)):
        yield path
        for step, inner in value.items() if isinstance(value, dict) else enumerate(value):
            yield from all_places(inner, (*path, step))


def without_keys(value, path, keys, gone):
    copied = copy.deepcopy(value)
    for number in sorted(gone, reverse=True):
        del at(copied, path)[keys[number]]
    return copied


# ---- turns


def event_lines(right):
    """The first line of each event in a right text, and the number of each among all lines."""
    found = []
    for number, line in enumerate(right.decode().split("\n")):
        if line == "proxy 0":
            break
        if not line.startswith(FURTHER):
            found.append((number, line))
    return found


class Linked:
    """The events of a script, with what belongs to each row."""

    def __init__(self, value, right):
        self.value, self.events = value, value["events"]
        lines = [line for _, line in event_lines(right)]
        # for each row its event; for each event that finishes a row that row. A refused script has no such lines
        self.rows, self.finishes = [], {}
        if len(lines) == len(self.events):
            self.rows = [place for place, line in enumerate(lines) if line.startswith("sequence row ")]
            for place, line in enumerate(lines):
                if line.startswith("finish proxy "):
                    self.finishes[place] = int(line.split(" ")[4]) // value["step"] - 1

    def without(self, gone):
        """The script without these events: rows after one that is gone get other numbers, and snapshots other versions."""
        lost = {row for row, place in enumerate(self.rows) if place in gone}
        events = []
        for place, event in enumerate(self.events):
            if place not in gone and self.finishes.get(place) not in lost:
                event = self.renumbered(event, lost)
                events += [event] if event else []
        return changed(self.value, events=events)

    def renumbered(self, event, lost):
        """An event as it is without these rows, or nothing if it is of one of them."""
        if not lost:
            return event
        if "offer" in event:
            row = event["offer"]["row"]
            return None if row in lost else {"offer": changed(event["offer"], row=row - sum(it < row for it in lost))}
        if "sequence" in event:
            step = self.value["step"]
            ends = [(row + 1) * step for row in lost]
            batch = [
                changed(it, snapshot=it["snapshot"] - step * sum(end <= it["snapshot"] for end in ends))
                for it in event["sequence"]["batch"]
            ]
            return {"sequence": changed(event["sequence"], batch=batch)}
        return event


def tail(shrinker, value):
    """Leaves out the events after the first one whose lines differ."""
    lines, line = event_lines(shrinker.found.right), shrinker.found.line
    if line is None or len(lines) != len(value["events"]):
        return value
    last = sum(number <= line for number, _ in lines)
    shorter = changed(value, events=value["events"][:last])
    return shorter if shrinker.accepts(shorter) else value


def batches_of_turns(shrinker, value):
    """Leaves out rows, each with its offers and its finish."""
    linked = Linked(value, shrinker.found.right)

    def without(gone):
        return linked.without({linked.rows[row] for row in gone})

    return without(shrinker.drop(len(linked.rows), without))


def events(shrinker, value):
    """Leaves out events of any kind."""
    linked = Linked(value, shrinker.found.right)
    return linked.without(shrinker.drop(len(value["events"]), linked.without))


def resolvers_of_turns(shrinker, value):
    """Leaves out resolvers: what goes to one is left out too, or its moves go to resolver 0."""
    def lacking(value, resolver, move_to):
        kept = []
        for event in value["events"]:
            kind = next(iter(event))
            if kind in ("offer", "move"):
                event = of_others(event, kind, resolver, move_to if kind == "move" else None)
            kept += [event] if event else []
        return changed(value, resolvers=value["resolvers"] - 1, events=kept)

    return lacking_any(shrinker, value, "resolvers", lambda value, number: [lacking(value, number, to) for to in (None, 0)])


def of_others(event, kind, resolver, move_to):
    """An event that goes to a resolver, as it is without this one; nothing if it went there and goes nowhere else."""
    number = event[kind]["resolver"]
    if number == resolver:
        return None if move_to is None else {kind: changed(event[kind], resolver=move_to)}
    return {kind: changed(event[kind], resolver=number - (number > resolver))}


def lacking_any(shrinker, value, field, smaller_ones):
    """Leaves out numbered things one after another, the last one first, by the first way that is accepted."""
    number = value[field]
    while number and not shrinker.is_over():
        number -= 1
        if value[field] > 1:
            value = next((it for it in smaller_ones(value, number) if shrinker.accepts(it)), value)
    return value


def proxies_of_turns(shrinker, value):
    """Leaves out proxies, each with its rows, or with its rows given to another one."""
    def lacking(value, proxy):
        linked = Linked(value, shrinker.found.right)
        gone = {place for place, event in enumerate(value["events"]) if of_proxy(event) == proxy}
        return changed(renamed(linked.without(gone), proxy, proxy), proxies=value["proxies"] - 1)

    def smaller_ones(value, proxy):
        yield lacking(value, proxy)
        for other in range(value["proxies"]):
            if other != proxy:
                yield changed(renamed(value, proxy, other), proxies=value["proxies"] - 1)

    return lacking_any(shrinker, value, "proxies", smaller_ones)


def of_proxy(event):
    kind = next(iter(event))
    return event[kind].get("proxy")


def renamed(value, proxy, other):
    """The script with another number for a proxy, and with one less for each after it."""
    def number(it):
        it = other if it == proxy else it
        return it - (it > proxy)

    kept = []
    for event in value["events"]:
        kind = next(iter(event))
        kept.append({kind: changed(event[kind], proxy=number(of_proxy(event)))} if of_proxy(event) is not None else event)
    return changed(value, events=kept)


# ---- threads


def batches_of_threads(shrinker, value):
    return dropped(shrinker, value, [("work", proxy) for proxy in range(len(value["work"]))])


def rounds_of_threads(shrinker, value):
    """Leaves out the batches with one number of all proxies at once:
    without only one of them the order in turns is another one.
    """
    def without(gone):
        return changed(
            value, work=[[it for number, it in enumerate(batches) if number not in gone] for batches in value["work"]],
        )

    return without(shrinker.drop(max(map(len, value["work"]), default=0), without))


def transactions_of_threads(shrinker, value):
    paths = [("work", proxy, number) for proxy, batches in enumerate(value["work"]) for number in range(len(batches))]
    return dropped(shrinker, value, paths)


def proxies_of_threads(shrinker, value):
    """Leaves out proxies, each with its batches."""
    def lacking(value, proxy):
        work = value["work"][:proxy] + value["work"][proxy + 1 :]
        return changed(value, proxies=value["proxies"] - 1, work=work)

    return lacking_any(shrinker, value, "proxies", lambda value, number: [lacking(value, number)])


def resolvers_of_threads(shrinker, value):
    """Leaves out resolvers: the moves to one are left out too, or go to resolver 0."""
    def lacking(value, resolver, move_to):
        moved = [of_others({"move": it}, "move", resolver, move_to) for it in value["moves"]]
        return changed(value, resolvers=value["resolvers"] - 1, moves=[it["move"] for it in moved if it])

    return lacking_any(shrinker, value, "resolvers", lambda value, number: [lacking(value, number, to) for to in (None, 0)])


# ---- fold


def fold_rows(shrinker, value):
    return dropped(shrinker, value, [("rows",)])


def columns(shrinker, value):
    """Leaves out resolvers, each with its verdicts."""
    def lacking(value, resolver):
        copied = copy.deepcopy(value)
        copied["resolvers"] -= 1
        for path in places_of(copied, "verdicts"):
            del at(copied, path)[resolver]
        return copied

    return lacking_any(shrinker, value, "resolvers", lambda value, number: [lacking(value, number)])
