"""What decides a line of a turns script's text."""
from tests.scripts.turns.reference import VERSION_LIMIT

from . import copies, offers, outcomes
from .journal import range_words
from .texts import count, joined


def explain(run, at, theirs):
    """What decides the line with this number among those that can be explained."""
    told, before = run.told[at], run.told[max(at - 1, 0)]
    if copies.is_added(before.line, told.line, theirs):
        return [first_words(run, before.event), *outcomes.explain_added_copy(run, before, theirs)]
    more = [copies.PLACE] if copies.is_copy(theirs) and not copies.is_copy(told.line) else []
    if told.event is None:
        return [*explain_end(run, told, theirs), *more]
    by_kind = {"sequence": sequence_words, "move": move_words, "offer": offer_words, "finish": finish_words}
    return [first_words(run, told.event), *by_kind[run.events[told.event][0]](run, told, theirs), *more]


def first_words(run, event):
    """Which event a line is of."""
    kind, *words = run.events[event]
    return "Event %d %s." % (event, event_words(kind, words))


def event_words(kind, words):
    """An event, in words."""
    if kind == "sequence":
        return "sequences a batch of %s for proxy %d" % (count(len(words[1]), "transaction"), words[0])
    if kind == "move":
        return "moves %s to resolver %d" % (range_words(words[0]), words[1])
    if kind == "offer":
        return "offers row %d to resolver %d" % tuple(words)
    return "finishes a batch of proxy %d" % words[0]


def sequence_words(run, told, _theirs):
    proxy, cluster = run.events[told.event][1], run.before(told.event)
    if proxy >= cluster.proxies:
        yield "The proxies of the cluster are %s." % joined(range(cluster.proxies))
        return
    yield "The next row is %d, and its version the last one plus the step: %d + %d = %d." % (
        len(cluster.history), cluster.last_version(), cluster.step, cluster.last_version() + cluster.step)
    if told.line.startswith("refused "):
        yield "The greatest version is %d." % (VERSION_LIMIT - 1)


def move_words(run, told, _theirs):
    cluster = run.before(told.event)
    if told.line.startswith("refused "):
        yield "The cluster has %s; they count from 0." % count(cluster.resolvers, "resolver")
        return
    yield "A move is dated one after the last version: %d + 1." % cluster.last_version()


def offer_words(run, told, theirs):
    return offers.explain_offer(run, told.event, theirs)


def finish_words(run, told, theirs):
    return outcomes.explain_finish(run, told.event, told.line, theirs)


def explain_end(run, told, theirs):
    """What decides a line after the events."""
    yield "This line is of proxy %d, after the last event." % told.proxy
    if told.line.split(" ")[0] == "proxy":
        yield "The proxies follow the lines of the events: %s." % joined(range(run.cluster.proxies))
        return
    yield outcomes.version_words(run, told.proxy)
    if told.line.startswith("version "):
        yield from outcomes.left_words(run, told.proxy)
        return
    version = run.cluster.finished_version(told.proxy)
    yield from outcomes.explain_metadata(run.journal, version, told.line, theirs)
