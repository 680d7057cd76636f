"""Fold scripts without their form: verdicts, counts of resolvers, versions, and fields that stand elsewhere."""
from tests.scripts.common.forms import FOLD
from tests.scripts.common.script import BAD_SHAPE, at, named, write


def moved_fields():
    """A field that stands in the object around its own, or in the one inside."""
    yield "ask in a row", write(moved((), ("rows", 0), "ask")), BAD_SHAPE
    yield "states around the rows", write(moved(("rows", 0), (), "states")), BAD_SHAPE
    yield "verdicts around the states", write(moved(("rows", 0, "states", 0), ("rows", 0), "verdicts")), BAD_SHAPE
    yield (
        "lock_aware in a change",
        write(moved(("rows", 1, "states", 0), ("rows", 1, "states", 0, "mutations", 0), "lock_aware")), BAD_SHAPE,
    )


def moved(old, new, name):
    script = FOLD.good()
    value = at(script, old).pop(name)
    at(script, new)[name] = value
    return script


def lists_of_verdicts():
    for row in (0, 1):
        path = ("rows", row, "states", 0, "verdicts")
        for count in (0, 1, 3, 4):
            yield "%s of %d" % (named(path), count), write(FOLD.changed(path, ["committed"] * count)), BAD_SHAPE


def with_resolvers(resolvers, verdicts):
    script = {"resolvers": resolvers, "rows": [{"version": 1, "states": []}], "ask": []}
    script["rows"][0]["states"].append({"mutations": [], "lock_aware": False, "verdicts": ["committed"] * verdicts})
    return write(script)


def counts_of_resolvers():
    empty = "version 1\nlocked no\nmetadata_version none\n"
    for resolvers, verdicts in ((0, 0), (65, 65), (1, 0), (1, 2), (64, 63), (64, 65), (64, 0), (2, 64)):
        yield "%d resolvers and %d verdicts" % (resolvers, verdicts), with_resolvers(resolvers, verdicts), BAD_SHAPE
    for resolvers in (1, 2, 63, 64):
        yield "%d resolvers and as many verdicts" % resolvers, with_resolvers(resolvers, resolvers), empty
    for resolvers in (0, 65, 2**32 + 1, 2**63 - 1, 2**63, 2**64 - 1, 2**64, 2**64 + 1):
        script = write({"resolvers": resolvers, "rows": [], "ask": []})
        yield "%d resolvers without rows" % resolvers, script, BAD_SHAPE
    for resolvers in (1, 64):
        script = write({"resolvers": resolvers, "rows": [], "ask": []})
        yield "%d resolvers without rows" % resolvers, script, empty.replace("version 1", "version 0")


def with_versions(*versions):
    return write({"resolvers": 1, "rows": [{"version": version, "states": []} for version in versions], "ask": []})


def versions():
    last = 2**63 - 1
    for right in ((1,), (last,), (1, 2), (last - 1, last), (1, last), (1, 2, 3, 4)):
        yield "versions %s" % (right,), with_versions(*right), "version %d\nlocked no\nmetadata_version none\n" % right[-1]
    wrong = [(0,), (last + 1,), (2**64 - 1,), (2**64,), (2**64 + 1,), (-1,), (0, 1), (1, 1), (2, 1), (1, 0), (last, last)]
    wrong += [(last, last + 1), (1, 2, 2), (1, 3, 2), (1, 1, 2), (2, 1, 3), (1, 2, last + 1), (last, 1), (0, 0)]
    for versions in wrong:
        yield "versions %s" % (versions,), with_versions(*versions), BAD_SHAPE


def wrong_words():
    words = ["", "Committed", "COMMITTED", "commit", "committed ", " committed", "committed\0", "tooold", "too old"]
    words += ["too-old", "TooOld", "Too_old", "conflict ", "Conflict", "conflicts", "locked", "yes", "\\x63ommitted"]
    for path, _ in FOLD.places("verdict"):
        for word in words:
            yield "%s is %r" % (named(path), word), write(FOLD.changed(path, word)), BAD_SHAPE


def other_forms():
    """What is right elsewhere: a turns script, a threads script, a row, and the rows alone."""
    cluster = {"proxies": 1, "resolvers": 1, "window": 1, "step": 1, "ask": []}
    yield "a turns script", write({**cluster, "events": []}), BAD_SHAPE
    yield "a threads script", write({**cluster, "rows": 1, "moves": [], "work": [[]]}), BAD_SHAPE
    yield "a row", write(FOLD.good()["rows"][0]), BAD_SHAPE
    yield "the rows alone", write(FOLD.good()["rows"]), BAD_SHAPE


CASES = (moved_fields, lists_of_verdicts, counts_of_resolvers, versions, wrong_words, other_forms)
