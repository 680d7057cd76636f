"""Fold scripts with their fields in each order: rows are folded as they come where the resolvers stand before them."""
import itertools

from tests.scripts.common.script import BAD_SHAPE, changed, write
from tests.scripts.fold.content_cases import FAULTS, SOME
from tests.scripts.fold.order_cases import put, wide

WIDE_ANSWER = 'version 30\nlocked no\nmetadata_version none\ntags "a" none\ntags "b" none\ntags "c" none\n'

# late faults of form: a way to a place of the wide script, and what stands there
LATE = {
    "the last version again": (("rows", 2, "version"), 20),
    "a last version below the one before": (("rows", 2, "version"), 19),
    "a last version below the first": (("rows", 2, "version"), 1),
    "the second version 0": (("rows", 1, "version"), 0),
    "a last version past the limit": (("rows", 2, "version"), 2**63),
    "no verdicts in the last transaction": (("rows", 2, "states", 2, "verdicts"), []),
    "one verdict in the last transaction": (("rows", 2, "states", 2, "verdicts"), ["committed"]),
    "three verdicts in the last transaction": (("rows", 2, "states", 2, "verdicts"), ["committed"] * 3),
    "three verdicts in one that is not let pass": (("rows", 1, "states", 1, "verdicts"), ["conflict"] * 3),
    "a strange verdict in the last transaction": (("rows", 2, "states", 2, "verdicts", 1), "no"),
    "one more field in the last row": (("rows", 2, "x"), 1),
    "a null for the last row": (("rows", 2), None),
    "one resolver": (("resolvers",), 1),
    "three resolvers": (("resolvers",), 3),
    "no resolvers": (("resolvers",), 0),
    "65 resolvers": (("resolvers",), 65),
    "no text in the last asked key": (("ask", 2), 7),
}


def scripts():
    """The wide script, and with each late fault: what it is, the script, and what is answered."""
    yield "no fault", wide(), WIDE_ANSWER
    for name, (path, new) in LATE.items():
        yield name, changed(wide(), path, new), BAD_SHAPE
    for name in SOME:
        change, answer = FAULTS[name]
        for end in ((1, 0, 0), (2, 1, 2), (2, 2, 2)):
            yield "%s at %s" % (name, end), put(wide(), end, change), answer


def fields_in_each_order():
    """What is answered does not depend on the order of the fields of the script."""
    for name, script, answer in scripts():
        for order in itertools.permutations(script):
            ordered = {field: script[field] for field in order}
            yield "%s: %s" % (name, ", ".join(order)), write(ordered), answer


CASES = (fields_in_each_order,)
