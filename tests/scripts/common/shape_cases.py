"""Scripts that are JSON and do not have the form: fields, types, lengths of lists, numbers, words."""
from tests.scripts.common.script import BAD_SHAPE, NOT_JSON, Fields, Written, at, kind_at, named, write

# JSON values, each with the kinds of place at which it is no fault of type
SAMPLES = {
    "null": (),
    "true": ("bool",),
    "false": ("bool",),
    "7": ("number",),
    "-1": (),
    "-0": (),
    "1.5": (),
    "7.0": (),
    "7e0": (),
    "1e-400": (),
    "9223372036854775808": (),
    "18446744073709551615": (),
    "18446744073709551616": (),
    '"text"': ("bytes",),
    '""': ("bytes",),
    '"7"': ("bytes",),
    '"true"': ("bytes",),
    '"committed"': ("bytes", "verdict"),
    "[]": ("list", "batches"),
    "[[]]": ("batches",),
    "[null]": (),
    "{}": (),
    '{"x":1}': (),
}


def missing_fields(form):
    for path, value in form.places("dict"):
        for name in value:
            script = form.good()
            del at(script, path)[name]
            yield "%s without %s" % (named(path), name), write(script), BAD_SHAPE


def extra_fields(form):
    """One more field, by each name that stands anywhere in the form, and by others."""
    names = ["", "x", "set", "clear", "set_stamped", "version", "states", "mutations", "lock_aware", "verdicts"]
    names += [
        "resolvers", "rows", "ask", "snapshot", "reads", "writes", "proxies", "window", "step", "events", "sequence",
        "proxy",
    ]
    names += ["batch", "move", "range", "resolver", "offer", "row", "finish", "moves", "work"]
    for path, value in form.places("dict"):
        for name in names:
            if name not in value:
                for more in (None, 1, ["a", "b"]):
                    script = form.changed(path, dict(value, **{name: more}))
                    yield "%s with %r: %r too" % (named(path), name, more), write(script), BAD_SHAPE


def misspelled_fields(form):
    for path, value in form.places("dict"):
        for name in value:
            for other in (name.upper(), name.capitalize(), name[:-1], name + " ", name + "\0", form.stranger):
                fields = {other if old == name else old: inner for old, inner in value.items()}
                yield "%s with %r for %s" % (named(path), other, name), write(form.changed(path, fields)), BAD_SHAPE


def wrong_types(form):
    for path, value in form.places():
        for sample, fits in SAMPLES.items():
            if kind_at(path, value) not in fits:
                yield "%s is %s" % (named(path), sample), write(form.changed(path, Written(sample))), BAD_SHAPE


def is_pair(path):
    """Whether a key and its value, or a range, must stand at a place."""
    return path[-1] in ("set", "clear", "set_stamped", "range") or (len(path) > 1 and path[-2] in ("reads", "writes"))


def lists_of_wrong_length(form):
    for path, value in form.places("list"):
        if is_pair(path):
            for count in (0, 1, 3, 4):
                yield (
                    "%s of %d texts" % (named(path), count), write(form.changed(path, ["a", "b", "c", "d"][:count])),
                    BAD_SHAPE,
                )


def lists_for_elements(form):
    """An element that stands in one more list, or a list whose brackets are gone."""
    for path, value in form.places():
        if path and isinstance(path[-1], int):
            yield "%s in one more list" % named(path), write(form.changed(path, [value])), BAD_SHAPE
        if isinstance(value, list) and len(value) == 1:
            yield "%s without its list" % named(path), write(form.changed(path, value[0])), BAD_SHAPE


# spellings of numbers that a number of a script may not have, though JSON knows them
NUMBERS = ["-1", "-0", "-0.0", "0.0", "20.0", "2e1", "2E1", "2e+1", "200e-1", "20e0", "1e-400", "0e999", "1e308", "2" * 20]
NUMBERS += ["1.7976931348623157e308", "2" * 300, "0." + "2" * 400, "-9223372036854775808", "-9223372036854775809"]

# spellings that are no numbers, or none that a float can hold
NO_NUMBERS = ["020", "00", "+20", "20.", ".5", "2e", "2e+", "2.e1", "-", "--1", "0x14", "1_0", "1,0", "NaN", "Infinity"]
NO_NUMBERS += [
    "-Infinity", "1e309", "-1e309", "1.7976931348623159e308", "2" * 310, "1e99999999999999999999", "- 1", "1 0", "２",
]


def spellings_of_numbers(form):
    for path, _ in form.places("number"):
        for spelled in NUMBERS:
            yield "%s is %s" % (named(path), spelled), write(form.changed(path, Written(spelled))), BAD_SHAPE
    for path, value in form.places():
        if kind_at(path, value) in ("number", "bytes", "bool"):
            for spelled in NO_NUMBERS:
                if not (spelled == "1,0" and isinstance(path[-1], int)):
                    yield "%s is %s" % (named(path), spelled), write(form.changed(path, Written(spelled))), NOT_JSON


def doubled_fields(form):
    """A field that stands twice is read by its last value, by whatever escapes its name is spelled."""
    for path, value in form.places("dict"):
        for name, inner in value.items():
            spelled = Written('"\\u%04x%s"' % (ord(name[0]), name[1:]))
            for other in (name, spelled):
                first = Fields([(other, None), *value.items()])
                last = Fields([*value.items(), (other, None)])
                yield "%s with a wrong %s, then all" % (named(path), other), write(form.changed(path, first)), form.answer
                yield "%s, then a wrong %s" % (named(path), other), write(form.changed(path, last)), BAD_SHAPE
            thrice = Fields([(name, inner), (name, 1.5), *value.items()])
            yield "%s with %s thrice" % (named(path), name), write(form.changed(path, thrice)), form.answer


OF_EACH_FORM = (
    missing_fields, extra_fields, misspelled_fields, wrong_types, lists_of_wrong_length, lists_for_elements,
    spellings_of_numbers, doubled_fields,
)
