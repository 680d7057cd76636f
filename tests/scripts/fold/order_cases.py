"""Scripts with two faults at once, in both orders, and scripts with one fault at each end of each list."""
from tests.scripts.common.script import BAD_SHAPE, NOT_JSON, SERVER_1, SERVER_TAG, Fields, Written, at, write
from tests.scripts.fold.content_cases import FAULTS, SOME

# the ways to a change in the wide script: the first and the last of each list, and the middle of all
ENDS = [(row, state, mutation) for row in (0, 2) for state in (0, 2) for mutation in (0, 2)] + [(1, 1, 1)]


def tags(count):
    """So many changes without a fault."""
    return [{"set": [SERVER_TAG + SERVER_1, "\\x00\\x00\\x01"]} for _ in range(count)]


def wide():
    """Three rows of three transactions of three changes: let pass, refused by a resolver, and not lock aware."""
    marks = [(True, "committed"), (True, "conflict"), (False, "committed")]
    return {
        "ask": ["a", "b", "c"],
        "rows": [
            {
                "states": [
                    {"mutations": tags(3), "lock_aware": aware, "verdicts": ["committed", word]} for aware, word in marks
                ],
                "version": version,
            }
            for version in (10, 20, 30)
        ],
        "resolvers": 2,
    }


def put(script, end, change):
    row, state, mutation = end
    script["rows"][row]["states"][state]["mutations"][mutation] = change
    return script


def faults_at_the_ends():
    """Each fault in the first and the last place of each list, also where the transaction is not let pass."""
    for name, (change, answer) in FAULTS.items():
        for end in ENDS:
            yield "%s at %s" % (name, end), write(put(wide(), end, change)), answer


def two_faults_of_changes():
    """The first fault in the order of the lists is answered, whatever its number is."""
    pairs = [
        ((0, 0, 0), (0, 0, 2)), ((0, 0, 2), (0, 2, 0)), ((0, 2, 2), (2, 0, 0)), ((0, 0, 0), (2, 2, 2)),
        ((2, 0, 0), (2, 0, 2)),
    ]
    for name in SOME:
        for other in SOME:
            for first, second in pairs:
                script = put(put(wide(), first, FAULTS[name][0]), second, FAULTS[other][0])
                yield "%s at %s, %s at %s" % (name, first, other, second), write(script), FAULTS[name][1]


# faults of form: a way to a place of the wide script, and what stands there
SHAPELESS = {
    "no text in the first key": (("rows", 0, "states", 0, "mutations", 0, "set", 0), "\\x6d"),
    "no text in the last value": (("rows", 2, "states", 2, "mutations", 2, "set", 1), "\\xFF"),
    "one text in the last change": (("rows", 2, "states", 2, "mutations", 2, "set"), ["a"]),
    "a null for the first change": (("rows", 0, "states", 0, "mutations", 0), None),
    "a null for the last change": (("rows", 2, "states", 2, "mutations", 2), None),
    "a null for the last change of a transaction": (("rows", 0, "states", 0, "mutations", 2), None),
    "no bool in the first transaction": (("rows", 0, "states", 0, "lock_aware"), 1),
    "a missing verdict in the last transaction": (("rows", 2, "states", 2, "verdicts"), ["committed"]),
    "a strange verdict in the first transaction": (("rows", 0, "states", 0, "verdicts", 0), "no"),
    "the first version 0": (("rows", 0, "version"), 0),
    "versions that do not rise": (("rows", 2, "version"), 20),
    "no resolvers": (("resolvers",), 0),
    "65 resolvers": (("resolvers",), 65),
    "three resolvers": (("resolvers",), 3),
    "no first asked key": (("ask", 0), "a b"),
    "no last asked key": (("ask", 2), "\\"),
    "one more field": (("x",), 1),
}


def turned(script):
    """The script with its fields in the other order."""
    return {name: script[name] for name in reversed(list(script))}


def form_and_content():
    """A fault of form is answered wherever it stands, before a fault of a change or after it."""
    for shapeless, (path, new) in SHAPELESS.items():
        for name in SOME:
            for end in ((0, 0, 1), (2, 2, 1)):
                script = put(wide(), end, FAULTS[name][0])
                at(script, path[:-1])[path[-1]] = new
                yield "%s, and %s at %s" % (shapeless, name, end), write(script), BAD_SHAPE
                yield "%s, and %s at %s, turned" % (shapeless, name, end), write(turned(script)), BAD_SHAPE


# what makes a script no JSON: what is put before its text, and behind it
NO_JSON = {
    "a comma before": (",", ""),
    "a word before": ("x", ""),
    "a byte order mark before": ("\ufeff", ""),
    "a list opened before": ("[", ""),
    "a brace behind": ("", "}"),
    "a comma behind": ("", ","),
    "a second script behind": ("", "{}"),
    "a zero character behind": ("", "\0"),
}

# members that are no JSON, to stand first or last in the script; with none there is one comma too many
NO_MEMBERS = ['', '"x":1e999', '"x":nul', '"x":"\\ud800"', '"x":"\t"', '"x"', '"x":', '"x":[1,]', '"x":01']


def json_and_others():
    """What is no JSON is answered wherever it stands, before all other faults and after them."""
    wrong = {name: write(put(wide(), (0, 0, 0), FAULTS[name][0])) for name in SOME}
    for shapeless, (path, new) in SHAPELESS.items():
        script = wide()
        at(script, path[:-1])[path[-1]] = new
        wrong[shapeless] = write(script)
    wrong["no object"] = "[]"
    wrong["no field"] = "{}"
    for name, text in wrong.items():
        for other, (before, behind) in NO_JSON.items():
            yield "%s, and %s" % (name, other), before + text + behind, NOT_JSON
        if text.startswith("{") and text != "{}":
            for member in NO_MEMBERS:
                yield "%s, and first %s" % (name, member), "{" + member + "," + text[1:], NOT_JSON
                yield "%s, and last %s" % (name, member), text[:-1] + "," + member + "}", NOT_JSON


def doubled_faults():
    """Where a field stands twice, what its first value holds counts for nothing, whatever its fault is."""
    for name in SOME:
        faulty = put(wide(), (0, 0, 0), FAULTS[name][0])
        good = Fields([("rows", faulty["rows"]), *wide().items()])
        wrong = Fields([*wide().items(), ("rows", faulty["rows"])])
        yield "%s in rows that stand again" % name, write(good), printed_wide()
        yield "%s in rows that stood before" % name, write(wrong), FAULTS[name][1]
        both = Fields([("ask", Written("[7]")), *faulty.items()])
        yield "%s behind a wrong ask that stands again" % name, write(both), FAULTS[name][1]


def printed_wide():
    return 'version 30\nlocked no\nmetadata_version none\ntags "a" none\ntags "b" none\ntags "c" none\n'


CASES = (faults_at_the_ends, two_faults_of_changes, form_and_content, json_and_others, doubled_faults)
