"""Bytes that are no JSON: cut, with a token more or less or another, with more after the end, or nested too deep."""
import re

from tests.scripts.common.script import BAD_SHAPE, NOT_JSON, Fields, Written, named, write

TOKEN = re.compile(r'"[^"\\]*(?:\\.[^"\\]*)*"|[{}\[\]:,]|[^{}\[\]:,"\s]+')


def tokens(form):
    """The tokens of the good script: what is before each, the token, and what is after it."""
    whole = write(form.good())
    for found in TOKEN.finditer(whole):
        yield whole[: found.start()], found.group(), whole[found.end() :]


def prefixes(form):
    whole = write(form.good())
    for length in range(len(whole)):
        yield "the first %d bytes" % length, whole[:length], NOT_JSON
        yield "the last %d bytes" % length, whole[len(whole) - length :], NOT_JSON


def tokens_deleted(form):
    """Without one token no script is left, unless the token was alone in its list: that of the asked keys."""
    of_none = "".join(line for line in form.answer.splitlines(True) if not line.startswith("tags "))
    for before, token, after in tokens(form):
        alone = before.endswith("[") and after.startswith("]")
        yield "without %s at %d" % (token, len(before)), before + after, of_none if alone else NOT_JSON


def tokens_doubled(form):
    for before, token, after in tokens(form):
        yield "%s twice at %d" % (token, len(before)), before + token + " " + token + after, NOT_JSON


def tokens_exchanged(form):
    """A bracket of another kind, and another sign for a colon or a comma."""
    others = {"{": "[(", "}": "])>", "[": "{(", "]": "})>", ":": ",;=", ",": ":;"}
    for before, token, after in tokens(form):
        for other in others.get(token, ()):
            yield "%s for %s at %d" % (other, token, len(before)), before + other + after, NOT_JSON


NO_WORDS = [
    "nul", "nulll", "Null", "NULL", "None", "undefined", "True", "TRUE", "tru", "truee", "False", "fals", "yes", "NaN",
]
NO_WORDS += ["'a'", "`a`", "a", "\\", "/**/", "//", "#", "@", ";", "(1)", "<1>", '"', '"a', 'a"', "[", "{", "]", "}", "[1,]"]
NO_WORDS += [
    "[,1]", "[,]", "[1 2]", "{1}", "{1:2}", '{"a"}', '{"a":}', '{"a":1,}', '{,"a":1}', '{,}', '{"a" 1}', '{"a":1 "b":2}',
    "{a:1}",
]


def no_words(form):
    for path, value in form.places():
        if not isinstance(value, (dict, list)) or not path:
            for word in NO_WORDS:
                yield "%s is %s" % (named(path), word), write(form.changed(path, Written(word))), NOT_JSON


def names_that_are_none(form):
    for name in sorted({step for path, _ in form.places() for step in path if isinstance(step, str)}):
        for spelled in (name, "'%s'" % name, '"%s' % name, '%s"' % name, "1", "null", "[]", ""):
            text = write(form.good()).replace('"%s"' % name, spelled, 1)
            yield "%s for the name %s" % (spelled, name), text, NOT_JSON


def bytes_around(form):
    """Each byte before and after the script: only white space of JSON may stand there."""
    whole = write(form.good()).encode()
    for byte in range(256):
        answer = form.answer if byte in b" \t\n\r" else NOT_JSON
        yield "the byte %02x before it" % byte, bytes([byte]) + whole, answer
        yield "the byte %02x after it" % byte, whole + bytes([byte]), answer
    for more in (
        "{}", "null", "1", ",", ",{}", "//", "/**/", "# comment", "\0", "\0\0", "\ufeff", "\u00a0", "\u2028", "x" * 70000,
    ):
        yield "%.9r after it" % more, whole + more.encode(), NOT_JSON
        yield "%.9r before it" % more, more.encode() + whole, NOT_JSON
    yield "white space of JSON after it", whole + b" \n" * 40000, form.answer
    yield "nothing at all", b"", NOT_JSON
    yield "white space alone", b" \n\t\r", NOT_JSON
    yield "the script twice", whole + whole, NOT_JSON
    yield "the script twice in lines", whole + b"\n" + whole, NOT_JSON


def between_tokens(form):
    """White space between the tokens changes nothing, and other characters are no JSON."""
    whole = " \t\r\n".join(token for _, token, _ in tokens(form))
    yield "white space everywhere", whole, form.answer
    for before, token, after in tokens(form):
        for space in (" ", "\n"):
            yield "white space %r before %s at %d" % (space, token, len(before)), before + space + token + after, form.answer
        for other in ("\0", "\f", "\v", "\u00a0", "\ufeff", "/**/", "\\"):
            yield "%r before %s at %d" % (other, token, len(before)), before + other + token + after, NOT_JSON
        if not token.startswith('"') and token not in tuple("{}[]:,"):
            middle = token[:1] + " " + token[1:]
            if len(token) > 1:
                yield "white space in %s at %d" % (token, len(before)), before + middle + after, NOT_JSON


def too_deep(form):
    """Lists and objects at each place, up to 127 in each other, and one more."""
    forms = (("lists", "[", "]", ""), ("objects", '{"x":', "}", "0"))
    for path, _ in form.places():
        for name, opens, closes, inner in forms:
            for depth, answer in ((127, BAD_SHAPE), (128, NOT_JSON), (129, NOT_JSON), (1000, NOT_JSON)):
                count = depth - len(path)
                value = Written(opens * count + inner + closes * count)
                yield "%d %s deep at %s" % (depth, name, named(path)), write(form.changed(path, value)), answer
    for depth, answer in ((126, form.answer), (127, NOT_JSON), (100000, NOT_JSON)):
        script = Fields([("ask", Written("[" * depth + "]" * depth)), *form.good().items()])
        yield "%d lists in a field that stands again" % depth, write(script), answer
    yield "100,000 brackets that open", "[" * 100000, NOT_JSON
    yield "100,000 brackets that close", "]" * 100000, NOT_JSON


def faults_in_doubled_fields(form):
    """What is no JSON refuses a script also where the field stands again."""
    for name in form.good():
        for word in ("1e999", "nul", '"\\ud800"', '"\\x00"', "01", '"\t"', "[1,]"):
            script = Fields([(name, Written(word)), *form.good().items()])
            yield "%s is %s, then all" % (name, word), write(script), NOT_JSON
    for path, value in form.places("dict"):
        inner = Fields([(next(iter(value)), Written("1e999")), *value.items()])
        yield "%s with 1e999, then all" % named(path), write(form.changed(path, inner)), NOT_JSON


OF_EACH_FORM = (
    prefixes, tokens_deleted, tokens_doubled, tokens_exchanged, no_words, names_that_are_none, bytes_around, between_tokens,
    too_deep, faults_in_doubled_fields,
)
