"""Faults of the JSON of a script, in random places: what readers of JSON differ in.

Each kind has a name. Of some the script is no JSON value (70), of the others one without the form of a script (71), which a
reader that is not strict takes for another value.
"""
import re
from typing import NamedTuple

from tests.scripts.common.json_cases import NO_WORDS
from tests.scripts.common.script import BAD_SHAPE, NOT_JSON
from tests.scripts.common.shape_cases import NO_NUMBERS, NUMBERS
from tests.scripts.common.text_cases import NO_ESCAPES, NO_UTF8

TOKEN = re.compile(r'"[^"\\]*(?:\\.[^"\\]*)*"|[{}\[\]:,]|[^{}\[\]:,"\s]+', re.DOTALL)
NUMBER = re.compile(r"-?(0|[1-9][0-9]*)(\.[0-9]+)?([eE][+-]?[0-9]+)?", re.ASCII)
# a character of a string, by an escape or as it is
CHARACTER = re.compile(r"\\u[0-9a-fA-F]{4}|\\.|[^\\]", re.DOTALL)
OTHER_BRACKETS = {"{": "[(", "}": "])", "[": "{(", "]": "})"}

DEEPEST = 127
TOO_LARGE = [it for it in NO_NUMBERS if NUMBER.fullmatch(it)]
NOT_A_NUMBER = ["NaN", "-NaN", "nan", "Infinity", "-Infinity", "inf"]
MISSPELLED = [it for it in NO_NUMBERS if it not in (*TOO_LARGE, *NOT_A_NUMBER, "1,0")]
HALF_PAIRS = [it for it in NO_ESCAPES if it.startswith("\\ud")]
# (one that ends too early would be whole before some characters)
OTHER_ESCAPES = [it for it in NO_ESCAPES if it not in HALF_PAIRS and (len(it) > 5 or not it.startswith("\\u"))]
BYTES_OF_NO_TEXT = [it.decode(errors="surrogateescape") for it in NO_UTF8.values()]
CONTROLS = [chr(code) for code in range(0x20)]
# characters that JSON knows in a string, and no text of bytes
BEYOND = ["\x7f", "\u0080", "\u00e9", "\u2028", "\ufeff", "\ufffd", "\U0001f600", "\\ud83d\\ude00", "\\udbff\\udfff"]
ESCAPED = ["\\u0000", "\\u001f", "\\u007f", "\\b", "\\f", "\\n", "\\r", "\\t"]
SPACES = ["\f", "\v", "\0", "\x1f", "\u0085", "\u00a0", "\u2028", "\u3000", "\ufeff"]
COMMENTS = ["/**/", "/* { */", "//\n", "// ,\n", "#\n", "<!---->"]
ENCODINGS = ["utf-16", "utf-16-le", "utf-16-be", "utf-32", "utf-32-le", "utf-32-be"]
# what no field may have, whatever its name, and what is no JSON wherever it stands
NEVER_RIGHT = ["null", "-0", "1.5", '"\\u0000"', "[null]", '{"":0}']
NEVER_JSON = ["1e999", "-1e999", '"\\ud800"', "NaN", "01", '"\t"', "[1,]", '{"a":"\\udc00"}', "nul", '"\udcff"']


class Tokens:
    """The tokens of a JSON text, by their numbers."""

    def __init__(self, text):
        self.text = text
        found = [it.span() for it in TOKEN.finditer(text)]
        self.spans, self.words = found, [text[begin:end] for begin, end in found]
        self.all = range(len(found))

    def of(self, *kinds):
        """The tokens of these kinds: the brackets, the comma and the colon are kinds of their own."""
        return [it for it in self.all if self.kind(it) in kinds]

    def kind(self, at):
        word = self.words[at]
        if word in ("{", "}", "[", "]", ":", ","):
            return word
        if word.startswith('"'):
            return "name" if self.words[at + 1 : at + 2] == [":"] else "text"
        return "number" if NUMBER.fullmatch(word) else "word"

    def put(self, at, spelled):
        """The text with another token for this one."""
        begin, end = self.spans[at]
        return self.text[:begin] + spelled + self.text[end:]

    def put_before(self, at, spelled):
        begin, _ = self.spans[at]
        return self.text[:begin] + spelled + self.text[begin:]

    def depth(self, at):
        """How many lists and objects a token stands in."""
        before = self.words[:at]
        return sum(map(before.count, "[{")) - sum(map(before.count, "]}"))

    def end_of(self, at):
        """The bracket that closes the one at this place."""
        depth = 0
        for place in range(at, len(self.words)):
            depth += (self.words[place] in ("{", "[")) - (self.words[place] in ("}", "]"))
            if not depth:
                return place
        raise ValueError("a bracket is not closed")


SCALARS = ("number", "text", "word")


# ---- one fault each, in a random place


def value_of(spellings):
    """One of these for a number, a text or a word."""
    return lambda rng, read: read.put(rng.choice(read.of(*SCALARS)), rng.choice(spellings))


def number_of(respelled, others):
    """A number by another spelling, or one of others for any value."""
    def plant(rng, read):
        numbers = [it for it in read.of("number") if read.words[it].isdecimal()]
        if not numbers or rng.random() < 0.3:
            return read.put(rng.choice(read.of(*SCALARS)), rng.choice(others))
        at = rng.choice(numbers)
        return read.put(at, rng.choice(respelled(read.words[at])))

    return plant


def other_spellings(number):
    return ["-" + number, number + ".0", number + "e0", number + "E+0", number + ".00e-0"]


def past_64_bits(number):
    """Numbers of which the low bits are this one."""
    return [str(2**bits + int(number)) for bits in (63, 64, 65, 128, 1000)]


def misspellings(number):
    before = [it + number for it in ("0", "00", "+", ".", "0x")]
    return [*before, number + ".", number + "e", number + "_0"]


def in_a_string(spellings):
    """One of these before, between or after the characters of a text or a name."""
    def plant(rng, read):
        at = rng.choice(read.of("name", "text") if rng.random() < 0.3 else read.of("text") or read.of("name"))
        characters = CHARACTER.findall(read.words[at][1:-1])
        characters.insert(rng.choice([0, len(characters), rng.randrange(len(characters) + 1)]), rng.choice(spellings))
        return read.put(at, '"%s"' % "".join(characters))

    return plant


def between(spellings):
    """One of these between two tokens, before the first or after the last."""
    def plant(rng, read):
        at = rng.randrange(len(read.all) + 1)
        spelled = rng.choice(spellings)
        return read.put_before(at, spelled) if at < len(read.all) else read.text + spelled

    return plant


def anywhere(rng, read):
    """Bytes that are no UTF-8, in a string or between two tokens."""
    return rng.choice([in_a_string, in_a_string, between])(BYTES_OF_NO_TEXT)(rng, read)


def cut_off(rng, read):
    """A beginning of the text, without its last brace."""
    end = read.text.rindex("}")
    return read.text[: rng.choice([0, end, rng.randrange(end + 1)])]


def after(rng, read):
    more = rng.choice(["x", ",", "{}", "]", "}", "\0", "1", "null", read.text, "\n" + read.text, "//"])
    return read.text + more


def before(rng, read):
    return rng.choice(["x", ",", "[", "}", "//", "\0", "0", "null ", ")]}'\n"]) + read.text


def byte_order_mark(_rng, read):
    return "\ufeff" + read.text


def encoded(rng, read):
    return read.text.encode(rng.choice(ENCODINGS))


def other_quotes(rng, read):
    """A string between other marks, or a name without any."""
    at = rng.choice(read.of("name", "text"))
    marks = ["''", "``", "\u201c\u201d", ("", "")] if read.kind(at) == "name" else ["''", "``", "\u201c\u201d"]
    opens, closes = rng.choice(marks)
    return read.put(at, opens + read.words[at][1:-1] + closes)


def comma(rng, read):
    """A comma before a closing bracket, after an opening one, or after a comma."""
    at = rng.choice(read.of("]", "}", "[", "{", ","))
    return read.put_before(at, ",") if read.kind(at) in ("]", "}") else read.put(at, read.words[at] + ",")


def missing(rng, read):
    """A bracket or a colon left out."""
    return read.put(rng.choice(read.of("{", "}", "[", "]", ":")), "")


def bracket(rng, read):
    at = rng.choice(read.of(*OTHER_BRACKETS))
    return read.put(at, rng.choice(OTHER_BRACKETS[read.words[at]]))


def nested(depths):
    """Lists and objects in each other for a value, so deep with those around them."""
    def plant(rng, read):
        at = rng.choice(read.of(*SCALARS))
        opens, closes = [], []
        for kind in rng.choices(rng.choice(["[", "{", "[{"]), k=max(1, rng.choice(depths) - read.depth(at))):
            opens.append("[" if kind == "[" else '{"a":')
            closes.append("]" if kind == "[" else "}")
        return read.put(at, "".join(opens) + ("0" if opens[-1] != "[" else "") + "".join(reversed(closes)))

    return plant


def objects(read):
    """The objects that have a field."""
    return [at for at in read.of("{") if at + 1 < len(read.all) and read.kind(at + 1) == "name"]


def fault_that_does_not_count(rng, read):
    """What is no JSON, as the value of a field that stands again."""
    at = rng.choice(objects(read)) + 1
    deep = "[" * 200 + "]" * 200
    return read.put_before(at, "%s:%s," % (read.words[at], rng.choice([*NEVER_JSON, deep])))


def wrong_value_last(rng, read):
    """A value that no field may have, for a field that has had a value before."""
    at = rng.choice(objects(read))
    return read.put_before(read.end_of(at), ",%s:%s" % (read.words[at + 1], rng.choice(NEVER_RIGHT)))


def other_name(rng, read):
    """A name in other letters, with a space, or otherwise like one of a script."""
    at = rng.choice(read.of("name"))
    name = read.words[at][1:-1]
    plain = name if name.isidentifier() and name.islower() else "ask"
    in_case = rng.choice([plain.upper(), plain.capitalize(), plain[:-1] + plain[-1].upper()])
    others = [plain.title().replace("_", "") + "s", " " + plain, plain + " ", plain + "\\u0000", "", "\ufeff" + plain]
    return read.put(at, '"%s"' % (in_case if rng.random() < 0.5 else rng.choice(others)))


class Fault(NamedTuple):
    """A kind of fault: how it is put into the tokens of a text, and what a script with it is answered."""

    plant: object
    answer: str


FAULTS = {
    "cut off": Fault(cut_off, NOT_JSON),
    "more after it": Fault(after, NOT_JSON),
    "more before it": Fault(before, NOT_JSON),
    "a byte order mark": Fault(byte_order_mark, NOT_JSON),
    "another encoding": Fault(encoded, NOT_JSON),
    "bytes that are no UTF-8": Fault(anywhere, NOT_JSON),
    "half a surrogate pair": Fault(in_a_string(HALF_PAIRS), NOT_JSON),
    "no escape of JSON": Fault(in_a_string(OTHER_ESCAPES), NOT_JSON),
    "a control character": Fault(in_a_string(CONTROLS), NOT_JSON),
    "too large a number": Fault(value_of(TOO_LARGE), NOT_JSON),
    "a number misspelled": Fault(number_of(misspellings, MISSPELLED), NOT_JSON),
    "NaN or an infinity": Fault(value_of(NOT_A_NUMBER), NOT_JSON),
    "another word": Fault(value_of(NO_WORDS), NOT_JSON),
    "other quotes": Fault(other_quotes, NOT_JSON),
    "a comma too many": Fault(comma, NOT_JSON),
    "a token missing": Fault(missing, NOT_JSON),
    "another bracket": Fault(bracket, NOT_JSON),
    "other white space": Fault(between(SPACES), NOT_JSON),
    "a comment": Fault(between(COMMENTS), NOT_JSON),
    "nested too deep": Fault(nested([128, 128, 129, 200, 1000, 5000]), NOT_JSON),
    "a fault in a value that does not count": Fault(fault_that_does_not_count, NOT_JSON),
    "a number by another spelling": Fault(number_of(other_spellings, NUMBERS), BAD_SHAPE),
    "a number past 64 bits": Fault(number_of(past_64_bits, past_64_bits("1")), BAD_SHAPE),
    "a character that no text has": Fault(in_a_string(BEYOND), BAD_SHAPE),
    "a control character by an escape": Fault(in_a_string(ESCAPED), BAD_SHAPE),
    "nested as deep as may be": Fault(nested([DEEPEST, DEEPEST, 126, 100]), BAD_SHAPE),
    "another spelling of a name": Fault(other_name, BAD_SHAPE),
    "a wrong value that counts": Fault(wrong_value_last, BAD_SHAPE),
}


class Planted(NamedTuple):
    """A script with a fault of its JSON, what it is answered, and the name of the fault."""

    script: bytes
    answer: str
    name: str


def plant(rng, text, names=tuple(FAULTS)):
    """Puts a fault, of these names, into a JSON text: an object with at least one field, none of them twice."""
    name = rng.choice(names)
    script = FAULTS[name].plant(rng, Tokens(text))
    script = script if isinstance(script, bytes) else script.encode(errors="surrogateescape")
    return Planted(script, FAULTS[name].answer, name)
