"""Scripts made by somebody who wants the program to fail:
beginnings of a long script, brackets, one fault, bytes changed at random.

Where what is left may still be a script, the second program alone says what it must be answered.
"""
import random

from tests.scripts.common.script import BAD_SHAPE, NOT_JSON, Written, named, write

# how many scripts with changed bytes are tried of each form
CHANGED = 150

# bytes that mean something in a script, which are put in more often than others
TELLING = b'"\\{}[]:,0123456789-+.eEx \n\0\x7f\xff'


def long_script(form):
    """The good script with many asked keys: longer than two pipes hold."""
    asked = ["%04d\\x00" % number for number in range(13_000)]
    return write(form.changed(("ask",), asked)), asked


def beginnings_of_a_long_script(form):
    """Beginnings and ends of a long script: all about what a read takes, and some of the others."""
    whole, asked = long_script(form)
    lengths = {near + more for once in (4_096, 65_536) for near in range(once, len(whole), 8 * once) for more in (-1, 0, 1)}
    lengths |= {random.Random(form.mode).randrange(len(whole)) for _ in range(20)}
    for length in sorted(lengths):
        yield "the first %d bytes of a long script" % length, whole[:length], NOT_JSON
        yield "the last %d bytes of a long script" % length, whole[len(whole) - length :], NOT_JSON
    last = form.answer.splitlines(True)[-1].split(" ")[-1]
    lines = "".join('tags "%s" %s' % (key, last) for key in asked)
    yield "a long script", whole, with_asked(form, lines)
    yield "a long script, and one brace more", whole + "}", NOT_JSON
    yield "a long script, whose last key spells nothing", write(form.changed(("ask",), [*asked, "\\x6d"])), BAD_SHAPE


def with_asked(form, lines):
    """The answer of the good script with these lines in the place of those of its one asked key."""
    return "".join(lines if line.startswith("tags ") else line for line in form.answer.splitlines(True))


def nested_alone(form):
    """Nothing but brackets, up to those of 127 lists and objects in each other, and past that."""
    for depth in (1, 2, 126, 127, 128, 200, 5000):
        answer = BAD_SHAPE if depth <= 127 else NOT_JSON
        yield "%d lists" % depth, "[" * depth + "]" * depth, answer
        yield "%d objects" % depth, '{"a":' * depth + "0" + "}" * depth, answer
        half, rest = divmod(depth, 2)
        mixed = '[{"a":' * half + "[" * rest + "0"[rest:] + "]" * rest + "}]" * half
        yield "%d lists and objects in turn" % depth, mixed, answer
        yield "%d lists, one not closed" % depth, "[" * depth + "]" * (depth - 1), NOT_JSON
        yield "%d lists, one closed twice" % depth, "[" * depth + "]" * (depth + 1), NOT_JSON
    for path, _ in form.places():
        deep = Written("[" * 200 + "]" * 200)
        yield "200 lists at %s" % ".".join(map(str, path)), write(form.changed(path, deep)), NOT_JSON


def one_change_at_each_place(form):
    """One wrong number, field or text at each place, and bytes around the script. The table draws some of many such cases;
    these are few enough that all are tried of every form."""
    whole = write(form.good()).encode()
    yield "nothing at all", b"", NOT_JSON
    yield "200 lists alone", "[" * 200 + "]" * 200, NOT_JSON
    for more in (b"x", b"\xff", b"}", b"\0"):
        yield "%r before the script" % more, more + whole, NOT_JSON
        yield "%r after the script" % more, whole + more, NOT_JSON
    for path, _ in form.places("number"):
        for new in (-1, 2**63, "0", "7"):
            yield "%s is %r" % (named(path), new), write(form.changed(path, new)), BAD_SHAPE
    for name in ("proxies", "resolvers"):
        for count in (0, 65) if name in form.good() else ():
            yield "%d %s" % (count, name), write(form.changed((name,), count)), BAD_SHAPE
    for path, value in form.places("dict"):
        yield "%s with one field more" % named(path), write(form.changed(path, dict(value, x=1))), BAD_SHAPE
    for path, _ in form.places("bytes"):
        for text in ("\\xFF", "\\x6d"):
            yield "%s is %s" % (named(path), text), write(form.changed(path, text)), BAD_SHAPE


def changed_bytes(form):
    """The good script with one to three bytes left out, put in, doubled or exchanged."""
    whole = write(form.good()).encode()
    for seed in range(CHANGED):
        rng = random.Random("%s %d" % (form.mode, seed))
        text = bytearray(whole)
        for _ in range(rng.choice([1, 1, 1, 2, 3])):
            change_bytes(rng, text)
        yield "changed bytes, seed %d" % seed, bytes(text), None


def change_bytes(rng, text):
    place, kind = rng.randrange(len(text)), rng.randrange(5)
    byte = rng.choice(TELLING) if rng.random() < 0.7 else rng.randrange(256)
    if kind == 0:
        del text[place]
    elif kind == 1:
        text.insert(place, byte)
    elif kind == 2:
        text[place] = byte
    elif kind == 3:
        other = rng.randrange(len(text))
        text[place], text[other] = text[other], text[place]
    else:
        text[place:place] = text[place : place + rng.randrange(1, 20)]


OF_EACH_FORM = (beginnings_of_a_long_script, nested_alone, one_change_at_each_place, changed_bytes)
