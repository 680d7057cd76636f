"""Scripts with texts that spell no bytes, with each byte spelled each way, and with each JSON escape."""
from tests.scripts.common.script import BAD_SHAPE, NOT_JSON, Written, named, write

# texts that spell no bytes, each by its fault
BAD_TEXTS = {
    "another letter": "\\n00",
    "another escape of JSON": "\\u0041",
    "a digit for the letter": "\\000",
    "an upper-case letter": "\\Xff",
    "a space for the letter": "\\ xff",
    "an upper-case first digit": "\\xFf",
    "an upper-case second digit": "\\xfF",
    "two upper-case digits": "\\xFF",
    "no first digit": "\\xg0",
    "no second digit": "\\x0g",
    "a sign for a digit": "\\x+1",
    "a space for a digit": "\\x 1",
    "an escape for a digit": "\\x0\\x00",
    "cut after one digit": "\\x0",
    "cut after the letter": "\\x",
    "cut after the backslash": "\\",
    "two backslashes": "\\\\",
    "three backslashes": "\\\\\\",
    "an escape of a letter": "\\x6d",
    "an escape of the first plain byte": "\\x21",
    "an escape of the last plain byte": "\\x7e",
    "a space": " ",
    "a double quote": "\"",
    "a line feed": "\n",
    "a tabulator": "\t",
    "a zero character": "\0",
    "a control character": "\u0001",
    "the last control character": "\u001f",
    "a delete character": "\u007f",
    "the first past ASCII": "\u0080",
    "the greatest of one byte": "\u00ff",
    "a letter not in ASCII": "\u00e9",
    "a digit not in ASCII": "\\x0\uff11",
    "a byte order mark": "\ufeff",
    "the greatest of the basic plane": "\uffff",
    "beyond the basic plane": "\U0001f600",
    "the greatest character": "\U0010ffff",
}

# right texts around which a bad one stands
AROUND = (("", ""), ("k", "\\x00"), ("\\xff", "k"))


def bad_texts(form):
    for path, _ in form.places("bytes"):
        for name, bad in BAD_TEXTS.items():
            for before, after in AROUND:
                whole = before + bad + after
                spelled = "%s %r, %s" % (named(path), whole, name)
                yield spelled, write(form.changed(path, whole)), BAD_SHAPE


def is_plain(byte):
    return 0x21 <= byte <= 0x7E and byte not in (0x22, 0x5C)


def each_byte(form):
    """Each byte by its one spelling, and by the other way, which spells nothing."""
    for byte in range(256):
        escape = "\\x%02x" % byte
        right, wrong = (chr(byte), escape) if is_plain(byte) else (escape, chr(byte))
        for before, after in AROUND[:2]:
            whole = before + right + after
            yield "byte %02x as %r" % (byte, whole), form.with_value(whole), form.printed(whole)
            yield "byte %02x as %r" % (byte, before + wrong + after), form.with_value(before + wrong + after), BAD_SHAPE
        if "%x" % byte != "%X" % byte:
            yield "byte %02x in upper case" % byte, form.with_value("\\x%02X" % byte), BAD_SHAPE


def all_bytes_in_one(form):
    whole = "".join(chr(byte) if is_plain(byte) else "\\x%02x" % byte for byte in range(256))
    yield "all bytes", form.with_value(whole), form.printed(whole)
    yield "all bytes twice", form.with_value(whole + whole), form.printed(whole + whole)


def raw_characters(form):
    """Each character as it stands in a JSON string: below the space JSON knows none of them."""
    for code in [*range(0x20), 0x22, 0x5C, 0x7F, 0x80, 0xE9, 0x2028, 0xFEFF, 0xFFFE, 0x1F600]:
        answer = NOT_JSON if code < 0x20 or code in (0x22, 0x5C) else BAD_SHAPE
        for path, _ in form.places("bytes"):
            yield (
                "%s is the raw character %x" % (named(path), code), write(form.changed(path, Written('"%c"' % code))),
                answer,
            )
        yield "a name with the raw character %x" % code, write(form.good()).replace('"ask"', '"ask%c"' % code), answer


def json_escapes(form):
    """A text may be spelled by any escapes of JSON, and is read as what they stand for."""
    for spelled, means in (
        ("\\u0061", "a"),
        ("\\u007e\\u0021", "~!"),
        ("\\/", "/"),
        ("/", "/"),
        ("\\u005cxff", "\\xff"),
        ("\\u005C\\u0078\\u0030\\u0030", "\\x00"),
        ("\\\\x0\\u0061", "\\x0a"),
    ):
        yield "a value spelled %s" % spelled, form.with_value(Written('"%s"' % spelled)), form.printed(means)
    for escape in (
        "\\b", "\\f", "\\n", "\\r", "\\t", '\\"', "\\\\", "\\u0000", "\\u00e9", "\\ud83d\\ude00", "\\udbff\\udfff",
    ):
        yield "a value spelled %s" % escape, form.with_value(Written('"%s"' % escape)), BAD_SHAPE
    for escape in NO_ESCAPES:
        for path, _ in form.places("bytes"):
            yield "%s spelled %s" % (named(path), escape), write(form.changed(path, Written('"%s"' % escape))), NOT_JSON
        yield "a name with %s" % escape, write(form.good()).replace('"ask"', '"ask%s"' % escape), NOT_JSON


# what is no escape of a JSON string
NO_ESCAPES = [
    "\\x41", "\\xff", "\\a", "\\0", "\\U0041", "\\ ", "\\'", "\\u", "\\u0", "\\u00", "\\u004", "\\u004g", "\\u+041",
]
NO_ESCAPES += [
    "\\ud800", "\\ud800a", "\\ud800\\n", "\\ud800\\u0041", "\\ud800\\ud800", "\\udbff\\ue000", "\\udc00", "\\udfff\\ud800",
]


# bytes that are no UTF-8, each by its fault
NO_UTF8 = {
    "a continuation alone": b"\x80",
    "the last continuation alone": b"\xbf",
    "a start alone": b"\xc3",
    "a start and a letter": b"\xc3a",
    "a zero in two bytes": b"\xc0\x80",
    "a letter in two bytes": b"\xc1\xa1",
    "a zero in three bytes": b"\xe0\x80\x80",
    "three bytes for two": b"\xe0\x9f\xbf",
    "three bytes cut": b"\xe2\x82",
    "the first surrogate": b"\xed\xa0\x80",
    "the last surrogate": b"\xed\xbf\xbf",
    "four bytes for three": b"\xf0\x8f\xbf\xbf",
    "four bytes cut": b"\xf0\x9f\x98",
    "past the last character": b"\xf4\x90\x80\x80",
    "a start of five": b"\xf8\x88\x80\x80\x80",
    "the byte fe": b"\xfe",
    "the byte ff": b"\xff",
}


def no_utf8(form):
    """Bytes that are no UTF-8 in each text, in a name, and between the tokens."""
    for name, bad in NO_UTF8.items():
        for path, _ in form.places("bytes"):
            whole = write(form.changed(path, "HERE")).encode()
            yield "%s in %s" % (name, named(path)), whole.replace(b"HERE", bad), NOT_JSON
        whole = write(form.good()).encode()
        for place in (0, 1, whole.index(b"[") + 1, len(whole) - 1, len(whole)):
            yield "%s at %d" % (name, place), whole[:place] + bad + whole[place:], NOT_JSON
        yield "%s in the name of a field" % name, whole.replace(b'"ask"', b'"as' + bad + b'"'), NOT_JSON


def right_utf8(form):
    """Characters past ASCII in a string are JSON, and spell no bytes."""
    for character in ("\u0080", "\u07ff", "\u0800", "\ud7ff", "\ue000", "\uffff", "\U00010000", "\U0010ffff"):
        for path, _ in form.places("bytes"):
            whole = write(form.changed(path, Written('"%s"' % character)))
            yield "%s is the character %x" % (named(path), ord(character)), whole, BAD_SHAPE
    yield "white space of JSON around a script", " \t\r\n" + write(form.good()) + "\n\r\t ", form.answer


OF_EACH_FORM = (bad_texts, each_byte, all_bytes_in_one, raw_characters, json_escapes, no_utf8, right_utf8)
