"""The entries of a log, one JSON value a line (docs/FORMATS.md)."""
import json
from typing import NamedTuple, Optional

KINDS = ("cluster", "event", "show")
DECODER = json.JSONDecoder()
SPACE = " \t\r\n"


class BadEntry(Exception):
    """Why a line of a log is no entry, in words."""


class Entry(NamedTuple):
    """An entry: the number of its line and the place of its first byte, what it asks as it is written, and the lines
    that the implementation printed, if it has them.
    """

    number: int
    place: int
    kind: str
    asked: str
    got: Optional[list]

    def line(self):
        """The line of a session that asks the same."""
        return self.asked if self.kind == "event" else '{"%s":%s}' % (self.kind, self.asked)


def entries_of(lines, number=1, place=0):
    """The entries of a log from a line on, one after another: of a long log only one is in memory."""
    for line in lines:
        text = line.decode(errors="surrogateescape").strip(SPACE)
        if text:
            yield entry_of(number, place, text)
        number, place = number + 1, place + len(line)


def entry_of(number, place, text):
    values = {}
    for name, value in members_of(text):
        if name not in (*KINDS, "got") or name in values:
            raise BadEntry("has the field %s, or has it twice" % json.dumps(name))
        values[name] = value
    got = values.pop("got", None)
    if len(values) != 1:
        raise BadEntry("has not exactly one of the fields cluster, event and show")
    (kind, asked), = values.items()
    return Entry(number, place, kind, asked, None if got is None else lines_got(got))


def lines_got(text):
    got = json.loads(text)
    if not isinstance(got, list) or not all(isinstance(it, str) for it in got):
        raise BadEntry("has lines in got that are no list of texts")
    return got


def members_of(text):
    """The members of an object: their names, and their values as they are written."""
    if not text.startswith("{"):
        raise BadEntry("is no object")
    place = past(text, 1)
    while not text.startswith("}", place):
        name, place = value_at(text, place)
        place = past(text, place)
        if not isinstance(name, str) or not text.startswith(":", place):
            raise BadEntry("is not JSON")
        begin = past(text, place + 1)
        _, place = value_at(text, begin)
        yield name, text[begin:place]
        place = past(text, place)
        if text.startswith(",", place):
            place = past(text, place + 1)
            if text.startswith("}", place):
                raise BadEntry("is not JSON")
        elif not text.startswith("}", place):
            raise BadEntry("is not JSON")
    if past(text, place + 1) != len(text):
        raise BadEntry("is more than one value")


def value_at(text, place):
    try:
        return DECODER.raw_decode(text, place)
    except (ValueError, RecursionError):
        raise BadEntry("is not JSON") from None


def past(text, place):
    """The place after the white space there."""
    while place < len(text) and text[place] in SPACE:
        place += 1
    return place
