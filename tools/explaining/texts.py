"""Two texts line by line, and the first line at which they differ."""
from typing import NamedTuple

# the first word of each kind of line that can be explained. Lines of other kinds are compared, and counted as no event's
KINDS = {
    "sequence", "move", "offer", "finish", "txn", "mutation", "private", "refused", "proxy", "version", "locked",
    "metadata_version", "route", "tags",
}
# how much of a long line is shown before and after the place where it differs
BEFORE, AFTER = 120, 180


class Difference(NamedTuple):
    # the number of the line, from 0
    at: int
    # the line of this project and that of TEXT with their line feeds, each nothing if its text has ended
    ours: bytes
    theirs: bytes

    def is_of_space(self):
        """Whether the lines differ only in spaces, carriage returns and the line feed."""
        return None not in (self.ours, self.theirs) and self.ours.split() == self.theirs.split()


def is_known(line):
    return line.split(" ", 1)[0] in KINDS


def decoded(line):
    """The characters of a line without its line feed.
    Bytes that are not UTF-8, and characters that do not print, are escaped.
    """
    text = line.removesuffix(b"\n").decode(errors="backslashreplace")
    return "".join(it if it.isprintable() else ascii(it)[1:-1] for it in text)


def lines_of(text):
    """The lines of a text, each with its line feed. The last one may have none."""
    *whole, rest = text.split(b"\n")
    return [line + b"\n" for line in whole] + ([rest] if rest else [])


def first_difference(ours, theirs):
    """The first line at which two lists of lines differ, or nothing."""
    for at in range(max(len(ours), len(theirs))):
        pair = [lines[at] if at < len(lines) else None for lines in (ours, theirs)]
        if pair[0] != pair[1]:
            return Difference(at, *pair)
    return None


def shown(difference):
    """The two lines, as they are printed; of long ones the part about the first character that differs."""
    yield "Line %d differs:" % (difference.at + 1)
    ours, theirs = (as_shown(line) for line in (difference.ours, difference.theirs))
    place = next((at for at, (one, other) in enumerate(zip(ours, theirs)) if one != other), min(len(ours), len(theirs)))
    yield "  Gakyhera: %s" % excerpt(ours, place)
    yield "  TEXT:     %s" % excerpt(theirs, place)


def as_shown(line):
    if line is None:
        return "(the text has ended)"
    return decoded(line) + ("" if line.endswith(b"\n") else " (without a line feed)")


def excerpt(line, place):
    if len(line) <= BEFORE + AFTER:
        return line
    begin, end = max(0, place - BEFORE), place + AFTER
    return "%s%s%s" % ("..." if begin else "", line[begin:end], "..." if end < len(line) else "")


# ---- words


def words_in(listed):
    """The words of a list as it is printed, where `none` is no word."""
    return [] if listed in ("none", "") else listed.split(" ")


def after(beginning, line):
    """What follows a beginning in a line, or nothing if it begins otherwise."""
    return line[len(beginning) :] if line is not None and line.startswith(beginning) else None


def some(lines, most):
    """At most so many of these lines, and how many are left out."""
    lines = list(lines)
    yield from lines[:most]
    if len(lines) > most:
        yield "(and %d more)" % (len(lines) - most)


def count(number, thing):
    return "%d %s%s" % (number, thing, "" if number == 1 else "s")


def joined(words, none="none"):
    """Words as they stand in a sentence: `a, b and c`."""
    words = [str(it) for it in words]
    return " and ".join([", ".join(words[:-1])] * (len(words) > 1) + words[-1:]) or none
