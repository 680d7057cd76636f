"""What a script and a text are when they have the known form, and what is said of others.

The second program in Python reads the script, and its folds give the metadata that no line of a text has.
"""
import re
from typing import NamedTuple

from tools.pictures.second_program import METADATA_VERSION, Refused, is_locked, metadata_lines, quoted, read_bytes, read_json

NUMBER = r"(\d{1,20})"
REFUSAL = re.compile(r"refused (\d{1,3}) ([A-Za-z]+)(?: (\S+))?")
BYTES = r'("(?:[!#-\[\]-~]|\\x[0-9a-f]{2})*")'
LIST = r"(\S.*)"
# the lines of a proxy's metadata
METADATA = {
    "version": re.compile("version %s" % NUMBER), "locked": re.compile("locked (yes|no)"),
    "metadata_version": re.compile("metadata_version (none|%s)" % BYTES),
    "route": re.compile("route %s %s" % (BYTES, LIST)), "tags": re.compile("tags %s %s" % (BYTES, LIST)),
}


class WrongForm(Exception):
    """Why a script or a text has no picture, in words."""


class Metadata(NamedTuple):
    """What a proxy's lines say of its metadata."""

    version: int
    locked: str
    metadata_version: str
    # for each key of a row, as it is spelled, its tags
    routes: dict
    # for each asked key its tags, in the script's order
    asked: list


def kind_of(script):
    """The mode of a script, by the field that only its scripts have, and its JSON value."""
    try:
        value = read_json(script)
    except Refused:
        raise WrongForm("the script is not JSON") from None
    for field, kind in (("events", "turns"), ("work", "threads")):
        if isinstance(value, dict) and field in value:
            return kind, value
    raise WrongForm("the script has neither the field `events` of a turns script nor the field `work` of a threads script")


def lines_of(text):
    """The lines of the text of a script that is not refused."""
    try:
        lines = text.decode("utf-8").split("\n")
    except UnicodeDecodeError:
        raise WrongForm("the text is not UTF-8") from None
    if lines.pop():
        raise WrongForm("the last line of the text does not end")
    if not lines:
        raise WrongForm("the text is empty")
    if len(lines) == 1 and REFUSAL.fullmatch(lines[0]):
        raise WrongForm("the script is refused, so there is nothing to draw: %s" % lines[0])
    return lines


def wrong_line(number, line, wanted):
    """A line that is not what it has to be; the first line has the number 0."""
    return WrongForm("line %d of the text is not %s: %.80s" % (number + 1, wanted, line))


def match(pattern, number, line, wanted):
    """The groups of a line that must have a form."""
    found = pattern.fullmatch(line)
    if not found:
        raise wrong_line(number, line, wanted)
    return found.groups()


def read_proxies(lines, at, proxies, ask, other):
    """For each proxy what its lines from this place on say, and those lines; and the place after them.

    A line that begins with none of the known words belongs to the proxy before it; one that begins with one of `other` ends
    them.
    """
    found = []
    while at < len(lines) and lines[at].split(" ")[0] not in other:
        number = match(re.compile("proxy %s" % NUMBER), at, lines[at], "`proxy %d`" % len(found))[0]
        if int(number) != len(found) or len(found) == proxies:
            raise wrong_line(at, lines[at], "`proxy %d`" % len(found) if len(found) < proxies else "the end")
        first, at = at, at + 1
        said = {"route": [], "tags": []}
        while at < len(lines) and lines[at].split(" ")[0] not in ("proxy", *other):
            word = lines[at].split(" ")[0]
            if word in METADATA:
                groups = match(METADATA[word], at, lines[at], "a line `%s` of a proxy" % word)
                if word in ("route", "tags"):
                    if not is_spelled(groups[0]):
                        raise wrong_line(at, lines[at], "a key as the program spells it")
                    said[word].append(groups)
                elif word in said:
                    raise wrong_line(at, lines[at], "the only line `%s` of its proxy" % word)
                else:
                    said[word] = groups[0]
            at += 1
        for word in ("version", "locked", "metadata_version"):
            if word not in said:
                raise WrongForm("the text of proxy %d lacks the line `%s`" % (len(found), word))
        if [key for key, _ in said["tags"]] != [quoted(key) for key in ask]:
            raise WrongForm("the lines `tags` of proxy %d are not those of the keys that the script asks for" % len(found))
        metadata = Metadata(
            int(said["version"]), said["locked"], said["metadata_version"], dict(said["route"]), said["tags"],
        )
        found.append((metadata, lines[first:at]))
    if len(found) != proxies:
        raise WrongForm("the text has the lines of %d proxies, and the script has %d" % (len(found), proxies))
    return found, at


def is_known(line, words):
    """Whether a line begins with one of these words."""
    return line.split(" ")[0] in words


def is_spelled(key):
    """Whether a key in quotes is spelled as the program does."""
    try:
        return quoted(read_bytes(key[1:-1])) == key
    except Refused:
        return False


def metadata_of(version, kept, ask):
    """What the second program's lines say of metadata with these rows."""
    lines = list(metadata_lines(version, kept, ask))
    routes = [METADATA["route"].fullmatch(line).groups() for line in lines if line.startswith("route ")]
    asked = [METADATA["tags"].fullmatch(line).groups() for line in lines if line.startswith("tags ")]
    shown = quoted(kept[METADATA_VERSION]) if METADATA_VERSION in kept else "none"
    return Metadata(version, "yes" if is_locked(kept) else "no", shown, dict(routes), asked)
