#!/usr/bin/env python3
"""The scripts in tests/worked, each with what its text was worked out to be, and the crate of tests that carries them too.

usage: tests/scripts/worked.py [--check]
  writes the files of crates/tests_program/src/worked that have the scripts and texts as constants, since a test of a crate
  reads no file; with --check it writes none, and says which are not as they would be written

tests/worked/MODE/NAME.json is a script, without its last line feed, and beside it stands its whole text, NAME.out, or, where
threads leave a part of the text open, NAME.lines: lines that the text has in this order. changes.json has scripts that are
others with a change: something before or after it, or texts, each of which stands once, that are exchanged for another, or
for so many of it.
"""
import argparse
import functools
import json
import os
import re
import sys
from typing import NamedTuple

ROOT = os.path.dirname(os.path.dirname(os.path.dirname(os.path.abspath(__file__))))
FOLDER = os.path.join(ROOT, "tests", "worked")
CRATE = os.path.join(ROOT, "crates", "tests_program", "src", "worked")
MODES = ("fold", "turns", "threads")

# how many characters a line has at most, as `rt fmt` lays it out
WIDTH = 100

HEAD = """//! {what}
//! Written by tests/scripts/worked.py from the files of tests/worked, which are to be changed in its place.

use super::{{Expected, Worked}};

pub(super) const {name}: &[Worked] = &[
"""
WHAT = {
    "fold": "Scripts of the mode `fold`.", "turns": "Scripts of the mode `turns`.",
    "threads": "Scripts of the mode `threads`.", "changed": "Scripts of the mode `turns` that are others with a change.",
}


class Lines(str):
    """Lines that a text has in this order, among others."""

    def are_in(self, text):
        left = iter(text.splitlines())
        return all(line in left for line in self.splitlines())


class Worked(NamedTuple):
    """A script, in parts that stand there so many times, and its text or lines of it."""

    mode: str
    name: str
    parts: list
    answer: str

    def script(self):
        return b"".join(part * times for part, times in self.parts)

    def status(self):
        return 1 if re.fullmatch("refused [^\n]*\n", self.answer) else 0


def read(mode, name):
    """What a file of that name has, if there is one."""
    path = os.path.join(FOLDER, mode, name)
    if not os.path.exists(path):
        return None
    with open(path) as file:
        return file.read()


def stored(mode):
    for file in sorted(os.listdir(os.path.join(FOLDER, mode))):
        name, ending = os.path.splitext(file)
        if ending == ".json":
            lines, text = read(mode, name + ".lines"), read(mode, name + ".out")
            script = read(mode, file).removesuffix("\n").encode()
            yield Worked(mode, name, [(script, 1)], text if lines is None else Lines(lines))


def exchanged(parts, old, new, times=1):
    """The parts with the text that stands once in one of them exchanged for another, so many times."""
    for place, (part, count) in enumerate(parts):
        if old in part:
            (front, back), put = part.split(old), [(new, times)]
            inner = [(front + new + back, 1)] if times == 1 else [(front, 1), *put, (back, 1)]
            return [*parts[:place], *inner, *parts[place + 1 :]]
    raise ValueError("%r stands nowhere" % old)


def changed():
    by_name = {"%s/%s" % (it.mode, it.name): it for mode in MODES for it in stored(mode)}
    with open(os.path.join(FOLDER, "changes.json")) as file:
        listed = json.load(file)
    for it in listed:
        of = by_name[it["of"]]
        parts = [(it.get("before", "").encode("latin-1") + of.script() + it.get("after", "").encode("latin-1"), 1)]
        for old, new, *times in it.get("changes", ()):
            parts = exchanged(parts, old.encode(), new.encode(), *times)
        yield Worked(of.mode, it["name"], parts, it["out"])


GROUPS = {**{mode: functools.partial(stored, mode) for mode in MODES}, "changed": changed}


def cases():
    """Each script as a case: its mode, its kind, what it is, its bytes, and its text or lines of it."""
    for group in GROUPS.values():
        for it in group():
            yield it.mode, "worked", it.name, it.script(), it.answer


# ---- the constants


def literal(text):
    """Bytes as they stand in Rattle: raw, or escaped if they are no text."""
    if all(byte in b"\n" or 32 <= byte < 127 for byte in text):
        return 'br#"%s"#' % text.decode()
    return 'b"%s"' % "".join(escaped(byte) for byte in text)


def escaped(byte):
    named = {10: "\\n", 34: '\\"', 92: "\\\\"}
    return named.get(byte) or (chr(byte) if 32 <= byte < 127 else "\\x%02x" % byte)


def laid_out(part, times, indent):
    """A part with its number, on one line where it fits."""
    text = literal(part)
    line = "(%s, %d)" % (text, times)
    if "\n" not in text and indent + len(line) + len("script: &[],") <= WIDTH:
        return line
    return "(\n%*s%s,\n%*s%d,\n%*s)" % (indent + 4, "", text, indent + 4, "", times, indent, "")


def constants(group):
    """The file of a group, as `rt fmt` lays it out."""
    yield HEAD.format(what=WHAT[group], name=group.upper())
    for it in GROUPS[group]():
        kind = "Lines" if isinstance(it.answer, Lines) else "Whole"
        yield '    Worked {\n        name: "%s",\n' % it.name
        if len(it.parts) == 1:
            yield "        script: &[%s],\n" % laid_out(*it.parts[0], 8)
        else:
            yield "        script: &[\n%s        ],\n" % "".join(
                "            %s,\n" % laid_out(*part, 12) for part in it.parts
            )
        yield "        expected: Expected::%s(\n            %s,\n        ),\n" % (kind, literal(it.answer.encode()))
        yield "        status: %d,\n    },\n" % it.status()
    yield "];\n"


def files():
    """The path of each file of constants, and what it must have."""
    for group in GROUPS:
        yield os.path.join(CRATE, group + ".rt"), "".join(constants(group))


def stale():
    """The files of constants that are not as they would be written."""
    for path, text in files():
        if not os.path.exists(path) or open(path).read() != text:
            yield os.path.relpath(path, ROOT)


def main():
    reader = argparse.ArgumentParser(description=__doc__, formatter_class=argparse.RawDescriptionHelpFormatter)
    reader.add_argument("--check", action="store_true")
    if reader.parse_args().check:
        left = [*stale()]
        print(
            "\n".join("%s is not as tests/scripts/worked.py writes it" % it for it in left) or "all are as they are written"
        )
        return 1 if left else 0
    for path, text in files():
        os.makedirs(os.path.dirname(path), exist_ok=True)
        with open(path, "w") as file:
            file.write(text)
    return 0


if __name__ == "__main__":
    sys.exit(main())
