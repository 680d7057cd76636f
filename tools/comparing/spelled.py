"""A JSON text as a tree that keeps how each part is spelled,
so that items can be left out of it and the others stay as they are.
"""
import json
import re
from typing import NamedTuple

TOKEN = re.compile(r'"(?:[^"\\]|\\.)*"|[\[\]{},]|[^"\[\]{},]+', re.DOTALL)
STRING = re.compile(r'("(?:[^"\\]|\\.)*")', re.DOTALL)
CLOSING = {"[": "]", "{": "}"}
# a bracket outside strings, of an object with the name of its first field
BRACKET = re.compile(r'\[|\{\s*(?:"[^"\\]*(?:\\.[^"\\]*)*"\s*:)?|[\]}]|"[^"\\]*(?:\\.[^"\\]*)*"', re.DOTALL)


class Branch(NamedTuple):
    """A list or an object, with what stands before and after it up to the next comma."""

    before: str
    opening: str
    items: list
    after: str


class NoTree(Exception):
    """Of a text that is no JSON value of a list or an object."""


def read(text):
    """The tree of a text."""
    tokens = TOKEN.findall(text)
    if "".join(tokens) != text:
        raise NoTree
    tokens.append("")
    tokens.reverse()
    found = read_item(tokens)
    if tokens != [""] or not isinstance(found, Branch):
        raise NoTree
    return found


def read_item(tokens):
    """An item, up to the comma or the bracket after it."""
    before = read_plain(tokens)
    if tokens[-1] not in CLOSING:
        return before
    opening, items = tokens.pop(), []
    while True:
        items.append(read_item(tokens))
        end = tokens.pop() or None
        if end == CLOSING[opening]:
            break
        if end != ",":
            raise NoTree
    if len(items) == 1 and isinstance(items[0], str) and not items[0].strip():
        items = []
    return Branch(before, opening, items, read_plain(tokens))


def read_plain(tokens):
    """The text up to the next comma or bracket."""
    plain = []
    while tokens[-1] and tokens[-1] not in "[]{},":
        plain.append(tokens.pop())
    return "".join(plain)


def write(tree):
    """The text of a tree."""
    if isinstance(tree, str):
        return tree
    return tree.before + tree.opening + ",".join(map(write, tree.items)) + CLOSING[tree.opening] + tree.after


def branches(tree):
    """The lists and objects of a tree, each before those inside it."""
    if isinstance(tree, Branch):
        yield tree
        for item in tree.items:
            yield from branches(item)


def without_space(text, respell):
    """A text without white space between its parts, and each string by a call."""
    return "".join(respell(it) if it.startswith('"') else "".join(it.split()) for it in STRING.split(text))


def respelled(string):
    """A string as it is mostly spelled, or as it is if it is none."""
    try:
        return json.dumps(json.loads(string))
    except ValueError:
        return string


def cut(shrinker, text):
    """Leaves out white space and items of a JSON text, with no other change.
    The smaller text, or the same if it has no tree, or one too deep.
    """
    shorter = (without_space(text, how) for how in (respelled, str))
    text = next((it for it in shorter if shrinker.accepts_text(it)), text)
    try:
        return without_items(shrinker, read(text))
    except (NoTree, RecursionError):
        return text


def without_items(shrinker, tree):
    """The text of a tree that lacks items of its lists and objects."""
    for branch in branches(tree):
        items = list(branch.items)

        def without(gone):
            branch.items[:] = [item for number, item in enumerate(items) if number not in gone]
            return write(tree)

        without(shrinker.drop(len(items), without, shrinker.accepts_text))
    return write(tree)


# ---- lists and objects around others


def pairs(text):
    """The places of each list or object that is closed: its opening, with the name of a first field, and its closing."""
    found, opened = [], []
    for bracket in BRACKET.finditer(text):
        if bracket[0][0] in "[{":
            opened.append(bracket.span())
        elif bracket[0] in ("]", "}") and opened:
            found.append((opened.pop(), bracket.span()))
    return found


def unnested(shrinker, text):
    """Leaves out brackets around values. The smaller text, or the same if no smaller one is accepted."""
    found = pairs(text)

    def without(gone):
        spans = sorted((span for number in gone for span in found[number]), reverse=True)
        parts, end = [], len(text)
        for begin, after in spans:
            parts.append(text[after:end])
            end = begin
        return text[:end] + "".join(reversed(parts))

    return without(shrinker.drop(len(found), without, shrinker.accepts_text))
