"""The example scripts of fold and turns, with the status and the text that each comes to; and sessions, with the answers to
their lines.
"""
import json
import os
import sys

ROOT = os.path.dirname(os.path.dirname(os.path.dirname(os.path.abspath(__file__))))
sys.path.insert(0, ROOT)

from tests.sessions.reference import Session
from tests.sessions.trials import CLUSTER, FINISH, LINES, SHOW, lines_of, long_batch

FOLDERS = {"fold": os.path.join(ROOT, "examples"), "turns": os.path.join(ROOT, "examples", "turns")}


def examples():
    """Each example: its mode, its status, and the files of the script and of its text."""
    for mode, folder in FOLDERS.items():
        for name in sorted(os.listdir(folder)):
            if name.endswith(".json"):
                path = os.path.join(folder, name)
                text_path = path[: -len("json")] + "out"
                with open(text_path) as text:
                    lines = text.read().splitlines()
                status = 1 if len(lines) == 1 and lines[0].startswith("refused ") else 0
                yield mode, status, path, text_path


def answers_of(lines):
    """The answer to each line, as the second program has it."""
    session = Session()
    return [session.answer(line) for line in lines]


def example_sessions():
    """The lines of each example of turns, and their answers, which without `cluster` and the empty lines are its text."""
    for mode, status, path, text_path in examples():
        if mode != "turns":
            continue
        with open(path, "rb") as script, open(text_path, "rb") as text:
            lines, right = lines_of(json.load(script)), text.read()
        answers = answers_of(lines)
        if not status and b"".join(it[:-1] for it in answers[1:]) != right:
            raise AssertionError("the second program's answers are not the text of %s" % path)
        yield os.path.basename(path), lines, answers


def other_sessions():
    """Lines before a cluster, wrong lines, and long answers; and their answers. A finish that is given again, since its
    answer is longer than the room of a binding, finishes the other batch.
    """
    long = b'{"show":{"proxy":1,"ask":[%s]}}' % b",".join([b'"k"'] * 1_000)
    offers = [b'{"offer":{"row":%d,"resolver":%d}}' % (row, resolver) for row in (0, 1) for resolver in (0, 1)]
    finishes = [CLUSTER, long_batch(), long_batch(), *offers, FINISH, FINISH, SHOW]
    shows = [CLUSTER, long, b"\xff", long, SHOW, CLUSTER]
    for name, lines in (("lines", [SHOW, *LINES, *LINES]), ("long", shows), ("long_finishes", finishes)):
        yield name, lines, answers_of(lines)


def sessions():
    """All sessions: a name, the lines, and their answers."""
    yield from example_sessions()
    yield from other_sessions()
