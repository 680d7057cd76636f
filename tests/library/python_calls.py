"""Calls the Python binding in one process: on every example, from several threads, and on random scripts, whose texts the
second program gives; also line by line, in sessions of the library and of a program.

usage: GAKYHERA_LIBRARY=FILE python3 tests/library/python_calls.py SEEDS
"""
import itertools
import json
import os
import random
import sys
import tempfile
import threading
import time

ROOT = os.path.dirname(os.path.dirname(os.path.dirname(os.path.abspath(__file__))))
sys.path[:0] = [ROOT, os.path.join(ROOT, "bindings", "python")]
sys.dont_write_bytecode = True

import gakyhera

from tests.library.cases import answers_of, examples, sessions
from tests.scripts.fold import reference as fold_reference
from tests.scripts.turns import reference as turns_reference
from tests.sessions.reference import Session as SecondSession
from tests.sessions.trials import CLUSTER, SHOW, lines_of, lines_with_fault
from tools.random_scripts import CYCLES, drawn

SECOND = {"fold": fold_reference.answer, "turns": turns_reference.answer}
CALLS = {"fold": gakyhera.fold, "turns": gakyhera.turns}
THREADS = 4
# so many asked keys take over a megabyte
LONG = 300_000
# stands in for proxy_session
PROGRAM = """#!/bin/sh
cd %s && exec %s -B -m tests.sessions.reference
"""


def is_refusal(text):
    return text.startswith(b"refused ") and text.count(b"\n") == 1


def wrong_examples():
    """Words about each example that does not come to its text."""
    for mode, status, path, text_path in examples():
        with open(path, "rb") as script, open(text_path, "rb") as text:
            given, right = CALLS[mode](script.read()), text.read()
        if given != (right, status == 1):
            yield "%s: is %.200r" % (path, given)


def wrong_words():
    """Words about other arguments that are not answered as they must be."""
    not_json = (b"refused 70 NotJson\n", True)
    for call, script in itertools.product(CALLS.values(), ("", b"", bytearray(), memoryview(b"{"), "{", "\0", "é")):
        if call(script) != not_json:
            yield "%r: is %.200r" % (script, call(script))


def wrong_long_texts():
    """Words about scripts whose texts are longer than themselves, and than the room that there is at first; the longest
    script has over a megabyte.
    """
    for count in (10, 10_000, LONG, 10):
        script = b'{"resolvers":1,"rows":[],"ask":[%s]}' % b",".join([b'"k"'] * count)
        if gakyhera.fold(script) != (SECOND["fold"](script).encode(), False):
            yield "%d asked keys: another text" % count


def wrong_long_answers():
    """Words about a session in which a line has over a megabyte, and its answer more."""
    lines = [CLUSTER, b'{"show":{"proxy":0,"ask":[%s]}}' % b",".join([b'"k"'] * LONG), SHOW]
    with gakyhera.Session() as session:
        for line, right in zip(lines, answers_of(lines)):
            given = session.line(line)
            if given != right:
                yield "%.200r: %d bytes, and must be %d: %.200r" % (line, len(given), len(right), given)


def wrong_sessions():
    """Words about sessions in which an answer differs."""
    for name, lines, answers in sessions():
        with gakyhera.Session() as session:
            for line, right in zip(lines, answers):
                given = session.line(line)
                if given != right:
                    yield "%s, %.200r: is %.200r" % (name, line, given)


def wrong_closed_sessions():
    """Words about lines and sessions that must raise."""
    session = gakyhera.Session()
    for line, error in ((b"1\n2", ValueError), (7, TypeError), (None, TypeError)):
        yield from wrong_error(session, line, error)
    if session.line("é") != session.line(bytearray("é".encode())):
        yield "a str is not its bytes"
    session.close()
    session.close()
    yield from wrong_error(session, SHOW, ValueError)


def wrong_error(session, line, error):
    try:
        yield "%r: is %.200r" % (line, session.line(line))
    except error:
        pass


class Answering:
    """Stands in for the library: each line of a session comes to this status."""

    def __init__(self, status):
        self.gakyhera_session_line = lambda *_: status
        self.gakyhera_session_new = lambda *_: 0
        self.gakyhera_session_free = lambda *_: None


def wrong_statuses():
    """Words about lines that have no answer and must raise."""
    library = gakyhera.library
    try:
        for status, error in ((4, MemoryError), (7, ValueError), (8, gakyhera.AnswerLost)):
            gakyhera.library = Answering(status)
            yield from wrong_error(gakyhera.Session(), SHOW, error)
    finally:
        gakyhera.library = library


def wrong_program_sessions():
    """The same, where there is no library but a program."""
    library, gakyhera.library = gakyhera.library, None
    with tempfile.TemporaryDirectory() as folder:
        os.environ["GAKYHERA_SESSION"] = path = os.path.join(folder, "proxy_session")
        with open(path, "w") as file:
            file.write(PROGRAM % (ROOT, sys.executable))
        os.chmod(path, 0o700)
        try:
            yield from wrong_sessions()
            yield from wrong_closed_sessions()
            gakyhera.turns(b"")
            yield "a script has a text without the library"
        except ImportError:
            pass
        finally:
            gakyhera.library = library


def tried_lines(seeds):
    """Words about random turns scripts that are given line by line in one session, and differ."""
    cycle, session, second, wrong = CYCLES["turns"], gakyhera.Session(), SecondSession(), []
    for seed in range(seeds):
        script, _ = drawn("turns", cycle[seed % len(cycle)], "session %d" % seed)
        try:
            lines = lines_of(json.loads(script))
        except (ValueError, KeyError, TypeError, AttributeError, RecursionError):
            continue
        # (a cluster that is refused leaves the one before)
        for line in lines + lines_with_fault(random.Random(seed), lines):
            given, right = session.line(line), second.answer(line)
            if given != right:
                wrong.append("%.200r: is %.200r, and must be %.200r" % (line, given, right))
    return wrong


def wrong_in_threads():
    """Words about examples and sessions in several threads at once."""
    wrong = []
    threads = [
        threading.Thread(target=lambda: wrong.extend([*wrong_examples(), *wrong_sessions()])) for _ in range(THREADS)
    ]
    for it in threads:
        it.start()
    for it in threads:
        it.join()
    return wrong


def random_scripts(seeds):
    """Random scripts of the modes, with what the second program says of each."""
    for mode, cycle in CYCLES.items():
        for seed in range(seeds if mode in SECOND else 0):
            script, known = drawn(mode, cycle[seed % len(cycle)], "library %d" % seed)
            yield mode, script, known, SECOND[mode](script)


def tried_random(seeds):
    """Words about random scripts that do not come to their texts, and what the calls alone took."""
    cases, wrong, refused = [*random_scripts(seeds)], [], 0
    begun = time.perf_counter()
    texts = [CALLS[mode](script) for mode, script, _, _ in cases]
    seconds = time.perf_counter() - begun
    for (mode, script, known, said), given in zip(cases, texts):
        right = said.encode()
        refused += is_refusal(right)
        if known not in (None, said) or given != (right, is_refusal(right)):
            wrong.append("%s %.200r: is %.200r, and must be %.200r" % (mode, script, given, right))
    if seeds and not 0 < refused < len(cases):
        wrong.append("%d of %d random scripts are refused" % (refused, len(cases)))
    speed = 60 * len(cases) / seconds if seconds else 0
    print("python: %d random scripts in one process, %d refused; %.0f a minute" % (len(cases), refused, speed))
    return wrong


def main():
    seeds = int(sys.argv[1])
    wrong = [*wrong_examples(), *wrong_words(), *wrong_long_texts(), *wrong_in_threads(), *tried_random(seeds)]
    wrong += [*wrong_sessions(), *wrong_long_answers(), *wrong_closed_sessions(), *wrong_program_sessions()]
    wrong += wrong_statuses()
    wrong += tried_lines(seeds)
    for words in wrong[:20]:
        print(words)
    return 1 if wrong else 0


if __name__ == "__main__":
    sys.exit(main())
