"""The built program by the words of its command line:
each growth is refused while they choose a mode, and while they are refused.
"""
import os

from tests.memory import program, threads_trials
from tests.memory.program import COMMAND_LINE_REFUSED, OUT_OF_MEMORY
from tests.scripts.command_line import RIGHT, TEXTS


def by_other_words(stored):
    """Some examples with all other words that run them:
    the name of the default mode, and two hyphens, which are passed over.
    """
    for name, right in RIGHT.items():
        example = next(it for it in stored if it.name == os.path.basename(name) and it.words in right)
        yield from (example._replace(words=words) for words in right if words != example.words)


def refuse_in_words(trial, words, text):
    """Each growth while these words are refused:
    the status is 2 and the text whole, or 4, and nothing stands on standard output.
    """
    number, refused = 0, True
    while refused:
        number += 1
        ended, refused = trial.run(b"", words, REFUSE_GROWTH=number)
        ends = [(COMMAND_LINE_REFUSED, b"", text.encode())] + [(OUT_OF_MEMORY, b"", b"")] * refused
        fine = (ended.returncode, ended.stdout, ended.stderr) in ends
        trial.expect(fine, "%s: ends wrong where growth %d is refused: %r" % (words, number, ended))


def trials(stored):
    """All trials, with the stored examples: each a call and what it takes beside the runs."""
    for tried in by_other_words(stored):
        yield (threads_trials if "threads" in tried.words else program).refuse_growths, tried
    yield from ((refuse_in_words, words, text) for words, text in TEXTS)
