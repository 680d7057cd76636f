"""Whether a run of an implementation is right, and what kind of difference it shows if not."""
import signal
from typing import NamedTuple

from tests.scripts.threads.reference import script_of
from tools.explaining import threads
from tools.explaining.texts import count, decoded, first_difference, lines_of

from .right import is_refusal

# how much more than the right text a run may print before it is ended
ROOM = 1 << 20
# how many bytes a text of a threads script may have, of which no right one is at hand
MOST_OF_THREADS = 1 << 24
# how many of the last lines of standard error are shown
LAST_LINES = 8


class Difference(NamedTuple):
    """What is wrong with a run: a kind, which shrinking must keep, and words about it."""

    kind: str
    words: list


def most_of(right):
    """How many bytes a run may print if this is the right text."""
    return MOST_OF_THREADS if right is None else len(right) + ROOM


def judge(mode, script, right, ended, seconds, any_status):
    """What is wrong with how a run ended, or nothing."""
    fault = fault_of_end(ended, seconds)
    if fault:
        return fault
    try:
        ended.text.decode()
    except UnicodeDecodeError as error:
        return Difference("no UTF-8", ["It prints no UTF-8: byte %d is \\x%02x." % (error.start, ended.text[error.start])])
    fault = fault_of_text(mode, script, right, ended.text)
    wanted = 1 if right is not None and is_refusal(right) else 0
    if any_status or ended.status == wanted or (fault and ended.status == is_refusal(ended.text)):
        return fault
    words = ["It ends with status %d%s; %d is right here (docs/FORMATS.md)." % (
        ended.status, " after a right text" if not fault else "", wanted)]
    return Difference("status %d" % ended.status, words + said_words(ended))


def fault_of_end(ended, seconds):
    """What is wrong with a run that did not reach its end."""
    if ended.stopped == "hangs":
        return Difference("hangs", ["It hangs: it has not ended in %g seconds." % seconds, *said_words(ended)])
    if ended.stopped:
        return Difference(
            "no end", ["It prints to no end: it was ended after %d bytes." % len(ended.text), *said_words(ended)],
        )
    if ended.status < 0:
        return Difference(
            "crash %d" % ended.status, ["It crashes: %s ended it." % signal_name(-ended.status), *said_words(ended)],
        )
    return None


def signal_name(number):
    try:
        return signal.Signals(number).name
    except ValueError:
        return "signal %d" % number


def said_words(ended):
    """The last lines of standard error."""
    lines = ended.said.splitlines()[-LAST_LINES:]
    return ["Standard error ends with:", *("  " + decoded(line) for line in lines)] if lines else []


def fault_of_text(mode, script, right, text):
    """What is wrong with a text that reached its end."""
    if right is None:
        return fault_of_order(script, text)
    if right == text:
        return None
    difference = first_difference(lines_of(right), lines_of(text))
    return Difference("line %s" % line_kind(difference.ours), ["Line %d differs." % (difference.at + 1)])


def line_kind(line):
    """The kind of a line: its first word, of a refusal with its number."""
    words = decoded(line).split(" ") if line is not None else ["after the end"]
    return " ".join(words[:2] if words[0] == "refused" else words[:1])


def fault_of_order(script, text):
    """What is wrong with a text of a threads script, which some order of the batches has to give."""
    _, wrong = threads.what_is_wrong(script_of(script)[0], text.decode())
    if not wrong:
        return None
    return Difference("no order" if wrong.startswith("no order") else "form of threads", ["%s." % wrong])


def undecided_words(why):
    return "it was not found out whether a text is right (%s)" % why


def where_it_stops(right, text):
    """How far the text of a run that did not reach its end is right."""
    printed = count(len(lines_of(text)), "line")
    if right is None or not text:
        return "It printed %s." % (printed if text else "nothing")
    difference = first_difference(lines_of(right), lines_of(text))
    if difference is None:
        return "It printed %s, which is the whole text." % printed
    if difference.theirs is None:
        return "It printed %s, right so far." % printed
    return "It printed %s, of which line %d is the first that differs." % (printed, difference.at + 1)
