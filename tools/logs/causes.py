"""What decided a line of an answer, as tools/first_difference says it: the log is read again from its last cluster."""
import json

from tests.scripts.fold.reference import Refused, read_json
from tests.sessions.reference import read_line
from tools.explaining import refusals, turns
from tools.explaining.run import Run
from tools.explaining.texts import is_known
from tools.logs.entries import entries_of

# Only so many events since the last cluster are carried out again to explain a line.
MOST = 50_000
# For the lines after the first that is explained, only so many are in all: so the time of a check stays in proportion
# to the length of its log.
MOST_IN_ALL = 10_000

NO_EVENTS = "What decides it is not shown: over %d events stand between the last cluster and this line." % MOST
NO_MORE = "What decides it is not shown: with those carried out for lines above its events are over %d." % MOST_IN_ALL


def read(entry):
    """What the line of an entry asks. Raises `Refused` if it has a fault."""
    return read_line(read_json(entry.line().encode(errors="surrogateescape")))


class Causes:
    """What decided the lines of a log: where its last cluster begins, and the events after it that were read again."""

    def __init__(self, opened):
        """`opened` opens the log at its start."""
        self.opened = opened
        # the entry that began the last cluster, and how many events stand after it
        self.begun, self.count = None, 0
        # the events without a fault that were read again, and the line from which on they were not
        self.events, self.number, self.place = [], 0, 0
        # how many events were carried out again after the first line, which is explained whatever it takes
        self.is_first, self.spent = True, 0

    def passed(self, entry, ours):
        """Takes note of an entry and its right answer."""
        self.count += entry.kind == "event"
        if ours == ["cluster"]:
            self.begun, self.count = entry, 0
            self.events, self.number, self.place = [], entry.number, entry.place

    def cause(self, entry, place, ours, theirs):
        """What decided the line at a place of the answer to an entry that is not passed yet."""
        if ours is None:
            return ["The answer has an end after %d lines, and the log goes on." % place]
        try:
            kind, asked = read(entry)
        except Refused as refused:
            return fault_words(entry, refused.args[0])
        if kind == "cluster":
            return ["A cluster that begins is answered `cluster`."]
        if self.begun is None:
            return ["No cluster was begun before it."]
        if self.count > MOST:
            return [NO_EVENTS]
        if not self.is_in_all(self.count + 1):
            return [NO_MORE]
        _, numbers = read(self.begun)
        self.read_up_to(entry)
        if kind == "show":
            return show_words(numbers, self.events, asked, place, ours, theirs)
        return event_words(numbers, [*self.events, asked], place, ours, theirs)

    def is_in_all(self, count):
        """Whether so many events more may be carried out again; then they count."""
        if self.is_first:
            self.is_first = False
            return True
        if self.spent + count > MOST_IN_ALL:
            return False
        self.spent += count
        return True

    def read_up_to(self, entry):
        """Reads on to an entry, from the last cluster or from the entry up to which it was read before."""
        with self.opened() as log:
            log.seek(self.place)
            for it in entries_of(log, self.number, self.place):
                if it.number >= entry.number:
                    break
                try:
                    kind, asked = read(it)
                except Refused:
                    continue
                if kind == "event":
                    self.events.append(asked)
        self.number, self.place = entry.number, entry.place


def fault_words(entry, number):
    script = json.dumps({"proxies": 1, "resolvers": 1, "window": 1, "step": 1, "events": [], "ask": []})
    given = script.replace('"events": []', '"events": [%s]' % entry.asked) if entry.kind == "event" else entry.asked
    words = list(refusals.refusal_words("turns", given.encode(errors="surrogateescape"), number))
    return ["The line changes nothing, since it has a fault.", *(it.replace("The script", "It") for it in words)]


def event_words(numbers, events, place, ours, theirs):
    run = Run(numbers, events, [])
    last = len(events) - 1
    return line_words(run, [at for at, told in enumerate(run.told) if told.event == last], place, ours, theirs)


def show_words(numbers, events, asked, place, ours, theirs):
    proxy, ask = asked
    run = Run(numbers, events, ask)
    if proxy >= run.cluster.proxies:
        return ["The cluster has no such proxy: they count from 0."]
    return line_words(run, [at for at, told in enumerate(run.told) if told.proxy == proxy], place, ours, theirs)


def line_words(run, told, place, ours, theirs):
    """What decided the line at a place among the told lines of an answer."""
    if place >= len(told) or run.told[told[place]].line != ours or not is_known(ours):
        return ["What decides it cannot be shown: the second program, in tests/scripts, has another line here."]
    return list(turns.explain(run, told[place], theirs))
