"""What a turns script and its text say, event by event, beside the lines of the second program in Python."""
import re
from typing import NamedTuple

from tools.pictures import causes
from tools.pictures.forms import (
    BYTES, METADATA, NUMBER, REFUSAL, WrongForm, is_known, lines_of, match, metadata_of, read_proxies, wrong_line,
)
from tools.pictures.second_program import Refused, fold, threads_reference, turns_reference

VERDICTS = r"((?:conflict|too_old|committed)(?: (?:conflict|too_old|committed))*|none)"
VERSIONS = r"(\d{1,20}(?: \d{1,20})*|none)"
# for each kind of event the form of its first line
FIRST = {
    "sequence": (re.compile("sequence row %s version %s" % (NUMBER, NUMBER)), "`sequence row R version V`"),
    "move": (re.compile("move date %s" % NUMBER), "`move date D`"),
    "offer": (
        re.compile("offer row %s resolver %s (judged|again) %s unseen %s" % (NUMBER, NUMBER, VERDICTS, VERSIONS)),
        "`offer row R resolver S judged|again LIST unseen LIST`",
    ),
    "finish": (re.compile("finish proxy %s version %s" % (NUMBER, NUMBER)), "`finish proxy P version V`"),
}
TXN = re.compile(r"txn %s (?:(committed) %s %s|(conflict) 1020|(too_old) 1007|(locked) 1038)" % (NUMBER, NUMBER, NUMBER))
MUTATION = re.compile(r"mutation %s %s tags (none|\d{1,3}:\d{1,5}(?: \d{1,3}:\d{1,5})*)" % (NUMBER, NUMBER))
PRIVATE = re.compile(r"private %s %s %s (\d{1,3}:\d{1,5})" % (NUMBER, NUMBER, BYTES))
# for each further line of a finished batch its form
OUTCOME = {
    "txn": (TXN, "the outcome of a transaction"), "mutation": (MUTATION, "`mutation T M tags LIST`"),
    "private": (PRIVATE, '`private T M "KEY" TAG`'),
}
KNOWN = {*FIRST, *OUTCOME, "refused", "proxy", *METADATA}


class Seen(NamedTuple):
    """An event with what the text says of it."""

    number: int
    kind: str
    # the script's words, as turns_reference reads them
    words: list
    # where it stands among versions
    version: int
    # the groups of its first line, or nothing if it is refused
    said: tuple
    # the words of a refusal, or nothing
    refusal: str
    # all its lines, and those of other lines than the second program's
    lines: list
    wanted: list


class Turns(NamedTuple):
    proxies: int
    resolvers: int
    window: int
    step: int
    events: list
    # for each proxy what the text says of it at the end, its lines, and those that the second program would say
    ends: list
    # the second program's run of the events, and the keys that the script asks for
    run: object
    ask: list
    # the records that the text has: for each row its proxy, its version and the number of the event
    records: dict
    # for each version that is finished at the end its proxy
    finished: dict


class Cluster(turns_reference.Cluster):
    """The second program's cluster, which keeps what each resolver gets, and judges as tests/scripts/threads/reference.py
    does: in less time.
    """

    def __init__(self, *numbers):
        super().__init__(*numbers)
        # for each row and resolver what it gets, and the numbers of the transactions that ask it
        self.parts, self.asked = {}, {}
        self.writes = [{} for _ in range(self.resolvers)]

    def judge(self, record, resolver):
        parts, oldest = turns_reference.share(record, resolver, self.window), record.version - self.window
        said, self.writes[resolver] = threads_reference.judge(
            self.writes[resolver], parts, record.batch, record.version, oldest,
        )
        self.parts[record.row, resolver], self.asked[record.row, resolver] = parts, [part.number for part in parts]
        return dict(zip(self.asked[record.row, resolver], said))


# ---- reading


def read(value, text):
    """The picture of a script's JSON value and of its text."""
    try:
        numbers, events, ask = turns_reference.read_turns(value)
        for event in events:
            turns_reference.check_event(event)
    except Refused as refused:
        raise WrongForm("the script is refused: %s" % turns_reference.refusal(refused.args[0])[0]) from None
    lines, at, cluster, reader = lines_of(text), 0, Cluster(*numbers), Reader(*numbers[:2])
    run = causes.Followed(cluster, events)
    for number, (kind, *words) in enumerate(events):
        after = end_of_event(lines, at)
        reader.add(number, kind, words, lines, at, after, run.carry_out(number))
        at = after
    ends, _ = read_proxies(lines, at, cluster.proxies, ask, ())
    wanted = [list(cluster.routing_lines(proxy, ask)) for proxy in range(cluster.proxies)]
    ends = [(metadata, said, [] if agrees(said, should) else should) for (metadata, said), should in zip(ends, wanted)]
    return Turns(*numbers, reader.events, ends, run, ask, reader.records, reader.finished)


def end_of_event(lines, at):
    """The place after the lines of the event that begins here:
    after it stand lines of outcomes, and those of no known form.
    """
    at += 1
    while at < len(lines) and (not is_known(lines[at], KNOWN) or is_known(lines[at], OUTCOME)):
        at += 1
    return at


def agrees(said, wanted):
    """Whether lines are those of the second program, but for those that it does not know."""
    return [line for line in said if is_known(line, KNOWN)] == wanted


class Reader:
    """Reads the events' lines in order, and keeps what they have said so far of records and of finished batches."""

    def __init__(self, proxies, resolvers):
        # how many there are of what an event names: it is refused if it names one too many
        self.counts = {"sequence": (0, proxies), "finish": (0, proxies), "move": (1, resolvers), "offer": (1, resolvers)}
        self.events, self.records, self.waiting, self.finished = [], {}, {}, {}
        self.last = 0

    def add(self, number, kind, words, lines, at, after, wanted):
        if at >= len(lines):
            raise WrongForm("the text ends before event %d of the script" % number)
        refusal = REFUSAL.fullmatch(lines[at])
        pattern, form = FIRST[kind]
        wants = "%s or a refusal, as event %d of the script asks" % (form, number)
        said = None if refusal else match(pattern, at, lines[at], wants)
        place, count = self.counts[kind]
        if said and words[place] >= count:
            raise wrong_line(at, lines[at], "the refusal of event %d, which names a missing proxy or resolver" % number)
        for place in range(at + 1, after):
            self.check_outcome(kind, refusal, place, lines[place])
        version = self.version_of(number, kind, words, said, at, lines[at])
        own = lines[at:after]
        self.events.append(Seen(
            number, kind, words, version, said, lines[at] if refusal else None, own, [] if agrees(own, wanted) else wanted,
        ))

    def check_outcome(self, kind, refusal, place, line):
        """Refuses a line of an outcome, a mutation or a private copy that has another form,
        or follows another event than a finish.
        """
        for word, (pattern, form) in OUTCOME.items():
            if is_known(line, [word]):
                match(pattern, place, line, form)
                if kind != "finish" or refusal:
                    raise wrong_line(place, line, "a line that can follow this event")

    def version_of(self, number, kind, words, said, at, line):
        """Where an event stands among versions; what it says of records is kept."""
        if kind == "sequence" and said:
            row, version = map(int, said)
            self.records[row], self.last = (words[0], version, number), version
            self.waiting.setdefault(words[0], []).append(version)
        elif kind == "offer" and words[0] in self.records:
            self.check_offer(words, said, at, line)
            return self.records[words[0]][1]
        elif kind == "offer" and said:
            raise wrong_line(at, line, "an offer of a row with a record")
        elif kind == "finish":
            return self.version_of_finish(words[0], said, at, line)
        elif kind == "move" and said:
            return int(said[0])
        return self.last

    def check_offer(self, words, said, at, line):
        if said and [int(said[0]), int(said[1])] != words:
            raise wrong_line(at, line, "of row %d and resolver %d, as the script says" % tuple(words))

    def version_of_finish(self, proxy, said, at, line):
        waiting = self.waiting.get(proxy, [])
        if not said:
            return waiting[0] if waiting else self.last
        if int(said[0]) != proxy:
            raise wrong_line(at, line, "of proxy %d, as the script says" % proxy)
        if int(said[1]) in waiting:
            waiting.remove(int(said[1]))
        self.finished[int(said[1])] = proxy
        return int(said[1])


# ---- the metadata by version


def metadata_by_version(turns):
    """For version 0 and each version of the second program's records, the metadata at it."""
    cluster, ask = turns.run.cluster, turns.ask
    journal = cluster.journal(cluster.last_version())
    known = {0: metadata_of(0, {}, ask)}
    last = known[0]
    for count, (version, states) in enumerate(journal, 1):
        if states:
            last = metadata_of(version, fold(journal[:count]), ask)
        known[version] = last._replace(version=version)
    return known
