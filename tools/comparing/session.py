"""A run of tools/compare: what it tries, what it prints and how it ends."""
import collections
import json
import os
import sys
import time
from concurrent.futures.process import BrokenProcessPool

from tools.explaining.texts import count

from .cases import Examples, Random, places_of
from .orders import Orders, TooLarge
from .pool import Pool
from .right import SECOND, Unknown, built_program, words_of
from .running import NoStart
from .trying import How, keep

# a script of at most so many characters is printed whole
SHORT = 2000
# how often the line of progress is written, in seconds
OFTEN = 0.2
INTERRUPTED = "Interrupted."


class Session:
    def __init__(self, options):
        self.options, self.begun = options, time.monotonic()
        self.sources = sources_of(options)
        program = built_program() if options.program is None else words_of(options.program)
        self.how = How(options.command, options.seconds, options.shrink_seconds, options.any_status, program)
        # (with --json standard output has the objects alone)
        self.said = sys.stderr if options.json else sys.stdout
        self.tried, self.told, self.undecided = collections.Counter(), 0, []
        # why not all was tried, in words
        self.stopped, self.shown_at = None, 0

    def say(self, *lines):
        self.clear()
        for line in lines:
            print(line, file=self.said, flush=True)

    # -- the run

    def run(self):
        try:
            self.say(*self.first_words())
            with Pool(self.options.jobs, self.how, self.sources) as pool:
                self.try_all(pool)
        except KeyboardInterrupt:
            self.stopped = INTERRUPTED
        self.say(*self.last_words())
        if self.stopped == INTERRUPTED:
            return 130
        return 1 if self.told else 2 if self.undecided else 0

    def try_all(self, pool):
        """Tries the cases in order, up to the last difference that is asked for."""
        waiting = []
        for source, differs, undecided in pool.shown(self.until_time(places_of(self.sources, self.options.shard))):
            self.tried[source] += 1
            self.undecided += [undecided] if undecided else []
            if differs:
                waiting.append(pool.tell(*differs))
            if len(waiting) + self.told == self.options.keep_going:
                which = ordinal(self.options.keep_going)
                self.stopped = "Stopped at the %s difference: --keep-going N goes on to the Nth." % which
                break
            while waiting and waiting[0].done():
                self.tell(waiting.pop(0).result())
            self.progress()
        for one in waiting:
            self.tell(one.result())

    def until_time(self, places):
        """The cases that are begun in time."""
        for place in places:
            if self.options.minutes is not None and time.monotonic() - self.begun > 60 * self.options.minutes:
                self.stopped = "Stopped after %g minutes." % self.options.minutes
                return
            yield place

    # -- what is printed

    def first_words(self):
        right = SECOND if self.how.program is None else " ".join(self.how.program)
        yield "What is right comes from %s%s." % (
            right, ", since there is no built program" if self.how.program is None else "",
        )
        for source in self.sources:
            if isinstance(source, Orders):
                batches = "1 batch" if source.batches == 1 else "%d batches" % source.batches
                yield "A cluster of %s, %s and a move%s has %s, with %s between their events%s (seed %d)." % (
                    batches, count(source.resolvers, "resolver"),
                    ", each offer given twice," if source.repeats else "", count(source.total, "order"),
                    count(len(source.counts), "state"),
                    "" if source.sample is None else "; %d of them are drawn" % len(source.sample), source.seed)
            elif isinstance(source, Random):
                yield "The seed of the random scripts is %d." % source.seed

    def tell(self, told):
        """Prints a difference, and leaves its files."""
        self.told += 1
        folder = short_path(keep(told, self.options.folder))
        if self.options.json:
            self.clear()
            print(json.dumps(object_of(told, folder)), flush=True)
        self.say(*self.words_of(told, folder))

    def words_of(self, told, folder):
        yield ""
        yield "%d. %s" % (self.told, told.case.source)
        if told.script != told.case.script:
            how = "Made smaller" if len(told.script) < len(told.case.script) else "Written anew"
            yield "%s, from %d to %d bytes, by %s%s:" % (
                how, len(told.case.script), len(told.script), count(told.runs, "run"),
                ", until the time ended" * told.is_cut_short)
        script = visible(told.script)
        yield from script.rstrip("\n").split("\n") if len(script) <= SHORT else ["(%d bytes)" % len(script)]
        yield ""
        yield from told.explanation
        yield ""
        if told.is_cut_short:
            yield "The script may become smaller yet: --shrink-seconds gives that more time."
        yield "Script and texts are left in %s." % folder

    def last_words(self):
        if self.undecided:
            yield "%s not found out whether it is right, the first of them %s" % (
                "Of 1 text it was" if len(self.undecided) == 1 else "Of %d texts it was" % len(self.undecided),
                self.undecided[0])
        if self.stopped:
            yield self.stopped
        tried = " and ".join(count(self.tried[place], source.what) for place, source in enumerate(self.sources))
        yield "%s: %s%s" % (tried, "1 differs" if self.told == 1 else "%d differ" % self.told, self.seed_words())

    def seed_words(self):
        return "" if isinstance(self.sources[-1], Examples) else " (seed %d)" % self.options.seed

    # -- progress, where standard error is a terminal

    def progress(self):
        now = time.monotonic()
        if not sys.stderr.isatty() or now - self.shown_at < OFTEN:
            return
        part, of = self.options.shard
        whole = -(-(sum(map(len, self.sources)) - part + 1) // of)
        print(
            "\r\x1b[K%d of %d scripts, %d s" % (sum(self.tried.values()), whole, now - self.begun), end="", file=sys.stderr,
            flush=True,
        )
        self.shown_at = now

    def clear(self):
        if self.shown_at and sys.stderr.isatty():
            print("\r\x1b[K", end="", file=sys.stderr, flush=True)


def short_path(path):
    """A path from here, unless it leads out of here."""
    found = os.path.relpath(path)
    return os.path.abspath(path) if found.startswith(os.pardir) else found


def visible(script):
    """The characters of a script, with escapes for bytes that are no UTF-8 and for characters that cannot be seen."""
    text = script.decode(errors="backslashreplace")
    return "".join(it if it.isprintable() or it == "\n" else it.encode("unicode_escape").decode() for it in text)


def ordinal(number):
    return {1: "first", 2: "second", 3: "third"}.get(number, "%dth" % number)


def sources_of(options):
    """Where the cases come from."""
    if options.orders:
        return [Orders(options.batches, options.resolvers, options.repeats, options.seed, options.sample)]
    random = [Random(options.modes, options.random, options.seed)] if options.random else []
    return [Examples(options.modes), *random]


def object_of(told, folder):
    """A difference for machines."""
    right, theirs = (
        None if it is None else it.decode(errors="backslashreplace") for it in (told.found.right, told.found.ended.text)
    )
    return {
        "name": told.case.name, "mode": told.case.mode, "source": told.case.source, "kind": told.found.kind,
        "line": None if told.found.line is None else told.found.line + 1,
        "script": told.script.decode(errors="backslashreplace"), "right": right, "theirs": theirs,
        "status": told.found.ended.status, "explanation": told.explanation, "folder": folder,
    }


def run(options):
    """The status of a run with these options."""
    try:
        return Session(options).run()
    except BrokenProcessPool:
        why = "a process of this tool was ended from outside"
    except (NoStart, Unknown, TooLarge, OSError) as error:
        why = error
    print("compare: %s" % why, file=sys.stderr)
    return 2
