"""Trials of proxy_session: each takes a `Program` and raises `Wrong` where an answer differs from what it must be."""
import errno
import json
import os
import random
import resource
import select
import subprocess
import sys
import tempfile
import time

from tests.sessions.reference import Session, answers
from tools.random_scripts import KINDS, drawn, json_faults

BINDING = os.path.join(os.path.dirname(os.path.abspath(__file__)), "..", "..", "bindings", "python")

# how many seconds a run, or one answer, may take: far more than any takes on a busy machine
LIMIT = 600
# how many seconds are waited to see that no answer comes
QUIET = 0.3
# the address space of a program whose line does not end, and how long that line is
SMALL_SPACE, LONG_LINE = 2**25, 2**25

# so many transactions make a long answer
MANY = 220
# how many proxies are shown at the most: one more than a cluster may have
MOST_PROXIES = 65
# so many mutations make a line of three megabytes, and so many spaces are before another one
MUTATIONS, SPACES = 30_000, 3_000_000
# how many bytes a read call asks for
READ_SIZE = 4_096

USAGE = b"""usage: proxy_session

Answers each line of standard input before it reads on. A line is one JSON value:
  {"cluster":{"proxies":N,"resolvers":N,"window":N,"step":N}}
  {"show":{"proxy":N,"ask":[BYTES..]}}
  or an event of a turns script
"""

OUT_OF_MEMORY = b"out of memory\n\n"
CLUSTER = b'{"cluster":{"proxies":2,"resolvers":2,"window":100,"step":10}}'
FINISH = b'{"finish":{"proxy":0}}'
SEQUENCE = b'{"sequence":{"proxy":0,"batch":[]}}'
SHOW = b'{"show":{"proxy":0,"ask":["a"]}}'


class Wrong(Exception):
    """What differs, in words."""


def expect(what, got, wanted):
    if got != wanted:
        raise Wrong("%s: got %r where %r is right" % (what, got[-400:] if isinstance(got, bytes) else got,
                                                      wanted[-400:] if isinstance(wanted, bytes) else wanted))


def lines_of(script):
    """The lines that give a turns script to a session: its cluster, each event, and each proxy with the asked keys."""
    numbers = {name: script[name] for name in ("proxies", "resolvers", "window", "step")}
    # (a wrong script may have any number)
    shows = [{"show": {"proxy": proxy, "ask": script["ask"]}} for proxy in range(min(script["proxies"], MOST_PROXIES))]
    return [json.dumps(it).encode() for it in [{"cluster": numbers}, *script["events"], *shows]]


class Program:
    """The program, how often it was run, and the library that refuses calls."""

    def __init__(self, path, shim, mark):
        self.path, self.shim, self.mark, self.runs = path, shim, mark, 0

    def refusing(self, refused):
        """The environment of a run in which calls are refused, and there is no mark of one yet."""
        self.runs += 1
        if os.path.exists(self.mark):
            os.remove(self.mark)
        return {**os.environ, "LD_PRELOAD": self.shim, "REFUSE_MARK": self.mark, **refused} if refused else None

    def run(self, given, **refused):
        """Status and output of a run on these bytes."""
        return self.ended(refused, input=given)

    def run_on_file(self, given, **refused):
        """The same of a run on a file, each read of which takes as many bytes as it asks for, up to the end."""
        with tempfile.TemporaryFile() as file:
            file.write(given)
            file.seek(0)
            return self.ended(refused, stdin=file)

    def ended(self, refused, **source):
        ended = subprocess.run([self.path], capture_output=True, timeout=LIMIT, env=self.refusing(refused), **source)
        expect("standard error", ended.stderr, b"")
        return ended.returncode, ended.stdout

    def has_refused(self):
        return os.path.exists(self.mark)

    def talk(self, **refused):
        return Talk(self.path, self.refusing(refused))


class Talk:
    """A running program, and the answers that it has not given yet."""

    def __init__(self, path, how):
        self.process = subprocess.Popen([path], stdin=subprocess.PIPE, stdout=subprocess.PIPE, env=how)
        os.set_blocking(self.process.stdout.fileno(), False)

    def __enter__(self):
        return self

    def __exit__(self, *_):
        self.process.kill()
        self.process.wait()

    def send(self, given):
        self.process.stdin.write(given)
        self.process.stdin.flush()

    def read(self, is_whole):
        """What comes, until it is whole. Nothing may stand after it."""
        text, last = b"", time.monotonic() + LIMIT
        while not is_whole(text):
            ready, _, _ = select.select([self.process.stdout], [], [], max(0, last - time.monotonic()))
            piece = self.process.stdout.read() if ready else b""
            if not piece:
                raise Wrong("no whole answer came: %r" % text)
            text += piece
        return text

    def answer(self):
        """The next answer, up to its empty line."""
        return self.read(lambda text: text.endswith(b"\n\n"))

    def is_quiet(self):
        return not select.select([self.process.stdout], [], [], QUIET)[0]

    def end(self):
        self.process.stdin.close()
        return self.process.wait(LIMIT)


# ---- right answers


def in_turn(program, lines, what):
    """Each line is answered before the next one is sent."""
    session, texts = Session(), []
    with program.talk() as talk:
        for line in lines:
            talk.send(line + b"\n")
            texts.append(talk.answer())
            expect("%s, %r" % (what, line[:80]), texts[-1], session.answer(line))
        expect(what, talk.end(), 0)
    return texts


def examples(program, folder):
    """The examples of turns line by line: the answers without their empty lines are the stored text."""
    for name in sorted(os.listdir(folder)):
        if not name.endswith(".json"):
            continue
        with open(os.path.join(folder, name), "rb") as given, open(os.path.join(folder, name[:-5] + ".out"), "rb") as text:
            script, wanted = json.load(given), text.read()
        texts = in_turn(program, lines_of(script), name)
        if not wanted.startswith(b"refused "):
            expect(name, b"".join(it[:-1] for it in texts[1:]), wanted)


def python_binding(program, lines):
    """The binding for Python gives the same answers over the program, where no library is built."""
    sys.path.insert(0, BINDING)
    import gakyhera

    gakyhera.library, os.environ["GAKYHERA_SESSION"] = None, program.path
    program.runs += 1
    right = Session()
    with gakyhera.Session() as session:
        for line in lines:
            expect("the binding, %r" % line[:80], session.line(line), right.answer(line))


# lines that are none of a script, between those of scripts
OTHERS = [
    b"", b" ", b"{", b"[]", b"null", b"\xff", b'{"show":{"proxy":9,"ask":[]}}', SHOW, b'{"show":{"proxy":0}}',
    b'{"cluster":{"proxies":65,"resolvers":1,"window":1,"step":1}}', b'{"cluster":7}', b'{"event":1}', b"[" * 200,
    b'{"show":{"ask":[],"proxy":0}}', b'{"finish":{"proxy":0},"finish":{"proxy":1}}', CLUSTER + b"\r", b"1e999",
]


def lines_with_fault(chance, lines):
    """One of these lines with a fault of its JSON; two or more where the fault has a line feed."""
    line = chance.choice([it for it in lines if it.startswith(b'{"')])
    return json_faults.plant(chance, line.decode()).script.split(b"\n")


def random_lines(chance, seed):
    """The lines of two random turns scripts, one after the other, with faults and other lines among them."""
    lines = [chance.choice(OTHERS), SEQUENCE]
    for kind in chance.sample(sorted(KINDS["turns"]), 2):
        script, _ = drawn("turns", kind, seed, chance.choice([5, 20, 60]))
        try:
            own = lines_of(json.loads(script))
        except (ValueError, KeyError, TypeError, AttributeError, RecursionError):
            lines.append(script.replace(b"\n", b" "))
            own = [CLUSTER]
        lines += own
        lines.insert(chance.randrange(len(lines)), chance.choice(OTHERS))
        place = chance.randrange(len(lines))
        lines[place:place] = lines_with_fault(chance, own)
    return lines


def random_scripts(program, count, seed):
    """Random turns scripts of each kind, one after another in one session, with faults and other lines among them."""
    chance = random.Random(seed)
    for number in range(count):
        lines = random_lines(chance, "%s %d" % (seed, number))
        if number % 10 == 0:
            in_turn(program, lines, "script %d" % number)
        expect("script %d" % number, program.run(b"\n".join(lines) + chance.choice([b"", b"\n"])), (0, answers(lines)))


# ---- how lines come


LINES = [CLUSTER, SEQUENCE, b"", SEQUENCE.replace(b"0", b"7"), b'{"offer":{"row":0,"resolver":0}}', FINISH, SHOW, b"}"]


def broken_lines(program):
    """The same lines in two pieces, broken at every byte, and in pieces of one byte."""
    given, wanted = b"\n".join(LINES) + b"\n", answers(LINES)
    for place in range(1, len(given)):
        first, rest = answers(given[:place].split(b"\n")[:-1]), given[place:]
        with program.talk() as talk:
            talk.send(given[:place])
            expect("broken at %d" % place, talk.read(lambda text: len(text) >= len(first)), first)
            talk.send(rest)
            expect("broken at %d" % place, talk.read(lambda text: len(first + text) >= len(wanted)), wanted[len(first):])
            expect("the end", talk.end(), 0)
    expect("short reads", program.run(given, SHORT_READ="1", SHORT_WRITE="1"), (0, wanted))


def waits_within_a_line(program):
    """Half a line has no answer, and the whole one has it at once."""
    with program.talk() as talk:
        for line in LINES:
            half = len(line) // 2
            talk.send(line[:half])
            if not talk.is_quiet():
                raise Wrong("half of %r was answered" % line)
            talk.send(line[half:] + b"\n")
            if not talk.answer():
                raise Wrong("%r was not answered" % line)
        talk.send(SHOW)
        if not talk.is_quiet():
            raise Wrong("a line without its line feed was answered before the end")
        expect("the end", talk.end(), 0)


def endless_line(program):
    """A line for which there is no memory is answered `out of memory`, and the session goes on."""
    piece = b"[" * 2**20
    limit = lambda: resource.setrlimit(resource.RLIMIT_AS, (SMALL_SPACE, SMALL_SPACE))  # noqa: E731
    program.runs += 1
    process = subprocess.Popen([program.path], stdin=subprocess.PIPE, stdout=subprocess.PIPE, preexec_fn=limit)
    process.stdin.write(CLUSTER + b"\n")
    for _ in range(LONG_LINE // len(piece)):
        process.stdin.write(piece)
    text, _ = process.communicate(b"\n" + SEQUENCE + b"\n", timeout=LIMIT)
    expect("a long line", (process.returncode, text), (0, b"cluster\n\n" + OUT_OF_MEMORY + answers([CLUSTER, SEQUENCE])[9:]))


def long_lines(program):
    """A line of three megabytes, and one with as many spaces before it, are answered as short ones are."""
    mutations = [{"set": ["key%06d" % number, "value" * 16]} for number in range(MUTATIONS)]
    writing = {"snapshot": 0, "reads": [], "writes": [], "mutations": mutations, "lock_aware": False}
    long = json.dumps({"sequence": {"proxy": 0, "batch": [writing]}}).encode()
    expect("a long line has three megabytes", len(long) >= SPACES, True)
    offers = [b'{"offer":{"row":%d,"resolver":%d}}' % (row, resolver) for row in (0, 1) for resolver in (0, 1)]
    lines = [CLUSTER, long, *offers[:2], FINISH, b" " * SPACES + SEQUENCE, *offers[2:], FINISH, SHOW]
    expect("long lines", program.run(b"\n".join(lines)), (0, answers(lines)))


def calls(program):
    """The answer to a line that comes alone is one write call, and a read call asks for so many bytes."""
    for number, is_refused in ((len(LINES), True), (len(LINES) + 1, False)):
        with program.talk(REFUSE_WRITE=str(number)) as talk:
            for line in LINES[:-1]:
                talk.send(line + b"\n")
                expect("one write call for %r" % line, talk.answer()[-2:], b"\n\n")
            talk.send(LINES[-1] + b"\n")
            expect("write calls, status", talk.end(), 3 if is_refused else 0)
            expect("%d lines, write call %d" % (len(LINES), number), program.has_refused(), is_refused)
    for size, reads in ((READ_SIZE - 1, 2), (3 * READ_SIZE, 4), (3 * READ_SIZE + 1, 5)):
        given = CLUSTER + b"\n" + SHOW.rjust(size - len(CLUSTER) - 1)
        for number, is_refused in ((reads, True), (reads + 1, False)):
            ended = program.run_on_file(given, REFUSE_READ=str(number))
            expect("%d bytes, read call %d" % (size, number), program.has_refused(), is_refused)
        expect("%d bytes" % size, ended, (0, answers(given.split(b"\n"))))


def empty_inputs(program):
    expect("no line", program.run(b""), (0, b""))
    expect("an empty line", program.run(b"\n"), (0, b"refused 70 NotJson\n\n"))
    expect("no cluster", program.run(SHOW), (0, b"refused 72 NoCluster\n\n"))


def refused_words(program):
    for words in (["turns"], ["--help"], [""], ["--"], [b"\xff"]):
        program.runs += 1
        ended = subprocess.run([program.path, *words], input=CLUSTER, capture_output=True, timeout=LIMIT)
        expect("words %r" % words, (ended.returncode, ended.stdout, ended.stderr), (2, b"", USAGE))
    for number in range(1, 1_000_000):
        how = program.refusing({"REFUSE_GROWTH": str(number)})
        ended = subprocess.run([program.path, "turns"], input=CLUSTER, capture_output=True, timeout=LIMIT, env=how)
        if not program.has_refused():
            break
        expect("a word, growth %d" % number, (ended.returncode in (2, 4), ended.stdout), (True, b""))


# ---- where memory or a device fails


def texts_of(output):
    return [it + b"\n\n" for it in output.split(b"\n\n")[:-1]]


def judge_growth(status, output, lines, what):
    """Each line is answered rightly, or `out of memory` and has changed nothing; or no line, of status 4."""
    session, texts = Session(), texts_of(output)
    expect(what + ", status and answers", (status, len(texts)), (0, len(lines)) if texts else (4, 0))
    for line, text in zip(lines, texts):
        if text != OUT_OF_MEMORY:
            expect("%s, %r" % (what, line[:80]), text, session.answer(line))


def long_batch():
    """A line that sequences a batch whose finish has a long answer, of over five kilobytes."""
    nothing = {"snapshot": 0, "reads": [], "writes": [], "mutations": [], "lock_aware": False}
    return json.dumps({"sequence": {"proxy": 0, "batch": [nothing] * MANY}}).encode()


def long_answers(program, lines):
    """The same where the answer of a finish is long."""
    offers = [b'{"offer":{"row":0,"resolver":%d}}' % resolver for resolver in (0, 1)]
    refused_growths(program, [lines[0], long_batch(), *offers, FINISH, SHOW], 13)


def refused_growths(program, lines, step=1):
    """Every growth refused, or one of so many, one in each run, and all from one on."""
    given = b"\n".join(lines) + b"\n"
    for more in ({}, {"REFUSE_ON": "1"}):
        for number in range(1, 1_000_000, step):
            status, output = program.run(given, REFUSE_GROWTH=str(number), **more)
            if not program.has_refused():
                break
            judge_growth(status, output, lines, "growth %d" % number)


def failing_devices(program, lines):
    """Each read and each write refused: the status is 3, and what was written begins the right text."""
    given, wanted = b"\n".join(lines) + b"\n", answers(lines)
    for variable in ("REFUSE_READ", "REFUSE_WRITE"):
        for error in (errno.EIO, errno.EINTR, 0) if variable == "REFUSE_WRITE" else (errno.EIO, errno.EINTR):
            for number in range(1, 1_000_000):
                refused = {variable: str(number), "REFUSE_ERROR": str(error), "SHORT_READ": "100"}
                status, output = program.run(given, **refused)
                if not program.has_refused():
                    break
                expect("%s %d, status" % (variable, number), status, 3)
                if not wanted.startswith(output):
                    raise Wrong("%s %d: %r is no beginning of the text" % (variable, number, output[-200:]))
