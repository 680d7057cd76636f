"""Trials of tools/check_log: each takes the path of a proxy_session, and raises `Wrong` if the tool is wrong."""
import json
import os
import subprocess
import tempfile

from tests.sessions.reference import Session
from tests.sessions.trials import CLUSTER, FINISH, LIMIT, SEQUENCE, SHOW, Wrong, expect

ROOT = os.path.dirname(os.path.dirname(os.path.dirname(os.path.abspath(__file__))))
TOOL = os.path.join(ROOT, "tools", "check_log")
LOGS = os.path.join(ROOT, "examples", "sessions")

# how many lines a long log has, and how many more kilobytes it may take than a short one
LONG, MORE = 5_000, 8_000
# how many lines of a log differ, and so many times as many may take so many times the processor's time
WRONG, TIMES, MOST_TIMES = 1_000, 4, 8

BROKEN = (
    b"{", b"[]", b"7", b'{"event":{"finish":{"proxy":0}},"got":["a"]} {}', b'{"got":[]}', b'{"event":{},"show":{}}',
    b'{"event":{},"event":{}}', b'{"event":{},"other":1}', b'{"event":{},"got":"a"}', b'{"event":{},"got":[1]}',
    b'{"event":{},}', b'{"event" {}}', b'{1:2}', b"\xff",
)


def check(program, *words, log=None):
    """Status, output and errors of the tool; a log in memory goes to its standard input."""
    ended = subprocess.run([TOOL, "--program", program, *words], input=log, capture_output=True, timeout=LIMIT)
    return ended.returncode, ended.stdout.decode(), ended.stderr.decode()


def log_of(lines, change=lambda got: got):
    """A log of right answers to these lines of a session, each changed."""
    session = Session()
    for line in lines:
        got = list(session.lines(line))
        kind, value = next(iter(json.loads(line).items()))
        asked = '"%s":%s' % (kind, json.dumps(value)) if kind in ("cluster", "show") else '"event":%s' % line.decode()
        yield ('{%s,"got":%s}\n' % (asked, json.dumps(change(got)))).encode()


def examples(program):
    """The log that is right, and the one that is wrong, in each form of the output."""
    status, text, errors = check(program, os.path.join(LOGS, "right.log"))
    expect("the right log", (status, text, errors), (0, "11 answers of the log checked, 0 differ\n", ""))
    wrong = os.path.join(LOGS, "wrong.log")
    status, text, errors = check(program, wrong)
    expect("the wrong log", (status, errors), (1, ""))
    for words in ("Line 11 of the log, event,", "Gakyhera: txn 0 conflict 1020", "TEXT:     txn 0 committed 20 0",
                  "Resolver 0 gave conflict."):
        if words not in text:
            raise Wrong("of the wrong log it is not said: %s" % words)
    status, text, errors = check(program, "--json", wrong)
    found = json.loads(text)
    expect("the object", (status, found["line"], found["place"], found["got"]), (1, 11, 2, "txn 0 committed 20 0"))


def differences(program):
    """Each answer changed in each way is found, one after another."""
    lines = [CLUSTER, SEQUENCE, FINISH, SHOW, b'{"sequence":{"proxy":7,"batch":[]}}', b'{"event":1}']
    changes = (lambda got: got[:-1], lambda got: [*got, "more"], lambda got: [*got[:-1], got[-1] + " "], lambda got: [])
    for change in changes:
        log = b"".join(log_of(lines, change))
        status, text, _ = check(program, "--keep-going", "-", log=log)
        wanted = "%d answers of the log checked, %d differ" % (len(lines), len(lines))
        expect("all differ", (status, text.splitlines()[-1]), (1, wanted))
        with tempfile.NamedTemporaryFile() as file:
            file.write(log)
            file.flush()
            status, text, errors = check(program, "--keep-going", "--json", file.name)
        found = [json.loads(it) for it in text.splitlines()]
        expect("the objects", (status, [it["line"] for it in found]), (1, [*range(1, len(lines) + 1)]))
        if not all(it["why"] for it in found):
            raise Wrong("a difference has no cause: %r" % found)


OFFER = b'{"offer":{"row":0,"resolver":0}}'
MOVE = b'{"move":{"range":["a","b"],"resolver":1}}'
WIDE = b'{"cluster":{"proxies":3,"resolvers":1,"window":5,"step":1}}'
CLUSTERS = [
    CLUSTER, SEQUENCE, OFFER, FINISH, MOVE, SHOW, b'{"event":1}', OFFER, b'{"cluster":7}', SEQUENCE, WIDE, OFFER,
    SEQUENCE, OFFER, FINISH, SHOW, CLUSTER, MOVE, b'{"finish":{"proxy":9}}', b'{"show":{"proxy":9,"ask":[]}}',
]


def causes_of(program, lines):
    """For each line of a log that differs its number and its cause."""
    with tempfile.NamedTemporaryFile() as log:
        log.writelines(lines)
        log.flush()
        _, text, _ = check(program, "--keep-going", "--json", log.name)
    return [(found["line"], found["why"]) for found in map(json.loads, text.splitlines())]


def causes(program):
    """Of many lines that differ each has the cause that it has alone, in clusters one after another."""
    right = [b"\n  " + line for line in log_of(CLUSTERS)]
    wrong = [b"\r\n  " + line for line in log_of(CLUSTERS, lambda got: [*got[:-1], got[-1] + " "])]
    alone = [causes_of(program, [*right[:at], line, *right[at + 1:]]) for at, line in enumerate(wrong)]
    expect("the causes", causes_of(program, wrong), [found for one in alone for found in one])
    expect("differences that have a cause", [len(why) > 0 for one in alone for _, why in one], [True] * len(CLUSTERS))


def many_differences(program):
    """Lines that all differ take time in proportion to their number, and the first ones are explained."""
    def seconds(count):
        with tempfile.NamedTemporaryFile() as log, tempfile.TemporaryFile() as text:
            log.writelines(log_of([CLUSTER]))
            log.writelines([b'{"event":{"finish":{"proxy":0}},"got":["refused 42 OutOfTurn 0"]}\n'] * count)
            log.flush()
            process = subprocess.Popen([TOOL, "--keep-going", "--json", "--program", program, log.name],
                                       stdout=text, stderr=subprocess.DEVNULL)
            _, status, used = os.wait4(process.pid, 0)
            text.seek(0)
            found = [json.loads(line)["why"][0] for line in text]
            expect("many differences", (os.waitstatus_to_exitcode(status), len(found)), (1, count))
            expect("the first ones", found[:2], ["Event %d finishes a batch of proxy 0." % event for event in (0, 1)])
            return used.ru_utime + used.ru_stime

    few, many = seconds(WRONG), seconds(TIMES * WRONG)
    if many > MOST_TIMES * few:
        raise Wrong("%d lines that differ take %.1f s, and %d take %.1f s" % (WRONG, few, TIMES * WRONG, many))


def logs_read_once(program):
    """Of a log that cannot be read again, its differences are found."""
    log = b"".join(log_of([CLUSTER, SEQUENCE], lambda got: [*got, "more"]))
    for words in (["-"], ["/dev/stdin"]):
        status, text, errors = check(program, *words, log=log)
        wanted = 1, "1 answer of the log checked, 1 differ", ""
        expect("a log from %s" % words, (status, text.splitlines()[-1], errors), wanted)
        expect("that it is not explained", "of a log that cannot be read again" in text, True)


def without_answers(program):
    """Lines without `got`, and empty lines, are not compared."""
    log = b'\n{"cluster":{"proxies":1,"resolvers":1,"window":1,"step":1}}\r\n{"event":{"finish":{"proxy":0}}}\n\n'
    expect("no answers", check(program, "-", log=log), (0, "0 answers of the log checked, 0 differ\n", ""))


def broken_logs(program):
    for line in BROKEN:
        status, text, errors = check(program, "-", log=line + b"\n")
        expect("a log of %r" % line, (status, text, errors[:10]), (2, "", "check_log:"))
    status, _, errors = check(program, "/nowhere")
    expect("no log", (status, errors[:10]), (2, "check_log:"))


def long_logs(program):
    """A long log takes little more memory than a short one."""
    def peak(count):
        with tempfile.NamedTemporaryFile() as log, tempfile.TemporaryFile() as text:
            log.writelines(log_of([CLUSTER]))
            log.writelines([b'{"event":{"finish":{"proxy":0}},"got":["refused 42 OutOfTurn none"]}\n'] * count)
            log.flush()
            process = subprocess.Popen([TOOL, "--program", program, log.name], stdout=text)
            _, status, used = os.wait4(process.pid, 0)
            text.seek(0)
            wanted = b"%d answers of the log checked, 0 differ\n" % (count + 1)
            expect("a long log", (os.waitstatus_to_exitcode(status), text.read()), (0, wanted))
            return used.ru_maxrss

    short, long = peak(10), peak(LONG)
    if long > short + MORE:
        raise Wrong("a long log takes %d kilobytes, and a short one %d" % (long, short))


TRIALS = (
    examples, differences, causes, many_differences, logs_read_once, without_answers, broken_logs, long_logs,
)
