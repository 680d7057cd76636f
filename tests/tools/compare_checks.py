"""What tools/compare, tools/shrink, tools/random_script and the second programs do as commands.

Each check raises AssertionError. So that a run starts few processes, most are tried on a share of the examples.
"""
import json
import os
import pty
import re
import signal
import subprocess
import sys
import tempfile
import time

from tests.tools.tool import ROOT, want
from tools.comparing import cases

HERE = os.path.dirname(os.path.abspath(__file__))
COMPARE, SHRINK = (os.path.join(ROOT, "tools", it) for it in ("compare", "shrink"))
RANDOM_SCRIPT, SECOND = (os.path.join(ROOT, "tools", it) for it in ("random_script", "second_program"))
WRONG, SOAK = os.path.join(HERE, "wrong_program"), os.path.join(ROOT, "tests", "scripts", "soak")
TURNS = os.path.join(ROOT, "examples", "turns")
# how many seconds a run of a tool may take on a machine that is busy, and how many a run of an implementation that does not
# hang
LIMIT, PATIENCE = 600, "300"
# how many seconds it may take until a run is where a check wants it, and a command that goes on for longer in each mode
WAIT, LONG = 300, "sleep 2000; :"
# a process of tools/compare that is told to end before it knows of the command that it has started
INTERRUPTED_START = """
import os, signal, subprocess
from tools.comparing import running

class Interrupted(subprocess.Popen):
    def __init__(self, *words, **how):
        super().__init__(*words, **how)
        os.kill(os.getpid(), signal.SIGTERM)

signal.signal(signal.SIGTERM, running.end_here)
subprocess.Popen = Interrupted
running.run(["sleep", "2000"], b"", 3000, 0)
"""
RULE = "a read at the version of a write conflicts with it"
# a share of the examples in which some differ by this rule, and how many shares there are of which one has a single fault
SHARE, SHARES = "1/6", 12
FILES = ["explanation.txt", "first_script.json", "right.out", "script.json", "theirs.out"]


def called(tool, *words, **how):
    """How a tool ended: its status, its lines on standard output and what it said on standard error."""
    ended = subprocess.run([tool, *words], stdout=subprocess.PIPE, stderr=subprocess.PIPE, timeout=LIMIT, **how)
    said = ended.stderr.decode()
    want("Traceback" not in said or "a fault on purpose" in said, said)
    return ended.returncode, ended.stdout.decode().splitlines(), said


def compared(folder, *words, fault=None, seconds=PATIENCE):
    """How tools/compare ends on the second program, or on one with a fault."""
    command = [SECOND] if fault is None else [WRONG, fault]
    return called(COMPARE, "--folder", folder, "--seconds", seconds, *words, "--", *command)


def read(*path):
    with open(os.path.join(*path), "rb") as file:
        return file.read()


def want_last(lines, pattern):
    want(re.fullmatch(pattern, lines[-1]), "the last line is %r" % lines[-1])


# ---- tools/compare


def right_implementation_does_not_differ(folder):
    status, lines, said = compared(folder, "--random", "9", "--seed", "7", "--shard", "2/3")
    want(status == 0 and said == "", "status %d: %s" % (status, said))
    want_last(lines, r"\d+ examples and 3 random scripts: 0 differ \(seed 7\)")
    want("The seed of the random scripts is 7." in lines, "the seed is not printed")


def wrong_implementation_is_told(folder):
    words = ["--modes", "turns", "--random", "30", "--seed", "7", "--shard", SHARE]
    status, lines, _ = compared(folder, *words, fault=RULE)
    want(status == 1, "the status is %d" % status)
    want_last(lines, r"\d+ examples? and \d+ random scripts?: 1 differs \(seed 7\)")
    want("Stopped at the first difference: --keep-going N goes on to the Nth." in lines, "that it stopped is not said")
    want(any(it.startswith("Line ") and it.endswith(" differs:") for it in lines), "\n".join(lines))
    name, = os.listdir(folder)
    want(sorted(os.listdir(os.path.join(folder, name))) == FILES, "files %s" % os.listdir(os.path.join(folder, name)))
    script, right = read(folder, name, "script.json"), read(folder, name, "right.out")
    want(len(json.loads(script)["events"]) < 10, "the script has not been made small")
    want(called(SECOND, "turns", input=script)[1] == right.decode().splitlines(), "the right text is not that of the script")
    want(
        called(WRONG, RULE, "turns", input=script)[1] == read(folder, name, "theirs.out").decode().splitlines(),
        "their text",
    )
    want(read(folder, name, "explanation.txt").decode().splitlines()[0] in lines, "the explanation is another one")


def reader_that_is_not_strict_is_told(folder):
    """A program that reads what Python's json does, and is right else, answers 71 where 70 is right."""
    words = ["--modes", "fold", "--random", "300", "--seed", "1", "--keep-going", "3", "--shrink-seconds", "0", "--json"]
    status, lines, _ = compared(folder, *words, fault="json.loads")
    found = [json.loads(line) for line in lines]
    want(status == 1 and len(found) == 3, "status %d, %d objects" % (status, len(found)))
    for one in found:
        want(one["right"] == "refused 70 NotJson\n" != one["theirs"], "the texts %s and %s" % (one["right"], one["theirs"]))


def same_seed_does_the_same(folder):
    words = [
        "--modes", "turns", "--random", "12", "--seed", "3", "--keep-going", "9", "--shrink-seconds", "0", "--shard", SHARE,
    ]
    first, again = (compared(folder, *words, fault=RULE)[:2] for _ in range(2))
    want(first == again, "\n".join([*first[1], *again[1]]))
    want_last(first[1], r"\d+ examples and 2 random scripts: [2-8] differ \(seed 3\)")


def json_has_an_object_for_each_difference(folder):
    words = ["--modes", "turns", "--random", "0", "--keep-going", "2", "--shrink-seconds", "0", "--json", "--shard", SHARE]
    status, lines, said = compared(folder, *words, fault=RULE)
    found = [json.loads(line) for line in lines]
    want(status == 1 and len(found) == 2, "status %d, %d objects" % (status, len(found)))
    for one in found:
        want(
            one["kind"].startswith("line ") and one["mode"] == "turns" and one["right"] != one["theirs"],
            "the object %s" % one,
        )
        right = called(SECOND, "turns", input=one["script"].encode())[1]
        want(right == one["right"].splitlines(), "the script of %s" % one["name"])
    want(re.fullmatch(r"\d+ examples: 2 differ", said.splitlines()[-1]), said)


def share_with_one_fault():
    """A share of the examples of which one has the word that wrong_program's faults wait for."""
    sources = [cases.Examples(["turns"])]
    paths = sources[0].paths
    for part in range(1, SHARES + 1):
        texts = [read(os.path.splitext(paths[at][1])[0] + ".out") for _, at in cases.places_of(sources, (part, SHARES))]
        if sum(b"conflict" in it for it in texts) == 1:
            return "%d/%d" % (part, SHARES)
    raise AssertionError("no share of the examples has one fault")


def bad_ends_are_told(fault, kind, *said, seconds=PATIENCE):
    def check(folder):
        words = ["--modes", "turns", "--random", "0", "--shrink-seconds", "0", "--json", "--shard", share_with_one_fault()]
        status, lines, _ = compared(folder, *words, fault=fault, seconds=seconds)
        want(status == 1, "the status is %d" % status)
        found = json.loads(lines[0])
        want(found["kind"] == kind, "the kind is %s" % found["kind"])
        for line in said:
            want(any(it.startswith(line) for it in found["explanation"]), "\n".join(found["explanation"]))

    return check


def any_status_passes(folder):
    words = ["--modes", "turns", "--random", "0", "--any-status", "--shard", "1/5"]
    status, lines, _ = compared(folder, *words, fault="status")
    want(status == 0, "\n".join(lines))


def minutes_end_a_run(folder):
    status, lines, _ = compared(folder, "--random", "10000", "--seed", "1", "--minutes", "0.001", "--jobs", "1")
    want(status == 0 and "Stopped after 0.001 minutes." in lines, "\n".join(lines))


def progress_is_shown_on_a_terminal(folder):
    own, given = pty.openpty()
    words = [COMPARE, "--folder", folder, "--random", "3", "--seed", "1", "--shard", "1/6", "--", SECOND]
    ended = subprocess.run(words, stdout=subprocess.DEVNULL, stderr=given, timeout=LIMIT)
    os.close(given)
    said = os.read(own, 1 << 16).decode()
    os.close(own)
    want(ended.returncode == 0 and re.search(r"\r\x1b\[K\d+ of \d+ scripts, \d+ s", said), repr(said))


def interrupted_run_leaves_nothing(folder):
    """It is interrupted while it runs commands that go on for far longer than is waited for the end of all."""
    words = [COMPARE, "--folder", folder, "--modes", "turns", "--seconds", "3000", "--random", "0", "--", "sh", "-c", LONG]
    streams = {"stdout": subprocess.PIPE, "stderr": subprocess.PIPE}
    with subprocess.Popen(words, env={**os.environ, "MARK": folder}, **streams) as process:
        process.stdout.readline()
        is_running = is_reached(lambda: any(told(it, "cmdline").startswith(b"sleep\0") for it in marked(folder)))
        process.send_signal(signal.SIGTERM)
        out, _ = process.communicate(timeout=LIMIT)
    want(is_running, "it has not begun to run a command")
    want(process.returncode == 130 and b"Interrupted." in out, "status %d: %s" % (process.returncode, out.decode()))
    want(is_reached(lambda: not marked(folder)), "the processes %s are left" % marked(folder))


def interrupted_start_leaves_nothing(folder):
    """A process that is told to end when it has only just started a command ends that too."""
    words = [sys.executable, "-B", "-c", INTERRUPTED_START]
    status, _, said = called(*words, cwd=ROOT, env={**os.environ, "MARK": folder})
    want((status, said) == (1, ""), "status %d: %s" % (status, said))
    want(is_reached(lambda: not marked(folder)), "the processes %s are left" % marked(folder))


def is_reached(state):
    """Whether there is a state within some time."""
    end = time.monotonic() + WAIT
    while not state():
        if time.monotonic() > end:
            return False
        time.sleep(0.1)
    return True


def marked(folder):
    """The processes that were started with this mark, while they have not ended."""
    mark = ("MARK=%s" % folder).encode()
    return [it for it in os.listdir("/proc") if it.isdigit() and mark in told(it, "environ").split(b"\0")]


def told(process, name):
    try:
        return read("/proc", process, name)
    except OSError:
        return b""


def misuse_ends_with_status_2(_folder):
    for words, said in (
        ([], "name the command after --"), (["--"], "name the command after --"),
        (["--", "/nothing"], "/nothing cannot be found"),
        (["--modes", "folds", "--", SECOND], "'folds' is not some of fold,turns,threads"),
        (["--shard", "4/3", "--", SECOND], "'4/3' is no shard"), (["--seed", "-1", "--", SECOND], "argument --seed"),
        (["--seconds", "x", "--", SECOND], "'x' is no number of seconds"),
        (["--random", "1.5", "--", SECOND], "'1.5' is no number"),
        (["--batches", "3", "--", SECOND], "--batches goes with --orders"),
        (["more", "--", SECOND], "unrecognized arguments: more"),
        (["--orders", "--modes", "fold", "--", SECOND], "--orders are scripts of turns"),
        (["--orders", "--batches", "8", "--resolvers", "8", "--repeats", "--", SECOND], "take fewer batches or resolvers"),
        (["--random", "0", "--program", "/nothing", "--", SECOND], "the program /nothing cannot be run"),
        (["--random", "0", "--program", "'", "--", SECOND], "cannot be split into words"),
    ):
        status, _, told = called(COMPARE, *words)
        want(status == 2 and said in told, "%s: status %d, %s" % (words, status, told))


def help_has_an_example(_folder):
    for tool in (COMPARE, SHRINK, RANDOM_SCRIPT, SECOND):
        status, lines, _ = called(tool, "--help")
        want(status == 0 and any(it.startswith("example: tools/") for it in lines), "%s: %s" % (tool, lines))


# ---- the other tools


def shrink_prints_a_small_script(_folder):
    path = os.path.join(TURNS, "late_repeat.json")
    words = ["--seconds", PATIENCE, "--shrink-seconds", PATIENCE, "--", WRONG, "a repeated reply is not marked as one"]
    status, lines, said = called(SHRINK, path, *words)
    want(status == 0 and "Line " in said, "status %d: %s" % (status, said))
    want(len(json.loads("\n".join(lines))["events"]) < len(json.loads(read(path))["events"]), "\n".join(lines))
    status, lines, said = called(SHRINK, path, "--", SECOND)
    want((status, lines, said) == (1, [], "shrink: no difference\n"), "status %d: %s" % (status, said))
    status, _, said = called(SHRINK, "/nothing", "--", SECOND)
    want(status == 2 and "/nothing" in said, "status %d: %s" % (status, said))


def random_script_is_the_same_again(_folder):
    for words in (["turns"], ["turns", "--kind", "wide"], ["fold", "--size", "4"], ["threads", "--kind", "wrong"]):
        first, again, other = (called(RANDOM_SCRIPT, *words, "--seed", seed)[1] for seed in ("7", "7", "8"))
        want(first == again != other, "%s" % words)
    for words in (
        [], ["turns"], ["folds", "--seed", "7"], ["fold", "--seed", "7", "--kind", "wide"],
        ["fold", "--seed", "7", "--size", "-1"],
    ):
        status, lines, said = called(RANDOM_SCRIPT, *words)
        want(status == 2 and not lines and said, "%s: status %d" % (words, status))


def program_of(folder, name, line):
    """A program that runs one line of a shell."""
    path = os.path.join(folder, name)
    with open(path, "w") as file:
        file.write("#!/bin/sh\n%s\n" % line)
    os.chmod(path, 0o700)
    return path


def soak_of_scripts_says_what_was_met(folder):
    session = program_of(folder, "session", "cd %s && exec %s -B -m tests.sessions.reference" % (ROOT, sys.executable))
    nothing = program_of(folder, "nothing", "exec cat > /dev/null")
    words = ["--count", "8", "--seed", "7", "--jobs", "1", "--folder", os.path.join(folder, "differ")]
    status, lines, said = called(SOAK, *words, SECOND, session)
    want(status == 0, "\n".join([*lines, said]))
    rows = {line[:50].strip(): line[50:].split() for line in lines[:-1]}
    found = rows[""], rows["scripts"], rows["differ"]
    want(found == ([*cases.MODES, "sessions"], ["2"] * 4, ["0"] * 4), "%s" % rows)
    want({"refused 70", "txn committed"} <= set(rows), "%s" % rows)
    want_last(lines, r"soak: 8 random scripts of seed 7, [0-9,]+ a minute: 0 differ")
    status, lines, _ = called(SOAK, *words, nothing, nothing)
    want_last(lines, r"soak: 8 random scripts of seed 7, [0-9,]+ a minute: 8 differ")
    want(status == 1 and len(os.listdir(os.path.join(folder, "differ"))) == 8, "\n".join(lines))


def second_programs_say_their_usage(_folder):
    for mode, example in (("fold", "moving_range"), ("turns", "turns/two_proxies"), ("threads", "threads/full_ledger")):
        name = "tests.scripts.%s.reference" % mode
        words = [sys.executable, "-B", "-m", name]
        status, lines, _ = called(*words, "--help", cwd=ROOT)
        want(status == 0 and any(it.strip().startswith("python3 -m %s <" % name) for it in lines), "\n".join(lines))
        example = os.path.join(ROOT, "examples", example)
        status, lines, said = called(*words, input=read(example + ".json"), cwd=ROOT)
        want((status, lines, said) == (0, read(example + ".out").decode().splitlines(), ""), "%s: %s" % (name, lines))


def checks():
    """Each check with its name."""
    for check in (
        right_implementation_does_not_differ, wrong_implementation_is_told, reader_that_is_not_strict_is_told,
        same_seed_does_the_same,
        json_has_an_object_for_each_difference, any_status_passes, minutes_end_a_run, progress_is_shown_on_a_terminal,
        interrupted_run_leaves_nothing, interrupted_start_leaves_nothing, misuse_ends_with_status_2, help_has_an_example,
        shrink_prints_a_small_script,
        random_script_is_the_same_again, soak_of_scripts_says_what_was_met, second_programs_say_their_usage,
    ):
        yield check.__name__, check
    for fault, *found in (
        ("crash", "crash -11", "It crashes: SIGSEGV ended it."),
        ("fail", "status 1", "It ends with status 1; 0 is right here", "Standard error"),
        ("no end", "no end", "It prints to no end"), ("bytes", "no UTF-8", "It prints no UTF-8"),
        ("status", "status 3", "It ends with status 3 after a right text"),
    ):
        yield "a run with the fault %s" % fault, bad_ends_are_told(fault, *found)
    for fault in ("hang", "left open"):
        yield (
            "a run with the fault %s" % fault,
            bad_ends_are_told(fault, "hangs", "It hangs: it has not ended in 20", seconds="20"),
        )


def try_check(check):
    """Words about a check that fails, or nothing."""
    with tempfile.TemporaryDirectory(prefix="compare-") as folder:
        try:
            check(folder)
        except AssertionError as error:
            return str(error)
    return None
