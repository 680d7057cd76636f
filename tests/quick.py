"""What `tests/run --quick` does: all that needs no proof, on a program that nothing proves, in some minutes.

The program is the one that tools/unproved_program builds; without a kit, the one that the last proof left, whose commit is
named; and without either the tools alone are tried.
"""
import os
import shutil
import subprocess
import tempfile

from tests.parts import ROOT, Part

UNPROVED = os.path.join(ROOT, "out", "proxy_run_unproved")
UNPROVED_SESSION = os.path.join(ROOT, "out", "proxy_session_unproved")
PROVED = os.path.join(ROOT, "crates", "proxy_run", "out", "proxy_run")

# Where the commit is written whose program was proved last.
COMMIT = os.path.join(ROOT, "tests", "out", "proved_commit")


def note_proved():
    """Writes down which commit was proved, for later runs without proof."""
    said = subprocess.run(["git", "rev-parse", "--short", "HEAD"], cwd=ROOT, capture_output=True, text=True)
    os.makedirs(os.path.dirname(COMMIT), exist_ok=True)
    with open(COMMIT, "w") as kept:
        kept.write(said.stdout)


def proved_commit():
    if not os.path.exists(COMMIT):
        return "unknown"
    with open(COMMIT) as kept:
        return kept.read().strip() or "unknown"


def program():
    """The program to try, if there is one, and words about it."""
    if shutil.which("rt"):
        print("tests/run: builds the program without proof, which takes some minutes", flush=True)
        if subprocess.run(["tools/unproved_program"], cwd=ROOT, stdin=subprocess.DEVNULL).returncode == 0:
            return UNPROVED, "the program was built without proof"
    if os.path.exists(PROVED):
        return PROVED, f"the program is that of the last proof, of commit {proved_commit()}"
    return None, "there is no program: the tools alone were tried"


def is_session_built():
    """Builds the program that answers line by line."""
    return subprocess.run(["tools/unproved_program", "proxy_session"], cwd=ROOT, stdin=subprocess.DEVNULL).returncode == 0


def parts_on(tried):
    """The parts of the run, started side by side, each with the file that has what it prints."""
    commands = {"tools": ["tests/tools/run", tried or "--without-program"]}
    if tried:
        commands["scripts"] = ["tests/scripts/run", tried]
    if tried == UNPROVED and is_session_built():
        commands["sessions"] = ["tests/sessions/run", UNPROVED_SESSION]
    with tempfile.TemporaryDirectory(prefix="tests-") as folder:
        parts = [Part(name) for name in commands]
        for part in parts:
            part.start(commands[part.name], open(f"{folder}/{part.name}", "w"))
        for part in parts:
            part.passed()
            with open(f"{folder}/{part.name}", errors="replace") as said:
                print(said.read(), end="", flush=True)
    return parts


def run():
    """Tries all that needs no proof, and returns the status of the run."""
    tried, words = program()
    parts = parts_on(tried)
    passed = sum(it.status == 0 for it in parts)
    for part in parts:
        print(f"{part.name}: {part.outcome()} in {part.seconds:.0f} s")
    print(f"NOTHING WAS PROVED: {words}. `tests/run` proves everything.")
    print(f"{passed} passed, {len(parts) - passed} failed", flush=True)
    return 0 if passed == len(parts) else 1
