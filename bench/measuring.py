"""Runs of a program on a script: how long they take, and how much memory. Needs GNU time (Debian's package time)."""
import os
import resource
import statistics
import subprocess
import sys
import tempfile
import time

ROOT = os.path.dirname(os.path.dirname(os.path.abspath(__file__)))
sys.path.insert(0, ROOT)
PROGRAM = os.path.join(ROOT, "crates", "proxy_run", "out", "proxy_run")

from tests.memory.program import first_field_twice  # noqa: E402

PYTHON = ["python3", "-c", "import json,sys; json.load(sys.stdin.buffer)"]
RUNS = 9
# The peak of a script that is read as its tokens come, as a part of that of one that is read through a tree.
MOST_OF_TREE = 0.6


def once(words, path, output):
    """Wall seconds, user seconds and peak kilobytes of one run."""
    # (a child of this process counts the memory of Python too until it runs the program, so GNU time starts it)
    with open(path, "rb") as given, open(output, "wb") as taken, tempfile.NamedTemporaryFile("r") as peak:
        before, begun = resource.getrusage(resource.RUSAGE_CHILDREN), time.monotonic()
        subprocess.run(["/usr/bin/time", "-f", "%M", "-o", peak.name, *words], stdin=given, stdout=taken, check=True)
        seconds = time.monotonic() - begun
        user = resource.getrusage(resource.RUSAGE_CHILDREN).ru_utime - before.ru_utime
        return seconds, user, int(peak.read())


def measured(name, words, path, output):
    """The medians of wall and user seconds of some runs and their greatest peak in bytes, which are printed."""
    runs = [once(words, path, output) for _ in range(RUNS)]
    seconds = statistics.median(wall for wall, _, _ in runs)
    user = statistics.median(user for _, user, _ in runs)
    peak = max(peak for _, _, peak in runs) * 1024
    size = os.path.getsize(path)
    print("%-12s %10d bytes %8.3f s %8.3f s user %12.0f bytes/s %8.1f MB peak"
          % (name, size, seconds, user, size / seconds, peak / 1e6))
    return seconds, user, peak


def compared(mode, megabytes, script_of_size):
    """Measures the program on scripts of these sizes, the same scripts read through a tree, and Python's reading."""
    if not os.path.exists(PROGRAM):
        sys.exit("build the program first: cd crates/proxy_run && rt run < ../../examples/two_servers.json")
    before = None
    with tempfile.TemporaryDirectory() as folder:
        path, output, tree_path = (os.path.join(folder, name) for name in ("script", "output", "tree"))
        for size in megabytes:
            script = script_of_size(int(size * 1e6)).encode()
            with open(path, "wb") as file:
                file.write(script)
            with open(tree_path, "wb") as file:
                file.write(first_field_twice(script))
            seconds, user, peak = measured(mode, [PROGRAM, mode], path, output)
            _, tree_user, tree_peak = measured("by a tree", [PROGRAM, mode], tree_path, output)
            python, _, _ = measured("python3", PYTHON, path, output)
            growth = "" if before is None else ", %.1f times the size before" % (seconds / before)
            print("             user %.2f and peak %.2f of the tree's, %.2f of Python's time%s"
                  % (user / tree_user, peak / tree_peak, seconds / python, growth))
            if os.path.getsize(path) >= 1_000_000 and peak > MOST_OF_TREE * tree_peak:
                sys.exit("the script was not read as its tokens come")
            before = seconds
