"""Copies of the repository in which crates are checked, so that no check changes the work tree."""
import collections
import os
import re
import shutil
import subprocess
import tempfile
import time

SOURCES = ("src", "specs", "proofs")

# What `rt ci` prints of a library that it has proved, or that an earlier run on this machine has proved.
PROVED = re.compile(r"rt: (\w+) (?:proved$|is kept: )")

# What a program printed, and what it took: seconds, and those of a processor.
Ran = collections.namedtuple("Ran", "printed status seconds processor")


def lines_of(root):
    """The line of each crate in crates.txt."""
    with open(f"{root}/crates.txt", encoding="utf-8") as file:
        lines = [line.partition("#")[0].strip() for line in file]
    return {line.split(":")[0].split()[0]: line for line in lines if line}


class Room:
    """A folder with a copy of the repository, in which the libraries below each trial stand proved.

    ci_output: the file in which a run of `rt ci` in the repository writes what it prints, if its libraries serve.
    """

    def __init__(self, root, folder, anew, ci_output=None):
        self.root, self.anew, self.ci_output = root, anew, ci_output
        self.folder, self.base, self.lines = folder, f"{folder}/base", lines_of(root)
        self.named = {name: line.partition(":")[2].split() for name, line in self.lines.items()}
        self.below = {name: [it for it in words if it in self.named] for name, words in self.named.items()}
        self.kit = os.path.dirname(run(["rt", "doc"], root).printed.strip())
        # each check that was made, with its crate; and the crates whose library rt ci has proved for this run
        self.checks, self.taken = [], set()
        os.makedirs(f"{self.base}/.git")
        with open(f"{self.base}/crates.txt", "w", encoding="utf-8") as file:
            file.write("".join(f"{line}\n" for line in self.lines.values()))
        for crate in self.below:
            for part in SOURCES:
                copy_folder(f"{root}/crates/{crate}/{part}", f"{self.home(crate)}/{part}")

    def home(self, crate):
        return f"{self.base}/crates/{crate}"

    def all_below(self, crate):
        found = []
        for name in self.below[crate]:
            found += [it for it in [*self.all_below(name), name] if it not in found]
        return found

    def take_proved(self):
        """Takes the libraries that `rt ci` has proved, or found kept, since the last call: where it ends, it may put older ones there."""
        with open(self.ci_output, encoding="utf-8", errors="replace") as file:
            said = {found[1] for found in map(PROVED.match, file) if found}
        for crate in (it for it in self.below if it not in self.taken and it in said):
            copy_folder(f"{self.root}/crates/{crate}/out/rlib", f"{self.home(crate)}/out/rlib")
            self.taken.add(crate)

    def prove(self, crate, is_whole):
        """Has the crate proved as it is, and says what went wrong, if anything did.

        Where `rt ci` has proved it for this run, the crate is checked once more only if `is_whole` asks that what this
        check proves is kept for the trials.
        """
        if crate in self.taken:
            ran = self.check(crate, self.home(crate)) if is_whole else None
        else:
            for part in [] if self.anew or self.ci_output else ["out/rlib", "out/incremental"]:
                copy_folder(f"{self.root}/crates/{crate}/{part}", f"{self.home(crate)}/{part}")
            is_library = any(crate in names for names in self.below.values())
            # (one job: more of them end sooner, but take more of the processors, which other checks use meanwhile)
            ran = self.counted(crate, ["rt", "lib" if is_library else "check", "--jobs", "1"], self.home(crate))
        return "" if ran is None or ran.status == 0 else ran.printed[-2000:]

    def has_kept(self, crate):
        """Whether trials of the crate start from what an earlier check of it proved."""
        return os.path.isdir(f"{self.home(crate)}/out/incremental")

    def try_texts(self, crate, texts, functions):
        """Checks the crate with these texts in place of its own; these functions alone, if there are any."""
        with tempfile.TemporaryDirectory(prefix="trial-", dir=self.folder) as trial:
            # a check keeps one version of each function, so each trial starts from the base's
            for part in (*SOURCES, "out/incremental"):
                copy_folder(f"{self.home(crate)}/{part}", f"{trial}/{part}")
            for file, text in texts.items():
                os.makedirs(os.path.dirname(f"{trial}/{file}"), exist_ok=True)
                with open(f"{trial}/{file}", "w", encoding="utf-8") as it:
                    it.write(text)
            ran = self.check(crate, trial, [f"--only={it}" for it in functions])
            if not self.has_kept(crate):
                # what it proved of the functions that others call serves the next trials
                shutil.copytree(f"{trial}/out/incremental", f"{self.home(crate)}/out/incremental")
            return ran

    def check(self, crate, home, flags=()):
        """Checks a crate that stands in this folder over the libraries of the room."""
        names = ["std", *(it for it in self.named[crate] if it not in self.below)]
        libraries = [f"{it}={self.kit}/rlibs/{it}.rlib" for it in names]
        libraries += [f"{it}={self.home(it)}/out/rlib/{it}.rlib" for it in self.below[crate]]
        below = [f"{self.kit}/rlibs", *(f"{self.home(it)}/out/rlib" for it in self.all_below(crate))]
        words = ["rattle", "check", "--crate-name", crate, "src/lib.rt", *flags]
        words += [word for it in libraries for word in ("--extern", it)]
        words += [word for it in below for word in ("-L", f"dependency={it}")]
        words += ["--antt-project", f"{self.kit}/rattle/logic/antt-project.json"]
        words += ["--logic-built", f"{self.kit}/logic_built", "--incremental", "out/incremental"]
        os.makedirs(f"{home}/out/incremental", exist_ok=True)
        return self.counted(crate, words, home)

    def counted(self, crate, words, home):
        ran = run(words, home)
        self.checks.append((crate, ran))
        return ran


def copy_folder(source, target):
    if os.path.isdir(source):
        shutil.copytree(source, target)


def run(words, home):
    begun = time.monotonic()
    how = {"stdin": subprocess.DEVNULL, "stdout": subprocess.PIPE, "stderr": subprocess.STDOUT}
    with subprocess.Popen(words, cwd=home, text=True, errors="replace", **how) as process:
        printed = process.stdout.read()
        # (what this child alone took: others run side by side)
        _, status, used = os.wait4(process.pid, 0)
        process.returncode = os.waitstatus_to_exitcode(status)
    return Ran(printed, process.returncode, time.monotonic() - begun, used.ru_utime + used.ru_stime)
