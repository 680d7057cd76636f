"""Of which crates it is recorded that all their edits were refused, and by which texts."""
import collections
import hashlib
import json
import os

from edit_files import files_below, read
from room import SOURCES, run

HERE = os.path.dirname(os.path.abspath(__file__))

# Of the files of the runner, those that decide no verdict.
OF_NO_VERDICT = ("choice.py", "costs.py")


def digest(words):
    return hashlib.sha256(json.dumps(words).encode()).hexdigest()


def texts_below(folder):
    return [(it, read(f"{folder}/{it}")) for it in files_below(folder)]


class Records:
    """The sum of each crate, by the texts that this run tries, and the sum with which all its edits were refused last.

    edits: all that the crates have.
    """

    def __init__(self, room, edits):
        self.room, self.path, self.edits = room, f"{HERE}/refused.txt", collections.defaultdict(list)
        self.have_changed = False
        for edit in edits:
            self.edits[edit.crate].append(edit)
        files = [it for it in sorted(os.listdir(HERE)) if it == "run" or it.endswith(".py") and it not in OF_NO_VERDICT]
        # (kits of one logic have other names, and refuse the same)
        logic = run(["rt", "version"], HERE).printed.partition("logic")[2].strip()
        self.runner = [(it, read(f"{HERE}/{it}")) for it in files] + [logic]
        self.read_kept()

    def read_kept(self):
        self.written = read(self.path) if os.path.isfile(self.path) else ""
        self.kept = dict(it for it in map(str.split, self.written.splitlines()) if len(it) == 2)

    def sum(self, crate):
        """The sum over what decides the verdicts of a crate's edits, but for the crates below it."""
        texts = [texts_below(f"{self.room.home(crate)}/{it}") for it in SOURCES]
        edits = [(it.block.file, it.name, it.block.lines) for it in self.edits[crate]]
        return digest([self.runner, self.room.lines[crate], texts, edits])

    def changed(self):
        """The crates without a record of their present text, each with the reason."""
        sums = {it: self.sum(it) for it in self.edits}
        why = {True: "it has changed since its record", False: "it has no record"}
        return {it: why[it in self.kept] for it in sums if self.kept.get(it) != sums[it]}

    def write(self, tried):
        """Records the crates all of whose edits were tried and are refused; one with a wrong answer has no record.

        What another run has written in the meantime stays.
        """
        self.read_kept()
        tried = set(tried)
        for crate, edits in self.edits.items():
            if any(it.answer and not it.is_well() for it in edits):
                self.kept.pop(crate, None)
            elif tried.issuperset(edits) and all(it.is_well() for it in edits):
                self.kept[crate] = self.sum(crate)
        lines = [f"{crate} {self.kept[crate]}\n" for crate in sorted(self.kept) if crate in self.edits]
        if "".join(lines) != self.written:
            self.have_changed = True
            with open(self.path, "w", encoding="utf-8") as file:
                file.write("".join(lines))
