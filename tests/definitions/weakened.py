"""Crates that are built anew over a weaker definition, and the records of what was refused."""
import copy
import os
import tempfile

from edit_files import read
from records import Records, digest, texts_below
from room import SOURCES, Room, copy_folder
from trials import Trials

HERE = os.path.dirname(os.path.abspath(__file__))

# The files here that decide verdicts, beside those of tests/edits.
RUNNER = ("run", "weakened.py")


class WeakenedRoom(Room):
    """A room in which crates below the checked one may have other texts: they are built anew, and have to be proved."""

    # the folders of the crates that stand elsewhere than in the base
    homes = {}

    def home(self, crate):
        return self.homes.get(crate) or super().home(crate)

    def try_texts(self, crate, texts, functions):
        """Checks the crate over crates with these texts, whose paths are those of the crate's folder."""
        with tempfile.TemporaryDirectory(prefix="trial-", dir=self.folder) as trial:
            paths = {os.path.normpath(f"{crate}/{file}"): text for file, text in texts.items()}
            changed = {it.split("/")[0] for it in paths}
            anew = [it for it in self.all_below(crate) if changed.intersection([it, *self.all_below(it)])]
            room = self.with_homes({it: f"{trial}/{it}" for it in (*anew, crate)})
            for path, text in paths.items():
                os.makedirs(os.path.dirname(f"{trial}/{path}"), exist_ok=True)
                with open(f"{trial}/{path}", "w", encoding="utf-8") as file:
                    file.write(text)
            for it in anew:
                ran = room.build(it)
                if ran.status:
                    return ran
            return room.check(crate, room.home(crate), [f"--only={it}" for it in functions])

    def with_homes(self, homes):
        """This room with copies of these crates in these folders, which have what was proved of them."""
        for crate, home in homes.items():
            for part in (*SOURCES, "out/incremental"):
                copy_folder(f"{self.home(crate)}/{part}", f"{home}/{part}")
        room = copy.copy(self)
        room.homes = homes
        return room

    def build(self, crate):
        """Proves a crate in its folder, and leaves its library there."""
        os.makedirs(f"{self.home(crate)}/out/rlib")
        return self.check(crate, self.home(crate), ["-o", f"{self.home(crate)}/out/rlib/{crate}.rlib"])

    def counted(self, crate, words, home):
        """Runs the words of a check, or those of a build where they name the library to make."""
        return super().counted(crate, ["rattle", "build", *words[2:]] if "-o" in words else words, home)


class WeakenedTrials(Trials):
    """The trials of weaker definitions: several share a check of the whole caller, as each builds a crate anew."""

    def is_whole(self, crate):
        return crate in self.wanted


class WeakenedRecords(Records):
    """The records, in a file of their own: the sum of a caller is over the crates that are weakened for it too."""

    def __init__(self, room, edits, folder):
        super().__init__(room, edits)
        self.path = f"{folder}/refused.txt"
        self.runner += [(it, read(f"{HERE}/{it}")) for it in RUNNER]
        self.read_kept()

    def sum(self, crate):
        weakened = sorted({file.split("/")[1] for it in self.edits[crate] for file, _, _ in it.pairs})
        texts = [texts_below(f"{self.room.home(it)}/{part}") for it in weakened for part in SOURCES]
        return digest([super().sum(crate), weakened, texts])
