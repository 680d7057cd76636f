"""Edits of one crate that one check can try together."""
import collections
import os
import re

from edit_files import read

# How many edits share a check at the most: with fewer the libraries below are read more often, and with more the last
# check of a run is long. Edits of definitions make more fall together, and such a check is made again in halves.
MOST, MOST_OF_DEFINITIONS = 36, 24


class Batch:
    """Edits to try by one check: `names` says what must not be proved for each, and `texts` the changed files."""

    def __init__(self, home):
        self.home, self.edits, self.names, self.texts = home, [], {}, {}
        # whether the whole crate is checked for it
        self.is_whole = True
        # the edits of each function, by its file; they become texts when the batch is written
        self.functions = collections.defaultdict(lambda: collections.defaultdict(list))

    def is_of_functions(self):
        return self.edits[0].function is not None

    def is_full(self):
        return len(self.edits) == (MOST if self.is_of_functions() else MOST_OF_DEFINITIONS)

    def add(self, edit):
        """Takes the edit in, if it can share a check with those that are here."""
        if self.edits and self.is_of_functions() != (edit.function is not None):
            return False
        return self.add_of_function(edit) if edit.function else self.add_of_definition(edit)

    def add_of_function(self, edit):
        same = self.functions[edit.file][edit.function]
        if same and not edit.can_be_beside():
            return False
        name = edit.refused + (f"_edit{len(same)}" if same else "")
        same.append(edit)
        self.take(edit, name)
        return True

    def add_of_definition(self, edit):
        if not all(edit.can_share(other) for other in self.edits):
            return False
        texts = edit.applied(self.texts, self.home)
        if texts is None:
            return False
        self.texts = texts
        self.take(edit, edit.refused)
        return True

    def take(self, edit, name):
        self.edits.append(edit)
        self.names[edit] = name

    def tried_functions(self):
        """The functions that alone need a check, where the whole crate does not."""
        return [] if self.is_whole else self.names.values()

    def changed_files(self):
        """The texts of all files that the batch changes, by their paths in the crate."""
        texts = dict(self.texts)
        for file, of_file in self.functions.items():
            text = read(f"{self.home}/{file}")
            for function in sorted(of_file, key=lambda it: -it.start):
                text = text[: function.start] + self.versions(function, of_file[function], texts) + text[function.end :]
            texts[file] = text
        return texts

    def versions(self, function, edits, texts):
        """The function with its first edit, and a copy of it beside it for each further one, with its proof."""
        written = edits[0].text
        for number, edit in enumerate(edits[1:], 1):
            name = f"{function.name}_edit{number}"
            written += "\n" + re.sub(rf"\bfn {function.name}\b", f"fn {name}", edit.text, count=1)
            self.copy_proof(f"proofs/{function.path.replace('::', '/')}", number, texts)
        return written

    def copy_proof(self, folder, number, texts):
        if not os.path.isdir(f"{self.home}/{folder}"):
            return
        dotted = folder.replace("/", ".")
        for name in sorted(os.listdir(f"{self.home}/{folder}")):
            if name.endswith(".antt"):
                text = read(f"{self.home}/{folder}/{name}")
                renamed = re.sub(rf"\b{re.escape(dotted)}(?=[.\s])", f"{dotted}_edit{number}", text)
                texts[f"{folder}_edit{number}/{name}"] = renamed


def batches(edits, home, is_alone=False):
    """All the edits in batches, or each in one of its own."""
    made = []
    for edit in edits:
        if is_alone or not any(not it.is_full() and it.add(edit) for it in made):
            batch = Batch(home)
            batch.add(edit)
            made.append(batch)
    for batch in made:
        is_lone = len(batch.edits) == 1
        batch.is_whole = not batch.is_of_functions() and not (is_lone and batch.edits[0].is_refused_by_function())
    return made
