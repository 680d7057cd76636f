"""Edits: small wrong changes of a crate, each of which the prover must refuse."""
import functools
import os

from edit_files import files_below, read, write_lines
from rust_source import functions

EXPECTED = ("refused", "not refused", "bad edit")


def is_name(name, function):
    """Whether a name of an edit, or none, is the function's: a method's begins with the module of its type."""
    is_method = name.count("::") > 1 and function.path.count("::") > 1
    return name in ("", function.path) or is_method and name.split("::")[-2:] == function.path.split("::")[-2:]


class Edit:
    """One edit, and what it changes.

    block: its lines, and where they stand; home: the folder of a copy of its crate.
    refused: the function, law or lemma that must not be proved.
    pairs: the file, the old text and the new text of each change, in order.
    function: the function whose body holds the whole edit, in `file`, with its text after the edit
    in `text`; None for an edit of anything else, which can change what others prove.
    falls: what else it makes fall, where that is recorded.
    expected: "refused" but for the controls. fault: why it cannot be tried, or nothing.
    """

    def __init__(self, crate, home, block):
        self.crate, self.home, self.block, self.name = crate, home, block, block.name
        self.refused, self.expected, self.falls = "", "refused", None
        self.pairs, self.function, self.file, self.text, self.fault = [], None, "", "", ""
        self.answer = None
        self.read_lines()
        self.fault = self.fault or self.fault_of_pairs()
        if not self.fault:
            self.find_function(home)

    def read_lines(self):
        file, old = self.block.file, None
        for line in self.block.lines:
            word, _, rest = line.partition(":")
            rest = rest.removeprefix(" ")
            if word == "refused":
                self.refused = rest.strip()
            elif word == "falls":
                self.falls = {name.strip() for name in rest.split(",") if name.strip()}
            elif word == "expected":
                self.expected = rest.strip()
            elif word == "file":
                file = rest.strip()
            elif word == "old":
                old = rest
            elif word == "new":
                self.pairs.append((file, old, rest))
            else:
                self.fault = f"no line of an edit begins with {word!r}"

    def fault_of_pairs(self):
        if not self.pairs or self.expected not in EXPECTED:
            return "it has no pair of 'old:' and 'new:', or expects no such thing"
        for file, old, _ in self.pairs:
            if old is None or not os.path.isfile(f"{self.home}/{file}"):
                return f"there is no file {file!r}, or no 'old:' before a 'new:'"
        return ""

    def find_function(self, home):
        """Finds the function that holds the edit, and says what is wrong where the texts do not stand once."""
        texts, here = {}, None
        for file, old, new in self.pairs:
            text = texts.get(file) or read(f"{home}/{file}")
            begin, end = self.bounds(file, text, old)
            if text[begin:end].count(old) != 1:
                self.fault = f"an 'old:' text stands {text[begin:end].count(old)} times in {file}"
                return
            at = text.index(old, begin, end)
            here = self.holder(file, text, at, at + len(old), here, first=not texts)
            texts[file] = text[:at] + new + text[at + len(old) :]
        if here and len(texts) == 1 and is_name(self.refused, here):
            self.refused = self.refused or here.path
            self.function, self.file = here._replace(path=self.refused), self.pairs[0][0]
            now = texts[self.file]
            self.text = now[here.start : len(now) - (len(read(f"{home}/{self.file}")) - here.end)]
        elif not self.refused:
            self.fault = "it is not in one body, so a line 'refused: NAME' has to say what must refuse it"

    def bounds(self, file, text, old):
        """Where an old text is looked for: in the named function if it is there, and else in the file."""
        named = [it for it in functions(file, text) if it.path == self.refused] if file.endswith(".rt") else []
        if named and old in text[named[0].start : named[0].end]:
            return named[0].start, named[0].end
        return 0, len(text)

    def holder(self, file, text, begin, end, here, first):
        """The function whose body holds this place, if it held the places of the pairs before too."""
        if not file.endswith(".rt") or not first and here is None:
            return None
        around = [it for it in functions(file, text) if it.body <= begin and end <= it.end]
        if not around or not first and around[0].path != here.path:
            return None
        return around[0] if first else here

    def outcome(self):
        return self.answer.outcome if self.answer else "bad edit" if self.fault else "not tried"

    def is_well(self):
        """Whether it was tried, and was answered as it must be."""
        return self.answer is not None and self.answer.outcome == self.expected

    def is_refused_by_function(self):
        """Whether a function of src/ must refuse the edit, and no law or lemma."""
        files = [f"src/{it}" for it in files_below(f"{self.home}/src") if it.endswith(".rt")]
        texts = ((it, read(f"{self.home}/{it}")) for it in files)
        return any(is_name(self.refused, it) for file in texts for it in functions(*file))

    def can_be_beside(self):
        """Whether a copy of the function with the edit can stand beside the function."""
        return not self.function.is_trait_method and "#[cycle" not in self.text

    @functools.cached_property
    def paragraphs(self):
        """The paragraphs that the edit changes, each with its file and its number there: one holds a definition."""
        texts = ((file, read(f"{self.home}/{file}"), old) for file, old, _ in self.pairs)
        return {(file, text.count("\n\n", 0, text.find(old))) for file, text, old in texts}

    def can_share(self, other):
        """Whether each of two edits that change what others prove leaves alone what must refuse the other."""
        if self.falls is None or other.falls is None or self.refused == other.refused:
            return False
        # (of two changes of one definition, what falls with both may stand with each alone)
        if self.paragraphs & other.paragraphs:
            return False
        return self.refused not in other.falls and other.refused not in self.falls

    def applied(self, texts, home):
        """These texts of files with the edit as well, or None where an old text does not stand once in them."""
        texts = dict(texts)
        for file, old, new in self.pairs:
            text = texts.get(file) or read(f"{home}/{file}")
            begin, end = self.bounds(file, text, old)
            if text[begin:end].count(old) != 1:
                return None
            at = text.index(old, begin, end)
            texts[file] = text[:at] + new + text[at + len(old) :]
        return texts

    def record_falls(self, names):
        """Writes what else the edit makes fall into its block."""
        self.falls = set(names)
        lines = [it for it in self.block.lines if not it.startswith("falls:")]
        at = next(number for number, it in enumerate(lines) if it.startswith("refused:")) + 1
        lines.insert(at, f"falls: {', '.join(sorted(names))}".rstrip())
        self.block = write_lines(self.block, lines)
