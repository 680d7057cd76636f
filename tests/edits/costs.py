"""What the checks of each crate took."""


class Costs:
    """What a run took, crate by crate.

    edits: all edits that there are; tried: those of this run; checks: each check with its crate.
    """

    def __init__(self, edits, tried, checks):
        self.edits, self.tried, self.checks = edits, tried, checks
        self.crates = sorted({crate for crate, _ in checks})

    def line(self, crate):
        """The crate's edits tried, all its edits, its checks, their seconds, and those of a processor."""
        tried, known = (sum(it.crate == crate for it in some) for some in (self.tried, self.edits))
        checks = [ran for of, ran in self.checks if of == crate]
        return tried, known, len(checks), sum(it.seconds for it in checks), sum(it.processor for it in checks)

    def table(self):
        lines = [("crate", "edits", "checks", "seconds", "of a processor")]
        for crate in self.crates:
            tried, known, checks, seconds, processor = self.line(crate)
            lines.append((crate, f"{tried} of {known}", str(checks), f"{seconds:.0f}", f"{processor:.0f}"))
        return "\n".join(f"edits: {a:<16} {b:>12} {c:>8} {d:>9} {e:>16}" for a, b, c, d, e in lines)

    def write(self, path):
        """Writes what each crate took of a processor into a file: a line `edits CRATE SECONDS` for each."""
        with open(path, "w", encoding="utf-8") as file:
            file.write("".join(f"edits {it} {self.line(it)[-1]:.1f}\n" for it in self.crates))
