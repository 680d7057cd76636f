"""Which edits a run tries that names none: those of changed crates, and a sixth of the others."""
import os

from room import run

# In how many parts the edits of crates with their recorded text are tried, a part at each commit.
PARTS = 6

# How many edits of a crate stand in one part at the most: with more, parts take less in all, as a crate is read and its
# functions proved for each part that has some of its edits; with fewer, no part takes much longer than the others.
NEIGHBOURS = 72


def part_now(root):
    """Which part is tried at the present commit; nothing without a history of commits."""
    git = ["git", "-C", root]
    is_shallow = run([*git, "rev-parse", "--is-shallow-repository"], root).printed.strip()
    count = run([*git, "rev-list", "--count", "HEAD"], root).printed.strip()
    has_history = os.path.exists(f"{root}/.git") and is_shallow == "false" and count.isdigit()
    return int(count) % PARTS if has_history else None


def parts(edits):
    """The part of each edit: the neighbours of a crate go together into the part that has the fewest edits so far.

    edits: those of each crate, by its name.
    """
    of_parts, found = [0] * PARTS, {}
    for some in sorted(groups(edits), key=len, reverse=True):
        part = of_parts.index(min(of_parts))
        of_parts[part] += len(some)
        found.update((edit, part) for edit in some)
    return found


def groups(edits):
    """The edits of each crate, cut into as few groups of neighbours as there can be, none much larger than another."""
    for _, some in sorted(edits.items()):
        count = -(-len(some) // NEIGHBOURS)
        for at in range(count):
            yield some[at * len(some) // count : (at + 1) * len(some) // count]


def chosen(is_all, known, records):
    """The edits of a run that names none, and prints by what they were chosen."""
    part = None if is_all else part_now(records.room.root)
    if part is None:
        print("edits: every edit is tried" + ("" if is_all else ": no history of commits says which part"))
        return known
    changed = records.changed()
    for crate, why in changed.items():
        print(f"edits: {crate}: all its edits are tried, as {why}")
    again = {it for it, its_part in parts(records.edits).items() if its_part == part and it.crate not in changed}
    of = ", ".join(sorted({it.crate for it in again})) or "none"
    print(f"edits: of the other crates part {part + 1} of {PARTS} of the edits, some of these: {of}", flush=True)
    return [it for it in known if it.crate in changed or it in again]
