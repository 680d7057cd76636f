"""Files of edits: `src/order.edits` in the folder of a crate has the edits of its src/order.rt, a block each.

The first line, `file: src/order.rt`, names the file that they edit. A block is a line `edit: NAME` and below it the
lines of the edit. Empty lines stand between blocks.
"""
import collections
import os

# path: the file of edits; file: the file of the crate that it edits; lines: those below the name.
Block = collections.namedtuple("Block", "path file name lines")

ENDING = ".edits"

# How the first lines of a file and of a block begin.
OF_FILE, OF_BLOCK = "file: ", "edit: "


def read(path):
    with open(path, encoding="utf-8") as file:
        return file.read()


def edited_file(path):
    """The file of a crate that the edits of this file change, by the paths in both folders."""
    return path.removesuffix(ENDING) + (".rt" if path.startswith("src/") else ".antt")


def files_below(folder):
    """The paths in a folder of all files below it, sorted."""
    found = [os.path.join(at, name) for at, _, names in os.walk(folder) for name in names]
    return sorted(os.path.relpath(it, folder) for it in found)


def blocks_of(folder):
    """The blocks of all files of edits in the folder of a crate."""
    found = []
    for file in files_below(folder):
        if not file.endswith(ENDING):
            raise SystemExit(f"{folder}/{file}: files of edits end in {ENDING}")
        found += blocks_in(f"{folder}/{file}", edited_file(file))
    return found


def blocks_in(path, file):
    """The blocks of a file of edits, whose first line names this file of the crate."""
    head, *parts = [it.strip("\n").split("\n") for it in read(path).split("\n\n") if it.strip("\n")]
    if head != [OF_FILE + file] or not all(first.startswith(OF_BLOCK) for first, *_ in parts):
        raise SystemExit(f"{path}: it begins with '{OF_FILE}{file}', and each block with '{OF_BLOCK}NAME'")
    return [Block(path, file, first.removeprefix(OF_BLOCK), tuple(lines)) for first, *lines in parts]


def write_lines(block, lines):
    """Writes these lines in place of the block's into its file, and returns the block that now stands there."""
    written = block._replace(lines=tuple(lines))
    found = [written if it.name == block.name else it for it in blocks_in(block.path, block.file)]
    texts = [OF_FILE + block.file, *("\n".join((OF_BLOCK + it.name, *it.lines)) for it in found)]
    with open(block.path, "w", encoding="utf-8") as file:
        file.write("\n\n".join(texts) + "\n")
    return written
