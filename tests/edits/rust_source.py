"""Where the functions of a source file stand, and what a check calls them."""
import collections
import re

# path: as a check names it, without the crate, as range::KeyRange::new; start: with its attributes;
# body: behind the brace that opens it.
Function = collections.namedtuple("Function", "path name start body end is_trait_method")

FUNCTION = re.compile(r"(?:pub(?:\([^)]*\))? )?(?:(?:const|unsafe|final) )*fn (\w+)")
IMPL = re.compile(r"(?:unsafe )?impl(<.*?>)? (?:(.*?) for )?(\S.*?)(?: where .*)? \{$")
MODULE = re.compile(r"(?:pub(?:\([^)]*\))? )?(?:unsafe )?(mod|trait) (\w+).*\{$")

Block = collections.namedtuple("Block", "indent name is_trait")
Head = collections.namedtuple("Head", "indent name start")


def plain(words, parameters):
    """A type or a trait as a check names it: `From<system_keys::Refusal>` as FromSystem_keysRefusal."""
    words = re.sub(r"^(\w+::)+|'\w+", "", words)
    found = [it for it in re.findall(r"\w+", words) if it not in parameters]
    return "".join(it[0].upper() + it[1:] for it in found)


def block_of(indent, line):
    """The module, trait or impl that a line opens, if it opens one."""
    module, impl = MODULE.match(line), IMPL.match(line)
    if module:
        return Block(indent, module[2], module[1] == "trait")
    if not impl:
        return None
    parameters = re.findall(r"\w+", impl[1] or "")
    if not impl[2]:
        words = [it for it in re.findall(r"\w+", re.sub(r"'\w+", "", impl[3])) if it not in parameters]
        return Block(indent, "+".join(words), False)
    of_type = parameters if "<" in impl[3] else []
    return Block(indent, plain(impl[3], of_type) + plain(impl[2], parameters), True)


def opens_body(head, indent, word, is_first):
    """Whether a line of a function's head ends with the brace that opens its body."""
    if indent == head.indent and word in ("{", "{}"):
        return True
    return (is_first or word.startswith(")")) and word.endswith("{") and word.count("{") == 1


class Reader:
    """Reads a file that `rt fmt` laid out, line by line: what is inside stands further in."""

    def __init__(self, file):
        module = file.removeprefix("src/").removesuffix(".rt").replace("/", "::")
        self.around = [Block(-1, "" if module in ("lib", "main") else module, False)]
        self.at, self.attributes, self.head, self.body, self.found = 0, None, None, None, []

    def path(self, name):
        return "::".join([it.name for it in self.around if it.name] + [name])

    def line(self, line):
        word = line.strip()
        indent = len(line) - len(line.lstrip())
        ends_head = word and indent <= (self.head.indent if self.head else -1) and not word.startswith(")")
        if self.head and self.body is None and ends_head and word not in ("{", "{}"):
            self.head = None  # (a method that a trait only declares)
        while word == "}" and not self.head and indent <= self.around[-1].indent:
            self.around.pop()
        begins = FUNCTION.match(word)
        if not self.head:
            self.outside(indent, word, begins)
        if self.head and self.body is None and opens_body(self.head, indent, word, bool(begins)):
            self.body = self.at + line.index("{") + 1
        if self.head and self.body is not None and indent == self.head.indent and word in ("}", "{}"):
            self.end(line)
        self.at += len(line)

    def outside(self, indent, word, begins):
        """A line that is in no function: it may open a block, or begin a function or its attributes."""
        block = block_of(indent, word)
        if block:
            self.around.append(block)
        elif begins:
            start = self.at if self.attributes is None else self.attributes
            self.head, self.body = Head(indent, begins[1], start), None
        if word.startswith("#["):
            self.attributes = self.at if self.attributes is None else self.attributes
        else:
            self.attributes = None

    def end(self, line):
        head = self.head
        end = self.at + len(line)
        is_trait_method = self.around[-1].is_trait
        self.found.append(Function(self.path(head.name), head.name, head.start, self.body, end, is_trait_method))
        self.head, self.body = None, None


def functions(file, text):
    """The functions with a body in a file that `rt fmt` laid out."""
    reader = Reader(file)
    for line in text.splitlines(True):
        reader.line(line)
    return reader.found
