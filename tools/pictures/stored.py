"""The pages of docs/pictures: which there are, and whether they are what the tool writes."""
import os

from tools.pictures.examples_facts import EXAMPLES, facts
from tools.pictures.second_program import ROOT

FOLDER = os.path.join(ROOT, "docs", "pictures")
# the scripts of the pages, without the ending, and that of the diagram which README shows
PAGES = (
    "turns/two_proxies", "turns/moved_range", "turns/spreading_lock", "turns/lagging_proxy", "turns/repeated_request",
    "turns/refused_events", "threads/two_proxies", "threads/full_ledger",
)
DIAGRAM = "turns/two_proxies"
ABOUT = (
    "Some of the [examples](../../examples/README.md), drawn: a lane for each proxy, the sequencer and each resolver, with "
    "requests,",
    "replies, verdicts and outcomes, and the routing at each version. An event opens and shows what each transaction reads "
    "and writes,",
    "whom that asks, and what decided a refusal. A text of threads says less, and its pictures show less. The pages are "
    "HTML files:",
    "open them in a browser, from a copy of the repository. `tools/picture --all` writes them and the diagram",
    "[two_proxies.svg](turns_two_proxies.svg), and [you can draw your own](../../examples/README.md#drawing-a-script).",
)
INDEX = """# Pictures

%s

| Page | What there is to see |
|---|---|
%s
"""


def name_of(example):
    """The page of an example."""
    return example.replace("/", "_") + ".html"


def contents(draw, draw_svg):
    """For each file of docs/pictures what it has to hold; `draw` makes a page, and `draw_svg` a diagram."""
    found, sentences = {}, facts()
    for example in PAGES:
        script, text = read_example(example)
        found[name_of(example)] = draw(example + ".json", script, text, about=sentences[example])[0]
    found[name_of(DIAGRAM)[: -len("html")] + "svg"] = draw_svg(*read_example(DIAGRAM))[0] + "\n"
    rows = ["| [%s](%s) | %s |" % (example.replace("/", ", "), name_of(example), sentences[example]) for example in PAGES]
    found["README.md"] = INDEX % (" ".join(ABOUT), "\n".join(rows))
    return found


def read_example(example):
    """The script and the text of an example."""
    path = os.path.join(EXAMPLES, example)
    with open(path + ".json", "rb") as script, open(path + ".out", "rb") as text:
        return script.read(), text.read()


def write(draw, draw_svg):
    os.makedirs(FOLDER, exist_ok=True)
    for name, content in contents(draw, draw_svg).items():
        with open(os.path.join(FOLDER, name), "w", encoding="utf-8") as file:
            file.write(content)


def stale(draw, draw_svg):
    """The files of docs/pictures that are not what they have to be, are not there, or are not of the tool."""
    wanted = contents(draw, draw_svg)
    there = set(os.listdir(FOLDER)) if os.path.isdir(FOLDER) else set()
    return sorted((there ^ set(wanted)) | {name for name in there & set(wanted) if read(name) != wanted[name]})


def read(name):
    with open(os.path.join(FOLDER, name), encoding="utf-8", errors="replace") as file:
        return file.read()
