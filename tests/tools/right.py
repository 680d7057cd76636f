"""What the pages of right texts are: those that are stored, those of random scripts, and windows of them."""
import contextlib
import io
import os
import random
import re
import subprocess
import tempfile
import time

from tests.scripts.common.script import write
from tests.scripts.threads import reference as threads_reference
from tests.scripts.turns import reference as turns_reference
from tests.scripts.turns.words import finish, offer, put, sequence, transaction, turns
from tests.tools import pages
from tests.tools.tool import ROOT, called, draw, example, examples, tool, want
from tools import random_scripts

# how large a stored page may be, and how many random scripts of a kind there are
LARGEST, SEEDS = 80_000, 15
# how many events the large script has, and how many seconds of a processor its page may take on a slow machine
EVENTS, SECONDS = 400, 10
# what would make a page open another address
OUTSIDE = r'src=|href="(?!#)|url\(|@import|https?://(?!www\.w3\.org/)'
COUNTS = {
    "turns": (pages.said_of_turns, pages.shown_of_turns), "threads": (pages.said_of_threads, pages.shown_of_threads),
}


# ---- the pages


def stored_pages_are_up_to_date():
    status, said, _ = called(["--all", "--check"])
    want(status == 0, said)


def a_stale_page_is_found():
    with tempfile.TemporaryDirectory() as folder:
        stored = tool.stored
        kept, stored.FOLDER = stored.FOLDER, folder
        try:
            want(len(stored.stale(tool.draw, tool.draw_svg)) == len(stored.PAGES) + 2, "pages that are not there")
            stored.write(tool.draw, tool.draw_svg)
            want(stored.stale(tool.draw, tool.draw_svg) == [], "pages that were just written")
            with open(os.path.join(folder, "README.md"), "a") as file:
                file.write("more")
            open(os.path.join(folder, "other.html"), "w").close()
            found = stored.stale(tool.draw, tool.draw_svg)
            want(found == ["README.md", "other.html"], "a page that was changed, and one that is not of the tool")
            with contextlib.redirect_stdout(io.StringIO()) as said:
                want(tool.check() == 1 and said.getvalue().count("\n") == 2, "the status of a check")
        finally:
            stored.FOLDER = kept


def what_is_made_of_the_crates_is_up_to_date():
    for name, page in (("layers", "docs/layers.svg"), ("file_map", "crates/README.md")):
        made = subprocess.run([os.path.join(ROOT, "tools", name)], capture_output=True, text=True, timeout=60)
        want(made.returncode == 0, made.stderr)
        with open(os.path.join(ROOT, page)) as kept:
            want(made.stdout == kept.read(), f"{page} is old: tools/{name} > {page}")


def stored_pages_are_small():
    for name in os.listdir(tool.stored.FOLDER):
        size = os.path.getsize(os.path.join(tool.stored.FOLDER, name))
        want(size <= LARGEST, "%s has %d bytes" % (name, size))


def check_page(mode, script, text):
    """Checks a page of a right text: it is well formed, asks for nothing outside, shows all, and its words stand apart.

    What it computes of each proxy at the last version is what the text says at the end.
    """
    text = text.decode() if isinstance(text, bytes) else text
    page, wrong = draw(script, text)
    want(wrong is None, wrong)
    want(not re.search(OUTSIDE, page), "the page asks for something outside")
    tree = pages.tree_of(page)
    said, shown = COUNTS[mode][0](text), COUNTS[mode][1](tree)
    lost, added = said[0] - shown[0], shown[0] - said[0]
    want(not lost and not added, "the text also says %s, and the picture also shows %s" % (dict(lost), dict(added)))
    want(said == shown, "the text has the letters %s, and the picture %s" % (said[1:], shown[1:]))
    want(list(pages.copies_said(text)) == pages.copies_shown(tree), "the text and the tables have other private copies")
    for svg in tree.iter(pages.SVG + "svg"):
        found = pages.overlaps(svg)
        want(not found, "; ".join(found[:5]))
    last = max(re.findall(r"^version (\d+)$", text, re.MULTILINE), key=int)
    sections = [it.get("data-v") for it in tree.iter(pages.HTML + "section")]
    want(last in sections, "no routing at version %s" % last)
    said, shown = pages.routing_said(text), pages.routing_of(tree, sections[-1])
    want(said == shown, "the text routes %s, and the page %s" % (said, shown))
    return page


def page_of_example(name):
    page = check_page(name.split("/")[0], *example(name))
    want(len(page.encode()) <= LARGEST, "the page has %d bytes" % len(page.encode()))
    want(page == draw(*example(name))[0], "the page is not the same again")


def overlapping_words_are_found():
    """The check of words finds words that meet, that cross a frame and that leave the picture."""
    words, frame = '<text x="%d" y="20">abc</text>', '<rect class="box" x="5" y="5" width="%d" height="20"/>'
    for inner, count in (
        (words % 10 + words % 50, 0), (words % 10 + words % 30, 1), (words % 80, 1), (frame % 50 + words % 10, 0),
        (frame % 20 + words % 10, 1),
    ):
        svg = '<svg xmlns="http://www.w3.org/2000/svg" width="100" height="50">%s</svg>' % inner
        want(len(pages.overlaps(pages.tree_of(svg))) == count, inner)


# ---- random scripts


def random_turns(kind, seed):
    script = write(kind(random.Random("turns %d" % seed)).script()).encode()
    check_page("turns", script, turns_reference.answer(script))


def random_threads(seed):
    rng = random.Random("threads %d" % seed)
    script = write(random_scripts.threads.random_threads(rng, *rng.choice(random_scripts.threads.SIZES))).encode()
    read, _ = threads_reference.script_of(script)
    order = [proxy for proxy, batches in enumerate(read.work) for _ in batches]
    rng.shuffle(order)
    check_page("threads", script, threads_reference.printed(read, order[: threads_reference.committed_rows(read)], True))


def large_script():
    """A script of some hundred events."""
    rng = random.Random("large")
    drawn = random_scripts.turns.Drawn(rng)
    drawn.proxies, drawn.resolvers, drawn.step, drawn.window = 3, 3, 10, 300
    drawn.judged, drawn.finished = [0] * 3, [0] * 3
    draws = [drawn.sequence] * 5 + [drawn.move] + [drawn.offer] * 12 + [drawn.any_offer] + [drawn.finish] * 5
    events = [drawn.first_batch(), *(rng.choice(draws)() for _ in range(EVENTS))]
    return write(turns(*events, proxies=3, resolvers=3, step=10, window=300, ask=["a", "m"])).encode()


def a_large_script_is_drawn_soon():
    script = large_script()
    text = turns_reference.answer(script)
    begun = time.process_time()
    draw(script, text)
    used = time.process_time() - begun
    want(used <= SECONDS, "its page took %.1f s of a processor" % used)
    check_page("turns", script, text)
    print("tools: a script of %d events is drawn in %.1f s of a processor" % (EVENTS + 1, used))


def a_large_cluster_is_drawn():
    """64 proxies and 64 resolvers, and a batch as large as one can be."""
    batch = [transaction(0, [["a", "b"]], [["a", "b"]], [put("a", "1")]) for _ in range(1024)]
    events = [sequence(63, *batch), sequence(0, *batch[:1]), *(offer(0, resolver) for resolver in range(64)), finish(63)]
    script = write(turns(*events, proxies=64, resolvers=64)).encode()
    check_page("turns", script, turns_reference.answer(script))


# ---- windows


def records_within(page):
    records = pages.of_class(pages.lanes_of(pages.tree_of(page)), "record")
    return [int(it.get("data-version")) for it in records if it.get("data-version")]


def windows_cut():
    script = large_script()
    text = turns_reference.answer(script)
    whole = records_within(draw(script, text)[0])
    for first, last in ((0, None), (0, 50), (40, 90), (100, None), (101, 101), (10**9, None)):
        page, _ = draw(script, text, first, last)
        inside = [it for it in whole if first <= it and (last is None or it <= last)]
        tree = pages.tree_of(page)
        want(records_within(page) == inside, "records from %s to %s: %s" % (first, last, records_within(page)))
        tables = [int(it.get("data-v")) for it in tree.iter(pages.HTML + "section")]
        want(sorted({*inside, first}) == tables or not inside, "tables from %s to %s: %s" % (first, last, tables))
        shown = [int(it.get("data-v")) for it in pages.lanes_of(tree).iter() if it.get("data-v")]
        want(all(first <= it and (last is None or it <= last) for it in shown), "events from %s to %s" % (first, last))
        want(not [found for svg in tree.iter(pages.SVG + "svg") for found in pages.overlaps(svg)], "words meet")


def flags_cut():
    paths = [os.path.join(ROOT, "examples", "turns", "lagging_proxy." + it) for it in ("json", "out")]
    status, page, _ = called([*paths, "--from", "20", "--to", "20"])
    want(status == 0 and records_within(page) == [20], "--from 20 --to 20: %s" % records_within(page))
    status, page, _ = called([*paths, "--from", "30"])
    want(status == 0 and records_within(page) == [30] and "At the end" in page, "--from 30")
    status, page, _ = called([*paths, "--to", "20"])
    want(status == 0 and records_within(page) == [10, 20] and "At the end" not in page, "--to 20")


def windows_cut_threads():
    script, text = example("threads/full_ledger")
    want(records_within(draw(script, text, 20, 20)[0]) == [20], "from 20 to 20")
    want(records_within(draw(script, text, 0, 10)[0]) == [10], "to 10")


# ---- all of them


def checks():
    """Each check with its name."""
    for check in (
        stored_pages_are_up_to_date, a_stale_page_is_found, what_is_made_of_the_crates_is_up_to_date, stored_pages_are_small,
        overlapping_words_are_found, a_large_script_is_drawn_soon, a_large_cluster_is_drawn, windows_cut, flags_cut,
        windows_cut_threads,
    ):
        yield check.__name__, check
    for name, is_refused in examples():
        if not is_refused:
            yield "page of %s" % name, lambda name=name: page_of_example(name)
    for seed in range(SEEDS):
        for kind in (random_scripts.turns.Drawn, random_scripts.Nested, random_scripts.Cleared):
            yield "random turns %s %d" % (kind.__name__, seed), lambda kind=kind, seed=seed: random_turns(kind, seed)
        yield "random threads %d" % seed, lambda seed=seed: random_threads(seed)
