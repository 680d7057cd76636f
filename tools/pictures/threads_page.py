"""The page of a threads script."""
from tools.pictures import details, owners_drawing, tables, threads_drawing
from tools.pictures.forms import metadata_of
from tools.pictures.page import (
    bar, both, chip, counted, differences, heading, legend, letters, page, paragraph, table_box, window_words,
)
from tools.pictures.second_program import Move, Work, change_words, key_words, range_words
from tools.pictures.svg import LETTERS, clean, element, escaped
from tools.pictures.threads_drawing import id_of, name_of, versions_of

CHECKS = (
    "A meeting compares the versions of two proxies: that of the first is the same, behind or ahead. An audit says whether "
    "each "
    "resolver has reached the version of the proxy."
)


def draw(name, threads, first, last, about=None):
    """The page of the versions from the first to the last one, or to the end if that is nothing."""
    script = threads.script
    facts = "A threads script: %s, %s, window %d, step %d, room for %s, %s.%s" % (
        counted(script.proxies, "proxy", "proxies"), counted(script.resolvers, "resolver"), script.window, script.step,
        counted(script.rows, "row"), counted(sum(map(len, script.work)), "batch", "batches"), window_words(first, last),
    )
    moves = [Move(*span, 1, resolver) for span, resolver in script.moves]
    left = [heading("Batches, by version from top to bottom"), threads_drawing.draw(threads, first, last)]
    left += [heading("Batch by batch"), batches(threads, first, last)]
    left += [heading("Meetings and audits"), paragraph(CHECKS), table_box(meetings(threads) + audits(threads))]
    left += [heading("Owners of the keys"), paragraph(owners_words(moves)), owners_drawing.draw(moves)]
    left += [heading("At the end, as the text says it"), table_box(ends(threads))]
    title = "Routing by version" if threads.order is not None else "Routing at the end"
    hint = paragraph("Rows in which the proxies differ are bold.", "hint")
    return page(
        name, heading(name, 1), paragraph(about or order_words(threads), "see"), note(threads), bar(facts, key(threads)),
        both(left, title, hint, routing(threads, first, last)),
    )


def draw_svg(threads, first, last):
    return threads_drawing.draw_alone(threads, first, last)


def owners_words(moves):
    return (
        "All moves are made before the first batch, at date 1." if moves else "Resolver 0 owns all keys: there are no moves."
    )


def order_words(threads):
    if threads.order is not None:
        return "Only one order of the batches gives this text, so the version of each is known."
    return "Batches of different proxies can come in any order: each stands at the first version that it may have had."


# ---- what is wrong


def words_of_difference(threads):
    """That no order of the batches gives the text, and why; nothing if one does, or if that is not known."""
    return "no order of the batches gives this text: %s" % threads.wrong if threads.wrong else None


def note(threads):
    """That the text is wrong, with the first line that no order explains; or that this is not known."""
    if not threads.is_checked:
        return paragraph("Whether an order of the batches gives this text is not known: there are too many orders to try.")
    words, found = words_of_difference(threads), threads.unexplained
    if not words:
        return ""
    if not found:
        return element("div", paragraph(words[0].upper() + words[1:] + "."), class_="differs", role="note")
    return differences(words, *place_of(found))


def place_of(found):
    """Where the first line stands that no order explains: its id and its name."""
    if found.number is not None:
        return "b%d-%d" % (found.proxy, found.number), "batch %d of proxy %d" % (found.number, found.proxy)
    if found.proxy is None:
        return "checks", "the meetings and audits"
    if found.line.startswith("closing "):
        return "c%d" % found.proxy, "the closing of proxy %d" % found.proxy
    return "p%d" % found.proxy, "proxy %d at the end" % found.proxy


def unexplained(threads):
    """The line that no order explains beside those with which the possible texts go on."""
    found, pieces = threads.unexplained, []
    for wanted, count in found.wanted:
        pieces.append(tables.compared([found.line], [wanted]))
        if len(found.wanted) > 1:
            pieces.append(paragraph("The line on the right stands in %s." % counted(count, "order")))
    return "".join(pieces) + "".join(element("div", escaped(it), class_="why") for it in found.why)


# ---- the batches


def batches(threads, first, last):
    """Each batch and closing: its version, what its transactions do, and their outcomes."""
    run = threads.run() if threads.order is not None else None
    shown = [it for it in threads.given if not it.rows or threads_drawing.is_inside(threads, it, first, last)]
    return element("div", *(batch(threads, run, it) for it in shown), class_="strips batches")


def batch(threads, run, given):
    version = given.refusal or versions_of(threads, given)
    version += ", depending on the order" if given.rows and given.rows[0] != given.rows[1] else ""
    chips = " ".join(chip(LETTERS[it], it) for it in given.outcomes[:12]) + (" …" if len(given.outcomes) > 12 else "")
    wrong = threads.is_unexplained(given)
    mark = chip("≠", "wrong") + " " if wrong else ""
    summary = "%s<b>%s of proxy %d</b>: %s %s" % (mark, name_of(given), given.proxy, escaped(version), chips)
    lines = element("pre", escaped("\n".join(map(clean, given.lines))))
    inner = lines + (unexplained(threads) if wrong else "")
    if given.number is not None:
        inner += transactions(threads, run, given)
    is_sure = given.rows and given.rows[0] == given.rows[1]
    number = (given.rows[0] + 1) * threads.script.step if is_sure else None
    more, kind = element("div", inner, class_="more"), "event batch differing" if wrong else "event batch"
    return element("details", element("summary", summary), more, class_=kind, id=id_of(given), data_v=number)


def transactions(threads, run, given):
    """The transactions of a batch; whom their ranges ask, and what decided a refusal, is known if the order is."""
    record = run.cluster.of_proxy(given.proxy)[given.number] if run and not given.refusal else None
    parts = []
    for number, it in enumerate(threads.script.work[given.proxy][given.number]):
        outcome = given.outcomes[number] if given.outcomes else None
        if record:
            cause = run.of_outcome(record, number) if outcome != "committed" else None
            ranges = details.ranges(run, record, number)
            first = details.head(record.batch[number], number)
            rest = ranges + (details.sentences(cause) if cause and cause.word == outcome else "")
        else:
            first, rest = details.head(it, number), plain(it)
        parts.append((first + (" " + chip(LETTERS[outcome], outcome) if outcome else ""), rest))
    return details.listed(parts)


def plain(transaction):
    """The ranges and the mutations of a transaction whose version is not known."""
    rows = ["reads %s" % range_words(it) for it in transaction.reads] + [
        "writes %s" % range_words(it) for it in transaction.writes
    ]
    for kind, *rest in transaction.changes:
        words = {"set": "sets %s to %s", "set_stamped": "sets %s to %s, with a stamp put in"}
        rows.append(words[kind] % tuple(map(key_words, rest)) if kind in words else change_words((kind, *rest)))
    return "".join(element("div", escaped(it)) for it in rows)


# ---- words


def key(threads):
    return legend(
        "A batch stands at its version. If the text does not tell it and several orders give the text, the batch stands at "
        "the first "
        "version that it may have had, its frame is dotted, and the bar beside it spans all. Click it to see its "
        "transactions.", "Closings come after all batches, in the order of the proxies; their frames are dashed.",
        "An outcome has a letter: %s. The number before it is that of the transaction in its batch." % letters(),
        "There are no arrows, since a threads text does not say which requests and replies there were.",
        "%s in a thick frame is the first batch that no order explains." % chip("≠", "wrong"),
        *(
            ['<span class="swatch"></span> marks the batch of the version whose routing is shown.']
            if threads.order is not None else []
        ),
    )


# ---- routing and lines


def routing(threads, first, last):
    """The metadata at each version that is shown, if the order of the batches is known;
    otherwise that of each proxy at the end.
    """
    if threads.order is None:
        known = {it.version: it for it, _ in threads.ends}
        yield tables.routing(max(known), [it.version for it, _ in threads.ends], known, threads.script.ask, "At the end")
        return
    known = metadata_by_version(threads)
    for version in known:
        if first <= version and (last is None or version <= last):
            reached = [reached_by(threads, proxy, version) for proxy in range(threads.script.proxies)]
            yield tables.routing(version, reached, known, threads.script.ask, "Version %d" % version)


def metadata_by_version(threads):
    """For version 0 and that of each row, the metadata at it, in the one order of the batches."""
    script, work = threads.script, Work(threads.script)
    rows, had = work.begin(), [0] * script.proxies
    known = {0: metadata_of(0, rows.kept, script.ask)}
    for proxy in threads.order:
        _, rows = work.commit(rows, proxy, had[proxy])
        had[proxy] += 1
        known[rows.rows * script.step] = metadata_of(rows.rows * script.step, rows.kept, script.ask)
    for given in threads.given:
        if given.number is None and given.rows:
            version = (given.rows[0] + 1) * script.step
            known[version] = metadata_of(version, rows.kept, script.ask)
    return known


def reached_by(threads, proxy, version):
    """The last version up to this one of a proxy's batches and of its closing, or 0."""
    rows = [it.rows[0] + 1 for it in threads.given if it.proxy == proxy and it.rows]
    return max([0, *(row * threads.script.step for row in rows if row * threads.script.step <= version)])


def meetings(threads):
    """How the version of each proxy is to that of each later one, with the lines that the tool does not know."""
    proxies = range(1, threads.script.proxies)
    head = element("tr", tables.cell("version of"), *(tables.cell("to proxy %d" % it, "th", scope="col") for it in proxies))
    found, rows = {(one, other): (word, lines) for one, other, word, lines in threads.meetings}, []
    for one in range(threads.script.proxies - 1):
        cells = []
        for other in proxies:
            word, lines = found.get((one, other), ("", [""]))
            cells.append(element("td", escaped(word), *(element("pre", escaped(clean(it))) for it in lines[1:])))
        rows.append(element("tr", tables.cell("proxy %d" % one, "th", scope="row"), *cells, class_="meeting"))
    return (
        element("table", element("thead", head), element("tbody", *rows), id="checks", class_="meetings") if rows
        else element("span", "", id="checks")
    )


def audits(threads):
    """What each audit says, with the lines that the tool does not know."""
    cells = []
    for proxy, behind, lines in threads.audits:
        words = "behind: resolver %s is at %s" % behind if behind else "ok"
        more = [element("pre", escaped(clean(it))) for it in lines[1:]]
        name = tables.cell("%d" % proxy, "th", scope="row")
        cells.append(element("tr", name, element("td", escaped(words), *more), class_="audit"))
    head = element("tr", tables.cell("proxy", "th", scope="col"), tables.cell("audit", "th", scope="col"))
    return element("table", element("thead", head), element("tbody", *cells), class_="audits")


def ends(threads):
    """The lines of each proxy at the end of the text,
    and beside the first that no order explains those that are possible.
    """
    found, rows = threads.unexplained, []
    for proxy, (_, lines) in enumerate(threads.ends):
        wrong = found and place_of(found)[0] == "p%d" % proxy
        said = element("pre", escaped("\n".join(map(clean, lines))))
        name = tables.cell("≠ proxy %d" % proxy if wrong else "proxy %d" % proxy, class_="differs" if wrong else None)
        rows.append(element("tr", name, element("td", said, unexplained(threads) if wrong else ""), id="p%d" % proxy))
    return '<table class="lines ends"><tbody>%s</tbody></table>' % "".join(rows)
