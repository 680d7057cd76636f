"""Words for threads scripts and for what they are answered."""
import re

from tests.scripts.common.script import KEY_SERVERS, SERVER_1
from tests.scripts.turns.words import one_key, put, put_servers, put_tag, transaction


def threads(*work, moves=(), ask=(), resolvers=2, window=1000, step=10, rows=100):
    """A script with these lists of batches, one for each proxy."""
    return {
        "proxies": len(work), "resolvers": resolvers, "window": window, "step": step, "rows": rows, "moves": list(moves),
        "work": [list(batches) for batches in work], "ask": list(ask),
    }


def move(begin, end, resolver):
    return {"range": [begin, end], "resolver": resolver}


def putting_row(number):
    """A batch that puts a server at a key of its own, and writes at that row; the first one gives the server its tag too."""
    key = "k%02d" % number
    more = [put_tag(SERVER_1, "\\x00\\x00\\x01")] if number == 0 else []
    return [transaction(0, [], [one_key(KEY_SERVERS + key)], [put_servers(key, SERVER_1), *more])]


def three_by_nine(rows):
    """Three proxies with nine such batches each."""
    return threads(*([putting_row(9 * proxy + number) for number in range(9)] for proxy in range(3)), ask=["k13"], rows=rows)


def reading_and_writing(key, other):
    """A batch that reads one key and writes the other."""
    return [transaction(0, [one_key(key)], [one_key(other)], [put(other, "1")])]


# ---- answers


def outcomes(proxy, *words):
    """The lines of a proxy's batches with these outcomes."""
    return ["batch %d %d %s" % (proxy, number, it) for number, it in enumerate(words)]


def committed(*counts):
    """The lines of committed batches of one transaction, for proxies with so many of them."""
    return [line for proxy, count in enumerate(counts) for line in outcomes(proxy, *["committed"] * count)]


def closings(*ends):
    """The lines of closings, each with its version or its refusal."""
    return ["closing %d %s" % (proxy, it if isinstance(it, str) else "version %d" % it) for proxy, it in enumerate(ends)]


def routes(numbers, tags="0:1"):
    return ['route "k%02d" %s' % (number, tags) for number in numbers]


def meetings(*versions):
    """The lines of each two proxies at these versions, and of their audits."""
    pairs = [(p, q) for p in range(len(versions)) for q in range(p + 1, len(versions))]
    words = ["meet %d %d %s" % (p, q, met(versions[p], versions[q])) for p, q in pairs]
    return words + ["audit %d ok" % proxy for proxy in range(len(versions))]


def with_meetings(text):
    """A text with the lines of meetings and audits at its end, which follow from the versions of its proxies."""
    if "\naudit " in text:
        return text
    versions = map(int, re.findall(r"^proxy \d+\nversion (\d+)$", text, re.MULTILINE))
    return text + "".join(line + "\n" for line in meetings(*versions))


def met(version, other):
    if version == other:
        return "same"
    return "behind" if version < other else "ahead"
