"""Words for turns scripts and for what they are answered."""
from tests.scripts.common.script import KEY_SERVERS, LOCKED, SERVER_TAG, write


def one_key(key):
    """The range of one key."""
    return [key, key + "\\x00"]


def transaction(snapshot=0, reads=(), writes=(), mutations=(), lock_aware=False):
    return {
        "snapshot": snapshot, "reads": list(reads), "writes": list(writes), "mutations": list(mutations),
        "lock_aware": lock_aware,
    }


def read(key, snapshot=0):
    return transaction(snapshot, [one_key(key)])


def written(key, snapshot=0):
    return transaction(snapshot, [], [one_key(key)])


def sequence(proxy, *batch):
    return {"sequence": {"proxy": proxy, "batch": list(batch)}}


def move(begin, end, resolver):
    return {"move": {"range": [begin, end], "resolver": resolver}}


def offer(row, resolver):
    return {"offer": {"row": row, "resolver": resolver}}


def offers(*rows, resolvers=2):
    """Each of these rows to each resolver, row after row."""
    return [offer(row, resolver) for row in rows for resolver in range(resolvers)]


def finish(proxy):
    return {"finish": {"proxy": proxy}}


def turns(*events, ask=(), proxies=2, resolvers=2, window=100, step=10):
    """A script of these events, and of the events in the lists among them."""
    flat = [one for event in events for one in (event if isinstance(event, list) else [event])]
    return {"proxies": proxies, "resolvers": resolvers, "window": window, "step": step, "events": flat, "ask": list(ask)}


def put(key, value):
    return {"set": [key, value]}


def stamp(key, value):
    return {"set_stamped": [key, value]}


def clear(begin, end):
    return {"clear": [begin, end]}


def put_tag(server, text):
    return put(SERVER_TAG + server, text)


def put_servers(key, *sources):
    return put(KEY_SERVERS + key, "\\x%02x%s\\x00" % (len(sources), "".join(sources)))


# a transaction that locks the database, and counts as writing the lock
LOCK = transaction(0, [], [one_key(LOCKED)], [put(LOCKED, "L")], True)


# ---- answers


def sequenced(count, step=10):
    return ["sequence row %d version %d" % (row, (row + 1) * step) for row in range(count)]


def offered(row, resolver, verdicts="none", unseen="none", how="judged"):
    return "offer row %d resolver %d %s %s unseen %s" % (row, resolver, how, verdicts, unseen)


def offered_to_both(row, verdicts="none", unseen="none"):
    return [offered(row, resolver, verdicts, unseen) for resolver in (0, 1)]


def finished(proxy, version, *transactions):
    return ["finish proxy %d version %d" % (proxy, version), *transactions]


def private(number, place, key, tag):
    """The line of a private copy of a Set of this key."""
    return 'private %d %d "\\xff%s" %s' % (number, place, key, tag)


def private_tag(number, place, server, tag):
    """The line of the private copy of a Set of a server's tag."""
    return private(number, place, SERVER_TAG + server, tag)


def shown(proxy, version, *more, locked="no", metadata_version="none"):
    """What is printed of a proxy at the end."""
    return [
        "proxy %d" % proxy, "version %d" % version, "locked %s" % locked, "metadata_version %s" % metadata_version, *more,
    ]


def lines(*parts):
    """The text of these lines, and of the lines in the lists among them."""
    flat = [one for part in parts for one in (part if isinstance(part, list) else [part])]
    return "".join(line + "\n" for line in flat)


def case(name, script, *parts):
    return name, write(script), lines(*parts)
