"""Random transactions of turns scripts. In small batches one in 20 is a state transaction. Large batches have 50, none of them one."""
STEP = 10
LARGE, LARGE_KEYS, LARGE_ROWS, LARGE_SERVERS = 50, 1_000_000, 2_000, 30
KEYS, SERVERS = 5_000, 50


def key(number):
    return "%08d" % number


def span(chance):
    """A range of one to five keys."""
    begin = chance.randrange(KEYS)
    return [key(begin), key(begin + chance.randrange(1, 6))]


def state_mutation(chance):
    """A change of the metadata: now and then a tag, and else who has some keys."""
    server = "server%010d" % chance.randrange(SERVERS)
    if chance.random() < 0.2:
        return {"set": ["\\xff/serverTag/" + server, "\\x00\\x00\\x%02x" % chance.randrange(32)]}
    return {"set": ["\\xff/keyServers/" + key(chance.randrange(0, KEYS, 100)), "\\x01" + server + "\\x00"]}


def transaction(chance, last):
    """A transaction with a snapshot of the last 20 batches."""
    state = chance.random() < 0.05
    return {
        "snapshot": max(0, last - STEP * chance.randrange(20)),
        "reads": [span(chance) for _ in range(chance.randrange(3))],
        "writes": [span(chance) for _ in range(chance.randrange(3))],
        "mutations": [state_mutation(chance) if state else {"set": [key(chance.randrange(KEYS)), "value"]}],
        "lock_aware": state,
    }


def batch(chance, row):
    """One to three transactions, about for this row."""
    return [transaction(chance, row * STEP) for _ in range(chance.randrange(1, 4))]


def large_key(number):
    """A key of 14 bytes, of which many begin alike."""
    return "user/%09d" % number


def large_rows():
    """The transactions that put the metadata before large batches: a tag for each server, and keyServers rows of two servers."""
    for server in range(LARGE_SERVERS):
        yield state_transaction([{"set": [server_tag(server), "\\x00\\x00\\x%02x" % server]}])
    between = LARGE_KEYS // LARGE_ROWS
    for first in range(0, LARGE_ROWS, 50):
        yield state_transaction([key_servers(row, between) for row in range(first, first + 50)])


def state_transaction(mutations):
    return {"snapshot": 0, "reads": [], "writes": [], "mutations": mutations, "lock_aware": False}


def server_tag(server):
    return "\\xff/serverTag/server%010d" % server


def key_servers(row, between):
    """The row of the keys from this one on, which two neighbours hold."""
    first, second = sorted((row % LARGE_SERVERS, (row + 1) % LARGE_SERVERS))
    begin = large_key(row * between) if row else ""
    return {"set": ["\\xff/keyServers/" + begin, "\\x02server%010dserver%010d\\x00" % (first, second)]}


def large_span(chance):
    """A single key, or up to 100."""
    begin = chance.randrange(LARGE_KEYS)
    if chance.random() < 0.7:
        return [large_key(begin), large_key(begin) + "\\x00"]
    return [large_key(begin), large_key(begin + chance.randrange(1, 100))]


def large_mutation(chance):
    begin = chance.randrange(LARGE_KEYS)
    if chance.random() < 0.1:
        return {"clear": [large_key(begin), large_key(begin + 100)]}
    return {"set": [large_key(begin), "value%09d" % chance.randrange(LARGE_KEYS)]}


def large_batch(chance, row):
    """Transactions of two reads, two writes and four mutations, with a snapshot of the last 20 batches."""
    return [{
        "snapshot": max(0, (row - chance.randrange(20)) * STEP),
        "reads": [large_span(chance) for _ in range(2)],
        "writes": [large_span(chance) for _ in range(2)],
        "mutations": [large_mutation(chance) for _ in range(4)],
        "lock_aware": False,
    } for _ in range(LARGE)]
