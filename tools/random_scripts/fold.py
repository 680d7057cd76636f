"""Random fold scripts, over few keys, servers and values, so that rows meet, change and go."""
import copy

from tests.scripts.common.script import places
from tests.scripts.fold.content_cases import FAULTS

from .faults import spelled_wrong
from .spelling import text

SERVERS = [b"server000000000%d" % number for number in range(1, 6)] + [b"\0" * 16, b"\xff" * 16]
KEYS = [b"", b"\0", b"a", b"a\0", b"ab", b"b", b"m", b"z", b"\x7f", b"\x80", b"\xff", b"\xff\xff", b"\xff/keyServers/"]
OTHERS = [
    b"\xff", b"\xff\0", b"\xff\x02", b"\xff\x02/x", b"\xff\x03", b"\xff/", b"\xff/keyServers", b"\xff/keyServers0",
    b"\xff/t",
]
OTHERS += [b"\xff/serverTag/", b"\xff/serverTag/short", b"\xff/serverTag0", b"\xff/dbLocked\0", b"\xff/dbLocke", b"\xff\xfe"]
TAGS = [b"\0\0\1", b"\0\0\2", b"\0\1\0", b"\1\0\0", b"\0\0\1", b"\xff\xff\xff", b"\3\1\2"]
# a tag that only a keyServers row lists, and no server has
LISTED, LISTED_TEXT = b"\7\7\7", "7:1799"
GREATEST = 2**63 - 1


def team(rng):
    """A list of rising servers with its count."""
    servers = sorted(rng.sample(SERVERS, rng.choice([0, 1, 1, 2, 3, 7])))
    return bytes([len(servers)]) + b"".join(servers)


def tag_list(rng):
    """A list of rising tags with its count."""
    tags = sorted(rng.sample(sorted({*TAGS, LISTED}), rng.choice([0, 1, 1, 2, 3, 7])))
    return bytes([len(tags)]) + b"".join(tags)


def location(rng):
    """The value of a keyServers row: servers, or now and then tags."""
    if rng.random() < 0.3:
        return b"\0\0" + tag_list(rng) + tag_list(rng)
    return team(rng) + team(rng)


def kept_row(rng):
    kind = rng.randrange(10)
    if kind < 5:
        return b"\xff/keyServers/" + rng.choice(KEYS), location(rng)
    if kind < 8:
        return b"\xff/serverTag/" + rng.choice(SERVERS), rng.choice(TAGS)
    if kind < 9:
        return b"\xff/dbLocked", rng.choice([b"", b"", b"L", b"\0"])
    return b"\xff/metadataVersion", rng.choice([b"", b"v", b'"', b"\\", b"\0\x7f\xff ~!"])


def any_key(rng):
    """A key from the whole space, up to its end."""
    return rng.choice([kept_row(rng)[0], kept_row(rng)[0], rng.choice(KEYS[:-2]), rng.choice(OTHERS)])


def clear(rng):
    """A range that is not empty, and now and then ends behind the rows of a family."""
    while True:
        begin, end = any_key(rng), rng.choice([any_key(rng), any_key(rng) + b"\0", b"\xff\xff", b"\xff/keyServers0"])
        if rng.random() < 0.8 and begin.startswith(b"\xff/keyServers/"):
            end = b"\xff/keyServers/" + rng.choice(KEYS)
        if begin < end:
            return begin, end


def tag_change(rng):
    """A change of the tags under the rows: the tag of a server is set or cleared, or those of some servers are cleared."""
    first, last = sorted(rng.sample(SERVERS, 2))
    prefix, kind = b"\xff/serverTag/", rng.randrange(3)
    if kind == 0:
        return {"set": [text(prefix + first), text(rng.choice(TAGS))]}
    return {"clear": [text(prefix + first), text(prefix + (first + b"\0" if kind == 1 else last))]}


def change(rng):
    kind = rng.randrange(12)
    if kind >= 10:
        return tag_change(rng)
    if kind < 7:
        return {"set": [text(part) for part in kept_row(rng)]}
    if kind < 9:
        return {"clear": [text(part) for part in clear(rng)]}
    return {"set": [text(rng.choice([rng.choice(OTHERS), rng.choice(KEYS[:-2])])), text(rng.choice([b"", b"L", b"\xff"]))]}


def state(rng, resolvers):
    words = ["committed"] * resolvers
    if rng.random() < 0.25:
        words[rng.randrange(resolvers)] = rng.choice(["conflict", "too_old"])
    return {
        "mutations": [change(rng) for _ in range(rng.choice([0, 1, 1, 2, 3, 6]))],
        "lock_aware": rng.random() < 0.6,
        "verdicts": words,
    }


def first_state(rng, resolvers):
    """A transaction that is let pass and sets tags and rows, for the later ones to change."""
    tags = [{"set": [text(b"\xff/serverTag/" + server), text(rng.choice(TAGS))]} for server in rng.sample(SERVERS, 5)]
    rows = [{"set": [text(b"\xff/keyServers/" + key), text(location(rng))]} for key in rng.sample(KEYS, 4)]
    return {"mutations": tags + rows, "lock_aware": True, "verdicts": ["committed"] * resolvers}


def versions(rng, count):
    """Rising versions, close to each other or far, from the least to the greatest."""
    if rng.random() < 0.5:
        return list(range(1, count + 1))
    if rng.random() < 0.2:
        return list(range(GREATEST - count + 1, GREATEST + 1))
    return sorted(rng.sample(range(1, 10_000), count))


def right_script(rng, size=None):
    """A script without a fault, with as many rows as the size says."""
    resolvers = rng.choice([1, 1, 1, 2, 2, 2, 3, 3, 64])
    rows = [
        {"version": version, "states": [state(rng, resolvers) for _ in range(rng.choice([0, 1, 1, 2, 4]))]}
        for version in versions(rng, rng.choice([0, 1, 2, 3, 5, 8]) if size is None else size)
    ]
    if rows and rng.random() < 0.8:
        rows[0]["states"].insert(0, first_state(rng, resolvers))
    asked = [
        rng.choice([rng.choice(KEYS), any_key(rng), any_key(rng), b"\xff\xff\xff"]) for _ in range(rng.choice([0, 1, 3, 6]))
    ]
    return {"resolvers": resolvers, "rows": rows, "ask": [text(key) for key in asked]}


# ---- faults


def plant_change(rng, script, planted):
    """Puts a change at fault into a random list of mutations, where there is one; says whether."""
    lists = [inner for path, inner in places(script) if path and path[-1] == "mutations"]
    if not lists:
        return False
    change, answer = copy.deepcopy(rng.choice(list(FAULTS.values())))
    mutations = rng.choice(lists)
    mutations.insert(rng.randrange(len(mutations) + 1), change)
    planted.append((change, answer))
    return True


def first_planted(script, planted):
    """The answer to the first of the planted changes, in the order of the lists."""
    for _, inner in places(script):
        for change, answer in planted:
            if inner is change:
                return answer
    return None


def wrong_script(rng, size=None):
    """The text of a script with one to three kinds of fault, what it must be answered, and the fault of JSON, if any."""
    script = right_script(rng, size)
    kinds = rng.sample(["change", "change", "change", "form", "json"], rng.choice([1, 1, 2, 3]))
    planted = []
    for _ in range(kinds.count("change")):
        if not plant_change(rng, script, planted):
            kinds.append("form")
    answer = first_planted(script, planted)
    return spelled_wrong(rng, script, kinds, False, answer)
