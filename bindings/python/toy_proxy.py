"""Runs a toy proxy beside a session, and stops at the first answer that differs.

    python3 bindings/python/toy_proxy.py [late]

The toy keeps the version of each key's last write. With `late` it takes a write at the snapshot for a later one.
"""
import json
import sys

import gakyhera

CLUSTER = {"cluster": {"proxies": 1, "resolvers": 1, "window": 1_000_000, "step": 10}}


def answers(is_late):
    """Each line that the client gives to the toy, and the toy's answer."""
    yield CLUSTER, "cluster"
    snapshot, draw, written = 0, 1, {}
    for row in range(1000):
        draw = draw * 75 % 65537
        key, version = chr(ord("a") + draw % 4), 10 * row + 10
        ranges = [[key, chr(ord(key) + 1)]]
        batch = [{"snapshot": snapshot, "reads": ranges, "writes": ranges, "mutations": [], "lock_aware": False}]
        yield {"sequence": {"proxy": 0, "batch": batch}}, "sequence row %d version %d" % (row, version)
        conflicts = written.get(key, -1) > snapshot - is_late
        verdict = "conflict" if conflicts else "committed"
        yield {"offer": {"row": row, "resolver": 0}}, "offer row %d resolver 0 judged %s unseen none" % (row, verdict)
        outcome = "conflict 1020" if conflicts else "committed %d 0" % version
        yield {"finish": {"proxy": 0}}, "finish proxy 0 version %d\ntxn 0 %s" % (version, outcome)
        # after a conflict the client reads anew
        if conflicts:
            snapshot = version - 10
        else:
            written[key] = version


def main():
    asked = 0
    with gakyhera.Session() as session:
        for asked, (line, own) in enumerate(answers(sys.argv[1:] == ["late"]), 1):
            right = session.line(json.dumps(line)).decode()
            if right != own + "\n\n":
                print("answer %d must be: %s" % (asked, right[:-2]))
                return 1
    print("%d answers are the same" % asked)
    return 0


if __name__ == "__main__":
    sys.exit(main())
