#!/usr/bin/env python3
"""A second program: what a session answers to its lines, by docs/FORMATS.md. It shares nothing with the first.

    python3 -m tests.sessions.reference < LINES

It prints the answers to the lines on standard input, each as soon as its line has come.
"""
import sys

from tests.scripts.fold.reference import Refused, fields, items, read_bytes, read_json, read_number, want
from tests.scripts.turns import reference as turns_reference

NO_CLUSTER = ["refused 72 NoCluster"]


def read_line(value):
    """What a line asks: the numbers of a cluster, a proxy to show and keys, or an event."""
    want(isinstance(value, dict) and len(value) == 1)
    name = next(iter(value))
    if name == "cluster":
        return name, turns_reference.read_numbers(*fields(value[name], "proxies", "resolvers", "window", "step"))
    if name == "show":
        proxy, ask = fields(value[name], "proxy", "ask")
        return name, (read_number(proxy), [read_bytes(key) for key in items(ask)])
    event = turns_reference.read_event(value)
    turns_reference.check_event(event)
    return "event", event


class Session:
    def __init__(self):
        self.cluster = None

    def lines(self, line):
        """The lines of the answer, before its empty line."""
        try:
            kind, asked = read_line(read_json(line))
        except Refused as refused:
            number = refused.args[0]
            return ["refused %d %s" % (number, turns_reference.REFUSALS[number])]
        if kind == "cluster":
            self.cluster = turns_reference.Cluster(*asked)
            return ["cluster"]
        if self.cluster is None:
            return NO_CLUSTER
        if kind == "event":
            return getattr(self.cluster, asked[0])(*asked[1:])
        proxy, ask = asked
        if proxy >= self.cluster.proxies:
            return turns_reference.refusal(32)
        return list(self.cluster.routing_lines(proxy, ask))

    def answer(self, line):
        return "".join(it + "\n" for it in [*self.lines(line), ""]).encode()


def answers(lines):
    """The text of a whole session."""
    session = Session()
    return b"".join(map(session.answer, lines))


def main():
    session = Session()
    for line in sys.stdin.buffer:
        sys.stdout.buffer.write(session.answer(line.removesuffix(b"\n")))
        sys.stdout.buffer.flush()
    return 0


if __name__ == "__main__":
    sys.exit(main())
