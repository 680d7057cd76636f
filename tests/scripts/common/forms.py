"""The forms of scripts: for each a script without a fault, from which the cases start, and what it is answered."""
from typing import Callable, NamedTuple

from tests.scripts.common.script import KEY_SERVERS, METADATA_VERSION, SERVER_1, SERVER_TAG, changed, kind_at, places, write


class Form(NamedTuple):
    mode: str
    good: Callable
    answer: str
    # a name that no object of the form has
    stranger: str
    # makes a script that prints one text of bytes as a value and asks for it as a key, and what it is answered
    with_value: Callable
    printed: Callable

    def places(self, *kinds):
        """The places of the good script, or those of these kinds, each with its value."""
        return [(path, value) for path, value in places(self.good()) if not kinds or kind_at(path, value) in kinds]

    def changed(self, path, new):
        """The good script with another value at this place."""
        return changed(self.good(), path, new)


def good_fold():
    """A script without a fault, with a Set, a Clear and a kept row of each family."""
    return {
        "resolvers": 2,
        "rows": [
            {
                "version": 10,
                "states": [
                    {
                        "mutations": [
                            {"set": [SERVER_TAG + SERVER_1, "\\x00\\x00\\x01"]},
                            {"set": [KEY_SERVERS, "\\x01" + SERVER_1 + "\\x00"]},
                            {"clear": ["a", "b"]},
                        ],
                        "lock_aware": True,
                        "verdicts": ["committed", "committed"],
                    }
                ],
            },
            {
                "version": 20,
                "states": [
                    {
                        "mutations": [{"set": [METADATA_VERSION, "v"]}],
                        "lock_aware": False,
                        "verdicts": ["committed", "too_old"],
                    }
                ],
            },
        ],
        "ask": ["a"],
    }


FOLD_ANSWER = 'version 20\nlocked no\nmetadata_version none\nroute "" 0:1\ntags "a" 0:1\n'


def fold_of_value(text):
    change = {"set": [METADATA_VERSION, text]}
    state = {"mutations": [change], "lock_aware": True, "verdicts": ["committed"]}
    return write({"resolvers": 1, "rows": [{"version": 3, "states": [state]}], "ask": [text]})


def printed_fold(spelled, version=3):
    return 'version %d\nlocked no\nmetadata_version "%s"\ntags "%s" none\n' % (version, spelled, spelled)


def good_turns():
    """A script without a fault, with an event and a mutation of each kind."""
    mutations = [
        {"set": [SERVER_TAG + SERVER_1, "\\x00\\x00\\x01"]},
        {"clear": ["a", "b"]},
        {"set_stamped": [METADATA_VERSION, "\\x00" * 14]},
    ]
    return {
        "proxies": 2,
        "resolvers": 2,
        "window": 100,
        "step": 10,
        "events": [
            {"move": {"range": ["m", "t"], "resolver": 1}},
            {"sequence": {"proxy": 1, "batch": [
                {"snapshot": 7, "reads": [["n", "o"]], "writes": [["a", "c"]], "mutations": mutations, "lock_aware": True}
            ]}},
            {"offer": {"row": 0, "resolver": 0}},
            {"offer": {"row": 0, "resolver": 1}},
            {"finish": {"proxy": 1}},
        ],
        "ask": ["a"],
    }


TURNS_ANSWER = """\
move date 1
sequence row 0 version 10
offer row 0 resolver 0 judged committed unseen none
offer row 0 resolver 1 judged committed unseen none
finish proxy 1 version 10
txn 0 committed 10 0
mutation 0 0 tags none
private 0 0 "\\xff\\xff/serverTag/server0000000001" 0:1
mutation 0 1 tags none
mutation 0 2 tags none
proxy 0
version 0
locked no
metadata_version none
tags "a" none
proxy 1
version 10
locked no
metadata_version "\\x00\\x00\\x00\\x00\\x00\\x00\\x00\\x0a\\x00\\x00"
tags "a" none
"""


def turns_of_value(text):
    batch = [
        {"snapshot": 0, "reads": [], "writes": [], "mutations": [{"set": [METADATA_VERSION, text]}], "lock_aware": True}
    ]
    events = [{"sequence": {"proxy": 0, "batch": batch}}, {"offer": {"row": 0, "resolver": 0}}, {"finish": {"proxy": 0}}]
    return write({"proxies": 1, "resolvers": 1, "window": 1, "step": 3, "events": events, "ask": [text]})


def printed_turns(spelled):
    lines = "sequence row 0 version 3\noffer row 0 resolver 0 judged committed unseen none\n"
    lines += "finish proxy 0 version 3\ntxn 0 committed 3 0\nmutation 0 0 tags none\nproxy 0\n"
    return lines + printed_fold(spelled)


def good_threads():
    """A script without a fault, with a move and a mutation of each kind, which comes to the same in every order."""
    mutations = [
        {"set": [SERVER_TAG + SERVER_1, "\\x00\\x00\\x01"]},
        {"clear": ["a", "b"]},
        {"set_stamped": ["k", "\\x00" * 14]},
    ]
    row = [{"set": [KEY_SERVERS, "\\x01" + SERVER_1 + "\\x00"]}]
    return {
        "proxies": 2,
        "resolvers": 2,
        "window": 100,
        "step": 10,
        "rows": 4,
        "moves": [{"range": ["m", "t"], "resolver": 1}],
        "work": [
            [[{"snapshot": 7, "reads": [["n", "o"]], "writes": [["a", "c"]], "mutations": mutations, "lock_aware": True}]],
            [[{"snapshot": 0, "reads": [], "writes": [], "mutations": row, "lock_aware": False}]],
        ],
        "ask": ["a"],
    }


THREADS_ANSWER = """\
batch 0 0 committed
batch 1 0 committed
closing 0 version 30
closing 1 version 40
proxy 0
version 30
locked no
metadata_version none
route "" 0:1
tags "a" 0:1
proxy 1
version 40
locked no
metadata_version none
route "" 0:1
tags "a" 0:1
"""


def threads_of_value(text):
    batch = [
        {"snapshot": 0, "reads": [], "writes": [], "mutations": [{"set": [METADATA_VERSION, text]}], "lock_aware": True}
    ]
    numbers = {"proxies": 1, "resolvers": 1, "window": 1, "step": 3, "rows": 2}
    return write({**numbers, "moves": [], "work": [[batch]], "ask": [text]})


def printed_threads(spelled):
    return "batch 0 0 committed\nclosing 0 version 6\nproxy 0\n" + printed_fold(spelled, 6)


FOLD = Form("fold", good_fold, FOLD_ANSWER, "set_stamped", fold_of_value, printed_fold)
TURNS = Form("turns", good_turns, TURNS_ANSWER, "verdicts", turns_of_value, printed_turns)
THREADS = Form("threads", good_threads, THREADS_ANSWER, "events", threads_of_value, printed_threads)
