"""Three riddles from the examples. The answer to each is the result of its events, and is read from their lines."""
import os
from typing import Callable, NamedTuple

from tools.pictures.examples_facts import EXAMPLES


class Riddle(NamedTuple):
    name: str
    example: str
    # after how many events the question comes
    at: int
    question: str
    # each with what it stands for among the answers
    choices: list
    # what the events come to: the answer, and the event that shows it
    answer: Callable


def conflicting(turns):
    """The transactions of the last finished batch that conflict, and the offer that decides the first."""
    last = [it for it in turns.events if it.kind == "finish" and not it.refusal][-1]
    numbers = [line.split(" ")[1] for line in last.lines if line.startswith("txn ") and " conflict " in line]
    record = turns.run.records[last.number]
    said = [it for it in turns.events if it.kind == "offer" and it.words[0] == record.row and "conflict" in it.said[3]]
    return " ".join(numbers), said[0].number if said else last.number


def knowing(turns):
    """The proxies that have a tag for all keys at the end, and the last reply that lists an unseen row."""
    proxies = [str(proxy) for proxy, (metadata, _, _) in enumerate(turns.ends) if metadata.routes]
    told = [it.number for it in turns.events if it.kind == "offer" and not it.refusal and it.said[4] != "none"]
    return " ".join(proxies), told[-1]


def refused_as(turns):
    """Why the first transaction of the last judged batch is refused, and its offer."""
    last = [it for it in turns.events if it.kind == "offer" and not it.refusal and it.said[3] != "none"][-1]
    return last.said[3].split(" ")[0], last.number


RIDDLES = (
    Riddle(
        "Which transaction conflicts?", "turns/moved_range", 8,
        "Row 0 wrote n at version 10. Then n moved to resolver 1, and row 1 wrote it at version 20. Both transactions of "
        "row 2 read n: "
        "transaction 0 with snapshot 10, transaction 1 with snapshot 20. Which of them conflicts?",
        [("transaction 0", "0"), ("transaction 1", "1"), ("both", "0 1"), ("none", "")], conflicting,
    ),
    Riddle(
        "Which proxy has the tag?", "turns/two_proxies", 2,
        "Proxy 0 commits that a server has the tag 0:1 and all keys. Proxy 1 has a batch after it, and the two never talk "
        "to each other. "
        "Resolver 0 judges both batches, and then proxy 1 alone finishes. Which proxy then gives the tag 0:1 to a write?",
        [("proxy 0", "0"), ("proxy 1", "1"), ("both", "0 1"), ("none", "")], knowing,
    ),
    Riddle(
        "Why is it refused?", "turns/window_edge", 2,
        "Nobody has written anything. The window is 15. Row 1 is at version 20, and its transaction 0 reads with snapshot "
        "4. "
        "What will resolver 0 say of it?",
        [
            ("it is committed: nobody wrote what it reads", "committed"), ("conflict: a write came between", "conflict"),
            ("too old: its snapshot is before the edge of the window, 20 less 15", "too_old"),
        ], refused_as,
    ),
)


def script_of(riddle):
    with open(os.path.join(EXAMPLES, riddle.example + ".json"), encoding="utf-8") as file:
        return file.read()


def judged(number, choice, turns):
    """Whether a choice is the result of the events, the right choice in words, and the event that shows it."""
    riddle = RIDDLES[number]
    answer, event = riddle.answer(turns)
    words = next((words for words, value in riddle.choices if value == answer), answer)
    return {"right": choice == answer, "words": words, "event": event}
