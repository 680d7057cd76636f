"""What a check said of a batch of edits: which of them the prover refused, and by what."""
import collections
import os
import re

# A function that is not proved, and why.
FELL = re.compile(r"(?m)^fn (\S+): (?:not proved|no proof)[:;]? ?(.*)$")
# What a function's line says of those that it calls is no fault of its own.
OF_CALLEES = re.compile(r"(; )?(it calls|it passes|a call of) .*?, which (is|are) not proved")
# An error in a declaration, as of a lemma or of an answer in a function's folder of proofs/; or one in a `use` line,
# which is no declaration.
WRONG = re.compile(r"(?m)^(?:\./)?(\S+):\d+:\d+: error: (?:`([^`]*)`: )?(.*)$")
# A proof that names what the edit took away: such an error says little of the contract.
NAME_IS_GONE = re.compile(r"has no field|is not in scope|has no `|was not admitted")
# A function that the edit put beyond the prover: such an edit says nothing of the contract.
IS_NOT_COVERED = re.compile(r"the borrow checker does not cover this function|part in its proof is not made yet")
# A long error of this kind goes on in the next line.
GOES_ON = re.compile(rf"\n +(?={NAME_IS_GONE.pattern})")
# What rests on a declaration that fell is not checked: no fault of its own.
OF_OTHERS = re.compile(r"^\d+ declarations? that depends? on ")
ENDED = re.compile(r"(?m)^(logic=(not-)?proved|only=)")
PROOF_FILES = ("Answers.antt", "Invariants.antt", "Proof.antt")


class Said:
    """What a check printed, read: the functions and lemmas that fell by themselves, each with the reason."""

    def __init__(self, crate, text):
        self.reaches_prover = bool(ENDED.search(text))
        self.first_error = (re.findall(r"(?m)^\S*:\d+:\d+: error.*", text) or text.split("\n"))[0][:300]
        self.answers, self.lemmas = collections.defaultdict(list), {}
        for file, name, why in WRONG.findall(GOES_ON.sub(" ", text)):
            if name or NAME_IS_GONE.search(why) and not OF_OTHERS.search(why):
                self.answers[os.path.dirname(file)].append((name or "use", why))
            if name and os.path.basename(file) not in PROOF_FILES:
                self.lemmas.setdefault(name, []).append(why)
        self.fallen = {name.removeprefix(f"{crate}::"): why for name, why in FELL.findall(text)}
        self.functions = {}
        for name, why in self.fallen.items():
            reason = self.own_reason(name, OF_CALLEES.sub("", why))
            if reason:
                self.functions[name] = reason

    def own_reason(self, name, why):
        """Why the function fell by itself: a goal, or what is none; nothing if only its callees fell."""
        of_answers = self.answers.get(f"proofs/{name.replace('::', '/')}", [])
        by_goal = [f"`{it}`: {words}" for it, words in of_answers if not NAME_IS_GONE.search(words)]
        goal = why.partition(".antt; ")[2] or ("" if of_answers and why.startswith("expected answers") else why)
        if IS_NOT_COVERED.search(goal):
            return Reason(False, f"the prover does not cover it: {goal}"[:120])
        if goal or by_goal:
            return Reason(True, (goal or by_goal[0])[:120])
        gone = "its proof names what is gone"
        return Reason(False, f"{gone}: `{of_answers[0][0]}`: {of_answers[0][1]}"[:150]) if of_answers else None

    def reason(self, name):
        """Why this function or lemma fell by itself, if it did."""
        if name in self.functions:
            return self.functions[name]
        if name in self.lemmas:
            by_goal = [it for it in self.lemmas[name] if not NAME_IS_GONE.search(it)]
            words = by_goal[0] if by_goal else f"its proof names what is gone: {self.lemmas[name][0]}"
            return Reason(bool(by_goal), words[:150])
        return None

    def all_names(self):
        return {*self.functions, *self.lemmas}


Reason = collections.namedtuple("Reason", "is_goal words")
# outcome: one of edit.EXPECTED; words: by what, or why not
Answer = collections.namedtuple("Answer", "outcome words")


def judge(batch, said):
    """Gives each edit that the check decides its answer, and returns the others and the names that fell unexpectedly."""
    is_alone = len(batch.edits) == 1
    if not said.reaches_prover:
        if is_alone:
            batch.edits[0].answer = Answer("bad edit", f"it does not reach the prover: {said.first_error}")
        return ([] if is_alone else batch.edits), set()
    others = unexpected(batch, said)
    if others and not is_alone:
        return batch.edits, others
    for edit in batch.edits:
        edit.answer = answer(edit, batch.names[edit], said, is_alone)
    return [it for it in batch.edits if it.answer is None], set()


def unexpected(batch, said):
    """What fell by itself, and is neither what must refuse an edit of the batch nor recorded as falling with one."""
    known = {name for edit in batch.edits for name in (batch.names[edit], *(edit.falls or ()))}
    fallen = said.functions if batch.is_of_functions() else said.all_names()
    return {it for it in fallen if it not in known}


def answer(edit, name, said, is_alone):
    reason = said.reason(name)
    if reason and reason.is_goal:
        return Answer("refused", f"by {name}: {reason.words}")
    if reason:
        return Answer("not refused", f"{name} falls by no goal, as {reason.words}")
    # what rests on a lemma that fell is not checked, and not named: such an edit is tried again without the others
    if is_alone or edit.function and name not in said.fallen:
        what = ", ".join(sorted(said.all_names()))[:300] or "nothing"
        return Answer("not refused", f"{name} has no fault of its own; what has: {what}")
    return None
