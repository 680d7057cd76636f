"""All checks of a run of edits, as many side by side as there may be."""
import collections
import concurrent.futures
import os
import time

from batch import Batch, batches
from verdict import Said, judge

# How often a run looks whether the process that it runs beside has ended, in seconds.
LOOK = 1


class Trials:
    """All checks of a run: the crates as they are, lowest first, and the batches of each once it is proved.

    What each batch has judged is recorded at once: a run that is broken off keeps the crates that it has ended.
    """

    def __init__(self, room, edits, options, records):
        self.room, self.options, self.records, self.waiting, self.running = room, options, records, [], {}
        self.edits = [it for it in edits if not it.fault]
        self.wanted = {it.crate for it in self.edits}
        self.needed = {it for crate in self.wanted for it in (*room.all_below(crate), crate)}
        self.proved, self.started, self.faults = set(), set(), []
        # the batches of a crate that wait for what its first one proves
        self.later = {}

    def run(self):
        with concurrent.futures.ThreadPoolExecutor(self.options.jobs) as pool:
            while True:
                # (asked before the start: what rt ci proved just before it ended is still to be tried)
                is_more = self.is_beside() and self.started != self.needed
                self.start(pool)
                if not is_more and not self.running:
                    return
                self.wait()

    def wait(self):
        """Waits for a check to end, or a while."""
        if not self.running:
            return time.sleep(LOOK)
        how = {"timeout": LOOK, "return_when": concurrent.futures.FIRST_COMPLETED}
        for future in concurrent.futures.wait(self.running, **how).done:
            self.ended(self.running.pop(future), future.result())

    def start(self, pool):
        """Starts as many checks as may run now: the proofs that most others wait for, and then the longest batches."""
        self.waiting += self.ready_proofs()
        self.waiting.sort(key=lambda it: (1, -len(it.edits)) if isinstance(it, Batch) else (0, -self.waiting_for(it)))
        while self.waiting and len(self.running) < self.lanes():
            what = self.waiting.pop(0)
            call = self.try_batch if isinstance(what, Batch) else self.prove
            self.running[pool.submit(call, what)] = what

    def is_beside(self):
        """Whether `rt ci` is running beside this run."""
        try:
            return self.options.beside is not None and os.kill(int(self.options.beside[0]), 0) is None
        except ProcessLookupError:
            return False

    def lanes(self):
        """How many checks may run side by side now."""
        is_shared = self.is_beside() or self.options.share and os.path.exists(self.options.share)
        return max(self.options.jobs // 2, 1) if is_shared else self.options.jobs

    def ready_proofs(self):
        """The crates that are still to be proved as they are, and that stand on proved crates alone.

        While `rt ci` runs these are the ones that it has proved, and once it has ended all others: it need not prove
        a crate anew whose verdict is known.
        """
        ready = [it for it in sorted(self.needed - self.started) if self.proved.issuperset(self.room.all_below(it))]
        if self.is_beside():
            self.room.take_proved()
            ready = [it for it in ready if it in self.room.taken]
        self.started.update(ready)
        return ready

    def is_whole(self, crate):
        """Whether there are edits that ask for checks of the whole crate: those of definitions that laws refuse."""
        of_definitions = [it for it in self.edits if it.crate == crate and not it.function]
        return not all(it.is_refused_by_function() for it in of_definitions)

    def prove(self, crate):
        return self.room.prove(crate, self.is_whole(crate))

    def waiting_for(self, crate):
        """How many crates wait for the proof of this one."""
        return sum(crate in self.room.all_below(it) for it in self.wanted)

    def try_batch(self, batch):
        return self.room.try_texts(batch.edits[0].crate, batch.changed_files(), batch.tried_functions())

    def ended(self, what, result):
        if isinstance(what, Batch):
            self.batch_ended(what, result)
        else:
            self.base_ended(what, result)

    def base_ended(self, crate, fault):
        print(f"edits: {crate}: {'NOT PROVED as it is: ' + fault if fault else 'proved as it is'}", flush=True)
        if fault:
            self.faults.append(crate)
            return
        self.proved.add(crate)
        made = self.first_batches(crate)
        now = len(made) if self.room.has_kept(crate) else 1
        self.waiting += made[:now]
        self.later[crate] = made[now:]

    def first_batches(self, crate):
        """The batches of a crate's edits: what does not compile and what is to be recorded share no check with others."""
        home, is_whole = self.room.home(crate), self.is_whole(crate)
        kinds = collections.defaultdict(list)
        for edit in (it for it in self.edits if it.crate == crate):
            is_recorded = self.options.record and not edit.function and edit.falls is None
            # (an edit of a definition can share a check of the whole crate alone)
            is_alone = is_recorded or self.options.alone or not edit.function and not is_whole
            kinds[edit.expected == "bad edit", is_recorded, is_alone].append(edit)
        made = []
        for (_, is_recorded, is_alone), edits in sorted(kinds.items()):
            some = batches(edits, home, is_alone)
            for batch in some:
                batch.is_whole |= is_recorded
            made += some
        return made

    def batch_ended(self, batch, ran):
        crate = batch.edits[0].crate
        said = Said(crate, ran.printed)
        later, others = judge(batch, said)
        judged = len(batch.edits) - len(later)
        spent = f"{ran.seconds:.0f} seconds, {ran.processor:.0f} of a processor"
        print(f"edits: {crate}: a check of {len(batch.edits)} edits took {spent}, {judged} judged", flush=True)
        if others:
            print(f"edits: {crate}: these fell too, so the edits are tried apart: {', '.join(sorted(others))}")
        if self.options.record and len(batch.edits) == 1 and batch.is_whole:
            batch.edits[0].record_falls(said.all_names() - {batch.edits[0].refused})
        half = len(later) // 2 if not judged else 0
        for some in (later[:half], later[half:]):
            self.waiting += batches(some, self.room.home(crate))
        self.waiting += self.later.pop(crate, [])
        self.records.write(self.edits)
