"""The second program in Python, and how tools/explaining finds causes in it: the one place where they are imported."""
import os

ROOT = os.path.dirname(os.path.dirname(os.path.dirname(os.path.abspath(__file__))))
from tests.scripts.fold.reference import (
    END, LOCKED, METADATA_VERSION, Refused, fold, is_locked, metadata_lines, quoted, read_bytes, read_json,
)
from tests.scripts.threads import orders as threads_orders, reference as threads_reference
from tests.scripts.threads.orders import last_change
from tests.scripts.threads.reference import Work
from tests.scripts.turns import reference as turns_reference
from tests.scripts.turns.reference import (
    Cluster, Move, all_reads, check_event, is_state, read_event, read_turns, readers, refusal, writers,
)
from tools.explaining import offers, outcomes, threads as threads_explained, verdicts
from tools.explaining.journal import change_words, key_words, range_words
from tools.explaining.owners import owners_words, resolvers_words
from tools.explaining.run import Run

__all__ = [
    "Cluster", "END", "LOCKED", "METADATA_VERSION", "Move", "ROOT", "Refused", "Run", "Work", "all_reads", "change_words",
    "check_event", "fold", "is_locked", "is_state", "key_words", "last_change", "metadata_lines", "offers", "outcomes",
    "owners_words", "quoted", "range_words", "read_bytes", "read_event", "read_json", "read_turns", "readers", "refusal",
    "resolvers_words", "threads_explained", "threads_orders", "threads_reference", "turns_reference", "verdicts", "writers",
]
