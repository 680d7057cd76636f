"""The table of scripts, right ones and wrong ones, each with what it must be answered.

What a case must be answered follows from the fault that it plants, by docs/FORMATS.md: a text of which `serde_json` reads no
value is 70; a value without the form is 71, also where other faults stand before it; and otherwise the first fault of a key,
a value, a range, a stamp or a batch in the order of the script, and last of all a move to a resolver that is not there.
"""
import functools
import random

from tests.scripts.common import hostile_cases, json_cases, shape_cases, size_cases, text_cases
from tests.scripts.common.forms import FOLD, THREADS, TURNS
from tests.scripts.fold import (
    content_cases as fold_content_cases, limit_cases as fold_limit_cases, order_cases as fold_order_cases,
    right_cases as fold_right_cases, shape_cases as fold_shape_cases, stream_cases as fold_stream_cases,
)
from tests.scripts.threads import (
    content_cases as threads_content_cases, limit_cases as threads_limit_cases, order_cases as threads_order_cases,
    right_cases as threads_right_cases, shape_cases as threads_shape_cases,
)
from tests.scripts.turns import (
    content_cases as turns_content_cases, limit_cases as turns_limit_cases, order_cases as turns_order_cases,
    right_cases as turns_right_cases, row_cases as turns_row_cases, shape_cases as turns_shape_cases,
)

OF_EACH_FORM = [
    kind for part in (shape_cases, text_cases, json_cases, size_cases, hostile_cases) for kind in part.OF_EACH_FORM
]
OF_FOLD = [
    kind
    for part in (
        fold_right_cases, fold_shape_cases, fold_content_cases, fold_order_cases, fold_stream_cases, size_cases,
        fold_limit_cases,
    )
    for kind in part.CASES
]
OF_TURNS = [
    kind
    for part in (
        turns_right_cases, turns_row_cases, turns_shape_cases, turns_content_cases, turns_order_cases, turns_limit_cases,
    )
    for kind in part.CASES
]
OF_THREADS = [
    kind
    for part in (threads_right_cases, threads_shape_cases, threads_content_cases, threads_order_cases, threads_limit_cases)
    for kind in part.CASES
]

# how many cases of a kind that each form has are tried, drawn by the kind's name; all where there is no number. Threads
# scripts are read as turns scripts are, but for a few fields
FORMS = ((FOLD, OF_FOLD, None), (TURNS, OF_TURNS, None), (THREADS, OF_THREADS, 300))


def kinds_of_cases():
    """For each kind of case a call that makes its cases."""
    for form, of_the_form, most in FORMS:
        for kind in OF_EACH_FORM:
            yield functools.partial(cases_of, form, kind, most, form)
        for kind in of_the_form:
            yield functools.partial(cases_of, form, kind, None)


def cases_of(form, kind, most, *more):
    """Each case of a kind, or as many as that: its mode, its kind, what it is, its bytes, and what must be answered."""
    for name, script, answer in some_of(list(kind(*more)), kind.__name__, most) if most else kind(*more):
        yield form.mode, kind.__name__, name, script if isinstance(script, bytes) else script.encode(), answer


def some_of(cases, name, most):
    return random.Random(name).sample(cases, min(most, len(cases)))
