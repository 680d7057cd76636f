"""Random scripts as cases, each from its seed, as tools/random_scripts draws them."""
from tools import random_scripts


def cases_of(mode, kinds, seeds):
    """Each case: its mode, its kind, its seed, its bytes, and what must be answered,
    or nothing where the second program says it.
    """
    for seed in seeds:
        for kind in kinds:
            yield mode, "random_" + kind, "seed %d" % seed, *random_scripts.drawn(mode, kind, seed)
