"""Random fold scripts as cases, each from its seed."""
from tests.scripts.common.random_cases import cases_of


def random_folds(seeds):
    return cases_of("fold", ("right", "wrong", "json"), seeds)
