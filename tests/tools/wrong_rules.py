"""The second program with a small change of its rules: what another implementation with that fault would print."""
import os
import sys
import threading
import types

ROOT = os.path.dirname(os.path.dirname(os.path.dirname(os.path.abspath(__file__))))
# the module of the second program for each mode, after those that it imports
MODULES = {mode: "tests.scripts.%s.reference" % mode for mode in ("fold", "turns", "threads")}
# held while the modules of the process are others
IMPORTING = threading.Lock()


def source_of(mode):
    with open(os.path.join(ROOT, *MODULES[mode].split(".")) + ".py") as file:
        return file.read()


def changed_source(mode, changed, old, new):
    """The source of a mode's module; of the changed mode's with another text for one that stands there once."""
    source = source_of(mode)
    if mode != changed:
        return source
    if source.count(old) != 1:
        raise ValueError("%r stands %d times in %s" % (old, source.count(old), MODULES[mode]))
    return source.replace(old, new)


def changed_modules(changed, old, new):
    """The modules of the second program, by mode, where that of the changed mode has this change."""
    made = {}
    with IMPORTING:
        kept = {it: sys.modules.pop(it, None) for it in MODULES.values()}
        try:
            for mode, name in MODULES.items():
                made[mode] = sys.modules[name] = types.ModuleType(name)
                exec(compile(changed_source(mode, changed, old, new), name, "exec"), made[mode].__dict__)
        finally:
            sys.modules.update({it: module for it, module in kept.items() if module})
    return made


def answer_by(modules, mode, script, order=None):
    """What the modules print for the bytes of a script; of a threads script in an order of its batches."""
    if mode != "threads":
        return modules[mode].answer(script)
    read, refused = modules["threads"].script_of(script)
    return refused + "\n" if refused else modules["threads"].printed(read, order, True)
