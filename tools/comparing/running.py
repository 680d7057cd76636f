"""Runs of a command on a script, which are ended when they take too long or print too much."""
import contextlib
import os
import selectors
import signal
import subprocess
import time
from typing import NamedTuple

from tests.watched import file_of

CHUNK = 65536
# how many bytes of standard error are kept, from its end
KEPT = 4096


# the command that runs, so that whoever ends this process can end it first; and whether one is started just now, and whether
# this process is to end once it has been
running, starting, ending = [], [], []


class NoStart(Exception):
    """Why a command cannot be run at all, in words."""


class Ended(NamedTuple):
    """How a run ended."""

    # what it printed, as far as it was read
    text: bytes
    # the last that it said on standard error
    said: bytes
    # its status, or minus the number of the signal that ended it; nothing if it was ended by this tool
    status: int
    # words about a run that was ended by this tool: `hangs` or `prints to no end`
    stopped: str


def run(words, script, seconds, most):
    """Runs the words on a script, for so many seconds and so many bytes of text at most."""
    streams = {"stdout": subprocess.PIPE, "stderr": subprocess.PIPE}
    with file_of(script) as given:
        try:
            process = start(words, stdin=given, start_new_session=True, **streams)
        except (OSError, ValueError) as error:
            raise NoStart("%s cannot be run: %s" % (words[0], getattr(error, "strerror", None) or error)) from None
    with process:
        try:
            return read(process, time.monotonic() + seconds, most)
        finally:
            kill(process)
            process.wait()
            running.remove(process)


def start(words, **how):
    """Starts a command. A signal that is to end this process meanwhile does so once the command is among those that run."""
    starting.append(words)
    try:
        process = subprocess.Popen(words, **how)
        running.append(process)
    finally:
        starting.pop()
        if ending:
            end_here()
    return process


def kill(process):
    """Ends a command, and all that it started in its group."""
    with contextlib.suppress(ProcessLookupError):
        os.killpg(process.pid, signal.SIGKILL)


def end_here(*_signal):
    """Ends what runs, and this process: the handler of a signal. It waits for nothing, since it can interrupt a wait."""
    if starting:
        ending.append(True)
        return
    for process in running:
        kill(process)
    os._exit(1)


def read(process, end, most):
    """What a command prints, until it has ended or is to be ended."""
    text, said = bytearray(), bytearray()
    with selectors.DefaultSelector() as waiting:
        for stream, kept in ((process.stdout, text), (process.stderr, said)):
            waiting.register(stream, selectors.EVENT_READ, kept)
        while waiting.get_map():
            ready = waiting.select(max(0, end - time.monotonic()))
            for key, _ in ready:
                more = os.read(key.fd, CHUNK)
                key.data.extend(more)
                if not more:
                    waiting.unregister(key.fileobj)
            del said[:-KEPT]
            if len(text) > most:
                return Ended(bytes(text), bytes(said), None, "prints to no end")
            if time.monotonic() >= end:
                return Ended(bytes(text), bytes(said), None, "hangs")
    try:
        status = process.wait(max(0, end - time.monotonic()))
    except subprocess.TimeoutExpired:
        return Ended(bytes(text), bytes(said), None, "hangs")
    return Ended(bytes(text), bytes(said), status, None)
