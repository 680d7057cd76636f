"""Runs fold and turns scripts in memory, and sessions, by libgakyhera.so. docs/FORMATS.md of Gakyhera has the forms.

    import gakyhera
    text, is_refused = gakyhera.turns(script)
    with gakyhera.Session() as session:
        answer = session.line('{"cluster":{"proxies":1,"resolvers":1,"window":100,"step":10}}')

It needs this file and the library alone, which `tools/library` builds. The library is the file that the variable
GAKYHERA_LIBRARY names, or that in out/ of the repository, or that which the system finds. Where none is, a session runs the
program proxy_session: what GAKYHERA_SESSION names, or what is built in the repository; scripts need the library.

Threads may call at the same time, and other threads of Python run meanwhile; a session has one thread at a time. Each
thread keeps room for its longest text.
"""
import ctypes
import os
import subprocess
import threading
from typing import NamedTuple

__all__ = ["AnswerLost", "Session", "Text", "fold", "turns"]

NAME = "libgakyhera.so"
ROOT = os.path.join(os.path.dirname(os.path.abspath(__file__)), "..", "..")
BUILT = os.path.join(ROOT, "out", NAME)
PROGRAMS = [os.path.join(ROOT, *it) for it in (
    ("crates", "proxy_session", "out", "proxy_session"), ("out", "proxy_session_unproved"))]

DONE, REFUSED, TOO_LONG, OUT_OF_MEMORY, TOO_SMALL, NO_SESSION, ANSWER_LOST = 0, 1, 3, 4, 6, 7, 8

# How many bytes a thread keeps for texts, and a session for answers, at first.
ROOM, ANSWER_ROOM = 1 << 16, 1 << 12

# What the program answers if an allocation fails.
NO_MEMORY = b"out of memory\n\n"


class Text(NamedTuple):
    """The text of a script: of a wrong one the line `refused NUMBER NAME`."""

    text: bytes
    is_refused: bool


class AnswerLost(Exception):
    """The line of a session was carried out, but an allocation failed for its long answer."""


class Handle(ctypes.Structure):
    """A session of the library. It is never copied."""

    _fields_ = [("opaque", ctypes.c_void_p)]


BYTES, SIZE, MADE = ctypes.c_char_p, ctypes.c_size_t, ctypes.POINTER(ctypes.c_size_t)
HANDLE = ctypes.POINTER(Handle)
CALLS = {
    "gakyhera_fold": [BYTES, SIZE, ctypes.c_void_p, SIZE, MADE],
    "gakyhera_turns": [BYTES, SIZE, ctypes.c_void_p, SIZE, MADE],
    "gakyhera_session_new": [HANDLE],
    "gakyhera_session_line": [HANDLE, BYTES, SIZE, ctypes.c_void_p, SIZE, MADE],
    "gakyhera_session_answer": [HANDLE, ctypes.c_void_p, SIZE, MADE],
    "gakyhera_session_free": [HANDLE],
}


def loaded():
    """The library, or nothing if none is named and none is found."""
    named = os.environ.get("GAKYHERA_LIBRARY")
    try:
        library = ctypes.CDLL(named or (BUILT if os.path.exists(BUILT) else NAME))
    except OSError as why:
        if named:
            raise ImportError("%s; GAKYHERA_LIBRARY names it" % why) from why
        return None
    for name, types in CALLS.items():
        call = getattr(library, name)
        call.argtypes, call.restype = types, ctypes.c_int
    library.gakyhera_session_free.restype = None
    return library


library, kept = loaded(), threading.local()


def needed():
    if library is None:
        raise ImportError("there is no %s; tools/library builds it, and GAKYHERA_LIBRARY names it" % NAME)
    return library


def bytes_of(text):
    # (through a view: of a number, bytes() makes that many zero bytes)
    return text.encode() if isinstance(text, str) else bytes(memoryview(text))


def text_of(call, script):
    script = bytes_of(script)
    if not hasattr(kept, "out"):
        kept.out, kept.made = ctypes.create_string_buffer(ROOM), ctypes.c_size_t()
    out, made = kept.out, kept.made
    status = call(script, len(script), out, len(out), made)
    if status == TOO_SMALL:
        # (a power of two, so that later texts of this thread seldom need it again)
        out = kept.out = ctypes.create_string_buffer(1 << made.value.bit_length())
        status = call(script, len(script), out, len(out), made)
    if status == OUT_OF_MEMORY:
        raise MemoryError
    if status == TOO_LONG:
        raise OverflowError("the script is longer than 4,294,963,200 bytes")
    return Text(ctypes.string_at(out, made.value), status == REFUSED)


def fold(script):
    """The text of a fold script (bytes, or a str as UTF-8).

    Raises MemoryError if an allocation fails, OverflowError if the script is too long, and TypeError if it is no bytes.
    """
    return text_of(needed().gakyhera_fold, script)


def turns(script):
    """The text of a turns script (bytes, or a str as UTF-8). Raises what `fold` does."""
    return text_of(needed().gakyhera_turns, script)


class LibrarySession:
    """A session of the library."""

    def __init__(self):
        self.handle, self.made, self.out = Handle(), SIZE(), ctypes.create_string_buffer(ANSWER_ROOM)
        if library.gakyhera_session_new(self.handle) != DONE:
            raise MemoryError

    def answer(self, line):
        status = library.gakyhera_session_line(self.handle, line, len(line), self.out, len(self.out), self.made)
        if status == TOO_SMALL:
            status = self.grown()
        if status == OUT_OF_MEMORY:
            raise MemoryError
        if status == NO_SESSION:
            raise ValueError("the session is closed")
        if status == ANSWER_LOST:
            raise AnswerLost
        return ctypes.string_at(self.out, self.made.value)

    def grown(self):
        """Makes room for the answer to the last line, and fetches it."""
        try:
            self.out = ctypes.create_string_buffer(1 << self.made.value.bit_length())
        except MemoryError:
            return ANSWER_LOST
        return library.gakyhera_session_answer(self.handle, self.out, len(self.out), self.made)

    def close(self):
        library.gakyhera_session_free(self.handle)


class ProgramSession:
    """A running proxy_session."""

    def __init__(self):
        named = os.environ.get("GAKYHERA_SESSION")
        path = named or next((it for it in PROGRAMS if os.path.exists(it)), None)
        if path is None:
            raise ImportError("there is neither %s nor a built proxy_session, which GAKYHERA_SESSION names" % NAME)
        self.process = subprocess.Popen([path], stdin=subprocess.PIPE, stdout=subprocess.PIPE)

    def answer(self, line):
        self.process.stdin.write(line + b"\n")
        self.process.stdin.flush()
        lines = [b""]
        while lines[-1] != b"\n":
            lines.append(self.process.stdout.readline())
            if not lines[-1].endswith(b"\n"):
                raise OSError("proxy_session has ended")
        answer = b"".join(lines)
        if answer == NO_MEMORY:
            raise MemoryError
        return answer

    def close(self):
        self.process.stdin.close()
        self.process.stdout.close()
        self.process.wait()


class Session:
    """A session with a cluster, which answers line by line as proxy_session does. One thread at a time may use it.

    Raises MemoryError if an allocation fails, ImportError if there is neither the library nor the program, and OSError
    if GAKYHERA_SESSION names no program. It cannot be copied. A process that has begun threads must not fork and use it.
    """

    inside = None

    def __init__(self):
        self.inside = LibrarySession() if library else ProgramSession()

    def line(self, line):
        """Carries out a line (bytes, or a str as UTF-8), and returns the bytes of its answer, which ends with an empty line.

        Raises MemoryError if an allocation fails, and then the session is unchanged; AnswerLost if the line was carried
        out; ValueError if the line has a line feed or is no Unicode text, or the session is closed; TypeError if the line
        is no bytes; and over the program OSError if it has ended.
        """
        line = bytes_of(line)
        if b"\n" in line:
            raise ValueError("a line has no line feed")
        return self.inside.answer(line)

    def close(self):
        """Frees the session. It may be called twice."""
        if self.inside:
            self.inside.close()

    __del__ = close

    def __enter__(self):
        return self

    def __exit__(self, *_):
        self.close()
