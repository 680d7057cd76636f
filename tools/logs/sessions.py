"""What says what is right for each line: the program proxy_session, or without one the second program."""
import os
import subprocess

from tests.sessions import reference

ROOT = os.path.dirname(os.path.dirname(os.path.dirname(os.path.abspath(__file__))))
PLACES = (
    os.path.join(ROOT, "crates", "proxy_session", "out", "proxy_session"),
    os.path.join(ROOT, "out", "proxy_session_unproved"),
)
OUT_OF_MEMORY = ["out of memory"]


class Unknown(Exception):
    """Why it is not known what is right, in words."""


def built_program():
    """The path of a built program, or nothing without one."""
    return next((it for it in PLACES if os.path.exists(it)), None)


class Program:
    """A running proxy_session."""

    def __init__(self, path):
        self.path = path
        try:
            self.process = subprocess.Popen([path], stdin=subprocess.PIPE, stdout=subprocess.PIPE)
        except OSError as why:
            raise Unknown("%s cannot be run: %s" % (path, why.strerror)) from None

    def lines(self, line):
        """The lines of the answer to a line."""
        try:
            self.process.stdin.write(line.encode(errors="surrogateescape") + b"\n")
            self.process.stdin.flush()
        except OSError as why:
            raise Unknown("%s has ended: %s" % (self.path, why.strerror)) from None
        found = []
        for given in iter(self.process.stdout.readline, b"\n"):
            if not given.endswith(b"\n"):
                raise Unknown("%s has ended within an answer" % self.path)
            found.append(given[:-1].decode(errors="backslashreplace"))
        if found == OUT_OF_MEMORY:
            raise Unknown("%s is out of memory" % self.path)
        return found

    def end(self):
        self.process.stdin.close()
        self.process.wait()


class Second:
    """The second program, in this process."""

    def __init__(self):
        self.session = reference.Session()

    def lines(self, line):
        return list(self.session.lines(line.encode(errors="surrogateescape")))

    def end(self):
        pass
