"""Runs of a program that must end in time; of one that does not, where each of its threads stands is told."""
import os
import subprocess


class Hung(Exception):
    """A run that did not end in time, in words."""


def run(words, script, seconds, **how):
    """The ended run of these words on a script. Raises `Hung` if it does not end in so many seconds, and kills it then."""
    streams = {"stdout": subprocess.PIPE, "stderr": subprocess.PIPE}
    with file_of(script) as given, subprocess.Popen(words, stdin=given, **streams, **how) as process:
        try:
            out, err = process.communicate(timeout=seconds)
        except subprocess.TimeoutExpired:
            stand = "; ".join(threads_of(process.pid))
            raise Hung("has not ended in %d seconds, and stands at %s" % (seconds, stand)) from None
        finally:
            process.kill()
    return subprocess.CompletedProcess(words, process.returncode, out, err)


def file_of(script):
    """A file with the script, in memory. Of a pipe it is chance how much a read gives: a long script comes in parts."""
    file = os.fdopen(os.memfd_create("script"), "w+b")
    file.write(script)
    file.seek(0)
    return file


def threads_of(process):
    """Each thread of a process: its number, its state, what it waits in and its system call, as far as /proc tells."""
    folder = "/proc/%d/task" % process
    for thread in sorted(os.listdir(folder), key=int):
        state = told("%s/%s/stat" % (folder, thread)).rpartition(")")[2].split()[:1]
        wait, call = (told("%s/%s/%s" % (folder, thread, name)) for name in ("wchan", "syscall"))
        yield "%s %s %s [%s]" % (thread, *(state or "?"), wait, call)


def told(path):
    try:
        with open(path) as file:
            return file.read().strip()
    except OSError as error:
        return os.strerror(error.errno)
