"""The command lines of the benchmarks: the text at the head of each is its help."""
import argparse
import os

from measuring import PROGRAM

NOT_BUILT = "build the program first: cd crates/proxy_run && rt run < ../../examples/two_servers.json"


def reader_of(head):
    """A reader of words whose help is this text."""
    return argparse.ArgumentParser(description=head, formatter_class=argparse.RawDescriptionHelpFormatter)


def take_no_words(head):
    """For a benchmark that takes no words but --help."""
    reader_of(head).parse_args()


def program_given(head):
    """For a benchmark that takes a program alone: the path of that one, or of the proved one."""
    reader = reader_of(head)
    reader.add_argument("program", nargs="?", default=PROGRAM, metavar="PROGRAM")
    return built(reader, reader.parse_args().program)


def built(reader, program):
    """The whole path of the program. Ends with status 2 if it is not there."""
    if not os.path.exists(program):
        reader.error(NOT_BUILT)
    return os.path.abspath(program)
