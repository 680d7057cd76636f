"""Texts of half a gigabyte, far longer than those of the other cases:
a run that gives up past some length would not come to them.

Each script gives all keys 510 tags and asks for one key 100,000 times. The text is compared piece by piece.
"""
import subprocess
import threading

from tests.scripts.common.script import KEY_SERVERS, write
from tests.scripts.threads.words import threads
from tests.scripts.turns.words import finish, offers, put, sequence, transaction, turns

ASKED, LISTED = 100_000, 255

# how many bytes of a text are compared at once, and how many seconds a run may take
PIECE, LIMIT = 2**20, 300

LOCALITY, FIRST_SOURCE, FIRST_DESTINATION = 128, 0x8080, 0x9080

SEQUENCED = "sequence row 0 version 10\noffer row 0 resolver 0 judged committed unseen none\n"
FINISHED = "finish proxy 0 version 10\ntxn 0 committed 10 0\nmutation 0 0 tags %s\n"


def ids():
    """The ids of the sources and of the destinations, in order: those whose bytes have no character of their own."""
    for first in (FIRST_SOURCE, FIRST_DESTINATION):
        yield [first + 256 * (number // 128) + number % 128 for number in range(LISTED)]


def setting():
    """The Set of a keyServers row that lists them."""
    def spelled(some):
        return "\\x%02x" % LISTED + "".join("\\x%02x\\x%02x\\x%02x" % (LOCALITY, *divmod(it, 256)) for it in some)

    return put(KEY_SERVERS, "\\x00\\x00" + "".join(map(spelled, ids())))


def scripts():
    """For each mode its words and script, and how the text begins, goes on, and ends, with the repeated lines between."""
    listed = " ".join("%d:%d" % (LOCALITY, it) for some in ids() for it in some)
    ask, line = ["a"] * ASKED, 'tags "a" %s\n' % listed
    head = 'version %%d\nlocked no\nmetadata_version none\nroute "" %s\n' % listed
    state = {"mutations": [setting()], "lock_aware": True, "verdicts": ["committed"]}
    yield [], {"resolvers": 1, "rows": [{"version": 10, "states": [state]}], "ask": ask}, head % 10, line, ""
    batch = [transaction(0, [], [], [setting()], True)]
    one = {"proxies": 1, "resolvers": 1}
    begin = SEQUENCED + FINISHED % listed + "proxy 0\n" + head % 10
    yield ["turns"], turns(sequence(0, *batch), offers(0, resolvers=1), finish(0), ask=ask, **one), begin, line, ""
    begin = "batch 0 0 committed\nclosing 0 version 20\nproxy 0\n" + head % 20
    yield ["threads"], threads([batch], ask=ask, resolvers=1), begin, line, "audit 0 ok\n"


def pieces(begin, line, end):
    """The text in pieces."""
    yield begin.encode()
    many = PIECE // len(line)
    block = line.encode() * many
    for _ in range(ASKED // many):
        yield block
    yield (line * (ASKED % many) + end).encode()


def feed(process, script):
    try:
        process.stdin.write(script)
        process.stdin.close()
    except BrokenPipeError:
        pass


def is_answered(program, words, script, text):
    """Whether a run comes to this text, and ends well."""
    streams = {"stdin": subprocess.PIPE, "stdout": subprocess.PIPE, "stderr": subprocess.DEVNULL}
    with subprocess.Popen([program, *words], **streams) as process:
        watch = threading.Timer(LIMIT, process.kill)
        watch.start()
        feeder = threading.Thread(target=feed, args=(process, script))
        feeder.start()
        is_right = all(process.stdout.read(len(piece)) == piece for piece in text) and not process.stdout.read(1)
        process.stdout.close()
        feeder.join()
        is_right &= process.wait() == 0
        watch.cancel()
    return is_right


def modes_that_go_wrong(program):
    """The words of the modes in which a great text is not as it must be."""
    for words, script, *text in scripts():
        if not is_answered(program, words, write(script).encode(), pieces(*text)):
            yield words
