"""Large scripts: of sizes about those of one read, and with more lines of output than one write takes."""
from tests.scripts.common.forms import FOLD
from tests.scripts.common.script import BAD_SHAPE, KEY_SERVERS, METADATA_VERSION, NOT_JSON, SERVER_TAG, write

# how many bytes a read of the program takes at once, and how many a pipe
TAKEN_AT_ONCE = (4_096, 65_536)


def sizes_about_reads(form):
    """Scripts of these sizes, made long by white space at either end or by a value."""
    whole = write(form.good())
    for size in sorted(
        {
            size for once in TAKEN_AT_ONCE
            for size in (once - 1, once, once + 1, 2 * once - 1, 2 * once, 2 * once + 1, 20 * once)
        }
    ):
        yield "%d bytes, white space behind" % size, whole.ljust(size), form.answer
        yield "%d bytes, white space before" % size, whole.rjust(size), form.answer
        yield "%d bytes, and one behind" % size, whole.ljust(size) + "x", NOT_JSON
        yield "%d bytes without the last" % size, whole.rjust(size + 1)[:-1], NOT_JSON


def values_about_reads():
    """A value that a read cuts in each place of an escape."""
    for more in range(6):
        value = "v" * more + "\\xff" * 20_000
        state = {"mutations": [{"set": [METADATA_VERSION, value]}], "lock_aware": True, "verdicts": ["committed"]}
        script = write({"resolvers": 1, "rows": [{"version": 7, "states": [state]}], "ask": []})
        yield "escapes behind %d letters" % more, script, 'version 7\nlocked no\nmetadata_version "%s"\n' % value
        yield "escapes behind %d letters, cut" % more, write(FOLD.changed(("ask", 0), value + "\\x")), BAD_SHAPE


def server(number):
    return "server%010d" % number


def many_rows():
    """A journal that sets one keyServers row in each transaction, and asks for each key and for the next one."""
    count = 800
    tags = [{"set": [SERVER_TAG + server(number), "\\x00\\x00\\x%02x" % (number + 0x80)]} for number in range(7)]
    states = [{"mutations": tags, "lock_aware": False, "verdicts": ["committed"]}]
    for key in range(count):
        change = {"set": [KEY_SERVERS + "%060d" % key, "\\x02" + server(key % 6) + server(6) + "\\x00"]}
        states.append({"mutations": [change], "lock_aware": False, "verdicts": ["committed"]})
    rows = [{"version": version + 1, "states": [state]} for version, state in enumerate(states)]
    script = {"resolvers": 1, "rows": rows, "ask": ["%060d0" % key for key in range(count)]}
    listed = ["0:%d 0:%d" % (key % 6 + 0x80, 6 + 0x80) for key in range(count)]
    lines = ["version %d" % (count + 1), "locked no", "metadata_version none"]
    lines += ['route "%060d" %s' % pair for pair in enumerate(listed)]
    lines += ['tags "%060d0" %s' % pair for pair in enumerate(listed)]
    yield "%d rows" % count, write(script), "\n".join(lines) + "\n"
    script["rows"] = [{"version": 1, "states": states}]
    lines[0] = "version 1"
    yield "%d transactions of one row" % count, write(script), "\n".join(lines) + "\n"


OF_EACH_FORM = (sizes_about_reads,)
CASES = (values_about_reads, many_rows)
