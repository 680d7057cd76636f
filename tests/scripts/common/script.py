"""How a script is written as JSON, the places in it, and what one that is refused is answered."""
import json

NOT_JSON = "refused 70 NotJson\n"
BAD_SHAPE = "refused 71 BadShape\n"
KEY_TOO_LONG = "refused 10 KeyTooLong\n"
VALUE_TOO_LONG = "refused 11 ValueTooLong\n"
KEY_OUTSIDE = "refused 12 KeyOutside\n"
EMPTY_RANGE = "refused 13 EmptyRange\n"
BAD_ROW = "refused 14 BadRow\n"
BAD_STAMP = "refused 15 BadStamp\n"
BATCH_TOO_LARGE = "refused 16 BatchTooLarge\n"
NO_SUCH_RESOLVER = "refused 20 NoSuchResolver\n"

SERVER_1, SERVER_2, SERVER_3 = "server0000000001", "server0000000002", "server0000000003"
KEY_SERVERS, SERVER_TAG = "\\xff/keyServers/", "\\xff/serverTag/"
METADATA_VERSION, LOCKED = "\\xff/metadataVersion", "\\xff/dbLocked"
# a keyServers value that lists the source tags 0:1 and 0:2 and the destination tag 3:258
LISTING = "\\x00\\x00\\x02\\x00\\x00\\x01\\x00\\x00\\x02\\x01\\x03\\x01\\x02"


class Written(str):
    """A text that stands in a script as it is, whether it is JSON or not."""


class Fields(list):
    """An object as a list of names and values, so that a name may stand twice."""


def write(value):
    """The JSON text of a value."""
    if isinstance(value, Written):
        return str(value)
    if isinstance(value, dict):
        value = Fields(value.items())
    if isinstance(value, Fields):
        return "{" + ",".join(write(name) + ":" + write(inner) for name, inner in value) + "}"
    if isinstance(value, list):
        return "[" + ",".join(write(inner) for inner in value) + "]"
    return json.dumps(value)


def places(value, path=()):
    """Every place of a script: the way to it and the value there."""
    yield path, value
    if isinstance(value, dict):
        inners = value.items()
    elif isinstance(value, list):
        inners = enumerate(value)
    else:
        return
    for step, inner in inners:
        yield from places(inner, path + (step,))


KINDS = {
    "resolvers": "number", "version": "number", "lock_aware": "bool", "verdicts": "verdict", "proxies": "number",
    "window": "number", "step": "number", "proxy": "number", "resolver": "number", "row": "number", "rows": "number",
    "snapshot": "number",
}


def kind_at(path, value):
    """What a script must have at a place: a list, one of batches, an object, a number, a bool, a verdict, or bytes."""
    if len(path) == 2 and path[0] == "work":
        return "batches"
    if isinstance(value, (dict, list)):
        return type(value).__name__
    return KINDS.get([step for step in path if isinstance(step, str)][-1], "bytes")


def at(value, path):
    """What stands at a place."""
    for step in path:
        value = value[step]
    return value


def changed(script, path, new):
    """The script with another value at this place."""
    if not path:
        return new
    at(script, path[:-1])[path[-1]] = new
    return script


def named(path):
    """A place in words."""
    return ".".join(str(step) for step in path) or "the whole script"
