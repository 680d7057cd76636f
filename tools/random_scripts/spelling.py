"""How bytes and scripts are spelled: with fields in any order, and with any white space and any escapes of JSON."""


def text(part):
    """The text of bytes, by a table of all 256."""
    return "".join(TEXT_OF[byte] for byte in part)


TEXT_OF = ["\\x%02x" % byte for byte in range(256)]
for plain in "!#$%&'()*+,-./0123456789:;<=>?@ABCDEFGHIJKLMNOPQRSTUVWXYZ[]^_`abcdefghijklmnopqrstuvwxyz{|}~":
    TEXT_OF[ord(plain)] = plain


# what the first value of a name that stands twice is, which does not count
STRAY = ["null", "0", "[]", '"a"', "{}", "true", "-0", "1e308", "1e-400", "9" * 30, '"\\ud83d\\ude00"', '"\u2028"']
STRAY += ['{"a":[{}]}', "[" * 100 + "]" * 100]


def space(rng):
    return rng.choice(["", "", "", "", " ", "\n", "\t", "\r\n  "])


def spell_text(rng, value):
    """A JSON string: each character as it is where it may be, or by an escape; a long one as it is."""
    if len(value) > 1000:
        return '"' + value.replace("\\", "\\\\") + '"'
    spelled = []
    for character in value:
        escapes = ["\\u%04x" % ord(character), "\\u%04X" % ord(character)]
        short = {'"': '\\"', "\\": "\\\\", "/": "\\/"}.get(character)
        usual = short if short and character != "/" else character
        spelled.append(rng.choice([*escapes, short or usual]) if rng.random() < 0.05 else usual)
    return '"' + "".join(spelled) + '"'


def spell(rng, value, twice=0):
    """The JSON of a value, fields in any order and white space anywhere; so many objects have a name twice."""
    if isinstance(value, str):
        spelled = spell_text(rng, value)
    elif isinstance(value, list):
        spelled = "[" + ",".join(spell(rng, inner, twice) for inner in value) + space(rng) + "]"
    elif isinstance(value, dict):
        members = [spell_text(rng, name) + space(rng) + ":" + spell(rng, inner, twice) for name, inner in value.items()]
        rng.shuffle(members)
        if value and rng.random() < twice:
            members.insert(0, spell_text(rng, rng.choice(list(value))) + ":" + rng.choice(STRAY))
        spelled = "{" + ("," + space(rng)).join(space(rng) + member for member in members) + space(rng) + "}"
    else:
        spelled = {None: "null", True: "true", False: "false"}[value] if value is None or isinstance(value, bool) else str(
            value
        )
    return space(rng) + spelled + space(rng)
