"""Contents for both readers, by the models of the scope. MediaInfo's numbers have 32 bits, its search refuses codec data, and it
decodes the bodies of ids 11 and 14, so what is compared field by field stays inside of that."""
from models.edits import Contents, step
from models.profile import FIELDS, WANTED, found

TITLES = {name: title for name, title, _ in FIELDS}
DECODED = (11, 14)
SYNC_WORD = format(0x5838, "016b")


def number(rng, most):
    """At an edge, of few bits, or any."""
    return min(most, rng.choice([0, most, rng.randrange(8), 2 ** rng.randrange(1, 32), rng.randrange(2**32)]))


def octets(rng, lengths):
    return rng.randbytes(rng.choice(lengths))


def config(rng):
    ones = {name: rng.randrange(2) for name in ("discard", "aligned", "create", "remove")}
    numbers = {"priority": rng.randrange(32), "processing": rng.randrange(4), "codec": 0}
    optional = {"sample_offset": 2047, "duration": 4196351, "group_id": 2**32 - 1}
    return found(ones | numbers | {name: rng.choice([None, number(rng, most)]) for name, most in optional.items()})


def ident(rng):
    while True:
        drawn = rng.choice([rng.randrange(1, 31), number(rng, 2**32 - 1)])
        if drawn and drawn not in DECODED:
            return drawn


def body(rng):
    return octets(rng, [0, 1, 2, 3, 4, 5, 16, rng.randrange(256), rng.randrange(256, 1000)])


def payload(rng):
    return ident(rng), config(rng), body(rng)


def contents(rng):
    payloads = [payload(rng) for _ in range(rng.choice([0, 1, 1, 2, 3]))]
    return Contents(number(rng, 2**32 - 1), payloads, octets(rng, [1, 4, 16]), octets(rng, [0, 1, 4, 16]))


# ---- edits, with emdf's words for them


def setting_words(given):
    return ["%s=%s" % (TITLES[name], "absent" if value is None else value) for name, value in given.items()]


def edit(rng, count):
    """An edit of contents with so many payloads, and its words."""
    place = rng.randrange(count + 1)
    if place == count or rng.randrange(3) == 0:
        new = payload(rng)
        words = ["insert", str(place), "id=%d" % new[0]] + setting_words(new[1]) + ["body=" + (new[2].hex() or "-")]
        return ("insert", place) + new, words
    kind = rng.choice(["body", "settings", "drop", "key", "protection"])
    if kind == "body":
        new = body(rng)
        return (kind, place, new), [kind, str(place), new.hex() or "-"]
    if kind == "settings":
        new = config(rng)
        return (kind, place, new), ["set", str(place)] + setting_words(new)
    if kind == "drop":
        return (kind, place), [kind, str(place)]
    if kind == "key":
        new = number(rng, 2**32 - 1)
        return (kind, new), [kind, str(new)]
    primary, secondary = octets(rng, [1, 4, 16]), octets(rng, [0, 1, 4, 16])
    return (kind, primary, secondary), [kind, primary.hex(), secondary.hex() or "-"]


def edits(rng, start):
    """The contents that some edits leave, and their words."""
    words = []
    for _ in range(rng.randrange(1, 4)):
        one, own = edit(rng, len(start.payloads))
        start, refusal = step(start, *one)
        assert not refusal
        words += own
    return start, words


# ---- the two payloads of the profile


def pair(rng, codec):
    """Contents that strict accepts where codec is 1; where it is 0, compat alone does."""
    settings = found(WANTED | {"group_id": rng.randrange(2**32), "codec": codec})
    payloads = [(ident, settings, octets(rng, range(9))) for ident in rng.sample(DECODED, 2)]
    for _ in range(rng.randrange(3)):
        payloads.insert(rng.randrange(len(payloads) + 1), payload(rng))
    return Contents(rng.randrange(8), payloads, octets(rng, [1, 4, 16]), octets(rng, [0, 1, 4, 16]))


def has_one_sync_word(carrier):
    bits = "".join(format(octet, "08b") for octet in carrier + bytes(2))
    return SYNC_WORD not in bits[1:]
