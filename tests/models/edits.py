"""The scope's six edits on plain contents. No code or table of the library is used."""
from models.writer import Writer

NAMES = ("sample_offset", "duration", "group_id", "codec", "discard", "aligned", "create", "remove", "priority", "processing")
LENGTHS = (1, 4, 16)


class Contents:
    """A payload is its id, a dictionary of the ten settings with None for one that is absent, and its body."""

    def __init__(self, key, payloads, primary, secondary):
        self.key = key
        self.payloads = payloads
        self.primary = primary
        self.secondary = secondary

    def writer(self):
        w = Writer()
        w.start(self.key)
        for payload in self.payloads:
            w.payload(*payload)
        w.end(self.primary, self.secondary)
        return w

    def carrier(self):
        return self.writer().carrier()

    def writable(self):
        return (
            self.key < 2**64
            and all(writable_payload(*payload) for payload in self.payloads)
            and len(self.primary) in LENGTHS
            and len(self.secondary) in (0,) + LENGTHS
        )


def writable_payload(ident, config, _):
    most = (2047, 4196351, 6148914691236517203, 1, 1, 1, 1, 1, 31, 3)
    in_range = all(config[name] is None or config[name] <= limit for name, limit in zip(NAMES, most))
    return 1 <= ident < 2**64 and in_range and ruled(config)


def ruled(config):
    """Presence as the settings rule gives it."""
    timed = config["sample_offset"] is not None
    kept = config["discard"] == 0
    aligned = kept and not timed
    copied = aligned and config["aligned"] == 1
    there = {"aligned": aligned, "create": copied, "remove": copied}
    there["priority"] = there["processing"] = kept and (timed or copied)
    return all((config[name] is not None) == value for name, value in there.items())


def settings(**given):
    """All ten; those that are not named are absent, or 0."""
    return dict.fromkeys(NAMES) | {"codec": 0, "discard": 0} | given


def changed(contents, edit, *given):
    """The contents after an edit, or None where the place does not exist. All but protection leave zeros for both protections."""
    payloads = list(contents.payloads)
    key, primary, secondary = contents.key, bytes(len(contents.primary)), bytes(len(contents.secondary))
    if edit == "key":
        (key,) = given
    elif edit == "protection":
        primary, secondary = given
    else:
        place = given[0]
        if place >= len(payloads) + (edit == "insert"):
            return None
        ident, config, body = payloads[place] if place < len(payloads) else (None, None, None)
        payloads[place : place + (edit != "insert")] = {
            "body": lambda: [(ident, config, given[1])],
            "settings": lambda: [(ident, given[1], body)],
            "drop": lambda: [],
            "insert": lambda: [given[1:]],
        }[edit]()
    return Contents(key, payloads, primary, secondary)


def refusal(after):
    """The number that changed contents are refused with, or 0."""
    if after is None:
        return 16
    if not after.writable():
        return 17
    return 18 if len(after.writer().bits) > 8 * 65535 else 0


def step(contents, edit, *given):
    """The contents that an edit leaves, and 0 or the refusal's number."""
    after = changed(contents, edit, *given)
    number = refusal(after)
    return (contents if number else after), number
