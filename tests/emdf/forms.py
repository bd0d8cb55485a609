"""What emdf is to say of a file, by its man page and the scope. Spans come from the writer that wrote the carrier, verdicts
from the model of the profile, refusals are stated with the files that meet them."""
from models.groups import largest
from models.ordinals import ordinals, worded
from models.profile import FIELDS, found, marks_word, verdict
from models.refused import HEXADECIMAL, WORDS
from models.writer import Writer
from ruler import ruler

PARTS = ("id", "settings", "size", "body")
NAMES = {11: "OAMD", 14: "JOC"}


def counted(n, noun):
    return "%d %s%s" % (n, noun, "" if n == 1 else "s")


def groups_text(most):
    if not most:
        return "no variable field"
    return "largest variable field %s%s" % (counted(most, "group"), ", above the 4 of older receivers" if most > 4 else "")


def refusal_text(number, figures=()):
    words, *names = WORDS[number]
    assert len(names) == len(figures)
    shown = ["%s %s" % (name, HEXADECIMAL.get(name, "%d") % n) for name, n in zip(names, figures)]
    return "%d: %s%s" % (number, words, " (%s)" % ", ".join(shown) if shown else "")


def refusal_json(number, figures):
    words, *names = WORDS[number]
    return {"number": number, "words": words, "figures": dict(zip(names, figures))}


def verdict_text(profile, given):
    if given.number:
        return "refused by %s, %s" % (profile, refusal_text(given.number, given.figures))
    form = "accepted by %s: OAMD at place %d, JOC at place %d (marks 0x%06x, deviations %d)"
    return form % ((profile,) + given.places + (marks_word(given.deviations), len(given.deviations)))


def found_text(value):
    if isinstance(value, tuple):
        return " and ".join(map(found_text, value))
    return "absent" if value is None else str(value)


def deviation_text(mark):
    compat = "passes" if mark.passes else "refused"
    return "  %s: wanted %s, found %s; %s in compat" % (mark.name, mark.wanted, found_text(mark.found), compat)


def deviation_json(mark):
    value = list(mark.found) if isinstance(mark.found, tuple) else mark.found
    return {"mark": mark.name, "bit": mark.bit, "wanted": mark.wanted, "found": value, "compat": mark.passes}


def verdict_json(profile, given):
    said = {"profile": profile, "accepted": not given.number}
    if given.number:
        said |= refusal_json(given.number, given.figures)
    else:
        said |= {"oamd": given.places[0], "joc": given.places[1]}
    if given.number in (0, 15):
        said |= {"marks": marks_word(given.deviations), "deviations": [deviation_json(mark) for mark in given.deviations]}
    return said


class Unread:
    """A file at whose start no carrier stands: what a reading refuses it with."""

    info_status = 1

    def __init__(self, data, number, *figures):
        self.data, self.number, self.figures = data, number, figures
        # Under 2 bytes, or without the sync word, it is non-EMDF; all else that is refused is malformed.
        self.is_emdf = data[:2] == b"\x58\x38"

    def info_lines(self, name):
        if self.is_emdf:
            return ["%s: malformed, %s" % (name, refusal_text(self.number, self.figures))]
        if not self.data:
            return [name + ": no carrier: it is empty"]
        return ["%s: no carrier: it starts with %s and not with the sync word 5838" % (name, self.data[:2].hex())]

    def info_json(self, name):
        said = {"file": name, "bytes": len(self.data), "class": "malformed" if self.is_emdf else "non-emdf"}
        return said | ({"refusal": refusal_json(self.number, self.figures)} if self.is_emdf else {})

    def verdict_status(self, _):
        return 1

    def verdict_lines(self, name, profile):
        return ["%s: refused by %s, %s" % (name, profile, refusal_text(self.number, self.figures))]

    def verdict_json(self, name, profile):
        refused = {"profile": profile, "accepted": False} | refusal_json(self.number, self.figures)
        return {"file": name, "bytes": len(self.data), "trailing_bytes": None, "verdict": refused}


class Carrier:
    """A file that starts with the carrier of these contents, and has more after it, or not."""

    info_status = 0

    def __init__(self, payloads, key=0, primary=b"\xa5", secondary=b"", more=b""):
        self.payloads, self.key, self.primary, self.secondary, self.more = payloads, key, primary, secondary, more
        w = Writer()
        w.start(key)
        self.key_end = w.place()
        # The writer's line for a payload is its id, four starts and the body's end.
        self.places = [[int(word) for word in w.payload(*payload).split()][1:] for payload in payloads]
        self.end_mark = w.place()
        w.end(primary, secondary)
        self.padding = w.place()
        self.carrier = w.carrier()
        self.data = self.carrier + more
        self.groups = largest(key, payloads)
        self.ordinals = ordinals(payloads)
        self.verdicts = {profile: verdict(profile, [payload[:2] for payload in payloads]) for profile in ("strict", "compat")}

    def spans(self):
        """The container's, besides its payloads'."""
        codes, protection = self.end_mark + 5, self.end_mark + 5 + 4
        bits = [0, 32, self.key_end], [self.end_mark, codes, protection, self.padding, 8 * len(self.carrier)]
        names = ("header", "key"), ("end_mark", "codes", "protection", "padding")
        return [dict(zip(names[i], map(list, zip(bits[i], bits[i][1:])))) for i in (0, 1)]

    def ruler_lines(self):
        before, after = self.spans()
        parts = list(zip("hk", before.values()))
        for starts in self.places:
            parts += zip("iszb", zip(starts, starts[1:]))
        parts += zip("ecpx", after.values())
        return ruler([(mark, start, end) for mark, (start, end) in parts], [starts[0] for starts in self.places])

    def class_text(self):
        if not self.more:
            return "parsed: one carrier of " + counted(len(self.data), "byte")
        sizes = (counted(len(self.carrier), "byte"), counted(len(self.more), "byte"))
        return "trailing data: a carrier of %s, and %s after it" % sizes

    def container_line(self):
        parts = [
            counted(len(self.carrier), "byte"),
            "key id %d" % self.key,
            counted(len(self.payloads), "payload"),
            "primary protection " + self.primary.hex(),
            "secondary protection " + (self.secondary.hex() or "none"),
            counted(8 * len(self.carrier) - self.padding, "bit") + " of padding",
            groups_text(self.groups),
        ]
        return "  container: " + ", ".join(parts)

    def info_lines(self, name):
        lines = ["%s: %s" % (name, self.class_text()), self.container_line()] + self.ruler_lines()
        for place, payload in enumerate(self.payloads):
            lines += payload_lines(place, payload, self.ordinals[place], self.places[place])
        return lines + ["  " + verdict_text(*judged) for judged in self.verdicts.items()]

    def info_json(self, name):
        before, after = self.spans()
        container = {
            "bytes": len(self.carrier),
            "trailing_bytes": len(self.more),
            "key_id": self.key,
            "payloads": len(self.payloads),
            "primary": self.primary.hex(),
            "secondary": self.secondary.hex(),
            "largest_groups": self.groups,
            "spans": before | after,
        }
        said = {"file": name, "bytes": len(self.data), "class": "trailing-data" if self.more else "parsed"}
        rows = zip(self.payloads, self.ordinals, self.places)
        payloads = [payload_json(place, *row) for place, row in enumerate(rows)]
        verdicts = {profile: verdict_json(profile, given) for profile, given in self.verdicts.items()}
        return said | {"container": container, "payloads": payloads} | verdicts

    def verdict_status(self, profile):
        return 1 if self.verdicts[profile].number else 0

    def verdict_lines(self, name, profile):
        given = self.verdicts[profile]
        after = "; %s after the carrier" % counted(len(self.more), "byte") if self.more else ""
        line = "%s: %s%s" % (name, verdict_text(profile, given), after)
        return [line] + [deviation_text(mark) for mark in given.deviations or []]

    def verdict_json(self, name, profile):
        said = verdict_json(profile, self.verdicts[profile])
        return {"file": name, "bytes": len(self.data), "trailing_bytes": len(self.more), "verdict": said}


def payload_lines(place, payload, ordinal, starts):
    ident, config, body = payload
    settings = found(config)
    present = ["%s=%d" % (title, settings[name]) for name, title, _ in FIELDS if settings[name] is not None]
    spans = ["%s %d..%d" % span for span in zip(PARTS, starts, starts[1:])]
    at = "at bit %d" % starts[3] if starts[3] % 8 else "at byte %d" % (starts[3] // 8)
    first = (": " + body[:16].hex() if body else "") + (".." if len(body) > 16 else "")
    return [
        "  payload %d: id %d (%s)%s" % (place, ident, worded(ordinal), ", " + NAMES[ident] if ident in NAMES else ""),
        "    settings: " + " ".join(present),
        "    spans: " + ", ".join(spans),
        "    body: %s %s%s" % (counted(len(body), "byte"), at, first),
    ]


def payload_json(place, payload, ordinal, starts):
    ident, config, body = payload
    settings = found(config)
    return {
        "place": place,
        "id": ident,
        "ordinal": ordinal,
        "name": NAMES.get(ident),
        "settings": {title: settings[name] for name, title, _ in FIELDS},
        "spans": dict(zip(PARTS, map(list, zip(starts, starts[1:])))),
        "size": len(body),
        "first": body[:16].hex(),
    }
