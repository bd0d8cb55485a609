"""What the panel is to answer of a file, by the scope. No code of the library or of the panel is used: spans come from
the writer that wrote the carrier, verdicts from the model of the profile, refusals are stated with the carriers that meet them."""
from models.groups import largest
from models.ordinals import ordinals, worded
from models.profile import FIELDS, found, marks_word, verdict
from models.refused import HEXADECIMAL, WORDS
from models.writer import Writer


def refusal(number, figures):
    words, *names = WORDS[number]
    assert len(names) == len(figures)
    shown = [name + "=" + HEXADECIMAL.get(name, "%d") % figure for name, figure in zip(names, figures)]
    return " ".join(['number=%d words="%s"' % (number, words)] + shown)


def refused_verdict(profile, number, figures):
    return ["verdict refused profile=%s %s" % (profile, refusal(number, figures))]


def status_of(lines):
    """The exit status that goes with answers: 2 after a line that wasn't understood or a file that couldn't be loaded, 1 after
    a refusal."""
    starts = {"error stream": 1, "error": 2, "class non-emdf": 1, "class malformed": 1, "verdict refused": 1}
    found = [next((starts[start] for start in starts if line.startswith(start)), 0) for line in lines.splitlines()]
    return max(found, default=0)


class Unread:
    """A file at whose start no carrier stands: what a reading refuses it with."""

    def __init__(self, data, number, *figures):
        self.data, self.number, self.figures = data, number, figures

    def input(self):
        # Under 2 bytes, or without the sync word, it is non-EMDF; all else that is refused is malformed.
        is_emdf = self.data[:2] == b"\x58\x38"
        what = "malformed " + refusal(self.number, self.figures) if is_emdf else "non-emdf"
        return ["input bytes=%d" % len(self.data), "class " + what]

    def stream(self):
        return ["error stream: " + refusal(self.number, self.figures)]

    def commit(self, profile):
        return refused_verdict(profile, self.number, self.figures)


class Carrier:
    """A file that starts with the carrier of these contents, and has more after it, or not."""

    def __init__(self, payloads, key=0, primary=b"\xa5", secondary=b"", more=b""):
        self.payloads, self.key, self.primary, self.secondary = payloads, key, primary, secondary
        w = Writer()
        w.start(key)
        # The writer's line for a payload is its id, four starts and the body's end.
        self.places = [[int(word) for word in w.payload(*payload).split()][1:] for payload in payloads]
        w.end(primary, secondary)
        self.length = len(w.carrier())
        self.data = w.carrier() + more
        self.groups = largest(key, payloads)

    def reading(self):
        above = " above-older-receivers" if self.groups > 4 else ""
        return "bytes=%d key=%d payloads=%d groups=%d%s" % (self.length, self.key, len(self.payloads), self.groups, above)

    def input(self):
        what = "parsed " + self.reading()
        if len(self.data) > self.length:
            what = "trailing-data container=%d file=%d" % (self.length, len(self.data))
        return ["input bytes=%d" % len(self.data), "class " + what]

    def stream(self):
        protection = (self.primary.hex(), self.secondary.hex() or "none")
        lines = ["container %s primary=%s secondary=%s" % ((self.reading(),) + protection)]
        for place, row in enumerate(zip(self.payloads, ordinals(self.payloads), self.places)):
            lines += payload_lines(place, *row)
        return lines

    def commit(self, profile):
        is_ = verdict(profile, [payload[:2] for payload in self.payloads])
        if is_.number:
            return refused_verdict(profile, is_.number, is_.figures)
        form = "verdict accepted profile=%s oamd=%d joc=%d marks=0x%06x deviations=%d"
        return [form % ((profile,) + is_.places + (marks_word(is_.deviations), len(is_.deviations)))]


def payload_lines(place, payload, ordinal, places):
    ident, config, body = payload
    present = ["%s=%d" % (title, found(config)[name]) for name, title, _ in FIELDS if found(config)[name] is not None]
    spans = ["%s=%d..%d" % span for span in zip(("id", "settings", "size", "body"), places, places[1:])]
    return [
        "payload %d id=%d (%s)" % (place, ident, worded(ordinal)),
        "  settings " + " ".join(present),
        "  spans " + " ".join(spans),
        "  ruler " + ruler(places),
        "  body %s bytes=%d first=%s" % ("unaligned" if places[3] % 8 else "aligned", len(body), shown(body)),
    ]


def ruler(places):
    """A mark for each so many bits, with at most 64 full ones a payload; a part's last mark may stand for fewer bits."""
    bits = -(-(places[4] - places[0]) // 64)
    marks = [mark * -(-(end - start) // bits) for mark, start, end in zip("iszb", places, places[1:])]
    drawn = "".join("%d|%s|" % pair for pair in zip(places, marks))
    return "%s%d bits_a_mark=%d" % (drawn, places[4], bits)


def shown(body):
    if not body:
        return "none"
    return body[:16].hex() + (".." if len(body) > 16 else "")


def answers(session, files):
    """The lines for a session that loads these files, each with its answers, and asks of them."""
    lines, loaded, profile = [], None, "strict"
    for line in session.splitlines():
        key, _, argument = line.partition(" ")
        if key == "INPUT":
            loaded = files.get(argument)
            lines += loaded.input() if loaded else [REASONS[argument]]
        elif key == "PROFILE":
            profile = argument
            lines.append("profile " + argument)
        elif key in ("STREAM", "COMMIT") and not loaded:
            lines.append("error nothing is loaded")
        elif key == "STREAM":
            lines += loaded.stream()
        elif key == "COMMIT":
            lines += loaded.commit(profile)
        else:
            assert not key or key == "#", line
    return "".join(line + "\n" for line in lines)


# What is said of a file that can't be loaded, by its name.
REASONS = {
    "too-long": "error input too-long: longer than 65539 bytes, which no carrier is; nothing is loaded",
    "missing": "error input missing: No such file or directory; nothing is loaded",
    ".": "error input .: Is a directory; nothing is loaded",
}
