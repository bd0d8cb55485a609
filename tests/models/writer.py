"""Carriers, written bit by bit from the scope's rules. No code or table of the library is used."""


class Writer:
    """Bits of a carrier as digits, most significant first. The sync word and the length are the first 32."""

    def __init__(self):
        self.bits = bytearray()

    def place(self):
        return 32 + len(self.bits)

    def number(self, width, value):
        assert 0 <= value < 2**width
        self.bits += format(value, "0%db" % width).encode()

    def groups(self, width, values):
        """A variable field of these groups: more is set on all but the last."""
        for i, value in enumerate(values):
            self.number(width, value)
            self.number(1, int(i + 1 < len(values)))

    def variable(self, width, value):
        values = [value % 2**width]
        while value >= 2**width:
            value = value // 2**width - 1
            values.insert(0, value % 2**width)
        self.groups(width, values)

    def extended(self, width, value):
        """A field whose escape, all ones, adds a variable field."""
        escape = 2**width - 1
        self.number(width, min(value, escape))
        if value >= escape:
            self.variable(width, value - escape)

    def octets(self, values):
        if values:
            self.number(8 * len(values), int.from_bytes(values, "big"))

    def config(self, config):
        """The settings, by name; None is absent. One that the rule leaves out is not written."""
        s = dict.fromkeys(("sample_offset", "duration", "group_id")) | config
        timed = s["sample_offset"] is not None
        self.number(1, int(timed))
        if timed:
            self.number(11, s["sample_offset"])
            self.number(1, 0)
        for name, width in (("duration", 11), ("group_id", 2)):
            self.number(1, int(s[name] is not None))
            if s[name] is not None:
                self.variable(width, s[name])
        self.number(1, s["codec"])
        if s["codec"]:
            self.number(8, 0)
        self.number(1, s["discard"])
        if not s["discard"]:
            self.controls(s, timed)

    def controls(self, s, timed):
        """What follows discard."""
        if not timed:
            self.number(1, s["aligned"])
            if s["aligned"]:
                self.number(1, s["create"])
                self.number(1, s["remove"])
        if timed or s["aligned"]:
            self.number(5, s["priority"])
            self.number(2, s["processing"])

    def payload(self, ident, config, body):
        """Answers the line that is to be printed for it: id, four starts, body end."""
        places = [self.place()]
        self.extended(5, ident)
        places.append(self.place())
        self.config(config)
        places.append(self.place())
        self.variable(8, len(body))
        places.append(self.place())
        self.octets(body)
        places.append(self.place())
        return " ".join(map(str, [ident] + places))

    def start(self, key):
        self.number(2, 0)
        self.extended(3, key)

    def end(self, primary, secondary):
        codes = {0: 0, 1: 1, 4: 2, 16: 3}
        self.number(5, 0)
        self.number(2, codes[len(primary)])
        self.number(2, codes[len(secondary)])
        self.octets(primary)
        self.octets(secondary)

    def carrier(self):
        """The carrier's bytes, with zero bits to the last byte."""
        bits = self.bits + b"0" * (-len(self.bits) % 8)
        data = int(bits, 2).to_bytes(len(bits) // 8, "big")
        return b"\x58\x38" + len(data).to_bytes(2, "big") + data


# The smallest settings: nothing is there, and discard.
DISCARD = {"codec": 0, "discard": 1}


def carrier(key, payloads, primary=b"\xa5", secondary=b""):
    """A carrier and the lines that are to be printed for it."""
    w = Writer()
    w.start(key)
    lines = [w.payload(*payload) for payload in payloads]
    w.end(primary, secondary)
    data = w.carrier()
    return data, ["parsed %d %d %d" % (len(data), key, len(payloads))] + lines
