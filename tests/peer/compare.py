"""Reads the same carriers with emdf and with MediaInfo: random ones, and what edits make of them, field by field; the inputs of
docs/DIFFERENCES.md, part 'Beside MediaInfo', as that page has them; carriers of the profile."""
import argparse
import itertools
import pathlib
import random
import re
import sys
import tempfile
from collections import namedtuple

from carriers import contents, edits, has_one_sync_word, pair
from frames import HEADER_BITS, fits, stream
from library import edited, fields, infos
import tree

PAGE = pathlib.Path(__file__).parents[2] / "docs" / "DIFFERENCES.md"

# number: the refusal, or 0. found: None where MediaInfo finds no container, else some of its fields, by name: value and bits, of
# which None is not compared.
Apart = namedtuple("Apart", "what carrier number found")
APART = [
    Apart("codec data", "58 38 00 07 00 44 02 00 02 52 80", 0, None),
    Apart("duration of three groups", "58 38 00 0a 00 50 01 00 10 00 20 00 25 28", 6, {"duration": (2**22 + 2**11, None)}),
    Apart(
        "key id 2^64",
        "58 38 00 0e 38 ee ee ee ee ee ee ee ee ee ee 90 12 94",
        7,
        {"key_id": (7, 3), "key_id addition": ((2**64 - 7) % 2**32, None)},
    ),
    Apart("reserved bit", "58 38 00 07 00 60 02 20 00 25 28", 9, {"reserved": (1, 1)}),
    Apart("a byte of padding", "58 38 00 04 00 12 94 00", 11, {"emdf_container_length": (4, 16)}),
    Apart("a padding bit", "58 38 00 03 00 10 01", 12, {"emdf_container_length": (3, 16)}),
    Apart("contents past the declared length", "58 38 00 00 00 12 94", 3, {"protection_bits_primary": (0xA5, 8)}),
    Apart("longer secondary protection", "58 38 00 07 00 18 00 00 00 00 00", 0, {"protection_bits_secondary": (0, 8)}),
    Apart("version 1", "58 38 00 03 40 10 00", 8, None),
    Apart("primary code 0", "58 38 00 03 00 00 00", 10, None),
    Apart("bytes missing", "58 38 ff ff 00 12 94", 1, None),
]


class Run:
    def __init__(self, emdf, folder):
        self.emdf, self.folder = emdf, folder
        self.failures = []

    def fail(self, what, carrier, why):
        self.failures.append("%s: %s: %s" % (what, carrier[:60].hex(" "), why))

    def both(self, placed):
        """Of each carrier and its shift: what emdf says, and MediaInfo's frame."""
        for first in range(0, len(placed), 2000):
            yield from self.some(placed[first : first + 2000])

    def some(self, placed):
        before, data = stream(placed)
        path = pathlib.Path(self.folder, "frames.eac3")
        path.write_bytes(data)
        frames = tree.read(str(path))
        if len(frames) != before + len(placed):
            raise RuntimeError("MediaInfo saw %d frames, not %d" % (len(frames), before + len(placed)))
        return zip(placed, infos(self.emdf, self.folder, [carrier for carrier, _ in placed]), frames[before:])

    # ---- field by field

    def unlike(self, shift, info, frame):
        """The first field that the two don't agree on; and how many there are."""
        if info["class"] != "parsed":
            return "emdf says " + info["class"], 0
        if frame.fields is None:
            return "not found by MediaInfo", 0
        said = list(fields(info))
        for got, wanted in itertools.zip_longest(frame.fields, said):
            if got is None or wanted is None or got.name != wanted.name or wanted.value not in (None, got.value):
                return "MediaInfo has %s, emdf %s" % (got, wanted), 0
            if wanted.bit is not None and got.offset != frame.start + (HEADER_BITS + shift + wanted.bit) // 8:
                return "MediaInfo has %s, emdf another start: %s" % (got, wanted), 0
        return None, len(said)

    def alike(self, what, carriers):
        rng = random.Random(what)
        lines = 0
        for (carrier, shift), info, frame in self.both([(carrier, rng.randrange(16)) for carrier in carriers]):
            why, count = self.unlike(shift, info, frame)
            lines += count
            if why:
                self.fail(what, carrier, why)
        print("peer: %s: %d carriers, %d fields in MediaInfo's tree" % (what, len(carriers), lines))

    def read_alike(self, starts):
        self.alike("read", [start.carrier() for start in starts])

    def edited_alike(self, starts):
        left = []
        for k, start in enumerate(starts):
            after, words = edits(random.Random("edits %d" % k), start)
            carrier = edited(self.emdf, self.folder, start.carrier(), words)
            if carrier != after.carrier():
                self.fail("edited", start.carrier(), "emdf leaves something else than the model after " + " ".join(words))
            elif fits(carrier):
                left.append(carrier)
        self.alike("edited", left)

    # ---- what differs

    def apart(self):
        cases = [(one, bytes.fromhex(one.carrier), shift) for one in APART for shift in range(8)]
        both = self.both([(carrier, shift) for _, carrier, shift in cases])
        for (one, carrier, _), (_, info, frame) in zip(cases, both):
            number = info.get("refusal", {"number": 0})["number"]
            if number != one.number:
                self.fail(one.what, carrier, "emdf has %d, not %d" % (number, one.number))
            if (frame.fields is None) != (one.found is None):
                self.fail(one.what, carrier, "MediaInfo " + ("finds none" if frame.fields is None else "finds it"))
            elif one.found is not None:
                self.holds(one, carrier, frame)
        print("peer: %d inputs on which the two differ, or both refuse" % len(APART))

    def holds(self, one, carrier, frame):
        by_name = {got.name: (got.value, got.bits) for got in frame.fields}
        for name, wanted in one.found.items():
            got = by_name.get(name)
            if got is None or any(w not in (None, g) for w, g in zip(wanted, got)):
                self.fail(one.what, carrier, "MediaInfo has %s %s, not %s" % (name, got, wanted))

    def page(self):
        """The page's inputs are those above."""
        part = re.search(r"^## Beside MediaInfo$(.*?)(?=^## |\Z)", PAGE.read_text(), re.M | re.S)
        inputs = re.findall(r"\b58 38(?: [0-9a-f]{2})*", part[1]) if part else []
        if sorted(inputs) != sorted(one.carrier for one in APART):
            self.failures.append("docs/DIFFERENCES.md has other inputs beside MediaInfo: %s" % inputs)

    # ---- the profile

    def profile(self, count):
        """Strict wants codec data, with which MediaInfo's search takes nothing for a container."""
        draws = [random.Random("pair %d" % k) for k in range(2 * count)]
        strict = [c for c in (pair(rng, 1).carrier() for rng in draws) if has_one_sync_word(c)][:count]
        compat = [pair(random.Random("pair %d" % k), 0).carrier() for k in range(count)]
        for what, carriers in (("strict", strict), ("compat", compat)):
            found = 0
            for (carrier, _), info, frame in self.both([(carrier, k % 8) for k, carrier in enumerate(carriers)]):
                found += frame.fields is not None
                if not info[what]["accepted"] or info["strict"]["accepted"] != (what == "strict"):
                    self.fail(what, carrier, "emdf says %s" % info[what])
                if (frame.fields is None) != (what == "strict"):
                    self.fail(what, carrier, "MediaInfo " + ("finds none" if frame.fields is None else "finds it"))
            without = "" if what == "strict" else " without codec data"
            print("peer: %d carriers%s that %s accepts: MediaInfo finds %d" % (len(carriers), without, what, found))


def main():
    options = argparse.ArgumentParser()
    options.add_argument("emdf")
    options.add_argument("--carriers", type=int, default=2000)
    given = options.parse_args()
    print("peer: MediaInfo " + tree.version())
    starts = [contents(random.Random(k)) for k in range(given.carriers)]
    starts = [start for start in starts if fits(start.carrier())]
    with tempfile.TemporaryDirectory() as folder:
        run = Run(given.emdf, folder)
        run.read_alike(starts)
        run.edited_alike(starts[::5])
        run.apart()
        run.page()
        run.profile(100)
    for failure in run.failures[:10]:
        print("peer: " + failure)
    print("peer: %d failed" % len(run.failures))
    return 1 if run.failures else 0


sys.exit(main())
