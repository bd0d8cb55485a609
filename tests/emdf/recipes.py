"""emdf recipe: what it writes and shows is compared with the model of recipes, and what it leaves of a carrier with that of the
edits."""
import random
import tempfile

from editing import B, BARE, CLEARED_A, EMPTIED_B, OF_B, random_bytes, random_contents, shown, words_of
from forms import refusal_text
from harness import case, fill, run
from models.edits import Contents, step
from models.recipe import BODY, DROP, KEY, file_of, head, read, record
from models.refused import UNREAD, A
from usage import USAGES

MOST = 64 * 1024 * 1024
LIMIT = "longer than 67108864 bytes, emdf's limit for a recipe\n"


def words_of_all(edits):
    return [word for edit in edits for word in words_of(*edit)]


def lines_of(edits):
    return "".join(" ".join(words_of(*edit)) + "\n" for edit in edits).encode()


# ---- cases


def make_case(name, edits, words=None, files=None, through_pipes=False):
    words = words or words_of_all(edits)
    if through_pipes:
        return case("make: " + name, ["recipe", "make", "-o", "-"] + words, files, out=file_of(edits))
    return case("make: " + name, ["recipe", "make", "-o", "out"] + words, files, left={"out": file_of(edits)})


def show_case(name, file):
    number, edits = read(file)
    said = "emdf: recipe: refused, %s\n" % refusal_text(number) if number else ""
    words = ["recipe", "show", "recipe"]
    return case("show: " + name, words, {"recipe": file}, out=lines_of(edits), err=said.encode(), status=1 if number else 0)


def after_edits(contents, edits):
    """The contents that a run leaves, and a line for each edit that is refused."""
    said = ""
    for n, edit in enumerate(edits, 1):
        contents, number = step(contents, *edit)
        if number:
            said += "emdf: edit %d, %s: refused, %s\n" % (n, shown(words_of(*edit)), refusal_text(number))
    return contents, said


def apply_case(name, contents, file, through_pipes=False):
    number, edits = read(file)
    source = contents.carrier()
    after, said = after_edits(contents, edits)
    if number:
        said = "emdf: recipe: refused, %s\n" % refusal_text(number)
    return ran_case(name, source, file, None if number else after.carrier(), said, through_pipes)


def ran_case(name, source, file, result, said="", through_pipes=False):
    """What is written, unless it is None, and what is said; then the exit status is 1."""
    wanted = {"err": said.encode(), "status": 1 if said else 0}
    if through_pipes:
        words = ["recipe", "apply", "-", "recipe", "-o", "-"]
        return case("apply: " + name, words, {"recipe": file}, source, out=result or b"", **wanted)
    files = {"in": source, "recipe": file} | ({"out": b"as it was"} if result is None else {})
    left = {} if result is None else {"out": result}
    return case("apply: " + name, ["recipe", "apply", "in", "recipe", "-o", "out"], files, left=left, **wanted)


# ---- typed by hand from the scope

THREE = bytes.fromhex(
    "00010003"
    "00020100 00000000 00000034 00000002"
    "00030200 00000001 00000000 00000000"
    "00000300 00000000 00000036 00000008"
    "0102 0000000000000009"
)
# Records 1 and 3 are off the chain, the body is the head, and a drop's data aren't asked for.
SKIPPED = bytes.fromhex(
    "00020004"
    "ffffffff ffffffff ffffffff ffffffff"
    "00040100 00000001 00000000 00000004"
    "00010909 00000000 00000000 00000000"
    "00000200 00000000 ffffffff ffffffff"
)
EMPTIED = bytes.fromhex("0001000100000100000000000000001400000000")
DROPPED = bytes.fromhex("0001000100000200000000000000000000000000")


def by_hand():
    yield case("by hand: make", "recipe make -o out body 0 0102 drop 1 key 9".split(), left={"out": THREE})
    yield case("by hand: make, -o last", "recipe make body 0 0102 drop 1 key 9 -o -".split(), out=THREE)
    yield case("by hand: show", ["recipe", "show", "r"], {"r": THREE}, out=b"body 0 0102\ndrop 1\nkey 9\n")
    yield case("by hand: show what skips", ["recipe", "show", "r"], {"r": SKIPPED}, out=b"body 1 00020004\ndrop 0\n")
    yield case("by hand: make an empty body", "recipe make -o out body 0 -".split(), left={"out": EMPTIED})
    yield case("by hand: show an empty body", ["recipe", "show", "-"], stdin=EMPTIED, out=b"body 0 -\n")
    yield case("by hand: show no edits", ["recipe", "show", "r"], {"r": bytes(4)})
    yield ran_case("by hand: drop(0) on B", B, DROPPED, CLEARED_A)
    yield ran_case("by hand: body(0, empty) on B", B, EMPTIED, EMPTIED_B)
    said = "emdf: edit 1, body 1 00020004: refused, 16: no such place\n"
    yield ran_case("by hand: one of two is refused", B, SKIPPED, CLEARED_A, said)
    yield ran_case("by hand: all are refused", A, DROPPED, A, "emdf: edit 1, drop 0: refused, 16: no such place\n")
    said = b"emdf: r: refused, 22: the recipe's chain is broken\n"
    yield case("by hand: 22", ["recipe", "show", "r"], {"r": b"\0\2\0\1"}, err=said, status=1)
    said = b"emdf: standard input: refused, 23: a record of the recipe is not of the form\n"
    yield case("by hand: 23", ["recipe", "show", "-"], stdin=DROPPED[:7] + b"\1" + DROPPED[8:], err=said, status=1)
    said = b"emdf: standard input: refused, 22: the recipe's chain is broken\n"
    words = ["recipe", "apply", "in", "-", "-o", "in"]
    yield case("by hand: 22 of standard input", words, {"in": B}, b"\0\0\0", err=said, status=1)


# ---- wrong recipes

FAR = 2**32 - 1


def alone(following=0, kind=BODY, place=0, offset=20, length=2, zero=0, more=b"\x01\x02", first=1, count=1):
    """A file of one record, and data after it."""
    return head(first, count) + record(following, kind, place, offset, length, zero) + more


def pair(first, second, more=bytes(8), start=1, count=2):
    return head(start, count) + first + second + more


KEY_ALONE = {"kind": KEY, "length": 8, "more": bytes(8)}
DROP_ALONE = {"kind": DROP, "offset": FAR, "length": FAR}
KEPT = record(0, DROP, 0, 0, 0)
BROKEN = {
    "no bytes": b"",
    "one byte": b"\0",
    "three bytes": b"\0\0\0",
    "first above the count": alone(first=2),
    "first above the count, its record there": pair(KEPT, KEPT, start=2, count=1),
    "first without records": head(1, 0),
    "the largest first": head(65535, 65534),
    "next at its own index": alone(following=1),
    "next above the count": alone(following=2),
    "next above the count, its record there": pair(record(2, DROP, 0, 0, 0), KEPT, count=1),
    "next before its own": pair(KEPT, record(1, DROP, 0, 0, 0), start=2),
    "next at the second's own": pair(record(2, DROP, 0, 0, 0), record(2, DROP, 0, 0, 0)),
    "the largest next": alone(following=65535),
    "no record": head(1, 1),
    "a record of 15 bytes": alone(more=b"")[:-1],
    "a second record of 15 bytes": pair(record(2, DROP, 0, 0, 0), KEPT, b"")[:-1],
    "the last of 65,535 records missing": head(65535, 65535) + KEPT,
    "22 before an unknown kind": alone(following=1, kind=4),
    "22 before a zero byte": alone(following=9, zero=1),
    "22 before a key's length": alone(following=1, kind=KEY, length=7),
    "22 before data past the end": alone(following=1, offset=FAR, length=FAR),
}
INVALID = {
    "kind 0": alone(kind=0),
    "kind 4": alone(kind=4),
    "kind 255": alone(kind=255),
    "a body's zero byte": alone(zero=1),
    "a drop's zero byte": alone(zero=255, **DROP_ALONE),
    "a key's zero byte": alone(zero=128, **KEY_ALONE),
    "a key of 7 bytes": alone(**KEY_ALONE | {"length": 7}),
    "a key of 9 bytes": alone(**KEY_ALONE | {"length": 9, "more": bytes(9)}),
    "a key of no bytes": alone(**KEY_ALONE | {"length": 0}),
    "a key past the end": alone(**KEY_ALONE | {"offset": 21}),
    "a key far away": alone(**KEY_ALONE | {"offset": FAR}),
    "a body past the end": alone(length=3),
    "a body that starts past the end": alone(offset=23, length=0),
    "a body that wraps": alone(offset=FAR, length=8),
    "a body that wraps to its start": alone(offset=FAR, length=1),
    "a body that wraps at its length": alone(offset=1, length=FAR),
    "the largest body": alone(offset=FAR, length=FAR),
    "kind 4 before a record that is missing": alone(following=2, kind=4, count=2),
    "kind 4 after a body": pair(record(2, BODY, 0, 36, 8), record(0, 4, 0, 0, 0)),
}
# What is not asked about.
ALLOWED = {
    "no edits": head(0, 0),
    "no edits, and a count": head(0, 9),
    "no edits, and much else": head(0, 65535) + bytes(range(256)),
    "a drop's offset and length": alone(**DROP_ALONE),
    "a key's place": alone(place=FAR, **KEY_ALONE),
    "a body at the end": alone(offset=22, length=0),
    "all the file as a body": alone(offset=0, length=22),
    "a count above the records": alone(count=65535),
    "the last of two": pair(record(9, 9, 9, 9, 9, 9), KEPT, start=2),
    "the largest place": alone(place=FAR),
    "the largest place of a drop": alone(place=FAR, **DROP_ALONE),
    "a key in its own record": alone(**KEY_ALONE | {"offset": 4}),
    "data that overlap": pair(record(2, BODY, 0, 36, 8), record(0, KEY, 0, 36, 8)),
}


def wrong():
    for number, files in ((22, BROKEN), (23, INVALID)):
        for name, file in files.items():
            assert read(file)[0] == number, name
            yield show_case(name, file)
            yield apply_case(name, OF_B, file)


def allowed():
    for name, file in ALLOWED.items():
        assert read(file)[0] == 0, name
        yield show_case(name, file)
        yield apply_case(name, OF_B, file)


# ---- sources that are no carrier


def unread():
    """Said once of the file, whichever edits there are; without edits it is written as it is."""
    twice = file_of([("drop", 7), ("key", 1)])
    for name, (data, number, *figures) in UNREAD.items():
        said = "emdf: in: refused, %s\n" % refusal_text(number, figures)
        yield ran_case(name, data, twice, None, said)
        yield ran_case(name + ", no edits", data, head(0, 3), data)
        broken = "emdf: recipe: refused, %s\n" % refusal_text(22)
        yield ran_case(name + ", and a wrong recipe", data, head(3, 0), None, broken)
    yield ran_case("20", A + b"\0", twice, None, "emdf: in: refused, 20: bytes after the carrier\n")
    yield ran_case("20, no edits", A + b"\0", head(0, 0), A + b"\0")
    said = "emdf: standard input: refused, 20: bytes after the carrier\n"
    yield ran_case("20 of standard input", B + B, twice, None, said, True)


# ---- lengths, spellings and files


def lengths():
    longest = random.Random(3).randbytes(70000)
    for size in (0, 1, 20, 21, 255, 256, 257, 60000, 65524, 65525, 65535, 65536, 70000):
        edits = [("body", 0, longest[:size]), ("key", 5)]
        yield apply_case("a body of %d bytes" % size, OF_B, file_of(edits))
        yield show_case("a body of %d bytes" % size, file_of(edits))
        if size <= 65535:
            words = ["body", "0", "@b.bin", "key", "5"]
            yield make_case("a body of %d bytes from a file" % size, edits, words, {"b.bin": longest[:size]})
    yield make_case("a body of 60,000 bytes in digits", [("body", 1, longest[:60000])])
    large = Contents(0, [(1, BARE, longest[:65526]), (2, BARE, b"")], b"\xa5", b"")
    edits = [("key", 2**64 - 1), ("body", 1, b"\1"), ("drop", 1), ("key", 7), ("body", 0, b""), ("key", 2**64 - 1), ("drop", 1)]
    yield apply_case("on the longest carrier", large, file_of(edits))
    for place in (0, 1, 255, 2**16, 2**31, FAR):
        yield make_case("place %d" % place, [("body", place, b"\xff"), ("drop", place)])
    for key in (0, 1, 255, 2**32, 2**63, 2**64 - 1):
        yield make_case("key %d" % key, [("key", key)])


def spellings():
    edits = [("body", 0, b"\xab\xcd"), ("drop", 3), ("key", 9)]
    yield make_case("leading zeros, both cases", edits, "body 000 AbcD drop 03 key 0009".split())
    yield make_case("a FILE called as an edit is", [("body", 0, B)], ["body", "0", "@drop"], {"drop": B})
    words = ["recipe", "make", "-o", "out", "body", "0", "@-"]
    yield case("make: a body from standard input", words, stdin=B, left={"out": file_of([("body", 0, B)])})
    yield case("make: OUT is there", ["recipe", "make", "-o", "out", "drop", "0"], {"out": bytes(99)}, left={"out": DROPPED})
    files = {"in": B, "recipe": DROPPED}
    yield case("apply: OUT is FILE", "recipe apply in recipe -o in".split(), files, left={"in": CLEARED_A})
    yield case("apply: OUT is RECIPE", "recipe apply in recipe -o recipe".split(), files, left={"recipe": CLEARED_A})
    yield case("apply: -o first", "recipe apply -o out in recipe".split(), files, left={"out": CLEARED_A})
    yield case("apply: RECIPE -", "recipe apply in - -o out".split(), {"in": B}, DROPPED, left={"out": CLEARED_A})
    yield case("apply: FILE -", "recipe apply - recipe -o -".split(), {"recipe": DROPPED}, B, out=CLEARED_A)
    said = b"emdf: standard input: was read already\n"
    yield case("apply: both -", "recipe apply - - -o out".split(), stdin=B, err=said, status=2)
    named = {"in": B, b"r\x1b\n": b"\0"}
    said = b"emdf: r??: refused, 22: the recipe's chain is broken\n"
    yield case("apply: a recipe's name", ["recipe", "apply", "in", "r\x1b\n", "-o", "out"], named, err=said, status=1)


def of_files():
    none = "No such file or directory"
    for words in ("recipe show RECIPE", "recipe apply in RECIPE -o out"):
        for name, reason in (("missing", none), ("/", "Is a directory"), ("", none)):
            said = "emdf: %s: %s\n" % (name, reason)
            given = [name if word == "RECIPE" else word for word in words.split()]
            yield case("%s: %r" % (words, name), given, {"in": B}, err=said.encode(), status=2)
    said = b"emdf: missing: No such file or directory\n"
    yield case("make: a body's file is missing", "recipe make -o out body 0 @missing".split(), err=said, status=2)
    said = b"emdf: standard input: was read already\n"
    yield case("make: - for two bodies", "recipe make -o out body 0 @- body 1 @-".split(), stdin=b"\1", err=said, status=2)
    said = b"emdf: edit 1, drop 1: refused, 16: no such place\nemdf: /: Is a directory\n"
    files = {"in": B, "recipe": file_of([("drop", 1)])}
    yield case("apply: refused, and OUT a folder", "recipe apply in recipe -o /".split(), files, err=said, status=2)
    words = "recipe make -o out drop 0 body 0 @b body 1 @b".split()
    said = "emdf: recipe: a body in a recipe has at most 65535 bytes: @b\n%s\n" % USAGES["recipe"]
    for size in (65536, 1000000):
        yield case("make: a body of %d bytes" % size, words, {"b": bytes(size)}, err=said.encode(), status=2)


# ---- by chance


def random_edits(rng, places):
    """Edits that a recipe holds, at these many places and two more."""
    edits = []
    for _ in range(rng.randrange(1, 9)):
        body = ("body", rng.randrange(places + 2), random_bytes(rng, [0, 1, 2, 19, 20, 21, 300]))
        drop = ("drop", rng.randrange(places + 2))
        edits.append(rng.choice([body, body, drop, ("key", rng.choice([0, 6, 7, rng.randrange(2**64)]))]))
    return edits


def random_record(rng, following, length):
    """A record in a file of this length that meets its questions, with any numbers where nothing is asked."""
    kind = rng.choice([BODY, BODY, DROP, KEY])
    place = rng.randrange(4)
    if kind == DROP:
        return record(following, DROP, place, rng.randrange(2**32), rng.randrange(2**32))
    if kind == KEY:
        return record(following, KEY, rng.randrange(2**32), rng.randrange(length - 7), 8)
    offset = rng.randrange(length + 1)
    return record(following, BODY, place, offset, rng.randrange(length - offset + 1))


def random_file(rng):
    """A right recipe: its chain skips records, records and bytes off it are any, and data may lie anywhere and overlap. And the
    records of its chain."""
    there = rng.randrange(1, 9)
    chain = sorted(rng.sample(range(1, there + 1), rng.randrange(there + 1)))
    file = bytearray(rng.randbytes(4 + 16 * there + rng.randrange(60)))
    file[:4] = head(chain[0] if chain else 0, there + rng.choice([0, 0, 1, 60000]))
    for index, following in zip(chain, chain[1:] + [0]):
        file[16 * index - 12 : 16 * index + 4] = random_record(rng, following, len(file))
    assert read(bytes(file))[0] == 0 and len(read(bytes(file))[1]) == len(chain)
    return bytes(file), chain


def random_change(rng, file, chain):
    """Some bytes of the head, or of records of the chain, are others, or the file is cut."""
    if rng.randrange(5) == 0:
        return file[: rng.randrange(len(file))]
    changed = bytearray(file)
    for _ in range(rng.randrange(1, 4)):
        start = rng.choice([0] + [16 * index - 12 for index in chain] * 3)
        changed[start + rng.randrange(16 if start else 4)] = rng.choice([0, 1, 2, 3, 4, 7, 8, rng.randrange(256)])
    return bytes(changed)


def makes():
    for seed in range(100):
        yield make_case("random %d" % seed, random_edits(random.Random(seed), 4), through_pipes=seed % 4 > 0)


def shows():
    for seed in range(150):
        rng = random.Random(seed)
        file, chain = random_file(rng)
        yield show_case("random %d" % seed, file)
        yield show_case("random %d, changed" % seed, random_change(rng, file, chain))


def applies():
    for seed in range(150):
        rng = random.Random(seed)
        contents = random_contents(rng)
        edits = random_edits(rng, len(contents.payloads))
        yield apply_case("random %d" % seed, contents, file_of(edits), seed % 4 > 0)
        file, chain = random_file(rng)
        yield apply_case("random file %d" % seed, contents, file, seed % 4 > 0)
        yield apply_case("random file %d, changed" % seed, contents, random_change(rng, file, chain), seed % 4 > 0)


# ---- one run on what another left


def rounds(command, count):
    """A file that is made is shown, and made again of what was shown; and of a file of any form the same."""
    for seed in range(count):
        rng = random.Random(1000 + seed)
        with tempfile.TemporaryDirectory() as folder:
            yield "round %d" % seed, *made_round(command, folder, random_edits(rng, 9))
            file, chain = random_file(rng)
            if chain:
                yield "round of any file %d" % seed, *shown_round(command, folder, file)


def run_make(command, folder, words):
    return run(command, ["recipe", "make", "-o", "-"] + words, folder)


def run_show(command, folder, file):
    fill(folder, {"recipe": file})
    return run(command, ["recipe", "show", "recipe"], folder)


def made_round(command, folder, edits):
    made = run_make(command, folder, words_of_all(edits))
    lines = run_show(command, folder, made[0])
    again = run_make(command, folder, lines[0].decode().split())
    file = (file_of(edits), b"", 0)
    return (made, lines, again), (file, (lines_of(edits), b"", 0), file)


def shown_round(command, folder, file):
    _, edits = read(file)
    lines = run_show(command, folder, file)
    made = run_make(command, folder, lines[0].decode().split())
    again = run_show(command, folder, made[0])
    wanted = (lines_of(edits), b"", 0)
    return (lines, made, again), (wanted, (file_of(edits), b"", 0), wanted)


# ---- as long as may be


def longest():
    """As many edits, and as many bytes, as there may be; and one more."""
    keys = [("key", 0)] * 65535
    yield make_case("65,535 edits", keys)
    yield show_case("65,535 edits", file_of(keys))
    said = "emdf: recipe: a recipe holds at most 65535 edits\n%s\n" % USAGES["recipe"]
    yield case("make: 65,536 edits", ["recipe", "make", "-o", "out"] + ["key", "0"] * 65536, err=said.encode(), status=2)
    drops = [("drop", 0)] * 65534 + [("key", 9)]
    yield apply_case("65,533 of 65,535 edits refused", OF_B, file_of(drops), True)
    for size, said in ((MOST, ""), (MOST + 1, "emdf: long: " + LIMIT)):
        wanted = {"err": said.encode(), "status": 2 if said else 0}
        files = {"long": head(0, 1) + bytes(size - 4), "in": A}
        yield case("show: %d bytes" % size, ["recipe", "show", "long"], files, **wanted)
        left = {} if said else {"out": A}
        yield case("apply: %d bytes" % size, ["recipe", "apply", "in", "long", "-o", "out"], files, left=left, **wanted)
    yield from longest_made()


def longest_made():
    body = random.Random(4).randbytes(65535)
    rest = MOST - 4 - 16 * 1024 - 1023 * 65535
    words = ["body", "0", "@b"] * 1023 + ["body", "1", "@rest"]
    edits = [("body", 0, body)] * 1023 + [("body", 1, body[:rest])]
    assert len(file_of(edits)) == MOST
    yield make_case("67,108,864 bytes", edits, words, {"b": body, "rest": body[:rest]}, True)
    said = ("emdf: recipe: " + LIMIT).encode()
    files = {"b": body, "rest": body[: rest + 1]}
    yield case("make: a byte more", ["recipe", "make", "-o", "out"] + words, files, err=said, status=2)
