"""emdf edit, emdf blank and emdf body: what they write is compared with the model of the edits."""
import os
import random

from forms import refusal_text
from harness import case
from models.edits import NAMES, Contents, refusal, ruled, settings, step
from models.ordinals import find
from models.profile import FIELDS, WANTED
from models.refused import UNREAD, A

MOST = 65539
TITLES = {name: title for name, title, _ in FIELDS}
B = bytes.fromhex("58380007004202c3025280")
# With their protection cleared, and B with an empty body.
CLEARED_A = bytes.fromhex("58380003001000")
CLEARED_B = bytes.fromhex("58380007004202c3020000")
EMPTIED_B = bytes.fromhex("58380006004200020000")
OF_A = Contents(0, [], b"\xa5", b"")
OF_B = Contents(0, [(1, settings(discard=1), b"\xc3")], b"\xa5", b"")
assert (OF_A.carrier(), OF_B.carrier()) == (A, B)
PROFILE = dict.fromkeys(NAMES) | WANTED
BARE = settings(discard=1)

# ---- an edit's words


def hexadecimal(data):
    return data.hex() or "-"


def setting_words(given):
    return ["%s=%s" % (TITLES[name], "absent" if value is None else value) for name, value in given.items()]


def place_word(place):
    """A place, or an id and an ordinal."""
    return "%d#%d" % place if isinstance(place, tuple) else str(place)


def words_of(edit, *given):
    """An edit with everything named."""
    if edit == "body":
        return ["body", place_word(given[0]), hexadecimal(given[1])]
    if edit == "settings":
        return ["set", place_word(given[0])] + setting_words(given[1])
    if edit == "insert":
        place, ident, config, body = given
        return ["insert", place_word(place), "id=%d" % ident] + setting_words(config) + ["body=" + hexadecimal(body)]
    if edit == "protection":
        return ["protection", hexadecimal(given[0]), hexadecimal(given[1])]
    return [edit, place_word(given[0])]


def step_named(contents, edit, *given):
    """As step, where a place may be an id and an ordinal of what the edits before it left: then 24 stands for 16."""
    if isinstance(given[0], tuple):
        place = find(contents.payloads, *given[0])
        if place is None:
            return contents, 24
        given = (place,) + given[1:]
    return step(contents, edit, *given)


def shown(words):
    """As a message has them: cut where they get long."""
    return " ".join(word if len(os.fsencode(word)) <= 40 else word[:40] + ".." for word in words)


def hint(number, edit, *given):
    if number != 17:
        return ""
    if edit == "protection":
        return "; primary has 1, 4 or 16 bytes, secondary 0, 1, 4 or 16"
    if edit == "insert" and given[1] == 0:
        return "; an id is 1 or more"
    return "; emdf(1) says under SETTINGS what can"


# ---- cases


def chain_case(name, contents, edits, files=None, through_pipes=False):
    """Edits, each with its words; the first that is refused ends them."""
    number, n, said = 0, 0, ""
    source = contents.carrier()
    words = [word for one, _ in edits for word in one]
    for n, (own, edit) in enumerate(edits, 1):
        contents, number = step_named(contents, *edit)
        if number:
            said = "emdf: edit %d, %s: refused, %s%s\n" % (n, shown(own), refusal_text(number), hint(number, *edit))
            break
    result = None if number else contents.carrier()
    return edit_case(name, words, source, result, said.encode(), 1 if number else 0, files, through_pipes)


def edit_case(name, words, source, result, err=b"", status=0, files=None, through_pipes=False):
    files = files or {}
    if through_pipes:
        return case(name, ["edit", "-", "-o", "-"] + words, files, source, result or b"", err, status)
    left = {} if result is None else {"out": result}
    return case(name, ["edit", "in", "-o", "out"] + words, {"in": source} | files, b"", b"", err, status, left)


def one_case(name, contents, edit, *given):
    return chain_case(name, contents, [(words_of(edit, *given), (edit,) + given)])


def piped_case(name, contents, edit, *given):
    """Through pipes, which are faster than files that have to be on disk."""
    return chain_case(name, contents, [(words_of(edit, *given), (edit,) + given)], through_pipes=True)


def blank_case(name, key, primary, secondary):
    words = ["blank", "key=%d" % key, "primary=" + hexadecimal(primary), "secondary=" + hexadecimal(secondary)]
    after = Contents(key, [], primary, secondary)
    if refusal(after):
        said = "emdf: blank: refused, %s%s\n" % (refusal_text(17), hint(17, "protection"))
        return case(name, words + ["-o", "out"], err=said.encode(), status=1)
    return case(name, words + ["-o", "out"], left={"out": after.carrier()})


# ---- the scope


def by_hand():
    bare = "codec_data_present=0 discard_unknown_payload=1".split()
    yield edit_case("drop(0) on B", ["drop", "0"], B, CLEARED_A)
    yield edit_case("body(0, empty) on B", ["body", "0", "-"], B, EMPTIED_B)
    yield edit_case("insert(0, 1, discard, C3) on A", ["insert", "0", "id=1", "body=c3"], A, CLEARED_B)
    yield edit_case("and with words for it", ["insert", "0", "id=1"] + bare + ["body=C3"], A, CLEARED_B)
    yield edit_case("body(0, C3) on B", ["body", "0", "C3"], B, CLEARED_B)
    yield edit_case("key(0) on A", ["key", "0"], A, CLEARED_A)
    yield edit_case("protection(A5, none) on B gives B", ["protection", "A5", "-"], B, B)
    yield edit_case("settings as they are on B", ["set", "0"] + bare, B, CLEARED_B)
    yield edit_case("A to B to A", "insert 0 id=1 body=c3 drop 0".split(), A, CLEARED_A)
    yield edit_case("drop(0), protection(A5, none) on B give A", "drop 0 protection a5 -".split(), B, A)
    yield edit_case("protection(5A, none), drop(0) on B", "protection 5a - drop 0".split(), B, CLEARED_A)
    # 01020304 and FF, from the third bit of the third byte on.
    both = bytes.fromhex("58380007002404080c13fc")
    yield case("blank(0, 01020304, FF)", "blank primary=01020304 secondary=ff".split(), out=both)
    yield edit_case("key(0) on 4 and 1 bytes", ["key", "0"], both, bytes.fromhex("5838000700240000000000"))
    yield edit_case("key(1) on 4 and 1 bytes", ["key", "1"], both, bytes.fromhex("5838000708240000000000"))
    yield case("blank(0, A5, none) gives A", ["blank", "primary=a5", "-o", "out"], left={"out": A})
    yield case("blank to standard output", ["blank", "primary=a5"], out=A)
    yield case("blank by itself: key id 0, primary protection 00", ["blank"], out=bytes.fromhex("58380003001000"))
    yield case("blank to -", ["blank", "-o", "-", "primary=a5"], out=A)
    late = b"emdf: edit 2, drop 7: refused, 16: no such place\n"
    yield edit_case("a later edit is refused", "key 1 drop 7 key 2".split(), B, None, late, 1)


def readings():
    """What a reading refuses is said of the file, whichever edit comes first."""
    for name, (data, number, *figures) in UNREAD.items():
        said = "refused, %s\n" % refusal_text(number, figures)
        yield edit_case("edit: " + name, ["key", "1"], data, None, ("emdf: in: " + said).encode(), 1)
        yield case("body: " + name, ["body", name, "0"], {name: data}, err=("emdf: %s: %s" % (name, said)).encode(), status=1)
    for words in (["drop", "7"], ["set", "0", "priority=1"], ["insert", "9", "id=0"], ["protection", "-", "-"]):
        said = b"emdf: in: refused, 1: fewer bytes than the header declares (declared 3, available 2)\n"
        yield edit_case("a reading before " + words[0], words, A[:-1], None, said, 1)
        said = b"emdf: in: refused, 21: fewer bytes than a header has (needed 4, available 3)\n"
        yield edit_case("21 before " + words[0], words, A[:3], None, said, 1)
        yield edit_case("20 before " + words[0], words, A + b"\0", None, b"emdf: in: refused, 20: bytes after the carrier\n", 1)
    said = b"emdf: standard input: refused, 20: bytes after the carrier\n"
    yield edit_case("20 of standard input", ["drop", "0"], A + bytes(MOST - len(A)), None, said, 1, through_pipes=True)


# ---- places, and what is writable


def places():
    for place in (1, 2, 2**32, 2**64 - 1):
        yield one_case("body(%d)" % place, OF_B, "body", place, b"")
        yield one_case("set(%d)" % place, OF_B, "settings", place, settings(discard=1))
        yield one_case("drop(%d)" % place, OF_B, "drop", place)
        yield one_case("insert(%d)" % place, OF_B, "insert", place, 2, settings(discard=1), b"\x01\x23")
    yield one_case("drop(0) on A", OF_A, "drop", 0)
    yield one_case("16 before 17", OF_A, "insert", 1, 0, settings(), b"")
    for ident in (0, 1, 30, 31, 2**64 - 1):
        yield one_case("insert id %d" % ident, OF_B, "insert", 1, ident, settings(discard=1), b"\xff")
    for key in (1, 6, 7, 15, 16, 2**32, 2**64 - 1):
        yield one_case("key %d" % key, OF_B, "key", key)
        yield blank_case("blank %d" % key, key, b"\x01", b"\x02")


TIMED = settings(sample_offset=1, priority=1, processing=1)
COPIED = settings(aligned=1, create=0, remove=1, priority=31, processing=3)
LIMITS = [
    ("sample_offset", 2047, TIMED),
    ("duration", 4196351, TIMED),
    ("group_id", 6148914691236517203, TIMED),
    ("codec", 1, TIMED),
    ("discard", 1, settings(discard=1)),
    ("aligned", 1, COPIED),
    ("create", 1, COPIED),
    ("remove", 1, COPIED),
    ("priority", 31, TIMED),
    ("processing", 3, COPIED),
]


def limits():
    for name, limit, base in LIMITS:
        for value in (limit - 1, limit, limit + 1, 2**64 - 1):
            yield piped_case("%s %d" % (name, value), OF_B, "settings", 0, base | {name: value})
            yield piped_case("insert with %s %d" % (name, value), OF_A, "insert", 0, 14, base | {name: value}, b"\x80")


def presences():
    """Each set of settings that are there, with payload_frame_aligned 0 and 1."""
    for bits in range(256):
        there = {name: 0 if bits >> i & 1 else None for i, name in enumerate(NAMES[:3] + NAMES[5:])}
        for aligned in (0, 1) if there["aligned"] == 0 else (0,):
            given = settings(**there) | ({"aligned": aligned} if there["aligned"] == 0 else {})
            yield piped_case("presence %d, aligned %d" % (bits, aligned), OF_B, "settings", 0, given)


def protections():
    for n in (0, 1, 2, 3, 4, 5, 15, 16, 17, 300):
        for m in (0, 1, 2, 4, 8, 16, 17):
            given = bytes(i % 256 for i in range(n)), bytes(range(100, 100 + m))
            yield piped_case("protection of %d and %d bytes" % (n, m), OF_B, "protection", *given)
            yield blank_case("blank of %d and %d bytes" % (n, m), 0, *given)


# ---- settings that are not all named


def partly():
    words = lambda text: text.split()
    pair = Contents(0, [(11, PROFILE, b"\1"), (14, TIMED, b"\2")], b"\xa5", b"")
    set_to = lambda place, config: ("settings", place, config)
    insert = lambda place, ident, config, body: ("insert", place, ident, config, body)
    for name, text, edit in (
        ("one", "set 0 priority=7", set_to(0, PROFILE | {"priority": 7})),
        ("one of the other", "set 1 duration=0", set_to(1, TIMED | {"duration": 0})),
        ("one absent", "set 0 group_id=absent", set_to(0, PROFILE | {"group_id": None})),
        ("one that others need", "set 0 payload_frame_aligned=0", set_to(0, PROFILE | {"aligned": 0})),
        ("from=bare", "set 0 from=bare", set_to(0, BARE)),
        ("from=profile", "set 1 from=profile", set_to(1, PROFILE)),
        ("from=bare and one", "set 0 from=bare duration=5", set_to(0, BARE | {"duration": 5})),
        ("one and from=profile", "set 1 codec_data_present=0 from=profile", set_to(1, PROFILE | {"codec": 0})),
        ("named twice: the later one", "set 0 priority=1 priority=2", set_to(0, PROFILE | {"priority": 2})),
        ("insert alone", "insert 0 id=3", insert(0, 3, BARE, b"")),
        ("insert from=bare", "insert 2 from=bare id=3", insert(2, 3, BARE, b"")),
        ("insert from=profile", "insert 1 id=3 from=profile body=0102", insert(1, 3, PROFILE, b"\1\2")),
        ("insert with one", "insert 1 body=- id=3 group_id=9", insert(1, 3, BARE | {"group_id": 9}, b"")),
        ("insert, words first", "insert 1 priority=4 body=aB from=profile id=3", insert(1, 3, PROFILE | {"priority": 4}, b"\xab")),
        ("insert discard 0 alone", "insert 0 id=3 discard_unknown_payload=0", insert(0, 3, settings(), b"")),
    ):
        yield chain_case("settings: " + name, pair, [(words(text), edit)])


# ---- lengths


def lengths():
    longest = random.Random(1).randbytes(65536)
    for size in (255, 256, 257, 300, 65524, 65525, 65535, 65536):
        files = {"b.bin": longest[:size]}
        body = ("body", 0, longest[:size])
        yield chain_case("body of %d from a file" % size, OF_B, [(["body", "0", "@b.bin"], body)], files)
        insert = ("insert", 0, 7, BARE, longest[:size])
        yield chain_case("insert a body of %d from a file" % size, OF_B, [(["insert", "0", "id=7", "body=@b.bin"], insert)], files)
    for size in (255, 256, 60000):
        yield one_case("body of %d in digits" % size, OF_B, "body", 0, longest[:size])
    words = ["body", "0", "@b.bin"]
    too_long = ("emdf: edit 1, body 0 @b.bin: refused, %s\n" % refusal_text(18)).encode()
    yield edit_case("body of a million bytes", words, B, None, too_long, 1, {"b.bin": bytes(1000000)})
    large = Contents(0, [(1, BARE, longest[:65526]), (2, BARE, b"")], b"\xa5", b"")
    assert len(large.carrier()) == MOST
    for edit in (("drop", 0), ("drop", 1), ("key", 2**64 - 1), ("key", 6), ("body", 1, b"\1"), ("protection", bytes(4), b"")):
        yield one_case("%s on the longest carrier" % edit[0], large, *edit)
    said = ("emdf: edit 1, protection %s.. %s..: refused, 17: the contents cannot be written%s\n" % (
        longest.hex()[:40], longest.hex()[:40], hint(17, "protection"))).encode()
    digits = longest[:65535].hex()
    yield edit_case("two protections of 65,535 bytes", ["protection", digits, digits], B, None, said, 1)


def spellings():
    every = bytes(range(256))
    yield edit_case("leading zeros", ["drop", "000"], B, CLEARED_A)
    yield edit_case("a place of 131,071 zeros", ["drop", "0" * 131071], B, CLEARED_A)
    given = bytes.fromhex("aabbccddeeff0123456789")
    yield chain_case("both cases", OF_B, [(["body", "0", "aAbBcCdDeEfF0123456789"], ("body", 0, given))])
    yield one_case("every octet", OF_B, "body", 0, every)
    body = ("body", 0, every)
    words = ["edit", "in", "body", "0", "@-", "-o", "out"]
    after = step(OF_B, *body)[0].carrier()
    yield case("a body from standard input", words, {"in": B}, every, left={"out": after})
    yield case("-o first", ["edit", "-o", "out", "in", "drop", "0"], {"in": B}, left={"out": CLEARED_A})
    yield case("-o last", ["edit", "in", "drop", "0", "key", "0", "-o", "out"], {"in": B}, left={"out": CLEARED_A})
    yield case("OUT is FILE", ["edit", "in", "-o", "in", "drop", "0"], {"in": B}, left={"in": CLEARED_A})
    yield case("OUT is there", ["edit", "in", "-o", "out", "drop", "0"], {"in": B, "out": bytes(99)}, left={"out": CLEARED_A})
    files = {"in": B, "out": b"as it was"}
    said = b"emdf: edit 1, drop 1: refused, 16: no such place\n"
    yield case("OUT is there and the edit refused", ["edit", "in", "-o", "out", "drop", "1"], files, err=said, status=1)
    yield case("OUT is FILE and the edit refused", ["edit", "in", "-o", "in", "drop", "0", "drop", "0"], {"in": B},
               err=b"emdf: edit 2, drop 0: refused, 16: no such place\n", status=1)
    yield case("a FILE called as an edit is", ["edit", "drop", "-o", "key", "drop", "0"], {"drop": B}, left={"key": CLEARED_A})
    yield case("blank: the later word", ["blank", "key=1", "primary=00", "key=0", "primary=a5"], out=A)


# ---- by chance


def random_settings(rng):
    """Settings of which most are writable."""
    given = settings(codec=rng.randint(0, 1), discard=rng.randint(0, 1))
    given["sample_offset"] = rng.choice([None, None, rng.randint(0, 2047)])
    given["duration"] = rng.choice([None, 0, 2047, 2048, 4196351])
    given["group_id"] = rng.choice([None, 0, 3, 4, 19, 6148914691236517203])
    timed, kept = given["sample_offset"] is not None, not given["discard"]
    if kept and not timed:
        given["aligned"] = rng.randint(0, 1)
        if given["aligned"]:
            given |= {"create": rng.randint(0, 1), "remove": rng.randint(0, 1)}
    if kept and (timed or given["aligned"]):
        given |= {"priority": rng.randint(0, 31), "processing": rng.randint(0, 3)}
    assert ruled(given)
    if rng.randrange(8) == 0:
        given[rng.choice(NAMES)] = rng.choice([0, 1, 32, 2048])
    return given


def random_bytes(rng, lengths):
    return rng.randbytes(rng.choice(lengths))


def random_payload(rng):
    given = random_settings(rng)
    while not Contents(0, [(1, given, b"")], b"\1", b"").writable():
        given = random_settings(rng)
    return rng.choice([1, 11, 14, 30, 31, rng.randrange(1, 2**64)]), given, random_bytes(rng, range(300))


def random_contents(rng):
    payloads = [random_payload(rng) for _ in range(rng.randrange(6))]
    key = rng.choice([0, 7, rng.randrange(2**64)])
    return Contents(key, payloads, random_bytes(rng, [1, 4, 16]), random_bytes(rng, [0, 1, 4, 16]))


def random_edit(rng, count):
    place = rng.randrange(count + 2)
    return rng.choice(
        [
            ("body", place, random_bytes(rng, range(400))),
            ("settings", place, random_settings(rng)),
            ("drop", place),
            ("insert", place, rng.choice([0, 1, 31, rng.randrange(2**64)]), random_settings(rng), random_bytes(rng, range(400))),
            ("key", rng.choice([0, 6, 7, rng.randrange(2**64)])),
            ("protection", random_bytes(rng, [0, 1, 4, 16]), random_bytes(rng, [0, 1, 4, 16])),
        ]
    )


def random_change(rng, contents):
    """Some settings of a payload, or a base and some: the words, and the edit."""
    place = rng.randrange(len(contents.payloads))
    named = {name: value for name, value in random_settings(rng).items() if rng.randrange(5) == 0}
    base, start = rng.choice([(contents.payloads[place][1], []), (BARE, ["from=bare"]), (PROFILE, ["from=profile"])])
    words = setting_words(named) + start
    rng.shuffle(words)
    return ["set", str(place)] + (words or ["from=bare"]), ("settings", place, (base if words else BARE) | named)


def random_edits():
    for seed in range(400):
        rng = random.Random(seed)
        contents = random_contents(rng)
        edit = random_edit(rng, len(contents.payloads))
        yield chain_case("random edit %d" % seed, contents, [(words_of(*edit), edit)], through_pipes=seed % 4 > 0)


def random_changes():
    for seed in range(100):
        rng = random.Random(seed)
        contents = random_contents(rng)
        if contents.payloads:
            yield chain_case("random change %d" % seed, contents, [random_change(rng, contents)])


def random_chains():
    """Two to eight edits, of which a quarter of the chains may have refused ones."""
    for seed in range(200):
        rng = random.Random(seed)
        start = contents = random_contents(rng)
        edits = []
        while len(edits) < 2 + seed % 7:
            words, edit = None, random_edit(rng, len(contents.payloads))
            if contents.payloads and rng.randrange(4) == 0:
                words, edit = random_change(rng, contents)
            after, number = step(contents, *edit)
            if not number or seed % 4 == 0:
                edits.append((words or words_of(*edit), edit))
                contents = after
        yield chain_case("random chain %d" % seed, start, edits)


# ---- bodies


def bodies(files, to_files=True):
    """Every payload's body, and the place after the last."""
    for name, file in files.items():
        count = len(file.payloads)
        for place, (_, _, body) in enumerate(file.payloads):
            words, given = ["body", name, str(place)], {name: file.data}
            yield case("body %d of %s" % (place, name), words, given, out=body)
            if to_files:
                yield case("body %d of %s, to a file" % (place, name), words + ["-o", "out"], given, left={"out": body})
        said = ("emdf: standard input: refused, %s\n" % refusal_text(16)).encode()
        yield case("body %d of %s" % (count, name), ["body", "-", str(count)], stdin=file.data, err=said, status=1)
    name, file = next(iter(files.items()))
    said = ("emdf: %s: refused, %s\n" % (name, refusal_text(16))).encode()
    kept = {name: file.data, "out": b"as it was"}
    yield case("body, refused, OUT there", ["body", name, str(2**64 - 1), "-o", "out"], kept, err=said, status=1)
