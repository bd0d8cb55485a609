"""Payloads that are named by id and ordinal, as in 40#2: bodies and edits, compared with the model of ordinals."""
import random

import carriers
from editing import BARE, Contents, chain_case, edit_case, place_word, random_contents, random_edit, step_named, words_of
from forms import refusal_text
from harness import case
from models.edits import settings
from models.ordinals import find, ordinals
from models.refused import UNREAD

FAR = 2**64 - 1
NONE = refusal_text(24)


def of_ids(*idents):
    """Payloads of these ids, each with another body."""
    return Contents(0, [(ident, BARE, bytes([0xC0 + k])) for k, ident in enumerate(idents)], b"\xa5", b"")


FIVE = of_ids(40, 1, 40, 1, 40)


def named_case(name, contents, *edits):
    return chain_case(name, contents, [(words_of(*edit), edit) for edit in edits])


# ---- worked out by hand from the scope


def left_case(name, words, *kept):
    """What is left of FIVE: (place in it, or another body)."""
    bodies = [bytes([0xC0 + k]) if isinstance(k, int) else k for k in kept]
    idents = [FIVE.payloads[k][0] if isinstance(k, int) else 7 for k in kept]
    after = Contents(0, list(zip(idents, [BARE] * len(kept), bodies)), b"\0", b"")
    return edit_case("by hand: %s: %s" % (name, words), words.split(), FIVE.carrier(), after.carrier())


def by_hand():
    for name, body in (("40#1", b"\xc0"), ("1#1", b"\xc1"), ("40#2", b"\xc2"), ("1#2", b"\xc3"), ("40#3", b"\xc4")):
        yield case("by hand: body " + name, ["body", "in", name], {"in": FIVE.carrier()}, out=body)
    yield left_case("the second of 40", "drop 40#2", 0, 1, 3, 4)
    yield left_case("ordinals fall after a drop", "drop 40#1 drop 40#2", 1, 2, 3)
    yield left_case("all of an id, one after another", "drop 40#1 drop 40#1 drop 40#1", 1, 3)
    yield left_case("all of an id, from the last on", "drop 40#3 drop 40#2 drop 40#1", 1, 3)
    yield left_case("the other id's ordinals stay", "drop 40#1 drop 1#2", 1, 2, 4)
    yield left_case("before the second of 40", "insert 40#2 id=7 body=aa", 0, 1, b"\xaa", 2, 3, 4)
    yield left_case("before it, twice", "insert 40#2 id=7 body=aa insert 40#2 id=7 body=bb", 0, 1, b"\xaa", b"\xbb", 2, 3, 4)
    yield left_case("what an insert brought", "insert 1#1 id=7 body=aa insert 7#1 id=7 body=bb", 0, b"\xbb", b"\xaa", 1, 2, 3, 4)
    yield left_case("a place beside them", "drop 0 drop 40#1 drop 2", 1, 3)
    said = "emdf: edit 2, drop 40#3: refused, 24: no payload with that id and ordinal\n".encode()
    yield edit_case("by hand: the third of two", "drop 40#1 drop 40#3".split(), FIVE.carrier(), None, said, 1)
    said = b"emdf: in: refused, 24: no payload with that id and ordinal\n"
    yield case("by hand: no body", ["body", "in", "40#4"], {"in": FIVE.carrier()}, err=said, status=1)


# ---- every name of many carriers


def names(payloads):
    """Each payload's, and such as no payload has."""
    held = [(ident, ordinal) for (ident, *_), ordinal in zip(payloads, ordinals(payloads))]
    counts = {ident: ordinal for ident, ordinal in held}
    absent = [(ident, count + 1) for ident, count in counts.items()] + [(ident, 0) for ident in counts]
    for ident, ordinal in held + absent + [(0, 0), (0, 1), (FAR - 1, 1), (FAR, FAR), (29, 2**32 + 1)]:
        yield ident, ordinal


def bodies():
    for name, file in (carriers.SMALL | dict(list(carriers.RANDOM.items())[:40])).items():
        for ident, ordinal in names(file.payloads):
            place = find(file.payloads, ident, ordinal)
            title, words = "body %d#%d of %s" % (ident, ordinal, name), ["body", name, "%d#%d" % (ident, ordinal)]
            if place is None:
                said = ("emdf: %s: refused, %s\n" % (name, NONE)).encode()
                yield case(title, words + ["-o", "out"], {name: file.data}, err=said, status=1)
            else:
                yield case(title, words, {name: file.data}, out=file.payloads[place][2])


def edits():
    repeated = of_ids(40, 1, 40, 40, 1, 30, FAR, 31, FAR, 40)
    for name in names(repeated.payloads):
        for edit in (("body", name, b"\x01\x02"), ("settings", name, settings()), ("drop", name), ("insert", name, 40, BARE, b"")):
            yield named_case("%s %s" % (edit[0], place_word(name)), repeated, edit)
        # 24 before 17, as 16 is.
        yield named_case("insert %s id=0" % place_word(name), repeated, ("insert", name, 0, BARE, b""))


def refusals():
    """What is asked of the source comes before 24."""
    for name, (data, number, *figures) in UNREAD.items():
        said = ("emdf: in: refused, %s\n" % refusal_text(number, figures)).encode()
        yield edit_case("edit 40#1: " + name, ["drop", "40#1"], data, None, said, 1)
        yield case("body 40#1: " + name, ["body", "in", "40#1"], {"in": data}, err=said, status=1)
    for word in ("40#1", "40#9", "0#0"):
        for words in (["drop", word], ["set", word, "priority=1"], ["insert", word, "id=0"], ["body", word, "-"]):
            said = b"emdf: in: refused, 20: bytes after the carrier\n"
            yield edit_case("20 before " + " ".join(words), words, FIVE.carrier() + b"\0", None, said, 1)


def spellings():
    source = {"in": FIVE.carrier()}
    yield case("leading zeros", ["body", "in", "000000000000000000000040#0000000000000000000000002"], source, out=b"\xc2")
    yield case("FILE -", ["body", "-", "40#2"], stdin=FIVE.carrier(), out=b"\xc2")
    yield case("bytes after the carrier", ["body", "-", "40#3"], stdin=FIVE.carrier() + FIVE.carrier(), out=b"\xc4")


# ---- by chance


def random_named(rng, contents):
    """An edit whose place, if it has one, may be an id and an ordinal: mostly one that is there."""
    edit, *given = random_edit(rng, len(contents.payloads))
    if edit not in ("key", "protection") and rng.randrange(4):
        given[0] = rng.choice(list(names(contents.payloads)))
    return (edit, *given)


def repeating(rng):
    """Contents in which most ids stand several times."""
    contents = random_contents(rng)
    idents = rng.sample([payload[0] for payload in contents.payloads] or [1], 1) + [1, 31]
    payloads = [(rng.choice(idents), *rest) for _, *rest in contents.payloads * 2]
    return Contents(contents.key, payloads, contents.primary, contents.secondary)


def random_chains():
    """Two to eight edits, of which a quarter of the chains may have refused ones."""
    for seed in range(200):
        rng = random.Random(2000 + seed)
        start = contents = repeating(rng)
        chosen = []
        while len(chosen) < 2 + seed % 7:
            edit = random_named(rng, contents)
            after, number = step_named(contents, *edit)
            if not number or seed % 4 == 0:
                chosen.append(edit)
                contents = after
        yield named_case("random names %d" % seed, start, *chosen)
