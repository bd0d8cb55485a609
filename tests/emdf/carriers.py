"""The files that emdf is asked about: the scope's carriers, and carriers that are written by its rules."""
import itertools
import random

from forms import Carrier, Unread
from models.profile import BARE, WANTED
from models.refused import UNREAD
from models.writer import DISCARD

# Every setting that can stand beside a sample offset; 4,196,351 is the longest duration.
TIMED = {"sample_offset": 2047, "duration": 4196351, "group_id": 19, "codec": 1, "discard": 0, "priority": 31, "processing": 3}
# A body that fills a carrier: 5 bits before the payload, 5 + 5 + 18 of it, and 5 + 4 + 8 after it.
LONGEST_BODY = bytes(i % 251 for i in range((8 * 65535 - 50) // 8))
# 22 bits besides payloads, and 19 for each: id 5, five flags of settings, size 9; and the body.
MOST_PAYLOADS = (8 * 65535 - 22) // 19
MOST_WITH_A_BYTE = (8 * 65535 - 22) // 27

SMALL = {
    "a": Carrier([]),
    "b": Carrier([(1, DISCARD, b"\xc3")]),
    # What drop(0) and body(0, empty) leave of B: zeros for its protection.
    "b-dropped": Carrier([], primary=b"\0"),
    "b-emptied": Carrier([(1, DISCARD, b"")], primary=b"\0"),
    "a-and-a-byte": Carrier([], more=b"\0"),
    "b-and-more": Carrier([(1, DISCARD, b"\xc3")], more=b"\x58\x38"),
    "strict": Carrier([(11, WANTED, b"\x01\x02\x03"), (14, WANTED, bytes(range(20)))]),
    "turned": Carrier([(14, WANTED, b""), (1, DISCARD, b"\xff"), (11, WANTED, b"")]),
    "compat": Carrier([(11, BARE, b""), (14, WANTED | {"codec": 0}, b"")]),
    "pair-and-more": Carrier([(11, WANTED, b""), (14, WANTED, b"")], more=b"\xff\xff"),
    "sixteen": Carrier([(11, WANTED, bytes(range(16))), (14, WANTED, bytes(range(17)))]),
    "large": Carrier([(2**64 - 1, TIMED, bytes(300)), (31, WANTED, b"\x80")], 2**64 - 1, b"\x11" * 16, b"\x22" * 4),
    "both-of-16": Carrier([(1, TIMED, b"\xff" * 7)], 7, bytes(range(16)), bytes(range(16, 32))),
    # Ids that stand more than once, of both forms, next to each other and apart.
    "repeated": Carrier([(i, DISCARD, bytes([k])) for k, i in enumerate((40, 1, 40, 40, 1, 30, 2**64 - 1, 31, 2**64 - 1, 40))]),
    "two-oamd": Carrier([(11, WANTED, b""), (14, WANTED, b""), (11, WANTED, b"")]),
    # A mark of the ruler is 1 bit up to 9 bytes, and then 2.
    "nine-bytes": Carrier([], 0, b"\xa5", b""),
    # Room for the places of the ruler: ten payloads a column or two apart.
    "twelve": Carrier([(1 + k, DISCARD, b"\xee" * k) for k in range(12)]),
}
# 4,686 is the largest key id of four groups.
SMALL |= {"key-%d" % key: Carrier([], key) for key in (1, 6, 7, 15, 16, 4686, 4687, 2**32, 2**63, 2**64 - 1)}
SMALL |= {"id-%d" % ident: Carrier([(ident, DISCARD, b"\xc3")]) for ident in (30, 31, 32, 62, 63, 2**32, 2**64 - 1)}
# Protections: every pair of lengths.
SMALL |= {
    "protection-%d-%d" % (n, m): Carrier([], 0, bytes(range(1, n + 1)), bytes(range(200, 200 + m)))
    for n, m in itertools.product((1, 4, 16), (0, 1, 4, 16))
}
UNREADS = {name: Unread(*of_file) for name, of_file in UNREAD.items()}
LONG = {"size-%d" % size: Carrier([(1, DISCARD, bytes(size))]) for size in (255, 256, 257)} | {
    "longest": Carrier([(1, DISCARD, LONGEST_BODY)]),
    "many": Carrier([(1, DISCARD, b"\xc3")] * 510 + [(14, WANTED, b"\x0e"), (11, BARE, b"\x0b")]),
    "a-in-65539": Carrier([], more=bytes(65539 - 7)),
    "zeros-65539": Unread(bytes(65539), 2, 0),
}

# Where the scope prints the bytes, what was written has to be them.
assert SMALL["a"].data == bytes.fromhex("58380003001294")
assert SMALL["b"].data == bytes.fromhex("58380007004202c3025280")
assert SMALL["b-dropped"].data == bytes.fromhex("58380003001000")
assert SMALL["b-emptied"].data == bytes.fromhex("58380006004200020000")
assert len(LONG["longest"].data) == 65539 and MOST_PAYLOADS == 27592 and MOST_WITH_A_BYTE == 19416


def heavy():
    """As many payloads as a carrier can have, without bodies and with bodies of a byte."""
    return {
        "most": Carrier([(1, DISCARD, b"")] * MOST_PAYLOADS),
        "most-with-a-byte": Carrier([(1, DISCARD, b"\xc3")] * MOST_WITH_A_BYTE),
    }


def random_config(rng):
    most = {"codec": 1, "discard": 1, "aligned": 1, "create": 1, "remove": 1, "priority": 31, "processing": 3}
    return {name: rng.randint(0, value) for name, value in most.items()} | {
        "sample_offset": rng.choice([None, rng.randint(0, 2047)]),
        "duration": rng.choice([None, 0, 2047, 2048, 4196351]),
        "group_id": rng.choice([None, 0, 3, 4, 19, 6148914691236517203]),
    }


def random_carrier(seed):
    rng = random.Random(seed)
    configs = [WANTED, BARE, random_config(rng), random_config(rng)]
    chosen = [11, 14, 1, 30, 31, rng.randrange(1, 2**64)]
    idents = rng.sample(chosen, rng.randrange(7)) if seed % 2 else rng.choices(chosen, k=rng.randrange(9))
    payloads = [(ident, rng.choice(configs), rng.randbytes(rng.choice([0, 1, 2, 16, 17, 300]))) for ident in idents]
    protections = [rng.randbytes(rng.choice(lengths)) for lengths in ((1, 4, 16), (0, 1, 4, 16))]
    return Carrier(payloads, rng.choice([0, 7, rng.randrange(2**64)]), *protections, rng.choice([b"", b"", b"\0", b"\xff" * 9]))


RANDOM = {"random-%d" % seed: random_carrier(seed) for seed in range(150)}

# ---- pairs for the verdict: each deviation by itself, pairs of them, and which payloads there are

CHANGES = [
    ("sample-offset", {"sample_offset": 5}),
    ("sample-offset-0", {"sample_offset": 0}),
    ("duration", {"duration": 0}),
    ("duration-longest", {"duration": 4196351}),
    ("group-id-absent", {"group_id": None}),
    ("group-id-7", {"group_id": 7}),
    ("group-id-largest", {"group_id": 6148914691236517203}),
    ("codec", {"codec": 0}),
    ("discard", {"discard": 1}),
    ("aligned", {"aligned": 0}),
    ("create", {"create": 1}),
    ("remove", {"remove": 1}),
    ("priority", {"priority": 31}),
    ("processing", {"processing": 3}),
]


def of(*payloads, more=b""):
    return Carrier([(ident, config, b"\xc3") for ident, config in payloads], more=more)


def counts():
    for first, second, other in itertools.product(range(3), range(3), range(3)):
        payloads = [(11, WANTED)] * first + [(1, DISCARD)] * other + [(14, WANTED)] * second
        yield "count-%d-%d-%d" % (first, second, other), of(*payloads)
        yield "turned-%d-%d-%d" % (first, second, other), of(*payloads[::-1])


def changes():
    for name, change in CHANGES:
        for order in (1, -1):
            yield "%s-on-11-%d" % (name, order), of(*[(11, WANTED | change), (14, WANTED)][::order])
            yield "%s-on-14-%d" % (name, order), of(*[(11, WANTED), (14, WANTED | change)][::order])
            yield "%s-on-both-%d" % (name, order), of(*[(11, WANTED | change), (14, WANTED | change)][::order])
    for (name, change), (other, more) in itertools.combinations(CHANGES, 2):
        yield "%s-on-11-%s-on-14" % (name, other), of((11, WANTED | change), (14, WANTED | more))
        yield "%s-and-%s-on-11" % (name, other), of((11, WANTED | change | more), (14, WANTED))


def random_changes():
    for seed in range(200):
        rng = random.Random(seed)
        config = lambda: WANTED | {k: v for change in rng.choices(CHANGES, k=rng.randrange(4)) for k, v in change[1].items()}
        payloads = [(11, config()), (14, config())] + [(rng.randrange(1, 9), config())] * rng.randrange(4)
        rng.shuffle(payloads)
        yield "changed-%d" % seed, of(*payloads)


PAIRS = dict(itertools.chain(counts(), changes(), random_changes())) | {
    "largest-id-between": of((14, WANTED), (2**64 - 1, DISCARD), (11, BARE)),
    "five-hundred-others": of(*[(1, DISCARD)] * 500, (11, BARE), (14, WANTED)),
    "pair-and-two-bytes": of((11, BARE), (14, WANTED), more=b"\xff\xff"),
    "all-that-can-deviate": of(
        (11, {"sample_offset": 1, "duration": 1, "codec": 0, "discard": 1}),
        (14, {"sample_offset": 1, "duration": 1, "codec": 0, "discard": 1, "group_id": 1}),
    ),
}
