"""The files that sessions load: the scope's carriers, and carriers that are written by its rules."""
import random

from answers import Carrier, Unread
from models.profile import BARE, WANTED
from models.refused import UNREAD, A
from models.writer import DISCARD

# Every setting that can stand beside a sample offset; 4,196,351 is the longest duration.
TIMED = {"sample_offset": 2047, "duration": 4196351, "group_id": 19, "codec": 1, "discard": 0, "priority": 31, "processing": 3}

# A body that fills a carrier: 5 bits before the payload, 5 + 5 + 18 of it, and 5 + 4 + 8 after it.
LONGEST_BODY = bytes(i % 251 for i in range((8 * 65535 - 50) // 8))
# 22 bits besides payloads, and 19 for each: id 5, five flags of settings, size 9.
MOST_PAYLOADS = (8 * 65535 - 22) // 19

FILES = {
    # The scope's own, with the answers that it gives.
    "a": Carrier([]),
    "b": Carrier([(1, DISCARD, b"\xc3")]),
    "b-dropped": Carrier([], primary=b"\0"),
    "b-emptied": Carrier([(1, DISCARD, b"")], primary=b"\0"),
    "a-and-a-byte": Carrier([], more=b"\0"),
    # Pairs of OAMD and JOC.
    "strict": Carrier([(11, WANTED, b"\x01\x02\x03"), (14, WANTED, bytes(range(20)))]),
    "turned": Carrier([(14, WANTED, b""), (1, DISCARD, b"\xff"), (11, WANTED, b"")]),
    "compat": Carrier([(11, BARE, b""), (14, WANTED | {"codec": 0}, b"")]),
    "pair-and-more": Carrier([(11, WANTED, b""), (14, WANTED, b"")], more=b"\xff\xff"),
    "joc-alone": Carrier([(14, WANTED, b"")]),
    "two-oamd": Carrier([(11, WANTED, b""), (11, WANTED, b""), (14, WANTED, b"")]),
    # Ids that stand more than once, of both forms, next to each other and apart.
    "repeated": Carrier([(ident, DISCARD, b"") for ident in (40, 1, 40, 40, 1, 30, 2**64 - 1, 31, 2**64 - 1, 40)]),
    "group-ids-differ": Carrier([(11, WANTED, b""), (14, WANTED | {"group_id": 4}, b"")]),
    "one-group-id": Carrier([(11, WANTED, b""), (14, WANTED | {"group_id": None}, b"")]),
    "no-group-id": Carrier([(11, WANTED | {"group_id": None}, b""), (14, WANTED | {"group_id": None}, b"")]),
    # Every setting, large numbers, both protections.
    "large": Carrier([(2**64 - 1, TIMED, bytes(300)), (31, WANTED, b"\x80")], 2**64 - 1, b"\x11" * 16, b"\x22" * 4),
    # 7 + 8 + 64 + 512 + 4,096 - 1 is the largest key id of four groups.
    "four-groups": Carrier([], 4686),
    "five-groups": Carrier([], 4687),
    # Lengths and counts.
    "longest": Carrier([(1, DISCARD, LONGEST_BODY)]),
    "many": Carrier([(1, DISCARD, b"\xc3")] * 510 + [(14, WANTED, b"\x0e"), (11, BARE, b"\x0b")]),
    "most": Carrier([(1, DISCARD, b"")] * MOST_PAYLOADS),
}
# Each refusal that a carrier can meet.
FILES |= {name: Unread(*of_file) for name, of_file in UNREAD.items()}

# Where the scope prints the bytes, what was written has to be them.
assert FILES["a"].data == A
assert FILES["b"].data == bytes.fromhex("58380007004202c3025280")
assert FILES["b-dropped"].data == bytes.fromhex("58380003001000")
assert FILES["b-emptied"].data == bytes.fromhex("58380006004200020000")
# And the pair of the README.
assert FILES["compat"].data == bytes.fromhex("5838000a02c80007104000002528")
assert len(FILES["longest"].data) == 65539 and len(FILES["most"].data) <= 65539 and MOST_PAYLOADS == 27592
assert len(FILES["many"].payloads) == 512

TOO_LONG = FILES["longest"].data + b"\0"


def random_config(rng):
    most = {"codec": 1, "discard": 1, "aligned": 1, "create": 1, "remove": 1, "priority": 31, "processing": 3}
    return {name: rng.randint(0, value) for name, value in most.items()} | {
        "sample_offset": rng.choice([None, rng.randint(0, 2047)]),
        "duration": rng.choice([None, 0, 2047, 2048, 4196351]),
        "group_id": rng.choice([None, 0, 3, 4, 19, 6148914691236517203]),
    }


def random_carrier(seed):
    rng = random.Random(seed)
    configs = [WANTED, BARE, random_config(rng), random_config(rng)]
    chosen = [11, 14, 1, 30, 31, rng.randrange(1, 2**64)]
    idents = rng.sample(chosen, rng.randrange(7)) if seed % 2 else rng.choices(chosen, k=rng.randrange(9))
    payloads = [(ident, rng.choice(configs), rng.randbytes(rng.choice([0, 1, 16, 17, 300]))) for ident in idents]
    protections = [rng.randbytes(rng.choice(lengths)) for lengths in ((1, 4, 16), (0, 1, 4, 16))]
    return Carrier(payloads, rng.choice([0, 7, rng.randrange(2**64)]), *protections, rng.choice([b"", b"", b"\0", b"\xff" * 9]))
