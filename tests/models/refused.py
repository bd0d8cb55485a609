"""The scope's refusals: their words, the names of the figures that it has in brackets, and carriers that meet them."""
from models.profile import WANTED
from models.writer import DISCARD, Writer

WORDS = {
    1: ("fewer bytes than the header declares", "declared", "available"),
    2: ("no sync word", "actual"),
    3: ("too few bits for a field", "requested", "remaining"),
    6: ("a variable field has too many groups", "width", "limit"),
    7: ("a field is above 2^64 - 1",),
    8: ("a version other than 0", "version"),
    9: ("reserved bits are not zero",),
    10: ("the primary protection has the reserved length",),
    11: ("more than 7 bits after the protection", "bits"),
    12: ("padding is not zero",),
    14: ("not one OAMD and one JOC payload", "oamd", "joc"),
    15: ("the profile is not met", "marks", "deviations"),
    16: ("no such place",),
    17: ("the contents cannot be written",),
    18: ("more than 65535 bytes to declare",),
    20: ("bytes after the carrier",),
    21: ("fewer bytes than a header has", "needed", "available"),
    22: ("the recipe's chain is broken",),
    23: ("a record of the recipe is not of the form",),
    24: ("no payload with that id and ordinal",),
}

# Figures that are shown as bits.
HEXADECIMAL = {"marks": "0x%06x", "actual": "0x%04x"}

A = bytes.fromhex("58380003001294")


def opened(key=0):
    w = Writer()
    w.start(key)
    return w


def payload_start():
    """A carrier up to its first payload's settings."""
    w = opened()
    w.number(5, 1)
    return w


def ended(w):
    w.end(b"\xa5", b"")
    return w.carrier()


def long_field(bits_before, width, groups):
    """A setting's variable field of too many groups, after so many zero flags and its own."""
    w = payload_start()
    w.number(bits_before + 1, 1)
    w.groups(width, [0] * groups)
    return ended(w)


def long_size():
    w = payload_start()
    w.config(DISCARD)
    w.groups(8, [0, 0, 0])
    return ended(w)


def long_key():
    """A key id of 32 groups: 2^3 + 2^6 + .. passes 2^64 before the last, so 7 is asked first."""
    w = Writer()
    w.number(2, 0)
    w.number(3, 7)
    w.groups(3, [0] * 32)
    return ended(w)


def large_id():
    w = opened()
    w.extended(5, 2**64)
    return ended(w)


def of_version(version):
    w = Writer()
    w.extended(2, version)
    w.extended(3, 0)
    return ended(w)


def reserved_bit():
    """The zero bit after a sample offset is set."""
    w = payload_start()
    w.number(1, 1)
    w.number(11, 0)
    w.number(1, 1)
    return ended(w)


def reserved_octet():
    """One of the eight zero bits after the codec flag is set."""
    w = payload_start()
    w.number(3, 0)
    w.number(1, 1)
    w.number(8, 1)
    return ended(w)


def reserved_length(*payloads):
    """Primary protection's code 0."""
    w = opened()
    for payload in payloads:
        w.payload(*payload)
    w.end(b"", b"")
    w.number(8, 0)
    return w.carrier()


# Bytes, the number that a reading refuses them with, and its figures, in the order of the questions.
UNREAD = {
    "empty": (b"", 21, 4, 0),
    "one-byte": (b"\x58", 21, 4, 1),
    "sync-word-alone": (A[:2], 21, 4, 2),
    # Without a sync word too.
    "two-zeros": (bytes(2), 21, 4, 2),
    "three-bytes": (A[:3], 21, 4, 3),
    "zeros": (bytes(4), 2, 0),
    "other-sync-word": (b"\x58\x39" + A[2:], 2, 0x5839),
    "byte-missing": (A[:-1], 1, 3, 2),
    # The figures are those of the sync word alone.
    "two-bytes-missing": (bytes.fromhex("583800040000"), 1, 4, 2),
    "header-alone": (bytes.fromhex("5838ffff"), 1, 65535, 0),
    "nothing-declared": (bytes.fromhex("58380000"), 3, 2, 0),
    "declared-shorter": (bytes.fromhex("58380002001294"), 3, 8, 2),
    "long-size": (long_size(), 6, 8, 2),
    "long-duration": (long_field(1, 11, 3), 6, 11, 2),
    "long-group-id": (long_field(2, 2, 32), 6, 2, 31),
    "long-key": (long_key(), 7),
    "large-key": (ended(opened(2**64)), 7),
    "large-key-before-its-base": (ended(opened(2**64 + 7)), 7),
    "large-id": (large_id(), 7),
    "version-one": (of_version(1), 8, 1),
    "version-three": (of_version(3), 8, 3),
    "version-five": (of_version(5), 8, 5),
    "reserved-bit": (reserved_bit(), 9),
    "reserved-octet": (reserved_octet(), 9),
    "reserved-length": (reserved_length(), 10),
    # A refusal of reading comes before the profile's.
    "reserved-length-after-a-pair": (reserved_length((11, WANTED, b""), (14, WANTED, b"")), 10),
    "declared-longer": (bytes.fromhex("5838000400129400"), 11, 10),
    # The padding's length is asked before its bits.
    "padding-long-and-set": (bytes.fromhex("58380004001294ff"), 11, 10),
    "padding-set": (bytes.fromhex("58380003001295"), 12),
}
