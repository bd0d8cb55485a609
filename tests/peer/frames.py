"""E-AC-3 frames, each with a carrier where MediaInfo searches for one: at any bit after the frame's header."""

# The header's fields and their bits: two channels, 48 kHz, six blocks, and flags that are all 0.
SYNC_WORD = (16, 0x0B77)
BEFORE_THE_SIZE = [(2, 0), (3, 0)]
AFTER_THE_SIZE = [(2, 0), (2, 3), (3, 2), (1, 0), (5, 16), (5, 31), (1, 0), (1, 0), (1, 0), (1, 0)]
HEADER_BITS = 64
# Room behind a carrier for what MediaInfo asks of a frame's end, and for a protection that it takes for longer than it is.
SPARE_BITS = 160
MOST_BYTES = 4096

A = bytes.fromhex("58380003001294")


def digits(width, value):
    return format(value, "0%db" % width)


def crc16(data):
    rest = 0
    for octet in data:
        rest ^= octet << 8
        for _ in range(8):
            rest = (rest << 1 ^ (0x8005 if rest & 0x8000 else 0)) & 0xFFFF
    return rest


def frame(carrier, shift):
    """A frame whose bits from HEADER_BITS + shift on are the carrier's."""
    length = (HEADER_BITS + shift + 8 * len(carrier) + SPARE_BITS + 15) // 16 * 2
    fields = [SYNC_WORD] + BEFORE_THE_SIZE + [(11, length // 2 - 1)] + AFTER_THE_SIZE
    bits = "".join(digits(*field) for field in fields)
    bits = bits.ljust(HEADER_BITS + shift, "0") + "".join(digits(8, octet) for octet in carrier)
    data = int(bits.ljust(8 * (length - 2), "0"), 2).to_bytes(length - 2, "big")
    # The sum goes over all that follows the sync word.
    return data + crc16(data[2:]).to_bytes(2, "big")


def fits(carrier):
    return HEADER_BITS // 8 + len(carrier) + SPARE_BITS // 8 + 4 <= MOST_BYTES


def stream(carriers):
    """A file of frames: MediaInfo takes a short file for unknown, so frames with A come first. Answers how many of them."""
    first = [frame(A, 0)] * 64
    return len(first), b"".join(first + [frame(*one) for one in carriers])
