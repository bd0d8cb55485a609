"""The ruler of emdf info by its man page, bit by bit. No code of the program is used."""
from collections import Counter

MOST = 72
LEGEND = (
    "h sync word and length, k version and key id, i id, s settings, z size, b body, e end mark, c protection codes, "
    "p protection, x padding"
)


def ruler(parts, starts):
    """The lines for parts, each a mark with its first bit and its end, and for payloads that start at these bits."""
    part_of_bit = [n for n, (_, start, end) in enumerate(parts) for _ in range(start, end)]
    bits = -(-len(part_of_bit) // MOST)
    marks = ""
    for first in range(0, len(part_of_bit), bits):
        # Of equally many, Counter names what came first.
        ((part, _),) = Counter(part_of_bit[first : first + bits]).most_common(1)
        marks += parts[part][0]
    assert len(marks) <= MOST
    lines = ["  ruler, %d bit%s a mark: %s" % (bits, "" if bits == 1 else "s", LEGEND), "    " + marks]
    return lines + (["    " + places(starts, bits)] if starts else [])


def places(starts, bits):
    """Each place under its first mark, where a blank fits between it and the place before."""
    line = ""
    for place, start in enumerate(starts):
        column = start // bits
        if not line or column > len(line):
            line = line.ljust(column) + str(place)
    return line
