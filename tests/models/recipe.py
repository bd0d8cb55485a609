"""Recipes of edits on file, by the scope. No code or table of the library or of a program is used.

An edit is what models.edits has: ("body", place, octets), ("drop", place) or ("key", id)."""
BODY, DROP, KEY = 1, 2, 3
HEAD, RECORD = 4, 16


def head(first, count):
    return first.to_bytes(2, "big") + count.to_bytes(2, "big")


def record(following, kind, place, offset, length, zero=0):
    """A record's 16 bytes; following is its next index."""
    numbers = ((following, 2), (kind, 1), (zero, 1), (place, 4), (offset, 4), (length, 4))
    return b"".join(value.to_bytes(size, "big") for value, size in numbers)


def file_of(edits):
    """The file that has them in records 1, 2, .. one after another, and then their data in the same order."""
    records, data = bytearray(), bytearray()
    for index, (edit, *given) in enumerate(edits, 1):
        following = index + 1 if index < len(edits) else 0
        offset = HEAD + RECORD * len(edits) + len(data)
        if edit == "drop":
            records += record(following, DROP, given[0], 0, 0)
        elif edit == "body":
            records += record(following, BODY, given[0], offset, len(given[1]))
            data += given[1]
        else:
            records += record(following, KEY, 0, offset, 8)
            data += given[0].to_bytes(8, "big")
    return head(1 if edits else 0, len(edits)) + bytes(records) + bytes(data)


def number(data):
    return int.from_bytes(data, "big")


def edit_of(kind, place, data):
    return {BODY: ("body", place, data), DROP: ("drop", place), KEY: ("key", number(data))}[kind]


def is_listed(file, kind, zero, offset, length):
    """A record's questions of number 23."""
    if kind not in (BODY, DROP, KEY) or zero != 0 or (kind == KEY and length != 8):
        return False
    return kind == DROP or offset + length <= len(file)


def read(file):
    """The refusal's number, or 0; and the edits along the chain where it is 0."""
    if len(file) < HEAD:
        return 22, []
    index, count = number(file[:2]), number(file[2:4])
    if index > count:
        return 22, []
    edits = []
    while index:
        own = file[HEAD + RECORD * (index - 1) : HEAD + RECORD * index]
        following = number(own[:2])
        if len(own) < RECORD or following and not index < following <= count:
            return 22, []
        kind, zero, place, offset, length = own[2], own[3], number(own[4:8]), number(own[8:12]), number(own[12:16])
        if not is_listed(file, kind, zero, offset, length):
            return 23, []
        edits.append(edit_of(kind, place, file[offset : offset + length]))
        index = following
    return 0, edits
