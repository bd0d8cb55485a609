"""The groups of variable fields, by the scope's definition. No code or table of the library is used."""


def groups(width, value):
    """The smallest g with value <= 2^w + 2^2w + .. + 2^gw - 1."""
    count, most = 0, -1
    while value > most:
        count += 1
        most += 2 ** (count * width)
    return count


def fields(key, payloads):
    """The variable fields of a container, each a width and its value; a payload is its id, its settings and its body."""
    if key >= 7:
        yield 3, key - 7
    for ident, config, body in payloads:
        if ident >= 31:
            yield 5, ident - 31
        for name, width in (("duration", 11), ("group_id", 2)):
            if config.get(name) is not None:
                yield width, config[name]
        yield 8, len(body)


def largest(key, payloads):
    """The most groups of a field, 0 where there is none."""
    return max((groups(*field) for field in fields(key, payloads)), default=0)
