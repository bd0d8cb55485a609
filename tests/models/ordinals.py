"""Payloads by id and ordinal, by the scope's definition. No code or table of the library is used."""


def ordinals(payloads):
    """For each payload how many from the first up to it have its id; a payload's id is its first part."""
    counts, answers = {}, []
    for ident, *_ in payloads:
        counts[ident] = counts.get(ident, 0) + 1
        answers.append(counts[ident])
    return answers


def find(payloads, ident, ordinal):
    """The place of the ordinal-th payload with the id, from 1; None where there is none."""
    places = [place for place, (own, *_) in enumerate(payloads) if own == ident]
    return places[ordinal - 1] if 1 <= ordinal <= len(places) else None


def worded(ordinal):
    """1st, 2nd, 3rd, 4th, .. 11th, 12th, 13th, .. 21st, .. 111th."""
    ending = "th" if ordinal % 100 in (11, 12, 13) else {1: "st", 2: "nd", 3: "rd"}.get(ordinal % 10, "th")
    return "%d%s" % (ordinal, ending)
