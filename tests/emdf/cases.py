"""Runs emdf, by the command that is named, over every case, and compares what it prints and leaves with the scope's models,
with its man page, and with answers that are typed by hand. `whole` runs all, `thinned` leaves out most of what differs in
numbers alone and the heaviest files, `few` runs small cases of every kind."""
import sys

import carriers
import editing
import errors
import ordinals
import recipes
import said
import usage
from harness import try_case

# Kinds of which each case has its own reason.
KINDS = (
    editing.by_hand,
    editing.places,
    editing.partly,
    editing.spellings,
    editing.lengths,
    said.by_hand,
    ordinals.by_hand,
    ordinals.spellings,
    recipes.by_hand,
    recipes.wrong,
    recipes.allowed,
    recipes.lengths,
    recipes.spellings,
    recipes.of_files,
)


def small_bodies():
    return editing.bodies({name: file for name, file in carriers.SMALL.items() if file.payloads})


def random_bodies():
    return editing.bodies({name: file for name, file in list(carriers.RANDOM.items())[:60]}, False)


def unreads_alone():
    return said.alone(carriers.UNREADS)


# Kinds in which the cases differ in numbers alone, of which a thinned run takes one in so many.
ONE_IN = 20
MANY = (
    editing.readings,
    editing.limits,
    editing.presences,
    editing.protections,
    editing.random_edits,
    editing.random_changes,
    editing.random_chains,
    ordinals.bodies,
    ordinals.edits,
    ordinals.refusals,
    ordinals.random_chains,
    recipes.unread,
    recipes.makes,
    recipes.shows,
    recipes.applies,
    usage.cases,
    small_bodies,
    random_bodies,
    unreads_alone,
)
# Of which a run of few takes one, as of each of the others above.
FEW = (
    editing.readings,
    editing.random_changes,
    editing.random_chains,
    ordinals.random_chains,
    recipes.makes,
    recipes.shows,
    recipes.applies,
    usage.of_settings,
    random_bodies,
)
ROUNDS = {"whole": 60, "thinned": 3, "few": 1}


def single_cases(size):
    if size == "few":
        for kind in KINDS + FEW:
            yield list(kind())[-1]
        return
    for kind in KINDS:
        yield from kind()
    for kind in MANY:
        yield from list(kind())[:: 1 if size == "whole" else ONE_IN]
    if size == "whole":
        yield from recipes.longest()


def asked(size):
    """The files for emdf info, and those for emdf verdict."""
    small = carriers.SMALL | carriers.UNREADS
    if size == "few":
        return small, small
    many = small | carriers.LONG | carriers.RANDOM
    if size == "thinned":
        return many, many | dict(list(carriers.PAIRS.items())[::ONE_IN])
    return many | carriers.heavy(), many | carriers.PAIRS


def results(command, size):
    for one in single_cases(size):
        yield (one.name,) + try_case(command, one)
    yield from recipes.rounds(command, ROUNDS[size])
    for_info, for_verdict = asked(size)
    yield from said.info(command, for_info, size == "few")
    yield from said.verdicts(command, for_verdict, size == "few")
    yield from errors.results(command, size)


def main(title, size, command):
    passed = failed = 0
    for name, got, wanted in results(command, size):
        if got == wanted:
            passed += 1
        else:
            failed += 1
            print("emdf, %s: %s: %.1500r, not %.1500r" % (title, name, got, wanted))
    print("emdf, %s: %d passed, %d failed" % (title, passed, failed))
    return 1 if failed or not passed else 0


if __name__ == "__main__":
    sys.exit(main(sys.argv[1], sys.argv[2], sys.argv[3:]))
