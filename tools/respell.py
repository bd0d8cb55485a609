#!/usr/bin/env python3
"""Respells the repository's own definitions and lemmas: words in snake case, as bitsValue -> bits_value.

usage: python3 tools/respell.py           at the top of the repository, once, after the kit's port.py
       python3 tools/respell.py --list    what would be renamed, and which names would fall together

A name is respelled where a file of specs/ or proofs/ defines it in lower camel case; so are the same words as parts of a
longer name (bitsValue-append). Names of src/ (functions, fields, types, constants), strings and the library's names stay.
"""

import os
import re
import sys

# A respelled name that would be another's: what it is called instead.
APART = {
    "largestGroups": "largest_groups_of",  # largest_groups is a field
    "sampleOffset": "sample_offset_of",  # sample_offset is a field
    "numberFits": "number_fits_in",  # number_fits is a lemma
    "runFits": "run_fits_in",  # run_fits is a lemma
}

# A module that only copied a word of today's library, and the word's own module.
COPIED = ("Rattle.openjoc_bitio.specs.Choice", "Rattle.std.specs.Prelude")

# A maximal run of what antt takes for one name.
NAME = re.compile(r"[^\s(){}\[\],;.«»:\"|`]+")
DEFINED = re.compile(r"^\s*(?:infix\w* \d+ )?(?:abbrev |unfoldable )*(?:pub )?(?:record |data )?([^\W\d][^\s(){}\[\],;.«»:]*)(?:\s+[({].*?)?\s*:(?!:)")
CAMEL = re.compile(r"[a-z0-9][A-Z]")


def folders(root, kinds):
    for top, dirs, files in os.walk(os.path.join(root, "crates")):
        dirs[:] = sorted(d for d in dirs if d not in ("out", "target"))
        for f in sorted(files):
            if f.endswith(kinds):
                yield os.path.join(top, f)


def defined(root):
    found = set()
    for path in folders(root, (".antt",)):
        for line in open(path, encoding="utf-8"):
            m = DEFINED.match(line)
            if m:
                found.add(m.group(1))
    return found


def snake(word):
    return re.sub(r"(?<=[a-z0-9])([A-Z])", lambda m: "_" + m.group(1).lower(), word)


def wanted(names):
    """The camel words that names of the repository are made of."""
    words = set()
    for name in names:
        for part in name.split("-"):
            if part[:1].islower() and CAMEL.search(part):
                words.add(part)
    return {w: APART.get(w, snake(w)) for w in words}


def respelled(text, words):
    def turn(m):
        name = m.group(0)
        return "-".join(words.get(part, part) for part in name.split("-"))

    return NAME.sub(turn, text)


def from_library(text):
    """Its own choice by a test is the library's: one import line for each module."""
    text = text.replace("pub mod Choice\n", "")
    if COPIED[0] not in text:
        return text
    have = re.search(re.escape(COPIED[1]) + r"\.\{([^}]*)\}", text)
    if have:
        text = re.sub(r"(?m)^(ghost )?use " + re.escape(COPIED[0]) + r"\.\{[^}]*\};?\n", "", text)
        return text.replace(have.group(0), have.group(0)[:-1] + ", if◌then◌else◌}", 1)
    return text.replace(COPIED[0], COPIED[1])


def taken(root):
    """Every name in use, to see which respelled ones would fall together with them."""
    used = {}
    for path in folders(root, (".antt", ".rt")):
        for name in NAME.findall(open(path, encoding="utf-8").read()):
            used.setdefault(name, set()).add(path)
    return used


def main():
    names = defined(".")
    words = wanted(names)
    if sys.argv[1:] == ["--list"]:
        used = taken(".")
        for w, s in sorted(words.items()):
            print(w, s, "TAKEN " + " ".join(sorted(used[s])[:6]) if s in used else "")
        return
    copied = os.path.join("crates", "openjoc_bitio", "specs", "Choice.antt")
    if os.path.exists(copied):
        os.remove(copied)
    pages = [os.path.join("docs", f) for f in sorted(os.listdir("docs"))] + ["README.md"]
    # Pages also name what the kit's script respelled.
    for page in pages:
        for name in NAME.findall(open(page, encoding="utf-8").read()):
            if name[:1].islower() and CAMEL.search(name) and name not in words and snake(name) in names:
                words[name] = snake(name)
    for path in list(folders(".", (".antt", ".rt", ".edit"))) + pages:
        text = open(path, encoding="utf-8").read()
        new = from_library(respelled(text, words))
        if new != text:
            with open(path, "w", encoding="utf-8") as f:
                f.write(new)


main()
