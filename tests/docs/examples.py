"""Runs the examples of README.md and docs/PROGRAMS.md, and compares what they print with what the pages say that they print.

An example is an indented block, words that end with "prints", and an indented block. A block of commands that prints nothing belongs to the
example after it. Programs are built already, so the lines that only build or name them are left out."""
import os
import pathlib
import re
import subprocess
import sys
import tempfile

ROOT = pathlib.Path(__file__).resolve().parent.parent.parent
PAGES = ["README.md", "docs/PROGRAMS.md"]
LEFT_OUT = re.compile(r"make \w+\n|PATH=\$PWD/target/bin:\$PATH\n|    make test .*\n|make .*#.*\n")


def blocks(page):
    """The indented blocks of a page, each with the words before it."""
    text = (ROOT / page).read_text()
    found = re.split(r"((?:^    .*\n)+(?:\n(?:    .*\n)+)*)", text, flags=re.M)
    for words, block in zip(found[::2], found[1::2]):
        yield words.strip(), re.sub("^    ", "", block, flags=re.M)


def examples(page):
    """Commands, and what they print."""
    commands = ""
    for words, block in blocks(page):
        if words.endswith("prints"):
            yield commands, block
            commands = ""
        elif re.match(r"(make|printf|emdf|target/bin|PATH)\b", block):
            commands = "".join(line for line in block.splitlines(True) if not LEFT_OUT.fullmatch(line))


def run(commands, folder):
    bin = ROOT / "target/bin"
    script = commands.replace("target/bin/", "%s/" % bin)
    path = "%s:%s" % (bin, os.environ["PATH"])
    done = subprocess.run(["sh", "-eu"], input=script, capture_output=True, text=True, cwd=folder, env=os.environ | {"PATH": path}, timeout=60)
    return done.stdout + done.stderr


def main():
    passed = failed = 0
    for page in PAGES:
        with tempfile.TemporaryDirectory() as folder:
            for commands, printed in examples(page):
                got = run(commands, folder)
                passed += got == printed
                failed += got != printed
                if got != printed:
                    print("docs: %s: of\n%s\ncame\n%s\nnot\n%s" % (page, commands, got, printed))
    print("docs: %d examples as the pages say, %d not" % (passed, failed))
    return 1 if failed or passed < 7 else 0  # 7: the pages are taken apart as they are meant


sys.exit(main())
