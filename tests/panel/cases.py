"""Runs sessions through the panel and compares the answers. The arguments are a title, how much is run (few: no long carrier;
whole; long: the carrier of 27,592 payloads shown too) and the panel's command. Answers are compared with
- the *.expected file beside each *.session, which is typed by hand for scope and commands, and
- the scope by answers.py, for each session that only loads files and asks of them; the stored files have to agree with it.
With --write it writes the *.expected files that aren't typed by hand from answers.py; never from what a panel says."""
import os
import pathlib
import pty
import subprocess
import sys
import tempfile

from answers import answers, status_of
from carriers import FILES, TOO_LONG, random_carrier

HERE = pathlib.Path(__file__).resolve().parent
# About the panel itself and not about carriers, so the scope has no answers.
BY_HAND_ALONE = {"commands"}
BY_HAND = {"commands", "scope"}
# A line as long as the panel takes it: 4,095 bytes and 32.
LONGEST_LINE = "# " + "x" * 4125


def ask_all(names):
    return "".join("INPUT %s\nSTREAM\nPROFILE strict\nCOMMIT\nPROFILE compat\nCOMMIT\n" % name for name in names)


def stored_sessions():
    for path in sorted(HERE.glob("*.session")):
        yield path.stem, path.read_text(), path.with_suffix(".expected")


# Carriers that are shown whole.
SHOWN = {"few": [], "whole": ["many"], "long": ["many", "most"]}


def sessions(files, size):
    """Name, session, answers. The long ones aren't stored."""
    for name, session, path in stored_sessions():
        if size == "few" and name == "files":
            continue
        yield name, session, path.read_text()
        if name not in BY_HAND_ALONE:
            yield name + ", by the scope", session, answers(session, files)
    for name in SHOWN[size]:
        yield name + ", whole", ask_all([name]), answers(ask_all([name]), files)
    chosen = [name for name in files if name.startswith("random")]
    yield "random carriers", ask_all(chosen), answers(ask_all(chosen), files)
    yield "no command", "", ""
    yield "no newline at the end", "PROFILE compat", "profile compat\n"
    yield "blanks and another case", "  pRoFiLe \t CoMpAt \r\n", "profile compat\n"
    yield "the longest line", LONGEST_LINE + "\n", ""
    error = "error the line is too long or has a zero byte\n"
    yield "a longer line", LONGEST_LINE + "x\nPROFILE compat\n", error + "profile compat\n"
    yield "a line of a million bytes", "PROFILE compat" + " " * 1000000 + "\n", error
    yield "a zero byte", "PROFILE compat\0\nPROFILE strict\n", error + "profile strict\n"


def run(command, session, folder):
    done = subprocess.run(command, input=session.encode(), capture_output=True, timeout=300, cwd=folder)
    return done.stdout.decode(), done.stderr.decode(), done.returncode


def run_at_terminal(command, folder):
    """Two commands typed at a terminal, and its end of input, for a panel that doesn't quit."""
    ours, theirs = pty.openpty()
    try:
        os.write(ours, b"profile compat\nquit\n\x04")
        done = subprocess.run(command, stdin=theirs, capture_output=True, timeout=60, cwd=folder)
    finally:
        os.close(theirs)
        os.close(ours)
    return done.stdout.decode(), done.stderr.decode(), done.returncode


def file_runs(files):
    """Arguments, and what is written on both outputs."""
    for name, profile in (("b", None), ("compat", "compat"), ("compat", "strict"), ("a-and-a-byte", "compat"), ("padding-set", None)):
        session = "PROFILE %s\nINPUT %s\nSTREAM\nCOMMIT\n" % (profile or "strict", name)
        yield [name] + ([profile] if profile else []), answers(session, files), ""
    yield ["missing"], "profile strict\nerror input missing: No such file or directory; nothing is loaded\n", ""
    yield ["b", "lenient"], "error profile: strict or compat\n", ""
    yield ["b", "strict", "more"], "", "usage: panel [FILE [strict|compat]]\n"


def results(command, folder, files, size):
    for name, session, expected in sessions(files, size):
        yield name, run(command, session, folder), (expected, "", status_of(expected))
    for words, expected, error in file_runs(files):
        yield "panel " + " ".join(words), run(command + words, "", folder), (expected, error, 2 if error else status_of(expected))
    yield "prompt at a terminal", run_at_terminal(command, folder), ("panel> profile compat\npanel> ", "", 0)


def first_difference(got, wanted):
    if got[1:] != wanted[1:]:
        return "%.300r, not %.300r" % (got[1:], wanted[1:])
    pairs = enumerate(zip(got[0].splitlines() + [""], wanted[0].splitlines() + [""]), 1)
    return "line %d: %.300r, not %.300r" % next((n, a, b) for n, (a, b) in pairs if a != b or not a)


def check(title, size, command):
    files = FILES | {"random-%d" % seed: random_carrier(seed) for seed in range(60)}
    passed = failed = 0
    with tempfile.TemporaryDirectory() as folder:
        for name, file in files.items():
            pathlib.Path(folder, name).write_bytes(file.data)
        pathlib.Path(folder, "too-long").write_bytes(TOO_LONG)
        for name, got, wanted in results(command, folder, files, size):
            if got == wanted:
                passed += 1
            else:
                failed += 1
                print("panel, %s: %s: %s" % (title, name, first_difference(got, wanted)))
    print("panel, %s: %d passed, %d failed" % (title, passed, failed))
    return 1 if failed else 0


def write():
    for name, session, path in stored_sessions():
        if name not in BY_HAND:
            path.write_text(answers(session, FILES))
    return 0


sys.exit(write() if sys.argv[1:] == ["--write"] else check(sys.argv[1], sys.argv[2], sys.argv[3:]))
