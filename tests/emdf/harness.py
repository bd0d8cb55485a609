"""Runs emdf, each time in a folder of its own, and says what it printed and what it left there."""
import os
import pathlib
import subprocess
import tempfile
from collections import namedtuple

# files: what stands in the folder, by name. left: what is to stand there after the run.
Case = namedtuple("Case", "name words files stdin out err status left")


def case(name, words, files=None, stdin=b"", out=b"", err=b"", status=0, left=None):
    files = files or {}
    return Case(name, words, files, stdin, out, err, status, files | (left or {}))


def fill(folder, files):
    for name, data in files.items():
        pathlib.Path(folder, os.fsdecode(name)).write_bytes(data)


def what_is(path):
    if path.is_symlink():
        return "link to " + os.readlink(path)
    if path.is_dir():
        return "folder"
    return path.read_bytes() if path.is_file() else "device"


def standing(folder):
    return {path.name: what_is(path) for path in pathlib.Path(folder).iterdir()}


def run(command, words, folder, data=b"", **options):
    """Standard output, standard error, exit status."""
    if "stdin" not in options:
        options["input"] = data
    outputs = {"stdout": subprocess.PIPE, "stderr": subprocess.PIPE}
    try:
        done = subprocess.run(command + words, timeout=60, cwd=folder, **(outputs | options))
    except subprocess.TimeoutExpired:
        return b"", b"", "still running after 60 seconds"
    return done.stdout or b"", done.stderr or b"", done.returncode


def try_case(command, one):
    """What came, and what was to come."""
    with tempfile.TemporaryDirectory() as folder:
        fill(folder, one.files)
        came = run(command, one.words, folder, one.stdin)
        left = {os.fsdecode(name): data for name, data in one.left.items()}
        return came + (standing(folder),), (one.out, one.err, one.status, left)
