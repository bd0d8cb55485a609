"""Input and output that fail, and files that aren't plain: exit status, message, and what is left."""
import json
import os
import pathlib
import pty
import resource
import signal
import stat
import subprocess
import tempfile
import time
import unicodedata

from carriers import LONG, SMALL
from editing import A, B, CLEARED_A, OF_B, step
from harness import case, fill, run, standing, try_case

NOBODY = 65534
TOO_LONG = ": longer than 65539 bytes, which no carrier is\n"
# Each command that reads a carrier, and each that writes a file: what it writes when its FILE is B.
READERS = (
    ["info", "FILE"],
    ["verdict", "FILE"],
    ["body", "FILE", "0"],
    ["edit", "FILE", "-o", "out", "drop", "0"],
    ["recipe", "apply", "FILE", "recipe", "-o", "out"],
)
SHOW = ["recipe", "show", "FILE"]
RECIPE = bytes.fromhex("0001000100000200000000000000000000000000")  # drop(0)
WRITERS = (
    ("blank", ["blank", "primary=a5"], A),
    ("body", ["body", "in", "0"], b"\xc3"),
    ("edit", ["edit", "in", "drop", "0"], CLEARED_A),
    ("make", ["recipe", "make", "drop", "0"], RECIPE),
)


def reading(words, name):
    """The command with this FILE."""
    return [name if word == "FILE" else word for word in words]


def text(lines):
    return "".join(line + "\n" for line in lines).encode()


# ---- another user than root, whom modes don't stop


def other_user():
    """Options that run a program as a user whom modes stop; None where there is none."""
    if os.getuid():
        return {}
    options = {"user": NOBODY, "group": NOBODY, "extra_groups": []}
    try:
        subprocess.run(["true"], check=True, **options)
    except (OSError, subprocess.SubprocessError):
        return None
    return options


def in_folder(files, mode=0o755):
    """A folder that every user may enter; its files are the other user's."""
    folder = tempfile.TemporaryDirectory()
    fill(folder.name, files)
    if not os.getuid():
        for path in [folder.name] + [os.path.join(folder.name, os.fsdecode(name)) for name in files]:
            os.chown(path, NOBODY, NOBODY)
    os.chmod(folder.name, mode)
    return folder


# ---- input


def of_input():
    for words in READERS:
        title = words[0]
        said = b"emdf: missing: No such file or directory\n"
        yield case(title + ": missing", reading(words, "missing"), err=said, status=2)
        yield case(title + ": a folder", reading(words, "/"), err=b"emdf: /: Is a directory\n", status=2)
        yield case(title + ": no name", reading(words, ""), err=b"emdf: : No such file or directory\n", status=2)
        for size in (65540, 1000000):
            data = B + bytes(size - len(B))
            wanted = {"err": ("emdf: long" + TOO_LONG).encode(), "status": 2}
            yield case("%s: %d bytes" % (title, size), reading(words, "long"), {"long": data}, **wanted)
            wanted["err"] = ("emdf: standard input" + TOO_LONG).encode()
            yield case("%s: %d bytes through a pipe" % (title, size), reading(words, "-"), stdin=data, **wanted)
    said = b"emdf: missing: No such file or directory\n"
    for body in ("body 0 @missing", "insert 0 id=1 body=@missing"):
        yield case(body, ["edit", "in", "-o", "out"] + body.split(), {"in": B}, err=said, status=2)
    words = ["edit", "in", "-o", "out", "body", "0", "@/"]
    yield case("body from a folder", words, {"in": B}, err=b"emdf: /: Is a directory\n", status=2)


def of_standard_input():
    twice = b"emdf: standard input: was read already\n"
    lines = text(SMALL["b"].info_lines("standard input"))
    yield case("- twice", ["info", "-", "-"], stdin=B, out=lines, err=twice, status=2)
    lines = text(SMALL["b"].verdict_lines("standard input", "strict"))
    yield case("- twice, verdict", ["verdict", "-", "-"], stdin=B, out=lines, err=twice, status=2)
    words = ["edit", "-", "-o", "out", "body", "0", "@-"]
    yield case("- for FILE and for a body", words, stdin=B, err=twice, status=2)
    words = ["edit", "in", "-o", "out", "body", "0", "@-", "insert", "0", "id=1", "body=@-"]
    yield case("- for two bodies", words, {"in": B}, b"\1", err=twice, status=2)


def of_several():
    """The files that can be read are shown; the exit status is the largest."""
    files = {"a": A, "b": B, "zero": bytes(4)}
    shown = [SMALL[name].info_lines(name) for name in "ab"]
    said = b"emdf: missing: No such file or directory\n"
    yield case("one is missing", ["info", "a", "missing", "b"], files, out=text(shown[0] + shown[1]), err=said, status=2)
    none = ["zero: no carrier: it starts with 0000 and not with the sync word 5838"]
    yield case("one is no carrier", ["info", "a", "zero", "b"], files, out=text(shown[0] + none + shown[1]), status=1)
    pair = SMALL["strict"]
    lines = SMALL["a"].verdict_lines("a", "strict") + pair.verdict_lines("pair", "strict")
    yield case("one is refused", ["verdict", "a", "pair"], files | {"pair": pair.data}, out=text(lines), status=1)
    words = ["verdict", "missing", "a", "pair"]
    yield case("and one is missing", words, files | {"pair": pair.data}, out=text(lines), err=said, status=2)


def in_order(command):
    """Both outputs to one place: the message stands between the files."""
    with in_folder({"a": A, "b": B}) as folder:
        got = run(command, ["info", "a", "missing", "b"], folder, stderr=subprocess.STDOUT)
    missing = ["emdf: missing: No such file or directory"]
    wanted = text(SMALL["a"].info_lines("a") + missing + SMALL["b"].info_lines("b"))
    yield "messages in their order", got, (wanted, b"", 2)


def slowly(command):
    """Standard input comes in parts."""
    options = {"stdin": subprocess.PIPE, "stdout": subprocess.PIPE, "stderr": subprocess.PIPE}
    for name, file, cuts in (("b", SMALL["b"], (1, 5)), ("longest", LONG["longest"], (2, 4096, 65538))):
        with subprocess.Popen(command + ["info", "-"], **options) as child:
            for start, end in zip((0,) + cuts, cuts + (len(file.data),)):
                child.stdin.write(file.data[start:end])
                child.stdin.flush()
                time.sleep(0.05)
            got = child.communicate(timeout=60) + (child.returncode,)
        yield "in parts: " + name, got, (text(file.info_lines("standard input")), b"", 0)


def at_terminal(command):
    ours, theirs = pty.openpty()
    os.write(ours, b"\x04" * (len(READERS) + 1))  # an end of input for each that would read it
    said = b"emdf: standard input: is a terminal; name a file, or use a pipe\n"
    with in_folder({"in": B}) as folder:
        for words in READERS + (SHOW,):
            got = run(command, reading(words, "-"), folder, stdin=theirs)
            yield " ".join(words) + ": standard input a terminal", got, (b"", said, 2)
    os.close(theirs)
    os.close(ours)


def to_terminal(command):
    ours, theirs = pty.openpty()
    os.set_blocking(ours, False)
    said = b"emdf: standard output: is a terminal; use -o OUT, or a pipe\n"
    with in_folder({"in": B}) as folder:
        for name, words, _ in WRITERS:
            words = words + ["-o", "-"]
            got = run(command, words, folder, stdout=theirs)
            yield name + ": standard output a terminal", got + (waiting(ours),), (b"", said, 2, b"")
        got = run(command, ["blank", "-o", "out", "primary=a5"], folder, stdin=theirs, stdout=theirs)
        yield "a terminal that isn't asked", got + (standing(folder),), (b"", b"", 0, {"in": B, "out": A})
        got = run(command, ["verdict", "in"], folder, stdout=theirs)
        wanted = text(SMALL["b"].verdict_lines("in", "strict")).replace(b"\n", b"\r\n")
        yield "text to a terminal", got + (waiting(ours),), (b"", b"", 1, wanted)
    os.close(theirs)
    os.close(ours)


def waiting(terminal):
    try:
        return os.read(terminal, 4096)
    except BlockingIOError:
        return b""


def closed(command):
    with in_folder({"in": B}) as folder:
        got = run(command, ["info", "-"], folder, preexec_fn=lambda: os.close(0))
        yield "standard input closed", got, (b"", b"emdf: standard input: Bad file descriptor\n", 2)
        for words in (["info", "in"], ["body", "in", "0"], ["blank"], ["--help"]):
            got = run(command, words, folder, preexec_fn=lambda: os.close(1))
            yield words[0] + ": standard output closed", got, (b"", b"emdf: standard output: Bad file descriptor\n", 2)
        got = run(command, ["edit", "in", "-o", "out", "drop", "0"], folder, preexec_fn=lambda: os.closerange(0, 3))
        yield "all three closed", got + (standing(folder),), (b"", b"", 0, {"in": B, "out": CLEARED_A})


# ---- standard output


def on_full_device(command):
    said = b"emdf: standard output: No space left on device\n"
    runs = [words + ["-o", "-"] for _, words, _ in WRITERS] + [["info", "in"], ["info", "--json", "in"], ["verdict", "in"]]
    runs += [["recipe", "show", "recipe"], ["recipe", "apply", "in", "recipe", "-o", "-"]]
    with in_folder({"in": B, "recipe": RECIPE}) as folder, open("/dev/full", "wb") as full:
        for words in runs + [["--help"], ["edit", "--help"]]:
            yield " ".join(words[:2]) + ": /dev/full", run(command, words, folder, stdout=full), (b"", said, 2)
        fill(folder, {"many": LONG["many"].data})
        _, err, status = run(command, ["info", "many"], folder, stdout=full)
        yield "a long text: /dev/full", (err[:22], err.count(b"\n"), status), (b"emdf: standard output:", 1, 2)


# ---- OUT


def full_disk():
    """Files may have 3 bytes, and no signal says so."""
    signal.signal(signal.SIGXFSZ, signal.SIG_IGN)
    resource.setrlimit(resource.RLIMIT_FSIZE, (3, 3))


LONG_BODY = bytes(range(100))
OF_LONG = step(OF_B, "body", 0, LONG_BODY)[0].carrier()


def on_full_disk(command):
    runs = (
        ("blank", ["blank"]),
        ("body", ["body", "in", "0"]),
        ("edit", ["edit", "in", "key", "1"]),
        ("make", ["recipe", "make", "key", "1"]),
        ("apply", ["recipe", "apply", "in", "recipe"]),
    )
    said = b"emdf: out: File too large\n"
    of_all = {"in": OF_LONG, "recipe": RECIPE}
    for name, words in runs:
        for files in (of_all | {"out": b"as it was"}, of_all):
            with in_folder(files) as folder:
                got = run(command, words + ["-o", "out"], folder, preexec_fn=full_disk)
                yield "%s: a full disk, %d files" % (name, len(files)), got + (standing(folder),), (b"", said, 2, files)
    with in_folder({"in": OF_LONG}) as folder:
        got = run(command, ["edit", "in", "-o", "in", "key", "1"], folder, preexec_fn=full_disk)
        yield "edit: OUT is FILE, a full disk", got + (standing(folder),), (b"", b"emdf: in: File too large\n", 2, {"in": OF_LONG})
        with open(os.path.join(folder, "out"), "wb") as out:
            got = run(command, ["body", "in", "0"], folder, stdout=out, preexec_fn=full_disk)
        yield "body: standard output on a full disk", got, (b"", b"emdf: standard output: File too large\n", 2)


def no_place(command):
    for name, words, _ in WRITERS:
        for out, reason in (
            ("folder", "Is a directory"),
            ("folder/", "Is a directory"),
            ("missing/out", "No such file or directory"),
            ("missing/", "No such file or directory"),
            ("in/out", "Not a directory"),
            ("x" * 300, "File name too long"),
        ):
            with in_folder({"in": B}) as folder:
                os.mkdir(os.path.join(folder, "folder"))
                got = run(command, words + ["-o", out], folder)
                wanted = (b"", ("emdf: %s: %s\n" % (out, reason)).encode(), 2, {"in": B, "folder": "folder"})
                yield "%s: OUT is %.20s" % (name, out), got + (standing(folder),), wanted


def links(command):
    for name, words, data in WRITERS:
        with in_folder({"in": B, "target": b"as it was"}) as folder:
            os.symlink("target", os.path.join(folder, "out"))
            got = run(command, words + ["-o", "out"], folder)
            left = {"in": B, "target": data, "out": "link to target"}
            yield name + ": OUT is a link", got + (standing(folder),), (b"", b"", 0, left)
        with in_folder({"in": B}) as folder, in_folder({"target": b"as it was"}) as other:
            target = os.path.join(other, "target")
            os.symlink(target, os.path.join(folder, "out"))
            got = run(command, words + ["-o", "out"], folder) + (standing(folder), standing(other))
            left = {"in": B, "out": "link to " + target}
            yield name + ": OUT is a link elsewhere", got, (b"", b"", 0, left, {"target": data})
        for target, reason in (("nowhere", "No such file or directory"), ("out", "Too many levels of symbolic links")):
            with in_folder({"in": B}) as folder:
                os.symlink(target, os.path.join(folder, "out"))
                got = run(command, words + ["-o", "out"], folder)
                said = ("emdf: out: a link that leads to no file: %s\n" % reason).encode()
                wanted = (b"", said, 2, {"in": B, "out": "link to " + target})
                yield "%s: OUT is a link to %s" % (name, target), got + (standing(folder),), wanted


def removed(command):
    """OUT leads to standard output, a file that has no name any more."""
    for name, words, _ in WRITERS:
        with in_folder({"in": B}) as folder, tempfile.TemporaryFile() as gone:
            os.symlink("/proc/self/fd/1", os.path.join(folder, "out"))
            got = run(command, words + ["-o", "out"], folder, stdout=gone) + (sorted(os.listdir(folder)), gone.read())
            got += (os.path.islink(os.path.join(folder, "out")),)
            yield name + ": OUT was removed", got, (b"", b"emdf: out: No such file or directory\n", 2, ["in", "out"], b"", True)


def modes(command):
    for name, words, data in WRITERS:
        for mode in (0o600, 0o640, 0o644, 0o666, 0o755):
            with in_folder({"in": B, "out": b"as it was"}) as folder:
                out = pathlib.Path(folder, "out")
                out.chmod(mode)
                before = out.stat()
                got = run(command, words + ["-o", "out"], folder)
                after = out.stat()
                got += (out.read_bytes(), stat.S_IMODE(after.st_mode), after.st_uid, after.st_gid)
                yield "%s: mode %o" % (name, mode), got, (b"", b"", 0, data, mode, before.st_uid, before.st_gid)
        with in_folder({"in": B}) as folder:
            got = run(command, words + ["-o", "out"], folder, umask=0o027)
            mode = stat.S_IMODE(os.stat(os.path.join(folder, "out")).st_mode)
            yield name + ": a new file's mode", got + (mode,), (b"", b"", 0, 0o640)


def pipes(command):
    for name, words, data in WRITERS:
        with in_folder({"in": B}) as folder:
            out = os.path.join(folder, "out")
            os.mkfifo(out)
            reader = os.open(out, os.O_RDONLY | os.O_NONBLOCK)
            got = run(command, words + ["-o", "out"], folder)
            got += (os.read(reader, 4096), standing(folder))
            os.close(reader)
            yield name + ": OUT is a pipe", got, (b"", b"", 0, data, {"in": B, "out": "device"})


# ---- what modes forbid, and devices; never as root, who might replace a device


def as_other_user(command, other):
    for words in READERS + (SHOW,):
        with in_folder({"in": B}) as folder:
            os.chmod(os.path.join(folder, "in"), 0)
            got = run(command, reading(words, "in"), folder, **other)
            yield " ".join(words) + ": unreadable", got, (b"", b"emdf: in: Permission denied\n", 2)
    for name, words, data in WRITERS:
        with in_folder({"in": B}, 0o555) as folder:
            got = run(command, words + ["-o", "out"], folder, **other) + (standing(folder),)
            yield name + ": a folder without write permission", got, (b"", b"emdf: out: Permission denied\n", 2, {"in": B})
        with in_folder({"in": B, "out": b"as it was"}, 0o555) as folder:
            got = run(command, words + ["-o", "out"], folder, **other) + (standing(folder),)
            wanted = (b"", b"emdf: out: Permission denied\n", 2, {"in": B, "out": b"as it was"})
            yield name + ": and OUT there", got, wanted
        with in_folder({"in": B, "out": b"as it was"}) as folder:
            os.chmod(os.path.join(folder, "out"), 0o444)
            got = run(command, words + ["-o", "out"], folder, **other) + (standing(folder),)
            wanted = (b"", b"emdf: out: Permission denied\n", 2, {"in": B, "out": b"as it was"})
            yield name + ": a read-only file", got, wanted
        yield from on_devices(command, other, name, words)


def on_devices(command, other, name, words):
    with in_folder({"in": B}) as folder:
        before = os.stat("/dev/null")
        got = run(command, words + ["-o", "/dev/null"], folder, **other)
        after = os.stat("/dev/null")
        got += (after.st_rdev, stat.S_ISCHR(after.st_mode), after.st_ino)
        yield name + ": /dev/null", got, (b"", b"", 0, before.st_rdev, True, before.st_ino)
        got = run(command, words + ["-o", "/dev/full"], folder, **other)
        yield name + ": /dev/full", got, (b"", b"emdf: /dev/full: No space left on device\n", 2)


# ---- names: as a text has them, and as JSON has them

NAMES = {
    b"a\nb\x1b[31m\x7f": (b"a?b?[31m?", "a\nb\x1b[31m\x7f"),
    b"\x01\x1f\t\r": (b"????", "\x01\x1f\t\r"),
    'é漢😀 "q" \\'.encode(): ('é漢😀 "q" \\'.encode(), 'é漢😀 "q" \\'),
    b"c1\xc2\x9b\xc2\x80\xc2\xa0": (b"c1??\xc2\xa0", "c1\x9b\x80\xa0"),
    b"\xff\xfe.emdf": (b"\xff\xfe.emdf", "\ufffd\ufffd.emdf"),
    b"over\xc0\xaflong": (b"over\xc0\xaflong", "over\ufffd\ufffdlong"),
    b"half\xed\xa0\x80": (b"half\xed\xa0\x80", "half\ufffd\ufffd\ufffd"),
    b"above\xf4\x90\x80\x80": (b"above\xf4\x90\x80\x80", "above\ufffd\ufffd\ufffd\ufffd"),
    b"cut\xe2\x82": (b"cut\xe2\x82", "cut\ufffd\ufffd"),
    b"last\xf4\x8f\xbf\xbf\xed\x9f\xbf\xee\x80\x80": (b"last\xf4\x8f\xbf\xbf\xed\x9f\xbf\xee\x80\x80", "last\U0010ffff\ud7ff\ue000"),
    b"%s%n": (b"%s%n", "%s%n"),
}


def names(command):
    with in_folder({}) as folder:
        for name, (shown, in_json) in NAMES.items():
            fill(folder, {name: A})
            word = os.fsdecode(name)
            line = b": refused by strict, 14: not one OAMD and one JOC payload (oamd 0, joc 0)\n"
            yield "name %r" % name, run(command, ["verdict", word], folder), (shown + line, b"", 1)
            first = run(command, ["info", word], folder)[0].splitlines()[0]
            yield "name %r, info" % name, first, shown + b": parsed: one carrier of 7 bytes"
            for asked in ("info", "verdict"):
                out = run(command, [asked, "--json", word], folder)[0].decode(errors="surrogateescape")
                controls = [c for c in out if unicodedata.category(c) == "Cc"]
                yield "name %r, %s in JSON" % (name, asked), (json.loads(out)["file"], controls), (in_json, ["\n"])
            got = run(command, ["body", word, "0"], folder)
            said = b"emdf: " + shown + b": refused, 16: no such place\n"
            yield "name %r, refused" % name, got, (b"", said, 1)
            os.remove(os.path.join(os.fsencode(folder), name))
            got = run(command, ["info", word], folder)
            yield "name %r, missing" % name, got, (b"", b"emdf: " + shown + b": No such file or directory\n", 2)
        fill(folder, {"in": B, b"b\x1b\x7f": b""})
        got = run(command, ["edit", "in", "-o", "out", "body", "7", "@b\x1b\x7f"], folder)
        yield "a body's name", got, (b"", b"emdf: edit 1, body 7 @b??: refused, 16: no such place\n", 1)


# ---- the help


def helps(command):
    """Every command, every edit and every setting stand in it."""
    for word in ("--help", "help"):
        out, err, status = run(command, [word], "/")
        missing = [name for name in HELPED if name not in out.decode()]
        yield "emdf " + word, (missing, err, status), ([], b"", 0)


HELPED = """emdf info|emdf verdict|emdf body|emdf blank|emdf edit|emdf recipe make -o RECIPE EDIT..|emdf recipe show RECIPE|
emdf recipe apply FILE RECIPE -o OUT|ID#ORDINAL|body PLACE HEX|set PLACE NAME=VALUE|drop PLACE|insert PLACE id=ID|key ID|protection HEX HEX|
sample_offset|duration|group_id|codec_data_present|discard_unknown_payload|payload_frame_aligned|create_duplicate|
remove_duplicate|priority|processing_allowed|from=bare|from=profile""".replace("\n", "").split("|")


def some_of_each(command):
    """A case each of files that are read and written, and a name of every kind of character."""
    for one in list(of_several())[:1] + list(of_standard_input())[2:]:
        yield (one.name,) + try_case(command, one)
    with in_folder({"in": B, "target": b"as it was"}) as folder:
        os.symlink("target", os.path.join(folder, "out"))
        got = run(command, ["edit", "in", "-o", "out", "drop", "0"], folder) + (standing(folder),)
        yield "edit: OUT is a link", got, (b"", b"", 0, {"in": B, "target": CLEARED_A, "out": "link to target"})
    with in_folder(dict.fromkeys(NAMES, A)) as folder:
        out, err, status = run(command, ["info", "--json"] + [os.fsdecode(name) for name in NAMES], folder)
        wanted = [in_json for _, in_json in NAMES.values()]
        came = [json.loads(line)["file"] for line in out.decode(errors="surrogateescape").splitlines()]
        yield "names in JSON", (came, err, status), (wanted, b"", 0)


GROUPS = (in_order, slowly, at_terminal, to_terminal, closed, on_full_device, on_full_disk) + (
    no_place, links, removed, modes, pipes, names, helps)


def results(command, size):
    if size == "few":
        yield from some_of_each(command)
        return
    for one in list(of_input()) + list(of_several()) + list(of_standard_input()):
        yield (one.name,) + try_case(command, one)
    for group in GROUPS:
        yield from group(command)
    other = other_user()
    if other is None:
        print("emdf: no user whom modes stop: skipped")
    else:
        yield from as_other_user(command, other)
