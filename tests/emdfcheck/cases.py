"""Runs the program that is named on every case, and compares what it prints with what the scope says."""
import os
import random
import subprocess
import sys
import time

from models.writer import DISCARD, Writer, carrier

MOST = 65536
CASES = []


def case(name, data, *lines):
    CASES.append((name, data, lines))


def opened(key=0):
    w = Writer()
    w.start(key)
    return w


def ended(w):
    w.end(b"\xa5", b"")
    return w.carrier()


def payload_start():
    """A carrier up to its first payload's settings."""
    w = opened()
    w.number(5, 1)
    return w


def random_config(rng):
    """Settings that are writable, once the rule has left some out."""
    most = {"codec": 1, "discard": 1, "aligned": 1, "create": 1, "remove": 1, "priority": 31, "processing": 3}
    return {name: rng.randint(0, value) for name, value in most.items()} | {
        "sample_offset": rng.choice([None, rng.randint(0, 2047)]),
        "duration": rng.choice([None, 0, 2047, 2048, 4196351]),
        "group_id": rng.choice([None, 0, 3, 4, 19, 6148914691236517203]),
    }


def random_bytes(rng, lengths):
    return rng.randbytes(rng.choice(lengths))


def random_payload(rng):
    ident = rng.choice([1, 11, 14, 30, 31, rng.randrange(1, 2**64)])
    return ident, random_config(rng), random_bytes(rng, range(300))


def random_carrier(rng):
    key = rng.choice([0, 7, rng.randrange(2**64)])
    payloads = [random_payload(rng) for _ in range(rng.randrange(6))]
    return carrier(key, payloads, random_bytes(rng, [1, 4, 16]), random_bytes(rng, [0, 1, 4, 16]))


# ---- the scope's carriers

A = bytes.fromhex("58380003001294")
B = bytes.fromhex("58380007004202c3025280")
case("A", A, "parsed 7 0 0")
case("B", B, "parsed 11 0 1", "1 37 42 47 56 64")
case("B with an empty body", bytes.fromhex("58380006004200025280"), "parsed 10 0 1", "1 37 42 47 56 56")
case("A, declared a byte longer", bytes.fromhex("5838000400129400"), "malformed 11")
case("the sync word alone", bytes.fromhex("5838"), "malformed 21")
case("one byte", bytes.fromhex("58"), "nonemdf")
case("A and a byte", A + b"\0", "trailing 7 8")
case("nothing", b"", "nonemdf")

# ---- every refusal that a reading has

case("21: three bytes", A[:3], "malformed 21")
case("21 is no carrier without a sync word: 00 00", bytes(2), "nonemdf")
case("1: a byte is missing", A[:-1], "malformed 1")
case("1: two bytes are missing, with the figures of the sync word alone", bytes.fromhex("583800040000"), "malformed 1")
case("1: the header alone", bytes.fromhex("58380003"), "malformed 1")
case("2 is no carrier: 00 00 00 00", bytes(4), "nonemdf")
case("2 is no carrier: 58 39", b"\x58\x39" + A[2:], "nonemdf")
case("3: nothing declared", bytes.fromhex("58380000"), "malformed 3")
case("3: A, declared a byte shorter", bytes.fromhex("58380002001294"), "malformed 3")
w = payload_start()
w.config(DISCARD)
w.groups(8, [0, 0, 0])
case("6: size of three groups", ended(w), "malformed 6")
w = payload_start()
w.number(2, 1)
w.groups(11, [0, 0, 0])
case("6: duration of three groups", ended(w), "malformed 6")
w = Writer()
w.number(2, 0)
w.number(3, 7)
w.groups(3, [0] * 32)
# 2^3 + 2^6 + .. passes 2^64 before group 32, so 7 is asked first.
case("7: key id of 32 groups", ended(w), "malformed 7")
w = payload_start()
w.number(2, 0)
w.number(1, 1)
w.groups(2, [0] * 32)
case("6: group id of 32 groups", ended(w), "malformed 6")
case("7: key id 2^64", ended(opened(2**64)), "malformed 7")
case("7: key id, 2^64 before its base", ended(opened(2**64 + 7)), "malformed 7")
w = opened()
w.extended(5, 2**64)
case("7: payload id 2^64", ended(w), "malformed 7")
w = Writer()
w.extended(2, 1)
w.extended(3, 0)
case("8: version 1", ended(w), "malformed 8")
w = Writer()
w.extended(2, 3)
w.extended(3, 0)
case("8: version 3", ended(w), "malformed 8")
w = payload_start()
w.number(1, 1)
w.number(11, 0)
w.number(1, 1)
case("9: after a sample offset", ended(w), "malformed 9")
w = payload_start()
w.number(3, 0)
w.number(1, 1)
w.number(8, 1)
case("9: codec octet", ended(w), "malformed 9")
w = opened()
w.end(b"", b"")
w.number(8, 0)
case("10: no primary protection", w.carrier(), "malformed 10")
w = opened()
w.end(b"\xa5", b"")
w.number(8, 0)
case("11: eight bits and more", w.carrier(), "malformed 11")
case("11 before 12: ten bits, some set", bytes.fromhex("58380004001294ff"), "malformed 11")
case("12: a padding bit", bytes.fromhex("58380003001295"), "malformed 12")

# ---- lengths

# 2 + 3 + 5 + 5 + 18 + 5 + 4 + 8 bits around the body
body = bytes(i % 251 + 1 for i in range((8 * (MOST - 4) - 50) // 8))
whole, lines = carrier(0, [(1, DISCARD, body)])
assert len(whole) == MOST
case("65,536 bytes", whole, *lines)
case("65,537 bytes", whole + b"\0", "toolong")
case("65,536 bytes of zero", bytes(MOST), "nonemdf")
case("65,537 bytes of zero", bytes(MOST + 1), "toolong")
case("the longest carrier", carrier(0, [(1, DISCARD, body + bytes(3))])[0], "toolong")
case("a million bytes", whole + bytes(1000000), "toolong")
case("A in 65,536 bytes", A + bytes(MOST - len(A)), "trailing 7 65536")

# ---- counts

for count in (511, 512):
    data, lines = carrier(0, [(1, DISCARD, b"")] * count)
    case("%d payloads" % count, data, *lines)
many = carrier(0, [(1, DISCARD, b"")] * 513)[0]
case("513 payloads", many, "table 13 513")
case("513 payloads and a byte", many + b"\0", "trailing %d %d" % (len(many), len(many) + 1))
most = [(1, DISCARD, b"")] * ((8 * (MOST - 4) - 22) // 19)
case("%d payloads" % len(most), carrier(0, most)[0], "table 13 %d" % len(most))
largest = [(2**64 - 1, {"codec": 1, "discard": 1, "sample_offset": 2047}, b"\xff" * 64)] * 512
data, lines = carrier(2**64 - 1, largest, b"\xff" * 16, b"\xff" * 16)
case("512 long lines", data, *lines)

# ---- values

for key in (1, 6, 7, 15, 16, 2**32, 2**63, 2**64 - 1):
    data, lines = carrier(key, [])
    case("key id %d" % key, data, *lines)
for ident in (30, 31, 32, 62, 63, 2**32, 2**64 - 1):
    data, lines = carrier(0, [(ident, DISCARD, b"\xc3")])
    case("payload id %d" % ident, data, *lines)
for size in (255, 256, 257):
    data, lines = carrier(0, [(1, DISCARD, bytes(size))])
    case("size %d" % size, data, *lines)
for seed in range(200):
    rng = random.Random(seed)
    data, lines = random_carrier(rng)
    case("random carrier %d" % seed, data, *lines)
    data += random_bytes(rng, range(1, 20))
    case("random carrier %d and more" % seed, data, "trailing %s %d" % (lines[0].split()[1], len(data)))


def run(program, data, *words):
    done = subprocess.run([program, *words], input=data, capture_output=True, timeout=60)
    return done.stdout, done.stderr, done.returncode


def run_slowly(program, parts):
    """The input comes in parts."""
    with subprocess.Popen([program], stdin=subprocess.PIPE, stdout=subprocess.PIPE, stderr=subprocess.PIPE) as child:
        for part in parts:
            child.stdin.write(part)
            child.stdin.flush()
            time.sleep(0.05)
        out, err = child.communicate(timeout=60)
        return out, err, child.returncode


def run_unreadable(program):
    """A folder opens and cannot be read: no class is printed."""
    folder = os.open("/", os.O_RDONLY)
    try:
        done = subprocess.run([program], stdin=folder, capture_output=True, timeout=60)
    finally:
        os.close(folder)
    return done.stdout, done.stderr[:16], done.returncode


def run_into(program, **output):
    """B, with an output that cannot be written; of standard error the start, since the reason is the system's text."""
    done = subprocess.run([program], input=B, stderr=subprocess.PIPE, timeout=60, **output)
    return done.stderr[:17], done.returncode


def run_unwritable(program):
    """Names of outputs, and what came."""
    with open("/dev/full", "wb") as full:
        yield "an output that is full", run_into(program, stdout=full)
    yield "an output that is closed", run_into(program, preexec_fn=lambda: os.close(1))
    with open("/dev/null", "rb") as unwritable:
        yield "an output that is open for reading", run_into(program, stdout=unwritable)


def results(program):
    """Each case's name, what came, and what was to come: standard output, standard error, exit status."""
    for name, data, lines in CASES:
        yield name, run(program, data), ("".join(line + "\n" for line in lines).encode(), b"", 0)
    of_B = (b"parsed 11 0 1\n1 37 42 47 56 64\n", b"", 0)
    yield "B in three parts", run_slowly(program, [B[:1], B[1:5], B[5:]]), of_B
    yield "an input that cannot be read", run_unreadable(program), (b"", b"standard input: ", 0)
    # What could not be read or written is said in words alone: docs/DECISIONS.md.
    usage = (b"", b"usage: emdfcheck <FILE\n", 0)
    for words in (["b.emdf"], [""], ["-"], ["--help"], ["a", "b"]):
        for data in (B, b""):
            yield "%d bytes and the arguments %s" % (len(data), words), run(program, data, *words), usage
    for name, got in run_unwritable(program):
        yield name, got, (b"standard output: ", 0)


def main(program):
    passed = failed = 0
    for name, got, wanted in results(program):
        if got == wanted:
            passed += 1
        else:
            failed += 1
            print("emdfcheck: %s: %.200r, not %.200r" % (name, got, wanted))
    print("emdfcheck: %d passed, %d failed" % (passed, failed))
    return 1 if failed else 0


sys.exit(main(sys.argv[1]))
