"""What the library says of carriers, by the program emdf: the fields that it finds, in the names and the order of MediaInfo's
tree."""
import json
import pathlib
import subprocess
from collections import namedtuple

# bit: where the field starts in the carrier, for those whose start the library answers; else None.
Said = namedtuple("Said", "name value bit")

# A flag's name in the tree, and the name of the value behind it where there is one.
FLAGGED = {"sample_offset": ("smploffste", "smploffst"), "duration": ("duratione", "duration"), "group_id": ("groupide", "groupid")}
PLAIN = {
    "codec_data_present": "codecdatae",
    "discard_unknown_payload": "discard_unknown_payload",
    "payload_frame_aligned": "payload_frame_aligned",
    "create_duplicate": "create_duplicate",
    "remove_duplicate": "remove_duplicate",
    "priority": "priority",
    "processing_allowed": "proc_allowed",
}
CODES = {0: 0, 1: 1, 4: 2, 16: 3}
# Values of more bits are not shown.
SHOWN_BITS = 32


def infos(emdf, folder, carriers):
    """What emdf info says of each, in their order."""
    said = []
    for first in range(0, len(carriers), 500):
        names = []
        for k, data in enumerate(carriers[first : first + 500]):
            names.append("%d.emdf" % k)
            pathlib.Path(folder, names[-1]).write_bytes(data)
        done = subprocess.run([emdf, "info", "--json"] + names, cwd=folder, capture_output=True, timeout=600)
        if done.stderr or done.returncode not in (0, 1):
            raise RuntimeError("emdf info: status %d, %r" % (done.returncode, done.stderr[:200]))
        said += [json.loads(line) for line in done.stdout.decode().splitlines()]
    assert len(said) == len(carriers)
    return said


def edited(emdf, folder, source, words):
    """The carrier that edits leave; None where one of them is refused."""
    pathlib.Path(folder, "source.emdf").write_bytes(source)
    done = subprocess.run([emdf, "edit", "source.emdf", "-o", "-"] + words, cwd=folder, capture_output=True, timeout=60)
    return done.stdout if done.returncode == 0 else None


def shown(octets):
    return int.from_bytes(octets, "big") if 8 * len(octets) <= SHOWN_BITS else "(Data)"


def extended(name, value, escape, bit):
    yield Said(name, min(value, escape), bit)
    if value >= escape:
        yield Said(name + " addition", value - escape, None)


def settings(given, start):
    starts = iter([start])
    for name, (flag, value) in FLAGGED.items():
        yield Said(flag, int(given[name] is not None), next(starts, None))
        if given[name] is not None:
            yield Said(value, given[name], None)
            if name == "sample_offset":
                # What is accepted has a reserved bit of 0.
                yield Said("reserved", 0, None)
    for name, title in PLAIN.items():
        if given[name] is not None:
            yield Said(title, given[name], None)


def protections(primary, secondary, spans):
    yield Said("protection_length_primary", CODES[len(primary)], spans["codes"][0])
    yield Said("protection_length_secondary", CODES[len(secondary)], None)
    yield Said("protection_bits_primary", shown(primary), spans["protection"][0])
    if secondary:
        # MediaInfo takes the secondary one for as long as the primary one: its bits say something only where that is so.
        yield Said("protection_bits_secondary", shown(secondary) if len(secondary) == len(primary) else None, None)


def fields(info):
    """The fields of a carrier that the library accepts. A value of None is not compared."""
    container, spans = info["container"], info["container"]["spans"]
    yield Said("syncword", 0x5838, 0)
    yield Said("emdf_container_length", container["bytes"] - 4, 16)
    yield Said("emdf_version", 0, spans["key"][0])
    yield from extended("key_id", container["key_id"], 7, None)
    for payload in info["payloads"]:
        at = payload["spans"]
        yield from extended("emdf_payload_id", payload["id"], 31, at["id"][0])
        yield from settings(payload["settings"], at["settings"][0])
        # MediaInfo counts a variable field's start without its more bits.
        yield Said("emdf_payload_size", payload["size"], None)
        first = bytes.fromhex(payload["first"])
        yield Said("(Unknown)", shown(first) if len(first) == payload["size"] else "(Data)", at["body"][0])
    yield Said("emdf_payload_id", 0, spans["end_mark"][0])
    yield from protections(bytes.fromhex(container["primary"]), bytes.fromhex(container["secondary"]), spans)
