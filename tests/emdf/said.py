"""emdf info and emdf verdict on many files in one run, each file's lines compared with forms.py; and answers worked out by
hand from the scope."""
import json
import re
import tempfile
from itertools import zip_longest

from forms import Carrier
from harness import case, fill, run
from models.profile import BARE, WANTED
from models.refused import A

PROFILES = ("strict", "compat")


def pairs_once(pairs):
    names = [name for name, _ in pairs]
    assert len(set(names)) == len(names), "a name stands twice: %r" % names
    return dict(pairs)


def parsed(line):
    try:
        return json.loads(line, object_pairs_hook=pairs_once)
    except (ValueError, AssertionError) as error:
        return "%s: %.200s" % (error, line)


def blocks(text):
    """A file's lines: the first starts with its name, the rest with blanks."""
    return [block.splitlines() for block in re.split(r"^(?=\S)", text, flags=re.M) if block]


def ask(command, words, folder, files, is_json):
    """What came for each file, in their order, then standard error and exit status."""
    out, err, status = run(command, words + ["--json"] * is_json + list(files), folder)
    text = out.decode(errors="surrogateescape")
    return ([parsed(line) for line in text.splitlines()] if is_json else blocks(text)), err, status


def compare(command, folder, words, files, status, lines, objects):
    """Text and JSON: yields name, what came, what was to come. lines and objects say it of a file and its name."""
    for is_json, wanted in ((False, lines), (True, objects)):
        came, err, came_status = ask(command, words, folder, files, is_json)
        title = " ".join(words) + (", JSON" if is_json else "")
        for name, of_file in zip_longest(files, came):
            yield "%s: %s" % (title, name), of_file, wanted(files[name], name) if name in files else None
        yield "%s: %d files" % (title, len(files)), (err, came_status), (b"", status)


def folder_of(files):
    folder = tempfile.TemporaryDirectory()
    fill(folder.name, {name: file.data for name, file in files.items()})
    return folder


def grouped(files, status_of, is_one_run):
    """Files of one exit status, or all of them: then the largest is to come."""
    groups = [{name: file for name, file in files.items() if status_of(file) == status} for status in (0, 1)]
    return [(1, files)] if is_one_run else list(enumerate(groups))


def info(command, files, is_one_run):
    with folder_of(files) as folder:
        for status, group in grouped(files, lambda file: file.info_status, is_one_run):
            lines, objects = (lambda file, name: file.info_lines(name)), (lambda file, name: file.info_json(name))
            yield from compare(command, folder, ["info"], group, status, lines, objects)


def verdicts(command, files, is_one_run):
    with folder_of(files) as folder:
        for profile in PROFILES[is_one_run:]:
            lines = lambda file, name: file.verdict_lines(name, profile)
            objects = lambda file, name: file.verdict_json(name, profile)
            for status, group in grouped(files, lambda file: file.verdict_status(profile), is_one_run):
                yield from compare(command, folder, ["verdict", "--" + profile], group, status, lines, objects)


def alone(files):
    """Each file by itself, for its own exit status; strict where no profile is named."""
    for name, file in files.items():
        text = "".join(line + "\n" for line in file.verdict_lines(name, "strict")).encode()
        given = {name: file.data}
        yield case("verdict alone: " + name, ["verdict", name], given, out=text, status=file.verdict_status("strict"))
        text = "".join(line + "\n" for line in file.info_lines("standard input")).encode()
        yield case("info alone: " + name, ["info", "-"], stdin=file.data, out=text, status=file.info_status)


# ---- worked out by hand from the scope

INFO_OF_A = b"""a: parsed: one carrier of 7 bytes
  container: 7 bytes, key id 0, 0 payloads, primary protection a5, secondary protection none, 2 bits of padding, no variable field
  ruler, 1 bit a mark: h sync word and length, k version and key id, i id, s settings, z size, b body, e end mark, c protection codes, p protection, x padding
    hhhhhhhhhhhhhhhhhhhhhhhhhhhhhhhhkkkkkeeeeeccccppppppppxx
  refused by strict, 14: not one OAMD and one JOC payload (oamd 0, joc 0)
  refused by compat, 14: not one OAMD and one JOC payload (oamd 0, joc 0)
"""
# 88 bits are 44 marks of 2: 16 of the header; bits 36 and 37 are one of each part, so the first one's mark; then bits 37 to
# 41 id, 42 to 46 settings, 47 to 55 size, 56 to 63 body, 64 to 68 end mark, 69 to 72 codes, 73 to 80 protection, 81 to 87.
INFO_OF_B = b"""b: parsed: one carrier of 11 bytes
  container: 11 bytes, key id 0, 1 payload, primary protection a5, secondary protection none, 7 bits of padding, largest variable field 1 group
  ruler, 2 bits a mark: h sync word and length, k version and key id, i id, s settings, z size, b body, e end mark, c protection codes, p protection, x padding
    hhhhhhhhhhhhhhhhkkkiissszzzzbbbbeeeccppppxxx
                      0
  payload 0: id 1 (1st)
    settings: codec_data_present=0 discard_unknown_payload=1
    spans: id 37..42, settings 42..47, size 47..56, body 56..64
    body: 1 byte at byte 7: c3
  refused by strict, 14: not one OAMD and one JOC payload (oamd 0, joc 0)
  refused by compat, 14: not one OAMD and one JOC payload (oamd 0, joc 0)
"""
# A key id of 7 + 4,680: 8 + 64 + 512 + 4,096 - 1 is the most that four groups hold. Bits 32 to 56 are version and key id, 57 to 61
# end mark, 62 to 65 codes, 66 to 73 protection, 74 to 79 padding.
INFO_OF_FIVE = b"""five: parsed: one carrier of 10 bytes
  container: 10 bytes, key id 4687, 0 payloads, primary protection a5, secondary protection none, 6 bits of padding, largest variable field 5 groups, above the 4 of older receivers
  ruler, 2 bits a mark: h sync word and length, k version and key id, i id, s settings, z size, b body, e end mark, c protection codes, p protection, x padding
    hhhhhhhhhhhhhhhhkkkkkkkkkkkkkeeccppppxxx
  refused by strict, 14: not one OAMD and one JOC payload (oamd 0, joc 0)
  refused by compat, 14: not one OAMD and one JOC payload (oamd 0, joc 0)
"""
SEVEN = b"""  oamd_codec_data_present: wanted 1, found 0; passes in compat
  oamd_payload_frame_aligned: wanted 1, found 0; passes in compat
  oamd_create_duplicate: wanted 0, found absent; passes in compat
  oamd_remove_duplicate: wanted 0, found absent; passes in compat
  oamd_priority: wanted 0, found absent; passes in compat
  oamd_processing_allowed: wanted 0, found absent; passes in compat
  joc_codec_data_present: wanted 1, found 0; passes in compat
"""
# An absent group id beside a present one is two deviations; two absent ones are two as well, and no third.
ONE_GROUP_ID = b"""x: refused by compat, 15: the profile is not met (marks 0x101000, deviations 2)
  joc_group_id: wanted present, found absent; refused in compat
  group_ids_differ: wanted equal, found 0 and absent; refused in compat
"""
NO_GROUP_ID = b"""x: refused by compat, 15: the profile is not met (marks 0x001004, deviations 2)
  oamd_group_id: wanted present, found absent; refused in compat
  joc_group_id: wanted present, found absent; refused in compat
"""
JSON_OF_ONE = (
    b'{"file":"x","bytes":17,"trailing_bytes":0,"verdict":{"profile":"strict","accepted":false,"number":15,'
    b'"words":"the profile is not met","figures":{"marks":1052672,"deviations":2},"marks":1052672,"deviations":['
    b'{"mark":"joc_group_id","bit":12,"wanted":"present","found":null,"compat":false},'
    b'{"mark":"group_ids_differ","bit":20,"wanted":"equal","found":[0,null],"compat":false}]}}\n'
)


def pair(oamd, joc):
    return {"x": Carrier([(11, oamd, b""), (14, joc, b"")]).data}


def by_hand():
    without = WANTED | {"group_id": None}
    yield case("by hand: info of A", ["info", "a"], {"a": A}, out=INFO_OF_A)
    yield case("by hand: info of B", ["info", "b"], {"b": bytes.fromhex("58380007004202c3025280")}, out=INFO_OF_B)
    five = {"five": bytes.fromhex("58380006388888012940")}
    yield case("by hand: info of five groups", ["info", "five"], five, out=INFO_OF_FIVE)
    seven = pair(BARE, WANTED | {"codec": 0})
    accepted = b"x: accepted by compat: OAMD at place 0, JOC at place 1 (marks 0x0023e8, deviations 7)\n"
    refused = b"x: refused by strict, 15: the profile is not met (marks 0x0023e8, deviations 7)\n"
    yield case("by hand: seven in compat", ["verdict", "--compat", "x"], seven, out=accepted + SEVEN)
    yield case("by hand: seven in strict", ["verdict", "--strict", "x"], seven, out=refused + SEVEN, status=1)
    plain = {"x": Carrier([(14, WANTED, b""), (11, WANTED, b"")]).data}
    none = b"x: accepted by strict: OAMD at place 1, JOC at place 0 (marks 0x000000, deviations 0)\n"
    yield case("by hand: as wanted", ["verdict", "x"], plain, out=none)
    yield case("by hand: one group id", ["verdict", "--compat", "x"], pair(WANTED, without), out=ONE_GROUP_ID, status=1)
    yield case("by hand: no group id", ["verdict", "--compat", "x"], pair(without, without), out=NO_GROUP_ID, status=1)
    yield case("by hand: JSON", ["verdict", "--json", "x"], pair(WANTED, without), out=JSON_OF_ONE, status=1)
    none = b'{"file":"zero","bytes":4,"class":"non-emdf"}\n'
    yield case("by hand: --json twice, before and after", ["info", "--json", "zero", "--json"], {"zero": bytes(4)}, out=none, status=1)
