"""The scope's profile: the verdict on payloads, by their ids and settings. No code of the library is used."""
from collections import namedtuple

# The ten settings in their order: name here, name in emdf.h, and what the profile wants.
FIELDS = [
    ("sample_offset", "sample_offset", "absent"),
    ("duration", "duration", "absent"),
    ("group_id", "group_id", "present"),
    ("codec", "codec_data_present", 1),
    ("discard", "discard_unknown_payload", 0),
    ("aligned", "payload_frame_aligned", 1),
    ("create", "create_duplicate", 0),
    ("remove", "remove_duplicate", 0),
    ("priority", "priority", 0),
    ("processing", "processing_allowed", 0),
]
ABSENT = dict.fromkeys(name for name, _, _ in FIELDS)

# As the profile wants it.
WANTED = {"group_id": 0, "codec": 1, "discard": 0, "aligned": 1, "create": 0, "remove": 0, "priority": 0, "processing": 0}
# What producers were seen to leave out on OAMD.
BARE = {"group_id": 0, "codec": 0, "discard": 0, "aligned": 0}

# What compat lets pass besides: on either payload, and on id 11 alone.
EITHER = {("codec", 0)}
ON_OAMD = {("aligned", 0), ("create", None), ("remove", None), ("priority", None), ("processing", None)}

# found is None where the setting is absent, and a pair where the two group ids differ.
Deviation = namedtuple("Deviation", "bit name wanted found passes")
# number is 0 where it is accepted, else the refusal's, with its figures; places are those of ids 11 and 14.
Verdict = namedtuple("Verdict", "number figures places deviations")


def found(config):
    """The ten settings that a reading finds: those that the rule leaves out are absent."""
    s = ABSENT | config
    timed = s["sample_offset"] is not None
    if s["discard"] or timed:
        s["aligned"] = None
    if s["aligned"] != 1:
        s["create"] = s["remove"] = None
    if s["discard"] or not (timed or s["aligned"] == 1):
        s["priority"] = s["processing"] = None
    return s


def is_wanted(value, wanted):
    if wanted == "absent":
        return value is None
    if wanted == "present":
        return value is not None
    return value == wanted


def deviations(oamd, joc):
    marks = []
    for first, role, config, passing in ((0, "oamd", oamd, EITHER | ON_OAMD), (10, "joc", joc, EITHER)):
        for i, (name, title, wanted) in enumerate(FIELDS):
            value = config[name]
            if not is_wanted(value, wanted):
                marks.append(Deviation(first + i, "%s_%s" % (role, title), str(wanted), value, (name, value) in passing))
    if oamd["group_id"] != joc["group_id"]:
        marks.append(Deviation(20, "group_ids_differ", "equal", (oamd["group_id"], joc["group_id"]), False))
    return marks


def marks_word(marks):
    return sum(2**mark.bit for mark in marks)


def verdict(profile, payloads):
    """The verdict on payloads, each an id and its settings."""
    places = {ident: [k for k, (other, _) in enumerate(payloads) if other == ident] for ident in (11, 14)}
    counts = (len(places[11]), len(places[14]))
    if counts != (1, 1):
        return Verdict(14, counts, None, None)
    oamd, joc = places[11][0], places[14][0]
    marks = deviations(found(payloads[oamd][1]), found(payloads[joc][1]))
    if not marks or profile == "compat" and all(mark.passes for mark in marks):
        return Verdict(0, (), (oamd, joc), marks)
    return Verdict(15, (marks_word(marks), len(marks)), None, marks)
