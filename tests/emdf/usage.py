"""Mistakes in the command: exit status 2, what is wrong, and the command's usage; nothing is written."""
from editing import A, B
from harness import case

USAGES = {
    "info": "usage: emdf info [--json] FILE..",
    "verdict": "usage: emdf verdict [--strict|--compat] [--json] FILE..",
    "body": "usage: emdf body FILE PLACE [-o OUT]",
    "blank": "usage: emdf blank [key=ID] [primary=HEX] [secondary=HEX] [-o OUT]",
    "edit": "usage: emdf edit FILE -o OUT EDIT..",
    "recipe": """usage: emdf recipe make -o RECIPE EDIT..
usage: emdf recipe show RECIPE
usage: emdf recipe apply FILE RECIPE -o OUT""",
}
OF_ALL = "usage: emdf info|verdict|body|blank|edit|recipe ..; emdf --help says more"
NO_NUMBERS = ("", "-", "-1", "+1", " 0", "0 ", "0x0", "1.0", "18446744073709551616", "0" * 90 + "18446744073709551616", "a", "１")
# What is neither a place nor an id and an ordinal.
NO_ORDINALS = ("#", "40#", "#2", "40#2#", "40#2#1", "##2", "40##2", "40#-1", "-40#2", "40# 2", "40 #2", "0x28#2", "40#2nd", "40,2") + (
    "18446744073709551616#1", "1#18446744073709551616")
NO_HEX = ("", "c", "c3c", "0g", "g0", "0/", "0:", "0@", "0`", "--", "c3 c3", "0xc3")
NAMES = """sample_offset duration group_id codec_data_present discard_unknown_payload payload_frame_aligned create_duplicate
remove_duplicate priority processing_allowed""".split()


def mistake(command, words, said):
    text = "emdf: %s: %s\n%s\n" % (command, said, USAGES[command])
    return case("usage: %.60r" % " ".join([command] + words), [command] + words, {"in": B}, err=text.encode(), status=2)


def of_files():
    yield mistake("info", [], "no file is named")
    yield mistake("info", ["--json"], "no file is named")
    yield mistake("info", ["--jason", "in"], "no option --jason")
    yield mistake("info", ["-j", "in"], "no option -j")
    yield mistake("info", ["--json", "--compat", "in"], "no option --compat")
    yield mistake("verdict", [], "no file is named")
    yield mistake("verdict", ["--compat", "--json"], "no file is named")
    yield mistake("verdict", ["--strict", "--compat", "in"], "one of --strict and --compat")
    yield mistake("verdict", ["--compat", "--json", "--strict", "in"], "one of --strict and --compat")
    for option in ("--Strict", "--stric", "--strict ", "--strictly", "--compat\t", "-s", "--"):
        yield mistake("verdict", [option, "in"], "no option " + option.replace("\t", "?"))


def of_body():
    for words in ([], ["in"], ["in", "0", "0"], ["in", "-o", "out"]):
        yield mistake("body", words, "a file and a place are wanted")
    for place in NO_NUMBERS + NO_ORDINALS:
        yield mistake("body", ["in", place, "-o", "out"], "no place, and no ID#ORDINAL: " + place)
    yield mistake("body", ["in", "0", "-o"], "-o wants a file's name")
    yield mistake("body", ["in", "0", "-o", ""], "-o wants a file's name")
    yield mistake("body", ["-o", "x", "in", "0", "-o", "y"], "-o stands twice")


def of_blank():
    for number in NO_NUMBERS:
        yield mistake("blank", ["key=" + number, "-o", "out"], "no key id: key=" + number)
    for digits in NO_HEX:
        yield mistake("blank", ["primary=" + digits], "not hexadecimal: primary=" + digits)
        yield mistake("blank", ["secondary=" + digits, "-o", "out"], "not hexadecimal: secondary=" + digits)
    for word in ("", "0", "key", "Key=0", "keys=0", "in", "--json"):
        yield mistake("blank", [word], "not key=, primary= or secondary=: " + word)
    yield mistake("blank", ["-o"], "-o wants a file's name")


def of_edit():
    yield mistake("edit", [], "no file is named")
    yield mistake("edit", ["-o", "out"], "no file is named")
    yield mistake("edit", ["in"], "no edit is named")
    yield mistake("edit", ["in", "-o", "out"], "no edit is named")
    yield mistake("edit", ["in", "drop", "0"], "no output is named: -o OUT")
    yield mistake("edit", ["in", "drop", "0", "-o"], "-o wants a file's name")
    yield mistake("edit", ["in", "drop", "0", "-o", ""], "-o wants a file's name")
    yield mistake("edit", ["in", "-o", "x", "drop", "0", "-o", "x"], "-o stands twice")
    for word in ("", "Drop", "drop0", "dro", "drops", "settings", "blank", "0"):
        yield mistake("edit", ["in", "-o", "out", word, "0"], "no such edit: " + word)
    yield mistake("edit", ["in", "-o", "out", "drop", "0", "key", "0", "body"], "body wants a place: a number, from 0 on, or ID#ORDINAL")


def edit_mistake(words, said):
    return mistake("edit", ["in", "-o", "out"] + words, said)


def of_each_edit():
    place = " wants a place: a number, from 0 on, or ID#ORDINAL"
    for edit, rest in (("drop", []), ("body", ["c3"]), ("set", ["priority=0"]), ("insert", ["id=1"])):
        yield edit_mistake([edit], edit + place)
        yield edit_mistake([edit, "drop", "0"], edit + place)
        for word in NO_NUMBERS + NO_ORDINALS:
            yield edit_mistake([edit, word] + rest, edit + place)
    for extra in ("0", "", "c3"):
        yield edit_mistake(["drop", "0", extra], "drop wants a place alone")
    yield edit_mistake(["body", "0"], "body wants a place and a body")
    yield edit_mistake(["body", "0", "c3", "c3"], "body wants a place and a body")
    for digits in NO_HEX:
        wanted = "wants a body: pairs of hexadecimal digits, - for none, or @FILE"
        yield edit_mistake(["body", "0", digits], "body " + wanted)
        yield edit_mistake(["insert", "0", "id=1", "body=" + digits], "insert " + wanted)
        protections = "protection wants two protections: pairs of hexadecimal digits, - for none"
        yield edit_mistake(["protection", digits, "-"], protections)
        yield edit_mistake(["protection", "a5", digits], protections)
    for words in (["protection"], ["protection", "a5"], ["protection", "a5", "-", "-"]):
        yield edit_mistake(words, "protection wants two protections: pairs of hexadecimal digits, - for none")
    for words in (["key"], ["key", "1", "2"]) + tuple(["key", number] for number in NO_NUMBERS):
        yield edit_mistake(words, "key wants a key id: a number")


def of_settings():
    yield edit_mistake(["set", "0"], "set wants a place, and name=value")
    yield edit_mistake(["insert", "0"], "insert wants id=NUMBER")
    yield edit_mistake(["insert", "0", "from=profile", "body=00"], "insert wants id=NUMBER")
    for number in NO_NUMBERS:
        yield edit_mistake(["insert", "0", "id=" + number], "insert wants id=NUMBER")
    for i, name in enumerate(NAMES):
        for value in (NO_NUMBERS[i], "Absent"):
            word = "%s=%s" % (name, value)
            yield edit_mistake(["set", "0", word], "set: no such setting, or no such value: " + word)
            yield edit_mistake(["insert", "0", "id=1", word], "insert: no such setting, or no such value: " + word)
    for name in ("codec_data_present", "discard_unknown_payload"):
        yield edit_mistake(["set", "0", name + "=absent"], name + " is never absent")
    for word in ("priority", "Priority=1", "prio=1", "from=", "from=none", "from", "=1", "id=1", "body=00", "", "-"):
        yield edit_mistake(["set", "0", word], "set: no such setting, or no such value: " + word)


def of_recipe():
    yield mistake("recipe", [], "make, show or apply is wanted")
    for word in ("", "Make", "mak", "makes", "shows", "-o", "in", "edit"):
        yield mistake("recipe", [word, "in", "-o", "out"], "not make, show or apply: " + word)
    for words in ([], ["in", "in"], ["in", "-o", "out"]):
        yield mistake("recipe", ["show"] + words, "show wants a recipe alone")
    for words in ([], ["in"], ["-o", "out"], ["in", "-o", "out"], ["in", "in", "in", "-o", "out"]):
        yield mistake("recipe", ["apply"] + words, "apply wants a file and a recipe")
    yield mistake("recipe", ["apply", "in", "in"], "no output is named: -o OUT")
    for words in (["apply", "in", "in"], ["make", "drop", "0"]):
        yield mistake("recipe", words + ["-o"], "-o wants a file's name")
        yield mistake("recipe", words + ["-o", ""], "-o wants a file's name")
        yield mistake("recipe", words[:1] + ["-o", "x"] + words[1:] + ["-o", "y"], "-o stands twice")


def of_make():
    yield mistake("recipe", ["make"], "no edit is named")
    yield mistake("recipe", ["make", "-o", "out"], "no edit is named")
    yield mistake("recipe", ["make", "drop", "0"], "no output is named: -o RECIPE")
    for words in (["set", "0", "priority=1"], ["insert", "0", "id=1"], ["protection", "a5", "-"]):
        said = words[0] + ": a recipe holds body, drop and key alone"
        for before, after in (([], []), (["drop", "0"], []), ([], ["key", "0"]), (["key", "a"], ["drop"])):
            yield make_mistake(before + words + after, said)
        yield make_mistake(words[:1], said)
    for number in ("4294967296", "18446744073709551615", "00004294967296"):
        for words in (["drop", number], ["body", number, "c3"]):
            said = "a place in a recipe is at most 4294967295: " + number
            yield make_mistake(words, said)
            yield make_mistake(["key", "4294967296"] + words + ["drop", "0"], said)
    for name in ("40#2", "0#0", "18446744073709551615#1"):
        said = "a recipe has no carrier to find %s in: name its place" % name
        for words in (["drop", name], ["body", name, "c3"]):
            yield make_mistake(words, said)
            yield make_mistake(["drop", "1"] + words + ["key", "0"], said)
        yield make_mistake(["key", name], "key wants a key id: a number")
        yield edit_mistake(["key", name], "key wants a key id: a number")
        yield edit_mistake(["insert", "0", "id=" + name], "insert wants id=NUMBER")
    for word in ("", "Drop", "blank", "0", "in"):
        yield make_mistake([word, "0"], "no such edit: " + word)
    for number in NO_NUMBERS:
        for words in (["drop", number], ["body", number, "c3"]):
            yield make_mistake(words, words[0] + " wants a place: a number, from 0 on, or ID#ORDINAL")
        yield make_mistake(["key", number], "key wants a key id: a number")
    for digits in NO_HEX:
        yield make_mistake(["body", "0", digits], "body wants a body: pairs of hexadecimal digits, - for none, or @FILE")
    yield make_mistake(["drop", "0", "1"], "drop wants a place alone")
    yield make_mistake(["drop", "0", "body", "0"], "body wants a place and a body")


def make_mistake(words, said):
    return mistake("recipe", ["make", "-o", "out"] + words, said)


def of_names():
    """What a terminal would obey is not echoed, and a long word is cut."""
    yield mistake("info", ["--\x1b[31m\x7f", "in"], "no option --?[31m?")
    yield edit_mistake(["dr\x1bop", "0"], "no such edit: dr?op")
    yield edit_mistake(["set", "0", "x\n=1"], "set: no such setting, or no such value: x?=1")
    yield mistake("info", ["--" + "x" * 131000, "in"], ("no option --" + "x" * 131000)[:200] + "..")


def helps():
    for command, text in USAGES.items():
        yield case("emdf %s --help" % command, [command, "--help"], out=text.encode() + b"\n")


def of_commands():
    said = "emdf: no command is named\n%s\n" % OF_ALL
    yield case("no command", [], err=said.encode(), status=2)
    for word in ("", "Info", "inf", "infos", "--json", "-h", "--version", "drop"):
        said = "emdf: no command is called %s\n%s\n" % (word, OF_ALL)
        yield case("command %r" % word, [word, "in"], {"in": A}, err=said.encode(), status=2)
    said = "emdf: no command is called a?b?[0m\n%s\n" % OF_ALL
    yield case("a command with control characters", ["a\nb\x1b[0m"], err=said.encode(), status=2)


def cases():
    groups = (of_files, of_body, of_blank, of_edit, of_each_edit, of_settings, of_recipe, of_make, of_names, helps, of_commands)
    for group in groups:
        yield from group()
