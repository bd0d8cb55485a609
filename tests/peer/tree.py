"""What MediaInfo says of a file of frames, by its tree of fields."""
import re
import subprocess
from collections import namedtuple

# offset: the byte of the file in which the field starts. value: a number, or the word that stands for longer data.
Field = namedtuple("Field", "offset name value bits")
# start: the frame's first byte. fields: those of the container that was found, or None.
Frame = namedtuple("Frame", "start fields")

LINE = re.compile(r"([0-9A-F]+) ( *)(.*)")
FIELD = re.compile(r"(.+?): +(\S.*)")
VALUE = re.compile(r"(\d+) \(0x[0-9A-F]+\)(?: - \((\d+) bits\))?")


def field(offset, name, text):
    if text in ("Yes", "No"):
        return Field(offset, name, int(text == "Yes"), 1)
    number = VALUE.match(text)
    if not number:
        return Field(offset, name, text, None)
    return Field(offset, name, int(number[1]), int(number[2]) if number[2] else None)


def frames_of(lines):
    frames, is_inside = [], False
    for line in lines:
        parts = LINE.fullmatch(line)
        if not parts:
            continue
        offset, depth, text = int(parts[1], 16), len(parts[2]), parts[3]
        if depth == 0 and text.startswith("syncframe "):
            frames.append(Frame(offset, None))
        if depth <= 1:
            is_inside = depth == 1 and text.startswith("emdf (")
            if is_inside:
                frames[-1] = Frame(frames[-1].start, [])
        elif is_inside and FIELD.fullmatch(text):
            frames[-1].fields.append(field(offset, *FIELD.fullmatch(text).groups()))
    return frames


def read(path):
    done = subprocess.run(["mediainfo", "--ParseSpeed=1", "--Details=1", path], capture_output=True, check=True, timeout=600)
    return frames_of(done.stdout.decode().splitlines())


def version():
    done = subprocess.run(["mediainfo", "--Version"], capture_output=True, timeout=60)
    return re.search(r"MediaInfoLib - (v\S+)", done.stdout.decode())[1]
