"""stream.py: cases and their stream: packing and unpacking, running a program over a stream, and printing a case for people.
Assumes the form that harness/README.md gives: a byte for the call, numbers in 8 bytes, byte strings after their length."""
import lzma
import os
import re
import struct
import subprocess
import sys
from typing import Dict, List, NamedTuple, Tuple, Union

ROOT = os.path.dirname(os.path.dirname(os.path.abspath(__file__)))
STREAMS = os.path.join(ROOT, "harness", "streams")

SET_FAULTS = [*range(1, 17), 24, 17]  # the refusals of a set: 24 comes "after Missing and before BadSum"

# What each call is given, in the stream's order, and the refusals that it can give.
CALLS = {
    "j": ("judge", ("set",), SET_FAULTS),
    "i": ("index", ("room", "set"), [*SET_FAULTS, 22]),
    "l": ("list", ("room", "set"), [*SET_FAULTS, 22]),
    "w": ("write", ("room", "list"), [1, 7, 21, 6, 8, 9, *range(11, 17), 24, 22]),
    "c": ("correct", ("used", "line", "content", "buffer"), [*SET_FAULTS, 18, 19, 20, 22]),
    "v": ("view", ("line", "set", "sheet"), [*SET_FAULTS, 18, 19, 20, 21]),
    "d": ("day_build", ("lent", "file"), [*SET_FAULTS[1:], 23, 22]),
    "a": ("day_append", ("old", "count", "lent", "index", "file"), [*SET_FAULTS, 18, 23, 22]),
    "f": ("day_find", ("room", "file", "index", "asked"), [22]),
    "b": ("block", ("number", "count", "set"), [*SET_FAULTS, 18]),
    "s": ("send", ("phase", "blocks", "attempt", "number", "errors", "count", "begin", "bytes"), [*SET_FAULTS, 18]),
    "t": ("receive", ("started", "last", "open", "used", "buffer", "block"), [25, 26, 22]),
    "r": ("recode", ("wanted", "used", "buffer"), [*SET_FAULTS, 18, 27, 22]),
}
LAST_NUMBER = max(no for _, _, numbers in CALLS.values() for no in numbers)
LINK = ("phase", "blocks", "attempt", "number", "errors", "count")  # of the sender's record; `number` is that of a block
RECEIVER = ("started", "last", "open", "used")
NUMBERS = ("room", "line", "lent", "old", "begin", "wanted", *LINK, *RECEIVER)
LISTS = ("index",)  # of numbers; all others are bytes
DAY_ENTRY = 4  # numbers that a set has in the index of a day file
ROWS = "rows"  # the stored stream that goes through the tables row by row
# The stored streams, harness/streams/, and how many cases each has. People write these numbers: `harness/generate.py store` only says which of them is another one then.
STORED = {"block": 1562, "correct": 1931, "day_append": 911, "day_build": 873, "day_find": 750, "index": 1706, "judge": 1895}
STORED.update({"list": 1706, "receive": 2019, "recode": 4722, ROWS: 2658, "send": 1975, "view": 2534, "write": 1919})
CALL_OF = {**{name: call for call, (name, _, _) in CALLS.items()}, ROWS: "j"}  # of which call all cases of a stored stream are
MOST_ROWS = 600  # of a set, a day file or its index that are shown
NOTHING = b"j" + bytes(8)  # the shortest stream of one case: judge is given no bytes


class Case(NamedTuple):
    call: str
    args: Dict[str, Union[int, bytes, List[int]]]


class Answers(NamedTuple):
    lines: List[str]
    status: int
    message: str


def packed(case):
    out = [case.call.encode()]
    for name in CALLS[case.call][1]:
        value = case.args[name]
        if name in NUMBERS:
            out.append(struct.pack("<Q", value))
            continue
        data = struct.pack("<%dQ" % len(value), *value) if name in LISTS else value
        out += [struct.pack("<Q", len(data)), data]
    return b"".join(out)


def unpacked(stream):
    """The cases of a stream that is not cut."""
    cases, at = [], 0
    while at < len(stream):
        call, args = chr(stream[at]), {}
        at += 1
        for name in CALLS[call][1]:
            (value,) = struct.unpack_from("<Q", stream, at)
            at += 8
            if name not in NUMBERS:
                value = stream[at : at + value]
                at += len(value)
            if name in LISTS:
                value = list(struct.unpack("<%dQ" % (len(value) // 8), value))
            args[name] = value
        cases.append(Case(call, args))
    return cases


def answers(program, stream, *words):
    """What `harness/run PROGRAM` with these words writes for a stream."""
    run = subprocess.run([os.path.join(ROOT, "harness", "run"), program, *words], input=stream, capture_output=True, check=False)
    return Answers(run.stdout.decode().splitlines(), run.returncode, run.stderr.decode(errors="replace").strip())


def first_difference(cases, lines, others):
    """The place of the first case that two programs do not answer alike, or that one of them does not answer; None if there is none."""
    for at in range(len(cases)):
        if at >= min(len(lines), len(others)) or lines[at] != others[at]:
            return at
    return None


def read_stored(name):
    """The bytes of a stored stream."""
    with lzma.open(os.path.join(STREAMS, name + ".xz")) as file:
        return file.read()


def misnamed():
    """A sentence for each stream of STORED that is missing, and for each file that is none of them."""
    there = sorted(os.listdir(STREAMS)) if os.path.isdir(STREAMS) else []
    named = [name + ".xz" for name in STORED]
    wrong = ["harness/streams/%s is missing" % name for name in named if name not in there]
    return wrong + ["harness/streams/%s is not named in STORED of harness/stream.py" % name for name in there if name not in named]


def stored():
    """Name, bytes and cases of each stored stream. Fails if one of STORED is missing, or if there is one more."""
    wrong = misnamed()
    if wrong:
        sys.exit("\n".join("FAILED - " + sentence for sentence in wrong))
    for name in STORED:
        data = read_stored(name)
        yield name, data, unpacked(data)


# ---- Parts of a case, and a case for people --------------------------------------------------------------------------------------


def entries(data) -> List[Tuple[int, int, bytes]]:
    """The entries of a list or sheet: place, label (in a sheet the number of a line) and content; a cut one has what is left of it."""
    found, at = [], 0
    while at < len(data):
        length, label = struct.unpack("<HH", (data[at : at + 4] + bytes(4))[:4])
        found.append((at, label, data[at + 4 : at + 4 + length]))
        at += 4 + length
    return found


def lines(data):
    """Bytes cut after each 0Ah."""
    return re.findall(rb"[^\n]*\n|[^\n]+", data)


def day_sets(data):
    """Bytes cut before each line that starts a set."""
    found = [b""]
    for piece in lines(data):
        if piece[3:7] == b"8000" and found[-1]:
            found.append(b"")
        found[-1] += piece
    return found if data else []


def fours(index):
    """The entries of an index; the last one may have fewer numbers."""
    return [index[at : at + DAY_ENTRY] for at in range(0, len(index), DAY_ENTRY)]


def text(data):
    """Bytes as text, those that are not plain letters as in C."""
    names = {13: "\\r", 10: "\\n", 92: "\\\\"}
    return "".join(names.get(byte) or (chr(byte) if 32 <= byte < 127 else "\\x%02x" % byte) for byte in data)


def few(rows):
    """The first and the last of very many rows; else all of them."""
    if len(rows) <= MOST_ROWS:
        return rows
    return rows[: MOST_ROWS // 2] + ["         .. %d more .." % (len(rows) - MOST_ROWS)] + rows[-(MOST_ROWS // 2) :]


def told(case):
    """A case in lines of text: its call, its numbers, sets line by line, lists entry by entry with their places, an index set by set."""
    name, form, _ = CALLS[case.call]
    out = ["call    " + name]
    for arg in form:
        value = case.args[arg]
        if arg in NUMBERS:
            out.append("%-7s %d" % (arg, value))
            continue
        out.append("%-7s %d %s" % (arg, len(value), "numbers" if arg in LISTS else "bytes"))
        if arg in LISTS:
            out += few(["%7d  %s" % (number, ":".join(map(str, row))) for number, row in enumerate(fours(value), 1)])
        elif arg in ("list", "sheet"):
            out += ["%7d  %5d %s" % (at, label, text(content)) for at, label, content in entries(value)]
        elif arg in ("content", "asked", "block"):
            out.append("         " + text(value))
        else:
            at, rows = 0, []
            for piece in lines(value):
                rows.append("%7d  %s" % (at, text(piece)))
                at += len(piece)
            out += few(rows)
    return out
