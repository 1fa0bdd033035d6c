"""codes.py: the two code pages; sets that are recoded, at the edges too; what recoding an accepted set gives, and which entries of the tables a stream meets.
Assumes harness/sets.py, and the codecs of Python: they are made from the same mapping files of Unicode, CP437.TXT and CP1252.TXT."""
import collections

import sets
from rows import MEMBER_OF, NAMES, SET_TABLES, marked
from stream import Case

PAGES = {437: "cp437", 1252: "cp1252"}
NAMED = {437: b"2", 1252: b"3"}  # by which content 9206 names the code page
CHARSETS = (None, b"1", b"2", b"3")  # the contents of 9206; None: there is no such line
STATES = [(charset, wanted) for charset in CHARSETS for wanted in PAGES]
ADDED = sets.line(9206, NAMED[1252])
AFTER_SUM = 2  # lines
SUM_AT, SUM_END = 20, 25  # where the digits of 8100 stand
LEAST_BYTE, LEAST_HIGH, MOST_BYTE = 0x20, 0x80, 0xFF
HIGH = range(LEAST_HIGH, MOST_BYTE + 1)
OTHER = {437: 1252, 1252: 437}
NOISE = b"\xaa0\r\n8zZ\x00"
MOST_NUMBER = 2**64 - 1


def character(page, byte):
    """The character of a byte; None if it has none."""
    try:
        return bytes([byte]).decode(PAGES[page])
    except UnicodeDecodeError:
        return None


def table(wanted):
    """For each byte of the other code page the byte of the same character in the wanted one, None if there is none."""
    found = {character(wanted, byte): byte for byte in range(256)}
    return [found.get(char) if char is not None else None for char in (character(OTHER[wanted], byte) for byte in range(256))]


TABLES = {wanted: table(wanted) for wanted in PAGES}
KNOWN = {wanted: bytes(byte for byte in HIGH if TABLES[wanted][byte] is not None) for wanted in PAGES}
UNKNOWN = {wanted: bytes(byte for byte in HIGH if TABLES[wanted][byte] is None) for wanted in PAGES}

# ---- What recoding an accepted set gives -------------------------------------------------------------------------------------------


def cut(data):
    """The lines of an accepted set, by their lengths."""
    found, at = [], 0
    while at < len(data):
        found.append(data[at : at + int(data[at : at + 3])])
        at += len(found[-1])
    return found


def charset_in(lines):
    """The content of 9206, None if there is no such line."""
    return next((data[7:-2] for data in lines if data[3:7] == b"9206"), None)


def stays(charset, wanted):
    """Whether a set is in the wanted code page already."""
    return charset == NAMED[wanted] or charset is None and wanted == 437


def first_unknown(wanted, data):
    """The place of the first byte that has no character in the wanted code page; None if there is none. Only contents have bytes over 7Fh."""
    return next((at for at, byte in enumerate(data) if TABLES[wanted][byte] is None), None)


def renamed(lines, wanted):
    """The lines with the wanted code page in 9206."""
    return [sets.line(9206, NAMED[wanted]) if data[3:7] == b"9206" else data for data in lines]


def made(case, data):
    """The line of a case whose set becomes this."""
    return "ok %d %s" % (len(data), (data + bytes(len(case.args["buffer"]) - len(data))).hex())


def told(case):
    """The line of a case whose bytes are one accepted set: "stays as it is"; "only change that content"; else 7, 27, 22, or the recoded set."""
    wanted, used, room = case.args["wanted"], case.args["used"], len(case.args["buffer"])
    data = case.args["buffer"][:used]
    lines = cut(data)
    charset = charset_in(lines)
    if stays(charset, wanted):
        return made(case, data)
    if charset == b"1":
        return made(case, b"".join(renamed(lines, wanted)))
    unknown, more = first_unknown(wanted, data), len(ADDED) * (charset is None)
    if more and len(lines) == sets.MOST_LINES:
        return "refused 7 %d 0 kept" % used
    if unknown is not None:
        return "refused 27 %d 0 kept" % unknown
    if used + more > room:
        return "refused 22 %d 0 kept" % (used + more)
    lines = [bytes(TABLES[wanted][byte] for byte in piece) for piece in lines]
    lines[AFTER_SUM:AFTER_SUM] = [ADDED] * (charset is None)
    new = b"".join(renamed(lines, wanted))
    return made(case, new[:SUM_AT] + b"%05d" % len(new) + new[SUM_END:])


def is_accepted(case, line):
    """Whether the set of a case is accepted and alone, by the line of the case: what is then answered is told above."""
    words = line.split(" ")
    return words[0] == "ok" or words[1] in ("22", "27") or words[1] == "7" and int(words[2]) == case.args["used"]


# ---- What a stream meets -----------------------------------------------------------------------------------------------------------


def state_name(charset, wanted):
    return "%s, %d wanted" % ("no 9206" if charset is None else "9206 = " + charset.decode(), wanted)


STATE_MARKS = [state_name(*state) for state in STATES]  # of the accepted cases
ADDED_7, UNKNOWN_7, UNKNOWN_22, STAYS_UNKNOWN, JUST_ROOM = OTHER_MARKS = (
    "7 for the added line",
    "7 and 27",
    "27 and 22",
    "stays with a character that the other code page has not",
    "just the room for the added line",
)


def marks_met(case, line):
    """Which of these marks a case has."""
    if not is_accepted(case, line):
        return []
    wanted, used, room = case.args["wanted"], case.args["used"], len(case.args["buffer"])
    charset = charset_in(cut(case.args["buffer"][:used]))
    no = None if line.startswith("ok") else line.split(" ")[1]
    unknown = first_unknown(wanted, case.args["buffer"][:used]) is not None
    lost = first_unknown(OTHER[wanted], case.args["buffer"][:used]) is not None
    found = {
        ADDED_7: no == "7",
        UNKNOWN_7: no == "7" and unknown,
        UNKNOWN_22: no == "27" and charset is None and room < used + len(ADDED),
        STAYS_UNKNOWN: stays(charset, wanted) and lost,
        JUST_ROOM: no is None and charset is None and wanted == 1252 and room == used + len(ADDED),
        state_name(charset, wanted): no is None,
    }
    return [mark for mark, holds in found.items() if holds]


def entries_met(case, line):
    """The entries of the tables that a case asks for: the wanted code page, and bytes of the other one. If it is refused, that is the byte at its place."""
    if not is_accepted(case, line):
        return []
    wanted, data = case.args["wanted"], case.args["buffer"][: case.args["used"]]
    charset = charset_in(cut(data))
    if line.startswith("refused 27 "):
        return [(wanted, data[int(line.split(" ")[2])])]
    if line.startswith("refused") or charset == b"1" or stays(charset, wanted):
        return []
    return [(wanted, byte) for byte in {byte for piece in cut(data) for byte in piece[7:-2]}]


def unmet(cases, lines):
    """The entries of both tables, from 20h on, that no case asks for, as sentences."""
    met = collections.Counter(entry for case, line in zip(cases, lines) for entry in entries_met(case, line))
    asked = [(wanted, byte) for wanted in PAGES for byte in range(LEAST_BYTE, MOST_BYTE + 1)]
    return ["recode: no case asks for %02Xh of code page %d" % (byte, OTHER[wanted]) for wanted, byte in asked if not met[wanted, byte]]


def untold(cases, lines):
    """The cases of recode whose set is accepted and whose line is another one than is told above, as sentences."""
    out = []
    for number, (case, line) in enumerate(zip(cases, lines), 1):
        if case.call == "r" and is_accepted(case, line) and line != told(case):
            out.append("case %d, recode, is told as %s: %s" % (number, told(case)[:60], line[:60]))
    return out


# ---- Sets for a case ---------------------------------------------------------------------------------------------------------------


def put_charset(r, fields, charset):
    """The fields with this 9206 in the place of theirs, where it parts no group or pair."""
    fields = [field for field in fields if field[0] != 9206]
    if charset is None:
        return fields
    apart = [at for at in range(AFTER_SUM, len(fields)) if fields[at][0] not in MEMBER_OF and fields[at][0] - 1 not in NAMES]
    at = r.choice((AFTER_SUM, len(fields), r.choice(apart + [len(fields)])))
    return fields[:at] + [(9206, charset)] + fields[at:]


def put_bytes(r, content, found):
    """The content with one to three of these bytes, or only such ones."""
    places = range(len(content)) if r.random() < 0.1 else r.choices(range(len(content)), k=r.randint(1, 3))
    for at in places:
        content = sets.replaced(content, at, r.choice(found))
    return content


def in_page(r, fields, allowed):
    """The fields with no other high bytes than these; some contents have more of them."""
    out = []
    for label, content in fields:
        if content is not None and sets.takes_high(label):
            content = bytes(byte if byte < LEAST_HIGH or byte in allowed else r.choice(allowed or b"~") for byte in content)
            if allowed and r.random() < 0.4:
                content = put_bytes(r, content, allowed)
        out.append((label, content))
    return out


def recodable(r, fields, charset, wanted):
    """The fields of an accepted set with this 9206, all of whose characters are in the wanted code page, if they are asked for."""
    fields = put_charset(r, fields, charset)
    if charset == b"1":
        return in_page(r, fields, b"")
    return in_page(r, fields, bytes(HIGH) if stays(charset, wanted) else KNOWN[wanted])


def with_unknown(r, fields, wanted):
    """The fields with one to three bytes that have no character in the wanted code page, often in the first or the last content that can have one."""
    fields = list(fields)
    able = [at for at, (label, _) in enumerate(fields) if sets.takes_high(label)]
    for _ in range(r.choice((1, 1, 2, 3))):
        at = r.choice((able[0], able[-1], r.choice(able)))
        label, content = fields[at]
        place = r.choice((0, len(content) - 1, r.randrange(len(content))))
        fields[at] = (label, sets.replaced(content, place, r.choice(UNKNOWN[wanted])))
    return fields


def filled(fields):
    """The fields of a 6310 set with plain ones after them, as many as there may be."""
    return fields + [sets.PLAIN] * (sets.MOST_LINES - len(fields))


# ---- Cases at the edges ------------------------------------------------------------------------------------------------------------

BODY = [(3000, b"0123456789"), (9218, b"02.10"), (8402, b"EKG01"), (8410, b"FEV1"), (8420, b"3.7"), (8421, b"l per minute btps"), (6228, b"the last line")]
START = [(8000, b"6310"), (8100, None)]
ANY_BYTES = (0, 5, 6)  # the first content that may have any bytes, an inner one, the last one


def recoding(fields, wanted, spare=len(ADDED), used=None, after=b""):
    """A case of these fields: bytes after the set that are used too, then room for `spare` more."""
    data = b"".join(sets.lines_of(fields)) + after
    return Case("r", {"wanted": wanted, "used": len(data) if used is None else used, "buffer": data + (NOISE * (1 + spare // len(NOISE)))[:spare]})


def charset_first(charset, body):
    return START + [(9206, charset)] * (charset is not None) + body


def charset_last(charset, body):
    return START + body + [(9206, charset)] * (charset is not None)


def body_with(at, content):
    return BODY[:at] + [(BODY[at][0], content)] + BODY[at + 1 :]


def byte_edges():
    """Each high byte, in each of three contents, first, inner or last in it; with each 9206 and none, before it or after it; both code pages wanted."""
    for charset, wanted in STATES:
        for byte in HIGH[:: 8 if charset == b"1" else 1]:
            for turn, at in enumerate(ANY_BYTES):
                content = BODY[at][1]
                place = (0, len(content) // 2, len(content) - 1)[(byte + turn) % 3]
                order = (charset_first, charset_last)[(byte + turn) % 2]
                yield recoding(order(charset, body_with(at, sets.replaced(content, place, byte))), wanted, spare=(10, 12)[byte % 2])


def all_bytes_edges():
    """All bytes below 80h; all that are in both code pages; all others, of which the first one counts; and all in a set that stays."""
    low = bytes(range(LEAST_BYTE, LEAST_HIGH))
    for charset, wanted in STATES:
        order = charset_first if wanted == 437 else charset_last
        yield recoding(order(charset, BODY + [(6228, low[:60]), (6220, low[60:])]), wanted)
        if charset == b"1":
            continue
        high = bytes(HIGH) if stays(charset, wanted) else KNOWN[wanted]
        parts = [(6228, high[at : at + 60]) for at in range(0, len(high), 60)]
        yield recoding(order(charset, BODY + parts), wanted)
        yield recoding(order(charset, BODY + parts + [(6228, UNKNOWN[wanted][:60]), (6220, UNKNOWN[wanted][60:])]), wanted)
        yield recoding(order(charset, BODY + parts * 100), wanted)


def room_edges():
    """Room for no bytes up to 12 more, and for many, with a character that the wanted code page has not and without one."""
    for charset, wanted in STATES:
        for content in (b"\x81\x84" if charset != b"1" else b"ue", bytes(UNKNOWN[wanted][-1:]) if charset != b"1" else b"z"):
            for spare in (*range(13), 100):
                yield recoding(charset_first(charset, body_with(6, content)), wanted, spare)


def line_edges():
    """510 to 512 lines, with each 9206 and none; room for 0, 9, 10 and 11 bytes more; with a character that the wanted code page has not and without one."""
    for charset, wanted in STATES:
        for content in (b"\xf8", UNKNOWN[wanted][:1]):
            fields = charset_last(charset, body_with(6, content if charset != b"1" else b"z"))
            full = fields[: AFTER_SUM + 1] + [sets.PLAIN] * (sets.MOST_LINES - len(fields)) + fields[AFTER_SUM + 1 :]
            for less, spare in ((1, 0), (1, 9), (1, 10), (1, 11), (0, 0), (0, 9), (0, 10), (0, 11), (2, 10)):
                yield recoding(full[: AFTER_SUM + 1] + full[AFTER_SUM + 1 + less :], wanted, spare)


def used_edges():
    """Used lengths around those of the set and of the buffer, and very large ones; another set after it, alone and beside 7, 27 and 22."""
    for charset, wanted in STATES:
        fields = charset_first(charset, BODY)
        length = sum(map(len, sets.lines_of(fields)))
        for used in (0, 1, 2, 7, 13, 27, length - 1, length, length + 1, length + 9, length + 10, length + 11, 2**32, 2**32 + length, 2**63, MOST_NUMBER):
            yield recoding(fields, wanted, 10, used)
        unknown = charset_first(charset, body_with(6, UNKNOWN[wanted][:1] if charset != b"1" else b"z"))
        for after in (b"x", b"013800", b"xyz8000", b"0138000", b"\x00\x00\x008000", b"".join(sets.lines_of(fields)), bytes(8)):
            for first, spare in ((fields, 10), (unknown, 10), (unknown, 0)):
                yield recoding(first, wanted, spare, after=after)
        yield recoding(filled(fields), wanted, 10, after=b"xyz8000")


def sum_edges():
    """Sets of which the sum has a digit more, or is carried, by the added line; of every type, with each 9206."""
    body = [(3000, b"\x81"), (9218, b"02.10"), (8402, b"EKG01")]
    base = sum(map(len, sets.lines_of(START + body)))
    for total in (*range(88, 102), *range(988, 1002), *range(9988, 10002)):
        rest, fill = total - base, []
        while rest:
            size = rest if rest <= 69 else 60 if rest < 80 else 69
            fill.append((6228, b"\x94" * (size - 9)))
            rest -= size
        for wanted in PAGES:
            yield recoding(START + body + fill, wanted)
    for set_type in SET_TABLES:
        needed = [label for label in marked(SET_TABLES[set_type], "!") if label not in (8000, 8100)]
        plain = {3103: b"29021965", 9218: b"02.10", 8402: b"EKG01"}
        for charset, wanted in STATES:
            fields = [(label, plain.get(label, b"\xe1" if charset != b"1" else b"s")) for label in needed]
            yield recoding([(8000, b"%d" % set_type), (8100, None)] + [(9206, charset)] * (charset is not None) + fields, wanted)


def place_edges():
    """9206 at every place; contents that read as a line 9206 or as the start of a set, before it and after it; two characters that are not there."""
    traps = (b"9206", b"0109206", b"01092061", b"01092062", b"01092063", b"8000", b"0138000")
    for charset, wanted in STATES:
        high = b"\xb0" if wanted == 437 else b"\x81"
        body = [(3000, b"7"), (9218, b"02.10"), (8402, b"EKG01"), (6228, high if charset != b"1" else b"z"), (6220, b"last")]
        for at in range(len(body) + 1) if charset is not None else ():
            yield recoding(START + body[:at] + [(9206, charset)] + body[at:], wanted)
        for trap in traps:
            yield recoding(charset_first(charset, body + [(6227, trap)]), wanted)
            yield recoding(charset_last(charset, [(6227, trap)] + body), wanted)
        if charset != b"1":
            one, other = UNKNOWN[wanted][1:2], UNKNOWN[wanted][-2:-1]
            for first, last in ((one, other), (other, one)):
                yield recoding(charset_last(charset, [(6228, b"a" + first)] + body + [(6227, last)]), wanted)
                yield recoding(charset_first(charset, body + [(6228, KNOWN[wanted][:1] + first + last)]), wanted, 0)


def recode_edges():
    """For recode: all of these."""
    for edges in (byte_edges, all_bytes_edges, room_edges, line_edges, used_edges, sum_edges, place_edges):
        yield from edges()
