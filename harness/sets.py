"""sets.py: sets and field lists built from the rows, accepted ones and ones that have the fault of a given number on purpose.
Assumes harness/rows.py alone; fields are pairs of label and content, and the content None of 8100 stands for the right sum."""
import struct

from rows import ARCHIVE, FIELDS, GROUPS, MEMBER_OF, NAMES, NEEDS, REPEATED_MEMBERS, SET_TABLES, TEST, known, labels, marked

MOST_LINES = 512
LEAST_LINE = 10
MOST_LINE = 999
MOST_CONTENT = MOST_LINE - 9
FIXED = (8000, 8100, 9206, 9218)
SEVEN_BITS = (9206, b"1")  # "no content byte anywhere in it may exceed 7Fh"
MOST_SEVEN = 0x7F
PROSE = (
    b"Ergometer cycle Lactate mmol/l heart rate 1/min Power Watt stage 3, rest 10 min; FEV1 -3.7 l. Borg scale 6-20 (RPE) threshold: "
    b"aerobic 148 anaerobic 171 Ramp test WHO 25/50/75 spiro VO2max ml/kg/min recovery after load, no complaints reported by athlete"
)
EDGE_BYTES = b"\x20\x7f\x80\xff\\0"
LOW_BYTES = b"\x00\x01\x09\x0a\x0d\x1a\x1b\x1f"
HIGH_BYTES = b"\x80\x81\xa0\xb5\xe4\xff"
NO_DIGITS = b"/: aO-\xb2"

# ---- Contents --------------------------------------------------------------------------------------------------------------------


def prose(r, length):
    """This many content bytes, now and then with one from the edges of what is allowed."""
    at = r.randrange(len(PROSE))
    content = bytearray((PROSE[at:] + PROSE * (1 + length // len(PROSE)))[:length])
    if content and r.random() < 0.1:
        content[r.randrange(length)] = r.choice(EDGE_BYTES)
    return bytes(content)


def digits(r, length):
    return bytes(r.choice(b"0123456789") for _ in range(length))


def number(r, length):
    """A float of this many bytes."""
    sign = b"-" if length > 1 and r.random() < 0.4 else b""
    rest = length - len(sign)
    if rest < 3 or r.random() < 0.4:
        return sign + digits(r, rest)
    point = r.randint(1, rest - 2)
    return sign + digits(r, point) + b"." + digits(r, rest - point - 1)


def fitting_of(r, label, length):
    """A content of this length that fits the label; the length is one that the field table allows."""
    kind = FIELDS[label][2]
    if kind == "num":
        return digits(r, length)
    if kind == "float":
        return number(r, length)
    if kind in ("date", "date or zeros"):
        least = 1 if kind == "date" else 0
        return b"%02d%02d%s" % (r.choice((least, 31, r.randint(least, 31))), r.choice((least, 12, r.randint(least, 12))), digits(r, 4))
    if kind == "time":
        return b"%02d%02d%02d" % (r.choice((0, 24, r.randint(0, 24))), r.choice((0, 59, r.randint(0, 59))), r.choice((0, 59, r.randint(0, 59))))
    if kind.startswith("one of "):
        return r.choice(kind[7:]).encode()
    if kind == "version":
        return b"02.10"
    return prose(r, length)


def fitting(r, label, short=False):
    """A content that fits the label, often of the least or the greatest length."""
    least, most, _ = FIELDS[label]
    if short:
        return fitting_of(r, label, r.randint(least, min(most, least + 5)))
    return fitting_of(r, label, r.choice((least, most, r.randint(least, most), r.randint(least, min(most, 12)))))


def replaced(content, at, byte):
    return content[:at] + bytes([byte]) + content[at + 1 :]


def lowered(content):
    """A content with 7Fh in the place of each byte over it."""
    return bytes(min(byte, MOST_SEVEN) for byte in content)


def raised(r, content):
    """A content with one byte over 7Fh put in, often as the first or the last."""
    at = r.choice((0, len(content) - 1, r.randrange(len(content))))
    return replaced(content, at, r.choice(HIGH_BYTES))


def takes_high(label):
    """Whether a content with a byte over 7Fh can fit the label. One of 8000 would name no type."""
    return FIELDS[label][2] == "alnum" and label != 8000


def fitting_edges(r, label):
    """Contents that fit the label, at the edges of its length and kind."""
    least, most, kind = FIELDS[label]
    edges = [fitting_of(r, label, length) for length in sorted({least, most, r.randint(least, most)})]
    if kind == "alnum":
        edges += [bytes([byte]) * length for byte in EDGE_BYTES for length in (least, most)]
    if kind == "num":
        edges += [b"0" * most, b"9" * most]
    if kind == "float":
        edges += [b"0", b"9", b"-0", b"007", b"-00.0", b"1.5", b"-" + b"9" * (most - 1), b"0." + b"0" * (most - 2)]
    if kind in ("date", "date or zeros"):
        edges += [b"01010000", b"31129999", b"31022001", b"10100000"]
    if kind == "date or zeros":
        edges += [b"00000000", b"00120000", b"31000000"]
    if kind == "time":
        edges += [b"000000", b"245959", b"235959", b"190909"]
    if kind.startswith("one of "):
        edges += [digit.encode() for digit in kind[7:]]
    return edges


def unfitting_edges(r, label):
    """Contents that do not fit the label, without bytes under 20h."""
    least, most, kind = FIELDS[label]
    fit = fitting(r, label)
    edges = [prose(r, length) for length in (most + 1, most + 9, 61, 255, 256, 990, 991, 5000) if length > most] + [fit[: least - 1], b""]
    if kind in ("num", "date", "date or zeros", "time"):
        edges += [b"0" * (most + 1), fitting_of(r, label, most) + b"0", b"0" * (least - 1)]
        edges += [replaced(fit, at, r.choice(NO_DIGITS)) for at in range(len(fit))]
    if kind == "float":
        edges += [b"+1", b".5", b"5.", b"1e3", b"-", b" 1", b"1 ", b"1.2.3", b"--1", b"1-", b"1,5", b"-.5", b"-5.", b".", b"1/2", b"1:2", b"1.-2"]
        edges += [b"1" * (most + 1), b"-" + b"1" * most]
    if kind in ("date", "date or zeros"):
        edges += [b"32012000", b"99012000", b"01132000", b"01992000", b"40102000"]
    if kind == "date":
        edges += [b"00012000", b"01002000", b"00000000"]
    if kind == "time":
        edges += [b"250000", b"006000", b"000060", b"990000", b"009900", b"000099", b"246000"]
    if kind.startswith("one of "):
        edges += [fit + fit, fit + b" "] + [bytes([byte]) for byte in b"0123456789/: a" if chr(byte) not in kind[7:]]
    if kind == "version":
        edges += [b"2.10", b"02,10", b"02.1", b"02.100", b"a2.10", b"0b.10", b"02.c0", b"02.1d", b"002.1", b"02210"]
    return edges


def unfitting(r, label):
    """A content for an entry or a correction that does not fit the label, without bytes under 20h."""
    return r.choice(unfitting_edges(r, label))


def unfitting_lines(r, label):
    """Contents that do not fit the label and that a line can have."""
    return [content for content in unfitting_edges(r, label) if 1 <= len(content) <= MOST_CONTENT]


def either(r, label):
    """A content for a line that is at fault whether its content fits or not."""
    return r.choice((fitting(r, label), fitting(r, label), r.choice(unfitting_lines(r, label))))


# ---- Accepted sets ---------------------------------------------------------------------------------------------------------------


def test_group(r):
    """The labels of an 8410 group."""
    members = r.sample(labels(GROUPS[TEST]), r.choice((0, 1, 2, 4, 6, 17)))
    members = list(dict.fromkeys(members + [NEEDS[label] for label in members if label in NEEDS]))
    members += [label for label in members if label in REPEATED_MEMBERS for _ in range(r.randrange(3))]
    r.shuffle(members)
    return [TEST] + members


def block(r):
    """The labels of a part of a 6310 set: a group, a pair, or a line that may repeat."""
    which = r.randrange(8)
    if which < 4:
        return test_group(r)
    if which == 4:
        return [ARCHIVE] + r.sample(labels(GROUPS[ARCHIVE]), 3)
    if which == 5:
        name = r.choice(NAMES)
        return [name, name + 1]
    return [r.choice(marked(SET_TABLES[6310], "+"))]


def accepted(r, set_type, lines=0, short=False):
    """The fields of an accepted set of this type; a 6310 set has this many lines if its single fields leave room for them."""
    table = SET_TABLES[set_type]
    chance = r.choice((0, 0.3, 0.6, 1))
    needed = [label for label in marked(table, "!") if label not in (8000, 8100)]
    optional = [label for label in labels(table) if label not in marked(table, "!") + marked(table, "+") and r.random() < chance]
    blocks = [[label] for label in needed + optional]
    left = lines - 2 - len(blocks)
    while set_type == 6310 and left > 0:
        more = block(r)
        if len(more) > left:
            more = [r.choice((TEST, 6228))]
        blocks.append(more)
        left -= len(more)
    r.shuffle(blocks)
    body = [(label, fitting(r, label, short)) for more in blocks for label in more]
    return in_code([(8000, b"%d" % set_type), (8100, None)] + body)


def in_code(fields):
    """The fields as they are; without bytes over 7Fh if one of them is 9206 with content 1."""
    if SEVEN_BITS not in fields:
        return fields
    return [(label, content if content is None else lowered(content)) for label, content in fields]


def make_seven_bit(r, fields, head):
    """Makes these the fields of a seven-bit set: its 9206 is 1, or that line is put in where it parts no group or pair. The first `head` fields stay."""
    found = [label for label, _ in fields]
    if 9206 in found:
        fields[found.index(9206)] = SEVEN_BITS
    else:
        apart = [at for at in range(head, len(fields)) if found[at] not in MEMBER_OF and found[at] - 1 not in NAMES]
        fields.insert(r.choice(apart + [len(fields)]), SEVEN_BITS)
    fields[:] = in_code(fields)


# ---- Lines and entries -----------------------------------------------------------------------------------------------------------


def line(label, content):
    return b"%03d%04d%s\r\n" % (len(content) + 9, label, content)


def lines_of(fields):
    total = sum(14 if content is None else len(content) + 9 for _, content in fields)
    return [line(label, b"%05d" % total if content is None else content) for label, content in fields]


def entry(kind, content):
    return struct.pack("<HH", len(content), kind) + content


def entries_of(fields):
    """The field list: 8100 with the right sum has no entry."""
    return [entry(label, content) for label, content in fields if content is not None]


# ---- Faults in the fields, by number. `head` is how many fields stand in front and keep their places: 2 in a set, 1 in a list -----


def no_start(r, _set_type, fields, head):
    first = fields[0]
    way = r.randrange(3)
    if way == 0:
        del fields[0]
    elif way == 1:
        fields[0] = (r.choice((8001, 800, 8100, 3000, 9218, 0, 9999)), first[1])
    else:
        fields.insert(0, fields.pop(r.randrange(head, len(fields))))


def unknown_set(r, _set_type, fields, head):
    names = [b"6303", b"6309", b"6312", b"6320", b"6299", b"7310", b"0310", b"630", b"63000", b"6310 ", b"631o", b"abcd", b"8000", b"6", b"\xb663\xff"]
    fields[0] = (8000, r.choice(names + [b""] * (head == 1)))


def no_sum(r, _set_type, fields, _head):
    way = r.randrange(4)
    if way == 0:
        del fields[1:]
    elif way == 1:
        del fields[1]
    elif way == 2:
        fields[1], fields[2] = fields[2], fields[1]
    else:
        fields[1] = (r.choice((8101, 8001, 3000, 810, 0)), b"00051")


def not_in_set(r, set_type, fields, head):
    near = [0, 1, 101, 104, 3001, 3109, 3111, 3624, 6202, 6306, 6329, 6400, 8001, 8101, 8401, 8409, 8412, 8433, 8479, 8481, 8991, 9205, 9219, 9999]
    label = r.choice(sorted((set(near) | known(6310) | {r.randrange(10000)}) - known(set_type)))
    fields.insert(r.randint(head, len(fields)), (label, fitting(r, label) if label in FIELDS else prose(r, 5)))


def open_headers(fields):
    """The header that is open before each field and at the end, or 0."""
    found, header = [0], 0
    for label, _ in fields:
        if label in GROUPS:
            header = label
        elif MEMBER_OF.get(label) != header:
            header = 0
        found.append(header)
    return found


def stray(r, _set_type, fields, head):
    places = range(head, len(fields) + 1)
    if r.random() < 0.6:
        label = r.choice(list(MEMBER_OF))
        headers = open_headers(fields)
        places = [at for at in places if headers[at] != MEMBER_OF[label]]
        likely = [at for at in places if fields[at - 1][0] in MEMBER_OF]
    else:
        names = [name for name, _ in fields if name in NAMES]
        label = r.choice((r.choice(names or NAMES), r.choice(NAMES))) + 1
        places = [at for at in places if fields[at - 1][0] != label - 1]
        likely = [at for at in places if fields[at - 1][0] in NAMES]
    fields.insert(r.choice(r.choice((places, likely or places))), (label, either(r, label)))


def repeated(r, set_type, fields, head):
    single = {label for label in labels(SET_TABLES[set_type]) if label not in marked(SET_TABLES[set_type], "+")} - {8000}
    headers = open_headers(fields)
    in_set, in_groups = [], []
    for at, (label, _) in enumerate(fields):
        if label in single:
            in_set.append((label, r.randint(max(at + 1, head), len(fields))))
        elif set_type == 6310 and label in MEMBER_OF and label not in REPEATED_MEMBERS and headers[at + 1]:
            end = at + 1
            while end < len(fields) and MEMBER_OF.get(fields[end][0]) == headers[at + 1]:
                end += 1
            in_groups.append((label, r.randint(at + 1, end)))
    if head == 1:
        in_set += [(label, r.randint(1, len(fields))) for label in (8000, 8100)]
    label, at = r.choice(r.choice((in_set, in_groups or in_set)))
    fields.insert(at, (label, either(r, label)))


def bad_content(r, _set_type, fields, head):
    at = r.randrange(1, len(fields))
    label = fields[at][0]
    fields[at] = (label, unfitting(r, label) if head == 1 else r.choice(unfitting_lines(r, label)))


def other_version(r, _set_type, fields, _head):
    for at, (label, _) in enumerate(fields):
        if label == 9218:
            fields[at] = (label, r.choice((b"02.00", b"01.00", b"02.11", b"03.10", b"99.99", b"12.10", b"02.20", b"00.00")))


def missing(r, set_type, fields, head):
    """Takes one to three required fields away."""
    for _ in range(r.choice((1, 1, 2, 3))):
        places = [at for at in range(head, len(fields)) if fields[at][0] in marked(SET_TABLES[set_type], "!")]
        if set_type == 6310 and r.random() < 0.75:
            inner = set(marked(GROUPS[ARCHIVE], "!")) | {name + 1 for name in NAMES} | set(NEEDS.values())
            places = [at for at in range(head, len(fields)) if fields[at][0] in inner and needed_in_group(fields, at)] or places
        if places:
            del fields[r.choice(places)]


def needed_in_group(fields, at):
    """Whether a member that is required on a condition is required in its group."""
    label = fields[at][0]
    if label not in NEEDS.values():
        return True
    start = end = at
    while start > 0 and fields[start][0] != TEST:
        start -= 1
    while end < len(fields) and (end == start or MEMBER_OF.get(fields[end][0]) == TEST):
        end += 1
    return any(NEEDS.get(other) == label for other, _ in fields[start:end])


def bad_sum(r, _set_type, fields, _head):
    right = sum(map(len, lines_of(fields)))
    wrong = {right - 1, right + 1, right + 9, right - 14, right - 2 * len(fields), right + 10000, right ^ 1, 0, 99999, r.randrange(100000)}
    fields[1] = (8100, b"%05d" % r.choice([value for value in wrong if value != right and 0 <= value <= 99999]))


def high_byte(r, _set_type, fields, head):
    """Makes the set seven-bit, and one to three of its contents not, often the first or the last that can have such a byte."""
    make_seven_bit(r, fields, head)
    able = [at for at in range(head, len(fields)) if takes_high(fields[at][0])]
    for _ in range(r.choice((1, 1, 2, 3))):
        at = r.choice((able[0], able[-1], r.choice(able)))
        fields[at] = (fields[at][0], raised(r, fields[at][1]))


FIELD_FAULTS = {
    8: no_start,
    9: unknown_set,
    10: no_sum,
    11: not_in_set,
    12: stray,
    13: repeated,
    14: bad_content,
    15: other_version,
    16: missing,
    17: bad_sum,
    24: high_byte,
}

# ---- Faults in the lines of a set, by number; if there is a choice, in the line of place `at` ---------------------------------------


def bad_length(r, lines, at):
    way = r.randrange(3)
    if way == 0:
        return lines[:at] + [lines[at][: r.randint(1, 2)]]
    if way == 1:
        return lines + [r.choice((b"0", b"01", b"x", b"\r\n", b"\x00"))]
    bad = r.choice((b"009", b"000", b"001", b"0a3", b" 13", b"01:", b"/13", b"1 3", b"-13", b"\xb213", b"01/", b":10"))
    return lines[:at] + [bad + lines[at][3:]] + lines[at + 1 :]


def cut_line(r, lines, at):
    way = r.randrange(3 if len(lines[-1]) < MOST_LINE - 1 else 2)
    if way == 0:
        return lines[:at] + [lines[at][: r.randint(3, len(lines[at]) - 1)]]
    if way == 1:
        return lines + [r.choice((b"013800", b"010", b"0103000", b"999", b"01030001\r"))]
    length = r.choice((len(lines[-1]) + 1, len(lines[-1]) + 2, MOST_LINE))
    return lines[:-1] + [b"%03d" % length + lines[-1][3:]]


def bad_end(r, lines, at):
    old = lines[at]
    ends = [old[:-2] + end for end in (b"\n\r", b"\r\r", b"\n\n", b"  ", b"\r ", b" \n", b"00")]
    if at + 1 < len(lines):
        ends.append(b"%03d" % (len(old) + 1) + old[3:])
    if len(old) > 10:
        ends.append(b"%03d" % (len(old) - 1) + old[3:])
    return lines[:at] + [r.choice(ends)] + lines[at + 1 :]


def bad_label(r, lines, at):
    return lines[:at] + [replaced(lines[at], r.randint(3, 6), r.choice(NO_DIGITS))] + lines[at + 1 :]


def bad_byte(r, lines, at):
    place = r.choice((7, len(lines[at]) - 3, r.randint(7, len(lines[at]) - 3)))
    return lines[:at] + [replaced(lines[at], place, r.choice(LOW_BYTES))] + lines[at + 1 :]


LINE_FAULTS = {2: bad_length, 3: cut_line, 4: bad_end, 5: bad_label, 6: bad_byte}

# ---- Sets that are full, and what is too much after them -----------------------------------------------------------------------------

PLAIN = (6228, b"x")
# Fields that a fast reader may take by themselves: a rare first byte, a long content, one that looks like the start of a set; and by its number what a rule
# refuses at this field. Wherever they stand, the 513th line of a set, or the 512th entry of a list, is one too many.
UNUSUAL_KEPT = [(6228, content) for content in (b"\xfe", b"\xff", b"\xff" * 60, b"\xfe" + b"x" * 31, b"x" * 60, b"8000", b"0138000")] + [(8410, b"\xff")]
UNUSUAL_REFUSED = {
    11: [(0, b"7"), (9999, b"\xff")],
    12: [(8420, b"1"), (6331, b"x")],
    13: [(8100, b"00051"), (8402, b"\xfe")],
    14: [(6228, b"x" * 61), (6228, b"x" * MOST_CONTENT), (6226, b"x"), (9218, b"\xfe2.10")],
    15: [(9218, b"02.00")],
    16: [(6330, b"x")],
}
UNUSUAL = UNUSUAL_KEPT + [field for fields in UNUSUAL_REFUSED.values() for field in fields]
UNUSUAL_ENTRIES = UNUSUAL + [(6228, b""), (6228, b"x" * (MOST_CONTENT + 1)), (8000, b"6310")]  # with those that no line has
UNUSUAL_EARLY = UNUSUAL_KEPT[:1] + [fields[0] for fields in UNUSUAL_REFUSED.values()]
LAST, EARLY = MOST_LINES - 1, 5  # places of lines, counted from 0


def full(field, at=LAST):
    """The fields of a 6310 set of as many lines as there may be, with this one at a place. No other field of it is refused."""
    fields = [(8000, b"6310"), (8100, None), (3000, b"7"), (8402, b"EKG01")] + [(9218, b"02.10")] * (field[0] != 9218)
    fields += [PLAIN] * (MOST_LINES - 1 - len(fields))
    return fields[:at] + [field] + fields[at:]


def far(r, lines, count):
    """A set of this many lines, those from the third on of 999 bytes: places that 16 bits do not hold."""
    return lines[:2] + [line(6228, prose(r, MOST_CONTENT))] * (count - 2)


def too_many(r, lines):
    """After 512 lines another line, or anything but another set."""
    return lines + [r.choice((line(3000, b"7"), b"x", b"0138000"[:6], line(6228, b"one more") * 2, b"\x00\x00\x00\x00\x00\x00\x00\x00"))]


# ---- Faults in the entries of a list or sheet -------------------------------------------------------------------------------------


def cut_entries(r, found):
    """The last entry, or an inner one, runs past the end."""
    at = r.randrange(len(found))
    rest = sum(map(len, found[at:]))
    way = r.randrange(3 if rest <= 65535 else 2)
    if way == 0:
        return found[:at] + [found[at][: r.randint(1, len(found[at]) - 1)]]
    if way == 1:
        return found + [r.choice((b"\x00", b"\x01\x00", b"\x01\x00\x04", b"\x01\x00\x04\x00", b"\xff\xff\xff\xff"))]
    return found[:at] + [struct.pack("<H", r.choice((rest - 3, rest, 65535))) + found[at][2:]] + found[at + 1 :]


def far_entries(r, found, count, lengths):
    """A list of this many entries, those from the second on long."""
    return found[:1] + [entry(6228, prose(r, r.choice(lengths)))] * (count - 1)


def too_many_entries(r, found):
    """After 511 entries another one, or anything."""
    return found + [r.choice((entry(6228, b"one more"), b"\x00", entry(3000, b"\x07"), entry(10000, b"7")))]


def label_over(r, found):
    """A label over 9999."""
    at = r.randrange(len(found))
    label = r.choice((10000, 10001, 18000, 65535))
    return found[:at] + [found[at][:2] + struct.pack("<H", label) + found[at][4:]] + found[at + 1 :]


def low_entry(r, found):
    """A content byte under 20h in an entry that has a content."""
    full = [at for at, data in enumerate(found) if len(data) > 4]
    if full:
        at = r.choice(full)
        place = r.choice((4, len(found[at]) - 1, r.randint(4, len(found[at]) - 1)))
        found[at] = replaced(found[at], place, r.choice(LOW_BYTES))
    return found


# ---- Blind damage -----------------------------------------------------------------------------------------------------------------


def scrambled(r, data):
    """Bytes with one to three of them changed, put in, taken out or doubled, anywhere."""
    for _ in range(r.choice((1, 1, 2, 3))):
        at = r.randint(0, len(data))
        to = min(len(data), at + r.choice((1, 1, 2, 13, 14, 30)))
        way = r.randrange(5)
        if way == 0:
            data = data[:at] + bytes([r.randrange(256)]) + data[at + 1 :]
        elif way == 1:
            data = data[:at] + r.choice((b"0", b"1", b"9", b"8", b"\r", b"\n", b"\r\n", b"8000", b"0138000")) + data[at:]
        elif way == 2:
            data = data[:at] + data[to:]
        elif way == 3:
            data = data[:to] + data[at:]
        else:
            places = [i for i in range(len(data)) if data[i : i + 1].isdigit()]
            if places:
                data = replaced(data, r.choice(places), r.choice(b"0123456789"))
    return data
