"""cables.py: blocks of the serial cable and records of its two ends: right ones, foreign ones, and those at the edges; which row of a rule table a case meets, and
the line that the table says. Assumes harness/sets.py; a record is a dictionary of its numbers, by the names that stream.py has for them."""
import re

import sets
from days import MOST_NUMBER, small_set
from rows import SET_TABLES
from stream import LINK, RECEIVER, Case

SEPARATOR = b"\x1c"
ACK_1, ACK_0 = b"\x061", b"\x060"
MOST_DATA, MOST_BLOCK, FRAME = 128, 137, 9
LAST_COUNT = 9
B00, B01, B02 = range(3)
IDLE, UNDER_WAY, DELIVERED, GIVEN_UP = range(4)
FILLERS = (6205, 6220, 6221, 6227, 6228)  # labels of 6310 that repeat, of 1 to 60 bytes of any kind
LEAST_FILLER, MOST_FILLER = 9, 68  # bytes that such a line has in the data, its 1Ch with it
EDGE_LENGTHS = (127, 128, 129, 129, 255, 256, 256, 257, 384, 385)
NOISE = b"\xaa0\r\n8zZ\x1c"

# ---- Blocks ------------------------------------------------------------------------------------------------------------------------


def crc_step(rest):
    for _ in range(8):
        rest = (rest << 1 ^ (0x8005 if rest & 0x8000 else 0)) & 0xFFFF
    return rest


CRC_STEPS = [crc_step(byte << 8) for byte in range(256)]


def crc(data, rest=0):
    for byte in data:
        rest = (rest << 8 & 0xFF00) ^ CRC_STEPS[rest >> 8 ^ byte]
    return rest


def reflected_crc(data):
    """The other CRC of the same polynomial, lowest bit first: a wrong one here."""
    rest = 0
    for byte in data:
        rest ^= byte
        for _ in range(8):
            rest = rest >> 1 ^ (0xA001 if rest & 1 else 0)
    return rest


def next_count(count):
    return 1 if count >= LAST_COUNT else count + 1


def joined(data):
    """The data of a set: its lines with 1Ch between them."""
    return data[:-2].replace(b"\r\n", SEPARATOR)


def pieces(data):
    """The data cut for the blocks."""
    if len(data) <= MOST_DATA:
        cut = data.index(SEPARATOR) + 1
        return [data[:cut], data[cut:]]
    return [data[at : at + MOST_DATA] for at in range(0, len(data), MOST_DATA)]


def block(count, label, data):
    head = b"%dB0%d" % (count, label) + data
    return head + b"%04X\r" % crc(head)


def renewed(found):
    """A block with its CRC made anew; all but its last five bytes stay."""
    return found[:-5] + b"%04X\r" % crc(found[:-5])


def has_form(found):
    return re.fullmatch(rb"[0-9]B0[0-2][\x1c\x20-\xff]{0,128}[0-9A-F]{4}\r", found) is not None


def has_crc(found):
    return found[-5:-1] == b"%04X" % crc(found[:-5])


def bytes_of(label, data):
    """The bytes of a set that a block stands for."""
    return data.replace(SEPARATOR, b"\r\n") + (b"\r\n" if label == B02 else b"")


# ---- Sets by the length of their data ------------------------------------------------------------------------------------------------


def filler(r, length):
    """A field that has this many bytes in the data, its 1Ch with it."""
    label = r.choice(FILLERS)
    return label, sets.fitting_of(r, label, length - 8)


def fields_of_data(r, length):
    """The fields of a 6310 set of which the data have this many bytes, 55 or more."""
    able = [(a, b) for a in range(1, 11) for b in range(1, 7) if length - 53 - a - b == 0 or length - 53 - a - b >= LEAST_FILLER]
    patient, test = r.choice(able)
    body = [(9218, b"02.10"), (3000, sets.fitting_of(r, 3000, patient)), (8402, sets.fitting_of(r, 8402, test))]
    left = length - 53 - patient - test
    count = -(-left // MOST_FILLER)
    for more in reversed(range(count)):
        size = r.randint(max(LEAST_FILLER, left - MOST_FILLER * more), min(MOST_FILLER, left - LEAST_FILLER * more))
        body.append(filler(r, size))
        left -= size
    r.shuffle(body)
    return [(8000, b"6310"), (8100, None)] + body


def set_of_data(r, length):
    """A set of which the data have this many bytes."""
    return b"".join(sets.lines_of(fields_of_data(r, length)))


def set_with_separator(r, place):
    """A set of which the data have a 1Ch at this place."""
    more = [filler(r, r.choice((LEAST_FILLER, r.randint(LEAST_FILLER, MOST_FILLER), MOST_FILLER))) for _ in range(r.randint(1, 3))]
    return b"".join(sets.lines_of(fields_of_data(r, place) + more))


def largest_set():
    """A set of 512 lines with contents as long as they may be: 270 blocks."""
    fields = [(8000, b"6310"), (8100, None), (9218, b"02.10"), (3000, b"0123456789"), (8402, b"EKG012")]
    return b"".join(sets.lines_of(fields + [(6228, b"x" * 60)] * (sets.MOST_LINES - len(fields))))


def cut_set(r):
    """A set whose data are cut at an edge: just before a 1Ch, just after it, in full blocks, with one byte left."""
    cut = MOST_DATA * r.choice((1, 1, 2, 3))
    return r.choice((set_of_data(r, r.choice(EDGE_LENGTHS)), set_with_separator(r, cut), set_with_separator(r, cut - 1)))


# ---- Records and replies -------------------------------------------------------------------------------------------------------------


def large(r):
    return r.choice((10, 11, 255, 256, 257, 2**31, 2**32, 2**32 + 1, 2**63, MOST_NUMBER - 1, MOST_NUMBER, r.randrange(10, 2**64)))


def other_phase(r):
    return r.choice((4, 5, 255, 256, 257, 258, 2**32, 2**32 + 1, 2**63, MOST_NUMBER))


def some_count(r):
    """A count: often the first or the last, now and then one that no call left."""
    return r.choice((0, 1, 8, 9, r.randint(0, LAST_COUNT), r.randint(0, LAST_COUNT), r.randint(0, LAST_COUNT), large(r)))


def block_number(r, count):
    """The number of a block of a set that has this many, often the last."""
    return r.choice((0, count - 1, count - 1, r.randrange(count), r.randrange(count)))


def no_block(r, count):
    """A number that no block of such a set has; some of them are one if they are cut to 32 bits, or if their place in the data is too large a number."""
    return r.choice((count, count, count + 1, 2**31, 2**32, 2**32 + 1, 2**57, 2**57 + 1, 2**62 + 1, MOST_NUMBER - 1, MOST_NUMBER))


def place_in_set(r, at_last):
    """How many blocks a set has, and the number of its last block or of another one; one in four times numbers that no call left."""
    if r.random() < 0.25:
        if at_last:
            return r.choice(((0, 0), (0, 5), (0, MOST_NUMBER), (1, 0), (1, 7), (3, 3), (270, 2**32), (9, MOST_NUMBER), (MOST_NUMBER, MOST_NUMBER - 1)))
        return r.choice(((MOST_NUMBER, 0), (MOST_NUMBER, MOST_NUMBER - 2), (2**32 + 2, 2**32), (2**32 + 1, 2), (300, 298)))
    blocks = r.choice((2, 2, 3, 9, 10, 11, 270, r.randint(2, 270)))
    return blocks, blocks - 1 if at_last else r.choice((0, blocks - 2, r.randrange(blocks - 1)))


def link_of(r, phase, at_last, errors, attempt):
    """A record of the sender in this phase: at its last block or before it, with an error noted or not, in the first or in the second attempt. Each number may be
    one that no call left."""
    blocks, number = place_in_set(r, at_last)
    return {
        "phase": phase,
        "blocks": blocks,
        "attempt": r.choice((1, 1, 1, 0) if attempt == 1 else (2, 2, 3, large(r))),
        "number": number,
        "errors": r.choice((1, 1, 1, 2, large(r))) if errors else 0,
        "count": some_count(r),
    }


def any_link(r):
    """A record of the sender in any phase."""
    phase = r.choice((IDLE, UNDER_WAY, DELIVERED, GIVEN_UP, other_phase(r)))
    if phase == IDLE and r.random() < 0.6:
        return dict.fromkeys(LINK, 0)
    return link_of(r, phase, r.random() < 0.4, r.random() < 0.4, r.choice((1, 2)))


def no_ack(r):
    """A reply that is an error: ACK 0, none, or other bytes."""
    one = r.choice((b"\x06", b"1", b"0", b"\r", b"\x00"))
    two = r.choice((b"1\x06", b"\x062", b"\x06\x01", b"\x06\xb1", b"\x151", b"\x861", b"\x00\x00"))
    three = r.choice((b"\x0611", b"\x061\r", b" \x061", b"\x0601"))
    more = r.choice((b"\x061" * 2, b"\x060" * 2, b"\x061\r\n", block(1, B02, b"0103")))
    random_bytes = bytes(r.randrange(256) for _ in range(r.choice((2, 2, 3, 9))))
    reply = r.choice((ACK_0, ACK_0, b"", b"", one, two, three, more, random_bytes))
    return ACK_0 if reply == ACK_1 else reply


def some_data(r):
    """Data of a block: a part of a set's, cut anywhere, or bytes of all kinds."""
    length = r.choice((0, 1, 2, 11, 12, 13, 64, 127, 128, 128, r.randint(0, MOST_DATA), r.randint(0, MOST_DATA)))
    way = r.random()
    if way < 0.6:
        data = joined(set_of_data(r, r.randint(150, 400)))
        at = r.randrange(len(data) - length + 1)
        return data[at : at + length]
    if way < 0.7:
        return SEPARATOR * length
    if way < 0.85:
        data = bytes(r.randrange(0x20, 0x100) for _ in range(length))
        return (SEPARATOR + data[1:-1] + SEPARATOR)[:length] if r.random() < 0.5 else data
    return bytes(r.choice(b"\x1c\x20\x7f\x80\xff0A") for _ in range(length))


# ---- What is wrong with a block --------------------------------------------------------------------------------------------------------


def wrong_crc(r, found):
    """A block with four other digits: those of a CRC that is made wrongly, or with one digit changed."""
    head = found[:-5]
    right = crc(head)
    swapped = right >> 8 | right << 8 & 0xFF00
    other_bytes = r.choice((crc(head[4:]), crc(head[1:]), crc(head[:-1]), crc(head + b"\r")))
    other_way = r.choice((crc(head, 0xFFFF), reflected_crc(head), right ^ 0xFFFF, swapped))
    other = r.choice((right ^ 1 << r.randrange(16), other_bytes, other_way, 0, r.randrange(65536)))
    return head + b"%04X\r" % (other if other != right else right ^ 1)


def wrong_data(r, found):
    """A block that keeps its form and its four digits, with something before them changed."""
    head, at = found[:-5], r.randrange(len(found) - 5)
    if at == 0:
        return r.choice([b"%d" % count for count in range(10) if b"%d" % count != found[:1]]) + found[1:]
    if at < 4:
        return found[:3] + r.choice([b"%d" % label for label in range(3) if b"%d" % label != found[3:4]]) + found[4:]
    way = r.randrange(4)
    if way == 0:
        head = head[:at] + head[at + 1 :]
    elif way == 1 and len(found) < MOST_BLOCK:
        head = head[:at] + head[at : at + 1] + head[at:]
    elif way == 2:
        head = head[:at] + r.choice((SEPARATOR, b" ", b"\xff", bytes([r.randrange(0x20, 0x100)]))) + head[at + 1 :]
    else:
        bits = [byte for byte in (head[at] ^ 1 << bit for bit in range(8)) if byte >= 0x20 or byte == SEPARATOR[0]]
        head = sets.replaced(head, at, r.choice(bits))
    return head + found[-5:]


def not_its_crc(r, found):
    """A block that has the form of one, but not the right CRC."""
    other = r.choice((wrong_crc, wrong_data))(r, found)
    return other if has_form(other) and not has_crc(other) else wrong_crc(r, found)


def low_data(r, found):
    """A block with a data byte that is under 20h, and no 1Ch."""
    data = found[4:-5] or b"x"
    low = r.choice([byte for byte in range(0x20) if byte != SEPARATOR[0]])
    return renewed(found[:4] + sets.replaced(data, r.randrange(len(data)), low) + found[-5:])


def long_block(r, found):
    """A block of more than 128 data bytes."""
    data = (found[4:-5] or b"x") * (MOST_DATA + 1)
    return renewed(found[:4] + data[: r.choice((129, 130, 136, 255, 256))] + found[-5:])


def bad_digits(r, found):
    """A block with lower-case digits, with another byte among them, or with three."""
    digits = found[-5:-1]
    other = sets.replaced(digits, r.randrange(4), r.choice(b"abcdefgG@:/ \x1c\r\x00\xc1"))
    return found[:-5] + r.choice((digits.lower(), other, other, digits[1:])) + found[-1:]


BAD_COUNTS = (b"/", b":", b"a", b" ", b"\x00", b"\xb1", b"")
BAD_LABELS = (b"b00", b"A00", b"C00", b"B10", b"B03", b"B0/", b"B0:", b"B0", b"BB00", b"BO0", b"B20", b"\x1c00")
BAD_ENDS = (b"\n", b"\r\n", b"\r\r", b"\r ", b"0", b"\x1c", b"\x00", b"")
NO_BLOCKS = (b"", b"\r", b"4B01\r", b"4B01000\r", ACK_1, small_set(b"7", True))

# Ways to take its form from a block. If it can be, the CRC is right.
BAD_FORMS = (
    lambda r, found: renewed(r.choice(BAD_COUNTS) + found[1:]),
    lambda r, found: renewed(found[:1] + r.choice(BAD_LABELS) + found[4:]),
    low_data,
    long_block,
    long_block,
    bad_digits,
    lambda r, found: found[:-1] + r.choice(BAD_ENDS),
    lambda r, found: found[: r.choice((1, 4, 8, r.randrange(len(found))))],
    lambda r, found: r.choice((*NO_BLOCKS, found[1:], found[:4] + b"\r", found[:3] + found[-5:])),
)


def malformed(r, found):
    """Bytes that have not the form of a block."""
    other = found
    while has_form(other):
        other = r.choice(BAD_FORMS)(r, found)
    return other


# ---- The rows of the receiver ----------------------------------------------------------------------------------------------------------

TAKES = ("0B00 afresh", "next B01", "next B02", "next B00")
AGAIN = ("again in an open set", "again after B02", "again, another label")
OUT_OF_TURN = ("0 with another label", "label out of turn, open", "label out of turn, none open", "another count", "nothing taken yet")
NO_ROOM = {row: "no room for " + row for row in TAKES}


def turn_for(r, row):
    """The receiver's record for a row, without its used length; the count and the label of a block."""
    yes = r.choice((1, 1, 1, 1, 2, 256, 2**32, MOST_NUMBER))
    last = r.choice((0, 1, 8, 9, r.randint(0, LAST_COUNT), r.randint(0, LAST_COUNT), large(r)))
    opened = r.choice((1, 1, 1, 2, 256, MOST_NUMBER))
    any_open = r.choice((0, opened))
    if row == "0B00 afresh":
        started = r.choice((0, 0, yes))
        return {"started": started, "last": last if started or r.random() < 0.3 else 0, "open": any_open if started or r.random() < 0.3 else 0}, 0, B00
    if row == "0 with another label":
        return {"started": r.choice((0, yes, yes)), "last": last, "open": any_open}, 0, r.choice((B01, B02))
    if row == "nothing taken yet":
        count = r.randint(1, LAST_COUNT)
        foreign = {"started": 0, "last": r.choice((count, count - 1, last)), "open": any_open}
        return r.choice(({"started": 0, "last": 0, "open": 0}, foreign)), count, r.choice((B00, B01, B02))
    if row in AGAIN:
        count = r.randint(1, LAST_COUNT)
        is_open, label = {AGAIN[0]: (opened, r.choice((B00, B01))), AGAIN[1]: (0, B02)}.get(row) or r.choice(((opened, B02), (0, B00), (0, B01)))
        return {"started": yes, "last": count, "open": is_open}, count, label
    if row == "another count":
        count = r.choice([count for count in range(1, LAST_COUNT + 1) if count not in (last, next_count(last))])
        near = next_count(next_count(last))
        return {"started": yes, "last": last, "open": any_open}, near if near != last and r.random() < 0.3 else count, r.choice((B00, B01, B02))
    is_open, label = {
        "next B01": (opened, B01),
        "next B02": (opened, B02),
        "next B00": (0, B00),
        "label out of turn, open": (opened, B00),
        "label out of turn, none open": (0, r.choice((B01, B02))),
    }[row]
    return {"started": yes, "last": last, "open": is_open}, next_count(last), label


def noise(r, length):
    return bytes(r.choice(NOISE) for _ in range(length))


def front(r, length):
    """This many bytes of a set that was received in part."""
    return (small_set(b"7", False) + set_of_data(r, 300))[:length].ljust(length, b"x")


def receiving(r, row, enough):
    """What the receiver is given for a row: its record, a buffer with enough room or not, and a right block."""
    record, count, label = turn_for(r, row)
    data = some_data(r)
    looked_at = row in ("next B01", "next B02")
    used = r.choice((0, 1, 13, 51, r.randint(0, 300)))
    start = used if looked_at else 0
    if not enough and row in TAKES and start == 0 and not bytes_of(label, data):
        data = b"x"
    need = start + len(bytes_of(label, data))
    room = need + r.choice((0, 0, 1, r.randrange(60), 300))
    buffer = front(r, min(used, room)) + noise(r, max(0, room - used))
    if not enough:
        buffer = buffer[: r.choice((need - 1, need - 1, max(0, need - 2), r.randrange(need), 0)) if need else 0]
        if looked_at and r.random() < 0.3:
            near = MOST_NUMBER - r.choice((0, 1, 2, 3, len(data), len(data) + 1, need - start, need - start + 1, 256))
            used = r.choice((len(buffer) + 1, 2**32, 2**63, near, near, near))
    elif not looked_at and r.random() < 0.4:
        used = r.choice((len(buffer) + 1, len(buffer) + 2, 2**32, 2**63, MOST_NUMBER - 130, MOST_NUMBER - 1, MOST_NUMBER))
    return {**record, "used": used, "buffer": buffer, "block": block(count, label, data)}


def need_of(args):
    """The used length after a block, as a number of any size."""
    label, data = args["block"][3] - ord("0"), args["block"][4:-5]
    return (0 if label == B00 else args["used"]) + len(bytes_of(label, data))


def receive_row(args):
    """The row of the receiver that a case meets, and its line."""
    found, buffer = args["block"], args["buffer"]
    if not has_form(found):
        return "bad form", "refused 25 0 0 kept"
    if not has_crc(found):
        return "bad CRC", "refused 26 0 0 kept"
    count, label, is_open = found[0] - ord("0"), found[3] - ord("0"), args["open"] != 0
    row = None
    if count == 0:
        row = "0B00 afresh" if label == B00 else "0 with another label"
    elif args["started"] == 0:
        row = "nothing taken yet"
    elif count == args["last"]:
        row = AGAIN[2] if is_open == (label == B02) else AGAIN[0] if is_open else AGAIN[1]
        return row, "ok 2 %s %s" % (":".join(str(args[name]) for name in RECEIVER), buffer.hex())
    elif count != next_count(args["last"]):
        row = "another count"
    elif is_open == (label == B00):
        row = "label out of turn, open" if is_open else "label out of turn, none open"
    if row in OUT_OF_TURN:
        return row, "refused 25 0 0 kept"
    row = row or "next B0%d" % label
    need = need_of(args)
    if need > len(buffer):
        return NO_ROOM[row], "refused 22 %d 0 kept" % min(need, MOST_NUMBER)
    more = bytes_of(label, found[4:-5])
    made = (buffer[: need - len(more)] + more).ljust(len(buffer), b"\x00")
    return row, "ok %d 1:%d:%d:%d %s" % (3 if label == B02 else 1, count, label != B02, need, made.hex())


RECEIVE_MARKS = {
    "used over the buffer": lambda args: args["used"] > len(args["buffer"]),
    "used near 2^64": lambda args: args["used"] > MOST_NUMBER - 300,
    "last over 9": lambda args: args["last"] > LAST_COUNT,
    "started over 1": lambda args: args["started"] > 1,
    "open over 1": lambda args: args["open"] > 1,
    "no data": lambda args: len(args["block"]) == FRAME,
    "128 data bytes": lambda args: len(args["block"]) == MOST_BLOCK,
    "over 128 data bytes": lambda args: len(args["block"]) > MOST_BLOCK,
    "1Ch at the front": lambda args: args["block"][4:5] == SEPARATOR,
    "1Ch at the end": lambda args: args["block"][4:-5].endswith(SEPARATOR),
    "just enough room": lambda args: has_form(args["block"]) and need_of(args) == len(args["buffer"]),
}

# ---- The rows of the sender ------------------------------------------------------------------------------------------------------------

BEGINS = {
    DELIVERED: "begins after a delivered set",
    IDLE: "begins on an idle link",
    GIVEN_UP: "begins after a given-up set",
    UNDER_WAY: "begins while one is under way",
}
BEGINS_FOREIGN = "begins in a foreign phase"
AT_END = {DELIVERED: "a reply when delivered", IDLE: "a reply when idle", GIVEN_UP: "a reply when given up"}
AT_FOREIGN = "a reply in a foreign phase"

# For a reply while a set is under way: whether the block is the last one, whether an error was noted, and in which attempt; None for any.
REPLIES = {
    "ACK 1, blocks left": (False, None, None),
    "ACK 1, the last block": (True, None, None),
    "first error": (None, False, None),
    "second error, first attempt": (None, True, 1),
    "second error, second attempt": (None, True, 2),
}
SENDS = (*BEGINS.values(), BEGINS_FOREIGN, *AT_END.values(), AT_FOREIGN, *REPLIES)


def link_for(r, row):
    """The sender's record for a row, and the reply; None if a set begins."""
    for phase, name in [*BEGINS.items(), (other_phase(r), BEGINS_FOREIGN)]:
        if row == name:
            return {**any_link(r), "phase": phase}, None
    for phase, name in [*AT_END.items(), (other_phase(r), AT_FOREIGN)]:
        if row == name:
            return {**any_link(r), "phase": phase}, r.choice((ACK_1, no_ack(r)))
    at_last, errors, attempt = REPLIES[row]
    reply = ACK_1 if at_last is not None else no_ack(r)
    at_last = r.random() < 0.4 if at_last is None else at_last
    errors = r.random() < 0.4 if errors is None else errors
    return link_of(r, UNDER_WAY, at_last, errors, attempt or r.choice((1, 2))), reply


def told_send(phase, blocks, attempt, number, errors, count):
    """The line of a sender that is left with this record."""
    what, asked = (phase, (number, count)) if phase == UNDER_WAY else (phase if phase <= GIVEN_UP else IDLE, (0, 0))
    return "ok %d %d %d %d:%d:%d:%d:%d:%d" % (what, *asked, phase, blocks, attempt, number, errors, count)


def send_row(args):
    """The row of the sender that a case meets, and its line if it is not refused."""
    phase, blocks, attempt, number, errors, count = [args[name] for name in LINK]
    if args["begin"] != 0:
        found = pieces(joined(args["bytes"]))
        return BEGINS.get(phase, BEGINS_FOREIGN), told_send(UNDER_WAY, len(found), 1, 0, 0, next_count(count) if phase == DELIVERED else 0)
    if phase != UNDER_WAY:
        return AT_END.get(phase, AT_FOREIGN), told_send(phase, blocks, attempt, number, errors, count)
    if args["bytes"] == ACK_1 and number + 1 >= blocks:
        return "ACK 1, the last block", told_send(DELIVERED, blocks, attempt, number, errors, count)
    if args["bytes"] == ACK_1:
        return "ACK 1, blocks left", told_send(UNDER_WAY, blocks, attempt, number + 1, 0, next_count(count))
    if errors == 0:
        return "first error", told_send(UNDER_WAY, blocks, attempt, number, 1, count)
    if attempt <= 1:
        return "second error, first attempt", told_send(UNDER_WAY, blocks, 2, 0, 0, 0)
    return "second error, second attempt", told_send(GIVEN_UP, blocks, attempt, number, errors, count)


def heard(args):
    """The reply to a block that is under way; None if there is none to hear."""
    return args["bytes"] if args["phase"] == UNDER_WAY and args["begin"] == 0 else None


SEND_MARKS = {
    "blocks 0 or 1": lambda args: heard(args) is not None and args["blocks"] <= 1,
    "a block after the last": lambda args: heard(args) is not None and args["number"] >= args["blocks"],
    "block numbers over 2^32": lambda args: heard(args) is not None and args["number"] >= 2**32,
    "attempt 0": lambda args: heard(args) is not None and args["attempt"] == 0,
    "attempt over 2": lambda args: heard(args) is not None and args["attempt"] > 2,
    "errors over 1": lambda args: heard(args) is not None and args["errors"] > 1,
    "count over 9": lambda args: (heard(args) is not None or args["phase"] == DELIVERED) and args["count"] > LAST_COUNT,
    "ACK 0": lambda args: heard(args) == ACK_0,
    "no reply": lambda args: heard(args) == b"",
    "a reply of one byte": lambda args: len(heard(args) or b"") == 1,
    "another reply of two bytes": lambda args: len(heard(args) or b"") == 2 and heard(args) not in (ACK_0, ACK_1),
    "a reply of three bytes": lambda args: len(heard(args) or b"") == 3,
    "begin over 1": lambda args: args["begin"] > 1,
}

# ---- The blocks of a set ---------------------------------------------------------------------------------------------------------------

BLOCKS = ("B00 of two", "B02 of two", "B00 of more", "B01", "B02 of more", "no such block", "count over 9")


def block_row(args):
    """What a case asks of a set that is accepted and alone, and its line."""
    found = pieces(joined(args["set"]))
    number, last = args["number"], len(found) - 1
    if args["count"] > LAST_COUNT or number > last:
        return "count over 9" if args["count"] > LAST_COUNT else "no such block", "ok 0 " + "00" * MOST_BLOCK
    label = B00 if number == 0 else B02 if number == last else B01
    made = block(args["count"], label, found[number])
    name = "B0%d" % label + ("" if label == B01 else " of two" if last == 1 else " of more")
    return name, "ok %d %s" % (len(made), made.hex().ljust(2 * MOST_BLOCK, "0"))


def piece_of(args):
    """The data of the block that is asked for, and what follows them; no bytes if there is no such block."""
    data = joined(args["set"])
    found = pieces(data)
    if args["number"] >= len(found) or args["count"] > LAST_COUNT:
        return b"", b""
    return found[args["number"]], b"".join(found[args["number"] + 1 :])


BLOCK_MARKS = {
    "1Ch just before a cut": lambda args: len(piece_of(args)[0]) == MOST_DATA and piece_of(args)[0].endswith(SEPARATOR) and piece_of(args)[1] != b"",
    "1Ch just after a cut": lambda args: piece_of(args)[1].startswith(SEPARATOR) or piece_of(args)[0].startswith(SEPARATOR),
    "a last block of 128 bytes": lambda args: len(piece_of(args)[0]) == MOST_DATA and piece_of(args)[1] == b"",
    "a last block of one byte": lambda args: len(piece_of(args)[0]) == 1 and piece_of(args)[1] == b"",
}

# ---- All rows ------------------------------------------------------------------------------------------------------------------------

REFUSED = "refused as the set is"

# Of each call its rows, the function that finds the row of a case, and the marks that a case may have.
ROWS = {
    "b": ((*BLOCKS, REFUSED), block_row, BLOCK_MARKS),
    "s": ((*SENDS, REFUSED), send_row, SEND_MARKS),
    "t": (("bad form", "bad CRC", *TAKES, *AGAIN, *OUT_OF_TURN, *NO_ROOM.values()), receive_row, RECEIVE_MARKS),
}
NO_ROWS = ((), None, {})  # of the other calls


def rows_met(case, line):
    """The row and the marks that a case meets, and the line that it should have. By what a set is refused is not asked here: that line is taken as it is."""
    _, row_of, marks = ROWS[case.call]
    if case.call != "t" and line.startswith("refused"):
        return [REFUSED], line
    row, right = row_of(case.args)
    return [row, *(mark for mark, has in marks.items() if has(case.args))], right


# ---- Cases at the edges --------------------------------------------------------------------------------------------------------------

FRESH_LINK = (0, 0, 0, 0, 0, 0)


def asking(number, count, data):
    return Case("b", {"number": number, "count": count, "set": data})


def sending(link, begin, data):
    return Case("s", {**dict(zip(LINK, link)), "begin": begin, "bytes": data})


def taking(receiver, buffer, found):
    return Case("t", {**dict(zip(RECEIVER, receiver)), "buffer": buffer, "block": found})


def block_edges(r):
    """For gdt_block: numbers and counts around those that P has; sets of every type that are cut once; every block of sets whose data have a length around
    128 and 256 bytes; a 1Ch at every place around a cut; the largest set."""
    p = small_set(b"0", False)
    for number in (0, 1, 2, 3, 2**32, 2**32 + 1, 2**57 + 1, 2**62 + 1, MOST_NUMBER):
        for count in (*range(11), 48, 2**32, MOST_NUMBER):
            yield asking(number, count, p)
    for set_type in SET_TABLES:
        data = b"".join(sets.lines_of(sets.accepted(r, set_type, 0, short=True)))
        for number in range(len(pieces(joined(data))) + 1):
            yield asking(number, number % 10, data)
    for length in (*range(125, 132), *range(253, 260)):
        data = set_of_data(r, length)
        for number in range(len(pieces(joined(data))) + 1):
            yield asking(number, (number + 8) % 10, data)
    for place in range(118, 138):
        for number in range(2):
            yield asking(number, number, set_with_separator(r, place))
    for number in (0, 1, 134, 268, 269, 270):
        yield asking(number, 9, largest_set())


def send_edges(r):
    """For gdt_send: a set begins from each phase, with each count; each small number in a record that is under way; every end and foreign phase; the last
    block at the edges of the numbers; each reply that is nearly ACK 1."""
    p = small_set(b"0", False)
    for phase in (*range(6), 257, 2**32 + 2, MOST_NUMBER):
        for count in (0, 1, 8, 9, 10, MOST_NUMBER):
            yield sending((phase, 7, 2, 3, 1, count), 1, p)
        for reply in (ACK_1, ACK_0, b""):
            yield sending((phase, 3, 1, 1, 0, 4), 0, reply)
            yield sending((phase, MOST_NUMBER, MOST_NUMBER, MOST_NUMBER, MOST_NUMBER, MOST_NUMBER), 0, reply)
    for begin in (1, 2, 256, 2**32, MOST_NUMBER):
        yield sending(FRESH_LINK, begin, p)
        yield sending(FRESH_LINK, begin, largest_set())
    for blocks in range(4):
        for number in range(4):
            for attempt in range(4):
                for errors in range(3):
                    for reply in (ACK_1, ACK_0):
                        yield sending((UNDER_WAY, blocks, attempt, number, errors, (blocks + 3 * number + attempt) % 11), 0, reply)
    last = [(blocks, MOST_NUMBER - less) for blocks in (0, 1, MOST_NUMBER) for less in range(3)]
    for blocks, number in [*last, (2**32, 0), (2**32 + 1, 2**32)]:
        for count in (9, MOST_NUMBER):
            for reply in (ACK_1, ACK_0):
                yield sending((UNDER_WAY, blocks, 1, number, 0, count), 0, reply)
    near = [b"\x06" + bytes([byte]) for byte in (0, 1, 0x2F, 0x32, 0x71, 0xB1, 0x11)] + [bytes([byte]) + b"1" for byte in (0, 5, 7, 0x16, 0x26, 0x86, 0x31)]
    for reply in near + [b"\x06", b"1", b"1\x06", b"\x0611", b"\x061\r", b"\x061\x00", b"\x00\x061", b"\x06\x061", b"\x060" * 2, b"\x061" * 2, p]:
        for errors in range(2):
            yield sending((UNDER_WAY, 3, 1 + errors, 1, errors, 4), 0, reply)
    for length in range(len(p)):
        yield sending((DELIVERED, 3, 1, 2, 0, 4), 1, p[:length])


def damaged_blocks(found):
    """A block with each of its bits flipped, each byte left out, doubled or changed to a lower-case letter, and cut after each byte."""
    for at in range(len(found)):
        yield from (sets.replaced(found, at, found[at] ^ 1 << bit) for bit in range(8))
        yield found[:at] + found[at + 1 :]
        yield found[:at] + found[at : at + 1] + found[at:]
        yield found[:at]
        if found[at : at + 1].isupper():
            yield sets.replaced(found, at, found[at] | 0x20)


def receive_edges():
    """For gdt_receive: each damage of a block byte by byte; other counts and labels; each data byte under 20h; each length around the least and the greatest; each
    last count, count and label; each room around what a block needs; used lengths near 2^64; a set cut at every place."""
    p = small_set(b"0", False)
    data = joined(p)
    for found in damaged_blocks(block(0, B00, data[:9] + SEPARATOR)):
        yield taking((0, 0, 0, 0), b"x" * 40, found)
    for head in [count + b"B01" for count in BAD_COUNTS] + [b"4" + label for label in BAD_LABELS]:
        yield taking((1, 3, 1, 3), b"x" * 40, renewed(head + data[:12] + b"0000\r"))
    for byte in range(0x22):
        yield taking((1, 0, 1, 3), b"x" * 9, block(1, B01, bytes([byte])))
    for length in (*range(3), *range(126, 132)):
        for piece in (b"x" * length, SEPARATOR * length):
            yield taking((1, 3, 1, 3), b"x" * 300, block(4, B02, piece))
    for last in (0, 1, 8, 9, 10):
        for count in range(10):
            for label in range(3):
                for is_open in range(2):
                    yield taking((1, last, is_open, 3), b"abcxxxxxx", block(count, label, b"0" + SEPARATOR))
    for count, label in ((0, B00), (4, B01), (4, B02)):
        for room in range(10):
            yield taking((1, 3, 1, 3), b"abcxxxxxx"[:room], block(count, label, b"0" + SEPARATOR))
    for room in range(5):
        yield taking((1, 9, 0, MOST_NUMBER), b"xxxxx"[:room], block(1, B00, b"0" + SEPARATOR))
    for used in (*range(8, 11), 2**32 + 3, 2**63, *range(MOST_NUMBER - 6, MOST_NUMBER + 1)):
        for label in range(3):
            is_open = int(label != B00)
            yield taking((1, 3, is_open, used), b"abcxxxxxx", block(4, label, b"0" + SEPARATOR))
            yield taking((1, 4, is_open, used), b"abcxxxxxx", block(4, label, b"0" + SEPARATOR))
            yield taking((1, 3, is_open, used), b"abcxxxxxx", block(4, label, b""))
    for at in range(len(data) + 1):
        yield taking((0, 0, 0, 0), b"x" * 60, block(0, B00, data[:at]))
        yield taking((1, 9, 1, len(bytes_of(B00, data[:at]))), bytes_of(B00, data[:at]).ljust(60, b"x"), block(1, B02, data[at:]))
