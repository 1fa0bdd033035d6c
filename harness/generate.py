#!/usr/bin/env python3
"""generate.py SEED COUNT CALLS [--check] | rows | store: writes a stream of cases; --check runs it and prints how often each answer is met.
Assumes harness/sets.py and, for --check, the second program through harness/run; the same seed gives the same stream."""
import collections
import lzma
import os
import random
import sys
from typing import Callable, NamedTuple

import cables
import codes
import days
import sets
from rows import FIELDS, SET_TABLES, marked
from stream import CALLS, DAY_ENTRY, LAST_NUMBER, LISTS, NUMBERS, ROWS, SET_FAULTS, STORED, STREAMS, Case, answers, day_sets, entries, packed

FOUND_FIRST = range(2, 8)  # faults of lines that come before all rules
FAR = 0.05  # how many of the sets and lists with such faults have far places
ADDING = (2, 3, 11, 12, 13, 21, 24)  # faults that may add a line or an entry
SHARED = (6, 14, 24)  # faults that the set or the new content can have
BEFORE_24 = (6, 14, 18, 19, 20)  # faults that are found before a byte over 7Fh of a new content
CONTENT_ORDER = {"c": (19, 20, 6, 14, 24, 22), "v": (21, 19, 20, 6, 14, 24)}  # in which a new content is asked: another order than that of a set
CONTENT_ORDER["r"] = (18, 7, 27, 22, 7, 27)  # in which recoding is asked, after the set; then 7 beside 22, and beside 27 once more
MANY_LINES = 400
STORED_CASES, STORED_DAYS = 1200, 500  # of each call on sets, of each day call
STORED_SEED = 21
EDGES = 0.02  # how many of the cases of a call in FORMS are made by edge_case; those of the stored streams are put at their end, all of them

# Of a call's cases at least this many in a hundred must be accepted, meet each number, have over 400 lines (of a day call: sets); of lookups find a set.
LEAST_ACCEPTED, LEAST_NUMBER, LEAST_LONG, LEAST_FOUND = 30, 0.1, 1, 15
LEAST_ROW, LEAST_MARK = 1, 0.3  # of a call of the cable: each row of its rule table, each mark
LEAST_EDGE = 0.1  # of a call in FORMS: each of EDGE_MARKS
LEAST_STATE, LEAST_CODE = 1, 0.1  # of recode: accepted cases of each 9206 and each code page that is wanted, each other mark
LEAST_CORRECTED = {"that grow the set": 10, "that shrink the set": 10, "that fill the buffer to its last byte": 1}  # of the accepted corrections

# ---- Sets and lists with given faults: those that leave the least standing are made last ----------------------------------------------


def fields_for(r, faults):
    """Type and fields of an accepted set in which these faults can be made; one in fifty has over 400 lines."""
    if 7 in faults:
        return 6310, sets.accepted(r, 6310, sets.MOST_LINES, short=True)
    if r.random() < 0.02:
        most = sets.MOST_LINES - any(no in ADDING for no in faults)
        lines = r.choice((most, most - 1, r.randint(MANY_LINES + 1, most)))
        return 6310, sets.accepted(r, 6310, lines, short=r.random() < 0.9)
    set_type = 6310 if 12 in faults else r.choice((6310, *SET_TABLES))
    return set_type, sets.accepted(r, set_type, r.choice((0, 8, 14, r.randint(5, 40))), short=r.random() < 0.5)


def set_with(r, faults, seven_bit=False):
    """The lines of a set that has these faults; one that is accepted if there are none. It is seven-bit if that is asked."""
    if 1 in faults:
        return []
    set_type, fields = fields_for(r, [*faults, 24] if seven_bit else faults)
    if seven_bit:
        sets.make_seven_bit(r, fields, 2)
    for no in reversed(faults):
        if no in sets.FIELD_FAULTS and len(fields) > 2:
            sets.FIELD_FAULTS[no](r, set_type, fields, 2)
    lines = sets.lines_of(fields)
    if faults and all(no in FOUND_FIRST for no in faults) and r.random() < FAR:
        lines = sets.far(r, lines, sets.MOST_LINES if 7 in faults else r.randint(70, sets.MOST_LINES - 1))
    if 7 in faults:
        lines = sets.too_many(r, lines)
    at = r.randrange(len(lines))
    for no in reversed(faults):
        if no in sets.LINE_FAULTS and len(lines[-1]) >= sets.LEAST_LINE:
            lines = sets.LINE_FAULTS[no](r, lines, min(len(lines) - 1, r.choice((at, r.randrange(len(lines))))))
    return lines


def list_with(r, faults):
    """The entries of a list that has these faults, and what the writer would need for it."""
    if 1 in faults:
        return [], 0
    set_type, fields = fields_for(r, faults)
    fields = [field for field in fields if field[0] != 8100]
    for no in reversed(faults):
        if no in sets.FIELD_FAULTS and len(fields) > 1:
            sets.FIELD_FAULTS[no](r, set_type, fields, 1)
    found = sets.entries_of(fields)
    need = sum(map(len, found)) + 5 * len(found) + 14
    if faults and all(no in (6, 7, 21) for no in faults) and r.random() < FAR:
        found = sets.far_entries(r, found, sets.MOST_LINES - 1, [990]) if 7 in faults else sets.far_entries(r, found, 9, [990, 20000, 65535])
    for no in faults:
        if no == 6:
            found = sets.low_entry(r, found)
        if no == 7:
            found = sets.too_many_entries(r, found)
        if no == 21:
            found = r.choice((sets.cut_entries, sets.label_over))(r, found)
    return found, need


def follower(r):
    """Bytes after a set that are not judged: another set, good or not."""
    return r.choice((b"xyz8000", b"0138000", b"\x00\x01\x028000\xff", b"".join(set_with(r, ())), b"".join(set_with(r, (r.choice(SET_FAULTS[1:]),)))[:200]))


def begins_set(data):
    return data[3:7] == b"8000"


def room_for(r, need, enough):
    """A room that is enough, often just so, or one that is not."""
    if enough:
        return need + r.choice((0, 0, 1, r.randrange(60)))
    return r.choice((need - 1, need - 1, 0, r.randrange(need)))


# ---- A case of each call that has given faults --------------------------------------------------------------------------------------


def read_case(r, call, faults):
    """judge, index and list: a set, and for the last two a room."""
    data = b"".join(set_with(r, [no for no in faults if no in SET_FAULTS]))
    after = follower(r) if not faults and r.random() < 0.15 else b""
    args = {"set": data + after if begins_set(after) else data}
    if call != "j":
        lines = data.count(b"\r\n")
        need = lines if call == "i" else len(data) - 14 - 5 * (lines - 1)
        args["room"] = room_for(r, max(need, 1), 22 not in faults)
    return args


def write_case(r, faults):
    found, need = list_with(r, faults)
    return {"room": room_for(r, max(need, 1), 22 not in faults), "list": b"".join(found)}


def labels_in(lines):
    """The labels of lines that may be faulty; 3000 if there is none."""
    return [int(data[3:7]) if data[3:7].isdigit() and int(data[3:7]) in FIELDS else 3000 for data in lines]


def label_of(labels, line):
    """The label of a line, 3000 if there is no such line."""
    return labels[line - 1] if 0 < line <= len(labels) else 3000


def line_of(r, labels, faults):
    """A number of a line, for 19 one that no line has, for 20 a fixed one, for 24 one whose content can have a byte over 7Fh."""
    if 19 in faults:
        return r.choice((0, len(labels) + 1, len(labels) + 2, 513, 65535))
    if 20 in faults:
        return r.choice([at for at, label in enumerate(labels, 1) if label in sets.FIXED] or [1])
    return r.choice([at for at, label in enumerate(labels, 1) if label not in sets.FIXED and (24 not in faults or sets.takes_high(label))] or [1])


def is_seven_bit(lines):
    return sets.line(*sets.SEVEN_BITS) in lines


def content_of(r, label, faults, seven_bit):
    """A content for a line with this label, for 14 one that does not fit, for 24 one with a byte over 7Fh, for 6 one with a byte under 20h. In a seven-bit set
    it has a byte over 7Fh only if that is the fault, or if it is found to be at fault before."""
    content = sets.unfitting(r, label) if 14 in faults else sets.fitting(r, label)
    if seven_bit and not any(no in faults for no in BEFORE_24):
        content = sets.lowered(content)
    if 24 in faults:
        content = sets.raised(r, content or b"?")
    if 6 in faults:
        content = content or b"?"
        at = r.choice((0, len(content) - 1, r.randrange(len(content))))
        content = sets.replaced(content, at, r.choice(sets.LOW_BYTES))
    return content


def longer_line(r, lines, labels, seven_bit):
    """The number of a line that may have a longer content, and such a content; nothing if there is no such line."""
    able = []
    for number, (data, label) in enumerate(zip(lines, labels), 1):
        longer, most = len(data) - 8, FIELDS[label][1]
        if label not in sets.FIXED and 1 < longer <= most:
            able.append((number, label, r.randint(longer, most)))
    if not able:
        return None
    number, label, length = r.choice(able)
    content = sets.fitting_of(r, label, length)
    return number, sets.lowered(content) if seven_bit else content


def shared_faults(r, faults):
    """The faults that the set has: those that are a set's alone, and some of those that the new content can have, too."""
    own = [no for no in faults if no in SET_FAULTS]
    return [no for no in own if no not in SHARED or r.random() < 0.4]


def correct_case(r, faults):
    own = shared_faults(r, faults)
    new = [no for no in faults if no not in own]
    lines = set_with(r, own, 24 in new)
    labels = labels_in(lines) or [3000]
    line = line_of(r, labels, new)
    content = content_of(r, label_of(labels, line), new, is_seven_bit(lines))
    longer = longer_line(r, lines, labels, is_seven_bit(lines)) if new == [22] else None
    if new == [22] and not longer and not own:
        return correct_case(r, faults)
    if longer:
        line, content = longer
    data = b"".join(lines)
    used = len(data)
    growth = len(content) + 9 - len(lines[line - 1]) if 0 < line <= len(lines) else 0
    if 22 in new:
        spare = r.choice((0, max(growth, 1) - 1, r.randrange(max(growth, 1))))
    else:
        spare = max(growth, 0) + r.choice((0, 0, 1, r.randrange(40)))
    if 18 in new and r.random() < 0.5:
        data += r.choice((b"xyz8000", b"".join(set_with(r, ()))))
        used = len(data)
    elif 18 in new:
        used += spare + r.choice((1, 2, 1000, 2**32, 2**64 - 1 - used - spare))
    return {"used": used, "line": line, "content": content, "buffer": data + bytes(r.choice(b"\x00\xaa0\r\n8zZ") for _ in range(spare))}


def view_case(r, faults):
    own = shared_faults(r, faults)
    new = [no for no in faults if no not in own]
    lines = set_with(r, own, 24 in new)
    seven_bit = is_seven_bit(lines)
    labels = labels_in(lines) or [3000]
    asked_wrong = 19 in new and r.random() < 0.6
    sheet = []
    count = r.randint(513, 600) if r.random() < 0.01 else r.choice((0, 1, 2, 3, r.randrange(12)))
    for _ in range(count + (21 in new)):
        line = line_of(r, labels, ())
        sheet.append((line, content_of(r, labels[line - 1], (), seven_bit)))
    asked = [line for line, _ in sheet] * 2 + [1, 2, r.randint(1, len(labels)), r.randint(1, len(labels))]
    for no in new:
        if no in (20, *SHARED) or no == 19 and not asked_wrong:
            made = r.choice(((no,), [other for other in new if other >= no]))
            line = line_of(r, labels, made)
            content = content_of(r, label_of(labels, line), made, seven_bit)
            sheet.insert(r.randint(0, len(sheet)), (line, content))
    found = [sets.entry(line, content) for line, content in sheet]
    if 21 in new:
        found = sets.cut_entries(r, found)
    data = b"".join(lines)
    if 18 in new:
        data += r.choice((b"xyz8000", b"".join(set_with(r, ()))))
    line = r.choice((0, len(labels) + 1, 513, 2**32, 2**64 - 1)) if asked_wrong else r.choice(asked)
    return {"line": line, "set": data, "sheet": b"".join(found)}


# ---- A case of each day call that has given faults ------------------------------------------------------------------------------------


def place_for(r, faults, count):
    """Which of this many sets gets a fault. If it is the only one, it is a set in which it stays that fault: a line is cut only at the end of the file, and a set
    that does not start with 8000 would belong to the one before it."""
    if faults == (8,):
        return 0
    if len(faults) == 1 and faults[0] in (2, 3, 7):
        return count - 1
    return r.choice((0, count - 1, r.randrange(count), r.randrange(count)))


def damaged_file(r, faults):
    """A day file with these faults: those of sets in one of its sets, or each in another."""
    found = days.day_file(r, days.MOST_SETS + r.choice((1, 1, 2)) if 23 in faults else days.set_count(r))
    own = [no for no in faults if no in SET_FAULTS]
    for made in [own] if own and r.random() < 0.5 else [[no] for no in own]:
        found[place_for(r, faults, len(found))] = b"".join(set_with(r, made))
    return found


def build_case(r, faults):
    found = damaged_file(r, faults) if faults or r.random() < 0.95 else []
    after = follower(r) if len(faults) > 1 and r.random() < 0.1 else b""
    return {"lent": days.lent_for(r, len(found), 22 not in faults), "file": b"".join(found) + after}


def old_file(r, most):
    """What stands before an appended set, at most this many sets, with their index and its count; one in four is foreign, as neither is looked at."""
    found = days.day_file(r, min(most, days.set_count(r)) if r.random() < 0.85 else 0)
    data, index, count = b"".join(found), days.index_of(found), len(found)
    if r.random() < 0.25:
        data = r.choice((data, b"x", b"0138000", data[1:], data[:-1], b"".join(set_with(r, (r.choice(SET_FAULTS[1:]),)))[:300]))
        index = days.foreign(r, index)
        count = r.choice((0, len(index) // DAY_ENTRY, len(index) // DAY_ENTRY + 1, r.randrange(40)))
    elif r.random() < 0.01:
        count = days.MOST_SETS - 1
    return data, index, min(count, most)


def append_case(r, faults):
    data, index, count = old_file(r, days.MOST_SETS if 23 in faults else days.MOST_SETS - 1)
    old = len(data)
    data += b"".join(set_with(r, [no for no in faults if no in SET_FAULTS]))
    if 18 in faults and r.random() < 0.5:
        data += r.choice((b"xyz8000", b"".join(set_with(r, ())), b"".join(set_with(r, (r.choice(SET_FAULTS[8:]),)))))
    elif 18 in faults:
        old = len(data) + r.choice((1, 2, 1000, 2**32, days.MOST_NUMBER - len(data)))
    if 23 in faults:
        count = max(count, r.choice((days.MOST_SETS, days.MOST_SETS, days.MOST_SETS + 1, 2**32, 2**62 - 1, 2**62, days.MOST_NUMBER)))
    lent = days.lent_for(r, min(count, days.MOST_SETS) + 1, 22 not in faults)
    return {"old": old, "count": count, "lent": lent, "index": index[:lent], "file": data}


def find_case(r, faults):
    found = days.day_file(r, days.set_count(r))
    data, index = b"".join(found), days.index_of(found)
    asked = days.asked_at(r, data, r.choice(index[DAY_ENTRY - 1 :: DAY_ENTRY]))
    if r.random() < 0.3:
        index = days.foreign(r, index)
    if r.random() < 0.4:
        index = days.moved(r, data, index, asked)
    if r.random() < 0.1:
        data = days.bent(r, data, asked)
    need = days.matches(data, index, asked)
    if 22 in faults and need == 0:
        return find_case(r, faults)
    return {"room": room_for(r, need, 22 not in faults), "file": data, "index": index, "asked": asked}


# ---- A case of each call of the serial cable that has given faults ----------------------------------------------------------------------


def lone_set(r, faults):
    """A set to be sent: one with these faults, another one after it for 18; or one that is accepted, half of the times cut at an edge."""
    if not faults and r.random() < 0.03:
        return b"".join(sets.lines_of(sets.accepted(r, 6310, r.randint(MANY_LINES + 1, sets.MOST_LINES), short=r.random() < 0.9)))
    if not faults and r.random() < 0.5:
        return cables.cut_set(r)
    data = b"".join(set_with(r, [no for no in faults if no in SET_FAULTS]))
    return data + r.choice((b"xyz8000", b"".join(set_with(r, ())))) if 18 in faults else data


def block_case(r, faults):
    data = lone_set(r, faults)
    count = r.randint(0, cables.LAST_COUNT) if r.random() < 0.9 else cables.large(r)
    if faults:
        return {"number": r.choice((0, 0, 1, 2, cables.no_block(r, 2))), "count": count, "set": data}
    blocks = len(cables.pieces(cables.joined(data)))
    number = cables.block_number(r, blocks) if r.random() < 0.85 else cables.no_block(r, blocks)
    return {"number": number, "count": count, "set": data}


def send_case(r, faults):
    begin = r.choice((1, 1, 1, 1, 1, 2, 256, 2**32, days.MOST_NUMBER))
    if faults:
        return {**cables.any_link(r), "begin": begin, "bytes": lone_set(r, faults)}
    link, reply = cables.link_for(r, r.choice(cables.SENDS))
    return {**link, "begin": begin, "bytes": lone_set(r, ())} if reply is None else {**link, "begin": 0, "bytes": reply}


def receive_case(r, faults):
    """For 25 a block out of turn, or bytes that have not the form of a block; for 26 a wrong CRC; for 22 a small buffer."""
    turned = 25 in faults and r.random() < 0.75
    row = r.choice(cables.OUT_OF_TURN if turned else cables.TAKES if 22 in faults else cables.TAKES * 3 + cables.AGAIN * 2)
    args = cables.receiving(r, row, 22 not in faults)
    if 26 in faults:
        args["block"] = cables.not_its_crc(r, args["block"])
    if 25 in faults and not turned:
        args["block"] = cables.malformed(r, args["block"])
    return args


# ---- A case of recoding that has given faults -------------------------------------------------------------------------------------------


def state_for(r, faults):
    """A 9206 and a wanted code page with which these faults can be made: only a set that gains a line has too many of them or no room."""
    if 7 in faults or 22 in faults:
        return None, 1252
    return r.choice([state for state in codes.STATES if state[0] != b"1" and not codes.stays(*state)] if 27 in faults else codes.STATES)


def recode_fields(r, charset, wanted, faults):
    """The fields of an accepted set, of 512 lines for 7, for 27 with a character that the wanted code page has not."""
    full = (7,) if 7 in faults else (24,)  # 24 leaves room for a line
    fields = codes.recodable(r, fields_for(r, full)[1], charset, wanted)
    if 27 in faults:
        fields = codes.with_unknown(r, fields, wanted)
    return codes.filled(fields) if 7 in faults else fields


def recode_case(r, faults):
    own = [no for no in faults if no in SET_FAULTS and (no != 7 or 27 not in faults and r.random() < 0.5)]
    new = [no for no in faults if no not in own]
    charset, wanted = state_for(r, new)
    data = b"".join(set_with(r, own) if own else sets.lines_of(recode_fields(r, charset, wanted, new)))
    spare = r.choice((0, 9, r.randrange(10))) if 22 in new else len(codes.ADDED) + r.choice((0, 0, 1, r.randrange(40)))
    if (charset, wanted) != (None, 1252) and r.random() < 0.5:
        spare = r.choice((0, 0, 1, 9))
    used = len(data)
    if 18 in new and r.random() < 0.5:
        data += r.choice((b"xyz8000", b"".join(set_with(r, ()))))
        used = len(data)
    elif 18 in new:
        used += spare + r.choice((1, 2, 10, 1000, 2**32, 2**64 - 1 - used - spare))
    return {"wanted": wanted, "used": used, "buffer": data + bytes(r.choice(codes.NOISE) for _ in range(spare))}


MAKERS = {"w": write_case, "c": correct_case, "v": view_case, "d": build_case, "a": append_case, "f": find_case}
MAKERS.update({"b": block_case, "s": send_case, "t": receive_case, "r": recode_case})


def case_with(r, call, faults):
    if call in MAKERS:
        return Case(call, MAKERS[call](r, faults))
    return Case(call, read_case(r, call, faults))


# ---- Edges that faults at random places hardly meet -------------------------------------------------------------------------------------


class Form(NamedTuple):
    """What the edges of a set and of a list are made of: fields as lines or entries, the unusual ones, lengths that a content with an unknown label has, one line
    or entry too many, and what may stand after a full set or list."""

    pieces: Callable
    piece: Callable
    unusual: list
    lengths: tuple
    too_many: Callable
    after: tuple


AFTER_SET = (b"", b"x", b"013800", b"xyz8000", bytes(8), sets.line(6228, b"\x07"), b"0096228\r\n", b"9996228x\r\n", b"0106228x\r\r")
AFTER_LIST = (b"", b"\x00", sets.entry(10000, b"7"), sets.entry(3000, b"\x07"))
IN_SET = Form(sets.lines_of, sets.line, sets.UNUSUAL, (1, 60, 61, sets.MOST_CONTENT), sets.too_many, AFTER_SET)
IN_LIST = Form(sets.entries_of, sets.entry, sets.UNUSUAL_ENTRIES, (0, 1, 60, 61, sets.MOST_CONTENT + 1), sets.too_many_entries, AFTER_LIST)
FORMS = {**dict.fromkeys("jilcvdabsr", IN_SET), "w": IN_LIST}  # of each call that reads sets, and of the writer
EDGE_MARKS = ("11 for the label 0", "7 after an unusual last field")


def reading(call, data):
    """A case of a call that reads this set, or of the writer that reads this list. A day call has a set before it, correct and view a new content for line 4."""
    before = days.small_set(b"7", False) if "file" in CALLS[call][1] else b""
    given = dict.fromkeys(CALLS[call][1], 0)
    given.update({"room": 3 * len(data), "used": len(data), "line": 4, "content": b"7", "sheet": sets.entry(4, b"7")})
    given.update({"lent": 2 * DAY_ENTRY, "old": len(before), "count": 1, "index": [], "begin": 1, "wanted": 1252})
    given.update(dict.fromkeys(("set", "list", "buffer", "file", "bytes"), before + data))
    return Case(call, {name: given[name] for name in CALLS[call][1]})


def edge_case(r, call):
    """A case, and the number that it was made for: one field too many after an unusual last one; or the label 0, which no table has, with a content of any length."""
    form = FORMS[call]
    if r.random() < 0.5:
        fields = sets.accepted(r, 6310, sets.MOST_LINES - 2, short=True) + [sets.PLAIN, r.choice(form.unusual)]
        return reading(call, b"".join(form.too_many(r, form.pieces(fields)))), 7
    fields = sets.accepted(r, r.choice((*SET_TABLES,)), r.choice((0, 8, 14)), short=True)
    fields.insert(r.randint(2, len(fields)), (0, sets.prose(r, r.choice((*form.lengths, r.randint(1, sets.MOST_CONTENT))))))
    return reading(call, b"".join(form.pieces(fields))), 11


# ---- A stream -------------------------------------------------------------------------------------------------------------------------


def some_faults(r, call, numbers, turn):
    """In turn each two neighbours, whose order is easy to mistake, and any two or three of the numbers a call can give; if it can give one, that one or none."""
    if len(numbers) == 1:
        return numbers[: turn % 2]
    if turn % 2:
        neighbours = [pair for order in (numbers, CONTENT_ORDER.get(call, ())) for pair in zip(order, order[1:])]
        return sorted(neighbours[turn // 2 % len(neighbours)])
    return sorted(set(r.choices(numbers, k=r.choice((2, 3)))))


def damage(r, case):
    """Changes one of the things that a call is given, blindly."""
    name = r.choice(CALLS[case.call][1])
    value = case.args[name]
    if name == "wanted":
        case.args[name] = codes.OTHER[value]
    elif name in NUMBERS:
        case.args[name] = min(max(0, value + r.choice((-20, -2, -1, 1, 2, 20))), days.MOST_NUMBER)
    else:
        case.args[name] = days.scrambled(r, value) if name in LISTS else sets.scrambled(r, value)
    if "lent" in case.args and "index" in case.args:
        del case.args["index"][case.args["lent"] :]


def rare(call, no):
    """Whether a number takes so long an input that it is made less often than others."""
    return no == 7 or (call, no) == ("d", 23)


def cases(seed, count, calls, edges=EDGES):
    """This many cases of each call, and beside each the number that it was made for; None if more than one fault was made. This part of them is at the edges."""
    r = random.Random("%s %s" % (seed, calls))
    turns = collections.Counter()
    for _ in range(count):
        for call in calls:
            numbers = [no for no in CALLS[call][2] if not rare(call, no) or r.random() < 0.3]
            way = r.random()
            if way < 0.42:
                yield case_with(r, call, ()), 0
            elif way < 0.78:
                no = r.choice(numbers)
                yield case_with(r, call, (no,)), no
            elif way < 0.93:
                turns[call] += 1
                yield case_with(r, call, some_faults(r, call, numbers, turns[call])), None
            elif way < 1 - edges or call not in FORMS:
                case = case_with(r, call, ())
                damage(r, case)
                yield case, None
            else:
                yield edge_case(r, call)


def plain_fields(set_type, leave_out):
    """The required fields of a set, without one of them."""
    r = random.Random(STORED_SEED)
    needed = [(label, sets.fitting(r, label, short=True)) for label in marked(SET_TABLES[set_type], "!") if label not in (8000, 8100, leave_out)]
    return [(8000, b"%d" % set_type), (8100, None)] + needed


def judged(fields):
    return Case("j", {"set": b"".join(sets.lines_of(fields))})


def row_cases():
    """For judge: every label in every set type, once and twice; every row of the field table with the contents at the edges of its length and kind, and with a
    byte over 7Fh in a seven-bit set."""
    r = random.Random(STORED_SEED)
    headers = {**sets.MEMBER_OF, **{name + 1: name for name in sets.NAMES}}
    for set_type in SET_TABLES:
        for label in sorted({*FIELDS, 101, 8412, 6306, 6329, 6400, 9999} - {8000}):
            field = (label, sets.fitting(r, label) if label in FIELDS else b"7")
            before = [(headers[label], b"x")] if label in headers and set_type == 6310 else []
            yield judged(plain_fields(set_type, label) + [field])
            yield judged(plain_fields(set_type, label) + before + [field, field])
    for label in sorted(set(FIELDS) - {8000, 8100} - set(range(6332, 6398))):
        before = [(headers[label], b"x")] if label in headers else []
        for content in sets.fitting_edges(r, label) + sets.unfitting_lines(r, label):
            yield judged(plain_fields(6310, label) + before + [(label, content)])
        if sets.takes_high(label):
            yield judged(plain_fields(6310, label) + [sets.SEVEN_BITS] + before + [(label, b"\x80" * FIELDS[label][0])])
    for content in sets.unfitting_lines(r, 8100) + [b"000510", b"0051"]:
        yield judged([(8000, b"6300"), (8100, content), (9218, b"02.10"), (3000, b"0")])


def again_cases():
    """For the writer: 8000 and 8100 again, in every set type."""
    for set_type in SET_TABLES:
        for again in ((8000, b"%d" % set_type), (8100, b"00051")):
            yield Case("w", {"room": 200, "list": b"".join(sets.entries_of(plain_fields(set_type, None) + [again]))})


SEVEN_BODY = [(8315, b"ERGO_123"), (9218, b"02.10"), (8402, b"EKG01"), (8410, b"FEV1"), (8420, b"3.7"), (8421, b"l per minute btps"), (3000, b"0123456789")]
SEVEN_LINES = (0, 5, 6)  # the first, an inner and the last line of this body: all three can have a byte over 7Fh


def with_charset(body):
    """The fields of 6310 sets of this body: with 9206 = 1, 2 or 3 before it or after it, and without 9206."""
    start = [(8000, b"6310"), (8100, None)]
    for charset in (b"1", b"2", b"3"):
        yield start + [(9206, charset)] + body
        yield start + body + [(9206, charset)]
    yield start + body


def around_seven(content):
    """The content with 7Fh, 80h or FFh as its first, an inner or its last byte."""
    return [sets.replaced(content, at, byte) for at in (0, len(content) // 2, len(content) - 1) for byte in b"\x7f\x80\xff"]


def seven_set_edges():
    """For every call that reads sets, and for the writer: a byte around 7Fh, with each 9206 or none; alone, in a set that lacks 8402, with a wrong sum, with no
    room."""
    before, after = days.small_set(b"\xff", True), days.small_set(b"\x80", False)
    for at in SEVEN_LINES:
        label, old = SEVEN_BODY[at]
        for content in around_seven(old):
            for fields in with_charset(SEVEN_BODY[:at] + [(label, content)] + SEVEN_BODY[at + 1 :]):
                lacking = [field for field in fields if field[0] != 8402]
                data, entry_bytes = b"".join(sets.lines_of(fields)), b"".join(sets.entries_of(fields))
                yield judged(fields)
                yield judged(lacking)
                yield judged([fields[0], (8100, b"00051")] + fields[2:])
                yield Case("w", {"room": len(data), "list": b"".join(sets.entries_of(lacking))})
                for room in (len(data), 0):
                    yield Case("i", {"room": room, "set": data})
                    yield Case("l", {"room": room, "set": data})
                    yield Case("w", {"room": room, "list": entry_bytes})
                yield Case("d", {"lent": DAY_ENTRY * 3, "file": before + data + after})
                yield Case("a", {"old": len(before), "count": 1, "lent": DAY_ENTRY * 2, "index": [], "file": before + data})


def seven_content_edges():
    """For correct and view: new contents with a byte around 7Fh, for sets with each 9206 or none; alone, one byte longer, which is too long for two of the
    labels and for the buffer, and with a byte under 20h. New contents for a line 9206 itself."""
    for fields in with_charset(SEVEN_BODY):
        data = b"".join(sets.lines_of(fields))
        new = [(number, content) for number, (label, _) in enumerate(fields, 1) if label == 9206 for content in (b"1", b"2", b"3", b"", b"\x80", b"\x1f")]
        for at in SEVEN_LINES:
            number = fields.index(SEVEN_BODY[at]) + 1
            new += [(number, content + more) for content in around_seven(SEVEN_BODY[at][1]) for more in (b"", b"x", b"\x1f")]
        for number, content in new:
            fine, entry = sets.entry(fields.index(SEVEN_BODY[-1]) + 1, b"7"), sets.entry(number, content)
            yield Case("c", {"used": len(data), "line": number, "content": content, "buffer": data})
            yield Case("v", {"line": number, "set": data, "sheet": fine + entry})
            yield Case("v", {"line": number, "set": data, "sheet": entry + fine})


def build_edges():
    """For day_build: every room around what no, one and two sets need; just as many sets as there may be, and more, with a bad set after them or none."""
    r = random.Random(STORED_SEED)
    for count in range(3):
        for lent in range(DAY_ENTRY * (count + 1)):
            yield Case("d", {"lent": lent, "file": b"".join(days.day_file(r, count))})
    for count in range(days.MOST_SETS - 1, days.MOST_SETS + 3):
        for after in (b"", b"xyz8000", b"0138000", b"".join(set_with(r, (17,)))):
            for lent in (DAY_ENTRY * count, DAY_ENTRY * count - 1):
                yield Case("d", {"lent": lent, "file": b"".join(days.day_file(r, count)) + after})


def append_edges():
    """For day_append: every room around what few sets need; counts around the most sets and where four times the count is too large a number; old lengths
    around each set and where their sum with a place is too large a number."""
    found = [days.small_set(b"7", False), days.small_set(b"\xff", True), days.small_set(b"10027", False)]
    index, data, old = days.index_of(found[:2]), b"".join(found), len(found[0] + found[1])
    for count in range(4):
        for lent in range(DAY_ENTRY * (count + 2)):
            yield Case("a", {"old": old, "count": count, "lent": lent, "index": index[:lent], "file": data})
    for count in (days.MOST_SETS - 2, days.MOST_SETS - 1, days.MOST_SETS, days.MOST_SETS + 1, 2**62 - 1, 2**62, 2**63 - 1, days.MOST_NUMBER):
        for lent in (len(index), DAY_ENTRY * days.MOST_SETS - 1, DAY_ENTRY * days.MOST_SETS):
            yield Case("a", {"old": old, "count": count, "lent": lent, "index": index, "file": data})
    near = [place + step for place in (0, len(found[0]), old, len(data)) for step in (-1, 0, 1) if place + step >= 0]
    for place in near + [old + 2**32, 2**63, days.MOST_NUMBER]:
        yield Case("a", {"old": place, "count": 2, "lent": DAY_ENTRY * 3, "index": index, "file": data})


def find_edges():
    """For day_find: an index with every place of a file, some after it and the last numbers; asked for what stands there, parts of it, more than it, nothing.
    The file is whole, has other line ends, or is cut in its last line."""
    whole = days.small_set(b"77", True) + days.small_set(b"7\xff", False) + days.small_set(b"77", False)
    places = [*range(len(whole) + 3), *range(2**32 + 30, 2**32 + 40), *range(days.MOST_NUMBER - 5, days.MOST_NUMBER + 1)]
    index = [number for place in places for number in (0, 51, 6300, place)]
    bent = [whole.replace(b"77\r\n", b"77" + end) for end in (b"\r\r", b"\n\n", b"\n\r")]
    for data in (whole, *bent, whole[:-1], whole[:-2], whole[-4:], b"\r\n", b"\n", b""):
        for asked in (b"77", b"7", b"", b"777", b"\xff", b"\xff7", b" 7", b"\x1f", b"\r\n", b"77\r\n", b"77\r\n014921802.10"):
            need = days.matches(data, index, asked)
            for room in sorted({0, max(need - 1, 0), need, need + 1}):
                yield Case("f", {"room": room, "file": data, "index": index, "asked": asked})


BROKEN_LAST = (b"0096228x\r\n", b"0106228x\r\r", b"010622/x\r\n", b"0106228\x1f\r\n")


def unknown_fields(lengths):
    """The fields of sets of every type with the label 0 or 9999, which no table has: after line 2 and at the end, in 6310 in a group, with contents of these
    lengths."""
    for set_type in SET_TABLES:
        fields = plain_fields(set_type, None) + [(8410, b"x")] * (set_type == 6310)
        for field in [(label, b"x" * length) for label in (0, 9999) for length in lengths]:
            yield fields[:2] + [field] + fields[2:]
            yield fields + [field]


def edges_in(form):
    """The lines of sets, or the entries of lists: with an unknown label; full ones that have an unusual field at their end, or near their front, and one more after
    all; full ones that end with an unusual field that is kept; full ones with anything after them."""
    more = form.piece(*sets.PLAIN)
    found = [form.pieces(fields) for fields in unknown_fields(form.lengths)]
    found += [form.pieces(sets.full(field)) + [more] for field in form.unusual]
    found += [form.pieces(sets.full(field, sets.EARLY)) + [more] for field in sets.UNUSUAL_EARLY]
    found += [form.pieces(sets.full(field)) for field in sets.UNUSUAL_KEPT]
    return found + [form.pieces(sets.full(sets.PLAIN)) + [after] for after in form.after]


def edge_cases():
    """For every call that reads sets, and for the writer: all these edges, and for a set a last line that is broken, with one more after it."""
    broken = [sets.lines_of(sets.full(sets.PLAIN))[: sets.LAST] + [last, sets.line(*sets.PLAIN)] for last in BROKEN_LAST]
    for call, form in FORMS.items():
        yield from (reading(call, b"".join(found)) for found in edges_in(form) + broken * (form is IN_SET))


# ---- What a stream meets ----------------------------------------------------------------------------------------------------------------


def read_bytes(case):
    """What a call reads: a set, a list, a day file or a buffer."""
    return next(case.args[name] for name in ("set", "list", "file", "buffer", "bytes") if name in case.args)


def is_long(case):
    """Whether a set or list has over 400 lines, a day file or its index over 400 sets."""
    data = read_bytes(case)
    if "file" in case.args:
        return max(len(day_sets(data)), len(case.args.get("index", [])) // DAY_ENTRY) > days.MANY_SETS
    return (len(entries(data)) + 1 if case.call == "w" else data.count(b"\r\n")) > MANY_LINES


def edges_met(case, line):
    """Which of EDGE_MARKS a refused case has."""
    _, no, place, label, _ = line.split(" ")
    form = FORMS[case.call]
    unusual_last = no == "7" and read_bytes(case)[: int(place)].endswith(tuple(form.piece(*field) for field in form.unusual))
    return [mark for mark, holds in zip(EDGE_MARKS, ((no, label) == ("11", "0"), unusual_last)) if holds]


def corrected(case, total):
    """Which of the names in LEAST_CORRECTED an accepted correction has, by the set's new length."""
    used, room = case.args["used"], len(case.args["buffer"])
    return [name for name, holds in zip(LEAST_CORRECTED, (total > used, total < used, total == room)) if holds]


def met(found, lines):
    """For each call how many cases had each answer (0: accepted, "long": over 400 lines or sets, "found": a lookup that found a set, "all"), of the corrections
    how many have each name in LEAST_CORRECTED, of a call in FORMS how many have each of EDGE_MARKS, of a call of the cable how many met each
    row and each mark, by its name, and of recode how many have each of the marks of codes.py."""
    counts = collections.defaultdict(collections.Counter)
    for case, line in zip(found, lines):
        words = line.split(" ", 2)
        counts[case.call]["all"] += 1
        counts[case.call]["long"] += is_long(case)
        counts[case.call]["found"] += case.call == "f" and words[0] == "ok" and words[1] != "0"
        counts[case.call][int(words[1]) if words[0] == "refused" else 0] += 1
        if case.call == "c" and words[0] == "ok":
            counts[case.call].update(corrected(case, int(words[1])))
        if case.call in FORMS and words[0] == "refused":
            counts[case.call].update(edges_met(case, line))
        if case.call in cables.ROWS:
            counts[case.call].update(cables.rows_met(case, line)[0])
        if case.call == "r":
            counts[case.call].update(codes.marks_met(case, line))
    return counts


def shortfalls(counts, calls):
    """What these calls meet too seldom, as sentences."""
    out = []
    for call in calls:
        count, (name, form, numbers) = counts[call], CALLS[call]
        if not count["all"]:
            out.append("%s: there is no case of it" % name)
        least = {0: ("accepted", LEAST_ACCEPTED), **{no: ("refused by %d" % no, LEAST_NUMBER) for no in numbers}}
        if call != "t":
            least["long"] = ("over 400 sets" if "file" in form else "over 400 lines", LEAST_LONG)
        if call == "f":
            least["found"] = ("that find a set", LEAST_FOUND)
        rows, _, marks = cables.ROWS.get(call, cables.NO_ROWS)
        least.update({row: ("of the row '%s'" % row, LEAST_ROW) for row in rows})
        least.update({mark: ("with the mark '%s'" % mark, LEAST_MARK) for mark in marks})
        if call in FORMS:
            least.update({mark: ("with the mark '%s'" % mark, LEAST_EDGE) for mark in EDGE_MARKS})
        if call == "r":
            least.update({mark: ("accepted with '%s'" % mark, LEAST_STATE) for mark in codes.STATE_MARKS})
            least.update({mark: ("with the mark '%s'" % mark, LEAST_CODE) for mark in codes.OTHER_MARKS})
        wanted = [(key, "cases " + what, count["all"], percent) for key, (what, percent) in least.items()]
        if call == "c":
            wanted += [(kind, "accepted cases " + kind, count[0], percent) for kind, percent in LEAST_CORRECTED.items()]
        for key, what, whole, percent in wanted:
            if 100 * count[key] < percent * whole:
                out.append("%s: %d of %d %s, at least %s %% are wanted" % (name, count[key], whole, what, percent))
    return out


def histogram(counts):
    """A table in percent: a row for each answer, a column for each call."""
    calls = list(counts)
    rows = [("cases", "all"), ("> 400", "long"), ("found", "found"), ("ok", 0)] + [(str(no), no) for no in range(1, LAST_NUMBER + 1)]
    out = ["%7s" % "" + "".join("%11s" % CALLS[call][0] for call in calls)]
    for name, key in rows:
        cells = [str(counts[call][key]) if key == "all" else "%.2f" % (100 * counts[call][key] / counts[call]["all"]) for call in calls]
        none = [call != "f" if key == "found" else key not in (*CALLS[call][2], "all", "long", 0) for call in calls]
        out.append("%7s" % name + "".join("%11s" % ("-" if no else cell) for no, cell in zip(none, cells)))
    for call in calls:
        rows, _, marks = cables.ROWS.get(call, cables.NO_ROWS)
        names = (*rows, *marks, *(EDGE_MARKS if call in FORMS else ()), *((*codes.STATE_MARKS, *codes.OTHER_MARKS) if call == "r" else ()))
        out += ["%7.2f %10s  %s" % (100 * counts[call][name] / counts[call]["all"], CALLS[call][0], name) for name in names]
        if call == "c":
            accepted = max(counts[call][0], 1)
            out += ["%7.2f %10s  of the accepted: %s" % (100 * counts[call][name] / accepted, CALLS[call][0], name) for name in LEAST_CORRECTED]
    return out


def check(found, aims):
    """Prints the histogram of these cases by the second program; answers sentences on what is wrong."""
    told = answers("second", b"".join(map(packed, found)))
    if told.status:
        return ["the second program: " + told.message]
    counts = met(found, told.lines)
    print("\n".join(histogram(counts)), file=sys.stderr)
    wrong = shortfalls(counts, list(counts))
    for number, (case, aim, line) in enumerate(zip(found, aims, told.lines), 1):
        if aim is not None and not line.startswith("refused %d " % aim if aim else "ok "):
            wrong.append("case %d, %s, was made for %d: %s" % (number, CALLS[case.call][0], aim, line[:60]))
        if case.call in cables.ROWS:
            rows, right = cables.rows_met(case, line)
            if line != right:
                wrong.append("case %d, %s, is told by the row '%s' as %s: %s" % (number, CALLS[case.call][0], rows[0], right[:60], line[:60]))
    return wrong + codes.untold(found, told.lines)


def streams():
    """The cases of each stored stream: one for each call, and one for the rows."""
    found = {}
    for call, (name, form, _) in CALLS.items():
        found[name] = [case for case, _ in cases(STORED_SEED, STORED_DAYS if "file" in form else STORED_CASES, call, edges=0)]
    found["write"] += again_cases()
    found["day_build"] += build_edges()
    found["day_append"] += append_edges()
    found["day_find"] += find_edges()
    r = random.Random(STORED_SEED)
    for case in [*seven_set_edges(), *seven_content_edges(), *cables.block_edges(r), *cables.send_edges(r), *cables.receive_edges(), *edge_cases(), *codes.recode_edges()]:
        found[CALLS[case.call][0]].append(case)
    found[ROWS] = list(row_cases())
    return found


def store():
    """Writes the stored streams. Says of which STORED has another number of cases; that table is changed by hand, so that a change of it is seen."""
    made = streams()
    for name, found in made.items():
        with open(os.path.join(STREAMS, name + ".xz"), "wb") as file:
            file.write(lzma.compress(b"".join(map(packed, found)), preset=9 | lzma.PRESET_EXTREME))
    other = ["%s: %d cases now, STORED in harness/stream.py says %s" % (name, len(found), STORED.get(name)) for name, found in made.items() if STORED.get(name) != len(found)]
    print("".join(line + "\n" for line in other), end="", file=sys.stderr)
    return 1 if other else 0


def main(words):
    if words == ["store"]:
        return store()
    if words == ["rows"]:
        sys.stdout.buffer.write(b"".join(map(packed, row_cases())))
        return 0
    checked = words[-1:] == ["--check"]
    if len(words) != 3 + checked or not words[1].isdigit() or set(words[2]) - set(CALLS):
        print(__doc__, file=sys.stderr)
        return 2
    found, aims = zip(*cases(words[0], int(words[1]), words[2]))
    if not checked:
        sys.stdout.buffer.write(b"".join(map(packed, found)))
        return 0
    wrong = check(found, aims)
    print("".join(line + "\n" for line in wrong), end="", file=sys.stderr)
    return 1 if wrong else 0


if __name__ == "__main__":
    sys.exit(main(sys.argv[1:]))
