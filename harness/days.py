"""days.py: day files, their indexes and what is asked of them: right ones, foreign ones, and those at the edges.
Assumes harness/sets.py; a file is a list of sets, an index is a list of numbers, four for each set: offset, length, type, place of the 3000 content."""
import re

import sets
from rows import SET_TABLES
from stream import DAY_ENTRY, fours

MOST_SETS = 2048
MANY_SETS = 400
FEW_SETS = 12
MOST_NUMBER = 2**64 - 1
END = b"\r\n"
PATIENTS = (b"0", b"7", b"77", b"10027", b" ", b"7 ", b"\xff", b"\x80\xff\x7f", b"0123456789", b"\xff" * 10)

# ---- Files -------------------------------------------------------------------------------------------------------------------------


def small_set(patient, patient_first):
    """A set of four lines; it has 51 bytes if the patient's number has one."""
    fields = [(9218, b"02.10"), (3000, patient)]
    return b"".join(sets.lines_of([(8000, b"6300"), (8100, None)] + (fields[::-1] if patient_first else fields)))


def light_set(r, patient):
    """An accepted set of any type, with few lines and short contents."""
    set_type = r.choice((*SET_TABLES,))
    fields = sets.accepted(r, set_type, r.choice((0, 0, 9)), short=True)
    return b"".join(sets.lines_of(sets.in_code([(label, patient if label == 3000 else content) for label, content in fields])))


def day_file(r, count):
    """This many sets, some of the same patient, some of them alike. Those of a long file are small and of one length, so that a stream of such files is small too."""
    if count > FEW_SETS:
        patient_first = r.random() < 0.5
        some = [small_set(r.choice((b"0", b"7", b" ", b"\xff")), patient_first) for _ in range(r.randint(1, 5))]
        return [some[at % len(some)] for at in range(count)]
    patients = [r.choice((*PATIENTS, sets.fitting(r, 3000))) for _ in range(r.randint(1, 3))]
    some = [light_set(r, r.choice(patients)) for _ in range(min(count, r.randint(1, 4)))]
    return [r.choice(some) for _ in range(count)]


def set_count(r):
    """How many sets a file has: few, or now and then many."""
    if r.random() < 0.025:
        return r.choice((MOST_SETS, MOST_SETS, MOST_SETS - 1, r.randint(MANY_SETS + 1, MOST_SETS)))
    return r.choice((1, 2, 2, 3, 4, r.randint(1, 8)))


# ---- Indexes -----------------------------------------------------------------------------------------------------------------------


def patient_place(data):
    """Where the content of the first 3000 stands in an accepted set."""
    at = 0
    while data[at + 3 : at + 7] != b"3000":
        at += int(data[at : at + 3])
    return at + 7


def index_of(found):
    """The index of a file of accepted sets."""
    index, offset = [], 0
    for data in found:
        index += [offset, len(data), int(data[7:11]), offset + patient_place(data)]
        offset += len(data)
    return index


def any_number(r):
    return r.choice((0, 1, 51, 6310, 2**31, 2**32, 2**62, 2**63, MOST_NUMBER, r.randrange(2**64)))


def foreign(r, index):
    """Numbers that are no index of the file: other ones, fewer, more, in another order; a rest of one to three may follow."""
    rows = fours(index)
    way = r.randrange(4)
    if way == 0:
        rows = [[any_number(r) for _ in row] for row in rows[:FEW_SETS]]
    elif way == 1:
        r.shuffle(rows)
    elif way == 2:
        rows = rows[: r.randint(0, len(rows))]
    else:
        rows += [r.choice(rows or [[0, 51, 6300, 48]]) for _ in range(r.randint(1, 3))]
    return [number for row in rows for number in row] + [any_number(r) for _ in range(r.choice((0, 0, 1, 2, 3)))]


def scrambled(r, index):
    """An index with one to three of its numbers changed, put in, taken out or doubled, anywhere."""
    index = list(index)
    for _ in range(r.choice((1, 1, 2, 3))):
        at = r.randint(0, len(index))
        way = r.randrange(4)
        if way == 0:
            index[at : at + 1] = [any_number(r)]
        elif way == 1:
            index[at:at] = [any_number(r)]
        elif way == 2:
            index[at : at + 1] = []
        else:
            index[at:at] = index[at : at + DAY_ENTRY]
    return index


def lent_for(r, count, enough):
    """How many numbers are lent: enough for this many entries, often just so, or not enough; a rest of one to three is no entry."""
    need = DAY_ENTRY * count
    if enough:
        return need + r.choice((0, 0, 0, 1, 2, 3, DAY_ENTRY, r.randrange(40)))
    return max(0, r.choice((need - 1, need - 2, need - 3, need - DAY_ENTRY, 0, r.randrange(need))))


# ---- Lookups -----------------------------------------------------------------------------------------------------------------------


def matches(data, index, asked):
    """How many entries of an index match the asked bytes."""
    if any(byte < 0x20 for byte in asked):
        return 0
    return sum(data[place : place + len(asked) + 2] == asked + END for place in index[DAY_ENTRY - 1 :: DAY_ENTRY])


def content_at(data, place):
    """The bytes from a place up to the next end of a line."""
    return data[place:].split(END, 1)[0]


def asked_at(r, data, place):
    """Bytes that may be asked for: what stands at a place, a part of it, more than it, or other bytes."""
    content = content_at(data, place)
    two_lines = content + END + content_at(data, place + len(content) + 2)
    at = r.randrange(len(content) + 1)
    part = r.choice((content[:-1], content[1:], content[:at], content + content[-1:], content + b" ", content + END, two_lines, b"", END))
    other = r.choice((sets.fitting(r, 3000), sets.replaced(content, at, r.choice(sets.LOW_BYTES)), sets.replaced(content, at, r.choice(sets.EDGE_BYTES))))
    return r.choice((content, content, content, content, part, other))


def edge_places(data, asked):
    """Places near the ends of a file, of its lines and of the numbers, at which the asked bytes do not stand or only just do."""
    last = len(data) - len(asked) - len(END)
    near = [last - 1, last, last + 1, len(data) - 2, len(data) - 1, data.find(END), data.find(END) + 1, data.rfind(END)]
    far = [len(data), len(data) + 1, 2**32, 2**63, MOST_NUMBER - len(asked) - 1, MOST_NUMBER - 1, MOST_NUMBER]
    return [0, *far] + [place for place in near if place >= 0]


def bent(r, data, asked):
    """A file in which the asked bytes end one line in something else than 0Dh 0Ah, or which is cut there."""
    at = r.choice([found.start() for found in re.finditer(re.escape(asked + END), data)] or [0]) + len(asked)
    end = r.choice((b"\r\r", b"\n\n", b"\n\r", b"\r ", b" \n", b"", b"\r"))
    return data[:at] + end + (data[at + 2 :] if len(end) == 2 else b"")


def moved(r, data, index, asked):
    """An index with some of its places moved: by a little, by 2^32 or to an edge, and with other numbers that a lookup does not look at."""
    index = list(index)
    for at in range(DAY_ENTRY - 1, len(index), DAY_ENTRY):
        if r.random() < 0.4:
            near = [place for place in (index[at] - 1, index[at] + 1, index[at] + len(asked), index[at] + 2**32) if 0 <= place <= MOST_NUMBER]
            index[at] = r.choice((r.choice(near), r.choice(edge_places(data, asked))))
        if r.random() < 0.2:
            index[at - r.randint(1, DAY_ENTRY - 1)] = any_number(r)
    return index
