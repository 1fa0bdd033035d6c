"""rows.py: the five set tables and the field table of GDT 2.1, row by row, as the generator of cases builds sets from them.
Assumes the documents' tables as the rules paper reads them; 6330 stands for the even labels to 6398, 6331 for the odd ones to 6399."""
import functools

# ---- The set tables: labels at set level; those with ! are required, those with + repeat, all others are single and optional -------

COMMON = "8000! 8100! 8315 8316 9206 9218! "
SET_TABLES = {
    6300: COMMON + "3000!",
    6301: COMMON + "3000! 3100 3101! 3102! 3103! 3104 3105 3106 3107 3108 3110 3622 3623 3628",
    6302: COMMON + "0102 0103 0132 3000! 3100 3101! 3102! 3103! 3104 3105 3106 3107 3108 3110 3622 3623 3628 8402 8410",
    6310: COMMON + "0102 0103 0132 3000! 3100 3101 3102 3103 3104 3105 3106 3107 3108 3110 3622 3623 3628 8402! "
    "6200 6201 6205+ 6220+ 6221+ 6227+ 6226+ 6228+ 8990",
    6311: COMMON + "3000! 3100 3101 3102 3103 3104 6200 6201 8402 8432 8439",
}

# ---- Groups and pairs of 6310, with the same marks -------------------------------------------------------------------------------

TEST, ARCHIVE = 8410, 6302
GROUPS = {
    TEST: "8411 8428 8429 8430 8431+ 8437 8438+ 8418 8420 8421 8432 8439 8460 8461 8462 8470+ 8480+",
    ARCHIVE: "6303! 6304! 6305!",
}
NAMES = range(6330, 6400, 2)

# What a group with one of these members requires too.
NEEDS = {8420: 8421, 8461: 8421, 8462: 8421, 8438: 8437}


@functools.lru_cache(None)
def marked(table, mark):
    """The labels of a table that have this mark."""
    return tuple(int(word[:4]) for word in table.split() if word.endswith(mark))


@functools.lru_cache(None)
def labels(table):
    return tuple(int(word[:4]) for word in table.split())


MEMBER_OF = {member: header for header, table in GROUPS.items() for member in labels(table)}
REPEATED_MEMBERS = [member for table in GROUPS.values() for member in marked(table, "+")]


def known(set_type):
    """Every label that may stand in a set of this type."""
    found = set(labels(SET_TABLES[set_type]))
    if set_type == 6310:
        found |= set(GROUPS) | set(MEMBER_OF) | set(NAMES) | {name + 1 for name in NAMES}
    return found


# ---- The field table: least and greatest length, and kind; "var" is 1 to 60 -------------------------------------------------------

FIELDS = {label: (1, 60, "alnum") for label in known(6310)}
FIELDS.update({
    3000: (1, 10, "alnum"),
    3100: (1, 15, "alnum"),
    3101: (1, 28, "alnum"),
    3102: (1, 28, "alnum"),
    3103: (8, 8, "date or zeros"),
    3104: (1, 15, "alnum"),
    3105: (1, 12, "alnum"),
    3106: (1, 30, "alnum"),
    3107: (1, 28, "alnum"),
    3108: (1, 1, "one of 135"),
    3110: (1, 1, "one of 12"),
    3622: (1, 60, "float"),
    3623: (1, 60, "float"),
    6200: (8, 8, "date"),
    6201: (6, 6, "time"),
    6226: (1, 4, "num"),
    8000: (4, 4, "alnum"),
    8100: (5, 5, "num"),
    8315: (8, 8, "alnum"),
    8316: (8, 8, "alnum"),
    8402: (1, 6, "alnum"),
    8410: (1, 20, "alnum"),
    8418: (1, 1, "alnum"),
    8420: (1, 60, "float"),
    8428: (1, 8, "alnum"),
    8429: (2, 2, "num"),
    8432: (8, 8, "date"),
    8439: (6, 6, "time"),
    8461: (1, 60, "float"),
    8462: (1, 60, "float"),
    9206: (1, 1, "one of 123"),
    9218: (5, 5, "version"),
})
