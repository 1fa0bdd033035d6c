/* gdt.c: reading, writing, correcting and recoding GDT 2.1 sets, the index of a day file, and the serial cable, all functions of
   gdt.h.

   Order of the file: limits and records; the rows; contents; the line syntax and the entries of a list; groups; the rules of a
   line; a whole set and a whole list; the public functions; the day file (request E1) with its public functions; the serial
   cable (E3) with its own; code pages (E5) with theirs. Words in quotes are the rules paper's, for the day file, for seven bits
   (E2), for the cable and for code pages the request's, and a bare number such as 14 is one of the numbered replies. "B12", "E1a"
   and the like are points of docs/DECISIONS.md. */
#include "gdt.h"

#include <string.h>

/* ---- Limits and records ---------------------------------------------------------------------------------------------------- */

/* Beside those that gdt.h names: "A set has at most 512 lines", a list one entry fewer, a line 999 bytes, a day file "at most 2,048
   sets". */
enum {
    LINE_LEAST = 10,   /* "lengths run 010 to 999" */
    LINE_HEAD = 7,     /* length and label stand before the content */
    LINE_FRAME = 9,    /* "Length = content + 9" */
    LINE_END = 2,      /* 0Dh 0Ah stand after the content */
    SET_BYTES = 99999, /* 8100 has five digits */
    SUM_LINE = 14,     /* the length of line 2 */
    SUM_DIGITS = 20,   /* the place of the digits of 8100: line 1 has 13 bytes */
    SUM_WIDTH = 5,
    THIRD_LINE = 27,   /* the place of line 3: lines 1 and 2 have 13 and 14 bytes */
    ENTRY_HEAD = 4,    /* content length and label of a list entry */
    ENTRY_BYTES = ENTRY_HEAD + 65535
};

/* An entry of a day file's index: "for each set its offset, length, type and place of the 3000 content". Four numbers (E1i). */
enum { DAY_OFFSET, DAY_LENGTH, DAY_TYPE, DAY_PLACE, DAY_NUMBERS };

/* A line of a set or an entry of a list: the place of its first byte, its label, the length of its content, the number of its
   header's line (0 outside groups and pairs), and its row. */
struct line {
    uint32_t at;
    uint16_t label, length, header, row;
};

_Static_assert((uint64_t)GDT_MOST_LINES * GDT_MOST_LINE <= 0xFFFFFFFFu, "a place in a set fits");
_Static_assert((uint64_t)GDT_MOST_LINES * ENTRY_BYTES <= 0xFFFFFFFFu, "a place in a list fits");
_Static_assert(GDT_MOST_LINES * sizeof(struct line) <= 6144, "the stack stays within its 8 KiB");

/* The lines of a set or the entries of a list, and the bytes they stand in. `head` bytes stand before each content. `seven_bits` is
   1 if one of them is "9206 with content 1", else 0. */
struct lines {
    struct line of[GDT_MOST_LINES];
    const uint8_t *bytes;
    size_t head, count, length;
    unsigned type;
    int seven_bits;
};

/* A refusal; `no` is 0 for none. */
struct refusal {
    size_t no, place, label;
};

static const struct refusal none = {0, 0, 0};

static struct refusal refuse(size_t no, size_t place, size_t label)
{
    struct refusal refusal = {no, place, label};
    return refusal;
}

/* ---- The rows -------------------------------------------------------------------------------------------------------------- */

/* The rows of the field table, lowest label first. R6330 stands for the even labels 6330 to 6398, R6331 for the odd labels 6331
   to 6399 (B46). */
enum {
    NO_ROW,
    R0102, R0103, R0132, R3000, R3100, R3101, R3102, R3103, R3104, R3105, R3106, R3107, R3108, R3110, R3622, R3623, R3628,
    R6200, R6201, R6205, R6220, R6221, R6226, R6227, R6228, R6302, R6303, R6304, R6305, R6330, R6331,
    R8000, R8100, R8315, R8316, R8402, R8410, R8411, R8418, R8420, R8421, R8428, R8429, R8430, R8431, R8432, R8437, R8438,
    R8439, R8460, R8461, R8462, R8470, R8480, R8990, R9206, R9218,
    ROWS
};

/* The row of a label, NO_ROW for none. */
static unsigned row_of(unsigned label)
{
    switch (label) {
    case 102: return R0102;
    case 103: return R0103;
    case 132: return R0132;
    case 3000: return R3000;
    case 3100: return R3100;
    case 3101: return R3101;
    case 3102: return R3102;
    case 3103: return R3103;
    case 3104: return R3104;
    case 3105: return R3105;
    case 3106: return R3106;
    case 3107: return R3107;
    case 3108: return R3108;
    case 3110: return R3110;
    case 3622: return R3622;
    case 3623: return R3623;
    case 3628: return R3628;
    case 6200: return R6200;
    case 6201: return R6201;
    case 6205: return R6205;
    case 6220: return R6220;
    case 6221: return R6221;
    case 6226: return R6226;
    case 6227: return R6227;
    case 6228: return R6228;
    case 6302: return R6302;
    case 6303: return R6303;
    case 6304: return R6304;
    case 6305: return R6305;
    case 8000: return R8000;
    case 8100: return R8100;
    case 8315: return R8315;
    case 8316: return R8316;
    case 8402: return R8402;
    case 8410: return R8410;
    case 8411: return R8411;
    case 8418: return R8418;
    case 8420: return R8420;
    case 8421: return R8421;
    case 8428: return R8428;
    case 8429: return R8429;
    case 8430: return R8430;
    case 8431: return R8431;
    case 8432: return R8432;
    case 8437: return R8437;
    case 8438: return R8438;
    case 8439: return R8439;
    case 8460: return R8460;
    case 8461: return R8461;
    case 8462: return R8462;
    case 8470: return R8470;
    case 8480: return R8480;
    case 8990: return R8990;
    case 9206: return R9206;
    case 9218: return R9218;
    default:
        if (label < 6330 || label > 6399) {
            return NO_ROW;
        }
        return label % 2 == 0 ? R6330 : R6331;
    }
}

/* The kinds of content ("Content kinds"). */
enum { ALNUM, NUM, FLOAT, RULE_020, RULE_008, RULE_090, RULE_112, RULE_116, CHARSET, VERSION };

/* The field table: the least and the greatest length of a content, and its kind. "var" is 1 to 60. */
static const struct field {
    uint16_t label;
    uint8_t least, most, kind;
} fields[ROWS] = {
    [R0102] = {102, 1, 60, ALNUM},
    [R0103] = {103, 1, 60, ALNUM},
    [R0132] = {132, 1, 60, ALNUM},
    [R3000] = {3000, 1, 10, ALNUM},
    [R3100] = {3100, 1, 15, ALNUM},
    [R3101] = {3101, 1, 28, ALNUM},
    [R3102] = {3102, 1, 28, ALNUM},
    [R3103] = {3103, 8, 8, RULE_020},
    [R3104] = {3104, 1, 15, ALNUM},
    [R3105] = {3105, 1, 12, ALNUM},
    [R3106] = {3106, 1, 30, ALNUM},
    [R3107] = {3107, 1, 28, ALNUM},
    [R3108] = {3108, 1, 1, RULE_116},
    [R3110] = {3110, 1, 1, RULE_112},
    [R3622] = {3622, 1, 60, FLOAT},
    [R3623] = {3623, 1, 60, FLOAT},
    [R3628] = {3628, 1, 60, ALNUM},
    [R6200] = {6200, 8, 8, RULE_008},
    [R6201] = {6201, 6, 6, RULE_090},
    [R6205] = {6205, 1, 60, ALNUM},
    [R6220] = {6220, 1, 60, ALNUM},
    [R6221] = {6221, 1, 60, ALNUM},
    [R6226] = {6226, 1, 4, NUM},
    [R6227] = {6227, 1, 60, ALNUM},
    [R6228] = {6228, 1, 60, ALNUM},
    [R6302] = {6302, 1, 60, ALNUM},
    [R6303] = {6303, 1, 60, ALNUM},
    [R6304] = {6304, 1, 60, ALNUM},
    [R6305] = {6305, 1, 60, ALNUM},
    [R6330] = {6330, 1, 60, ALNUM},
    [R6331] = {6331, 1, 60, ALNUM},
    [R8000] = {8000, 4, 4, ALNUM},
    [R8100] = {8100, 5, 5, NUM},
    [R8315] = {8315, 8, 8, ALNUM},
    [R8316] = {8316, 8, 8, ALNUM},
    [R8402] = {8402, 1, 6, ALNUM},
    [R8410] = {8410, 1, 20, ALNUM},
    [R8411] = {8411, 1, 60, ALNUM},
    [R8418] = {8418, 1, 1, ALNUM},
    [R8420] = {8420, 1, 60, FLOAT},
    [R8421] = {8421, 1, 60, ALNUM},
    [R8428] = {8428, 1, 8, ALNUM},
    [R8429] = {8429, 2, 2, NUM},
    [R8430] = {8430, 1, 60, ALNUM},
    [R8431] = {8431, 1, 60, ALNUM},
    [R8432] = {8432, 8, 8, RULE_008},
    [R8437] = {8437, 1, 60, ALNUM},
    [R8438] = {8438, 1, 60, ALNUM},
    [R8439] = {8439, 6, 6, RULE_090},
    [R8460] = {8460, 1, 60, ALNUM},
    [R8461] = {8461, 1, 60, FLOAT},
    [R8462] = {8462, 1, 60, FLOAT},
    [R8470] = {8470, 1, 60, ALNUM},
    [R8480] = {8480, 1, 60, ALNUM},
    [R8990] = {8990, 1, 60, ALNUM},
    [R9206] = {9206, 1, 1, CHARSET},
    [R9218] = {9218, 5, 5, VERSION},
};

/* The five set types, and no type. */
enum { T6300, T6301, T6302, T6310, T6311, TYPES };

static const uint16_t type_numbers[TYPES] = {6300, 6301, 6302, 6310, 6311};

/* The role of a label ("The role of a label depends on the set type"): OUT of the table; at set level single (S1) or repeated
   (SN); the headers 8410 (TEST) and 6302 (ARCHIVE); a member of 8410, single (T1) or repeated (TN); a member of 6302 (A1); a NAME;
   an ODD label. Headers and names repeat. */
enum { OUT, S1, SN, TEST, ARCHIVE, T1, TN, A1, NAME, ODD };

/* The five set tables. */
static const uint8_t roles[TYPES][ROWS] = {
    [T6300] = {
        [R8000] = S1, [R8100] = S1, [R8315] = S1, [R8316] = S1, [R9206] = S1, [R9218] = S1, [R3000] = S1,
    },
    [T6301] = {
        [R8000] = S1, [R8100] = S1, [R8315] = S1, [R8316] = S1, [R9206] = S1, [R9218] = S1, [R3000] = S1, [R3100] = S1,
        [R3101] = S1, [R3102] = S1, [R3103] = S1, [R3104] = S1, [R3105] = S1, [R3106] = S1, [R3107] = S1, [R3108] = S1,
        [R3110] = S1, [R3622] = S1, [R3623] = S1, [R3628] = S1,
    },
    [T6302] = {
        [R8000] = S1, [R8100] = S1, [R8315] = S1, [R8316] = S1, [R9206] = S1, [R9218] = S1, [R0102] = S1, [R0103] = S1,
        [R0132] = S1, [R3000] = S1, [R3100] = S1, [R3101] = S1, [R3102] = S1, [R3103] = S1, [R3104] = S1, [R3105] = S1,
        [R3106] = S1, [R3107] = S1, [R3108] = S1, [R3110] = S1, [R3622] = S1, [R3623] = S1, [R3628] = S1, [R8402] = S1,
        [R8410] = S1, /* "In 6302 sets 8410 is a plain single field" */
    },
    [T6310] = {
        [R8000] = S1, [R8100] = S1, [R8315] = S1, [R8316] = S1, [R9206] = S1, [R9218] = S1, [R0102] = S1, [R0103] = S1,
        [R0132] = S1, [R3000] = S1, [R3100] = S1, [R3101] = S1, [R3102] = S1, [R3103] = S1, [R3104] = S1, [R3105] = S1,
        [R3106] = S1, [R3107] = S1, [R3108] = S1, [R3110] = S1, [R3622] = S1, [R3623] = S1, [R3628] = S1, [R8402] = S1,
        [R6200] = S1, [R6201] = S1, [R6205] = SN, [R6220] = SN, [R6221] = SN, [R6227] = SN, [R6226] = SN, [R6228] = SN,
        [R6302] = ARCHIVE, [R6303] = A1, [R6304] = A1, [R6305] = A1, [R6330] = NAME, [R6331] = ODD,
        [R8410] = TEST, [R8411] = T1, [R8428] = T1, [R8429] = T1, [R8430] = T1, [R8431] = TN, [R8437] = T1, [R8438] = TN,
        [R8418] = T1, [R8420] = T1, [R8421] = T1, [R8432] = T1, [R8439] = T1, [R8460] = T1, [R8461] = T1, [R8462] = T1,
        [R8470] = TN, [R8480] = TN, [R8990] = S1, /* 8990 closes a group (B16) */
    },
    [T6311] = {
        [R8000] = S1, [R8100] = S1, [R8315] = S1, [R8316] = S1, [R9206] = S1, [R9218] = S1, [R3000] = S1, [R3100] = S1,
        [R3101] = S1, [R3102] = S1, [R3103] = S1, [R3104] = S1, [R6200] = S1, [R6201] = S1, [R8402] = S1,
        [R8432] = S1, [R8439] = S1, /* "In 6311 sets 8432 and 8439 are plain single fields" */
    },
};

/* "Required at set level", lowest label first, NO_ROW at the end. */
static const uint8_t required[TYPES][8] = {
    [T6300] = {R3000, R8000, R8100, R9218},
    [T6301] = {R3000, R3101, R3102, R3103, R8000, R8100, R9218},
    [T6302] = {R3000, R3101, R3102, R3103, R8000, R8100, R9218},
    [T6310] = {R3000, R8000, R8100, R8402, R9218},
    [T6311] = {R3000, R8000, R8100, R9218},
};

/* ---- Contents -------------------------------------------------------------------------------------------------------------- */

/* The value of a digit, 30h to 39h; over 9 for another byte. */
static unsigned digit(uint8_t byte)
{
    return (unsigned)byte - '0';
}

/* The value of two digits; over 99 for other bytes. */
static unsigned two_digits(const uint8_t *p)
{
    unsigned tens = digit(p[0]), ones = digit(p[1]);
    return tens > 9 || ones > 9 ? 100 : tens * 10 + ones;
}

/* How many digits stand at the front. */
static size_t leading_digits(const uint8_t *p, size_t n)
{
    size_t i = 0;
    while (i < n && digit(p[i]) <= 9) {
        i++;
    }
    return i;
}

/* The place of the first byte under 20h, n for none. A content byte has one of its three upper bits set; eight bytes are looked
   at in one go, and the shifts bring the three bits of each to its top bit. */
static size_t first_low_byte(const uint8_t *p, size_t n)
{
    const uint64_t top = 0x8080808080808080u;
    size_t i = 0;
    while (n - i >= sizeof(uint64_t)) {
        uint64_t word;
        memcpy(&word, p + i, sizeof word);
        if (((word | word << 1 | word << 2) & top) != top) {
            break;
        }
        i += sizeof word;
    }
    while (i < n && p[i] >= 0x20) {
        i++;
    }
    return i;
}

/* The place of the first byte over 7Fh, n for none. Eight bytes without a top bit are passed over in one go. */
static size_t first_high_byte(const uint8_t *p, size_t n)
{
    const uint64_t top = 0x8080808080808080u;
    size_t i = 0;
    while (n - i >= sizeof(uint64_t)) {
        uint64_t word;
        memcpy(&word, p + i, sizeof word);
        if ((word & top) != 0) {
            break;
        }
        i += sizeof word;
    }
    while (i < n && p[i] <= 0x7F) {
        i++;
    }
    return i;
}

/* "float: optional -, one or more digits, optionally . and one or more digits." */
static int is_float(const uint8_t *p, size_t n)
{
    size_t i = n > 0 && p[0] == '-' ? 1 : 0;
    size_t whole = leading_digits(p + i, n - i);
    i += whole;
    if (whole == 0 || i == n) {
        return whole > 0;
    }
    if (p[i] != '.') {
        return 0;
    }
    i++;
    return i < n && leading_digits(p + i, n - i) == n - i;
}

/* DDMMYYYY, eight bytes; days and months start at `least`, months are not counted out (rules 020 and 008). */
static int is_date(const uint8_t *p, unsigned least)
{
    unsigned day = two_digits(p), month = two_digits(p + 2);
    return day >= least && day <= 31 && month >= least && month <= 12 && two_digits(p + 4) <= 99 && two_digits(p + 6) <= 99;
}

/* HHMMSS, six bytes (rule 090). */
static int is_time(const uint8_t *p)
{
    return two_digits(p) <= 24 && two_digits(p + 2) <= 59 && two_digits(p + 4) <= 59;
}

/* Whether a content without bytes under 20h keeps the length, kind and rule of its row; 14 if not. An empty one never does. */
static int fits(unsigned row, const uint8_t *p, size_t n)
{
    if (n < fields[row].least || n > fields[row].most) {
        return 0;
    }
    switch (fields[row].kind) {
    case NUM: return leading_digits(p, n) == n;
    case FLOAT: return is_float(p, n);
    case RULE_020: return is_date(p, 0);
    case RULE_008: return is_date(p, 1);
    case RULE_090: return is_time(p);
    case RULE_112: return p[0] == '1' || p[0] == '2';
    case RULE_116: return p[0] == '1' || p[0] == '3' || p[0] == '5';
    case CHARSET: return p[0] == '1' || p[0] == '2' || p[0] == '3';
    case VERSION: return two_digits(p) <= 99 && p[2] == '.' && two_digits(p + 3) <= 99;
    default: return 1; /* alnum: any content bytes */
    }
}

/* The set type a content of 8000 names, TYPES for none of the five. */
static unsigned type_of(const uint8_t *p, size_t n)
{
    if (n != 4 || two_digits(p) != 63) {
        return TYPES;
    }
    switch (two_digits(p + 2)) {
    case 0: return T6300;
    case 1: return T6301;
    case 2: return T6302;
    case 10: return T6310;
    case 11: return T6311;
    default: return TYPES;
    }
}

/* ---- The line syntax and the entries of a list ----------------------------------------------------------------------------- */

static const uint8_t *content_of(const struct lines *lines, const struct line *line)
{
    return lines->bytes + line->at + lines->head;
}

/* One line by 2, 3, 4, 5, 6. At least one byte stands at `at`. */
static struct refusal split_line(struct line *line, const uint8_t *bytes, size_t length, size_t at)
{
    const uint8_t *p = bytes + at;
    size_t rest = length - at, size, low;
    unsigned upper, lower;
    if (rest < 3) {
        return refuse(GDT_BAD_LENGTH, at, 0);
    }
    upper = digit(p[0]);
    lower = two_digits(p + 1);
    size = (size_t)upper * 100 + lower;
    if (upper > 9 || lower > 99 || size < LINE_LEAST) {
        return refuse(GDT_BAD_LENGTH, at, 0);
    }
    if (size > rest) {
        return refuse(GDT_CUT_LINE, at, 0);
    }
    if (p[size - 2] != '\r' || p[size - 1] != '\n') {
        return refuse(GDT_BAD_END, at, 0);
    }
    upper = two_digits(p + 3);
    lower = two_digits(p + 5);
    if (upper > 99 || lower > 99) {
        return refuse(GDT_BAD_LABEL, at, 0);
    }
    low = first_low_byte(p + LINE_HEAD, size - LINE_FRAME);
    if (low < size - LINE_FRAME) {
        return refuse(GDT_BAD_BYTE, at + LINE_HEAD + low, 0);
    }
    line->at = (uint32_t)at;
    line->label = (uint16_t)(upper * 100 + lower);
    line->length = (uint16_t)(size - LINE_FRAME);
    return none;
}

/* "It ends before the first later line start where seven or more bytes remain and bytes four to seven read 8000." Bytes one to
   three are never looked at (B1). */
static int starts_set(const uint8_t *p, size_t rest)
{
    return rest >= 7 && memcmp(p + 3, "8000", 4) == 0;
}

/* The lines of the set at the front of the bytes: 1, then each line by 7, 2, 3, 4, 5, 6. The end of the set comes before 7 (B2). */
static struct refusal split_set(struct lines *set, const uint8_t *bytes, size_t length)
{
    size_t at = 0, count = 0;
    if (length == 0) {
        return refuse(GDT_EMPTY, 0, 0);
    }
    while (at < length && (at == 0 || !starts_set(bytes + at, length - at))) {
        struct refusal refusal;
        if (count == GDT_MOST_LINES) {
            return refuse(GDT_TOO_MANY_LINES, at, 0);
        }
        refusal = split_line(&set->of[count], bytes, length, at);
        if (refusal.no != 0) {
            return refusal;
        }
        at += (size_t)set->of[count].length + LINE_FRAME;
        count++;
    }
    set->bytes = bytes;
    set->head = LINE_HEAD;
    set->count = count;
    set->length = at;
    return none;
}

static unsigned little_endian(const uint8_t *p)
{
    return p[0] | (unsigned)p[1] << 8;
}

/* Whether the entry at the front of `rest` bytes is cut: its head or its content runs past the end. */
static int cut_entry(const uint8_t *p, size_t rest)
{
    return rest < ENTRY_HEAD || rest - ENTRY_HEAD < little_endian(p);
}

/* The entries of a list: 1, then each entry by 7, 21, 6 (B28). */
static struct refusal split_list(struct lines *list, const uint8_t *bytes, size_t length)
{
    size_t at = 0, count = 0;
    if (length == 0) {
        return refuse(GDT_EMPTY, 0, 0);
    }
    while (at < length) {
        const uint8_t *p = bytes + at;
        size_t size, low;
        if (count == GDT_MOST_ENTRIES) {
            return refuse(GDT_TOO_MANY_LINES, at, 0);
        }
        if (cut_entry(p, length - at) || little_endian(p + 2) > 9999) {
            return refuse(GDT_BAD_LIST, at, 0);
        }
        size = little_endian(p);
        low = first_low_byte(p + ENTRY_HEAD, size);
        if (low < size) {
            return refuse(GDT_BAD_BYTE, at + ENTRY_HEAD + low, 0);
        }
        list->of[count].at = (uint32_t)at;
        list->of[count].label = (uint16_t)little_endian(p + 2);
        list->of[count].length = (uint16_t)size;
        at += ENTRY_HEAD + size;
        count++;
    }
    list->bytes = bytes;
    list->head = ENTRY_HEAD;
    list->count = count;
    list->length = at;
    return none;
}

/* ---- Groups ---------------------------------------------------------------------------------------------------------------- */

/* The state of the walk over the lines. `seen` holds for each row the number of the header under which its label stood last, plus
   1; so 1 for a label at set level, and 0 for a label not seen. `open` is the role of the group's header, OUT outside groups;
   `header` is the number of the header's line. `missing` is the first refusal by 16 among the groups and pairs closed. */
struct walk {
    uint16_t seen[ROWS];
    unsigned open;
    size_t header;
    struct refusal missing;
};

/* Whether the open group has the label of the row. */
static int has(const struct walk *walk, unsigned row)
{
    return walk->seen[row] == walk->header + 1;
}

/* The lowest label that the open group or pair lacks, 0 for none. 8421 is required if any of 8420, 8461, 8462 stands (B12),
   8437 if 8438 stands. */
static unsigned lacks(const struct walk *walk, const struct lines *lines)
{
    switch (walk->open) {
    case TEST:
        if ((has(walk, R8420) || has(walk, R8461) || has(walk, R8462)) && !has(walk, R8421)) {
            return 8421;
        }
        return has(walk, R8438) && !has(walk, R8437) ? 8437 : 0;
    case ARCHIVE:
        if (!has(walk, R6303)) {
            return 6303;
        }
        if (!has(walk, R6304)) {
            return 6304;
        }
        return has(walk, R6305) ? 0 : 6305;
    case NAME:
        return lines->of[walk->header - 1].label + 1u;
    default:
        return 0;
    }
}

/* Closes the open group or pair. Groups and pairs close in the order of their headers and names, so the first missing label found
   is the one that 16 names (B20). */
static void close_group(struct walk *walk, const struct lines *lines)
{
    unsigned label = walk->missing.no == 0 ? lacks(walk, lines) : 0;
    if (label != 0) {
        walk->missing = refuse(GDT_MISSING, lines->of[walk->header - 1].at, label);
    }
    walk->open = OUT;
    walk->header = 0;
}

/* Finds the header of line `number` and opens and closes groups; 0 for a stray line (12). "A group ends at the first line that is
   not a member of its header." */
static int find_header(struct walk *walk, struct lines *lines, size_t number, unsigned role)
{
    struct line *line = &lines->of[number - 1];
    line->header = (uint16_t)walk->header;
    switch (role) {
    case T1:
    case TN:
        return walk->open == TEST;
    case A1:
        return walk->open == ARCHIVE;
    case ODD:
        if (walk->open != NAME || lines->of[walk->header - 1].label + 1u != line->label) {
            return 0;
        }
        walk->open = OUT; /* the pair is whole */
        walk->header = 0;
        return 1;
    default:
        close_group(walk, lines);
        line->header = 0;
        if (role == TEST || role == ARCHIVE || role == NAME) {
            walk->open = role;
            walk->header = number;
        }
        return 1;
    }
}

/* ---- The rules of a line --------------------------------------------------------------------------------------------------- */

/* Line or entry `number` by 11, 12, 13, 14, 15. A 9206 that passes says whether the set is seven-bit; a second one is 13 (E2d). */
static struct refusal judge_line(struct walk *walk, struct lines *lines, size_t number)
{
    struct line *line = &lines->of[number - 1];
    const uint8_t *content = content_of(lines, line);
    unsigned row = row_of(line->label), role = roles[lines->type][row];
    uint16_t mark;
    line->row = (uint16_t)row;
    if (role == OUT) {
        return refuse(GDT_NOT_IN_SET, line->at, line->label);
    }
    if (!find_header(walk, lines, number, role)) {
        return refuse(GDT_STRAY, line->at, line->label);
    }
    mark = (uint16_t)(line->header + 1);
    if ((role == S1 || role == T1 || role == A1) && walk->seen[row] == mark) {
        return refuse(GDT_REPEATED, line->at, line->label);
    }
    walk->seen[row] = mark;
    if (!fits(row, content, line->length)) {
        return refuse(GDT_BAD_CONTENT, line->at, line->label);
    }
    if (row == R9218 && memcmp(content, "02.10", 5) != 0) {
        return refuse(GDT_OTHER_VERSION, line->at, line->label);
    }
    if (row == R9206) {
        lines->seven_bits = content[0] == '1';
    }
    return none;
}

/* All lines or entries by 11 to 15, then 16, "set level before groups and pairs in order, lowest label first". With
   `sum_added` 8100 counts as seen from the start: the writer adds it, so in a list it is Repeated and never Missing (B30). */
static struct refusal judge_lines(struct lines *lines, int sum_added)
{
    struct walk walk = {{0}, OUT, 0, {0, 0, 0}};
    const uint8_t *row;
    lines->seven_bits = 0;
    walk.seen[R8100] = sum_added ? 1 : 0;
    for (size_t number = 1; number <= lines->count; number++) {
        struct refusal refusal = judge_line(&walk, lines, number);
        if (refusal.no != 0) {
            return refusal;
        }
    }
    close_group(&walk, lines);
    for (row = required[lines->type]; *row != NO_ROW; row++) {
        if (walk.seen[*row] == 0) {
            return refuse(GDT_MISSING, 0, fields[*row].label);
        }
    }
    return walk.missing;
}

/* ---- A whole set and a whole list ------------------------------------------------------------------------------------------ */

/* The first line or entry by 8 and 9, and the set type. There is one, since 1 has refused empty input. */
static struct refusal judge_start(struct lines *lines)
{
    const struct line *first = &lines->of[0];
    if (first->label != 8000) {
        return refuse(GDT_NO_START, 0, 0);
    }
    lines->type = type_of(content_of(lines, first), first->length);
    if (lines->type == TYPES) {
        return refuse(GDT_UNKNOWN_SET, 0, 0);
    }
    return none;
}

/* "If a set holds 9206 with content 1, no content byte anywhere in it may exceed 7Fh": 24, at "the first such byte". */
static struct refusal judge_bytes(const struct lines *lines)
{
    if (!lines->seven_bits) {
        return none;
    }
    for (size_t i = 0; i < lines->count; i++) {
        const struct line *line = &lines->of[i];
        size_t high = first_high_byte(content_of(lines, line), line->length);
        if (high < line->length) {
            return refuse(GDT_HIGH_BYTE, line->at + lines->head + high, 0);
        }
    }
    return none;
}

/* The value of an 8100 that is five digits. */
static size_t sum_of(const uint8_t *p)
{
    return (size_t)digit(p[0]) * 10000 + (size_t)two_digits(p + 1) * 100 + two_digits(p + 3);
}

/* The set at the front of the bytes, by the "Order for a set"; 24 comes "after Missing and before BadSum". */
static struct refusal read_set(struct lines *set, const uint8_t *bytes, size_t length)
{
    struct refusal refusal = split_set(set, bytes, length);
    if (refusal.no == 0) {
        refusal = judge_start(set);
    }
    if (refusal.no != 0) {
        return refusal;
    }
    if (set->count < 2) {
        return refuse(GDT_NO_SUM, set->length, 0);
    }
    if (set->of[1].label != 8100) {
        return refuse(GDT_NO_SUM, set->of[1].at, 0);
    }
    refusal = judge_lines(set, 0);
    if (refusal.no == 0) {
        refusal = judge_bytes(set);
    }
    if (refusal.no != 0) {
        return refusal;
    }
    if (sum_of(content_of(set, &set->of[1])) != set->length) {
        return refuse(GDT_BAD_SUM, set->of[1].at, 0);
    }
    return none;
}

/* A set that must fill its bytes: its own refusals, then 18 for "another set follows" (B38). */
static struct refusal read_lone_set(struct lines *set, const uint8_t *bytes, size_t length)
{
    struct refusal refusal = read_set(set, bytes, length);
    if (refusal.no == 0 && set->length < length) {
        return refuse(GDT_BAD_USE, set->length, 0);
    }
    return refusal;
}

/* A field list, as the writer checks it: 1, each entry by 7, 21, 6, then 8, 9, 11 to 16, and 24. */
static struct refusal read_list(struct lines *list, const uint8_t *bytes, size_t length)
{
    struct refusal refusal = split_list(list, bytes, length);
    if (refusal.no == 0) {
        refusal = judge_start(list);
    }
    if (refusal.no == 0) {
        refusal = judge_lines(list, 1);
    }
    return refusal.no == 0 ? judge_bytes(list) : refusal;
}

/* Whether the line cannot be corrected. "9206 joins the lines that can't be corrected", whatever it holds (E2b). */
static int is_fixed(const struct line *line)
{
    return line->row == R8000 || line->row == R8100 || line->row == R9206 || line->row == R9218;
}

/* A new content for a line of an accepted set by 20, 6, 14, 24. `place` is the place of 20 and 14, `start` that of the content. */
static struct refusal judge_content(const struct lines *set, const struct line *line, const uint8_t *content, size_t n,
                                    size_t place, size_t start)
{
    size_t low;
    if (is_fixed(line)) {
        return refuse(GDT_FIXED_LINE, place, line->label);
    }
    low = first_low_byte(content, n);
    if (low < n) {
        return refuse(GDT_BAD_BYTE, start + low, 0);
    }
    if (!fits(line->row, content, n)) {
        return refuse(GDT_BAD_CONTENT, place, line->label);
    }
    if (set->seven_bits) {
        size_t high = first_high_byte(content, n);
        if (high < n) {
            return refuse(GDT_HIGH_BYTE, start + high, 0);
        }
    }
    return none;
}

/* Whether the set has the line number; 19 if not. */
static int has_line(const struct lines *set, size_t number)
{
    return number >= 1 && number <= set->count;
}

/* Writes the value in `width` digits. */
static void put_digits(uint8_t *p, size_t width, size_t value)
{
    while (width > 0) {
        width--;
        p[width] = (uint8_t)('0' + value % 10);
        value /= 10;
    }
}

/* Writes a line and answers its length. */
static size_t put_line(uint8_t *p, size_t label, const uint8_t *content, size_t n)
{
    put_digits(p, 3, n + LINE_FRAME);
    put_digits(p + 3, 4, label);
    memcpy(p + LINE_HEAD, content, n);
    p[LINE_HEAD + n] = '\r';
    p[LINE_HEAD + n + 1] = '\n';
    return n + LINE_FRAME;
}

/* Writes an entry of a list and answers its length. */
static size_t put_entry(uint8_t *p, unsigned label, const uint8_t *content, size_t n)
{
    p[0] = (uint8_t)(n & 0xFF);
    p[1] = (uint8_t)(n >> 8);
    p[2] = (uint8_t)(label & 0xFF);
    p[3] = (uint8_t)(label >> 8);
    memcpy(p + ENTRY_HEAD, content, n);
    return n + ENTRY_HEAD;
}

static struct gdt_made refused(struct refusal refusal)
{
    struct gdt_made made = {refusal.no, refusal.place, refusal.label, 0};
    return made;
}

static struct gdt_made made_of(size_t count)
{
    struct gdt_made made = {0, 0, 0, count};
    return made;
}

/* ---- The public functions -------------------------------------------------------------------------------------------------- */

struct gdt_judged gdt_judge(const uint8_t *set, size_t set_length)
{
    struct gdt_judged judged = {0, 0, 0, 0, 0, 0};
    struct lines lines;
    struct refusal refusal = read_set(&lines, set, set_length);
    if (refusal.no != 0) {
        judged.no = refusal.no;
        judged.place = refusal.place;
        judged.label = refusal.label;
        return judged;
    }
    judged.length = lines.length;
    judged.lines = lines.count;
    judged.type = type_numbers[lines.type];
    return judged;
}

/* "Index and list refuse as the set does, then by 22." The need of an index is its number of lines (B33). */
struct gdt_made gdt_index(const uint8_t *set, size_t set_length, struct gdt_entry *out, size_t room)
{
    struct lines lines;
    struct refusal refusal = read_set(&lines, set, set_length);
    if (refusal.no != 0) {
        return refused(refusal);
    }
    if (lines.count > room) {
        return refused(refuse(GDT_NO_ROOM, lines.count, 0));
    }
    for (size_t i = 0; i < lines.count; i++) {
        const struct line *line = &lines.of[i];
        out[i].label = line->label;
        out[i].place = (size_t)line->at + LINE_HEAD;
        out[i].length = line->length;
        out[i].header = line->header;
    }
    return made_of(lines.count);
}

/* An entry for each line but 8100, which is line 2. Each entry is five bytes shorter than its line. */
struct gdt_made gdt_list(const uint8_t *set, size_t set_length, uint8_t *out, size_t room)
{
    struct lines lines;
    struct refusal refusal = read_set(&lines, set, set_length);
    size_t need, at = 0;
    if (refusal.no != 0) {
        return refused(refusal);
    }
    need = lines.length - SUM_LINE - (lines.count - 1) * (LINE_FRAME - ENTRY_HEAD);
    if (need > room) {
        return refused(refuse(GDT_NO_ROOM, need, 0));
    }
    for (size_t i = 0; i < lines.count; i++) {
        const struct line *line = &lines.of[i];
        if (i != 1) {
            at += put_entry(out + at, line->label, content_of(&lines, line), line->length);
        }
    }
    memset(out + need, 0, room - need);
    return made_of(need);
}

/* "8100 has no entry. The writer adds it as line 2." Each line is five bytes longer than its entry. */
struct gdt_made gdt_write(const uint8_t *list, size_t list_length, uint8_t *out, size_t room)
{
    struct lines lines;
    struct refusal refusal = read_list(&lines, list, list_length);
    uint8_t sum[SUM_WIDTH];
    size_t need, at = 0;
    if (refusal.no != 0) {
        return refused(refusal);
    }
    need = lines.length + lines.count * (LINE_FRAME - ENTRY_HEAD) + SUM_LINE;
    if (need > room || need > SET_BYTES) {
        return refused(refuse(GDT_NO_ROOM, need, 0));
    }
    put_digits(sum, SUM_WIDTH, need);
    for (size_t i = 0; i < lines.count; i++) {
        const struct line *line = &lines.of[i];
        at += put_line(out + at, line->label, content_of(&lines, line), line->length);
        if (i == 0) {
            at += put_line(out + at, 8100, sum, SUM_WIDTH);
        }
    }
    memset(out + need, 0, room - need);
    return made_of(need);
}

/* "Corrections": 18 (used length), the set's own refusals, 18 (second set), 19, 20, 6, 14, 24, 22. Then the tail moves, 0Dh 0Ah of
   the line included, and the content, the line's length and 8100 are written; 8000 and 8100 are fixed, so the line stands after
   8100. */
struct gdt_made gdt_correct(uint8_t *buffer, size_t room, size_t used, size_t line, const uint8_t *content, size_t content_length)
{
    struct lines lines;
    struct refusal refusal;
    const struct line *old;
    size_t start, tail, need;
    if (used > room) {
        return refused(refuse(GDT_BAD_USE, room, 0));
    }
    refusal = read_lone_set(&lines, buffer, used);
    if (refusal.no != 0) {
        return refused(refusal);
    }
    if (!has_line(&lines, line)) {
        return refused(refuse(GDT_NO_SUCH_LINE, lines.length, 0));
    }
    old = &lines.of[line - 1];
    refusal = judge_content(&lines, old, content, content_length, old->at, 0);
    if (refusal.no != 0) {
        return refused(refusal);
    }
    need = used - old->length + content_length;
    if (need > room || need > SET_BYTES) {
        return refused(refuse(GDT_NO_ROOM, need, 0));
    }
    start = (size_t)old->at + LINE_HEAD;
    tail = start + old->length;
    memmove(buffer + start + content_length, buffer + tail, used - tail);
    memcpy(buffer + start, content, content_length);
    put_digits(buffer + old->at, 3, content_length + LINE_FRAME);
    put_digits(buffer + SUM_DIGITS, SUM_WIDTH, need);
    memset(buffer + need, 0, room - need);
    return made_of(need);
}

/* Each entry of a sheet by 21 (cut only), 19, 20, 6, 14, 24, the overridden ones too (B40). The last entry for the asked line is
   put into `viewed`. */
static struct refusal read_sheet(const struct lines *set, const uint8_t *sheet, size_t length, size_t line,
                                 struct gdt_viewed *viewed)
{
    size_t at = 0;
    while (at < length) {
        const uint8_t *p = sheet + at;
        struct refusal refusal;
        size_t size, number;
        if (cut_entry(p, length - at)) {
            return refuse(GDT_BAD_LIST, at, 0);
        }
        size = little_endian(p);
        number = little_endian(p + 2);
        if (!has_line(set, number)) {
            return refuse(GDT_NO_SUCH_LINE, at, 0);
        }
        refusal = judge_content(set, &set->of[number - 1], p + ENTRY_HEAD, size, at, at + ENTRY_HEAD);
        if (refusal.no != 0) {
            return refusal;
        }
        at += ENTRY_HEAD;
        if (number == line) {
            viewed->flag = 1;
            viewed->at = at;
            viewed->length = size;
        }
        at += size;
    }
    return none;
}

/* A view: the set, 18, the asked line (19), then the sheet. A refusal comes with an empty part of the set. */
struct gdt_viewed gdt_view(const uint8_t *set, size_t set_length, const uint8_t *sheet, size_t sheet_length, size_t line)
{
    struct gdt_viewed viewed = {0, 0, 0, 0, 0, 0};
    struct lines lines;
    struct refusal refusal = read_lone_set(&lines, set, set_length);
    if (refusal.no == 0 && !has_line(&lines, line)) {
        refusal = refuse(GDT_NO_SUCH_LINE, lines.length, 0);
    }
    if (refusal.no == 0) {
        viewed.at = (size_t)lines.of[line - 1].at + LINE_HEAD;
        viewed.length = lines.of[line - 1].length;
        refusal = read_sheet(&lines, sheet, sheet_length, line, &viewed);
    }
    if (refusal.no != 0) {
        struct gdt_viewed empty = {refusal.no, refusal.place, refusal.label, 0, 0, 0};
        return empty;
    }
    return viewed;
}

/* The second call of a view: the part itself, whole or not at all. The part of a refused view is empty. */
size_t gdt_view_copy(const uint8_t *set, size_t set_length, const uint8_t *sheet, size_t sheet_length, size_t line, uint8_t *out,
                     size_t room)
{
    struct gdt_viewed viewed = gdt_view(set, set_length, sheet, sheet_length, line);
    if (viewed.length <= room) {
        memcpy(out, (viewed.flag == 1 ? sheet : set) + viewed.at, viewed.length);
    }
    return viewed.length;
}

/* ---- The day file ---------------------------------------------------------------------------------------------------------- */

/* A refusal of the set at offset `at`: "the set's own, placed in the file". 18 is not the set's own, so its place stays (E1c). */
static struct refusal in_file(struct refusal refusal, size_t at)
{
    if (refusal.no != 0 && refusal.no != GDT_BAD_USE) {
        refusal.place += at;
    }
    return refusal;
}

/* How many entries stand in a slice of numbers: only whole fours count (E1i). */
static size_t entries_of(size_t numbers)
{
    return numbers / DAY_NUMBERS;
}

/* Writes the entry of the set at offset `at`, and answers the set's length. The set is accepted, so 8100 is its length, and line 3
   or a later one is 3000; the lines before that one are skipped by their lengths alone. */
static size_t put_day_entry(size_t *entry, const uint8_t *file, size_t at)
{
    const uint8_t *set = file + at;
    size_t length = sum_of(set + SUM_DIGITS), line = THIRD_LINE;
    while (memcmp(set + line + 3, "3000", 4) != 0) {
        line += digit(set[line]) * 100 + two_digits(set + line + 1);
    }
    entry[DAY_OFFSET] = at;
    entry[DAY_LENGTH] = length;
    entry[DAY_TYPE] = two_digits(set + LINE_HEAD) * 100 + two_digits(set + LINE_HEAD + 2);
    entry[DAY_PLACE] = at + line + LINE_HEAD;
    return length;
}

/* Each set by its own refusals, then by 23 (E1a); then 22. "A file of no bytes has none" (E1e). A set after the 2,049th is never
   judged. The entries are written in a second walk, since a refusal must leave the index as it was. */
struct gdt_made gdt_day_build(const uint8_t *file, size_t file_length, size_t *index, size_t numbers)
{
    struct lines set;
    size_t at = 0, count = 0;
    while (at < file_length) {
        struct refusal refusal = in_file(read_set(&set, file + at, file_length - at), at);
        if (refusal.no == 0 && count == GDT_MOST_SETS) {
            refusal = refuse(GDT_TOO_MANY_SETS, at, 0);
        }
        if (refusal.no != 0) {
            return refused(refusal);
        }
        at += set.length;
        count++;
    }
    if (count > entries_of(numbers)) {
        return refused(refuse(GDT_NO_ROOM, count, 0));
    }
    at = 0;
    for (size_t i = 0; i < count; i++) {
        at += put_day_entry(index + i * DAY_NUMBERS, file, at);
    }
    return made_of(count);
}

/* "18 in appending, as in corrections; the set's own, placed in the file", 18 (second set), 23, 22 (E1b). Nothing after the old
   length is 1 there (E1e). The old entries are not looked at; any count is taken (E1d). */
struct gdt_made gdt_day_append(const uint8_t *file, size_t file_length, size_t old, size_t *index, size_t numbers, size_t count)
{
    struct lines set;
    struct refusal refusal;
    if (old > file_length) {
        return refused(refuse(GDT_BAD_USE, file_length, 0));
    }
    refusal = in_file(read_lone_set(&set, file + old, file_length - old), old);
    if (refusal.no != 0) {
        return refused(refusal);
    }
    if (count >= GDT_MOST_SETS) {
        return refused(refuse(GDT_TOO_MANY_SETS, old, 0));
    }
    if (count >= entries_of(numbers)) {
        return refused(refuse(GDT_NO_ROOM, count + 1, 0));
    }
    put_day_entry(index + count * DAY_NUMBERS, file, old);
    return made_of(count + 1);
}

/* What a lookup asks for: the asked bytes, and the last place in the file from which they and 0Dh 0Ah have room. */
struct asked {
    const uint8_t *bytes;
    size_t length, last;
};

/* Whether "the asked bytes, none under 20h, and 0Dh 0Ah stand at its place": that of the entry, "also of a foreign index". Its
   other numbers are not looked at (E1g). The end is tested first: contents of another length fail there. */
static int matches(const struct asked *asked, const uint8_t *file, const size_t *entry)
{
    const uint8_t *content, *end;
    if (entry[DAY_PLACE] > asked->last) {
        return 0;
    }
    content = file + entry[DAY_PLACE];
    end = content + asked->length;
    return end[0] == '\r' && end[1] == '\n' && memcmp(content, asked->bytes, asked->length) == 0;
}

/* "Lookup answers all sets whose 3000 content has the same bytes, each once, in file order", by their numbers from 1 (E1h). Asked
   bytes that have one under 20h, or that do not fit into the file with 0Dh 0Ah, match nothing (E1g). 22 is the only refusal. The
   first pass counts; the second writes, and ends with the last match. */
struct gdt_made gdt_day_find(const uint8_t *file, size_t file_length, const size_t *index, size_t numbers, const uint8_t *asked,
                             size_t asked_length, size_t *out, size_t room)
{
    struct asked want = {asked, asked_length, 0};
    size_t entries = entries_of(numbers), found = 0, written = 0;
    if (file_length < LINE_END || asked_length > file_length - LINE_END || first_low_byte(asked, asked_length) < asked_length) {
        return made_of(0);
    }
    want.last = file_length - LINE_END - asked_length;
    for (size_t i = 0; i < entries; i++) {
        found += matches(&want, file, index + i * DAY_NUMBERS) ? 1 : 0;
    }
    if (found > room) {
        return refused(refuse(GDT_NO_ROOM, found, 0));
    }
    for (size_t i = 0; written < found; i++) {
        if (matches(&want, file, index + i * DAY_NUMBERS)) {
            out[written] = i + 1;
            written++;
        }
    }
    return made_of(found);
}

/* ---- The serial cable ------------------------------------------------------------------------------------------------------ */

_Static_assert(sizeof(struct gdt_link) == 6 * sizeof(size_t), "the sender's record is six numbers");
_Static_assert(sizeof(struct gdt_sent) == 6 * sizeof(size_t), "what it has to do is six numbers");
_Static_assert(sizeof(struct gdt_receiver) == 4 * sizeof(size_t), "the receiver's record is four numbers");
_Static_assert(sizeof(struct gdt_received) == 9 * sizeof(size_t), "what it answers is nine numbers");

enum {
    SEPARATOR = 0x1C, /* "one 1Ch in place of their 0Dh 0Ah" */
    ACK = 0x06,       /* the first byte of a reply */
    BLOCK_HEAD = 4,   /* count and label stand before the data */
    BLOCK_DATA = 128, /* "up to 128 data bytes" */
    CRC_DIGITS = 4,   /* "CRC-16 as four hex digits" */
    BLOCK_FRAME = 9,  /* count, label, digits and 0Dh */
    FIRST_CUT = 12,   /* line 1 has 13 bytes, so its 1Ch is the 12th byte of the data */
    LAST_COUNT = 9    /* "Count 1 to 9 then 1 again" */
};

_Static_assert(BLOCK_HEAD + CRC_DIGITS + 1 == BLOCK_FRAME, "a block without data");
_Static_assert(BLOCK_FRAME + BLOCK_DATA == GDT_BLOCK, "the greatest block");

/* The labels B00, B01 and B02, by their last digit. */
enum { FIRST_BLOCK, INNER_BLOCK, LAST_BLOCK };

/* The count after this one; 1 follows a count that no call left, too (E3o). */
static size_t next_count(size_t count)
{
    return count >= LAST_COUNT ? 1 : count + 1;
}

/* "The CRC program of appendix C decides": start 0, the highest bit of a byte first, 8005h for each bit that leaves at the top, all
   of it modulo 65536. */
static unsigned crc_of(const uint8_t *bytes, size_t length)
{
    unsigned crc = 0;
    for (size_t i = 0; i < length; i++) {
        for (unsigned bit = 0x80; bit != 0; bit >>= 1) {
            unsigned top = ((bytes[i] & bit) != 0) != ((crc & 0x8000) != 0);
            crc = (crc << 1) & 0xFFFF;
            crc ^= top ? 0x8005 : 0;
        }
    }
    return crc;
}

/* The bytes of a set's data. "Lines are joined": none of the 1Ch stands after the last line (E3a). */
static size_t data_length(const struct lines *set)
{
    return set->length - set->count - 1;
}

/* How many blocks the data have: two or more (E3b). */
static size_t blocks_of(size_t data)
{
    return data <= BLOCK_DATA ? 2 : (data + BLOCK_DATA - 1) / BLOCK_DATA;
}

/* The place in the data at which the block starts; for the number after the last one their end. "The data are cut every 128 bytes;
   a set that would fit one block is cut after its first 1Ch." */
static size_t cut_at(size_t data, size_t block)
{
    if (block >= blocks_of(data)) {
        return data;
    }
    return data <= BLOCK_DATA ? block * FIRST_CUT : block * BLOCK_DATA;
}

/* Copies the data from `start` to `end`. No content byte is under 20h, so each 0Dh ends a line and each 0Ah follows one. */
static void put_data(uint8_t *out, const struct lines *set, size_t start, size_t end)
{
    size_t place = 0;
    for (const uint8_t *p = set->bytes; place < end; p++) {
        if (*p == '\n') {
            continue;
        }
        if (place >= start) {
            out[place - start] = *p == '\r' ? SEPARATOR : *p;
        }
        place++;
    }
}

static void put_crc(uint8_t *out, unsigned crc)
{
    for (int i = CRC_DIGITS - 1; i >= 0; i--) {
        out[i] = (uint8_t)"0123456789ABCDEF"[crc & 15];
        crc >>= 4;
    }
}

/* "reply in, next action out": what a link's record says is to be done. */
static struct gdt_sent next_action(const struct gdt_link *link)
{
    struct gdt_sent sent = {0, 0, 0, GDT_IDLE, 0, 0};
    if (link->phase == GDT_UNDER_WAY) {
        sent.block = link->block;
        sent.count = link->count;
    }
    if (link->phase <= GDT_GIVEN_UP) {
        sent.what = link->phase;
    }
    return sent;
}

/* "The sender refuses as the set does, and 18 for a second set." The count goes on after a set that was delivered; it is "0 at the
   start, after a given-up set", and after one that was under way (E3f, E3g). */
static struct gdt_sent begin_set(struct gdt_link *link, const uint8_t *bytes, size_t length)
{
    struct lines set;
    struct refusal refusal = read_lone_set(&set, bytes, length);
    if (refusal.no != 0) {
        struct gdt_sent sent = {refusal.no, refusal.place, refusal.label, 0, 0, 0};
        return sent;
    }
    link->count = link->phase == GDT_DELIVERED ? next_count(link->count) : 0;
    link->phase = GDT_UNDER_WAY;
    link->blocks = blocks_of(data_length(&set));
    link->attempt = 1;
    link->block = 0;
    link->errors = 0;
    return next_action(link);
}

/* Whether the block that was sent last is the last one: block + 1 >= blocks, whatever the numbers are (E3o). */
static int at_last_block(const struct gdt_link *link)
{
    return link->blocks == 0 || link->block >= link->blocks - 1;
}

/* A block was taken: the next one, or the end. */
static void go_on(struct gdt_link *link)
{
    if (at_last_block(link)) {
        link->phase = GDT_DELIVERED;
        return;
    }
    link->block++;
    link->errors = 0; /* "in a row on a block" */
    link->count = next_count(link->count);
}

/* "A second error in a row on a block starts again from B00 with count 0; a second failed attempt ends it." */
static void try_again(struct gdt_link *link)
{
    if (link->errors == 0) {
        link->errors = 1;
    } else if (link->attempt <= 1) {
        link->attempt = 2;
        link->block = 0;
        link->errors = 0;
        link->count = 0;
    } else {
        link->phase = GDT_GIVEN_UP;
    }
}

/* "A timeout or any reply but ACK 1 is an error." */
static int is_ack_1(const uint8_t *bytes, size_t length)
{
    return length == 2 && bytes[0] == ACK && bytes[1] == '1';
}

/* A reply changes the record only if a set is under way; "calls after the end answer so". */
struct gdt_sent gdt_send(struct gdt_link *link, size_t begin, const uint8_t *bytes, size_t length)
{
    if (begin != GDT_REPLY) {
        return begin_set(link, bytes, length);
    }
    if (link->phase == GDT_UNDER_WAY) {
        if (is_ack_1(bytes, length)) {
            go_on(link);
        } else {
            try_again(link);
        }
    }
    return next_action(link);
}

/* "A block is sequence count, label B00, B01 or B02, up to 128 data bytes, CRC-16 as four hex digits, 0Dh." The CRC is of all
   before it (E3c). Length 0 for a block that the set does not have, and for a count that is no digit (E3h). */
struct gdt_made gdt_block(const uint8_t *set, size_t set_length, size_t block, size_t count, uint8_t out[GDT_BLOCK])
{
    struct lines lines;
    struct refusal refusal = read_lone_set(&lines, set, set_length);
    size_t data, start, end, at;
    unsigned label;
    if (refusal.no != 0) {
        return refused(refusal);
    }
    memset(out, 0, GDT_BLOCK);
    data = data_length(&lines);
    if (block >= blocks_of(data) || count > LAST_COUNT) {
        return made_of(0);
    }
    start = cut_at(data, block);
    end = cut_at(data, block + 1);
    label = block == 0 ? FIRST_BLOCK : end == data ? LAST_BLOCK : INNER_BLOCK;
    out[0] = (uint8_t)('0' + count);
    out[1] = 'B';
    out[2] = '0';
    out[3] = (uint8_t)('0' + label);
    put_data(out + BLOCK_HEAD, &lines, start, end);
    at = BLOCK_HEAD + end - start;
    put_crc(out + at, crc_of(out, at));
    out[at + CRC_DIGITS] = '\r';
    return made_of(at + BLOCK_FRAME - BLOCK_HEAD);
}

/* The value of an upper-case hex digit; 16 for another byte. A lower-case one is not of the form (E3c). */
static unsigned hex_digit(uint8_t byte)
{
    if (digit(byte) <= 9) {
        return digit(byte);
    }
    return byte >= 'A' && byte <= 'F' ? byte - 'A' + 10u : 16;
}

/* The value of the four hex digits of a block; over FFFFh for other bytes. */
static unsigned crc_in(const uint8_t *p)
{
    unsigned crc = 0;
    for (int i = 0; i < CRC_DIGITS; i++) {
        if (hex_digit(p[i]) > 15) {
            return 0x10000;
        }
        crc = crc << 4 | hex_digit(p[i]);
    }
    return crc;
}

/* "Apart from the field separator, no other ASCII character used in a data field may be less than 20h." */
static int is_data(const uint8_t *p, size_t n)
{
    for (size_t i = 0; i < n; i++) {
        if (p[i] < 0x20 && p[i] != SEPARATOR) {
            return 0;
        }
    }
    return 1;
}

/* "BadBlock (25) for the form" (E3d). */
static int is_block(const uint8_t *p, size_t n)
{
    return n >= BLOCK_FRAME && n <= GDT_BLOCK && digit(p[0]) <= 9 && p[1] == 'B' && p[2] == '0' && digit(p[3]) <= LAST_BLOCK
        && is_data(p + BLOCK_HEAD, n - BLOCK_FRAME) && crc_in(p + n - 1 - CRC_DIGITS) <= 0xFFFF && p[n - 1] == '\r';
}

/* What becomes of a block with this count and label; 0 if they are not in turn. "The receiver takes the next count, acknowledges
   the last one again without taking it, and starts afresh on 0 with B00." The label of the last one is not asked again (E3l). */
static size_t in_turn(const struct gdt_receiver *receiver, size_t count, unsigned label)
{
    size_t taken = label == LAST_BLOCK ? GDT_WHOLE : GDT_TAKEN;
    if (count == 0) {
        return label == FIRST_BLOCK ? taken : 0;
    }
    if (receiver->started == 0) {
        return 0; /* "0 at the start" (E3j) */
    }
    if (count == receiver->last) {
        return GDT_AGAIN;
    }
    if (count != next_count(receiver->last)) {
        return 0;
    }
    return (label == FIRST_BLOCK) == (receiver->open == 0) ? taken : 0;
}

/* The bytes of a set that the data stand for: 0Dh 0Ah is one more than 1Ch. */
static size_t set_bytes_of(const uint8_t *data, size_t n)
{
    size_t bytes = n;
    for (size_t i = 0; i < n; i++) {
        bytes += data[i] == SEPARATOR ? 1 : 0;
    }
    return bytes;
}

/* Writes these bytes of a set, and answers where they end. */
static uint8_t *put_set_bytes(uint8_t *out, const uint8_t *data, size_t n)
{
    for (size_t i = 0; i < n; i++) {
        if (data[i] == SEPARATOR) {
            *out++ = '\r';
            *out++ = '\n';
        } else {
            *out++ = data[i];
        }
    }
    return out;
}

/* A refusal, of which the reply is ACK 0. */
static struct gdt_received not_taken(size_t no, size_t place, struct gdt_receiver receiver)
{
    struct gdt_received received = {no, place, 0, 0, receiver, 0};
    return received;
}

/* "BadBlock (25) for the form, BadCrc (26), 25 for another count or a label out of turn, NoRoom." A B00 starts at the front of the
   buffer, the others after the used bytes, whatever the record says of them; the need stops at the greatest number (E3m). A block
   that is not refused has ACK 1 as its reply, also the last one again. */
struct gdt_received gdt_receive(struct gdt_receiver receiver, uint8_t *buffer, size_t room, const uint8_t *block,
                                size_t block_length)
{
    const size_t most = (size_t)-1;
    struct gdt_received received = {0, 0, 0, 0, receiver, 1};
    const uint8_t *data;
    size_t data_bytes, count, start, more, new_used;
    unsigned label;
    uint8_t *end;
    if (!is_block(block, block_length)) {
        return not_taken(GDT_BAD_BLOCK, 0, receiver);
    }
    data = block + BLOCK_HEAD;
    data_bytes = block_length - BLOCK_FRAME;
    if (crc_in(data + data_bytes) != crc_of(block, BLOCK_HEAD + data_bytes)) {
        return not_taken(GDT_BAD_CRC, 0, receiver);
    }
    count = digit(block[0]);
    label = digit(block[3]);
    received.what = in_turn(&receiver, count, label);
    if (received.what == 0) {
        return not_taken(GDT_BAD_BLOCK, 0, receiver);
    }
    if (received.what == GDT_AGAIN) {
        return received;
    }
    start = label == FIRST_BLOCK ? 0 : receiver.used;
    more = set_bytes_of(data, data_bytes) + (label == LAST_BLOCK ? LINE_END : 0);
    new_used = more > most - start ? most : start + more;
    if (new_used > room) {
        return not_taken(GDT_NO_ROOM, new_used, receiver);
    }
    end = put_set_bytes(buffer + start, data, data_bytes);
    if (label == LAST_BLOCK) {
        end[0] = '\r';
        end[1] = '\n';
    }
    memset(buffer + new_used, 0, room - new_used);
    received.receiver.started = 1;
    received.receiver.last = count;
    received.receiver.open = label == LAST_BLOCK ? 0 : 1;
    received.receiver.used = new_used;
    return received;
}

/* ---- Code pages ------------------------------------------------------------------------------------------------------------ */

/* What 9206 holds for each code. */
static const uint8_t seven_bit = '1', page_437 = '2', page_1252 = '3';

enum {
    CHARSET_LINE = 10, /* the length of a line 9206 */
    FIRST_HIGH = 0x80, /* below it a byte is the same in both code pages */
    HIGH_BYTES = 0x80,
    NONE = 0 /* the character is not in the other code page, or the byte is no character; no high byte is 00h there */
};

/* "A table .. for each direction, taken from the published Unicode mapping files for both code pages": CP437.TXT and CP1252.TXT.
   Here are the bytes 80h to FFh of 437 in 1252. */
static const uint8_t to_1252[HIGH_BYTES] = {
    /* 80h */ 0xC7, 0xFC, 0xE9, 0xE2, 0xE4, 0xE0, 0xE5, 0xE7, 0xEA, 0xEB, 0xE8, 0xEF, 0xEE, 0xEC, 0xC4, 0xC5,
    /* 90h */ 0xC9, 0xE6, 0xC6, 0xF4, 0xF6, 0xF2, 0xFB, 0xF9, 0xFF, 0xD6, 0xDC, 0xA2, 0xA3, 0xA5, NONE, 0x83,
    /* A0h */ 0xE1, 0xED, 0xF3, 0xFA, 0xF1, 0xD1, 0xAA, 0xBA, 0xBF, NONE, 0xAC, 0xBD, 0xBC, 0xA1, 0xAB, 0xBB,
    /* B0h */ NONE, NONE, NONE, NONE, NONE, NONE, NONE, NONE, NONE, NONE, NONE, NONE, NONE, NONE, NONE, NONE,
    /* C0h */ NONE, NONE, NONE, NONE, NONE, NONE, NONE, NONE, NONE, NONE, NONE, NONE, NONE, NONE, NONE, NONE,
    /* D0h */ NONE, NONE, NONE, NONE, NONE, NONE, NONE, NONE, NONE, NONE, NONE, NONE, NONE, NONE, NONE, NONE,
    /* E0h */ NONE, 0xDF, NONE, NONE, NONE, NONE, 0xB5, NONE, NONE, NONE, NONE, NONE, NONE, NONE, NONE, NONE,
    /* F0h */ NONE, 0xB1, NONE, NONE, NONE, NONE, 0xF7, NONE, 0xB0, NONE, 0xB7, NONE, NONE, 0xB2, NONE, 0xA0,
};

/* The bytes 80h to FFh of 1252 in 437. 81h, 8Dh, 8Fh, 90h and 9Dh are no characters. */
static const uint8_t to_437[HIGH_BYTES] = {
    /* 80h */ NONE, NONE, NONE, 0x9F, NONE, NONE, NONE, NONE, NONE, NONE, NONE, NONE, NONE, NONE, NONE, NONE,
    /* 90h */ NONE, NONE, NONE, NONE, NONE, NONE, NONE, NONE, NONE, NONE, NONE, NONE, NONE, NONE, NONE, NONE,
    /* A0h */ 0xFF, 0xAD, 0x9B, 0x9C, NONE, 0x9D, NONE, NONE, NONE, NONE, 0xA6, 0xAE, 0xAA, NONE, NONE, NONE,
    /* B0h */ 0xF8, 0xF1, 0xFD, NONE, NONE, 0xE6, NONE, 0xFA, NONE, NONE, 0xA7, 0xAF, 0xAC, 0xAB, NONE, 0xA8,
    /* C0h */ NONE, NONE, NONE, NONE, 0x8E, 0x8F, 0x92, 0x80, NONE, 0x90, NONE, NONE, NONE, NONE, NONE, NONE,
    /* D0h */ NONE, 0xA5, NONE, NONE, NONE, NONE, 0x99, NONE, NONE, NONE, NONE, NONE, 0x9A, NONE, NONE, 0xE1,
    /* E0h */ 0x85, 0xA0, 0x83, NONE, 0x84, 0x86, 0x91, 0x87, 0x8A, 0x82, 0x88, 0x89, 0x8D, 0xA1, 0x8C, 0x8B,
    /* F0h */ NONE, 0xA4, 0x95, 0xA2, 0x93, NONE, 0x94, 0xF6, NONE, 0x97, 0xA3, 0x96, 0x81, NONE, NONE, 0x98,
};

/* The line 9206 of an accepted set, NULL if it has none. */
static const struct line *charset_line(const struct lines *set)
{
    for (size_t i = 0; i < set->count; i++) {
        if (set->of[i].row == R9206) {
            return &set->of[i];
        }
    }
    return NULL;
}

/* The place of the first byte that the table has not, n for none. */
static size_t first_unknown(const uint8_t *p, size_t n, const uint8_t *table)
{
    size_t i = first_high_byte(p, n);
    while (i < n && (p[i] < FIRST_HIGH || table[p[i] - FIRST_HIGH] != NONE)) {
        i++;
    }
    return i;
}

/* "TooManyLines where the added line would be the 513th (place: set length); NoSuchCharacter (27), at the first such byte; NoRoom
   last" (E5b). `more` is the length of the line that is added, 0 for none. */
static struct refusal judge_recoding(const struct lines *set, const uint8_t *table, size_t more, size_t room)
{
    size_t need = set->length + more;
    if (more > 0 && set->count == GDT_MOST_LINES) {
        return refuse(GDT_TOO_MANY_LINES, set->length, 0);
    }
    for (size_t i = 0; i < set->count; i++) {
        const struct line *line = &set->of[i];
        size_t unknown = first_unknown(content_of(set, line), line->length, table);
        if (unknown < line->length) {
            return refuse(GDT_NO_SUCH_CHARACTER, line->at + LINE_HEAD + unknown, 0);
        }
    }
    return need > room ? refuse(GDT_NO_ROOM, need, 0) : none;
}

/* Each content byte becomes that of the same character. The table has them all. */
static void recode_contents(uint8_t *buffer, const struct lines *set, const uint8_t *table)
{
    for (size_t i = 0; i < set->count; i++) {
        const struct line *line = &set->of[i];
        uint8_t *content = buffer + line->at + LINE_HEAD;
        for (size_t at = first_high_byte(content, line->length); at < line->length; at++) {
            if (content[at] >= FIRST_HIGH) {
                content[at] = table[content[at] - FIRST_HIGH];
            }
        }
    }
}

/* "Gains that line as line 3": the lines after line 2 move, and 8100 counts the new one (E5e). */
static void add_charset_line(uint8_t *buffer, size_t used, uint8_t code)
{
    uint8_t *third = buffer + THIRD_LINE;
    memmove(third + CHARSET_LINE, third, used - THIRD_LINE);
    put_line(third, 9206, &code, 1);
    put_digits(buffer + SUM_DIGITS, SUM_WIDTH, used + CHARSET_LINE);
}

/* Recoding: 18 (used length), the set's own refusals, 18 (second set), 7, 27, 22 (E5b). "A set without 9206 counts as code page
   437"; "a set already in the wanted code stays as it is" (E5c); "sets with 9206 = 1 only change that content" (E5d); "bytes behind
   the set become zero" in all of these. */
static struct gdt_made recode(uint8_t *buffer, size_t room, size_t used, uint8_t wanted, const uint8_t *table)
{
    struct lines set;
    const struct line *charset;
    struct refusal refusal;
    size_t more = 0;
    uint8_t code = page_437;
    if (room < used) {
        return refused(refuse(GDT_BAD_USE, room, 0));
    }
    refusal = read_lone_set(&set, buffer, used);
    if (refusal.no != 0) {
        return refused(refusal);
    }
    charset = charset_line(&set);
    if (charset != NULL) {
        code = content_of(&set, charset)[0];
    }
    if (code != wanted && code != seven_bit) {
        more = charset == NULL ? CHARSET_LINE : 0;
        refusal = judge_recoding(&set, table, more, room);
        if (refusal.no != 0) {
            return refused(refusal);
        }
        recode_contents(buffer, &set, table);
    }
    if (charset != NULL) {
        buffer[charset->at + LINE_HEAD] = wanted;
    } else if (more > 0) {
        add_charset_line(buffer, used, wanted);
    }
    memset(buffer + used + more, 0, room - used - more);
    return made_of(used + more);
}

struct gdt_made gdt_to_437(uint8_t *buffer, size_t room, size_t used)
{
    return recode(buffer, room, used, page_437, to_437);
}

struct gdt_made gdt_to_1252(uint8_t *buffer, size_t room, size_t used)
{
    return recode(buffer, room, used, page_1252, to_1252);
}
