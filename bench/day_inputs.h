/* day_inputs.h: the fixed inputs of the bench for the calls on a day file: files of varied sets with their indexes, and for each refusal
   number a file that is refused so. It assumes the lines and the refused sets of bench/inputs.h. */
#ifndef DAY_INPUTS_H
#define DAY_INPUTS_H
#include "inputs.h"

enum {
    DAY_ENTRY = 4, /* numbers of a set in the index */
    MOST_NUMBERS = DAY_ENTRY * (GDT_MOST_SETS + 1),
    FILE_BYTES = 160000,
    APPENDED_TO = 64, /* sets of the file that a set is appended to */
    BEFORE_REFUSED = 3, /* sets before the one that is refused */
    PATIENT = 3000,
    ASKED_SET = 1 /* whose patient is looked for */
};

/* What a day call is given: a file, and the index of its sets, which may leave out the last one; how much of the file is built; how much of
   it is old in appending, and the count of its sets; the patient that is looked for, and how many sets of the index match. Each call must
   answer the number `no`. */
struct day {
    size_t no;
    uint8_t file[FILE_BYTES], asked[MOST_CONTENT];
    size_t index[MOST_NUMBERS];
    size_t used, sets, built, old, count, asked_length, matches;
};

/* ---- Sets -------------------------------------------------------------------------------------------------------------------- */

/* The number of a set's patient, as text: 64 patients come by turns in no order, most of them with numbers of five digits. */
static const char *patient_of(size_t number)
{
    static char text[] = "00000";
    size_t patient = (uint32_t)(number * 2654435761u) >> 26, used = 0;
    if (patient % 4 == 0) {
        put_digits((uint8_t *)text, &used, patient, 2);
    } else {
        put_digits((uint8_t *)text, &used, 10000 + 37 * patient, 5);
    }
    text[used] = 0;
    return text;
}

/* Lines 1 and 2, and the version if it comes before the patient. */
static void start(struct input *set, const char *type, bool version)
{
    memset(set, 0, sizeof *set);
    line(set, 8000, type);
    line(set, 8100, "00000");
    if (version) {
        line(set, 9218, "02.10");
    }
}

static void person(struct input *set, size_t number)
{
    static const char *const names[] = {"Ng", "Meier", "Oezdemir", "Schmidt-Rottluff"};
    line(set, 3101, names[number % 4]);
    line(set, 3102, names[number / 4 % 4]);
    line(set, 3103, number % 3 == 0 ? "00000000" : "31121969");
}

/* Four lines, five if the number is a third one: the patient's is before or after the version. */
static void small_set(struct input *set, size_t number)
{
    bool version = number % 2 == 0;
    start(set, "6300", version);
    if (number % 3 == 0) {
        line(set, 8315, "PRAXIS01");
    }
    line(set, PATIENT, patient_of(number));
    if (!version) {
        line(set, 9218, "02.10");
    }
    put_sum(set);
}

/* All types but 6300 by turns, 6310 twice, with groups and with long contents; 5 to 78 lines. */
static void varied_set(struct input *set, size_t number)
{
    enum { GROUPS, NEW_PATIENT, TEST_WANTED, TEST_SHOWN, LONG_LINES, KINDS };
    static const char *const types[] = {[GROUPS] = "6310", [NEW_PATIENT] = "6301", [TEST_WANTED] = "6302", [TEST_SHOWN] = "6311", [LONG_LINES] = "6310"};
    size_t kind = number % KINDS;
    start(set, types[kind], number % 2 == 0);
    if (kind == NEW_PATIENT || kind == TEST_WANTED) {
        person(set, number);
    }
    line(set, PATIENT, patient_of(number));
    if (number % 2 != 0) {
        line(set, 9218, "02.10");
    }
    line(set, kind == NEW_PATIENT ? 3107 : 8402, "EKG01");
    for (size_t i = 0; kind == GROUPS && i < 1 + number % 18; i++) {
        group(set);
    }
    for (size_t i = 0; kind == LONG_LINES && i < number % 40; i++) {
        line(set, 6228, forty + i % 30);
    }
    if (kind == TEST_SHOWN) {
        line(set, 8432, "01022024");
        line(set, 8439, "235959");
    }
    put_sum(set);
}

/* ---- Files ------------------------------------------------------------------------------------------------------------------- */

static size_t patient_place(const struct input *set)
{
    const uint8_t *at = set->set;
    while (number_at(at + LENGTH_DIGITS, LABEL_DIGITS) != PATIENT) {
        at += number_at(at, LENGTH_DIGITS);
    }
    return (size_t)(at - set->set) + LINE_HEAD;
}

/* Puts a set after the file. */
static void add_bytes(struct day *day, const struct input *set)
{
    memcpy(day->file + day->used, set->set, set->used);
    day->old = day->used;
    day->used += set->used;
    day->built = day->used;
}

/* Puts an accepted set after the file and its entry into the index. */
static void add_set(struct day *day, const struct input *set)
{
    size_t *entry = day->index + DAY_ENTRY * day->sets++;
    entry[0] = day->used;
    entry[1] = set->used;
    entry[2] = number_at(set->set + LINE_HEAD, LABEL_DIGITS);
    entry[3] = day->used + patient_place(set);
    add_bytes(day, set);
    day->matches += memcmp(day->file + entry[3], day->asked, day->asked_length) == 0 && day->file[entry[3] + day->asked_length] == '\r';
}

/* A file of this many sets. */
static void day_file(struct day *day, size_t sets, void (*make_set)(struct input *, size_t))
{
    static struct input set;
    const char *asked = patient_of(ASKED_SET);
    memset(day, 0, sizeof *day);
    day->asked_length = strlen(asked);
    memcpy(day->asked, asked, day->asked_length);
    for (size_t i = 0; i < sets; i++) {
        make_set(&set, i);
        add_set(day, &set);
    }
}

/* A file that is built, and one more set that is appended. */
static void varied_day(struct day *day, size_t sets)
{
    static struct input set;
    day_file(day, sets, varied_set);
    varied_set(&set, sets);
    add_bytes(day, &set);
    day->built = day->old;
    day->count = sets;
}

static void small_day(struct day *day, size_t sets)
{
    day_file(day, sets, small_set);
    day->no = sets > GDT_MOST_SETS ? GDT_TOO_MANY_SETS : 0;
}

/* A file in which one set more is found than there is room for. */
static void full_day(struct day *day, size_t sets)
{
    small_day(day, sets);
    day->no = GDT_NO_ROOM;
}

/* After some good sets a set that is refused by this number; a good one if it is the room or the count that is wrong. A set that does not
   start with 8000 is the first one, since it would belong to the set before it. */
static void refused_day(struct day *day, size_t no)
{
    static struct input set;
    size_t before = no == GDT_NO_START ? 0 : BEFORE_REFUSED;
    memset(&set, 0, sizeof set);
    refused(&set, no);
    day_file(day, before, varied_set);
    day->count = no == GDT_TOO_MANY_SETS ? GDT_MOST_SETS : before;
    if (no > GDT_BAD_USE && no != GDT_HIGH_BYTE) {
        add_set(day, &set);
    } else {
        add_bytes(day, &set);
    }
    day->no = no;
}
#endif
