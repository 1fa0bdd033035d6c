/* inputs.h: the fixed inputs of the bench: what the calls are given, the sets that two or more loads have, and for each refusal number once.
   It assumes that a set starts with 8000, 8100, 9218 or 9206, and 3000: line 2 is the sum, line 3 is fixed, line 4 can be corrected. */
#ifndef INPUTS_H
#define INPUTS_H
#include "putline.h"

enum {
    BUFFER = 40000, /* bytes, for a set, a list or a sheet */
    MOST_CONTENT = 60, /* bytes, of a field that has no other bound */
    LONGEST_CONTENT = GDT_MOST_LINE - LINE_FRAME, /* bytes */
    SUM_LINE = 2,
    FIXED_LINE = 3,
    PATIENT_LINE = 4,
    SUM_DIGITS = 5,
    LINE_HEAD = LENGTH_DIGITS + LABEL_DIGITS
};

/* What a call is given: a set and its list; the line that is corrected and viewed, its new content and its old one, and a sheet for it.
   The call must answer the number `no`. */
struct input {
    size_t no;
    uint8_t set[BUFFER], list[BUFFER], sheet[BUFFER], content[LONGEST_CONTENT], old[MOST_CONTENT];
    size_t used, lines, list_used, sheet_used, content_length, old_length, line;
};

/* ---- Lines and entries ------------------------------------------------------------------------------------------------------- */

static void line(struct input *input, size_t label, const char *content)
{
    put_line(input->set, &input->used, label, content, strlen(content));
    input->lines++;
}

static void lines(struct input *input, size_t count, size_t label, const char *content)
{
    for (size_t i = 0; i < count; i++) {
        line(input, label, content);
    }
}

static size_t number_at(const uint8_t *digits, int width)
{
    size_t number = 0;
    for (int i = 0; i < width; i++) {
        number = number * 10 + digits[i] - '0';
    }
    return number;
}

/* Where a line of the set starts; of the number after the last line's, where the set ends. */
static size_t place_of(const struct input *input, size_t number)
{
    size_t place = 0;
    for (size_t i = 1; i < number; i++) {
        place += number_at(input->set + place, LENGTH_DIGITS);
    }
    return place;
}

static uint8_t *line_at(struct input *input, size_t number)
{
    return input->set + place_of(input, number);
}

static void put_entry(uint8_t *bytes, size_t *used, size_t label, const uint8_t *content, size_t length)
{
    const uint8_t head[] = {(uint8_t)length, (uint8_t)(length >> 8), (uint8_t)label, (uint8_t)(label >> 8)};
    memcpy(bytes + *used, head, sizeof head);
    memcpy(bytes + *used + sizeof head, content, length);
    *used += sizeof head + length;
}

/* The list of the set as it stands: an entry for each line but the sum. */
static void put_list(struct input *input)
{
    const uint8_t *at = input->set;
    input->list_used = 0;
    for (size_t number = 1; number <= input->lines; number++) {
        size_t length = number_at(at, LENGTH_DIGITS);
        if (number != SUM_LINE) {
            put_entry(input->list, &input->list_used, number_at(at + LENGTH_DIGITS, LABEL_DIGITS), at + LINE_HEAD, length - LINE_FRAME);
        }
        at += length;
    }
}

/* The line that is corrected and viewed, and a sheet of two entries for it, of which the last one counts. */
static void choose_line(struct input *input, size_t number)
{
    input->line = number;
    input->sheet_used = 0;
    put_entry(input->sheet, &input->sheet_used, number, (const uint8_t *)"7", 1);
    put_entry(input->sheet, &input->sheet_used, number, input->content, input->content_length);
}

static void put_sum(struct input *input)
{
    size_t sum_at = LINE_HEAD;
    put_digits(line_at(input, SUM_LINE), &sum_at, input->used, SUM_DIGITS);
}

static size_t content_length(struct input *input, size_t number)
{
    return number_at(line_at(input, number), LENGTH_DIGITS) - LINE_FRAME;
}

/* A new content for a line, its old one cut to `length` bytes or with sevens after it. */
static void change_line(struct input *input, size_t number, size_t length)
{
    input->old_length = content_length(input, number);
    memcpy(input->old, line_at(input, number) + LINE_HEAD, input->old_length);
    memset(input->content, '7', length);
    memcpy(input->content, input->old, length < input->old_length ? length : input->old_length);
    input->content_length = length;
    choose_line(input, number);
}

/* After the last line: the sum, the list, and a new content of the patient's line, one byte longer than the old one. */
static void finish(struct input *input)
{
    put_sum(input);
    put_list(input);
    change_line(input, PATIENT_LINE, content_length(input, PATIENT_LINE) + 1);
}

/* ---- Sets -------------------------------------------------------------------------------------------------------------------- */

static void begin(struct input *input)
{
    line(input, 8000, "6310");
    line(input, 8100, "00000");
    line(input, 9218, "02.10");
    line(input, 3000, "123456");
    line(input, 8402, "EKG01");
}

/* The same with 9206 = 1 as line 3: no content byte may be over 7Fh. */
static void begin_seven_bit(struct input *input)
{
    line(input, 8000, "6310");
    line(input, 8100, "00000");
    line(input, 9206, "1");
    line(input, 3000, "123456");
    line(input, 9218, "02.10");
    line(input, 8402, "EKG01");
}

static void group(struct input *input)
{
    line(input, 8410, "FEV1ab");
    line(input, 8420, "-3.700");
    line(input, 8421, "litres");
    line(input, 8470, "normal");
}

static void groups(struct input *input, size_t count)
{
    for (size_t i = 0; i < count; i++) {
        group(input);
    }
}

static void short_77(struct input *input)
{
    begin(input);
    groups(input, 18);
}

/* The lines of short_77 and 9206. */
static void seven_bit_77(struct input *input)
{
    begin_seven_bit(input);
    groups(input, 18);
}

static void short_512(struct input *input)
{
    begin(input);
    groups(input, 126);
    lines(input, 3, 6220, "abcdef");
}

static const char forty[] = "abcdefghijklmnopqrstuvwxyzabcdefghijklmn";

/* ---- Refused inputs ---------------------------------------------------------------------------------------------------------- */

/* What is written over the set of 77 lines for a number: the line, the place in it, the bytes. Its lines 42 to 45 are the group
   8410, 8420, 8421, 8470, each of 15 bytes; those of the seven-bit set, which GDT_HIGH_BYTE is written over, are one line later. */
static const struct damage {
    size_t no, line, at;
    const char *bytes;
} damages[] = {
    {GDT_BAD_LENGTH, 44, 0, "x"},
    {GDT_BAD_END, 44, 13, " "},
    {GDT_BAD_LABEL, 44, 3, "x"},
    {GDT_BAD_BYTE, 44, 9, "\t"},
    {GDT_NO_START, 1, 3, "8001"},
    {GDT_UNKNOWN_SET, 1, 7, "6319"},
    {GDT_NO_SUM, 2, 3, "8101"},
    {GDT_NOT_IN_SET, 44, 3, "9999"},
    {GDT_STRAY, 44, 3, "6303"},
    {GDT_REPEATED, 45, 3, "8421"},
    {GDT_BAD_CONTENT, 43, 7, "x"},
    {GDT_OTHER_VERSION, 3, 7, "02.00"},
    {GDT_MISSING, 44, 3, "8430"},
    {GDT_BAD_SUM, 2, 7, "00000"},
    {GDT_HIGH_BYTE, 45, 9, "\xE4"},
};

/* The input of a number; for GDT_NO_ROOM it is a good one, and the calls are given too little room. */
static void refused(struct input *input, size_t no)
{
    if (no == GDT_TOO_MANY_LINES) {
        short_512(input);
        line(input, 6220, "abcdef");
    } else if (no == GDT_HIGH_BYTE) {
        seven_bit_77(input);
    } else {
        short_77(input);
    }
    finish(input);
    input->no = no;
    for (size_t i = 0; i < sizeof damages / sizeof *damages; i++) {
        if (damages[i].no == no) {
            memcpy(line_at(input, damages[i].line) + damages[i].at, damages[i].bytes, strlen(damages[i].bytes));
        }
    }
    if (no >= GDT_BAD_BYTE) { /* a list has no lengths, ends and labels in digits to be damaged */
        put_list(input);
    }
    switch (no) {
    case GDT_EMPTY: input->used = input->list_used = 0; break;
    case GDT_CUT_LINE: input->used--; break;
    case GDT_BAD_USE: begin(input); group(input); break; /* another set follows */
    case GDT_NO_SUCH_LINE: choose_line(input, input->lines + 1); break;
    case GDT_FIXED_LINE: choose_line(input, FIXED_LINE); break;
    case GDT_BAD_LIST: input->list_used--; input->sheet_used--; break;
    }
}
#endif
