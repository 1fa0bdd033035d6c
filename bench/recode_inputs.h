/* recode_inputs.h: the fixed inputs of the bench for recoding: sets of code page 437 without 9206, the same in 1252, and for each refusal number
   an input that is refused so. It assumes bench/inputs.h. Those in 1252 are what the second program makes of those in 437. */
#ifndef RECODE_INPUTS_H
#define RECODE_INPUTS_H
#include "inputs.h"

extern __typeof__(gdt_to_1252) second_to_1252;

enum {
    ADDED_LINE = 10, /* bytes of a line 9206 */
    UMLAUTS_EACH = 4, /* of so many lines one has umlauts */
    PI = 0xE3, /* of 437; not in 1252 */
    EURO = 0x80 /* of 1252; not in 437 */
};

/* ---- Sets in 437 ------------------------------------------------------------------------------------------------------------- */

/* P with an umlaut as the patient's number. */
static void umlaut_paper(struct input *input)
{
    line(input, 8000, "6300");
    line(input, 8100, "00051");
    line(input, 9218, "02.10");
    line(input, 3000, "\x94");
}

/* The lines of short_77, one in four with an umlaut and a sharp s. */
static void umlauts_77(struct input *input)
{
    begin(input);
    for (size_t i = 0; i < 18; i++) {
        line(input, 8410, "FEV1ab");
        line(input, 8420, "-3.700");
        line(input, 8421, "litres");
        line(input, 8470, "gr\x94\xE1" "er");
    }
}

/* Lines of 40 bytes, as many as leave room for the line that a set gains. */
static void plain_512(struct input *input)
{
    begin(input);
    lines(input, GDT_MOST_LINES - 1 - input->lines, 6220, forty);
}

/* The same, one in four with two umlauts. */
static void umlauts_512(struct input *input)
{
    begin(input);
    while (input->lines < GDT_MOST_LINES - 1) {
        line(input, 6220, input->lines % UMLAUTS_EACH == 0 ? "abcdefghij\x81lmnopqrstuvwxyzabcdefghi\x84klmn" : forty);
    }
}

/* The same with no content byte below 80h but in the lines that allow none over it. All of these bytes are in both code pages. */
static void high_512(struct input *input)
{
    static const char text[] = "\x80\x81\x82\x83\x84\x85\x86\x87\x88\x89\x8A\x8B\x8C\x8D\x8E\x8F\x90\x91\x92\x93"
                               "\x94\x95\x96\x97\x98\x99\x9A\x9B\x9C\x9D\x9F\xA0\xA1\xA2\xA3\xA4\xA5\xE1\xE6\xF8";
    line(input, 8000, "6310");
    line(input, 8100, "00000");
    line(input, 9218, "02.10");
    line(input, 3000, "\x81\x84\x94\x8E\x99\x9A");
    line(input, 8402, "\x81\x84\x94\x8E\x99");
    lines(input, GDT_MOST_LINES - 1 - input->lines, 6220, text);
}

/* ---- Sets in 1252, and refused ones ------------------------------------------------------------------------------------------ */

/* Builds a set in 437 without 9206, or what it is in 1252, with 9206 as line 3. */
static void put_set(struct input *input, void (*make_set)(struct input *), bool in_1252)
{
    make_set(input);
    put_sum(input);
    if (in_1252) {
        input->used = second_to_1252(input->set, BUFFER, input->used).count;
        input->lines++;
    }
}

/* Whether recoding can answer a number: only a set that gains a line needs room. */
static bool can_refuse(size_t no, bool into_1252)
{
    return no <= GDT_BAD_USE || no == GDT_HIGH_BYTE || no == GDT_NO_SUCH_CHARACTER || (no == GDT_NO_ROOM && into_1252);
}

/* The input of a number. For GDT_NO_ROOM it is a good one, and the call is given too little room. For GDT_NO_SUCH_CHARACTER line 44 of 77,
   or 45 of 78, has such a byte. For GDT_TOO_MANY_LINES the set is full if it would gain a line, else it has a line too many. */
static void put_refused(struct input *input, size_t no, bool into_1252)
{
    if (no == GDT_NO_SUCH_CHARACTER || no == GDT_NO_ROOM) {
        put_set(input, umlauts_77, !into_1252);
    } else if (no == GDT_TOO_MANY_LINES && into_1252) {
        put_set(input, short_512, false);
    } else {
        refused(input, no);
    }
    if (no == GDT_NO_SUCH_CHARACTER) {
        line_at(input, into_1252 ? 44 : 45)[LINE_HEAD + 2] = into_1252 ? PI : EURO;
    }
    input->no = no;
}
#endif
