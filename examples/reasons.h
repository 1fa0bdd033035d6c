/* reasons.h: why a call refused, in words, by the number: those that the calls of examples/correct.c, examples/day.c,
   examples/cable.c, examples/recode.c and examples/pipeline.c can give. */
#ifndef REASONS_H
#define REASONS_H
#include "gdt.h"

static const char *const reasons[GDT_NO_SUCH_CHARACTER + 1] = {
    [GDT_EMPTY] = "there is no set",
    [GDT_BAD_LENGTH] = "a line's length is not three digits, or under 010",
    [GDT_CUT_LINE] = "a line runs past the end of the bytes",
    [GDT_BAD_END] = "a line does not end in 0Dh 0Ah",
    [GDT_BAD_LABEL] = "a label is not four digits",
    [GDT_BAD_BYTE] = "a content byte is under 20h",
    [GDT_TOO_MANY_LINES] = "the set has more than 512 lines",
    [GDT_NO_START] = "line 1 is not 8000",
    [GDT_UNKNOWN_SET] = "8000 names none of the five types of set",
    [GDT_NO_SUM] = "line 2 is not 8100",
    [GDT_NOT_IN_SET] = "the label is not in the table of this type of set",
    [GDT_STRAY] = "the line stands outside its group, or not right after its name",
    [GDT_REPEATED] = "the label stands there again, and may not",
    [GDT_BAD_CONTENT] = "the content breaks the length, kind or rule of its label",
    [GDT_OTHER_VERSION] = "9218 is not 02.10",
    [GDT_MISSING] = "the label is required and missing",
    [GDT_BAD_SUM] = "8100 is not the length of the set",
    [GDT_BAD_USE] = "another set follows",
    [GDT_NO_SUCH_LINE] = "the set has no line of this number",
    [GDT_FIXED_LINE] = "lines 8000, 8100, 9206 and 9218 cannot be corrected",
    [GDT_NO_ROOM] = "the set is too long for the buffer",
    [GDT_TOO_MANY_SETS] = "a day file has at most 2,048 sets",
    [GDT_HIGH_BYTE] = "a content byte is over 7Fh, and 9206 says that the set is in the 7-bit code",
    [GDT_BAD_BLOCK] = "no block, or not the next one",
    [GDT_BAD_CRC] = "the CRC is not the block's",
    [GDT_NO_SUCH_CHARACTER] = "the wanted code page has not this character",
};
#endif
