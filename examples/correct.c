/* correct.c: lists the lines of the set on standard input, gives one of them a new content, and prints the set that it then is.
     correct LINE CONTENT <FILE
   Status 0: done. 1: the set or the correction is refused. 2: wrong usage, or standard input cannot be read or standard output not
   written: what was printed may then be cut short. Standard error says what is wrong, and why.
   At most 65,536 bytes are read: no set has so many, so what is longer is refused. */
#define _POSIX_C_SOURCE 200809L
#include <errno.h>
#include <stdbool.h>
#include <stdio.h>
#include <stdlib.h>
#include <string.h>
#include <unistd.h>
#include "gdt.h"
#include "reasons.h"

enum { DONE = 0, REFUSED = 1, TROUBLE = 2 };

enum { ROOM = 65536 };

static uint8_t buffer[ROOM];
static struct gdt_entry entries[GDT_MOST_LINES];

/* Reads standard input up to its end, as far as there is room; false if it cannot be read. */
static bool read_input(size_t *used)
{
    long got = 1;
    while (got > 0 && *used < ROOM) {
        got = read(0, buffer + *used, ROOM - *used);
        *used += got > 0 ? (size_t)got : 0;
    }
    return got >= 0;
}

/* Takes a word for a number; false if it is none. */
static bool take_number(const char *word, size_t *out)
{
    char *end;
    *out = strtoul(word, &end, 10);
    return word[0] >= '0' && word[0] <= '9' && *end == '\0';
}

/* The status, unless a part of what was printed could not be written. */
static int brought_out(int status)
{
    if (ferror(stdout) || fclose(stdout) != 0) {
        dprintf(2, "correct: standard output cannot be written: %s\n", strerror(errno));
        return TROUBLE;
    }
    return status;
}

static int refused(const char *what, struct gdt_made made)
{
    dprintf(2, "correct: %s: refused by %zu at place %zu, label %zu: %s\n", what, made.no, made.place, made.label, reasons[made.no]);
    return REFUSED;
}

int main(int count, char **words)
{
    size_t line, used = 0;
    if (count != 3 || !take_number(words[1], &line)) {
        dprintf(2, "usage: correct LINE CONTENT <FILE   LINE is a number, from 1\n");
        return TROUBLE;
    }
    if (!read_input(&used)) {
        dprintf(2, "correct: standard input cannot be read: %s\n", strerror(errno));
        return TROUBLE;
    }
    struct gdt_made made = gdt_index(buffer, used, entries, GDT_MOST_LINES);
    if (made.no != 0) {
        return refused("the set", made);
    }
    for (size_t i = 0; i < made.count; i++) {
        printf("%zu: %04zu %.*s\n", i + 1, entries[i].label, (int)entries[i].length, (const char *)buffer + entries[i].place);
    }
    const char *content = words[2];
    made = gdt_correct(buffer, ROOM, used, line, (const uint8_t *)content, strlen(content));
    if (made.no != 0) {
        return brought_out(refused("the correction", made));
    }
    printf("%.*s", (int)made.count, (const char *)buffer);
    return brought_out(DONE);
}
