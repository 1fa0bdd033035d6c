/* recode.c: brings GDT sets into another code page, for an archive that takes only one of them.
     recode 437 <IN >OUT
     recode 1252 <IN >OUT
   IN is a set, or a day file: set after set with nothing between. OUT has the same sets in the wanted code page, each with a line 9206
   that names it; only a set without that line stays without it if 437 is wanted.
   Nothing is written until all sets are recoded. Status 0: they are, and OUT is written. 1: a set is refused; standard error says which
   one, at which byte of IN, and why. 2: wrong usage, or IN cannot be read or OUT not written: standard error says why, and OUT, which may
   have a part of the sets then, must not be used. */
#define _POSIX_C_SOURCE 200809L
#include <errno.h>
#include <stdbool.h>
#include <stdio.h>
#include <stdlib.h>
#include <string.h>
#include <unistd.h>
#include "files.h"
#include "gdt.h"
#include "reasons.h"

enum { DONE = 0, REFUSED = 1, TROUBLE = 2 };

enum {
    STEP = 65536, /* bytes that are read at once, at least */
    ADDED = 10    /* bytes of a line 9206 */
};

/* A code page that can be wanted, and the one that its sets then come from. */
struct page {
    const char *name, *from;
    struct gdt_made (*recode)(uint8_t *buffer, size_t room, size_t used);
};

static const struct page pages[] = {{"437", "1252", gdt_to_437}, {"1252", "437", gdt_to_1252}};

enum { PAGES = sizeof pages / sizeof *pages };

/* Bytes that grow as they are read or made. */
struct bytes {
    uint8_t *at;
    size_t used, room;
};

static bool tell_failure(const char *what)
{
    dprintf(2, "recode: %s: %s\n", what, strerror(errno));
    return false;
}

/* ---- Characters -------------------------------------------------------------------------------------------------------------- */

/* The Unicode numbers of the bytes 80h to FFh of 437, and of 80h to 9Fh of 1252, by CP437.TXT and CP1252.TXT; 0 for no character. From
   A0h on a byte of 1252 is the character of its own number. */
enum { FIRST_437 = 0x80, FIRST_1252 = 0x80, LATIN = 0xA0 };

static const uint16_t unicode_437[] = {
    0x00C7, 0x00FC, 0x00E9, 0x00E2, 0x00E4, 0x00E0, 0x00E5, 0x00E7, 0x00EA, 0x00EB, 0x00E8, 0x00EF, 0x00EE, 0x00EC, 0x00C4, 0x00C5,
    0x00C9, 0x00E6, 0x00C6, 0x00F4, 0x00F6, 0x00F2, 0x00FB, 0x00F9, 0x00FF, 0x00D6, 0x00DC, 0x00A2, 0x00A3, 0x00A5, 0x20A7, 0x0192,
    0x00E1, 0x00ED, 0x00F3, 0x00FA, 0x00F1, 0x00D1, 0x00AA, 0x00BA, 0x00BF, 0x2310, 0x00AC, 0x00BD, 0x00BC, 0x00A1, 0x00AB, 0x00BB,
    0x2591, 0x2592, 0x2593, 0x2502, 0x2524, 0x2561, 0x2562, 0x2556, 0x2555, 0x2563, 0x2551, 0x2557, 0x255D, 0x255C, 0x255B, 0x2510,
    0x2514, 0x2534, 0x252C, 0x251C, 0x2500, 0x253C, 0x255E, 0x255F, 0x255A, 0x2554, 0x2569, 0x2566, 0x2560, 0x2550, 0x256C, 0x2567,
    0x2568, 0x2564, 0x2565, 0x2559, 0x2558, 0x2552, 0x2553, 0x256B, 0x256A, 0x2518, 0x250C, 0x2588, 0x2584, 0x258C, 0x2590, 0x2580,
    0x03B1, 0x00DF, 0x0393, 0x03C0, 0x03A3, 0x03C3, 0x00B5, 0x03C4, 0x03A6, 0x0398, 0x03A9, 0x03B4, 0x221E, 0x03C6, 0x03B5, 0x2229,
    0x2261, 0x00B1, 0x2265, 0x2264, 0x2320, 0x2321, 0x00F7, 0x2248, 0x00B0, 0x2219, 0x00B7, 0x221A, 0x207F, 0x00B2, 0x25A0, 0x00A0,
};

static const uint16_t unicode_1252[LATIN - FIRST_1252] = {
    0x20AC, 0,      0x201A, 0x0192, 0x201E, 0x2026, 0x2020, 0x2021, 0x02C6, 0x2030, 0x0160, 0x2039, 0x0152, 0,      0x017D, 0,
    0,      0x2018, 0x2019, 0x201C, 0x201D, 0x2022, 0x2013, 0x2014, 0x02DC, 0x2122, 0x0161, 0x203A, 0x0153, 0,      0x017E, 0x0178,
};

/* The Unicode number of a byte over 7Fh, 0 if it is no character. */
static unsigned unicode_of(const struct page *page, uint8_t byte)
{
    if (strcmp(page->from, "437") == 0) {
        return unicode_437[byte - FIRST_437];
    }
    return byte < LATIN ? unicode_1252[byte - FIRST_1252] : byte;
}

/* ---- Refusals ---------------------------------------------------------------------------------------------------------------- */

/* The set that is looked at: its number, from 1, and its place in what was read. */
struct place {
    size_t number, at;
};

static void tell_character(const struct page *page, struct place set, size_t place, uint8_t byte)
{
    unsigned unicode = unicode_of(page, byte);
    dprintf(2, "recode: set %zu, byte %zu of the input is %02Xh, ", set.number, set.at + place, byte);
    if (unicode == 0) {
        dprintf(2, "which is no character of code page %s", page->from);
    } else {
        dprintf(2, "U+%04X of code page %s", unicode, page->from);
    }
    dprintf(2, ": refused by %d: %s\n", GDT_NO_SUCH_CHARACTER, reasons[GDT_NO_SUCH_CHARACTER]);
}

static void tell_refusal(struct place set, size_t no, size_t place, size_t label, const char *reason)
{
    dprintf(2, "recode: set %zu, from byte %zu of the input on: refused by %zu at byte %zu, label %zu: %s\n", set.number, set.at, no,
            set.at + place, label, reason);
}

/* ---- Sets -------------------------------------------------------------------------------------------------------------------- */

/* Recodes a set of this length into `out`, which has room for it and one line more; its new length, 0 if it is refused. */
static size_t recode_set(const struct page *page, struct place place, const uint8_t *set, size_t length, uint8_t *out)
{
    memcpy(out, set, length);
    struct gdt_made made = page->recode(out, length + ADDED, length);
    if (made.no == GDT_NO_SUCH_CHARACTER) {
        tell_character(page, place, made.place, set[made.place]);
    } else if (made.no == GDT_TOO_MANY_LINES) {
        tell_refusal(place, made.no, made.place, made.label, "the set has 512 lines, and 9206 would be one more");
    } else if (made.no != 0) {
        tell_refusal(place, made.no, made.place, made.label, reasons[made.no]);
    }
    return made.count;
}

/* Recodes set after set; false if one is refused. There must be one, so that an empty file is not taken for an archive. */
static bool recode_all(const struct page *page, const struct bytes *in, struct bytes *out)
{
    struct place place = {1, 0};
    do {
        const uint8_t *set = in->at + place.at;
        struct gdt_judged judged = gdt_judge(set, in->used - place.at);
        if (judged.no != 0) {
            tell_refusal(place, judged.no, judged.place, judged.label, reasons[judged.no]);
            return false;
        }
        size_t length = recode_set(page, place, set, judged.length, out->at + out->used);
        if (length == 0) {
            return false;
        }
        out->used += length;
        place.at += judged.length;
        place.number++;
    } while (place.at < in->used);
    return true;
}

/* ---- Bytes ------------------------------------------------------------------------------------------------------------------- */

/* Makes room for this many bytes. */
static bool grow(struct bytes *bytes, size_t room)
{
    uint8_t *larger = room > bytes->room ? realloc(bytes->at, room) : bytes->at;
    if (larger == NULL) {
        return tell_failure("no memory");
    }
    bytes->at = larger;
    bytes->room = room > bytes->room ? room : bytes->room;
    return true;
}

static bool read_all(struct bytes *in)
{
    for (;;) {
        if (in->room - in->used < STEP && !grow(in, 2 * in->room + STEP)) {
            return false;
        }
        long got = read(0, in->at + in->used, in->room - in->used);
        if (got == 0) {
            return true;
        }
        if (got < 0 && errno != EINTR) {
            return tell_failure("standard input cannot be read");
        }
        in->used += got > 0 ? (size_t)got : 0;
    }
}

static bool write_sets(const struct bytes *out)
{
    return (write_all(1, out->at, out->used) && close(1) == 0) || tell_failure("standard output cannot be written");
}

/* ---- The command ------------------------------------------------------------------------------------------------------------- */

/* An accepted set has over 50 bytes, so twice the room of what is read is enough for a line more in each. */
static int run(const struct page *page)
{
    struct bytes in = {NULL, 0, 0}, out = {NULL, 0, 0};
    int status = TROUBLE;
    if (read_all(&in) && grow(&out, 2 * in.used + ADDED)) {
        bool recoded = recode_all(page, &in, &out);
        status = !recoded ? REFUSED : write_sets(&out) ? DONE : TROUBLE;
    }
    free(in.at);
    free(out.at);
    return status;
}

int main(int count, char **words)
{
    for (size_t i = 0; count == 2 && i < PAGES; i++) {
        if (strcmp(words[1], pages[i].name) == 0) {
            return run(&pages[i]);
        }
    }
    dprintf(2, "usage: recode 437|1252 <IN >OUT   brings the sets of IN, one or a day file of them, into this code page\n");
    return TROUBLE;
}
