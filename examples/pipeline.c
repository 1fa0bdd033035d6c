/* pipeline.c: the way of a set from the cart to the archive.
     pipeline SET ARCHIVE LINE=CONTENT LINE=CONTENT
   judges the one set in the file SET (-: standard input) and prints its lines. Two people correct it at the same time: the first
   LINE=CONTENT is the cart operator's, the second the front desk's, each in the code page of the set (437, if its 9206 names no other). The
   changed lines are shown as they would stand. Then both corrections are made in both orders, which must give the same bytes. They do,
   unless both people give one line different contents: one of these would be lost, so nothing is done until the two agree. The corrected
   set is brought into code page 1252 and appended to the day file ARCHIVE, which is made if it is not there; then the patient's sets in
   ARCHIVE are named.
   Status 0: done. 1: the set, a correction or ARCHIVE is refused. 2: wrong usage, or a file or standard output cannot be read or written.
   Standard error then says what is wrong, and whether the set was added.

   ARCHIVE is locked as long as it is used, as by examples/day.c. If the set cannot be written, what was written of it is taken back. If the
   machine stops in between, ARCHIVE ends in a part of a set, and the next call refuses it: `day check ARCHIVE` says how to go on.
   Nothing is allocated: each buffer has the room that the limits of gdt.h ask for. */
#define _POSIX_C_SOURCE 200809L
#include <errno.h>
#include <fcntl.h>
#include <stdbool.h>
#include <stdio.h>
#include <stdlib.h>
#include <string.h>
#include <unistd.h>
#include "files.h"
#include "gdt.h"
#include "reasons.h"

enum { DONE = 0, REFUSED = 1, TROUBLE = 2 };

enum {
    LARGEST_DAY = GDT_MOST_SETS * GDT_LARGEST_SET, /* bytes of a day file */
    HEAD = 4,                                      /* bytes of a sheet's entry before its content: its length in two, the line in two */
    LINE_END = 0x0D,                               /* the first byte after a content */
    ANY_USER = 0666                                /* who may use a new file; the umask takes from that */
};

/* The numbers of an entry of the archive's index. */
enum { OFFSET, LENGTH, TYPE, PLACE, NUMBERS };

/* One byte more than a set can have tells that what was read is longer. */
struct set {
    uint8_t bytes[GDT_LARGEST_SET + 1];
    size_t used;
};

struct correction {
    const char *whose;
    size_t line;
    const uint8_t *content;
    size_t length;
};

static struct set arrived, corrected, other, archived;
static struct gdt_entry lines[GDT_MOST_LINES];
static uint8_t archive[LARGEST_DAY + GDT_LARGEST_SET]; /* a day file, and one set more */
static size_t entries[GDT_MOST_SETS * NUMBERS], found[GDT_MOST_SETS];
static bool added; /* the set is in the archive */

/* ---- What goes wrong is said, and the program ends ---------------------------------------------------------------------------- */

/* Ends with this status, unless a part of what was printed could not be written. */
static _Noreturn void stop(int status)
{
    if (ferror(stdout) || fclose(stdout) != 0) {
        dprintf(2, "pipeline: standard output cannot be written: %s\n", strerror(errno));
        status = TROUBLE;
    }
    if (status != DONE) {
        dprintf(2, "pipeline: the set %s\n", added ? "is in the archive, do not add it again" : "was not added to the archive");
    }
    exit(status);
}

static _Noreturn void fail(const char *name, const char *what)
{
    dprintf(2, "pipeline: %s cannot be %s: %s\n", name, what, strerror(errno));
    stop(TROUBLE);
}

/* Goes on only if the call was done whose answer starts with these three numbers. */
static void check(const char *name, size_t no, size_t place, size_t label)
{
    if (no != 0) {
        dprintf(2, "pipeline: %s: refused by %zu at place %zu, label %zu: %s\n", name, no, place, label, reasons[no]);
        stop(REFUSED);
    }
}

/* ---- The set arrives, is judged and shown ------------------------------------------------------------------------------------- */

/* Reads a whole file of at most this many bytes, and answers how many they are; there must be room for one more. */
static size_t read_whole(int from, const char *name, const char *kind, uint8_t *out, size_t most)
{
    size_t used = 0;
    long got = 1;
    while (got > 0 && used <= most) {
        got = read(from, out + used, most + 1 - used);
        used += got > 0 ? (size_t)got : 0;
    }
    if (got < 0) {
        fail(name, "read");
    }
    if (used > most) {
        dprintf(2, "pipeline: %s is longer than any %s\n", name, kind);
        stop(REFUSED);
    }
    return used;
}

static void take_set(const char *path)
{
    bool is_input = strcmp(path, "-") == 0;
    const char *name = is_input ? "standard input" : path;
    int from = is_input ? 0 : open(path, O_RDONLY);
    if (from < 0) {
        fail(name, "opened");
    }
    arrived.used = read_whole(from, name, "set", arrived.bytes, GDT_LARGEST_SET);
    struct gdt_judged judged = gdt_judge(arrived.bytes, arrived.used);
    check(name, judged.no, judged.place, judged.label);
    if (judged.length < arrived.used) {
        check(name, GDT_BAD_USE, judged.length, 0);
    }
}

static void show_line(size_t line, const uint8_t *content, size_t length)
{
    printf("%zu: %04zu %.*s\n", line, lines[line - 1].label, (int)length, (const char *)content);
}

/* Shows all lines, and answers how many there are. */
static size_t show_set(void)
{
    struct gdt_made made = gdt_index(arrived.bytes, arrived.used, lines, GDT_MOST_LINES);
    check("the set", made.no, made.place, made.label);
    for (size_t i = 0; i < made.count; i++) {
        show_line(i + 1, arrived.bytes + lines[i].place, lines[i].length);
    }
    return made.count;
}

/* ---- Two people correct it ---------------------------------------------------------------------------------------------------- */

/* Writes the sheet's entry of a correction, and answers its length. */
static size_t put_entry(uint8_t *out, const struct correction *one)
{
    const uint8_t head[HEAD] = {(uint8_t)one->length, (uint8_t)(one->length >> 8), (uint8_t)one->line, (uint8_t)(one->line >> 8)};
    memcpy(out, head, HEAD);
    memcpy(out + HEAD, one->content, one->length);
    return HEAD + one->length;
}

/* Shows each line that has a content in the sheet of both corrections. Each was made alone before, so it is that of a line. */
static void show_pending(size_t count, const struct correction both[2])
{
    uint8_t sheet[2 * (HEAD + GDT_MOST_LINE)], content[GDT_MOST_LINE];
    size_t size = put_entry(sheet, &both[0]);
    size += put_entry(sheet + size, &both[1]);
    printf("pending:\n");
    for (size_t line = 1; line <= count; line++) {
        struct gdt_viewed viewed = gdt_view(arrived.bytes, arrived.used, sheet, size, line);
        check("the pending corrections", viewed.no, viewed.place, viewed.label);
        if (viewed.flag == 1) {
            show_line(line, content, gdt_view_copy(arrived.bytes, arrived.used, sheet, size, line, content, sizeof content));
        }
    }
}

static void correct(struct set *set, const struct correction *one)
{
    struct gdt_made made = gdt_correct(set->bytes, sizeof set->bytes, set->used, one->line, one->content, one->length);
    check(one->whose, made.no, made.place, made.label);
    set->used = made.count;
}

/* Each correction alone, in a copy of its own; then in each copy the other one. */
static void correct_both(size_t count, const struct correction both[2])
{
    corrected = arrived;
    other = arrived;
    correct(&corrected, &both[0]);
    correct(&other, &both[1]);
    show_pending(count, both);
    correct(&corrected, &both[1]);
    correct(&other, &both[0]);
    if (corrected.used != other.used || memcmp(corrected.bytes, other.bytes, other.used) != 0) {
        dprintf(2, "pipeline: both corrections are of line %zu, only the later one would be kept: agree on one content\n", both[0].line);
        stop(REFUSED);
    }
    printf("both corrections are kept: either order gives the same %zu bytes\n", corrected.used);
}

/* ---- The archive -------------------------------------------------------------------------------------------------------------- */

static void recode(void)
{
    archived = corrected;
    struct gdt_made made = gdt_to_1252(archived.bytes, sizeof archived.bytes, archived.used);
    check("the corrected set in code page 1252", made.no, made.place, made.label);
    archived.used = made.count;
}

/* Appends the set to the file of this many bytes. */
static void append(int file, const char *path, size_t old)
{
    if (!write_all(file, archived.bytes, archived.used) || fsync(file) != 0 || (old == 0 && !sync_name(path))) {
        int why = errno;
        if (ftruncate(file, (long)old) != 0) {
            dprintf(2, "pipeline: %s may end in a part of the set now: `day check` says what is whole\n", path);
        }
        errno = why;
        fail(path, "written");
    }
    added = true;
}

/* Adds the set, and answers how many sets the archive then has. */
static size_t add(const char *path)
{
    struct flock whole = {.l_type = F_WRLCK, .l_whence = SEEK_SET};
    int file = open(path, O_RDWR | O_CREAT | O_APPEND, ANY_USER);
    if (file < 0 || fcntl(file, F_SETLKW, &whole) != 0) {
        fail(path, "opened and locked");
    }
    size_t old = read_whole(file, path, "day file", archive, LARGEST_DAY);
    struct gdt_made made = gdt_day_build(archive, old, entries, GDT_MOST_SETS * NUMBERS);
    check(path, made.no, made.place, made.label);
    memcpy(archive + old, archived.bytes, archived.used);
    made = gdt_day_append(archive, old + archived.used, old, entries, GDT_MOST_SETS * NUMBERS, made.count);
    check(path, made.no, made.place, made.label);
    append(file, path, old);
    return made.count;
}

/* Names the sets of the patient whose set was added. */
static void show_patient(const char *path, size_t count)
{
    const size_t *last = entries + (count - 1) * NUMBERS;
    const uint8_t *patient = archive + last[PLACE];
    size_t length = 0;
    while (patient[length] != LINE_END) {
        length++;
    }
    size_t end = last[OFFSET] + last[LENGTH];
    struct gdt_made made = gdt_day_find(archive, end, entries, count * NUMBERS, patient, length, found, GDT_MOST_SETS);
    check(path, made.no, made.place, made.label);
    printf("added to %s as set %zu; sets of patient %.*s there: %zu\n", path, count, (int)length, (const char *)patient, made.count);
    for (size_t i = 0; i < made.count; i++) {
        const size_t *entry = entries + (found[i] - 1) * NUMBERS;
        printf("set %zu: type %zu, %zu bytes from byte %zu on\n", found[i], entry[TYPE], entry[LENGTH], entry[OFFSET]);
    }
}

/* ---- The command -------------------------------------------------------------------------------------------------------------- */

/* Takes LINE=CONTENT apart; false if it is none. */
static bool take_correction(char *word, struct correction *out)
{
    char *end = word;
    out->line = strtoul(word, &end, 10);
    if (word[0] < '0' || word[0] > '9' || *end != '=') {
        return false;
    }
    out->content = (const uint8_t *)end + 1;
    out->length = strlen(end + 1);
    return true;
}

int main(int count, char **words)
{
    struct correction both[2] = {{.whose = "the cart operator's correction"}, {.whose = "the front desk's correction"}};
    if (count != 5 || !take_correction(words[3], &both[0]) || !take_correction(words[4], &both[1])) {
        dprintf(2, "usage: pipeline SET ARCHIVE LINE=CONTENT LINE=CONTENT   corrects the set in SET (-: standard input) as the cart\n"
                   "       operator and as the front desk want it, and adds it in code page 1252 to the day file ARCHIVE\n");
        return TROUBLE;
    }
    if (!take_closed()) {
        dprintf(2, "pipeline: /dev/null cannot be opened in the place of a closed stream: %s\n", strerror(errno));
        return TROUBLE;
    }
    take_set(words[1]);
    correct_both(show_set(), both);
    recode();
    if (fflush(stdout) != 0 || ferror(stdout)) {
        stop(TROUBLE);
    }
    show_patient(words[2], add(words[2]));
    stop(DONE);
}
