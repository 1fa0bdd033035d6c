/* test.c: tests of gdt.c: the ten examples of the rules paper, the index that its gdtlist example prints, the sample blocks of
   appendix A, every byte of the two code pages, and cases from the points B1 to B44, E1a to E1i, E2a to E2d, E3a to E3o and E5a
   to E5g of docs/DECISIONS.md. Each checks the reply and every byte of the lent buffers and records, which stand between guard
   bytes.
   Prints `ok - NAME` or `FAILED - NAME` for each, and answers 1 if any failed.

   Sets, lists and sheets are given as text: lines or entries parted by `|`, each four digits (label, or line number in a sheet)
   and a content. A content `?????` becomes the length of the set. */
#include "gdt.h"

#include <stdio.h>
#include <string.h>

#ifdef __SANITIZE_ADDRESS__
#include <sanitizer/asan_interface.h>
#else
#define ASAN_POISON_MEMORY_REGION(at, n) ((void)(at), (void)(n))
#define ASAN_UNPOISON_MEMORY_REGION(at, n) ((void)(at), (void)(n))
#endif

/* P of the paper, and the set `b` of the open points, to which lines are added from place 65 on. */
#define P "80006300|8100?????|921802.10|30000"
#define B "80006310|8100?????|921802.10|30007|8402EKG01"
#define P_LIST "80006300|921802.10|30000"
#define B_LIST "80006310|921802.10|30007|8402EKG01"

/* Seven-bit ones: P7_FRONT lacks its line 3000, which then starts at 51. What is added to P7 starts at 61, to B7 at 75. */
#define P7_FRONT "80006300|8100?????|92061|921802.10"
#define P7 P7_FRONT "|30000"
#define B7 "80006310|8100?????|92061|921802.10|30007|8402EKG01"
#define P7_LIST "80006300|92061|921802.10|30000"
#define B7_LIST "80006310|92061|921802.10|30007|8402EKG01"

#define MANY 600

enum { GUARD = 64, CAP = 120000 };

/* The most sets of a day file, and the most numbers that a test lends: an entry more, and a rest of three. */
enum { SETS = GDT_MOST_SETS, NUMBERS = 4 * (SETS + 1) + 3 };

static int failures;

static void report(const char *name, int passed)
{
    printf("%s - %s\n", passed ? "ok" : "FAILED", name);
    failures += !passed;
}

/* ---- Bytes and lent buffers ------------------------------------------------------------------------------------------------ */

struct bytes {
    uint8_t of[CAP];
    size_t n;
};

static void add(struct bytes *b, const void *bytes, size_t n)
{
    memcpy(b->of + b->n, bytes, n);
    b->n += n;
}

static void add_text(struct bytes *b, const char *text)
{
    add(b, text, strlen(text));
}

/* Adds one line: length, label and content as they stand, 0Dh 0Ah. */
static void add_line(struct bytes *b, const char *line, size_t n)
{
    char head[8];
    snprintf(head, sizeof head, "%03u", (unsigned)(n + 5) % 1000u);
    add(b, head, 3);
    add(b, line, n);
    add(b, "\r\n", 2);
}

/* The number in the first four digits of a text. */
static unsigned number(const char *text)
{
    unsigned value = 0;
    for (int i = 0; i < 4; i++) {
        value = value * 10 + (unsigned)(text[i] - '0');
    }
    return value;
}

/* Adds one entry of a list or a sheet. */
static void add_entry(struct bytes *b, const char *line, size_t n)
{
    unsigned label = number(line);
    uint8_t head[4];
    head[0] = (uint8_t)((n - 4) & 255);
    head[1] = (uint8_t)((n - 4) >> 8);
    head[2] = (uint8_t)(label & 255);
    head[3] = (uint8_t)(label >> 8);
    add(b, head, 4);
    add(b, line + 4, n - 4);
}

/* Adds the lines or entries of a text. */
static void add_all(struct bytes *b, const char *text, void (*one)(struct bytes *, const char *, size_t))
{
    while (*text != 0) {
        size_t n = strcspn(text, "|");
        one(b, text, n);
        text += n + (text[n] == '|');
    }
}

/* Writes the sum of the set into its `?????`, if it has one. */
static void add_sum(struct bytes *b)
{
    char sum[8];
    snprintf(sum, sizeof sum, "%05u", (unsigned)b->n % 100000u);
    for (size_t i = 0; i + 5 <= b->n; i++) {
        if (memcmp(b->of + i, "?????", 5) == 0) {
            memcpy(b->of + i, sum, 5);
        }
    }
}

static void make_set(struct bytes *b, const char *lines)
{
    b->n = 0;
    add_all(b, lines, add_line);
    add_sum(b);
}

static void make_list(struct bytes *b, const char *entries)
{
    b->n = 0;
    add_all(b, entries, add_entry);
}

/* Adds zeros up to the length. */
static void pad(struct bytes *b, size_t length)
{
    while (b->n < length) {
        b->of[b->n++] = 0;
    }
}

/* A lent buffer between its guards. The sanitizer sees every access outside the buffer. */
struct lent {
    _Alignas(16) uint8_t all[GUARD + CAP + GUARD];
    size_t n;
};

static uint8_t *lend(struct lent *lent, const void *bytes, size_t n)
{
    memset(lent->all, 0xA5, GUARD);
    memcpy(lent->all + GUARD, bytes, n);
    memset(lent->all + GUARD + n, 0xA5, GUARD);
    lent->n = n;
    ASAN_POISON_MEMORY_REGION(lent->all, GUARD);
    ASAN_POISON_MEMORY_REGION(lent->all + GUARD + n, sizeof lent->all - GUARD - n);
    return lent->all + GUARD;
}

/* Ends the loan: whether the buffer holds the bytes, and each guard what it held. */
static int holds(struct lent *lent, const void *bytes)
{
    ASAN_UNPOISON_MEMORY_REGION(lent->all, sizeof lent->all);
    for (size_t i = 0; i < GUARD; i++) {
        if (lent->all[i] != 0xA5 || lent->all[GUARD + lent->n + i] != 0xA5) {
            return 0;
        }
    }
    return memcmp(lent->all + GUARD, bytes, lent->n) == 0;
}

/* ---- One call, with all it lends ------------------------------------------------------------------------------------------- */

/* A reply: a refusal, or no 0 and the other numbers. */
struct reply {
    size_t no, place, label;
    size_t a, b, c;
};

static int equal(struct reply x, struct reply y)
{
    return x.no == y.no && x.place == y.place && x.label == y.label && x.a == y.a && x.b == y.b && x.c == y.c;
}

static struct lent lent_in, lent_also, lent_out;
static struct bytes scratch, noise_bytes;

/* What lent output holds before a call. */
static const uint8_t *noise(size_t n)
{
    for (size_t i = 0; i < n; i++) {
        noise_bytes.of[i] = (uint8_t)(i * 7 + 3);
    }
    return noise_bytes.of;
}

static int judges(const struct bytes *set, struct reply want)
{
    struct gdt_judged got = gdt_judge(lend(&lent_in, set->of, set->n), set->n);
    struct reply have = {got.no, got.place, got.label, got.length, got.lines, got.type};
    return holds(&lent_in, set->of) & equal(have, want);
}

/* The index with room for `room` entries; `made` are the entries wanted. */
static int indexes(const struct bytes *set, size_t room, struct reply want, const struct gdt_entry *made)
{
    static struct gdt_entry expected[MANY];
    const uint8_t *bytes = lend(&lent_in, set->of, set->n);
    struct gdt_made got;
    struct reply have = {0, 0, 0, 0, 0, 0};
    memcpy(expected, noise(room * sizeof *expected), room * sizeof *expected);
    got = gdt_index(bytes, set->n, (struct gdt_entry *)(void *)lend(&lent_out, expected, room * sizeof *expected), room);
    if (want.no == 0) {
        memcpy(expected, made, want.a * sizeof *expected);
    }
    have = (struct reply){got.no, got.place, got.label, got.count, 0, 0};
    return holds(&lent_in, set->of) & holds(&lent_out, expected) & equal(have, want);
}

typedef struct gdt_made maker(const uint8_t *, size_t, uint8_t *, size_t);

/* gdt_list or gdt_write with that room; `made` are the bytes wanted, zeros follow them. */
static int makes(maker *make, const struct bytes *from, size_t room, struct reply want, const struct bytes *made)
{
    const uint8_t *bytes = lend(&lent_in, from->of, from->n);
    struct gdt_made got = make(bytes, from->n, lend(&lent_out, noise(room), room), room);
    struct reply have = {got.no, got.place, got.label, got.count, 0, 0};
    scratch.n = 0;
    if (want.no == 0) {
        add(&scratch, made->of, made->n);
        pad(&scratch, room);
    } else {
        add(&scratch, noise(room), room);
    }
    return holds(&lent_in, from->of) & holds(&lent_out, scratch.of) & equal(have, want);
}

/* A correction in a buffer of `room` bytes with the set at its front; `made` is the set wanted, zeros follow it. */
static int corrects(const struct bytes *set, size_t room, size_t used, size_t line, const char *content, struct reply want,
                    const struct bytes *made)
{
    size_t front = set->n < room ? set->n : room, n = strlen(content);
    const uint8_t *bytes;
    struct gdt_made got;
    struct reply have;
    memcpy(scratch.of, noise(room), room);
    memcpy(scratch.of, set->of, front);
    bytes = lend(&lent_also, content, n);
    got = gdt_correct(lend(&lent_in, scratch.of, room), room, used, line, bytes, n);
    if (want.no == 0) {
        scratch.n = 0;
        add(&scratch, made->of, made->n);
        pad(&scratch, room);
    }
    have = (struct reply){got.no, got.place, got.label, got.count, 0, 0};
    return holds(&lent_in, scratch.of) & holds(&lent_also, content) & equal(have, want);
}

/* The copy of a view with that room: the whole part at the front, or every byte as it was. */
static int copies(const struct bytes *set, const struct bytes *sheet, size_t line, struct reply want, size_t room)
{
    const uint8_t *bytes = lend(&lent_in, set->of, set->n), *also = lend(&lent_also, sheet->of, sheet->n);
    size_t got = gdt_view_copy(bytes, set->n, also, sheet->n, line, lend(&lent_out, noise(room), room), room);
    memcpy(scratch.of, noise(room), room);
    if (want.no == 0 && want.c <= room) {
        memcpy(scratch.of, (want.a == 1 ? sheet : set)->of + want.b, want.c);
    }
    return holds(&lent_in, set->of) & holds(&lent_also, sheet->of) & holds(&lent_out, scratch.of) & (got == want.c);
}

/* A view, and its copy with no room, one byte too little, just enough and more. */
static int views(const struct bytes *set, const struct bytes *sheet, size_t line, struct reply want)
{
    const uint8_t *bytes = lend(&lent_in, set->of, set->n), *also = lend(&lent_also, sheet->of, sheet->n);
    struct gdt_viewed got = gdt_view(bytes, set->n, also, sheet->n, line);
    struct reply have = {got.no, got.place, got.label, got.flag, got.at, got.length};
    return holds(&lent_in, set->of) & holds(&lent_also, sheet->of) & equal(have, want)
        & copies(set, sheet, line, want, 0) & copies(set, sheet, line, want, want.c > 0 ? want.c - 1 : 0)
        & copies(set, sheet, line, want, want.c) & copies(set, sheet, line, want, want.c + 9);
}

/* What lent numbers should hold. The first of them stands before the slice that a call is given. */
static size_t kept[1 + NUMBERS];

/* Lends numbers, with a guard more before them: so the slice is aligned as a number is, and no better. */
static size_t *lend_numbers(struct lent *lent, const size_t *numbers, size_t n)
{
    uint8_t *at = lend(lent, numbers, (1 + n) * sizeof *numbers);
    ASAN_POISON_MEMORY_REGION(at, sizeof *numbers);
    return (size_t *)(void *)at + 1;
}

/* Lends that many numbers of noise; `kept` holds them, too. */
static size_t *lend_noise(struct lent *lent, size_t n)
{
    memcpy(kept, noise((1 + n) * sizeof *kept), (1 + n) * sizeof *kept);
    return lend_numbers(lent, kept, n);
}

/* The numbers that a call should have written: n of them, from `at` on. */
static void keep(size_t at, const size_t *numbers, size_t n)
{
    for (size_t i = 0; i < n; i++) {
        kept[1 + at + i] = numbers[i];
    }
}

/* The index of a day file in a slice of `numbers`; `made` are the numbers wanted, four for each set. */
static int builds(const struct bytes *file, size_t numbers, struct reply want, const size_t *made)
{
    const uint8_t *bytes = lend(&lent_in, file->of, file->n);
    struct gdt_made got = gdt_day_build(bytes, file->n, lend_noise(&lent_out, numbers), numbers);
    struct reply have = {got.no, got.place, got.label, got.count, 0, 0};
    keep(0, made, 4 * want.a);
    return holds(&lent_in, file->of) & holds(&lent_out, kept) & equal(have, want);
}

/* The set after the first `old` bytes, added to an index of `count` entries of noise; `made` is the entry wanted. */
static int appends(const struct bytes *file, size_t old, size_t numbers, size_t count, struct reply want, const size_t *made)
{
    const uint8_t *bytes = lend(&lent_in, file->of, file->n);
    struct gdt_made got = gdt_day_append(bytes, file->n, old, lend_noise(&lent_out, numbers), numbers, count);
    struct reply have = {got.no, got.place, got.label, got.count, 0, 0};
    if (want.no == 0) {
        keep(4 * count, made, 4);
    }
    return holds(&lent_in, file->of) & holds(&lent_out, kept) & equal(have, want);
}

/* A lookup of n asked bytes in an index, with room for `room` numbers; `made` are the numbers wanted. */
static int finds(const struct bytes *file, const size_t *index, size_t numbers, const void *asked, size_t n, size_t room,
                 struct reply want, const size_t *made)
{
    static struct lent lent_index;
    static size_t numbers_in[1 + NUMBERS];
    const uint8_t *bytes = lend(&lent_in, file->of, file->n), *also = lend(&lent_also, asked, n);
    const size_t *entries;
    struct gdt_made got;
    struct reply have;
    for (size_t i = 0; i < numbers; i++) {
        numbers_in[1 + i] = index[i];
    }
    entries = lend_numbers(&lent_index, numbers_in, numbers);
    got = gdt_day_find(bytes, file->n, entries, numbers, also, n, lend_noise(&lent_out, room), room);
    have = (struct reply){got.no, got.place, got.label, got.count, 0, 0};
    keep(0, made, want.a);
    return holds(&lent_in, file->of) & holds(&lent_also, asked) & holds(&lent_index, numbers_in) & holds(&lent_out, kept)
        & equal(have, want);
}

/* The sender: from one record to the other, in the answer what it has to do. */
static int sends(struct gdt_link from, size_t begin, const void *bytes, size_t n, struct reply want, struct gdt_link to)
{
    const uint8_t *lent = lend(&lent_in, bytes, n);
    struct gdt_link *link;
    struct gdt_sent got;
    struct reply have;
    memcpy(kept, noise(sizeof *kept), sizeof *kept);
    memcpy(kept + 1, &from, sizeof from);
    link = (struct gdt_link *)(void *)lend_numbers(&lent_out, kept, 6);
    got = gdt_send(link, begin, lent, n);
    memcpy(kept + 1, &to, sizeof to);
    have = (struct reply){got.no, got.place, got.label, got.what, got.block, got.count};
    return holds(&lent_in, bytes) & holds(&lent_out, kept) & equal(have, want);
}

/* A block of a set; `made` are its bytes, zeros follow them. */
static int blocks(const struct bytes *set, size_t block, size_t count, struct reply want, const void *made)
{
    const uint8_t *bytes = lend(&lent_in, set->of, set->n);
    struct gdt_made got = gdt_block(bytes, set->n, block, count, lend(&lent_out, noise(GDT_BLOCK), GDT_BLOCK));
    struct reply have = {got.no, got.place, got.label, got.count, 0, 0};
    scratch.n = 0;
    if (want.no == 0) {
        add(&scratch, made, want.a);
        pad(&scratch, GDT_BLOCK);
    } else {
        add(&scratch, noise(GDT_BLOCK), GDT_BLOCK);
    }
    return holds(&lent_in, set->of) & holds(&lent_out, scratch.of) & equal(have, want);
}

/* The receiver with a buffer; `made` is what the buffer holds after the call, up to its length. After `what` comes `ack`; the other
   numbers of the answer are those of the record. */
static int receives(struct gdt_receiver from, const struct bytes *buffer, const struct bytes *block, struct reply want,
                    struct gdt_receiver to, const struct bytes *made)
{
    const uint8_t *bytes = lend(&lent_also, block->of, block->n);
    struct gdt_received got = gdt_receive(from, lend(&lent_in, buffer->of, buffer->n), buffer->n, bytes, block->n);
    struct reply have = {got.no, got.place, got.label, got.what, got.ack, 0};
    return holds(&lent_in, made->of) & holds(&lent_also, block->of) & equal(have, want)
        & (memcmp(&got.receiver, &to, sizeof to) == 0);
}

typedef struct gdt_made recoder(uint8_t *, size_t, size_t);

/* Recoding in a buffer of `room` bytes with these bytes at its front and noise after them; `made` is the set wanted, zeros follow
   it. */
static int recodes(recoder *recode, const struct bytes *front, size_t room, size_t used, struct reply want,
                   const struct bytes *made)
{
    struct gdt_made got;
    struct reply have;
    memcpy(scratch.of, noise(room), room);
    memcpy(scratch.of, front->of, front->n < room ? front->n : room);
    got = recode(lend(&lent_in, scratch.of, room), room, used);
    if (want.no == 0) {
        scratch.n = 0;
        add(&scratch, made->of, made->n);
        pad(&scratch, room);
    }
    have = (struct reply){got.no, got.place, got.label, got.count, 0, 0};
    return holds(&lent_in, scratch.of) & equal(have, want);
}

/* ---- Sets ------------------------------------------------------------------------------------------------------------------ */

/* A set that is refused is refused alike by every function that reads one. */
static int refused_by_all(const struct bytes *set, struct reply want)
{
    static const struct bytes sheet = {{0}, 0};
    const struct gdt_link link = {GDT_DELIVERED, 3, 1, 2, 0, 8};
    return judges(set, want) & indexes(set, MANY, want, NULL) & makes(gdt_list, set, 9000, want, NULL)
        & corrects(set, set->n + 20, set->n, 1, "x", want, NULL) & views(set, &sheet, 1, want)
        & sends(link, GDT_BEGIN, set->of, set->n, want, link) & blocks(set, 0, 0, want, NULL)
        & recodes(gdt_to_437, set, set->n + 20, set->n, want, NULL) & recodes(gdt_to_1252, set, set->n, set->n, want, NULL);
}

/* The list of an accepted set is written as that set again. Bytes after the set are not part of it. */
static int comes_back(const struct bytes *set, size_t length)
{
    static struct bytes list, front;
    struct gdt_made made = gdt_list(set->of, set->n, list.of, sizeof list.of);
    struct reply want = {0, 0, 0, length, 0, 0};
    list.n = made.count;
    front.n = 0;
    add(&front, set->of, length);
    return made.no == 0 && makes(gdt_write, &list, length, want, &front) & makes(gdt_write, &list, length + 7, want, &front);
}

/* A set of lines, then the bytes of a tail. Accepted: a, b, c are its length, lines and type. */
static const struct set_case {
    const char *name, *lines, *tail;
    struct reply want;
} set_cases[] = {
    {"example 1: P is accepted", P, "", {0, 0, 0, 51, 4, 6300}},
    {"example 2: empty input", "", "", {1, 0, 0, 0, 0, 0}},
    {"example 3: 8100 as 00052", "80006300|810000052|921802.10|30000", "", {17, 13, 0, 0, 0, 0}},
    {"example 4: 9218 as 02.00", "80006300|8100?????|921802.00|30000", "", {15, 27, 9218, 0, 0, 0}},
    {"example 5: without the 3000 line", "80006300|810000041|921802.10", "", {16, 0, 3000, 0, 0, 0}},
    {"example 8: a group is accepted", "80006310|810000101|921802.10|30007|8402EKG01|8410FEV1|8420-3.7|8421l", "",
     {0, 0, 0, 101, 8, 6310}},
    {"example 9: 8420 without 8410", "80006310|810000088|921802.10|30007|8402EKG01|8420-3.7|8421l", "", {12, 65, 8420, 0, 0, 0}},
    {"example 10: length 009 in line 1", "", "00980006300\r\n014810000051\r\n014921802.10\r\n01030000\r\n", {2, 0, 0, 0, 0, 0}},
    {"B1 only bytes four to seven end a set", P, "xyz8000", {0, 0, 0, 51, 4, 6300}},
    {"B1 six bytes are a line", P, "013800", {3, 51, 0, 0, 0, 0}},
    {"B1 a second set is not judged", P, "01380006999\r\n", {0, 0, 0, 51, 4, 6300}},
    {"B3 a cut line comes before NoStart", "810000051|30000", "0143", {3, 24, 0, 0, 0, 0}},
    {"B3 line 1 is not 8000, a set follows", "810000051", "01380006300\r\n", {8, 0, 0, 0, 0, 0}},
    {"B4 8000 of five digits", "800063000|8100?????|921802.10|30000", "", {9, 0, 0, 0, 0, 0}},
    {"B4 8000 of three digits", "8000630|8100?????|921802.10|30000", "", {9, 0, 0, 0, 0, 0}},
    {"B5 one line only", "80006300", "", {10, 13, 0, 0, 0, 0}},
    {"B5 line 2 is not 8100", "80006300|30000|8100?????|921802.10", "", {10, 13, 0, 0, 0, 0}},
    {"B6 8100 again", "80006300|8100?????|921802.10|810000051|30000", "", {13, 41, 8100, 0, 0, 0}},
    {"B7 8100 of four digits comes before line 3", "80006300|81000051|9218x", "", {14, 13, 8100, 0, 0, 0}},
    {"B7 a line's fault comes before a missing label", "80006300|8100?????|9218x", "", {14, 27, 9218, 0, 0, 0}},
    {"B11 7Fh is content", "80006300|8100?????|921802.10|3000\x7F", "", {0, 0, 0, 51, 4, 6300}},
    {"B11 FFh is content, a byte under 20h is not", P "|3100a\xFF\x1F", "", {6, 60, 0, 0, 0, 0}},
    {"B12 8461 asks for 8421", B "|8410A|84611", "", {16, 65, 8421, 0, 0, 0}},
    {"B13 8438 of spaces asks for 8437", B "|8410A|8438  ", "", {16, 65, 8437, 0, 0, 0}},
    {"B15 8431, 8438, 8470 and 8480 repeat", B "|8410A|8431x|8431y|8438x|8438y|8437x|8470x|8470y|8480x|8480y", "",
     {0, 0, 0, 165, 15, 6310}},
    {"8420 twice in a group", B "|8410A|84201|84202|8421x", "", {13, 85, 8420, 0, 0, 0}},
    {"8421 twice, apart, in a group", B "|8410A|8421x|84201|8470z|8421x", "", {13, 105, 8421, 0, 0, 0}},
    {"B16 8990 closes a group", B "|8410A|8990x|84201", "", {12, 85, 8420, 0, 0, 0}},
    {"B17 8412 is in no table", B "|8410A|8412x", "", {11, 75, 8412, 0, 0, 0}},
    {"B18 a pair closes a group", B "|8410A|6330x|6331y|84201", "", {12, 95, 8420, 0, 0, 0}},
    {"B19 a name without its odd label", B "|6330x", "", {16, 65, 6331, 0, 0, 0}},
    {"B19 an odd label not after its name", B "|6330x|6332y|6331z", "", {12, 85, 6331, 0, 0, 0}},
    {"B19 another odd label after a name", B "|6330x|6333y", "", {12, 75, 6333, 0, 0, 0}},
    {"B19 an odd label twice", B "|6330x|6331y|6331z", "", {12, 85, 6331, 0, 0, 0}},
    {"B20 groups and pairs lack labels in line order", B "|6330x|8410A|84201", "", {16, 65, 6331, 0, 0, 0}},
    {"B20 the set lacks a label before a group does", "80006310|8100?????|921802.10|30007|8410A|84201", "",
     {16, 0, 8402, 0, 0, 0}},
    {"B21 names repeat", B "|6330x|6331y|6330x|6331y|6398x|6399y", "", {0, 0, 0, 125, 11, 6310}},
    {"B21 there are no pairs in 6301", "80006301|8100?????|6330x|6331y", "", {11, 27, 6330, 0, 0, 0}},
    {"B22 6226 counts nothing", B "|62265|6228x", "", {0, 0, 0, 85, 7, 6310}},
    {"B23 6303 twice in a group", B "|6302a|6303b|6303c", "", {13, 85, 6303, 0, 0, 0}},
    {"B23 the second group lacks 6304", B "|6302a|6305b|6304c|6303d|6302a|6303b|6305c", "", {16, 105, 6304, 0, 0, 0}},
    {"B23 a group lacks 6305", B "|6302a|6303b|6304c", "", {16, 65, 6305, 0, 0, 0}},
    {"B23 a member of the other header", B "|8410A|6303b", "", {12, 75, 6303, 0, 0, 0}},
    {"8420 under 6302", B "|6302a|6303b|6304c|6305d|84201|8421x", "", {12, 105, 8420, 0, 0, 0}},
    {"8410 twice keeps both groups", B "|8410A|84201|8421x|8410A|84201|8421x", "", {0, 0, 0, 125, 11, 6310}},
    {"8410 is plain and single in 6302", "80006302|8100?????|8410A|8410A", "", {13, 37, 8410, 0, 0, 0}},
    {"8432 and 8439 are plain in 6311", "80006311|8100?????|921802.10|30007|843231121999|8439245959", "", {0, 0, 0, 83, 6, 6311}},
    {"6301 with all it requires", "80006301|8100?????|310301101945|3102John|3101Samplesmith|30002345|921802.10", "",
     {0, 0, 0, 104, 7, 6301}},
    {"6302 without 3103", "80006302|8100?????|921802.10|3101A|3102B|30007", "", {16, 0, 3103, 0, 0, 0}},
    {"a line without 0Dh 0Ah", P, "0103100ax\n", {4, 51, 0, 0, 0, 0}},
    {"a label that is not four digits", P, "01031x0a\r\n", {5, 51, 0, 0, 0, 0}},
    {"a length that is not digits", P, "0x03100a\r\n", {2, 51, 0, 0, 0, 0}},
    {"E2 a seven-bit set", P7, "", {0, 0, 0, 61, 5, 6300}},
    {"E2 7Fh in a seven-bit set", P7_FRONT "|3000\x7F", "", {0, 0, 0, 61, 5, 6300}},
    {"E2a 80h in a seven-bit set", P7_FRONT "|3000\x80", "", {24, 58, 0, 0, 0, 0}},
    {"E2a FFh in a seven-bit set", P7_FRONT "|3000\xFF", "", {24, 58, 0, 0, 0, 0}},
    {"E2a the byte, not its line or content", P7_FRONT "|3000M\x81ller", "", {24, 59, 0, 0, 0, 0}},
    {"E2a the first of two in a content", P7_FRONT "|3000a\x81\xFF", "", {24, 59, 0, 0, 0, 0}},
    {"E2a the first of two lines", P7_FRONT "|8315abcdefg\xFF|3000\x80", "", {24, 65, 0, 0, 0, 0}},
    {"E2a in line 3, the 9206 line follows", "80006300|8100?????|3000\x81|92061|921802.10", "", {24, 34, 0, 0, 0, 0}},
    {"E2a in a middle line", B7 "|6220\x81|6220x", "", {24, 82, 0, 0, 0, 0}},
    {"E2a in the last line", B7 "|6220x|6220y\x81", "", {24, 93, 0, 0, 0, 0}},
    {"E2a in a member", B7 "|8410A|84201|8421\xB5l", "", {24, 102, 0, 0, 0, 0}},
    {"E2a in a pair", B7 "|6330x|6331\xE4", "", {24, 92, 0, 0, 0, 0}},
    {"E2a 9206 as the last line", B "|6220x\xE4|92061", "", {24, 73, 0, 0, 0, 0}},
    {"E2 FFh with 9206 = 2", "80006300|8100?????|92062|921802.10|3000\xFF", "", {0, 0, 0, 61, 5, 6300}},
    {"E2 FFh with 9206 = 3", "80006300|8100?????|3000\xFF|921802.10|92063", "", {0, 0, 0, 61, 5, 6300}},
    {"E2 FFh without 9206", "80006300|8100?????|921802.10|3000\xFF", "", {0, 0, 0, 51, 4, 6300}},
    {"E2 another label with content 1", "80006300|8100?????|92062|921802.10|30001|83151\xFF      ", "", {0, 0, 0, 78, 6, 6300}},
    {"E2c 16 at set level comes first", P7_FRONT "|8315abcdefg\xFF", "", {16, 0, 3000, 0, 0, 0}},
    {"E2c 16 of a group comes first", B7 "|6220\x81|8410A|84201", "", {16, 85, 8421, 0, 0, 0}},
    {"E2c 24 comes before 17", "80006300|810000063|92061|921802.10|3000M\x81", "", {24, 59, 0, 0, 0, 0}},
    {"E2c 17 with 9206 = 2", "80006300|810000063|92062|921802.10|3000M\x81", "", {17, 13, 0, 0, 0, 0}},
    {"E2c a content that is too long", P7_FRONT "|3000\x81" "2345678901", "", {14, 51, 3000, 0, 0, 0}},
    {"E2c a content of another kind", B7 "|6220\x81|8410A|8420\xB2", "", {14, 95, 8420, 0, 0, 0}},
    {"E2c a byte under 20h in a later line", P7_FRONT "|3000\x81|8315abcdefg\x1F", "", {6, 75, 0, 0, 0, 0}},
    {"E2c a label that is in no table", P7_FRONT "|3000\x81|6220x", "", {11, 61, 6220, 0, 0, 0}},
    {"E2c another version", "80006300|8100?????|92061|3000\x81|921802.00", "", {15, 47, 9218, 0, 0, 0}},
    {"E2d 9206 twice", P7_FRONT "|3000\x81|92062", "", {13, 61, 9206, 0, 0, 0}},
    {"E2 9206 itself with a high byte", "80006300|8100?????|9206\xB1|921802.10|30000", "", {14, 27, 9206, 0, 0, 0}},
    {"E2 bytes after a seven-bit set", P7, "xyz8000\xFF", {0, 0, 0, 61, 5, 6300}},
};

static void test_sets(void)
{
    static struct bytes set;
    for (size_t i = 0; i < sizeof set_cases / sizeof *set_cases; i++) {
        const struct set_case *c = &set_cases[i];
        make_set(&set, c->lines);
        add_text(&set, c->tail);
        report(c->name, c->want.no != 0 ? refused_by_all(&set, c->want) : judges(&set, c->want) & comes_back(&set, c->want.a));
    }
}

/* A set of `count` lines, the last ones 6220, and its right sum. */
static void make_long(struct bytes *set, size_t count)
{
    set->n = 0;
    add_all(set, B, add_line);
    for (size_t i = 5; i < count; i++) {
        add_line(set, "6220x", 5);
    }
    add_sum(set);
}

static void test_long_sets(void)
{
    static struct bytes set;
    const size_t length = 65 + 507 * 10;
    size_t at;
    make_long(&set, 512);
    report("B2 512 lines", judges(&set, (struct reply){0, 0, 0, length, 512, 6310}) & comes_back(&set, length));
    add_text(&set, "xyz8000");
    report("B2 512 lines and a set after them", judges(&set, (struct reply){0, 0, 0, length, 512, 6310}));
    make_long(&set, 512);
    add_text(&set, "x");
    report("B2 a 513th line starts", refused_by_all(&set, (struct reply){7, length, 0, 0, 0, 0}));
    make_set(&set, B);
    for (size_t end = set.n + 999; end < CAP - 9999; end += 999) {
        add_text(&set, "9996220");
        while (set.n < end - 2) {
            add_text(&set, "x");
        }
        add_text(&set, "\r\n");
    }
    report("B8 a set of over 99,999 bytes", refused_by_all(&set, (struct reply){14, 65, 6220, 0, 0, 0}));
    at = set.n;
    add_text(&set, "999");
    report("B8 a place over 99,999", (at > 99999) & refused_by_all(&set, (struct reply){3, at, 0, 0, 0, 0}));
}

/* ---- Contents -------------------------------------------------------------------------------------------------------------- */

/* Contents of one label, added to `lines`; those before the empty text are accepted, those after it refused by `no`. */
static const struct content_case {
    const char *name, *lines, *label;
    size_t no;
    const char *contents[20];
} content_cases[] = {
    {"B25 float", B, "3622", 14, {"-0", "007", "-00.0", "5.5", "1", "", "+1", ".5", "5.", "1e3", "-", " 1", "1.2.3", "--1", "-.5"}},
    {"B26 8402", "80006310|8100?????|921802.10|30007", "8402", 14, {"x", "EKG01", "ERGO00", "", "ERGO000"}},
    {"B26 8418", B "|8410A", "8418", 14, {"B", "K", "z", " ", "", "BB"}},
    {"B26 9218 is not well formed", "80006300|8100?????|30007", "9218", 14, {"02.10", "", "2.10", "02,10", "02.1x", "02.100"}},
    {"B26 9218 is another version", "80006300|8100?????|30007", "9218", 15, {"02.10", "", "02.00", "99.99", "01.00", "02.11"}},
    {"B27 3103", B, "3103", 14, {"00000000", "31129999", "", "32121999", "01131999", "0101199x", "010119990", "-1011999"}},
    {"B27 6200", B, "6200", 14, {"01010000", "31021999", "", "00000000", "00121999", "01001999", "32011999", "0101199"}},
    {"B27 6201", B, "6201", 14, {"245959", "000000", "", "250000", "006000", "000060", "00000", "0000000"}},
    {"rule 112", B, "3110", 14, {"1", "2", "", "0", "3", "11"}},
    {"rule 116", B, "3108", 14, {"1", "3", "5", "", "0", "2", "4", "6"}},
    {"9206", B, "9206", 14, {"1", "2", "3", "", "0", "4", "x"}},
    {"num and exact lengths", B "|8410A", "8429", 14, {"00", "99", "", "1", "123", "-1", "1x"}},
    {"num up to its length", B, "6226", 14, {"0", "0012", "", "00012", "1.5", "-1"}},
    {"alnum up to its length", "80006300|8100?????|921802.10", "3000", 14, {"1", "1234567890", " \xE4?", "", "12345678901"}},
    {"alnum of one length", B, "8315", 14, {"PRAX_EDV", "        ", "", "PRAX_ED", "PRAX_EDV1"}},
};

static int content_passes(const struct content_case *c, const char *content, size_t no)
{
    static struct bytes set;
    char line[80];
    size_t place, lines = 2;
    set.n = 0;
    add_all(&set, c->lines, add_line);
    place = set.n;
    snprintf(line, sizeof line, "%s%s", c->label, content);
    add_all(&set, line, add_line);
    add_sum(&set);
    if (no != 0) {
        return refused_by_all(&set, (struct reply){no, place, number(c->label), 0, 0, 0});
    }
    for (const char *text = c->lines; *text != 0; text++) {
        lines += *text == '|';
    }
    return judges(&set, (struct reply){0, 0, 0, set.n, lines, number(c->lines + 4)}) & comes_back(&set, set.n);
}

static void test_contents(void)
{
    for (size_t i = 0; i < sizeof content_cases / sizeof *content_cases; i++) {
        const struct content_case *c = &content_cases[i];
        size_t no = 0;
        int passed = 1;
        for (size_t k = 0; k < 20 && c->contents[k] != NULL; k++) {
            if (c->contents[k][0] == 0) {
                no = c->no;
            } else {
                passed &= content_passes(c, c->contents[k], no);
            }
        }
        report(c->name, passed);
    }
}

/* ---- Index and list -------------------------------------------------------------------------------------------------------- */

static void test_index(void)
{
    static struct bytes set;
    static const struct gdt_entry of_p[] = {{8000, 7, 4, 0}, {8100, 20, 5, 0}, {9218, 34, 5, 0}, {3000, 48, 1, 0}};
    static const struct gdt_entry of_groups[] = {
        {8000, 7, 4, 0},   {8100, 20, 5, 0},  {9218, 34, 5, 0},  {3000, 48, 1, 0},  {8402, 58, 5, 0},  {8410, 72, 1, 0},
        {8420, 82, 1, 6},  {8421, 92, 1, 6},  {6398, 102, 1, 0}, {6399, 112, 1, 9}, {6302, 122, 1, 0}, {6305, 132, 1, 11},
        {6304, 142, 1, 11}, {6303, 152, 1, 11}, {8410, 162, 1, 0}, {8410, 172, 1, 0}, {8411, 182, 1, 16}, {8990, 192, 1, 0},
    };
    static const struct gdt_entry of_example[] = {
        {8000, 7, 4, 0},  {8100, 20, 5, 0}, {9218, 34, 5, 0}, {3000, 48, 1, 0},
        {8402, 58, 5, 0}, {8410, 72, 4, 0}, {8420, 85, 4, 6}, {8421, 98, 1, 6},
    };
    make_set(&set, P);
    report("gdtlist example: the index of P", judges(&set, (struct reply){0, 0, 0, 51, 4, 6300})
           & indexes(&set, 4, (struct reply){0, 0, 0, 4, 0, 0}, of_p));
    report("B34 entries beyond the count stay", indexes(&set, 9, (struct reply){0, 0, 0, 4, 0, 0}, of_p));
    report("B33 an index of three entries for four lines", indexes(&set, 3, (struct reply){22, 4, 0, 0, 0, 0}, NULL)
           & indexes(&set, 0, (struct reply){22, 4, 0, 0, 0, 0}, NULL));
    add_text(&set, "01380006300\r\n");
    report("B35 an index with a set after it", indexes(&set, 5, (struct reply){0, 0, 0, 4, 0, 0}, of_p));
    make_set(&set, B "|8410FEV1|8420-3.7|8421l");
    report("example 8: lines 7 and 8 have header 6", indexes(&set, 8, (struct reply){0, 0, 0, 8, 0, 0}, of_example));
    make_set(&set, B "|8410A|84201|8421x|6398n|6399c|6302a|6305b|6304c|6303d|8410A|8410A|8411x|8990s");
    report("B24 header numbers", indexes(&set, 20, (struct reply){0, 0, 0, 18, 0, 0}, of_groups));
}

static void test_list(void)
{
    static struct bytes set, list;
    make_set(&set, P);
    make_list(&list, P_LIST);
    report("the list of P", makes(gdt_list, &set, 22, (struct reply){0, 0, 0, 22, 0, 0}, &list));
    report("B34 bytes beyond the list are zero", makes(gdt_list, &set, 99, (struct reply){0, 0, 0, 22, 0, 0}, &list));
    report("B33 a list of 21 bytes", makes(gdt_list, &set, 21, (struct reply){22, 22, 0, 0, 0, 0}, NULL)
           & makes(gdt_list, &set, 0, (struct reply){22, 22, 0, 0, 0, 0}, NULL));
    add_text(&set, "xyz8000");
    report("B35 a list with a set after it", makes(gdt_list, &set, 22, (struct reply){0, 0, 0, 22, 0, 0}, &list));
}

/* ---- Writer ---------------------------------------------------------------------------------------------------------------- */

/* A list of entries, then bytes of a tail; all of these are refused. */
static const struct list_case {
    const char *name, *entries;
    uint8_t tail[4];
    size_t tail_length;
    struct reply want;
} list_cases[] = {
    {"an empty list", "", {0}, 0, {1, 0, 0, 0, 0, 0}},
    {"B28 a low byte in a list", P_LIST "|3100ab\x1F", {0}, 0, {6, 28, 0, 0, 0, 0}},
    {"B29 empty content in a list", B_LIST "|3100", {0}, 0, {14, 31, 3100, 0, 0, 0}},
    {"B29 8000 empty in a list", "8000|921802.10|30000", {0}, 0, {9, 0, 0, 0, 0, 0}},
    {"B30 8100 as first entry", "810000051|921802.10", {0}, 0, {8, 0, 0, 0, 0, 0}},
    {"B30 8100 as second entry", "80006300|810000051|921802.10|30000", {0}, 0, {13, 8, 8100, 0, 0, 0}},
    {"B30 8000 again in a list", "80006300|921802.10|80006300", {0}, 0, {13, 17, 8000, 0, 0, 0}},
    {"B30 8100 in a list with a bad content", "80006300|8100", {0}, 0, {13, 8, 8100, 0, 0, 0}},
    {"B31 label 0", P_LIST "|0000x", {0}, 0, {11, 22, 0, 0, 0, 0}},
    {"B31 label 10000", P_LIST, {0, 0, 16, 39}, 4, {21, 22, 0, 0, 0, 0}},
    {"an entry of three bytes", P_LIST, {0, 0, 0}, 3, {21, 22, 0, 0, 0, 0}},
    {"an entry with cut content", P_LIST, {1, 0, 28, 12}, 4, {21, 22, 0, 0, 0, 0}},
    {"B32 a set field is missing", "80006310|8402EKG01|8410A|84201|30007", {0}, 0, {16, 0, 9218, 0, 0, 0}},
    {"B32 a member is missing", B_LIST "|8410A|84201", {0}, 0, {16, 31, 8421, 0, 0, 0}},
    {"B32 an odd label is missing", B_LIST "|6220x|6330a", {0}, 0, {16, 36, 6331, 0, 0, 0}},
    {"E2a 80h in a seven-bit list", P7_LIST "|8315\x80" "2345678", {0}, 0, {24, 31, 0, 0, 0, 0}},
    {"E2a FFh in a seven-bit list", P7_LIST "|83151234567\xFF", {0}, 0, {24, 38, 0, 0, 0, 0}},
    {"E2a the first entry with a high byte", "80006300|3000\x81|92061|921802.10|8315\x81" "2345678", {0}, 0, {24, 12, 0, 0, 0, 0}},
    {"E2c a list that lacks 3000", "80006300|92061|921802.10|8315\x81" "2345678", {0}, 0, {16, 0, 3000, 0, 0, 0}},
    {"E2c a list with a content that is too long", P7_LIST "|8315\x81" "23456789", {0}, 0, {14, 27, 8315, 0, 0, 0}},
    {"E2c a list with a byte under 20h", P7_LIST "|8315\x81" "234567\x1F", {0}, 0, {6, 38, 0, 0, 0, 0}},
    {"E2c a list with 8100", P7_LIST "|8315\x81" "2345678|810000061", {0}, 0, {13, 39, 8100, 0, 0, 0}},
    {"E2d a list with 9206 twice", P7_LIST "|8315\x81" "2345678|92061", {0}, 0, {13, 39, 9206, 0, 0, 0}},
    {"E2 a seven-bit list with a cut entry", P7_LIST "|8315\x81" "2345678", {1}, 1, {21, 39, 0, 0, 0, 0}},
};

static void test_refused_lists(void)
{
    static struct bytes list;
    for (size_t i = 0; i < sizeof list_cases / sizeof *list_cases; i++) {
        const struct list_case *c = &list_cases[i];
        make_list(&list, c->entries);
        add(&list, c->tail, c->tail_length);
        report(c->name, makes(gdt_write, &list, 200, c->want, NULL) & makes(gdt_write, &list, 0, c->want, NULL));
    }
}

static void test_writer(void)
{
    static struct bytes set, list;
    make_set(&set, P);
    make_list(&list, P_LIST);
    report("the set of P's list", makes(gdt_write, &list, 51, (struct reply){0, 0, 0, 51, 0, 0}, &set));
    report("B34 bytes beyond the set are zero", makes(gdt_write, &list, 80, (struct reply){0, 0, 0, 51, 0, 0}, &set));
    report("B33 50 bytes for a set of 51", makes(gdt_write, &list, 50, (struct reply){22, 51, 0, 0, 0, 0}, NULL)
           & makes(gdt_write, &list, 0, (struct reply){22, 51, 0, 0, 0, 0}, NULL));
    make_list(&list, B_LIST);
    while (list.n < 31 + 507 * 5) {
        add_entry(&list, "6220x", 5);
    }
    make_long(&set, 512);
    report("511 entries", makes(gdt_write, &list, 9000, (struct reply){0, 0, 0, 5135, 0, 0}, &set));
    add_text(&list, "x");
    report("B28 a 512th entry starts, cut", makes(gdt_write, &list, 9000, (struct reply){7, 2566, 0, 0, 0, 0}, NULL));
    list.of[40] = 5;
    report("B28 an entry's fault comes before the 512th", makes(gdt_write, &list, 9000, (struct reply){6, 40, 0, 0, 0, 0}, NULL));
    make_list(&list, B_LIST);
    add(&list, "\xFF\xFF\x1C\x0C", 4);
    while (list.n < 31 + 4 + 65535) {
        add_text(&list, "x");
    }
    report("B29 a content of 65,535 bytes", makes(gdt_write, &list, 2000, (struct reply){14, 31, 3100, 0, 0, 0}, NULL));
}

/* ---- Corrections ----------------------------------------------------------------------------------------------------------- */

static void test_corrections(void)
{
    static struct bytes p, b, made, two;
    make_set(&p, P);
    make_set(&made, "80006300|810000055|921802.10|300010027");
    report("example 6: line 4 becomes 10027", corrects(&p, 55, 51, 4, "10027", (struct reply){0, 0, 0, 55, 0, 0}, &made)
           & (memcmp(made.of + 41, "0143000", 7) == 0));
    report("example 6: in a buffer of 54", corrects(&p, 54, 51, 4, "10027", (struct reply){22, 55, 0, 0, 0, 0}, NULL));
    report("example 7: line 2 is fixed", corrects(&p, 60, 51, 2, "00051", (struct reply){20, 13, 8100, 0, 0, 0}, NULL));
    report("B44 bytes beyond the used length become zero",
           corrects(&p, 90, 51, 4, "10027", (struct reply){0, 0, 0, 55, 0, 0}, &made)
           & corrects(&p, 90, 51, 4, "0", (struct reply){0, 0, 0, 51, 0, 0}, &p));
    make_set(&b, B "|6220a long result|8410A|84201|8421x");
    make_set(&made, B "|6220b|8410A|84201|8421x");
    report("a shorter content in the middle", corrects(&b, b.n, b.n, 6, "b", (struct reply){0, 0, 0, 105, 0, 0}, &made));
    report("a longer content in the middle", corrects(&made, b.n, 105, 6, "a long result", (struct reply){0, 0, 0, 117, 0, 0}, &b));
    report("9218 and 8000 are fixed", corrects(&p, 60, 51, 3, "02.10", (struct reply){20, 27, 9218, 0, 0, 0}, NULL)
           & corrects(&p, 60, 51, 1, "6300", (struct reply){20, 0, 8000, 0, 0, 0}, NULL));
    report("B36 a bad content", corrects(&p, 90, 51, 4, "12345678901", (struct reply){14, 41, 3000, 0, 0, 0}, NULL)
           & corrects(&b, 200, b.n, 8, "1,5", (struct reply){14, 97, 8420, 0, 0, 0}, NULL));
    report("B36 an empty content", corrects(&p, 90, 51, 4, "", (struct reply){14, 41, 3000, 0, 0, 0}, NULL));
    report("B36 a low byte in a content of 100",
           corrects(&p, 90, 51, 4, "0123456789012345678901234567890123456789012345678901234567890123456789012345678901234567890123"
                    "45678\n", (struct reply){6, 99, 0, 0, 0, 0}, NULL));
    report("B37 used length over the buffer", corrects(&p, 51, 52, 4, "1", (struct reply){18, 51, 0, 0, 0, 0}, NULL)
           & corrects(&p, 0, 1, 4, "1", (struct reply){18, 0, 0, 0, 0, 0}, NULL));
    report("B37 used length 0", corrects(&p, 51, 0, 4, "1", (struct reply){1, 0, 0, 0, 0, 0}, NULL));
    make_set(&two, P);
    add(&two, p.of, p.n);
    report("B38 a second set", corrects(&two, 120, 102, 4, "1", (struct reply){18, 51, 0, 0, 0, 0}, NULL));
    report("B39 no such line", corrects(&p, 60, 51, 0, "1", (struct reply){19, 51, 0, 0, 0, 0}, NULL)
           & corrects(&p, 60, 51, 5, "1", (struct reply){19, 51, 0, 0, 0, 0}, NULL)
           & corrects(&p, 60, 51, (size_t)-1, "1", (struct reply){19, 51, 0, 0, 0, 0}, NULL));
}

/* ---- Views ----------------------------------------------------------------------------------------------------------------- */

/* A view of a line of b and a group, under a sheet; its a, b, c are flag, place and length of the part. */
static const struct view_case {
    const char *name, *sheet;
    uint8_t tail[6];
    size_t tail_length, line;
    struct reply want;
} view_cases[] = {
    {"a view of the set's content", "00046", {0}, 0, 6, {0, 0, 0, 0, 72, 1}},
    {"a view of the sheet's content", "0006new|0004123", {0}, 0, 4, {0, 0, 0, 1, 11, 3}},
    {"the last entry for a line counts", "0006new|0004123|0006newer", {0}, 0, 6, {0, 0, 0, 1, 18, 5}},
    {"a view under an empty sheet", "", {0}, 0, 8, {0, 0, 0, 0, 92, 1}},
    {"B39 the asked line is beyond the set", "0009x", {0}, 0, 9, {19, 95, 0, 0, 0, 0}},
    {"B39 the asked line is 0", "0009x", {0}, 0, 0, {19, 95, 0, 0, 0, 0}},
    {"B39 a sheet's line is beyond the set", "0006x|0009x", {0}, 0, 6, {19, 5, 0, 0, 0, 0}},
    {"B39 a sheet's line is 0", "0006x|0000x", {0}, 0, 6, {19, 5, 0, 0, 0, 0}},
    {"B40 an overridden entry is judged", "0004|00041", {0}, 0, 4, {14, 0, 3000, 0, 0, 0}},
    {"B41 14 carries the label of the set's line", "0006x|00075,5", {0}, 0, 6, {14, 5, 8420, 0, 0, 0}},
    {"B41 20 carries the label of the set's line", "0006x|000302.10", {0}, 0, 6, {20, 5, 9218, 0, 0, 0}},
    {"B41 6 is the place in the sheet", "0006x|0006ab\x01", {0}, 0, 6, {6, 11, 0, 0, 0, 0}},
    {"B41 a cut entry of a sheet", "0006x", {1, 0, 6}, 3, 6, {21, 5, 0, 0, 0, 0}},
    {"B41 an entry of a sheet with cut content", "0006x", {2, 0, 6, 0, 'x'}, 5, 6, {21, 5, 0, 0, 0, 0}},
    {"21 of a sheet is for cut entries only", "0006x", {1, 0, 255, 255, 'x'}, 5, 6, {19, 5, 0, 0, 0, 0}},
    {"B43 a view of line 2", "0006x", {0}, 0, 2, {0, 0, 0, 0, 20, 5}},
    {"B43 a view of line 1", "", {0}, 0, 1, {0, 0, 0, 0, 7, 4}},
};

static void test_views(void)
{
    static struct bytes set, sheet, two;
    make_set(&set, B "|8410A|84201|8421x");
    for (size_t i = 0; i < sizeof view_cases / sizeof *view_cases; i++) {
        const struct view_case *c = &view_cases[i];
        make_list(&sheet, c->sheet);
        add(&sheet, c->tail, c->tail_length);
        report(c->name, views(&set, &sheet, c->line, c->want));
    }
    make_set(&two, P);
    add_text(&two, "xyz8000");
    make_list(&sheet, "0009x");
    report("B38 a set after the viewed set", views(&two, &sheet, 9, (struct reply){18, 51, 0, 0, 0, 0}));
}

/* ---- Seven bits ------------------------------------------------------------------------------------------------------------ */

/* A 6220 of 60 bytes, one of them `byte`, wherever a content is given: in a set, in a list, in a correction and in a sheet. The set
   has 9206 = `charset`; with 1 a byte over 7Fh is refused at its place there, else it is fine. */
static int byte_passes(char charset, size_t place, unsigned byte)
{
    static struct bytes set, old, list, sheet;
    char front[] = B7, entries[] = B7_LIST;
    char line[] = "6220123456789012345678901234567890123456789012345678901234567890", entry[sizeof line];
    *(strstr(front, "9206") + 4) = charset;
    *(strstr(entries, "9206") + 4) = charset;
    line[4 + place] = (char)byte;
    memcpy(entry, line, sizeof line);
    memcpy(entry, "0007", 4);
    set.n = 0;
    add_all(&set, front, add_line);
    add_line(&set, line, 64);
    add_sum(&set);
    make_set(&old, front);
    add_line(&old, "6220x", 5);
    memcpy(old.of + 20, "00085", 5);
    make_list(&list, entries);
    add_entry(&list, line, 64);
    make_list(&sheet, "0005x");
    add_entry(&sheet, entry, 64);
    if (charset == '1' && byte > 0x7F) {
        return refused_by_all(&set, (struct reply){24, 82 + place, 0, 0, 0, 0})
            & makes(gdt_write, &list, 144, (struct reply){24, 40 + place, 0, 0, 0, 0}, NULL)
            & corrects(&old, 144, 85, 7, line + 4, (struct reply){24, place, 0, 0, 0, 0}, NULL)
            & views(&old, &sheet, 7, (struct reply){24, 9 + place, 0, 0, 0, 0});
    }
    return judges(&set, (struct reply){0, 0, 0, 144, 7, 6310}) & comes_back(&set, 144)
        & makes(gdt_write, &list, 144, (struct reply){0, 0, 0, 144, 0, 0}, &set)
        & corrects(&old, 144, 85, 7, line + 4, (struct reply){0, 0, 0, 144, 0, 0}, &set)
        & views(&old, &sheet, 7, (struct reply){0, 0, 0, 1, 9, 60});
}

static void test_seven_bits(void)
{
    for (char charset = '1'; charset <= '3'; charset++) {
        char name[60];
        int passed = 1;
        for (unsigned byte = 0x20; byte <= 0xFF; byte++) {
            passed &= byte_passes(charset, byte % 60, byte);
        }
        for (size_t place = 0; place < 60; place++) {
            passed &= byte_passes(charset, place, 0x7F) & byte_passes(charset, place, 0x80) & byte_passes(charset, place, 0xFF);
        }
        snprintf(name, sizeof name, "E2 every byte and every place with 9206 = %c", charset);
        report(name, passed);
    }
}

static void test_seven_bit_corrections(void)
{
    static struct bytes seven, eight, plain, made;
    make_set(&seven, P7);
    make_set(&eight, "80006300|8100?????|92062|921802.10|30000");
    make_set(&plain, P);
    report("E2a a high byte in a new content", corrects(&seven, 90, 61, 5, "M\x81", (struct reply){24, 1, 0, 0, 0, 0}, NULL)
           & corrects(&seven, 90, 61, 5, "\xFF\x81", (struct reply){24, 0, 0, 0, 0, 0}, NULL));
    make_set(&made, P7_FRONT "|3000~\x7F");
    report("E2 7Fh in a new content", corrects(&seven, 90, 61, 5, "~\x7F", (struct reply){0, 0, 0, 62, 0, 0}, &made));
    make_set(&made, "80006300|8100?????|92062|921802.10|3000\x81");
    report("E2 a high byte in a new content with 9206 = 2",
           corrects(&eight, 90, 61, 5, "\x81", (struct reply){0, 0, 0, 61, 0, 0}, &made));
    make_set(&made, "80006300|8100?????|921802.10|3000\x81");
    report("E2 a high byte in a new content without 9206",
           corrects(&plain, 90, 51, 4, "\x81", (struct reply){0, 0, 0, 51, 0, 0}, &made));
    report("E2b a line 9206 is fixed, whatever it holds",
           corrects(&seven, 90, 61, 3, "1", (struct reply){20, 27, 9206, 0, 0, 0}, NULL)
           & corrects(&seven, 90, 61, 3, "2", (struct reply){20, 27, 9206, 0, 0, 0}, NULL)
           & corrects(&eight, 90, 61, 3, "2", (struct reply){20, 27, 9206, 0, 0, 0}, NULL)
           & corrects(&eight, 90, 61, 3, "1", (struct reply){20, 27, 9206, 0, 0, 0}, NULL));
    report("E2c 20 comes before 6, 14 and 24", corrects(&seven, 90, 61, 3, "\x1F", (struct reply){20, 27, 9206, 0, 0, 0}, NULL)
           & corrects(&seven, 90, 61, 3, "", (struct reply){20, 27, 9206, 0, 0, 0}, NULL)
           & corrects(&seven, 90, 61, 3, "\x81", (struct reply){20, 27, 9206, 0, 0, 0}, NULL)
           & corrects(&seven, 90, 61, 4, "\x81", (struct reply){20, 37, 9218, 0, 0, 0}, NULL));
    report("E2c 19 comes before 24", corrects(&seven, 90, 61, 6, "\x81", (struct reply){19, 61, 0, 0, 0, 0}, NULL));
    report("E2c 6 comes before 24", corrects(&seven, 90, 61, 5, "\x81\x1F", (struct reply){6, 1, 0, 0, 0, 0}, NULL));
    report("E2c 14 comes before 24", corrects(&seven, 90, 61, 5, "\x81" "2345678901", (struct reply){14, 51, 3000, 0, 0, 0}, NULL));
    report("E2c 24 comes before 22", corrects(&seven, 61, 61, 5, "\x81" "2", (struct reply){24, 0, 0, 0, 0, 0}, NULL)
           & corrects(&seven, 61, 61, 5, "12", (struct reply){22, 62, 0, 0, 0, 0}, NULL));
}

/* A view of line 6 of b with 9206 as line 3, under a sheet. */
static const struct seven_view_case {
    const char *name, *charset, *sheet;
    struct reply want;
} seven_view_cases[] = {
    {"E2a a high byte in the asked line's entry", "1", "0005x|0006a\x81", {24, 10, 0, 0, 0, 0}},
    {"E2a a high byte in another line's entry", "1", "0005\x81|0006a", {24, 4, 0, 0, 0, 0}},
    {"E2 7Fh in a sheet", "1", "0005x|0006a\x7F", {0, 0, 0, 1, 9, 2}},
    {"E2 a high byte in a sheet with 9206 = 2", "2", "0005\x81|0006a\xFF", {0, 0, 0, 1, 9, 2}},
    {"E2 a high byte in a sheet with 9206 = 3", "3", "0005\x81|0006a\xFF", {0, 0, 0, 1, 9, 2}},
    {"E2a an overridden entry with a high byte", "1", "0006\x81|0006a", {24, 4, 0, 0, 0, 0}},
    {"E2b an entry for a seven-bit 9206", "1", "0005x|00031", {20, 5, 9206, 0, 0, 0}},
    {"E2b an entry for a 9206 that is 2", "2", "0005x|00031", {20, 5, 9206, 0, 0, 0}},
    {"E2b an entry for a 9206 that is 3", "3", "0005x|0003", {20, 5, 9206, 0, 0, 0}},
    {"E2c 14 before 24 in an entry", "1", "0005x|0006a\x81" "34567", {14, 5, 8402, 0, 0, 0}},
    {"E2c 6 before 24 in an entry", "1", "0005x|0006\x81\x1F", {6, 10, 0, 0, 0, 0}},
    {"E2c 24 of an entry before 14 of the one after it", "1", "0005\x81|0006", {24, 4, 0, 0, 0, 0}},
    {"E2c 14 of an entry before 24 of the one after it", "1", "0005|0006\x81", {14, 0, 3000, 0, 0, 0}},
};

static void test_seven_bit_views(void)
{
    static struct bytes set, sheet;
    for (size_t i = 0; i < sizeof seven_view_cases / sizeof *seven_view_cases; i++) {
        const struct seven_view_case *c = &seven_view_cases[i];
        make_set(&set, B7);
        set.of[34] = (uint8_t)c->charset[0];
        make_list(&sheet, c->sheet);
        report(c->name, views(&set, &sheet, 6, c->want));
    }
    make_set(&set, B7);
    make_list(&sheet, "0006x");
    report("B43 a view of a line 9206", views(&set, &sheet, 3, (struct reply){0, 0, 0, 0, 34, 1}));
}

/* ---- The day file ---------------------------------------------------------------------------------------------------------- */

/* Adds a set to a day file, as text. */
static void add_set(struct bytes *file, const char *lines)
{
    static struct bytes set;
    make_set(&set, lines);
    add(file, set.of, set.n);
}

/* A day of five types. The 3000 line stands at other lines, also after a content that looks like one, and `0` comes back. */
static const char *const day_sets[] = {
    P,
    B,
    "80006301|8100?????|310301101945|3102John|3101Samplesmith|30002345|921802.10",
    "80006300|8100?????|831501030000|921802.10|300000",
    "80006302|8100?????|3000A 7|921802.10|31013000|31023000|310301101945|8410A",
    "80006311|8100?????|921802.10|30000",
    "80006310|8100?????|8402EKG01|8410A|84201|8421x|8410A|30000|6330n|63313000|921802.10",
};

enum { DAY = sizeof day_sets / sizeof *day_sets };

static const size_t day_index[4 * DAY] = {
    0,   51,  6300, 48,
    51,  65,  6310, 99,
    116, 104, 6301, 200,
    220, 69,  6300, 285,
    289, 106, 6302, 323,
    395, 51,  6311, 443,
    446, 128, 6310, 534,
};

static void make_day(struct bytes *file)
{
    file->n = 0;
    for (size_t i = 0; i < DAY; i++) {
        add_set(file, day_sets[i]);
    }
}

/* Whether appending each set of a day gives just what building afresh gives. */
static int grows(const struct bytes *file)
{
    int passed = 1;
    for (size_t i = 0; i < DAY; i++) {
        struct bytes *part = &scratch;
        size_t old = day_index[4 * i], count = i + 1;
        size_t afresh[4 * DAY] = {0}, grown[4 * DAY] = {0};
        struct gdt_made made;
        part->n = 0;
        add(part, file->of, old + day_index[4 * i + 1]);
        gdt_day_build(part->of, old, grown, 4 * i);
        made = gdt_day_append(part->of, part->n, old, grown, 4 * count, i);
        passed &= made.no == 0 && made.count == count;
        made = gdt_day_build(part->of, part->n, afresh, 4 * count);
        passed &= made.no == 0 && made.count == count;
        passed &= memcmp(afresh, grown, sizeof grown) == 0 && memcmp(grown, day_index, 4 * count * sizeof *grown) == 0;
    }
    return passed;
}

static void test_build(void)
{
    static struct bytes file;
    static const size_t long_last[] = {0, 5135, 6310, 5132, 5135, 51, 6300, 5183};
    const struct reply all = {0, 0, 0, DAY, 0, 0}, need = {22, DAY, 0, 0, 0, 0};
    make_day(&file);
    report("E1 the index of a day", builds(&file, 4 * DAY, all, day_index));
    report("E1 numbers after the last entry stay", builds(&file, 4 * DAY + 8, all, day_index));
    report("E1i a rest of one to three numbers is no entry", builds(&file, 4 * DAY + 1, all, day_index)
           & builds(&file, 4 * DAY + 2, all, day_index) & builds(&file, 4 * DAY + 3, all, day_index)
           & builds(&file, 4 * DAY - 1, need, NULL) & builds(&file, 4 * DAY - 2, need, NULL)
           & builds(&file, 4 * DAY - 3, need, NULL) & builds(&file, 4 * DAY - 4, need, NULL) & builds(&file, 3, need, NULL)
           & builds(&file, 1, need, NULL) & builds(&file, 0, need, NULL));
    file.n = 0;
    report("E1e a file of no bytes has no sets", builds(&file, 0, (struct reply){0, 0, 0, 0, 0, 0}, NULL)
           & builds(&file, 7, (struct reply){0, 0, 0, 0, 0, 0}, NULL));
    add_all(&file, "80006310|8100?????|921802.10|8402EKG01", add_line);
    for (size_t i = 0; i < 507; i++) {
        add_line(&file, "6220x", 5);
    }
    add_line(&file, "30007", 5);
    add_sum(&file);
    add_set(&file, P);
    report("E1 3000 as the last of 512 lines", builds(&file, 8, (struct reply){0, 0, 0, 2, 0, 0}, long_last));
    file.n = 0;
    add_set(&file, P);
    for (size_t i = 0; i < 2; i++) {
        add_all(&file, "80006300|810000052|921802.10|30000", add_line);
    }
    report("E1 the first bad set is the one refused, before NoRoom", builds(&file, 16, (struct reply){17, 64, 0, 0, 0, 0}, NULL)
           & builds(&file, 0, (struct reply){17, 64, 0, 0, 0, 0}, NULL));
    file.n = 51;
    add_text(&file, "x");
    report("E1 a last set that is no set", builds(&file, 16, (struct reply){2, 51, 0, 0, 0, 0}, NULL));
}

/* Each set of a file has its own 9206. */
static void test_seven_bits_in_files(void)
{
    static struct bytes file;
    static const size_t mixed[] = {0, 61, 6300, 58, 61, 51, 6300, 109, 112, 61, 6300, 170};
    static const char high[] = "80006300|8100?????|921802.10|3000\xFF";
    file.n = 0;
    add_set(&file, P7);
    add_set(&file, high);
    report("E2 the set before is seven-bit", appends(&file, 61, 8, 1, (struct reply){0, 0, 0, 2, 0, 0}, mixed + 4));
    add_set(&file, P7);
    report("E2 seven-bit sets and one that is not", builds(&file, 12, (struct reply){0, 0, 0, 3, 0, 0}, mixed));
    add_set(&file, P7_FRONT "|3000a\x81");
    add_set(&file, P7_FRONT "|3000\x81");
    report("E2a the place of 24 in a file, before NoRoom", builds(&file, 20, (struct reply){24, 173 + 59, 0, 0, 0, 0}, NULL)
           & builds(&file, 0, (struct reply){24, 173 + 59, 0, 0, 0, 0}, NULL));
    report("E2a 24 of an appended set, before 18 and NoRoom",
           appends(&file, 173, 20, 3, (struct reply){24, 173 + 59, 0, 0, 0, 0}, NULL)
           & appends(&file, 173, 0, 3, (struct reply){24, 173 + 59, 0, 0, 0, 0}, NULL)
           & appends(&file, 173, 0, SETS, (struct reply){24, 173 + 59, 0, 0, 0, 0}, NULL));
}

/* Every set of the set cases stands after P: refused as by itself, with its place in the file. Appended, another set after it is
   18; an accepted one has an entry. For a fresh build its line 1 must not belong to P (E1f); P stands after it, too, if it has no
   tail. */
static void test_sets_in_files(void)
{
    static struct bytes file, set;
    int appended = 1, built = 1;
    for (size_t i = 0; i < sizeof set_cases / sizeof *set_cases; i++) {
        const struct set_case *c = &set_cases[i];
        struct reply want = c->want;
        size_t entry[4] = {51, want.a, want.c, 0};
        make_set(&set, c->lines);
        add_text(&set, c->tail);
        make_set(&file, P);
        add(&file, set.of, set.n);
        if (want.no != 0) {
            want.place += 51;
        } else if (c->tail[0] != 0) {
            want = (struct reply){18, want.a, 0, 0, 0, 0};
        } else {
            struct gdt_entry lines[MANY];
            gdt_index(set.of, set.n, lines, MANY);
            for (size_t k = 0; k < want.b; k++) {
                entry[3] = lines[k].label == 3000 ? 51 + lines[k].place : entry[3];
            }
            want = (struct reply){0, 0, 0, 3, 0, 0};
        }
        appended &= appends(&file, 51, 14, 2, want, entry);
        if (want.no != 0 && want.no != 18 && set.n >= 7 && memcmp(set.of + 3, "8000", 4) == 0) {
            built &= builds(&file, 8, want, NULL);
            if (c->tail[0] == 0) {
                add_set(&file, P);
                built &= builds(&file, 12, want, NULL);
            }
        }
    }
    report("E1b every set of the cases, appended to P", appended);
    report("E1 every bad set of the cases, in the middle of a file", built);
    make_long(&set, 512);
    add_text(&set, "x");
    make_set(&file, P);
    add(&file, set.of, set.n);
    report("E1 a 513th line starts, in a file", builds(&file, 8, (struct reply){7, 51 + 5135, 0, 0, 0, 0}, NULL)
           & appends(&file, 51, 8, 1, (struct reply){7, 51 + 5135, 0, 0, 0, 0}, NULL));
}

static void test_append(void)
{
    static struct bytes file, day;
    static const size_t of_b[] = {51, 65, 6310, 99}, of_p[] = {0, 51, 6300, 48};
    const size_t most = (size_t)-1;
    make_day(&day);
    report("E1 appending gives what building afresh gives", grows(&day));
    make_set(&file, P);
    add_set(&file, B);
    report("E1 an appended set", appends(&file, 51, 8, 1, (struct reply){0, 0, 0, 2, 0, 0}, of_b));
    report("E1d the old entries are not looked at", appends(&file, 51, 40, 0, (struct reply){0, 0, 0, 1, 0, 0}, of_b)
           & appends(&file, 51, 40, 9, (struct reply){0, 0, 0, 10, 0, 0}, of_b));
    report("E1i a rest of one to three numbers, appending", appends(&file, 51, 9, 1, (struct reply){0, 0, 0, 2, 0, 0}, of_b)
           & appends(&file, 51, 11, 1, (struct reply){0, 0, 0, 2, 0, 0}, of_b)
           & appends(&file, 51, 11, 2, (struct reply){22, 3, 0, 0, 0, 0}, NULL)
           & appends(&file, 51, 7, 1, (struct reply){22, 2, 0, 0, 0, 0}, NULL)
           & appends(&file, 51, 3, 0, (struct reply){22, 1, 0, 0, 0, 0}, NULL)
           & appends(&file, 51, 0, 0, (struct reply){22, 1, 0, 0, 0, 0}, NULL));
    report("E1d a count over the room", appends(&file, 51, 8, 3, (struct reply){22, 4, 0, 0, 0, 0}, NULL)
           & appends(&file, 51, 8, 2047, (struct reply){22, 2048, 0, 0, 0, 0}, NULL));
    report("E1d the count 2,047 has room", appends(&file, 51, 4 * SETS, SETS - 1, (struct reply){0, 0, 0, SETS, 0, 0}, of_b));
    report("E1d a count of 2,048 or more, whatever is lent",
           appends(&file, 51, 4 * SETS + 4, SETS, (struct reply){23, 51, 0, 0, 0, 0}, NULL)
           & appends(&file, 51, 0, SETS, (struct reply){23, 51, 0, 0, 0, 0}, NULL)
           & appends(&file, 51, 8, SETS + 1, (struct reply){23, 51, 0, 0, 0, 0}, NULL)
           & appends(&file, 51, 8, most / 4 + 1, (struct reply){23, 51, 0, 0, 0, 0}, NULL)
           & appends(&file, 51, 8, most - 1, (struct reply){23, 51, 0, 0, 0, 0}, NULL)
           & appends(&file, 51, 8, most, (struct reply){23, 51, 0, 0, 0, 0}, NULL));
    report("E1e nothing after the old length", appends(&file, 116, 8, 1, (struct reply){1, 116, 0, 0, 0, 0}, NULL)
           & appends(&file, 116, 0, most, (struct reply){1, 116, 0, 0, 0, 0}, NULL));
    report("E1b an old length over the file, before all", appends(&file, 117, 8, 1, (struct reply){18, 116, 0, 0, 0, 0}, NULL)
           & appends(&file, most, 8, 1, (struct reply){18, 116, 0, 0, 0, 0}, NULL)
           & appends(&file, most, 0, most, (struct reply){18, 116, 0, 0, 0, 0}, NULL));
    report("E1 an old length inside a set", appends(&file, 13, 8, 1, (struct reply){8, 13, 0, 0, 0, 0}, NULL)
           & appends(&file, 52, 8, 1, (struct reply){3, 52, 0, 0, 0, 0}, NULL));
    report("E1c a second set: the first one's length", appends(&file, 0, 8, 0, (struct reply){18, 51, 0, 0, 0, 0}, NULL));
    add_text(&file, "xyz8000");
    report("E1c a second set, after an old file", appends(&file, 51, 8, 1, (struct reply){18, 65, 0, 0, 0, 0}, NULL));
    report("E1b a second set, before 23 and NoRoom", appends(&file, 51, 8, SETS, (struct reply){18, 65, 0, 0, 0, 0}, NULL)
           & appends(&file, 51, 0, 1, (struct reply){18, 65, 0, 0, 0, 0}, NULL)
           & appends(&file, 51, 0, most, (struct reply){18, 65, 0, 0, 0, 0}, NULL));
    file.of[51 + 24]++;
    report("E1b the set's own, before a second set", appends(&file, 51, 8, 1, (struct reply){17, 64, 0, 0, 0, 0}, NULL)
           & appends(&file, 51, 0, most, (struct reply){17, 64, 0, 0, 0, 0}, NULL));
    make_set(&file, P);
    report("E1 appending to a file of no bytes", appends(&file, 0, 4, 0, (struct reply){0, 0, 0, 1, 0, 0}, of_p));
    add_set(&file, "80006300|8100?????|921802.10");
    report("E1b 16 at set level stands at the old length", appends(&file, 51, 8, 1, (struct reply){16, 51, 3000, 0, 0, 0}, NULL));
    make_set(&file, P);
    add_all(&file, "80006300", add_line);
    report("E1b 10 stands at the old length and the set's length",
           appends(&file, 51, 8, 1, (struct reply){10, 64, 0, 0, 0, 0}, NULL));
    make_set(&file, P);
    add_all(&file, "3100a", add_line);
    report("E1f a line that belongs to the set before it", appends(&file, 51, 8, 1, (struct reply){8, 51, 0, 0, 0, 0}, NULL)
           & builds(&file, 8, (struct reply){11, 51, 3100, 0, 0, 0}, NULL));
    file.n = 0;
    report("E1e no file at all", appends(&file, 0, 4, 0, (struct reply){1, 0, 0, 0, 0, 0}, NULL)
           & appends(&file, 1, 4, 0, (struct reply){18, 0, 0, 0, 0, 0}, NULL));
}

/* What stands after 2,048 sets is refused alike by building and by appending, whatever is lent. */
static int refused_as_last(const struct bytes *file, struct reply want)
{
    const size_t old = (size_t)SETS * 51;
    return builds(file, NUMBERS, want, NULL) & builds(file, 0, want, NULL) & appends(file, old, NUMBERS, SETS, want, NULL)
        & appends(file, old, 0, SETS, want, NULL);
}

static void test_many_sets(void)
{
    static struct bytes file;
    static size_t made[4 * SETS], every[SETS];
    const size_t end = (size_t)SETS * 51;
    const struct reply all = {0, 0, 0, SETS, 0, 0};
    file.n = 0;
    for (size_t i = 0; i < SETS; i++) {
        const size_t entry[] = {51 * i, 51, 6300, 51 * i + 48};
        memcpy(made + 4 * i, entry, sizeof entry);
        every[i] = i + 1;
        add_set(&file, P);
    }
    report("E1 2,048 sets", builds(&file, 4 * SETS, all, made) & builds(&file, NUMBERS, all, made));
    report("E1 2,048 sets have no room", builds(&file, 4 * SETS - 1, (struct reply){22, SETS, 0, 0, 0, 0}, NULL)
           & builds(&file, 0, (struct reply){22, SETS, 0, 0, 0, 0}, NULL));
    report("E1 the last of 2,048 sets is appended", appends(&file, end - 51, NUMBERS, SETS - 1, all, made + 4 * (SETS - 1)));
    report("E1 2,048 sets are found", finds(&file, made, 4 * SETS, "0", 1, SETS, all, every)
           & finds(&file, made, 4 * SETS, "0", 1, SETS - 1, (struct reply){22, SETS, 0, 0, 0, 0}, NULL));
    add_text(&file, "xyz8000");
    report("E1a a 2,049th set's own refusal comes first", refused_as_last(&file, (struct reply){2, end, 0, 0, 0, 0}));
    file.n = end;
    add_all(&file, "80006300|810000052|921802.10|30000", add_line);
    report("E1a a 2,049th set with a bad sum", refused_as_last(&file, (struct reply){17, end + 13, 0, 0, 0, 0}));
    file.n = end;
    add_set(&file, "80006300|8100?????|921802.10");
    report("E1a a 2,049th set without 3000", refused_as_last(&file, (struct reply){16, end, 3000, 0, 0, 0}));
    file.n = end;
    add_set(&file, P7_FRONT "|3000\x81");
    report("E1a a 2,049th set with a high byte", refused_as_last(&file, (struct reply){24, end + 58, 0, 0, 0, 0}));
    file.n = end;
    add_set(&file, P);
    report("E1a a 2,049th set", refused_as_last(&file, (struct reply){23, end, 0, 0, 0, 0}));
    add_text(&file, "xyz8000");
    report("E1a a set after the 2,049th is not judged", builds(&file, NUMBERS, (struct reply){23, end, 0, 0, 0, 0}, NULL)
           & appends(&file, end, NUMBERS, SETS, (struct reply){18, 51, 0, 0, 0, 0}, NULL));
    file.of[13 + 7]++;
    report("E1 a bad first set of 2,049", builds(&file, 0, (struct reply){17, 13, 0, 0, 0, 0}, NULL));
}

static void test_find(void)
{
    static struct bytes day;
    static const size_t three[] = {1, 6, 7}, one[] = {1}, two[] = {2}, third[] = {3}, fourth[] = {4}, fifth[] = {5};
    const struct reply nothing = {0, 0, 0, 0, 0, 0}, single = {0, 0, 0, 1, 0, 0};
    static const char *const others[] = {"1", "234", "345", "23456", "000", "A", "A 7 ", "a 7", "3000", "02.10"};
    int passed = 1;
    make_day(&day);
    report("E1h all sets of a patient, in file order",
           finds(&day, day_index, 4 * DAY, "0", 1, 3, (struct reply){0, 0, 0, 3, 0, 0}, three)
           & finds(&day, day_index, 4 * DAY, "0", 1, 9, (struct reply){0, 0, 0, 3, 0, 0}, three));
    report("E1h the matches are the need of 22", finds(&day, day_index, 4 * DAY, "0", 1, 2, (struct reply){22, 3, 0, 0, 0, 0}, NULL)
           & finds(&day, day_index, 4 * DAY, "0", 1, 0, (struct reply){22, 3, 0, 0, 0, 0}, NULL));
    report("E1 one set of a patient", finds(&day, day_index, 4 * DAY, "7", 1, 1, single, two)
           & finds(&day, day_index, 4 * DAY, "2345", 4, 1, single, third)
           & finds(&day, day_index, 4 * DAY, "00", 2, 1, single, fourth)
           & finds(&day, day_index, 4 * DAY, "A 7", 3, 4, single, fifth));
    for (size_t i = 0; i < sizeof others / sizeof *others; i++) {
        passed &= finds(&day, day_index, 4 * DAY, others[i], strlen(others[i]), 9, nothing, NULL)
            & finds(&day, day_index, 4 * DAY, others[i], strlen(others[i]), 0, nothing, NULL);
    }
    report("E1 a part of a content, and more than it, do not match", passed);
    report("E1g no asked bytes match no built entry", finds(&day, day_index, 4 * DAY, "", 0, 9, nothing, NULL));
    report("E1g a byte under 20h matches nothing", finds(&day, day_index, 4 * DAY, "0\r\n01380006310", 14, 9, nothing, NULL)
           & finds(&day, day_index, 4 * DAY, "0\r\n01380006310", 14, 0, nothing, NULL)
           & finds(&day, day_index, 4 * DAY, "0\0", 2, 9, nothing, NULL)
           & finds(&day, day_index, 4 * DAY, "\0", 1, 9, nothing, NULL));
    report("E1i a rest of one to three numbers is not looked at", finds(&day, day_index, 7, "7", 1, 9, nothing, NULL)
           & finds(&day, day_index, 27, "0", 1, 2, (struct reply){0, 0, 0, 2, 0, 0}, three)
           & finds(&day, day_index, 5, "0", 1, 1, single, one) & finds(&day, day_index, 3, "0", 1, 9, nothing, NULL)
           & finds(&day, day_index, 1, "0", 1, 9, nothing, NULL) & finds(&day, day_index, 0, "0", 1, 0, nothing, NULL));
}

/* A lookup of a text in a file of text, by an index of one entry with that place; `found` says whether it matches. */
static const struct find_case {
    const char *name, *file;
    size_t place;
    const char *asked;
    size_t found;
} find_cases[] = {
    {"E1g a foreign file", "ab\r\n", 0, "ab", 1},
    {"E1g a foreign place inside a content", "ab\r\n", 1, "b", 1},
    {"E1g an asked text that is longer", "ab\r\n", 0, "abc", 0},
    {"E1g an asked text that is shorter", "ab\r\n", 0, "a", 0},
    {"E1g another byte", "ab\r\n", 0, "ac", 0},
    {"E1g another place", "ab\r\n", 1, "ab", 0},
    {"E1g the asked bytes end at the file's end", "abab", 2, "ab", 0},
    {"E1g the asked bytes and 0Dh end at the file's end", "abab\r", 2, "ab", 0},
    {"E1g the asked bytes, 0Dh and 0Ah end at the file's end", "abab\r\n", 2, "ab", 1},
    {"E1g 0Ah without 0Dh", "ab \nab\r\n", 0, "ab", 0},
    {"E1g 0Dh without 0Ah", "ab\r ab\r\n", 0, "ab", 0},
    {"E1g 0Ah 0Dh", "ab\n\rab\r\n", 0, "ab", 0},
    {"E1g the whole file, without its end", "ab", 0, "ab", 0},
    {"E1g asked bytes that are longer than the file", "ab", 0, "abc", 0},
    {"E1g a file of no bytes", "", 0, "ab", 0},
    {"E1g a file of no bytes, no asked bytes", "", 0, "", 0},
    {"E1g a file of one byte, no asked bytes", "\r", 0, "", 0},
    {"E1g no asked bytes match on 0Dh 0Ah", "ab\r\n", 2, "", 1},
    {"E1g no asked bytes match on 0Dh 0Ah alone", "\r\n", 0, "", 1},
    {"E1g no asked bytes on a content", "ab\r\n", 1, "", 0},
    {"E1g no asked bytes on 0Ah", "ab\r\n", 3, "", 0},
    {"E1g a place at the file's end, no asked bytes", "ab\r\n", 4, "", 0},
    {"E1g a place at the file's end", "ab\r\n", 4, "ab", 0},
    {"E1g a place after the file's end", "ab\r\n", 5, "ab", 0},
    {"E1g the greatest place", "ab\r\n", (size_t)-1, "ab", 0},
    {"E1g the greatest place, no asked bytes", "\r\n", (size_t)-1, "", 0},
    {"E1g a place that wraps onto the file's end", "ab\r\n", (size_t)-4, "ab", 0},
    {"E1g a place that wraps, no asked bytes", "\r\n\r\n", (size_t)-2, "", 0},
    {"E1g the asked byte 20h", " \r\n", 0, " ", 1},
    {"E1g the asked byte FFh", "\xFF\r\n", 0, "\xFF", 1},
    {"E1g the asked byte 1Fh", "\x1F\r\n", 0, "\x1F", 0},
    {"E1g a byte under 20h, the last of nine", "abcdefgh\x1F\r\n", 0, "abcdefgh\x1F", 0},
    {"E1g a byte under 20h, among the first eight", "abc\tefgh\r\n", 0, "abc\tefgh", 0},
    {"E1g 0Dh 0Ah as asked bytes", "\r\n\r\n", 0, "\r\n", 0},
};

static void test_foreign_find(void)
{
    static struct bytes file;
    static const size_t one[] = {1}, found[] = {2, 3, 5};
    const size_t most = (size_t)-1;
    const size_t foreign[] = {
        0,    0,    0,    4,  /* another content */
        most, most, most, 0,  /* only the place is looked at */
        0,    0,    0,    0,  /* the same place again is another entry */
        0,    0,    0,    most,
        9,    9,    9,    8,  /* a place before that of the entry after it */
        0,    0,    0,    4,
        0,    0,    0,        /* a rest */
    };
    for (size_t i = 0; i < sizeof find_cases / sizeof *find_cases; i++) {
        const struct find_case *c = &find_cases[i];
        const size_t index[] = {most, 0, 1, c->place}, n = strlen(c->asked);
        const struct reply want = {0, 0, 0, c->found, 0, 0}, none = {0, 0, 0, 0, 0, 0}, need = {22, 1, 0, 0, 0, 0};
        file.n = 0;
        add_text(&file, c->file);
        report(c->name, finds(&file, index, 4, c->asked, n, 1, want, one) & finds(&file, index, 4, c->asked, n, 3, want, one)
               & finds(&file, index, 4, c->asked, n, 0, c->found != 0 ? need : none, NULL));
    }
    file.n = 0;
    add_text(&file, "ab\r\nac\r\nab\r\n");
    report("E1h each entry of a foreign index by its own number",
           finds(&file, foreign, 27, "ab", 2, 3, (struct reply){0, 0, 0, 3, 0, 0}, found)
           & finds(&file, foreign, 27, "ab", 2, 7, (struct reply){0, 0, 0, 3, 0, 0}, found)
           & finds(&file, foreign, 27, "ab", 2, 2, (struct reply){22, 3, 0, 0, 0, 0}, NULL));
}

/* A foreign index has any number of entries, and a lookup no limit of its own. */
static void test_long_find(void)
{
    static size_t index[4 * 70000], out[70001];
    const size_t entries = 70000;
    struct gdt_made made;
    int passed;
    for (size_t i = 0; i < entries; i++) {
        index[4 * i + 3] = i % 2 * 3;
    }
    out[entries / 2] = 77;
    made = gdt_day_find((const uint8_t *)"x\r\ny\r\n", 6, index, 4 * entries, (const uint8_t *)"y", 1, out, entries);
    passed = made.no == 0 && made.count == entries / 2 && out[entries / 2] == 77;
    for (size_t i = 0; i < entries / 2; i++) {
        passed &= out[i] == 2 * i + 2;
    }
    report("E1h more than 65,535 entries", passed);
}

/* ---- The serial cable ------------------------------------------------------------------------------------------------------ */

/* The CRC by another way than appendix C: the rest of the bytes, with 16 zero bits after them, divided by x^16 + x^15 + x^2 + 1, as
   polynomials over two elements. */
static unsigned rest_of(const uint8_t *bytes, size_t n)
{
    uint32_t rest = 0;
    for (size_t i = 0; i < n + 2; i++) {
        rest = rest << 8 | (i < n ? bytes[i] : 0u);
        for (int bit = 23; bit >= 16; bit--) {
            if ((rest >> bit & 1) != 0) {
                rest ^= (uint32_t)0x18005 << (bit - 16);
            }
        }
    }
    return rest;
}

/* Adds the four digits of a CRC and 0Dh. */
static void add_crc(struct bytes *b, unsigned crc)
{
    char digits[8];
    snprintf(digits, sizeof digits, "%04X\r", crc & 0xFFFF);
    add(b, digits, 5);
}

/* A block from its text, `|` for 1Ch, with the CRC that it should have. */
static void make_block(struct bytes *b, const char *text)
{
    b->n = 0;
    add_text(b, text);
    for (size_t i = 0; i < b->n; i++) {
        b->of[i] = b->of[i] == '|' ? 0x1C : b->of[i];
    }
    add_crc(b, rest_of(b->of, b->n));
}

/* Block number `block` of a set, with the cuts written as the request says them. Answers whether the set has it. */
static int make_nth(struct bytes *b, const struct bytes *set, size_t block, size_t count)
{
    static struct bytes data;
    size_t first = 0, start, end;
    char head[8];
    data.n = 0;
    for (size_t i = 0; i + 2 < set->n; i++) {
        if (set->of[i] != '\n') {
            add(&data, set->of[i] == '\r' ? (const uint8_t *)"\x1C" : set->of + i, 1);
        }
    }
    while (data.of[first] != 0x1C) {
        first++;
    }
    if (data.n <= 128) {
        start = block == 0 ? 0 : block == 1 ? first + 1 : data.n;
        end = block == 0 ? first + 1 : data.n;
    } else {
        start = block > data.n / 128 ? data.n : 128 * block;
        end = start + 128 < data.n ? start + 128 : data.n;
    }
    b->n = 0;
    if (start == data.n) {
        return 0;
    }
    snprintf(head, sizeof head, "%zuB0%c", count % 10, start == 0 ? '0' : end == data.n ? '2' : '1');
    add_text(b, head);
    add(b, data.of + start, end - start);
    add_crc(b, rest_of(b->of, b->n));
    return 1;
}

/* The CRC of bytes. */
static const struct crc_case {
    const char *name, *bytes;
    size_t n;
    unsigned crc;
} crc_cases[] = {
    {"no bytes", "", 0, 0x0000},
    {"00h", "\0", 1, 0x0000},
    {"80h", "\x80", 1, 0x8303},
    {"FFh", "\xFF", 1, 0x0202},
    {"A", "A", 1, 0x0186},
    {"123456789", "123456789", 9, 0xFEE8},
    {"81h 84h 94h E1h", "\x81\x84\x94\xE1", 4, 0xE423},
    {"0B00", "0B00", 4, 0x6582},
    {"1B00", "1B00", 4, 0xF181},
    {"1B02", "1B02", 4, 0x718E},
    {"3B010133101M 81h ller", "3B010133101M\x81ller", 17, 0xD709},
};

/* Whether the receiver takes 0B00 with these data and this CRC, and by any other CRC refuses it by 26. */
static int has_crc(const uint8_t *data, size_t n, unsigned crc)
{
    static struct bytes block, buffer, made;
    const struct gdt_receiver fresh = {0, 0, 0, 0}, taken = {1, 0, 1, n};
    int passed;
    buffer.n = 0;
    add(&buffer, noise(200), 200);
    made.n = 0;
    add(&made, data, n);
    pad(&made, 200);
    block.n = 0;
    add_text(&block, "0B00");
    add(&block, data, n);
    add_crc(&block, crc);
    passed = receives(fresh, &buffer, &block, (struct reply){0, 0, 0, GDT_TAKEN, 1, 0}, taken, &made);
    for (unsigned bit = 0; bit < 16; bit++) {
        block.n -= 5;
        add_crc(&block, crc ^ 1u << bit);
        passed &= receives(fresh, &buffer, &block, (struct reply){26, 0, 0, 0, 0, 0}, fresh, &buffer);
    }
    return passed;
}

/* The receiver takes no bytes but those of a block. But the CRCs of two texts of one length differ by that of their difference: so
   those of a mask and of the bytes under it, both data of a block, must differ by the CRC of the bytes. */
static int crc_under_mask(const uint8_t *bytes, size_t n, unsigned crc)
{
    uint8_t masks[4 + 128], masked[128];
    unsigned of_masks;
    memcpy(masks, "0B00", 4);
    for (size_t i = 0; i < n; i++) {
        masks[4 + i] = (bytes[i] ^ 0x40) >= 0x20 ? 0x40 : 0x80;
        masked[i] = bytes[i] ^ masks[4 + i];
    }
    of_masks = rest_of(masks, 4 + n);
    return has_crc(masks + 4, n, of_masks) & has_crc(masked, n, of_masks ^ crc);
}

static void test_crc(void)
{
    static struct bytes block;
    const struct gdt_receiver fresh = {0, 0, 0, 0};
    uint8_t all[256];
    char name[80];
    int passed = 1;
    for (size_t i = 0; i < sizeof crc_cases / sizeof *crc_cases; i++) {
        const struct crc_case *c = &crc_cases[i];
        const uint8_t *bytes = (const uint8_t *)c->bytes;
        snprintf(name, sizeof name, "E3c the CRC of %s is %04X", c->name, c->crc);
        report(name, (rest_of(bytes, c->n) == c->crc) & crc_under_mask(bytes, c->n, c->crc));
    }
    for (size_t i = 0; i < sizeof all; i++) {
        all[i] = (uint8_t)i;
        passed &= crc_under_mask(all + i, 1, rest_of(all + i, 1));
    }
    report("E3c the CRC of each byte", passed);
    report("E3c the CRC of all bytes is 3B7A", (rest_of(all, 256) == 0x3B7A) & crc_under_mask(all, 128, rest_of(all, 128))
           & crc_under_mask(all + 128, 128, rest_of(all + 128, 128)));
    passed = 1;
    make_block(&block, "0B0001380006300|");
    block.n -= 5;
    for (unsigned crc = 0; crc <= 0xFFFF; crc++) {
        uint8_t out[40];
        struct gdt_received got;
        add_crc(&block, crc);
        got = gdt_receive(fresh, out, sizeof out, block.of, block.n);
        passed &= got.no == (crc == 0x6525 ? 0 : GDT_BAD_CRC) && got.ack == (crc == 0x6525 ? 1 : 0);
        block.n -= 5;
    }
    report("E3c one CRC of all that four digits can say", passed);
}

/* A set of which the data have this many bytes: b, and lines 6220 after it. */
static void make_data(struct bytes *set, size_t data)
{
    char line[64 + 1];
    size_t left = data - 59;
    set->n = 0;
    add_all(set, B, add_line);
    memset(line, 'x', sizeof line);
    memcpy(line, "6220", 4);
    while (left > 0) {
        size_t n = left <= 68 ? left : left - 68 >= 9 ? 68 : 59;
        add_line(set, line, n - 4);
        left -= n;
    }
    add_sum(set);
}

/* Whether all blocks of a set are as they should be, with each count, and there are `want` of them. */
static int cut_into(const struct bytes *set, size_t want)
{
    static struct bytes block;
    const struct gdt_link idle = {0, 0, 0, 0, 0, 0}, begun = {GDT_UNDER_WAY, want, 1, 0, 0, 0};
    int passed = sends(idle, GDT_BEGIN, set->of, set->n, (struct reply){0, 0, 0, GDT_UNDER_WAY, 0, 0}, begun);
    for (size_t i = 0; i < want + 3; i++) {
        size_t count = i % 10;
        int there = make_nth(&block, set, i, count);
        passed &= there == (i < want) && blocks(set, i, count, (struct reply){0, 0, 0, block.n, 0, 0}, block.of);
    }
    return passed;
}

static void test_blocks(void)
{
    static struct bytes set, block;
    static const size_t lengths[] = {59, 68, 76, 127, 128, 129, 130, 255, 256, 257, 383, 384, 385, 512, 1280, 1281};
    const struct reply nothing = {0, 0, 0, 0, 0, 0};
    const size_t most = (size_t)-1;
    int passed = 1;
    make_set(&set, P);
    report("E3e the first block of P",
           blocks(&set, 0, 0, (struct reply){0, 0, 0, 21, 0, 0}, "0B0001380006300\x1C" "6525\r"));
    report("E3e the second block of P",
           blocks(&set, 1, 1, (struct reply){0, 0, 0, 43, 0, 0}, "1B02014810000051\x1C" "014921802.10\x1C" "010300004226\r"));
    for (size_t count = 0; count <= 9; count++) {
        for (size_t i = 0; i < 2; i++) {
            make_nth(&block, &set, i, count);
            passed &= blocks(&set, i, count, (struct reply){0, 0, 0, block.n, 0, 0}, block.of);
        }
    }
    report("E3 the blocks of P with each count", passed);
    report("E3h a block that the set does not have", blocks(&set, 2, 0, nothing, "") & blocks(&set, 3, 1, nothing, "")
           & blocks(&set, 1u << 31, 1, nothing, "") & blocks(&set, most / 128 + 1, 1, nothing, "")
           & blocks(&set, most / 128 + 2, 1, nothing, "") & blocks(&set, most / 12 + 1, 1, nothing, "")
           & blocks(&set, most - 1, 1, nothing, "") & blocks(&set, most, 1, nothing, ""));
    report("E3h a count over 9", blocks(&set, 0, 10, nothing, "") & blocks(&set, 1, 10, nothing, "")
           & blocks(&set, 1, 256, nothing, "") & blocks(&set, 0, most - 5, nothing, "") & blocks(&set, 0, most, nothing, ""));
    add_text(&set, "xyz8000");
    report("E3h a second set, whatever is asked for", blocks(&set, 0, 0, (struct reply){18, 51, 0, 0, 0, 0}, NULL)
           & blocks(&set, 2, 0, (struct reply){18, 51, 0, 0, 0, 0}, NULL)
           & blocks(&set, 0, 10, (struct reply){18, 51, 0, 0, 0, 0}, NULL));
    set.of[24]++;
    report("E3h the set's own refusal, before a second set", blocks(&set, 0, 0, (struct reply){17, 13, 0, 0, 0, 0}, NULL)
           & blocks(&set, most, most, (struct reply){17, 13, 0, 0, 0, 0}, NULL));
    make_set(&set, "80006310|8100?????|921802.10|30007|8402EKG01|8410FEV1|8420-3.7|8421l");
    make_nth(&block, &set, 0, 0);
    report("E3e the CRCs of example 8 are E532 and 102E", (memcmp(block.of + block.n - 5, "E532\r", 5) == 0)
           & blocks(&set, 0, 0, (struct reply){0, 0, 0, 21, 0, 0}, block.of)
           & (make_nth(&block, &set, 1, 1) && memcmp(block.of + block.n - 5, "102E\r", 5) == 0)
           & blocks(&set, 1, 1, (struct reply){0, 0, 0, block.n, 0, 0}, block.of));
    for (size_t i = 0; i < sizeof lengths / sizeof *lengths; i++) {
        char name[60];
        make_data(&set, lengths[i]);
        snprintf(name, sizeof name, "E3b data of %zu bytes", lengths[i]);
        report(name, cut_into(&set, lengths[i] <= 128 ? 2 : (lengths[i] + 127) / 128));
    }
    passed = 1;
    for (size_t data = 77; data < 400; data++) {
        make_data(&set, data);
        passed &= cut_into(&set, data <= 128 ? 2 : (data + 127) / 128);
    }
    report("E3b data of every length around two cuts", passed);
    make_set(&set, "80006301|8100?????|310301101945|3102J\xFFhn|3101M\x81ller \x7F|30002345|921802.10");
    report("E3 bytes up to FFh", cut_into(&set, 2));
    set.n = 0;
    add_all(&set, "80006310|8100?????|921802.10|30000123456789|8402EKG012", add_line);
    for (size_t i = 5; i < 512; i++) {
        add_line(&set, "6220123456789012345678901234567890123456789012345678901234567890", 64);
    }
    add_sum(&set);
    report("E3b the largest set has 270 blocks", (set.n == GDT_LARGEST_SET) & cut_into(&set, 270));
}

static const char ack_1[] = "\x06" "1", ack_0[] = "\x06" "0";

/* What is no ACK 1: each is an error. */
static const struct answer {
    const char *bytes;
    size_t n;
} errors[] = {
    {ack_0, 2}, {"", 0}, {"\x06", 1}, {"1", 1}, {"1\x06", 2}, {"\x06" "11", 3}, {"\x06" "1\r", 3}, {" \x06" "1", 3},
    {"\x06" "2", 2}, {"\x06" "\1", 2}, {"\x15" "1", 2}, {"\x86" "1", 2}, {"\x06\xB1", 2}, {"\0\0", 2}, {"\x06" "1\0", 3},
    {"1B00", 4}, {"\x06" "1\x06" "1", 4},
};

/* The sender hears an error, whichever it is. */
static int errs(struct gdt_link from, struct reply want, struct gdt_link to)
{
    int passed = 1;
    for (size_t i = 0; i < sizeof errors / sizeof *errors; i++) {
        passed &= sends(from, GDT_REPLY, errors[i].bytes, errors[i].n, want, to);
    }
    return passed;
}

/* The sender hears ACK 1. */
static int acks(struct gdt_link from, struct reply want, struct gdt_link to)
{
    return sends(from, GDT_REPLY, ack_1, 2, want, to);
}

/* The sender stays as it is, whatever it hears, and answers so. */
static int stays(struct gdt_link link, size_t what)
{
    const struct reply want = {0, 0, 0, what, 0, 0};
    return acks(link, want, link) & errs(link, want, link);
}

#define MOST ((size_t)-1)
#define ASKS(block, count) ((struct reply){0, 0, 0, GDT_UNDER_WAY, block, count})
#define ENDS(what) ((struct reply){0, 0, 0, what, 0, 0})
#define LINK(...) ((struct gdt_link){__VA_ARGS__})
#define RUNS GDT_UNDER_WAY

static void test_sender(void)
{
    static struct bytes p, two;
    static const size_t begins[] = {1, 2, 256, (size_t)1 << 32, MOST};
    int passed = 1;
    make_set(&p, P);
    report("E3 a set begins on a fresh link", sends(LINK(0, 0, 0, 0, 0, 0), 1, p.of, p.n, ASKS(0, 0), LINK(RUNS, 2, 1, 0, 0, 0)));
    for (size_t i = 0; i < sizeof begins / sizeof *begins; i++) {
        passed &= sends(LINK(0, 0, 0, 0, 0, 0), begins[i], p.of, p.n, ASKS(0, 0), LINK(RUNS, 2, 1, 0, 0, 0));
    }
    report("E3 any number but 0 begins a set", passed);
    report("E3 a set as a reply is an error", sends(LINK(0, 0, 0, 0, 0, 0), 0, p.of, p.n, ENDS(GDT_IDLE), LINK(0, 0, 0, 0, 0, 0))
           & sends(LINK(RUNS, 2, 1, 0, 0, 0), 0, p.of, p.n, ASKS(0, 0), LINK(RUNS, 2, 1, 0, 1, 0)));
    passed = 1;
    for (size_t count = 0; count <= 9; count++) {
        size_t next = count == 9 ? 1 : count + 1;
        passed &= sends(LINK(GDT_DELIVERED, 7, 2, 6, 1, count), 1, p.of, p.n, ASKS(0, next), LINK(RUNS, 2, 1, 0, 0, next));
        passed &= sends(LINK(GDT_GIVEN_UP, 7, 2, 6, 1, count), 1, p.of, p.n, ASKS(0, 0), LINK(RUNS, 2, 1, 0, 0, 0));
        passed &= sends(LINK(RUNS, 7, 2, 6, 1, count), 1, p.of, p.n, ASKS(0, 0), LINK(RUNS, 2, 1, 0, 0, 0));
        passed &= sends(LINK(GDT_IDLE, 7, 2, 6, 1, count), 1, p.of, p.n, ASKS(0, 0), LINK(RUNS, 2, 1, 0, 0, 0));
        passed &= sends(LINK(4, 7, 2, 6, 1, count), 1, p.of, p.n, ASKS(0, 0), LINK(RUNS, 2, 1, 0, 0, 0));
    }
    report("E3f E3g with which count a set begins", passed);
    report("E3o a set begins after a foreign record",
           sends(LINK(GDT_DELIVERED, MOST, MOST, MOST, MOST, 10), 1, p.of, p.n, ASKS(0, 1), LINK(RUNS, 2, 1, 0, 0, 1))
           & sends(LINK(GDT_DELIVERED, 0, 0, 0, 0, MOST), 1, p.of, p.n, ASKS(0, 1), LINK(RUNS, 2, 1, 0, 0, 1))
           & sends(LINK(MOST, MOST, MOST, MOST, MOST, MOST), 1, p.of, p.n, ASKS(0, 0), LINK(RUNS, 2, 1, 0, 0, 0))
           & sends(LINK(RUNS, MOST, MOST, MOST, MOST, MOST), 1, p.of, p.n, ASKS(0, 0), LINK(RUNS, 2, 1, 0, 0, 0)));
    two = p;
    add_text(&two, "xyz8000");
    report("E3h a second set at the beginning",
           sends(LINK(RUNS, 9, 1, 3, 1, 4), 1, two.of, two.n, (struct reply){18, 51, 0, 0, 0, 0}, LINK(RUNS, 9, 1, 3, 1, 4)));
    report("E3h no set at the beginning",
           sends(LINK(GDT_DELIVERED, 9, 1, 8, 1, 4), 1, p.of, 0, (struct reply){1, 0, 0, 0, 0, 0},
                 LINK(GDT_DELIVERED, 9, 1, 8, 1, 4))
           & sends(LINK(MOST, MOST, MOST, MOST, MOST, MOST), 1, ack_1, 2, (struct reply){2, 0, 0, 0, 0, 0},
                   LINK(MOST, MOST, MOST, MOST, MOST, MOST)));
    passed = 1;
    for (size_t count = 0; count <= 9; count++) {
        size_t next = count == 9 ? 1 : count + 1;
        passed &= acks(LINK(RUNS, 3, 1, 0, 0, count), ASKS(1, next), LINK(RUNS, 3, 1, 1, 0, next));
        passed &= acks(LINK(RUNS, 3, 2, 1, 1, count), ASKS(2, next), LINK(RUNS, 3, 2, 2, 0, next));
        passed &= acks(LINK(RUNS, 3, 1, 2, 0, count), ENDS(GDT_DELIVERED), LINK(GDT_DELIVERED, 3, 1, 2, 0, count));
        passed &= acks(LINK(RUNS, 3, 2, 2, 1, count), ENDS(GDT_DELIVERED), LINK(GDT_DELIVERED, 3, 2, 2, 1, count));
        passed &= errs(LINK(RUNS, 3, 1, 0, 0, count), ASKS(0, count), LINK(RUNS, 3, 1, 0, 1, count));
        passed &= errs(LINK(RUNS, 3, 2, 2, 0, count), ASKS(2, count), LINK(RUNS, 3, 2, 2, 1, count));
        passed &= errs(LINK(RUNS, 3, 1, 2, 1, count), ASKS(0, 0), LINK(RUNS, 3, 2, 0, 0, 0));
        passed &= errs(LINK(RUNS, 3, 1, 0, 1, count), ASKS(0, 0), LINK(RUNS, 3, 2, 0, 0, 0));
        passed &= errs(LINK(RUNS, 3, 2, 1, 1, count), ENDS(GDT_GIVEN_UP), LINK(GDT_GIVEN_UP, 3, 2, 1, 1, count));
    }
    report("E3 each row of the sender under way, with each count", passed);
    report("E3 a reply at an end, and with nothing under way", stays(LINK(GDT_DELIVERED, 3, 1, 2, 0, 4), GDT_DELIVERED)
           & stays(LINK(GDT_GIVEN_UP, 3, 2, 1, 1, 4), GDT_GIVEN_UP) & stays(LINK(0, 0, 0, 0, 0, 0), GDT_IDLE)
           & stays(LINK(GDT_IDLE, 3, 1, 1, 1, 4), GDT_IDLE));
    report("E3o a reply in a foreign phase", stays(LINK(4, 3, 1, 1, 0, 4), GDT_IDLE) & stays(LINK(5, 3, 1, 1, 1, 4), GDT_IDLE)
           & stays(LINK(257, 3, 1, 1, 1, 4), GDT_IDLE) & stays(LINK(((size_t)1 << 32) + 1, 3, 1, 1, 1, 4), GDT_IDLE)
           & stays(LINK(MOST, MOST, MOST, MOST, MOST, MOST), GDT_IDLE)
           & stays(LINK(GDT_DELIVERED, MOST, MOST, MOST, MOST, MOST), GDT_DELIVERED)
           & stays(LINK(GDT_GIVEN_UP, 0, 0, MOST, 0, MOST), GDT_GIVEN_UP));
    report("E3o a block that is the last one, whatever the numbers are",
           acks(LINK(RUNS, 0, 1, 0, 0, 4), ENDS(GDT_DELIVERED), LINK(GDT_DELIVERED, 0, 1, 0, 0, 4))
           & acks(LINK(RUNS, 1, 1, 0, 0, 4), ENDS(GDT_DELIVERED), LINK(GDT_DELIVERED, 1, 1, 0, 0, 4))
           & acks(LINK(RUNS, 3, 1, 3, 0, 4), ENDS(GDT_DELIVERED), LINK(GDT_DELIVERED, 3, 1, 3, 0, 4))
           & acks(LINK(RUNS, 0, 1, MOST, 0, 4), ENDS(GDT_DELIVERED), LINK(GDT_DELIVERED, 0, 1, MOST, 0, 4))
           & acks(LINK(RUNS, 3, 1, MOST, 7, 4), ENDS(GDT_DELIVERED), LINK(GDT_DELIVERED, 3, 1, MOST, 7, 4))
           & acks(LINK(RUNS, MOST, 1, MOST, 0, 4), ENDS(GDT_DELIVERED), LINK(GDT_DELIVERED, MOST, 1, MOST, 0, 4))
           & acks(LINK(RUNS, MOST, 0, MOST - 1, 0, 99), ENDS(GDT_DELIVERED), LINK(GDT_DELIVERED, MOST, 0, MOST - 1, 0, 99))
           & acks(LINK(RUNS, MOST, 0, MOST - 2, 0, 4), ASKS(MOST - 1, 5), LINK(RUNS, MOST, 0, MOST - 1, 0, 5)));
    report("E3o counts over 9", acks(LINK(RUNS, 3, 1, 0, 0, 10), ASKS(1, 1), LINK(RUNS, 3, 1, 1, 0, 1))
           & acks(LINK(RUNS, 3, 1, 0, 0, MOST), ASKS(1, 1), LINK(RUNS, 3, 1, 1, 0, 1))
           & errs(LINK(RUNS, 3, 1, 1, 0, 10), ASKS(1, 10), LINK(RUNS, 3, 1, 1, 1, 10))
           & errs(LINK(RUNS, 3, 1, 1, 0, MOST), ASKS(1, MOST), LINK(RUNS, 3, 1, 1, 1, MOST))
           & acks(LINK(RUNS, 3, 1, 2, 0, MOST), ENDS(GDT_DELIVERED), LINK(GDT_DELIVERED, 3, 1, 2, 0, MOST)));
    report("E3o attempts", acks(LINK(RUNS, 3, 0, 0, 1, 4), ASKS(1, 5), LINK(RUNS, 3, 0, 1, 0, 5))
           & errs(LINK(RUNS, 3, 0, 1, 0, 4), ASKS(1, 4), LINK(RUNS, 3, 0, 1, 1, 4))
           & errs(LINK(RUNS, 3, 0, 1, 1, 4), ASKS(0, 0), LINK(RUNS, 3, 2, 0, 0, 0))
           & errs(LINK(RUNS, 3, 3, 1, 1, 4), ENDS(GDT_GIVEN_UP), LINK(GDT_GIVEN_UP, 3, 3, 1, 1, 4))
           & errs(LINK(RUNS, 3, 3, 1, 0, 4), ASKS(1, 4), LINK(RUNS, 3, 3, 1, 1, 4))
           & acks(LINK(RUNS, 3, 3, 1, 1, 4), ASKS(2, 5), LINK(RUNS, 3, 3, 2, 0, 5))
           & errs(LINK(RUNS, 3, MOST, 1, 1, 4), ENDS(GDT_GIVEN_UP), LINK(GDT_GIVEN_UP, 3, MOST, 1, 1, 4)));
    report("E3o errors", errs(LINK(RUNS, 3, 1, 1, 2, 4), ASKS(0, 0), LINK(RUNS, 3, 2, 0, 0, 0))
           & errs(LINK(RUNS, 3, 1, 1, MOST, 4), ASKS(0, 0), LINK(RUNS, 3, 2, 0, 0, 0))
           & errs(LINK(RUNS, 3, 2, 1, MOST, 4), ENDS(GDT_GIVEN_UP), LINK(GDT_GIVEN_UP, 3, 2, 1, MOST, 4))
           & acks(LINK(RUNS, 3, 2, 1, MOST, 4), ASKS(2, 5), LINK(RUNS, 3, 2, 2, 0, 5))
           & errs(LINK(RUNS, 0, 1, MOST, 0, 4), ASKS(MOST, 4), LINK(RUNS, 0, 1, MOST, 1, 4))
           & errs(LINK(RUNS, MOST, 1, MOST, 1, MOST), ASKS(0, 0), LINK(RUNS, MOST, 2, 0, 0, 0)));
}

/* The most replies after which the link is at an end, whatever they are; MOST if it may not be after four times its blocks. */
static size_t longest_run(struct gdt_link link, size_t replies)
{
    size_t most = 0;
    if (link.phase != GDT_UNDER_WAY) {
        return replies;
    }
    if (replies == 4 * link.blocks) {
        return MOST;
    }
    for (int i = 0; i < 2; i++) {
        struct gdt_link next = link;
        size_t run;
        gdt_send(&next, GDT_REPLY, (const uint8_t *)(i == 0 ? ack_1 : ack_0), 2);
        run = longest_run(next, replies + 1);
        most = run > most ? run : most;
    }
    return most;
}

static void test_bound(void)
{
    int passed = 1;
    for (size_t n = 2; n <= 5; n++) {
        passed &= longest_run(LINK(RUNS, n, 1, 0, 0, 0), 0) == 4 * n;
    }
    report("E3 a set of two to five blocks is at an end after at most 4n replies, and after no less", passed);
}

#define RECEIVER(...) ((struct gdt_receiver){__VA_ARGS__})
#define TAKEN ((struct reply){0, 0, 0, GDT_TAKEN, 1, 0})
#define AGAIN ((struct reply){0, 0, 0, GDT_AGAIN, 1, 0})
#define WHOLE ((struct reply){0, 0, 0, GDT_WHOLE, 1, 0})
#define BAD_BLOCK ((struct reply){25, 0, 0, 0, 0, 0})
#define BAD_CRC ((struct reply){26, 0, 0, 0, 0, 0})
#define NO_ROOM(need) ((struct reply){22, need, 0, 0, 0, 0})

/* A block of text that is not taken, or acknowledged again: record and buffer stay, whatever room there is. */
static int leaves(struct gdt_receiver from, const char *text, struct reply want)
{
    static struct bytes block, buffer;
    int passed;
    make_block(&block, text);
    buffer.n = 0;
    passed = receives(from, &buffer, &block, want, from, &buffer);
    add(&buffer, noise(300), 300);
    return passed & receives(from, &buffer, &block, want, from, &buffer);
}

/* A block of text that is taken: its bytes `more` come after the first `start` bytes of the buffer, in all rooms from just enough
   on; in any less it is refused by 22. */
static int takes(struct gdt_receiver from, const char *text, size_t start, const char *more, struct reply want,
                 struct gdt_receiver to)
{
    static struct bytes block, buffer, made;
    size_t need = start + strlen(more);
    int passed = to.used == need;
    make_block(&block, text);
    for (size_t room = 0; room < need + 20; room++) {
        buffer.n = 0;
        add(&buffer, noise(room), room);
        if (room < need) {
            passed &= receives(from, &buffer, &block, NO_ROOM(need), from, &buffer);
            continue;
        }
        made.n = 0;
        add(&made, buffer.of, start);
        add_text(&made, more);
        pad(&made, room);
        passed &= receives(from, &buffer, &block, want, to, &made);
    }
    return passed;
}

/* The need of a block after the used bytes that a foreign record tells of, in a buffer of 300 bytes and in one of none. */
static const struct used_case {
    size_t used;
    const char *block;
    size_t need;
} used_cases[] = {
    {301, "4B01", 301}, {301, "4B02", 303}, {300, "4B01x", 301}, {299, "4B01|", 301}, {299, "4B02", 301}, {400, "4B01x|", 403},
    {(size_t)1 << 63, "4B01x", ((size_t)1 << 63) + 1}, {MOST - 6, "4B02x|", MOST - 1}, {MOST - 5, "4B02x|", MOST},
    {MOST - 4, "4B02x|", MOST}, {MOST - 2, "4B01x", MOST - 1}, {MOST - 2, "4B01|", MOST}, {MOST - 2, "4B01x|", MOST},
    {MOST - 2, "4B02", MOST}, {MOST - 1, "4B01", MOST - 1}, {MOST - 1, "4B01x", MOST}, {MOST - 1, "4B01xyz", MOST},
    {MOST - 1, "4B02", MOST}, {MOST, "4B01", MOST}, {MOST, "4B01x", MOST}, {MOST, "4B02", MOST},
};

static void test_receiver(void)
{
    static const char *const labels[] = {"B00", "B01", "B02"};
    int passed = 1;
    report("E3k 0B00 starts a set", takes(RECEIVER(0, 0, 0, 0), "0B00ab|c|", 0, "ab\r\nc\r\n", TAKEN, RECEIVER(1, 0, 1, 7))
           & takes(RECEIVER(1, 0, 1, 7), "0B00ab|c|", 0, "ab\r\nc\r\n", TAKEN, RECEIVER(1, 0, 1, 7))
           & takes(RECEIVER(1, 5, 1, 99), "0B00x", 0, "x", TAKEN, RECEIVER(1, 0, 1, 1))
           & takes(RECEIVER(1, 5, 0, 99), "0B00x", 0, "x", TAKEN, RECEIVER(1, 0, 1, 1))
           & takes(RECEIVER(MOST, MOST, MOST, MOST), "0B00x|", 0, "x\r\n", TAKEN, RECEIVER(1, 0, 1, 3))
           & takes(RECEIVER(0, MOST, 0, MOST), "0B00x|", 0, "x\r\n", TAKEN, RECEIVER(1, 0, 1, 3)));
    report("E3 count 0 with another label", leaves(RECEIVER(0, 0, 0, 0), "0B01x", BAD_BLOCK)
           & leaves(RECEIVER(0, 0, 0, 0), "0B02x", BAD_BLOCK) & leaves(RECEIVER(1, 0, 1, 7), "0B01x", BAD_BLOCK)
           & leaves(RECEIVER(1, 0, 1, 7), "0B02x", BAD_BLOCK) & leaves(RECEIVER(1, 9, 1, 7), "0B01x", BAD_BLOCK)
           & leaves(RECEIVER(1, 9, 1, 7), "0B02x", BAD_BLOCK) & leaves(RECEIVER(1, 0, 0, 7), "0B01x", BAD_BLOCK)
           & leaves(RECEIVER(2, MOST, 2, MOST), "0B02x", BAD_BLOCK));
    for (size_t last = 0; last <= 11; last++) {
        size_t next = last >= 9 ? 1 : last + 1;
        for (size_t count = 0; count <= 9; count++) {
            for (size_t label = 0; label < 3; label++) {
                for (size_t open = 0; open <= 2; open++) {
                    char text[12];
                    snprintf(text, sizeof text, "%zu%sab|", count, labels[label]);
                    if (count == 0 && label == 0) {
                        passed &= takes(RECEIVER(1, last, open, 3), text, 0, "ab\r\n", TAKEN, RECEIVER(1, 0, 1, 4));
                    } else if (count == last && count != 0) {
                        passed &= leaves(RECEIVER(1, last, open, 3), text, AGAIN);
                    } else if (count == next && open != 0 && label == 1) {
                        passed &= takes(RECEIVER(1, last, open, 3), text, 3, "ab\r\n", TAKEN, RECEIVER(1, count, 1, 7));
                    } else if (count == next && open != 0 && label == 2) {
                        passed &= takes(RECEIVER(7, last, open, 3), text, 3, "ab\r\n\r\n", WHOLE, RECEIVER(1, count, 0, 9));
                    } else if (count == next && open == 0 && label == 0) {
                        passed &= takes(RECEIVER(MOST, last, open, 3), text, 0, "ab\r\n", TAKEN, RECEIVER(1, count, 1, 4));
                    } else {
                        passed &= leaves(RECEIVER(1, last, open, 3), text, BAD_BLOCK);
                    }
                }
            }
        }
    }
    report("E3 each row of the receiver, with each last count, count and label", passed);
    passed = 1;
    for (size_t count = 1; count <= 9; count++) {
        for (size_t label = 0; label < 3; label++) {
            char text[12];
            snprintf(text, sizeof text, "%zu%sx", count, labels[label]);
            passed &= leaves(RECEIVER(0, 0, 0, 0), text, BAD_BLOCK) & leaves(RECEIVER(0, count, 1, 3), text, BAD_BLOCK)
                & leaves(RECEIVER(0, count - 1, 1, 3), text, BAD_BLOCK) & leaves(RECEIVER(0, count - 1, 0, 3), text, BAD_BLOCK)
                & leaves(RECEIVER(0, MOST, MOST, MOST), text, BAD_BLOCK);
        }
    }
    report("E3j a fresh receiver takes 0 alone", passed);
    passed = 1;
    report("E3l the last count again, another label and other data", leaves(RECEIVER(1, 3, 0, 7), "3B02x", AGAIN)
           & leaves(RECEIVER(1, 3, 0, 7), "3B00", AGAIN) & leaves(RECEIVER(1, 3, 1, MOST), "3B01yz|", AGAIN)
           & leaves(RECEIVER(MOST, 3, MOST, MOST), "3B00yz|", AGAIN));
    report("E3o a last count over 9", leaves(RECEIVER(1, 10, 1, 3), "9B01x", BAD_BLOCK)
           & takes(RECEIVER(1, 10, 1, 3), "1B01x", 3, "x", TAKEN, RECEIVER(1, 1, 1, 4))
           & takes(RECEIVER(1, MOST, 1, 3), "1B02x", 3, "x\r\n", WHOLE, RECEIVER(1, 1, 0, 6))
           & takes(RECEIVER(1, MOST, 0, MOST), "1B00x", 0, "x", TAKEN, RECEIVER(1, 1, 1, 1))
           & leaves(RECEIVER(1, MOST, 0, 3), "2B00x", BAD_BLOCK) & leaves(RECEIVER(1, 256 + 3, 1, 3), "3B01x", BAD_BLOCK)
           & leaves(RECEIVER(1, 256 + 3, 1, 3), "4B01x", BAD_BLOCK));
    for (size_t i = 0; i < sizeof used_cases / sizeof *used_cases; i++) {
        const struct used_case *c = &used_cases[i];
        passed &= leaves(RECEIVER(1, 3, 1, c->used), c->block, NO_ROOM(c->need));
    }
    report("E3m the used length of a foreign record", passed);
    report("E3d blocks without data", takes(RECEIVER(0, 0, 0, 0), "0B00", 0, "", TAKEN, RECEIVER(1, 0, 1, 0))
           & takes(RECEIVER(1, 0, 1, 5), "1B01", 5, "", TAKEN, RECEIVER(1, 1, 1, 5))
           & takes(RECEIVER(1, 0, 1, 5), "1B02", 5, "\r\n", WHOLE, RECEIVER(1, 1, 0, 7)));
    report("E3a 1Ch alone, first and last", takes(RECEIVER(0, 0, 0, 0), "0B00|", 0, "\r\n", TAKEN, RECEIVER(1, 0, 1, 2))
           & takes(RECEIVER(1, 0, 1, 5), "1B01|x||", 5, "\r\nx\r\n\r\n", TAKEN, RECEIVER(1, 1, 1, 12))
           & takes(RECEIVER(1, 0, 1, 5), "1B02|x|", 5, "\r\nx\r\n\r\n", WHOLE, RECEIVER(1, 1, 0, 12)));
}

/* Bytes that are given as a block as they stand: refused by the number, nothing changed. */
static int is_refused(const struct bytes *block, struct reply want)
{
    static struct bytes buffer;
    const struct gdt_receiver open = {1, 3, 1, 7}, fresh = {0, 0, 0, 0}, foreign = {MOST, 4, MOST, MOST};
    int passed;
    buffer.n = 0;
    passed = receives(fresh, &buffer, block, want, fresh, &buffer);
    add(&buffer, noise(60), 60);
    return passed & receives(open, &buffer, block, want, open, &buffer) & receives(foreign, &buffer, block, want, foreign, &buffer);
}

static int text_refused(const char *text, size_t n, struct reply want)
{
    static struct bytes block;
    block.n = 0;
    add(&block, text, n);
    return is_refused(&block, want);
}

/* A block with one byte more, less or another one; its CRC is made anew if that is asked. */
static int damaged(const char *text, size_t at, size_t cut, const char *more, int anew, struct reply want)
{
    static struct bytes whole, other;
    make_block(&whole, text);
    other.n = 0;
    add(&other, whole.of, at);
    add_text(&other, more);
    add(&other, whole.of + at + cut, whole.n - at - cut);
    if (anew) {
        other.n -= 5;
        add_crc(&other, rest_of(other.of, other.n));
    }
    return is_refused(&other, want);
}

static void test_form(void)
{
    static struct bytes block, other;
    char text[160] = "4B01", ends[2 * 128 + 1];
    int passed = 1;
    report("E3d no bytes, and up to eight", text_refused("", 0, BAD_BLOCK) & text_refused("\r", 1, BAD_BLOCK)
           & text_refused("4", 1, BAD_BLOCK) & text_refused("4B01", 4, BAD_BLOCK) & text_refused("4B01\r", 5, BAD_BLOCK)
           & text_refused("4B01000\r", 8, BAD_BLOCK) & text_refused("0B006582", 8, BAD_BLOCK)
           & text_refused("B006582\r", 8, BAD_BLOCK));
    make_block(&block, "4B010133101M\x81ller|0103");
    for (size_t n = 0; n < block.n; n++) {
        other.n = 0;
        add(&other, block.of, n);
        passed &= is_refused(&other, BAD_BLOCK);
    }
    report("E3d a block that is cut anywhere", passed);
    memset(text + 4, 'x', 130);
    text[4 + 128] = 0;
    passed = takes(RECEIVER(1, 3, 1, 7), text, 7, text + 4, TAKEN, RECEIVER(1, 4, 1, 135));
    for (size_t i = 0; i < 128; i++) {
        text[4 + i] = '|';
        memcpy(ends + 2 * i, "\r\n", 3);
    }
    make_block(&block, text);
    report("E3d a block of 137 bytes", passed & (block.n == GDT_BLOCK)
           & takes(RECEIVER(1, 3, 1, 7), text, 7, ends, TAKEN, RECEIVER(1, 4, 1, 7 + 256)));
    memcpy(text + 4 + 128, "x", 2);
    passed = leaves(RECEIVER(1, 3, 1, 0), text, BAD_BLOCK);
    memcpy(text + 4 + 129, "|", 2);
    report("E3d a block of 138 bytes and more", passed & leaves(RECEIVER(1, 3, 1, 0), text, BAD_BLOCK));
    passed = 1;
    for (unsigned byte = 1; byte <= 0xFF; byte++) {
        const char more[] = {(char)byte, 0};
        int digit = byte >= '0' && byte <= '9', upper = byte >= 'A' && byte <= 'F';
        if (!digit) {
            passed &= damaged("4B01ab", 0, 1, more, 1, BAD_BLOCK);
        }
        if (byte != 'B') {
            passed &= damaged("4B01ab", 1, 1, more, 1, BAD_BLOCK);
        }
        if (byte != '0') {
            passed &= damaged("4B01ab", 2, 1, more, 1, BAD_BLOCK);
        }
        if (byte < '0' || byte > '2') {
            passed &= damaged("4B01ab", 3, 1, more, 1, BAD_BLOCK);
        }
        make_block(&block, "4B01ab");
        for (size_t at = 4; at < 6; at++) {
            int data = byte >= 0x20 || byte == 0x1C;
            passed &= byte == block.of[at] || damaged("4B01ab", at, 1, more, 0, data ? BAD_CRC : BAD_BLOCK);
            passed &= data || damaged("4B01ab", at, 1, more, 1, BAD_BLOCK);
        }
        for (size_t at = 6; at < 10; at++) {
            passed &= byte == block.of[at] || damaged("4B01ab", at, 1, more, 0, digit || upper ? BAD_CRC : BAD_BLOCK);
        }
        passed &= byte == '\r' || damaged("4B01ab", 10, 1, more, 0, BAD_BLOCK);
    }
    report("E3d every byte at every place of a block", passed);
    report("E3d a byte 00h", text_refused("4B01\0" "0000\r", 10, BAD_BLOCK) & text_refused("\0B01" "0000\r", 9, BAD_BLOCK));
    report("E3c lower-case digits", text_refused("0B00" "f184\r", 9, BAD_BLOCK) & text_refused("1B00" "f181\r", 9, BAD_BLOCK)
           & text_refused("1B02" "718e\r", 9, BAD_BLOCK) & text_refused("1B02" "718g\r", 9, BAD_BLOCK)
           & text_refused("1B02" "718G\r", 9, BAD_BLOCK) & text_refused("1B02" "718@\r", 9, BAD_BLOCK)
           & text_refused("1B02" "718:\r", 9, BAD_BLOCK) & text_refused("1B02" "718/\r", 9, BAD_BLOCK));
    report("E3d the order: form, CRC, turn", text_refused("0B02" "0000\r", 9, BAD_CRC) & text_refused("7B00" "0000\r", 9, BAD_CRC)
           & text_refused("7B03" "0000\r", 9, BAD_BLOCK) & text_refused("7B00" "000a\r", 9, BAD_BLOCK)
           & text_refused("7B00" "0000\n", 9, BAD_BLOCK) & text_refused("0B00" "6583\r", 9, BAD_CRC));
    report("E3c the CRC of another way", text_refused("0B00" "8265\r", 9, BAD_CRC) & text_refused("1B00" "81F1\r", 9, BAD_CRC));
    passed = 1;
    make_block(&block, "4B010133101M\x81ller|0103");
    for (size_t at = 0; at < block.n; at++) {
        for (unsigned bit = 0; bit < 8; bit++) {
            struct gdt_received got;
            uint8_t buffer[60];
            other = block;
            other.of[at] ^= (uint8_t)(1u << bit);
            got = gdt_receive(RECEIVER(1, 3, 1, 7), buffer, sizeof buffer, other.of, other.n);
            passed &= got.no == GDT_BAD_BLOCK || got.no == GDT_BAD_CRC;
            passed &= is_refused(&other, (struct reply){got.no, 0, 0, 0, 0, 0});
        }
    }
    report("E3 every flipped bit of a block is seen", passed);
}

/* The blocks of appendix A, with the record that they come to, and the CRC that they have. */
static const struct sample {
    const char *block, *crc;
    struct gdt_receiver from;
    const char *more;
    size_t what;
    struct gdt_receiver to;
} samples[] = {
    {"1B0001380006300|014810000075|0178315QMS-STAR|017", "1DEB", {1, 9, 0, 77},
     "01380006300\r\n014810000075\r\n0178315QMS-STAR\r\n017", GDT_TAKEN, {1, 1, 1, 47}},
    {"2B028316ROP200U1|014921801.00", "D0DD", {1, 1, 1, 47}, "8316ROP200U1\r\n014921801.00\r\n", GDT_WHOLE, {1, 2, 0, 75}},
    {"7B0001380006301|014810000142|", "D834", {1, 6, 0, 75}, "01380006301\r\n014810000142\r\n", GDT_TAKEN, {1, 7, 1, 27}},
    {"8B010178315ROP200U1|0178316QMS-STAR|01492180", "7976", {1, 7, 1, 27}, "0178315ROP200U1\r\n0178316QMS-STAR\r\n01492180",
     GDT_TAKEN, {1, 8, 1, 69}},
    {"9B011.00|014300010027|0123101Axt|0143102Berta", "2CA9", {1, 8, 1, 69}, "1.00\r\n014300010027\r\n0123101Axt\r\n0143102Berta",
     GDT_TAKEN, {1, 9, 1, 113}},
    {"1B02|017310331121937|01031102", "56E8", {1, 9, 1, 113}, "\r\n017310331121937\r\n01031102\r\n", GDT_WHOLE, {1, 1, 0, 142}},
    {"0B0001380006300|014810000075|0178315QMS-STAR|017", "F184", {1, 2, 1, 47},
     "01380006300\r\n014810000075\r\n0178315QMS-STAR\r\n017", GDT_TAKEN, {1, 0, 1, 47}},
    {"1B028316ROP200U1|014921801.00", "D0D4", {1, 0, 1, 47}, "8316ROP200U1\r\n014921801.00\r\n", GDT_WHOLE, {1, 1, 0, 75}},
    {"1B0001380006300|014810000075|0178315MEDISTAR|017", "5EAA", {1, 9, 0, 75},
     "01380006300\r\n014810000075\r\n0178315MEDISTAR\r\n017", GDT_TAKEN, {1, 1, 1, 47}},
    {"0B0001380006301|014810000141|", "D221", {0, 0, 0, 0}, "01380006301\r\n014810000141\r\n", GDT_TAKEN, {1, 0, 1, 27}},
};

static void test_samples(void)
{
    static struct bytes block;
    char name[80];
    for (size_t i = 0; i < sizeof samples / sizeof *samples; i++) {
        const struct sample *s = &samples[i];
        const struct reply want = {0, 0, 0, s->what, 1, 0};
        size_t start = s->block[3] == '0' ? 0 : s->from.used;
        make_block(&block, s->block);
        snprintf(name, sizeof name, "the sample %.4s.. with CRC %s", s->block, s->crc);
        report(name, (memcmp(block.of + block.n - 5, s->crc, 4) == 0) & takes(s->from, s->block, start, s->more, want, s->to));
    }
}

/* One exchange of a set: 0 the reply is heard, 1 it is lost, 2 the block is lost, 3 the block comes damaged. Answers whether every
   transfer from here on that ends with GDT_DELIVERED leaves the set in the buffer, and none goes on for too long. */
static int delivers(const struct bytes *set, struct gdt_link link, struct gdt_receiver receiver, const uint8_t *buffer,
                    size_t exchanges, size_t *ends)
{
    uint8_t block[GDT_BLOCK], after[80];
    struct gdt_made made;
    int passed = 1;
    if (link.phase != GDT_UNDER_WAY) {
        ends[link.phase]++;
        return link.phase == GDT_GIVEN_UP
            || (receiver.open == 0 && receiver.used == set->n && memcmp(buffer, set->of, set->n) == 0);
    }
    if (exchanges == 4 * link.blocks) {
        return 0;
    }
    made = gdt_block(set->of, set->n, link.block, link.count, block);
    for (int way = 0; way < 4; way++) {
        struct gdt_link next = link;
        struct gdt_received got = {0, 0, 0, 0, receiver, 0};
        uint8_t reply[2] = {GDT_ACK, 0};
        memcpy(after, buffer, sizeof after);
        if (way < 2) {
            got = gdt_receive(receiver, after, sizeof after, block, made.count);
            passed &= got.no == 0 && got.ack == 1;
        } else if (way == 3) {
            block[made.count / 2] ^= 2;
            got = gdt_receive(receiver, after, sizeof after, block, made.count);
            block[made.count / 2] ^= 2;
            passed &= got.no != 0 && got.ack == 0;
        }
        reply[1] = (uint8_t)('0' + got.ack);
        gdt_send(&next, GDT_REPLY, reply, way == 0 || way == 3 ? 2 : 0);
        passed &= delivers(set, next, got.receiver, after, exchanges + 1, ends);
    }
    return passed;
}

static void test_transfer(void)
{
    static struct bytes set;
    static const struct gdt_receiver receivers[] = {{1, 0, 0, 0}, {1, 4, 0, 51}, {1, 9, 0, 3}};
    uint8_t buffer[80] = {0};
    size_t ends[4] = {0, 0, 0, 0};
    int passed = 1;
    make_set(&set, P);
    for (size_t i = 0; i < sizeof receivers / sizeof *receivers; i++) {
        size_t next = receivers[i].last == 9 ? 1 : receivers[i].last + 1;
        passed &= delivers(&set, LINK(RUNS, 2, 1, 0, 0, next), receivers[i], buffer, 0, ends);
    }
    passed &= delivers(&set, LINK(RUNS, 2, 1, 0, 0, 0), RECEIVER(0, 0, 0, 0), buffer, 0, ends);
    passed &= delivers(&set, LINK(RUNS, 2, 1, 0, 0, 0), RECEIVER(1, 1, 1, 9), buffer, 0, ends);
    report("E3 what is delivered is there, in all ways to lose or to damage the exchanges of P",
           passed & (ends[GDT_DELIVERED] > 1000) & (ends[GDT_GIVEN_UP] > 1000));
}

/* ---- Code pages ------------------------------------------------------------------------------------------------------------ */

/* The Unicode numbers of the bytes 80h to FFh, from CP437.TXT and CP1252.TXT; 0 for a byte that is no character. */
static const unsigned unicode_437[128] = {
    /* 80h */ 0x00C7, 0x00FC, 0x00E9, 0x00E2, 0x00E4, 0x00E0, 0x00E5, 0x00E7, 0x00EA, 0x00EB, 0x00E8, 0x00EF, 0x00EE, 0x00EC, 0x00C4, 0x00C5,
    /* 90h */ 0x00C9, 0x00E6, 0x00C6, 0x00F4, 0x00F6, 0x00F2, 0x00FB, 0x00F9, 0x00FF, 0x00D6, 0x00DC, 0x00A2, 0x00A3, 0x00A5, 0x20A7, 0x0192,
    /* A0h */ 0x00E1, 0x00ED, 0x00F3, 0x00FA, 0x00F1, 0x00D1, 0x00AA, 0x00BA, 0x00BF, 0x2310, 0x00AC, 0x00BD, 0x00BC, 0x00A1, 0x00AB, 0x00BB,
    /* B0h */ 0x2591, 0x2592, 0x2593, 0x2502, 0x2524, 0x2561, 0x2562, 0x2556, 0x2555, 0x2563, 0x2551, 0x2557, 0x255D, 0x255C, 0x255B, 0x2510,
    /* C0h */ 0x2514, 0x2534, 0x252C, 0x251C, 0x2500, 0x253C, 0x255E, 0x255F, 0x255A, 0x2554, 0x2569, 0x2566, 0x2560, 0x2550, 0x256C, 0x2567,
    /* D0h */ 0x2568, 0x2564, 0x2565, 0x2559, 0x2558, 0x2552, 0x2553, 0x256B, 0x256A, 0x2518, 0x250C, 0x2588, 0x2584, 0x258C, 0x2590, 0x2580,
    /* E0h */ 0x03B1, 0x00DF, 0x0393, 0x03C0, 0x03A3, 0x03C3, 0x00B5, 0x03C4, 0x03A6, 0x0398, 0x03A9, 0x03B4, 0x221E, 0x03C6, 0x03B5, 0x2229,
    /* F0h */ 0x2261, 0x00B1, 0x2265, 0x2264, 0x2320, 0x2321, 0x00F7, 0x2248, 0x00B0, 0x2219, 0x00B7, 0x221A, 0x207F, 0x00B2, 0x25A0, 0x00A0,
};

static const unsigned unicode_1252[128] = {
    /* 80h */ 0x20AC,      0, 0x201A, 0x0192, 0x201E, 0x2026, 0x2020, 0x2021, 0x02C6, 0x2030, 0x0160, 0x2039, 0x0152,      0, 0x017D,      0,
    /* 90h */      0, 0x2018, 0x2019, 0x201C, 0x201D, 0x2022, 0x2013, 0x2014, 0x02DC, 0x2122, 0x0161, 0x203A, 0x0153,      0, 0x017E, 0x0178,
    /* A0h */ 0x00A0, 0x00A1, 0x00A2, 0x00A3, 0x00A4, 0x00A5, 0x00A6, 0x00A7, 0x00A8, 0x00A9, 0x00AA, 0x00AB, 0x00AC, 0x00AD, 0x00AE, 0x00AF,
    /* B0h */ 0x00B0, 0x00B1, 0x00B2, 0x00B3, 0x00B4, 0x00B5, 0x00B6, 0x00B7, 0x00B8, 0x00B9, 0x00BA, 0x00BB, 0x00BC, 0x00BD, 0x00BE, 0x00BF,
    /* C0h */ 0x00C0, 0x00C1, 0x00C2, 0x00C3, 0x00C4, 0x00C5, 0x00C6, 0x00C7, 0x00C8, 0x00C9, 0x00CA, 0x00CB, 0x00CC, 0x00CD, 0x00CE, 0x00CF,
    /* D0h */ 0x00D0, 0x00D1, 0x00D2, 0x00D3, 0x00D4, 0x00D5, 0x00D6, 0x00D7, 0x00D8, 0x00D9, 0x00DA, 0x00DB, 0x00DC, 0x00DD, 0x00DE, 0x00DF,
    /* E0h */ 0x00E0, 0x00E1, 0x00E2, 0x00E3, 0x00E4, 0x00E5, 0x00E6, 0x00E7, 0x00E8, 0x00E9, 0x00EA, 0x00EB, 0x00EC, 0x00ED, 0x00EE, 0x00EF,
    /* F0h */ 0x00F0, 0x00F1, 0x00F2, 0x00F3, 0x00F4, 0x00F5, 0x00F6, 0x00F7, 0x00F8, 0x00F9, 0x00FA, 0x00FB, 0x00FC, 0x00FD, 0x00FE, 0x00FF,
};

/* The byte of the other code page that has the same character, 0 for none. */
static unsigned same_character(const unsigned *from, const unsigned *to, unsigned byte)
{
    if (byte < 0x80) {
        return byte;
    }
    for (unsigned other = 0; other < 128; other++) {
        if (from[byte - 0x80] != 0 && to[other] == from[byte - 0x80]) {
            return 0x80 + other;
        }
    }
    return 0;
}

/* The contents of this set that may have any bytes: the first of all, an inner one, the last one; a byte of each. */
enum { CONTENTS = 3 };

/* Makes the set, with 9206 as line 3 if it has one, and these three bytes; answers the places of the three. */
static const size_t *make_triple(struct bytes *set, const char *charset, const uint8_t *three)
{
    static size_t places[CONTENTS];
    char lines[200];
    snprintf(lines, sizeof lines, "80006310|8100?????|%s3000.|921802.10|8402EKG01|6228-.-|6220---.", charset);
    make_set(set, lines);
    for (size_t at = 0, found = 0; found < CONTENTS; at++) {
        if (set->of[at] == '.' && set->of[at - 1] != '2') { /* the one of 02.10 is none of them */
            set->of[at] = three[found];
            places[found++] = at;
        }
    }
    return places;
}

/* A byte of one code page in each of the three contents: it becomes that of the other, or is refused by 27 where it stands. */
static int byte_recodes(recoder *recode, const char *charset, const char *named, unsigned byte, unsigned other)
{
    static struct bytes from, to;
    int passed = 1;
    for (size_t i = 0; i < CONTENTS; i++) {
        uint8_t three[CONTENTS] = {'a', 'b', 'c'};
        struct reply want = {0, 0, 0, 0, 0, 0};
        three[i] = (uint8_t)other;
        make_triple(&to, named, three);
        three[i] = (uint8_t)byte;
        if (other == 0) {
            want.no = 27;
            want.place = make_triple(&from, charset, three)[i];
        } else {
            make_triple(&from, charset, three);
            want.a = to.n;
        }
        passed &= recodes(recode, &from, from.n + 20, from.n, want, &to);
    }
    return passed;
}

static void test_code_pages(void)
{
    static struct bytes from, to;
    int into_1252 = 1, into_437 = 1, back = 1, stays = 1, undefined = 1;
    size_t both = 0, in_437 = 0, in_1252 = 0;
    for (unsigned byte = 0x20; byte <= 0xFF; byte++) {
        unsigned ansi = same_character(unicode_437, unicode_1252, byte), dos = same_character(unicode_1252, unicode_437, byte);
        into_1252 &= byte_recodes(gdt_to_1252, "", "92063|", byte, ansi) & byte_recodes(gdt_to_1252, "92062|", "92063|", byte, ansi);
        into_437 &= byte_recodes(gdt_to_437, "92063|", "92062|", byte, dos);
        back &= (ansi == 0 || same_character(unicode_1252, unicode_437, ansi) == byte)
            && (dos == 0 || same_character(unicode_437, unicode_1252, dos) == byte);
        for (int way = 0; way < 3; way++) {
            const uint8_t three[CONTENTS] = {(uint8_t)byte, (uint8_t)byte, (uint8_t)byte};
            make_triple(&from, way == 0 ? "" : way == 1 ? "92062|" : "92063|", three);
            stays &= recodes(way < 2 ? gdt_to_437 : gdt_to_1252, &from, from.n + 9, from.n, (struct reply){0, 0, 0, from.n, 0, 0}, &from);
        }
        both += byte >= 0x80 && ansi != 0;
        in_437 += byte >= 0x80 && unicode_437[byte - 0x80] != 0;
        in_1252 += byte >= 0x80 && unicode_1252[byte - 0x80] != 0;
    }
    report("E5 every byte of 437 into 1252, with 9206 and without, in three lines", into_1252);
    report("E5 every byte of 1252 into 437, in three lines", into_437);
    report("E5 each undoes the other wherever both are defined", back & (both == 54) & (in_437 == 128) & (in_1252 == 123));
    report("E5c every byte stays in a set that is in the wanted code", stays);
    for (const char *byte = "\x81\x8D\x8F\x90\x9D"; *byte != 0; byte++) {
        undefined &= byte_recodes(gdt_to_437, "92063|", "92062|", (unsigned char)*byte, 0);
    }
    report("E5 81h, 8Dh, 8Fh, 90h and 9Dh of 1252 are no characters", undefined);
    make_set(&from, "80006310|8100?????|3000\x81|921802.10|8402\x84\xE1|6228\x8E\x99\x9A\x84\x94\x81\xE1\xE6\xF8\x9F");
    make_set(&to, "80006310|8100?????|92063|3000\xFC|921802.10|8402\xE4\xDF|6228\xC4\xD6\xDC\xE4\xF6\xFC\xDF\xB5\xB0\x83");
    report("E5 umlauts, sharp s, micro, degree and 9Fh into 1252",
           recodes(gdt_to_1252, &from, from.n + 10, from.n, (struct reply){0, 0, 0, to.n, 0, 0}, &to));
    make_set(&from, "80006310|8100?????|92062|3000\x81|921802.10|8402\x84\xE1|6228\x8E\x99\x9A\x84\x94\x81\xE1\xE6\xF8\x9F");
    report("E5 and back; the line stays",
           recodes(gdt_to_437, &to, to.n, to.n, (struct reply){0, 0, 0, from.n, 0, 0}, &from));
}

/* A set, what it becomes, and the refusal or 0; in a buffer with room for `spare` bytes more. */
static const struct recode_case {
    const char *name;
    recoder *recode;
    const char *from, *to;
    size_t spare;
    struct reply want;
} recode_cases[] = {
    {"no 9206, into 437", gdt_to_437, P, P, 0, {0, 0, 0, 51, 0, 0}},
    {"no 9206, into 437, noise after it", gdt_to_437, P, P, 30, {0, 0, 0, 51, 0, 0}},
    {"no 9206, into 437, characters that 1252 has not", gdt_to_437, "80006300|8100?????|921802.10|3000\xB0\xFB",
     "80006300|8100?????|921802.10|3000\xB0\xFB", 30, {0, 0, 0, 52, 0, 0}},
    {"no 9206, into 1252", gdt_to_1252, P, "80006300|8100?????|92063|921802.10|30000", 10, {0, 0, 0, 61, 0, 0}},
    {"no 9206, into 1252, noise after it", gdt_to_1252, P, "80006300|8100?????|92063|921802.10|30000", 30, {0, 0, 0, 61, 0, 0}},
    {"9206 = 1, into 437", gdt_to_437, P7, "80006300|8100?????|92062|921802.10|30000", 0, {0, 0, 0, 61, 0, 0}},
    {"9206 = 1, into 437, noise after it", gdt_to_437, P7, "80006300|8100?????|92062|921802.10|30000", 30, {0, 0, 0, 61, 0, 0}},
    {"9206 = 1, into 1252", gdt_to_1252, P7, "80006300|8100?????|92063|921802.10|30000", 0, {0, 0, 0, 61, 0, 0}},
    {"9206 = 1, into 1252, noise after it", gdt_to_1252, P7, "80006300|8100?????|92063|921802.10|30000", 1, {0, 0, 0, 61, 0, 0}},
    {"9206 = 2, into 437", gdt_to_437, "80006300|8100?????|921802.10|3000\xB0|92062",
     "80006300|8100?????|921802.10|3000\xB0|92062", 7, {0, 0, 0, 61, 0, 0}},
    {"9206 = 2, into 1252", gdt_to_1252, "80006300|8100?????|921802.10|3000\x84|92062",
     "80006300|8100?????|921802.10|3000\xE4|92063", 7, {0, 0, 0, 61, 0, 0}},
    {"9206 = 3, into 437", gdt_to_437, "80006300|8100?????|921802.10|3000\xE4|92063",
     "80006300|8100?????|921802.10|3000\x84|92062", 7, {0, 0, 0, 61, 0, 0}},
    {"9206 = 3, into 1252", gdt_to_1252, "80006300|8100?????|921802.10|3000\x81|92063",
     "80006300|8100?????|921802.10|3000\x81|92063", 7, {0, 0, 0, 61, 0, 0}},
    {"9206 = 2, no room is needed", gdt_to_1252, "80006300|8100?????|92062|921802.10|3000\x81",
     "80006300|8100?????|92063|921802.10|3000\xFC", 0, {0, 0, 0, 61, 0, 0}},
    {"a content that reads as 9206", gdt_to_1252, "80006300|8100?????|921802.10|300001092061",
     "80006300|8100?????|92063|921802.10|300001092061", 10, {0, 0, 0, 68, 0, 0}},
    {"9206 after such a content", gdt_to_437, "80006300|8100?????|921802.10|300001092062|92063",
     "80006300|8100?????|921802.10|300001092062|92062", 10, {0, 0, 0, 68, 0, 0}},
    {"22, the need is the new length", gdt_to_1252, P, "", 9, {22, 61, 0, 0, 0, 0}},
    {"22 in a buffer that the set fills", gdt_to_1252, P, "", 0, {22, 61, 0, 0, 0, 0}},
    {"27 before 22", gdt_to_1252, "80006300|8100?????|921802.10|3000a\xE3", "", 9, {27, 49, 0, 0, 0, 0}},
    {"27 with room", gdt_to_1252, "80006300|8100?????|921802.10|3000a\xE3", "", 10, {27, 49, 0, 0, 0, 0}},
    {"27 at the first of two, in the order of the buffer", gdt_to_1252, B "|6228a\xE0|6220\xB3", "", 20, {27, 73, 0, 0, 0, 0}},
    {"27 at the second of two in a content", gdt_to_437, "80006300|8100?????|92063|921802.10|3000\xE4\x80", "", 0,
     {27, 59, 0, 0, 0, 0}},
    {"27 with 9206 after it", gdt_to_437, "80006300|8100?????|921802.10|3000\x90|92063", "", 9, {27, 48, 0, 0, 0, 0}},
    {"24 before 27", gdt_to_1252, P7_FRONT "|3000\xE3", "", 20, {24, 58, 0, 0, 0, 0}},
    {"17 before 27", gdt_to_1252, "80006300|810000053|921802.10|3000\xE3", "", 20, {17, 13, 0, 0, 0, 0}},
};

static void test_recoding(void)
{
    static struct bytes from, to;
    for (size_t i = 0; i < sizeof recode_cases / sizeof *recode_cases; i++) {
        const struct recode_case *c = &recode_cases[i];
        char name[120];
        snprintf(name, sizeof name, "E5 %s", c->name);
        make_set(&from, c->from);
        make_set(&to, c->to);
        report(name, recodes(c->recode, &from, from.n + c->spare, from.n, c->want, &to));
    }
}

/* "18 is not named; a set in its buffer with a used length is asked so by corrections" (E5b). */
static void test_recoding_used(void)
{
    static struct bytes set, two;
    const struct reply over = {18, 60, 0, 0, 0, 0}, follows = {18, 51, 0, 0, 0, 0}, empty = {1, 0, 0, 0, 0, 0};
    int passed = 1;
    make_set(&set, P);
    for (size_t more = 1; more < 4; more++) {
        passed &= recodes(gdt_to_437, &set, 60, 60 + more, over, NULL) & recodes(gdt_to_1252, &set, 60, 60 + more, over, NULL);
    }
    passed &= recodes(gdt_to_1252, &set, 60, (size_t)-1, over, NULL) & recodes(gdt_to_437, &set, 0, 1, (struct reply){18, 0, 0, 0, 0, 0}, NULL);
    report("E5b 18 if the used length is over the buffer, at its length", passed);
    add(&two, set.of, set.n);
    add(&two, set.of, set.n);
    report("E5b 18 if another set follows, at the length of the first",
           recodes(gdt_to_437, &two, two.n, two.n, follows, NULL) & recodes(gdt_to_1252, &two, two.n, two.n, follows, NULL));
    make_set(&two, "80006300|8100?????|921802.10|3000\xE3");
    add_text(&two, "xyz8000");
    report("E5b another set comes before 27 and 22", recodes(gdt_to_1252, &two, two.n, two.n, follows, NULL));
    report("E5b no used bytes are an empty set", recodes(gdt_to_437, &set, 60, 0, empty, NULL) & recodes(gdt_to_1252, &set, 0, 0, empty, NULL));
}

/* A set of this many lines: 9206 with this content as its last line, if there is one, and one byte in its first content that can have
   any. */
static void make_many(struct bytes *set, size_t count, const char *charset, char byte)
{
    const char third[] = {'3', '0', '0', '0', byte};
    set->n = 0;
    add_all(set, "80006310|8100?????", add_line);
    add_line(set, third, sizeof third);
    add_all(set, "921802.10|8402EKG01", add_line);
    for (size_t line = 5; line < count - (*charset != 0); line++) {
        add_line(set, "6228\x7Fz", 6);
    }
    add_all(set, charset, add_line);
    add_sum(set);
}

static void test_recoding_many(void)
{
    static struct bytes from, to;
    int passed = 1;
    make_many(&from, 512, "", 'a');
    report("E5b 7 if the added line would be the 513th, at the length of the set",
           recodes(gdt_to_1252, &from, from.n + 10, from.n, (struct reply){7, from.n, 0, 0, 0, 0}, NULL));
    passed = recodes(gdt_to_437, &from, from.n + 3, from.n, (struct reply){0, 0, 0, from.n, 0, 0}, &from);
    make_many(&from, 512, "", '\xE0');
    report("E5b 7 before 27 and 22", recodes(gdt_to_1252, &from, from.n, from.n, (struct reply){7, from.n, 0, 0, 0, 0}, NULL));
    make_many(&from, 512, "92062", '\x84');
    make_many(&to, 512, "92063", '\xE4');
    passed &= recodes(gdt_to_1252, &from, from.n, from.n, (struct reply){0, 0, 0, to.n, 0, 0}, &to)
        & recodes(gdt_to_437, &to, from.n, from.n, (struct reply){0, 0, 0, to.n, 0, 0}, &from);
    make_many(&to, 512, "92061", 'a');
    make_many(&from, 512, "92062", 'a');
    passed &= recodes(gdt_to_437, &to, from.n, from.n, (struct reply){0, 0, 0, to.n, 0, 0}, &from);
    report("E5c, E5d 512 lines that gain none are not too many", passed);
    make_many(&from, 511, "", '\x84');
    to.n = 0;
    add_all(&to, "80006310|8100?????|92063|3000\xE4", add_line);
    add(&to, from.of + 37, from.n - 37);
    add_sum(&to);
    report("E5e 511 lines become 512", recodes(gdt_to_1252, &from, from.n + 10, from.n, (struct reply){0, 0, 0, to.n, 0, 0}, &to)
        & judges(&to, (struct reply){0, 0, 0, to.n, 512, 6310}));
}

/* The sum of the longer set, for sets of many lengths: it is carried as it must be, and both sets are accepted. */
static void test_recoding_sums(void)
{
    static struct bytes from, to;
    char line[4 + 60];
    int passed = 1;
    memset(line, 'x', sizeof line);
    memcpy(line, "6228", 4);
    for (size_t length = 5; length <= sizeof line; length++) {
        for (size_t count = 1; count <= 20; count++) {
            from.n = to.n = 0;
            add_all(&from, B, add_line);
            add_all(&to, "80006310|8100?????|92063|921802.10|30007|8402EKG01", add_line);
            for (size_t i = 0; i < count; i++) {
                line[4] = '\x84';
                add_line(&from, line, length);
                line[4] = '\xE4';
                add_line(&to, line, length);
            }
            add_sum(&from);
            add_sum(&to);
            passed &= recodes(gdt_to_1252, &from, to.n, from.n, (struct reply){0, 0, 0, to.n, 0, 0}, &to)
                & judges(&from, (struct reply){0, 0, 0, from.n, 5 + count, 6310})
                & judges(&to, (struct reply){0, 0, 0, to.n, 6 + count, 6310});
        }
    }
    report("E5e the sum of sets of many lengths", passed);
}

int main(void)
{
    test_sets();
    test_long_sets();
    test_contents();
    test_index();
    test_list();
    test_refused_lists();
    test_writer();
    test_corrections();
    test_views();
    test_seven_bits();
    test_seven_bit_corrections();
    test_seven_bit_views();
    test_build();
    test_seven_bits_in_files();
    test_sets_in_files();
    test_append();
    test_many_sets();
    test_find();
    test_foreign_find();
    test_long_find();
    test_crc();
    test_blocks();
    test_sender();
    test_bound();
    test_receiver();
    test_form();
    test_samples();
    test_transfer();
    test_code_pages();
    test_recoding();
    test_recoding_used();
    test_recoding_many();
    test_recoding_sums();
    return failures != 0;
}
