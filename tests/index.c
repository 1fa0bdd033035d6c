/* index.c: gdt_index of the proved library against gdt_index of the second program (second_index), on generated sets: accepted ones of
   every type, cut and changed ones. Each call is lent entries between guards. Both must answer the same and leave every entry and guard
   the same. The sets are the same in every run. Prints `ok - ..` or `FAILED - ..` for each kind of set, then for the stack. */
#include "x86.h"
#include "stackuse.h"
#include "putline.h"
#include "gdt.h"

struct gdt_made second_index(const uint8_t *set, size_t set_length, struct gdt_entry *out, size_t room);

enum {
    BYTES = 40000,
    GUARDS = 4,       /* entries before and after those that are lent */
    SUM_AT = 20,      /* the place of the sum's digits */
    SUM_DIGITS = 5,
    STACK_MOST = 8192 /* "8 KiB of stack" */
};

static uint8_t set[BYTES];
static size_t used, lines;

static int failures;

static void report(const char *what, size_t tried, const char *unit, bool passed)
{
    printf("%s - index: %s, %zu %s\n", passed ? "ok" : "FAILED", what, tried, unit);
    failures += !passed;
}

/* ---- sets ------------------------------------------------------------------------------------------------------------------- */

static uint32_t seed = 20010201;

/* A number below n. */
static unsigned roll(unsigned n)
{
    seed ^= seed << 13;
    seed ^= seed >> 17;
    seed ^= seed << 5;
    return seed % n;
}

static void line(unsigned label, const char *content)
{
    put_line(set, &used, label, content, strlen(content));
    lines++;
}

/* A line with 1 to `most` letters. */
static void words(unsigned label, unsigned most)
{
    char content[61];
    size_t length = 1 + roll(most);
    for (size_t i = 0; i < length; i++) content[i] = (char)('a' + roll(26));
    content[length] = 0;
    line(label, content);
}

/* Lines that may stand in any set. */
static void some_common(void)
{
    if (roll(2)) line(8315, "RECEIVER");
    if (roll(2)) line(8316, "PRACTICE");
    if (roll(2)) line(9206, roll(2) ? "1" : "2");
}

static void some_patient(void)
{
    if (roll(2)) words(3104, 15);
    if (roll(2)) words(3107, 28);
    if (roll(2)) line(3110, "2");
    if (roll(2)) line(3622, "178.5");
}

static void name_and_birth(void)
{
    words(3101, 28);
    words(3102, 28);
    line(3103, "00001980");
}

/* An 8410 group with some of its members. */
static void test_group(void)
{
    words(8410, 20);
    if (roll(2)) words(8411, 60);
    if (roll(2)) {
        line(8420, "-3.70");
        words(8421, 20);
    }
    if (roll(3) == 0) {
        words(8437, 40);
        words(8438, 40);
        words(8438, 40);
    }
    for (unsigned i = roll(3); i > 0; i--) words(8470, 60);
    if (roll(2)) line(8432, "15112024");
}

/* Groups, pairs and lines at set level, in any order. */
static void test_part(void)
{
    unsigned name = 6330 + 2 * roll(35);
    switch (roll(4)) {
    case 0:
        words(6302, 20);
        words(6303, 20);
        words(6304, 20);
        words(6305, 60);
        break;
    case 1:
        words(name, 20);
        words(name + 1, 20);
        break;
    case 2:
        words(6220, 60);
        break;
    default:
        test_group();
    }
}

/* Writes the set's length into line 2. */
static void finish(void)
{
    size_t at = SUM_AT;
    put_digits(set, &at, used, SUM_DIGITS);
}

/* An accepted set of this type. */
static void make(unsigned type)
{
    static const char *const names[] = {"6300", "6301", "6302", "6310", "6311"};
    used = lines = 0;
    line(8000, names[type]);
    line(8100, "00000");
    line(9218, "02.10");
    words(3000, 10);
    some_common();
    if (type == 1 || type == 2) {
        name_and_birth();
        some_patient();
    }
    if (type == 2) {
        if (roll(2)) words(8402, 6);
        if (roll(2)) words(8410, 20);
    }
    if (type == 3) {
        words(8402, 6);
        some_patient();
        for (unsigned i = roll(12); i > 0; i--) test_part();
    }
    if (type == 4) {
        if (roll(2)) line(8432, "01022001");
        if (roll(2)) line(8439, "235959");
    }
    finish();
}

/* 512 lines. */
static void make_longest(void)
{
    used = lines = 0;
    line(8000, "6310");
    line(8100, "00000");
    line(9218, "02.10");
    line(3000, "7");
    line(8402, "EKG01");
    while (lines + 9 <= GDT_MOST_LINES) test_part();
    while (lines < GDT_MOST_LINES) words(6220, 40);
    finish();
}

/* ---- calls ------------------------------------------------------------------------------------------------------------------ */

static struct gdt_entry proved_out[GUARDS + GDT_MOST_LINES + 2 + GUARDS], second_out[GUARDS + GDT_MOST_LINES + 2 + GUARDS];
static size_t calls, headed;

/* Calls both with this room: the same answer, the same entries, and nothing else written. */
static bool same(size_t room)
{
    size_t lent = room + 2 * GUARDS;
    for (size_t i = 0; i < lent; i++) {
        proved_out[i] = second_out[i] = (struct gdt_entry){7000 + i, ~i, i * i, 9000 + i};
    }
    struct gdt_made proved = gdt_index(set, used, proved_out + GUARDS, room);
    struct gdt_made second = second_index(set, used, second_out + GUARDS, room);
    calls++;
    for (size_t i = 0; i < lent; i++) {
        struct gdt_entry e = proved_out[i];
        bool kept = e.label == 7000 + i && e.place == ~i && e.length == i * i && e.header == 9000 + i;
        bool written = i >= GUARDS && i < GUARDS + proved.count;
        if (kept == written) return false;
        headed += written && e.header != 0;
    }
    return memcmp(&proved, &second, sizeof proved) == 0 && memcmp(proved_out, second_out, lent * sizeof *proved_out) == 0;
}

/* All rooms from 0 to two more than the lines of an accepted set. */
static bool same_rooms(size_t least)
{
    for (size_t room = least; room <= lines + 2; room++) {
        if (!same(room)) return false;
        struct gdt_made made = gdt_index(set, used, proved_out + GUARDS, room);
        if (made.no != (room < lines ? GDT_NO_ROOM : 0) || made.place != (room < lines ? lines : 0)) return false;
        if (made.count != (room < lines ? 0 : lines)) return false;
    }
    return true;
}

static bool accepted_sets(unsigned type)
{
    for (int i = 0; i < 40; i++) {
        make(type);
        if (!same_rooms(0)) return false;
        /* another set after it is not looked at */
        memcpy(set + used, "01380006300\r\n", 13);
        used += 13;
        if (!same(lines)) return false;
    }
    return true;
}

static bool cut_sets(void)
{
    for (int i = 0; i < 300; i++) {
        make(roll(5));
        used = i == 0 ? 0 : roll((unsigned)used + 1);
        if (!same(0) || !same(lines)) return false;
    }
    return true;
}

static bool changed_sets(void)
{
    for (int i = 0; i < 600; i++) {
        make(roll(5));
        set[roll((unsigned)used)] = (uint8_t)(roll(2) ? '0' + roll(10) : roll(256));
        if (!same(0) || !same(lines)) return false;
    }
    return true;
}

static size_t stack_of(size_t room)
{
    struct gdt_made made;
    return stack_use((void *)gdt_index, (uint64_t[STACK_WORDS]){ W(&made), W(set), used, W(proved_out + GUARDS), room });
}

int main(void)
{
    static const char *const accepted[] = {"accepted sets 6300, all rooms", "accepted sets 6301, all rooms", "accepted sets 6302, all rooms",
                                           "accepted sets 6310 with groups and pairs, all rooms", "accepted sets 6311, all rooms"};
    for (unsigned type = 0; type < 5; type++) {
        calls = headed = 0;
        bool passed = accepted_sets(type);
        report(accepted[type], calls, "calls", passed && (headed > 0) == (type == 3)); /* headers stand in 6310 alone */
    }
    calls = 0;
    bool passed = cut_sets();
    report("sets cut at any byte, at none too", calls, "calls", passed);
    calls = 0;
    passed = changed_sets();
    report("sets with a changed byte", calls, "calls", passed);
    make_longest();
    calls = 0;
    passed = same_rooms(GDT_MOST_LINES - 2);
    report("512 lines", calls, "calls", passed);

    size_t most = stack_of(GDT_MOST_LINES);
    make(3);
    for (size_t room = 0; room <= lines; room++) {
        size_t stack = stack_of(room);
        if (stack > most) most = stack;
    }
    report("stack at most 8192 bytes", most, "bytes", most <= STACK_MOST);
    return failures != 0;
}
