/* transfer.c: whole sets sent over a serial cable that loses and damages blocks and replies, one after another on one link. A function
   gdt_x is the proved library's, second_x the second program's: all four pairs of them stand at the two ends. With SECOND_ALONE both
   are the second program.
   transfer SEED COUNT: the cables of seeds SEED, SEED + 1 and so on, COUNT of them. Each has a pair of programs, a link, a receiver and
   some sets. Prints `ok - ..` for each pair, with how many of its sets ended in which way; at the first set that is wrong it prints
   `FAILED - ..` with the seed of its cable, and ends with status 1.

   At each step: the sender asks for the block and the count that the request's sentence says; a damaged block is refused by 25 or 26,
   another one acknowledged. The reply that goes back is the one of the receiver's answer: ACK 0 for a refusal, else ACK 1. After each set:
   - it is delivered or given up, after at most 4n replies and timeouts for its n blocks, unless another set began before its end;
   - if it is delivered, the receiver's buffer is the set and zeros, `used` is its length, and both ends have the same last count;
   - if nothing was lost or damaged, there were just n replies, all ACK 1; two errors more, if the receiver was a fresh one and the
     sender did not begin with 0;
   - if it does not fit into the buffer, it is given up.
   What is damaged is never a right block: one or two bytes that stand together are changed, bytes are missing at the end, or one is too
   many at an end. A CRC of 16 bits finds all of these. No ACK 0 becomes an ACK 1: nothing in a reply would tell. */
#include "x86.h"
#include "putline.h"
#include "gdt.h"

#ifdef SECOND_ALONE
#define second_send gdt_send
#define second_block gdt_block
#define second_receive gdt_receive
#define FIRST "the second program itself"
#else
#define FIRST "the proved library"
struct gdt_sent second_send(struct gdt_link *link, size_t begin, const uint8_t *bytes, size_t length);
struct gdt_made second_block(const uint8_t *set, size_t set_length, size_t block, size_t count, uint8_t out[GDT_BLOCK]);
struct gdt_received second_receive(struct gdt_receiver receiver, uint8_t *buffer, size_t room, const uint8_t *block, size_t block_length);
#endif

enum {
    ROOM = 36000, /* more than GDT_LARGEST_SET */
    SUM_AT = 20, /* the place of the sum's digits */
    SUM_DIGITS = 5,
    MOST_CONTENT = 60,
    MANY_BLOCKS = 100,
    MOST_SETS = 15,  /* of a cable */
    FEW_CABLES = 200 /* with fewer, a rare end may not be met */
};

/* ---- Chance ---------------------------------------------------------------------------------------------------------------- */

static uint64_t state;

/* A number below n. */
static size_t roll(size_t n)
{
    uint64_t mixed;
    state += 0x9E3779B97F4A7C15;
    mixed = (state ^ state >> 30) * 0xBF58476D1CE4E5B9;
    mixed = (mixed ^ mixed >> 27) * 0x94D049BB133111EB;
    return (size_t)((mixed ^ mixed >> 31) % n);
}

static bool chance(size_t percent)
{
    return roll(100) < percent;
}

/* ---- Sets ------------------------------------------------------------------------------------------------------------------ */

static uint8_t set[ROOM];
static size_t set_length;

/* A line with a content of this many bytes, of all that may be one. */
static void add_line(size_t label, size_t length)
{
    char content[MOST_CONTENT];
    for (size_t i = 0; i < length; i++) {
        content[i] = (char)(0x20 + roll(0xE0));
    }
    put_line(set, &set_length, label, content, length);
}

/* A set of few lines, of more, or now and then of as many as there may be. */
static void make_set(void)
{
    size_t more = chance(60) ? roll(4) : roll(40), sum_at = SUM_AT;
    if (roll(300) == 0) {
        more = GDT_MOST_LINES - 5;
    }
    set_length = 0;
    put_line(set, &set_length, 8000, more == 0 ? "6300" : "6310", 4);
    put_line(set, &set_length, 8100, "00000", SUM_DIGITS);
    put_line(set, &set_length, 9218, "02.10", 5);
    add_line(3000, 1 + roll(10));
    if (more > 0) {
        add_line(8402, 1 + roll(6));
    }
    for (size_t i = 0; i < more; i++) {
        add_line(6228, 1 + roll(MOST_CONTENT));
    }
    put_digits(set, &sum_at, set_length, SUM_DIGITS);
}

/* ---- A cable --------------------------------------------------------------------------------------------------------------- */

struct program {
    const char *name;
    struct gdt_sent (*send)(struct gdt_link *, size_t, const uint8_t *, size_t);
    struct gdt_made (*block)(const uint8_t *, size_t, size_t, size_t, uint8_t *);
    struct gdt_received (*receive)(struct gdt_receiver, uint8_t *, size_t, const uint8_t *, size_t);
};

static const struct program programs[] = {
    {FIRST, gdt_send, gdt_block, gdt_receive},
    {"the second program", second_send, second_block, second_receive},
};

/* Both ends. `in_step`: the last set was delivered to this receiver, so that its last count is the sender's. */
static struct {
    const struct program *sender, *receiver;
    struct gdt_link link;
    struct gdt_receiver record;
    uint8_t buffer[ROOM];
    size_t room;
    size_t lost, damaged; /* in a hundred, of blocks and of replies */
    bool in_step;
} cable;

/* How the sets of a pair ended, and what else became of them. */
enum { CLEAN, AFTER_ERRORS, SECOND_ATTEMPT, GIVEN_UP, BROKEN_OFF, NO_ROOM, TWICE, PAST_NINE, LONG, FRESH_RECEIVER, ENDS };

static const char *const end_names[ENDS] = {
    "delivered without an error",
    "delivered after errors",
    "delivered in the second attempt",
    "given up",
    "broken off by the next one",
    "without room",
    "received twice",
    "with a count after 9",
    "of 100 blocks or more",
    "with a fresh receiver in the middle of the counts",
};

static size_t seen[2][2][ENDS], sets_of[2][2];

/* The set: whether it fits into the buffer, whether its receiver is a fresh one though the count does not begin with 0, and what became of
   it so far. `block`, `count`, `errors` and `attempt` are where the sender should be. */
static struct {
    bool fits, fresh, past_nine;
    size_t blocks, replies, acks, whole;
    size_t block, count, errors, attempt;
} run;

/* Why the set is wrong; NULL as long as it is not. */
static const char *wrong;

static void expect(bool right, const char *why)
{
    if (!right && wrong == NULL) {
        wrong = why;
    }
}

/* Changes a block so that it is no right one, and answers its length. */
static size_t damage(uint8_t *block, size_t length)
{
    size_t at = roll(length);
    switch (roll(6)) {
    case 0: block[at] ^= (uint8_t)(1u << roll(8)); return length;
    case 1: block[at] ^= (uint8_t)(1 + roll(255)); return length;
    case 2:
        block[at] ^= (uint8_t)(1 + roll(255));
        if (at + 1 < length) {
            block[at + 1] ^= (uint8_t)roll(256);
        }
        return length;
    case 3: return 1 + roll(length - 1);
    case 4: block[length] = (uint8_t)roll(256); return length + 1;
    default:
        memmove(block + 1, block, length);
        block[0] = (uint8_t)roll(256);
        return length + 1;
    }
}

/* Changes a reply so that it is no ACK 1, and answers its length. */
static size_t damage_reply(uint8_t *reply)
{
    switch (roll(4)) {
    case 0: return 1;
    case 1: reply[0] = reply[1]; return 1;
    case 2: reply[2] = (uint8_t)roll(256); return 3;
    default: reply[roll(2)] ^= (uint8_t)(1u << roll(8)); break;
    }
    return reply[0] == GDT_ACK && reply[1] == '1' ? 0 : 2;
}

/* Sends the block over the cable, and puts what is heard into `reply`; answers its length, 0 for a timeout. */
static size_t exchange(uint8_t reply[3])
{
    uint8_t block[GDT_BLOCK + 1];
    struct gdt_made made = cable.sender->block(set, set_length, run.block, run.count, block);
    struct gdt_received received;
    bool damaged = chance(cable.damaged), takes = run.fits && (!run.fresh || run.attempt == 2);
    size_t length = made.count;
    expect(made.no == 0 && made.count >= 9, "a block that is asked for cannot be made");
    if (wrong != NULL || chance(cable.lost)) {
        return 0;
    }
    if (damaged) {
        length = damage(block, length);
    }
    received = cable.receiver->receive(cable.record, cable.buffer, cable.room, block, length);
    expect(!damaged || received.no == GDT_BAD_BLOCK || received.no == GDT_BAD_CRC, "a damaged block is not refused");
    expect(damaged || !takes || received.no == 0, "a right block is refused");
    expect(received.no == 0 || memcmp(&received.receiver, &cable.record, sizeof cable.record) == 0, "a refusal changes the record");
    cable.record = received.receiver;
    run.whole += received.what == GDT_WHOLE ? 1 : 0;
    expect(received.ack == (received.no == 0 ? 1 : 0), "the reply to a refusal is not ACK 0, or to another block not ACK 1");
    reply[0] = GDT_ACK;
    reply[1] = (uint8_t)('0' + received.ack);
    if (chance(cable.lost)) {
        return 0;
    }
    return chance(cable.damaged) ? damage_reply(reply) : 2;
}

/* The count after this one. */
static size_t after(size_t count)
{
    return count == 9 ? 1 : count + 1;
}

static bool clean(void)
{
    return cable.lost == 0 && cable.damaged == 0;
}

/* Where the sender should be after a reply: the next block with the next count, or the same again, or the first one with 0. Answers its
   phase. */
static size_t after_reply(bool ack)
{
    run.replies++;
    if (ack) {
        run.acks++;
        if (run.block + 1 == run.blocks) {
            return GDT_DELIVERED;
        }
        run.past_nine |= run.count == 9;
        run.block++;
        run.count = after(run.count);
        run.errors = 0;
        return GDT_UNDER_WAY;
    }
    run.errors++;
    if (run.errors < 2) {
        return GDT_UNDER_WAY;
    }
    if (run.attempt == 2) {
        return GDT_GIVEN_UP;
    }
    run.attempt = 2;
    run.block = run.count = run.errors = 0;
    return GDT_UNDER_WAY;
}

/* Sends the set, up to its end or up to that many replies. */
static void send_set(size_t most)
{
    struct gdt_sent sent;
    size_t phase = GDT_UNDER_WAY;
    run.count = cable.link.phase == GDT_DELIVERED ? after(cable.link.count) : 0;
    run.attempt = 1;
    sent = cable.sender->send(&cable.link, GDT_BEGIN, set, set_length);
    run.blocks = cable.link.blocks;
    expect(sent.no == 0, "a set is refused");
    expect(run.blocks >= 2 && run.blocks <= 270, "a set has less than 2 or more than 270 blocks");
    while (phase == GDT_UNDER_WAY && run.replies < most && wrong == NULL) {
        uint8_t reply[3];
        size_t length;
        expect(sent.what == GDT_UNDER_WAY && sent.block == run.block && sent.count == run.count, "another block or count is asked for");
        length = exchange(reply);
        phase = after_reply(length == 2 && reply[0] == GDT_ACK && reply[1] == '1');
        sent = cable.sender->send(&cable.link, GDT_REPLY, reply, length);
        expect(sent.no == 0 && sent.what == phase && cable.link.phase == phase, "the sender is in another phase");
        expect(run.replies < 4 * run.blocks || sent.what != GDT_UNDER_WAY, "the sender goes on after 4n replies and timeouts");
    }
}

/* What must hold of a delivered set. */
static void check_delivered(void)
{
    expect(cable.record.used == set_length && memcmp(cable.buffer, set, set_length) == 0, "the buffer does not have the delivered set");
    for (size_t i = set_length; i < cable.room; i++) {
        expect(cable.buffer[i] == 0, "the bytes after the delivered set are not zero");
    }
    expect(cable.record.open == 0 && cable.record.started == 1 && cable.record.last == cable.link.count, "the two ends are not in step");
    expect(run.whole > 0, "a set is delivered, and was never whole");
    expect(run.acks >= run.blocks, "a set is delivered with less ACK 1 than blocks");
}

/* Which end the set came to, and what must hold then. */
static size_t end_of(void)
{
    size_t errors = run.replies - run.acks;
    expect(run.replies <= 4 * run.blocks, "there are more than 4n replies and timeouts");
    if (cable.link.phase == GDT_UNDER_WAY) {
        return BROKEN_OFF;
    }
    if (cable.link.phase == GDT_GIVEN_UP) {
        expect(!clean() || !run.fits, "a set is given up, though nothing was lost");
        return run.fits ? GIVEN_UP : NO_ROOM;
    }
    expect(cable.link.phase == GDT_DELIVERED, "a set is neither delivered nor given up");
    expect(run.fits, "a set is delivered that does not fit");
    expect(!clean() || errors == (run.fresh ? 2 : 0), "there are errors, though nothing was lost");
    expect(!clean() || run.replies == run.blocks + errors, "there are more replies than blocks, though nothing was lost");
    check_delivered();
    return run.attempt == 2 ? SECOND_ATTEMPT : errors > 0 ? AFTER_ERRORS : CLEAN;
}

/* What is lost and damaged from now on, and how large the buffer is. */
static void change_weather(void)
{
    static const uint8_t weathers[][2] = {
        {0, 0}, {0, 0}, {2, 2}, {5, 0}, {0, 5}, {15, 15}, {30, 10}, {10, 40}, {60, 0}, {100, 0}, {0, 100},
    };
    size_t which = roll(sizeof weathers / sizeof *weathers);
    cable.lost = weathers[which][0];
    cable.damaged = weathers[which][1];
    cable.room = chance(90) ? ROOM : 1 + roll(600);
}

/* One set over the cable; counts how it ended. */
static void one_set(size_t counts[ENDS])
{
    make_set();
    memset(&run, 0, sizeof run);
    if (chance(10)) {
        cable.room = set_length - 1 + roll(3);
    }
    if (chance(4)) {
        memset(&cable.link, 0, sizeof cable.link);
    }
    if (chance(4)) {
        memset(&cable.record, 0, sizeof cable.record);
        cable.in_step = false;
    }
    run.fresh = !cable.in_step && cable.link.phase == GDT_DELIVERED;
    run.fits = set_length <= cable.room;
    send_set(chance(5) ? roll(8) : (size_t)-1);
    counts[end_of()]++;
    counts[TWICE] += run.whole > 1 ? 1 : 0;
    counts[PAST_NINE] += run.past_nine ? 1 : 0;
    counts[LONG] += run.blocks >= MANY_BLOCKS ? 1 : 0;
    counts[FRESH_RECEIVER] += run.fresh ? 1 : 0;
    cable.in_step = cable.link.phase == GDT_DELIVERED;
}

/* All sets of a cable; answers whether they were right. */
static bool one_cable(uint64_t seed)
{
    size_t pair = seed % 4, sets;
    state = seed;
    sets = 1 + roll(MOST_SETS);
    memset(&cable, 0, sizeof cable);
    cable.sender = &programs[pair / 2];
    cable.receiver = &programs[pair % 2];
    memset(cable.buffer, 0xAA, ROOM);
    if (chance(30)) { /* a receiver that was used before, or that no call left */
        cable.record.started = roll(3);
        cable.record.last = roll(12);
        cable.record.open = roll(3);
        cable.record.used = chance(50) ? roll(ROOM) : (size_t)-1 - roll(200);
    }
    change_weather();
    for (size_t i = 1; i <= sets; i++) {
        if (chance(30)) {
            change_weather();
        }
        one_set(seen[pair / 2][pair % 2]);
        sets_of[pair / 2][pair % 2]++;
        if (wrong != NULL) {
            printf("FAILED - transfers: seed %llu, set %zu, %s to %s: %s\n", (unsigned long long)seed, i, cable.sender->name,
                   cable.receiver->name, wrong);
            return false;
        }
    }
    return true;
}

/* The line of a pair: how its sets ended; whether each end was met, if it should be. */
static bool report(size_t sender, size_t receiver, bool all)
{
    const size_t *counts = seen[sender][receiver];
    bool met = true;
    for (size_t end = 0; end < ENDS; end++) {
        met &= counts[end] > 0 || !all;
    }
    printf("%s - transfers: %s to %s: %zu sets as they should be", met ? "ok" : "FAILED", programs[sender].name, programs[receiver].name,
           sets_of[sender][receiver]);
    for (size_t end = 0; end < ENDS; end++) {
        printf("%s %zu %s", end == 0 ? ":" : ",", counts[end], end_names[end]);
    }
    printf("%s\n", met ? "" : "; not every end was met");
    return met;
}

/* A number of the command line; 0 for anything else. */
static uint64_t number(const char *text)
{
    uint64_t value = 0;
    for (; *text != 0; text++) {
        if (*text < '0' || *text > '9') {
            return 0;
        }
        value = value * 10 + (uint64_t)(*text - '0');
    }
    return value;
}

int main(int argc, char **argv)
{
    uint64_t first = argc == 3 ? number(argv[1]) : 0, count = argc == 3 ? number(argv[2]) : 0;
    bool good = true;
    if (count == 0) {
        dprintf(2, "usage: transfer SEED COUNT\n");
        return 2;
    }
    for (uint64_t seed = first; seed < first + count; seed++) {
        if (!one_cable(seed)) {
            return 1;
        }
    }
    for (size_t pair = 0; pair < 4; pair++) {
        if (sets_of[pair / 2][pair % 2] > 0) {
            good &= report(pair / 2, pair % 2, count >= FEW_CABLES);
        }
    }
    return good ? 0 : 1;
}
