/* cables.c: bench/calls.c for the calls of the serial cable: the same lines, for loads of its own.
   It assumes what calls.c assumes, and ends as that does. The receiver's record is passed in four words on the stack. */
#include "x86.h"
#include "icount.h"
#include "gdt.h"
#include "cable_inputs.h"

enum { OUT = GDT_LARGEST_SET };
#include "tasks.h"

/* ---- The calls --------------------------------------------------------------------------------------------------------------- */

extern __typeof__(gdt_send) second_send;
extern __typeof__(gdt_block) second_block;
extern __typeof__(gdt_receive) second_receive;

enum { SEND, BLOCK, RECEIVE, CALLS };

static const struct call calls[CALLS] = {
    [SEND] = {"send", (void *)gdt_send, (void *)second_send},
    [BLOCK] = {"block", (void *)gdt_block, (void *)second_block},
    [RECEIVE] = {"receive", (void *)gdt_receive, (void *)second_receive},
};

/* ---- The loads --------------------------------------------------------------------------------------------------------------- */

static struct turn turns[CABLE_TURNS] AT_64;
static size_t turn_count;

/* A set is begun once, and some of its blocks are asked for. */
static void set_load(int call, void (*make_set)(struct input *))
{
    size_t blocks = ask_blocks(turns, make_set);
    turn_count = call == SEND ? 1 : call == BLOCK ? blocks : 0;
}

static void of_paper(int call)
{
    set_load(call, paper);
}

static void of_short(int call)
{
    set_load(call, short_77);
}

static void of_long(int call)
{
    set_load(call, long_512);
}

/* P begins; then ACK 1, ACK 0 and a timeout. */
static void of_turns(int call)
{
    static const char *const replies[] = {"\x06" "1", "\x06" "0", ""};
    of_paper(call);
    for (size_t i = 0; call == SEND && i < sizeof replies / sizeof *replies; i++) {
        hear(&turns[turn_count++], replies[i]);
    }
    turn_count = call == SEND ? turn_count : 0;
}

static void receive_load(int call, size_t step, size_t room)
{
    put_block(&turns[0], step);
    turns[0].room = room;
    turn_count = call == RECEIVE ? 1 : 0;
}

static void of_plain(int call)
{
    receive_load(call, 0, OPEN_BYTES + SPARE_BYTES);
}

static void of_lines(int call)
{
    receive_load(call, SHORT_LINE, OPEN_BYTES + SPARE_BYTES);
}

static void of_great(int call)
{
    receive_load(call, SHORT_LINE, GDT_LARGEST_SET);
}

/* The block that was taken last, again. */
static void of_again(int call)
{
    receive_load(call, SHORT_LINE, OPEN_BYTES + SPARE_BYTES);
    turns[0].receiver.last = 5;
}

/* Each number once that the call can answer. */
static void of_refused(int call)
{
    static const size_t by_receiver[] = {GDT_NO_ROOM, GDT_BAD_BLOCK, GDT_BAD_CRC};
    turn_count = 0;
    for (size_t i = 0; call == RECEIVE && i < sizeof by_receiver / sizeof *by_receiver; i++) {
        put_refused_block(&turns[turn_count++], by_receiver[i]);
    }
    for (size_t no = GDT_EMPTY; call != RECEIVE && no <= GDT_HIGH_BYTE; no++) {
        if (no <= GDT_BAD_USE || no == GDT_HIGH_BYTE) {
            memset(&turns[turn_count], 0, sizeof *turns);
            refused(&turns[turn_count].set, no);
            turns[turn_count++].no = no;
        }
    }
}

static const struct load {
    const char *name;
    void (*build)(int);
} loads[] = {
    {"P", of_paper},
    {"77x6", of_short},
    {"512x40", of_long},
    {"turns", of_turns},
    {"plain128", of_plain},
    {"lines128", of_lines},
    {"great", of_great},
    {"again", of_again},
    {"refused", of_refused},
};

enum { LOADS = sizeof loads / sizeof *loads };

/* ---- Tasks ------------------------------------------------------------------------------------------------------------------- */

static struct task ours[CABLE_TURNS] AT_64, theirs[CABLE_TURNS] AT_64;

/* A turn without a reply in it begins its set; what is lent to be written is the link, the block or the buffer. */
static void put_words(struct task *task, int call, const struct turn *turn)
{
    uint64_t reply = W(task->reply), out = W(task->out), set = W(turn->set.set), bytes = W(turn->bytes);
    const struct gdt_receiver *r = &turn->receiver;
    bool begins = turn->link.phase == GDT_IDLE;
    switch (call) {
    case SEND: GIVE(reply, out, begins ? GDT_BEGIN : GDT_REPLY, begins ? set : bytes, begins ? turn->set.used : turn->length); return;
    case BLOCK: GIVE(reply, set, turn->set.used, turn->block, turn->count, out); return;
    case RECEIVE: GIVE(reply, out, turn->room, bytes, turn->length, 0, r->started, r->last, r->open, r->used); return;
    }
}

/* An error is turned back by an ACK 1, so that the next one is the first on its block again. */
static void prepare(struct task *task, int call, const struct turn *turn)
{
    enum { BYTES_WORD = 3, LENGTH_WORD = 4 };
    put_words(task, call, turn);
    fill(task);
    if (call == SEND) {
        memcpy(task->out, &turn->link, sizeof turn->link);
    }
    if (call == SEND && turn->link.phase != GDT_IDLE) {
        task->words[1][BYTES_WORD] = W("\x06" "1");
        task->words[1][LENGTH_WORD] = 2;
    }
}

static void count(const struct call *call, struct task *our, struct task *their, size_t no)
{
    uint64_t word, proved = counted(our, call->proved, &word), second = counted(their, call->second, &word);
    bool same = alike(our, their);
    if (!same || our->reply[0] != no) {
        dprintf(2, "cables: %s, an input made for %zu: %zu answered, %s\n", call->name, no, (size_t)our->reply[0], same ? "both alike" : "not both alike");
        exit(1);
    }
    printf("%s %zu %zu %zu\n", call->name, no, (size_t)proved, (size_t)second);
}

static void measure(const struct load *load, bool time)
{
    for (int call = 0; call < CALLS; call++) {
        if (!is_asked(&calls[call])) {
            continue;
        }
        load->build(call);
        for (size_t i = 0; i < turn_count; i++) {
            prepare(&ours[i], call, &turns[i]);
            prepare(&theirs[i], call, &turns[i]);
        }
        if (time && turn_count > 0) {
            print_times(&calls[call], ours, theirs, turn_count);
        }
        for (size_t i = 0; !time && i < turn_count; i++) {
            count(&calls[call], &ours[i], &theirs[i], turns[i].no);
        }
    }
}

int main(int word_count, char **words)
{
    bool measured = asked(word_count, words);
    for (size_t i = 0; i < LOADS; i++) {
        if (!measured) {
            puts(loads[i].name);
        } else if (is(words[2], loads[i].name)) {
            measure(&loads[i], way == TIME);
        }
    }
    return 0;
}
