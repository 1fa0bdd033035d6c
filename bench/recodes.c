/* recodes.c: bench/calls.c for recoding: the same lines, for loads of its own, and judging the same sets beside it.
   It assumes what calls.c assumes, and ends as that does. Recoding changes the set that it is lent: for its time the set is copied into the
   buffer before each call, for both programs alike. */
#include "x86.h"
#include "icount.h"
#include "gdt.h"
#include "recode_inputs.h"

enum {
    OUT = BUFFER,
    SPARE = 7, /* bytes that are left in the buffer after a set that gains a line */
    MOST_INPUTS = 32
};
#include "tasks.h"

/* ---- The calls --------------------------------------------------------------------------------------------------------------- */

extern __typeof__(gdt_judge) second_judge;
extern __typeof__(gdt_to_437) second_to_437;

enum { TO_437, TO_1252, JUDGE_BOTH, CALLS };

static const struct call calls[CALLS] = {
    [TO_437] = {"to_437", (void *)gdt_to_437, (void *)second_to_437},
    [TO_1252] = {"to_1252", (void *)gdt_to_1252, (void *)second_to_1252},
    [JUDGE_BOTH] = {"judge_both", (void *)gdt_judge, (void *)second_judge},
};

/* ---- The loads --------------------------------------------------------------------------------------------------------------- */

static struct input inputs[MOST_INPUTS] AT_64;
static size_t input_count;

static struct input *next_input(void)
{
    struct input *input = &inputs[input_count++];
    memset(input, 0, sizeof *input);
    return input;
}

/* The set that each call is given; judging is given both, in the order of the calls. `stays`: the set is in the wanted code page already. */
static void set_load(int call, void (*make_set)(struct input *), bool stays)
{
    if (call != TO_1252) {
        put_set(next_input(), make_set, !stays);
    }
    if (call != TO_437) {
        put_set(next_input(), make_set, stays);
    }
}

static void of_paper(int call)
{
    set_load(call, umlaut_paper, false);
}

static void of_short(int call)
{
    set_load(call, short_77, false);
}

static void of_long(int call)
{
    set_load(call, plain_512, false);
}

static void of_short_umlauts(int call)
{
    set_load(call, umlauts_77, false);
}

static void of_long_umlauts(int call)
{
    set_load(call, umlauts_512, false);
}

static void of_high(int call)
{
    set_load(call, high_512, false);
}

static void of_stays(int call)
{
    set_load(call, umlauts_77, true);
}

/* Each number once that the call can answer. */
static void of_refused(int call)
{
    for (size_t no = GDT_EMPTY; call != JUDGE_BOTH && no <= GDT_NO_SUCH_CHARACTER; no++) {
        if (can_refuse(no, call == TO_1252)) {
            put_refused(next_input(), no, call == TO_1252);
        }
    }
}

static const struct load {
    const char *name;
    void (*build)(int);
} loads[] = {
    {"P", of_paper},
    {"77x6", of_short},
    {"512x40", of_long},
    {"77x6-umlauts", of_short_umlauts},
    {"512x40-umlauts", of_long_umlauts},
    {"512x40-high", of_high},
    {"stays", of_stays},
    {"refused", of_refused},
};

enum { LOADS = sizeof loads / sizeof *loads };

/* ---- Tasks ------------------------------------------------------------------------------------------------------------------- */

static struct task ours[MOST_INPUTS] AT_64, theirs[MOST_INPUTS] AT_64;

typedef struct gdt_made recoder(uint8_t *, size_t, size_t);

/* Recodes a copy of the set. */
static void recode_copy(struct gdt_made *reply, uint8_t *out, size_t room, size_t used, const uint8_t *set, recoder *recode)
{
    memcpy(out, set, used);
    *reply = recode(out, room, used);
}

/* A call takes no more words than it needs: the set and the function are there for the copy. */
static void prepare(struct task *task, int call, const struct input *input, void *function)
{
    uint64_t reply = W(task->reply), out = W(task->out), set = W(input->set);
    size_t used = input->used, room = input->no == GDT_NO_ROOM ? used + ADDED_LINE - 1 : used + ADDED_LINE + SPARE;
    if (call == JUDGE_BOTH) {
        GIVE(reply, set, used);
    } else {
        GIVE(reply, out, room, used, set, W(function));
    }
    fill(task);
    memcpy(task->out, input->set, used);
}

static void count(const struct call *call, struct task *our, struct task *their, size_t no)
{
    uint64_t word, proved = counted(our, call->proved, &word), second = counted(their, call->second, &word);
    bool same = alike(our, their);
    if (!same || our->reply[0] != no) {
        dprintf(2, "recodes: %s, an input made for %zu: %zu answered, %s\n", call->name, no, (size_t)our->reply[0], same ? "both alike" : "not both alike");
        exit(1);
    }
    printf("%s %zu %zu %zu\n", call->name, no, (size_t)proved, (size_t)second);
}

static void take_times(int call)
{
    const struct call copied = {calls[call].name, (void *)recode_copy, (void *)recode_copy};
    print_times(call == JUDGE_BOTH ? &calls[call] : &copied, ours, theirs, input_count);
}

static void measure(const struct load *load, bool time)
{
    for (int call = 0; call < CALLS; call++) {
        if (!is_asked(&calls[call])) {
            continue;
        }
        input_count = 0;
        load->build(call);
        for (size_t i = 0; i < input_count; i++) {
            prepare(&ours[i], call, &inputs[i], calls[call].proved);
            prepare(&theirs[i], call, &inputs[i], calls[call].second);
        }
        if (time && input_count > 0) {
            take_times(call);
        }
        for (size_t i = 0; !time && i < input_count; i++) {
            count(&calls[call], &ours[i], &theirs[i], inputs[i].no);
        }
    }
}

int main(int word_count, char **words)
{
    bool measured = asked(word_count, words);
    for (size_t i = 0; i < LOADS; i++) {
        if (!measured) {
            puts(loads[i].name);
        } else if (is(words[2], loads[i].name)) {
            measure(&loads[i], way == TIME);
        }
    }
    return 0;
}
