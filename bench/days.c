/* days.c: bench/calls.c for the calls on a day file: the same lines, for loads of its own. On a load of which the index is built, judging
   each of its sets by itself is measured too.
   It assumes what calls.c assumes, and ends as that does. */
#include "x86.h"
#include "icount.h"
#include "gdt.h"
#include "day_inputs.h"

enum {
    OUT = MOST_NUMBERS * sizeof(size_t),
    MOST_TASKS = 64 /* inputs of a load, for judge its sets */
};
#include "tasks.h"

/* ---- The calls --------------------------------------------------------------------------------------------------------------- */

extern __typeof__(gdt_judge) second_judge;
extern __typeof__(gdt_day_build) second_day_build;
extern __typeof__(gdt_day_append) second_day_append;
extern __typeof__(gdt_day_find) second_day_find;

enum { JUDGE, BUILD, APPEND, FIND, CALLS };

static const struct call calls[CALLS] = {
    [JUDGE] = {"judge", (void *)gdt_judge, (void *)second_judge},
    [BUILD] = {"day_build", (void *)gdt_day_build, (void *)second_day_build},
    [APPEND] = {"day_append", (void *)gdt_day_append, (void *)second_day_append},
    [FIND] = {"day_find", (void *)gdt_day_find, (void *)second_day_find},
};

/* Whether a call is made on a refused input: if it can answer the number. That a build answers 23, and a lookup 22, are loads of their own. */
static bool can_answer(int call, size_t no)
{
    switch (call) {
    case BUILD: return (no > GDT_EMPTY && no <= GDT_BAD_SUM) || no == GDT_NO_ROOM || no == GDT_HIGH_BYTE;
    case APPEND: return no <= GDT_BAD_USE || no >= GDT_NO_ROOM;
    default: return false;
    }
}

/* ---- The loads --------------------------------------------------------------------------------------------------------------- */

static const struct load {
    const char *name;
    void (*build)(struct day *, size_t); /* none: each refusal number once */
    size_t sets;
    bool made[CALLS]; /* the calls that are made on it */
} loads[] = {
    {"day64", varied_day, APPENDED_TO, {[JUDGE] = true, [BUILD] = true, [APPEND] = true}},
    {"find256", small_day, 256, {[FIND] = true}},
    {"find512", small_day, 512, {[FIND] = true}},
    {"find1024", small_day, 1024, {[FIND] = true}},
    {"find2048", small_day, 2048, {[FIND] = true}},
    {"full2048", full_day, 2048, {[FIND] = true}},
    {"refused", NULL, 0, {[BUILD] = true, [APPEND] = true}},
    {"day2049", small_day, GDT_MOST_SETS + 1, {[BUILD] = true}},
};

enum { LOADS = sizeof loads / sizeof *loads };

static struct day days[GDT_HIGH_BYTE] AT_64;
static size_t day_count;

static void build(const struct load *load)
{
    if (load->build != NULL) {
        load->build(&days[0], load->sets);
        day_count = 1;
        return;
    }
    for (day_count = 0; day_count < GDT_HIGH_BYTE; day_count++) {
        refused_day(&days[day_count], day_count + 1);
    }
}

/* ---- Tasks ------------------------------------------------------------------------------------------------------------------- */

static struct task ours[MOST_TASKS] AT_64, theirs[MOST_TASKS] AT_64;
static size_t numbers[MOST_TASKS]; /* what each of them must answer */
static size_t task_count;

/* `set` is the set that judge is given. */
static void put_words(struct task *task, int call, const struct day *day, size_t set)
{
    bool tight = day->no == GDT_NO_ROOM;
    uint64_t reply = W(task->reply), out = W(task->out), file = W(day->file);
    const size_t *entry = day->index + DAY_ENTRY * set;
    size_t count = day->count, entries = DAY_ENTRY * day->sets;
    switch (call) {
    case JUDGE: GIVE(reply, file + entry[0], entry[1]); return;
    case BUILD: GIVE(reply, file, day->built, out, entries - tight); return;
    case APPEND: GIVE(reply, file, day->used, day->old, out, DAY_ENTRY * (count + 1) - tight, count); return;
    case FIND: GIVE(reply, file, day->used, W(day->index), entries, W(day->asked), day->asked_length, out, day->matches - tight); return;
    }
}

static void prepare(struct task *task, int call, const struct day *day, size_t set)
{
    put_words(task, call, day, set);
    fill(task);
    if (call == APPEND) {
        memcpy(task->out, day->index, sizeof day->index);
    }
}

/* The tasks of a call on all inputs of the load. */
static void prepare_all(int call, const struct load *load)
{
    task_count = 0;
    for (size_t i = 0; i < day_count; i++) {
        bool made = load->made[call] && (load->build != NULL || can_answer(call, days[i].no));
        size_t times = call == JUDGE ? days[i].sets : 1;
        for (size_t set = 0; made && set < times; set++) {
            prepare(&ours[task_count], call, &days[i], set);
            prepare(&theirs[task_count], call, &days[i], set);
            numbers[task_count++] = days[i].no;
        }
    }
}

static void count(const struct call *call, struct task *our, struct task *their, size_t no)
{
    uint64_t word, proved = counted(our, call->proved, &word), second = counted(their, call->second, &word);
    bool same = alike(our, their);
    if (!same || our->reply[0] != no) {
        dprintf(2, "days: %s, an input made for %zu: %zu answered, %s\n", call->name, no, (size_t)our->reply[0], same ? "both alike" : "not both alike");
        exit(1);
    }
    printf("%s %zu %zu %zu\n", call->name, no, (size_t)proved, (size_t)second);
}

static void measure(const struct load *load, bool time)
{
    build(load);
    for (int call = 0; call < CALLS; call++) {
        if (!is_asked(&calls[call])) {
            continue;
        }
        prepare_all(call, load);
        if (time && task_count > 0) {
            print_times(&calls[call], ours, theirs, task_count);
        }
        for (size_t i = 0; !time && i < task_count; i++) {
            count(&calls[call], &ours[i], &theirs[i], numbers[i]);
        }
    }
}

int main(int word_count, char **words)
{
    bool measured = asked(word_count, words);
    for (size_t i = 0; i < LOADS; i++) {
        if (!measured) {
            puts(loads[i].name);
        } else if (is(words[2], loads[i].name)) {
            measure(&loads[i], way == TIME);
        }
    }
    return 0;
}
