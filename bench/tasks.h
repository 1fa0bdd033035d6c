/* tasks.h: a call of gdt.h as words that either program can be given; its instructions are counted, its time is taken. bench/calls.c,
   bench/days.c, bench/cables.c and bench/recodes.c share it. It assumes x86-64 and how words are passed there, and that OUT names the bytes that a call writes
   at most. */
#ifndef TASKS_H
#define TASKS_H
#include "blocks.h"

enum {
    WORDS = 10, /* that a call is given at most: six in registers, then on the stack */
    REPLY_WORDS = 9,
    FILL = 0xAA, /* what is lent holds before a call */
    SAMPLES = 3, /* bench/measure.py runs it some times */
    LEAST_SAMPLE = 4000000 /* nanoseconds */
};

struct call {
    const char *name;
    void *proved, *second;
};

/* A call that one of the two programs is to make: the words that it is given, and those of a call that turns it back; the record that
   it answers, and what it is lent to be written. */
struct task {
    uint64_t words[2][WORDS], reply[REPLY_WORDS];
    uint8_t out[OUT];
};

#define GIVE(...) memcpy(task->words[0], (const uint64_t[WORDS]){__VA_ARGS__}, sizeof task->words[0])
#define W(pointer) (uint64_t)(uintptr_t)(pointer)

/* After its words are put. */
static void fill(struct task *task)
{
    memcpy(task->words[1], task->words[0], sizeof task->words[1]);
    memset(task->reply, FILL, sizeof task->reply);
    memset(task->out, FILL, sizeof task->out);
}

/* What the calls read and write starts at a multiple of 64 bytes: the C library copies by other instructions at other places, and these are not to hang on what else is linked. */
#define AT_64 __attribute__((aligned(64)))

/* Makes any call: words in, a word out. */
__attribute__((noinline)) static uint64_t make(void *function, const uint64_t *w)
{
    typedef uint64_t any(uint64_t, uint64_t, uint64_t, uint64_t, uint64_t, uint64_t, uint64_t, uint64_t, uint64_t, uint64_t);
    return ((any *)function)(w[0], w[1], w[2], w[3], w[4], w[5], w[6], w[7], w[8], w[9]);
}

static bool is(const char *word, const char *other)
{
    return strcmp(word, other) == 0;
}

/* What a program is asked for: the instructions of a load by the trap flag or by blocks (bench/blocks.h), or its times; of all calls, or of one. */
static enum { BY_TRAP, BY_BLOCKS, TIME, WAYS } way;
static const char *asked_call;

/* Whether a load is asked for, in which way, and of which call; else the names of the loads are. */
static bool asked(int word_count, char **words)
{
    static const char *const names[WAYS] = {[BY_TRAP] = "count", [BY_BLOCKS] = "blocks", [TIME] = "time"};
    asked_call = word_count == 4 ? words[3] : NULL;
    for (way = 0; (word_count == 3 || word_count == 4) && way < WAYS; way++) {
        if (is(words[1], names[way])) {
            return true;
        }
    }
    return false;
}

static bool is_asked(const struct call *call)
{
    return asked_call == NULL || is(asked_call, call->name);
}

/* ---- Counting ---------------------------------------------------------------------------------------------------------------- */

/* One instruction, the return. */
static void nothing(void)
{
    __asm__ volatile("");
}

/* The instructions of a call by blocks; by the trap flag those of the call and of what is around it. One code for every function, so that what is around it, and where the
   stack is, are the same. */
__attribute__((noinline)) static uint64_t counted_around(const struct task *task, void *function, uint64_t *word)
{
    uint64_t all;
    if (way == BY_BLOCKS) {
        blocks_start(function);
        *word = make((void *)blocks_enter, task->words[0]);
        return blocks_count;
    }
    ICOUNT(all, *word = make(function, task->words[0]));
    return all;
}

/* The instructions of a call, from its first to its return; `word` is what it answers if that is no record. */
static uint64_t counted(const struct task *task, void *function, uint64_t *word)
{
    static void *volatile least = (void *)nothing; /* the compiler must not know it, or it makes other code for it */
    uint64_t around = counted_around(task, least, word) - 1;
    return counted_around(task, function, word) - around;
}

static bool alike(const struct task *task, const struct task *other)
{
    return memcmp(task->reply, other->reply, sizeof task->reply) == 0 && memcmp(task->out, other->out, OUT) == 0;
}

/* ---- Time -------------------------------------------------------------------------------------------------------------------- */

static uint64_t now(void)
{
    struct timespec time;
    clock_gettime(CLOCK_PROCESS_CPUTIME_ID, &time);
    return (uint64_t)time.tv_sec * 1000000000 + (uint64_t)time.tv_nsec;
}

/* The time of this many rounds through the tasks; corrections are made and turned back by turns. */
static uint64_t timed(const struct task *tasks, size_t task_count, void *function, size_t rounds)
{
    uint64_t start = now();
    for (size_t round = 0; round < rounds; round++) {
        for (size_t i = 0; i < task_count; i++) {
            make(function, tasks[i].words[round % 2]);
        }
    }
    return now() - start;
}

static void print_times(const struct call *call, const struct task *ours, const struct task *theirs, size_t task_count)
{
    size_t rounds = 2;
    timed(theirs, task_count, call->second, rounds); /* an emulator translates code when it is met first */
    timed(ours, task_count, call->proved, rounds);
    while (timed(ours, task_count, call->proved, rounds) < LEAST_SAMPLE) {
        rounds *= 2;
    }
    for (int sample = 0; sample < SAMPLES; sample++) {
        uint64_t proved = timed(ours, task_count, call->proved, rounds);
        uint64_t second = timed(theirs, task_count, call->second, rounds);
        printf("%s %zu %zu\n", call->name, (size_t)proved, (size_t)second);
    }
}
#endif
