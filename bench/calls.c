/* calls.c: instructions and times of every call in the proved library (gdt_x) and in the second program (second_x), in one process.
   It assumes x86-64 and how words are passed there; tools/both builds it, and bench/measure.py runs it and reads its lines:
   `calls` prints the loads, `calls count LOAD` prints `CALL NO PROVED SECOND`, instructions, for each input of the load and each call
   that answers its number, counted by the trap flag; `calls blocks LOAD` prints the same, counted by blocks (bench/blocks.h);
   `calls time LOAD` prints `CALL PROVED SECOND`, nanoseconds of the process, for each sample of the whole load. With the name of a call
   after LOAD they print that call's lines alone.
   The loads varied and varied-refused read a stream of the harness from standard input (bench/varied.h).
   It ends with status 1 if the two answer differently or not the number that the input is made for. The calls on a day file are in
   bench/days.c, those of the cable in bench/cables.c, recoding in bench/recodes.c. */
#include "x86.h"
#include "icount.h"
#include "gdt.h"
#include "sets.h"
#include "varied.h"

enum {
    OUT = BUFFER,
    SPARE = 7, /* bytes that a correction has after the set, as it is or as it becomes */
    CHANGED_LINE = 9, /* in the loads of corrections; its content may have 1 to 60 bytes */
    LOW_BYTE = '\t',
    MOST_SIZES = 6,
    MOST_INPUTS = 256, /* of a load; if it has as many, instructions are counted of each COUNTED-th one alone, times are taken of all */
    COUNTED = 16
};
#include "tasks.h"

/* ---- The calls --------------------------------------------------------------------------------------------------------------- */

extern __typeof__(gdt_index) second_index;
extern __typeof__(gdt_list) second_list;
extern __typeof__(gdt_write) second_write;
extern __typeof__(gdt_correct) second_correct;
extern __typeof__(gdt_view) second_view;
extern __typeof__(gdt_view_copy) second_view_copy;

/* The floor: each byte of the set is read once. It stands in the place of both programs, as does the C library's move of the lines that a
   correction moves. */
static uint64_t byte_sum(const uint8_t *bytes, size_t length)
{
    uint64_t sum = 0;
    for (size_t i = 0; i < length; i++) {
        sum += bytes[i];
    }
    return sum;
}

enum { JUDGE, INDEX, LIST, WRITE, CORRECT, VIEW, VIEW_COPY, BYTE_SUM, MOVE, CALLS };

static const struct call calls[CALLS] = {
    [JUDGE] = {"judge", (void *)gdt_judge, (void *)second_judge},
    [INDEX] = {"index", (void *)gdt_index, (void *)second_index},
    [LIST] = {"list", (void *)gdt_list, (void *)second_list},
    [WRITE] = {"write", (void *)gdt_write, (void *)second_write},
    [CORRECT] = {"correct", (void *)gdt_correct, (void *)second_correct},
    [VIEW] = {"view", (void *)gdt_view, (void *)second_view},
    [VIEW_COPY] = {"view_copy", (void *)gdt_view_copy, (void *)second_view_copy},
    [BYTE_SUM] = {"byte_sum", (void *)byte_sum, (void *)byte_sum},
    [MOVE] = {"move", (void *)memmove, (void *)memmove},
};

#define OF(call) (1u << (call))

/* ---- The loads --------------------------------------------------------------------------------------------------------------- */

static void long_groups(struct input *input)
{
    begin(input);
    for (size_t i = 0; i < 126; i++) {
        line(input, 8410, "abcdefghijklmnopqrst");
        line(input, 8411, forty);
        line(input, 8430, forty);
        line(input, 8470, forty);
    }
    lines(input, 3, 6220, forty);
}

/* Lines of this many letters until the set has `count` lines. */
static void fill_lines(struct input *input, size_t count, size_t length)
{
    static char text[LONGEST_CONTENT + 1];
    memset(text, 'a', length);
    text[length] = 0;
    lines(input, count - input->lines, 6220, text);
}

static void sixty_512(struct input *input)
{
    begin(input);
    fill_lines(input, GDT_MOST_LINES, MOST_CONTENT);
}

static void lines_of_6(struct input *input, size_t count)
{
    begin(input);
    fill_lines(input, count, 6);
    finish(input);
}

static void lines_of_40(struct input *input, size_t count)
{
    begin(input);
    fill_lines(input, count, 40);
    finish(input);
}

/* Line 6 has an unknown label. All lines after it have to be read, since a fault of their bytes would be answered before it. */
static void unknown_label(struct input *input, size_t count, size_t length)
{
    begin(input);
    line(input, 9999, "abcdef");
    fill_lines(input, count, length);
    finish(input);
    input->no = GDT_NOT_IN_SET;
}

static void unknown_then_40(struct input *input, size_t count)
{
    unknown_label(input, count, 40);
}

static void unknown_then_990(struct input *input, size_t count)
{
    unknown_label(input, count, LONGEST_CONTENT);
}

static void new_length(struct input *input, size_t length)
{
    change_line(input, CHANGED_LINE, length);
}

/* The same, and the last byte of the new content is under 20h. */
static void new_low_at_end(struct input *input, size_t length)
{
    new_length(input, length);
    input->content[length - 1] = LOW_BYTE;
    choose_line(input, CHANGED_LINE);
    input->no = GDT_BAD_BYTE;
}

/* A sheet of this many entries for the last line. */
static void long_sheet(struct input *input, size_t entries)
{
    static const uint8_t content[] = {'a', 'b', 'c', 'd', 'e'};
    input->line = input->lines;
    input->sheet_used = 0;
    for (size_t i = 0; i < entries; i++) {
        put_entry(input->sheet, &input->sheet_used, input->line, content, sizeof content);
    }
}

static void next_accepted(struct input *input, size_t number)
{
    (void)number;
    next_input(input, false);
}

static void next_refused(struct input *input, size_t number)
{
    (void)number;
    next_input(input, true);
}

/* The calls that are made on a load. */
enum {
    ON_SET = OF(MOVE) - 1,
    ON_BYTES = OF(JUDGE) | OF(LIST) | OF(WRITE),
    ON_BAD_LINES = OF(JUDGE) | OF(WRITE),
    ON_VARIED = OF(JUDGE) | OF(INDEX) | OF(LIST) | OF(CORRECT) | OF(VIEW),
    CORRECTION = OF(CORRECT) | OF(MOVE)
};

static const struct load {
    const char *name;
    void (*set)(struct input *); /* which is finished then; none: `put` puts all */
    void (*put)(struct input *, size_t); /* puts what differs, for each of the sizes; without any, for 1, 2, 3 .. */
    unsigned made;
    size_t count, sizes[MOST_SIZES]; /* of the inputs */
} loads[] = {
    {"P", paper, NULL, ON_SET, 1, {0}},
    {"77x6", short_77, NULL, ON_SET, 1, {0}},
    {"77x6-7bit", seven_bit_77, NULL, ON_SET, 1, {0}},
    {"512x6", short_512, NULL, ON_SET | OF(MOVE), 1, {0}},
    {"512x40", long_512, NULL, ON_SET | OF(MOVE), 1, {0}},
    {"512x60", sixty_512, NULL, ON_BYTES, 1, {0}},
    {"groups", long_groups, NULL, ON_SET, 1, {0}},
    {"512x6-longer", short_512, new_length, CORRECTION, 1, {60}},
    {"512x6-shorter", short_512, new_length, CORRECTION, 2, {5, 1}},
    {"512x40-longer", long_512, new_length, CORRECTION, 1, {60}},
    {"512x40-shorter", long_512, new_length, CORRECTION, 2, {39, 1}},
    {"lines6", NULL, lines_of_6, OF(JUDGE), 6, {16, 32, 64, 128, 256, 512}},
    {"lines40", NULL, lines_of_40, OF(JUDGE), 6, {16, 32, 64, 128, 256, 512}},
    {"sheet16", short_512, long_sheet, OF(VIEW), 1, {16}},
    {"sheet256", short_512, long_sheet, OF(VIEW), 1, {256}},
    {"sheet4096", short_512, long_sheet, OF(VIEW), 1, {4096}},
    {"varied", NULL, next_accepted, ON_VARIED | OF(WRITE), MOST_INPUTS, {0}},
    {"varied-refused", NULL, next_refused, ON_VARIED, MOST_INPUTS, {0}},
    {"unknown40", NULL, unknown_then_40, ON_BAD_LINES, 1, {512}},
    {"unknown990", NULL, unknown_then_990, ON_BAD_LINES, 1, {44}},
    {"low990-new", short_77, new_low_at_end, OF(CORRECT) | OF(VIEW), 1, {LONGEST_CONTENT}},
    {"refused", NULL, refused, ON_SET, GDT_HIGH_BYTE, {0}},
};

enum { LOADS = sizeof loads / sizeof *loads };

static struct input inputs[MOST_INPUTS] AT_64;

static void build(const struct load *load, size_t number)
{
    struct input *input = &inputs[number];
    if (load->set != NULL) {
        load->set(input);
        finish(input);
    }
    if (load->put != NULL) {
        load->put(input, load->sizes[0] == 0 ? number + 1 : load->sizes[number]);
    }
}

/* ---- Tasks ------------------------------------------------------------------------------------------------------------------- */

/* Whether a call can answer a number, 0 if it is done; the byte sum goes with judge, the move with a correction that is made.
   GDT_TOO_MANY_SETS is a day file's alone. */
static bool can_answer(int call, size_t no)
{
    bool of_set = no <= GDT_BAD_SUM || no == GDT_HIGH_BYTE;
    if (no == GDT_TOO_MANY_SETS) {
        return false;
    }
    switch (call) {
    case JUDGE:
    case BYTE_SUM: return of_set;
    case INDEX:
    case LIST: return of_set || no == GDT_NO_ROOM;
    case WRITE: return no <= GDT_EMPTY || (no >= GDT_BAD_BYTE && no <= GDT_MISSING && no != GDT_NO_SUM) || no >= GDT_BAD_LIST;
    case CORRECT: return no != GDT_BAD_LIST;
    case MOVE: return no == 0;
    default: return no != GDT_NO_ROOM;
    }
}

static struct task ours[MOST_INPUTS] AT_64, theirs[MOST_INPUTS] AT_64;

/* The used length once the line is corrected. */
static size_t used_then(const struct input *input)
{
    return input->used + input->content_length - input->old_length;
}

static size_t buffer_room(const struct input *input)
{
    size_t used = input->used, then = used_then(input);
    return input->no == GDT_NO_ROOM ? used : (then > used ? then : used) + SPARE;
}

/* The move of all lines after the corrected one. */
static void put_move(struct task *task, const struct input *input)
{
    size_t used = input->used, tail = place_of(input, input->line + 1);
    uint64_t from = W(task->out) + tail;
    GIVE(from + used_then(input) - used, from, used - tail);
}

/* A call that answers a record is given its place as the first word. */
static void put_words(struct task *task, int call, const struct input *input)
{
    bool tight = input->no == GDT_NO_ROOM;
    uint64_t reply = W(task->reply), out = W(task->out), set = W(input->set), sheet = W(input->sheet), content = W(input->content);
    size_t used = input->used, list_room = tight ? input->list_used - 1 : used;
    switch (call) {
    case JUDGE: GIVE(reply, set, used); return;
    case INDEX: GIVE(reply, set, used, out, input->lines - tight); return;
    case LIST: GIVE(reply, set, used, out, list_room); return;
    case WRITE: GIVE(reply, W(input->list), input->list_used, out, used - tight); return;
    case CORRECT: GIVE(reply, out, buffer_room(input), used, input->line, content, input->content_length); return;
    case VIEW: GIVE(reply, set, used, sheet, input->sheet_used, input->line); return;
    case VIEW_COPY: GIVE(set, used, sheet, input->sheet_used, input->line, out, input->content_length); return;
    case BYTE_SUM: GIVE(set, used); return;
    case MOVE: put_move(task, input); return;
    }
}

/* The call after it: a correction with the old content, the move of the lines back to their place. */
static void turn_back(struct task *task, int call, const struct input *input)
{
    enum { TO_WORD = 0, FROM_WORD = 1, USED_WORD = 3, CONTENT_WORD = 5, LENGTH_WORD = 6 };
    uint64_t *back = task->words[1];
    if (call == MOVE) {
        back[TO_WORD] = task->words[0][FROM_WORD];
        back[FROM_WORD] = task->words[0][TO_WORD];
    } else if (input->no == 0) {
        back[USED_WORD] = used_then(input);
        back[CONTENT_WORD] = W(input->old);
        back[LENGTH_WORD] = input->old_length;
    }
}

static void prepare(struct task *task, int call, const struct input *input)
{
    put_words(task, call, input);
    fill(task);
    if (call == CORRECT || call == MOVE) {
        memcpy(task->out, input->set, input->used);
        turn_back(task, call, input);
    }
}

/* ---- Counting and time ------------------------------------------------------------------------------------------------------- */

/* The instructions of a call; what a copied view answers goes to the place of a record. */
static uint64_t counted_in(struct task *task, int call, void *function)
{
    uint64_t word, all = counted(task, function, &word);
    if (call == VIEW_COPY) {
        task->reply[0] = word;
    }
    return all;
}

static void count(int call, const struct input *input)
{
    uint64_t proved, second;
    size_t copied = input->no == 0 ? input->content_length : 0;
    prepare(&ours[0], call, input);
    prepare(&theirs[0], call, input);
    proved = counted_in(&ours[0], call, calls[call].proved);
    second = counted_in(&theirs[0], call, calls[call].second);
    bool same = alike(&ours[0], &theirs[0]);
    bool right = call == BYTE_SUM || call == MOVE || ours[0].reply[0] == (call == VIEW_COPY ? copied : input->no);
    if (!same || !right) {
        dprintf(2, "calls: %s, an input made for %zu: %zu answered, %s\n", calls[call].name, input->no, (size_t)ours[0].reply[0],
                same ? "both alike" : "not both alike");
        exit(1);
    }
    printf("%s %zu %zu %zu\n", calls[call].name, input->no, (size_t)proved, (size_t)second);
}

static void measure(const struct load *load, int call, bool time)
{
    size_t task_count = 0, step = time || load->count < MOST_INPUTS ? 1 : COUNTED;
    for (size_t i = 0; i < load->count; i += step) {
        if (can_answer(call, inputs[i].no) && time) {
            prepare(&ours[task_count], call, &inputs[i]);
            prepare(&theirs[task_count++], call, &inputs[i]);
        } else if (can_answer(call, inputs[i].no)) {
            count(call, &inputs[i]);
        }
    }
    if (time) {
        print_times(&calls[call], ours, theirs, task_count);
    }
}

static void measure_all(const struct load *load, bool time)
{
    for (size_t i = 0; i < load->count; i++) {
        build(load, i);
    }
    for (int call = 0; call < CALLS; call++) {
        if (load->made & OF(call) && is_asked(&calls[call])) {
            measure(load, call, time);
        }
    }
}

int main(int word_count, char **words)
{
    bool measured = asked(word_count, words);
    for (size_t i = 0; i < LOADS; i++) {
        if (!measured) {
            puts(loads[i].name);
        } else if (is(words[2], loads[i].name)) {
            measure_all(&loads[i], way == TIME);
        }
    }
    return 0;
}
