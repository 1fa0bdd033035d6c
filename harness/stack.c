/* stack.c: harness/cases.c with every call made on a painted stack first: writes `stack CALL BYTES` before the line of the case.
   It assumes x86-64 and how words are passed there (tools/stackuse.h). The call is then made once more, for its answer. */
#include "x86.h"
#include "stackuse.h"
#include "gdt.h"

#define WORDS(...) (const uint64_t[STACK_WORDS]){__VA_ARGS__}

static void measure(const char *call, void *function, const uint64_t *words)
{
    printf("stack %s %zu\n", call, stack_use(function, words));
}

static struct gdt_judged stacked_judge(const uint8_t *set, size_t set_length)
{
    struct gdt_judged reply;
    measure("judge", (void *)gdt_judge, WORDS(W(&reply), W(set), set_length));
    return gdt_judge(set, set_length);
}

static struct gdt_made stacked_index(const uint8_t *set, size_t set_length, struct gdt_entry *out, size_t room)
{
    struct gdt_made reply;
    measure("index", (void *)gdt_index, WORDS(W(&reply), W(set), set_length, W(out), room));
    return gdt_index(set, set_length, out, room);
}

static struct gdt_made stacked_list(const uint8_t *set, size_t set_length, uint8_t *out, size_t room)
{
    struct gdt_made reply;
    measure("list", (void *)gdt_list, WORDS(W(&reply), W(set), set_length, W(out), room));
    return gdt_list(set, set_length, out, room);
}

static struct gdt_made stacked_write(const uint8_t *list, size_t list_length, uint8_t *out, size_t room)
{
    struct gdt_made reply;
    measure("write", (void *)gdt_write, WORDS(W(&reply), W(list), list_length, W(out), room));
    return gdt_write(list, list_length, out, room);
}

/* A correction changes its own input: it is measured on a copy. */
static struct gdt_made stacked_correct(uint8_t *buffer, size_t room, size_t used, size_t line, const uint8_t *content, size_t content_length)
{
    struct gdt_made reply;
    uint8_t *copy = malloc(room + 1);
    if (copy == NULL) {
        exit(2);
    }
    memcpy(copy, buffer, room);
    measure("correct", (void *)gdt_correct, WORDS(W(&reply), W(copy), room, used, line, W(content), content_length));
    free(copy);
    return gdt_correct(buffer, room, used, line, content, content_length);
}

static struct gdt_viewed stacked_view(const uint8_t *set, size_t set_length, const uint8_t *sheet, size_t sheet_length, size_t line)
{
    struct gdt_viewed reply;
    measure("view", (void *)gdt_view, WORDS(W(&reply), W(set), set_length, W(sheet), sheet_length, line));
    return gdt_view(set, set_length, sheet, sheet_length, line);
}

static size_t stacked_view_copy(const uint8_t *set, size_t set_length, const uint8_t *sheet, size_t sheet_length, size_t line, uint8_t *out,
                                size_t room)
{
    measure("view_copy", (void *)gdt_view_copy, WORDS(W(set), set_length, W(sheet), sheet_length, line, W(out), room));
    return gdt_view_copy(set, set_length, sheet, sheet_length, line, out, room);
}

static struct gdt_made stacked_day_build(const uint8_t *file, size_t file_length, size_t *index, size_t numbers)
{
    struct gdt_made reply;
    measure("day_build", (void *)gdt_day_build, WORDS(W(&reply), W(file), file_length, W(index), numbers));
    return gdt_day_build(file, file_length, index, numbers);
}

static struct gdt_made stacked_day_append(const uint8_t *file, size_t file_length, size_t old, size_t *index, size_t numbers, size_t count)
{
    struct gdt_made reply;
    measure("day_append", (void *)gdt_day_append, WORDS(W(&reply), W(file), file_length, old, W(index), numbers, count));
    return gdt_day_append(file, file_length, old, index, numbers, count);
}

/* A lookup takes one word more than a painted stack passes: it is made by a function that is given them in a record. What that function
   takes, 80 bytes, is counted too. */
struct find {
    const uint8_t *file;
    size_t file_length;
    const size_t *index;
    size_t numbers;
    const uint8_t *asked;
    size_t asked_length;
    size_t *out;
    size_t room;
};

static void make_find(struct gdt_made *reply, const struct find *f)
{
    *reply = gdt_day_find(f->file, f->file_length, f->index, f->numbers, f->asked, f->asked_length, f->out, f->room);
}

static struct gdt_made stacked_day_find(const uint8_t *file, size_t file_length, const size_t *index, size_t numbers, const uint8_t *asked,
                                        size_t asked_length, size_t *out, size_t room)
{
    struct gdt_made reply;
    const struct find given = {file, file_length, index, numbers, asked, asked_length, out, room};
    measure("day_find", (void *)make_find, WORDS(W(&reply), W(&given)));
    return gdt_day_find(file, file_length, index, numbers, asked, asked_length, out, room);
}

static struct gdt_made stacked_block(const uint8_t *set, size_t set_length, size_t block, size_t count, uint8_t out[GDT_BLOCK])
{
    struct gdt_made reply;
    measure("block", (void *)gdt_block, WORDS(W(&reply), W(set), set_length, block, count, W(out)));
    return gdt_block(set, set_length, block, count, out);
}

/* The sender changes its record: it is measured on a copy. */
static struct gdt_sent stacked_send(struct gdt_link *link, size_t begin, const uint8_t *bytes, size_t length)
{
    struct gdt_sent reply;
    struct gdt_link copy = *link;
    measure("send", (void *)gdt_send, WORDS(W(&reply), W(&copy), begin, W(bytes), length));
    return gdt_send(link, begin, bytes, length);
}

/* The receiver's record is passed in four words on the stack: as a lookup it is made by a function that is given all in a record. What
   that function takes, 128 bytes, is counted too. A block is put into a copy of the buffer. */
struct receipt {
    struct gdt_receiver receiver;
    uint8_t *buffer;
    size_t room;
    const uint8_t *block;
    size_t block_length;
};

static void make_receipt(struct gdt_received *reply, const struct receipt *r)
{
    *reply = gdt_receive(r->receiver, r->buffer, r->room, r->block, r->block_length);
}

static struct gdt_received stacked_receive(struct gdt_receiver receiver, uint8_t *buffer, size_t room, const uint8_t *block,
                                           size_t block_length)
{
    struct gdt_received reply;
    uint8_t *copy = malloc(room + 1);
    if (copy == NULL) {
        exit(2);
    }
    memcpy(copy, buffer, room);
    const struct receipt given = {receiver, copy, room, block, block_length};
    measure("receive", (void *)make_receipt, WORDS(W(&reply), W(&given)));
    free(copy);
    return gdt_receive(receiver, buffer, room, block, block_length);
}

/* Recoding changes its own input: it is measured on a copy. */
static void measure_recoding(const char *call, void *function, const uint8_t *buffer, size_t room, size_t used)
{
    struct gdt_made reply;
    uint8_t *copy = malloc(room + 1);
    if (copy == NULL) {
        exit(2);
    }
    memcpy(copy, buffer, room);
    measure(call, function, WORDS(W(&reply), W(copy), room, used));
    free(copy);
}

static struct gdt_made stacked_to_437(uint8_t *buffer, size_t room, size_t used)
{
    measure_recoding("to_437", (void *)gdt_to_437, buffer, room, used);
    return gdt_to_437(buffer, room, used);
}

static struct gdt_made stacked_to_1252(uint8_t *buffer, size_t room, size_t used)
{
    measure_recoding("to_1252", (void *)gdt_to_1252, buffer, room, used);
    return gdt_to_1252(buffer, room, used);
}

#define gdt_judge stacked_judge
#define gdt_index stacked_index
#define gdt_list stacked_list
#define gdt_write stacked_write
#define gdt_correct stacked_correct
#define gdt_view stacked_view
#define gdt_view_copy stacked_view_copy
#define gdt_day_build stacked_day_build
#define gdt_day_append stacked_day_append
#define gdt_day_find stacked_day_find
#define gdt_block stacked_block
#define gdt_send stacked_send
#undef gdt_receive /* its symbol, in gdt.h */
#define gdt_receive stacked_receive
#define gdt_to_437 stacked_to_437
#define gdt_to_1252 stacked_to_1252
#include "cases.c"
