/* varied.h: sets of the harness as inputs of the bench, so that a load has some hundred that differ: no branch is known by heart then.
   It assumes that a stream of cases of judge (harness/README.md) comes on standard input: its sets of 1 to MOST_SET bytes are taken, as
   the second program judges them. It ends with status 1 if there are too few. */
#ifndef VARIED_H
#define VARIED_H
#include "inputs.h"

enum {
    STREAM = 8000000, /* bytes */
    CASE_HEAD = 9, /* the letter of the call, and how many bytes the set has */
    MOST_SET = 600,
    PATIENT_LABEL = 3000,
    MOST_PATIENT = 10
};

extern __typeof__(gdt_judge) second_judge;

static uint8_t stream_bytes[STREAM + CASE_HEAD]; /* zeros after what is read */
static size_t stream_used, stream_at;

static void read_stream(void)
{
    long got = 1;
    while (got > 0) {
        got = read(0, stream_bytes + stream_used, STREAM - stream_used);
        stream_used += got > 0 ? (size_t)got : 0;
    }
}

/* The set of the next case, if it is not too long and has a byte. */
static void next_set(struct input *input)
{
    uint64_t length = 0;
    if (stream_used == 0) {
        read_stream();
    }
    while (length == 0 || length > MOST_SET) {
        memcpy(&length, stream_bytes + stream_at + 1, sizeof length);
        stream_at += CASE_HEAD + length;
        if (stream_at > stream_used) {
            dprintf(2, "calls: too few cases of judge on standard input\n");
            exit(1);
        }
    }
    input->used = length;
    memcpy(input->set, stream_bytes + stream_at - length, length);
}

/* Of an accepted set its list, and a patient's number that is one byte longer, or shorter if that is too long. */
static void offer_all(struct input *input)
{
    size_t number = 1;
    while (number_at(line_at(input, number) + LENGTH_DIGITS, LABEL_DIGITS) != PATIENT_LABEL) {
        number++;
    }
    size_t length = content_length(input, number);
    put_list(input);
    change_line(input, number, length < MOST_PATIENT ? length + 1 : length - 1);
}

/* The next set that is accepted or, if that is asked, refused. */
static void next_input(struct input *input, bool is_refused)
{
    struct gdt_judged judged;
    do {
        next_set(input);
        judged = second_judge(input->set, input->used);
    } while ((judged.no != 0) != is_refused);
    input->no = judged.no;
    if (judged.no == 0) {
        input->used = judged.length;
        input->lines = judged.lines;
        offer_all(input);
    }
}
#endif
