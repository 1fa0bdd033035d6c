/* sets.h: the sets that the loads of bench/calls.c and bench/cables.c have, and those of bench/days.c have not. */
#ifndef SETS_H
#define SETS_H
#include "inputs.h"

/* The paper's set P. */
static void paper(struct input *input)
{
    line(input, 8000, "6300");
    line(input, 8100, "00051");
    line(input, 9218, "02.10");
    line(input, 3000, "0");
}

static void long_512(struct input *input)
{
    begin(input);
    lines(input, 507, 6220, forty);
}
#endif
