/* cable_inputs.h: the fixed inputs of the bench for the calls of the cable: sets that are sent and the blocks that are asked of them, replies,
   blocks that are received, and for each refusal number an input that is refused so. It assumes the sets of bench/sets.h. */
#ifndef CABLE_INPUTS_H
#define CABLE_INPUTS_H
#include "sets.h"

enum {
    MOST_DATA = 128, /* bytes of a block */
    SEPARATOR = 0x1C,
    SHORT_LINE = 20, /* a 1Ch stands after this many bytes */
    OPEN_BYTES = 1150, /* of a set, that the buffer has before a block is received */
    SPARE_BYTES = 2 * MOST_DATA, /* that it has after them: all data may be 1Ch */
    CABLE_TURNS = 24 /* inputs of a load for a call */
};

/* What a call of the cable is given: a set, and which block of it with which count; or a reply and the link's record; or a block that is
   received, the receiver's record and the room of its buffer. The call must answer the number `no`. */
struct turn {
    size_t no;
    struct input set;
    size_t block, count;
    uint8_t bytes[GDT_BLOCK + 1];
    size_t length;
    struct gdt_link link;
    struct gdt_receiver receiver;
    size_t room;
};

/* ---- Sending ----------------------------------------------------------------------------------------------------------------- */

/* How many blocks a set has: a 1Ch stands for the two bytes of each line's end but the last one's. */
static size_t blocks_of(const struct input *set)
{
    size_t data = set->used - set->lines - 1;
    return data <= MOST_DATA ? 2 : (data + MOST_DATA - 1) / MOST_DATA;
}

/* The first block of a set, the one in the middle, and the last one; how many these are. */
static size_t ask_blocks(struct turn *turns, void (*make_set)(struct input *))
{
    static struct turn turn;
    memset(&turn, 0, sizeof turn);
    make_set(&turn.set);
    finish(&turn.set);
    size_t last = blocks_of(&turn.set) - 1, asked[] = {0, last, last / 2}, count = last > 1 ? 3 : 2;
    for (size_t i = 0; i < count; i++) {
        turns[i] = turn;
        turns[i].block = asked[i];
        turns[i].count = asked[i] % 10;
    }
    return count;
}

/* A reply to a block in the middle of a set that has no end. */
static void hear(struct turn *turn, const char *reply)
{
    memset(turn, 0, sizeof *turn);
    turn->link = (struct gdt_link){GDT_UNDER_WAY, (size_t)-1, 1, 4, 0, 4};
    turn->length = strlen(reply);
    memcpy(turn->bytes, reply, turn->length);
}

/* ---- Receiving --------------------------------------------------------------------------------------------------------------- */

/* The CRC of appendix C. */
static unsigned crc_of(const uint8_t *bytes, size_t length)
{
    unsigned crc = 0;
    for (size_t i = 0; i < 8 * length; i++) {
        crc ^= (bytes[i / 8] & 0x80u >> i % 8) != 0 ? 0x8000 : 0;
        crc = (crc << 1 ^ (crc & 0x8000 ? 0x8005 : 0)) & 0xFFFF;
    }
    return crc;
}

/* A block inside an open set, with 128 data bytes: after each `step` of them a 1Ch, none if `step` is 0. */
static void put_block(struct turn *turn, size_t step)
{
    static const char digits[] = "0123456789ABCDEF";
    memset(turn, 0, sizeof *turn);
    turn->receiver = (struct gdt_receiver){1, 4, 1, OPEN_BYTES};
    turn->room = OPEN_BYTES + SPARE_BYTES;
    memcpy(turn->bytes, "5B01", 4);
    turn->length = 4;
    for (size_t i = 1; i <= MOST_DATA; i++) {
        turn->bytes[turn->length++] = step != 0 && i % step == 0 ? SEPARATOR : (uint8_t)('a' + i % 26);
    }
    unsigned crc = crc_of(turn->bytes, turn->length);
    for (int shift = 12; shift >= 0; shift -= 4) {
        turn->bytes[turn->length++] = (uint8_t)digits[crc >> shift & 15];
    }
    turn->bytes[turn->length++] = '\r';
}

/* A block that is refused by this number. For GDT_BAD_BLOCK the last data byte is bad, for GDT_BAD_CRC the last hex digit. */
static void put_refused_block(struct turn *turn, size_t no)
{
    put_block(turn, SHORT_LINE);
    turn->no = no;
    switch (no) {
    case GDT_NO_ROOM: turn->room = OPEN_BYTES + MOST_DATA; break;
    case GDT_BAD_BLOCK: turn->bytes[turn->length - 6] = '\n'; break;
    default: turn->bytes[turn->length - 2] = turn->bytes[turn->length - 2] == '0' ? '1' : '0'; break;
    }
}
#endif
