/* blocks.h: the exact number of instructions of a call, as tools/icount.h counts it, some hundred times as fast. The code is not run where it stands but in copies of
   its blocks, each made when it is first reached: a block goes from one instruction to the next jump, call or return, and its copy first adds to the count how many
   instructions it has. They are copied byte for byte. Only what counts from the place of an instruction is changed: an address, so that it names the same byte, and the
   jump at the end, which comes back here with the place that it leads to. Registers, flags and stack are the code's own, and so are the return addresses on the stack.
   It assumes x86-64 Linux, and that code and copies are less than 2 GiB apart, as under tools/x86run. What it does not know how to copy ends the program with status 1,
   and so does a repeated string instruction, which the trap flag counts once for each time. tests/counts and bench/run hold its counts to those of the trap flag. */
#ifndef BLOCKS_H
#define BLOCKS_H
#ifndef X86_SYSTEM_HEADERS
int mprotect(void *, size_t, int);
#else
#include <sys/mman.h>
#endif

enum {
    COPIES = 1 << 22, /* bytes */
    COPY_PLACES = 1 << 20,
    BLOCK_MOST = 128, /* instructions */
    COPY_MOST = 4096, /* bytes that the copy of so many may have */
    GO_TO_LENGTH = 25, /* bytes of what put_go_to puts */
    MAY_ALL = 7 /* read, write and run */
};

/* No vector register may be changed while a block is copied, since the code has its values there: so nothing here is left to the C library, either. */
#define PLAIN_REGISTERS __attribute__((target("general-regs-only")))

/* Where the copy of a block is, by the last bits of the block's place; of two blocks with the same ones the later one stays. */
static struct copied {
    const uint8_t *block, *copy;
} blocks_at[COPY_PLACES] __attribute__((used));
_Static_assert(COPY_PLACES == 0xFFFFF + 1 && sizeof(struct copied) == 1 << 4, "blocks_go has these numbers");

static uint8_t blocks_copies[COPIES] __attribute__((aligned(4096)));
static volatile uint8_t *blocks_put; /* where the next byte of a copy goes */
static uint64_t blocks_count, blocks_spare; /* the instructions so far; a place for rax */
static const uint8_t *blocks_next __attribute__((used)), *blocks_end __attribute__((used)); /* where the code goes on; where the call returns to */

/* blocks_enter is called in the place of the function that blocks_next names. At blocks_go every register and flag is the code's. */
void blocks_enter(void);
void blocks_go(void);
__asm__(".text\n"
        "blocks_enter:\n\t"
        "movq (%rsp), %r11\n\t"
        "movq %r11, blocks_end(%rip)\n"
        "blocks_go:\n\t"
        "leaq -128(%rsp), %rsp\n\t" /* a function may use as many bytes below its stack */
        "pushfq\n\t"
        "pushq %rax\n\t"
        "pushq %rcx\n\t"
        "pushq %rdx\n\t"
        "movq blocks_next(%rip), %rax\n\t"
        "movl %eax, %ecx\n\t"
        "andl $0xFFFFF, %ecx\n\t"
        "shll $4, %ecx\n\t"
        "leaq blocks_at(%rip), %rdx\n\t"
        "addq %rdx, %rcx\n\t"
        "cmpq %rax, (%rcx)\n\t"
        "je 1f\n\t"
        "pushq %rsi\n\t"
        "pushq %rdi\n\t"
        "pushq %r8\n\t"
        "pushq %r9\n\t"
        "pushq %r10\n\t"
        "pushq %r11\n\t"
        "pushq %rbp\n\t"
        "movq %rsp, %rbp\n\t"
        "andq $-16, %rsp\n\t"
        "movq %rcx, %rdi\n\t"
        "pushq %rcx\n\t"
        "pushq %rcx\n\t"
        "callq blocks_copy\n\t"
        "popq %rcx\n\t"
        "movq %rbp, %rsp\n\t"
        "popq %rbp\n\t"
        "popq %r11\n\t"
        "popq %r10\n\t"
        "popq %r9\n\t"
        "popq %r8\n\t"
        "popq %rdi\n\t"
        "popq %rsi\n"
        "1:\n\t"
        "movq 8(%rcx), %rax\n\t"
        "movq %rax, blocks_next(%rip)\n\t"
        "popq %rdx\n\t"
        "popq %rcx\n\t"
        "popq %rax\n\t"
        "popfq\n\t"
        "leaq 128(%rsp), %rsp\n\t"
        "jmpq *blocks_next(%rip)\n");

PLAIN_REGISTERS static void blocks_trouble(const uint8_t *at, const char *what)
{
    dprintf(2, "blocks: %02x %02x %02x %02x %02x %02x %02x %02x: %s\n", at[0], at[1], at[2], at[3], at[4], at[5], at[6], at[7], what);
    exit(1);
}

/* ---- Reading an instruction -------------------------------------------------------------------------------------------------------- */

/* What stands after each opcode, sixteen of them in a line.
   -        nothing; s: a string instruction; u: one that is never reached
   b, d, q  a number of one byte; of four, but of two after 66h; of four, but of eight if it is wide
   m        a byte with the fields reg and rm, and the rest of an address; B, D: that, and b or d; t, T: as B and D if the operation is a test, else as m
   c, j     a jump on a condition, a jump, their distance is one byte; C, J, K: the same and a call, four bytes
   r, R     a return, with a number of two bytes
   x        as m; a call or a jump to where rm says, or something else
   .        not known, or a prefix */
static const char one_byte[] = "mmmmbd..mmmmbd.."
                               "mmmmbd..mmmmbd.."
                               "mmmmbd..mmmmbd.."
                               "mmmmbd..mmmmbd.."
                               "................"
                               "----------------"
                               "...m....dDbB...."
                               "cccccccccccccccc"
                               "BD.Bmmmmmmmmmmmm"
                               "----------..----"
                               "....ssssbdssssss"
                               "bbbbbbbbqqqqqqqq"
                               "BBRr..BD.-......"
                               "mmmm....mmmmmmmm"
                               "........KJ.j...."
                               ".....-tT--..--mx";
static const char after_0f[] = ".m.........u.m.."
                               "mmmmmmmmmmmmmmmm"
                               "........mmmmmmmm"
                               "................"
                               "mmmmmmmmmmmmmmmm"
                               "mmmmmmmmmmmmmmmm"
                               "mmmmmmmmmmmmmmmm"
                               "BBBBmmm-mmmmmmmm"
                               "CCCCCCCCCCCCCCCC"
                               "mmmmmmmmmmmmmmmm"
                               "...mBm.....mBmmm"
                               "mmmmmmmmmmBmmmmm"
                               "mmBmBBBm--------"
                               "mmmmmmmmmmmmmmmm"
                               "mmmmmmmmmmmmmmmm"
                               "mmmmmmmmmmmmmmmm";

/* An instruction: its bytes, what it is by a letter of the tables, its last prefix, 40h to 4Fh, that extends registers, or 0; and the places in it of its opcode's last byte, of
   the byte with the fields, and of an address that counts from its end; 0 if it has none. Its last bytes are its number or distance. */
struct instruction {
    size_t length, opcode, fields, address;
    uint8_t extended;
    char what;
};

PLAIN_REGISTERS static bool is_prefix(uint8_t byte)
{
    return byte == 0x66 || byte == 0xF2 || byte == 0xF3 || byte == 0xF0 || byte == 0x2E || byte == 0x3E || byte == 0x64;
}

/* What the opcode says, whose first byte is at found->opcode; its last one is there then. */
PLAIN_REGISTERS static char opcode_at(const uint8_t *at, struct instruction *found)
{
    enum { VECTOR_2 = 0xC5, VECTOR_3 = 0xC4, VECTOR_4 = 0x62 }; /* prefixes of so many bytes; the longer ones have a number for 0F, 0F 38 or 0F 3A, 1 to 3 */
    uint8_t first = at[found->opcode++], second = at[found->opcode];
    unsigned map = first == VECTOR_2 ? 1 : first == VECTOR_3 ? second & 31 : second & 7;
    switch (first) {
    case VECTOR_2: found->opcode += 1; break;
    case VECTOR_3: found->opcode += 2; break;
    case VECTOR_4: found->opcode += 3; break;
    case 0x0F:
        map = second == 0x38 ? 2 : second == 0x3A ? 3 : 1;
        found->opcode += map > 1;
        break;
    default: found->opcode--; return one_byte[first];
    }
    return map == 1 ? after_0f[at[found->opcode]] : map == 2 ? 'm' : map == 3 ? 'B' : '.';
}

/* How many bytes the fields and the rest of an address have. */
PLAIN_REGISTERS static size_t fields_length(const uint8_t *fields)
{
    unsigned mode = fields[0] >> 6, rm = fields[0] & 7;
    bool scaled = mode != 3 && rm == 4, far = mode == 2 || (mode == 0 && (rm == 5 || (scaled && (fields[1] & 7) == 5)));
    return 1 + scaled + (far ? 4 : mode == 1);
}

PLAIN_REGISTERS static struct instruction instruction_at(const uint8_t *at)
{
    struct instruction found = {0};
    bool half = false, repeated = false;
    for (; is_prefix(at[found.opcode]); found.opcode++) {
        half |= at[found.opcode] == 0x66;
        repeated |= at[found.opcode] == 0xF2 || at[found.opcode] == 0xF3;
    }
    if (at[found.opcode] >> 4 == 4) {
        found.extended = at[found.opcode++];
    }
    bool wide = (found.extended & 8) != 0;
    found.what = opcode_at(at, &found);
    found.length = found.opcode + 1;
    if (found.what == 't' || found.what == 'T') {
        found.what = (at[found.length] >> 3 & 7) > 1 ? 'm' : found.what == 't' ? 'B' : 'D';
    }
    switch (found.what) {
    case 'm':
    case 'x':
    case 'B':
    case 'D':
        found.fields = found.length;
        found.length += fields_length(at + found.fields);
        found.address = (at[found.fields] & 0xC7) == 5 ? found.fields + 1 : 0;
    }
    switch (found.what) {
    case 'b':
    case 'B':
    case 'c':
    case 'j': found.length += 1; break;
    case 'd':
    case 'D': found.length += half && !wide ? 2 : 4; break;
    case 'q': found.length += wide ? 8 : half ? 2 : 4; break;
    case 'R': found.length += 2; break;
    case 'C':
    case 'J':
    case 'K': found.length += 4; break;
    }
    if (found.what == '.' || (found.what == 's' && repeated)) {
        blocks_trouble(at, "an instruction that is not known");
    }
    return found;
}

/* ---- Copying a block --------------------------------------------------------------------------------------------------------------- */

PLAIN_REGISTERS static void put_number(uint64_t number, size_t bytes)
{
    for (size_t i = 0; i < bytes; i++) {
        *blocks_put++ = (uint8_t)(number >> 8 * i);
    }
}

PLAIN_REGISTERS static void put_bytes(const uint8_t *bytes, size_t count)
{
    for (size_t i = 0; i < count; i++) {
        *blocks_put++ = bytes[i];
    }
}

/* The four bytes of an address that counts from the end of the instruction, which has `more` bytes after them. */
PLAIN_REGISTERS static void put_address(const void *of, size_t more)
{
    int64_t distance = (int64_t)((uintptr_t)of - (uintptr_t)blocks_put - 4 - more);
    if (distance != (int32_t)distance) {
        blocks_trouble(of, "code or data that are too far from the copies");
    }
    put_number((uint64_t)distance, 4);
}

PLAIN_REGISTERS static void put_store(const void *word)
{
    put_number(0x058948, 3); /* mov %rax, word(%rip) */
    put_address(word, 0);
}

PLAIN_REGISTERS static void put_load(const void *word)
{
    put_number(0x058B48, 3); /* mov word(%rip), %rax */
    put_address(word, 0);
}

PLAIN_REGISTERS static void put_go(void)
{
    put_number(0xE9, 1); /* jmp blocks_go */
    put_address((const void *)blocks_go, 0);
}

/* The code goes on at a place that is known. */
PLAIN_REGISTERS static void put_go_to(const uint8_t *place)
{
    for (size_t half = 0; half < 2; half++) {
        put_number(0x05C7, 2); /* movl half of the place, half of blocks_next(%rip) */
        put_address((const uint8_t *)&blocks_next + 4 * half, 4);
        put_number((uintptr_t)place >> 32 * half, 4);
    }
    put_go();
}

/* The return address of a call onto the stack. */
PLAIN_REGISTERS static void put_push(const uint8_t *place)
{
    put_number(0x68, 1); /* push its lower half, and a higher one that is not its own */
    put_number((uintptr_t)place, 4);
    put_number(0x042444C7, 4); /* movl its higher half, 4(%rsp) */
    put_number((uintptr_t)place >> 32, 4);
}

/* What an address names that counts from the end of its instruction. */
PLAIN_REGISTERS static const uint8_t *named(const uint8_t *at, const struct instruction *found)
{
    uint32_t distance = 0;
    for (size_t i = 0; i < 4; i++) {
        distance |= (uint32_t)at[found->address + i] << 8 * i;
    }
    return at + found->length + (int32_t)distance;
}

/* The instruction as it is, but for such an address. */
PLAIN_REGISTERS static void put_same(const uint8_t *at, const struct instruction *found)
{
    size_t before = found->address == 0 ? found->length : found->address, after = before + 4;
    put_bytes(at, before);
    if (found->address != 0) {
        put_address(named(at, found), found->length - after);
        put_bytes(at + after, found->length - after);
    }
}

/* Where a call or a jump leads by its rm, into blocks_next: loaded into rax by the same fields but reg. */
PLAIN_REGISTERS static void put_next(const uint8_t *at, const struct instruction *found)
{
    const uint8_t load[] = {0x48 | (found->extended & 3), 0x8B, at[found->fields] & 0xC7}; /* mov rm, %rax */
    if (at[0] == 0x64) {
        blocks_trouble(at, "a jump by a segment");
    }
    put_store(&blocks_spare);
    put_bytes(load, sizeof load);
    if (found->address != 0) {
        put_address(named(at, found), 0);
    } else {
        put_bytes(at + found->fields + 1, found->length - found->fields - 1);
    }
    put_store(&blocks_next);
    put_load(&blocks_spare);
}

/* Where a jump or a call leads whose distance is its last byte, or its last four. */
PLAIN_REGISTERS static const uint8_t *led_to(const uint8_t *at, const struct instruction *found)
{
    struct instruction by = *found;
    by.address = found->length - 4;
    return found->length - found->opcode > 4 ? named(at, &by) : at + found->length + (signed char)at[found->length - 1];
}

/* The end of a block. Answers whether the instruction is one. */
PLAIN_REGISTERS static bool put_end(const uint8_t *at, const struct instruction *found)
{
    enum { CALLED = 2, JUMPED = 4, FAR_CALLED = 3, FAR_JUMPED = 5 };
    const uint8_t *after = at + found->length;
    unsigned operation = found->what == 'x' ? at[found->fields] >> 3 & 7 : 0;
    switch (found->what) {
    case 'c':
    case 'C':
        put_number(0x800F | (at[found->opcode] & 15u) << 8, 2); /* the same condition: over what follows it */
        put_number(GO_TO_LENGTH, 4);
        put_go_to(after);
        put_go_to(led_to(at, found));
        return true;
    case 'K': put_push(after); put_go_to(led_to(at, found)); return true;
    case 'j':
    case 'J': put_go_to(led_to(at, found)); return true;
    case 'r':
    case 'R':
        put_number(0x058F, 2); /* pop blocks_next(%rip) */
        put_address(&blocks_next, 0);
        if (found->what == 'R') {
            put_number(0x24A48D48, 4); /* lea number(%rsp), %rsp */
            put_number(at[found->length - 2] | (uint64_t)at[found->length - 1] << 8, 4);
        }
        put_go();
        return true;
    case 'u': put_same(at, found); return true;
    }
    if (operation == FAR_CALLED || operation == FAR_JUMPED) {
        blocks_trouble(at, "a far jump");
    }
    if (operation != CALLED && operation != JUMPED) {
        return false;
    }
    put_next(at, found);
    if (operation == CALLED) {
        put_push(after);
    }
    put_go();
    return true;
}

/* Copies the block at blocks_next and takes it down in its place of the table. What the call returns to is no code of its: it is run where it stands. */
PLAIN_REGISTERS __attribute__((used, noinline)) static void blocks_copy(struct copied *place)
{
    const uint8_t *at = blocks_next;
    uint64_t count = 0;
    if (blocks_put + COPY_MOST > blocks_copies + COPIES) {
        blocks_put = blocks_copies;
        for (volatile size_t i = 0; i < COPY_PLACES; i++) {
            blocks_at[i].block = NULL;
        }
    }
    place->block = at;
    place->copy = at == blocks_end ? at : (const uint8_t *)blocks_put;
    if (at == blocks_end) {
        return;
    }
    put_store(&blocks_spare);
    put_load(&blocks_count);
    put_number(0x808D48, 3); /* lea count(%rax), %rax: no flag is changed */
    volatile uint8_t *counted_here = blocks_put;
    put_number(0, 4);
    put_store(&blocks_count);
    put_load(&blocks_spare);
    for (bool ended = false; !ended;) {
        struct instruction found = instruction_at(at);
        ended = put_end(at, &found);
        if (!ended) {
            put_same(at, &found);
        }
        at += found.length;
        count++;
        if (!ended && count == BLOCK_MOST) {
            put_go_to(at);
            ended = true;
        }
    }
    volatile uint8_t *then = blocks_put;
    blocks_put = counted_here;
    put_number(count, 4);
    blocks_put = then;
}

/* Before blocks_enter is called in the place of a function: its instructions are in blocks_count then. */
static void blocks_start(const void *function)
{
    if (blocks_put == NULL) {
        blocks_put = blocks_copies;
        if (mprotect(blocks_copies, COPIES, MAY_ALL) != 0) {
            dprintf(2, "blocks: no copy of code may be run here\n");
            exit(1);
        }
    }
    blocks_next = function;
    blocks_count = 0;
}
#endif
