/* cases.c: reads a stream of cases on standard input, makes the call of gdt.h that each asks for, and writes a line for each.
   It assumes nothing of the program but the names of gdt.h; harness/README.md describes the stream and the lines. */
#include "x86.h"
#include "gdt.h"

enum {
    FILL = 0xAA,         /* what output buffers, entries and numbers hold before a call */
    MOST_ROOM = 1 << 20, /* "rooms of at most 1 MiB" */
    CHUNK = 1 << 16,
    SPARE = 16,   /* bytes that a view is lent for its copy beyond what it shows */
    NUMBER = 8,   /* bytes that a number has in the stream */
    DAY_ENTRY = 4 /* numbers that a set has in the index of a day file */
};

/* ---- The stream ------------------------------------------------------------------------------------------------------------ */

static const uint8_t *stream; /* what is not yet read of it, and how many bytes that is */
static size_t left;
static size_t cases; /* how many cases were begun */

/* Ends the program: the lines of the cases before this one are written. */
_Noreturn static void stop(const char *why)
{
    fflush(NULL);
    dprintf(2, "cases: case %zu: %s\n", cases, why);
    exit(2);
}

/* Memory for this many bytes, never null. */
static void *memory(size_t length)
{
    void *bytes = malloc(length + 1);
    if (bytes == NULL) {
        stop("no memory");
    }
    return bytes;
}

/* Reads standard input to its end. */
static void read_stream(void)
{
    size_t room = CHUNK;
    uint8_t *all = memory(room);
    for (;;) {
        long got = read(0, all + left, room - left);
        if (got < 0) {
            stop("standard input cannot be read");
        }
        if (got == 0) {
            break;
        }
        left += (size_t)got;
        if (left == room) {
            uint8_t *larger = memory(2 * room);
            memcpy(larger, all, left);
            free(all);
            all = larger;
            room *= 2;
        }
    }
    stream = all;
}

/* The next bytes of the stream. */
static const uint8_t *take(size_t length)
{
    const uint8_t *taken = stream;
    if (length > left) {
        stop("the stream is cut");
    }
    stream += length;
    left -= length;
    return taken;
}

static size_t take_number(void)
{
    const uint8_t *bytes = take(NUMBER);
    uint64_t number = 0;
    for (int i = NUMBER - 1; i >= 0; i--) {
        number = number << 8 | bytes[i];
    }
    return (size_t)number;
}

static size_t take_room(void)
{
    size_t room = take_number();
    if (room > MOST_ROOM) {
        stop("a room over 1 MiB");
    }
    return room;
}

/* ---- What is lent ---------------------------------------------------------------------------------------------------------- */

/* Bytes that are lent to a call, and what they held before it. They end where their memory ends and start at an odd address, so
   that a sanitizer sees each byte read or written after them, and the pointer is not null if there are none. */
struct lent {
    uint8_t *at, *was;
    size_t length;
};

static struct lent lend(size_t length)
{
    struct lent lent = {(uint8_t *)memory(length) + 1, memory(length), length};
    return lent;
}

/* A byte string of the stream. */
static struct lent lend_string(void)
{
    size_t length = take_number();
    const uint8_t *bytes = take(length);
    struct lent lent = lend(length);
    memcpy(lent.at, bytes, length);
    memcpy(lent.was, bytes, length);
    return lent;
}

/* A buffer to be written. */
static struct lent lend_room(size_t length)
{
    struct lent lent = lend(length);
    memset(lent.at, FILL, length);
    memset(lent.was, FILL, length);
    return lent;
}

static bool kept(const struct lent *lent)
{
    return memcmp(lent->at, lent->was, lent->length) == 0;
}

static void take_back(struct lent *lent)
{
    free(lent->at - 1);
    free(lent->was);
}

/* Numbers that are lent to a call, and what they were before it. */
struct numbers {
    size_t *at, *was;
    size_t count;
};

static struct numbers lend_numbers(size_t count)
{
    size_t size = count * sizeof(size_t);
    struct numbers numbers = {memory(size), memory(size), count};
    memset(numbers.at, FILL, size);
    memset(numbers.was, FILL, size);
    return numbers;
}

/* How many numbers the stream's next byte string has. */
static size_t take_count(void)
{
    size_t length = take_number();
    if (length > left) {
        stop("the stream is cut");
    }
    if (length % NUMBER != 0) {
        stop("a number of an index is cut");
    }
    return length / NUMBER;
}

/* Puts this many numbers of the stream in front of those that are lent. */
static void put_numbers(struct numbers *numbers, size_t count)
{
    if (count > numbers->count) {
        stop("an index of more numbers than are lent");
    }
    for (size_t i = 0; i < count; i++) {
        numbers->at[i] = numbers->was[i] = take_number();
    }
}

/* Whether every number from `first` on is what it was. */
static bool numbers_kept(const struct numbers *numbers, size_t first)
{
    return memcmp(numbers->at + first, numbers->was + first, (numbers->count - first) * sizeof(size_t)) == 0;
}

static void take_numbers_back(struct numbers *numbers)
{
    free(numbers->at);
    free(numbers->was);
}

/* ---- Lines ----------------------------------------------------------------------------------------------------------------- */

static const char *word(bool same)
{
    return same ? "kept" : "changed";
}

static void print_hex(const uint8_t *bytes, size_t length)
{
    static const char digits[] = "0123456789abcdef";
    static char text[2 * CHUNK + 1];
    while (length > 0) {
        size_t part = length < CHUNK ? length : CHUNK;
        for (size_t i = 0; i < part; i++) {
            text[2 * i] = digits[bytes[i] >> 4];
            text[2 * i + 1] = digits[bytes[i] & 15];
        }
        text[2 * part] = 0;
        printf("%s", text);
        bytes += part;
        length -= part;
    }
}

/* `same`: every lent byte and entry is what it was, and the record's other numbers are 0. */
static void print_refused(size_t no, size_t place, size_t label, bool same)
{
    printf("refused %zu %zu %zu %s\n", no, place, label, word(same));
}

/* Place and label are 0 if the call was done. */
static void expect_done(size_t place, size_t label)
{
    if (place != 0 || label != 0) {
        stop("a call was done and answers a place or a label");
    }
}

/* The line of a call that writes bytes into `out`; `in` is what else it was lent. */
static void print_made(struct gdt_made made, const struct lent *out, const struct lent *in)
{
    if (made.no != 0) {
        print_refused(made.no, made.place, made.label, kept(out) && kept(in) && made.count == 0);
        return;
    }
    expect_done(made.place, made.label);
    printf("ok %zu ", made.count);
    print_hex(out->at, out->length);
    printf("\n");
}

/* ---- The calls ------------------------------------------------------------------------------------------------------------- */

static void case_judge(void)
{
    struct lent set = lend_string();
    struct gdt_judged judged = gdt_judge(set.at, set.length);
    if (judged.no != 0) {
        bool empty = judged.length == 0 && judged.lines == 0 && judged.type == 0;
        print_refused(judged.no, judged.place, judged.label, kept(&set) && empty);
    } else {
        expect_done(judged.place, judged.label);
        printf("ok %zu %zu %zu\n", judged.length, judged.lines, judged.type);
    }
    take_back(&set);
}

/* Whether every byte of the entries from `first` up to `room` is what it was. */
static bool entries_kept(const struct gdt_entry *entries, size_t first, size_t room)
{
    const uint8_t *bytes = (const uint8_t *)entries;
    for (size_t i = first * sizeof *entries; i < room * sizeof *entries; i++) {
        if (bytes[i] != FILL) {
            return false;
        }
    }
    return true;
}

static void case_index(void)
{
    size_t room = take_room();
    struct lent set = lend_string();
    struct gdt_entry *entries = memory(room * sizeof *entries);
    struct gdt_made made;
    memset(entries, FILL, room * sizeof *entries);
    made = gdt_index(set.at, set.length, entries, room);
    if (made.no != 0) {
        print_refused(made.no, made.place, made.label, kept(&set) && entries_kept(entries, 0, room) && made.count == 0);
    } else {
        size_t count = made.count < room ? made.count : room;
        expect_done(made.place, made.label);
        printf("ok %zu", made.count);
        for (size_t i = 0; i < count; i++) {
            printf(" %zu:%zu:%zu:%zu", entries[i].label, entries[i].place, entries[i].length, entries[i].header);
        }
        printf(" %s\n", word(entries_kept(entries, count, room)));
    }
    free(entries);
    take_back(&set);
}

/* gdt_list and gdt_write are lent the same: bytes to read, and a buffer. */
static void case_made(struct gdt_made (*call)(const uint8_t *, size_t, uint8_t *, size_t))
{
    struct lent out = lend_room(take_room());
    struct lent in = lend_string();
    print_made(call(in.at, in.length, out.at, out.length), &out, &in);
    take_back(&out);
    take_back(&in);
}

static void case_correct(void)
{
    size_t used = take_number(), line = take_number();
    struct lent content = lend_string();
    struct lent buffer = lend_string();
    print_made(gdt_correct(buffer.at, buffer.length, used, line, content.at, content.length), &buffer, &content);
    take_back(&content);
    take_back(&buffer);
}

/* Whether gdt_view_copy, lent this much room, answers the part's length, copies the part if there is room for all of it, and writes
   nothing else. */
static bool copies(const struct lent *set, const struct lent *sheet, size_t line, const uint8_t *part, size_t length, size_t room)
{
    struct lent out = lend_room(room);
    size_t answer = gdt_view_copy(set->at, set->length, sheet->at, sheet->length, line, out.at, room);
    if (length <= room) {
        memcpy(out.was, part, length);
    }
    bool same = answer == length && kept(&out);
    take_back(&out);
    return same;
}

static void case_view(void)
{
    size_t line = take_number();
    struct lent set = lend_string();
    struct lent sheet = lend_string();
    struct gdt_viewed viewed = gdt_view(set.at, set.length, sheet.at, sheet.length, line);
    if (viewed.no != 0) {
        bool empty = viewed.flag == 0 && viewed.at == 0 && viewed.length == 0 && copies(&set, &sheet, line, set.at, 0, SPARE);
        print_refused(viewed.no, viewed.place, viewed.label, kept(&set) && kept(&sheet) && empty);
    } else {
        const struct lent *from = viewed.flag == 1 ? &sheet : &set;
        bool inside = viewed.flag <= 1 && viewed.at <= from->length && viewed.length <= from->length - viewed.at;
        const uint8_t *part = inside ? from->at + viewed.at : from->at;
        size_t length = inside ? viewed.length : 0;
        bool same = inside && copies(&set, &sheet, line, part, length, length + SPARE) && copies(&set, &sheet, line, part, length, length)
            && copies(&set, &sheet, line, part, length, length > 0 ? length - 1 : 0);
        expect_done(viewed.place, viewed.label);
        printf("ok %s ", viewed.flag == 1 ? "sheet" : "set");
        print_hex(part, length);
        printf("%s\n", same ? "" : " changed");
    }
    take_back(&set);
    take_back(&sheet);
}

/* The line of a call that writes the index of a day file. */
static void print_day(struct gdt_made made, const struct numbers *index, const struct lent *file)
{
    size_t room = index->count / DAY_ENTRY, count = made.count < room ? made.count : room;
    if (made.no != 0) {
        print_refused(made.no, made.place, made.label, kept(file) && numbers_kept(index, 0) && made.count == 0);
        return;
    }
    expect_done(made.place, made.label);
    printf("ok %zu", made.count);
    for (const size_t *entry = index->at; entry < index->at + DAY_ENTRY * count; entry += DAY_ENTRY) {
        printf(" %zu:%zu:%zu:%zu", entry[0], entry[1], entry[2], entry[3]);
    }
    printf(" %s\n", word(numbers_kept(index, DAY_ENTRY * count)));
}

static void case_day_build(void)
{
    struct numbers index = lend_numbers(take_room());
    struct lent file = lend_string();
    print_day(gdt_day_build(file.at, file.length, index.at, index.count), &index, &file);
    take_numbers_back(&index);
    take_back(&file);
}

static void case_day_append(void)
{
    size_t old = take_number(), count = take_number();
    struct numbers index = lend_numbers(take_room());
    put_numbers(&index, take_count());
    struct lent file = lend_string();
    print_day(gdt_day_append(file.at, file.length, old, index.at, index.count, count), &index, &file);
    take_numbers_back(&index);
    take_back(&file);
}

static void case_day_find(void)
{
    struct numbers out = lend_numbers(take_room());
    struct lent file = lend_string();
    size_t numbers = take_count();
    struct numbers index = lend_numbers(numbers);
    put_numbers(&index, numbers);
    struct lent asked = lend_string();
    struct gdt_made made = gdt_day_find(file.at, file.length, index.at, index.count, asked.at, asked.length, out.at, out.count);
    if (made.no != 0) {
        bool same = kept(&file) && numbers_kept(&index, 0) && kept(&asked) && numbers_kept(&out, 0);
        print_refused(made.no, made.place, made.label, same && made.count == 0);
    } else {
        size_t count = made.count < out.count ? made.count : out.count;
        expect_done(made.place, made.label);
        printf("ok %zu", made.count);
        for (size_t i = 0; i < count; i++) {
            printf(" %zu", out.at[i]);
        }
        printf(" %s\n", word(numbers_kept(&out, count)));
    }
    take_numbers_back(&out);
    take_back(&file);
    take_numbers_back(&index);
    take_back(&asked);
}

static void case_block(void)
{
    size_t number = take_number(), count = take_number();
    struct lent set = lend_string();
    struct lent out = lend_room(GDT_BLOCK);
    print_made(gdt_block(set.at, set.length, number, count, out.at), &out, &set);
    take_back(&set);
    take_back(&out);
}

/* The record stands alone in its memory, so that a sanitizer sees what is touched beside it. */
static void case_send(void)
{
    struct gdt_link *link = memory(sizeof *link), was;
    link->phase = take_number();
    link->blocks = take_number();
    link->attempt = take_number();
    link->block = take_number();
    link->errors = take_number();
    link->count = take_number();
    was = *link;
    size_t begin = take_number();
    struct lent bytes = lend_string();
    struct gdt_sent sent = gdt_send(link, begin, bytes.at, bytes.length);
    if (sent.no != 0) {
        bool empty = sent.what == 0 && sent.block == 0 && sent.count == 0;
        print_refused(sent.no, sent.place, sent.label, kept(&bytes) && memcmp(link, &was, sizeof was) == 0 && empty);
    } else {
        expect_done(sent.place, sent.label);
        printf("ok %zu %zu %zu %zu:%zu:%zu:%zu:%zu:%zu\n", sent.what, sent.block, sent.count, link->phase, link->blocks, link->attempt,
               link->block, link->errors, link->count);
    }
    free(link);
    take_back(&bytes);
}

/* The record of a refusal must be the one that was given, and its reply ACK 0; all else is answered by ACK 1. */
static void case_receive(void)
{
    struct gdt_receiver given;
    given.started = take_number();
    given.last = take_number();
    given.open = take_number();
    given.used = take_number();
    struct lent buffer = lend_string();
    struct lent block = lend_string();
    struct gdt_received received = gdt_receive(given, buffer.at, buffer.length, block.at, block.length);
    const struct gdt_receiver *now = &received.receiver;
    if (received.no != 0) {
        bool same = received.what == 0 && received.ack == 0 && memcmp(now, &given, sizeof given) == 0;
        print_refused(received.no, received.place, received.label, kept(&buffer) && kept(&block) && same);
    } else {
        expect_done(received.place, received.label);
        if (received.ack != 1) {
            stop("a block is not refused, and its reply is not ACK 1");
        }
        printf("ok %zu %zu:%zu:%zu:%zu ", received.what, now->started, now->last, now->open, now->used);
        print_hex(buffer.at, buffer.length);
        printf("\n");
    }
    take_back(&buffer);
    take_back(&block);
}

static void case_recode(void)
{
    size_t wanted = take_number(), used = take_number();
    struct lent buffer = lend_string();
    if (wanted != 437 && wanted != 1252) {
        stop("a wanted code page that is neither 437 nor 1252");
    }
    print_made((wanted == 437 ? gdt_to_437 : gdt_to_1252)(buffer.at, buffer.length, used), &buffer, &buffer);
    take_back(&buffer);
}

int main(void)
{
    read_stream();
    while (left > 0) {
        uint8_t call = *take(1);
        cases++;
        switch (call) {
        case 'j': case_judge(); break;
        case 'i': case_index(); break;
        case 'l': case_made(gdt_list); break;
        case 'w': case_made(gdt_write); break;
        case 'c': case_correct(); break;
        case 'v': case_view(); break;
        case 'd': case_day_build(); break;
        case 'a': case_day_append(); break;
        case 'f': case_day_find(); break;
        case 'b': case_block(); break;
        case 's': case_send(); break;
        case 't': case_receive(); break;
        case 'r': case_recode(); break;
        default: stop("unknown case");
        }
        fflush(NULL); /* the lines before a case that ends the program are seen */
    }
    return 0;
}
