/* day.c: a day file, set after set, and beside it the index by which a patient's sets are found without judging the file again.
     day add FILE SET        adds the one set in the file SET (-: standard input) to the end of FILE; the first add makes FILE
     day find FILE PATIENT   prints the sets whose 3000 content has the bytes of PATIENT
     day check FILE          judges every set of FILE, builds the index anew and compares the kept one with it
   Status 0: done. 1: a set is refused, a file cannot be used, standard output cannot be written, or the kept index named other sets
   than FILE has; standard error says what is wrong and what to do. 2: wrong usage.

   FILE.idx keeps the index: the mark GDTDAY01, the length of FILE that it belongs to, how many sets, four numbers for each of them as
   in gdt.h, and last a check value, the FNV-1a sum of all bytes before it. A number has eight bytes, little-endian. An index that
   cannot be used is built anew and kept, and standard error says why. If another program changes FILE and leaves its length as it
   was, only `check` sees that; a set that `find` prints is judged again.

   `add` makes everything in memory first, so that a refused add writes nothing. Then it appends the set, brings it to the disk,
   writes the new index to FILE.idx.new.N, brings that to the disk, and gives it the name FILE.idx. If it is stopped
     before the set's first byte is written: both files are as before;
     then, before its last byte: FILE ends in a part of a set. That is never accepted, since 8100 has the length of the whole set.
       Every call then refuses FILE, changes nothing, and says up to which byte it is whole and how to go on with that;
     then, before the new name: the set is in FILE, and the kept index belongs to a shorter length, so it is built anew. The same add,
       if it is the next call, then adds nothing and says so.
   Each call locks FILE: an add waits until no other call uses it. Other calls may build the index at once, and each of them writes a
   file of its own, with N from 1 on. If one is killed there, its file stays: no call reads it, and it may be removed. */
#define _POSIX_C_SOURCE 200809L
#include <errno.h>
#include <fcntl.h>
#include <stdbool.h>
#include <stdio.h>
#include <stdlib.h>
#include <string.h>
#include <unistd.h>
#include "files.h"
#include "gdt.h"
#include "reasons.h"

enum { DONE = 0, REFUSED = 1, WRONG_USAGE = 2 };

enum {
    ANY_USER = 0666, /* who may use a new file; the umask takes from that */
    STEP = 65536,    /* bytes that are read at once, at least */
    START = 7        /* bytes of a line before its content: its length in three, its label in four */
};

enum { LABEL_PATIENT = 3000, LABEL_TYPE = 8000, LABEL_SUM = 8100, LABEL_VERSION = 9218 };

/* The numbers of an index entry. */
enum { OFFSET, LENGTH, TYPE, PLACE, NUMBERS };

/* FILE.idx: the bytes of a number, and of its three parts. */
enum { WIDTH = 8, HEAD = 3 * WIDTH, ENTRY = NUMBERS * WIDTH, CHECK = WIDTH };

static const char mark[WIDTH + 1] = "GDTDAY01";
static const uint64_t sum_start = 0xCBF29CE484222325, sum_factor = 0x100000001B3; /* of FNV-1a in 64 bits */

/* Bytes that grow as they are read or made. */
struct bytes {
    uint8_t *at;
    size_t used, room;
};

/* There is room for every day file: no call is refused by GDT_NO_ROOM. */
struct index {
    size_t numbers[GDT_MOST_SETS * NUMBERS];
    size_t count;
};

struct day {
    const char *path;
    char *index_path;
    int opened;
    struct bytes file;
    struct index index;
    const char *fault; /* why the kept index is not used, or NULL */
    bool has_set;      /* the set of an add is in the file */
};

static struct day day;
static const char missing[] = "is missing", shorter[] = "belongs to a shorter length of the file";

/* Says that the set or file with this name is refused, and why. */
static void tell_refusal(const char *name, struct gdt_made made)
{
    dprintf(2, "day: %s: refused by %zu at place %zu, label %zu: %s\n", name, made.no, made.place, made.label, reasons[made.no]);
}

/* Says what cannot be done with a file, and why. */
static void tell_failure(const char *path, const char *what)
{
    dprintf(2, "day: %s cannot be %s: %s\n", path, what, strerror(errno));
}

/* ---- Bytes and files --------------------------------------------------------------------------------------------------------- */

/* Memory of this size that holds what the old piece held, if there is one. It is given back when the program ends. */
static void *memory(void *old, size_t size)
{
    void *made = realloc(old, size);
    if (made == NULL) {
        dprintf(2, "day: no memory for %zu bytes\n", size);
        exit(REFUSED);
    }
    return made;
}

/* Sees to room for over this many bytes more, so that `at` is not null even if that is 0. */
static void make_room(struct bytes *bytes, size_t more)
{
    if (bytes->room - bytes->used <= more) {
        bytes->room = 2 * bytes->room + more + 1;
        bytes->at = memory(bytes->at, bytes->room);
    }
}

static void join(struct bytes *bytes, const void *more, size_t length)
{
    make_room(bytes, length);
    memcpy(bytes->at + bytes->used, more, length);
    bytes->used += length;
}

static bool read_all(int from, struct bytes *bytes)
{
    long got = 1;
    while (got > 0) {
        make_room(bytes, STEP);
        got = read(from, bytes->at + bytes->used, bytes->room - bytes->used);
        bytes->used += got > 0 ? (size_t)got : 0;
    }
    return got == 0;
}

/* Reads a whole file, or standard input for the name `-`. */
static bool read_file(const char *path, struct bytes *bytes)
{
    int from = strcmp(path, "-") == 0 ? 0 : open(path, O_RDONLY);
    if (from < 0) {
        return false;
    }
    bool done = read_all(from, bytes);
    close(from);
    return done;
}

/* The path with an end joined to it. */
static char *path_with(const char *path, const char *end)
{
    struct bytes joined = {NULL, 0, 0};
    join(&joined, path, strlen(path));
    join(&joined, end, strlen(end) + 1);
    return (char *)joined.at;
}

/* ---- The kept index ---------------------------------------------------------------------------------------------------------- */

static void join_number(struct bytes *bytes, uint64_t number)
{
    for (size_t i = 0; i < WIDTH; i++) {
        uint8_t byte = (uint8_t)(number >> (8 * i));
        join(bytes, &byte, 1);
    }
}

static uint64_t number_at(const uint8_t *at)
{
    uint64_t number = 0;
    for (size_t i = WIDTH; i > 0; i--) {
        number = number << 8 | at[i - 1];
    }
    return number;
}

static uint64_t check_value(const uint8_t *bytes, size_t length)
{
    uint64_t sum = sum_start;
    for (size_t i = 0; i < length; i++) {
        sum = (sum ^ bytes[i]) * sum_factor;
    }
    return sum;
}

/* The bytes of FILE.idx. */
static struct bytes packed_index(void)
{
    struct bytes out = {NULL, 0, 0};
    join(&out, mark, WIDTH);
    join_number(&out, day.file.used);
    join_number(&out, day.index.count);
    for (size_t i = 0; i < day.index.count * NUMBERS; i++) {
        join_number(&out, day.index.numbers[i]);
    }
    join_number(&out, check_value(out.at, out.used));
    return out;
}

/* Whether the sets of the index stand one after the other and fill the file: nothing outside the file is then looked at. */
static bool fills_file(const struct index *index)
{
    size_t at = 0;
    for (size_t i = 0; i < index->count; i++) {
        const size_t *entry = index->numbers + i * NUMBERS;
        if (entry[OFFSET] != at || entry[LENGTH] > day.file.used - at) {
            return false;
        }
        at += entry[LENGTH];
    }
    return at == day.file.used;
}

/* Takes the index out of the bytes of FILE.idx; answers what is wrong with it, or NULL. */
static const char *unpack(const struct bytes *kept, struct index *index)
{
    if (kept->used < HEAD + CHECK) {
        return "is cut";
    }
    if (memcmp(kept->at, mark, WIDTH) != 0) {
        return "is no index of this version";
    }
    size_t sets = (kept->used - HEAD - CHECK) / ENTRY, last = kept->used - CHECK;
    if (number_at(kept->at + 2 * WIDTH) != sets || HEAD + sets * ENTRY != last || sets > GDT_MOST_SETS) {
        return "is cut or damaged";
    }
    if (number_at(kept->at + last) != check_value(kept->at, last)) {
        return "is damaged";
    }
    if (number_at(kept->at + WIDTH) != day.file.used) {
        return number_at(kept->at + WIDTH) < day.file.used ? shorter : "belongs to a greater length of the file";
    }
    index->count = sets;
    for (size_t i = 0; i < sets * NUMBERS; i++) {
        index->numbers[i] = (size_t)number_at(kept->at + HEAD + i * WIDTH);
    }
    return fills_file(index) ? NULL : "is damaged";
}

/* Reads FILE.idx; answers what is wrong with it, or NULL. */
static const char *load_index(struct index *index)
{
    struct bytes kept = {NULL, 0, 0};
    if (read_file(day.index_path, &kept)) {
        return unpack(&kept, index);
    }
    return errno == ENOENT ? missing : "cannot be read";
}

/* Makes the file FILE.idx.new.N, with the first N that is free: no two calls ever write to one file. */
static int open_fresh(char **path)
{
    char end[32];
    unsigned number = 0;
    int opened = -1;
    do {
        number++;
        snprintf(end, sizeof end, ".new.%u", number);
        *path = path_with(day.index_path, end);
        opened = open(*path, O_WRONLY | O_CREAT | O_EXCL, ANY_USER);
    } while (opened < 0 && errno == EEXIST);
    return opened;
}

/* Puts a file of its own in the place of FILE.idx, so that this is always a whole index, the old one or the new one. Calls that build
   the index at once put the same bytes there, one after the other. */
static bool keep_index(const struct bytes *bytes)
{
    char *fresh = NULL;
    int to = open_fresh(&fresh);
    bool done = to >= 0 && write_all(to, bytes->at, bytes->used) && fsync(to) == 0 && close(to) == 0;
    done = done && rename(fresh, day.index_path) == 0;
    if (!done) {
        tell_failure(day.index_path, "written");
    }
    if (!done && to >= 0) {
        unlink(fresh);
    }
    return done;
}

/* Keeps an index that was built anew. If that cannot be done, the answer is still right. */
static void keep_anew(void)
{
    struct bytes bytes = packed_index();
    if (!keep_index(&bytes)) {
        dprintf(2, "day: the index is not kept: the next call builds it anew\n");
    }
}

/* ---- The day file ------------------------------------------------------------------------------------------------------------ */

/* Opens the file, waits for its lock and reads it. The lock ends with the program. */
static bool open_day(const char *path, int how, short lock)
{
    struct flock whole = {.l_type = lock, .l_whence = SEEK_SET};
    day.path = path;
    day.index_path = path_with(path, ".idx");
    day.opened = open(path, how, ANY_USER);
    if (day.opened < 0) {
        tell_failure(path, "opened");
        return false;
    }
    if (fcntl(day.opened, F_SETLKW, &whole) != 0 || !read_all(day.opened, &day.file)) {
        tell_failure(path, "locked and read");
        return false;
    }
    return true;
}

/* The length of the set that starts at this byte of the file, or 0 if it is refused. Under seven bytes of a next set are taken for a
   line of this one, which is then refused at that line: so what stands before that is asked too. */
static size_t set_length(size_t at)
{
    struct gdt_judged judged = gdt_judge(day.file.at + at, day.file.used - at);
    if (judged.no != 0) {
        judged = gdt_judge(day.file.at + at, judged.place);
    }
    return judged.length;
}

/* Where the first whole set after this byte starts: at line 8000. The file's length if there is none. */
static size_t next_set(size_t from)
{
    for (size_t at = from + 1; at + START <= day.file.used; at++) {
        if (memcmp(day.file.at + at + START - 4, "8000", 4) == 0 && set_length(at) > 0) {
            return at;
        }
    }
    return day.file.used;
}

/* Says how the bytes after the whole sets are moved away. A path with a quote or a first minus would break the command. */
static void tell_move(size_t whole, const char *then)
{
    if (day.path[0] == '-' || strrchr(day.path, '\'') != NULL) {
        dprintf(2, "day: to move them, copy all bytes after the first %zu to another file and cut this one to %zu bytes%s\n", whole, whole,
                then);
        return;
    }
    dprintf(2, "day: this moves them to %s.rest%s:\n", day.path, then);
    dprintf(2, "    tail -c +%zu '%s' >>'%s.rest' && truncate -s %zu '%s'\n", whole + 1, day.path, day.path, whole, day.path);
}

/* Says what is known of the bytes after the whole sets. In a part of one set no other set starts. */
static void tell_rest(size_t whole)
{
    size_t length = day.file.used, later = next_set(whole);
    dprintf(2, "day: nothing was changed, and what stands before that set is whole. From byte %zu on the file is not used: %zu of its %zu"
               " bytes.\n", whole, length - whole, length);
    if (later < length) {
        dprintf(2, "day: a whole set starts there at byte %zu, and more may follow: look at them before you move them\n", later);
        tell_move(whole, "");
    } else {
        dprintf(2, "day: if an add was stopped, they are a part of its set; else look at them before you move them\n");
        tell_move(whole, "; then add the set again");
    }
}

/* Says which set of the file is refused, how many bytes before it are whole sets, and how to go on with these. */
static void tell_damage(struct gdt_made made)
{
    size_t sets = 0, whole = 0;
    for (size_t length = set_length(0); length > 0 && sets < GDT_MOST_SETS; length = set_length(whole)) {
        sets++;
        whole += length;
    }
    dprintf(2, "day: %s cannot be used: set %zu, from byte %zu on, is refused by %zu at place %zu, label %zu: %s\n", day.path, sets + 1,
            whole, made.no, made.place, made.label, reasons[made.no]);
    if (made.no == GDT_TOO_MANY_SETS) {
        dprintf(2, "day: nothing was changed: the sets from byte %zu on belong into another day file\n", whole);
        tell_move(whole, "");
    } else {
        tell_rest(whole);
    }
}

static bool build_index(void)
{
    struct gdt_made made = gdt_day_build(day.file.at, day.file.used, day.index.numbers, GDT_MOST_SETS * NUMBERS);
    if (made.no != 0) {
        tell_damage(made);
        return false;
    }
    day.index.count = made.count;
    return true;
}

/* Says that the kept index was not used, and why. */
static void tell_anew(const char *fault)
{
    dprintf(2, "day: %s %s: built anew. If an add was stopped, its set may be in %s already.\n", day.index_path, fault, day.path);
}

/* Takes the kept index, or builds it anew if that cannot be used. It is not missed beside a file that has no set yet. */
static bool take_index(void)
{
    day.fault = load_index(&day.index);
    if (day.fault == NULL) {
        return true;
    }
    if (!build_index()) {
        return false;
    }
    if (day.fault != missing || day.file.used > 0) {
        tell_anew(day.fault);
    }
    return true;
}

/* ---- add --------------------------------------------------------------------------------------------------------------------- */

/* The set must be accepted by itself: else neither file is touched, and the place is that in SET. */
static bool read_set(const char *path, struct bytes *set)
{
    const char *name = strcmp(path, "-") == 0 ? "standard input" : path;
    size_t entry[NUMBERS];
    if (!read_file(path, set)) {
        tell_failure(name, "read");
        return false;
    }
    struct gdt_made made = gdt_day_append(set->at, set->used, 0, entry, NUMBERS, 0);
    if (made.no != 0) {
        const char *next = made.no == GDT_BAD_USE ? "give one set at a time" : "have the set sent again, or correct it";
        tell_refusal(name, made);
        dprintf(2, "day: nothing was added: %s\n", next);
        return false;
    }
    return true;
}

/* Writes the bytes after the old length. If that cannot be done, what was written of them is taken back. */
static bool append(size_t old)
{
    bool written = write_all(day.opened, day.file.at + old, day.file.used - old) && fsync(day.opened) == 0;
    if (written && (old > 0 || sync_name(day.path))) {
        return true;
    }
    tell_failure(day.path, "written");
    if (ftruncate(day.opened, (long)old) == 0) {
        dprintf(2, "day: nothing was added: it has its %zu bytes as before\n", old);
    } else {
        dprintf(2, "day: it may end in a part of the set now: `day check` says what is whole\n");
    }
    return false;
}

static const char *type_name(size_t type)
{
    switch (type) {
    case 6300:
        return "root data request";
    case 6301:
        return "root data transfer";
    case 6302:
        return "new test request";
    case 6310:
        return "test data transfer";
    default: /* 6311: there are five */
        return "test data display";
    }
}

/* The entry of the set with this number, from 1. */
static const size_t *entry_of(size_t number)
{
    return day.index.numbers + (number - 1) * NUMBERS;
}

static void print_entry(size_t number)
{
    const size_t *entry = entry_of(number);
    printf("set %zu: type %zu (%s), %zu bytes from byte %zu on\n", number, entry[TYPE], type_name(entry[TYPE]), entry[LENGTH],
           entry[OFFSET]);
}

/* Whether an add that was stopped has brought this set into the file already: the last set has these bytes, and was added after the
   index was kept, or is the first set and no index was kept yet. If the kept index is right, the same bytes are added again: two tests
   may give the same bytes. */
static bool is_there(const struct bytes *set)
{
    bool stopped = day.fault == shorter || (day.fault == missing && day.index.count == 1);
    if (!stopped) {
        return false;
    }
    const size_t *last = entry_of(day.index.count);
    return last[LENGTH] == set->used && memcmp(day.file.at + last[OFFSET], set->at, set->used) == 0;
}

/* Says that the set is in the file, since the status is that of a refusal. */
static void tell_added(const char *more)
{
    dprintf(2, "day: the set is in %s, do not add it again%s\n", day.path, more);
}

static int add(const char *path, const char *set_path)
{
    struct bytes set = {NULL, 0, 0};
    if (!read_set(set_path, &set) || !open_day(path, O_RDWR | O_CREAT | O_APPEND, F_WRLCK) || !take_index()) {
        return REFUSED;
    }
    if (is_there(&set)) {
        day.has_set = true;
        printf("set %zu of %s has these bytes already: nothing was added\n", day.index.count, path);
        keep_anew();
        return DONE;
    }
    size_t old = day.file.used;
    join(&day.file, set.at, set.used);
    struct gdt_made made = gdt_day_append(day.file.at, day.file.used, old, day.index.numbers, GDT_MOST_SETS * NUMBERS, day.index.count);
    if (made.no != 0) {
        tell_refusal(path, made);
        dprintf(2, "day: nothing was added: start a new day file\n");
        return REFUSED;
    }
    day.index.count = made.count;
    struct bytes index = packed_index();
    if (!append(old)) {
        return REFUSED;
    }
    day.has_set = true;
    printf("added ");
    print_entry(made.count);
    if (!keep_index(&index)) {
        tell_added("; the next call builds the index anew");
        return REFUSED;
    }
    return DONE;
}

/* ---- find -------------------------------------------------------------------------------------------------------------------- */

/* Lines that are not printed: the patient and the type are said already, the sum and the version say nothing to a reader. */
static bool is_hidden(size_t label)
{
    return label == LABEL_PATIENT || label == LABEL_TYPE || label == LABEL_SUM || label == LABEL_VERSION;
}

/* Prints a set as a reader wants it, the members of a group deeper. The bytes of a content are in the code that 9206 names. */
static void print_set(size_t number)
{
    static struct gdt_entry lines[GDT_MOST_LINES];
    const size_t *entry = entry_of(number);
    const char *set = (const char *)day.file.at + entry[OFFSET];
    size_t count = gdt_index(day.file.at + entry[OFFSET], entry[LENGTH], lines, GDT_MOST_LINES).count;
    print_entry(number);
    for (size_t i = 0; i < count; i++) {
        if (!is_hidden(lines[i].label)) {
            printf("%s%04zu %.*s\n", lines[i].header == 0 ? "  " : "    ", lines[i].label, (int)lines[i].length, set + lines[i].place);
        }
    }
}

/* Whether the entry of a set is what its bytes give: if not, another program has changed the file. */
static bool is_right(size_t number)
{
    const size_t *entry = entry_of(number);
    size_t again[NUMBERS];
    struct gdt_made made = gdt_day_append(day.file.at, entry[OFFSET] + entry[LENGTH], entry[OFFSET], again, NUMBERS, 0);
    return made.no == 0 && memcmp(again, entry, sizeof again) == 0;
}

static int find(const char *path, const char *patient)
{
    static size_t found[GDT_MOST_SETS];
    if (!open_day(path, O_RDONLY, F_RDLCK) || !take_index()) {
        return REFUSED;
    }
    if (day.fault != NULL) {
        keep_anew();
    }
    size_t count = gdt_day_find(day.file.at, day.file.used, day.index.numbers, day.index.count * NUMBERS, (const uint8_t *)patient,
                                strlen(patient), found, GDT_MOST_SETS).count;
    for (size_t i = 0; i < count; i++) {
        if (!is_right(found[i])) {
            dprintf(2, "day: set %zu of %s is not what %s says: call `day check` for it, then ask again\n", found[i], path,
                    day.index_path);
            return REFUSED;
        }
    }
    if (count == 0) {
        printf("sets of patient %s in %s: none\n", patient, path);
        return DONE;
    }
    printf("sets of patient %s in %s: %zu\n", patient, path, count);
    for (size_t i = 0; i < count; i++) {
        print_set(found[i]);
    }
    return DONE;
}

/* ---- check ------------------------------------------------------------------------------------------------------------------- */

static int check(const char *path)
{
    static struct index kept;
    if (!open_day(path, O_RDONLY, F_RDLCK)) {
        return REFUSED;
    }
    const char *fault = load_index(&kept);
    if (!build_index()) {
        return REFUSED;
    }
    printf("sets in %s: %zu, all accepted, %zu bytes\n", path, day.index.count, day.file.used);
    bool same = kept.count == day.index.count && memcmp(kept.numbers, day.index.numbers, kept.count * NUMBERS * sizeof(size_t)) == 0;
    if (fault == NULL && same) {
        printf("%s agrees\n", day.index_path);
        return DONE;
    }
    if (fault != NULL) {
        tell_anew(fault);
    } else {
        dprintf(2, "day: %s did not agree, `day find` may have missed a set: built anew\n", day.index_path);
    }
    keep_anew();
    return fault != NULL ? DONE : REFUSED;
}

int main(int count, char **words)
{
    const char *call = count > 1 ? words[1] : "";
    int status = WRONG_USAGE;
    if (!take_closed()) {
        dprintf(2, "day: /dev/null cannot be opened in the place of a closed stream: %s\n", strerror(errno));
        return REFUSED;
    }
    if (count == 4 && strcmp(call, "add") == 0) {
        status = add(words[2], words[3]);
    } else if (count == 4 && strcmp(call, "find") == 0) {
        status = find(words[2], words[3]);
    } else if (count == 3 && strcmp(call, "check") == 0) {
        status = check(words[2]);
    } else {
        dprintf(2, "usage: day add FILE SET        adds the one set in SET (-: standard input) to the day file FILE\n"
                   "       day find FILE PATIENT   prints the sets of the patient with this number\n"
                   "       day check FILE          judges all sets and builds the index, FILE.idx, anew\n");
    }
    if (ferror(stdout) || fclose(stdout) != 0) {
        tell_failure("standard output", "written");
        if (day.has_set) {
            tell_added("");
        }
        status = REFUSED;
    }
    return status;
}
