/* cable.c: GDT sets over a serial cable, block by block, as appendix A of the description says. docs/CABLE.md explains it.
     cable send [-t MS] DEVICE SET..     sends the one set in each file SET (-: standard input), one after the other
     cable receive [-t MS] DEVICE FILE   takes sets and adds each to the end of FILE, until the line is closed or it is stopped
     cable demo [-p] [-o] [-d N] [-l N] [-t MS] FILE SET..
                                         both ends: sends each SET to a second process, which adds it to FILE
   DEVICE is a serial device, as /dev/ttyS0: it is set to raw bytes of 8 bits, no parity, one stop bit. Its speed stays as it is;
   `stty -F DEVICE 2400` sets it. -t: a reply is waited for this many milliseconds, 10000 if it is not given.
   The demo goes over two pipes, with -p over a pseudo terminal. -o: the receiver is switched off. -d N: one byte of every Nth
   block is damaged on the way. -l N: every Nth reply is lost.

   Standard output has a line for each block that is sent, with the reply and what comes next, and one for each that is received.
   Status 0: all sets were delivered, or each set that came was added to FILE. 1: a set is refused or given up, or a file, the line or
   standard output cannot be used; standard error says what is wrong, and if all else is done. 2: wrong usage.

   A set is brought to the disk before its last block is acknowledged. If that cannot be done the block is answered by ACK 0, and the
   receiver's record stays as it was: so the sender tries again. A set that came whole but is refused is acknowledged, since the
   blocks were right, and is not added. If after a whole set the next block that can be taken begins with count 0, and the same bytes
   come, they are not added again: most likely the sender did not hear that the set was delivered. */
#define _DEFAULT_SOURCE
#define _XOPEN_SOURCE 700
#include <errno.h>
#include <fcntl.h>
#include <poll.h>
#include <signal.h>
#include <stdbool.h>
#include <stdio.h>
#include <stdlib.h>
#include <string.h>
#include <sys/wait.h>
#include <termios.h>
#include <time.h>
#include <unistd.h>
#include "files.h"
#include "gdt.h"
#include "reasons.h"

enum { DONE = 0, REFUSED = 1, WRONG_USAGE = 2, UNSEEN = 3 }; /* the last only from the demo's second process: done, but its lines are lost */

enum {
    ROOM = 65536,          /* bytes for a set; an accepted one has at most GDT_LARGEST_SET */
    RUN = GDT_BLOCK + 1,   /* bytes that are kept of what comes up to a 0Dh: one more than a block has at most */
    REPLY = 2,             /* bytes of a reply */
    BLOCK_END = 0x0D,
    ANY_USER = 0666,       /* who may use a new file; the umask takes from that */
    MOST_NUMBER = 86400000 /* of an option; for -t that is a day */
};

static const uint8_t ack_1[REPLY] = {GDT_ACK, '1'}, ack_0[REPLY] = {GDT_ACK, '0'};

/* One end of the line. In the demo some of what is put on it is damaged or lost. */
struct line {
    int in, out;
    size_t damage, lose;    /* every which block, every which reply; 0: none */
    size_t blocks, replies; /* that were put on it so far */
};

/* What is received, and where it is put. */
struct inbox {
    const char *path;
    uint8_t set[ROOM], last[ROOM]; /* the one that comes, and the one that was added last */
    size_t last_length;
    bool once_more; /* the one that comes may be the last one, sent again from its first block */
    int status;
};

static struct inbox inbox;
static uint8_t set[ROOM + 1]; /* that is sent */
static int64_t timeout = 10000;
static bool unseen; /* standard output could not be written */

/* Says what cannot be done with a file or the line, and why. */
static void tell_failure(const char *path, const char *what)
{
    dprintf(2, "cable: %s cannot be %s: %s\n", path, what, strerror(errno));
}

static void tell_refusal(const char *name, size_t no, size_t place, size_t label)
{
    dprintf(2, "cable: %s: refused by %zu at place %zu, label %zu: %s\n", name, no, place, label, reasons[no]);
}

/* Brings the lines to standard output at once: the two processes of the demo share it. */
static void show(void)
{
    unseen |= fflush(NULL) != 0 || ferror(stdout);
}

/* ---- Bytes and time ---------------------------------------------------------------------------------------------------------- */

/* Milliseconds, from some start. */
static int64_t now(void)
{
    struct timespec time;
    clock_gettime(CLOCK_MONOTONIC, &time);
    return (int64_t)time.tv_sec * 1000 + time.tv_nsec / 1000000;
}

/* Whether something can be read, or the line is closed, before this time is over. */
static bool comes(int in, int64_t end)
{
    struct pollfd asked = {.fd = in, .events = POLLIN};
    int got;
    do {
        int64_t left = end - now();
        got = poll(&asked, 1, left > 0 ? (int)left : 0);
    } while (got < 0 && errno == EINTR);
    return got > 0;
}

/* Reads what is there, at least a byte; 0 if there will be no more. */
static size_t read_some(int in, uint8_t *out, size_t room)
{
    long got;
    do {
        got = read(in, out, room);
    } while (got < 0 && errno == EINTR);
    return got > 0 ? (size_t)got : 0;
}

/* Reads the file of a set, and answers its length; 0 if it cannot be read, is empty, or is longer than any set. */
static size_t read_set(const char *path)
{
    int from = strcmp(path, "-") == 0 ? 0 : open(path, O_RDONLY);
    size_t used = 0, more = 1;
    if (from < 0) {
        tell_failure(path, "opened");
        return 0;
    }
    while (used <= ROOM && more > 0) {
        more = read_some(from, set + used, ROOM + 1 - used);
        used += more;
    }
    close(from);
    if (used == 0 || used > ROOM) {
        dprintf(2, "cable: %s %s\n", path, used == 0 ? "has no bytes, or cannot be read" : "is longer than any set");
        return 0;
    }
    return used;
}

/* ---- The sender -------------------------------------------------------------------------------------------------------------- */

/* Drops what is left on the line: a reply that came late would be heard for the next block. */
static void drop_rest(int in)
{
    uint8_t dropped[RUN];
    size_t more = 1;
    while (more > 0 && comes(in, 0)) {
        more = read_some(in, dropped, sizeof dropped);
    }
}

/* Whether this block is one that the demo damages; if so, a byte in its middle is changed. */
static bool damage(struct line *line, uint8_t *block, size_t length)
{
    line->blocks++;
    bool damaged = line->damage != 0 && line->blocks % line->damage == 0;
    block[length / 2] ^= damaged ? 1 : 0;
    return damaged;
}

/* Waits for a reply, and says how many bytes of one came in time; false if the line is closed. */
static bool read_reply(int in, uint8_t reply[REPLY], size_t *length)
{
    int64_t end = now() + timeout;
    *length = 0;
    while (*length < REPLY && comes(in, end)) {
        size_t more = read_some(in, reply + *length, REPLY - *length);
        if (more == 0) {
            return false;
        }
        *length += more;
    }
    return true;
}

static const char *reply_name(const uint8_t *reply, size_t length)
{
    if (length == REPLY && memcmp(reply, ack_1, REPLY) == 0) {
        return "ACK 1";
    }
    if (length == REPLY && memcmp(reply, ack_0, REPLY) == 0) {
        return "ACK 0";
    }
    return length == 0 ? "timeout" : "no ACK";
}

/* What the sender does after a reply: `block` is the one that was sent. */
static const char *step_name(const struct gdt_link *link, const struct gdt_sent *next, size_t block)
{
    if (next->what != GDT_UNDER_WAY) {
        return next->what == GDT_DELIVERED ? "all sent" : "no more attempts";
    }
    if (next->block == block + 1) {
        return "next block";
    }
    return link->errors != 0 ? "same block again" : "second attempt from block 1";
}

/* Sends a block and hears the reply: says what comes next, or false if the line is closed. */
static bool send_block(struct line *line, struct gdt_link *link, size_t set_length, struct gdt_sent *next)
{
    uint8_t block[GDT_BLOCK], reply[REPLY];
    size_t number = next->block, count = next->count, heard;
    size_t length = gdt_block(set, set_length, number, count, block).count;
    bool damaged = damage(line, block, length);
    drop_rest(line->in);
    if (!write_all(line->out, block, length) || !read_reply(line->in, reply, &heard)) {
        return false;
    }
    *next = gdt_send(link, GDT_REPLY, reply, heard);
    printf("block %zu of %zu, count %zu, %.3s, %zu bytes%s: %s, %s\n", number + 1, link->blocks, count, (const char *)block + 1, length,
           damaged ? " (damaged)" : "", reply_name(reply, heard), step_name(link, next, number));
    show();
    return true;
}

/* Sends the one set in a file. The link's record goes on from set to set. */
static bool send_set(struct line *line, struct gdt_link *link, const char *path)
{
    size_t length = read_set(path);
    if (length == 0) {
        return false;
    }
    struct gdt_sent next = gdt_send(link, GDT_BEGIN, set, length);
    if (next.no != 0) {
        tell_refusal(path, next.no, next.place, next.label);
        return false;
    }
    while (next.what == GDT_UNDER_WAY) {
        if (!send_block(line, link, length, &next)) {
            dprintf(2, "cable: the line is closed: %s is not delivered\n", path);
            return false;
        }
    }
    printf("%s: %s\n", next.what == GDT_DELIVERED ? "delivered" : "given up", path);
    show();
    return next.what == GDT_DELIVERED;
}

/* Sends each set in turn; after one that is not delivered it ends. */
static int send_sets(struct line *line, char **paths)
{
    struct gdt_link link = {0, 0, 0, 0, 0, 0};
    for (; *paths != NULL; paths++) {
        if (!send_set(line, &link, *paths)) {
            return REFUSED;
        }
    }
    return DONE;
}

/* ---- The receiver ------------------------------------------------------------------------------------------------------------ */

/* Reads up to the next 0Dh, and answers how many bytes came, at most RUN: what is longer than a block is thus no block. If the line
   falls silent in between, what came is dropped: the sender will send that block again, and it must be read by itself. 0: the line
   is closed. */
static size_t read_run(int in, uint8_t out[RUN])
{
    uint8_t byte = 0;
    size_t used = 0;
    while (byte != BLOCK_END) {
        if (used > 0 && !comes(in, now() + timeout / 2)) {
            used = 0;
        }
        if (read_some(in, &byte, 1) == 0) {
            return 0;
        }
        if (used < RUN) {
            out[used++] = byte;
        }
    }
    return used;
}

/* Adds the set to the end of the file and brings it to the disk. If that cannot be done, the file is cut to what it was. */
static bool add_to_file(size_t length)
{
    int to = open(inbox.path, O_WRONLY | O_CREAT | O_APPEND, ANY_USER);
    long old = to >= 0 ? lseek(to, 0, SEEK_END) : -1;
    bool done = old >= 0 && write_all(to, inbox.set, length) && fsync(to) == 0;
    if (!done) {
        tell_failure(inbox.path, "written");
    }
    if (!done && old >= 0 && ftruncate(to, old) != 0) {
        tell_failure(inbox.path, "cut to what it was");
    }
    if (to >= 0) {
        close(to);
    }
    return done;
}

/* A set came whole: judges it and adds it to the file; false if it cannot be added, and then must come again. */
static bool keep_set(size_t length)
{
    struct gdt_link unused = {0, 0, 0, 0, 0, 0};
    struct gdt_sent judged = gdt_send(&unused, GDT_BEGIN, inbox.set, length);
    if (judged.no != 0) {
        tell_refusal("the set that came is not added", judged.no, judged.place, judged.label);
        inbox.status = REFUSED;
        return true;
    }
    if (inbox.once_more && length == inbox.last_length && memcmp(inbox.set, inbox.last, length) == 0) {
        printf("    the same set once more: not added again\n");
        return true;
    }
    if (!add_to_file(length)) {
        inbox.status = REFUSED;
        return false;
    }
    memcpy(inbox.last, inbox.set, length);
    inbox.last_length = length;
    printf("    set of %zu bytes added to %s\n", length, inbox.path);
    return true;
}

/* Says what was received, and sends the reply that the call asks for; ACK 0 in its place for a set that is not kept. The demo loses some
   replies. */
static bool put_reply(struct line *line, const uint8_t *run, size_t length, struct gdt_received got, bool kept)
{
    static const char *const names[] = {[GDT_TAKEN] = "taken", [GDT_AGAIN] = "known already", [GDT_WHOLE] = "the set is whole"};
    size_t ack = kept ? got.ack : 0;
    const uint8_t reply[REPLY] = {GDT_ACK, (uint8_t)('0' + ack)};
    line->replies++;
    bool lost = line->lose != 0 && line->replies % line->lose == 0;
    if (got.no == 0) {
        printf("    received count %c, %.3s, %zu bytes: %s", run[0], (const char *)run + 1, length,
               kept ? names[got.what] : "the set is not kept");
    } else {
        printf("    received %zu bytes%s: refused by %zu (%s)", length, length == RUN ? " or more" : "", got.no, reasons[got.no]);
    }
    printf(", ACK %zu%s\n", ack, lost ? " (lost)" : "");
    show();
    return lost || write_all(line->out, reply, REPLY);
}

/* A first block was taken: another count than 0 shows that the sender heard the end of the last set. */
static void note_start(const struct gdt_receiver *before, uint8_t count)
{
    if (count != '0') {
        inbox.once_more = false;
    } else if (before->open == 0) {
        inbox.once_more = true;
    }
}

/* Takes blocks until the line is closed. The receiver's record is kept only if what it says was done. */
static int receive_sets(struct line *line, const char *path)
{
    struct gdt_receiver receiver = {0, 0, 0, 0};
    uint8_t run[RUN];
    size_t length;
    bool open = true;
    inbox.path = path;
    while (open && (length = read_run(line->in, run)) > 0) {
        struct gdt_received got = gdt_receive(receiver, inbox.set, ROOM, run, length);
        if (got.what == GDT_TAKEN && run[3] == '0') {
            note_start(&receiver, run[0]);
        }
        bool kept = got.what != GDT_WHOLE || keep_set(got.receiver.used);
        receiver = kept ? got.receiver : receiver;
        open = put_reply(line, run, length, got, kept);
    }
    if (receiver.open != 0) {
        dprintf(2, "cable: the line is closed: a set that was not whole yet is dropped\n");
        inbox.status = REFUSED;
    }
    return inbox.status;
}

/* ---- The line ---------------------------------------------------------------------------------------------------------------- */

/* Opens a serial device for raw bytes. Without O_NONBLOCK a cable of three wires would be waited for: it has no carrier signal. */
static int open_device(const char *path)
{
    struct termios how;
    int opened = open(path, O_RDWR | O_NOCTTY | O_NONBLOCK);
    if (opened < 0 || tcgetattr(opened, &how) != 0) {
        tell_failure(path, "used as a serial device");
        return -1;
    }
    cfmakeraw(&how);
    how.c_cflag &= ~(tcflag_t)CSTOPB;
    how.c_cflag |= CLOCAL | CREAD;
    if (tcsetattr(opened, TCSANOW, &how) != 0 || fcntl(opened, F_SETFL, 0) != 0) {
        tell_failure(path, "set to raw bytes");
        return -1;
    }
    return opened;
}

static bool open_pipes(struct line *near, struct line *far)
{
    int there[2], back[2];
    if (pipe(there) != 0 || pipe(back) != 0) {
        tell_failure("a pipe", "opened");
        return false;
    }
    near->in = back[0];
    near->out = there[1];
    far->in = there[0];
    far->out = back[1];
    return true;
}

static bool open_terminal(struct line *near, struct line *far)
{
    int opened = posix_openpt(O_RDWR | O_NOCTTY);
    const char *name = opened >= 0 && grantpt(opened) == 0 && unlockpt(opened) == 0 ? ptsname(opened) : NULL;
    if (name == NULL) {
        tell_failure("a pseudo terminal", "opened");
        return false;
    }
    near->in = near->out = opened;
    far->in = far->out = open_device(name);
    return far->in >= 0;
}

static void close_line(const struct line *line)
{
    close(line->in);
    if (line->out != line->in) {
        close(line->out);
    }
}

/* The status of the second process. */
static int status_of(int process)
{
    int status, got;
    do {
        got = waitpid(process, &status, 0);
    } while (got < 0 && errno == EINTR);
    return got == process && WIFEXITED(status) ? WEXITSTATUS(status) : REFUSED;
}

/* ---- The commands ------------------------------------------------------------------------------------------------------------ */

struct options {
    bool terminal, off;
    size_t damage, lose;
};

static int over_device(bool sends, char **words)
{
    struct line line = {.in = open_device(words[0])};
    line.out = line.in;
    if (line.in < 0) {
        return REFUSED;
    }
    if (sends) {
        return send_sets(&line, words + 1);
    }
    printf("ready to receive on %s\n", words[0]);
    show();
    return receive_sets(&line, words[1]);
}

/* The receiver is a second process; if it is switched off nobody reads the other end of the line. */
static int demo(const struct options *options, char **words)
{
    struct line near = {.damage = options->damage}, far = {.lose = options->lose};
    if (!(options->terminal ? open_terminal : open_pipes)(&near, &far)) {
        return REFUSED;
    }
    if (options->off) {
        return send_sets(&near, words + 1);
    }
    int process = fork();
    if (process < 0) {
        tell_failure("a second process", "started");
        return REFUSED;
    }
    close_line(process == 0 ? &near : &far);
    if (process == 0) {
        int status = receive_sets(&far, words[0]);
        show();
        exit(status == DONE && unseen ? UNSEEN : status);
    }
    int sent = send_sets(&near, words + 1);
    close_line(&near);
    int received = status_of(process);
    if (received == UNSEEN) {
        unseen = true;
        received = DONE;
    }
    return sent != DONE ? sent : received;
}

/* The number of an option, from 1; 0 if it is none. */
static size_t number_in(const char *text)
{
    char *end;
    unsigned long number = strtoul(text, &end, 10);
    return text[0] >= '0' && text[0] <= '9' && *end == 0 && number <= MOST_NUMBER ? number : 0;
}

/* Takes one option; false if it is wrong. */
static bool take_option(struct options *options, int letter)
{
    size_t number = letter == 't' || letter == 'd' || letter == 'l' ? number_in(optarg) : 1;
    switch (letter) {
    case 'p': options->terminal = true; break;
    case 'o': options->off = true; break;
    case 'd': options->damage = number; break;
    case 'l': options->lose = number; break;
    case 't': timeout = (int64_t)number; break;
    default: return false;
    }
    return number > 0;
}

static int wrong_usage(void)
{
    dprintf(2, "usage: cable send [-t MS] DEVICE SET..     sends the set in each file SET (-: standard input) over the serial device\n"
               "       cable receive [-t MS] DEVICE FILE   takes sets from the serial device and adds each to the end of FILE\n"
               "       cable demo [-p] [-o] [-d N] [-l N] [-t MS] FILE SET..\n"
               "                                           sends each SET to a second process, which adds it to FILE\n"
               "-t MS: a reply is waited for this many milliseconds (10000). -p: over a pseudo terminal, not over pipes. -o: the receiver is\n"
               "switched off. -d N: every Nth block is damaged. -l N: every Nth reply is lost.\n");
    return WRONG_USAGE;
}

/* The command's words, after its options, are a device or a file and then one more, or of what sends one or more. */
static int run(int count, char **words)
{
    bool sends = strcmp(words[0], "send") == 0, receives = strcmp(words[0], "receive") == 0, both = strcmp(words[0], "demo") == 0;
    struct options options = {false, false, 0, 0};
    int letter;
    opterr = 0;
    while ((letter = getopt(count, words, both ? "+pod:l:t:" : "+t:")) != -1) {
        if (!take_option(&options, letter)) {
            return wrong_usage();
        }
    }
    int left = count - optind;
    if (left < 2 || (receives && left != 2) || !(sends || receives || both)) {
        return wrong_usage();
    }
    return both ? demo(&options, words + optind) : over_device(sends, words + optind);
}

int main(int count, char **words)
{
    signal(SIGPIPE, SIG_IGN); /* a closed line is an error of the write */
    if (!take_closed()) {
        dprintf(2, "cable: /dev/null cannot be opened in the place of a closed stream: %s\n", strerror(errno));
        return REFUSED;
    }
    int status = count > 1 ? run(count - 1, words + 1) : wrong_usage();
    show();
    unseen |= fclose(stdout) != 0;
    if (unseen) {
        dprintf(2, "cable: standard output cannot be written%s\n", status == DONE ? "; all else is done" : "");
    }
    return status == DONE && unseen ? REFUSED : status;
}
