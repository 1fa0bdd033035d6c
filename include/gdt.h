/* gdt.h: reading, writing, correcting and recoding GDT 2.1 sets, day files of them, and the serial cable.

   Every call takes any bytes from anyone. It answers a record of numbers by value (gdt_view_copy a length). `no` is 0 if the call was
   done, else the number of the refusal (GDT_EMPTY to GDT_NO_SUCH_CHARACTER); then `place` says where, and `label` which label is concerned.
   Both are 0 if the call was done, and `label` is 0 if no label is concerned. After a refusal every lent byte, entry, number and record is
   what it was before, and the other numbers of the answer are 0 (in gdt_received the receiver's four are those given).

   `place` is the offset of the first byte of the line concerned, for GDT_BAD_BYTE, GDT_HIGH_BYTE and GDT_NO_SUCH_CHARACTER of the byte
   concerned; what differs is said at the number. It counts in the set; for gdt_write in the list (the entry's first byte); for an entry of a
   sheet in the sheet; for GDT_BAD_BYTE and GDT_HIGH_BYTE, if the new content of a correction has the byte, in that content. If a set and what
   is offered to it may both have such a byte, gdt_judge of the set tells which it is: the set is asked first. The day calls add the set's
   offset in the file to the place of what they find wrong in a set (GDT_EMPTY to GDT_BAD_SUM, and GDT_HIGH_BYTE); so GDT_MISSING at set level
   is at the set's offset.

   A set starts at the first byte given. It ends before the first later line start at which seven or more bytes remain and the fourth to the
   seventh are `8000`; if there is none, with the last byte given. Whatever else follows is read as its next line, and refused if it is none:
   a NUL, 1Ah, an empty line, a part of a line. gdt_judge, gdt_index and gdt_list take the set at the front of the bytes, and gdt_day_build
   set after set; all other calls that are given a set take one that must be alone: GDT_BAD_USE if another follows.
   The first fault of a set in this order is the answer: GDT_EMPTY; all lines, one after the other, each by GDT_TOO_MANY_LINES and
   GDT_BAD_LENGTH to GDT_BAD_BYTE; GDT_NO_START, GDT_UNKNOWN_SET, GDT_NO_SUM; all lines again, each by GDT_NOT_IN_SET to GDT_OTHER_VERSION;
   GDT_MISSING; GDT_HIGH_BYTE; GDT_BAD_SUM.

   A content byte is 20h to FFh. A set that has 9206 with content `1` is in the 7-bit code: there no content byte is over 7Fh, else it is
   refused by GDT_HIGH_BYTE. Of a set this is asked after GDT_MISSING and before GDT_BAD_SUM; of a list after GDT_MISSING and before
   GDT_NO_ROOM; of the new content of a correction after GDT_BAD_CONTENT and before GDT_NO_ROOM; of an entry of a sheet after
   GDT_BAD_CONTENT of that entry, and before the next entry is looked at. 9206 with content `2` names code page 437, with `3` code page 1252
   (ANSI); a set without 9206 counts as code page 437. Which bytes of one are which of the other is fixed by the mapping files of Unicode,
   CP437.TXT and CP1252.TXT: below 80h a byte is the same in both; from 80h on 54 characters are in both. 1252 has no character at 81h, 8Dh,
   8Fh, 90h and 9Dh; such a byte is accepted in a set all the same.

   A field list, and a sheet of pending corrections, is entry after entry with nothing between: the content's length in two bytes, the
   label (in a sheet the line number, from 1) in two bytes, both little-endian, then the content. A list has no entry for 8100: gdt_write
   adds it as line 2. In a sheet the last entry for a line counts.

   A day file is set after set with nothing between, at most GDT_MOST_SETS. Its index has four numbers a set, in file order: the set's offset in
   the file, its length, the number of its type, and the place in the file of its 3000 content, the patient's number. It is kept beside
   the file by whoever calls. `numbers` says how many numbers a slice has, four for each entry; one to three numbers after the last four
   are no entry. A count, and the need of GDT_NO_ROOM, are entries, not numbers.

   The serial cable (appendix A of the QMS description of GDT, version 2.1; docs/CABLE.md has what it leaves open). The data of a set are its
   lines joined by one 1Ch in the place of their 0Dh 0Ah, none after the last; the three digits of a line still count both. They are cut every
   128 bytes; data of at most 128 bytes are cut once, after their first 1Ch: so a set has two blocks or more. A block is the sequence count, a
   digit; the label, B00 for the first block, B02 for the last, B01 between; the data; four upper-case hex digits, the CRC-16 of all before
   them, by the program of appendix C; and 0Dh. A reply is two bytes, GDT_ACK and a digit: ACK 1 is 06h 31h, ACK 0 is 06h 30h. Each end keeps a
   record of its own: zeros at the start, then what the calls leave in it. A record may hold any numbers: nothing is assumed of it.

   A pointer must not be null, also if its length is 0. What is lent to be written overlaps nothing else that is lent.
   No call keeps a pointer, allocates, or uses more than 8 KiB of stack (that of the dynamic linker not counted, see docs/C.md). There is no
   other state than what is lent: calls may run in any threads at once, each on buffers of its own.

   Versions: docs/CHANGES.md says what each brought. Compile and link with the header and the archives of one version. While the major number
   is 0, a new minor number may bring refusal numbers and calls; and it may refuse what was accepted before, if a new rule does. A new patch
   number moves no answer, no byte and no name. Both may bring constants, and fields at the end of a record: then the calls that fill such a
   record have another symbol in the archive, by a #define here, so that an object that was compiled with an older header does not link. In
   every version `no` is 0 if and only if the call was done: so take any other number for a refusal, also one that you do not know. A refusal
   number keeps its meaning, a constant its name, a record the order of its fields, and a refused call leaves what was lent as it was.

   The proved library is five archives: libgdt.a; libgdtwrite.a for gdt_write; libgdtday.a for the three day calls; libgdtcable.a for the
   three calls of the cable; libgdtrecode.a for gdt_to_437 and gdt_to_1252. docs/C.md says how to link them. They are x86-64 code for Linux, in
   which size_t has 64 bits. The sources also have a second, independent program for this header, with which it is compared. */
#ifndef GDT_H
#define GDT_H

#include <stddef.h>
#include <stdint.h>

#if SIZE_MAX != UINT64_MAX
#error "gdt.h: size_t must have 64 bits, as in the archives: no -m32, no -mx32"
#endif

#ifdef __cplusplus
extern "C" {
#endif

/* The version, as numbers for #if and as text. */
#define GDT_VERSION_MAJOR 0
#define GDT_VERSION_MINOR 2
#define GDT_VERSION_PATCH 1
#define GDT_VERSION "0.2.1"

/* The limits, for the sizes of buffers. */
enum {
    GDT_MOST_LINES = 512,                  /* lines of a set, and entries of its index */
    GDT_MOST_LINE = 999,                   /* bytes of a line, its 0Dh 0Ah included */
    GDT_MOST_ENTRIES = GDT_MOST_LINES - 1, /* entries of a field list: 8100 has none */
    GDT_MOST_SETS = 2048,                  /* sets of a day file */
    GDT_LARGEST_SET = 35058,               /* bytes: no accepted set has more, whatever its lines */
    GDT_BLOCK = 137                        /* bytes: the greatest length of a block of the cable */
};

/* The refusals, by their numbers. */
enum {
    GDT_EMPTY = 1,           /* a set or list of no bytes; in a day file nothing after `old` */
    GDT_BAD_LENGTH = 2,      /* a line's length is not three digits (also if fewer than three bytes remain), or under 010 */
    GDT_CUT_LINE = 3,        /* a line's length is good, and runs past the end of the bytes */
    GDT_BAD_END = 4,         /* a line does not end in 0Dh 0Ah */
    GDT_BAD_LABEL = 5,       /* a label is not four digits */
    GDT_BAD_BYTE = 6,        /* a content byte is under 20h */
    GDT_TOO_MANY_LINES = 7,  /* line GDT_MOST_LINES + 1 of a set, or entry GDT_MOST_ENTRIES + 1 of a list, starts; or recoding would add
                                such a line (place: the set's length) */
    GDT_NO_START = 8,        /* line 1 is not 8000 */
    GDT_UNKNOWN_SET = 9,     /* 8000 names none of 6300, 6301, 6302, 6310, 6311 */
    GDT_NO_SUM = 10,         /* line 2 is not 8100, or there is none (place: the set's length) */
    GDT_NOT_IN_SET = 11,     /* the label is not in the table of the set's type */
    GDT_STRAY = 12,          /* a member outside its group, or an odd label 6331 to 6399 not right after its name */
    GDT_REPEATED = 13,       /* a single label again in the set or in its group */
    GDT_BAD_CONTENT = 14,    /* the content breaks its field's length, kind or rule */
    GDT_OTHER_VERSION = 15,  /* 9218 is not 02.10 */
    GDT_MISSING = 16,        /* `label` is required and absent; place: 0, or the line of the header or name that lacks it */
    GDT_BAD_SUM = 17,        /* 8100 is not the set's length (place: line 2) */
    GDT_BAD_USE = 18,        /* the used length is over the buffer, or the old length over the day file (place: its length); or another set follows the
                                one that must be alone (place: that one's length) */
    GDT_NO_SUCH_LINE = 19,   /* line number 0, or beyond the set (place: the set's length; for an entry of a sheet that entry) */
    GDT_FIXED_LINE = 20,     /* lines 8000, 8100, 9206 and 9218 cannot be corrected, whatever they hold */
    GDT_BAD_LIST = 21,       /* an entry is cut, or its label is over 9999 */
    GDT_NO_ROOM = 22,        /* more room is needed; place: how many bytes, entries or found sets */
    GDT_TOO_MANY_SETS = 23,  /* set GDT_MOST_SETS + 1 of a day file (place: its offset in the file) */
    GDT_HIGH_BYTE = 24,      /* a content byte is over 7Fh, and the set has 9206 with content 1 (place: the first such byte; label 0) */
    GDT_BAD_BLOCK = 25,      /* received bytes have not the form of a block, or its count or its label is not in turn (place: 0) */
    GDT_BAD_CRC = 26,        /* the four hex digits of a block are not its CRC (place: 0) */
    GDT_NO_SUCH_CHARACTER = 27 /* a content byte has no character, or one that the wanted code page has not (place: the first such byte; label 0) */
};

/* What judging a set answers: its length in bytes, its lines, and the number of its type, as 6310. */
struct gdt_judged {
    size_t no, place, label;
    size_t length, lines, type;
};

/* What index, list, writer, correction, recoding, the day calls and gdt_block answer: how many entries or bytes were made; of a correction and
   of recoding the new used length; of gdt_day_build and gdt_day_append the entries of the index, of gdt_day_find the sets that were found; of gdt_block the length
   of the block. */
struct gdt_made {
    size_t no, place, label;
    size_t count;
};

/* A line of the index: its label, the place of its content, the content's length, and the number of its header's line or 0. */
struct gdt_entry {
    size_t label, place, length, header;
};

/* What a view answers: `flag` is 1 if the part is the sheet's and 0 if it is the set's, `at` and `length` say where the part
   stands in that slice. */
struct gdt_viewed {
    size_t no, place, label;
    size_t flag, at, length;
};

/* Judges the set at the front of the bytes. Another set after it is not judged; its answer `length` says where that starts. */
struct gdt_judged gdt_judge(const uint8_t *set, size_t set_length);

/* Writes an entry for each line of the set at the front of the bytes; entries after the count stay as they were. */
struct gdt_made gdt_index(const uint8_t *set, size_t set_length, struct gdt_entry *out, size_t room);

/* Writes the field list of the set at the front of the bytes; bytes of `out` after the count become zero. */
struct gdt_made gdt_list(const uint8_t *set, size_t set_length, uint8_t *out, size_t room);

/* Writes the set of a field list; bytes of `out` after the count become zero. In this order: GDT_EMPTY; all entries, one after the other, each by
   GDT_TOO_MANY_LINES, GDT_BAD_LIST, GDT_BAD_BYTE; GDT_NO_START, GDT_UNKNOWN_SET; all entries again, each by GDT_NOT_IN_SET to
   GDT_OTHER_VERSION; GDT_MISSING; GDT_HIGH_BYTE; GDT_NO_ROOM. */
struct gdt_made gdt_write(const uint8_t *list, size_t list_length, uint8_t *out, size_t room);

/* Gives line number `line` of the one set in the first `used` bytes of the buffer a new content, inside the buffer; bytes after the
   new used length become zero. In this order: GDT_BAD_USE if `used` is over `room` (place: room); the set's own refusals; GDT_BAD_USE if another
   set follows (place: the first one's length); GDT_NO_SUCH_LINE; GDT_FIXED_LINE; GDT_BAD_BYTE and GDT_BAD_CONTENT of the new content, the
   latter also if it is empty; GDT_HIGH_BYTE; GDT_NO_ROOM (place: the new length). */
struct gdt_made gdt_correct(uint8_t *buffer, size_t room, size_t used, size_t line, const uint8_t *content, size_t content_length);

/* Brings the one set in the first `used` bytes of the buffer into code page 437, or into code page 1252, inside the buffer, and answers its new
   length; all bytes of the buffer after it become zero.
   A set that is in the wanted code page already stays as it is: its 9206 names that code page, or 437 is wanted and it has no 9206. If its
   9206 is `1`, only that content changes, to `2` or `3`. In every other set each content byte becomes that of the same character in the wanted code page,
   and 9206 names it; a set without 9206, if 1252 is wanted, gains the line 9206 with content `3` as line 3, and 8100 counts it too.
   In this order: GDT_BAD_USE if `used` is over `room` (place: room); the set's own refusals; GDT_BAD_USE if another set follows (place: the
   first one's length); GDT_TOO_MANY_LINES if a line would be added to GDT_MOST_LINES (place: the set's length); GDT_NO_SUCH_CHARACTER, if contents
   are recoded, at the first byte that has no character, or one that the wanted code page has not; GDT_NO_ROOM if the new length is over `room` (place: that
   length). */
struct gdt_made gdt_to_437(uint8_t *buffer, size_t room, size_t used);
struct gdt_made gdt_to_1252(uint8_t *buffer, size_t room, size_t used);

/* Says where the content of line number `line` of the one set in the bytes stands under a sheet of pending corrections, which may be empty.
   In this order: the set's own refusals; GDT_BAD_USE if another set follows (place: the first one's length); GDT_NO_SUCH_LINE of the asked line
   (place: the set's length); then entry after entry of the sheet, also one that a later one replaces, each by GDT_BAD_LIST if it is cut,
   GDT_NO_SUCH_LINE, GDT_FIXED_LINE, GDT_BAD_BYTE, GDT_BAD_CONTENT, GDT_HIGH_BYTE (places in the sheet). Line 2 is shown as the set has it. */
struct gdt_viewed gdt_view(const uint8_t *set, size_t set_length, const uint8_t *sheet, size_t sheet_length, size_t line);

/* Copies that content to `out` and answers its length; 0 for a refusal. If the length is over `room` nothing is written, so that a cut
   content is never shown. Bytes of `out` after the content stay as they were. */
size_t gdt_view_copy(const uint8_t *set, size_t set_length, const uint8_t *sheet, size_t sheet_length, size_t line, uint8_t *out, size_t room);

/* Writes the index of a day file, an entry for each of its sets; a file of no bytes has none. Set by set, in file order: refused as that
   set is, with the place in the file; then by GDT_TOO_MANY_SETS if it is set GDT_MOST_SETS + 1, and sets after it are not looked at.
   After the last set GDT_NO_ROOM, with the sets as the need. Numbers after the last entry stay as they were. */
struct gdt_made gdt_day_build(const uint8_t *file, size_t file_length, size_t *index, size_t numbers);

/* Adds the entry of the one set that stands in the file after its first `old` bytes to an index of `count` entries, and answers
   count + 1. If that was the index of the file's first `old` bytes, it is then the index of the whole file, just as gdt_day_build
   gives it; the first `count` entries are not looked at. In this order: GDT_BAD_USE if `old` is over the file's length (place: that
   length); the set's own refusals, placed in the file; GDT_BAD_USE if another set follows (place: the appended set's length);
   GDT_TOO_MANY_SETS at `old` if `count` is GDT_MOST_SETS or more; GDT_NO_ROOM if there is no room for count + 1 entries (place: count + 1).
   Only the four numbers of the new entry are written. */
struct gdt_made gdt_day_append(const uint8_t *file, size_t file_length, size_t old, size_t *index, size_t numbers, size_t count);

/* Looks up a patient: writes the entry numbers, from 1, of the entries that match the asked bytes, lowest first (in file order, if the
   index was built), and answers how many. Every whole entry of `index` is asked: lend four times the count that gdt_day_build or
   gdt_day_append answered, not the whole room. An entry, also of an index that is not this file's, matches if no asked byte is under
   20h, and the asked bytes and then 0Dh 0Ah stand in the file at the place that is its fourth number. Refused by GDT_NO_ROOM alone, with
   the entries that match as the need; `room` and this need are single numbers. Numbers of `out` after the count stay as they were.
   The entry with number n is index[4 * (n - 1)] to index[4 * (n - 1) + 3]: offset, length, type, place. */
struct gdt_made gdt_day_find(const uint8_t *file, size_t file_length, const size_t *index, size_t numbers, const uint8_t *asked, size_t asked_length, size_t *out, size_t room);

/* The sender's record. Six zeros are a fresh link.
   phase: one of the four below; any other number counts as GDT_IDLE, and stays.
   blocks: how many blocks the set has. attempt: 0 and 1 are the first, any more is the second.
   block: the number, from 0, of the block that is to be sent, or was sent last; it is the last one if block + 1 >= blocks.
   errors: 0 if no error was heard for that block yet, else one was. count: the block's sequence count. */
struct gdt_link {
    size_t phase, blocks, attempt, block, errors, count;
};

/* Phases of a link, and `what` of an answer to the sender: nothing is under way; send this block with this count; the set is delivered;
   it is given up. */
enum { GDT_IDLE = 0, GDT_UNDER_WAY = 1, GDT_DELIVERED = 2, GDT_GIVEN_UP = 3 };

/* What the sender has to do next. `what` is GDT_UNDER_WAY if block number `block`, from 0, has to be sent with count `count` (gdt_block
   makes it) and a reply awaited; else both are 0. */
struct gdt_sent {
    size_t no, place, label;
    size_t what, block, count;
};

/* What `bytes` are that gdt_send is given: a reply, none for a timeout; or a set (any number but 0). */
enum { GDT_REPLY = 0, GDT_BEGIN = 1 };

/* The sender: updates the link's record and says what to do next.
   To begin, `bytes` are the one set that is to be sent: refused as gdt_judge refuses it, or by GDT_BAD_USE if another set follows (place: the
   first one's length). All six numbers are written: GDT_UNDER_WAY, the number of blocks, attempt 1, block 0, errors 0, and as count the one
   after that of the link if its phase was GDT_DELIVERED, else 0; so a set that was under way counts as given up.
   Else `bytes` are the reply to the block that was sent last; a reply is never refused. Under way: ACK 1, just 06h 31h, leads to the next
   block with the next count (1 to 9, then 1 again; 1 follows any count of 9 or more) and errors 0, after the last block to GDT_DELIVERED.
   Anything else is an error: the first one on a block sends it again with the same count and writes errors 1; the second in a row begins
   the second attempt (attempt 2, block 0, errors 0, count 0), or in the second attempt ends with GDT_GIVEN_UP. At an end only the phase
   changes. If nothing is under way the record stays as it is, and the answer is its end again, or GDT_IDLE. Of n blocks the sender is at
   an end after at most 4n replies and timeouts.
   The caller waits up to 10 seconds for a reply, and drops one that comes later before it sends again: else it is heard for the next block,
   and GDT_DELIVERED need not mean that the set arrived. A set that is given up may have arrived. */
struct gdt_sent gdt_send(struct gdt_link *link, size_t begin, const uint8_t *bytes, size_t length);

/* Writes block number `block`, from 0, of the one set in the bytes with this count, and answers its length; the other bytes of `out` become
   zero. Refused as gdt_send is at the beginning. Else the length is 0 if the set has no such block, or the count is over 9. The set is
   judged anew in each call, since no record holds it. */
struct gdt_made gdt_block(const uint8_t *set, size_t set_length, size_t block, size_t count, uint8_t out[GDT_BLOCK]);

/* The receiver's record. Four zeros are a fresh receiver. started: 0 if no block was taken yet, and then the other three mean nothing, else
   there is a last one. last: the count of the block that was taken last. open: not 0 if that was no B02, so that its set is not whole.
   used: how many bytes of the set stand in the buffer. A call that takes a block writes 1 for yes. */
struct gdt_receiver {
    size_t started, last, open, used;
};

/* What became of a block: taken; acknowledged again, and nothing else; taken, and the set of `used` bytes is whole. */
enum { GDT_TAKEN = 1, GDT_AGAIN = 2, GDT_WHOLE = 3 };

/* The first byte of a reply. The second one is a digit: '0' + ack of what the receiver answers. */
enum { GDT_ACK = 0x06 };

/* What the receiver answers: `what`; its record after the call, to be kept; and which reply is to be sent: `ack` is 1 if `no` is 0, for ACK 1,
   and 0 if the block is refused, for ACK 0. A program that cannot store a whole set sends ACK 0 by itself, and keeps the record from before
   the call: then the sender tries again. */
struct gdt_received {
    size_t no, place, label;
    size_t what;
    struct gdt_receiver receiver;
    size_t ack;
};

/* The receiver: takes a block, all bytes up to and with its 0Dh, and puts the bytes of the set that it stands for into the buffer: 0Dh 0Ah
   for each 1Ch, and once more after the data of a B02. If the block is taken, the bytes after the used ones become zero; else no byte
   changes. In this order:
   GDT_BAD_BLOCK for the form: 9 to GDT_BLOCK bytes, a digit, B00, B01 or B02, data bytes 1Ch or 20h to FFh (there may be none), four upper-case
   hex digits, 0Dh. GDT_BAD_CRC. Count 0 with B00 starts a set at the front, whatever the record says; with another label it is
   GDT_BAD_BLOCK. If `started` is 0 there is neither a last count nor a next one. The last count again is acknowledged again, whatever its
   label and data. The next count (as at gdt_send) is taken: B01 and B02 in an open set, after the used bytes; B00 if none is open, at the
   front. Anything else is GDT_BAD_BLOCK. If a block that would be taken does not fit, GDT_NO_ROOM (place: the used bytes that it would
   lead to; 2^64 - 1 if they are more).
   B00 is put at the front: take a whole set out of the buffer before the next block. What was received is not judged; gdt_judge does that.

   Its symbol is gdt_receive_2 since 0.2.1, when `ack` was added to the record: an object that was compiled with an older header has less memory
   for the record, and does not link. Source code calls gdt_receive, as before. */
#define gdt_receive gdt_receive_2
struct gdt_received gdt_receive(struct gdt_receiver receiver, uint8_t *buffer, size_t room, const uint8_t *block, size_t block_length);

#ifdef __cplusplus
}
#endif

#endif
