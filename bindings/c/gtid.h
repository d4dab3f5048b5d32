/* The GTID library's calls for C (and for Rust, by the same shapes). Link target/staticlib/libabi.a, which
 * `tools/archive` writes; it is for x86-64 Linux.
 *
 * A lent piece of bytes is two arguments, where it begins and how many bytes it has. A pointer is never NULL, also where
 * there are no bytes: then any other address will do. A number that is handed out must not stand inside lent bytes, two
 * numbers of one call must be different ones, and an output must not overlap an input.
 *
 * Each call returns the number of its refusal, 0 for none: GTID_REFUSAL_ENDED and so on, which README's table explains.
 * Where a call writes, `*len` bytes stand at the front of the output, and the rest of it is as it was. Where a call refuses,
 * all of the output is as it was, and `*len` is 0. The one exception is 13, an output that is too short: then `*len` is the
 * length that is needed. It can't come where the output has the length that stands with the call.
 * (The report of gtid_report_add is no output: it is read, and changed in its place, also where the call refuses with 14. Nor are
 * the reader of a binlog file, its work bytes and its set: what the calls do to them stands there.)
 *
 * A call uses up to 270 KB of the stack. None keeps anything but in that report and in that reader, so calls on different memory
 * may run at the same time. */
#ifndef GTID_H
#define GTID_H

#include <stddef.h>
#include <stdint.h>

#ifdef __cplusplus
extern "C" {
#endif

/* The numbers of refusals. */
#define GTID_REFUSAL_ENDED 1         /* the bytes end inside an item */
#define GTID_REFUSAL_TOO_LARGE 2     /* a number of a tagged event is too large */
#define GTID_REFUSAL_NEGATIVE 3      /* a number of a tagged event is negative */
#define GTID_REFUSAL_WRONG_VERSION 4 /* the version byte of a tagged event isn't 2 */
#define GTID_REFUSAL_UNKNOWN_FIELD 5 /* an unknown field that must not be ignored */
#define GTID_REFUSAL_BAD_TAG 6       /* the tag breaks the tag rule */
#define GTID_REFUSAL_NO_TAG 7        /* a tagged event without a tag */
#define GTID_REFUSAL_WRONG_TYPE 8    /* an event type that this call doesn't serve */
#define GTID_REFUSAL_SMALL_PAYLOAD 9 /* a declared payload smaller than its envelope */
#define GTID_REFUSAL_BAD_LEAD 10     /* a length-encoded integer that begins with FB or FF */
#define GTID_REFUSAL_TOO_LONG 11     /* a body over GTID_MAX_BODY bytes, or a set of a report behind GTID_MAX_SETS */
#define GTID_REFUSAL_NOT_WRITABLE 12 /* a record that can't be written; a report or a reader that is none */
#define GTID_REFUSAL_NO_ROOM 13      /* the output is too short */
#define GTID_REFUSAL_NOT_A_SET 14    /* the bytes are no set */
#define GTID_REFUSAL_BAD_GNO 15      /* a transaction number or an interval outside its rule */
#define GTID_REFUSAL_FULL 16         /* the set would pass GTID_MAX_ENTRIES or GTID_MAX_INTERVALS */
#define GTID_REFUSAL_CROWDED 17      /* an entry of the set would pass GTID_MAX_OF_ENTRY */
#define GTID_REFUSAL_BAD_FILE 18     /* no binlog file: a wrong opening byte, a size that is too small, or bytes after the end */
#define GTID_REFUSAL_ABSENT_ID 21    /* the fields of a tagged event end without its uuid or its number */
#define GTID_REFUSAL_DIVERGED 22     /* each of the two sets has an id that the other lacks */

/* The types of the events that are served. */
#define GTID_TYPE_GTID 33      /* has an id */
#define GTID_TYPE_ANONYMOUS 34 /* has none */
#define GTID_TYPE_PREVIOUS 35  /* a binlog's opening event, which lists all ids before it */
#define GTID_TYPE_TAGGED 42    /* has an id with a tag */

/* Limits: the most bytes of an event's body and of a tag; the most entries (a uuid with a tag or without) and intervals of a set,
 * and the most intervals of one entry. */
#define GTID_MAX_BODY 65536
#define GTID_MAX_TAG 32
#define GTID_MAX_ENTRIES 384
#define GTID_MAX_INTERVALS 2560
#define GTID_MAX_OF_ENTRY 1024

/* The bytes of a uuid, of an interval, and of what stands before the intervals of an entry of a set: the uuid and their number, and in a
 * set with tags the length of the tag, one byte, and the tag. */
#define GTID_UUID_LEN 16
#define GTID_INTERVAL_LEN 16
#define GTID_ENTRY_HEAD (GTID_UUID_LEN + 8)
#define GTID_TAGGED_HEAD (GTID_ENTRY_HEAD + 1)

/* The longest set, in bytes: as many entries as a set can have, with the longest tags, and as many intervals; 62,856. */
#define GTID_LONGEST_SET (8 + GTID_MAX_ENTRIES * (GTID_TAGGED_HEAD + GTID_MAX_TAG) + GTID_MAX_INTERVALS * GTID_INTERVAL_LEN)

/* The highest transaction number that a set can hold; the lowest is 1. An event of type 33 or 42 may carry others: it is read,
 * written and listed with them, and an offer of it is refused with 15. (Type 34 has no id, and its number isn't judged. One of
 * type 42 that lacks its uuid or its number is refused with 21, in an offer and in the listing.) */
#define GTID_HIGHEST_GNO ((uint64_t)INT64_MAX - 1)

/* The longest text of an event, in bytes: that of such a set, with numbers of 19 digits; 129,322. */
#define GTID_LONGEST_TEXT (42 + GTID_MAX_ENTRIES * 70 + GTID_MAX_INTERVALS * 40)

/* The longest body that gtid_write writes, in bytes; 156. It is a tagged one: version, size and last non-ignorable id (4),
 * flags (3), uuid (33), tag (34), seven numbers of 64 bits (10 each) and two of 32 bits (6 each). */
#define GTID_LONGEST_EVENT (4 + 3 + (1 + GTID_UUID_LEN * 2) + (2 + GTID_MAX_TAG) + 7 * 10 + 2 * 6)

/* Whether bytes are a set of transaction ids as this library saves it, and how many entries and intervals it has.
 * Refuses with 14, also what would be a set but for a limit; then both numbers are 0. */
uint8_t gtid_check_set(const uint8_t *set, size_t set_len, uint64_t *entries, uint64_t *intervals);

/* Whether a set has an id: `*present` is 1 or 0. No tag is a tag of no bytes. What can be no id (a uuid that hasn't 16
 * bytes, a tag or a number that breaks its rule) isn't there. Refuses with 14. */
uint8_t gtid_contains(const uint8_t *set, size_t set_len, const uint8_t *uuid, size_t uuid_len,
                      const uint8_t *tag, size_t tag_len, uint64_t gno, uint8_t *present);

/* Takes in the body of a Previous-GTIDs event (type 35): writes the set of all its ids, at most GTID_LONGEST_SET bytes.
 * Refuses with 11, 1, 6, 15, 17 (an entry of that set would have more than 1,024 intervals), 16 (it would have more than 384
 * entries or 2,560 intervals in all) and 13. */
uint8_t gtid_take_in(const uint8_t *body, size_t body_len, uint8_t *out, size_t out_len, size_t *len);

/* Write a set made of two, at most GTID_LONGEST_SET bytes: gtid_either the ids that are in either set, gtid_both those that are
 * in both, gtid_without those of the first that aren't in the second. Sets with the same ids have the same bytes, however they
 * were made. The two may be the same bytes, or overlap: they are only read. The output overlaps neither of them.
 * Each refuses with 14 if the first bytes are no set, and then with 14 if the second are none. The rest is judged of the result
 * alone: 17 (an entry of it would have more than 1,024 intervals), 16 (it would have more than 384 entries or 2,560 intervals in
 * all) and 13. What is in both, or is left, can have more intervals than either set: of 1,000 and 1,000 there can be 1,999 in
 * both, and 2,000 can be left. A result that is refused with 17 or 16 isn't empty. */
uint8_t gtid_either(const uint8_t *first, size_t first_len, const uint8_t *second, size_t second_len,
                    uint8_t *out, size_t out_len, size_t *len);
uint8_t gtid_both(const uint8_t *first, size_t first_len, const uint8_t *second, size_t second_len,
                  uint8_t *out, size_t out_len, size_t *len);
uint8_t gtid_without(const uint8_t *first, size_t first_len, const uint8_t *second, size_t second_len,
                     uint8_t *out, size_t out_len, size_t *len);

/* Whether all ids of the first set are in the second: `*within` is 1 or 0. The empty set is within every set, and every set
 * within itself. The two may be the same bytes, or overlap. Refuses with 14 if the first bytes are no set, and then if the second
 * are none; then `*within` is 0. No limit is in its way.
 * So a follower sees a gap where a new binlog file begins: the opening event, taken in, has to be within its set. If it isn't,
 * gtid_without tells which ids are missing. */
uint8_t gtid_within(const uint8_t *first, size_t first_len, const uint8_t *second, size_t second_len, uint8_t *within);

/* Which of two sets has all ids of the other: `*head` is 1 if the first has, also where they are equal, else 2 if the second
 * has. The two may be the same bytes, or overlap. Refuses with 14 if the first bytes are no set, and then if the second are
 * none, and with 22 if each has an id that the other lacks; then `*head` is 0. No limit is in its way, and nothing is copied.
 * So after a switch of servers it is seen whether one of them has all that the other has, by the opening sets of both. If
 * neither has (22), gtid_without, both ways round, tells which ids each lacks. A follower goes on from its own set in any case:
 * an opening set has ids that it may not have copied. */
uint8_t gtid_head(const uint8_t *first, size_t first_len, const uint8_t *second, size_t second_len, uint8_t *head);

/* A report over sets that are given one after another: how many entries, intervals and ids each has, and the sums over all. It
 * takes GTID_MAX_SETS sets, those that are refused counted.
 * In the making it is GTID_REPORT_LEN bytes of the caller's. All zeros are a new report, over no set; from there on only
 * gtid_report_add changes them, and what stands in them is the library's own. A copy of them is a report, too. So zero the bytes,
 * call gtid_report_add for each saved set, and at last gtid_report_write.
 * Ids are counted in two words: there are `*high` times 2^64 and `*low`. An entry has fewer than 2^63 of them, but a set can have
 * 384 entries. In the sums an id that is in two sets counts twice. */
#define GTID_MAX_SETS 64
#define GTID_REPORT_LEN (8 + GTID_MAX_SETS * 21) /* 1,352: how many sets there are, and a line for each */

/* The longest text of a report, in bytes: 64 lines of 38 bytes, and one of 44 for the sums; 2,476. */
#define GTID_LONGEST_REPORT (GTID_MAX_SETS * 38 + 44)

/* Adds a set to a report, which keeps its line, and tells the set's own four numbers. The set must not overlap the report.
 * Refuses with 12 if the report hasn't exactly GTID_REPORT_LEN bytes, with 11 if it has GTID_MAX_SETS sets already, whatever this
 * one is, since it isn't read, and with 14 if the bytes are no set; then the four numbers are 0. With 12 and 11 the report is as
 * it was. With 14 it has a line that says so, and the bytes count as one of its sets, but add nothing to the sums. */
uint8_t gtid_report_add(uint8_t *report, size_t report_len, const uint8_t *set, size_t set_len,
                        uint64_t *entries, uint64_t *intervals, uint64_t *high, uint64_t *low);

/* The sums over all sets of a report, as its last line has them. Refuses with 12, as above; then the four numbers are 0. */
uint8_t gtid_report_sum(const uint8_t *report, size_t report_len,
                        uint64_t *entries, uint64_t *intervals, uint64_t *high, uint64_t *low);

/* Writes the text of a report, at most GTID_LONGEST_REPORT bytes if gtid_report_add made it from zeros. For each set, in the
 * order in which they were added, it has the line `set ENTRIES INTERVALS HIGH LOW`, or `refused 14`, and at last
 * `sum ENTRIES INTERVALS HIGH LOW`, in decimal: for a set with the ids 1 to 5 of one uuid `set 1 1 0 5`, and for no set at all
 * only `sum 0 0 0 0`. Refuses with 12, as above, and with 13. The report is only read: it can be written again, and added to. */
uint8_t gtid_report_write(const uint8_t *report, size_t report_len, uint8_t *out, size_t out_len, size_t *len);

/* Writes the entries that the body of a Previous-GTIDs event holds anew, as they stand: with tags only if one of them has
 * one, and every length in its shortest form. These are at most `body_len` bytes. Refuses with 11, 1, 6 and 13. */
uint8_t gtid_rewrite(const uint8_t *body, size_t body_len, uint8_t *out, size_t out_len, size_t *len);

/* Reads the body of a Previous-GTIDs event (type 35): how many entries it has, and how many of its bytes the header and they
 * take. Refuses with 11, 1 and 6; then both numbers are 0. */
uint8_t gtid_read_previous(const uint8_t *body, size_t body_len, uint64_t *entries, size_t *used);

/* Reads the entry at a place of such a body: the first entry is at place 8, each other one where the one before it ends, at
 * `*next`. Its uuid is the 16 bytes at `at`, and its tag the `*tag_len` bytes that end at `*first - 8`; whether entries have
 * tags is said by the body's header. Its `*intervals` intervals, from `*first` to `*next`, are pairs of 8-byte numbers, lowest
 * byte first: the start, and the end that isn't reached. Refuses with 11, 1 and 6, also a place behind the body's end; then
 * all four numbers are 0. */
uint8_t gtid_read_entry(const uint8_t *body, size_t body_len, size_t at, size_t *tag_len, uint64_t *intervals,
                        size_t *first, size_t *next);

/* Reads the variable-length unsigned integer at the front of some bytes: its value, and how many bytes it takes. Refuses with
 * 1; then both numbers are 0. */
uint8_t gtid_read_varlen_uint(const uint8_t *s, size_t s_len, uint64_t *value, size_t *used);

/* What `*kind` says of an offer, and what a follower does then. */
#define GTID_REFUSED 0       /* stop: the transaction was not taken and must not be passed over */
#define GTID_TAKEN 1         /* copy the transaction */
#define GTID_ALREADY_THERE 2 /* pass the transaction over */
#define GTID_NO_ID 3         /* copy the transaction, each time that it is offered: the set doesn't protect it */

/* Offers a GTID event (type 33, 34 or 42) to a set, and writes the set after it, at most GTID_LONGEST_SET bytes, also where
 * it is the same: the id is taken, or it is already there, or the event has none (type 34). Refuses with 14, with what the
 * event's body is refused for (1 to 11), with 21 (a tagged event, type 42, that lacks its uuid or its number), and with 15, 17,
 * 16 and 13, in this order.
 * The set after it is the one to save, but only when the tool has committed the transaction: after a crash in between the
 * transaction is offered again, and the tool must know its id, or set and transaction go into one commit. Whoever saves
 * first loses the transaction. */
uint8_t gtid_offer(const uint8_t *set, size_t set_len, uint8_t event_type, const uint8_t *body, size_t body_len,
                   uint8_t *out, size_t out_len, uint8_t *kind, size_t *len);

/* A binlog file, read as it arrives, in chunks that end anywhere. Its first four bytes are FE 62 69 6E. Then come events, each
 * with a header of 19 bytes that has the event's type in byte 4 and its whole size in bytes 9 to 12, lowest byte first; nothing
 * else of it is looked at. Events of type 33, 34 and 42 are offered to a set, and all ids of one of type 35 are joined to it,
 * each as soon as the event is whole, its checksum included. Events of any other type are skipped, whatever their size.
 * Where the file is cut into chunks makes no difference to what is said of its events, to the set, or to how the file ends. An
 * empty chunk changes nothing.
 *
 * The reader is GTID_BINLOG_READER_LEN bytes of the caller's, which gtid_binlog_begin makes and each call changes in their place;
 * this struct has them as they stand on x86-64. Between the calls it needs the same work bytes, with what stands in them, and the
 * same set. A copy of all three is a reader, too, and goes on from there. */
struct gtid_binlog {
    uint8_t own[3];      /* the library's own */
    uint8_t said;        /* what the last call said: GTID_REFUSED, and so on up to GTID_ENDED */
    uint8_t event_type;  /* the type of the event that it said this of, else 0 */
    uint8_t zeros[3];
    uint64_t own_too[2]; /* the library's own */
    uint64_t set_len;    /* the length of the set, which stands at the front of `set` */
    uint64_t used;       /* how many bytes of the chunk the call used */
    uint64_t len;        /* the length of an event's body, at the front of `work`; with 13 the one that is needed; else 0 */
};

#define GTID_BINLOG_READER_LEN 48

/* The bytes of an event's header, and of the checksum that ends an event, if the file has checksums. */
#define GTID_EVENT_HEADER_LEN 19
#define GTID_CHECKSUM_LEN 4

/* The work bytes: the longest body and a checksum; 65,540. */
#define GTID_BINLOG_WORK (GTID_MAX_BODY + GTID_CHECKSUM_LEN)

/* What `said` tells besides GTID_REFUSED, and GTID_TAKEN, GTID_ALREADY_THERE and GTID_NO_ID of an event that was offered. */
#define GTID_JOINED 4      /* the ids of a Previous-GTIDs event (type 35) were joined to the set */
#define GTID_MORE_WANTED 5 /* the chunk is used up, and no further event is whole */
#define GTID_ENDED 6       /* the end was named, and that was well */

/* The loop, over chunks of a file as they come; the saved set stands at the front of `set`:
 *
 *     struct gtid_binlog reader;
 *     static uint8_t set[GTID_LONGEST_SET], spare[GTID_LONGEST_SET], work[GTID_BINLOG_WORK];
 *
 *     number = gtid_binlog_begin(set, set_len, checksums, (uint8_t *)&reader, sizeof reader);
 *     while (number == 0 && (chunk_len = next_chunk(chunk)) != 0)
 *         for (size_t at = 0; number == 0 && at < chunk_len; at += reader.used) {
 *             number = gtid_binlog_step((uint8_t *)&reader, sizeof reader, chunk + at, chunk_len - at, work, sizeof work,
 *                                       set, sizeof set, spare, sizeof spare);
 *             if (number == 0 && reader.said != GTID_MORE_WANTED)
 *                 an event of type reader.event_type is whole: its last byte is chunk[at + reader.used - 1], its body stands in
 *                 the first reader.len bytes of `work`, and the set after it in the first reader.set_len bytes of `set`
 *         }
 *     if (number == 0)
 *         number = gtid_binlog_end((uint8_t *)&reader, sizeof reader);
 *
 * When to save. A GTID event is the first of its transaction: when the reader has taken its id into the set, the rows have not
 * come yet. So what stands in `set` is not the set to save. Whoever saves it and is stopped before the tool has committed the
 * transaction has a set that claims it, and loses it. The order is:
 *   1. at GTID_TAKEN, keep a copy of the reader.set_len bytes of the set with the transaction;
 *   2. copy its rows: they are the skipped events behind it, up to the one that ends it (XID, type 16), and the caller splits
 *      them out of the same chunks, by their headers;
 *   3. commit it in the tool, and all transactions before it, whose ids are in that copy, too;
 *   4. save the copy of 1, beside the old one, and rename it into its place.
 * After a crash the reader begins again with the saved set, at the file's start; of what the tool has already it says
 * GTID_ALREADY_THERE. A transaction that was committed and not saved is taken again: the tool must know its id, or set and
 * transaction go into one commit.
 *
 * At GTID_JOINED look at the set first: if its bytes are others than before the event, the event lists ids that the set lacked,
 * and those transactions were never copied. (Same ids, same bytes. gtid_without of the new set and the old one tells which.) At
 * the opening of the next file that is a gap: stop, and don't save that set. It is as it should be only where a follower starts
 * with a file and an empty set, and the tool has all transactions before it. */

/* Begins to read a file: makes a reader that goes on from a set, which may be one that another file left. `checksums` says
 * whether four bytes of checksum end each event, 0 for no, any other number for yes. They are cut off, and not checked. (The
 * file's first event, the format description, tells it: its last four bytes are its checksum in any case, and the byte before
 * them is 0 if the other events have none.) The set is only read here, and lent again with each step.
 * Refuses with 12 if the reader hasn't exactly GTID_BINLOG_READER_LEN bytes; then it is as it was. Refuses with 14 if the bytes
 * are no set; then each step repeats it. */
uint8_t gtid_binlog_begin(const uint8_t *set, size_t set_len, uint8_t checksums, uint8_t *reader, size_t reader_len);

/* Takes bytes of a chunk, up to the end of the next event that is offered or joined, or to the byte that shows a refusal, or all
 * of them; `used` tells how many, and `said` one thing. What is left of the chunk is lent to the next step.
 * `set` has the set at its front, before and after, and its other bytes may be anything; `spare` is room for the set after an
 * event, and has it too, then. Lend each GTID_LONGEST_SET bytes, and `work` GTID_BINLOG_WORK. None of the five may overlap
 * another.
 * Refuses, in this order:
 *   12  if the reader hasn't exactly GTID_BINLOG_READER_LEN bytes (then it is as it was), or is one that no call made;
 *   13  if there are fewer than GTID_BINLOG_WORK work bytes, unless the end was named; `len` is that number then;
 *   18  for a wrong byte of the opening; for a header whose size is too small for header and checksum; and for a byte after an
 *       end that was named and was well;
 *   11  for a header of type 33, 34, 35 or 42 whose event would have a body over 65,536 bytes.
 * An event that is whole is refused, if it is of type 33, 34 or 42, as gtid_offer refuses it; of type 35 with 14, if what stands
 * in `set` is no set, then with 1, 6 and 15, with 17 and 16, both judged of the joined set alone, and with 13. This 13 comes if
 * the set after the event is longer than `set` or `spare`; `len` is its length then.
 * With a refusal `set` and `spare` are as they were: the set is as the events before made it, those of the same chunk included.
 * From then on the reader is stopped. Every call repeats the number and uses nothing, whatever it is lent, also after 13. */
uint8_t gtid_binlog_step(uint8_t *reader, size_t reader_len, const uint8_t *chunk, size_t chunk_len,
                         uint8_t *work, size_t work_len, uint8_t *set, size_t set_len, uint8_t *spare, size_t spare_len);

/* Names the end of the file: between two events, or right behind the opening, that is well. Refuses with 1 inside the opening or
 * an event, also where nothing has come at all; and with 12, as above. A reader that is stopped repeats its refusal. Naming the
 * end again repeats the answer. Of a file that is only not yet longer the end isn't named. */
uint8_t gtid_binlog_end(uint8_t *reader, size_t reader_len);

/* Writes the text of an event, at most GTID_LONGEST_TEXT bytes: the input is the byte of its type with its body behind it. An
 * event that is refused has a text too, which tells the number; a tagged one that lacks its uuid or its number is refused
 * with 21, as in an offer. Refuses with 13 only. */
uint8_t gtid_list(const uint8_t *input, size_t input_len, uint8_t *out, size_t out_len, size_t *len);

/* A record of a GTID event as bytes. Numbers have their lowest byte first.
 *    place  bytes
 *        0      1  flags
 *        1     16  uuid
 *       17      8  gno, the transaction number
 *       25      1  how many bytes the tag has; 0 is no tag
 *       26     32  the tag, and zeros after it
 *       58      1  1 if there is a typecode, else 0
 *       59      1  the typecode
 *       60      8  last_committed
 *       68      8  sequence_number
 *       76      8  immediate commit timestamp
 *       84      8  original commit timestamp
 *       92      8  transaction length
 *      100      4  immediate server version; GTID_UNDEFINED_SERVER_VERSION where it isn't known, not 0
 *      104      4  original server version, likewise
 *      108      8  commit group ticket */
#define GTID_RECORD_LEN 116

/* The server version of a record that tells none: what gtid_read gives where none was sent. */
#define GTID_UNDEFINED_SERVER_VERSION 999999

/* Reads the body of a GTID event (type 33, 34 or 42): writes its record, GTID_RECORD_LEN bytes, and `*used` is how many bytes
 * of the body it takes. Refuses with 8, with what the body is refused for (1 to 11; then `*used` is 0), and with 13 if there
 * is no room for the record (then `*used` is GTID_RECORD_LEN). A number that is 0 in the record of a tagged event may have been
 * sent as 0, or not at all: gtid_read_present tells. */
uint8_t gtid_read(uint8_t event_type, const uint8_t *body, size_t body_len, uint8_t *record, size_t record_len, size_t *used);

/* The fields of a tagged event (type 42), by MySQL's names: bit k for the field with id k. Where a gno is present,
 * `present & GTID_FIELD_GNO` isn't 0. */
#define GTID_FIELD_GTID_FLAGS 0x001
#define GTID_FIELD_UUID 0x002
#define GTID_FIELD_GNO 0x004
#define GTID_FIELD_TAG 0x008
#define GTID_FIELD_LAST_COMMITTED 0x010
#define GTID_FIELD_SEQUENCE_NUMBER 0x020
#define GTID_FIELD_IMMEDIATE_COMMIT_TIMESTAMP 0x040
#define GTID_FIELD_ORIGINAL_COMMIT_TIMESTAMP 0x080
#define GTID_FIELD_TRANSACTION_LENGTH 0x100
#define GTID_FIELD_IMMEDIATE_SERVER_VERSION 0x200
#define GTID_FIELD_ORIGINAL_SERVER_VERSION 0x400
#define GTID_FIELD_COMMIT_GROUP_TICKET 0x800

/* Reads as gtid_read does, with the same answer, and says which fields of a tagged event are present: `*present` has the bits of
 * those that were read before the fields ended, however often each came. (An unknown field that may be ignored ends them: what
 * is behind it isn't read.) In the record an absent field is 0, but for a server version, which is
 * GTID_UNDEFINED_SERVER_VERSION, and for an original timestamp or version, which is the immediate one.
 * Untagged events (types 33 and 34) have no such fields, and a uuid and a gno in any case: then `*present` is 0. It is 0 with
 * every refusal, too, also with 13. */
uint8_t gtid_read_present(uint8_t event_type, const uint8_t *body, size_t body_len, uint8_t *record, size_t record_len,
                          size_t *used, uint16_t *present);

/* Writes the body of the event that a record describes, of type 42 if it has a tag, else 33: at most GTID_LONGEST_EVENT bytes.
 * A typecode counts only if the byte before it isn't 0. Refuses with 12 if the record hasn't exactly GTID_RECORD_LEN bytes, or
 * wouldn't come back equal from the body that would be written; and with 13. A uuid or a number that was absent where the record
 * was read is written as zeros, and has been sent then: so an event is offered as it came, not written again. */
uint8_t gtid_write(const uint8_t *record, size_t record_len, uint8_t *out, size_t out_len, size_t *len);

#ifdef __cplusplus
}
#endif

#endif
