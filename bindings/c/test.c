/* Calls every function of gtid.h once or more, from C. Run by bindings/test; says what went wrong and ends with 1, or says nothing. */
#include "gtid.h"

#include <stdio.h>
#include <string.h>

static int faults;

#define EXPECT(what) ((what) ? (void)0 : (void)(faults++, printf("test.c:%d: not so: %s\n", __LINE__, #what)))

/* A number, lowest byte first. */
static void put(uint8_t *at, uint64_t number)
{
    for (int i = 0; i < 8; i++)
        at[i] = (uint8_t)(number >> (8 * i));
}

/* The bytes of a short event, which is untagged and has no more than flags, uuid and number, and of a set with one interval of one uuid. */
#define SHORT_EVENT_LEN (1 + 16 + 8)
#define SMALL_SET_LEN (8 + 16 + 8 + 16)

static uint8_t set[GTID_LONGEST_SET], next[GTID_LONGEST_SET], text[GTID_LONGEST_TEXT];

/* The empty set. */
static const uint8_t empty[8] = {0};

/* An event's type and its body. */
static uint8_t input[1 + GTID_MAX_BODY];

/* A short event with this number of the uuid 07 07 .. . */
static void put_short_event(uint8_t *event, uint64_t gno)
{
    event[0] = 0; /* no flags */
    memset(event + 1, 7, 16);
    put(event + 17, gno);
}

/* A record whose numbers are the greatest and whose tag is the longest: it is written in GTID_LONGEST_EVENT bytes. */
static void write_longest_event(void)
{
    uint8_t record[GTID_RECORD_LEN], written[GTID_LONGEST_EVENT];
    size_t len = 9;

    memset(record, 255, sizeof record);
    put(record + 17, INT64_MAX);
    record[25] = GTID_MAX_TAG;
    memset(record + 26, 'a', GTID_MAX_TAG);
    record[58] = record[59] = 0;
    put(record + 60, INT64_MAX);
    put(record + 68, INT64_MAX);
    record[84] = record[104] = 0; /* originals that differ */
    EXPECT(gtid_write(record, sizeof record, written, sizeof written - 1, &len) == GTID_REFUSAL_NO_ROOM && len == GTID_LONGEST_EVENT);
    EXPECT(gtid_write(record, sizeof record, written, sizeof written, &len) == 0 && len == GTID_LONGEST_EVENT);
}

/* Both server versions of a record. */
static void put_unknown_versions(uint8_t *record)
{
    put(record + 100, ((uint64_t)GTID_UNDEFINED_SERVER_VERSION << 32) + GTID_UNDEFINED_SERVER_VERSION);
}

/* A new record, of which no more is known than uuid and number: written as a short event, and read back equal; refused where it claims
 * server version 0. */
static void write_new_event(void)
{
    uint8_t record[GTID_RECORD_LEN] = {0}, back[GTID_RECORD_LEN], written[GTID_LONGEST_EVENT];
    size_t len = 9, used = 9;

    memset(record + 1, 7, 16);
    put(record + 17, 5);
    EXPECT(gtid_write(record, sizeof record, written, sizeof written, &len) == GTID_REFUSAL_NOT_WRITABLE && len == 0);
    put_unknown_versions(record);
    EXPECT(gtid_write(record, sizeof record, written, sizeof written, &len) == 0 && len == SHORT_EVENT_LEN);
    EXPECT(gtid_read(GTID_TYPE_GTID, written, len, back, sizeof back, &used) == 0 && used == SHORT_EVENT_LEN);
    EXPECT(memcmp(back, record, sizeof record) == 0);
}

/* The highest number of a set is taken; the next one is read and written, and refused. */
static void offer_highest(void)
{
    uint8_t event[SHORT_EVENT_LEN] = {0}, record[GTID_RECORD_LEN], written[GTID_LONGEST_EVENT], kind = 9;
    size_t len = 9, used = 9;

    memset(set, 0, 8);
    put(event + 17, GTID_HIGHEST_GNO);
    EXPECT(gtid_offer(set, 8, GTID_TYPE_GTID, event, sizeof event, next, sizeof next, &kind, &len) == 0 && kind == GTID_TAKEN);
    put(event + 17, GTID_HIGHEST_GNO + 1);
    EXPECT(gtid_offer(next, len, GTID_TYPE_GTID, event, sizeof event, set, sizeof set, &kind, &len) == GTID_REFUSAL_BAD_GNO);
    EXPECT(kind == GTID_REFUSED);
    EXPECT(gtid_read(GTID_TYPE_GTID, event, sizeof event, record, sizeof record, &used) == 0);
    EXPECT(gtid_write(record, sizeof record, written, sizeof written, &len) == 0);
    EXPECT(len == sizeof event && memcmp(written, event, len) == 0);
}

/* So many intervals of so many numbers each, ten apart, from a first number on. Returns the place behind them. */
static uint8_t *put_intervals(uint8_t *at, uint64_t count, uint64_t first, uint64_t numbers)
{
    put(at, count);
    for (uint64_t i = 0; i < count; i++) {
        put(at + 8 + 16 * i, first + 10 * i);
        put(at + 16 + 16 * i, first + 10 * i + numbers);
    }
    return at + 8 + 16 * count;
}

/* A longest tag, which ends with a number of three digits. */
static void put_tag(uint8_t *at, int number)
{
    memset(at, 'a', GTID_MAX_TAG);
    for (int i = 1; i <= 3; i++, number /= 10)
        at[GTID_MAX_TAG - i] = (uint8_t)('0' + number % 10);
}

/* The uuid 07 07 .. with such a tag. Returns the place behind them. */
static uint8_t *put_tagged_key(uint8_t *at, int number)
{
    memset(at, 7, 16);
    at[16] = 2 * GTID_MAX_TAG; /* the tag's length in its one-byte form */
    put_tag(at + 17, number);
    return at + 17 + GTID_MAX_TAG;
}

/* The least number of 19 digits; no number of a set has more digits. */
#define LONG_NUMBER UINT64_C(1000000000000000000)

/* The header of a body with tags and so many entries. */
static void put_tagged_header(uint8_t *at, uint64_t entries)
{
    put(at, (UINT64_C(1) << 56) + (entries << 8) + 1);
}

/* The longest set, as the body of the input: 384 tags of the uuid 07 07 .., and 2,560 intervals, 7 for each of the first 256 and 6 for each
 * other one. Returns how many bytes it has. */
static size_t put_longest_set(void)
{
    uint8_t *at = input + 1 + 8;

    put_tagged_header(input + 1, GTID_MAX_ENTRIES);
    for (int number = 0; number < GTID_MAX_ENTRIES; number++) {
        at = put_tagged_key(at, number);
        at = put_intervals(at, number < GTID_MAX_INTERVALS % GTID_MAX_ENTRIES ? 7 : 6, LONG_NUMBER, 2);
    }
    return (size_t)(at - (input + 1));
}

/* The event of type 42 with an id of that set's last entry. Returns how many bytes it has. */
static size_t put_last_event(uint8_t *event, uint64_t gno)
{
    uint8_t record[GTID_RECORD_LEN] = {0};
    size_t len = 0;

    memset(record + 1, 7, 16);
    put(record + 17, gno);
    record[25] = GTID_MAX_TAG;
    put_tag(record + 26, GTID_MAX_ENTRIES - 1);
    put_unknown_versions(record);
    EXPECT(gtid_write(record, sizeof record, event, GTID_LONGEST_EVENT, &len) == 0);
    return len;
}

/* The longest set has GTID_LONGEST_SET bytes, and its text, in which every number has 19 digits, GTID_LONGEST_TEXT. */
static void take_in_and_list_longest_set(void)
{
    size_t body_len = put_longest_set(), len = 9;
    uint64_t entries = 9, intervals = 9;

    EXPECT(body_len == GTID_LONGEST_SET);
    EXPECT(gtid_check_set(input + 1, body_len, &entries, &intervals) == 0);
    EXPECT(entries == GTID_MAX_ENTRIES && intervals == GTID_MAX_INTERVALS);
    EXPECT(gtid_take_in(input + 1, body_len, set, sizeof set - 1, &len) == GTID_REFUSAL_NO_ROOM && len == GTID_LONGEST_SET);
    EXPECT(gtid_take_in(input + 1, body_len, set, sizeof set, &len) == 0 && len == GTID_LONGEST_SET);
    input[0] = GTID_TYPE_PREVIOUS;
    EXPECT(gtid_list(input, 1 + body_len, text, sizeof text - 1, &len) == GTID_REFUSAL_NO_ROOM && len == GTID_LONGEST_TEXT);
    EXPECT(gtid_list(input, 1 + body_len, text, sizeof text, &len) == 0 && len == GTID_LONGEST_TEXT);
}

/* The longest set takes an id that lengthens its last interval, but none that stands apart. */
static void offer_to_longest_set(void)
{
    size_t body_len = put_longest_set(), event_len, len = 9;
    uint8_t event[GTID_LONGEST_EVENT], kind = 9;

    event_len = put_last_event(event, LONG_NUMBER + 52);
    EXPECT(gtid_offer(input + 1, body_len, GTID_TYPE_TAGGED, event, event_len, next, sizeof next, &kind, &len) == 0);
    EXPECT(kind == GTID_TAKEN && len == GTID_LONGEST_SET);
    event_len = put_last_event(event, LONG_NUMBER + 54);
    EXPECT(gtid_offer(input + 1, body_len, GTID_TYPE_TAGGED, event, event_len, next, sizeof next, &kind, &len) == GTID_REFUSAL_FULL);
    EXPECT(kind == GTID_REFUSED && len == 0);
}

/* One entry, the uuid 00 00 .., with so many intervals, as the body of the input: the numbers 1, 3, 5 and so on. Returns how many bytes it
 * has. */
static size_t put_one_entry(size_t intervals)
{
    uint8_t *at = input + 1 + 32;

    memset(input + 1, 0, 24);
    put(input + 1, 1);
    put(input + 1 + 24, intervals);
    for (size_t i = 0; i < intervals; i++, at += 16) {
        put(at, 2 * i + 1);
        put(at + 8, 2 * i + 2);
    }
    return (size_t)(at - (input + 1));
}

/* Fills both buffers alike: after a refusal the output is compared with the other one. */
static void fill_alike(void)
{
    memset(set, 0xa5, sizeof set);
    memset(next, 0xa5, sizeof next);
}

/* An entry with 1,024 intervals takes an id that lengthens the last one, or joins the first two, but none that stands apart: that leaves
 * the output as it was. */
static void offer_to_full_entry(void)
{
    size_t body_len = put_one_entry(GTID_MAX_OF_ENTRY), len = 9;
    uint64_t entries = 9, intervals = 9;
    uint8_t event[SHORT_EVENT_LEN] = {0}, kind = 9;

    put(event + 17, 2 * GTID_MAX_OF_ENTRY);
    EXPECT(gtid_offer(input + 1, body_len, GTID_TYPE_GTID, event, sizeof event, next, sizeof next, &kind, &len) == 0);
    EXPECT(kind == GTID_TAKEN && len == body_len);
    put(event + 17, 2);
    EXPECT(gtid_offer(input + 1, body_len, GTID_TYPE_GTID, event, sizeof event, next, sizeof next, &kind, &len) == 0);
    EXPECT(kind == GTID_TAKEN && len == body_len - 16);
    EXPECT(gtid_check_set(next, len, &entries, &intervals) == 0 && entries == 1 && intervals == GTID_MAX_OF_ENTRY - 1);
    put(event + 17, 2 * GTID_MAX_OF_ENTRY + 1);
    fill_alike();
    EXPECT(gtid_offer(input + 1, body_len, GTID_TYPE_GTID, event, sizeof event, next, sizeof next, &kind, &len) == GTID_REFUSAL_CROWDED);
    EXPECT(kind == GTID_REFUSED && len == 0 && memcmp(next, set, sizeof next) == 0);
}

/* An entry with 1,025 intervals is in no set. */
static void refuse_crowded_entry(void)
{
    size_t body_len = put_one_entry(GTID_MAX_OF_ENTRY + 1), len = 9;
    uint64_t entries = 9, intervals = 9;
    uint8_t event[SHORT_EVENT_LEN] = {0}, kind = 9;

    put(event + 17, 1);
    fill_alike();
    EXPECT(gtid_take_in(input + 1, body_len, next, sizeof next, &len) == GTID_REFUSAL_CROWDED && len == 0);
    EXPECT(memcmp(next, set, sizeof next) == 0);
    EXPECT(gtid_check_set(input + 1, body_len, &entries, &intervals) == GTID_REFUSAL_NOT_A_SET && entries == 0 && intervals == 0);
    EXPECT(gtid_offer(input + 1, body_len, GTID_TYPE_GTID, event, sizeof event, next, sizeof next, &kind, &len) == GTID_REFUSAL_NOT_A_SET);
}

/* Two sets, and the set that they should come to. */
static uint8_t one[GTID_LONGEST_SET], other[GTID_LONGEST_SET], wanted[GTID_LONGEST_SET];

/* A call that writes a set made of two. */
typedef uint8_t of_two(const uint8_t *, size_t, const uint8_t *, size_t, uint8_t *, size_t, size_t *);

/* A set of one entry, the uuid 07 07 .., with such intervals. Returns how many bytes it has. */
static size_t put_set(uint8_t *at, uint64_t count, uint64_t first, uint64_t numbers)
{
    put(at, 1);
    memset(at + 8, 7, 16);
    return (size_t)(put_intervals(at + 24, count, first, numbers) - at);
}

/* The number that a call answers with for two sets. What it writes is `next`; the rest of that is as it was. */
static uint8_t made(of_two *call, const uint8_t *first, size_t first_len, const uint8_t *second, size_t second_len, size_t *len)
{
    uint8_t number;

    fill_alike();
    *len = 9;
    number = call(first, first_len, second, second_len, next, sizeof next, len);
    EXPECT(number == 0 || *len == 0);
    EXPECT(memcmp(next + *len, set + *len, sizeof next - *len) == 0);
    return number;
}

/* Whether a call makes so many bytes of `wanted` out of two sets. */
static int makes(of_two *call, const uint8_t *first, size_t first_len, const uint8_t *second, size_t second_len, size_t wanted_len)
{
    size_t len;

    return made(call, first, first_len, second, second_len, &len) == 0 && len == wanted_len && memcmp(next, wanted, len) == 0;
}

/* Whether all ids of the first set are in the second: 1 or 0, or the number of the refusal. */
static uint8_t lies_within(const uint8_t *first, size_t first_len, const uint8_t *second, size_t second_len)
{
    uint8_t within = 9, number = gtid_within(first, first_len, second, second_len, &within);

    EXPECT(number == 0 || within == 0);
    return number == 0 ? within : number;
}

/* Which of two sets has all ids of the other: 1 or 2, or the number of the refusal. */
static uint8_t head_of(const uint8_t *first, size_t first_len, const uint8_t *second, size_t second_len)
{
    uint8_t head = 9, number = gtid_head(first, first_len, second, second_len, &head);

    EXPECT(number == 0 ? head == 1 || head == 2 : head == 0);
    return number == 0 ? head : number;
}

/* The numbers 1 to 5 and 4 to 8. */
static void work_with_two_sets(void)
{
    size_t one_len = put_set(one, 1, 1, 5), other_len = put_set(other, 1, 4, 5);

    EXPECT(makes(gtid_either, one, one_len, other, other_len, put_set(wanted, 1, 1, 8)));
    EXPECT(lies_within(one, one_len, next, SMALL_SET_LEN) == 1 && lies_within(next, SMALL_SET_LEN, one, one_len) == 0);
    EXPECT(makes(gtid_both, one, one_len, other, other_len, put_set(wanted, 1, 4, 2)));
    EXPECT(lies_within(next, SMALL_SET_LEN, one, one_len) == 1 && lies_within(one, one_len, next, SMALL_SET_LEN) == 0);
    EXPECT(makes(gtid_without, one, one_len, other, other_len, put_set(wanted, 1, 1, 3)));
    EXPECT(makes(gtid_without, other, other_len, one, one_len, put_set(wanted, 1, 6, 3)));
    EXPECT(lies_within(one, one_len, other, other_len) == 0 && lies_within(other, other_len, one, one_len) == 0);

    EXPECT(makes(gtid_either, empty, sizeof empty, one, one_len, put_set(wanted, 1, 1, 5)));
    EXPECT(makes(gtid_without, one, one_len, empty, sizeof empty, put_set(wanted, 1, 1, 5)));
    EXPECT(lies_within(empty, sizeof empty, one, one_len) == 1 && lies_within(one, one_len, empty, sizeof empty) == 0);
    memset(wanted, 0, sizeof empty);
    EXPECT(makes(gtid_both, one, one_len, empty, sizeof empty, sizeof empty));
    EXPECT(makes(gtid_without, empty, sizeof empty, one, one_len, sizeof empty));
    EXPECT(lies_within(empty, sizeof empty, empty, sizeof empty) == 1);
}

/* A set with itself, in the same bytes; and with a part of its own bytes, zeros of its uuid, that is the empty set. */
static void work_with_the_same_bytes(void)
{
    size_t one_len = put_set(one, 2, 1, 5);

    memcpy(wanted, one, one_len);
    EXPECT(makes(gtid_either, one, one_len, one, one_len, one_len));
    EXPECT(makes(gtid_both, one, one_len, one, one_len, one_len));
    EXPECT(lies_within(one, one_len, one, one_len) == 1);
    memset(wanted, 0, 8);
    EXPECT(makes(gtid_without, one, one_len, one, one_len, 8));

    memset(one + 8, 0, 16);
    EXPECT(makes(gtid_both, one, one_len, one + 8, 8, 8));
    EXPECT(lies_within(one, one_len, one + 8, 8) == 0 && lies_within(one + 8, 8, one, one_len) == 1);
    memcpy(wanted, one, one_len);
    EXPECT(makes(gtid_either, one + 8, 8, one, one_len, one_len));
    EXPECT(makes(gtid_without, one, one_len, one + 8, 8, one_len));
}

/* Bytes that are no set, as the first, as the second, and as both; and then a lack of room, where the length that is needed is told. */
static void refuse_two_sets(of_two *call)
{
    size_t one_len = put_set(one, 1, 1, 5), other_len = put_set(other, 1, 4, 5), len;

    EXPECT(made(call, one, one_len - 1, other, other_len, &len) == GTID_REFUSAL_NOT_A_SET);
    EXPECT(made(call, one, one_len, other, other_len - 1, &len) == GTID_REFUSAL_NOT_A_SET);
    EXPECT(made(call, one, 0, other, 0, &len) == GTID_REFUSAL_NOT_A_SET);
    EXPECT(call(one, one_len, other, other_len - 1, next, 0, &len) == GTID_REFUSAL_NOT_A_SET && len == 0);

    fill_alike();
    EXPECT(call(one, one_len, other, other_len, next, SMALL_SET_LEN - 1, &len) == GTID_REFUSAL_NO_ROOM && len == SMALL_SET_LEN);
    EXPECT(memcmp(next, set, sizeof next) == 0);
    EXPECT(call(one, one_len, other, other_len, next, SMALL_SET_LEN, &len) == 0 && len == SMALL_SET_LEN);
    EXPECT(memcmp(next + SMALL_SET_LEN, set + SMALL_SET_LEN, sizeof next - SMALL_SET_LEN) == 0);
}

/* 1 to 5 and 1 to 8, equal sets in two places and in one, the empty set, and 1 to 5 and 4 to 8; and what is no set. */
static void choose_a_head(void)
{
    const uint8_t zeros[8] = {0};
    size_t one_len = put_set(one, 1, 1, 5), other_len = put_set(other, 1, 1, 8);

    EXPECT(head_of(one, one_len, other, other_len) == 2 && head_of(other, other_len, one, one_len) == 1);
    EXPECT(head_of(empty, sizeof empty, one, one_len) == 2 && head_of(one, one_len, empty, sizeof empty) == 1);
    EXPECT(head_of(one, one_len, one, one_len) == 1 && head_of(empty, sizeof empty, zeros, sizeof zeros) == 1);
    EXPECT(head_of(one, one_len - 1, other, other_len) == GTID_REFUSAL_NOT_A_SET);
    EXPECT(head_of(one, one_len, other, other_len - 1) == GTID_REFUSAL_NOT_A_SET);
    EXPECT(head_of(one, 0, other, 0) == GTID_REFUSAL_NOT_A_SET);
    other_len = put_set(other, 1, 4, 5);
    EXPECT(head_of(one, one_len, other, other_len) == GTID_REFUSAL_DIVERGED);
    EXPECT(head_of(other, other_len, one, one_len) == GTID_REFUSAL_DIVERGED);
    EXPECT(head_of(one, one_len - 1, other, other_len) == GTID_REFUSAL_NOT_A_SET);
    EXPECT(head_of(one, one_len, other, other_len - 1) == GTID_REFUSAL_NOT_A_SET);
    memcpy(other, one, one_len);
    EXPECT(head_of(one, one_len, other, one_len) == 1 && head_of(other, one_len, one, one_len) == 1);
    /* a part of its own bytes, zeros of its uuid, is the empty set */
    memset(one + 8, 0, 16);
    EXPECT(head_of(one, one_len, one + 8, 8) == 1 && head_of(one + 8, 8, one, one_len) == 2);
}

static void refuse_within(void)
{
    size_t one_len = put_set(one, 1, 1, 5), other_len = put_set(other, 1, 1, 5);

    EXPECT(lies_within(one, one_len, other, other_len) == 1);
    EXPECT(lies_within(one, one_len - 1, other, other_len) == GTID_REFUSAL_NOT_A_SET);
    EXPECT(lies_within(one, one_len, other, other_len - 1) == GTID_REFUSAL_NOT_A_SET);
    EXPECT(lies_within(one, 0, other, 0) == GTID_REFUSAL_NOT_A_SET);
}

/* How many intervals a call makes of the sets `one` and `other`, or the number of its refusal. */
static uint64_t intervals_made(of_two *call, size_t one_len, size_t other_len)
{
    uint64_t entries = 9, intervals = 9;
    size_t len;
    uint8_t number = made(call, one, one_len, other, other_len, &len);

    if (number != 0)
        return number;
    EXPECT(gtid_check_set(next, len, &entries, &intervals) == 0 && entries == 1);
    return intervals;
}

/* Half of the intervals that an entry may have. */
#define HALF (GTID_MAX_OF_ENTRY / 2)

/* Entries with some five hundred intervals come to 1,024, and not to one more. */
static void crowd_by_two_sets(void)
{
    size_t one_len, other_len, len = 9;

    /* 1, 11, .. or 3, 13, .. */
    EXPECT(intervals_made(gtid_either, put_set(one, HALF, 1, 1), put_set(other, HALF, 3, 1)) == GTID_MAX_OF_ENTRY);
    EXPECT(intervals_made(gtid_either, put_set(one, HALF + 1, 1, 1), put_set(other, HALF, 3, 1)) == GTID_REFUSAL_CROWDED);
    /* 1 to 6, 11 to 16, .. and 5 to 11, 15 to 21, ..: in both are 5 and 6, 11, 15 and 16, .. */
    EXPECT(intervals_made(gtid_both, put_set(one, HALF + 1, 1, 6), put_set(other, HALF, 5, 7)) == GTID_MAX_OF_ENTRY);
    EXPECT(intervals_made(gtid_both, put_set(one, HALF + 1, 1, 6), put_set(other, HALF + 1, 5, 7)) == GTID_REFUSAL_CROWDED);
    /* 1 to 6, 11 to 16, .. without 3, 13, ..: 1 and 2, 4 to 6, .. */
    EXPECT(intervals_made(gtid_without, put_set(one, HALF, 1, 6), put_set(other, HALF, 3, 1)) == GTID_MAX_OF_ENTRY);
    EXPECT(intervals_made(gtid_without, put_set(one, HALF + 1, 1, 6), put_set(other, HALF, 3, 1)) == GTID_REFUSAL_CROWDED);
    /* before a lack of room */
    one_len = put_set(one, HALF + 1, 1, 6);
    other_len = put_set(other, HALF, 3, 1);
    EXPECT(gtid_without(one, one_len, other, other_len, next, 0, &len) == GTID_REFUSAL_CROWDED && len == 0);
}

/* The same uuid with a tag is another key. */
static void tell_tags_apart(void)
{
    size_t one_len = put_set(one, 1, 1, 5), other_len, len;

    put_tagged_header(other, 1);
    other_len = (size_t)(put_intervals(put_tagged_key(other + 8, 0), 1, 1, 5) - other);
    EXPECT(made(gtid_both, one, one_len, other, other_len, &len) == 0 && len == 8);
    EXPECT(made(gtid_without, one, one_len, other, other_len, &len) == 0 && len == one_len && memcmp(next, one, len) == 0);
    EXPECT(lies_within(one, one_len, other, other_len) == 0);
}

/* The longest set and a set of one entry: no entry more, and no interval more, but a longer interval. */
static void fill_by_two_sets(void)
{
    size_t longest_len = put_longest_set(), one_len, len;

    one_len = put_set(one, 1, LONG_NUMBER, 1); /* the uuid without a tag */
    EXPECT(made(gtid_either, input + 1, longest_len, one, one_len, &len) == GTID_REFUSAL_FULL);
    EXPECT(made(gtid_either, one, one_len, input + 1, longest_len, &len) == GTID_REFUSAL_FULL);

    put_tagged_header(one, 1); /* the last tag, behind its intervals */
    one_len = (size_t)(put_intervals(put_tagged_key(one + 8, GTID_MAX_ENTRIES - 1), 1, LONG_NUMBER + 54, 1) - one);
    EXPECT(made(gtid_either, input + 1, longest_len, one, one_len, &len) == GTID_REFUSAL_FULL);
    EXPECT(gtid_either(input + 1, longest_len, one, one_len, next, 0, &len) == GTID_REFUSAL_FULL && len == 0);

    put_intervals(put_tagged_key(one + 8, GTID_MAX_ENTRIES - 1), 1, LONG_NUMBER + 52, 1);
    EXPECT(made(gtid_either, input + 1, longest_len, one, one_len, &len) == 0 && len == GTID_LONGEST_SET);
    EXPECT(lies_within(input + 1, longest_len, next, len) == 1 && lies_within(next, len, input + 1, longest_len) == 0);
    memcpy(wanted, one, one_len);
    memcpy(other, next, len);
    EXPECT(makes(gtid_without, other, len, input + 1, longest_len, one_len));
    memcpy(wanted, input + 1, longest_len);
    EXPECT(makes(gtid_both, other, len, input + 1, longest_len, longest_len));
    EXPECT(gtid_both(other, sizeof other, input + 1, longest_len, next, sizeof next - 1, &len) == GTID_REFUSAL_NO_ROOM);
    EXPECT(len == GTID_LONGEST_SET);
}

/* A report in the making, and bytes to compare it with. */
static uint8_t report[GTID_REPORT_LEN], kept[GTID_REPORT_LEN];

/* Four numbers: of a set, or of a whole report. */
struct counts {
    uint64_t entries, intervals, high, low;
};

static int are(struct counts counts, uint64_t entries, uint64_t intervals, uint64_t high, uint64_t low)
{
    return counts.entries == entries && counts.intervals == intervals && counts.high == high && counts.low == low;
}

/* Adds a set to the report. Returns the number; with a refusal the set's numbers are 0, and only with 11 the report is as it was. */
static uint8_t added(const uint8_t *bytes, size_t len, struct counts *counts)
{
    uint8_t number;

    memcpy(kept, report, sizeof report);
    memset(counts, 0xa5, sizeof *counts);
    number = gtid_report_add(report, sizeof report, bytes, len, &counts->entries, &counts->intervals, &counts->high, &counts->low);
    EXPECT(number == 0 || are(*counts, 0, 0, 0, 0));
    EXPECT((number == GTID_REFUSAL_TOO_LONG) == (memcmp(report, kept, sizeof report) == 0));
    return number;
}

/* Whether a set is added to the report, and these are its numbers. */
static int adds(const uint8_t *bytes, size_t len, uint64_t entries, uint64_t intervals, uint64_t high, uint64_t low)
{
    struct counts counts;

    return added(bytes, len, &counts) == 0 && are(counts, entries, intervals, high, low);
}

/* Whether the report refuses these bytes with this number. */
static int report_refuses(const uint8_t *bytes, size_t len, uint8_t number)
{
    struct counts counts;

    return added(bytes, len, &counts) == number;
}

/* Whether these are the sums over the report. */
static int sums_are(uint64_t entries, uint64_t intervals, uint64_t high, uint64_t low)
{
    struct counts sums;

    memset(&sums, 0xa5, sizeof sums);
    EXPECT(gtid_report_sum(report, sizeof report, &sums.entries, &sums.intervals, &sums.high, &sums.low) == 0);
    return are(sums, entries, intervals, high, low);
}

/* Whether this is the report's text. Where there is no room for it nothing is written, and asked again with room it is the same. */
static int report_is(const char *expected)
{
    size_t needed = strlen(expected), len = 9;

    memcpy(kept, report, sizeof report);
    fill_alike();
    EXPECT(gtid_report_write(report, sizeof report, next, needed - 1, &len) == GTID_REFUSAL_NO_ROOM && len == needed);
    EXPECT(gtid_report_write(report, sizeof report, next, 0, &len) == GTID_REFUSAL_NO_ROOM && len == needed);
    EXPECT(memcmp(next, set, sizeof next) == 0);
    EXPECT(gtid_report_write(report, sizeof report, next, needed, &len) == 0 && len == needed);
    EXPECT(memcmp(next + len, set + len, sizeof next - len) == 0);
    EXPECT(memcmp(report, kept, sizeof report) == 0);
    return memcmp(next, expected, len) == 0;
}

/* So many entries without tags, each with so many intervals: of one number, ten apart, but for the last, which begins so and ends with the
 * highest number. Returns how many bytes the set has. */
static size_t put_great_set(uint8_t *at, uint16_t entries, uint64_t intervals)
{
    uint8_t *start = at;

    put(at, entries);
    at += 8;
    for (uint16_t number = 0; number < entries; number++) {
        memset(at, 7, 16);
        at[0] = (uint8_t)(number >> 8);
        at[1] = (uint8_t)number;
        at = put_intervals(at + 16, intervals, 1, 1);
        put(at - 8, GTID_HIGHEST_GNO + 1);
    }
    return (size_t)(at - start);
}

static void report_no_set(void)
{
    memset(report, 0, sizeof report);
    EXPECT(sums_are(0, 0, 0, 0));
    EXPECT(report_is("sum 0 0 0 0\n"));
}

/* An empty set, one with two intervals, one with a tag, and the first two again: their ids count twice. */
static void report_sets(void)
{
    size_t one_len = put_set(one, 2, 1, 5), other_len;

    put_tagged_header(other, 1);
    other_len = (size_t)(put_intervals(put_tagged_key(other + 8, 0), 3, 1, 2) - other);
    memset(report, 0, sizeof report);
    EXPECT(adds(empty, sizeof empty, 0, 0, 0, 0));
    EXPECT(report_is("set 0 0 0 0\nsum 0 0 0 0\n"));
    EXPECT(adds(one, one_len, 1, 2, 0, 10));
    EXPECT(report_is("set 0 0 0 0\nset 1 2 0 10\nsum 1 2 0 10\n"));
    EXPECT(adds(other, other_len, 1, 3, 0, 6));
    EXPECT(adds(empty, sizeof empty, 0, 0, 0, 0));
    EXPECT(adds(one, one_len, 1, 2, 0, 10));
    EXPECT(sums_are(3, 7, 0, 26));
    EXPECT(report_is("set 0 0 0 0\nset 1 2 0 10\nset 1 3 0 6\nset 0 0 0 0\nset 1 2 0 10\nsum 3 7 0 26\n"));
}

/* The most ids of an entry, 2^63 - 2, twice: that is 2^64 - 4. Three more are the most that the low word holds, and one more makes it 0 and
 * the high word 1. */
static void report_beyond_one_word(void)
{
    size_t one_len = put_great_set(one, 1, 1), other_len = put_great_set(other, 3, 1);

    memset(report, 0, sizeof report);
    EXPECT(adds(one, one_len, 1, 1, 0, GTID_HIGHEST_GNO));
    EXPECT(adds(one, one_len, 1, 1, 0, GTID_HIGHEST_GNO));
    EXPECT(sums_are(2, 2, 0, UINT64_MAX - 3));
    one_len = put_set(one, 1, 1, 3);
    EXPECT(adds(one, one_len, 1, 1, 0, 3) && sums_are(3, 3, 0, UINT64_MAX));
    one_len = put_set(one, 1, 1, 1);
    EXPECT(adds(one, one_len, 1, 1, 0, 1) && sums_are(4, 4, 1, 0));
    EXPECT(report_is("set 1 1 0 9223372036854775806\nset 1 1 0 9223372036854775806\nset 1 1 0 3\nset 1 1 0 1\nsum 4 4 1 0\n"));

    /* three such entries in one set, and then sums that carry */
    memset(report, 0, sizeof report);
    EXPECT(adds(other, other_len, 3, 3, 1, UINT64_C(9223372036854775802)));
    EXPECT(report_is("set 3 3 1 9223372036854775802\nsum 3 3 1 9223372036854775802\n"));
    EXPECT(adds(other, other_len, 3, 3, 1, UINT64_C(9223372036854775802)));
    EXPECT(sums_are(6, 6, 2, UINT64_MAX - 11));
    other_len = put_great_set(other, 2, 1);
    EXPECT(adds(other, other_len, 2, 2, 0, UINT64_MAX - 3));
    EXPECT(sums_are(8, 8, 3, UINT64_MAX - 15));
}

/* Bytes that are no set have a line, and add nothing. */
static void report_refused_sets(void)
{
    size_t one_len = put_set(one, 1, 1, 5), crowded_len = put_one_entry(GTID_MAX_OF_ENTRY + 1);

    memset(report, 0, sizeof report);
    EXPECT(adds(one, one_len, 1, 1, 0, 5));
    EXPECT(report_refuses(one, one_len - 1, GTID_REFUSAL_NOT_A_SET));
    EXPECT(report_is("set 1 1 0 5\nrefused 14\nsum 1 1 0 5\n"));
    EXPECT(adds(one, one_len, 1, 1, 0, 5));
    EXPECT(report_refuses(one, 0, GTID_REFUSAL_NOT_A_SET));
    EXPECT(report_refuses(input + 1, crowded_len, GTID_REFUSAL_NOT_A_SET)); /* but for a limit it would be one */
    EXPECT(sums_are(2, 2, 0, 10));
    EXPECT(report_is("set 1 1 0 5\nrefused 14\nset 1 1 0 5\nrefused 14\nrefused 14\nsum 2 2 0 10\n"));
    memset(report, 0, sizeof report);
    EXPECT(report_refuses(one, one_len - 1, GTID_REFUSAL_NOT_A_SET));
    EXPECT(report_is("refused 14\nsum 0 0 0 0\n"));
}

/* 64 sets, of which the first so many are none. The next one is refused with 11, whatever it is, and the report is the same. */
static void report_most_sets(int refused)
{
    size_t one_len = put_set(one, 1, 1, 5);
    int sets = GTID_MAX_SETS - refused;
    char expected[GTID_LONGEST_REPORT + 1] = "";

    memset(report, 0, sizeof report);
    for (int i = 0; i < GTID_MAX_SETS; i++) {
        EXPECT(i < refused ? report_refuses(one, one_len - 1, GTID_REFUSAL_NOT_A_SET) : adds(one, one_len, 1, 1, 0, 5));
        strcat(expected, i < refused ? "refused 14\n" : "set 1 1 0 5\n");
    }
    sprintf(expected + strlen(expected), "sum %d %d 0 %d\n", sets, sets, 5 * sets);
    EXPECT(report_is(expected));
    EXPECT(report_refuses(one, one_len, GTID_REFUSAL_TOO_LONG));
    EXPECT(report_refuses(one, one_len - 1, GTID_REFUSAL_TOO_LONG));
    EXPECT(report_refuses(one, 0, GTID_REFUSAL_TOO_LONG));
    EXPECT(sums_are((uint64_t)sets, (uint64_t)sets, 0, 5 * (uint64_t)sets));
    EXPECT(report_is(expected));
}

/* A report of another length is refused before anything else, here a sixty-fifth set that is none, and nothing is changed. */
static void refuse_reports(void)
{
    const size_t lengths[] = {0, GTID_REPORT_LEN - 1, GTID_REPORT_LEN + 1};
    size_t one_len = put_set(one, 1, 1, 5), len;
    static uint8_t longer[GTID_REPORT_LEN + 1];
    struct counts counts;

    memset(report, 0, sizeof report);
    for (int i = 0; i < GTID_MAX_SETS; i++)
        EXPECT(adds(one, one_len, 1, 1, 0, 5));
    for (int i = 0; i < 3; i++) {
        memset(longer, 0, sizeof longer);
        memcpy(longer, report, sizeof report);
        memset(&counts, 0xa5, sizeof counts);
        EXPECT(gtid_report_add(longer, lengths[i], one, one_len - 1, &counts.entries, &counts.intervals, &counts.high, &counts.low) ==
               GTID_REFUSAL_NOT_WRITABLE);
        EXPECT(are(counts, 0, 0, 0, 0) && memcmp(longer, report, sizeof report) == 0 && longer[GTID_REPORT_LEN] == 0);
        memset(&counts, 0xa5, sizeof counts);
        EXPECT(gtid_report_sum(longer, lengths[i], &counts.entries, &counts.intervals, &counts.high, &counts.low) ==
               GTID_REFUSAL_NOT_WRITABLE);
        EXPECT(are(counts, 0, 0, 0, 0));
        fill_alike();
        len = 9;
        EXPECT(gtid_report_write(longer, lengths[i], next, sizeof next, &len) == GTID_REFUSAL_NOT_WRITABLE && len == 0);
        len = 9;
        EXPECT(gtid_report_write(longer, lengths[i], next, 0, &len) == GTID_REFUSAL_NOT_WRITABLE && len == 0);
        EXPECT(memcmp(next, set, sizeof next) == 0);
    }
}

/* 64 sets of 384 entries with 5 intervals and 2^63 - 38 ids each: every number has its most digits. */
static void write_longest_report(void)
{
    size_t one_len = put_great_set(one, GTID_MAX_ENTRIES, 5);
    uint64_t ids = GTID_MAX_ENTRIES * UINT64_C(38); /* so many less than a multiple of 2^64 */
    char expected[GTID_LONGEST_REPORT + 1] = "";

    memset(report, 0, sizeof report);
    for (int i = 0; i < GTID_MAX_SETS; i++) {
        EXPECT(adds(one, one_len, GTID_MAX_ENTRIES, 5 * GTID_MAX_ENTRIES, 191, UINT64_MAX - ids + 1));
        strcat(expected, "set 384 1920 191 18446744073709537024\n");
    }
    strcat(expected, "sum 24576 122880 12287 18446744073708617728\n");
    EXPECT(strlen(expected) == GTID_LONGEST_REPORT);
    EXPECT(sums_are(24576, 122880, 12287, UINT64_MAX - GTID_MAX_SETS * ids + 1));
    EXPECT(report_is(expected));
}

/* Fields of a tagged event as they stand in its body: an id and a value. Every integer has its one-byte form, which is twice its value;
 * a signed one is doubled before. */
#define FLAGS 2 * 0, 2 * 1
#define SEVEN 2 * 7, 2 * 7, 2 * 7, 2 * 7
#define UUID 2 * 1, SEVEN, SEVEN, SEVEN, SEVEN
#define GNO(number) 2 * 2, 4 * (number)
#define TAG 2 * 3, 2 * 5, 'd', 'e', 'p', 'o', 't'
#define LAST_COMMITTED 2 * 4, 4 * 8
#define SEQUENCE_NUMBER 2 * 5, 4 * 9
#define IMMEDIATE_TIME 2 * 6, 2 * 10
#define ORIGINAL_TIME 2 * 7, 2 * 11
#define LENGTH 2 * 8, 2 * 12
#define IMMEDIATE_VERSION 2 * 9, 2 * 13
#define ORIGINAL_VERSION 2 * 10, 2 * 14
#define TICKET 2 * 11, 2 * 15
#define UNKNOWN 2 * 12, 99 /* of its value nothing is known */
#define TIMES_AND_VERSIONS IMMEDIATE_TIME, ORIGINAL_TIME, LENGTH, IMMEDIATE_VERSION, ORIGINAL_VERSION
#define ALL_FIELDS FLAGS, UUID, GNO(6), TAG, LAST_COMMITTED, SEQUENCE_NUMBER, TIMES_AND_VERSIONS, TICKET

/* Some fields, as the two arguments of a lent piece. */
#define FIELDS(...) (const uint8_t[]){__VA_ARGS__}, sizeof(const uint8_t[]){__VA_ARGS__}

#define LISTED_ID "gtid 07070707-0707-0707-0707-070707070707:depot:"

/* The tagged event with these fields, as the input; an unknown field ends them if its id is above the last non-ignorable one. Returns how
 * many bytes the body has. */
static size_t put_fields(const uint8_t *fields, size_t fields_len, uint8_t last_non_ignorable)
{
    const uint8_t front[] = {GTID_TYPE_TAGGED, 2, (uint8_t)(2 * (3 + fields_len)), (uint8_t)(2 * last_non_ignorable)};

    memcpy(input, front, sizeof front);
    memcpy(input + sizeof front, fields, fields_len);
    return 3 + fields_len;
}

/* Reads a body by both calls, with so much room for the record: they must answer and write alike. Returns the number. */
static uint8_t read_by_both(uint8_t event_type, const uint8_t *body, size_t body_len, size_t room, uint16_t *present)
{
    uint8_t record[GTID_RECORD_LEN], plain[GTID_RECORD_LEN], number;
    size_t used = 9, plain_used = 8;

    memset(record, 0xa5, sizeof record);
    memset(plain, 0xa5, sizeof plain);
    *present = 0xffff;
    number = gtid_read_present(event_type, body, body_len, record, room, &used, present);
    EXPECT(gtid_read(event_type, body, body_len, plain, room, &plain_used) == number);
    EXPECT(used == plain_used && memcmp(record, plain, sizeof record) == 0);
    EXPECT(number != 0 || used == body_len);
    EXPECT(number != GTID_REFUSAL_NO_ROOM || used == GTID_RECORD_LEN);
    return number;
}

/* Whether a tagged event with these fields is read, and these are told to be present. */
static int tells(const uint8_t *fields, size_t fields_len, uint16_t expected)
{
    size_t body_len = put_fields(fields, fields_len, 0);
    uint16_t present;

    return read_by_both(GTID_TYPE_TAGGED, input + 1, body_len, GTID_RECORD_LEN, &present) == 0 && present == expected;
}

/* Whether a tagged event with these fields is refused with this number, and nothing is told to be present. */
static int refuses(const uint8_t *fields, size_t fields_len, uint8_t last_non_ignorable, uint8_t expected)
{
    size_t body_len = put_fields(fields, fields_len, last_non_ignorable);
    uint16_t present;

    return read_by_both(GTID_TYPE_TAGGED, input + 1, body_len, GTID_RECORD_LEN, &present) == expected && present == 0;
}

/* The number that a tagged event with these fields is answered with, offered to the empty set. After a refusal the output is as it was. */
static uint8_t offered(const uint8_t *fields, size_t fields_len)
{
    size_t body_len = put_fields(fields, fields_len, 0), len = 9;
    uint8_t kind = 9, number;

    fill_alike();
    number = gtid_offer(empty, sizeof empty, GTID_TYPE_TAGGED, input + 1, body_len, next, sizeof next, &kind, &len);
    EXPECT(number == 0 ? kind == GTID_TAKEN : kind == GTID_REFUSED && len == 0 && memcmp(next, set, sizeof next) == 0);
    return number;
}

/* Whether a tagged event with these fields has this text. */
static int lists(const uint8_t *fields, size_t fields_len, const char *expected)
{
    size_t body_len = put_fields(fields, fields_len, 0), len = 9;

    EXPECT(gtid_list(input, 1 + body_len, text, sizeof text, &len) == 0);
    return len == strlen(expected) && memcmp(text, expected, len) == 0;
}

/* Whether a tagged event with these fields is offered with this answer, and has this text. */
static int comes_to(const uint8_t *fields, size_t fields_len, uint8_t number, const char *listed)
{
    return offered(fields, fields_len) == number && lists(fields, fields_len, listed);
}

/* Each field has its own bit. */
static void read_each_field(void)
{
    EXPECT(tells(FIELDS(TAG), GTID_FIELD_TAG));
    EXPECT(tells(FIELDS(TAG, FLAGS), GTID_FIELD_TAG | GTID_FIELD_GTID_FLAGS));
    EXPECT(tells(FIELDS(TAG, UUID), GTID_FIELD_TAG | GTID_FIELD_UUID));
    EXPECT(tells(FIELDS(TAG, GNO(6)), GTID_FIELD_TAG | GTID_FIELD_GNO));
    EXPECT(tells(FIELDS(TAG, GNO(0)), GTID_FIELD_TAG | GTID_FIELD_GNO));
    EXPECT(tells(FIELDS(TAG, LAST_COMMITTED), GTID_FIELD_TAG | GTID_FIELD_LAST_COMMITTED));
    EXPECT(tells(FIELDS(TAG, SEQUENCE_NUMBER), GTID_FIELD_TAG | GTID_FIELD_SEQUENCE_NUMBER));
    EXPECT(tells(FIELDS(TAG, IMMEDIATE_TIME), GTID_FIELD_TAG | GTID_FIELD_IMMEDIATE_COMMIT_TIMESTAMP));
    EXPECT(tells(FIELDS(TAG, ORIGINAL_TIME), GTID_FIELD_TAG | GTID_FIELD_ORIGINAL_COMMIT_TIMESTAMP));
    EXPECT(tells(FIELDS(TAG, LENGTH), GTID_FIELD_TAG | GTID_FIELD_TRANSACTION_LENGTH));
    EXPECT(tells(FIELDS(TAG, IMMEDIATE_VERSION), GTID_FIELD_TAG | GTID_FIELD_IMMEDIATE_SERVER_VERSION));
    EXPECT(tells(FIELDS(TAG, ORIGINAL_VERSION), GTID_FIELD_TAG | GTID_FIELD_ORIGINAL_SERVER_VERSION));
    EXPECT(tells(FIELDS(TAG, TICKET), GTID_FIELD_TAG | GTID_FIELD_COMMIT_GROUP_TICKET));
}

/* All fields, in any order; what is behind an unknown one is not read, and a repeated one counts once. */
static void read_fields(void)
{
    EXPECT(tells(FIELDS(ALL_FIELDS), 0x0fff));
    EXPECT(tells(FIELDS(TICKET, TIMES_AND_VERSIONS, SEQUENCE_NUMBER, LAST_COMMITTED, TAG, GNO(6), UUID, FLAGS), 0x0fff));
    EXPECT(tells(FIELDS(ALL_FIELDS, UNKNOWN), 0x0fff));
    EXPECT(tells(FIELDS(TAG, UNKNOWN), GTID_FIELD_TAG));
    EXPECT(tells(FIELDS(TAG, UNKNOWN, UUID, GNO(6)), GTID_FIELD_TAG));
    EXPECT(tells(FIELDS(UUID, TAG, UUID, TAG, TAG), GTID_FIELD_UUID | GTID_FIELD_TAG));
}

/* An original that wasn't sent is absent, though the record has the immediate one in its place. */
static void read_originals(void)
{
    size_t body_len = put_fields(FIELDS(TAG, IMMEDIATE_TIME, IMMEDIATE_VERSION), 0), used = 9;
    uint8_t record[GTID_RECORD_LEN];
    uint16_t present = 9;

    EXPECT(gtid_read_present(GTID_TYPE_TAGGED, input + 1, body_len, record, sizeof record, &used, &present) == 0);
    EXPECT(present == (GTID_FIELD_TAG | GTID_FIELD_IMMEDIATE_COMMIT_TIMESTAMP | GTID_FIELD_IMMEDIATE_SERVER_VERSION));
    EXPECT(record[76] == 10 && record[84] == 10 && record[100] == 13 && record[104] == 13);
}

/* An id needs uuid and gno. A gno that was sent as 0 is another fault than one that wasn't sent, and the listing doesn't judge it. A tag
 * that wasn't sent comes before both. */
static void offer_and_list_without_id(void)
{
    EXPECT(comes_to(FIELDS(ALL_FIELDS), 0, LISTED_ID "6\n"));
    EXPECT(comes_to(FIELDS(UUID, GNO(6), TAG, UNKNOWN), 0, LISTED_ID "6\n"));
    EXPECT(comes_to(FIELDS(UUID, GNO(0), TAG), GTID_REFUSAL_BAD_GNO, LISTED_ID "0\n"));
    EXPECT(comes_to(FIELDS(UUID, TAG), GTID_REFUSAL_ABSENT_ID, "refused 21\n"));
    EXPECT(comes_to(FIELDS(GNO(6), TAG), GTID_REFUSAL_ABSENT_ID, "refused 21\n"));
    EXPECT(comes_to(FIELDS(GNO(0), TAG), GTID_REFUSAL_ABSENT_ID, "refused 21\n"));
    EXPECT(comes_to(FIELDS(TAG), GTID_REFUSAL_ABSENT_ID, "refused 21\n"));
    EXPECT(comes_to(FIELDS(TAG, UNKNOWN), GTID_REFUSAL_ABSENT_ID, "refused 21\n"));
    EXPECT(comes_to(FIELDS(UUID, TAG, UNKNOWN, GNO(6)), GTID_REFUSAL_ABSENT_ID, "refused 21\n"));
    EXPECT(comes_to(FIELDS(GNO(6), TAG, UNKNOWN, UUID), GTID_REFUSAL_ABSENT_ID, "refused 21\n"));
    EXPECT(comes_to(FIELDS(UUID, GNO(6)), GTID_REFUSAL_NO_TAG, "refused 7\n"));
    EXPECT(comes_to(FIELDS(FLAGS), GTID_REFUSAL_NO_TAG, "refused 7\n"));
    EXPECT(comes_to(FIELDS(UNKNOWN, UUID, GNO(6), TAG), GTID_REFUSAL_NO_TAG, "refused 7\n"));
}

/* Bytes that are no set are refused before an event without its id; and such an event before a lack of room. */
static void offer_without_id_in_order(void)
{
    size_t body_len = put_fields(FIELDS(TAG), 0), len = 9;
    uint8_t kind = 9;

    EXPECT(gtid_offer(empty, 7, GTID_TYPE_TAGGED, input + 1, body_len, next, sizeof next, &kind, &len) == GTID_REFUSAL_NOT_A_SET);
    EXPECT(gtid_offer(empty, 8, GTID_TYPE_TAGGED, input + 1, body_len, next, 0, &kind, &len) == GTID_REFUSAL_ABSENT_ID);
    EXPECT(kind == GTID_REFUSED && len == 0);
}

/* With a refusal nothing is present, whatever was read before the fault. */
static void refuse_fields(void)
{
    size_t body_len;
    uint16_t present;

    EXPECT(refuses(FIELDS(UUID, GNO(6)), 0, GTID_REFUSAL_NO_TAG));
    EXPECT(refuses(FIELDS(UUID, GNO(6), UNKNOWN, TAG), 0, GTID_REFUSAL_NO_TAG));
    EXPECT(refuses(FIELDS(ALL_FIELDS, UNKNOWN), 12, GTID_REFUSAL_UNKNOWN_FIELD));
    EXPECT(refuses(FIELDS(UUID, TAG, 2 * 3, 2 * 1, 'A'), 0, GTID_REFUSAL_BAD_TAG));
    EXPECT(refuses(FIELDS(UUID, TAG, 2 * 2), 0, GTID_REFUSAL_ENDED));
    body_len = put_fields(FIELDS(ALL_FIELDS), 0);
    EXPECT(read_by_both(GTID_TYPE_TAGGED, input + 1, body_len - 1, GTID_RECORD_LEN, &present) == GTID_REFUSAL_ENDED && present == 0);
    EXPECT(read_by_both(GTID_TYPE_PREVIOUS, input + 1, body_len, GTID_RECORD_LEN, &present) == GTID_REFUSAL_WRONG_TYPE && present == 0);
    EXPECT(read_by_both(GTID_TYPE_TAGGED, input + 1, body_len, GTID_RECORD_LEN - 1, &present) == GTID_REFUSAL_NO_ROOM && present == 0);
    EXPECT(read_by_both(GTID_TYPE_TAGGED, input + 1, body_len, 0, &present) == GTID_REFUSAL_NO_ROOM && present == 0);
}

/* Of an untagged event no field is told, and none is missed: its uuid and gno have their places. */
static void read_and_offer_untagged(void)
{
    const uint8_t zeros[SHORT_EVENT_LEN] = {0};
    uint8_t kind = 9;
    uint16_t present;
    size_t len = 9;

    EXPECT(read_by_both(GTID_TYPE_GTID, zeros, sizeof zeros, GTID_RECORD_LEN, &present) == 0 && present == 0);
    EXPECT(read_by_both(GTID_TYPE_ANONYMOUS, zeros, sizeof zeros, GTID_RECORD_LEN, &present) == 0 && present == 0);
    EXPECT(read_by_both(GTID_TYPE_GTID, zeros, sizeof zeros - 1, GTID_RECORD_LEN, &present) == GTID_REFUSAL_ENDED && present == 0);
    EXPECT(read_by_both(GTID_TYPE_GTID, zeros, sizeof zeros, GTID_RECORD_LEN - 1, &present) == GTID_REFUSAL_NO_ROOM && present == 0);
    EXPECT(gtid_offer(empty, sizeof empty, GTID_TYPE_GTID, zeros, sizeof zeros, next, sizeof next, &kind, &len) == GTID_REFUSAL_BAD_GNO);
    EXPECT(gtid_offer(empty, sizeof empty, GTID_TYPE_ANONYMOUS, zeros, sizeof zeros, next, sizeof next, &kind, &len) == 0);
    EXPECT(kind == GTID_NO_ID);
    memset(input, 0, 1 + sizeof zeros);
    input[0] = GTID_TYPE_GTID;
    EXPECT(gtid_list(input, 1 + sizeof zeros, text, sizeof text, &len) == 0 && len == 44);
    EXPECT(memcmp(text, "gtid 00000000-0000-0000-0000-000000000000:0\n", len) == 0);
}

/* An event without its id is read and written as before: the writer sends zeros, and these are present then. */
static void write_without_id(void)
{
    uint8_t record[GTID_RECORD_LEN], back[GTID_RECORD_LEN], written[GTID_LONGEST_EVENT];
    size_t body_len = put_fields(FIELDS(TAG), 0), used = 9, len = 9;
    uint16_t present = 9;

    EXPECT(gtid_read_present(GTID_TYPE_TAGGED, input + 1, body_len, record, sizeof record, &used, &present) == 0);
    EXPECT(present == GTID_FIELD_TAG);
    EXPECT(gtid_write(record, sizeof record, written, sizeof written, &len) == 0);
    EXPECT(gtid_read_present(GTID_TYPE_TAGGED, written, len, back, sizeof back, &used, &present) == 0 && used == len);
    EXPECT(memcmp(back, record, sizeof record) == 0);
    /* all but the originals, which are equal to the immediate ones, and the ticket, which is 0 */
    EXPECT(present == 0x037f);
}

/* The first bytes of a binlog file. */
#define OPENING "\xfe" "bin"
#define OPENING_LEN (sizeof OPENING - 1)

/* Types of events that are skipped. */
#define STOP 3
#define ROTATE 4
#define FORMAT_DESCRIPTION 15
#define XID 16
#define ROWS 30

/* A binlog file in the making, with checksums or without, and a reader of such files with its work bytes. Its set is `set`, and `next` the
 * room for the set after an event. */
static uint8_t file[1 << 18], work[GTID_BINLOG_WORK];
static size_t file_len;
static uint8_t checksums;
static struct gtid_binlog reader;

/* What a reader said of a file, one thing after another: of each event what it was told, its type, its body, and the set after it; and at
 * last the number of the refusal, or 0, and the set. */
static uint8_t story[1 << 19], known_story[1 << 19];
static size_t story_len, known_len;

static void put_file_opening(uint8_t with_checksums)
{
    memcpy(file, OPENING, OPENING_LEN);
    file_len = OPENING_LEN;
    checksums = with_checksums;
}

/* How many bytes an event with such a body has. */
static uint32_t event_size(uint32_t body_len)
{
    return GTID_EVENT_HEADER_LEN + body_len + (checksums ? GTID_CHECKSUM_LEN : 0);
}

/* The header of an event that claims a body of so many bytes. */
static void put_header(uint8_t event_type, uint32_t body_len)
{
    uint32_t size = event_size(body_len);

    memset(file + file_len, 0x5a, GTID_EVENT_HEADER_LEN); /* nothing else of a header is looked at */
    file[file_len + 4] = event_type;
    for (int i = 0; i < 4; i++)
        file[file_len + 9 + i] = (uint8_t)(size >> (8 * i));
    file_len += GTID_EVENT_HEADER_LEN;
}

static void put_event(uint8_t event_type, const uint8_t *body, size_t body_len)
{
    put_header(event_type, (uint32_t)body_len);
    memcpy(file + file_len, body, body_len);
    file_len += body_len;
    if (checksums) {
        memset(file + file_len, 0xa5, GTID_CHECKSUM_LEN);
        file_len += GTID_CHECKSUM_LEN;
    }
}

/* Such an event of type 33 or 34. */
static void put_gtid(uint8_t event_type, uint64_t gno)
{
    uint8_t body[SHORT_EVENT_LEN];

    put_short_event(body, gno);
    put_event(event_type, body, sizeof body);
}

/* An event of type 35, with such intervals of that uuid. */
static void put_previous(uint64_t count, uint64_t first, uint64_t numbers)
{
    put_event(GTID_TYPE_PREVIOUS, one, put_set(one, count, first, numbers));
}

/* An event that is skipped, with a body of so many bytes. */
static void put_skipped(uint8_t event_type, size_t body_len)
{
    memset(input, GTID_TYPE_PREVIOUS, body_len);
    put_event(event_type, input, body_len);
}

static void tell(const void *bytes, size_t len)
{
    memcpy(story + story_len, bytes, len);
    story_len += len;
}

static void tell_number(uint64_t number)
{
    uint8_t bytes[8];

    put(bytes, number);
    tell(bytes, sizeof bytes);
}

static void tell_set(void)
{
    tell_number(reader.set_len);
    tell(set, reader.set_len);
}

static uint8_t begin_from(const uint8_t *start, size_t start_len)
{
    memset(&reader, 0xa5, sizeof reader);
    memset(set, 0xa5, sizeof set);
    memset(next, 0xa5, sizeof next);
    memset(work, 0xa5, sizeof work);
    memcpy(set, start, start_len);
    story_len = 0;
    return gtid_binlog_begin(set, start_len, checksums, (uint8_t *)&reader, sizeof reader);
}

/* A step with all the room that it may need. */
static uint8_t step(const uint8_t *chunk, size_t chunk_len)
{
    return gtid_binlog_step((uint8_t *)&reader, sizeof reader, chunk, chunk_len, work, sizeof work, set, sizeof set, next, sizeof next);
}

/* All steps through a chunk. Returns the number of the refusal, or 0. */
static uint8_t feed(const uint8_t *chunk, size_t chunk_len)
{
    size_t at = 0;
    uint8_t number;

    do {
        number = step(chunk + at, chunk_len - at);
        EXPECT((number == 0) == (reader.said != GTID_REFUSED) && reader.used <= chunk_len - at);
        at += reader.used;
        if (GTID_TAKEN <= reader.said && reader.said <= GTID_JOINED) {
            tell(&reader.said, 1);
            tell(&reader.event_type, 1);
            tell_number(reader.len);
            tell(work, reader.len);
            tell_set();
            EXPECT(memcmp(next, set, reader.set_len) == 0);
        } else
            EXPECT(reader.event_type == 0 && reader.len == 0 && (number != 0 || at == chunk_len));
    } while (number == 0 && at < chunk_len);
    return number;
}

static uint8_t end_file(void)
{
    uint8_t number = gtid_binlog_end((uint8_t *)&reader, sizeof reader);

    EXPECT(number == 0 ? reader.said == GTID_ENDED : reader.said == GTID_REFUSED);
    EXPECT(reader.used == 0 && reader.event_type == 0);
    return number;
}

/* Reads the file from a set, in a first chunk and others of so many bytes, and names its end. Returns the number of the refusal, or 0. */
static uint8_t read_file(const uint8_t *start, size_t start_len, size_t first, size_t others)
{
    size_t len = first;
    uint8_t number = begin_from(start, start_len);

    for (size_t at = 0; at < file_len; at += len, len = others) {
        if (len > file_len - at)
            len = file_len - at;
        EXPECT(feed(file + at, 0) == number); /* an empty chunk changes nothing */
        number = feed(file + at, len);
    }
    EXPECT(number == 0 || end_file() == number);
    number = end_file();
    EXPECT(end_file() == number); /* named again */
    tell_number(number);
    tell_set();
    return number;
}

/* The number that reading the file in one piece ends with. Cut in two anywhere, and in pieces of 1 to 8 bytes, it tells the same story. */
static uint8_t reads(const uint8_t *start, size_t start_len)
{
    static const size_t pieces[] = {1, 2, 3, 5, 8};
    uint8_t number = read_file(start, start_len, file_len, file_len);

    memcpy(known_story, story, story_len);
    known_len = story_len;
    for (size_t cut = 0; cut <= file_len; cut++) {
        EXPECT(read_file(start, start_len, cut, file_len) == number);
        EXPECT(story_len == known_len && memcmp(story, known_story, known_len) == 0);
    }
    for (int i = 0; i < 5; i++) {
        EXPECT(read_file(start, start_len, pieces[i], pieces[i]) == number);
        EXPECT(story_len == known_len && memcmp(story, known_story, known_len) == 0);
    }
    return number;
}

/* Whether the next part of a story is an event of which this was said, and the set after it is this one. Returns the place behind it, or
 * NULL. */
static const uint8_t *hears(const uint8_t *at, uint8_t said, uint8_t event_type, size_t body_len, const uint8_t *then, size_t then_len)
{
    uint8_t numbers[8];

    if (at == NULL || at[0] != said || at[1] != event_type)
        return NULL;
    put(numbers, body_len);
    if (memcmp(at + 2, numbers, 8) != 0)
        return NULL;
    at += 10 + body_len;
    put(numbers, then_len);
    return memcmp(at, numbers, 8) == 0 && memcmp(at + 8, then, then_len) == 0 ? at + 8 + then_len : NULL;
}

/* A small file, from a set with the numbers 4 to 8: the opening event has 1 to 5, and they are joined; then 9 comes, and comes again, one
 * without an id, and one with a tag. Between them stand events of other types, one of them without a body. */
static void read_small_file(uint8_t with_checksums)
{
    static uint8_t start[GTID_LONGEST_SET], tagged[GTID_LONGEST_SET];
    size_t start_len = put_set(start, 1, 4, 5), tagged_len, body_len;
    const uint8_t *at = known_story;

    put_file_opening(with_checksums);
    put_skipped(FORMAT_DESCRIPTION, 99);
    put_previous(1, 1, 5);
    put_gtid(GTID_TYPE_GTID, 9);
    put_skipped(ROWS, 40);
    put_skipped(XID, 8);
    put_gtid(GTID_TYPE_GTID, 9);
    put_gtid(GTID_TYPE_ANONYMOUS, 0);
    put_skipped(STOP, 0);
    body_len = put_fields(FIELDS(UUID, GNO(6), TAG), 0);
    put_event(GTID_TYPE_TAGGED, input + 1, body_len);
    put_skipped(ROTATE, 21);
    EXPECT(reads(start, start_len) == 0);

    at = hears(at, GTID_JOINED, GTID_TYPE_PREVIOUS, SMALL_SET_LEN, wanted, put_set(wanted, 1, 1, 8));
    at = hears(at, GTID_TAKEN, GTID_TYPE_GTID, SHORT_EVENT_LEN, wanted, put_set(wanted, 1, 1, 9));
    at = hears(at, GTID_ALREADY_THERE, GTID_TYPE_GTID, SHORT_EVENT_LEN, wanted, put_set(wanted, 1, 1, 9));
    at = hears(at, GTID_NO_ID, GTID_TYPE_ANONYMOUS, SHORT_EVENT_LEN, wanted, put_set(wanted, 1, 1, 9));
    put_tagged_header(tagged, 2);
    memset(tagged + 8, 7, 16);
    tagged[24] = 0; /* no tag */
    put_intervals(tagged + 25, 1, 1, 9);
    memset(tagged + 49, 7, 16);
    memcpy(tagged + 65, "\x0a" "depot", 6);
    tagged_len = (size_t)(put_intervals(tagged + 71, 1, 6, 1) - tagged);
    at = hears(at, GTID_TAKEN, GTID_TYPE_TAGGED, body_len, tagged, tagged_len);
    EXPECT(at != NULL && at + 16 + tagged_len == known_story + known_len);
    EXPECT(reader.set_len == tagged_len && memcmp(set, tagged, tagged_len) == 0);

    /* again, from the set that it left: nothing is new, and the bytes are the same */
    EXPECT(read_file(tagged, tagged_len, file_len, file_len) == 0);
    EXPECT(hears(story, GTID_JOINED, GTID_TYPE_PREVIOUS, SMALL_SET_LEN, tagged, tagged_len) != NULL);
    EXPECT(reader.set_len == tagged_len && memcmp(set, tagged, tagged_len) == 0);
}

/* The end between two events, and at every other place of the file. Named again it is the same, and bytes behind it change that only if it
 * was well: then they are refused with 18, and from there on the end is, too. */
static void end_anywhere(uint8_t with_checksums)
{
    size_t ends[5], known = 0;

    put_file_opening(with_checksums);
    ends[0] = file_len;
    put_previous(1, 1, 5);
    ends[1] = file_len;
    put_skipped(ROWS, 20);
    ends[2] = file_len;
    put_skipped(STOP, 0);
    ends[3] = file_len;
    put_gtid(GTID_TYPE_GTID, 6);
    ends[4] = file_len;
    for (size_t cut = 0; cut <= file_len; cut++) {
        uint8_t number = cut == ends[known] ? (known++, 0) : GTID_REFUSAL_ENDED;
        uint8_t after = number == 0 ? GTID_REFUSAL_BAD_FILE : number;

        EXPECT(begin_from(empty, sizeof empty) == 0 && reader.said == GTID_MORE_WANTED);
        EXPECT(feed(file, cut) == 0);
        EXPECT(end_file() == number && end_file() == number);
        EXPECT(step(file, 0) == number && reader.said == (number == 0 ? GTID_ENDED : GTID_REFUSED));
        EXPECT(end_file() == number);
        EXPECT(step(file, file_len) == after && reader.used == (after == GTID_REFUSAL_BAD_FILE ? 1 : 0));
        EXPECT(end_file() == after && step(file, 0) == after && step(file, 1) == after && reader.used == 0);
        EXPECT(reader.set_len == (cut < ends[1] ? 8 : SMALL_SET_LEN));
    }
    EXPECT(known == 5);
}

/* Whether the reader's set has the numbers 1 to 6. */
static int has_six(void)
{
    return reader.set_len == put_set(wanted, 1, 1, 6) && memcmp(set, wanted, reader.set_len) == 0;
}

/* Whether the file is refused with this number, wherever it is cut, and leaves the set with the numbers 1 to 6. */
static int stops(uint8_t number)
{
    return reads(empty, sizeof empty) == number && has_six();
}

/* The beginning of a file that has the numbers 1 to 6. Its next event is refused. */
static void put_six(uint8_t with_checksums)
{
    put_file_opening(with_checksums);
    put_previous(1, 1, 5);
    put_skipped(ROWS, 3);
    put_gtid(GTID_TYPE_GTID, 6);
}

static void refuse_opening(void)
{
    for (size_t wrong = 0; wrong < OPENING_LEN; wrong++) {
        put_file_opening(0);
        put_previous(1, 1, 5);
        file[wrong] ^= 1;
        EXPECT(reads(empty, sizeof empty) == GTID_REFUSAL_BAD_FILE && reader.set_len == 8);
        EXPECT(begin_from(empty, sizeof empty) == 0 && step(file, file_len) == GTID_REFUSAL_BAD_FILE && reader.used == wrong + 1);
    }
}

/* A size that hasn't room for header and checksum, of a type that is read and of one that is skipped. The least size has. */
static void refuse_small_sizes(uint8_t with_checksums)
{
    const uint8_t types[] = {GTID_TYPE_GTID, GTID_TYPE_PREVIOUS, ROWS};
    uint8_t least = GTID_EVENT_HEADER_LEN + (with_checksums ? GTID_CHECKSUM_LEN : 0);

    for (int i = 0; i < 3; i++)
        for (uint8_t size = 0; size <= least; size++) {
            put_six(with_checksums);
            put_event(types[i], input, 0);
            file[file_len - least + 9] = size;
            if (size < least)
                EXPECT(stops(GTID_REFUSAL_BAD_FILE));
            else
                EXPECT(stops(types[i] == ROWS ? 0 : GTID_REFUSAL_ENDED)); /* a body of no bytes */
        }
}

/* A body of 65,536 bytes is read, and one more is refused with 11 once the header is whole; but not of a type that is skipped. */
static void refuse_long_bodies(uint8_t with_checksums)
{
    const uint8_t types[] = {GTID_TYPE_GTID, GTID_TYPE_ANONYMOUS, GTID_TYPE_PREVIOUS, GTID_TYPE_TAGGED};
    const uint8_t numbers[] = {GTID_REFUSAL_BAD_GNO, 0, 0, GTID_REFUSAL_WRONG_VERSION};

    for (int i = 0; i < 4; i++) {
        put_six(with_checksums);
        put_header(types[i], GTID_MAX_BODY + 1);
        EXPECT(stops(GTID_REFUSAL_TOO_LONG));
        put_six(with_checksums);
        put_header(types[i], 1 << 24); /* by the highest byte of its size */
        EXPECT(stops(GTID_REFUSAL_TOO_LONG));
        put_six(with_checksums);
        memset(input, 0, GTID_MAX_BODY);
        put_event(types[i], input, GTID_MAX_BODY);
        EXPECT(read_file(empty, sizeof empty, file_len, 1) == numbers[i] && has_six());
    }
    put_six(with_checksums);
    put_header(ROWS, UINT32_MAX - event_size(0));
    EXPECT(stops(GTID_REFUSAL_ENDED)); /* the end inside it */
    put_six(with_checksums);
    put_header(ROWS, 100000);
    memset(file + file_len, GTID_TYPE_PREVIOUS, 100000 + GTID_CHECKSUM_LEN);
    file_len += 100000 + (with_checksums ? GTID_CHECKSUM_LEN : 0);
    put_gtid(GTID_TYPE_GTID, 6);
    EXPECT(read_file(empty, sizeof empty, 4093, 4093) == 0 && has_six());
}

/* Events that are whole, and refused: in an offer, and where they are to be joined. */
static void refuse_events(uint8_t with_checksums)
{
    const uint8_t body[SHORT_EVENT_LEN] = {0};

    put_six(with_checksums);
    put_event(GTID_TYPE_GTID, body, SHORT_EVENT_LEN - 1);
    put_gtid(GTID_TYPE_GTID, 7);
    EXPECT(stops(GTID_REFUSAL_ENDED));
    put_six(with_checksums);
    put_gtid(GTID_TYPE_GTID, 0);
    EXPECT(stops(GTID_REFUSAL_BAD_GNO));
    put_six(with_checksums);
    put_event(GTID_TYPE_TAGGED, input + 1, put_fields(FIELDS(TAG), 0));
    put_gtid(GTID_TYPE_GTID, 7);
    EXPECT(stops(GTID_REFUSAL_ABSENT_ID));
    put_six(with_checksums);
    put_event(GTID_TYPE_PREVIOUS, one, put_set(one, 1, 7, 1) - 1);
    put_gtid(GTID_TYPE_GTID, 7);
    EXPECT(stops(GTID_REFUSAL_ENDED));
    put_six(with_checksums);
    put_previous(1, 0, 7);
    EXPECT(stops(GTID_REFUSAL_BAD_GNO));
    put_six(with_checksums);
    put_previous(2, 1, 0); /* intervals without a number */
    EXPECT(stops(GTID_REFUSAL_BAD_GNO));
}

/* So many numbers with gaps, 1, 11, .. : joined they may crowd an entry, and a body that would alone may not. */
static void join_many(void)
{
    size_t len;

    put_file_opening(0);
    put_previous(HALF, 1, 1);
    put_previous(HALF, 3, 1);
    put_previous(1, 8, 1);
    EXPECT(read_file(empty, sizeof empty, 4093, 4093) == GTID_REFUSAL_CROWDED);
    EXPECT(reader.set_len == 32 + GTID_MAX_OF_ENTRY * 16);
    put_file_opening(0);
    put_previous(1, 1, 20000);
    put_event(GTID_TYPE_PREVIOUS, input + 1, put_one_entry(GTID_MAX_OF_ENTRY + 1)); /* of another uuid */
    EXPECT(read_file(empty, sizeof empty, 4093, 4093) == GTID_REFUSAL_CROWDED);
    put_file_opening(0);
    put_previous(1, 1, 20000);
    put_previous(GTID_MAX_OF_ENTRY + 1, 1, 1);
    EXPECT(read_file(empty, sizeof empty, 4093, 4093) == 0);
    len = put_set(wanted, 1, 1, 20000);
    EXPECT(reader.set_len == len && memcmp(set, wanted, len) == 0);
}

/* The longest set: no entry more can be joined, and no number that stands apart is taken; what lengthens an interval is. */
static void fill_by_file(void)
{
    static uint8_t longest[GTID_LONGEST_SET];
    uint8_t event[GTID_LONGEST_EVENT];

    memcpy(longest, input + 1, put_longest_set());
    put_file_opening(1);
    put_event(GTID_TYPE_PREVIOUS, longest, sizeof longest);
    put_event(GTID_TYPE_TAGGED, event, put_last_event(event, LONG_NUMBER + 52));
    put_previous(1, 1, 1);
    EXPECT(read_file(empty, sizeof empty, 4093, 4093) == GTID_REFUSAL_FULL && reader.set_len == GTID_LONGEST_SET);
    EXPECT(lies_within(longest, sizeof longest, set, sizeof set) == 1 && lies_within(set, sizeof set, longest, sizeof longest) == 0);
    put_file_opening(1);
    put_event(GTID_TYPE_TAGGED, event, put_last_event(event, LONG_NUMBER + 54));
    EXPECT(read_file(longest, sizeof longest, file_len, file_len) == GTID_REFUSAL_FULL && memcmp(set, longest, sizeof set) == 0);
}

/* The number of a step through the whole file that is lent so much room, and what it says is needed. Set and spare are as they were, and
 * with more room it is the same. */
static uint8_t step_in(size_t work_len, size_t set_room, size_t spare_room, uint64_t *needed)
{
    uint8_t number;

    memcpy(wanted, set, sizeof set);
    memcpy(other, next, sizeof next);
    number = gtid_binlog_step((uint8_t *)&reader, sizeof reader, file, file_len, work, work_len, set, set_room, next, spare_room);
    *needed = reader.len;
    EXPECT(number != 0 && memcmp(set, wanted, sizeof set) == 0 && memcmp(next, other, sizeof next) == 0);
    EXPECT(step(file, file_len) == number && reader.len == *needed && reader.used == 0);
    EXPECT(memcmp(set, wanted, sizeof set) == 0 && memcmp(next, other, sizeof next) == 0);
    return number;
}

static void refuse_room(void)
{
    uint64_t needed;

    put_six(1);
    EXPECT(begin_from(empty, sizeof empty) == 0);
    EXPECT(step_in(GTID_BINLOG_WORK - 1, sizeof set, sizeof next, &needed) == GTID_REFUSAL_NO_ROOM && needed == GTID_BINLOG_WORK);
    EXPECT(begin_from(empty, sizeof empty) == 0);
    EXPECT(step_in(0, sizeof set, sizeof next, &needed) == GTID_REFUSAL_NO_ROOM && needed == GTID_BINLOG_WORK);
    EXPECT(end_file() == GTID_REFUSAL_NO_ROOM);
    EXPECT(begin_from(empty, sizeof empty) == 0);
    EXPECT(step_in(sizeof work, SMALL_SET_LEN - 1, sizeof next, &needed) == GTID_REFUSAL_NO_ROOM && needed == SMALL_SET_LEN);
    EXPECT(begin_from(empty, sizeof empty) == 0);
    EXPECT(step_in(sizeof work, sizeof set, SMALL_SET_LEN - 1, &needed) == GTID_REFUSAL_NO_ROOM && needed == SMALL_SET_LEN);
    /* an offer likewise; and just enough */
    put_file_opening(0);
    put_gtid(GTID_TYPE_GTID, 6);
    EXPECT(begin_from(empty, sizeof empty) == 0);
    EXPECT(step_in(sizeof work, sizeof set, SMALL_SET_LEN - 1, &needed) == GTID_REFUSAL_NO_ROOM && needed == SMALL_SET_LEN);
    EXPECT(begin_from(empty, sizeof empty) == 0);
    EXPECT(gtid_binlog_step((uint8_t *)&reader, sizeof reader, file, file_len, work, sizeof work, set, SMALL_SET_LEN, next,
                            SMALL_SET_LEN) == 0);
    EXPECT(reader.said == GTID_TAKEN && reader.set_len == SMALL_SET_LEN && reader.used == file_len);
}

/* Bytes that are no set, at the start and in the midst; a reader of another length; and one that no call made. */
static void refuse_readers(void)
{
    uint8_t bytes[GTID_BINLOG_READER_LEN + 1], before[GTID_BINLOG_READER_LEN + 1];
    const size_t lengths[] = {0, GTID_BINLOG_READER_LEN - 1, GTID_BINLOG_READER_LEN + 1};

    EXPECT(sizeof reader == GTID_BINLOG_READER_LEN);
    put_six(0);
    EXPECT(begin_from(empty, 7) == GTID_REFUSAL_NOT_A_SET && reader.said == GTID_REFUSED);
    EXPECT(step(file, file_len) == GTID_REFUSAL_NOT_A_SET && reader.used == 0);
    EXPECT(step(file, 0) == GTID_REFUSAL_NOT_A_SET && end_file() == GTID_REFUSAL_NOT_A_SET);
    EXPECT(begin_from(empty, sizeof empty) == 0 && step(file, OPENING_LEN) == 0);
    set[0] = 1; /* one entry, which isn't there */
    EXPECT(step(file + OPENING_LEN, file_len - OPENING_LEN) == GTID_REFUSAL_NOT_A_SET && reader.set_len == 8 && set[0] == 1);
    for (int i = 0; i < 3; i++) {
        memset(bytes, 0xa5, sizeof bytes);
        memset(before, 0xa5, sizeof before);
        EXPECT(gtid_binlog_begin(empty, sizeof empty, 0, bytes, lengths[i]) == GTID_REFUSAL_NOT_WRITABLE);
        EXPECT(gtid_binlog_step(bytes, lengths[i], file, file_len, work, sizeof work, set, sizeof set, next, sizeof next) ==
               GTID_REFUSAL_NOT_WRITABLE);
        EXPECT(gtid_binlog_end(bytes, lengths[i]) == GTID_REFUSAL_NOT_WRITABLE && memcmp(bytes, before, sizeof bytes) == 0);
    }
    for (uint8_t kind = 0; kind < 3; kind++) {
        memset(&reader, 0xa5, sizeof reader);
        reader.own[0] = kind == 2 ? 0xff : kind; /* of a kind that none has, or with more bytes than can have come */
        EXPECT(step(file, file_len) == GTID_REFUSAL_NOT_WRITABLE && reader.said == GTID_REFUSED && reader.used == 0);
        EXPECT(step(file, file_len) == GTID_REFUSAL_NOT_WRITABLE && end_file() == GTID_REFUSAL_NOT_WRITABLE);
    }
}

/* A copy of a reader, of its work bytes and of its set goes on as the reader does. */
static void copy_reader(void)
{
    static uint8_t kept_work[GTID_BINLOG_WORK];
    struct gtid_binlog kept_reader;

    put_six(1);
    for (size_t cut = 0; cut < file_len; cut++) {
        EXPECT(begin_from(empty, sizeof empty) == 0 && feed(file, cut) == 0);
        kept_reader = reader;
        memcpy(kept_work, work, sizeof work);
        memcpy(wanted, set, sizeof set);
        EXPECT(read_file(wanted, reader.set_len, 7, 7) == 0); /* another file in between */
        reader = kept_reader;
        memcpy(work, kept_work, sizeof work);
        memcpy(set, wanted, sizeof set);
        EXPECT(feed(file + cut, file_len - cut) == 0 && end_file() == 0 && has_six());
    }
}

/* The next file goes on from the set that the one before left. */
static void read_two_files(void)
{
    put_six(1);
    EXPECT(read_file(empty, sizeof empty, 5, 5) == 0 && reader.set_len == SMALL_SET_LEN);
    memcpy(other, set, SMALL_SET_LEN);
    put_file_opening(0);
    put_previous(1, 1, 6);
    put_gtid(GTID_TYPE_GTID, 7);
    EXPECT(read_file(other, SMALL_SET_LEN, 5, 5) == 0);
    EXPECT(hears(story, GTID_JOINED, GTID_TYPE_PREVIOUS, SMALL_SET_LEN, other, SMALL_SET_LEN) != NULL);
    EXPECT(reader.set_len == SMALL_SET_LEN && memcmp(set, wanted, put_set(wanted, 1, 1, 7)) == 0);
}

int main(void)
{
    size_t len = 9, used = 9, tag_len = 9, first = 9, end = 9;
    uint64_t entries = 9, intervals = 9, value = 9;
    uint8_t kind = 9, present = 9;

    /* one entry, the uuid 07 07 .., with the transactions 1 to 5 */
    uint8_t opening[SMALL_SET_LEN];
    EXPECT(put_set(opening, 1, 1, 5) == sizeof opening);

    EXPECT(gtid_read_previous(opening, sizeof opening, &entries, &used) == 0);
    EXPECT(entries == 1 && used == SMALL_SET_LEN);
    EXPECT(gtid_read_entry(opening, sizeof opening, 8, &tag_len, &intervals, &first, &end) == 0);
    EXPECT(tag_len == 0 && intervals == 1 && first == 32 && end == SMALL_SET_LEN);
    EXPECT(gtid_read_entry(opening, sizeof opening - 1, 8, &tag_len, &intervals, &first, &end) == GTID_REFUSAL_ENDED);
    EXPECT(tag_len == 0 && intervals == 0 && first == 0 && end == 0);

    EXPECT(gtid_take_in(opening, sizeof opening, set, sizeof set, &len) == 0);
    EXPECT(len == SMALL_SET_LEN && memcmp(set, opening, len) == 0);
    EXPECT(gtid_check_set(set, len, &entries, &intervals) == 0);
    EXPECT(entries == 1 && intervals == 1);
    EXPECT(gtid_rewrite(opening, sizeof opening, next, SMALL_SET_LEN - 1, &used) == GTID_REFUSAL_NO_ROOM && used == SMALL_SET_LEN);
    EXPECT(gtid_rewrite(opening, sizeof opening, next, sizeof next, &used) == 0);
    EXPECT(used == SMALL_SET_LEN && memcmp(next, opening, used) == 0);

    /* transaction 6 of the same uuid */
    uint8_t event[SHORT_EVENT_LEN];
    put_short_event(event, 6);
    EXPECT(gtid_contains(set, len, event + 1, 16, event, 0, 6, &present) == 0 && present == 0);
    EXPECT(gtid_offer(set, len, GTID_TYPE_GTID, event, sizeof event, next, sizeof next, &kind, &len) == 0);
    EXPECT(kind == GTID_TAKEN && len == SMALL_SET_LEN);
    EXPECT(gtid_contains(next, len, event + 1, 16, event, 0, 6, &present) == 0 && present == 1);
    EXPECT(gtid_offer(next, len, GTID_TYPE_GTID, event, sizeof event, set, sizeof set, &kind, &len) == 0);
    EXPECT(kind == GTID_ALREADY_THERE && memcmp(next, set, len) == 0);
    EXPECT(gtid_offer(next, len, GTID_TYPE_GTID, event, SHORT_EVENT_LEN - 1, set, sizeof set, &kind, &len) == GTID_REFUSAL_ENDED);
    EXPECT(kind == GTID_REFUSED && len == 0);

    uint8_t record[GTID_RECORD_LEN], written[GTID_LONGEST_EVENT];
    EXPECT(gtid_read(GTID_TYPE_GTID, event, sizeof event, record, sizeof record, &used) == 0 && used == SHORT_EVENT_LEN);
    EXPECT(memcmp(record, event, SHORT_EVENT_LEN) == 0);
    EXPECT(gtid_write(record, sizeof record, written, sizeof written, &len) == 0 && len == SHORT_EVENT_LEN);
    EXPECT(memcmp(written, event, SHORT_EVENT_LEN) == 0);

    const uint8_t unknown[] = {7}, item[] = {5, 0};
    EXPECT(gtid_list(unknown, sizeof unknown, text, sizeof text, &len) == 0);
    EXPECT(len == 10 && memcmp(text, "refused 8\n", len) == 0);
    EXPECT(gtid_read_varlen_uint(item, sizeof item, &value, &used) == 0 && value == 1 && used == 2);

    write_longest_event();
    write_new_event();
    offer_highest();
    take_in_and_list_longest_set();
    offer_to_longest_set();
    offer_to_full_entry();
    refuse_crowded_entry();
    work_with_two_sets();
    work_with_the_same_bytes();
    refuse_two_sets(gtid_either);
    refuse_two_sets(gtid_both);
    refuse_two_sets(gtid_without);
    refuse_within();
    choose_a_head();
    crowd_by_two_sets();
    tell_tags_apart();
    fill_by_two_sets();
    report_no_set();
    report_sets();
    report_beyond_one_word();
    report_refused_sets();
    report_most_sets(0);
    report_most_sets(1);
    report_most_sets(GTID_MAX_SETS);
    refuse_reports();
    write_longest_report();
    read_each_field();
    read_fields();
    read_originals();
    offer_and_list_without_id();
    offer_without_id_in_order();
    refuse_fields();
    read_and_offer_untagged();
    write_without_id();
    for (uint8_t with_checksums = 0; with_checksums < 2; with_checksums++) {
        read_small_file(with_checksums);
        end_anywhere(with_checksums);
        refuse_small_sizes(with_checksums);
        refuse_long_bodies(with_checksums);
        refuse_events(with_checksums);
    }
    refuse_opening();
    join_many();
    fill_by_file();
    refuse_room();
    refuse_readers();
    copy_reader();
    read_two_files();
    return faults != 0;
}
