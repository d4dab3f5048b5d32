/* Walks a binlog on standard input through the archive, in cuts of so many bytes, and tells what it met:
 *     real CHECKSUMS CUT < BINLOG      CHECKSUMS is 1 or 0
 * a line for each event that was answered: its letter (t taken, p already there, n no id, j joined), its type and, but for type 35,
 * the record that was read; then how it ended (e, or the refusal's number); then the set in hex. Built by compare/real. */
#include "../bindings/c/gtid.h"

#include <inttypes.h>
#include <stdio.h>
#include <stdlib.h>
#include <string.h>

static struct gtid_binlog reader;
static uint8_t work[GTID_BINLOG_WORK], set[GTID_LONGEST_SET], spare[GTID_LONGEST_SET];

static uint64_t number(const uint8_t *at, int bytes)
{
    uint64_t value = 0;
    for (int i = bytes; i-- > 0;)
        value = value << 8 | at[i];
    return value;
}

static void hex(const uint8_t *bytes, size_t len)
{
    for (size_t i = 0; i < len; i++)
        printf("%02x", bytes[i]);
}

/* The uuid, the gno, both timestamps, the transaction's length, and both server versions. */
static void tell_record(uint8_t type, const uint8_t *body, size_t len)
{
    uint8_t fields[GTID_RECORD_LEN];
    size_t used;
    uint8_t refusal = gtid_read(type, body, len, fields, sizeof fields, &used);
    if (refusal != 0) {
        printf(" refused %d", refusal);
        return;
    }
    printf(" ");
    hex(fields + 1, 16);
    printf(" %" PRIu64 " %" PRIu64 " %" PRIu64 " %" PRIu64 " %" PRIu64 " %" PRIu64, number(fields + 17, 8), number(fields + 76, 8),
           number(fields + 84, 8), number(fields + 92, 8), number(fields + 100, 4), number(fields + 104, 4));
}

static void tell_event(void)
{
    printf("%c %d", "?tpnj"[reader.said], reader.event_type);
    if (reader.said != GTID_JOINED)
        tell_record(reader.event_type, work, reader.len);
    printf("\n");
}

/* All of a chunk; the refusal's number, 0 for none. */
static uint8_t walk(const uint8_t *chunk, size_t len)
{
    size_t at = 0;
    do {
        uint8_t refusal = gtid_binlog_step((uint8_t *)&reader, sizeof reader, chunk + at, len - at, work, sizeof work, set, sizeof set,
                                           spare, sizeof spare);
        if (refusal != 0)
            return refusal;
        at += reader.used;
        if (reader.said < GTID_MORE_WANTED)
            tell_event();
    } while (at < len);
    return 0;
}

int main(int words, char **word)
{
    static const uint8_t empty[8];
    if (words != 3)
        return 2;
    size_t cut = strtoul(word[2], NULL, 10), len;
    uint8_t *chunk = malloc(cut);
    if (cut == 0 || chunk == NULL)
        return 2;
    memcpy(set, empty, sizeof empty);
    uint8_t refusal = gtid_binlog_begin(empty, sizeof empty, word[1][0] == '1', (uint8_t *)&reader, sizeof reader);
    while (refusal == 0 && (len = fread(chunk, 1, cut, stdin)) > 0)
        refusal = walk(chunk, len);
    if (refusal == 0)
        refusal = gtid_binlog_end((uint8_t *)&reader, sizeof reader);
    if (refusal == 0)
        printf("e\n");
    else
        printf("%d\n", refusal);
    hex(set, reader.set_len);
    printf("\n");
    free(chunk);
    return 0;
}
