/* The table of named damage (tests/damage.txt; its head gives its form): every segment is read
 * from the start, with and without the checksum's table, and gives the answer that stands there. */
#include "check.h"
#include "depot_wal.h"

#include <inttypes.h>
#include <stdio.h>
#include <stdlib.h>
#include <string.h>

enum { LINE_LIMIT = 255, SEGMENT_LIMIT = 131072, GUARD = 16, PATTERN = 0x5C };

/* A case of the table. */
struct damaged {
    const char *name, *answer;
    uint8_t *segment; /* of exactly this length, so that valgrind sees a read beyond it */
    size_t length;
};

static void must(const char *name, int holds, const char *what)
{
    if (!holds) {
        fprintf(stderr, "damage.c: %s: fails: %s\n", name, what);
        exit(1);
    }
    checks++;
}

/* ---- the table ---- */

/* Writes the bytes of the items, each HH or HH*N. Returns how many. */
static size_t expand(const char *name, const char *items, uint8_t *to)
{
    for (size_t n = 0;;) {
        char *end;
        int byte = (int)strtoul(items, &end, 16);
        size_t times = 1;
        must(name, end == items + 2, "a byte has two digits");
        if (*end == '*')
            times = strtoul(end + 1, &end, 10);
        must(name, times <= SEGMENT_LIMIT - n, "the segment is not too long");
        memset(to + n, byte, times);
        n += times;
        if (*end == '\0')
            return n;
        must(name, *end == ' ', "one space between bytes");
        items = end + 1;
    }
}

/* Takes a line apart: NAME; ANSWER; BYTES. The segment is to be freed. */
static struct damaged parse(char *line)
{
    static uint8_t bytes[SEGMENT_LIMIT];
    char *newline = strchr(line, '\n'), *first = strchr(line, ';'), *last = strrchr(line, ';');
    must(line, newline != NULL, "the line is not too long, and ends");
    *newline = '\0';
    must(line, first != last && first[1] == ' ' && last[1] == ' ', "name, answer and bytes");
    *first = *last = '\0';
    struct damaged c = {.name = line, .answer = first + 2};
    c.length = expand(c.name, last + 2, bytes);
    c.segment = malloc(c.length);
    must(c.name, c.segment != NULL || c.length == 0, "memory for the segment");
    if (c.length > 0)
        memcpy(c.segment, bytes, c.length);
    return c;
}

/* ---- reading ---- */

static struct {
    uint8_t before[GUARD], bytes[DEPOT_WAL_RECORD_MAX], after[GUARD];
} buffer;

static struct {
    uint8_t before[GUARD];
    struct depot_wal_record record;
    uint8_t after[GUARD];
} result;

/* A read, without the checksum's table if it is NULL. Nothing changes around the buffer and the
 * result, and of the buffer only what the record fills. */
static depot_wal_status read_at(const struct damaged *c, const uint32_t *table, size_t place)
{
    struct depot_wal_good good = {.offset = place}; /* as good as any: this test counts itself */
    struct depot_wal_record *out = &result.record;
    uint8_t *to = buffer.bytes;
    depot_wal_status status;
    memset(&buffer, PATTERN, sizeof buffer);
    memset(&result, PATTERN, sizeof result);
    if (table == NULL)
        status = depot_wal_read(DEPOT_WAL_V1, c->segment, c->length, place, to,
                                sizeof buffer.bytes, &good, out);
    else
        status = depot_wal_read_with_table(table, DEPOT_WAL_V1, c->segment, c->length, place, to,
                                           sizeof buffer.bytes, &good, out);
    must(c->name, all(result.before, GUARD, PATTERN) && all(result.after, GUARD, PATTERN),
         "bytes around the result are unchanged");
    must(c->name, all(buffer.before, GUARD, PATTERN) && all(buffer.after, GUARD, PATTERN),
         "bytes around the buffer are unchanged");
    size_t filled = status == DEPOT_WAL_DONE ? out->length : 0;
    must(c->name, filled <= sizeof buffer.bytes, "the record is not too long");
    must(c->name, all(to + filled, sizeof buffer.bytes - filled, PATTERN),
         "the buffer is unchanged, but for a record");
    return status;
}

/* The fields that tell where to go on: after a record a later place, else 0. */
static void check_rest(const struct damaged *c, depot_wal_status status, size_t place)
{
    const struct depot_wal_record *out = &result.record;
    if (status == DEPOT_WAL_DONE)
        must(c->name, out->next > place && out->next <= c->length, "the place after a record");
    else
        must(c->name, out->length == 0 && out->next == 0, "no length and place without a record");
    if (status == DEPOT_WAL_END)
        must(c->name, out->start == 0, "no place at an end");
}

/* The line of the listing for a read after so many records. */
static void print_line(char *line, size_t size, depot_wal_status status, size_t records)
{
    uint64_t start = result.record.start, length = result.record.length;
    if (status == DEPOT_WAL_END)
        snprintf(line, size, "clean %zu", records);
    else if (status == DEPOT_WAL_TORN)
        snprintf(line, size, "torn %" PRIu64 " %zu", start, records);
    else if (status != DEPOT_WAL_DONE)
        snprintf(line, size, "refused %" PRIu32 " %" PRIu64 " %zu", status, start, records);
    else if (length == 0)
        snprintf(line, size, "record %" PRIu64 " 0 -", start);
    else
        snprintf(line, size, "record %" PRIu64 " %" PRIu64 " %d", start, length, buffer.bytes[0]);
}

/* The line has to be the next one of the answer. Returns what follows it there. */
static const char *take_line(const char *name, const char *answer, const char *line)
{
    size_t n = strlen(line);
    int same = strncmp(answer, line, n) == 0;
    if (same && answer[n] == '\0')
        return answer + n;
    if (same && answer[n] == ';' && answer[n + 1] == ' ')
        return answer + n + 2;
    fprintf(stderr, "damage.c: %s: got '%s', wanted '%s'\n", name, line, answer);
    exit(1);
}

/* A reading from the start gives exactly the answer. */
static void read_all(const struct damaged *c, const uint32_t *table)
{
    const char *answer = c->answer;
    size_t place = 0, records = 0;
    depot_wal_status status;
    do {
        char line[80];
        status = read_at(c, table, place);
        print_line(line, sizeof line, status, records);
        answer = take_line(c->name, answer, line);
        check_rest(c, status, place);
        place = result.record.next;
        records++;
    } while (status == DEPOT_WAL_DONE);
    must(c->name, *answer == '\0', "the answer has no further line");
}

long damage(const char *path)
{
    static uint32_t table[DEPOT_WAL_TABLE_LEN];
    char line[LINE_LIMIT + 2]; /* with the newline and the end */
    long cases = 0;
    FILE *file = fopen(path, "r");
    must(path, file != NULL, "the table can be opened");
    depot_wal_table(table);
    while (fgets(line, sizeof line, file) != NULL) {
        if (line[0] == '#')
            continue;
        struct damaged c = parse(line);
        read_all(&c, NULL);
        read_all(&c, table);
        free(c.segment);
        cases++;
    }
    fclose(file);
    must(path, cases > 0, "the table has a case");
    return cases;
}
