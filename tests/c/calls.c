/* Every call of include/depot_wal.h, from C. The expected values are worked out from the rules
 * (docs/FORMAT.md), never taken from a run. Then the table of named damage (damage.c), whose path
 * is the argument, by default tests/damage.txt. Prints one line; if a check fails, it prints its
 * line number, or the name of the case, and exits with 1. */
#include "check.h"
#include "depot_wal.h"

#include <stdio.h>
#include <stdlib.h>
#include <string.h>

#define PAGE DEPOT_WAL_PAGE
#define LIMIT DEPOT_WAL_SEGMENT_MAX
#define DONE DEPOT_WAL_DONE
#define V1 DEPOT_WAL_V1
#define V2 DEPOT_WAL_V2
#define ONE 0x3FF0000000000000u /* the bits of 1.0 */
#define TOP UINT64_MAX

/* ---- how checks are made ---- */

long checks;

static void check(int line, int holds, const char *what)
{
    if (!holds) {
        fprintf(stderr, "calls.c:%d: fails: %s\n", line, what);
        exit(1);
    }
    checks++;
}
#define CHECK(holds) check(__LINE__, (holds), #holds)

int all(const uint8_t *bytes, size_t n, uint8_t value)
{
    for (size_t i = 0; i < n; i++)
        if (bytes[i] != value)
            return 0;
    return 1;
}

/* Every call writes its result to *out. That and what lies around it is set to a pattern before the
 * call: a byte left unwritten, or one written before or after the result, shows. */
union result {
    struct depot_wal_written written;
    struct depot_wal_built built;
    struct depot_wal_record record;
    struct depot_wal_resumed resumed;
    struct depot_wal_fed fed;
    struct depot_wal_feed_record feed_record;
    struct depot_wal_count count;
    struct depot_wal_entry entry;
    struct depot_wal_string string;
    struct depot_wal_histogram histogram;
    struct depot_wal_span span;
    struct depot_wal_bucket bucket;
    struct depot_wal_replayed replayed;
    struct depot_wal_reported reported;
    struct depot_wal_checkpointed checkpointed;
    struct depot_wal_indexed indexed;
    struct depot_wal_row row;
    struct depot_wal_pages pages;
    struct depot_wal_name name;
    struct depot_wal_named named;
};
static union result guarded[3], *const out = &guarded[1];
enum { PATTERN = 0xA5 };

static int gives(depot_wal_status got, depot_wal_status status, const void *want, size_t n)
{
    const uint8_t *first = (const uint8_t *)guarded, *result = (const uint8_t *)out;
    return got == status && memcmp(result, want, n) == 0 && all(first, sizeof *out, PATTERN) &&
           all(result + n, 2 * sizeof *out - n, PATTERN);
}

/* Whether the call returns the status and writes exactly this result: one of those below, where
 * fields that are not named are 0. */
#define GIVES(call, status, ...) \
    (memset(guarded, PATTERN, sizeof guarded), gives((call), (status), __VA_ARGS__))
#define WRITTEN(...) &(struct depot_wal_written){__VA_ARGS__}, sizeof(struct depot_wal_written)
#define BUILT(...) &(struct depot_wal_built){__VA_ARGS__}, sizeof(struct depot_wal_built)
#define RECORD(...) &(struct depot_wal_record){__VA_ARGS__}, sizeof(struct depot_wal_record)
#define RESUMED(...) &(struct depot_wal_resumed){__VA_ARGS__}, sizeof(struct depot_wal_resumed)
#define FED(...) &(struct depot_wal_fed){__VA_ARGS__}, sizeof(struct depot_wal_fed)
#define FEED_RECORD(...) \
    &(struct depot_wal_feed_record){__VA_ARGS__}, sizeof(struct depot_wal_feed_record)
#define COUNT(...) &(struct depot_wal_count){__VA_ARGS__}, sizeof(struct depot_wal_count)
#define ENTRY(...) &(struct depot_wal_entry){__VA_ARGS__}, sizeof(struct depot_wal_entry)
#define STRING(...) &(struct depot_wal_string){__VA_ARGS__}, sizeof(struct depot_wal_string)
#define HISTOGRAM(...) \
    &(struct depot_wal_histogram){__VA_ARGS__}, sizeof(struct depot_wal_histogram)
#define SPAN(...) &(struct depot_wal_span){__VA_ARGS__}, sizeof(struct depot_wal_span)
#define BUCKET(...) &(struct depot_wal_bucket){__VA_ARGS__}, sizeof(struct depot_wal_bucket)
#define INDEXED(...) &(struct depot_wal_indexed){__VA_ARGS__}, sizeof(struct depot_wal_indexed)
#define ROW(...) &(struct depot_wal_row){__VA_ARGS__}, sizeof(struct depot_wal_row)
#define PAGES(...) &(struct depot_wal_pages){__VA_ARGS__}, sizeof(struct depot_wal_pages)
#define NAME(...) &(struct depot_wal_name){__VA_ARGS__}, sizeof(struct depot_wal_name)
#define NAMED(...) &(struct depot_wal_named){__VA_ARGS__}, sizeof(struct depot_wal_named)
#define REPORTED(...) &(struct depot_wal_reported){__VA_ARGS__}, sizeof(struct depot_wal_reported)
#define REPLAYED(...) &(struct depot_wal_replayed){__VA_ARGS__}, sizeof(struct depot_wal_replayed)
#define CHECKPOINTED(...) \
    &(struct depot_wal_checkpointed){__VA_ARGS__}, sizeof(struct depot_wal_checkpointed)

/* Writes bytes given as text in hexadecimal; blanks do not matter. Returns how many. */
static size_t put(uint8_t *to, const char *text)
{
    size_t n = 0;
    unsigned byte;
    int used;
    while (sscanf(text, "%2x%n", &byte, &used) == 1) {
        to[n++] = (uint8_t)byte;
        text += used;
    }
    return n;
}

static int same(const uint8_t *bytes, size_t n, const char *text)
{
    uint8_t want[256];
    return put(want, text) == n && memcmp(bytes, want, n) == 0;
}

/* ---- the header itself ---- */

/* Where the library writes the number `index` of its array, the header has the field. */
#define FIELD(type, index, field) \
    CHECK(offsetof(struct type, field) == 8 * (index) && sizeof((struct type){0}.field) == 8)

static void layouts(void)
{
    FIELD(depot_wal_written, 0, next);
    FIELD(depot_wal_written, 1, error_at);
    FIELD(depot_wal_built, 0, used);
    FIELD(depot_wal_built, 1, error_at);
    FIELD(depot_wal_record, 0, start);
    FIELD(depot_wal_record, 1, length);
    FIELD(depot_wal_record, 2, next);
    FIELD(depot_wal_good, 0, records);
    FIELD(depot_wal_good, 1, offset);
    FIELD(depot_wal_resumed, 0, next);
    FIELD(depot_wal_resumed, 1, error_at);
    FIELD(depot_wal_resumed, 2, good.records);
    FIELD(depot_wal_resumed, 3, good.offset);
    FIELD(depot_wal_fed, 0, error_at);
    FIELD(depot_wal_fed, 1, good.records);
    FIELD(depot_wal_fed, 2, good.offset);
    FIELD(depot_wal_feed_record, 0, start);
    FIELD(depot_wal_feed_record, 1, length);
    FIELD(depot_wal_feed_record, 2, next);
    FIELD(depot_wal_feed_record, 3, good.records);
    FIELD(depot_wal_feed_record, 4, good.offset);
    FIELD(depot_wal_count, 0, count);
    FIELD(depot_wal_entry, 0, type);
    FIELD(depot_wal_entry, 1, id);
    FIELD(depot_wal_entry, 2, time);
    FIELD(depot_wal_entry, 3, max);
    FIELD(depot_wal_entry, 4, bits);
    FIELD(depot_wal_entry, 5, strings);
    FIELD(depot_wal_entry, 6, strings_at);
    FIELD(depot_wal_entry, 7, next);
    FIELD(depot_wal_string, 0, start);
    FIELD(depot_wal_string, 1, length);
    FIELD(depot_wal_histogram, 0, type);
    FIELD(depot_wal_histogram, 1, id);
    FIELD(depot_wal_histogram, 2, time);
    FIELD(depot_wal_histogram, 3, hint);
    FIELD(depot_wal_histogram, 4, schema);
    FIELD(depot_wal_histogram, 5, zero_threshold);
    FIELD(depot_wal_histogram, 6, zero_count);
    FIELD(depot_wal_histogram, 7, count);
    FIELD(depot_wal_histogram, 8, sum);
    FIELD(depot_wal_histogram, 9, positive_spans.count);
    FIELD(depot_wal_histogram, 10, positive_spans.first);
    FIELD(depot_wal_histogram, 11, negative_spans.count);
    FIELD(depot_wal_histogram, 12, negative_spans.first);
    FIELD(depot_wal_histogram, 13, positive_buckets.count);
    FIELD(depot_wal_histogram, 14, positive_buckets.first);
    FIELD(depot_wal_histogram, 15, negative_buckets.count);
    FIELD(depot_wal_histogram, 16, negative_buckets.first);
    FIELD(depot_wal_histogram, 17, next);
    FIELD(depot_wal_span, 0, offset);
    FIELD(depot_wal_span, 1, length);
    FIELD(depot_wal_span, 2, next);
    FIELD(depot_wal_bucket, 0, bits);
    FIELD(depot_wal_bucket, 1, next);
    FIELD(depot_wal_replayed, 0, error_at);
    FIELD(depot_wal_replayed, 1, series);
    FIELD(depot_wal_replayed, 2, orphans);
    FIELD(depot_wal_replayed, 3, skipped);
    FIELD(depot_wal_replayed, 4, good.records);
    FIELD(depot_wal_replayed, 5, good.offset);
    FIELD(depot_wal_reported, 0, error_at);
    FIELD(depot_wal_extremes, 0, id);
    FIELD(depot_wal_extremes, 1, rows);
    FIELD(depot_wal_extremes, 2, nans);
    FIELD(depot_wal_extremes, 3, smallest);
    FIELD(depot_wal_extremes, 4, largest);
    FIELD(depot_wal_report, 0, series);
    FIELD(depot_wal_report, 1, segments);
    FIELD(depot_wal_report, 2, error);
    FIELD(depot_wal_report, 3, error_at);
    CHECK(offsetof(struct depot_wal_report, rows) == 4 * 8);
    FIELD(depot_wal_checkpointed, 0, next);
    FIELD(depot_wal_checkpointed, 1, error_at);
    FIELD(depot_wal_indexed, 0, used);
    FIELD(depot_wal_indexed, 1, error_at);
    FIELD(depot_wal_row, 0, start);
    FIELD(depot_wal_row, 1, length);
    FIELD(depot_wal_pages, 0, pages);
    FIELD(depot_wal_name, 0, sequence);
    FIELD(depot_wal_name, 1, version);
    FIELD(depot_wal_named, 0, used);
    FIELD(depot_wal_named, 1, error_at);
    FIELD(depot_wal_series, 0, id);
    FIELD(depot_wal_series, 1, rows);
    FIELD(depot_wal_series, 2, time);
    FIELD(depot_wal_series, 3, bits);
    FIELD(depot_wal_series, 4, deleted);
    CHECK(DEPOT_WAL_REPLAY_LEN == 5 * DEPOT_WAL_SERIES_MAX);
}

/* Each status has a text of its own, any other number the same one. */
static void texts(void)
{
    static const depot_wal_status known[] = {0,  1,  2,  3,  4,  5,  6,  7,  8,  9,  10,
                                             11, 12, 13, 20, 21, 22, 23, 24, 25, 26, 27, 28, 29,
                                             30, 200, 201};
    static const depot_wal_status unknown[] = {14, 19, 31, 199, 202, UINT32_MAX};
    for (size_t i = 0; i < sizeof known / sizeof *known; i++) {
        const char *text = depot_wal_status_text(known[i]);
        int own = strcmp(text, "unknown status") != 0;
        for (size_t k = 0; k < i; k++)
            own = own && strcmp(text, depot_wal_status_text(known[k])) != 0;
        CHECK(own);
    }
    for (size_t i = 0; i < sizeof unknown / sizeof *unknown; i++)
        CHECK(strcmp(depot_wal_status_text(unknown[i]), "unknown status") == 0);
    CHECK(strstr(depot_wal_status_text(DEPOT_WAL_TORN), "power failure") != NULL);
}

static void version(void)
{
    char text[32];
    snprintf(text, sizeof text, "%d.%d.%d", DEPOT_WAL_VERSION_MAJOR, DEPOT_WAL_VERSION_MINOR,
             DEPOT_WAL_VERSION_PATCH);
    CHECK(strcmp(text, DEPOT_WAL_VERSION_STRING) == 0);
}

/* ---- the checksum ---- */

static uint32_t table[DEPOT_WAL_TABLE_LEN];

/* CRC-32C bit by bit, as FORMAT 3 defines it. */
static uint32_t crc_by_bits(const uint8_t *data, size_t n)
{
    uint32_t r = 0xFFFFFFFFu;
    for (size_t i = 0; i < n; i++) {
        r ^= data[i];
        for (int bit = 0; bit < 8; bit++)
            r = (r >> 1) ^ (r & 1 ? 0x82F63B78u : 0);
    }
    return r ^ 0xFFFFFFFFu;
}

static void sum_is(int line, const uint8_t *data, size_t n, uint32_t sum)
{
    check(line, depot_wal_crc32c(data, n) == sum, "the checksum");
    check(line, depot_wal_crc32c_with_table(table, data, n) == sum, "the checksum with the table");
}

/* The vectors of RFC 3720, B.4; the same sums as bit by bit, for many lengths. */
static void checksums(void)
{
    static uint8_t data[1100];
    depot_wal_table(table);
    sum_is(__LINE__, NULL, 0, 0);
    sum_is(__LINE__, data, 32, 0x8A9136AAu);
    memset(data, 0xFF, 32);
    sum_is(__LINE__, data, 32, 0x62A8AB43u);
    for (uint8_t i = 0; i < 32; i++)
        data[i] = i;
    sum_is(__LINE__, data, 32, 0x46DD794Eu);
    for (uint8_t i = 0; i < 32; i++)
        data[i] = (uint8_t)(31 - i);
    sum_is(__LINE__, data, 32, 0x113FDB5Cu);
    size_t pdu = put(data, "01C00000 00000000 00000000 00000000 14000000 00000400 00000014 00000018"
                           "28000000 00000000 02000000 00000000");
    sum_is(__LINE__, data, pdu, 0xD9963A56u);
    for (size_t i = 0; i < sizeof data; i++)
        data[i] = (uint8_t)(i * i + 7);
    for (size_t n = 0; n <= sizeof data; n += 11)
        sum_is(__LINE__, data, n, crc_by_bits(data, n));
}

/* ---- writing and reading a segment ---- */

static uint8_t segment[3 * PAGE];
static uint8_t record[DEPOT_WAL_RECORD_MAX + 1];
static uint8_t buffer[DEPOT_WAL_RECORD_MAX + 9];
static uint8_t huge[LIMIT + PAGE]; /* hardly touched, so it takes no memory */

/* The two forms of a write of the first n bytes of `record`, and of a read. */
enum { PLAIN, WITH_TABLE };

static depot_wal_status write_by(int form, size_t len, size_t place, size_t n)
{
    if (form == PLAIN)
        return depot_wal_write(V1, segment, len, place, record, n, &out->written);
    return depot_wal_write_with_table(table, V1, segment, len, place, record, n, &out->written);
}

static depot_wal_status read_given(int form, const uint8_t *bytes, size_t len, size_t place,
                                   size_t buffer_len, struct depot_wal_good *good)
{
    if (form == PLAIN)
        return depot_wal_read(V1, bytes, len, place, buffer, buffer_len, good, &out->record);
    return depot_wal_read_with_table(table, V1, bytes, len, place, buffer, buffer_len, good,
                                     &out->record);
}

/* A read that is given 4 good records before `place`: one more with a record, else the same, and
 * nothing around it changes. */
static depot_wal_status read_by(int form, const uint8_t *bytes, size_t len, size_t place,
                                size_t buffer_len)
{
    struct depot_wal_good was = {place < 4 ? place : 4, place}, goods[3];
    memset(goods, PATTERN, sizeof goods);
    goods[1] = was;
    depot_wal_status status = read_given(form, bytes, len, place, buffer_len, &goods[1]);
    if (status == DONE)
        was = (struct depot_wal_good){was.records + 1, out->record.next};
    CHECK(memcmp(&goods[1], &was, sizeof was) == 0);
    CHECK(all((uint8_t *)goods, sizeof was, PATTERN) &&
          all((uint8_t *)&goods[2], sizeof was, PATTERN));
    return status;
}

/* Writes in both forms: the same result and bytes, and nothing else changes. */
static void writes(int line, size_t len, size_t place, size_t n, size_t next)
{
    static uint8_t before[sizeof segment], plain[sizeof segment];
    memcpy(before, segment, sizeof segment);
    check(line, GIVES(write_by(PLAIN, len, place, n), DONE, WRITTEN(.next = next)), "write");
    memcpy(plain, segment, sizeof segment);
    memcpy(segment, before, sizeof segment);
    check(line, GIVES(write_by(WITH_TABLE, len, place, n), DONE, WRITTEN(.next = next)),
          "write with table");
    check(line, memcmp(segment, plain, sizeof segment) == 0, "both forms write the same bytes");
    check(line, memcmp(segment, before, place) == 0, "bytes before the place are unchanged");
    check(line, memcmp(segment + next, before + next, sizeof segment - next) == 0,
          "bytes from the next place on are unchanged");
}

static void write_fails(int line, size_t len, size_t place, size_t n, depot_wal_status status,
                        uint64_t at)
{
    static uint8_t before[sizeof segment];
    memcpy(before, segment, sizeof segment);
    for (int form = PLAIN; form <= WITH_TABLE; form++)
        check(line, GIVES(write_by(form, len, place, n), status,
                          WRITTEN(.next = place, .error_at = at)),
              form == PLAIN ? "error of a write" : "error of a write with table");
    check(line, memcmp(segment, before, sizeof segment) == 0, "an error changes no byte");
}

/* Reads in the first `len` bytes of `segment`: the first n bytes of `record` come out, the rest of
 * the buffer is unchanged. */
static void reads(int line, size_t len, size_t place, size_t start, size_t n, size_t next)
{
    for (int form = PLAIN; form <= WITH_TABLE; form++) {
        memset(buffer, 0x5C, sizeof buffer);
        check(line, GIVES(read_by(form, segment, len, place, sizeof buffer), DONE,
                          RECORD(.start = start, .length = n, .next = next)),
              form == PLAIN ? "read" : "read with table");
        check(line, memcmp(buffer, record, n) == 0, "the record's bytes");
        check(line, all(buffer + n, sizeof buffer - n, 0x5C), "the buffer's rest is unchanged");
    }
}

/* Reads where no record is to come out: an end (place 0) or an error. */
static void reads_none(int line, const uint8_t *bytes, size_t len, size_t place,
                       depot_wal_status status, uint64_t at)
{
    memset(buffer, 0x5C, sizeof buffer);
    for (int form = PLAIN; form <= WITH_TABLE; form++)
        check(line, GIVES(read_by(form, bytes, len, place, DEPOT_WAL_RECORD_MAX), status,
                          RECORD(.start = at)),
              form == PLAIN ? "read" : "read with table");
    check(line, all(buffer, sizeof buffer, 0x5C), "the buffer is unchanged");
}

/* The bytes of a text in hexadecimal, read from place 0. */
static void bytes_give(int line, const char *text, depot_wal_status status, uint64_t at)
{
    uint8_t bytes[256];
    reads_none(line, bytes, put(bytes, text), 0, status, at);
}

static const char switch_body[] =
    "02 0000000000000007 00000000000003E8 00 00 0000000000000000 02 00 3FF0000000000000";

/* The switch of FORMAT 13: 37 bytes, 44 as a segment; cut at every byte. */
static void the_switch(void)
{
    memset(segment, 0xAA, sizeof segment);
    CHECK(put(record, switch_body) == 37);
    writes(__LINE__, PAGE, 0, 37, 44);
    CHECK(same(segment, 3, "01 00 25"));
    uint32_t sum = crc_by_bits(record, 37);
    for (int i = 0; i < 4; i++)
        CHECK(segment[3 + i] == (uint8_t)(sum >> (24 - 8 * i)));
    CHECK(memcmp(segment + 7, record, 37) == 0);
    reads(__LINE__, 44, 0, 0, 37, 44);
    reads_none(__LINE__, segment, 44, 44, DEPOT_WAL_END, 0);
    for (size_t cut = 1; cut < 44; cut++)
        reads_none(__LINE__, segment, cut, 0, DEPOT_WAL_TORN, 0);
    reads_none(__LINE__, segment, 0, 0, DEPOT_WAL_END, 0);
    reads_none(__LINE__, NULL, 0, 0, DEPOT_WAL_END, 0);

    /* A corrupt data byte, or a corrupt sum, is seen. */
    segment[43] ^= 1;
    reads_none(__LINE__, segment, 44, 0, DEPOT_WAL_BAD_SUM, 0);
    segment[43] ^= 1;
    segment[6] ^= 0x80;
    reads_none(__LINE__, segment, 44, 0, DEPOT_WAL_BAD_SUM, 0);

    /* A table with other contents: the same result, and nothing but the sum differs. */
    static const uint32_t zeros[DEPOT_WAL_TABLE_LEN];
    CHECK(GIVES(depot_wal_write_with_table(zeros, V1, segment, PAGE, 0, record, 37,
                                           &out->written),
                DONE, WRITTEN(.next = 44)));
    CHECK(same(segment, 3, "01 00 25") && memcmp(segment + 7, record, 37) == 0 &&
          all(segment + 44, PAGE - 44, 0xAA));
}

static void fill_record(void)
{
    for (size_t i = 0; i < sizeof record; i++)
        record[i] = (uint8_t)(i % 251 + 1);
}

/* An empty record is not written, and the zeros of one that was cut off are not read. */
static void hollow_records(void)
{
    memset(segment, 0xAA, sizeof segment);
    write_fails(__LINE__, PAGE, 0, 0, DEPOT_WAL_HOLLOW, 0);
    write_fails(__LINE__, PAGE, 51, 0, DEPOT_WAL_HOLLOW, 51);
    write_fails(__LINE__, PAGE, PAGE - 7, 0, DEPOT_WAL_HOLLOW, PAGE - 7);
    CHECK(GIVES(depot_wal_write(V1, segment, PAGE, 7, NULL, 0, &out->written), DEPOT_WAL_HOLLOW,
                WRITTEN(.next = 7, .error_at = 7)));
    CHECK(all(segment, sizeof segment, 0xAA));

    /* The second record is cut off after its type byte, and zeros follow: none, some, a page. */
    fill_record();
    writes(__LINE__, PAGE, 0, 37, 44);
    writes(__LINE__, PAGE, 44, 5, 56);
    memset(segment + 45, 0, sizeof segment - 45);
    reads(__LINE__, 45, 0, 0, 37, 44);
    for (size_t n = 45; n < 51; n++)
        reads_none(__LINE__, segment, n, 44, DEPOT_WAL_TORN, 44);
    reads_none(__LINE__, segment, 51, 44, DEPOT_WAL_HOLLOW, 44);
    reads_none(__LINE__, segment, 2 * PAGE, 44, DEPOT_WAL_HOLLOW, 44);

    /* So is the last fragment of one that fills a page. */
    writes(__LINE__, 2 * PAGE, 0, 32762, 32776);
    memset(segment + PAGE + 1, 0, PAGE);
    reads_none(__LINE__, segment, PAGE + 6, 0, DEPOT_WAL_TORN, 0);
    reads_none(__LINE__, segment, PAGE + 7, 0, DEPOT_WAL_HOLLOW, PAGE);
}

/* "From a fresh page": what is left of the page decides how the record is split and where the next
 * one goes. */
static void fresh_pages(void)
{
    fill_record();
    memset(segment, 0xAA, sizeof segment);
    writes(__LINE__, 2 * PAGE, 0, 32754, 32761); /* leaves 7: the next one opens with length 0 */
    writes(__LINE__, 2 * PAGE, 32761, 1, 32776);
    CHECK(same(segment + 32761, 10, "02 00 00 00 00 00 00  04 00 01"));
    reads(__LINE__, 32776, 0, 0, 32754, 32761);
    reads(__LINE__, 32776, 32761, 32761, 1, 32776);
    reads_none(__LINE__, segment, 32775, 32761, DEPOT_WAL_TORN, 32761);
    reads_none(__LINE__, segment, 32768, 32761, DEPOT_WAL_TORN, 32761);

    memset(segment, 0xAA, sizeof segment);
    writes(__LINE__, 2 * PAGE, 0, 32755, 32768); /* leaves 6: padding, next is the next page */
    CHECK(all(segment + 32762, 6, 0) && segment[32768] == 0xAA);
    reads(__LINE__, 32768, 0, 0, 32755, 32762);
    for (size_t cut = 32762; cut <= 32768; cut++)
        reads_none(__LINE__, segment, cut, 32762, DEPOT_WAL_END, 0);
    writes(__LINE__, 2 * PAGE, 32768, 5, 32780);
    reads(__LINE__, 32780, 32762, 32768, 5, 32780); /* its start is above the place given */

    writes(__LINE__, 2 * PAGE, 0, 32761, 32768); /* fills the page */
    CHECK(same(segment, 3, "01 7F F9"));
    reads(__LINE__, 32768, 0, 0, 32761, 32768);

    writes(__LINE__, 2 * PAGE, 0, 32762, 32776); /* one byte too many for one fragment */
    CHECK(same(segment, 3, "02 7F F9") && same(segment + 32768, 3, "04 00 01"));
    reads(__LINE__, 32776, 0, 0, 32762, 32776);
}

/* The longest record, and what two pages hold. */
static void longest_records(void)
{
    fill_record();
    memset(segment, 0xAA, sizeof segment);
    writes(__LINE__, 3 * PAGE, 0, 65536, 65557); /* 32,761, 32,761 and 14 */
    CHECK(same(segment, 3, "02 7F F9") && same(segment + 32768, 3, "03 7F F9") &&
          same(segment + 65536, 3, "04 00 0E"));
    reads(__LINE__, 65557, 0, 0, 65536, 65557);
    reads_none(__LINE__, segment, 65556, 0, DEPOT_WAL_TORN, 0);
    segment[40000] ^= 1; /* reported at its own fragment, not at the record's start */
    reads_none(__LINE__, segment, 65557, 0, DEPOT_WAL_BAD_SUM, 32768);
    segment[40000] ^= 1;
    segment[65538] = 15; /* 65,537 bytes; seen before the data is missed */
    reads_none(__LINE__, segment, 65557, 0, DEPOT_WAL_TOO_LONG, 65536);

    memset(segment, 0xAA, sizeof segment);
    write_fails(__LINE__, 2 * PAGE, 0, 65523, DEPOT_WAL_NO_ROOM, 0);
    writes(__LINE__, 2 * PAGE, 0, 65522, 65536);
    reads(__LINE__, 65536, 0, 0, 65522, 65536);
    write_fails(__LINE__, 2 * PAGE, 65536, 1, DEPOT_WAL_NO_ROOM, 65536);
}

/* The errors of a write: BAD_BUFFER, BAD_PLACE, HOLLOW, TOO_LONG, NO_ROOM in this order. */
static void write_errors(void)
{
    fill_record();
    memset(segment, 0xAA, sizeof segment);
    write_fails(__LINE__, 0, 0, 1, DEPOT_WAL_BAD_BUFFER, 0);
    write_fails(__LINE__, PAGE - 1, 0, 1, DEPOT_WAL_BAD_BUFFER, 0);
    write_fails(__LINE__, PAGE + 1, 5, 1, DEPOT_WAL_BAD_BUFFER, 0);
    write_fails(__LINE__, 44, 99, 65537, DEPOT_WAL_BAD_BUFFER, 0); /* before the next two */
    CHECK(GIVES(depot_wal_write(V1, NULL, 0, 0, NULL, 0, &out->written), DEPOT_WAL_BAD_BUFFER,
                WRITTEN(.next = 0)));
    CHECK(GIVES(depot_wal_write(V1, huge, LIMIT + PAGE, 7, record, 1, &out->written),
                DEPOT_WAL_BAD_BUFFER, WRITTEN(.next = 7)));
    write_fails(__LINE__, PAGE, PAGE + 1, 1, DEPOT_WAL_BAD_PLACE, 0);
    write_fails(__LINE__, PAGE, SIZE_MAX, 1, DEPOT_WAL_BAD_PLACE, 0);
    for (size_t left = 1; left <= 6; left++) {
        write_fails(__LINE__, 2 * PAGE, PAGE - left, 1, DEPOT_WAL_BAD_PLACE, 0);
        write_fails(__LINE__, 2 * PAGE, PAGE - left, 0, DEPOT_WAL_BAD_PLACE, 0);
        write_fails(__LINE__, 2 * PAGE, 2 * PAGE - left, 65537, DEPOT_WAL_BAD_PLACE, 0);
    }
    write_fails(__LINE__, PAGE, 44, 65537, DEPOT_WAL_TOO_LONG, 44);
    write_fails(__LINE__, PAGE, PAGE, 65537, DEPOT_WAL_TOO_LONG, PAGE); /* before NO_ROOM */
    write_fails(__LINE__, PAGE, PAGE, 0, DEPOT_WAL_HOLLOW, PAGE); /* before NO_ROOM too */
    write_fails(__LINE__, PAGE, PAGE, 1, DEPOT_WAL_NO_ROOM, PAGE);
    write_fails(__LINE__, PAGE, PAGE - 7, 1, DEPOT_WAL_NO_ROOM, PAGE - 7);
    writes(__LINE__, PAGE, PAGE - 8, 1, PAGE); /* one byte fits there */
    write_fails(__LINE__, PAGE, 10, 32752, DEPOT_WAL_NO_ROOM, 10);
    writes(__LINE__, PAGE, 10, 32751, PAGE);
    CHECK(GIVES(depot_wal_write(V1, huge, LIMIT, LIMIT - 8, record, 1, &out->written), DONE,
                WRITTEN(.next = LIMIT))); /* the limit itself is good */
    CHECK(GIVES(read_by(PLAIN, huge, LIMIT, LIMIT - 8, sizeof buffer), DONE,
                RECORD(.start = LIMIT - 8, .length = 1, .next = LIMIT)));
    reads_none(__LINE__, huge, LIMIT, LIMIT, DEPOT_WAL_END, 0);
    reads_none(__LINE__, huge, LIMIT + 1, LIMIT, DEPOT_WAL_BAD_BUFFER, 0);
}

/* The errors of a read before it looks at a byte: BAD_BUFFER, then BAD_PLACE. */
static void read_errors(void)
{
    memset(buffer, 0x5C, sizeof buffer);
    for (int form = PLAIN; form <= WITH_TABLE; form++)
        CHECK(GIVES(read_by(form, segment, 7, 0, 65535), DEPOT_WAL_BAD_BUFFER, RECORD(.start = 0)));
    struct depot_wal_good good = {1, 0};
    CHECK(GIVES(depot_wal_read(V1, segment, 7, 99, NULL, 0, &good, &out->record),
                DEPOT_WAL_BAD_BUFFER, RECORD(.start = 0)));
    CHECK(all(buffer, sizeof buffer, 0x5C));
    reads_none(__LINE__, segment, 7, 8, DEPOT_WAL_BAD_PLACE, 0);
    reads_none(__LINE__, NULL, 0, 1, DEPOT_WAL_BAD_PLACE, 0);
    reads_none(__LINE__, segment, 7, SIZE_MAX, DEPOT_WAL_BAD_PLACE, 0);
}

/* A pair that no read can have left is BAD_PLACE, after BAD_BUFFER; it stays as it was given. */
static void good_given(int line, size_t place, uint64_t records, uint64_t offset,
                       depot_wal_status status)
{
    for (int form = PLAIN; form <= WITH_TABLE; form++) {
        struct depot_wal_good good = {records, offset};
        check(line, GIVES(read_given(form, segment, 7, place, sizeof buffer, &good), status,
                          RECORD(.start = 0)),
              "a pair");
        check(line, good.records == records && good.offset == offset, "it stays");
        check(line, GIVES(read_given(form, segment, 7, place, 65535, &good), DEPOT_WAL_BAD_BUFFER,
                          RECORD(.start = 0)),
              "after BAD_BUFFER");
    }
}

static void good_pairs(void)
{
    memset(segment, 0, 7);
    good_given(__LINE__, 7, 0, 0, DEPOT_WAL_END);
    good_given(__LINE__, 7, 0, 5, DEPOT_WAL_END);
    good_given(__LINE__, 7, 7, 7, DEPOT_WAL_END);
    good_given(__LINE__, 6, 0, 7, DEPOT_WAL_BAD_PLACE);
    good_given(__LINE__, 7, 6, 5, DEPOT_WAL_BAD_PLACE);
    good_given(__LINE__, 7, 1, 0, DEPOT_WAL_BAD_PLACE);
    good_given(__LINE__, 7, UINT64_MAX, UINT64_MAX, DEPOT_WAL_BAD_PLACE);
    good_given(__LINE__, 7, UINT64_MAX, 7, DEPOT_WAL_BAD_PLACE);
    good_given(__LINE__, 8, 0, 0, DEPOT_WAL_BAD_PLACE);
}

/* A reading from the start: the pair counts the records, also before filler, and says where the
 * last one ends; an end, Torn and a corrupt record leave it. */
static void good_reading(void)
{
    static const struct {
        size_t cut, records, offset;
        depot_wal_status status;
    } cuts[] = {{0, 0, 0, DEPOT_WAL_END},      {5, 0, 0, DEPOT_WAL_TORN},
                {8, 1, 8, DEPOT_WAL_END},      {32764, 2, 32764, DEPOT_WAL_END},
                {32768, 2, 32764, DEPOT_WAL_END}, {32770, 2, 32764, DEPOT_WAL_TORN},
                {32776, 3, 32776, DEPOT_WAL_END}};
    fill_record();
    memset(segment, 0, sizeof segment);
    writes(__LINE__, 2 * PAGE, 0, 1, 8);
    writes(__LINE__, 2 * PAGE, 8, 32749, PAGE); /* it ends 4 bytes before the page does */
    writes(__LINE__, 2 * PAGE, PAGE, 1, PAGE + 8);
    for (size_t i = 0; i < sizeof cuts / sizeof *cuts; i++) {
        struct depot_wal_good good = {0, 0};
        depot_wal_status status;
        size_t place = 0;
        while ((status = read_given(PLAIN, segment, cuts[i].cut, place, sizeof buffer, &good)) ==
               DONE)
            place = out->record.next;
        CHECK(status == cuts[i].status);
        CHECK(good.records == cuts[i].records && good.offset == cuts[i].offset);
    }
    segment[PAGE + 7] ^= 1; /* the third is corrupt: it is not counted */
    struct depot_wal_good good = {2, 32764};
    CHECK(GIVES(read_given(PLAIN, segment, 2 * PAGE, 32764, sizeof buffer, &good),
                DEPOT_WAL_BAD_SUM, RECORD(.start = PAGE)));
    CHECK(good.records == 2 && good.offset == 32764);
}

/* The errors of a read by the bytes, in the order of FORMAT 6.1 to 6.9. */
static void corrupt_bytes(void)
{
    bytes_give(__LINE__, "21", DEPOT_WAL_RESERVED, 0);
    bytes_give(__LINE__, "29", DEPOT_WAL_RESERVED, 0);
    bytes_give(__LINE__, "E0", DEPOT_WAL_RESERVED, 0);
    bytes_give(__LINE__, "09", DEPOT_WAL_COMPRESSED, 0);
    bytes_give(__LINE__, "10", DEPOT_WAL_COMPRESSED, 0);
    bytes_give(__LINE__, "0D", DEPOT_WAL_COMPRESSED, 0);
    bytes_give(__LINE__, "05", DEPOT_WAL_BAD_TYPE, 0);
    bytes_give(__LINE__, "07", DEPOT_WAL_BAD_TYPE, 0);
    bytes_give(__LINE__, "03", DEPOT_WAL_OUT_OF_ORDER, 0); /* before the missing header */
    bytes_give(__LINE__, "04 00 00 00 00 00 00", DEPOT_WAL_OUT_OF_ORDER, 0);
    bytes_give(__LINE__, "02 00 00 00 00 00 00  02", DEPOT_WAL_OUT_OF_ORDER, 7);
    bytes_give(__LINE__, "02 00 00 00 00 00 00  00", DEPOT_WAL_OUT_OF_ORDER, 7);
    bytes_give(__LINE__, "02 00 00 00 00 00 00", DEPOT_WAL_TORN, 0);
    bytes_give(__LINE__, "01", DEPOT_WAL_TORN, 0);
    bytes_give(__LINE__, "00", DEPOT_WAL_END, 0);
    bytes_give(__LINE__, "00 00 00 00 00 00 00 00 00 03 00", DEPOT_WAL_NOT_ZERO, 9);
    bytes_give(__LINE__, "01 00 00 00 00 00", DEPOT_WAL_TORN, 0); /* before the length is read */
    bytes_give(__LINE__, "01 00 00 00 00 00 00", DEPOT_WAL_HOLLOW, 0);
    bytes_give(__LINE__, "01 00 00 FF FF FF FF", DEPOT_WAL_HOLLOW, 0); /* before BAD_SUM */
    bytes_give(__LINE__, "02 00 00 00 00 00 00  04 00 00 00 00 00 00", DEPOT_WAL_HOLLOW, 7);
    bytes_give(__LINE__, "02 00 00 00 00 00 00  03 00 00 00 00 00 00", DEPOT_WAL_TORN, 0);
    bytes_give(__LINE__, "02 00 00 FF FF FF FF", DEPOT_WAL_BAD_SUM, 0);
    bytes_give(__LINE__, "01 7F FA 00 00 00 00", DEPOT_WAL_PAST_PAGE, 0); /* 32,762 bytes of data */
    bytes_give(__LINE__, "01 7F F9 00 00 00 00", DEPOT_WAL_TORN, 0);
    put(segment, "01 00 00 00 00 00 00  01 7F F3 00 00 00 00"); /* 32,755 where 32,754 fit */
    reads_none(__LINE__, segment, 14, 7, DEPOT_WAL_PAST_PAGE, 7);
    segment[9] = 0xF2;
    reads_none(__LINE__, segment, 14, 7, DEPOT_WAL_TORN, 7);
    bytes_give(__LINE__, "01 00 01 00 00 00 00  00", DEPOT_WAL_BAD_SUM, 0);
}

/* Bytes that this library never writes, but that are good or have a place of their own. */
static void foreign_bytes(void)
{
    /* Fragments shorter than their page are joined; the record keeps the first one's start. */
    put(record, "00 00");
    uint32_t sum = crc_by_bits(record, 1);
    size_t n = put(segment, "02 00 01 00000000 00  03 00 00 00000000  04 00 01 00000000 00");
    for (int i = 0; i < 4; i++)
        segment[3 + i] = segment[18 + i] = (uint8_t)(sum >> (24 - 8 * i));
    reads(__LINE__, n, 0, 0, 2, 23);

    /* A page of zeros is passed over; padding that is not zero is not. */
    memset(segment, 0, sizeof segment);
    put(segment + PAGE, "01 00 01 00000000 00");
    for (int i = 0; i < 4; i++)
        segment[PAGE + 3 + i] = (uint8_t)(sum >> (24 - 8 * i));
    reads(__LINE__, PAGE + 8, 0, PAGE, 1, PAGE + 8);
    segment[PAGE - 2] = 1;
    reads_none(__LINE__, segment, PAGE + 8, PAGE - 6, DEPOT_WAL_NOT_ZERO, PAGE - 2);
    reads_none(__LINE__, segment, PAGE + 8, 0, DEPOT_WAL_NOT_ZERO, PAGE - 2);
}

/* Several writes, some with an error, each at the `next` of the one before; then the power fails at
 * every byte. */
static void several_records(void)
{
    static const size_t tried[] = {37, 65537, 0, 5, 65536, 100}; /* errors: all but 37, 5, 100 */
    static const depot_wal_status status[] = {DONE, DEPOT_WAL_TOO_LONG, DEPOT_WAL_HOLLOW,
                                              DONE, DEPOT_WAL_NO_ROOM,  DONE};
    static const size_t written[] = {37, 5, 100};
    static const size_t starts_at[] = {0, 44, 56, 163}; /* the last is the final place */
    size_t place = 0;
    fill_record();
    for (size_t i = 0; i < 6; i++) {
        CHECK(write_by(PLAIN, PAGE, place, tried[i]) == status[i]);
        place = out->written.next;
    }
    CHECK(place == 163);
    for (size_t cut = 0; cut <= place; cut++) {
        size_t k = 0; /* records that lie wholly before the cut */
        for (; k < 3 && starts_at[k + 1] <= cut; k++)
            reads(__LINE__, cut, starts_at[k], starts_at[k], written[k], starts_at[k + 1]);
        if (starts_at[k] < cut)
            reads_none(__LINE__, segment, cut, starts_at[k], DEPOT_WAL_TORN, starts_at[k]);
        else
            reads_none(__LINE__, segment, cut, starts_at[k], DEPOT_WAL_END, 0);
    }
}

/* ---- resuming ---- */

/* A log of n records in two pages: their lengths, where each starts and, last, the final place, and
 * where the last fragment of each ends. */
struct log {
    size_t n, lengths[4], starts[5], ends[4];
};

static const struct log logs[] = {
    /* three bytes are left in the first page */
    {4, {100, 32651, 1, 50}, {0, 107, 32768, 32776, 32833}, {107, 32765, 32776, 32833}},
    /* a record goes over two pages */
    {3, {40, 32800, 9}, {0, 47, 32861, 32877}, {47, 32861, 32877}},
    /* seven are left: a fragment without data */
    {3, {32754, 20, 5}, {0, 32761, 32795, 32807}, {32761, 32795, 32807}},
    /* six are left, behind the last record */
    {1, {32755}, {0, 32768}, {32762}},
};
enum { LOGS = sizeof logs / sizeof *logs };

static uint8_t uncut[2 * PAGE], gone[2 * PAGE]; /* the log that was never cut; what no write left */

/* The power fails: what is behind the cut is gone. */
static void cut_log(size_t cut)
{
    memcpy(segment + cut, gone + cut, sizeof gone - cut);
}

/* Writes the records from number `first` on. */
static void write_on(uint32_t version, const struct log *log, size_t first, size_t place)
{
    for (size_t i = first; i < log->n; i++) {
        CHECK(place == log->starts[i]);
        CHECK(depot_wal_write(version, segment, sizeof uncut, place, record + i, log->lengths[i],
                              &out->written) == DONE);
        place = out->written.next;
    }
    CHECK(place == log->starts[log->n]);
}

/* Resumes after a cut, and writes what did not come out: the log is that which was never cut. */
static void resumes(uint32_t version, const struct log *log, size_t cut)
{
    size_t k = 0, end = log->starts[log->n]; /* k records lie wholly before the cut */
    while (k < log->n && log->ends[k] <= cut)
        k++;
    size_t next = log->starts[k], kept = next < cut ? cut : next;
    CHECK(GIVES(depot_wal_resume(version, segment, sizeof uncut, cut, &out->resumed), DONE,
                RESUMED(.next = next, .good = {k, k ? log->ends[k - 1] : 0})));
    CHECK(memcmp(segment, uncut, kept) == 0); /* with the padding before the place */
    CHECK(memcmp(segment + kept, gone + kept, sizeof gone - kept) == 0);
    write_on(version, log, k, next);
    CHECK(memcmp(segment, uncut, end) == 0);
}

static void write_uncut(uint32_t version, const struct log *log)
{
    memset(gone, 0xA5, sizeof gone);
    memcpy(segment, gone, sizeof gone);
    write_on(version, log, 0, 0);
    memcpy(uncut, segment, sizeof uncut);
}

/* Cut at every byte. */
static void resumed_anywhere(uint32_t version, const struct log *log)
{
    write_uncut(version, log);
    for (size_t cut = 0; cut <= log->starts[log->n]; cut++) {
        cut_log(cut);
        resumes(version, log, cut);
    }
}

/* Cut near where a record starts or ends, and twice more while it is resumed. */
static void resumed_again(uint32_t version, const struct log *log)
{
    size_t cuts[32], n = 0, end = log->starts[log->n];
    for (size_t i = 0; i < log->n; i++)
        for (size_t d = 0; d < 3; d++) {
            cuts[n++] = log->starts[i] + d;
            cuts[n++] = log->ends[i] - 1 + d;
        }
    write_uncut(version, log);
    for (size_t i = 0; i < n * n * n; i++) {
        size_t a = cuts[i / n / n], b = cuts[i / n % n], c = cuts[i % n];
        if (a <= b && b <= c && c <= end) {
            cut_log(a);
            resumes(version, log, a);
            cut_log(b);
            resumes(version, log, b);
            cut_log(c);
            resumes(version, log, c);
        }
    }
}

static void resumed_logs(void)
{
    fill_record();
    for (size_t i = 0; i < LOGS; i++)
        for (uint32_t version = V1; version <= V2; version++) {
            resumed_anywhere(version, &logs[i]);
            resumed_again(version, &logs[i]);
        }
}

/* Resuming fails, and no byte of the segment changes. */
static void resume_fails(int line, size_t segment_len, size_t survived, depot_wal_status status,
                         size_t error_at, size_t records, size_t offset)
{
    memcpy(uncut, segment, sizeof uncut);
    check(line, GIVES(depot_wal_resume(V1, segment, segment_len, survived, &out->resumed), status,
                      RESUMED(.error_at = error_at, .good = {records, offset})), "refused");
    check(line, memcmp(segment, uncut, sizeof uncut) == 0, "no byte changes");
}

/* Resuming finds a place, and no byte of the segment changes. */
static void resumes_at(int line, size_t survived, size_t next, size_t records, size_t offset)
{
    memcpy(uncut, segment, sizeof uncut);
    check(line, GIVES(depot_wal_resume(V1, segment, sizeof uncut, survived, &out->resumed), DONE,
                      RESUMED(.next = next, .good = {records, offset})), "resumed");
    check(line, memcmp(segment, uncut, sizeof uncut) == 0, "no byte changes");
}

static void resume_errors(void)
{
    fill_record();
    memset(segment, 0xAA, sizeof segment);
    resume_fails(__LINE__, 0, 0, DEPOT_WAL_BAD_BUFFER, 0, 0, 0);
    resume_fails(__LINE__, PAGE - 1, 0, DEPOT_WAL_BAD_BUFFER, 0, 0, 0);
    resume_fails(__LINE__, PAGE + 1, PAGE + 2, DEPOT_WAL_BAD_BUFFER, 0, 0, 0); /* before 2 */
    CHECK(GIVES(depot_wal_resume(V1, NULL, 0, 0, &out->resumed), DEPOT_WAL_BAD_BUFFER,
                RESUMED(.next = 0)));
    CHECK(GIVES(depot_wal_resume(V1, huge, LIMIT + PAGE, 0, &out->resumed), DEPOT_WAL_BAD_BUFFER,
                RESUMED(.next = 0)));
    resume_fails(__LINE__, PAGE, PAGE + 1, DEPOT_WAL_BAD_PLACE, 0, 0, 0);
    resume_fails(__LINE__, PAGE, SIZE_MAX, DEPOT_WAL_BAD_PLACE, 0, 0, 0);
    resume_fails(__LINE__, PAGE, 1, DEPOT_WAL_RESERVED, 0, 0, 0);
    /* A record of 37 bytes from 0 to 44, and one that is damaged. */
    writes(__LINE__, PAGE, 0, 37, 44);
    writes(__LINE__, PAGE, 44, 5, 56);
    segment[55] ^= 1;
    resume_fails(__LINE__, PAGE, 56, DEPOT_WAL_BAD_SUM, 44, 1, 44);
    resumes_at(__LINE__, 55, 44, 1, 44); /* torn before the sum is looked at */
    /* Its type byte, 1, with zeros behind it. */
    memset(segment + 45, 0, sizeof segment - 45);
    resume_fails(__LINE__, 2 * PAGE, 2 * PAGE, DEPOT_WAL_HOLLOW, 44, 1, 44);
}

/* Bytes that no list of writes left, which are read clean. */
static void resume_foreign(void)
{
    fill_record();
    memset(segment, 0, sizeof segment);
    resumes_at(__LINE__, 2 * PAGE, 0, 0, 0); /* zeros alone */
    writes(__LINE__, 2 * PAGE, 0, 37, 44);
    resumes_at(__LINE__, 2 * PAGE, 44, 1, 44); /* zeros behind the last record are written over */
    writes(__LINE__, 2 * PAGE, PAGE, 5, PAGE + 12);
    resumes_at(__LINE__, PAGE + 2, PAGE, 1, 44); /* torn after the rest of an empty page */
    resumes_at(__LINE__, PAGE + 12, PAGE + 12, 2, PAGE + 12);
    writes(__LINE__, PAGE, 44, 32717, PAGE); /* a full page */
    resumes_at(__LINE__, PAGE, PAGE, 2, PAGE);
    writes(__LINE__, 2 * PAGE, PAGE, 32761, 2 * PAGE); /* and all of it: no room is left */
    resumes_at(__LINE__, 2 * PAGE, 2 * PAGE, 3, 2 * PAGE);
    write_fails(__LINE__, 2 * PAGE, 2 * PAGE, 1, DEPOT_WAL_NO_ROOM, 2 * PAGE);
}

/* ---- the page feed ---- */

/* The state between two guards, and as it was before a call. */
static uint64_t states[DEPOT_WAL_FEED_LEN + 2], was[DEPOT_WAL_FEED_LEN + 2];
static uint64_t *const state = &states[1];
static struct depot_wal_good fed_good; /* which the next answer should have */

static void feed_starts(void)
{
    memset(states, PATTERN, sizeof states);
    CHECK(depot_wal_feed_start(state, V1) == DONE);
    fed_good = (struct depot_wal_good){0, 0};
    CHECK(all((uint8_t *)states, 8, PATTERN) &&
          all((uint8_t *)(state + DEPOT_WAL_FEED_LEN), 8, PATTERN));
}

static void feeds(int line, const uint8_t *page, size_t n)
{
    check(line, GIVES(depot_wal_feed_page(state, page, n, &out->fed), DONE, FED(.good = fed_good)),
          "feed");
}

static void feed_fails(int line, const uint8_t *page, size_t n, depot_wal_status status,
                       uint64_t at)
{
    memcpy(was, states, sizeof states);
    check(line, GIVES(depot_wal_feed_page(state, page, n, &out->fed), status,
                      FED(.error_at = at, .good = fed_good)),
          "error of a feed");
    check(line, memcmp(states, was, sizeof states) == 0, "an error leaves the state");
}

/* A read of the page that gives a record, or another status with its place. */
static void feed_reads(int line, const uint8_t *page, size_t n, size_t start, size_t length,
                       size_t next)
{
    fed_good = (struct depot_wal_good){fed_good.records + 1, next};
    check(line, GIVES(depot_wal_feed_read(state, page, n, buffer, sizeof buffer,
                                          &out->feed_record), DONE,
                      FEED_RECORD(.start = start, .length = length, .next = next,
                                  .good = fed_good)),
          "read of a page");
}

static void feed_stops(int line, const uint8_t *page, size_t n, depot_wal_status status,
                       uint64_t at)
{
    check(line, GIVES(depot_wal_feed_read(state, page, n, buffer, sizeof buffer,
                                          &out->feed_record), status,
                      FEED_RECORD(.start = at, .good = fed_good)),
          "read of a page");
}

/* The same again: the status, the state and the buffer stay. */
static void feed_stays(int line, const uint8_t *page, size_t n, depot_wal_status status,
                       uint64_t at)
{
    static uint8_t before[sizeof buffer];
    memcpy(was, states, sizeof states);
    memcpy(before, buffer, sizeof buffer);
    feed_stops(line, page, n, status, at);
    check(line, memcmp(states, was, sizeof states) == 0, "the state stays");
    check(line, memcmp(buffer, before, sizeof buffer) == 0, "the buffer stays");
}

/* The first n bytes of `record` in the buffer, the rest unchanged. */
static int holds(size_t n)
{
    return memcmp(buffer, record, n) == 0 && all(buffer + n, sizeof buffer - n, 0x5C);
}

/* The longest record over three pages, fragment by fragment, and every order of calls that is an
 * error. */
static void feed_order(void)
{
    fill_record();
    memset(segment, 0xAA, sizeof segment);
    writes(__LINE__, 3 * PAGE, 0, 65536, 65557);
    memset(buffer, 0x5C, sizeof buffer);
    feed_starts();
    feed_stays(__LINE__, NULL, 0, DEPOT_WAL_MORE, 0); /* before the first page */
    feed_fails(__LINE__, segment, PAGE + 1, DEPOT_WAL_BAD_BUFFER, 0);
    feeds(__LINE__, segment, PAGE);
    feed_fails(__LINE__, segment, PAGE, DEPOT_WAL_BAD_PLACE, 0); /* nobody has asked */
    feed_fails(__LINE__, segment, PAGE + 1, DEPOT_WAL_BAD_BUFFER, 0);
    feed_stays(__LINE__, segment, PAGE - 1, DEPOT_WAL_BAD_BUFFER, 0);
    CHECK(GIVES(depot_wal_feed_read(state, segment, PAGE, buffer, 65535, &out->feed_record),
                DEPOT_WAL_BAD_BUFFER, FEED_RECORD(.start = 0)));
    CHECK(holds(0));
    feed_stops(__LINE__, segment, PAGE, DEPOT_WAL_MORE, 0);
    CHECK(holds(32761));
    feed_stays(__LINE__, NULL, 0, DEPOT_WAL_MORE, 0); /* the page may be gone now */
    feeds(__LINE__, segment + PAGE, PAGE);
    feed_stops(__LINE__, segment + PAGE, PAGE, DEPOT_WAL_MORE, 0);
    CHECK(holds(65522));
    feeds(__LINE__, segment + 2 * PAGE, 21);
    feed_reads(__LINE__, segment + 2 * PAGE, 21, 0, 65536, 65557);
    CHECK(holds(65536));
    feed_stays(__LINE__, segment + 2 * PAGE, 21, DEPOT_WAL_END, 0);
    feed_fails(__LINE__, segment, PAGE, DEPOT_WAL_BAD_PLACE, 0); /* the last page was fed */
    feed_fails(__LINE__, segment, PAGE + 1, DEPOT_WAL_BAD_BUFFER, 0);

    /* The segment ends with the first page. */
    memset(buffer, 0x5C, sizeof buffer);
    feed_starts();
    feeds(__LINE__, segment, PAGE);
    feed_stops(__LINE__, segment, PAGE, DEPOT_WAL_MORE, 0);
    feeds(__LINE__, NULL, 0);
    feed_stops(__LINE__, NULL, 0, DEPOT_WAL_TORN, 0);
    CHECK(holds(32761));
    feed_stays(__LINE__, NULL, 0, DEPOT_WAL_TORN, 0);
    feed_fails(__LINE__, segment, PAGE, DEPOT_WAL_BAD_PLACE, 0);

    /* The second fragment is corrupt: the first is stored, and every feed gives the error. */
    segment[40000] ^= 1;
    memset(buffer, 0x5C, sizeof buffer);
    feed_starts();
    feeds(__LINE__, segment, PAGE);
    feed_stops(__LINE__, segment, PAGE, DEPOT_WAL_MORE, 0);
    feeds(__LINE__, segment + PAGE, PAGE);
    feed_stops(__LINE__, segment + PAGE, PAGE, DEPOT_WAL_BAD_SUM, PAGE);
    CHECK(holds(32761));
    feed_stays(__LINE__, segment + PAGE, PAGE, DEPOT_WAL_BAD_SUM, PAGE);
    feed_fails(__LINE__, segment, PAGE, DEPOT_WAL_BAD_SUM, PAGE);
    feed_fails(__LINE__, segment, PAGE + 1, DEPOT_WAL_BAD_SUM, PAGE);

    /* It is a last one without data. */
    put(segment + PAGE, "04 00 00");
    memset(buffer, 0x5C, sizeof buffer);
    feed_starts();
    feeds(__LINE__, segment, PAGE);
    feed_stops(__LINE__, segment, PAGE, DEPOT_WAL_MORE, 0);
    feeds(__LINE__, segment + PAGE, PAGE);
    feed_stops(__LINE__, segment + PAGE, PAGE, DEPOT_WAL_HOLLOW, PAGE);
    CHECK(holds(32761));
    feed_stays(__LINE__, segment + PAGE, PAGE, DEPOT_WAL_HOLLOW, PAGE);
    feed_fails(__LINE__, segment, PAGE, DEPOT_WAL_HOLLOW, PAGE);
}

/* The limit of a segment, and states that no call leaves. */
static void feed_limits(void)
{
    memset(segment, 0, sizeof segment);
    memset(buffer, 0x5C, sizeof buffer);
    feed_starts();
    for (int i = 0; i < 4096; i++) {
        feeds(__LINE__, segment, PAGE);
        feed_stops(__LINE__, segment, PAGE, DEPOT_WAL_MORE, 0);
    }
    feed_fails(__LINE__, segment, 1, DEPOT_WAL_BAD_BUFFER, 0);
    feeds(__LINE__, NULL, 0);
    feed_stops(__LINE__, NULL, 0, DEPOT_WAL_END, 0);

    memset(state, 0xFF, 8 * DEPOT_WAL_FEED_LEN);
    fed_good = (struct depot_wal_good){UINT64_MAX, UINT64_MAX};
    feed_fails(__LINE__, segment, PAGE + 1, DEPOT_WAL_BAD_PLACE, 0);
    feed_stays(__LINE__, segment, PAGE, DEPOT_WAL_BAD_PLACE, 0);
    CHECK(GIVES(depot_wal_feed_read(state, NULL, 0, NULL, 0, &out->feed_record),
                DEPOT_WAL_BAD_PLACE, FEED_RECORD(.good = fed_good)));
    fed_good = (struct depot_wal_good){0, 0};
    for (uint64_t number = 11; number <= 14; number++) { /* of these only 13 can stand */
        memset(state, 0, 8 * DEPOT_WAL_FEED_LEN);
        state[3] = 8 * number;
        state[6] = 5;
        state[9] = V1;
        feed_fails(__LINE__, segment, PAGE, number == 13 ? DEPOT_WAL_HOLLOW : DEPOT_WAL_BAD_PLACE,
                   number == 13 ? 5 : 0);
    }
    for (uint64_t version = 0; version <= 3; version++) { /* of these only 1 and 2 are one */
        feed_starts();
        state[9] = version;
        if (version == V1 || version == V2)
            feeds(__LINE__, segment, PAGE);
        else
            feed_fails(__LINE__, segment, PAGE, DEPOT_WAL_BAD_PLACE, 0);
    }
}

/* The first n bytes of `segment` by the feed: the same results as by reads of the slice. */
static void feed_as_slice(size_t n)
{
    static uint8_t other[sizeof buffer];
    struct depot_wal_good good = {0, 0};
    struct depot_wal_record want;
    size_t place = 0, fed = 0, size = 0;
    feed_starts();
    for (;;) {
        fed_good = good; /* of the answers before the record */
        depot_wal_status status = depot_wal_read(V1, segment, n, place, other, sizeof other, &good,
                                                 &want);
        depot_wal_status got;
        while ((got = depot_wal_feed_read(state, segment + fed - size, size, buffer, sizeof buffer,
                                          &out->feed_record)) == DEPOT_WAL_MORE) {
            size = n - fed < PAGE ? n - fed : PAGE;
            feeds(__LINE__, segment + fed, size);
            fed += size;
        }
        CHECK(got == status && memcmp(&out->record, &want, sizeof want) == 0);
        CHECK(memcmp(&out->feed_record.good, &good, sizeof good) == 0);
        if (status != DONE)
            return;
        CHECK(memcmp(buffer, other, want.length) == 0);
        place = want.next;
    }
}

/* Records of many lengths, cut at many places, whole and corrupt. */
static void feed_cuts(void)
{
    static const size_t sizes[] = {37, 2, 32761, 1, 20000, 12754, 7, 32762, 100};
    size_t place = 0, i = 0;
    fill_record();
    memset(segment, 0, sizeof segment);
    while (depot_wal_write(V1, segment, sizeof segment, place, record, sizes[i % 9],
                           &out->written) == DONE) {
        place = out->written.next;
        i++;
    }
    for (size_t n = 0; n <= sizeof segment; n += n % PAGE < 50 || n % PAGE > PAGE - 20 ? 1 : 997)
        feed_as_slice(n);
    for (size_t at = 3; at < sizeof segment; at += 4999) {
        segment[at] ^= 0x41;
        feed_as_slice(sizeof segment);
        segment[at] ^= 0x41;
    }
}

/* ---- bodies ---- */

struct spans {
    const int32_t *offsets;
    size_t offsets_len;
    const uint32_t *lengths;
    size_t lengths_len;
};

struct buckets {
    const uint64_t *bits;
    size_t len;
};

struct histogram {
    uint8_t hint;
    int32_t schema;
    uint64_t threshold, zeros, count, sum;
    struct spans positive, negative;
    struct buckets above, below;
};

struct entry {
    uint64_t id;
    int64_t time, max;
    uint64_t bits;
    const char *strings;
    const uint64_t *lengths;
    size_t count;
    const struct histogram *histogram; /* NULL: all zero, no spans and no buckets */
};

static uint8_t body[70000];
static const uint8_t types[] = {DEPOT_WAL_SERIES, DEPOT_WAL_SAMPLES, DEPOT_WAL_TOMBSTONES,
                                DEPOT_WAL_EXEMPLARS, DEPOT_WAL_METADATA, DEPOT_WAL_HISTOGRAMS,
                                DEPOT_WAL_FLOAT_HISTOGRAMS};

/* The two calls that add a histogram; the buckets of type 7 are lent as signed numbers. */
static depot_wal_status add_histogram(uint8_t kind, size_t len, uint8_t type, size_t used,
                                      const struct entry *e)
{
    static const struct histogram zero;
    const struct histogram *h = e->histogram ? e->histogram : &zero;
    const struct spans *p = &h->positive, *n = &h->negative;
    if (kind == DEPOT_WAL_HISTOGRAMS)
        return depot_wal_add_histogram(
            body, len, type, used, e->id, e->time, h->hint, h->schema, h->threshold, h->zeros,
            h->count, h->sum, p->offsets, p->offsets_len, p->lengths, p->lengths_len,
            n->offsets, n->offsets_len, n->lengths, n->lengths_len,
            (const int64_t *)h->above.bits, h->above.len,
            (const int64_t *)h->below.bits, h->below.len, &out->built);
    return depot_wal_add_float_histogram(
        body, len, type, used, e->id, e->time, h->hint, h->schema, h->threshold, h->zeros,
        h->count, h->sum, p->offsets, p->offsets_len, p->lengths, p->lengths_len,
        n->offsets, n->offsets_len, n->lengths, n->lengths_len,
        h->above.bits, h->above.len, h->below.bits, h->below.len, &out->built);
}

/* The call that adds an entry of a kind, to a body of a type. */
static depot_wal_status add(uint8_t kind, size_t len, uint8_t type, size_t used,
                            const struct entry *e)
{
    const uint8_t *text = (const uint8_t *)e->strings;
    size_t text_len = text ? strlen(e->strings) : 0;
    struct depot_wal_built *built = &out->built;
    switch (kind) {
    case DEPOT_WAL_SERIES:
        return depot_wal_add_series(body, len, type, used, e->id,
                                    text, text_len, e->lengths, e->count, built);
    case DEPOT_WAL_SAMPLES:
        return depot_wal_add_sample(body, len, type, used, e->id, e->time, e->bits, built);
    case DEPOT_WAL_TOMBSTONES:
        return depot_wal_add_tombstone(body, len, type, used, e->id, e->time, e->max, built);
    case DEPOT_WAL_EXEMPLARS:
        return depot_wal_add_exemplar(body, len, type, used, e->id, e->time, e->bits,
                                      text, text_len, e->lengths, e->count, built);
    case DEPOT_WAL_METADATA:
        return depot_wal_add_metadata(body, len, type, used, e->id, (uint8_t)e->bits,
                                      text, text_len, e->lengths, e->count, built);
    default:
        return add_histogram(kind, len, type, used, e);
    }
}

/* Adds an entry to a body of its own type: its bytes are those of the text, and no other byte
 * changes. Returns the bytes then used. */
static size_t adds(int line, uint8_t kind, size_t used, const char *bytes, const struct entry *e)
{
    static uint8_t before[sizeof body];
    uint8_t want[256];
    size_t n = put(want, bytes);
    memcpy(before, body, sizeof body);
    check(line, GIVES(add(kind, used + n, kind, used, e), DONE, BUILT(.used = used + n)), "add");
    check(line, memcmp(body + used, want, n) == 0, "the entry's bytes");
    memcpy(before + used, want, n);
    check(line, memcmp(body, before, sizeof body) == 0, "other bytes are unchanged");
    return used + n;
}
#define ADDS(kind, used, bytes, ...) \
    adds(__LINE__, kind, used, bytes, &(struct entry){__VA_ARGS__})

static void add_fails(int line, uint8_t kind, size_t len, uint8_t type, size_t used,
                      const struct entry *e, depot_wal_status status, uint64_t at)
{
    static uint8_t before[sizeof body];
    memcpy(before, body, sizeof body);
    check(line, GIVES(add(kind, len, type, used, e), status, BUILT(.used = used, .error_at = at)),
          "error of an addition");
    check(line, memcmp(body, before, sizeof body) == 0, "an error changes no byte");
}

static void start(int line, uint8_t type)
{
    memset(body, 0xAA, sizeof body);
    check(line, GIVES(depot_wal_body_start(body, 1, type, &out->built), DONE, BUILT(.used = 1)),
          "start");
    check(line, body[0] == type && all(body + 1, sizeof body - 1, 0xAA), "the type byte alone");
}

/* What the calls that decode a body return, and the fields of the result that are not 0. */
#define BODY_CHECK(bytes, len, status, ...) \
    CHECK(GIVES(depot_wal_body_check(bytes, len, &out->count), status, COUNT(__VA_ARGS__)))
#define ENTRY_AT(bytes, len, place, status, ...) \
    CHECK(GIVES(depot_wal_entry_at(bytes, len, place, &out->entry), status, ENTRY(__VA_ARGS__)))
#define STRING_AT(bytes, len, place, status, ...) \
    CHECK(GIVES(depot_wal_string_at(bytes, len, place, &out->string), status, STRING(__VA_ARGS__)))

/* Starting: UNKNOWN_TYPE, then NO_ROOM. A started body is a body without entries. */
static void starts(void)
{
    for (size_t i = 0; i < sizeof types; i++) {
        start(__LINE__, types[i]);
        BODY_CHECK(body, 1, DONE, .count = 0);
        ENTRY_AT(body, 1, 1, DEPOT_WAL_END, 0);
        CHECK(GIVES(depot_wal_body_start(NULL, 0, types[i], &out->built), DEPOT_WAL_NO_ROOM,
                    BUILT(.used = 0)));
    }
    static const uint8_t unknown[] = {0, 5, 9, 255};
    memset(body, 0xAA, sizeof body);
    for (size_t i = 0; i < 4; i++) {
        CHECK(GIVES(depot_wal_body_start(body, 9, unknown[i], &out->built), DEPOT_WAL_UNKNOWN_TYPE,
                    BUILT(.used = 0)));
        CHECK(GIVES(depot_wal_body_start(NULL, 0, unknown[i], &out->built), DEPOT_WAL_UNKNOWN_TYPE,
                    BUILT(.used = 0)));
    }
    CHECK(all(body, sizeof body, 0xAA));
}

/* Type 1. */
static void series(void)
{
    static const uint64_t lengths[] = {1, 2, 0, 3};
    start(__LINE__, 1);
    size_t used = ADDS(1, 1, "0000000000000005 01 01 61 02 62 63",
                       .id = 5, .strings = "abc", .lengths = lengths, .count = 2);
    used = ADDS(1, used, "FFFFFFFFFFFFFFFF 00", .id = TOP); /* no labels, passed as NULL */
    used = ADDS(1, used, "0000000000000006 01 00 03 78 79 7A",
                .id = 6, .strings = "xyz", .lengths = lengths + 2, .count = 2);
    BODY_CHECK(body, used, DONE, .count = 3);
    ENTRY_AT(body, used, 1, DONE, .type = 1, .id = 5, .strings = 2, .strings_at = 10, .next = 15);
    ENTRY_AT(body, used, 15, DONE, .type = 1, .id = TOP, .strings_at = 24, .next = 24);
    ENTRY_AT(body, used, 24, DONE, .type = 1, .id = 6, .strings = 2, .strings_at = 33, .next = 38);
    ENTRY_AT(body, used, 38, DEPOT_WAL_END, 0);
    STRING_AT(body, used, 10, DONE, .start = 11, .length = 1);
    STRING_AT(body, used, 12, DONE, .start = 13, .length = 2);
    STRING_AT(body, used, 33, DONE, .start = 34, .length = 0);
    STRING_AT(body, used, 34, DONE, .start = 35, .length = 3);
    STRING_AT(body, used, 38, DEPOT_WAL_SHORT, .start = 38);
}

/* Type 2: the switch, and id 6 after first id 7. */
static void samples(void)
{
    start(__LINE__, 2);
    size_t used = ADDS(2, 1, "0000000000000007 00000000000003E8 00 00 0000000000000000",
                       .id = 7, .time = 1000);
    CHECK(used == 27);
    used = ADDS(2, used, "02 00 3FF0000000000000", .id = 8, .time = 1000, .bits = ONE);
    CHECK(used == 37 && same(body, 37, switch_body));
    BODY_CHECK(body, 37, DONE, .count = 2);
    ENTRY_AT(body, 37, 1, DONE, .type = 2, .id = 7, .time = 1000, .strings_at = 27, .next = 27);
    ENTRY_AT(body, 37, 17, DONE, .type = 2, .id = 7, .time = 1000, .strings_at = 27, .next = 27);
    ENTRY_AT(body, 37, 27, DONE, .type = 2, .id = 8, .time = 1000, .bits = ONE,
             .strings_at = 37, .next = 37);
    ENTRY_AT(body, 37, 37, DEPOT_WAL_END, 0);

    /* Deltas of both signs, of one and of two bytes; the bits of a signalling NaN survive. */
    used = ADDS(2, used, "01 D804 7FF0000000000001",
                .id = 6, .time = 1300, .bits = 0x7FF0000000000001u);
    ENTRY_AT(body, used, 37, DONE, .type = 2, .id = 6, .time = 1300, .bits = 0x7FF0000000000001u,
             .strings_at = 48, .next = 48);
    used = ADDS(2, used, "FE01 01 0000000000000000", .id = 134, .time = 999);
    used = ADDS(2, used, "8002 D10F 0000000000000000", .id = 135, .time = -1);
    ENTRY_AT(body, used, 48, DONE, .type = 2, .id = 134, .time = 999, .strings_at = 59, .next = 59);
    ENTRY_AT(body, used, 59, DONE, .type = 2, .id = 135, .time = -1, .strings_at = 71, .next = 71);

    /* Deltas wrap, of ids and of times: -8; the farthest id; 2^63 - 1 - 1000; -2^63 - 1000. */
    used = ADDS(2, used, "0F AEF0FFFFFFFFFFFFFF01 0000000000000000", .id = TOP, .time = INT64_MAX);
    used = ADDS(2, used, "FFFFFFFFFFFFFFFFFF01 B0F0FFFFFFFFFFFFFF01 0000000000000000",
                .id = (UINT64_C(1) << 63) + 7, .time = INT64_MIN);
    ENTRY_AT(body, used, 71, DONE, .type = 2, .id = TOP, .time = INT64_MAX,
             .strings_at = 90, .next = 90);
    ENTRY_AT(body, used, 90, DONE, .type = 2, .id = (UINT64_C(1) << 63) + 7, .time = INT64_MIN,
             .strings_at = 118, .next = 118);
    BODY_CHECK(body, used, DONE, .count = 7);

    /* A state of 17 bytes: the first id and time are there, the row is encoded against them. */
    ADDS(2, 17, "02 00 3FF0000000000000", .id = 8, .time = 1000, .bits = ONE);
    BODY_CHECK(body, 27, DONE, .count = 1);
    ENTRY_AT(body, 27, 1, DONE, .type = 2, .id = 8, .time = 1000, .bits = ONE,
             .strings_at = 27, .next = 27);
    BODY_CHECK(body, 17, DONE, .count = 0);
    ENTRY_AT(body, 17, 1, DEPOT_WAL_END, 0);
}

/* Type 3: the signed varints of FORMAT 8.3. */
static void tombstones(void)
{
    start(__LINE__, 3);
    size_t used = ADDS(3, 1, "0000000000000007 01 02", .id = 7, .time = -1, .max = 1);
    used = ADDS(3, used, "0000000000000008 7F 8001", .id = 8, .time = -64, .max = 64);
    used = ADDS(3, used, "0000000000000009 FFFFFFFFFFFFFFFFFF01 FEFFFFFFFFFFFFFFFF01",
                .id = 9, .time = INT64_MIN, .max = INT64_MAX);
    BODY_CHECK(body, used, DONE, .count = 3);
    ENTRY_AT(body, used, 1, DONE, .type = 3, .id = 7, .time = -1, .max = 1,
             .strings_at = 11, .next = 11);
    ENTRY_AT(body, used, 11, DONE, .type = 3, .id = 8, .time = -64, .max = 64,
             .strings_at = 22, .next = 22);
    ENTRY_AT(body, used, 22, DONE, .type = 3, .id = 9, .time = INT64_MIN, .max = INT64_MAX,
             .strings_at = 50, .next = 50);
}

/* Type 4. */
static void exemplars(void)
{
    static const uint64_t lengths[] = {1, 1};
    start(__LINE__, 4);
    size_t used = ADDS(4, 1, "0000000000000007 00000000000003E8 00 00 3FF0000000000000"
                             "01 01 6B 01 76",
                       .id = 7, .time = 1000, .bits = ONE,
                       .strings = "kv", .lengths = lengths, .count = 2);
    used = ADDS(4, used, "01 00 0000000000000000 00", .id = 6, .time = 1000);
    BODY_CHECK(body, used, DONE, .count = 2);
    ENTRY_AT(body, used, 1, DONE, .type = 4, .id = 7, .time = 1000, .bits = ONE,
             .strings = 2, .strings_at = 28, .next = 32);
    ENTRY_AT(body, used, 17, DONE, .type = 4, .id = 7, .time = 1000, .bits = ONE,
             .strings = 2, .strings_at = 28, .next = 32);
    ENTRY_AT(body, used, 32, DONE, .type = 4, .id = 6, .time = 1000, .strings_at = 43, .next = 43);
    STRING_AT(body, used, 28, DONE, .start = 29, .length = 1);
    STRING_AT(body, used, 30, DONE, .start = 31, .length = 1);
}

/* Type 6: the uvarints of FORMAT 8.2, as ids. */
static void metadata(void)
{
    static const uint64_t lengths[] = {4, 1};
    start(__LINE__, 6);
    size_t used = ADDS(6, 1, "AC02 01 01 04 75 6E 69 74 01 56",
                       .id = 300, .bits = 1, .strings = "unitV", .lengths = lengths, .count = 2);
    used = ADDS(6, used, "7F FF 00", .id = 127, .bits = 255);
    used = ADDS(6, used, "8001 00 00", .id = 128);
    used = ADDS(6, used, "FFFFFFFFFFFFFFFFFF01 02 00", .id = TOP, .bits = 2);
    BODY_CHECK(body, used, DONE, .count = 4);
    ENTRY_AT(body, used, 1, DONE, .type = 6, .id = 300, .bits = 1,
             .strings = 2, .strings_at = 5, .next = 12);
    ENTRY_AT(body, used, 12, DONE, .type = 6, .id = 127, .bits = 255, .strings_at = 15, .next = 15);
    ENTRY_AT(body, used, 15, DONE, .type = 6, .id = 128, .strings_at = 19, .next = 19);
    ENTRY_AT(body, used, 19, DONE, .type = 6, .id = TOP, .bits = 2, .strings_at = 31, .next = 31);
    STRING_AT(body, used, 5, DONE, .start = 6, .length = 4);
    STRING_AT(body, used, 10, DONE, .start = 11, .length = 1);
}

#define SPANS(o, n) {.offsets = o, .offsets_len = sizeof o / sizeof *o, \
                     .lengths = n, .lengths_len = sizeof n / sizeof *n}
#define BUCKETS(b) {.bits = b, .len = sizeof b / sizeof *b}

/* Type 7: numbers and lists of one and of more bytes, none at all, and the farthest of each. */
static void histograms(void)
{
    static const int32_t offsets[] = {-2, 64}, zero[] = {0}, far[] = {INT32_MAX, INT32_MIN};
    static const uint32_t lengths[] = {1, 128}, two[] = {2}, farthest[] = {UINT32_MAX, 0};
    static const uint64_t above[] = {1, TOP, 64}, below[] = {TOP - 63, 0}; /* 1, -1, 64; -64, 0 */
    static const uint64_t least[] = {UINT64_C(1) << 63}, most[] = {INT64_MAX};
    static const struct histogram some = {
        .hint = 2, .schema = 3, .threshold = ONE, .zeros = 300, .count = 5,
        .sum = 0x4008000000000000u, .positive = SPANS(offsets, lengths),
        .negative = SPANS(zero, two), .above = BUCKETS(above), .below = BUCKETS(below)};
    static const struct histogram extreme = {
        .hint = 255, .schema = INT32_MIN, .threshold = 0x7FF0000000000001u, .zeros = TOP,
        .count = UINT64_C(1) << 63, .sum = 0xFFF8000000000000u, .negative = SPANS(far, farthest),
        .above = BUCKETS(least), .below = BUCKETS(most)};
    start(__LINE__, 7);
    size_t used = ADDS(7, 1, "0000000000000007 00000000000003E8 00 00"
                             "02 06 3FF0000000000000 AC02 05 4008000000000000"
                             "02 03 01 8001 8001  01 00 02  03 02 01 8001  02 7F 00",
                       .id = 7, .time = 1000, .histogram = &some);
    CHECK(used == 58); /* 1, 18, 21, and lists of 7, 3, 5 and 3 */
    used = ADDS(7, used, "01 D804 00 00 0000000000000000 00 00 0000000000000000 00 00 00 00",
                .id = 6, .time = 1300);
    used = ADDS(7, used, "0F AEF0FFFFFFFFFFFFFF01 FF FFFFFFFF0F 7FF0000000000001"
                         "FFFFFFFFFFFFFFFFFF01 80808080808080808001 FFF8000000000000"
                         "00  02 FEFFFFFF0F FFFFFFFF0F FFFFFFFF0F 00"
                         "01 FFFFFFFFFFFFFFFFFF01  01 FEFFFFFFFFFFFFFFFF01",
                .id = TOP, .time = INT64_MAX, .histogram = &extreme);
    BODY_CHECK(body, used, DONE, .count = 3);
    /* A state of 17 bytes: against the first id and time that are there. */
    ADDS(7, 17, "02 00 00 00 0000000000000000 00 00 0000000000000000 00 00 00 00",
         .id = 8, .time = 1000);
}

/* Type 8: floats where type 7 has whole numbers; every bit of a float survives. */
static void float_histograms(void)
{
    static const int32_t offsets[] = {1};
    static const uint32_t lengths[] = {2};
    static const uint64_t above[] = {ONE, 0x7FF0000000000001u}, below[] = {UINT64_C(1) << 63};
    static const struct histogram some = {
        .hint = 1, .schema = -4, .zeros = ONE, .count = 0x4000000000000000u,
        .sum = 0xBFF0000000000000u, .positive = SPANS(offsets, lengths),
        .above = BUCKETS(above), .below = BUCKETS(below)};
    const struct entry e = {.id = 7, .time = 1000, .histogram = &some};
    start(__LINE__, 8);
    size_t used = adds(__LINE__, 8, 1,
                       "0000000000000007 00000000000003E8 00 00"
                       "01 07 0000000000000000 3FF0000000000000 4000000000000000 BFF0000000000000"
                       "01 02 02  00  02 3FF0000000000000 7FF0000000000001  01 8000000000000000",
                       &e);
    used = ADDS(8, used, "02 00 00 00 0000000000000000 0000000000000000 0000000000000000"
                         "0000000000000000 00 00 00 00",
                .id = 8, .time = 1000);
    BODY_CHECK(body, used, DONE, .count = 2);
    add_fails(__LINE__, 7, sizeof body, 8, used, &e, DEPOT_WAL_WRONG_KIND, 0);
    start(__LINE__, 7);
    add_fails(__LINE__, 8, sizeof body, 7, 1, &e, DEPOT_WAL_WRONG_KIND, 0);
}

/* Lists of more elements than a body has bytes; then the longest body of type 7. */
static void long_histograms(void)
{
    static const int32_t offsets[70000];
    static const uint32_t lengths[70000];
    static const uint64_t bits[70000];
    struct histogram h = {.below = {bits, 65537}};
    const struct entry e = {.id = 3, .histogram = &h};
    for (uint8_t kind = 7; kind <= 8; kind++) {
        start(__LINE__, kind);
        h = (struct histogram){.below = {bits, 65537}};
        add_fails(__LINE__, kind, sizeof body, kind, 1, &e, DEPOT_WAL_TOO_LONG, 1);
        h = (struct histogram){.above = {bits, 70000}};
        add_fails(__LINE__, kind, sizeof body, kind, 1, &e, DEPOT_WAL_TOO_LONG, 1);
        h = (struct histogram){.negative = {offsets, 65537, lengths, 65537}};
        add_fails(__LINE__, kind, sizeof body, kind, 1, &e, DEPOT_WAL_TOO_LONG, 1);
    }
    start(__LINE__, 7);
    /* The type; 18 bytes of the first row; 20 of the numbers; counts of 1, 1, 3 and 1 byte. */
    h = (struct histogram){.above = {bits, 65536 - 45}};
    add_fails(__LINE__, 7, 65535, 7, 1, &e, DEPOT_WAL_NO_ROOM, 1);
    CHECK(GIVES(add(7, sizeof body, 7, 1, &e), DONE, BUILT(.used = 65536)));
    h.above.len++;
    add_fails(__LINE__, 7, sizeof body, 7, 1, &e, DEPOT_WAL_TOO_LONG, 1);
}

/* The errors of the seven additions: BAD_PLACE, WRONG_KIND, BAD_LIST, TOO_LONG, NO_ROOM in this
 * order. */
static void addition_errors(void)
{
    /* lengths that do not fit the three bytes "abc" */
    static const uint64_t odd[] = {3}, less[] = {1, 1}, more[] = {2, 2}, around[] = {TOP, 4};
    static const struct entry none = {.id = 1};
    static const struct entry lists[] = {{.strings = "abc", .lengths = odd, .count = 1},
                                         {.strings = "abc", .lengths = less, .count = 2},
                                         {.strings = "abc", .lengths = more, .count = 2},
                                         {.strings = "abc", .lengths = around, .count = 2},
                                         {.strings = "abc"},
                                         {.lengths = odd, .count = 1}};
    /* spans with not as many offsets as lengths, on one side */
    static const int32_t offsets[2];
    static const uint32_t ends[2];
    static const struct histogram uneven[] = {{.positive = {offsets, 1, ends, 0}},
                                              {.positive = {offsets, 1, ends, 2}},
                                              {.negative = {offsets, 0, ends, 1}},
                                              {.negative = {offsets, 2, ends, 1}}};
    const struct entry spans[] = {{.histogram = &uneven[0]}, {.histogram = &uneven[1]},
                                  {.histogram = &uneven[2]}, {.histogram = &uneven[3]}};
    for (size_t i = 0; i < sizeof types; i++) {
        uint8_t kind = types[i], other = types[(i + 1) % sizeof types];
        int histogram = kind == DEPOT_WAL_HISTOGRAMS || kind == DEPOT_WAL_FLOAT_HISTOGRAMS;
        int rows = kind == DEPOT_WAL_SAMPLES || kind == DEPOT_WAL_EXEMPLARS || histogram;
        const struct entry *bad = histogram ? spans : lists;
        size_t bads = histogram ? 4
                      : kind == DEPOT_WAL_SAMPLES || kind == DEPOT_WAL_TOMBSTONES ? 0 : 6;
        start(__LINE__, kind);
        add_fails(__LINE__, kind, 100, kind, 0, &none, DEPOT_WAL_BAD_PLACE, 0);
        add_fails(__LINE__, kind, 100, kind, 101, &none, DEPOT_WAL_BAD_PLACE, 0);
        add_fails(__LINE__, kind, 100, kind, SIZE_MAX, &none, DEPOT_WAL_BAD_PLACE, 0);
        add_fails(__LINE__, kind, 0, kind, 1, &none, DEPOT_WAL_BAD_PLACE, 0);
        add_fails(__LINE__, kind, 100, other, 1, &none, DEPOT_WAL_BAD_PLACE, 0); /* not body[0] */
        for (size_t used = 2; used <= 16 && rows; used++)
            add_fails(__LINE__, kind, 100, kind, used, &none, DEPOT_WAL_BAD_PLACE, 0);
        body[0] = other;
        add_fails(__LINE__, kind, 1, other, 1, bad, DEPOT_WAL_WRONG_KIND, 0);
        body[0] = 9;
        add_fails(__LINE__, kind, 1, 9, 1, bad, DEPOT_WAL_WRONG_KIND, 0);
        body[0] = kind;
        for (size_t k = 0; k < bads; k++)
            add_fails(__LINE__, kind, sizeof body, kind, 65536, &bad[k], DEPOT_WAL_BAD_LIST, 0);
        add_fails(__LINE__, kind, sizeof body, kind, 65536, &none, DEPOT_WAL_TOO_LONG, 65536);
        add_fails(__LINE__, kind, 65536, kind, 65536, &none, DEPOT_WAL_TOO_LONG, 65536);
        add_fails(__LINE__, kind, sizeof body, kind, 66000, &none, DEPOT_WAL_TOO_LONG, 66000);
        add_fails(__LINE__, kind, 100, kind, 100, &none, DEPOT_WAL_NO_ROOM, 100);
        add_fails(__LINE__, kind, 1, kind, 1, &none, DEPOT_WAL_NO_ROOM, 1);
    }
}

/* A body of exactly 65,536 bytes is good, one more is not; the switch needs exactly 37. */
static void addition_limits(void)
{
    static uint8_t text[70000];
    uint64_t lengths[] = {0, 65522}; /* 1, 8, 1, 1 and 3 bytes come before it */
    struct depot_wal_built *built = &out->built;
    start(__LINE__, 1);
    CHECK(GIVES(depot_wal_add_series(body, 65535, 1, 1, 3, text, 65522, lengths, 2, built),
                DEPOT_WAL_NO_ROOM, BUILT(.used = 1, .error_at = 1)));
    CHECK(GIVES(depot_wal_add_series(body, sizeof body, 1, 1, 3, text, 65522, lengths, 2, built),
                DONE, BUILT(.used = 65536)));
    BODY_CHECK(body, 65536, DONE, .count = 1);
    STRING_AT(body, 65536, 11, DONE, .start = 14, .length = 65522);
    lengths[1] = 65523;
    CHECK(GIVES(depot_wal_add_series(body, sizeof body, 1, 1, 3, text, 65523, lengths, 2, built),
                DEPOT_WAL_TOO_LONG, BUILT(.used = 1, .error_at = 1)));

    const struct entry second = {.id = 8, .time = 1000, .bits = ONE};
    memset(body, 0xAA, sizeof body);
    put(body, switch_body);
    add_fails(__LINE__, 2, 36, 2, 27, &second, DEPOT_WAL_NO_ROOM, 27);
    adds(__LINE__, 2, 27, "02 00 3FF0000000000000", &second);
}

/* A body whose entry at `place` is an error, for the check of the whole and for the entry's own
 * call. */
static void corrupt(int line, const char *text, size_t place, depot_wal_status status, uint64_t at)
{
    uint8_t bytes[256];
    size_t n = put(bytes, text);
    check(line, GIVES(depot_wal_body_check(bytes, n, &out->count), status, COUNT(.count = at)),
          "error of the check");
    check(line, GIVES(depot_wal_entry_at(bytes, n, place, &out->entry), status, ENTRY(.type = at)),
          "error of the entry");
}

/* SHORT and BAD_VARINT, each at the first byte of its field. */
static void corrupt_bodies(void)
{
    corrupt(__LINE__, "00", 1, DEPOT_WAL_UNKNOWN_TYPE, 0);
    corrupt(__LINE__, "05 00", 1, DEPOT_WAL_UNKNOWN_TYPE, 0);
    corrupt(__LINE__, "01 00", 1, DEPOT_WAL_SHORT, 1);
    /* no byte of the label count; the second string is missing, or ends early */
    corrupt(__LINE__, "01 0000000000000005", 1, DEPOT_WAL_SHORT, 9);
    corrupt(__LINE__, "01 0000000000000005 01 01 61", 1, DEPOT_WAL_SHORT, 12);
    corrupt(__LINE__, "01 0000000000000005 01 01 61 02 62", 1, DEPOT_WAL_SHORT, 12);
    /* in the second entry; 2^63 and 2^64 - 1 labels; a string of 2^64 - 1 bytes */
    corrupt(__LINE__, "01 0000000000000005 00 00", 10, DEPOT_WAL_SHORT, 10);
    corrupt(__LINE__, "01 0000000000000005 80808080808080808001", 1, DEPOT_WAL_SHORT, 19);
    corrupt(__LINE__, "01 0000000000000005 FFFFFFFFFFFFFFFFFF01", 1, DEPOT_WAL_SHORT, 19);
    corrupt(__LINE__, "01 0000000000000005 01 FFFFFFFFFFFFFFFFFF01 61", 1, DEPOT_WAL_SHORT, 10);
    corrupt(__LINE__, "01 0000000000000005 FFFFFFFFFFFFFFFFFF02", 1, DEPOT_WAL_BAD_VARINT, 9);
    corrupt(__LINE__, "01 0000000000000005 01 80808080808080808080", 1, DEPOT_WAL_BAD_VARINT, 10);
    corrupt(__LINE__, "02 00", 1, DEPOT_WAL_SHORT, 1);
    corrupt(__LINE__, "02 0000000000000007", 1, DEPOT_WAL_SHORT, 9);
    corrupt(__LINE__, "02 0000000000000007 00000000000003", 1, DEPOT_WAL_SHORT, 9);
    corrupt(__LINE__, "02 0000000000000007 00000000000003E8 00", 1, DEPOT_WAL_SHORT, 18);
    corrupt(__LINE__, "02 0000000000000007 00000000000003E8 00 00 00", 17, DEPOT_WAL_SHORT, 19);
    corrupt(__LINE__, "02 0000000000000007 00000000000003E8 808080808080808080", 1,
            DEPOT_WAL_SHORT, 17);
    corrupt(__LINE__, "02 0000000000000007 00000000000003E8 80808080808080808002", 1,
            DEPOT_WAL_BAD_VARINT, 17);
    corrupt(__LINE__, "03 0000000000000007 01 80", 1, DEPOT_WAL_SHORT, 10);
    corrupt(__LINE__, "04 0000000000000007 00000000000003E8 00 00 0000000000000000", 1,
            DEPOT_WAL_SHORT, 27);
    corrupt(__LINE__, "06 FFFFFFFFFFFFFFFFFF7F", 1, DEPOT_WAL_BAD_VARINT, 1);
    corrupt(__LINE__, "06 07", 1, DEPOT_WAL_SHORT, 2); /* no metric type */

    size_t n = put(body, "06 80808080808080808000 01 00"); /* longer than needed is good: id 0 */
    ENTRY_AT(body, n, 1, DONE, .type = 6, .bits = 1, .strings_at = 13, .next = 13);
}

/* ---- histograms ---- */

#define HISTOGRAM_AT(bytes, len, place, status, ...)                                 \
    CHECK(GIVES(depot_wal_histogram_at(bytes, len, place, &out->histogram), status, \
                HISTOGRAM(__VA_ARGS__)))
#define SPAN_AT(bytes, len, place, status, ...) \
    CHECK(GIVES(depot_wal_span_at(bytes, len, place, &out->span), status, SPAN(__VA_ARGS__)))
#define BUCKET_AT(bytes, len, place, status, ...) \
    CHECK(GIVES(depot_wal_bucket_at(bytes, len, place, &out->bucket), status, BUCKET(__VA_ARGS__)))

/* Spans at the limits of their 32 bits, and the smallest bucket; without the type byte. */
#define HISTOGRAM_HEAD " 0000000000000007 00000000000003E8 00 00 03 69 3FF0000000000000"
#define HISTOGRAM_SPANS " 02  01 02  D804 FFFFFFFF0F  01  FFFFFFFF0F 00"
static const char whole_histogram[] = "07" HISTOGRAM_HEAD " 05 AC02 4000000000000000"
    HISTOGRAM_SPANS " 03 7F 02 FFFFFFFFFFFFFFFFFF01  00";
static const char float_histogram[] =
    "08" HISTOGRAM_HEAD " 4014000000000000 0000000000000001 4000000000000000" HISTOGRAM_SPANS
    " 01 7FF8000000000001  02 0000000000000000 FFFFFFFFFFFFFFFF";

/* Type 7: whole numbers. As an entry it is told by its sum. */
static void histograms_read(void)
{
    size_t n = put(body, whole_histogram);
    BODY_CHECK(body, n, DONE, .count = 1);
    for (size_t place = 1; place <= 17; place += 16) {
        HISTOGRAM_AT(body, n, place, DONE, .type = 7, .id = 7, .time = 1000, .hint = 3,
                     .schema = -53, .zero_threshold = ONE, .zero_count = 5, .count = 300,
                     .sum = UINT64_C(1) << 62, .positive_spans = {2, 41},
                     .negative_spans = {1, 51}, .positive_buckets = {3, 58},
                     .negative_buckets = {0, 71}, .next = 71);
        ENTRY_AT(body, n, place, DONE, .type = 7, .id = 7, .time = 1000,
                 .bits = UINT64_C(1) << 62, .strings_at = 71, .next = 71);
    }
    HISTOGRAM_AT(body, n, n, DEPOT_WAL_END, 0);
    SPAN_AT(body, n, 41, DONE, .offset = -1, .length = 2, .next = 43);
    SPAN_AT(body, n, 43, DONE, .offset = 300, .length = UINT32_MAX, .next = 50);
    SPAN_AT(body, n, 51, DONE, .offset = INT32_MIN, .length = 0, .next = 57);
    BUCKET_AT(body, n, 58, DONE, .bits = (uint64_t)-64, .next = 59);
    BUCKET_AT(body, n, 59, DONE, .bits = 1, .next = 60);
    BUCKET_AT(body, n, 60, DONE, .bits = UINT64_C(1) << 63, .next = 70);

    /* a second one: id 6 and time 999, signed deltas; every list empty */
    n += put(body + n, "01 01 00 00 0000000000000000 00 00 0000000000000000 00 00 00 00");
    BODY_CHECK(body, n, DONE, .count = 2);
    HISTOGRAM_AT(body, n, 71, DONE, .type = 7, .id = 6, .time = 999, .positive_spans = {0, 94},
                 .negative_spans = {0, 95}, .positive_buckets = {0, 96},
                 .negative_buckets = {0, 97}, .next = 97);
}

/* Type 8: floats, of which every pattern survives. */
static void float_histograms_read(void)
{
    size_t n = put(body, float_histogram);
    BODY_CHECK(body, n, DONE, .count = 1);
    HISTOGRAM_AT(body, n, 1, DONE, .type = 8, .id = 7, .time = 1000, .hint = 3, .schema = -53,
                 .zero_threshold = ONE, .zero_count = 0x4014000000000000u, .count = 1,
                 .sum = UINT64_C(1) << 62, .positive_spans = {2, 54}, .negative_spans = {1, 64},
                 .positive_buckets = {1, 71}, .negative_buckets = {2, 80}, .next = 96);
    ENTRY_AT(body, n, 17, DONE, .type = 8, .id = 7, .time = 1000, .bits = UINT64_C(1) << 62,
             .strings_at = 96, .next = 96);
    BUCKET_AT(body, n, 71, DONE, .bits = 0x7FF8000000000001u, .next = 79);
    BUCKET_AT(body, n, 88, DONE, .bits = TOP, .next = 96);
    BUCKET_AT(body, n, 89, DEPOT_WAL_SHORT, .bits = 89);
    SPAN_AT(body, n, 64, DONE, .offset = INT32_MIN, .length = 0, .next = 70);
}

/* A body whose first histogram is an error, for the check, for the entry and for its own call. */
static void corrupt_histogram(int line, const char *text, depot_wal_status status, uint64_t at)
{
    uint8_t bytes[256];
    size_t n = put(bytes, text);
    corrupt(line, text, 1, status, at);
    check(line, GIVES(depot_wal_histogram_at(bytes, n, 1, &out->histogram), status,
                      HISTOGRAM(.type = at)),
          "error of the histogram");
}

/* SHORT, BAD_VARINT and BAD_RANGE in the fields of a histogram; counts are never multiplied. */
#define FIRSTS " 0000000000000007 00000000000003E8"
static void corrupt_histograms(void)
{
    static const char numbers[] = " 0000000000000000 00 00 0000000000000000";
    char text[512];
    for (int type = 7; type <= 8; type++) {
        snprintf(text, sizeof text, "%02X 00000000000000", type);
        corrupt_histogram(__LINE__, text, DEPOT_WAL_SHORT, 1);
        snprintf(text, sizeof text, "%02X 0000000000000007 00", type);
        corrupt_histogram(__LINE__, text, DEPOT_WAL_SHORT, 9);
        snprintf(text, sizeof text, "%02X" FIRSTS " 00 00", type); /* no hint */
        corrupt_histogram(__LINE__, text, DEPOT_WAL_SHORT, 19);
        snprintf(text, sizeof text, "%02X" FIRSTS " 00 80808080808080808002", type);
        corrupt_histogram(__LINE__, text, DEPOT_WAL_BAD_VARINT, 18);
        /* schemas 2^31 and -2^31 - 1 */
        snprintf(text, sizeof text, "%02X" FIRSTS " 00 00 00 8080808010", type);
        corrupt_histogram(__LINE__, text, DEPOT_WAL_BAD_RANGE, 20);
        snprintf(text, sizeof text, "%02X" FIRSTS " 00 00 00 8180808010", type);
        corrupt_histogram(__LINE__, text, DEPOT_WAL_BAD_RANGE, 20);
    }
    /* a span's offset and length; it ends after its offset; 2^63 spans and 2^61 buckets */
    snprintf(text, sizeof text, "07" FIRSTS " 00 00 00 00%s 01 8080808010 00", numbers);
    corrupt_histogram(__LINE__, text, DEPOT_WAL_BAD_RANGE, 40);
    snprintf(text, sizeof text, "07" FIRSTS " 00 00 00 00%s 01 00 8080808010", numbers);
    corrupt_histogram(__LINE__, text, DEPOT_WAL_BAD_RANGE, 41);
    snprintf(text, sizeof text, "07" FIRSTS " 00 00 00 00%s 01 00", numbers);
    corrupt_histogram(__LINE__, text, DEPOT_WAL_SHORT, 41);
    snprintf(text, sizeof text, "07" FIRSTS " 00 00 00 00%s 80808080808080808001 00 00", numbers);
    corrupt_histogram(__LINE__, text, DEPOT_WAL_SHORT, 51);
    snprintf(text, sizeof text, "07" FIRSTS " 00 00 00 00%s 00 00 808080808080808020", numbers);
    corrupt_histogram(__LINE__, text, DEPOT_WAL_SHORT, 50);
    corrupt_histogram(__LINE__,
                      "08" FIRSTS " 00 00 00 00 0000000000000000 0000000000000000 0000000000000000"
                      " 0000000000000000 00 00 808080808080808020 0000000000000000",
                      DEPOT_WAL_SHORT, 72);
}

/* The calls for histograms alone: EMPTY_BODY, UNKNOWN_TYPE, WRONG_KIND, BAD_PLACE in this order. */
static void histogram_places(void)
{
    static const size_t bad[] = {0, 2, 16, 72, SIZE_MAX};
    size_t n = put(body, whole_histogram);
    for (size_t i = 0; i < 5; i++) {
        HISTOGRAM_AT(body, n, bad[i], DEPOT_WAL_BAD_PLACE, .type = 0);
        HISTOGRAM_AT(NULL, 0, bad[i], DEPOT_WAL_EMPTY_BODY, .type = 0);
        SPAN_AT(NULL, 0, bad[i], DEPOT_WAL_EMPTY_BODY, .offset = 0);
        BUCKET_AT(NULL, 0, bad[i], DEPOT_WAL_EMPTY_BODY, .bits = 0);
    }
    HISTOGRAM_AT(body, 16, 16, DEPOT_WAL_BAD_PLACE, .type = 0); /* not an end */
    HISTOGRAM_AT(body, 17, 17, DEPOT_WAL_END, 0);
    SPAN_AT(body, n, 0, DEPOT_WAL_BAD_PLACE, .offset = 0);
    SPAN_AT(body, n, n + 1, DEPOT_WAL_BAD_PLACE, .offset = 0);
    SPAN_AT(body, n, n, DEPOT_WAL_SHORT, .offset = 71);
    SPAN_AT(body, n, 8, DONE, .offset = -4, .length = 0, .next = 10); /* any place will do */
    BUCKET_AT(body, n, 0, DEPOT_WAL_BAD_PLACE, .bits = 0);
    BUCKET_AT(body, n, n + 1, DEPOT_WAL_BAD_PLACE, .bits = 0);
    BUCKET_AT(body, n, n, DEPOT_WAL_SHORT, .bits = 71);
    static const uint8_t others[] = {1, 2, 3, 4, 6, 5, 9};
    for (size_t i = 0; i < 7; i++) {
        depot_wal_status status = i < 5 ? DEPOT_WAL_WRONG_KIND : DEPOT_WAL_UNKNOWN_TYPE;
        body[0] = others[i];
        HISTOGRAM_AT(body, n, 0, status, .type = 0);
        SPAN_AT(body, n, 0, status, .offset = 0);
        BUCKET_AT(body, n, 0, status, .bits = 0);
    }
}

/* Places in bodies: EMPTY_BODY, UNKNOWN_TYPE, BAD_PLACE in this order; empty bodies are NULL. */
static void body_places(void)
{
    static const size_t bad[] = {0, 2, 16, 38, SIZE_MAX};
    size_t n = put(body, switch_body);
    for (size_t i = 0; i < 5; i++) {
        ENTRY_AT(body, n, bad[i], DEPOT_WAL_BAD_PLACE, .type = 0);
        ENTRY_AT(NULL, 0, bad[i], DEPOT_WAL_EMPTY_BODY, .type = 0);
        STRING_AT(NULL, 0, bad[i], DEPOT_WAL_EMPTY_BODY, .start = 0);
    }
    ENTRY_AT(body, 16, 16, DEPOT_WAL_BAD_PLACE, .type = 0); /* not an end */
    BODY_CHECK(NULL, 0, DEPOT_WAL_EMPTY_BODY, .count = 0);
    STRING_AT(body, n, 0, DEPOT_WAL_BAD_PLACE, .start = 0);
    STRING_AT(body, n, 38, DEPOT_WAL_BAD_PLACE, .start = 0);
    STRING_AT(body, n, 37, DEPOT_WAL_SHORT, .start = 37);
    STRING_AT(body, n, 8, DONE, .start = 9, .length = 7); /* any place will do: byte 8 is 7 */
    STRING_AT(body, 14, 8, DEPOT_WAL_SHORT, .start = 8);
    n = put(body, "01 80808080808080808002");
    STRING_AT(body, n, 1, DEPOT_WAL_BAD_VARINT, .start = 1);
    n = put(body, "05 01 61");
    STRING_AT(body, n, 0, DEPOT_WAL_UNKNOWN_TYPE, .start = 0); /* before BAD_PLACE */
    ENTRY_AT(body, n, 0, DEPOT_WAL_UNKNOWN_TYPE, .type = 0);
}

/* ---- replaying a log ---- */

/* The log is the first log_len bytes of `segment`; `left` is the record buffer after all its
 * records were read. */
static size_t log_len;
static uint8_t left[sizeof buffer];

static void new_log(void)
{
    log_len = 0;
    memset(left, 0x5C, sizeof left);
}

/* Adds a record of n bytes; returns its start. */
static size_t log_bytes(const uint8_t *bytes, size_t n)
{
    size_t start_at = log_len;
    CHECK(depot_wal_write(V1, segment, sizeof segment, log_len, bytes, n, &out->written) == DONE);
    memcpy(left, bytes, n);
    log_len = out->written.next;
    return start_at;
}

/* Adds a record with entries of one type. */
static size_t log_entries(uint8_t type, const struct entry *entries, size_t n)
{
    size_t used = 1;
    start(__LINE__, type);
    for (size_t i = 0; i < n; i++) {
        CHECK(add(type, sizeof body, type, used, &entries[i]) == DONE);
        used = out->built.used;
    }
    return log_bytes(body, used);
}
#define LOG(type, ...) \
    log_entries(type, (struct entry[]){__VA_ARGS__}, \
                sizeof((struct entry[]){__VA_ARGS__}) / sizeof(struct entry))

/* Replays the log by either call. The first n rows of the table are as given, the others unchanged,
 * and the buffer is as the reads left it. */
typedef depot_wal_status replayer(uint32_t, const uint8_t *, size_t, uint8_t *, size_t,
                                  struct depot_wal_series *, struct depot_wal_replayed *);

/* The good length of the log, up to the record at `at` where there is an error there: by reads. */
static struct depot_wal_good good_before(depot_wal_status status, size_t at)
{
    static uint8_t other[DEPOT_WAL_RECORD_MAX];
    struct depot_wal_good good = {0, 0}, before = good;
    struct depot_wal_record r;
    while (depot_wal_read(V1, segment, log_len, good.offset, other, sizeof other, &good, &r) ==
           DONE) {
        if (status != DONE && r.start >= at)
            return before;
        before = good;
    }
    return good;
}

static void replays_by(int line, replayer *replay, depot_wal_status status, uint64_t at,
                       uint64_t orphans, uint64_t skipped, const struct depot_wal_series *rows,
                       size_t n)
{
    static struct depot_wal_series got[DEPOT_WAL_SERIES_MAX + 1];
    memset(got, PATTERN, sizeof got);
    memset(buffer, 0x5C, sizeof buffer);
    check(line, GIVES(replay(V1, segment, log_len, buffer, sizeof buffer, got, &out->replayed),
                      status,
                      REPLAYED(.error_at = at, .series = n, .orphans = orphans,
                               .skipped = skipped, .good = good_before(status, at))),
          "replay");
    check(line, n == 0 || memcmp(got, rows, n * sizeof *rows) == 0, "the series");
    check(line, all((const uint8_t *)(got + n), sizeof got - n * sizeof *got, PATTERN),
          "the other rows are unchanged");
    check(line, memcmp(buffer, left, sizeof buffer) == 0, "the buffer is as the reads left it");
}

/* A log without unknown types: both calls do the same. */
static void replays(int line, depot_wal_status status, uint64_t at, uint64_t orphans,
                    const struct depot_wal_series *rows, size_t n)
{
    replays_by(line, depot_wal_replay, status, at, orphans, 0, rows, n);
    replays_by(line, depot_wal_replay_strict, status, at, orphans, 0, rows, n);
}
#define SERIES(...) \
    (struct depot_wal_series[]){__VA_ARGS__}, \
        sizeof((struct depot_wal_series[]){__VA_ARGS__}) / sizeof(struct depot_wal_series)

/* A report in a guarded place: what lies behind it shows if it is written. */
static struct {
    struct depot_wal_report report;
    uint64_t behind;
} night;

static void new_night(void)
{
    memset(&night, PATTERN, sizeof night);
    memset(&night.report, 0, offsetof(struct depot_wal_report, rows));
}

/* Adds the log to the report. Its first n rows are then as given, the others unchanged. */
static void reports(int line, uint32_t version, depot_wal_status status, uint64_t at,
                    uint64_t segments, const struct depot_wal_extremes *rows, size_t n)
{
    memset(buffer, 0x5C, sizeof buffer);
    check(line, GIVES(depot_wal_report_segment(version, segment, log_len, buffer, sizeof buffer,
                                               &night.report, &out->reported),
                      status, REPORTED(.error_at = at)),
          "report");
    check(line, night.report.series == n && night.report.segments == segments, "the counts");
    check(line, n == 0 || memcmp(night.report.rows, rows, n * sizeof *rows) == 0, "the series");
    check(line, all((const uint8_t *)(night.report.rows + n),
                    (DEPOT_WAL_SERIES_MAX - n) * sizeof *rows + sizeof night.behind, PATTERN),
          "the other rows are unchanged");
}
#define EXTREMES(...) \
    (struct depot_wal_extremes[]){__VA_ARGS__}, \
        sizeof((struct depot_wal_extremes[]){__VA_ARGS__}) / sizeof(struct depot_wal_extremes)

/* Rows as first met, NaN, equal readings, two segments, and what ends a report. */
static void reported_rows(void)
{
    const uint64_t one = 0x3FF0000000000000, minus_zero = 0x8000000000000000,
                   nan = 0x7FF8000000000001;
    new_night();
    new_log();
    reports(__LINE__, V1, DONE, 0, 1, NULL, 0);
    LOG(2, {.id = 8, .bits = nan}, {.id = 7, .bits = minus_zero}, {.id = 7});
    reports(__LINE__, V1, DONE, 0, 2,
            EXTREMES({.id = 8, .rows = 1, .nans = 1},
                     {.id = 7, .rows = 2, .smallest = minus_zero, .largest = minus_zero}));
    new_log();
    LOG(2, {.id = 7, .bits = one}, {.id = 8, .bits = one});
    size_t bad = log_bytes((const uint8_t[]){2, 1}, 2);
    reports(__LINE__, V1, DEPOT_WAL_SHORT, bad, 3,
            EXTREMES({.id = 8, .rows = 2, .nans = 1, .smallest = one, .largest = one},
                     {.id = 7, .rows = 3, .smallest = minus_zero, .largest = one}));
    reports(__LINE__, 3, DEPOT_WAL_BAD_NAME, 0, 4,
            EXTREMES({.id = 8, .rows = 2, .nans = 1, .smallest = one, .largest = one},
                     {.id = 7, .rows = 3, .smallest = minus_zero, .largest = one}));
    new_night();
    night.report.segments = DEPOT_WAL_NIGHT_MAX;
    reports(__LINE__, V1, DEPOT_WAL_BAD_BUFFER, 0, DEPOT_WAL_NIGHT_MAX, NULL, 0);
    reports(__LINE__, 3, DEPOT_WAL_BAD_BUFFER, 0, DEPOT_WAL_NIGHT_MAX, NULL, 0);
    CHECK(night.report.error == DEPOT_WAL_BAD_BUFFER && night.report.error_at == 0);
    new_night();
    night.report.error = 3;
    reports(__LINE__, V1, DEPOT_WAL_BAD_PLACE, 0, 0, NULL, 0);
    /* 256 ids, then a record with a known one and a 257th */
    new_night();
    new_log();
    for (uint64_t id = 0; id < 256; id++)
        LOG(2, {.id = id});
    size_t full = LOG(2, {.id = 0, .bits = one}, {.id = 256});
    CHECK(GIVES(depot_wal_report_segment(V1, segment, log_len, buffer, sizeof buffer,
                                         &night.report, &out->reported),
                DEPOT_WAL_TABLE_FULL, REPORTED(.error_at = full)));
    CHECK(night.report.series == 256 && night.report.rows[0].rows == 1 &&
          night.report.rows[0].largest == 0);
    CHECK(GIVES(depot_wal_report_segment(V1, segment, 0, buffer, sizeof buffer, &night.report,
                                         &out->reported),
                DEPOT_WAL_TABLE_FULL, REPORTED(.error_at = full)));
}

/* Rows: in the order first entered, orphans, equal, earlier and later times. */
static void replayed_rows(void)
{
    new_log();
    replays(__LINE__, DONE, 0, 0, NULL, 0);
    LOG(2, {.id = 7, .time = 1}); /* not entered yet */
    LOG(1, {.id = 8}, {.id = 7}, {.id = 8});
    replays(__LINE__, DONE, 0, 1, SERIES({.id = 8}, {.id = 7}));
    LOG(2, {.id = 7, .time = -5, .bits = 1}, {.id = 8, .time = INT64_MIN, .bits = 2},
        {.id = 9, .time = 3});
    replays(__LINE__, DONE, 0, 2, SERIES({.id = 8, .rows = 1, .time = INT64_MIN, .bits = 2},
                                         {.id = 7, .rows = 1, .time = -5, .bits = 1}));
    LOG(2, {.id = 7, .time = -5, .bits = 3}, {.id = 7, .time = -6, .bits = 4});
    LOG(1, {.id = 7}); /* a repeated id keeps its first entry */
    LOG(2, {.id = 8, .time = INT64_MAX, .bits = TOP});
    LOG(4, {.id = 7, .time = 99, .bits = 9});
    LOG(6, {.id = 7, .bits = 9});
    replays(__LINE__, DONE, 0, 2, SERIES({.id = 8, .rows = 2, .time = INT64_MAX, .bits = TOP},
                                         {.id = 7, .rows = 3, .time = -5, .bits = 1}));
}

/* Tombstones: of the latest time, of others, of none; a later row ends the deletion. */
static void replayed_tombstones(void)
{
    struct depot_wal_series row = {.id = 7, .rows = 1, .time = -5, .bits = 1};
    new_log();
    LOG(1, {.id = 7}, {.id = 8});
    LOG(3, {.id = 7, .time = INT64_MIN, .max = INT64_MAX}); /* without rows */
    LOG(2, {.id = 7, .time = -5, .bits = 1});
    LOG(3, {.id = 7, .time = -4, .max = 9}, {.id = 7, .time = -9, .max = -6},
        {.id = 7, .time = -4, .max = -6}, {.id = 9, .time = -9, .max = 9});
    replays(__LINE__, DONE, 0, 0, SERIES(row, {.id = 8}));
    LOG(3, {.id = 7, .time = -5, .max = -5});
    row.deleted = 1;
    replays(__LINE__, DONE, 0, 0, SERIES(row, {.id = 8}));
    LOG(2, {.id = 7, .time = -5, .bits = 2}); /* counted only */
    row.rows = 2;
    replays(__LINE__, DONE, 0, 0, SERIES(row, {.id = 8}));
    LOG(2, {.id = 7, .time = -4, .bits = 3});
    replays(__LINE__, DONE, 0, 0,
            SERIES({.id = 7, .rows = 3, .time = -4, .bits = 3}, {.id = 8}));
}

/* 256 series fill the table; a record that brings one more is refused whole. */
/* Histograms change nothing, and are no unknown type; a refused one stops the replay. */
static void replayed_histograms(void)
{
    uint8_t bytes[128];
    new_log();
    LOG(1, {.id = 7});
    LOG(2, {.id = 7, .time = 1, .bits = 5});
    log_bytes(bytes, put(bytes, whole_histogram));
    log_bytes(bytes, put(bytes, float_histogram));
    replays(__LINE__, DONE, 0, 0, SERIES({.id = 7, .rows = 1, .time = 1, .bits = 5}));
    size_t at = log_bytes(bytes, put(bytes, "07" FIRSTS " 00 00 00 8080808010"));
    replays(__LINE__, DEPOT_WAL_BAD_RANGE, at, 0,
            SERIES({.id = 7, .rows = 1, .time = 1, .bits = 5}));
}

static void replayed_limit(void)
{
    static struct entry many[DEPOT_WAL_SERIES_MAX + 1];
    static struct depot_wal_series rows[DEPOT_WAL_SERIES_MAX];
    for (size_t i = 0; i <= DEPOT_WAL_SERIES_MAX; i++)
        many[i].id = i << 12; /* the low bits tell none from another */
    for (size_t i = 0; i < DEPOT_WAL_SERIES_MAX; i++)
        rows[i].id = i << 12;
    new_log();
    log_entries(1, many, DEPOT_WAL_SERIES_MAX + 1);
    replays(__LINE__, DEPOT_WAL_TABLE_FULL, 0, 0, NULL, 0);
    new_log();
    log_entries(1, many, DEPOT_WAL_SERIES_MAX - 1);
    size_t at = log_entries(1, many + DEPOT_WAL_SERIES_MAX - 2, 3);
    replays(__LINE__, DEPOT_WAL_TABLE_FULL, at, 0, rows, DEPOT_WAL_SERIES_MAX - 1);
    log_len = at;
    log_entries(1, many, DEPOT_WAL_SERIES_MAX);
    LOG(2, {.id = 255 << 12, .time = 1, .bits = ONE}, {.id = 1});
    rows[255].rows = 1;
    rows[255].time = 1;
    rows[255].bits = ONE;
    replays(__LINE__, DONE, 0, 1, rows, DEPOT_WAL_SERIES_MAX);
    at = log_entries(1, &(struct entry){.id = 1}, 1);
    replays(__LINE__, DEPOT_WAL_TABLE_FULL, at, 1, rows, DEPOT_WAL_SERIES_MAX);
}

/* Records of unknown types: skipped and counted, or the end of a strict replay. */
static void replayed_unknown(void)
{
    uint8_t bytes[8];
    new_log();
    LOG(1, {.id = 7});
    size_t at = log_bytes(bytes, put(bytes, "05"));
    static uint8_t stopped[sizeof left]; /* a strict replay reads no further */
    memcpy(stopped, left, sizeof left);
    LOG(2, {.id = 7, .time = 1, .bits = 2}, {.id = 8, .time = 1});
    log_bytes(bytes, put(bytes, "C8 01 02"));
    log_bytes(bytes, put(bytes, "00 FF"));
    replays_by(__LINE__, depot_wal_replay, DONE, 0, 1, 3,
               SERIES({.id = 7, .rows = 1, .time = 1, .bits = 2}));
    /* any other body that cannot be read still stops it, with the records skipped before */
    size_t bad = log_bytes(bytes, put(bytes, "02 00"));
    log_bytes(bytes, put(bytes, "05"));
    memcpy(left, (uint8_t[]){0x02, 0x00}, 2);
    replays_by(__LINE__, depot_wal_replay, DEPOT_WAL_SHORT, bad, 1, 3,
               SERIES({.id = 7, .rows = 1, .time = 1, .bits = 2}));
    memcpy(left, stopped, sizeof left);
    replays_by(__LINE__, depot_wal_replay_strict, DEPOT_WAL_UNKNOWN_TYPE, at, 0, 0,
               SERIES({.id = 7}));
}

/* What stops a replay: the records before stand, and nothing of the one at fault. */
static void replay_errors(void)
{
    static const struct {
        const char *body;
        depot_wal_status status;
    } faults[] = {{"01 0000000000000009 00  00", DEPOT_WAL_SHORT},
                  {"06 FFFFFFFFFFFFFFFFFF02", DEPOT_WAL_BAD_VARINT}};
    static struct depot_wal_series rows[DEPOT_WAL_SERIES_MAX];
    uint8_t bytes[64];
    for (size_t i = 0; i < sizeof faults / sizeof *faults; i++) {
        new_log();
        LOG(1, {.id = 7});
        size_t at = log_bytes(bytes, put(bytes, faults[i].body));
        replays(__LINE__, faults[i].status, at, 0, SERIES({.id = 7}));
        static uint8_t stopped[sizeof left]; /* what comes after is not read */
        memcpy(stopped, left, sizeof left);
        LOG(1, {.id = 8});
        memcpy(left, stopped, sizeof left);
        replays(__LINE__, faults[i].status, at, 0, SERIES({.id = 7}));
    }

    /* The reading's own errors, at their own place; the record in error is not in the buffer. */
    new_log();
    LOG(1, {.id = 7});
    static uint8_t stopped[sizeof left];
    memcpy(stopped, left, sizeof left);
    size_t at = LOG(1, {.id = 8});
    memcpy(left, stopped, sizeof left);
    log_len--;
    replays(__LINE__, DEPOT_WAL_TORN, at, 0, SERIES({.id = 7}));
    log_len++;
    segment[log_len - 1] ^= 1;
    replays(__LINE__, DEPOT_WAL_BAD_SUM, at, 0, SERIES({.id = 7}));
    put(segment + at, "01 00 00");
    replays(__LINE__, DEPOT_WAL_HOLLOW, at, 0, SERIES({.id = 7}));

    /* BAD_BUFFER, before all else. */
    memset(rows, PATTERN, sizeof rows);
    memset(buffer, 0x5C, sizeof buffer);
    CHECK(GIVES(depot_wal_replay(V1, segment, log_len, buffer, DEPOT_WAL_RECORD_MAX - 1, rows,
                                 &out->replayed),
                DEPOT_WAL_BAD_BUFFER, REPLAYED(.error_at = 0)));
    CHECK(GIVES(depot_wal_replay(V1, huge, LIMIT + 1, buffer, sizeof buffer, rows, &out->replayed),
                DEPOT_WAL_BAD_BUFFER, REPLAYED(.error_at = 0)));
    CHECK(GIVES(depot_wal_replay(V1, NULL, 0, NULL, 0, rows, &out->replayed), DEPOT_WAL_BAD_BUFFER,
                REPLAYED(.error_at = 0)));
    CHECK(GIVES(depot_wal_replay_strict(V1, segment, log_len, buffer, DEPOT_WAL_RECORD_MAX - 1,
                                        rows, &out->replayed),
                DEPOT_WAL_BAD_BUFFER, REPLAYED(.error_at = 0)));
    CHECK(all((const uint8_t *)rows, sizeof rows, PATTERN));
    CHECK(all(buffer, sizeof buffer, 0x5C));
}

/* ---- a checkpoint ---- */

/* What the calls are lent lies between guards: the target, and two work buffers of a few bytes more
 * than they need. */
enum { GUARD = 16, WORK = DEPOT_WAL_RECORD_MAX + 5 };
static uint8_t targets[GUARD + 3 * PAGE + GUARD], works[2][GUARD + WORK + GUARD];
static uint8_t *const target = targets + GUARD;
static uint8_t wanted[3 * PAGE]; /* what should stand in the target */
static size_t wanted_len;

/* The log so far is what should come out; a new one is begun. */
static void want_log(void)
{
    memcpy(wanted, segment, log_len);
    wanted_len = log_len;
    new_log();
}

/* A log in version 2 instead of 1; records of one fragment. */
static size_t as_version_2(uint8_t *bytes, size_t len)
{
    struct depot_wal_good good = {0, 0};
    struct depot_wal_record r;
    while (depot_wal_read(V1, bytes, len, good.offset, buffer, sizeof buffer, &good, &r) == DONE) {
        memcpy(record, buffer, r.length);
        CHECK(depot_wal_write(V2, bytes, sizeof segment, r.start, record, r.length,
                              &out->written) == DONE);
    }
    return good.offset;
}

static void lend(void)
{
    memset(targets, 0xC3, sizeof targets);
    memset(works, 0x5C, sizeof works);
}

static depot_wal_status checkpoint(uint32_t version, const uint64_t *ids, size_t n, int64_t time,
                                   size_t len)
{
    return depot_wal_checkpoint(version, segment, log_len, ids, n, time, target, len,
                                works[0] + GUARD, WORK, works[1] + GUARD, WORK,
                                &out->checkpointed);
}

/* Both work buffers are zero, or as they were, and nothing around them changes. */
static int works_are(uint8_t value)
{
    int good = 1;
    for (int i = 0; i < 2; i++)
        good = good && all(works[i], GUARD, 0x5C) && all(works[i] + GUARD, WORK, value) &&
               all(works[i] + GUARD + WORK, GUARD, 0x5C);
    return good;
}

/* The target has the first n bytes of `wanted`, and everything behind them is unchanged. */
static int target_has(size_t n)
{
    return all(targets, GUARD, 0xC3) && memcmp(target, wanted, n) == 0 &&
           all(target + n, sizeof targets - GUARD - n, 0xC3);
}

/* Checkpoints the log into a target of `len` bytes. What should come out stands before `next`. */
static void checkpoints(int line, uint32_t version, const uint64_t *ids, size_t n, int64_t time,
                        size_t len, depot_wal_status status, uint64_t next, uint64_t at)
{
    static uint8_t before[sizeof segment];
    memcpy(before, segment, sizeof segment);
    lend();
    check(line, GIVES(checkpoint(version, ids, n, time, len), status,
                      CHECKPOINTED(.next = next, .error_at = at)),
          "checkpoint");
    check(line, target_has(next), "what is kept stands in the target, and nothing else");
    check(line, works_are(0), "both work buffers are zero");
    check(line, memcmp(segment, before, sizeof segment) == 0, "the source is only read");
}

static const uint64_t kept_ids[] = {9, 7, 9}; /* in any order, and twice */
static const uint64_t pair_of_lengths[] = {1, 2};

/* Entries of every type that are kept, in `kept_ids` at or after 100. */
static void log_kept(void)
{
    LOG(1, {.id = 7, .strings = "abb", .lengths = pair_of_lengths, .count = 2}, {.id = 9});
    LOG(2, {.id = 9, .time = 100, .bits = ONE}, {.id = 7, .time = INT64_MAX, .bits = TOP},
        {.id = 9, .time = 101});
    LOG(3, {.id = 7, .time = 200, .max = 100}, {.id = 9, .time = INT64_MIN, .max = INT64_MAX});
    LOG(4, {.id = 7, .time = 100, .bits = 3, .strings = "cdd", .lengths = pair_of_lengths,
            .count = 2},
        {.id = 7, .time = 105});
    LOG(6, {.id = 9, .bits = 2, .strings = "eff", .lengths = pair_of_lengths, .count = 2});
    LOG(7, {.id = 9, .time = 100}, {.id = 7, .time = 300});
    LOG(8, {.id = 7, .time = 100}, {.id = 9, .time = 102});
}

/* The same among entries that are not kept, and records of which nothing is. */
static void log_more(void)
{
    uint8_t bytes[16];
    LOG(1, {.id = 8}, {.id = 7, .strings = "abb", .lengths = pair_of_lengths, .count = 2},
        {.id = 9}, {.id = 10, .strings = "xyy", .lengths = pair_of_lengths, .count = 2});
    LOG(1, {.id = 8});
    log_bytes(bytes, put(bytes, "05 07")); /* an unknown type */
    LOG(2, {.id = 7, .time = 99}, {.id = 9, .time = 100, .bits = ONE}, {.id = 8, .time = 100},
        {.id = 7, .time = INT64_MAX, .bits = TOP}, {.id = 7, .time = INT64_MIN},
        {.id = 9, .time = 101});
    LOG(2, {.id = 7, .time = 99}, {.id = 8, .time = 100}, {.id = TOP, .time = 100});
    LOG(3, {.id = 7, .time = 200, .max = 100}, {.id = 8, .time = 0, .max = INT64_MAX},
        {.id = 7, .time = 0, .max = 99}, {.id = 9, .time = INT64_MIN, .max = INT64_MAX});
    log_bytes(bytes, put(bytes, "02")); /* without entries */
    LOG(4, {.id = 8, .time = 100, .strings = "xyy", .lengths = pair_of_lengths, .count = 2},
        {.id = 7, .time = 100, .bits = 3, .strings = "cdd", .lengths = pair_of_lengths, .count = 2},
        {.id = 7, .time = 99}, {.id = 7, .time = 105});
    LOG(6, {.id = 8}, {.id = 9, .bits = 2, .strings = "eff", .lengths = pair_of_lengths,
                       .count = 2});
    LOG(7, {.id = 9, .time = -100}, {.id = 9, .time = 100}, {.id = 8, .time = 100},
        {.id = 7, .time = 300});
    LOG(8, {.id = 7, .time = 100}, {.id = 8, .time = 100}, {.id = 9, .time = 102});
    LOG(8, {.id = 8, .time = 100});
}

/* Every type, in both versions; then a checkpoint of the checkpoint, and one that keeps nothing. */
static void checkpoint_types(void)
{
    static const uint64_t ascending[] = {0, 7, 9, 9, TOP - 1}, others[] = {0, 6, 11, TOP - 1};
    for (uint32_t version = V1; version <= V2; version++) {
        new_log();
        log_kept();
        want_log();
        log_more();
        if (version == V2) {
            wanted_len = as_version_2(wanted, wanted_len);
            log_len = as_version_2(segment, log_len);
        }
        for (size_t pages = 1; pages <= 3; pages++) {
            checkpoints(__LINE__, version, kept_ids, 3, 100, pages * PAGE, DONE, wanted_len, 0);
            checkpoints(__LINE__, version, ascending, 5, 100, pages * PAGE, DONE, wanted_len, 0);
        }
        checkpoints(__LINE__, version, others, 4, INT64_MIN, PAGE, DONE, 0, 0);
        checkpoints(__LINE__, version, NULL, 0, INT64_MIN, PAGE, DONE, 0, 0);
        checkpoints(__LINE__, version == V1 ? V2 : V1, kept_ids, 3, 100, PAGE, DEPOT_WAL_BAD_SUM,
                    0, 0);
        memcpy(segment, wanted, wanted_len);
        log_len = wanted_len;
        checkpoints(__LINE__, version, kept_ids, 3, 100, PAGE, DONE, wanted_len, 0);
        checkpoints(__LINE__, version, kept_ids, 3, INT64_MIN, PAGE, DONE, wanted_len, 0);
        log_len = 0;
        checkpoints(__LINE__, version, kept_ids, 3, 100, PAGE, DONE, 0, 0);
    }
}

/* Rebuilt: the first id and time are those of the first kept row; varints are as short as can be. */
static void checkpoint_rebuilds(void)
{
    uint8_t bytes[64];
    new_log();
    LOG(2, {.id = 7, .time = 100, .bits = ONE}, {.id = 9, .time = 101, .bits = 1});
    LOG(1, {.id = 9, .strings = "abb", .lengths = pair_of_lengths, .count = 2});
    want_log();
    /* id 5 and time 90 in front, the rows 7 and 9 at 100 and 101; a delta of two bytes for 2 */
    log_bytes(bytes, put(bytes, "02 0000000000000005 000000000000005A 8400 14 3FF0000000000000"
                                "08 16 0000000000000001"));
    /* lengths in two and three bytes */
    log_bytes(bytes, put(bytes, "01 0000000000000009 8100 8100 61 828000 6262"));
    checkpoints(__LINE__, V1, kept_ids, 3, 0, PAGE, DONE, wanted_len, 0);
}

/* The longest series of the tests: n bytes as a body. */
static size_t log_long(uint64_t id, size_t n)
{
    static char text[DEPOT_WAL_RECORD_MAX];
    uint64_t lengths[] = {1, n - 15}; /* tag, id, count, length and byte, length in three bytes */
    memset(text, 'x', n - 14);
    text[n - 14] = 0;
    return LOG(1, {.id = id, .strings = text, .lengths = lengths, .count = 2});
}

/* NO_ROOM at the first, second and third record that is kept: those before it stand. */
static void checkpoint_no_room(void)
{
    size_t at[4];
    new_log();
    log_long(7, 20000);
    log_long(9, 20000);
    log_long(7, 40000);
    want_log();
    at[0] = log_long(8, 18000); /* not kept */
    at[1] = log_long(7, 20000);
    checkpoints(__LINE__, V1, kept_ids, 3, 0, PAGE, DONE, 20007, 0);
    at[2] = log_long(9, 20000);
    checkpoints(__LINE__, V1, kept_ids, 3, 0, PAGE, DEPOT_WAL_NO_ROOM, 20007, at[2]);
    checkpoints(__LINE__, V1, kept_ids, 3, 0, 2 * PAGE, DONE, 40021, 0);
    new_log();
    log_long(7, 20000);
    log_long(9, 20000);
    at[3] = log_long(7, 40000);
    checkpoints(__LINE__, V1, kept_ids, 3, 0, PAGE, DEPOT_WAL_NO_ROOM, 20007, 20007);
    checkpoints(__LINE__, V1, kept_ids, 3, 0, 2 * PAGE, DEPOT_WAL_NO_ROOM, 40021, at[3]);
    checkpoints(__LINE__, V1, kept_ids, 3, 0, 3 * PAGE, DONE, wanted_len, 0);
    checkpoints(__LINE__, V1, kept_ids + 1, 1, 0, PAGE, DEPOT_WAL_NO_ROOM, 20007, at[3]);

    /* A full page, and one with 6 bytes left, which are filled with zeros. */
    for (size_t n = 32755; n <= 32761; n += 6) {
        new_log();
        log_long(7, n);
        want_log();
        log_long(7, n);
        size_t second = LOG(1, {.id = 7});
        checkpoints(__LINE__, V1, kept_ids, 3, 0, PAGE, DEPOT_WAL_NO_ROOM, PAGE, second);
    }
    /* At the first record. */
    new_log();
    log_long(7, 40000);
    checkpoints(__LINE__, V1, kept_ids, 3, 0, PAGE, DEPOT_WAL_NO_ROOM, 0, 0);
}

/* Without its first row this record is nearly twice as long: the ids are then far from the first. */
static size_t log_growing(size_t rows)
{
    size_t used = 1;
    start(__LINE__, 2);
    for (size_t i = 0; i < rows; i++) {
        struct entry e = {.id = i == 0 ? 8 : i == 1 ? 9 : 7};
        e.id += i == 1 ? UINT64_C(1) << 62 : 0;
        CHECK(add(2, sizeof body, 2, used, &e) == DONE);
        used = out->built.used;
    }
    return log_bytes(body, used);
}

/* TOO_LONG: above 65,536 bytes; before NO_ROOM of the same record, after that of one before it. */
static void checkpoint_too_long(void)
{
    static const uint64_t far[] = {7, (UINT64_C(1) << 62) + 9};
    new_log();
    LOG(1, {.id = 7});
    want_log();
    LOG(1, {.id = 7});
    size_t at = log_growing(5000);
    checkpoints(__LINE__, V1, far, 2, 0, PAGE, DEPOT_WAL_TOO_LONG, wanted_len, at);
    checkpoints(__LINE__, V1, far, 2, 0, 3 * PAGE, DEPOT_WAL_TOO_LONG, wanted_len, at);
    LOG(2, {.id = 8});
    checkpoints(__LINE__, V1, far, 2, 0, PAGE, DEPOT_WAL_TOO_LONG, wanted_len, at);

    /* 3,447 rows behind the first that is kept: 17 bytes in front, 10 of that row, and 19 of each
     * other, whose id has a delta of 10 bytes. That is 65,520, and one row more is too long. The two
     * fragments leave 2 bytes of a page. */
    new_log();
    at = log_growing(3449);
    checkpoints(__LINE__, V1, far, 2, 0, PAGE, DEPOT_WAL_NO_ROOM, 0, at);
    lend();
    CHECK(GIVES(checkpoint(V1, far, 2, 0, 2 * PAGE), DONE, CHECKPOINTED(.next = 2 * PAGE)));
    CHECK(same(target, 3, "02 7F F9") && same(target + PAGE, 3, "04 7F F7"));
    CHECK(same(target + 2 * PAGE - 2, 4, "00 00 C3 C3") && works_are(0));
    new_log();
    at = log_growing(3450);
    checkpoints(__LINE__, V1, far, 2, 0, 2 * PAGE, DEPOT_WAL_TOO_LONG, 0, at);

    /* NO_ROOM at the second record comes before TOO_LONG at the fourth. */
    new_log();
    log_long(7, 20000);
    want_log();
    log_long(7, 20000);
    at = log_long(7, 20000);
    log_growing(3450);
    checkpoints(__LINE__, V1, far, 2, 0, PAGE, DEPOT_WAL_NO_ROOM, 20007, at);
}

/* A source that is refused, torn, or holds a refused body: the first of these, and nothing is
 * written. */
static void checkpoint_refuses(void)
{
    static const struct {
        const char *body;
        depot_wal_status status;
    } faults[] = {{"01 0000000000000009 00  00", DEPOT_WAL_SHORT},
                  {"06 FFFFFFFFFFFFFFFFFF02", DEPOT_WAL_BAD_VARINT},
                  {"02 00", DEPOT_WAL_SHORT}};
    uint8_t bytes[64];
    for (size_t i = 0; i < sizeof faults / sizeof *faults; i++) {
        new_log();
        log_kept();
        size_t at = log_bytes(bytes, put(bytes, faults[i].body));
        checkpoints(__LINE__, V1, kept_ids, 3, 100, PAGE, faults[i].status, 0, at);
        checkpoints(__LINE__, V1, NULL, 0, 100, PAGE, faults[i].status, 0, at);
        log_bytes(bytes, put(bytes, faults[1 - i % 2].body)); /* the first along the source counts */
        log_len--;
        checkpoints(__LINE__, V1, kept_ids, 3, 100, PAGE, faults[i].status, 0, at);
    }
    new_log();
    log_kept();
    size_t at = LOG(1, {.id = 8});
    for (size_t cut = at + 1; cut < log_len; cut++) {
        size_t len = log_len;
        log_len = cut;
        checkpoints(__LINE__, V1, kept_ids, 3, 100, PAGE, DEPOT_WAL_TORN, 0, at);
        log_len = len;
    }
    segment[log_len - 1] ^= 1;
    checkpoints(__LINE__, V1, kept_ids, 3, 100, PAGE, DEPOT_WAL_BAD_SUM, 0, at);
    put(segment + at, "01 00 00");
    checkpoints(__LINE__, V1, kept_ids, 3, 100, PAGE, DEPOT_WAL_HOLLOW, 0, at);
}

/* Lengths of the work buffers: the call, what becomes of them, and that the target is unchanged. */
static void checkpoint_work(uint32_t version, size_t work_len, size_t body_len,
                            depot_wal_status status)
{
    uint8_t *work = works[0] + GUARD, *made = works[1] + GUARD;
    int full = work_len >= DEPOT_WAL_RECORD_MAX && body_len >= DEPOT_WAL_RECORD_MAX;
    uint8_t value = full ? 0 : 0x5C;
    lend();
    CHECK(GIVES(depot_wal_checkpoint(version, segment, log_len, kept_ids, 3, 100, target, PAGE,
                                     work_len ? work : NULL, work_len, body_len ? made : NULL,
                                     body_len, &out->checkpointed),
                status, CHECKPOINTED(.next = status == DONE ? wanted_len : 0)));
    CHECK(target_has(status == DONE ? wanted_len : 0));
    CHECK(all(work, work_len, value) && all(work + work_len, WORK + GUARD - work_len, 0x5C));
    CHECK(all(made, body_len, value) && all(made + body_len, WORK + GUARD - body_len, 0x5C));
    CHECK(all(works[0], GUARD, 0x5C) && all(works[1], GUARD, 0x5C));
}

static void checkpoint_lengths(void)
{
    static const size_t lengths[] = {0, 1, 65535, 65536, 65537, WORK};
    static const size_t bad[] = {0, 1, PAGE - 1, PAGE + 1, 3 * PAGE - 1};
    new_log();
    log_kept();
    want_log();
    log_more();
    for (size_t i = 0; i < sizeof lengths / sizeof *lengths; i++) {
        for (size_t k = 0; k < sizeof lengths / sizeof *lengths; k++) {
            int full = lengths[i] >= 65536 && lengths[k] >= 65536;
            checkpoint_work(V1, lengths[i], lengths[k], full ? DONE : DEPOT_WAL_BAD_BUFFER);
            checkpoint_work(V2, lengths[i], lengths[k],
                            full ? DEPOT_WAL_BAD_SUM : DEPOT_WAL_BAD_BUFFER);
            checkpoint_work(0, lengths[i], lengths[k], DEPOT_WAL_BAD_NAME);
            checkpoint_work(3, lengths[i], lengths[k], DEPOT_WAL_BAD_NAME);
        }
    }
    for (size_t i = 0; i < sizeof bad / sizeof *bad; i++) {
        checkpoints(__LINE__, V1, kept_ids, 3, 100, bad[i], DEPOT_WAL_BAD_BUFFER, 0, 0);
        checkpoints(__LINE__, UINT32_MAX, kept_ids, 3, 100, bad[i], DEPOT_WAL_BAD_NAME, 0, 0);
    }
    lend();
    CHECK(GIVES(depot_wal_checkpoint(V1, segment, log_len, kept_ids, 3, 100, huge, LIMIT + PAGE,
                                     works[0] + GUARD, WORK, works[1] + GUARD, WORK,
                                     &out->checkpointed),
                DEPOT_WAL_BAD_BUFFER, CHECKPOINTED(.next = 0)));
    CHECK(works_are(0));
    lend();
    CHECK(GIVES(depot_wal_checkpoint(V1, huge, LIMIT + 1, kept_ids, 3, 100, target, PAGE,
                                     works[0] + GUARD, WORK, works[1] + GUARD, WORK,
                                     &out->checkpointed),
                DEPOT_WAL_BAD_BUFFER, CHECKPOINTED(.next = 0)));
    CHECK(works_are(0) && target_has(0));
}

/* ---- the index ---- */

static uint8_t index_file[64];

/* Building gives this index and leaves the rest of the buffer; checking accepts it. */
static void indexes(int line, size_t len, size_t records, const char *text)
{
    size_t n = DEPOT_WAL_INDEX_HEAD + DEPOT_WAL_INDEX_ROW * records;
    memset(index_file, 0x5C, sizeof index_file);
    check(line, GIVES(depot_wal_index_build(V1, segment, len, index_file, n, &out->indexed), DONE,
                      INDEXED(.used = n)), "built");
    check(line, same(index_file, n, text), "its bytes");
    check(line, all(index_file + n, sizeof index_file - n, 0x5C), "the rest");
    check(line, GIVES(depot_wal_index_check(V1, segment, len, index_file, n, &out->count), DONE,
                      COUNT(.count = records)), "checked");
    check(line, GIVES(depot_wal_index_build(V1, segment, len, index_file, n - 1, &out->indexed),
                      DEPOT_WAL_NO_ROOM, INDEXED(.used = 0)), "a byte too short");
    check(line, same(index_file, n, text), "unchanged");
}

/* The index of the first n bytes is not accepted, and not extended. */
static void index_refused(int line, size_t len, size_t n)
{
    uint8_t before[sizeof index_file];
    memcpy(before, index_file, sizeof before);
    check(line, GIVES(depot_wal_index_check(V1, segment, len, index_file, n, &out->count),
                      DEPOT_WAL_BAD_INDEX, COUNT(.count = 0)), "not accepted");
    check(line, GIVES(depot_wal_index_extend(V1, segment, len, index_file, n, n, &out->indexed),
                      DEPOT_WAL_BAD_INDEX, INDEXED(.used = n)), "not extended");
    check(line, memcmp(before, index_file, sizeof before) == 0, "unchanged");
}

/* Three records: 10 bytes at 0, one byte at 17, two at 25. */
static void three_records(void)
{
    static const size_t lengths[] = {10, 1, 2}, places[] = {0, 17, 25};
    memset(segment, 0, sizeof segment);
    memset(record, 0x42, sizeof record);
    for (int i = 0; i < 3; i++)
        CHECK(GIVES(depot_wal_write(V1, segment, PAGE, places[i], record, lengths[i],
                                    &out->written),
                    DONE, WRITTEN(.next = places[i] + 7 + lengths[i])));
}

/* Built, torn, grown and extended. */
static void index_built(void)
{
    three_records();
    indexes(__LINE__, 0, 0, "00000000 0000000C 00000000");
    indexes(__LINE__, 16, 0, "00000000 0000000C 00000010"); /* the first record is torn */
    indexes(__LINE__, 17, 1, "00000001 0000000C 00000011 00000000 0000000A");
    indexes(__LINE__, 34, 3, "00000003 0000000C 00000022 00000000 0000000A 00000011 00000001"
                             "00000019 00000002");
    /* the zeros to the page's end are covered too */
    indexes(__LINE__, PAGE, 3, "00000003 0000000C 00008000 00000000 0000000A 00000011 00000001"
                               "00000019 00000002");
    segment[32] ^= 1; /* the third record is corrupt, and not listed */
    indexes(__LINE__, 34, 2, "00000002 0000000C 00000022 00000000 0000000A 00000011 00000001");
    segment[32] ^= 1;

    /* the index of 26 bytes, in which the third record is torn, extended to all of them */
    const char *whole = "00000003 0000000C 00000022 00000000 0000000A 00000011 00000001"
                        "00000019 00000002";
    indexes(__LINE__, 26, 2, "00000002 0000000C 0000001A 00000000 0000000A 00000011 00000001");
    CHECK(GIVES(depot_wal_index_check(V1, segment, 34, index_file, 28, &out->count), DONE,
                COUNT(.count = 2)));
    CHECK(GIVES(depot_wal_index_extend(V1, segment, 34, index_file, 35, 28, &out->indexed),
                DEPOT_WAL_NO_ROOM, INDEXED(.used = 28)));
    CHECK(same(index_file, 28, "00000002 0000000C 0000001A 00000000 0000000A 00000011 00000001"));
    CHECK(GIVES(depot_wal_index_extend(V1, segment, 34, index_file, sizeof index_file, 28,
                                       &out->indexed), DONE, INDEXED(.used = 36)));
    CHECK(same(index_file, 36, whole));
    CHECK(all(index_file + 36, sizeof index_file - 36, 0x5C));
    /* once more, with nothing new; and an empty one */
    CHECK(GIVES(depot_wal_index_extend(V1, segment, 34, index_file, 36, 36, &out->indexed), DONE,
                INDEXED(.used = 36)));
    CHECK(same(index_file, 36, whole));
    indexes(__LINE__, 5, 0, "00000000 0000000C 00000005");
    CHECK(GIVES(depot_wal_index_extend(V1, segment, 34, index_file, 64, 12, &out->indexed), DONE,
                INDEXED(.used = 36)));
    CHECK(same(index_file, 36, whole));
}

/* Every byte of an index matters, and its length; and so does every byte that it covers. */
static void index_damaged(void)
{
    three_records();
    indexes(__LINE__, 34, 3, "00000003 0000000C 00000022 00000000 0000000A 00000011 00000001"
                             "00000019 00000002");
    for (size_t i = 0; i < 36; i++) {
        index_file[i] ^= 1;
        index_refused(__LINE__, 34, 36);
        index_file[i] ^= 1;
    }
    index_refused(__LINE__, 33, 36); /* covers more than the segment */
    index_refused(__LINE__, 34, 35);
    index_refused(__LINE__, 34, 37);
    index_refused(__LINE__, 34, 11);
    index_refused(__LINE__, 34, 0);
    segment[0] = 2;
    index_refused(__LINE__, 34, 36);
    segment[0] = 1;
    CHECK(GIVES(depot_wal_index_extend(V1, segment, 34, index_file, 36, 37, &out->indexed),
                DEPOT_WAL_BAD_INDEX, INDEXED(.used = 37)));
    CHECK(GIVES(depot_wal_index_build(V1, huge, LIMIT + 1, index_file, 12, &out->indexed),
                DEPOT_WAL_BAD_BUFFER, INDEXED(.used = 0)));
    CHECK(GIVES(depot_wal_index_check(V1, huge, LIMIT + 1, index_file, 11, &out->count),
                DEPOT_WAL_BAD_BUFFER, COUNT(.count = 0)));
    CHECK(GIVES(depot_wal_index_extend(V1, huge, LIMIT + 1, index_file, 36, 37, &out->indexed),
                DEPOT_WAL_BAD_BUFFER, INDEXED(.used = 37)));
    CHECK(GIVES(depot_wal_index_check(V1, segment, 34, NULL, 0, &out->count), DEPOT_WAL_BAD_INDEX,
                COUNT(.count = 0)));
}

/* A record by its number, and read at the start that the index gives. */
static void index_looked_up(void)
{
    three_records();
    indexes(__LINE__, 34, 3, "00000003 0000000C 00000022 00000000 0000000A 00000011 00000001"
                             "00000019 00000002");
    CHECK(GIVES(depot_wal_index_at(index_file, 36, 0, &out->row), DONE, ROW(.length = 10)));
    CHECK(GIVES(depot_wal_index_at(index_file, 36, 2, &out->row), DONE,
                ROW(.start = 25, .length = 2)));
    reads(__LINE__, 34, 25, 25, 2, 34);
    CHECK(GIVES(depot_wal_index_at(index_file, 36, 3, &out->row), DEPOT_WAL_BAD_PLACE,
                ROW(.start = 0)));
    CHECK(GIVES(depot_wal_index_at(index_file, 36, TOP, &out->row), DEPOT_WAL_BAD_PLACE,
                ROW(.start = 0)));
    CHECK(GIVES(depot_wal_index_at(index_file, 35, 0, &out->row), DEPOT_WAL_BAD_INDEX,
                ROW(.start = 0)));
    CHECK(GIVES(depot_wal_index_at(index_file, 11, 0, &out->row), DEPOT_WAL_BAD_INDEX,
                ROW(.start = 0)));
    index_file[7] = 13;
    CHECK(GIVES(depot_wal_index_at(index_file, 36, 0, &out->row), DEPOT_WAL_BAD_INDEX,
                ROW(.start = 0)));
}

/* ---- the size of a partition ---- */

static void pages_are(int line, uint64_t records, uint64_t bytes, uint64_t pages)
{
    check(line, GIVES(depot_wal_pages_for(records, bytes, &out->pages), DONE,
                      PAGES(.pages = pages)), "the pages");
}

static void no_pages(int line, uint64_t records, uint64_t bytes)
{
    check(line, GIVES(depot_wal_pages_for(records, bytes, &out->pages), DEPOT_WAL_NO_ROOM,
                      PAGES(.pages = 0)), "more than a segment has");
}

/* The pages for so many records and bytes: up to the limit, and any numbers. */
static void pages_told(void)
{
    pages_are(__LINE__, 0, 0, 1);
    pages_are(__LINE__, 0, TOP, 1);
    pages_are(__LINE__, 1, 0, 1); /* no list has these */
    pages_are(__LINE__, 1, 1, 1);
    pages_are(__LINE__, 1, 32761, 1);
    pages_are(__LINE__, 1, 32762, 2);
    pages_are(__LINE__, 1, 65522, 2);
    pages_are(__LINE__, 1, 65523, 3);
    pages_are(__LINE__, 1, 65536, 3);
    pages_are(__LINE__, 2, 32754, 1); /* 7 more for the second */
    pages_are(__LINE__, 2, 32755, 2);

    /* the switches of the header's comment */
    pages_are(__LINE__, 744, 744 * 37, 1);
    pages_are(__LINE__, 745, 745 * 37, 2);
    pages_are(__LINE__, 36500, 36500 * 37, 50);
    pages_are(__LINE__, 365000, 365000 * 37, 491);
    pages_are(__LINE__, 730000, 730000 * 37, 981);
    pages_are(__LINE__, 1095000, 1095000 * 37, 1471);
    pages_are(__LINE__, 3049575, 3049575 * 37, 4096);
    pages_are(__LINE__, 3049751, 3049751 * 37, 4096);
    no_pages(__LINE__, 3049752, 3049752 * 37);

    /* 4,096 pages: 134,189,056 bytes, and 7 for each record but the first */
    pages_are(__LINE__, 1, 134189056, 4096);
    no_pages(__LINE__, 1, 134189057);
    pages_are(__LINE__, 19169866, 1, 4096);
    no_pages(__LINE__, 19169866, 2);
    /* sums that are small modulo 2^64 */
    no_pages(__LINE__, 1, TOP);
    no_pages(__LINE__, 2, TOP - 6);
    no_pages(__LINE__, 2, TOP);
    no_pages(__LINE__, 2635249153387078804u, 1);
    no_pages(__LINE__, TOP, 0);
    no_pages(__LINE__, TOP, TOP);
}

/* Writes a list of records into a partition of so many pages: none is refused, and it ends there.
 * One page less refuses the last, if `needed`. */
static void list_ends(int line, const size_t *lengths, size_t n, size_t pages, size_t end,
                      int needed)
{
    static uint8_t partition[4 * PAGE];
    uint64_t bytes = 0;
    for (size_t i = 0; i < n; i++)
        bytes += lengths[i];
    pages_are(line, n, bytes, pages);
    for (size_t k = pages - 1; k <= pages; k++) {
        size_t place = 0, refused = 0;
        for (size_t i = 0; k > 0 && i < n; i++) {
            refused += depot_wal_write(V1, partition, k * PAGE, place, record, lengths[i],
                                       &out->written) == DEPOT_WAL_NO_ROOM;
            place = out->written.next;
        }
        check(line, refused == (k < pages && needed), "what is refused");
        check(line, refused || k == 0 || place == end, "the final place");
    }
    check(line, end <= bytes + 7 * n + 7 * (end / PAGE), "the bound");
}
#define LIST_ENDS(pages, end, needed, ...)                                             \
    list_ends(__LINE__, (const size_t[]){__VA_ARGS__},                                 \
              sizeof((const size_t[]){__VA_ARGS__}) / sizeof(size_t), pages, end, needed)

/* The worst lists: records that leave 7 bytes, so that the next begins with a fragment of length 0,
 * and records that leave 6, which are filler. */
static void pages_hold(void)
{
    fill_record();
    LIST_ENDS(1, 8, 0, 1);
    LIST_ENDS(1, 32768, 0, 32761);
    LIST_ENDS(2, 32776, 1, 32762);
    LIST_ENDS(2, 65536, 1, 65522);
    LIST_ENDS(3, 65557, 1, 65536);
    /* 7 left: d + 7n + 7P, all of the bound */
    LIST_ENDS(2, 32776, 1, 32754, 1);
    LIST_ENDS(3, 98297, 1, 32754, 32754, 32754);
    LIST_ENDS(4, 131065, 1, 32754, 32754, 32754, 32754);
    /* four fragments: of 0, 32,761, 32,761 and 14 bytes */
    LIST_ENDS(4, 98325, 1, 32754, 65536);
    /* 6 left: one less for each page */
    LIST_ENDS(2, 32776, 1, 32755, 1);
    LIST_ENDS(3, 98304, 1, 32755, 32755, 32755);
    LIST_ENDS(2, 65529, 1, 32755, 32754);
    /* none left: the pages told are one more than this list takes */
    LIST_ENDS(3, 65536, 0, 32761, 32761);
}

/* ---- the name of a segment ---- */

static void parses(int line, const char *name, uint64_t sequence, uint64_t version)
{
    check(line, GIVES(depot_wal_name_parse((const uint8_t *)name, strlen(name), &out->name), DONE,
                      NAME(.sequence = sequence, .version = version)), name);
}

static void name_refused(int line, const void *name, size_t len)
{
    check(line, GIVES(depot_wal_name_parse(name, len, &out->name), DEPOT_WAL_BAD_NAME,
                      NAME(.sequence = 0)), "not a name");
}

/* Names that parse, and every way that was thought of to miss one. */
static void names_parsed(void)
{
    parses(__LINE__, "000000", 0, 1);
    parses(__LINE__, "000042", 42, 1);
    parses(__LINE__, "123456", 123456, 1);
    parses(__LINE__, "999999", 999999, 1);
    parses(__LINE__, "000042-v1", 42, 1);
    parses(__LINE__, "000042-v2", 42, 2);
    parses(__LINE__, "999999-v2", 999999, 2);

    static const char *const bad[] = {
        "", "0", "00001", "0000001", "00000000", "000042-", "000042-v", "000042-v0", "000042-v3",
        "000042-v4", "000042-v9", "000042-v01", "000042-v02", "000042-v10", "000042-v12",
        "000042-v21", "000042-v22", "000042-v2 ", "000042-v-2", "000042-v+2", "000042-V2",
        "000042_v2", "000042v2", "000042-2", "000042-v2.", "000042-v2-v2", "-v2", "0042-v2",
        "00042-v2", "0000042-v2", "00004a", "00004/", "00004:", " 00042", "+00042", "-00042",
        "0x0042", "00004-v2", "a00042-v2", "000042 v2",
        /* 2^64 + 1, 2^64 + 2, 2^32 + 2, 2^128 + 2 */
        "000042-v18446744073709551617", "000042-v18446744073709551618", "000042-v4294967298",
        "000042-v340282366920938463463374607431768211458",
    };
    for (size_t i = 0; i < sizeof bad / sizeof *bad; i++)
        name_refused(__LINE__, bad[i], strlen(bad[i]));
    name_refused(__LINE__, "000042", 7);      /* with its terminating zero */
    name_refused(__LINE__, "000042-v2", 10);
    name_refused(__LINE__, "000042-v2", 8);
    name_refused(__LINE__, "000042-v2", 5);
    name_refused(__LINE__, NULL, 0);

    /* every value of every byte */
    static const char whole[] = "000042-v2";
    for (size_t i = 0; i < 9; i++)
        for (int b = 0; b < 256; b++) {
            uint8_t name[9];
            memcpy(name, whole, 9);
            name[i] = (uint8_t)b;
            static const uint64_t tens[] = {100000, 10000, 1000, 100, 10, 1};
            int digit = b >= '0' && b <= '9';
            if (i < 6 && digit) {
                uint64_t old = (uint64_t)(whole[i] - '0');
                CHECK(GIVES(depot_wal_name_parse(name, 9, &out->name), DONE,
                            NAME(.sequence = 42 - old * tens[i] + (uint64_t)(b - '0') * tens[i],
                                 .version = 2)));
            } else if (b == whole[i] || (i == 8 && b == '1')) {
                CHECK(GIVES(depot_wal_name_parse(name, 9, &out->name), DONE,
                            NAME(.sequence = 42, .version = i == 8 && b == '1' ? 1 : 2)));
            } else {
                name_refused(__LINE__, name, 9);
            }
        }
}

/* Makes a name in a buffer of each length that is long enough, and in all that are not. */
static void makes(int line, uint64_t sequence, uint64_t version, const char *want)
{
    size_t n = strlen(want);
    uint8_t name[12];
    for (size_t len = 0; len <= sizeof name; len++) {
        int fits = n <= len;
        memset(name, 0x5C, sizeof name);
        check(line, GIVES(depot_wal_name_make(sequence, version, name, len, &out->named),
                          fits ? DONE : DEPOT_WAL_NO_ROOM, NAMED(.used = fits ? n : 0)), want);
        check(line, !fits || memcmp(name, want, n) == 0, "its bytes");
        check(line, all(name + (fits ? n : 0), sizeof name - (fits ? n : 0), 0x5C), "the rest");
    }
    parses(line, want, sequence, version);
}

static void names_made(void)
{
    makes(__LINE__, 0, 1, "000000");
    makes(__LINE__, 42, 1, "000042");
    makes(__LINE__, 123456, 1, "123456");
    makes(__LINE__, 999999, 1, "999999");
    makes(__LINE__, 0, 2, "000000-v2");
    makes(__LINE__, 987654, 2, "987654-v2");
    makes(__LINE__, 999999, 2, "999999-v2");
    for (uint64_t sequence = 0; sequence <= DEPOT_WAL_SEQUENCE_MAX; sequence += 997) {
        char want[16];
        snprintf(want, sizeof want, "%06u", (unsigned)sequence);
        makes(__LINE__, sequence, 1, want);
        snprintf(want, sizeof want, "%06u-v2", (unsigned)sequence);
        makes(__LINE__, sequence, 2, want);
    }

    /* 30 comes before 11, and changes no byte */
    static const uint64_t bad[][2] = {{1000000, 1}, {1000000, 2}, {TOP, 1},  {42, 0}, {42, 3},
                                      {42, 10},     {42, TOP},    {TOP, TOP}};
    uint8_t name[9];
    for (size_t i = 0; i < sizeof bad / sizeof *bad; i++)
        for (size_t len = 0; len <= sizeof name; len += 9) {
            memset(name, 0x5C, sizeof name);
            CHECK(GIVES(depot_wal_name_make(bad[i][0], bad[i][1], name, len, &out->named),
                        DEPOT_WAL_BAD_NAME, NAMED(.used = 0)));
            CHECK(all(name, sizeof name, 0x5C));
        }
    CHECK(GIVES(depot_wal_name_make(42, 1, NULL, 0, &out->named), DEPOT_WAL_NO_ROOM,
                NAMED(.used = 0)));
}

/* ---- versions ---- */

/* "hello" as the one record of a segment of a version: its bytes, and that each version reads its
 * own and the other's checksum differs. */
static void hello_in(uint32_t version, uint32_t other)
{
    static const uint8_t summed[] = {1, 0, 5, 'h', 'e', 'l', 'l', 'o'};
    uint32_t sum = version == V1 ? crc_by_bits(summed + 3, 5) : crc_by_bits(summed, 8);
    struct depot_wal_good good = {0, 0};
    for (int form = PLAIN; form <= WITH_TABLE; form++) {
        memset(segment, 0x5C, sizeof segment);
        if (form == PLAIN)
            CHECK(GIVES(depot_wal_write(version, segment, PAGE, 0, summed + 3, 5, &out->written),
                        DONE, WRITTEN(.next = 12)));
        else
            CHECK(GIVES(depot_wal_write_with_table(table, version, segment, PAGE, 0, summed + 3, 5,
                                                   &out->written),
                        DONE, WRITTEN(.next = 12)));
        CHECK(memcmp(segment, summed, 3) == 0 && memcmp(segment + 7, "hello", 5) == 0);
        for (int i = 0; i < 4; i++)
            CHECK(segment[3 + i] == (uint8_t)(sum >> (24 - 8 * i)));
        CHECK(all(segment + 12, PAGE - 12, 0x5C));
        good = (struct depot_wal_good){0, 0};
        CHECK(GIVES(depot_wal_read(version, segment, 12, 0, buffer, sizeof buffer, &good,
                                   &out->record),
                    DONE, RECORD(.length = 5, .next = 12)));
        CHECK(memcmp(buffer, "hello", 5) == 0 && good.records == 1 && good.offset == 12);
        good = (struct depot_wal_good){0, 0};
        CHECK(GIVES(depot_wal_read_with_table(table, other, segment, 12, 0, buffer, sizeof buffer,
                                              &good, &out->record),
                    DEPOT_WAL_BAD_SUM, RECORD(.start = 0)));
        CHECK(good.records == 0 && good.offset == 0);
    }
}

/* The feed, the replays and the index of that segment: of the version, and of the other. */
static void hello_elsewhere(uint32_t version, uint32_t other)
{
    static struct depot_wal_series rows[DEPOT_WAL_SERIES_MAX];
    CHECK(depot_wal_feed_start(state, version) == DONE);
    CHECK(depot_wal_feed_read(state, NULL, 0, buffer, sizeof buffer, &out->feed_record) ==
          DEPOT_WAL_MORE);
    CHECK(depot_wal_feed_page(state, segment, 12, &out->fed) == DONE);
    CHECK(depot_wal_feed_read(state, segment, 12, buffer, sizeof buffer, &out->feed_record) ==
          DONE);
    CHECK(depot_wal_feed_start(state, other) == DONE);
    CHECK(depot_wal_feed_page(state, segment, 12, &out->fed) == DONE);
    CHECK(depot_wal_feed_read(state, segment, 12, buffer, sizeof buffer, &out->feed_record) ==
          DEPOT_WAL_BAD_SUM);
    CHECK(depot_wal_replay(version, segment, 12, buffer, sizeof buffer, rows, &out->replayed) ==
          DONE); /* 'h' is an unknown type */
    CHECK(depot_wal_replay(other, segment, 12, buffer, sizeof buffer, rows, &out->replayed) ==
          DEPOT_WAL_BAD_SUM);
    CHECK(depot_wal_replay_strict(version, segment, 12, buffer, sizeof buffer, rows,
                                  &out->replayed) == DEPOT_WAL_UNKNOWN_TYPE);
    CHECK(GIVES(depot_wal_index_build(version, segment, 12, index_file, 20, &out->indexed), DONE,
                INDEXED(.used = 20)));
    CHECK(same(index_file, 20, "00000001 0000000C 0000000C 00000000 00000005"));
    CHECK(GIVES(depot_wal_index_check(version, segment, 12, index_file, 20, &out->count), DONE,
                COUNT(.count = 1)));
    CHECK(GIVES(depot_wal_index_check(other, segment, 12, index_file, 20, &out->count),
                DEPOT_WAL_BAD_INDEX, COUNT(.count = 0)));
    CHECK(GIVES(depot_wal_index_extend(version, segment, 12, index_file, 20, 20, &out->indexed),
                DONE, INDEXED(.used = 20)));
    CHECK(GIVES(depot_wal_resume(version, segment, PAGE, 12, &out->resumed), DONE,
                RESUMED(.next = 12, .good = {1, 12})));
    CHECK(GIVES(depot_wal_resume(other, segment, PAGE, 12, &out->resumed), DEPOT_WAL_BAD_SUM,
                RESUMED(.next = 0)));
}

/* A number that no version has: before everything else, and nothing changes. */
static void no_version(uint32_t version)
{
    static struct depot_wal_series rows[DEPOT_WAL_SERIES_MAX];
    struct depot_wal_good good = {9, 3};
    memset(segment, 0x5C, sizeof segment);
    memset(buffer, 0x5C, sizeof buffer);
    memset(index_file, 0x5C, sizeof index_file);
    memset(rows, PATTERN, sizeof rows);
    CHECK(GIVES(depot_wal_write(version, segment, 7, 99, record, 0, &out->written),
                DEPOT_WAL_BAD_NAME, WRITTEN(.next = 99)));
    CHECK(GIVES(depot_wal_write_with_table(table, version, segment, PAGE, 0, record, 1,
                                           &out->written),
                DEPOT_WAL_BAD_NAME, WRITTEN(.next = 0)));
    CHECK(GIVES(depot_wal_read(version, segment, PAGE, 99, buffer, 7, &good, &out->record),
                DEPOT_WAL_BAD_NAME, RECORD(.start = 0)));
    CHECK(GIVES(depot_wal_read_with_table(table, version, segment, PAGE, 0, buffer, sizeof buffer,
                                          &good, &out->record),
                DEPOT_WAL_BAD_NAME, RECORD(.start = 0)));
    CHECK(good.records == 9 && good.offset == 3);
    CHECK(GIVES(depot_wal_resume(version, segment, 7, 99, &out->resumed), DEPOT_WAL_BAD_NAME,
                RESUMED(.next = 0)));
    CHECK(GIVES(depot_wal_replay(version, segment, PAGE, buffer, 7, rows, &out->replayed),
                DEPOT_WAL_BAD_NAME, REPLAYED(.error_at = 0)));
    CHECK(GIVES(depot_wal_replay_strict(version, segment, PAGE, buffer, sizeof buffer, rows,
                                        &out->replayed),
                DEPOT_WAL_BAD_NAME, REPLAYED(.error_at = 0)));
    CHECK(GIVES(depot_wal_index_build(version, segment, 12, index_file, 64, &out->indexed),
                DEPOT_WAL_BAD_NAME, INDEXED(.used = 0)));
    CHECK(GIVES(depot_wal_index_check(version, segment, 12, index_file, 64, &out->count),
                DEPOT_WAL_BAD_NAME, COUNT(.count = 0)));
    CHECK(GIVES(depot_wal_index_extend(version, segment, 12, index_file, 64, 65, &out->indexed),
                DEPOT_WAL_BAD_NAME, INDEXED(.used = 65)));
    CHECK(all(segment, sizeof segment, 0x5C) && all(buffer, sizeof buffer, 0x5C));
    CHECK(all(index_file, sizeof index_file, 0x5C));
    CHECK(all((const uint8_t *)rows, sizeof rows, PATTERN));
    /* A feed is started for version 1. */
    feed_starts();
    memcpy(was, states, sizeof was);
    memset(state, PATTERN, DEPOT_WAL_FEED_LEN * sizeof *state);
    CHECK(depot_wal_feed_start(state, version) == DEPOT_WAL_BAD_NAME);
    CHECK(memcmp(was, states, sizeof was) == 0);
}

static void versions(void)
{
    hello_in(V1, V2);
    hello_elsewhere(V1, V2);
    hello_in(V2, V1);
    hello_elsewhere(V2, V1);
    no_version(0);
    no_version(3);
    no_version(UINT32_MAX);
}

int main(int argc, char **argv)
{
    layouts();
    texts();
    version();
    checksums();
    the_switch();
    hollow_records();
    fresh_pages();
    longest_records();
    write_errors();
    read_errors();
    good_pairs();
    good_reading();
    corrupt_bytes();
    foreign_bytes();
    several_records();
    resumed_logs();
    resume_errors();
    resume_foreign();
    feed_order();
    feed_limits();
    feed_cuts();
    starts();
    series();
    samples();
    tombstones();
    exemplars();
    metadata();
    histograms();
    float_histograms();
    long_histograms();
    addition_errors();
    addition_limits();
    corrupt_bodies();
    body_places();
    histograms_read();
    float_histograms_read();
    corrupt_histograms();
    histogram_places();
    replayed_rows();
    reported_rows();
    replayed_tombstones();
    replayed_histograms();
    replayed_limit();
    replayed_unknown();
    replay_errors();
    checkpoint_types();
    checkpoint_rebuilds();
    checkpoint_no_room();
    checkpoint_too_long();
    checkpoint_refuses();
    checkpoint_lengths();
    index_built();
    index_damaged();
    index_looked_up();
    pages_told();
    pages_hold();
    names_parsed();
    names_made();
    versions();
    long cases = damage(argc > 1 ? argv[1] : "tests/damage.txt");
    printf("calls: %ld checks passed, %ld cases of named damage among them\n", checks, cases);
    return 0;
}
