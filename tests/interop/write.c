/* Writes a log for stock Prometheus through the library, and beside it what Prometheus has to show
 * for it: the rows as `promtool tsdb dump` prints them (printed.h), the exemplars with id, value,
 * time and label, and the histograms with id, time, numbers and buckets (histograms.h):
 *     write SEGMENT ROWS EXEMPLARS HISTOGRAMS
 * The last three lines that it prints say how many it wrote. It exits with 1 if the library refuses
 * a call, or if something was not covered that it means to cover.
 *
 * What is covered
 *   A row has its id and its time as deltas to the body's first row, each a signed varint: n bytes
 *   hold deltas from -2^(7n-1) to 2^(7n-1)-1, and ten hold all of 64 bits.
 *   - Ids. Prometheus takes ids from 0 to 2^40-1, and stops at a higher one. So a delta is less
 *     than 2^40 either way: lengths 1 to 6, as six begin at 2^34 and seven would at 2^41.
 *   - Times. Prometheus takes any but the lowest of 64 bits: lengths 1 to 10. Ten begin at 2^62
 *     milliseconds either way. Times 2^63 and more apart have deltas that wrap.
 *   There is a series for every pair of an id delta's and a time delta's sign and length, at the
 *   first or last number of that length or next to it. The last rows have the lowest and highest
 *   delta of ids and of times. Exemplars have all of these lengths too, histograms those of ids,
 *   and of times lengths 1 to 7: one query reaches no further.
 *   Records of one page and of two and three, and records that end at the end of a page, 1 or 6
 *   bytes before it (padding), and 7 (the next one begins with a fragment of length 0).
 *
 * What Prometheus drops by its own rules, so it is not written: a row that is not later than the
 * one before it of the same series; a row of an id without a series record; the lowest time. And
 * its server does not show exemplars that are some 2,000 years or less from either end of time.
 */
#include "deltas.h"
#include "depot_wal.h"
#include "histograms.h"
#include "printed.h"

#include <inttypes.h>
#include <stdio.h>
#include <stdlib.h>
#include <string.h>

/* ---- the series ---- */

/* Kinds of deltas: two signs for each length, and for times also the delta 0. */
enum { ID_KINDS = 2 * ID_LENGTHS, TIME_KINDS = 2 * TIME_LENGTHS + 1 };
enum { IN_ROUNDS = 1 + ID_KINDS * TIME_KINDS, SERIES = IN_ROUNDS + 1, LABELS_MAX = 512 };

/* The series whose id is in the middle, the one with the highest id, and, apart from the rounds,
 * the one with the lowest. */
enum { MIDDLE = 0, HIGHEST = 1 + (ID_KINDS - 2) * TIME_KINDS + 1, LOWEST = IN_ROUNDS };

struct series {
    uint64_t id;
    int64_t offset;           /* of its times from the clock */
    char printed[LABELS_MAX]; /* its labels, as they are printed */
    int64_t latest;           /* the time of its last row, INT64_MIN without any */
};
static struct series all[SERIES];

static const uint64_t MIDDLE_ID = UINT64_C(1) << 39;
static const int64_t ID_MAX = (INT64_C(1) << 40) - 1;
static const int64_t OFFSET_MAX = INT64_MAX - (INT64_C(1) << 42); /* the clock is below 2^42 */

static void check(int holds, const char *what)
{
    if (!holds) {
        fprintf(stderr, "interop: fails: %s\n", what);
        exit(1);
    }
}

/* A delta of this kind: its length is kind / 2 + 1, and odd kinds are negative. The nth one counts
 * in turn from the first and from the last of that length, within the limit. */
static int64_t delta_of(int kind, int nth, int64_t limit)
{
    int length = kind / 2 + 1, negative = kind % 2;
    int64_t first = length == 1 ? 1 : INT64_C(1) << (7 * (length - 1) - 1);
    int64_t last = length == 10 ? INT64_MAX : (INT64_C(1) << (7 * length - 1)) - 1;
    int64_t size;
    if (negative) { /* -1 to -64 have one byte, -65 to -8192 two, and so on */
        first += length > 1;
        last += length < 10;
    }
    if (last > limit)
        last = limit;
    size = nth % 2 ? last - nth / 2 : first + nth / 2;
    return negative ? -size : size;
}

static void make_series(void)
{
    all[MIDDLE].id = MIDDLE_ID;
    all[LOWEST].id = 0;
    for (int i = 0; i < ID_KINDS; i++)
        for (int t = 0; t < TIME_KINDS; t++) {
            struct series *s = &all[1 + i * TIME_KINDS + t];
            s->id = MIDDLE_ID + (uint64_t)delta_of(i, t, ID_MAX / 2);
            s->offset = t == TIME_KINDS - 1 ? 0 : delta_of(t, i, OFFSET_MAX);
        }
    for (int k = 0; k < SERIES; k++)
        all[k].latest = INT64_MIN;
    check(all[HIGHEST].id == (uint64_t)ID_MAX, "the highest id");
}

/* ---- the segment and the body that is being built ---- */

static uint8_t segment[64 * DEPOT_WAL_PAGE];
static size_t place;
static unsigned records, long_records, full_records; /* all, above a page, at the limit */

static uint8_t body[DEPOT_WAL_RECORD_MAX];
static uint8_t type; /* of the body, 0 if there is none */
static size_t used;
static unsigned entries;
static uint64_t first_id;
static int64_t first_time;

static void write_record(const uint8_t *record, size_t length)
{
    struct depot_wal_written out;
    check(depot_wal_write(DEPOT_WAL_V1, segment, sizeof segment, place, record, length, &out) ==
              DEPOT_WAL_DONE,
          "depot_wal_write");
    place = out.next;
    records++;
}

/* Writes the body as a record, if there is one. */
static void end_body(void)
{
    if (type == 0)
        return;
    write_record(body, used);
    long_records += used > DEPOT_WAL_PAGE;
    type = 0;
}

static void start_body(uint8_t new_type)
{
    struct depot_wal_built out;
    end_body();
    check(depot_wal_body_start(body, sizeof body, new_type, &out) == DEPOT_WAL_DONE,
          "depot_wal_body_start");
    type = new_type;
    used = out.used;
    entries = 0;
}

/* Takes the answer of an addition. Returns 1 if the entry is in the body; 0 if the body was full,
 * which is now a record, and a new one has been started, for the caller to try again. */
static int added(depot_wal_status status, const struct depot_wal_built *out, const char *what)
{
    if (status == DEPOT_WAL_TOO_LONG && entries > 0) {
        full_records++;
        start_body(type);
        return 0;
    }
    check(status == DEPOT_WAL_DONE, what);
    used = out->used;
    entries++;
    return 1;
}

/* Strings as the calls take them: one after the other, and their lengths. */
struct strings {
    uint8_t bytes[LABELS_MAX];
    size_t used, count;
    uint64_t lengths[8];
};

static void add_string(struct strings *s, const char *text)
{
    size_t n = strlen(text);
    check(s->used + n <= sizeof s->bytes && s->count < 8, "room for strings");
    memcpy(s->bytes + s->used, text, n);
    s->used += n;
    s->lengths[s->count++] = n;
}

/* ---- series records ---- */

/* The labels of a series, to be written and as they are printed: in the order of their names. Every
 * third has a text of 200 bytes, which has a length of two bytes. */
static void make_labels(unsigned k, struct strings *s)
{
    const struct text *text = text_of(k);
    char id[24], pad[201], *to = all[k].printed;
    size_t left = sizeof all[k].printed;
    int n = snprintf(id, sizeof id, "%" PRIu64, all[k].id);
    check(n > 0 && n < (int)sizeof id, "room for an id");
    memset(pad, 'x', 200);
    pad[k % 3 ? 60 : 200] = 0;
    memset(s, 0, sizeof *s);
    add_string(s, "__name__"), add_string(s, "interop");
    add_string(s, "id"), add_string(s, id);
    add_string(s, "pad"), add_string(s, pad);
    if (text)
        add_string(s, "text"), add_string(s, text->bytes);
    n = snprintf(to, left, "{__name__=\"interop\", id=\"%s\", pad=\"%s\"%s%s}", id, pad,
                 text ? ", text=" : "", text ? text->printed : "");
    check(n > 0 && (size_t)n < left, "room for labels");
}

/* A series record for each of the first few, then one for all the others, which is longer than a
 * page. */
static void write_series(void)
{
    struct strings s;
    struct depot_wal_built out;
    for (unsigned k = 0; k < SERIES; k++) {
        make_labels(k, &s);
        if (k <= 12)
            start_body(DEPOT_WAL_SERIES);
        while (!added(depot_wal_add_series(body, sizeof body, type, used, all[k].id, s.bytes,
                                           s.used, s.lengths, s.count, &out),
                      &out, "depot_wal_add_series"))
            ;
    }
    end_body();
}

/* ---- rows ---- */

/* Time goes in rounds, and in each of them every series but the lowest has one row. The pause is
 * longer than a chunk of Prometheus, so new chunks begin after it. */
enum { ROUNDS = 60, PAUSE = 40 };
static const int64_t START = INT64_C(1700000000000), STEP = 15000, PAUSED = 3 * 3600 * 1000;

static int64_t time_at(unsigned k, unsigned round)
{
    return START + STEP * round + (round >= PAUSE ? PAUSED : 0) + all[k].offset;
}

/* Of every tenth series three rounds are deleted by a tombstone. */
enum { DELETED_FROM = 30, DELETED_TO = 32 };
static int has_tombstone(unsigned k) { return k < IN_ROUNDS && k % 10 == 3; }

static struct deltas of_rows, of_exemplars;
static unsigned rows, deleted, exemplars;

/* Counts the row that was just added, which has `rest` bytes beside its deltas. The first one of a
 * body comes after its own id and time. */
static void count(struct deltas *deltas, uint64_t id, int64_t time, size_t before, size_t rest)
{
    if (entries == 1) {
        first_id = id;
        first_time = time;
        rest += 16;
    }
    count_row(deltas, first_id, id, first_time, time, used - before, rest);
}

/* Adds a row to the body. If it will not be deleted, the dump has to show it. */
static void add_row(unsigned k, int64_t time, int is_deleted, FILE *expected)
{
    struct series *s = &all[k];
    struct value value = value_of(rows);
    struct depot_wal_built out;
    size_t before;
    check(time > s->latest, "the times of a series rise");
    s->latest = time;
    do
        before = used;
    while (!added(depot_wal_add_sample(body, sizeof body, type, used, s->id, time, value.bits,
                                       &out),
                  &out, "depot_wal_add_sample"));
    count(&of_rows, s->id, time, before, 8);
    rows++;
    deleted += is_deleted;
    if (!is_deleted)
        fprintf(expected, "%s %s %" PRId64 "\n", s->printed, value.text, time);
}

/* Where the rounds of one kind end and the next kind begins. */
enum { PLAIN_END = 4, TURNED_END = PLAIN_END + ID_KINDS, SHORT_END = TURNED_END + 2 };

/* The series with which a round begins. In the plain rounds it is the middle one, so that each
 * other has the deltas that it was made for. In the turned ones each kind of id leads once, with
 * another kind of time each, so that some times are far enough apart for a delta to wrap. */
static unsigned first_of(unsigned round)
{
    unsigned i = round - PLAIN_END;
    if (round < PLAIN_END || round >= TURNED_END)
        return MIDDLE;
    return 1 + i * TIME_KINDS + (8 * i + 18) % TIME_KINDS;
}

/* Plain and turned rounds have a body each. Then come bodies of 1 row, 2 rows and so on, and at
 * last bodies as long as a record can be, of many rounds. */
static void write_rounds(FILE *expected)
{
    unsigned wanted = 1;
    for (unsigned round = 0; round < ROUNDS; round++) {
        int is_short = round >= TURNED_END && round < SHORT_END;
        int is_gone = round >= DELETED_FROM && round <= DELETED_TO;
        if (round <= TURNED_END || round == SHORT_END)
            start_body(DEPOT_WAL_SAMPLES);
        for (unsigned n = 0; n < IN_ROUNDS; n++) {
            unsigned k = (first_of(round) + n) % IN_ROUNDS;
            if (is_short && entries == wanted) {
                start_body(DEPOT_WAL_SAMPLES);
                wanted++;
            }
            add_row(k, time_at(k, round), is_gone && has_tombstone(k), expected);
        }
    }
    end_body();
}

/* Ends of records near a page's end, each with a row after it. What is before the row is of a type
 * that Prometheus does not know and passes over. The last one is as long as a record can be, from
 * the start of a page: three fragments. */
static void write_page_ends(FILE *expected)
{
    static const uint8_t unknown[DEPOT_WAL_RECORD_MAX] = {200};
    static const size_t left[] = {7, 6, 1, 0};
    for (unsigned i = 0; i < 4; i++) {
        write_record(unknown, DEPOT_WAL_PAGE - place % DEPOT_WAL_PAGE - DEPOT_WAL_HEADER - left[i]);
        check(place % DEPOT_WAL_PAGE == (left[i] == 7 ? DEPOT_WAL_PAGE - 7 : 0), "a page's end");
        if (i == 3)
            write_record(unknown, sizeof unknown);
        start_body(DEPOT_WAL_SAMPLES);
        add_row(MIDDLE, time_at(MIDDLE, ROUNDS + i), 0, expected);
        end_body();
    }
}

/* The lowest and the highest deltas. From -1 the highest time is 2^63 away, which is -2^63. */
static void write_ends(FILE *expected)
{
    start_body(DEPOT_WAL_SAMPLES);
    add_row(HIGHEST, time_at(HIGHEST, ROUNDS), 0, expected);
    add_row(LOWEST, INT64_MIN + 1, 0, expected);
    start_body(DEPOT_WAL_SAMPLES);
    add_row(LOWEST, -1, 0, expected);
    add_row(LOWEST, INT64_MAX - 1, 0, expected);
    add_row(LOWEST, INT64_MAX, 0, expected);
    add_row(HIGHEST, INT64_MAX, 0, expected);
    end_body();
}

/* ---- the other types ---- */

/* Adds an exemplar, with a label of its own. Its value is printed as the plain digits. */
static void add_exemplar(unsigned k, int64_t time, FILE *expected)
{
    struct strings s = {.used = 0};
    struct depot_wal_built out;
    double value = ++exemplars;
    uint64_t bits;
    char trace[24];
    size_t before;
    memcpy(&bits, &value, sizeof bits);
    snprintf(trace, sizeof trace, "trace%u", exemplars);
    add_string(&s, "trace_id"), add_string(&s, trace);
    do
        before = used;
    while (!added(depot_wal_add_exemplar(body, sizeof body, type, used, all[k].id, time, bits,
                                         s.bytes, s.used, s.lengths, s.count, &out),
                  &out, "depot_wal_add_exemplar"));
    count(&of_exemplars, all[k].id, time, before, 8 + 1 + s.count + s.used);
    fprintf(expected, "%" PRIu64 " %u %" PRId64 " %s\n", all[k].id, exemplars, time, trace);
}

/* As in the plain and the turned rounds, but not near the ends of time: the server does not show
 * exemplars there. */
static void write_exemplars(FILE *expected)
{
    const int64_t far = INT64_C(3) << 61;
    for (unsigned round = 0; round < TURNED_END; round++) {
        start_body(DEPOT_WAL_EXEMPLARS);
        for (unsigned n = 0; n < IN_ROUNDS; n++) {
            unsigned k = (first_of(round) + n) % IN_ROUNDS;
            if (all[k].offset > -far && all[k].offset < far)
                add_exemplar(k, time_at(k, round), expected);
        }
    }
    end_body();
}

/* Histograms have series of their own, because a dump ends a series at its first histogram: one to
 * begin each body, and one for every pair of an id delta's and a time delta's kind. Those of whole
 * numbers and of floats have names of their own: if one query finds both, the server of 2.42 shows
 * a float one in place of each whole one that comes after it. */
enum { SHOWN_TIMES = 2 * 7, SHOWN_SERIES = 1 + ID_KINDS * SHOWN_TIMES, SHOWN_ROUNDS = 4 };

static uint64_t shown_id(int is_float, unsigned k)
{
    const int64_t beside = is_float ? 2000 : 1000; /* the ids of the other series */
    int kind = (int)(k - 1) / SHOWN_TIMES, nth = (int)(k - 1) % SHOWN_TIMES;
    int64_t delta = k == 0 ? 0 : delta_of(kind, nth, ID_MAX / 2 - 3000);
    return MIDDLE_ID + (uint64_t)(delta - beside);
}

static int64_t shown_time(unsigned k, unsigned round)
{
    int kind = (int)(k - 1) % SHOWN_TIMES, nth = (int)(k - 1) / SHOWN_TIMES;
    return START + STEP * round + (k == 0 ? 0 : delta_of(kind, 2 * nth, OFFSET_MAX));
}

static void write_shown_series(int is_float)
{
    struct depot_wal_built out;
    start_body(DEPOT_WAL_SERIES);
    for (unsigned k = 0; k < SHOWN_SERIES; k++) {
        struct strings s = {.used = 0};
        char id[24];
        snprintf(id, sizeof id, "%" PRIu64, shown_id(is_float, k));
        add_string(&s, "__name__"), add_string(&s, is_float ? "battery_float" : "battery");
        add_string(&s, "id"), add_string(&s, id);
        while (!added(depot_wal_add_series(body, sizeof body, type, used, shown_id(is_float, k),
                                           s.bytes, s.used, s.lengths, s.count, &out),
                      &out, "depot_wal_add_series"))
            ;
    }
    end_body();
}

/* A side's spans and its buckets, as arguments. */
#define SPANS(s) (s).offsets, (s).spans, (s).lengths, (s).spans
#define BUCKETS(type, s) (const type *)(s).bits, (s).buckets

static unsigned histograms;

static void add_histogram(unsigned k, int64_t time, int is_float, FILE *expected)
{
    struct histogram h = histogram_of(histograms++, is_float);
    uint64_t id = shown_id(is_float, k);
    struct depot_wal_built out;
    depot_wal_status status;
    do
        status =
            is_float
                ? depot_wal_add_float_histogram(
                      body, sizeof body, type, used, id, time, h.hint, h.schema, h.threshold,
                      h.zeros, h.count, h.sum, SPANS(h.positive), SPANS(h.negative),
                      BUCKETS(uint64_t, h.positive), BUCKETS(uint64_t, h.negative), &out)
                : depot_wal_add_histogram(
                      body, sizeof body, type, used, id, time, h.hint, h.schema, h.threshold,
                      h.zeros, h.count, h.sum, SPANS(h.positive), SPANS(h.negative),
                      BUCKETS(int64_t, h.positive), BUCKETS(int64_t, h.negative), &out);
    while (!added(status, &out, "the call that adds a histogram"));
    fprintf(expected, "%" PRIu64 " %" PRId64 " %s\n", id, time, h.shown);
}

/* In each round every series has one, in one body. */
static void write_histograms(int is_float, FILE *expected)
{
    write_shown_series(is_float);
    for (unsigned round = 0; round < SHOWN_ROUNDS; round++) {
        start_body(is_float ? DEPOT_WAL_FLOAT_HISTOGRAMS : DEPOT_WAL_HISTOGRAMS);
        for (unsigned k = 0; k < SHOWN_SERIES; k++)
            add_histogram(k, shown_time(k, round), is_float, expected);
    }
    end_body();
}

/* Prometheus decodes metadata, but neither the dump nor the server shows it. */
static void write_metadata(void)
{
    struct strings s = {.used = 0};
    struct depot_wal_built out;
    add_string(&s, "UNIT"), add_string(&s, "volts");
    add_string(&s, "HELP"), add_string(&s, "What the battery has.");
    start_body(DEPOT_WAL_METADATA);
    for (unsigned k = 0; k < SERIES; k++)
        while (!added(depot_wal_add_metadata(body, sizeof body, type, used, all[k].id, 2, s.bytes,
                                             s.used, s.lengths, s.count, &out),
                      &out, "depot_wal_add_metadata"))
            ;
    end_body();
}

static void write_tombstones(void)
{
    struct depot_wal_built out;
    start_body(DEPOT_WAL_TOMBSTONES);
    for (unsigned k = 0; k < SERIES; k++)
        while (has_tombstone(k) &&
               !added(depot_wal_add_tombstone(body, sizeof body, type, used, all[k].id,
                                              time_at(k, DELETED_FROM), time_at(k, DELETED_TO),
                                              &out),
                      &out, "depot_wal_add_tombstone"))
            ;
    end_body();
}

/* ---- what was covered ---- */

/* Prints what the log has, and checks that nothing is missing. */
static void report_all(void)
{
    const struct tally *ids = &of_rows.ids, *times = &of_rows.times;
    report("samples", &of_rows);
    report("exemplars", &of_exemplars);
    printf("interop: %u records, %u above a page, %u of them too full for one more row\n", records,
           long_records, full_records);
    printf("interop: wrote %u histograms\n", histograms);
    printf("interop: wrote %u exemplars\n", exemplars);
    printf("interop: wrote %u rows of %d series, %u of them then deleted\n", rows, SERIES, deleted);
    fflush(stdout);
    check(covered(&of_rows), "rows have every kind of delta");
    check(covered(&of_exemplars), "exemplars have every kind of delta");
    check(ids->low == -ID_MAX && ids->high == ID_MAX, "the lowest and highest id delta");
    check(times->low == INT64_MIN && times->high == INT64_MAX, "the same of times");
    check(long_records > full_records && full_records > 1, "long and full records");
    check(rows > deleted && deleted > 0 && exemplars > 0, "rows, some deleted, and exemplars");
    check(histograms > 0, "histograms");
    check(of_rows.misfits == 0, "every row has the bytes that its deltas ask for");
    check(of_exemplars.misfits == 0, "every exemplar has the bytes that its deltas ask for");
}

static FILE *must_open(const char *path)
{
    FILE *file = fopen(path, "wb");
    check(file != NULL, path);
    return file;
}

int main(int argc, char **argv)
{
    FILE *to, *expected_rows, *expected_exemplars, *expected_histograms;
    check(argc == 5, "four arguments: the segment, rows, exemplars, histograms, to be written");
    expected_rows = must_open(argv[2]);
    expected_exemplars = must_open(argv[3]);
    expected_histograms = must_open(argv[4]);
    make_series();
    write_series();
    write_metadata();
    write_rounds(expected_rows);
    write_page_ends(expected_rows);
    write_ends(expected_rows);
    write_exemplars(expected_exemplars);
    write_histograms(0, expected_histograms);
    write_histograms(1, expected_histograms);
    write_tombstones();
    check(fclose(expected_rows) == 0, argv[2]);
    check(fclose(expected_exemplars) == 0, argv[3]);
    check(fclose(expected_histograms) == 0, argv[4]);
    to = must_open(argv[1]);
    check(fwrite(segment, 1, place, to) == place, argv[1]);
    check(fclose(to) == 0, argv[1]);
    report_all();
    return 0;
}
