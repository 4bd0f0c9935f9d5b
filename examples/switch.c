/* A few switches of scooter profiles are written to a log, the power fails in the middle of one,
 * and the log is read back. `make demo` builds and runs it. To link a program of your own:
 *     gcc -std=c99 -Iinclude examples/switch.c target/staticlib/libdepot_wal.a -o switch
 */
#include "depot_wal.h"

#include <inttypes.h>
#include <stdio.h>
#include <string.h>

/* Three scooters with profiles 1 to 3 each. Each profile is a series of the log, and its id is made
 * of both numbers. The log begins with these series; then each change is a record. */
enum { SCOOTERS = 3, PROFILES = 3 };

static uint64_t series_id(unsigned scooter, unsigned profile) { return 10 * scooter + profile; }

static const uint64_t OFF = 0;                  /* the bits of 0.0 */
static const uint64_t ON = 0x3FF0000000000000u; /* the bits of 1.0 */

/* All memory that the program needs. A segment that is written to has a whole number of pages. */
static uint8_t flash[DEPOT_WAL_PAGE];              /* the log of the box */
static size_t log_end;                             /* where the next record goes */
static uint8_t buffer[DEPOT_WAL_RECORD_MAX];       /* the record that was read */
static uint8_t too_much[DEPOT_WAL_RECORD_MAX + 1]; /* a record that is too long */
static struct depot_wal_series table[DEPOT_WAL_SERIES_MAX]; /* what each profile had last */

/* Writes a record. After an error nothing has changed and out.next is the old place, so there is no
 * case to forget: always go on with out.next. */
static void write_record(const uint8_t *record, size_t len, const char *what)
{
    struct depot_wal_written out;
    depot_wal_status status =
        depot_wal_write(DEPOT_WAL_V1, flash, sizeof flash, log_end, record, len, &out);
    printf("  at %3zu  %s", log_end, what);
    if (status != DEPOT_WAL_DONE)
        printf(": refused (number %" PRIu32 "), the log is unchanged", status);
    printf("\n");
    log_end = out.next;
}

/* Writes the series, each with the labels scooter and profile. */
static void write_series(void)
{
    static const uint64_t lengths[] = {7, 1, 7, 1};
    const uint8_t type = DEPOT_WAL_SERIES;
    struct depot_wal_built out;
    uint8_t body[512];
    char labels[32];
    if (depot_wal_body_start(body, sizeof body, type, &out))
        return; /* an error: every status but DEPOT_WAL_DONE is above 0 */
    for (unsigned scooter = 1; scooter <= SCOOTERS; scooter++) {
        for (unsigned profile = 1; profile <= PROFILES; profile++) {
            int n = snprintf(labels, sizeof labels, "scooter%uprofile%u", scooter, profile);
            if (depot_wal_add_series(body, sizeof body, type, out.used, series_id(scooter, profile),
                                     (const uint8_t *)labels, (size_t)n, lengths, 4, &out))
                return;
        }
    }
    write_record(body, out.used, "the series: each profile of each scooter");
}

/* Writes that profile 1 of every scooter is on. */
static void write_factory(void)
{
    const uint8_t type = DEPOT_WAL_SAMPLES;
    struct depot_wal_built out;
    uint8_t body[64];
    if (depot_wal_body_start(body, sizeof body, type, &out))
        return;
    for (unsigned scooter = 1; scooter <= SCOOTERS; scooter++)
        if (depot_wal_add_sample(body, sizeof body, type, out.used, series_id(scooter, 1), 0, ON,
                                 &out))
            return;
    write_record(body, out.used, "from the factory: profile 1 on");
}

/* Writes one switch: the old profile to 0, the new one to 1, in one record so that never half of it
 * counts. */
static void write_switch(unsigned scooter, unsigned from, unsigned to, int64_t time)
{
    const uint8_t type = DEPOT_WAL_SAMPLES;
    uint64_t from_id = series_id(scooter, from), to_id = series_id(scooter, to);
    struct depot_wal_built out;
    uint8_t body[64];
    char what[80];
    if (depot_wal_body_start(body, sizeof body, type, &out)
        || depot_wal_add_sample(body, sizeof body, type, out.used, from_id, time, OFF, &out)
        || depot_wal_add_sample(body, sizeof body, type, out.used, to_id, time, ON, &out))
        return;
    snprintf(what, sizeof what, "scooter %u: profile %u off, profile %u on", scooter, from, to);
    write_record(body, out.used, what);
}

/* Reads the bytes of the log that are there and prints where each record is. Returns the status
 * that ended the reading. */
static depot_wal_status read_log(size_t survived)
{
    struct depot_wal_good good = {0, 0};
    struct depot_wal_record r;
    depot_wal_status status;
    size_t place = 0;
    while ((status = depot_wal_read(DEPOT_WAL_V1, flash, survived, place, buffer, sizeof buffer,
                                    &good, &r)) == DEPOT_WAL_DONE) {
        printf("  record at %3" PRIu64 ", %" PRIu64 " bytes\n", r.start, r.length);
        place = r.next;
    }
    if (status == DEPOT_WAL_END)
        printf("  clean end\n");
    else if (status == DEPOT_WAL_TORN)
        printf("  torn at %" PRIu64 ": a record begins here that was not finished;"
               " it does not count\n", r.start);
    else
        printf("  at %" PRIu64 ": %s\n", r.start, depot_wal_status_text(status));
    printf("  good length: %" PRIu64 " whole records in the first %" PRIu64 " bytes; cut there,"
           " nothing whole is lost\n", good.records, good.offset);
    return status;
}

/* Finds the place where writing goes on, with the first record that did not come out. Returns
 * whether there is one: a log that is corrupt has none. */
static int resume_log(size_t survived)
{
    struct depot_wal_resumed out;
    depot_wal_status status =
        depot_wal_resume(DEPOT_WAL_V1, flash, sizeof flash, survived, &out);
    if (status != DEPOT_WAL_DONE)
        return 0;
    log_end = out.next;
    printf("  writing goes on at %zu, after %" PRIu64 " records\n", log_end, out.good.records);
    return 1;
}

/* Replays the bytes of the log that are there and prints which profile is on. A record counts
 * wholly or not at all, so a switch that was cut changes nothing. Returns whether exactly one
 * profile is on for every scooter. */
static int show_profiles(size_t survived)
{
    struct depot_wal_replayed replayed;
    depot_wal_status status =
        depot_wal_replay(DEPOT_WAL_V1, flash, survived, buffer, sizeof buffer, table, &replayed);
    int good = status == DEPOT_WAL_DONE || status == DEPOT_WAL_TORN;
    for (unsigned scooter = 1; scooter <= SCOOTERS; scooter++) {
        unsigned on = 0;
        printf("  scooter %u:", scooter);
        for (uint64_t i = 0; i < replayed.series; i++) {
            if (table[i].id / 10 == scooter && table[i].bits == ON) {
                printf(" profile %" PRIu64 " is on since %" PRId64, table[i].id % 10,
                       table[i].time);
                on++;
            }
        }
        printf("\n");
        good = good && on == 1;
    }
    return good;
}

int main(void)
{
    const size_t cut = 470; /* inside the last switch, which has the bytes 455 to 498 */

    printf("Three scooters with profiles 1 to 3; from the factory profile 1 is on.\n"
           "Each switch is one record of the log:\n");
    write_series();
    write_factory();
    write_switch(1, 1, 2, 1000);
    write_switch(2, 1, 3, 2000);
    write_record(too_much, sizeof too_much, "a record that is too long");
    write_switch(1, 2, 3, 3000);
    write_switch(3, 1, 2, 4000);

    printf("The log has %zu bytes. The power fails when %zu of them stand. Read back:\n", log_end,
           cut);
    memset(flash + cut, 0, sizeof flash - cut);
    if (read_log(cut) != DEPOT_WAL_TORN || !show_profiles(cut) || !resume_log(cut))
        return 1;

    printf("Every scooter has exactly one profile on."
           " The cut switch is made again, where it began:\n");
    write_switch(3, 1, 2, 5000);
    printf("Read back:\n");
    if (read_log(log_end) != DEPOT_WAL_END || !show_profiles(log_end))
        return 1;

    printf("\nTo list a segment file of your own: target/bin/list < FILE\n");
    return 0;
}
