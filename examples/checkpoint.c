/* The log of a box is nearly full. A checkpoint of it is written to the spare partition, read back,
 * and only then the box switches over; the power fails at every step of that. `make demo` builds
 * and runs it. To link a program of your own:
 *     gcc -std=c99 -Iinclude examples/checkpoint.c target/staticlib/libdepot_wal.a -o checkpoint
 */
#include "depot_wal.h"

#include <inttypes.h>
#include <stdio.h>
#include <string.h>

enum { SCOOTERS = 4, PROFILES = 3, KEPT = 3 }; /* scooter 4 has left the depot */

static uint64_t series_id(unsigned scooter, unsigned profile) { return 10 * scooter + profile; }

static const uint64_t OFF = 0;                  /* the bits of 0.0 */
static const uint64_t ON = 0x3FF0000000000000u; /* the bits of 1.0 */

/* What survives a power failure: two partitions, and one sector that is stored wholly or not at
 * all. It says which partition is in use, and how many bytes of it are there. */
struct medium {
    uint8_t partition[2][DEPOT_WAL_PAGE];
    struct sector {
        unsigned in_use;
        size_t end;
    } sector;
};
static struct medium box;

/* The memory of the program, which a power failure clears. */
static uint8_t target[DEPOT_WAL_PAGE]; /* as long as the spare partition */
static uint8_t work[DEPOT_WAL_RECORD_MAX], body[DEPOT_WAL_RECORD_MAX];
static struct depot_wal_series table[DEPOT_WAL_SERIES_MAX];
static unsigned profile[SCOOTERS + 1]; /* which profile of a scooter is on, from 1 on */

/* Writes a record to the log in use. */
static int write_record(const uint8_t *record, size_t len)
{
    struct depot_wal_written out;
    depot_wal_status status =
        depot_wal_write(DEPOT_WAL_V1, box.partition[box.sector.in_use], DEPOT_WAL_PAGE,
                        box.sector.end, record, len, &out);
    box.sector.end = out.next;
    return status == DEPOT_WAL_DONE;
}

static int write_series(void)
{
    static const uint64_t lengths[] = {7, 1, 7, 1};
    struct depot_wal_built out;
    char labels[32];
    if (depot_wal_body_start(body, sizeof body, DEPOT_WAL_SERIES, &out))
        return 0;
    for (unsigned i = 0; i < SCOOTERS * PROFILES; i++) {
        unsigned scooter = i / PROFILES + 1, number = i % PROFILES + 1;
        int n = snprintf(labels, sizeof labels, "scooter%uprofile%u", scooter, number);
        if (depot_wal_add_series(body, sizeof body, DEPOT_WAL_SERIES, out.used,
                                 series_id(scooter, number), (const uint8_t *)labels, (size_t)n,
                                 lengths, 4, &out))
            return 0;
    }
    return write_record(body, out.used);
}

/* One switch, in one record: the old profile off, the new one on. */
static int write_switch(unsigned scooter, unsigned to, int64_t time)
{
    const uint8_t type = DEPOT_WAL_SAMPLES;
    uint64_t from_id = series_id(scooter, profile[scooter]), to_id = series_id(scooter, to);
    struct depot_wal_built out;
    if (depot_wal_body_start(body, sizeof body, type, &out)
        || depot_wal_add_sample(body, sizeof body, type, out.used, from_id, time, OFF, &out)
        || depot_wal_add_sample(body, sizeof body, type, out.used, to_id, time, ON, &out))
        return 0;
    profile[scooter] = to;
    return write_record(body, out.used);
}

/* Which profile of each scooter is on, in one record: older samples are then no longer wanted. */
static int write_all(int64_t time)
{
    const uint8_t type = DEPOT_WAL_SAMPLES;
    struct depot_wal_built out;
    if (depot_wal_body_start(body, sizeof body, type, &out))
        return 0;
    for (unsigned scooter = 1; scooter <= SCOOTERS; scooter++)
        for (unsigned i = 1; i <= PROFILES; i++)
            if (depot_wal_add_sample(body, sizeof body, type, out.used, series_id(scooter, i), time,
                                     i == profile[scooter] ? ON : OFF, &out))
                return 0;
    return write_record(body, out.used);
}

/* The box starts after a power failure: it knows the medium alone. Returns whether the partition in
 * use reads to a clean end and the scooters that are still there have the profile that they had. */
static int starts_up(const struct medium *m)
{
    struct depot_wal_replayed replayed;
    unsigned good = 0;
    if (depot_wal_replay(DEPOT_WAL_V1, m->partition[m->sector.in_use], m->sector.end, work,
                         sizeof work, table, &replayed) != DEPOT_WAL_DONE)
        return 0;
    for (uint64_t i = 0; i < replayed.series; i++) {
        uint64_t scooter = table[i].id / 10;
        if (scooter <= KEPT && table[i].bits == ON)
            good += table[i].id % 10 == profile[scooter] ? 1 : SCOOTERS;
    }
    return good == KEPT;
}

/* Whether the first `end` bytes of the spare partition are those of the target, and a log. */
static int reads_back(const struct medium *m, size_t end)
{
    const uint8_t *spare = m->partition[1 - m->sector.in_use];
    struct depot_wal_good good = {0, 0};
    struct depot_wal_record r;
    depot_wal_status status;
    if (memcmp(spare, target, end) != 0)
        return 0;
    while ((status = depot_wal_read(DEPOT_WAL_V1, spare, end, good.offset, work, sizeof work, &good,
                                    &r)) == DEPOT_WAL_DONE)
        continue;
    return status == DEPOT_WAL_END;
}

/* Steps 3 to 5. The power fails after each byte that is stored in the spare partition, after the
 * reading back, and after the switch-over. Returns how often the box started up, 0 if once not. */
static size_t switch_over(size_t end)
{
    unsigned spare = 1 - box.sector.in_use;
    size_t cuts = 0;
    for (size_t stored = 0; stored <= end; stored++, cuts++) {
        if (stored > 0)
            box.partition[spare][stored - 1] = target[stored - 1];
        if (!starts_up(&box) || box.sector.in_use == spare)
            return 0;
    }
    printf("  stored in partition %u; cut after 0 to %zu of its bytes, the box starts up\n"
           "    from partition %u, in which nothing has changed\n", spare, end, box.sector.in_use);
    if (!reads_back(&box, end) || !starts_up(&box))
        return 0;
    printf("  read back: the same bytes, and a clean end; cut here, still partition %u\n",
           box.sector.in_use);
    box.sector = (struct sector){spare, end};
    if (!starts_up(&box))
        return 0;
    printf("  switched over; cut here, the box starts up from partition %u\n", box.sector.in_use);
    return cuts + 2;
}

int main(void)
{
    const int64_t now = 100000;
    uint64_t ids[KEPT * PROFILES];
    struct depot_wal_checkpointed made;
    depot_wal_status status;

    for (unsigned scooter = 1; scooter <= SCOOTERS; scooter++)
        profile[scooter] = 1;
    if (!write_series() || !write_all(0))
        return 1;
    for (unsigned i = 0; i < 500; i++)
        if (!write_switch(i % SCOOTERS + 1, (i / SCOOTERS + 1) % PROFILES + 1, 100 * (int64_t)i))
            return 1;
    printf("500 switches: the log in partition %u has %zu bytes of %u.\n", box.sector.in_use,
           box.sector.end, DEPOT_WAL_PAGE);

    printf("Scooter 4 has left; what the others have now is kept:\n");
    for (unsigned i = 0; i < KEPT * PROFILES; i++)
        ids[i] = series_id(i / PROFILES + 1, i % PROFILES + 1);
    if (!write_all(now))
        return 1;
    status = depot_wal_checkpoint(DEPOT_WAL_V1, box.partition[box.sector.in_use], box.sector.end,
                                  ids, KEPT * PROFILES, now, target, sizeof target, work,
                                  sizeof work, body, sizeof body, &made);
    if (status != DEPOT_WAL_DONE) { /* the log in use is as it was: go on with it */
        printf("  at %" PRIu64 ": %s\n", made.error_at, depot_wal_status_text(status));
        return 1;
    }
    printf("  a checkpoint of %" PRIu64 " bytes, in memory\n", made.next);
    size_t cuts = switch_over(made.next);
    if (cuts == 0)
        return 1;
    printf("%zu power failures: each time the box had one whole log, and no switch was lost.\n",
           cuts);

    if (!write_switch(1, profile[1] % PROFILES + 1, now + 1) || !starts_up(&box))
        return 1;
    printf("The next switch is written to partition %u, which then has %zu bytes.\n",
           box.sector.in_use, box.sector.end);
    return 0;
}
