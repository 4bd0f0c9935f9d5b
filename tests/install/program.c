/* A program outside the tree, built with what pkg-config says. `program FILE` writes two switches to
 * a log, the second cut off by a power failure, as a file; then reads it back. */
#include <depot_wal.h>
#include <depot_wal_flash_table.h>

#include <stdio.h>
#include <string.h>

static uint8_t segment[DEPOT_WAL_PAGE], buffer[DEPOT_WAL_RECORD_MAX];
static struct depot_wal_series table[DEPOT_WAL_SERIES_MAX];
static size_t end;

/* Writes a record by the table for flash. */
static int put(const uint8_t *body, size_t used)
{
    struct depot_wal_written out;
    depot_wal_status status = depot_wal_write_with_table(depot_wal_flash_table, DEPOT_WAL_V1, segment,
                                                         sizeof segment, end, body, used, &out);
    end = out.next;
    return status == DEPOT_WAL_DONE;
}

/* Two profiles of scooter 7, as series. */
static int put_series(void)
{
    static const uint64_t lengths[] = {7, 1, 7, 1};
    const uint8_t type = DEPOT_WAL_SERIES;
    struct depot_wal_built out;
    uint8_t body[128];
    return depot_wal_body_start(body, sizeof body, type, &out) == DEPOT_WAL_DONE
        && depot_wal_add_series(body, sizeof body, type, out.used, 1,
                                (const uint8_t *)"scooter7profile1", 16, lengths, 4, &out) == DEPOT_WAL_DONE
        && depot_wal_add_series(body, sizeof body, type, out.used, 2,
                                (const uint8_t *)"scooter7profile2", 16, lengths, 4, &out) == DEPOT_WAL_DONE
        && put(body, out.used);
}

/* One profile off, the other on. */
static int put_switch(uint64_t off, uint64_t on, int64_t time)
{
    const uint8_t type = DEPOT_WAL_SAMPLES;
    struct depot_wal_built out;
    uint8_t body[64];
    return depot_wal_body_start(body, sizeof body, type, &out) == DEPOT_WAL_DONE
        && depot_wal_add_sample(body, sizeof body, type, out.used, off, time, 0, &out) == DEPOT_WAL_DONE
        && depot_wal_add_sample(body, sizeof body, type, out.used, on, time, 0x3FF0000000000000u, &out)
               == DEPOT_WAL_DONE
        && put(body, out.used);
}

int main(int argc, char **argv)
{
    struct depot_wal_replayed out;
    depot_wal_status status;
    FILE *file;
    if (argc != 2 || !put_series() || !put_switch(1, 2, 1000) || !put_switch(2, 1, 2000))
        return 1;
    end -= 20; /* what survives */
    status = depot_wal_replay(DEPOT_WAL_V1, segment, end, buffer, sizeof buffer, table, &out);
    if (status != DEPOT_WAL_TORN || out.series != 2 || table[0].bits != 0 || table[1].bits == 0)
        return 1;
    file = fopen(argv[1], "wb");
    if (!file || fwrite(segment, 1, end, file) != end || fclose(file) != 0)
        return 1;
    printf("%s\n", depot_wal_status_text(status));
    return 0;
}
