/* The table for flash is the one that the library fills, and a record is written and read by it.
 * Prints one line; if a check fails, it prints what, and exits with 1. */
#include "depot_wal_flash_table.h"

#include <stdio.h>
#include <stdlib.h>
#include <string.h>

static void check(int holds, const char *what)
{
    if (!holds) {
        fprintf(stderr, "flash.c: fails: %s\n", what);
        exit(1);
    }
}
#define CHECK(holds) check((holds), #holds)

/* The table as the library fills it, and two segments: by the plain call, and by the constant. */
static uint32_t filled[DEPOT_WAL_TABLE_LEN];
static uint8_t plain[DEPOT_WAL_PAGE], quick[DEPOT_WAL_PAGE], buffer[DEPOT_WAL_RECORD_MAX];

static void write_and_read(uint32_t version)
{
    static const uint8_t data[] = "37 bytes, of which a short record is ";
    struct depot_wal_written a, b;
    struct depot_wal_good good = {0, 0};
    struct depot_wal_record record;

    CHECK(depot_wal_write(version, plain, sizeof plain, 0, data, 37, &a) == DEPOT_WAL_DONE);
    CHECK(depot_wal_write_with_table(depot_wal_flash_table, version, quick, sizeof quick, 0, data,
                                     37, &b) == DEPOT_WAL_DONE);
    CHECK(a.next == 44 && b.next == 44 && memcmp(plain, quick, sizeof plain) == 0);
    CHECK(depot_wal_read_with_table(depot_wal_flash_table, version, plain, 44, 0, buffer,
                                    sizeof buffer, &good, &record) == DEPOT_WAL_DONE);
    CHECK(record.length == 37 && memcmp(buffer, data, 37) == 0);
}

int main(void)
{
    CHECK(sizeof depot_wal_flash_table == 8192);
    depot_wal_table(filled);
    CHECK(memcmp(filled, depot_wal_flash_table, sizeof filled) == 0);
    CHECK(depot_wal_crc32c_with_table(depot_wal_flash_table, (const uint8_t *)"123456789", 9) ==
          0xE3069283u);
    write_and_read(DEPOT_WAL_V1);
    write_and_read(DEPOT_WAL_V2);
    printf("flash: %d numbers are those that the library fills\n", DEPOT_WAL_TABLE_LEN);
    return 0;
}
