/* The checksum's table as a constant, for firmware that has 8 KiB of flash to spare for the calls
 * with a table, and no RAM.
 *
 * The calls with a table (depot_wal_write_with_table, depot_wal_read_with_table,
 * depot_wal_crc32c_with_table) take a little less work on records below 512 bytes (docs/SPEED.md,
 * "Plain or with a table"). A table that depot_wal_table fills takes 8,192 bytes of RAM. This one
 * is those same numbers as a constant: a linker leaves constants in flash, where a processor reads
 * them in place. (On one that copies its constants to RAM at the start, or cannot read flash as
 * memory, nothing is gained.)
 *
 * Compile depot_wal_flash_table.c with the firmware, and lend the table; depot_wal_table is not
 * called:
 *
 *     #include "depot_wal_flash_table.h"
 *
 *     status = depot_wal_write_with_table(depot_wal_flash_table, DEPOT_WAL_V1, segment,
 *                                         sizeof segment, place, record, length, &written);
 *
 *     cc -Iinclude -Iflash firmware.c flash/depot_wal_flash_table.c libdepot_wal.a
 *
 * What holds for a table that depot_wal_table filled holds for this one, as long as it is the same:
 * `make test` compares all numbers, and has a record written and read by it. */
#ifndef DEPOT_WAL_FLASH_TABLE_H
#define DEPOT_WAL_FLASH_TABLE_H

#include "depot_wal.h"

#ifdef __cplusplus
extern "C" {
#endif

extern const uint32_t depot_wal_flash_table[DEPOT_WAL_TABLE_LEN];

#ifdef __cplusplus
}
#endif

#endif
