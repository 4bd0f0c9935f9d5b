/* A proved write-ahead log in the Prometheus format, for programs in C (docs/CLAIMS.md says what is
 * proved).
 *
 * A segment is a caller-owned buffer. Records of 1 to 65,536 bytes are written into it and read
 * back, also after a power failure, from which writing goes on. Seven types of record bodies are
 * encoded and decoded, a log is replayed into a table of what each series had last, a report says
 * between which readings each series lies, a checkpoint writes what is still wanted of a segment to
 * a new one, an index beside a segment tells where each record is, a call tells how big a partition
 * must be, and the names of segments' files are parsed and made.
 * docs/FORMAT.md draws the bytes; examples/switch.c and examples/checkpoint.c are whole programs.
 * The archive is for Linux on x86-64; beside the caller's memory it needs `memset` and `memcpy`.
 *
 * An example (`make test` compiles and runs it)
 *
 *     #include "depot_wal.h"
 *     #include <stdio.h>
 *
 *     int main(void)
 *     {
 *         static uint8_t segment[DEPOT_WAL_PAGE], buffer[DEPOT_WAL_RECORD_MAX];
 *         static const uint8_t hello[] = "hello";
 *         struct depot_wal_written written;
 *         struct depot_wal_good good = {0, 0};
 *         struct depot_wal_record record;
 *         depot_wal_status status;
 *         size_t place = 0;
 *
 *         status = depot_wal_write(DEPOT_WAL_V1, segment, sizeof segment, place, hello, 5,
 *                                  &written);
 *         if (status != DEPOT_WAL_DONE)
 *             return 1;
 *         // Read what is on the medium: written.next bytes, or fewer after a power failure.
 *         while ((status = depot_wal_read(DEPOT_WAL_V1, segment, written.next, place, buffer,
 *                                         sizeof buffer, &good, &record)) == DEPOT_WAL_DONE) {
 *             fwrite(buffer, 1, record.length, stdout);
 *             place = record.next;
 *         }
 *         if (status != DEPOT_WAL_END && status != DEPOT_WAL_TORN) // what was whole is before here
 *             fprintf(stderr, "%s, %zu bytes are good\n", depot_wal_status_text(status),
 *                     (size_t)good.offset);
 *         return 0;
 *     }
 *
 * What a call returns
 *   DEPOT_WAL_DONE (0)  no error: the result is in *out
 *   DEPOT_WAL_END       there is nothing more to read; this is no error either
 *   DEPOT_WAL_MORE      the next page of the feed is asked for; nor is this
 *   otherwise           an error; depot_wal_status_text has a text for it. The comment of each call
 *                       lists its errors in the order in which they are checked.
 *
 * What is in *out afterwards (every field is always written)
 *   A call that reads: the fields as the struct names them. On an error the first field is the
 *   place of the error and the others are 0; at an end, and where more is asked for, all are 0.
 *   A call that writes: the first field, `next` or `used`, is what to pass to the next call. On an
 *   error that is the value which this call was given (0 when starting a body, building an index or
 *   making a name), so always go on with it; where resuming fails it is 0, and there is nothing to
 *   go on with. `error_at` is the place of the error, else 0.
 *   A replay: `error_at` is the place of the error, else 0; the others always count.
 *   A report: `error_at` as in a replay; what is counted is in the report itself.
 *   A checkpoint: `next` is where its records end in the target; `error_at` as in a replay.
 *   `good`, of resuming, a feed and a replay, is the good length so far, whatever is returned.
 *   A place is an offset in the segment or in the body.
 *   On an error or at an end nothing but *out has changed, and *good is as it was given; of the
 *   page feed, of a replay, of a report and of a checkpoint, see there.
 *
 * What the caller owes
 *   - Every pointer is valid for its length, `out`, `good`, `table`, `state` and `report` for their
 *     declared size, and aligned for its type. A pointer whose length is 0 may be NULL. `out`,
 *     `good`, `table`, `state` and `report` are never NULL.
 *   - What a call may write (the segment of a write or of resuming, the buffer, a checkpoint's
 *     target and its two buffers, an index or a name that is made, `out`, `good`, `state`,
 *     `report`, a table to be filled) does not overlap anything else that is passed to the same
 *     call.
 *   - Nobody else writes any of this memory while the call runs.
 *   Nothing more: any bytes, place, length, type and number get a defined result.
 *
 * What the library promises
 *   - It never traps, and it touches no memory but what it is passed.
 *   - Records and entries that were written read back the same. After a power failure exactly the
 *     records that are whole come back, then DEPOT_WAL_TORN or DEPOT_WAL_END; the next section says
 *     what the caller does for that.
 *   - It allocates nothing and keeps nothing between calls. So calls may run at the same time where
 *     none of them writes memory that another one uses: a table, or a segment that is only read,
 *     may be shared.
 *   - Seen in the machine code, not proved: every call takes less than 5 KiB of stack, one on an
 *     index and resuming less than 14 KiB, a replay or a report less than 25 KiB, a checkpoint less
 *     than 30 KiB, and none recurses.
 *
 * The versions of a segment
 *   A segment is of version 1, which stock Prometheus reads, or of version 2, whose checksum covers
 *   the type byte and the length too. Its name has the version; the bytes do not. Every call that
 *   reads or writes a segment is told it, and a segment is read as the version that it was written
 *   in: read as the other one, its records are DEPOT_WAL_BAD_SUM. Any other number is
 *   DEPOT_WAL_BAD_NAME with place 0, before all else, and nothing but *out changes; a feed is then
 *   started for version 1, and of a report and of a checkpoint see there.
 *
 * From memory to the medium
 *   A call works on memory, and a write stores its bytes there in no promised order. The caller
 *   brings the bytes from the old place to the new one to the medium, in the order of their
 *   offsets. The promise about a power failure (docs/FORMAT.md) is about bytes that were stored in
 *   that order, and about reading exactly those that are there: pass their number as segment_len,
 *   not the size of a file that was made long beforehand. The library does no I/O: a record is safe
 *   once the caller has flushed it.
 *
 * A file that is mapped, or was made long beforehand
 *   It is zero where nothing was stored yet. If the program is killed, or the power fails, in the
 *   middle of a write there, some bytes of the record are stored, in any order, and zeros are in
 *   place of the others. Read with the size of the file as segment_len:
 *   - To be expected: every record before that one, where its bytes are on the medium, and no empty
 *     record. Where the bytes were stored in order up to a type byte, no record beyond them either:
 *     zeros after a type byte are never read as a record or as the end of one (DEPOT_WAL_HOLLOW).
 *   - Not to be expected: DEPOT_WAL_TORN, or a place to resume at. The record in question gives
 *     DEPOT_WAL_HOLLOW, DEPOT_WAL_BAD_SUM, DEPOT_WAL_OUT_OF_ORDER or another error, or, if its type
 *     byte was not stored, DEPOT_WAL_END. Data of which a part was stored is noticed by its
 *     checksum alone. The number of flushed bytes, kept elsewhere and passed as segment_len, gives
 *     the promise of the section before.
 *
 * Starting again after a power failure (examples/switch.c does it)
 *   Bring what survived back into the segment, which has whole pages, and call depot_wal_resume
 *   with the number of these bytes. It reads them from the start, and returns
 *   DEPOT_WAL_DONE  Go on writing at out.next, with the first record that did not come out: the one
 *                   after out.good.records. It is behind the last record, or where the power cut
 *                   one off, over what is left of that. Truncate the medium there first: a second
 *                   power failure must not leave old bytes after new ones. Padding before it that
 *                   did not survive is zero in the segment now: bring it to the medium too. Once
 *                   the same records are written, the segment is byte for byte as if the power had
 *                   never failed, however often it does.
 *   otherwise       If the arguments are right, these bytes are not a log of this library that was
 *                   cut off: they are corrupt, or of another program or version. Keep them for
 *                   whoever looks into it, and start a new segment.
 *
 * The good length, for a technician
 *   Every answer of a reading, the errors too, comes with a struct depot_wal_good: how many records
 *   were whole up to it, and the offset just past the last of them. Truncate a copy of the medium
 *   there, and nothing that was whole is lost. A reading begins with {0, 0} and passes to each read
 *   the good length as the read before left it. To write on, see above.
 */
#ifndef DEPOT_WAL_H
#define DEPOT_WAL_H

#include <stddef.h>
#include <stdint.h>

#ifdef __cplusplus
extern "C" {
#endif

/* The version of this header and its archive, not of the log's format. */
#define DEPOT_WAL_VERSION_MAJOR  0
#define DEPOT_WAL_VERSION_MINOR  1
#define DEPOT_WAL_VERSION_PATCH  0
#define DEPOT_WAL_VERSION_STRING "0.1.0"

/* Sizes in bytes. */
#define DEPOT_WAL_PAGE         32768u     /* a page */
#define DEPOT_WAL_HEADER       7u         /* a fragment's header */
#define DEPOT_WAL_FRAGMENT_MAX 32761u     /* a fragment's data at most */
#define DEPOT_WAL_RECORD_MAX   65536u     /* a record at most, a read's buffer at least */
#define DEPOT_WAL_SEGMENT_MAX  134217728u /* a segment at most */
#define DEPOT_WAL_INDEX_HEAD   12u        /* an index without records */
#define DEPOT_WAL_INDEX_ROW    8u         /* in an index, for each record */
#define DEPOT_WAL_NAME_MAX     9u         /* the name of a segment at most */

/* The versions of a segment. */
#define DEPOT_WAL_V1 1u /* the checksum is over the data */
#define DEPOT_WAL_V2 2u /* the checksum is over the type byte, the length and the data */

#define DEPOT_WAL_TABLE_LEN  2048 /* numbers in the checksum's table */
#define DEPOT_WAL_FEED_LEN   16   /* numbers in the state of a page feed */
#define DEPOT_WAL_SERIES_MAX 256  /* series in the table of a replay, and in a report */
#define DEPOT_WAL_REPLAY_LEN 1280 /* numbers in that table: five for each series */
#define DEPOT_WAL_NIGHT_MAX  1024 /* segments in a report */
#define DEPOT_WAL_REPORT_LEN 1284 /* numbers in a report: four, then five for each series */

#define DEPOT_WAL_SEQUENCE_MAX 999999u /* the highest sequence of a segment's name */

/* The types of record bodies. */
enum depot_wal_type {
    DEPOT_WAL_SERIES = 1,
    DEPOT_WAL_SAMPLES = 2,
    DEPOT_WAL_TOMBSTONES = 3,
    DEPOT_WAL_EXEMPLARS = 4,
    DEPOT_WAL_METADATA = 6,
    DEPOT_WAL_HISTOGRAMS = 7,      /* histograms whose counts and buckets are whole numbers */
    DEPOT_WAL_FLOAT_HISTOGRAMS = 8 /* histograms whose counts and buckets are floats */
};

/* ---- status ---- */

/* What a call returns: one of the values below. Errors have the numbers of docs/FORMAT.md. */
typedef uint32_t depot_wal_status;

enum {
    DEPOT_WAL_DONE = 0,          /* no error */
    DEPOT_WAL_BAD_BUFFER = 1,    /* a segment, page or buffer of a length that is not allowed */
    DEPOT_WAL_BAD_PLACE = 2,     /* no such place or state, or a page that was not asked for */
    DEPOT_WAL_RESERVED = 3,      /* a reserved bit is set in a type byte */
    DEPOT_WAL_COMPRESSED = 4,    /* a compression bit is set in a type byte */
    DEPOT_WAL_BAD_TYPE = 5,      /* a fragment of kind 5, 6 or 7 */
    DEPOT_WAL_NOT_ZERO = 6,      /* a byte of padding, or of the rest of an empty page, is not 0 */
    DEPOT_WAL_OUT_OF_ORDER = 7,  /* a fragment that cannot come here */
    DEPOT_WAL_PAST_PAGE = 8,     /* a fragment's length goes beyond its page */
    DEPOT_WAL_TOO_LONG = 9,      /* a record or body above 65,536 bytes */
    DEPOT_WAL_BAD_SUM = 10,      /* the checksum differs */
    DEPOT_WAL_NO_ROOM = 11,      /* it does not fit into what is left */
    DEPOT_WAL_TORN = 12,         /* the bytes end inside a record */
    DEPOT_WAL_HOLLOW = 13,       /* a record without any byte, or a last fragment without data */
    DEPOT_WAL_UNKNOWN_TYPE = 20, /* a body type that is not in enum depot_wal_type */
    DEPOT_WAL_EMPTY_BODY = 21,   /* a body without any byte */
    DEPOT_WAL_SHORT = 22,        /* the body ends inside a field */
    DEPOT_WAL_BAD_VARINT = 23,   /* the tenth byte of a varint is above 1 */
    DEPOT_WAL_LIST_FULL = 24,    /* more entries than a list holds; no call here returns it */
    DEPOT_WAL_BAD_LIST = 25,     /* strings or spans whose numbers do not go together */
    DEPOT_WAL_WRONG_KIND = 26,   /* an entry for, or a histogram in, a body of another type */
    DEPOT_WAL_BAD_RANGE = 27,    /* a number of a histogram that does not fit 32 bits */
    DEPOT_WAL_TABLE_FULL = 28,   /* more than 256 series in a log or in a report */
    DEPOT_WAL_BAD_INDEX = 29,    /* not the index of this segment */
    DEPOT_WAL_BAD_NAME = 30,     /* not the name of a segment; no such sequence or version */
    DEPOT_WAL_END = 200,         /* the end of the log or of the body; no error */
    DEPOT_WAL_MORE = 201         /* the next page is asked for; no error */
};

/* The text of a status, for a log line or a terminal. Never NULL. */
static inline const char *depot_wal_status_text(depot_wal_status status)
{
    switch (status) {
    case DEPOT_WAL_DONE: return "done";
    case DEPOT_WAL_BAD_BUFFER: return "segment, page or buffer of a length that is not allowed";
    case DEPOT_WAL_BAD_PLACE: return "no such place or state, or page not asked for";
    case DEPOT_WAL_RESERVED: return "corrupt: reserved bit set in a type byte";
    case DEPOT_WAL_COMPRESSED: return "compressed record, which is not supported";
    case DEPOT_WAL_BAD_TYPE: return "corrupt: unknown kind of fragment";
    case DEPOT_WAL_NOT_ZERO: return "corrupt: padding or rest of a page is not zero";
    case DEPOT_WAL_OUT_OF_ORDER: return "corrupt: fragment out of order";
    case DEPOT_WAL_PAST_PAGE: return "corrupt: fragment longer than its page";
    case DEPOT_WAL_TOO_LONG: return "record or body longer than 65536 bytes";
    case DEPOT_WAL_BAD_SUM: return "corrupt: checksum mismatch";
    case DEPOT_WAL_NO_ROOM: return "no room left in the segment or buffer";
    case DEPOT_WAL_TORN: return "record truncated, as by a power failure";
    case DEPOT_WAL_HOLLOW: return "record without any byte, or zeros where one was cut off";
    case DEPOT_WAL_UNKNOWN_TYPE: return "unknown type of record body";
    case DEPOT_WAL_EMPTY_BODY: return "record body without any byte";
    case DEPOT_WAL_SHORT: return "body truncated inside a field";
    case DEPOT_WAL_BAD_VARINT: return "corrupt: varint above 64 bits";
    case DEPOT_WAL_LIST_FULL: return "more entries than the list holds";
    case DEPOT_WAL_BAD_LIST: return "strings or spans whose numbers do not go together";
    case DEPOT_WAL_WRONG_KIND: return "entry for, or histogram in, a body of another type";
    case DEPOT_WAL_BAD_RANGE: return "number of a histogram above 32 bits";
    case DEPOT_WAL_TABLE_FULL: return "more series than the table holds";
    case DEPOT_WAL_BAD_INDEX: return "index that is not this segment's";
    case DEPOT_WAL_BAD_NAME: return "not the name of a segment, or no such sequence or version";
    case DEPOT_WAL_END: return "nothing more to read";
    case DEPOT_WAL_MORE: return "the next page is asked for";
    default: return "unknown status";
    }
}

/* ---- results: what a call leaves in *out ---- */

/* Of a write. */
struct depot_wal_written {
    uint64_t next;     /* the place for the next write; on an error: the place given */
    uint64_t error_at; /* the place of the error, else 0 */
};

/* Of starting a body and of adding an entry. */
struct depot_wal_built {
    uint64_t used;     /* the bytes of the body so far; on an error: those given, 0 at a start */
    uint64_t error_at; /* the place of the error, else 0 */
};

/* The good length of a reading: what was whole so far. {0, 0} before the first read. */
struct depot_wal_good {
    uint64_t records; /* how many records were whole */
    uint64_t offset;  /* the place just past the last of them, 0 without any: truncate there */
};

/* Of a read: a record. */
struct depot_wal_record {
    uint64_t start;  /* the place of its first fragment; on an error: the place of the error */
    uint64_t length; /* its bytes, which are the first of the buffer */
    uint64_t next;   /* the place after it, for the next read; for a write see depot_wal_resume */
};

/* Of resuming. */
struct depot_wal_resumed {
    uint64_t next;              /* the place for the next write; on an error: 0 */
    uint64_t error_at;          /* the place of the error, else 0 */
    struct depot_wal_good good; /* the records that came out, and where the last of them ends */
};

/* Of feeding a page. */
struct depot_wal_fed {
    uint64_t error_at;          /* the place of the error, else 0 */
    struct depot_wal_good good; /* the good length so far */
};

/* Of a read of a feed: a record. */
struct depot_wal_feed_record {
    uint64_t start;             /* as in struct depot_wal_record */
    uint64_t length;
    uint64_t next;
    struct depot_wal_good good; /* the good length up to and with this answer */
};

/* Of the check of a body. */
struct depot_wal_count {
    uint64_t count; /* how many entries it has, or records are listed; on an error: its place */
};

/* An entry of a body. A field that the type lacks is 0. */
struct depot_wal_entry {
    uint64_t type;       /* of enum depot_wal_type; on an error: the place of the error */
    uint64_t id;         /* series id */
    int64_t time;        /* time (milliseconds, for Prometheus), or a tombstone's min */
    int64_t max;         /* a tombstone's max */
    uint64_t bits;       /* the 64 bits of the value or of a histogram's sum, or the metric type */
    uint64_t strings;    /* how many strings */
    uint64_t strings_at; /* the place of the first, for depot_wal_string_at; without any: next */
    uint64_t next;       /* the place after the entry */
};

/* A string of an entry. */
struct depot_wal_string {
    uint64_t start;  /* the place of its first byte; on an error: the place of the error */
    uint64_t length; /* its bytes */
};

/* A list of a histogram. */
struct depot_wal_list {
    uint64_t count; /* how many elements */
    uint64_t first; /* the place of the first, for depot_wal_span_at or depot_wal_bucket_at */
};

/* A histogram. Floats are their 64 bits. */
struct depot_wal_histogram {
    uint64_t type;           /* of enum depot_wal_type; on an error: the place of the error */
    uint64_t id;             /* series id */
    int64_t time;            /* time (milliseconds, for Prometheus) */
    uint64_t hint;           /* the counter reset hint, any byte */
    int64_t schema;          /* the schema, which fits 32 bits */
    uint64_t zero_threshold; /* a float */
    uint64_t zero_count;     /* a number; of DEPOT_WAL_FLOAT_HISTOGRAMS a float */
    uint64_t count;          /* a number; of DEPOT_WAL_FLOAT_HISTOGRAMS a float */
    uint64_t sum;            /* a float */
    struct depot_wal_list positive_spans;
    struct depot_wal_list negative_spans;
    struct depot_wal_list positive_buckets;
    struct depot_wal_list negative_buckets;
    uint64_t next; /* the place after the histogram */
};

/* A span of a histogram. */
struct depot_wal_span {
    int64_t offset;  /* its offset, which fits 32 bits; on an error: the place of the error */
    uint64_t length; /* its length, which fits 32 bits */
    uint64_t next;   /* the place after it: that of the next one */
};

/* A bucket of a histogram. */
struct depot_wal_bucket {
    uint64_t bits; /* its 64 bits: a number in two's complement, or a float; on an error: the place
                    * of the error */
    uint64_t next; /* the place after it: that of the next one */
};

/* Of a replay. */
struct depot_wal_replayed {
    uint64_t error_at; /* the place of the error, else 0 */
    uint64_t series;   /* how many series the table has, which are its first rows */
    uint64_t orphans;  /* how many samples had an id that was not entered before them */
    uint64_t skipped;  /* how many records were skipped, since their body type is unknown */
    struct depot_wal_good good; /* the records replayed, skipped ones too, and where they end */
};

/* A row of the table of a replay: a series, and what it had last. */
struct depot_wal_series {
    uint64_t id;      /* series id */
    uint64_t rows;    /* how many of its rows were replayed */
    int64_t time;     /* the latest time of these; 0 without rows */
    uint64_t bits;    /* the 64 bits of the value at that time; 0 without rows */
    uint64_t deleted; /* 1 if a tombstone that came after that row covers its time, else 0 */
};

/* Of a report. */
struct depot_wal_reported {
    uint64_t error_at; /* the place of the error, else 0 */
};

/* A series of a report. */
struct depot_wal_extremes {
    uint64_t id;       /* series id */
    uint64_t rows;     /* how many rows it has */
    uint64_t nans;     /* how many of these are NaN */
    uint64_t smallest; /* the 64 bits of the smallest other reading; 0 while every row is NaN */
    uint64_t largest;  /* those of the largest; 0 likewise */
};

/* A report over segments. With the first four numbers zero it is a fresh one. It is the caller's,
 * and goes from call to call as the last one left it. */
struct depot_wal_report {
    uint64_t series;   /* how many series it has, which are its first rows, as first met */
    uint64_t segments; /* how many segments were counted */
    uint64_t error;    /* the error that ended the report; 0 while it goes on */
    uint64_t error_at; /* its place; 0 likewise */
    struct depot_wal_extremes rows[DEPOT_WAL_SERIES_MAX];
};

/* Of a checkpoint. */
struct depot_wal_checkpointed {
    uint64_t next;     /* the place in the target where its records end: that of the next write */
    uint64_t error_at; /* the place of the error in the source, else 0 */
};

/* Of building or extending an index. */
struct depot_wal_indexed {
    uint64_t used;     /* the bytes of the index; on an error: as many as the call was given */
    uint64_t error_at; /* the place of the error, else 0 */
};

/* A row of an index. */
struct depot_wal_row {
    uint64_t start;  /* the start of the record; on an error: the place of the error */
    uint64_t length; /* its bytes */
};

/* Of the size of a partition. */
struct depot_wal_pages {
    uint64_t pages; /* how many pages of DEPOT_WAL_PAGE bytes; on an error: its place */
};

/* What the name of a segment says. */
struct depot_wal_name {
    uint64_t sequence; /* its number among the segments; on an error: the place of the error */
    uint64_t version;  /* the version of its format, 1 or 2 */
};

/* Of making a name. */
struct depot_wal_named {
    uint64_t used;     /* the bytes of the name; on an error: 0 */
    uint64_t error_at; /* the place of the error, else 0 */
};

/* The library writes each of them as an array of uint64_t, so none may be padded. This is a check
 * at compile time. */
typedef char depot_wal_layout[
    sizeof(struct depot_wal_written) == 2 * 8 && sizeof(struct depot_wal_built) == 2 * 8 &&
    sizeof(struct depot_wal_good) == 2 * 8 && sizeof(struct depot_wal_record) == 3 * 8 &&
    sizeof(struct depot_wal_resumed) == 4 * 8 && sizeof(struct depot_wal_fed) == 3 * 8 &&
    sizeof(struct depot_wal_feed_record) == 5 * 8 && sizeof(struct depot_wal_count) == 1 * 8 &&
    sizeof(struct depot_wal_entry) == 8 * 8 && sizeof(struct depot_wal_string) == 2 * 8 &&
    sizeof(struct depot_wal_list) == 2 * 8 && sizeof(struct depot_wal_histogram) == 18 * 8 &&
    sizeof(struct depot_wal_span) == 3 * 8 && sizeof(struct depot_wal_bucket) == 2 * 8 &&
    sizeof(struct depot_wal_replayed) == 6 * 8 && sizeof(struct depot_wal_series) == 5 * 8 &&
    sizeof(struct depot_wal_reported) == 1 * 8 && sizeof(struct depot_wal_extremes) == 5 * 8 &&
    sizeof(struct depot_wal_report) == DEPOT_WAL_REPORT_LEN * 8 &&
    sizeof(struct depot_wal_checkpointed) == 2 * 8 &&
    sizeof(struct depot_wal_indexed) == 2 * 8 && sizeof(struct depot_wal_row) == 2 * 8 &&
    sizeof(struct depot_wal_pages) == 1 * 8 &&
    sizeof(struct depot_wal_name) == 2 * 8 && sizeof(struct depot_wal_named) == 2 * 8
        ? 1 : -1];

/* ---- the segment ---- */

/* Writes a record at `place`: 0 at first, later the `next` of the write before. `version` is the
 * segment's, DEPOT_WAL_V1 or DEPOT_WAL_V2.
 * Result: the place for the next write.
 * Errors, with error_at:
 *   DEPOT_WAL_BAD_NAME    0      no such version
 *   DEPOT_WAL_BAD_BUFFER  0      the segment is not one or more whole pages, or is above
 *                                DEPOT_WAL_SEGMENT_MAX
 *   DEPOT_WAL_BAD_PLACE   0      `place` is past the segment or has 1 to 6 bytes left in its page
 *   DEPOT_WAL_HOLLOW      place  record_len is 0
 *   DEPOT_WAL_TOO_LONG    place  the record is above DEPOT_WAL_RECORD_MAX
 *   DEPOT_WAL_NO_ROOM     place  the record does not fit, or `place` is the segment's end
 * Changes: the segment's bytes from `place` to the new `next`, and *out. */
depot_wal_status depot_wal_write(uint32_t version, uint8_t *segment, size_t segment_len,
                                 size_t place, const uint8_t *record, size_t record_len,
                                 struct depot_wal_written *out);

/* Reads the first record at or after `place` (0 at first, later the `next` of the record before)
 * into the buffer. Padding and empty pages before it are skipped, so its start may be above the
 * place given.
 * segment_len is the number of bytes that are there, which need not be whole pages.
 * `good` is the good length as the read before left it, {0, 0} at first; with a record it counts
 * one more and goes to the place after it, else it stays.
 * Result: the record's start, its length and the place after it; DEPOT_WAL_END at a clean end.
 * Errors, with the place in `start`; after the first three they are checked for each fragment:
 *   DEPOT_WAL_BAD_NAME      0          no such version
 *   DEPOT_WAL_BAD_BUFFER    0          the segment is above DEPOT_WAL_SEGMENT_MAX, or the buffer
 *                                      below DEPOT_WAL_RECORD_MAX
 *   DEPOT_WAL_BAD_PLACE     0          `place` is past the segment, or no read can have left this
 *                                      `good`: more records than its offset, or an offset above
 *                                      `place`
 *   DEPOT_WAL_NOT_ZERO      that byte  padding before the fragment is not zero
 *   DEPOT_WAL_RESERVED      type byte  a reserved bit is set
 *   DEPOT_WAL_COMPRESSED    type byte  a compression bit is set
 *   DEPOT_WAL_BAD_TYPE      type byte  kind 5, 6 or 7
 *   DEPOT_WAL_OUT_OF_ORDER  type byte  kind 3 or 4 with no record begun; 0, 1 or 2 inside one
 *   DEPOT_WAL_NOT_ZERO      that byte  kind 0, and the rest of the page is not zero
 *   DEPOT_WAL_TORN          record     the bytes end inside the header
 *   DEPOT_WAL_HOLLOW        type byte  kind 1 or 4, and the length is 0
 *   DEPOT_WAL_PAST_PAGE     type byte  the length goes beyond the page
 *   DEPOT_WAL_TOO_LONG      type byte  the record would be above DEPOT_WAL_RECORD_MAX
 *   DEPOT_WAL_TORN          record     the bytes end inside the data
 *   DEPOT_WAL_BAD_SUM       type byte  the checksum differs
 *   DEPOT_WAL_TORN          record     the bytes end where the record's next fragment should be
 * "type byte" is that of the fragment at hand, "record" the start of the truncated record.
 * Changes: with a record of n bytes the first n of the buffer, and *good; and *out. */
depot_wal_status depot_wal_read(uint32_t version, const uint8_t *segment, size_t segment_len,
                                size_t place, uint8_t *buffer, size_t buffer_len,
                                struct depot_wal_good *good, struct depot_wal_record *out);

/* Where to go on writing after a power failure, in a segment of which the first `survived` bytes
 * are there. They are read from the start; no record is copied.
 * Result: where they end inside a record, its start; where they end clean, the place behind the
 * last record, or the next page where 1 to 6 bytes are left in its page: these are set to zero. So
 * zeros behind the last record, as of an empty page, are written over. The good length, also on an
 * error, is of the records that came out; {0, 0} with the first three errors.
 * Errors, with error_at; `next` is 0:
 *   DEPOT_WAL_BAD_NAME    0  no such version
 *   DEPOT_WAL_BAD_BUFFER  0  the segment is not one or more whole pages, or is above
 *                            DEPOT_WAL_SEGMENT_MAX
 *   DEPOT_WAL_BAD_PLACE   0  `survived` is beyond the segment
 *   then those of depot_wal_read about the bytes, DEPOT_WAL_TORN aside
 * Changes: at most the 6 bytes before the new `next`, and *out. */
depot_wal_status depot_wal_resume(uint32_t version, uint8_t *segment, size_t segment_len,
                                  size_t survived, struct depot_wal_resumed *out);

/* ---- the page feed: a segment read page by page, for those who cannot hold it whole ---- */

/* A feed keeps a state of DEPOT_WAL_FEED_LEN numbers, which belong to the library, between the
 * calls. Start it, then read; where a read returns DEPOT_WAL_MORE, feed the next page and read on.
 * Every page is DEPOT_WAL_PAGE bytes but the last, which is shorter, or empty where the segment is
 * whole pages, and ends the feed:
 *
 *     depot_wal_feed_start(state, DEPOT_WAL_V1);
 *     while ((status = depot_wal_feed_read(state, page, n, buffer, sizeof buffer, &record)) ==
 *                DEPOT_WAL_DONE || status == DEPOT_WAL_MORE) {
 *         if (status == DEPOT_WAL_DONE) {
 *             fwrite(buffer, 1, record.length, stdout);
 *             continue;
 *         }
 *         n = fread(page, 1, sizeof page, stdin); // n is 0 before the first page
 *         if (depot_wal_feed_page(state, page, n, &fed) != DEPOT_WAL_DONE)
 *             break; // above DEPOT_WAL_SEGMENT_MAX
 *     }
 *
 * The results are those of depot_wal_read on all the pages as one segment, as long as the page
 * that was fed is the same at every read until more is asked for, and so is the buffer while a
 * record is open. The state carries the version, and the good length, which every call of the feed
 * gives, whatever it returns. A state that no call left, of numbers beyond the limits, is
 * DEPOT_WAL_BAD_PLACE with place 0, before all else, and nothing but *out changes; the good length
 * is as in that state. */

/* Starts a feed of a segment of a version.
 * Errors: DEPOT_WAL_BAD_NAME, no such version; the feed is then started for version 1.
 * Changes: the state. */
depot_wal_status depot_wal_feed_start(uint64_t state[DEPOT_WAL_FEED_LEN], uint32_t version);

/* Feeds the next page.
 * Result: error_at is 0. The good length stays, also on an error.
 * Errors, with error_at:
 *   of an earlier read     its place  one about the bytes, other than DEPOT_WAL_TORN: every later
 *                                     feed returns it again
 *   DEPOT_WAL_BAD_BUFFER   0          the page is above DEPOT_WAL_PAGE, or all pages together above
 *                                     DEPOT_WAL_SEGMENT_MAX
 *   DEPOT_WAL_BAD_PLACE    0          the last page was fed, or no read has asked for this one
 * Changes: the state, where the page is taken, and *out. */
depot_wal_status depot_wal_feed_page(uint64_t state[DEPOT_WAL_FEED_LEN], const uint8_t *page,
                                     size_t page_len, struct depot_wal_fed *out);

/* Reads the next record into the buffer. `page` is the one fed last, passed again; where more is
 * asked for, and before the first, it is not looked at.
 * Result: the record's start, its length and the place after it, all in the segment; DEPOT_WAL_MORE
 * where the pages so far give no further answer; DEPOT_WAL_END at a clean end.
 * Errors, with the place in `start`:
 *   DEPOT_WAL_BAD_BUFFER  0  the buffer is below DEPOT_WAL_RECORD_MAX
 *   DEPOT_WAL_BAD_BUFFER  0  the page has another length than the one fed last
 *   then those of depot_wal_read about the bytes, again at every later read
 * Changes: the buffer, where each fragment of a record is stored at its offset in the record once
 * its checksum is good, also where the call then returns something else than DEPOT_WAL_DONE; the
 * state, and *out. */
depot_wal_status depot_wal_feed_read(uint64_t state[DEPOT_WAL_FEED_LEN], const uint8_t *page,
                                     size_t page_len, uint8_t *buffer, size_t buffer_len,
                                     struct depot_wal_feed_record *out);

/* ---- the checksum, and its table for those who read or write many short records ---- */

/* Returns the CRC-32C of the data; of no data it is 0. No errors; changes nothing. */
uint32_t depot_wal_crc32c(const uint8_t *data, size_t len);

/* Fills the checksum's table (8,192 bytes), once, for the calls below. No errors; changes the
 * table. flash/depot_wal_flash_table.h has it as a constant, which costs firmware no RAM. */
void depot_wal_table(uint32_t table[DEPOT_WAL_TABLE_LEN]);

/* The calls with a table do the same as those without, and take a little less work on data, or
 * fragments, below 512 bytes (docs/SPEED.md); longer ones do not use the table. The promise that
 * what is written reads back holds for the plain calls and for a table that depot_wal_table filled.
 * The comments below say what any other table does, one that was never filled for instance. */

/* As depot_wal_crc32c. With any other table the sum of data below 512 bytes may differ from CRC-32C
 * and may not show corruption. */
uint32_t depot_wal_crc32c_with_table(const uint32_t table[DEPOT_WAL_TABLE_LEN],
                                     const uint8_t *data, size_t len);

/* As depot_wal_write. With any other table, fragments below 512 bytes may get sums for which a
 * reader without that table returns DEPOT_WAL_BAD_SUM. */
depot_wal_status depot_wal_write_with_table(const uint32_t table[DEPOT_WAL_TABLE_LEN],
                                            uint32_t version, uint8_t *segment,
                                            size_t segment_len, size_t place,
                                            const uint8_t *record, size_t record_len,
                                            struct depot_wal_written *out);

/* As depot_wal_read. With any other table, fragments below 512 bytes may be held to other sums:
 * good ones may get DEPOT_WAL_BAD_SUM, and corrupt ones that were written with that table may
 * pass. */
depot_wal_status depot_wal_read_with_table(const uint32_t table[DEPOT_WAL_TABLE_LEN],
                                           uint32_t version, const uint8_t *segment,
                                           size_t segment_len, size_t place,
                                           uint8_t *buffer, size_t buffer_len,
                                           struct depot_wal_good *good,
                                           struct depot_wal_record *out);

/* ---- encoding a body: start it, then add entries; its bytes are then a record to write ---- */

/* Starts a body of a type.
 * Result: the bytes used, which are 1.
 * Errors, with error_at:
 *   DEPOT_WAL_UNKNOWN_TYPE  0  `type` is not in enum depot_wal_type
 *   DEPOT_WAL_NO_ROOM       0  the buffer is empty
 * Changes: the buffer's first byte, and *out. */
depot_wal_status depot_wal_body_start(uint8_t *buffer, size_t len, uint8_t type,
                                      struct depot_wal_built *out);

/* The seven calls that add an entry. `type` and `used` are the state of the body: the type that it
 * was started with, and the `used` of the call before.
 * Result: the bytes used with the new entry.
 * Errors, with error_at:
 *   DEPOT_WAL_BAD_PLACE   0     no such state: `used` is 0 or more than `len`, or 2 to 16 in a
 *                               type of rows (samples, exemplars, histograms of both types), or
 *                               the buffer's first byte is not `type`
 *   DEPOT_WAL_WRONG_KIND  0     `type` is not the type of this entry
 *   DEPOT_WAL_BAD_LIST    0     `count` is odd, or the lengths do not add up to strings_len; of a
 *                               histogram, a side has not as many offsets as lengths
 *   DEPOT_WAL_TOO_LONG    used  the body would be above DEPOT_WAL_RECORD_MAX
 *   DEPOT_WAL_NO_ROOM     used  the body would be longer than the buffer
 * Changes: the buffer's bytes from the old `used` to the new, and *out.
 *
 * Strings come in pairs (name and text): `strings` holds all of them one after the other, `lengths`
 * their `count` lengths. */

/* Adds a series: its id and its labels. */
depot_wal_status depot_wal_add_series(uint8_t *buffer, size_t len, uint8_t type, size_t used,
                                      uint64_t id, const uint8_t *strings, size_t strings_len,
                                      const uint64_t *lengths, size_t count,
                                      struct depot_wal_built *out);

/* Adds a sample: series id, time (milliseconds, for Prometheus), and the 64 bits of the value
 * (every NaN survives). */
depot_wal_status depot_wal_add_sample(uint8_t *buffer, size_t len, uint8_t type, size_t used,
                                      uint64_t id, int64_t time, uint64_t bits,
                                      struct depot_wal_built *out);

/* Adds a tombstone: the samples of a series from min to max are deleted. */
depot_wal_status depot_wal_add_tombstone(uint8_t *buffer, size_t len, uint8_t type, size_t used,
                                         uint64_t id, int64_t min, int64_t max,
                                         struct depot_wal_built *out);

/* Adds an exemplar: a sample with labels. */
depot_wal_status depot_wal_add_exemplar(uint8_t *buffer, size_t len, uint8_t type, size_t used,
                                        uint64_t id, int64_t time, uint64_t bits,
                                        const uint8_t *strings, size_t strings_len,
                                        const uint64_t *lengths, size_t count,
                                        struct depot_wal_built *out);

/* Adds metadata of a series: its metric type (any byte) and its fields, each a name and a text. */
depot_wal_status depot_wal_add_metadata(uint8_t *buffer, size_t len, uint8_t type, size_t used,
                                        uint64_t id, uint8_t metric_type,
                                        const uint8_t *strings, size_t strings_len,
                                        const uint64_t *lengths, size_t count,
                                        struct depot_wal_built *out);

/* Adds a histogram of whole numbers, type DEPOT_WAL_HISTOGRAMS: series id, time, the hint about
 * counter resets (any byte), the schema, and so on in the order of the parameters. zero_threshold
 * and sum are the 64 bits of floats. The spans of each side are one array of offsets and one of
 * lengths; the buckets of each side are the differences that Prometheus stores. Whether buckets and
 * spans go together is not checked. */
depot_wal_status depot_wal_add_histogram(
    uint8_t *buffer, size_t len, uint8_t type, size_t used,
    uint64_t id, int64_t time, uint8_t hint, int32_t schema, uint64_t zero_threshold,
    uint64_t zero_count, uint64_t count, uint64_t sum,
    const int32_t *positive_offsets, size_t positive_offsets_len,
    const uint32_t *positive_lengths, size_t positive_lengths_len,
    const int32_t *negative_offsets, size_t negative_offsets_len,
    const uint32_t *negative_lengths, size_t negative_lengths_len,
    const int64_t *positive_buckets, size_t positive_buckets_len,
    const int64_t *negative_buckets, size_t negative_buckets_len,
    struct depot_wal_built *out);

/* Adds a histogram of floats, type DEPOT_WAL_FLOAT_HISTOGRAMS: the same, with zero_count, count and
 * the buckets as the 64 bits of floats. */
depot_wal_status depot_wal_add_float_histogram(
    uint8_t *buffer, size_t len, uint8_t type, size_t used,
    uint64_t id, int64_t time, uint8_t hint, int32_t schema, uint64_t zero_threshold,
    uint64_t zero_count, uint64_t count, uint64_t sum,
    const int32_t *positive_offsets, size_t positive_offsets_len,
    const uint32_t *positive_lengths, size_t positive_lengths_len,
    const int32_t *negative_offsets, size_t negative_offsets_len,
    const uint32_t *negative_lengths, size_t negative_lengths_len,
    const uint64_t *positive_buckets, size_t positive_buckets_len,
    const uint64_t *negative_buckets, size_t negative_buckets_len,
    struct depot_wal_built *out);

/* ---- decoding a body ---- */

/* Checks a body of any length.
 * Result: the number of its entries.
 * Errors, with the place in `count`:
 *   DEPOT_WAL_EMPTY_BODY    0      `len` is 0
 *   DEPOT_WAL_UNKNOWN_TYPE  0      the first byte is not in enum depot_wal_type
 *   DEPOT_WAL_SHORT         field  the body ends inside a field
 *   DEPOT_WAL_BAD_VARINT    field  the tenth byte of a varint is above 1
 *   DEPOT_WAL_BAD_RANGE     field  a histogram's schema, or a span's offset or length, does not fit
 *                                  32 bits
 * Of the last three the first from the left counts; "field" is the first byte of that field (a
 * string and its length are one field).
 * Changes: *out. */
depot_wal_status depot_wal_body_check(const uint8_t *body, size_t len,
                                      struct depot_wal_count *out);

/* Decodes the entry at `place`: 1 for the first, later the `next` of the entry before.
 * Result: the entry; the deltas of rows (samples, exemplars, histograms) are already added to id
 * and time. depot_wal_histogram_at has all of a histogram.
 * DEPOT_WAL_END at the body's end.
 * Errors, with the place in `type`:
 *   DEPOT_WAL_EMPTY_BODY    0      `len` is 0
 *   DEPOT_WAL_UNKNOWN_TYPE  0      the first byte is not in enum depot_wal_type
 *   DEPOT_WAL_BAD_PLACE     0      `place` is 0, past the body, or 2 to 16 in a type of rows
 *   DEPOT_WAL_SHORT         field  as above, but of this entry alone (at place 1 of a type of rows
 *                                  also of the first id and time)
 *   DEPOT_WAL_BAD_VARINT    field  as above, but of this entry alone
 *   DEPOT_WAL_BAD_RANGE     field  as above, but of this entry alone
 * Changes: *out. */
depot_wal_status depot_wal_entry_at(const uint8_t *body, size_t len, size_t place,
                                    struct depot_wal_entry *out);

/* Decodes the string at `place`: an entry's first is at its `strings_at`, the next one at the start
 * plus the length of the one before.
 * Result: where its bytes start, and how many they are.
 * Errors, with the place in `start`:
 *   DEPOT_WAL_EMPTY_BODY    0      `len` is 0
 *   DEPOT_WAL_UNKNOWN_TYPE  0      the first byte is not in enum depot_wal_type
 *   DEPOT_WAL_BAD_PLACE     0      `place` is 0 or past the body
 *   DEPOT_WAL_SHORT         place  the body ends inside the string or its length
 *   DEPOT_WAL_BAD_VARINT    place  the tenth byte of the length is above 1
 * Changes: *out. */
depot_wal_status depot_wal_string_at(const uint8_t *body, size_t len, size_t place,
                                     struct depot_wal_string *out);

/* Decodes the histogram at `place`; the places are those of depot_wal_entry_at.
 * Result: its numbers, its four lists by their counts and first places, and the place after it.
 * DEPOT_WAL_END at the body's end.
 * Errors, with the place in `type`:
 *   DEPOT_WAL_EMPTY_BODY    0      `len` is 0
 *   DEPOT_WAL_UNKNOWN_TYPE  0      the first byte is not in enum depot_wal_type
 *   DEPOT_WAL_WRONG_KIND    0      the body is not of DEPOT_WAL_HISTOGRAMS or
 *                                  DEPOT_WAL_FLOAT_HISTOGRAMS
 *   then those of depot_wal_entry_at from DEPOT_WAL_BAD_PLACE on
 * Changes: *out. */
depot_wal_status depot_wal_histogram_at(const uint8_t *body, size_t len, size_t place,
                                        struct depot_wal_histogram *out);

/* Decodes the span at `place`, or the bucket: a list's first is at its `first`, the next one at the
 * `next` of the one before. A bucket is that of the body's type.
 * Result: the span or the bucket, and the place after it.
 * Errors, with the place in `offset` or `bits`:
 *   DEPOT_WAL_EMPTY_BODY    0      `len` is 0
 *   DEPOT_WAL_UNKNOWN_TYPE  0      the first byte is not in enum depot_wal_type
 *   DEPOT_WAL_WRONG_KIND    0      the body is not one of histograms
 *   DEPOT_WAL_BAD_PLACE     0      `place` is 0 or past the body
 *   DEPOT_WAL_SHORT         field  the body ends inside it; a span's length is a field of its own
 *   DEPOT_WAL_BAD_VARINT    field  the tenth byte of a varint is above 1
 *   DEPOT_WAL_BAD_RANGE     field  a span's offset or length does not fit 32 bits
 * Changes: *out. */
depot_wal_status depot_wal_span_at(const uint8_t *body, size_t len, size_t place,
                                   struct depot_wal_span *out);
depot_wal_status depot_wal_bucket_at(const uint8_t *body, size_t len, size_t place,
                                     struct depot_wal_bucket *out);

/* ---- replaying a log ---- */

/* Replays the records of a segment, from its start, into a table: what each series had last.
 *   - A series is entered where a series body (DEPOT_WAL_SERIES) first has its id; the rows of the
 *     table are in that order.
 *   - A sample is counted for its series. The first, and any that is later than the latest, sets
 *     time and bits, and ends a deletion; at an equal or earlier time it is counted only. A sample
 *     whose id is not entered yet counts as an orphan.
 *   - A tombstone from min to max that covers the latest time marks its series as deleted. One for
 *     an id that is not entered, or for a series without rows, changes nothing; nor does one with
 *     min above max.
 *   - Exemplars, metadata and histograms change nothing.
 *   - A record whose first byte is not in enum depot_wal_type is skipped, and counted in `skipped`:
 *     types may be added to the format, and an older box goes on.
 * Each record counts wholly or not at all.
 * Result: how many series, orphans and skipped records there are, and the good length: the records
 * replayed, skipped ones too, and the place after the last of them. It counts so also on an error;
 * a record that is one is not counted.
 * Errors, with error_at. The table is then that of the records before:
 *   DEPOT_WAL_BAD_NAME     0         no such version; all counts are 0
 *   DEPOT_WAL_BAD_BUFFER   0         the segment is above DEPOT_WAL_SEGMENT_MAX, or the buffer
 *                                    below DEPOT_WAL_RECORD_MAX; all counts are 0
 *   of depot_wal_read      as there  a record cannot be read; DEPOT_WAL_TORN too: the table then
 *                                    has every whole record
 *   of depot_wal_body_check  record  the body of a record cannot be read; never
 *                                    DEPOT_WAL_UNKNOWN_TYPE
 *   DEPOT_WAL_TABLE_FULL   record    the record brings more than DEPOT_WAL_SERIES_MAX series
 * "record" is the start of that record. The last two are checked for each record, in this order.
 * Changes: the rows of the table up to `series` (the others stay), *out, and the buffer, which each
 * record that is read overwrites from its front. */
depot_wal_status depot_wal_replay(uint32_t version, const uint8_t *segment, size_t segment_len,
                                  uint8_t *buffer, size_t buffer_len,
                                  struct depot_wal_series table[DEPOT_WAL_SERIES_MAX],
                                  struct depot_wal_replayed *out);

/* The same, but strict, for a bench that must see every body: a record of an unknown type is not
 * skipped, but an error, as any other body that cannot be read. `skipped` is 0. */
depot_wal_status depot_wal_replay_strict(uint32_t version,
                                         const uint8_t *segment, size_t segment_len,
                                         uint8_t *buffer, size_t buffer_len,
                                         struct depot_wal_series table[DEPOT_WAL_SERIES_MAX],
                                         struct depot_wal_replayed *out);

/* ---- a report over a night's segments ---- */

/* Adds the rows of a segment to a report: for each series as first met, how many rows it has, how
 * many of them are NaN, and the smallest and the largest other reading as floats. Of two equal
 * readings, as -0 and 0, the first is kept. Series are those of sample rows; other bodies have
 * none. A record whose first byte is not in enum depot_wal_type is skipped. Each record counts
 * wholly or not at all.
 * Result: the segment was read to its clean end; error_at is 0.
 * Errors, with error_at:
 *   DEPOT_WAL_BAD_PLACE   0         no call left the report so: too many series or segments, or an
 *                                   `error` other than 0, DEPOT_WAL_BAD_BUFFER and
 *                                   DEPOT_WAL_TABLE_FULL; nothing changes
 *   the report's `error`  as there  the report has ended; nothing changes
 *   DEPOT_WAL_BAD_BUFFER  0         there are DEPOT_WAL_NIGHT_MAX segments already: this ends the
 *                                   report
 *   From here on the segment is counted, and its records before the error stay added:
 *   DEPOT_WAL_BAD_NAME    0         no such version
 *   DEPOT_WAL_BAD_BUFFER  0         the segment is above DEPOT_WAL_SEGMENT_MAX, or the buffer below
 *                                   DEPOT_WAL_RECORD_MAX
 *   of depot_wal_read     as there  a record cannot be read; DEPOT_WAL_TORN too
 *   of depot_wal_body_check  record  the body of a record cannot be read; never
 *                                   DEPOT_WAL_UNKNOWN_TYPE
 *   DEPOT_WAL_TABLE_FULL  record    the record brings more than DEPOT_WAL_SERIES_MAX series: this
 *                                   ends the report
 * "record" is the start of that record. The last two are checked for each record, in this order.
 * A `smallest` or `largest` that is a NaN, which no call leaves, counts as 0 for the next row of
 * its series, and is 0 then unless that row's reading replaces it. Counts wrap at 2^64.
 * Changes: the first four numbers of the report, its rows up to `series` (the others stay), *out,
 * and the buffer, which each record that is read overwrites from its front. */
depot_wal_status depot_wal_report_segment(uint32_t version,
                                          const uint8_t *segment, size_t segment_len,
                                          uint8_t *buffer, size_t buffer_len,
                                          struct depot_wal_report *report,
                                          struct depot_wal_reported *out);

/* ---- a checkpoint ---- */

/* A log grows until its partition is full, and most of what it has is no longer wanted: series of
 * scooters that have left, switches of long ago. A checkpoint writes what is still wanted to a new
 * segment. A box with two partitions (examples/checkpoint.c does it, and cuts the power at every
 * step):
 *   1. Write a record with what each series has now. Older samples are then no longer wanted.
 *   2. depot_wal_checkpoint, from the partition in use into memory of the size of the spare one.
 *   3. Store the bytes before `next` in the spare partition, and flush them.
 *   4. Read them back from the medium: they must be the same, and give DEPOT_WAL_END behind the
 *      last record. If not, the spare partition is bad; the one in use is as it was.
 *   5. Only then switch over: store, in one sector, which partition is in use and how many bytes of
 *      it are there. Flush that. The next record goes to `next` of the new one.
 * A power failure before the switch-over leaves the old partition in use, of which nothing has
 * changed: the call only reads it. What then stands in the spare one is not looked at, and the next
 * attempt starts at 1. A power failure after it leaves the new partition in use, and it is whole.
 * So the sector is all that must be stored wholly or not at all. Between 2 and 5 nothing is written
 * to the old partition, or it would be missing in the new one. */

/* Writes to `target` what is kept of `source`, a segment that ends clean. Kept are, in their order,
 * the entries whose id is in `ids` (in any order; ascending ids are found faster), and of these
 *   - series and metadata: all of them;
 *   - samples, exemplars and histograms: at or after `time`;
 *   - tombstones: those whose max is at or after `time`.
 * Each record is encoded anew of its kept entries: its first id and time are those of its first
 * kept row. So a record may grow. One of which nothing is kept is not written, nor is one whose
 * first byte is not in enum depot_wal_type. `version` is the source's; the target is written in it.
 * Result: the place for the next write; read before it, the target gives what was kept, then
 * DEPOT_WAL_END. A checkpoint of that, with the same ids and time and in a target of the same
 * length, has the same bytes. Where nothing is kept, `next` is 0.
 * Errors, with error_at, which is a place of the source:
 *   DEPOT_WAL_BAD_NAME     0         no such version
 *   DEPOT_WAL_BAD_BUFFER   0         `work` or `body` is below DEPOT_WAL_RECORD_MAX, the target is
 *                                    not one or more whole pages or above DEPOT_WAL_SEGMENT_MAX, or
 *                                    the source is above that
 *   of depot_wal_read      as there  a record cannot be read; DEPOT_WAL_TORN too
 *   of depot_wal_body_check  record  the body of a record cannot be read; never
 *                                    DEPOT_WAL_UNKNOWN_TYPE
 *   DEPOT_WAL_TOO_LONG     record    the record encoded anew is above DEPOT_WAL_RECORD_MAX
 *   DEPOT_WAL_NO_ROOM      record    it does not fit into the rest of the target
 * "record" is the start of that record in the source. Of the third and the fourth the first along
 * the source counts, and the whole source is gone through for them before anything is written:
 * `next` is 0 then, as with the first two. At one of the last two, which are checked for each
 * record in this order, the records before stand in the target, and `next` is where they end.
 * Changes: the bytes of the target before `next`, *out, and the two buffers, which are the call's
 * own: whatever it returns, both are zero in their whole length, if both have at least
 * DEPOT_WAL_RECORD_MAX bytes; else both are as they were. */
depot_wal_status depot_wal_checkpoint(uint32_t version, const uint8_t *source, size_t source_len,
                                      const uint64_t *ids, size_t ids_len, int64_t time,
                                      uint8_t *target, size_t target_len,
                                      uint8_t *work, size_t work_len,
                                      uint8_t *body, size_t body_len,
                                      struct depot_wal_checkpointed *out);

/* ---- the index beside a segment ---- */

/* To show record 40,000 of a segment without reading 39,999 others, keep an index in a file beside
 * it: DEPOT_WAL_INDEX_HEAD bytes, and DEPOT_WAL_INDEX_ROW with start and length for each record.
 *   - A technician's tool builds it once, or checks one that is there, looks up the record, and
 *     reads the segment at that start.
 *   - The box extends it when the segment has grown. The index is checked, which reads the bytes
 *     that it covers, and then the reading goes on at the last record listed. Write the new index
 *     to the medium before forgetting the old one: a torn index is refused, and must be built
 *     again.
 * The index covers the bytes of the segment that it was built from, and stays right when the
 * segment grows. These calls copy no record, so they need no record buffer. Bodies are not looked
 * at: a record of an unknown type is listed as any other. */

/* Builds the index of a segment at the front of `index`. It lists the records that come out of a
 * reading from the start, before the end or an error, and covers all `segment_len` bytes. An index
 * is never longer than DEPOT_WAL_INDEX_HEAD + segment_len; where `index_len` is at least 12 more
 * than 8 * (segment_len / 7), the segment is read once, else twice.
 * Result: the bytes of the index.
 * Errors, with error_at; `used` is 0:
 *   DEPOT_WAL_BAD_NAME    0  no such version
 *   DEPOT_WAL_BAD_BUFFER  0  the segment is above DEPOT_WAL_SEGMENT_MAX
 *   DEPOT_WAL_NO_ROOM     0  the index does not fit into `index_len`
 * Changes: `used` bytes of `index`, and *out. */
depot_wal_status depot_wal_index_build(uint32_t version,
                                       const uint8_t *segment, size_t segment_len,
                                       uint8_t *index, size_t index_len,
                                       struct depot_wal_indexed *out);

/* Checks an index against its segment, which may have grown since. It is right exactly if it equals
 * the one built from the bytes that it covers.
 * Result: the number of records that it lists.
 * Errors, with the place in `count`:
 *   DEPOT_WAL_BAD_NAME    0  no such version
 *   DEPOT_WAL_BAD_BUFFER  0  the segment is above DEPOT_WAL_SEGMENT_MAX
 *   DEPOT_WAL_BAD_INDEX   0  it covers more than the segment, or is not the index of those bytes
 * Changes: *out. */
depot_wal_status depot_wal_index_check(uint32_t version,
                                       const uint8_t *segment, size_t segment_len,
                                       const uint8_t *index, size_t index_len,
                                       struct depot_wal_count *out);

/* Extends the index in the first `used` bytes of `index` to all of the segment. It is checked
 * first, and then equals the one that depot_wal_index_build gives.
 * Result: the bytes of the index.
 * Errors, with error_at; `used` is the value given:
 *   DEPOT_WAL_BAD_NAME    0  no such version
 *   DEPOT_WAL_BAD_BUFFER  0  the segment is above DEPOT_WAL_SEGMENT_MAX
 *   DEPOT_WAL_BAD_INDEX   0  `used` is above `index_len`, or as depot_wal_index_check
 *   DEPOT_WAL_NO_ROOM     0  the new index does not fit into `index_len`
 * Changes: bytes of `index` before the new `used`, and *out. */
depot_wal_status depot_wal_index_extend(uint32_t version,
                                        const uint8_t *segment, size_t segment_len,
                                        uint8_t *index, size_t index_len, size_t used,
                                        struct depot_wal_indexed *out);

/* Looks up a record by its number, counted from 0, in an index that was built or checked here. It
 * looks at nothing but the head, the length and that row.
 * Result: start and length of the record; depot_wal_read at that start gives it.
 * Errors, with the place in `start`:
 *   DEPOT_WAL_BAD_INDEX  0  the bytes do not have the layout of an index
 *   DEPOT_WAL_BAD_PLACE  0  the index does not list that many records
 * Changes: *out. */
depot_wal_status depot_wal_index_at(const uint8_t *index, size_t index_len, uint64_t record,
                                    struct depot_wal_row *out);

/* ---- the size of a partition ---- */

/* How big must the partition be? Say how many records it is to hold and how many bytes they have in
 * all, and depot_wal_pages_for says how many pages are sure to do, however the records lie.
 *
 * A switch, as examples/switch.c writes it, is a record of 37 bytes, and 44 with its header. A page
 * holds 744 of them. One that goes on in the next page has a second header, so each page costs up
 * to 7 bytes more. A box that switches 2,000 times a day and keeps a year:
 *
 *     uint64_t switches = 2000 * 365;
 *     struct depot_wal_pages need;
 *     depot_wal_pages_for(switches, 37 * switches, &need); // 981 pages: 32,145,408 bytes
 *
 * By hand: 44 bytes a switch, divided by 32,761 and rounded up.
 *
 *     switches a day  kept for   switches  pages        bytes
 *                100  a year       36,500     50    1,638,400
 *              1,000  a year      365,000    491   16,089,088
 *              2,000  a year      730,000    981   32,145,408
 *                300  10 years  1,095,000  1,471   48,201,728
 *              8,355  a year    3,049,575  4,096  134,217,728
 *
 * One segment, DEPOT_WAL_SEGMENT_MAX or 4,096 pages, is sure to hold 3,049,751 switches; for more,
 * keep several segments and ask for each. 37 bytes are two rows of one time whose ids are at most
 * 63 apart; with ids further apart it is up to 46, and with two times up to 55. Series records,
 * written once, come on top: add their numbers to both sums. */

/* How many pages a segment must have so that no write into it, from place 0 on, is refused for want
 * of room: of any list of `records` records, none empty and none above DEPOT_WAL_RECORD_MAX, that
 * have `bytes` bytes in all. It is at most one page more than any such list takes, and for one
 * record exact. Numbers that no list has are answered by the same rule (docs/FORMAT.md 20).
 * Result: the pages, 1 to 4,096; 1 where `records` is 0.
 * Errors, with the place in `pages`:
 *   DEPOT_WAL_NO_ROOM  0  it would be more than 4,096 pages, a whole segment
 * Changes: *out. */
depot_wal_status depot_wal_pages_for(uint64_t records, uint64_t bytes,
                                     struct depot_wal_pages *out);

/* ---- the name of a segment ---- */

/* The name of a segment's file says its sequence and the version of its format: six digits, as
 * 000042, are version 1, and six digits and -v2, as 000042-v2, version 2. A name is bytes in ASCII
 * without a terminating zero, and without the directory. What a file holds is not looked at: a file
 * that was renamed to the other version gives DEPOT_WAL_BAD_SUM at its first record. */

/* Parses a name. Version 1 is also read where it is written out, as 000042-v1.
 * Result: sequence and version.
 * Errors, with the place in `sequence`:
 *   DEPOT_WAL_BAD_NAME  0  anything else: other than six digits, another version, a leading zero in
 *                          it, or more bytes
 * Changes: *out. */
depot_wal_status depot_wal_name_parse(const uint8_t *name, size_t name_len,
                                      struct depot_wal_name *out);

/* Makes the name of a segment at the front of `name`: 6 bytes in version 1, DEPOT_WAL_NAME_MAX in
 * version 2.
 * Result: the bytes of the name.
 * Errors, with error_at; `used` is 0:
 *   DEPOT_WAL_BAD_NAME  0  the sequence is above DEPOT_WAL_SEQUENCE_MAX, or the version not 1 or 2
 *   DEPOT_WAL_NO_ROOM   0  the name does not fit into `name_len`
 * Changes: `used` bytes of `name`, and *out. */
depot_wal_status depot_wal_name_make(uint64_t sequence, uint64_t version, uint8_t *name,
                                     size_t name_len, struct depot_wal_named *out);

#ifdef __cplusplus
}
#endif

#endif
