//! The pages of help. The man page, `depot-wal.1`, says the same.

pub const OVERVIEW: &str = "\
depot-wal: logs of the depot read, checked and repaired

    depot-wal COMMAND [OPTIONS] FILE..

    list         every record: where it is, how long, of what kind
    dump         every record with its entries: labels, times, values
    replay       what every series had last; --by LABEL: which one of each group is on
    verify       how much is good, and the first damage
    resume       makes a log ready for the next record after a power failure
    index        builds or checks FILE.index, which tells where each record is
    report       the smallest and largest readings of a night's segments
    checkpoint   a new segment with what some series had from a time on

    depot-wal help COMMAND    a page for each, as has depot-wal COMMAND --help
    depot-wal --version       the version of this program

Only resume changes a log, and says first what it will do. Exit status: 0, 1 (something was
refused or torn; what was found was printed), 2 (the command line was not understood).
";

/// What every page ends with.
pub const COMMON: &str = "
    --json           a line of JSON for each thing, for machines; ids and times are whole numbers
                     of 64 bits, values that JSON has no number for are texts (\"NaN\", \"+Inf\")
    --version 1|2    the version of the format; without it the file's name says it (000001 is 1,
                     000001-v2 is 2), and for - and every other name it is 1
    --help           this page

Exit status: 0; 1, something was refused, torn or could not be had (what was found was printed,
and standard error says what to do); 2, the command line was not understood.
";

pub const LIST: &str = "\
depot-wal list FILE..

Lists every record of each segment: its number from 0, its place in the file, its length, the
kind of its body and the number of entries. Then how the segment ends (clean, torn or refused) and
how much of it is good. - is standard input. A segment has at most 134217728 bytes; of a longer
file so much is read, and then it is called too long.

    record 1 at 233, 48 bytes: samples, 3 entries
";

pub const DUMP: &str = "\
depot-wal dump FILE..

As list, and under each record its entries: the labels of the series as the log named it before,
times in UTC and as milliseconds, values as floats. A body of an unknown type is not looked into.
- is standard input. Progress on a long file is shown on a terminal, if the output goes elsewhere.

    sample 11 {scooter=\"1\", profile=\"1\"} at 1970-01-01T00:00:01.000Z (1000): 0
";

pub const REPLAY: &str = "\
depot-wal replay [--strict] [--by LABEL] FILE..

Replays each segment by itself and prints what every series had last: value, time, rows. A sample
counts for a series that was named before it, a row at an equal or earlier time than the latest
changes nothing, a tombstone deletes. A record counts wholly or not at all, so a switch that was
cut off by a power failure changes nothing. Up to 256 series. - is standard input.

    --by LABEL       group the series that share the value of this label (at the depot: scooter)
                     and print for each group the one that is on, which is the one whose latest
                     value is not 0 and which is not deleted. Where two are on, or none, it says so
                     loudly, on standard error too, and the exit status is 1; so it does where
                     there are samples of series that the file does not name
    --strict         stop at a record of an unknown type, which is skipped otherwise
";

pub const VERIFY: &str = "\
depot-wal verify FILE..

Reads all records and what they say. Prints how many records are whole and where the last of them
ends (the good length: a copy that is cut there loses nothing whole), and the first damage: in
words, and as a hex dump in which ^^ marks the place. - is standard input.
";

pub const RESUME: &str = "\
depot-wal resume [--dry-run] [--force] FILE..

Makes a log ready for the next record after a power failure, as the library says: what is left of a
record that was cut off is truncated, and so are zeros behind the last record; where no record fits
into the rest of a page, the page is filled with zeros. No whole record changes. It prints what it
will do, then does it, syncs, and says so. A file that another program has open as a log is left
alone. Bytes that are damaged and not merely cut off are refused, and nothing is changed.

    --dry-run        only say it; then - is standard input
    --force          truncate also where records behind the place can be read, which a power
                     failure does not leave, but a damaged length does; they are lost then
";

pub const INDEX: &str = "\
depot-wal index [--check | --rebuild] FILE..

Checks FILE.index, the file beside a segment that tells where each record is. If there is none it
is built, if the segment has grown since it is extended; each time by a new file that is synced,
read back and renamed. An index that is not this segment's is refused and left as it is.

    --check          write nothing
    --rebuild        build it anew, whatever is there
";

pub const REPORT: &str = "\
depot-wal report FILE..

The report over a night's segments, up to 1024 in order, as the program report prints it: first

    segment POSITION NUMBER PLACE

for each that is refused or torn (what it had before that is added), with its position from 1; then

    series ID ROWS NANS SMALLEST LARGEST

for each of up to 256 series, the readings as the 16 hexadecimal digits of their bits, or none
where every row is NaN. Here a file whose name is not that of a segment, - too, is refused (30)
unless --version is given.
";

pub const CHECKPOINT: &str = "\
depot-wal checkpoint (--id ID | --label NAME=VALUE | --all).. [--from TIME] FILE NEW

Writes a new segment NEW with what FILE says of some series from a time on: the series and their
metadata, the samples, exemplars and histograms at or after the time, tombstones that reach it. It
is in the version of FILE. NEW is written as NEW.new, synced, read back and then renamed; it must
not be there before. FILE is only read, and has to end clean. - is standard input.

    --id ID          keep this series; as often as wanted
    --label NAME=VALUE
                     keep the series with this label; as often as wanted
    --all            keep every series
    --from TIME      milliseconds, or in UTC: 2026-11-17 or 2026-11-17T23:38:13Z; else all times
";
