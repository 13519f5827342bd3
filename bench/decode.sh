#!/usr/bin/env bash
# decode.sh [CHANGES]: how fast rows of binlog files are read.
#
# `dm_encode` writes a binlog of so many changes (300000 where no number is given) into memory: a format event, and for
# each change a table map and a rows event of version 2. Of ten changes eight are inserts, one is an update, which has
# two rows, and one a delete. The table has ten columns: BIGINT (the key), INT NULL, VARCHAR(40), VARCHAR(200) NULL,
# DECIMAL(14,2), DATETIME(6), TIMESTAMP, CHAR(8), TINYINT UNSIGNED, TEXT.
#
# The file is read by `read_events`, `read_table_map`, `read_rows_head` and `decode_row`, each row is dropped when it is
# counted, and what was counted is held beside what was written. The reading alone is timed, by the program itself: by
# the clock of std (`Instant`), and by the processor time that the process used (`CpuClock`), which other work on the
# machine changes less. The peak memory is that of writing and reading, the whole file included.
set -eu

changes=${1:-300000}
case $changes in
'' | *[!0-9]*)
    echo "usage: decode.sh [CHANGES]" >&2
    exit 1
    ;;
esac

. "$(dirname -- "$(readlink -f -- "${BASH_SOURCE[0]}")")/build.sh"

measure decode "$changes"
