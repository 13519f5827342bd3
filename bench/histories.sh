#!/usr/bin/env bash
# histories.sh [ROWS CHANGES]: how fast histories are built, of one source and of four.
#
# Each source has one table (BIGINT, the key, and INT). Its dump has so many rows, a thousand in an INSERT, and its binlog
# so many inserts, each as a table map and a rows event. The numbers are those of all sources together: 3400000 and 600000
# where none are given, which are 4,000,000 items, the most that a task may have. The files are made up in memory; `build`
# alone is timed, by the clock and by the processor time of all threads together.
set -eu

rows=${1:-3400000}
changes=${2:-600000}
case $rows$changes in
*[!0-9]*)
    echo "usage: histories.sh [ROWS CHANGES]" >&2
    exit 1
    ;;
esac

. "$(dirname -- "$(readlink -f -- "${BASH_SOURCE[0]}")")/build.sh"

for sources in 1 4; do
    measure histories "$sources" "$((rows / sources))" "$((changes / sources))"
done
