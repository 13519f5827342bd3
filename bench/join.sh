#!/usr/bin/env bash
# join.sh: how long the join of 8, 16, 32 and 64 schemas of 256 columns takes.
#
# First schemas whose columns have the same names, half of them of two kinds in turn (INT and BIGINT, VARCHAR(40) and
# VARCHAR(80)); then schemas that share the key alone, so that the join has the columns of all. `dm_join::join` alone is
# timed, by the program itself: by the clock of std (`Instant`), and by the processor time that the process used
# (`CpuClock`).
set -eu

. "$(dirname -- "$(readlink -f -- "${BASH_SOURCE[0]}")")/build.sh"

for naming in join join-apart; do
    echo "$naming"
    for schemas in 8 16 32 64; do
        "$program" "$naming" "$schemas" 256
    done
done
