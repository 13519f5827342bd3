#!/usr/bin/env bash
# load.sh [ROWS]: how long `dm load` takes for two shards of so many rows each (100000 without a number), and how much
# memory, by GNU time where it is there.
#
# The dumps are written into a folder that is removed at the end: five columns (BIGINT, INT, VARCHAR, DECIMAL, DATETIME),
# a thousand rows in an INSERT, as mysqldump writes them. Where DM_CLIENT names a database client with its options, such
# as `mysql --database=scratch`, the same dumps are then piped into it, both into one table, beside which it is timed too.
# That table, `dm_bench_load`, is dropped before and behind.
set -eu

root=$(dirname -- "$(dirname -- "$(readlink -f -- "${BASH_SOURCE[0]}")")")
rows=${1:-100000}
folder=$(mktemp -d)
trap 'rm -rf -- "$folder"' EXIT

create='CREATE TABLE `dm_bench_load` (`id` BIGINT NOT NULL, `customer` INT NOT NULL, `city` VARCHAR(40), `price` DECIMAL(10,2) NOT NULL DEFAULT 0.00, `placed` DATETIME NOT NULL, PRIMARY KEY (`id`));'

# insert_rows SHARD: the INSERTs of one of two shards, whose keys are the numbers that leave SHARD behind by 2
insert_rows() {
    awk -v rows="$rows" -v shard="$1" 'BEGIN {
        for (i = 1; i <= rows; i++) {
            if (i % 1000 == 1) printf "INSERT INTO `dm_bench_load` VALUES "
            printf "(%d,%d,\x27city %d\x27,%d.%02d,\x272024-%02d-%02d 12:%02d:%02d\x27)", 2 * i + shard, i % 100000, i % 977, i % 500, i % 100, i % 12 + 1, i % 28 + 1, i % 60, i * 7 % 60
            printf "%s", (i % 1000 == 0 || i == rows) ? ";\n" : ","
        }
    }'
}

for shard in 0 1; do
    insert_rows "$shard" >"$folder/rows_$shard.sql"
    { echo "$create"; cat -- "$folder/rows_$shard.sql"; } >"$folder/shard_$shard.sql"
done
echo "bytes $(cat -- "$folder"/shard_*.sql | wc -c), rows $((2 * rows))"

measured() {
    if [ -x /usr/bin/time ]; then
        /usr/bin/time -f "$1: %e s, processor %U s and %S s, memory %M kB" "${@:2}"
    else
        echo "$1:" && time "${@:2}"
    fi
}

# The first call builds the program where it isn't built.
"$root/dm" load "$folder/none" >"$folder/line" || true
measured "dm load" "$root/dm" load "$folder/shard_0.sql" "$folder/shard_1.sql" >"$folder/table"

if [ -n "${DM_CLIENT:-}" ]; then
    echo 'DROP TABLE IF EXISTS `dm_bench_load`;' | $DM_CLIENT
    { echo "$create"; cat -- "$folder/rows_0.sql" "$folder/rows_1.sql"; } >"$folder/both.sql"
    measured "client" sh -c "$DM_CLIENT <\"\$1\"" sh "$folder/both.sql"
    echo 'DROP TABLE IF EXISTS `dm_bench_load`;' | $DM_CLIENT
fi
