#!/usr/bin/env bash
# journal.sh [RECORDS..]: how long `dm show` takes for a journal of so many records (1000, 10000 and 100000 without numbers),
# and how much memory, by GNU time where it is there. Reading such a journal is what each run begins with.
#
# The journal is written into a folder that is removed at the end: it makes a table of four columns, without a unique key
# and then with one, and each further record inserts a hundred rows, as a run writes them.
set -eu

root=$(dirname -- "$(dirname -- "$(readlink -f -- "${BASH_SOURCE[0]}")")")
folder=$(mktemp -d)
trap 'rm -rf -- "$folder"' EXIT

# journal RECORDS KEY: a record is a header with the length of its text, in ten digits, and the text
journal() {
    awk -v records="$1" -v key="$2" 'BEGIN {
        write("CREATE TABLE `m`.`t` (`city` VARCHAR(40) NULL, `customer` INT NOT NULL, `id` BIGINT NOT NULL, `placed` DATETIME NOT NULL, PRIMARY KEY (`id`)" key ");\n")
        for (i = 1; i < records; i++) {
            text = "BEGIN;\n"
            for (n = 0; n < 100; n++) {
                id = 100 * i + n
                text = text sprintf("INSERT INTO `m`.`t` (`city`,`customer`,`id`,`placed`) VALUES (\x27city %d\x27,%d,%d,\x272024-%02d-%02d 12:%02d:%02d\x27);\n", id % 977, id % 100000, id, id % 12 + 1, id % 28 + 1, id % 60, id * 7 % 60)
            }
            write(text "COMMIT;\n")
        }
    }
    function write(text) { printf "-- dm %010d\n%s", length(text), text }'
}

measured() {
    if [ -x /usr/bin/time ]; then
        /usr/bin/time -f "$1: %e s, processor %U s and %S s, memory %M kB" "${@:2}"
    else
        echo "$1:" && time "${@:2}"
    fi
}

[ $# -gt 0 ] || set -- 1000 10000 100000

for records in "$@"; do
    for key in '' ', UNIQUE KEY `of_customer` (`customer`,`id`)'; do
        journal "$records" "$key" >"$folder/dm.journal"
        bytes=$(wc -c <"$folder/dm.journal")
        (cd -- "$folder" && measured "$records records, $bytes bytes${key:+, with a unique key}" "$root/dm" show >/dev/null)
    done
done
