# shellcheck shell=bash
# Builds the benchmark's program, for the scripts beside this file, which source it.
#
# The program is no crate of this repository, so that the gate leaves it out: its files have `.txt` behind their names.
# They are put beside a copy of the crates, in a folder of their own, and proved and built there, for a program is built
# only when it is proved. From nothing that takes some minutes. The folder is removed at the end, unless DM_BENCH names
# one: then it is kept, and a later run builds anew only what has changed.

here=$(dirname -- "$(readlink -f -- "${BASH_SOURCE[0]}")")
root=$(dirname -- "$here")

fail() {
    echo "bench: $*" >&2
    exit 1
}

command -v rt >/dev/null || fail "rt, the toolchain's command, isn't on the PATH"

if [ -n "${DM_BENCH:-}" ]; then
    folder=$(readlink -m -- "$DM_BENCH")
    case $folder/ in
    "$root"/*) fail "DM_BENCH names a folder within the repository, where the gate would find the program" ;;
    esac
    mkdir -p -- "$folder"
else
    folder=$(mktemp -d)
    trap 'rm -rf -- "$folder"' EXIT
fi

crate=$folder/crates/dm_bench
program=$crate/out/dm_bench

copy_crates() {
    tar -C "$root" --exclude=out -cf - crates HANDLES | tar -C "$folder" -xf -
    cp -- "$root/crates.txt" "$folder/crates.txt"
    echo "dm_bench: dm_base dm_list dm_value dm_schema dm_binlog dm_decode dm_encode dm_join dm_task dm_files dm_track" >>"$folder/crates.txt"
}

# Old files go first, so that none is left that the repository doesn't have any more.
copy_program() {
    rm -rf -- "$crate/src" "$crate/specs" "$crate/proofs"
    mkdir -p -- "$crate"
    tar -C "$here/dm_bench" --transform='s/\.txt$//' -cf - src specs proofs | tar -C "$crate" -xf -
}

# `rt run` ends by running the program, which finds fault with no words; so what it built counts, and not its status.
build() {
    rm -f -- "$program"
    (cd -- "$crate" && rt run </dev/null >"$folder/build.log" 2>&1)
    [ -x "$program" ]
}

# Runs the program, and prints the most memory that it had, where GNU time is there to tell.
measure() {
    if /usr/bin/time -f %M true 2>/dev/null; then
        /usr/bin/time -f 'peak memory %M kB' "$program" "$@" 2>&1
    else
        "$program" "$@"
    fi
}

echo "bench: building in $folder" >&2
copy_crates
copy_program
if ! build; then
    tail -n 40 -- "$folder/build.log" >&2
    fail "the program couldn't be built"
fi
if [ -r /proc/loadavg ]; then
    echo "load $(cut -d ' ' -f 1-3 /proc/loadavg) on $(nproc) processors"
fi
