#!/usr/bin/env bash
# Runs the program in the folder that it is called from, and ends with its status. Where it isn't built, or is older
# than its sources, it is proved and built first: from nothing that takes some minutes.
set -u

root=$(dirname -- "$(readlink -f -- "${BASH_SOURCE[0]}")")
crate=$root/crates/dm_cli
program=$crate/out/dm_cli
log=$root/out/build.log

is_current() {
    [ -x "$program" ] &&
        [ -z "$(find "$root/crates.txt" "$root"/crates/*/{src,specs,proofs} -newer "$program" -print -quit 2>/dev/null)" ]
}

# `rt run` ends by running the program, which finds fault with no words; so what it built counts, and not its status.
build() {
    rm -f -- "$program"
    (cd -- "$crate" && rt run </dev/null >"$log" 2>&1)
    [ -x "$program" ]
}

if ! is_current; then
    # A second call waits here for the first.
    mkdir -p -- "$root/out" && exec 9>"$root/out/build.lock" && flock 9 || exit 126
    if ! is_current && ! build; then
        cat -- "$log" >&2
        echo "dm: the program couldn't be built" >&2
        exit 126
    fi
    exec 9>&-
fi

exec "$program" "$@"
