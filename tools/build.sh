#!/bin/sh
# build.sh CRATE..: proves and builds a program as crates/CRATE/out/CRATE, and of tickclock_c the archive for C, as
# target/staticlib/libtickclock.a. What rt says is shown only where it fails.
set -eu
cd "$(dirname "$0")/.."
room=$(mktemp -d)
trap 'rm -rf "$room"' EXIT
trap 'exit 130' INT TERM HUP
for crate; do
    case $crate in
    tickclock_c)
        (cd "crates/$crate" && rt lib) > "$room/said" 2>&1 || { cat "$room/said" >&2; exit 1; }
        mkdir -p target/staticlib
        cp "crates/$crate/out/libtickclock_c.a" target/staticlib/libtickclock.a
        ;;
    *)
        # `rt run' is what builds a program; it runs on the crate's own input, and what it prints `rt ci' looks at.
        (cd "crates/$crate" && rt run < stdin) > /dev/null 2> "$room/said" || { cat "$room/said" >&2; exit 1; }
        ;;
    esac
done
