#!/bin/sh
# bench.sh [ROUNDS]: times the proved replay against the Rust one in reference/ on a million records, and counts instructions.
# Both are this machine's own code, run turn by turn on the same trace; first their outputs are found equal.
set -eu
cd "$(dirname "$0")/.."
rounds=${1:-21}
command -v cargo > /dev/null || { echo 'bench: skipped, since there is no cargo here'; exit 0; }
root=$(pwd)
bench=$root/target/bench
mkdir -p "$bench"
echo 'bench: building the reference and a trace of a million records'
cargo build --release --offline --quiet --manifest-path reference/Cargo.toml --target-dir target/reference
made=$root/target/reference/release
trace=$bench/million.trace
"$made/traces" --one-million "$trace"
echo 'bench: proving replay_long, where that was not done yet'
sh tools/native.sh replay_long "$bench/replay_long"

# The same program for 64 threads: one number changed in a copy, in which every crate of it is proved again.
echo 'bench: proving it all again for 64 threads, which takes most of the time'
# The copy stands outside the checkout, where `rt ci' takes no sources but the crates' own.
copy=$(mktemp -d)
trap 'rm -rf "$copy"' EXIT
trap 'exit 130' INT TERM HUP
sh tools/copy.sh "$copy" crates crates.txt tools
sed 's/^\(    pub const SLOTS: usize =\) 16;/\1 64;/' crates/usage/src/lib.rt > "$copy/crates/usage/src/lib.rt"
! cmp -s crates/usage/src/lib.rt "$copy/crates/usage/src/lib.rt" || { echo 'bench: no SLOTS of 16 in crates/usage/src/lib.rt' >&2; exit 1; }
sh "$copy/tools/native.sh" replay_long "$bench/replay_long_64"

echo "bench: a million records, half of them runs of up to 2^32 - 1 cycles, $rounds times each"
"$made/race" "$rounds" "$trace" "$bench/replay_long" -- "$made/reference" --long /dev/stdin
echo 'bench: 64 threads against 16'
"$made/race" "$rounds" "$trace" "$bench/replay_long_64" -- "$bench/replay_long"

# instructions NAME PROGRAM [WORD..]: how many a record costs, by callgrind.
instructions() {
    name=$1
    shift
    valgrind --tool=callgrind --callgrind-out-file=/dev/null "$@" < "$trace" 2>&1 > /dev/null |
        awk -v name="$name" '/Collected *:/ { printf "  %s: %.1f instructions a record\n", name, $4 / 1000000 }'
}
if command -v valgrind > /dev/null; then
    echo 'bench: counting instructions'
    instructions 'replay_long' "$bench/replay_long"
    instructions 'replay_long, 64 threads' "$bench/replay_long_64"
    instructions 'reference' "$made/reference" --long /dev/stdin
else
    echo 'bench: instructions not counted, since there is no valgrind here'
fi
