#!/bin/sh
# reference.sh [RECORDS [SEED [SCALE]]]: holds replay and replay_long to the Rust program in reference/, byte for byte, on made-up traces.
# A round is 2000 traces of one seed; rounds go on, each with the next seed, until so many records were compared.
# With a SCALE of 10 the usual trace is ten times as long, which costs little more.
set -eu
cd "$(dirname "$0")/.."
records=${1:-1} seed=${2:-1} scale=${3:-1}
command -v cargo > /dev/null || { echo 'reference: skipped, since there is no cargo here'; exit 0; }
for program in replay replay_long; do
    sh tools/built.sh "$program" > /dev/null || { echo "reference: $program is not built; sh tools/build.sh $program builds it"; exit 1; }
done
replay=$(sh tools/built.sh replay) replay_long=$(sh tools/built.sh replay_long)
room=$(mktemp -d)
trap 'rm -rf "$room"' EXIT
for step in 'build --release' test; do
    cargo $step --offline --quiet --manifest-path reference/Cargo.toml --target-dir target/reference > "$room/said" 2>&1 || { cat "$room/said"; exit 1; }
done
made=target/reference/release

# What stands before a program of the kit's: on a machine that is no x86-64, an emulator (tools/run.sh). Asked once, for speed.
before=
if [ "$(uname -m)" != x86_64 ]; then
    emulator=$(command -v qemu-x86_64) || { echo "reference: this is a $(uname -m), the programs are for x86-64, and there is no qemu-x86_64 here"; exit 1; }
    tools=$(sh tools/kit.sh)
    before="$emulator $tools/lib/ld-linux-x86-64.so.2 --library-path $tools/lib"
fi

# differ NAME: tells the first line that differs, keeps the trace, and ends.
differ() {
    mkdir -p target/differ
    cp "$1" target/differ/
    echo "reference: seed $seed, scale $scale, trace $(basename "$1"), which is kept in target/differ: the first line that differs,"
    echo 'reference: < of replay, > of the reference'
    diff "$room/ours" "$room/theirs" | sed -n '1,4p'
    exit 1
}

traces=0 compared=0
while [ "$compared" -lt "$records" ]; do
    rm -rf "$room/round"
    "$made/traces" "$seed" 2000 "$room/round" "$scale"
    for trace in "$room"/round/*; do
        $before "$replay" "$trace" > "$room/ours"
        "$made/reference" "$trace" > "$room/theirs"
        cmp -s "$room/ours" "$room/theirs" || differ "$trace"
    done
    # Behind one another they are a trace far above 01's limit.
    cat "$room"/round/* > "$room/all"
    $before "$replay_long" < "$room/all" > "$room/ours"
    "$made/reference" --long "$room/all" > "$room/theirs"
    cmp -s "$room/ours" "$room/theirs" || differ "$room/all"
    traces=$((traces + 2000)) compared=$((compared + $(wc -c < "$room/all") / 16)) seed=$((seed + 1))
done
echo "reference: $traces traces of $compared records, the last seed $((seed - 1)): the programs agree byte for byte"
