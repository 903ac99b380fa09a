#!/bin/sh
# The programs tried without their proofs, which `make replay' may show, print what the proved ones print.
set -eu
cd "$(dirname "$0")/.."
room=$(mktemp -d)
trap 'rm -rf "$room"' EXIT
for program in replay replay_long; do
    made=$(sh tools/built.sh "$program") || { echo "same: $program is not built; sh tools/build.sh $program builds it"; exit 1; }
    mkdir "$room/$program"
    traces=0
    for trace in traces/*.trace crates/replay/stdin; do
        traces=$((traces + 1))
        cp "$trace" "$room/$program/$traces"
        sh tools/run.sh "$made" < "$trace" > "$room/$program/$traces.stdout"
    done
    # A trial is built once and run on each trace, by an interpreter and compiled with checks.
    (cd "crates/$program" && rt try --cases "$room/$program") > "$room/said" 2>&1 || { cat "$room/said"; echo "same: $program tried without its proofs prints something else"; exit 1; }
done
echo "same: replay and replay_long, tried without their proofs, print what the proved ones print, on $traces traces"
