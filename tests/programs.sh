#!/bin/sh
# Tries what is built and proved: the programs, and beside them, on another processor, the C archive.
set -eu
cd "$(dirname "$0")/.."
sh tools/build.sh replay replay_long
said=$(mktemp)
sh tests/c/check.sh > "$said" 2>&1 &
c=$!
trap 'kill "$c" 2> /dev/null || :; rm -f "$said"' EXIT
trap 'exit 130' INT TERM HUP
tried=0
for test in replay tickclock reference; do
    sh "tests/$test.sh" || { tried=1; break; }
done
wait "$c" || tried=1
cat "$said"
exit "$tried"
