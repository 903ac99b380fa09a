#!/bin/sh
# quick.sh PROGRAM TRACE: replays a trace: with the program as it was built, where that is newer than the sources, and else without
# its proofs, by `rt try', in seconds. Only its lines go to standard output.
set -eu
here=$(cd "$(dirname "$0")/.." && pwd)
program=$1 trace=$2
if made=$(sh "$here/tools/built.sh" "$program") && [ -z "$(find "$here"/crates.txt "$here"/crates/*/src -newer "$made" | head -n 1)" ]; then
    exec "$here/tickclock" "$program" "$trace"
fi
[ "$trace" != - ] || trace=/dev/stdin
[ ! -d "$trace" ] && [ -r "$trace" ] || { printf 'quick: %s: there is no such file, or it may not be read\n' "$trace" >&2; exit 1; }
echo "quick: running $program without its proofs, in seconds; \`make' and \`make test' prove it" >&2
room=$(mktemp -d)
trap 'rm -rf "$room"' EXIT
trap 'exit 130' INT TERM HUP
status=0
{ cd "$here/crates/$program" && rt try; } < "$trace" 2> "$room/said" || status=$?
[ "$status" = 0 ] || cat "$room/said" >&2
exit "$status"
