#!/bin/sh
# The gate's last step: a plain `rt ci' over the checkout as it stands. It fails where that fails, and where the line `rt: ok' has
# ", N bad": an edit of must-fail/ that could not be tried, which `rt ci' itself lets pass. Its last line is `rt ci's own, with
# those edits among what failed.
set -u
cd "$(dirname "$0")/.."
room=$(mktemp -d)
trap 'rm -rf "$room"' EXIT
echo 0 > "$room/bad"
{ rt ci; echo "$?" > "$room/status"; } | while IFS= read -r line || [ -n "$line" ]; do
    case $line in
    'rt: ok'*', '[0-9]*' bad'*)
        printf '%s\n' "$line" | sed -n 's/.*, \([0-9][0-9]*\) bad.*/\1/p' > "$room/bad"
        ;;
    [0-9]*' passed, 0 failed'*)
        read -r bad < "$room/bad"
        [ "$bad" = 0 ] || { echo 'tests/ci.sh: must-fail edits that could not be tried count as failed'; line="${line%%, 0 failed*}, $bad failed"; }
        ;;
    esac
    printf '%s\n' "$line"
done
read -r status < "$room/status"
read -r bad < "$room/bad"
[ "$status" = 0 ] || exit "$status"
[ "$bad" = 0 ]
