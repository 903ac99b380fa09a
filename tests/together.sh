#!/bin/sh
# Wrong programs in which definition, contract and code agree: each file of tests/together changes them together, in a
# copy, and the copy is proved up to the demands. Every crate below has to be proved still, and then a statement has to
# fail, in the proof file that the wrong program names. Not part of `make test': each takes one to four minutes.
# usage: sh tests/together.sh [NAME...]
set -eu
cd "$(dirname "$0")/.."
[ $# -gt 0 ] || set -- $(ls tests/together)
work=$(mktemp -d)
trap 'rm -rf "$work"' EXIT
bad=0

# a line in which `old' stands becomes one with `new' instead, in which \n begins another; no other line may have it, but where `after' names a line
# it is the next one
replace() {
    AFTER=$2 OLD=$3 NEW=$4 awk '
        BEGIN { after = ENVIRON["AFTER"]; open = after == ""; new = ENVIRON["NEW"]; gsub(/\\n/, "\n", new) }
        { at = open ? index($0, ENVIRON["OLD"]) : 0 }
        at { found++; $0 = substr($0, 1, at - 1) new substr($0, at + length(ENVIRON["OLD"])) }
        at && after != "" { open = 0; after = "\n" }
        after != "" && index($0, after) { open = 1 }
        { print }
        END { exit found != 1 }' "$1" > "$work/replaced" || {
        echo "$1: '$3' does not stand in just one line" >&2
        exit 2
    }
    cat "$work/replaced" > "$1"
}

(cd crates/demands && rt check) > "$work/log" 2>&1 || {
    cat "$work/log" >&2
    exit 2
}
for name; do
    [ -f "tests/together/$name" ] || {
        echo "together: there is no wrong program $name in tests/together" >&2
        exit 2
    }
    copy=$work/copy
    rm -rf "$copy"
    mkdir "$copy"
    sh tools/copy.sh "$copy" crates crates.txt
    falls='' file='' after='' old=''
    while IFS= read -r line; do
        case $line in
        'falls: '*) falls=${line#falls: } ;;
        'file: '*) file=$copy/${line#file: } ;;
        'after: '*) after=${line#after: } ;;
        'old: '*) old=${line#old: } ;;
        'new: '*)
            replace "$file" "$after" "$old" "${line#new: }"
            after=''
            ;;
        'remove: '*) rm "$copy/${line#remove: }" ;;
        esac
    done < "tests/together/$name"
    (cd "$copy/crates/demands" && rt check) > "$work/log" 2>&1 && {
        echo "$name: PASSED, and no statement shuts it out"
        bad=1
        continue
    }
    # rt names the crate that it stopped at, and its files by their place in that
    crate=$(sed -n 's/^rt: the library \([a-z_]*\) did not build.*/\1/p' "$work/log" | tail -n 1)
    first=$(sed -n "s|^\(\./\)\{0,1\}\([^ :]*:[0-9]*:[0-9]*: error: \)|crates/${crate:-demands}/\2|p" "$work/log" | head -n 1 | cut -c 1-140)
    [ -n "$first" ] || first=$(sed -n "s|^note: \(src/[^ ]*: it is not proved \)|crates/${crate:-demands}/\1|p" "$work/log" | head -n 1 | cut -c 1-140)
    proved=$(find "$copy"/crates/*/out -maxdepth 1 -name rlib | wc -l)
    case $first in
    "$falls":*) echo "$name: refused, $proved crates proved before it: $first" ;;
    *)
        echo "$name: refused elsewhere than in $falls: $first"
        bad=1
        ;;
    esac
done
exit "$bad"
