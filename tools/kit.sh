#!/bin/sh
# kit.sh: prints where the kit's compiler and C library are.
set -eu
rt=$(command -v rt) || {
    echo "rt, the Rattle kit's command, is not on the PATH: README says under \"What it needs\" where the kit comes from" >&2
    exit 1
}
tools=$(dirname "$(dirname "$(readlink -f "$rt")")")/toolchain
[ -x "$tools/bin/clang" ] || {
    echo "kit.sh: the kit of $rt has no compiler in $tools/bin: README says under \"What it needs\" which kit these scripts were written for" >&2
    exit 1
}
echo "$tools"
