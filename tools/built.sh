#!/bin/sh
# built.sh PROGRAM: where rt built it, proved; where it did not, nothing and status 1.
here=$(cd "$(dirname "$0")/.." && pwd)
[ -x "$here/crates/$1/out/$1" ] && echo "$here/crates/$1/out/$1"
