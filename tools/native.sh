#!/bin/sh
# native.sh PROGRAM FILE: writes to FILE a proved program as this machine's own code, which on x86-64 is what the kit makes.
# With an older kit the program's LLVM module was compiled for another machine; what this kit hands on of a program asks an
# x86-64 processor for its features as it starts, and calls C functions that the kit has for x86-64 alone.
set -eu
cd "$(dirname "$0")/.."
[ "$(uname -m)" = x86_64 ] || {
    echo "native.sh: this is a $(uname -m), and this kit's programs can be made for x86-64 only" >&2
    exit 1
}
sh tools/build.sh "$1"
cp "crates/$1/out/$1" "$2"
