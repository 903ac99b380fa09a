#!/bin/sh
# run.sh PROGRAM [ARGUMENT..]: runs a program that was built, or an x86-64 one by its path, where this is no x86-64 under an emulator.
set -eu
here=$(cd "$(dirname "$0")" && pwd)
case $1 in */*) program=$1 ;; *) program=$(sh "$here/built.sh" "$1") || { echo "run.sh: $1 is not built" >&2; exit 1; } ;; esac
shift
if [ "$(uname -m)" = x86_64 ]; then
    exec "$program" "$@"
fi
# Of the kits that there are, this one has no emulator; qemu's for programs is what it had.
emulator=$(command -v qemu-x86_64) || { echo "run.sh: this is a $(uname -m), the program is for x86-64, and there is no qemu-x86_64 here" >&2; exit 127; }
tools=$(sh "$here/kit.sh")
exec "$emulator" "$tools/lib/ld-linux-x86-64.so.2" --library-path "$tools/lib" "$program" "$@"
