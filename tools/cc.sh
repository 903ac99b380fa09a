#!/bin/sh
# cc.sh OUT [OPTION..] SOURCE..: compiles C for x86-64 and links it with the proved archive (tools/build.sh tickclock_c); tools/run.sh runs it.
set -eu
here=$(cd "$(dirname "$0")" && pwd)
archive=$here/../target/staticlib/libtickclock.a
out=$1
shift
strict='-std=c99 -Wall -Wextra -pedantic -Werror'
if [ "$(uname -m)" = x86_64 ]; then
    exec gcc $strict -I"$here/../include" "$@" "$archive" -o "$out"
fi
# Elsewhere the kit's own compiler and C library stand in for the machine's.
tools=$(sh "$here/kit.sh")
lib=$tools/lib
room=$(mktemp -d)
trap 'rm -rf "$room"' EXIT
options=
while case $1 in -*) true ;; *) false ;; esac; do
    options="$options $1"
    shift
done
for source in "$@"; do
    "$tools/bin/clang" --target=x86_64-linux-gnu $strict -O1 -fPIC -I"$here/../include" $options \
        -isystem "$(gcc -print-file-name=include)" -isystem "/usr/include/$(gcc -print-multiarch)" -isystem /usr/include \
        -c "$source" -o "$room/$(basename "$source" .c).o"
done
"$tools/bin/ld.lld" -pie --dynamic-linker /lib64/ld-linux-x86-64.so.2 -o "$out" \
    "$lib/Scrt1.o" "$lib/crti.o" "$lib/crtbeginS.o" "$room"/*.o "$archive" \
    "$lib/libc.so.6" "$lib/libc_nonshared.a" "$lib/libgcc.a" "$lib/crtendS.o" "$lib/crtn.o"
