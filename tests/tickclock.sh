#!/bin/sh
# Tries ./tickclock and `make replay' as a newcomer would: built and not built, with and without the kit, with wrong words.
set -eu
cd "$(dirname "$0")/.."
root=$(pwd)
sh tools/built.sh replay > /dev/null && sh tools/built.sh replay_long > /dev/null || { echo "tickclock: sh tools/build.sh replay replay_long builds what is tried here"; exit 1; }
room=$(mktemp -d)
trap 'rm -rf "$room"' EXIT
printed=$root/traces/printed.trace
golden=$root/crates/replay/stdout
use='usage: ./tickclock replay [FILE], or --help'
checks=0 failed=0
# A make that runs this has nothing to say to those below.
unset MAKEFLAGS MAKELEVEL

# held NAME: the last command wrote $room/out, said just $room/want and ended with $wanted.
held() {
    checks=$((checks + 1))
    if ! diff "$room/want" "$room/said" > "$room/differ" || [ "$status" != "$wanted" ]; then
        failed=$((failed + 1))
        echo "tickclock: $1: failed, status $status in place of $wanted"
        sed -n '1,5p' "$room/differ"
    fi
}

# lines NAME COMMAND..: it prints the printed case, says nothing and ends with 0.
lines() {
    name=$1 wanted=0 status=0
    shift
    "$@" > "$room/out" 2> "$room/said" || status=$?
    cp "$golden" "$room/want"
    cat "$room/out" "$room/said" > "$room/both"
    mv "$room/both" "$room/said"
    held "$name"
}

# says NAME STATUS LINE COMMAND..: it prints nothing, says that one line and ends with that status.
says() {
    name=$1 wanted=$2 status=0
    printf '%s\n' "$3" > "$room/want"
    shift 3
    "$@" > "$room/out" 2> "$room/said" || status=$?
    [ ! -s "$room/out" ] || echo 'something was written' >> "$room/said"
    held "$name"
}

# Commands that need the shell's help.
closed_output() { ./tickclock replay "$printed" >&-; }
closed_input() { ./tickclock replay <&-; }
full_output() { ./tickclock replay "$printed" > /dev/full; }
closed_help() { ./tickclock --help >&-; }
full_help() { ./tickclock --help > /dev/full; }
by_input() { ./tickclock "$@" < "$printed"; }
by_pipe() { cat "$printed" | ./tickclock "$@"; }
from() { (cd "$1" && shift && "$@"); }

# --- as it should be ---
lines 'a file' ./tickclock replay "$printed"
lines 'standard input' by_input replay
lines 'standard input by -' by_pipe replay -
lines 'a file, by replay_long' ./tickclock replay_long "$printed"
lines 'standard input, by replay_long' by_pipe replay_long
mkdir "$room/a b"
cp "$printed" "$room/a b/-t"
lines 'an odd name, from another folder' from "$room/a b" "$root/tickclock" replay ./-t
./tickclock replay "$printed" 2> "$room/said" | true
: > "$room/want"
status=0 wanted=0
held 'a pipe that nobody reads says nothing'
for word in --help -h help 'replay --help'; do
    status=0
    ./tickclock $word > "$room/out" 2> "$room/said" || status=$?
    head -n 1 "$room/out" > "$room/first"
    cat "$room/first" "$room/said" > "$room/both"
    mv "$room/both" "$room/said"
    echo 'usage: ./tickclock replay [FILE]' > "$room/want"
    wanted=0
    held "$word"
done

# --- wrong words ---
says 'no word' 2 "tickclock: $use" ./tickclock
says 'no such program' 2 "tickclock: there is no program reply; $use" ./tickclock reply
says 'no such option' 2 "tickclock: replay has no option -x (a FILE of that name is ./-x); $use" ./tickclock replay -x
says 'two files' 2 "tickclock: replay takes one FILE, and here are 2; $use" ./tickclock replay a b
says 'an empty name' 2 "tickclock: the FILE has no name; $use" ./tickclock replay ''
long=$(awk 'BEGIN { for (i = 0; i < 5000; i++) printf "a" }')
says 'a name that is too long' 1 "tickclock: the FILE's name has 5000 bytes, and a path has at most 4095: give a shorter one, or the trace as standard input" ./tickclock replay "$long"
if command -v script > /dev/null; then
    # Of a terminal's own doing lines end with a carriage return, and standard error is there too.
    status=0
    script -qec './tickclock replay' /dev/null < /dev/null > "$room/said" 2>&1 || status=$?
    tr -d '\r' < "$room/said" > "$room/both"
    mv "$room/both" "$room/said"
    echo "tickclock: no FILE, and standard input is a terminal; $use" > "$room/want"
    wanted=2
    held 'a terminal'
else
    echo 'tickclock: not tried with a terminal, since there is no script here'
fi

# --- what can't be read or written ---
says 'no such file' 1 "tickclock: $room/missing: there is no such file, or no way to it" ./tickclock replay "$room/missing"
says 'a name of two lines' 1 'tickclock: a?b: there is no such file, or no way to it' ./tickclock replay "$(printf 'a\nb')"
says 'a directory' 1 "tickclock: $room: is a directory" ./tickclock replay "$room"
says 'a directory, by replay_long' 1 "tickclock: $room: is a directory" ./tickclock replay_long "$room"
if ! (: < /dev/tty) 2> /dev/null && [ -r /dev/tty ]; then
    says 'what is there and opens not' 1 "tickclock: /dev/tty: can't be opened" by_input replay /dev/tty
fi
says 'standard input closed' 1 'tickclock: standard input is closed: name a FILE' closed_input
says 'standard output closed' 1 'tickclock: standard output is closed: send the lines to a file or a pipe' closed_output
says 'a full device' 1 'tickclock: standard output: No space left on device' full_output
says 'help to a closed output' 1 'tickclock: standard output is closed: send the lines to a file or a pipe' closed_help
says 'help to a full device' 1 "tickclock: standard output can't be written" full_help

# --- not built, and built in seconds ---
copy=$room/copy
mkdir "$copy"
sh tools/copy.sh "$copy" Makefile README.md crates crates.txt tickclock tools traces
not_built="is not built: \`make' proves and builds it; \`make replay TRACE=FILE' replays a trace in seconds, without its proofs"
says 'not built' 2 "tickclock: replay $not_built" "$copy/tickclock" replay "$printed"
mkdir "$copy/crates/replay/out"
# An interpreter that is not there is what a loader that is not there looks like.
echo '#!/nowhere/loader' > "$copy/crates/replay/out/replay"
chmod +x "$copy/crates/replay/out/replay"
says 'built for another machine' 2 "tickclock: $copy/crates/replay/out/replay can't be run here: it is for Linux on x86-64 with glibc, in a folder from which programs may run" \
    "$copy/tickclock" replay "$printed"
rm -r "$copy/crates/replay/out"
# With no kit: the usual folders alone, unless it is in one of them.
if ! PATH=/usr/bin:/bin command -v rt > /dev/null; then
    no_kit="rt, the Rattle kit's command, is not on the PATH: README says under \"What it needs\" where the kit comes from"
    for target in all cases replay replay_long firmware qemu test fuzz bench; do
        status=0
        PATH=/usr/bin:/bin make -C "$copy" --no-print-directory "$target" > "$room/out" 2> "$room/all" || status=$?
        # make adds a line of its own, that the target failed
        sed -n 1p "$room/all" | cat "$room/out" - > "$room/said"
        printf '%s\n' "$no_kit" > "$room/want"
        wanted=2
        held "make $target without the kit"
    done
fi
quick="quick: running replay without its proofs, in seconds; \`make' and \`make test' prove it"
status=0 wanted=0
make -C "$copy" --no-print-directory replay > "$room/out" 2> "$room/said" || status=$?
{ cat "$golden"; echo "$quick"; } > "$room/want"
cat "$room/out" "$room/said" > "$room/both"
mv "$room/both" "$room/said"
held 'make replay in a fresh copy'
cp "$printed" "$copy/a \`b\` 'c'"
{ cat "$golden"; echo "$quick"; } > "$room/want"
status=0 wanted=0
make -C "$copy" --no-print-directory replay "TRACE=a \`b\` 'c'" > "$room/out" 2> "$room/said" || status=$?
cat "$room/out" "$room/said" > "$room/both"
mv "$room/both" "$room/said"
held 'make replay with an odd name'
# Where it is built, and newer than the sources, that is what runs.
mkdir "$copy/crates/replay/out"
cp crates/replay/out/replay "$copy/crates/replay/out/"
touch "$copy/crates/replay/out/replay"
lines 'make replay once it is built' make -C "$copy" --no-print-directory replay
lines 'make replay of what is built with an odd name' make -C "$copy" --no-print-directory replay "TRACE=a \`b\` 'c'"

# --- make help tells of every target ---
for target in $(sed -n 's/^\.PHONY: //p' Makefile); do
    case $target in all) word='make' ;; kit) continue ;; *) word="make $target" ;; esac
    checks=$((checks + 1))
    make help | grep -q "^$word  *[A-Za-z]" || { failed=$((failed + 1)); echo "tickclock: make help does not tell of $word"; }
done

echo "tickclock: $checks checks, $failed failed"
[ "$failed" = 0 ]
