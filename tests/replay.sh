#!/bin/sh
# Runs the programs replay and replay_long as they were proved and built, and holds what they write to document 01.
set -eu
cd "$(dirname "$0")/.."
root=$(pwd)
for program in replay replay_long; do
    sh tools/built.sh "$program" > /dev/null || { echo "replay: $program is not built; sh tools/build.sh $program builds it"; exit 1; }
done
room=$(mktemp -d)
trap 'rm -rf "$room"' EXIT
# What is told goes past the redirections of single checks.
exec 4>&1
checks=0 failed=0
printed=traces/printed.trace
golden=crates/replay/stdout

# Counts a check, and tells of one that did not hold: its name, and what there is to see.
held() {
    checks=$((checks + 1))
    if [ "$2" != 0 ]; then
        failed=$((failed + 1))
        echo "replay: $1: failed" >&4
        [ ! -s "$room/differ" ] || sed -n '1,5p' "$room/differ" >&4
    fi
}

# same NAME FILE FILE: they hold the same bytes.
same() {
    bad=0
    cmp "$2" "$3" > "$room/differ" 2>&1 || bad=1
    held "$1" "$bad"
}

# run [ARGUMENT..]: the program on standard input. It may stand at the end of a pipe, so its status goes to a file.
run() {
    status=0
    sh tools/run.sh replay "$@" > "$room/out" 2> "$room/said" || status=$?
    echo "$status" > "$room/status"
}

# kept COMMAND..: a run whose output goes elsewhere.
kept() {
    status=0
    "$@" || status=$?
    echo "$status" > "$room/status"
}

# lines NAME FILE: the last run wrote that file, said nothing and ended with 0.
lines() {
    bad=0
    {
        diff "$2" "$room/out" || bad=1
        cat "$room/said"
        [ ! -s "$room/said" ] || bad=1
        read -r status < "$room/status"
        [ "$status" = 0 ] || { echo "status $status"; bad=1; }
    } > "$room/differ"
    held "$1" "$bad"
}

# refusal NAME LINE STATUS: the last run wrote nothing, said that line and ended with that status.
refusal() {
    bad=0
    printf '%s\n' "$2" > "$room/want"
    {
        diff "$room/want" "$room/said" || bad=1
        [ ! -s "$room/out" ] || { echo 'something was written'; bad=1; }
        read -r status < "$room/status"
        [ "$status" = "$3" ] || { echo "status $status"; bad=1; }
    } > "$room/differ"
    held "$1" "$bad"
}

# zeros N: that many bytes 0.
zeros() {
    dd if=/dev/zero bs="$1" count=1 2> "$room/dd"
}

# first N FILE: its first bytes.
first() {
    dd if="$2" bs="$1" count=1 2> "$room/dd"
}

# numbered N CODE: the lines of that many records, each with that code and two zeros.
numbered() {
    awk -v n="$1" -v code="$2" 'BEGIN { for (i = 0; i < n; i++) print i, code, 0, 0 }'
}

# --- the printed case, whichever way it comes ---
same 'the golden run is on printed.trace' crates/replay/stdin "$printed"
run "$printed"
lines 'the printed case by name' "$golden"
run < "$printed"
lines 'the printed case by standard input' "$golden"
# Byte by byte, with a wait inside the first record, between two, and before the last byte.
i=0
while [ "$i" -lt 176 ]; do
    case $i in 1 | 32 | 175) sleep 1 ;; esac
    dd if="$printed" bs=1 skip="$i" count=1 2> "$room/dd"
    i=$((i + 1))
done | run
lines 'the printed case by a slow pipe' "$golden"
mkdir "$room/a b"
cp "$printed" "$room/a b/-t"
status=0
(cd "$room/a b" && sh "$root/tools/run.sh" replay -t) > "$room/out" 2> "$room/said" || status=$?
echo "$status" > "$room/status"
lines 'a file by an odd name' "$golden"

# --- no record, cut records, too many ---
echo 'end 0 0' > "$room/empty"
run /dev/null
lines 'an empty file' "$room/empty"
run < /dev/null
lines 'an empty standard input' "$room/empty"

for k in 1 2 3 4 5 6 7 8 9 10 11 12 13 14 15; do
    first "$((160 + k))" "$printed" > "$room/trace"
    { sed -n '1,10p' "$golden"; printf 'tail -22\nend 23 23\n'; } > "$room/want-lines"
    run "$room/trace"
    lines "the last record cut to $k bytes" "$room/want-lines"
    { cat "$printed"; zeros "$k" | tr '\000' '\377'; } > "$room/trace"
    { sed '$d' "$golden"; printf 'tail -22\nend 23 23\n'; } > "$room/want-lines"
    run < "$room/trace"
    lines "$k bytes after the last record" "$room/want-lines"
    zeros "$k" > "$room/trace"
    printf 'tail -22\nend 0 0\n' > "$room/want-lines"
    run "$room/trace"
    lines "$k bytes alone" "$room/want-lines"
done

zeros 64000 > "$room/trace"
{ numbered 4000 -2; echo 'end 0 0'; } > "$room/want-lines"
run "$room/trace"
lines '64000 bytes by name' "$room/want-lines"
run < "$room/trace"
lines '64000 bytes by standard input' "$room/want-lines"
cat "$room/trace" | { sleep 1; run; }
lines '64000 bytes by a pipe' "$room/want-lines"
{
    status=0
    sh tools/run.sh replay "$room/trace" 2> "$room/said" || status=$?
    echo "$status" > "$room/status"
} | { sleep 1; cat; } > "$room/out"
lines '64000 bytes to a slow reader' "$room/want-lines"
zeros 63999 > "$room/trace"
{ numbered 3999 -2; printf 'tail -22\nend 0 0\n'; } > "$room/want-lines"
run "$room/trace"
lines '63999 bytes' "$room/want-lines"

# The widest T that 64000 bytes reach: 3999 runs of 4294967295 cycles.
awk 'BEGIN { print "setup 10 4"; for (i = 1; i < 4000; i++) print "run 4294967295" }' | sh tools/trace.sh > "$room/trace"
{ numbered 4000 0; echo 'end 17175574212705 0'; } > "$room/want-lines"
run "$room/trace"
lines '3999 long runs' "$room/want-lines"

echo 'input -28' > "$room/long"
for n in 64001 64016 65536 1000000; do
    zeros "$n" > "$room/trace"
    run "$room/trace"
    lines "$n bytes by name" "$room/long"
    run < "$room/trace"
    lines "$n bytes by standard input" "$room/long"
done
{ cat "$printed"; zeros 64000; } > "$room/trace"
cat "$room/trace" | run
lines 'the printed case and 64000 bytes by a pipe' "$room/long"

# --- 01's other case by program: L 16777215 samples after 254 counted wraps, not after 255 ---
awk 'BEGIN {
    print "setup 16777215 1"
    for (i = 1; i <= 255; i++) print "run 16777215\nsample"
    print "sample\nannounce\nsample"
}' | sh tools/trace.sh > "$room/trace"
awk 'BEGIN {
    print "0 0 0 0"
    for (i = 1; i <= 255; i++) printf "%d 0 0 0\n%d 0 %.0f 1\n", 2 * i - 1, 2 * i, i * 16777215
    print "511 -11 0 0\n512 0 4278189825 4278189825\n513 0 0 0\nend 4278189825 4278189825"
}' > "$room/want-lines"
run "$room/trace"
lines '255 counted wraps' "$room/want-lines"

# --- what can't be read or written is said, and nothing else is written ---
missing=$room/missing
run "$missing"
refusal 'no such file' "$missing: No such file or directory" 1
run "$room"
refusal 'a directory' "$room: Is a directory" 1
run < "$room"
refusal 'a directory as standard input' 'standard input: Is a directory' 1
run ''
refusal 'an empty name' ': No such file or directory' 1
run "$printed/x"
refusal 'a file taken for a directory' "$printed/x: Not a directory" 1
run "$(awk 'BEGIN { for (i = 0; i < 5000; i++) printf "a" }')"
refusal 'a name that is too long' 'first argument: File name too long' 0
run <&-
refusal 'standard input closed' 'standard input: Bad file descriptor' 1
run "$printed" "$printed"
refusal 'two arguments' 'usage: replay [TRACE]' 0
: > "$room/out"
kept sh tools/run.sh replay "$printed" 2> "$room/said" > /dev/full
refusal 'a full device' 'standard output: No space left on device' 1
kept sh tools/run.sh replay "$printed" 2> "$room/said" >&-
refusal 'standard output closed' 'standard output: Bad file descriptor' 1
(trap '' PIPE; sleep 1; kept sh tools/run.sh replay "$printed" 2> "$room/said") | :
refusal 'a pipe that nobody reads' 'standard output: Broken pipe' 1
# The first write is short: the file may grow to one block and no further.
zeros 64000 > "$room/trace"
(trap '' XFSZ; ulimit -f 1; kept sh tools/run.sh replay "$room/trace" 2> "$room/said" > "$room/block")
refusal 'a file that may not grow' 'standard output: File too large' 1

# --- replay_long: the same lines for a trace of any size, from standard input ---
# long: the program on standard input.
long() {
    status=0
    sh tools/run.sh replay_long > "$room/out" 2> "$room/said" || status=$?
    echo "$status" > "$room/status"
}
long < "$printed"
lines 'replay_long on the printed case' "$golden"
long < /dev/null
lines 'replay_long on an empty standard input' "$room/empty"
for n in 63999 64000 64001 128000 1000000; do
    zeros "$n" > "$room/trace"
    {
        numbered "$((n / 16))" -2
        [ "$((n % 16))" = 0 ] || echo 'tail -22'
        echo 'end 0 0'
    } > "$room/want-lines"
    cat "$room/trace" | long
    lines "replay_long on $n bytes" "$room/want-lines"
done
# The clock goes on over the end of a part: 4000 records, then one more.
awk 'BEGIN { print "setup 10 4"; for (i = 1; i < 4001; i++) print "run 4294967295" }' | sh tools/trace.sh > "$room/trace"
{ numbered 4001 0; echo 'end 17179869180000 0'; } > "$room/want-lines"
long < "$room/trace"
lines 'replay_long over the end of a part' "$room/want-lines"
long < "$room"
refusal 'replay_long on a directory' 'standard input: Is a directory' 1
long <&-
refusal 'replay_long with standard input closed' 'standard input: Bad file descriptor' 1
: > "$room/out"
kept sh tools/run.sh replay_long < "$printed" 2> "$room/said" > /dev/full
refusal 'replay_long to a full device' 'standard output: No space left on device' 1

# --- the examples in traces/: beside each record stands the line that it prints ---
for text in traces/*.txt; do
    name=$(basename "$text" .txt)
    sh tools/trace.sh "$text" > "$room/trace"
    same "$name.txt makes $name.trace" "$room/trace" "traces/$name.trace"
    run "traces/$name.trace"
    sed -n 's/.*# \([0-9][0-9]* -*[0-9][0-9]* [0-9][0-9]* [0-9][0-9]*\)\( .*\)*$/\1/p; s/.*# \(end [0-9][0-9]* [0-9][0-9]*\)\( .*\)*$/\1/p' "$text" > "$room/told"
    # Of a record that is repeated the last line alone is told.
    bad=0
    {
        grep -Fvxf "$room/out" "$room/told" && bad=1
        grep -Ev '^ *(#.*)?$' "$text" | wc -l > "$room/records"
        [ "$(wc -l < "$room/told")" = "$(($(cat "$room/records") + 1))" ] || { echo "$text does not tell a line for each record and one for the end"; bad=1; }
        [ "$(wc -l < "$room/out")" = "$(($(wc -c < "$room/trace") / 16 + 1))" ] || bad=1
        cat "$room/said"
        [ ! -s "$room/said" ] || bad=1
    } > "$room/differ"
    held "the lines of $name" "$bad"
done
bad=0
grep -Fvxf README.md traces/printed.txt > "$room/differ" && bad=1
held 'README shows printed.txt' "$bad"

# --- tools/trace.sh ---
cat > "$room/text" <<END
setup 10 4
strat 0
run 4294967296
sample 1 2 3 4
bytes 256
repeat 2
repeat 2 rum 1
END
cat > "$room/want" <<END
$room/text:2: no record is called \`strat'
$room/text:3: \`4294967296' is no number from 0 to 4294967295
$room/text:4: \`sample' takes at most 3 numbers, and here are 4
$room/text:5: \`256' is no number from 0 to 255
$room/text:6: \`repeat' takes a number and a record
$room/text:7: no record is called \`rum'
END
status=0
sh tools/trace.sh "$room/text" > "$room/out" 2> "$room/said" || status=$?
bad=0
diff "$room/want" "$room/said" > "$room/differ" || bad=1
[ "$status" = 1 ] && [ ! -s "$room/out" ] || bad=1
held 'lines that trace.sh refuses' "$bad"
printf 'disable 15 1 256 4294967295 # all fields\r\n\nrepeat 2 bytes 0 10\nbytes 255' | sh tools/trace.sh | od -An -v -tu1 | tr -s ' \n' '  ' > "$room/out"
echo ' 7 15 0 0 1 0 0 0 0 1 0 0 255 255 255 255 0 10 0 10 255 ' | tr -d '\n' > "$room/want"
same 'every field of a record' "$room/want" "$room/out"

echo "replay: $checks checks, $failed failed"
[ "$failed" = 0 ]
