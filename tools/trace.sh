#!/bin/sh
# trace.sh [TEXT]: turns records written as words and numbers, one to a line, into the bytes of a trace on standard output.
#
#   setup L TICK        start THREAD P Q R      enable THREAD P Q R
#   run P               switch THREAD P Q R     disable THREAD P Q R
#   sample P Q R        stop P Q R              report THREAD
#   announce            bytes B B ..            # a comment, to the end of its line
#   repeat N RECORD     the record N times
#
# Fields left out at the end are 0. `bytes` puts any bytes, for records that are to be refused and for a short last one.
# With no TEXT, or with -, it reads standard input. Where a line can't be read it says so on standard error and writes no byte.
set -eu

# fail STATUS TEXT
fail() {
    printf '%s\n' "$2" >&2
    exit "$1"
}

name=${1--}
[ $# -le 1 ] || fail 2 'usage: trace.sh [TEXT]'
case $name in
    --help | -h) sed -n '2,/^set/{/^#/s/^# *//p;}' "$0"; exit ;;
    -)
        name='standard input'
        (true 3<&0) 2> /dev/null || fail 1 'standard input is closed: name a TEXT'
        ;;
    *)
        # A directory can be opened, and some awks read it as an empty text.
        [ ! -d "$name" ] || fail 1 "$name: is a directory"
        { command exec < "$name"; } 2> /dev/null || fail 1 "$name: can't be opened"
        ;;
esac

# A shell variable can't hold the byte 0, so awk writes the bytes as printf's escapes, a line of them for each record.
escapes=$(name=$name awk '
    BEGIN {
        # the number of each kind, then the fields that may follow its word
        kind["run"] = "0 p"
        kind["sample"] = "1 p q r"
        kind["announce"] = "2"
        kind["start"] = "3 thread p q r"
        kind["switch"] = "4 thread p q r"
        kind["stop"] = "5 p q r"
        kind["enable"] = "6 thread p q r"
        kind["disable"] = "7 thread p q r"
        kind["report"] = "8 thread"
        kind["setup"] = "9 p q"
        tell = "cat >&2"
    }

    function wrong(what) {
        print ENVIRON["name"] ":" NR ": " what | tell
        bad = 1
    }

    # Whether the word is a number up to most. Its digits are counted first, so that no large number is rounded.
    function good(word, most, digits) {
        digits = word
        sub(/^0+/, "", digits)
        if (word ~ /^[0-9]+$/ && length(digits) <= 10 && word + 0 <= most) return 1
        wrong("`" word "\47 is no number from 0 to " sprintf("%.0f", most))
        return 0
    }

    function byte(n) {
        return sprintf("\\%03o", n)
    }

    function word32(n, i, text) {
        text = ""
        for (i = 0; i < 4; i++) {
            text = text byte(n % 256)
            n = int(n / 256)
        }
        return text
    }

    function put(text, i) {
        for (i = 0; i < times; i++) print text
    }

    { sub(/\r$/, ""); sub(/#.*/, "") }

    NF == 0 { next }

    { times = 1 }

    $1 == "repeat" {
        if (NF < 3) { wrong("`repeat\47 takes a number and a record"); next }
        if (!good($2, 1000000)) next
        times = $2
        sub(/^[ \t]*repeat[ \t]+[^ \t]+/, "")
    }

    $1 == "bytes" {
        if (NF == 1) wrong("`bytes\47 without a byte")
        text = ""
        for (i = 2; i <= NF; i++) if (good($i, 255)) text = text byte($i)
        put(text)
        next
    }

    !($1 in kind) { wrong("no record is called `" $1 "\47"); next }

    {
        fields = split(kind[$1], field, " ")
        if (NF > fields) { wrong("`" $1 "\47 takes at most " fields - 1 " numbers, and here are " NF - 1); next }
        split("", value)
        for (i = 2; i <= NF; i++) if (good($i, field[i] == "thread" ? 255 : 4294967295)) value[field[i]] = $i
        put(byte(field[1]) byte(value["thread"]) byte(0) byte(0) word32(value["p"]) word32(value["q"]) word32(value["r"]))
    }

    END { close(tell); exit bad }
')
printf '%s\n' "$escapes" | while IFS= read -r line; do printf "$line" || exit 1; done 2> /dev/null || fail 1 "standard output can't be written"
