#!/bin/sh
# Holds the files of specs/ to docs/ARCHITECTURE.md: the first line of each tells its kind, each that has to be believed and each
# that is evidence is listed with its lines (without `use` and blank ones), the sums are right, and no name has two meanings.
set -eu
cd "$(dirname "$0")/.."
room=$(mktemp -d)
trap 'rm -rf "$room"' EXIT
bad=0
for file in $(find crates/*/specs -name '*.antt' ! -name Lib.antt | sort); do
    kind=$(sed -n '1s/^-- \(Believed\|Inside\|Evidence\): .*/\1/p' "$file")
    case $kind in
    Inside) sed -n 1p "$file" | grep -q '`\|private' || { echo "specs: the first line of $file says neither what holds it nor that it is private"; bad=1; } ;;
    Believed | Evidence) echo "$kind $file $(grep -cv '^use \|^ *$' "$file")" >> "$room/are" ;;
    *) echo "specs: the first line of $file says neither Believed nor Inside nor Evidence"; bad=1 ;;
    esac
done
! grep -Hv '^pub mod [A-Za-z0-9]*$' crates/*/specs/Lib.antt || { echo 'specs: a Lib.antt has more than its modules'; bad=1; }

# The lists: a table's rows name files, and its last row sums them.
awk -F ' *[|] *' '
    /^### What has to be believed/ { kind = "Believed" }
    /^### Evidence/ { kind = "Evidence" }
    /^##/ && !/^### (What has to be believed|Evidence)/ { kind = "" }
    kind == "" { next }
    / lines for everything, / { split($0, said, " "); everything = said[1]; printed = said[5] }
    $2 ~ /^crates\/.*\.antt$/ { print kind, $2, $3 > (room "/listed"); sum += $3; all[kind] += $3 }
    $2 ~ /^together/ { if ($3 != sum) { print "specs: docs/ARCHITECTURE.md sums " sum " lines as " $3; wrong = 1 } }
    $2 ~ /^together, for a trace/ { if (printed != sum) { print "specs: docs/ARCHITECTURE.md says " printed " lines of " sum; wrong = 1 } }
    $2 ~ /^together/ { sum = 0; sums++ }
    END {
        if (sums != 3) { print "specs: docs/ARCHITECTURE.md has not just three sums"; wrong = 1 }
        if (everything != all["Believed"]) { print "specs: docs/ARCHITECTURE.md says " everything " lines of " all["Believed"]; wrong = 1 }
        exit wrong
    }
' room="$room" docs/ARCHITECTURE.md || bad=1
sort "$room/are" > "$room/a"
sort "$room/listed" > "$room/b"
diff "$room/a" "$room/b" > "$room/differ" || {
    echo 'specs: < of the files, > of the lists in docs/ARCHITECTURE.md'
    grep '^[<>]' "$room/differ"
    bad=1
}

# A name has one meaning: what specs/ define, and of proofs/ the records and statements, whose names begin with a capital.
names='s/^ *\(abbrev \|unfoldable \)\(pub \)\{0,1\}\([^ :]*\) .*/\3/p; s/^ *\(pub \)\{0,1\}\(record\|data\) \([^ :{]\{1,\}\) .*/\3/p; s/^\(pub \)\{0,1\}\([^ :]*\) : .*/\2/p'
find crates/*/specs -name '*.antt' -exec sed -n "$names" {} + | sort > "$room/named"
uniq -d "$room/named" > "$room/twice"
find crates/*/proofs -name '*.antt' -exec sed -n "$names" {} + | grep '^[A-Z]' | sort -u > "$room/proved"
uniq "$room/named" | comm -12 - "$room/proved" >> "$room/twice"
[ ! -s "$room/twice" ] || { sed 's/^/specs: defined twice: /' "$room/twice"; bad=1; }
[ "$bad" = 0 ] || exit 1
awk '{ files[$1]++; lines[$1] += $3 } END { printf "specs: %d lines in %d files have to be believed, %d in %d are evidence; each name has one meaning\n", lines["Believed"], files["Believed"], lines["Evidence"], files["Evidence"] }' "$room/a"
