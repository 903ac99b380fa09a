#!/bin/sh
# Every public function of a library has an ensures, demands nothing of its caller, and stands in two lists: that of
# outcomes (crates/demands/proofs/Outcomes.antt), with its buffer where it is lent one to write in, and that of the
# statements over its contract which say what it gives (crates/demands/specs, gathered by the demands). The methods
# on a lent record and of a lent reader have their one outcome in proofs/Lent.antt. A generic function's contract stands there
# with its types, in brackets. docs/CONTRACTS.md has the second list
# as a table; `sh tests/public.sh table' prints it anew. Programs have no lib.rt and nothing that others can call; docs/CONTRACTS.md lists them. No crate
# can stand on an archive for C: its exports are held to the functions of the same names in the library that they call.
set -eu
LC_ALL=C
export LC_ALL
cd "$(dirname "$0")/.."
outcomes=crates/demands/proofs/Outcomes.antt
by_hand=crates/demands/specs/Lent.antt
statements='Leaves Entries Readers Writers Lent Exports Changes Terms'
contracts=docs/CONTRACTS.md
work=$(mktemp -d)
trap 'rm -rf "$work"' EXIT
bad=0 count=0
complain() {
    echo "$1" >&2
    bad=1
}

# Only what is believed and gathered by a demand counts.
for name in $statements; do
    file=crates/demands/specs/$name.antt
    head -n 1 "$file" | grep -q '^-- Believed: ' || complain "$file is not marked Believed"
    gathered=0
    for statement in $(sed -n "s/^use Rattle\.demands\.specs\.$name\.{\(.*\)}/\1/p" crates/demands/specs/Demand[123].antt); do
        ! grep -q "^  pub [a-z_]* : $statement\$" crates/demands/specs/Demand[123].antt || gathered=1
    done
    [ "$gathered" = 1 ] || complain "$file: no demand gathers it"
done

# The name of the statements' file that says what a contract gives: a property of every answer, a reader's two cases, or
# the last place of an export. As the leaf or reader of an export, or as a premise, a contract is not told of.
stated() {
    for statement in $statements; do
        file=crates/demands/specs/$statement.antt
        as=$(sed -n "s/^use Rattle\.$1\.proofs\.$2\.Reads as //p" "$file")
        [ -n "$as" ] || continue
        if grep -Eq "(Every|Gives[1-4]?|Refused|\.now\)+) \(?$as\.Post|(Exports|ExportsValue) .* $as\.Post( ×|\$)" "$file"; then
            echo "$statement"
            return
        fi
    done
}

# The public functions of a source file, each as one line: what it takes and gives, and its clauses, without spaces; and what
# the words of the clauses stand for.
signatures() {
    awk '
        /^ghost use / { print }
        /^pub (extern "C" )?fn / { sub(/extern "C" /, ""); text = ""; open = 1 }
        open && /^\{/ { gsub(/,\)/, ")", text); print text; open = 0 }
        open { gsub(/[ \t]/, ""); text = text $0 }
    ' "$1" | sort
}

exports=0
for archive in $(sed -n 's/^\([a-z0-9_]*\) staticlib:.*/\1/p' crates.txt); do
    library=${archive%_c}
    for file in crates/"$archive"/src/*.rt crates/"$library"/src/*.rt; do
        module=$(basename "$file")
        # What the library keeps to itself is not exported; all that the archive has is.
        case $file in
        crates/"$library"/*) grep -q "^pub mod ${module%.rt};" "crates/$library/src/lib.rt" || continue ;;
        */lib.rt) continue ;;
        esac
        [ -e "crates/$archive/src/$module" ] && [ -e "crates/$library/src/$module" ] || { complain "$file has no fellow in $archive or $library"; continue; }
        signatures "crates/$library/src/$module" > "$work/ours"
        signatures "crates/$archive/src/$module" > "$work/theirs"
        diff "$work/ours" "$work/theirs" >&2 || complain "crates/$archive/src/$module exports something else than crates/$library/src/$module has"
        [ "$(grep -c '^#\[unsafe(no_mangle)\]$' "crates/$archive/src/$module")" = "$(grep -c '^pubfn' "$work/theirs")" ] || complain "crates/$archive/src/$module has a function that is not exported"
        case $file in crates/"$archive"/*) exports=$((exports + $(grep -c '^pubfn' "$work/theirs"))) ;; esac
    done
    marks=$(cat crates/"$archive"/src/*.rt | grep -c 'no_mangle')
    [ "$marks" = "$exports" ] || complain "crates/$archive/src exports $marks functions, and $exports of them are held to $library's"
done

for lib in crates/*/src/lib.rt; do
    src=$(dirname "$lib")
    crate=$(basename "$(dirname "$src")")
    ! grep -q "^$crate staticlib:" crates.txt || continue
    for file in "$src"/*.rt; do
        module=$(basename "$file" .rt)
        # of what a private module has only the methods are public
        only=all
        if [ "$module" != lib ] && ! grep -q "^pub mod $module;" "$lib"; then only=methods; fi
        functions=$(awk -v module="$module" -v only="$only" '
            /^pub (struct|enum) / { name = $3; sub(/[^A-Za-z0-9_].*/, "", name); here[name] = 1 }
            /^impl/ { type = $2; sub(/[^A-Za-z0-9_].*/, "", type); next }
            /^}/ { type = "" }
            /^ *pub (extern "C" )?fn / {
                name = $0; sub(/.*fn /, "", name); sub(/[^A-Za-z0-9_].*/, "", name)
                if (only == "methods" && type == "") next
                # a method stands with its type, wherever its block is
                prefix = module == "lib" || (type != "" && !(type in here)) ? "" : module "."
                if (type != "") prefix = prefix type "."
                asked = 0; promised = 0; open = 1; lent = $0 ~ /&mut /
            }
            open && /&mut / { lent = 1 }
            open && /requires/ { asked = 1 }
            open && /ensures/ { promised = 1 }
            open && /\{ *$/ { print prefix name, asked, promised, lent; open = 0 }
        ' "$file")
        [ -n "$functions" ] || continue
        while read -r name asked promised lent; do
            count=$((count + 1))
            [ "$asked" = 0 ] || complain "$file: $name demands something of its caller"
            [ "$promised" = 1 ] || complain "$file: $name has no ensures"
            as=$(sed -n "s/^use Rattle\.$crate\.specs\.contracts\.$name as //p" "$by_hand")
            if [ -n "$as" ]; then
                grep -q "[( ]$as\.clauses " "$by_hand" || complain "$by_hand lacks $crate $name"
                echo "Lent $crate $name" >> "$work/stated"
                continue
            fi
            as=$(sed -n "s/^use Rattle\.$crate\.proofs\.$name\.Reads as //p" "$outcomes")
            if [ "$lent" = 1 ]; then outcome='OneOutcomeLent \(.*\)'; else outcome=OneOutcome; fi
            [ -n "$as" ] && grep -Eq "$outcome \(?$as\.Post" "$outcomes" || complain "$outcomes lacks $crate $name"
            statement=$(stated "$crate" "$name")
            [ -n "$statement" ] || complain "crates/demands/specs: no statement says what $crate $name gives"
            echo "$statement $crate $name" >> "$work/stated"
        done <<END
$functions
END
    done
done

# One row for each statements' file and crate.
{
    echo '| statements | crate | functions |'
    echo '|---|---|---|'
    for statement in $statements; do
        for lib in crates/*/src/lib.rt; do
            crate=$(basename "$(dirname "$(dirname "$lib")")")
            names=$(sed -n "s/^$statement $crate //p" "$work/stated" | sed 's/\./::/g' | sort | paste -sd, - | sed 's/,/, /g')
            [ -z "$names" ] || echo "| $statement | $crate | $names |"
        done
    done
} > "$work/table"
if [ "${1-}" = table ]; then
    cat "$work/table"
    exit "$bad"
fi
sed -n '/^| statements | crate | functions |$/,/^$/p' "$contracts" | sed '/^$/d' > "$work/written"
cmp -s "$work/table" "$work/written" || complain "$contracts: its table of statements is not what \`sh tests/public.sh table' prints"
[ "$bad" = 0 ] || exit 1
echo "public: $count functions, each with a contract that demands nothing, one outcome and a statement that says what it gives; $exports exports with the clauses of theirs"
