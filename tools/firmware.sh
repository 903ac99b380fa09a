#!/bin/sh
# firmware.sh: makes target/firmware/*/libtickclock.a for Cortex-M from the LLVM module of the proved crate tickclock_c, with the kit alone.
# The module is kept while the kit compiles it for x86-64 (tools/module.sh), and compiled again for each target below.
# What can't be taken over to Arm is refused here, by name.
set -eu
cd "$(dirname "$0")/.."

# fail MESSAGE [LINE..]
fail() {
    printf 'firmware: %s\n' "$1" >&2
    shift
    [ $# = 0 ] || printf '%s\n' "$@" >&2
    exit 1
}

# What is read below, the module's text and clang's options, was read of this kit.
pinned='rattle-kit-13f logic dac8208d650f15bf'
version=$(rt version)
[ "$version" = "$pinned" ] || fail "rt version says \`$version', and tools/firmware.sh was written for \`$pinned'" \
    'look whether the module still has the forms that the script expects, then pin the new line there'

tools=$(sh tools/kit.sh)
room=$(mktemp -d)
trap 'rm -rf "$room"' EXIT
# Nothing of an earlier run is left where this one fails; all is put there at the end.
rm -rf target/firmware
out=$room/firmware
mkdir "$out"

# step TEXT: says what is done now, since the proofs take minutes where nothing was proved before.
step() {
    printf 'firmware: %s\n' "$1"
}

# The kit alone makes the archive first; while the module is kept it must make the same, byte by byte of the whole file, which holds no dates.
made=crates/tickclock_c/out/libtickclock_c.a
step 'proving the exported functions and all below them'
sh tools/build.sh tickclock_c
mv "$made" "$room/kit.a"
step 'proving the exported functions once more, to keep the compiler'"'"'s module'
sh tools/module.sh "$room/module.bc" tickclock_c lib
cmp "$room/kit.a" "$made" || fail 'the x86-64 archive is not the one that rt lib makes'

text=$out/tickclock.ll
"$tools/bin/clang" --target=x86_64-unknown-linux-gnu --no-default-config -Werror -x ir "$room/module.bc" -S -emit-llvm \
    -Xclang -disable-llvm-passes -o "$text"

# An export's calling convention was fixed for x86-64. These forms mean the same to an Arm caller in C; a narrower number
# is not extended as Arm asks, and a struct by value goes another way.
parameter='((i32|i64|ptr) noundef|i1 noundef zeroext) %a[0-9]+'
result='(void|noundef (i32|i64|zeroext i1))'
grep '^define ' "$text" | grep -v '^define internal ' > "$room/exports" || fail 'the module exports nothing'
odd=$(grep -Ev "^define $result @[a-z0-9_]+\\(($parameter(, $parameter)*)?\\) #0 \\{\$" "$room/exports" || true)
[ -z "$odd" ] || fail 'exported in a form that an Arm caller may take otherwise:' "$odd"
sed 's/.*@//; s/(.*//' "$room/exports" | sort > "$room/names"

# The module has i64 for usize too, and does not say what a pointer is to. The source does. A thread record is a bool, a u64
# and a u32, which lie in the same places on both; tests/qemu.sh tries that.
kind='(bool|i32|u32|u64|&(mut )?ThreadUsage)'
awk '/^pub extern "C" fn / { signature = ""; open = 1 }
    open { gsub(/^ +/, " "); sub(/ \{$/, ""); signature = signature $0 }
    open && /\)/ { print signature; open = 0 }' crates/tickclock_c/src/*.rt > "$room/signatures"
odd=$(grep -Ev "^pub extern \"C\" fn [a-z0-9_]+\\(( ?[a-z0-9_]+: $kind,?)*\\)( -> (bool|i32|u32|u64))?\$" "$room/signatures" || true)
[ -z "$odd" ] || fail 'a type that Arm may lay out otherwise:' "$odd"
sed 's/^pub extern "C" fn //; s/(.*//' "$room/signatures" | sort | diff - "$room/names" ||
    fail 'the source and the module export other names'

# What is of x86-64 in the module is three lines. Without them there is nothing left of it: no other attribute, no assembly,
# and no pointer taken for a number or kept in memory, which would have x86-64's width, but in a local that is a pointer and
# nothing else: that has the target's.
grep -q '^attributes #0 = { nounwind "probe-stack"="inline-asm" "stack-probe-size"="3072" "target-cpu"="x86-64-v2" }$' "$text" ||
    fail 'the module has other attributes than expected'
sed -e '/^target datalayout = /d' -e '/^target triple = /d' -e 's/^\(attributes #0 = { nounwind\) .* }$/\1 }/' "$text" > "$room/arm.ll"
awk '
    { line[++lines] = $0 }
    /^  %r[0-9]+ = alloca ptr, align 8$/ { pointer[$1] = 1 }
    /^}/ {
        for (i = 1; i <= lines; i++) {
            words = split(line[i], word, /[ ,]+/)
            if (line[i] ~ /^  %r[0-9]+ = alloca ptr, align 8$/) continue
            if (line[i] ~ /^  store ptr %[ar][0-9]+, ptr %r[0-9]+, align 8$/ && word[6] in pointer) continue
            if (line[i] ~ /^  %r[0-9]+ = load ptr, ptr %r[0-9]+, align 8(, !noundef ![0-9]+)?$/ && word[7] in pointer) continue
            print line[i]
            for (j = 1; j <= words; j++) {
                gsub(/[()]/, "", word[j])
                if (word[j] in pointer) print "a local pointer, otherwise used: " line[i]
            }
        }
        lines = 0
        split("", pointer)
    }
    END { for (i = 1; i <= lines; i++) print line[i] }' "$room/arm.ll" > "$room/rest.ll"
odd=$(grep -E '^target |"target-|x86|^module asm|[ (]asm |ptrtoint|inttoptr|(load|store) ptr|^a local pointer' "$room/rest.ll" || true)
[ -z "$odd" ] || fail 'the module has more of x86-64 in it:' "$odd"

# compiled TRIPLE FLOAT OPTION OUT: the module for a target. The options are the kit's own for x86-64, but O2: it is smaller
# here than O3.
compiled() {
    "$tools/bin/clang" --target="$1" -mfloat-abi="$2" -O2 -ffunction-sections -fdata-sections \
        -mllvm -trap-unreachable -mllvm -no-trap-after-noreturn --no-default-config -fno-crash-diagnostics \
        -Werror -Wno-override-module "$3" -x ir "$room/arm.ll" -o "$4"
}

# The kit's clang is several programs, told apart by name.
for program in llvm-nm llvm-objcopy; do ln -s "$tools/bin/clang" "$room/$program"; done
: > "$room/sizes"
: > "$room/instructions"
while read -r name triple float; do
    dir=$out/$name
    mkdir "$dir"
    step "compiling for $name"
    compiled "$triple" "$float" -c "$room/tickclock.o"
    # No object of a bare-metal GCC or newlib has this section, and where one has it GNU ld warns of all that lack it.
    "$room/llvm-objcopy" --remove-section=.note.GNU-stack "$room/tickclock.o"
    "$tools/bin/llvm-ar" rcsD "$dir/libtickclock.a" "$room/tickclock.o"
    "$room/llvm-nm" -j --defined-only --extern-only "$room/tickclock.o" | sort | diff - "$room/names" ||
        fail "$name: the archive has other names"
    "$room/llvm-nm" -j --undefined-only "$room/tickclock.o" > "$room/calls"
    odd=$(grep -Ev '^(__aeabi_[a-z0-9_]+|memcpy|memset|memmove)$' "$room/calls" || true)
    [ -z "$odd" ] || fail "$name: calls what is no helper of the compiler:" "$odd"
    "$room/llvm-nm" -S -t d --defined-only --extern-only "$room/tickclock.o" |
        awk -v target="$name" '{ print target, $4, $2 + 0 }' > "$room/size"
    cat "$room/size" >> "$room/sizes"
    # In the assembly a label begins a function, and a line that begins with a tab and a letter is an instruction.
    compiled "$triple" "$float" -S "$room/tickclock.s"
    awk -v target="$name" '/^[a-z][a-z0-9_]*:/ { sub(/:.*/, ""); at = $0 } /^\t[a-z]/ { count[at]++ }
        END { for (f in count) print target, f, count[f] }' "$room/tickclock.s" | sort >> "$room/instructions"
    awk -v name="$name" -v bytes="$(wc -c < "$dir/libtickclock.a")" -v calls="$(paste -s -d ' ' "$room/calls")" '
        { code += $3 } END { printf "target/firmware/%s/libtickclock.a: %d bytes, of code %d in %d functions; calls %s\n", name, bytes, code, NR, calls }
    ' "$room/size"
done <<END
thumbv6m thumbv6m-none-eabi soft
thumbv7m thumbv7m-none-eabi soft
thumbv7em thumbv7em-none-eabi soft
thumbv7em-hf thumbv7em-none-eabihf hard
END

mv "$out" target/firmware
# table FILE: a row for each function, a column for each target.
table() {
    awk '
        !($1 in column) { column[$1] = ++columns; head[columns] = $1 }
        { number[$2, column[$1]] = $3 }
        !($2 in seen) { seen[$2] = 1; row[++rows] = $2 }
        END {
            printf "%-46s", ""
            for (c = 1; c <= columns; c++) printf " %12s", head[c]
            print ""
            for (r = 1; r <= rows; r++) {
                printf "%-46s", row[r]
                for (c = 1; c <= columns; c++) printf " %12d", number[row[r], c]
                print ""
            }
        }' "$1"
}
echo 'bytes of code in each function:'
table "$room/sizes"
echo 'instructions in each function:'
table "$room/instructions"
