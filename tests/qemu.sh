#!/bin/sh
# Runs the Cortex-M archives on QEMU: every function against x86-64's answers, and the example driver against other timers
# and amid interrupts. Links README's example for every Cortex-M that it names.
set -eu
cd "$(dirname "$0")/.."
for tool in qemu-system-arm arm-none-eabi-gcc; do
    command -v "$tool" > /dev/null || {
        echo "qemu: skipped, there is no $tool here; the Debian packages qemu-system-arm and gcc-arm-none-eabi have what it needs"
        exit 0
    }
done
room=$(mktemp -d)
trap 'rm -rf "$room"' EXIT
strict='-std=c99 -Wall -Wextra -pedantic -Werror'
bench=firmware/qemu
checks=0 failed=0

# count CHECKS FAILED: adds them up.
count() {
    checks=$((checks + $1))
    failed=$((failed + $2))
}

# compile TARGET OUT OPTION..: a program for a board, or with -c part of one.
compile() {
    target=$1 out=$2
    shift 2
    case $target in
    thumbv6m) cpu=-mcpu=cortex-m0 ;;
    thumbv7m) cpu=-mcpu=cortex-m3 ;;
    thumbv7em) cpu='-mcpu=cortex-m4 -mfloat-abi=soft' ;;
    thumbv7em-hf) cpu='-mcpu=cortex-m4 -mfloat-abi=hard -mfpu=fpv4-sp-d16' ;;
    esac
    # A loop that copies must not become a call of the function that it is in.
    arm-none-eabi-gcc $strict $cpu -mthumb -O2 -ffreestanding -fno-tree-loop-distribute-patterns \
        -Iinclude -Ifirmware/example "$@" -o "$out"
}

# link TARGET OUT PART..: with the start-up, the archive and the compiler's helpers.
link() {
    target=$1 out=$2
    shift 2
    compile "$target" "$out" -nostdlib -T $bench/board.ld -Wl,--gc-sections -Wl,--fatal-warnings \
        $bench/start.c $bench/bench.c "$@" "target/firmware/$target/libtickclock.a" -lgcc
}

# run MACHINE PROGRAM [OPTION..]: what the program writes.
run() {
    machine=$1 program=$2
    shift 2
    timeout 60 qemu-system-arm -M "$machine" -nographic -monitor none -serial none "$@" \
        -chardev stdio,id=text -semihosting-config enable=on,target=native,chardev=text -kernel "$program" < /dev/null
}

echo 'qemu: making the archives'
sh tools/firmware.sh > "$room/said" || { cat "$room/said"; exit 1; }

# --- README's example, with the driver and newlib, linked without a warning ---
if [ -e "$(arm-none-eabi-gcc -print-file-name=rdimon.specs)" ]; then
    sh tools/readme.sh '#include' > "$room/readme.c"
    echo 'void ticks_came(uint64_t ticks) { (void)ticks; }' >> "$room/readme.c"
    while read -r target float parts; do
        linked=
        for part in $parts; do
            bad=0
            arm-none-eabi-gcc $strict -mthumb "-mcpu=$part" "-mfloat-abi=$float" -O2 --specs=rdimon.specs -Wl,--fatal-warnings \
                -Iinclude -Ifirmware/example "$room/readme.c" firmware/example/systick_clock.c \
                "target/firmware/$target/libtickclock.a" -o "$room/readme.elf" || bad=1
            count 1 "$bad"
            [ "$bad" != 0 ] || linked="$linked $part"
        done
        echo "$target with README's example and newlib: linked without a warning for$linked"
    done <<END
thumbv6m soft cortex-m0 cortex-m0plus cortex-m23
thumbv7m soft cortex-m3
thumbv7em soft cortex-m4 cortex-m7 cortex-m33 cortex-m55
thumbv7em-hf hard cortex-m4 cortex-m7 cortex-m33 cortex-m55
END
else
    echo 'qemu: not linked with newlib, which is not here; the Debian package libnewlib-arm-none-eabi has it'
fi

# --- the same calls, by the same source, on x86-64 and on each board ---
sh tools/cc.sh "$room/vectors" $bench/vectors.c $bench/bench.c $bench/host.c
sh tools/run.sh "$room/vectors" > "$room/want"
grep -oh '\b\(systick\|usage\|counter\)_[a-z_0-9]*(' include/tickclock.h | tr -d '(' | sort -u > "$room/declared"
sed 's/(.*//' "$room/want" | sort -u | diff "$room/declared" - || { echo 'qemu: the calls leave out a function of the header'; exit 1; }
while read -r target machine core; do
    link "$target" "$room/vectors.elf" $bench/vectors.c
    run "$machine" "$room/vectors.elf" > "$room/got" || echo "ended with status $?" >> "$room/got"
    # Of calls that differ the first is told.
    awk -v tally="$room/tally" -v target="$target" '
        NR == FNR { want[FNR] = $0; calls = FNR; next }
        $0 != want[FNR] && !bad++ { print "x86-64 says   " want[FNR]; print target " says " $0 }
        END {
            if (FNR < calls) bad += calls - FNR
            print calls, bad + 0 > tally
        }' "$room/want" "$room/got"
    read -r calls bad < "$room/tally"
    count "$calls" "$bad"
    echo "$target on $machine, a Cortex-$core: $calls calls of $(wc -l < "$room/declared") functions, $bad answered otherwise than on x86-64"
done <<END
thumbv6m microbit M0
thumbv7m mps2-an385 M3
thumbv7em mps2-an386 M4
thumbv7em-hf mps2-an386 M4
thumbv7em-hf mps2-an500 M7
END

# --- the example driver, and wrong ones, on SysTick. At a shift of n an instruction takes 2^n ns, a timer's cycle 40 ns ---
# driver NAME [EDIT]: $room/NAME.o, the driver after that edit, which must change it.
driver() {
    sed "${2:-}" firmware/example/systick_clock.c > "$room/$1.c"
    [ $# = 1 ] || ! cmp -s firmware/example/systick_clock.c "$room/$1.c" || { echo "qemu: the edit of $1 changes nothing"; exit 1; }
    compile thumbv7m "$room/$1.o" -c "$room/$1.c"
}

# shifts NAME BENCH PERIODS: what the bench writes for each shift, with so many periods each, to $room/NAME.
shifts() {
    link thumbv7m "$room/$1.elf" "$bench/$2.c" "$room/$1.o"
    for shift in 0 2 3 4 5 6; do
        run mps2-an385 "$room/$1.elf" -icount "shift=$shift,sleep=off" > "$room/got" || echo "ended with status $?" >> "$room/got"
        sed "s/^/shift $shift, /" "$room/got"
    done > "$room/$1"
    # A line that tells of no period is one of a bench that went wrong.
    odd=$(grep -Evc '^shift [0-9], period [0-9]+[:,] .* [0-9]+ checks, [0-9]+ failed$' "$room/$1" || true)
    [ "$odd" = 0 ] && [ "$(wc -l < "$room/$1")" = $((6 * $3)) ] || { cat "$room/$1"; count 1 1; }
}

# holds NAME: shows the lines of a driver that is right, and adds up what they count.
holds() {
    cat "$room/$1"
    awk -v tally="$room/tally" '{ checks += $(NF - 3); failed += $(NF - 1) } END { print checks, failed > tally }' "$room/$1"
    read -r held bad < "$room/tally"
    count "$held" "$bad"
}

# caught NAME PERIOD..: the wrong driver fails with each of these periods, at some shift. Not at every one: a sample must be
# quick enough to fall in the one cycle that tells, and with a period of 64 slow enough not to be late.
caught() {
    name=$1
    shift
    for period in "$@"; do
        at=$(sed -n "s/^shift \([0-9]\), period $period[:,] .*[^0-9][1-9][0-9]* failed\$/\1/p" "$room/$name" | paste -s -d ' ' -)
        if [ -n "$at" ]; then
            count 1 0
            echo "wrong driver $name, period $period: caught at shifts $at"
        else
            count 1 1
            echo "wrong driver $name, period $period: not caught"
        fi
    done
}

driver right
shifts right systick 3
holds right
# The flag is not cleared after a wrap.
driver no_D '/D, or the next sample/d'
# A wrap is told by the flag and not by the values too.
driver flag_alone 's/value_of(raw1, load)/val2/'
# The value 0 is taken as it is.
driver raw_zero 's/raw != 0 ? raw : load/load != 0 ? raw : load/'
for name in no_D flag_alone raw_zero; do
    shifts $name systick 3
    caught $name 64 1000 16777215
done
# A sample that has no room refuses.
driver no_room 's/^        number = announce(clk);/        number = TICKCLOCK_EAGAIN;/'
# A long stretch stays open.
driver runs_on 's/LONG_STRETCH <= cycles/cycles == UINT32_MAX/'
for name in no_room runs_on; do
    shifts $name systick 3
    caught $name 16777215
done

# --- the same with SysTick's exception taken: the handler samples and announces amid the main loop's samples and switches ---
driver interrupted
shifts interrupted interrupt 2
holds interrupted
# Interrupts are not masked.
driver unmasked 's/systick_clock_mask()/0/'
shifts unmasked interrupt 2
caught unmasked 2000 50000

# --- what a call costs on a Cortex-M0. The log has a line for each instruction, with the function that it is in, and one for
# each read of SysTick: A, B, C and, on a wrap, D ---
link thumbv6m "$room/cost.elf" $bench/cost.c firmware/example/systick_clock.c
case $(qemu-system-arm --help) in *-singlestep*) single=-singlestep ;; *) single='-accel tcg,one-insn-per-tb=on' ;; esac
bad=0
run microbit "$room/cost.elf" $single -icount shift=0,sleep=off -d exec,nochain,trace:systick_read -D "$room/log" || bad=1
count 1 "$bad"
awk '
    function tell() {
        if (name ~ /^(systick_clock|longest)_/) print "a Cortex-M0: " n " instructions in " name (d ? ", " d " of them from C to D" : "")
        n = d = reads = 0
        name = ""
    }
    /^Trace/ && $NF == "main" { tell(); next }
    /^Trace/ { if (!n++) name = $NF }
    /^systick_read/ { if (++reads == 3) c = n; if (reads == 4) d = n - c }
' "$room/log"

echo "qemu: $checks checks, $failed failed"
[ "$failed" = 0 ]
