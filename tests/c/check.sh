#!/bin/sh
# Links the C checks against the proved archive, runs them, and holds the header to what the source exports.
set -eu
cd "$(dirname "$0")/../.."
room=$(mktemp -d)
trap 'rm -rf "$room"' EXIT
strict='-Wall -Wextra -pedantic -Werror'

sh tools/build.sh tickclock_c

# the headers alone, as C99 and as C++; README's example; and the example driver, which a Cortex-M runs (tests/qemu.sh)
printf '#include "tickclock.h"\n' > "$room/alone.c"
printf '#include "systick_clock.h"\n' > "$room/driver.c"
sh tools/readme.sh '#include' > "$room/readme.c"
sh tools/readme.sh raw1 > "$room/sample.c"
[ -s "$room/readme.c" ] && [ -s "$room/sample.c" ] || { echo "c: README lacks its example or the driver's sample"; exit 1; }
! grep -Fvxf firmware/example/systick_clock.c "$room/sample.c" || { echo "c: README's sample is not the driver's"; exit 1; }
gcc -std=c99 $strict -Wshadow -Iinclude -Ifirmware/example -fsyntax-only \
    "$room/alone.c" "$room/driver.c" "$room/readme.c" firmware/example/systick_clock.c
if command -v g++ > /dev/null; then
    g++ -std=c++11 $strict -Iinclude -Ifirmware/example -fsyntax-only tests/c/header.cpp
    echo "c: the headers compile as C99 and as C++11, README's example and the example driver as C99"
else
    echo "c: the headers, README's example and the example driver compile as C99; no g++ here, so C++ was skipped"
fi

# what the header declares is what the source exports
grep -oh '\b\(systick\|usage\|counter\)_[a-z_0-9]*(' include/tickclock.h | tr -d '(' | sort -u > "$room/declared"
grep -h -A1 '^#\[unsafe(no_mangle)\]' crates/tickclock_c/src/*.rt | grep -o 'fn [a-z_0-9]*' | sed 's/fn //' | sort -u > "$room/exported"
diff "$room/declared" "$room/exported" || { echo "c: the header and the exports differ"; exit 1; }

sh tools/cc.sh "$room/leaves" tests/c/leaves.c
sh tools/run.sh "$room/leaves"

# the example driver, and wrong ones: each edit must change it, and be caught
# driven PROGRAM [EDIT]: the checks of the driver, after that edit.
driven() {
    rm -f "$1"
    sed "${2:-}" firmware/example/systick_clock.c > "$room/systick_clock.c"
    sh tools/cc.sh "$1" -Ifirmware/example -Itests/c '-DSYSTICK_CLOCK_PORT="driver_port.h"' tests/c/driver.c "$room/systick_clock.c"
    sh tools/run.sh "$1"
}
driven "$room/driven"
wrong=0
while read -r what edit; do
    if driven "$room/wrong" "$edit" > "$room/said" 2>&1; then
        echo "c: the wrong driver '$what' is not caught"
        exit 1
    fi
    # It has to be the checks that end it, and not the compiler.
    grep -q '^c: the example driver: .* failed$' "$room/said" || { cat "$room/said"; echo "c: the wrong driver '$what' was not run"; exit 1; }
    wrong=$((wrong + 1))
done <<'END'
refuses-for-room s/^        number = announce(clk);/        number = TICKCLOCK_EAGAIN;/
drops-kept-ticks s/clk->ticks_kept +=/clk->ticks_kept =/
leaves-long-stretches-open s/LONG_STRETCH <= cycles/cycles == UINT32_MAX/
takes-a-fall-for-a-long-stretch s/cycles < FALLEN/cycles != 0/
charges-all-at-enable s/thread == clk->running/thread == NULL/
counts-no-total s/clk->total_cycles += cycles;//
lets-the-total-wrap s/usage_accumulate_number(false, clk->total_cycles/usage_accumulate_number(false, 0/
closes-where-windows-are-full s/if (track) {/if (track \&\& thread != clk->running) {/
stamps-a-zero s/(uint32_t)now : 1/(uint32_t)now : 0/
masks-nothing s/systick_clock_mask()/masked/
unmasks-what-was-masked s/systick_clock_restore(was)/systick_clock_restore(0 * was)/
END
echo "c: $wrong wrong drivers caught"
