#!/bin/sh
# Cycles and ticks can't be mixed: a caller outside that does so is refused by the types, and one that doesn't is taken.
set -eu
root=$(cd "$(dirname "$0")/.." && pwd)
room=$(mktemp -d)
trap 'rm -rf "$room"' EXIT
mkdir -p "$room/crates/caller/src"
sh "$root/tools/copy.sh" "$room" crates/units
printf 'units:\ncaller: units\n' > "$room/crates.txt"
write() {
    cat > "$room/crates/caller/src/lib.rt" <<END
#![tactic(auto)]

use units::Cycles;
use units::Ticks;

fn later(now: Cycles) -> Cycles {
    now
}

pub fn caller(n: u64) -> Cycles {
    later($1(n))
}
END
}
caller() {
    (cd "$room/crates/caller" && rt check) > "$room/said" 2>&1
}
write Cycles
caller || { cat "$room/said"; echo "units: a caller that mixes nothing was refused"; exit 1; }
write Ticks
if caller; then
    echo "units: ticks were taken for cycles"
    exit 1
fi
grep -q 'mismatched-types' "$room/said" || { cat "$room/said"; echo "units: refused, but not by the types"; exit 1; }
echo "units: ticks are not taken for cycles"
