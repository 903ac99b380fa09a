// Upstream's answers to a fixed list of inputs, which crates/cases holds our leaves to.
//
// Upstream is pulseengine/gale at commit 5dd6024508. Put a copy of this file into a folder outside the
// repository and upstream.rs beside it: the bodies of upstream's src/error.rs, src/systick.rs and
// src/usage.rs as plain Rust, a module each, contracts and proofs stripped. upstream.rs is not ours and
// is never committed. There,
//
//     rustc --edition 2021 upstream_answers.rs
//     ./upstream_answers >stdin
//
// prints what is committed as crates/cases/stdin, the same at every run. It is compiled without -O, so
// that a sum of upstream's that does not fit stops the run and can't get into the list wrapped.
//
// Each input meets upstream's own `requires`. One that does is left out: enable of an untracked record
// with 4294967295 windows, where upstream's sum does not fit and ours refuses.
mod upstream;

use std::collections::HashSet;
use upstream::systick;
use upstream::usage::{self, StartDecision, StopDecision, SysTrackDecision, ThreadUsage};

const HEAD: &str = "\
# Upstream's answers to a fixed list of inputs, which the program cases holds our leaves to.
# They are those of systick.rs and usage.rs of pulseengine/gale, commit 5dd6024508: their bodies, run as
# plain Rust on inputs that meet their own requires. tools/upstream_answers.rs printed this list and says how.
# A row is the function's number, its inputs in upstream's order, and its answers. A bool is 0 or 1. An
# Option is 1 and its fields, or 0 and zeros. A code is 0, or 139 for -139, and the record after it follows.";

const FULL: u32 = u32::MAX;
const PAST: u64 = 1 << 32;
const HALF: u32 = 1 << 31;

// The ends of 32 bits and of the timer's 24, and some plain numbers.
const WORDS: [u32; 21] = [
    0, 1, 2, 3, 9, 10, 11, 255, 256, 12000, 65535, 65536, 16777214, 16777215, 16777216, 2147483647,
    2147483648, 2147483649, 4294967293, 4294967294, 4294967295,
];

// What a timer may be loaded with; upstream takes more than its 24 bits.
const LOADS: [u32; 9] = [
    0, 1, 2, 10, 16777215, 2147483647, 2147483648, 4294967294, 4294967295,
];

// By which upstream divides or multiplies: cycles of a tick, and windows.
const FACTORS: [u32; 12] = [
    0, 1, 2, 3, 10, 12000, 65536, 16777215, 16777216, 2147483648, 4294967294, 4294967295,
];

// The ends of 32 and of 64 bits.
const LONGS: [u64; 8] = [
    0,
    1,
    PAST - 1,
    PAST,
    1 << 63,
    u64::MAX - PAST,
    u64::MAX - 1,
    u64::MAX,
];

// Xorshift on 64 bits, from a fixed seed.
struct Random(u64);

impl Random {
    fn bits(&mut self) -> u64 {
        self.0 ^= self.0 << 13;
        self.0 ^= self.0 >> 7;
        self.0 ^= self.0 << 17;
        self.0
    }

    // Short numbers come as often as long ones.
    fn long(&mut self) -> u64 {
        let dropped = self.bits() % 64;
        self.bits() >> dropped
    }

    fn word(&mut self) -> u32 {
        let dropped = self.bits() % 32;
        (self.bits() >> 32) as u32 >> dropped
    }

    fn flag(&mut self) -> bool {
        self.bits() >> 63 == 1
    }

    fn long_up_to(&mut self, most: u64) -> u64 {
        match most.checked_add(1) {
            Some(count) => self.bits() % count,
            None => self.bits(),
        }
    }

    fn word_up_to(&mut self, most: u32) -> u32 {
        self.long_up_to(u64::from(most)) as u32
    }

    fn record(&mut self) -> ThreadUsage {
        ThreadUsage {
            track_usage: self.flag(),
            total_cycles: self.long(),
            num_windows: self.word(),
        }
    }
}

// What is printed: each row once.
struct List {
    printed: HashSet<Vec<u64>>,
}

impl List {
    fn row(&mut self, function: u64, inputs: &[u64], answers: &[u64]) {
        let numbers = [&[function], inputs, answers].concat();
        if self.printed.insert(numbers.clone()) {
            let texts: Vec<String> = numbers.iter().map(u64::to_string).collect();
            println!("{}", texts.join(" "));
        }
    }
}

fn long(word: u32) -> u64 {
    u64::from(word)
}

fn bit(flag: bool) -> u64 {
    u64::from(flag)
}

fn fields(record: ThreadUsage) -> [u64; 3] {
    [
        bit(record.track_usage),
        record.total_cycles,
        long(record.num_windows),
    ]
}

// What a method leaves: its code, without the sign, and the record.
fn left(code: i32, record: ThreadUsage) -> [u64; 4] {
    let [track_usage, total_cycles, num_windows] = fields(record);
    [
        long(code.unsigned_abs()),
        track_usage,
        total_cycles,
        num_windows,
    ]
}

// A number and its neighbours, as far as there are any.
fn around(number: u64) -> Vec<u64> {
    (number.saturating_sub(1)..=number.saturating_add(1)).collect()
}

fn words_around(word: u32) -> Vec<u32> {
    (word.saturating_sub(1)..=word.saturating_add(1)).collect()
}

// Values of a timer with this load: its ends and its middle.
fn values(load: u32) -> Vec<u32> {
    let chosen = [0, 1, 2, load / 2, load.saturating_sub(1), load];
    chosen.into_iter().filter(|v| *v <= load).collect()
}

// Numbers at and beside multiples of a factor, where a quotient changes, up to the last that fits.
fn near_multiples(factor: u32) -> Vec<u64> {
    let mut found = LONGS.to_vec();
    if factor == 0 {
        return found;
    }
    for times in [1, 2, 1000, PAST - 1, PAST, u64::MAX / long(factor)] {
        if let Some(multiple) = times.checked_mul(long(factor)) {
            found.extend(around(multiple));
        }
    }
    found
}

// Records at the ends of each field.
fn records() -> Vec<ThreadUsage> {
    let mut found = Vec::new();
    for track_usage in [false, true] {
        for total_cycles in LONGS {
            for num_windows in [0, 1, 2, HALF, FULL - 1, FULL] {
                found.push(ThreadUsage {
                    track_usage,
                    total_cycles,
                    num_windows,
                });
            }
        }
    }
    found
}

fn elapsed_cycles(list: &mut List, random: &mut Random) {
    println!("# 1 elapsed_cycles of systick.rs: last_count current_count load; answers cycles");
    let mut ask = |last: u32, current: u32, load: u32| {
        assert!(last <= load && current <= load);
        let cycles = systick::elapsed_cycles(last, current, load);
        list.row(1, &[long(last), long(current), long(load)], &[long(cycles)]);
    };
    for load in LOADS {
        for last in values(load) {
            for current in values(load) {
                ask(last, current, load);
            }
        }
    }
    for _ in 0..120 {
        let load = random.word();
        ask(random.word_up_to(load), random.word_up_to(load), load);
    }
}

fn cycles_to_ticks(list: &mut List, random: &mut Random) {
    println!("# 2 cycles_to_ticks: cycles cycles_per_tick; answers present ticks");
    let mut ask = |cycles: u64, tick: u32| {
        let answer = systick::cycles_to_ticks(cycles, tick);
        list.row(
            2,
            &[cycles, long(tick)],
            &[bit(answer.is_some()), answer.unwrap_or(0)],
        );
    };
    for tick in FACTORS {
        for cycles in near_multiples(tick) {
            ask(cycles, tick);
        }
    }
    for _ in 0..150 {
        ask(random.long(), random.word());
    }
}

fn ticks_to_cycles(list: &mut List, random: &mut Random) {
    println!("# 3 ticks_to_cycles: ticks cycles_per_tick; answers present cycles");
    let mut ask = |ticks: u64, tick: u32| {
        let answer = systick::ticks_to_cycles(ticks, tick);
        list.row(
            3,
            &[ticks, long(tick)],
            &[bit(answer.is_some()), answer.unwrap_or(0)],
        );
    };
    for tick in FACTORS {
        for ticks in LONGS {
            ask(ticks, tick);
        }
        if tick != 0 {
            // The last product that fits, and the first that does not.
            let most = u64::MAX / long(tick);
            for ticks in around(most) {
                ask(ticks, tick);
            }
            ask(most.saturating_add(2), tick);
            ask(most / 2, tick);
        }
    }
    for _ in 0..60 {
        let tick = random.word().max(1);
        let most = u64::MAX / long(tick);
        for ticks in around(most) {
            ask(ticks, tick);
        }
        ask(random.long_up_to(most), tick);
        ask(random.long(), tick);
    }
}

fn max_ticks(list: &mut List, random: &mut Random) {
    println!("# 4 max_ticks: cycles_per_tick; answers present ticks");
    let mut ask = |tick: u32| {
        let answer = systick::max_ticks(tick);
        list.row(
            4,
            &[long(tick)],
            &[bit(answer.is_some()), long(answer.unwrap_or(0))],
        );
    };
    for tick in WORDS {
        ask(tick);
    }
    // Where the quotient changes.
    for quotient in (1..=40).chain([100, 1000, 1397, 1398, 1399, 4095, 4096, 8388607, 8388608]) {
        for tick in words_around(systick::SYSTICK_MAX_LOAD / quotient) {
            ask(tick);
        }
    }
    for _ in 0..120 {
        ask(random.word());
    }
}

fn elapsed_decide(list: &mut List, random: &mut Random) {
    println!("# 5 elapsed_decide: val1 val2 countflag load overflow_cyc; answers wrap_detected new_overflow_cyc elapsed");
    let mut ask = |val1: u32, val2: u32, countflag: bool, load: u32, overflow: u32| {
        assert!(val2 <= load);
        assert!(long(load - val2) + long(overflow) + long(load) <= long(FULL));
        let answer = systick::elapsed_decide(val1, val2, countflag, load, overflow);
        list.row(
            5,
            &[
                long(val1),
                long(val2),
                bit(countflag),
                long(load),
                long(overflow),
            ],
            &[
                bit(answer.wrap_detected),
                long(answer.new_overflow_cyc),
                long(answer.elapsed),
            ],
        );
    };
    // The most overflow that upstream takes beside these, if it takes any.
    let room = |val2: u32, load: u32| (FULL - load).checked_sub(load - val2);
    for load in LOADS {
        for val2 in values(load) {
            let Some(room) = room(val2, load) else {
                continue;
            };
            for overflow in [0, load.min(room), room] {
                for val1 in words_around(val2) {
                    ask(val1, val2, false, load, overflow);
                    ask(val1, val2, true, load, overflow);
                }
            }
        }
    }
    for _ in 0..200 {
        // A larger load leaves room for hardly any value.
        let load = random.word_up_to(HALF);
        let val2 = random.word_up_to(load);
        if let Some(room) = room(val2, load) {
            let overflow = random.word_up_to(room);
            ask(random.word(), val2, random.flag(), load, overflow);
        }
    }
}

fn announce_decide(list: &mut List, random: &mut Random) {
    println!("# 6 announce_decide: cycle_count announced_cycles overflow_cyc cycles_per_tick; answers present dticks new_cycle_count new_announced_cycles");
    let mut ask = |count: u64, announced: u64, overflow: u32, tick: u32| {
        assert!(tick > 0 && long(overflow) <= u64::MAX - count);
        assert!(announced <= count + long(overflow));
        let answer = systick::announce_decide(count, announced, overflow, tick);
        let given = match answer {
            Some(a) => [1, long(a.dticks), a.new_cycle_count, a.new_announced_cycles],
            None => [0; 4],
        };
        list.row(6, &[count, announced, long(overflow), long(tick)], &given);
    };
    for tick in [1, 2, 3, 10, 12000, 16777215, 16777216, HALF, FULL] {
        for ticks in [0, 1, 2, PAST - 2, PAST - 1, PAST, u64::MAX / long(tick)] {
            for rest in [0, 1, long(tick) - 1] {
                let whole = ticks.checked_mul(long(tick));
                let Some(since) = whole.and_then(|w| w.checked_add(rest)) else {
                    continue;
                };
                // Nothing announced yet, and as much as 64 bits allow.
                for announced in [0, u64::MAX - since] {
                    let after = announced + since;
                    for overflow in [0, after.min(long(FULL)) as u32] {
                        ask(after - long(overflow), announced, overflow, tick);
                    }
                }
            }
        }
    }
    for _ in 0..150 {
        let overflow = random.word();
        let count = random.long_up_to(u64::MAX - long(overflow));
        let announced = (count + long(overflow)).saturating_sub(random.long());
        ask(count, announced, overflow, random.word().max(1));
    }
}

fn new_idle(list: &mut List) {
    println!("# 7 new_idle: no inputs; answers track_usage total_cycles num_windows");
    list.row(7, &[], &fields(ThreadUsage::new_idle()));
}

fn is_tracked(list: &mut List, random: &mut Random) {
    println!("# 8 is_tracked: track_usage total_cycles num_windows; answers tracked");
    let mut ask = |record: ThreadUsage| list.row(8, &fields(record), &[bit(record.is_tracked())]);
    records().into_iter().for_each(&mut ask);
    for _ in 0..30 {
        ask(random.record());
    }
}

fn enable(list: &mut List, random: &mut Random) {
    println!("# 9 enable: track_usage total_cycles num_windows; answers code track_usage total_cycles num_windows");
    let mut ask = |record: ThreadUsage| {
        if record.track_usage || record.num_windows != FULL {
            let mut after = record;
            let code = after.enable();
            list.row(9, &fields(record), &left(code, after));
        }
    };
    records().into_iter().for_each(&mut ask);
    for _ in 0..100 {
        ask(random.record());
    }
}

fn disable(list: &mut List, random: &mut Random) {
    println!("# 10 disable: track_usage total_cycles num_windows; answers code track_usage total_cycles num_windows");
    let mut ask = |record: ThreadUsage| {
        let mut after = record;
        let code = after.disable();
        list.row(10, &fields(record), &left(code, after));
    };
    records().into_iter().for_each(&mut ask);
    for _ in 0..60 {
        ask(random.record());
    }
}

fn accumulate(list: &mut List, random: &mut Random) {
    println!("# 11 accumulate: track_usage total_cycles num_windows cycles; answers code track_usage total_cycles num_windows");
    let mut ask = |record: ThreadUsage, cycles: u32| {
        let mut after = record;
        let code = after.accumulate(cycles);
        let inputs = [&fields(record), &[long(cycles)][..]].concat();
        list.row(11, &inputs, &left(code, after));
    };
    for cycles in [0, 1, 2, HALF, FULL - 1, FULL] {
        // The last sum that fits, and the first that does not.
        let last = around(u64::MAX - long(cycles));
        for total_cycles in LONGS.into_iter().chain(last) {
            for (track_usage, num_windows) in [(false, 0), (true, 1), (true, FULL)] {
                let record = ThreadUsage {
                    track_usage,
                    total_cycles,
                    num_windows,
                };
                ask(record, cycles);
            }
        }
    }
    for _ in 0..100 {
        ask(random.record(), random.word());
        let mut late = random.record();
        late.total_cycles = u64::MAX - random.long_up_to(2 * PAST);
        ask(late, random.word());
    }
}

fn decisions(list: &mut List) {
    println!("# 12 sys_enable_decide: current_tracking; answers 1 for Apply, 0 for NoOp");
    for flag in [false, true] {
        let answer = usage::sys_enable_decide(flag);
        list.row(12, &[bit(flag)], &[bit(answer == SysTrackDecision::Apply)]);
    }
    println!("# 13 sys_disable_decide: current_tracking; answers 1 for Apply, 0 for NoOp");
    for flag in [false, true] {
        let answer = usage::sys_disable_decide(flag);
        list.row(13, &[bit(flag)], &[bit(answer == SysTrackDecision::Apply)]);
    }
    println!("# 14 start_decide: track_usage; answers 1 for RecordStart, 0 for RecordOnly");
    for flag in [false, true] {
        let answer = usage::start_decide(flag);
        list.row(
            14,
            &[bit(flag)],
            &[bit(answer == StartDecision::RecordStart)],
        );
    }
}

fn stop_decide(list: &mut List, random: &mut Random) {
    println!("# 15 stop_decide: usage0; answers 1 for Accumulate, 0 for Skip");
    let mut ask = |usage0: u32| {
        let answer = usage::stop_decide(usage0);
        list.row(
            15,
            &[long(usage0)],
            &[bit(answer == StopDecision::Accumulate)],
        );
    };
    WORDS.into_iter().for_each(&mut ask);
    for place in 0..32 {
        ask(1 << place);
    }
    for _ in 0..60 {
        ask(random.word());
    }
}

fn average_cycles(list: &mut List, random: &mut Random) {
    println!("# 16 average_cycles: total_cycles num_windows; answers average");
    let mut ask = |total: u64, windows: u32| {
        let average = usage::average_cycles(total, windows);
        list.row(16, &[total, long(windows)], &[average]);
    };
    for windows in FACTORS {
        for total in near_multiples(windows) {
            ask(total, windows);
        }
    }
    for _ in 0..150 {
        ask(random.long(), random.word());
    }
}

fn stamp_difference(list: &mut List, random: &mut Random) {
    println!("# 17 elapsed_cycles of usage.rs: now usage0; answers cycles");
    let mut ask = |now: u32, usage0: u32| {
        let cycles = usage::elapsed_cycles(now, usage0);
        list.row(17, &[long(now), long(usage0)], &[long(cycles)]);
    };
    let ends = [0, 1, 2, HALF - 1, HALF, HALF + 1, FULL - 2, FULL - 1, FULL];
    for now in ends {
        for usage0 in ends {
            ask(now, usage0);
        }
    }
    for _ in 0..100 {
        let usage0 = random.word();
        ask(random.word(), usage0);
        // A short stretch that starts just before the wrap.
        let late = FULL - random.word_up_to(1000);
        ask(late.wrapping_add(random.word_up_to(2000)), late);
    }
}

fn main() {
    println!("{HEAD}");
    let mut list = List {
        printed: HashSet::new(),
    };
    let mut random = Random(5772156649015328606);
    elapsed_cycles(&mut list, &mut random);
    cycles_to_ticks(&mut list, &mut random);
    ticks_to_cycles(&mut list, &mut random);
    max_ticks(&mut list, &mut random);
    elapsed_decide(&mut list, &mut random);
    announce_decide(&mut list, &mut random);
    new_idle(&mut list);
    is_tracked(&mut list, &mut random);
    enable(&mut list, &mut random);
    disable(&mut list, &mut random);
    accumulate(&mut list, &mut random);
    decisions(&mut list);
    stop_decide(&mut list, &mut random);
    average_cycles(&mut list, &mut random);
    stamp_difference(&mut list, &mut random);
}
