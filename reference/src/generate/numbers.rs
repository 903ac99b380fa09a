//! Numbers worth trying: the edges of the paper's ranges and what lies around them.

use super::random::Random;
use crate::counter::Counter;

const EDGES: [u32; 16] = [
    0,
    1,
    2,
    3,
    15,
    16,
    255,
    256,
    (1 << 24) - 2,
    (1 << 24) - 1,
    1 << 24,
    (1 << 31) - 1,
    1 << 31,
    (1 << 31) + 1,
    u32::MAX - 1,
    u32::MAX,
];

const PERIODS: [u32; 12] = [
    2,
    3,
    4,
    10,
    16,
    255,
    256,
    12_000,
    65_536,
    1 << 23,
    16_777_214,
    16_777_215,
];

/// Mostly the periods that matter, else any length of number.
pub fn period(random: &mut Random) -> u32 {
    match random.below(5) {
        0 => random.pick(&[2, 3, 10, 16_777_215]),
        1 | 2 => random.pick(&PERIODS),
        3 => 2 + random.below(30),
        _ => (of_any_length(random) >> 8).max(2),
    }
}

/// A tick around the period, a multiple of it, or at the ends of its range.
pub fn tick(random: &mut Random, period: u32) -> u32 {
    match random.below(8) {
        0 => 1,
        1 => period,
        2 => period * (2 + random.below(100)),
        3 => random.pick(&[period - 1, period + 1, period * 2 - 1, period * 2 + 1]),
        4 => random.pick(&[2, 3, 4, 10, 1 << 24, 1 << 31, u32::MAX - 1, u32::MAX]),
        5 => 1 + random.below(20),
        _ => of_any_length(random).max(1),
    }
}

/// Cycles to run, or one gap of a sample, chosen around the next wraps.
pub fn cycles(random: &mut Random, counter: Counter) -> u32 {
    let period = counter.period;
    let whole = u64::from(period) * u64::from(random.below(5));
    let to_wrap = u64::from(counter.value);
    match random.below(10) {
        0 | 1 => random.pick(&EDGES),
        2 => random.pick(&[period - 1, period, period + 1]),
        3 => around(random, whole),
        4 => around(random, to_wrap),
        5 => around(random, whole + to_wrap),
        6 => random.below(20),
        7 | 8 => random.below(period),
        _ => of_any_length(random),
    }
}

/// As likely to be short as long, which an even choice is not.
pub fn of_any_length(random: &mut Random) -> u32 {
    let shift = random.below(32);
    random.word() >> shift
}

/// The number, or one less or more.
fn around(random: &mut Random, number: u64) -> u32 {
    let near = (number + 1).saturating_sub(u64::from(random.below(3)));
    near as u32
}
