//! Made-up traces: which family each numbered trace belongs to.

mod damage;
mod long_way;
mod million;
mod mixed;
mod numbers;
mod pen;
mod random;
mod refused;

use crate::record::SIZE;
use crate::replay::LIMIT;
use random::Random;

pub use million::million;

/// The trace with this number, the usual ones `scale` times as long. It depends
/// on nothing else, so that any one trace of a large set can be made again alone.
pub fn trace(seed: u64, number: u64, scale: u32) -> Vec<u8> {
    let random = &mut Random::of(seed, number);
    // A cycle of 100 gives every family its share even in small sets.
    match number % 100 {
        0 => Vec::new(),
        1 => refused::without_setup(random),
        2 => refused::late_setup(random),
        3 | 4 => refused::every_byte(random),
        5 => refused::every_kind(random),
        6 => damage::with_tail(Vec::new(), random),
        7..=10 => long_way::fill(random),
        11..=14 => long_way::multiples(random),
        15..=20 => long_way::falling(random),
        21..=24 => damage::displaced(mixed::usual(random, scale), random),
        25..=28 => damage::flipped(mixed::usual(random, scale), random),
        29..=38 => damage::with_tail(mixed::usual(random, scale), random),
        39 => of_limit_size(random, number / 100),
        _ => mixed::usual(random, scale),
    }
}

/// One record less than the limit, the limit, and one byte more, in turn.
fn of_limit_size(random: &mut Random, turn: u64) -> Vec<u8> {
    let mut trace = mixed::of_length(random, LIMIT / SIZE + 1);
    trace.truncate(match turn % 3 {
        0 => LIMIT - SIZE,
        1 => LIMIT,
        _ => LIMIT + 1,
    });
    trace
}
