//! One trace of a million records for measuring speed, all of them accepted.

use super::pen::{Kind, Pen};
use super::random::Random;
use crate::clock::Gaps;
use crate::ledger::SLOTS;

const RECORDS: usize = 1_000_000;
const PERIOD: u32 = 16_777_215;
const TICK: u32 = 12_000;

/// Half of the records are runs of any 32-bit length.
pub fn million(seed: u64) -> Vec<u8> {
    let random = &mut Random::new(seed);
    let mut pen = Pen::set_up(PERIOD, TICK);
    while pen.records() < RECORDS {
        if random.one_in(2) {
            pen.run(random.word());
        } else if pen.can_sample() {
            work(random, &mut pen);
        } else {
            pen.announce();
        }
    }
    pen.into_trace()
}

fn work(random: &mut Random, pen: &mut Pen) {
    let thread = random.below(SLOTS as u32) as u8;
    let kind = match random.below(100) {
        0..=29 => Kind::Sample,
        30..=39 => return pen.announce(),
        40..=49 => return pen.report(thread),
        50..=64 => Kind::Switch,
        65..=74 => Kind::Enable,
        75..=84 => Kind::Disable,
        85..=91 => Kind::Stop,
        _ if pen.is_running() => Kind::Switch,
        _ => Kind::Start,
    };
    let gaps = Gaps {
        p: random.below(100),
        q: random.below(100),
        r: random.below(100),
    };
    pen.sampling(kind, thread, gaps);
}
