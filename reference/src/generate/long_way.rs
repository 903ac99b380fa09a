//! Traces that take many records to reach a far place: a full overflow, a multiple of 2^32.

use super::mixed;
use super::numbers;
use super::pen::{Kind, Pen, NO_GAPS};
use super::random::Random;
use crate::clock::Gaps;

/// Long periods, which reach 2^32 in a few hundred wraps. The power of two
/// meets the limit of a sample exactly.
const LONG_PERIODS: [u32; 6] = [
    1 << 23,
    (1 << 23) + 1,
    12_000_000,
    16_777_214,
    16_777_215,
    16_777_215,
];

fn long_pen(random: &mut Random) -> Pen {
    let period = random.pick(&LONG_PERIODS);
    Pen::set_up(period, numbers::tick(random, period))
}

/// Counts wraps until a sample is refused, shows that every sampling kind is
/// refused then, announces, and goes on.
pub fn fill(random: &mut Random) -> Vec<u8> {
    let mut pen = long_pen(random);
    let thread = random.below(16) as u8;
    if random.one_in(2) {
        pen.sampling(Kind::Enable, thread, NO_GAPS);
        pen.sampling(Kind::Start, thread, NO_GAPS);
    }
    while pen.can_sample() {
        wrap_and_sample(random, &mut pen);
    }
    for kind in Kind::SAMPLING {
        let r = random.below(3);
        pen.sampling(kind, thread, Gaps { p: 0, q: 0, r });
    }
    pen.sampling(Kind::Switch, 16, NO_GAPS);
    pen.run(numbers::cycles(random, pen.counter()));
    pen.report(thread);
    pen.sampling(Kind::Sample, 0, NO_GAPS);
    pen.announce();
    pen.announce();
    let records = pen.records() + 20 + random.below(60) as usize;
    mixed::go_on(random, pen, records)
}

/// One wrap somewhere in the sample or just before it.
fn wrap_and_sample(random: &mut Random, pen: &mut Pen) {
    let counter = pen.counter();
    let enough = counter.value + random.below(counter.period);
    let gaps = match random.below(4) {
        0 => Gaps {
            p: 0,
            q: enough,
            r: 0,
        },
        1 => Gaps {
            p: 0,
            q: 0,
            r: enough,
        },
        2 => {
            pen.run(enough);
            NO_GAPS
        }
        _ => Gaps {
            p: enough,
            q: 0,
            r: 0,
        },
    };
    pen.sampling(Kind::Sample, 0, gaps);
}

/// Goes fairly to readings on and around multiples of 2^32, where the stamp is
/// 0, and opens and closes stretches there. The first stretch opens at 0 to 3,
/// so that its length lies on both sides of what can be measured.
pub fn multiples(random: &mut Random) -> Vec<u8> {
    let mut pen = long_pen(random);
    let thread = random.below(16) as u8;
    pen.sampling(Kind::Enable, thread, NO_GAPS);
    pen.run(random.below(4));
    pen.sampling(Kind::Start, thread, NO_GAPS);
    for multiple in 1..=1 + u64::from(random.below(2)) {
        let target = (multiple << 32) + u64::from(random.below(7)) - 3;
        travel(random, &mut pen, target);
        pen.sampling_sure(Kind::Switch, thread, NO_GAPS);
        pen.report(thread);
        for _ in 0..2 + random.below(8) {
            around_here(random, &mut pen, thread);
        }
        if !pen.is_running() {
            pen.sampling_sure(Kind::Start, thread, NO_GAPS);
        }
    }
    let records = pen.records() + 10 + random.below(40) as usize;
    mixed::go_on(random, pen, records)
}

/// Runs until T is the target, sampling often enough to see each wrap.
fn travel(random: &mut Random, pen: &mut Pen, target: u64) {
    loop {
        let counter = pen.counter();
        let left = target - counter.ran;
        if left < u64::from(counter.period) {
            pen.run(left as u32);
            return;
        }
        let whole = counter.period - 1 - random.below(counter.period / 16);
        let p = random.up_to(whole);
        pen.sampling_sure(
            Kind::Sample,
            0,
            Gaps {
                p,
                q: whole - p,
                r: 0,
            },
        );
    }
}

fn around_here(random: &mut Random, pen: &mut Pen, thread: u8) {
    let gaps = Gaps {
        p: random.below(2),
        q: random.below(2),
        r: random.below(2),
    };
    pen.sampling_sure(random.pick(&Kind::SAMPLING), thread, gaps);
    if random.one_in(2) {
        pen.report(thread);
    }
}

/// Lets the reading fall, so that each stretch measures nearly 2^32 and the
/// totals climb from one multiple of 2^32 to the next.
pub fn falling(random: &mut Random) -> Vec<u8> {
    let period = numbers::period(random);
    let mut pen = Pen::set_up(period, numbers::tick(random, period));
    let thread = random.below(16) as u8;
    pen.sampling(Kind::Start, thread, NO_GAPS);
    pen.sampling(Kind::Enable, thread, NO_GAPS);
    for _ in 0..5 + random.below(40) {
        fall(random, &mut pen, thread);
        to_multiple(random, &mut pen, thread);
        pen.report(thread);
    }
    let records = pen.records() + 10 + random.below(40) as usize;
    mixed::go_on(random, pen, records)
}

/// C comes late in its period, D early in the next, and D drops that wrap.
fn fall(random: &mut Random, pen: &mut Pen, thread: u8) {
    let counter = pen.counter();
    let late = 1 + random.below(counter.period - 1);
    let early = random.below(late);
    let gaps = Gaps {
        p: counter.value + late,
        q: 0,
        r: counter.period - late + early,
    };
    pen.sampling_sure(Kind::Switch, thread, gaps);
    pen.sampling_sure(Kind::Switch, thread, NO_GAPS);
}

/// Brings the thread's total to a multiple of 2^32 or next to it, where that
/// is less than a period away.
fn to_multiple(random: &mut Random, pen: &mut Pen, thread: u8) {
    let past = pen.total(thread) as u32;
    let distance = past
        .wrapping_neg()
        .wrapping_add(random.below(3))
        .wrapping_sub(1);
    if distance < pen.counter().period {
        pen.run(distance);
        pen.sampling_sure(Kind::Switch, thread, NO_GAPS);
    }
}
