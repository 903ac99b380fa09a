//! Traces that go through the refusals of form and of a missing setup.

use super::damage;
use super::mixed;
use super::numbers;
use super::pen::{Kind, Pen, NO_GAPS};
use super::random::Random;
use crate::record::{encode, SIZE};

/// No setup is ever accepted, so no record is.
pub fn without_setup(random: &mut Random) -> Vec<u8> {
    let mut pen = Pen::new();
    for _ in 0..1 + random.below(60) {
        before_setup(random, &mut pen);
    }
    pen.into_trace()
}

/// Records too early, then the setup and a usual trace.
pub fn late_setup(random: &mut Random) -> Vec<u8> {
    let mut pen = Pen::new();
    for _ in 0..1 + random.below(12) {
        before_setup(random, &mut pen);
    }
    let period = numbers::period(random);
    pen.setup(period, numbers::tick(random, period));
    let records = pen.records() + 20 + random.below(200) as usize;
    mixed::go_on(random, pen, records)
}

fn before_setup(random: &mut Random, pen: &mut Pen) {
    let thread = random.pick(&[0, 1, 15, 16, 255]);
    match random.below(6) {
        0 => pen.run(numbers::of_any_length(random)),
        1 => pen.announce(),
        2 => pen.report(thread),
        3 => pen.raw(damage::bad_setup(random)),
        _ => pen.sampling(random.pick(&Kind::SAMPLING), thread, NO_GAPS),
    }
}

/// Each kind with each of its bytes in turn set, before and after the setup.
pub fn every_byte(random: &mut Random) -> Vec<u8> {
    let mut pen = Pen::new();
    let early = [
        Kind::Run,
        Kind::Sample,
        Kind::Report,
        random.pick(&Kind::ALL[..9]),
    ];
    for kind in early {
        each_byte_set(random, &mut pen, kind);
    }
    let period = numbers::period(random);
    pen.setup(period, numbers::tick(random, period));
    for kind in Kind::ALL {
        each_byte_set(random, &mut pen, kind);
    }
    let records = pen.records() + 20;
    mixed::go_on(random, pen, records)
}

fn each_byte_set(random: &mut Random, pen: &mut Pen, kind: Kind) {
    for place in 1..SIZE {
        let mut record = match kind {
            Kind::Setup => encode(kind as u8, 0, 10, 4, 0),
            _ => encode(kind as u8, 0, 0, 0, 0),
        };
        record[place] = match random.below(3) {
            0 => 1,
            1 => 1 << random.below(8),
            _ => random.byte().max(1),
        };
        pen.raw(record);
    }
}

/// Each of the 256 kinds once, with nothing else set.
pub fn every_kind(random: &mut Random) -> Vec<u8> {
    let period = numbers::period(random);
    let mut pen = Pen::set_up(period, numbers::tick(random, period));
    let turn = random.byte();
    for kind in 0..=255u8 {
        pen.raw(encode(kind ^ turn, 0, 0, 0, 0));
    }
    pen.into_trace()
}
