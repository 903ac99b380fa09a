//! Records that must be refused, and traces whose bytes were damaged.

use super::numbers;
use super::pen::Kind;
use super::random::Random;
use crate::counter::Counter;
use crate::record::{encode, SIZE};

/// A record for a machine that is set up, refused whatever the state.
pub fn refused_record(random: &mut Random, thread: u8) -> [u8; SIZE] {
    let any = numbers::of_any_length(random);
    match random.below(8) {
        0 => encode(unknown_kind(random), thread, any, 0, 0),
        1 | 2 => unused_set(random, thread),
        3 => encode(Kind::Setup as u8, 0, 2 + random.below(1000), any.max(1), 0),
        4 => bad_setup(random),
        _ => absent_thread(random),
    }
}

fn unknown_kind(random: &mut Random) -> u8 {
    match random.below(3) {
        0 => 10,
        1 => 255,
        _ => 10 + random.below(246) as u8,
    }
}

/// One byte or field that the kind does not use, set to something.
fn unused_set(random: &mut Random, thread: u8) -> [u8; SIZE] {
    let any = numbers::of_any_length(random).max(1);
    let byte = random.pick(&[1, 15, 16, 255]);
    match random.below(8) {
        0 => encode(Kind::Run as u8, byte, any, 0, 0),
        1 => encode(Kind::Run as u8, 0, 0, any, 0),
        2 => encode(Kind::Run as u8, 0, any, 0, any),
        3 => encode(Kind::Announce as u8, 0, 0, 0, any),
        4 => encode(Kind::Report as u8, thread, any, 0, 0),
        5 => encode(Kind::Stop as u8, byte, 0, 0, 0),
        6 => encode(Kind::Sample as u8, byte, any, 0, 0),
        _ => {
            let kind = random.pick(&Kind::ALL);
            let mut record = encode(kind as u8, 0, 10, 4, 0);
            record[2 + random.below(2) as usize] = byte;
            record
        }
    }
}

pub fn bad_setup(random: &mut Random) -> [u8; SIZE] {
    let setup = Kind::Setup as u8;
    match random.below(4) {
        0 => encode(setup, 0, random.pick(&[0, 1]), 4, 0),
        1 => encode(setup, 0, random.pick(&[1 << 24, 1 << 31, u32::MAX]), 4, 0),
        2 => encode(setup, 0, 10, 0, 0),
        _ => encode(setup, random.pick(&[0, 1]), 10, 4, 1),
    }
}

fn absent_thread(random: &mut Random) -> [u8; SIZE] {
    let thread = match random.below(3) {
        0 => 16,
        1 => 255,
        _ => 16 + random.below(240) as u8,
    };
    let gap = numbers::cycles(random, Counter::new(10));
    match random.below(5) {
        0 => encode(Kind::Start as u8, thread, gap, 0, 0),
        1 => encode(Kind::Switch as u8, thread, 0, gap, 0),
        2 => encode(Kind::Enable as u8, thread, 0, 0, gap),
        3 => encode(Kind::Disable as u8, thread, gap, gap, gap),
        _ => encode(Kind::Report as u8, thread, 0, 0, 0),
    }
}

/// Some bytes taken out or put in, so that all that follows stands displaced.
pub fn displaced(mut trace: Vec<u8>, random: &mut Random) -> Vec<u8> {
    let place = trace.len() / 2 + random.below(trace.len() as u32 / 2) as usize;
    let count = 1 + random.below(15) as usize;
    if random.one_in(2) {
        trace.drain(place..trace.len().min(place + count));
    } else {
        let value = random.pick(&[0, 0, 1, 255]);
        trace.splice(place..place, std::iter::repeat_n(value, count));
    }
    trace
}

/// A few single bits turned over, mostly past the first record, the setup.
pub fn flipped(mut trace: Vec<u8>, random: &mut Random) -> Vec<u8> {
    for _ in 0..1 + random.below(12) {
        let first = match random.below(10) {
            0 => 0,
            _ => SIZE.min(trace.len() - 1),
        };
        let place = first + random.below((trace.len() - first) as u32) as usize;
        trace[place] ^= 1 << random.below(8);
    }
    trace
}

/// A last record of 1 to 15 bytes: zeros, a record cut short, or anything.
pub fn with_tail(mut trace: Vec<u8>, random: &mut Random) -> Vec<u8> {
    let length = 1 + random.below(15) as usize;
    let mut tail = match random.below(3) {
        0 => [0; SIZE],
        1 => encode(Kind::Sample as u8, 0, random.word(), random.word(), 0),
        _ => encode(
            random.byte(),
            random.byte(),
            random.word(),
            random.word(),
            1,
        ),
    };
    tail[SIZE - 1] = random.byte();
    trace.extend_from_slice(&tail[..length]);
    trace
}
