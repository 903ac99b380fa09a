//! The usual trace: a setup, then all kinds of records, nearly all of them accepted.

use super::damage;
use super::numbers;
use super::pen::{Kind, Pen, NO_GAPS};
use super::random::Random;
use crate::clock::Gaps;
use crate::record::SIZE;
use crate::replay::LIMIT;

/// How the gaps of samples and the runs between them are chosen.
#[derive(Clone, Copy)]
enum Manner {
    /// Keeps the premises under which a reading is the true time.
    Fair,
    /// Short gaps, with runs of any length between.
    Short,
    /// Anything anywhere.
    Free,
}

struct Mixed<'a> {
    random: &'a mut Random,
    pen: Pen,
    manner: Manner,
    /// The threads that take part, few so that they meet again and again.
    threads: Vec<u8>,
    /// In the fair manner, the cycles that may pass before the next C.
    room: u32,
}

/// From 20 to 400 records, now and then fewer, and `scale` times as many as far
/// as the limit lets.
pub fn usual(random: &mut Random, scale: u32) -> Vec<u8> {
    let length = match random.below(10) {
        0 => 1 + random.below(20),
        1..=5 => 20 + random.below(80),
        _ => 20 + random.below(381),
    };
    let most = LIMIT / SIZE;
    of_length(random, most.min(length as usize * scale as usize))
}

pub fn of_length(random: &mut Random, records: usize) -> Vec<u8> {
    let period = numbers::period(random);
    let pen = Pen::set_up(period, numbers::tick(random, period));
    go_on(random, pen, records)
}

/// Adds records to a trace that has its setup, until it has so many.
pub fn go_on(random: &mut Random, pen: Pen, records: usize) -> Vec<u8> {
    let manner = random.pick(&[Manner::Fair, Manner::Short, Manner::Free]);
    let threads = (0..=random.below(4))
        .map(|_| random.pick(&[0, 0, 1, 2, 7, 14, 15, 15]))
        .collect();
    // The setup counts as a C; what came after it may have used the room up.
    let room = match pen.records() {
        1 => pen.counter().period - 1,
        _ => 0,
    };
    let mut mixed = Mixed {
        random,
        pen,
        manner,
        threads,
        room,
    };
    while mixed.pen.records() < records {
        mixed.record();
    }
    mixed.pen.into_trace()
}

impl Mixed<'_> {
    fn record(&mut self) {
        if !self.pen.can_sample() && !self.random.one_in(4) {
            self.pen.announce();
            return;
        }
        let thread = self.random.pick(&self.threads);
        match self.random.below(100) {
            0..=27 => self.run(),
            28..=42 => self.sampling(Kind::Sample, thread),
            43..=50 => self.pen.announce(),
            51..=58 => self.start(thread),
            59..=71 => self.sampling(Kind::Switch, thread),
            72..=76 => self.sampling(Kind::Stop, thread),
            77..=83 => self.sampling(Kind::Enable, thread),
            84..=88 => self.sampling(Kind::Disable, thread),
            89..=95 => self.pen.report(thread),
            _ => self.pen.raw(damage::refused_record(self.random, thread)),
        }
    }

    fn run(&mut self) {
        let cycles = match self.manner {
            Manner::Fair => self.random.up_to(self.room),
            Manner::Short | Manner::Free => numbers::cycles(self.random, self.pen.counter()),
        };
        self.room = self.room.saturating_sub(cycles);
        self.pen.run(cycles);
    }

    /// A start is refused while one runs, so it mostly becomes a switch then.
    fn start(&mut self, thread: u8) {
        if self.pen.is_running() && !self.random.one_in(6) {
            self.sampling(Kind::Switch, thread);
        } else {
            self.sampling(Kind::Start, thread);
        }
    }

    fn sampling(&mut self, kind: Kind, thread: u8) {
        let gaps = match self.manner {
            Manner::Fair => self.fair_gaps(),
            Manner::Short => self.short_gaps(),
            Manner::Free => self.free_gaps(),
        };
        self.pen.sampling(kind, thread, gaps);
        if self.pen.was_accepted() {
            let full = self.pen.counter().period - 1;
            self.room = full.saturating_sub(gaps.r);
        }
    }

    /// Fewer than L cycles from C to C hold at most one wrap, and r stays
    /// short of the wrap after C.
    fn fair_gaps(&mut self) -> Gaps {
        let p = self.random.up_to(self.room);
        let q = self.random.up_to(self.room - p);
        let mut at_c = self.pen.counter();
        at_c.run(p);
        at_c.run(q);
        let r = match self.random.below(3) {
            0 => self.random.below(at_c.value),
            _ => 0,
        };
        Gaps { p, q, r }
    }

    fn short_gaps(&mut self) -> Gaps {
        if self.random.one_in(2) {
            return NO_GAPS;
        }
        Gaps {
            p: self.random.below(4),
            q: self.random.below(4),
            r: self.random.below(4),
        }
    }

    /// Each gap is 0 half the time, so that wraps fall into one gap alone as
    /// often as into several.
    fn free_gaps(&mut self) -> Gaps {
        let mut counter = self.pen.counter();
        let mut gap = || {
            let cycles = match self.random.below(2) {
                0 => 0,
                _ => numbers::cycles(self.random, counter),
            };
            counter.run(cycles);
            cycles
        };
        Gaps {
            p: gap(),
            q: gap(),
            r: gap(),
        }
    }
}
