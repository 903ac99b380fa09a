//! A trace being written, with a machine that follows it so that the next record can aim.

use crate::clock::Gaps;
use crate::counter::Counter;
use crate::machine::{Answer, Machine};
use crate::record::{encode, SIZE};

pub const NO_GAPS: Gaps = Gaps { p: 0, q: 0, r: 0 };

/// The kinds of record by their numbers.
#[derive(Clone, Copy, PartialEq, Eq)]
pub enum Kind {
    Run,
    Sample,
    Announce,
    Start,
    Switch,
    Stop,
    Enable,
    Disable,
    Report,
    Setup,
}

impl Kind {
    pub const SAMPLING: [Kind; 6] = [
        Kind::Sample,
        Kind::Start,
        Kind::Switch,
        Kind::Stop,
        Kind::Enable,
        Kind::Disable,
    ];

    pub const ALL: [Kind; 10] = [
        Kind::Run,
        Kind::Sample,
        Kind::Announce,
        Kind::Start,
        Kind::Switch,
        Kind::Stop,
        Kind::Enable,
        Kind::Disable,
        Kind::Report,
        Kind::Setup,
    ];
}

pub struct Pen {
    trace: Vec<u8>,
    machine: Machine,
    answer: Answer,
}

impl Pen {
    pub fn new() -> Pen {
        Pen {
            trace: Vec::new(),
            machine: Machine::new(),
            answer: Ok((0, 0)),
        }
    }

    /// A pen that has written its setup.
    pub fn set_up(period: u32, tick: u32) -> Pen {
        let mut pen = Pen::new();
        pen.setup(period, tick);
        pen
    }

    pub fn raw(&mut self, record: [u8; SIZE]) {
        self.trace.extend_from_slice(&record);
        self.answer = self.machine.step(&record);
    }

    pub fn setup(&mut self, period: u32, tick: u32) {
        self.raw(encode(Kind::Setup as u8, 0, period, tick, 0));
    }

    pub fn run(&mut self, cycles: u32) {
        self.raw(encode(Kind::Run as u8, 0, cycles, 0, 0));
    }

    pub fn announce(&mut self) {
        self.raw(encode(Kind::Announce as u8, 0, 0, 0, 0));
    }

    pub fn report(&mut self, thread: u8) {
        self.raw(encode(Kind::Report as u8, thread, 0, 0, 0));
    }

    /// One of the kinds that sample, with the thread left out where unused.
    pub fn sampling(&mut self, kind: Kind, thread: u8, gaps: Gaps) {
        let thread = match kind {
            Kind::Sample | Kind::Stop => 0,
            _ => thread,
        };
        self.raw(encode(kind as u8, thread, gaps.p, gaps.q, gaps.r));
    }

    /// The same, after an announcement where the sample would be refused.
    pub fn sampling_sure(&mut self, kind: Kind, thread: u8, gaps: Gaps) {
        if !self.can_sample() {
            self.announce();
        }
        self.sampling(kind, thread, gaps);
    }

    pub fn was_accepted(&self) -> bool {
        self.answer.is_ok()
    }

    /// The counter now, or that of the shortest period before a setup.
    pub fn counter(&self) -> Counter {
        match &self.machine.clock {
            Some(clock) => clock.counter,
            None => Counter::new(2),
        }
    }

    pub fn can_sample(&self) -> bool {
        match &self.machine.clock {
            Some(clock) => clock.can_sample(),
            None => false,
        }
    }

    pub fn is_running(&self) -> bool {
        self.machine.ledger.is_running()
    }

    pub fn total(&self, thread: u8) -> u64 {
        self.machine.ledger.threads[usize::from(thread)].total
    }

    pub fn records(&self) -> usize {
        self.trace.len() / SIZE
    }

    pub fn into_trace(self) -> Vec<u8> {
        self.trace
    }
}
