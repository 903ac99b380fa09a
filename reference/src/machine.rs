//! The whole state, and what one record does to it: the refusal table in its order.

use crate::clock::Clock;
use crate::ledger::{stamp_of, Ledger, SLOTS};
use crate::record::{decode, Action, Record, SIZE};
use crate::refusal::Refusal;

/// The two numbers x and y of an accepted record, or the refusal.
pub type Answer = Result<(u64, u64), Refusal>;

#[derive(Clone, Debug, Default, PartialEq, Eq)]
pub struct Machine {
    /// Nothing before the setup.
    pub clock: Option<Clock>,
    pub ledger: Ledger,
}

impl Machine {
    pub fn new() -> Machine {
        Machine::default()
    }

    /// One record on a state of any origin, which is itself tested first.
    pub fn step_any(&mut self, bytes: &[u8; SIZE]) -> Answer {
        if !self.is_sound() {
            return Err(Refusal::Invalid);
        }
        self.step(bytes)
    }

    /// One record on a state that records alone have made. Such a state is
    /// always sound, so a replay does not pay for the test.
    pub fn step(&mut self, bytes: &[u8; SIZE]) -> Answer {
        debug_assert!(self.is_sound());
        let record = decode(bytes).ok_or(Refusal::Invalid)?;
        match (record, &mut self.clock) {
            (Record::Setup { period, tick }, None) => {
                self.clock = Some(Clock::new(period, tick));
                Ok((0, 0))
            }
            (Record::Setup { .. }, Some(_)) => Err(Refusal::Already),
            (Record::Action(_), None) => Err(Refusal::NoSetup),
            (Record::Action(action), Some(clock)) => act(action, clock, &mut self.ledger),
        }
    }

    /// T and the last reading, each 0 if there is none.
    pub fn end(&self) -> (u64, u64) {
        match &self.clock {
            Some(clock) => (clock.counter.ran, clock.last_reading),
            None => (0, 0),
        }
    }

    /// A state without a setup has nothing that could be wrong.
    pub fn is_sound(&self) -> bool {
        match &self.clock {
            Some(clock) => clock.is_sound() && self.ledger.is_sound(),
            None => true,
        }
    }
}

/// A kind that samples and then meets a full sum keeps its sample: the clock
/// has moved, and the ledger refuses without changing itself.
fn act(action: Action, clock: &mut Clock, ledger: &mut Ledger) -> Answer {
    let cycles = match action {
        Action::Run(cycles) => {
            clock.run(cycles)?;
            0
        }
        Action::Sample(gaps) => {
            let sample = clock.sample(gaps)?;
            return Ok((u64::from(sample.elapsed), u64::from(sample.wrap)));
        }
        Action::Announce => {
            let (ticks, announced) = clock.announce()?;
            return Ok((u64::from(ticks), announced));
        }
        Action::Start(thread, gaps) => {
            let slot = slot(thread)?;
            if ledger.is_running() {
                return Err(Refusal::Already);
            }
            ledger.start(slot, stamp_of(clock.sample(gaps)?.reading));
            0
        }
        Action::Switch(thread, gaps) => {
            let slot = slot(thread)?;
            ledger.switch(slot, stamp_of(clock.sample(gaps)?.reading))?
        }
        Action::Stop(gaps) => ledger.stop(stamp_of(clock.sample(gaps)?.reading))?,
        Action::Enable(thread, gaps) => {
            let slot = slot(thread)?;
            ledger.enable(slot, stamp_of(clock.sample(gaps)?.reading))?
        }
        Action::Disable(thread, gaps) => {
            let slot = slot(thread)?;
            ledger.disable(slot, stamp_of(clock.sample(gaps)?.reading))?
        }
        Action::Report(thread) => {
            let thread = &ledger.threads[slot(thread)?];
            return Ok((thread.total, thread.average()));
        }
    };
    Ok((u64::from(cycles), 0))
}

fn slot(thread: u8) -> Result<usize, Refusal> {
    let slot = usize::from(thread);
    if slot < SLOTS {
        Ok(slot)
    } else {
        Err(Refusal::NoThread)
    }
}
