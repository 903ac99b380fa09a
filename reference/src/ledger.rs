//! The ledger: which thread runs since when, and the cycles each has used.

use crate::refusal::Refusal;

/// How many threads have a record.
pub const SLOTS: usize = 16;

#[derive(Clone, Copy, Debug, PartialEq, Eq)]
pub struct Thread {
    pub tracked: bool,
    /// How often tracking was switched on.
    pub windows: u32,
    /// Cycles run while tracked.
    pub total: u64,
}

impl Thread {
    pub const FRESH: Thread = Thread {
        tracked: false,
        windows: 0,
        total: 0,
    };

    pub fn average(&self) -> u64 {
        self.total.checked_div(u64::from(self.windows)).unwrap_or(0)
    }
}

#[derive(Clone, Debug, PartialEq, Eq)]
pub struct Ledger {
    pub threads: [Thread; SLOTS],
    /// Cycles of all closed stretches, tracked or not.
    pub machine_total: u64,
    /// The thread that runs; means something only while `stamp` is not 0.
    pub running: usize,
    /// When the open stretch began; 0 while none runs.
    pub stamp: u32,
}

/// The low 32 bits of a reading, with 0 kept free for "stopped".
pub fn stamp_of(reading: u64) -> u32 {
    (reading as u32).max(1)
}

impl Ledger {
    pub fn new() -> Ledger {
        Ledger {
            threads: [Thread::FRESH; SLOTS],
            machine_total: 0,
            running: 0,
            stamp: 0,
        }
    }

    pub fn is_running(&self) -> bool {
        self.stamp != 0
    }

    pub fn start(&mut self, thread: usize, now: u32) {
        self.running = thread;
        self.stamp = now;
    }

    /// Closes the stretch, if one is open, and gives its cycles. Both sums are
    /// tested before either is stored, so that a refusal changes nothing.
    pub fn stop(&mut self, now: u32) -> Result<u32, Refusal> {
        if !self.is_running() {
            return Ok(0);
        }
        let cycles = now.wrapping_sub(self.stamp);
        let machine_total = add(self.machine_total, cycles)?;
        let thread = &mut self.threads[self.running];
        if thread.tracked {
            thread.total = add(thread.total, cycles)?;
        }
        self.machine_total = machine_total;
        self.stamp = 0;
        Ok(cycles)
    }

    pub fn switch(&mut self, thread: usize, now: u32) -> Result<u32, Refusal> {
        let cycles = self.stop(now)?;
        self.start(thread, now);
        Ok(cycles)
    }

    pub fn enable(&mut self, thread: usize, now: u32) -> Result<u32, Refusal> {
        if self.threads[thread].tracked {
            return Ok(0);
        }
        // The window is tested first: after the close it would be too late.
        let windows = self.threads[thread]
            .windows
            .checked_add(1)
            .ok_or(Refusal::TooLarge)?;
        let cycles = self.divide(thread, now)?;
        self.threads[thread].windows = windows;
        self.threads[thread].tracked = true;
        Ok(cycles)
    }

    pub fn disable(&mut self, thread: usize, now: u32) -> Result<u32, Refusal> {
        if !self.threads[thread].tracked {
            return Ok(0);
        }
        let cycles = self.divide(thread, now)?;
        self.threads[thread].tracked = false;
        Ok(cycles)
    }

    /// Closes the stretch of a running thread and opens the next one, because
    /// its flag is about to change and counts for whole stretches.
    fn divide(&mut self, thread: usize, now: u32) -> Result<u32, Refusal> {
        if self.is_running() && self.running == thread {
            self.switch(thread, now)
        } else {
            Ok(0)
        }
    }

    pub fn is_sound(&self) -> bool {
        !self.is_running() || self.running < SLOTS
    }
}

impl Default for Ledger {
    fn default() -> Ledger {
        Ledger::new()
    }
}

fn add(total: u64, cycles: u32) -> Result<u64, Refusal> {
    total
        .checked_add(u64::from(cycles))
        .ok_or(Refusal::TooLarge)
}
