//! The hardware counter: it falls from L to 1, and the wrap from 1 to L sets its flag.

use std::ops::RangeInclusive;

/// The periods a setup may name.
pub const PERIODS: RangeInclusive<u32> = 2..=16_777_215;

#[derive(Clone, Copy, Debug, PartialEq, Eq)]
pub struct Counter {
    /// L, the cycles from wrap to wrap.
    pub period: u32,
    /// v, from L down to 1.
    pub value: u32,
    /// Set by a wrap, cleared by a read.
    pub flag: bool,
    /// T, all cycles run since the setup.
    pub ran: u64,
}

impl Counter {
    pub fn new(period: u32) -> Counter {
        Counter {
            period,
            value: period,
            flag: false,
            ran: 0,
        }
    }

    /// Whether T still fits after so many more cycles.
    pub fn has_room(&self, cycles: u64) -> bool {
        self.ran.checked_add(cycles).is_some()
    }

    /// Runs the cycles in one jump. The caller has asked `has_room`.
    pub fn run(&mut self, cycles: u32) {
        self.ran += u64::from(cycles);
        if cycles < self.value {
            self.value -= cycles;
            return;
        }
        // The first wrap comes after `value` cycles and leaves L behind; whole
        // periods after it change nothing more.
        let after_wrap = cycles - self.value;
        self.value = self.period - after_wrap % self.period;
        self.flag = true;
    }

    /// Reads the flag, which clears it.
    pub fn read_flag(&mut self) -> bool {
        std::mem::take(&mut self.flag)
    }

    pub fn is_sound(&self) -> bool {
        PERIODS.contains(&self.period) && (1..=self.period).contains(&self.value)
    }
}
