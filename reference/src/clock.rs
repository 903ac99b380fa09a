//! The tick clock: it samples the counter and announces ticks.

use crate::counter::Counter;
use crate::refusal::Refusal;

/// The cycles that pass inside a sample: A p B q C r D.
#[derive(Clone, Copy, Debug, PartialEq, Eq)]
pub struct Gaps {
    pub p: u32,
    pub q: u32,
    pub r: u32,
}

impl Gaps {
    fn sum(self) -> u64 {
        u64::from(self.p) + u64::from(self.q) + u64::from(self.r)
    }
}

/// What a sample found at C.
#[derive(Clone, Copy, Debug, PartialEq, Eq)]
pub struct Sample {
    pub elapsed: u32,
    pub wrap: bool,
    pub reading: u64,
}

#[derive(Clone, Copy, Debug, PartialEq, Eq)]
pub struct Clock {
    pub counter: Counter,
    /// Cycles in one tick, at least 1.
    pub tick: u32,
    /// Cycles of the wraps counted since the last announcement.
    pub overflow: u32,
    /// Cycles of the wraps counted up to the last announcement.
    pub count: u64,
    /// Cycles announced as ticks.
    pub announced: u64,
    /// Reading of the last accepted sample, 0 before the first.
    pub last_reading: u64,
}

impl Clock {
    pub fn new(period: u32, tick: u32) -> Clock {
        Clock {
            counter: Counter::new(period),
            tick,
            overflow: 0,
            count: 0,
            announced: 0,
            last_reading: 0,
        }
    }

    pub fn run(&mut self, cycles: u32) -> Result<(), Refusal> {
        if !self.counter.has_room(u64::from(cycles)) {
            return Err(Refusal::TooLarge);
        }
        self.counter.run(cycles);
        Ok(())
    }

    /// Whether a sample could count one more wrap at the worst value of v.
    pub fn can_sample(&self) -> bool {
        let worst = u64::from(self.overflow) + 2 * u64::from(self.counter.period) - 1;
        worst <= u64::from(u32::MAX)
    }

    /// Every refusal comes before A, because B loses the flag.
    pub fn sample(&mut self, gaps: Gaps) -> Result<Sample, Refusal> {
        if !self.can_sample() {
            return Err(Refusal::AnnounceFirst);
        }
        if !self.counter.has_room(gaps.sum()) {
            return Err(Refusal::TooLarge);
        }
        let counter = &mut self.counter;
        let at_a = counter.value;
        counter.run(gaps.p);
        let flag = counter.read_flag();
        counter.run(gaps.q);
        let at_c = counter.value;
        let wrap = flag || at_a < at_c;
        counter.run(gaps.r);
        if wrap {
            // D: a wrap in q was seen at C and must not be counted again.
            counter.flag = false;
            self.overflow += counter.period;
        }
        let elapsed = counter.period - at_c + self.overflow;
        self.last_reading = self.count + u64::from(elapsed);
        Ok(Sample {
            elapsed,
            wrap,
            reading: self.last_reading,
        })
    }

    /// Gives the ticks announced now and the cycles announced in all.
    pub fn announce(&mut self) -> Result<(u32, u64), Refusal> {
        let count = self
            .count
            .checked_add(u64::from(self.overflow))
            .ok_or(Refusal::TooLarge)?;
        let due = count.checked_sub(self.announced).ok_or(Refusal::Invalid)?;
        let tick = u64::from(self.tick);
        let ticks = u32::try_from(due / tick).map_err(|_| Refusal::TooLarge)?;
        self.count = count;
        self.announced += u64::from(ticks) * tick;
        self.overflow = 0;
        Ok((ticks, self.announced))
    }

    /// A clock that came from a setup always passes.
    pub fn is_sound(&self) -> bool {
        if !self.counter.is_sound() || self.tick == 0 {
            return false;
        }
        let counter = &self.counter;
        let pending = if counter.flag { counter.period } else { 0 };
        let accounted = u128::from(self.count)
            + u128::from(self.overflow)
            + u128::from(counter.period - counter.value)
            + u128::from(pending);
        accounted <= u128::from(counter.ran)
    }
}
