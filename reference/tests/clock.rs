//! The jump of the counter, the truth of fair samples, and the ledger's edges.

use reference::clock::{Clock, Gaps};
use reference::counter::Counter;
use reference::ledger::{stamp_of, Ledger};

/// One cycle, word for word as the paper has it.
fn cycle(counter: &mut Counter) {
    counter.ran += 1;
    if counter.value == 1 {
        counter.value = counter.period;
        counter.flag = true;
    } else {
        counter.value -= 1;
    }
}

#[test]
fn jump_equals_single_cycles() {
    for period in 2..=9 {
        for value in 1..=period {
            let start = Counter {
                value,
                ..Counter::new(period)
            };
            let mut stepped = start;
            for cycles in 0..4 * period {
                let mut jumped = start;
                jumped.run(cycles);
                assert_eq!(jumped, stepped);
                cycle(&mut stepped);
            }
        }
    }
}

#[test]
fn longest_jump() {
    let mut counter = Counter::new(3);
    counter.run(u32::MAX);
    assert_eq!((counter.value, counter.flag), (3, true));
    let mut counter = Counter::new(16_777_215);
    counter.run(u32::MAX);
    assert_eq!(counter.value, 16_777_215 - 255);
}

/// Every fair sample of a short period, three in a row, reads the true time.
#[test]
fn fair_samples_are_true() {
    let mut gaps = Vec::new();
    for run in 0..4 {
        for p in 0..4 - run {
            for q in 0..4 - run - p {
                gaps.push((run, p, q));
            }
        }
    }
    for first in &gaps {
        for second in &gaps {
            for third in &gaps {
                fair_sequence(&[*first, *second, *third]);
            }
        }
    }
}

fn fair_sequence(sequence: &[(u32, u32, u32)]) {
    let mut clock = Clock::new(4, 3);
    for &(run, p, q) in sequence {
        clock.run(run).unwrap();
        let sample = clock.sample(Gaps { p, q, r: 0 }).unwrap();
        assert_eq!(sample.reading, clock.counter.ran, "{sequence:?}");
    }
}

#[test]
fn case_11_longest_stretch() {
    let mut ledger = Ledger::new();
    ledger.start(0, stamp_of(1));
    assert_eq!(ledger.stop(stamp_of(1 << 32)), Ok(0));
    ledger.start(0, stamp_of(2));
    assert_eq!(ledger.stop(stamp_of(1 << 32)), Ok(u32::MAX));
}

#[test]
fn case_12_full_total() {
    let mut ledger = Ledger::new();
    ledger.machine_total = u64::MAX;
    ledger.start(0, 7);
    assert_eq!(ledger.switch(0, 7), Ok(0));
    assert!(ledger.switch(0, 8).is_err());
}

#[test]
fn flag_already_as_wanted_closes_nothing() {
    let mut ledger = Ledger::new();
    ledger.start(0, 5);
    assert_eq!(ledger.disable(0, 9), Ok(0));
    assert_eq!(ledger.enable(0, 9), Ok(4));
    assert_eq!(ledger.enable(0, 12), Ok(0));
    assert_eq!(ledger.disable(0, 15), Ok(6));
    assert_eq!((ledger.threads[0].total, ledger.threads[0].windows), (6, 1));
    assert_eq!((ledger.stamp, ledger.machine_total), (15, 10));
}
