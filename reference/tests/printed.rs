//! The printed case, the two facts given by program, and every row of the refusal table.

use reference::clock::Clock;
use reference::machine::Machine;
use reference::record::encode;
use reference::refusal::Refusal;
use reference::replay::{replay, replay_long};

type Row = (u8, u8, u32, u32, u32);

const SETUP: Row = (9, 0, 10, 4, 0);

fn bytes(rows: &[Row]) -> Vec<u8> {
    rows.iter()
        .flat_map(|&(kind, thread, p, q, r)| encode(kind, thread, p, q, r))
        .collect()
}

/// What the trace prints, which must not depend on how it is read.
fn lines_of(trace: &[u8]) -> String {
    let (mut short, mut long) = (Vec::new(), Vec::new());
    replay(trace, &mut short).unwrap();
    replay_long(trace, &mut long).unwrap();
    assert_eq!(short, long);
    String::from_utf8(short).unwrap()
}

fn lines(rows: &[Row]) -> String {
    lines_of(&bytes(rows))
}

/// The code of the last record.
fn last_code(rows: &[Row]) -> i32 {
    let printed = lines(rows);
    let line = printed.lines().nth(rows.len() - 1).unwrap();
    line.split(' ').nth(1).unwrap().parse().unwrap()
}

/// A machine set up with period 10 and tick 4, changed by hand.
fn machine(change: impl FnOnce(&mut Machine, &mut Clock)) -> Machine {
    let mut machine = Machine::new();
    let mut clock = Clock::new(10, 4);
    change(&mut machine, &mut clock);
    machine.clock = Some(clock);
    machine
}

/// The record is refused with this number and nothing at all changes.
fn refuses(machine: &Machine, row: Row, refusal: Refusal) {
    let mut after = machine.clone();
    let (kind, thread, p, q, r) = row;
    assert_eq!(after.step_any(&encode(kind, thread, p, q, r)), Err(refusal));
    assert_eq!(&after, machine);
}

#[test]
fn printed_case() {
    let rows = [
        SETUP,
        (3, 0, 0, 0, 0),
        (0, 0, 9, 0, 0),
        (1, 0, 0, 2, 0),
        (1, 0, 0, 0, 0),
        (2, 0, 0, 0, 0),
        (6, 0, 0, 0, 0),
        (0, 0, 12, 0, 0),
        (4, 1, 0, 0, 0),
        (8, 0, 0, 0, 0),
        (5, 0, 0, 0, 0),
    ];
    let printed = "0 0 0 0\n1 0 0 0\n2 0 0 0\n3 0 11 1\n4 0 11 0\n5 0 2 8\n6 0 10 0\n\
                   7 0 0 0\n8 0 12 0\n9 0 12 12\n10 0 0 0\nend 23 23\n";
    assert_eq!(lines(&rows), printed);
}

#[test]
fn layout_of_a_record() {
    let setup = [9, 0, 0, 0, 0xff, 0xff, 0xff, 0, 2, 1, 0, 0, 0, 0, 0, 0];
    let run = [0, 0, 0, 0, 4, 3, 2, 1, 0, 0, 0, 0, 0, 0, 0, 0];
    let printed = lines_of(&[setup, run].concat());
    assert_eq!(printed, "0 0 0 0\n1 0 0 0\nend 16909060 0\n");
}

/// A setup with the longest period and so many counted wraps.
fn wraps(count: usize) -> Vec<Row> {
    let mut rows = vec![(9, 0, 16_777_215, 1, 0)];
    rows.resize(1 + count, (1, 0, 16_777_215, 0, 0));
    rows
}

#[test]
fn samples_after_254_counted_wraps() {
    let mut rows = wraps(254);
    rows.push((1, 0, 0, 0, 0));
    assert_eq!(last_code(&rows), 0);
    let counted = format!("255 0 {} 0\n", 254u64 * 16_777_215);
    assert!(lines(&rows).contains(&counted));
}

#[test]
fn samples_no_more_after_255_counted_wraps() {
    let mut rows = wraps(255);
    for row in [(1, 0, 0, 0, 0), (5, 0, 0, 0, 0), (3, 15, 0, 0, 0)] {
        rows.push(row);
        assert_eq!(last_code(&rows), -11);
    }
    let announced = 255u64 * 16_777_215;
    rows.push((2, 0, 0, 0, 0));
    rows.push((1, 0, 0, 0, 0));
    let after = format!("259 0 {announced} {announced}\n260 0 0 0\nend {announced} {announced}\n");
    assert!(lines(&rows).ends_with(&after));
}

#[test]
fn limit_of_a_sample_is_met_exactly() {
    let mut rows = vec![(9, 0, 1 << 23, 1, 0)];
    rows.resize(1 + 511, (1, 0, 1 << 23, 0, 0));
    assert_eq!(last_code(&rows), 0);
    rows.push((1, 0, 0, 0, 0));
    assert_eq!(last_code(&rows), -11);
}

#[test]
fn row_1_bad_form() {
    let bad = [
        (10, 0, 0, 0, 0),
        (255, 0, 0, 0, 0),
        (0, 1, 5, 0, 0),
        (0, 0, 5, 1, 0),
        (0, 0, 5, 0, 1),
        (1, 1, 0, 0, 0),
        (1, 16, 0, 0, 0),
        (2, 16, 0, 0, 0),
        (2, 0, 1, 0, 0),
        (2, 0, 0, 1, 0),
        (2, 0, 0, 0, 1),
        (5, 255, 0, 0, 0),
        (8, 0, 1, 0, 0),
        (8, 16, 0, 1, 0),
        (8, 0, 0, 0, 1),
        (9, 1, 10, 4, 0),
        (9, 0, 10, 4, 1),
        (9, 0, 0, 4, 0),
        (9, 0, 1, 4, 0),
        (9, 0, 16_777_216, 4, 0),
        (9, 0, 10, 0, 0),
    ];
    for row in bad {
        assert_eq!(last_code(&[row]), -22, "{row:?} before setup");
        assert_eq!(last_code(&[SETUP, row]), -22, "{row:?} after setup");
    }
}

#[test]
fn row_1_zero_bytes() {
    for kind in 0..10 {
        for place in [2, 3] {
            let mut record = encode(kind, 0, 0, 0, 0);
            record[place] = 1;
            assert_eq!(lines_of(&record), "0 -22 0 0\nend 0 0\n");
        }
    }
}

#[test]
fn row_2_no_setup() {
    for kind in 0..9 {
        assert_eq!(lines(&[(kind, 0, 0, 0, 0)]), "0 -2 0 0\nend 0 0\n");
    }
    assert_eq!(last_code(&[(4, 16, 0, 0, 0)]), -2);
}

#[test]
fn row_3_second_setup() {
    let printed = lines(&[SETUP, (0, 0, 7, 0, 0), (9, 0, 2, 1, 0), (1, 0, 0, 0, 0)]);
    assert_eq!(printed, "0 0 0 0\n1 0 0 0\n2 -114 0 0\n3 0 7 0\nend 7 7\n");
}

#[test]
fn row_4_no_such_thread() {
    for kind in [3, 4, 6, 7, 8] {
        assert_eq!(last_code(&[SETUP, (kind, 15, 0, 0, 0)]), 0);
        for thread in [16, 255] {
            let running = [SETUP, (3, 0, 0, 0, 0), (kind, thread, 0, 0, 0)];
            assert_eq!(last_code(&running), -9);
        }
    }
}

#[test]
fn row_5_start_while_one_runs() {
    let printed = lines(&[SETUP, (3, 0, 2, 0, 0), (3, 0, 5, 0, 0), (5, 0, 1, 0, 0)]);
    assert_eq!(printed, "0 0 0 0\n1 0 0 0\n2 -114 0 0\n3 0 1 0\nend 3 3\n");
    let mut rows = wraps(254);
    rows.extend([(3, 0, 0, 0, 0), (1, 0, 16_777_215, 0, 0), (3, 1, 0, 0, 0)]);
    assert_eq!(last_code(&rows), -114);
}

#[test]
fn row_6_announce_first() {
    let full = machine(|_, clock| {
        clock.overflow = u32::MAX - 18;
        clock.counter.ran = u64::MAX;
    });
    for kind in [1, 3, 4, 5, 6, 7] {
        refuses(&full, (kind, 0, 1, 0, 0), Refusal::AnnounceFirst);
    }
    let mut last = machine(|_, clock| {
        clock.overflow = u32::MAX - 19;
        clock.counter.ran = 1 << 32;
        clock.counter.value = 1;
    });
    let answer = last.step_any(&encode(1, 0, 10, 0, 0));
    assert_eq!(answer, Ok((u64::from(u32::MAX), 1)));
}

#[test]
fn row_7_time_is_full() {
    let nearly = machine(|_, clock| clock.counter.ran = u64::MAX - 6);
    refuses(&nearly, (0, 0, 7, 0, 0), Refusal::TooLarge);
    refuses(&nearly, (1, 0, 2, 2, 3), Refusal::TooLarge);
    refuses(&nearly, (1, 0, u32::MAX, 1, 6), Refusal::TooLarge);
    for row in [encode(0, 0, 6, 0, 0), encode(4, 3, 1, 2, 3)] {
        let mut machine = nearly.clone();
        assert_eq!(machine.step_any(&row), Ok((0, 0)));
        assert_eq!(machine.end().0, u64::MAX);
    }
}

#[test]
fn row_8_announce_refused() {
    let announce = (2, 0, 0, 0, 0);
    let behind = machine(|_, clock| clock.announced = 1);
    refuses(&behind, announce, Refusal::Invalid);
    let far = machine(|_, clock| {
        clock.tick = 1;
        clock.count = 1 << 32;
        clock.counter.ran = 1 << 32;
    });
    refuses(&far, announce, Refusal::TooLarge);
    let mut near = far;
    near.clock.as_mut().unwrap().announced = 1;
    let answer = near.step_any(&encode(2, 0, 0, 0, 0));
    assert_eq!(answer, Ok((u64::from(u32::MAX), 1 << 32)));
}

/// The record is refused, the ledger stays, and the sample is kept.
fn refuses_sum(before: &Machine, row: Row) {
    let mut after = before.clone();
    let (kind, thread, p, q, r) = row;
    let answer = after.step_any(&encode(kind, thread, p, q, r));
    assert_eq!(answer, Err(Refusal::TooLarge));
    assert_eq!(after.ledger, before.ledger);
    assert_eq!(after.end(), (3, 3));
}

#[test]
fn row_9_sum_or_window_count() {
    let stretch = |tracked, machine_total, total| {
        machine(|machine, _| {
            machine.ledger.start(2, 1);
            machine.ledger.machine_total = machine_total;
            machine.ledger.threads[2].tracked = tracked;
            machine.ledger.threads[2].total = total;
        })
    };
    for (kind, thread) in [(4, 5), (5, 0), (7, 2)] {
        refuses_sum(&stretch(true, u64::MAX - 1, 0), (kind, thread, 3, 0, 0));
        refuses_sum(&stretch(true, 0, u64::MAX - 1), (kind, thread, 3, 0, 0));
    }
    refuses_sum(&stretch(false, u64::MAX - 1, 0), (6, 2, 3, 0, 0));
    let mut fits = stretch(true, u64::MAX - 2, u64::MAX - 2);
    assert_eq!(fits.step_any(&encode(5, 0, 3, 0, 0)), Ok((2, 0)));
    let worn = machine(|machine, _| machine.ledger.threads[2].windows = u32::MAX);
    refuses_sum(&worn, (6, 2, 3, 0, 0));
}

#[test]
fn unsound_state_comes_before_the_rows() {
    let unsound: [fn(&mut Machine, &mut Clock); 9] = [
        |_, clock| clock.counter.period = 1,
        |_, clock| clock.counter.period = 16_777_216,
        |_, clock| clock.tick = 0,
        |_, clock| clock.counter.value = 0,
        |_, clock| clock.counter.value = 11,
        |_, clock| clock.counter.value = 9,
        |_, clock| clock.counter.flag = true,
        |_, clock| clock.count = u64::MAX,
        |machine, _| machine.ledger.start(16, 1),
    ];
    for change in unsound {
        for kind in 0..10 {
            refuses(&machine(change), (kind, 0, 10, 4, 0), Refusal::Invalid);
        }
    }
}

#[test]
fn short_last_record() {
    assert_eq!(lines_of(&[]), "end 0 0\n");
    let whole = bytes(&[SETUP, (1, 0, 3, 0, 2)]);
    for length in 1..16 {
        let trace = [&whole[..], &[255; 15][..length]].concat();
        assert_eq!(lines_of(&trace), "0 0 0 0\n1 0 3 0\ntail -22\nend 5 3\n");
        assert_eq!(lines_of(&trace[32..]), "tail -22\nend 0 0\n");
    }
}

#[test]
fn input_too_long() {
    let mut trace = bytes(&[SETUP]);
    trace.resize(64_000, 0);
    assert_eq!(lines_of(&trace).lines().count(), 4001);
    trace.push(0);
    let mut printed = Vec::new();
    replay(&trace[..], &mut printed).unwrap();
    assert_eq!(printed, b"input -28\n");
    printed.clear();
    replay_long(&trace[..], &mut printed).unwrap();
    assert!(printed.ends_with(b"3999 0 0 0\ntail -22\nend 0 0\n"));
}
