//! The sixteen bytes of a trace record, taken apart and put together.

use crate::clock::Gaps;
use crate::counter::PERIODS;

/// Bytes in one record.
pub const SIZE: usize = 16;

#[derive(Clone, Copy, Debug, PartialEq, Eq)]
pub enum Record {
    Setup { period: u32, tick: u32 },
    Action(Action),
}

/// What a record may ask once the clock is set up. Thread numbers are as
/// written, since whether one exists is tested after the setup.
#[derive(Clone, Copy, Debug, PartialEq, Eq)]
pub enum Action {
    Run(u32),
    Sample(Gaps),
    Announce,
    Start(u8, Gaps),
    Switch(u8, Gaps),
    Stop(Gaps),
    Enable(u8, Gaps),
    Disable(u8, Gaps),
    Report(u8),
}

/// Nothing for an unknown kind, an unused byte or field that is not 0, or a
/// setup out of range.
pub fn decode(bytes: &[u8; SIZE]) -> Option<Record> {
    let [kind, thread, zero_1, zero_2, p0, p1, p2, p3, q0, q1, q2, q3, r0, r1, r2, r3] = *bytes;
    if zero_1 != 0 || zero_2 != 0 {
        return None;
    }
    let p = u32::from_le_bytes([p0, p1, p2, p3]);
    let q = u32::from_le_bytes([q0, q1, q2, q3]);
    let r = u32::from_le_bytes([r0, r1, r2, r3]);
    let gaps = Gaps { p, q, r };
    let no_thread = thread == 0;
    let no_fields = p == 0 && q == 0 && r == 0;
    let action = match kind {
        0 if no_thread && q == 0 && r == 0 => Action::Run(p),
        1 if no_thread => Action::Sample(gaps),
        2 if no_thread && no_fields => Action::Announce,
        3 => Action::Start(thread, gaps),
        4 => Action::Switch(thread, gaps),
        5 if no_thread => Action::Stop(gaps),
        6 => Action::Enable(thread, gaps),
        7 => Action::Disable(thread, gaps),
        8 if no_fields => Action::Report(thread),
        9 if no_thread && r == 0 && PERIODS.contains(&p) && q != 0 => {
            return Some(Record::Setup { period: p, tick: q })
        }
        _ => return None,
    };
    Some(Record::Action(action))
}

/// Any five values as record bytes, whether or not they make sense.
pub fn encode(kind: u8, thread: u8, p: u32, q: u32, r: u32) -> [u8; SIZE] {
    let mut bytes = [0; SIZE];
    bytes[0] = kind;
    bytes[1] = thread;
    bytes[4..8].copy_from_slice(&p.to_le_bytes());
    bytes[8..12].copy_from_slice(&q.to_le_bytes());
    bytes[12..16].copy_from_slice(&r.to_le_bytes());
    bytes
}
