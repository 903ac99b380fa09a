//! The reasons for which a record is refused, with their numbers.

/// Each value is the number that is printed after a minus sign.
#[derive(Clone, Copy, Debug, PartialEq, Eq)]
pub enum Refusal {
    NoSetup = 2,
    NoThread = 9,
    AnnounceFirst = 11,
    Invalid = 22,
    Already = 114,
    TooLarge = 139,
}

impl Refusal {
    pub fn number(self) -> u64 {
        self as u64
    }
}
