//! The table of refusals.

use std::fmt;

#[derive(Clone, Copy, Debug, PartialEq, Eq)]
pub enum Refusal {
    Tail,
    Kind,
    /// The place in the record of the first byte that may not stand there.
    Byte(usize),
    Price,
    Quantity,
    Minimum,
    Mix,
    Turn,
    Spent,
    Band,
    Empty,
    Tape,
    Shortfall,
    Full,
    Sheet,
    Unknown,
}

/// The words of the table, the one numbered 1 first.
pub const WORDS: [&str; 16] = [
    "TAIL",
    "KIND",
    "BYTE",
    "PRICE",
    "QUANTITY",
    "MINIMUM",
    "MIX",
    "TURN",
    "SPENT",
    "BAND",
    "EMPTY",
    "TAPE",
    "SHORTFALL",
    "FULL",
    "SHEET",
    "UNKNOWN",
];

impl Refusal {
    pub fn number(self) -> usize {
        match self {
            Refusal::Tail => 1,
            Refusal::Kind => 2,
            Refusal::Byte(_) => 3,
            Refusal::Price => 4,
            Refusal::Quantity => 5,
            Refusal::Minimum => 6,
            Refusal::Mix => 7,
            Refusal::Turn => 8,
            Refusal::Spent => 9,
            Refusal::Band => 10,
            Refusal::Empty => 11,
            Refusal::Tape => 12,
            Refusal::Shortfall => 13,
            Refusal::Full => 14,
            Refusal::Sheet => 15,
            Refusal::Unknown => 16,
        }
    }

    fn layer(self) -> u32 {
        match self.number() {
            1..=3 => 1,
            4..=7 => 2,
            _ => 3,
        }
    }

    fn byte(self) -> usize {
        match self {
            Refusal::Byte(place) => place,
            Refusal::Price => 4,
            Refusal::Quantity => 8,
            Refusal::Minimum => 16,
            Refusal::Mix => 3,
            _ => 0,
        }
    }
}

impl fmt::Display for Refusal {
    fn fmt(&self, f: &mut fmt::Formatter) -> fmt::Result {
        write!(
            f,
            "refused {} {}, layer {}, byte {}",
            self.number(),
            WORDS[self.number() - 1],
            self.layer(),
            self.byte()
        )
    }
}
