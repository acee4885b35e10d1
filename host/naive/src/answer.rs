//! What a call can answer, and the numbers of refusals.

/// The answer of any of the nine calls.
#[derive(Clone, Copy, Debug, PartialEq, Eq, PartialOrd, Ord)]
pub enum Answer {
    /// Refused, with the number of the refusal.
    Refused(u8),
    /// The reader runs.
    Going,
    /// The log is accepted.
    Accepted,
    /// The reader runs and the log is not accepted as it stands.
    Unfinished,
    /// The reader stopped after this many letters.
    Stop(u64),
    /// So many bytes were written.
    Written(usize),
    /// The table accepts no log.
    NoLog,
    /// The table is good, or the balance was found.
    Good,
}

/// The slice is too short for a table or has another length than it says.
pub const SIZE: u8 = 1;
/// The version is unknown.
pub const VERSION: u8 = 2;
/// More states, letters, marks or moves than a table may have.
pub const COUNTS: u8 = 3;
/// The length that the table says is not the one its counts give.
pub const FORMULA: u8 = 4;
/// A letter's kind or a state's byte is out of range.
pub const FLAGS: u8 = 5;
/// A move is out of range or out of order.
pub const MOVES: u8 = 6;
/// Scratch or state is too short.
pub const LENT: u8 = 7;
/// The trimmed table is larger than a table may be.
pub const TRIMMED: u8 = 8;
/// The output is too short for the result.
pub const OUTPUT: u8 = 9;
/// The shortest log is too long to be shown.
pub const SHOWN: u8 = 10;
/// The letter is not in the table.
pub const LETTER: u8 = 11;
/// The log is too long.
pub const LOG: u8 = 12;
/// One open too deep.
pub const DEPTH: u8 = 13;
/// The reader's state is not one of this table.
pub const STATE: u8 = 14;
