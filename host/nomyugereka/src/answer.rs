//! What the calls answer, and how it is read from the number that an exported function gives.

use std::fmt;

/// Why a call refused what it was given. Where several reasons apply, the order of a call's checks
/// decides; for most calls that is the order of the numbers.
#[derive(Clone, Copy, Debug, PartialEq, Eq, PartialOrd, Ord, Hash)]
#[repr(u8)]
pub enum Refusal {
    /// 1: fewer than eight bytes, or not as many as the table says of itself.
    Length = 1,
    /// 2: the table is of an unknown version.
    Version = 2,
    /// 3: the table says that it has more states, letters, marks or moves than are allowed.
    Limit = 3,
    /// 4: the table's length is not the one that follows from its counts.
    Size = 4,
    /// 5: a letter is of no known kind, or a state's byte is over 3.
    List = 5,
    /// 6: a move names something that is not there, a plain move has a mark, or the moves are not in
    /// rising order.
    Move = 6,
    /// 7: the scratch or the reader's state is too short.
    Lent = 7,
    /// 8: the trimmed table would pass the limits of a table.
    Large = 8,
    /// 9: the result does not fit the output.
    Room = 9,
    /// 10: there are accepted logs, but none of at most [`SHOWN_LETTERS`](crate::SHOWN_LETTERS)
    /// letters.
    Long = 10,
    /// 11: the table has no such letter.
    Letter = 11,
    /// 12: the log would have more than [`LOG_LETTERS`](crate::LOG_LETTERS) letters.
    Letters = 12,
    /// 13: more opens would be open at a time than the reader holds.
    Depth = 13,
    /// 14: the lent bytes are not a reader's state for this table.
    State = 14,
}

impl Refusal {
    /// All refusals, in the order of their numbers.
    pub const ALL: [Refusal; 14] = [
        Refusal::Length,
        Refusal::Version,
        Refusal::Limit,
        Refusal::Size,
        Refusal::List,
        Refusal::Move,
        Refusal::Lent,
        Refusal::Large,
        Refusal::Room,
        Refusal::Long,
        Refusal::Letter,
        Refusal::Letters,
        Refusal::Depth,
        Refusal::State,
    ];

    /// The refusal's number, from 1 to 14.
    pub fn number(self) -> u8 {
        self as u8
    }
}

impl fmt::Display for Refusal {
    fn fmt(&self, to: &mut fmt::Formatter<'_>) -> fmt::Result {
        write!(to, "refused {} ({self:?})", self.number())
    }
}

impl std::error::Error for Refusal {}

/// What the reader says of the letters so far.
#[derive(Clone, Copy, Debug, PartialEq, Eq, Hash)]
#[must_use]
pub enum Heard {
    /// The call was refused; the state is as it was (see [`read_log`](crate::read_log) for its
    /// own).
    Refused(Refusal),
    /// The reader runs, and the letter was taken.
    Going,
    /// The log is accepted as it stands.
    Accepted,
    /// The reader runs, but the log is not accepted as it stands.
    Unfinished,
    /// The reader has stopped; so many letters were taken before.
    Stop(usize),
}

/// The balance of a log.
#[derive(Clone, Copy, Debug, PartialEq, Eq, Hash)]
pub struct Balance {
    /// Opens less closes.
    pub balance: i32,
    /// The least that the balance was on the way. It starts at 0, so this is never above 0.
    pub lowest: i32,
}

/// All that an exported function can say.
#[derive(Clone, Copy, Debug, PartialEq, Eq)]
pub(crate) enum Answer {
    Refused(Refusal),
    Going,
    Accepted,
    Unfinished,
    Stop(usize),
    Written(usize),
    NoLog,
    Good,
}

/// Reads the number that an exported function answered: the kind in the upper half, its value in
/// the lower one.
pub(crate) fn decode(answer: u64) -> Answer {
    let value = (answer & 0xffff_ffff) as usize;
    match (answer >> 32, value) {
        (0, 1..=14) => Answer::Refused(Refusal::ALL[value - 1]),
        (1, 0) => Answer::Going,
        (2, 0) => Answer::Accepted,
        (3, 0) => Answer::Unfinished,
        (4, _) => Answer::Stop(value),
        (5, _) => Answer::Written(value),
        (6, 0) => Answer::NoLog,
        (7, 0) => Answer::Good,
        (kind, _) => panic!("no call answers {answer}: kind {kind}, value {value}"),
    }
}

/// For an answer that the call in question never gives.
pub(crate) fn unexpected(call: &str, answer: Answer) -> ! {
    panic!("nomyugereka_{call} never answers {answer:?}")
}
