//! Safe calls of the log software of a tape capture tool.
//!
//! A *table* says which logs a deck can write; a *log* is a string of letters, a byte each. The
//! library reads and trims tables, finds a shortest accepted log, and follows a log while it is
//! written. It allocates nothing: outputs, scratch and the reader's state are lent by the caller.
//! Every call checks what it is given, whatever it is, and answers with a [`Refusal`] if it is not
//! good.
//!
//! ```
//! use nomyugereka::{begin, finish, letter, trim, Heard, SCRATCH, STATE_BYTES, TABLE_BYTES};
//!
//! let path = concat!(env!("CARGO_MANIFEST_DIR"), "/../../examples/worked.table");
//! let table = std::fs::read(path)?;
//!
//! let mut scratch = vec![0; SCRATCH];
//! let mut out = [0; TABLE_BYTES];
//! let length = trim(&table, &mut scratch, &mut out)?;
//! let trimmed = &out[..length];
//! assert_eq!(length, 27);
//!
//! // Letter 1 opens, 0 is plain, 2 closes.
//! let mut state = vec![0; STATE_BYTES];
//! assert_eq!(begin(trimmed, &mut state), Heard::Going);
//! assert_eq!(letter(trimmed, &mut state, 1), Heard::Going);
//! assert_eq!(letter(trimmed, &mut state, 0), Heard::Going);
//! assert_eq!(finish(trimmed, &state), Heard::Unfinished);
//! assert_eq!(letter(trimmed, &mut state, 2), Heard::Going);
//! assert_eq!(finish(trimmed, &state), Heard::Accepted);
//!
//! // After 1 the letter 3 leads nowhere. The trimmed table shows it at once.
//! assert_eq!(begin(trimmed, &mut state), Heard::Going);
//! assert_eq!(letter(trimmed, &mut state, 1), Heard::Going);
//! assert_eq!(letter(trimmed, &mut state, 3), Heard::Stop(1));
//! # Ok::<(), Box<dyn std::error::Error>>(())
//! ```

mod answer;
mod exported;
mod raw;

use answer::{decode, unexpected, Answer};
pub use answer::{Balance, Heard, Refusal};

/// How many numbers of scratch [`trim`] and [`shortest`] need.
pub const SCRATCH: usize = 16_384;
/// How many bytes the reader's state needs.
pub const STATE_BYTES: usize = 17_184;
/// The size of the largest table; an output of this many bytes holds any table.
pub const TABLE_BYTES: usize = 4_200;
/// The most letters of a log.
pub const LOG_LETTERS: usize = 16_777_215;
/// The most letters of a log that [`shortest`] shows.
pub const SHOWN_LETTERS: usize = 4_096;

/// Says whether the bytes are a good table.
///
/// # Errors
/// Refusals 1 to 6.
pub fn check(table: &[u8]) -> Result<(), Refusal> {
    good("check", raw::check(table))
}

/// Writes a good table's bytes to the front of `out` and answers how many they are; what lies
/// behind them stays.
///
/// # Errors
/// Refusals 1 to 6, then 9; `out` stays as it was.
pub fn write(table: &[u8], out: &mut [u8]) -> Result<usize, Refusal> {
    written("write", raw::write(table, out))
}

/// Trims a table: writes one that accepts the same logs, and in which whatever can be reached can
/// also be finished. Answers its length; what lies behind it in `out` stays.
///
/// Of `scratch`, at least [`SCRATCH`] numbers, the first [`SCRATCH`] are zeros afterwards.
///
/// # Errors
/// Refusals 1 to 6, then 7, which leave `scratch` as it was, then 8 and 9. `out` stays as it was.
pub fn trim(table: &[u8], scratch: &mut [u16], out: &mut [u8]) -> Result<usize, Refusal> {
    written("trim", raw::trim(table, scratch, out))
}

/// Writes a shortest accepted log to the front of `out` and answers its length, or `None`, with
/// nothing written, if the table accepts no log at all. What lies behind the log stays.
///
/// Of `scratch`, at least [`SCRATCH`] numbers, the first [`SCRATCH`] are zeros afterwards.
///
/// # Errors
/// Refusals 1 to 6, then 7, which leave `scratch` as it was, then 10 and 9. `out` stays as it was.
pub fn shortest(
    table: &[u8],
    scratch: &mut [u16],
    out: &mut [u8],
) -> Result<Option<usize>, Refusal> {
    match decode(raw::shortest(table, scratch, out)) {
        Answer::Written(length) => Ok(Some(length)),
        Answer::NoLog => Ok(None),
        Answer::Refused(refusal) => Err(refusal),
        other => unexpected("shortest", other),
    }
}

/// Begins a log: writes the first state. [`Heard::Going`], or [`Heard::Stop`] at 0 if the table has
/// no initial state.
///
/// Of `state`, at least [`STATE_BYTES`] bytes, only the first [`STATE_BYTES`] are ever used.
/// Refusals: 1 to 6, then 7.
pub fn begin(table: &[u8], state: &mut [u8]) -> Heard {
    heard("begin", raw::begin(table, state))
}

/// Takes one letter: [`Heard::Going`], or [`Heard::Stop`] if no run of the table goes on with it. A
/// reader that has stopped answers the same stop to every letter.
///
/// Refusals: 1 to 6, 7 and 14; then, if it has not stopped, 11, 12 and 13. A refused letter leaves
/// the state as it was.
pub fn letter(table: &[u8], state: &mut [u8], letter: u8) -> Heard {
    heard("letter", raw::letter(table, state, letter))
}

/// Says what the letters taken so far amount to: [`Heard::Accepted`], [`Heard::Unfinished`] or
/// [`Heard::Stop`]. The state is only read, so further letters may follow.
///
/// Refusals: 1 to 6, 7 and 14.
pub fn finish(table: &[u8], state: &[u8]) -> Heard {
    heard("finish", raw::finish(table, state))
}

/// Checks a whole log as [`begin`], [`letter`] and [`finish`] would, up to where one of them stops
/// or refuses.
///
/// Refusals: 1 to 6, 7, and 12 for a log that is too long, which leave `state` as it was; then 11
/// and 13 at the first letter they apply to. After these and after every other answer the first
/// [`STATE_BYTES`] bytes of `state` are zeros.
pub fn read_log(table: &[u8], log: &[u8], state: &mut [u8]) -> Heard {
    heard("read_log", raw::read_log(table, log, state))
}

/// Counts the opens of a log less its closes. Whether the table accepts the log does not matter.
///
/// # Errors
/// Refusals 1 to 6, then 12, then 11.
pub fn balance(table: &[u8], log: &[u8]) -> Result<Balance, Refusal> {
    let (mut balance, mut lowest) = (0, 0);
    good(
        "balance",
        raw::balance(table, log, &mut balance, &mut lowest),
    )?;
    Ok(Balance { balance, lowest })
}

fn good(call: &str, answer: u64) -> Result<(), Refusal> {
    match decode(answer) {
        Answer::Good => Ok(()),
        Answer::Refused(refusal) => Err(refusal),
        other => unexpected(call, other),
    }
}

fn written(call: &str, answer: u64) -> Result<usize, Refusal> {
    match decode(answer) {
        Answer::Written(length) => Ok(length),
        Answer::Refused(refusal) => Err(refusal),
        other => unexpected(call, other),
    }
}

fn heard(call: &str, answer: u64) -> Heard {
    match decode(answer) {
        Answer::Refused(refusal) => Heard::Refused(refusal),
        Answer::Going => Heard::Going,
        Answer::Accepted => Heard::Accepted,
        Answer::Unfinished => Heard::Unfinished,
        Answer::Stop(place) => Heard::Stop(place),
        other => unexpected(call, other),
    }
}
