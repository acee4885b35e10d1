//! Whole logs: their check, and their balance.

use crate::answer::{Answer, LETTER, LOG};
use crate::reader::{checked, with_words, State, LOG_LETTERS, WORDS};
use crate::table::{parse, Kind, Table};

fn too_long(log: &[u8]) -> bool {
    log.len() as u64 > LOG_LETTERS
}

/// The call that checks a whole log: the answer, and the state's bytes afterwards.
pub fn read_log(table: &[u8], log: &[u8], state: &[u8]) -> (Answer, Vec<u8>) {
    let untouched = |number| (Answer::Refused(number), state.to_vec());
    match checked(table, state) {
        Err(number) => untouched(number),
        Ok(_) if too_long(log) => untouched(LOG),
        Ok(table) => (
            answer_of_log(&table, log),
            with_words(state, &vec![0; WORDS]),
        ),
    }
}

/// Begin, each letter, finish; the first that is neither going nor the end of it is the answer.
fn answer_of_log(table: &Table, log: &[u8]) -> Answer {
    let mut state = State::first(table);
    if state.stopped {
        return Answer::Stop(0);
    }
    for &letter in log {
        let answer = state.take(table, letter);
        if answer != Answer::Going {
            return answer;
        }
    }
    state.end(table)
}

/// The balance of a whole log and the lowest balance of its prefixes.
#[derive(Clone, Copy, Debug, PartialEq, Eq)]
pub struct Balance {
    /// Opens less closes.
    pub balance: i64,
    /// The lowest of all prefixes, the empty one included.
    pub lowest: i64,
}

/// The call that weighs a log: both numbers, or the number of the refusal.
pub fn balance(table: &[u8], log: &[u8]) -> Result<Balance, u8> {
    let table = parse(table)?;
    if too_long(log) {
        return Err(LOG);
    }
    let mut so_far = Balance {
        balance: 0,
        lowest: 0,
    };
    for &letter in log {
        so_far.balance += match table.kind(letter).ok_or(LETTER)? {
            Kind::Plain => 0,
            Kind::Open => 1,
            Kind::Close => -1,
        };
        so_far.lowest = so_far.lowest.min(so_far.balance);
    }
    Ok(so_far)
}
