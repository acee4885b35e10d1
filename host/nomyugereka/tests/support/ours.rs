//! The calls of the library in the form of the second implementation: lent memory as it was before
//! goes in, the answer and all lent memory come out. Borders around what is lent are looked at.

use super::exported;
use generate::Lent;
use naive::log::Balance;
use naive::Answer;
use nomyugereka::{Heard, Refusal};

/// What the borders hold.
const BORDER: u8 = 0xa5;
const BORDER_NUMBER: u16 = 0xa5c3;

fn refused(refusal: Refusal) -> Answer {
    Answer::Refused(refusal.number())
}

fn heard(heard: Heard) -> Answer {
    match heard {
        Heard::Refused(refusal) => refused(refusal),
        Heard::Going => Answer::Going,
        Heard::Accepted => Answer::Accepted,
        Heard::Unfinished => Answer::Unfinished,
        Heard::Stop(place) => Answer::Stop(place as u64),
    }
}

fn written(result: Result<usize, Refusal>) -> Answer {
    result.map_or_else(refused, Answer::Written)
}

pub fn check(table: &[u8]) -> Answer {
    nomyugereka::check(table).map_or_else(refused, |()| Answer::Good)
}

pub fn write(table: &[u8], out: &[u8]) -> (Answer, Vec<u8>) {
    let mut out = Lent::new(out, BORDER);
    let answer = written(nomyugereka::write(table, out.cells()));
    (answer, out.back())
}

pub fn trim(table: &[u8], scratch: &[u16], out: &[u8]) -> (Answer, Vec<u16>, Vec<u8>) {
    let mut scratch = Lent::new(scratch, BORDER_NUMBER);
    let mut out = Lent::new(out, BORDER);
    let answer = written(nomyugereka::trim(table, scratch.cells(), out.cells()));
    (answer, scratch.back(), out.back())
}

pub fn shortest(table: &[u8], scratch: &[u16], out: &[u8]) -> (Answer, Vec<u16>, Vec<u8>) {
    let mut scratch = Lent::new(scratch, BORDER_NUMBER);
    let mut out = Lent::new(out, BORDER);
    let answer = match nomyugereka::shortest(table, scratch.cells(), out.cells()) {
        Ok(Some(length)) => Answer::Written(length),
        Ok(None) => Answer::NoLog,
        Err(refusal) => refused(refusal),
    };
    (answer, scratch.back(), out.back())
}

pub fn begin(table: &[u8], state: &[u8]) -> (Answer, Vec<u8>) {
    with_state(state, |state| nomyugereka::begin(table, state))
}

pub fn letter(table: &[u8], state: &[u8], letter: u8) -> (Answer, Vec<u8>) {
    with_state(state, |state| nomyugereka::letter(table, state, letter))
}

pub fn finish(table: &[u8], state: &[u8]) -> (Answer, Vec<u8>) {
    with_state(state, |state| nomyugereka::finish(table, state))
}

pub fn read_log(table: &[u8], log: &[u8], state: &[u8]) -> (Answer, Vec<u8>) {
    with_state(state, |state| nomyugereka::read_log(table, log, state))
}

fn with_state(state: &[u8], call: impl Fn(&mut [u8]) -> Heard) -> (Answer, Vec<u8>) {
    let mut state = Lent::new(state, BORDER);
    let answer = heard(call(state.cells()));
    (answer, state.back())
}

/// The safe call, and the exported one beside it, which must leave both numbers alone where it
/// refuses.
pub fn balance(table: &[u8], log: &[u8]) -> Result<Balance, u8> {
    const BEFORE: i32 = 1_234_567_891;
    let (mut balance, mut lowest) = (Lent::new(&[BEFORE], -1), Lent::new(&[BEFORE], -1));
    // SAFETY: both slices are valid for their lengths, and both numbers are lent to no one else.
    let answer = unsafe {
        exported::nomyugereka_balance(
            table.as_ptr(),
            table.len(),
            log.as_ptr(),
            log.len(),
            balance.cells().as_mut_ptr(),
            lowest.cells().as_mut_ptr(),
        )
    };
    let numbers = (balance.back()[0], lowest.back()[0]);
    match nomyugereka::balance(table, log) {
        Ok(weighed) => {
            assert_eq!(answer, 7 << 32);
            assert_eq!(numbers, (weighed.balance, weighed.lowest));
            Ok(Balance {
                balance: weighed.balance.into(),
                lowest: weighed.lowest.into(),
            })
        }
        Err(refusal) => {
            assert_eq!(answer, u64::from(refusal.number()));
            assert_eq!(numbers, (BEFORE, BEFORE));
            Err(refusal.number())
        }
    }
}
