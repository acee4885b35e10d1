//! The length of a shortest accepted log.

use crate::answer::{Answer, LENT, OUTPUT, SHOWN};
use crate::cleared_scratch;
use crate::nesting::matching;
use crate::table::{parse, Kind, Table};
use crate::SCRATCH;
use std::collections::BTreeMap;

/// The most letters that a shown log has.
pub const SHOWN_LETTERS: usize = 4_096;

/// All lengths past the ones that are shown count as this one.
const TOO_LONG: usize = SHOWN_LETTERS + 1;

/// The least length of a log between two states, for each balanced pair.
type Lengths = BTreeMap<(u8, u8), usize>;

/// Lowers the length of a pair, and says whether that changed anything.
fn lower(lengths: &mut Lengths, pair: (u8, u8), length: usize) -> bool {
    let length = length.min(TOO_LONG);
    if lengths.get(&pair).is_some_and(|&known| known <= length) {
        return false;
    }
    lengths.insert(pair, length);
    true
}

/// Least lengths of the balanced pairs: the rules of balanced pairs with a length each, repeated
/// until no length falls any more.
pub fn least_lengths(table: &Table) -> Lengths {
    let matching = matching(table);
    let mut lengths: Lengths = table.states().map(|state| ((state, state), 0)).collect();
    for plain in table.moves_of(Kind::Plain) {
        lower(&mut lengths, (plain.from, plain.to), 1);
    }
    loop {
        let mut changed = false;
        for (open, close) in &matching {
            if let Some(&inner) = lengths.get(&(open.to, close.from)) {
                changed |= lower(&mut lengths, (open.from, close.to), inner + 2);
            }
        }
        for through in table.states() {
            changed |= lower_through(&mut lengths, through);
        }
        if !changed {
            return lengths;
        }
    }
}

/// Joins the pairs that end in a state with the pairs that begin there.
fn lower_through(lengths: &mut Lengths, through: u8) -> bool {
    let into: Vec<_> = lengths
        .iter()
        .filter(|(&(_, to), _)| to == through)
        .map(|(&(from, _), &length)| (from, length))
        .collect();
    let out_of: Vec<_> = lengths
        .range((through, 0)..=(through, u8::MAX))
        .map(|(&(_, to), &length)| (to, length))
        .collect();
    let mut changed = false;
    for &(from, first) in &into {
        for &(to, second) in &out_of {
            changed |= lower(lengths, (from, to), first + second);
        }
    }
    changed
}

/// The least length of an accepted log, if there is one; one more than is shown if it is longer.
pub fn least_length(table: &Table) -> Option<usize> {
    least_lengths(table)
        .into_iter()
        .filter(|&((from, to), _)| table.initial(from) && table.accepting(to))
        .map(|(_, length)| length)
        .min()
}

/// The call that shows a shortest log: the answer, and scratch afterwards. Which letters are
/// written is open where several logs tie, so the output is not given.
pub fn shortest(table: &[u8], scratch: &[u16], out_length: usize) -> (Answer, Vec<u16>) {
    let table = match parse(table) {
        Ok(table) => table,
        Err(number) => return (Answer::Refused(number), scratch.to_vec()),
    };
    if scratch.len() < SCRATCH {
        return (Answer::Refused(LENT), scratch.to_vec());
    }
    let answer = match least_length(&table) {
        None => Answer::NoLog,
        Some(TOO_LONG) => Answer::Refused(SHOWN),
        Some(length) if out_length < length => Answer::Refused(OUTPUT),
        Some(length) => Answer::Written(length),
    };
    (answer, cleared_scratch(scratch))
}
