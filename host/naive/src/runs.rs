//! Runs of a table one by one, with the stack spelled out. Nothing here knows of pairs.

use crate::table::{Kind, Table};
use std::collections::{BTreeMap, BTreeSet};

/// Where a run is: its state and what is on the stack, the top last.
#[derive(Clone, Debug, PartialEq, Eq, PartialOrd, Ord)]
pub struct Place {
    /// The state.
    pub state: u8,
    /// The marks on the stack.
    pub stack: Vec<u8>,
}

/// How many runs on a log lead from an initial state and the empty stack to each place.
pub type Runs = BTreeMap<Place, u64>;

/// The runs on the empty log.
pub fn none_yet(table: &Table) -> Runs {
    table
        .states()
        .filter(|&state| table.initial(state))
        .map(|state| (bare(state), 1))
        .collect()
}

/// A state with the empty stack.
pub fn bare(state: u8) -> Place {
    Place {
        state,
        stack: Vec::new(),
    }
}

/// The places that a letter leads to, one for each move that applies.
pub fn steps(table: &Table, place: &Place, letter: u8) -> Vec<Place> {
    let Some(kind) = table.kind(letter) else {
        return Vec::new();
    };
    let along = |mark: u8, state: u8| {
        let mut stack = place.stack.clone();
        match kind {
            Kind::Plain => {}
            Kind::Open => stack.push(mark),
            Kind::Close => {
                stack.pop().filter(|&top| top == mark)?;
            }
        }
        Some(Place { state, stack })
    };
    table
        .moves_by(letter)
        .filter(|step| step.from == place.state)
        .filter_map(|step| along(step.mark, step.to))
        .collect()
}

/// The runs on a log with one more letter.
pub fn extended(table: &Table, runs: &Runs, letter: u8) -> Runs {
    let mut longer = Runs::new();
    for (place, count) in runs {
        for next in steps(table, place, letter) {
            *longer.entry(next).or_default() += count;
        }
    }
    longer
}

/// The runs on a log.
pub fn on(table: &Table, log: &[u8]) -> Runs {
    log.iter().fold(none_yet(table), |runs, &letter| {
        extended(table, &runs, letter)
    })
}

/// How many of the runs are accepting: in a final state with the stack empty.
pub fn accepting(table: &Table, runs: &Runs) -> u64 {
    runs.iter()
        .filter(|(place, _)| place.stack.is_empty() && table.accepting(place.state))
        .map(|(_, count)| count)
        .sum()
}

/// A depth that suffices for a shortest run between two states with the stack empty at both ends.
///
/// At its deepest place so many parts of the run lie inside each other: the whole run, and for each
/// open that is not closed there the part up to its close. If two of them join the same two states,
/// the inner one can stand in place of the outer one, and the run was not a shortest one. A part
/// that joins a state with itself is empty for the same reason, so nothing lies in it. So all but
/// the innermost, which are as many as the opens, join different states, each in its own way, and
/// there are n² - n ways.
pub fn deep_enough(table: &Table) -> usize {
    let states = table.flags.len();
    states * states.saturating_sub(1)
}

/// The places within a depth that can be reached from some places, by the number of letters it
/// takes.
pub fn reached(table: &Table, from: BTreeSet<Place>, depth: usize) -> Vec<BTreeSet<Place>> {
    let mut seen = from.clone();
    let mut by_length = vec![from];
    loop {
        let fresh: BTreeSet<Place> = by_length[by_length.len() - 1]
            .iter()
            .flat_map(|place| next_places(table, place))
            .filter(|next| next.stack.len() <= depth && !seen.contains(next))
            .collect();
        if fresh.is_empty() {
            return by_length;
        }
        seen.extend(fresh.iter().cloned());
        by_length.push(fresh);
    }
}

fn next_places(table: &Table, place: &Place) -> Vec<Place> {
    (0..table.kinds.len() as u8)
        .flat_map(|letter| steps(table, place, letter))
        .collect()
}
