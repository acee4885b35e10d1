//! Logs for a table.

use crate::random::Random;
use naive::runs::{bare, steps, Place};
use naive::table::Table;
use naive::trim::trimmed;

/// The letters of a random run from an initial state, and how long the prefix is on which the run
/// was last accepting, if it ever was.
struct Walk {
    letters: Vec<u8>,
    accepted: Option<usize>,
}

fn walk(random: &mut Random, table: &Table, most: usize) -> Walk {
    let mut walk = Walk {
        letters: Vec::new(),
        accepted: None,
    };
    let initial: Vec<u8> = table.states().filter(|&s| table.initial(s)).collect();
    if initial.is_empty() {
        return walk;
    }
    let mut place = bare(*random.pick(&initial));
    loop {
        if place.stack.is_empty() && table.accepting(place.state) {
            walk.accepted = Some(walk.letters.len());
        }
        let next = possible_steps(table, &place);
        if next.is_empty() || walk.letters.len() == most {
            return walk;
        }
        let (letter, after) = random.pick(&next).clone();
        walk.letters.push(letter);
        place = after;
    }
}

fn possible_steps(table: &Table, place: &Place) -> Vec<(u8, Place)> {
    let by = |letter: u8| {
        steps(table, place, letter)
            .into_iter()
            .map(move |next| (letter, next))
    };
    (0..table.kinds.len() as u8).flat_map(by).collect()
}

/// The letters of a random run of the table, with no eye on where it leads.
pub fn of_a_run(random: &mut Random, table: &Table, most: usize) -> Vec<u8> {
    walk(random, table, most).letters
}

/// A random accepted log, if some walks come upon one. They go through the trimmed table, where
/// there is one, so that they do not end in dead branches.
pub fn accepted(random: &mut Random, table: &Table, most: usize) -> Option<Vec<u8>> {
    let through = trimmed(table).unwrap_or_else(|| table.clone());
    (0..4).find_map(|_| {
        let walk = walk(random, &through, most);
        walk.accepted.map(|length| walk.letters[..length].to_vec())
    })
}

/// A letter of the table, now and then one past its letters.
pub fn letter(random: &mut Random, table: &Table) -> u8 {
    let letters = table.kinds.len();
    if letters == 0 || random.percent(3) {
        return *random.pick(&[letters as u8, letters as u8 + 1, 255]);
    }
    random.below(letters) as u8
}

/// Letters at random.
pub fn random_letters(random: &mut Random, table: &Table, length: usize) -> Vec<u8> {
    (0..length).map(|_| letter(random, table)).collect()
}

/// The log with one letter changed, dropped or added.
pub fn near_miss(random: &mut Random, table: &Table, log: &[u8]) -> Vec<u8> {
    let mut missed = log.to_vec();
    let place = random.below(log.len() + 1);
    let other = letter(random, table);
    match random.below(3) {
        0 if place < log.len() => missed[place] = other,
        1 if place < log.len() => {
            missed.remove(place);
        }
        _ => missed.insert(place, other),
    }
    missed
}

/// A log of any sort, at most so long or one letter longer.
pub fn any(random: &mut Random, table: &Table, most: usize) -> Vec<u8> {
    match random.below(5) {
        0 => accepted(random, table, most).unwrap_or_default(),
        1 => {
            let log = accepted(random, table, most).unwrap_or_default();
            near_miss(random, table, &log)
        }
        2 | 3 => of_a_run(random, table, most),
        _ => {
            let length = random.below(most + 1);
            random_letters(random, table, length)
        }
    }
}
