//! Random tables, good and damaged.

use crate::random::Random;
use naive::table::{unparse, Kind, Move, Table};

/// A table of these parts; the moves may come in any order and repeatedly.
pub fn assembled(kinds: Vec<Kind>, flags: Vec<u8>, marks: usize, mut moves: Vec<Move>) -> Table {
    moves.sort();
    moves.dedup();
    Table {
        kinds,
        flags,
        marks,
        moves,
    }
}

/// How large a random table is.
#[derive(Clone, Copy, Debug)]
pub struct Size {
    /// States.
    pub states: usize,
    /// Letters; with three or more there is one of each kind.
    pub letters: usize,
    /// Stack marks.
    pub marks: usize,
    /// Moves that are tried; fewer are left where some are equal.
    pub moves: usize,
}

/// A random table of a size.
pub fn sized(random: &mut Random, size: Size) -> Table {
    let all = [Kind::Plain, Kind::Open, Kind::Close];
    let shift = random.below(3);
    let kinds: Vec<Kind> = (0..size.letters)
        .map(|letter| match letter {
            0..=2 => all[(letter + shift) % 3],
            _ => *random.pick(&all),
        })
        .collect();
    let flags = random_flags(random, size.states);
    let empty = assembled(kinds, flags, size.marks, Vec::new());
    let moves = (0..size.moves)
        .filter_map(|_| random_move(random, &empty, 0..size.states, 0..size.states))
        .collect();
    assembled(empty.kinds, empty.flags, empty.marks, moves)
}

/// A byte for each state. Mostly some state is initial and some is final.
fn random_flags(random: &mut Random, states: usize) -> Vec<u8> {
    let mut flags: Vec<u8> = (0..states)
        .map(|_| *random.pick(&[0, 0, 0, 1, 2, 3]))
        .collect();
    if states > 0 && random.percent(90) {
        flags[random.below(states)] |= 1;
        flags[random.below(states)] |= 2;
    }
    flags
}

type States = std::ops::Range<usize>;

/// A random move of a table from some of its states to some, if its numbers allow one.
fn random_move(random: &mut Random, table: &Table, from: States, to: States) -> Option<Move> {
    if table.kinds.is_empty() || from.is_empty() || to.is_empty() {
        return None;
    }
    let letter = random.below(table.kinds.len());
    let mark = match table.kinds[letter] {
        Kind::Plain => 0,
        _ if table.marks == 0 => return None,
        _ => random.below(table.marks),
    };
    Some(Move {
        from: random.between(from.start, from.end - 1) as u8,
        letter: letter as u8,
        mark: mark as u8,
        to: random.between(to.start, to.end - 1) as u8,
    })
}

/// A small table.
pub fn small(random: &mut Random) -> Table {
    let states = random.between(1, 7);
    let size = Size {
        states,
        letters: random.between(1, 6),
        marks: random.below(4),
        moves: random.between(states, 4 * states),
    };
    sized(random, size)
}

/// A table of few states and many moves.
pub fn dense(random: &mut Random) -> Table {
    let size = Size {
        states: random.between(1, 4),
        letters: random.between(3, 5),
        marks: random.between(1, 3),
        moves: random.between(20, 80),
    };
    sized(random, size)
}

/// A table with branches that lead nowhere, states that nothing leads to, and a mark that is pushed
/// but never popped.
pub fn with_dead_branches(random: &mut Random) -> Table {
    let mut table = small(random);
    let live = table.flags.len();
    let dead = live + random.between(1, 3);
    let unreached = dead + random.between(1, 2);
    table.flags.resize(dead, 0);
    table.flags.resize(unreached, *random.pick(&[0, 2]));
    for _ in 0..random.between(2, 8) {
        let into_dead = random_move(random, &table, 0..dead, live..dead);
        let out_of_unreached = random_move(random, &table, dead..unreached, 0..dead);
        table.moves.extend(into_dead);
        table.moves.extend(out_of_unreached);
    }
    table.marks += 1;
    if let Some(open) = table.kinds.iter().position(|&kind| kind == Kind::Open) {
        table.moves.push(Move {
            from: random.below(live) as u8,
            letter: open as u8,
            mark: table.marks as u8 - 1,
            to: random.below(live) as u8,
        });
    }
    assembled(table.kinds, table.flags, table.marks, table.moves)
}

/// A table with many states, and with few moves for a state: what it joins stays small enough for
/// plain sets.
pub fn large(random: &mut Random) -> Table {
    let states = random.between(20, 64);
    let size = Size {
        states,
        letters: random.between(3, 32),
        marks: random.between(1, 64),
        moves: random.between(states, 2 * states),
    };
    sized(random, size)
}

/// A good table of any sort.
pub fn any(random: &mut Random) -> Table {
    match random.below(100) {
        0..=49 => small(random),
        50..=79 => with_dead_branches(random),
        80..=98 => dense(random),
        _ => large(random),
    }
}

/// Bytes that are a table no more, or another one, or by chance the same.
pub fn damaged(random: &mut Random, table: &Table) -> Vec<u8> {
    let mut bytes = match random.below(4) {
        0 => unparse(&with_bad_counts(random, table)),
        1 => unparse(&with_bad_moves(random, table)),
        _ => unparse(table),
    };
    match random.below(8) {
        0 => bytes.truncate(random.below(bytes.len() + 1)),
        1 => {
            let more = random.between(1, 8);
            bytes.extend(random.noise(more));
        }
        2..=4 => change_byte(random, &mut bytes),
        5 => change_bytes_of_lists(random, &mut bytes, table),
        _ => {}
    }
    if random.percent(50) && bytes.len() >= 8 {
        let length = (bytes.len() - 2) as u16;
        bytes[..2].copy_from_slice(&length.to_be_bytes());
    }
    bytes
}

/// Changes one byte, more often one of the head.
fn change_byte(random: &mut Random, bytes: &mut [u8]) {
    let reach = if random.percent(50) { 8 } else { bytes.len() };
    let place = random.below(reach);
    bytes[place] = match random.below(3) {
        0 => bytes[place] ^ 1 << random.below(8),
        1 => bytes[place].wrapping_add(*random.pick(&[1, 255])),
        _ => *random.pick(&[0, 1, 2, 3, 4, 32, 33, 64, 65, 255]),
    };
}

/// Changes a letter's kind or a state's byte.
fn change_bytes_of_lists(random: &mut Random, bytes: &mut [u8], table: &Table) {
    let listed = table.kinds.len() + table.flags.len();
    if let Some(place) = (listed > 0).then(|| 8 + random.below(listed)) {
        if place < bytes.len() {
            bytes[place] = *random.pick(&[0, 1, 2, 3, 4, 255]);
        }
    }
}

/// A table past one of the limits, its length as its counts say.
fn with_bad_counts(random: &mut Random, table: &Table) -> Table {
    let mut large = table.clone();
    match random.below(4) {
        0 => large.flags.resize(random.between(64, 66), 0),
        1 => large.kinds.resize(random.between(32, 34), Kind::Plain),
        2 => large.marks = random.between(64, 66),
        _ => large
            .moves
            .resize(random.between(1_024, 1_026), move_zero()),
    }
    large
}

fn move_zero() -> Move {
    Move {
        from: 0,
        letter: 0,
        mark: 0,
        to: 0,
    }
}

/// A table in which a move is out of range or out of order, if it has moves.
fn with_bad_moves(random: &mut Random, table: &Table) -> Table {
    let mut bad = table.clone();
    if bad.moves.is_empty() {
        return bad;
    }
    let place = random.below(bad.moves.len());
    match random.below(6) {
        0 => bad.moves[place].from = table.flags.len() as u8,
        1 => bad.moves[place].letter = table.kinds.len() as u8,
        2 => bad.moves[place].mark = table.marks.max(1) as u8,
        3 => bad.moves[place].to = table.flags.len() as u8,
        4 => bad.moves.insert(place, table.moves[place]),
        _ => bad.moves.rotate_left(place),
    }
    bad
}
