//! Tables made for one purpose each: at the limits, just past them, deep or long.

use crate::random::Random;
use crate::tables::{assembled, sized, Size};
use naive::table::{Kind, Move, Table, MOST_LETTERS, MOST_MARKS, MOST_MOVES, MOST_STATES};

/// A state that is initial, final, both or neither.
const NEITHER: u8 = 0;
const INITIAL: u8 = 1;
const FINAL: u8 = 2;
const BOTH: u8 = 3;

/// Letters of the tables that have one of each kind.
const PLAIN: u8 = 0;
const OPEN: u8 = 1;
const CLOSE: u8 = 2;

fn one_of_each_kind() -> Vec<Kind> {
    vec![Kind::Plain, Kind::Open, Kind::Close]
}

fn step(from: usize, letter: u8, mark: usize, to: usize) -> Move {
    Move {
        from: from as u8,
        letter,
        mark: mark as u8,
        to: to as u8,
    }
}

/// No states, and still letters and marks.
pub fn without_states(letters: usize, marks: usize) -> Table {
    assembled(vec![Kind::Open; letters], Vec::new(), marks, Vec::new())
}

/// States that are all initial and final, and every plain move by each of some letters. Of n states
/// it makes n³ trimmed ones, and n⁴ trimmed moves for a letter.
pub fn all_joined(states: usize, letters: usize) -> Table {
    let mut moves = Vec::new();
    for from in 0..states {
        for to in 0..states {
            moves.extend((0..letters as u8).map(|letter| step(from, letter, 0, to)));
        }
    }
    assembled(vec![Kind::Plain; letters], vec![BOTH; states], 0, moves)
}

/// States in a row, joined by a plain letter, the last one final; as many of the first ones initial
/// as asked. Each initial state makes a trimmed state of each state from there on.
pub fn row(states: usize, initial: usize) -> Table {
    let moves = (1..states).map(|to| step(to - 1, PLAIN, 0, to)).collect();
    let mut flags = vec![NEITHER; states];
    flags[..initial].fill(INITIAL);
    flags[states - 1] |= FINAL;
    assembled(one_of_each_kind(), flags, 0, moves)
}

/// A state for each two numbers, initial and final, which opens and closes itself by each mark from
/// the one number to before the other. Each makes as many trimmed marks as it has marks.
pub fn marked(spans: &[(usize, usize)]) -> Table {
    let mut moves = Vec::new();
    for (state, &(first, end)) in spans.iter().enumerate() {
        for mark in first..end {
            moves.push(step(state, OPEN, mark, state));
            moves.push(step(state, CLOSE, mark, state));
        }
    }
    let marks = spans.iter().map(|span| span.1).max().unwrap_or(0);
    assembled(one_of_each_kind(), vec![BOTH; spans.len()], marks, moves)
}

/// A table whose shortest log has 4 · 2^levels - 4 + extra letters.
///
/// Level 0 is one state. Each level above has three: from the first to the second, and from the
/// second to the third, it goes through the level below, by a mark of its own each time, so that
/// the way through a level is twice the way through the one below and four letters more.
pub fn doubling(levels: usize, extra: usize) -> Table {
    let first = |level: usize| if level == 0 { 0 } else { 3 * level - 2 };
    let last = |level: usize| 3 * level;
    let mut moves = Vec::new();
    for level in 1..=levels {
        for (part, mark) in [2 * level - 2, 2 * level - 1].into_iter().enumerate() {
            let from = first(level) + part;
            moves.push(step(from, OPEN, mark, first(level - 1)));
            moves.push(step(last(level - 1), CLOSE, mark, from + 1));
        }
    }
    let end = last(levels) + extra;
    moves.extend((last(levels)..end).map(|state| step(state, PLAIN, 0, state + 1)));
    let mut flags = vec![NEITHER; end + 1];
    flags[first(levels)] |= INITIAL;
    flags[end] |= FINAL;
    assembled(one_of_each_kind(), flags, 2 * levels, moves)
}

/// Opens go round one ring of states, closes round another, and the first states of both are joined
/// by a plain letter. So the depth at that letter is a multiple of the one ring's size, and the
/// final state is where closes end after the last multiple that their ring tells from the others:
/// if the sizes have no common factor, the shortest log is opening × (closing - 1) deep.
pub fn two_rings(opening: usize, closing: usize) -> Table {
    let mut moves = vec![step(0, PLAIN, 0, opening)];
    for place in 0..opening {
        moves.push(step(place, OPEN, 0, (place + 1) % opening));
    }
    for place in 0..closing {
        let next = (place + 1) % closing;
        moves.push(step(opening + place, CLOSE, 0, opening + next));
    }
    let mut flags = vec![NEITHER; opening + closing];
    flags[0] = INITIAL;
    flags[opening + opening * (closing - 1) % closing] = FINAL;
    assembled(one_of_each_kind(), flags, 1, moves)
}

/// Each state opens to the next one and closes from there by a mark of its own; the last one turns.
/// Its only log is as deep as there are states less one.
pub fn nested(states: usize) -> Table {
    let mut moves = Vec::new();
    for depth in 1..states {
        moves.push(step(depth - 1, OPEN, depth - 1, depth));
        moves.push(step(depth, CLOSE, depth - 1, depth - 1));
    }
    let mut flags = vec![NEITHER; states];
    flags[0] = BOTH;
    assembled(one_of_each_kind(), flags, states - 1, moves)
}

/// One state that opens and closes itself: every balanced log is accepted, of any depth.
pub fn any_nesting() -> Table {
    let moves = vec![
        step(0, PLAIN, 0, 0),
        step(0, OPEN, 0, 0),
        step(0, CLOSE, 0, 0),
    ];
    assembled(one_of_each_kind(), vec![BOTH], 1, moves)
}

/// A random table with as much of everything as there may be; its bytes are the most there may be.
pub fn full(random: &mut Random) -> Table {
    let size = Size {
        states: MOST_STATES,
        letters: MOST_LETTERS,
        marks: MOST_MARKS,
        moves: 2 * MOST_MOVES,
    };
    let mut table = sized(random, size);
    while table.moves.len() > MOST_MOVES {
        let place = random.below(table.moves.len());
        table.moves.remove(place);
    }
    table
}

/// A row of 64 states with 1,024 moves, each state joined to the next one by sixteen letters and
/// the first one by twice as many. It is trimmed already.
pub fn broad_row() -> Table {
    let mut moves = Vec::new();
    for state in 1..MOST_STATES {
        let letters = if state == 1 { 32 } else { 16 };
        moves.extend((0..letters).map(|letter| step(state - 1, letter, 0, state)));
    }
    let mut flags = vec![NEITHER; MOST_STATES];
    flags[0] = INITIAL;
    flags[MOST_STATES - 1] = FINAL;
    assembled(vec![Kind::Plain; MOST_LETTERS], flags, 0, moves)
}

/// One state, 64 marks, and 1,024 moves, each mark by eight open and eight close letters. It is
/// trimmed already.
pub fn many_marks() -> Table {
    let kinds = (0..16)
        .map(|letter| if letter < 8 { Kind::Open } else { Kind::Close })
        .collect();
    let mut moves = Vec::new();
    for mark in 0..MOST_MARKS {
        moves.extend((0..16).map(|letter| step(0, letter, mark, 0)));
    }
    assembled(kinds, vec![BOTH], MOST_MARKS, moves)
}

/// Two states with plain moves both ways, and an open and a close move by each mark from each to
/// each: many levels open many.
pub fn crossed(marks: usize) -> Table {
    let mut moves = vec![step(0, PLAIN, 0, 1)];
    for mark in 0..marks {
        for (from, to) in [(0, 0), (0, 1), (1, 0), (1, 1)] {
            moves.push(step(from, OPEN, mark, to));
            moves.push(step(from, CLOSE, mark, to));
        }
    }
    assembled(one_of_each_kind(), vec![INITIAL, FINAL], marks, moves)
}

/// All special tables that plain sets can handle in little time.
pub fn all(random: &mut Random) -> Vec<Table> {
    let mut tables = vec![
        without_states(0, 0),
        without_states(5, 0),
        without_states(0, 64),
        without_states(32, 64),
        all_joined(1, 1),
        all_joined(4, 1),
        all_joined(5, 1),
        all_joined(4, 4),
        all_joined(4, 5),
        row(64, 1),
        row(63, 1),
        row(33, 2),
        row(32, 2),
        marked(&[(0, 64)]),
        marked(&[(0, 32), (0, 32)]),
        marked(&[(0, 32), (32, 64)]),
        marked(&[(0, 32), (0, 33)]),
        marked(&[(0, 64), (0, 64)]),
        two_rings(7, 5),
        two_rings(17, 16),
        two_rings(31, 33),
        nested(2),
        nested(33),
        nested(34),
        nested(64),
        any_nesting(),
        broad_row(),
        many_marks(),
        crossed(1),
        crossed(8),
        full(random),
    ];
    for levels in [0, 1, 5, 9, 10, 11, 18] {
        tables.extend([0, 3, 4, 5].map(|extra| doubling(levels, extra)));
    }
    tables
}
