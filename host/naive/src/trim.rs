//! Trimming: states and marks that remember the level they belong to.

use crate::answer::{Answer, LENT, OUTPUT, TRIMMED};
use crate::nesting::{balanced, live_levels, matching, opened_by, Pairs};
use crate::table::{parse, unparse, Kind, Move, Table, MOST_MARKS, MOST_MOVES, MOST_STATES};
use crate::{cleared_scratch, written_over, SCRATCH};
use std::collections::{BTreeMap, BTreeSet};

/// Begun here, to end there, now at the third; or a mark with the level that pushed it.
type Triple = (u8, u8, u8);

/// A table with all that trimming it needs.
struct Trimming<'a> {
    table: &'a Table,
    balanced: Pairs,
    live: Pairs,
    matching: Vec<(Move, Move)>,
}

/// The trimmed table, or none if it is larger than a table may be.
pub fn trimmed(table: &Table) -> Option<Table> {
    let balanced = balanced(table);
    let trimming = Trimming {
        table,
        live: live_levels(table, &balanced),
        matching: matching(table),
        balanced,
    };
    let states = trimming.states();
    if states.len() > MOST_STATES {
        return None;
    }
    let marks = trimming.marks();
    if marks.len() > MOST_MARKS {
        return None;
    }
    let numbers = Numbers {
        states: numbered(&states),
        marks: numbered(&marks),
    };
    let moves = trimming.moves(&numbers);
    if moves.len() > MOST_MOVES {
        return None;
    }
    Some(Table {
        kinds: table.kinds.clone(),
        flags: states.iter().map(|&state| trimming.flag(state)).collect(),
        marks: marks.len(),
        moves: moves.into_iter().collect(),
    })
}

/// The numbers of trimmed states and marks.
struct Numbers {
    states: BTreeMap<Triple, u8>,
    marks: BTreeMap<Triple, u8>,
}

fn numbered(triples: &BTreeSet<Triple>) -> BTreeMap<Triple, u8> {
    triples.iter().copied().zip(0..).collect()
}

impl Trimming<'_> {
    fn joined(&self, from: u8, to: u8) -> bool {
        self.balanced.contains(&(from, to))
    }

    /// Each state between the begin and the end of a live level.
    fn states(&self) -> BTreeSet<Triple> {
        let within = |&(begun, end): &(u8, u8)| {
            self.table
                .states()
                .filter(move |&now| self.joined(begun, now) && self.joined(now, end))
                .map(move |now| (begun, end, now))
        };
        self.live.iter().flat_map(within).collect()
    }

    /// Each mark that is pushed from inside a live level, with that level behind it.
    fn marks(&self) -> BTreeSet<Triple> {
        let pushed = |&level: &(u8, u8)| {
            opened_by(level, &self.balanced, &self.matching)
                .into_iter()
                .map(move |(mark, _)| (mark, level.0, level.1))
        };
        self.live.iter().flat_map(pushed).collect()
    }

    /// Initial and final are states of top levels alone.
    fn flag(&self, (begun, end, now): Triple) -> u8 {
        if !self.table.initial(begun) || !self.table.accepting(end) {
            return 0;
        }
        u8::from(now == begun) + 2 * u8::from(now == end)
    }

    fn moves(&self, numbers: &Numbers) -> BTreeSet<Move> {
        let mut moves = self.plain_moves(numbers);
        for (open, close) in &self.matching {
            if self.joined(open.to, close.from) {
                moves.extend(self.open_moves(open, close, numbers));
                moves.extend(self.close_moves(open, close, numbers));
            }
        }
        moves
    }

    fn plain_moves(&self, numbers: &Numbers) -> BTreeSet<Move> {
        let mut moves = BTreeSet::new();
        for (&(begun, end, now), &from) in &numbers.states {
            for plain in self.table.moves_of(Kind::Plain) {
                if plain.from != now {
                    continue;
                }
                if let Some(&to) = numbers.states.get(&(begun, end, plain.to)) {
                    moves.insert(Move {
                        from,
                        letter: plain.letter,
                        mark: 0,
                        to,
                    });
                }
            }
        }
        moves
    }

    /// From each state of a live level that stands before the open move, where the level can be
    /// ended after the close move.
    fn open_moves(&self, open: &Move, close: &Move, numbers: &Numbers) -> BTreeSet<Move> {
        numbers
            .states
            .iter()
            .filter(|(&(_, end, now), _)| now == open.from && self.joined(close.to, end))
            .map(|(&(begun, end, _), &from)| Move {
                from,
                letter: open.letter,
                mark: numbers.marks[&(open.mark, begun, end)],
                to: numbers.states[&(open.to, close.from, open.to)],
            })
            .collect()
    }

    /// From the end of the inner level back into each live level that can stand before the open
    /// move and be ended after the close move.
    fn close_moves(&self, open: &Move, close: &Move, numbers: &Numbers) -> BTreeSet<Move> {
        self.live
            .iter()
            .filter(|&&(begun, end)| self.joined(begun, open.from) && self.joined(close.to, end))
            .map(|&(begun, end)| Move {
                from: numbers.states[&(open.to, close.from, close.from)],
                letter: close.letter,
                mark: numbers.marks[&(close.mark, begun, end)],
                to: numbers.states[&(begun, end, close.to)],
            })
            .collect()
    }
}

/// The call that trims: the answer, and scratch and output afterwards.
pub fn trim(table: &[u8], scratch: &[u16], out: &[u8]) -> (Answer, Vec<u16>, Vec<u8>) {
    let untouched = |number| (Answer::Refused(number), scratch.to_vec(), out.to_vec());
    let used = |number| {
        (
            Answer::Refused(number),
            cleared_scratch(scratch),
            out.to_vec(),
        )
    };
    let table = match parse(table) {
        Ok(table) => table,
        Err(number) => return untouched(number),
    };
    if scratch.len() < SCRATCH {
        return untouched(LENT);
    }
    let Some(smaller) = trimmed(&table) else {
        return used(TRIMMED);
    };
    let result = unparse(&smaller);
    if out.len() < result.len() {
        return used(OUTPUT);
    }
    (
        Answer::Written(result.len()),
        cleared_scratch(scratch),
        written_over(out, &result),
    )
}
