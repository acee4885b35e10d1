//! Balanced pairs and live levels, as sets of pairs of states.

use crate::table::{Kind, Move, Table};
use std::collections::BTreeSet;

/// A relation between states. A level is a pair too: where it began, where it has to end.
pub type Pairs = BTreeSet<(u8, u8)>;

/// All second halves of pairs with this first half.
pub fn seconds(pairs: &Pairs, first: u8) -> impl Iterator<Item = u8> + '_ {
    pairs
        .range((first, 0)..=(first, u8::MAX))
        .map(|&(_, second)| second)
}

/// All pairs (p, r) for which some (p, q) is in the one relation and (q, r) in the other.
pub fn join(one: &Pairs, other: &Pairs) -> Pairs {
    one.iter()
        .flat_map(|&(p, q)| seconds(other, q).map(move |r| (p, r)))
        .collect()
}

/// Each open move with each close move that pops the mark it pushed.
pub fn matching(table: &Table) -> Vec<(Move, Move)> {
    table
        .moves_of(Kind::Open)
        .flat_map(|open| {
            table
                .moves_of(Kind::Close)
                .filter(move |close| close.mark == open.mark)
                .map(move |close| (*open, *close))
        })
        .collect()
}

/// The balanced pairs: the four rules, repeated until they give nothing new.
pub fn balanced(table: &Table) -> Pairs {
    let matching = matching(table);
    let mut pairs: Pairs = table.states().map(|state| (state, state)).collect();
    pairs.extend(
        table
            .moves_of(Kind::Plain)
            .map(|plain| (plain.from, plain.to)),
    );
    loop {
        let before = pairs.len();
        for (open, close) in &matching {
            if pairs.contains(&(open.to, close.from)) {
                pairs.insert((open.from, close.to));
            }
        }
        pairs.extend(join(&pairs, &pairs));
        if pairs.len() == before {
            return pairs;
        }
    }
}

/// The balanced pairs from an initial to a final state.
pub fn top_levels(table: &Table, balanced: &Pairs) -> Pairs {
    balanced
        .iter()
        .copied()
        .filter(|&(first, last)| table.initial(first) && table.accepting(last))
        .collect()
}

/// The levels that a level opens, each with the mark.
pub fn opened_by(
    level: (u8, u8),
    balanced: &Pairs,
    matching: &[(Move, Move)],
) -> BTreeSet<(u8, (u8, u8))> {
    let (begun, end) = level;
    matching
        .iter()
        .filter(|(open, close)| {
            balanced.contains(&(begun, open.from))
                && balanced.contains(&(open.to, close.from))
                && balanced.contains(&(close.to, end))
        })
        .map(|(open, close)| (open.mark, (open.to, close.from)))
        .collect()
}

/// The live levels: the top ones and what live ones open, until nothing new comes.
pub fn live_levels(table: &Table, balanced: &Pairs) -> Pairs {
    let matching = matching(table);
    let mut live = top_levels(table, balanced);
    let mut fresh = live.clone();
    while !fresh.is_empty() {
        let opened: Pairs = fresh
            .iter()
            .flat_map(|&level| opened_by(level, balanced, &matching))
            .map(|(_, level)| level)
            .collect();
        fresh = opened.difference(&live).copied().collect();
        live.extend(&fresh);
    }
    live
}
