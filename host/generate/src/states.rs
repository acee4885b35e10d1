//! Reader states: legal ones, damaged ones, and noise.

use crate::random::Random;
use naive::reader::{Block, State, LOG_LETTERS, MOST_DEPTH, STATE_BYTES};
use naive::table::{Kind, Table};

/// The bytes of a state, nothing behind them.
pub fn bytes_of(state: &State) -> Vec<u8> {
    state
        .to_words()
        .iter()
        .flat_map(|word| word.to_le_bytes())
        .collect()
}

/// The state after a log, as far as it is taken.
pub fn reached(table: &Table, log: &[u8]) -> State {
    let mut state = State::first(table);
    for &letter in log {
        state.take(table, letter);
    }
    state
}

/// A state that is legal for the table, but that no log need lead to.
pub fn legal(random: &mut Random, table: &Table) -> State {
    let open: Vec<u8> = (0..table.kinds.len() as u8)
        .filter(|&letter| table.kind(letter) == Some(Kind::Open))
        .collect();
    let depth = match open.is_empty() {
        true => 0,
        false => *random.pick(&[0, 1, 2, MOST_DEPTH - 1, MOST_DEPTH]),
    };
    let mut blocks = vec![random_block(random, table, 0)];
    for _ in 0..depth {
        let letter = *random.pick(&open);
        blocks.push(random_block(random, table, letter));
    }
    State {
        taken: *random.pick(&[0, 1, 77, LOG_LETTERS - 1, LOG_LETTERS]),
        stopped: random.percent(20),
        blocks,
    }
}

fn random_block(random: &mut Random, table: &Table, letter: u8) -> Block {
    let states = table.flags.len();
    let held = if states == 0 { 0 } else { random.below(5) };
    let pairs = (0..held)
        .map(|_| (random.below(states) as u8, random.below(states) as u8))
        .collect();
    Block { letter, pairs }
}

/// Changes a state's bytes: a bit anywhere, a leading word, a block's letter, or a word of the last
/// block.
pub fn damage(random: &mut Random, state: &mut [u8]) {
    let words = STATE_BYTES / 8;
    let place = match random.below(5) {
        0 => random.below(3),
        1 => 3 + 65 * random.below(MOST_DEPTH + 1),
        2 => 3 + 65 * random.below(3) + random.below(65),
        3 => words - 1 - random.below(65),
        _ => random.below(words),
    };
    let mut bytes = [0; 8];
    bytes.copy_from_slice(&state[8 * place..8 * place + 8]);
    let old = u64::from_le_bytes(bytes);
    let new = match random.below(4) {
        0 => old ^ 1 << random.below(64),
        1 => old.wrapping_add(*random.pick(&[1, u64::MAX])),
        2 => *random.pick(&[0, 1, 2, 32, 33, LOG_LETTERS, LOG_LETTERS + 1, 1 << 63]),
        _ => random.bits(),
    };
    state[8 * place..8 * place + 8].copy_from_slice(&new.to_le_bytes());
}

/// The bytes of a state of any sort, for a table or for another one.
pub fn any(random: &mut Random, table: &Table, log: &[u8]) -> Vec<u8> {
    let mut state = match random.below(10) {
        0 => vec![0; STATE_BYTES],
        1 => random.noise(STATE_BYTES),
        2..=5 => bytes_of(&legal(random, table)),
        _ => bytes_of(&reached(table, log)),
    };
    if random.percent(40) {
        damage(random, &mut state);
    }
    state
}
