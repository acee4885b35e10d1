//! The reader: a stack of sets of pairs, kept in words that are lent as bytes.

use crate::answer::{Answer, DEPTH, LENT, LETTER, LOG, STATE};
use crate::nesting::{join, Pairs};
use crate::table::{parse, Kind, Move, Table};

/// The most letters of a log.
pub const LOG_LETTERS: u64 = 16_777_215;
/// The most opens that are open at a time.
pub const MOST_DEPTH: usize = 32;
/// The words of a state.
pub const WORDS: usize = 2_148;
/// The bytes that these words are lent as, the lowest byte of a word first.
pub const STATE_BYTES: usize = 8 * WORDS;

/// Words in front of the blocks: letters taken, depth, whether it stopped.
const LEADING: usize = 3;
/// Words of a block: its open letter, then a word for each first half of a pair.
const BLOCK: usize = 65;

/// What is known since an open letter that is not closed yet, or since the log's begin.
#[derive(Clone, Debug, Default, PartialEq, Eq)]
pub struct Block {
    /// The open letter; 0 in the lowest block.
    pub letter: u8,
    /// Where the block can have begun, and where it can be now.
    pub pairs: Pairs,
}

/// What the words of a state mean.
#[derive(Clone, Debug, PartialEq, Eq)]
pub struct State {
    /// Letters taken.
    pub taken: u64,
    /// Whether it stopped.
    pub stopped: bool,
    /// The blocks, the lowest first; there is always one.
    pub blocks: Vec<Block>,
}

/// What a letter makes of a stack of blocks.
struct Step {
    /// How many of the lowest blocks stay.
    kept: usize,
    /// The block that comes on top of them.
    new: Block,
}

impl Step {
    fn apply(self, blocks: &mut Vec<Block>) {
        blocks.truncate(self.kept);
        blocks.push(self.new);
    }
}

impl State {
    /// The state before any letter.
    pub fn first(table: &Table) -> State {
        let initial = table.states().filter(|&state| table.initial(state));
        let pairs: Pairs = initial.map(|state| (state, state)).collect();
        State {
            taken: 0,
            stopped: pairs.is_empty(),
            blocks: vec![Block { letter: 0, pairs }],
        }
    }

    /// The state that the words hold, if they hold one for this table.
    pub fn from_words(table: &Table, words: &[u64]) -> Option<State> {
        let [taken, depth, stopped] = [words[0], words[1], words[2]];
        if taken > LOG_LETTERS || depth > MOST_DEPTH as u64 || stopped > 1 {
            return None;
        }
        let (held, above) = words[LEADING..].split_at(BLOCK * (depth as usize + 1));
        if above.iter().any(|&word| word != 0) {
            return None;
        }
        let blocks: Vec<Block> = held
            .chunks(BLOCK)
            .map(block_from_words)
            .collect::<Option<_>>()?;
        let lowest_is_good = blocks[0].letter == 0;
        let letters_are_open = blocks[1..]
            .iter()
            .all(|block| table.kind(block.letter) == Some(Kind::Open));
        let pairs_are_known = blocks
            .iter()
            .flat_map(|block| &block.pairs)
            .all(|&(p, q)| usize::from(p.max(q)) < table.flags.len());
        (lowest_is_good && letters_are_open && pairs_are_known).then_some(State {
            taken,
            stopped: stopped == 1,
            blocks,
        })
    }

    /// The words that hold this state.
    pub fn to_words(&self) -> Vec<u64> {
        let depth = self.blocks.len() as u64 - 1;
        let mut words = vec![self.taken, depth, u64::from(self.stopped)];
        for block in &self.blocks {
            words.push(u64::from(block.letter));
            for first in 0..64 {
                let seconds = block.pairs.iter().filter(|pair| pair.0 == first);
                words.push(seconds.map(|&(_, second)| 1 << second).sum());
            }
        }
        words.resize(WORDS, 0);
        words
    }

    /// Takes a letter: the answer; the state changes only if it goes on or stops here.
    pub fn take(&mut self, table: &Table, letter: u8) -> Answer {
        if self.stopped {
            return Answer::Stop(self.taken);
        }
        let Some(kind) = table.kind(letter) else {
            return Answer::Refused(LETTER);
        };
        if self.taken == LOG_LETTERS {
            return Answer::Refused(LOG);
        }
        if kind == Kind::Open && self.blocks.len() > MOST_DEPTH {
            return Answer::Refused(DEPTH);
        }
        match step(table, &self.blocks, kind, letter) {
            Some(step) => {
                step.apply(&mut self.blocks);
                self.taken += 1;
                Answer::Going
            }
            None => {
                self.stopped = true;
                Answer::Stop(self.taken)
            }
        }
    }

    /// What the state says of the log if no letter follows.
    pub fn end(&self, table: &Table) -> Answer {
        if self.stopped {
            Answer::Stop(self.taken)
        } else if self.blocks.len() == 1 && finished(table, &self.blocks[0]) {
            Answer::Accepted
        } else {
            Answer::Unfinished
        }
    }
}

fn block_from_words(words: &[u64]) -> Option<Block> {
    let letter = u8::try_from(words[0]).ok()?;
    let row = |(first, &word): (u8, &u64)| {
        (0..64)
            .filter(move |second| word >> second & 1 == 1)
            .map(move |second| (first, second))
    };
    let pairs = (0..).zip(&words[1..]).flat_map(row).collect();
    Some(Block { letter, pairs })
}

fn finished(table: &Table, block: &Block) -> bool {
    block
        .pairs
        .iter()
        .any(|&(first, now)| table.initial(first) && table.accepting(now))
}

/// What a letter makes of the blocks, or none if it stops the reader. No depth is too great here.
fn step(table: &Table, blocks: &[Block], kind: Kind, letter: u8) -> Option<Step> {
    let (top, below) = blocks.split_last()?;
    let (kept, new) = match kind {
        Kind::Plain => {
            let moves: Pairs = table.moves_by(letter).map(|m| (m.from, m.to)).collect();
            let pairs = join(&top.pairs, &moves);
            (below.len(), block(top.letter, pairs))
        }
        Kind::Open => (blocks.len(), block(letter, opened(table, top, letter))),
        Kind::Close => {
            let under = below.last()?;
            let pairs = join(&under.pairs, &closed(table, top, letter));
            (below.len() - 1, block(under.letter, pairs))
        }
    };
    (!new.pairs.is_empty()).then_some(Step { kept, new })
}

fn block(letter: u8, pairs: Pairs) -> Block {
    Block { letter, pairs }
}

/// The pairs of a block that an open letter begins above this one.
fn opened(table: &Table, top: &Block, letter: u8) -> Pairs {
    let stands = |state| top.pairs.iter().any(|&(_, now)| now == state);
    table
        .moves_by(letter)
        .filter(|open| stands(open.from))
        .map(|open| (open.to, open.to))
        .collect()
}

/// From where the block was opened to where it is closed, the marks being equal.
fn closed(table: &Table, top: &Block, letter: u8) -> Pairs {
    let ends = |open: &Move| {
        let (from, to, mark) = (open.from, open.to, open.mark);
        table
            .moves_by(letter)
            .filter(move |close| close.mark == mark && top.pairs.contains(&(to, close.from)))
            .map(move |close| (from, close.to))
    };
    table.moves_by(top.letter).flat_map(ends).collect()
}

/// Whether the table accepts a log of known letters, however deep or long it is.
pub fn accepts(table: &Table, log: &[u8]) -> bool {
    let mut blocks = State::first(table).blocks;
    for &letter in log {
        let step = table
            .kind(letter)
            .and_then(|kind| step(table, &blocks, kind, letter));
        match step {
            Some(step) => step.apply(&mut blocks),
            None => return false,
        }
    }
    blocks.len() == 1 && finished(table, &blocks[0])
}

/// The words of the lent bytes, lowest byte first; bytes past them are not looked at.
fn words_of(state: &[u8]) -> Vec<u64> {
    let word = |bytes: &[u8]| {
        bytes
            .iter()
            .rev()
            .fold(0, |sum, &byte| 256 * sum + u64::from(byte))
    };
    state[..STATE_BYTES].chunks(8).map(word).collect()
}

/// The lent bytes with these words in front.
pub fn with_words(state: &[u8], words: &[u64]) -> Vec<u8> {
    let mut after: Vec<u8> = words.iter().flat_map(|word| word.to_le_bytes()).collect();
    after.extend(&state[STATE_BYTES..]);
    after
}

/// The checks that all reader calls share: the table, then the size of the state.
pub fn checked(table: &[u8], state: &[u8]) -> Result<Table, u8> {
    let table = parse(table)?;
    if state.len() < STATE_BYTES {
        return Err(LENT);
    }
    Ok(table)
}

/// The table and the state, both found good.
fn checked_state(table: &[u8], state: &[u8]) -> Result<(Table, State), u8> {
    let table = checked(table, state)?;
    let held = State::from_words(&table, &words_of(state)).ok_or(STATE)?;
    Ok((table, held))
}

/// The call that begins: the answer, and the state's bytes afterwards.
pub fn begin(table: &[u8], state: &[u8]) -> (Answer, Vec<u8>) {
    match checked(table, state) {
        Err(number) => (Answer::Refused(number), state.to_vec()),
        Ok(table) => {
            let first = State::first(&table);
            let answer = if first.stopped {
                Answer::Stop(0)
            } else {
                Answer::Going
            };
            (answer, with_words(state, &first.to_words()))
        }
    }
}

/// The call that takes a letter: the answer, and the state's bytes afterwards.
pub fn letter(table: &[u8], state: &[u8], letter: u8) -> (Answer, Vec<u8>) {
    match checked_state(table, state) {
        Err(number) => (Answer::Refused(number), state.to_vec()),
        Ok((table, mut held)) => {
            let answer = held.take(&table, letter);
            (answer, with_words(state, &held.to_words()))
        }
    }
}

/// The call that finishes: the answer, and the state's bytes afterwards.
pub fn finish(table: &[u8], state: &[u8]) -> (Answer, Vec<u8>) {
    let answer = match checked_state(table, state) {
        Err(number) => Answer::Refused(number),
        Ok((table, held)) => held.end(&table),
    };
    (answer, state.to_vec())
}
