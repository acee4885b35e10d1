//! The bytes of a table, and what they mean.

use crate::answer::{Answer, COUNTS, FLAGS, FORMULA, MOVES, OUTPUT, SIZE, VERSION};
use crate::written_over;

/// The most states a table may have.
pub const MOST_STATES: usize = 64;
/// The most letters.
pub const MOST_LETTERS: usize = 32;
/// The most stack marks.
pub const MOST_MARKS: usize = 64;
/// The most moves.
pub const MOST_MOVES: usize = 1_024;
/// The size of the largest table in bytes.
pub const MOST_BYTES: usize = 4_200;

/// Bytes in front of the lists.
const HEAD: usize = 8;

/// What a letter does to the stack.
#[derive(Clone, Copy, Debug, PartialEq, Eq)]
pub enum Kind {
    /// Nothing.
    Plain,
    /// It pushes a mark.
    Open,
    /// It pops a mark.
    Close,
}

/// A move; the order is that of its four bytes.
#[derive(Clone, Copy, Debug, PartialEq, Eq, PartialOrd, Ord)]
pub struct Move {
    /// The state it leaves.
    pub from: u8,
    /// The letter it reads.
    pub letter: u8,
    /// The mark it pushes or pops; 0 in a plain move.
    pub mark: u8,
    /// The state it comes to.
    pub to: u8,
}

/// A table that was found good, or one that is being made.
#[derive(Clone, Debug, PartialEq, Eq)]
pub struct Table {
    /// The kind of each letter.
    pub kinds: Vec<Kind>,
    /// For each state 1 if it is initial, plus 2 if it is final.
    pub flags: Vec<u8>,
    /// The number of marks.
    pub marks: usize,
    /// The moves, rising.
    pub moves: Vec<Move>,
}

impl Table {
    /// The numbers of all states.
    pub fn states(&self) -> impl Iterator<Item = u8> {
        0..self.flags.len() as u8
    }

    /// Whether a state is initial.
    pub fn initial(&self, state: u8) -> bool {
        self.flags[usize::from(state)] & 1 != 0
    }

    /// Whether a state is final.
    pub fn accepting(&self, state: u8) -> bool {
        self.flags[usize::from(state)] & 2 != 0
    }

    /// The kind of a letter, if the table has the letter.
    pub fn kind(&self, letter: u8) -> Option<Kind> {
        self.kinds.get(usize::from(letter)).copied()
    }

    /// The moves by letters of one kind.
    pub fn moves_of(&self, kind: Kind) -> impl Iterator<Item = &Move> {
        self.moves
            .iter()
            .filter(move |step| self.kind(step.letter) == Some(kind))
    }

    /// The moves by one letter.
    pub fn moves_by(&self, letter: u8) -> impl Iterator<Item = &Move> {
        self.moves.iter().filter(move |step| step.letter == letter)
    }
}

/// The table that the bytes are, or the number of the first refusal that applies.
pub fn parse(bytes: &[u8]) -> Result<Table, u8> {
    if bytes.len() < HEAD || bytes.len() != big_endian(bytes, 0) + 2 {
        return Err(SIZE);
    }
    if bytes[2] != 1 {
        return Err(VERSION);
    }
    let [states, letters, marks] = [3, 4, 5].map(|place| usize::from(bytes[place]));
    let moves = big_endian(bytes, 6);
    if states > MOST_STATES || letters > MOST_LETTERS || marks > MOST_MARKS || moves > MOST_MOVES {
        return Err(COUNTS);
    }
    if big_endian(bytes, 0) != 6 + letters + states + 4 * moves {
        return Err(FORMULA);
    }
    let (kinds, rest) = bytes[HEAD..].split_at(letters);
    let (flags, rest) = rest.split_at(states);
    if flags.iter().any(|&flag| flag > 3) {
        return Err(FLAGS);
    }
    let table = Table {
        kinds: kinds
            .iter()
            .map(|&kind| kind_of(kind))
            .collect::<Result<_, _>>()?,
        flags: flags.to_vec(),
        marks,
        moves: rest.chunks(4).map(move_of).collect(),
    };
    if moves_are_good(&table) {
        Ok(table)
    } else {
        Err(MOVES)
    }
}

fn big_endian(bytes: &[u8], place: usize) -> usize {
    256 * usize::from(bytes[place]) + usize::from(bytes[place + 1])
}

fn kind_of(byte: u8) -> Result<Kind, u8> {
    match byte {
        0 => Ok(Kind::Plain),
        1 => Ok(Kind::Open),
        2 => Ok(Kind::Close),
        _ => Err(FLAGS),
    }
}

fn move_of(bytes: &[u8]) -> Move {
    Move {
        from: bytes[0],
        letter: bytes[1],
        mark: bytes[2],
        to: bytes[3],
    }
}

fn moves_are_good(table: &Table) -> bool {
    let in_range = |step: &Move| {
        let states_fit = [step.from, step.to]
            .iter()
            .all(|&state| usize::from(state) < table.flags.len());
        let mark_fits = match table.kind(step.letter) {
            None => false,
            Some(Kind::Plain) => step.mark == 0,
            Some(_) => usize::from(step.mark) < table.marks,
        };
        states_fit && mark_fits
    };
    table.moves.iter().all(in_range) && table.moves.windows(2).all(|two| two[0] < two[1])
}

/// The bytes of a table. The limits are not looked at, so that a table past them can be made too.
pub fn unparse(table: &Table) -> Vec<u8> {
    let length = 6 + table.kinds.len() + table.flags.len() + 4 * table.moves.len();
    let mut bytes = Vec::new();
    bytes.extend((length as u16).to_be_bytes());
    bytes.push(1);
    bytes.extend([table.flags.len(), table.kinds.len(), table.marks].map(|count| count as u8));
    bytes.extend((table.moves.len() as u16).to_be_bytes());
    bytes.extend(table.kinds.iter().map(|&kind| kind as u8));
    bytes.extend(&table.flags);
    for step in &table.moves {
        bytes.extend([step.from, step.letter, step.mark, step.to]);
    }
    bytes
}

/// The call that checks a table.
pub fn check(table: &[u8]) -> Answer {
    match parse(table) {
        Ok(_) => Answer::Good,
        Err(number) => Answer::Refused(number),
    }
}

/// The call that writes a table back: the answer, and the output afterwards.
pub fn write(table: &[u8], out: &[u8]) -> (Answer, Vec<u8>) {
    let refused = |number| (Answer::Refused(number), out.to_vec());
    match parse(table) {
        Err(number) => refused(number),
        Ok(good) => {
            let result = unparse(&good);
            if out.len() < result.len() {
                return refused(OUTPUT);
            }
            (Answer::Written(result.len()), written_over(out, &result))
        }
    }
}
