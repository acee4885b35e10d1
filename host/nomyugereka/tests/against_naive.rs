//! All nine calls compared with the second implementation, answer and every lent byte, on random
//! and special tables, logs, states and lengths of what is lent.

mod support;

use generate::{logs, special, states, tables, Random};
use naive::reader::{accepts, STATE_BYTES};
use naive::table::{parse, unparse, Table, MOST_BYTES};
use naive::{Answer, SCRATCH};
use std::collections::{BTreeMap, BTreeSet};
use std::fmt::Debug;
use support::{ours, seed, worked_table, Hex};

/// How many random tables are tried; each takes part in some two dozen calls.
const TABLES: usize = 5_000;

/// The fewest calls that a whole run compares.
const LEAST_CASES: usize = 100_000;

/// What a log is at most, so that now and then one comes to the greatest depth.
const LOG: usize = 24;

/// What each call can answer, an answer's value left out.
const ANSWERS: [(&str, &[Answer], &[u8]); 9] = {
    use Answer::{Accepted, Going, Good, NoLog, Stop, Unfinished, Written};
    [
        ("check", &[Good], &[1, 2, 3, 4, 5, 6]),
        ("write", &[Written(0)], &[1, 2, 3, 4, 5, 6, 9]),
        ("trim", &[Written(0)], &[1, 2, 3, 4, 5, 6, 7, 8, 9]),
        (
            "shortest",
            &[Written(0), NoLog],
            &[1, 2, 3, 4, 5, 6, 7, 9, 10],
        ),
        ("begin", &[Going, Stop(0)], &[1, 2, 3, 4, 5, 6, 7]),
        (
            "letter",
            &[Going, Stop(0)],
            &[1, 2, 3, 4, 5, 6, 7, 11, 12, 13, 14],
        ),
        (
            "finish",
            &[Accepted, Unfinished, Stop(0)],
            &[1, 2, 3, 4, 5, 6, 7, 14],
        ),
        (
            "read_log",
            &[Accepted, Unfinished, Stop(0)],
            &[1, 2, 3, 4, 5, 6, 7, 11, 12, 13],
        ),
        ("balance", &[Good], &[1, 2, 3, 4, 5, 6, 11, 12]),
    ]
};

/// An answer without its value, to count it by.
fn bare(answer: Answer) -> Answer {
    match answer {
        Answer::Stop(_) => Answer::Stop(0),
        Answer::Written(_) => Answer::Written(0),
        other => other,
    }
}

/// The run of comparisons.
struct Comparison {
    random: Random,
    seed: u64,
    counts: BTreeMap<(&'static str, Answer), usize>,
}

/// The answer of a compared call and the lent memory after it.
trait Outcome: PartialEq + Debug {
    fn answer(&self) -> Answer;
}

impl Outcome for Answer {
    fn answer(&self) -> Answer {
        *self
    }
}

impl<M: PartialEq + Debug> Outcome for (Answer, M) {
    fn answer(&self) -> Answer {
        self.0
    }
}

impl<M: PartialEq + Debug, N: PartialEq + Debug> Outcome for (Answer, M, N) {
    fn answer(&self) -> Answer {
        self.0
    }
}

impl Comparison {
    fn new(seed: u64) -> Comparison {
        Comparison {
            random: Random::new(seed),
            seed,
            counts: BTreeMap::new(),
        }
    }

    /// Counts a case in which both sides gave the same, and fails with all that is known otherwise.
    fn same<O: Outcome>(&mut self, call: &'static str, given: &[&dyn Debug], ours: O, naive: O) {
        if ours != naive {
            let memory = if ours.answer() == naive.answer() {
                "lent memory differs"
            } else {
                ""
            };
            panic!(
                "seed {}: {call} answers {:?}, the second implementation {:?} {memory}\non {given:?}",
                self.seed,
                ours.answer(),
                naive.answer(),
            );
        }
        *self.counts.entry((call, bare(ours.answer()))).or_default() += 1;
    }

    /// A length to lend for a result of a known length: exact, one short, none, long enough.
    fn room(&mut self, needed: usize) -> usize {
        match self.random.below(10) {
            0..=2 => needed,
            3 => needed.saturating_sub(1),
            4 => 0,
            _ => needed + self.random.between(1, 300),
        }
    }

    /// Scratch full of noise, mostly enough of it.
    fn scratch(&mut self) -> Vec<u16> {
        let length = match self.random.below(12) {
            0 => 0,
            1 => SCRATCH - 1,
            2..=6 => SCRATCH,
            _ => SCRATCH + self.random.between(1, 100),
        };
        self.random.noise_numbers(length)
    }

    /// A state that holds what is given in front, mostly long enough for it.
    fn lent_state(&mut self, content: &[u8]) -> Vec<u8> {
        let mut state = content.to_vec();
        match self.random.below(16) {
            0 => state.clear(),
            1 => state.truncate(STATE_BYTES - 1),
            2..=6 => {
                let more = self.random.between(1, 100);
                state.extend(self.random.noise(more));
            }
            _ => {}
        }
        state
    }

    fn check_and_write(&mut self, table: &[u8]) {
        let (ours, naive) = (ours::check(table), naive::table::check(table));
        self.same("check", &[&Hex(table)], ours, naive);
        let room = self.room(table.len());
        let out = self.random.noise(room);
        let ours = ours::write(table, &out);
        let naive = naive::table::write(table, &out);
        self.same("write", &[&Hex(table), &room], ours, naive);
    }

    fn trim(&mut self, table: &[u8]) {
        let whole = ours::trim(table, &[0; SCRATCH], &[0; MOST_BYTES]).0;
        let room = self.room(length_of(whole));
        let out = self.random.noise(room);
        let scratch = self.scratch();
        let ours = ours::trim(table, &scratch, &out);
        let naive = naive::trim::trim(table, &scratch, &out);
        let given: [&dyn Debug; 3] = [&Hex(table), &scratch.len(), &room];
        self.same("trim", &given, ours, naive);
    }

    fn shortest(&mut self, table: &[u8]) {
        let whole = ours::shortest(table, &[0; SCRATCH], &[0; MOST_BYTES]).0;
        let room = self.room(length_of(whole));
        let out = self.random.noise(room);
        let scratch = self.scratch();
        let (answer, scratch_after, after) = ours::shortest(table, &scratch, &out);
        let naive = naive::shortest::shortest(table, &scratch, room);
        let given: [&dyn Debug; 3] = [&Hex(table), &scratch.len(), &room];
        self.same("shortest", &given, (answer, scratch_after), naive);
        let length = length_of(answer);
        assert_eq!(after[length..], out[length..], "shortest on {given:?}");
        if let (Answer::Written(_), Ok(good)) = (answer, parse(table)) {
            let log = &after[..length];
            assert!(accepts(&good, log), "shortest on {given:?}: {log:?}");
        }
    }

    fn begin(&mut self, table: &[u8]) -> Vec<u8> {
        let noise = self.random.noise(STATE_BYTES);
        let state = self.lent_state(&noise);
        let ours = ours::begin(table, &state);
        let after = ours.1.clone();
        let naive = naive::reader::begin(table, &state);
        self.same("begin", &[&Hex(table), &state.len()], ours, naive);
        after
    }

    fn letter(&mut self, table: &[u8], state: &[u8], letter: u8) -> Vec<u8> {
        let ours = ours::letter(table, state, letter);
        let after = ours.1.clone();
        let naive = naive::reader::letter(table, state, letter);
        self.same("letter", &[&Hex(table), &Hex(state), &letter], ours, naive);
        after
    }

    fn finish(&mut self, table: &[u8], state: &[u8]) {
        let ours = ours::finish(table, state);
        let naive = naive::reader::finish(table, state);
        self.same("finish", &[&Hex(table), &Hex(state)], ours, naive);
    }

    /// A log letter by letter, as a capture program does it.
    fn read(&mut self, table: &[u8], log: &[u8]) {
        let mut state = self.begin(table);
        for &letter in log {
            state = self.letter(table, &state, letter);
        }
        self.finish(table, &state);
    }

    /// A letter and a finish on a state of any sort.
    fn odd_state(&mut self, table: &[u8], meant_for: &Table, log: &[u8]) {
        let content = states::any(&mut self.random, meant_for, log);
        let state = self.lent_state(&content);
        let letter = logs::letter(&mut self.random, meant_for);
        self.finish(table, &state);
        let after = self.letter(table, &state, letter);
        self.finish(table, &after);
    }

    fn whole_log(&mut self, table: &[u8], log: &[u8]) {
        let noise = self.random.noise(STATE_BYTES);
        let state = self.lent_state(&noise);
        let ours = ours::read_log(table, log, &state);
        let naive = naive::log::read_log(table, log, &state);
        let given: [&dyn Debug; 3] = [&Hex(table), &Hex(log), &state.len()];
        self.same("read_log", &given, ours, naive);
        self.balance(table, log);
    }

    fn balance(&mut self, table: &[u8], log: &[u8]) {
        let outcome = |result: Result<naive::log::Balance, u8>| match result {
            Ok(weighed) => (Answer::Good, Some(weighed)),
            Err(number) => (Answer::Refused(number), None),
        };
        let ours = outcome(ours::balance(table, log));
        let naive = outcome(naive::log::balance(table, log));
        self.same("balance", &[&Hex(table), &Hex(log)], ours, naive);
    }

    /// Every call on a table that is good or not. Logs and states are made for the table given
    /// beside it.
    fn all_calls(&mut self, table: &[u8], meant_for: &Table) {
        self.check_and_write(table);
        self.trim(table);
        self.shortest(table);
        for _ in 0..3 {
            let log = logs::any(&mut self.random, meant_for, LOG);
            self.whole_log(table, &log);
        }
        let log = logs::any(&mut self.random, meant_for, LOG);
        self.read(table, &log);
        self.odd_state(table, meant_for, &log);
    }

    /// The trimmed table as a table of its own, read with logs and states of the original.
    fn trimmed_again(&mut self, table: &Table) {
        let mut out = [0; MOST_BYTES];
        let trimmed = nomyugereka::trim(&unparse(table), &mut [0; SCRATCH], &mut out);
        if let Ok(length) = trimmed {
            self.all_calls(&out[..length], table);
        }
    }
}

fn length_of(answer: Answer) -> usize {
    match answer {
        Answer::Written(length) => length,
        _ => 0,
    }
}

fn random_tables(run: &mut Comparison) {
    for _ in 0..TABLES {
        let table = tables::any(&mut run.random);
        match run.random.below(10) {
            0..=2 => {
                let damaged = tables::damaged(&mut run.random, &table);
                run.all_calls(&damaged, &table);
            }
            3..=4 => run.trimmed_again(&table),
            5 => {
                let other = tables::any(&mut run.random);
                run.all_calls(&unparse(&table), &other);
            }
            _ => run.all_calls(&unparse(&table), &table),
        }
    }
}

fn special_tables(run: &mut Comparison) {
    for table in special::all(&mut run.random) {
        run.all_calls(&unparse(&table), &table);
        run.trimmed_again(&table);
    }
}

/// Logs on which the reader comes to its greatest depth and past it.
fn deep_logs(run: &mut Comparison) {
    for table in [special::any_nesting(), special::nested(40)] {
        let bytes = unparse(&table);
        for depth in [31, 32, 33, 34] {
            let log = [vec![1; depth], vec![2; depth]].concat();
            run.read(&bytes, &log);
            run.whole_log(&bytes, &log);
        }
    }
}

/// A state with each of its words changed in turn, at the lowest and the greatest depth, on a table
/// with few states and on one with all there may be.
fn each_word_of_a_state(run: &mut Comparison) {
    for table in [special::any_nesting(), special::nested(64)] {
        let bytes = unparse(&table);
        for depth in [0, 32] {
            let state = states::bytes_of(&states::reached(&table, &vec![1; depth]));
            for word in 0..STATE_BYTES / 8 {
                let mut changed = state.clone();
                let byte = 8 * word + run.random.below(8);
                changed[byte] ^= 1 << run.random.below(8);
                run.finish(&bytes, &changed);
                run.letter(&bytes, &changed, 2);
            }
        }
    }
}

/// The worked table with each byte changed to each value; every call with some of these.
fn each_byte_of_a_table(run: &mut Comparison) {
    let table = worked_table();
    let meant = parse(&table).expect("the worked table is one");
    for place in 0..table.len() {
        for value in 0..=255 {
            let mut changed = table.clone();
            changed[place] = value;
            run.check_and_write(&changed);
            if value < 6 || value > 250 {
                run.all_calls(&changed, &meant);
            }
        }
    }
}

/// Logs one letter longer than any may be, on tables that would stop at once or go on.
fn overlong_logs(run: &mut Comparison) {
    let log = vec![0; 16_777_216];
    for table in [special::any_nesting(), special::without_states(3, 0)] {
        let bytes = unparse(&table);
        let state = run.random.noise(STATE_BYTES);
        let ours = ours::read_log(&bytes, &log, &state);
        assert_eq!(ours, (Answer::Refused(12), state));
        *run.counts.entry(("read_log", ours.0)).or_default() += 1;
        assert_eq!(ours::balance(&bytes, &log), Err(12));
        *run.counts
            .entry(("balance", Answer::Refused(12)))
            .or_default() += 1;
    }
}

/// A row for each answer, a column for each call.
fn print_counts(counts: &BTreeMap<(&'static str, Answer), usize>) {
    let answers: BTreeSet<Answer> = counts.keys().map(|&(_, answer)| answer).collect();
    let calls = ANSWERS.map(|(call, _, _)| format!("{call:>9}")).concat();
    println!("\n{:12}{calls}", "");
    for answer in answers {
        let count = |call| counts.get(&(call, answer)).copied().unwrap_or(0);
        let cells = ANSWERS.map(|(call, _, _)| format!("{:9}", count(call)));
        println!("{:12}{}", format!("{answer:?}"), cells.concat());
    }
}

#[test]
fn every_call_does_what_the_second_implementation_does() {
    let mut run = Comparison::new(seed());
    special_tables(&mut run);
    deep_logs(&mut run);
    overlong_logs(&mut run);
    each_word_of_a_state(&mut run);
    each_byte_of_a_table(&mut run);
    random_tables(&mut run);
    print_counts(&run.counts);
    let cases: usize = run.counts.values().sum();
    println!("{cases} calls compared");
    assert!(cases >= LEAST_CASES);
    for (call, kinds, numbers) in ANSWERS {
        let refusals = numbers.iter().map(|&number| Answer::Refused(number));
        let possible: Vec<Answer> = kinds.iter().copied().chain(refusals).collect();
        for answer in &possible {
            let count = run.counts.get(&(call, *answer)).copied().unwrap_or(0);
            assert!(
                count > 0,
                "seed {}: {call} never answered {answer:?}",
                run.seed
            );
        }
        let met = run.counts.keys().filter(|(counted, _)| *counted == call);
        assert!(met.into_iter().all(|(_, answer)| possible.contains(answer)));
    }
}
