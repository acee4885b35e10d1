//! The three demands on small tables: bad input of every sort, and runs that are enumerated one by
//! one.

mod support;

use generate::tables::{sized, with_dead_branches, Size};
use generate::{logs, special, Random};
use naive::nesting::{balanced, seconds, Pairs};
use naive::reader::LOG_LETTERS;
use naive::runs::{self, accepting, bare, deep_enough, extended, none_yet, reached, Place, Runs};
use naive::table::{parse, unparse, Kind, Table};
use naive::Answer;
use nomyugereka::{
    begin, finish, letter, read_log, shortest, trim, write, Heard, Refusal, SCRATCH, STATE_BYTES,
    TABLE_BYTES,
};
use std::collections::BTreeSet;
use support::{ours, seed, Hex};

/// How many small tables each demand is tried on.
const TABLES: usize = 400;

/// The most letters of the logs that are enumerated.
const LETTERS: usize = 6;

/// The answers of all nine calls, each on a table, scratch and a state of given lengths; whatever is
/// lent has to be as it was.
fn refused_by_all(table: &[u8], scratch: usize, state: usize) -> Vec<Answer> {
    let (scratch, out, state) = (vec![3; scratch], vec![4; TABLE_BYTES], vec![5; state]);
    let on_scratch = [
        ours::trim(table, &scratch, &out),
        ours::shortest(table, &scratch, &out),
    ];
    let on_state = [
        ours::begin(table, &state),
        ours::letter(table, &state, 0),
        ours::finish(table, &state),
        ours::read_log(table, &[0], &state),
    ];
    let mut answers = vec![ours::check(table)];
    let (written, bytes) = ours::write(table, &out);
    if written != Answer::Written(table.len()) {
        assert_eq!(bytes, out);
    }
    answers.push(written);
    for (answer, scratch_after, out_after) in on_scratch {
        assert_eq!((scratch_after, out_after), (scratch.clone(), out.clone()));
        answers.push(answer);
    }
    for (answer, state_after) in on_state {
        assert_eq!(state_after, state);
        answers.push(answer);
    }
    let weighed = ours::balance(table, &[0]);
    answers.push(weighed.map_or_else(Answer::Refused, |_| Answer::Good));
    answers
}

#[test]
fn bad_input_gets_one_number_and_leaves_what_is_lent() {
    let mut numbers = BTreeSet::new();
    for table in tiny_tables().iter().take(100) {
        let good = unparse(table);
        let mut bad: Vec<Vec<u8>> = (0..good.len()).map(|cut| good[..cut].to_vec()).collect();
        for place in 0..good.len() {
            for value in [0, 1, 5, 66, 255] {
                let mut changed = good.clone();
                changed[place] = value;
                bad.push(changed);
            }
        }
        for bytes in bad {
            if let Err(number) = parse(&bytes) {
                let answers = refused_by_all(&bytes, SCRATCH, STATE_BYTES);
                assert_eq!(answers, [Answer::Refused(number); 9], "{:?}", Hex(&bytes));
                numbers.insert(number);
            }
        }
        let short = refused_by_all(&good, SCRATCH - 1, STATE_BYTES - 1);
        assert_eq!(short[2..8], [Answer::Refused(7); 6], "{:?}", Hex(&good));
    }
    assert_eq!(numbers, (1..=6).collect());
}

/// A table so small that its runs can be enumerated.
fn tiny(random: &mut Random) -> Table {
    let states = random.between(1, 4);
    let size = Size {
        states,
        letters: 3,
        marks: if states < 4 { random.between(1, 2) } else { 1 },
        moves: random.between(2, 10),
    };
    sized(random, size)
}

fn tiny_tables() -> Vec<Table> {
    let mut random = Random::new(seed());
    (0..TABLES).map(|_| tiny(&mut random)).collect()
}

/// The trimmed table, if it is not too large.
fn trimmed(table: &Table) -> Option<Vec<u8>> {
    let mut out = vec![0; TABLE_BYTES];
    let length = trim(&unparse(table), &mut vec![0; SCRATCH], &mut out).ok()?;
    out.truncate(length);
    Some(out)
}

/// The length of a shortest accepted log, by looking at every place that can be reached. A shortest
/// accepting run is no deeper than `deep_enough` says, so no place past that depth is needed.
fn shortest_by_runs(table: &Table) -> Option<usize> {
    let initial: BTreeSet<Place> = none_yet(table).into_keys().collect();
    let ends = |place: &Place| place.stack.is_empty() && table.accepting(place.state);
    reached(table, initial, deep_enough(table))
        .iter()
        .position(|places| places.iter().any(ends))
}

/// Whether some letters, or none, lead from a place to a final state with the stack empty.
///
/// A run that does so pops the marks of the stack one by one, and between two of these pops it
/// joins the states of a balanced pair. So it is enough to follow the states that are possible
/// after each pop. The pairs are held to all runs in a test of their own, on the same tables.
fn can_be_finished(table: &Table, pairs: &Pairs, place: &Place) -> bool {
    let mut states = BTreeSet::from([place.state]);
    for &mark in place.stack.iter().rev() {
        let pops = table.moves_of(Kind::Close).filter(|pop| pop.mark == mark);
        states = pops
            .filter(|pop| {
                states
                    .iter()
                    .any(|&state| pairs.contains(&(state, pop.from)))
            })
            .map(|pop| pop.to)
            .collect();
    }
    states
        .iter()
        .flat_map(|&state| seconds(pairs, state))
        .any(|state| table.accepting(state))
}

/// A log as the enumeration comes to it: the runs of the original and of the trimmed table on it.
struct Prefix {
    log: Vec<u8>,
    runs: Runs,
    trimmed_runs: Runs,
}

/// An original with its balanced pairs, and its trimmed table with its bytes.
struct Twins {
    original: Table,
    pairs: Pairs,
    trimmed: Table,
    bytes: Vec<u8>,
}

impl Twins {
    /// None if the trimmed table is too large, which that of a tiny table never is.
    fn new(original: Table) -> Option<Twins> {
        let bytes = trimmed(&original)?;
        Some(Twins {
            pairs: balanced(&original),
            trimmed: parse(&bytes).expect("a trimmed table is a table"),
            original,
            bytes,
        })
    }

    fn tiny() -> impl Iterator<Item = Twins> {
        let twins = |table| Twins::new(table).expect("no tiny table trims to a large one");
        tiny_tables().into_iter().map(twins)
    }

    /// Whether an accepted log of the original begins with the log that these are the runs on.
    fn alive(&self, runs: &Runs) -> bool {
        runs.keys()
            .any(|place| can_be_finished(&self.original, &self.pairs, place))
    }

    /// What a reader on the trimmed table has to answer to a letter, given how many were taken
    /// before it and the runs of the original after it.
    fn due(&self, taken: usize, after: &Runs) -> Heard {
        if self.alive(after) {
            Heard::Going
        } else {
            Heard::Stop(taken)
        }
    }

    fn empty_prefix(&self) -> Prefix {
        Prefix {
            log: Vec::new(),
            runs: none_yet(&self.original),
            trimmed_runs: none_yet(&self.trimmed),
        }
    }

    fn longer(&self, prefix: &Prefix, letter: u8) -> Prefix {
        Prefix {
            log: [&prefix.log[..], &[letter]].concat(),
            runs: extended(&self.original, &prefix.runs, letter),
            trimmed_runs: extended(&self.trimmed, &prefix.trimmed_runs, letter),
        }
    }

    /// Looks at each log of at most `LETTERS` letters, a longer one after its prefixes.
    fn each_log(&self, look: &mut impl FnMut(&Prefix)) {
        let mut waiting = vec![self.empty_prefix()];
        while let Some(prefix) = waiting.pop() {
            look(&prefix);
            if prefix.log.len() < LETTERS {
                let letters = 0..self.original.kinds.len() as u8;
                waiting.extend(letters.map(|letter| self.longer(&prefix, letter)));
            }
        }
    }

    fn shown(&self, log: &[u8]) -> String {
        format!(
            "seed {}, log {log:?} on {:?}",
            seed(),
            Hex(&unparse(&self.original))
        )
    }
}

#[test]
fn balanced_pairs_are_what_runs_join() {
    for table in tiny_tables() {
        let pairs = balanced(&table);
        for from in table.states() {
            let places = reached(&table, BTreeSet::from([bare(from)]), deep_enough(&table));
            let ends: BTreeSet<u8> = places
                .iter()
                .flatten()
                .filter(|place| place.stack.is_empty())
                .map(|place| place.state)
                .collect();
            assert_eq!(ends, seconds(&pairs, from).collect());
        }
    }
}

#[test]
fn a_trimmed_table_accepts_the_same_logs_run_for_run() {
    let mut accepted_logs = 0;
    for twins in Twins::tiny() {
        let original = unparse(&twins.original);
        let mut state = vec![0; STATE_BYTES];
        twins.each_log(&mut |prefix| {
            let count = accepting(&twins.original, &prefix.runs);
            let shown = || twins.shown(&prefix.log);
            let after = accepting(&twins.trimmed, &prefix.trimmed_runs);
            assert_eq!(count, after, "{}", shown());
            for bytes in [&original, &twins.bytes] {
                let accepted = read_log(bytes, &prefix.log, &mut state) == Heard::Accepted;
                assert_eq!(accepted, count > 0, "{}", shown());
            }
            accepted_logs += usize::from(count > 0);
        });
    }
    println!("{accepted_logs} accepted logs");
    assert!(accepted_logs > TABLES);
}

#[test]
fn no_log_is_answered_exactly_where_there_is_none_and_a_shortest_log_is_shortest() {
    let (mut empty, mut found) = (0, 0);
    for table in tiny_tables() {
        let bytes = unparse(&table);
        let mut out = [0; TABLE_BYTES];
        let answer = shortest(&bytes, &mut vec![0; SCRATCH], &mut out);
        assert_eq!(answer, Ok(shortest_by_runs(&table)), "{:?}", Hex(&bytes));
        match answer {
            Ok(Some(length)) => {
                let runs = runs::on(&table, &out[..length]);
                assert!(accepting(&table, &runs) > 0, "{:?}", Hex(&bytes));
                found += 1;
            }
            _ => empty += 1,
        }
    }
    println!("{found} tables with a log, {empty} without");
    assert!(found > TABLES / 20 && empty > TABLES / 20);
}

#[test]
fn writing_a_table_back_gives_its_bytes() {
    let mut random = Random::new(seed());
    let mut tables = tiny_tables();
    tables.extend(special::all(&mut random));
    for table in tables {
        let bytes = unparse(&table);
        let mut out = vec![0; bytes.len()];
        assert_eq!(write(&bytes, &mut out), Ok(bytes.len()));
        assert_eq!(out, bytes);
    }
}

/// The answer to a letter that follows letters which are all taken.
fn hear(table: &[u8], taken: &[u8], last: u8) -> Heard {
    let mut state = vec![0; STATE_BYTES];
    let begun = begin(table, &mut state);
    assert_eq!(begun, Heard::Going);
    for &before in taken {
        assert_eq!(letter(table, &mut state, before), Heard::Going);
    }
    letter(table, &mut state, last)
}

#[test]
fn a_reader_on_a_trimmed_table_stops_exactly_where_no_accepted_log_begins_so() {
    let (mut stops, mut goes) = (0, 0);
    for twins in Twins::tiny() {
        let begun = begin(&twins.bytes, &mut vec![0; STATE_BYTES]);
        match shortest_by_runs(&twins.original) {
            Some(_) => assert_eq!(begun, Heard::Going),
            None => assert_eq!(begun, Heard::Stop(0)),
        }
        twins.each_log(&mut |prefix| {
            let Some((&last, taken)) = prefix.log.split_last() else {
                return;
            };
            if !twins.alive(&runs::on(&twins.original, taken)) {
                return;
            }
            let due = twins.due(taken.len(), &prefix.runs);
            let heard = hear(&twins.bytes, taken, last);
            assert_eq!(heard, due, "{}", twins.shown(&prefix.log));
            goes += usize::from(due == Heard::Going);
            stops += usize::from(due != Heard::Going);
        });
    }
    println!("{goes} letters taken, {stops} stops");
    assert!(goes > TABLES && stops > TABLES);
}

/// How many letters of a log are taken, each answer being the one that is due.
fn follow(twins: &Twins, log: &[u8]) -> usize {
    let mut state = vec![0; STATE_BYTES];
    let mut runs = none_yet(&twins.original);
    assert_eq!(begin(&twins.bytes, &mut state), twins.due(0, &runs));
    for (taken, &next) in log.iter().enumerate() {
        runs = extended(&twins.original, &runs, next);
        let due = twins.due(taken, &runs);
        let heard = letter(&twins.bytes, &mut state, next);
        assert_eq!(heard, due, "{}", twins.shown(log));
        if due != Heard::Going {
            return taken;
        }
    }
    log.len()
}

#[test]
fn a_reader_on_a_trimmed_table_stops_as_soon_as_a_log_wanders_into_a_dead_branch() {
    let mut random = Random::new(seed());
    let (mut wandered, mut letters) = (0, 0);
    for _ in 0..TABLES {
        let Some(twins) = Twins::new(with_dead_branches(&mut random)) else {
            continue;
        };
        for _ in 0..4 {
            let log = logs::of_a_run(&mut random, &twins.original, 12);
            let taken = follow(&twins, &log);
            letters += taken;
            wandered += usize::from(taken < log.len());
        }
    }
    println!("{wandered} logs of runs stopped, {letters} letters were taken");
    assert!(wandered > TABLES && letters > TABLES);
}

#[test]
fn a_refused_letter_is_not_taken() {
    let table = unparse(&special::any_nesting());
    let mut state = vec![0; STATE_BYTES];
    assert_eq!(begin(&table, &mut state), Heard::Going);
    for _ in 0..32 {
        assert_eq!(letter(&table, &mut state, 1), Heard::Going);
    }
    let deep = state.clone();
    assert_eq!(
        letter(&table, &mut state, 3),
        Heard::Refused(Refusal::Letter)
    );
    assert_eq!(
        letter(&table, &mut state, 1),
        Heard::Refused(Refusal::Depth)
    );
    assert_eq!(state, deep);
    state[..8].copy_from_slice(&LOG_LETTERS.to_le_bytes());
    let full = state.clone();
    for last in [0, 1, 2] {
        let heard = letter(&table, &mut state, last);
        assert_eq!(heard, Heard::Refused(Refusal::Letters));
    }
    assert_eq!(state, full);
    assert_eq!(finish(&table, &state), Heard::Unfinished);
}
