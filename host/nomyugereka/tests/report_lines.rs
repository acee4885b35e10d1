//! The report program on many tables, its output compared line by line with the second
//! implementation.

mod support;

use generate::{special, tables, Random};
use naive::nesting::{balanced, live_levels};
use naive::shortest::{least_length, SHOWN_LETTERS};
use naive::table::{parse, unparse, Table, MOST_BYTES};
use naive::trim::trimmed;
use std::collections::BTreeMap;
use std::io::{ErrorKind, Write};
use std::process::{Command, Stdio};
use support::{seed, worked_table, Hex};

const PROGRAM: &str = concat!(env!("CARGO_MANIFEST_DIR"), "/../../target/bin/report");

/// How many random tables the program is given.
const TABLES: usize = 4_000;

/// What the program prints for an input.
fn printed(input: &[u8]) -> Vec<u8> {
    let mut program = Command::new(PROGRAM)
        .stdin(Stdio::piped())
        .stdout(Stdio::piped())
        .spawn()
        .expect("the report program is at target/bin/report; `./run` makes it");
    let mut stdin = program.stdin.take().expect("the input is a pipe");
    match stdin.write_all(input) {
        // It need not read on once it knows that the input is too long.
        Err(error) if error.kind() != ErrorKind::BrokenPipe => panic!("no input: {error}"),
        _ => drop(stdin),
    }
    let output = program.wait_with_output().expect("the program ends");
    assert!(output.status.success(), "on {:?}", Hex(input));
    output.stdout
}

/// What it has to print.
fn expected(input: &[u8]) -> String {
    if input.len() > MOST_BYTES {
        return "refused 1\n".to_string();
    }
    match parse(input) {
        Err(number) => format!("refused {number}\n"),
        Ok(table) => lines(&table),
    }
}

fn lines(table: &Table) -> String {
    let pairs = balanced(table);
    let levels = live_levels(table, &pairs);
    let trimmed = match trimmed(table) {
        None => "refused 8".to_string(),
        Some(small) => counts(&small),
    };
    let shortest = match least_length(table) {
        None => "none".to_string(),
        Some(length) if length > SHOWN_LETTERS => "over 4096".to_string(),
        Some(length) => length.to_string(),
    };
    format!(
        "table {}\npairs {}\nlevels {}\ntrimmed {trimmed}\nshortest {shortest}\n",
        counts(table),
        pairs.len(),
        levels.len(),
    )
}

fn counts(table: &Table) -> String {
    format!(
        "{} {} {} {}",
        table.flags.len(),
        table.kinds.len(),
        table.marks,
        table.moves.len()
    )
}

/// The lines that are counted, to see that each was printed several times.
const WORDED: [&str; 9] = [
    "trimmed refused 8",
    "shortest none",
    "shortest over 4096",
    "refused 1",
    "refused 2",
    "refused 3",
    "refused 4",
    "refused 5",
    "refused 6",
];

#[derive(Default)]
struct Reports {
    worded: BTreeMap<&'static str, usize>,
}

impl Reports {
    fn compare(&mut self, input: &[u8]) {
        let expected = expected(input);
        assert_eq!(
            String::from_utf8_lossy(&printed(input)),
            expected,
            "seed {} on {:?}",
            seed(),
            Hex(input)
        );
        for worded in WORDED {
            if expected.lines().any(|line| line == worded) {
                *self.worded.entry(worded).or_default() += 1;
            }
        }
    }
}

#[test]
fn the_worked_table() {
    let worked = worked_table();
    let lines = "table 4 4 2 5\npairs 5\nlevels 2\ntrimmed 3 4 1 3\nshortest 2\n";
    assert_eq!(printed(&worked), lines.as_bytes());
}

#[test]
fn inputs_that_are_too_long_or_empty() {
    let largest = unparse(&special::full(&mut Random::new(seed())));
    assert_eq!(largest.len(), MOST_BYTES);
    let mut one_more = largest.clone();
    one_more.push(0);
    let mut counted = one_more.clone();
    counted[..2].copy_from_slice(&(MOST_BYTES as u16 - 1).to_be_bytes());
    let mut inputs = vec![one_more, counted, Vec::new()];
    inputs.extend([4_201, 5_000, 65_537, 70_000].map(|length| vec![0; length]));
    let mut says_so = vec![1; 5_000];
    says_so[..2].copy_from_slice(&4_998_u16.to_be_bytes());
    inputs.push(says_so);
    for input in inputs {
        assert_eq!(printed(&input), b"refused 1\n", "{} bytes", input.len());
    }
}

#[test]
fn random_and_special_tables() {
    let mut random = Random::new(seed());
    let mut reports = Reports::default();
    for table in special::all(&mut random) {
        reports.compare(&unparse(&table));
    }
    for _ in 0..TABLES {
        let table = tables::any(&mut random);
        if random.percent(30) {
            reports.compare(&tables::damaged(&mut random, &table));
        } else {
            reports.compare(&unparse(&table));
        }
    }
    println!("{:?}", reports.worded);
    for worded in WORDED {
        let count = reports.worded.get(worded).copied().unwrap_or(0);
        assert!(count >= 3, "`{worded}` was printed {count} times");
    }
}
