//! The calls in a thread with little stack, on tables that ask much of them, with the answers they
//! give elsewhere.

mod support;

use generate::{special, Random};
use naive::table::{unparse, Table};
use naive::{Answer, SCRATCH};
use nomyugereka::{STATE_BYTES, TABLE_BYTES};
use std::thread::Builder;
use support::{ours, seed};

const STACK: usize = 256 * 1024;

/// An answer with what was written.
type Shown = (Answer, Vec<u8>);

/// Every call on a table and a log.
fn all_calls(table: &[u8], log: &[u8]) -> Vec<Shown> {
    let scratch = vec![7; SCRATCH];
    let out = vec![7; TABLE_BYTES];
    let state = vec![7; STATE_BYTES];
    let trimmed = ours::trim(table, &scratch, &out);
    let shortest = ours::shortest(table, &scratch, &out);
    let mut shown = vec![
        (ours::check(table), Vec::new()),
        ours::write(table, &out),
        (trimmed.0, trimmed.2),
        (shortest.0, shortest.2),
        ours::read_log(table, log, &state),
        ours::begin(table, &state),
    ];
    for &letter in log {
        let (_, before) = shown.last().expect("begin was called");
        let heard = ours::letter(table, &before.clone(), letter);
        shown.push(heard);
    }
    let (_, last) = shown.last().expect("begin was called");
    let finished = ours::finish(table, &last.clone());
    shown.push(finished);
    let weighed = match ours::balance(table, log) {
        Ok(weighed) => (Answer::Good, format!("{weighed:?}").into_bytes()),
        Err(number) => (Answer::Refused(number), Vec::new()),
    };
    shown.push(weighed);
    shown
}

/// The same in a thread with little stack.
fn all_calls_on_a_small_stack(table: &[u8], log: &[u8]) -> Vec<Shown> {
    let (table, log) = (table.to_vec(), log.to_vec());
    Builder::new()
        .stack_size(STACK)
        .spawn(move || all_calls(&table, &log))
        .expect("a thread with a small stack")
        .join()
        .expect("the calls return")
}

/// The worst tables, with a log each that is deep or long.
fn worst() -> Vec<(Table, Vec<u8>)> {
    let mut random = Random::new(seed());
    let deepest = [vec![1; 32], vec![0], vec![2; 32]].concat();
    vec![
        (special::full(&mut random), vec![0, 1, 2, 3]),
        (special::broad_row(), vec![3; 63]),
        (special::many_marks(), [vec![1; 32], vec![9; 32]].concat()),
        (special::all_joined(4, 4), vec![2; 100]),
        (special::all_joined(32, 1), vec![0; 20]),
        (special::crossed(64), deepest.clone()),
        (special::doubling(10, 4), vec![1, 2, 1, 2]),
        (special::doubling(10, 5), vec![1; 10]),
        (special::two_rings(31, 33), deepest.clone()),
        (special::nested(64), deepest.clone()),
        (special::any_nesting(), deepest),
    ]
}

#[test]
fn a_small_stack_suffices_for_every_call() {
    for (table, log) in worst() {
        let bytes = unparse(&table);
        let elsewhere = all_calls(&bytes, &log);
        assert_eq!(elsewhere[0].0, Answer::Good);
        assert!(all_calls_on_a_small_stack(&bytes, &log) == elsewhere);
    }
}

#[test]
fn the_worst_tables_are_as_bad_as_they_are_meant_to_be() {
    let answers = |table: &Table| {
        let shown = all_calls_on_a_small_stack(&unparse(table), &[]);
        (shown[2].0, shown[3].0)
    };
    let length = |lists: usize, moves: usize| Answer::Written(8 + lists + 4 * moves);
    let trimmed_row = answers(&special::broad_row());
    assert_eq!(trimmed_row, (length(32 + 64, 1_024), Answer::Written(63)));
    let trimmed_marks = answers(&special::many_marks());
    assert_eq!(trimmed_marks, (length(16 + 1, 1_024), Answer::Written(0)));
    assert_eq!(answers(&special::doubling(10, 4)).1, Answer::Written(4_096));
    assert_eq!(answers(&special::doubling(10, 5)).1, Answer::Refused(10));
    let deep = 31 * 32;
    assert_eq!(
        answers(&special::two_rings(31, 33)).1,
        Answer::Written(2 * deep + 1)
    );
}
