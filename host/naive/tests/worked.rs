//! The second implementation on the tables whose results are known beforehand.

use naive::log::{balance, read_log, Balance};
use naive::nesting::{balanced, live_levels};
use naive::reader::{begin, letter, STATE_BYTES};
use naive::shortest::least_length;
use naive::table::{check, parse, unparse, Table};
use naive::trim::trimmed;
use naive::Answer;

const WORKED: &str = "00220104040200050001020001000200000100010001010301000001010200020303\
                      0003";
const WORKED_TRIMMED: &str = "001901030401000300010200010200000100020200000202020001";

/// Two levels that push the same marks, so that the order of trimmed marks shows.
const TWO_LEVELS: &str =
    "002a010202020008010203030000000000000100000100000001010001000001010001010101\
                          000101010101";
const TWO_LEVELS_TRIMMED: &str =
    "002a010202040008010203030000000000000200000100000001020001000101010003010101\
                                  010101010301";

fn bytes(hex: &str) -> Vec<u8> {
    (0..hex.len())
        .step_by(2)
        .map(|place| u8::from_str_radix(&hex[place..place + 2], 16).expect("two hex digits"))
        .collect()
}

fn table(hex: &str) -> Table {
    parse(&bytes(hex)).expect("a good table")
}

fn heard(hex: &str, log: &[u8]) -> Answer {
    read_log(&bytes(hex), log, &[0; STATE_BYTES]).0
}

#[test]
fn pairs_and_levels_of_the_worked_table() {
    let worked = table(WORKED);
    let pairs = balanced(&worked);
    assert_eq!(pairs, [(0, 0), (0, 2), (1, 1), (2, 2), (3, 3)].into());
    assert_eq!(live_levels(&worked, &pairs), [(0, 2), (1, 1)].into());
    assert_eq!(least_length(&worked), Some(2));
}

#[test]
fn known_tables_trim_to_known_tables() {
    for (before, after) in [
        (WORKED, WORKED_TRIMMED),
        (TWO_LEVELS, TWO_LEVELS_TRIMMED),
        (WORKED_TRIMMED, WORKED_TRIMMED),
    ] {
        let small = trimmed(&table(before)).expect("it fits a table");
        assert_eq!(unparse(&small), bytes(after));
    }
}

#[test]
fn logs_on_the_worked_table_and_its_trimmed_one() {
    for either in [WORKED, WORKED_TRIMMED] {
        assert_eq!(heard(either, &[1, 2]), Answer::Accepted);
        assert_eq!(heard(either, &[1, 0, 2]), Answer::Accepted);
        assert_eq!(heard(either, &[2]), Answer::Stop(0));
        assert_eq!(heard(either, &[]), Answer::Unfinished);
        let weighed = Balance {
            balance: 0,
            lowest: -1,
        };
        assert_eq!(balance(&bytes(either), &[2, 1]), Ok(weighed));
    }
    assert_eq!(heard(WORKED, &[1, 3]), Answer::Unfinished);
    assert_eq!(heard(WORKED_TRIMMED, &[1, 3]), Answer::Stop(1));
}

#[test]
fn a_reader_is_stopped_at_once_on_the_empty_table() {
    let empty = bytes("0006010000000000");
    assert_eq!(check(&empty), Answer::Good);
    assert_eq!(begin(&empty, &[7; STATE_BYTES]).0, Answer::Stop(0));
    assert_eq!(check(&empty[..7]), Answer::Refused(1));
    let mut many_states = bytes("0047014100000000");
    many_states.resize(2 + 0x47, 0);
    assert_eq!(check(&many_states), Answer::Refused(3));
}

#[test]
fn the_open_after_32_nested_ones_is_too_deep() {
    let nesting = bytes("00110101020100020102030000000000010000");
    let mut state = begin(&nesting, &[7; STATE_BYTES]).1;
    for _ in 0..32 {
        let (answer, next) = letter(&nesting, &state, 0);
        assert_eq!(answer, Answer::Going);
        state = next;
    }
    assert_eq!(letter(&nesting, &state, 0), (Answer::Refused(13), state));
}
