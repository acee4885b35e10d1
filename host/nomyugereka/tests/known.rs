//! Cases whose answers were worked out beforehand, logs of the greatest length among them.

mod support;

use generate::special;
use naive::table::{parse, unparse, Kind};
use nomyugereka::{
    balance, begin, check, read_log, shortest, trim, Balance, Heard, Refusal, LOG_LETTERS, SCRATCH,
    STATE_BYTES, TABLE_BYTES,
};
use support::worked_table;

/// The table of the example, and what it trims to.
fn worked() -> (Vec<u8>, Vec<u8>) {
    let table = worked_table();
    let trimmed = [
        &[0, 25, 1, 3, 4, 1, 0, 3][..],
        &[0, 1, 2, 0],
        &[1, 2, 0],
        &[0, 1, 0, 2],
        &[2, 0, 0, 2],
        &[2, 2, 0, 1],
    ]
    .concat();
    (table, trimmed)
}

fn trimmed(table: &[u8]) -> Result<Vec<u8>, Refusal> {
    let mut out = vec![0; TABLE_BYTES];
    let length = trim(table, &mut vec![0; SCRATCH], &mut out)?;
    out.truncate(length);
    Ok(out)
}

fn whole(table: &[u8], log: &[u8]) -> Heard {
    read_log(table, log, &mut vec![0; STATE_BYTES])
}

#[test]
fn the_worked_table_and_its_trimmed_one() {
    let (table, expected) = worked();
    assert_eq!(trimmed(&table), Ok(expected.clone()));
    assert_eq!(trimmed(&expected), Ok(expected.clone()));
    for either in [&table, &expected] {
        assert_eq!(whole(either, &[1, 2]), Heard::Accepted);
        assert_eq!(whole(either, &[1, 0, 2]), Heard::Accepted);
        assert_eq!(whole(either, &[2]), Heard::Stop(0));
        assert_eq!(whole(either, &[]), Heard::Unfinished);
        let weighed = Balance {
            balance: 0,
            lowest: -1,
        };
        assert_eq!(balance(either, &[2, 1]), Ok(weighed));
        let mut out = [9; 3];
        assert_eq!(
            shortest(either, &mut vec![0; SCRATCH], &mut out),
            Ok(Some(2))
        );
        assert_eq!(out, [1, 2, 9]);
    }
    assert_eq!(whole(&table, &[1, 3]), Heard::Unfinished);
    assert_eq!(whole(&expected, &[1, 3]), Heard::Stop(1));
}

#[test]
fn small_and_bad_tables() {
    let empty = [0, 6, 1, 0, 0, 0, 0, 0];
    assert_eq!(check(&empty), Ok(()));
    assert_eq!(begin(&empty, &mut vec![0; STATE_BYTES]), Heard::Stop(0));
    assert_eq!(trimmed(&empty), Ok(empty.to_vec()));
    assert_eq!(check(&empty[..7]), Err(Refusal::Length));
    let mut many_states = vec![0, 71, 1, 65, 0, 0, 0, 0];
    many_states.resize(73, 0);
    assert_eq!(check(&many_states), Err(Refusal::Limit));
}

#[test]
fn states_that_are_all_joined() {
    let small = trimmed(&unparse(&special::all_joined(4, 1))).expect("it fits");
    let small = parse(&small).expect("a table");
    assert_eq!((small.flags.len(), small.moves.len()), (64, 256));
    let five = trimmed(&unparse(&special::all_joined(5, 1)));
    assert_eq!(five, Err(Refusal::Large));
    let one = unparse(&special::all_joined(1, 0));
    assert_eq!(shortest(&one, &mut vec![0; SCRATCH], &mut []), Ok(Some(0)));
}

#[test]
fn limits_of_trimmed_tables() {
    let fits = [
        special::all_joined(4, 4),
        special::row(64, 1),
        special::marked(&[(0, 32), (32, 64)]),
    ];
    for table in fits {
        assert!(trimmed(&unparse(&table)).is_ok());
    }
    let one_too_many = [
        special::all_joined(4, 5),
        special::row(33, 2),
        special::marked(&[(0, 32), (0, 33)]),
    ];
    for table in one_too_many {
        let answer = trimmed(&unparse(&table));
        assert_eq!(answer, Err(Refusal::Large));
    }
}

#[test]
fn the_reader_holds_32_opens() {
    let table = unparse(&special::any_nesting());
    let deepest = [[1; 32], [2; 32]].concat();
    assert_eq!(whole(&table, &deepest), Heard::Accepted);
    let deeper = [[1; 33], [2; 33]].concat();
    let heard = whole(&table, &deeper);
    assert_eq!(heard, Heard::Refused(Refusal::Depth));
}

#[test]
fn logs_of_the_greatest_length() {
    let table = special::any_nesting();
    let kinds = [Kind::Plain, Kind::Open, Kind::Close];
    assert_eq!(table.kinds, kinds);
    let table = unparse(&table);
    let most = LOG_LETTERS as i32;
    let weighed = |balance, lowest| Ok(Balance { balance, lowest });
    let mut log = vec![0; LOG_LETTERS];
    assert_eq!(whole(&table, &log), Heard::Accepted);
    assert_eq!(balance(&table, &log), weighed(0, 0));
    log.fill(1);
    assert_eq!(balance(&table, &log), weighed(most, 0));
    log.fill(2);
    assert_eq!(balance(&table, &log), weighed(-most, -most));
    log[LOG_LETTERS / 2..].fill(1);
    assert_eq!(balance(&table, &log), weighed(1, -(most / 2)));
    assert_eq!(whole(&table, &log), Heard::Stop(0));
    log.push(0);
    assert_eq!(balance(&table, &log), Err(Refusal::Letters));
    assert_eq!(whole(&table, &log), Heard::Refused(Refusal::Letters));
}
