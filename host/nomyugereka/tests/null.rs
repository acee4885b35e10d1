//! Null pointers: C callers pass one for an empty slice, and every call takes it for that.

mod support;

use generate::special;
use naive::table::unparse;
use naive::SCRATCH;
use nomyugereka::{STATE_BYTES, TABLE_BYTES};
use std::ptr::{null, null_mut};
use support::exported::*;

const GOING: u64 = 1 << 32;
const ACCEPTED: u64 = 2 << 32;
const WRITTEN: u64 = 5 << 32;
const GOOD: u64 = 7 << 32;

/// A table that accepts the empty log.
fn table() -> Vec<u8> {
    unparse(&special::any_nesting())
}

#[test]
fn no_table() {
    let mut scratch = [3; SCRATCH];
    let mut out = [3; TABLE_BYTES];
    let mut state = [3; STATE_BYTES];
    let (mut balance, mut lowest) = (5, 6);
    let (s, o, w) = (scratch.as_mut_ptr(), out.as_mut_ptr(), state.as_mut_ptr());
    // SAFETY: what is not null is lent with its own length.
    let answers = unsafe {
        [
            nomyugereka_check(null(), 0),
            nomyugereka_write(null(), 0, o, TABLE_BYTES),
            nomyugereka_trim(null(), 0, s, SCRATCH, o, TABLE_BYTES),
            nomyugereka_shortest(null(), 0, s, SCRATCH, o, TABLE_BYTES),
            nomyugereka_begin(null(), 0, w, STATE_BYTES),
            nomyugereka_letter(null(), 0, w, STATE_BYTES, 0),
            nomyugereka_finish(null(), 0, w, STATE_BYTES),
            nomyugereka_read_log(null(), 0, [0].as_ptr(), 1, w, STATE_BYTES),
            nomyugereka_balance(null(), 0, [0].as_ptr(), 1, &mut balance, &mut lowest),
        ]
    };
    assert_eq!(answers, [1; 9]);
    assert_eq!(
        (scratch, out, state),
        ([3; SCRATCH], [3; TABLE_BYTES], [3; STATE_BYTES])
    );
    assert_eq!((balance, lowest), (5, 6));
}

#[test]
fn no_scratch_or_state() {
    let table = table();
    let (bytes, length) = (table.as_ptr(), table.len());
    let mut out = [3; TABLE_BYTES];
    let o = out.as_mut_ptr();
    // SAFETY: what is not null is lent with its own length.
    let answers = unsafe {
        [
            nomyugereka_trim(bytes, length, null_mut(), 0, o, TABLE_BYTES),
            nomyugereka_shortest(bytes, length, null_mut(), 0, o, TABLE_BYTES),
            nomyugereka_begin(bytes, length, null_mut(), 0),
            nomyugereka_letter(bytes, length, null_mut(), 0, 0),
            nomyugereka_finish(bytes, length, null_mut(), 0),
            nomyugereka_read_log(bytes, length, [0].as_ptr(), 1, null_mut(), 0),
        ]
    };
    assert_eq!(answers, [7; 6]);
    assert_eq!(out, [3; TABLE_BYTES]);
}

#[test]
fn no_output() {
    let table = table();
    let (bytes, length) = (table.as_ptr(), table.len());
    let mut scratch = [9; SCRATCH];
    let s = scratch.as_mut_ptr();
    // SAFETY: what is not null is lent with its own length.
    let answers = unsafe {
        [
            nomyugereka_write(bytes, length, null_mut(), 0),
            nomyugereka_trim(bytes, length, s, SCRATCH, null_mut(), 0),
            nomyugereka_shortest(bytes, length, s, SCRATCH, null_mut(), 0),
        ]
    };
    assert_eq!(answers, [9, 9, WRITTEN]);
    assert_eq!(scratch, [0; SCRATCH]);
}

#[test]
fn no_log() {
    let table = table();
    let (bytes, length) = (table.as_ptr(), table.len());
    let mut state = [9; STATE_BYTES];
    let (mut balance, mut lowest) = (5, 6);
    // SAFETY: what is not null is lent with its own length.
    let answers = unsafe {
        [
            nomyugereka_begin(bytes, length, state.as_mut_ptr(), STATE_BYTES),
            nomyugereka_read_log(bytes, length, null(), 0, state.as_mut_ptr(), STATE_BYTES),
            nomyugereka_balance(bytes, length, null(), 0, &mut balance, &mut lowest),
        ]
    };
    assert_eq!(answers, [GOING, ACCEPTED, GOOD]);
    assert_eq!(state, [0; STATE_BYTES]);
    assert_eq!((balance, lowest), (0, 0));
}
