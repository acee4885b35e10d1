//! The only unsafe code: each slice goes over as its pointer and its length, and the functions stay
//! within what they are lent.

use crate::exported::*;

pub fn check(table: &[u8]) -> u64 {
    // SAFETY: the slice is readable for its length.
    unsafe { nomyugereka_check(table.as_ptr(), table.len()) }
}

pub fn write(table: &[u8], out: &mut [u8]) -> u64 {
    // SAFETY: both slices are valid for their lengths, and `out` is lent to no one else.
    unsafe { nomyugereka_write(table.as_ptr(), table.len(), out.as_mut_ptr(), out.len()) }
}

pub fn trim(table: &[u8], scratch: &mut [u16], out: &mut [u8]) -> u64 {
    // SAFETY: the slices are valid for their lengths; `scratch` and `out` are lent to no one else.
    unsafe {
        nomyugereka_trim(
            table.as_ptr(),
            table.len(),
            scratch.as_mut_ptr(),
            scratch.len(),
            out.as_mut_ptr(),
            out.len(),
        )
    }
}

pub fn shortest(table: &[u8], scratch: &mut [u16], out: &mut [u8]) -> u64 {
    // SAFETY: the slices are valid for their lengths; `scratch` and `out` are lent to no one else.
    unsafe {
        nomyugereka_shortest(
            table.as_ptr(),
            table.len(),
            scratch.as_mut_ptr(),
            scratch.len(),
            out.as_mut_ptr(),
            out.len(),
        )
    }
}

pub fn begin(table: &[u8], state: &mut [u8]) -> u64 {
    // SAFETY: both slices are valid for their lengths, and `state` is lent to no one else.
    unsafe { nomyugereka_begin(table.as_ptr(), table.len(), state.as_mut_ptr(), state.len()) }
}

pub fn letter(table: &[u8], state: &mut [u8], letter: u8) -> u64 {
    // SAFETY: both slices are valid for their lengths, and `state` is lent to no one else.
    unsafe {
        nomyugereka_letter(
            table.as_ptr(),
            table.len(),
            state.as_mut_ptr(),
            state.len(),
            letter,
        )
    }
}

pub fn finish(table: &[u8], state: &[u8]) -> u64 {
    let only_read = state.as_ptr().cast_mut();
    // SAFETY: both slices are readable for their lengths, and the function writes to neither.
    unsafe { nomyugereka_finish(table.as_ptr(), table.len(), only_read, state.len()) }
}

pub fn read_log(table: &[u8], log: &[u8], state: &mut [u8]) -> u64 {
    // SAFETY: the slices are valid for their lengths, and `state` is lent to no one else.
    unsafe {
        nomyugereka_read_log(
            table.as_ptr(),
            table.len(),
            log.as_ptr(),
            log.len(),
            state.as_mut_ptr(),
            state.len(),
        )
    }
}

pub fn balance(table: &[u8], log: &[u8], balance: &mut i32, lowest: &mut i32) -> u64 {
    // SAFETY: the slices are valid for their lengths, and the two numbers are lent to no one else.
    unsafe {
        nomyugereka_balance(
            table.as_ptr(),
            table.len(),
            log.as_ptr(),
            log.len(),
            balance,
            lowest,
        )
    }
}
