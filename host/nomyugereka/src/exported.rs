//! The functions that the static library exports. Each answers a kind times 2^32 plus a value.

extern "C" {
    pub fn nomyugereka_check(table: *const u8, table_len: usize) -> u64;
    pub fn nomyugereka_write(
        table: *const u8,
        table_len: usize,
        out: *mut u8,
        out_len: usize,
    ) -> u64;
    pub fn nomyugereka_trim(
        table: *const u8,
        table_len: usize,
        scratch: *mut u16,
        scratch_len: usize,
        out: *mut u8,
        out_len: usize,
    ) -> u64;
    pub fn nomyugereka_shortest(
        table: *const u8,
        table_len: usize,
        scratch: *mut u16,
        scratch_len: usize,
        out: *mut u8,
        out_len: usize,
    ) -> u64;
    pub fn nomyugereka_begin(
        table: *const u8,
        table_len: usize,
        state: *mut u8,
        state_len: usize,
    ) -> u64;
    pub fn nomyugereka_letter(
        table: *const u8,
        table_len: usize,
        state: *mut u8,
        state_len: usize,
        letter: u8,
    ) -> u64;
    pub fn nomyugereka_finish(
        table: *const u8,
        table_len: usize,
        state: *mut u8,
        state_len: usize,
    ) -> u64;
    pub fn nomyugereka_read_log(
        table: *const u8,
        table_len: usize,
        log: *const u8,
        log_len: usize,
        state: *mut u8,
        state_len: usize,
    ) -> u64;
    pub fn nomyugereka_balance(
        table: *const u8,
        table_len: usize,
        log: *const u8,
        log_len: usize,
        balance: *mut i32,
        lowest: *mut i32,
    ) -> u64;
}
