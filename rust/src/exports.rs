//! The static library's functions, as `include/staplethread.h` declares them. Nothing checks these
//! declarations against the library.

extern "C" {
    pub fn staplethread_build(
        card: *const u8,
        card_length: usize,
        table: *mut u8,
        table_length: usize,
        gates: &mut u16,
        products: &mut u16,
        squares: &mut u16,
        cost: &mut u32,
        depth: &mut u16,
    ) -> u8;
    pub fn staplethread_build_within(
        card: *const u8,
        card_length: usize,
        cap: u16,
        first: *mut u8,
        first_length: usize,
        second: *mut u8,
        second_length: usize,
        which: &mut u8,
        part_length: &mut usize,
        gates: &mut u16,
        products: &mut u16,
        squares: &mut u16,
        cost: &mut u32,
        depth: &mut u16,
    ) -> u8;
    pub fn staplethread_begin(
        state: &mut [u16; 24],
        p: u8,
        s: u8,
        table: *mut u8,
        table_length: usize,
    ) -> u8;
    pub fn staplethread_add(
        state: &mut [u16; 24],
        bytes: *const u8,
        bytes_length: usize,
        table: *mut u8,
        table_length: usize,
    ) -> u8;
    pub fn staplethread_finish(
        state: &mut [u16; 24],
        table: *mut u8,
        table_length: usize,
        gates: &mut u16,
        products: &mut u16,
        squares: &mut u16,
        cost: &mut u32,
        depth: &mut u16,
    ) -> u8;
    pub fn staplethread_forecast(
        card: *const u8,
        card_length: usize,
        gates: &mut u16,
        products: &mut u16,
        squares: &mut u16,
        cost: &mut u32,
        depth: &mut u16,
    ) -> u8;
    pub fn staplethread_check(
        table: *const u8,
        table_length: usize,
        gates: &mut u16,
        products: &mut u16,
        squares: &mut u16,
        cost: &mut u32,
        depth: &mut u16,
    ) -> u8;
    pub fn staplethread_trim(table: *const u8, table_length: usize) -> usize;
    pub fn staplethread_run(
        table: *const u8,
        table_length: usize,
        left: *const u8,
        left_length: usize,
        right: *const u8,
        right_length: usize,
        work: *mut u8,
        work_length: usize,
        output: &mut u8,
    ) -> u8;
    pub fn staplethread_last_uses(
        table: *const u8,
        table_length: usize,
        list: *mut u16,
        list_length: usize,
        gates: &mut u16,
    ) -> u8;
    pub fn staplethread_encode(p: u8, n: usize, number: u64, out: *mut u8, out_length: usize)
        -> u8;
    pub fn staplethread_decode(
        p: u8,
        digits: *const u8,
        digits_length: usize,
        number: &mut u64,
    ) -> u8;
}
