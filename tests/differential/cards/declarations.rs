//! The calls on cards that the archive exports, as include/lumod.h declares them.

#[rustfmt::skip]
extern "C" {
    pub fn lumod_card_length(n: usize, bytes: *mut usize) -> u32;
    pub fn lumod_write_card(
        n: usize, c: usize, counter: usize, l: *const f64, l_len: usize, u: *const f64,
        u_len: usize, card: *mut u8, card_len: usize, written: *mut usize,
    ) -> u32;
    pub fn lumod_read_card(
        n: *mut usize, c: usize, counter: *mut usize, l: *mut f64, l_len: usize, u: *mut f64,
        u_len: usize, card: *const u8, card_len: usize, block: *mut usize,
    ) -> u32;
}
