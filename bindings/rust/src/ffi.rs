//! The declarations of `include/parity.h`. A slice is a pointer and then its length.
//!
//! ```
//! let (words, mut values) = ([0u64; parity::WORDS], [0; parity::VALUES_MOST]);
//! // The pointers and lengths are those of live slices.
//! let number = unsafe {
//!     parity::ffi::parity_rank(words.as_ptr(), words.len(), 7, 0, 0, values.as_mut_ptr(), values.len())
//! };
//! assert_eq!((number, values[0]), (0, 0));
//! ```

#![allow(clippy::too_many_arguments)]

#[rustfmt::skip]
unsafe extern "C" {
    pub fn parity_load(
        record: *const u32, record_len: usize,
        words: *mut u64, words_len: usize,
        values: *mut u64, values_len: usize,
    ) -> u32;

    pub fn parity_write(
        words: *const u64, words_len: usize,
        n: usize, m: usize, k: usize,
        record: *mut u32, record_len: usize,
        values: *mut u64, values_len: usize,
    ) -> u32;

    pub fn parity_share(
        words: *const u64, words_len: usize,
        n: usize, m: usize, k: usize,
        u: usize, v: usize,
        values: *mut u64, values_len: usize,
    ) -> u32;

    pub fn parity_count(
        words: *const u64, words_len: usize,
        n: usize, m: usize, k: usize,
        values: *mut u64, values_len: usize,
    ) -> u32;

    pub fn parity_split(
        words: *mut u64, words_len: usize,
        n: usize, m: usize, k: usize,
        u: usize, v: usize,
        values: *mut u64, values_len: usize,
    ) -> u32;

    pub fn parity_take_back(
        words: *mut u64, words_len: usize,
        n: usize, m: usize, k: usize,
        values: *mut u64, values_len: usize,
    ) -> u32;

    pub fn parity_orthogonalise(
        words: *mut u64, words_len: usize,
        n: usize, m: usize, k: usize,
        values: *mut u64, values_len: usize,
    ) -> u32;

    pub fn parity_verify(
        words: *const u64, words_len: usize,
        n: usize, m: usize, k: usize,
        word: *const u8, word_len: usize,
        values: *mut u64, values_len: usize,
    ) -> u32;

    pub fn parity_extend(
        words: *const u64, words_len: usize,
        n: usize, m: usize, k: usize,
        sent: *const u8, sent_len: usize,
        word: *mut u8, word_len: usize,
        values: *mut u64, values_len: usize,
    ) -> u32;

    pub fn parity_is_stopping(
        words: *const u64, words_len: usize,
        n: usize, m: usize, k: usize,
        set: *const u8, set_len: usize,
        values: *mut u64, values_len: usize,
    ) -> u32;

    pub fn parity_peel(
        words: *const u64, words_len: usize,
        n: usize, m: usize, k: usize,
        word: *mut u8, word_len: usize,
        values: *mut u64, values_len: usize,
    ) -> u32;

    pub fn parity_determine(
        words: *const u64, words_len: usize,
        n: usize, m: usize, k: usize,
        word: *mut u8, word_len: usize,
        values: *mut u64, values_len: usize,
    ) -> u32;

    pub fn parity_mend_packets(
        words: *const u64, words_len: usize,
        n: usize, m: usize, k: usize,
        lost: *mut u8, lost_len: usize,
        packets: *mut u64, packets_len: usize,
        odd: *mut u64, odd_len: usize,
        values: *mut u64, values_len: usize,
    ) -> u32;

    pub fn parity_mend_block(
        words: *const u64, words_len: usize,
        n: usize, m: usize, k: usize,
        word: *mut u8, word_len: usize,
        values: *mut u64, values_len: usize,
    ) -> u32;

    pub fn parity_rank(
        words: *const u64, words_len: usize,
        n: usize, m: usize, k: usize,
        values: *mut u64, values_len: usize,
    ) -> u32;

    pub fn parity_encode(
        words: *const u64, words_len: usize,
        n: usize, m: usize, k: usize,
        message: *const u8, message_len: usize,
        word: *mut u8, word_len: usize,
        values: *mut u64, values_len: usize,
    ) -> u32;

    pub fn parity_message_bits(
        words: *const u64, words_len: usize,
        n: usize, m: usize, k: usize,
        set: *mut u8, set_len: usize,
        values: *mut u64, values_len: usize,
    ) -> u32;

    pub fn parity_house_code(
        name: usize,
        words: *mut u64, words_len: usize,
        values: *mut u64, values_len: usize,
    ) -> u32;

    pub fn parity_stopping_sets(
        words: *const u64, words_len: usize,
        n: usize, m: usize, k: usize,
        t: usize,
        sets: *mut u16, sets_len: usize,
        values: *mut u64, values_len: usize,
    ) -> u32;

    pub fn parity_join(
        words1: *const u64, words1_len: usize,
        n1: usize, m1: usize, k1: usize,
        words2: *const u64, words2_len: usize,
        n2: usize, m2: usize, k2: usize,
        words3: *mut u64, words3_len: usize,
        values: *mut u64, values_len: usize,
    ) -> u32;

    pub fn parity_min_sum(
        words: *const u64, words_len: usize,
        n: usize, m: usize, k: usize, rounds: usize,
        word: *mut u8, word_len: usize,
        floats: *mut f32, floats_len: usize,
        message_bytes: *mut u8, message_bytes_len: usize,
        message_floats: *mut f32, message_floats_len: usize,
        values: *mut u64, values_len: usize,
    ) -> u32;

    pub fn parity_min_sum_range(
        lows: *const f32, lows_len: usize,
        highs: *const f32, highs_len: usize,
        ends: *mut f32, ends_len: usize,
        values: *mut u64, values_len: usize,
    ) -> u32;
}
