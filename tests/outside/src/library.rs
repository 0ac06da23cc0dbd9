//! Calls of the library through its C interface, on slices with guarded margins and on a painted stack.

use crate::model::{Kind, Lent};
use crate::stack;
use parity::ffi;

const MARGIN: usize = 8;

/// A slice with elements before and after it that no call may change.
struct Guarded<T> {
    all: Vec<T>,
    guard: T,
}

impl<T: Copy + PartialEq> Guarded<T> {
    fn new(content: &[T], guard: T) -> Guarded<T> {
        let mut all = Vec::with_capacity(content.len() + 2 * MARGIN);
        all.resize(MARGIN, guard);
        all.extend_from_slice(content);
        all.resize(content.len() + 2 * MARGIN, guard);
        Guarded { all, guard }
    }

    fn len(&self) -> usize {
        self.all.len() - 2 * MARGIN
    }

    fn content(&self) -> &[T] {
        &self.all[MARGIN..self.all.len() - MARGIN]
    }

    fn content_mut(&mut self) -> *mut T {
        self.all[MARGIN..].as_mut_ptr()
    }

    fn intact(&self) -> bool {
        let end = self.all.len() - MARGIN;
        self.all[..MARGIN].iter().chain(&self.all[end..]).all(|x| *x == self.guard)
    }
}

/// The library's number. What is lent, `values` too, is afterwards as the library left it.
pub fn call(lent: &mut Lent, values: &mut [u64]) -> Result<u32, String> {
    let guard = 0xC3A5_5A3C_0F1E_2D4Bu64;
    let mut words = Guarded::new(&lent.words, guard);
    let mut record = Guarded::new(&lent.record, guard as u32);
    let mut input = Guarded::new(&lent.input, guard as u8);
    let mut word = Guarded::new(&lent.word, guard as u8);
    let mut sets = Guarded::new(&lent.sets, guard as u16);
    let mut words2 = Guarded::new(&lent.words2, guard);
    let mut words3 = Guarded::new(&lent.words3, guard);
    let mut floats = Guarded::new(&lent.floats, guard as u32);
    let mut bytes = Guarded::new(&lent.message_bytes, guard as u8);
    let mut messages = Guarded::new(&lent.message_floats, guard as u32);
    let mut packets = Guarded::new(&lent.packets, guard);
    let mut odd = Guarded::new(&lent.odd, guard);
    let mut carried = Guarded::new(values, guard);
    let (n, m, k, u, v, name, t) = (lent.n, lent.m, lent.k, lent.u, lent.v, lent.name, lent.t);
    let rounds = lent.rounds;
    let (words_ptr, words_len) = (words.content_mut(), words.len());
    let (record_ptr, record_len) = (record.content_mut(), record.len());
    let (input_ptr, input_len) = (input.content_mut() as *const u8, input.len());
    let (word_ptr, word_len) = (word.content_mut(), word.len());
    let (sets_ptr, sets_len) = (sets.content_mut(), sets.len());
    let (words2_ptr, words2_len, n2, m2, k2) = (words2.content_mut(), words2.len(), lent.n2, lent.m2, lent.k2);
    let (words3_ptr, words3_len) = (words3.content_mut(), words3.len());
    // A float has the size and the alignment of its bits.
    let (floats_ptr, floats_len) = (floats.content_mut() as *mut f32, floats.len());
    let (bytes_ptr, bytes_len) = (bytes.content_mut(), bytes.len());
    let (messages_ptr, messages_len) = (messages.content_mut() as *mut f32, messages.len());
    let (packets_ptr, packets_len) = (packets.content_mut(), packets.len());
    let (odd_ptr, odd_len) = (odd.content_mut(), odd.len());
    let (values_ptr, values_len) = (carried.content_mut(), carried.len());
    let mut number = 0;
    // Every pointer and length is that of a live vector's part, and no two overlap.
    let held = stack::held(lent.kind, || {
        number = unsafe {
            match lent.kind {
                Kind::Load => ffi::parity_load(record_ptr, record_len, words_ptr, words_len, values_ptr, values_len),
                Kind::Write => {
                    ffi::parity_write(words_ptr, words_len, n, m, k, record_ptr, record_len, values_ptr, values_len)
                }
                Kind::Share => ffi::parity_share(words_ptr, words_len, n, m, k, u, v, values_ptr, values_len),
                Kind::Count => ffi::parity_count(words_ptr, words_len, n, m, k, values_ptr, values_len),
                Kind::Split => ffi::parity_split(words_ptr, words_len, n, m, k, u, v, values_ptr, values_len),
                Kind::TakeBack => ffi::parity_take_back(words_ptr, words_len, n, m, k, values_ptr, values_len),
                Kind::Orthogonalise => ffi::parity_orthogonalise(words_ptr, words_len, n, m, k, values_ptr, values_len),
                Kind::Verify => {
                    ffi::parity_verify(words_ptr, words_len, n, m, k, input_ptr, input_len, values_ptr, values_len)
                }
                Kind::Extend => ffi::parity_extend(
                    words_ptr, words_len, n, m, k, input_ptr, input_len, word_ptr, word_len, values_ptr, values_len,
                ),
                Kind::IsStopping => {
                    ffi::parity_is_stopping(words_ptr, words_len, n, m, k, input_ptr, input_len, values_ptr, values_len)
                }
                Kind::Peel => {
                    ffi::parity_peel(words_ptr, words_len, n, m, k, word_ptr, word_len, values_ptr, values_len)
                }
                Kind::Determine => {
                    ffi::parity_determine(words_ptr, words_len, n, m, k, word_ptr, word_len, values_ptr, values_len)
                }
                Kind::MendBlock => {
                    ffi::parity_mend_block(words_ptr, words_len, n, m, k, word_ptr, word_len, values_ptr, values_len)
                }
                Kind::Rank => ffi::parity_rank(words_ptr, words_len, n, m, k, values_ptr, values_len),
                Kind::Encode => ffi::parity_encode(
                    words_ptr, words_len, n, m, k, input_ptr, input_len, word_ptr, word_len, values_ptr, values_len,
                ),
                Kind::MessageBits => {
                    ffi::parity_message_bits(words_ptr, words_len, n, m, k, word_ptr, word_len, values_ptr, values_len)
                }
                Kind::HouseCode => ffi::parity_house_code(name, words_ptr, words_len, values_ptr, values_len),
                Kind::StoppingSets => ffi::parity_stopping_sets(
                    words_ptr, words_len, n, m, k, t, sets_ptr, sets_len, values_ptr, values_len,
                ),
                Kind::Join => ffi::parity_join(
                    words_ptr, words_len, n, m, k, words2_ptr, words2_len, n2, m2, k2, words3_ptr, words3_len,
                    values_ptr, values_len,
                ),
                Kind::MinSum => ffi::parity_min_sum(
                    words_ptr, words_len, n, m, k, rounds, word_ptr, word_len, floats_ptr, floats_len, bytes_ptr, bytes_len,
                    messages_ptr, messages_len, values_ptr, values_len,
                ),
                Kind::MendPackets => ffi::parity_mend_packets(
                    words_ptr, words_len, n, m, k, word_ptr, word_len, packets_ptr, packets_len, odd_ptr, odd_len,
                    values_ptr, values_len,
                ),
            }
        }
    });
    lent.words.copy_from_slice(words.content());
    lent.record.copy_from_slice(record.content());
    lent.input.copy_from_slice(input.content());
    lent.word.copy_from_slice(word.content());
    lent.sets.copy_from_slice(sets.content());
    lent.words2.copy_from_slice(words2.content());
    lent.words3.copy_from_slice(words3.content());
    lent.floats.copy_from_slice(floats.content());
    lent.message_bytes.copy_from_slice(bytes.content());
    lent.message_floats.copy_from_slice(messages.content());
    lent.packets.copy_from_slice(packets.content());
    lent.odd.copy_from_slice(odd.content());
    values.copy_from_slice(carried.content());
    let joined = words2.intact() && words3.intact();
    let soft = floats.intact() && bytes.intact() && messages.intact();
    let intact =
        words.intact() && record.intact() && input.intact() && word.intact() && sets.intact() && carried.intact();
    if !intact || !joined || !soft || !packets.intact() || !odd.intact() {
        return Err("the library wrote outside a lent slice".to_string());
    }
    held.map(|_| number)
}

/// The number of the call on ranges, and how many bytes of stack it used. Floats are their bits.
pub fn range(
    lows: &mut [u32],
    highs: &mut [u32],
    ends: &mut [u32],
    values: &mut [u64],
) -> Result<(u32, usize), String> {
    let guard = 0xC3A5_5A3C_0F1E_2D4Bu64;
    let mut low = Guarded::new(lows, guard as u32);
    let mut high = Guarded::new(highs, guard as u32);
    let mut end = Guarded::new(ends, guard as u32);
    let mut carried = Guarded::new(values, guard);
    let (low_ptr, low_len) = (low.content_mut() as *const f32, low.len());
    let (high_ptr, high_len) = (high.content_mut() as *const f32, high.len());
    let (end_ptr, end_len) = (end.content_mut() as *mut f32, end.len());
    let (values_ptr, values_len) = (carried.content_mut(), carried.len());
    let mut number = 0;
    // Every pointer and length is that of a live vector's part, and no two overlap.
    let used = stack::bounded(|| {
        number = unsafe {
            ffi::parity_min_sum_range(low_ptr, low_len, high_ptr, high_len, end_ptr, end_len, values_ptr, values_len)
        }
    });
    lows.copy_from_slice(low.content());
    highs.copy_from_slice(high.content());
    ends.copy_from_slice(end.content());
    values.copy_from_slice(carried.content());
    if !(low.intact() && high.intact() && end.intact() && carried.intact()) {
        return Err("the library wrote outside a lent slice".to_string());
    }
    used.map(|bytes| (number, bytes))
}
