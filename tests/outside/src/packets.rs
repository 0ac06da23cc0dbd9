//! Ours, beyond the papers: packets. Blocks on random and published matrices, lane by lane against the model; every cause in its order; and
//! what is promised: mending again changes nothing, blocks of codewords come back, and what stays lost depends on the losses alone.

use crate::calls::{erase, resized};
use crate::cases;
use crate::codes;
use crate::compare::{compare, describe};
use crate::elimination;
use crate::generate;
use crate::model::{Kind, Lent, Matrix, Reply};
use crate::random::Random;

/// At least so many calls have to be compared.
const CALLS_LEAST: usize = 20_000;
/// The words of a packet: none, and around the library's tiles.
const LENGTHS: [usize; 9] = [0, 1, 2, 7, 8, 9, 16, 17, 100];

fn fail<T>(what: &str, lent: &Lent, reply: &Reply) -> Result<T, String> {
    Err(format!("PACKETS: {what}; number {}, values {:?}\n{}", reply.number, reply.values, describe(lent)))
}

// Blocks

/// The words that lanes are drawn from, so few that the model has them in a moment: codewords, and in `part` of 1,000 false bits or random ones.
fn palette(r: &mut Random, matrix: &Matrix, basis: &[Vec<u8>], part: usize) -> Vec<Vec<u8>> {
    let most = match matrix.bits() {
        0..=24 => 20,
        25..=64 => 8,
        65..=160 => 4,
        _ => 2,
    };
    let mut words = Vec::new();
    for _ in 0..r.between(1, most) {
        let mut word = elimination::combine(basis, matrix.bits(), || r.chance(500));
        if r.chance(part) {
            for _ in 0..r.between(1, 3) {
                let place = r.below(word.len());
                word[place] ^= 1;
            }
        } else if r.chance(part / 4) {
            word = r.bits(word.len());
        }
        words.push(word);
    }
    words
}

/// The packets of so many words in which each lane is one of these words.
fn drawn(r: &mut Random, words: &[Vec<u8>], bits: usize, length: usize) -> Vec<u64> {
    let mut packets = vec![0; bits * length];
    for lane in 0..64 * length {
        let word = &words[r.below(words.len())];
        for b in (0..bits).filter(|&b| word[b] == 1) {
            packets[b * length + lane / 64] |= 1 << (lane % 64);
        }
    }
    packets
}

/// Fills the lists of a call with a block: some packets lost, anything in these and in the words for odd lanes. Gives the packets as they were
/// sent, if every lane is a codeword.
pub fn fill(r: &mut Random, lent: &mut Lent, matrix: &Matrix, basis: &[Vec<u8>], length: usize) -> Option<Vec<u64>> {
    let part = r.pick(&[0, 0, 100, 500, 1000]);
    let words = palette(r, matrix, basis, part);
    let sent = drawn(r, &words, matrix.bits(), length);
    lent.word = vec![0; matrix.bits()];
    erase(r, &mut lent.word, matrix.n);
    lent.word.iter_mut().for_each(|byte| *byte /= 2);
    lent.packets = sent.clone();
    let garbage = r.below(4);
    for b in (0..matrix.bits()).filter(|&b| lent.word[b] == 1) {
        for word in &mut lent.packets[b * length..(b + 1) * length] {
            *word = [r.next(), r.next(), u64::MAX, *word][garbage];
        }
    }
    lent.odd = (0..length).map(|_| r.next()).collect();
    (part == 0).then_some(sent)
}

/// Makes a length wrong: that of the losses, of the packets, or of the words for odd lanes, by which packets have another length.
pub fn resize(r: &mut Random, lent: &mut Lent, matrix: &Matrix) {
    let (now, length, any) = (lent.packets.len(), lent.odd.len(), r.below(600));
    let shorter = [now.saturating_sub(1), now.saturating_sub(length), matrix.n * length];
    match r.below(6) {
        0 | 1 => resized(r, &mut lent.word, matrix),
        2 | 3 => lent
            .packets
            .resize(r.pick(&[0, shorter[0], shorter[1], shorter[2], now + 1, now + length, 2 * now, any]), 7),
        4 => lent.odd.resize(r.pick(&[0, 1, length.saturating_sub(1), length + 1, length + 1, 2 * length, any]), 7),
        _ => {
            lent.word.push(0);
            lent.packets.resize(now + length, 7);
        }
    }
}

// What is promised

/// What the calls met.
#[derive(Default)]
struct Tally {
    calls: usize,
    /// Blocks with k above 0, with every packet lost, and with none.
    extended: usize,
    all_lost: usize,
    none_lost: usize,
    /// Blocks with odd lanes and others beside them, blocks of odd lanes alone, and the lanes.
    some_odd: usize,
    only_odd: usize,
    odd_lanes: u64,
    /// Blocks of codewords, blocks that leave packets lost, blocks all of whose lost packets come back, and blocks of which peeling leaves more.
    codewords: usize,
    left: usize,
    whole: usize,
    further: usize,
    lengths: [usize; LENGTHS.len()],
}

impl Tally {
    /// A note on what the calls met; fails if they are too much alike.
    fn note(&self, by_hand: usize) -> Result<String, String> {
        let Tally {
            calls,
            extended,
            all_lost,
            none_lost,
            some_odd,
            only_odd,
            odd_lanes,
            codewords,
            left,
            whole,
            further,
            lengths,
        } = self;
        let note = format!(
            "{calls} calls and {by_hand} by hand; {extended} with k above 0, {all_lost} with all packets lost, {none_lost} with none; {some_odd} with \
             odd lanes among others, {only_odd} with these alone, {odd_lanes} odd lanes; {codewords} of codewords; {left} leave packets lost, {whole} \
             recover all, {further} more than peeling; by length {lengths:?}"
        );
        let least = [extended, all_lost, none_lost, some_odd, codewords, left, whole, further];
        if least.iter().any(|&&number| number < 500)
            || *only_odd < 100
            || *odd_lanes < 10_000
            || lengths.iter().any(|&number| number < 50)
        {
            return Err(format!("the blocks are too much alike, {note}: a fault of this program"));
        }
        Ok(note)
    }
}

fn ones(bytes: &[u8]) -> usize {
    bytes.iter().filter(|&&byte| byte == 1).count()
}

/// Whether the packets with this byte in `lost` are the same in both.
fn same(lost: &[u8], byte: u8, length: usize, one: &[u64], other: &[u64]) -> bool {
    (0..lost.len()).filter(|&b| lost[b] == byte).all(|b| (b * length..(b + 1) * length).all(|i| one[i] == other[i]))
}

/// The same call of what a call left.
fn again(r: &mut Random, tally: &mut Tally, after: &Lent, values: &[u64]) -> Result<(), String> {
    let mut lent = after.clone();
    lent.odd.iter_mut().for_each(|word| *word = r.next());
    let (reply, twice) = compare(&lent, r)?;
    tally.calls += 1;
    if twice != *after || reply.values[..] != [0, 0, values[2], values[3], values[4]] {
        return fail("mending again changes something", &lent, &reply);
    }
    Ok(())
}

/// The same losses without a word to a packet.
fn losses_alone(r: &mut Random, tally: &mut Tally, lent: &Lent, after: &Lent, values: &[u64]) -> Result<(), String> {
    let mut none = lent.clone();
    (none.packets, none.odd) = (Vec::new(), Vec::new());
    let (reply, alone) = compare(&none, r)?;
    tally.calls += 1;
    if alone.word != after.word || reply.values[..4] != values[..4] || reply.values[4] != 0 {
        return fail("the same losses without words leave other packets", &none, &reply);
    }
    Ok(())
}

fn count(tally: &mut Tally, matrix: &Matrix, lent: &Lent, after: &Lent, odd: usize) {
    let (lost, lanes) = (ones(&lent.word), 64 * lent.odd.len());
    let erased: Vec<bool> = lent.word.iter().map(|&byte| byte == 1).collect();
    let peeled = matrix.residue_by_scans(&erased).into_iter().filter(|&left| left).count();
    tally.calls += 1;
    tally.extended += (matrix.k > 0) as usize;
    tally.all_lost += (lost == matrix.bits()) as usize;
    tally.none_lost += (lost == 0) as usize;
    tally.some_odd += (odd > 0 && odd < lanes) as usize;
    tally.only_odd += (odd > 0 && odd == lanes) as usize;
    tally.odd_lanes += odd as u64;
    tally.left += (ones(&after.word) > 0) as usize;
    tally.whole += (lost > 0 && ones(&after.word) == 0) as usize;
    tally.further += (ones(&after.word) < peeled) as usize;
    if let Some(which) = LENGTHS.iter().position(|&length| length == lent.odd.len()) {
        tally.lengths[which] += 1;
    }
}

/// The five numbers tell what stands in the lists. Gives the number of odd lanes.
fn numbers(n: usize, lent: &Lent, reply: &Reply, after: &Lent) -> Result<usize, String> {
    let [sent_back, added_back, sent_left, added_left, odd] = reply.values[..] else {
        return fail("not answered with five numbers", lent, reply);
    };
    let lost = [ones(&lent.word[..n]) as u64, ones(&lent.word[n..]) as u64];
    if [sent_back + sent_left, added_back + added_left] != lost {
        return fail("recovered and left are not the lost packets", lent, reply);
    }
    if [sent_left, added_left] != [ones(&after.word[..n]) as u64, ones(&after.word[n..]) as u64] {
        return fail("the packets left are not those that are lost afterwards", lent, reply);
    }
    if odd != after.odd.iter().map(|word| word.count_ones() as u64).sum() {
        return fail("the odd lanes are not those that are flagged", lent, reply);
    }
    Ok(odd as usize)
}

/// A block mended: lane by lane the model's, and what is promised.
fn held(
    r: &mut Random,
    tally: &mut Tally,
    matrix: &Matrix,
    basis: &[Vec<u8>],
    length: usize,
    lost: Option<u8>,
) -> Result<(), String> {
    let mut lent = cases::lend(Kind::MendPackets, matrix);
    let sent = fill(r, &mut lent, matrix, basis, length);
    if let Some(byte) = lost {
        lent.word.fill(byte);
    }
    let (reply, after) = compare(&lent, r)?;
    let odd = numbers(matrix.n, &lent, &reply, &after)?;
    count(tally, matrix, &lent, &after, odd);
    if !same(&lent.word, 0, length, &after.packets, &lent.packets)
        || !same(&after.word, 1, length, &after.packets, &lent.packets)
    {
        return fail("a packet that arrived or that is still lost is changed", &lent, &reply);
    }
    if let Some(sent) = sent.filter(|sent| same(&lent.word, 0, length, &lent.packets, sent)) {
        tally.codewords += 1;
        if odd > 0 || !same(&after.word, 0, length, &after.packets, &sent) {
            return fail("a block of codewords has odd lanes, or comes back as another", &lent, &reply);
        }
    }
    again(r, tally, &after, &reply.values)?;
    if length > 0 && r.chance(250) {
        losses_alone(r, tally, &lent, &after, &reply.values)?;
    }
    Ok(())
}

/// Blocks of one matrix, and of the same orthogonalised or with some splits, in every length.
fn one_matrix(r: &mut Random, tally: &mut Tally, given: &Matrix, rounds: usize) -> Result<(), String> {
    let mut extended = given.clone();
    if r.chance(500) {
        extended.orthogonalise();
    } else {
        generate::split_some(r, &mut extended, 4);
    }
    for matrix in [given, &extended] {
        let basis = elimination::basis(matrix);
        held(r, tally, matrix, &basis, 1, Some(0))?;
        held(r, tally, matrix, &basis, 2, Some(1))?;
        for length in LENGTHS {
            for _ in 0..rounds {
                held(r, tally, matrix, &basis, length, None)?;
            }
        }
    }
    Ok(())
}

/// Matrices with n + k = 512, and around 256, where the library's tiles change.
fn widest(r: &mut Random, tally: &mut Tally) -> Result<(), String> {
    let mut all = vec![generate::most_ones(), generate::triples(r, 120, 20, 392)];
    all.extend([135, 136, 137].map(|k| generate::triples(r, 120, 20, k)));
    for matrix in all {
        let basis = elimination::basis(&matrix);
        held(r, tally, &matrix, &basis, 1, Some(1))?;
        held(r, tally, &matrix, &basis, 1, Some(0))?;
        for length in [0, 1, 3, 4, 5, 8, 9, 17] {
            held(r, tally, &matrix, &basis, length, None)?;
        }
    }
    Ok(())
}

// Cases by hand

/// A call of these lists.
fn lend(matrix: &Matrix, lost: &[u8], packets: &[u64], odd: &[u64]) -> Lent {
    let mut lent = cases::lend(Kind::MendPackets, matrix);
    (lent.word, lent.packets, lent.odd) = (lost.to_vec(), packets.to_vec(), odd.to_vec());
    lent
}

/// A call that must be answered with these values and leave these lists.
fn due(
    r: &mut Random,
    lent: &Lent,
    values: [u64; 5],
    lost: &[u8],
    packets: &[u64],
    odd: &[u64],
) -> Result<usize, String> {
    let (reply, after) = compare(lent, r)?;
    if reply.number != 0 || reply.values != values || after.word != lost || after.packets != packets || after.odd != odd
    {
        return fail("not what is due", lent, &reply);
    }
    Ok(1)
}

fn known(r: &mut Random) -> Result<usize, String> {
    const X: u64 = 0x0123_4567_89AB_CDEF;
    let (c, twice, none) = (cases::c(), Matrix::given(3, &[vec![0, 1], vec![0, 1, 2]]), Matrix::zero(2, 0, 0));
    // C's word 2,2,2,1,1,1,1 where X has a one, and the word of zeros elsewhere.
    let lent = lend(&c, &[1, 1, 1, 0, 0, 0, 0], &[5, 6, 7, X, X, X, X], &[9]);
    let mut number = due(r, &lent, [3, 0, 0, 0, 0], &[0; 7], &[0, 0, X, X, X, X, X], &[0])?;
    let lent = lend(&c, &[1, 1, 1, 0, 0, 0, 0], &[], &[]);
    number += due(r, &lent, [3, 0, 0, 0, 0], &[0; 7], &[], &[])?;
    // Orthogonalised, with its added bit lost too, two words to a packet.
    let mut extended = c.clone();
    extended.orthogonalise();
    let before = [1, 2, 3, 4, 5, 6, X, !X, X, !X, X, !X, X, !X, 7, 8];
    let after = [0, 0, 0, 0, X, !X, X, !X, X, !X, X, !X, X, !X, 0, 0];
    let lent = lend(&extended, &[1, 1, 1, 0, 0, 0, 0, 1], &before, &[!0, 0]);
    number += due(r, &lent, [3, 1, 0, 0, 0], &[0; 8], &after, &[0, 0])?;
    // Bit 2 must be 0: a lane in which it is 1 is odd, and bits 0 and 1 stay lost in each.
    let lent = lend(&twice, &[1, 1, 0], &[X, 0, 5], &[7]);
    number += due(r, &lent, [0, 0, 2, 0, 2], &[1, 1, 0], &[X, 0, 5], &[5])?;
    // Bit 1 is bit 0, in the lanes that are not odd; the odd ones keep what the lost packet held.
    let lent = lend(&twice, &[0, 1, 0], &[X, !X, 1 << 63 | 1], &[7]);
    number += due(r, &lent, [1, 0, 0, 0, 2], &[0; 3], &[X, X ^ (1 << 63 | 1), 1 << 63 | 1], &[1 << 63 | 1])?;
    // Nothing lost: a lane is odd if it is no codeword.
    let lent = lend(&twice, &[0; 3], &[6, 3, 0], &[7]);
    number += due(r, &lent, [0, 0, 0, 0, 2], &[0; 3], &[6, 3, 0], &[5])?;
    // No checks: what is lost stays lost.
    let lent = lend(&none, &[1, 0], &[X, X], &[7]);
    number += due(r, &lent, [0, 0, 1, 0, 0], &[1, 0], &[X, X], &[0])?;
    Ok(number)
}

// Causes

/// The faults in the order of the causes: the last four are three of 10, and 11.
const FAULTS: [u32; 8] = [1, 2, 3, 4, 10, 10, 10, 11];

/// Puts a fault into a call on a matrix with k above 0, longer or shorter.
fn put(lent: &mut Lent, fault: usize, longer: bool) {
    let bits = lent.word.len();
    match fault {
        0 if longer => lent.words.push(0),
        0 => lent.words.truncate(4095),
        1 if longer => lent.m = 121,
        1 => lent.n = 0,
        2 => lent.words[8 * 511 + 7 * longer as usize] |= 1 << 63,
        // the own bit of the first added check
        3 => lent.words[8 * lent.m + lent.n / 64] &= !(1 << (lent.n % 64)),
        4 if longer => lent.word.push(0),
        4 => lent.word.truncate(bits - 1),
        5 if longer => lent.packets.push(1),
        5 => lent.packets.truncate(lent.packets.len() - 1),
        6 if longer => lent.odd.push(1),
        6 => lent.odd.truncate(lent.odd.len() - 1),
        _ => {
            lent.word[2] = 255;
            lent.word[1] = if longer { 2 } else { 3 };
        }
    }
}

/// All sets of faults: the first in the order of the causes refuses, and leaves the three lists.
fn causes(r: &mut Random) -> Result<usize, String> {
    let mut matrix = cases::e();
    matrix.orthogonalise();
    let basis = elimination::basis(&matrix);
    let mut number = 0;
    for length in [1, 2, 9] {
        for set in 1..1usize << FAULTS.len() {
            let longer = set.count_ones() % 2 == 0 || r.chance(500);
            let mut lent = cases::lend(Kind::MendPackets, &matrix);
            fill(r, &mut lent, &matrix, &basis, length);
            // bytes are put before a length is changed, and words before theirs
            for fault in (0..FAULTS.len()).rev().filter(|fault| set >> fault & 1 == 1) {
                put(&mut lent, fault, longer);
            }
            let first = FAULTS[set.trailing_zeros() as usize];
            let (reply, after) = compare(&lent, r)?;
            let place: &[u64] = if first == 11 { &[1] } else { &[] };
            if reply.number != first || reply.values != place || after != lent {
                return fail(&format!("faults {set:b}: {first} is due, and the lists as they were"), &lent, &reply);
            }
            number += 1;
        }
    }
    Ok(number)
}

/// A byte that is no loss at each place, all bytes behind it too: 11 with that place, also where nothing is lent to a packet.
fn places(r: &mut Random) -> Result<usize, String> {
    let mut extended = cases::c();
    extended.orthogonalise();
    let mut number = 0;
    for matrix in [cases::c(), extended, generate::sparse(r), generate::most_ones()] {
        let bits = matrix.bits();
        for place in 0..bits {
            let length = r.below(2);
            let mut lost: Vec<u8> = (0..bits).map(|_| r.below(2) as u8).collect();
            lost[place..].iter_mut().for_each(|byte| *byte = r.pick(&[2, 2, 3, 128, 255]));
            let packets: Vec<u64> = (0..bits * length).map(|_| r.next()).collect();
            let lent = lend(&matrix, &lost, &packets, &vec![5; length]);
            let (reply, after) = compare(&lent, r)?;
            if reply.number != 11 || reply.values != [place as u64] || after != lent {
                return fail(&format!("11 with place {place} is due, and the lists as they were"), &lent, &reply);
            }
            number += 1;
        }
    }
    Ok(number)
}

/// The number of calls, and a note on what they met.
pub fn run() -> Result<(usize, String), String> {
    let r = &mut Random::new(39);
    let mut tally = Tally::default();
    let by_hand = known(r)? + causes(r)? + places(r)?;
    for code in codes::published() {
        one_matrix(r, &mut tally, &code.matrix, 1)?;
    }
    for code in codes::random_codes(r) {
        one_matrix(r, &mut tally, &code.matrix, 1)?;
    }
    widest(r, &mut tally)?;
    while tally.calls < CALLS_LEAST {
        let matrix = generate::small(r);
        let basis = elimination::basis(&matrix);
        for length in [1, 1, 2] {
            held(r, &mut tally, &matrix, &basis, length, None)?;
        }
        let length = r.pick(&LENGTHS[..8]);
        held(r, &mut tally, &matrix, &basis, length, None)?;
    }
    let note = tally.note(by_hand)?;
    Ok((tally.calls + by_hand, note))
}
