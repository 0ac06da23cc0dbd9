//! Parity checks for lossy sample streams: slices in, Rust enums out.
//!
//! [`Matrix`] has a matrix in memory of its own, with the calls as methods:
//!
//! ```
//! let matrix = parity::Matrix::house_code(parity::HOUSE_CIRCULANT)?;
//! let mut word = matrix.encode(&[1, 0, 1, 1, 0, 1, 1, 1, 1, 0, 0, 1])?;
//! let sent = word.clone();
//! word[3..9].fill(parity::ERASED);
//! matrix.mend(&mut word)?;
//! assert_eq!(word, sent);
//! # Ok::<(), parity::Refusal>(())
//! ```
//!
//! The plain functions take memory that the caller lends: the matrix as exactly [`WORDS`] words of 64 bits, with n, m and k
//! beside it. `include/parity.h` says how a check's bits stand in them. Slices may have any length and numbers any value: what
//! does not fit is refused. A plain function takes nothing from the heap and keeps no state, so that any number of threads may
//! call at once.

#![allow(clippy::too_many_arguments)]

pub mod ffi;
mod matrix;

pub use matrix::Matrix;

use std::slice::ChunksExact;

/// The version of the C interface and of the library, as `include/parity.h` has it.
///
/// ```
/// assert!(parity::VERSION.starts_with("1."));
/// ```
pub const VERSION: &str = env!("CARGO_PKG_VERSION");

/// The number of words of a matrix.
///
/// ```
/// let mut words = [0; parity::WORDS];
/// assert!(parity::house_code(parity::HOUSE_HAMMING_3, &mut words).is_ok());
/// ```
pub const WORDS: usize = 4096;

/// The most words that [`write()`] uses.
///
/// ```
/// let (mut words, mut record) = ([0; parity::WORDS], [0; parity::RECORD_MOST]);
/// assert_eq!(parity::write(&words, 120, 120, 0, &mut record), Ok(122));
/// ```
pub const RECORD_MOST: usize = 14_914;

/// The largest sets that [`stopping_sets`] lists.
///
/// ```
/// let matrix = parity::Matrix::of_checks(4, &[])?;
/// assert_eq!(matrix.stopping_sets(parity::SET_SIZE_MOST)?, [0, 1, 2, 3]);
/// assert_eq!(matrix.stopping_sets(parity::SET_SIZE_MOST + 1), Err(parity::Refusal::SetSize));
/// # Ok::<(), parity::Refusal>(())
/// ```
pub const SET_SIZE_MOST: usize = 4;

/// The most values that a call carries: the length of `values` in [`ffi`].
///
/// ```
/// assert_eq!(parity::VALUES_MOST, 5);
/// ```
pub const VALUES_MOST: usize = 5;

/// The most bytes of stack that a call needs.
///
/// ```
/// let thread = std::thread::Builder::new().stack_size(4 * parity::STACK_MOST);
/// let made = thread.spawn(|| parity::Matrix::house_code(0)?.rank()).unwrap();
/// assert_eq!(made.join().unwrap(), Ok(11));
/// ```
pub const STACK_MOST: usize = 65_536;

/// The most rounds of [`min_sum`].
///
/// ```
/// let matrix = parity::Matrix::of_checks(1, &[])?;
/// let mut bits = [parity::Bit::Erased];
/// assert_eq!(matrix.min_sum(parity::ROUNDS_MOST, &mut bits), Ok(()));
/// assert_eq!(matrix.min_sum(parity::ROUNDS_MOST + 1, &mut bits), Err(parity::Refusal::Rounds));
/// # Ok::<(), parity::Refusal>(())
/// ```
pub const ROUNDS_MOST: usize = 512;

/// The number of bytes and of floats that [`min_sum`] needs for its messages.
///
/// ```
/// let (mut bytes, mut floats) = (vec![0; parity::MESSAGES], vec![0.0; parity::MESSAGES]);
/// let words = [0; parity::WORDS];
/// assert_eq!(parity::min_sum(&words, 1, 0, 0, 1, &mut [2], &mut [0.0], &mut bytes, &mut floats), Ok(()));
/// ```
pub const MESSAGES: usize = 65_536;

/// The most other bits of a check in [`min_sum_range`].
///
/// ```
/// let ends = [1.0; parity::OTHERS_MOST + 1];
/// assert!(parity::min_sum_range(&ends[1..], &ends[1..]).is_ok());
/// assert_eq!(parity::min_sum_range(&ends, &ends), Err(parity::Refusal::Length));
/// ```
pub const OTHERS_MOST: usize = 511;

/// The byte of an erased bit.
///
/// ```
/// let mut word = [parity::ERASED, 1];
/// parity::Matrix::of_checks(2, &[&[0, 1]])?.mend(&mut word)?;
/// assert_eq!(word, [1, 1]);
/// # Ok::<(), parity::Refusal>(())
/// ```
pub const ERASED: u8 = 2;

/// The byte of a soft bit, in [`min_sum`].
///
/// ```
/// assert_eq!(parity::Bit::Soft(0.5).parts(), (parity::SOFT, 0.5));
/// ```
pub const SOFT: u8 = 3;

/// The first stage of [`mend_block`]: peeling.
///
/// ```
/// let matrix = parity::Matrix::of_checks(2, &[&[0, 1]])?;
/// assert_eq!(matrix.mend(&mut [2, 1])?.stage, parity::STAGE_PEELING);
/// # Ok::<(), parity::Refusal>(())
/// ```
pub const STAGE_PEELING: usize = 1;

/// The second stage of [`mend_block`]: peeling with the orthogonalised copy.
///
/// ```
/// let matrix = parity::Matrix::of_checks(7, &[&[0, 1, 2, 3], &[0, 1, 4, 5], &[0, 2, 6]])?;
/// assert_eq!(matrix.mend(&mut [2, 2, 2, 1, 1, 1, 1])?.stage, parity::STAGE_EXTENDED);
/// # Ok::<(), parity::Refusal>(())
/// ```
pub const STAGE_EXTENDED: usize = 2;

/// The third stage of [`mend_block`]: elimination.
///
/// ```
/// let matrix = parity::Matrix::of_checks(2, &[&[0, 1]])?;
/// assert_eq!(matrix.mend(&mut [2, 2])?.stage, parity::STAGE_ELIMINATION);
/// # Ok::<(), parity::Refusal>(())
/// ```
pub const STAGE_ELIMINATION: usize = 3;

/// The name of the house code of case L, the circulant of 23 bits.
///
/// ```
/// assert_eq!(parity::Matrix::house_code(parity::HOUSE_CIRCULANT)?.bits_of(0), [0, 1, 2, 3, 4, 7, 10, 12]);
/// # Ok::<(), parity::Refusal>(())
/// ```
pub const HOUSE_CIRCULANT: usize = 0;

/// The name of the Hamming checks for length 3.
///
/// ```
/// assert_eq!(parity::Matrix::house_code(parity::HOUSE_HAMMING_3)?.n(), 3);
/// # Ok::<(), parity::Refusal>(())
/// ```
pub const HOUSE_HAMMING_3: usize = 1;

/// The name of the Hamming checks for length 7.
///
/// ```
/// assert_eq!(parity::Matrix::house_code(parity::HOUSE_HAMMING_7)?.n(), 7);
/// # Ok::<(), parity::Refusal>(())
/// ```
pub const HOUSE_HAMMING_7: usize = 2;

/// The name of the Hamming checks for length 15.
///
/// ```
/// assert_eq!(parity::Matrix::house_code(parity::HOUSE_HAMMING_15)?.n(), 15);
/// # Ok::<(), parity::Refusal>(())
/// ```
pub const HOUSE_HAMMING_15: usize = 3;

/// The name of the Hamming checks for length 31.
///
/// ```
/// assert_eq!(parity::Matrix::house_code(parity::HOUSE_HAMMING_31)?.n(), 31);
/// # Ok::<(), parity::Refusal>(())
/// ```
pub const HOUSE_HAMMING_31: usize = 4;

/// Why a call was refused, with the values that the refusal carries.
///
/// ```
/// use parity::{Matrix, Refusal};
///
/// let matrix = Matrix::of_checks(2, &[&[0, 1]])?;
/// let refusal = matrix.verify(&[0, 9]).unwrap_err();
/// assert_eq!(refusal, Refusal::Byte { place: 1 });
/// assert_eq!(refusal.to_string(), "refusal 11: a byte outside the values named at place 1");
/// # Ok::<(), Refusal>(())
/// ```
#[derive(Clone, Copy, PartialEq, Eq, Debug)]
pub enum Refusal {
    /// 1: the matrix slice is not 4,096 words.
    MatrixLength,
    /// 2: n, m or k is outside its range.
    Range,
    /// 3: a one at bit n+k or above, or at check m+k or above.
    OneOutside,
    /// 4: rule A is broken.
    RuleA,
    /// 5: a faulty record word.
    FaultyWord { place: usize },
    /// 6: the lent record is too short.
    RecordShort { needed: usize },
    /// 7: u = v, or either at n+k or above.
    Pair,
    /// 8: the share is below two.
    Share { share: u64 },
    /// 9 of a split: k is 392.
    Full,
    /// 9 of an orthogonalise: k is 392 and a pair is left. The matrix stands after the splits made.
    FullAfter { splits: u64, sum: u64, k: usize, held: Option<Held> },
    /// 10: a word, message or set of wrong length.
    Length,
    /// 11: a byte outside the values named.
    Byte { place: usize },
    /// 12: contradiction: checks that cannot be made even.
    Contradiction,
    /// 13: k is above 0.
    Extended,
    /// 15: k is 0, so there is nothing to take back.
    NothingToTakeBack,
    /// 16: the matrix with the newest added bit taken back would break rule A; or a matrix to write that no splits made.
    CannotTakeBack,
    /// 17: no house code has this name.
    UnknownName,
    /// 18: a set size outside 1 to 4.
    SetSize,
    /// 19: the slice for the sets is too short.
    SetsShort { needed: usize },
    /// 20: two matrices to be joined have different n.
    DifferentLengths,
    /// 21: joined, two matrices have more than 120 checks.
    TooManyChecks,
    /// 22: the number of rounds is outside 1 to [`ROUNDS_MOST`].
    Rounds,
    /// 23: a soft float that is not finite or above 1,048,576 in magnitude.
    Float { place: usize },
    /// 24: a low above its high.
    LowAboveHigh { place: usize },
}

impl Refusal {
    /// The cause's number.
    ///
    /// ```
    /// assert_eq!(parity::Refusal::Contradiction.number(), 12);
    /// ```
    pub fn number(&self) -> u32 {
        match self {
            Refusal::MatrixLength => 1,
            Refusal::Range => 2,
            Refusal::OneOutside => 3,
            Refusal::RuleA => 4,
            Refusal::FaultyWord { .. } => 5,
            Refusal::RecordShort { .. } => 6,
            Refusal::Pair => 7,
            Refusal::Share { .. } => 8,
            Refusal::Full | Refusal::FullAfter { .. } => 9,
            Refusal::Length => 10,
            Refusal::Byte { .. } => 11,
            Refusal::Contradiction => 12,
            Refusal::Extended => 13,
            Refusal::NothingToTakeBack => 15,
            Refusal::CannotTakeBack => 16,
            Refusal::UnknownName => 17,
            Refusal::SetSize => 18,
            Refusal::SetsShort { .. } => 19,
            Refusal::DifferentLengths => 20,
            Refusal::TooManyChecks => 21,
            Refusal::Rounds => 22,
            Refusal::Float { .. } => 23,
            Refusal::LowAboveHigh { .. } => 24,
        }
    }
}

impl Refusal {
    /// The words of the specification's table, as the requests left it; those of `parity_refusal_text` in C.
    ///
    /// ```
    /// assert_eq!(parity::Refusal::Byte { place: 3 }.text(), "a byte outside the values named");
    /// ```
    pub fn text(&self) -> &'static str {
        match self {
            Refusal::MatrixLength => "matrix slice is not 4,096 words",
            Refusal::Range => "n, m or k outside its range",
            Refusal::OneOutside => "a one at bit n+k or above, or check m+k or above",
            Refusal::RuleA => "rule A broken",
            Refusal::FaultyWord { .. } => "faulty record word",
            Refusal::RecordShort { .. } => "lent record too short to write",
            Refusal::Pair => "u = v, or either at n+k or above",
            Refusal::Share { .. } => "share below two",
            Refusal::Full | Refusal::FullAfter { .. } => "k = 392 and a pair with share two or more is to be split",
            Refusal::Length => "a word, message or set of wrong length",
            Refusal::Byte { .. } => "a byte outside the values named",
            Refusal::Contradiction => "contradiction: checks that cannot be made even",
            Refusal::Extended => "k above 0",
            Refusal::NothingToTakeBack => "k = 0: nothing to take back",
            Refusal::CannotTakeBack => "taken back, the matrix would break rule A; or no splits made it",
            Refusal::UnknownName => "no house code has the name",
            Refusal::SetSize => "a set size outside 1 to 4",
            Refusal::SetsShort { .. } => "slice for the sets too short",
            Refusal::DifferentLengths => "two matrices to be joined have different n",
            Refusal::TooManyChecks => "joined, two matrices have more than 120 checks",
            Refusal::Rounds => "rounds outside 1 to 512",
            Refusal::Float { .. } => "a soft float that is not finite or above 1,048,576 in magnitude",
            Refusal::LowAboveHigh { .. } => "a low above its high",
        }
    }
}

impl std::fmt::Display for Refusal {
    fn fmt(&self, f: &mut std::fmt::Formatter<'_>) -> std::fmt::Result {
        write!(f, "refusal {}: ", self.number())?;
        match self {
            Refusal::MatrixLength => write!(f, "the matrix slice is not 4,096 words"),
            Refusal::Range => write!(f, "n, m or k is outside its range"),
            Refusal::OneOutside => write!(f, "a one at bit n+k or above, or at check m+k or above"),
            Refusal::RuleA => write!(f, "rule A is broken"),
            Refusal::FaultyWord { place } => write!(f, "faulty record word at place {place}"),
            Refusal::RecordShort { needed } => write!(f, "the lent record is too short, {needed} words are needed"),
            Refusal::Pair => write!(f, "u = v, or either at n+k or above"),
            Refusal::Share { share } => write!(f, "the share is {share}, below two"),
            Refusal::Full => write!(f, "k is 392"),
            Refusal::FullAfter { splits, sum, k, .. } => {
                write!(f, "k is {k} and a pair is left, after {splits} splits with sum {sum}")
            }
            Refusal::Length => write!(f, "a word, message or set of wrong length"),
            Refusal::Byte { place } => write!(f, "a byte outside the values named at place {place}"),
            Refusal::Contradiction => write!(f, "contradiction: the checks cannot be made even"),
            Refusal::Extended => write!(f, "k is above 0"),
            Refusal::NothingToTakeBack => write!(f, "k is 0, there is nothing to take back"),
            Refusal::CannotTakeBack => {
                write!(f, "with an added bit taken back rule A would be broken, or no splits made the matrix")
            }
            Refusal::UnknownName => write!(f, "no house code has this name"),
            Refusal::SetSize => write!(f, "a set size outside 1 to 4"),
            Refusal::SetsShort { needed } => {
                write!(f, "the slice for the sets is too short, {needed} places are needed")
            }
            Refusal::DifferentLengths => write!(f, "two matrices to be joined have different n"),
            Refusal::TooManyChecks => write!(f, "joined, two matrices have more than 120 checks"),
            Refusal::Rounds => write!(f, "the number of rounds is outside 1 to 512"),
            Refusal::Float { place } => write!(f, "a soft float that is not finite or too large at place {place}"),
            Refusal::LowAboveHigh { place } => write!(f, "a low above its high at place {place}"),
        }
    }
}

impl std::error::Error for Refusal {}

/// The answer of [`load`].
///
/// ```
/// let mut words = [0; parity::WORDS];
/// let loaded = parity::load(&[0x1000_0005, 0xF000_0000], &mut words);
/// assert_eq!(loaded, Ok(parity::Loaded { n: 5, m: 0, k: 0 }));
/// ```
#[derive(Clone, Copy, PartialEq, Eq, Debug)]
pub struct Loaded {
    pub n: usize,
    pub m: usize,
    pub k: usize,
}

/// The answer of [`house_code`].
///
/// ```
/// let mut words = [0; parity::WORDS];
/// assert_eq!(parity::house_code(3, &mut words), Ok(parity::HouseCode { n: 15, m: 4 }));
/// ```
#[derive(Clone, Copy, PartialEq, Eq, Debug)]
pub struct HouseCode {
    pub n: usize,
    pub m: usize,
}

/// The lowest and the highest check that hold a pair.
///
/// ```
/// let matrix = parity::Matrix::of_checks(2, &[&[0, 1], &[1], &[0, 1]])?;
/// assert_eq!(matrix.share(0, 1)?.held, Some(parity::Held { lowest: 0, highest: 2 }));
/// # Ok::<(), parity::Refusal>(())
/// ```
#[derive(Clone, Copy, PartialEq, Eq, Debug)]
pub struct Held {
    pub lowest: usize,
    pub highest: usize,
}

/// The answer of [`share`]: the share, and the checks that hold the pair, none if it is 0.
///
/// ```
/// let matrix = parity::Matrix::of_checks(2, &[&[0], &[1]])?;
/// assert_eq!(matrix.share(0, 1)?, parity::Shared { share: 0, held: None });
/// # Ok::<(), parity::Refusal>(())
/// ```
#[derive(Clone, Copy, PartialEq, Eq, Debug)]
pub struct Shared {
    pub share: u64,
    pub held: Option<Held>,
}

/// The answer of [`split`]: the share that the pair had, the new k, and the checks that held the pair.
///
/// ```
/// use parity::{Held, Matrix, Split};
///
/// let mut matrix = Matrix::of_checks(2, &[&[0, 1], &[0, 1]])?;
/// assert_eq!(matrix.split(0, 1)?, Split { share: 2, k: 1, held: Held { lowest: 0, highest: 1 } });
/// # Ok::<(), parity::Refusal>(())
/// ```
#[derive(Clone, Copy, PartialEq, Eq, Debug)]
pub struct Split {
    pub share: u64,
    pub k: usize,
    pub held: Held,
}

/// The answer of [`take_back`]: the number of other checks that contained the newest added bit, and the new k.
///
/// ```
/// let mut matrix = parity::Matrix::of_checks(2, &[&[0, 1], &[0, 1]])?;
/// matrix.split(0, 1)?;
/// assert_eq!(matrix.take_back()?, parity::TakenBack { share: 2, k: 0 });
/// # Ok::<(), parity::Refusal>(())
/// ```
#[derive(Clone, Copy, PartialEq, Eq, Debug)]
pub struct TakenBack {
    pub share: u64,
    pub k: usize,
}

/// The answer of [`orthogonalise`]: the splits made, the sum of s(s-1)/2 over their shares, k, and the checks that held the
/// pair of the final split, none if there was none.
///
/// ```
/// let mut matrix = parity::Matrix::of_checks(2, &[&[0, 1]])?;
/// let made = parity::Orthogonalised { splits: 0, sum: 0, k: 0, held: None };
/// assert_eq!(matrix.orthogonalise()?, made);
/// # Ok::<(), parity::Refusal>(())
/// ```
#[derive(Clone, Copy, PartialEq, Eq, Debug)]
pub struct Orthogonalised {
    pub splits: u64,
    pub sum: u64,
    pub k: usize,
    pub held: Option<Held>,
}

/// The answer of [`peel`]: how many sent and how many added bits were recovered (2 before and not afterwards), and how
/// many of each are left (2 afterwards).
///
/// ```
/// let matrix = parity::Matrix::of_checks(3, &[&[0, 1]])?;
/// let peeled = matrix.peel(&mut [2, 0, 2])?;
/// assert_eq!(peeled, parity::Peeled { recovered_sent: 1, recovered_added: 0, left_sent: 1, left_added: 0 });
/// # Ok::<(), parity::Refusal>(())
/// ```
#[derive(Clone, Copy, PartialEq, Eq, Debug)]
pub struct Peeled {
    pub recovered_sent: usize,
    pub recovered_added: usize,
    pub left_sent: usize,
    pub left_added: usize,
}

/// The answer of [`determine`]: how many sent and how many added bits were recovered, peeled and eliminated ones together,
/// and how many of each are left.
///
/// ```
/// let matrix = parity::Matrix::of_checks(2, &[&[0, 1], &[1]])?;
/// let determined = matrix.determine(&mut [2, 2])?;
/// assert_eq!(determined, parity::Determined { recovered_sent: 2, recovered_added: 0, left_sent: 0, left_added: 0 });
/// # Ok::<(), parity::Refusal>(())
/// ```
#[derive(Clone, Copy, PartialEq, Eq, Debug)]
pub struct Determined {
    pub recovered_sent: usize,
    pub recovered_added: usize,
    pub left_sent: usize,
    pub left_added: usize,
}

/// The answer of [`mend_packets`]: how many sent and how many added packets were recovered, how many of each are left, and how
/// many lanes no codeword agrees with.
///
/// ```
/// let matrix = parity::Matrix::of_checks(2, &[&[0, 1]])?;
/// let mended = matrix.mend_packets(&mut [1, 0], &mut [0, 44], &mut [0])?;
/// assert_eq!((mended.recovered_sent, mended.left_sent, mended.odd_lanes), (1, 0, 0));
/// # Ok::<(), parity::Refusal>(())
/// ```
#[derive(Clone, Copy, PartialEq, Eq, Debug)]
pub struct MendedPackets {
    pub recovered_sent: usize,
    pub recovered_added: usize,
    pub left_sent: usize,
    pub left_added: usize,
    pub odd_lanes: u64,
}

/// The answer of [`mend_block`]: the last stage to run (1 peeling, 2 peeling with the orthogonalised copy, 3 elimination), and
/// how many bits the two peelings recovered together.
///
/// ```
/// let matrix = parity::Matrix::of_checks(2, &[&[0, 1]])?;
/// assert_eq!(matrix.mend(&mut [2, 1])?, parity::Mended { stage: parity::STAGE_PEELING, recovered: 1 });
/// # Ok::<(), parity::Refusal>(())
/// ```
#[derive(Clone, Copy, PartialEq, Eq, Debug)]
pub struct Mended {
    pub stage: usize,
    pub recovered: usize,
}

/// A bit as it was received or as it results: sure, soft with a value whose sign favours 0 when positive, or erased.
///
/// ```
/// use parity::Bit;
///
/// let word = [Bit::Sure(false), Bit::Soft(-3.0), Bit::Erased];
/// assert_eq!(word.map(|bit| bit.parts().0), [0, 3, 2]);
/// ```
#[derive(Clone, Copy, PartialEq, Debug)]
pub enum Bit {
    Sure(bool),
    Soft(f32),
    Erased,
}

impl Bit {
    /// The byte and the float of a bit in slices lent to [`min_sum`].
    ///
    /// ```
    /// assert_eq!(parity::Bit::Sure(true).parts(), (1, 0.0));
    /// ```
    pub fn parts(self) -> (u8, f32) {
        match self {
            Bit::Sure(one) => (one as u8, 0.0),
            Bit::Soft(value) => (3, value),
            Bit::Erased => (2, 0.0),
        }
    }

    /// The bit of a byte and a float; the float is read only for byte 3. None for a byte above 3.
    ///
    /// ```
    /// use parity::Bit;
    ///
    /// assert_eq!(Bit::of(2, 7.5), Some(Bit::Erased));
    /// assert_eq!(Bit::of(4, 0.0), None);
    /// ```
    pub fn of(byte: u8, float: f32) -> Option<Bit> {
        match byte {
            0 | 1 => Some(Bit::Sure(byte == 1)),
            2 => Some(Bit::Erased),
            3 => Some(Bit::Soft(float)),
            _ => None,
        }
    }
}

/// What a check sends, where its other bits have soft values known within a range.
///
/// ```
/// assert_eq!(parity::min_sum_range(&[], &[]), Ok(parity::Ranged::SureZero));
/// ```
#[derive(Clone, Copy, PartialEq, Debug)]
pub enum Ranged {
    /// There are no other bits: sure 0.
    SureZero,
    /// A soft value from `low` to `high`: each is sent for some choice, and for no choice a value outside.
    Within { low: f32, high: f32 },
}

/// Room for the values of every call.
type Values = [u64; VALUES_MOST];

/// The two checks that stand from a place of the values on.
fn held(values: Values, place: usize) -> Held {
    Held { lowest: values[place] as usize, highest: values[place + 1] as usize }
}

/// Turns a call's number into its answer or its refusal.
fn reply(number: u32, values: Values) -> Result<Values, Refusal> {
    Err(match number {
        0 => return Ok(values),
        1 => Refusal::MatrixLength,
        2 => Refusal::Range,
        3 => Refusal::OneOutside,
        4 => Refusal::RuleA,
        5 => Refusal::FaultyWord { place: values[0] as usize },
        6 => Refusal::RecordShort { needed: values[0] as usize },
        7 => Refusal::Pair,
        8 => Refusal::Share { share: values[0] },
        9 => Refusal::Full,
        10 => Refusal::Length,
        11 => Refusal::Byte { place: values[0] as usize },
        12 => Refusal::Contradiction,
        13 => Refusal::Extended,
        15 => Refusal::NothingToTakeBack,
        16 => Refusal::CannotTakeBack,
        17 => Refusal::UnknownName,
        18 => Refusal::SetSize,
        19 => Refusal::SetsShort { needed: values[0] as usize },
        20 => Refusal::DifferentLengths,
        21 => Refusal::TooManyChecks,
        22 => Refusal::Rounds,
        23 => Refusal::Float { place: values[0] as usize },
        24 => Refusal::LowAboveHigh { place: values[0] as usize },
        other => panic!("the library returned {other}, which is no refusal"),
    })
}

/// Loads a record, of any form, and performs its splits; writes all words.
///
/// ```
/// let record = [0x1000_0102, 0x2000_0002, 0x3000_0000, 0x3000_0001, 0xF000_0000];
/// let mut words = [0; parity::WORDS];
/// assert_eq!(parity::load(&record, &mut words), Ok(parity::Loaded { n: 2, m: 1, k: 0 }));
/// assert_eq!(words[0], 0b11);
/// ```
pub fn load(record: &[u32], words: &mut [u64]) -> Result<Loaded, Refusal> {
    let mut values: Values = [0; VALUES_MOST];
    // The pointers and lengths are those of live slices, and the written ones are borrowed alone; so in each call below.
    let number = unsafe {
        ffi::parity_load(
            record.as_ptr(),
            record.len(),
            words.as_mut_ptr(),
            words.len(),
            values.as_mut_ptr(),
            values.len(),
        )
    };
    reply(number, values).map(|v| Loaded { n: v[0] as usize, m: v[1] as usize, k: v[2] as usize })
}

/// Writes a matrix as a record, of the second form where k = 0 and else of the third; answers the number of words used, and
/// leaves the others.
///
/// ```
/// // Checks {0,1,2,3}, {0,1,4,5} and {0,2,6} of 7 bits.
/// let mut words = vec![0; parity::WORDS];
/// (words[0], words[8], words[16]) = (0b000_1111, 0b011_0011, 0b100_0101);
/// let mut record = [0; 20];
/// assert_eq!(parity::write(&words, 7, 3, 0, &mut record), Ok(16));
/// assert_eq!(record[0], 0x4000_0307);
/// ```
pub fn write(words: &[u64], n: usize, m: usize, k: usize, record: &mut [u32]) -> Result<usize, Refusal> {
    let mut values: Values = [0; VALUES_MOST];
    let number = unsafe {
        ffi::parity_write(
            words.as_ptr(),
            words.len(),
            n,
            m,
            k,
            record.as_mut_ptr(),
            record.len(),
            values.as_mut_ptr(),
            values.len(),
        )
    };
    reply(number, values).map(|v| v[0] as usize)
}

/// The number of checks that contain both bits, and the lowest and the highest of them.
///
/// ```
/// // Checks {0,1,2,3}, {0,1,4,5} and {0,2,6} of 7 bits.
/// let mut words = vec![0; parity::WORDS];
/// (words[0], words[8], words[16]) = (0b000_1111, 0b011_0011, 0b100_0101);
/// let held = Some(parity::Held { lowest: 0, highest: 1 });
/// assert_eq!(parity::share(&words, 7, 3, 0, 0, 1), Ok(parity::Shared { share: 2, held }));
/// ```
pub fn share(words: &[u64], n: usize, m: usize, k: usize, u: usize, v: usize) -> Result<Shared, Refusal> {
    let mut values: Values = [0; VALUES_MOST];
    let number =
        unsafe { ffi::parity_share(words.as_ptr(), words.len(), n, m, k, u, v, values.as_mut_ptr(), values.len()) };
    reply(number, values).map(|v| Shared { share: v[0], held: (v[0] > 0).then(|| held(v, 1)) })
}

/// The number of four-cycles.
///
/// ```
/// // Checks {0,1,2,3}, {0,1,4,5} and {0,2,6} of 7 bits.
/// let mut words = vec![0; parity::WORDS];
/// (words[0], words[8], words[16]) = (0b000_1111, 0b011_0011, 0b100_0101);
/// assert_eq!(parity::count(&words, 7, 3, 0), Ok(2));
/// ```
pub fn count(words: &[u64], n: usize, m: usize, k: usize) -> Result<u64, Refusal> {
    let mut values: Values = [0; VALUES_MOST];
    let number = unsafe { ffi::parity_count(words.as_ptr(), words.len(), n, m, k, values.as_mut_ptr(), values.len()) };
    reply(number, values).map(|v| v[0])
}

/// Splits a pair of bits with share two or more.
///
/// ```
/// // Checks {0,1,2,3}, {0,1,4,5} and {0,2,6} of 7 bits.
/// let mut words = vec![0; parity::WORDS];
/// (words[0], words[8], words[16]) = (0b000_1111, 0b011_0011, 0b100_0101);
/// assert_eq!(parity::split(&mut words, 7, 3, 0, 0, 1).map(|split| split.k), Ok(1));
/// assert_eq!(parity::split(&mut words, 7, 3, 1, 0, 3), Err(parity::Refusal::Share { share: 0 }));
/// ```
pub fn split(words: &mut [u64], n: usize, m: usize, k: usize, u: usize, v: usize) -> Result<Split, Refusal> {
    let mut values: Values = [0; VALUES_MOST];
    let number =
        unsafe { ffi::parity_split(words.as_mut_ptr(), words.len(), n, m, k, u, v, values.as_mut_ptr(), values.len()) };
    reply(number, values).map(|v| Split { share: v[0], k: v[1] as usize, held: held(v, 2) })
}

/// Takes back the newest split: removes the newest added bit and its check, and in every other check that contains the bit
/// puts the two lower bits of its own check in its place. After a split that was made, words and k are as before it.
///
/// ```
/// // Checks {0,1,2,3}, {0,1,4,5} and {0,2,6} of 7 bits.
/// let mut words = vec![0; parity::WORDS];
/// (words[0], words[8], words[16]) = (0b000_1111, 0b011_0011, 0b100_0101);
/// parity::split(&mut words, 7, 3, 0, 0, 1)?;
/// assert_eq!(parity::take_back(&mut words, 7, 3, 1), Ok(parity::TakenBack { share: 2, k: 0 }));
/// assert_eq!(words[0], 0b000_1111);
/// # Ok::<(), parity::Refusal>(())
/// ```
pub fn take_back(words: &mut [u64], n: usize, m: usize, k: usize) -> Result<TakenBack, Refusal> {
    let mut values: Values = [0; VALUES_MOST];
    let number =
        unsafe { ffi::parity_take_back(words.as_mut_ptr(), words.len(), n, m, k, values.as_mut_ptr(), values.len()) };
    reply(number, values).map(|v| TakenBack { share: v[0], k: v[1] as usize })
}

/// Splits until no pair has share two or more, or is refused with [`Refusal::FullAfter`].
///
/// ```
/// // Checks {0,1,2,3}, {0,1,4,5} and {0,2,6} of 7 bits.
/// let mut words = vec![0; parity::WORDS];
/// (words[0], words[8], words[16]) = (0b000_1111, 0b011_0011, 0b100_0101);
/// let made = parity::orthogonalise(&mut words, 7, 3, 0)?;
/// assert_eq!((made.splits, made.sum, made.k), (1, 1, 1));
/// # Ok::<(), parity::Refusal>(())
/// ```
pub fn orthogonalise(words: &mut [u64], n: usize, m: usize, k: usize) -> Result<Orthogonalised, Refusal> {
    let mut values: Values = [0; VALUES_MOST];
    let number = unsafe {
        ffi::parity_orthogonalise(words.as_mut_ptr(), words.len(), n, m, k, values.as_mut_ptr(), values.len())
    };
    let [splits, sum, last, ..] = values;
    let k = last as usize;
    let held = (splits > 0).then(|| held(values, 3));
    match reply(number, values) {
        Ok(_) => Ok(Orthogonalised { splits, sum, k, held }),
        Err(Refusal::Full) => Err(Refusal::FullAfter { splits, sum, k, held }),
        Err(other) => Err(other),
    }
}

/// Whether the word of n+k bytes is a codeword.
///
/// ```
/// // Checks {0,1,2,3}, {0,1,4,5} and {0,2,6} of 7 bits.
/// let mut words = vec![0; parity::WORDS];
/// (words[0], words[8], words[16]) = (0b000_1111, 0b011_0011, 0b100_0101);
/// assert_eq!(parity::verify(&words, 7, 3, 0, &[0, 0, 1, 1, 1, 1, 1]), Ok(true));
/// ```
pub fn verify(words: &[u64], n: usize, m: usize, k: usize, word: &[u8]) -> Result<bool, Refusal> {
    let mut values: Values = [0; VALUES_MOST];
    let number = unsafe {
        ffi::parity_verify(
            words.as_ptr(),
            words.len(),
            n,
            m,
            k,
            word.as_ptr(),
            word.len(),
            values.as_mut_ptr(),
            values.len(),
        )
    };
    reply(number, values).map(|v| v[0] == 1)
}

/// Writes the n sent bits and then the k added ones into the word of n+k bytes.
///
/// ```
/// // Checks {0,1,2,3}, {0,1,4,5} and {0,2,6} of 7 bits.
/// let mut words = vec![0; parity::WORDS];
/// (words[0], words[8], words[16]) = (0b000_1111, 0b011_0011, 0b100_0101);
/// let k = parity::orthogonalise(&mut words, 7, 3, 0)?.k;
/// let mut word = [0; 8];
/// parity::extend(&words, 7, 3, k, &[1, 0, 0, 0, 0, 0, 0], &mut word)?;
/// assert_eq!(word, [1, 0, 0, 0, 0, 0, 0, 1]);
/// # Ok::<(), parity::Refusal>(())
/// ```
pub fn extend(words: &[u64], n: usize, m: usize, k: usize, sent: &[u8], word: &mut [u8]) -> Result<(), Refusal> {
    let mut values: Values = [0; VALUES_MOST];
    let number = unsafe {
        ffi::parity_extend(
            words.as_ptr(),
            words.len(),
            n,
            m,
            k,
            sent.as_ptr(),
            sent.len(),
            word.as_mut_ptr(),
            word.len(),
            values.as_mut_ptr(),
            values.len(),
        )
    };
    reply(number, values).map(|_| ())
}

/// Whether no check contains exactly one bit of the set, given as n+k bytes.
///
/// ```
/// // Checks {0,1,2,3}, {0,1,4,5} and {0,2,6} of 7 bits.
/// let mut words = vec![0; parity::WORDS];
/// (words[0], words[8], words[16]) = (0b000_1111, 0b011_0011, 0b100_0101);
/// assert_eq!(parity::is_stopping(&words, 7, 3, 0, &[1, 1, 1, 0, 0, 0, 0]), Ok(true));
/// ```
pub fn is_stopping(words: &[u64], n: usize, m: usize, k: usize, set: &[u8]) -> Result<bool, Refusal> {
    let mut values: Values = [0; VALUES_MOST];
    let number = unsafe {
        ffi::parity_is_stopping(
            words.as_ptr(),
            words.len(),
            n,
            m,
            k,
            set.as_ptr(),
            set.len(),
            values.as_mut_ptr(),
            values.len(),
        )
    };
    reply(number, values).map(|v| v[0] == 1)
}

/// Recovers the erased bits (2) of the word of n+k bytes, as far as checks with one erased bit reach.
///
/// ```
/// // Checks {0,1,2,3}, {0,1,4,5} and {0,2,6} of 7 bits.
/// let mut words = vec![0; parity::WORDS];
/// (words[0], words[8], words[16]) = (0b000_1111, 0b011_0011, 0b100_0101);
/// let mut word = [2, 0, 1, 1, 1, 1, 1];
/// assert_eq!(parity::peel(&words, 7, 3, 0, &mut word).map(|peeled| peeled.recovered_sent), Ok(1));
/// assert_eq!(word[0], 0);
/// ```
pub fn peel(words: &[u64], n: usize, m: usize, k: usize, word: &mut [u8]) -> Result<Peeled, Refusal> {
    let mut values: Values = [0; VALUES_MOST];
    let number = unsafe {
        ffi::parity_peel(
            words.as_ptr(),
            words.len(),
            n,
            m,
            k,
            word.as_mut_ptr(),
            word.len(),
            values.as_mut_ptr(),
            values.len(),
        )
    };
    reply(number, values).map(|v| Peeled {
        recovered_sent: v[0] as usize,
        recovered_added: v[1] as usize,
        left_sent: v[2] as usize,
        left_added: v[3] as usize,
    })
}

/// Writes each erased bit (2) of the word of n+k bytes at which all codewords that agree with it have one value. Refused with
/// [`Refusal::Contradiction`] exactly when no codeword agrees.
///
/// ```
/// // Checks {0,1,2,3}, {0,1,4,5} and {0,2,6} of 7 bits.
/// let mut words = vec![0; parity::WORDS];
/// (words[0], words[8], words[16]) = (0b000_1111, 0b011_0011, 0b100_0101);
/// let mut word = [2, 2, 2, 1, 1, 1, 1];
/// assert_eq!(parity::determine(&words, 7, 3, 0, &mut word).map(|found| found.left_sent), Ok(0));
/// assert_eq!(word, [0, 0, 1, 1, 1, 1, 1]);
/// ```
pub fn determine(words: &[u64], n: usize, m: usize, k: usize, word: &mut [u8]) -> Result<Determined, Refusal> {
    let mut values: Values = [0; VALUES_MOST];
    let number = unsafe {
        ffi::parity_determine(
            words.as_ptr(),
            words.len(),
            n,
            m,
            k,
            word.as_mut_ptr(),
            word.len(),
            values.as_mut_ptr(),
            values.len(),
        )
    };
    reply(number, values).map(|v| Determined {
        recovered_sent: v[0] as usize,
        recovered_added: v[1] as usize,
        left_sent: v[2] as usize,
        left_added: v[3] as usize,
    })
}

/// Recovers lost packets: bit b of the code is packet b, of as many words as `odd` has, and bit i of all packets is lane i, a word
/// of its own. Does in every lane what [`determine`] does, and flags in `odd` the lanes in which that is refused with
/// [`Refusal::Contradiction`], which stay as they were. `lost` has a byte for each packet, 1 where it is lost, before and after.
///
/// ```
/// // Checks {0,1,2,3}, {0,1,4,5} and {0,2,6} of 7 bits.
/// let mut words = vec![0; parity::WORDS];
/// (words[0], words[8], words[16]) = (0b000_1111, 0b011_0011, 0b100_0101);
/// // Packets 0 to 2 are lost; a packet is one word here.
/// let (mut lost, mut packets, mut odd) = ([1, 1, 1, 0, 0, 0, 0], [9, 9, 9, 6, 6, 6, 6], [0]);
/// parity::mend_packets(&words, 7, 3, 0, &mut lost, &mut packets, &mut odd)?;
/// assert_eq!((lost, packets), ([0; 7], [0, 0, 6, 6, 6, 6, 6]));
/// # Ok::<(), parity::Refusal>(())
/// ```
pub fn mend_packets(
    words: &[u64],
    n: usize,
    m: usize,
    k: usize,
    lost: &mut [u8],
    packets: &mut [u64],
    odd: &mut [u64],
) -> Result<MendedPackets, Refusal> {
    let mut values: Values = [0; VALUES_MOST];
    let number = unsafe {
        ffi::parity_mend_packets(
            words.as_ptr(),
            words.len(),
            n,
            m,
            k,
            lost.as_mut_ptr(),
            lost.len(),
            packets.as_mut_ptr(),
            packets.len(),
            odd.as_mut_ptr(),
            odd.len(),
            values.as_mut_ptr(),
            values.len(),
        )
    };
    reply(number, values).map(|v| MendedPackets {
        recovered_sent: v[0] as usize,
        recovered_added: v[1] as usize,
        left_sent: v[2] as usize,
        left_added: v[3] as usize,
        odd_lanes: v[4],
    })
}

/// Mends the received word of n bytes with a matrix with k = 0: writes what [`determine`] writes, by peeling, then peeling with
/// the orthogonalised matrix, then elimination, as far as bits remain. The matrix is left as it is. Refused with
/// [`Refusal::Contradiction`] exactly when no codeword agrees.
///
/// ```
/// // Checks {0,1,2,3}, {0,1,4,5} and {0,2,6} of 7 bits.
/// let mut words = vec![0; parity::WORDS];
/// (words[0], words[8], words[16]) = (0b000_1111, 0b011_0011, 0b100_0101);
/// let mut word = [2, 2, 2, 1, 1, 1, 1];
/// assert_eq!(parity::mend_block(&words, 7, 3, 0, &mut word), Ok(parity::Mended { stage: 2, recovered: 4 }));
/// assert_eq!(word, [0, 0, 1, 1, 1, 1, 1]);
/// ```
pub fn mend_block(words: &[u64], n: usize, m: usize, k: usize, word: &mut [u8]) -> Result<Mended, Refusal> {
    let mut values: Values = [0; VALUES_MOST];
    let number = unsafe {
        ffi::parity_mend_block(
            words.as_ptr(),
            words.len(),
            n,
            m,
            k,
            word.as_mut_ptr(),
            word.len(),
            values.as_mut_ptr(),
            values.len(),
        )
    };
    reply(number, values).map(|v| Mended { stage: v[0] as usize, recovered: v[1] as usize })
}

/// The number of parity bits of a matrix with k = 0.
///
/// ```
/// // Checks {0,1,2,3}, {0,1,4,5} and {0,2,6} of 7 bits.
/// let mut words = vec![0; parity::WORDS];
/// (words[0], words[8], words[16]) = (0b000_1111, 0b011_0011, 0b100_0101);
/// assert_eq!(parity::rank(&words, 7, 3, 0), Ok(3));
/// ```
pub fn rank(words: &[u64], n: usize, m: usize, k: usize) -> Result<usize, Refusal> {
    let mut values: Values = [0; VALUES_MOST];
    let number = unsafe { ffi::parity_rank(words.as_ptr(), words.len(), n, m, k, values.as_mut_ptr(), values.len()) };
    reply(number, values).map(|v| v[0] as usize)
}

/// Writes the codeword of n bytes that holds the message of n - rank bytes.
///
/// ```
/// // Checks {0,1,2,3}, {0,1,4,5} and {0,2,6} of 7 bits.
/// let mut words = vec![0; parity::WORDS];
/// (words[0], words[8], words[16]) = (0b000_1111, 0b011_0011, 0b100_0101);
/// let mut word = [0; 7];
/// parity::encode(&words, 7, 3, 0, &[1, 1, 1, 1], &mut word)?;
/// assert_eq!(parity::verify(&words, 7, 3, 0, &word), Ok(true));
/// # Ok::<(), parity::Refusal>(())
/// ```
pub fn encode(words: &[u64], n: usize, m: usize, k: usize, message: &[u8], word: &mut [u8]) -> Result<(), Refusal> {
    let mut values: Values = [0; VALUES_MOST];
    let number = unsafe {
        ffi::parity_encode(
            words.as_ptr(),
            words.len(),
            n,
            m,
            k,
            message.as_ptr(),
            message.len(),
            word.as_mut_ptr(),
            word.len(),
            values.as_mut_ptr(),
            values.len(),
        )
    };
    reply(number, values).map(|_| ())
}

/// Marks the n bits of a matrix with k = 0: 1 for a bit that holds the message, 0 for a parity bit. Parity bits are chosen from
/// bit 0 upwards, so that the message need not stand first. Of a word that [`encode`] writes, the bytes at the ones are the message.
/// This call is beyond documents 01 and 02.
///
/// ```
/// // Checks {0,1,2,3}, {0,1,4,5} and {0,2,6} of 7 bits.
/// let mut words = vec![0; parity::WORDS];
/// (words[0], words[8], words[16]) = (0b000_1111, 0b011_0011, 0b100_0101);
/// let mut set = [0; 7];
/// parity::message_bits(&words, 7, 3, 0, &mut set)?;
/// assert_eq!(set, [0, 0, 0, 1, 1, 1, 1]);
/// # Ok::<(), parity::Refusal>(())
/// ```
pub fn message_bits(words: &[u64], n: usize, m: usize, k: usize, set: &mut [u8]) -> Result<(), Refusal> {
    let mut values: Values = [0; VALUES_MOST];
    let number = unsafe {
        ffi::parity_message_bits(
            words.as_ptr(),
            words.len(),
            n,
            m,
            k,
            set.as_mut_ptr(),
            set.len(),
            values.as_mut_ptr(),
            values.len(),
        )
    };
    reply(number, values).map(|_| ())
}

/// Copies the house code of a name ([`HOUSE_CIRCULANT`] to [`HOUSE_HAMMING_31`], or any other number, which is refused) into
/// `words`, all of which are written; it is a matrix with k = 0.
///
/// ```
/// let mut words = vec![0; parity::WORDS];
/// let code = parity::house_code(parity::HOUSE_HAMMING_7, &mut words);
/// assert_eq!((code, words[0]), (Ok(parity::HouseCode { n: 7, m: 3 }), 0b101_0101));
/// ```
pub fn house_code(name: usize, words: &mut [u64]) -> Result<HouseCode, Refusal> {
    let mut values: Values = [0; VALUES_MOST];
    let number =
        unsafe { ffi::parity_house_code(name, words.as_mut_ptr(), words.len(), values.as_mut_ptr(), values.len()) };
    reply(number, values).map(|v| HouseCode { n: v[0] as usize, m: v[1] as usize })
}

/// Lists every stopping set of exactly t sent bits (1 to [`SET_SIZE_MOST`]) in `sets`, whose further places are left, and answers
/// an iterator over them: each is a slice of t bits, rising; they come in dictionary order; `len` says how many there are.
///
/// All checks count, given and added, and no added bit is a member: with k above 0 this is not the list of the losses that defeat
/// peeling where all added bits are erased too. A `sets` of length 0 asks how many places are needed ([`Refusal::SetsShort`]).
///
/// ```
/// // Checks {0,1,2,3}, {0,1,4,5} and {0,2,6} of 7 bits.
/// let mut words = vec![0; parity::WORDS];
/// (words[0], words[8], words[16]) = (0b000_1111, 0b011_0011, 0b100_0101);
/// let mut sets = [0; 100];
/// let found = parity::stopping_sets(&words, 7, 3, 0, 2, &mut sets)?;
/// assert_eq!(found.collect::<Vec<_>>(), [[4, 5]]);
/// # Ok::<(), parity::Refusal>(())
/// ```
pub fn stopping_sets<'a>(
    words: &[u64],
    n: usize,
    m: usize,
    k: usize,
    t: usize,
    sets: &'a mut [u16],
) -> Result<ChunksExact<'a, u16>, Refusal> {
    let mut values: Values = [0; VALUES_MOST];
    let number = unsafe {
        ffi::parity_stopping_sets(
            words.as_ptr(),
            words.len(),
            n,
            m,
            k,
            t,
            sets.as_mut_ptr(),
            sets.len(),
            values.as_mut_ptr(),
            values.len(),
        )
    };
    let listed = reply(number, values)?[0] as usize;
    Ok(sets[..t * listed].chunks_exact(t))
}

/// Joins two matrices with k = 0 over the same bits into `words3`, all of which are written: the first's checks, then those of
/// the second that equal no earlier check of the result; answers the number of checks.
///
/// ```
/// // Checks {0,1,2,3}, {0,1,4,5} and {0,2,6} of 7 bits.
/// let mut words = vec![0; parity::WORDS];
/// (words[0], words[8], words[16]) = (0b000_1111, 0b011_0011, 0b100_0101);
/// let mut both = vec![0; parity::WORDS];
/// assert_eq!(parity::join(&words, 7, 3, 0, &words, 7, 3, 0, &mut both), Ok(3));
/// assert_eq!(both, words);
/// ```
pub fn join(
    words1: &[u64],
    n1: usize,
    m1: usize,
    k1: usize,
    words2: &[u64],
    n2: usize,
    m2: usize,
    k2: usize,
    words3: &mut [u64],
) -> Result<usize, Refusal> {
    let mut values: Values = [0; VALUES_MOST];
    let number = unsafe {
        ffi::parity_join(
            words1.as_ptr(),
            words1.len(),
            n1,
            m1,
            k1,
            words2.as_ptr(),
            words2.len(),
            n2,
            m2,
            k2,
            words3.as_mut_ptr(),
            words3.len(),
            values.as_mut_ptr(),
            values.len(),
        )
    };
    reply(number, values).map(|v| v[0] as usize)
}

/// Decodes a word of sure, soft and erased bits by min-sum rounds: each bit's result replaces its byte and its float. The
/// messages need [`MESSAGES`] bytes and floats, whatever they hold; an answer leaves them zero.
///
/// ```
/// // Checks {0,1,2,3}, {0,1,4,5} and {0,2,6} of 7 bits.
/// let mut words = vec![0; parity::WORDS];
/// (words[0], words[8], words[16]) = (0b000_1111, 0b011_0011, 0b100_0101);
/// let (mut word, mut floats) = ([3, 0, 1, 1, 1, 1, 1], [0.25, 0.0, 0.0, 0.0, 0.0, 0.0, 0.0]);
/// let (mut bytes, mut messages) = (vec![0; parity::MESSAGES], vec![0.0; parity::MESSAGES]);
/// parity::min_sum(&words, 7, 3, 0, 1, &mut word, &mut floats, &mut bytes, &mut messages)?;
/// assert_eq!((word[0], floats[0]), (0, 0.0));
/// # Ok::<(), parity::Refusal>(())
/// ```
pub fn min_sum(
    words: &[u64],
    n: usize,
    m: usize,
    k: usize,
    rounds: usize,
    word: &mut [u8],
    floats: &mut [f32],
    message_bytes: &mut [u8],
    message_floats: &mut [f32],
) -> Result<(), Refusal> {
    let mut values: Values = [0; VALUES_MOST];
    let number = unsafe {
        ffi::parity_min_sum(
            words.as_ptr(),
            words.len(),
            n,
            m,
            k,
            rounds,
            word.as_mut_ptr(),
            word.len(),
            floats.as_mut_ptr(),
            floats.len(),
            message_bytes.as_mut_ptr(),
            message_bytes.len(),
            message_floats.as_mut_ptr(),
            message_floats.len(),
            values.as_mut_ptr(),
            values.len(),
        )
    };
    reply(number, values).map(|_| ())
}

/// [`min_sum`] on bits, in place.
///
/// ```
/// // Checks {0,1,2,3}, {0,1,4,5} and {0,2,6} of 7 bits.
/// let mut words = vec![0; parity::WORDS];
/// (words[0], words[8], words[16]) = (0b000_1111, 0b011_0011, 0b100_0101);
/// use parity::Bit;
///
/// let mut bits = [Bit::Sure(true); 7];
/// bits[0] = Bit::Soft(1.5);
/// bits[1] = Bit::Erased;
/// let (mut bytes, mut floats) = (vec![0; parity::MESSAGES], vec![0.0; parity::MESSAGES]);
/// parity::min_sum_bits(&words, 7, 3, 0, 2, &mut bits, &mut bytes, &mut floats)?;
/// assert_eq!(bits[..2], [Bit::Sure(false), Bit::Sure(false)]);
/// # Ok::<(), parity::Refusal>(())
/// ```
pub fn min_sum_bits(
    words: &[u64],
    n: usize,
    m: usize,
    k: usize,
    rounds: usize,
    bits: &mut [Bit],
    message_bytes: &mut [u8],
    message_floats: &mut [f32],
) -> Result<(), Refusal> {
    // A matrix has at most 512 bits: a slice of 513 is refused as a longer one is.
    let length = bits.len().min(513);
    let mut word = [0; 513];
    let mut floats = [0.0; 513];
    for (b, bit) in bits.iter().take(length).enumerate() {
        (word[b], floats[b]) = bit.parts();
    }
    min_sum(words, n, m, k, rounds, &mut word[..length], &mut floats[..length], message_bytes, message_floats)?;
    for (b, bit) in bits.iter_mut().enumerate() {
        *bit = Bit::of(word[b], floats[b]).expect("a result is sure, soft or erased");
    }
    Ok(())
}

/// The range of one check's min-sum answer over all choices inside the ranges of its other bits, from their lows and highs.
///
/// ```
/// let ranged = parity::min_sum_range(&[1.0, -3.0], &[2.0, -1.5]);
/// assert_eq!(ranged, Ok(parity::Ranged::Within { low: -2.0, high: -1.0 }));
/// ```
pub fn min_sum_range(lows: &[f32], highs: &[f32]) -> Result<Ranged, Refusal> {
    let mut ends = [0.0; 2];
    let mut values: Values = [0; VALUES_MOST];
    let number = unsafe {
        ffi::parity_min_sum_range(
            lows.as_ptr(),
            lows.len(),
            highs.as_ptr(),
            highs.len(),
            ends.as_mut_ptr(),
            ends.len(),
            values.as_mut_ptr(),
            values.len(),
        )
    };
    reply(number, values).map(|v| match v[0] {
        0 => Ranged::SureZero,
        _ => Ranged::Within { low: ends[0], high: ends[1] },
    })
}
