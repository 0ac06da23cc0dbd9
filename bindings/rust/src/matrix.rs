//! A matrix in memory of its own, so that a caller does not carry four arguments.

use crate::{
    Bit, Determined, HouseCode, Loaded, MESSAGES, Mended, MendedPackets, Orthogonalised, Peeled, RECORD_MOST, Refusal,
    Shared, Split, TakenBack, WORDS,
};

/// A matrix that the library accepted: its words with n, m and k. Each method is the call of the same name; `mend` is
/// `mend_block`. It is loaded once, and mends every word; [`Matrix::determine`] leaves the same word, sooner.
///
/// ```
/// use parity::{Matrix, Mended, Refusal, ERASED, STAGE_EXTENDED};
///
/// let matrix = Matrix::of_checks(7, &[&[0, 1, 2, 3], &[0, 1, 4, 5], &[0, 2, 6]])?;
/// let mut word = [ERASED, ERASED, ERASED, 1, 1, 1, 1];
/// assert_eq!(matrix.mend(&mut word)?, Mended { stage: STAGE_EXTENDED, recovered: 4 });
/// assert_eq!(word, [0, 0, 1, 1, 1, 1, 1]);
/// # Ok::<(), Refusal>(())
/// ```
#[derive(Clone, PartialEq, Eq, Debug)]
pub struct Matrix {
    words: Vec<u64>,
    n: usize,
    m: usize,
    k: usize,
}

/// Making a matrix, and looking at it.
impl Matrix {
    /// Loads a record, of any form, and performs its splits.
    ///
    /// ```
    /// use parity::{Matrix, Refusal};
    ///
    /// let matrix = Matrix::load(&[0x1000_0102, 0x2000_0002, 0x3000_0000, 0x3000_0001, 0xF000_0000])?;
    /// assert_eq!((matrix.n(), matrix.m(), matrix.k()), (2, 1, 0));
    /// assert_eq!(Matrix::load(&[]), Err(Refusal::FaultyWord { place: 0 }));
    /// # Ok::<(), Refusal>(())
    /// ```
    pub fn load(record: &[u32]) -> Result<Matrix, Refusal> {
        let mut words = vec![0; WORDS];
        let Loaded { n, m, k } = crate::load(record, &mut words)?;
        Ok(Matrix { words, n, m, k })
    }

    /// The matrix of n bits and these checks, each the bits that it contains, in any order. It is loaded as a record of the
    /// first form, and refused as that is: a bit at n or above, or twice, is a faulty word.
    ///
    /// ```
    /// use parity::{Matrix, Refusal};
    ///
    /// let matrix = Matrix::of_checks(3, &[&[2, 0], &[1, 2]])?;
    /// assert_eq!(matrix.bits_of(0), [0, 2]);
    /// assert_eq!(Matrix::of_checks(3, &[&[0, 3]]), Err(Refusal::FaultyWord { place: 3 }));
    /// assert_eq!(Matrix::of_checks(1000, &[]), Err(Refusal::FaultyWord { place: 0 }));
    /// # Ok::<(), Refusal>(())
    /// ```
    pub fn of_checks(n: usize, checks: &[&[usize]]) -> Result<Matrix, Refusal> {
        const FIELD: usize = 0x0FFF_FFFF;
        let m = checks.len();
        // What does not fit its byte is no size of a matrix, and neither is 0.
        let sizes = if n < 256 && m < 256 { m << 8 | n } else { 0 };
        let mut record = vec![0x1000_0000 | sizes as u32];
        for check in checks {
            let mut bits = check.to_vec();
            bits.sort_unstable();
            record.push(0x2000_0000 | bits.len().min(FIELD) as u32);
            record.extend(bits.iter().map(|&bit| 0x3000_0000 | bit.min(FIELD) as u32));
        }
        record.push(0xF000_0000);
        Matrix::load(&record)
    }

    /// The matrix that stands in these words, if it is accepted.
    ///
    /// ```
    /// use parity::{Matrix, Refusal, WORDS};
    ///
    /// let mut words = vec![0; WORDS];
    /// words[0] = 0b11;
    /// assert_eq!(Matrix::of_words(words.clone(), 2, 1, 0)?.bits_of(0), [0, 1]);
    /// assert_eq!(Matrix::of_words(words, 1, 1, 0), Err(Refusal::OneOutside));
    /// # Ok::<(), Refusal>(())
    /// ```
    pub fn of_words(words: Vec<u64>, n: usize, m: usize, k: usize) -> Result<Matrix, Refusal> {
        // An equal pair is refused 7, behind every cause that is about the matrix.
        match crate::share(&words, n, m, k, 0, 0) {
            Err(Refusal::Pair) => Ok(Matrix { words, n, m, k }),
            Err(refusal) => Err(refusal),
            Ok(_) => unreachable!("a pair of equal bits has no share"),
        }
    }

    /// The house code of a name, [`HOUSE_CIRCULANT`](crate::HOUSE_CIRCULANT) to [`HOUSE_HAMMING_31`](crate::HOUSE_HAMMING_31).
    ///
    /// ```
    /// use parity::{Matrix, Refusal, HOUSE_CIRCULANT};
    ///
    /// let matrix = Matrix::house_code(HOUSE_CIRCULANT)?;
    /// assert_eq!((matrix.n(), matrix.m()), (23, 23));
    /// assert_eq!(Matrix::house_code(5), Err(Refusal::UnknownName));
    /// # Ok::<(), Refusal>(())
    /// ```
    pub fn house_code(name: usize) -> Result<Matrix, Refusal> {
        let mut words = vec![0; WORDS];
        let HouseCode { n, m } = crate::house_code(name, &mut words)?;
        Ok(Matrix { words, n, m, k: 0 })
    }

    /// The record of the matrix: of the second form where k = 0, and else of the third.
    ///
    /// ```
    /// use parity::{Matrix, Refusal};
    ///
    /// let matrix = Matrix::of_checks(2, &[&[0, 1]])?;
    /// assert_eq!(matrix.record()?, [0x4000_0102, 0x2000_0002, 0x3000_0000, 0x3000_0001, 0xF000_0000]);
    /// assert_eq!(Matrix::load(&matrix.record()?)?, matrix);
    /// # Ok::<(), Refusal>(())
    /// ```
    pub fn record(&self) -> Result<Vec<u32>, Refusal> {
        let mut record = vec![0; RECORD_MOST];
        let used = crate::write(&self.words, self.n, self.m, self.k, &mut record)?;
        record.truncate(used);
        Ok(record)
    }

    /// The number of sent bits.
    ///
    /// ```
    /// assert_eq!(parity::Matrix::of_checks(7, &[])?.n(), 7);
    /// # Ok::<(), parity::Refusal>(())
    /// ```
    pub fn n(&self) -> usize {
        self.n
    }

    /// The number of given checks.
    ///
    /// ```
    /// assert_eq!(parity::Matrix::of_checks(7, &[&[0, 6]])?.m(), 1);
    /// # Ok::<(), parity::Refusal>(())
    /// ```
    pub fn m(&self) -> usize {
        self.m
    }

    /// The number of added bits, each with a check of its own.
    ///
    /// ```
    /// let matrix = parity::Matrix::of_checks(3, &[&[0, 1], &[0, 1, 2]])?;
    /// assert_eq!((matrix.k(), matrix.orthogonalised()?.k()), (0, 1));
    /// # Ok::<(), parity::Refusal>(())
    /// ```
    pub fn k(&self) -> usize {
        self.k
    }

    /// The words, as the plain calls take them.
    ///
    /// ```
    /// let matrix = parity::Matrix::of_checks(3, &[&[0, 2]])?;
    /// assert_eq!(matrix.words()[0], 0b101);
    /// assert_eq!(parity::count(matrix.words(), matrix.n(), matrix.m(), matrix.k()), matrix.count());
    /// # Ok::<(), parity::Refusal>(())
    /// ```
    pub fn words(&self) -> &[u64] {
        &self.words
    }

    /// The bits that a check contains, rising; none for a check that is not there.
    ///
    /// ```
    /// let matrix = parity::Matrix::of_checks(70, &[&[69, 3]])?;
    /// assert_eq!(matrix.bits_of(0), [3, 69]);
    /// assert_eq!(matrix.bits_of(600), []);
    /// # Ok::<(), parity::Refusal>(())
    /// ```
    pub fn bits_of(&self, check: usize) -> Vec<usize> {
        if check >= self.m + self.k {
            return Vec::new();
        }
        let row = &self.words[8 * check..8 * check + 8];
        (0..self.n + self.k).filter(|bit| row[bit / 64] >> (bit % 64) & 1 == 1).collect()
    }

    /// The same matrix without four-cycles: a copy, [orthogonalised](Matrix::orthogonalise).
    ///
    /// ```
    /// use parity::{Matrix, Refusal};
    ///
    /// let matrix = Matrix::of_checks(7, &[&[0, 1, 2, 3], &[0, 1, 4, 5], &[0, 2, 6]])?;
    /// assert_eq!((matrix.count()?, matrix.orthogonalised()?.count()?), (2, 0));
    /// # Ok::<(), Refusal>(())
    /// ```
    pub fn orthogonalised(&self) -> Result<Matrix, Refusal> {
        let mut other = self.clone();
        other.orthogonalise()?;
        Ok(other)
    }

    /// The matrix with all its splits taken back.
    ///
    /// ```
    /// use parity::{Matrix, Refusal};
    ///
    /// let matrix = Matrix::of_checks(7, &[&[0, 1, 2, 3], &[0, 1, 4, 5], &[0, 2, 6]])?;
    /// assert_eq!(matrix.orthogonalised()?.given()?, matrix);
    /// # Ok::<(), Refusal>(())
    /// ```
    pub fn given(&self) -> Result<Matrix, Refusal> {
        let mut other = self.clone();
        while other.k > 0 {
            other.take_back()?;
        }
        Ok(other)
    }
}

/// The calls.
impl Matrix {
    /// The number of checks that contain both bits, and the lowest and the highest of them.
    ///
    /// ```
    /// use parity::{Held, Matrix, Refusal, Shared};
    ///
    /// let matrix = Matrix::of_checks(3, &[&[0, 1], &[2], &[0, 1, 2]])?;
    /// assert_eq!(matrix.share(1, 0)?, Shared { share: 2, held: Some(Held { lowest: 0, highest: 2 }) });
    /// assert_eq!(matrix.share(1, 1), Err(Refusal::Pair));
    /// # Ok::<(), Refusal>(())
    /// ```
    pub fn share(&self, u: usize, v: usize) -> Result<Shared, Refusal> {
        crate::share(&self.words, self.n, self.m, self.k, u, v)
    }

    /// The cycle count.
    ///
    /// ```
    /// assert_eq!(parity::Matrix::house_code(parity::HOUSE_CIRCULANT)?.count()?, 598);
    /// # Ok::<(), parity::Refusal>(())
    /// ```
    pub fn count(&self) -> Result<u64, Refusal> {
        crate::count(&self.words, self.n, self.m, self.k)
    }

    /// Splits a pair of bits with share two or more.
    ///
    /// ```
    /// use parity::{Matrix, Refusal};
    ///
    /// let mut matrix = Matrix::of_checks(3, &[&[0, 1], &[0, 1, 2]])?;
    /// assert_eq!(matrix.split(0, 1)?.share, 2);
    /// assert_eq!((matrix.bits_of(1), matrix.bits_of(2)), (vec![2, 3], vec![0, 1, 3]));
    /// # Ok::<(), Refusal>(())
    /// ```
    pub fn split(&mut self, u: usize, v: usize) -> Result<Split, Refusal> {
        let made = crate::split(&mut self.words, self.n, self.m, self.k, u, v)?;
        self.k = made.k;
        Ok(made)
    }

    /// Takes back the newest split.
    ///
    /// ```
    /// use parity::{Matrix, Refusal, TakenBack};
    ///
    /// let mut matrix = Matrix::of_checks(3, &[&[0, 1], &[0, 1, 2]])?;
    /// let before = matrix.clone();
    /// matrix.split(0, 1)?;
    /// assert_eq!(matrix.take_back()?, TakenBack { share: 2, k: 0 });
    /// assert_eq!(matrix, before);
    /// assert_eq!(matrix.take_back(), Err(Refusal::NothingToTakeBack));
    /// # Ok::<(), Refusal>(())
    /// ```
    pub fn take_back(&mut self) -> Result<TakenBack, Refusal> {
        let made = crate::take_back(&mut self.words, self.n, self.m, self.k)?;
        self.k = made.k;
        Ok(made)
    }

    /// Splits until no pair has share two or more. Refused with [`Refusal::FullAfter`] it stands after the splits made.
    ///
    /// ```
    /// use parity::{Matrix, Refusal};
    ///
    /// let mut matrix = Matrix::of_checks(3, &[&[0, 1, 2], &[0, 1, 2]])?;
    /// let made = matrix.orthogonalise()?;
    /// assert_eq!((made.splits, made.sum, matrix.k(), matrix.count()?), (2, 2, 2, 0));
    /// # Ok::<(), Refusal>(())
    /// ```
    pub fn orthogonalise(&mut self) -> Result<Orthogonalised, Refusal> {
        let made = crate::orthogonalise(&mut self.words, self.n, self.m, self.k);
        match made {
            Ok(Orthogonalised { k, .. }) | Err(Refusal::FullAfter { k, .. }) => self.k = k,
            Err(_) => {}
        }
        made
    }

    /// Whether the word of n+k bytes is a codeword.
    ///
    /// ```
    /// let matrix = parity::Matrix::of_checks(3, &[&[0, 1]])?;
    /// assert!(matrix.verify(&[1, 1, 0])?);
    /// assert!(!matrix.verify(&[1, 1, parity::ERASED])?);
    /// # Ok::<(), parity::Refusal>(())
    /// ```
    pub fn verify(&self, word: &[u8]) -> Result<bool, Refusal> {
        crate::verify(&self.words, self.n, self.m, self.k, word)
    }

    /// The n sent bits and then the k added ones.
    ///
    /// ```
    /// let matrix = parity::Matrix::of_checks(3, &[&[0, 1], &[0, 1, 2]])?.orthogonalised()?;
    /// assert_eq!(matrix.extend(&[1, 0, 0])?, [1, 0, 0, 1]);
    /// # Ok::<(), parity::Refusal>(())
    /// ```
    pub fn extend(&self, sent: &[u8]) -> Result<Vec<u8>, Refusal> {
        let mut word = vec![0; self.n + self.k];
        crate::extend(&self.words, self.n, self.m, self.k, sent, &mut word)?;
        Ok(word)
    }

    /// Whether no check contains exactly one bit of the set, given as n+k bytes.
    ///
    /// ```
    /// let matrix = parity::Matrix::of_checks(3, &[&[0, 1]])?;
    /// assert!(matrix.is_stopping(&[1, 1, 0])? && !matrix.is_stopping(&[1, 0, 0])?);
    /// # Ok::<(), parity::Refusal>(())
    /// ```
    pub fn is_stopping(&self, set: &[u8]) -> Result<bool, Refusal> {
        crate::is_stopping(&self.words, self.n, self.m, self.k, set)
    }

    /// Recovers the erased bits of the word of n+k bytes, as far as checks with one erased bit reach.
    ///
    /// ```
    /// let matrix = parity::Matrix::of_checks(3, &[&[0, 1]])?;
    /// let mut word = [parity::ERASED, 1, parity::ERASED];
    /// let peeled = matrix.peel(&mut word)?;
    /// assert_eq!((word, peeled.recovered_sent, peeled.left_sent), ([1, 1, parity::ERASED], 1, 1));
    /// # Ok::<(), parity::Refusal>(())
    /// ```
    pub fn peel(&self, word: &mut [u8]) -> Result<Peeled, Refusal> {
        crate::peel(&self.words, self.n, self.m, self.k, word)
    }

    /// Recovers every erased bit of the word of n+k bytes that the checks determine together.
    ///
    /// ```
    /// use parity::{Matrix, Refusal, ERASED};
    ///
    /// let matrix = Matrix::of_checks(3, &[&[0, 1, 2], &[1, 2]])?;
    /// let mut word = [ERASED; 3];
    /// assert_eq!(matrix.determine(&mut word)?.recovered_sent, 1);
    /// assert_eq!(word, [0, ERASED, ERASED]);
    /// assert_eq!(matrix.determine(&mut [1, 0, 0]), Err(Refusal::Contradiction));
    /// # Ok::<(), Refusal>(())
    /// ```
    pub fn determine(&self, word: &mut [u8]) -> Result<Determined, Refusal> {
        crate::determine(&self.words, self.n, self.m, self.k, word)
    }

    /// Mends a received word of n bytes with a matrix with k = 0: [`mend_block`](crate::mend_block), the one door.
    ///
    /// ```
    /// use parity::{Matrix, Refusal, ERASED, STAGE_ELIMINATION};
    ///
    /// let matrix = Matrix::house_code(parity::HOUSE_HAMMING_7)?;
    /// let mut word = [ERASED, 0, 1, 0, ERASED, 1, 0];
    /// matrix.mend(&mut word)?;
    /// assert!(matrix.verify(&word)?);
    /// assert_eq!(matrix.mend(&mut [ERASED; 7])?.stage, STAGE_ELIMINATION);
    /// assert_eq!(matrix.orthogonalised()?.mend(&mut word), Err(Refusal::Extended));
    /// # Ok::<(), Refusal>(())
    /// ```
    pub fn mend(&self, word: &mut [u8]) -> Result<Mended, Refusal> {
        crate::mend_block(&self.words, self.n, self.m, self.k, word)
    }

    /// Recovers lost packets: see [`mend_packets`](crate::mend_packets).
    ///
    /// ```
    /// let matrix = parity::Matrix::of_checks(3, &[&[0, 1, 2]])?;
    /// let (mut lost, mut packets, mut odd) = ([0, 1, 0], [7, 99, 5], [0]);
    /// matrix.mend_packets(&mut lost, &mut packets, &mut odd)?;
    /// assert_eq!((lost, packets, odd), ([0, 0, 0], [7, 7 ^ 5, 5], [0]));
    /// # Ok::<(), parity::Refusal>(())
    /// ```
    pub fn mend_packets(
        &self,
        lost: &mut [u8],
        packets: &mut [u64],
        odd: &mut [u64],
    ) -> Result<MendedPackets, Refusal> {
        crate::mend_packets(&self.words, self.n, self.m, self.k, lost, packets, odd)
    }

    /// The number of parity bits of a matrix with k = 0.
    ///
    /// ```
    /// assert_eq!(parity::Matrix::house_code(parity::HOUSE_CIRCULANT)?.rank()?, 11);
    /// # Ok::<(), parity::Refusal>(())
    /// ```
    pub fn rank(&self) -> Result<usize, Refusal> {
        crate::rank(&self.words, self.n, self.m, self.k)
    }

    /// The codeword of a matrix with k = 0 that holds the message of n - rank bytes.
    ///
    /// ```
    /// let matrix = parity::Matrix::of_checks(7, &[&[0, 3, 4, 6], &[1, 3, 5, 6], &[2, 4, 5, 6]])?;
    /// assert_eq!(matrix.encode(&[1, 0, 0, 0])?, [1, 1, 0, 1, 0, 0, 0]);
    /// # Ok::<(), parity::Refusal>(())
    /// ```
    pub fn encode(&self, message: &[u8]) -> Result<Vec<u8>, Refusal> {
        let mut word = vec![0; self.n];
        crate::encode(&self.words, self.n, self.m, self.k, message, &mut word)?;
        Ok(word)
    }

    /// A byte for each bit of a matrix with k = 0: 1 if it holds the message, 0 for a parity bit.
    ///
    /// ```
    /// let matrix = parity::Matrix::of_checks(3, &[&[0, 2]])?;
    /// assert_eq!(matrix.message_bits()?, [0, 1, 1]);
    /// # Ok::<(), parity::Refusal>(())
    /// ```
    pub fn message_bits(&self) -> Result<Vec<u8>, Refusal> {
        let mut set = vec![0; self.n];
        crate::message_bits(&self.words, self.n, self.m, self.k, &mut set)?;
        Ok(set)
    }

    /// Every stopping set of exactly t sent bits, 1 to 4, in dictionary order, one behind the other, t places each. (Two calls:
    /// how many places are needed, and which sets.)
    ///
    /// ```
    /// let matrix = parity::Matrix::of_checks(4, &[&[0, 1], &[2, 3]])?;
    /// let sets = matrix.stopping_sets(2)?;
    /// assert_eq!(sets.chunks_exact(2).collect::<Vec<_>>(), [[0, 1], [2, 3]]);
    /// # Ok::<(), parity::Refusal>(())
    /// ```
    pub fn stopping_sets(&self, t: usize) -> Result<Vec<u16>, Refusal> {
        let needed = match crate::stopping_sets(&self.words, self.n, self.m, self.k, t, &mut []) {
            Ok(_) => 0,
            Err(Refusal::SetsShort { needed }) => needed,
            Err(refusal) => return Err(refusal),
        };
        let mut sets = vec![0; needed];
        let _ = crate::stopping_sets(&self.words, self.n, self.m, self.k, t, &mut sets)?;
        Ok(sets)
    }

    /// The matrix with the checks of both, over the same bits; both have k = 0.
    ///
    /// ```
    /// use parity::{Matrix, Refusal};
    ///
    /// let (one, two) = (Matrix::of_checks(3, &[&[0, 1]])?, Matrix::of_checks(3, &[&[0, 1], &[1, 2]])?);
    /// assert_eq!(one.join(&two)?, two);
    /// assert_eq!(one.join(&Matrix::of_checks(4, &[])?), Err(Refusal::DifferentLengths));
    /// # Ok::<(), Refusal>(())
    /// ```
    pub fn join(&self, other: &Matrix) -> Result<Matrix, Refusal> {
        let mut words = vec![0; WORDS];
        let (one, two) = (self, other);
        let m = crate::join(&one.words, one.n, one.m, one.k, &two.words, two.n, two.m, two.k, &mut words)?;
        Ok(Matrix { words, n: self.n, m, k: 0 })
    }

    /// Decodes sure, soft and erased bits by min-sum rounds, 1 to 512, in place. It lends the messages' memory itself.
    ///
    /// ```
    /// use parity::{Bit, Matrix, Refusal};
    ///
    /// let matrix = Matrix::of_checks(3, &[&[0, 1, 2]])?;
    /// let mut bits = [Bit::Sure(true), Bit::Soft(-2.5), Bit::Erased];
    /// matrix.min_sum(1, &mut bits)?;
    /// assert_eq!(bits[2], Bit::Soft(2.5));
    /// # Ok::<(), Refusal>(())
    /// ```
    pub fn min_sum(&self, rounds: usize, bits: &mut [Bit]) -> Result<(), Refusal> {
        let (mut bytes, mut floats) = (vec![0; MESSAGES], vec![0.0; MESSAGES]);
        crate::min_sum_bits(&self.words, self.n, self.m, self.k, rounds, bits, &mut bytes, &mut floats)
    }
}
