//! Cases A to K of document 01, cases of taking back, determining, the house codes, small stopping sets, joining, soft bits and ranges
//! (document 02), through the wrapper.

use parity::{
    Bit, Determined, Held, HouseCode, Loaded, Mended, Orthogonalised, Peeled, Ranged, Refusal, Shared, Split, TakenBack,
    WORDS,
};

/// Checks 0 and 1 held the pair.
const HELD: Option<Held> = Some(Held { lowest: 0, highest: 1 });

fn matrix(checks: &[&[usize]]) -> Vec<u64> {
    let mut words = vec![0; WORDS];
    for (c, bits) in checks.iter().enumerate() {
        for b in bits.iter() {
            words[8 * c + b / 64] |= 1 << (b % 64);
        }
    }
    words
}

fn peeled(recovered_sent: usize, recovered_added: usize, left_sent: usize, left_added: usize) -> Peeled {
    Peeled { recovered_sent, recovered_added, left_sent, left_added }
}

fn a() -> Vec<u64> {
    matrix(&[&[0, 3, 4, 6], &[1, 3, 5, 6], &[2, 4, 5, 6]])
}

fn c() -> Vec<u64> {
    matrix(&[&[0, 1, 2, 3], &[0, 1, 4, 5], &[0, 2, 6]])
}

const RECORD_C: [u32; 16] = [
    0x1000_0307,
    0x2000_0004,
    0x3000_0000,
    0x3000_0001,
    0x3000_0002,
    0x3000_0003,
    0x2000_0004,
    0x3000_0000,
    0x3000_0001,
    0x3000_0004,
    0x3000_0005,
    0x2000_0003,
    0x3000_0000,
    0x3000_0002,
    0x3000_0006,
    0xF000_0000,
];

/// The same with the number of each check in its kind 2 word.
fn second_form_of_c() -> [u32; 16] {
    let mut record = RECORD_C;
    record[0] = 0x4000_0307;
    record[6] = 0x2000_0104;
    record[11] = 0x2000_0203;
    record
}

#[test]
fn a_and_b() {
    let mut words = a();
    assert_eq!(parity::count(&words, 7, 3, 0), Ok(3));
    assert_eq!(parity::orthogonalise(&mut words, 7, 3, 0), Ok(Orthogonalised { splits: 1, sum: 1, k: 1, held: HELD }));
    assert_eq!(words, matrix(&[&[0, 4, 7], &[1, 5, 7], &[2, 4, 5, 6], &[3, 6, 7]]));
    assert_eq!(parity::count(&words, 7, 3, 1), Ok(0));
    let mut by_hand = a();
    assert_eq!(parity::split(&mut by_hand, 7, 3, 0, 6, 3), Ok(Split { share: 2, k: 1, held: HELD.unwrap() }));
    assert_eq!(by_hand, words);
}

#[test]
fn c_and_d() {
    let mut words = c();
    assert_eq!(parity::count(&words, 7, 3, 0), Ok(2));
    let mut word = [2, 2, 2, 1, 1, 1, 1];
    assert_eq!(parity::peel(&words, 7, 3, 0, &mut word), Ok(peeled(0, 0, 3, 0)));
    assert_eq!(word, [2, 2, 2, 1, 1, 1, 1]);
    assert_eq!(parity::is_stopping(&words, 7, 3, 0, &[1, 1, 1, 0, 0, 0, 0]), Ok(true));
    assert_eq!(parity::is_stopping(&words, 7, 3, 0, &[1, 0, 0, 0, 0, 0, 0]), Ok(false));
    assert!(parity::orthogonalise(&mut words, 7, 3, 0).is_ok());
    assert_eq!(words, matrix(&[&[2, 3, 7], &[4, 5, 7], &[0, 2, 6], &[0, 1, 7]]));
    let mut word = [2, 2, 2, 1, 1, 1, 1, 2];
    assert_eq!(parity::peel(&words, 7, 3, 1, &mut word), Ok(peeled(3, 1, 0, 0)));
    assert_eq!(word, [0, 0, 1, 1, 1, 1, 1, 0]);
    assert_eq!(parity::verify(&words, 7, 3, 1, &word), Ok(true));
    let mut extended = [9; 8];
    assert_eq!(parity::extend(&words, 7, 3, 1, &word[..7], &mut extended), Ok(()));
    assert_eq!(extended, word);
    assert_eq!(parity::rank(&words, 7, 3, 1), Err(Refusal::Extended));
}

#[test]
fn e() {
    let mut words = matrix(&[&[0, 1, 2], &[0, 1, 2]]);
    assert_eq!(parity::count(&words, 3, 2, 0), Ok(3));
    assert_eq!(parity::orthogonalise(&mut words, 3, 2, 0), Ok(Orthogonalised { splits: 2, sum: 2, k: 2, held: HELD }));
    assert_eq!(parity::count(&words, 3, 2, 2), Ok(0));
}

/// E's two splits by hand, taken back to E.
#[test]
fn e_taken_back() {
    let e = matrix(&[&[0, 1, 2], &[0, 1, 2]]);
    let mut words = e.clone();
    assert_eq!(parity::take_back(&mut words, 3, 2, 0), Err(Refusal::NothingToTakeBack));
    assert_eq!(parity::split(&mut words, 3, 2, 0, 0, 1), Ok(Split { share: 2, k: 1, held: HELD.unwrap() }));
    let once = words.clone();
    assert_eq!(once, matrix(&[&[2, 3], &[2, 3], &[0, 1, 3]]));
    assert_eq!(parity::split(&mut words, 3, 2, 1, 2, 3), Ok(Split { share: 2, k: 2, held: HELD.unwrap() }));
    assert_eq!(words, matrix(&[&[4], &[4], &[0, 1, 3], &[2, 3, 4]]));
    assert_eq!(parity::take_back(&mut words, 3, 2, 2), Ok(TakenBack { share: 2, k: 1 }));
    assert_eq!(words, once);
    assert_eq!(parity::take_back(&mut words, 3, 2, 1), Ok(TakenBack { share: 2, k: 0 }));
    assert_eq!(words, e);
    assert_eq!(parity::take_back(&mut words, 3, 2, 0), Err(Refusal::NothingToTakeBack));
    assert_eq!(words, e);
}

/// Matrices that no splits made.
#[test]
fn taken_back_without_splits() {
    let checks: [&[usize]; 3] = [&[1, 4], &[0, 1, 3], &[0, 2, 4]];
    let mut words = matrix(&checks);
    assert_eq!(parity::take_back(&mut words, 3, 1, 2), Err(Refusal::CannotTakeBack));
    assert_eq!(words, matrix(&checks));
    let mut words = matrix(&[&[0, 1, 2]]);
    assert_eq!(parity::take_back(&mut words, 2, 0, 1), Ok(TakenBack { share: 0, k: 0 }));
    assert_eq!(words, matrix(&[]));
    let mut words = matrix(&[&[0, 3], &[1, 2, 3]]);
    assert_eq!(parity::take_back(&mut words, 3, 1, 1), Ok(TakenBack { share: 1, k: 0 }));
    assert_eq!(words, matrix(&[&[0, 1, 2]]));
}

/// Each house code, on words that held ones before: its checks, its rank, its cycle count and its orthogonalising.
#[test]
fn house_codes() {
    let names = [
        parity::HOUSE_CIRCULANT,
        parity::HOUSE_HAMMING_3,
        parity::HOUSE_HAMMING_7,
        parity::HOUSE_HAMMING_15,
        parity::HOUSE_HAMMING_31,
    ];
    let known = [
        (23, 23, 11, 598, 35, 92),
        (3, 2, 2, 0, 0, 0),
        (7, 3, 3, 3, 1, 1),
        (15, 4, 4, 36, 5, 7),
        (31, 5, 5, 280, 16, 31),
    ];
    for (name, (n, m, rank, count, splits, sum)) in names.into_iter().zip(known) {
        let mut words = vec![u64::MAX; WORDS];
        assert_eq!(parity::house_code(name, &mut words), Ok(HouseCode { n, m }));
        let checks: Vec<Vec<usize>> = (0..m)
            .map(|c| match name {
                0 => [0, 1, 2, 3, 4, 7, 10, 12].iter().map(|e| (c + e) % 23).collect(),
                _ => (0..n).filter(|b| (b + 1) >> c & 1 == 1).collect(),
            })
            .collect();
        assert_eq!(words, matrix(&checks.iter().map(Vec::as_slice).collect::<Vec<_>>()));
        assert_eq!(parity::rank(&words, n, m, 0), Ok(rank));
        assert_eq!(parity::count(&words, n, m, 0), Ok(count));
        let made = parity::orthogonalise(&mut words, n, m, 0).expect("it finishes");
        assert_eq!((made.splits, made.sum, made.k), (splits, sum, splits as usize));
        assert_eq!(made.held.is_some(), splits > 0);
    }
}

#[test]
fn unknown_names() {
    for name in [5, 255, 256, 1 << 32, usize::MAX] {
        let mut words = vec![7; WORDS];
        assert_eq!(parity::house_code(name, &mut words), Err(Refusal::UnknownName));
        assert_eq!(words, vec![7; WORDS]);
    }
    for length in [0, WORDS - 1, WORDS + 1] {
        for name in [0, 5] {
            let mut words = vec![7; length];
            assert_eq!(parity::house_code(name, &mut words), Err(Refusal::MatrixLength));
            assert_eq!(words, vec![7; length]);
        }
    }
    assert_eq!(Refusal::UnknownName.number(), 17);
}

/// A joined with C and C with itself, into words that held ones before; equal checks of the first stay.
#[test]
fn joined() {
    let mut words = vec![u64::MAX; WORDS];
    assert_eq!(parity::join(&a(), 7, 3, 0, &c(), 7, 3, 0, &mut words), Ok(6));
    let both = [&[0, 3, 4, 6][..], &[1, 3, 5, 6], &[2, 4, 5, 6], &[0, 1, 2, 3], &[0, 1, 4, 5], &[0, 2, 6]];
    assert_eq!(words, matrix(&both));
    // a codeword of C alone, and one of both
    assert_eq!(parity::verify(&c(), 7, 3, 0, &[1, 1, 0, 0, 1, 1, 1]), Ok(true));
    assert_eq!(parity::verify(&words, 7, 6, 0, &[1, 1, 0, 0, 1, 1, 1]), Ok(false));
    assert_eq!(parity::verify(&words, 7, 6, 0, &[0; 7]), Ok(true));
    // C alone leaves all three erased bits
    let mut word = [2, 2, 2, 0, 0, 0, 0];
    assert_eq!(parity::peel(&c(), 7, 3, 0, &mut word), Ok(peeled(0, 0, 3, 0)));
    assert_eq!(parity::peel(&words, 7, 6, 0, &mut word), Ok(peeled(3, 0, 0, 0)));
    assert_eq!(word, [0; 7]);
    assert_eq!(parity::join(&c(), 7, 3, 0, &c(), 7, 3, 0, &mut words), Ok(3));
    assert_eq!(words, c());
    let twice = matrix(&[&[0, 1, 2], &[0, 1, 2]]);
    assert_eq!(parity::join(&twice, 3, 2, 0, &matrix(&[&[1], &[1], &[0, 1, 2]]), 3, 3, 0, &mut words), Ok(3));
    assert_eq!(words, matrix(&[&[0, 1, 2], &[0, 1, 2], &[1]]));
    assert_eq!(parity::join(&matrix(&[]), 2, 0, 0, &matrix(&[]), 2, 0, 0, &mut words), Ok(0));
    assert_eq!(words, matrix(&[]));
}

/// Each cause is looked at in both matrices before the next; a refusal leaves the third words.
#[test]
fn not_joined() {
    let mut extended = a();
    parity::orthogonalise(&mut extended, 7, 3, 0).expect("it finishes");
    let join = |first: (&[u64], usize, usize, usize), second: (&[u64], usize, usize, usize), length: usize| {
        let mut words = vec![7; length];
        let answer =
            parity::join(first.0, first.1, first.2, first.3, second.0, second.1, second.2, second.3, &mut words);
        assert_eq!(words, vec![7; length]);
        answer.expect_err("it is refused")
    };
    let (good, broken) = (a(), matrix(&[&[0, 1], &[0, 1, 2]]));
    let right = (&good[..], 7, 3, 0);
    assert_eq!(join(right, right, WORDS - 1), Refusal::MatrixLength);
    assert_eq!(join((&broken, 2, 1, 1), right, WORDS), Refusal::RuleA);
    assert_eq!(join((&broken, 2, 1, 1), (&good, 0, 3, 0), WORDS), Refusal::Range);
    assert_eq!(join((&good, 6, 3, 0), (&good, 7, 121, 0), WORDS), Refusal::Range);
    assert_eq!(join((&broken, 2, 1, 1), (&good, 6, 3, 0), WORDS), Refusal::OneOutside);
    assert_eq!(join((&good, 0, 3, 0), (&good[1..], 7, 3, 0), WORDS), Refusal::MatrixLength);
    assert_eq!(join((&extended, 7, 3, 1), (&good, 8, 3, 0), WORDS), Refusal::Extended);
    assert_eq!(join((&good, 8, 3, 0), (&extended, 7, 3, 1), WORDS), Refusal::Extended);
    assert_eq!(join(right, (&good, 8, 3, 0), WORDS), Refusal::DifferentLengths);
    let rising: Vec<Vec<usize>> = (0..121).map(|c| (0..7).filter(|b| (c + 1) >> b & 1 == 1).collect()).collect();
    let rows: Vec<&[usize]> = rising.iter().map(Vec::as_slice).collect();
    let (first, second) = (matrix(&rows[..61]), matrix(&rows[60..]));
    assert_eq!(join((&first, 7, 61, 0), (&second, 7, 61, 0), WORDS), Refusal::TooManyChecks);
    let mut words = vec![7; WORDS];
    assert_eq!(parity::join(&first, 7, 61, 0, &matrix(&rows[60..120]), 7, 60, 0, &mut words), Ok(120));
    assert_eq!(words, matrix(&rows[..120]));
    assert_eq!(Refusal::DifferentLengths.number(), 20);
    assert_eq!(Refusal::TooManyChecks.number(), 21);
}

#[test]
fn f() {
    let mut word = [2, 2];
    assert_eq!(parity::peel(&matrix(&[]), 2, 0, 0, &mut word), Ok(peeled(0, 0, 2, 0)));
    assert_eq!(word, [2, 2]);
}

/// Four different numbers: bits 1, 2 and 3 are bit 0, the added bit 9 is their sum, and 4 to 7, 10 and 11 are left.
#[test]
fn sent_and_added() {
    let words = matrix(&[&[0, 1], &[0, 2], &[0, 3], &[1, 2, 9], &[4, 5, 10], &[6, 7, 11]]);
    let mut word = [1, 2, 2, 2, 2, 2, 2, 2, 0, 2, 2, 2];
    assert_eq!(parity::peel(&words, 9, 3, 3, &mut word), Ok(peeled(3, 1, 4, 2)));
    assert_eq!(word, [1, 1, 1, 1, 2, 2, 2, 2, 0, 0, 2, 2]);
}

fn determined(recovered_sent: usize, recovered_added: usize, left_sent: usize, left_added: usize) -> Determined {
    Determined { recovered_sent, recovered_added, left_sent, left_added }
}

/// What peeling leaves of C's word, its three checks determine together.
#[test]
fn c_determined() {
    let mut word = [2, 2, 2, 1, 1, 1, 1];
    assert_eq!(parity::peel(&c(), 7, 3, 0, &mut word), Ok(peeled(0, 0, 3, 0)));
    assert_eq!(parity::determine(&c(), 7, 3, 0, &mut word), Ok(determined(3, 0, 0, 0)));
    assert_eq!(word, [0, 0, 1, 1, 1, 1, 1]);
    assert_eq!(parity::determine(&c(), 7, 3, 0, &mut word), Ok(determined(0, 0, 0, 0)));
    assert_eq!(word, [0, 0, 1, 1, 1, 1, 1]);
}

/// Peeled and eliminated bits are counted together, and what no check fixes is left.
#[test]
fn peeled_and_eliminated() {
    let words = matrix(&[&[0, 1], &[1, 2, 3], &[2, 3, 4], &[2, 3, 4, 5], &[3, 4, 6], &[6, 7, 8]]);
    let mut word = [1, 2, 2, 2, 2, 0, 1, 2, 2];
    assert_eq!(parity::peel(&words, 8, 5, 1, &mut word.clone()), Ok(peeled(1, 0, 4, 1)));
    assert_eq!(parity::determine(&words, 8, 5, 1, &mut word), Ok(determined(4, 0, 1, 1)));
    assert_eq!(word, [1, 1, 1, 0, 1, 0, 1, 2, 2]);
}

/// Peeling answers though no codeword agrees; with no erased bit it is refused too; the words are left as they were.
#[test]
fn no_codeword_agrees() {
    let words = matrix(&[&[0, 1], &[0, 1, 2]]);
    let mut word = [2, 2, 1];
    assert_eq!(parity::peel(&words, 3, 2, 0, &mut word), Ok(peeled(0, 0, 2, 0)));
    assert_eq!(parity::determine(&words, 3, 2, 0, &mut word), Err(Refusal::Contradiction));
    assert_eq!(word, [2, 2, 1]);
    let mut word = [1, 0, 1];
    assert_eq!(parity::determine(&words, 3, 2, 0, &mut word), Err(Refusal::Contradiction));
    assert_eq!(word, [1, 0, 1]);
    let mut word = [2, 2];
    assert_eq!(parity::determine(&matrix(&[]), 2, 0, 0, &mut word), Ok(determined(0, 0, 2, 0)));
    assert_eq!(word, [2, 2]);
}

fn mended(stage: usize, recovered: usize) -> Mended {
    Mended { stage, recovered }
}

/// One door: C's words by the first and by the second stage; the matrix is left.
#[test]
fn c_mended() {
    let words = c();
    let mut word = [0, 0, 2, 1, 2, 1, 1];
    assert_eq!(parity::mend_block(&words, 7, 3, 0, &mut word), Ok(mended(1, 2)));
    assert_eq!(word, [0, 0, 1, 1, 1, 1, 1]);
    let mut word = [2, 2, 2, 1, 1, 1, 1];
    assert_eq!(parity::mend_block(&words, 7, 3, 0, &mut word), Ok(mended(2, 4)));
    assert_eq!(word, [0, 0, 1, 1, 1, 1, 1]);
    assert_eq!(words, c());
}

/// The third stage recovers what the checks determine together, and leaves the rest.
#[test]
fn mended_by_elimination() {
    let words = matrix(&[&[0, 1, 2], &[0, 1, 3], &[2, 3, 4]]);
    let mut word = [2; 5];
    assert_eq!(parity::mend_block(&words, 5, 3, 0, &mut word), Ok(mended(3, 0)));
    assert_eq!(word, [2, 2, 2, 2, 0]);
    let words = matrix(&[&[0, 1], &[0, 1, 2]]);
    let mut word = [2, 2, 0];
    assert_eq!(parity::mend_block(&words, 3, 2, 0, &mut word), Ok(mended(3, 1)));
    assert_eq!(word, [2, 2, 0]);
}

/// Words that the first peeling refuses, that only the second does, and that only elimination does.
#[test]
fn no_codeword_to_mend() {
    let refused = |checks: &[&[usize]], received: &[u8]| {
        let mut word = received.to_vec();
        let refusal = parity::mend_block(&matrix(checks), received.len(), checks.len(), 0, &mut word);
        assert_eq!(refusal, Err(Refusal::Contradiction));
        assert_eq!(word, received);
    };
    refused(&[&[0], &[0, 1]], &[2, 1]);
    refused(&[&[0, 1, 2], &[0, 1, 3], &[2, 3, 4]], &[2, 2, 0, 1, 1]);
    refused(&[&[0, 1], &[1, 2], &[0, 2, 3]], &[2, 2, 2, 1]);
}

#[test]
fn g_and_h() {
    let mut words = c();
    assert_eq!(
        parity::share(&words, 7, 3, 0, 0, 3),
        Ok(Shared { share: 1, held: Some(Held { lowest: 0, highest: 0 }) })
    );
    assert_eq!(parity::share(&words, 7, 3, 0, 3, 6), Ok(Shared { share: 0, held: None }));
    assert_eq!(parity::split(&mut words, 7, 3, 0, 0, 3), Err(Refusal::Share { share: 1 }));
    assert_eq!(parity::split(&mut words, 7, 3, 0, 4, 4), Err(Refusal::Pair));
    assert_eq!(words, c());
}

#[test]
fn i() {
    let mut word = [2, 1];
    let words = matrix(&[&[0], &[0, 1]]);
    assert_eq!(parity::peel(&words, 2, 2, 0, &mut word), Err(Refusal::Contradiction));
    assert_eq!(word, [2, 1]);
}

#[test]
fn j() {
    assert_eq!(parity::rank(&a(), 7, 3, 0), Ok(3));
    let mut word = [9; 7];
    assert_eq!(parity::encode(&a(), 7, 3, 0, &[1, 0, 0, 0], &mut word), Ok(()));
    assert_eq!(word, [1, 1, 0, 1, 0, 0, 0]);
    let mut set = [9; 7];
    assert_eq!(parity::message_bits(&a(), 7, 3, 0, &mut set), Ok(()));
    assert_eq!(set, [0, 0, 0, 1, 1, 1, 1]);
    assert_eq!(parity::message_bits(&a(), 7, 3, 0, &mut set[..6]), Err(Refusal::Length));
}

/// The message bits are last with [I|A], and not first with [A|I].
#[test]
fn message_bits() {
    let mut set = [9; 4];
    assert_eq!(parity::message_bits(&matrix(&[&[0, 2, 3], &[1, 2, 3]]), 4, 2, 0, &mut set), Ok(()));
    assert_eq!(set, [0, 0, 1, 1]);
    assert_eq!(parity::message_bits(&matrix(&[&[0, 1, 2], &[0, 1, 3]]), 4, 2, 0, &mut set), Ok(()));
    assert_eq!(set, [0, 1, 0, 1]);
    assert_eq!(parity::message_bits(&matrix(&[&[0, 1, 4]]), 4, 0, 1, &mut set), Err(Refusal::Extended));
    assert_eq!(set, [0, 1, 0, 1]);
}

#[test]
fn k() {
    let mut words = vec![7; WORDS];
    assert_eq!(parity::load(&[], &mut words), Err(Refusal::FaultyWord { place: 0 }));
    assert_eq!(words, vec![7; WORDS]);
    assert_eq!(parity::load(&RECORD_C, &mut words), Ok(Loaded { n: 7, m: 3, k: 0 }));
    assert_eq!(words, c());
    let mut record = [0; 20];
    assert_eq!(parity::write(&words, 7, 3, 0, &mut record), Ok(16));
    assert_eq!(record[..16], second_form_of_c());
    assert_eq!(parity::write(&words, 7, 3, 0, &mut record[..15]), Err(Refusal::RecordShort { needed: 16 }));
}

#[test]
fn second_form() {
    let mut words = vec![7; WORDS];
    let mut record = second_form_of_c();
    assert_eq!(parity::load(&record, &mut words), Ok(Loaded { n: 7, m: 3, k: 0 }));
    assert_eq!(words, c());
    record[6] = 0x2000_0004;
    assert_eq!(parity::load(&record, &mut words), Err(Refusal::FaultyWord { place: 6 }));
    record[0] = 0x1000_0307;
    assert_eq!(parity::load(&record, &mut words), Err(Refusal::FaultyWord { place: 11 }));
    assert_eq!(words, c());
}

#[test]
fn third_form() {
    // C with its split of bits 0 and 1, which gives D.
    let mut record = second_form_of_c().to_vec();
    record[0] = 0x5000_0307;
    record.insert(15, 0x6000_0200);
    let mut words = vec![7; WORDS];
    assert_eq!(parity::load(&record, &mut words), Ok(Loaded { n: 7, m: 3, k: 1 }));
    let mut d = c();
    assert_eq!(parity::split(&mut d, 7, 3, 0, 0, 1).map(|made| made.k), Ok(1));
    assert_eq!(words, d);
    let mut written = [0; 20];
    assert_eq!(parity::write(&words, 7, 3, 1, &mut written), Ok(17));
    assert_eq!(written[..17], record);
    assert_eq!(parity::write(&words, 7, 3, 1, &mut written[..16]), Err(Refusal::RecordShort { needed: 17 }));
    // The higher bit first, a share below two, and a split in the second form.
    record[15] = 0x6000_0001;
    assert_eq!(parity::load(&record, &mut words), Err(Refusal::FaultyWord { place: 15 }));
    record[15] = 0x6000_0600;
    assert_eq!(parity::load(&record, &mut words), Err(Refusal::FaultyWord { place: 15 }));
    record[15] = 0x6000_0200;
    record[0] = 0x4000_0307;
    assert_eq!(parity::load(&record, &mut words), Err(Refusal::FaultyWord { place: 15 }));
    assert_eq!(words, d);
    // An accepted matrix that no split made: 16 before 6.
    let mut alone = vec![0; WORDS];
    alone[0] = 7;
    assert_eq!(parity::write(&alone, 2, 0, 1, &mut []), Err(Refusal::CannotTakeBack));
}

/// The sets of a matrix, each as a list; the slice is lent as long as it must be, after one that is too short by one.
fn listed(words: &[u64], n: usize, m: usize, k: usize, t: usize) -> Vec<Vec<u16>> {
    let needed = match parity::stopping_sets(words, n, m, k, t, &mut []) {
        Ok(sets) => sets.len(),
        Err(Refusal::SetsShort { needed }) => needed,
        Err(other) => panic!("{other}"),
    };
    let mut sets = vec![7; needed + 3];
    if needed > 0 {
        assert_eq!(
            parity::stopping_sets(words, n, m, k, t, &mut sets[..needed - 1]).err(),
            Some(Refusal::SetsShort { needed })
        );
        assert!(sets.iter().all(|&place| place == 7));
    }
    let found = parity::stopping_sets(words, n, m, k, t, &mut sets).expect("there is room");
    assert_eq!(found.len() * t, needed);
    let found: Vec<Vec<u16>> = found.map(<[u16]>::to_vec).collect();
    assert_eq!(sets[needed..], [7; 3]);
    assert_eq!(sets[..needed], found.concat());
    found
}

/// Sizes 1 to 4 of cases A and C and of the Hamming codes of lengths 15 and 31, given and orthogonalised.
#[test]
fn small_stopping_sets() {
    let house = |name: usize| {
        let mut words = vec![0; WORDS];
        let HouseCode { n, m } = parity::house_code(name, &mut words).expect("a name");
        (words, n, m)
    };
    let all = [
        ((a(), 7, 3), [0, 0, 10, 23], [0, 0, 3, 3]),
        ((c(), 7, 3), [0, 1, 7, 17], [0, 1, 2, 1]),
        (house(parity::HOUSE_HAMMING_15), [0, 0, 69, 526], [0, 0, 7, 21]),
        (house(parity::HOUSE_HAMMING_31), [0, 0, 410, 8_215], [0, 0, 15, 105]),
    ];
    for ((mut words, n, m), given, orthogonalised) in all {
        let numbers = |words: &[u64], k: usize| [1, 2, 3, 4].map(|t| listed(words, n, m, k, t).len());
        assert_eq!(numbers(&words, 0), given);
        let k = parity::orthogonalise(&mut words, n, m, 0).expect("it finishes").k;
        assert_eq!(numbers(&words, k), orthogonalised);
    }
    assert_eq!(listed(&c(), 7, 3, 0, 2), [[4, 5]]);
    assert_eq!(listed(&c(), 7, 3, 0, 3)[..2], [[0, 1, 2], [0, 1, 6]]);
    // No check: every set; and of fewer bits than t none.
    let none = matrix(&[]);
    assert_eq!(listed(&none, 3, 0, 0, 2), [[0, 1], [0, 2], [1, 2]]);
    assert_eq!(listed(&none, 3, 0, 0, 4), Vec::<Vec<u16>>::new());
    for t in [0, 5, usize::MAX] {
        let mut sets = [7; 5];
        assert_eq!(parity::stopping_sets(&none, 3, 0, 0, t, &mut sets).err(), Some(Refusal::SetSize));
        assert_eq!(parity::stopping_sets(&none, 0, 0, 0, t, &mut sets).err(), Some(Refusal::Range));
        assert_eq!(sets, [7; 5]);
    }
    assert_eq!((Refusal::SetSize.number(), Refusal::SetsShort { needed: 1 }.number()), (18, 19));
}

#[test]
fn refusals() {
    let words = c();
    assert_eq!(parity::count(&words[1..], 7, 3, 0), Err(Refusal::MatrixLength));
    assert_eq!(parity::count(&words, 121, 3, 0), Err(Refusal::Range));
    assert_eq!(parity::count(&words, 7, 2, 0), Err(Refusal::OneOutside));
    assert_eq!(parity::count(&words, 7, 3, 1), Err(Refusal::RuleA));
    assert_eq!(parity::verify(&words, 7, 3, 0, &[0; 6]), Err(Refusal::Length));
    assert_eq!(parity::verify(&words, 7, 3, 0, &[0, 0, 0, 4, 0, 3, 0]), Err(Refusal::Byte { place: 3 }));
    assert_eq!(Refusal::Byte { place: 3 }.number(), 11);
    let mut word = [2, 0, 0, 4, 0, 3, 0];
    assert_eq!(parity::determine(&words, 7, 3, 0, &mut word[1..]), Err(Refusal::Length));
    assert_eq!(parity::determine(&words, 7, 3, 0, &mut word), Err(Refusal::Byte { place: 3 }));
    assert_eq!(parity::determine(&words, 7, 3, 1, &mut word), Err(Refusal::RuleA));
    assert_eq!(parity::mend_block(&words[1..], 7, 3, 0, &mut word), Err(Refusal::MatrixLength));
    assert_eq!(parity::mend_block(&words, 7, 3, 0, &mut word[1..]), Err(Refusal::Length));
    assert_eq!(parity::mend_block(&words, 7, 3, 0, &mut word), Err(Refusal::Byte { place: 3 }));
    assert_eq!(parity::mend_block(&words, 7, 3, 1, &mut word), Err(Refusal::RuleA));
    assert_eq!(parity::mend_block(&matrix(&[&[0, 1, 2]]), 2, 0, 1, &mut word), Err(Refusal::Extended));
    assert_eq!(word, [2, 0, 0, 4, 0, 3, 0]);
    let mut words = c();
    assert_eq!(parity::take_back(&mut words[1..], 7, 3, 1), Err(Refusal::MatrixLength));
    assert_eq!(parity::take_back(&mut words, 7, 3, 393), Err(Refusal::Range));
    assert_eq!(parity::take_back(&mut words, 7, 2, 0), Err(Refusal::OneOutside));
    assert_eq!(parity::take_back(&mut words, 7, 3, 1), Err(Refusal::RuleA));
    assert_eq!(words, c());
    assert_eq!(Refusal::CannotTakeBack.number(), 16);
}

/// Room for messages that holds something.
fn messages() -> (Vec<u8>, Vec<f32>) {
    (vec![77; parity::MESSAGES], vec![f32::NAN; parity::MESSAGES])
}

#[test]
fn soft_bits() {
    use Bit::{Erased, Soft, Sure};
    let words = a();
    let (mut bytes, mut floats) = messages();
    // Check 0 gives bit 0 the least of 3, 1 and 2, turned by bit 3; bits 1 and 2 are in one check each, with an erased bit.
    let mut bits = [Erased, Erased, Sure(false), Soft(-3.0), Soft(1.0), Erased, Soft(2.0)];
    assert_eq!(parity::min_sum_bits(&words, 7, 3, 0, 1, &mut bits, &mut bytes, &mut floats), Ok(()));
    assert_eq!(bits, [Soft(-1.0), Erased, Sure(false), Soft(-3.0), Soft(1.0), Soft(1.0), Soft(2.0)]);
    assert!(bytes.iter().all(|byte| *byte == 0) && floats.iter().all(|float| float.to_bits() == 0));
    // Case D: words of sure and erased bits end as peeling ends.
    let mut extended = c();
    assert!(parity::orthogonalise(&mut extended, 7, 3, 0).is_ok());
    let mut word = [2, 2, 2, 1, 1, 1, 1, 2];
    let mut values = [f32::INFINITY; 8];
    assert_eq!(parity::min_sum(&extended, 7, 3, 1, 512, &mut word, &mut values, &mut bytes, &mut floats), Ok(()));
    assert_eq!(word, [0, 0, 1, 1, 1, 1, 1, 0]);
    assert!(values.iter().all(|float| float.to_bits() == 0));
}

#[test]
fn soft_bits_refused() {
    let words = a();
    let (mut bytes, mut floats) = messages();
    let mut word = [3, 0, 2, 1, 3, 3, 0];
    let mut values = [1.0, f32::NAN, f32::INFINITY, 0.0, -1_048_576.0, 0.0, 0.0];
    for rounds in [0, 513, usize::MAX] {
        let refused = parity::min_sum(&words, 7, 3, 0, rounds, &mut word, &mut values, &mut bytes, &mut floats);
        assert_eq!(refused, Err(Refusal::Rounds));
    }
    let refused = parity::min_sum(&words, 7, 3, 0, 1, &mut word, &mut values, &mut bytes, &mut floats[1..]);
    assert_eq!(refused, Err(Refusal::Length));
    let mut longer = vec![Bit::Erased; 600];
    let refused = parity::min_sum_bits(&words, 7, 3, 0, 1, &mut longer, &mut bytes, &mut floats);
    assert_eq!(refused, Err(Refusal::Length));
    values[5] = f32::from_bits(1_048_576f32.to_bits() + 1);
    let refused = parity::min_sum(&words, 7, 3, 0, 512, &mut word, &mut values, &mut bytes, &mut floats);
    assert_eq!(refused, Err(Refusal::Float { place: 5 }));
    word[6] = 4;
    let refused = parity::min_sum(&words, 7, 3, 0, 512, &mut word, &mut values, &mut bytes, &mut floats);
    assert_eq!(refused, Err(Refusal::Byte { place: 6 }));
    assert_eq!(word, [3, 0, 2, 1, 3, 3, 4]);
    assert!(bytes.iter().all(|byte| *byte == 77) && floats.iter().all(|float| float.is_nan()));
}

#[test]
fn ranges() {
    assert_eq!(parity::min_sum_range(&[], &[]), Ok(Ranged::SureZero));
    let within = |low, high| Ok(Ranged::Within { low, high });
    assert_eq!(parity::min_sum_range(&[-1.5], &[2.25]), within(-1.5, 2.25));
    assert_eq!(parity::min_sum_range(&[1.0, -2.0], &[3.0, -0.5]), within(-2.0, -0.5));
    assert_eq!(parity::min_sum_range(&[-1.0, 0.5], &[4.0, 2.0]), within(-1.0, 2.0));
    // A zero of either sign is the same value, and an end that is zero is plus zero.
    for zero in [0.0, -0.0] {
        match parity::min_sum_range(&[zero, -5.0], &[2.0, -3.0]) {
            Ok(Ranged::Within { low, high }) => assert_eq!((low, high.to_bits()), (-2.0, 0)),
            other => panic!("{other:?}"),
        }
    }
    let (low, high) = ([-0.5; 512], [3.0; 512]);
    assert_eq!(parity::min_sum_range(&low[1..], &high[1..]), within(-0.5, 3.0));
    assert_eq!(parity::min_sum_range(&low, &high), Err(Refusal::Length));
    assert_eq!(parity::min_sum_range(&low[..3], &high[..2]), Err(Refusal::Length));
    let above = f32::from_bits(1_048_576f32.to_bits() + 1);
    assert_eq!(parity::min_sum_range(&[1.0, 2.0, above], &[f32::INFINITY, 1.0, 3.0]), Err(Refusal::Float { place: 2 }));
    assert_eq!(parity::min_sum_range(&[1.0, 2.0], &[0.5, f32::NAN]), Err(Refusal::Float { place: 1 }));
    assert_eq!(parity::min_sum_range(&[1.0, 2.0, 3.0], &[1.0, 1.5, 2.0]), Err(Refusal::LowAboveHigh { place: 1 }));
}
