//! M-103's and M-107's records of three forms, in the library and the model: good and damaged ones are loaded, and what
//! loads is written. A second-form record writes to itself, a first-form one to its second form, a third-form one to
//! itself if it has splits and else to its second form, whose words are made of the record's own words here; what is
//! written loads to the same words.

use crate::calls::damage_record;
use crate::cases;
use crate::compare::{compare, describe};
use crate::generate;
use crate::model::{self, Form, Kind, Lent, Matrix, Reply, FORMS};
use crate::random::Random;

/// At least so many records are loaded.
const RECORDS_LEAST: usize = 20_000;

#[derive(Default)]
struct Tally {
    loaded: [usize; 3],
    faulty: [usize; 3],
    /// Records that loaded with splits, and their splits.
    extended: usize,
    splits: usize,
    other: usize,
}

fn fail<T>(what: &str, lent: &Lent, reply: &Reply) -> Result<T, String> {
    Err(format!("RECORDS: {what}; number {}, values {:?}\n{}", reply.number, reply.values, describe(lent)))
}

/// The second form of a record without splits that loads, word by word: kind 4 first, and the check's number in each
/// kind 2 word.
fn second_form(record: &[u32]) -> Vec<u32> {
    let mut opened = 0;
    let mut second = record.to_vec();
    second[0] = 0x4000_0000 | record[0] & 0x0FFF_FFFF;
    for word in &mut second {
        if *word >> 28 == 2 {
            *word = *word & !0xFF00 | opened << 8;
            opened += 1;
        }
    }
    second
}

/// Loads a record; where that is answered, writes the matrix and loads what was written.
fn there_and_back(r: &mut Random, record: Vec<u32>, tally: &mut Tally) -> Result<(), String> {
    let form = match record.first().map(|first| first >> 28) {
        Some(1) => Some(Form::First),
        Some(4) => Some(Form::Second),
        Some(5) => Some(Form::Third),
        _ => None,
    };
    let mut lent = cases::lend(Kind::Load, &Matrix::zero(1, 0, 0));
    lent.words.fill(r.next());
    lent.record = record;
    let (loaded, mut left) = compare(&lent, r)?;
    let Some(form) = form else {
        tally.other += 1;
        return if loaded.number == 5 { Ok(()) } else { fail("a first word of another kind is taken", &lent, &loaded) };
    };
    if loaded.number != 0 {
        tally.faulty[form as usize] += 1;
        return Ok(());
    }
    tally.loaded[form as usize] += 1;
    let splits = lent.record.iter().filter(|&word| word >> 28 == 6).count();
    if loaded.values[2] != splits as u64 {
        return fail("another k than the number of splits", &lent, &loaded);
    }
    tally.extended += (splits > 0) as usize;
    tally.splits += splits;
    let due = if splits > 0 { lent.record.clone() } else { second_form(&lent.record) };
    left.kind = Kind::Write;
    (left.n, left.m, left.k) = (loaded.values[0] as usize, loaded.values[1] as usize, splits);
    // Too short by one, and then long enough.
    left.record = vec![r.next() as u32; due.len() - 1];
    let (short, mut left) = compare(&left, r)?;
    if short.number != 6 || short.values != [due.len() as u64] {
        return fail("written into a record that is too short by one", &lent, &short);
    }
    left.record = vec![r.next() as u32; due.len() + r.below(4)];
    let (written, mut left) = compare(&left, r)?;
    if written.number != 0 || written.values != [due.len() as u64] || left.record[..due.len()] != due {
        return fail("written otherwise than in its own form or the second", &lent, &written);
    }
    let words = left.words.clone();
    left.kind = Kind::Load;
    left.words.fill(r.next());
    left.record.truncate(due.len());
    let (again, left) = compare(&left, r)?;
    if again != loaded || left.words != words {
        return fail("what is written loads otherwise", &lent, &again);
    }
    Ok(())
}

/// A record of 120 checks, so that the last is number 119, with each number changed in turn.
fn last_checks(r: &mut Random, tally: &mut Tally) -> Result<(), String> {
    let whole = model::record(&generate::given(r, 120, 120, 60), Form::Second);
    let places: Vec<usize> = (1..whole.len()).filter(|&place| whole[place] >> 28 == 2).collect();
    for (c, &place) in places.iter().enumerate() {
        for number in [0, c as u32 ^ 1, c as u32 + 1, 120, 255] {
            let mut record = whole.clone();
            record[place] = record[place] & !0xFF00 | number << 8;
            there_and_back(r, record, tally)?;
        }
    }
    Ok(())
}

/// Random splits of a matrix with k = 0, up to a number of them.
fn some_splits(r: &mut Random, matrix: &Matrix, most: usize) -> Vec<(usize, usize)> {
    let (mut matrix, mut splits) = (matrix.clone(), Vec::new());
    while splits.len() < most {
        let pairs = matrix.pairs();
        if pairs.is_empty() {
            break;
        }
        let (u, v) = r.pick(&pairs);
        matrix.split(u, v);
        splits.push((u, v));
    }
    splits
}

/// The dense matrix with 392 splits, the most: each fault of the first, a middle and the last split, a 393rd split, cut at
/// every place of the splits and at every tenth before them; and the longest record.
fn most_splits(r: &mut Random, tally: &mut Tally) -> Result<usize, String> {
    let dense = generate::given(r, 120, 120, 500);
    let mut extended = dense.clone();
    extended.orthogonalise();
    let (base, splits) = extended.unsplit().expect("splits made it");
    let whole = model::record_with(&base, &splits);
    if splits.len() != 392 {
        return Err(format!("RECORDS: the dense matrix takes {} splits: a fault of this program", splits.len()));
    }
    there_and_back(r, whole.clone(), tally)?;
    let first = whole.len() - 393;
    let mut done = 1;
    for place in [first, first + 196, first + 391] {
        let (lower, higher) = (whole[place] & 511, whole[place] >> 9 & 511);
        let bits = 120 + (place - first) as u32;
        for (lower, higher) in [(higher, lower), (lower, lower), (lower, bits), (bits, bits + 1), (lower, 511), (511, 511)] {
            let mut record = whole.clone();
            record[place] = 0x6000_0000 | higher << 9 | lower;
            there_and_back(r, record, tally)?;
            done += 1;
        }
        for change in (18..28).map(|bit| 1 << bit).chain([0x1000_0000, 0x9000_0000]) {
            let mut record = whole.clone();
            record[place] ^= change;
            there_and_back(r, record, tally)?;
            done += 1;
        }
    }
    // A 393rd split, of a pair that is left to split.
    let Some((u, v, _)) = extended.next_pair() else {
        return Err("RECORDS: the dense matrix has no pair left: a fault of this program".to_string());
    };
    let mut record = whole.clone();
    record.insert(whole.len() - 1, 0x6000_0000 | (v as u32) << 9 | u as u32);
    there_and_back(r, record, tally)?;
    for end in (0..whole.len()).filter(|end| *end >= first || end % 10 == 0) {
        there_and_back(r, whole[..end].to_vec(), tally)?;
        done += 1;
    }
    Ok(done + 1)
}

/// The number of records, and what became of them.
pub fn run() -> Result<(usize, String), String> {
    let r = &mut Random::new(103);
    let mut tally = Tally::default();
    last_checks(r, &mut tally)?;
    let most = most_splits(r, &mut tally)?;
    let mut done = 0;
    while done < RECORDS_LEAST {
        let matrix = match r.below(20) {
            0 => {
                let (n, m, part) = (r.between(13, 120), r.below(121), r.pick(&[20, 60, 200]));
                generate::given(r, n, m, part)
            }
            _ => generate::small_given(r),
        };
        let mut record = match r.pick(&FORMS) {
            Form::Third => {
                let most = r.pick(&[0, 1, 2, 5, 30]);
                model::record_with(&matrix, &some_splits(r, &matrix, most))
            }
            form => model::record(&matrix, form),
        };
        if r.chance(500) {
            damage_record(r, &mut record, matrix.n);
        }
        there_and_back(r, record, &mut tally)?;
        done += 1;
    }
    let ([first, second, third], [bad_first, bad_second, bad_third]) = (tally.loaded, tally.faulty);
    if [first, second, third, bad_first, bad_second, bad_third, tally.extended].iter().any(|&number| number < 1_000) {
        return Err(format!("RECORDS: too few of a kind: {:?} loaded, {:?} faulty", tally.loaded, tally.faulty));
    }
    let note = format!(
        "first form: {first} loaded, {bad_first} faulty; second form: {second} loaded, {bad_second} faulty; third form: \
         {third} loaded, {} of them with {} splits, {bad_third} faulty; {} of another kind",
        tally.extended, tally.splits, tally.other
    );
    Ok((done + most, note))
}
