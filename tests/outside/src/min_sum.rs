//! M-112's soft bits: a model of the min-sum rounds, written from document 02 alone.

use crate::model::{Lent, Matrix};

pub const MESSAGES: usize = 65_536;
pub const ROUNDS_MOST: usize = 512;

/// The largest magnitude of a soft float that is taken, and of a sum.
pub const LIMIT: f32 = 1_048_576.0;

/// A channel value, a message or a result.
#[derive(Clone, Copy, Debug)]
enum Value {
    Sure(bool),
    Soft(f32),
    Erased,
}

use Value::{Erased, Soft, Sure};

fn read(byte: u8, float: u32) -> Value {
    match byte {
        0 => Sure(false),
        1 => Sure(true),
        2 => Erased,
        _ => Soft(f32::from_bits(float)),
    }
}

/// Zero leaves as plus zero.
fn leaving(x: f32) -> Value {
    Soft(if x == 0.0 { 0.0 } else { x })
}

/// What a check sends to a bit, from what its other bits sent.
fn check_sends(others: &[Value]) -> Value {
    if others.iter().any(|value| matches!(value, Erased)) {
        return Erased;
    }
    // Each sure 1 and each negative value; zero counts as positive.
    let turned = others.iter().filter(|value| matches!(value, Sure(true)) || matches!(value, Soft(x) if *x < 0.0));
    let odd = turned.count() % 2 == 1;
    let softs = others.iter().filter_map(|value| if let Soft(x) = value { Some(x.abs()) } else { None });
    match softs.reduce(|least, x| if x < least { x } else { least }) {
        None => Sure(odd),
        Some(least) => leaving(if odd { -least } else { least }),
    }
}

/// What a bit sends to a check, from its channel value and what the other checks sent, by rising number.
fn bit_sends(values: &[Value]) -> Value {
    for value in values {
        if let Sure(_) = value {
            return *value;
        }
    }
    let softs = values.iter().filter_map(|value| if let Soft(x) = value { Some(*x) } else { None });
    match softs.reduce(|sum, x| sum + x) {
        None => Erased,
        Some(sum) if sum > LIMIT => Soft(LIMIT),
        Some(sum) if sum < -LIMIT => Soft(-LIMIT),
        Some(sum) => leaving(sum),
    }
}

/// The result of every bit after so many rounds.
fn results(matrix: &Matrix, rounds: usize, channel: &[Value]) -> Vec<Value> {
    let bits_of: Vec<Vec<usize>> = (0..matrix.checks()).map(|c| matrix.ones_of(c)).collect();
    let checks_of: Vec<Vec<usize>> =
        (0..matrix.bits()).map(|b| (0..matrix.checks()).filter(|&c| matrix.rows[c][b]).collect()).collect();
    // By check and bit: what the bits sent last, and what the checks sent last.
    let mut sent: Vec<Vec<Value>> = vec![channel.to_vec(); matrix.checks()];
    let mut heard: Vec<Vec<Value>> = vec![vec![Erased; matrix.bits()]; matrix.checks()];
    let mut some = Vec::new();
    for round in 1..=rounds {
        for (c, bits) in bits_of.iter().enumerate() {
            for &b in bits {
                some.clear();
                some.extend(bits.iter().filter(|&&a| a != b).map(|&a| sent[c][a]));
                heard[c][b] = check_sends(&some);
            }
        }
        if round == rounds {
            break;
        }
        for (b, checks) in checks_of.iter().enumerate() {
            for &c in checks {
                some.clear();
                some.push(channel[b]);
                some.extend(checks.iter().filter(|&&d| d != c).map(|&d| heard[d][b]));
                sent[c][b] = bit_sends(&some);
            }
        }
    }
    let result = |b: usize| {
        let mut all = vec![channel[b]];
        all.extend(checks_of[b].iter().map(|&c| heard[c][b]));
        bit_sends(&all)
    };
    (0..matrix.bits()).map(result).collect()
}

/// The refusal of the call behind causes 1 to 4: its number and values.
pub fn refused(lent: &Lent) -> Option<(u32, Option<usize>)> {
    let bits = lent.n + lent.k;
    if lent.rounds < 1 || lent.rounds > ROUNDS_MOST {
        return Some((22, None));
    }
    let messages = lent.message_bytes.len() == MESSAGES && lent.message_floats.len() == MESSAGES;
    if lent.word.len() != bits || lent.floats.len() != bits || !messages {
        return Some((10, None));
    }
    if let Some(place) = lent.word.iter().position(|&byte| byte > 3) {
        return Some((11, Some(place)));
    }
    let unfit = |b: usize| {
        let x = f32::from_bits(lent.floats[b]);
        lent.word[b] == 3 && (!x.is_finite() || x.abs() > LIMIT)
    };
    (0..bits).find(|&b| unfit(b)).map(|place| (23, Some(place)))
}

/// What an answer writes.
pub fn write(matrix: &Matrix, lent: &mut Lent) {
    let channel: Vec<Value> = lent.word.iter().zip(&lent.floats).map(|(&byte, &float)| read(byte, float)).collect();
    for (b, value) in results(matrix, lent.rounds, &channel).into_iter().enumerate() {
        (lent.word[b], lent.floats[b]) = match value {
            Sure(one) => (one as u8, 0),
            Soft(x) => (3, x.to_bits()),
            Erased => (2, 0),
        };
    }
    lent.message_bytes.fill(0);
    lent.message_floats.fill(0);
}
