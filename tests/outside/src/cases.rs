//! The model by itself: document 01's bench cases, known cases of document 02's taking back, its house codes and small stopping sets, and the
//! model's quick methods against the definitions tried out in full.

use crate::elimination;
use crate::generate;
use crate::model::{self, call, Form, Kind, Lent, Matrix, Reply, FORMS, WORDS};
use crate::random::Random;

pub fn a() -> Matrix {
    Matrix::given(7, &[vec![0, 3, 4, 6], vec![1, 3, 5, 6], vec![2, 4, 5, 6]])
}

pub fn c() -> Matrix {
    Matrix::given(7, &[vec![0, 1, 2, 3], vec![0, 1, 4, 5], vec![0, 2, 6]])
}

pub fn e() -> Matrix {
    Matrix::given(3, &[vec![0, 1, 2], vec![0, 1, 2]])
}

/// The first `checks` checks of case L; all of them are case L.
pub fn l(checks: usize) -> Matrix {
    let list: Vec<Vec<usize>> =
        (0..checks).map(|c| [0, 1, 2, 3, 4, 7, 10, 12].iter().map(|e| (c + e) % 23).collect()).collect();
    Matrix::given(23, &list)
}

pub const RECORD_C: [u32; 16] = [
    0x1000_0307,
    0x2000_0004,
    0x3000_0000,
    0x3000_0001,
    0x3000_0002,
    0x3000_0003,
    0x2000_0004,
    0x3000_0000,
    0x3000_0001,
    0x3000_0004,
    0x3000_0005,
    0x2000_0003,
    0x3000_0000,
    0x3000_0002,
    0x3000_0006,
    0xF000_0000,
];

/// A call that lends this matrix, with nothing else.
pub fn lend(kind: Kind, matrix: &Matrix) -> Lent {
    Lent {
        kind,
        words: matrix.pack(),
        n: matrix.n,
        m: matrix.m,
        k: matrix.k,
        u: 0,
        v: 0,
        name: 0,
        record: Vec::new(),
        input: Vec::new(),
        word: Vec::new(),
        t: 0,
        sets: Vec::new(),
        words2: Vec::new(),
        n2: 0,
        m2: 0,
        k2: 0,
        words3: Vec::new(),
        rounds: 0,
        floats: Vec::new(),
        message_bytes: Vec::new(),
        message_floats: Vec::new(),
        packets: Vec::new(),
        odd: Vec::new(),
    }
}

/// A matrix with k above 0 from the bits of its checks, the added ones last.
fn extended(n: usize, k: usize, checks: &[&[usize]]) -> Matrix {
    let mut matrix = Matrix::zero(n, checks.len() - k, k);
    for (c, bits) in checks.iter().enumerate() {
        bits.iter().for_each(|&b| matrix.rows[c][b] = true);
    }
    matrix
}

/// Known cases of taking back: the matrix, the reply and the matrix afterwards.
pub fn taken_back() -> Vec<(&'static str, Matrix, Reply, Matrix)> {
    let once = extended(3, 1, &[&[2, 3], &[2, 3], &[0, 1, 3]]);
    let twice = extended(3, 2, &[&[4], &[4], &[0, 1, 3], &[2, 3, 4]]);
    let stuck = extended(3, 2, &[&[1, 4], &[0, 1, 3], &[0, 2, 4]]);
    let most = generate::most_ones();
    vec![
        ("E's second split", twice, reply(0, &[2, 1]), once.clone()),
        ("E's first split", once, reply(0, &[2, 0]), e()),
        ("E", e(), reply(15, &[]), e()),
        ("rule A would break", stuck.clone(), reply(16, &[]), stuck),
        ("the most ones", most.clone(), reply(16, &[]), most),
        ("s = 0", extended(2, 1, &[&[0, 1, 2]]), reply(0, &[0, 0]), Matrix::zero(2, 0, 0)),
        ("s = 1", extended(3, 1, &[&[0, 3], &[1, 2, 3]]), reply(0, &[1, 0]), Matrix::given(3, &[vec![0, 1, 2]])),
    ]
}

fn ones_in(matrix: &Matrix) -> usize {
    model::ones(&matrix.pack()).len()
}

fn check_lists(matrix: &Matrix) -> Vec<Vec<usize>> {
    (0..matrix.checks()).map(|c| matrix.ones_of(c)).collect()
}

struct Tally(usize);

impl Tally {
    fn same<T: PartialEq + std::fmt::Debug>(&mut self, what: &str, found: T, due: T) -> Result<(), String> {
        self.0 += 1;
        if found == due {
            return Ok(());
        }
        Err(format!("the model by itself, {what}: found {found:?}, due {due:?}"))
    }
}

fn reply(number: u32, values: &[u64]) -> Reply {
    Reply { number, values: values.to_vec() }
}

/// Cases A to L and the other facts that document 01 and the article name.
fn bench(t: &mut Tally) -> Result<(), String> {
    let mut lent = lend(Kind::Count, &a());
    t.same("A, count", call(&mut lent), reply(0, &[3]))?;
    lent.kind = Kind::Orthogonalise;
    t.same("B, splits and sum", call(&mut lent), reply(0, &[1, 1, 1, 0, 1]))?;
    let b = Matrix::read(&lent.words, 7, 3, 1);
    t.same("B, checks", check_lists(&b), vec![vec![0, 4, 7], vec![1, 5, 7], vec![2, 4, 5, 6], vec![3, 6, 7]])?;
    t.same("B, count", b.cycles(), 0)?;

    let mut lent = lend(Kind::Peel, &c());
    lent.word = vec![2, 2, 2, 1, 1, 1, 1];
    t.same("C, peel", call(&mut lent), reply(0, &[0, 0, 3, 0]))?;
    t.same("C, word", lent.word.clone(), vec![2, 2, 2, 1, 1, 1, 1])?;
    t.same("C, count", c().cycles(), 2)?;
    lent.kind = Kind::Orthogonalise;
    t.same("D, splits and sum", call(&mut lent), reply(0, &[1, 1, 1, 0, 1]))?;
    let d = Matrix::read(&lent.words, 7, 3, 1);
    t.same("D, checks", check_lists(&d), vec![vec![2, 3, 7], vec![4, 5, 7], vec![0, 2, 6], vec![0, 1, 7]])?;
    lent.kind = Kind::Peel;
    lent.k = 1;
    lent.word.push(2);
    t.same("D, peel", call(&mut lent), reply(0, &[3, 1, 0, 0]))?;
    t.same("D, word", lent.word, vec![0, 0, 1, 1, 1, 1, 1, 0])?;

    let mut lent = lend(Kind::Count, &e());
    t.same("E, count", call(&mut lent), reply(0, &[3]))?;
    lent.kind = Kind::Orthogonalise;
    t.same("E, splits and sum", call(&mut lent), reply(0, &[2, 2, 2, 0, 1]))?;
    lent.kind = Kind::Count;
    lent.k = 2;
    t.same("E, count afterwards", call(&mut lent), reply(0, &[0]))?;

    let mut lent = lend(Kind::Peel, &Matrix::zero(2, 0, 0));
    lent.word = vec![2, 2];
    t.same("F", call(&mut lent), reply(0, &[0, 0, 2, 0]))?;
    t.same("F, word", lent.word, vec![2, 2])?;

    let mut lent = lend(Kind::Split, &c());
    lent.v = 3;
    t.same("G", call(&mut lent), reply(8, &[1]))?;
    (lent.u, lent.v) = (4, 4);
    t.same("H", call(&mut lent), reply(7, &[]))?;
    t.same("G and H, words", lent.words, c().pack())?;

    let mut lent = lend(Kind::Peel, &Matrix::given(2, &[vec![0], vec![0, 1]]));
    lent.word = vec![2, 1];
    t.same("I", call(&mut lent), reply(12, &[]))?;
    t.same("I, word", lent.word, vec![2, 1])?;

    let mut lent = lend(Kind::Rank, &a());
    t.same("J, rank", call(&mut lent), reply(0, &[3]))?;
    lent.kind = Kind::Encode;
    lent.input = vec![1, 0, 0, 0];
    lent.word = vec![9; 7];
    t.same("J, encode", call(&mut lent), reply(0, &[]))?;
    t.same("J, codeword", lent.word.clone(), vec![1, 1, 0, 1, 0, 0, 0])?;
    lent.kind = Kind::MessageBits;
    t.same("J, message bits", call(&mut lent), reply(0, &[]))?;
    t.same("J, marks", lent.word, vec![0, 0, 0, 1, 1, 1, 1])?;

    let mut lent = lend(Kind::Load, &Matrix::zero(1, 0, 0));
    lent.words = vec![5; WORDS];
    t.same("K", call(&mut lent), reply(5, &[0]))?;
    t.same("K, words", lent.words.clone(), vec![5; WORDS])?;

    t.same("L, ones", ones_in(&l(23)), 184)?;
    t.same("L, count", l(23).cycles(), 598)?;
    t.same("L, rank", l(23).rank(), 11)?;
    t.same("11 checks of L, ones", ones_in(&l(11)), 88)?;
    t.same("11 checks of L, count", l(11).cycles(), 190)?;
    t.same("11 checks of L, rank", l(11).rank(), 11)?;

    for (first, due) in
        [(0x1000_0078, reply(0, &[120, 0, 0])), (0x1000_0079, reply(5, &[0])), (0x1000_0000, reply(5, &[0]))]
    {
        lent.record = vec![first, 0xF000_0000];
        t.same("n = 120 loads, n = 121 does not", call(&mut lent), due)?;
    }
    lent.record = RECORD_C.to_vec();
    t.same("the record of C", call(&mut lent), reply(0, &[7, 3, 0]))?;
    t.same("the record of C, words", &lent.words, &c().pack())?;
    t.same("the first form of C", model::record(&c(), Form::First), RECORD_C.to_vec())?;
    let second: Vec<u32> = [(0, 0x4000_0307), (6, 0x2000_0104), (11, 0x2000_0203)].iter().fold(
        RECORD_C.to_vec(),
        |mut record, &(place, word)| {
            record[place] = word;
            record
        },
    );
    t.same("C written", &model::record(&c(), Form::Second), &second)?;
    lent.record = second;
    t.same("the second form of C", call(&mut lent), reply(0, &[7, 3, 0]))?;
    t.same("the second form of C, words", &lent.words, &c().pack())?;
    let full: Vec<Vec<usize>> = vec![(0..120).collect(); 120];
    t.same("the longest record without splits", model::record(&Matrix::given(120, &full), Form::Second).len(), 14_522)?;
    // C orthogonalised: one split, of bits 0 and 1.
    let third = model::record_with(&c(), &[(0, 1)]);
    t.same("D's record, its last words", &third[third.len() - 2..], &[0x6000_0200, 0xF000_0000])?;
    lent.record = third.clone();
    t.same("C with its split", call(&mut lent), reply(0, &[7, 3, 1]))?;
    let mut d = c();
    d.orthogonalise();
    t.same("C with its split, words", &lent.words, &d.pack())?;
    t.same("D written", model::written(&d), Some(third))?;
    // Accepted matrices that no splits made: a taking back breaks rule A; a share of 0.
    let mut stuck = Matrix::given(5, &[vec![1, 4], vec![0, 1, 3], vec![0, 2, 4]]);
    (stuck.n, stuck.m, stuck.k) = (3, 1, 2);
    t.same("rule A breaks on the way", (stuck.rule_a(), model::written(&stuck)), (true, None))?;
    let mut alone = Matrix::given(3, &[vec![0, 1, 2]]);
    (alone.n, alone.m, alone.k) = (2, 0, 1);
    t.same("a share of 0 does not rebuild", (alone.rule_a(), model::written(&alone)), (true, None))?;
    // The first record word that breaks the form, one example for each way.
    let faulty: [(&[u32], u64); 28] = [
        (&[0x1000_0003], 1),
        (&[0x1000_0103, 0x2000_0004], 1),
        (&[0x1000_0103, 0x2000_0003, 0x3000_0002, 0x3000_0001], 3),
        (&[0x1000_0103, 0x2000_0003, 0x3000_0002], 3),
        (&[0x1000_0103, 0x2000_0001, 0x3000_0003], 2),
        (&[0x1000_0103, 0x2000_0100], 1),
        (&[0x1000_0103, 0xF000_0000], 1),
        (&[0x1000_0003, 0xF000_0000, 0xF000_0000], 2),
        (&[0x1000_0003, 0xF000_0001], 1),
        (&[0x1000_0003, 0x2000_0000], 1),
        (&[0x1000_7903, 0xF000_0000], 0),
        (&[0x1001_0003, 0xF000_0000], 0),
        (&[0x4000_0003], 1),
        (&[0x4000_0103, 0x2000_0100, 0xF000_0000], 1),
        (&[0x4000_0203, 0x2000_0000, 0x2000_0000, 0xF000_0000], 2),
        (&[0x4000_0203, 0x2000_0000, 0x2000_0200, 0xF000_0000], 2),
        (&[0x4000_0203, 0x2000_0000, 0x2001_0100, 0xF000_0000], 2),
        (&[0x1000_0203, 0x2000_0000, 0x2000_0100, 0xF000_0000], 2),
        (&[0x6000_0003, 0xF000_0000], 0),
        (&[0x5000_0003], 1),
        (&[0x5000_0103, 0x6000_0200, 0x2000_0000, 0xF000_0000], 1),
        (&[0x1000_0003, 0x6000_0200, 0xF000_0000], 1),
        (&[0x4000_0003, 0x6000_0200, 0xF000_0000], 1),
        (&[0x5000_0003, 0x6000_0200, 0xF000_0000], 1),
        (&[0x5000_0202, 0x2000_0002, 0x3000_0000, 0x3000_0001, 0x2000_0102, 0x3000_0000, 0x3000_0001, 0x6000_0001], 7),
        (&[0x5000_0202, 0x2000_0002, 0x3000_0000, 0x3000_0001, 0x2000_0102, 0x3000_0000, 0x3000_0001, 0x6004_0200], 7),
        (&[0x5000_0202, 0x2000_0002, 0x3000_0000, 0x3000_0001, 0x2000_0102, 0x3000_0000, 0x3000_0001, 0x6000_0200], 8),
        (
            &[
                0x5000_0202,
                0x2000_0002,
                0x3000_0000,
                0x3000_0001,
                0x2000_0102,
                0x3000_0000,
                0x3000_0001,
                0x6000_0200,
                0x6000_0200,
                0xF000_0000,
            ],
            8,
        ),
    ];
    for (record, place) in faulty {
        lent.record = record.to_vec();
        t.same("a faulty record", call(&mut lent), reply(5, &[place]))?;
    }

    let tight = generate::triples(&mut Random::new(1), 9, 6, 391);
    t.same("k = 391 is accepted", model::accept(&tight.pack(), 9, 6, 391).is_ok(), true)?;
    let (u, v) = tight.pairs()[0];
    let mut lent = lend(Kind::Split, &tight);
    (lent.u, lent.v) = (u, v);
    t.same(
        "a split at k = 391",
        call(&mut lent),
        reply(0, &[vec![tight.share(u, v), 392], tight.holders(u, v)].concat()),
    )?;
    lent.k = 392;
    let (u, v) = Matrix::read(&lent.words, 9, 6, 392).pairs()[0];
    (lent.u, lent.v) = (u, v);
    t.same("a split at k = 392", call(&mut lent), reply(9, &[]))?;
    lent.kind = Kind::Orthogonalise;
    t.same("orthogonalise at k = 392", call(&mut lent), reply(9, &[0, 0, 392]))?;

    let most = generate::most_ones();
    t.same("the most ones", ones_in(&most), 59_136)?;
    t.same("the most four-cycles", most.cycles(), 831_117_420)?;
    t.same("the most ones, accepted", model::accept(&most.pack(), 120, 120, 392).is_ok(), true)?;

    for (what, matrix, due, after) in taken_back() {
        let mut lent = lend(Kind::TakeBack, &matrix);
        t.same(&format!("{what}, taken back"), call(&mut lent), due)?;
        t.same(&format!("{what}, words"), lent.words, after.pack())?;
    }
    let mut split = e();
    split.split(0, 1);
    split.split(3, 2);
    t.same("E's two splits by hand", split, taken_back()[0].1.clone())?;

    let mut input = vec![0, 0, 0, 16];
    RECORD_C.iter().for_each(|word| input.extend(word.to_be_bytes()));
    input.extend([2, 2, 2, 1, 1, 1, 1]);
    t.same("mend", model::mend(&input), b"SPLITS 1 SUM 1\nRESIDUE\nWORD 0011111\n".to_vec())?;
    t.same("mend, 4 bytes of 0", model::mend(&[0; 4]), b"REFUSED 5\n".to_vec())?;
    t.same("mend, 3 bytes", model::mend(&[0; 3]), b"REFUSED 14\n".to_vec())?;
    t.same("mend, count too large", model::mend(&[255; 9]), b"REFUSED 14\n".to_vec())?;
    input.push(0);
    t.same("mend, word too long", model::mend(&input), b"REFUSED 10\n".to_vec())
}

/// The house codes: rank, cycle count, and the splits, sum and k of orthogonalising.
fn house_codes(t: &mut Tally) -> Result<(), String> {
    t.same("house code 0 is case L", model::house(0), Some(l(23)))?;
    let due = [
        (0, 23, 23, 11, 598, [35, 92, 35]),
        (1, 3, 2, 2, 0, [0, 0, 0]),
        (2, 7, 3, 3, 3, [1, 1, 1]),
        (3, 15, 4, 4, 36, [5, 7, 5]),
        (4, 31, 5, 5, 280, [16, 31, 16]),
    ];
    for (name, n, m, rank, count, orthogonalised) in due {
        let mut lent = lend(Kind::HouseCode, &Matrix::zero(1, 0, 0));
        lent.name = name;
        lent.words = vec![u64::MAX; WORDS];
        t.same("a house code, n and m", call(&mut lent), reply(0, &[n as u64, m as u64]))?;
        let mut given = Matrix::read(&lent.words, n, m, 0);
        t.same("a house code, rank", given.rank(), rank)?;
        t.same("a house code, count", given.cycles(), count)?;
        lent = lend(Kind::Orthogonalise, &given);
        let made = call(&mut lent);
        t.same("a house code, orthogonalised", (made.number, &made.values[..3]), (0, &orthogonalised[..]))?;
        given.orthogonalise();
        t.same("a house code, orthogonalised, count", given.cycles(), 0)?;
    }
    Ok(())
}

/// Matrices whose numbers of stopping sets of sizes 1 to 4 are known, given and orthogonalised.
pub fn known_sets() -> Vec<(&'static str, Matrix, [usize; 4], [usize; 4])> {
    let hamming = |name| model::house(name).expect("a name");
    vec![
        ("A", a(), [0, 0, 10, 23], [0, 0, 3, 3]),
        ("C", c(), [0, 1, 7, 17], [0, 1, 2, 1]),
        ("Hamming 15", hamming(3), [0, 0, 69, 526], [0, 0, 7, 21]),
        ("Hamming 31", hamming(4), [0, 0, 410, 8_215], [0, 0, 15, 105]),
    ]
}

fn small_sets(t: &mut Tally) -> Result<(), String> {
    for (name, mut matrix, given, orthogonalised) in known_sets() {
        let numbers = |matrix: &Matrix| [1, 2, 3, 4].map(|size| matrix.stopping_sets(size).len() / size);
        t.same(name, numbers(&matrix), given)?;
        matrix.orthogonalise();
        t.same(name, numbers(&matrix), orthogonalised)?;
    }
    Ok(())
}

/// The residue and peeling by their definitions, against the methods that serve for many erased bits.
fn peelings(t: &mut Tally, matrix: &Matrix, word: &[u8]) -> Result<(), String> {
    let erased = model::twos(word);
    let residue = matrix.residue_by_sets(&erased);
    t.same("the residue", &matrix.residue_by_scans(&erased), &residue)?;
    t.same("the residue is a stopping set", matrix.is_stopping(&residue), true)?;
    let peeled = matrix.peel_by_values(word);
    t.same("peeling by scans", &matrix.peel_by_scans(word), &peeled)?;
    t.same("peeling by elimination", &matrix.peel_by_elimination(word), &peeled)?;
    if let Some(peeled) = &peeled {
        t.same("what is left", model::twos(peeled), residue)?;
    }
    Ok(())
}

/// The same on larger matrices, with ten bits erased of a codeword or of any word.
fn larger(t: &mut Tally) -> Result<(), String> {
    let mut r = Random::new(9);
    for i in 0..100 {
        let (n, m, part) = (r.between(12, 50), r.between(8, 40), r.pick(&[40, 80, 150]));
        let mut matrix = generate::given(&mut r, n, m, part);
        if i % 2 == 0 {
            generate::split_some(&mut r, &mut matrix, 12);
        }
        let bits = matrix.bits();
        let mut word = elimination::combine(&elimination::basis(&matrix), bits, || r.chance(500));
        if i % 4 == 3 {
            word = r.bits(bits);
        }
        for _ in 0..10 {
            word[r.below(bits)] = 2;
        }
        peelings(t, &matrix, &word)?;
    }
    Ok(())
}

/// The quick methods of the model against the definitions, on small random matrices.
fn methods(t: &mut Tally) -> Result<(), String> {
    let mut r = Random::new(2);
    for _ in 0..3000 {
        let matrix = generate::small(&mut r);
        let bits = matrix.bits();
        let accepted = model::accept(&matrix.pack(), matrix.n, matrix.m, matrix.k);
        t.same("a generated matrix is accepted", accepted.as_ref(), Ok(&matrix))?;
        let table = matrix.shares();
        let mut cycles = 0;
        for u in 0..bits {
            for v in u + 1..bits {
                let share = matrix.share(u, v);
                t.same("a share", table[u][v] as u64, share)?;
                cycles += (0..share).sum::<u64>();
            }
        }
        t.same("the cycle count", matrix.cycles(), cycles)?;

        let part = r.below(900);
        let mut word: Vec<u8> = r.bits(bits);
        let mut left = 9;
        for byte in &mut word {
            if left > 0 && r.chance(part) {
                *byte = 2;
                left -= 1;
            }
        }
        if r.chance(700) {
            let basis = elimination::basis(&matrix);
            let code = elimination::combine(&basis, bits, || r.chance(500));
            t.same("a combination is a codeword", matrix.is_codeword(&code), true)?;
            (0..bits).filter(|&b| word[b] != 2).collect::<Vec<_>>().iter().for_each(|&b| word[b] = code[b]);
        }
        peelings(t, &matrix, &word)?;
        // Elimination, against all values of the erased bits.
        let places: Vec<usize> = (0..bits).filter(|&b| word[b] == 2).collect();
        let mut agreeing: Option<Vec<u8>> = None;
        for number in 0..1usize << places.len() {
            let mut tried = word.clone();
            places.iter().enumerate().for_each(|(i, &b)| tried[b] = (number >> i & 1) as u8);
            if matrix.is_codeword(&tried) {
                let known = agreeing.get_or_insert(tried.clone());
                (0..bits).filter(|&b| tried[b] != known[b]).collect::<Vec<_>>().iter().for_each(|&b| known[b] = 2);
            }
        }
        t.same("elimination", &elimination::decode(&matrix, &word), &agreeing)?;
        t.same("determining", matrix.determine_by_values(&word), agreeing)?;

        let size = r.below(6);
        t.same("stopping sets", matrix.stopping_sets(size.max(1)), matrix.stopping_sets_by_numbers(size.max(1)))?;

        let pairs = matrix.pairs();
        if !pairs.is_empty() && matrix.k < model::ADDED_MOST {
            let (u, v) = r.pick(&pairs);
            let mut split = matrix.clone();
            split.split(u, v);
            t.same("s of a split taken back", split.take_back(), matrix.share(u, v))?;
            t.same("a split taken back", &split, &matrix)?;
        }

        if matrix.k == 0 && matrix.n <= 8 {
            let parity = matrix.parity_bits();
            t.same("the parity bits", &parity, &matrix.parity_bits_by_sums())?;
            t.same("the rank", matrix.rank(), elimination::rank(&matrix))?;
            let message = r.bits(matrix.n - matrix.rank());
            t.same("encoding", matrix.encode(&message), matrix.encode_by_words(&message))?;
        }
        if matrix.k == 0 {
            for form in FORMS {
                t.same("load after write", &model::load(&model::record(&matrix, form)), &Ok(matrix.clone()))?;
            }
        }
        if let Some((base, splits)) = matrix.unsplit() {
            t.same("load after write, splits", &model::load(&model::record_with(&base, &splits)), &Ok(matrix.clone()))?;
        }
        t.same("read after pack", &Matrix::read(&matrix.pack(), matrix.n, matrix.m, matrix.k), &matrix)?;
    }
    Ok(())
}

/// The number of comparisons.
pub fn run() -> Result<usize, String> {
    let mut tally = Tally(0);
    bench(&mut tally)?;
    house_codes(&mut tally)?;
    small_sets(&mut tally)?;
    methods(&mut tally)?;
    larger(&mut tally)?;
    Ok(tally.0)
}
