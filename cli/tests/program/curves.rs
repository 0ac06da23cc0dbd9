//! `curve`: its numbers against a table that was computed apart and against the model, and its picture.

use crate::generate;
use crate::model::{erased, house, Matrix};
use crate::random::Random;
use crate::support::{alist, examples, folder, golden, run, runs, shell};
use crate::xml;
use cli::awgn::{self, variance, Noisy, POINTS};
use cli::curve::{csv, picture, Measured, Of, Over};
use cli::dual::Dual;
use cli::erasures::{Draw, Setup, RATES};
use cli::files::{take, Format};
use cli::interval::Count;
use cli::measure::{measure, Plan, Point, CHUNK};
use cli::plot;
use std::fs;
use std::path::Path;

fn setup(matrix: &Matrix) -> Setup {
    let text = alist(matrix, true);
    let taken = take(Path::new("matrix.alist"), Format::Alist, text.as_bytes()).expect("a matrix");
    Setup::new(&taken).expect("a setup")
}

/// The first fields of a line.
fn front(line: &str, fields: usize) -> String {
    line.split(',').take(fields).collect::<Vec<_>>().join(",") + "\n"
}

/// The first columns of case C and case L by the program, for a few words.
#[test]
fn tables() {
    let out = folder("curves");
    for (from, name, words, seed) in [(golden(), "case-c", "120", "7"), (examples(), "case-l", "30", "1")] {
        let (table, drawn) = (out.join(format!("{name}.csv")), out.join(format!("{name}.svg")));
        let paths = [table.to_str().expect("a path"), drawn.to_str().expect("a path")];
        let file = format!("{name}.alist");
        let args = ["curve", &file, "--csv", paths[0], "--out", paths[1], "--words", words, "--seed", seed];
        assert_eq!(runs(&from, &args).text(), "");
        let due = fs::read_to_string(golden().join(format!("{name}.csv"))).expect("a table");
        let found = fs::read_to_string(&table).expect("a table");
        assert_eq!(found.lines().map(|line| front(line, 10)).collect::<String>(), due);
        let text = fs::read_to_string(&drawn).expect("a picture");
        assert_eq!(xml::check(&text), Ok(()));
        for part in
            ["<title id='title'>", "<desc id='desc'>", ">given<", ">extended<", ">determined<", ">erasure rate<"]
        {
            assert!(text.contains(part), "{part}");
        }
        assert!(text.contains(&format!(">{name}.alist<")));
    }
    let text = fs::read_to_string(out.join("case-l.svg")).expect("a picture");
    assert!(text.contains(">limit of the channel, 1 - rate = 0.478<"), "rank 11 of 23 bits");
}

/// The same numbers, whatever the number of threads; others for another seed.
#[test]
fn threads() {
    let setup = setup(&house(2).expect("Hamming 7"));
    let plan = Plan { words: 250, seed: 3, errors: None };
    let one = measure(&setup, plan, 1).expect("numbers");
    for threads in [0, 2, 3, 7] {
        assert_eq!(measure(&setup, plan, threads).expect("numbers"), one);
    }
    assert_ne!(measure(&setup, Plan { seed: 4, ..plan }, 2).expect("numbers"), one);
    assert!(one.iter().all(|point| point.words == 250));
}

/// Each word that is drawn, by the model in the three ways.
#[test]
fn against_the_model() {
    let r = &mut Random::new(1289);
    let matrices = [house(0).expect("case L"), generate::given(r, 20, 9, 250), Matrix::zero(5, 2, 0)];
    for given in matrices {
        let setup = setup(&given);
        let points = measure(&setup, Plan { words: 12, seed: 9, errors: None }, 2).expect("numbers");
        let mut extended = given.clone();
        extended.orthogonalise();
        for (rate, point) in (1..=RATES).zip(&points) {
            let mut due = Point { words: 12, ..Point::default() };
            let mut draw = Draw::new(&setup, 9, rate, 0);
            for _ in 0..12 {
                draw.word().expect("a word");
                assert!(given.is_codeword(&draw.sent));
                let agrees = |(&received, &sent): (&u8, &u8)| received == 2 || received == sent;
                assert!(draw.received.iter().zip(&draw.sent).all(agrees));
                let longer = [draw.received.clone(), vec![2; extended.k]].concat();
                let ways = [given.peel(&draw.received), extended.peel(&longer), given.determine(&draw.received)];
                due.hit += erased(&draw.received) as u64;
                for (left, word) in due.left.iter_mut().zip(ways) {
                    left.word(erased(&word.expect("a codeword agrees")[..given.n]));
                }
            }
            assert_eq!(*point, due, "rate {rate}");
        }
        let [low, high] = [&points[9], points.last().expect("a point")];
        assert!(low.hit < high.hit && high.hit == 12 * given.n as u64);
    }
}

/// Pictures at the edges: no bit left at all, every erased bit left, names that need care.
#[test]
fn pictures() {
    let nothing = Matrix::given(3, &[vec![0], vec![1], vec![2]]);
    let everything = Matrix::zero(4, 0, 0);
    for (matrix, says) in [(nothing, "no bit is left at any erasure rate"), (everything, "1 - rate = 0.000")] {
        let setup = setup(&matrix);
        let plan = Plan { words: 3, seed: 0, errors: None };
        let mut all = [Measured::new("", setup, Over::Erasures, plan, 1).expect("numbers")];
        assert_eq!(csv(Over::Erasures, &all).lines().count(), 51);
        for name in ["a & b <c> 'd' \"e\".alist", "\u{1}\u{ffff}\n", &"long".repeat(100)] {
            all[0].name = name.to_string();
            let drawn = plot::draw(&picture(Over::Erasures, &all, plan, &[Of::Bits]));
            assert_eq!(xml::check(&drawn), Ok(()), "{name}");
            assert!(drawn.contains(says), "{drawn}");
        }
    }
    let out = folder("curve-names");
    fs::write(out.join("a&b.alist"), alist(&Matrix::zero(1, 1, 0), true)).expect("a file");
    let drawn = run(&out, &["curve", "--words", "1", "--out", "a&b.svg", "--", "a&b.alist"], b"");
    assert_eq!((drawn.status, drawn.err.as_str()), (0, ""));
    let text = fs::read_to_string(out.join("a&b.svg")).expect("a picture");
    assert_eq!(xml::check(&text), Ok(()));
    assert!(text.contains(">a&amp;b.alist<"));
}

/// The whole table of three matrices, two of them with one name, and their picture, of bits and of words.
#[test]
fn several() {
    let out = folder("curves-several");
    let (case_c, case_l) = (golden().join("case-c.alist"), examples().join("case-l.alist"));
    fs::copy(&case_c, out.join("a,b.alist")).expect("a file");
    let files = [case_c.to_str().expect("a path"), "a,b.alist", case_l.to_str().expect("a path")];
    let plan = ["--words", "250", "--errors", "60", "--seed", "5", "--csv", "all.csv", "--out", "all.svg"];
    runs(&out, &[&["curve"], &files[..], &plan].concat());
    let found = fs::read_to_string(out.join("all.csv")).expect("a table");
    assert_eq!(found, fs::read_to_string(golden().join("several.csv")).expect("a table"));
    let bits = fs::read_to_string(out.join("all.svg")).expect("a picture");
    assert_eq!(xml::check(&bits), Ok(()));
    for part in [">share of sent bits left<", ">a,b.alist: 7 bits, 3 checks, rank 3, rate 0.571, k = 1<", ">given<"] {
        assert!(bits.contains(part), "{part}");
    }
    runs(&out, &[&["curve", "--blocks"], &files[..], &plan].concat());
    assert_eq!(fs::read_to_string(out.join("all.csv")).expect("a table"), found, "the table has both");
    let words = fs::read_to_string(out.join("all.svg")).expect("a picture");
    assert_eq!(xml::check(&words), Ok(()));
    assert!(words.contains(">share of words not wholly recovered<") && words != bits);
    runs(&out, &[&["curve", "--bits"], &files[..], &plan].concat());
    assert_eq!(fs::read_to_string(out.join("all.svg")).expect("a picture"), bits, "bits without an option");
    runs(&out, &[&["curve", "--bits", "--blocks"], &files[..], &plan].concat());
    let both = fs::read_to_string(out.join("all.svg")).expect("a picture");
    assert_eq!(xml::check(&both), Ok(()));
    for part in [">share of words not wholly recovered<", ">share of sent bits left<"] {
        assert!(both.contains(part), "{part}");
    }
}

/// A point ends with the first chunk after which every way has left enough, whatever the number of threads.
#[test]
fn enough() {
    let setup = setup(&house(0).expect("case L"));
    let plan = |words: u64, errors: Option<u64>| Plan { words, seed: 11, errors };
    let whole: Vec<Vec<Point>> =
        (1..=4).map(|chunks| measure(&setup, plan(chunks * CHUNK, None), 2).expect("numbers")).collect();
    let one = measure(&setup, plan(4 * CHUNK, Some(40)), 1).expect("numbers");
    for threads in [0, 2, 5] {
        assert_eq!(measure(&setup, plan(4 * CHUNK, Some(40)), threads).expect("numbers"), one);
    }
    let is_enough = |point: &Point| point.left.iter().all(|left| left.words >= 40);
    for (rate, point) in one.iter().enumerate() {
        let due = whole.iter().map(|points| points[rate]).find(is_enough).unwrap_or(whole[3][rate]);
        assert_eq!(*point, due, "rate {rate}");
    }
    assert!(one[45].words == CHUNK && one[0].words == 4 * CHUNK);
    assert!(one.iter().any(|point| [2 * CHUNK, 3 * CHUNK].contains(&point.words)), "some end between");
}

/// Wilson's intervals: known ones of words; of bits by as many independent ones as vary alike.
#[test]
fn intervals() {
    let near = |found: f64, due: f64| assert!((found - due).abs() < 5e-7, "{found} {due}");
    let count = |words: &[usize]| {
        let mut count = Count::default();
        words.iter().for_each(|&bits| count.word(bits));
        count
    };
    let nothing = Count::default();
    for found in [nothing.of_words(100), nothing.of_bits(100, 9)] {
        assert_eq!((found.share, found.low), (0.0, 0.0));
        near(found.high, 0.036_993_5);
    }
    let ten = count(&[1; 10]);
    near(ten.of_words(100).low, 0.055_229_1);
    near(ten.of_words(100).high, 0.174_366);
    // Words of one bit are trials; so are words that are lost whole; bits lost one by one count once each.
    assert_eq!(ten.of_bits(100, 1), ten.of_words(100));
    near(count(&[7; 10]).of_bits(100, 7).high, 0.174_366);
    let apart = count(&[1; 10]).of_bits(100, 20);
    assert!(apart.share == 0.005 && apart.low > 0.0026 && apart.high < 0.0093, "{apart:?}");
    let all = count(&[3; 10]).of_bits(10, 3);
    assert_eq!((all.share, all.high), (1.0, 1.0));
    near(all.low, 0.722_467);
}

/// Noise: the table and the pictures of two matrices, one of them with too large a rank for the best decision.
#[test]
fn noise() {
    let out = folder("curves-noise");
    let names = ["hamming-31", "sparse-60x120"].map(|name| examples().join(format!("{name}.alist")));
    let files = [names[0].to_str().expect("a path"), names[1].to_str().expect("a path")];
    let plan = ["--channel", "awgn", "--rounds", "4", "--words", "20", "--csv", "all.csv", "--out", "all.svg"];
    runs(&out, &[&["curve"], &files[..], &plan].concat());
    let found = fs::read_to_string(out.join("all.csv")).expect("a table");
    assert_eq!(found, fs::read_to_string(golden().join("noise.csv")).expect("a table"));
    let drawn = |what: &str, panels: usize| {
        let text = fs::read_to_string(out.join("all.svg")).expect("a picture");
        assert_eq!(xml::check(&text), Ok(()));
        assert_eq!(text.matches(">Eb/N0 in dB<").count(), panels);
        for part in [what, ">Eb/N0 in dB<", ">best<", ">hamming-31.alist: 31 bits, 5 checks", "20 words at each point"]
        {
            assert!(text.contains(part), "{part}");
        }
    };
    drawn(">bit error rate<", 2);
    drawn(">word error rate<", 2);
    drawn(" The bit error rate. At 2: given ", 2);
    let both = fs::read(out.join("all.svg")).expect("a picture");
    for (options, what, panels) in [
        (&["--blocks"][..], ">word error rate<", 1),
        (&["--bits"], ">bit error rate<", 1),
        (&["--blocks", "--bits"], ">word error rate<", 2),
    ] {
        runs(&out, &[&["curve"], options, &files[..], &plan].concat());
        drawn(what, panels);
        assert_eq!(fs::read(out.join("all.svg")).expect("a picture") == both, panels == 2, "{options:?}");
        assert_eq!(fs::read_to_string(out.join("all.csv")).expect("a table"), found, "the table has both");
    }
    fs::write(out.join("zero.txt"), "10\n01\n").expect("a file");
    let refused = run(&out, &["curve", "zero.txt", "--channel", "awgn", "--out", "zero.svg"], b"");
    let due = "parity: zero.txt: the code has rate 0, so that no Eb/N0 is its own\n";
    assert_eq!((refused.status, refused.err.as_str()), (1, due));
    assert!(!out.join("zero.svg").exists());
}

/// The same numbers over noise, whatever the number of threads, ended early or not.
#[test]
fn noise_on_threads() {
    let setup = setup(&house(2).expect("Hamming 7"));
    let noisy = Noisy::new(&setup, 5);
    for errors in [None, Some(9)] {
        let plan = Plan { words: 250, seed: 3, errors };
        let one = measure(&noisy, plan, 1).expect("numbers");
        assert_eq!(one.len() as u64, POINTS);
        for threads in [0, 2, 3] {
            assert_eq!(measure(&noisy, plan, threads).expect("numbers"), one);
        }
        assert_eq!(one[0].words, if errors.is_some() { 100 } else { 250 });
    }
}

/// The noise has the variance that Eb/N0 says, and the best decision is that of all codewords' likelihoods.
#[test]
fn best_decisions() {
    let given = house(2).expect("Hamming 7");
    let setup = setup(&given);
    let dual = Dual::new(&setup.given, setup.rank).expect("8 words");
    let codewords: Vec<Vec<u8>> = (0..128u32).map(|word| (0..7).map(|bit| (word >> bit & 1) as u8).collect()).collect();
    let codewords: Vec<_> = codewords.into_iter().filter(|word| given.is_codeword(word)).collect();
    assert_eq!(codewords.len(), 16);
    let (mut draw, wide) = (awgn::Draw::new(&setup, 1, 4, 0), variance(4, 4.0 / 7.0));
    let mut square = 0.0;
    for _ in 0..2000 {
        draw.word().expect("a word");
        assert!(codewords.contains(&draw.sent));
        let likely = |word: &Vec<u8>| -> f64 {
            let signed =
                word.iter().zip(&draw.received).map(|(&bit, &value)| (0.5 - f64::from(bit)) * f64::from(value));
            signed.sum::<f64>().exp()
        };
        let decided = dual.decide(&draw.received);
        for (bit, decided) in decided.iter().enumerate() {
            let of = |value: u8| codewords.iter().filter(|word| word[bit] == value).map(likely).sum::<f64>();
            assert_eq!(cli::soft::hard(*decided), if of(0) > of(1) { '0' } else { '1' });
        }
        let noise = |(&sent, &value): (&u8, &f32)| f64::from(value) * wide / 2.0 - (1.0 - 2.0 * f64::from(sent));
        square += draw.sent.iter().zip(&draw.received).map(noise).map(|noise| noise * noise).sum::<f64>();
    }
    let found = square / (2000.0 * 7.0);
    assert!((found / wide - 1.0).abs() < 0.05, "{found} {wide}");
}

/// An interrupt leaves the old files, and nothing beside them.
#[test]
fn interrupted() {
    let out = folder("curves-interrupted");
    fs::copy(examples().join("case-l.alist"), out.join("l.alist")).expect("a file");
    fs::write(out.join("old.svg"), "old").expect("a file");
    let args = ["curve", "l.alist", "--words", "100000000", "--out", "old.svg", "--csv", "new.csv"];
    let ended = shell(&out, "timeout -s INT 0.3 \"$0\" \"$@\"; exit $?", &args);
    assert_eq!((ended.status, ended.text(), ended.err.as_str()), (124, "", ""));
    assert_eq!(fs::read_to_string(out.join("old.svg")).expect("a file"), "old");
    assert_eq!(fs::read_dir(&out).expect("a folder").count(), 2);
}
