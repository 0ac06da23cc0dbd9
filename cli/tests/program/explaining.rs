//! `explain`: every certificate is held to the model, all of them together to the elimination decoder, and wrong ones are
//! seen.

use crate::cases;
use crate::codes;
use crate::elimination;
use crate::generate;
use crate::json::{self, Json};
use crate::lines::{digits, spaced};
use crate::model::{erased, house, Matrix};
use crate::random::Random;
use crate::support::{alist, folder, golden, is_one_line, record, run};
use cli::certificates::{check, explain, Explanation, Reason, Reasons};
use cli::explain::Explained;
use std::fs;

/// At least so many words have to be explained.
const WORDS_LEAST: usize = 12_000;

/// The matrix in the words of the library.
fn lent(matrix: &Matrix) -> cli::matrix::Matrix {
    cli::matrix::Matrix { words: matrix.pack(), n: matrix.n, m: matrix.m, k: matrix.k }
}

/// The bits of a sum of checks, by the model's rows.
fn sum(matrix: &Matrix, checks: &[usize]) -> Vec<usize> {
    let odd = |bit: &usize| checks.iter().filter(|&&check| matrix.rows[check][*bit]).count() % 2 == 1;
    (0..matrix.bits()).filter(odd).collect()
}

/// The value that the other bits of a sum give a bit, if it is in the sum and they are known.
fn given_by(matrix: &Matrix, checks: &[usize], bit: usize, with: &[usize], word: &[u8]) -> Option<u8> {
    let mut bits = [with, &[bit]].concat();
    bits.sort_unstable();
    let known = bits == sum(matrix, checks) && with.iter().all(|&other| word[other] < 2);
    known.then(|| with.iter().map(|&other| word[other]).sum::<u8>() % 2)
}

/// What the words met: solved, summed and unknown bits, and contradictions.
#[derive(Default, Debug)]
struct Met {
    words: usize,
    solved: usize,
    summed: usize,
    unknown: usize,
    contradictions: usize,
}

/// Holds each certificate to the model's rows, and the word that they leave to peeling and to elimination.
fn held(matrix: &Matrix, word: &[u8], reasons: &Reasons, met: &mut Met) -> Vec<u8> {
    let mut left = word.to_vec();
    let solved = |reason: &Reason| matches!(reason, Reason::Solved { .. });
    let first = reasons.iter().take_while(|(_, reason)| solved(reason)).count();
    assert!(reasons[first..].iter().map(|(bit, _)| bit).is_sorted(), "the others rise");
    for (place, (bit, reason)) in reasons.iter().enumerate() {
        assert_eq!(left[*bit], 2, "each erased bit once");
        match reason {
            Reason::Solved { turn, check, value, with } => {
                assert_eq!((*turn, given_by(matrix, &[*check], *bit, with, &left)), (place + 1, Some(*value)));
                left[*bit] = *value;
                met.solved += 1;
            }
            Reason::Summed { checks, value, with } => {
                assert_eq!(given_by(matrix, checks, *bit, with, word), Some(*value));
                left[*bit] = *value;
                met.summed += 1;
            }
            Reason::Unknown { ones } => {
                let codeword: Vec<u8> = (0..matrix.bits()).map(|bit| u8::from(ones.contains(&bit))).collect();
                assert!(matrix.is_codeword(&codeword) && ones.contains(bit) && ones.iter().all(|&one| word[one] == 2));
                met.unknown += 1;
            }
        }
        if place + 1 == first {
            assert_eq!(erased(&left), erased(&matrix.peel_by_scans(word).expect("it agrees")), "as peeling ends");
        }
    }
    assert_eq!(reasons.len(), erased(word), "all erased bits");
    left
}

/// Explains a word: what the program finds, what it confirms and what the model says.
fn one(matrix: &Matrix, word: &[u8], met: &mut Met) -> Explanation {
    let lent = lent(matrix);
    let explanation = explain(&lent, word);
    let confirmed = check(&lent, word, &explanation);
    met.words += 1;
    match (&explanation, elimination::decode(matrix, word)) {
        (Explanation::Agreeing(reasons), Some(due)) => {
            assert_eq!(held(matrix, word, reasons, met), due);
            assert_eq!(confirmed, Ok(due));
        }
        (Explanation::Contradicting { checks, with }, None) => {
            assert_eq!(&sum(matrix, checks), with);
            assert!(with.iter().all(|&bit| word[bit] < 2));
            assert_eq!(with.iter().map(|&bit| word[bit]).sum::<u8>() % 2, 1);
            assert_eq!(confirmed, Ok(word.to_vec()));
            met.contradictions += 1;
        }
        (explanation, due) => panic!("{explanation:?}, and elimination gives {due:?}"),
    }
    explanation
}

/// A codeword, now and then with false bits, and erased bits: anywhere, of one kind only, or beside the first added one.
fn received(r: &mut Random, matrix: &Matrix, basis: &[Vec<u8>], way: usize) -> Vec<u8> {
    let (bits, n) = (matrix.bits(), matrix.n);
    let mut word = elimination::combine(basis, bits, || r.chance(500));
    let part = r.pick(&[0, 50, 100, 200, 300, 450, 600, 800, 1000]);
    let places = match way % 6 {
        0 => 0..n,
        1 => n..bits,
        2 => n.saturating_sub(2)..bits.min(n + 2),
        _ => 0..bits,
    };
    word[places].iter_mut().filter(|_| r.chance(part)).for_each(|byte| *byte = 2);
    if way % 3 == 1 {
        word[n..].fill(2);
    }
    for _ in 0..if way % 4 == 3 { r.between(1, 3) } else { 0 } {
        let place = r.below(bits);
        word[place] = [1, 0, 2][usize::from(word[place])];
    }
    word
}

/// A matrix with this n and k above 0: split, orthogonalised, or with added checks that no split made.
fn extended(r: &mut Random, n: usize, way: usize) -> Matrix {
    let (m, part) = (r.between(4, 40), r.pick(&[40, 80, 150]));
    let (mut matrix, most) = (generate::given(r, n, m, part), r.between(1, 12));
    match way % 3 {
        0 => generate::split_some(r, &mut matrix, most),
        1 => drop(matrix.orthogonalise()),
        _ => {
            let added = (0..most).filter(|_| generate::add_triple(r, &mut matrix, 100)).count();
            assert_eq!(matrix.k, added);
        }
    }
    matrix
}

/// The matrices of the outside tests, and how many words of each are explained.
fn matrices(r: &mut Random) -> Vec<(Matrix, usize)> {
    let mut all = Vec::new();
    for code in codes::published().into_iter().chain(codes::random_codes(r)) {
        let mut longer = code.matrix.clone();
        longer.orthogonalise();
        all.extend([(code.matrix, 40), (longer, 12)]);
    }
    for n in [1, 63, 64, 65, 120] {
        all.extend((0..6).map(|way| (if n == 1 { generate::given(r, 1, 30, 80) } else { extended(r, n, way) }, 20)));
    }
    let mut dense = generate::given(r, 120, 120, 500);
    dense.orthogonalise();
    all.extend([(generate::most_ones(), 15), (dense, 15), (generate::triples(r, 120, 20, 392), 15)]);
    all.extend((0..1000).map(|_| (generate::small(r), 8)));
    all
}

#[test]
fn every_kind_of_word() {
    let (r, mut met) = (&mut Random::new(1450), Met::default());
    for (matrix, words) in matrices(r) {
        let basis = elimination::basis(&matrix);
        for way in 0..words {
            one(&matrix, &received(r, &matrix, &basis, way), &mut met);
        }
        one(&matrix, &vec![2; matrix.bits()], &mut met);
    }
    assert!(met.words >= WORDS_LEAST && met.contradictions > 1000, "{met:?}");
    assert!(met.solved > 20_000 && met.summed > 1000 && met.unknown > 20_000, "{met:?}");
}

/// The certificates with one thing wrong.
fn wrong(r: &mut Random, matrix: &Matrix, explanation: &Explanation) -> Explanation {
    let mut wrong = explanation.clone();
    match &mut wrong {
        Explanation::Contradicting { checks, with } => match r.below(3) {
            0 => drop(checks.pop()),
            1 => drop(with.pop()),
            _ => return Explanation::Agreeing(Vec::new()),
        },
        Explanation::Agreeing(reasons) => {
            let place = r.below(reasons.len());
            match (r.below(5), &mut reasons[place].1) {
                (0, _) => drop(reasons.remove(place)),
                (1, _) => reasons.push(reasons[place].clone()),
                (2, _) => return Explanation::Contradicting { checks: Vec::new(), with: Vec::new() },
                (_, Reason::Unknown { ones }) => match r.below(2) {
                    0 => drop(ones.pop()),
                    _ => {
                        let value = r.below(2) as u8;
                        reasons[place].1 = Reason::Summed { checks: vec![], value, with: vec![] }
                    }
                },
                (3, Reason::Solved { value, .. } | Reason::Summed { value, .. }) => *value ^= 1,
                (_, Reason::Solved { turn, check, with, .. }) => match r.below(3) {
                    0 => *turn += 1,
                    1 => with.push(r.below(matrix.bits())),
                    _ => *check = (*check + 1) % matrix.checks(),
                },
                (_, Reason::Summed { checks, with, .. }) => match r.below(2) {
                    0 => drop(checks.pop()),
                    _ => with.push(r.below(matrix.bits())),
                },
            }
        }
    }
    wrong
}

/// What is wrong is seen, and is a fault with status 5.
#[test]
fn wrong_certificates() {
    let (r, mut met, mut seen) = (&mut Random::new(1451), Met::default(), 0);
    while seen < 5000 {
        let matrix = generate::small(r);
        let (basis, way) = (elimination::basis(&matrix), r.below(12));
        let word = received(r, &matrix, &basis, way);
        let explanation = one(&matrix, &word, &mut met);
        if explanation == Explanation::Agreeing(Vec::new()) {
            continue;
        }
        let (lent, wrong) = (lent(&matrix), wrong(r, &matrix, &explanation));
        // A check that another one repeats may take its place.
        if held_anyway(&matrix, &explanation, &wrong) {
            continue;
        }
        assert!(check(&lent, &word, &wrong).is_err(), "{matrix:?} {word:?}\n{explanation:?}\n{wrong:?}");
        let fault = Explained::new(&lent, 7, word, wrong).err().expect("a fault");
        assert_eq!(fault.status(), 5);
        let line = fault.to_string() + "\n";
        assert!(is_one_line(&line) && line.starts_with("parity: standard input:7: "), "{line}");
        seen += 1;
    }
}

/// Whether the wrong certificates are right as well: a check that is the same, or an empty one left out.
fn held_anyway(matrix: &Matrix, right: &Explanation, wrong: &Explanation) -> bool {
    let rows = |checks: &[usize]| sum(matrix, checks);
    match (right, wrong) {
        (Explanation::Contradicting { checks, with }, Explanation::Contradicting { checks: others, with: other }) => {
            with == other && rows(checks) == rows(others)
        }
        (Explanation::Agreeing(right), Explanation::Agreeing(wrong)) if right.len() == wrong.len() => {
            right.iter().zip(wrong).all(|pair| match pair {
                (
                    (_, Reason::Solved { turn, check, value, with }),
                    (_, Reason::Solved { turn: t, check: c, value: v, with: w }),
                ) => (turn, value, with) == (t, v, w) && rows(&[*check]) == rows(&[*c]),
                ((_, Reason::Summed { checks, value, with }), (_, Reason::Summed { checks: c, value: v, with: w })) => {
                    (value, with) == (v, w) && rows(checks) == rows(c)
                }
                (right, wrong) => right == wrong,
            })
        }
        _ => false,
    }
}

/// A line of text about a bit, as a certificate.
fn read_reason(line: &str) -> (usize, Reason) {
    let numbers = |text: &str| -> Vec<usize> {
        if text == "none" {
            Vec::new()
        } else {
            text.split(' ').map(|number| number.parse().expect("a number")).collect()
        }
    };
    let rest = line.strip_prefix("  bit ").expect("a bit");
    let (bit, rest) = rest.split_once(' ').expect("a reason");
    let bit = bit.parse().expect("a bit");
    if let Some(ones) = rest.strip_prefix("is unknown: a codeword inside the losses has ones at ") {
        return (bit, Reason::Unknown { ones: numbers(ones) });
    }
    let value = rest.strip_prefix("= ").expect("a value")[..1].parse().expect("a digit");
    if let Some(rest) = rest[3..].strip_prefix(", turn ") {
        let (turn, rest) = rest.split_once(": check ").expect("a turn");
        let (check, with) = rest.split_once(", with bits ").expect("a check");
        let (turn, check) = (turn.parse().expect("a turn"), check.parse().expect("a check"));
        return (bit, Reason::Solved { turn, check, value, with: numbers(with) });
    }
    let (checks, with) =
        rest[3..].strip_prefix(": ").and_then(|rest| rest.split_once(", with received bits ")).expect("a sum");
    let checks = checks.strip_prefix("the sum of checks ").or(checks.strip_prefix("check ")).expect("checks");
    (bit, Reason::Summed { checks: numbers(checks), value, with: numbers(with) })
}

/// An object about a bit, as a certificate.
fn json_reason(bit: &Json) -> (usize, Reason) {
    let number = |name: &str| bit.get(name).map(Json::number);
    let numbers = |name: &str| bit.get(name).map(Json::numbers).unwrap_or_default();
    let value = number("value").map(|value| value as u8);
    let reason = match (value, number("turn"), number("check")) {
        (Some(value), Some(turn), Some(check)) => Reason::Solved { turn, check, value, with: numbers("with") },
        (Some(value), None, None) => Reason::Summed { checks: numbers("checks"), value, with: numbers("with") },
        _ => Reason::Unknown { ones: numbers("codeword") },
    };
    (number("bit").expect("a bit"), reason)
}

/// One word of the program's text and JSON: the same certificates, and the model's word.
fn compare(matrix: &Matrix, number: usize, word: &[u8], text: &str, json: &Json) {
    let (n, mut longer) = (matrix.n, word.to_vec());
    longer.resize(matrix.bits(), 2);
    let mut lines = text.lines();
    let head = lines.next().expect("a line");
    assert_eq!(
        (json.get("line").map(Json::number), json.get("word").map(Json::text)),
        (Some(number), Some(&*digits(word)))
    );
    let Some(mended) = elimination::decode(matrix, &longer) else {
        assert_eq!(head, format!("line {number}: {} contradicts the checks", digits(word)));
        let (checks, with) = match json.get("contradiction") {
            Some(why) => (why.get("checks").expect("it").numbers(), why.get("with").expect("it").numbers()),
            None => panic!("{json:?}"),
        };
        assert_eq!(sum(matrix, &checks), with);
        assert_eq!(with.iter().map(|&bit| longer[bit]).sum::<u8>() % 2, 1);
        assert!(lines.next().is_some_and(|line| line.ends_with(" sum to 1")) && lines.next().is_none());
        return;
    };
    assert_eq!(head, format!("line {number}: {} -> {}", digits(word), digits(&mended[..n])));
    assert_eq!(json.get("mended").map(Json::text), Some(&*digits(&mended[..n])));
    let reasons: Reasons = lines.map(read_reason).collect();
    assert_eq!(json.get("bits").expect("bits").list().iter().map(json_reason).collect::<Reasons>(), reasons);
    assert_eq!(held(matrix, &longer, &reasons, &mut Met::default()), mended);
}

#[test]
fn by_the_program() {
    let (r, here) = (&mut Random::new(1452), folder("explaining"));
    for number in 0..40 {
        let given = if number == 0 { house(0).expect("case L") } else { generate::small_given(r) };
        let (mut carried, most) = (given.clone(), r.below(3));
        generate::split_some(r, &mut carried, most);
        fs::write(here.join("m.rec"), record(&carried)).expect("a file");
        fs::write(here.join("m.alist"), alist(&given, true)).expect("a file");
        let basis = elimination::basis(&given);
        let words: Vec<Vec<u8>> = (0..30).map(|way| received(r, &given, &basis, way)).collect();
        let input: Vec<u8> = words.iter().flat_map(|word| [spaced(r, word), b"\n".to_vec()].concat()).collect();
        carried.orthogonalise();
        for (matrix, file, way) in
            [(&given, "m.alist", "given"), (&given, "m.rec", "given"), (&carried, "m.rec", "extended")]
        {
            let text = run(&here, &["explain", file, "--by", way], &input);
            let json = run(&here, &["explain", "--json", file, "--by", way], &input);
            let none = words.iter().any(|word| elimination::decode(&given, word).is_none());
            assert_eq!(
                (text.status, json.status, text.err + &json.err),
                (if none { 3 } else { 0 }, text.status, String::new())
            );
            let whole = String::from_utf8(text.out).expect("text").replace('\r', "").replace("\nline ", "\n\nline ");
            let (texts, jsons): (Vec<&str>, Vec<&str>) = (whole.split("\n\n").collect(), json.text().lines().collect());
            assert_eq!((texts.len(), jsons.len()), (words.len(), words.len()));
            for (place, word) in words.iter().enumerate() {
                let json = json::read(jsons[place]).unwrap_or_else(|what| panic!("{what}: {}", jsons[place]));
                compare(matrix, place + 1, word, texts[place], &json);
            }
        }
    }
}

/// Files that were computed apart: words of case C with the given and with the extended matrix.
#[test]
fn golden_files() {
    let input = fs::read(golden().join("case-c.words")).expect("a file");
    for way in ["given", "extended"] {
        for (option, extension) in [("--by", "explain"), ("--json", "json")] {
            let args: &[&str] = if option == "--by" { &[] } else { &["--json"] };
            let run = run(&golden(), &[&["explain", "case-c.alist", "--by", way], args].concat(), &input);
            let due = fs::read_to_string(golden().join(format!("case-c-{way}.{extension}"))).expect("a file");
            assert_eq!((run.status, run.text()), (4, due.as_str()));
            assert_eq!(run.err, "parity: standard input:7: 6 bits, and a word has 7\n");
        }
    }
}

/// The widest matrix, with all bits erased and with none.
#[test]
fn widest() {
    let (r, mut met) = (&mut Random::new(1453), Met::default());
    let matrix = cases::l(23);
    let mut dense = generate::given(r, 120, 120, 400);
    dense.orthogonalise();
    assert_eq!(dense.k, 392);
    for matrix in [matrix, dense] {
        one(&matrix, &vec![2; matrix.bits()], &mut met);
        one(&matrix, &vec![0; matrix.bits()], &mut met);
        one(&matrix, &vec![1; matrix.bits()], &mut met);
    }
}
