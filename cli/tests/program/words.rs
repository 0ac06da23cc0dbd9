//! `mend` line by line against the model, in each way.

use crate::elimination;
use crate::generate;
use crate::model::{erased, Matrix};
use crate::random::Random;
use crate::support::{alist, examples, folder, record, run};
use std::fs;

const MATRICES: usize = 60;
const LINES: usize = 60;
const WAYS: [&str; 4] = ["given", "extended", "determine", "block"];

/// What a line must come to.
#[derive(Clone, PartialEq, Eq, Debug)]
enum Due {
    Word(String),
    Contradiction,
    NoWord,
}

/// What mending came to for a list of lines.
#[derive(Default, PartialEq, Eq, Debug)]
struct Total {
    words: usize,
    erased: usize,
    left: usize,
    contradictions: usize,
    no_words: usize,
}

/// The characters of a word, those of erased bits chosen anew.
fn characters(r: &mut Random, word: &[u8]) -> String {
    word.iter().map(|&byte| if byte == 2 { r.pick(&['?', '.']) } else { char::from(b'0' + byte) }).collect()
}

fn line(r: &mut Random, matrix: &Matrix, basis: &[Vec<u8>]) -> String {
    let n = matrix.n;
    let part = r.pick(&[0, 100, 200, 300, 500, 1000]);
    let mut word = elimination::combine(basis, n, || r.chance(500));
    if r.chance(200) {
        word = r.bits(n);
    }
    word.iter_mut().filter(|_| r.chance(part)).for_each(|byte| *byte = 2);
    let mut line = characters(r, &word);
    match r.below(30) {
        0 => line.push(r.pick(&['0', '?', ' ', '\t'])),
        1 => drop(line.pop()),
        2 => line.clear(),
        5 | 6 => line = line.chars().map(|c| format!("{}{c}", r.pick(&["", " ", "\t ", ", "]))).collect(),
        3 => {
            let place = r.below(n);
            let wrong = r.pick(&["2", "x", " ", "O", "\u{e9}", "-"]);
            line.replace_range(place..place + 1, wrong);
        }
        4 => line = "01?".repeat(100_000),
        _ => {}
    }
    line
}

/// What may stand between bits.
fn is_gap(c: char) -> bool {
    matches!(c, ' ' | '\t' | ',')
}

/// The word of a line, if it is one of n bits.
fn word(line: &str, n: usize) -> Option<Vec<u8>> {
    let byte = |c: char| match c {
        '0' => Some(0),
        '1' => Some(1),
        '?' | '.' => Some(2),
        _ => None,
    };
    let word: Option<Vec<u8>> = line.chars().filter(|c| !is_gap(*c)).map(byte).collect();
    word.filter(|word| word.len() == n)
}

/// What the model makes of a line: the mended word, in which bits that are left keep their mark.
fn due(way: &str, given: &Matrix, extended: &Matrix, line: &str, total: &mut Total) -> Due {
    let Some(word) = word(line, given.n) else {
        total.no_words += 1;
        return Due::NoWord;
    };
    let mended = match way {
        "given" => given.peel(&word),
        "extended" => extended.peel(&[word.clone(), vec![2; extended.k]].concat()),
        "determine" => given.determine(&word),
        _ => given.mend_block(given.copy().as_ref(), &word).ok().map(|(_, _, word)| word),
    };
    total.words += 1;
    total.erased += erased(&word);
    let Some(mended) = mended else {
        total.contradictions += 1;
        total.left += erased(&word);
        return Due::Contradiction;
    };
    total.left += erased(&mended[..given.n]);
    let mut mended = mended.iter();
    let put = |c: char| match if is_gap(c) { 2 } else { *mended.next().expect("a bit") } {
        2 => c,
        byte => char::from(b'0' + byte),
    };
    Due::Word(line.chars().map(put).collect())
}

/// What is said of the lines that are no words from the eleventh on.
fn not_named(no_words: usize) -> Option<String> {
    match no_words.saturating_sub(10) {
        0 => None,
        1 => Some("1 more line like these".to_string()),
        more => Some(format!("{more} more lines like these")),
    }
}

/// Runs the program on the lines and compares each.
fn compare(file: &str, way: &str, given: &Matrix, extended: &Matrix, lines: &[String], endings: [&str; 2]) -> Total {
    let folder = std::path::Path::new(env!("CARGO_TARGET_TMPDIR")).join("words");
    let mut total = Total::default();
    let dues: Vec<Due> = lines.iter().map(|line| due(way, given, extended, line, &mut total)).collect();
    let input = lines.join(endings[0]) + endings[1];
    let run = run(&folder, &["mend", file, "--by", way], input.as_bytes());
    let mut found: Vec<&str> = run.text().split(endings[0]).collect();
    assert_eq!(found.pop(), Some(""), "every line of the output ends");
    assert_eq!(found.len(), lines.len(), "{way}: as many lines");
    let (mut messages, mut named) = (run.err.lines(), 0);
    for (number, (line, due)) in lines.iter().zip(&dues).enumerate() {
        match due {
            Due::Word(word) => assert_eq!(found[number], word, "{way}: {line} by {given:?}"),
            Due::Contradiction | Due::NoWord => assert_eq!(found[number], line, "{way}: as it was"),
        }
        named += usize::from(*due == Due::NoWord);
        if *due == Due::NoWord && named <= 10 {
            let message = messages.next().expect("a message");
            let start = format!("parity: standard input:{}: ", number + 1);
            assert!(message.starts_with(&start) && message.len() < 200, "{message}");
        }
    }
    if let Some(more) = not_named(named) {
        assert_eq!(messages.next(), Some(&*format!("parity: standard input: {more}")));
    }
    let Total { words, erased, left, contradictions, no_words } = total;
    let recovered = erased - left;
    let summary = format!(
        "words {words}, bits erased {erased}, recovered {recovered}, left {left}, contradictions {contradictions}, \
         lines that are no words {no_words}"
    );
    assert_eq!((messages.next(), messages.next()), (Some(summary.as_str()), None));
    let status = if no_words > 0 {
        4
    } else if contradictions > 0 {
        3
    } else {
        0
    };
    assert_eq!(run.status, status);
    total
}

#[test]
fn against_the_model() {
    let r = &mut Random::new(1284);
    let folder = folder("words");
    let mut all = Total::default();
    for number in 0..MATRICES {
        let given = match number {
            0 => crate::model::house(0).expect("case L"),
            1 => generate::sparse(r),
            2 => generate::given(r, 30, 12, 300),
            _ => generate::small_given(r),
        };
        // Every third matrix comes as a record that carries splits.
        let mut carried = given.clone();
        if number % 3 == 0 {
            let most = r.below(4);
            generate::split_some(r, &mut carried, most);
            fs::write(folder.join("matrix.rec"), record(&carried)).expect("a file");
        } else {
            fs::write(folder.join("matrix.alist"), alist(&given, r.chance(500))).expect("a file");
        }
        let file = if number % 3 == 0 { "matrix.rec" } else { "matrix.alist" };
        let mut extended = carried;
        extended.orthogonalise();
        let basis = elimination::basis(&given);
        let mut lines: Vec<String> = (0..LINES).map(|_| line(r, &given, &basis)).collect();
        if number % 2 == 0 {
            lines.retain(|line| word(line, given.n).is_some());
        }
        // An empty last line is none.
        lines.push(characters(r, &vec![2; given.n]));
        for way in WAYS {
            let endings = r.pick(&[["\n", "\n"], ["\r\n", "\r\n"], ["\n", ""]]);
            let total = compare(file, way, &given, &extended, &lines, endings);
            all.words += total.words;
            all.erased += total.erased;
            all.left += total.left;
            all.contradictions += total.contradictions;
            all.no_words += total.no_words;
        }
    }
    assert!(all.words > 10_000 && all.contradictions > 200 && all.no_words > 200, "{all:?}");
    assert!(all.left > 1000 && all.erased - all.left > 10_000, "{all:?}");
}

/// Without `--by` the lines, the messages and the status are those of `determine`, and of `block`, which was the default before.
#[test]
fn by_default() {
    let r = &mut Random::new(1287);
    let folder = folder("by-default");
    let (mut contradictions, mut no_words) = (0, 0);
    for number in 0..20 {
        let given = if number == 0 { crate::model::house(0).expect("case L") } else { generate::small_given(r) };
        fs::write(folder.join("matrix.alist"), alist(&given, true)).expect("a file");
        let basis = elimination::basis(&given);
        let lines: Vec<String> = (0..LINES).map(|_| line(r, &given, &basis)).collect();
        let input = lines.join("\n") + "\n";
        let by_default = run(&folder, &["mend", "matrix.alist"], input.as_bytes());
        for way in ["determine", "block"] {
            let named = run(&folder, &["mend", "matrix.alist", "--by", way], input.as_bytes());
            assert_eq!(
                (&named.out, &named.err, named.status),
                (&by_default.out, &by_default.err, by_default.status),
                "{way}"
            );
        }
        contradictions += usize::from(!by_default.err.contains("contradictions 0"));
        no_words += usize::from(by_default.status == 4);
    }
    assert!(contradictions > 5 && no_words > 5, "{contradictions} and {no_words} of the runs have them");
}

/// Splits stop at k = 392: the extended matrix is the one that stands then, and the other ways do not need it.
#[test]
fn without_room() {
    let r = &mut Random::new(1285);
    let folder = folder("without-room");
    let dense = generate::given(r, 120, 120, 400);
    fs::write(folder.join("dense.alist"), alist(&dense, true)).expect("a file");
    let extend = run(&folder, &["extend", "dense.alist", "dense.rec"], b"");
    assert_eq!((extend.status, extend.err.as_str()), (3, ""), "{}", extend.text());
    assert!(extend.text().starts_with("splits 392, ") && !extend.text().ends_with(" left 0\n"), "{}", extend.text());
    let basis = elimination::basis(&dense);
    let mut word = elimination::combine(&basis, 120, || r.chance(500));
    let sent = characters(r, &word);
    word.iter_mut().take(9).for_each(|byte| *byte = 2);
    let received = characters(r, &word) + "\n";
    for file in ["dense.alist", "dense.rec"] {
        for way in ["extended", "determine", "block"] {
            let mended = run(&folder, &["mend", file, "--by", way], received.as_bytes());
            assert_eq!(mended.status, 0, "{}", mended.err);
            if way != "extended" {
                assert_eq!(mended.text(), format!("{sent}\n"));
            }
        }
    }
}

/// Many words in one run, so that the input comes in many pieces that end inside a line.
#[test]
fn many_words() {
    let given = crate::model::house(0).expect("case L");
    let (r, basis) = (&mut Random::new(1286), elimination::basis(&given));
    let sent: Vec<String> = (0..500)
        .map(|_| {
            let word = elimination::combine(&basis, 23, || r.chance(500));
            characters(r, &word)
        })
        .collect();
    let (mut input, mut due) = (String::new(), String::new());
    for number in 0..100_000 {
        let word = &sent[number % sent.len()];
        due += &format!("{word}\n");
        let (from, to) = (number % 19, number % 19 + 1 + number % 4);
        let mut received = word.clone();
        received.replace_range(from..to, &"?".repeat(to - from));
        input += &format!("{received}\n");
    }
    let mended = run(&examples(), &["mend", "case-l.alist"], input.as_bytes());
    assert_eq!(mended.status, 0, "{}", mended.err);
    assert!(mended.text() == due, "every word is mended");
    assert!(
        mended.err.starts_with("words 100000, bits erased 250000, recovered 250000, left 0, contra"),
        "{}",
        mended.err
    );
}
