//! Files that a program apart computed from the papers' rules, and what the program writes.

use crate::json;
use crate::support::{examples, folder, golden, run, runs};
use std::fs;
use std::path::Path;

fn file(path: &Path) -> Vec<u8> {
    fs::read(path).unwrap_or_else(|error| panic!("{}: {error}", path.display()))
}

#[test]
fn convert_and_extend() {
    let (golden, out) = (golden(), folder("golden"));
    for from in ["case-c.alist", "case-c-unpadded.alist", "case-c.txt", "case-c.rec"] {
        for to in ["case-c.alist", "case-c.txt", "case-c.rec"] {
            let written = out.join(to);
            runs(&golden, &["convert", from, written.to_str().expect("a path")]);
            assert_eq!(file(&written), file(&golden.join(to)), "{from} to {to}");
        }
        let extended = out.join("extended.rec");
        let run = runs(&golden, &["extend", from, extended.to_str().expect("a path")]);
        assert_eq!(run.text(), "splits 1, sum 1, k 1, cycles left 0\n");
        assert_eq!(file(&extended), file(&golden.join("case-c-extended.rec")));
    }
    let back = out.join("back.alist");
    runs(&golden, &["convert", "--given", "case-c-extended.rec", back.to_str().expect("a path")]);
    assert_eq!(file(&back), file(&golden.join("case-c.alist")));
}

#[test]
fn inspect() {
    for (folder, name) in [(golden(), "case-c"), (examples(), "case-l"), (examples(), "hamming-31")] {
        let matrix = format!("{name}.alist");
        let text = runs(&folder, &["inspect", &matrix]);
        assert_eq!(text.out, file(&golden().join(format!("{name}.inspect"))), "{}", text.text());
        let json = runs(&folder, &["inspect", "--json", &matrix]);
        assert_eq!(json.out, file(&golden().join(format!("{name}.json"))), "{}", json.text());
        assert!(json::read(json.text().trim_end()).is_ok(), "{}", json.text());
    }
    let text = runs(&golden(), &["inspect", "case-c-extended.rec"]);
    assert_eq!(text.out, file(&golden().join("case-c-extended.inspect")), "{}", text.text());
}

/// Words of case C in each way, by hand: peeling leaves the first three, document 01's example recovers them; the
/// last word contradicts a check.
#[test]
fn mend() {
    let input = b"???1111\n0011111\n..?1111\r\n0.111?1\n0000001\n";
    let whole = "0011111\n0011111\n0011111\r\n0011111\n0000001\n";
    let part = "???1111\n0011111\n..?1111\r\n0011111\n0000001\n";
    for (way, due, recovered) in
        [("given", part, 2), ("extended", whole, 8), ("determine", whole, 8), ("block", whole, 8)]
    {
        let mended = run(&golden(), &["mend", "case-c.alist", "--by", way], input);
        let left = 8 - recovered;
        let said = format!(
            "words 5, bits erased 8, recovered {recovered}, left {left}, contradictions 1, lines that are no words 0\n"
        );
        assert_eq!((mended.text(), mended.err.as_str(), mended.status), (due, said.as_str(), 3), "{way}");
    }
}

/// The example files are the codes that they are named by.
#[test]
fn example_files() {
    let (examples, out) = (examples(), folder("examples"));
    for (name, code) in [("case-l", parity::HOUSE_CIRCULANT), ("hamming-31", parity::HOUSE_HAMMING_31)] {
        let matrix = cli::files::read(&examples.join(format!("{name}.alist")), None).expect("a matrix");
        let mut words = vec![0; parity::WORDS];
        let house = parity::house_code(code, &mut words).expect("a house code");
        assert_eq!((matrix.n, matrix.m, matrix.k, matrix.words), (house.n, house.m, 0, words));
    }
    let sparse = runs(&examples, &["inspect", "sparse-60x120.alist"]);
    for line in [
        "sent bits n              120",
        "given checks m           60",
        "weights of checks        60 of weight 6",
        "weights of bits          120 of weight 3",
    ] {
        assert!(sparse.text().lines().any(|found| found == line), "{line}\n{}", sparse.text());
    }
    for name in ["case-l.alist", "hamming-31.alist", "sparse-60x120.alist"] {
        let again = out.join(name);
        runs(&examples, &["convert", name, again.to_str().expect("a path")]);
        assert_eq!(file(&again), file(&examples.join(name)));
    }
}
