//! What a new user stumbles over: streams named `-`, folders and files that cannot be read, other extensions, byte order
//! marks, many lines that are no words, mistyped names, and matrices with a likely mistake.

use crate::support::{examples, folder, golden, is_one_line, run, runs, shell};
use std::fs;
use std::os::unix::fs::PermissionsExt;

const CASE_C: &str = "1111000\n1100110\n1010001\n";

/// The program ends with this status, says this in one line, and writes nothing to standard output.
fn says(args: &[&str], input: &[u8], status: i32, due: &str) {
    let run = run(&golden(), args, input);
    assert_eq!((run.status, run.text(), &*run.err), (status, "", &*format!("parity: {due}\n")), "{args:?}");
}

#[test]
fn extend_writes_records_only() {
    let here = folder("records-only");
    fs::copy(golden().join("case-c.alist"), here.join("c.alist")).expect("a file");
    for out in ["e.alist", "e.txt", "e.TXT", "e.text"] {
        let run = run(&here, &["extend", "c.alist", out], b"");
        let due = format!("parity: {out}: extend writes records only; name OUT with .rec\n");
        assert_eq!((run.status, run.text(), &*run.err), (2, "", &*due));
        assert_eq!(fs::read_dir(&here).expect("a folder").count(), 1, "nothing is written");
    }
    let due = fs::read(golden().join("case-c-extended.rec")).expect("a file");
    for out in ["e.rec", "e.record", "e.Rec", "e"] {
        runs(&here, &["extend", "c.alist", out]);
        assert_eq!(fs::read(here.join(out)).expect("a file"), due);
    }
    assert!(runs(&here, &["inspect", "e.record"]).text().contains("\ncarried splits           1\n"));
}

#[test]
fn streams() {
    let here = folder("streams");
    let (alist, record) =
        (fs::read(golden().join("case-c.alist")).expect("a file"), fs::read(golden().join("case-c.rec")).expect("it"));
    let text = run(&here, &["convert", "-", "-", "--from", "alist", "--to", "text"], &alist);
    assert_eq!((text.status, text.text(), text.err.as_str()), (0, CASE_C, ""));
    let back = run(&here, &["convert", "--to=record", "-", "--from=text", "--", "-"], CASE_C.as_bytes());
    assert_eq!((back.status, back.out, back.err.as_str()), (0, record, ""));
    let extended = run(&here, &["extend", "-", "-", "--from", "alist"], &alist);
    let due = fs::read(golden().join("case-c-extended.rec")).expect("a file");
    assert_eq!((extended.status, extended.out), (0, due));
    assert_eq!(extended.err, "splits 1, sum 1, k 1, cycles left 0\n");
    let inspected = run(&here, &["inspect", "-", "--from", "alist"], &alist);
    assert!(inspected.text().starts_with("file                     standard input\n"), "{}", inspected.text());
    let drawn = run(&here, &["curve", "-", "--from", "alist", "--words", "1", "--out", "-"], &alist);
    assert!(drawn.text().starts_with("<svg ") && drawn.text().contains(">standard input<"), "{}", drawn.err);
    assert_eq!(fs::read_dir(&here).expect("a folder").count(), 0, "no file is called -");
    fs::write(here.join("-"), &alist).expect("a file");
    let first = format!("{:25}./-", "file");
    assert_eq!(runs(&here, &["inspect", "./-", "--from", "alist"]).text().lines().next(), Some(first.as_str()));
    let drawn = runs(&here, &["curve", "./-", "--from", "alist", "--words", "1", "--out", "/dev/stdout"]);
    assert!(drawn.text().contains(">-<"), "{}", drawn.text());
    let mut wrong = alist;
    wrong[0] = b'x';
    let due = "standard input:1: 'x' is no number that can be taken";
    says(&["inspect", "-", "--from", "alist"], &wrong, 1, due);
    says(&["inspect", "-"], b"", 2, "-: a stream has no extension; say --from alist, text or record");
    says(&["convert", "case-c.alist", "-"], b"", 2, "-: a stream has no extension; say --to alist, text or record");
    let beside = "the words come from standard input, so that the matrix needs a file of its own";
    says(&["mend", "-", "--from", "alist"], b"", 2, beside);
}

/// A stream that leads to a file is that file.
#[test]
fn redirected() {
    let here = folder("redirected");
    fs::write(here.join("m.txt"), CASE_C).expect("a file");
    for script in ["\"$0\" convert - m.txt --from text <m.txt", "\"$0\" convert m.txt - --to text >>m.txt"] {
        let run = shell(&here, script, &[]);
        assert_eq!((run.status, is_one_line(&run.err)), (2, true), "{}", run.err);
        assert!(run.err.contains(" are the same file; "), "{}", run.err);
        assert_eq!(fs::read_to_string(here.join("m.txt")).expect("a file"), CASE_C);
    }
    let both = shell(&here, "(\"$0\" convert m.txt - --to text; echo more) >both && cat both", &[]);
    assert_eq!((both.status, both.text()), (0, &*format!("{CASE_C}more\n")));
}

#[test]
fn told_apart() {
    let here = folder("told-apart");
    fs::create_dir(here.join("folder")).expect("a folder");
    fs::create_dir(here.join("folder.alist")).expect("a folder");
    fs::write(here.join("matrix"), CASE_C).expect("a file");
    fs::write(here.join("matrix.m"), CASE_C).expect("a file");
    fs::write(here.join("hidden.txt"), CASE_C).expect("a file");
    fs::set_permissions(here.join("hidden.txt"), fs::Permissions::from_mode(0o000)).expect("permissions");
    // A superuser may read it.
    let hidden = fs::read(here.join("hidden.txt")).err().map_or((0, ""), |_| (1, "Permission denied (os error 13)"));
    for (file, (status, due)) in [
        ("folder", (1, "a directory, and not a file")),
        ("folder.alist", (1, "a directory, and not a file")),
        ("missing", (1, "No such file or directory (os error 2)")),
        ("missing.alist", (1, "No such file or directory (os error 2)")),
        ("matrix", (2, "there is no extension; say --from alist, text or record")),
        ("matrix.m", (2, "the extension is none of .alist, .txt and .rec; say --from alist, text or record")),
        ("hidden.txt", hidden),
    ] {
        let run = run(&here, &["inspect", file], b"");
        let due = if status == 0 { String::new() } else { format!("parity: {file}: {due}\n") };
        assert_eq!((run.status, run.err), (status, due));
    }
    let out = run(&here, &["convert", "hidden.txt", "folder"], b"");
    assert_eq!((out.status, out.err.as_str()), (1, "parity: folder: a directory, and not a file\n"));
}

#[test]
fn byte_order_marks() {
    let here = folder("byte-order-marks");
    let marks: [(&[u8], &str); 3] = [(b"\xef\xbb\xbf", "UTF-8"), (b"\xff\xfe", "UTF-16"), (b"\xfe\xff", "UTF-16")];
    for (mark, name) in marks {
        for file in ["m.alist", "m.txt"] {
            fs::write(here.join(file), [mark, CASE_C.as_bytes()].concat()).expect("a file");
            let run = run(&here, &["inspect", file], b"");
            let due = format!("a byte order mark ({name}) stands before the text; save the file without it");
            assert_eq!((run.status, run.err), (1, format!("parity: {file}:1: {due}\n")));
        }
        let input = [b"0011111\n", mark, b"0011111\n"].concat();
        let run = run(&golden(), &["mend", "case-c.alist"], &input);
        let due = format!("a byte order mark ({name}) at character 1 is none of 0, 1, ? and .");
        assert_eq!(run.err.lines().next(), Some(&*format!("parity: standard input:2: {due}")));
        assert_eq!((run.status, run.out), (4, input));
    }
    fs::write(here.join("inside.txt"), "11\n1\u{feff}1\n").expect("a file");
    let inside = run(&here, &["inspect", "inside.txt"], b"");
    let due = "parity: inside.txt:2: a byte order mark (UTF-8) at character 2 is neither 0 nor 1\n";
    assert_eq!((inside.status, inside.err.as_str()), (1, due));
    fs::write(here.join("inside.alist"), "7 3\u{feff}\n").expect("a file");
    let inside = run(&here, &["inspect", "inside.alist"], b"");
    assert_eq!(inside.err, "parity: inside.alist:1: '3\\u{feff}' is no number that can be taken\n");
}

/// Ten are named one by one, and the others counted; every line comes out.
#[test]
fn bad_lines() {
    for (number, more) in
        [(9, None), (10, None), (11, Some("1 more line like these")), (70, Some("60 more lines like these"))]
    {
        let input = "0011111\nno word\n".repeat(number);
        let run = run(&golden(), &["mend", "case-c.alist"], input.as_bytes());
        assert_eq!((run.status, run.text()), (4, input.as_str()));
        let mut due: Vec<String> = (1..=number.min(10))
            .map(|bad| format!("standard input:{}: 'n' at character 1 is none of 0, 1, ? and .", 2 * bad))
            .collect();
        due.extend(more.map(|more| format!("standard input: {more}")));
        let mut messages = run.err.lines();
        due.iter().for_each(|due| assert_eq!(messages.next(), Some(&*format!("parity: {due}"))));
        assert!(messages.next().is_some_and(|line| line.ends_with(&format!("lines that are no words {number}"))));
        assert_eq!(messages.next(), None);
    }
}

#[test]
fn spaced_words() {
    let mended = run(&golden(), &["mend", "case-c.alist"], b"? ? ? 1 1 1 1\n\t..?,1111 \r\n?? ??????\n");
    assert_eq!(mended.text(), "0 0 1 1 1 1 1\n\t001,1111 \r\n?? ??????\n");
    assert!(mended.err.starts_with("parity: standard input:3: 8 bits, and a word has 7\n"), "{}", mended.err);
}

/// Matrices, and the remarks on each.
const REMARKS: [(&str, &[&str]); 6] = [
    ("1100\n0111\n", &[]),
    (
        "1 0 0\n1 1 0\n1 1 1\n0 1 1\n0 0 1\n1 0 1\n1 1 0\n",
        &[
            "rate 0: the zero word is the only codeword; is the matrix transposed?",
            "more checks than rank: 4 of 7 follow from the others",
            "checks that repeat an earlier one: 6",
        ],
    ),
    ("110000000\n001100000\n", &["bits in no check, which nothing recovers: 4 5 6 7 8"]),
    ("11000000000\n00110000000\n", &["bits in no check, which nothing recovers: 4 5 6 7 8 .."]),
    (
        "110\n000\n011\n000\n110\n",
        &[
            "more checks than rank: 3 of 5 follow from the others",
            "checks without a bit: 1 3",
            "checks that repeat an earlier one: 4",
        ],
    ),
    (
        "0\n",
        &[
            "more checks than rank: 1 of 1 follow from the others",
            "bits in no check, which nothing recovers: 0",
            "checks without a bit: 0",
        ],
    ),
];

/// Each remark, and its place before the orthogonalised part.
#[test]
fn remarks() {
    let here = folder("remarks");
    for (matrix, due) in REMARKS {
        fs::write(here.join("m.txt"), matrix).expect("a file");
        let text = runs(&here, &["inspect", "m.txt"]);
        let front = text.text().split("\northogonalised:").next().expect("a part");
        let found: Vec<&str> =
            front.lines().filter_map(|line| line.strip_prefix("remark                   ")).collect();
        assert_eq!(found, due);
        let listed: Vec<String> = due.iter().map(|due| format!("\"{due}\"")).collect();
        let json = runs(&here, &["inspect", "--json", "m.txt"]);
        assert!(json.text().contains(&format!(",\"remarks\":[{}],\"orthogonalised\"", listed.join(","))));
    }
}

/// What a user mistypes, and what the program says.
const MISTYPED: [(&[&str], &str); 36] = [
    (&["mned", "case-c.alist"], "'mned' is no command; did you mean mend? see parity --help"),
    (&["inspcet"], "'inspcet' is no command; did you mean inspect? see parity --help"),
    (&["conv"], "'conv' is no command; did you mean convert? see parity --help"),
    (&["explian", "case-c.alist"], "'explian' is no command; did you mean explain? see parity --help"),
    (&["explain", "case-c.alist", "--jason"], "'--jason' is no option here; did you mean --json? see --help"),
    (&["explain", "case-c.alist", "--by", "block"], "--by takes given or extended, and not 'block'"),
    (&["encode", "case-c.alist", "--by", "given"], "'--by' is no option here; see --help"),
    (&["verify"], "0 files are named, and 1 needed: FILE; see --help"),
    (&["mend", "case-c.alist", "--form", "alist"], "'--form' is no option here; did you mean --from? see --help"),
    (&["mend", "case-c.alist", "-by=given"], "'-by=given' is no option here; did you mean --by? see --help"),
    (&["mend", "--By", "given", "case-c.alist"], "'--By' is no option here; did you mean --by? see --help"),
    (&["inspect", "\u{2014}json", "case-c.alist"], "'\u{2014}json' is no option here; did you mean --json? see --help"),
    (&["inspect", "--jsno", "case-c.alist"], "'--jsno' is no option here; did you mean --json? see --help"),
    (&["inspect", "--j", "case-c.alist"], "'--j' is no option here; did you mean --json? see --help"),
    (&["curve", "case-c.alist", "--ot", "x.svg"], "'--ot' is no option here; did you mean --out? see --help"),
    (&["curve", "case-c.alist", "--word", "1"], "'--word' is no option here; did you mean --words? see --help"),
    (&["convert", "--quick", "a.txt", "b.txt"], "'--quick' is no option here; see --help"),
    (&["inspect", "--json=1", "case-c.alist"], "--json takes no value, and '--json=1' has one"),
    (&["curve", "case-c.alist", "--out", "--csv", "x.csv"], "--out needs a value"),
    (&["mend", "case-c.alist", "--by", "extend"], "--by takes given, extended, determine or block, and not 'extend'"),
    (&["convert", "a.txt", "b.txt", "--to", "csv"], "--to takes alist, text or record, and not 'csv'"),
    (&["curve", "--out", "x.svg"], "0 files are named, and 1 to 6 needed; see --help"),
    (&["reprot", "case-c.alist"], "'reprot' is no command; did you mean report? see parity --help"),
    (&["curve", "case-c.alist", "--bit"], "'--bit' is no option here; did you mean --bits? see --help"),
    (&["curve", "case-c.alist", "--bits=1"], "--bits takes no value, and '--bits=1' has one"),
    (&["curve", "case-c.alist", "--block"], "'--block' is no option here; did you mean --blocks? see --help"),
    (&["curve", "case-c.alist", "--blocks=1"], "--blocks takes no value, and '--blocks=1' has one"),
    (&["curve", "case-c.alist", "--error", "9"], "'--error' is no option here; did you mean --errors? see --help"),
    (&["curve", "case-c.alist", "--errors", "0"], "--errors takes a number from 1 to 100000000, and not '0'"),
    (&["curve", "case-c.alist", "--errors"], "--errors needs a value"),
    (
        &["curve", "case-c.alist", "--chanel", "awgn"],
        "'--chanel' is no option here; did you mean --channel? see --help",
    ),
    (&["curve", "case-c.alist", "--channel", "noise"], "--channel takes erasure or awgn, and not 'noise'"),
    (&["curve", "case-c.alist", "--channel"], "--channel needs a value"),
    (&["curve", "case-c.alist", "--rounds", "5"], "--rounds are of min-sum, which --channel awgn needs; see --help"),
    (&["curve", "--channel=awgn", "--rounds", "513", "c"], "--rounds takes a number from 1 to 512, and not '513'"),
    (&["curve", "case-c.alist", "--seed", "-1"], "--seed takes a number from 0 to 18446744073709551615, and not '-1'"),
];

#[test]
fn mistyped() {
    for (args, due) in MISTYPED {
        says(args, b"", 2, due);
    }
    let nothing = run(&examples(), &["peeling"], b"");
    assert!(
        nothing.status == 2 && nothing.err.contains("'peeling' is no command; there are convert, "),
        "{}",
        nothing.err
    );
}
