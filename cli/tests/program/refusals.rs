//! Each error: its line, its status, and that nothing is written.

use crate::support::{folder, golden, is_one_line, run};
use std::fs;

/// The alist of case C, with one of its lines, counted from 1, in another form.
fn case_c_with(line: usize, other: &str) -> String {
    let text = fs::read_to_string(golden().join("case-c.alist")).expect("a file");
    let mut lines: Vec<&str> = text.lines().collect();
    lines[line - 1] = other;
    lines.join("\n") + "\n"
}

/// The lines of case C's alist: 1 and 2 sizes, 3 and 4 weights, 5 to 11 the bits, 12 to 14 the checks.
fn alists() -> Vec<(String, &'static str)> {
    let first_lines = |number: usize| {
        let text = case_c_with(1, "7 3");
        text.lines().take(number).map(|line| format!("{line}\n")).collect::<String>()
    };
    vec![
        (String::new(), ":1: 0 numbers, and the number of bits and that of checks are due"),
        (case_c_with(1, "7"), ":1: 1 numbers, and the number of bits and that of checks are due"),
        (case_c_with(1, "7 3 1"), ":1: 3 numbers, and the number of bits and that of checks are due"),
        (case_c_with(1, "121 3"), ":1: 121 bits, and 1 to 120 can be taken"),
        (case_c_with(1, "0 3"), ":1: 0 bits, and 1 to 120 can be taken"),
        (case_c_with(1, "7 121"), ":1: 121 checks, and at most 120 can be taken"),
        (case_c_with(1, "-7 3"), ":1: '-7' is no number that can be taken"),
        (case_c_with(1, "+7 3"), ":1: '+7' is no number that can be taken"),
        (case_c_with(1, "7 99999999999999999999999"), ":1: '99999999999999999999..' is no number that can be taken"),
        (case_c_with(2, "3"), ":2: 1 numbers, and the largest weights of a bit and of a check are due"),
        (case_c_with(2, "2 4"), ":3: bit 1 has weight 3, and line 2 says at most 2"),
        (case_c_with(2, "3 3"), ":4: check 1 has weight 4, and line 2 says at most 3"),
        (case_c_with(3, "3 2 2 1 1 1"), ":3: 6 weights, and there are 7 bits"),
        (case_c_with(4, "4 4 3 0"), ":4: 4 weights, and there are 3 checks"),
        (case_c_with(4, "4 x 3"), ":4: 'x' is no number that can be taken"),
        (case_c_with(5, "1 2"), ":5: 2 checks of bit 1, and its weight is 3"),
        (case_c_with(5, "1 2 3 0"), ":5: 4 numbers, and line 2 says at most 3"),
        (case_c_with(5, "1 2 4"), ":5: check 4 of bit 1, and they go from 1 to 3"),
        (case_c_with(5, "1 0 3"), ":5: check 0 of bit 1, and they go from 1 to 3"),
        (case_c_with(5, "1 2 2"), ":5: check 2 stands twice in bit 1"),
        (case_c_with(5, "3 1 3"), ":5: check 3 stands twice in bit 1"),
        (case_c_with(6, "1 2 3"), ":6: 3 checks of bit 2, and its weight is 2"),
        (case_c_with(8, ""), ":8: 0 checks of bit 4, and its weight is 1"),
        (case_c_with(12, "1 2 3"), ":12: 3 bits of check 1, and its weight is 4"),
        (case_c_with(12, "1 2 3 8"), ":12: bit 8 of check 1, and they go from 1 to 7"),
        (case_c_with(12, "1 2 3 5"), ":12: check 1 has bit 5, whose own line does not name the check"),
        (
            case_c_with(4, "4 4 2").replace("\n1 3 7 0\n", "\n1 3 0 0\n"),
            ":14: check 3 lacks bit 7, whose own line names the check",
        ),
        (first_lines(1), ":2: 0 numbers, and the largest weights of a bit and of a check are due"),
        (first_lines(7).trim_end().to_string(), ":8: the file ends before the checks of bit 4"),
        (first_lines(13).trim_end().to_string(), ":14: the file ends before the bits of check 3"),
        (case_c_with(14, "1 3 7 0\n\n5 6\n"), ":16: '5 6' follows the last list"),
        (case_c_with(6, "1 \u{7}2"), ":6: '\\u{7}2' is no number that can be taken"),
    ]
}

fn texts() -> Vec<(String, &'static str)> {
    vec![
        (String::new(), ":1: the file ends, and no line has the bits of a check"),
        ("\n# nothing\n\n".to_string(), ":4: the file ends, and no line has the bits of a check"),
        ("010\n0120\n".to_string(), ":2: '2' at character 3 is neither 0 nor 1"),
        ("010\n\n01\n".to_string(), ":3: 2 bits, and line 1 has 3"),
        ("\n010\n0101\n".to_string(), ":3: 4 bits, and line 2 has 3"),
        ("1".repeat(121), ":1: 121 bits, and at most 120 can be taken"),
        ("01\n".repeat(121), ":121: check number 121, and at most 120 can be taken"),
        ("010\n01\u{1b}\n".to_string(), ":2: '\\u{1b}' at character 3 is neither 0 nor 1"),
    ]
}

fn records() -> Vec<(Vec<u8>, &'static str)> {
    let record = fs::read(golden().join("case-c.rec")).expect("a file");
    let mut large = record.clone();
    large[3] = 121;
    let mut faulty = record.clone();
    faulty[4 * 3 + 3] = 0;
    vec![
        (Vec::new(), ": refusal 5: faulty record word at place 0, which is byte 0 of the file"),
        (record[..6].to_vec(), ": 6 bytes, and a record has 4 for each word"),
        (record[..8].to_vec(), ": refusal 5: faulty record word at place 2, which is byte 8 of the file"),
        (large, ": refusal 5: faulty record word at place 0, which is byte 0 of the file"),
        (faulty, ": refusal 5: faulty record word at place 3, which is byte 12 of the file"),
        ([record, vec![0; 4]].concat(), ": refusal 5: faulty record word at place 16, which is byte 64 of the file"),
    ]
}

/// Every command refuses the file by the same line.
fn refused(extension: &str, cases: Vec<(Vec<u8>, &str)>) {
    let folder = folder(&format!("refusals-{extension}"));
    let file = format!("wrong.{extension}");
    for (bytes, due) in cases {
        fs::write(folder.join(&file), &bytes).expect("a file");
        let line = format!("parity: {file}{due}\n");
        let commands: [&[&str]; 11] = [
            &["convert", &file, "out.txt"],
            &["inspect", &file],
            &["same", &file, &file],
            &["extend", &file, "out.rec"],
            &["encode", &file],
            &["message", &file],
            &["verify", &file],
            &["mend", &file],
            &["explain", &file],
            &["soft", &file],
            &["curve", &file, "--out", "out.svg", "--csv", "out.csv", "--words", "1"],
        ];
        for command in commands {
            let run = run(&folder, command, b"01\n");
            assert_eq!((run.status, run.err.as_str(), run.text()), (1, line.as_str(), ""), "{command:?}");
            assert_eq!(fs::read_dir(&folder).expect("a folder").count(), 1, "nothing is written");
        }
    }
}

#[test]
fn alist_files() {
    refused("alist", alists().into_iter().map(|(text, due)| (text.into_bytes(), due)).collect());
}

#[test]
fn text_files() {
    let mut cases: Vec<(Vec<u8>, &str)> = texts().into_iter().map(|(text, due)| (text.into_bytes(), due)).collect();
    cases.push((vec![b'0', 0xff], ":1: '\u{fffd}' at character 2 is neither 0 nor 1"));
    refused("txt", cases);
}

#[test]
fn record_files() {
    refused("rec", records());
}

#[test]
fn longer_than_any_matrix() {
    let folder = folder("refusals-long");
    fs::write(folder.join("long.txt"), "0".repeat((1 << 20) + 1)).expect("a file");
    let run = run(&folder, &["inspect", "long.txt"], b"");
    let due = "parity: long.txt: more than 1048576 bytes, and no matrix of 120 bits and 120 checks needs them\n";
    assert_eq!((run.status, run.err.as_str()), (1, due));
}

/// What a format cannot hold.
#[test]
fn not_written() {
    let folder = folder("refusals-written");
    fs::copy(golden().join("case-c-extended.rec"), folder.join("split.rec")).expect("a file");
    fs::write(folder.join("empty.alist"), "2 0\n0 0\n0 0\n\n\n\n").expect("a file");
    for (args, due) in [
        (
            ["convert", "split.rec", "out.alist"],
            "split.rec: the 1 splits of the matrix can stand in a record only; --given takes them back",
        ),
        (
            ["convert", "split.rec", "out.txt"],
            "split.rec: the 1 splits of the matrix can stand in a record only; --given takes them back",
        ),
        (["convert", "empty.alist", "out.txt"], "empty.alist: a matrix without checks has no line of text"),
    ] {
        let run = run(&folder, &args, b"");
        assert_eq!((run.status, run.err), (1, format!("parity: {due}\n")));
        assert_eq!(fs::read_dir(&folder).expect("a folder").count(), 2, "nothing is written");
    }
}

#[test]
fn arguments() {
    let folder = folder("refusals-arguments");
    fs::copy(golden().join("case-c.alist"), folder.join("c.alist")).expect("a file");
    let cases: &[&[&str]] = &[
        &[],
        &["peel"],
        &["convert"],
        &["convert", "c.alist"],
        &["convert", "c.alist", "out.txt", "more.txt"],
        &["convert", "c.alist", "out"],
        &["convert", "c.alist", "out.png"],
        &["convert", "c.alist", "out.txt", "--from", "matlab"],
        &["convert", "c.alist", "out.txt", "--to"],
        &["convert", "c.alist", "out.txt", "--to", "text", "--to=text"],
        &["convert", "--quick", "c.alist", "out.txt"],
        &["inspect", "--json=1", "c.alist"],
        &["mend", "c.alist", "--by", "guessing"],
        &["mend", "c.alist", "c.alist"],
        &["curve", "c.alist"],
        &["curve", "c.alist", "--out", "out.svg", "--words", "0"],
        &["curve", "c.alist", "--out", "out.svg", "--words", "1000000000"],
        &["curve", "c.alist", "--out", "out.svg", "--seed", "-1"],
        &["curve", "c.alist", "--out", "out.svg", "--errors", "0"],
        &["curve", "c.alist", "--out", "out.svg", "--channel", "bsc"],
        &["curve", "c.alist", "--out", "out.svg", "--rounds", "3"],
        &["curve", "c.alist", "c.alist", "--out", "c.alist"],
        &["curve", "c.alist", "c.alist", "c.alist", "c.alist", "c.alist", "c.alist", "c.alist", "--out", "out.svg"],
        &["report", "c.alist"],
        &["report", "c.alist", "--out", "c.alist"],
        &["report", "c.alist", "--out", "out.html", "--csv", "out.csv"],
        &["inspect", "two\nlines"],
    ];
    fs::write(folder.join("two\nlines"), "01\n").expect("a file");
    for args in cases {
        let run = run(&folder, args, b"");
        assert_eq!((run.status, run.text()), (2, ""), "{args:?}");
        assert!(is_one_line(&run.err) && run.err.starts_with("parity: "), "{args:?}: {:?}", run.err);
        assert_eq!(fs::read_dir(&folder).expect("a folder").count(), 2, "nothing is written");
    }
}
