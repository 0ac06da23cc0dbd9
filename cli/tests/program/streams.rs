//! Broken pipes, empty input, files that cannot be read or written, and the texts of `--help`.

use crate::support::{examples, folder, golden, is_one_line, run, runs};
use std::fs;
use std::process::{Command, Stdio};

#[test]
fn help_and_version() {
    let here = folder("help");
    assert_eq!(runs(&here, &["--version"]).text(), "parity 1.0.0\n");
    let whole = runs(&here, &["--help"]);
    for command in [
        "convert", "inspect", "same", "extend", "encode", "message", "verify", "erase", "mend", "explain", "soft",
        "curve",
    ] {
        assert!(whole.text().contains(&format!("\n  parity {command} ")), "{command}");
        for args in [vec![command, "--help"], vec![command, "-h"], vec![command, "file", "--help"]] {
            let help = runs(&here, &args);
            assert!(help.text().starts_with(&format!("parity {command} ")), "{}", help.text());
            assert!(help.text().contains("\nExit status: 0 "), "{}", help.text());
            assert!(help.text().lines().all(|line| line.len() <= 80), "{}", help.text());
        }
    }
    assert!(whole.text().lines().all(|line| line.len() <= 80), "{}", whole.text());
}

#[test]
fn empty_input() {
    let mended = run(&golden(), &["mend", "case-c.alist"], b"");
    let said = "words 0, bits erased 0, recovered 0, left 0, contradictions 0, lines that are no words 0\n";
    assert_eq!((mended.status, mended.text(), mended.err.as_str()), (0, "", said));
    for command in ["encode", "message", "verify", "explain", "soft"] {
        assert_eq!(runs(&golden(), &[command, "case-c.alist"]).text(), "");
    }
}

#[test]
fn unreadable_and_unwritable() {
    let here = folder("unreadable");
    fs::create_dir(here.join("folder.rec")).expect("a folder");
    fs::copy(golden().join("case-c.alist"), here.join("c.alist")).expect("a file");
    let cases: [&[&str]; 10] = [
        &["inspect", "missing.alist"],
        &["inspect", "folder.rec"],
        &["mend", "missing.txt"],
        &["convert", "missing.alist", "out.txt"],
        &["convert", "c.alist", "folder.rec"],
        &["convert", "c.alist", "missing/out.txt"],
        &["convert", "c.alist", "out.txt/"],
        &["convert", "c.alist", "c.alist/"],
        &["extend", "c.alist", "missing/out.rec"],
        &["curve", "c.alist", "--words", "1", "--out", "missing/out.svg"],
    ];
    for args in cases {
        let run = run(&here, args, b"");
        assert_eq!((run.status, run.text()), (1, ""), "{args:?}");
        assert!(is_one_line(&run.err), "{args:?}: {:?}", run.err);
        assert_eq!(fs::read_dir(&here).expect("a folder").count(), 2, "nothing is written");
    }
}

/// Starts the program with an output that nobody reads, and answers its status and what it says.
fn unread(args: &[&str], input: fs::File) -> (Option<i32>, String) {
    let mut child = Command::new(env!("CARGO_BIN_EXE_parity"))
        .args(args)
        .current_dir(examples())
        .stdin(input)
        .stdout(Stdio::piped())
        .stderr(Stdio::piped())
        .spawn()
        .expect("the program starts");
    drop(child.stdout.take());
    let output = child.wait_with_output().expect("the program ends");
    (output.status.code(), String::from_utf8(output.stderr).expect("text"))
}

/// Words of case L in a file, more than a pipe holds.
#[test]
fn broken_pipes() {
    let here = folder("pipes");
    fs::write(here.join("words"), "00000000000000000000000\n".repeat(100_000)).expect("a file");
    for command in ["mend --by given", "mend", "message", "verify", "explain", "soft --rounds 1"] {
        let mut args: Vec<&str> = command.split(' ').collect();
        args.push("case-l.alist");
        let (status, said) = unread(&args, fs::File::open(here.join("words")).expect("a file"));
        assert_eq!((status, is_one_line(&said)), (Some(1), true), "{said}");
        assert!(said.starts_with("parity: standard output: "), "{said}");
    }
}

/// Nobody reads standard error, and the program still comes to its end.
#[test]
fn unread_messages() {
    let here = folder("messages");
    fs::write(here.join("words"), "no word\n".repeat(20_000)).expect("a file");
    let mut child = Command::new(env!("CARGO_BIN_EXE_parity"))
        .args(["mend", "case-l.alist"])
        .current_dir(examples())
        .stdin(fs::File::open(here.join("words")).expect("a file"))
        .stdout(Stdio::piped())
        .stderr(Stdio::piped())
        .spawn()
        .expect("the program starts");
    drop(child.stderr.take());
    let output = child.wait_with_output().expect("the program ends");
    assert_eq!((output.status.code(), output.stdout.len()), (Some(4), 8 * 20_000));
}
