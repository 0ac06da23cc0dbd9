//! Runs the program, and writes matrices as a sender would.

use crate::model::{self, Form, Matrix};
use std::fs;
use std::io::Write;
use std::path::{Path, PathBuf};
use std::process::{Command, Stdio};
use std::thread;

/// What a run of the program came to.
#[derive(Debug)]
pub struct Run {
    pub status: i32,
    pub out: Vec<u8>,
    pub err: String,
}

impl Run {
    pub fn text(&self) -> &str {
        std::str::from_utf8(&self.out).expect("text")
    }
}

pub fn golden() -> PathBuf {
    Path::new(env!("CARGO_MANIFEST_DIR")).join("tests/program/golden")
}

pub fn examples() -> PathBuf {
    Path::new(env!("CARGO_MANIFEST_DIR")).join("../examples")
}

/// An empty folder of this name.
pub fn folder(name: &str) -> PathBuf {
    let folder = Path::new(env!("CARGO_TARGET_TMPDIR")).join(name);
    let _ = fs::remove_dir_all(&folder);
    fs::create_dir_all(&folder).expect("a folder");
    folder
}

/// Runs the program in a folder on some input.
pub fn run(folder: &Path, args: &[&str], input: &[u8]) -> Run {
    outcome(Command::new(env!("CARGO_BIN_EXE_parity")).args(args), folder, input)
}

/// Runs a script of the shell in a folder, in which `"$0" "$@"` is the program with its arguments.
pub fn shell(folder: &Path, script: &str, args: &[&str]) -> Run {
    outcome(Command::new("sh").args(["-c", script, env!("CARGO_BIN_EXE_parity")]).args(args), folder, b"")
}

fn outcome(command: &mut Command, folder: &Path, input: &[u8]) -> Run {
    let mut child = command
        .current_dir(folder)
        .stdin(Stdio::piped())
        .stdout(Stdio::piped())
        .stderr(Stdio::piped())
        .spawn()
        .expect("the program starts");
    let mut stdin = child.stdin.take().expect("its input");
    let input = input.to_vec();
    // A program that does not read its input closes it.
    let writer = thread::spawn(move || drop(stdin.write_all(&input)));
    let output = child.wait_with_output().expect("the program ends");
    writer.join().expect("the input is written");
    let status = output.status.code().expect("no signal ended the program");
    Run { status, out: output.stdout, err: String::from_utf8(output.stderr).expect("text") }
}

/// Runs the program, which must end with status 0 and say nothing on standard error.
pub fn runs(folder: &Path, args: &[&str]) -> Run {
    let run = run(folder, args, b"");
    assert_eq!((run.status, run.err.as_str()), (0, ""), "{args:?}");
    run
}

/// Runs the program on some input, which it must answer with status 0 and without a message; gives what it writes.
pub fn runs_on(folder: &Path, args: &[&str], input: &[u8]) -> Vec<u8> {
    let run = run(folder, args, input);
    assert_eq!((run.status, run.err.as_str()), (0, ""), "{args:?}");
    run.out
}

/// One line that ends, without a control character.
pub fn is_one_line(text: &str) -> bool {
    text.strip_suffix('\n').is_some_and(|line| !line.is_empty() && !line.chars().any(char::is_control))
}

/// The alist of a matrix, filled up with zeros or not.
pub fn alist(matrix: &Matrix, filled: bool) -> String {
    let checks: Vec<Vec<usize>> = (0..matrix.m).map(|c| matrix.ones_of(c)).collect();
    let column = |b: usize| (0..matrix.m).filter(|&c| matrix.rows[c][b]).collect();
    let bits: Vec<Vec<usize>> = (0..matrix.n).map(column).collect();
    let most = |side: &Vec<Vec<usize>>| side.iter().map(|list| list.len()).max().unwrap_or(0);
    let line = |list: Vec<usize>| list.iter().map(usize::to_string).collect::<Vec<_>>().join(" ") + "\n";
    let mut text = line(vec![matrix.n, matrix.m]) + &line(vec![most(&bits), most(&checks)]);
    for side in [&bits, &checks] {
        text += &line(side.iter().map(|list| list.len()).collect());
    }
    for side in [&bits, &checks] {
        for list in side {
            let mut members: Vec<usize> = list.iter().map(|member| member + 1).collect();
            if filled {
                members.resize(most(side), 0);
            }
            text += &line(members);
        }
    }
    text
}

/// The 0/1 text of a matrix.
pub fn text(matrix: &Matrix) -> String {
    let digits = |row: &Vec<bool>| row.iter().map(|&one| if one { '1' } else { '0' }).collect::<String>() + "\n";
    matrix.rows.iter().map(digits).collect()
}

/// The record that the papers write of a matrix, as bytes.
pub fn record(matrix: &Matrix) -> Vec<u8> {
    bytes(&model::written(matrix).expect("splits made the matrix"))
}

pub fn record_of(matrix: &Matrix, form: Form) -> Vec<u8> {
    bytes(&model::record(matrix, form))
}

pub fn bytes(words: &[u32]) -> Vec<u8> {
    words.iter().flat_map(|word| word.to_be_bytes()).collect()
}
