//! Tests of the library from outside. `outside` runs all parts; `outside model`, `calls`, `losses`, `records`,
//! `taking_back`, `holders`, `determining`, `solving`, `sets`, `blocks`, `joining`, `marking`, `soft`, `ranges`, `payloads`, `packets`, `stack`, `demand3`, `codes`, `mend` run the parts named, and the name of a call, as `outside peel`, runs that kind of
//! call alone. Ends with a status that is not 0 at the first difference, with the whole input that shows it.
//! OUTSIDE_LAST=FILE keeps the input of the last call in FILE, and runs one part at a time.

#![allow(clippy::needless_range_loop)]

mod blocks;
mod calls;
mod cases;
mod codes;
mod compare;
mod demand3;
mod determining;
mod elimination;
mod generate;
mod holders;
mod joining;
mod library;
mod losses;
mod marking;
mod mend;
mod min_sum;
mod model;
mod payloads;
mod packets;
mod random;
mod ranges;
mod records;
mod sets;
mod soft;
mod solving;
mod stack;
mod taking_back;

use model::{Kind, KINDS};
use std::env;
use std::process::ExitCode;
use std::sync::atomic::{AtomicUsize, Ordering};
use std::thread;
use std::time::Instant;

const PARTS: [&str; 20] = [
    "model",
    "calls",
    "losses",
    "records",
    "taking_back",
    "holders",
    "determining",
    "solving",
    "sets",
    "blocks",
    "joining",
    "marking",
    "soft",
    "ranges",
    "payloads",
    "packets",
    "stack",
    "demand3",
    "codes",
    "mend",
];

/// It tells of all calls before it, so it is run after the other parts.
const LAST: &str = "stack";

/// What became of a part: its number of comparisons and a note, or why it was skipped.
enum Outcome {
    Same(usize, String),
    Skipped(String),
}

fn same(result: Result<usize, String>) -> Result<Outcome, String> {
    result.map(|number| Outcome::Same(number, String::new()))
}

fn noted(result: Result<(usize, String), String>) -> Result<Outcome, String> {
    result.map(|(number, note)| Outcome::Same(number, note))
}

fn mend() -> Result<Outcome, String> {
    match mend::program() {
        Some(path) => noted(mend::run(&path)),
        None => {
            let how = "the program is missing: run `packaging/build mend` in the root of the repository, or set PARITY_MEND to its path";
            Ok(Outcome::Skipped(how.to_string()))
        }
    }
}

fn run(part: &str, kinds: &[Kind]) -> Result<Outcome, String> {
    match part {
        "model" => same(cases::run()),
        "calls" => same(calls::run(kinds)),
        "losses" => same(losses::run()),
        "records" => noted(records::run()),
        "taking_back" => noted(taking_back::run()),
        "holders" => same(holders::run()),
        "determining" => noted(determining::run()),
        "solving" => noted(solving::run()),
        "sets" => noted(sets::run()),
        "blocks" => noted(blocks::run()),
        "joining" => noted(joining::run()),
        "marking" => noted(marking::run()),
        "soft" => noted(soft::run()),
        "ranges" => noted(ranges::run()),
        "payloads" => noted(payloads::run()),
        "packets" => noted(packets::run()),
        "stack" => noted(stack::run()),
        "demand3" => noted(demand3::run()),
        "codes" => noted(codes::run()),
        _ => mend(),
    }
}

/// A part differed, and that was printed.
struct Different;

/// Prints what became of a part; whether it ran.
fn told(part: &str, ended: Result<Outcome, String>, seconds: f64) -> Result<bool, Different> {
    match ended {
        Ok(Outcome::Same(number, note)) => {
            let note = if note.is_empty() { note } else { format!(" ({note})") };
            println!("{part}: {number} comparisons, no difference{note}, {seconds:.1} s");
            Ok(true)
        }
        Ok(Outcome::Skipped(why)) => {
            println!("{part}: SKIPPED, {why}");
            Ok(false)
        }
        Err(difference) => {
            println!("{difference}");
            println!("{part}: FAILED after {seconds:.1} s");
            Err(Different)
        }
    }
}

/// Runs parts, as many at once as there are processors, and prints what became of each when it ends; whether all ran.
/// After a difference no further part is begun.
fn all(parts: &[&str], kinds: &[Kind]) -> Result<bool, Different> {
    let next = AtomicUsize::new(0);
    let worker = || {
        let mut complete = true;
        while let Some(part) = parts.get(next.fetch_add(1, Ordering::Relaxed)) {
            let start = Instant::now();
            let ended = run(part, kinds);
            complete &= told(part, ended, start.elapsed().as_secs_f64()).inspect_err(|_| next.store(parts.len(), Ordering::Relaxed))?;
        }
        Ok(complete)
    };
    // the last call's input is one call's only if parts run one after the other
    let alone = env::var_os("OUTSIDE_LAST").is_some();
    let workers = if alone { 1 } else { thread::available_parallelism().map_or(1, |number| number.get()) };
    thread::scope(|scope| {
        let started: Vec<_> = (0..workers).map(|_| scope.spawn(worker)).collect();
        started.into_iter().map(|one| one.join().expect("a part that ends")).try_fold(true, |complete, ran| Ok(ran? && complete))
    })
}

fn main() -> ExitCode {
    let mut named: Vec<String> = env::args().skip(1).collect();
    let kinds: Vec<Kind> = KINDS.into_iter().filter(|kind| named.iter().any(|name| name == kind.name())).collect();
    let before = named.len();
    named.retain(|name| PARTS.contains(&name.as_str()));
    if named.len() + kinds.len() < before {
        let calls: Vec<&str> = KINDS.iter().map(|kind| kind.name()).collect();
        eprintln!("the parts are {}, and the calls {}", PARTS.join(", "), calls.join(", "));
        return ExitCode::from(2);
    }
    if !kinds.is_empty() {
        named.push("calls".to_string());
    }
    let whole = Instant::now();
    let chosen = |part: &&str| named.is_empty() || named.iter().any(|name| name == part);
    let (last, first): (Vec<&str>, Vec<&str>) = PARTS.into_iter().filter(chosen).partition(|part| *part == LAST);
    match all(&first, &kinds).and_then(|complete| Ok(all(&last, &kinds)? && complete)) {
        Ok(complete) => {
            let ended = if complete { "passed" } else { "not all parts ran" };
            println!("outside: {ended}, {:.1} s", whole.elapsed().as_secs_f64());
            ExitCode::from(u8::from(!complete))
        }
        Err(Different) => ExitCode::FAILURE,
    }
}
