//! `erase`: which bits it loses, and that nothing else changes; and all commands on words in one line.

use crate::lines::digits;
use crate::random::Random;
use crate::support::{examples, folder, golden, is_one_line, run, runs_on, shell};
use std::fs;

/// Lines of so many bits, in all `total` of them.
fn words(length: usize, total: usize) -> Vec<u8> {
    ("0110100".repeat(length / 7 + 1)[..length].to_string() + "\n").repeat(total / length).into_bytes()
}

fn erased(options: &str, input: &[u8]) -> Vec<u8> {
    let args: Vec<&str> = ["erase"].into_iter().chain(options.split(' ')).collect();
    let out = runs_on(&golden(), &args, input);
    assert_eq!(out.len(), input.len());
    assert!(out.iter().zip(input).all(|(found, sent)| found == sent || *found == b'?' && b"01".contains(sent)));
    out
}

/// The lengths of the runs of lost bits and of those of kept ones, without the first and the last run.
fn runs(out: &[u8]) -> [Vec<usize>; 2] {
    let lost: Vec<bool> = out.iter().filter(|&&byte| byte != b'\n').map(|&byte| byte == b'?').collect();
    let mut lengths = [Vec::new(), Vec::new()];
    let all: Vec<&[bool]> = lost.chunk_by(|one, next| one == next).collect();
    for run in &all[1..all.len() - 1] {
        lengths[usize::from(!run[0])].push(run.len());
    }
    lengths
}

#[test]
fn rates() {
    let input = words(23, 230_000);
    for (rate, part) in [("0", 0.0), ("1", 1.0), ("0.5", 0.5), ("0.02", 0.02), ("2e-1", 0.2), (".9", 0.9)] {
        let out = erased(&format!("--rate {rate}"), &input);
        let lost = out.iter().filter(|&&byte| byte == b'?').count() as f64 / 230_000.0;
        let most = 5.0 * f64::sqrt(part * (1.0 - part) / 230_000.0);
        assert!((lost - part).abs() <= most, "{rate}: {lost}");
    }
    // Losses do not depend on one another: two in a row are as many as they should be.
    let out = erased("--rate 0.3", &words(230, 230_000));
    let pairs = out.windows(2).filter(|pair| *pair == b"??").count() as f64 / 229_000.0;
    assert!((pairs - 0.09).abs() < 0.005, "{pairs}");
}

/// Bursts have their length, also across lines, and gaps their mean.
#[test]
fn bursts() {
    for (burst, gap) in [(1, 1), (1, 9), (5, 1), (7, 40), (60, 100)] {
        let out = erased(&format!("--burst {burst} --gap {gap}"), &words(23, 230_000));
        let [lost, kept] = runs(&out);
        assert!(lost.iter().all(|&length| length == burst), "{burst} {gap}");
        let mean = kept.iter().sum::<usize>() as f64 / kept.len() as f64;
        assert!(kept.len() > 1000 && (mean - gap as f64).abs() < 0.1 * gap as f64, "{burst} {gap}: {mean}");
    }
    // The first bit is lost in some links and not in others.
    let first = |seed: usize| erased(&format!("--burst 3 --gap 3 --seed {seed}"), b"0\n") == b"?\n";
    assert!((20..80).contains(&(0..100).filter(|&seed| first(seed)).count()));
}

#[test]
fn seeds() {
    let input = words(23, 2300);
    for losses in ["--rate 0.4", "--burst 4 --gap 9"] {
        let one = erased(&format!("{losses} --seed 1"), &input);
        assert_eq!(erased(losses, &input), one);
        assert_ne!(erased(&format!("{losses} --seed 2"), &input), one);
    }
}

/// Marks, blanks and line endings stay; what is no word comes out as it was.
#[test]
fn what_stays() {
    let all = runs_on(&golden(), &["erase", "--rate", "1"], b"01 1,0\t\r\n.?0\n\n1");
    assert_eq!(all, b"?? ?,?\t\r\n.??\n\n?\n");
    let bad = run(&golden(), &["erase", "--rate", "1"], b"01\n012\n0.5 1\n");
    assert_eq!((bad.status, bad.text()), (4, "??\n012\n0.5 1\n"));
    let due = "parity: standard input:2: '2' at character 3 is none of 0, 1, ? and .\n\
               parity: standard input:3: '5' at character 3 is none of 0, 1, ? and .\n";
    assert_eq!(bad.err, due);
}

#[test]
fn arguments() {
    let needed = "erase needs --rate P, or --burst L and --gap G; see --help";
    for (options, due) in [
        ("", needed),
        ("--seed 3", needed),
        ("--burst 3", needed),
        ("--gap 3", needed),
        ("--rate 0.1 --gap 3", needed),
        ("--rate 0.1 --burst 3 --gap 3", needed),
        ("--rate 1.5", "--rate takes a number from 0 to 1, and not '1.5'"),
        ("--rate nan", "--rate takes a number from 0 to 1, and not 'nan'"),
        ("--rate -0.1", "--rate takes a number from 0 to 1, and not '-0.1'"),
        ("--rate ten", "--rate takes a number from 0 to 1, and not 'ten'"),
        ("--burst 0 --gap 3", "--burst takes a number from 1 to 1000000, and not '0'"),
        ("--burst 3 --gap 2.5", "--gap takes a number from 1 to 1000000, and not '2.5'"),
        ("--rates 0.1", "'--rates' is no option here; did you mean --rate? see --help"),
        ("--rate 0.1 L.alist", "1 files are named, and 0 needed; see --help"),
    ] {
        let args: Vec<&str> = ["erase"].into_iter().chain(options.split_whitespace()).collect();
        let run = run(&golden(), &args, b"01\n");
        assert_eq!((run.status, run.text(), run.err.as_str()), (2, "", &*format!("parity: {due}\n")), "{options}");
        assert!(is_one_line(&run.err));
    }
}

/// The one line of README: what was sent comes back, or ?.
#[test]
fn in_one_line() {
    let (r, here) = (&mut Random::new(1432), folder("in-one-line"));
    let sent: String = (0..2000).map(|_| digits(&r.bits(12)) + "\n").collect();
    fs::write(here.join("sent"), &sent).expect("a file");
    fs::copy(examples().join("case-l.alist"), here.join("L.alist")).expect("a file");
    for (losses, least, whole) in [
        ("--rate 0.2", 0.99, 0.98),
        ("--rate 0.45", 0.5, 0.2),
        ("--burst 5 --gap 23", 0.95, 0.9),
        ("--rate 0", 1.0, 1.0),
    ] {
        let script = format!(
            "\"$0\" encode L.alist <sent | \"$0\" erase {losses} | \"$0\" mend L.alist 2>said | \"$0\" message L.alist"
        );
        let run = shell(&here, &script, &[]);
        assert_eq!((run.status, run.err.as_str()), (0, ""), "{losses}");
        assert_eq!(run.out.len(), sent.len());
        assert!(run.out.iter().zip(sent.as_bytes()).all(|(found, sent)| found == sent || *found == b'?'), "{losses}");
        let known = run.out.iter().filter(|&&byte| byte != b'?').count() as f64;
        assert!(known >= least * sent.len() as f64, "{losses}: {known}");
        let words = run.text().lines().filter(|line| !line.contains('?')).count();
        assert!(words as f64 >= whole * 2000.0, "{losses}: {words}");
    }
}
