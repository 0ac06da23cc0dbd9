//! Outputs: none is an input or the other output, and a write that fails leaves the old file. No device is named as
//! an output: a program that replaced it would harm more than the test.

use crate::support::{examples, folder, golden, is_one_line, run, runs, shell};
use std::fs;
use std::os::unix::fs::{symlink, MetadataExt, PermissionsExt};
use std::path::{Path, PathBuf};

/// A folder of this name with a matrix, a folder in it and a link to itself.
fn with_matrix(name: &str, matrix: &Path) -> PathBuf {
    let here = folder(name);
    fs::copy(matrix, here.join("m.alist")).expect("a file");
    fs::create_dir(here.join("dir")).expect("a folder");
    symlink(".", here.join("linked")).expect("a link");
    here
}

/// The names in a folder, and in its own folder.
fn names(here: &Path) -> Vec<PathBuf> {
    let list = |folder: PathBuf| fs::read_dir(folder).expect("a folder").map(|entry| entry.expect("a file").path());
    let mut names: Vec<PathBuf> = list(here.to_path_buf()).chain(list(here.join("dir"))).collect();
    names.sort();
    names
}

/// The names of a file: its own, other paths, symbolic links and a hard link.
fn other_names(here: &Path, file: &str) -> Vec<String> {
    symlink(file, here.join("soft")).expect("a link");
    symlink("../linked/soft", here.join("dir/chain")).expect("a link");
    fs::hard_link(here.join(file), here.join("hard")).expect("a link");
    let whole = here.join(file).to_str().expect("a path").to_string();
    let mut names = vec![file.to_string(), whole, "soft".to_string(), "dir/chain".to_string(), "hard".to_string()];
    names.extend(["./", ".//", "dir/../", "linked/", "linked/dir/../linked/"].map(|front| format!("{front}{file}")));
    names
}

/// The program refuses its arguments in one line that says so, and every file is as it was.
fn refused(here: &Path, args: &[&str], kept: &[&str]) {
    let before: Vec<Vec<u8>> = kept.iter().map(|file| fs::read(here.join(file)).expect("a file")).collect();
    let names_before = names(here);
    let run = run(here, args, b"");
    assert_eq!((run.status, run.text()), (2, ""), "{args:?}: {:?}", run.err);
    assert!(is_one_line(&run.err) && run.err.contains(" are the same file; "), "{args:?}: {:?}", run.err);
    assert_eq!(names(here), names_before, "{args:?}");
    for (file, before) in kept.iter().zip(before) {
        assert!(fs::read(here.join(file)).expect("a file") == before, "{args:?}: {file}");
    }
}

/// A command with an input and an output, in each pair of names of one file.
fn input_is_no_output(name: &str, command: for<'a> fn(&'a str, &'a str) -> Vec<&'a str>) {
    let here = with_matrix(name, &golden().join("case-c.alist"));
    for other in other_names(&here, "m.alist") {
        for (input, out) in [("m.alist", other.as_str()), (other.as_str(), "m.alist")] {
            refused(&here, &command(input, out), &["m.alist"]);
        }
    }
}

#[test]
fn convert_keeps_its_input() {
    input_is_no_output("same-convert", |input, out| vec!["convert", input, out, "--from", "alist", "--to", "text"]);
}

#[test]
fn extend_keeps_its_input() {
    input_is_no_output("same-extend", |input, out| vec!["extend", input, out, "--from", "alist"]);
}

#[test]
fn picture_keeps_the_input() {
    input_is_no_output("same-out", |input, out| {
        vec!["curve", input, "--from", "alist", "--words", "1", "--csv", "new.csv", "--out", out]
    });
}

#[test]
fn table_keeps_the_input() {
    input_is_no_output("same-csv", |input, out| {
        vec!["curve", input, "--from", "alist", "--words", "1", "--out", "new.svg", "--csv", out]
    });
}

#[test]
fn page_keeps_the_input() {
    input_is_no_output("same-page", |input, out| {
        vec!["report", input, "--from", "alist", "--words", "1", "--out", out]
    });
}

/// Nothing is read: a file that is no matrix, and one that is missing, are refused for the output.
#[test]
fn refused_unread() {
    let here = with_matrix("same-unread", &golden().join("case-c.rec"));
    for args in [["convert", "m.alist", "./m.alist"], ["extend", "m.alist", "linked/m.alist"]] {
        refused(&here, &args, &["m.alist"]);
    }
    refused(&here, &["curve", "m.alist", "--out", "dir/../m.alist"], &["m.alist"]);
    refused(&here, &["convert", "missing.alist", "linked/missing.alist"], &["m.alist"]);
}

fn curve<'a>(out: &'a str, csv: &'a str) -> [&'a str; 8] {
    ["curve", "m.alist", "--words", "1", "--out", out, "--csv", csv]
}

#[test]
fn one_file_for_both_outputs() {
    let here = with_matrix("same-outputs", &golden().join("case-c.alist"));
    fs::write(here.join("old"), "old").expect("a file");
    for other in other_names(&here, "old") {
        refused(&here, &curve("old", &other), &["m.alist", "old"]);
        refused(&here, &curve(&other, "old"), &["m.alist", "old"]);
    }
}

/// Neither output exists, and the links lead nowhere.
#[test]
fn one_place_for_both_outputs() {
    let here = with_matrix("same-places", &golden().join("case-c.alist"));
    symlink("new.svg", here.join("nowhere")).expect("a link");
    symlink("../linked/nowhere", here.join("dir/chain")).expect("a link");
    symlink(here.join("new.svg"), here.join("dir/whole")).expect("a link");
    let whole = here.join("new.svg").to_str().expect("a path").to_string();
    let fronts =
        ["new.svg", "./new.svg", "dir/../new.svg", "linked/new.svg", "nowhere", "dir/chain", "dir/whole", &whole];
    for other in fronts {
        refused(&here, &curve("new.svg", other), &["m.alist"]);
        refused(&here, &curve(other, "new.svg"), &["m.alist"]);
    }
}

/// The record and the report of `extend`.
#[test]
fn one_file_for_record_and_report() {
    let here = with_matrix("same-report", &golden().join("case-c.alist"));
    fs::write(here.join("out.rec"), "old").expect("a file");
    for out in ["out.rec", "linked/out.rec", "/dev/stdout"] {
        let run = shell(&here, "\"$0\" \"$@\" >>out.rec", &["extend", "m.alist", out]);
        assert_eq!((run.status, is_one_line(&run.err)), (2, true), "{out}: {:?}", run.err);
        assert_eq!(fs::read(here.join("out.rec")).expect("a file"), b"old");
    }
}

/// Files of one name in two folders, and a pipe named twice, are not refused.
#[test]
fn other_files() {
    let here = with_matrix("other-files", &golden().join("case-c.alist"));
    runs(&here, &curve("dir/m.alist", "m.csv"));
    runs(&here, &curve("new", "linked/dir/new"));
    assert!(fs::read_to_string(here.join("new")).expect("a picture").starts_with("<svg "));
    assert!(fs::read_to_string(here.join("dir/new")).expect("a table").starts_with("erasure_rate,"));
    let both = runs(&here, &curve("/dev/stdout", "/dev/stdout"));
    assert!(both.text().starts_with("<svg ") && both.text().contains("\nerasure_rate,"), "{}", both.text());
    let taken = fs::read(here.join("m.alist")).expect("a file");
    let streamed = run(&here, &["convert", "/dev/stdin", "/dev/stdout", "--from", "alist", "--to", "text"], &taken);
    assert_eq!((streamed.status, streamed.text()), (0, "1111000\n1100110\n1010001\n"));
}

/// Commands that write `out`, which is longer than a limit of one block.
fn writers() -> [Vec<&'static str>; 5] {
    [
        vec!["convert", "m.alist", "out", "--to", "text"],
        vec!["extend", "m.alist", "out"],
        vec!["curve", "m.alist", "--words", "1", "--out", "out"],
        vec!["curve", "m.alist", "--words", "1", "--out", "/dev/stdout", "--csv", "out"],
        vec!["report", "m.alist", "--words", "1", "--out", "out"],
    ]
}

/// A write that comes to an error leaves the old file, or none, and nothing beside it.
#[test]
fn failed_writes() {
    let here = with_matrix("failed-writes", &examples().join("sparse-60x120.alist"));
    for args in writers() {
        for old in [None, Some("old")] {
            let _ = fs::remove_file(here.join("out"));
            old.iter().for_each(|old| fs::write(here.join("out"), old).expect("a file"));
            let before = names(&here);
            let run = shell(&here, "trap '' XFSZ; ulimit -f 1; exec \"$0\" \"$@\"", &args);
            assert_eq!(run.status, 1, "{args:?}: {:?}", run.err);
            assert!(is_one_line(&run.err) && run.err.starts_with("parity: out: "), "{args:?}: {:?}", run.err);
            assert_eq!(fs::read_to_string(here.join("out")).ok().as_deref(), old, "{args:?}");
            assert_eq!(names(&here), before, "{args:?}");
        }
    }
}

/// The part of a file that a program left beside its place.
fn part(here: &Path) -> Option<PathBuf> {
    let is_part = |path: &PathBuf| path.file_name().is_some_and(|name| name.to_string_lossy().starts_with(".parity-"));
    names(here).into_iter().find(is_part)
}

/// A program that a signal ends in the midst of writing leaves the old file, and a part of the new one beside it.
#[test]
fn interrupted_writes() {
    let here = with_matrix("interrupted-writes", &examples().join("sparse-60x120.alist"));
    for args in writers() {
        fs::write(here.join("out"), "old").expect("a file");
        let run = shell(&here, "ulimit -c 0; ulimit -f 1; \"$0\" \"$@\"; exit $?", &args);
        assert!(run.status > 128, "{args:?}: {}", run.status);
        assert_eq!(fs::read(here.join("out")).expect("a file"), b"old", "{args:?}");
        let part = part(&here).expect("a part");
        assert!(fs::metadata(&part).expect("a part").len() > 0, "{args:?}");
        fs::remove_file(&part).expect("a part");
        runs(&here, &args);
        assert_ne!(fs::read(here.join("out")).expect("a file"), b"old", "{args:?}");
    }
}

/// The file is a new one with the old permissions; a hard link keeps the old file, and a symbolic link stays.
#[test]
fn replaced() {
    let here = with_matrix("replaced", &golden().join("case-c.alist"));
    symlink("../out", here.join("dir/soft")).expect("a link");
    for (out, mode) in [("out", 0o640), ("out", 0o666), ("dir/soft", 0o600), ("linked/dir/soft", 0o755)] {
        let _ = fs::remove_file(here.join("hard"));
        fs::write(here.join("out"), "old").expect("a file");
        fs::set_permissions(here.join("out"), fs::Permissions::from_mode(mode)).expect("permissions");
        fs::hard_link(here.join("out"), here.join("hard")).expect("a link");
        let before = names(&here);
        runs(&here, &["convert", "m.alist", out, "--to", "text"]);
        assert_eq!(fs::read_to_string(here.join("out")).expect("a file"), "1111000\n1100110\n1010001\n", "{out}");
        assert_eq!(fs::metadata(here.join("out")).expect("a file").mode() & 0o7777, mode, "{out}");
        assert_eq!(fs::read_to_string(here.join("hard")).expect("a file"), "old", "{out}");
        assert_eq!(fs::read_link(here.join("dir/soft")).expect("a link"), Path::new("../out"));
        assert_eq!(names(&here), before);
    }
}

/// A new file has the permissions that the umask leaves, also at the end of a link that led nowhere.
#[test]
fn made() {
    let here = with_matrix("made", &golden().join("case-c.alist"));
    symlink("../new", here.join("dir/soft")).expect("a link");
    for (out, umask, mode) in [("new", "022", 0o644), ("dir/soft", "027", 0o640), ("linked/new", "077", 0o600)] {
        let _ = fs::remove_file(here.join("new"));
        let run = shell(&here, &format!("umask {umask}; \"$0\" \"$@\""), &["convert", "m.alist", out, "--to", "text"]);
        assert_eq!((run.status, run.err.as_str()), (0, ""), "{out}");
        assert_eq!(fs::read_to_string(here.join("new")).expect("a file"), "1111000\n1100110\n1010001\n", "{out}");
        assert_eq!(fs::metadata(here.join("new")).expect("a file").mode() & 0o7777, mode, "{out}");
        assert!(fs::symlink_metadata(here.join("dir/soft")).expect("a link").is_symlink());
    }
}

/// The names beside are taken, by a file and by a link to the matrix: both stay. The shell's number is the program's.
#[test]
fn names_beside() {
    let here = with_matrix("names-beside", &golden().join("case-c.alist"));
    fs::write(here.join("out"), "old").expect("a file");
    fs::hard_link(here.join("out"), here.join("hard")).expect("a link");
    let script = "echo mine >\".parity-$$-0\"; ln -s m.alist \".parity-$$-1\"; echo \".parity-$$\"; exec \"$0\" \"$@\"";
    let run = shell(&here, script, &["convert", "m.alist", "out", "--to", "text"]);
    assert_eq!((run.status, run.err.as_str()), (0, ""));
    let kept = |number: u32| here.join(format!("{}-{number}", run.text().trim_end()));
    assert_eq!(fs::read_to_string(kept(0)).expect("a file"), "mine\n");
    assert_eq!(fs::read_link(kept(1)).expect("a link"), Path::new("m.alist"));
    assert!(!kept(2).exists());
    let matrix = fs::read(golden().join("case-c.alist")).expect("a file");
    assert_eq!(fs::read(here.join("m.alist")).expect("a file"), matrix);
    assert_eq!(fs::read_to_string(here.join("hard")).expect("a file"), "old");
}

/// Standard output and pipes are written directly; what standard output's file had stays.
#[test]
fn direct() {
    let here = with_matrix("direct", &golden().join("case-c.alist"));
    let full = shell(&here, "\"$0\" \"$@\" >/dev/full", &["convert", "m.alist", "/dev/stdout", "--to", "text"]);
    assert_eq!((full.status, is_one_line(&full.err)), (1, true), "{}", full.err);
    assert!(full.err.starts_with("parity: /dev/stdout: "), "{}", full.err);
    fs::write(here.join("log"), "before\n").expect("a file");
    let number = fs::metadata(here.join("log")).expect("a file").ino();
    let run = shell(&here, "\"$0\" \"$@\" >>log", &["convert", "m.alist", "/dev/stdout", "--to", "text"]);
    assert_eq!((run.status, run.err.as_str()), (0, ""));
    assert_eq!(fs::read_to_string(here.join("log")).expect("a file"), "before\n1111000\n1100110\n1010001\n");
    assert_eq!(fs::metadata(here.join("log")).expect("a file").ino(), number);
    let script = "mkfifo pipe; exec 3<>pipe; \"$0\" \"$@\" && [ -p pipe ] && head -n 3 <&3";
    let piped = shell(&here, script, &["convert", "m.alist", "pipe", "--to", "text"]);
    assert_eq!((piped.status, piped.text(), piped.err.as_str()), (0, "1111000\n1100110\n1010001\n", ""));
}
