//! `report`: its numbers against those of `inspect` and `curve` and against the model, its form, and what it refuses.

use crate::generate;
use crate::json::{self, Json};
use crate::model::{house, Matrix};
use crate::random::Random;
use crate::support::{alist, examples, folder, golden, is_one_line, record, run, runs, shell};
use crate::xml;
use cli::files::{take, Format};
use cli::measure::Plan;
use cli::report::page;
use cli::stopping::found;
use std::collections::BTreeSet;
use std::fs;
use std::path::Path;

fn taken(matrix: &Matrix) -> cli::matrix::Matrix {
    take(Path::new("matrix.rec"), Format::Record, &record(matrix)).expect("a matrix")
}

/// The page of a matrix with few words, made by the library on one thread.
fn page_of(matrix: &Matrix) -> String {
    let page = page(&taken(matrix), "matrix", String::new(), Plan { words: 2, seed: 1, errors: None }, 1);
    let page = page.expect("a page");
    well_formed(&page);
    page
}

/// A page is HTML that is XML behind its first line, has no identifier twice, and needs nothing else.
fn well_formed(page: &str) {
    let element = page.strip_prefix("<!DOCTYPE html>\n").expect("the first line");
    assert_eq!(xml::check(element), Ok(()));
    let names: Vec<&str> = element.split(" id='").skip(1).filter_map(|rest| rest.split('\'').next()).collect();
    assert_eq!(names.iter().collect::<BTreeSet<_>>().len(), names.len(), "{names:?}");
    let without = element.replace("xmlns='http://www.w3.org/2000/svg'", "");
    for part in ["http", "<script", "<link", "<img", "<iframe", " src=", " href=", "url(", "@import", " onload="] {
        assert!(!without.contains(part), "{part}");
    }
}

/// The section of this title.
fn part<'a>(page: &'a str, title: &str) -> &'a str {
    let start = page.split(&format!("<h2>{title}</h2>\n")).nth(1).expect("the section");
    start.split("</section>").next().expect("its end")
}

/// The cells of the row of this name.
fn cells<'a>(part: &'a str, name: &str) -> Vec<&'a str> {
    let start = part.split(&format!("<th scope='row'>{name}</th>")).nth(1).expect("the row");
    let row = start.split("</tr>").next().expect("its end");
    row.split("<td>").skip(1).map(|cell| cell.split("</td>").next().expect("its end")).collect()
}

/// How many ones a picture of dots has.
fn ones(picture: &str) -> usize {
    picture.matches("h0").count()
}

/// The page as it was looked at in a browser, of case C with its split carried.
#[test]
fn as_looked_at() {
    let out = folder("report-golden");
    fs::copy(golden().join("case-c-extended.rec"), out.join("case-c-extended.rec")).expect("a file");
    let args = ["report", "case-c-extended.rec", "--words", "100", "--seed", "7", "--out", "case-c-extended.html"];
    assert_eq!(runs(&out, &args).text(), "");
    let found = fs::read_to_string(out.join("case-c-extended.html")).expect("a page");
    well_formed(&found);
    assert!(found == fs::read_to_string(golden().join("case-c-extended.html")).expect("a page"), "{found}");
    let command = found.split("<pre><code>").nth(1).and_then(|rest| rest.split("</code>").next());
    assert_eq!(
        command,
        Some("parity report case-c-extended.rec --out case-c-extended.html --words 100 --seed 7"),
        "the command that makes the page"
    );
}

/// Each number of the page against `inspect` and the model, of matrices with splits and without.
#[test]
fn numbers() {
    let (r, out) = (&mut Random::new(4343), folder("report-numbers"));
    for number in 0..60 {
        let mut matrix = generate::small_given(r);
        let (given, carried) = (matrix.clone(), number % 3);
        generate::split_some(r, &mut matrix, carried);
        fs::write(out.join("m.rec"), record(&matrix)).expect("a file");
        runs(&out, &["report", "m.rec", "--words", "1", "--out", "m.html"]);
        let page = fs::read_to_string(out.join("m.html")).expect("a page");
        well_formed(&page);
        let inspected = json::read(runs(&out, &["inspect", "--json", "m.rec"]).text().trim_end()).expect("an object");
        as_inspected(&page, &inspected);
        as_modelled(&page, &given, &matrix);
    }
}

fn as_inspected(page: &str, inspected: &Json) {
    let get = |name: &str| inspected.get(name).expect(name);
    let (sizes, cycles, sets) = (part(page, "Sizes"), part(page, "Four-cycles"), part(page, "Small stopping sets"));
    for (name, field) in [
        ("sent bits n", "n"),
        ("given checks m", "m"),
        ("carried splits", "carried_splits"),
        ("ones", "ones"),
        ("rank", "rank"),
    ] {
        assert_eq!(cells(sizes, name), [get(field).number().to_string()], "{name}");
    }
    let after = |field: &str| get("orthogonalised").get(field).expect(field).number();
    for (name, due) in [("splits made", after("splits")), ("sum", after("sum")), ("added bits k", after("k"))] {
        assert_eq!(cells(cycles, name), [due.to_string()], "{name}");
    }
    let both = |one: usize, other: usize| [one.to_string(), other.to_string()];
    assert_eq!(cells(cycles, "four-cycles"), both(get("cycles").number(), after("cycles_left")));
    assert_eq!(cells(cycles, "ones"), both(get("ones").number(), after("ones")));
    for listed in get("stopping_sets").list() {
        let [size, count] = ["size", "count"].map(|field| listed.get(field).expect(field).number().to_string());
        assert_eq!(cells(sets, &size)[0], count, "{size}");
    }
    let remarks: Vec<&str> = sizes.split("<li>").skip(1).filter_map(|rest| rest.split("</li>").next()).collect();
    assert_eq!(remarks, get("remarks").list().iter().map(Json::text).collect::<Vec<_>>());
    for (title, field) in [("check", "check_weights"), ("bit", "bit_weights")] {
        let weights = get(field).numbers();
        for weight in weights.iter().collect::<BTreeSet<_>>() {
            let times = weights.iter().filter(|other| *other == weight).count();
            assert!(part(page, "Weights").contains(&format!("{times} of weight {weight}")), "{title} {weight}");
        }
    }
}

fn as_modelled(page: &str, given: &Matrix, matrix: &Matrix) {
    let mut extended = matrix.clone();
    extended.orthogonalise();
    let count = |matrix: &Matrix| (0..matrix.checks()).map(|check| matrix.ones_of(check).len()).sum::<usize>();
    let dots: Vec<&str> = part(page, "The matrix as dots").split("<svg").skip(1).collect();
    assert_eq!(ones(dots[0]), count(given));
    assert_eq!(dots.get(1).map(|picture| ones(picture)), (extended.k > 0).then(|| count(&extended)));
    let graph = part(page, "Tanner graph of the given matrix");
    assert_eq!(graph.matches("<circle").count(), given.n);
    assert_eq!(graph.matches("<rect").count(), given.m);
    assert_eq!(graph.matches("L360 ").count(), count(given));
    let (_, splits) = extended.unsplit().expect("splits");
    let pair = |(place, (low, high)): (usize, &(usize, usize))| format!("{low}\u{A0}{high}\u{2192}{}", given.n + place);
    let pairs: Vec<String> = splits.iter().enumerate().map(pair).collect();
    assert!(splits.len() > 60 || page.contains(&pairs.join(", ")), "{pairs:?}");
    for shown in part(page, "Small stopping sets").split("<figcaption>").skip(1) {
        let bits = shown.split(':').next().expect("bits");
        let bits: Vec<usize> = bits.split(' ').skip(1).map(|bit| bit.parse().expect("a bit")).collect();
        let set: Vec<bool> = (0..given.n).map(|bit| bits.contains(&bit)).collect();
        assert!(given.is_stopping(&set) && !bits.is_empty(), "{bits:?}");
        let marked = bits.iter().map(|&bit| (0..given.m).filter(|&check| given.rows[check][bit]).count());
        let picture = shown.split("class='marked'").nth(1).unwrap_or_default();
        assert_eq!(ones(picture), marked.sum::<usize>(), "{bits:?}");
    }
}

/// The shares are those of `curve` with the same words.
#[test]
fn shares() {
    let out = folder("report-shares");
    let path = examples().join("case-l.alist");
    let plan = [path.to_str().expect("a path"), "--words", "300", "--seed", "5", "--out"];
    runs(&out, &[&["report"], &plan[..], &["l.html"]].concat());
    runs(&out, &[&["curve", "--csv", "l.csv"], &plan[..], &["l.svg"]].concat());
    let page = fs::read_to_string(out.join("l.html")).expect("a page");
    well_formed(&page);
    let table = fs::read_to_string(out.join("l.csv")).expect("a table");
    let head: Vec<&str> = table.lines().next().expect("a head").split(',').collect();
    let tables: Vec<&str> = part(&page, "What is left after losses").split("<table").skip(1).collect();
    for rate in 1..=6 {
        let fields: Vec<&str> = table.lines().nth(5 * rate).expect("a line").split(',').collect();
        assert_eq!(fields[0], format!("0.{rate}0"));
        for (kind, table) in ["share", "words_share"].iter().zip(&tables) {
            for (way, cell) in ["given", "extended", "determined"].iter().zip(cells(table, &format!("0.{rate}"))) {
                let name = format!("{kind}_{way}");
                let place = head.iter().position(|column| *column == name).expect("a column");
                let (due, found): (f64, f64) = (fields[place].parse().expect("it"), cell.parse().expect("it"));
                assert!((due - found).abs() <= 0.005 * due, "{name} {rate}: {due} {found}");
            }
        }
    }
    for part in ["<title id='bits-title'>share of sent bits left", "<title id='words-title'>share of words not wholly"]
    {
        assert!(page.contains(part), "{part}");
    }
}

/// The graph has up to 40 bits.
#[test]
fn graphs() {
    let checks = |n: usize| Matrix::given(n, &[(0..n).collect()]);
    let drawn = page_of(&checks(40));
    assert_eq!(part(&drawn, "Tanner graph of the given matrix").matches("<circle").count(), 40);
    let left_out = page_of(&checks(41));
    let due = "<p>Left out: it is drawn of up to 40 bits, and there are 41.</p>";
    assert!(part(&left_out, "Tanner graph of the given matrix").trim() == due);
}

/// Pages at the edges: no check, empty checks, one bit, no stopping set, the largest k.
#[test]
fn edges() {
    let dense = generate::given(&mut Random::new(77), 120, 120, 500);
    let identity: Vec<Vec<usize>> = (0..9).map(|bit| vec![bit]).collect();
    for (matrix, title, says) in [
        (Matrix::zero(5, 0, 0), "Weights", "checks: none"),
        (Matrix::zero(5, 2, 0), "Small stopping sets", "The first 4 of these 30 are shown."),
        (Matrix::zero(1, 1, 0), "Small stopping sets", "All that are listed are shown."),
        (Matrix::zero(1, 1, 0), "Small stopping sets", "bit 0: in no check<"),
        (Matrix::given(9, &identity), "Small stopping sets", "There is no stopping set at all"),
        (Matrix::given(9, &identity), "The matrix as dots", "orthogonalising changes nothing"),
        (
            house(0).expect("case L"),
            "Small stopping sets",
            "The smallest that 400 searches by peeling found have 6 bits",
        ),
        (dense, "Four-cycles", "here k came to 392, the most"),
    ] {
        let page = page_of(&matrix);
        assert!(part(&page, title).contains(says), "{says}: {}", part(&page, title));
    }
}

/// What searches find: stopping sets without a smaller one in them, all of one size.
#[test]
fn searched() {
    let r = &mut Random::new(991);
    let mut matrices = vec![house(0).expect("case L"), Matrix::given(3, &[vec![0], vec![0, 1], vec![1, 2]])];
    matrices.extend((0..20).map(|_| generate::small_given(r)));
    for given in matrices {
        let sets = found(&taken(&given)).expect("sets");
        let whole = given.residue(&vec![true; given.n]);
        assert_eq!(sets.is_empty(), !whole.contains(&true));
        for set in &sets {
            assert_eq!(set.len(), sets[0].len());
            let marks: Vec<bool> = (0..given.n).map(|bit| set.contains(&bit)).collect();
            assert!(given.is_stopping(&marks));
            for &bit in set {
                let mut fewer = marks.clone();
                fewer[bit] = false;
                assert!(!given.residue(&fewer).contains(&true), "{set:?} without {bit}");
            }
        }
    }
}

/// The pairs of a record, split again in their order, make the matrix again.
#[test]
fn splits() {
    let r = &mut Random::new(17);
    for _ in 0..40 {
        let mut matrix = generate::small_given(r);
        generate::split_some(r, &mut matrix, 6);
        let taken = taken(&matrix);
        let mut again = taken.given().expect("the given matrix");
        for (low, high) in taken.splits().expect("pairs") {
            again.k = parity::split(&mut again.words, again.n, again.m, again.k, low, high).expect("a split").k;
        }
        assert_eq!(again, taken);
    }
}

/// The same page, whatever the number of threads; another for another seed.
#[test]
fn threads() {
    let matrix = taken(&house(0).expect("case L"));
    let plan = Plan { words: 250, seed: 3, errors: Some(30) };
    let on = |plan: Plan, threads: usize| page(&matrix, "l", String::new(), plan, threads).expect("a page");
    let one = on(plan, 1);
    for threads in [0, 2, 5] {
        assert!(on(plan, threads) == one, "{threads}");
    }
    assert!(on(Plan { seed: 4, ..plan }, 2) != one);
}

/// Names that need care, in the heading and in the command.
#[test]
fn names() {
    let out = folder("report-names");
    let matrix = alist(&Matrix::given(3, &[vec![0, 1]]), true);
    for (name, shown, quoted) in [
        ("a & <b> 'c' \"d\".alist", "a &amp; &lt;b&gt; 'c' \"d\".alist", "'a &amp; &lt;b&gt; '\\''c'\\'' \"d\".alist'"),
        ("two\nlines\u{1}.alist", "two\u{FFFD}lines\u{FFFD}.alist", "'two\u{FFFD}lines\u{FFFD}.alist'"),
        ("-.alist", "-.alist", "./-.alist"),
    ] {
        fs::write(out.join(name), &matrix).expect("a file");
        runs(&out, &["report", "--words", "1", "--out", "p.html", "--", name]);
        let page = fs::read_to_string(out.join("p.html")).expect("a page");
        well_formed(&page);
        assert!(page.contains(&format!("<h1>{shown}</h1>")), "{name}");
        assert!(page.contains(&format!("<code>parity report {quoted} --out p.html --words 1")), "{name}");
    }
}

/// Streams in and out.
#[test]
fn streams() {
    let input = fs::read(golden().join("case-c.alist")).expect("a file");
    let page =
        run(&folder("report-streams"), &["report", "-", "--from", "alist", "--words", "3", "--out", "-"], &input);
    assert_eq!((page.status, page.err.as_str()), (0, ""));
    well_formed(page.text());
    for part in ["<h1>standard input</h1>", "parity report - --out - --from alist --words 3 --seed 1<"] {
        assert!(page.text().contains(part), "{part}");
    }
}

/// Each error: its line, its status, and that nothing is written.
#[test]
fn refused() {
    let out = folder("report-refused");
    fs::copy(golden().join("case-c.alist"), out.join("c.alist")).expect("a file");
    fs::write(out.join("wrong.txt"), "01\n0x\n").expect("a file");
    for (args, status, due) in [
        (&["c.alist"][..], 2, "report needs --out and the name of a page; see --help"),
        (&["--out", "p.html"], 2, "0 files are named, and 1 needed: FILE; see --help"),
        (&["c.alist", "c.alist", "--out", "p.html"], 2, "2 files are named, and 1 needed: FILE; see --help"),
        (&["c.alist", "--out"], 2, "--out needs a value"),
        (&["c.alist", "--ot", "p.html"], 2, "'--ot' is no option here; did you mean --out? see --help"),
        (
            &["c.alist", "--out", "p.html", "--sead", "3"],
            2,
            "'--sead' is no option here; did you mean --seed? see --help",
        ),
        (&["c.alist", "--out", "p.html", "--blocks"], 2, "'--blocks' is no option here; see --help"),
        (&["c.alist", "--out", "p.html", "--words", "0"], 2, "--words takes a number from 1 to 100000000, and not '0'"),
        (
            &["c.alist", "--out", "./c.alist"],
            2,
            "FILE c.alist and --out ./c.alist are the same file; an output needs one of its own",
        ),
        (&["none.alist", "--out", "p.html"], 1, "none.alist: No such file or directory (os error 2)"),
        (&["wrong.txt", "--out", "p.html"], 1, "wrong.txt:2: 'x' at character 2 is neither 0 nor 1"),
        (&["c.alist", "--out", "none/p.html"], 1, "none/p.html: No such file or directory (os error 2)"),
    ] {
        let run = run(&out, &[&["report"], args].concat(), b"");
        assert_eq!((run.status, run.text(), &*run.err), (status, "", &*format!("parity: {due}\n")), "{args:?}");
        assert!(is_one_line(&run.err));
        assert_eq!(fs::read_dir(&out).expect("a folder").count(), 2, "nothing is written");
    }
}

/// An interrupt leaves the old page, and nothing beside it.
#[test]
fn interrupted() {
    let out = folder("report-interrupted");
    fs::copy(examples().join("case-l.alist"), out.join("l.alist")).expect("a file");
    fs::write(out.join("old.html"), "old").expect("a file");
    let args = ["report", "l.alist", "--words", "100000000", "--out", "old.html"];
    let ended = shell(&out, "timeout -s INT 0.3 \"$0\" \"$@\"; exit $?", &args);
    assert_eq!((ended.status, ended.text(), ended.err.as_str()), (124, "", ""));
    assert_eq!(fs::read_to_string(out.join("old.html")).expect("a file"), "old");
    assert_eq!(fs::read_dir(&out).expect("a folder").count(), 2);
}
