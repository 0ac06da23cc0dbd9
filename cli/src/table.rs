//! What was counted, as a table: a line for each matrix and point.

use crate::interval::Interval;
use crate::measure::{Point, WAYS};

/// What the columns of a channel are called.
pub struct Columns {
    pub point: &'static str,
    pub hit: &'static str,
    pub left: &'static str,
    pub ways: [&'static str; WAYS],
}

/// The points of a matrix of n bits, each with its place on the channel's axis, and how many ways were counted.
pub struct Rows<'a> {
    pub name: &'a str,
    pub n: usize,
    pub ways: usize,
    pub points: Vec<(f64, Point)>,
}

pub fn csv(columns: &Columns, matrices: &[Rows]) -> String {
    let mut text = head(columns) + "\n";
    for rows in matrices {
        for (place, point) in &rows.points {
            text.push_str(&format!("{place:.2},{},{}\n", line(rows, point), quoted(rows.name)));
        }
    }
    text
}

fn head(columns: &Columns) -> String {
    let Columns { point, hit, left, ways } = columns;
    let mut names = [*point, "words", "bits_sent", *hit].map(str::to_string).to_vec();
    for kind in
        [*left, "share", "share_low", "share_high", "words_left", "words_share", "words_share_low", "words_share_high"]
    {
        names.extend(ways.map(|way| format!("{kind}_{way}")));
    }
    names.push("matrix".to_string());
    names.join(",")
}

fn line(rows: &Rows, point: &Point) -> String {
    let (words, sent) = (point.words, point.words * rows.n as u64);
    let mut fields = [words, sent, point.hit].map(|number| number.to_string()).to_vec();
    let float = |number: f64| format!("{number:.5e}");
    let ends: [fn(&Interval) -> f64; 3] = [|found| found.share, |found| found.low, |found| found.high];
    let mut each = |field: &dyn Fn(usize) -> String| {
        fields.extend((0..WAYS).map(|way| if way < rows.ways { field(way) } else { String::new() }));
    };
    each(&|way| point.left[way].bits.to_string());
    ends.iter().for_each(|end| each(&|way| float(end(&point.left[way].of_bits(words, rows.n)))));
    each(&|way| point.left[way].words.to_string());
    ends.iter().for_each(|end| each(&|way| float(end(&point.left[way].of_words(words)))));
    fields.join(",")
}

/// A name as a field: in quotes where it needs them.
fn quoted(name: &str) -> String {
    if name.contains([',', '"', '\n', '\r']) {
        format!("\"{}\"", name.replace('"', "\"\""))
    } else {
        name.to_string()
    }
}
