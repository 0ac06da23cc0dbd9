//! Tables in Markdown, and what all ratios come to.

use std::env;

/// Whether only the tables are wanted, under their marks.
fn marked() -> bool {
    env::args().any(|word| word == "--markdown")
}

/// Whether the row with this name is wanted.
pub fn wanted(name: &str) -> bool {
    let mut starts = env::args().skip(1).filter(|word| word != "--markdown").peekable();
    starts.peek().is_none() || starts.any(|start| name.starts_with(&start))
}

/// A line beside the tables.
pub fn note(text: &str) {
    if !marked() {
        println!("{text}\n");
    }
}

/// The start of a part: the mark of its table, or a heading.
pub fn part(mark: &str, heading: &str) {
    if marked() {
        println!("<!-- bench: {mark} -->\n");
    } else {
        println!("{heading}\n");
    }
}

/// The head of a table whose first column is text.
pub fn head(first: &str, heads: &[String]) {
    println!("| {first} | {} |", heads.join(" | "));
    println!("|---|{}", "--:|".repeat(heads.len()));
}

pub fn thousands(x: u64) -> String {
    let digits = x.to_string();
    let mut text = String::new();
    for (i, digit) in digits.chars().enumerate() {
        if i > 0 && (digits.len() - i) % 3 == 0 {
            text.push(',');
        }
        text.push(digit);
    }
    text
}

fn ratio(one: u64, other: u64) -> f64 {
    one as f64 / other.max(1) as f64
}

pub fn cell(one: u64, other: u64, digits: usize) -> String {
    format!(" {} / {} = {:.digits$} |", thousands(one), thousands(other), ratio(one, other))
}

struct Pair {
    call: String,
    matrix: String,
    library: u64,
    plain: u64,
}

/// All pairs of times, of the library and of plain Rust.
#[derive(Default)]
pub struct Summary(Vec<Pair>);

impl Summary {
    pub fn add(&mut self, call: &str, matrix: &str, library: u64, plain: u64) {
        self.0.push(Pair { call: call.to_string(), matrix: matrix.to_string(), library, plain });
    }

    /// How many pairs there are above some ratios, and which.
    pub fn print(mut self) {
        if self.0.is_empty() {
            return;
        }
        let ratio = |pair: &Pair| ratio(pair.library, pair.plain);
        self.0.sort_by(|one, other| ratio(other).total_cmp(&ratio(one)));
        let above = |limit: f64| self.0.iter().filter(|pair| ratio(pair) > limit).count();
        let (count, highest, median) = (self.0.len(), ratio(&self.0[0]), ratio(&self.0[self.0.len() / 2]));
        part("pairs", "All pairs of the tables above but those of packets:");
        head("pairs", &["median", "above 1.5", "above 1.25", "highest"].map(str::to_string));
        println!("| {count} | {median:.2} | {} | {} | {highest:.2} |\n", above(1.5), above(1.25));
        part("above", "Those above 1.25:");
        println!("| call | matrix | library / plain Rust |\n|---|---|--:|");
        for pair in self.0.iter().filter(|pair| ratio(pair) > 1.25) {
            println!("| {} | {} |{}", pair.call, pair.matrix, cell(pair.library, pair.plain, 2));
        }
        println!();
    }
}
