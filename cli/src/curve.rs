//! `parity curve`: what is left over a channel's axis, measured on random codewords, as a picture and a table.

use crate::args::Args;
use crate::awgn::{decibels, Noisy, DECIBELS};
use crate::erasures::{Setup, RATES};
use crate::fault::Fault;
use crate::files::{self, Format};
use crate::measure::{measure, Channel, Plan, Point};
use crate::places;
use crate::plot::{self, Axis, Dot, Group, Panel, Picture};
use crate::soft::ROUNDS;
use crate::table::{self, Columns, Rows};
use parity::{Refusal, ROUNDS_MOST};
use std::path::{Path, PathBuf};
use std::thread;

const WORDS: u64 = 10_000;
const WORDS_MOST: u64 = 100_000_000;
const SEED: u64 = 1;

/// The channel that words are sent over.
#[derive(Clone, Copy, PartialEq, Eq, Debug)]
pub enum Over {
    Erasures,
    Noise { rounds: usize },
}

/// What shares are of.
#[derive(Clone, Copy, PartialEq, Eq, Debug)]
pub enum Of {
    Bits,
    Words,
}

const ERASURES: Columns =
    Columns { point: "erasure_rate", hit: "bits_erased", left: "left", ways: ["given", "extended", "determined"] };
const NOISE: Columns =
    Columns { point: "eb_n0_db", hit: "bits_flipped", left: "wrong", ways: ["given", "extended", "best"] };

impl Over {
    fn columns(self) -> &'static Columns {
        match self {
            Over::Erasures => &ERASURES,
            Over::Noise { .. } => &NOISE,
        }
    }

    /// Where a point is on the axis.
    fn place(self, point: u64) -> f64 {
        match self {
            Over::Erasures => (point + 1) as f64 / RATES as f64,
            Over::Noise { .. } => decibels(point),
        }
    }

    fn axis(self) -> Axis {
        let steps = |from: u32, to: u32, of: f64| (from..=to).map(|step| f64::from(step) / of).collect();
        let (low, name) = (0.0, if self == Over::Erasures { "erasure rate" } else { "Eb/N0 in dB" });
        match self {
            Over::Erasures => {
                Axis { name, low, high: 1.0, marks: steps(0, 10, 10.0), told: steps(1, 5, 10.0), decimals: 1 }
            }
            Over::Noise { .. } => {
                let high = f64::from(DECIBELS);
                Axis { name, low, high, marks: steps(0, DECIBELS, 1.0), told: steps(2, 6, 1.0), decimals: 0 }
            }
        }
    }

    /// What the shares are, and what is said where all are 0.
    fn what(self, of: Of) -> (&'static str, &'static str) {
        match (self, of) {
            (Over::Erasures, Of::Bits) => ("share of sent bits left", "no bit is left at any erasure rate"),
            (Over::Erasures, Of::Words) => ("share of words not wholly recovered", "every word is wholly recovered"),
            (Over::Noise { .. }, Of::Bits) => ("bit error rate", "no error was seen"),
            (Over::Noise { .. }, Of::Words) => ("word error rate", "no error was seen"),
        }
    }

    /// The words at each point, as the picture says them.
    pub fn counted(self, plan: Plan) -> String {
        let Plan { words, seed, errors } = plan;
        let (at, rounds) = match self {
            Over::Erasures => ("at each rate", String::new()),
            Over::Noise { rounds } => ("at each point", format!(", {rounds} rounds")),
        };
        let enough = errors.map_or(String::new(), |errors| format!(" or {errors} errors"));
        format!("{words} words {at}{enough}{rounds}, seed {seed}")
    }
}

/// What was counted for a matrix, and in how many ways.
pub struct Measured {
    pub name: String,
    pub setup: Setup,
    pub over: Over,
    pub ways: usize,
    pub points: Vec<Point>,
}

impl Measured {
    /// Sends words on so many threads.
    pub fn new(name: &str, setup: Setup, over: Over, plan: Plan, threads: usize) -> Result<Measured, Refusal> {
        let (points, ways) = match over {
            Over::Erasures => (measure(&setup, plan, threads)?, setup.ways()),
            Over::Noise { rounds } => {
                let noisy = Noisy::new(&setup, rounds);
                (measure(&noisy, plan, threads)?, noisy.ways())
            }
        };
        Ok(Measured { name: name.to_string(), setup, over, ways, points })
    }

    fn of_file(path: &Path, from: Option<Format>, over: Over, plan: Plan) -> Result<Measured, Fault> {
        let refused = |refusal| files::refused(path, refusal);
        let setup = Setup::new(&files::read(path, from)?).map_err(refused)?;
        if over != Over::Erasures && setup.rank == setup.given.n {
            return Err(Fault::file(path, "the code has rate 0, so that no Eb/N0 is its own"));
        }
        Measured::new(&files::title(path), setup, over, plan, threads()).map_err(refused)
    }

    /// The points, each with its place on the axis.
    fn placed(&self) -> Vec<(f64, Point)> {
        (0..).zip(&self.points).map(|(number, point)| (self.over.place(number), *point)).collect()
    }

    fn rows(&self) -> Rows<'_> {
        Rows { name: &self.name, n: self.setup.given.n, ways: self.ways, points: self.placed() }
    }

    pub fn sizes(&self) -> String {
        let Setup { given, extended, rank } = &self.setup;
        let (n, m, k, rate) = (given.n, given.m, extended.k, self.setup.rate());
        format!("{n} bits, {m} checks, rank {rank}, rate {rate:.3}, k = {k}")
    }

    fn group(&self) -> Group {
        let limit = (self.over == Over::Erasures).then(|| 1.0 - self.setup.rate());
        Group { name: self.name.clone(), sizes: self.sizes(), limit }
    }

    /// A curve for each way.
    pub fn curves(&self, of: Of) -> Vec<Vec<Dot>> {
        let dot = |way: usize, at: f64, point: &Point| {
            let (left, words) = (&point.left[way], point.words);
            let found = match of {
                Of::Bits => left.of_bits(words, self.setup.given.n),
                Of::Words => left.of_words(words),
            };
            Dot { at, found, seen: left.words }
        };
        let curve = |way: usize| self.placed().iter().map(|(at, point)| dot(way, *at, point)).collect();
        (0..self.ways).map(curve).collect()
    }
}

/// All cores are used.
pub fn threads() -> usize {
    thread::available_parallelism().map_or(1, |cores| cores.get())
}

/// The table: a line for each matrix and point.
pub fn csv(over: Over, all: &[Measured]) -> String {
    table::csv(over.columns(), &all.iter().map(Measured::rows).collect::<Vec<_>>())
}

/// The picture of what was counted, with a panel for each kind of share.
pub fn picture(over: Over, all: &[Measured], plan: Plan, kinds: &[Of]) -> Picture {
    let names: Vec<&str> = all.iter().map(|measured| measured.name.as_str()).collect();
    let subtitle = match all {
        [one] => format!("{}; {}", one.sizes(), over.counted(plan)),
        _ => over.counted(plan),
    };
    let panel = |&of: &Of| {
        let (what, nothing) = over.what(of);
        Panel { what, nothing, curves: all.iter().map(|measured| measured.curves(of)).collect() }
    };
    let ways = all.iter().map(|measured| measured.ways).max().unwrap_or_default();
    Picture {
        title: names.join(", "),
        subtitle,
        axis: over.axis(),
        ways: &over.columns().ways[..ways],
        groups: all.iter().map(Measured::group).collect(),
        panels: kinds.iter().map(panel).collect(),
    }
}

/// The outputs may be no input, and not one file; an input may be named twice.
fn apart(paths: &[PathBuf], out: &Path, table: Option<&PathBuf>) -> Result<(), Fault> {
    let mut outputs = vec![("--out", places::output(out))];
    outputs.extend(table.map(|table| ("--csv", places::output(table))));
    for path in paths {
        places::apart(&[&[("FILE", places::input(path))], &outputs[..]].concat())?;
    }
    Ok(())
}

/// The channel, and the rounds that only one of them has.
fn over(args: &mut Args) -> Result<Over, Fault> {
    let noisy = args.choice("--channel", &[("erasure", false), ("awgn", true)])?.unwrap_or(false);
    match args.number("--rounds", 1, ROUNDS_MOST)? {
        rounds if noisy => Ok(Over::Noise { rounds: rounds.unwrap_or(ROUNDS) }),
        None => Ok(Over::Erasures),
        Some(_) => Err(Fault::usage("--rounds are of min-sum, which --channel awgn needs; see --help")),
    }
}

/// What is drawn: what the options name, and without one bits over erasures, and both over noise.
fn kinds(over: Over, bits: bool, blocks: bool) -> &'static [Of] {
    match (bits, blocks) {
        (true, false) => &[Of::Bits],
        (false, true) => &[Of::Words],
        (false, false) if over == Over::Erasures => &[Of::Bits],
        _ => &[Of::Bits, Of::Words],
    }
}

/// How many words are sent, and which.
pub fn plan(args: &mut Args, words: u64) -> Result<Plan, Fault> {
    let words = args.number("--words", 1, WORDS_MOST)?.unwrap_or(words);
    let seed = args.number("--seed", 0, u64::MAX)?.unwrap_or(SEED);
    Ok(Plan { words, seed, errors: args.number("--errors", 1, WORDS_MOST)? })
}

pub fn run(mut args: Args) -> Result<u8, Fault> {
    let (from, over) = (args.format("--from")?, over(&mut args)?);
    let kinds = kinds(over, args.flag("--bits"), args.flag("--blocks"));
    let (out, table, plan) = (args.path("--out")?, args.path("--csv")?, plan(&mut args, WORDS)?);
    let paths = args.several(plot::MATRICES.len())?;
    let Some(out) = out else { return Err(Fault::usage("curve needs --out and the name of a picture; see --help")) };
    apart(&paths, &out, table.as_ref())?;
    let all = paths.iter().map(|path| Measured::of_file(path, from, over, plan)).collect::<Result<Vec<_>, _>>()?;
    files::write(&out, plot::draw(&picture(over, &all, plan, kinds)).as_bytes())?;
    if let Some(table) = table {
        files::write(&table, csv(over, &all).as_bytes())?;
    }
    Ok(crate::DONE)
}
