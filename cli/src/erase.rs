//! `parity erase`: a lossy link for lines of words.

use crate::args::Args;
use crate::fault::Fault;
use crate::lines;
use crate::random::Random;
use crate::words::{marks, Form};

/// The longest burst, and the longest gap on average.
const LONGEST: u64 = 1_000_000;

const SEED: u64 = 1;

/// Which bits are lost.
enum Losses {
    /// Each with this chance, whatever the others do.
    Apart { rate: f64 },
    /// So many in a row, with `gap` bits on average between, at least one; `left` are still to be lost.
    Bursts { burst: u64, gap: u64, left: u64 },
}

impl Losses {
    fn of(rate: Option<f64>, burst: Option<u64>, gap: Option<u64>, random: &mut Random) -> Result<Losses, Fault> {
        match (rate, burst, gap) {
            (Some(rate), None, None) => Ok(Losses::Apart { rate }),
            (None, Some(burst), Some(gap)) => Ok(Losses::bursts(burst, gap, random)),
            _ => Err(Fault::usage("erase needs --rate P, or --burst L and --gap G; see --help")),
        }
    }

    /// The link is met as it may be found at any time: inside a burst, or between two.
    fn bursts(burst: u64, gap: u64, random: &mut Random) -> Losses {
        let inside = random.chance(burst, burst + gap);
        Losses::Bursts { burst, gap, left: if inside { 1 + random.below(burst) } else { 0 } }
    }

    /// Whether the next bit is lost.
    fn next(&mut self, random: &mut Random) -> bool {
        match self {
            Losses::Apart { rate } => random.part() < *rate,
            Losses::Bursts { left: left @ 1.., .. } => {
                *left -= 1;
                true
            }
            Losses::Bursts { burst, gap, left } => {
                *left = if random.chance(1, *gap) { *burst } else { 0 };
                false
            }
        }
    }
}

pub fn run(mut args: Args) -> Result<u8, Fault> {
    let rate = args.number("--rate", 0.0, 1.0)?;
    let (burst, gap) = (args.number("--burst", 1, LONGEST)?, args.number("--gap", 1, LONGEST)?);
    let seed = args.number("--seed", 0, u64::MAX)?.unwrap_or(SEED);
    let [] = args.files([])?;
    let mut random = Random::of(&[seed]);
    let mut losses = Losses::of(rate, burst, gap, &mut random)?;
    let bad = lines::of_form(Form::any_word(), |_, line, out| {
        let start = out.len();
        out.extend_from_slice(line);
        for mark in marks(&mut out[start..]) {
            if losses.next(&mut random) && *mark != b'.' {
                *mark = b'?';
            }
        }
        Ok(())
    })?;
    Ok(bad.status(crate::DONE))
}
