//! The page of a matrix: what is known of it, section by section.

use crate::bars;
use crate::curve::{self, Measured, Of, Over};
use crate::dots;
use crate::frame::on_page;
use crate::html::{beside, facts, figure, list, numbers, page, paragraph, section};
use crate::inspect::{met, ranges, tally, weights, Findings};
use crate::matrix::Matrix;
use crate::measure::Plan;
use crate::plot;
use crate::stopping::{Sets, SEARCHES};
use crate::svg::escaped;
use crate::tanner;
use parity::SET_SIZE_MOST;

/// So many splits are named.
const SPLITS: usize = 60;

pub struct Page {
    pub name: String,
    pub command: String,
    pub found: Findings,
    /// The pairs that were split, in order.
    pub splits: Vec<(usize, usize)>,
    /// The stopping sets that are shown, and whether they were searched, since the library lists none.
    pub shown: Vec<Vec<usize>>,
    pub is_searched: bool,
    pub measured: Measured,
    pub plan: Plan,
}

/// A share with three digits that count, a small one by its power of ten.
fn digits(share: f64) -> String {
    match share {
        0.0 => "0".to_string(),
        share if share < 0.001 => format!("{share:.2e}"),
        share => format!("{share:.*}", (2.0 - share.log10().floor()) as usize),
    }
}

/// Rising bits in a row.
fn bits(set: &[usize]) -> String {
    set.iter().map(usize::to_string).collect::<Vec<_>>().join(" ")
}

impl Page {
    pub fn html(&self) -> String {
        let sections = [
            self.sizes(),
            self.weights(),
            self.cycles(),
            self.dots(),
            self.stopping(),
            self.graph(),
            self.curves(),
            self.grounds(),
        ];
        page(&self.name, &self.measured.sizes(), &sections)
    }

    fn sizes(&self) -> String {
        let Findings { given, rank, carried, message_bits, remarks, .. } = &self.found;
        let (n, message, rate) = (given.n, given.n - rank, self.found.rate());
        let table = facts(&[
            ("sent bits n", n.to_string()),
            ("given checks m", given.m.to_string()),
            ("carried splits", carried.to_string()),
            ("ones", given.ones().to_string()),
            ("rank", rank.to_string()),
            ("rate", format!("{rate:.4} ({message} of {n})")),
            ("message bits", ranges(message_bits)),
        ]);
        let carried = match carried {
            0 => String::new(),
            _ => paragraph(
                "The file carries splits. The given matrix, here and below, is that of its checks before them, which \
                 has the same code; orthogonalising goes on from them.",
            ),
        };
        section("Sizes", &[table, carried, list(remarks)])
    }

    fn weights(&self) -> String {
        let (checks, bits) = weights(&self.found.given);
        let part = |what: &str, weights: &[usize]| {
            let told = format!("{what}s: {}", tally(weights));
            figure(&told, &bars::draw(&met(weights), what, &told))
        };
        section("Weights", &[beside("beside", &[part("check", &checks), part("bit", &bits)])])
    }

    fn cycles(&self) -> String {
        let Findings { given, extended, carried, cycles, cycles_left, .. } = &self.found;
        let (after, both) = (&extended.matrix, |one: u64, other: u64| vec![one.to_string(), other.to_string()]);
        let rows = [
            ("four-cycles".to_string(), both(*cycles, *cycles_left)),
            ("ones".to_string(), both(given.ones(), after.ones())),
            ("bits".to_string(), both(given.n as u64, (after.n + after.k) as u64)),
            ("checks".to_string(), both(given.m as u64, (after.m + after.k) as u64)),
        ];
        let table = numbers("numbers", "", &["", "given", "orthogonalised"], &rows);
        let made = facts(&[
            ("carried splits", carried.to_string()),
            ("splits made", extended.splits.to_string()),
            ("sum", extended.sum.to_string()),
            ("added bits k", after.k.to_string()),
        ]);
        let end = match extended.complete {
            true => "until no pair shares two checks.",
            false => "until no pair shares two checks; here k came to 392, the most, before that, and cycles are left.",
        };
        let text = paragraph(&format!(
            "A split puts an added bit in the place of two bits that share s checks, two or more, and adds s(s-1)/2 to \
             the sum. Orthogonalising splits, the largest share first, {end} The code of the sent bits stays, and \
             peeling recovers no less."
        ));
        section("Four-cycles", &[beside("beside", &[table, made]), text, self.pairs()])
    }

    /// The pairs that were split.
    fn pairs(&self) -> String {
        let Findings { given, carried, .. } = &self.found;
        if self.splits.is_empty() {
            return String::new();
        }
        let pair =
            |(place, (low, high)): (usize, &(usize, usize))| format!("{low}\u{A0}{high}\u{2192}{}", given.n + place);
        let named: Vec<String> = self.splits.iter().enumerate().take(SPLITS).map(pair).collect();
        let more = match self.splits.len() - named.len() {
            0 => ".".to_string(),
            more => format!(", and {more} more."),
        };
        let whose = match carried {
            0 => String::new(),
            1 => ", the first of them the file's".to_string(),
            carried => format!(", the first {carried} of them the file's"),
        };
        paragraph(&format!(
            "The pairs that were split, in order, and their added bits{whose}: {}{more}",
            named.join(", ")
        ))
    }

    fn dots(&self) -> String {
        let Findings { given, extended, .. } = &self.found;
        let sizes = |matrix: &Matrix| format!("{} checks by {} bits", matrix.m + matrix.k, matrix.n + matrix.k);
        let mut parts = vec![figure(&format!("Given: {}", sizes(given)), &dots::draw(given))];
        let key = if extended.matrix.k == 0 {
            paragraph("No pair of bits shares two checks, so that orthogonalising changes nothing.")
        } else {
            parts.push(figure(&format!("Orthogonalised: {}", sizes(&extended.matrix)), &dots::draw(&extended.matrix)));
            "<p><span class='key'>\u{25CF}</span> a given check contains a sent bit \
             <span class='key of-added'>\u{25CF}</span> the check or the bit is an added one</p>\n"
                .to_string()
        };
        let text = paragraph("A row for each check, a column for each bit, both counted from 0.");
        section("The matrix as dots", &[text, beside("beside", &parts), key])
    }

    fn stopping(&self) -> String {
        let sets = &self.found.sets;
        let row = |sets: &Sets| (sets.size.to_string(), vec![sets.count.to_string(), sets.listed().trim().to_string()]);
        let rows: Vec<(String, Vec<String>)> = sets.iter().map(row).collect();
        let table = numbers("numbers sets", "Stopping sets by size", &["bits", "sets", "first of them"], &rows);
        let text = paragraph(
            "A stopping set has no check that contains exactly one of its bits: where these bits are lost, peeling with \
             the given matrix recovers none of them. What peeling leaves of any loss is the largest stopping set in it.",
        );
        let figures: Vec<String> = self.shown.iter().map(|set| self.set(set)).collect();
        let about = paragraph(&self.about_sets());
        section("Small stopping sets", &[text, table, about, beside("beside sets", &figures)])
    }

    /// A set as marked columns, and how many checks contain bits of it.
    fn set(&self, set: &[usize]) -> String {
        let given = &self.found.given;
        let is_met = |row: &Vec<usize>| row.iter().any(|bit| set.contains(bit));
        let met = given.rows().into_iter().filter(is_met).count();
        let checks = match met {
            0 => "in no check".to_string(),
            1 => "in 1 check".to_string(),
            met => format!("in {met} checks"),
        };
        let (bit, list) = (if set.len() == 1 { "bit" } else { "bits" }, bits(set));
        figure(&format!("{bit} {list}: {checks}"), &dots::draw_marked(given, set))
    }

    /// Which sets are shown, and what was left out.
    fn about_sets(&self) -> String {
        let not_listed = format!("Sets of more than {SET_SIZE_MOST} bits are not listed.");
        match (self.is_searched, self.shown.first()) {
            (false, _) => {
                let count: usize = self.found.sets.iter().map(|sets| sets.count).sum();
                match self.shown.len() {
                    shown if shown < count => format!("{not_listed} The first {shown} of these {count} are shown."),
                    _ => format!("{not_listed} All that are listed are shown."),
                }
            }
            (true, None) => "There is no stopping set at all: peeling recovers every loss.".to_string(),
            (true, Some(set)) => format!(
                "No set has {SET_SIZE_MOST} bits or fewer: peeling recovers every loss of so many. {not_listed} The \
                 smallest that {SEARCHES} searches by peeling found have {} bits; there may be smaller ones, and \
                 others of that size. Shown here: {}.",
                set.len(),
                self.shown.len()
            ),
        }
    }

    fn graph(&self) -> String {
        let given = &self.found.given;
        let body = if given.n <= tanner::BITS_MOST {
            figure("A circle for each bit, a square for each check", &tanner::draw(given))
        } else {
            paragraph(&format!("Left out: it is drawn of up to {} bits, and there are {}.", tanner::BITS_MOST, given.n))
        };
        section("Tanner graph of the given matrix", &[body])
    }

    fn curves(&self) -> String {
        let all = std::slice::from_ref(&self.measured);
        let picture = |of: Of, front: &'static str| {
            plot::draw_on(&on_page(front), &curve::picture(Over::Erasures, all, self.plan, &[of]))
        };
        let pictures = [
            figure("Bits left", &picture(Of::Bits, "bits-")),
            figure("Words not wholly recovered", &picture(Of::Words, "words-")),
        ];
        let tables = [self.shares("Share of bits left", Of::Bits), self.shares("Share of words", Of::Words)];
        let text = paragraph(&format!(
            "Random codewords, {}, lost bits by chance and were mended in three ways: by peeling with the given matrix, \
             by peeling with the orthogonalised one, and by all that the checks determine together. Bars are Wilson's \
             intervals of 95 %; an arrow points down where nothing was left; a point that fewer than 10 words made is \
             hollow.",
            Over::Erasures.counted(self.plan)
        ));
        section("What is left after losses", &[text, beside("beside", &pictures), beside("beside", &tables)])
    }

    /// The shares at some erasure rates.
    fn shares(&self, caption: &str, of: Of) -> String {
        let curves = self.measured.curves(of);
        let row = |tenth: usize| {
            let share = |curve: &Vec<plot::Dot>| digits(curve[5 * tenth - 1].found.share);
            (format!("0.{tenth}"), curves.iter().map(share).collect())
        };
        let rows: Vec<(String, Vec<String>)> = (1..=6).map(row).collect();
        numbers("numbers", caption, &["erased", "given", "extended", "determined"], &rows)
    }

    fn grounds(&self) -> String {
        let proved = paragraph(
            "Proved: the library's calls answer what their definitions say, for every matrix and word. Rank, message \
             bits, cycle counts, splits, sum, stopping sets and what each word was mended to are their answers. What \
             a proof does not reach, first of all whether the definitions say what is meant, is in the library's \
             docs/TRUST.md.",
        );
        let counted = paragraph(
            "Not proved: the program that reads the file, counts ones and weights and draws this page. Where stopping \
             sets were searched, each is one that peeling left and that the library calls a stopping set.",
        );
        let estimated = paragraph(
            "Estimated: the curves and their tables. They are shares of random words, and another seed gives others; \
             the bars say how well they are known.",
        );
        let made = format!(
            "<p>This page was made by parity {} with</p>\n<pre><code>{}</code></pre>\n",
            env!("CARGO_PKG_VERSION"),
            escaped(&self.command)
        );
        section("What is proved, and what is estimated", &[proved, counted, estimated, made])
    }
}
