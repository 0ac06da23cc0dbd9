//! Demand 3's facts on random matrices and random lists of splits, orthogonalisings and takings back: by trying all words
//! at small sizes, by rank at full size. Half of the small lists start at the load of a third-form record (M-107): the
//! facts are then about its checks before the splits, and what stands after the list is written and loaded back.

use crate::calls::erase;
use crate::cases;
use crate::compare::{compare, describe};
use crate::elimination;
use crate::generate;
use crate::model::{self, losses, twos, Kind, Matrix};
use crate::random::Random;
use parity::{Peeled, Refusal, TakenBack};

/// What stood before a call that made splits, and whether it was an orthogonalise.
struct Mark {
    words: Vec<u64>,
    k: usize,
    sum: u64,
    orthogonalise: bool,
}

/// What was counted over all lists.
#[derive(Default)]
struct Tally {
    facts: usize,
    lists: usize,
    /// Takings back that were made, those among them of splits inside an orthogonalise, and those refused 15.
    back: usize,
    inside: usize,
    nothing: usize,
    /// Takings back after which what stood before a split or an orthogonalise stands again.
    again: usize,
    /// Lists that start at a load, the splits loaded, and those with splits after the list.
    loads: usize,
    loaded: usize,
    written: usize,
}

/// The given matrix, the extended one as it stands after the list, and what the list's calls carried.
struct Run {
    given: Matrix,
    given_words: Vec<u64>,
    words: Vec<u64>,
    k: usize,
    sum: u64,
    /// Whether the last call was an orthogonalise, and if so whether it finished.
    last: Option<bool>,
    list: Vec<String>,
    /// A mark for each call whose splits are not all taken back, the newest last.
    marks: Vec<Mark>,
    tally: Tally,
}

impl Run {
    fn new(given: Matrix) -> Run {
        let words = given.pack();
        let tally = Tally { lists: 1, ..Tally::default() };
        let (list, marks) = (Vec::new(), Vec::new());
        Run { given, given_words: words.clone(), words, k: 0, sum: 0, last: None, list, marks, tally }
    }

    /// What stands after the load of the given matrix with some splits: the carried sum is theirs.
    fn load(given: Matrix, splits: &[(usize, usize)]) -> Result<Run, String> {
        let mut run = Run::new(given);
        let mut matrix = run.given.clone();
        for &(u, v) in splits {
            run.marks.push(Mark { words: matrix.pack(), k: matrix.k, sum: run.sum, orthogonalise: false });
            run.sum += (0..matrix.share(u, v)).sum::<u64>();
            matrix.split(u, v);
        }
        run.list.push(format!("load {splits:?}"));
        (run.tally.loads, run.tally.loaded) = (1, splits.len());
        match parity::load(&model::record_with(&run.given, splits), &mut run.words) {
            Ok(loaded) => run.k = loaded.k,
            Err(refused) => return run.fail(&format!("loading the record with its splits: {refused}")),
        }
        let same = run.k == splits.len() && run.words == matrix.pack();
        run.fact(same, || "loading does not perform the splits".to_string())?;
        Ok(run)
    }

    /// What stands is written, which is not refused, and loads to the same words and k; its checks are the given ones.
    fn there_and_back(&mut self) -> Result<(), String> {
        let (n, m, k) = (self.given.n, self.given.m, self.k);
        let mut record = vec![0; 14_914];
        let used = match parity::write(&self.words, n, m, k, &mut record) {
            Ok(used) => used,
            Err(refused) => return self.fail(&format!("writing what stands: {refused}")),
        };
        let mut words = vec![7; 4096];
        let again = parity::load(&record[..used], &mut words).map(|loaded| (loaded.n, loaded.m, loaded.k));
        let same = again == Ok((n, m, k)) && words == self.words;
        self.fact(same, || "what was written loads to another matrix".to_string())?;
        record.truncate(used);
        record.retain(|word| word >> 28 != 6);
        let given = parity::load(&record, &mut words).map(|loaded| loaded.k);
        let same = given == Ok(0) && words == self.given_words;
        self.fact(same, || "the checks that are written are not those before the splits".to_string())?;
        self.tally.written += (k > 0) as usize;
        Ok(())
    }

    fn fail<T>(&self, what: &str) -> Result<T, String> {
        let mut text = format!("DEMAND 3 FAILS: {what}\nThe given matrix:\n");
        text += &describe(&cases::lend(Kind::Count, &self.given));
        text += &format!("The list of calls: {:?}\nafterwards k {} and carried sum {}\n", self.list, self.k, self.sum);
        Err(text)
    }

    fn fact(&mut self, holds: bool, what: impl FnOnce() -> String) -> Result<(), String> {
        self.tally.facts += 1;
        if holds {
            Ok(())
        } else {
            self.fail(&what())
        }
    }

    fn mark(&self, orthogonalise: bool) -> Mark {
        Mark { words: self.words.clone(), k: self.k, sum: self.sum, orthogonalise }
    }

    fn split(&mut self, u: usize, v: usize) {
        self.list.push(format!("split {u} {v}"));
        self.last = None;
        let mark = self.mark(false);
        if let Ok(made) = parity::split(&mut self.words, self.given.n, self.given.m, self.k, u, v) {
            self.k = made.k;
            self.sum += made.share * (made.share - 1) / 2;
            self.marks.push(mark);
        }
    }

    fn orthogonalise(&mut self) -> Result<(), String> {
        self.list.push("orthogonalise".to_string());
        let mark = self.mark(true);
        match parity::orthogonalise(&mut self.words, self.given.n, self.given.m, self.k) {
            Ok(done) => {
                self.k = done.k;
                self.sum += done.sum;
                self.last = Some(true);
            }
            Err(Refusal::FullAfter { sum, k, .. }) => {
                self.k = k;
                self.sum += sum;
                self.last = Some(false);
            }
            Err(refused) => return self.fail(&format!("orthogonalising the matrix that stands: {refused}")),
        }
        if self.k > mark.k {
            self.marks.push(mark);
        }
        Ok(())
    }

    /// It is made if k is above 0, takes no more off the carried sum than is carried, and after as many of them as a call
    /// made splits, the words, k and the carried sum are those of before the call.
    fn take_back(&mut self) -> Result<(), String> {
        self.list.push("take_back".to_string());
        self.last = None;
        let (k, carried) = (self.k, self.sum);
        match parity::take_back(&mut self.words, self.given.n, self.given.m, k) {
            Err(Refusal::NothingToTakeBack) => {
                self.tally.nothing += 1;
                self.fact(k == 0, || format!("nothing to take back with k = {k}"))
            }
            Err(refused) => self.fail(&format!("taking back with k = {k}: {refused}")),
            Ok(TakenBack { share, k: next }) => {
                self.tally.back += 1;
                self.fact(next + 1 == k, || format!("taking back with k = {k} answers k = {next}"))?;
                let off: u64 = (0..share).sum();
                self.fact(off <= carried, || format!("{off} is taken off the carried sum, which is {carried}"))?;
                self.k = next;
                self.sum -= off;
                self.stands_again()
            }
        }
    }

    /// After a taking back: whether what stood before the newest call with splits stands again, if k is that of before.
    fn stands_again(&mut self) -> Result<(), String> {
        let Some(mark) = self.marks.pop() else {
            return self.fail("more is taken back than was split");
        };
        self.tally.inside += mark.orthogonalise as usize;
        if self.k > mark.k {
            self.marks.push(mark);
            return Ok(());
        }
        self.tally.again += 1;
        let (words, sum) = (self.words == mark.words, self.sum);
        self.fact(words, || "the words are not those of before the splits that were taken back".to_string())?;
        self.fact(sum == mark.sum, || format!("the carried sum was {} before the splits taken back", mark.sum))
    }

    /// Takes everything back and then twice more: the given matrix stands, and nothing is carried.
    fn take_all_back(&mut self) -> Result<(), String> {
        for _ in 0..self.k + 2 {
            self.take_back()?;
        }
        let given = (self.k, self.sum) == (0, 0) && self.words == self.given_words;
        self.fact(given, || "all is taken back, and the given matrix with nothing carried does not stand".to_string())
    }

    /// The cycles, what orthogonalise last says, and that any other k is refused.
    fn cycles(&mut self, r: &mut Random) -> Result<(), String> {
        let (n, m, k) = (self.given.n, self.given.m, self.k);
        let (Ok(start), Ok(left)) = (parity::count(&self.given_words, n, m, 0), parity::count(&self.words, n, m, k))
        else {
            return self.fail("counting is refused");
        };
        let sum = self.sum;
        self.fact(sum + left <= start, || format!("four-cycles: {start} at the start, {left} left"))?;
        if let Some(finished) = self.last {
            self.fact(finished == (left == 0), || format!("finished is {finished} and {left} four-cycles are left"))?;
        }
        for other in [k + 1, k.wrapping_sub(1), r.below(393)] {
            if other != k {
                let refused = parity::count(&self.words, n, m, other);
                self.fact(refused.is_err(), || format!("k = {other} is accepted"))?;
            }
        }
        Ok(())
    }

    fn verify_given(&self, sent: &[u8]) -> Result<bool, String> {
        parity::verify(&self.given_words, self.given.n, self.given.m, 0, sent)
            .or_else(|refused| self.fail(&format!("verifying {sent:?} with the given matrix: {refused}")))
    }

    fn verify_extended(&self, word: &[u8]) -> Result<bool, String> {
        parity::verify(&self.words, self.given.n, self.given.m, self.k, word)
            .or_else(|refused| self.fail(&format!("verifying {word:?} with the extended matrix: {refused}")))
    }

    fn extend(&self, sent: &[u8]) -> Result<Vec<u8>, String> {
        let mut word = vec![9; self.given.n + self.k];
        match parity::extend(&self.words, self.given.n, self.given.m, self.k, sent, &mut word) {
            Ok(()) => Ok(word),
            Err(refused) => self.fail(&format!("extending {sent:?}: {refused}")),
        }
    }

    /// A codeword extended is an extended codeword that it begins.
    fn extends(&mut self, code: &[u8]) -> Result<(), String> {
        let word = self.extend(code)?;
        let yes = self.verify_extended(&word)?;
        self.fact(yes && word[..code.len()] == *code, || {
            format!("{code:?} is a codeword, its extension {word:?} is none")
        })
    }

    /// All words of the given and of the extended matrix.
    fn all_words(&mut self, extended_too: bool) -> Result<Vec<Vec<u8>>, String> {
        let n = self.given.n;
        let bits = n + self.k;
        let mut codewords = Vec::new();
        for number in 0..1u32 << n {
            let sent: Vec<u8> = (0..n).map(|b| (number >> b & 1) as u8).collect();
            let yes = self.verify_given(&sent)?;
            let due = self.given.is_codeword(&sent);
            self.fact(yes == due, || format!("verifying {sent:?} says {yes}"))?;
            if yes {
                self.extends(&sent)?;
                codewords.push(sent);
            }
        }
        if extended_too {
            let mut extended = 0;
            for number in 0..1u32 << bits {
                let word: Vec<u8> = (0..bits).map(|b| (number >> b & 1) as u8).collect();
                if self.verify_extended(&word)? {
                    extended += 1;
                    let begun = self.verify_given(&word[..n])?;
                    self.fact(begun, || format!("no codeword begins the extended codeword {word:?}"))?;
                    let same = self.extend(&word[..n])? == word;
                    self.fact(same, || format!("the extended codeword {word:?} is not its sent bits extended"))?;
                }
            }
            let all = codewords.len();
            self.fact(extended == all, || format!("{all} codewords and {extended} extended ones"))?;
        }
        Ok(codewords)
    }

    /// The code is kept: its basis is extended, and the dimensions are equal.
    fn by_rank(&mut self, r: &mut Random) -> Result<Vec<Vec<u8>>, String> {
        let n = self.given.n;
        let basis = elimination::basis(&self.given);
        for code in &basis {
            let yes = self.verify_given(code)?;
            self.fact(yes, || format!("{code:?} of the given code is refused by verifying"))?;
            self.extends(code)?;
        }
        let extended = Matrix::read(&self.words, n, self.given.m, self.k);
        let extended_basis = elimination::basis(&extended);
        let (before, after) = (basis.len(), extended_basis.len());
        self.fact(before == after, || format!("dimension {before} of the code, {after} of the extended one"))?;
        for word in &extended_basis {
            let yes = self.verify_extended(word)? && self.verify_given(&word[..n])?;
            self.fact(yes, || format!("no codeword begins the extended codeword {word:?}"))?;
        }
        Ok((0..30).map(|_| elimination::combine(&basis, n, || r.chance(500))).collect())
    }

    /// The four numbers that a peeling answers are those of the word before and after.
    fn numbers(&mut self, peeled: Peeled, before: &[u8], after: &[u8]) -> Result<(), String> {
        let Peeled { recovered_sent, recovered_added, left_sent, left_added } = peeled;
        let found = [recovered_sent, recovered_added, left_sent, left_added].map(|number| number as u64);
        let due = losses(self.given.n, before, after);
        self.fact(found == due, || format!("{before:?}, peeled {after:?}: the numbers {found:?}, due {due:?}"))
    }

    /// Both peelings of a codeword with bytes made 2: what is left is the residue, what is recovered is as it was sent.
    fn peelings(&mut self, extended: &Matrix, code: &[u8], received: &[u8]) -> Result<(), String> {
        let (n, m, k) = (self.given.n, self.given.m, self.k);
        let mut short = received.to_vec();
        let mut long = received.to_vec();
        long.resize(n + k, 2);
        let residue = extended.residue(&twos(&long));
        let longer = long.clone();
        match parity::peel(&self.given_words, n, m, 0, &mut short) {
            Ok(peeled) => self.numbers(peeled, received, &short)?,
            Err(refused) => return self.fail(&format!("peeling {received:?} with the given matrix: {refused}")),
        }
        match parity::peel(&self.words, n, m, k, &mut long) {
            Ok(peeled) => self.numbers(peeled, &longer, &long)?,
            Err(refused) => return self.fail(&format!("peeling {received:?} with the extended matrix: {refused}")),
        }
        let whole = self.extend(code)?;
        for b in 0..n + k {
            let due = if residue[b] { 2 } else { whole[b] };
            self.fact(long[b] == due, || format!("{received:?} of {code:?}: extended, bit {b} is {}", long[b]))?;
        }
        let residue = self.given.residue(&twos(received));
        for b in 0..n {
            let due = if residue[b] { 2 } else { code[b] };
            self.fact(short[b] == due, || format!("{received:?} of {code:?}: given, bit {b} is {}", short[b]))?;
            if long[b] == 2 {
                let no_less = short[b] == 2;
                self.fact(no_less, || {
                    format!("{received:?} of {code:?}: bit {b} is left by the extended matrix only")
                })?;
            }
        }
        Ok(())
    }
}

/// A number that a split may be handed: mostly of a pair that can be split, else any.
fn some_pair(r: &mut Random, matrix: &Matrix) -> (usize, usize) {
    let pairs = matrix.pairs();
    if !pairs.is_empty() && r.chance(750) {
        return r.pick(&pairs);
    }
    let end = matrix.bits() + 2;
    if r.chance(100) {
        return (r.next() as usize, r.below(end));
    }
    (r.below(end), r.below(end))
}

/// How many of 1,000 calls of a list are takings back where k is above 0; where it is 0, a quarter of that.
const BACK: [usize; 4] = [0, 300, 500, 700];

fn small(r: &mut Random, from_a_load: bool) -> Result<Tally, String> {
    let (n, m, part) = (r.between(1, 7), r.below(8), r.pick(&[150, 300, 500, 700, 900, 1000]));
    let given = generate::given(r, n, m, part);
    let mut run = if from_a_load {
        let mut extended = given.clone();
        let most = r.below(6);
        generate::split_some(r, &mut extended, most);
        let (_, splits) = extended.unsplit().expect("splits made it");
        Run::load(given, &splits)?
    } else {
        Run::new(given)
    };
    let back = r.pick(&BACK);
    for _ in 0..r.below(13) {
        // Each call of the list is compared with the model too.
        let matrix = Matrix::read(&run.words, n, m, run.k);
        let mut lent;
        if r.chance(if run.k > 0 { back } else { back / 4 }) {
            lent = cases::lend(Kind::TakeBack, &matrix);
            run.take_back()?;
        } else if r.chance(700) {
            let (u, v) = some_pair(r, &matrix);
            lent = cases::lend(Kind::Split, &matrix);
            (lent.u, lent.v) = (u, v);
            run.split(u, v);
        } else {
            lent = cases::lend(Kind::Orthogonalise, &matrix);
            run.orthogonalise()?;
        }
        let (_, after) = compare(&lent, r)?;
        if after.words != run.words {
            return run.fail("a call of the list leaves other words than the same call by itself");
        }
        run.tally.facts += 1;
    }
    if r.chance(60) {
        run.take_all_back()?;
    }
    run.there_and_back()?;
    run.cycles(r)?;
    let bits = n + run.k;
    let codewords = run.all_words(bits <= 10 || bits <= 12 && r.chance(200))?;
    let extended = Matrix::read(&run.words, n, m, run.k);
    let dimensions = (bits - elimination::rank(&extended), n - elimination::rank(&run.given));
    run.fact(dimensions.0 == dimensions.1, || format!("dimensions {dimensions:?}"))?;
    let patterns = codewords.len() << n;
    if patterns <= 256 {
        for code in &codewords {
            for number in 0..1u32 << n {
                let received: Vec<u8> = (0..n).map(|b| if number >> b & 1 == 1 { 2 } else { code[b] }).collect();
                run.peelings(&extended, code, &received)?;
            }
        }
    } else {
        for _ in 0..40 {
            let code = r.pick(&codewords);
            let mut received = code.clone();
            erase(r, &mut received, n);
            run.peelings(&extended, &code, &received)?;
        }
    }
    Ok(run.tally)
}

/// Splits of some pairs by hand.
fn split_some(r: &mut Random, run: &mut Run, number: usize) {
    for _ in 0..number {
        let matrix = Matrix::read(&run.words, run.given.n, run.given.m, run.k);
        let (u, v) = some_pair(r, &matrix);
        run.split(u, v);
    }
}

fn take_some_back(run: &mut Run, number: usize) -> Result<(), String> {
    (0..number).try_for_each(|_| run.take_back())
}

/// The ways that a list of calls on a large matrix is made.
const WAYS: usize = 8;

fn large(r: &mut Random, given: Matrix, way: usize) -> Result<Tally, String> {
    let n = given.n;
    let mut run = Run::new(given);
    split_some(r, &mut run, [0, 12, 3, 0, 25, 9, 0, 4][way]);
    match way {
        1 => {}
        2 => {
            run.orthogonalise()?;
            run.split(0, 1);
            run.split(n, n + 1);
            run.orthogonalise()?;
        }
        // Splits by hand, of which some are taken back, twice.
        5 => {
            take_some_back(&mut run, 5)?;
            split_some(r, &mut run, 20);
            take_some_back(&mut run, 7)?;
        }
        // Splits inside an orthogonalise are taken back, others are made, and it is orthogonalised again.
        6 => {
            run.orthogonalise()?;
            take_some_back(&mut run, 15)?;
            split_some(r, &mut run, 6);
            take_some_back(&mut run, 3)?;
            run.orthogonalise()?;
            take_some_back(&mut run, 10)?;
        }
        // Everything is taken back, and more; then the list goes on.
        7 => {
            run.orthogonalise()?;
            run.take_all_back()?;
            split_some(r, &mut run, 5);
            run.orthogonalise()?;
            take_some_back(&mut run, 2)?;
            run.orthogonalise()?;
        }
        _ => run.orthogonalise()?,
    }
    run.there_and_back()?;
    run.cycles(r)?;
    let codewords = run.by_rank(r)?;
    let extended = Matrix::read(&run.words, n, run.given.m, run.k);
    for code in &codewords {
        let mut received = code.clone();
        let part = r.below(800);
        received.iter_mut().for_each(|byte| {
            if r.chance(part) {
                *byte = 2
            }
        });
        run.peelings(&extended, code, &received)?;
    }
    Ok(run.tally)
}

/// The number of facts that were checked, and a note on the lists.
pub fn run() -> Result<(usize, String), String> {
    let r = &mut Random::new(4);
    let mut all = Tally::default();
    let mut add = |tally: Tally| {
        all.facts += tally.facts;
        all.lists += tally.lists;
        all.back += tally.back;
        all.inside += tally.inside;
        all.nothing += tally.nothing;
        all.again += tally.again;
        all.loads += tally.loads;
        all.loaded += tally.loaded;
        all.written += tally.written;
    };
    for _ in 0..5000 {
        add(small(r, false)?);
        add(small(r, true)?);
    }
    for way in 0..WAYS {
        let mut matrices = vec![generate::sparse(r), cases::l(23), cases::l(11)];
        for (n, m, part) in
            [(120, 60, 500), (120, 118, 500), (100, 30, 300), (120, 90, 60), (60, 30, 500), (120, 40, 1000)]
        {
            matrices.push(generate::given(r, n, m, part));
        }
        for matrix in matrices {
            add(large(r, matrix, way)?);
        }
    }
    let Tally { facts, lists, back, inside, nothing, again, loads, loaded, written } = all;
    if inside < 1000 || back - inside < 1000 || nothing < 1000 || again < 1000 || loaded < 1000 || written < 1000 {
        return Err(format!("{back} takings back, {inside} inside, {nothing} of nothing: a fault of this program"));
    }
    let note = format!(
        "{lists} lists, {loads} of them from a load, with {loaded} splits; {written} written with splits and loaded back; \
         {back} takings back made, {inside} of them of splits inside an orthogonalise, {nothing} refused 15"
    );
    Ok((facts, note))
}
