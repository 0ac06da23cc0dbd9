//! M-108's solving of checks in any order, against the library's peeling: whichever check is ready is solved, in random
//! orders, by several workers in turn, and by threads.

use crate::cases;
use crate::codes;
use crate::compare::describe;
use crate::elimination;
use crate::generate;
use crate::model::{erased, Kind, Matrix};
use crate::random::Random;
use parity::Refusal;
use std::collections::VecDeque;
use std::sync::Mutex;
use std::thread;

/// At least so many words have to be solved.
const WORDS_LEAST: usize = 20_000;

/// Of so many words one is solved by threads too.
const THREADED: usize = 32;

/// A matrix as its receivers use it.
struct Code {
    matrix: Matrix,
    words: Vec<u64>,
    /// The bits of each check, and the checks of each bit.
    bits: Vec<Vec<usize>>,
    checks: Vec<Vec<usize>>,
}

impl Code {
    fn new(matrix: Matrix) -> Code {
        let bits: Vec<Vec<usize>> = (0..matrix.checks()).map(|c| matrix.ones_of(c)).collect();
        let mut checks = vec![Vec::new(); matrix.bits()];
        for (c, list) in bits.iter().enumerate() {
            list.iter().for_each(|&b| checks[b].push(c));
        }
        Code { words: matrix.pack(), matrix, bits, checks }
    }

    /// The bits of a check that are erased in a word.
    fn erased(&self, c: usize, word: &[u8]) -> Vec<usize> {
        self.bits[c].iter().copied().filter(|&b| word[b] == 2).collect()
    }
}

/// A word while it is solved: how many erased bits each check has, and the checks solved so far.
struct Receiver<'a> {
    code: &'a Code,
    word: Vec<u8>,
    erased: Vec<usize>,
    list: Vec<usize>,
}

impl Receiver<'_> {
    fn new<'a>(code: &'a Code, word: &[u8]) -> Receiver<'a> {
        let erased = (0..code.bits.len()).map(|c| code.erased(c, word).len()).collect();
        Receiver { code, word: word.to_vec(), erased, list: Vec::new() }
    }

    fn ready(&self) -> Vec<usize> {
        (0..self.erased.len()).filter(|&c| self.erased[c] == 1).collect()
    }

    /// The first check from `place` on, and then from 0 on, that is ready.
    fn next(&self, place: usize) -> Option<usize> {
        let number = self.erased.len();
        (0..number).map(|i| (place + i) % number).find(|&c| self.erased[c] == 1)
    }

    /// A solving step: the check's one erased bit gets the value that makes the check even. Gives the checks that it
    /// makes ready.
    fn solve(&mut self, c: usize) -> Vec<usize> {
        let open = self.code.erased(c, &self.word);
        assert_eq!(open.len(), 1, "a check with exactly one erased bit");
        let ones = self.code.bits[c].iter().filter(|&&b| self.word[b] == 1).count();
        self.word[open[0]] = (ones % 2) as u8;
        self.list.push(c);
        for &d in &self.code.checks[open[0]] {
            self.erased[d] -= 1;
        }
        self.code.checks[open[0]].iter().copied().filter(|&d| self.erased[d] == 1).collect()
    }
}

/// Any of the checks that are ready, each time.
fn random_order(r: &mut Random, receiver: &mut Receiver) {
    loop {
        let ready = receiver.ready();
        if ready.is_empty() {
            return;
        }
        receiver.solve(r.pick(&ready));
    }
}

/// Workers that each go over the checks from a place of their own; turns come at random, so that one may rest for long.
fn workers(r: &mut Random, receiver: &mut Receiver) {
    let number = receiver.erased.len();
    let mut places: Vec<usize> = (0..r.between(2, 8)).map(|_| r.below(number.max(1))).collect();
    loop {
        let turn = r.below(places.len());
        let Some(c) = receiver.next(places[turn]) else { return };
        receiver.solve(c);
        places[turn] = c + 1;
    }
}

/// Workers with queues: a check that becomes ready is noted by one or two of them, and is solved at its turn if it still
/// is ready.
fn queues(r: &mut Random, receiver: &mut Receiver) {
    let mut queues = vec![VecDeque::new(); r.between(2, 8)];
    let mut noted = receiver.ready();
    loop {
        for c in noted.drain(..) {
            for _ in 0..r.between(1, 2) {
                let taker = r.below(queues.len());
                queues[taker].push_back(c);
            }
        }
        let busy: Vec<usize> = (0..queues.len()).filter(|&i| !queues[i].is_empty()).collect();
        if busy.is_empty() {
            return;
        }
        let queue = &mut queues[r.pick(&busy)];
        let c = if r.chance(500) { queue.pop_front() } else { queue.pop_back() }.unwrap();
        if receiver.erased[c] == 1 {
            noted = receiver.solve(c);
        }
    }
}

/// A part in one way, and the rest in another.
fn mixed(r: &mut Random, receiver: &mut Receiver) {
    for _ in 0..r.below(erased(&receiver.word) + 1) {
        let ready = receiver.ready();
        if ready.is_empty() {
            return;
        }
        receiver.solve(ready[ready.len() - 1]);
    }
    workers(r, receiver);
}

/// Threads that each take the word, solve the next check from a place of their own, and leave it to the others.
fn threads(r: &mut Random, receiver: &mut Receiver) {
    let number = receiver.erased.len();
    let places: Vec<usize> = (0..4).map(|_| r.below(number.max(1))).collect();
    let shared = Mutex::new(receiver);
    thread::scope(|scope| {
        for mut place in places {
            let shared = &shared;
            scope.spawn(move || loop {
                let mut receiver = shared.lock().unwrap();
                let Some(c) = receiver.next(place) else { return };
                receiver.solve(c);
                drop(receiver);
                place = c + 1;
                thread::yield_now();
            });
        }
    });
}

type Way = fn(&mut Random, &mut Receiver);

const WAYS: [(&str, Way); 5] =
    [("random order", random_order), ("workers", workers), ("queues", queues), ("mixed", mixed), ("threads", threads)];

/// What the words met.
#[derive(Default)]
struct Tally {
    words: usize,
    runs: usize,
    steps: usize,
    /// Words with k above 0, and words whose runs were not all the same list.
    extended: usize,
    apart: usize,
    /// Erased bits are recovered wholly, in part, not at all.
    whole: usize,
    partly: usize,
    stuck: usize,
    threaded: usize,
}

fn fail<T>(code: &Code, received: &[u8], what: &str) -> Result<T, String> {
    let mut lent = cases::lend(Kind::Peel, &code.matrix);
    lent.word = received.to_vec();
    Err(format!("SOLVING: {what}\n{}", describe(&lent)))
}

/// Solves a word got from a codeword by erasing, in every way: each list ends in the word that the library's peeling
/// leaves, has as many steps as it recovers bits, and writes the codeword's bits.
fn held(r: &mut Random, tally: &mut Tally, code: &Code, sent: &[u8], received: &[u8]) -> Result<(), String> {
    let Matrix { n, m, k, .. } = code.matrix;
    let mut word = received.to_vec();
    let peeled = match parity::peel(&code.words, n, m, k, &mut word) {
        Ok(peeled) => peeled,
        Err(refused) => return fail(code, received, &format!("peeling: {refused}")),
    };
    let total = peeled.recovered_sent + peeled.recovered_added;
    let number = WAYS.len() - (tally.words % THREADED > 0) as usize;
    let mut lists = Vec::new();
    for (name, way) in &WAYS[..number] {
        let mut receiver = Receiver::new(code, received);
        way(r, &mut receiver);
        let left = (0..code.bits.len()).find(|&c| code.erased(c, &receiver.word).len() == 1);
        if left.is_some() {
            return fail(
                code,
                received,
                &format!("{name} ends though check {left:?} is ready: a fault of this program"),
            );
        }
        if receiver.word != word || receiver.list.len() != total {
            let (list, end) = (&receiver.list, &receiver.word);
            return fail(
                code,
                received,
                &format!("{name}, by {list:?}, ends in {end:?}; peeling in {word:?}, {peeled:?}"),
            );
        }
        if (0..word.len()).any(|b| word[b] != 2 && word[b] != sent[b]) {
            return fail(code, received, &format!("{name} writes another bit than the codeword {sent:?}"));
        }
        lists.push(receiver.list);
    }
    tally.words += 1;
    tally.runs += lists.len();
    tally.steps += total * lists.len();
    tally.extended += (k > 0) as usize;
    tally.apart += lists.iter().any(|list| *list != lists[0]) as usize;
    tally.threaded += (number == WAYS.len()) as usize;
    let left = erased(&word);
    tally.whole += (total > 0 && left == 0) as usize;
    tally.partly += (total > 0 && left > 0) as usize;
    tally.stuck += (total == 0 && left > 0) as usize;
    Ok(())
}

/// Words of one matrix: codewords, with some bits erased, among them now and then all added bits.
fn one_matrix(r: &mut Random, tally: &mut Tally, matrix: &Matrix, rounds: usize) -> Result<(), String> {
    let basis = elimination::basis(matrix);
    let code = Code::new(matrix.clone());
    for way in 0..rounds {
        let sent = elimination::combine(&basis, matrix.bits(), || r.chance(500));
        let part = r.pick(&[50, 100, 200, 300, 450, 600, 1000]);
        let mut received: Vec<u8> = sent.iter().map(|&byte| if r.chance(part) { 2 } else { byte }).collect();
        if way % 2 == 1 {
            received[matrix.n..].fill(2);
        }
        held(r, tally, &code, &sent, &received)?;
    }
    Ok(())
}

/// Words of a given matrix, and of it orthogonalised by the library.
fn both(r: &mut Random, tally: &mut Tally, given: &Matrix, rounds: usize) -> Result<(), String> {
    one_matrix(r, tally, given, rounds)?;
    let mut words = given.pack();
    let k = match parity::orthogonalise(&mut words, given.n, given.m, 0) {
        Ok(done) => done.k,
        Err(Refusal::FullAfter { k, .. }) => k,
        Err(refused) => return Err(format!("SOLVING: orthogonalise: {refused}")),
    };
    one_matrix(r, tally, &Matrix::read(&words, given.n, given.m, k), rounds)
}

/// The five house codes, as the library copies them.
fn house_codes() -> Result<Vec<Matrix>, String> {
    let mut all = Vec::new();
    for name in 0..5 {
        let mut words = vec![0; parity::WORDS];
        let code = parity::house_code(name, &mut words).map_err(|refused| format!("SOLVING: house code: {refused}"))?;
        all.push(Matrix::read(&words, code.n, code.m, 0));
    }
    Ok(all)
}

/// The number of words, and a note on what they met.
pub fn run() -> Result<(usize, String), String> {
    let r = &mut Random::new(108);
    let mut tally = Tally::default();
    for matrix in house_codes()? {
        both(r, &mut tally, &matrix, 100)?;
    }
    for code in codes::published() {
        both(r, &mut tally, &code.matrix, 50)?;
    }
    for code in codes::random_codes(r) {
        both(r, &mut tally, &code.matrix, 40)?;
    }
    for matrix in [generate::most_ones(), generate::triples(r, 120, 20, 392)] {
        one_matrix(r, &mut tally, &matrix, 20)?;
    }
    while tally.words < WORDS_LEAST {
        let matrix = generate::small(r);
        one_matrix(r, &mut tally, &matrix, 8)?;
    }
    let Tally { words, runs, steps, extended, apart, whole, partly, stuck, threaded } = tally;
    let note = format!(
        "{words} words, {extended} with k above 0, {threaded} by threads too; {runs} lists with {steps} steps, not all \
         alike for {apart} words; {whole} recovered wholly, {partly} in part, {stuck} not at all"
    );
    if [extended, apart, whole, partly, stuck, threaded].iter().any(|&number| number < 100) {
        return Err(format!("the words are too much alike, {note}: a fault of this program"));
    }
    Ok((runs, note))
}
