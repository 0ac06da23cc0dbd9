//! Words are drawn and decoded on all cores, in chunks, each from random numbers of its own. Chunks are added in
//! their order, and what is counted does not depend on which core drew them.

use crate::interval::Count;
use crate::progress;
use parity::Refusal;
use std::collections::BTreeMap;
use std::sync::atomic::{AtomicBool, AtomicU64, Ordering};
use std::sync::{Mutex, MutexGuard, PoisonError};
use std::thread;

/// How many words a chunk has.
pub const CHUNK: u64 = 100;

/// The most ways of decoding that are counted side by side.
pub const WAYS: usize = 3;

/// How many words are drawn at each point, and the seed. With `errors` a point ends with the first chunk after which
/// every way has left so many words.
#[derive(Clone, Copy)]
pub struct Plan {
    pub words: u64,
    pub seed: u64,
    pub errors: Option<u64>,
}

/// What was counted at a point: words, bits that the channel hit, and what each way left.
#[derive(Clone, Copy, Default, PartialEq, Eq, Debug)]
pub struct Point {
    pub words: u64,
    pub hit: u64,
    pub left: [Count; WAYS],
}

impl Point {
    fn add(&mut self, other: &Point) {
        self.words += other.words;
        self.hit += other.hit;
        (0..WAYS).for_each(|way| self.left[way].add(&other.left[way]));
    }
}

/// A channel at each of its points, and decoders.
pub trait Channel: Sync {
    fn points(&self) -> u64;

    /// How many ways are counted.
    fn ways(&self) -> usize;

    /// Draws and decodes the words of a chunk.
    fn chunk(&self, seed: u64, point: u64, chunk: u64, words: u64) -> Result<Point, Refusal>;
}

/// The chunks of a point that were added, and later ones that wait for those between.
#[derive(Default)]
struct Sum {
    point: Point,
    next: u64,
    waiting: BTreeMap<u64, Point>,
    ended: bool,
}

impl Sum {
    fn take(&mut self, chunk: u64, found: Point, is_enough: impl Fn(&Point) -> bool) {
        self.waiting.insert(chunk, found);
        while let Some(found) = self.waiting.remove(&self.next).filter(|_| !self.ended) {
            self.point.add(&found);
            self.next += 1;
            self.ended = is_enough(&self.point);
        }
    }
}

fn lock(sum: &Mutex<Sum>) -> MutexGuard<'_, Sum> {
    sum.lock().unwrap_or_else(PoisonError::into_inner)
}

/// What is left to measure, and how much of it is done.
struct Work<'a, C> {
    channel: &'a C,
    plan: Plan,
    next: AtomicU64,
    done: AtomicU64,
    failed: AtomicBool,
    sums: Vec<Mutex<Sum>>,
}

impl<C: Channel> Work<'_, C> {
    fn chunks(&self) -> u64 {
        self.plan.words.div_ceil(CHUNK)
    }

    fn total(&self) -> u64 {
        self.chunks() * self.channel.points()
    }

    /// Takes chunks until none is left.
    fn share(&self) -> Result<(), Refusal> {
        while !self.failed.load(Ordering::Relaxed) {
            let number = self.next.fetch_add(1, Ordering::Relaxed);
            if number >= self.total() {
                break;
            }
            let done = self.one(number / self.chunks(), number % self.chunks());
            done.inspect_err(|_| self.failed.store(true, Ordering::Relaxed))?;
            self.done.fetch_add(1, Ordering::Relaxed);
        }
        Ok(())
    }

    fn one(&self, point: u64, chunk: u64) -> Result<(), Refusal> {
        let sum = &self.sums[point as usize];
        if !lock(sum).ended {
            let words = CHUNK.min(self.plan.words - chunk * CHUNK);
            let found = self.channel.chunk(self.plan.seed, point, chunk, words)?;
            lock(sum).take(chunk, found, |point| self.is_enough(point));
        }
        Ok(())
    }

    fn is_enough(&self, point: &Point) -> bool {
        let ways = &point.left[..self.channel.ways()];
        self.plan.errors.is_some_and(|errors| ways.iter().all(|left| left.words >= errors))
    }
}

/// Measures on so many threads; what is counted does not depend on their number.
pub fn measure<C: Channel>(channel: &C, plan: Plan, threads: usize) -> Result<Vec<Point>, Refusal> {
    let (next, done, failed) = (AtomicU64::new(0), AtomicU64::new(0), AtomicBool::new(false));
    let sums = (0..channel.points()).map(|_| Mutex::default()).collect();
    let work = Work { channel, plan, next, done, failed, sums };
    thread::scope(|scope| {
        let start = |_| thread::Builder::new().spawn_scoped(scope, || work.share()).ok();
        let workers: Vec<_> = (0..threads).map_while(start).collect();
        progress::watch(&work.done, work.total(), || workers.iter().all(|worker| worker.is_finished()));
        for worker in workers {
            worker.join().unwrap_or_else(|panic| std::panic::resume_unwind(panic))?;
        }
        // Where no thread could be started all is still to be done, and else nothing.
        work.share()
    })?;
    Ok(work.sums.iter().map(|sum| lock(sum).point).collect())
}
