//! Packets, which are ours and no part of the papers: the library and plain Rust in turn on a pool of blocks, each with losses of its own, beside `memcpy` of what
//! arrived and beside the decoders of others for as many lost packets of as many.

use crate::peers::{Code, IsaL, IsaLPrepared, Peer, Received, Zfec};
use crate::print::{head, note};
use crate::{lanes, processor, Case, Random, RUNS, RUN_LENGTH};
use parity::{ffi, VALUES_MOST};
use std::hint::black_box;

/// How many blocks there are in turn.
const POOL: usize = 64;
const LENGTHS: [usize; 3] = [16, 128, 1024];

/// Packets of so many words, and which are lost.
#[derive(Clone, PartialEq)]
struct Block {
    lost: Vec<u8>,
    packets: Vec<u64>,
    odd: Vec<u64>,
}

type Mend = fn(&Case, &mut Block, &mut [u64]) -> u32;

fn in_library(case: &Case, block: &mut Block, values: &mut [u64]) -> u32 {
    // Every pointer and length is that of a live vector or array, and no two overlap.
    unsafe {
        ffi::parity_mend_packets(
            case.words.as_ptr(),
            case.words.len(),
            case.n,
            case.m,
            case.k,
            block.lost.as_mut_ptr(),
            block.lost.len(),
            block.packets.as_mut_ptr(),
            block.packets.len(),
            block.odd.as_mut_ptr(),
            block.odd.len(),
            values.as_mut_ptr(),
            values.len(),
        )
    }
}

fn in_plain(case: &Case, block: &mut Block, values: &mut [u64]) -> u32 {
    lanes::mend_packets(
        &case.words,
        case.n,
        case.m,
        case.k,
        &mut block.lost,
        &mut block.packets,
        &mut block.odd,
        values,
    )
}

// The pool

/// Which bits are parity bits: their columns are no sums of columns of lower bits.
fn parity_bits(case: &Case) -> Vec<bool> {
    let mut reduced: Vec<u128> = Vec::new();
    let column =
        |b: usize| (0..case.m).fold(0, |all, c| all | ((case.words[8 * c + b / 64] >> (b % 64) & 1) as u128) << c);
    (0..case.n)
        .map(|b| {
            let rest = reduced.iter().fold(column(b), |rest, other| rest.min(rest ^ other));
            if rest != 0 {
                reduced.push(rest);
            }
            rest != 0
        })
        .collect()
}

fn word(r: &mut Random) -> u64 {
    (0..3).fold(0, |word, _| word << 22 ^ r.below(1 << 31) as u64)
}

/// So many of a number of packets.
fn losses(r: &mut Random, packets: usize, number: usize) -> Vec<u8> {
    let mut lost = vec![0; packets];
    for _ in 0..number {
        let mut b = r.below(packets);
        while lost[b] == 1 {
            b = r.below(packets);
        }
        lost[b] = 1;
    }
    lost
}

/// A block of codewords: the message packets are random, and mending writes the others.
fn encoded(r: &mut Random, case: &Case, parity: &[bool], length: usize) -> Block {
    let lost = parity.iter().map(|&parity| parity as u8).collect();
    let packets = (0..case.n * length).map(|_| word(r)).collect();
    let mut block = Block { lost, packets, odd: vec![0; length] };
    let number = in_plain(case, &mut block, &mut []);
    assert!(number == 0 && !block.lost.contains(&1), "a block is encoded");
    block
}

/// Whether the packets that are there are those of the other block.
fn arrived(block: &Block, sent: &Block) -> bool {
    let length = block.odd.len();
    let same = |b: usize| (b * length..(b + 1) * length).all(|i| block.packets[i] == sent.packets[i]);
    (0..block.lost.len()).all(|b| block.lost[b] == 1 || same(b))
}

/// Blocks of codewords, so many packets of each lost and overwritten. Both sides mend each block alike.
fn pool(r: &mut Random, case: &Case, length: usize, number: usize) -> Result<Vec<Block>, String> {
    let parity = parity_bits(case);
    let mut blocks = Vec::new();
    for _ in 0..POOL {
        let sent = encoded(r, case, &parity, length);
        let mut block = sent.clone();
        block.lost = losses(r, case.n, number);
        for b in (0..case.n).filter(|&b| block.lost[b] == 1) {
            block.packets[b * length..(b + 1) * length].fill_with(|| word(r));
        }
        let (mut found, mut values) = (block.clone(), [0; VALUES_MOST]);
        let (mut due, mut due_values) = (block.clone(), [0; VALUES_MOST]);
        let numbers = (in_library(case, &mut found, &mut values), in_plain(case, &mut due, &mut due_values));
        if numbers != (0, 0) || found != due || values != due_values || values[4] != 0 || !arrived(&found, &sent) {
            return Err(format!("packets of {}, L {length}: {numbers:?}, {values:?} and {due_values:?}", case.name));
        }
        blocks.push(block);
    }
    Ok(blocks)
}

// The time

/// Nanoseconds of one block: so many times over the pool. The bytes for losses are put back before each call, inside the time.
fn timed(run: Mend, case: &Case, blocks: &mut [Block], lost: &[Vec<u8>], times: usize) -> f64 {
    let mut values = [0; VALUES_MOST];
    let start = processor();
    for _ in 0..times {
        for (block, lost) in blocks.iter_mut().zip(lost) {
            block.lost.copy_from_slice(lost);
            black_box(run(case, black_box(block), &mut values));
        }
    }
    (processor() - start) as f64 / (times * blocks.len()) as f64
}

/// Nanoseconds of copying so many words of each block.
fn copied(blocks: &[Block], words: usize, to: &mut [u64], times: usize) -> f64 {
    let start = processor();
    for _ in 0..times {
        for block in blocks {
            to[..words].copy_from_slice(&black_box(block).packets[..words]);
            black_box(&mut *to);
        }
    }
    (processor() - start) as f64 / (times * blocks.len()) as f64
}

/// The best nanoseconds of one block: the library, plain Rust, and `memcpy` of what arrived.
fn measure(case: &Case, blocks: &mut [Block], number: usize) -> [f64; 3] {
    let lost: Vec<Vec<u8>> = blocks.iter().map(|block| block.lost.clone()).collect();
    let words = (case.n - number) * blocks[0].odd.len();
    let mut to = vec![0; words];
    let once = timed(in_plain, case, blocks, &lost, 1) * POOL as f64;
    let times = (RUN_LENGTH as f64 / once).ceil() as usize;
    let mut best = [f64::MAX; 3];
    for _ in 0..RUNS {
        best[0] = best[0].min(timed(in_library, case, blocks, &lost, times));
        best[1] = best[1].min(timed(in_plain, case, blocks, &lost, times));
        best[2] = best[2].min(copied(blocks, words, &mut to, times));
    }
    best
}

// Others

/// The bytes of a block and its losses.
struct Sent {
    bytes: Vec<u8>,
    lost: Vec<bool>,
}

/// A pool of this peer's blocks: it encodes them by mending them without parity packets, and must mend each.
fn peer_pool(
    r: &mut Random,
    peer: &mut dyn Peer,
    code: Code,
    length: usize,
    number: usize,
) -> Result<Vec<Sent>, String> {
    let mut blocks = Vec::new();
    for _ in 0..POOL {
        let mut bytes: Vec<u8> = (0..code.packets * length / 8).flat_map(|_| word(r).to_le_bytes()).collect();
        let parity: Vec<bool> = (0..code.packets).map(|b| b >= code.message).collect();
        peer.mend(&mut Received { bytes: &mut bytes, length, lost: &parity });
        let lost: Vec<bool> = losses(r, code.packets, number).iter().map(|&byte| byte == 1).collect();
        let sent = bytes.clone();
        for b in (0..code.packets).filter(|&b| lost[b]) {
            bytes[b * length..(b + 1) * length].fill(0xAA);
        }
        peer.mend(&mut Received { bytes: &mut bytes, length, lost: &lost });
        if bytes != sent {
            return Err(format!("{} recovers other packets", peer.name()));
        }
        blocks.push(Sent { bytes, lost });
    }
    Ok(blocks)
}

/// The best nanoseconds of one block of the pool.
fn peer_time(peer: &mut dyn Peer, blocks: &mut [Sent], length: usize) -> f64 {
    let mut best = f64::MAX;
    for _ in 0..RUNS / 5 {
        let start = processor();
        for block in blocks.iter_mut() {
            peer.mend(black_box(&mut Received { bytes: &mut block.bytes, length, lost: &block.lost }));
        }
        best = best.min((processor() - start) as f64 / blocks.len() as f64);
    }
    best
}

/// The times of ISA-L, of the same with its tables at hand, and of zfec; `None` where it is not installed.
fn others(r: &mut Random, code: Code, length: usize, number: usize) -> Result<[Option<f64>; 3], String> {
    let mut times = [None; 3];
    if let Ok(mut peer) = IsaL::new(code) {
        let mut blocks = peer_pool(r, &mut peer, code, length, number)?;
        times[0] = Some(peer_time(&mut peer, &mut blocks, length));
        let mut prepared = Vec::new();
        for block in &mut blocks {
            prepared.push(peer.prepare(&Received { bytes: &mut block.bytes, length, lost: &block.lost }));
        }
        times[1] = Some(peer_time(&mut IsaLPrepared::new(peer, prepared), &mut blocks, length));
    }
    if let Ok(mut peer) = Zfec::new(code) {
        let mut blocks = peer_pool(r, &mut peer, code, length, number)?;
        times[2] = Some(peer_time(&mut peer, &mut blocks, length));
    }
    Ok(times)
}

// The table

/// A random 58 x 100 matrix of column weight 3 and row weight 5 or 6, drawn again until no check has a bit twice: GNU Radio's of this size is not in this repository.
pub fn random_58_100(r: &mut Random) -> Case {
    loop {
        let mut ends: Vec<usize> = (0..300).map(|i| i % 58).collect();
        for i in (1..300).rev() {
            ends.swap(i, r.below(i + 1));
        }
        if ends.chunks(3).all(|three| three[0] != three[1] && three[0] != three[2] && three[1] != three[2]) {
            let checks: Vec<Vec<usize>> =
                (0..58).map(|c| (0..300).filter(|&i| ends[i] == c).map(|i| i / 3).collect()).collect();
            return Case::given("random 58 x 100", 100, &checks);
        }
    }
}

fn row(r: &mut Random, case: &Case, length: usize, number: usize) -> Result<(), String> {
    let mut blocks = pool(r, case, length, number)?;
    let [library, plain, copy] = measure(case, &mut blocks, number);
    drop(blocks);
    let message = parity_bits(case).iter().filter(|&&parity| !parity).count();
    let times = others(r, Code { packets: case.n, message }, 8 * length, number)?;
    let bytes = (8 * (case.n - number) * length) as f64;
    let mut line = format!("| {}, {number} of {} lost | {length} | {:.1} |", case.name, case.n, library / 1000.0);
    line += &format!(" {:.2} / {:.2} = {:.2} | {:.1} |", bytes / library, bytes / plain, library / plain, bytes / copy);
    for time in times {
        line += &time.map_or(" |".to_string(), |time| format!(" {:.2} |", bytes / time));
    }
    println!("{line}");
    Ok(())
}

/// The rows for case L, Hamming 31 and the sparse matrix, and for one of GNU Radio's size.
pub fn run(r: &mut Random, given: &[Case]) -> Result<(), String> {
    note(&format!("GB/s of the packets that arrived, the best of {RUNS} runs over {POOL} blocks with losses of their own; acceptance and planning are part of each call."));
    let code = Code { packets: 23, message: 12 };
    for (name, missing) in [("ISA-L", IsaL::new(code).err()), ("zfec", Zfec::new(code).err())] {
        if let Some(why) = missing {
            println!("{name} is left out: {why}.\n");
        }
    }
    let heads = [
        "L",
        "library, microseconds",
        "library / plain Rust, ratio of times",
        "memcpy",
        "ISA-L",
        "ISA-L, tables at hand",
        "zfec",
    ];
    head("matrix", &heads.map(str::to_string));
    let (l, hamming, sparse) = (&given[1], &given[2], &given[3]);
    for (case, number) in [(sparse, 12), (sparse, 24), (sparse, 36), (hamming, 2), (l, 5)] {
        for length in LENGTHS {
            row(r, case, length, number)?;
        }
    }
    let random = random_58_100(r);
    row(r, &random, 128, 45)?;
    println!();
    Ok(())
}
