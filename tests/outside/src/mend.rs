//! The program `mend` on thousands of inputs, byte by byte against the model.

use crate::calls::{damage_record, erase};
use crate::cases;
use crate::elimination;
use crate::generate;
use crate::model::{self, Form, Matrix, FORMS};
use crate::random::Random;
use std::env;
use std::io::{Read, Write};
use std::path::{Path, PathBuf};
use std::process::{Command, Stdio};
use std::sync::mpsc;
use std::thread;
use std::time::{Duration, Instant};

const INPUTS: usize = 2400;
/// The numbers that `mend` can refuse with.
const REFUSALS: [u32; 6] = [5, 9, 10, 11, 12, 14];
const LONGEST: Duration = Duration::from_secs(30);

/// Where the program is: PARITY_MEND, or target/bin/mend in the root of the repository.
pub fn program() -> Option<PathBuf> {
    let path = match env::var_os("PARITY_MEND") {
        Some(named) => PathBuf::from(named),
        None => Path::new(env!("CARGO_MANIFEST_DIR")).join("../../target/bin/mend"),
    };
    path.is_file().then_some(path)
}

/// What the program writes to its output for an input, which comes in pieces of this size.
fn output(path: &Path, input: &[u8], piece: usize, closed: bool) -> Result<Vec<u8>, String> {
    let mut child = Command::new(path)
        .stdin(Stdio::piped())
        .stdout(Stdio::piped())
        .stderr(Stdio::piped())
        .spawn()
        .map_err(|error| format!("mend does not start: {error}"))?;
    let mut stdin = child.stdin.take().unwrap();
    let mut stdout = child.stdout.take();
    let mut stderr = child.stderr.take().unwrap();
    if closed {
        stdout = None;
    }
    let input = input.to_vec();
    // A program that has read enough may close its input early.
    let writer = thread::spawn(move || {
        for part in input.chunks(piece) {
            if stdin.write_all(part).and_then(|_| stdin.flush()).is_err() {
                return;
            }
            if piece < 64 {
                thread::sleep(Duration::from_micros(200));
            }
        }
    });
    let (sender, receiver) = mpsc::channel();
    thread::spawn(move || {
        let (mut out, mut errors) = (Vec::new(), Vec::new());
        if let Some(stdout) = &mut stdout {
            let _ = stdout.read_to_end(&mut out);
        }
        let _ = stderr.read_to_end(&mut errors);
        let _ = sender.send((out, errors));
    });
    let Ok((out, errors)) = receiver.recv_timeout(LONGEST) else {
        let _ = child.kill();
        let _ = child.wait();
        return Err("mend does not end".to_string());
    };
    let status = child.wait().map_err(|error| error.to_string())?;
    let _ = writer.join();
    if !closed && status.code().is_none() {
        return Err(format!("mend ended with {status}"));
    }
    if !errors.is_empty() {
        return Err(format!("mend wrote to its standard error: {:?}", String::from_utf8_lossy(&errors)));
    }
    Ok(out)
}

fn bytes(count: u32, record: &[u32], word: &[u8]) -> Vec<u8> {
    let mut input = count.to_be_bytes().to_vec();
    record.iter().for_each(|word| input.extend(word.to_be_bytes()));
    input.extend(word);
    input
}

fn whole(matrix: &Matrix, word: &[u8]) -> Vec<u8> {
    let record = model::record(matrix, Form::First);
    bytes(record.len() as u32, &record, word)
}

/// A codeword with some bits erased.
fn received(r: &mut Random, matrix: &Matrix) -> Vec<u8> {
    let basis = elimination::basis(matrix);
    let mut word = elimination::combine(&basis, matrix.n, || r.chance(500));
    erase(r, &mut word, matrix.n);
    word
}

fn matrix(r: &mut Random, large: &[Matrix]) -> Matrix {
    match r.below(100) {
        0..=9 => r.pick(large),
        10..=19 => {
            let (n, m, part) = (r.between(13, 60), r.below(30), r.pick(&[50, 100, 200]));
            generate::given(r, n, m, part)
        }
        _ => generate::small_given(r),
    }
}

fn random_input(r: &mut Random, large: &[Matrix]) -> Vec<u8> {
    let matrix = matrix(r, large);
    let mut word = received(r, &matrix);
    let mut record = match r.pick(&FORMS) {
        Form::Third => {
            let mut extended = matrix.clone();
            let most = r.below(6);
            generate::split_some(r, &mut extended, most);
            let (base, splits) = extended.unsplit().expect("splits made it");
            model::record_with(&base, &splits)
        }
        form => model::record(&matrix, form),
    };
    let mut count = record.len() as u32;
    match r.below(20) {
        // Good inputs.
        0..=9 => {}
        10 => word = r.bits(matrix.n),
        11 => word = (0..matrix.n).map(|_| r.below(3) as u8).collect(),
        12 => word[r.below(matrix.n)] = r.pick(&[3, 48, 49, 63, 128, 255]),
        13 => {
            let to = r.pick(&[0, matrix.n - 1, matrix.n + 1, 2 * matrix.n, 512]);
            word.resize(to, 0);
        }
        14..=16 => {
            damage_record(r, &mut record, matrix.n);
            count = record.len() as u32;
        }
        17 => {
            let any = r.next() as u32;
            let less = r.below(record.len()) as u32;
            let more = count + r.between(1, 40) as u32;
            count = r.pick(&[0, less, more, more, 1 << 30, (1 << 30) + count, 1 << 31, u32::MAX, u32::MAX >> 2, any]);
        }
        18 => {
            let mut input = bytes(count, &record, &word);
            input.truncate(r.below(input.len() + 1));
            return input;
        }
        _ => {
            let mut input = bytes(count, &record, &word);
            for _ in 0..r.between(1, 3) {
                let place = r.below(input.len());
                input[place] = r.next() as u8;
            }
            return input;
        }
    }
    bytes(count, &record, &word)
}

/// Inputs with a purpose.
fn chosen(r: &mut Random) -> Vec<Vec<u8>> {
    let c = whole(&cases::c(), &[2, 2, 2, 1, 1, 1, 1]);
    let mut all =
        vec![c.clone(), Vec::new(), vec![0], vec![0; 3], vec![0; 4], vec![0; 5], vec![255; 4], vec![0, 0, 0, 1]];
    for end in 0..c.len() {
        all.push(c[..end].to_vec());
    }
    // Up to 65,536 bytes are taken.
    for length in [65_535, 65_536, 65_537, 65_600, 131_072] {
        let mut input = c.clone();
        input.resize(length, 0);
        all.push(input);
        all.push(vec![0; length]);
        all.push(vec![255; length]);
    }
    // As many record words as fit, and one more.
    for count in [16_383u32, 16_384] {
        all.push(bytes(count, &vec![0x1000_0001; 16_383], &[]));
    }
    // The longest valid input, and dense ones that have no room.
    let ones = generate::given(r, 120, 120, 1000);
    let word = received(r, &ones);
    all.push(whole(&ones, &word));
    all.push(whole(&ones, &[2; 120]));
    // C with its split: nothing is left to split, and the word is mended as by C.
    let split = model::record_with(&cases::c(), &[(0, 1)]);
    all.push(bytes(split.len() as u32, &split, &[2, 2, 2, 1, 1, 1, 1]));
    let dense = generate::given(r, 120, 120, 500);
    all.push(whole(&dense, &[0; 120]));
    all.push(whole(&dense, &[9; 7]));
    for _ in 0..4 {
        let dense = generate::given(r, 120, 120, 300);
        let word = received(r, &dense);
        all.push(whole(&dense, &word));
    }
    // No checks, no ones.
    for (n, m) in [(1, 0), (120, 0), (120, 120), (1, 120)] {
        let zero = Matrix::zero(n, m, 0);
        all.push(whole(&zero, &vec![2; n]));
        all.push(whole(&zero, &vec![1; n]));
    }
    for checks in [11, 23] {
        for _ in 0..40 {
            let word = received(r, &cases::l(checks));
            all.push(whole(&cases::l(checks), &word));
        }
    }
    all
}

/// The number that an output refuses with.
fn refusal(output: &[u8]) -> Option<u32> {
    let line = output.strip_prefix(b"REFUSED ")?;
    Some(String::from_utf8_lossy(line).trim_end().parse().expect("a number"))
}

/// The number of inputs compared, and a note on what they met and on the slowest.
pub fn run(path: &Path) -> Result<(usize, String), String> {
    let r = &mut Random::new(6);
    let large = [
        generate::sparse(r),
        generate::sparse(r),
        generate::given(r, 120, 60, 30),
        cases::l(23),
        Matrix::zero(120, 3, 0),
    ];
    let mut inputs = chosen(r);
    while inputs.len() < INPUTS {
        inputs.push(random_input(r, &large));
    }
    let mut slowest = Duration::ZERO;
    let mut answers = 0;
    let mut refusals = REFUSALS.map(|number| (number, 0));
    for (number, input) in inputs.iter().enumerate() {
        let piece = if number % 16 == 0 && input.len() < 300 { r.between(1, 7) } else { input.len().max(1) };
        let due = model::mend(input);
        let start = Instant::now();
        let found = output(path, input, piece, false);
        if piece >= input.len() {
            slowest = slowest.max(start.elapsed());
        }
        if found.as_ref() != Ok(&due) {
            let hex: String = input.iter().map(|byte| format!("{byte:02x}")).collect();
            let shown = found.map(|found| String::from_utf8_lossy(&found).into_owned());
            let due = String::from_utf8_lossy(&due).into_owned();
            return Err(format!(
                "DIFFERENCE\nmend, input of {} bytes: {hex}\nmend: {shown:?}\nmodel: {due:?}\n",
                input.len()
            ));
        }
        match refusal(&due) {
            None => answers += 1,
            Some(met) => refusals.iter_mut().filter(|(number, _)| *number == met).for_each(|(_, times)| *times += 1),
        }
    }
    let refused: Vec<String> = refusals.iter().map(|(number, times)| format!("{number}: {times}")).collect();
    let met = format!("{answers} answered, refused {}", refused.join(", "));
    if answers == 0 || refusals.iter().any(|(_, times)| *times == 0) {
        return Err(format!("the inputs of mend do not meet every reply, {met}: a fault of this program"));
    }
    // A closed output: it ends.
    for input in &inputs[..8] {
        output(path, input, input.len().max(1), true).or_else(|error| {
            if error == "mend does not end" {
                Err(format!("{error} when its output is closed, input {input:?}"))
            } else {
                Ok(Vec::new())
            }
        })?;
    }
    let note = format!("{met}; slowest {} ms", slowest.as_millis());
    Ok((inputs.len(), note))
}
