//! One call compared: the library's number, values and every lent element against the model's.

use crate::library;
use crate::model::{self, Kind, Lent, Reply};
use crate::random::Random;
use std::env;
use std::ffi::OsString;
use std::fs;
use std::sync::OnceLock;

/// The whole input of a call, so that it can be made again.
pub fn describe(lent: &Lent) -> String {
    let mut text = format!("call {}\n", lent.kind.name());
    text += &format!("n {} m {} k {} u {} v {} name {}\n", lent.n, lent.m, lent.k, lent.u, lent.v, lent.name);
    text += &format!("second n {} m {} k {}\n", lent.n2, lent.m2, lent.k2);
    for (which, words) in [("first", &lent.words), ("second", &lent.words2), ("third", &lent.words3)] {
        text += &format!("{which} matrix slice of {} words; those that are not 0, by place:\n", words.len());
        for (place, word) in words.iter().enumerate().filter(|(_, word)| **word != 0) {
            text += &format!("  {place}: {word:#018x}\n");
        }
    }
    text += &format!("record of {} words: {:08x?}\n", lent.record.len(), lent.record);
    text += &format!("bytes read, {}: {:?}\n", lent.input.len(), lent.input);
    text += &format!("bytes written, {}: {:?}\n", lent.word.len(), lent.word);
    text += &format!("t {}, slice for sets of {}, its first: {:?}\n", lent.t, lent.sets.len(), lent.sets.first());
    if lent.kind == Kind::MinSum {
        text += &format!("rounds {}; floats, {}: {:08x?}\n", lent.rounds, lent.floats.len(), lent.floats);
        let (bytes, floats) = (&lent.message_bytes, &lent.message_floats);
        text += &format!("messages: {} bytes {:?}, {} floats {:08x?}\n", bytes.len(), bytes.first(), floats.len(), floats.first());
    }
    if lent.kind == Kind::MendPackets {
        text += &format!("packets, {}: {:016x?}\n", lent.packets.len(), lent.packets);
        text += &format!("odd, {}: {:016x?}\n", lent.odd.len(), lent.odd);
    }
    text
}

fn first_difference<T: PartialEq + std::fmt::Debug>(what: &str, library: &[T], model: &[T]) -> Option<String> {
    let place = library.iter().zip(model).position(|(x, y)| x != y)?;
    Some(format!("{what}, place {place}: library {:?}, model {:?}\n", library[place], model[place]))
}

/// Keeps the input of the call that comes next in the file that OUTSIDE_LAST names, for a library that ends the program.
fn keep(lent: &Lent) {
    static LAST: OnceLock<Option<OsString>> = OnceLock::new();
    if let Some(path) = LAST.get_or_init(|| env::var_os("OUTSIDE_LAST")) {
        fs::write(path, describe(lent)).expect("the file that OUTSIDE_LAST names");
    }
}

/// Makes the call on both sides, with `values` of 0 to 6 words, and gives the model's reply and what is lent afterwards.
pub fn compare(lent: &Lent, r: &mut Random) -> Result<(Reply, Lent), String> {
    let before = (0..r.below(7)).map(|_| r.next()).collect();
    compare_with(lent, before)
}

/// The same, with these `values`.
pub fn compare_with(lent: &Lent, before: Vec<u64>) -> Result<(Reply, Lent), String> {
    let mut due = lent.clone();
    let reply = model::call(&mut due);
    let mut values = before.clone();
    let mut found = lent.clone();
    keep(lent);
    let number = library::call(&mut found, &mut values);
    let mut due_values = before.clone();
    for (place, value) in due_values.iter_mut().zip(&reply.values) {
        *place = *value;
    }
    if number == Ok(reply.number) && values == due_values && found == due {
        return Ok((reply, due));
    }
    let mut text = format!("DIFFERENCE\n{}", describe(lent));
    text += &format!("values lent: {before:x?}\n");
    text += &format!("library: number {number:?}, values afterwards {values:?}\n");
    text += &format!("model: number {}, values {:?}\n", reply.number, reply.values);
    let places = [
        first_difference("matrix word", &found.words, &due.words),
        first_difference("record word", &found.record, &due.record),
        first_difference("byte read", &found.input, &due.input),
        first_difference("byte written", &found.word, &due.word),
        first_difference("place of the sets", &found.sets, &due.sets),
        first_difference("word of the second matrix", &found.words2, &due.words2),
        first_difference("word of the third matrix", &found.words3, &due.words3),
        first_difference("float", &found.floats, &due.floats),
        first_difference("message byte", &found.message_bytes, &due.message_bytes),
        first_difference("message float", &found.message_floats, &due.message_floats),
        first_difference("word of the packets", &found.packets, &due.packets),
        first_difference("word of the odd lanes", &found.odd, &due.odd),
    ];
    text.extend(places.into_iter().flatten());
    Err(text)
}
