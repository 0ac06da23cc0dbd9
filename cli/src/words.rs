//! Words and messages as lines of characters: 0, 1, and ? or `.` for an erased bit.

use crate::fault::character;

/// What a character may be besides a bit of the library (0, 1 and 2): one between bits, or none of a word.
const GAP: u8 = 3;
const OTHER: u8 = 4;

/// The byte of the library for each character.
const BYTES: [u8; 256] = {
    let mut bytes = [OTHER; 256];
    bytes[b'0' as usize] = 0;
    bytes[b'1' as usize] = 1;
    bytes[b'?' as usize] = 2;
    bytes[b'.' as usize] = 2;
    bytes[b' ' as usize] = GAP;
    bytes[b'\t' as usize] = GAP;
    bytes[b',' as usize] = GAP;
    bytes
};

/// Blanks, tabs and commas may stand between bits.
pub fn is_gap(character: u8) -> bool {
    BYTES[usize::from(character)] == GAP
}

/// What a line must be: how it is called, its number of bits where it has a fixed one, and whether bits may be erased.
#[derive(Clone, Copy)]
pub struct Form {
    name: &'static str,
    length: Option<usize>,
    erased: bool,
}

impl Form {
    /// A word of n bits, some of them erased.
    pub fn word(n: usize) -> Form {
        Form { name: "word", length: Some(n), erased: true }
    }

    /// A word of n bits, all of them known.
    pub fn whole_word(n: usize) -> Form {
        Form { erased: false, ..Form::word(n) }
    }

    pub fn message(length: usize) -> Form {
        Form { name: "message", ..Form::whole_word(length) }
    }

    /// A word of any length, some of its bits erased.
    pub fn any_word() -> Form {
        Form { length: None, ..Form::word(0) }
    }

    /// Puts the bits of a line in place of `bits`, or says why it is none of this form.
    pub fn read(&self, line: &[u8], bits: &mut Vec<u8>) -> Result<(), String> {
        bits.clear();
        let most = if self.erased { 2 } else { 1 };
        for (place, &character) in line.iter().enumerate() {
            match BYTES[usize::from(character)] {
                GAP => {}
                byte if byte <= most => bits.push(byte),
                _ => return Err(self.wrong(line, place)),
            }
        }
        match self.length {
            Some(length) if length != bits.len() => {
                Err(format!("{} bits, and a {} has {length}", bits.len(), self.name))
            }
            _ => Ok(()),
        }
    }

    fn wrong(&self, line: &[u8], place: usize) -> String {
        let known = if self.erased { "none of 0, 1, ? and ." } else { "neither 0 nor 1" };
        format!("{} at character {} is {known}", character(&line[place..]), place + 1)
    }
}

/// The characters of a line that stand for bits.
pub fn marks(line: &mut [u8]) -> impl Iterator<Item = &mut u8> {
    line.iter_mut().filter(|character| !is_gap(**character))
}

/// The character of a bit of the library.
pub fn digit(byte: u8) -> u8 {
    if byte < 2 {
        b'0' + byte
    } else {
        b'?'
    }
}

/// How many bits of a word are erased.
pub fn erased(word: &[u8]) -> usize {
    word.iter().filter(|&&byte| byte == 2).count()
}
