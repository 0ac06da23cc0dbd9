//! Records: words of 4 bytes, the highest byte first.

use crate::matrix::Matrix;

/// The matrix of a record of any form, or what is wrong with it.
pub fn read(bytes: &[u8]) -> Result<Matrix, String> {
    let words = bytes.chunks_exact(4);
    if !words.remainder().is_empty() {
        return Err(format!("{} bytes, and a record has 4 for each word", bytes.len()));
    }
    let words: Vec<u32> = words.map(|word| u32::from_be_bytes([word[0], word[1], word[2], word[3]])).collect();
    Matrix::load(&words).map_err(|refusal| match refusal {
        parity::Refusal::FaultyWord { place } => format!("{refusal}, which is byte {} of the file", 4 * place),
        refusal => refusal.to_string(),
    })
}

pub fn bytes(words: &[u32]) -> Vec<u8> {
    words.iter().flat_map(|word| word.to_be_bytes()).collect()
}
