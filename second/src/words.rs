//! 01 "The job's words": a job is a byte string of signed 32-bit words,
//! little-endian. A word's place counts from 0.

pub const WORD_BYTES: usize = 4;

/// The whole words of a byte string; up to three bytes over are dropped, which
/// is harmless because refusal 1 looks at the byte count itself.
pub fn words_of(bytes: &[u8]) -> Vec<i32> {
    bytes
        .chunks_exact(WORD_BYTES)
        .map(|word| i32::from_le_bytes([word[0], word[1], word[2], word[3]]))
        .collect()
}

/// The byte string of these words.
pub fn bytes_of(words: &[i32]) -> Vec<u8> {
    words.iter().flat_map(|word| word.to_le_bytes()).collect()
}

/// The number of a low unsigned and a high signed half.
pub fn joined(low: i32, high: i32) -> i64 {
    i64::from(high) * (1 << 32) + i64::from(low as u32)
}

/// A number's halves, the low one first.
pub fn halves(number: i64) -> [i32; 2] {
    [number as i32, (number >> 32) as i32]
}

/// A place and the word to put there.
pub type Change = (usize, i32);

/// These words with some changed.
pub fn changed(words: &[i32], changes: &[Change]) -> Vec<i32> {
    let mut words = words.to_vec();
    for &(place, word) in changes {
        words[place] = word;
    }
    words
}
