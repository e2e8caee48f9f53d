//! Jobs as little-endian words on standard input and output.

use std::io::{self, Read, Write};

/// The words of standard input; a broken last one is left out.
pub fn read() -> impl Iterator<Item = u32> {
    let mut bytes = Vec::new();
    io::stdin().read_to_end(&mut bytes).unwrap();
    let words: Vec<u32> = bytes.chunks_exact(4).map(|b| u32::from_le_bytes(b.try_into().unwrap())).collect();
    words.into_iter()
}

/// A number and so many words, if they are all there and no more than `most`.
pub fn counted(words: &mut impl Iterator<Item = u32>, most: usize) -> Option<Vec<u32>> {
    let count = words.next()? as usize;
    let taken: Vec<u32> = words.take(count.min(most)).collect();
    (taken.len() == count).then_some(taken)
}

/// The words, with their number before them.
pub fn with_count(words: &[u32]) -> impl Iterator<Item = u32> + '_ {
    [words.len() as u32].into_iter().chain(words.iter().copied())
}

pub fn bytes(words: impl IntoIterator<Item = u32>) -> Vec<u8> {
    words.into_iter().flat_map(u32::to_le_bytes).collect()
}

pub fn write(words: impl IntoIterator<Item = u32>) {
    io::stdout().write_all(&bytes(words)).unwrap();
}
