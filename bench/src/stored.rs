//! Files that hold texts.

use std::fs;
use std::path::Path;

/// The texts of a file: each has its length in front, in four bytes, the lowest
/// first.
pub fn texts(file: &Path) -> Vec<Vec<u8>> {
    let bytes = fs::read(file).unwrap_or_else(|error| panic!("{}: {error}", file.display()));
    let mut texts = Vec::new();
    let mut left = &bytes[..];
    while let Some((length, rest)) = left.split_first_chunk() {
        let (text, rest) = rest.split_at(u32::from_le_bytes(*length) as usize);
        texts.push(text.to_vec());
        left = rest;
    }
    texts
}
