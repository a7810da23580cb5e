//! Files of streams: how many, and of each its length and its words, all 64-bit and little-endian.

use std::{fs, io, path::Path};

pub fn write(path: &Path, streams: &[Vec<u64>]) -> io::Result<()> {
    let mut bytes = Vec::new();
    let mut put = |word: u64| bytes.extend(word.to_le_bytes());
    put(streams.len() as u64);
    for stream in streams {
        put(stream.len() as u64);
        for word in stream {
            put(*word);
        }
    }
    fs::write(path, bytes)
}

pub fn read(path: &Path) -> io::Result<Vec<Vec<u64>>> {
    let bytes = fs::read(path)?;
    let mut words = bytes
        .chunks_exact(8)
        .map(|word| u64::from_le_bytes(word.try_into().expect("eight bytes")));
    let mut next = || words.next().expect("a whole file");
    let many = next();
    Ok((0..many)
        .map(|_| {
            let length = next();
            (0..length).map(|_| next()).collect()
        })
        .collect())
}
