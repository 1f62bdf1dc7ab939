//! What both programs share: the text, its splits, the words and the part of a word, and how times are written.
use std::io::Read;
use std::time::Instant;

pub const PARTS: usize = 8;
const SPLITS: usize = 256;

/// A document's number and text.
pub type Document = (u32, String);

/// The lines of the input as documents, in splits of about as many documents each.
pub fn read_splits() -> Vec<Vec<Document>> {
    let mut bytes = Vec::new();
    std::io::stdin().read_to_end(&mut bytes).expect("input");
    let text = String::from_utf8(bytes).expect("text");
    let lines: Vec<&str> = text.lines().collect();
    let mut left = lines.len();
    let mut lines = lines.into_iter();
    let mut number = 0;
    (0..SPLITS)
        .map(|split| {
            let mut documents = Vec::new();
            for line in lines.by_ref().take(left / (SPLITS - split)) {
                documents.push((number, line.to_string()));
                number += 1;
            }
            left -= documents.len();
            documents
        })
        .collect()
}

/// The part of a word.
pub fn part_of(word: &str) -> usize {
    let hash = word.bytes().fold(0u32, |hash, byte| hash.wrapping_mul(31).wrapping_add(byte.into()));
    hash as usize % PARTS
}

/// The longest runs of letters of a text that is in lower case.
pub fn words(text: &str) -> impl Iterator<Item = &str> {
    text.split(|c: char| !c.is_ascii_alphabetic()).filter(|word| !word.is_empty())
}

/// Maps, merges and finishes, and writes the counts, and the microseconds of the three where a word was given.
pub fn run<M, P>(
    map_split: impl Fn(&[Document]) -> M,
    merge: impl Fn(&[M], usize) -> P,
    finish: impl Fn(&[P]) -> Vec<(String, Vec<u32>)>,
) {
    let splits = read_splits();
    let documents: usize = splits.iter().map(Vec::len).sum();
    let start = Instant::now();
    let mapped: Vec<M> = splits.iter().map(|split| map_split(split)).collect();
    let map_time = start.elapsed();
    let start = Instant::now();
    let merged: Vec<P> = (0..PARTS).map(|part| merge(&mapped, part)).collect();
    let merge_time = start.elapsed();
    let start = Instant::now();
    let index = finish(&merged);
    let finish_time = start.elapsed();
    let pairs: usize = index.iter().map(|entry| entry.1.len()).sum();
    println!("{documents} documents, {pairs} pairs, {} words", index.len());
    if std::env::args().nth(1).is_some() {
        for time in [map_time, merge_time, finish_time] {
            println!("{}", time.as_micros());
        }
    }
}
