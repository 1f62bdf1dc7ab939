//! Words, runs, merge and index by sorted pairs.
mod shared;
use shared::{part_of, words, Document, PARTS};

type Pairs<'a> = Vec<(&'a str, u32)>;
type OwnPairs = Vec<(String, u32)>;

fn map_split(documents: &[Document]) -> Vec<OwnPairs> {
    let lower: Vec<Document> = documents.iter().map(|(number, text)| (*number, text.to_ascii_lowercase())).collect();
    let mut pairs = Pairs::new();
    for (number, text) in &lower {
        pairs.extend(words(text).map(|word| (word, *number)));
    }
    pairs.sort_unstable();
    pairs.dedup();
    let mut runs = vec![OwnPairs::new(); PARTS];
    for (word, number) in pairs {
        runs[part_of(word)].push((word.to_string(), number));
    }
    runs
}

/// The pairs of the lists, rising, each once.
fn merged<'a>(lists: impl Iterator<Item = &'a OwnPairs>) -> Pairs<'a> {
    let mut pairs = Pairs::new();
    for list in lists {
        pairs.extend(list.iter().map(|(word, number)| (word.as_str(), *number)));
    }
    pairs.sort_unstable();
    pairs.dedup();
    pairs
}

fn merge(mapped: &[Vec<OwnPairs>], part: usize) -> OwnPairs {
    let pairs = merged(mapped.iter().map(|runs| &runs[part]));
    pairs.into_iter().map(|(word, number)| (word.to_string(), number)).collect()
}

fn finish(parts: &[OwnPairs]) -> Vec<(String, Vec<u32>)> {
    let pairs = merged(parts.iter());
    let mut index: Vec<(String, Vec<u32>)> = Vec::new();
    for same in pairs.chunk_by(|a, b| a.0 == b.0) {
        index.push((same[0].0.to_string(), same.iter().map(|pair| pair.1).collect()));
    }
    index
}

fn main() {
    shared::run(map_split, merge, finish);
}
