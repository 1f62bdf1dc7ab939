//! Words, runs, merge and index by hash maps from words to sorted postings.
mod shared;
use shared::{part_of, words, Document, PARTS};
use std::collections::HashMap;

type Postings = HashMap<String, Vec<u32>>;

fn map_split(documents: &[Document]) -> Vec<Postings> {
    let mut runs = vec![Postings::new(); PARTS];
    for (number, text) in documents {
        let lower = text.to_ascii_lowercase();
        for word in words(&lower) {
            let run = &mut runs[part_of(word)];
            match run.get_mut(word) {
                Some(numbers) => {
                    if numbers.last() != Some(number) {
                        numbers.push(*number);
                    }
                }
                None => {
                    run.insert(word.to_string(), vec![*number]);
                }
            }
        }
    }
    runs
}

fn merge(mapped: &[Vec<Postings>], part: usize) -> Postings {
    let mut merged = Postings::new();
    for runs in mapped {
        for (word, numbers) in &runs[part] {
            match merged.get_mut(word) {
                Some(known) => known.extend(numbers),
                None => {
                    merged.insert(word.clone(), numbers.clone());
                }
            }
        }
    }
    for numbers in merged.values_mut() {
        numbers.sort_unstable();
        numbers.dedup();
    }
    merged
}

fn finish(parts: &[Postings]) -> Vec<(String, Vec<u32>)> {
    let mut index: Vec<(String, Vec<u32>)> = Vec::new();
    for part in parts {
        index.extend(part.iter().map(|(word, numbers)| (word.clone(), numbers.clone())));
    }
    index.sort_unstable();
    index
}

fn main() {
    shared::run(map_split, merge, finish);
}
