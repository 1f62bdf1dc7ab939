//! The index of a job's documents, by plain threads: each takes the next split, and then the next part.
//!
//! usage: threads N < JOB. It writes the lines that `mrjob run` writes of the same job.
use std::collections::{BTreeMap, HashMap};
use std::io::{Read, Write};
use std::sync::atomic::{AtomicUsize, Ordering};
use std::sync::Mutex;

const PARTS: usize = 8;

type Postings = HashMap<String, Vec<u32>>;

struct Job {
    names: Vec<String>,
    splits: Vec<Vec<(u32, String)>>,
}

fn read_job(text: &str) -> Job {
    let mut job = Job { names: Vec::new(), splits: Vec::new() };
    let mut numbers = HashMap::new();
    for line in text.lines() {
        let mut words = line.splitn(4, ' ');
        match words.next() {
            Some("split") => {
                numbers.insert(words.next().expect("name"), job.splits.len());
                job.splits.push(Vec::new());
            }
            Some("doc") => {
                let name = words.next().expect("name");
                let split = numbers[words.next().expect("split")];
                let text = words.next().unwrap_or("").to_string();
                job.splits[split].push((job.names.len() as u32, text));
                job.names.push(name.to_string());
            }
            _ => {}
        }
    }
    job
}

fn part_of(word: &str) -> usize {
    let hash = word.bytes().fold(0u32, |hash, byte| hash.wrapping_mul(31).wrapping_add(byte.into()));
    hash as usize % PARTS
}

fn map_split(documents: &[(u32, String)]) -> Vec<Postings> {
    let mut runs = vec![Postings::new(); PARTS];
    for (number, text) in documents {
        let lower = text.to_ascii_lowercase();
        for word in lower.split(|c: char| !c.is_ascii_alphabetic()).filter(|word| !word.is_empty()) {
            let run = &mut runs[part_of(word)];
            match run.get_mut(word) {
                Some(numbers) if numbers.last() == Some(number) => {}
                Some(numbers) => numbers.push(*number),
                None => {
                    run.insert(word.to_string(), vec![*number]);
                }
            }
        }
    }
    runs
}

fn merge(mapped: &[Vec<Postings>], part: usize) -> Postings {
    let mut merged = Postings::new();
    for runs in mapped {
        for (word, numbers) in &runs[part] {
            match merged.get_mut(word) {
                Some(known) => known.extend(numbers),
                None => {
                    merged.insert(word.clone(), numbers.clone());
                }
            }
        }
    }
    merged.values_mut().for_each(|numbers| numbers.sort_unstable());
    merged
}

/// What so many threads make of the numbers below a bound, each of which is taken once.
fn side_by_side<T: Send>(threads: usize, count: usize, make: impl Fn(usize) -> T + Sync) -> Vec<T> {
    let next = AtomicUsize::new(0);
    let made = Mutex::new(Vec::new());
    std::thread::scope(|scope| {
        for _ in 0..threads {
            scope.spawn(|| loop {
                let number = next.fetch_add(1, Ordering::Relaxed);
                if number >= count {
                    break;
                }
                let one = make(number);
                made.lock().expect("lock").push((number, one));
            });
        }
    });
    let mut made = made.into_inner().expect("lock");
    made.sort_by_key(|(number, _)| *number);
    made.into_iter().map(|(_, one)| one).collect()
}

fn main() {
    let threads = std::env::args().nth(1).and_then(|word| word.parse().ok()).expect("usage: threads N < JOB");
    let mut bytes = Vec::new();
    std::io::stdin().read_to_end(&mut bytes).expect("input");
    let job = read_job(std::str::from_utf8(&bytes).expect("text"));
    let mapped = side_by_side(threads, job.splits.len(), |split| map_split(&job.splits[split]));
    let merged = side_by_side(threads, PARTS, |part| merge(&mapped, part));
    let index: BTreeMap<&String, &Vec<u32>> = merged.iter().flatten().collect();
    let mut lines = format!("index {}\n", index.len());
    for (word, numbers) in index {
        lines.push_str("word ");
        lines.push_str(word);
        for number in numbers {
            lines.push(' ');
            lines.push_str(&job.names[*number as usize]);
        }
        lines.push('\n');
    }
    std::io::stdout().write_all(lines.as_bytes()).expect("output");
}
