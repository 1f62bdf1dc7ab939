//! The calls of many threads on a plain master under std's mutex: replicas that are lost and added again, each an event.
use std::sync::Mutex;
use std::thread;
use std::time::Instant;

const SPLITS: usize = 1024;
const WORKERS: usize = 256;
const HOLDERS: usize = 8;
const CALLS: usize = 32_768;
/// How many masters each number of threads is timed on.
const MASTERS: usize = 5;

#[allow(dead_code)] // what an event says is kept, and not read here
enum Event {
    Add(u16, u16),
    Lose(u16, u16),
}

struct Master {
    alive: [bool; WORKERS],
    holders: Vec<Vec<u16>>,
    history: Vec<Event>,
}

fn holder_of(split: usize, place: usize) -> u16 {
    ((split % WORKERS + 37 * place) % WORKERS) as u16
}

impl Master {
    fn new() -> Master {
        Master {
            alive: [true; WORKERS],
            holders: (0..SPLITS).map(|split| (0..HOLDERS).map(|place| holder_of(split, place)).collect()).collect(),
            history: Vec::with_capacity(65_536),
        }
    }

    /// The event's place, where the worker holds the split.
    fn lose(&mut self, split: usize, worker: u16) -> Option<usize> {
        let holders = &mut self.holders[split];
        let place = holders.iter().position(|holder| *holder == worker)?;
        holders.remove(place);
        self.history.push(Event::Lose(split as u16, worker));
        Some(self.history.len())
    }

    /// The event's place, where the worker lives and doesn't hold the split.
    fn add(&mut self, split: usize, worker: u16) -> Option<usize> {
        let holders = &mut self.holders[split];
        if !self.alive[worker as usize] || holders.contains(&worker) {
            return None;
        }
        holders.push(worker);
        self.history.push(Event::Add(split as u16, worker));
        Some(self.history.len())
    }
}

/// How many calls are accepted.
fn play(lock: &Mutex<Master>, first: usize, calls: usize) -> usize {
    let accepted = |call: usize| {
        let split = (first + call / 2 % (SPLITS / 4)) % SPLITS;
        let mut master = lock.lock().expect("no thread panics");
        if call % 2 == 0 {
            master.lose(split, holder_of(split, 0)).is_some()
        } else {
            master.add(split, holder_of(split, 0)).is_some()
        }
    };
    (0..calls).filter(|call| accepted(*call)).count()
}

/// How many calls of all threads are accepted, and their nanoseconds.
fn run(threads: usize) -> (usize, u128) {
    let lock = &Mutex::new(Master::new());
    let start = Instant::now();
    let accepted = thread::scope(|scope| {
        let part = |thread| scope.spawn(move || play(lock, thread * (SPLITS / threads), CALLS / threads));
        let threads: Vec<_> = (0..threads).map(part).collect();
        threads.into_iter().map(|it| it.join().expect("no thread panics")).sum()
    });
    (accepted, start.elapsed().as_nanos())
}

fn main() {
    for threads in [1, 2, 4] {
        let (accepted, nanos) = (0..MASTERS).map(|_| run(threads)).min_by_key(|it| it.1).expect("a run");
        println!("{threads} thread{}, Rust\t{accepted}\t{nanos}", if threads == 1 { "" } else { "s" });
    }
}
