//! The work of `tests_lock` in plain Rust: callers in threads add entries to a `Vec` under a std `Mutex`.
//! The argument is `CALLERS TURNS YIELDS`; prints the nanoseconds that it took.

use std::sync::Mutex;
use std::thread;
use std::time::Instant;

// Adds so many entries, and says whether each was told a later place than the one before.
fn add_all(journal: &Mutex<Vec<u64>>, me: u64, turns: u64, yields: u32) -> bool {
    let mut next = 0;
    for _ in 0..turns {
        let mut owners = journal.lock().unwrap();
        for _ in 0..yields {
            thread::yield_now();
        }
        let place = owners.len() as u64;
        owners.push(me);
        drop(owners);
        if place < next {
            return false;
        }
        next = place + 1;
    }
    true
}

fn run(callers: u64, turns: u64, yields: u32) -> bool {
    let journal = Mutex::new(Vec::with_capacity((callers * turns) as usize));
    let told = thread::scope(|scope| {
        let lanes: Vec<_> = (0..callers)
            .map(|me| {
                let journal = &journal;
                scope.spawn(move || add_all(journal, me, turns, yields))
            })
            .collect();
        lanes.into_iter().all(|lane| lane.join().unwrap())
    });
    let owners = journal.into_inner().unwrap();
    told && (0..callers).all(|me| owners.iter().filter(|owner| **owner == me).count() as u64 == turns)
}

fn main() {
    let line = std::env::args().nth(1).expect("CALLERS TURNS YIELDS");
    let words: Vec<u64> = line.split(' ').map(|word| word.parse().unwrap()).collect();
    let start = Instant::now();
    assert!(run(words[0], words[1], words[2] as u32));
    println!("{} ns", start.elapsed().as_nanos());
}
