//! The same measurement in plain Rust.
//! `plain SIDE THREADS TRIES`, where SIDE is `mutex` or `word`, lets each thread try so often to take a counter,
//! add one and give it back, and prints the nanoseconds that this took, and how often it was given.

use std::cell::UnsafeCell;
use std::sync::atomic::{AtomicU64, Ordering::SeqCst};
use std::sync::Mutex;
use std::time::Instant;

trait Shared: Sync {
    /// One try, which doesn't wait.
    fn add(&self) -> bool;
    fn total(self) -> u64;
}

impl Shared for Mutex<u64> {
    fn add(&self) -> bool {
        match self.try_lock() {
            Ok(mut count) => {
                *count += 1;
                true
            }
            Err(_) => false,
        }
    }

    fn total(self) -> u64 {
        self.into_inner().unwrap()
    }
}

/// A word that is even while the counter is free, and the counter.
struct Word {
    word: AtomicU64,
    count: UnsafeCell<u64>,
}

unsafe impl Sync for Word {}

impl Shared for Word {
    fn add(&self) -> bool {
        let free = self.word.load(SeqCst) & !1;
        if self.word.compare_exchange(free, free + 1, SeqCst, SeqCst).is_err() {
            return false;
        }
        unsafe { *self.count.get() += 1 };
        self.word.swap(free + 2, SeqCst);
        true
    }

    fn total(self) -> u64 {
        self.count.into_inner()
    }
}

fn add_often(shared: &impl Shared, tries: u64) -> u64 {
    (0..tries).filter(|_| shared.add()).count() as u64
}

fn measure(shared: impl Shared, threads: u64, tries: u64) {
    let begun = Instant::now();
    let gives = if threads == 1 {
        add_often(&shared, tries)
    } else {
        std::thread::scope(|scope| {
            let started: Vec<_> = (0..threads).map(|_| scope.spawn(|| add_often(&shared, tries))).collect();
            started.into_iter().map(|thread| thread.join().unwrap()).sum()
        })
    };
    let nanoseconds = begun.elapsed().as_nanos();
    assert_eq!(shared.total(), gives);
    println!("{nanoseconds} {gives}");
}

fn main() {
    let words: Vec<String> = std::env::args().skip(1).collect();
    let threads = words[1].parse().unwrap();
    let tries = words[2].parse().unwrap();
    match words[0].as_str() {
        "mutex" => measure(Mutex::new(0), threads, tries),
        _ => measure(Word { word: AtomicU64::new(0), count: UnsafeCell::new(0) }, threads, tries),
    }
}
