//! The counter of `bench_lock` under the mutex of Rust's standard library: `lock THREADS CALLS`. It prints what
//! `bench_lock mutex` prints.
use std::env;
use std::sync::Mutex;
use std::thread;
use std::time::Instant;

#[allow(dead_code)]
struct Added {
    by: u16,
    amount: u64,
}

struct Counter {
    total: u64,
    added: Vec<Added>,
}

impl Counter {
    fn step(&mut self, by: u16, amount: u64) -> u64 {
        self.added.push(Added { by, amount });
        self.total = self.total.wrapping_add(amount);
        self.total
    }
}

fn main() {
    let words: Vec<u64> = env::args().skip(1).map(|word| word.parse().expect("a number")).collect();
    let (threads, calls) = (words[0], words[1]);
    let each = calls / threads;
    let counter = Mutex::new(Counter { total: 0, added: Vec::with_capacity(calls as usize) });
    let start = Instant::now();
    thread::scope(|scope| {
        for number in 0..threads {
            let counter = &counter;
            scope.spawn(move || {
                for amount in 0..each {
                    std::hint::black_box(counter.lock().expect("a lock").step(number as u16, amount));
                }
            });
        }
    });
    let nanos = start.elapsed().as_nanos();
    let counter = counter.into_inner().expect("a lock");
    println!("rust {threads} {} {} {nanos}", counter.added.len(), counter.total);
}
