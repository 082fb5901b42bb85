//! The baseline of the lock's measurements: a plain mutex, and a ticket lock with the atomic steps of `work_lock` under several ways to wait.
//!
//! Words: WAY THREADS TURNS, where WAY is mutex, spin, backoff, yield or near. Each thread takes TURNS turns. It prints the turns a second, and the processor time of a turn in nanoseconds.

use std::hint::{black_box, spin_loop};
use std::sync::atomic::{AtomicU64, Ordering::SeqCst};
use std::sync::{Barrier, Mutex};
use std::thread::{scope, yield_now};
use std::time::Instant;

#[derive(Clone, Copy, PartialEq)]
enum Way {
    /// std's mutex, which sleeps in the kernel.
    Mutex,
    /// Spins without end.
    Spin,
    /// Spins for 1, 2, 4 .. 64 rounds, and yields from then on.
    Backoff,
    /// Yields at once.
    Yield,
    /// Spins for 32 looks where it is next in line, and else yields at once, as `work_lock` does.
    Near,
}

#[derive(Default)]
struct Table {
    given: AtomicU64,
    passed: AtomicU64,
    length: AtomicU64,
}

impl Table {
    fn wait(&self, way: Way, number: u64) {
        let mut looks = 0u32;
        loop {
            let serving = self.passed.load(SeqCst);
            if serving == number {
                return;
            }
            looks += 1;
            match way {
                Way::Backoff if looks <= 7 => (0..1 << (looks - 1)).for_each(|_| spin_loop()),
                Way::Near if number.wrapping_sub(serving) == 1 && looks <= 32 => spin_loop(),
                Way::Spin => spin_loop(),
                _ => yield_now(),
            }
        }
    }

    fn turn(&self, way: Way) {
        let number = self.given.fetch_add(1, SeqCst);
        self.wait(way, number);
        let length = self.length.load(SeqCst);
        let _ = self.length.compare_exchange(length, length, SeqCst, SeqCst);
        self.passed.fetch_add(1, SeqCst);
    }
}

/// The processor time of this process so far, in ticks of a hundredth of a second.
fn ticks() -> u64 {
    let stat = std::fs::read_to_string("/proc/self/stat").unwrap();
    let fields: Vec<&str> = stat
        .rsplit(')')
        .next()
        .unwrap()
        .split_whitespace()
        .collect();
    fields[11].parse::<u64>().unwrap() + fields[12].parse::<u64>().unwrap()
}

fn main() {
    let words: Vec<String> = std::env::args().skip(1).collect();
    let [way, threads, turns] = &words[..] else {
        panic!("words: WAY THREADS TURNS")
    };
    let way = match way.as_str() {
        "mutex" => Way::Mutex,
        "spin" => Way::Spin,
        "backoff" => Way::Backoff,
        "yield" => Way::Yield,
        "near" => Way::Near,
        _ => panic!("WAY is mutex, spin, backoff, yield or near"),
    };
    let (threads, turns): (u64, u64) = (threads.parse().unwrap(), turns.parse().unwrap());
    let (table, mutex, start) = (
        Table::default(),
        Mutex::new(0u64),
        Barrier::new(threads as usize),
    );
    let begin = Instant::now();
    scope(|s| {
        for _ in 0..threads {
            s.spawn(|| {
                start.wait();
                for _ in 0..turns {
                    if way == Way::Mutex {
                        *mutex.lock().unwrap() = black_box(1);
                    } else {
                        table.turn(way);
                    }
                }
            });
        }
    });
    let (taken, all) = (begin.elapsed().as_secs_f64(), (threads * turns) as f64);
    let processor = ticks() as f64 * 1e7 / all;
    println!(
        "{:>12.0} turns a second, {processor:>8.0} ns of processor a turn",
        all / taken
    );
}
