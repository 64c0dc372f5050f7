//! The yardstick of crates/lb_cost, `board`: threads that load a word beside one that raises it. `READERS READINGS`.
use std::env;
use std::sync::atomic::Ordering::SeqCst;
use std::sync::atomic::{AtomicBool, AtomicU64};
use std::thread;
use std::time::{Duration, Instant};

/// One load: 1 if it is above the one before, which is then this one.
fn rise(word: &AtomicU64, last: &mut u64) -> u64 {
    let found = word.load(SeqCst);
    let is_above = found > *last;
    *last = found;
    u64::from(is_above)
}

/// How often a load was above the one before, four loads in each turn of the loop, so that it is not the loop that is measured.
fn read_often(word: &AtomicU64, times: u64) -> u64 {
    let mut last = 0;
    let mut rises: u64 = 0;
    for _ in 0..times / 4 {
        rises = rises.wrapping_add(rise(word, &mut last));
        rises = rises.wrapping_add(rise(word, &mut last));
        rises = rises.wrapping_add(rise(word, &mut last));
        rises = rises.wrapping_add(rise(word, &mut last));
    }
    rises
}

/// Raises the word every 50 microseconds, until the readers are done.
fn update_until(word: &AtomicU64, is_done: &AtomicBool) {
    let mut generation = 0;
    while !is_done.load(SeqCst) {
        word.fetch_max(generation, SeqCst);
        generation += 1;
        thread::sleep(Duration::from_micros(50));
    }
}

fn main() {
    let mut arguments = env::args().skip(1).map(|text| text.parse::<u64>().expect("a number"));
    let readers = arguments.next().unwrap_or(2);
    let times = arguments.next().unwrap_or(1000);
    let word = AtomicU64::new(0);
    let is_done = AtomicBool::new(false);
    thread::scope(|scope| {
        scope.spawn(|| update_until(&word, &is_done));
        let start = Instant::now();
        let threads: Vec<_> = (0..readers).map(|_| scope.spawn(|| read_often(&word, times))).collect();
        for thread in threads {
            thread.join().expect("a reader ends");
        }
        println!("nanoseconds {}", start.elapsed().as_nanos());
        is_done.store(true, SeqCst);
    });
}
