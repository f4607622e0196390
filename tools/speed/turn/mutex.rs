//! The same turns over std's `Mutex`. Prints nanoseconds a turn. `rustc --edition 2024 -O mutex.rs`
use std::sync::Mutex;
use std::time::Instant;

fn timed(threads: u32, turns: u32, adds: bool) -> (u128, usize) {
    let tally: Mutex<Vec<(u32, u32)>> = Mutex::new(Vec::new());
    let start = Instant::now();
    std::thread::scope(|scope| {
        for number in 0..threads {
            let tally = &tally;
            scope.spawn(move || {
                for entry in 0..turns {
                    let mut tally = tally.lock().unwrap();
                    if adds {
                        tally.push((number, entry));
                    } else {
                        std::hint::black_box(tally.len());
                    }
                }
            });
        }
    });
    (start.elapsed().as_nanos(), tally.into_inner().unwrap().len())
}

fn main() {
    for threads in [1, 2, 4] {
        for adds in [false, true] {
            let (nanos, entries) = timed(threads, 1_000_000 / threads, adds);
            println!("{threads} {adds} {} {entries}", nanos / 1_000_000);
        }
    }
}
