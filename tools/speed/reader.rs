//! Reads a well-known text with all tests of the product's reader (`text`), and prints how many microseconds
//! that took and how many vertices its lines have.

use std::hint::black_box;
use std::time::Instant;

#[path = "text/decimal.rs"]
mod decimal;
#[path = "text/wkt.rs"]
mod wkt;

fn main() {
    let bytes = std::fs::read("given").unwrap();
    let start = Instant::now();
    let read = black_box(wkt::read(&bytes));
    let took = start.elapsed();
    let vertices = read.map_or(0, |geometry| geometry.lines.iter().map(Vec::len).sum());
    println!("{} {}", took.as_micros(), vertices);
}
