//! A plain split of a script: its lines, and their words between spaces and tabs, none of which is read.
use std::time::Instant;

fn main() {
    let bytes = std::fs::read("given").unwrap();
    let start = Instant::now();
    let text = std::str::from_utf8(&bytes).unwrap();
    let mut commands = Vec::new();
    let mut last = 0;
    for (number, line) in (1..).zip(text.lines()) {
        if number > 100_000 {
            last = number;
            break;
        }
        let words: Vec<&str> = line.split([' ', '\t']).filter(|word| !word.is_empty()).collect();
        if words.first().is_some_and(|word| !word.starts_with('#')) {
            last = number;
            commands.push((number, words));
        }
    }
    let took = start.elapsed();
    std::hint::black_box(&commands);
    println!("{} {last}", took.as_micros());
}
