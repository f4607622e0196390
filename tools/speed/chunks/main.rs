//! The same work on a plain `Vec` of `Arc`s that is cloned where a version is kept.
use std::sync::Arc;
use std::time::Instant;

const COUNT: u32 = 1_000_000;
const EDITS: u32 = 1_000;

struct Feature {
    id: u32,
    _values: Vec<u32>,
}

type List = Vec<Arc<Feature>>;

fn feature(id: u32) -> Arc<Feature> {
    Arc::new(Feature { id, _values: Vec::new() })
}

fn next(seed: u64) -> u64 {
    seed.wrapping_mul(6_364_136_223_846_793_005).wrapping_add(1_442_695_040_888_963_407)
}

fn place(seed: u64, count: usize) -> usize {
    ((seed >> 33) % count as u64) as usize
}

/// Edits with a clone of the whole list taken before each, as a version that a job holds.
fn edits(list: &mut List, count: u32, edit: impl Fn(&mut List, usize, u32)) {
    let mut seed = 7;
    for id in 0..count {
        seed = next(seed);
        let held = list.clone();
        let at = place(seed, list.len());
        edit(list, at, id);
        drop(held);
    }
}

fn main() {
    let all: List = (0..COUNT).map(feature).collect();
    let mut list = all;
    let fewer = EDITS / 20;
    let start = Instant::now();
    edits(&mut list, fewer, |list, at, id| list[at] = feature(id));
    println!("set {} (of {fewer} edits, times 20)", start.elapsed().as_micros() * 20);
    let start = Instant::now();
    edits(&mut list, fewer, |list, at, id| list.insert(at, feature(id)));
    println!("insert {} (of {fewer} edits, times 20)", start.elapsed().as_micros() * 20);
    let start = Instant::now();
    edits(&mut list, fewer, |list, at, _| drop(list.remove(at)));
    println!("remove {} (of {fewer} edits, times 20)", start.elapsed().as_micros() * 20);
    let start = Instant::now();
    let (mut seed, mut sum) = (7, 0u64);
    for _ in 0..COUNT {
        seed = next(seed);
        sum = sum.wrapping_add(u64::from(list[place(seed, list.len())].id));
    }
    println!("get {} {sum}", start.elapsed().as_micros());
    let start = Instant::now();
    let mut sum = 0u64;
    for feature in &list {
        sum = sum.wrapping_add(u64::from(feature.id));
    }
    println!("iter {} {sum}", start.elapsed().as_micros());
    let start = Instant::now();
    let mut pushed = Vec::new();
    for id in 0..COUNT {
        pushed.push(id);
    }
    println!("push {} {}", start.elapsed().as_micros(), pushed.len());
}
