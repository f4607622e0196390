//! The same composition in plain Rust, of twelve made layers, one in each mode: five times, each with the sum
//! of its picture.
use std::time::Instant;

mod planes;
use planes::{Rgb, Rgba, Slot, compose};

const SIZE: usize = 1448 * 1448;

fn image(layer: u64) -> Vec<Rgba> {
    let mut seed = layer + 1;
    (0..SIZE)
        .map(|_| {
            seed = seed.wrapping_mul(6_364_136_223_846_793_005).wrapping_add(1_442_695_040_888_963_407);
            let bytes = seed.to_le_bytes();
            Rgba { r: bytes[7], g: bytes[6], b: bytes[5], a: bytes[4] }
        })
        .collect()
}

fn main() {
    let images: Vec<Vec<Rgba>> = (0..12).map(image).collect();
    let slots: Vec<Slot> = (0..12)
        .map(|mode| Slot { mode, opacity: 200 + mode as u8, image: &images[mode] })
        .collect();
    for _ in 0..5 {
        let start = Instant::now();
        let picture = compose(Rgb { r: 255, g: 255, b: 255 }, &slots);
        let took = start.elapsed().as_micros();
        let sum = picture.iter().fold(0u64, |sum, p| {
            sum.wrapping_mul(31).wrapping_add(u64::from(p.r) + 256 * u64::from(p.g) + 65_536 * u64::from(p.b))
        });
        println!("{took} {sum}");
    }
}
