//! Layers merged in plain Rust: runs of 1,024 pixels as planes of bytes, all layers of a run before the next,
//! one loop a mode in 16 bits, dodge and burn from tables.

pub const RUN: usize = 1024;

#[derive(Clone, Copy, Default)]
pub struct Rgba {
    pub r: u8,
    pub g: u8,
    pub b: u8,
    pub a: u8,
}

#[derive(Clone, Copy)]
pub struct Rgb {
    pub r: u8,
    pub g: u8,
    pub b: u8,
}

/// A layer's image with the number of its mode, in the order of the modes' words, and its opacity.
pub struct Slot<'a> {
    pub mode: usize,
    pub opacity: u8,
    pub image: &'a [Rgba],
}

fn over_255(n: u16) -> u16 {
    let near = n + 128;
    (near + (near >> 8)) >> 8
}

fn hard_light(cb: u16, cs: u16) -> u16 {
    let twice = 2 * cs;
    over_255(if twice <= 255 { cb * twice } else { 255 * (twice - 255) + cb * (510 - twice) })
}

fn mix(row: &mut [u8], source: &[u8], alpha: &[u8], blend: impl Fn(u16, u16) -> u16) {
    for ((p, q), a) in row.iter_mut().zip(source).zip(alpha) {
        let (cb, cs, a) = (u16::from(*p), u16::from(*q), u16::from(*a));
        *p = over_255((255 - a) * cb + a * blend(cb, cs)) as u8;
    }
}

fn look_up(table: &[u8], source: &mut [u8], row: &[u8]) {
    for (q, p) in source.iter_mut().zip(row) {
        *q = table[256 * usize::from(*p) + usize::from(*q)];
    }
}

fn merge(mode: usize, tables: &[Vec<u8>; 2], row: &mut [u8], source: &mut [u8], alpha: &[u8]) {
    match mode {
        0 => mix(row, source, alpha, |_, cs| cs),
        1 => mix(row, source, alpha, |cb, cs| over_255(cb * cs)),
        2 => mix(row, source, alpha, |cb, cs| over_255(255 * cb + (255 - cb) * cs)),
        3 => mix(row, source, alpha, |cb, cs| hard_light(cs, cb)),
        4 => mix(row, source, alpha, |cb, cs| cb.min(cs)),
        5 => mix(row, source, alpha, |cb, cs| cb.max(cs)),
        6 | 7 => {
            look_up(&tables[mode - 6], source, row);
            mix(row, source, alpha, |_, cs| cs);
        }
        8 => mix(row, source, alpha, hard_light),
        9 => mix(row, source, alpha, |cb, cs| cb.max(cs) - cb.min(cs)),
        10 => mix(row, source, alpha, |cb, cs| over_255(cb * (255 - cs) + cs * (255 - cb))),
        _ => {
            for ((p, q), a) in row.iter_mut().zip(&*source).zip(alpha) {
                *p = p.saturating_add(over_255(u16::from(*a) * u16::from(*q)) as u8);
            }
        }
    }
}

fn dodge(cb: u32, cs: u32) -> u32 {
    match (cb, cs) {
        (0, _) => 0,
        (_, 255) => 255,
        _ => ((510 * cb + 255 - cs) / (2 * (255 - cs))).min(255),
    }
}

fn tables() -> [Vec<u8>; 2] {
    let pairs = || (0..65_536u32).map(|pair| (pair / 256, pair % 256));
    [
        pairs().map(|(cb, cs)| dodge(cb, cs) as u8).collect(),
        pairs().map(|(cb, cs)| (255 - dodge(255 - cb, 255 - cs)) as u8).collect(),
    ]
}

fn plane<const BY: u32>(plane: &mut [u8], words: &[u32]) {
    for (channel, word) in plane.iter_mut().zip(words) {
        *channel = (*word >> BY) as u8;
    }
}

fn merge_run(mode: usize, tables: &[Vec<u8>; 2], planes: [&mut [u8]; 3], pixels: &[Rgba], opacity: u8) {
    let (mut words, mut source, mut alpha) = ([0u32; RUN], [0u8; RUN], [0u8; RUN]);
    let n = pixels.len();
    let (words, source, alpha) = (&mut words[..n], &mut source[..n], &mut alpha[..n]);
    for (word, pixel) in words.iter_mut().zip(pixels) {
        *word = u32::from_le_bytes([pixel.r, pixel.g, pixel.b, pixel.a]);
    }
    plane::<24>(alpha, words);
    for a in alpha.iter_mut() {
        *a = over_255(u16::from(*a) * u16::from(opacity)) as u8;
    }
    if alpha.iter().fold(0, |any, a| any | a) == 0 {
        return;
    }
    let [r, g, b] = planes;
    plane::<0>(source, words);
    merge(mode, tables, r, source, alpha);
    plane::<8>(source, words);
    merge(mode, tables, g, source, alpha);
    plane::<16>(source, words);
    merge(mode, tables, b, source, alpha);
}

pub fn compose(background: Rgb, slots: &[Slot]) -> Vec<Rgb> {
    let tables = tables();
    let size = slots[0].image.len();
    let mut picture = Vec::with_capacity(size);
    for start in (0..size).step_by(RUN) {
        let end = (start + RUN).min(size);
        let n = end - start;
        let (mut r, mut g, mut b) = ([background.r; RUN], [background.g; RUN], [background.b; RUN]);
        for slot in slots {
            let planes = [&mut r[..n], &mut g[..n], &mut b[..n]];
            merge_run(slot.mode, &tables, planes, &slot.image[start..end], slot.opacity);
        }
        picture.extend((0..n).map(|k| Rgb { r: r[k], g: g[k], b: b[k] }));
    }
    picture
}
