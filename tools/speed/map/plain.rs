//! The same map in plain Rust: layers of polygons read, painted by runs in the order of their features, and
//! composed into the file `picture`. The file `words` has width, height, xmin, ymax, the millionths to a
//! pixel, the background, and then for each layer, bottom first, its file, its fill with alpha, and the
//! number of its mode. Prints a line for reading, painting and composing: the microseconds, and the sum of
//! the picture.
//!
//! Each file is read as any delimited text with the column `wkt`, with all tests of the product's readers
//! (`../text`). Of each feature the polygons are painted.
use std::convert::TryFrom;
use std::ops::{AddAssign, Range, SubAssign};
use std::time::Instant;

#[path = "../text/decimal.rs"]
mod decimal;
#[path = "../compose/planes.rs"]
mod planes;
#[path = "../text/table.rs"]
#[allow(dead_code)] // the other texts are read, and not painted
mod table;
#[path = "../text/wkt.rs"]
mod wkt;
use planes::{Rgb, Rgba, Slot, compose};
use table::{Feature, Table};
use wkt::Point;

struct View {
    width: usize,
    height: usize,
    /// The centre of the first pixel, in doubled millionths.
    first: Point,
    /// The side of a pixel, in doubled millionths.
    side: i64,
}

// Reading

/// The rings of each feature's polygons, which are painted as one polygon.
fn read(file: &str) -> Vec<Vec<Vec<Point>>> {
    let text = std::fs::read(file).unwrap();
    let table = Table::read(&text, "wkt").unwrap();
    let rings = |feature: Feature| {
        let polygons = feature.geometry.unwrap_or_default().polygons;
        polygons.into_iter().flatten().collect()
    };
    table.features.into_iter().map(rings).collect()
}

// Painting

/// The first row or column whose centre isn't before a place, so many sides from the first centre.
fn first_at(distance: i64, side: i64, most: usize) -> usize {
    (distance + side - 1).div_euclid(side).clamp(0, most as i64) as usize
}

/// A point in doubled millionths.
fn doubled(point: Point) -> Point {
    (2 * point.0, 2 * point.1)
}

/// Marks by rows, two for each, each one more than its column, 0 for none; those that find no place, in a
/// list.
struct Marks {
    rows: Vec<[u32; 2]>,
    list: Vec<(u32, u32)>,
    /// The first row with marks, and the one behind the last.
    span: (usize, usize),
}

impl Marks {
    fn put(&mut self, row: usize, column: u32) {
        let pair = &mut self.rows[row];
        if pair[1] == 0 {
            *pair = [column + 1, pair[0]];
        } else {
            self.list.push((row as u32, column));
        }
    }

    /// The runs between the marks, by rows alone or sorted, in place of what a list held. None is left.
    fn take_runs(&mut self, runs: &mut Vec<(u32, u32, u32)>) {
        runs.clear();
        for row in self.span.0..self.span.1 {
            let pair = std::mem::take(&mut self.rows[row]);
            if !self.list.is_empty() {
                self.list.extend(pair.iter().filter(|mark| **mark > 0).map(|mark| (row as u32, mark - 1)));
            } else if pair[0] != pair[1] {
                runs.push((row as u32, pair[0].min(pair[1]) - 1, pair[0].max(pair[1]) - 1));
            }
        }
        self.list.sort_unstable();
        runs.extend(self.list.chunks_exact(2).map(|pair| (pair[0].0, pair[0].1, pair[1].1)));
        self.list.clear();
    }
}

/// Marks the first column that isn't left of an edge, in each row that it crosses.
fn mark_edge(a: Point, b: Point, view: &View, marks: &mut Marks) {
    let (low, high) = if a.1 < b.1 { (a, b) } else { (b, a) };
    let from = first_at(view.first.1 - high.1 + 1, view.side, view.height);
    let end = first_at(view.first.1 - low.1 + 1, view.side, view.height);
    if from >= end {
        return;
    }
    marks.span = (marks.span.0.min(from), marks.span.1.max(end));
    let (dx, dy) = (high.0 - low.0, high.1 - low.1);
    let centre = view.first.1 - from as i64 * view.side;
    let over = product(low.0 - view.first.0, dy) + product(dx, centre - low.1);
    let (whole, step) = (product(dy, view.side), -product(dx, view.side));
    match (i64::try_from(over + whole - 1), i64::try_from(whole), i64::try_from(step)) {
        (Ok(over), Ok(whole), Ok(step)) => {
            let start = (over.div_euclid(whole), over.rem_euclid(whole));
            let way = (step.div_euclid(whole), step.rem_euclid(whole));
            mark_rows(from..end, start, way, whole, view, marks);
        }
        _ => {
            let over = over + whole - 1;
            let start = (over.div_euclid(whole) as i64, over.rem_euclid(whole));
            let way = (step.div_euclid(whole) as i64, step.rem_euclid(whole));
            mark_rows(from..end, start, way, whole, view, marks);
        }
    }
}

/// The product of two numbers.
fn product(a: i64, b: i64) -> i128 {
    i128::from(a) * i128::from(b)
}

/// Marks a column in each row, which moves by so many columns and a part of one from row to row.
fn mark_rows<N: Copy + PartialOrd + AddAssign + SubAssign>(
    rows: Range<usize>, start: (i64, N), way: (i64, N), whole: N, view: &View, marks: &mut Marks,
) {
    let (mut column, mut rest) = start;
    for row in rows {
        marks.put(row, column.clamp(0, view.width as i64) as u32);
        column += way.0;
        rest += way.1;
        if rest >= whole {
            rest -= whole;
            column += 1;
        }
    }
}

/// A fill with what a backdrop of each alpha needs: what is covered, in 255ths of alpha, and its reciprocal.
struct Ink {
    fill: Rgba,
    covered: [u32; 256],
    reciprocal: [u64; 256],
}

impl Ink {
    fn of(fill: Rgba) -> Self {
        let sa = u32::from(fill.a);
        let mut ink = Ink { fill, covered: [0; 256], reciprocal: [0; 256] };
        for below in 0..256 {
            let covered = 255 * sa + below as u32 * (255 - sa);
            ink.covered[below] = covered;
            ink.reciprocal[below] = if covered == 0 { 0 } else { (1 << 44) / (2 * u64::from(covered)) + 1 };
        }
        ink
    }

    fn over(&self, below: Rgba) -> Rgba {
        let (sa, ba) = (u32::from(self.fill.a), u32::from(below.a));
        let (covered, reciprocal) = (self.covered[below.a as usize], self.reciprocal[below.a as usize]);
        let channel = |cs: u8, cb: u8| {
            let sum = 255 * sa * u32::from(cs) + ba * (255 - sa) * u32::from(cb);
            ((u64::from(2 * sum + covered) * reciprocal) >> 44) as u8
        };
        Rgba {
            r: channel(self.fill.r, below.r),
            g: channel(self.fill.g, below.g),
            b: channel(self.fill.b, below.b),
            a: ((2 * covered + 255) / 510) as u8,
        }
    }
}

/// Over an opaque colour the quotient is by 255 alone.
fn over_opaque(source: Rgba, pixels: &mut [Rgba]) {
    let a = u16::from(source.a);
    let near = |cs: u8, cb: u8| {
        let sum = a * u16::from(cs) + (255 - a) * u16::from(cb) + 128;
        ((sum + (sum >> 8)) >> 8) as u8
    };
    for p in pixels {
        *p = Rgba { r: near(source.r, p.r), g: near(source.g, p.g), b: near(source.b, p.b), a: 255 };
    }
}

fn lay(ink: &Ink, run: &mut [Rgba]) {
    if ink.fill.a == 255 || run.iter().all(|p| p.a == 0) {
        run.fill(ink.fill);
    } else if run.iter().all(|p| p.a == 255) {
        over_opaque(ink.fill, run);
    } else {
        for p in run {
            *p = ink.over(*p);
        }
    }
}

/// A bit for each pixel that an opaque colour covers.
struct Cover(Vec<u64>);

impl Cover {
    fn cover(&mut self, from: usize, end: usize) {
        let (first, last) = (from / 64, (end - 1) / 64);
        let (behind, before) = (!0 << (from % 64), !0 >> (63 - (end - 1) % 64));
        if first == last {
            self.0[first] |= behind & before;
        } else {
            self.0[first] |= behind;
            self.0[first + 1..last].fill(!0);
            self.0[last] |= before;
        }
    }

    fn is_covered(&self, place: usize) -> bool {
        self.0[place / 64] >> (place % 64) & 1 == 1
    }
}

/// Lays each feature's runs. An opaque fill only covers; another is laid on what is there.
fn paint(features: &[Vec<Vec<Point>>], fill: Rgba, view: &View) -> Vec<Rgba> {
    let mut image = vec![Rgba::default(); view.width * view.height];
    let (mut cover, ink) = (Cover(vec![0; image.len() / 64 + 1]), Ink::of(fill));
    let mut marks = Marks { rows: vec![[0; 2]; view.height], list: Vec::new(), span: (0, 0) };
    let mut runs = Vec::new();
    for rings in features {
        marks.span = (view.height, 0);
        for ring in rings {
            let mut before = doubled(ring[ring.len() - 1]);
            for point in ring.iter().map(|point| doubled(*point)) {
                mark_edge(before, point, view, &mut marks);
                before = point;
            }
        }
        marks.take_runs(&mut runs);
        for &(row, from, end) in runs.iter().filter(|run| run.1 < run.2) {
            let start = row as usize * view.width;
            let (from, end) = (start + from as usize, start + end as usize);
            if fill.a == 255 {
                cover.cover(from, end);
            } else {
                lay(&ink, &mut image[from..end]);
            }
        }
    }
    for (place, pixel) in image.iter_mut().enumerate() {
        if cover.is_covered(place) {
            *pixel = fill;
        }
    }
    image
}

// The whole

fn colour(word: &str) -> Rgba {
    let byte = |at: usize| u8::from_str_radix(&word[at..at + 2], 16).unwrap();
    Rgba { r: byte(0), g: byte(2), b: byte(4), a: if word.len() == 8 { byte(6) } else { 255 } }
}

fn sum_of(picture: &[Rgb]) -> u64 {
    picture.iter().fold(0, |sum: u64, p| {
        sum.wrapping_mul(31).wrapping_add(u64::from(p.r) + 256 * u64::from(p.g) + 65_536 * u64::from(p.b))
    })
}

fn write(view: &View, picture: &[Rgb]) {
    let mut bytes = format!("P6\n{} {}\n255\n", view.width, view.height).into_bytes();
    bytes.extend(picture.iter().flat_map(|p| [p.r, p.g, p.b]));
    std::fs::write("picture", bytes).unwrap();
}

fn main() {
    let text = std::fs::read_to_string("words").unwrap();
    let words: Vec<&str> = text.split_whitespace().collect();
    let number = |at: usize| words[at].parse::<i64>().unwrap();
    let unit = number(4);
    let view = View {
        width: number(0) as usize,
        height: number(1) as usize,
        first: (2_000_000 * number(2) + unit, 2_000_000 * number(3) - unit),
        side: 2 * unit,
    };
    let layers: Vec<&[&str]> = words[6..].chunks(3).collect();
    let start = Instant::now();
    let read: Vec<_> = layers.iter().map(|layer| read(layer[0])).collect();
    let read_at = start.elapsed();
    let painted = |(features, layer): (&Vec<_>, &&[&str])| paint(features, colour(layer[1]), &view);
    let images: Vec<_> = read.iter().zip(&layers).map(painted).collect();
    let painted_at = start.elapsed();
    let slots: Vec<_> = images
        .iter()
        .zip(&layers)
        .map(|(image, layer)| Slot { mode: layer[2].parse().unwrap(), opacity: 255, image })
        .collect();
    let ground = colour(words[5]);
    let picture = compose(Rgb { r: ground.r, g: ground.g, b: ground.b }, &slots);
    let composed_at = start.elapsed();
    write(&view, &picture);
    println!("read {} 0", read_at.as_micros());
    println!("paint {} 0", (painted_at - read_at).as_micros());
    println!("compose {} {}", (composed_at - painted_at).as_micros(), sum_of(&picture));
}
