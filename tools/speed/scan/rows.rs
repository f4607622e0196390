// All rows of a ring: the spans of each row, from the reaches of the edges that pass its height, as the
// crate cv_scan finds them. Prints the microseconds that it took, and the columns covered in all rows.
use std::time::Instant;

#[derive(Clone, Copy)]
struct Point {
    x: i64,
    y: i64,
}

struct View {
    lx2: i64,
    ty2: i64,
    u: i64,
    w: u32,
    h: u32,
}

struct Span {
    from: u32,
    end: u32,
}

fn ring(count: u64) -> Vec<Point> {
    let mut seed = 17u64;
    let mut points = Vec::new();
    for i in 0..count {
        seed = seed.wrapping_mul(6_364_136_223_846_793_005).wrapping_add(1_442_695_040_888_963_407);
        let way = (seed >> 33) % 400_000_000;
        // Outwards and back along the sides of a square, with ragged edges.
        let along = (i * 4_000_000_000 / count) as i64;
        let (side, at) = (along / 1_000_000_000, along % 1_000_000_000);
        let depth = 12_000_000 + way as i64 / 400;
        points.push(match side {
            0 => Point { x: at, y: depth },
            1 => Point { x: 1_000_000_000 - depth, y: at },
            2 => Point { x: 1_000_000_000 - at, y: 1_000_000_000 - depth },
            _ => Point { x: depth, y: 1_000_000_000 - at },
        });
    }
    points
}

fn centre(v: &View, i: u32, j: u32) -> Point {
    Point { x: v.lx2 + (2 * i64::from(i) + 1) * v.u, y: v.ty2 - (2 * i64::from(j) + 1) * v.u }
}

fn is_low(a: Point, p: Point) -> bool {
    2 * a.y <= p.y
}

fn search(low: u32, high: u32, test: impl Fn(u32) -> bool) -> u32 {
    let (mut at, mut room) = (low, high - low);
    while 0 < room {
        let half = room / 2;
        if test(at + half) {
            at += half + 1;
            room -= half + 1;
        } else {
            room = half;
        }
    }
    at
}

/// A number with its reciprocal, by which its multiples are counted.
struct Multiples {
    step: u64,
    reciprocal: u64,
}

impl Multiples {
    fn of(step: u64) -> Self {
        Multiples { step, reciprocal: u64::MAX / step }
    }

    fn count(&self, n: i64, most: u32) -> u32 {
        if n < 0 {
            return 0;
        }
        let n = n as u64;
        let guess = ((u128::from(n) * u128::from(self.reciprocal)) >> 64) as u64;
        let quotient = if n - guess * self.step < self.step { guess } else { guess + 1 };
        if quotient < u64::from(most) { quotient as u32 + 1 } else { most }
    }
}

fn column_of(a: Point, v: &View, sides: &Multiples) -> u32 {
    sides.count(2 * a.x - 1 - v.lx2 - v.u, v.w)
}

fn column_of_crossing(low: Point, high: Point, v: &View, row: u32, hint: Span) -> u32 {
    let limit = i128::from(2 * high.x - 2 * low.x) * i128::from(centre(v, 0, row).y - 2 * low.y);
    let height = 2 * high.y - 2 * low.y;
    search(hint.from, hint.end, |i| i128::from(centre(v, i, row).x - 2 * low.x) * i128::from(height) < limit)
}

/// How many centres of a row lie left of an edge, searched between the columns of its ends.
fn reach(a: Point, b: Point, v: &View, sides: &Multiples, row: u32) -> u32 {
    let p = centre(v, 0, row);
    let low_a = is_low(a, p);
    if low_a == is_low(b, p) {
        return 0;
    }
    let (low, high) = if low_a { (a, b) } else { (b, a) };
    let (from, end) = (column_of(low, v, sides), column_of(high, v, sides));
    column_of_crossing(low, high, v, row, Span { from: from.min(end), end: from.max(end) })
}

fn spans(points: &[Point], v: &View, row: u32, into: &mut Vec<Span>) {
    *into = Vec::new();
    let sides = Multiples::of(2 * v.u as u64);
    let mut reaches = Vec::new();
    let mut before = points[points.len() - 1];
    for point in points {
        let k = reach(before, *point, v, &sides, row);
        if 0 < k {
            reaches.push(k);
        }
        before = *point;
    }
    if reaches.len() % 2 == 1 {
        reaches.push(0);
    }
    reaches.sort_unstable();
    let (mut start, mut end) = (0, 0);
    for pair in reaches.chunks_exact(2) {
        if end != pair[0] {
            if start < end {
                into.push(Span { from: start, end });
            }
            start = pair[0];
        }
        end = pair[1];
    }
    if start < end {
        into.push(Span { from: start, end });
    }
}

fn main() {
    let points = ring(1_000_000);
    let view = View { lx2: 0, ty2: 2_000_000_000, u: 976_563, w: 1024, h: 1024 };
    let start = Instant::now();
    let mut found = Vec::new();
    let mut covered = 0u64;
    for row in 0..view.h {
        spans(&points, &view, row, &mut found);
        for span in &found {
            covered += u64::from(span.end - span.from);
        }
    }
    println!("{} {}", start.elapsed().as_micros(), covered);
}
