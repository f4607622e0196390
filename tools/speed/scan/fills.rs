// The runs of all rows of a ring, as the crate cv_scan finds them: each edge read once, its rows and the
// columns of its ends found by one multiplication, each crossing searched between these columns, or on an
// edge of more than five rows found from the one above it; marks stand in a list, and once that is full in a
// plane of one bit for each pixel; they are brought into order and paired, and the runs are joined. Prints a
// line for a ring of 1,000,000 short edges and one for a ring of 2,000 long ones: its name, the microseconds
// that it took, and the columns covered.
use std::time::Instant;

#[derive(Clone, Copy)]
struct Point {
    x: i64,
    y: i64,
}

struct View {
    lx2: i64,
    ty2: i64,
    u: i64,
    w: u32,
    h: u32,
}

#[derive(Clone, Copy)]
struct Span {
    from: u32,
    end: u32,
}

#[derive(Clone, Copy)]
struct Mark {
    row: u32,
    column: u32,
}

#[derive(Clone, Copy)]
struct Run {
    row: u32,
    from: u32,
    end: u32,
}

fn ring(count: u64) -> Vec<Point> {
    let mut seed = 17u64;
    let mut points = Vec::new();
    for i in 0..count {
        seed = seed.wrapping_mul(6_364_136_223_846_793_005).wrapping_add(1_442_695_040_888_963_407);
        let depth = 12_000_000 + ((seed >> 33) % 400_000_000) as i64 / 400;
        let along = (i * 4_000_000_000 / count) as i64;
        let (side, at) = (along / 1_000_000_000, along % 1_000_000_000);
        points.push(match side {
            0 => Point { x: at, y: depth },
            1 => Point { x: 1_000_000_000 - depth, y: at },
            2 => Point { x: 1_000_000_000 - at, y: 1_000_000_000 - depth },
            _ => Point { x: depth, y: 1_000_000_000 - at },
        });
    }
    points
}

/// A ring that goes up and down between the lower and the upper rows, each time by another slope.
fn zigzag(count: u64) -> Vec<Point> {
    let mut seed = 17u64;
    let mut points = Vec::new();
    for i in 0..count {
        seed = seed.wrapping_mul(6_364_136_223_846_793_005).wrapping_add(1_442_695_040_888_963_407);
        let depth = 12_000_000 + ((seed >> 33) % 400_000_000) as i64 / 400;
        let x = (i * 7_919 % 2_000 * 500_000) as i64;
        points.push(Point { x, y: if i % 2 == 0 { depth } else { 1_000_000_000 - depth } });
    }
    points
}

fn centre(v: &View, i: u32, j: u32) -> Point {
    Point { x: v.lx2 + (2 * i64::from(i) + 1) * v.u, y: v.ty2 - (2 * i64::from(j) + 1) * v.u }
}

fn search(low: u32, high: u32, test: impl Fn(u32) -> bool) -> u32 {
    let (mut at, mut room) = (low, high - low);
    while 0 < room {
        let half = room / 2;
        if test(at + half) {
            at += half + 1;
            room -= half + 1;
        } else {
            room = half;
        }
    }
    at
}

/// A number with its reciprocal, by which its multiples are counted.
struct Multiples {
    step: u64,
    reciprocal: u64,
}

impl Multiples {
    fn of(step: u64) -> Self {
        Multiples { step, reciprocal: u64::MAX / step }
    }

    fn count(&self, n: i64, most: u32) -> u32 {
        if n < 0 {
            return 0;
        }
        let n = n as u64;
        let guess = ((u128::from(n) * u128::from(self.reciprocal)) >> 64) as u64;
        let quotient = if n - guess * self.step < self.step { guess } else { guess + 1 };
        if quotient < u64::from(most) { quotient as u32 + 1 } else { most }
    }
}

fn row_of(a: Point, v: &View, sides: &Multiples) -> u32 {
    sides.count(v.ty2 - v.u - 2 * a.y, v.h)
}

fn column_of(a: Point, v: &View, sides: &Multiples) -> u32 {
    sides.count(2 * a.x - 1 - v.lx2 - v.u, v.w)
}

fn column_of_crossing(low: Point, high: Point, v: &View, row: u32, hint: Span) -> u32 {
    let limit = i128::from(2 * high.x - 2 * low.x) * i128::from(centre(v, 0, row).y - 2 * low.y);
    let height = 2 * high.y - 2 * low.y;
    search(hint.from, hint.end, |i| i128::from(centre(v, i, row).x - 2 * low.x) * i128::from(height) < limit)
}

#[derive(Clone, Copy)]
struct Place {
    column: i64,
    over: i128,
}

#[derive(Clone, Copy)]
struct Slope {
    columns: i64,
    part: i128,
    whole: i128,
}

fn long_slope(low: Point, high: Point, v: &View, rows: Span) -> Option<Slope> {
    if rows.end - rows.from <= 5 {
        return None;
    }
    let side = 2 * v.u;
    let (dx, dy) = (2 * high.x - 2 * low.x, 2 * high.y - 2 * low.y);
    let columns = (-dx).div_euclid(dy);
    let shift = columns.checked_mul(side)?;
    let part = -(i128::from(dx) * i128::from(side)) - i128::from(shift) * i128::from(dy);
    let whole = i128::from(side) * i128::from(dy);
    if 0 <= part && part < whole { Some(Slope { columns, part, whole }) } else { None }
}

fn place_of(slope: &Slope, low: Point, high: Point, v: &View, row: u32, column: u32) -> Option<Place> {
    if v.w <= column {
        return None;
    }
    let p = centre(v, column, row);
    let over = i128::from(p.x - 2 * low.x) * i128::from(2 * high.y - 2 * low.y)
        - i128::from(2 * high.x - 2 * low.x) * i128::from(p.y - 2 * low.y);
    if 0 <= over && over < slope.whole { Some(Place { column: i64::from(column), over }) } else { None }
}

fn below(place: Place, slope: &Slope) -> Option<Place> {
    let column = place.column.checked_add(slope.columns)?;
    let over = place.over - slope.part;
    if 0 <= over {
        return Some(Place { column, over });
    }
    Some(Place { column: column.checked_add(1)?, over: over + slope.whole })
}

struct Scratch {
    marks: Vec<Mark>,
    bits: Vec<u64>,
}

fn toggle_all(scratch: &mut Scratch, v: &View) {
    for mark in &scratch.marks {
        if 0 < mark.column {
            let place = mark.row as usize * v.w as usize + mark.column as usize - 1;
            scratch.bits[place / 64] ^= 1 << (place % 64);
        }
    }
    scratch.marks.clear();
}

fn put_mark(scratch: &mut Scratch, v: &View, mark: Mark) {
    let size = v.w as usize * v.h as usize;
    if size / 64 < scratch.marks.len() {
        if scratch.bits.is_empty() {
            scratch.bits = vec![0u64; size / 64 + 1];
        }
        toggle_all(scratch, v);
    }
    scratch.marks.push(mark);
}

fn put_edge(scratch: &mut Scratch, a: Point, b: Point, v: &View, sides: &Multiples, rows: Span) {
    if rows.from == rows.end {
        return;
    }
    let (low, high) = if a.y <= b.y { (a, b) } else { (b, a) };
    let (from, end) = (column_of(low, v, sides), column_of(high, v, sides));
    let between = Span { from: from.min(end), end: from.max(end) };
    let slope = long_slope(low, high, v, rows);
    let mut place: Option<Place> = None;
    for row in rows.from..rows.end {
        let column = match place {
            Some(place) => place.column.max(0).min(i64::from(v.w)) as u32,
            None => column_of_crossing(low, high, v, row, between),
        };
        put_mark(scratch, v, Mark { row, column });
        place = slope.and_then(|slope| {
            let here = match place {
                Some(place) => place,
                None => place_of(&slope, low, high, v, row, column)?,
            };
            below(here, &slope)
        });
    }
}

fn put_ring(scratch: &mut Scratch, points: &[Point], v: &View) {
    let sides = Multiples::of(2 * v.u as u64);
    let mut before = points[points.len() - 1];
    let mut row_before = row_of(before, v, &sides);
    for point in points {
        let row = row_of(*point, v, &sides);
        let rows = Span { from: row.min(row_before), end: row.max(row_before) };
        put_edge(scratch, before, *point, v, &sides, rows);
        (before, row_before) = (*point, row);
    }
}

fn put_run(row: u32, from: u32, end: u32, into: &mut Vec<Run>) {
    if from < end {
        into.push(Run { row, from, end });
    }
}

fn put_pairs(marks: &[Mark], from: u32, into: &mut Vec<Run>) {
    let mut last: Option<Mark> = None;
    for mark in marks {
        match last {
            Some(end) if end.row == mark.row => {
                put_run(end.row, mark.column, end.column, into);
                last = None;
            }
            Some(end) => {
                put_run(end.row, from, end.column, into);
                last = Some(*mark);
            }
            None => last = Some(*mark),
        }
    }
    if let Some(end) = last {
        put_run(end.row, from, end.column, into);
    }
}

fn unite(runs: &mut Vec<Run>) -> Vec<Run> {
    runs.sort_unstable_by_key(|run| (run.row, run.from));
    let mut united: Vec<Run> = Vec::new();
    for run in runs {
        match united.last_mut() {
            Some(last) if last.row == run.row && run.from <= last.end => last.end = last.end.max(run.end),
            _ => united.push(*run),
        }
    }
    united
}

/// The runs that end at each other mark: those of a list are sorted, those of a plane read there.
fn put_runs(scratch: &mut Scratch, v: &View, into: &mut Vec<Run>) {
    if scratch.bits.is_empty() {
        scratch.marks.sort_unstable_by_key(|mark| (mark.row, mark.column));
        scratch.marks.reverse();
        return put_pairs(&scratch.marks, 0, into);
    }
    toggle_all(scratch, v);
    for row in 0..v.h {
        scratch.marks.clear();
        for column in (1..=v.w).rev() {
            let place = row as usize * v.w as usize + column as usize - 1;
            if (scratch.bits[place / 64] >> (place % 64)) & 1 == 1 {
                scratch.marks.push(Mark { row, column });
            }
        }
        put_pairs(&scratch.marks, 0, into);
    }
}

fn fill(name: &str, points: &[Point]) {
    let view = View { lx2: 0, ty2: 2_000_000_000, u: 976_563, w: 1024, h: 1024 };
    let start = Instant::now();
    let mut scratch = Scratch { marks: Vec::new(), bits: Vec::new() };
    put_ring(&mut scratch, points, &view);
    let mut runs = Vec::new();
    put_runs(&mut scratch, &view, &mut runs);
    let united = unite(&mut runs);
    let covered: u64 = united.iter().map(|run| u64::from(run.end - run.from)).sum();
    println!("{name} {} {covered}", start.elapsed().as_micros());
}

fn main() {
    fill("short", &ring(1_000_000));
    fill("long", &zigzag(2_000));
}
