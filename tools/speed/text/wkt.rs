//! Well-known text by recursive descent. It reads and refuses the same texts as `cv_wkt`: all kinds of
//! geometries, tags, EMPTY, further ordinates, SRID in front, at most 1,000,000 vertices and eight
//! collections in each other, and says where a text is refused and why.

use decimal::{Fixed, decimal, short_decimal};

pub type Point = (i64, i64);

/// The points, lines and polygons of a text, in whole millionths.
#[derive(Default)]
pub struct Geometry {
    pub points: Vec<Point>,
    pub lines: Vec<Vec<Point>>,
    pub polygons: Vec<Vec<Vec<Point>>>,
}

#[derive(Clone, Copy, Debug, PartialEq)]
pub enum Refusal {
    Syntax(usize),
    Curve(usize),
    OutOfRange(usize),
    TooDeep,
    TooMany,
}

const MOST_VERTICES: usize = 1_000_000;
const MOST_DEPTH: usize = 8;

#[derive(Clone, Copy, PartialEq)]
enum Kind {
    Point,
    Line,
    Polygon,
    Points,
    Lines,
    Polygons,
    Collection,
}

const KINDS: [(&str, Kind); 7] = [
    ("POINT", Kind::Point),
    ("LINESTRING", Kind::Line),
    ("POLYGON", Kind::Polygon),
    ("MULTIPOINT", Kind::Points),
    ("MULTILINESTRING", Kind::Lines),
    ("MULTIPOLYGON", Kind::Polygons),
    ("GEOMETRYCOLLECTION", Kind::Collection),
];

const CURVES: [&str; 10] = [
    "CIRCULARSTRING", "COMPOUNDCURVE", "CURVEPOLYGON", "MULTICURVE", "MULTISURFACE", "CURVE", "SURFACE",
    "POLYHEDRALSURFACE", "TIN", "TRIANGLE",
];

pub fn is_space(byte: u8) -> bool {
    byte == b' ' || byte == b'\t' || byte == b'\r' || byte == b'\n'
}

fn is_sign(byte: u8) -> bool {
    byte == b'(' || byte == b')' || byte == b',' || byte == b';' || byte == b'='
}

fn is_tag(word: &[u8]) -> bool {
    ["Z", "M", "ZM"].iter().any(|tag| word.eq_ignore_ascii_case(tag.as_bytes()))
}

/// Whether a tag is joined to a name; `None` where the word isn't this name.
fn named(word: &[u8], name: &str) -> Option<bool> {
    let front = word.get(..name.len())?;
    if !front.eq_ignore_ascii_case(name.as_bytes()) {
        return None;
    }
    match &word[name.len()..] {
        [] => Some(false),
        rest if is_tag(rest) => Some(true),
        _ => None,
    }
}

struct Reader<'a> {
    text: &'a [u8],
    at: usize,
    vertices: usize,
}

impl<'a> Reader<'a> {
    fn skip_space(&mut self) {
        while self.text.get(self.at).map_or(false, |byte| is_space(*byte)) {
            self.at += 1;
        }
    }

    fn is_next(&mut self, sign: u8) -> bool {
        self.skip_space();
        self.text.get(self.at) == Some(&sign)
    }

    fn accept(&mut self, sign: u8) -> bool {
        let is_there = self.is_next(sign);
        self.at += usize::from(is_there);
        is_there
    }

    fn expect(&mut self, sign: u8) -> Result<(), Refusal> {
        if self.accept(sign) { Ok(()) } else { Err(Refusal::Syntax(self.at)) }
    }

    /// The next token, if it is no sign.
    fn word(&mut self) -> &'a [u8] {
        self.skip_space();
        let rest = &self.text[self.at..];
        let ends = |byte: &u8| is_space(*byte) || is_sign(*byte);
        &rest[..rest.iter().position(ends).unwrap_or(rest.len())]
    }

    fn accept_word(&mut self, is_it: impl Fn(&[u8]) -> bool) -> bool {
        let word = self.word();
        let is_there = is_it(word);
        self.at += if is_there { word.len() } else { 0 };
        is_there
    }

    fn accept_empty(&mut self) -> bool {
        self.accept_word(|word| word.eq_ignore_ascii_case(b"EMPTY"))
    }

    /// The next token as a decimal.
    fn number(&mut self) -> Result<Fixed, Refusal> {
        self.skip_space();
        let refusal = Refusal::Syntax(self.at);
        let (value, len) = decimal(&self.text[self.at..]).ok_or(refusal)?;
        match self.text.get(self.at + len) {
            Some(byte) if !is_space(*byte) && !is_sign(*byte) => Err(refusal),
            _ => {
                self.at += len;
                Ok(value)
            }
        }
    }

    fn coordinate(&mut self) -> Result<i64, Refusal> {
        self.skip_space();
        let start = self.at;
        match self.number()? {
            Fixed::Value(value) => Ok(value),
            Fixed::High | Fixed::Low => Err(Refusal::OutOfRange(start)),
            Fixed::NotNumber => Err(Refusal::Syntax(start)),
        }
    }

    /// A point of two short decimals, a space between them and a comma or `)` behind, as most are.
    fn short_point(&mut self) -> Option<Point> {
        let text = &self.text[self.at..];
        let (x, x_len) = short_decimal(text)?;
        if text.get(x_len) != Some(&b' ') {
            return None;
        }
        let (y, y_len) = short_decimal(&text[x_len + 1..])?;
        let end = x_len + 1 + y_len;
        if self.vertices == MOST_VERTICES || !matches!(text.get(end), Some(b',') | Some(b')')) {
            return None;
        }
        self.at += end;
        self.vertices += 1;
        Some((x, y))
    }

    /// A point, of whose ordinates the third and fourth are dropped.
    fn point(&mut self) -> Result<Point, Refusal> {
        if let Some(point) = self.short_point() {
            return Ok(point);
        }
        let x = self.coordinate()?;
        let y = self.coordinate()?;
        if self.vertices == MOST_VERTICES {
            return Err(Refusal::TooMany);
        }
        self.vertices += 1;
        for _ in 0..2 {
            if self.is_next(b',') || self.is_next(b')') {
                break;
            }
            self.number()?;
        }
        Ok((x, y))
    }

    /// EMPTY, or items in parentheses with commas between them.
    fn list(&mut self, mut item: impl FnMut(&mut Self) -> Result<(), Refusal>) -> Result<(), Refusal> {
        if self.accept_empty() {
            return Ok(());
        }
        self.expect(b'(')?;
        loop {
            item(self)?;
            if !self.accept(b',') {
                return self.expect(b')');
            }
        }
    }

    fn path(&mut self) -> Result<Vec<Point>, Refusal> {
        let mut points = Vec::new();
        self.list(|reader| Ok(points.push(reader.point()?)))?;
        Ok(points)
    }

    fn rings(&mut self) -> Result<Vec<Vec<Point>>, Refusal> {
        let mut rings = Vec::new();
        self.list(|reader| Ok(rings.push(reader.path()?)))?;
        Ok(rings)
    }

    /// A member of MULTIPOINT: EMPTY, or a point, in parentheses or not.
    fn member(&mut self, found: &mut Geometry) -> Result<(), Refusal> {
        if self.accept_empty() {
            return Ok(());
        }
        let is_enclosed = self.accept(b'(');
        found.points.push(self.point()?);
        if is_enclosed { self.expect(b')') } else { Ok(()) }
    }

    /// A geometry's word, and the tag behind it.
    fn kind(&mut self, depth: usize) -> Result<Kind, Refusal> {
        let word = self.word();
        let of = |entry: &(&str, Kind)| named(word, entry.0).map(|is_joined| (entry.1, is_joined));
        let Some((kind, is_joined)) = KINDS.iter().filter_map(of).next() else {
            let is_curve = CURVES.iter().any(|name| named(word, name).is_some());
            return Err(if is_curve { Refusal::Curve(self.at) } else { Refusal::Syntax(self.at) });
        };
        if kind == Kind::Collection && depth == MOST_DEPTH {
            return Err(Refusal::TooDeep);
        }
        self.at += word.len();
        if !is_joined {
            self.accept_word(is_tag);
        }
        Ok(kind)
    }

    fn geometry(&mut self, depth: usize, found: &mut Geometry) -> Result<(), Refusal> {
        match self.kind(depth)? {
            Kind::Point => {
                if !self.accept_empty() {
                    self.expect(b'(')?;
                    found.points.push(self.point()?);
                    self.expect(b')')?;
                }
                Ok(())
            }
            Kind::Line => {
                let line = self.path()?;
                if !line.is_empty() {
                    found.lines.push(line);
                }
                Ok(())
            }
            Kind::Polygon => {
                let rings = self.rings()?;
                if !rings.is_empty() {
                    found.polygons.push(rings);
                }
                Ok(())
            }
            Kind::Points => self.list(|reader| reader.member(found)),
            Kind::Lines => self.list(|reader| {
                let line = reader.path()?;
                if !line.is_empty() {
                    found.lines.push(line);
                }
                Ok(())
            }),
            Kind::Polygons => self.list(|reader| {
                let rings = reader.rings()?;
                if !rings.is_empty() {
                    found.polygons.push(rings);
                }
                Ok(())
            }),
            Kind::Collection => self.list(|reader| reader.geometry(depth + 1, found)),
        }
    }

    /// `SRID=digits;`, where it stands in front.
    fn srid(&mut self) -> Result<(), Refusal> {
        if !self.accept_word(|word| word.eq_ignore_ascii_case(b"SRID")) {
            return Ok(());
        }
        self.expect(b'=')?;
        let digits = self.word();
        if digits.is_empty() || !digits.iter().all(u8::is_ascii_digit) {
            return Err(Refusal::Syntax(self.at));
        }
        self.at += digits.len();
        self.expect(b';')
    }
}

/// The geometry of a text, or where and why it is refused.
pub fn read(text: &[u8]) -> Result<Geometry, Refusal> {
    let mut reader = Reader { text, at: 0, vertices: 0 };
    let mut found = Geometry::default();
    reader.srid()?;
    reader.geometry(0, &mut found)?;
    reader.skip_space();
    if reader.at == text.len() { Ok(found) } else { Err(Refusal::Syntax(reader.at)) }
}
