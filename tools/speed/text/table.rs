//! Delimited text with a column of well-known text. It reads and refuses the same texts as `cv_dtext`: quoted
//! fields as the crate `csv` reads RFC 4180, records of one width, fields of UTF-8, limits on what is read.

use std::borrow::Cow;
use std::str;
use wkt::{self, Geometry, Refusal};

/// A feature: what the cell of its geometry says, and its other texts.
pub struct Feature {
    pub geometry: Option<Geometry>,
    pub values: Vec<String>,
}

/// The features, and the numbers of the records whose geometries are refused.
#[derive(Default)]
pub struct Table {
    pub features: Vec<Feature>,
    pub notes: Vec<(usize, Refusal)>,
}

#[derive(Clone, Copy, Debug)]
pub enum TableError {
    NoHeader,
    NoGeometryColumn,
    Uneven(usize),
    NotUtf8(usize),
    TooMany,
}

const MOST_FEATURES: usize = 1_000_000;
const MOST_VERTICES: usize = 4_000_000;
const MOST_VALUES: usize = 16_000_000;

type Field<'a> = Cow<'a, [u8]>;

/// The records of a text; empty lines are none.
struct Records<'a> {
    text: &'a [u8],
}

impl<'a> Records<'a> {
    /// The bytes up to the first of some, which are passed over.
    fn up_to(&mut self, is_end: impl Fn(u8) -> bool) -> &'a [u8] {
        let len = self.text.iter().position(|byte| is_end(*byte)).unwrap_or(self.text.len());
        let (front, rest) = self.text.split_at(len);
        self.text = rest;
        front
    }

    fn plain(&mut self) -> &'a [u8] {
        self.up_to(|byte| byte == b',' || byte == b'\r' || byte == b'\n')
    }

    fn field(&mut self) -> Field<'a> {
        if self.text.first() != Some(&b'"') {
            return Cow::Borrowed(self.plain());
        }
        self.text = &self.text[1..];
        let mut field = Cow::Borrowed(self.up_to(|byte| byte == b'"'));
        while self.text.starts_with(b"\"\"") {
            self.text = &self.text[2..];
            let owned = field.to_mut();
            owned.push(b'"');
            owned.extend_from_slice(self.up_to(|byte| byte == b'"'));
        }
        self.text = self.text.get(1..).unwrap_or(&[]);
        let behind = self.plain();
        if !behind.is_empty() {
            field.to_mut().extend_from_slice(behind);
        }
        field
    }
}

impl<'a> Iterator for Records<'a> {
    type Item = Vec<Field<'a>>;

    fn next(&mut self) -> Option<Vec<Field<'a>>> {
        self.up_to(|byte| byte != b'\r' && byte != b'\n');
        if self.text.is_empty() {
            return None;
        }
        let mut fields = vec![self.field()];
        while self.text.first() == Some(&b',') {
            self.text = &self.text[1..];
            fields.push(self.field());
        }
        Some(fields)
    }
}

fn texts<'a>(number: usize, fields: &'a [Field]) -> Result<Vec<&'a str>, TableError> {
    let text = |field: &'a Field| str::from_utf8(field).map_err(|_| TableError::NotUtf8(number));
    fields.iter().map(text).collect()
}

impl Table {
    fn vertices(geometry: &Geometry) -> usize {
        let paths = geometry.lines.iter().chain(geometry.polygons.iter().flatten());
        geometry.points.len() + paths.map(Vec::len).sum::<usize>()
    }

    /// The geometry of a cell, which may say nothing; a refusal is noted.
    fn geometry(&mut self, number: usize, cell: &str) -> Option<Geometry> {
        if cell.bytes().all(wkt::is_space) {
            return None;
        }
        match wkt::read(cell.as_bytes()) {
            Ok(geometry) => Some(geometry),
            Err(refusal) => {
                self.notes.push((number, refusal));
                None
            }
        }
    }

    pub fn read(text: &[u8], column: &str) -> Result<Table, TableError> {
        let mut records = Records { text };
        let header = records.next().ok_or(TableError::NoHeader)?;
        let place = texts(0, &header)?.iter().position(|name| *name == column);
        let place = place.ok_or(TableError::NoGeometryColumn)?;
        let (mut table, mut vertices, mut values) = (Table::default(), 0, 0);
        for (number, fields) in records.enumerate() {
            let number = number + 1;
            if fields.len() != header.len() {
                return Err(TableError::Uneven(number));
            }
            let texts = texts(number, &fields)?;
            let geometry = table.geometry(number, texts[place]);
            vertices += geometry.as_ref().map_or(0, Table::vertices);
            values += texts.len() - 1;
            if number > MOST_FEATURES || vertices > MOST_VERTICES || values > MOST_VALUES {
                return Err(TableError::TooMany);
            }
            let others = texts.iter().enumerate().filter(|(at, _)| *at != place);
            let values = others.map(|(_, text)| text.to_string()).collect();
            table.features.push(Feature { geometry, values });
        }
        Ok(table)
    }
}
