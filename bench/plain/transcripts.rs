//! Transcripts, written again with items of eight bytes.

use super::frames::{
    CLAIM, ENTRIES, Frame, LEAVES, LEVEL_END, MOST_NODES, MOST_ROWS, MOST_VALUE, NODES, POLY, QUERY, REFUSE, SIBLINGS, element, number,
};
use super::streams::{Reader, bad};
use std::fs::File;
use std::io::{BufWriter, Result, Write, stdout};

/// The bytes of a number, and of an item in the first version of the frames and in the second.
const WORD: usize = 8;
const NARROW: usize = 4;
const WIDE: usize = 8;

/// The codes of the queries that have an interval.
const SUB: u8 = 1;
const RANGE: u8 = 2;

/// A transcript on its way from one version to the second.
struct Conversion<W: Write> {
    from: Reader,
    to: W,
    /// The bytes of an item in what is read.
    width: usize,
    frame: Frame,
}

fn signed_value(bytes: &[u8]) -> Result<i64> {
    let value = number(bytes) as i64;
    if value.unsigned_abs() <= MOST_VALUE { Ok(value) } else { Err(bad("BadNumber")) }
}

/// The rows of a body that begins with their count, each an item and then numbers that have to pass a test.
fn put_rows(frame: &mut Frame, body: &[u8], width: usize, numbers: usize, most: usize, test: impl Fn(&[u8]) -> Result<()>) -> Result<()> {
    let (count, rows) = body.split_at_checked(2).ok_or_else(|| bad("BadLength"))?;
    let (size, many) = (width + WORD * numbers, number(count) as usize);
    if many == 0 || many > most || rows.len() != many * size {
        return Err(bad("BadCount"));
    }
    frame.put(count);
    for row in rows.chunks_exact(size) {
        test(&row[width..])?;
        frame.put(&[0; WIDE][width..]);
        frame.put(row);
    }
    Ok(())
}

fn elements(bytes: &[u8]) -> Result<()> {
    bytes.chunks_exact(WORD).try_for_each(|bytes| element(bytes).map(|_| ()))
}

fn entry(bytes: &[u8]) -> Result<()> {
    if signed_value(bytes)? == 0 { Err(bad("BadNumber")) } else { Ok(()) }
}

fn siblings(body: &[u8]) -> Result<()> {
    let (flags, rest) = body.split_first().ok_or_else(|| bad("BadLength"))?;
    if *flags > 3 || rest.len() != WORD * flags.count_ones() as usize {
        return Err(bad("BadCount"));
    }
    elements(rest)
}

/// Puts the body of a frame of a helper with items of eight bytes.
fn put_reply(frame: &mut Frame, kind: u8, body: &[u8], width: usize) -> Result<()> {
    match (kind, body) {
        (ENTRIES, _) => return put_rows(frame, body, width, 1, MOST_ROWS, entry),
        (LEAVES, _) => return put_rows(frame, body, width, 1, MOST_ROWS, elements),
        (NODES, _) => return put_rows(frame, body, width, 2, MOST_NODES, elements),
        (CLAIM, value) if value.len() == WORD => signed_value(value).map(|_| ())?,
        (POLY, coefficients) if coefficients.len() == 3 * WORD => elements(coefficients)?,
        (SIBLINGS, _) => siblings(body)?,
        (LEVEL_END, []) | (REFUSE, [1..=4]) => {}
        _ => return Err(bad("BadLength")),
    }
    frame.put(body);
    Ok(())
}

/// Puts the body of a query with items of eight bytes.
fn put_query(frame: &mut Frame, body: &[u8], width: usize) {
    let before = match body.first() {
        Some(&SUB) => 1,
        Some(&RANGE) => 2,
        _ => return frame.put(body),
    };
    let (code, interval) = body.split_at(before);
    frame.put(code);
    for item in interval.chunks_exact(width) {
        frame.put(&[0; WIDE][width..]);
        frame.put(item);
    }
}

impl<W: Write> Conversion<W> {
    /// Writes the next frame; `false` where there is none.
    fn frame(&mut self) -> Result<bool> {
        let Some(head) = self.from.take(3)? else {
            return Ok(false);
        };
        let (kind, len) = (head[0], number(&head[1..]) as usize);
        let body = self.from.take(len)?.ok_or_else(|| bad("Closed"))?;
        self.frame.begin(kind);
        match kind {
            QUERY => put_query(&mut self.frame, body, self.width),
            _ => put_reply(&mut self.frame, kind, body, self.width)?,
        }
        self.to.write_all(self.frame.whole())?;
        Ok(true)
    }

    fn elements(&mut self, count: usize) -> Result<()> {
        let bytes = self.from.take(WORD * count)?.ok_or_else(|| bad("Truncated"))?;
        elements(bytes)?;
        self.to.write_all(bytes)
    }
}

/// Writes the transcript of a path in the second version.
pub fn convert(path: &str) -> Result<()> {
    let mut from = Reader::new(File::open(path)?, 1);
    let mut to = BufWriter::with_capacity(1 << 16, stdout().lock());
    let Some(&[b'S', b'I', b'P', b'T', version @ 1..=2, depth, count]) = from.take(7)? else {
        return Err(bad("BadTranscript"));
    };
    to.write_all(&[b'S', b'I', b'P', b'T', 2, depth, count])?;
    let width = if version == 1 { NARROW } else { WIDE };
    let mut conversion = Conversion { from, to, width, frame: Frame::default() };
    for _ in 0..count {
        conversion.frame()?;
        conversion.elements(usize::from(depth))?;
    }
    while conversion.frame()? {}
    conversion.to.flush()
}
