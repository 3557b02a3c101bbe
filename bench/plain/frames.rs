//! Frames, read where they lie in a buffer, and each written at once.

use super::field::P;
use super::streams::{Reader, bad};
use std::fs::{File, OpenOptions};
use std::io::{Result, Write};

pub const OPEN: u8 = 0x01;
pub const UPDATES: u8 = 0x02;
pub const END_STREAM: u8 = 0x03;
pub const QUERY: u8 = 0x04;
pub const REVEAL: u8 = 0x05;
pub const BYE: u8 = 0x06;
pub const CLAIM: u8 = 0x11;
pub const POLY: u8 = 0x12;
pub const ENTRIES: u8 = 0x13;
pub const SIBLINGS: u8 = 0x14;
pub const LEAVES: u8 = 0x15;
pub const NODES: u8 = 0x16;
pub const LEVEL_END: u8 = 0x17;
pub const REFUSE: u8 = 0x18;
pub const ASK_LOOK: u8 = 0x21;
pub const FOUND: u8 = 0x22;
pub const END: u8 = 0x23;
pub const ASK_MOMENT: u8 = 0x24;
pub const POWER: u8 = 0x25;

/// How many rows and nodes a frame has at most, how many entries an answer, and the greatest absolute value of an entry or a
/// claim.
pub const MOST_ROWS: usize = 512;
pub const MOST_NODES: usize = 256;
pub const MOST_ENTRIES: usize = 65_536;
pub const MOST_VALUE: u64 = (1 << 60) - 1;

/// The greatest depth in the first version of the frames, in which an item has four bytes; in the second it has eight.
pub const MOST_NARROW: u32 = 32;

/// The bytes of an item in the frames of a depth.
pub fn item_width(depth: u32) -> usize {
    if depth > MOST_NARROW { 8 } else { 4 }
}

/// The number of these bytes, at most eight.
pub fn number(bytes: &[u8]) -> u64 {
    bytes.iter().fold(0, |number, byte| number << 8 | u64::from(*byte))
}

/// An element of the field.
pub fn element(bytes: &[u8]) -> Result<u64> {
    let element = number(bytes);
    if element < P { Ok(element) } else { Err(bad("BadNumber")) }
}

/// The rows of a body that begins with their count.
pub fn rows(body: &[u8], size: usize) -> Result<&[u8]> {
    let (count, rows) = body.split_at_checked(2).ok_or_else(|| bad("BadLength"))?;
    let count = number(count) as usize;
    if count == 0 || count > MOST_ROWS || rows.len() != count * size {
        return Err(bad("BadCount"));
    }
    Ok(rows)
}

/// The two ends of a link.
pub struct Link {
    from: Reader,
    to: File,
}

impl Link {
    /// Two FIFOs are opened in the order that the other end waits for.
    pub fn open(from: &str, to: &str, to_first: bool) -> Result<Link> {
        let write = || OpenOptions::new().write(true).create(true).truncate(true).open(to);
        let (from, to) = if to_first {
            let to = write()?;
            (File::open(from)?, to)
        } else {
            (File::open(from)?, write()?)
        };
        Ok(Link { from: Reader::new(from, 1), to })
    }

    /// The kind and the body of the next frame.
    pub fn receive(&mut self) -> Result<(u8, &[u8])> {
        let head = self.from.take(3)?.ok_or_else(|| bad("Closed"))?;
        let (kind, len) = (head[0], number(&head[1..]) as usize);
        let most = 2 + MOST_ROWS * 17;
        if len > most {
            return Err(bad("BadLength"));
        }
        Ok((kind, self.from.take(len)?.ok_or_else(|| bad("Closed"))?))
    }

    /// A frame of this body.
    pub fn send(&mut self, frame: &mut Frame, kind: u8, parts: &[&[u8]]) -> Result<()> {
        frame.begin(kind);
        parts.iter().for_each(|part| frame.put(part));
        self.send_frame(frame)
    }

    pub fn send_frame(&mut self, frame: &mut Frame) -> Result<()> {
        self.to.write_all(frame.whole())
    }
}

/// A frame on its way out. Its memory serves for many.
#[derive(Default)]
pub struct Frame {
    bytes: Vec<u8>,
}

impl Frame {
    pub fn begin(&mut self, kind: u8) {
        self.bytes.clear();
        self.bytes.extend_from_slice(&[kind, 0, 0]);
    }

    pub fn put(&mut self, bytes: &[u8]) {
        self.bytes.extend_from_slice(bytes);
    }

    /// The bytes of the frame, with the length of its body.
    pub fn whole(&mut self) -> &[u8] {
        let len = (self.bytes.len() - 3) as u16;
        self.bytes[1..3].copy_from_slice(&len.to_be_bytes());
        &self.bytes
    }
}
