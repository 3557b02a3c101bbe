//! Streams of records, read where they lie in a buffer.

use std::io::{Error, Read, Result};

/// Adds `delta` to the entry `item` of one side's vector.
#[derive(Clone, Copy, Default)]
pub struct Update {
    pub side: u8,
    pub item: u64,
    pub delta: i64,
}

/// How many bytes are read at once, and how many more may be looked at behind those that were read.
const AHEAD: usize = 65_536;
const SLACK: usize = 64;

/// The bytes from a line on: more than it has, whatever they are.
pub type Window = [u8; SLACK];

/// The bytes of a record with an item of four bytes, and of eight.
pub const NARROW: usize = 13;
pub const WIDE: usize = 17;

/// The greatest weight of a side, and the most bytes of a line.
const MOST_WEIGHT: u64 = (1 << 30) - 1;
const MOST_LINE: usize = 40;

pub fn bad(why: &str) -> Error {
    Error::other(why.to_string())
}

/// The tests that each record of a stream has to pass.
pub struct Legality {
    items: u64,
    weights: [u64; 2],
}

impl Legality {
    pub fn new(depth: u32) -> Legality {
        Legality { items: 1 << depth, weights: [0; 2] }
    }

    /// Counts an update, unless it is not legal after those before.
    #[inline]
    pub fn passes(&mut self, update: &Update) -> bool {
        if update.side > 1 || update.item >= self.items || update.delta == 0 {
            return false;
        }
        let weight = &mut self.weights[usize::from(update.side)];
        *weight = weight.saturating_add(update.delta.unsigned_abs());
        *weight <= MOST_WEIGHT
    }

    /// Whether a claim has room for a moment of a side, whatever the order of the updates.
    pub fn has_room(&self, side: usize, degree: usize) -> bool {
        self.weights[side].checked_pow(degree as u32).is_some_and(|moment| moment < 1 << 60)
    }
}

/// The update of a record.
#[inline]
pub fn record_of<const SIZE: usize>(bytes: &[u8]) -> Update {
    let bytes: &[u8; SIZE] = bytes.try_into().unwrap();
    let delta = i64::from_be_bytes(bytes[SIZE - 8..].try_into().unwrap());
    let item = match SIZE {
        NARROW => u64::from(u32::from_be_bytes(bytes[1..5].try_into().unwrap())),
        _ => u64::from_be_bytes(bytes[1..9].try_into().unwrap()),
    };
    Update { side: bytes[0], item, delta }
}

/// An input that is read in blocks, and what was read and not yet taken.
pub struct Reader {
    input: Box<dyn Read>,
    bytes: Vec<u8>,
    start: usize,
    end: usize,
    legality: Legality,
}

impl Reader {
    pub fn new(input: impl Read + 'static, depth: u32) -> Reader {
        let bytes = vec![0; AHEAD + SLACK];
        Reader { input: Box::new(input), bytes, start: 0, end: 0, legality: Legality::new(depth) }
    }

    /// Reads on until so many bytes are held, at most AHEAD, or the input ends.
    #[inline]
    fn hold(&mut self, count: usize) -> Result<()> {
        if self.end - self.start < count { self.read_on(count) } else { Ok(()) }
    }

    #[inline(never)]
    fn read_on(&mut self, count: usize) -> Result<()> {
        self.bytes.copy_within(self.start..self.end, 0);
        self.end -= self.start;
        self.start = 0;
        while self.end < count {
            let came = self.input.read(&mut self.bytes[self.end..AHEAD])?;
            if came == 0 {
                break;
            }
            self.end += came;
        }
        Ok(())
    }

    /// The next bytes, so many, or none at the end.
    pub fn take(&mut self, count: usize) -> Result<Option<&[u8]>> {
        self.hold(count)?;
        if self.end - self.start < count {
            return Ok(None);
        }
        self.start += count;
        Ok(Some(&self.bytes[self.start - count..self.start]))
    }

    /// The tests, after what was read.
    pub fn legality(&self) -> &Legality {
        &self.legality
    }

    /// Gives each of the next records, so many or as many as there are, and answers their bytes.
    pub fn records<const SIZE: usize>(&mut self, most: usize, mut each: impl FnMut(Update)) -> Result<&[u8]> {
        self.hold(most * SIZE)?;
        let held = &self.bytes[self.start..self.end];
        let count = most.min(held.len() / SIZE);
        if count == 0 && !held.is_empty() {
            return Err(bad("Truncated"));
        }
        let records = &held[..count * SIZE];
        for record in records.chunks_exact(SIZE) {
            let update = record_of::<SIZE>(record);
            if !self.legality.passes(&update) {
                return Err(bad("a record is not legal"));
            }
            each(update);
        }
        self.start += records.len();
        Ok(records)
    }

    /// Gives the update of each of the next lines, so many or as many as there are, and answers how many there were. A line is
    /// read by a function of the bytes from it on, which gives its length too.
    pub fn lines(
        &mut self,
        most: usize,
        parsed: impl Fn(&Window) -> Option<(Update, usize)>,
        mut each: impl FnMut(Update),
    ) -> Result<usize> {
        for count in 0..most {
            self.hold(MOST_LINE + 1)?;
            if self.start == self.end {
                return Ok(count);
            }
            let window = self.bytes[self.start..].first_chunk().unwrap();
            match parsed(window) {
                Some((update, len)) if len <= MOST_LINE.min(self.end - self.start) && self.legality.passes(&update) => {
                    self.start += len;
                    each(update);
                }
                _ => return Err(bad("a line is not legal")),
            }
        }
        Ok(most)
    }
}

/// The stream that a generator makes from a number: the linear congruential generator modulo 2^64 of Knuth's MMIX.
pub struct Made {
    state: u64,
    depth: u32,
}

impl Made {
    pub fn new(number: u64, depth: u32) -> Made {
        Made { state: number, depth }
    }

    #[inline]
    pub fn next_update(&mut self) -> Update {
        self.state = self.state.wrapping_mul(6_364_136_223_846_793_005).wrapping_add(1_442_695_040_888_963_407);
        let word = self.state;
        let items = if (word >> 8) % 4 == 0 { 2 } else { 1 << self.depth };
        Update { side: (word >> 63) as u8, item: (word >> 15) & (items - 1), delta: 1 + ((word >> 12) % 8) as i64 }
    }
}
