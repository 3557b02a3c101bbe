//! Updates as lines of text, and as records, on their way out.

use super::streams::{NARROW, Update, WIDE, Window};
use std::io::{Result, Write};

/// How many digits the longest number has that is read: no legal line has a longer one.
const MOST_DIGITS: usize = 16;

/// The number that begins there, and how many digits it has; none where there is no number without a leading zero.
#[inline]
fn number(bytes: &Window, at: usize) -> (u64, usize) {
    let mut number = 0;
    let mut len = 0;
    while len <= MOST_DIGITS {
        let digit = bytes[at + len].wrapping_sub(b'0');
        if digit > 9 {
            break;
        }
        number = 10 * number + u64::from(digit);
        len += 1;
    }
    if len > MOST_DIGITS || (len > 1 && bytes[at] == b'0') { (0, 0) } else { (number, len) }
}

/// The number of the first digits of a word, so many, at most 8. The first byte of the text is the lowest.
#[inline]
fn digits(word: u64, count: usize) -> u64 {
    let digits = (word & 0x0f0f_0f0f_0f0f_0f0f).checked_shl(64 - 8 * count as u32).unwrap_or(0);
    let pairs = digits.wrapping_mul(10 * 256 + 1) >> 8 & 0x00ff_00ff_00ff_00ff;
    let fours = pairs.wrapping_mul(100 * 65_536 + 1) >> 16 & 0x0000_ffff_0000_ffff;
    fours.wrapping_mul((10_000 << 32) + 1) >> 32
}

/// How many digits a word begins with.
#[inline]
fn leading_digits(word: u64) -> usize {
    // The high bit of a byte is set where it is no digit.
    let low = word ^ 0x3030_3030_3030_3030;
    let others = ((low & 0x7f7f_7f7f_7f7f_7f7f) + 0x7676_7676_7676_7676 | low) & 0x8080_8080_8080_8080;
    others.trailing_zeros() as usize / 8
}

#[inline]
fn word_at(bytes: &Window, at: usize) -> u64 {
    u64::from_le_bytes(*bytes[at..].first_chunk().unwrap())
}

/// The same, eight digits at a time.
#[inline]
fn number_by_eight(bytes: &Window, at: usize) -> (u64, usize) {
    const POWERS: [u64; 8] = [1, 10, 100, 1_000, 10_000, 100_000, 1_000_000, 10_000_000];
    let word = word_at(bytes, at);
    let count = leading_digits(word);
    let (number, len) = if count < 8 {
        (digits(word, count), count)
    } else {
        let next = word_at(bytes, at + 8);
        let more = leading_digits(next) % 8;
        (digits(word, 8) * POWERS[more] + digits(next, more), 8 + more)
    };
    let is_one = (len == 1) | (word as u8 != b'0');
    (number, len * usize::from(is_one))
}

/// The update of a line, and the line's length.
#[inline]
fn parsed_with(bytes: &Window, number: impl Fn(&Window, usize) -> (u64, usize)) -> Option<(Update, usize)> {
    let side = bytes[0].wrapping_sub(b'0');
    let (item, items) = number(bytes, 2);
    let at = 2 + items;
    let is_negative = bytes[at + 1] == b'-';
    let from = at + 1 + usize::from(is_negative);
    let (size, sizes) = number(bytes, from);
    let end = from + sizes;
    let has_shape = (side <= 1) & (bytes[1] == b' ') & (items > 0) & (bytes[at] == b' ') & (sizes > 0) & (bytes[end] == b'\n');
    if !has_shape || (is_negative && size == 0) {
        return None;
    }
    let delta = if is_negative { -(size as i64) } else { size as i64 };
    Some((Update { side, item, delta }, end + 1))
}

#[inline]
pub fn parsed(bytes: &Window) -> Option<(Update, usize)> {
    parsed_with(bytes, number)
}

#[inline]
pub fn parsed_by_eight(bytes: &Window) -> Option<(Update, usize)> {
    parsed_with(bytes, number_by_eight)
}

/// The two digits of each number below 100.
const PAIRS: [[u8; 2]; 100] = {
    let mut pairs = [[0; 2]; 100];
    let mut n = 0;
    while n < 100 {
        pairs[n] = [b'0' + n as u8 / 10, b'0' + n as u8 % 10];
        n += 1;
    }
    pairs
};

/// How many bytes are gathered before they are written, and room for one more line.
const GATHERED: usize = 65_536;
const ROOM: usize = 64;

/// Gathers what is written.
pub struct Writer<W: Write> {
    out: W,
    bytes: Vec<u8>,
    len: usize,
}

impl<W: Write> Writer<W> {
    pub fn new(out: W) -> Writer<W> {
        Writer { out, bytes: vec![0; GATHERED], len: 0 }
    }

    pub fn flush(&mut self) -> Result<()> {
        self.out.write_all(&self.bytes[..self.len])?;
        self.len = 0;
        Ok(())
    }

    #[inline]
    fn make_room(&mut self) -> Result<()> {
        if self.len > GATHERED - ROOM { self.flush() } else { Ok(()) }
    }

    /// There is room for these few bytes.
    #[inline]
    fn put(&mut self, bytes: &[u8]) {
        self.bytes[self.len..self.len + bytes.len()].copy_from_slice(bytes);
        self.len += bytes.len();
    }

    #[inline]
    fn put_number(&mut self, mut number: u64) {
        let mut digits = [0; 20];
        let mut at = 20;
        while number >= 100 {
            at -= 2;
            digits[at..at + 2].copy_from_slice(&PAIRS[(number % 100) as usize]);
            number /= 100;
        }
        at -= 2;
        digits[at..at + 2].copy_from_slice(&PAIRS[number as usize]);
        at += usize::from(number < 10);
        self.put(&digits[at..]);
    }

    #[inline]
    pub fn line(&mut self, update: &Update) -> Result<()> {
        self.make_room()?;
        self.put(&[b'0' + update.side, b' ']);
        self.put_number(update.item);
        self.put(if update.delta < 0 { b" -" } else { b" " });
        self.put_number(update.delta.unsigned_abs());
        self.put(b"\n");
        Ok(())
    }

    #[inline]
    pub fn record<const SIZE: usize>(&mut self, update: &Update) -> Result<()> {
        self.make_room()?;
        let mut record = [0; SIZE];
        record[0] = update.side;
        match SIZE {
            NARROW => record[1..5].copy_from_slice(&(update.item as u32).to_be_bytes()),
            WIDE => record[1..9].copy_from_slice(&update.item.to_be_bytes()),
            _ => unreachable!(),
        }
        record[SIZE - 8..].copy_from_slice(&update.delta.to_be_bytes());
        self.put(&record);
        Ok(())
    }

    /// ` INDEX:VALUE`, of an entry in a report.
    pub fn entry(&mut self, index: u64, value: i64) -> Result<()> {
        self.make_room()?;
        self.put(b" ");
        self.put_number(index);
        self.put(if value < 0 { b":-" } else { b":" });
        self.put_number(value.unsigned_abs());
        Ok(())
    }

    /// A word that fits.
    pub fn word(&mut self, word: &str) -> Result<()> {
        self.make_room()?;
        self.put(word.as_bytes());
        Ok(())
    }
}
