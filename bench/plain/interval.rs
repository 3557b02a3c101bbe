//! The list that is 1 within an interval and 0 elsewhere, folded: what lies between its ends stays 1.

use super::field::{minus, plus, times};

pub struct Interval {
    pub lo: u64,
    pub hi: u64,
    at_lo: u64,
    at_hi: u64,
}

impl Interval {
    pub fn new(lo: u64, hi: u64) -> Interval {
        Interval { lo, hi, at_lo: 1, at_hi: 1 }
    }

    /// The entry at an index.
    pub fn at(&self, index: u64) -> u64 {
        if index < self.lo || index > self.hi {
            0
        } else if index == self.lo {
            self.at_lo
        } else if index == self.hi {
            self.at_hi
        } else {
            1
        }
    }

    /// The entries of a pair of neighbours.
    pub fn pair(&self, index: u64) -> [u64; 2] {
        [self.at(2 * index), self.at(2 * index + 1)]
    }

    pub fn fold(&mut self, r: u64) {
        let folded = |index| {
            let [u, w] = self.pair(index);
            plus(u, times(r, minus(w, u)))
        };
        let (lo, hi) = (self.lo >> 1, self.hi >> 1);
        *self = Interval { lo, hi, at_lo: folded(lo), at_hi: folded(hi) };
    }

    /// The extension of an interval at these challenges.
    pub fn extension(lo: u64, hi: u64, challenges: &[u64]) -> u64 {
        let mut interval = Interval::new(lo, hi);
        challenges.iter().for_each(|&r| interval.fold(r));
        interval.at_lo
    }
}
