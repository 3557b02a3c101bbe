//! One side's vector: a list of entries that rises and has no zeros, and what was added since it was made.

use std::mem::swap;

/// An entry of a vector.
#[derive(Clone, Copy, Default)]
pub struct Entry {
    pub index: u64,
    pub value: i64,
}

/// As many additions may wait in any vector, and as many as the list has entries in one with a longer list.
const MOST_PENDING: usize = 65_536;

/// A vector to which updates are added.
pub trait Gathering {
    /// Nothing but zeros, 2^depth of them.
    fn new(depth: u32) -> Self;

    fn add(&mut self, index: u64, delta: i64);

    /// Merges what is pending into the list.
    fn settle(&mut self);

    /// The entries that are not 0, rising, once the vector is settled.
    fn list(&self) -> &[Entry];
}

fn must_settle(list: &[Entry], pending: usize) -> bool {
    pending >= MOST_PENDING && pending >= list.len()
}

/// Joins neighbours of one index in a list that rises.
fn joined(entries: &mut Vec<Entry>) {
    entries.dedup_by(|next, kept| {
        let is_same = next.index == kept.index;
        if is_same {
            kept.value += next.value;
        }
        is_same
    });
}

/// Makes `out` the sums at each index of two lists that rise strictly, without those that are 0.
fn merge(list: &[Entry], added: &[Entry], out: &mut Vec<Entry>) {
    out.clear();
    out.reserve(list.len() + added.len());
    let mut put = |entry: Entry| {
        if entry.value != 0 {
            out.push(entry);
        }
    };
    let (mut i, mut j) = (0, 0);
    // Whether an entry comes from the one list, the other or both is as good as random, so there is no branch on it.
    while i < list.len() && j < added.len() {
        let (old, new) = (list[i], added[j]);
        let (from_old, from_new) = (old.index <= new.index, new.index <= old.index);
        let value = (old.value & -i64::from(from_old)) + (new.value & -i64::from(from_new));
        put(Entry { index: old.index.min(new.index), value });
        i += usize::from(from_old);
        j += usize::from(from_new);
    }
    list[i..].iter().chain(&added[j..]).for_each(|entry| put(*entry));
}

/// A list of entries that rises and has no zeros, and the memory for the next one.
#[derive(Default)]
struct Rising {
    list: Vec<Entry>,
    next: Vec<Entry>,
}

impl Rising {
    fn merge(&mut self, added: &[Entry]) {
        merge(&self.list, added, &mut self.next);
        swap(&mut self.list, &mut self.next);
    }
}

/// What is pending is sorted by comparisons.
pub struct SortedVector {
    rising: Rising,
    pending: Vec<Entry>,
}

impl Gathering for SortedVector {
    fn new(_depth: u32) -> SortedVector {
        SortedVector { rising: Rising::default(), pending: Vec::new() }
    }

    fn add(&mut self, index: u64, delta: i64) {
        if must_settle(self.list(), self.pending.len()) {
            self.settle();
        }
        self.pending.push(Entry { index, value: delta });
    }

    fn settle(&mut self) {
        self.pending.sort_unstable_by_key(|entry| entry.index);
        joined(&mut self.pending);
        self.rising.merge(&self.pending);
        self.pending.clear();
    }

    fn list(&self) -> &[Entry] {
        &self.rising.list
    }
}

/// How many bits of an index one pass of a sort looks at, and how many all passes do, at most.
const DIGIT: u32 = 11;
const SORTED: u32 = 2 * DIGIT;

/// What is pending is kept as words of an index and a delta, and sorted by their digits. A delta that has no room there waits as an
/// entry.
pub struct PackedVector {
    depth: u32,
    rising: Rising,
    pending: Vec<u64>,
    wide: Vec<Entry>,
    // Memory for a pass of a sort, and for the sums of the words.
    sorted: Vec<u64>,
    sums: Vec<Entry>,
}

impl PackedVector {
    /// A delta is kept above this negative number.
    fn offset(&self) -> i64 {
        1 << (63 - self.depth)
    }

    /// Sorts the words by their indices: by passes over digits of the highest bits, and the few that are left together each for
    /// themselves.
    fn sort(&mut self) {
        let bits = self.depth.min(SORTED);
        let passes = bits.div_ceil(DIGIT);
        let width = bits.div_ceil(passes);
        self.sorted.resize(self.pending.len(), 0);
        for pass in 0..passes {
            self.sort_by_digit(64 - bits + pass * width, width);
        }
        if bits < self.depth {
            let runs = self.pending.chunk_by_mut(|word, next| word >> (64 - bits) == next >> (64 - bits));
            runs.filter(|run| run.len() > 1).for_each(<[u64]>::sort_unstable);
        }
    }

    fn sort_by_digit(&mut self, shift: u32, width: u32) {
        let mask = (1usize << width) - 1;
        let mut places = [0u32; 1 << DIGIT];
        for word in &self.pending {
            places[(word >> shift) as usize & mask] += 1;
        }
        let mut place = 0;
        for count in &mut places {
            (*count, place) = (place, place + *count);
        }
        for &word in &self.pending {
            let at = &mut places[(word >> shift) as usize & mask];
            self.sorted[*at as usize] = word;
            *at += 1;
        }
        swap(&mut self.pending, &mut self.sorted);
    }

    /// Makes the sums of the words of each index, once they are sorted.
    fn sum(&mut self) {
        let shift = 64 - self.depth;
        let offset = self.offset();
        self.sums.resize(self.pending.len(), Entry::default());
        let mut kept = 0;
        // No index is so large.
        let mut last = Entry { index: u64::MAX, value: 0 };
        for word in &self.pending {
            let index = word >> shift;
            let delta = (word & ((1 << shift) - 1)) as i64 - offset;
            let is_same = index == last.index;
            last = Entry { index, value: delta + (last.value & -i64::from(is_same)) };
            kept += usize::from(!is_same);
            self.sums[kept - 1] = last;
        }
        self.sums.truncate(kept);
    }
}

impl Gathering for PackedVector {
    fn new(depth: u32) -> PackedVector {
        let (rising, wide, sums) = (Rising::default(), Vec::new(), Vec::new());
        PackedVector { depth, rising, pending: Vec::new(), wide, sorted: Vec::new(), sums }
    }

    fn add(&mut self, index: u64, delta: i64) {
        if must_settle(self.list(), self.pending.len()) {
            self.settle();
        }
        let offset = self.offset();
        if delta < -offset || delta >= offset {
            self.wide.push(Entry { index, value: delta });
        } else {
            self.pending.push(index << (64 - self.depth) | (delta + offset) as u64);
        }
    }

    fn settle(&mut self) {
        if !self.wide.is_empty() {
            self.wide.sort_unstable_by_key(|entry| entry.index);
            joined(&mut self.wide);
            self.rising.merge(&self.wide);
            self.wide.clear();
        }
        self.sort();
        self.sum();
        self.rising.merge(&self.sums);
        self.pending.clear();
    }

    fn list(&self) -> &[Entry] {
        &self.rising.list
    }
}
