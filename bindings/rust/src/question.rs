//! Questions and their answers.

use crate::raw::QuestionCode;

/// What is asked. A side is 0 or 1.
#[derive(Clone, Copy, Debug, PartialEq, Eq, Hash)]
pub enum Question {
    /// The entries of side 0 from `lo` to `hi` that are not 0.
    Sub {
        /// The first item.
        lo: u64,
        /// The last item.
        hi: u64,
    },
    /// The sum of the entries of a side from `lo` to `hi`.
    Range {
        /// The side.
        side: u8,
        /// The first item.
        lo: u64,
        /// The last item.
        hi: u64,
    },
    /// The sum of the squares of the entries of a side.
    F2 {
        /// The side.
        side: u8,
    },
    /// The inner product of the sides.
    Inner,
    /// The entries of a side of at least so much.
    Heavy {
        /// The side.
        side: u8,
        /// At least 1.
        at_least: u64,
    },
    /// The entries of a side of at least `num/den` of its total.
    Share {
        /// The side.
        side: u8,
        /// The numerator.
        num: u32,
        /// The denominator.
        den: u32,
    },
    /// The entries of a side of at least so much, also where others are below 0.
    Above {
        /// The side.
        side: u8,
        /// 1 to 2^63 - 1.
        at_least: u64,
    },
    /// The value of side 0 at an item.
    Index(u64),
    /// The nearest entry of side 0 that is not 0, at this item or below.
    Pred(u64),
    /// The same at this item or above.
    Succ(u64),
    /// The sum of a power of the entries of a side.
    Moment {
        /// The side.
        side: u8,
        /// 3 to 8.
        degree: u8,
    },
}

impl Question {
    pub(crate) fn code(self) -> QuestionCode {
        let (kind, side, lo, hi) = match self {
            Question::Sub { lo, hi } => (1, 0, lo, hi),
            Question::Range { side, lo, hi } => (2, side, lo, hi),
            Question::F2 { side } => (3, side, 0, 0),
            Question::Inner => (4, 0, 0, 0),
            Question::Heavy { side, at_least } => (5, side, at_least, 0),
            Question::Share { side, num, den } => (6, side, u64::from(num), u64::from(den)),
            Question::Index(item) => (7, 0, item, 0),
            Question::Pred(item) => (8, 0, item, 0),
            Question::Succ(item) => (9, 0, item, 0),
            Question::Moment { side, degree } => (10, side, u64::from(degree), 0),
            Question::Above { side, at_least } => (11, side, at_least, 0),
        };
        QuestionCode { lo, hi, kind, side }
    }
}

/// An entry of a vector.
#[repr(C)]
#[derive(Clone, Copy, Debug, Default, PartialEq, Eq, Hash)]
pub struct Entry {
    /// Its item.
    pub item: u64,
    /// Its value.
    pub value: i64,
}

/// An answer that was accepted.
#[derive(Clone, Debug, PartialEq, Eq, Hash)]
pub struct Answer {
    /// The number of its question, from 1.
    pub question: u8,
    /// What it says.
    pub value: Value,
}

/// What an answer says.
#[derive(Clone, Debug, PartialEq, Eq, Hash)]
pub enum Value {
    /// A number.
    Number(i64),
    /// Entries, rising by item.
    Pairs(Vec<Entry>),
    /// The nearest entry; none where there is none.
    Nearest(Option<Entry>),
}
