//! What can be asked: as a word of the command, and as the body of a frame.

use super::frames::{ASK_LOOK, ASK_MOMENT, BYE, END, QUERY, item_width, number};
use super::lookups::Look;
use super::moments::MOST_DEGREE;
use super::streams::bad;
use std::io::Result;

#[derive(Clone, Copy)]
pub enum Question {
    Sub { lo: u64, hi: u64 },
    Range { side: usize, lo: u64, hi: u64 },
    F2 { side: usize },
    Inner,
    Heavy { side: usize, at_least: u64 },
    Moment { side: usize, degree: usize },
    Look(Look),
}

use Question::{F2, Heavy, Inner, Moment, Range, Sub};

impl Question {
    /// The question, unless it does not fit the depth.
    fn fitting(self, depth: u32) -> Result<Question> {
        let fits = match self {
            Sub { lo, hi } => lo <= hi && hi < 1 << depth,
            Range { side, lo, hi } => side < 2 && lo <= hi && hi < 1 << depth,
            F2 { side } => side < 2,
            Inner => true,
            Heavy { side, at_least } => side < 2 && (1..1 << 63).contains(&at_least),
            Moment { side, degree } => side < 2 && (3..=MOST_DEGREE).contains(&degree),
            Question::Look(look) => look.item < 1 << depth,
        };
        if fits { Ok(self) } else { Err(bad("BadNumber")) }
    }

    /// The query of a word: `sub:LO:HI`, `range:SIDE:LO:HI`, `f2:SIDE`, `inner` or `heavy:SIDE:T`.
    fn of_word(word: &str) -> Result<Question> {
        let mut parts = word.split(':');
        let kind = parts.next().unwrap_or_default();
        let numbers: Vec<u64> = parts.map_while(|number| number.parse().ok()).collect();
        let question = match (kind, &numbers[..]) {
            ("sub", &[lo, hi]) => Sub { lo, hi },
            ("range", &[side, lo, hi]) => Range { side: side as usize, lo, hi },
            ("f2", &[side]) => F2 { side: side as usize },
            ("inner", []) => Inner,
            ("heavy", &[side, at_least]) => Heavy { side: side as usize, at_least },
            ("moment", &[side, degree]) => Moment { side: side as usize, degree: degree as usize },
            _ => return Err(bad("a word is no query")),
        };
        Ok(question)
    }

    /// The query of a frame's body.
    pub fn of_body(body: &[u8], depth: u32) -> Result<Question> {
        let width = item_width(depth);
        let bounds = |bytes: &[u8]| (number(&bytes[..width]), number(&bytes[width..]));
        let question = match body {
            [1, items @ ..] if items.len() == 2 * width => {
                let (lo, hi) = bounds(items);
                Sub { lo, hi }
            }
            [2, side, items @ ..] if items.len() == 2 * width => {
                let (lo, hi) = bounds(items);
                Range { side: usize::from(*side), lo, hi }
            }
            [3, side] => F2 { side: usize::from(*side) },
            [4] => Inner,
            [5, side, at_least @ ..] if at_least.len() == 8 => {
                Heavy { side: usize::from(*side), at_least: number(at_least) }
            }
            _ => return Err(bad("BadCount")),
        };
        question.fitting(depth)
    }

    /// The body of its frame.
    pub fn body(&self, depth: u32) -> Vec<u8> {
        let item = |item: u64| item.to_be_bytes()[8 - item_width(depth)..].to_vec();
        match *self {
            Sub { lo, hi } => [vec![1], item(lo), item(hi)].concat(),
            Range { side, lo, hi } => [vec![2, side as u8], item(lo), item(hi)].concat(),
            F2 { side } => vec![3, side as u8],
            Inner => vec![4],
            Heavy { side, at_least } => [vec![5, side as u8], at_least.to_be_bytes().to_vec()].concat(),
            Moment { side, degree } => vec![side as u8, degree as u8],
            Question::Look(look) => look.body(),
        }
    }

    /// Whether a side's vector is asked about.
    pub fn is_about(&self, wanted: usize) -> bool {
        match *self {
            Sub { .. } | Question::Look(_) => wanted == 0,
            Range { side, .. } | F2 { side } | Heavy { side, .. } | Moment { side, .. } => side == wanted,
            Inner => true,
        }
    }
}

/// What a talk is about. Behind the stream each has a frame that asks and one that ends it.
#[derive(Clone, Copy)]
pub enum Talk {
    Queries,
    Moments,
    Lookups,
}

impl Talk {
    pub fn asks(self) -> u8 {
        match self {
            Talk::Queries => QUERY,
            Talk::Moments => ASK_MOMENT,
            Talk::Lookups => ASK_LOOK,
        }
    }

    pub fn ends(self) -> u8 {
        match self {
            Talk::Queries => BYE,
            Talk::Moments | Talk::Lookups => END,
        }
    }

    /// The question of a word.
    pub fn of_word(self, word: &str, depth: u32) -> Result<Question> {
        let question = match self {
            Talk::Lookups => Question::Look(Look::of_word(word)?),
            Talk::Moments | Talk::Queries => Question::of_word(word)?,
        };
        let is_moment = matches!(question, Moment { .. });
        if is_moment == matches!(self, Talk::Moments) { question.fitting(depth) } else { Err(bad("a word is no question")) }
    }

    /// The question of the body of a frame that asks.
    pub fn of_body(self, body: &[u8], depth: u32) -> Result<Question> {
        match (self, body) {
            (Talk::Queries, body) => Question::of_body(body, depth),
            (Talk::Lookups, body) => Question::Look(Look::of_body(body)?).fitting(depth),
            (Talk::Moments, &[side, degree]) => {
                Moment { side: usize::from(side), degree: usize::from(degree) }.fitting(depth)
            }
            _ => Err(bad("a frame is out of turn")),
        }
    }
}
