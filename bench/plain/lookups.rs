//! Lookups: what is asked, what is found, and the interval whose entries prove it.

use super::frames::number;
use super::streams::bad;
use super::vector::Entry;
use std::io::Result;

#[derive(Clone, Copy, PartialEq)]
pub enum Kind {
    Index,
    Pred,
    Succ,
}

use Kind::{Index, Pred, Succ};

/// A lookup at an item: its entry, or the nearest one up to it, or from it on.
#[derive(Clone, Copy)]
pub struct Look {
    pub kind: Kind,
    pub item: u64,
}

impl Look {
    /// The lookup of a word: `index:I`, `pred:I` or `succ:I`.
    pub fn of_word(word: &str) -> Result<Look> {
        let kind = |name: &str| match name {
            "index" => Some(Index),
            "pred" => Some(Pred),
            "succ" => Some(Succ),
            _ => None,
        };
        word.split_once(':')
            .and_then(|(name, item)| Some(Look { kind: kind(name)?, item: item.parse().ok()? }))
            .ok_or_else(|| bad("a word is no lookup"))
    }

    /// The lookup of a frame's body.
    pub fn of_body(body: &[u8]) -> Result<Look> {
        match body {
            [code @ 1..=3, item @ ..] if item.len() == 8 => {
                Ok(Look { kind: [Index, Pred, Succ][usize::from(*code) - 1], item: number(item) })
            }
            _ => Err(bad("a frame is out of turn")),
        }
    }

    /// The body of its frame.
    pub fn body(&self) -> Vec<u8> {
        [vec![self.kind as u8 + 1], self.item.to_be_bytes().to_vec()].concat()
    }

    /// Where the answer stands in a list that rises.
    pub fn place(&self, list: &[Entry]) -> Option<u64> {
        match self.kind {
            Index => Some(self.item),
            Pred => list[..list.partition_point(|entry| entry.index <= self.item)].last().map(|entry| entry.index),
            Succ => list.get(list.partition_point(|entry| entry.index < self.item)).map(|entry| entry.index),
        }
    }

    /// What the body of a Found says: a place of an answer, or none.
    pub fn found(&self, body: &[u8], depth: u32) -> Result<Option<u64>> {
        let found = match body {
            [flag @ 0..=1, index @ ..] if index.len() == 8 => (*flag == 1).then_some(number(index)),
            _ => return Err(bad("BadNumber")),
        };
        let is_possible = match (self.kind, found) {
            (Index, place) => place == Some(self.item),
            (Pred, place) => place.is_none_or(|place| place <= self.item),
            (Succ, place) => place.is_none_or(|place| (self.item..1 << depth).contains(&place)),
        };
        if is_possible { Ok(found) } else { Err(bad("BadFound")) }
    }

    /// The interval from the place to the item, or all on that side of the item where there is none.
    pub fn interval(&self, found: Option<u64>, depth: u32) -> (u64, u64) {
        match self.kind {
            Index => (self.item, self.item),
            Pred => (found.unwrap_or(0), self.item),
            Succ => (self.item, found.unwrap_or((1 << depth) - 1)),
        }
    }
}
