//! Heavy hitters: what is shown of each level of the augmented tree, and the check of it.
//!
//! Both ends keep a level as a list of nodes that rises, and fold it in place: the helper the nodes that are not zero, the verifier
//! those below heavy ones.

use super::field::{plus, times};
use super::frames::*;
use super::streams::bad;
use super::vector::Entry;
use std::io::Result;

#[derive(Clone, Copy, Default)]
pub struct Node {
    index: u64,
    hash: u64,
    count: u64,
}

/// The challenge of a level, with its square.
#[derive(Clone, Copy)]
struct Challenge {
    r: u64,
    square: u64,
}

impl Challenge {
    fn new(r: u64) -> Challenge {
        Challenge { r, square: times(r, r) }
    }

    fn half(self, node: Node) -> u64 {
        plus(node.hash, times(node.count, self.r))
    }

    /// The node above two.
    fn above(self, left: Node, right: Node) -> Node {
        let hash = plus(self.half(left), times(self.square, self.half(right)));
        Node { index: left.index / 2, hash, count: left.count + right.count }
    }

    /// The node above one that has a zero beside it.
    fn above_one(self, node: Node) -> Node {
        let half = self.half(node);
        let hash = if node.index % 2 == 0 { half } else { times(self.square, half) };
        Node { index: node.index / 2, hash, count: node.count }
    }
}

fn are_siblings(left: &Node, right: &Node) -> bool {
    left.index / 2 == right.index / 2
}

// ---- the helper

/// How a query is refused.
const TOO_MANY: u8 = 2;
const NOT_STRICT: u8 = 3;

pub struct Prover {
    at_least: u64,
    nodes: Vec<Node>,
    /// What is shown of the present level.
    shown: Vec<Node>,
    is_leaf: bool,
}

impl Prover {
    /// The prover over a vector's entries that are not 0, or the code by which the query is refused.
    pub fn new(list: &[Entry], at_least: u64) -> std::result::Result<Prover, u8> {
        if list.iter().any(|entry| entry.value < 0) {
            return Err(NOT_STRICT);
        }
        let nodes: Vec<Node> = list
            .iter()
            .map(|entry| Node { index: entry.index, hash: entry.value as u64, count: entry.value as u64 })
            .collect();
        if nodes.iter().map(|node| node.count).sum::<u64>() / at_least > MOST_ENTRIES as u64 {
            return Err(TOO_MANY);
        }
        let mut prover = Prover { at_least, nodes, shown: Vec::new(), is_leaf: true };
        let mut rest = &prover.nodes[..];
        while let [first, more @ ..] = rest {
            rest = match more {
                [second, behind @ ..] if are_siblings(first, second) => {
                    show(&mut prover.shown, at_least, true, *first, *second);
                    behind
                }
                _ => {
                    show_one(&mut prover.shown, at_least, true, *first);
                    more
                }
            };
        }
        Ok(prover)
    }

    /// Goes one level up, and finds what is shown there in the same pass.
    pub fn learn(&mut self, r: u64) {
        let challenge = Challenge::new(r);
        self.is_leaf = false;
        self.shown.clear();
        let (mut read, mut written) = (0, 0);
        // The node above that waits for its sibling.
        let mut waiting: Option<Node> = None;
        while read < self.nodes.len() {
            let first = self.nodes[read];
            let above = match self.nodes.get(read + 1) {
                Some(second) if are_siblings(&first, second) => {
                    read += 2;
                    challenge.above(first, *second)
                }
                _ => {
                    read += 1;
                    challenge.above_one(first)
                }
            };
            self.nodes[written] = above;
            written += 1;
            waiting = match waiting {
                Some(left) if are_siblings(&left, &above) => {
                    show(&mut self.shown, self.at_least, false, left, above);
                    None
                }
                Some(left) => {
                    show_one(&mut self.shown, self.at_least, false, left);
                    Some(above)
                }
                None => Some(above),
            };
        }
        if let Some(last) = waiting {
            show_one(&mut self.shown, self.at_least, false, last);
        }
        self.nodes.truncate(written);
    }

    /// Sends what is shown of the level, and its end.
    pub fn send(&self, width: usize, frame: &mut Frame, link: &mut Link) -> Result<()> {
        let (kind, most) = if self.is_leaf { (LEAVES, MOST_ROWS) } else { (NODES, MOST_NODES) };
        for nodes in self.shown.chunks(most) {
            frame.begin(kind);
            frame.put(&(nodes.len() as u16).to_be_bytes());
            for node in nodes {
                frame.put(&node.index.to_be_bytes()[8 - width..]);
                if !self.is_leaf {
                    frame.put(&node.hash.to_be_bytes());
                }
                frame.put(&node.count.to_be_bytes());
            }
            link.send_frame(frame)?;
        }
        link.send(frame, LEVEL_END, &[])
    }
}

/// Shows the children of a node, where it is heavy: above the leaves those that are light.
fn show(shown: &mut Vec<Node>, at_least: u64, is_leaf: bool, left: Node, right: Node) {
    if left.count + right.count >= at_least {
        shown.extend([left, right].into_iter().filter(|node| is_leaf || node.count < at_least));
    }
}

/// The same of one that has a zero beside it.
fn show_one(shown: &mut Vec<Node>, at_least: u64, is_leaf: bool, node: Node) {
    if node.count >= at_least {
        let zero = Node { index: node.index ^ 1, hash: 0, count: 0 };
        let (left, right) = if node.index % 2 == 0 { (node, zero) } else { (zero, node) };
        show(shown, at_least, is_leaf, left, right);
    }
}

// ---- the verifier

/// What is asked: the depth, the threshold and the total of the side.
#[derive(Clone, Copy)]
pub struct Asked {
    pub depth: u32,
    pub at_least: u64,
    pub total: u64,
}

pub struct Check {
    asked: Asked,
    level: u32,
    /// The nodes known from the level below, and those that were received.
    known: Vec<Node>,
    heard: Vec<Node>,
    merged: Vec<Node>,
    pub found: Vec<Entry>,
}

impl Check {
    pub fn new(asked: Asked) -> Check {
        let room = 2 * (asked.total / asked.at_least) as usize;
        let list = || Vec::with_capacity(room);
        Check { asked, level: 0, known: list(), heard: list(), merged: list(), found: Vec::new() }
    }

    fn most(&self) -> usize {
        2 * (self.asked.total / self.asked.at_least) as usize
    }

    /// Hears a frame of leaves or nodes.
    pub fn hear(&mut self, body: &[u8], width: usize) -> Result<()> {
        let hash = if self.level == 0 { 0 } else { 8 };
        for row in rows(body, width + hash + 8)?.chunks_exact(width + hash + 8) {
            let (index, count) = (number(&row[..width]), element(&row[width + hash..])?);
            let hash = if self.level == 0 { count } else { element(&row[width..width + 8])? };
            let is_next = self.heard.last().is_none_or(|last| last.index < index);
            if !is_next || index >> (self.asked.depth - self.level) > 0 {
                return Err(bad("BadOrder"));
            }
            if self.known.len() + self.heard.len() >= self.most() {
                return Err(bad("TooMany"));
            }
            if self.level > 0 && count >= self.asked.at_least {
                return Err(bad("HeavySibling"));
            }
            if self.level == 0 && count >= self.asked.at_least {
                self.found.push(Entry { index, value: count as i64 });
            }
            self.heard.push(Node { index, hash, count });
        }
        Ok(())
    }

    /// Tests the level, and goes up by its challenge. Two nodes of one index are no pair.
    pub fn end(&mut self, r: u64) -> Result<()> {
        merge(&self.known, &self.heard, &mut self.merged);
        let pairs = self.merged.chunks(2);
        let is_pair = |pair: &[Node]| pair.len() == 2 && pair[0].index % 2 == 0 && pair[0].index + 1 == pair[1].index;
        let sum = |pair: &[Node]| pair[0].count + pair[1].count;
        if !pairs.clone().all(is_pair) || (self.merged.is_empty() && self.level + 1 == self.asked.depth) {
            return Err(bad("Pairs"));
        }
        if pairs.clone().any(|pair| sum(pair) < self.asked.at_least) {
            return Err(bad("LightParent"));
        }
        if pairs.clone().any(|pair| sum(pair) > self.asked.total) {
            return Err(bad("Total"));
        }
        let challenge = Challenge::new(r);
        self.known.clear();
        self.known.extend(pairs.map(|pair| challenge.above(pair[0], pair[1])));
        self.heard.clear();
        self.level += 1;
        Ok(())
    }

    /// The entries that were found, where the root is this.
    pub fn finish(self, hash: u64) -> Result<Vec<Entry>> {
        match self.known[..] {
            [root] if root.count != self.asked.total => Err(bad("Total")),
            [root] if root.hash == hash => Ok(self.found),
            _ => Err(bad("Root")),
        }
    }
}

/// Makes `out` the nodes of two lists that rise.
fn merge(known: &[Node], heard: &[Node], out: &mut Vec<Node>) {
    out.clear();
    let (mut i, mut j) = (0, 0);
    while i < known.len() && j < heard.len() {
        let is_known = known[i].index <= heard[j].index;
        out.push(if is_known { known[i] } else { heard[j] });
        i += usize::from(is_known);
        j += usize::from(!is_known);
    }
    out.extend_from_slice(&known[i..]);
    out.extend_from_slice(&heard[j..]);
}
