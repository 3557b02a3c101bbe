//! The helper's end of a talk.

use super::Design;
use super::frames::*;
use super::hitters;
use super::lookups::Look;
use super::moments;
use super::questions::{Question, Talk};
use super::siblings::Tables;
use super::streams::{Legality, NARROW, WIDE, bad, record_of};
use super::sums::Prover;
use super::vector::Gathering;
use std::io::Result;

/// The two sides of a stream.
struct Sides<V> {
    depth: u32,
    legality: Legality,
    vectors: [V; 2],
}

impl<V: Gathering> Sides<V> {
    fn new(depth: u32) -> Sides<V> {
        Sides { depth, legality: Legality::new(depth), vectors: [V::new(depth), V::new(depth)] }
    }

    /// Adds the updates of a frame.
    fn add<const SIZE: usize>(&mut self, body: &[u8]) -> Result<()> {
        for row in rows(body, SIZE)?.chunks_exact(SIZE) {
            let update = record_of::<SIZE>(row);
            if !self.legality.passes(&update) {
                return Err(bad("an update is out of turn"));
            }
            self.vectors[usize::from(update.side)].add(update.item, update.delta);
        }
        Ok(())
    }
}

/// A query for a sub-vector that is open.
struct Part {
    lo: u64,
    hi: u64,
    level: u32,
    tables: Tables,
}

impl Part {
    fn new(lo: u64, hi: u64) -> Part {
        Part { lo, hi, level: 0, tables: Tables::default() }
    }

    fn send_entries<V: Gathering>(&self, vector: &V, depth: u32, frame: &mut Frame, link: &mut Link) -> Result<()> {
        let width = item_width(depth);
        let list = vector.list();
        let from = list.partition_point(|entry| entry.index < self.lo);
        let to = list.partition_point(|entry| entry.index <= self.hi);
        if to - from > MOST_ENTRIES {
            link.send(frame, REFUSE, &[&[2]])?;
            return Err(bad("an answer has too many entries"));
        }
        for entries in list[from..to].chunks(MOST_ROWS) {
            frame.begin(ENTRIES);
            frame.put(&(entries.len() as u16).to_be_bytes());
            for entry in entries {
                frame.put(&entry.index.to_be_bytes()[8 - width..]);
                frame.put(&entry.value.to_be_bytes());
            }
            link.send_frame(frame)?;
        }
        Ok(())
    }

    fn send_siblings<D: Design>(&self, vector: &D::Vector, frame: &mut Frame, link: &mut Link) -> Result<()> {
        let (lo, hi) = (self.lo >> self.level, self.hi >> self.level);
        let (left, right) = (lo % 2 == 1, hi % 2 == 0);
        let node = |index| D::weighed(&self.tables, self.tables.stretch(vector.list(), index)).to_be_bytes();
        frame.begin(SIBLINGS);
        frame.put(&[u8::from(left) + 2 * u8::from(right)]);
        if left {
            frame.put(&node(lo - 1));
        }
        if right {
            frame.put(&node(hi + 1));
        }
        link.send_frame(frame)
    }
}

/// The query that is open.
enum Asked<'a> {
    Part(Part),
    Sum(Prover<'a>),
    Hitters(hitters::Prover),
    Moment(moments::Prover<'a>),
}

fn send_poly(prover: &Prover, frame: &mut Frame, link: &mut Link) -> Result<()> {
    let [c0, c1, c2] = prover.poly().map(u64::to_be_bytes);
    link.send(frame, POLY, &[&c0, &c1, &c2])
}

fn send_power(prover: &moments::Prover, frame: &mut Frame, link: &mut Link) -> Result<()> {
    frame.begin(POWER);
    prover.poly().iter().for_each(|coefficient| frame.put(&coefficient.to_be_bytes()));
    link.send_frame(frame)
}

/// The two vectors and the link of a talk whose stream has ended.
struct Answering<'a, D: Design> {
    sides: &'a Sides<D::Vector>,
    frame: Frame,
    link: Link,
}

impl<'a, D: Design> Answering<'a, D> {
    /// Begins a query, and sends what only its first reply has.
    fn begin(&mut self, question: Question) -> Result<Asked<'a>> {
        let (depth, [first, second]) = (self.sides.depth, &self.sides.vectors);
        let list = |side: usize| self.sides.vectors[side].list();
        let summed = |(claim, prover)| (claim, Asked::Sum(prover));
        let (claim, asked) = match question {
            Question::Sub { lo, hi } => {
                let part = Part::new(lo, hi);
                part.send_entries(first, depth, &mut self.frame, &mut self.link)?;
                return Ok(Asked::Part(part));
            }
            Question::Heavy { side, at_least } => {
                return match hitters::Prover::new(list(side), at_least) {
                    Ok(prover) => Ok(Asked::Hitters(prover)),
                    Err(code) => {
                        self.link.send(&mut self.frame, REFUSE, &[&[code]])?;
                        Err(bad("a query is refused"))
                    }
                };
            }
            Question::Moment { side, degree } => {
                if !self.sides.legality.has_room(side, degree) {
                    return Err(bad("a moment is out of turn"));
                }
                let (claim, prover) = moments::Prover::new(depth, list(side), degree);
                (claim, Asked::Moment(prover))
            }
            Question::Range { side, lo, hi } => summed(Prover::range(depth, list(side), lo, hi)),
            Question::F2 { side } => summed(Prover::squares(depth, list(side))),
            Question::Inner => summed(Prover::products(depth, first.list(), second.list())),
            Question::Look(_) => return Err(bad("a frame is out of turn")),
        };
        self.link.send(&mut self.frame, CLAIM, &[&claim.to_be_bytes()])?;
        Ok(asked)
    }

    /// Says the place of a lookup's answer, and hears the query about its interval.
    fn find(&mut self, look: Look) -> Result<Question> {
        let place = look.place(self.sides.vectors[0].list());
        let index = place.unwrap_or(0).to_be_bytes();
        self.link.send(&mut self.frame, FOUND, &[&[u8::from(place.is_some())], &index])?;
        match self.link.receive()? {
            (QUERY, body) => Question::of_body(body, self.sides.depth),
            _ => Err(bad("a frame is out of turn")),
        }
    }

    /// Sends what all replies have.
    fn reply(&mut self, asked: &Asked) -> Result<()> {
        match asked {
            Asked::Part(part) => part.send_siblings::<D>(&self.sides.vectors[0], &mut self.frame, &mut self.link),
            Asked::Sum(prover) => send_poly(prover, &mut self.frame, &mut self.link),
            Asked::Hitters(prover) => prover.send(item_width(self.sides.depth), &mut self.frame, &mut self.link),
            Asked::Moment(prover) => send_power(prover, &mut self.frame, &mut self.link),
        }
    }

    /// Answers a question to its end.
    fn answer(&mut self, question: Question) -> Result<()> {
        let mut asked = match question {
            Question::Look(look) => {
                let interval = self.find(look)?;
                self.begin(interval)?
            }
            _ => self.begin(question)?,
        };
        self.reply(&asked)?;
        for _ in 1..self.sides.depth {
            let r = match self.link.receive()? {
                (REVEAL, body) if body.len() == 8 => element(body)?,
                _ => return Err(bad("a frame is out of turn")),
            };
            match &mut asked {
                Asked::Part(part) => {
                    part.tables.learn(r);
                    part.level += 1;
                }
                Asked::Sum(prover) => prover.learn::<D::Products>(r),
                Asked::Hitters(prover) => prover.learn(r),
                Asked::Moment(prover) => prover.learn::<D::Products>(r),
            }
            self.reply(&asked)?;
        }
        Ok(())
    }
}

/// The two vectors of the stream that is sent first.
fn gather<D: Design>(link: &mut Link) -> Result<Sides<D::Vector>> {
    let depth = match link.receive()? {
        (OPEN, &[version, depth]) if (1..=48).contains(&depth) && version == 1 + u8::from(depth > 32) => u32::from(depth),
        _ => return Err(bad("a frame is out of turn")),
    };
    let mut sides = Sides::new(depth);
    loop {
        match link.receive()? {
            (UPDATES, body) if depth > MOST_NARROW => sides.add::<WIDE>(body)?,
            (UPDATES, body) => sides.add::<NARROW>(body)?,
            (END_STREAM, []) => break,
            _ => return Err(bad("a frame is out of turn")),
        }
    }
    sides.vectors.iter_mut().for_each(Gathering::settle);
    Ok(sides)
}

pub fn help<D: Design>(talk: Talk, from: &str, to: &str) -> Result<()> {
    let mut link = Link::open(from, to, false)?;
    let sides = gather::<D>(&mut link)?;
    let mut answering = Answering::<D> { sides: &sides, frame: Frame::default(), link };
    loop {
        let question = match answering.link.receive()? {
            (kind, []) if kind == talk.ends() => return Ok(()),
            (kind, body) if kind == talk.asks() => talk.of_body(body, sides.depth)?,
            _ => return Err(bad("a frame is out of turn")),
        };
        answering.answer(question)?;
    }
}
