//! The parts of `crates/sip_bench` in plain Rust, with nothing proved, by two designs (`plain/mod.rs`). It prints the same lines.
//!
//!     yardstick plain|limit PART-DEPTH..

mod plain;

use plain::blocks::Seat;
use plain::field::{of, plus};
use plain::lines::Writer;
use plain::many::Many;
use plain::moments::{Check, Poly, Prover};
use plain::siblings::Tables;
use plain::streams::{Made, NARROW, Reader, Update, WIDE};
use plain::vector::Gathering;
use plain::{Design, Limit, Plain};
use std::env;
use std::io::{Cursor, Result};
use std::process::ExitCode;
use std::time::{Duration, Instant};

const STREAM_SEED: u64 = 1;
const SEAT_SEED: u64 = 2;
const MADE_SEED: u64 = 7;

/// How many updates or records are timed at once, how many blocks a running number gets, and how many are read of a stream.
const BLOCK: usize = 512;
const BLOCKS: usize = 1000;
const READ: usize = 200;
/// How many blocks several numbers get.
const BLOCKS_OF_MANY: usize = 200;
/// How many updates a vector gets, how many queries it is asked, and the last item of each, which begins at item 0.
const UPDATES: u64 = 1_000_000;
const QUERIES: usize = 5;
const LAST: u64 = 999;

/// The linear congruential generator modulo 2^64 of Knuth's MMIX.
struct Generator(u64);

impl Generator {
    fn next(&mut self) -> u64 {
        self.0 = self.0.wrapping_mul(6_364_136_223_846_793_005).wrapping_add(1_442_695_040_888_963_407);
        self.0
    }

    fn update(&mut self, depth: u32) -> Update {
        let word = self.next();
        Update { side: 0, item: (word >> 15) % (1 << depth), delta: (1 + (word >> 12) % 8) as i64 }
    }
}

fn seat(depth: u32) -> Seat {
    seat_of(0, depth)
}

/// The seat of one of several numbers: number 0 has that of `seat`.
fn seat_of(number: u64, depth: u32) -> Seat {
    let mut generator = Generator(SEAT_SEED + number);
    (0..depth).map(|_| of(generator.next())).collect()
}

fn line(name: &str, depth: u32, count: u64, time: Duration, checksum: u64) {
    println!("{name} {depth} {count} {} {checksum}", time.as_nanos());
}

/// The least time of turns, so many, and what the last one gave.
fn least<T>(turns: usize, mut turn: impl FnMut() -> T) -> (Duration, T) {
    let mut timed = || {
        let start = Instant::now();
        let given = turn();
        (start.elapsed(), given)
    };
    let (mut time, mut last) = timed();
    for _ in 1..turns {
        let (other, given) = timed();
        time = time.min(other);
        last = given;
    }
    (time, last)
}

/// The blocks alone, which are no number's: what they cost in the parts below.
fn updates(depth: u32) {
    let mut generator = Generator(STREAM_SEED);
    let mut block = [Update::default(); BLOCK];
    let mut checksum = 0u64;
    for _ in 0..BLOCKS {
        block.fill_with(|| generator.update(depth));
        checksum = block.iter().fold(checksum, |sum, update| sum.wrapping_add(update.item));
    }
    line("updates", depth, BLOCK as u64, Duration::ZERO, checksum);
}

/// Blocks of updates, each for so many numbers. The least time of a block is taken.
fn fed<M: Many>(name: &str, depth: u32, count: u64) {
    let mut numbers = M::of((0..count).map(|number| seat_of(number, depth)).collect());
    let mut generator = Generator(STREAM_SEED);
    let mut block = [Update::default(); BLOCK];
    let mut time = Duration::MAX;
    for _ in 0..if count == 1 { BLOCKS } else { BLOCKS_OF_MANY } {
        block.fill_with(|| generator.update(depth));
        let (spent, ()) = least(1, || numbers.update_all(&block));
        time = time.min(spent);
    }
    line(name, depth, BLOCK as u64 * count, time, numbers.values().iter().fold(0, |sum, value| sum.wrapping_add(*value)));
}

/// The bytes of a made stream, in the form that `put` writes.
fn made(depth: u32, mut put: impl FnMut(&mut Writer<&mut Vec<u8>>, &Update) -> Result<()>) -> Vec<u8> {
    let mut bytes = Vec::new();
    let mut writer = Writer::new(&mut bytes);
    let mut made = Made::new(MADE_SEED, depth);
    for _ in 0..BLOCK * READ {
        put(&mut writer, &made.next_update()).unwrap();
    }
    writer.flush().unwrap();
    bytes
}

fn made_records<const SIZE: usize>(depth: u32) -> Vec<u8> {
    made(depth, |writer, update| writer.record::<SIZE>(update))
}

fn made_lines(depth: u32) -> Vec<u8> {
    made(depth, |writer, update| writer.line(update))
}

/// The bytes alone, which nothing reads: what they cost in a part that reads them.
fn bytes(name: &str, depth: u32, bytes: Vec<u8>) {
    line(name, depth, BLOCK as u64, Duration::ZERO, bytes.len() as u64);
}

fn checksum_with(checksum: u64, update: &Update) -> u64 {
    checksum.wrapping_mul(3).wrapping_add(update.item + u64::from(update.side)).wrapping_add(update.delta as u64)
}

fn records<const SIZE: usize>(depth: u32) {
    let mut reader = Reader::new(Cursor::new(made_records::<SIZE>(depth)), depth);
    let mut checksum = 0;
    let (time, ()) = least(READ, || {
        let records = reader.records::<SIZE>(BLOCK, |update| checksum = checksum_with(checksum, &update)).unwrap();
        assert_eq!(records.len(), SIZE * BLOCK);
    });
    line("records", depth, BLOCK as u64, time, checksum);
}

fn text<D: Design>(depth: u32) {
    let mut reader = Reader::new(Cursor::new(made_lines(depth)), depth);
    let mut checksum = 0;
    let (time, ()) = least(READ, || {
        let count = D::lines(&mut reader, BLOCK, |update| checksum = checksum_with(checksum, &update)).unwrap();
        assert_eq!(count, BLOCK);
    });
    line("text", depth, BLOCK as u64, time, checksum);
}

/// A vector of updates, settled, and the time that they took.
fn gathered<D: Design>(depth: u32) -> (Duration, D::Vector) {
    let mut vector = D::Vector::new(depth);
    let mut generator = Generator(STREAM_SEED);
    let start = Instant::now();
    for _ in 0..UPDATES {
        let update = generator.update(depth);
        vector.add(update.item, update.delta);
    }
    vector.settle();
    (start.elapsed(), vector)
}

fn vector<D: Design>(depth: u32) {
    let (time, vector) = gathered::<D>(depth);
    line("vector", depth, UPDATES, time, vector.list().iter().map(|entry| entry.value).sum::<i64>().unsigned_abs());
}

/// The sum of all siblings of one query, level by level. It begins at item 0, so that none is a left one.
fn all_siblings<D: Design>(seat: &Seat, vector: &D::Vector) -> u64 {
    let mut tables = Tables::default();
    let mut sum = 0;
    for (level, &r) in seat.iter().enumerate() {
        let hi = LAST >> level;
        if hi % 2 == 0 {
            sum = plus(sum, D::weighed(&tables, tables.stretch(vector.list(), hi + 1)));
        }
        tables.learn(r);
    }
    sum
}

/// Queries about a vector, one like the other. The least time of one is taken.
fn siblings<D: Design>(depth: u32) {
    let (_, vector) = gathered::<D>(depth);
    let seat = seat(depth);
    let (time, sum) = least(QUERIES, || all_siblings::<D>(&seat, &vector));
    line("siblings", depth, vector.list().len() as u64, time, sum);
}

/// A vector of updates of 1, a million or as many as leave room for a moment of the degree in a claim.
fn ones<D: Design>(depth: u32, degree: u32) -> D::Vector {
    let is_light = |count: &u64| count.checked_pow(degree).is_some_and(|moment| moment < 1 << 60);
    let count = (1..=UPDATES).rev().find(is_light).unwrap_or_default();
    let mut vector = D::Vector::new(depth);
    let mut generator = Generator(STREAM_SEED);
    for _ in 0..count {
        vector.add(generator.update(depth).item, 1);
    }
    vector.settle();
    vector
}

/// The claim of a moment, and the polynomials of all rounds.
fn all_polynomials<D: Design>(seat: &Seat, vector: &D::Vector, degree: u32) -> (i64, Vec<Poly>) {
    let (claim, mut prover) = Prover::new(seat.len() as u32, vector.list(), degree as usize);
    let mut polynomials = vec![prover.padded_poly()];
    for &r in &seat[..seat.len() - 1] {
        prover.learn::<D::Products>(r);
        polynomials.push(prover.padded_poly());
    }
    (claim, polynomials)
}

/// The helper's end of a moment, from the vector to the last polynomial.
fn moment<D: Design>(name: &str, depth: u32, degree: u32) {
    let (seat, vector) = (seat(depth), ones::<D>(depth, degree));
    let (time, (_, polynomials)) = least(QUERIES, || all_polynomials::<D>(&seat, &vector, degree));
    let checksum = polynomials.iter().flatten().fold(0u64, |sum, coefficient| sum.wrapping_mul(3).wrapping_add(*coefficient));
    line(name, depth, vector.list().len() as u64, time, checksum);
}

/// The verifier's tests of all rounds of a moment.
fn moment_check<D: Design>(name: &str, depth: u32, degree: u32) {
    let (seat, vector) = (seat(depth), ones::<D>(depth, degree));
    let (claim, polynomials) = all_polynomials::<D>(&seat, &vector, degree);
    let (time, count) = least(READ, || {
        let mut check = Check::new(claim);
        polynomials.iter().zip(&seat).filter(|(poly, r)| check.round(&poly[..=degree as usize], **r)).count()
    });
    line(name, depth, u64::from(depth), time, count as u64);
}

fn part<D: Design>(name: &str, depth: u32) {
    match name {
        "updates" => updates(depth),
        "recordbytes" if depth > 32 => bytes(name, depth, made_records::<WIDE>(depth)),
        "recordbytes" => bytes(name, depth, made_records::<NARROW>(depth)),
        "textbytes" => bytes(name, depth, made_lines(depth)),
        "root" => fed::<D::Roots>(name, depth, 1),
        "point" => fed::<D::Points>(name, depth, 1),
        "augroot" => fed::<D::AugRoots>(name, depth, 1),
        "root16" => fed::<D::Roots>(name, depth, 16),
        "root64" => fed::<D::Roots>(name, depth, 64),
        "point16" => fed::<D::Points>(name, depth, 16),
        "point64" => fed::<D::Points>(name, depth, 64),
        "augroot16" => fed::<D::AugRoots>(name, depth, 16),
        "augroot64" => fed::<D::AugRoots>(name, depth, 64),
        "records" if depth > 32 => records::<WIDE>(depth),
        "records" => records::<NARROW>(depth),
        "text" => text::<D>(depth),
        "vector" => vector::<D>(depth),
        "siblings" => siblings::<D>(depth),
        "moment3" => moment::<D>(name, depth, 3),
        "moment8" => moment::<D>(name, depth, 8),
        "momentcheck3" => moment_check::<D>(name, depth, 3),
        "momentcheck8" => moment_check::<D>(name, depth, 8),
        _ => eprintln!("yardstick: no such part: {name}"),
    }
}

fn main() -> ExitCode {
    let words: Vec<String> = env::args().skip(1).collect();
    let Some((design, parts)) = words.split_first() else {
        return ExitCode::FAILURE;
    };
    for word in parts {
        let Some((name, depth)) = word.split_once('-').and_then(|(name, depth)| Some((name, depth.parse().ok()?))) else {
            return ExitCode::FAILURE;
        };
        match design.as_str() {
            "plain" => part::<Plain>(name, depth),
            "limit" => part::<Limit>(name, depth),
            _ => return ExitCode::FAILURE,
        }
    }
    ExitCode::SUCCESS
}
