//! Both ends of a talk, and copies of a stream and of a transcript, in plain Rust: the frames, the reports and the bytes of `sip`, with nothing proved.
//!
//!     talk plain|limit help FROM TO
//!     talk plain|limit verify STREAM SEED FROM TO - DEPTH QUERY..
//!     talk plain|limit helpmom|helplook FROM TO
//!     talk plain|limit moments|lookup STREAM SEED FROM TO DEPTH QUESTION..
//!     talk plain|limit gen NUMBER COUNT DEPTH
//!     talk plain|limit lines STREAM DEPTH
//!     talk plain|limit convert TRANSCRIPT
//!
//! The words behind the first are those of `sip`; the first says by which designs (`plain/mod.rs`). STREAM is a file of records, or
//! `text:` and one of lines; of a depth above 32 a file of records is `wide:` and its path. A query is `sub:LO:HI`,
//! `range:SIDE:LO:HI`, `f2:SIDE`, `inner` or `heavy:SIDE:T`; a moment `moment:SIDE:K`; and a lookup `index:I`, `pred:I` or `succ:I`.

mod plain;

use plain::lines::Writer;
use plain::questions::Talk;
use plain::streams::{Made, NARROW, Reader, Update, WIDE, bad};
use plain::verifier::Place;
use plain::{Design, Limit, Plain};
use std::env;
use std::fs::File;
use std::io::{Error, Result, stdout};
use std::process::ExitCode;

fn number(word: &str) -> Result<u64> {
    word.parse().map_err(Error::other)
}

fn depth(word: &str) -> Result<u32> {
    match number(word)? {
        depth @ 1..=48 => Ok(depth as u32),
        _ => Err(bad("no depth")),
    }
}

fn generate(seed: u64, count: u64, depth: u32) -> Result<()> {
    let mut made = Made::new(seed, depth);
    let mut out = Writer::new(stdout().lock());
    for _ in 0..count {
        let update = made.next_update();
        if depth > 32 { out.record::<WIDE>(&update)? } else { out.record::<NARROW>(&update)? }
    }
    out.flush()
}

/// How many records are copied at once.
const BLOCK: usize = 512;

/// Writes a stream as lines. A block of its records is given by a function, which answers how many there were.
fn copy(path: &str, depth: u32, block: impl Fn(&mut Reader, &mut dyn FnMut(Update)) -> Result<usize>) -> Result<()> {
    let mut reader = Reader::new(File::open(path)?, depth);
    let mut out = Writer::new(stdout().lock());
    loop {
        let mut written = Ok(());
        let mut write = |update| {
            if written.is_ok() {
                written = out.line(&update);
            }
        };
        let count = block(&mut reader, &mut write)?;
        written?;
        if count < BLOCK {
            return out.flush();
        }
    }
}

fn lines<D: Design>(stream: &str, depth: u32) -> Result<()> {
    if let Some(path) = stream.strip_prefix("wide:") {
        return copy(path, depth, |reader, each| Ok(reader.records::<WIDE>(BLOCK, each)?.len() / WIDE));
    }
    if let Some(path) = stream.strip_prefix("text:") {
        return copy(path, depth, |reader, each| D::lines(reader, BLOCK, each));
    }
    copy(stream, depth, |reader, each| Ok(reader.records::<NARROW>(BLOCK, each)?.len() / NARROW))
}

/// What a command talks about, at the helper's end and at the verifier's.
fn helping(verb: &str) -> Option<Talk> {
    match verb {
        "help" => Some(Talk::Queries),
        "helpmom" => Some(Talk::Moments),
        "helplook" => Some(Talk::Lookups),
        _ => None,
    }
}

fn asking(verb: &str) -> Option<Talk> {
    match verb {
        "moments" => Some(Talk::Moments),
        "lookup" => Some(Talk::Lookups),
        _ => None,
    }
}

fn obey<D: Design>(words: &[String]) -> Result<()> {
    match words {
        [verb, from, to] if let Some(talk) = helping(verb) => plain::helper::help::<D>(talk, from, to),
        [verb, stream, seed, from, to, _, levels, queries @ ..] if verb == "verify" => {
            let place = Place { talk: Talk::Queries, from, to };
            plain::verifier::verify::<D>(place, stream, seed, depth(levels)?, queries)
        }
        [verb, stream, seed, from, to, levels, questions @ ..] if let Some(talk) = asking(verb) => {
            plain::verifier::verify::<D>(Place { talk, from, to }, stream, seed, depth(levels)?, questions)
        }
        [verb, seed, count, levels] if verb == "gen" => generate(number(seed)?, number(count)?, depth(levels)?),
        [verb, stream, levels] if verb == "lines" => lines::<D>(stream, depth(levels)?),
        [verb, transcript] if verb == "convert" => plain::transcripts::convert(transcript),
        _ => Err(bad("no such command")),
    }
}

fn main() -> ExitCode {
    let words: Vec<String> = env::args().skip(1).collect();
    let done = match words.split_first() {
        Some((design, words)) if design == "plain" => obey::<Plain>(words),
        Some((design, words)) if design == "limit" => obey::<Limit>(words),
        _ => Err(bad("no such design")),
    };
    match done {
        Ok(()) => ExitCode::SUCCESS,
        Err(error) => {
            eprintln!("talk: {error}");
            ExitCode::FAILURE
        }
    }
}
