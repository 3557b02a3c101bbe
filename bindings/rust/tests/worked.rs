//! The worked sketch and the worked talk, and each error that a caller can bring about.

use sip::{
    ask, Answer, AskFault, Asking, BadUpdate, Ended, Entry, Error, Form, Part, Question, Reason,
    Run, RunWants, SeatKind, Sketch, Unasked, Update, Value, Wants,
};
use std::io::{self, Read, Write};

const SEED: [u8; 32] = [0; 32];
const KINDS: [SeatKind; 2] = [SeatKind::Entries, SeatKind::Sums0];
const SUB: Question = Question::Sub { lo: 1, hi: 2 };

fn update(item: u64, delta: i64) -> Update {
    Update {
        item,
        delta,
        side: 0,
    }
}

// Behind its three updates side 0 is (3, 0, 5, 1).
fn three() -> Sketch {
    let mut sketch = Sketch::begin(&SEED, 2, &KINDS).unwrap();
    sketch
        .update(&[update(0, 3), update(2, 5), update(3, 1)])
        .unwrap();
    sketch
}

fn bytes_of(hex: &str) -> Vec<u8> {
    let digits: String = hex.split_whitespace().collect();
    (0..digits.len())
        .step_by(2)
        .map(|at| u8::from_str_radix(&digits[at..at + 2], 16).unwrap())
        .collect()
}

const HELD: &str = "26 0020 0000000000000003 0000000000000009 0000000000000000 b8261ae7db4fab00";
const OPENED: &str = "01 0002 01 02 27 0008 0000000000000003";
const ASKED: &str = "04 0009 01 00000001 00000002";
const SHOWN: &str = "13 000e 0001 00000002 0000000000000005 14 0011 03 0000000000000003 \
                     0000000000000001";
const REVEALED: &str = "05 0008 1207be3415bc170e";
const LAST: &str = "14 0001 00";
const LEFT: &str = "06 0000";

#[test]
fn a_sketch_is_saved_and_loaded() {
    let mut sketch = three();
    sketch.keep_tables().unwrap();
    let file = sketch.save().unwrap();
    assert_eq!(file.len(), 152);
    assert_eq!(file[120..124], [0x53, 0xa7, 0xf3, 0x44]);
    let again = Sketch::load(&file).unwrap();
    let told = again.told();
    assert_eq!(told, sketch.told());
    assert_eq!((told.records, told.weights, told.depth), (3, [9, 0], 2));
    let kinds: Vec<_> = again
        .seats()
        .map(|seat| (seat.kind, seat.is_used))
        .collect();
    assert_eq!(
        kinds,
        [(SeatKind::Entries, false), (SeatKind::Sums0, false)]
    );
    let mut by_records = Sketch::begin(&SEED, 2, &KINDS).unwrap();
    let mut records = vec![];
    for (item, delta) in [(0u32, 3i64), (2, 5), (3, 1)] {
        records.push(0);
        records.extend(item.to_be_bytes());
        records.extend(delta.to_be_bytes());
    }
    by_records.update_records(Form::Binary, &records).unwrap();
    assert_eq!(by_records.save().unwrap(), file);
}

#[test]
fn parts_add_up() {
    let begin = |number| Sketch::begin_part(&SEED, 2, Part { number, of: 2 }, &KINDS).unwrap();
    let (mut one, mut two) = (begin(1), begin(2));
    one.update(&[update(0, 3)]).unwrap();
    two.update(&[update(2, 5), update(3, 1)]).unwrap();
    assert_eq!(two.absorb(&one), Err(Error::NotNext));
    one.absorb(&two).unwrap();
    assert_eq!(one.told().fingerprint, three().told().fingerprint);
    assert_eq!(two.absorb(&one), Err(Error::Whole));
}

#[test]
fn what_is_refused_is_named() {
    assert_eq!(
        Sketch::begin(&SEED, 49, &KINDS).unwrap_err(),
        Error::BadDepth
    );
    assert_eq!(Sketch::begin(&SEED, 2, &[]).unwrap_err(), Error::BadLength);
    let part = Part { number: 3, of: 2 };
    assert_eq!(
        Sketch::begin_part(&SEED, 2, part, &KINDS).unwrap_err(),
        Error::BadPart
    );
    let mut file = three().save().unwrap();
    file[4] = 9;
    let error = Sketch::load(&file).unwrap_err();
    assert_eq!(error, Error::BadSketch { offset: 4 });
    assert_eq!(error.to_string(), "the bytes are no sketch: at offset 4");
    let mut sketch = three();
    for (bad, why) in [
        (update(4, 1), BadUpdate::Item),
        (update(1, 0), BadUpdate::ZeroDelta),
        (update(1, 1 << 30), BadUpdate::TooHeavy),
        (
            Update {
                item: 1,
                delta: 1,
                side: 2,
            },
            BadUpdate::Side,
        ),
    ] {
        let error = sketch.update(&[update(1, 1), bad]).unwrap_err();
        assert_eq!(error, Error::BadUpdate { at: 1, why });
    }
    assert_eq!(
        sketch.update_records(Form::Wide, &[0; 16]),
        Err(Error::BadLength)
    );
    assert_eq!(sketch.told(), three().told());
}

#[test]
fn a_refused_sketch_is_given_back() {
    let refused = Asking::begin(three(), &[SUB, Question::Index(0)]).unwrap_err();
    assert_eq!(
        refused.error,
        Error::Unasked {
            question: 2,
            why: Unasked::NoSeat
        }
    );
    assert_eq!(
        refused.to_string(),
        "no unused seat serves a question: question 2"
    );
    assert_eq!(refused.sketch.told(), three().told());
    let refused = Asking::begin(refused.sketch, &[]).unwrap_err();
    assert_eq!(refused.error, Error::BadLength);
}

#[test]
fn a_sketch_is_asked_step_by_step() {
    let mut asking = Asking::begin(three(), &[SUB]).unwrap();
    assert_eq!(
        (asking.wants(), asking.due()),
        (Wants::Send, bytes_of(OPENED))
    );
    let held = bytes_of(HELD);
    assert_eq!(asking.wants(), Wants::Bytes);
    assert_eq!(
        asking.feed(&held[..7]) + asking.feed(&held[7..]),
        held.len()
    );
    assert_eq!(asking.wants(), Wants::Store);
    let file = asking.to_store().unwrap();
    assert!(Sketch::load(&file).unwrap().seats().next().unwrap().is_used);
    assert_eq!(asking.go_on(), Err(Error::NotNow));
    asking.stored().unwrap();
    assert_eq!(asking.stored(), Err(Error::NotNow));
    assert_eq!(asking.due(), bytes_of(ASKED));
    let shown = bytes_of(SHOWN);
    assert_eq!(asking.feed(&shown), shown.len());
    assert_eq!(asking.due(), bytes_of(REVEALED));
    assert_eq!(asking.answer(), None);
    assert_eq!(asking.feed(&bytes_of("14 0001 00 ff ff")), 4);
    let value = Value::Pairs(vec![Entry { item: 2, value: 5 }]);
    assert_eq!(asking.answer(), Some(Answer { question: 1, value }));
    assert_eq!(asking.ended(), None);
    asking.go_on().unwrap();
    assert_eq!(asking.due(), bytes_of(LEFT));
    assert_eq!(
        (asking.wants(), asking.ended()),
        (Wants::Nothing, Some(Ended::Answered))
    );
}

// A link whose other end says what was worked out, and keeps what it is told.
struct Link {
    replies: Vec<u8>,
    at: usize,
    sent: Vec<u8>,
}

impl Read for Link {
    fn read(&mut self, to: &mut [u8]) -> io::Result<usize> {
        let left = &self.replies[self.at..];
        let count = left.len().min(to.len());
        to[..count].copy_from_slice(&left[..count]);
        self.at += count;
        Ok(count)
    }
}

impl Write for Link {
    fn write(&mut self, bytes: &[u8]) -> io::Result<usize> {
        self.sent.extend(bytes);
        Ok(bytes.len())
    }

    fn flush(&mut self) -> io::Result<()> {
        Ok(())
    }
}

fn link(replies: &[&str]) -> Link {
    Link {
        replies: bytes_of(&replies.concat()),
        at: 0,
        sent: vec![],
    }
}

#[test]
fn a_sketch_is_asked_over_a_link() {
    let mut link = link(&[HELD, SHOWN, LAST]);
    let mut asking = Asking::begin(three(), &[SUB]).unwrap();
    let (mut files, mut answers) = (vec![], vec![]);
    let store = |file: &[u8]| {
        files.push(file.to_vec());
        Ok(())
    };
    ask(&mut asking, &mut link, store, |answer| answers.push(answer)).unwrap();
    assert_eq!(
        link.sent,
        bytes_of(&[OPENED, ASKED, REVEALED, LEFT].concat())
    );
    assert_eq!((files.len(), answers.len()), (1, 1));
}

// Of (0, 5, -9, 3), which was added with the weights (0, 5, 9, 5), no entry is 6 or more.
#[test]
fn large_entries_are_asked_whatever_was_added() {
    let mut sketch = Sketch::begin(&SEED, 2, &[SeatKind::Above0]).unwrap();
    sketch
        .update(&[update(1, 5), update(2, -9), update(3, 4), update(3, -1)])
        .unwrap();
    assert_eq!(sketch.seats().next().unwrap().kind, SeatKind::Above0);
    let large = Question::Above {
        side: 0,
        at_least: 6,
    };
    let mut link = link(&[
        "26 0020 0000000000000004 0000000000000013 0000000000000000 da3a3f7e3cbe724e",
        "28 0032 0002 0000000000000002 fffffffffffffff7 0000000000000009",
        "0000000000000003 0000000000000003 0000000000000005 17 0000",
        "16 001a 0001 0000000000000000 08fa4650cfaca6d1 0000000000000005 17 0000",
    ]);
    let mut asking = Asking::begin(sketch, &[large]).unwrap();
    let mut answers = vec![];
    ask(
        &mut asking,
        &mut link,
        |_| Ok(()),
        |answer| answers.push(answer),
    )
    .unwrap();
    let value = Value::Pairs(vec![]);
    assert_eq!(answers, [Answer { question: 1, value }]);
}

#[test]
fn a_lie_is_rejected() {
    let lie = SHOWN.replace("0000000000000005", "0000000000000006");
    let mut link = link(&[HELD, &lie, LAST]);
    let mut asking = Asking::begin(three(), &[SUB]).unwrap();
    let fault = ask(&mut asking, &mut link, |_| Ok(()), |_| panic!("an answer")).unwrap_err();
    let AskFault::Ended(ended) = fault else {
        panic!("{fault}")
    };
    let reason = Reason::Root;
    assert_eq!(
        ended,
        Ended::Rejected {
            question: 1,
            round: 2,
            reason
        }
    );
}

#[test]
fn other_ends_are_told_apart() {
    for (replies, wanted) in [
        ("", Ended::PeerClosed),
        ("06 0000", Ended::BadFrame),
        (
            "26 0020 0000000000000002 0000000000000008 0000000000000000 0000000000000001",
            Ended::OutOfStep {
                records: 2,
                weights: [8, 0],
                fingerprint: 1,
            },
        ),
    ] {
        let mut asking = Asking::begin(three(), &[SUB]).unwrap();
        let fault = ask(&mut asking, &mut link(&[replies]), |_| Ok(()), |_| ()).unwrap_err();
        let AskFault::Ended(ended) = fault else {
            panic!("{fault}")
        };
        assert_eq!(ended, wanted);
    }
    let mut asking = Asking::begin(three(), &[SUB]).unwrap();
    let store = |_: &[u8]| Err(io::Error::other("no room on the disk"));
    let fault = ask(&mut asking, &mut link(&[HELD]), store, |_| ()).unwrap_err();
    assert!(matches!(fault, AskFault::Io(_)));
    // Nothing of the question was said, and it is still to be stored.
    assert_eq!(asking.wants(), Wants::Store);
}

#[test]
fn sketches_go_from_thread_to_thread() {
    let sketches: Vec<_> = (0..4)
        .map(|_| {
            let mut sketch = three();
            std::thread::spawn(move || {
                for _ in 0..100 {
                    sketch.update(&[update(1, 1)]).unwrap();
                }
                sketch
            })
        })
        .collect();
    for sketch in sketches {
        assert_eq!(sketch.join().unwrap().told().records, 103);
    }
}

#[test]
fn a_run_is_asked_behind_its_stream() {
    let mut run = Run::begin(&SEED, 2, &[SUB]).unwrap();
    let mut sent = run.due();
    assert_eq!(run.update(&[update(0, 3), update(2, 5)]), Ok(2));
    assert_eq!(run.update(&[update(3, 1)]), Ok(1));
    assert_eq!(
        run.update(&[update(4, 1)]),
        Err(Error::BadUpdate {
            at: 0,
            why: BadUpdate::Item
        })
    );
    run.end().unwrap();
    assert_eq!(
        (run.wants(), run.end()),
        (RunWants::Send, Err(Error::NotNow))
    );
    sent.extend(run.due());
    assert_eq!(sent.len(), 5 + 44 + 3);
    let mut asking = run.ask().unwrap();
    let (mut link, mut answers) = (link(&[SHOWN, LAST]), vec![]);
    ask(
        &mut asking,
        &mut link,
        |_| panic!("a file"),
        |answer| answers.push(answer),
    )
    .unwrap();
    assert_eq!(link.sent, bytes_of(&[ASKED, REVEALED, LEFT].concat()));
    assert_eq!(answers.len(), 1);
}

#[test]
fn a_run_that_is_no_run_is_refused() {
    assert_eq!(Run::begin(&SEED, 0, &[SUB]).unwrap_err(), Error::BadDepth);
    assert_eq!(Run::begin(&SEED, 2, &[]).unwrap_err(), Error::BadLength);
    let wide = [SUB, Question::Sub { lo: 1, hi: 4 }];
    let refused = Error::Unasked {
        question: 2,
        why: Unasked::Unfit,
    };
    assert_eq!(Run::begin(&SEED, 2, &wide).unwrap_err(), refused);
    let run = Run::begin(&SEED, 2, &[SUB]).unwrap();
    assert_eq!(run.ask().unwrap_err(), Error::NotNow);
}
