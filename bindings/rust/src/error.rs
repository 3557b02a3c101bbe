//! Why a call did nothing, and how asking ended.

use crate::raw::{text_of, EndingCode, OK};
use std::fmt;

/// Why a call did nothing.
#[derive(Clone, Copy, Debug, PartialEq, Eq, Hash)]
pub enum Error {
    /// Memory was refused.
    NoMemory,
    /// The call is not for this step.
    NotNow,
    /// A count or a length is out of its range.
    BadLength,
    /// A number has no room, or stands for nothing.
    BadCode,
    /// The depth is not 1 to 48.
    BadDepth,
    /// The part is not 1 to the number of parts.
    BadPart,
    /// The seed gives no challenge.
    SeedSpent,
    /// The bytes are no sketch: at this offset the first field begins that has none of its values.
    BadSketch {
        /// In bytes, from 0.
        offset: usize,
    },
    /// An update may not come behind those before it.
    BadUpdate {
        /// Its place, from 0.
        at: usize,
        /// Why it may not.
        why: BadUpdate,
    },
    /// A side of the sum of two parts would weigh more than 2^30 - 1.
    TooHeavy,
    /// A part has another depth, number of parts, kinds of seats or challenges.
    OtherShape,
    /// All parts are in the part: a sum of it would be a copy that could be asked again.
    Whole,
    /// A question has used a seat of the part.
    UsedSeat,
    /// The part's first part is not the one behind the sketch's last.
    NotNext,
    /// Not all parts of the stream are in the sketch.
    NotWhole,
    /// A question may not be asked.
    Unasked {
        /// Its number, from 1.
        question: u8,
        /// Why it may not.
        why: Unasked,
    },
    /// A status that the call never answers.
    Other(u32),
}

/// Why an update may not come.
#[derive(Clone, Copy, Debug, PartialEq, Eq, Hash)]
pub enum BadUpdate {
    /// Its side is not 0 or 1.
    Side,
    /// Its item is not below 2^depth.
    Item,
    /// Its delta is 0.
    ZeroDelta,
    /// With it its side would weigh more than 2^30 - 1.
    TooHeavy,
}

/// Why a question may not be asked.
#[derive(Clone, Copy, Debug, PartialEq, Eq, Hash)]
pub enum Unasked {
    /// It does not fit the depth.
    Unfit,
    /// It is for heavy hitters of a side that had a delta below 0.
    Signed,
    /// No unused seat serves it.
    NoSeat,
    /// Its answer may have more entries than a reply has room for.
    TooWide,
    /// It is a moment that may be greater than a claim.
    TooHigh,
}

impl Error {
    // The error of a status of which its number says all.
    pub(crate) fn of(status: u32) -> Option<Error> {
        let error = match status {
            OK => return None,
            1 => Error::NoMemory,
            6 => Error::NotNow,
            7 => Error::BadLength,
            8 => Error::BadCode,
            16 => Error::BadDepth,
            17 => Error::BadPart,
            18 => Error::SeedSpent,
            19 => Error::BadSketch { offset: 0 },
            27 => Error::TooHeavy,
            32 => Error::OtherShape,
            33 => Error::Whole,
            34 => Error::UsedSeat,
            35 => Error::NotNext,
            40 => Error::NotWhole,
            other => Error::Other(other),
        };
        Some(error)
    }

    // The same for updates, the first bad one of which has this place.
    pub(crate) fn at(status: u32, at: usize) -> Result<(), Error> {
        let why = match status {
            24 => BadUpdate::Side,
            25 => BadUpdate::Item,
            26 => BadUpdate::ZeroDelta,
            27 => BadUpdate::TooHeavy,
            other => return told(other),
        };
        Err(Error::BadUpdate { at, why })
    }

    // The same for questions, with this number of the one that is meant.
    pub(crate) fn of_question(status: u32, question: u8) -> Result<(), Error> {
        let why = match status {
            41 => Unasked::Unfit,
            42 => Unasked::Signed,
            43 => Unasked::NoSeat,
            44 => Unasked::TooWide,
            45 => Unasked::TooHigh,
            other => return told(other),
        };
        Err(Error::Unasked { question, why })
    }

    fn status(self) -> u32 {
        match self {
            Error::NoMemory => 1,
            Error::NotNow => 6,
            Error::BadLength => 7,
            Error::BadCode => 8,
            Error::BadDepth => 16,
            Error::BadPart => 17,
            Error::SeedSpent => 18,
            Error::BadSketch { .. } => 19,
            Error::BadUpdate { why, .. } => match why {
                BadUpdate::Side => 24,
                BadUpdate::Item => 25,
                BadUpdate::ZeroDelta => 26,
                BadUpdate::TooHeavy => 27,
            },
            Error::TooHeavy => 27,
            Error::OtherShape => 32,
            Error::Whole => 33,
            Error::UsedSeat => 34,
            Error::NotNext => 35,
            Error::NotWhole => 40,
            Error::Unasked { why, .. } => match why {
                Unasked::Unfit => 41,
                Unasked::Signed => 42,
                Unasked::NoSeat => 43,
                Unasked::TooWide => 44,
                Unasked::TooHigh => 45,
            },
            Error::Other(status) => status,
        }
    }
}

/// The error of a status of which its number says all.
pub(crate) fn told(status: u32) -> Result<(), Error> {
    Error::of(status).map_or(Ok(()), Err)
}

impl fmt::Display for Error {
    fn fmt(&self, to: &mut fmt::Formatter<'_>) -> fmt::Result {
        let text = text_of(self.status());
        match self {
            Error::BadSketch { offset } => write!(to, "{text}: at offset {offset}"),
            Error::BadUpdate { at, .. } => write!(to, "{text}: update {at}"),
            Error::Unasked { question, .. } => write!(to, "{text}: question {question}"),
            Error::Other(status) => write!(to, "{text}: status {status}"),
            _ => to.write_str(&text),
        }
    }
}

impl std::error::Error for Error {}

/// Why replies were rejected.
#[derive(Clone, Copy, Debug, PartialEq, Eq, Hash)]
pub enum Reason {
    /// The other end closed inside the reply.
    Closed,
    /// A frame that may not stand there.
    BadKind,
    /// A length that the frame does not have.
    BadLength,
    /// A count, a code or flags that do not fit the length.
    BadCount,
    /// A number out of its range.
    BadNumber,
    /// The other end refused, with this code.
    Refused(u8),
    /// An item out of order, out of place or known already.
    BadOrder,
    /// More than an answer may have.
    TooMany,
    /// Other siblings than were asked for.
    BadFlags,
    /// A node that would have to be shown is hidden.
    HeavySibling,
    /// A node without its sibling.
    Pairs,
    /// A pair that need not be shown.
    LightParent,
    /// A round polynomial that does not sum to what it must.
    Sum,
    /// Another total.
    Total,
    /// Another value at the end than the sketch has.
    Root,
    /// A place that answers no such question.
    BadFound,
    /// Other entries between.
    NotAlone,
}

impl Reason {
    fn of(code: u8, refusal: u8) -> Reason {
        match code {
            1 => Reason::Closed,
            2 => Reason::BadKind,
            3 => Reason::BadLength,
            4 => Reason::BadCount,
            5 => Reason::BadNumber,
            6 => Reason::Refused(refusal),
            7 => Reason::BadOrder,
            8 => Reason::TooMany,
            9 => Reason::BadFlags,
            10 => Reason::HeavySibling,
            11 => Reason::Pairs,
            12 => Reason::LightParent,
            13 => Reason::Sum,
            14 => Reason::Total,
            15 => Reason::Root,
            16 => Reason::BadFound,
            _ => Reason::NotAlone,
        }
    }
}

/// How asking ended.
#[derive(Clone, Copy, Debug, PartialEq, Eq, Hash)]
pub enum Ended {
    /// Each question was answered.
    Answered,
    /// The replies to a question have a fault: they are not believed.
    Rejected {
        /// The question's number, from 1.
        question: u8,
        /// The number of the reply, or the depth behind the last.
        round: u8,
        /// What is wrong with it.
        reason: Reason,
    },
    /// The other end holds another stream.
    OutOfStep {
        /// How many records it holds.
        records: u64,
        /// Their weight, by the side.
        weights: [u64; 2],
        /// Their fingerprint.
        fingerprint: u64,
    },
    /// What came first does not say what the other end holds.
    BadFrame,
    /// The other end closed before the end of the talk.
    PeerClosed,
    /// Memory was refused for a question.
    NoMemory,
}

impl Ended {
    // None where it has not.
    pub(crate) fn of(status: u32, code: EndingCode) -> Option<Ended> {
        match status {
            OK => Some(Ended::Answered),
            1 => Some(Ended::NoMemory),
            48 => Some(Ended::Rejected {
                question: code.question,
                round: code.round,
                reason: Reason::of(code.reason, code.refusal),
            }),
            49 => Some(Ended::OutOfStep {
                records: code.records,
                weights: code.weights,
                fingerprint: code.fingerprint,
            }),
            50 => Some(Ended::BadFrame),
            51 => Some(Ended::PeerClosed),
            _ => None,
        }
    }
}

impl fmt::Display for Ended {
    fn fmt(&self, to: &mut fmt::Formatter<'_>) -> fmt::Result {
        match self {
            Ended::Answered => to.write_str("each question was answered"),
            Ended::NoMemory => to.write_str(&text_of(1)),
            Ended::Rejected {
                question,
                round,
                reason,
            } => {
                let text = text_of(48);
                write!(to, "{text}: question {question}, reply {round}, {reason:?}")
            }
            Ended::OutOfStep { records, .. } => {
                let text = text_of(49);
                write!(to, "{text}: {records} records")
            }
            Ended::BadFrame => to.write_str(&text_of(50)),
            Ended::PeerClosed => to.write_str(&text_of(51)),
        }
    }
}
