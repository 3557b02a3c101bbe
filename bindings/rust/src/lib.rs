//! What a verifier of streaming interactive proofs keeps of a stream, and how it asks.
//!
//! A [`Sketch`] keeps a few numbers of a stream of updates, at secret challenges. Later it is asked
//! ([`Asking`]): whoever has the stream answers, and each answer is proved to the sketch. The other
//! end is `sip serve`, or whatever keeps to its protocol.
//!
//! The crate is safe types over a library that is proved: each call of `include/sip.h`, by its
//! contract there. Nothing here opens a file or a socket but what a caller hands over.
//!
//! ```
//! use sip::{SeatKind, Sketch, Update};
//!
//! let seed = [7; 32]; // of the system's random bytes, and for this sketch alone
//! let mut sketch = Sketch::begin(&seed, 20, &[SeatKind::Entries, SeatKind::Sums0])?;
//! sketch.update(&[Update { item: 3, delta: 5, side: 0 }])?;
//! let file = sketch.save()?;
//! assert_eq!(Sketch::load(&file)?.told().records, 1);
//! # Ok::<(), sip::Error>(())
//! ```
//!
//! # Secrets
//!
//! A sketch has the challenges by which answers are judged. Whoever reads them, in memory or in its
//! saved bytes, can make any answer accepted. Nothing here wipes memory.
//!
//! # Threads
//!
//! What is kept may go from thread to thread, and is used by one at a time: each type is `Send` and
//! none is `Sync`.

mod asking;
mod error;
mod link;
mod question;
#[allow(unsafe_code)]
mod raw;
mod run;
mod sketch;

pub use asking::{Asking, Refused, Wants};
pub use error::{BadUpdate, Ended, Error, Reason, Unasked};
pub use link::{ask, AskFault};
pub use question::{Answer, Entry, Question, Value};
pub use run::{Run, RunWants};
pub use sketch::{Form, Part, Seat, SeatKind, Sketch, Told, Update};

/// The version of the library that is linked: the first number times 2^16, the second times 2^8, and
/// the third.
#[must_use]
pub fn version() -> u32 {
    raw::version()
}
