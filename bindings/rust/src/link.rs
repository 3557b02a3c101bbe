//! Asking over whatever reads and writes.

use crate::asking::{Asking, Wants};
use crate::error::Ended;
use crate::question::Answer;
use std::io::{self, Read, Write};

/// Why asking stopped: a device failed, or it ended with other than answers.
#[derive(Debug)]
pub enum AskFault {
    /// The link or the storing failed.
    Io(io::Error),
    /// How it ended.
    Ended(Ended),
}

impl std::fmt::Display for AskFault {
    fn fmt(&self, to: &mut std::fmt::Formatter<'_>) -> std::fmt::Result {
        match self {
            AskFault::Io(fault) => fault.fmt(to),
            AskFault::Ended(ended) => ended.fmt(to),
        }
    }
}

impl std::error::Error for AskFault {}

impl From<io::Error> for AskFault {
    fn from(fault: io::Error) -> AskFault {
        AskFault::Io(fault)
    }
}

/// Asks over a link until it ended. `store`, which a run never calls, puts the bytes that it gets in the place of the sketch,
/// as [`Asking::to_store`] says. `answered` gets each answer as it comes: those that came before a
/// fault are good.
///
/// # Errors
///
/// The first fault of the link, of `store` or of the replies.
pub fn ask<L: Read + Write>(
    asking: &mut Asking,
    link: &mut L,
    mut store: impl FnMut(&[u8]) -> io::Result<()>,
    mut answered: impl FnMut(Answer),
) -> Result<(), AskFault> {
    loop {
        match asking.wants() {
            Wants::Send => {
                link.write_all(&asking.due())?;
                link.flush()?;
            }
            // Byte by byte, so that none behind the talk is taken off the link: put a buffer
            // before it.
            Wants::Bytes => {
                let mut byte = [0];
                match link.read(&mut byte) {
                    Ok(0) => asking.close(),
                    Ok(count) => {
                        let _ = asking.feed(&byte[..count]);
                    }
                    Err(fault) if fault.kind() == io::ErrorKind::Interrupted => {}
                    Err(fault) => return Err(fault.into()),
                }
            }
            Wants::Store => {
                if let Some(bytes) = asking.to_store() {
                    store(&bytes)?;
                }
                // What is wanted is that, so it is not refused.
                let _ = asking.stored();
            }
            Wants::Read => {
                if let Some(answer) = asking.answer() {
                    answered(answer);
                }
                let _ = asking.go_on();
            }
            Wants::Nothing => {
                return match asking.ended() {
                    None | Some(Ended::Answered) => Ok(()),
                    Some(ended) => Err(AskFault::Ended(ended)),
                };
            }
        }
    }
}
