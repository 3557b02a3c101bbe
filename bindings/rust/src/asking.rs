//! A sketch or a run that is asked.

use crate::error::{Ended, Error};
use crate::question::{Answer, Entry, Question, Value};
use crate::raw::{AnswerCode, EndingCode, Handle, OK};
use crate::sketch::Sketch;

/// What is wanted before anything goes on.
#[derive(Clone, Copy, Debug, PartialEq, Eq, Hash)]
pub enum Wants {
    /// Send what is [`due`](Asking::due).
    Send,
    /// [Hand over](Asking::feed) what comes, or [that nothing will](Asking::close).
    Bytes,
    /// Store what is [to be stored](Asking::to_store), and [say so](Asking::stored).
    Store,
    /// Read the [`answer`](Asking::answer), and [go on](Asking::go_on).
    Read,
    /// Nothing: it [`ended`](Asking::ended).
    Nothing,
}

/// Why a sketch is not asked, and the sketch, which is as it was.
#[derive(Debug)]
pub struct Refused {
    /// The sketch.
    pub sketch: Sketch,
    /// Why.
    pub error: Error,
}

impl std::fmt::Display for Refused {
    fn fmt(&self, to: &mut std::fmt::Formatter<'_>) -> std::fmt::Result {
        self.error.fmt(to)
    }
}

impl std::error::Error for Refused {}

/// A sketch, or a [run](crate::Run), that is asked questions, by whoever has a loop and a disk of their own: do what is
/// [wanted](Asking::wants), until it ended. [`ask`](crate::ask) is such a loop over a link.
///
/// A question's seat is used in the file that is stored before a byte of the question is due. A
/// seat whose file was stored stays used, whatever comes.
pub struct Asking {
    pub(crate) handle: Handle,
}

/// How many bytes are due at once at most.
const MOST_DUE: usize = 64;

impl Asking {
    /// Begins to ask a sketch 1 to 16 questions, in order. What is left of it is what is stored.
    /// All memory is taken here.
    ///
    /// # Errors
    ///
    /// The first of [`Error::BadLength`], [`Error::BadCode`], [`Error::NotWhole`],
    /// [`Error::Unasked`]; [`Error::NoMemory`].
    pub fn begin(mut sketch: Sketch, questions: &[Question]) -> Result<Asking, Refused> {
        let codes: Vec<_> = questions.iter().map(|question| question.code()).collect();
        let mut handle = Handle::of_asking();
        let mut ending = EndingCode::default();
        let status = handle.begin_asking(&mut sketch.handle, &codes, &mut ending);
        match Error::of_question(status, ending.question) {
            Ok(()) => Ok(Asking { handle }),
            Err(error) => Err(Refused { sketch, error }),
        }
    }

    /// What is wanted.
    #[must_use]
    pub fn wants(&self) -> Wants {
        let mut wants = 0;
        self.handle.wants(&mut wants);
        match wants {
            1 => Wants::Send,
            2 => Wants::Bytes,
            3 => Wants::Store,
            4 => Wants::Read,
            _ => Wants::Nothing,
        }
    }

    /// The bytes that are due, each once; none where none are.
    #[must_use]
    pub fn due(&mut self) -> Vec<u8> {
        let mut bytes = vec![0; MOST_DUE];
        let mut count = 0;
        match self.handle.due(&mut bytes, &mut count) {
            OK => bytes.truncate(count),
            _ => bytes.clear(),
        }
        bytes
    }

    /// Takes bytes that came, in any pieces, and answers how many: all while some are awaited, and
    /// none behind the last one that is.
    #[must_use]
    pub fn feed(&mut self, bytes: &[u8]) -> usize {
        let mut taken = 0;
        self.handle.feed(bytes, &mut taken);
        taken
    }

    /// The other end closed: where bytes were to come, it ended for that.
    pub fn close(&mut self) {
        self.handle.close();
    }

    /// The bytes of the sketch with the next question's seat used, where they are wanted. Store
    /// them in the place of the sketch so that no crash brings it back as it was: in a new file,
    /// synced, which is renamed to its name, and the folder synced.
    #[must_use]
    pub fn to_store(&self) -> Option<Vec<u8>> {
        let mut size = 0;
        self.handle.to_store(&mut [], &mut size);
        let mut bytes = vec![0; size];
        (self.handle.to_store(&mut bytes, &mut size) == OK).then_some(bytes)
    }

    /// They are stored: from here on bytes of the question are due, and its seat is used. To say so
    /// too early breaks the one rule that a sketch has, that no seat serves two questions.
    ///
    /// # Errors
    ///
    /// [`Error::NotNow`] where nothing was to be stored.
    pub fn stored(&mut self) -> Result<(), Error> {
        crate::error::told(self.handle.stored())
    }

    /// The answer to the question at hand, where there is one.
    #[must_use]
    pub fn answer(&self) -> Option<Answer> {
        let mut code = AnswerCode::default();
        if self.handle.answer(&mut code) != OK {
            return None;
        }
        let entry = Entry {
            item: code.item,
            value: code.number,
        };
        let value = match code.kind {
            1 => Value::Number(code.number),
            2 => Value::Pairs(self.pairs(code.pairs)),
            3 => Value::Nearest(Some(entry)),
            _ => Value::Nearest(None),
        };
        Some(Answer {
            question: code.question,
            value,
        })
    }

    fn pairs(&self, most: usize) -> Vec<Entry> {
        let mut pairs = vec![Entry::default(); most];
        let mut count = 0;
        self.handle.pairs(0, &mut pairs, &mut count);
        pairs.truncate(count);
        pairs
    }

    /// The answer was read: the next question has its turn, or the farewell is due.
    ///
    /// # Errors
    ///
    /// [`Error::NotNow`] where there is no answer.
    pub fn go_on(&mut self) -> Result<(), Error> {
        crate::error::told(self.handle.next())
    }

    /// How it ended, once it has.
    #[must_use]
    pub fn ended(&self) -> Option<Ended> {
        let mut ending = EndingCode::default();
        let status = self.handle.ended(&mut ending);
        Ended::of(status, ending)
    }
}

impl std::fmt::Debug for Asking {
    fn fmt(&self, to: &mut std::fmt::Formatter<'_>) -> std::fmt::Result {
        to.debug_struct("Asking")
            .field("wants", &self.wants())
            .finish_non_exhaustive()
    }
}
