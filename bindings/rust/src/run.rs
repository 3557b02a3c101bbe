//! Runs: a stream that is sent as it goes by, and then questions.

use crate::asking::Asking;
use crate::error::{told, Error};
use crate::question::Question;
use crate::raw::{EndingCode, Handle, OK};
use crate::sketch::{Form, Update};

/// How many bytes of a run are due at once at most.
const MOST_FRAME: usize = 8709;

/// What is wanted of a run before anything goes on.
#[derive(Clone, Copy, Debug, PartialEq, Eq, Hash)]
pub enum RunWants {
    /// Send what is [`due`](Run::due).
    Send,
    /// [Hand over](Run::update) updates, or [that none are left](Run::end).
    Updates,
    /// [Ask](Run::ask): all of the stream was sent.
    Ask,
}

/// A stream that is sent to the other end as it goes by, while the numbers of each question are
/// kept; and then the questions are asked. The other end is `sip help` where all are queries, and
/// else a helper of questions of every kind, or whatever keeps to the protocol of these.
///
/// ```
/// use sip::{Question, Run, RunWants, Update};
///
/// let seed = [7; 32]; // of the system's random bytes, and for this run alone
/// let mut run = Run::begin(&seed, 20, &[Question::F2 { side: 0 }])?;
/// let mut sent = run.due(); // the opening
/// assert_eq!(run.update(&[Update { item: 3, delta: 5, side: 0 }])?, 1);
/// run.end()?;
/// sent.extend(run.due());
/// assert_eq!(run.wants(), RunWants::Ask);
/// let asking = run.ask()?;
/// # drop(asking);
/// # Ok::<(), sip::Error>(())
/// ```
pub struct Run {
    handle: Handle,
}

impl Run {
    /// Begins a run of 1 to 16 questions, before anything is said, with the challenges that the
    /// seed gives. Takes about 12 KB and a seat for each question.
    ///
    /// # Errors
    ///
    /// The first of [`Error::BadLength`], [`Error::BadDepth`], [`Error::BadCode`],
    /// [`Error::Unasked`], [`Error::SeedSpent`]; [`Error::NoMemory`].
    pub fn begin(seed: &[u8; 32], depth: u8, questions: &[Question]) -> Result<Run, Error> {
        let codes: Vec<_> = questions.iter().map(|question| question.code()).collect();
        let mut handle = Handle::of_run();
        let mut ending = EndingCode::default();
        let status = handle.begin_run(seed, depth, &codes, &mut ending);
        Error::of_question(status, ending.question)?;
        Ok(Run { handle })
    }

    /// What is wanted.
    #[must_use]
    pub fn wants(&self) -> RunWants {
        let mut wants = 0;
        self.handle.run_wants(&mut wants);
        match wants {
            1 => RunWants::Send,
            6 => RunWants::Updates,
            _ => RunWants::Ask,
        }
    }

    /// The bytes that are due, each once; none where none are: the opening first, a frame behind
    /// each 512 updates, and behind the end the rest.
    #[must_use]
    pub fn due(&mut self) -> Vec<u8> {
        let mut bytes = vec![0; MOST_FRAME];
        let mut count = 0;
        match self.handle.run_due(&mut bytes, &mut count) {
            OK => bytes.truncate(count),
            _ => bytes.clear(),
        }
        bytes
    }

    /// Takes updates of the stream, in pieces of any lengths, and answers how many: all while
    /// updates are wanted. None are taken while bytes are due, and none behind the end.
    ///
    /// # Errors
    ///
    /// [`Error::BadUpdate`] of one that may not come, where those before it are taken.
    pub fn update(&mut self, updates: &[Update]) -> Result<usize, Error> {
        let mut taken = 0;
        let status = self.handle.run_update(updates, &mut taken);
        Error::at(status, taken).map(|()| taken)
    }

    /// The same of whole records as they lie in a file of this form.
    ///
    /// # Errors
    ///
    /// [`Error::BadLength`] where the last record is cut; else as of [`update`](Run::update).
    pub fn update_records(&mut self, form: Form, records: &[u8]) -> Result<usize, Error> {
        let mut taken = 0;
        let status = self
            .handle
            .run_update_records(form as u8, records, &mut taken);
        Error::at(status, taken).map(|()| taken)
    }

    /// The stream ends: the rest of it is due.
    ///
    /// # Errors
    ///
    /// [`Error::NotNow`] where no updates are wanted.
    pub fn end(&mut self) -> Result<(), Error> {
        told(self.handle.run_end())
    }

    /// Begins to ask the questions, in order. Nothing of it is stored.
    ///
    /// # Errors
    ///
    /// [`Error::NotNow`] where not all of the stream was sent; [`Error::Unasked`] where a question
    /// may not be asked behind this stream; [`Error::NoMemory`]. The run is over then.
    pub fn ask(mut self) -> Result<Asking, Error> {
        let mut handle = Handle::of_asking();
        let mut ending = EndingCode::default();
        let status = self.handle.run_ask(&mut handle, &mut ending);
        Error::of_question(status, ending.question)?;
        Ok(Asking { handle })
    }
}

impl std::fmt::Debug for Run {
    fn fmt(&self, to: &mut std::fmt::Formatter<'_>) -> std::fmt::Result {
        to.debug_struct("Run")
            .field("wants", &self.wants())
            .finish_non_exhaustive()
    }
}
