//! Sketches.

use crate::error::{told, Error};
use crate::raw::{Handle, ToldCode, OK};

/// Adds `delta` to the entry `item` of a side.
#[repr(C)]
#[derive(Clone, Copy, Debug, PartialEq, Eq, Hash)]
pub struct Update {
    /// Below 2^depth.
    pub item: u64,
    /// Not 0; the absolute values of all that a side adds come to 2^30 - 1 at most.
    pub delta: i64,
    /// 0 or 1.
    pub side: u8,
}

/// What a seat serves, and so what is kept for it. A seat serves one question.
#[derive(Clone, Copy, Debug, PartialEq, Eq, Hash)]
pub enum SeatKind {
    /// Entries of side 0: sub-vectors and lookups.
    Entries = 1,
    /// Range sums, second moments and higher ones of side 0.
    Sums0 = 2,
    /// The same of side 1.
    Sums1 = 3,
    /// Inner products of the sides.
    Products = 4,
    /// Heavy hitters of side 0.
    Heavy0 = 5,
    /// Heavy hitters of side 1.
    Heavy1 = 6,
    /// Large entries of side 0, also where others are below 0.
    Above0 = 7,
    /// Large entries of side 1.
    Above1 = 8,
}

impl SeatKind {
    fn of(code: u8) -> SeatKind {
        match code {
            1 => SeatKind::Entries,
            2 => SeatKind::Sums0,
            3 => SeatKind::Sums1,
            4 => SeatKind::Products,
            5 => SeatKind::Heavy0,
            6 => SeatKind::Heavy1,
            7 => SeatKind::Above0,
            _ => SeatKind::Above1,
        }
    }
}

/// How records lie as bytes: the side in one, the item in four or eight and the delta in eight, each
/// number big endian and the delta in two's complement.
#[derive(Clone, Copy, Debug, PartialEq, Eq, Hash)]
pub enum Form {
    /// 13 bytes a record; items below 2^32.
    Binary = 1,
    /// 17 bytes a record.
    Wide = 2,
}

/// Which part of a stream is in a sketch, of how many collectors' whose sketches add up.
#[derive(Clone, Copy, Debug, PartialEq, Eq, Hash)]
pub struct Part {
    /// From 1.
    pub number: u32,
    /// The number of parts.
    pub of: u32,
}

/// What is told of a sketch. It has none of its secrets.
#[derive(Clone, Copy, Debug, PartialEq, Eq, Hash)]
pub struct Told {
    /// How many updates came.
    pub records: u64,
    /// The sum of the absolute values of the deltas of each side.
    pub weights: [u64; 2],
    /// Of the updates, whatever their order.
    pub fingerprint: u64,
    /// How many parts the stream has.
    pub parts: u32,
    /// The first that is in, from 1.
    pub first_part: u32,
    /// The last that is in.
    pub last_part: u32,
    /// How many seats there are.
    pub seats: u32,
    /// There are 2^depth items.
    pub depth: u8,
    /// Whether a delta of each side was below 0.
    pub negatives: [bool; 2],
}

/// What is told of a seat.
#[derive(Clone, Copy, Debug, PartialEq, Eq, Hash)]
pub struct Seat {
    /// What it serves.
    pub kind: SeatKind,
    /// Whether a question has used it.
    pub is_used: bool,
}

/// What a verifier keeps of a stream.
pub struct Sketch {
    pub(crate) handle: Handle,
}

impl Sketch {
    /// The sketch of the empty stream: a seat of each of the kinds, in order, with the challenges
    /// that the seed gives. A seed begins one sketch, and is used for nothing else. Takes about
    /// 600 bytes a seat.
    ///
    /// # Errors
    ///
    /// [`Error::BadLength`] unless there are 1 to 64 kinds; [`Error::BadDepth`] unless the depth is
    /// 1 to 48; [`Error::SeedSpent`]; [`Error::NoMemory`].
    pub fn begin(seed: &[u8; 32], depth: u8, kinds: &[SeatKind]) -> Result<Sketch, Error> {
        Sketch::begin_part(seed, depth, Part { number: 1, of: 1 }, kinds)
    }

    /// The sketch of one part of a stream, whose collectors all begin with the same seed, depth and
    /// kinds. What they keep is added up by [`absorb`](Sketch::absorb).
    ///
    /// # Errors
    ///
    /// Those of [`begin`](Sketch::begin), and [`Error::BadPart`] unless the number is 1 to the
    /// number of parts.
    pub fn begin_part(
        seed: &[u8; 32],
        depth: u8,
        part: Part,
        kinds: &[SeatKind],
    ) -> Result<Sketch, Error> {
        let codes: Vec<u8> = kinds.iter().map(|kind| *kind as u8).collect();
        let mut handle = Handle::of_sketch();
        told(handle.begin_sketch(seed, depth, part.number, part.of, &codes))?;
        Ok(Sketch { handle })
    }

    /// The sketch of its saved bytes.
    ///
    /// # Errors
    ///
    /// [`Error::BadSketch`]; [`Error::NoMemory`].
    pub fn load(bytes: &[u8]) -> Result<Sketch, Error> {
        let mut handle = Handle::of_sketch();
        let mut offset = 0;
        match Error::of(handle.load(bytes, &mut offset)) {
            None => Ok(Sketch { handle }),
            Some(Error::BadSketch { .. }) => Err(Error::BadSketch { offset }),
            Some(error) => Err(error),
        }
    }

    /// The bytes to be saved: they are its secrets, and their SHA-256 stands at the end.
    ///
    /// # Errors
    ///
    /// [`Error::NoMemory`].
    pub fn save(&self) -> Result<Vec<u8>, Error> {
        let mut size = 0;
        self.handle.save(&mut [], &mut size);
        let mut bytes = vec![0; size];
        told(self.handle.save(&mut bytes, &mut size))?;
        Ok(bytes)
    }

    /// Keeps tables of the challenges of each unused seat, by which updates are added faster from
    /// now on: 2 KiB for a seat and eight levels, 4 for heavy hitters, none for large entries. They
    /// are not saved.
    ///
    /// # Errors
    ///
    /// [`Error::NoMemory`].
    pub fn keep_tables(&mut self) -> Result<(), Error> {
        told(self.handle.keep_tables())
    }

    /// Adds updates, in any number: all of them, or none. A call costs some microseconds, so hand
    /// over many at once.
    ///
    /// # Errors
    ///
    /// [`Error::BadUpdate`] of the first that may not come behind those before it.
    pub fn update(&mut self, updates: &[Update]) -> Result<(), Error> {
        let mut at = 0;
        Error::at(self.handle.update(updates, &mut at), at)
    }

    /// The same of whole records as they lie in a file of this form.
    ///
    /// # Errors
    ///
    /// [`Error::BadLength`] where the last record is cut; else as of [`update`](Sketch::update).
    pub fn update_records(&mut self, form: Form, records: &[u8]) -> Result<(), Error> {
        let mut at = 0;
        Error::at(self.handle.update_records(form as u8, records, &mut at), at)
    }

    /// Adds the next part of the stream, which another collector kept at the same seed.
    ///
    /// # Errors
    ///
    /// The first of [`Error::OtherShape`], [`Error::Whole`], [`Error::UsedSeat`],
    /// [`Error::NotNext`], [`Error::TooHeavy`].
    pub fn absorb(&mut self, part: &Sketch) -> Result<(), Error> {
        told(self.handle.absorb(&part.handle))
    }

    /// What it is.
    #[must_use]
    pub fn told(&self) -> Told {
        let mut code = ToldCode::default();
        self.handle.told(&mut code);
        Told {
            records: code.records,
            weights: code.weights,
            fingerprint: code.fingerprint,
            parts: code.parts,
            first_part: code.first_part,
            last_part: code.last_part,
            seats: code.seats,
            depth: code.depth,
            negatives: code.negatives,
        }
    }

    /// Its seats, in order.
    pub fn seats(&self) -> impl Iterator<Item = Seat> + '_ {
        (0..).map_while(|place| {
            let (mut kind, mut is_used) = (0, false);
            match self.handle.seat(place, &mut kind, &mut is_used) {
                OK => Some(Seat {
                    kind: SeatKind::of(kind),
                    is_used,
                }),
                _ => None,
            }
        })
    }
}

impl std::fmt::Debug for Sketch {
    fn fmt(&self, to: &mut std::fmt::Formatter<'_>) -> std::fmt::Result {
        to.debug_struct("Sketch")
            .field("told", &self.told())
            .finish_non_exhaustive()
    }
}
