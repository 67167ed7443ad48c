//! The epoch index: an exact nearest-neighbour index over lent bytes.
//!
//! An epoch is a point of 1 to 16 whole numbers from -1,000 to 1,000 with an identifier, a sleep stage and a stamp ([`Epoch`]). A question
//! asks for the epochs nearest to a point among those of some stages ([`StageSet`]); of those at equal distance the one with the later stamp
//! comes first, then the one with the lower identifier. It may carry a weight for each coordinate, 0 to 1,000; without weights each counts
//! as 1. It may look among the epochs of some recording days alone ([`Dates`]). An index is whole pages of 1,024 bytes, 2 to 16,384 of them,
//! and lies in its bytes entirely: they may be stored and read back as they are. The work is done by libepoch_index.a, each function of
//! which is proved to meet its contract; this crate is a thin safe layer over it.
//!
//! - [`Index`]: five acts, each of which checks the whole index first and so is right about any bytes.
//! - [`SoundIndex`]: checked once, by [`SoundIndex::open`], and changed by nothing but its own methods, which therefore need no check.
//! - [`TabledIndex`]: a sound index with a table of its identifiers, so that insert and delete need no look through the leaves either.
//!
//! ```
//! use epoch_index::{Date, Epoch, Index, Refusal, Stage, StageSet, Tally, PAGE_BYTES};
//!
//! let mut index = Index::make(vec![0; 64 * PAGE_BYTES], 2)?;
//! index.insert(Epoch { id: 7, stage: Stage::N3, stamp: 816_645_600 }, &[-300, 100])?;
//! index.insert(Epoch { id: 4, stage: Stage::Rem, stamp: 816_645_630 }, &[100, -300])?;
//! let mut tally = Tally::default();
//! let found = index.question(&[-100, -90], None, 1, StageSet::ALL, None, &mut tally)?;
//! assert_eq!((found.rows[0].id, found.rows[0].distance, found.leaves), (7, 76_100, 1));
//! let found = index.question(&[-100, -90], None, 1, Stage::Rem.into(), None, &mut tally)?;
//! assert_eq!((found.rows[0].id, found.rows[0].distance, found.leaves), (4, 84_100, 1));
//! // the first feature counts half as much as the second
//! let found = index.question(&[0, 0], Some(&[500, 1_000]), 1, StageSet::ALL, None, &mut tally)?;
//! assert_eq!((found.rows[0].id, found.rows[0].distance, found.leaves), (7, 55_000_000, 1));
//! // both are of the night of 16 November 2025, and none of the next
//! let next = Date::new(2025, 11, 17);
//! let found = index.question(&[-100, -90], None, 1, StageSet::ALL, Some(next.into()), &mut tally)?;
//! assert_eq!((found.rows.len(), found.leaves), (0, 1));
//! # Ok::<(), Refusal>(())
//! ```
//!
//! An act takes up to 1.5 MB of stack, which fits a thread of std's (2 MB), and one of a [`SoundIndex`] up to 512 kB.
#![deny(unsafe_op_in_unsafe_fn)]
#![warn(missing_docs)]

mod acts;
mod bytes;
mod dates;
mod epoch;
mod refusal;
mod sys;
mod tabled;

pub use bytes::{StableBytes, StableBytesMut};
pub use dates::{Date, Dates};
pub use epoch::{Epoch, Stage, StageSet};
pub use refusal::{Fault, Refusal};
pub use tabled::TabledIndex;

use acts::Asked;

/// The bytes of a page.
pub const PAGE_BYTES: usize = 1024;
/// The most rows that a question returns.
pub const MAX_K: usize = 64;
/// The most features that a point has.
pub const MAX_FEATURES: usize = 16;
/// The most points that an index holds.
pub const MAX_POINTS: usize = 65_535;
/// The greatest weight of a coordinate.
pub const MAX_WEIGHT: u16 = 1_000;
/// The first year of which a date may be asked for.
pub const MIN_YEAR: u16 = 2000;
/// The last year of which a date may be asked for.
pub const MAX_YEAR: u16 = 2099;

/// A record that a question found. Its stage is no part of the row; [`TabledIndex::epoch`] tells it.
#[derive(Clone, Copy, Debug, Default, PartialEq, Eq, Hash)]
#[non_exhaustive]
#[repr(C)]
pub struct Row {
    /// Its squared distance from the asked point; of a question with weights the sum of weight times squared difference, at most
    /// 64,000,000,000.
    pub distance: u64,
    /// Its identifier.
    pub id: u32,
    /// Its stamp. Of rows at equal distance the one with the later stamp comes first, then the one with the lower identifier.
    pub stamp: u32,
    /// The position, in key order, of the leaf that holds it.
    pub position: u64,
}

/// A caller's tally. Each count stays at 4,294,967,295 once it would pass it.
#[derive(Clone, Copy, Debug, Default, PartialEq, Eq, Hash)]
#[repr(C)]
pub struct Tally {
    /// The questions carried out.
    pub questions: u32,
    /// The leaves that they read.
    pub leaves: u32,
}

/// What a question found.
#[derive(Clone, Debug, Default, PartialEq, Eq, Hash)]
#[non_exhaustive]
pub struct Found {
    /// The nearest records of the stages and days asked for, nearest first, equal distances by later stamp, then by lower identifier: k of
    /// them, or all if fewer are live.
    pub rows: Vec<Row>,
    /// The number of leaves read.
    pub leaves: u32,
}

/// The counts of a question whose rows are lent: [`Index::question_into`], [`SoundIndex::question_into`].
#[derive(Clone, Copy, Debug, Default, PartialEq, Eq, Hash)]
#[non_exhaustive]
pub struct Counts {
    /// The number of rows written.
    pub rows: usize,
    /// The number of leaves read.
    pub leaves: u32,
}

/// Asks with rows of its own. k above [`MAX_K`] is refused before the rows are counted.
fn found(act: sys::Question, index: &[u8], asked: Asked, tally: &mut Tally) -> Result<Found, Refusal> {
    let mut rows = vec![Row::default(); asked.k.min(MAX_K)];
    let counts = acts::question(act, index, asked, &mut rows, tally)?;
    rows.truncate(counts.rows);
    Ok(Found { rows, leaves: counts.leaves })
}

/// The two questions of an index, over one function of the library: their parameters stand here for both kinds of index.
macro_rules! questions {
    ($act:path, $(#[$what:meta])+) => {
        $(#[$what])+
        pub fn question(
            &self,
            point: &[i16],
            weights: Option<&[u16]>,
            k: usize,
            stages: StageSet,
            dates: Option<Dates>,
            tally: &mut Tally,
        ) -> Result<Found, Refusal> {
            found($act, self.as_bytes(), Asked { point, weights, k, stages, dates }, tally)
        }

        /// The same in lent rows, k of them or more. Rows past those written keep their contents.
        pub fn question_into(
            &self,
            point: &[i16],
            weights: Option<&[u16]>,
            k: usize,
            stages: StageSet,
            dates: Option<Dates>,
            rows: &mut [Row],
            tally: &mut Tally,
        ) -> Result<Counts, Refusal> {
            acts::question($act, self.as_bytes(), Asked { point, weights, k, stages, dates }, rows, tally)
        }
    };
}

/// An index in bytes that are owned (`Vec<u8>`) or borrowed (`&[u8]` to ask and check, `&mut [u8]` to change it too).
///
/// Every act checks the index first: bytes that are no sound index are refused with [`Refusal::Unsound`]. So any type that gives bytes will
/// do: an act takes them from it once, and what it returns is right about those, whatever the type gives the next time.
#[derive(Clone, Debug)]
pub struct Index<B> {
    bytes: B,
}

impl<B: AsRef<[u8]>> Index<B> {
    /// The index that these bytes hold, if they hold one: each act finds out.
    pub fn new(bytes: B) -> Index<B> {
        Index { bytes }
    }

    /// Whether the index is sound.
    pub fn check(&self) -> Result<(), Fault> {
        acts::check(self.as_bytes())
    }

    questions! {
        sys::epoch_index_ask,
        /// The k records nearest to a point among those of some stages and, where dates are given, of some recording days ([`Dates`]);
        /// without ([`None`]) every stamp will do. The tally counts the question and the leaves it read.
        ///
        /// With weights, one for each coordinate and none above [`MAX_WEIGHT`], distance is the sum of weight times squared difference;
        /// without ([`None`]) it is as with weights of 1. No weights at all (`Some(&[])`) are a wrong number of them:
        /// [`Refusal::BadFeatures`].
    }

    /// The bytes.
    pub fn as_bytes(&self) -> &[u8] {
        self.bytes.as_ref()
    }

    /// The bytes, given back.
    pub fn into_inner(self) -> B {
        self.bytes
    }
}

impl<B: AsRef<[u8]> + AsMut<[u8]>> Index<B> {
    /// Makes an empty index of some features in bytes of any contents. To keep owned bytes where it is refused, lend them.
    pub fn make(mut bytes: B, features: u8) -> Result<Index<B>, Refusal> {
        acts::make(bytes.as_mut(), features)?;
        Ok(Index { bytes })
    }

    /// Inserts an epoch with its point.
    pub fn insert(&mut self, epoch: Epoch, point: &[i16]) -> Result<(), Refusal> {
        acts::insert(sys::epoch_index_insert, self.bytes.as_mut(), epoch, point)
    }

    /// Deletes the epoch of an identifier.
    pub fn delete(&mut self, id: u32) -> Result<(), Refusal> {
        acts::delete(sys::epoch_index_delete, self.bytes.as_mut(), id)
    }
}

/// A sound index: [`SoundIndex::open`] has checked it, and nothing but the methods here changes its bytes.
///
/// They do what those of [`Index`] do, without checking every page beforehand, and are never refused with [`Refusal::Unsound`].
/// Bytes that it borrows cannot be changed beside it:
///
/// ```compile_fail
/// # use epoch_index::{Index, SoundIndex, StageSet, Tally};
/// let mut bytes = Index::make(vec![0; 2048], 1).unwrap().into_inner();
/// let sound = SoundIndex::open(&mut bytes[..]).unwrap();
/// bytes[4] = 2;
/// sound.question(&[0], None, 1, StageSet::ALL, None, &mut Tally::default()).unwrap();
/// ```
///
/// The bytes are a [`StableBytes`]: `Vec<u8>`, `Box<[u8]>`, `&[u8]` or `&mut [u8]`. A type of one's own, which could give other bytes than
/// those that were checked, is not taken:
///
/// ```compile_fail
/// # use epoch_index::{Index, SoundIndex};
/// struct Own(Vec<u8>);
/// impl AsRef<[u8]> for Own {
///     fn as_ref(&self) -> &[u8] {
///         &self.0
///     }
/// }
/// let _ = Index::new(Own(vec![0; 2048])).check(); // the acts take it
/// let _ = SoundIndex::open(Own(vec![0; 2048]));
/// ```
#[derive(Clone, Debug)]
pub struct SoundIndex<B> {
    bytes: B,
}

impl<B: StableBytes> SoundIndex<B> {
    /// The index that these bytes hold, checked here once.
    ///
    /// ```
    /// # use epoch_index::{Epoch, Index, Refusal, SoundIndex, Stage, PAGE_BYTES};
    /// let mut bytes = Index::make(vec![0; 2 * PAGE_BYTES], 1)?.into_inner();
    /// SoundIndex::open(&mut bytes[..]).unwrap().insert(Epoch { id: 7, stage: Stage::Wake, stamp: 0 }, &[-300])?;
    /// bytes[..PAGE_BYTES].fill(0);
    /// let fault = SoundIndex::open(bytes).unwrap_err();
    /// assert_eq!((fault.refusal, fault.page), (Refusal::Unsound, 0));
    /// # Ok::<(), Refusal>(())
    /// ```
    pub fn open(bytes: B) -> Result<SoundIndex<B>, Fault> {
        acts::check(bytes.as_ref())?;
        Ok(SoundIndex { bytes })
    }

    questions! {
        sys::epoch_index_trusted_ask,
        /// The k records nearest to a point among those of some stages and days, by weights or without, as [`Index::question`] has them. The
        /// tally counts the question and the leaves it read.
    }

    /// The index with a table of its live epochs and their points. Every leaf is read once.
    ///
    /// ```
    /// # use epoch_index::{Epoch, Index, Refusal, SoundIndex, Stage, StageSet, Tally, PAGE_BYTES};
    /// let bytes = Index::make(vec![0; 2 * PAGE_BYTES], 1)?.into_inner();
    /// let mut tabled = SoundIndex::open(bytes).unwrap().into_tabled();
    /// let epoch = Epoch { id: 7, stage: Stage::N2, stamp: 816_645_600 };
    /// tabled.insert(epoch, &[-300])?;
    /// assert_eq!(tabled.insert(epoch, &[5]), Err(Refusal::AlreadyLive));
    /// assert_eq!((tabled.len(), tabled.point(7)), (1, Some(&[-300][..])));
    /// let found = tabled.sound().question(&[0], None, 1, StageSet::ALL, None, &mut Tally::default())?;
    /// assert_eq!((found.rows[0].distance, tabled.epoch(found.rows[0].id)), (90_000, Some(epoch)));
    /// # Ok::<(), Refusal>(())
    /// ```
    pub fn into_tabled(self) -> TabledIndex<B> {
        TabledIndex::of(self)
    }

    /// The bytes, to read or store.
    pub fn as_bytes(&self) -> &[u8] {
        self.bytes.as_ref()
    }

    /// The bytes, given back: from here on they are the caller's to change.
    pub fn into_inner(self) -> B {
        self.bytes
    }
}

impl<B: StableBytesMut> SoundIndex<B> {
    /// Inserts an epoch with its point.
    pub fn insert(&mut self, epoch: Epoch, point: &[i16]) -> Result<(), Refusal> {
        acts::insert(sys::epoch_index_trusted_insert, self.bytes.as_mut(), epoch, point)
    }

    /// Deletes the epoch of an identifier.
    pub fn delete(&mut self, id: u32) -> Result<(), Refusal> {
        acts::delete(sys::epoch_index_trusted_delete, self.bytes.as_mut(), id)
    }
}

#[cfg(test)]
mod tests;
