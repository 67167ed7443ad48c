//! A sound index with the table of its identifiers.
use crate::{acts, sys};
use crate::{Epoch, Refusal, SoundIndex, StableBytes, StableBytesMut, Stage, MAX_FEATURES, PAGE_BYTES};
use std::collections::hash_map::{Entry, HashMap};

type Point = [i16; MAX_FEATURES];

// What is read here of the byte layout. docs/LAYOUT.md rules: a change there is made here too.
/// Of the header: features, root page, the root's level, total of records.
const FEATURES: usize = 4;
const ROOT: usize = 8;
const LEVEL: usize = 12;
const TOTAL: usize = 16;
/// Of every page of the tree: the count of its items.
const COUNT: usize = 1;
/// Of an inner page: its entries, each of which begins with the child page.
const ENTRIES: usize = 4;
const ENTRY_BYTES: usize = 20;
/// Of a leaf: the stages of its records, its columns, each with one coordinate of all records, their identifiers and their stamps.
const STAGES: usize = 16;
const COLUMNS: usize = 32;
const COLUMN_BYTES: usize = 32;
const COORDINATE_BYTES: usize = 2;
const IDENTIFIERS: usize = 576;
const IDENTIFIER_BYTES: usize = 4;
const STAMPS: usize = 640;
const STAMP_BYTES: usize = 4;
/// Of a coordinate's bytes the low 11 bits count, as a number below this; it is stored as 1,000 more than it is.
const STORED_BELOW: u16 = 2048;
const STORED_MORE: i16 = 1000;

/// What the table has of an identifier.
#[derive(Clone, Copy, Debug)]
struct Kept {
    stage: Stage,
    stamp: u32,
    point: Point,
}

/// A sound index that keeps its live epochs with their points in a table: [`SoundIndex::into_tabled`] makes it.
///
/// Insert and delete do what those of [`SoundIndex`] do, with the same refusals and the same bytes. They ask the table whether an
/// identifier is live, where those look through the leaves, and then go one way down the tree. Questions are asked of the sound index
/// inside ([`TabledIndex::sound`]).
#[derive(Clone, Debug)]
pub struct TabledIndex<B> {
    sound: SoundIndex<B>,
    features: usize,
    kept: HashMap<u32, Kept>,
}

impl<B: StableBytes> TabledIndex<B> {
    /// Reads every leaf of the index once.
    pub(crate) fn of(sound: SoundIndex<B>) -> TabledIndex<B> {
        let bytes = sound.as_bytes();
        let mut kept = HashMap::with_capacity(word(bytes, TOTAL) as usize);
        let mut pages = vec![(word(bytes, ROOT), bytes[LEVEL])];
        while let Some((page, level)) = pages.pop() {
            let page = &bytes[page as usize * PAGE_BYTES..][..PAGE_BYTES];
            for i in 0..usize::from(page[COUNT]) {
                if level == 0 {
                    kept.insert(word(page, IDENTIFIERS + IDENTIFIER_BYTES * i), kept_of(page, i));
                } else {
                    pages.push((word(page, ENTRIES + ENTRY_BYTES * i), level - 1));
                }
            }
        }
        TabledIndex { features: usize::from(bytes[FEATURES]), sound, kept }
    }

    /// The index itself, to ask, to read or to store.
    pub fn sound(&self) -> &SoundIndex<B> {
        &self.sound
    }

    /// Whether an identifier is live.
    pub fn contains(&self, id: u32) -> bool {
        self.kept.contains_key(&id)
    }

    /// The epoch of a live identifier, with the stage, which no row has.
    pub fn epoch(&self, id: u32) -> Option<Epoch> {
        self.kept.get(&id).map(|&Kept { stage, stamp, .. }| Epoch { id, stage, stamp })
    }

    /// The point of a live identifier.
    pub fn point(&self, id: u32) -> Option<&[i16]> {
        self.kept.get(&id).map(|kept| &kept.point[..self.features])
    }

    /// The number of live identifiers.
    pub fn len(&self) -> usize {
        self.kept.len()
    }

    /// Whether none is live.
    pub fn is_empty(&self) -> bool {
        self.kept.is_empty()
    }

    /// The index without the table.
    pub fn into_sound(self) -> SoundIndex<B> {
        self.sound
    }
}

impl<B: StableBytesMut> TabledIndex<B> {
    /// Inserts an epoch with its point.
    pub fn insert(&mut self, epoch: Epoch, point: &[i16]) -> Result<(), Refusal> {
        let bytes = self.sound.bytes.as_mut();
        match self.kept.entry(epoch.id) {
            // refused: with AlreadyLive, or with a number before it
            Entry::Occupied(_) => acts::insert(sys::epoch_index_trusted_insert, bytes, epoch, point),
            Entry::Vacant(vacant) => {
                acts::insert(sys::epoch_index_vouched_insert, bytes, epoch, point)?;
                let mut kept = Kept { stage: epoch.stage, stamp: epoch.stamp, point: [0; MAX_FEATURES] };
                kept.point[..point.len()].copy_from_slice(point);
                vacant.insert(kept);
                Ok(())
            }
        }
    }

    /// Deletes the epoch of an identifier.
    pub fn delete(&mut self, id: u32) -> Result<(), Refusal> {
        match self.kept.entry(id) {
            Entry::Occupied(live) => {
                acts::delete_point(self.sound.bytes.as_mut(), id, &live.get().point[..self.features])?;
                live.remove();
                Ok(())
            }
            Entry::Vacant(_) if id == 0 => Err(Refusal::ZeroIdentifier),
            Entry::Vacant(_) => Err(Refusal::NotLive),
        }
    }
}

/// Four bytes as a number.
fn word(bytes: &[u8], at: usize) -> u32 {
    u32::from_le_bytes([bytes[at], bytes[at + 1], bytes[at + 2], bytes[at + 3]])
}

/// Record i of a leaf of a sound index.
fn kept_of(leaf: &[u8], i: usize) -> Kept {
    let stage = Stage::try_from(leaf[STAGES + i]).expect("a sound index has no other stage");
    Kept { stage, stamp: word(leaf, STAMPS + STAMP_BYTES * i), point: point_of(leaf, i) }
}

/// The coordinates of record i of a leaf. Those past the index's features mean nothing.
fn point_of(leaf: &[u8], i: usize) -> Point {
    std::array::from_fn(|m| {
        let at = COLUMNS + COLUMN_BYTES * m + COORDINATE_BYTES * i;
        let stored = u16::from_le_bytes([leaf[at], leaf[at + 1]]) % STORED_BELOW;
        stored as i16 - STORED_MORE
    })
}
