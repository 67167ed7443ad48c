// What inserts and deletes: the index in three ways, and the standard library's ordered map.
use crate::data::epoch;
use epoch_index::{Index, SoundIndex, TabledIndex, PAGE_BYTES};
use std::collections::BTreeMap;

/// Something that points with identifiers are put into and taken from; an index gets the epoch of the identifier.
pub trait Keeps {
    fn put(&mut self, id: u32, point: &[i16]);
    fn take(&mut self, id: u32, point: &[i16]);
}

/// The acts: each checks the whole index first.
impl Keeps for Index<&mut [u8]> {
    fn put(&mut self, id: u32, point: &[i16]) {
        self.insert(epoch(id), point).unwrap()
    }

    fn take(&mut self, id: u32, _point: &[i16]) {
        self.delete(id).unwrap()
    }
}

/// The acts without the check.
impl Keeps for SoundIndex<&mut [u8]> {
    fn put(&mut self, id: u32, point: &[i16]) {
        self.insert(epoch(id), point).unwrap()
    }

    fn take(&mut self, id: u32, _point: &[i16]) {
        self.delete(id).unwrap()
    }
}

/// The same with a table of the live identifiers, so that none is looked for among the leaves.
impl Keeps for TabledIndex<&mut [u8]> {
    fn put(&mut self, id: u32, point: &[i16]) {
        self.insert(epoch(id), point).unwrap()
    }

    fn take(&mut self, id: u32, _point: &[i16]) {
        self.delete(id).unwrap()
    }
}

/// An ordered map with the index's keys: pyramid, height, identifier.
#[derive(Default)]
pub struct Map {
    points: BTreeMap<(usize, u16, u32), [i16; 16]>,
}

impl Map {
    fn key(id: u32, point: &[i16]) -> (usize, u16, u32) {
        let height = point.iter().map(|c| c.unsigned_abs()).max().unwrap();
        let j = point.iter().position(|c| c.unsigned_abs() == height).unwrap();
        (if point[j] < 0 { j } else { j + point.len() }, height, id)
    }
}

impl Keeps for Map {
    fn put(&mut self, id: u32, point: &[i16]) {
        let mut slots = [0; 16];
        slots[..point.len()].copy_from_slice(point);
        assert!(self.points.insert(Map::key(id, point), slots).is_none())
    }

    fn take(&mut self, id: u32, point: &[i16]) {
        assert!(self.points.remove(&Map::key(id, point)).is_some())
    }
}

/// Puts all points in, with identifiers from 1 on.
pub fn fill(keeper: &mut impl Keeps, points: &[i16], d: usize) {
    (1..).zip(points.chunks(d)).for_each(|(id, p)| keeper.put(id, p));
}

/// Bytes for an index of n points, as many pages as they can need.
pub fn room(n: usize) -> Vec<u8> {
    vec![0; (n / 7 + 8).min(16_384) * PAGE_BYTES]
}

/// Makes an index in the bytes and puts all points in, with a table of the identifiers.
pub fn import(bytes: &mut [u8], points: &[i16], d: usize) {
    let made = Index::make(bytes, d as u8).unwrap().into_inner();
    fill(&mut SoundIndex::open(made).unwrap().into_tabled(), points, d);
}

/// The same by the acts.
pub fn import_by_acts(bytes: &mut [u8], points: &[i16], d: usize) {
    fill(&mut Index::make(bytes, d as u8).unwrap(), points, d);
}

/// An index that holds the points.
pub fn filled(points: &[i16], d: usize) -> Vec<u8> {
    let mut bytes = room(points.len() / d);
    import(&mut bytes, points, d);
    bytes
}
