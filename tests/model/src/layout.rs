//! The byte layout of docs/LAYOUT.md: fields, records, entries.

use crate::geometry::{pair, Key};

pub const PAGE: usize = 1024;
pub const MOST_PAGES: usize = 16384;
pub const MOST_POINTS: u32 = 65535;
pub const MOST_STAGE: u8 = 5;
pub const ALL_STAGES: u8 = 63;
pub const MOST_WEIGHT: u16 = 1000;

pub const SIZE: usize = 0;
pub const FEATURES: usize = 4;
pub const ROOT: usize = 8;
pub const LEVEL: usize = 12;
pub const TOTAL: usize = 16;
pub const FREED: usize = 20;
pub const FRESH: usize = 24;

/// A stored coordinate counts modulo this; the upper bits of its two bytes are unused.
pub const COORDINATES: u16 = 2048;

/// An epoch but for its point.
#[derive(Clone, Copy, PartialEq, Eq, Debug)]
pub struct Tag {
    pub id: u32,
    pub stage: u8,
    pub stamp: u32,
}

#[derive(Clone, Copy, PartialEq, Eq, Debug)]
pub struct Record {
    pub tag: Tag,
    pub slots: [u16; 16],
}

impl Tag {
    /// Of an identifier, where stage and stamp are of no account.
    pub fn of(id: u32) -> Tag {
        Tag { id, stage: (id % 6) as u8, stamp: !id }
    }
}

#[derive(Clone, Copy, PartialEq, Eq, Debug)]
pub struct Entry {
    pub child: u32,
    pub first: Key,
    pub last: Key,
}

impl Record {
    pub fn new(tag: Tag, x: &[i64]) -> Record {
        let mut slots = [0; 16];
        for (slot, c) in slots.iter_mut().zip(x) {
            *slot = (c + 1000) as u16;
        }
        Record { tag, slots }
    }

    pub fn point(&self, d: usize) -> Vec<i64> {
        self.slots[..d].iter().map(|&s| s as i64 - 1000).collect()
    }

    pub fn key(&self, d: usize) -> Key {
        let (pyramid, height) = pair(&self.point(d));
        Key { pyramid, height, id: self.tag.id }
    }
}

pub fn permitted(length: usize) -> bool {
    length.is_multiple_of(PAGE) && (2..=MOST_PAGES).contains(&(length / PAGE))
}

pub fn u16_at(b: &[u8], at: usize) -> u16 {
    u16::from_le_bytes(b[at..at + 2].try_into().unwrap())
}

pub fn u32_at(b: &[u8], at: usize) -> u32 {
    u32::from_le_bytes(b[at..at + 4].try_into().unwrap())
}

pub fn put_u16(b: &mut [u8], at: usize, v: u16) {
    b[at..at + 2].copy_from_slice(&v.to_le_bytes());
}

pub fn put_u32(b: &mut [u8], at: usize, v: u32) {
    b[at..at + 4].copy_from_slice(&v.to_le_bytes());
}

pub fn page(b: &[u8], p: u32) -> &[u8] {
    &b[p as usize * PAGE..(p as usize + 1) * PAGE]
}

pub fn page_mut(b: &mut [u8], p: u32) -> &mut [u8] {
    &mut b[p as usize * PAGE..(p as usize + 1) * PAGE]
}

pub fn level(b: &[u8], p: u32) -> u8 {
    page(b, p)[0]
}

pub fn count(b: &[u8], p: u32) -> usize {
    page(b, p)[1] as usize
}

/// Where a leaf page has coordinate m of record i.
pub fn coordinate_at(m: usize, i: usize) -> usize {
    32 + 32 * m + 2 * i
}

/// Where it has the identifier.
pub fn identifier_at(i: usize) -> usize {
    576 + 4 * i
}

/// Where it has the stage, one byte.
pub fn stage_at(i: usize) -> usize {
    16 + i
}

/// Where it has the stamp.
pub fn stamp_at(i: usize) -> usize {
    640 + 4 * i
}

/// The bytes of a leaf page that hold record i: its identifier's, stage's and stamp's, then its coordinates'.
pub fn cells(i: usize) -> Vec<usize> {
    let tag = (0..4).map(|n| identifier_at(i) + n).chain([stage_at(i)]).chain((0..4).map(|n| stamp_at(i) + n));
    tag.chain((0..16).flat_map(|m| [coordinate_at(m, i), coordinate_at(m, i) + 1])).collect()
}

fn tag_at(q: &[u8], i: usize) -> Tag {
    Tag { id: u32_at(q, identifier_at(i)), stage: q[stage_at(i)], stamp: u32_at(q, stamp_at(i)) }
}

fn record_at(q: &[u8], i: usize) -> Record {
    Record { tag: tag_at(q, i), slots: std::array::from_fn(|m| u16_at(q, coordinate_at(m, i)) % COORDINATES) }
}

fn key_at(q: &[u8], at: usize) -> Key {
    Key { pyramid: q[at + 6], height: u16_at(q, at + 4), id: u32_at(q, at) }
}

fn entry_at(q: &[u8], i: usize) -> Entry {
    let at = 4 + 20 * i;
    Entry { child: u32_at(q, at), first: key_at(q, at + 4), last: key_at(q, at + 12) }
}

/// The records of a leaf of at most 16.
pub fn records(b: &[u8], p: u32) -> Vec<Record> {
    (0..count(b, p)).map(|i| record_at(page(b, p), i)).collect()
}

/// The entries of an inner page of at most 16.
pub fn entries(b: &[u8], p: u32) -> Vec<Entry> {
    (0..count(b, p)).map(|i| entry_at(page(b, p), i)).collect()
}

pub fn put_leaf(b: &mut [u8], p: u32, records: &[Record]) {
    assert!(records.len() <= 16);
    let q = page_mut(b, p);
    q.fill(0);
    q[1] = records.len() as u8;
    for (i, r) in records.iter().enumerate() {
        put_u32(q, identifier_at(i), r.tag.id);
        q[stage_at(i)] = r.tag.stage;
        put_u32(q, stamp_at(i), r.tag.stamp);
        for (m, slot) in r.slots.iter().enumerate() {
            put_u16(q, coordinate_at(m, i), slot % COORDINATES);
        }
    }
}

fn put_key(q: &mut [u8], at: usize, key: Key) {
    put_u32(q, at, key.id);
    put_u16(q, at + 4, key.height);
    q[at + 6] = key.pyramid;
}

pub fn put_inner(b: &mut [u8], p: u32, level: u8, entries: &[Entry]) {
    assert!(level > 0 && entries.len() <= 16);
    let q = page_mut(b, p);
    q.fill(0);
    q[0] = level;
    q[1] = entries.len() as u8;
    for (i, e) in entries.iter().enumerate() {
        let at = 4 + 20 * i;
        put_u32(q, at, e.child);
        put_key(q, at + 4, e.first);
        put_key(q, at + 12, e.last);
    }
}

/// The first and the last key of a page, from its own items.
pub fn ends(b: &[u8], p: u32, d: usize) -> (Key, Key) {
    let last = count(b, p) - 1;
    if level(b, p) == 0 {
        (record_at(page(b, p), 0).key(d), record_at(page(b, p), last).key(d))
    } else {
        (entry_at(page(b, p), 0).first, entry_at(page(b, p), last).last)
    }
}

/// A sound index with 0 in every byte and bit that no table of the layout names.
pub fn canonical(bytes: &[u8]) -> Vec<u8> {
    let mut b = bytes.to_vec();
    let fields = [SIZE, ROOT, TOTAL, FREED, FRESH].map(|f| (f, u32_at(bytes, f)));
    let (d, root_level) = (bytes[FEATURES], bytes[LEVEL]);
    page_mut(&mut b, 0).fill(0);
    fields.iter().for_each(|&(f, v)| put_u32(&mut b, f, v));
    b[FEATURES] = d;
    b[LEVEL] = root_level;
    let mut p = u32_at(bytes, FREED);
    while p != 0 {
        let next = u32_at(page(bytes, p), 4);
        page_mut(&mut b, p).fill(0);
        put_u32(page_mut(&mut b, p), 4, next);
        p = next;
    }
    let mut open = vec![u32_at(bytes, ROOT)];
    while let Some(p) = open.pop() {
        if level(bytes, p) == 0 {
            put_leaf(&mut b, p, &records(bytes, p));
        } else {
            put_inner(&mut b, p, level(bytes, p), &entries(bytes, p));
            open.extend(entries(bytes, p).iter().map(|e| e.child));
        }
    }
    b
}
