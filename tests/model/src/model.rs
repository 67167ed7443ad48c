//! The five acts over the model's own bytes, from the specification's words.

use crate::calendar::Dates;
use crate::geometry::{distance, Key, Slices};
use crate::judge;
use crate::layout::*;
use std::cmp::Reverse;
use std::collections::BTreeSet;

#[derive(Clone, Copy, PartialEq, Eq, Debug, Default)]
pub struct Row {
    pub id: u32,
    pub distance: u64,
    pub position: u64,
    pub stamp: u32,
}

impl Row {
    /// Rows ascend by this: lower distance, later stamp, lower identifier.
    pub fn order(&self) -> (u64, Reverse<u32>, u32) {
        (self.distance, Reverse(self.stamp), self.id)
    }
}

#[derive(Clone, Copy, PartialEq, Eq, Debug, Default)]
pub struct Tally {
    pub questions: u32,
    pub leaves: u32,
}

/// What is asked: a point, the weights of its coordinates, if any are carried, how many rows, the stages looked among, bit s for stage s, and
/// the recording days looked among, if any are named.
#[derive(Clone, PartialEq, Eq, Debug)]
pub struct Asked {
    pub x: Vec<i16>,
    pub weights: Option<Vec<u16>>,
    pub k: usize,
    pub stages: u8,
    pub dates: Option<Dates>,
}

impl Asked {
    /// Without weights and dates.
    pub fn new(x: &[i16], k: usize, stages: u8) -> Asked {
        Asked { x: x.to_vec(), weights: None, k, stages, dates: None }
    }

    /// The same by weights.
    pub fn by(&self, weights: &[u16]) -> Asked {
        Asked { weights: Some(weights.to_vec()), ..self.clone() }
    }

    /// The same within dates.
    pub fn within(&self, dates: Dates) -> Asked {
        Asked { dates: Some(dates), ..self.clone() }
    }

    /// Whether a record is looked for.
    pub fn seeks(&self, r: &Record) -> bool {
        let staged = (0..=MOST_STAGE).any(|stage| self.stages & (1 << stage) != 0 && r.tag.stage == stage);
        staged && self.dates.is_none_or(|dates| dates.hold(r.tag.stamp))
    }

    /// 17 or 18 where the dates are refused.
    fn misdated(&self) -> Option<u32> {
        let Dates { first, last } = self.dates?;
        if !first.permitted() || !last.permitted() {
            Some(17)
        } else if last < first {
            Some(18)
        } else {
            None
        }
    }
}

/// A question's code, number of rows and leaves read.
#[derive(Clone, Copy, PartialEq, Eq, Debug, Default)]
pub struct Answer {
    pub code: u32,
    pub rows: usize,
    pub leaves: u32,
}

/// What the search finds: rows, the number of leaves read, and the pages of the leaves left unread.
#[derive(Clone, PartialEq, Eq, Debug, Default)]
pub struct Found {
    pub rows: Vec<Row>,
    pub leaves: u32,
    pub unread: Vec<u32>,
}

/// An index with the pages at which it fails, which are judged anew after `touch`.
#[derive(Clone)]
pub struct Model {
    pub b: Vec<u8>,
    known: Option<BTreeSet<u32>>,
}

fn wide(x: &[i16]) -> Vec<i64> {
    x.iter().map(|&c| c as i64).collect()
}

fn in_range(x: &[i16]) -> bool {
    x.iter().all(|&c| (-1000..=1000).contains(&c))
}

impl Model {
    pub fn over(b: Vec<u8>) -> Model {
        Model { b, known: None }
    }

    /// The bytes, for a change from outside.
    pub fn touch(&mut self) -> &mut Vec<u8> {
        self.known = None;
        &mut self.b
    }

    pub fn d(&self) -> usize {
        self.b[FEATURES] as usize
    }

    pub fn total(&self) -> u32 {
        u32_at(&self.b, TOTAL)
    }

    fn pages(&self) -> u32 {
        (self.b.len() / PAGE) as u32
    }

    /// The pages at which the index fails, by the judge.
    pub fn fails(&mut self) -> &BTreeSet<u32> {
        self.known.get_or_insert_with(|| judge::fails(&self.b))
    }

    pub fn sound(&mut self) -> bool {
        self.fails().is_empty()
    }

    /// 1 or 2 where the length or the index is refused.
    fn refused(&mut self) -> Option<u32> {
        if !permitted(self.b.len()) {
            Some(1)
        } else if !self.sound() {
            Some(2)
        } else {
            None
        }
    }

    pub fn make(&mut self, d: u32) -> u32 {
        if !permitted(self.b.len()) {
            return 1;
        }
        if !(1..=16).contains(&d) {
            return 3;
        }
        let n = self.pages();
        self.b[..2 * PAGE].fill(0);
        for (field, value) in [(SIZE, n), (FEATURES, d), (ROOT, 1), (FRESH, 2)] {
            put_u32(&mut self.b, field, value);
        }
        self.known = Some(BTreeSet::new());
        0
    }

    /// The pages of the leaves, in key order.
    pub fn leaves(&self) -> Vec<u32> {
        let mut row = vec![u32_at(&self.b, ROOT)];
        while level(&self.b, row[0]) > 0 {
            row = row.iter().flat_map(|&p| entries(&self.b, p)).map(|e| e.child).collect();
        }
        row
    }

    pub fn records(&self) -> Vec<Record> {
        self.leaves().iter().flat_map(|&p| records(&self.b, p)).collect()
    }

    pub fn record(&self, id: u32) -> Option<Record> {
        self.records().into_iter().find(|r| r.tag.id == id)
    }

    /// The bytes with other stages and stamps in the records.
    pub fn retagged(&self, mut other: impl FnMut(Tag) -> Tag) -> Vec<u8> {
        let mut b = self.b.clone();
        for p in self.leaves() {
            let mut all = records(&b, p);
            all.iter_mut().for_each(|r| r.tag = other(r.tag));
            put_leaf(&mut b, p, &all);
        }
        b
    }

    fn idle(&self) -> u32 {
        let mut idle = self.pages() - u32_at(&self.b, FRESH);
        let mut p = u32_at(&self.b, FREED);
        while p != 0 {
            idle += 1;
            p = u32_at(page(&self.b, p), 4);
        }
        idle
    }

    fn take(&mut self) -> u32 {
        let freed = u32_at(&self.b, FREED);
        if freed != 0 {
            let before = u32_at(page(&self.b, freed), 4);
            put_u32(&mut self.b, FREED, before);
            return freed;
        }
        let fresh = u32_at(&self.b, FRESH);
        assert!(fresh < self.pages());
        put_u32(&mut self.b, FRESH, fresh + 1);
        fresh
    }

    fn free(&mut self, p: u32) {
        let before = u32_at(&self.b, FREED);
        page_mut(&mut self.b, p).fill(0);
        put_u32(page_mut(&mut self.b, p), 4, before);
        put_u32(&mut self.b, FREED, p);
    }

    fn entry(&self, child: u32) -> Entry {
        let (first, last) = ends(&self.b, child, self.d());
        Entry { child, first, last }
    }

    fn choose(entries: &[Entry], key: Key) -> usize {
        entries.iter().rposition(|e| e.first <= key).unwrap_or(0)
    }

    fn wanted(&self, key: Key) -> u32 {
        let mut way = vec![u32_at(&self.b, ROOT)];
        while level(&self.b, *way.last().unwrap()) > 0 {
            let entries = entries(&self.b, *way.last().unwrap());
            way.push(entries[Self::choose(&entries, key)].child);
        }
        let run = way.iter().rev().take_while(|&&p| count(&self.b, p) == 16).count();
        (run + (run == way.len()) as usize) as u32
    }

    pub fn insert(&mut self, tag: Tag, x: &[i16]) -> u32 {
        if let Some(code) = self.refused() {
            return code;
        }
        if x.len() != self.d() {
            return 3;
        }
        if !in_range(x) {
            return 4;
        }
        if tag.id == 0 {
            return 5;
        }
        if tag.stage > MOST_STAGE {
            return 15;
        }
        if self.record(tag.id).is_some() {
            return 6;
        }
        self.insert_new(tag, x)
    }

    /// The rest of an insert, of an identifier known not to be live.
    pub fn insert_new(&mut self, tag: Tag, x: &[i16]) -> u32 {
        if self.total() >= MOST_POINTS {
            return 8;
        }
        let record = Record::new(tag, &wide(x));
        if self.wanted(record.key(self.d())) > self.idle() {
            return 9;
        }
        let root = u32_at(&self.b, ROOT);
        let root_level = level(&self.b, root);
        if let Some(right) = self.put(root, &record) {
            let pair = [self.entry(root), self.entry(right)];
            let top = self.take();
            put_inner(&mut self.b, top, root_level + 1, &pair);
            put_u32(&mut self.b, ROOT, top);
            self.b[LEVEL] = root_level + 1;
        }
        let total = self.total() + 1;
        put_u32(&mut self.b, TOTAL, total);
        0
    }

    /// Puts a record below a page; the new page on the right if it is split.
    fn put(&mut self, p: u32, record: &Record) -> Option<u32> {
        let d = self.d();
        let lv = level(&self.b, p);
        if lv == 0 {
            let mut all = records(&self.b, p);
            all.push(*record);
            all.sort_by_key(|r| r.key(d));
            if all.len() <= 16 {
                put_leaf(&mut self.b, p, &all);
                return None;
            }
            let right = self.take();
            put_leaf(&mut self.b, p, &all[..9]);
            put_leaf(&mut self.b, right, &all[9..]);
            return Some(right);
        }
        let mut all = entries(&self.b, p);
        let i = Self::choose(&all, record.key(d));
        let split = self.put(all[i].child, record);
        all[i] = self.entry(all[i].child);
        if let Some(new) = split {
            all.insert(i + 1, self.entry(new));
        }
        if all.len() <= 16 {
            put_inner(&mut self.b, p, lv, &all);
            return None;
        }
        let right = self.take();
        put_inner(&mut self.b, p, lv, &all[..9]);
        put_inner(&mut self.b, right, lv, &all[9..]);
        Some(right)
    }

    pub fn delete(&mut self, id: u32) -> u32 {
        if let Some(code) = self.refused() {
            return code;
        }
        if id == 0 {
            return 5;
        }
        let Some(record) = self.record(id) else { return 7 };
        self.delete_record(&record);
        0
    }

    /// The rest of a delete, of a live record.
    pub fn delete_record(&mut self, record: &Record) {
        let root = u32_at(&self.b, ROOT);
        self.drop_below(root, record);
        if level(&self.b, root) > 0 && count(&self.b, root) == 1 {
            let only = entries(&self.b, root)[0].child;
            put_u32(&mut self.b, ROOT, only);
            self.b[LEVEL] = level(&self.b, only);
            self.free(root);
        }
        let total = self.total() - 1;
        put_u32(&mut self.b, TOTAL, total);
    }

    fn drop_below(&mut self, p: u32, record: &Record) {
        let lv = level(&self.b, p);
        if lv == 0 {
            let mut all = records(&self.b, p);
            all.retain(|r| r.tag.id != record.tag.id);
            put_leaf(&mut self.b, p, &all);
            return;
        }
        let mut all = entries(&self.b, p);
        let i = Self::choose(&all, record.key(self.d()));
        self.drop_below(all[i].child, record);
        if count(&self.b, all[i].child) < 8 {
            self.even_out(&mut all, i);
        } else {
            all[i] = self.entry(all[i].child);
        }
        put_inner(&mut self.b, p, lv, &all);
    }

    /// Child i has 7: its partner gives one, or the two join.
    fn even_out(&mut self, all: &mut Vec<Entry>, i: usize) {
        let left = if i + 1 < all.len() { i } else { i - 1 };
        let (a, b) = (all[left].child, all[left + 1].child);
        let join = count(&self.b, a) + count(&self.b, b) == 15;
        let keep = if i == left { 8 } else { count(&self.b, a) - 1 };
        if level(&self.b, a) == 0 {
            let both = [records(&self.b, a), records(&self.b, b)].concat();
            let keep = if join { both.len() } else { keep };
            put_leaf(&mut self.b, a, &both[..keep]);
            put_leaf(&mut self.b, b, &both[keep..]);
        } else {
            let lv = level(&self.b, a);
            let both = [entries(&self.b, a), entries(&self.b, b)].concat();
            let keep = if join { both.len() } else { keep };
            put_inner(&mut self.b, a, lv, &both[..keep]);
            put_inner(&mut self.b, b, lv, &both[keep..]);
        }
        all[left] = self.entry(a);
        if join {
            self.free(b);
            all.remove(left + 1);
        } else {
            all[left + 1] = self.entry(b);
        }
    }

    /// The rows of all candidates, nearest first, by a full scan.
    pub fn candidates(&self, asked: &Asked) -> Vec<Row> {
        let (d, from, weights) = (self.d(), wide(&asked.x), asked.weights.as_deref());
        let mut rows = Vec::new();
        for (position, &p) in self.leaves().iter().enumerate() {
            for r in records(&self.b, p).iter().filter(|r| asked.seeks(r)) {
                let distance = distance(weights, &r.point(d), &from);
                rows.push(Row { id: r.tag.id, distance, position: position as u64, stamp: r.tag.stamp });
            }
        }
        rows.sort_by_key(Row::order);
        rows
    }

    /// A full scan, and the exact set by every leaf's bound: all leaves that hold records where fewer than k candidates live.
    pub fn search(&self, asked: &Asked) -> Found {
        let d = self.d();
        let mut rows = self.candidates(asked);
        let few = rows.len() < asked.k;
        rows.truncate(asked.k);
        let leaves = self.leaves();
        let slices = Slices::of(&wide(&asked.x), asked.weights.as_deref());
        let mut found = Found::default();
        for &p in &leaves {
            if count(&self.b, p) == 0 {
                found.unread.push(p);
                continue;
            }
            let (first, last) = ends(&self.b, p, d);
            let bound = slices.bound((first.pyramid, first.height), (last.pyramid, last.height));
            if few || bound <= rows.last().unwrap().distance {
                found.leaves += 1;
            } else {
                found.unread.push(p);
            }
        }
        found.rows = rows;
        found
    }

    pub fn question(&mut self, asked: &Asked, rows: &mut [Row], tally: &mut Tally) -> Answer {
        let refusal = |code| Answer { code, ..Answer::default() };
        if let Some(code) = self.refused() {
            return refusal(code);
        }
        let weights = asked.weights.as_deref();
        if asked.x.len() != self.d() || weights.is_some_and(|weights| weights.len() != self.d()) {
            return refusal(3);
        }
        if !in_range(&asked.x) {
            return refusal(4);
        }
        if weights.is_some_and(|weights| weights.iter().any(|&w| w > MOST_WEIGHT)) {
            return refusal(14);
        }
        if !(1..=64).contains(&asked.k) {
            return refusal(10);
        }
        if rows.len() < asked.k {
            return refusal(11);
        }
        if !(1..=ALL_STAGES).contains(&asked.stages) {
            return refusal(16);
        }
        if let Some(code) = asked.misdated() {
            return refusal(code);
        }
        let found = self.search(asked);
        rows[..found.rows.len()].copy_from_slice(&found.rows);
        tally.questions = tally.questions.saturating_add(1);
        tally.leaves = tally.leaves.saturating_add(found.leaves);
        Answer { code: 0, rows: found.rows.len(), leaves: found.leaves }
    }
}
