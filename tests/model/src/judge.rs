//! Soundness of any bytes of a permitted length, rule by rule: the pages at which a rule fails.

use crate::layout::*;
use std::collections::{BTreeSet, HashMap};

struct Judge<'a> {
    b: &'a [u8],
    n: u32,
    d: usize,
    fresh: u32,
    freed: Vec<bool>,
    /// How often a page is named: by entries of followed pages, and by the root link.
    named: Vec<u32>,
    followed: Vec<bool>,
    /// Every entry of a followed page: its page and the child that it names, with whether it is faulty by itself.
    entries: Vec<(u32, u32, bool)>,
    leaves: Vec<u32>,
    fails: BTreeSet<u32>,
    /// An entry or the root's fill is faulty.
    hushed: bool,
}

/// The pages at which soundness fails; none of a sound index.
pub fn fails(b: &[u8]) -> BTreeSet<u32> {
    assert!(permitted(b.len()));
    let n = (b.len() / PAGE) as u32;
    let d = b[FEATURES] as usize;
    if d == 0 || d > 16 {
        return BTreeSet::from([0]);
    }
    let mut judge = Judge {
        b,
        n,
        d,
        fresh: u32_at(b, FRESH),
        freed: vec![false; n as usize],
        named: vec![0; n as usize],
        followed: vec![false; n as usize],
        entries: Vec::new(),
        leaves: Vec::new(),
        fails: BTreeSet::new(),
        hushed: false,
    };
    if u32_at(b, SIZE) != n || judge.fresh == 0 || judge.fresh > n {
        judge.fails.insert(0);
    }
    judge.chain();
    judge.root();
    judge.links();
    judge.repeats();
    if !judge.hushed {
        judge.total();
        judge.states();
    }
    judge.fails
}

pub fn sound(b: &[u8]) -> bool {
    fails(b).is_empty()
}

impl Judge<'_> {
    fn in_range(&self, p: u32) -> bool {
        p != 0 && p < self.n
    }

    fn chain(&mut self) {
        let mut p = u32_at(self.b, FREED);
        while p != 0 {
            if !self.in_range(p) || self.freed[p as usize] {
                self.fails.insert(0);
                return;
            }
            if p >= self.fresh {
                self.fails.insert(0);
            }
            self.freed[p as usize] = true;
            p = u32_at(page(self.b, p), 4);
        }
    }

    fn root(&mut self) {
        let root = u32_at(self.b, ROOT);
        if !self.in_range(root) {
            self.fails.insert(0);
            return;
        }
        self.named[root as usize] += 1;
        if self.freed[root as usize] || root >= self.fresh || level(self.b, root) != self.b[LEVEL] {
            self.fails.insert(0);
        }
        let least = if level(self.b, root) == 0 { 0 } else { 2 };
        if !(least..=16).contains(&count(self.b, root)) {
            self.fails.insert(root);
            self.hushed = true;
            return;
        }
        self.follow(root);
    }

    /// Judges a page by itself, and follows its entries.
    fn follow(&mut self, p: u32) {
        if std::mem::replace(&mut self.followed[p as usize], true) {
            return;
        }
        if level(self.b, p) == 0 {
            self.leaf(p);
            return;
        }
        let entries = entries(self.b, p);
        let ascending = entries.iter().all(|e| e.first < e.last) && entries.windows(2).all(|w| w[0].last < w[1].first);
        if !ascending {
            self.fails.insert(p);
        }
        for e in entries {
            let mut faulty = true;
            if self.in_range(e.child) {
                self.named[e.child as usize] += 1;
                let filled = (8..=16).contains(&count(self.b, e.child));
                if filled && level(self.b, e.child) == level(self.b, p) - 1 {
                    faulty = ends(self.b, e.child, self.d) != (e.first, e.last);
                    self.follow(e.child);
                }
            }
            self.entries.push((p, e.child, faulty));
        }
    }

    fn leaf(&mut self, p: u32) {
        self.leaves.push(p);
        let records = records(self.b, p);
        let ranged = records.iter().all(|r| r.slots[..self.d].iter().all(|&s| s <= 2000));
        let tagged = records.iter().all(|r| r.tag.id != 0 && r.tag.stage <= MOST_STAGE);
        if !ranged || !tagged || !records.windows(2).all(|w| w[0].key(self.d) < w[1].key(self.d)) {
            self.fails.insert(p);
        }
    }

    /// Faulty entries: each fails at its parent.
    fn links(&mut self) {
        for (p, child, faulty) in std::mem::take(&mut self.entries) {
            let elsewhere = self.in_range(child) && (self.named[child as usize] > 1 || self.freed[child as usize] || child >= self.fresh);
            if faulty || elsewhere {
                self.fails.insert(p);
                self.hushed = true;
            }
        }
    }

    fn repeats(&mut self) {
        let mut holders: HashMap<u32, Vec<u32>> = HashMap::new();
        for &p in &self.leaves {
            for r in records(self.b, p) {
                holders.entry(r.tag.id).or_default().push(p);
            }
        }
        self.fails.extend(holders.into_values().filter(|pages| pages.len() > 1).flatten());
    }

    fn total(&mut self) {
        let total: usize = self.leaves.iter().map(|&p| count(self.b, p)).sum();
        if total > MOST_POINTS as usize || total as u32 != u32_at(self.b, TOTAL) {
            self.fails.insert(0);
        }
    }

    fn states(&mut self) {
        for p in 1..self.n {
            if self.named[p as usize] == 0 && !self.freed[p as usize] && p < self.fresh {
                self.fails.insert(p);
            }
        }
    }
}
