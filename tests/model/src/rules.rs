//! Rule by rule: one fault each, with the pages at which the specification says that it fails.

use crate::acts::{lent_rows, Act};
use crate::built::{built, Plan, Shape};
use crate::data::{Kind, Rng};
use crate::ffi;
use crate::judge;
use crate::layout::*;
use crate::lent::Lent;
use crate::model::{Asked, Model, Tally};
use crate::run::Run;
use std::collections::BTreeSet;

/// A sound index of three levels with freed and never used pages, and what it is made of.
struct Sound {
    b: Vec<u8>,
    n: u32,
    root: u32,
    fresh: u32,
    inner: Vec<u32>,
    leaves: Vec<u32>,
    freed: Vec<u32>,
}

impl Sound {
    fn new(rng: &mut Rng) -> Sound {
        let plan = Plan { pages: 64, d: 3, kind: Kind::Uniform, points: 260, shape: Shape::Any, junk: false };
        loop {
            let b = built(rng, plan);
            let root = u32_at(&b, ROOT);
            let mut freed = Vec::new();
            let mut p = u32_at(&b, FREED);
            while p != 0 {
                freed.push(p);
                p = u32_at(page(&b, p), 4);
            }
            if b[LEVEL] == 2 && freed.len() > 2 && u32_at(&b, FRESH) < 60 {
                let children = |p: u32| entries(&b, p).iter().map(|e| e.child).collect::<Vec<_>>();
                let inner = children(root);
                let leaves = inner.iter().flat_map(|&p| children(p)).collect();
                return Sound { n: 64, root, fresh: u32_at(&b, FRESH), inner, leaves, freed, b };
            }
        }
    }

    fn parent(&self, p: u32) -> u32 {
        let names = |q: &&u32| entries(&self.b, **q).iter().any(|e| e.child == p);
        self.inner.iter().chain([&self.root]).find(names).copied().unwrap()
    }

    fn tree(&self) -> Vec<u32> {
        [&self.inner[..], &self.leaves[..], &[self.root]].concat()
    }
}

type Rule = fn(&Sound, &mut [u8]) -> Vec<u32>;

fn byte(p: u32, i: usize) -> usize {
    p as usize * PAGE + i
}

fn identifier(p: u32, i: usize) -> usize {
    byte(p, identifier_at(i))
}

fn coordinate(p: u32, m: usize, i: usize) -> usize {
    byte(p, coordinate_at(m, i))
}

fn entry(p: u32, i: usize) -> usize {
    byte(p, 4 + 20 * i)
}

fn swap_entries(b: &mut [u8], p: u32, i: usize, j: usize) {
    (0..20).for_each(|n| b.swap(entry(p, i) + n, entry(p, j) + n));
}

fn swap_records(b: &mut [u8], p: u32, i: usize, j: usize) {
    cells(i).into_iter().zip(cells(j)).for_each(|(x, y)| b.swap(byte(p, x), byte(p, y)));
}

/// A stored coordinate above 2,000 in the last record of all, and its key in the entries above: no other rule fails.
fn beyond(s: &Sound, b: &mut [u8], stored: u16) -> Vec<u32> {
    let leaf = *s.leaves.last().unwrap();
    put_u16(b, coordinate(leaf, 2, count(b, leaf) - 1), stored);
    for p in [s.parent(leaf), s.root] {
        let mut all = entries(b, p);
        all.last_mut().unwrap().last = ends(b, leaf, 3).1;
        put_inner(b, p, level(b, p), &all);
    }
    vec![leaf]
}

const HEADER: [(&str, Rule); 14] = [
    ("length", |s, b| {
        put_u32(b, SIZE, s.n + 1);
        vec![0]
    }),
    ("d of 0", |_, b| {
        b[FEATURES] = 0;
        vec![0]
    }),
    ("d of 17", |_, b| {
        b[FEATURES] = 17;
        vec![0]
    }),
    ("root link 0", |s, b| {
        put_u32(b, ROOT, 0);
        [vec![0], s.tree()].concat()
    }),
    ("root link past the end", |s, b| {
        put_u32(b, ROOT, s.n);
        [vec![0], s.tree()].concat()
    }),
    ("root's level", |_, b| {
        b[LEVEL] = 1;
        vec![0]
    }),
    ("total above", |_, b| {
        put_u32(b, TOTAL, 261);
        vec![0]
    }),
    ("total 0", |_, b| {
        put_u32(b, TOTAL, 0);
        vec![0]
    }),
    ("a page in no state", |s, b| {
        put_u32(b, FRESH, s.fresh + 1);
        vec![s.fresh]
    }),
    ("never used: past the end", |s, b| {
        put_u32(b, FRESH, s.n + 1);
        [vec![0], (s.fresh..s.n).collect()].concat()
    }),
    ("freed pages lost", |s, b| {
        put_u32(b, FREED, 0);
        s.freed.clone()
    }),
    ("one freed page lost", |s, b| {
        put_u32(b, FREED, s.freed[1]);
        vec![s.freed[0]]
    }),
    ("freed pages in a ring", |s, b| {
        put_u32(b, byte(*s.freed.last().unwrap(), 4), s.freed[0]);
        vec![0]
    }),
    ("a freed page that is never used", |s, b| {
        put_u32(b, byte(*s.freed.last().unwrap(), 4), s.n - 1);
        put_u32(b, byte(s.n - 1, 4), 0);
        vec![0]
    }),
];

const LEAVES: [(&str, Rule); 15] = [
    ("identifier 0", |s, b| {
        put_u32(b, identifier(s.leaves[3], 2), 0);
        vec![s.leaves[3]]
    }),
    ("coordinate of 2,001", |s, b| {
        put_u16(b, coordinate(s.leaves[3], 0, 2), 2001);
        vec![s.leaves[3]]
    }),
    ("coordinate of 2,047", |s, b| {
        put_u16(b, coordinate(s.leaves[3], 1, 2), 2047);
        vec![s.leaves[3]]
    }),
    ("coordinate of 2,001 by its low 11 bits", |s, b| {
        put_u16(b, coordinate(s.leaves[3], 2, 2), 2001 | 0xF800);
        vec![s.leaves[3]]
    }),
    ("stage of 6", |s, b| {
        b[byte(s.leaves[3], stage_at(0))] = 6;
        vec![s.leaves[3]]
    }),
    ("stage of 255 in the last record", |s, b| {
        b[byte(s.leaves[5], stage_at(count(b, s.leaves[5]) - 1))] = 255;
        vec![s.leaves[5]]
    }),
    ("stages of 8 and 64 in two leaves", |s, b| {
        b[byte(s.leaves[1], stage_at(4))] = 8;
        b[byte(s.leaves[7], stage_at(7))] = 64;
        vec![s.leaves[1], s.leaves[7]]
    }),
    ("records out of order", |s, b| {
        swap_records(b, s.leaves[4], 2, 3);
        vec![s.leaves[4]]
    }),
    ("identifier in two leaves", |s, b| {
        put_u32(b, identifier(s.leaves[2], 3), u32_at(b, identifier(s.leaves[9], 3)));
        vec![s.leaves[2], s.leaves[9]]
    }),
    ("identifier twice in a leaf", |s, b| {
        put_u32(b, identifier(s.leaves[2], 3), u32_at(b, identifier(s.leaves[2], 5)));
        vec![s.leaves[2]]
    }),
    ("identifier in three leaves", |s, b| {
        for p in [1, 5] {
            put_u32(b, identifier(s.leaves[p], 3), u32_at(b, identifier(s.leaves[9], 3)));
        }
        vec![s.leaves[1], s.leaves[5], s.leaves[9]]
    }),
    ("leaf of 7", |s, b| {
        b[byte(s.leaves[6], 1)] = 7;
        vec![s.parent(s.leaves[6])]
    }),
    ("leaf of 17", |s, b| {
        b[byte(s.leaves[6], 1)] = 17;
        vec![s.parent(s.leaves[6])]
    }),
    ("leaf's level", |s, b| {
        b[byte(s.leaves[6], 0)] = 1;
        vec![s.parent(s.leaves[6])]
    }),
    ("leaf of 7, and its contents", |s, b| {
        b[byte(s.leaves[6], 1)] = 7;
        put_u32(b, identifier(s.leaves[6], 2), 0);
        b[byte(s.leaves[6], stage_at(3))] = 6;
        put_u32(b, TOTAL, 3);
        vec![s.parent(s.leaves[6])]
    }),
];

const INNER: [(&str, Rule); 18] = [
    ("root of 1", |s, b| {
        b[byte(s.root, 1)] = 1;
        vec![s.root]
    }),
    ("root of 17, and all below", |s, b| {
        b[byte(s.root, 1)] = 17;
        b[byte(s.inner[0], 1)] = 3;
        put_u32(b, TOTAL, 5);
        vec![s.root]
    }),
    ("inner page of 7", |s, b| {
        b[byte(s.inner[1], 1)] = 7;
        vec![s.root]
    }),
    ("inner page's level", |s, b| {
        b[byte(s.inner[1], 0)] = 0;
        vec![s.root]
    }),
    ("entry's first key", |s, b| {
        b[entry(s.inner[1], 0) + 4] ^= 1;
        vec![s.inner[1], s.root]
    }),
    ("entry's key inside", |s, b| {
        let e = entries(b, s.inner[1])[2];
        put_u32(b, entry(s.inner[1], 2) + 4, e.first.id ^ 1);
        vec![s.inner[1]]
    }),
    ("entries out of order", |s, b| {
        swap_entries(b, s.inner[0], 2, 3);
        vec![s.inner[0]]
    }),
    ("entries out of order, and the total", |s, b| {
        swap_entries(b, s.inner[0], 2, 3);
        put_u32(b, TOTAL, 259);
        vec![0, s.inner[0]]
    }),
    ("entry to page 0", |s, b| {
        put_u32(b, entry(s.inner[0], 2), 0);
        vec![s.inner[0]]
    }),
    ("entry past the end", |s, b| {
        put_u32(b, entry(s.inner[0], 2), s.n);
        vec![s.inner[0]]
    }),
    ("entry to the root", |s, b| {
        put_u32(b, entry(s.inner[0], 2), s.root);
        vec![s.inner[0]]
    }),
    ("entry to itself", |s, b| {
        put_u32(b, entry(s.inner[0], 2), s.inner[0]);
        vec![s.inner[0], s.root]
    }),
    ("entry to a freed page", |s, b| {
        put_u32(b, entry(s.inner[0], 2), s.freed[1]);
        vec![s.inner[0]]
    }),
    ("two entries to one page", |s, b| {
        let (child, other) = (u32_at(b, entry(s.inner[1], 3)), s.inner[0]);
        put_u32(b, entry(other, 2), child);
        vec![other, s.inner[1]]
    }),
    ("a leaf that is freed too", |s, b| {
        let leaf = s.leaves[1];
        put_u32(b, byte(*s.freed.last().unwrap(), 4), leaf);
        vec![s.parent(leaf)]
    }),
    ("a leaf that is freed too, with a link past the end", |s, b| {
        let leaf = s.leaves[1];
        put_u32(b, byte(*s.freed.last().unwrap(), 4), leaf);
        put_u32(b, byte(leaf, 4), s.n);
        vec![0, s.parent(leaf)]
    }),
    ("a leaf within a whole chain of freed pages", |s, b| {
        let leaf = u32_at(b, entry(s.inner[0], 1));
        put_u32(b, byte(leaf, 4), s.freed[0]);
        put_u32(b, FREED, leaf);
        vec![s.inner[0]]
    }),
    ("a leaf that is never used too", |s, b| {
        let last = s.fresh - 1;
        put_u32(b, FRESH, last);
        if s.freed.contains(&last) || last == s.root {
            vec![0]
        } else {
            vec![s.parent(last)]
        }
    }),
];

/// The judge's set, the check's page, and the codes of the other acts.
fn rule(run: &mut Run, name: &str, s: &Sound, rule: impl Fn(&Sound, &mut [u8]) -> Vec<u32>) {
    let mut b = s.b.clone();
    let want: BTreeSet<u32> = rule(s, &mut b).into_iter().collect();
    let got = judge::fails(&b);
    run.expect(got == want, || format!("{name}: judge {got:?}, expected {want:?}"));
    let mut lib = Lent::new(&b);
    let mut model = Model::over(b);
    let asked = Asked::new(&[1, 2, 3], 4, ALL_STAGES);
    for act in [Act::Check, Act::Insert(Tag::of(5), asked.x.clone()), Act::Delete(5), Act::Question(asked, 4, Tally::default())] {
        let code = run.act(&mut lib, &mut model, &act, true);
        run.expect(code == 2, || format!("{name}: {act:?} gives {code}"));
    }
    run.counts.damaged += 1;
    run.counts.unsound += 1;
    run.counts.header += want.contains(&0) as u64;
}

/// Pages whose entries all lead back to the page: nothing may follow them without end.
fn ring(run: &mut Run, level: u8) {
    let mut b = vec![0; 8 * PAGE];
    ffi::make(&mut b, 2);
    put_u32(&mut b, TOTAL, 200);
    b[LEVEL] = level;
    page_mut(&mut b, 1)[0] = level;
    page_mut(&mut b, 1)[1] = 16;
    (0..16).for_each(|i| put_u32(&mut b, entry(1, i), 1));
    let mut lib = Lent::new(&b);
    run.act(&mut lib, &mut Model::over(b.clone()), &Act::Check, true);
    let got = ffi::search(&lib, &Asked::new(&[3, 4], 64, ALL_STAGES), &mut lent_rows(), 64);
    run.expect(got.rows <= 64, || format!("ring of level {level}: {got:?}"));
    run.counts.searches += 1;
    let deleted = ffi::delete(&mut lib, 5, true);
    lib.copy_from_slice(&b);
    let codes = [got.code, deleted, ffi::insert(&mut lib, Tag::of(5), &[3, 4], true)];
    run.expect(codes.iter().all(|&code| (code == 2) == (level > 4)), || format!("ring of level {level}: {codes:?}"));
    run.expect(lib.intact(), || format!("ring of level {level}: bytes before the index changed"));
}

pub fn all(run: &mut Run) {
    for (group, rules) in [("header", &HEADER[..]), ("leaves", &LEAVES[..]), ("inner pages", &INNER[..])] {
        run.case(&format!("rule by rule: {group}"), |run| {
            let mut rng = Rng(8);
            for _ in 0..20 {
                let s = Sound::new(&mut rng);
                rules.iter().for_each(|(name, r)| rule(run, name, &s, r));
            }
        });
    }
    run.case("rule by rule: each coordinate out of range, all keys in order", |run| {
        let s = Sound::new(&mut Rng(11));
        for stored in 2001..COORDINATES {
            for upper in 0..32 {
                rule(run, &format!("{stored}, upper bits {upper}"), &s, |s, b| beyond(s, b, stored | upper << 11));
            }
        }
    });
    run.case("entries that lead back", |run| [0, 1, 2, 3, 4, 5, 6, 7, 100, 255].iter().for_each(|&level| ring(run, level)));
}
