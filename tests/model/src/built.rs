//! Sound indexes that no series of acts need ever reach: any fills, any page numbers, any chain of freed pages, any unused bytes.

use crate::acts::{Act, ROWS};
use crate::data::{point, tag, Kind, Rng, KINDS, MIXES};
use crate::ffi;
use crate::judge;
use crate::layout::*;
use crate::lent::Lent;
use crate::model::{Asked, Model, Tally};
use crate::run::Run;
use crate::series::{Ids, Series};

#[derive(Clone, Copy, PartialEq, Eq, Debug)]
pub enum Shape {
    Any,
    /// Every page as empty as is allowed, so that the tree is as high as can be.
    Tall,
    /// As full as is allowed.
    Dense,
}

#[derive(Clone, Copy, Debug)]
pub struct Plan {
    pub pages: usize,
    pub d: usize,
    pub kind: Kind,
    pub points: usize,
    pub shape: Shape,
    /// Any values in bytes and bits that no rule names.
    pub junk: bool,
}

/// Sizes of 8 to 16 that add up to m, which is at least 16.
fn groups(rng: &mut Rng, m: usize, shape: Shape) -> Vec<usize> {
    let (few, many) = (m.div_ceil(16), m / 8);
    let n = match shape {
        Shape::Any => few + rng.below(many - few + 1),
        Shape::Tall => many,
        Shape::Dense => few,
    };
    let mut sizes = vec![8; n];
    let mut rest = m - 8 * n;
    while rest > 0 {
        let at = rng.below(n);
        if sizes[at] < 16 {
            sizes[at] += 1;
            rest -= 1;
        }
    }
    sizes
}

/// Levels of groups from the leaves up; the last is the root alone.
fn levels(rng: &mut Rng, points: usize, shape: Shape) -> Vec<Vec<usize>> {
    let mut levels = Vec::new();
    let mut m = points;
    loop {
        if m < 16 || m == 16 && shape != Shape::Tall {
            levels.push(vec![m]);
            return levels;
        }
        let sizes = groups(rng, m, shape);
        m = sizes.len();
        levels.push(sizes);
        if m == 1 {
            return levels;
        }
    }
}

fn sorted_records(rng: &mut Rng, plan: Plan) -> Vec<Record> {
    let mut ids = std::collections::BTreeSet::new();
    while ids.len() < plan.points {
        ids.insert((rng.next() as u32).max(1));
    }
    let mix = rng.pick(&MIXES);
    let mut record = |id| {
        let x: Vec<i64> = point(rng, plan.kind, plan.d).iter().map(|&c| c as i64).collect();
        Record::new(tag(rng, id, mix), &x)
    };
    let mut records: Vec<Record> = ids.into_iter().map(&mut record).collect();
    records.sort_by_key(|r| r.key(plan.d));
    records
}

fn shuffled(rng: &mut Rng, n: usize) -> Vec<u32> {
    let mut pages: Vec<u32> = (1..=n as u32).collect();
    for i in (1..n).rev() {
        pages.swap(i, rng.below(i + 1));
    }
    pages
}

/// The header but for the lowest page never used, and the chain of freed pages.
fn put_header(b: &mut [u8], plan: Plan, root: u32, level: usize, chain: &[u32]) {
    b[..PAGE].fill(0);
    let fields = [
        (SIZE, plan.pages as u32),
        (FEATURES, plan.d as u32),
        (ROOT, root),
        (LEVEL, level as u32),
        (TOTAL, plan.points as u32),
        (FREED, chain.first().copied().unwrap_or(0)),
    ];
    fields.iter().for_each(|&(field, v)| put_u32(b, field, v));
    for (i, &p) in chain.iter().enumerate() {
        let before = chain.get(i + 1).copied().unwrap_or(0);
        page_mut(b, p)[..4].fill(0);
        put_u32(page_mut(b, p), 4, before);
    }
}

/// Consecutive parts of these sizes.
fn parts<'a, T>(of: &'a [T], sizes: &[usize]) -> Vec<&'a [T]> {
    let mut rest = of;
    let mut part = |&size: &usize| {
        let (part, behind) = rest.split_at(size);
        rest = behind;
        part
    };
    sizes.iter().map(&mut part).collect()
}

/// An inner page over these children, which are written already.
fn put_over(b: &mut [u8], p: u32, level: u8, children: &[u32], d: usize) {
    let entry = |&child: &u32| {
        let (first, last) = ends(b, child, d);
        Entry { child, first, last }
    };
    let entries: Vec<Entry> = children.iter().map(entry).collect();
    put_inner(b, p, level, &entries);
}

/// The bytes of an index by plan.
pub fn built(rng: &mut Rng, plan: Plan) -> Vec<u8> {
    let levels = levels(rng, plan.points, plan.shape);
    let in_tree: usize = levels.iter().map(Vec::len).sum();
    assert!(in_tree < plan.pages, "{plan:?}");
    let freed = rng.below((plan.pages - in_tree).min(20));
    let mut numbers = shuffled(rng, in_tree + freed);
    let chain = numbers.split_off(in_tree);
    let mut b = rng.bytes(plan.pages * PAGE);
    let records = sorted_records(rng, plan);
    let mut below = Vec::new();
    for (level, sizes) in levels.iter().enumerate() {
        let pages: Vec<u32> = sizes.iter().map(|_| numbers.pop().unwrap()).collect();
        if level == 0 {
            pages.iter().zip(parts(&records, sizes)).for_each(|(&p, records)| put_leaf(&mut b, p, records));
        } else {
            pages.iter().zip(parts(&below, sizes)).for_each(|(&p, children)| put_over(&mut b, p, level as u8, children, plan.d));
        }
        below = pages;
    }
    put_header(&mut b, plan, below[0], levels.len() - 1, &chain);
    put_u32(&mut b, FRESH, (1 + in_tree + freed) as u32);
    if plan.junk {
        spoil(rng, &mut b);
    }
    b
}

/// The bits of each byte of a tree page that no rule and no reader names.
fn unnamed(q: &[u8], d: usize) -> [u8; PAGE] {
    let mut bits = [255; PAGE];
    bits[..2].fill(0);
    for i in 0..q[1] as usize {
        if q[0] == 0 {
            bits[identifier_at(i)..][..4].fill(0);
            bits[stage_at(i)] = 0;
            bits[stamp_at(i)..][..4].fill(0);
            (0..d).for_each(|m| bits[coordinate_at(m, i)..][..2].copy_from_slice(&(!(COORDINATES - 1)).to_le_bytes()));
        } else {
            bits[4 + 20 * i..][..20].fill(0);
            [11, 19].into_iter().for_each(|unused| bits[4 + 20 * i + unused] = 255);
        }
    }
    bits
}

/// Other values in the bytes and bits of tree pages and header that nothing names.
fn spoil(rng: &mut Rng, b: &mut [u8]) {
    let d = b[FEATURES] as usize;
    let header = [5..8, 13..16, 28..PAGE];
    header.into_iter().flatten().for_each(|i| b[i] = rng.next() as u8);
    let mut open = vec![u32_at(b, ROOT)];
    while let Some(p) = open.pop() {
        if level(b, p) > 0 {
            open.extend(entries(b, p).iter().map(|e| e.child));
        }
        let unnamed = unnamed(page(b, p), d);
        for (byte, bits) in page_mut(b, p).iter_mut().zip(unnamed) {
            *byte = *byte & !bits | rng.next() as u8 & bits;
        }
    }
    let mut p = u32_at(b, FREED);
    while p != 0 {
        let q = page_mut(b, p);
        [0..4, 8..PAGE].into_iter().flatten().for_each(|i| q[i] = rng.next() as u8);
        p = u32_at(q, 4);
    }
}

/// Questions and a series of acts on an index by plan.
fn acted(run: &mut Run, rng: &mut Rng, plan: Plan, steps: usize) {
    let bytes = built(rng, plan);
    let fails = judge::fails(&bytes);
    run.expect(fails.is_empty(), || format!("{plan:?}: judge {fails:?}"));
    let mut s = Series::over(bytes, plan.kind, Ids::Any, rng.next());
    s.act(run, &Act::Check);
    for _ in 0..6 {
        let asked = Asked { x: s.point(), weights: s.weights(), k: 1 + rng.below(64), stages: s.set(), dates: s.dates() };
        let found = s.model.search(&asked);
        run.search_gives("built", &s.lib, &asked, &found.rows, found.leaves);
        s.act(run, &Act::Question(asked, ROWS, Tally::default()));
    }
    for step in 0..steps {
        let act = s.some_act(step % 2 == 0);
        run.trusted = step % 3 == 0;
        let code = run.act(&mut s.lib, &mut s.model, &act, !plan.junk);
        if code == 0 {
            s.model.touch().copy_from_slice(&s.lib);
            s.live = s.model.records().iter().map(|r| r.tag.id).collect();
        }
    }
    run.trusted = false;
}

/// A tree of more than 65,535 points, all else in order: not sound, at the header.
fn too_many(run: &mut Run, rng: &mut Rng, points: usize, shape: Shape) {
    let plan = Plan { pages: MOST_PAGES, d: 2, kind: Kind::Uniform, points, shape, junk: false };
    let bytes = built(rng, plan);
    let fails = judge::fails(&bytes);
    run.expect(fails.iter().eq(&[0]), || format!("{points} points: judge {fails:?}"));
    let mut lib = Lent::new(&bytes);
    let mut model = Model::over(bytes);
    let asked = Asked::new(&[3, 4], 5, ALL_STAGES);
    for act in [Act::Check, Act::Insert(Tag::of(1), vec![3, 4]), Act::Delete(1), Act::Question(asked, 5, Tally::default())] {
        let code = run.act(&mut lib, &mut model, &act, true);
        run.expect(code == 2, || format!("{points} points: {code}"));
    }
    let mut rows = crate::acts::lent_rows();
    let got = ffi::search(&lib, &Asked::new(&[3, 4], 64, ALL_STAGES), &mut rows, 64);
    run.expect(got.rows <= 64, || format!("{points} points: {got:?}"));
    ffi::insert(&mut lib, Tag::of(1), &[3, 4], true);
    ffi::delete(&mut lib, 1, true);
}

/// Plans of every shape, for some d and kind of points.
fn each_shape(run: &mut Run, rng: &mut Rng, pages: usize, points: usize, d: usize, kind: Kind) {
    let tallest = if pages > 2 { Shape::Tall } else { Shape::Any };
    for i in 0..if run.long { 40 } else { 4 } {
        let shape = [tallest, Shape::Any, Shape::Dense, Shape::Any][i % 4];
        acted(run, rng, Plan { pages, d, kind, points, shape, junk: i % 2 == 1 }, 40);
    }
}

fn level_four(run: &mut Run) {
    let mut rng = Rng(4);
    for (d, points) in [(1, 8192), (3, 8200), (16, 9000)] {
        let plan = Plan { pages: 3000, d, kind: Kind::Uniform, points, shape: Shape::Tall, junk: d == 3 };
        let bytes = built(&mut rng, plan);
        run.expect(bytes[LEVEL] == 4, || format!("level {}", bytes[LEVEL]));
        acted(run, &mut rng, plan, if run.long { 2000 } else { 60 });
    }
}

fn no_page_free(run: &mut Run) {
    let plan = Plan { pages: 4370, d: 4, kind: Kind::Uniform, points: 65_535, shape: Shape::Dense, junk: false };
    let mut s = Series::over(built(&mut Rng(6), plan), plan.kind, Ids::Any, 6);
    let mut codes = std::collections::BTreeSet::new();
    for i in 0..12 {
        let (new, old, x) = (s.new_tag(), s.live[s.live.len() / 2], s.point());
        let stage = s.act(run, &Act::Insert(Tag { stage: 6, ..new }, x.clone()));
        run.expect(stage == 15, || format!("insert with stage 6: {stage}"));
        codes.insert(s.act(run, &Act::Insert(new, x)));
        if i > 2 {
            s.act(run, &Act::Delete(old));
        }
    }
    run.expect(codes.contains(&8) && codes.contains(&9), || format!("codes of inserts: {codes:?}"));
}

pub fn all(run: &mut Run) {
    for (pages, points) in [(2, 0), (2, 16), (4, 16), (8, 40), (40, 128), (64, 300), (256, 1500)] {
        run.case(&format!("built: {points} points in {pages} pages"), |run| {
            let mut rng = Rng(pages as u64);
            [1, 2, 5, 16].iter().for_each(|&d| KINDS.iter().for_each(|&kind| each_shape(run, &mut rng, pages, points, d, kind)));
        });
    }
    run.case("built: a root of level 4", level_four);
    run.case("built: 65,535 points and no page free", no_page_free);
    run.case("built: more than 65,535 points", |run| {
        let mut rng = Rng(5);
        let shapes = [(65_536, Shape::Any), (65_536, Shape::Tall), (100_000, Shape::Any), (131_072, Shape::Dense), (240_000, Shape::Dense)];
        shapes.into_iter().for_each(|(points, shape)| too_many(run, &mut rng, points, shape));
    });
}
