//! A delete takes no page, also where none is free: those free before stay free, in their order and with their bytes, behind those that it
//! frees.

use crate::acts::Act;
use crate::built::{built, Plan, Shape};
use crate::data::{Kind, Rng};
use crate::layout::*;
use crate::run::Run;
use crate::series::{Ids, Series};
use std::collections::BTreeSet;

/// The free pages in the order in which they will be taken: those freed, the last one first, then those never used.
fn free_pages(b: &[u8]) -> Vec<u32> {
    let count = b.len() / PAGE;
    let mut pages = Vec::new();
    let mut p = u32_at(b, FREED);
    while p != 0 && pages.len() < count {
        pages.push(p);
        p = u32_at(page(b, p), 4);
    }
    pages.extend(u32_at(b, FRESH)..count as u32);
    pages
}

fn tree_pages(b: &[u8]) -> BTreeSet<u32> {
    let mut pages = BTreeSet::new();
    let mut open = vec![u32_at(b, ROOT)];
    while let Some(p) = open.pop() {
        if pages.insert(p) && level(b, p) > 0 {
            open.extend(entries(b, p).iter().map(|e| e.child));
        }
    }
    pages
}

/// Compares all that a delete must leave alone; how many pages it freed.
fn freed_by(run: &mut Run, before: &[u8], after: &[u8]) -> usize {
    let (old, new) = (free_pages(before), free_pages(after));
    let freed = new.len().saturating_sub(old.len());
    run.expect(new[freed..] == old, || format!("free before {old:?}, afterwards {new:?}"));
    run.expect(u32_at(before, FRESH) == u32_at(after, FRESH), || "a page never used was taken".into());
    let mut kept = tree_pages(before);
    let were = new[..freed].iter().all(|p| kept.remove(p));
    run.expect(were && kept == tree_pages(after), || format!("freed {:?}: other pages are in the tree", &new[..freed]));
    for p in old {
        run.expect(page(before, p) == page(after, p), || format!("free page {p} was written"));
    }
    freed
}

/// Deletes all records of an index by plan, one after the other; how many of the deletes freed 0, 1, 2 .. pages.
fn emptied(run: &mut Run, plan: Plan, spare: bool) -> [usize; 8] {
    let mut rng = Rng(plan.points as u64 + spare as u64);
    let mut s = Series::over(built(&mut rng, plan), plan.kind, Ids::Any, rng.next());
    let full = free_pages(&s.lib).is_empty();
    run.expect(full != spare, || format!("{plan:?}: pages free: {}", !full));
    let mut freed = [0; 8];
    while !s.live.is_empty() {
        let id = s.live[rng.below(s.live.len())];
        let before = s.lib.to_vec();
        run.trusted = rng.one_in(2);
        if s.act(run, &Act::Delete(id)) != 0 {
            run.expect(false, || format!("delete of {id} was refused"));
            break;
        }
        freed[freed_by(run, &before, &s.lib)] += 1;
    }
    run.trusted = false;
    freed
}

/// Trees as full and as high as can be, with every page in the tree and with pages to spare.
fn deletes(run: &mut Run, d: usize) {
    let dense = [(16, 1), (256, 17), (1024, 69)].map(|(points, in_tree)| (points, in_tree, Shape::Dense));
    let tall = [(128, 19), (1024, 147)].map(|(points, in_tree)| (points, in_tree, Shape::Tall));
    let mut freed = [0; 8];
    for (points, in_tree, shape) in dense.into_iter().chain(tall) {
        for spare in [false, true] {
            let pages = 1 + in_tree + if spare { 30 } else { 0 };
            let plan = Plan { pages, d, kind: Kind::Uniform, points, shape, junk: false };
            freed.iter_mut().zip(emptied(run, plan, spare)).for_each(|(sum, n)| *sum += n);
        }
    }
    run.expect(freed[..4].iter().all(|&n| n > 0), || format!("deletes that freed 0, 1, 2 .. pages: {freed:?}"));
}

pub fn all(run: &mut Run) {
    for d in [1, 3, 16] {
        run.case(&format!("deletes take no page, d {d}"), |run| deletes(run, d));
    }
}
