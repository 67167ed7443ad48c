//! Bytes and bits of a leaf page that no table of the layout names: whatever they hold, the index is sound and answers as before.

use crate::acts::{Act, ROWS};
use crate::built::{built, Plan, Shape};
use crate::data::{Rng, KINDS};
use crate::judge;
use crate::layout::*;
use crate::lent::Lent;
use crate::model::{Asked, Model, Tally};
use crate::run::Run;
use crate::series::{Ids, Series};

/// The bytes of one part of a leaf page, each with its unused bits, by d and the number of records.
type Part = fn(usize, usize) -> Vec<(usize, u8)>;

fn whole(bytes: impl Iterator<Item = usize>) -> Vec<(usize, u8)> {
    bytes.map(|at| (at, 255)).collect()
}

const PARTS: [(&str, Part); 4] = [
    ("the upper 5 bits of each coordinate", |d, n| (0..d).flat_map(|m| (0..n).map(move |i| (coordinate_at(m, i) + 1, 0xF8))).collect()),
    ("bytes between and behind the fields", |_, _| whole((2..16).chain(544..576).chain(704..PAGE))),
    ("columns past d", |d, _| whole((d..16).flat_map(|m| coordinate_at(m, 0)..coordinate_at(m, 16)))),
    ("slots behind the last record", |_, n| whole((n..16).flat_map(cells))),
];

/// Sets unused bits of a part in these leaves: all of them, or any.
fn fill(rng: &mut Rng, b: &mut [u8], leaves: &[u32], part: Part) {
    let (all, d) = (rng.one_in(2), b[FEATURES] as usize);
    for &p in leaves {
        let n = count(b, p);
        for (at, bits) in part(d, n) {
            let byte = &mut page_mut(b, p)[at];
            *byte = *byte & !bits | if all { bits } else { rng.next() as u8 & bits };
        }
    }
}

/// The same index with other values in a part of its leaves: the check, the answers, and the other acts.
fn filled(run: &mut Run, s: &mut Series, name: &str, part: Part) {
    let mut b = s.model.b.clone();
    let mut leaves = s.model.leaves();
    if s.rng.one_in(2) {
        leaves = vec![s.rng.pick(&leaves)];
    }
    fill(&mut s.rng, &mut b, &leaves, part);
    let fails = judge::fails(&b);
    run.expect(fails.is_empty(), || format!("{name}: judge {fails:?}"));
    let (mut lib, mut model) = (Lent::new(&b), Model::over(b.clone()));
    let code = run.act(&mut lib, &mut model, &Act::Check, true);
    run.expect(code == 0, || format!("{name}: check gives {code}"));
    for k in [1, 1 + s.rng.below(64)] {
        let asked = Asked { x: s.point(), weights: s.weights(), k, stages: s.set(), dates: s.dates() };
        let found = s.model.search(&asked);
        run.search_gives(name, &lib, &asked, &found.rows, found.leaves);
        run.expect(model.search(&asked) == found, || format!("{name}: the model's answer to {asked:?} changes"));
        run.act(&mut lib, &mut model, &Act::Question(asked, ROWS, Tally::default()), true);
    }
    // Without the check every other act is vouched: in both orders each act is both.
    for (trusted, turned) in [(false, false), (true, false), (true, true)] {
        let (tag, x) = (s.new_tag(), s.point());
        let mut acts = vec![Act::Insert(tag, x)];
        acts.extend(s.live.first().map(|_| Act::Delete(s.rng.pick(&s.live))));
        if turned {
            acts.reverse();
        }
        run.trusted = trusted;
        for act in acts {
            run.act(&mut lib, &mut model, &act, false);
            lib.copy_from_slice(&b);
            model.touch().copy_from_slice(&b);
        }
    }
    run.trusted = false;
}

/// One part of the leaves, in indexes of several sizes.
fn each_plan(run: &mut Run, name: &str, part: Part) {
    let mut rng = Rng(12);
    let times = if run.long { 40 } else { 4 };
    let sizes = [(2, 0), (4, 11), (8, 40), (64, 300)];
    for (pages, points, d) in sizes.into_iter().flat_map(|(pages, points)| [1, 2, 5, 16].map(|d| (pages, points, d))) {
        for i in 0..times {
            let plan = Plan { pages, d, kind: KINDS[i % 4], points, shape: Shape::Any, junk: false };
            let mut s = Series::over(built(&mut rng, plan), plan.kind, Ids::Any, rng.next());
            filled(run, &mut s, name, part);
        }
    }
}

pub fn all(run: &mut Run) {
    for (name, part) in PARTS {
        run.case(&format!("unused: {name}"), |run| each_plan(run, name, part));
    }
}
