//! Stages and stamps: what is sound of them, which records a set of stages looks among, and the refusals 15 and 16 in their places.

use crate::acts::{Act, ROWS};
use crate::built::{built, Plan, Shape};
use crate::data::{Kind, Rng, KINDS};
use crate::ffi;
use crate::geometry::squared;
use crate::judge;
use crate::layout::*;
use crate::lent::Lent;
use crate::model::{Asked, Model, Row, Tally};
use crate::run::Run;
use crate::series::{Ids, Series};
use crate::shapes::grown;
use std::cmp::Reverse;

fn some_plan(d: usize, points: usize) -> Plan {
    Plan { pages: points / 7 + 4, d, kind: Kind::Uniform, points, shape: Shape::Any, junk: false }
}

/// Each stage above 5 in each slot of a leaf: the leaf fails where the slot has a record, and nothing where it has none.
fn stored_stages(run: &mut Run, points: usize) {
    let sound = built(&mut Rng(points as u64), some_plan(2, points));
    let model = Model::over(sound.clone());
    let mut lib = Lent::new(&sound);
    for leaf in model.leaves().into_iter().take(4) {
        for (slot, stage) in (0..16).flat_map(|slot| (MOST_STAGE + 1..=255).map(move |stage| (slot, stage))) {
            let at = leaf as usize * PAGE + stage_at(slot);
            let old = std::mem::replace(&mut lib[at], stage);
            let want = if slot < count(&sound, leaf) { (2, leaf) } else { (0, 0) };
            let got = ffi::check(&lib);
            run.expect(got == want, || format!("stage {stage} in slot {slot} of page {leaf}: check gives {got:?}, not {want:?}"));
            let judged: Vec<u32> = judge::fails(&lib).into_iter().collect();
            run.expect(judged == if want.0 == 2 { vec![leaf] } else { vec![] }, || {
                format!("stage {stage} in slot {slot}: judge {judged:?}")
            });
            lib[at] = old;
        }
    }
}

/// Other stamps in every record: the index is sound, and questions go by these stamps.
fn stored_stamps(run: &mut Run, points: usize) {
    let mut rng = Rng(points as u64);
    let mut s = Series::over(built(&mut rng, some_plan(3, points)), Kind::Uniform, Ids::Any, 5);
    for stamp in [None, Some(0), Some(1), Some(1 << 31), Some(u32::MAX)] {
        let bytes = s.model.retagged(|tag| Tag { stamp: stamp.unwrap_or(rng.next() as u32), ..tag });
        let mut lib = Lent::new(&bytes);
        let mut model = Model::over(bytes);
        let code = run.act(&mut lib, &mut model, &Act::Check, true);
        run.expect(code == 0, || format!("stamps of {stamp:?}: check gives {code}"));
        for _ in 0..20 {
            let asked = Asked { x: s.point(), weights: s.weights(), k: 1 + rng.below(20), stages: s.set(), dates: s.dates() };
            let found = model.search(&asked);
            run.search_gives("other stamps", &lib, &asked, &found.rows, found.leaves);
        }
    }
}

/// Every set from one point: its rows are the first k of those of its stages one by one.
fn each_set(run: &mut Run, s: &mut Series) {
    let (x, k) = (s.point(), 1 + s.rng.below(12));
    let ones: Vec<Vec<Row>> = (0..6).map(|stage| run.answer(&s.lib, &Asked::new(&x, k, 1 << stage), true).0).collect();
    for stages in 1..=ALL_STAGES {
        let asked = Asked::new(&x, k, stages);
        let mut rows: Vec<Row> = (0..6).filter(|stage| stages & (1 << stage) != 0).flat_map(|stage| ones[stage].clone()).collect();
        rows.sort_by_key(Row::order);
        rows.truncate(k);
        let got = run.answer(&s.lib, &asked, true).0;
        run.expect(got == rows, || format!("{asked:?}: other rows than its stages have one by one"));
        s.act(run, &Act::Question(asked, ROWS, Tally::default()));
    }
}

/// The k nearest of all records, whatever their stages.
fn of_all(model: &Model, x: &[i16], k: usize) -> Vec<(u64, Reverse<u32>, u32)> {
    let from: Vec<i64> = x.iter().map(|&c| c.into()).collect();
    let order = |r: &Record| (squared(&r.point(from.len()), &from), Reverse(r.tag.stamp), r.tag.id);
    let mut all: Vec<(u64, Reverse<u32>, u32)> = model.records().iter().map(order).collect();
    all.sort();
    all.truncate(k);
    all
}

/// The full set: the nearest of all records, the same rows and leaves when every record has another stage.
fn full_set(run: &mut Run, s: &mut Series) {
    let restaged = s.model.retagged(|tag| Tag { stage: s.rng.below(6) as u8, ..tag });
    for _ in 0..10 {
        let asked = Asked::new(&s.point(), 1 + s.rng.below(64), ALL_STAGES);
        let (rows, leaves) = run.answer(&s.lib, &asked, true);
        let nearest = of_all(&s.model, &asked.x, asked.k);
        run.expect(rows.iter().map(Row::order).eq(nearest), || format!("{asked:?}: not the nearest of all records"));
        let other = run.answer(&restaged, &asked, true);
        run.expect(other == (rows, leaves), || format!("{asked:?}: another answer with other stages"));
    }
}

/// All records of stage 2 but for some of stage 4: with more rows asked for than these are, every leaf that holds records is read.
fn few(run: &mut Run, s: &mut Series, rare: usize) {
    let mut bytes = s.model.b.clone();
    let leaves = s.model.leaves();
    let mut places: Vec<usize> = Vec::new();
    for &p in &leaves {
        places.extend((0..count(&bytes, p)).map(|i| p as usize * PAGE + stage_at(i)));
    }
    places.iter().for_each(|&at| bytes[at] = 2);
    for _ in 0..rare.min(places.len()) {
        let at = s.rng.below(places.len());
        bytes[places.swap_remove(at)] = 4;
    }
    let rare = rare.min(s.live.len());
    let holding = leaves.iter().filter(|&&p| count(&bytes, p) > 0).count() as u32;
    let mut model = Model::over(bytes.clone());
    for stages in [1 << 4, 1 << 3 | 1 << 4, ALL_STAGES & !(1 << 2)] {
        let asked = Asked { x: s.point(), weights: s.weights(), k: rare + 1, stages, dates: None };
        let (rows, read) = run.answer(&bytes, &asked, true);
        run.expect((rows.len(), read) == (rare, holding), || format!("{asked:?}: {} rows, {read} leaves of {holding}", rows.len()));
        run.act(&mut bytes, &mut model, &Act::Question(asked, ROWS, Tally::default()), true);
        if rare > 0 {
            let asked = Asked { x: s.point(), weights: s.weights(), k: rare, stages, dates: None };
            run.act(&mut bytes, &mut model, &Act::Question(asked, ROWS, Tally::default()), true);
        }
    }
}

fn narrowed(run: &mut Run, pages: usize, d: usize, points: usize) {
    for kind in KINDS {
        let mut s = grown(run, pages, d, kind, points, 0);
        (0..if run.long { 20 } else { 2 }).for_each(|_| each_set(run, &mut s));
        full_set(run, &mut s);
        [0, 1, 2, 5, 20].into_iter().for_each(|rare| few(run, &mut s, rare));
    }
}

/// One leaf of 16 in an index of two pages, d of 1: an insert that nothing else refuses wants a page that is not there.
fn full_leaf(run: &mut Run) -> Series {
    let mut s = Series::new(run, 2, 1, Kind::Uniform, Ids::Upward, 3);
    for id in 1..=16 {
        s.act(run, &Act::Insert(Tag::of(id), vec![id as i16]));
    }
    s
}

/// An insert with a stage above 5, with every other fault beside it; without the check and vouched for too.
fn stage_in_order(run: &mut Run) {
    let mut s = full_leaf(run);
    for (stage, refused) in (0..=255).map(|stage| (stage, stage > MOST_STAGE)) {
        let rows = [(0, vec![1001, 0], 3), (0, vec![1001], 4), (0, vec![1], 5), (9, vec![1], 6), (17, vec![1], 9)];
        for (id, x, code) in rows {
            let want = if refused && ![3, 4, 5].contains(&code) { 15 } else { code };
            let tag = Tag { id, stage, stamp: 9 };
            for trusted in [false, true] {
                run.trusted = trusted;
                let got = s.act(run, &Act::Insert(tag, x.clone()));
                run.expect(got == want, || format!("insert of {tag:?} at {x:?}: {got}, not {want}"));
            }
            let vouched = if want == 6 { 9 } else { want };
            let got = ffi::vouched_insert(&mut s.lib, tag, &x);
            run.expect(got == vouched, || format!("vouched insert of {tag:?} at {x:?}: {got}, not {vouched}"));
            run.equal("refused", &s.lib, &s.model.b);
        }
    }
    run.trusted = false;
}

/// A question of each number as a set, with every other fault beside it; without the check too.
fn set_in_order(run: &mut Run) {
    let mut s = full_leaf(run);
    for stages in 0..=255 {
        let refused = !(1..=ALL_STAGES).contains(&stages);
        let rows = [(vec![1001, 0], 0, 0, 3), (vec![1001], 0, 0, 4), (vec![1], 0, 0, 10), (vec![1], 65, 64, 10), (vec![1], 4, 3, 11)];
        for (x, k, lent, code) in rows.into_iter().chain([(vec![1], 4, 4, if refused { 16 } else { 0 })]) {
            let asked = Asked::new(&x, k, stages);
            for trusted in [false, true] {
                run.trusted = trusted;
                let got = s.act(run, &Act::Question(asked.clone(), lent, Tally { questions: 8, leaves: 9 }));
                run.expect(got == code, || format!("{asked:?} with {lent} rows: {got}, not {code}"));
            }
        }
    }
    run.trusted = false;
}

pub fn all(run: &mut Run) {
    run.case("stages: each number in each slot", |run| [0, 5, 16, 40, 260].iter().for_each(|&points| stored_stages(run, points)));
    run.case("stages: any stamp", |run| [0, 5, 40, 260].iter().for_each(|&points| stored_stamps(run, points)));
    for (pages, d, points) in [(2, 2, 0), (2, 1, 5), (3, 16, 16), (16, 2, 100), (64, 1, 400), (64, 3, 400), (256, 8, 1800)] {
        run.case(&format!("stages: every set, {points} points, d {d}"), |run| narrowed(run, pages, d, points));
    }
    run.case("stages: 15 in its place", stage_in_order);
    run.case("stages: 16 in its place", set_in_order);
}
