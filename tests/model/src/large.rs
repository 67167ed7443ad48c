//! Lengths, and indexes up to the limits.

use crate::acts::Act;
use crate::calendar::{Date, Dates, WIDEST};
use crate::data::{Kind, Rng};
use crate::ffi;
use crate::layout::*;
use crate::model::{Asked, Model, Tally};
use crate::run::Run;
use crate::series::{Ids, Series};
use crate::unread;

/// From the last day to the first.
const REVERSED: Dates = Dates { first: WIDEST.last, last: WIDEST.first };

fn lengths(run: &mut Run) {
    let mut bytes = Rng(3).bytes(16_778_240);
    let mut rows = [0, 1, 1023, 1024, 2047, 2049, 3071, 16_777_215, 16_777_217, 16_778_240].map(|n| (n, 1)).to_vec();
    rows.extend([(2048, 0), (3072, 0), (1_048_576, 0), (16_777_216, 0)]);
    for (n, want) in rows {
        let mut model = Model::over(bytes[..n].to_vec());
        for act in [Act::Make(3), Act::Make(0), Act::Make(17), Act::Make(255), Act::Make(16), Act::Make(1)] {
            run.act(&mut bytes[..n], &mut model, &act, true);
        }
        let acts = [
            Act::Check,
            Act::Insert(Tag::of(0), vec![]),
            Act::Insert(Tag { stage: 6, ..Tag::of(9) }, vec![4]),
            Act::Insert(Tag::of(9), vec![4]),
            Act::Insert(Tag::of(9), vec![1000]),
            Act::Insert(Tag::of(4), vec![1001]),
            Act::Delete(0),
            Act::Delete(77),
            Act::Question(Asked::new(&[-3], 1, ALL_STAGES), 1, Tally::default()),
            Act::Question(Asked::new(&[-3], 1, 0), 1, Tally::default()),
            Act::Question(Asked::new(&[-3], 65, ALL_STAGES), 70, Tally::default()),
            Act::Question(Asked::new(&[-1001], 0, 64), 0, Tally::default()),
            Act::Question(Asked::new(&[-3], 1, ALL_STAGES).by(&[7]), 1, Tally::default()),
            Act::Question(Asked::new(&[-3], 0, 64).by(&[1001]), 0, Tally::default()),
            Act::Question(Asked::new(&[-1001], 0, 64).by(&[1001, 0]), 0, Tally::default()),
            Act::Question(Asked::new(&[-3], 1, ALL_STAGES).within(WIDEST), 1, Tally::default()),
            Act::Question(Asked::new(&[-3], 1, ALL_STAGES).within(REVERSED), 1, Tally::default()),
            Act::Question(Asked::new(&[-3], 1, 64).within(REVERSED), 1, Tally::default()),
            Act::Delete(9),
            Act::Check,
        ];
        for act in acts {
            let code = run.act(&mut bytes[..n], &mut model, &act, true);
            run.expect((want == 1) == (code == 1), || format!("length {n}: {act:?} gives {code}"));
        }
    }
}

/// The tree's examples: d of 1, identifiers 1 to 17 at 1 to 17.
fn seventeen(run: &mut Run) {
    for (pages, want) in [(3, 9), (4, 0)] {
        let mut s = Series::new(run, pages, 1, Kind::Uniform, Ids::Upward, 1);
        for i in 1..=16 {
            let tag = s.tag(i);
            s.act(run, &Act::Insert(tag, vec![i as i16]));
        }
        let code = s.act(run, &Act::Insert(Tag::of(17), vec![17]));
        run.expect(code == want, || format!("the 17th insert in {pages} pages gives {code}"));
        if code == 0 {
            for (x, k, leaves) in [(9, 1, 1), (9, 2, 2), (1, 9, 1), (1, 18, 2)] {
                let asked = Asked::new(&[x], k, ALL_STAGES);
                let found = s.model.search(&asked);
                run.expect(found.leaves == leaves, || format!("from {x}, k {k}: {} leaves", found.leaves));
                s.act(run, &Act::Question(asked, 64, Tally::default()));
            }
            s.act(run, &Act::Delete(17));
            let fills: Vec<usize> = s.model.leaves().iter().map(|&p| count(&s.model.b, p)).collect();
            run.expect(fills == [8, 8], || format!("after delete 17: {fills:?}"));
            s.act(run, &Act::Delete(16));
            run.expect(s.model.leaves().len() == 1, || "after delete 16: more than one leaf".into());
            s.act(run, &Act::Check);
        }
    }
}

/// 65,535 points: by the model, with the library's insert at intervals, or all of them with `each`.
fn fill(run: &mut Run, s: &mut Series, upward: bool, each: bool) {
    for id in 1..=MOST_POINTS {
        let x = if upward { vec![(id % 1001) as i16; s.model.d()] } else { s.point() };
        let tag = s.tag(id);
        let compared = id % 2048 == 0 || id == MOST_POINTS;
        if compared && !each {
            s.lib.copy_from_slice(&s.model.b);
        }
        if compared || each {
            let code = ffi::insert(&mut s.lib, tag, &x, true);
            run.expect(code == 0, || format!("insert of {id}: {code}"));
        }
        let code = s.model.insert_new(tag, &x);
        run.expect(code == 0, || format!("model's insert of {id}: {code}"));
        if compared {
            run.equal(&format!("{id} points"), &s.lib, &s.model.b);
        }
        s.live.push(id);
    }
    s.model.touch();
}

/// Acts on an index of 65,535 points.
fn limit(run: &mut Run, s: &mut Series) {
    let x = s.point();
    let again = s.rng.range(1, 65535) as u32;
    let tally = Tally { questions: 1, leaves: u32::MAX };
    let heavy: Vec<u16> = (0..x.len() as u16).map(|m| MOST_WEIGHT - 31 * m).collect();
    let sixth = |id| Tag { stage: 6, ..Tag::of(id) };
    let years = Dates { first: Date::new(2030, 1, 1), last: Date::new(2049, 12, 31) };
    let acts = [
        Act::Check,
        Act::Insert(Tag::of(MOST_POINTS + 1), x.clone()),
        Act::Insert(Tag::of(again), x.clone()),
        Act::Insert(sixth(MOST_POINTS + 1), x.clone()),
        Act::Insert(sixth(again), x.clone()),
        Act::Insert(sixth(0), x.clone()),
        Act::Question(Asked::new(&x, 64, ALL_STAGES), 64, tally),
        Act::Question(Asked::new(&x, 64, 1 << 2), 64, tally),
        Act::Question(Asked::new(&x, 64, ALL_STAGES).by(&heavy), 64, tally),
        Act::Question(Asked::new(&x, 64, ALL_STAGES).by(&vec![0; x.len()]), 64, tally),
        Act::Question(Asked::new(&x, 64, 1 << 2).by(&heavy).within(years), 64, tally),
        Act::Question(Asked::new(&x, 64, ALL_STAGES).within(REVERSED), 64, tally),
        Act::Delete(again),
        Act::Delete(again),
        Act::Insert(Tag::of(again), x.clone()),
        Act::Insert(Tag::of(u32::MAX), x),
    ];
    let codes: Vec<u32> = acts.iter().map(|act| s.act(run, act)).collect();
    run.expect(codes == [0, 8, 6, 15, 15, 5, 0, 0, 0, 0, 0, 18, 0, 7, 0, 8], || format!("codes at the limit: {codes:?}"));
}

fn full(run: &mut Run, d: usize, kind: Kind, upward: bool, each: bool) {
    let mut s = Series::new(run, MOST_PAGES, d, kind, Ids::Upward, d as u64);
    fill(run, &mut s, upward, each);
    limit(run, &mut s);
    for i in 0..if run.long { 300 } else { 30 } {
        if i % 3 == 0 {
            unread::once(run, &mut s);
        }
        let id = s.rng.range(1, 65535) as u32;
        let code = s.act(run, &Act::Delete(id));
        run.trusted = i % 2 == 0;
        if code == 0 && i % 3 == 0 {
            let (tag, x) = (s.tag(id), s.point());
            s.act(run, &Act::Insert(tag, x));
        }
    }
    run.trusted = false;
    empty(run, &mut s, d);
}

/// Deletes without the check, compared at intervals: some, or down to the empty index.
fn empty(run: &mut Run, s: &mut Series, d: usize) {
    let mut records = s.model.records();
    for i in 0..records.len() {
        let r = records.swap_remove(s.rng.below(records.len()));
        let compared = i % 2048 == 0 || records.is_empty();
        if compared {
            s.lib.copy_from_slice(&s.model.b);
            ffi::delete(&mut s.lib, r.tag.id, true);
        }
        s.model.delete_record(&r);
        if compared {
            run.equal(&format!("d {d}, {i} deleted"), &s.lib, &s.model.b);
        }
    }
    s.model.touch();
    s.act(run, &Act::Check);
}

/// Acts with the check on indexes in between.
fn middle(run: &mut Run, pages: usize, d: usize, kind: Kind, points: usize) {
    let mut s = Series::new(run, pages, d, kind, Ids::Any, pages as u64);
    for _ in 0..points {
        let (tag, x) = (s.new_tag(), s.point());
        if !s.live.contains(&tag.id) && s.model.insert_new(tag, &x) == 0 {
            s.live.push(tag.id);
        }
    }
    s.lib.copy_from_slice(&s.model.b);
    s.model.touch();
    for step in 0..if run.long { 4000 } else { 250 } {
        let act = s.some_act(step % 100 < 50);
        run.trusted = step % 4 == 0;
        if s.rng.one_in(10) {
            s.act_on_copy(run, &act);
        } else {
            s.act(run, &act);
        }
    }
    run.trusted = false;
}

pub fn all(run: &mut Run) {
    run.case("lengths", lengths);
    run.case("seventeen points", seventeen);
    run.case("acts, 1,024 pages, d 4, to the last page", |run| middle(run, 1024, 4, Kind::Uniform, 12_000));
    run.case("acts, 4,096 pages, d 16", |run| middle(run, 4096, 16, Kind::Clustered, 20_000));
    run.case("65,535 points, d 8", |run| full(run, 8, Kind::Uniform, false, run.long));
    if run.long {
        run.case("65,535 points, d 1", |run| full(run, 1, Kind::Uniform, false, false));
        run.case("65,535 points, d 2, upward", |run| full(run, 2, Kind::Uniform, true, false));
        run.case("65,535 points, d 16, clustered", |run| full(run, 16, Kind::Clustered, false, false));
        run.case("65,535 points, d 3, tied", |run| full(run, 3, Kind::Tied, false, false));
    }
}
