//! Rows at equal distance: the later stamp first, then the lower identifier. What a question should give is told here, from records that the
//! case knows; every question is asked with the check and without, and compared with the model besides.

use crate::acts::{Act, ROWS};
use crate::built::{built, Plan, Shape};
use crate::data::{Kind, Rng, KINDS};
use crate::geometry::distance;
use crate::layout::*;
use crate::model::{Asked, Model, Row, Tally};
use crate::run::Run;
use crate::series::{Ids, Series};
use crate::shapes::grown;
use crate::unread::{asked_point, overwrite};
use std::cmp::Ordering;

/// A row but for the position of its leaf.
#[derive(Clone, Copy, PartialEq, Eq, Debug)]
struct Near {
    distance: u64,
    stamp: u32,
    id: u32,
}

impl Near {
    fn of(row: &Row) -> Near {
        Near { distance: row.distance, stamp: row.stamp, id: row.id }
    }
}

fn newest_first(a: &Near, b: &Near) -> Ordering {
    a.distance.cmp(&b.distance).then(b.stamp.cmp(&a.stamp)).then(a.id.cmp(&b.id))
}

/// As it was when stamps did not count.
fn lowest_first(a: &Near, b: &Near) -> Ordering {
    a.distance.cmp(&b.distance).then(a.id.cmp(&b.id))
}

/// The first k in some order of the records of the stages and days asked for.
fn nearest(records: &[Record], asked: &Asked, order: fn(&Near, &Near) -> Ordering) -> Vec<Near> {
    let from: Vec<i64> = asked.x.iter().map(|&c| c.into()).collect();
    let far = |r: &Record| distance(asked.weights.as_deref(), &r.point(from.len()), &from);
    let near = |r: &Record| Near { distance: far(r), stamp: r.tag.stamp, id: r.tag.id };
    let sought = |r: &Record| asked.stages >> r.tag.stage & 1 == 1 && asked.dates.is_none_or(|dates| dates.hold(r.tag.stamp));
    let mut all: Vec<Near> = records.iter().filter(|r| sought(r)).map(near).collect();
    all.sort_by(order);
    all.truncate(asked.k);
    all
}

/// A question gives these rows, with the check and without.
fn gives(run: &mut Run, s: &mut Series, asked: Asked, want: &[Near]) {
    for trusted in [false, true] {
        let got: Vec<Near> = run.answer(&s.lib, &asked, trusted).0.iter().map(Near::of).collect();
        run.expect(got == want, || {
            let at = (0..).find(|&i| got.get(i) != want.get(i)).unwrap();
            format!("{asked:?}: row {at}: {:?}, not {:?}", got.get(at), want.get(at))
        });
        run.trusted = trusted;
        s.act(run, &Act::Question(asked.clone(), asked.k, Tally::default()));
    }
    run.trusted = false;
}

/// Records put in around a point, which is asked from.
struct Ties {
    s: Series,
    x: Vec<i16>,
    records: Vec<Record>,
}

impl Ties {
    fn new(run: &mut Run, x: &[i16], points: usize, seed: u64) -> Ties {
        let s = Series::new(run, points / 7 + 4, x.len(), Kind::Tied, Ids::Any, seed);
        Ties { s, x: x.to_vec(), records: Vec::new() }
    }

    /// Points at each of these distances, fewer at the first, with stamps of a few and any stages.
    fn filled(run: &mut Run, x: &[i16], points: usize, offsets: &[Vec<i16>], stamps: &[u32], seed: u64) -> Ties {
        let mut t = Ties::new(run, x, points, seed);
        for _ in 0..points {
            let (id, stamp, stage) = (t.s.new_id(), t.s.rng.pick(stamps), t.s.rng.below(6) as u8);
            let offset = (0..3).map(|_| t.s.rng.below(offsets.len())).max().unwrap();
            t.put(run, Tag { id, stage, stamp }, &offsets[offset]);
        }
        t
    }

    /// A point as far from the asked one as the offset says, whose coordinates are turned and taken to either side.
    fn around(&mut self, offset: &[i16]) -> Vec<i16> {
        let turn = self.s.rng.below(offset.len());
        let mut beside = |(&c, &o): (&i16, &i16)| {
            let sides: Vec<i16> = [c - o, c + o].into_iter().filter(|c| c.abs() <= 1000).collect();
            self.s.rng.pick(&sides)
        };
        self.x.iter().zip(offset.iter().cycle().skip(turn)).map(&mut beside).collect()
    }

    /// An insert or a delete that nothing refuses, with the check or without.
    fn change(&mut self, run: &mut Run, act: &Act) {
        run.trusted = self.s.rng.one_in(2);
        let code = self.s.act(run, act);
        run.trusted = false;
        run.expect(code == 0, || format!("{act:?}: {code}"));
    }

    fn put(&mut self, run: &mut Run, tag: Tag, offset: &[i16]) {
        let y = self.around(offset);
        self.records.push(Record::new(tag, &y.iter().map(|&c| c.into()).collect::<Vec<i64>>()));
        self.change(run, &Act::Insert(tag, y));
    }

    fn take(&mut self, run: &mut Run) -> Tag {
        let at = self.s.rng.below(self.records.len());
        let tag = self.records.swap_remove(at).tag;
        self.change(run, &Act::Delete(tag.id));
        tag
    }

    fn ask(&mut self, run: &mut Run, k: usize, stages: u8) {
        let asked = Asked::new(&self.x, k, stages);
        let want = nearest(&self.records, &asked, newest_first);
        gives(run, &mut self.s, asked, &want);
    }

    fn each_k(&mut self, run: &mut Run, most: usize) {
        (1..=most).for_each(|k| self.ask(run, k, ALL_STAGES));
    }
}

/// The asked point itself, and two distances from it.
fn offsets(d: usize) -> [Vec<i16>; 3] {
    let mut one = vec![0; d];
    one[0] = 7;
    [vec![0; d], one, (0..d).map(|m| [12, 5, 0][m % 3]).collect()]
}

/// Points to ask from: the centre, whose mirrored points lie in all pyramids, and one anywhere.
fn centres(d: usize) -> [Vec<i16>; 2] {
    let mut rng = Rng(d as u64);
    [vec![0; d], (0..d).map(|_| rng.range(-988, 988) as i16).collect()]
}

/// Stamps of a few at one to three distances: most k end within a tie, of stamps too.
fn few_stamps(run: &mut Run, d: usize, points: usize) {
    let offsets = offsets(d);
    for (seed, x) in (1..).zip(centres(d)) {
        for (n, stamps) in [&[0, 1, 2][..], &[7, 8, 15, 16, u32::MAX - 16], &[0, 1 << 28, 1 << 31, u32::MAX]].into_iter().enumerate() {
            let mut t = Ties::filled(run, &x, points, &offsets[..=n], stamps, seed);
            t.each_k(run, 64);
        }
    }
}

/// Questions of an index whose stamps go by the identifiers: the first k in some order.
fn stamped(run: &mut Run, model: &Model, kind: Kind, stamp: impl Fn(u32) -> u32, order: fn(&Near, &Near) -> Ordering) {
    let mut s = Series::over(model.retagged(|tag| Tag { stamp: stamp(tag.id), ..tag }), kind, Ids::Any, 7);
    let records = s.model.records();
    for _ in 0..if run.long { 100 } else { 10 } {
        let asked = Asked { x: s.point(), weights: s.weights(), k: 1 + s.rng.below(64), stages: s.set(), dates: s.dates() };
        let want = nearest(&records, &asked, order);
        gives(run, &mut s, asked, &want);
    }
}

fn some_index(kind: Kind, points: usize, d: usize) -> Model {
    let plan = Plan { pages: points / 7 + 4, d, kind, points, shape: Shape::Any, junk: false };
    Model::over(built(&mut Rng(points as u64), plan))
}

/// One stamp for all: the rows of before, with this stamp in each.
fn one_stamp(run: &mut Run, kind: Kind, points: usize, d: usize) {
    let model = some_index(kind, points, d);
    for one in [0, 1, 1 << 28, 1 << 31, u32::MAX, 816_645_600] {
        stamped(run, &model, kind, |_| one, lowest_first);
    }
}

/// Thousands of records at a few points: stamps that rise with the identifiers, that fall, of a few, and of no order.
fn thousands(run: &mut Run, d: usize) {
    let model = some_index(Kind::Tied, 20_000, d);
    let stamps: [fn(u32) -> u32; 4] = [|id| id, |id| !id, |id| id % 3, |id| id.wrapping_mul(0x9E37_79B9)];
    stamps.into_iter().for_each(|stamp| stamped(run, &model, Kind::Tied, stamp, newest_first));
}

/// Two stamps that differ in one bit, each with identifiers over the whole range, in several leaves.
fn one_bit(run: &mut Run, base: u32, bit: u32) {
    let mut t = Ties::filled(run, &[0, 0], 40, &[vec![9, 9]], &[base], u64::from(bit));
    let (some, others) = ([1, 1 << 28, 1 << 31, u32::MAX], [2, (1 << 28) + 1, (1 << 31) + 1, u32::MAX - 1]);
    for (ids, stamp) in [(some, base), (others, base ^ 1 << bit)] {
        ids.into_iter().for_each(|id| t.put(run, Tag { id, stage: 2, stamp }, &[9, 4]));
    }
    t.each_k(run, 10);
}

/// Stamps that differ in their lowest 4 bits alone, in the other 28 alone, and such as fall in the one where they rise in the other.
fn parts(run: &mut Run, base: u32) {
    let mut rng = Rng(base.into());
    let low: Vec<u32> = (0..16).map(|n| base & !15 | n).collect();
    let high: Vec<u32> = (0..16).map(|_| rng.next() as u32 & !15 | base & 15).collect();
    let across: Vec<u32> = (0..16).map(|n| (base >> 4).wrapping_add(n) << 4 | (15 - n)).collect();
    for (d, stamps) in [low, high, across].iter().flat_map(|stamps| [(1, stamps), (3, stamps)]) {
        let offset = offsets(d)[1..2].to_vec();
        Ties::filled(run, &vec![0; d], 72, &offset, stamps, base.into()).each_k(run, 64);
    }
}

/// Stamps across the whole range at the greatest distance of all.
fn farthest(run: &mut Run, d: usize) {
    let stamps = [0, 1, 15, 16, (1 << 28) - 1, 1 << 28, (1 << 31) - 1, 1 << 31, u32::MAX - 1, u32::MAX];
    for x in [vec![-1000; d], vec![1000; d]] {
        Ties::filled(run, &x, 40, &[vec![2000; d]], &stamps, d as u64).each_k(run, 41);
    }
}

/// Records deleted and inserted again with another stamp, at a point as far or another.
fn again(run: &mut Run, d: usize, points: usize) {
    let (offsets, stamps) = (offsets(d), [0, 1, 16, 1 << 31, u32::MAX]);
    let mut t = Ties::filled(run, &vec![0; d], points, &offsets, &stamps, d as u64);
    for _ in 0..if run.long { 1500 } else { 150 } {
        let old = t.take(run);
        let k = 1 + t.s.rng.below(64);
        t.ask(run, k, ALL_STAGES);
        let others: Vec<u32> = stamps.into_iter().filter(|&stamp| stamp != old.stamp).collect();
        let (stamp, offset) = (t.s.rng.pick(&others), t.s.rng.below(3));
        t.put(run, Tag { stamp, ..old }, &offsets[offset]);
        t.ask(run, k, ALL_STAGES);
    }
}

/// Every set of stages, for some k.
fn each_set(run: &mut Run, d: usize, points: usize) {
    let mut t = Ties::filled(run, &vec![0; d], points, &offsets(d), &[3, 4, 1 << 31, u32::MAX], d as u64);
    for stages in 1..=ALL_STAGES {
        for k in [1, 2, 1 + t.s.rng.below(64), 64] {
            t.ask(run, k, stages);
        }
    }
}

/// Other stamps in the same records: the same distances from the same leaves, of which the unread are then overwritten.
fn same_leaves(run: &mut Run, s: &mut Series) {
    let asked = Asked { x: asked_point(s), weights: s.weights(), k: 1 + s.rng.below(12), stages: s.set(), dates: None };
    let found = s.model.search(&asked);
    let few = s.rng.one_in(2);
    let stamp = |rng: &mut Rng| if few { rng.below(3) as u32 } else { rng.next() as u32 };
    let mut bytes = s.model.retagged(|tag| Tag { stamp: stamp(&mut s.rng), ..tag });
    let other = Model::over(bytes.clone()).search(&asked);
    let distances = |rows: &[Row]| rows.iter().map(|row| row.distance).collect::<Vec<u64>>();
    for trusted in [false, true] {
        let (rows, leaves) = run.answer(&s.lib, &asked, trusted);
        let (others, read) = run.answer(&bytes, &asked, trusted);
        run.expect(leaves == read && distances(&rows) == distances(&others), || format!("{asked:?}: other leaves or distances"));
        run.expect(others == other.rows, || format!("{asked:?}: other rows than the model's with other stamps"));
    }
    run.counts.unread += found.unread.len() as u64;
    overwrite(&mut s.rng, &mut bytes, &found.unread);
    run.search_gives("unread with other stamps", &bytes, &asked, &other.rows, found.leaves);
}

/// Fewer records than rows asked for, fewer asked for than lent: a row past those returned keeps each of its fields.
fn past(run: &mut Run, points: usize) {
    let mut t = Ties::filled(run, &[3, -4], points, &offsets(2), &[0, 9, u32::MAX], points as u64);
    for (k, lent) in [(1, 1), (1, 2), (points + 1, points + 1), (points + 1, ROWS), (64, 64), (64, ROWS)] {
        for trusted in [false, true] {
            run.trusted = trusted;
            t.s.act(run, &Act::Question(Asked::new(&t.x, k, ALL_STAGES), lent, Tally::default()));
        }
        run.trusted = false;
        t.ask(run, k, ALL_STAGES);
    }
}

pub fn all(run: &mut Run) {
    for (d, points) in [(1, 70), (2, 100), (3, 200), (16, 300)] {
        run.case(&format!("ties: stamps of a few, every k, d {d}"), |run| few_stamps(run, d, points));
    }
    run.case("ties: one stamp for all", |run| {
        let sizes = [(0, 1), (16, 2), (100, 1), (300, 3)];
        sizes.into_iter().for_each(|(points, d)| KINDS.iter().for_each(|&kind| one_stamp(run, kind, points, d)));
    });
    run.case("ties: thousands at a few points", |run| [1, 2].into_iter().for_each(|d| thousands(run, d)));
    run.case("ties: each bit of a stamp", |run| {
        let bases = [0, u32::MAX, 0x9E37_79B9, 1 << 28];
        bases.into_iter().for_each(|base| (0..32).for_each(|bit| one_bit(run, base, bit)));
    });
    run.case("ties: the lowest 4 bits and the other 28", |run| [0, u32::MAX, 0x5555_5555].into_iter().for_each(|base| parts(run, base)));
    run.case("ties: at the greatest distance", |run| [1, 2, 16].into_iter().for_each(|d| farthest(run, d)));
    run.case("ties: deleted and inserted again", |run| [(1, 20), (2, 80), (5, 150)].into_iter().for_each(|(d, n)| again(run, d, n)));
    run.case("ties: every set of stages", |run| [(1, 60), (3, 250)].into_iter().for_each(|(d, points)| each_set(run, d, points)));
    run.case("ties: the leaves read", |run| {
        for (pages, d, points) in [(2, 2, 16), (16, 2, 100), (64, 1, 400), (64, 3, 400), (256, 8, 1800)] {
            for kind in KINDS {
                let mut s = grown(run, pages, d, kind, points, 0);
                (0..if run.long { 300 } else { 30 }).for_each(|_| same_leaves(run, &mut s));
            }
        }
    });
    run.case("ties: rows past those returned", |run| [0, 1, 5, 16, 40].into_iter().for_each(|points| past(run, points)));
}
