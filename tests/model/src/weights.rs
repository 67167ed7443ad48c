//! Weights: distances, rows and leaves by them, and the refusals 3 and 14 in their places. Questions are asked with the check and without.

use crate::acts::{self, lent_rows, Act, Outcome, ROWS};
use crate::built::{built, Plan, Shape};
use crate::calendar::{Date, Dates, WIDEST};
use crate::data::{weights, Kind, Rng, KINDS};
use crate::faults::{self, Fault, FAULTS};
use crate::ffi::Handed;
use crate::geometry::Slices;
use crate::layout::*;
use crate::lent::Lent;
use crate::model::{Asked, Model, Row, Tally};
use crate::run::Run;
use crate::series::{Ids, Series};
use crate::unread::{asked_point, each_way};
use std::cmp::Reverse;

fn some_index(d: usize, kind: Kind, points: usize) -> Series {
    let plan = Plan { pages: points / 7 + 4, d, kind, points, shape: Shape::Any, junk: false };
    let seed = (points * 17 + d) as u64;
    Series::over(built(&mut Rng(seed), plan), kind, Ids::Any, seed)
}

/// A question by these weights from a point of the index's kind, for some rows of some stages, of any days.
fn some_question(s: &mut Series, weights: &[u16]) -> Asked {
    let k = 1 + if s.rng.one_in(3) { s.rng.below(64) } else { s.rng.below(8) };
    Asked::new(&asked_point(s), k, s.set()).by(weights)
}

/// A question, with the check and without, gives these rows, but for the leaves that hold them, and reads so many leaves.
fn gives(run: &mut Run, s: &mut Series, asked: &Asked, want: &[(u64, Reverse<u32>, u32)], leaves: Option<u32>) {
    for trusted in [false, true] {
        let (rows, read) = run.answer(&s.lib, asked, trusted);
        run.expect(rows.iter().map(Row::order).eq(want.iter().copied()), || format!("{asked:?}: {rows:?}, not {want:?}"));
        run.expect(leaves.is_none_or(|leaves| read == leaves), || format!("{asked:?}: {read} leaves, not {leaves:?}"));
    }
    s.ask(run, asked, ROWS);
}

/// What comes of a question with these weights handed over.
fn outcomes(lib: &[u8], asked: &Asked, weights: &[u16], lent: usize) -> [Outcome; 2] {
    acts::outcomes(lib, asked, Handed { weights, ..Handed::of(asked) }, lent)
}

/// A question by these weights, of two rows, that is refused with a number, or with none: with any other fault besides.
fn refused(run: &mut Run, s: &mut Series, weights: &[u16], number: u32) {
    let good = Asked::new(&s.point(), 2, ALL_STAGES).by(weights);
    let dates: [Fault; 2] = [
        (18, |asked, _| asked.dates = Some(Dates { first: WIDEST.last, last: WIDEST.first })),
        (17, |asked, _| asked.dates = Some(Dates::one(Date::new(2001, 2, 29)))),
    ];
    faults::refused(run, s, &good, number, &[&FAULTS[..], &dates].concat());
}

/// Bounds worked out on paper.
fn bounds_by_hand(run: &mut Run) {
    let pyramid =
        [([1, 1], 125_501), ([1, 3], 188_251), ([3, 1], 188_251), ([0, 1], 1), ([1, 0], 0), ([0, 0], 0), ([1000, 1000], 125_501_000)];
    for (weights, want) in pyramid {
        let got = Slices::new(&[500, 0], Some(&weights)).bound((3, 1), (3, 1000));
        run.expect(got == want, || format!("pyramid 3 by {weights:?}: {got}, not {want}"));
    }
}

/// Distances worked out on paper.
fn rows_by_hand(run: &mut Run) {
    let mut s = Series::new(run, 2, 3, Kind::Uniform, Ids::Upward, 1);
    for (id, x) in [(1, [10, 0, 0]), (2, [0, -5, 0]), (3, [1, 2, -3])] {
        s.act(run, &Act::Insert(Tag { id, stage: 2, stamp: 7 }, x.to_vec()));
    }
    let rows = [
        ([1, 1, 1], [(3, 14), (2, 25), (1, 100)]),
        ([1, 10, 100], [(1, 100), (2, 250), (3, 941)]),
        ([100, 10, 1], [(3, 149), (2, 250), (1, 10_000)]),
        ([0, 1, 0], [(1, 0), (3, 4), (2, 25)]),
        ([0, 7, 1000], [(1, 0), (2, 175), (3, 9028)]),
        ([1000, 999, 998], [(3, 13_978), (2, 24_975), (1, 100_000)]),
        ([0, 0, 0], [(1, 0), (2, 0), (3, 0)]),
    ];
    for (weights, want) in rows {
        let want = want.map(|(id, distance)| (distance, Reverse(7), id));
        gives(run, &mut s, &Asked::new(&[0, 0, 0], 3, ALL_STAGES).by(&weights), &want, Some(1));
    }
}

/// Leaves worked out on paper: 1 to 17 at 1 to 17, 9 in the first leaf and 8 in the second.
fn leaves_by_hand(run: &mut Run) {
    let mut s = Series::new(run, 4, 1, Kind::Uniform, Ids::Upward, 1);
    for id in 1..=17 {
        s.act(run, &Act::Insert(Tag { id, stage: 2, stamp: 0 }, vec![id as i16]));
    }
    for (x, weight, k, ids, leaves) in [
        (9, 5, 1, &[9][..], 1),
        (9, 5, 2, &[9, 8], 2),
        (1, 1000, 9, &[1, 2, 3, 4, 5, 6, 7, 8, 9], 1),
        (17, 1000, 2, &[17, 16], 1),
        (17, 0, 2, &[1, 2], 2),
        (1, 0, 1, &[1], 2),
    ] {
        let want: Vec<_> =
            ids.iter().map(|&id| (u64::from(weight) * (i64::from(x) - i64::from(id)).pow(2) as u64, Reverse(0), id)).collect();
        gives(run, &mut s, &Asked::new(&[x], k, ALL_STAGES).by(&[weight]), &want, Some(leaves));
    }
}

fn by_hand(run: &mut Run) {
    bounds_by_hand(run);
    rows_by_hand(run);
    leaves_by_hand(run);
}

/// Weights of all sorts, on points of all kinds.
fn any(run: &mut Run, d: usize, points: usize) {
    for kind in KINDS {
        let mut s = some_index(d, kind, points);
        for _ in 0..if run.long { 300 } else { 30 } {
            let weights = weights(&mut s.rng, d);
            let asked = Asked { dates: s.dates(), ..some_question(&mut s, &weights) };
            s.ask(run, &asked, ROWS);
        }
    }
}

/// Weights of ones, and none: the same code, rows, leaves and tally, refused or not.
fn ones(run: &mut Run, d: usize) {
    for kind in KINDS {
        let mut s = some_index(d, kind, 200);
        for i in 0..if run.long { 200 } else { 20 } {
            let mut asked = Asked { dates: s.dates(), ..some_question(&mut s, &vec![1; d]) };
            match i {
                0 => asked.x.push(0),
                1 => asked.x[d - 1] = 1001,
                2 => asked.k = 0,
                3 => asked.stages = 64,
                _ => (),
            }
            let lent = if i == 4 { asked.k - 1 } else { ROWS };
            let none = Asked { weights: None, ..asked.clone() };
            let (with, without) = (outcomes(&s.lib, &asked, &vec![1; d], lent), outcomes(&s.lib, &none, &[], lent));
            run.expect(with == without, || format!("{asked:?}: {:?} with ones, {:?} without", with[0].0, without[0].0));
            s.ask(run, &asked, lent);
        }
    }
}

/// All zeros: every leaf that holds records is read, and the tie rule alone decides, wherever the point is.
fn zeros(run: &mut Run, d: usize, points: usize) {
    for kind in KINDS {
        let mut s = some_index(d, kind, points);
        let records = s.model.records();
        let holding = s.model.leaves().iter().filter(|&&p| count(&s.model.b, p) > 0).count() as u32;
        for k in [1, 2, 1 + s.rng.below(64), 64] {
            let asked = Asked { k, ..some_question(&mut s, &vec![0; d]) };
            let sought = records.iter().filter(|r| asked.stages >> r.tag.stage & 1 == 1);
            let mut want: Vec<_> = sought.map(|r| (0, Reverse(r.tag.stamp), r.tag.id)).collect();
            want.sort();
            want.truncate(k);
            gives(run, &mut s, &asked, &want, Some(holding));
        }
    }
}

/// Weights times a number: distances times it, from the same leaves.
fn scaled(run: &mut Run, d: usize) {
    for kind in KINDS {
        let mut s = some_index(d, kind, 150);
        for times in [2, 3, 10, 1000, 1000] {
            let least: Vec<u16> = (0..d).map(|_| s.rng.range((times == 1000) as i64, 1000 / i64::from(times)) as u16).collect();
            let few = some_question(&mut s, &least);
            let many = few.by(&least.iter().map(|w| w * times).collect::<Vec<u16>>());
            for trusted in [false, true] {
                let (mut rows, leaves) = run.answer(&s.lib, &few, trusted);
                rows.iter_mut().for_each(|row| row.distance *= u64::from(times));
                let got = run.answer(&s.lib, &many, trusted);
                run.expect(got == (rows, leaves), || format!("{many:?}: not {times} times what {least:?} give"));
            }
            s.ask(run, &many, ROWS);
        }
    }
}

/// One weight that is not 0, at each place: its coordinate alone counts.
fn alone(run: &mut Run, d: usize) {
    for kind in KINDS {
        let mut s = some_index(d, kind, 120);
        let records = s.model.records();
        for (m, weight) in (0..d).flat_map(|m| [1, 1000].map(|weight| (m, weight))) {
            let mut weights = vec![0; d];
            weights[m] = weight;
            let asked = Asked { stages: ALL_STAGES, ..some_question(&mut s, &weights) };
            let gap = |r: &Record| i64::from(r.slots[m]) - 1000 - i64::from(asked.x[m]);
            let order = |r: &Record| (u64::from(weight) * gap(r).pow(2) as u64, Reverse(r.tag.stamp), r.tag.id);
            let mut want: Vec<_> = records.iter().map(order).collect();
            want.sort();
            want.truncate(asked.k);
            gives(run, &mut s, &asked, &want, None);
        }
    }
}

/// Coordinates and weights turned alike, in another index: the same rows, but for their leaves.
fn turned(run: &mut Run, d: usize) {
    for kind in KINDS {
        let mut s = some_index(d, kind, 100);
        let mut other = Series::new(run, 20, d, kind, Ids::Any, 9);
        let turn = 1 + s.rng.below(d);
        for r in s.model.records() {
            let mut x: Vec<i16> = r.point(d).iter().map(|&c| c as i16).collect();
            x.rotate_left(turn);
            other.act(run, &Act::Insert(r.tag, x));
        }
        for _ in 0..20 {
            let weights = weights(&mut s.rng, d);
            let mut asked = some_question(&mut s, &weights);
            let want: Vec<_> = run.answer(&s.lib, &asked, true).0.iter().map(Row::order).collect();
            asked.x.rotate_left(turn);
            asked.weights.as_mut().unwrap().rotate_left(turn);
            gives(run, &mut other, &asked, &want, None);
        }
    }
}

/// Every set of stages and many rows at equal distance, with stamps of a few: weights that are 0 or few leave nothing else to decide.
fn tied(run: &mut Run, d: usize, points: usize) {
    let model = some_index(d, Kind::Tied, points).model;
    let mut rng = Rng(points as u64);
    let stamps = [0, 1, 16, 1 << 31, u32::MAX];
    let bytes = model.retagged(|tag| Tag { stamp: rng.pick(&stamps), stage: rng.below(6) as u8, ..tag });
    let mut s = Series::over(bytes, Kind::Tied, Ids::Any, 3);
    for stages in 1..=ALL_STAGES {
        let (some, x) = (weights(&mut s.rng, d), s.point());
        let pairs = (0..d).map(|_| s.rng.pick(&[0, 1000])).collect::<Vec<u16>>();
        for weights in [vec![0; d], pairs, some] {
            let k = s.rng.pick(&[1, 2, 7, 30, 64]);
            s.ask(run, &Asked::new(&x, k, stages).by(&weights), ROWS);
        }
    }
}

/// Corners and the points beside them, asked from corners; and the greatest distance of all, by each weight alone and by all.
fn corners(run: &mut Run, d: usize) {
    let mut s = some_index(d, Kind::Edge, 100);
    for i in 0..60 {
        let x: Vec<i16> = (0..d).map(|_| s.rng.pick(&[-1000, 1000])).collect();
        let weights = match i % 3 {
            0 => vec![1000; d],
            1 => (0..d).map(|_| s.rng.pick(&[0, 1, 999, 1000])).collect(),
            _ => weights(&mut s.rng, d),
        };
        let asked = Asked { x, ..some_question(&mut s, &weights) };
        s.ask(run, &asked, ROWS);
    }
    for end in [-1000, 1000] {
        let mut s = Series::new(run, 2, d, Kind::Edge, Ids::Upward, 1);
        s.act(run, &Act::Insert(Tag { id: 1, stage: 5, stamp: 6 }, vec![-end; d]));
        let all = Asked::new(&vec![end; d], 1, ALL_STAGES);
        for (n, m) in (0..=d).flat_map(|n| [(n, 0), (n, d - n)]) {
            let mut weights = vec![0; d];
            weights[m..m + n].fill(1000);
            gives(run, &mut s, &all.by(&weights), &[(4_000_000_000 * n as u64, Reverse(6), 1)], Some(1));
        }
    }
}

/// Points around the centre, asked from corners by great weights: distances and bounds take more than 32 bits, and bounds tell leaves apart.
fn from_afar(run: &mut Run, d: usize) {
    let mut s = Series::new(run, 40, d, Kind::Uniform, Ids::Any, d as u64);
    for _ in 0..200 {
        let (tag, reach) = (s.new_tag(), s.rng.pick(&[3, 60, 400]));
        let x = (0..d).map(|_| s.rng.range(-reach, reach) as i16).collect();
        s.act(run, &Act::Insert(tag, x));
    }
    for i in 0..60 {
        let x: Vec<i16> = (0..d).map(|_| s.rng.range(900, 1000) as i16 * s.rng.pick(&[-1, -1, -1, 1])).collect();
        let weights = match i % 3 {
            0 => vec![1000; d],
            1 => (0..d).map(|_| s.rng.range(600, 1000) as u16).collect(),
            _ => weights(&mut s.rng, d),
        };
        let asked = Asked::new(&x, 1 + s.rng.below(8), ALL_STAGES).by(&weights);
        s.ask(run, &asked, ROWS);
    }
}

/// Numbers of weights other than d: 3, before 4 and 14, whatever the weights are; with a wrong number of coordinates too.
fn numbers(run: &mut Run, d: usize) {
    let mut s = some_index(d, Kind::Uniform, 20);
    for n in [0, d - 1, d + 1, 2 * d, 16, 17, 32, 100].into_iter().filter(|&n| n != d) {
        for weight in [0, 1, 1000, 1001, u16::MAX] {
            refused(run, &mut s, &vec![weight; n], 3);
            let mut first = vec![1; n];
            first.iter_mut().take(1).for_each(|w| *w = weight);
            refused(run, &mut s, &first, 3);
        }
        for (coordinates, weights) in [(n, n), (n, d), (0, n), (0, 0), (0, d), (d + 1, d - 1)] {
            let asked = Asked::new(&vec![7; coordinates], 2, ALL_STAGES).by(&vec![1001; weights]);
            let got = s.ask(run, &asked, ROWS);
            run.expect(got == 3, || format!("{coordinates} coordinates and {weights} weights of {d}: {got}"));
        }
    }
    refused(run, &mut s, &vec![1000; d], 0);
}

/// A weight above 1,000 at each place: 14, after 4 and before all else.
fn heavy(run: &mut Run, d: usize) {
    let mut s = some_index(d, Kind::Uniform, 20);
    for (m, weight) in (0..d).flat_map(|m| [1001, u16::MAX].map(|weight| (m, weight))) {
        let mut weights = weights(&mut s.rng, d);
        weights[m] = 1000;
        refused(run, &mut s, &weights, 0);
        weights[m] = weight;
        refused(run, &mut s, &weights, 14);
    }
    // several at once, and an index that is refused itself
    refused(run, &mut s, &vec![1001; d], 14);
    let mut short = Series::over(s.model.b.clone(), Kind::Uniform, Ids::Any, 1);
    short.model.touch()[TOTAL] ^= 1;
    let bytes = short.model.b.clone();
    short.lib.copy_from_slice(&bytes);
    for weights in [vec![1001; d], vec![1; d + 1]] {
        let asked = Asked::new(&vec![1001; d], 0, 0).by(&weights);
        let mut length = Model::over(bytes[..bytes.len() - 1].to_vec());
        let codes = [
            run.act(&mut short.lib, &mut short.model, &Act::Question(asked.clone(), 0, Tally::default()), true),
            run.act(&mut bytes[..bytes.len() - 1].to_vec(), &mut length, &Act::Question(asked, 0, Tally::default()), true),
        ];
        run.expect(codes == [2, 1], || format!("an index not sound, and one of no length: {codes:?}"));
    }
}

/// Each number of 16 bits as a weight, at each place: up to 1,000 it counts, above it is refused.
fn each_weight(run: &mut Run, d: usize) {
    let mut s = Series::new(run, 2, d, Kind::Uniform, Ids::Upward, 1);
    s.act(run, &Act::Insert(Tag { id: 9, stage: 0, stamp: 0 }, (0..d as i16).map(|m| 30 * m - 1000).collect()));
    let x: Vec<i16> = (0..d as i16).map(|m| 1000 - 7 * m).collect();
    for (m, weight) in (0..d).flat_map(|m| (0..=u16::MAX).map(move |weight| (m, weight))) {
        let mut weights = vec![0; d];
        weights[m] = weight;
        let asked = Asked::new(&x, 1, ALL_STAGES).by(&weights);
        let gap = 2000 - 37 * m as u64;
        let want = if weight > 1000 { (14, lent_rows()[0].distance) } else { (0, u64::from(weight) * gap * gap) };
        for (answer, rows, _) in outcomes(&s.lib, &asked, &weights, 1) {
            run.expect((answer.code, rows[0].distance) == want, || format!("{asked:?}: {answer:?}, {:?}, not {want:?}", rows[0]));
        }
    }
}

/// Without weights what is handed over for them is disregarded.
fn idle(run: &mut Run, d: usize) {
    let mut s = some_index(d, Kind::Clustered, 60);
    for asked in [some_question(&mut s, &[]), Asked::new(&vec![1001; d], 0, 0), Asked::new(&s.point(), 0, ALL_STAGES)] {
        let asked = Asked { weights: None, ..asked };
        let want = outcomes(&s.lib, &asked, &[], ROWS);
        s.ask(run, &asked, ROWS);
        for (n, weight) in [0, 1, d, d + 1, 17, 100].into_iter().flat_map(|n| [0, 1, 2, 1000, 1001, u16::MAX].map(|weight| (n, weight))) {
            let got = outcomes(&s.lib, &asked, &vec![weight; n], ROWS);
            run.expect(got == want, || format!("{asked:?} beside {n} weights of {weight}: {:?}", got[0].0));
        }
    }
}

/// Weights that end where memory does: nothing behind them is read, nothing of them where there are none.
fn last_bytes(run: &mut Run, d: usize) {
    let mut s = some_index(d, Kind::Uniform, 60);
    for n in [0, 1, d - 1, d, d + 1, 17, 100] {
        let weights = vec![3; n];
        let lent = Lent::new(&weights.iter().flat_map(|w: &u16| w.to_le_bytes()).collect::<Vec<u8>>());
        let weighted = some_question(&mut s, &weights);
        for asked in [Asked { weights: None, ..weighted.clone() }, weighted] {
            let want = outcomes(&s.lib, &asked, &weights, ROWS);
            let got = outcomes(&s.lib, &asked, lent.words(), ROWS);
            run.expect(got == want, || format!("{asked:?}: {:?} at the end of memory", got[0].0));
            s.ask(run, &asked, ROWS);
        }
    }
}

/// Leaves left unread, overwritten and exchanged.
fn unread(run: &mut Run, pages: usize, d: usize, points: usize) {
    for kind in KINDS {
        let plan = Plan { pages, d, kind, points, shape: Shape::Any, junk: false };
        let mut s = Series::over(built(&mut Rng(d as u64), plan), kind, Ids::Any, 8);
        for _ in 0..if run.long { 600 } else { 60 } {
            let mut weights = weights(&mut s.rng, d);
            if weights.iter().all(|&w| w == 0) {
                weights[0] = 1;
            }
            let asked = Asked { k: 1 + s.rng.below(6), dates: s.dates(), ..some_question(&mut s, &weights) };
            each_way(run, &mut s, asked);
        }
    }
}

/// Leaves with any 11 bits for a coordinate, so that the index is not sound: without the check the rows are those of a scan, distances exact.
fn beyond(run: &mut Run, d: usize, points: usize) {
    let mut s = some_index(d, Kind::Uniform, points);
    let leaves = s.model.leaves();
    for i in 0..if run.long { 400 } else { 40 } {
        let mut bytes = s.model.b.clone();
        for (p, m) in leaves.iter().flat_map(|&p| (0..d).map(move |m| (p, m))) {
            for slot in 0..count(&bytes, p) {
                let stored = if i == 0 { 2047 } else { s.rng.pick(&[0, 1, 1000, 2000, 2001, 2046, 2047, 2047]) };
                put_u16(page_mut(&mut bytes, p), coordinate_at(m, slot), stored | (s.rng.below(32) as u16) << 11);
            }
        }
        let model = Model::over(bytes);
        let lib = Lent::new(&model.b);
        let weights = if i < 4 { vec![1000; d] } else { weights(&mut s.rng, d) };
        let x: Vec<i16> = (0..d).map(|_| if i < 2 { -1000 } else { s.rng.pick(&[-1000, -1000, 1000, 0, 3]) }).collect();
        // a root leaf is read in any case, several leaves where there are fewer records than rows asked for
        let k = if leaves.len() == 1 { 1 + s.rng.below(17) } else { points + 1 };
        for asked in [Asked::new(&x, k, ALL_STAGES).by(&weights), Asked::new(&x, k, ALL_STAGES)] {
            let mut want = model.candidates(&asked);
            want.truncate(k);
            run.search_gives("beyond", &lib, &asked, &want, leaves.len() as u32);
        }
    }
}

pub fn all(run: &mut Run) {
    run.case("weights: by hand", by_hand);
    run.case("weights: any, every d", |run| (1..=16).for_each(|d| any(run, d, 150)));
    run.case("weights: any, 20,000 points", |run| [1, 2, 8, 16].into_iter().for_each(|d| any(run, d, 20_000)));
    run.case("weights: ones and none", |run| (1..=16).for_each(|d| ones(run, d)));
    run.case("weights: all zero", |run| {
        (1..=16).flat_map(|d| [0, 5, 16, 17, 300].map(|points| (d, points))).for_each(|(d, points)| zeros(run, d, points))
    });
    run.case("weights: times a number, 1,000 among them", |run| (1..=16).for_each(|d| scaled(run, d)));
    run.case("weights: one that is not 0, at each place", |run| (1..=16).for_each(|d| alone(run, d)));
    run.case("weights: turned with the coordinates", |run| (2..=16).for_each(|d| turned(run, d)));
    run.case("weights: every set of stages, rows at equal distance", |run| {
        [(1, 60), (2, 150), (5, 250), (16, 250)].into_iter().for_each(|(d, points)| tied(run, d, points))
    });
    run.case("weights: corners and the greatest distance", |run| (1..=16).for_each(|d| corners(run, d)));
    run.case("weights: from afar", |run| (1..=16).for_each(|d| from_afar(run, d)));
    run.case("weights: a wrong number is 3", |run| (1..=16).for_each(|d| numbers(run, d)));
    run.case("weights: 14 in its place", |run| (1..=16).for_each(|d| heavy(run, d)));
    run.case("weights: each number of 16 bits", |run| [1, 3].into_iter().for_each(|d| each_weight(run, d)));
    run.case("weights: none carried", |run| (1..=16).for_each(|d| idle(run, d)));
    run.case("weights: at the end of memory", |run| (1..=16).for_each(|d| last_bytes(run, d)));
    for (pages, d, points) in [(16, 2, 100), (64, 1, 400), (64, 3, 400), (64, 16, 400), (256, 8, 1800)] {
        run.case(&format!("weights: unread, {pages} pages, d {d}"), |run| unread(run, pages, d, points));
    }
    run.case("weights: coordinates out of range, without the check", |run| {
        (1..=16).flat_map(|d| [1, 9, 16, 40, 63].map(|points| (d, points))).for_each(|(d, points)| beyond(run, d, points))
    });
}
