//! Damaged indexes: the check against the judge, refusals that change nothing, and functions without the check that end.

use crate::acts::{lent_rows, Act};
use crate::built::{built, Plan, Shape};
use crate::calendar::{Date, Dates};
use crate::data::{Kind, Rng};
use crate::ffi;
use crate::layout::*;
use crate::lent::Lent;
use crate::model::{Asked, Model, Tally};
use crate::run::Run;
use crate::series::{Ids, Series};
use crate::shapes::{grown, shrunk};
use std::time::Instant;

/// The acts that a damaged index is given: valid ones for the index before.
struct Given {
    acts: Vec<Act>,
    new: Tag,
    old: Tag,
    x: Vec<i16>,
    weights: Vec<u16>,
}

/// Some of the stages.
const SOME: u8 = 0b01_0110;

/// Some of the days: about half of all stamps lie in them.
const DAYS: Dates = Dates { first: Date::new(2008, 7, 3), last: Date::new(2077, 2, 28) };

fn given(s: &mut Series) -> Given {
    let x = s.point();
    let old = s.live.first().copied().unwrap_or(5);
    let new = (1..).find(|id| !s.live.contains(id)).map(Tag::of).unwrap();
    let tally = Tally { questions: 3, leaves: u32::MAX - 1 };
    let weights: Vec<u16> = (0..x.len()).map(|m| [1000, 0, 999, 1, 37][m % 5]).collect();
    let acts = vec![
        Act::Check,
        Act::Insert(new, x.clone()),
        Act::Delete(old),
        Act::Question(Asked::new(&x, 5, ALL_STAGES), 7, tally),
        Act::Question(Asked::new(&x, 5, SOME).by(&weights).within(DAYS), 7, tally),
        Act::Insert(Tag { stage: 6, ..Tag::of(0) }, vec![]),
        Act::Question(Asked::new(&[], 0, 0).by(&[1001]).within(Dates { first: DAYS.last, last: DAYS.first }), 0, tally),
    ];
    Given { acts, new, old: Tag::of(old), x, weights }
}

/// Counts a damaged index; whether it is still sound, by the judge.
fn counted(run: &mut Run, model: &mut Model) -> bool {
    let fails = model.fails();
    run.counts.damaged += 1;
    run.counts.unsound += !fails.is_empty() as u64;
    run.counts.header += fails.contains(&0) as u64;
    fails.is_empty()
}

/// All acts on a damaged index, held in both.
fn judged(run: &mut Run, lib: &mut Lent, model: &mut Model, given: &Given) {
    if counted(run, model) {
        // A byte that no rule names: the check, and the acts in turn.
        run.act(lib, model, &Act::Check, true);
        let turn = run.counts.damaged as usize % given.acts.len();
        carried_out(run, lib, model, &given.acts[turn]);
    } else {
        for act in &given.acts {
            run.act(lib, model, act, true);
        }
    }
    unchecked(run, lib, &model.b, given);
    run.expect(lib.intact(), || "bytes before the index changed".into());
}

/// The check of a damaged index, and one act more: they take turns.
fn glanced(run: &mut Run, lib: &mut Lent, model: &mut Model, given: &Given) {
    let sound = counted(run, model);
    run.act(lib, model, &Act::Check, true);
    let turn = run.counts.damaged as usize % given.acts.len();
    if turn == 0 {
        unchecked(run, lib, &model.b, given);
    } else if sound {
        carried_out(run, lib, model, &given.acts[turn]);
    } else {
        run.act(lib, model, &given.acts[turn], true);
    }
    run.expect(lib.intact(), || "bytes before the index changed".into());
}

/// An act on a sound index, which is afterwards as it was.
fn carried_out(run: &mut Run, lib: &mut Lent, model: &mut Model, act: &Act) {
    let bytes = model.b.clone();
    run.act(lib, model, act, false);
    model.touch().copy_from_slice(&bytes);
    lib.copy_from_slice(&bytes);
}

/// The acts without the check: they end soon, the question changes nothing, and a level above 4 is refused with 2.
fn unchecked(run: &mut Run, lib: &mut Lent, bytes: &[u8], given: &Given) {
    let start = Instant::now();
    let high = bytes[LEVEL] > 4;
    run.counts.high += high as u64;
    for asked in [Asked::new(&given.x, 1, ALL_STAGES), Asked::new(&given.x, 64, SOME).by(&given.weights).within(DAYS)] {
        let (mut rows, k) = (lent_rows(), asked.k);
        let got = ffi::search(lib, &asked, &mut rows, k);
        run.counts.searches += 1;
        run.expect(got.rows <= k && rows[got.rows..] == lent_rows()[got.rows..], || {
            format!("search: {got:?}, or rows past those returned")
        });
        run.expect((got.code == 2) == high && (got.code == 0 || got.rows == 0 && got.leaves == 0), || {
            format!("search at level {}: {got:?}", bytes[LEVEL])
        });
    }
    run.equal("search", lib, bytes);
    let codes = [
        ffi::insert(lib, given.new, &given.x, true),
        ffi::vouched_insert(lib, given.old, &given.x),
        ffi::vouched_delete(lib, given.new.id, &given.x),
        ffi::delete(lib, given.old.id, true),
        ffi::delete(lib, given.new.id, true),
    ];
    run.expect((codes[0] == 2) == high, || format!("insert at level {}: {}", bytes[LEVEL], codes[0]));
    if high {
        run.expect(codes == [2; 5], || format!("at level {}: {codes:?}", bytes[LEVEL]));
        run.equal("refused for the level", lib, bytes);
    }
    lib.copy_from_slice(bytes);
    run.counts.longest = run.counts.longest.max(start.elapsed());
}

/// The values that a byte is given all the acts at; at every other value they take turns.
fn thorough(old: u8) -> [u8; 5] {
    [old ^ 1, old ^ 0x80, 0, 255, old.wrapping_add(1)]
}

/// Every byte of the used pages, and of the first never used, to every other value, or to those of `thorough` alone. The bytes are shared
/// out among threads, each with an index of its own.
fn each_byte(run: &mut Run, mut s: Series, all: bool) {
    let given = given(&mut s);
    let sound = &s.model.b;
    let used = (u32_at(sound, FRESH) as usize + 1) * PAGE;
    let threads = std::thread::available_parallelism().map_or(1, |n| n.get());
    let shares = (0..threads).map(|t| (t, run.fork())).collect::<Vec<_>>();
    let given = &given;
    let done = std::thread::scope(|scope| {
        let start = |(t, mut run): (usize, Run)| {
            let places = (t..used.min(sound.len())).step_by(threads);
            scope.spawn(move || {
                each_value(&mut run, sound, places, all, given);
                run
            })
        };
        let running = shares.into_iter().map(start).collect::<Vec<_>>();
        running.into_iter().map(|r| r.join().expect("no share panics")).collect::<Vec<_>>()
    });
    done.into_iter().for_each(|share| run.join(share));
}

/// The bytes at some places, one at a time, to every other value.
fn each_value(run: &mut Run, sound: &[u8], places: impl Iterator<Item = usize>, all: bool, given: &Given) {
    let mut lib = Lent::new(sound);
    let mut model = Model::over(sound.to_vec());
    for at in places {
        let old = sound[at];
        for v in (0..=255).filter(|&v| v != old) {
            let thorough = thorough(old).contains(&v);
            if !thorough && !all {
                continue;
            }
            model.touch()[at] = v;
            lib[at] = v;
            if thorough {
                judged(run, &mut lib, &mut model, given);
            } else {
                glanced(run, &mut lib, &mut model, given);
            }
        }
        model.touch()[at] = old;
        lib[at] = old;
    }
    run.equal("restored", &lib, sound);
}

/// A change somewhere in an index, of the kinds that a rule speaks of.
fn strike(rng: &mut Rng, b: &mut [u8]) {
    let n = b.len() / PAGE;
    let used = (u32_at(b, FRESH) as usize).clamp(2, n);
    let p = rng.range(1, used as i64 - 1) as usize * PAGE;
    let q = rng.range(1, used as i64 - 1) as usize * PAGE;
    let slot = rng.below(16);
    match rng.below(18) {
        0 => b[rng.pick(&[SIZE, FEATURES, ROOT, LEVEL, TOTAL, FREED, FRESH, FREED, FRESH, ROOT])] = rng.below(n + 2) as u8,
        1 => b[p] = rng.below(4) as u8,
        2 => b[p + 1] = rng.pick(&[0, 1, 7, 8, 9, 15, 16, 17, 200, 255]),
        3 => put_u32(b, p + 4 + 20 * slot, rng.below(n + 2) as u32),
        4 => b[p + 4 + 20 * slot + rng.below(20)] ^= 1 << rng.below(8),
        5 => b[p + rng.pick(&cells(slot))] ^= 1 << rng.below(8),
        6 => b.copy_within(q..q + PAGE, p),
        7 => put_u32(b, p + 4, rng.below(n) as u32),
        8 => put_u32(b, p + identifier_at(slot), u32_at(b, q + identifier_at(rng.below(16)))),
        9 => b[p + rng.below(PAGE)] = rng.next() as u8,
        10 => cells(0).into_iter().zip(cells(slot)).for_each(|(from, to)| b[p + to] = b[q + from]),
        11 => b.copy_within(q + 4..q + 24, p + 4 + 20 * slot),
        12 => put_u32(b, TOTAL, u32_at(b, TOTAL).wrapping_add(rng.pick(&[1, 8, u32::MAX]))),
        13 => put_u32(b, rng.pick(&[FREED, FRESH, ROOT]), rng.below(n + 1) as u32),
        14 => {
            let junk = rng.bytes(PAGE);
            b[p..p + PAGE].copy_from_slice(&junk);
        }
        15 => put_u16(b, p + coordinate_at(rng.below(16), slot), rng.pick(&[0, 1999, 2000, 2001, 2047, 2048, 4048, 4049, u16::MAX])),
        16 => b[p + stage_at(slot)] = rng.pick(&[0, 1, 4, 5, 6, 7, 8, 63, 128, 255]),
        _ => b[rng.below(used * PAGE)] = rng.next() as u8,
    }
}

fn struck(run: &mut Run, mut s: Series, times: usize, seed: u64) {
    let given = given(&mut s);
    let mut rng = Rng(seed);
    for _ in 0..times {
        let mut bytes = s.model.b.clone();
        for _ in 0..rng.pick(&[1, 1, 1, 2, 3, 8]) {
            strike(&mut rng, &mut bytes);
        }
        s.lib.copy_from_slice(&bytes);
        judged(run, &mut s.lib, &mut Model::over(bytes), &given);
    }
}

/// Some meaning for bytes of none: a header in part, pages of a tree's levels and counts, and entries that lead to pages.
fn mean(rng: &mut Rng, bytes: &mut [u8], header: &[u8]) {
    let pages = bytes.len() / PAGE;
    bytes[..header.len()].copy_from_slice(header);
    put_u32(bytes, FRESH, rng.range(1, pages as i64) as u32);
    put_u32(bytes, TOTAL, rng.below(200) as u32);
    bytes[LEVEL] = rng.below(4) as u8;
    for page in bytes.chunks_mut(PAGE).skip(1) {
        page[0] = rng.below(4) as u8;
        page[1] = 8 + rng.below(9) as u8;
        (0..16).for_each(|e| put_u32(page, 4 + 20 * e, rng.below(pages) as u32));
    }
}

/// Bytes of no meaning at all, and of some.
fn meaningless(run: &mut Run, pages: usize, times: usize, seed: u64) {
    let mut rng = Rng(seed);
    let mut s = Series::new(run, pages, 2, Kind::Uniform, Ids::Any, seed);
    let given = given(&mut s);
    for i in 0..times {
        let mut bytes = rng.bytes(pages * PAGE);
        if i % 2 == 1 {
            mean(&mut rng, &mut bytes, &s.model.b[..32]);
        }
        s.lib.copy_from_slice(&bytes);
        judged(run, &mut s.lib, &mut Model::over(bytes), &given);
    }
}

fn each_byte_of(run: &mut Run, pages: usize, d: usize, points: usize) {
    let s = grown(run, pages, d, Kind::Uniform, points, 0);
    each_byte(run, s, true);
}

fn all_bytes(run: &mut Run) {
    run.case("each byte: empty index of 2 pages", |run| each_byte_of(run, 2, 1, 0));
    run.case("each byte: one leaf of 5, d 2", |run| each_byte_of(run, 3, 2, 5));
    run.case("each byte: one full leaf, d 16", |run| each_byte_of(run, 2, 16, 16));
    run.case("each byte: two leaves, d 1", |run| each_byte_of(run, 5, 1, 20));
    run.case("each byte: two leaves, d 16", |run| each_byte_of(run, 4, 16, 20));
    run.case("each byte: two levels, with freed pages, d 3", |run| {
        let s = shrunk(run, 12, 3, Kind::Uniform, 90, 36);
        assert!(u32_at(&s.model.b, FREED) != 0);
        each_byte(run, s, true);
    });
    run.case("each byte: one leaf, all other pages freed, d 2", |run| {
        let s = shrunk(run, 6, 2, Kind::Clustered, 40, 9);
        each_byte(run, s, true);
    });
    run.case("each byte: three levels, d 2", |run| {
        let s = grown(run, 40, 2, Kind::Uniform, 190, 0);
        assert_eq!(2, s.model.b[LEVEL]);
        let all = run.long;
        each_byte(run, s, all);
    });
}

fn all_struck(run: &mut Run, times: usize) {
    for (pages, d, points, drop) in [(16, 2, 60, 3), (40, 1, 200, 0), (64, 3, 350, 4), (64, 16, 350, 2), (256, 8, 1800, 5)] {
        run.case(&format!("struck: {pages} pages, d {d}"), |run| {
            let s = grown(run, pages, d, Kind::Uniform, points, drop);
            struck(run, s, if pages > 64 { times / 4 } else { times }, pages as u64);
        });
    }
    run.case("struck: freed pages", |run| {
        let s = shrunk(run, 64, 2, Kind::Uniform, 400, 90);
        struck(run, s, times, 9);
    });
    run.case("struck: 16,384 pages, 60,000 points, d 8", |run| {
        let plan = Plan { pages: MOST_PAGES, d: 8, kind: Kind::Uniform, points: 60_000, shape: Shape::Any, junk: false };
        let s = Series::over(built(&mut Rng(10), plan), plan.kind, Ids::Any, 10);
        struck(run, s, if run.long { 400 } else { 20 }, 10);
    });
}

pub fn all(run: &mut Run) {
    let times = if run.long { 60_000 } else { 8_000 };
    all_bytes(run);
    all_struck(run, times);
    for pages in [2, 3, 5, 24, 200, 1000, MOST_PAGES] {
        run.case(&format!("bytes of no meaning, {pages} pages"), |run| {
            meaningless(run, pages, (times / 4).min(200_000 / pages), pages as u64)
        });
    }
}
