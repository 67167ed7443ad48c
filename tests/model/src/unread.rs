//! Leaves left unread: whatever their pages hold, the search by itself gives the sound index's rows and count; so does the question after
//! an exchange of their records.

use crate::acts::{Act, ROWS};
use crate::data::{tag, Kind, Rng, KINDS};
use crate::layout::*;
use crate::model::{Asked, Found, Model, Tally};
use crate::run::Run;
use crate::series::Series;
use crate::shapes::grown;

/// Other bytes in the pages of unread leaves, in one of several ways.
pub fn overwrite(rng: &mut Rng, b: &mut [u8], unread: &[u32]) {
    let way = rng.below(6);
    for &p in unread {
        let other = rng.pick(unread);
        match way {
            0 => page_mut(b, p).fill(0),
            1 => page_mut(b, p).fill(255),
            2 => b.copy_within(other as usize * PAGE..(other as usize + 1) * PAGE, p as usize * PAGE),
            3 => page_mut(b, p)[1] = rng.next() as u8,
            4 => page_mut(b, p)[0] = 1 + rng.below(255) as u8,
            _ => {
                let junk = rng.bytes(PAGE);
                page_mut(b, p).copy_from_slice(&junk);
            }
        }
    }
}

/// Other coordinates beside the greatest, any stage and any stamp: the key stays.
fn exchange_record(rng: &mut Rng, r: &mut Record, d: usize) {
    let key = r.key(d);
    let (j, h) = (key.pyramid as usize % d, key.height as i64);
    for i in (0..d).filter(|&i| i != j) {
        let reach = if i < j { h - 1 } else { h };
        r.slots[i] = (1000 + rng.range(-reach, reach)) as u16;
    }
    r.tag = tag(rng, r.tag.id, ALL_STAGES);
    assert_eq!(key, r.key(d));
}

/// Records of the same keys with other coordinates, stages and stamps.
fn exchange(rng: &mut Rng, b: &mut [u8], d: usize, unread: &[u32]) {
    for &p in unread {
        let mut all = records(b, p);
        all.iter_mut().for_each(|r| exchange_record(rng, r, d));
        put_leaf(b, p, &all);
    }
}

pub fn asked_point(s: &mut Series) -> Vec<i16> {
    let mut x = s.point();
    if s.rng.one_in(2) && !s.live.is_empty() {
        let records = s.model.records();
        x = records[s.rng.below(records.len())].point(s.model.d()).iter().map(|&c| c as i16).collect();
    }
    x
}

/// One question, with weights and dates or without.
pub fn once(run: &mut Run, s: &mut Series) {
    let k = 1 + if s.rng.one_in(4) { s.rng.below(64) } else { s.rng.below(5) };
    let asked = Asked { x: asked_point(s), weights: s.weights(), k, stages: s.set(), dates: s.dates() };
    each_way(run, s, asked);
}

/// A question, with the pages of the leaves that it leaves unread as they are, overwritten, and exchanged.
pub fn each_way(run: &mut Run, s: &mut Series, asked: Asked) {
    let Found { rows, leaves, unread } = s.model.search(&asked);
    run.search_gives("sound", &s.lib, &asked, &rows, leaves);
    if unread.is_empty() {
        return;
    }
    run.counts.unread += 2 * unread.len() as u64;
    let mut bytes = s.model.b.clone();
    overwrite(&mut s.rng, &mut bytes, &unread);
    run.search_gives("unread leaves overwritten", &bytes, &asked, &rows, leaves);
    let mut bytes = s.model.b.clone();
    exchange(&mut s.rng, &mut bytes, s.model.d(), &unread);
    run.search_gives("unread leaves exchanged", &bytes, &asked, &rows, leaves);
    let mut after = Model::over(bytes.clone());
    let found = after.search(&asked);
    run.expect(found.rows == rows && found.leaves == leaves, || format!("exchange: the model's answer to {asked:?} changes"));
    run.act(&mut bytes, &mut after, &Act::Question(asked, ROWS, Tally::default()), true);
}

pub fn all(run: &mut Run) {
    let times = if run.long { 1500 } else { 150 };
    run.case("unread: an empty index", |run| {
        let s = grown(run, 3, 2, Kind::Uniform, 0, 0);
        let mut bytes = s.model.b.clone();
        for fill in [0, 1, 16, 255] {
            page_mut(&mut bytes, 1).fill(fill);
            run.search_gives("empty", &bytes, &Asked::new(&[3, -4], 5, ALL_STAGES), &[], 0);
        }
    });
    for (pages, d, points, drop) in
        [(2, 2, 16, 0), (5, 1, 30, 0), (16, 2, 100, 0), (64, 3, 400, 5), (64, 16, 400, 0), (256, 1, 1500, 3), (256, 8, 1800, 4)]
    {
        run.case(&format!("unread: {pages} pages, d {d}"), |run| {
            for kind in KINDS {
                let mut s = grown(run, pages, d, kind, points, drop);
                for _ in 0..times {
                    once(run, &mut s);
                }
            }
        });
    }
}
