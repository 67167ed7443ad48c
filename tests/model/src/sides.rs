//! Points on both sides of every axis, and at the centre: the pyramid numbers that the library stores, told from how the points were chosen.

use crate::acts::Act;
use crate::data::{Kind, Rng};
use crate::geometry::Key;
use crate::layout::*;
use crate::run::Run;
use crate::series::{Ids, Series};
use std::cmp::Ordering::*;

/// Points of a pyramid: more than a leaf holds, so that the keys of some stand in an inner page.
const EACH: usize = 17;

/// A point whose first coordinate of greatest magnitude is c, on axis j.
fn leaning(rng: &mut Rng, d: usize, j: usize, c: i64) -> Vec<i16> {
    let h = c.abs();
    let coordinate = |m: usize| match m.cmp(&j) {
        Less => rng.range(1 - h, h - 1),
        Equal => c,
        Greater => rng.range(-h, h),
    };
    (0..d).map(coordinate).map(|c| c as i16).collect()
}

/// Points of all pyramids in turn, each with its number.
fn points(d: usize) -> Vec<(usize, Vec<i16>)> {
    let mut rng = Rng(d as u64);
    let mut all = Vec::new();
    for _ in 0..EACH {
        for j in 0..d {
            let h = rng.pick(&[1, 2, 1000]);
            all.push((j, leaning(&mut rng, d, j, -h)));
            all.push((j + d, leaning(&mut rng, d, j, h)));
        }
        all.push((d, vec![0; d]));
    }
    all
}

/// The first and last keys of the leaves, as the inner pages have them.
fn stored(b: &[u8]) -> Vec<Key> {
    let inner = (1..u32_at(b, FRESH)).filter(|&p| level(b, p) == 1);
    inner.flat_map(|p| entries(b, p)).flat_map(|e| [e.first, e.last]).collect()
}

fn sides(run: &mut Run, d: usize) {
    let points = points(d);
    let mut s = Series::new(run, points.len() / 7 + 8, d, Kind::Uniform, Ids::Upward, d as u64);
    for (id, (_, x)) in (1..).zip(&points) {
        run.trusted = id % 3 == 0;
        let tag = s.tag(id);
        let code = s.act(run, &Act::Insert(tag, x.clone()));
        run.expect(code == 0, || format!("insert of {x:?}: {code}"));
    }
    run.trusted = false;
    s.act(run, &Act::Check);
    let keys = stored(&s.lib);
    for key in &keys {
        let own = points.get((key.id as usize).wrapping_sub(1));
        run.expect(own.is_some_and(|(pyramid, _)| usize::from(key.pyramid) == *pyramid), || format!("{own:?} as {key:?}"));
    }
    for pyramid in 0..2 * d {
        run.expect(keys.iter().any(|key| usize::from(key.pyramid) == pyramid), || format!("no key of pyramid {pyramid} of {d} features"));
    }
}

pub fn all(run: &mut Run) {
    run.case("both sides of every axis", |run| (1..=16).for_each(|d| sides(run, d)));
}
