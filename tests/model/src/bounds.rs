//! The model's own geometry, against every grid point.

use crate::data::{weights, Rng};
use crate::geometry::{distance, pair, Slices};
use crate::run::Run;

/// Calls f with every point of d coordinates of magnitude at most reach.
fn each_point(d: usize, reach: i64, f: &mut impl FnMut(&[i64])) {
    let mut x = vec![-reach; d];
    loop {
        f(&x);
        let Some(at) = (0..d).rev().find(|&i| x[i] < reach) else { return };
        x[at] += 1;
        x[at + 1..].fill(-reach);
    }
}

/// The slices of one asked point, with weights or without, up to a height, against the grid.
fn slices(run: &mut Run, asked: &[i64], weights: Option<&[u16]>, reach: i64) {
    let d = asked.len();
    let mut least = vec![None; 2 * d * (reach as usize + 1)];
    each_point(d, reach, &mut |x| {
        let (p, h) = pair(x);
        let at: &mut Option<u64> = &mut least[p as usize * (reach as usize + 1) + h as usize];
        let distance = distance(weights, x, asked);
        *at = Some(at.map_or(distance, |old| old.min(distance)));
    });
    let slices = Slices::new(asked, weights);
    for p in 0..2 * d {
        for h in 0..=reach as usize {
            let (got, want) = (slices.pair(p, h), least[p * (reach as usize + 1) + h]);
            run.expect(got == want, || format!("from {asked:?} by {weights:?}, pyramid {p}, height {h}: {got:?}, by the grid {want:?}"));
        }
    }
}

fn of_the_specification(run: &mut Run) {
    for (x, want) in [([400, 400], (2, 400)), ([0, 0], (2, 0)), ([0, -1], (1, 1)), ([0, 1], (3, 1)), ([-400, 400], (0, 400))] {
        run.expect(pair(&x) == want, || format!("pair of {x:?}: {:?}", pair(&x)));
    }
    let slices = Slices::new(&[500, 0], None);
    for (p, low, high, want) in [(3, 1, 1000, 125_501), (3, 1, 100, 170_801), (0, 1, 1000, 251_001), (2, 600, 700, 10_000)] {
        let got = slices.bound((p, low), (p, high));
        run.expect(got == want, || format!("pyramid {p}, heights {low}..{high}: {got}"));
    }
}

fn by_the_grid(run: &mut Run) {
    let mut rng = Rng(17);
    for (d, reach, times) in [(1, 1000, 20), (2, 1000, 3), (3, 14, 12), (4, 6, 12), (6, 2, 12)] {
        for i in 0..times {
            let far = if i % 2 == 0 { reach } else { 1000 };
            let asked: Vec<i64> = (0..d).map(|_| rng.range(-far, far)).collect();
            slices(run, &asked, None, reach);
            slices(run, &asked, Some(&weights(&mut rng, d)), reach);
        }
    }
}

pub fn all(run: &mut Run) {
    run.case("pairs and bounds of the specification", of_the_specification);
    run.case("the model's bounds by every grid point", by_the_grid);
}
